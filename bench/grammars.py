#!/usr/bin/env python3
"""Compares the parses of generated grammars with those of SWI-Prolog's `phrase/3` (`swipl`).

    bench/grammars.py [PROGRAM [COUNT [SEED]]]

PROGRAM is the built apd (crates/apd/out/apd where it is left out), COUNT how many grammars are generated (200), SEED the
number that they are drawn by (1). Each grammar is a file that both load; each sentence is asked of both for all parses:
the value of the start's argument and the rest of the sentence, in their order. SWI-Prolog runs with its occurs check. Each
difference is printed with its grammar; the last line says how many sentences and parses were compared. The status is 1
where a parse differs, or where SWI-Prolog loads a grammar that apd refuses. A grammar that SWI-Prolog doesn't load isn't compared.
"""
import random
import subprocess
import sys
import tempfile
from pathlib import Path

SENTENCES = 6
# the ports that a run may take; a longer one isn't compared
BUDGET = "20000"
# 97 is the code of a: lists and texts in double quotes have it both
TERMINALS = ["a", "b", "c", "97"]
# goals in braces; some of them have a clause in each file
GOALS = ["true", "fail", "X = a", "X = f(Y)", "g(X)", "g(X), X = Y", "N is 1 + 1, N > 1", "Y = X"]
FACTS = "g(a).\ng(b).\ng(f(_)).\n"
ASKED = """
:- set_prolog_flag(occurs_check, true).
:- set_prolog_flag(double_quotes, codes).
:- style_check(-singleton).
:- style_check(-discontiguous).
shown(X, R) :-
    term_variables(X + R, Vs), named(Vs, 1, Names),
    write_term(X, [quoted(true), variable_names(Names)]), write(' '),
    write_term(R, [quoted(true), variable_names(Names)]), nl.
named([], _, []).
named([V|Vs], N, [Name = V|Names]) :- atom_concat('_', N, Name), M is N + 1, named(Vs, M, Names).
asked(S) :- write('sentence'), nl, forall(phrase(n0(X), S, R), shown(X, R)).
"""


class Grammar:
    """Nonterminals n0 to n4 with an argument each. What may stand first in a rule for one is a greater one, so every
    parse of a sentence comes to an end."""

    def __init__(self, draw):
        self.draw = draw
        self.rules = {k: [self.rule(k) for _ in range(draw.randint(1, 3))] for k in range(5)}

    def terminals(self):
        if self.draw.random() < 0.2:
            return '"' + "a" * self.draw.randint(0, 2) + '"'
        return "[" + ",".join(self.draw.choice(TERMINALS) for _ in range(self.draw.randint(0, 2))) + "]"

    def argument(self):
        return self.draw.choice(["X", "Y", "a", "f(X)", "f(Y,b)", "_"])

    def part(self, k, moved):
        kind = self.draw.random()
        if kind < 0.4:
            return self.terminals()
        if kind < 0.55:
            return "{" + self.draw.choice(GOALS) + "}"
        if kind < 0.62:
            return "{" + self.draw.choice(GOALS) + ", " + self.draw.choice(GOALS) + "}"
        if kind < 0.7:
            return "[X]" if self.draw.random() < 0.5 else "[X,Y]"
        first = 0 if moved else k + 1
        return "n%d(%s)" % (self.draw.randint(first, 4), self.argument()) if first <= 4 else self.terminals()

    def rule(self, k):
        parts, moved = [], False
        for _ in range(self.draw.randint(1, 4)):
            part = self.part(k, moved)
            parts.append(part)
            moved = moved or part[0] in '["' and part not in ("[]", '""')
        if len(parts) > 2 and self.draw.random() < 0.3:
            parts = [parts[0], "(" + ", ".join(parts[1:]) + ")"]
        return "n%d(%s) --> %s.\n" % (k, self.argument(), ", ".join(parts))

    def text(self):
        return "".join(rule for rules in self.rules.values() for rule in rules) + FACTS

    def sentence(self):
        return "[" + ",".join(self.draw.choice(TERMINALS) for _ in range(self.draw.randint(0, 5))) + "]"


def of_apd(program, folder, sentences):
    """The parses of each sentence; None where a run didn't come to its end, and no list where the file is refused."""
    asked = "".join("?- n0(X, %s, R).\n" % sentence for sentence in sentences)
    ran = subprocess.run([program, "--budget", BUDGET, "grammar.pl"], cwd=folder, input=asked, capture_output=True,
                         text=True, timeout=300)
    if ran.returncode != 0:
        return None
    found = []
    for line in ran.stdout.split("\n"):
        if line.startswith("run: "):
            found.append([])
        elif line.startswith("answer "):
            value, rest = line.split(": X = ", 1)[1].split(", R = ")
            found[-1].append(value + " " + rest)
        elif line.startswith("end: ") and not line.startswith("end: exhausted"):
            found[-1] = None
    return found


def of_swi(folder, sentences):
    """The same of SWI-Prolog; None where it reports an error."""
    goals = "".join("asked(%s), " % sentence for sentence in sentences)
    ran = subprocess.run(["swipl", "-q", "-f", "asked.pl", "-l", "grammar.pl", "-g", goals + "halt", "-t", "halt(3)"],
                         cwd=folder, capture_output=True, text=True, timeout=300)
    if ran.returncode != 0 or "rror" in ran.stderr:
        return None, ran.stderr
    found = []
    for line in ran.stdout.split("\n")[:-1]:
        if line == "sentence":
            found.append([])
        else:
            found[-1].append(line)
    return found, ""


def main():
    top = Path(__file__).resolve().parent.parent
    program = Path(sys.argv[1]).resolve() if len(sys.argv) > 1 else top / "crates/apd/out/apd"
    count = int(sys.argv[2]) if len(sys.argv) > 2 else 200
    draw = random.Random(int(sys.argv[3]) if len(sys.argv) > 3 else 1)
    compared = parses = refused = unended = wrong = 0
    for number in range(1, count + 1):
        grammar = Grammar(draw)
        sentences = [grammar.sentence() for _ in range(SENTENCES)]
        with tempfile.TemporaryDirectory(prefix="apd-grammars-") as folder:
            Path(folder, "grammar.pl").write_text(grammar.text())
            Path(folder, "asked.pl").write_text(ASKED)
            given = of_apd(program, folder, sentences)
            ended = [k for k in range(SENTENCES) if given is None or given[k] is not None]
            wanted, why = of_swi(folder, [sentences[k] for k in ended])
        if wanted is None:
            refused += 1
            print("grammar %d: SWI-Prolog: %s" % (number, why.strip().split("\n")[0]))
            continue
        if given is None:
            wrong += 1
            print("grammar %d: refused\n%s" % (number, grammar.text()))
            continue
        unended += SENTENCES - len(ended)
        for k, theirs in zip(ended, wanted, strict=True):
            compared += 1
            parses += len(theirs)
            if given[k] != theirs:
                wrong += 1
                print("grammar %d, %s: %s and not %s\n%s" % (number, sentences[k], given[k], theirs, grammar.text()))
    print("%d grammars, %d sentences, %d parses: %d differ; %d grammars and %d runs not compared"
          % (count, compared, parses, wrong, refused, unended))
    return 1 if wrong else 0


if __name__ == "__main__":
    sys.exit(main())
