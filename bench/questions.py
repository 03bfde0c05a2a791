#!/usr/bin/env python3
"""Plays the sessions of examples/realistic: how many questions find each fault, with each strategy.

bench/questions.py [--write] [PROGRAM]

The replies come from the right version of each program, which apd runs: an atom is true where it has an answer, each variable
being a name that nothing else has; the values of a body are those of its first answer; which call is below which says a
predicate below/2. What the right version is stands in mended.txt. A session is begun by the lines that are typed in README.md
up to the first question. It ends with 1 where a session doesn't find the fault that mended.txt has, isn't as README.md shows
it, or takes other numbers of questions than docs/PERFORMANCE.md has; with --write it puts what is printed into README.md.
PROGRAM is crates/apd/out/apd, where none is named.
"""
import re
import subprocess
import sys
import tempfile
from pathlib import Path

TOP = Path(__file__).resolve().parent.parent
FOLDER = TOP / "examples" / "realistic"
STRATEGIES = ["divide", "top", "single"]
# The lines behind which apd waits for a line.
WAITS = re.compile(r"end: |question |bug: |no bug: |unanswered: |E\d+ ")
VARIABLE = re.compile(r"\b_(\d+)\b")


class Session:
    """A conversation with apd; `shown` has what was printed and, behind `> `, what was typed."""

    def __init__(self, program, words):
        pipes = {"stdin": subprocess.PIPE, "stdout": subprocess.PIPE}
        self.process = subprocess.Popen([program, *words], cwd=TOP, text=True, bufsize=1, **pipes)
        self.shown = []
        self.read(re.compile("loaded: "))

    def read(self, last=WAITS):
        """The lines up to one of the last kind."""
        lines = []
        while not (lines and last.match(lines[-1])):
            line = self.process.stdout.readline()
            if not line:
                sys.exit("questions: apd ended: " + "; ".join(self.shown))
            lines.append(line.rstrip("\n"))
            self.shown.append(lines[-1])
        return lines

    def type(self, line):
        """What is printed to a line."""
        self.shown.append(f"> {line}")
        self.process.stdin.write(line + "\n")
        self.process.stdin.flush()
        return self.read()

    def close(self):
        self.process.stdin.close()
        self.process.wait()


class Right:
    """The right version of a program, which is asked for replies."""

    def __init__(self, program, text):
        self.file = tempfile.NamedTemporaryFile("w", suffix=".pl", encoding="utf-8")
        self.file.write(text)
        self.file.flush()
        self.session = Session(program, ["--answers", "1", "--budget", "1000000", self.file.name])

    def answer(self, goals):
        """The line of the first answer to the goals, or None."""
        *printed, end = self.session.type(f"?- {goals}.")
        if not re.match("end: (exhausted|answer limit)", end):
            sys.exit(f"questions: {goals} has no reply: {end}")
        return next((line for line in printed if line.startswith("answer")), None)

    def reply(self, question):
        kind, what = re.match(r"question \d+: (\w+)\? (.*?)(?: \[\d+ suspects\])?$", question).groups()
        if kind == "covers":
            body = VARIABLE.sub(r"V\1", what.split(" :- ", 1)[1])
            answer = self.answer(body)
            return f"yes([{','.join(values(answer))}])." if answer else "no."
        what = VARIABLE.sub(r"'variable \1'", what)
        return "yes." if self.answer(f"below({what})" if kind == "below" else what) else "no."


def values(answer):
    """The values that an answer gives the variables V1, V2, .."""
    parts = re.split(r"(?:^answer 1:|,) V\d+ = ", answer)[1:]
    return [VARIABLE.sub(r"'variable \1'", part) for part in parts]


def mended():
    """For each program its faulty clause, the one in its place, and what says which call is below which."""
    found = {}
    for line in (FOLDER / "mended.txt").read_text(encoding="utf-8").splitlines():
        if line.endswith(".pl"):
            found[line] = {"-": [], ">": [], "+": []}
            clauses = found[line]
        elif line and line[0] in "->+":
            clauses[line[0]].append(line[2:])
    return found


class Example:
    """A program, its session in README.md, and its fault."""

    def __init__(self, name, block, clauses):
        self.name, self.block = name, block
        self.text = (FOLDER / name).read_text(encoding="utf-8")
        (self.fault,) = clauses["-"]
        if self.text.count(self.fault + "\n") != 1:
            sys.exit(f"questions: {name} has not just one clause {self.fault}")
        self.right = self.text.replace(self.fault + "\n", "\n".join(clauses[">"] + clauses["+"]) + "\n")
        lines = block.splitlines()
        self.words = lines[0].split()[2:]
        first = next((at for at, line in enumerate(lines) if line.startswith("question")), len(lines))
        self.typed = [line[2:] for line in lines[:first] if line.startswith("> ")]

    def names_fault(self, finding):
        """Whether a finding is the fault: its line, or an atom of its predicate."""
        at = re.match(r"bug: (?:wrong instance of|call not below its caller:) clause \d+, line (\d+)", finding)
        if at:
            return self.text.splitlines()[int(at[1]) - 1] == self.fault
        uncovered = re.match(r"bug: uncovered goal: (\w+)", finding)
        return bool(uncovered) and self.fault.startswith(uncovered[1] + "(")

    def play(self, program, strategy):
        """The session with this strategy: what is shown, the questions, and the suspects of the first, where it counts them."""
        words = self.words if strategy == "divide" else ["--strategy", strategy, *self.words]
        session, right = Session(program, words), Right(program, self.right)
        for line in self.typed:
            last = session.type(line)[-1]
        while last.startswith("question"):
            last = session.type(right.reply(last))[-1]
        session.close()
        right.session.close()
        if not self.names_fault(last):
            sys.exit(f"questions: {self.name} by {strategy}: {last}")
        questions = [line for line in session.shown if line.startswith("question")]
        suspects = re.search(r"\[(\d+) suspects\]", questions[0]) if questions else None
        return session.shown, len(questions), suspects[1] if suspects else "-"


SYMPTOMS = {"wrong": "wrong", "missing": "missing", "loop": "no end"}


def row(example, played):
    """The row of PERFORMANCE's table: the symptom, the ports of the run, the suspects and the questions by each strategy."""
    shown, _, suspects = played["divide"]
    ports = next(re.search(r"(\d+) ports", line)[1] for line in shown if line.startswith("end:"))
    symptom = SYMPTOMS[re.match(r"\w+", example.typed[-1])[0]]
    counts = " | ".join(str(played[strategy][1]) for strategy in STRATEGIES)
    return f"| {example.name[:-3]} | {symptom} | {ports} | {suspects} | {counts} |"


def main():
    words = [word for word in sys.argv[1:] if word != "--write"]
    program = Path(words[0]).resolve() if words else TOP / "crates/apd/out/apd"
    readme = FOLDER / "README.md"
    page = readme.read_text(encoding="utf-8")
    rows = (TOP / "docs/PERFORMANCE.md").read_text(encoding="utf-8").splitlines()
    clauses = mended()
    faults = []
    for block in re.findall(r"(?m)^    \$ .*\n(?:    .*\n)*", page):
        lines = re.sub("(?m)^    ", "", block)
        name = Path(lines.split("\n")[0].split()[-1]).name
        example = Example(name, lines, clauses.pop(name))
        played = {strategy: example.play(program, strategy) for strategy in STRATEGIES}
        text = "".join(f"    {line}\n" for line in [lines.split("\n")[0], *played["divide"][0]])
        if text != block:
            page = page.replace(block, text)
            faults.append(f"README.md doesn't show the session of {name} as it is")
        print(row(example, played))
        if row(example, played) not in rows:
            faults.append(f"docs/PERFORMANCE.md hasn't this row of {name}")
    if "--write" in sys.argv:
        readme.write_text(page, encoding="utf-8")
    if clauses:
        faults.append("README.md has no session of " + ", ".join(clauses))
    for fault in faults:
        print(f"questions: {fault}")
    sys.exit(bool(faults))


main()
