"""A checked log, by its rules in plain words: each line that is checked is the text of something that may be said, each run that
is made again ends so, and each finding follows from the replies before it."""
from __future__ import annotations

import re
from typing import Iterator, List, NamedTuple, Optional, Tuple, Union

from .reading import Operators, Reader, Unreadable, Writer, read
from .replies import Judge, Known, Question, Reply
from .terms import Clause, Fun, Term, canonical, canonical_one, elements, is_goal, is_user_atom
from .tracing import Record, Run

MOST = 1_000_000
NUMBER = r"(0|[1-9][0-9]*)"
ERRORS = "Unbound|NotEvaluable|Overflow|ZeroDivisor|Size"
END = re.compile(rf"end: (exhausted|budget|answer limit|error (?:{ERRORS}) in box {NUMBER}), {NUMBER} ports, {NUMBER} answers")
ASKED = re.compile(rf"question {NUMBER}: (true|covers|below)\? (.*)")
COUNTED = re.compile(rf"(.*) \[{NUMBER} (?:suspects|left)\]")
BOXED = rf"(.*) \(box {NUMBER}\)"
CALL = re.compile(rf"bug: call not below its caller: clause {NUMBER}, line {NUMBER}, goal {NUMBER}: {BOXED} called by {BOXED}")
WRONG = re.compile(rf"bug: wrong instance of clause {NUMBER}, line {NUMBER}: (.*)")
UNCOVERED = re.compile(r"bug: uncovered goal: (.*)")
CANDIDATE = re.compile(rf"candidate: clause {NUMBER}: (.*)")
DESCENT = re.compile(rf"no bug: all {NUMBER} calls descend")


class Bad(Exception):
    """A line isn't good, for this reason."""


class Holds(NamedTuple):
    findings: int

    def text(self) -> str:
        return f"check: {self.findings} findings hold"


class Fails(NamedTuple):
    line: int
    why: str

    def text(self) -> str:
        return f"check fails: line {self.line}: {self.why}"


class Program(NamedTuple):
    """The clauses of a text, and the operators that it leaves."""

    clauses: List[Clause]
    operators: Operators


def conjuncts(term: Term) -> Iterator[Term]:
    while isinstance(term, Fun) and term.name == "," and len(term.args) == 2:
        yield from conjuncts(term.args[0])
        term = term.args[1]
    yield term


def clause_of(term: Term) -> Tuple[Term, Tuple[Term, ...]]:
    """The head and the atoms of a clause's term, of which the body is taken apart to the right alone."""
    if not (isinstance(term, Fun) and term.name == ":-" and len(term.args) == 2):
        return term, ()
    goals, rest = [], term.args[1]
    while isinstance(rest, Fun) and rest.name == "," and len(rest.args) == 2:
        goals.append(rest.args[0])
        rest = rest.args[1]
    return term.args[0], (*goals, rest)


def load(text: str) -> Program:
    """The program of a text without faults: facts, rules and directives that define operators, each in a line of its own."""
    program = Program([], Operators())
    for number, line in enumerate(text.split("\n"), 1):
        reader = Reader(program.operators, line)
        while not reader.is_over():
            term = reader.clause()
            if isinstance(term, Fun) and term.name == ":-" and len(term.args) == 1:
                priority, kind, name = term.args[0].args
                program.operators.define(priority, kind.name, name.name)
            else:
                head, body = clause_of(term)
                program.clauses.append(Clause(head, tuple(goal for part in body for goal in conjuncts(part)), number))
    return program


def state(known: Known, term: Fun) -> None:
    """Adds what a statement of an oracle file says."""
    if term.name == "trusted":
        name, arity = term.args[0].args
        known.trusted.add((name.name, arity))
        return
    *asked, said = term.args
    reply = elements(said.args[0]) if said.args else said.name
    if term.name == "covers":
        head, body = clause_of(asked[0])
        asked = [head, *body]
    known.add(Question(term.name, tuple(asked)), reply)


def load_known(program: Program, text: str) -> Known:
    known, reader = Known(), Reader(program.operators, text)
    while not reader.is_over():
        term = reader.clause()
        if term.name != "form":
            state(known, term)
    return known


class Log:
    """The lines of a log, taken in turn."""

    def __init__(self, program: Program, known: Known, text: str) -> None:
        self.program, self.known, self.writer = program, known, Writer(program.operators)
        self.lines = text.split("\n")[:-1] if text.endswith("\n") else text.split("\n")
        self.goals: Optional[Tuple[Term, ...]] = None
        self.record = Record()
        self.asked: Optional[Tuple[Question, bool]] = None
        self.findings = 0

    def check(self) -> Union[Holds, Fails]:
        at = 0
        while at < len(self.lines):
            try:
                at += self.take(at)
            except (Bad, Unreadable) as bad:
                return Fails(at + 1, str(bad) or "Text")
        return Holds(self.findings)

    def take(self, at: int) -> int:
        """Takes the line at a place; how many lines it is, with its candidates."""
        line = self.lines[at]
        for beginning, taken in self.KINDS:
            if line.startswith(beginning):
                return taken(self, line, at) or 1
        return 1

    # Runs.

    def run(self, line: str, at: int) -> None:
        term, _ = read(self.program.operators, f"?- {line[5:]} .")
        if not (isinstance(term, Fun) and term.name == "?-" and len(term.args) == 1):
            raise Bad("Text")
        goals = tuple(conjuncts(term.args[0]))
        if len(goals) > 64 or not all(map(is_goal, goals)):
            raise Bad("Text")
        self.goals, self.record, self.asked = goals, Record(), None

    def end(self, line: str, at: int) -> None:
        shown = END.fullmatch(line)
        if not shown or int(shown[2] or 0) >= 2**32:
            raise Bad("Text")
        ports, answers, is_limited = int(shown[3]), int(shown[4]), shown[1] == "answer limit"
        if not is_limited <= answers <= MOST or not 1 <= ports <= MOST:
            raise Bad("Text")
        if self.goals is None:
            raise Bad("End")
        again = Run(self.program.clauses, self.goals, ports, answers if is_limited else MOST)
        if again.text() != line:
            raise Bad("End")
        self.goals, self.record = None, again.record

    # What is told, asked and replied.

    def told(self, text: str, reply: Reply) -> None:
        atom, _ = read(self.program.operators, f"{text} .")
        if not is_user_atom(atom):
            raise Bad("Text")
        self.known.add(Question("true", (atom,)), reply)
        self.asked = None

    def not_true(self, line: str, at: int) -> None:
        self.told(line[len("symptom: not true: ") :], "no")

    def true(self, line: str, at: int) -> None:
        self.told(line[len("symptom: true: ") :], "yes")

    def question(self, line: str, at: int) -> None:
        asked = ASKED.fullmatch(line)
        if not asked or int(asked[1]) >= 2**64:
            raise Bad("Text")
        counted = COUNTED.fullmatch(asked[3])
        question = self.question_in(asked[2], counted[1] if counted else asked[3])
        counts = f" [{counted[2]} suspects]" if counted else ""
        if counted and int(counted[2]) >= 2**32 or f"question {asked[1]}: {self.asked_text(question)}{counts}" != line:
            raise Bad("Text")
        if not question.may_be_asked():
            raise Bad("Text")
        self.asked = question, counted is not None

    def question_in(self, kind: str, text: str) -> Question:
        """The question in a text; the two calls of `below?` are read as two arguments."""
        term, _ = read(self.program.operators, f"below({text}) ." if kind == "below" else f"{text} .")
        if kind == "below" and len(term.args) != 2:
            raise Bad("Text")
        head, body = clause_of(term) if kind == "covers" else (term, ())
        return Question(kind, term.args if kind == "below" else (head, *body)).form()

    def asked_text(self, question: Question) -> str:
        if question.kind == "covers":
            return "covers? " + self.writer.clause(question.atoms[0], question.atoms[1:])
        return f"{question.kind}? " + ", ".join(map(self.writer.goal, question.atoms))

    def reply(self, line: str, at: int) -> None:
        text = line[len("reply: ") :]
        text = text[: -len(" (reference)")] if text.endswith(" (reference)") else text
        counted = COUNTED.fullmatch(text)
        said = counted[1] if counted else text
        reply, again = self.reply_in(said)
        if again != said or counted and (not text.endswith(f" [{counted[2]} left]") or int(counted[2]) >= 2**32):
            raise Bad("Text")
        if self.asked is None:
            raise Bad("NoQuestion")
        question, counts_suspects = self.asked
        if not question.fits(reply, counts_suspects):
            raise Bad("Unfit")
        self.known.add(question, reply)
        self.asked = None

    def reply_in(self, text: str) -> Tuple[Reply, str]:
        """The reply that a text tells, and its text."""
        term, _ = read(self.program.operators, f"{text} .")
        if isinstance(term, Fun) and term.name in ("yes", "no", "unknown") and not term.args:
            return term.name, term.name
        values = elements(term.args[0]) if isinstance(term, Fun) and term.name == "yes" and len(term.args) == 1 else None
        if values is None:
            raise Bad("Text")
        return values, f"yes({self.writer.goal(canonical_one(term.args[0]))})"

    # What is found.

    def judge(self) -> Judge:
        return Judge(self.program.clauses, self.record, self.known)

    def found(self, is_right: bool) -> None:
        if not is_right:
            raise Bad("Finding")
        self.findings += 1

    def instance_in(self, text: str) -> Tuple[Term, Tuple[Term, ...]]:
        """The instance of a clause that a text is."""
        term, _ = read(self.program.operators, f"{text} .")
        head, body = clause_of(term)
        head, *atoms = canonical((head, *body))
        if self.writer.clause(head, tuple(atoms)) != text:
            raise Bad("Text")
        return head, tuple(atoms)

    def atom_in(self, text: str) -> Term:
        atom = canonical_one(read(self.program.operators, f"{text} .")[0])
        if self.writer.goal(atom) != text:
            raise Bad("Text")
        return atom

    def bug(self, line: str, at: int) -> None:
        wrong, call, uncovered = WRONG.fullmatch(line), CALL.fullmatch(line), UNCOVERED.fullmatch(line)
        numbers = [int(n) for found in (wrong, call) if found for n in found.groups() if n.isdecimal()]
        if not (wrong or call or uncovered) or any(n >= 2**32 for n in numbers) or call and int(call[3]) > 255:
            raise Bad("Text")
        if wrong:
            number, instance = int(wrong[1]), self.instance_in(wrong[3])
            self.found(self.judge().is_line(number, int(wrong[2])) and self.judge().is_wrong(number, *instance))
        elif call:
            clause, place, goal = int(call[1]), int(call[2]), int(call[3])
            callee, caller = (int(call[5]), self.atom_in(call[4])), (int(call[7]), self.atom_in(call[6]))
            self.found(self.judge().is_line(clause, place) and self.judge().is_violation(clause, goal, caller, callee))
        else:
            self.found(self.judge().is_uncovered(self.atom_in(uncovered[1])))

    def candidates(self, line: str, at: int) -> int:
        behind = self.lines[at + 1 :]
        count = next((n for n, other in enumerate(behind) if not other.startswith("candidate: ")), len(behind))
        if line != f"candidates: {count}":
            raise Bad("Text")
        members = []
        for other in behind[:count]:
            shown = CANDIDATE.fullmatch(other)
            if not shown or int(shown[1]) >= 2**32:
                raise Bad("Text")
            members.append((int(shown[1]), *self.instance_in(shown[2])))
        self.found(self.judge().are_candidates(members))
        return 1 + count

    def candidate(self, line: str, at: int) -> None:
        raise Bad("Text")

    def descent(self, line: str, at: int) -> None:
        shown = DESCENT.fullmatch(line)
        if not shown or int(shown[1]) >= 2**32:
            raise Bad("Text")
        self.found(self.judge().do_descend(int(shown[1])))

    KINDS = [
        ("run: ", run), ("end: ", end), ("symptom: not true: ", not_true), ("symptom: true: ", true), ("question ", question),
        ("reply: ", reply), ("bug: ", bug), ("candidates: ", candidates), ("candidate: ", candidate), ("no bug: ", descent),
    ]


def checked(program: str, known: str, log: str) -> Union[Holds, Fails]:
    """What a log comes to, of a program's text and an oracle file's, which may be empty."""
    loaded = load(program)
    return Log(loaded, load_known(loaded, known), log).check()
