"""Sessions that are generated: a program with a fault, perhaps an oracle file or the program without its fault as a reference,
queries, symptoms and replies. The program is talked to line by line, and what it prints is the log."""
from __future__ import annotations

import re
import subprocess
from pathlib import Path
from random import Random
from typing import List, NamedTuple, Tuple

PROGRAMS = Path(__file__).resolve().parent / "programs.txt"
# The lines behind which the program waits for a line.
WAITS = re.compile(r"end: |question |bug: |candidates: |no bug: |unanswered: |trace: |E\d+ ")
VARIABLE = re.compile(r"\b_\d*\b|\b[A-Z]\w*\b")
CONSTANTS = ["0", "1", "2", "3", "-1", "a", "b", "c", "d", "[]", "[1]", "[1,2]", "s(0)", "f(1,1)", "ann", "dora", "leaf"]
GOALS = ["p(X)", "p(Y)", "q(X,Y)", "q(Y,X)", "r(X)", "p(f(X))", "X = Y", "Y is 1 + 1", "X > 0", "true", "q(a,X)", "r(Y)", "fail"]
HEADS = ["p(X)", "p(a)", "p(f(X))", "p(1)", "q(X,Y)", "q(X,X)", "q(a,b)", "q(1,X)", "r(X)", "r(f(X))", "r(b)", "r(2)"]


class Session(NamedTuple):
    """What a log was written for, and the log."""

    program: str
    known: str
    log: str


class Draft(NamedTuple):
    """A program with goals that may be asked of it, and the program as it was."""

    program: List[str]
    goals: List[str]
    right: List[str]


def drafts() -> List[Draft]:
    found = []
    for block in PROGRAMS.read_text(encoding="utf-8").split("\n\n")[1:]:
        lines = block.split("\n")
        clauses = [line for line in lines if line and line[0] != "?"]
        found.append(Draft(clauses, [line[3:] for line in lines if line.startswith("?- ")], clauses))
    return found


def goals_of(text: str) -> List[str]:
    """The goals of a query: the parts between the commas outside brackets."""
    found, depth = [""], 0
    for letter in text:
        depth += (letter in "([{") - (letter in ")]}")
        if letter == "," and depth == 0:
            found.append("")
        else:
            found[-1] += letter
    return [goal.strip() for goal in found]


class Drawing:
    """Draws what a session is made of."""

    def __init__(self, seed: int, all_drafts: List[Draft]) -> None:
        self.random, self.drafts = Random(seed), all_drafts

    def often(self, share: float) -> bool:
        return self.random.random() < share

    def filled(self, text: str) -> str:
        """The text with numbers and lists in their places."""
        text = re.sub(r"\$N", lambda _: str(self.random.randint(0, 3)), text)
        return re.sub(r"\$L", lambda _: "[" + ",".join(self.random.choices("123", k=self.random.randint(1, 3))) + "]", text)

    def ground(self, text: str) -> str:
        """The text with constants in place of its variables."""
        values: dict = {}
        return VARIABLE.sub(lambda v: values.setdefault(v[0], self.random.choice(CONSTANTS)), text)

    def free_clauses(self) -> List[str]:
        """Clauses that are put together by chance."""
        clauses = []
        for _ in range(self.random.randint(3, 8)):
            body = self.random.sample(GOALS, self.random.choice([0, 0, 1, 2, 3]))
            clauses.append(self.random.choice(HEADS) + (" :- " + ", ".join(body) if body else "") + ".")
        return clauses

    def free_draft(self) -> Draft:
        goals = [", ".join(self.random.sample(["p(X)", "q(X,Y)", "r(Y)", "r(X)", "p(f(Z))"], n)) for n in (1, 1, 2)]
        return Draft(self.free_clauses(), goals, self.free_clauses())

    def spoiled(self, lines: List[str]) -> List[str]:
        """The program with a fault, mostly."""
        lines = list(lines)
        at = self.random.randrange(len(lines))
        if lines[at].startswith(":- ") or self.often(0.2):
            return lines
        head, _, body = lines[at].rstrip(".").partition(" :- ")
        kind = self.random.randrange(4)
        if kind == 0:
            del lines[at]
        elif kind == 1 and body:
            goals = goals_of(body)
            del goals[self.random.randrange(len(goals))]
            lines[at] = head + (" :- " + ", ".join(goals) if goals else "") + "."
        elif kind == 2:
            lines[at] = re.sub(r"\b\d\b", lambda n: str((int(n[0]) + 1) % 3), lines[at])
        else:
            self.random.shuffle(lines)
            lines.sort(key=lambda line: not line.startswith(":- "))
        return lines or ["p(a)."]

    def draft(self) -> Draft:
        if self.often(0.25):
            return self.free_draft()
        draft = self.random.choice(self.drafts)
        right = [self.filled(line) for line in draft.program]
        return Draft(self.spoiled(right), [self.filled(goal) for goal in draft.goals], right)

    def statement(self, draft: Draft) -> str:
        """A statement of an oracle file about a goal, or trust in a predicate of the program."""
        head = self.random.choice(draft.program).partition(" :- ")[0].rstrip(".")
        goal = self.random.choice([head, *goals_of(self.random.choice(draft.goals))])
        if not re.fullmatch(r"[a-z]\w*\(.*\)", goal):
            goal = "p(X)"
        kind = self.random.randrange(6)
        if kind <= 1:
            return f"trusted({goal.split('(')[0]}/{len(goals_of(goal[goal.index('(') + 1 : -1]))})."
        if kind == 2:
            return f"below({goal}, {self.ground(goal)}, {self.random.choice(['yes', 'no'])})."
        if kind == 3:
            return f"covers(({self.ground(goal)} :- p(X), q(X,Y)), {self.random.choice(['no', 'yes([1,a])'])})."
        atom = goal if self.often(0.5) else self.ground(goal)
        return f"true({atom}, {self.random.choice(['yes', 'no', 'unknown'])})."

    def known(self, draft: Draft) -> str:
        if self.often(0.6):
            return ""
        return "\n".join(["form(2).", *(self.statement(draft) for _ in range(self.random.randint(1, 4)))]) + "\n"

    def words(self) -> List[str]:
        words = ["--budget", str(self.random.choice([5, 20, 40, 80, 120]))]
        if self.often(0.3):
            words += ["--answers", str(self.random.randint(1, 3))]
        if self.often(0.2):
            words.append("--trace")
        return words + ["--strategy", self.random.choice(["divide", "top", "single"])]

    def reply(self, question: str) -> str:
        """A line in the place of a reply."""
        if self.often(0.04):
            return self.random.choice(["stop.", "maybe.", "yes", "yes([1]).", "unknown."])
        if "covers? " in question:
            body = question.split(" :- ", 1)[-1]
            count = len(set(re.findall(r"\b_\d+\b", body)))
            values = ",".join(self.random.choice(CONSTANTS) for _ in range(count))
            return "no." if self.often(0.4) else f"yes([{values}])."
        if "below? " in question:
            return "yes." if self.often(0.8) else "no."
        return self.random.choice(["yes.", "yes.", "no.", "unknown." if "suspects" in question else "no."])

    def symptom(self, goals: str, end: str) -> str:
        if "budget" in end and self.often(0.6):
            return "loop."
        if self.often(0.35):
            return f"missing({self.random.choice([1, 1, 2, 3])}, {self.ground(self.random.choice(goals_of(goals)[:2]))})."
        return f"wrong({self.random.choice([1, 1, 1, 2, 3, 4, 5, 7])}, {self.random.choice([1, 1, 2])})."


class Talk:
    """A conversation with the program; what it prints is kept."""

    def __init__(self, program: str, words: List[str]) -> None:
        pipes = {"stdin": subprocess.PIPE, "stdout": subprocess.PIPE}
        self.process = subprocess.Popen([program, *words], text=True, encoding="utf-8", bufsize=1, **pipes)
        self.printed: List[str] = []

    def type(self, line: str) -> str:
        """The last line that is printed to a line."""
        self.process.stdin.write(line + "\n")
        self.process.stdin.flush()
        while True:
            shown = self.process.stdout.readline()
            if not shown:
                return ""
            self.printed.append(shown)
            if WAITS.match(shown):
                return shown

    def close(self) -> Tuple[str, int]:
        self.process.stdin.close()
        self.printed.append(self.process.stdout.read())
        return "".join(self.printed), self.process.wait()


def diagnose(talk: Talk, drawing: Drawing, symptom: str) -> None:
    last = talk.type(symptom)
    for _ in range(30):
        if not last.startswith(("question", "E15")):
            return
        question = next(line for line in reversed(talk.printed) if line.startswith("question"))
        last = talk.type(drawing.reply(question))
    talk.type("stop.")


def played(program: str, seed: int, folder: Path, all_drafts: List[Draft]) -> Tuple[Session, int]:
    """A session by this seed, and its status."""
    drawing = Drawing(seed, all_drafts)
    draft = drawing.draft()
    session = Session("\n".join(draft.program) + "\n", drawing.known(draft), "")
    (folder / "p").write_text(session.program, encoding="utf-8")
    (folder / "known").write_text(session.known, encoding="utf-8")
    (folder / "right").write_text("\n".join(draft.right) + "\n", encoding="utf-8")
    files = ["--oracle", str(folder / "known")] if session.known else []
    files += ["--reference", str(folder / "right")] if drawing.often(0.15) else []
    talk = Talk(program, [*drawing.words(), *files, str(folder / "p")])
    for _ in range(drawing.random.randint(1, 3)):
        goals = drawing.random.choice(draft.goals)
        end = talk.type(f"?- {goals}.")
        for _ in range(drawing.random.randint(0, 3)):
            diagnose(talk, drawing, drawing.symptom(goals, end))
        if drawing.often(0.1):
            talk.type("known.\ntrace(off).")
    log, status = talk.close()
    return session._replace(log=log), status
