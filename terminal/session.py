"""A session with apd that can be begun anew, and second runs beside it."""
from __future__ import annotations

import re
from argparse import Namespace
from collections import Counter, namedtuple
from pathlib import Path
from tempfile import TemporaryDirectory
from typing import Iterator

from terminal.printed import QUESTION, STATEMENT, say, show
from terminal.program import Program
from terminal.prolog import parts, variables

# How the first line begins that is said to a query or a filter, and to a symptom or a reply.
RAN, REPLIED = ("run: ", "warning: ", "trace: "), ("symptom: ", "reply: ")
# A line that was told and not refused, and what was said to it, but for ports and answers.
Told = namedtuple("Told", "line said")


class Ended(Exception):
    """The program has ended."""


class Session:
    """The running program, and the lines that made it what it is.

    The program itself takes nothing back. So a session is begun anew and played up to a place,
    without a word, where a reply is taken back or a run was ended from outside: with copies of the
    files, as they were.
    """

    def __init__(self, options: Namespace) -> None:
        self.options = options
        self.folder = TemporaryDirectory(prefix="apdi-")
        self.words = self.with_copies()
        self.told: list[Told] = []  # an empty line is the first: what it got comes before all
        self.queries: list[str] = []  # with the filters: what `again` tells

    def with_copies(self) -> list[str]:
        """The words, with copies of the files as they are now: by them a run can be made again."""
        values = dict(vars(self.options))
        for name, value in values.items():
            if isinstance(value, Path):
                values[name] = Path(self.folder.name, name)
                values[name].write_bytes(value.read_bytes())
        words = [f"--{name}={value}" for name, value in values.items() if value]
        return [re.sub("^--program=|=True$", "", word) for word in words]

    def play(self, lines: list[Told]) -> None:
        """Begins anew and tells the lines without a word; a question that waits then is shown."""
        if lines:
            without = " ".join(told.line for told in self.told[len(lines) :])
            say("begun anew and played up to here" + (without and f", without {without}"))
        self.told, self.question, self.query, self.run = [], None, "", ""
        self.program = Program(self.words)
        for line in [told.line for told in lines] or [""]:
            self.tell(line, is_shown=not lines)
        if lines and self.question:
            show(self.question[0])

    def tell(self, line: str, is_shown: bool = True) -> None:
        """Tells the line; what is said to it is shown, and kept in mind."""
        self.typed, self.said = line, []
        for said in self.program.tell(line):
            if said.startswith("run: "):
                self.query, self.run = line, said
            if not re.match(r"\d|answer ", said):
                self.said.append(said)
            if is_shown:
                show(said)
        if self.program.status is not None:
            raise Ended
        if self.said and not re.match(r"E\d", self.said[-1]):
            self.told.append(Told(line, self.said))
            self.question = QUESTION.fullmatch(self.said[-1])

    def again(self) -> None:
        """Begins with the files as they are now; what is known is kept, and queries are run."""
        if self.told:
            text = with_known("form(2).", self.known())
            self.options.oracle = Path(self.folder.name, "known")
            self.options.oracle.write_text(text, "utf-8", "surrogateescape")
            self.queries = [line for line, said in self.told[1:] if said[0].startswith(RAN)]
        self.words = self.with_copies()
        self.play([])
        for line in self.queries:
            say(line)
            self.tell(line)

    def known(self) -> list[str]:
        """What is known by now, but for `unknown`, as an oracle file states it."""
        lines = [*(told.line for told in self.told), "stop.", "known."]
        return list(dict.fromkeys(self.beside(lines, STATEMENT)))

    def beside(self, lines: list[str], kept: str) -> list[str]:
        """What a second run of the program says to the lines, as far as it begins so."""
        program = Program(self.words)
        return [said for line in lines for said in program.tell(line) if re.match(kept, said)]

    def goals_of_query(self) -> Iterator[str]:
        """Ports of the query's goals, whose depth is 1, and its answers, each with what tells of
        it: it came by the exits that stand when it is shown."""
        exits, standing = Counter(), []
        for line in self.beside(["trace(all).", self.query], r"\d+ 1 |answer "):
            yield line
            box, second, third, *_ = line.split()
            if third == "Exit:":
                exits[box] += 1
                standing.append(f"wrong({box}, {exits[box]}).")
            elif third == "Redo:":
                standing.pop()
            elif box == "answer":
                for goal, tells in enumerate(standing, 1):
                    yield f"answer {second[:-1]} of goal {goal}: {tells}"

    def goals_of_body(self) -> Iterator[str]:
        """The answers of the body that `covers?` asks about, as replies: those of as many of its
        first goals as have one together."""
        body = parts(self.question["asked"], ":-")[-1]
        goals, lines = parts(body), []
        while goals and not lines:
            front = ", ".join(goals)
            query = f"?- {front}, Values = [{','.join(variables(body))}]."
            lines = self.beside([query], "answer ")
            goals.pop()
        yield f"{len(lines)} answers of the program for {front}"
        yield from (re.sub("Values = (.*)", r"yes(\1).", line) for line in lines)


def with_known(text: str, known: list[str]) -> str:
    """The text of an oracle file with what is known and doesn't stand there yet."""
    lines = text.rstrip().replace("form(1)", "form(2)", 1).split("\n")
    return "\n".join([*lines, *(it for it in known if it not in lines), ""])
