"""A log as it was printed, taken apart: what was loaded, the runs with their ports, and the diagnoses."""
from __future__ import annotations

import re
from dataclasses import dataclass, field
from typing import Iterable, List, NamedTuple, Optional, Union

from terminal.printed import QUESTION

PORT = re.compile(r"(?P<box>\d+) (?P<depth>\d+) (?P<name>Call|Exit|Redo|Fail): (?P<goal>.*)")
ANSWER = re.compile(r"answer \d+: (?P<values>.*)")
REPLY = re.compile(r"reply: (.*?)(?: \[(\d+) left\])?(?: \(reference\))?")
SYMPTOM = re.compile(r"symptom: (not true|true|no end): (.*)")


class Port(NamedTuple):
    """A line of a trace."""

    box: int
    depth: int
    name: str
    goal: str


class Question(NamedTuple):
    """A question: its number, its kind (true, covers or below), what is asked, and how many calls are suspected."""

    number: int
    kind: str
    asked: str
    suspects: Optional[int]


class Reply(NamedTuple):
    """A reply, and how many suspects it left, where that was told."""

    said: str
    left: Optional[int]


@dataclass
class Run:
    """A run of a query: its ports, as far as they were printed, its answers and its end."""

    goals: str
    ports: List[Port] = field(default_factory=list)
    answers: List[str] = field(default_factory=list)
    end: str = "it has no end in the log"


@dataclass
class Asked:
    """A question with the reply that it got, if it got one."""

    question: Question
    reply: Optional[Reply] = None

    @property
    def said(self) -> str:
        """What was replied."""
        return self.reply.said if self.reply else "no reply"

    @property
    def kind(self) -> str:
        """The kind of the reply: values are a yes."""
        kind = self.said.partition("(")[0]
        return kind if kind in ("yes", "no", "unknown") else "open"

    @property
    def in_short(self) -> str:
        """The question's number, its reply, and how many suspects that left."""
        left = self.reply.left if self.reply else None
        return f"question {self.question.number}: {self.said}" + ("" if left is None else f", {left} left")


@dataclass
class Diagnosis:
    """A diagnosis of a run: its symptom, the questions, and what was found."""

    kind: str  # not true, true or no end
    symptom: str
    run: Optional[Run]
    asked: List[Asked] = field(default_factory=list)
    found: List[str] = field(default_factory=list)


@dataclass
class Note:
    """Any other line: what was loaded, a warning, a refusal."""

    line: str


Part = Union[Run, Diagnosis, Note]
FINDINGS = ("bug: ", "no bug: ", "candidates: ", "candidate: ", "unanswered: ")
OF_APDI = ("% ", "apd> ", "reply> ")  # how lines begin in a log of a conversation that apd didn't print


def parts_of(lines: Iterable[str]) -> List[Part]:
    """The parts of the log in their order."""
    parts: List[Part] = []
    run: Optional[Run] = None
    diagnosis: Optional[Diagnosis] = None
    for line in lines:
        symptom = SYMPTOM.fullmatch(line)
        if line.startswith("run: "):
            run, diagnosis = Run(line[len("run: ") :]), None
            parts.append(run)
        elif symptom:
            diagnosis = Diagnosis(symptom[1], symptom[2], run)
            parts.append(diagnosis)
        elif diagnosis and _is_of_diagnosis(diagnosis, line):
            pass
        elif run and _is_of_run(run, line):
            pass
        elif line.strip() and not line.startswith(OF_APDI):
            parts.append(Note(line))
    return parts


def _is_of_run(run: Run, line: str) -> bool:
    """Adds the line to the run, if it is a part of one."""
    port = PORT.fullmatch(line)
    answer = ANSWER.fullmatch(line)
    if port:
        run.ports.append(Port(int(port["box"]), int(port["depth"]), port["name"], port["goal"]))
    elif answer:
        run.answers.append(answer["values"])
    elif line.startswith("end: "):
        run.end = line[len("end: ") :]
    else:
        return False
    return True


def _is_of_diagnosis(diagnosis: Diagnosis, line: str) -> bool:
    """Adds the line to the diagnosis, if it is a part of one. Replies that were refused aren't kept."""
    question, reply = QUESTION.fullmatch(line), REPLY.fullmatch(line)
    waits = diagnosis.asked and not diagnosis.asked[-1].reply
    if question:
        number, kind, asked, suspects = question.groups()
        diagnosis.asked.append(Asked(Question(int(number), kind, asked, _count(suspects))))
    elif reply and waits:
        diagnosis.asked[-1].reply = Reply(reply[1], _count(reply[2]))
    elif line.startswith(FINDINGS):
        diagnosis.found.append(line)
    elif not (line.startswith("E15 ") and waits):
        return False
    return True


def _count(digits: Optional[str]) -> Optional[int]:
    return None if digits is None else int(digits)
