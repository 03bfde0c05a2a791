"""The way of a diagnosis of a missing answer: from a true goal to the next, down to the one that no clause gives."""
from __future__ import annotations

from dataclasses import dataclass, field
from typing import List

from terminal.page.boxes import Boxes
from terminal.page.html import code, element, mark, text
from terminal.page.log import Asked, Diagnosis
from terminal.page.runs import link_to_box
from terminal.page.terms import is_instance
from terminal.prolog import parts

UNCOVERED = "bug: uncovered goal: "


@dataclass
class Step:
    """A goal that is true and isn't an answer of the run, with what was asked of the clauses for it."""

    goal: str
    asked: List[Asked] = field(default_factory=list)
    is_bug: bool = False


def steps_of(diagnosis: Diagnosis) -> List[Step]:
    """The steps from the symptom on. A `covers?` names the goal that it is about, and so does the finding."""
    steps = [Step(diagnosis.symptom)]
    for asked in diagnosis.asked:
        if asked.question.kind == "covers":
            _go_on(steps, parts(asked.question.asked, ":-")[0])
        steps[-1].asked.append(asked)
    for line in diagnosis.found:
        if line.startswith(UNCOVERED):
            _go_on(steps, line[len(UNCOVERED) :])
            steps[-1].is_bug = True
    return steps


def way_shown(diagnosis: Diagnosis, boxes: Boxes, run: int) -> str:
    """The steps, each with its questions."""
    return element("ol", "".join(_shown(it, boxes, run) for it in steps_of(diagnosis)), class_="steps")


def _go_on(steps: List[Step], goal: str) -> None:
    if steps[-1].goal != goal:
        steps.append(Step(goal))


def _shown(step: Step, boxes: Boxes, run: int) -> str:
    line = mark("bug", "bug: no clause gives it") if step.is_bug else mark("symptom", "true, and no answer")
    line += code(step.goal)
    box = next((it for it in boxes.by_number.values() if is_instance(step.goal, it.goal)), None)
    line += link_to_box(run, box) if box else ""
    asked = "".join(_question(it) for it in step.asked)
    return element("li", line + (element("ul", asked) if asked else ""))


def _question(asked: Asked) -> str:
    question = asked.question
    says = text(f"question {question.number}: {question.kind}? ") + code(question.asked)
    return element("li", says + mark(asked.kind, asked.said))
