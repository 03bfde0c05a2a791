"""The section of a run: its answers, its end, and its boxes as nested parts."""
from __future__ import annotations

from typing import Dict, List

from terminal.page.boxes import Box, Boxes
from terminal.page.fold import Part, folded
from terminal.page.html import aside, code, element, link, short, text, whole
from terminal.page.log import Run

ALL_OPEN = 60  # a run with no more boxes is shown open
OPEN_LEVELS = 2  # and of one with more, so many levels
CHIPS = 12  # so many ports of a box are shown one by one
ANSWERS = 30
BUTTONS = '<button data-does="open">open all</button><button data-does="close">close all</button>'


def run_section(run: Run, boxes: Boxes, number: int) -> str:
    """The section of a run, whose elements' names begin with the number of the part."""
    head = element("h2", "run: " + code(run.goals)) + _answers(run.answers)
    head += element("p", "end: " + text(run.end), class_="end")
    if not boxes.by_number:
        head += element("p", "The log has no ports of this run: --trace prints them.", class_="note")
        return element("section", head, id=f"part{number}")
    tools = element("p", f"{len(boxes.by_number)} boxes {BUTTONS}", class_="tools")
    return element("section", head + tools + folded(_parts(boxes, number)), id=f"part{number}")


def link_to_box(number: int, box: Box) -> str:
    """A link to a box of the run that is this part of the page."""
    return aside(link(_id(number, box), _name(box)))


def _id(number: int, box: Box) -> str:
    return f"part{number}-box{box.number}"


def _name(box: Box) -> str:
    return f"box {box.number}"


def _answers(answers: List[str]) -> str:
    if not answers:
        return element("p", "no answer", class_="note")
    lines = [element("li", code(it)) for it in answers]
    shown = element("ol", "".join(lines[:ANSWERS]), class_="answers")
    if len(answers) <= ANSWERS:
        return shown
    more = element("ol", "".join(lines[ANSWERS:]), class_="answers", start=str(ANSWERS + 1))
    return shown + element("details", element("summary", f"{len(answers) - ANSWERS} answers more") + more)


def _parts(boxes: Boxes, number: int) -> List[Part]:
    """The boxes as nested parts, made from the last to the first, so that those inside are there before."""
    made: Dict[int, Part] = {}
    is_small = len(boxes.by_number) <= ALL_OPEN
    for box in sorted(boxes.by_number.values(), key=lambda it: -it.number):
        kind = "box builtin" if box.is_built_in else "box"
        is_open = is_small or box.depth <= OPEN_LEVELS
        inside = [made[it.number] for it in box.inside]
        made[box.number] = Part(_id(number, box), _name(box), _line(box), kind, is_open, _body(box), inside)
    return [made[it.number] for it in boxes.top]


def _line(box: Box) -> str:
    """The line of a box: its number, its goal, its ports in their order, and its exit where it has just one."""
    chips = "".join(element("span", it.name, class_=f"port {it.name}") for it in box.ports[:CHIPS])
    if len(box.ports) > CHIPS:
        chips += aside(f"and {len(box.ports) - CHIPS} ports more")
    if box.is_open:
        chips += element("span", "not left", class_="port", title="entered last, and not left when the run ended")
    line = element("b", str(box.number), class_="number") + short(box.goal) + element("span", chips, class_="ports")
    if len(box.exits) == 1 and box.exits[0].atom != box.goal:
        line += short(box.exits[0].atom, "exit")
    return line


def _body(box: Box) -> str:
    """What is seen of a box when it is open: its exits where there are several, and what is too long for its line."""
    if len(box.exits) < 2:
        return whole(box.goal, *(it.atom for it in box.exits))
    lines = "".join(element("li", short(it.atom, "exit") + whole(it.atom)) for it in box.exits)
    return whole(box.goal) + element("ol", lines, class_="exits", title="the exits of this box")
