"""The chain of a run that doesn't end: the calls that were open, and what was asked of two of them."""
from __future__ import annotations

import re
from dataclasses import dataclass, field
from typing import List, Optional

from terminal.page.boxes import Box, Boxes
from terminal.page.html import aside, element, mark, short, whole
from terminal.page.log import Diagnosis
from terminal.page.runs import link_to_box
from terminal.prolog import parts

VIOLATION = re.compile(r"bug: call not below its caller: .* \(box (\d+)\) called by .* \(box (\d+)\)", re.DOTALL)
ENDS = 3  # so many calls at the ends of a long chain are always shown
FEW = 4  # and so many are shown wherever they stand


@dataclass
class Call:
    """A call of the chain, with its place in it, what was asked about it, and whether the finding names it."""

    box: Box
    place: int
    said: List[str] = field(default_factory=list)
    is_found: bool = False


def chain_of(boxes: Boxes, diagnosis: Diagnosis) -> List[Call]:
    """The chain from the outermost call to the innermost."""
    chain = [Call(box, place) for place, box in enumerate(boxes.chain(), 1)]
    for asked in diagnosis.asked:
        if asked.question.kind == "below":
            callee, caller = (parts(asked.question.asked) + [""])[:2]
            upper = _first(chain, caller)
            lower = _first(chain[upper.place :], callee) if upper else None
            if upper and lower:
                upper.said.append(f"question {asked.question.number}: is call {lower.place} below it? {asked.said}")
                lower.said.append(f"question {asked.question.number}: is it below call {upper.place}? {asked.said}")
    for found in filter(None, map(VIOLATION.fullmatch, diagnosis.found)):
        for call in chain:
            call.is_found = call.is_found or str(call.box.number) in found.groups()
    return chain


def chain_shown(diagnosis: Diagnosis, boxes: Boxes, run: int) -> str:
    """The calls of the chain. Where it is long, those of which nothing was said are folded."""
    chain = chain_of(boxes, diagnosis)
    if not chain:
        return element("p", "The log has no ports from which the chain could be made.", class_="note")
    pieces: List[str] = []
    quiet: List[str] = []
    for call in chain:
        if call.said or call.is_found or not ENDS < call.place <= len(chain) - ENDS:
            pieces += _folded(quiet) + [_shown(call, run)]
            quiet = []
        else:
            quiet.append(_shown(call, run))
    return element("div", "".join(pieces + _folded(quiet)), class_="chain")


def _first(chain: List[Call], goal: str) -> Optional[Call]:
    return next((it for it in chain if it.box.goal == goal), None)


def _folded(calls: List[str]) -> List[str]:
    if len(calls) <= FEW:
        return calls
    return [element("details", element("summary", f"{len(calls)} calls more") + "".join(calls))]


def _shown(call: Call, run: int) -> str:
    line = element("b", str(call.place), class_="number") + short(call.box.goal) + link_to_box(run, call.box)
    line += "".join(aside(it) for it in call.said)
    line += (mark("bug", "bug") if call.is_found else "") + whole(call.box.goal)
    return element("div", line, class_="call found" if call.is_found else "call")
