"""Nested parts that open and close.

A browser nests some 500 elements at most, and a reader far fewer. So what stands deeper is told in sections of its own
behind the others, with links to and fro.
"""
from __future__ import annotations

from collections import deque
from dataclasses import dataclass, field
from typing import Deque, List

from terminal.page.html import element, link

LEVELS = 30


@dataclass
class Part:
    """A part: the line that is always seen, what is seen besides when it is open, and the parts inside."""

    id: str
    name: str
    line: str
    kind: str
    is_open: bool
    body: str = ""
    inside: List["Part"] = field(default_factory=list)


def folded(tops: List[Part]) -> str:
    """The parts, and behind them those that stand too deep, each once."""
    later: Deque[Part] = deque()
    tree = element("div", "".join(_folded(it, 1, later) for it in tops), class_="tree")
    deeper = []
    while later:
        part = later.popleft()
        deeper.append(element("p", "inside " + link(part.id, part.name) + ":", class_="deeper", id=f"in-{part.id}"))
        deeper.append(element("div", "".join(_folded(it, 1, later) for it in part.inside), class_="tree"))
    if not deeper:
        return tree
    says = f"What stands more than {LEVELS} levels deep, in {len(deeper) // 2} parts"
    return tree + element("details", element("summary", says, class_="deeper") + "".join(deeper), class_="deep")


def _folded(part: Part, level: int, later: Deque[Part]) -> str:
    if not part.inside and not part.body:
        return element("div", part.line, class_=f"part leaf {part.kind}", id=part.id)
    body = part.body
    if part.inside and level == LEVELS:
        later.append(part)
        body += element("p", link(f"in-{part.id}", "what stands inside is told further down"), class_="deeper")
    else:
        body += "".join(_folded(it, level + 1, later) for it in part.inside)
    inner = element("summary", part.line) + element("div", body, class_="inside")
    return element("details", inner, class_=f"part {part.kind}", id=part.id, open="open" if part.is_open else None)
