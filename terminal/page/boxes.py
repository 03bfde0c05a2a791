"""The boxes of a run, made of its ports: which box stands in which, and the proof tree of each exit."""
from __future__ import annotations

import re
from dataclasses import dataclass, field
from functools import cached_property
from typing import Dict, List, Optional, Tuple

from terminal.page.log import Port

BUILT_IN = re.compile(r"(?:true|fail)\Z|.* (?:=|is|=:=|=\\=|<|=<|>|>=) ", re.DOTALL)


@dataclass
class Exit:
    """An exit of a box: its atom, and the exits of the goals by which it was solved."""

    box: "Box"
    number: int
    atom: str
    by: Tuple["Exit", ...]


@dataclass
class Box:
    """A call of a goal."""

    number: int
    depth: int
    goal: str
    ports: List[Port] = field(default_factory=list)
    inside: List["Box"] = field(default_factory=list)
    exits: List[Exit] = field(default_factory=list)
    standing: List[Exit] = field(default_factory=list)  # the exits inside by which it is being solved now

    @property
    def is_open(self) -> bool:
        """Whether the box was entered last, and not left: at the end of a run, whether the budget stopped it there."""
        return self.ports[-1].name in ("Call", "Redo")

    @cached_property
    def is_built_in(self) -> bool:
        """Whether the goal is a built-in one, by its text. An operator inside brackets has no space before them."""
        return bool(BUILT_IN.match(_outside(self.goal)))


class Boxes:
    """All boxes of a run. Where a filter left ports out, a box stands in the nearest one that is there."""

    def __init__(self, ports: List[Port]) -> None:
        self.top: List[Box] = []
        self.by_number: Dict[int, Box] = {}
        self._entered: List[Box] = []  # the boxes that are entered and not left, each inside the one before
        for port in ports:
            self._take(port)

    def chain(self) -> List[Box]:
        """The program's own boxes that were open at the end, by rising number."""
        return [it for _, it in sorted(self.by_number.items()) if it.is_open and not it.is_built_in]

    def _take(self, port: Port) -> None:
        while self._entered and self._entered[-1].depth >= port.depth and self._entered[-1].number != port.box:
            self._entered.pop()
        box = self.by_number.get(port.box) or self._called(port)
        box.ports.append(port)
        within = self._around(port.depth)
        if port.name in ("Call", "Redo"):
            if within and within.standing and within.standing[-1].box is box:
                within.standing.pop()
            if not self._entered or self._entered[-1] is not box:
                self._entered.append(box)
            return
        if port.name == "Exit":
            found = Exit(box, len(box.exits) + 1, port.goal, tuple(box.standing))
            box.exits.append(found)
            if within:
                within.standing.append(found)
        else:
            box.standing.clear()
        if self._entered and self._entered[-1] is box:
            self._entered.pop()

    def _called(self, port: Port) -> Box:
        """A box whose first port this is."""
        box = Box(port.box, port.depth, port.goal)
        self.by_number[port.box] = box
        within = self._around(port.depth)
        (within.inside if within else self.top).append(box)
        return box

    def _around(self, depth: int) -> Optional[Box]:
        """The box in which one of this depth stands."""
        return next((it for it in reversed(self._entered) if it.depth < depth), None)


def _outside(goal: str) -> str:
    """The goal without what stands in quotes, and in the brackets of arguments."""
    bare = re.sub(r"'(?:\\.|''|[^'\\])*'", "a", goal)
    while True:
        less = re.sub(r"[\[({][^][(){}]*[\])}]", "", bare)
        if less == bare:
            return bare
        bare = less
