"""The proof tree of a symptom, with what the questions and replies of its diagnosis said of each node."""
from __future__ import annotations

import re
from dataclasses import dataclass, field
from typing import Dict, Iterator, List, Optional

from terminal.page.boxes import Boxes, Exit
from terminal.page.log import Asked, Diagnosis
from terminal.page.terms import is_instance
from terminal.prolog import parts

WRONG = re.compile(r"bug: wrong instance of (clause \d+, line \d+): (.*)", re.DOTALL)
CANDIDATE = re.compile(r"candidate: (clause \d+): (.*)", re.DOTALL)

LOOKED_AT = 10  # so many exits with the symptom's atom
SYMPTOM, YES, NO, UNKNOWN = "symptom", "yes", "no", "unknown"  # said of the node
BUG, CANDIDATE_BUG, KNOWN, BELOW = "bug", "candidate", "known", "below"  # what follows for the others
ASIDE, SUSPECTED, BUILT_IN = "aside", "suspected", "built in"


@dataclass
class Node:
    """A node of the proof tree: an exit, how it was judged, and by which question: one about it, or an earlier one."""

    exit: Exit
    label: str
    around: Optional["Node"]
    inside: List["Node"] = field(default_factory=list)
    judged: str = ""
    asked: Optional[Asked] = None
    is_repeated: bool = False
    clause: str = ""  # the one that was found wrong, or that may be

    @property
    def is_built_in(self) -> bool:
        """Whether nobody is asked about the node."""
        return self.exit.box.is_built_in


def every_node(top: Node) -> Iterator[Node]:
    """The node and all below it, each before those below it."""
    waiting = [top]
    while waiting:
        node = waiting.pop()
        yield node
        waiting += reversed(node.inside)


class Judged:
    """The tree, judged as the diagnosis went along. The node that was last judged no is the one in which the bug is."""

    def __init__(self, top: Node, diagnosis: Diagnosis) -> None:
        self.top = self.false = top
        self.said: Dict[str, Asked] = {}  # what was asked of an atom before
        top.judged, top.asked = (SYMPTOM, None) if diagnosis.kind == "not true" else (NO, _earlier_goal(diagnosis))
        for asked in diagnosis.asked:
            if asked.question.kind == "true" and asked.question.suspects is not None:
                self._take(asked)
        self._finish(diagnosis)

    def suspects(self) -> List[Node]:
        """The nodes below the last no that neither are judged nor stand below a yes."""
        found, waiting = [], list(reversed(self.false.inside))
        while waiting:
            node = waiting.pop()
            if node.is_built_in or node.judged == YES:
                continue
            found += [] if node.judged else [node]
            waiting += reversed(node.inside)
        return found

    def _take(self, asked: Asked) -> None:
        """Judges the node that the question is about, as far as the log tells which one it is."""
        self._take_known(asked.question.suspects or 0)
        self.said[asked.question.asked] = asked
        suspects = self.suspects()
        fitting = [it for it in suspects if it.label == asked.question.asked]
        fitting = fitting or [it for it in suspects if is_instance(asked.question.asked, it.label)]
        if not fitting or not asked.reply:
            return
        chosen = fitting[0]
        if len(fitting) > 1:
            chosen = next((it for it in fitting if self._leaves(it, asked) == asked.reply.left), chosen)
        chosen.label = asked.question.asked
        self._judge(chosen, asked)

    def _take_known(self, count: int) -> None:
        """Judges nodes that are known by an earlier reply, until no more are suspected than the next question says."""
        suspects = self.suspects()
        while len(suspects) > count:
            known = next((it for it in suspects if it.label in self.said), None)
            if known is None:
                return
            known.is_repeated = True
            self._judge(known, self.said[known.label])
            suspects = self.suspects()

    def _leaves(self, node: Node, asked: Asked) -> int:
        """How many suspects the reply would leave, were it about this node."""
        false = self.false
        self._judge(node, asked)
        count = len(self.suspects())
        node.judged, node.asked, self.false = "", None, false
        return count

    def _judge(self, node: Node, asked: Asked) -> None:
        assert asked.reply
        node.judged, node.asked = asked.reply.said, asked
        if node.judged == NO:
            self.false = node

    def _finish(self, diagnosis: Diagnosis) -> None:
        """Names what follows: the bug, what is known without a question, and why other nodes weren't asked about."""
        for line in diagnosis.found:
            found, candidate = WRONG.fullmatch(line), CANDIDATE.fullmatch(line)
            if found:
                self.false = self._name(BUG, found[1], found[2])
            elif candidate:
                self._name(CANDIDATE_BUG, candidate[1], candidate[2])
        is_decided = any(line.startswith(("bug: ", "candidate: ")) for line in diagnosis.found)
        left = {id(it) for it in self.suspects()}
        for node in every_node(self.top):  # a node comes before those below it
            below = node.around is not None and node.around.judged in (YES, BELOW)
            if node.is_built_in:
                node.judged = BUILT_IN
            elif id(node) in left:
                node.judged = KNOWN if is_decided else SUSPECTED
            elif not node.judged:
                node.judged = BELOW if below else ASIDE


    def _name(self, judged: str, clause: str, instance: str) -> Node:
        """Judges the node whose clause the finding names by its instance."""
        head = parts(instance, ":-")[0]
        others = (it for it in every_node(self.false) if it.judged != YES and not it.clause)
        node = next((it for it in others if is_instance(head, it.label)), self.false)
        node.judged, node.label, node.clause = judged, head, clause
        return node


def proof_tree(boxes: Boxes, diagnosis: Diagnosis) -> Optional[Judged]:
    """The judged tree of the atom that isn't true: that of the symptom, or of a loop's earlier goal that got a no.

    The log doesn't tell which exit the symptom is about. So it is the first one with this atom in whose tree most of
    the questions have a place.
    """
    earlier = _earlier_goal(diagnosis)
    atom = diagnosis.symptom if diagnosis.kind == "not true" else earlier.question.asked if earlier else None
    if atom is None:
        return None
    every = [it for box in boxes.by_number.values() for it in box.exits]
    exits = [it for it in every if it.atom == atom] or [it for it in every if is_instance(atom, it.atom)]
    best: Optional[Judged] = None
    for found in exits[:LOOKED_AT]:
        judged = Judged(_tree(found, atom), diagnosis)
        if best is None or _placed(judged) > _placed(best):
            best = judged
    return best


def _earlier_goal(diagnosis: Diagnosis) -> Optional[Asked]:
    """The question about a goal before a call of the chain that got a no: the diagnosis goes on in its proof tree."""
    for asked in diagnosis.asked:
        is_such = asked.question.kind == "true" and asked.question.suspects is None and asked.said == NO
        if diagnosis.kind == "no end" and is_such:
            return asked
    return None


def _placed(judged: Judged) -> int:
    return sum(1 for node in every_node(judged.top) if node.asked)


def _tree(found: Exit, label: str) -> Node:
    top = Node(found, label, None)
    waiting = [top]
    while waiting:
        node = waiting.pop()
        node.inside = [Node(it, it.atom, node) for it in node.exit.by]
        waiting += node.inside
    return top
