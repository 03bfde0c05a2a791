"""A judged proof tree as nested parts: each node with how it was judged, the question, and its box."""
from __future__ import annotations

from typing import Dict, Set

from terminal.page import judged as verdicts
from terminal.page.fold import Part, folded
from terminal.page.html import aside, element, mark, short, whole
from terminal.page.judged import Judged, Node, every_node
from terminal.page.runs import BUTTONS, link_to_box

ALL_OPEN = 40  # a tree with no more nodes is shown open
WAY_BUTTON = '<button data-does="way">the way to the bug</button>'
SAYS = {
    verdicts.SYMPTOM: "no: the symptom",
    verdicts.KNOWN: "yes: known",
    verdicts.BELOW: "not asked",
    verdicts.ASIDE: "not asked",
    verdicts.BUILT_IN: "built in",
}
WHY = {
    verdicts.BELOW: "it stands below a yes",
    verdicts.ASIDE: "a no elsewhere has the bug below it",
    verdicts.KNOWN: "an earlier reply says so, or a file of replies",
    verdicts.BUILT_IN: "true by arithmetic",
    verdicts.CANDIDATE_BUG: "of the candidates at least one is wrong, where the replies are true",
}
LEGEND = "Not asked is what stands below a yes, and what a no further down or elsewhere set aside."


def tree_shown(tree: Judged, number: int, run: int) -> str:
    """The tree, open along the way of the questions; the numbers name the parts of the diagnosis and of its run."""
    nodes = list(every_node(tree.top))
    way = _way(tree)
    made: Dict[int, Part] = {}
    for at in range(len(nodes), 0, -1):  # from the leaves on, so that those inside are there before
        node = nodes[at - 1]
        leads_on = node is tree.false or any(id(it) in way for it in node.inside)
        part = Part(_id(number, at), f"node {at}", _line(node, run), "node", len(nodes) <= ALL_OPEN or leads_on)
        part.kind += " way" if id(node) in way else ""
        part.body, part.inside = whole(node.label), [made[id(it)] for it in node.inside]
        made[id(node)] = part
    tools = element("p", f"{len(nodes)} nodes {BUTTONS}{WAY_BUTTON}", class_="tools")
    return element("p", LEGEND, class_="note") + tools + folded([made[id(tree.top)]])


def nodes_asked(tree: Judged, number: int) -> Dict[int, str]:
    """The names of the nodes' elements by the numbers of the questions about them."""
    nodes = enumerate(every_node(tree.top), 1)
    return {it.asked.question.number: _id(number, at) for at, it in nodes if it.asked and not it.is_repeated}


def _id(number: int, at: int) -> str:
    return f"part{number}-node{at}"


def _way(tree: Judged) -> Set[int]:
    """The nodes that were asked about, the bug, and the nodes above them."""
    way: Set[int] = set()
    for node in every_node(tree.top):
        at = node if node.asked or node.clause else None
        while at is not None and id(at) not in way:
            way.add(id(at))
            at = at.around
    return way


def _line(node: Node, run: int) -> str:
    line = mark(node.judged.replace(" ", "-"), SAYS.get(node.judged, node.judged), WHY.get(node.judged))
    line += short(node.label)
    if node.clause:
        line += element("span", node.clause, class_="clause")
    if node.asked:
        line += aside(f"as question {node.asked.question.number}" if node.is_repeated else node.asked.in_short)
    return line + link_to_box(run, node.exit.box)
