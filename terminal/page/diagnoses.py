"""The section of a diagnosis: what was found, the questions, and the tree, the way or the chain that they are about."""
from __future__ import annotations

import re
from typing import Dict, List, Optional

from terminal.manual import rows_of
from terminal.page.boxes import Boxes
from terminal.page.chain import chain_shown
from terminal.page.html import code, element, link, mark, prose, text
from terminal.page.judged import proof_tree
from terminal.page.log import Asked, Diagnosis
from terminal.page.missing import way_shown
from terminal.page.tree import nodes_asked, tree_shown

SYMPTOMS = {"not true": "isn't true", "true": "is true, and is no answer", "no end": "the run doesn't end"}
FOUND = re.compile(
    r"(bug: wrong instance of clause \d+, line \d+|bug: uncovered goal|candidate: clause \d+"
    r"|bug: call not below its caller: clause \d+, line \d+, goal \d+): (.*)",
    re.DOTALL,
)


def diagnosis_section(diagnosis: Diagnosis, boxes: Boxes, number: int, run: int) -> str:
    """The section of a diagnosis of this run; the numbers name the elements of its part and of the run's."""
    tree = proof_tree(boxes, diagnosis)
    head = element("h2", _symptom(diagnosis)) + _findings(diagnosis.found)
    if diagnosis.asked:
        head += element("h3", "Questions") + _questions(diagnosis.asked, nodes_asked(tree, number) if tree else {})
    if diagnosis.kind == "true":
        head += element("h3", "From goal to goal") + way_shown(diagnosis, boxes, run)
    if diagnosis.kind == "no end":
        head += element("h3", "The chain of calls") + chain_shown(diagnosis, boxes, run)
    if tree:
        head += element("h3", "The proof tree of " + code(tree.top.label)) + tree_shown(tree, number, run)
    elif diagnosis.kind == "not true":
        head += element("p", "The log has no ports from which the proof tree could be made.", class_="note")
    return element("section", head, id=f"part{number}", class_="diagnosis")


def _symptom(diagnosis: Diagnosis) -> str:
    says = SYMPTOMS[diagnosis.kind]
    if diagnosis.kind == "no end":
        return f"Symptom: {says}, {text(diagnosis.symptom)} are open"
    return "Symptom: " + code(diagnosis.symptom) + " " + says


def _findings(lines: List[str]) -> str:
    """What was found: the clause, the goal or the call that each line names, and once what such a line means."""
    found, said = [], [""]
    for line in lines:
        means = next((row.says for row in rows_of(line)), "")
        found.append(_found(line, "" if means in said else means))
        said.append(means)
    return "".join(found)


def _found(line: str, means: str) -> str:
    found = FOUND.fullmatch(line)
    kind = "bad" if line.startswith("bug") else "good" if line.startswith("no bug") else "open"
    says = element("p", text(found[1])) + code(found[2]) if found else element("p", text(line))
    return element("div", says + (element("div", prose(means), class_="aside") if means else ""), class_=f"found {kind}")


def _questions(asked: List[Asked], nodes: Dict[int, str]) -> str:
    """A table of the questions, with links to the nodes of the tree."""
    names = ["", "question", "reply"] + ["suspects"] * any(it.question.suspects is not None for it in asked)
    heads = element("tr", "".join(element("th", it) for it in names))
    rows = "".join(_question(it, nodes.get(it.question.number), len(names)) for it in asked)
    return element("table", element("thead", heads) + element("tbody", rows), class_="questions")


def _question(asked: Asked, node: Optional[str], columns: int) -> str:
    question, reply = asked.question, asked.reply
    what = text(f"{question.kind}? ") + code(question.asked)
    left = "" if question.suspects is None else f"{question.suspects}"
    left += f" → {reply.left}" if reply and reply.left is not None else ""
    cells = [str(question.number), link(node, what) if node else what, mark(asked.kind, asked.said), left]
    return element("tr", "".join(element("td", it) for it in cells[:columns]))
