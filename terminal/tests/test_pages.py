"""Pages of the sessions of docs/DEBUGGING.md, of a demonstration and of a deep recursion."""
from __future__ import annotations

import re
import tempfile
import unittest
import xml.etree.ElementTree as XML
from collections import Counter
from pathlib import Path
from typing import Iterator, List

from terminal.page.page import page_of
from terminal.program import TOP, program_file
from terminal.tests.sessions import SESSIONS, played, recorded

BOX = re.compile(r"(\d+) \d+ Call: ")
NESTED = 400  # a browser nests some 500 elements


def demonstration(nodes: int) -> List[str]:
    """The log of a demonstration whose tree has so many nodes, of which the last is wrong."""

    def called(node: int, depth: int) -> Iterator[str]:
        """The ports of the node's box and those inside."""
        nonlocal count
        count += 1
        box = count
        yield f"{box} {depth} Call: n{node}"
        for child in (2 * node, 2 * node + 1):
            if child <= nodes:
                yield from called(child, depth + 1)
        yield f"{box} {depth} Exit: n{node}"

    count = 0
    log = ["loaded: 1000 clauses", "run: n1", *called(1, 1), "answer 1: true"]
    log += [f"end: answer limit, {2 * nodes} ports, 1 answers", "symptom: not true: n1"]
    log += [f"question 1: true? n2 [{nodes - 1} suspects]", "reply: yes [488 left]"]
    return [*log, "question 2: true? n3 [488 suspects]", "reply: no [487 left]", "unanswered: stopped", ""]


def recursion(depth: int) -> List[str]:
    """The log of a run that goes down to this depth until its budget ends."""
    calls = [f"{at} {at} Call: p({at})" for at in range(1, depth + 1)]
    log = ["loaded: 1 clauses", "run: p(1)", *calls, f"end: budget, {depth} ports, 0 answers"]
    log += [f"symptom: no end: {depth} calls", f"question 1: below? p({depth}), p(1)", "reply: yes"]
    return [*log, f"no bug: all {depth} calls descend", ""]


class Pages(unittest.TestCase):
    """Each page is looked at as an element tree."""

    def page(self, log: List[str], file: str = "") -> XML.Element:
        """The page of the log, which has to be well-formed, to need nothing else, and to have each box once."""
        text = page_of(log, file or None)
        front, _, rest = text.partition("\n")
        self.assertEqual(front, "<!DOCTYPE html>")
        page = XML.fromstring(rest)
        names = [it.get("id") for it in page.iter() if it.get("id")]
        self.assertEqual(len(names), len(set(names)))
        targets = [it.get("href", "#") for it in page.iter("a")]
        self.assertEqual([it for it in targets if it[:1] != "#" or it[1:] not in names], [])
        self.assertFalse(re.search(r"\b(?:src|href)=\"(?!#)|url\(|@import", text))
        shown = Counter(int(it) for name in names for it in re.findall(r"^part\d+-box(\d+)$", name or ""))
        self.assertEqual(shown, Counter(int(it[1]) for it in map(BOX.match, log) if it))
        return page

    def text(self, page: XML.Element) -> str:
        return "".join(page.find("body").itertext())  # type: ignore[union-attr]

    def test_each_session_of_the_tour_makes_a_page(self) -> None:
        tour = (TOP / "docs" / "DEBUGGING.md").read_text(encoding="utf-8")
        for name, session in SESSIONS.items():
            with self.subTest(name):
                log = recorded(name)
                self.assertIn(session.finds, tour)
                self.assertIn(session.finds, log)
                page = self.page(log, str(TOP / "examples" / "buggy" / f"{session.program}.pl"))
                rows = page.findall(".//table[@class='questions']/tbody/tr")
                self.assertEqual(len(rows), sum(line.startswith("question ") for line in log))
                found = session.finds.rpartition(": ")[2]
                self.assertIn(found, self.text(page))
                if "line" in session.finds:
                    self.assertIn("line wrong", [it.get("class") for it in page.iter("div")])

    @unittest.skipUnless(program_file(), "the proved program isn't built")
    def test_the_sessions_are_as_they_were_recorded(self) -> None:
        with tempfile.TemporaryDirectory() as folder:
            for name in SESSIONS:
                with self.subTest(name):
                    self.assertEqual(played(name, Path(folder)), recorded(name))

    def test_a_tree_is_judged_as_the_dialogue_went(self) -> None:
        page = self.page(recorded("isort"))
        nodes = [it for it in page.iter() if "node" in (it.get("class") or "").split()]
        lines = [it if it.tag == "div" else it.find("summary") for it in nodes]
        said = [" ".join(part.text or "" for part in it[:2]) for it in lines if it is not None]  # type: ignore[index]
        wanted = ["no: the symptom isort([2,1,3],[3,1,2])", "no isort([1,3],[3,1])", "yes isort([3],[3])"]
        wanted += ["not asked isort([],[])", "not asked insert(3,[],[3])"]
        wanted += ["bug insert(1,[3],[3,1])", "yes insert(1,[],[1])"]
        wanted += [f"not asked insert(2,{it})" for it in ("[3,1],[3,1,2]", "[1],[1,2]", "[],[2]")]
        self.assertEqual(said, wanted)

    def test_what_was_found_is_explained_once(self) -> None:
        said = self.text(self.page(recorded("unknown")))
        for meaning in ("at least one is wrong", "heads of candidates further below"):
            self.assertEqual(said.count(meaning), 1, meaning)

    def test_a_demonstration_of_1000_nodes_and_a_deep_recursion(self) -> None:
        for log in (demonstration(1000), recursion(1000)):
            page = self.page(log)
            deepest, level = 0, [page]
            while level:
                deepest, level = deepest + 1, [inside for it in level for inside in it]
            self.assertLess(deepest, NESTED)
        self.assertIn("all 1000 calls descend", self.text(page))

    def test_a_log_without_ports_has_its_questions(self) -> None:
        log = [line for line in recorded("isort") if not line[:1].isdigit()]
        self.assertIn("--trace prints them", self.text(self.page(log)))

    def test_texts_and_marks_of_html_stand_as_they_are(self) -> None:
        goal = "p('<&\"',[104,105])"
        log = ["run: p(<b>,_1)", f"1 1 Call: {goal}", f"1 1 Fail: {goal}", "end: exhausted, 2 ports, 0 answers"]
        self.assertIn(goal + '"hi"', self.text(self.page(log)))


if __name__ == "__main__":
    unittest.main()
