"""Conversations with the program at a pseudo-terminal, where the proved program is built."""
from __future__ import annotations

import shutil
import subprocess
import tempfile
import unittest
from pathlib import Path

from terminal.manual import MANUAL
from terminal.program import TOP, program_file
from terminal.tests.pseudo import TAB, UP, Terminal

BUGGY = TOP / "examples" / "buggy"


@unittest.skipUnless(program_file(), "the proved program isn't built")
class Conversations(unittest.TestCase):
    """Each conversation has a folder of its own."""

    def setUp(self) -> None:
        folder = tempfile.TemporaryDirectory()
        self.addCleanup(folder.cleanup)
        self.folder = Path(folder.name)

    def at_terminal(self, *words: str) -> Terminal:
        terminal = Terminal(str(self.folder), list(words), program_file() or "")
        self.addCleanup(terminal.close)
        return terminal

    def copy(self, name: str) -> Path:
        return Path(shutil.copy(str(BUGGY / name), str(self.folder / name)))

    def test_a_sorting_session_from_the_symptom_to_the_mended_program(self) -> None:
        file = self.copy("isort.pl")
        user = self.at_terminal("--answers", "1", "isort.pl")
        user.converse("loaded: 5 clauses", "apd> ?- isort([2,1,3], X)", "answer 1: X = [3,1,2]", "apd> answer 1")
        user.converse("% wrong(1, 1).", "question 1: true? isort([3],[3]) [9 suspects]", "reply> y", "[6 left]")
        user.converse("reply> maybe", "E15 bad reply: not a reply", "reply> why", "is no reply to this question")
        user.converse("reply> y", "question 3", "reply> ")
        wrong, right = "insert(X, [Y|Ys], [Y|Zs]) :- insert", "insert(X, [Y|Ys], [Y|Zs]) :- Y < X, insert"
        file.write_text(file.read_text().replace(wrong, right))  # what is played until `again` is as it was
        user.type("undo")
        user.converse("without yes.", "question 2", "reply> n", "question 3")
        user.converse("reply> yes", "question 4", "reply> no", "bug: wrong instance of clause 3, line 6")
        user.converse("apd> save sort.replies", "5 statements", "apd> page sort.html", "sort.html is written", "apd> ")
        self.assertIn("clause 3, line 6", (self.folder / "sort.html").read_text())
        user.type("again")
        user.converse("oracle: 5 statements", "% ?- isort([2,1,3], X).", "answer 1: X = [1,2,3]", "apd> quit")
        self.assertEqual(user.leave(), 0)

    def test_the_conversation_of_the_manual(self) -> None:
        (self.folder / "examples").symlink_to(TOP / "examples")
        _, _, rest = MANUAL.read_text(encoding="utf-8").partition("    $ ./apdi ")
        words, *block = rest.partition("\n\n")[0].replace("\n    ", "\n").split("\n")
        user = self.at_terminal(*words.split(" "))
        user.converse(*block)
        self.assertEqual(user.leave(), 0)
        self.assertEqual(user.shown, "\n".join([*block, ""]))

    def test_an_answer_of_a_query_of_several_goals(self) -> None:
        user = self.at_terminal(str(BUGGY / "tree.pl"))
        user.converse("apd> ?- tree([2,1,3], T), numbers(T, Ns).", "apd> answer 1", "2 goals have an answer 1")
        user.converse("apd> goals", "1 1 Call: tree", "15 1 Call: numbers", "15 1 Exit: numbers")
        user.converse("apd> answer 1 of goal 2", "wrong(15, 1).", "question 1: true? numbers(node(leaf,2,leaf),[2])")

    def test_a_reference_program_replies(self) -> None:
        text = self.copy("isort.pl").read_text()
        (self.folder / "right.pl").write_text(text.replace(":- insert(X, Ys", ":- Y < X, insert(X, Ys"))
        user = self.at_terminal("--answers", "1", "--reference", "right.pl", "isort.pl")
        user.converse("reference: 5 clauses", "apd> ?- isort([2,1,3], X).", "apd> answer 1", "[6 left] (reference)")
        user.converse("bug: wrong instance of clause 3", "apd> save known", "5 statements", "apd> undo")
        user.converse("without wrong(1, 1).", "apd> why --reference", "is asked before you", "apd> ")

    def test_what_the_manual_has_nothing_of(self) -> None:
        user = self.at_terminal(str(BUGGY / "isort.pl"))
        user.converse("apd> why foo", "% the manual has nothing of foo", "apd> help.", "answer K of goal N", "apd> ")

    def test_a_reply_to_covers_by_an_answer_of_the_program(self) -> None:
        user = self.at_terminal(str(BUGGY / "family.pl"))
        user.converse("apd> ?- grandmother(ann, dora)", "apd> missing(1, grandmother(ann, dora))", "question 1")
        user.converse("reply> goals", "mother(ann,_1)", "answer 2: yes([beth]).", "reply> answer 2", "yes([beth]).")
        user.converse("reply: yes([beth])", "bug: uncovered goal: parent(beth,dora)", "apd> ")

    def test_a_program_that_is_refused_can_be_mended(self) -> None:
        file = self.folder / "p.pl"
        file.write_text("p(X) :- q(X), !.\nq(1).\n")
        user = self.at_terminal("p.pl")
        user.converse("program refused: line 1: Cut", "exclude each other", "status 3")
        user.converse("apd> ?- p(X).", "apd has ended")
        user.see("apd> ")
        file.write_text("p(X) :- q(X).\nq(1).\n")
        user.type("again")
        user.converse("loaded: 2 clauses", "apd> ?- p X", "E1 syntax", "apd> why", "% ?- p X.\n%      ^")
        user.converse("apd> ?- p(X)", "answer 1: X = 1", "apd> ")
        file.write_text("p(X) :- q(X), .\nq(1).\n")
        user.type("again")
        user.converse("program refused: line 1: NoTerm", "apd> ")
        file.write_text("p(X) :- q(X).\nq(2).\n")
        user.type("again")
        user.converse("loaded: 2 clauses", "apd> ?- p(X).\n", "answer 1: X = 2", "apd> quit")
        self.assertEqual(user.leave(), 0)

    def test_completion_and_history(self) -> None:
        self.copy("isort.pl")
        user = self.at_terminal("--answers", "1", "isort.pl")
        user.see("apd> ")
        user.keys("?- iso" + TAB + "[1], X)\n")
        user.converse("?- isort([1], X)", "answer 1: X = [1]", "apd> ")
        user.keys("wro" + TAB + "1, 1)\n")
        user.converse("wrong(1, 1)", "question 1", "reply> stop", "unanswered", "apd> ")
        user.keys("trace(leap([ins" + TAB + "3]))\n")
        user.converse("trace: leap([insert / 3])", "apd> ")
        user.keys(UP + UP + UP + UP + "\n")
        user.converse("?- isort([1], X)", "3 2 Exit: insert(1,[],[1])", "answer 1", "apd> ")
        user.keys("save iso" + TAB + "\n")
        user.converse("save isort.pl", "stays as it is", "apd> ")

    def test_where_it_is_not_at_a_terminal_it_is_apd(self) -> None:
        for words in (["--answers", "1", str(BUGGY / "isort.pl")], ["no-such-file"]):
            typed = "?- isort([2,1,3], X).\nwrong(1, 1).\nyes.\nknown.\n"
            runs = ([str(TOP / "apdi"), *words], [program_file() or "", *words])
            printed = [subprocess.run(it, input=typed, stdout=subprocess.PIPE, text=True) for it in runs]
            self.assertEqual(*((it.stdout, it.returncode) for it in printed))


if __name__ == "__main__":
    unittest.main()
