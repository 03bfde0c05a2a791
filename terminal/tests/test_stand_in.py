"""Conversations with a stand-in for the program: Ctrl-C, want of memory, short replies, replies that are saved."""
from __future__ import annotations

import os
import signal
import tempfile
import time
import unittest
from pathlib import Path

from terminal.tests.pseudo import CTRL_C, CTRL_D, Terminal

STAND_IN = str(Path(__file__).with_name("stand_in.py"))


class StandIn(unittest.TestCase):
    """Each conversation has a folder of its own."""

    def setUp(self) -> None:
        folder = tempfile.TemporaryDirectory()
        self.addCleanup(folder.cleanup)
        self.folder = Path(folder.name)
        (self.folder / "p.pl").write_text("p(1).\n")

    def at_terminal(self, *words: str, **environment: str) -> Terminal:
        terminal = Terminal(str(self.folder), list(words), STAND_IN, **environment)
        self.addCleanup(terminal.close)
        return terminal

    def test_ctrl_c_ends_a_run_and_not_the_conversation(self) -> None:
        user = self.at_terminal("p.pl")
        user.converse("apd> ?- p(X)", "answer 1", "apd> wrong(1, 1)", "reply> y", "question 2", "reply> stop")
        user.converse("E3", "reply> n", "bug:", "apd> ?- forever", "run: forever")
        user.keys(CTRL_C)
        user.converse("begun anew", "apd> save kept", "3 statements", "apd> ")
        kept = ["form(2).", "true(p(1),no) .", "true(q(1),yes) .", "true(r([104,105],1),no) .", ""]
        self.assertEqual((self.folder / "kept").read_text().split("\n"), kept)

    def test_ctrl_c_at_the_prompt_gives_up_the_line(self) -> None:
        user = self.at_terminal("p.pl")
        user.see("apd> ")
        user.keys("?- forev")
        user.see("?- forev")
        time.sleep(0.2)  # readline misses a signal that comes between what it shows and its waiting
        user.keys(CTRL_C)
        user.converse("apd> ?- p(X)", "answer 1", "apd> quit")
        self.assertEqual(user.leave(), 0)

    def test_a_terminal_that_is_closed_ends_a_run_too(self) -> None:
        user = self.at_terminal("p.pl")
        user.converse("apd> ?- forever", "run: forever")
        os.kill(user.child, signal.SIGHUP)
        self.assertEqual(user.leave(), 128 + signal.SIGHUP)
        self.assertEqual(list(self.folder.glob("apdi-*")), [])

    def test_want_of_memory_is_said_and_the_session_goes_on(self) -> None:
        user = self.at_terminal("p.pl")
        user.converse("apd> ?- p(X).", "answer 1", "apd> ?- greedy.", "run: greedy", "there was no memory", "--budget")
        user.converse("begun anew", "apd> answer 1", "wrong(1, 1).", "question 1", "reply> ")
        user.keys(CTRL_D)
        self.assertEqual(user.leave(), 0)

    def test_u_is_unknown_and_no_statement(self) -> None:
        user = self.at_terminal("p.pl")
        user.converse("apd> ?- p(X).", "apd> answer 1", "reply> u", "reply: unknown", '[104,105] is "hi"')
        user.converse("reply> save f", "1 statements", "reply> ")
        self.assertEqual((self.folder / "f").read_text(), "form(2).\ntrue(p(1),no) .\n")

    def test_undo_takes_back_the_last_reply_and_then_the_symptom(self) -> None:
        user = self.at_terminal("p.pl")
        user.converse("apd> ?- p(X).", "apd> answer 1", "reply> y", "reply> undo", "without yes.", "question 1")
        user.converse("reply> undo", "without wrong(1, 1).", "apd> undo", "no reply to take back", "apd> ")

    def test_a_file_that_holds_no_replies_is_left_as_it_is(self) -> None:
        user = self.at_terminal("p.pl")
        user.converse("apd> ?- p(X).", "apd> answer 1", "reply> y", "reply> save p.pl", "stays as it is", "reply> ")
        self.assertEqual((self.folder / "p.pl").read_text(), "p(1).\n")

    def test_why_it_ended_is_said_once(self) -> None:
        (self.folder / "refused.pl").write_text("refused.")
        user = self.at_terminal("refused.pl")
        user.converse("program refused: line 1: Cut", "exclude each other", "status 3", "apd> help", "answer K of goal N")
        user.converse("apd> quit")
        self.assertEqual(user.leave(), 3)
        self.assertEqual(user.shown.count("status 3"), 1)

    def test_a_word_that_is_wrong_is_named_and_so_is_a_file_that_is_not_there(self) -> None:
        user = self.at_terminal("--bugdet", "5", "p.pl")
        user.converse("usage: apd", "[--budget N]", "unrecognized arguments: --bugdet")
        self.assertEqual(user.leave(), 2)
        user = self.at_terminal("--oracle", "nowhere", "p.pl")
        user.see("apd: there is no file nowhere that can be read")
        self.assertEqual(user.leave(), 4)

    def test_colours_are_there_unless_they_are_not_wanted(self) -> None:
        for environment, wanted in (({"TERM": "xterm"}, True), ({"TERM": "xterm", "NO_COLOR": "1"}, False)):
            user = self.at_terminal("p.pl", **environment)
            user.see("apd> ")
            user.type("?- p(X).")
            user.see("answer 1")
            self.assertEqual("\033[32manswer 1" in user.shown, wanted, environment)


if __name__ == "__main__":
    unittest.main()
