"""What is read of texts, and what is said about them: full stops, predicates, explanations, files of replies."""
from __future__ import annotations

import io
import re
import unittest
from contextlib import redirect_stderr

from terminal import manual
from terminal.page.terms import is_instance
from terminal.completion import HEAD
from terminal.prolog import parts, texts_in, with_full_stop
from terminal.session import with_known
from terminal.words import options_of

LINES = {
    "E1 syntax: Stray at byte 5": ["no reading", "can't follow"],
    "E4 goal refused: Impure(write/1)": ["a goal of the query", "isn't pure"],
    "E9 not complete: 4": ["wasn't searched to its end"],
    "E15 bad reply: built-in false": ["make a built-in goal of the body untrue"],
    "program refused: line 3: Cut": ["exclude each other"],
    "oracle refused: line 2: NotAStatement": ["none of the statements"],
    "end: error Unbound in box 4, 3 ports, 0 answers": ["an arithmetic fault", "has no value yet"],
    "end: budget, 3 ports, 0 answers": ["another would follow"],
    "question 1: true? p(a) [3 suspects]": ["every instance of the atom"],
    "question 2: true? p(a)": ["every instance of the atom"],
    "reply: no [2 left]": ["your reply"],
    "reply: no [2 left] (reference)": ["the reference program's reply"],
    "reference: 5 clauses": ["the reference program is loaded"],
    "bug: wrong instance of clause 1, line 1: q(1)": ["the head isn't"],
    "warning: no clauses for edge/2": ["a predicate that has none"],
}


class Texts(unittest.TestCase):
    """Texts and what is made of them."""

    def test_a_line_is_explained_by_its_row_and_that_of_its_fault(self) -> None:
        for line, wanted in LINES.items():
            said = " ".join(manual.explain(line))
            self.assertTrue(all(it in said for it in wanted), (line, said))

    def test_each_refusal_and_fault_of_the_manual_is_explained(self) -> None:
        text = manual.MANUAL.read_text(encoding="utf-8")
        refusals = set(re.findall(r"^\| `(E\d+) ", text, re.MULTILINE))
        faults = set(re.findall(r"^\| `([A-Z][a-z]\w+)", text, re.MULTILINE))
        self.assertGreaterEqual(len(refusals), 15)
        self.assertGreaterEqual(len(faults), 35)
        statuses = set(re.findall(r"^\| (\d+) \|", text, re.MULTILINE))
        self.assertEqual(statuses, {str(status) for status in range(len(statuses))})
        self.assertGreaterEqual(len(statuses), 12)
        for name in refusals | faults | statuses | {"wrong", "loop", "known", "--budget", "?-"}:
            self.assertTrue(manual.explain(name), name)

    def test_a_missing_full_stop_is_added_where_the_clause_ends(self) -> None:
        same = ["loop.", "", "% a comment", "?- p. % all", "?- X = a. /* so */"]
        for line in same:
            self.assertEqual(with_full_stop(line), line)
        for line, wanted in {
            "loop": "loop.",
            "?- p % all": "?- p. % all",
            "?- X = a=": "?- X = a= .",
            "?- X = 'a.'": "?- X = 'a.'.",
            "?- X = 0'. ": "?- X = 0'.. ",
        }.items():
            self.assertEqual(with_full_stop(line), wanted)

    def test_the_predicates_of_a_program(self) -> None:
        program = "p.\nq(a, [b, c]) :-\n    r. % s.\n'X y'(1).\n:- op(700, xfx, ===).\nt --> [a].\nX === Y."
        self.assertEqual(HEAD.findall(program), ["p", "q(", "'X y'(", "t"])

    def test_the_parts_of_a_body(self) -> None:
        self.assertEqual(parts("p(a, b), [c|D], 'e, f', {g, h}"), ["p(a, b)", "[c|D]", "'e, f'", "{g, h}"])
        self.assertEqual(parts("p :- q, r", ":-"), ["p", "q, r"])

    def test_lists_of_codes_that_read_as_texts(self) -> None:
        wanted = [("[104,105]", '"hi"'), ("[65,10|_3]", '"A\\n"|_3')]
        self.assertEqual(texts_in("p([104,105],[1,2],[65,10|_3])"), wanted)

    def test_a_file_of_replies_keeps_what_it_has(self) -> None:
        known = ["true(p(1), yes).", "true(q, no)."]
        self.assertEqual(with_known("form(2).", known), "form(2).\ntrue(p(1), yes).\ntrue(q, no).\n")
        before = "% mine\nform(1).\ntrue(q, no).\n"
        after = "% mine\nform(2).\ntrue(q, no).\ntrue(p(1), yes).\n"
        self.assertEqual(with_known(before, known), after)

    def test_what_is_wrong_with_words(self) -> None:
        for words, wanted in {
            "--budget 5 --answers=1000000 --strategy top --trace apdi --oracle apd": "",
            "--reference=apd apdi": "",
            "--trace --demo 10000": "",
            "-- --trace": "there is no file --trace that can be read",
            "apdi --oracle terminal": "there is no file terminal that can be read",
            "": "one of the arguments --demo PROGRAM is required",
            "apd apdi": "unrecognized arguments: apdi",
            "--bugdet 5 p.pl": "unrecognized arguments: --bugdet",
            "--budge 5 apdi": "unrecognized arguments: --budge",
            "--budget=10k p.pl": "argument --budget: 10k is no number from 1 to 1,000,000",
            "--demo 10001": "argument --demo: 10001 is no number from 1 to 10,000",
            "p.pl --answers": "argument --answers: expected one argument",
            "--strategy halve p.pl": "argument --strategy: invalid choice: 'halve'",
            "--demo 5 p.pl": "argument PROGRAM: not allowed with argument --demo",
        }.items():
            with self.subTest(words), redirect_stderr(io.StringIO()) as said:
                try:
                    options_of(words.split())
                except SystemExit as end:
                    self.assertIn(end.code, (2, 4))
                self.assertIn(wanted, said.getvalue())
                self.assertEqual(bool(wanted), bool(said.getvalue()))

    def test_instances_by_their_texts(self) -> None:
        yes = [("app([2],[9],[2,9])", "app([2],_1,[2|_1])"), ("p([1])", "p([_1|_2])"), ("p(b * c + a)", "p(_1 + a)")]
        yes += [("p((b :- c) + a)", "p(_1 + a)"), ("p(-1)", "p(_1)"), ("p([1,2|_1])", "p([1|_1])")]
        no = [("p(a,b)", "p(_1,_1)"), ("p([])", "p([_1|_2])"), ("f([1,2],[1])", "f([1|_1],[1|_1])")]
        no += [("p([1,2])", "p([_1])"), ("p([1|_1])", "p([1])")]
        self.assertTrue(all(is_instance(term, pattern) for term, pattern in yes))
        self.assertFalse(any(is_instance(term, pattern) for term, pattern in no))


if __name__ == "__main__":
    unittest.main()
