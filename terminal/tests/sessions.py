"""The sessions of docs/DEBUGGING.md: what is typed in each, and what is printed with the ports, as it was recorded.

    python3 -m terminal.tests.sessions

records them anew with the program.
"""
from __future__ import annotations

import subprocess
from pathlib import Path
from typing import Dict, List, NamedTuple

from terminal.program import TOP, program_file

LOGS = Path(__file__).with_name("logs")
REPLIES = """form(1).
true(isort([3],[3]), yes).
true(isort([1,3],[3,1]), no).
true(insert(X,[],[X]), yes).
true(insert(1,[3],[3,1]), no).
"""


class Session(NamedTuple):
    """The options, the program, the lines that are typed, and the last line of what is found."""

    options: List[str]
    program: str
    typed: List[str]
    finds: str


SORTING = ["?- isort([2,1,3], X).", "wrong(1, 1)."]
SESSIONS: Dict[str, Session] = {
    "isort": Session(
        ["--answers", "1"],
        "isort",
        [*SORTING, "yes.", "no.", "yes.", "no."],
        "bug: wrong instance of clause 3, line 6: insert(1,[3],[3,1]) :- insert(1,[],[1])",
    ),
    "unknown": Session(
        ["--answers", "1"],
        "isort",
        [*SORTING, "yes.", "no.", "yes.", "unknown."],
        "candidate: clause 3: insert(1,[3],[3,1]) :- insert(1,[],[1])",
    ),
    "power": Session(
        ["--answers", "1"],
        "power",
        ["?- power(2, 3, P).", "wrong(1, 1).", "no.", "yes."],
        "bug: wrong instance of clause 2, line 4: power(2,1,3) :- 1 > 0, 0 is 1 - 1, power(2,0,1), 3 is 2 + 1",
    ),
    "tree": Session(
        [],
        "tree",
        ["?- tree([2,1,3], T), numbers(T, Ns).", "wrong(15, 1).", "yes.", "no.", "yes.", "yes.", "yes."],
        "bug: wrong instance of clause 7, line 12: numbers(node(leaf,1,node(leaf,2,leaf)),[2,1]) :- numbers(leaf,[]), "
        "numbers(node(leaf,2,leaf),[2]), append([],[2],[2]), append([2],[1],[2,1])",
    ),
    "append": Session(
        [],
        "append",
        ["?- append([1], [2], Zs).", "missing(1, append([1], [2], [1,2])).", "yes."],
        "bug: uncovered goal: append([],[2],[2])",
    ),
    "greatest": Session(
        [],
        "greatest",
        ["?- greatest([1,2,2], M).", "missing(1, greatest([1,2,2], 2)).", "yes.", "no."],
        "bug: uncovered goal: greatest([2,2],2)",
    ),
    "family": Session(
        [],
        "family",
        ["?- grandmother(ann, dora).", "missing(1, grandmother(ann, dora)).", "yes([beth])."],
        "bug: uncovered goal: parent(beth,dora)",
    ),
    "path": Session(
        ["--budget", "1000"],
        "path",
        ["?- path(a, X).", "loop."],
        "bug: call not below its caller: clause 3, line 5, goal 1: path(a,_1) (box 2) called by path(a,_1) (box 1)",
    ),
    "factorial": Session(
        ["--budget", "40"],
        "factorial",
        ["?- factorial(3, F).", "loop.", "no.", "yes.", "no."],
        "bug: call not below its caller: clause 2, line 4, goal 2: "
        "factorial(-1,_1) (box 12) called by factorial(0,_1) (box 7)",
    ),
    "replies": Session(
        ["--answers", "1", "--oracle", "REPLIES"],
        "isort",
        SORTING,
        "bug: wrong instance of clause 3, line 6: insert(1,[3],[3,1]) :- insert(1,[],[1])",
    ),
    "leap": Session(
        ["--answers", "1"],
        "isort",
        ["trace(leap([insert/3])).", "?- isort([2,1,3], X)."],
        "5 4 Call: insert(3,[],_1)",
    ),
}


def recorded(name: str) -> List[str]:
    """What the program printed in the session."""
    return (LOGS / f"{name}.log").read_text(encoding="utf-8").split("\n")


def played(name: str, folder: Path) -> List[str]:
    """What the program prints now; the folder is for the file of replies."""
    session = SESSIONS[name]
    (folder / "replies").write_text(REPLIES, encoding="utf-8")
    options = [str(folder / "replies") if it == "REPLIES" else it for it in session.options]
    words = [program_file() or "apd", "--trace", *options, str(TOP / "examples" / "buggy" / f"{session.program}.pl")]
    ran = subprocess.run(words, input="\n".join([*session.typed, ""]), stdout=subprocess.PIPE, text=True, check=True)
    return ran.stdout.split("\n")


if __name__ == "__main__":
    for name in SESSIONS:
        (LOGS / f"{name}.log").write_text("\n".join(played(name, LOGS)), encoding="utf-8")
    (LOGS / "replies").unlink()
