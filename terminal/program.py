"""apd as a child: a line is told to it, and all that it says to the line is heard."""
from __future__ import annotations

import os
from contextlib import suppress
from pathlib import Path
from subprocess import PIPE, Popen
from typing import Iterator
from weakref import finalize

from terminal.prolog import tokens

TOP = Path(__file__).resolve().parent.parent
CODING = {"encoding": "utf-8", "errors": "surrogateescape"}
# How a clause of a full stop alone is refused, in a command's place and in a reply's.
REFUSALS = ("E1 syntax: NoTerm at byte 0", "E15 bad reply: syntax")


def program_file() -> str | None:
    """The proved program: the one that APD names, or what the build left."""
    named = os.environ.get("APD") or str(TOP / "crates/apd/out/apd")
    return named if os.access(named, os.X_OK) else None


def surroundings() -> dict[str, str]:
    """The environment in which ./apd starts the program, too: there it says what the settings are for."""
    return {"MALLOC_MMAP_THRESHOLD_": "131072", "MALLOC_TRIM_THRESHOLD_": "1048576",
            "GLIBC_TUNABLES": "glibc.malloc.hugetlb=1", **os.environ}


class Program:
    """A running apd. It ends where nothing refers to it any more.

    What there is to say to a line is printed before more of the input is read. So a full stop is
    told behind each line: when that is refused, all was heard that there is to say to the line. A
    line can be refused alike itself; so where it has a token, its own is the first that is said.
    """

    def __init__(self, words: list[str]) -> None:
        self.status: int | None = None  # with which it ended; below 0 by a signal
        command = [program_file() or "apd", *words]
        # A session of its own, so that Ctrl-C at the terminal reaches the conversation alone.
        pipes = {"stdin": PIPE, "stdout": PIPE, **CODING}
        self.child = Popen(command, start_new_session=True, env=surroundings(), **pipes)
        finalize(self, self.child.kill)

    def tell(self, line: str) -> Iterator[str]:
        """Tells the line, and hands on what is said to it."""
        with suppress(BrokenPipeError):  # it has ended
            os.write(self.child.stdin.fileno(), f"{line}\n.\n".encode(**CODING))
        for count, said in enumerate(map(str.rstrip, self.child.stdout)):
            if said in REFUSALS and (count or not tokens(line)):
                return
            yield said
        self.status = self.child.wait()
