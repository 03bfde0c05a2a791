#!/usr/bin/env python3
"""Refuses memory to sessions, one allocation at a time: bench/refused.py [PROGRAM].

Each session runs once with all the memory that it asks for, which tells how many allocations it makes, and then once for
each of them, which gets none. Such a run is to end with status 6 and the front of the output, or as the first one did.
Prints how many ended in which way, and each that ended otherwise; its own status is then 1. It needs a C compiler, and a
program that takes its memory from the C library: without PROGRAM the one that ./apd builds.
"""
import os
import subprocess
import sys
import tempfile
from collections import Counter
from pathlib import Path

TOP = Path(__file__).resolve().parent.parent

NO_MEMORY = 6

# Counts the calls of malloc and realloc, and refuses one of them.
REFUSING = r"""
#define _GNU_SOURCE
#include <dlfcn.h>
#include <stdio.h>
#include <stdlib.h>

static unsigned long calls;

static int is_refused(void) {
    const char *number = getenv("REFUSED");
    return ++calls == (number ? strtoul(number, NULL, 10) : 0);
}

void *malloc(size_t size) {
    static void *(*whole)(size_t);
    if (!whole)
        whole = (void *(*)(size_t))dlsym(RTLD_NEXT, "malloc");
    return is_refused() ? NULL : whole(size);
}

void *realloc(void *old, size_t size) {
    static void *(*whole)(void *, size_t);
    if (!whole)
        whole = (void *(*)(void *, size_t))dlsym(RTLD_NEXT, "realloc");
    return is_refused() ? NULL : whole(old, size);
}

__attribute__((destructor)) static void tell(void) {
    FILE *file = fopen(getenv("COUNTED"), "w");
    if (file) {
        fprintf(file, "%lu\n", calls);
        fclose(file);
    }
}
"""

SORT = """isort([X|Xs], Ys) :- isort(Xs, Zs), insert(X, Zs, Ys).
isort([], []).
insert(X, [Y|Ys], [Y|Zs]) :- insert(X, Ys, Zs).
insert(X, [Y|Ys], [X,Y|Ys]) :- X =< Y.
insert(X, [], [X]).
"""

REPLIES = """form(1).
true(isort([3],[3]), yes).
true(isort([1,3],[3,1]), no).
true(insert(X,[],[X]), yes).
true(insert(1,[3],[3,1]), no).
"""

SORTED = "?- isort([2,1,3], X).\nwrong(1, 1).\n"

RIGHT = SORT.replace("[Y|Zs]) :- insert", "[Y|Zs]) :- Y < X, insert")

# What is tried: its name, the words, the program, the file that the words name besides, and the lines.
SESSIONS = [
    ("the trace of facts", "--trace p", "q(1).\nq(2).\n", "", "?- q(X).\n"),
    ("a wrong answer", "--answers 1 p", SORT, "", SORTED + "yes.\nno.\nyes.\nno.\n"),
    ("candidates, and what is known", "--answers 1 p", SORT, "", SORTED + "yes.\nno.\nyes.\nunknown.\nknown.\n"),
    ("a missing answer", "p", "r :- s(X), t(X).\ns(X).\ns(1).\nt(2) :- fail.\n", "", "?- r.\nmissing(1, r).\nyes([1]).\n"),
    ("a run that doesn't end", "--budget 10 p", "c(N) :- M is N + 1, c(M).\n", "", "?- c(0).\nloop.\nno.\nno.\n"),
    ("an oracle file", "--answers 1 --oracle o p", SORT, REPLIES, SORTED),
    ("a reference", "--answers 1 --reference o p", SORT, RIGHT, SORTED),
    ("a demonstration", "--demo 7", "", "", ""),
]


class Trial:
    """A program, the library that refuses, and a folder with the files of a session."""

    def __init__(self, program, folder):
        self.program = program
        self.folder = folder
        self.library = folder / "refusing.so"
        source = folder / "refusing.c"
        source.write_text(REFUSING)
        subprocess.run(["cc", "-O2", "-shared", "-fPIC", "-o", self.library, source, "-ldl"], check=True)

    def run(self, words, lines, refused):
        """The status and the output of a session of whose allocations one is refused, and how many it made; 0 is none."""
        counted = self.folder / "counted"
        counted.unlink(missing_ok=True)
        surroundings = dict(os.environ, LD_PRELOAD=self.library, REFUSED=str(refused), COUNTED=counted)
        ran = subprocess.run(
            [self.program, *words.split()],
            cwd=self.folder,
            env=surroundings,
            input=lines.encode(),
            stdout=subprocess.PIPE,
            stderr=subprocess.PIPE,
            check=False,
        )
        count = int(counted.read_text()) if counted.exists() else 0
        return (ran.returncode, ran.stdout), count


def way_of(ended, whole):
    """How a session ended of which an allocation was refused, beside the one that had them all."""
    if ended == whole:
        return "as before"
    if ended[0] == NO_MEMORY and whole[1].startswith(ended[1]):
        return f"status {NO_MEMORY}"
    return "otherwise"


def tried(trial, session):
    """How often a session ended in which way."""
    name, words, program, other, lines = session
    trial.folder.joinpath("p").write_text(program)
    trial.folder.joinpath("o").write_text(other)
    whole, count = trial.run(words, lines, 0)
    ways = Counter()
    for refused in range(1, count + 1):
        ended, _ = trial.run(words, lines, refused)
        way = way_of(ended, whole)
        ways[way] += 1
        if way == "otherwise":
            print(f"{name}: allocation {refused}: status {ended[0]}, {len(ended[1])} bytes")
    told = ", ".join(f"{times} {way}" for way, times in sorted(ways.items()))
    print(f"{name}: {count} allocations: {told or 'none is seen'}", flush=True)
    return ways


def main():
    if len(sys.argv) > 2:
        sys.exit(__doc__)
    if len(sys.argv) == 1:
        facts = TOP / "examples" / "facts.pl"
        subprocess.run([TOP / "apd", facts], stdin=subprocess.DEVNULL, stdout=subprocess.DEVNULL, check=True)
    program = Path(sys.argv[1] if len(sys.argv) == 2 else TOP / "crates/apd/out/apd").resolve()
    ways = Counter()
    with tempfile.TemporaryDirectory() as folder:
        trial = Trial(program, Path(folder))
        for session in SESSIONS:
            ways += tried(trial, session)
    print(f"{sum(ways.values())} allocations refused, {ways['otherwise']} sessions ended otherwise")
    return 1 if ways["otherwise"] or not ways else 0


if __name__ == "__main__":
    sys.exit(main())
