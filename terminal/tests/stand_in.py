#!/usr/bin/env python3
"""A stand-in for apd that says what tests need which the program does rarely: runs without end, and want of memory.

It refuses a file refused.pl, of which apdi gives it a copy, by the text `refused.`
"""
import sys
import time
from pathlib import Path

SAYS = {
    "?- p(X).": ["run: p(_1)", "answer 1: X = 1", "end: exhausted, 4 ports, 1 answers"],
    "?- forever.": ["run: forever"],
    "?- greedy.": ["run: greedy"],
    "wrong(1, 1).": ["symptom: not true: p(1)", "question 1: true? q(1) [2 suspects]"],
    "yes.": ["reply: yes [1 left]", "question 2: true? r([104,105],1) [1 suspects]"],
    "no.": ["reply: no [0 left]", "bug: wrong instance of clause 1, line 1: r([104,105],1)"],
    "unknown.": ["reply: unknown [1 left]", "question 2: true? r([104,105],1) [1 suspects]"],
    "quit.": ["unanswered: stopped"],
}

STATES = {
    "wrong(1, 1).": "true(p(1),no) .",
    "yes.": "true(q(1),yes) .",
    "no.": "true(r([104,105],1),no) .",
    "unknown.": "true(q(1),unknown) .",
}
known = ["form(2) ."]
SAYS["."] = ["E1 syntax: NoTerm at byte 0"]

if Path(sys.argv[-1]).read_text() == "refused.":
    print("program refused: line 1: Cut")
    sys.exit(3)
print("loaded: 3 clauses", flush=True)
for line in sys.stdin:
    line = line.rstrip("\n")
    known += [STATES[line]] if line in STATES else []
    for said in known if line == "known." else SAYS.get(line, ["E3 not a command"] if line else []):
        print(said, flush=True)
    if line == "?- forever.":
        time.sleep(60)
    if line in ("?- greedy.", "quit."):
        sys.exit(6 if line == "?- greedy." else 0)
