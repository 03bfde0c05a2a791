#!/usr/bin/env python3
"""Compares the checks of written logs with a second reading of their rules: bench/logs.py [PROGRAM [COUNT [SEED]]].

Generates COUNT sessions (10,000), drawn by SEED (1), and lets PROGRAM (crates/apd/out/apd) write their logs: programs with
faults, oracle files with trust, references, queries, symptoms of all three kinds, replies by chance, `unknown.` and values among
them, and `known.`. Each log is checked twice as it was written, by PROGRAM with `--check` and by the second reading, and so is
each with one line changed: a digit, a reply, the clause of a finding, a line that is dropped, or two that are exchanged. A log as
written is to hold; of each both are to say the same, with the line and the reason, or the number of findings.

The second reading is checked/ beside this file. It has its own reader, writer, tracer and judgement of findings, after the rules
in docs/, and shares nothing with the program: a run is made again by the plain tracer. Each difference is printed and
kept in a folder; the status is then 1.
"""
import re
import subprocess
import sys
import tempfile
from collections import Counter
from concurrent.futures import ProcessPoolExecutor
from pathlib import Path
from random import Random

from checked.rules import checked
from checked.sessions import drafts, played

TOP = Path(__file__).resolve().parent.parent
WORKERS = 1
CHECKED = ("run: ", "end: ", "symptom", "question", "reply", "bug", "candidate", "no bug")
REPLIES = ["yes", "no", "unknown"]
UNCOMPARED = re.compile(r"^question \d+|\[\d+ (?:suspects|left)\]")
COUNTED = re.compile(r"^(?:symptom: \w+|bug: \w+|candidates|no bug|reply: \w+|form)|\(reference\)$", re.MULTILINE)


def digit_changed(random, lines, at, program):
    """Changes a digit, seldom one of a number that nothing is compared with."""
    line = lines[at] if random.random() < 0.1 else UNCOMPARED.sub(lambda number: "-" * len(number[0]), lines[at])
    places = [place.start() for place in re.finditer("[0-9]", line)]
    if places:
        place = random.choice(places)
        other = random.choice([digit for digit in "0123456789" if digit != lines[at][place]])
        lines[at] = lines[at][:place] + other + lines[at][place + 1 :]


def reply_changed(random, lines, at, program):
    at = random.choice([n for n, line in enumerate(lines) if line.startswith("reply: ")] or [at])
    said = re.match(r"reply: (\w+)", lines[at])
    if said:
        other = random.choice([reply for reply in REPLIES if reply != said[1]])
        lines[at] = re.sub(r"reply: \w+(\(.*\))?", "reply: " + other, lines[at])


def clause_changed(random, lines, at, program):
    """Has a finding tell of another clause of the program, in its line."""
    at = random.choice([n for n, line in enumerate(lines) if re.match("bug: .*clause", line)] or [at])
    clauses = [n for n, line in enumerate(program.split("\n"), 1) if line and not line.startswith(":- op")]
    number = random.randrange(len(clauses))
    lines[at] = re.sub(r"^(bug: .*?clause )\d+, line \d+", rf"\g<1>{number + 1}, line {clauses[number]}", lines[at])


def dropped(random, lines, at, program):
    del lines[at]


def exchanged(random, lines, at, program):
    other = random.choice([n for n in (at - 2, at - 1, at + 1, at + 2) if 0 <= n < len(lines)] or [at])
    lines[at], lines[other] = lines[other], lines[at]


CHANGES = [digit_changed, digit_changed, reply_changed, reply_changed, clause_changed, dropped, exchanged]


def changed(random, log, program):
    """The log with a change, and the change's name. Lines that are checked are changed more often than others."""
    lines = log.split("\n")[:-1]
    places = [n for n, line in enumerate(lines) if line.startswith(CHECKED)] if random.random() < 0.9 else []
    change = random.choice(CHANGES)
    change(random, lines, random.choice(places or range(len(lines))), program)
    return "".join(line + "\n" for line in lines), change.__name__


def said_by(program, folder, session, log):
    """The last line that the program prints of a log, and whether its status is the line's."""
    (folder / "log").write_text(log, encoding="utf-8")
    oracle = ["--oracle", folder / "known"] if session.known else []
    ran = subprocess.run([program, "--check", folder / "log", *oracle, folder / "p"], capture_output=True, text=True, check=False)
    last = (ran.stdout.split("\n")[-2:] or [""])[0]
    return last, ran.returncode == (0 if last.startswith("check: ") else 11)


def kind_of(text):
    return "holds" if text.startswith("check: ") else text.split(": ")[-1]


def tried(work):
    """What came of a session and of its changed log: counts, and what differs."""
    program, seed, all_drafts = work
    counts, faults = Counter(), []
    with tempfile.TemporaryDirectory(prefix="apd-logs-") as name:
        folder = Path(name)
        session, status = played(program, seed, folder, all_drafts)
        if status != 0:
            return counts, [f"session {seed}: status {status}"]
        counts.update(COUNTED.findall(session.log))
        altered, change = changed(Random(seed), session.log, session.program)
        for log, title in ((session.log, "as written"), (altered, change)):
            wanted = checked(session.program, session.known, log).text()
            said, is_status = said_by(program, folder, session, log)
            counts[f"{title}: {kind_of(wanted)}"] += 1
            if said != wanted or not is_status or title == "as written" and not wanted.startswith("check: "):
                faults.append(f"session {seed}, {title}: {said} and not {wanted}\n{kept(session, log, seed, title)}")
    return counts, faults


def kept(session, log, seed, title):
    """The folder where what differs is kept."""
    folder = Path(tempfile.gettempdir()) / f"apd-logs-{seed}-{title.replace(' ', '-')}"
    folder.mkdir(exist_ok=True)
    for name, text in (("p", session.program), ("known", session.known), ("log", log)):
        (folder / name).write_text(text, encoding="utf-8")
    return folder


def main():
    program = str(Path(sys.argv[1]).resolve() if len(sys.argv) > 1 else TOP / "crates/apd/out/apd")
    count = int(sys.argv[2]) if len(sys.argv) > 2 else 10_000
    first = 1_000_000 * (int(sys.argv[3]) if len(sys.argv) > 3 else 1)
    counts, faults, all_drafts = Counter(), [], drafts()
    works = [(program, first + number, all_drafts) for number in range(count)]
    with ProcessPoolExecutor(WORKERS) as pool:
        for done, (some, wrong) in enumerate(pool.map(tried, works, chunksize=20), 1):
            counts += some
            faults += wrong
            for line in wrong + [f"{done} of {count}"] * (done % 1000 == 0):
                print(line, flush=True)
    for name, times in sorted(counts.items()):
        print(f"{name}: {times}")
    print(f"{count} logs as written and as many with a line changed: {len(faults)} differ")
    return 1 if faults else 0


if __name__ == "__main__":
    sys.setrecursionlimit(100_000)
    sys.exit(main())
