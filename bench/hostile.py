#!/usr/bin/env python3
"""Times the check of hostile logs: bench/hostile.py [--size BYTES] [--only WORD] [PROGRAM].

Each log has at most so many bytes, 1,048,576 where none are told, which is the most that a check takes. Each is checked, and so
is what is left of it where only its runs stay. It is met where the first takes at most a second more of the processor than the
second, and ends with a verdict. A check that takes longer than a minute is cut off. Without PROGRAM the one that ./apd builds is
run. It ends with 1 where a log isn't met. Last it says what a fixed loop took meanwhile, which tells how fast the machine was.
"""
import argparse
import os
import random
import resource
import string
import subprocess
import sys
import tempfile
import time
from pathlib import Path

TOP = Path(__file__).resolve().parent.parent
LONGEST = 60
MOST_BESIDE = 1.0

SAME = "p(X) :- p(X).\nq(1).\n"
OPEN = "p(X) :- p(Y).\n"
TURNS = "p(X) :- r(X).\nr(X) :- p(X).\n"
COUNT = "n(X) :- Y is X + 1, n(Y).\n"
BOX = ":- op(200, fy, box).\n" + SAME
BOX_CALLED = ":- op(200, fy, box).\n:- op(300, xfy, called).\n" + SAME
MANY = "".join(f"p({n}, X) :- q(X).\n" for n in range(20000))

SIGNS = string.ascii_letters + string.digits

WRONG = "bug: wrong instance of clause 1, line 1: "
CALL = "bug: call not below its caller: clause 1, line 1, goal 1: "


def asked(question, reply):
    return f"question 1: {question}\nreply: {reply}\n"


def below(low, high, reply="yes"):
    return asked(f"below? {low}, {high}", reply)


def apart(number):
    """A call of the program that counts isn't below its caller."""
    called = f"n({number + 1}) (box {2 * number + 3}) called by n({number}) (box {2 * number + 1})"
    return f"bug: call not below its caller: clause 1, line 1, goal 2: {called}\n"


def spread(number):
    """Numbers below 65,535 in an order that mixes them."""
    return number * 2654435761 % 65535


def vector(number):
    """An atom of 16 zeros and ones: by any few of its arguments it is one of many."""
    return "q(" + ",".join(str(number >> bit & 1) for bit in range(16)) + ")"


def general(number):
    """An atom of 16 arguments: a variable where the number has a one, else 1."""
    names = iter(range(1, 17))
    return "q(" + ",".join(f"_{next(names)}" if number >> bit & 1 else "1" for bit in range(16)) + ")"


def repeated(number):
    """An atom of six variables, of which two or more are the same one."""
    sames = [mask for mask in range(64) if mask.bit_count() > 1]
    mask, names = sames[number % len(sames)], {}
    places = [names.setdefault(6 if mask >> bit & 1 else bit, len(names) + 1) for bit in range(6)]
    return "q(" + ",".join(f"_{place}" for place in places) + ")"


def grid(arguments):
    """An atom of 24 terms, each of 24 arguments."""
    return "q(" + ",".join("f(" + ",".join(arguments[row : row + 24]) + ")" for row in range(0, 576, 24)) + ")"


def paired(number):
    """Such an atom of variables, of which those from one on are the same one."""
    from_one = number * 7 % 570
    return grid([f"_{min(place, from_one) + 1}" for place in range(576)])


def signs(number):
    """An atom of 16 numbers that differ in their signs alone: by marks without signs all these share one."""
    return "q(" + ",".join("-1" if number >> bit & 1 else "1" for bit in range(16)) + ")"


class Logs:
    """Logs with a title, each with the program that it was written for. The room of one is so many bytes."""

    def __init__(self, room):
        self.room, self.draw = room, random.Random(5)

    def filled(self, front, part, share=1.0):
        """What stands in front, and as many parts as fill this share of the room: a text, or what a number makes."""
        parts, left, number = [front], int(self.room * share) - len(front), 0
        while True:
            text = part if isinstance(part, str) else part(number)
            left -= len(text)
            if left < 0:
                return "".join(parts)
            parts.append(text)
            number += 1

    def line(self):
        kinds = ["bug: ", "run: ", "end: ", "question ", "reply: ", "candidate: ", "x"]
        letters = "".join(chr(self.draw.randrange(32, 127)) for _ in range(self.draw.randrange(60)))
        return self.draw.choice(kinds) + letters + "\n"

    def run(self):
        """A run of about as many ports as there is room for bytes."""
        ports = min(self.room, 1000000) // 2 * 2
        return f"run: p(a)\nend: budget, {ports} ports, 0 answers\n", f"no bug: all {ports} calls descend\n"

    def texts(self):
        """Lines that are long, or wrong, or hard to part."""
        yield "a call with many callers", SAME, self.filled(CALL, " (box 1) called by ", 0.9) + " (box 1)"
        yield "a call with many boxes", SAME, self.filled(CALL + "a", " (box ", 0.9) + " (box 1)"
        yield "a call of quotes", SAME, self.filled(CALL, "'", 0.9) + " (box 1) called by a (box 1)"
        yield "newlines", SAME, self.filled("", "\n")
        yield "a group of candidates", SAME, self.filled("candidates: 1\n", "candidate: clause 1: p(a)\n")
        yield "groups without candidates", SAME, self.filled("", "candidates: 0\n")
        yield "parentheses", SAME, self.filled("question 1: true? ", "f(")
        yield "any bytes", SAME, self.filled("", lambda n: chr(self.draw.randrange(256)))
        yield "a list", SAME, self.filled("question 1: true? p([a", ",a", 0.9) + "])\n"
        yield "a string", SAME, self.filled('question 1: true? p("', "a", 0.9) + '")\n'
        yield "brackets behind a reply", SAME, self.filled("reply: yes", " [1 left]")
        yield "references behind a reply", SAME, self.filled("reply: yes", " (reference)")
        yield "callers within quotes", SAME, self.filled(CALL + "p('", " (box 1) called by ", 0.9) + "') (box 2) called by p(a) (box 1)"
        yield "lines by chance", SAME, self.filled("", lambda n: self.line())
        yield "callers of operators", SAME, self.filled(CALL, "- (box 1) called by ", 0.9) + "a (box 1)"
        yield "escapes", SAME, self.filled(CALL + "'", "\\x", 0.9) + " (box 1) called by p (box 1)"
        yield "boxes where box is an operator", BOX, self.filled(CALL + "a", " (box ", 0.9) + " (box 1)"
        yield "callers where box is an operator", BOX, self.filled(CALL, "- (box 1) called by ", 0.9) + "a (box 1)"
        yield "callers where both are operators", BOX_CALLED, self.filled(CALL, "- (box 1) called by ", 0.9) + "] (box 1)"

    def replies(self):
        """Many replies."""
        yield "questions", SAME, self.filled("", lambda n: asked(f"true? q({n})", "yes"))
        yield "symptoms", SAME, self.filled("", lambda n: f"symptom: true: q({n})\n")
        yield "one symptom again and again", SAME, self.filled("", "symptom: true: q(1)\n")
        yield "many values for one body", OPEN, self.filled("", lambda n: asked("covers? p(a) :- q(_1)", f"yes([{n}])"))
        yield "symptoms with one mark", SAME, self.filled("", lambda n: f"symptom: true: {signs(n)}\n")
        yield "unknown replies", SAME, self.filled("", lambda n: asked(f"true? q({n}) [1 suspects]", "unknown [0 left]"))

    def findings(self):
        """Many findings, of many replies."""
        symptoms = self.filled("", lambda n: f"symptom: true: q({n + 2})\n", 0.5)
        nested = self.filled("", lambda n: f"symptom: true: q(f({n}))\n", 0.5)
        denied = self.filled("", lambda n: f"symptom: not true: q({n + 2})\n", 0.5) + "symptom: true: q(_1)\n"
        last, last_nested = symptoms.count("\n") + 1, nested.count("\n") - 1
        yield "an uncovered goal again and again", SAME, self.filled("symptom: true: q(2)\n", "bug: uncovered goal: q(2)\n")
        yield "an uncovered goal by the last of many symptoms", SAME, self.filled(symptoms, f"bug: uncovered goal: q({last})\n")
        yield "the same with one name", SAME, self.filled(nested, f"bug: uncovered goal: q(f({last_nested}))\n")
        yield "an uncovered goal behind denials", SAME, self.filled(denied, "bug: uncovered goal: q(2)\n")
        alike = self.filled("", lambda n: f"symptom: not true: q(1,{n})\n", 0.5)
        last_alike = alike.count("\n") - 1
        yield "a wrong instance by the last of many denials", "q(1,X).\n", self.filled(alike, WRONG + f"q(1,{last_alike})\n")
        others = self.filled("", lambda n: f"symptom: not true: q({n},1)\n", 0.5) + "symptom: not true: q(a,b)\n"
        yield "a wrong instance that begins with a variable", "q(X,Y).\n", self.filled(others, WRONG + "q(_1,b)\n")
        nested_denied = self.filled("", lambda n: f"symptom: not true: q(f({n},1))\n", 0.5) + "symptom: not true: q(f(a,b))\n"
        yield "a wrong instance by a nested argument, again and again", "q(X).\n", self.filled(nested_denied, WRONG + "q(f(_1,b))\n")
        vectors = self.filled("", lambda n: f"symptom: not true: {vector(spread(n))}\n", 0.5) + f"symptom: not true: {vector(65535)}\n"
        head = "q(" + ",".join(f"X{n}" for n in range(16)) + ").\n"
        yield "wrong instances that few arguments tell", head, self.filled(vectors, lambda n: WRONG + general(spread(n) & 0x5555) + "\n")
        apart = self.filled("", lambda n: f"symptom: not true: q({n},a,b,c,d,e)\n", 0.5) + "symptom: not true: q(z,z,z,z,z,z)\n"
        yield "wrong instances in which a variable stands twice", "q(A,B,C,D,E,F).\n", self.filled(apart, lambda n: WRONG + repeated(n) + "\n")
        paired = self.filled("", lambda n: f"symptom: not true: q(a,a,b,b,c,c,d,d,{n},e)\n", 0.5) + "symptom: not true: q(z,z,z,z,z,z,z,z,z,z)\n"
        five = WRONG + "q(_1,_1,_2,_2,_3,_3,_4,_4,_5,_5)\n"
        yield "wrong instances of five pairs of which the last differs", "q(A,B,C,D,E,F,G,H,I,J).\n", self.filled(paired, five)
        same = self.filled("", lambda n: f"symptom: not true: q(a,a,a,a,a,a,a,a,a,{n})\n", 0.5) + "symptom: not true: q(z,z,z,z,z,z,z,z,z,z)\n"
        one = WRONG + "q(_1,_1,_1,_1,_1,_1,_1,_1,_1,_1)\n"
        yield "wrong instances of one variable ten times", "q(A,B,C,D,E,F,G,H,I,J).\n", self.filled(same, one)
        free = self.filled("", lambda n: f"symptom: true: q(_1,{n})\n", 0.5)
        frees = free.count("\n")
        yield "uncovered goals by symptoms that begin with variables", SAME, self.filled(free, lambda n: f"bug: uncovered goal: q(a,{n % frees})\n")
        values = self.filled("", lambda n: asked("covers? p(a) :- q(_1)", f"yes([{n}])"), 0.5)
        valued = values.count("reply")
        yield "uncovered goals by the values of a body", OPEN, self.filled(values, lambda n: f"bug: uncovered goal: q({valued - 1 - n % valued})\n")
        front = "symptom: true: p(_1,_2)\n"
        yield "uncovered goals among 20,000 clauses", MANY, self.filled(front, lambda n: f"bug: uncovered goal: p({n + 20000},a)\n")
        yield "candidates of which each needs the last", OPEN, self.group()
        heads = self.filled("symptom: true: p(yes)\n", lambda n: f"symptom: not true: p({n})\n", 0.3)
        pairs = heads.count("\n") - 1
        yield "groups of two candidates", OPEN, self.filled(heads, lambda n: self.two(n % pairs))
        unequal = self.filled("symptom: true: p(yes)\n", lambda n: f"symptom: not true: p(f({n},a))\n", 0.5) + "symptom: not true: p(f(z,z))\n"
        yield "groups of two candidates in which a variable stands twice", OPEN, self.filled(unequal, self.two("f(_1,_1)"))

    def strings(self, length):
        """Strings of so many letters that are drawn."""
        return lambda n: "".join(self.draw.choices("abcdefghijklmnopqrstuvwxyz", k=length))

    def turned(self, length):
        """Strings of so many signs, of which any sixty in turn differ at each place."""
        drawn = self.draw.choices(range(len(SIGNS)), k=length)
        return lambda n: "".join(SIGNS[(place + n) % len(SIGNS)] for place in drawn)

    def huge(self):
        """Denials that are large, and findings of them."""
        front = "symptom: not true: "
        yield "one denial that is huge", "q(X).\n", self.filled(front + 'q("', "a", 0.999) + '")\n'
        yield "one denial that is huge, of letters by chance", "q(X).\n", front + f'q("{self.strings(int(self.room * 0.999) - 30)(0)}")\n'
        yield "one denial that is huge, a list", "q(X).\n", self.filled(front + "q([a", ",a", 0.999) + "])\n"
        for length in (8000, 2000, 200, 20):
            text = self.strings(length)
            yield f"denials of {length} letters", "q(X).\n", self.filled("", lambda n: front + f'q("{text(n)}")\n')
            yield f"denials of {length} letters, each of another name", "q(X).\n", self.filled("", lambda n: front + f'q{n}("{text(n)}")\n')
        last = front + "q(a,f(z))\n"
        for length in (200, 50):
            text = self.strings(length)
            below = self.filled("", lambda n: front + f'q(q{n}("{text(n)}"))\n')
            yield f"denials of {length} letters, each below another name", "q(X).\n", below
            some = self.filled("", lambda n: front + f'q{n % 8}("{text(n)}")\n')
            yield f"denials of {length} letters, of eight names", "q(X).\n", some
            for share in (0.97, 0.9, 0.7):
                title = f"wrong instances behind denials of {length} letters, {share} of the log"
                plain = self.filled("", lambda n: front + f'q("{text(n)}",{n})\n', share)
                yield title, "q(X,Y).\n", self.filled(plain + last, WRONG + "q(_1,f(_2))\n")
                below = self.filled("", lambda n: front + f'q(q{n}("{text(n)}"),{n})\n', share)
                yield f"{title}, each below another name", "q(X,Y).\n", self.filled(below + last, WRONG + "q(_1,f(_2))\n")
                turned = self.turned(length)
                sixty = self.filled("", lambda n: front + f'q(q{n // 60}("{turned(n)}"),{n})\n', share)
                yield f"{title}, sixty below a name", "q(X,Y).\n", self.filled(sixty + last, WRONG + "q(_1,f(_2))\n")
        text = self.strings(2000)
        denied = self.filled("", lambda n: front + f'q("{text(n)}",a)\n', 0.99) + front + "q(b,b)\n"
        yield "denials of 2000 letters, and a finding in which a variable stands twice", "q(X,Y).\n", denied + WRONG + "q(_1,_1)\n"
        large = self.filled("", lambda n: front + f'q("{text(n) * 4 + text(n)[:200]}",{n})\n', 0.5) + front + "q(a,z)\n"
        yield "wrong instances behind large denials", "q(X,Y).\n", self.filled(large, WRONG + "q(_1,z)\n")
        for length, title in ((4200, "large denials"), (4000, "denials"), (200, "short denials")):
            alike = "[" + "1," * length + "1]"
            last = self.filled("", lambda n: front + f"q({alike},{n})\n", 0.5) + front + f"q({alike},f(z))\n"
            yield f"wrong instances by the last of {title} that begin alike", "q(X,Y).\n", self.filled(last, WRONG + f"q({alike},f(_1))\n")
        long = "[" + "1," * (self.room // 4 - 100) + "1]"
        yield "a wrong instance as long as its denial", "q(X,Y).\n", front + f"q({long},b)\n" + WRONG + f"q({long},_1)\n"
        grids = self.filled("", lambda n: front + grid(self.draw.choices("ab", k=576)) + "\n", 0.5) + front + grid(["c"] * 576) + "\n"
        yield "wrong instances of many pairs of positions", f"q({','.join(f'A{n}' for n in range(24))}).\n", self.filled(grids, lambda n: WRONG + paired(n) + "\n")
        mixed = self.filled(front + "q(z,z,z,z,z,z)\n", lambda n: front + f"q({n},a,b,c,d,e)\n" + WRONG + repeated(n) + "\n")
        yield "wrong instances in which a variable stands twice, each behind one more denial", "q(A,B,C,D,E,F).\n", mixed
        text = self.filled("", "a", 0.25)
        yield "wrong instances by one huge denial", "q(X).\n", self.filled(f'symptom: not true: q("{text}")\n', WRONG + "q(_1)\n")
        half = text[: len(text) // 2]
        twice = f'symptom: not true: q("{half}","{half}")\n'
        yield "wrong instances by one huge denial, of a variable that stands twice", "q(X,Y).\n", self.filled(twice, WRONG + "q(_1,_1)\n")

    def two(self, argument):
        return f"candidates: 2\ncandidate: clause 1: p({argument}) :- p(last)\ncandidate: clause 1: p(last) :- p(yes)\n"

    def group(self):
        lines = self.filled("", lambda n: f"candidate: clause 1: p({n}) :- p(last)\n", 0.9) + "candidate: clause 1: p(last) :- p(0)\n"
        count = lines.count("\n")
        return f"symptom: not true: p(0)\nsymptom: true: p(0)\ncandidates: {count}\n{lines}"

    def chains(self):
        """Calls that are below others."""
        run, descends = self.run()
        same = below("p(a)", "p(a)")
        others = self.filled("", lambda n: below(f"q({n})", "q(a)"), 0.5)
        yield "a chain that descends, again and again", SAME, self.filled(run + same, descends)
        yield "a chain that descends by the last reply", SAME, run + others + same + descends
        yield "a chain that was said not to descend", SAME, run + below("p(a)", "p(a)", "no") + others + same + descends
        turns = below("p(a)", "r(a)") + others + below("r(a)", "p(a)")
        yield "a chain of two calls in turn", TURNS, run + turns + descends
        pairs = self.filled("", lambda n: below(f"n({n + 1})", f"n({n})"), 0.9)
        calls = pairs.count("reply")
        long_run = f"run: n(0)\nend: budget, {3 * calls + 1} ports, 0 answers\n"
        yield "a long chain that descends", COUNT, long_run + pairs + f"no bug: all {calls + 1} calls descend\n"

    def calls_apart(self):
        """Calls that aren't below their callers by chains of replies."""
        run = "run: n(0)\nend: budget, 10 ports, 0 answers\n"
        steps = self.filled("", lambda n: below(f"z({n})", f"z({n + 1})"), 0.5)
        count = steps.count("reply")
        ends = below("n(1)", f"z({count})", "no")
        up = run + below("n(0)", "z(0)") + steps + ends
        down = run + "".join(below(f"z({n})", f"z({n + 1})") for n in reversed(range(count))) + below("n(0)", "z(0)") + ends
        yield "a call apart by many replies, in their order", COUNT, up + apart(0)
        yield "a call apart by many replies, against their order", COUNT, down + apart(0)
        yield "a call apart by many replies, again and again", COUNT, self.filled(up, apart(0))
        steps = self.filled("", lambda n: below(f"z({n})", f"z({n + 1})"), 0.4)
        last = steps.count("reply")
        short = run + below("n(0)", "z(0)") + steps + below("n(1)", f"z({last})", "no")
        yield "a call apart by many replies, each time behind one more", COUNT, self.filled(short, lambda n: below(f"y({n})", "y") + apart(0))
        longer = self.filled(short, lambda n: below(f"z({last + n})", f"z({last + n + 1})") + apart(0))
        yield "a call apart by many replies, each time by one more", COUNT, longer
        calls = self.room // 376
        told = "".join(below(f"n({n})", "z(0)") + below(f"n({n + 1})", "end", "no") for n in range(calls))
        yield "calls apart by many replies, of many callers", COUNT, self.callers(calls, told)
        calls = self.room // 230
        told = "".join(below(f"n({n})", f"n({n + 1})") for n in range(calls)) + below(f"n({calls})", "z(0)")
        yield "calls apart by many replies, each below the next one", COUNT, self.callers(calls, told)

    def callers(self, calls, told):
        """A chain of calls, what is told of so many calls of a run, and that none of them is below its caller."""
        found = "".join(apart(n) for n in range(calls))
        share = 1 - (len(told) + len(found) + 100) / self.room
        run = f"run: n(0)\nend: budget, {3 * calls + 1} ports, 0 answers\n"
        steps = self.filled(run, lambda n: below(f"z({n})", f"z({n + 1})"), share)
        return steps + below(f"z({steps.count('reply')})", "end") + told + found

    def all(self):
        for found in (self.texts, self.replies, self.findings, self.huge, self.chains, self.calls_apart):
            yield from found()


def limited():
    resource.setrlimit(resource.RLIMIT_CPU, (LONGEST, LONGEST))


def timed(program, folder, source, log):
    """The processor seconds of a check, and what it says."""
    (folder / "p").write_text(source, encoding="utf-8")
    (folder / "log").write_bytes(log.encode("latin1"))
    with open(folder / "said", "wb") as said:
        ran = subprocess.Popen([program, "--check", folder / "log", folder / "p"], stdout=said, preexec_fn=limited)
        _, status, used = os.wait4(ran.pid, 0)
    ran.returncode = os.waitstatus_to_exitcode(status)
    last = (folder / "said").read_text(encoding="latin1").split("\n")[-2:][0]
    if ran.returncode not in (0, 11):
        last = "cut off" if ran.returncode < 0 else f"status {ran.returncode}"
    return used.ru_utime + used.ru_stime, last


def runs_of(log):
    return "".join(line + "\n" for line in log.split("\n") if line.startswith(("run: ", "end: ")) and len(line) < 1000)


def yardstick():
    """The processor seconds of a fixed loop."""
    begun = time.process_time()
    number = 0
    for step in range(1_000_000):
        number = (number + step) & 0xFFFF
    return time.process_time() - begun


def main():
    words = argparse.ArgumentParser(description="Times the check of hostile logs.")
    words.add_argument("--size", type=int, default=1 << 20)
    words.add_argument("--only", default="")
    words.add_argument("program", nargs="?", default=TOP / "crates/apd/out/apd")
    given = words.parse_args()
    program, missed, speeds = Path(given.program).resolve(), 0, [yardstick()]
    with tempfile.TemporaryDirectory(prefix="apd-hostile-") as name:
        for title, source, log in Logs(given.size).all():
            if given.only not in title:
                continue
            seconds, said = timed(program, Path(name), source, log)
            runs = timed(program, Path(name), source, runs_of(log))[0]
            is_met = seconds <= runs + MOST_BESIDE and not said.startswith(("cut", "status"))
            missed += not is_met
            speeds.append(yardstick())
            print(f"{title}: {seconds:.2f} s, its runs {runs:.2f} s: {said}" + ("" if is_met else " (not met)"), flush=True)
    print(f"{missed} not met; a loop of 1,000,000 additions in Python took {min(speeds):.2f} to {max(speeds):.2f} s")
    return 1 if missed else 0


if __name__ == "__main__":
    sys.exit(main())
