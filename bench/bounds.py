#!/usr/bin/env python3
"""Measures the program beside the bounds that it is to meet, in one run; each run of a query leaves its record.

    bench/bounds.py [--only WORD] [PROGRAM [UNRECORDED]]

PROGRAM is the proved program, which is built where none is named. UNRECORDED is one of the same sources whose
runs leave no record (`run_query` of apd_query calls `show` in place of `run`); without it what a record costs isn't told.
The C library's settings are those with which ./apd starts the program.
With `swipl` on the path some rows are beside SWI-Prolog's bare engine with the occurs check, which neither counts ports nor
records them. The time of sessions is the least of 3 to 30 of them, that of SWI-Prolog the least of as many means of many
runs, in its processor's time. What is compared takes turns, so that a machine whose pace changes has the same for all of
it; how many times as long one takes is told by the middle one of the ratios of all rounds. A session that takes more than
20 seconds or 4 GB, or that doesn't end well, is told as cut off, and its row isn't met. With a word, only the rows are
measured that have it in their names. It ends with 1 where a row isn't met.
"""
import itertools
import os
import re
import select
import shutil
import signal
import statistics
import subprocess
import sys
import tempfile
import threading
import time
from pathlib import Path

TOP = Path(__file__).resolve().parent.parent
sys.path.insert(0, str(TOP))
from terminal.program import surroundings  # noqa: E402

LONGEST = 20
MOST_MEMORY = 4 << 30
# What is compared is run in rounds: LEAST_ROUNDS of them, and more until they take ENOUGH seconds for each measure, but at most
# MOST_ROUNDS; where rows tell what a record costs, until MANY seconds, since what is compared there is alike. Where one measure
# takes more than LONG seconds, there is one round.
LEAST_ROUNDS = 3
MOST_ROUNDS = 30
ENOUGH = 1
MANY = 4
LONG = 5

REVERSE = """append([], Ys, Ys).
append([X|Xs], Ys, [X|Zs]) :- append(Xs, Ys, Zs).
reverse([], []).
reverse([X|Xs], Ys) :- reverse(Xs, Zs), append(Zs, [X], Ys).
"""
QUEENS = """queens(Qs) :- permutation([1,2,3,4,5,6,7,8], Qs), safe(Qs).
permutation([], []).
permutation(Xs, [X|Ys]) :- select(X, Xs, Zs), permutation(Zs, Ys).
select(X, [X|Xs], Xs).
select(X, [Y|Ys], [Y|Zs]) :- select(X, Ys, Zs).
safe([]).
safe([Q|Qs]) :- apart(Q, Qs, 1), safe(Qs).
apart(_, [], _).
apart(Q, [R|Rs], D) :- Q =\\= R + D, Q =\\= R - D, E is D + 1, apart(Q, Rs, E).
"""
COUNT = "count(0).\ncount(N) :- N > 0, M is N - 1, count(M).\n"
HANOI = """hanoi(0, _, _, _).
hanoi(N, A, B, C) :- N > 0, M is N - 1, hanoi(M, A, C, B), hanoi(M, C, B, A).
"""
TAK = """tak(X, Y, Z, Z) :- X =< Y.
tak(X, Y, Z, A) :- X > Y, X1 is X - 1, Y1 is Y - 1, Z1 is Z - 1,
    tak(X1, Y, Z, A1), tak(Y1, Z, X, A2), tak(Z1, X, Y, A3), tak(A1, A2, A3, A).
"""


def colours(trials):
    """The colouring of a map, from the start for each trial."""
    names = ["red", "green", "blue"]
    lines = [f"differ({a}, {b})." for a in names for b in names if a != b]
    lines.append("none(yellow).")
    lines.append("map(A, B, C, D, E, F, G, H, I, J) :- differ(A, B), differ(B, C), differ(C, D), differ(D, E), differ(E, F),")
    lines.append("    differ(F, G), differ(G, H), differ(H, I), differ(I, J), differ(A, C), differ(B, D), none(J).")
    lines.append("maps :- trial(_), map(_, _, _, _, _, _, _, _, _, _).")
    lines += [f"trial({i})." for i in range(1, trials + 1)]
    return "\n".join(lines) + "\n"


def elements(number):
    """A list of so many integers."""
    return "[" + ",".join(str(i) for i in range(1, number + 1)) + "]"


class Cut(Exception):
    """A session took too long or too much memory, or didn't end well."""


def memory(child):
    """The bytes that a child of ours has in memory, or the program that it runs for us; none where it has ended."""
    try:
        programs = Path(f"/proc/{child.pid}/task/{child.pid}/children").read_text().split()
        return 4096 * int(Path(f"/proc/{[child.pid, *programs][-1]}/statm").read_text().split()[1])
    except (OSError, IndexError):
        return 0


class Bench:
    def __init__(self, folder, program, unrecorded, only):
        self.folder, self.program, self.unrecorded, self.only = folder, program, unrecorded, only
        self.met = True
        self.numbers = itertools.count(1)

    def wanted(self, what):
        return self.only in what

    def file(self, name, text):
        path = os.path.join(self.folder, name)
        Path(path).write_text(text)
        return path

    def session(self, source, lines, words=(), program=None):
        """The seconds of a session, its peak memory in KB, and what is printed."""
        return self.seconds(source, lines, words, program), *self.peak(source, lines, words, program)

    def seconds(self, source, lines, words=(), program=None):
        """The least seconds of some sessions."""
        return min(*turns(self.timed(source, lines, words, program)))

    def timed(self, source, lines, words=(), program=None):
        """What runs a session and tells its seconds."""
        command, asked = self.command(source, lines, words, program)
        return lambda: self.once(command, asked)

    def peak(self, source, lines, words=(), program=None):
        """The peak memory of a session in KB, and what is printed. A child's peak counts that of who started it, so `time` does."""
        command, asked = self.command(source, lines, words, program)
        most = os.path.join(self.folder, "most")
        self.once(["/usr/bin/time", "-f", "%M", "-o", most, *command], asked)
        return int(Path(most).read_text()), Path(self.folder, "printed").read_text()

    def command(self, source, lines, words, program):
        """What starts a session, and the file that it reads."""
        number = next(self.numbers)
        return ([program or self.program, *words, self.file(f"program{number}.pl", source)],
                self.file(f"input{number}", "\n".join(lines) + "\n"))

    def once(self, command, asked):
        """The seconds of a session."""
        with open(asked) as heard, open(os.path.join(self.folder, "printed"), "w") as out:
            start = time.perf_counter()
            child = subprocess.Popen(command, stdin=heard, stdout=out, stderr=subprocess.DEVNULL, env=surroundings(),
                                     start_new_session=True)
            try:
                return self.ended(child, start)
            finally:
                if child.poll() is None:
                    os.killpg(child.pid, signal.SIGKILL)
                    child.wait()

    def ended(self, child, start):
        """The seconds of a session, once it has ended. Its memory is looked at seldom: it waits while that is told."""
        descriptor = os.pidfd_open(child.pid)
        end = select.poll()
        end.register(descriptor, select.POLLIN)
        try:
            while not end.poll(50):
                if time.perf_counter() - start > LONGEST or memory(child) > MOST_MEMORY:
                    raise Cut
            took = time.perf_counter() - start
        finally:
            os.close(descriptor)
        if child.wait():
            raise Cut
        return took

    def dialogue(self, source, query, replies, words=()):
        """The seconds from each line to what is said to it; the lines are the query and then the replies."""
        file = self.file("program.pl", source)
        times, last = [], "end: "
        with subprocess.Popen([self.program, *words, file], stdin=subprocess.PIPE, stdout=subprocess.PIPE, text=True,
                              stderr=subprocess.DEVNULL, env=surroundings()) as talk:
            guard = threading.Timer(3 * LONGEST, talk.kill)
            guard.start()
            try:
                talk.stdout.readline()
                for line in [query] + replies:
                    start = time.perf_counter()
                    talk.stdin.write(line + "\n")
                    talk.stdin.flush()
                    if not any(answer.startswith(last) for answer in talk.stdout):
                        raise Cut
                    times.append(time.perf_counter() - start)
                    last = ("question ", "bug", "no bug", "unanswered")
                talk.stdin.close()
            except BrokenPipeError:
                raise Cut from None
            finally:
                guard.cancel()
                talk.kill()
        return times

    def row(self, what, figure, unit, most):
        """A row: what was measured, its figure, and the most that it may be."""
        met = figure is not None and figure <= most
        self.met = self.met and met
        shown = "cut off" if figure is None else f"{figure:.3g} {unit}".strip()
        print(f"{what + ':':66} {shown:>12}  of at most {most:g}{'' if met else '  NOT MET'}", flush=True)

    def measured(self, rows, measure):
        """The rows that a measure gives, in the order of their names, units and bounds; none where it is cut off."""
        if not any(self.wanted(what) for what, _, _ in rows):
            return
        try:
            figures = measure()
        except Cut:
            figures = [None] * len(rows)
        for (what, unit, most), figure in zip(rows, figures):
            self.row(what, figure, unit, most)


def ports(printed):
    """The ports of the last run."""
    return int(re.findall(r", (\d+) ports", printed)[-1])


def turns(*measures, enough=ENOUGH):
    """The seconds that each of these measures tells. They take turns, so those of one round had the machine at one pace."""
    took = []
    started = time.perf_counter()
    while not took or (max(took[-1]) <= LONG and (len(took) < LEAST_ROUNDS or (
            len(took) < MOST_ROUNDS and time.perf_counter() - started < enough * len(measures)))):
        took.append([measure() for measure in measures])
    return list(zip(*took))


def more(whole, bare):
    """The least seconds that whole sessions take beside bare ones."""
    return min(whole) - min(bare)


def middle(whole, bare):
    """The seconds that a whole session takes beside the bare one of its round, in the middle round."""
    return statistics.median(one - that for one, that in zip(whole, bare))


def times(whole, bare, other, other_bare=(0,)):
    """How many times as long whole sessions take as others, each beside bare ones: the middle one of the ratios of all rounds."""
    return statistics.median((one - min(bare)) / (that - min(other_bare)) for one, that in zip(whole, other))


def writing(path, printed):
    """What tells the seconds in which the system writes what was printed to a file, each line by a call of its own, as the
    program writes it. What the loop itself takes is taken out."""
    lines = printed.encode().splitlines(keepends=True)

    def once():
        with open(path, "wb", buffering=0) as out:
            file, start = out.fileno(), time.perf_counter()
            for line in lines:
                os.write(file, line)
            written = time.perf_counter()
            for line in lines:
                len(line)
            return 2 * written - start - time.perf_counter()

    return once


def swipl(bench, source, goal, runs):
    """What tells the processor's seconds of a goal in SWI-Prolog, up to its first solution: the mean of so many runs."""
    file = bench.file(f"program{next(bench.numbers)}.pl", source)
    text = (f"set_prolog_flag(occurs_check, true), consult('{file}'), statistics(cputime, Start), "
            f"forall(between(1, {runs}, _), ignore({goal})), statistics(cputime, End), "
            f"Took is (End - Start) / {runs}, writeln(Took)")
    command = ["swipl", "-q", "-f", "none", "-g", text, "-t", "halt"]
    return lambda: float(subprocess.run(command, capture_output=True, text=True, timeout=600).stdout)


BARE = ["--budget", "1"]
WHOLE = ["--budget", "1000000", "--answers", "1"]


def bare_and_whole(bench, source, query, program=None):
    """What tells the seconds of a query's runs of one port, and what tells those of whole ones."""
    return [bench.timed(source, query, BARE, program), bench.timed(source, query, WHOLE, program)]


def beside_bare(bench, source, query):
    """The ports of a whole run of a query, and the KB that it takes beside one of one port."""
    low, _ = bench.peak(source, query, BARE)
    peak, out = bench.peak(source, query, WHOLE)
    return ports(out), peak - low


def beside_swipl(bench):
    programs = [
        ("queens", QUEENS, "queens(_)", 1, 5, 6, 150),
        ("colouring of a map", colours(100), "maps", 1, 20, 6, 150),
        ("counting loop", COUNT, "count(100000)", 1, 5, 10, 350),
        ("hanoi of 12 discs", HANOI, "hanoi(12, a, b, c)", 3, 20, 10, 350),
        ("tak of 15, 10 and 5", TAK, "tak(15, 10, 5, _)", 1, 20, 10, 350),
        ("naive reverse of 30", REVERSE, f"reverse({elements(30)}, _)", 100, 2000, 15, None),
        ("naive reverse of 215", REVERSE, f"reverse({elements(215)}, _)", 3, 50, 15, 350),
        ("naive reverse of 690", REVERSE, f"reverse({elements(690)}, _)", 1, 5, 20, 350),
    ]
    for what, source, goal, repeat, runs, ratio, bytes_a_port in programs:
        query = [f"?- {goal}."] * repeat

        def measure():
            passed, kilobytes = beside_bare(bench, source, query)
            theirs = [swipl(bench, source, goal, runs)] if shutil.which("swipl") else []
            bare, whole, *swi = turns(*bare_and_whole(bench, source, query), *theirs)
            print(f"{what}: {passed} ports, {more(whole, bare) / repeat / passed * 1e9:.0f} ns each"
                  + (f", {min(swi[0]) / passed * 1e9:.0f} ns each in SWI-Prolog" if swi else ""))
            figures = [times(whole, bare, swi[0]) / repeat if swi else None]
            if bytes_a_port:
                figures.append(kilobytes * 1024 / passed)
            return figures

        def beside_unrecorded():
            bare, whole, bare_without, without = turns(
                *bare_and_whole(bench, source, query), *bare_and_whole(bench, source, query, bench.unrecorded), enough=MANY)
            return [times(whole, bare, without, bare_without)]

        rows = [(f"{what}, times SWI-Prolog", "", ratio)]
        if bytes_a_port:
            rows.append((f"{what}, memory for each port", "bytes", bytes_a_port))
        bench.measured(rows, measure)
        if bench.unrecorded:
            bench.measured([(f"{what}, times the same without a record", "", 1.5)], beside_unrecorded)

    def long_and_short():
        figures = []
        for number, repeat in [(690, 1), (30, 100)]:
            query = [f"?- reverse({elements(number)}, _)."] * repeat
            passed = ports(bench.peak(REVERSE, query, WHOLE)[1])
            figures.append((passed * repeat, bare_and_whole(bench, REVERSE, query)))
        (long_ports, long), (short_ports, short) = figures
        bare, whole, short_bare, short_whole = turns(*long, *short)
        return [times(whole, bare, short_whole, short_bare) * short_ports / long_ports]

    bench.measured([("a port of the reverse of 690, times one of 30", "", 1.3)], long_and_short)


def growing(bench):
    walk = "e(1,2). e(2,3). e(3,1).\nwalk(X,S) :- e(X,Y), walk(Y,[Y|S]).\n"
    programs = [
        ("walk with its way", walk, "walk(1,[])"),
        ("a growing term", "g(X) :- g(f(X)).\n", "g(a)"),
        ("a growing list", "l(L) :- l([a|L]).\n", "l([])"),
        ("a growing open list", "l(L) :- l([_|L]).\n", "l([])"),
    ]
    for what, source, goal in programs:
        run = [f"?- {goal}."]

        def once():
            took, peak, _ = bench.session(source, run)
            return [took, peak / 1024]

        def chain():
            low, _ = bench.peak(source, run)
            peak, out = bench.peak(source, run + ["loop."])
            bare, took = turns(bench.timed(source, run), bench.timed(source, run + ["loop."]))
            beside = max(0, peak - low - len(out) // 1024)
            return [more(took, bare), beside / 1024]

        def most():
            took, peak, _ = bench.session(source, run, ["--budget", "1000000"])
            return [took, peak / 1024]

        bench.measured([(f"{what}, 100,000 ports", "s", 0.2), (f"{what}, their memory", "MB", 100)], once)
        bench.measured([(f"{what}, `loop.`", "s", 0.5), (f"{what}, `loop.`, memory", "MB", 200)], chain)
        bench.measured([(f"{what}, 1,000,000 ports", "s", 2), (f"{what}, their memory of 1,000,000", "MB", 1024)], most)

    def passed_on():
        source = "t(0,a).\nt(N,f(T,T)) :- N > 0, M is N-1, t(M,T).\np(T) :- p(T).\n"
        bare, took = turns(bench.timed(source, ["?- t(17,_)."], ["--answers", "1"]), bench.timed(source, ["?- t(17,T), p(T)."]))
        return [more(took, bare)]

    bench.measured([("a term of 2^18 symbols passed on, 100,000 ports", "s", 0.2)], passed_on)

    def walked_down():
        source = "last([X], X).\nlast([_|Xs], X) :- last(Xs, X).\n"
        goal = "last([" + ",".join(["a"] * 16000) + "], _)"
        return [bench.seconds(source, [f"?- {goal}."], ["--answers", "1", "--budget", "1000000"])]

    bench.measured([("a list of 16,000 elements walked down", "s", 0.2)], walked_down)

    def unification():
        left = ",".join(f"X{i}" for i in range(1, 41))
        right = ",".join(f"g(X{i},a,X{i})" for i in range(40))
        took = bench.seconds("q.\n", [f"?- f({left}) = f({right})."], ["--budget", "1"])
        return [took * 1000]

    bench.measured([("a unification whose terms double 40 times", "ms", 10)], unification)

    def long_goals():
        source = f"p :- q({elements(450)}), p.\nq(_).\n"
        took, peak, _ = bench.session(source, ["?- p."], ["--budget", "1000000"])
        return [took, peak / 1024]

    bench.measured([("a call with a list of 450 elements, 1,000,000 ports", "s", 1.5), ("their memory", "MB", 500)], long_goals)


def facts(bench):
    rule = "walk(0, X, X).\nwalk(N, X, Y) :- N > 0, M is N - 1, e(X, Z), walk(M, Z, Y).\n"
    goal = "walk(5000, 1, Y)"

    def program(number):
        return rule + "".join(f"e({i}, {i * 7 % number + 1}).\n" for i in range(1, number + 1))

    def beside():
        query = [f"?- {goal}."]
        theirs = [swipl(bench, program(19000), goal, 20)] if shutil.which("swipl") else []
        bare, whole, few_bare, few_whole, *swi = turns(
            *bare_and_whole(bench, program(19000), query), *bare_and_whole(bench, program(1000), query), *theirs)
        # A program of 19,000 facts takes several times as long to load as to run.
        took = middle(whole, bare)
        return [took / statistics.median(swi[0]) if swi else None, took / middle(few_whole, few_bare)]

    bench.measured([("5,000 look-ups in 19,000 facts, times SWI-Prolog", "", 10), ("times those in 1,000 facts", "", 2)], beside)


def tables(bench):
    def repeated():
        lines = []
        for i in range(20000):
            lines += [f"?- r({i}).", "wrong(1,1).", "yes."]
        return [bench.seconds("r(X) :- q(X).\nq(_).\n", lines)]

    bench.measured([("20,000 times a query, its symptom and a reply", "s", 1)], repeated)

    def single():
        lines = ["?- count(20000).", "wrong(1,1)."] + ["yes."] * 20000
        words = ["--strategy", "single", "--answers", "1", "--budget", "1000000"]
        return [bench.seconds("count(0).\ncount(N) :- N > 0, M is N - 1, count(M).\n", lines, words)]

    bench.measured([("`--strategy single` over 20,000 suspects", "s", 1)], single)

    def operators():
        names = ",".join(f"a{i}" for i in range(100000))
        return [bench.seconds(f":- op(700, xfx, [{names}]).\nq.\n", ["?- q."])]

    bench.measured([("100,000 operators of one directive", "s", 1)], operators)

    def leap():
        names = ",".join(f"p{i}/0" for i in range(8000))
        lines = [f"trace(leap([{names}])).", "?- c(_)."]
        return [bench.seconds("c(X) :- c(X).\n", lines, ["--budget", "300000"])]

    bench.measured([("`leap` of 8,000 predicates, 300,000 ports", "s", 1)], leap)

    def known():
        statements = ["form(1)."] + [f"true(q({i}, _), yes)." for i in range(20000)]
        replies = bench.file("replies.pl", "\n".join(statements) + "\n")
        source = "p(0).\np(N) :- N > 0, M is N - 1, q(N, M), p(M).\nq(_, _).\n"
        words = ["--strategy", "top", "--answers", "1", "--oracle", replies]
        return [bench.seconds(source, ["?- p(500).", "wrong(1,1)."] + ["no."] * 500, words)]

    bench.measured([("500 look-ups among 20,000 statements with variables", "s", 1)], known)


def diagnoses(bench):
    programs = [
        ("d(N,X) of 16,000", "d(0,a).\nd(N,f(X)) :- N > 0, M is N-1, d(M,X).\n", "d(16000,X)"),
        ("append of 16,000", REVERSE, "append([" + ",".join(["a"] * 16000) + "], [b], Zs)"),
        ("naive reverse of 400", REVERSE, f"reverse({elements(400)}, Ys)"),
    ]
    words = ["--answers", "1", "--budget", "1000000"]
    for what, source, goal in programs:
        def measure():
            low, _ = bench.peak(source, [f"?- {goal}."], words)
            peak, out = bench.peak(source, [f"?- {goal}.", "wrong(1, 1).", "stop."], words)
            times = bench.dialogue(source, f"?- {goal}.", ["wrong(1, 1)."] + ["yes."] * 5 + ["stop."], words)
            return [times[1], (peak - low - len(out) // 1024) / 1024, 1000 * max(times[2:-1])]

        bench.measured([(f"{what}: first question", "s", 1), (f"{what}: memory beside the run", "MB", 300),
                        (f"{what}: a question", "ms", 10)], measure)

    source = "q(1).\nn(1).\nn(2).\n"
    choices = ", ".join(["n(_)"] * 19)

    def first():
        times = bench.dialogue(source, f"?- q(X), {choices}, fail.", ["wrong(1, 1)."], ["--budget", "100000"])
        return [1000 * times[1]]

    bench.measured([("the first diagnosis of a run of 100,000 ports", "ms", 50)], first)

    def trusted():
        replies = bench.file("trusted.pl", "form(2).\ntrusted(q/1).\n")
        chain = "p(0).\np(N) :- N > 0, M is N - 1, q(N), p(M).\nq(_).\n"
        times = bench.dialogue(chain, "?- p(5000).", ["wrong(1, 1)."], words + ["--oracle", replies])
        return [1000 * times[1]]

    bench.measured([("a diagnosis of 10,000 suspects, half of them trusted: first question", "ms", 50)], trusted)

    def part_of_run(*session):
        """The least time of a first diagnosis, as a part of the least of its run, of some dialogues."""
        dialogues = [bench.dialogue(*session) for _ in range(LEAST_ROUNDS)]
        return [min(diagnosis for _, diagnosis in dialogues) / min(run for run, _ in dialogues)]

    def part():
        return part_of_run(source, f"?- q(X), {choices}, fail.", ["wrong(1, 1)."], ["--budget", "1000000"])

    bench.measured([("the first diagnosis of a run of 1,000,000 ports, part of its time", "", 0.1)], part)

    def counted():
        return part_of_run(COUNT, "?- count(166666).", ["wrong(1, 1)."], words)

    bench.measured([("the first diagnosis of a counting loop of 1,000,000 ports, part of its time", "", 0.1)], counted)

    def printed():
        query = ["?- maps."]
        _, out = bench.peak(colours(1000), query, ["--trace"])
        bare, took, wrote = turns(bench.timed(colours(1000), query), bench.timed(colours(1000), query, ["--trace"]),
                                  writing(bench.file("lines", ""), out))
        print(f"of a printed port: {min(wrote) / ports(out) * 1e9:.0f} ns are the system's, to write a line")
        return [more(took, bare) / ports(out) * 1e9]

    bench.measured([("a printed port, more than one that isn't", "ns", 500)], printed)


def references(bench):
    count = "c(0).\nc(N) :- N > 0, M is N - 1, c(M).\n"
    right = count + "p(_) :- c(11).\nq(_) :- c(11).\n" + "".join(f"f({i}).\n" for i in range(996))
    source = "p(0).\np(N) :- N > 0, M is N - 1, q(N), p(M).\nq(_).\n"
    words = ["--strategy", "single", "--answers", "1", "--budget", "1000000"]
    told = ["?- p(1000).", "wrong(1,1)."]

    def reply():
        asked = [source, told, words + ["--reference", bench.file("right.pl", right)]]
        _, out = bench.peak(*asked)
        replies = out.count("(reference)")
        if not replies:
            raise Cut
        query = ["?- q(1)."] * 2000
        _, ran = bench.peak(right, query)
        mine, whole, bare, runs = turns(
            bench.timed(source, told + ["yes."] * 2000, words), bench.timed(*asked),
            bench.timed(right, query, ["--budget", "1"]), bench.timed(right, query))
        print(f"{replies} replies of a reference, {ports(ran)} ports each")
        return [1000 * (more(whole, mine) / replies - more(runs, bare) / len(query))]

    bench.measured([("a reply of a reference of 1,000 clauses, more than its run", "ms", 0.1)], reply)

    def starts():
        lines = "".join(f"fact({i}, [a,b,c,d,e,f,g,h,i,j,k,l,m,n,o,p,q,r]).\n" for i in range(1, 19900))
        return [bench.seconds("q.\n", [], ["--reference", bench.file("right.pl", lines)])]

    bench.measured([("a session with a reference of 1 MB starts", "s", 0.2)], starts)

    def silent():
        endless = bench.file("endless.pl", "q(X) :- q(X).\n")
        asked = ["r(X) :- q(X).\nq(1).\n", ["?- r(1).", "wrong(1,1)."], ["--reference", endless]]
        took, run = turns(bench.timed(*asked), bench.timed("q(X) :- q(X).\n", ["?- q(1)."]))
        return [times(took, (0,), run)]

    bench.measured([("a question without a reply of a reference, times a run of 100,000 ports", "", 2)], silent)


def main():
    words = sys.argv[1:]
    only = ""
    if words[:1] == ["--only"]:
        only, words = words[1], words[2:]
    if not words:
        if subprocess.run([TOP / ".ci" / "build"]).returncode:
            sys.exit(1)
        words = [str(TOP / "crates" / "apd" / "out" / "apd")]
    with tempfile.TemporaryDirectory() as folder:
        bench = Bench(folder, words[0], words[1] if len(words) > 1 else None, only)
        for part in (beside_swipl, growing, facts, tables, diagnoses, references):
            part(bench)
    sys.exit(0 if bench.met else 1)


main()
