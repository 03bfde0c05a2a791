"""A plain tracer: the search for a query by its definition, cut at a budget of ports and a number of answers, and the record of
the part that is passed. It copies instances, and looks at every clause of a goal's predicate."""
from __future__ import annotations

from typing import Dict, List, NamedTuple, Optional, Tuple

from .terms import Clause, Fault, Fun, Term, Var, apply, canonical, canonical_one, compares, is_built_in, size, value, variables

BUILT_IN_CLAUSE = 4294967295
MOST_SYMBOLS = 1_000_000


class Point(NamedTuple):
    """One use of a clause in a box, with so many goals done, and the point and the exit that it came from."""

    owner: int
    clause: int
    done: int
    head: Term
    body: Tuple[Term, ...]
    before: Optional[Tuple[int, int]]


class Box:
    """A goal that was called from a point; the port that it passed last."""

    def __init__(self, atom: Term, source: int) -> None:
        self.atom, self.source, self.last = atom, source, "Call"
        self.is_user = not is_built_in(atom)


class Record:
    """The boxes of a run, from number 1, and its points."""

    def __init__(self) -> None:
        self.boxes: List[Optional[Box]] = [None]
        self.points: List[Point] = []

    def exits(self, box: int) -> List[Point]:
        return [point for point in self.points if point.owner == box and point.done == len(point.body)]

    def chain(self) -> List[int]:
        """The boxes of the program's own goals that are open."""
        return [n for n, box in enumerate(self.boxes) if box and box.is_user and box.last in ("Call", "Redo")]


class Frame(NamedTuple):
    """A clause instance that the search is in, and the frame around it."""

    box: int
    depth: int
    clause: int
    head: Term
    body: Tuple[Term, ...]
    done: int
    point: int
    around: Optional["Frame"]


class Ended(Exception):
    """The run ends so."""


class Run:
    """A run of a query's goals. Bindings are kept in one table, and undone when the search goes back."""

    def __init__(self, program: List[Clause], goals: Tuple[Term, ...], budget: int, answers: int) -> None:
        self.program, self.budget, self.most = program, budget, answers
        self.bound: Dict[Var, Term] = {}
        self.trail: List[Var] = []
        self.fresh = 1 + max((v.number for goal in goals for v in variables(goal)), default=0)
        self.ports = self.answers = self.boxes = self.points = 0
        self.record, self.waiting = Record(), []
        try:
            first = self.point(0, 0, 0, Fun("[]"), goals, None)
            self.search(Frame(0, 0, 0, Fun("[]"), goals, 0, first, None))
            self.end = "exhausted"
        except Ended as ended:
            self.end = str(ended)

    def text(self) -> str:
        """The line of the run's end."""
        return f"end: {self.end}, {self.ports} ports, {self.answers} answers"

    # What is passed. A point is passed with the event that follows it.

    def pass_points(self) -> None:
        self.record.points += self.waiting
        self.waiting = []

    def port(self, box: int, name: str) -> None:
        if self.ports == self.budget:
            raise Ended("budget")
        self.pass_points()
        self.ports += 1
        if name != "Call":
            self.record.boxes[box].last = name

    def call(self, frame: Frame, goal: Term) -> int:
        self.boxes += 1
        atom = canonical_one(self.resolved(goal))
        if self.ports < self.budget:
            self.record.boxes.append(Box(atom, frame.point))
        self.port(self.boxes, "Call")
        return self.boxes

    def answer(self) -> None:
        self.pass_points()
        self.answers += 1
        if self.answers == self.most:
            raise Ended("answer limit")

    def point(self, owner: int, clause: int, done: int, head: Term, body: Tuple[Term, ...], before) -> int:
        head, *atoms = canonical((self.resolved(head), *map(self.resolved, body)))
        self.waiting.append(Point(owner, clause, done, head, tuple(atoms), before))
        self.points += 1
        return self.points - 1

    # Bindings.

    def walked(self, term: Term) -> Term:
        while isinstance(term, Var) and term in self.bound:
            term = self.bound[term]
        return term

    def resolved(self, term: Term) -> Term:
        term = self.walked(term)
        return Fun(term.name, tuple(map(self.resolved, term.args))) if isinstance(term, Fun) and term.args else term

    def unify(self, a: Term, b: Term) -> bool:
        a, b = self.walked(a), self.walked(b)
        if a == b:
            return True
        if not isinstance(a, Var):
            a, b = b, a
        if isinstance(a, Var):
            if any(v == a for v in variables(self.resolved(b))):
                return False
            self.bound[a] = b
            self.trail.append(a)
            return True
        same = isinstance(a, Fun) and isinstance(b, Fun) and a.name == b.name and len(a.args) == len(b.args)
        return same and all(self.unify(x, y) for x, y in zip(a.args, b.args))

    def undo(self, mark: int) -> None:
        while len(self.trail) > mark:
            del self.bound[self.trail.pop()]

    def check_size(self, box: int, *terms: Term) -> None:
        if sum(size(self.resolved(term)) for term in terms) > MOST_SYMBOLS:
            raise Ended(f"error Size in box {box}")

    def renamed(self, clause: Clause) -> Tuple[Term, Tuple[Term, ...]]:
        own = {v: None for term in (clause.head, *clause.body) for v in variables(term)}
        values = {v: Var(self.fresh + n) for n, v in enumerate(own)}
        self.fresh += len(own)
        return apply(values, clause.head), tuple(apply(values, goal) for goal in clause.body)

    # The search.

    def search(self, frame: Frame) -> None:
        if frame.done < len(frame.body):
            goal = frame.body[frame.done]
            (self.solve_built_in if is_built_in(goal) else self.solve)(frame, goal)
        elif frame.box == 0:
            self.answer()
        else:
            self.port(frame.box, "Exit")
            self.hand(frame.around, frame.point)
            self.port(frame.box, "Redo")

    def solve(self, frame: Frame, goal: Term) -> None:
        box = self.call(frame, goal)
        for number, clause in enumerate(self.program, 1):
            if (clause.head.name, len(clause.head.args)) != (goal.name, len(goal.args)):
                continue
            mark, (head, body) = len(self.trail), self.renamed(clause)
            if self.unify(goal, head):
                self.check_size(box, head, *body)
                point = self.point(box, number, 0, head, body, None)
                self.search(Frame(box, frame.depth + 1, number, head, body, 0, point, frame))
            self.undo(mark)
        self.port(box, "Fail")

    def solve_built_in(self, frame: Frame, goal: Term) -> None:
        box, mark = self.call(frame, goal), len(self.trail)
        try:
            succeeds = self.succeeds(self.resolved(goal))
        except Fault as fault:
            raise Ended(f"error {fault} in box {box}") from None
        if succeeds:
            self.check_size(box, goal)
            point = self.point(box, BUILT_IN_CLAUSE, 0, goal, (), None)
            self.port(box, "Exit")
            self.hand(frame, point)
            self.port(box, "Redo")
        self.undo(mark)
        self.port(box, "Fail")

    def succeeds(self, goal: Fun) -> bool:
        if goal.name in ("true", "fail"):
            return goal.name == "true"
        if goal.name == "=":
            return self.unify(*goal.args)
        return self.unify(goal.args[0], value(goal.args[1])) if goal.name == "is" else compares(goal)

    def hand(self, frame: Frame, exit_point: int) -> None:
        self.check_size(frame.box, frame.head, *frame.body)
        before = (frame.point, exit_point)
        point = self.point(frame.box, frame.clause, frame.done + 1, frame.head, frame.body, before)
        self.search(frame._replace(done=frame.done + 1, point=point))
