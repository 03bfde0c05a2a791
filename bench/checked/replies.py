"""Replies with their questions, what they say, and the findings that follow from them."""
from __future__ import annotations

from typing import List, NamedTuple, Optional, Set, Tuple, Union

from .terms import Clause, Fun, Term, apply, canonical, canonical_one, match, variables
from .terms import is_always_true, is_built_in, is_goal, is_ground, is_instance, is_instance_of_clause, is_true, is_user_atom
from .tracing import Record

Reply = Union[str, List[Term]]  # yes, no, unknown, or values


class Question(NamedTuple):
    """`true` has one atom, `covers` a head and its body, `below` a call and its caller."""

    kind: str
    atoms: Tuple[Term, ...]

    def form(self) -> "Question":
        """In canonical form: two calls each by itself."""
        atoms = tuple(map(canonical_one, self.atoms)) if self.kind == "below" else canonical(self.atoms)
        return Question(self.kind, atoms)

    def may_be_asked(self) -> bool:
        if self.kind == "covers":
            head, *body = self.atoms
            return is_user_atom(head) and is_ground(head) and 1 <= len(body) <= 64 and all(map(is_goal, body))
        return all(map(is_user_atom, self.atoms))

    def with_values(self, values: List[Term]) -> List[Term]:
        """The body with these values of its variables, by first appearance."""
        own = list(dict.fromkeys(v for atom in self.atoms[1:] for v in variables(atom)))
        return [apply(dict(zip(own, values)), atom) for atom in self.atoms[1:]]

    def fits(self, reply: Reply, counts_suspects: bool) -> bool:
        if isinstance(reply, str):
            return reply == "no" or self.kind != "covers" and (reply == "yes" or self.kind == "true" and counts_suspects)
        if self.kind != "covers" or not all(map(is_ground, reply)):
            return False
        own = {v for atom in self.atoms[1:] for v in variables(atom)}
        return len(own) == len(reply) and all(is_true(atom) for atom in self.with_values(reply) if is_built_in(atom))


class Known:
    """Replies in their order, and the predicates that are trusted."""

    def __init__(self) -> None:
        self.pairs: List[Tuple[Question, Reply]] = []
        self.trusted: Set[Tuple[str, int]] = set()

    def add(self, question: Question, reply: Reply) -> None:
        self.pairs.append((question.form(), reply))

    def has(self, question: Question, reply: Reply) -> bool:
        return (question.form(), reply) in self.pairs

    def says_yes(self, atom: Term) -> bool:
        return any(
            q.kind == "true" and r == "yes" and is_instance(atom, q.atoms[0])
            or q.kind == "covers" and isinstance(r, list) and any(is_instance(atom, a) for a in q.with_values(r))
            for q, r in self.pairs
        )

    def says_no(self, atom: Term) -> bool:
        return any(q.kind == "true" and r == "no" and is_instance(q.atoms[0], atom) for q, r in self.pairs)

    def grants(self, record: Record, atom: Term) -> bool:
        if self.says_yes(atom):
            return True
        if (atom.name, len(atom.args)) not in self.trusted:
            return False
        boxes = [n for n, box in enumerate(record.boxes) if box and box.is_user]
        return any(is_instance(atom, point.head) for box in boxes for point in record.exits(box))

    def is_apart(self, call: Term, caller: Term) -> bool:
        """Whether the call can't be below its caller: they are one, it was said, or it isn't below what is below that caller."""
        seen, open_calls = set(), [canonical_one(caller)]
        while open_calls:
            above = open_calls.pop()
            if above == call or self.has(Question("below", (call, above)), "no"):
                return True
            seen.add(above)
            lower = [q.atoms[1] for q, r in self.pairs if q.kind == "below" and r == "yes" and q.atoms[0] == above]
            open_calls += [p for p in lower if p not in seen]
        return False


class Judge:
    """Decides findings for a program, the record of a run and what is known."""

    def __init__(self, program: List[Clause], record: Record, known: Known) -> None:
        self.program, self.record, self.known = program, record, known

    def clause(self, number: int) -> Optional[Clause]:
        return self.program[number - 1] if 1 <= number <= len(self.program) else None

    def is_instance(self, number: int, head: Term, body: Tuple[Term, ...]) -> bool:
        clause = self.clause(number)
        return clause is not None and is_instance_of_clause(head, body, clause)

    def is_line(self, number: int, line: int) -> bool:
        clause = self.clause(number)
        return clause is not None and clause.line == line

    def holds(self, atom: Term) -> bool:
        return is_always_true(atom) if is_built_in(atom) else self.known.grants(self.record, atom)

    def is_wrong(self, number: int, head: Term, body: Tuple[Term, ...]) -> bool:
        return self.is_instance(number, head, body) and self.known.says_no(head) and all(map(self.holds, body))

    def are_candidates(self, members: List[Tuple[int, Term, Tuple[Term, ...]]]) -> bool:
        if len(members) < 2 or not self.known.says_no(members[0][1]):
            return False
        for at, (number, head, body) in enumerate(members):
            later = [canonical_one(member[1]) for member in members[at + 1 :]]
            heads = [atom for atom in body if not is_built_in(atom) and canonical_one(atom) in later]
            if not self.is_instance(number, head, body) or not all(atom in heads or self.holds(atom) for atom in body):
                return False
        return True

    def is_uncovered(self, goal: Term) -> bool:
        if is_built_in(goal) or not is_ground(goal) or not self.known.says_yes(goal):
            return False
        for clause in self.program:
            values: dict = {}
            if match(clause.head, goal, values) and not self.is_closed(goal, tuple(apply(values, a) for a in clause.body)):
                return False
        return True

    def is_closed(self, goal: Term, body: Tuple[Term, ...]) -> bool:
        if any(is_built_in(atom) and is_ground(atom) and not is_true(atom) for atom in body):
            return True
        if self.known.has(Question("covers", (goal, *body)), "no"):
            return True
        return all(map(is_ground, body)) and any(not is_built_in(atom) and self.known.says_no(atom) for atom in body)

    def is_violation(self, clause: int, goal: int, caller: Tuple[int, Term], callee: Tuple[int, Term]) -> bool:
        boxes = self.record.boxes
        if not (1 <= callee[0] < len(boxes) and 1 <= caller[0] < len(boxes)):
            return False
        point = self.record.points[boxes[callee[0]].source]
        named = (point.owner, point.clause, point.done + 1) == (caller[0], clause, goal)
        atoms = boxes[caller[0]].atom == caller[1] and boxes[callee[0]].atom == callee[1]
        earlier = point.body[: point.done]
        said = all(is_always_true(atom) if is_built_in(atom) else self.known.says_yes(atom) for atom in earlier)
        return named and atoms and said and self.known.is_apart(callee[1], caller[1])

    def do_descend(self, calls: int) -> bool:
        chain = [self.record.boxes[n].atom for n in self.record.chain()]
        pairs = zip(chain, chain[1:])
        return calls == len(chain) and all(self.known.has(Question("below", (low, high)), "yes") for high, low in pairs)
