"""Terms: integers, variables with numbers, and names with arguments; instances, canonical forms, and integer arithmetic."""
from __future__ import annotations

from typing import Dict, Iterator, List, NamedTuple, Optional, Tuple, Union


class Var(NamedTuple):
    number: int


class Fun(NamedTuple):
    """A name with its arguments; an atom, in the words of the rules, unless it is no goal."""

    name: str
    args: Tuple["Term", ...] = ()


Term = Union[int, Var, Fun]
Values = Dict[Var, Term]


class Clause(NamedTuple):
    """A head with the atoms of a body, which share their variables, and the line of a program where it begins."""

    head: Term
    body: Tuple[Term, ...]
    line: int = 0


EMPTY = Fun("[]")
# The built-in goals, and the names that are no goals of a program's own.
BUILT_IN = {("true", 0), ("fail", 0), ("=", 2), ("is", 2), ("=:=", 2), ("=\\=", 2), ("<", 2), ("=<", 2), (">", 2), (">=", 2)}
REFUSED = set(
    """,/2 !/0 \\+/1 not/1 ;/2 ->/2 :-/1 :-/2 ?-/1 -->/2 \\=/2 ==/2 \\==/2 @</2 @=</2 @>/2 @>=/2 compare/3 var/1 nonvar/1 atom/1
    number/1 integer/1 float/1 atomic/1 compound/1 callable/1 is_list/1 ground/1 =../2 functor/3 arg/3 copy_term/2
    atom_codes/2 atom_chars/2 char_code/2 atom_length/2 atom_concat/3 sub_atom/5 number_codes/2 number_chars/2 atom_number/2
    call/1 call/2 call/3 call/4 call/5 call/6 call/7 call/8 once/1 ignore/1 forall/2 findall/3 bagof/3 setof/3 phrase/2
    phrase/3 assert/1 asserta/1 assertz/1 retract/1 retractall/1 abolish/1 op/3 consult/1 catch/3 throw/1 halt/0 halt/1
    write/1 write/2 writeln/1 writeq/1 print/1 nl/0 nl/1 tab/1 put_char/1 get_char/1 read/1 read/2 format/1 format/2 format/3
    open/3 open/4 close/1""".split()
)


def is_built_in(term: Term) -> bool:
    return isinstance(term, Fun) and (term.name, len(term.args)) in BUILT_IN


def is_user_atom(term: Term) -> bool:
    return isinstance(term, Fun) and not is_built_in(term) and f"{term.name}/{len(term.args)}" not in REFUSED


def is_goal(term: Term) -> bool:
    return is_built_in(term) or is_user_atom(term)


def variables(term: Term) -> Iterator[Var]:
    """The variables of a term, as often as they stand there, from the left."""
    if isinstance(term, Var):
        yield term
    elif isinstance(term, Fun):
        for arg in term.args:
            yield from variables(arg)


def is_ground(term: Term) -> bool:
    return next(variables(term), None) is None


def size(term: Term) -> int:
    return 1 + sum(map(size, term.args)) if isinstance(term, Fun) else 1


def apply(values: Values, term: Term) -> Term:
    """The term with these values in place of its variables, all at once."""
    if isinstance(term, Var):
        return values.get(term, term)
    if isinstance(term, Fun) and term.args:
        return Fun(term.name, tuple(apply(values, arg) for arg in term.args))
    return term


def canonical(terms: Tuple[Term, ...]) -> Tuple[Term, ...]:
    """Terms that share their variables, numbered from 1 by first appearance."""
    numbers: Values = {}
    for term in terms:
        for variable in variables(term):
            numbers.setdefault(variable, Var(len(numbers) + 1))
    return tuple(apply(numbers, term) for term in terms)


def canonical_one(term: Term) -> Term:
    return canonical((term,))[0]


def match(general: Term, special: Term, values: Values) -> bool:
    """Whether values of the general term's variables, beside those that are there, make the special one of it: they are added."""
    if isinstance(general, Var):
        return values.setdefault(general, special) == special
    if isinstance(general, Fun) and isinstance(special, Fun):
        same = general.name == special.name and len(general.args) == len(special.args)
        return same and all(match(g, s, values) for g, s in zip(general.args, special.args))
    return general == special


def is_instance(special: Term, general: Term) -> bool:
    return match(general, special, {})


def is_instance_of_clause(head: Term, body: Tuple[Term, ...], clause: Clause) -> bool:
    values: Values = {}
    return len(body) == len(clause.body) and all(match(g, s, values) for g, s in zip((clause.head, *clause.body), (head, *body)))


def elements(term: Term) -> Optional[List[Term]]:
    """The elements of a list that ends in []."""
    found = []
    while isinstance(term, Fun) and term.name == "." and len(term.args) == 2:
        found.append(term.args[0])
        term = term.args[1]
    return found if term == EMPTY else None


def listed(terms: List[Term], tail: Term = EMPTY) -> Term:
    for term in reversed(terms):
        tail = Fun(".", (term, tail))
    return tail


class Fault(Exception):
    """An arithmetic fault, by its name."""


def within(number: int) -> int:
    if not -(2**63) <= number < 2**63:
        raise Fault("Overflow")
    return number


def truncated(a: int, b: int) -> int:
    return abs(a) // abs(b) * (1 if (a < 0) == (b < 0) else -1)


def divided(name: str, a: int, b: int) -> int:
    if b == 0:
        raise Fault("ZeroDivisor")
    return truncated(a, b) if name == "//" else a % b if name == "mod" else a - truncated(a, b) * b


BINARY = {"+": int.__add__, "-": int.__sub__, "*": int.__mul__, "min": min, "max": max}
UNARY = {"-": int.__neg__, "abs": abs}


def value(term: Term) -> int:
    """The value of an expression."""
    if isinstance(term, int):
        return term
    if isinstance(term, Var):
        raise Fault("Unbound")
    if len(term.args) == 2 and (term.name in BINARY or term.name in ("//", "mod", "rem")):
        a, b = value(term.args[0]), value(term.args[1])
        return within(BINARY[term.name](a, b) if term.name in BINARY else divided(term.name, a, b))
    if len(term.args) == 1 and term.name in UNARY:
        return within(UNARY[term.name](value(term.args[0])))
    raise Fault("NotEvaluable")


COMPARED = {"=:=": int.__eq__, "=\\=": int.__ne__, "<": int.__lt__, "=<": int.__le__, ">": int.__gt__, ">=": int.__ge__}


def compares(goal: Fun) -> bool:
    a = value(goal.args[0])
    return COMPARED[goal.name](a, value(goal.args[1]))


def is_true(goal: Term) -> bool:
    """Whether a built-in goal without variables is true."""
    try:
        if goal.name == "is":
            return type(goal.args[0]) is int and goal.args[0] == value(goal.args[1])
        if goal.name in COMPARED:
            return compares(goal)
        return goal.name == "true" or goal.name == "=" and goal.args[0] == goal.args[1]
    except Fault:
        return False


def is_always_true(goal: Term) -> bool:
    """Whether all ground instances of a built-in goal are true; of one with variables, where it says that a term is itself."""
    return is_true(goal) if is_ground(goal) else goal.name == "=" and goal.args[0] == goal.args[1]
