"""Whether one written term is an instance of another, by their texts alone: no table of operators is needed.

A question shows a call as the whole proof leaves it, a port as it was then. So the call of a question is an instance of
the atom of its exit.
"""
from __future__ import annotations

from dataclasses import dataclass
from typing import Dict, List, Optional, Tuple, Union

from terminal.prolog import tokens

CLOSES = {"(": ")", "[": "]", "{": "}"}


@dataclass(frozen=True)
class Group:
    """What stands in a pair of brackets: parts between commas, and in a list what follows the bar."""

    bracket: str
    parts: Tuple["Items", ...]
    tail: Optional["Items"] = None


Items = Tuple[Union[str, Group], ...]
Values = Dict[str, Items]


def is_instance(term: str, pattern: str) -> bool:
    """Whether the term is the pattern with terms for its variables."""
    if term == pattern:
        return True
    name, other = term.partition("(")[0], pattern.partition("(")[0]
    if name != other and name.isidentifier() and other.isidentifier():
        return False
    return _match(_read(pattern), _read(term), {}) is not None


def _read(text: str) -> Items:
    return _items([token.group() for token in tokens(text)][::-1])


def _items(rest: List[str]) -> Items:
    """The items up to the next mark that ends a part; the tokens stand last first."""
    found: List[Union[str, Group]] = []
    while rest and rest[-1] not in (",", "|", ")", "]", "}"):
        token = rest.pop()
        found.append(_group(token, rest) if token in CLOSES else token)
    return tuple(found)


def _group(bracket: str, rest: List[str]) -> Group:
    """The group that this bracket opens."""
    parts, tail = [_items(rest)], None
    while rest and rest[-1] != CLOSES[bracket]:
        if rest.pop() == "|":
            tail = _items(rest)
        else:
            parts.append(_items(rest))
    if rest:
        rest.pop()
    return Group(bracket, tuple(parts) if parts != [()] else (), tail)


def _match(pattern: Items, term: Items, values: Values) -> Optional[Values]:
    """The values of the pattern's variables that make it the term, added to those that are known."""
    if not pattern:
        return values if not term else None
    first, rest = pattern[0], pattern[1:]
    if isinstance(first, str) and first.startswith("_"):
        for count in range(len(term) - len(rest), 0, -1):
            bound = _bound(first, term[:count], values)
            found = None if bound is None else _match(rest, term[count:], bound)
            if found is not None:
                return found
        return None
    if not term:
        return None
    if isinstance(first, Group) and isinstance(term[0], Group):
        found = _match_groups(first, term[0], values)
        return None if found is None else _match(rest, term[1:], found)
    return _match(rest, term[1:], values) if first == term[0] else None


def _match_groups(pattern: Group, term: Group, values: Values) -> Optional[Values]:
    """The values that make one group the other. What follows a list's bar may stand for further elements."""
    count = len(pattern.parts)
    if pattern.bracket != term.bracket or count > len(term.parts):
        return None
    found: Optional[Values] = values
    for one, other in zip(pattern.parts, term.parts):
        found = None if found is None else _match(one, other, found)
    more = term.parts[count:]
    if found is None or pattern.tail is None:
        return None if more or term.tail else found
    return _match(pattern.tail, term.tail if term.tail and not more else (Group("[", more, term.tail),), found)


def _bound(name: str, value: Items, values: Values) -> Optional[Values]:
    """The values with this one, unless the variable has another. An operand may stand in parentheses."""
    if len(value) == 1 and isinstance(value[0], Group) and value[0].bracket == "(" and len(value[0].parts) == 1:
        value = value[0].parts[0]
    if name in values:
        return values if values[name] == value else None
    return {**values, name: value}
