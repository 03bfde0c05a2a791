"""Reads and writes terms as Prolog does, by a table of operators. What has no reading raises Unreadable."""
from __future__ import annotations

import re
from typing import Dict, List, NamedTuple, Optional, Tuple

from .terms import EMPTY, Fun, Term, Var, listed

TOKEN = re.compile(
    r"""(?P<layout> \s+ | %[^\n]* | /\*.*?\*/ )
    | (?P<integer> [0-9]+ ) | (?P<variable> [A-Z_][A-Za-z0-9_]* ) | (?P<name> [a-z][A-Za-z0-9_]* )
    | (?P<quoted> '(?: \\. | '' | [^'\\] )*' ) | (?P<end> \.(?= \s | % | \Z ) )
    | (?P<graphic> [-#$&*+./:<=>?@^~\\]+ | [!;] ) | (?P<mark> [][(){},|] )""",
    re.VERBOSE | re.DOTALL,
)
ESCAPE = re.compile(r"''|\\x([0-9a-f]+)\\|\\(.)", re.DOTALL)
ESCAPED = {"n": "\n", "t": "\t", "\\": "\\", "'": "'"}
BARE = re.compile(r"[a-z][A-Za-z0-9_]*|(?!/\*|\.\Z)[-#$&*+./:<=>?@^~\\]+|\[\]|\{\}|[!;]")
STANDARD = [
    (1200, "xfx", ":- -->"), (1200, "fx", ":- ?-"), (1150, "fx", "dynamic discontiguous multifile initialization"),
    (1100, "xfy", ";"), (1050, "xfy", "->"), (1000, "xfy", ","), (900, "fy", "\\+"),
    (700, "xfx", "= \\= == \\== @< @=< @> @>= =.. is =:= =\\= < =< > >="), (500, "yfx", "+ - /\\ \\/"),
    (400, "yfx", "* / // rem mod << >>"), (200, "xfx", "**"), (200, "xfy", "^"), (200, "fy", "- \\"),
]


class Unreadable(Exception):
    """A text has no reading."""


class Token(NamedTuple):
    kind: str
    text: str
    spaced: bool


class Operators:
    """What names mean before one operand and between two: a priority, and the greatest ones of the operands."""

    def __init__(self) -> None:
        self.prefix: Dict[str, Tuple[int, int]] = {}
        self.infix: Dict[str, Tuple[int, int, int]] = {}
        for priority, kind, names in STANDARD:
            for name in names.split():
                self.define(priority, kind, name)

    def define(self, priority: int, kind: str, name: str) -> None:
        left, right = priority - (kind[0] == "x"), priority - (kind[-1] == "x")
        if len(kind) == 2:
            self.prefix[name] = (priority, right)
        else:
            self.infix[name] = (priority, left, right)


def unquoted(text: str) -> str:
    return ESCAPE.sub(lambda e: chr(int(e[1], 16)) if e[1] else ESCAPED[e[2]] if e[2] else "'", text[1:-1])


def tokens(text: str) -> List[Token]:
    found, at, spaced = [], 0, True
    while at < len(text):
        token = TOKEN.match(text, at)
        if not token:
            raise Unreadable
        kind, at = token.lastgroup or "", token.end()
        if kind == "layout":
            spaced = True
            continue
        kind = "name" if kind == "graphic" else kind
        found.append(Token(kind, unquoted(token[0]) if kind == "quoted" else token[0], spaced))
        spaced = False
    return found


class Reader:
    """Reads the clauses of a text one after another. The variables of each are numbered from 1; `names` has their names."""

    def __init__(self, operators: Operators, text: str) -> None:
        self.operators, self.tokens, self.at = operators, tokens(text), 0
        self.names: List[str] = []

    def is_over(self) -> bool:
        return self.at == len(self.tokens)

    def clause(self) -> Term:
        self.names = []
        term = self.term(1200)
        self.expect("end", ".")
        return term

    def peek(self, ahead: int = 0) -> Token:
        return self.tokens[self.at + ahead] if self.at + ahead < len(self.tokens) else Token("none", "", False)

    def next(self) -> Token:
        self.at += 1
        return self.tokens[self.at - 1] if self.at <= len(self.tokens) else Token("none", "", False)

    def expect(self, kind: str, text: str) -> None:
        token = self.next()
        if token.kind != kind or token.text != text:
            raise Unreadable

    def is_open(self, ahead: int = 0) -> bool:
        """Whether a parenthesis stands there, right behind the token before it."""
        return self.peek(ahead)[:2] == ("mark", "(") and not self.peek(ahead).spaced

    def is_alone(self) -> bool:
        """Whether a prefix operator before this token is a name that stands alone."""
        token = self.peek()
        if token.kind == "end" or token.kind == "mark" and token.text in ")]},|":
            return True
        is_infix = token.kind in ("name", "quoted") and token.text in self.operators.infix
        return is_infix and token.text not in self.operators.prefix and not self.is_open(1)

    def operand(self, most: int) -> Tuple[Term, int]:
        token = self.next()
        if token.kind == "integer":
            return self.integer(token.text), 0
        if token.kind == "variable":
            return self.variable(token.text), 0
        if token.kind == "mark" and token.text in "([{":
            return self.bracketed(token.text), 0
        if token.kind not in ("name", "quoted"):
            raise Unreadable
        if token[:2] == ("name", "-") and self.peek().kind == "integer" and not self.peek().spaced:
            return -int(self.next().text), 0
        if self.is_open():
            self.next()
            return Fun(token.text, tuple(self.items(")"))), 0
        if token.text in self.operators.prefix and not self.is_alone():
            priority, right = self.operators.prefix[token.text]
            if priority > most:
                raise Unreadable
            return Fun(token.text, (self.term(right),)), priority
        return Fun(token.text), 0

    def integer(self, text: str) -> int:
        if int(text) >= 2**63:
            raise Unreadable
        return int(text)

    def variable(self, name: str) -> Var:
        if name == "_" or name not in self.names:
            self.names.append(name)
            return Var(len(self.names))
        return Var(self.names.index(name) + 1)

    def items(self, close: str) -> List[Term]:
        found = [self.term(999)]
        while self.peek()[:2] == ("mark", ","):
            self.next()
            found.append(self.term(999))
        if close:
            self.expect("mark", close)
        return found

    def bracketed(self, mark: str) -> Term:
        if mark == "[" and self.peek()[:2] == ("mark", "]") or mark == "{" and self.peek()[:2] == ("mark", "}"):
            return Fun(mark + self.next().text)
        if mark == "[":
            found, tail = self.items(""), EMPTY
            if self.peek()[:2] == ("mark", "|"):
                self.next()
                tail = self.term(999)
            self.expect("mark", "]")
            return listed(found, tail)
        inside = self.term(1200)
        self.expect("mark", ")" if mark == "(" else "}")
        return inside if mark == "(" else Fun("{}", (inside,))

    def infix(self) -> Optional[str]:
        token = self.peek()
        is_name = token.kind in ("name", "quoted") or token[:2] == ("mark", ",")
        return token.text if is_name and token.text in self.operators.infix else None

    def term(self, most: int) -> Term:
        left, priority = self.operand(most)
        while True:
            name = self.infix()
            if name is None or name == "," and most < 1000 and self.peek().kind == "mark":
                break
            own, most_left, most_right = self.operators.infix[name]
            if own > most or priority > most_left:
                break
            self.next()
            left, priority = Fun(name, (left, self.term(most_right))), own
        return left


def read(operators: Operators, text: str) -> Tuple[Term, List[str]]:
    """The one clause of a text, and the names of its variables."""
    reader = Reader(operators, text)
    term = reader.clause()
    if not reader.is_over():
        raise Unreadable
    return term, reader.names


def name_text(name: str) -> str:
    if BARE.fullmatch(name):
        return name
    escaped = name.replace("\\", "\\\\").replace("'", "\\'").replace("\n", "\\n").replace("\t", "\\t")
    return "'" + re.sub(r"[\x00-\x1f\x7f]", lambda c: f"\\x{ord(c[0]):02x}\\", escaped) + "'"


class Writer:
    """Writes terms as the program prints them."""

    def __init__(self, operators: Operators) -> None:
        self.operators = operators

    def is_operator(self, term: Term) -> bool:
        is_name = isinstance(term, Fun) and not term.args
        return is_name and (term.name in self.operators.prefix or term.name in self.operators.infix)

    def text(self, term: Term, most: int) -> str:
        if isinstance(term, Var):
            return f"_{term.number}"
        if isinstance(term, int):
            return str(term)
        if term.name == "." and len(term.args) == 2:
            return self.list_text(term)
        if term.name == "{}" and len(term.args) == 1:
            return "{" + self.text(term.args[0], 1200) + "}"
        if len(term.args) == 2 and term.name in self.operators.infix:
            return self.infix_text(term, most)
        if len(term.args) == 1 and term.name in self.operators.prefix:
            own, right = self.operators.prefix[term.name]
            text = f"{name_text(term.name)} {self.operand(term.args[0], right, True)}"
            return f"({text})" if own > most else text
        return self.plain_text(term)

    def plain_text(self, term: Fun) -> str:
        if not term.args:
            return name_text(term.name)
        name = f"'{term.name}'" if term.name in ("[]", "{}") else name_text(term.name)
        return name + "(" + ",".join(self.text(arg, 999) for arg in term.args) + ")"

    def infix_text(self, term: Fun, most: int) -> str:
        own, left, right = self.operators.infix[term.name]
        between = ", " if term.name == "," else f" {name_text(term.name)} "
        text = self.operand(term.args[0], left, True) + between + self.operand(term.args[1], right, False)
        return f"({text})" if own > most else text

    def operand(self, term: Term, most: int, is_wrapped: bool) -> str:
        """An operand; a negative integer may be wrapped in parentheses."""
        text = self.text(term, most)
        return f"({text})" if self.is_operator(term) or is_wrapped and isinstance(term, int) and term < 0 else text

    def list_text(self, term: Term) -> str:
        shown = []
        while isinstance(term, Fun) and term.name == "." and len(term.args) == 2:
            shown.append(self.text(term.args[0], 999))
            term = term.args[1]
        return "[" + ",".join(shown) + ("" if term == EMPTY else "|" + self.text(term, 999)) + "]"

    def goal(self, term: Term) -> str:
        return self.text(term, 999)

    def clause(self, head: Term, body: Tuple[Term, ...]) -> str:
        if not body:
            return self.text(head, 1200)
        goals = body[-1]
        for goal in reversed(body[:-1]):
            goals = Fun(",", (goal, goals))
        return self.text(Fun(":-", (head, goals)), 1200)
