"""The program's text with the lines of the clauses that were found wrong."""
from __future__ import annotations

import re
from bisect import bisect
from itertools import groupby
from pathlib import Path
from typing import Iterator, List, Set, Union

from terminal.page.html import element, text
from terminal.page.log import Diagnosis, Part
from terminal.prolog import tokens

LINE = re.compile(r"(?:bug|candidate): .*?line (\d+)[,:]")


def source_section(file: Union[str, Path], parts: List[Part]) -> str:
    """The text, each line with its number; a clause that was found wrong is marked from its first line to its last."""
    source = Path(file).read_text(encoding="utf-8", errors="replace")
    wrong = _lines_of_clauses(source, _found(parts))
    lines = []
    for number, line in enumerate(source.rstrip("\n").split("\n"), 1):
        shown = element("b", str(number), class_="number") + element("code", text(line))
        lines.append(element("div", shown, class_="line wrong" if number in wrong else "line"))
    return element("section", element("h2", text(Path(file).name)) + "".join(lines), class_="source", id="source")


def _found(parts: List[Part]) -> Set[int]:
    """The lines where the clauses begin that a finding names."""
    lines = [line for part in parts if isinstance(part, Diagnosis) for line in part.found]
    return {int(found[1]) for found in map(LINE.match, lines) if found}


def _lines_of_clauses(source: str, begins: Set[int]) -> Set[int]:
    """All lines of the clauses that begin in these lines."""
    found: Set[int] = set()
    ends = [at for at, letter in enumerate(source) if letter == "\n"]
    for clause in _clauses(source):
        first, last = (bisect(ends, token.start()) + 1 for token in (clause[0], clause[-1]))
        found |= set(range(first, last + 1)) if first in begins else set()
    return found


def _clauses(source: str) -> Iterator[List["re.Match[str]"]]:
    """The tokens of each clause of the text, without the full stop."""
    for is_end, clause in groupby(tokens(source), lambda token: token.lastgroup == "end"):
        if not is_end:
            yield list(clause)
