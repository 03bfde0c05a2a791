"""Explanations, out of the tables of docs/MANUAL.md, so that nothing is said twice."""
from __future__ import annotations

import re
from collections import namedtuple
from functools import lru_cache
from os.path import commonprefix

from terminal.program import TOP

MANUAL = TOP / "docs" / "MANUAL.md"
LINK = re.compile(r"\[([^]]*)\]\([^)]*\)")
NAME = re.compile(r"\w+|\?-|\Z")
NUMBER = re.compile(r"\b(?:\d+|[A-Z])\b")  # in a line, and what stands for it in the manual
FAULTS = ("Fault", "Cause", "Error", "Reason")  # tables of what a line names


# A row of a table: what the first column is called, the code in it, the second column, and all of
# them, to be read.
Row = namedtuple("Row", "table spans says tells")


@lru_cache(maxsize=None)
def rows() -> list[Row]:
    """The rows of all tables."""
    found, heads = [], []
    for line in LINK.sub(r"\1", MANUAL.read_text("utf-8")).split("\n"):
        cells = [cell.strip().replace("\\|", "|") for cell in re.split(r"(?<!\\)\|", line)[1:-1]]
        if not cells or not heads:
            heads = cells
        elif set(cells[0]) != {"-"}:
            more = [f"  {head}: {cell}" for head, cell in zip(heads[2:], cells[2:]) if cell]
            spans = re.findall("`([^`]+)`", cells[0]) or cells[:1]
            found.append(Row(heads[0], spans, cells[1], [f"{cells[0]}: {cells[1]}", *more]))
    return found


def spans_of(table: str) -> list[str]:
    """What stands in the first column of a table, as `wrong(B, K).` in that of the commands."""
    return [span for row in rows() if row.table == table for span in row.spans]


def rows_of(line: str) -> list[Row]:
    """The rows of a printed line: those that go along with it furthest, beyond its first word."""
    line = NUMBER.sub("#", line)
    shown = [row for row in rows() if row.table in ("Line", "Printed")]
    fronts = [[commonprefix([line, NUMBER.sub("#", it)]) for it in row.spans] for row in shown]
    along = [max(map(len, front)) for front in fronts]
    return [row for row, at in zip(shown, along) if at == max(along) and " " in line[:at]]


def explain(what: str) -> list[str]:
    """What is said of a printed line and the fault that it names, or of anything by its name."""
    names = set(NAME.findall(what)) - {""}
    found = [row for row in rows() if names & {NAME.search(span)[0] for span in row.spans}]
    if " " in what:
        found = rows_of(what) + [row for row in found if row.table in FAULTS]
    return [text for row in found for text in row.tells]
