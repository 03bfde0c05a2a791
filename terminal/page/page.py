"""A page to look at, made of a log: one file of HTML that needs nothing else."""
from __future__ import annotations

import sys
from pathlib import Path
from typing import Iterable, List, Union

from terminal.page.boxes import Boxes
from terminal.page.diagnoses import diagnosis_section
from terminal.page.html import code, element, link, text
from terminal.page.log import Diagnosis, Note, Part, Run, parts_of
from terminal.page.runs import run_section
from terminal.page.source import source_section
from terminal.session import Session

HERE = Path(__file__).resolve().parent
META = '<meta charset="utf-8" /><meta name="viewport" content="width=device-width, initial-scale=1" />'

USAGE = "usage: apdi --page LOG [FILE]"
BAD_WORDS, READ_FAULT = 2, 4  # as apd says it


def print_page(words: List[str]) -> int:
    """Prints the page of a log, and answers the exit status."""
    if not 1 <= len(words) <= 2:
        print(USAGE, file=sys.stderr)
        return BAD_WORDS
    log, file = words[0], words[1] if len(words) == 2 else None
    try:
        text = sys.stdin.read() if log == "-" else Path(log).read_text(encoding="utf-8", errors="replace")
        sys.stdout.buffer.write(page_of(text.split("\n"), file).encode("utf-8", "replace"))
    except OSError as fault:
        print(f"apdi: {fault.filename}: {fault.strerror}", file=sys.stderr)
        return READ_FAULT
    return 0


def write_page(session: Session, file: Path) -> None:
    """Writes the page of a session, for which it is played with its ports."""
    lines = [line for line, said in session.told if not said[0].startswith("trace: ")]
    log = session.beside(["trace(all).", *lines], "(?!trace: )")
    file.write_text(page_of(log, session.options.program), "utf-8", "replace")


def page_of(lines: Iterable[str], file: Union[str, Path, None] = None) -> str:
    """The page of the log, with the clauses of the program's file where it is named."""
    parts = parts_of(lines)
    source = source_section(file, parts) if file else ""
    title = Path(file).name if file else next((it.goals for it in parts if isinstance(it, Run)), "apd")
    head = META + element("title", text(f"{title} - apd"))
    head += element("style", (HERE / "page.css").read_text(encoding="utf-8"))
    body = element("h1", text(title)) + _contents(parts) + _sections(parts) + source + _foot()
    body += element("script", (HERE / "page.js").read_text(encoding="utf-8"))
    return "<!DOCTYPE html>\n" + element("html", element("head", head) + element("body", body), lang="en") + "\n"


def _sections(parts: List[Part]) -> str:
    """The parts in their order. A diagnosis is about the run before it."""
    found, boxes = [], Boxes([])
    for number, part in enumerate(parts, 1):
        if isinstance(part, Run):
            boxes = Boxes(part.ports)
            found.append(run_section(part, boxes, number))
        elif isinstance(part, Diagnosis):
            found.append(diagnosis_section(part, boxes, number, _number_of_run(parts, part)))
        else:
            found.append(element("p", text(part.line), class_="note refused" if part.line[:1] == "E" else "note"))
    return "".join(found)


def _number_of_run(parts: List[Part], diagnosis: Diagnosis) -> int:
    return next((at for at, it in enumerate(parts, 1) if it is diagnosis.run), 0)


def _contents(parts: List[Part]) -> str:
    """Links to the runs and diagnoses, where there is more than one thing to look at."""
    lines = []
    for number, part in enumerate(parts, 1):
        if isinstance(part, Run):
            lines.append(link(f"part{number}", "run: " + code(part.goals)))
        elif not isinstance(part, Note):
            lines.append(link(f"part{number}", "diagnosis: " + text(f"{part.kind}: ") + code(part.symptom)))
    return element("nav", element("ul", "".join(element("li", it) for it in lines))) if len(lines) > 1 else ""


def _foot() -> str:
    says = "Made by apdi of what apd printed. What is proved is apd: its lines. How they are laid out here isn't."
    return element("footer", text(says))
