"""Line editing, history and completion at the terminal, by readline."""
from __future__ import annotations

import atexit
import os
import re
import readline
from contextlib import suppress
from glob import escape, glob
from pathlib import Path

from terminal.manual import spans_of
from terminal.session import Session

HISTORY = Path.home() / ".apdi_history"
HEAD = re.compile(r"^(?:[a-z]\w*|'(?:[^'\\]|\\.|'')*')\(?", re.MULTILINE)


def candidates(session: Session, line: str, begin: int) -> list[str]:
    """What the word that begins there can be completed to: a file, what a line begins with, or a
    predicate that a clause at a line's begin is of."""
    before, word = line[:begin], line[begin:]
    if re.match(r"(save|page)\s", before):
        return [name + "/" * os.path.isdir(name) for name in glob(escape(word) + "*")]
    fronts = spans_of("Own word") + spans_of("Reply" if session.question else "Command")
    fronts = [re.split("[A-Z]", front)[0].rstrip() for front in fronts]
    found = [front[begin:] for front in fronts if front.startswith(line)]
    if begin and not found:
        heads = set(HEAD.findall(session.options.program.read_text("utf-8", "replace")))
        found = [head.replace("(", "/") if "leap(" in before else head for head in heads]
    return [it for it in found if it.startswith(word)]


def begin_editing(session: Session) -> None:
    """Sets readline up, with the history of earlier conversations, which this one is added to."""

    def complete(_: str, state: int) -> str | None:
        line = readline.get_line_buffer()[: readline.get_endidx()]
        return [*candidates(session, line, readline.get_begidx()), None][state]

    readline.set_completer(complete)
    readline.set_completer_delims(" \t([,|")
    readline.parse_and_bind("tab: complete")
    readline.set_history_length(1000)
    with suppress(OSError):
        HISTORY.touch()
        readline.read_history_file(HISTORY)
        atexit.register(readline.write_history_file, HISTORY)
