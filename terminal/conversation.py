"""The conversation: a prompt, the user's lines, apdi's own words, and what is done at an end."""
from __future__ import annotations

import re
import signal
import sys
from pathlib import Path

from terminal.completion import begin_editing
from terminal.manual import explain, rows, spans_of
from terminal.page.page import write_page
from terminal.printed import say
from terminal.prolog import parts, with_full_stop
from terminal.session import REPLIED, Ended, Session, with_known

SHORT = {"y": "yes", "n": "no", "u": "unknown"}
FINE, NO_MEMORY = 0, 6  # statuses of apd
# How the user writes what the manual's table of own words has in capitals.
GIVEN = {"K": r"(\d+)", "N": r"(\d+)", "NAME": r"(\S+?)", "FILE": r"(\S.*?)"}
WHAT_NEXT = "apd has ended: again begins anew with the file as it is then, quit ends apdi too"


class Conversation(Session):
    """One conversation, from the first prompt to the exit that says apd's status."""

    def converse(self) -> None:
        """Takes line by line, until the program or the input ends, or the terminal is closed."""
        signal.signal(signal.SIGHUP, lambda number, _: sys.exit(128 + number))
        begin_editing(self)
        say("help lists what can be typed besides what apd reads")
        is_lost = True  # the program, in the midst of a line; at first there is none
        while True:
            try:
                if is_lost:
                    self.play(self.told)
                is_lost = False
                line = input("reply> " if self.question else "apd> ").strip()
                is_lost = True
                self.obey(line)
                is_lost = False
            except Ended:
                self.say_why_it_ended()
                is_lost = bool(self.told)
            except (OSError, ValueError) as fault:
                say(str(fault))
                is_lost = False
            except KeyboardInterrupt:
                print()
            except EOFError:
                print()
                sys.exit(self.program.status)

    def obey(self, line: str) -> None:
        """Does what an own word asks for, by the method of that name, or tells the program the
        line."""
        for word in spans_of("Own word"):
            own = re.fullmatch(re.sub("[A-Z]+", lambda it: GIVEN[it[0]], word) + r" *\.?", line)
            if own:
                getattr(self, word.split()[0])(*own.groups())
                return
        if self.program.status is None:
            self.tell(with_full_stop(SHORT.get(line, line) if self.question else line))
        elif line in ("quit", "quit."):
            sys.exit(self.program.status)
        else:
            say(WHAT_NEXT)

    def say_why_it_ended(self) -> None:
        """Says what the manual has on a file that was refused and on the status."""
        status = self.program.status
        if status == FINE:
            sys.exit(FINE)
        say(*explain("".join(self.said[-1:]).partition(" refused: ")[2]))
        say(f"apd ended with status {status}", *explain(str(NO_MEMORY if status < 0 else status)))
        say(*([] if self.told else [WHAT_NEXT]))

    def goals_seen(self) -> list[str]:
        """What goals did, those of the body that `covers?` asks about or the query's."""
        is_body = self.question and self.question["kind"] == "covers"
        return list(self.goals_of_body() if is_body else self.goals_of_query())

    def answer(self, number: str, goal: str = r"\d+") -> None:
        """Tells that an answer isn't true, or replies to `covers?` by an answer of the body."""
        seen = [f"answer {number}: wrong(1, {number})."]  # so it is where the query has one goal
        if self.question or len(parts(self.run)) > 1:
            seen = self.goals_seen()
        tells = re.compile(rf"answer {number}(?: of goal {goal})?: ((?:wrong|yes)\(.*)")
        lines = [found[1] for found in map(tells.fullmatch, seen) if found]
        if len(lines) != 1:
            raise ValueError(f"{len(lines)} goals have an answer {number}. goals shows what to say")
        say(*lines)
        self.tell(*lines)

    def goals(self) -> None:
        """Shows what goals did."""
        say(*(self.goals_seen() or ["no goal was run yet"]))

    def why(self, name: str = "") -> None:
        """Explains a name, or what was said last, by the manual; a fault's place is marked."""
        what = name or "".join(self.said[-1:])
        place = re.fullmatch(r"E1 syntax: \w+ at byte (\d+)", what)
        if place:
            front = self.typed.encode("utf-8", "surrogateescape")[: int(place[1])]
            say(self.typed, " " * len(front.decode("utf-8", "replace")) + "^")
        say(*(explain(what) or [f"the manual has nothing of {what or 'it'}"]))

    def undo(self) -> None:
        """Takes back the last reply or symptom, and what was told behind it."""
        replies = [at for at, told in enumerate(self.told) if told.said[0].startswith(REPLIED)]
        if not replies:
            raise ValueError("there is no reply to take back")
        self.play(self.told[: replies[-1]])

    def save(self, name: str) -> None:
        """Adds what is known to an oracle file, or makes one."""
        file, known = Path(name).expanduser(), self.known()
        text = file.read_text("utf-8", "surrogateescape") if file.exists() else "form(2)."
        if not re.match(r"(?:\s|%.*)*form\(", text):
            raise ValueError(f"{name} is no file of replies, and stays as it is")
        file.write_text(with_known(text, known), "utf-8", "surrogateescape")
        say(f"{name} has the {len(known)} statements: --oracle {name!r} reads them")

    def page(self, name: str) -> None:
        """Writes a page of the session."""
        write_page(self, Path(name).expanduser())
        say(f"{name} is written")

    def help(self) -> None:
        """Lists apdi's own words."""
        say(*(text for row in rows() if row.table == "Own word" for text in row.tells))
