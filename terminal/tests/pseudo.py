"""A user at a pseudo-terminal: types lines and looks for what is shown."""
from __future__ import annotations

import os
import pty
import select
import signal
import time
from typing import List

from terminal.program import TOP

PATIENCE = 10.0  # seconds until a text must be seen
CTRL_C, CTRL_D, TAB, UP = "\003", "\004", "\t", "\033[A"


class Terminal:
    """apdi at a pseudo-terminal, in a folder that serves as home too."""

    def __init__(self, folder: str, words: List[str], program: str, **environment: str) -> None:
        given = {name: value for name, value in os.environ.items() if name not in ("NO_COLOR", "INPUTRC")}
        given.update({"HOME": folder, "TMPDIR": folder, "TERM": "dumb", "APD": program, **environment})
        self.shown = ""
        self.seen = 0
        self.child, self.screen = pty.fork()
        if self.child == 0:
            signal.signal(signal.SIGINT, signal.SIG_DFL)  # whoever runs the tests in the background ignores it
            os.chdir(folder)
            os.execve(str(TOP / "apdi"), ["apdi", *words], given)

    def type(self, line: str) -> None:
        """Types the line and the return key."""
        self.keys(line + "\n")

    def keys(self, keys: str) -> None:
        """Presses the keys."""
        os.write(self.screen, keys.encode())

    def see(self, *texts: str) -> None:
        """Waits until each of the texts is shown, one behind the other."""
        for text in texts:
            end = time.monotonic() + PATIENCE
            while text not in self.shown[self.seen :]:
                if not self._look(end - time.monotonic()):
                    raise AssertionError(f"{text!r} isn't shown, but {self.shown[self.seen:]!r}")
            self.seen = self.shown.index(text, self.seen) + len(text)

    def converse(self, *lines: str) -> None:
        """Types what stands behind a prompt, when the prompt is shown, and waits for the lines without a prompt."""
        for line in lines:
            prompt = next((it for it in ("apd> ", "reply> ") if line.startswith(it)), "")
            self.see(prompt or line)
            if line != prompt and prompt:
                self.type(line[len(prompt) :])

    def leave(self) -> int:
        """Waits for the end, and answers the exit status."""
        end = time.monotonic() + PATIENCE
        while self._look(end - time.monotonic()):
            pass
        ended, status = os.waitpid(self.child, os.WNOHANG if time.monotonic() >= end else 0)
        if not ended:
            raise AssertionError(f"apdi goes on, having shown {self.shown!r}")
        return os.WEXITSTATUS(status)

    def close(self) -> None:
        """Ends apdi where a test left it in the midst."""
        try:
            os.kill(self.child, signal.SIGKILL)
            os.waitpid(self.child, 0)
        except (ProcessLookupError, ChildProcessError):
            pass
        os.close(self.screen)

    def _look(self, seconds: float) -> bool:
        if seconds <= 0 or not select.select([self.screen], [], [], seconds)[0]:
            return False
        try:
            chunk = os.read(self.screen, 65536)
        except OSError:  # what a closed pseudo-terminal answers
            return False
        self.shown += chunk.decode("utf-8", "replace").replace("\r\n", "\n")
        return bool(chunk)
