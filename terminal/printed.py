"""The lines that apd prints: how those that are read are made, and how each is shown."""
import os
import re
import sys

from terminal.prolog import texts_in

QUESTION = re.compile(r"question (\d+): (?P<kind>\w+)\? (?P<asked>.*?)(?: \[(\d+) suspects\])?")
STATEMENT = r"(?:true|covers|below|trusted)\(.*(?<!,unknown)\) \.$"
SHADES = {  # by their codes: red, green, yellow, blue, cyan; 2 is dim
    "31": r"bug: |candidates?: |check fails: |end: error |\w+ refused: |\d+ \d+ Fail: ",
    "32": r"no bug: |answer |check: |\d+ \d+ Exit: ",
    "33": r"E\d+ |warning: |passed over: |end: budget|unanswered: |\d+ \d+ Redo: ",
    "34": r"\d+ \d+ Call: ",
    "36": r"question |symptom: ",
}
# At a terminal, unless the user doesn't want any: https://no-color.org
ON = sys.stdout.isatty() and not os.environ.get("NO_COLOR") and os.environ.get("TERM") != "dumb"


def show(line: str) -> None:
    """Shows a line that apd printed, and the texts that stand in it as lists of codes."""
    _print(line, *(shade for shade, front in SHADES.items() if re.match(front, line)))
    if not line[:1].isdigit():
        say(*(f"{codes} is {text}" for codes, text in texts_in(line)))


def say(*remarks: str) -> None:
    """Says something of apdi's own, marked as a comment is."""
    for remark in remarks:
        _print(f"% {remark}", "2")


def _print(text: str, *shade: str) -> None:
    print(f"\033[{shade[0]}m{text}\033[0m" if ON and shade else text)
