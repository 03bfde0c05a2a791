"""The words of apd's command line.

    python3 -m terminal.words WORD ..

says what is wrong with the words, if anything.
"""
from __future__ import annotations

import os
import sys
from argparse import SUPPRESS, ArgumentParser, ArgumentTypeError, Namespace
from functools import partial
from pathlib import Path

READ_FAULT = 4  # as apd says it


def number(most: int, text: str) -> str:
    """A number up to this one, as it is written."""
    if text.isdecimal() and 1 <= int(text) <= most:
        return text
    raise ArgumentTypeError(f"{text} is no number from 1 to {most:,}")


OPTIONS = ArgumentParser("apd", add_help=False, allow_abbrev=False)
OPTIONS.add_argument("--budget", type=partial(number, 1_000_000), metavar="N")
OPTIONS.add_argument("--answers", type=partial(number, 1_000_000), metavar="N")
OPTIONS.add_argument("--trace", action="store_true")
OPTIONS.add_argument("--strategy", choices=("divide", "single", "top"))
OPTIONS.add_argument("--oracle", type=Path, metavar="FILE")
OPTIONS.add_argument("--reference", type=Path, metavar="FILE")
OPTIONS.add_argument("--check", type=Path, metavar="LOG")
RUNS = OPTIONS.add_mutually_exclusive_group(required=True)
RUNS.add_argument("--demo", type=partial(number, 10_000), metavar="N")
RUNS.add_argument("program", type=Path, metavar="PROGRAM", nargs="?")


def options_of(words: list[str]) -> Namespace:
    """The options. Where a word is wrong or names no file, that is said, and the call ends."""
    options = OPTIONS.parse_args(words)
    for file in vars(options).values():
        if isinstance(file, Path) and (file.is_dir() or not os.access(file, os.R_OK)):
            OPTIONS.exit(READ_FAULT, f"apd: there is no file {file} that can be read\n")
    return options


if __name__ == "__main__":
    OPTIONS.usage = SUPPRESS  # apd prints its own
    options_of(sys.argv[1:])
