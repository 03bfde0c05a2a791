"""What apdi knows of Prolog's texts: tokens, where a clause ends, its goals, lists of codes."""
from __future__ import annotations

import re

TOKEN = re.compile(
    r"""(?P<layout> \s+ | %[^\n]* | /\*.*?\*/ )
    | (?P<character> 0'(?: \\x[0-9a-fA-F]+\\ | \\[0-7]+\\ | \\. | '' | . ) )
    | (?P<name> [a-z]\w* | '(?: \\. | '' | [^'\\] )*' )
    | (?P<variable> [A-Z_]\w* )
    | (?P<end> \.(?= \s | % | \Z ) )
    | (?P<graphic> [-#$&*+./:<=>?@^~\\]+ )
    | (?P<other> \d\w* | "(?: \\. | "" | [^"\\] )*" | . )""",
    re.VERBOSE | re.DOTALL | re.ASCII,
)
DEEPER = {"(": 1, "[": 1, "{": 1, ")": -1, "]": -1, "}": -1}
CODES = re.compile(r"\[(\d+(?:,\d+)+)(\|_\d+)?\]")
LATIN = re.compile(r"(?=.*[^\W\d_])[\t\n -~\u00a1-\u024f]*", re.DOTALL)  # with a letter among them


def tokens(text: str) -> list[re.Match]:
    """The tokens of the text, without its layout and comments; `lastgroup` is the kind of one."""
    return [token for token in TOKEN.finditer(text) if token.lastgroup != "layout"]


def variables(text: str) -> list[str]:
    """The variables of the text, each once, in the order in which they first appear."""
    return list(dict.fromkeys(it.group() for it in tokens(text) if it.lastgroup == "variable"))


def with_full_stop(line: str) -> str:
    """The line with the full stop that may be missing behind its last token."""
    found = tokens(line)
    if not found or found[-1].lastgroup == "end":
        return line
    end, stop = found[-1].end(), " ." if found[-1].lastgroup == "graphic" else "."
    return line[:end] + stop + line[end:]


def parts(text: str, mark: str = ",") -> list[str]:
    """The parts of the text between the marks outside brackets: the goals of a body, its head."""
    found, begin, depth = [], 0, 0
    for token in tokens(text):
        depth += DEEPER.get(token.group(), 0)
        if depth == 0 and token.group() == mark:
            found.append(text[begin : token.start()].strip())
            begin = token.end()
    return [*found, text[begin:].strip()]


def texts_in(line: str) -> list[tuple[str, str]]:
    """The lists of codes of the line that read as a text of Latin letters, each with that text in
    double quotes. Of greater numbers most lists are just numbers."""
    found = {}
    for codes in CODES.finditer(line):
        text = "".join(chr(int(code) % 0x110000) for code in codes[1].split(","))
        if LATIN.fullmatch(text):
            shown = text.replace("\n", "\\n").replace("\t", "\\t")
            found[codes[0]] = f'"{shown}"' + (codes[2] or "")
    return list(found.items())
