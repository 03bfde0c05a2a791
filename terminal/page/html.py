"""Elements of a page as text. All are closed, so that a page is well-formed XML too."""
from __future__ import annotations

import re
from html import escape
from typing import Optional

from terminal.prolog import texts_in

LONG, FRONT = 160, 80  # of a term with more characters, so many stand in a line of a tree


def text(plain: str) -> str:
    """The text with the characters that have a meaning in HTML written otherwise."""
    return escape(plain, quote=True)


def element(tag: str, content: str = "", **attributes: Optional[str]) -> str:
    """An element with its content as HTML. `class_` is the attribute `class`; one that is None is left out."""
    given = "".join(f' {key.rstrip("_")}="{text(value)}"' for key, value in attributes.items() if value is not None)
    return f"<{tag}{given}>{content}</{tag}>"


def code(term: str, class_: Optional[str] = None) -> str:
    """A term, with the texts that stand in it as lists of codes."""
    texts = "".join(element("span", text(shown), class_="text", title=codes) for codes, shown in texts_in(term))
    return element("code", text(term), class_=class_) + texts


def prose(says: str) -> str:
    """What a document says, in which code stands between backquotes."""
    return re.sub("`([^`]+)`", r"<code>\1</code>", text(says))


def short(term: str, class_: Optional[str] = None) -> str:
    """A term in a line of a tree, where a long one would hide how the lines stand."""
    return code(term if len(term) <= LONG else term[:FRONT] + "\N{HORIZONTAL ELLIPSIS}", class_)


def whole(*terms: str) -> str:
    """Those of the terms that aren't shown whole in a line, folded."""
    lines = [element("p", code(it)) for it in dict.fromkeys(terms) if len(it) > LONG]
    return element("details", element("summary", "the whole terms") + "".join(lines), class_="whole") if lines else ""


def mark(kind: str, says: str, title: Optional[str] = None) -> str:
    """A coloured word: how something was judged."""
    return element("span", text(says), class_=f"mark {kind}", title=title)


def aside(says: str) -> str:
    """What is said in small letters behind something."""
    return element("span", says, class_="aside")


def link(target: str, content: str) -> str:
    """A link to an element of the page."""
    return element("a", content, href=f"#{target}")
