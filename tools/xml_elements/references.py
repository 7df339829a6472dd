"""White space between the parts of item references: msb takes spaces there, and MSBuild any."""

from __future__ import annotations

import re

TOKEN = re.compile(r"@\(|'|[()]|[\t\r\n]+")


def spaced(text: str) -> str:
    """A text in which line ends and tabs between the parts of an item reference are spaces."""
    if "@(" not in text or not re.search(r"[\t\r\n]", text):
        return text
    parts, begin, depth, is_quoted = [], 0, 0, False
    for token in TOKEN.finditer(text):
        if depth and not is_quoted and token[0].isspace():
            parts += [text[begin : token.start()], " "]
            begin = token.end()
        elif depth and token[0] == "'":
            is_quoted = not is_quoted
        elif not is_quoted and (depth or token[0] == "@("):
            depth += 1 if token[0].endswith("(") else -1
    return text if depth else "".join(parts) + text[begin:]
