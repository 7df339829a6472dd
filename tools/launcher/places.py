"""Where an element stands in a project file, and why a text is no JSON."""

import json
import os
import re
from itertools import islice
from typing import Iterator

TOKEN = re.compile(r'"(?:[^"\\]|\\.)*"|[\[\]{}]', re.S)
SPACE = re.compile(r"[ \t\r\n]*")

# As many arrays and objects may stand in one another.
MOST_LEVELS = 127

TOOLS = os.path.dirname(os.path.dirname(os.path.realpath(__file__)))
CONVERTER = os.path.join(TOOLS, "xml_to_elements.py")


def read_text(path: str) -> str:
    """The text of a project file; what is no UTF-8 is replaced."""
    with open(path, "rb") as file:
        return file.read().decode("utf-8", "replace")


def line_and_column(text: str, at: int) -> tuple[int, int]:
    """Both from 1; a column is a character."""
    return text.count("\n", 0, at) + 1, at - text.rfind("\n", 0, at)


def past_space(text: str, at: int) -> int:
    return SPACE.match(text, at).end()


def past_value(text: str, at: int) -> int:
    """The place behind the value that begins there."""
    if text[at] not in '"[{':
        return re.compile(r"[^,\]}\s]*").match(text, at).end()
    depth = 0
    for token in TOKEN.finditer(text, at):
        first = token[0][0]
        depth += 1 if first in "[{" else -1 if first in "]}" else 0
        if depth == 0:
            return token.end()
    return len(text)


def members(text: str, at: int) -> Iterator[tuple[str, int]]:
    """Each member of the object that begins there, with the place of its value."""
    at = past_space(text, at + 1)
    while text[at] == '"':
        end = past_value(text, at)
        value = past_space(text, past_space(text, end) + 1)
        yield json.loads(text[at:end]), value
        at = past_space(text, past_value(text, value))
        if text[at] != ",":
            return
        at = past_space(text, at + 1)


def values(text: str, at: int) -> Iterator[int]:
    """The place of each value of the array that begins there."""
    at = past_space(text, at + 1)
    while text[at] != "]":
        yield at
        at = past_space(text, past_value(text, at))
        if text[at] != ",":
            return
        at = past_space(text, at + 1)


def element_at(text: str, place: list[int]) -> int | None:
    """Where the element at that place of the tree begins, if there is one."""
    at = past_space(text, 0)
    try:
        for number in place:
            children = dict(members(text, at))["c"]
            at = next(islice(values(text, children), number, None))
    except (IndexError, KeyError, StopIteration, ValueError):
        return None
    return at


def attributes(text: str, at: int) -> dict[str, str]:
    """The attributes of the element that begins there, as far as they are texts."""
    try:
        element = json.loads(text[at:past_value(text, at)])
        found = element.get("a", {}).items()
        return {name: value for name, value in found if isinstance(value, str)}
    except (AttributeError, ValueError, RecursionError):
        return {}


def head_of(text: str, at: int) -> str:
    """The element that begins there, in the way of XML and in one line."""
    try:
        name = json.loads(text[(found := dict(members(text, at))["e"]):past_value(text, found)])
    except (IndexError, KeyError, ValueError):
        return " ".join(text[at:at + 60].split())
    parts = [f"<{name}"]
    for key, value in attributes(text, at).items():
        parts.append(f'{key}="{" ".join(value.split())}"')
        if sum(map(len, parts)) > 100:
            return f"{' '.join(parts)[:100]} .."
    return " ".join(parts) + ">"


def located(path: str, place: str) -> str:
    """FILE:LINE:COLUMN of an element and its head, or nothing where it can't be told."""
    try:
        text = read_text(path)
    except OSError:
        return ""
    numbers = [int(number) for number in place.split("/") if number]
    at = element_at(text, numbers) if text.strip() else None
    if at is None:
        return ""
    line, column = line_and_column(text, at)
    return f"{path}:{line}:{column}: {head_of(text, at)}"


# ---- Texts that are no JSON -------------------------------------------------------------------


class Constant(ValueError):
    """A word that Python takes for a number."""


def refuse_constant(word: str) -> None:
    raise Constant(word)


def refuse_infinite(word: str) -> float:
    """A number with a fraction or an exponent, which may be too large."""
    number = float(word)
    if number in (float("inf"), float("-inf")):
        raise Constant(word)
    return number


def deepest(text: str) -> tuple[int, int]:
    """Where arrays and objects first stand deeper than they may, and how deep they stand."""
    depth, most, at = 0, 0, 0
    for token in TOKEN.finditer(text):
        depth += 1 if token[0] in "[{" else -1 if token[0] in "]}" else 0
        if depth > most:
            most = depth
            at = token.start() if depth == MOST_LEVELS + 1 else at
    return at, most


def expected(text: str, error: json.JSONDecodeError) -> str:
    """What was expected at an error, in words."""
    found = text[error.pos:error.pos + 1]
    if "double quotes" in error.msg:
        behind = ", behind a comma" if found in "}]" else ""
        return f"a name in double quotes was expected{behind}"
    what = {
        "Expecting ',' delimiter": "a comma, or the end of the array or object, was expected",
        "Expecting ':' delimiter": "a colon was expected behind the name",
        "Expecting value": "a value was expected",
        "Extra data": "the text goes on behind its end",
        "Unterminated string starting at": "this text in quotes has no end",
        "Invalid control character at":
            "a line end, a tab or another control character stands in a text: write \\n or \\t",
    }
    return what.get(error.msg, error.msg[:1].lower() + error.msg[1:])


def shown_at(path: str, text: str, at: int, what: str) -> str:
    line, column = line_and_column(text, at)
    found = " ".join(text[at:at + 40].split())
    here = f"here stands {found[:30]}" if found else "here the file ends"
    return f"{path}:{line}:{column}: {what}, and {here}"


def json_fault(path: str) -> str:
    """Why a file is no JSON text for the program, or nothing where that is not seen."""
    with open(path, "rb") as file:
        content = file.read()
    try:
        text = content.decode("utf-8")
    except UnicodeDecodeError as error:
        line, column = line_and_column(content[:error.start].decode("utf-8"), error.start)
        return f"{path}:{line}:{column}: the file is no UTF-8 here"
    if text.startswith("\ufeff"):
        return f"{path}:1:1: the file begins with a byte order mark; save it as UTF-8 without one"
    if text.lstrip().startswith("<"):
        return (f"{path}: this is XML; {CONVERTER} makes an element tree of it, or of all projects "
                "of a folder")
    return text_fault(path, text)


def text_fault(path: str, text: str) -> str:
    """The same of a text that is UTF-8."""
    try:
        json.loads(text, parse_constant=refuse_constant, parse_float=refuse_infinite)
    except json.JSONDecodeError as error:
        return shown_at(path, text, error.pos, expected(text, error))
    except Constant as error:
        return f"{path}: {error} is no value of JSON"
    except (RecursionError, ValueError):
        pass
    at, most = deepest(text)
    if most > MOST_LEVELS:
        what = f"more than {MOST_LEVELS} arrays and objects stand in one another"
        return shown_at(path, text, at, what)
    if found := re.search(r"\\u[dD][89a-fA-F]", text):
        return shown_at(path, text, found.start(), "half of a character that takes two escapes")
    return ""
