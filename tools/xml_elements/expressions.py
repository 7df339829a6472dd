"""The references in a text, and what of them msb does not take (docs/FORMATS.md, Expressions)."""

from __future__ import annotations

import re
from dataclasses import dataclass

from .table import ARGUMENTS, NAME, OF_BUILD, OF_TEXT

QUOTED = r"'[^']*'"
PROPERTY = re.compile(rf"\$\( *({NAME}) *\)")
METADATA = re.compile(rf"%\( *(?:({NAME}) *\. *)?({NAME}) *\)")
ITEMS = re.compile(
    rf"@\( *({NAME}) *((?:-> *(?:{QUOTED}|{NAME} *\([^()]*\)) *)*)(, *{QUOTED} *)?\)"
)
STEP = re.compile(rf"-> *(?:({QUOTED})|({NAME}) *\(([^()]*)\))")
ARGUMENT = re.compile(rf"(?: *{QUOTED} *(?:,(?= *')|$))*$")
BEGIN = re.compile(r"[$@%]\(")
LOOSE = rf"(?:\$\( *{NAME} *\)|[^'(),@%])+"
GIVEN = rf"(?: *{QUOTED} *|{LOOSE})"
CALL = rf" *(?:{NAME}) *(?:\((?: *|{GIVEN}(?:,{GIVEN})*)\) *)?"
FUNCTION = re.compile(
    rf"\$\((?: *({NAME}) *((?:\.{CALL})+)|\[msbuild\]::({CALL}(?:\.{CALL})*))\)", re.IGNORECASE
)
ONE_CALL = re.compile(rf"\.? *({NAME}) *(?:\((( *)|{GIVEN}(?:,{GIVEN})*)\) *)?")
STATIC = re.compile(r"\[([^\]]*)\]::(\w+)")
MEMBER = re.compile(rf"({NAME})\s*\.\s*(\w+)")
WHITE = re.compile(r"[\t\r\n]")


@dataclass(frozen=True)
class Reference:
    """A reference in a text: its sign ($, @ or %), its name, and the item type of metadata."""

    sign: str
    name: str
    type: str
    begin: int
    end: int


@dataclass(frozen=True)
class Refused:
    """A reference that msb does not take. It takes one that is late where it stays text."""

    what: str
    begin: int
    end: int
    is_late: bool = False


def scan(text: str, calls: bool = True) -> tuple[list[Reference], list[Refused]]:
    """The references of a text that msb takes, without those inside of others, and the rest.

    Calls of property functions are taken outside of all other references alone.
    """
    references: list[Reference] = []
    refused: list[Refused] = []
    begin = BEGIN.search(text)
    while begin:
        sign, place = begin[0][0], begin.start()
        match = {"$": PROPERTY, "%": METADATA, "@": ITEMS}[sign].match(text, place)
        called = FUNCTION.match(text, place) if calls and sign == "$" and not match else None
        if called:
            end = called.end()
            references.append(Reference(sign, called[1] or "", "", place, end))
            refused += refused_calls(called)
        elif match:
            end = match.end()
            kind = match[1] if sign == "%" else ""
            references.append(
                Reference(sign, match[2] if sign == "%" else match[1], kind or "", place, end)
            )
            refused += refused_steps(match) if sign == "@" else []
        else:
            end = closing(text, place + 2)
            refused.append(Refused(described(text[place:end]), place, end))
            refused += inner(text, place + 2, end)
        begin = BEGIN.search(text, end)
    return references, refused


def refused_calls(function: re.Match[str]) -> list[Refused]:
    """What msb does not take in the calls of a property reference."""
    found = []
    known = OF_TEXT if function[1] else OF_BUILD
    for call in ONE_CALL.finditer(function[2] or function[3]):
        if given(call) not in known.get(call[1].lower(), []):
            of = "." if known is OF_TEXT else "[MSBuild]::"
            found.append(f"property function {of}{call[1]}")
        found += in_argument(call[2] or "")
        known = OF_TEXT
    return [Refused(what, function.start(), function.end()) for what in found]


def given(call: re.Match[str]) -> int:
    """How many arguments a property function is called with, or -1 where it has no parentheses."""
    if call[2] is None:
        return -1
    return 0 if call[3] is not None else len(re.findall(GIVEN + "(?:,|$)", call[2]))


def inner(text: str, begin: int, end: int) -> list[Refused]:
    """The property functions among the arguments of a reference that msb does not take."""
    found = scan(text[begin:end])[1]
    return [
        Refused(one.what, begin + one.begin, begin + one.end)
        for one in found
        if "function" in one.what
    ]


def closing(text: str, place: int) -> int:
    """The place behind the `)` that closes what was opened, or the end of the text."""
    depth, quote = 1, ""
    for number in range(place, len(text)):
        letter = text[number]
        if quote:
            quote = "" if letter == quote else quote
        elif letter in "'\"`":
            quote = letter
        elif letter in "()":
            depth += 1 if letter == "(" else -1
            if depth == 0:
                return number + 1
    return len(text) if not quote else closing_unquoted(text, place)


def closing_unquoted(text: str, place: int) -> int:
    return text.find(")", place) + 1 or len(text)


def described(reference: str) -> str:
    """What a reference that msb does not take is."""
    body = reference[2:].strip()
    if reference[0] == "$":
        static, member = STATIC.match(body), MEMBER.match(body)
        if static:
            return f"property function [{static[1]}]::{static[2]}"
        if member:
            return f"property function .{member[2]}"
        if body.lower().startswith("registry:"):
            return "registry property"
        if re.match(rf"{NAME}\s*\[", body):
            return "property function [..]"
    if reference[0] == "@" and body.startswith("$("):
        return "item type that a property gives"
    if not reference.endswith(")"):
        return f"reference {reference[0]}( that is not closed"
    if WHITE.search(reference):
        return f"line end or tab in a reference {reference[0]}(..)"
    return "reference " + (reference if len(reference) < 40 else reference[:36] + "..)")


def refused_steps(items: re.Match[str]) -> list[Refused]:
    """What msb does not take in the transforms, functions and separator of an item reference."""
    found = []
    for step in STEP.finditer(items[2]):
        if step[1] is not None:
            found += in_transform(step[1])
        elif ARGUMENTS.get(step[2].lower()) != number_of(step[3]):
            found.append(f"item function {step[2]}")
        elif step[3]:
            found += in_argument(step[3])
    found += in_argument(items[3] or "")
    is_late = all(one.startswith("item function") for one in found)
    return [Refused(what, items.start(), items.end(), is_late) for what in found]


def number_of(arguments: str) -> int:
    """How many arguments stand between the parentheses of an item function, or -1."""
    if not arguments.strip(" "):
        return 0
    return len(re.findall(QUOTED, arguments)) if ARGUMENT.match(arguments) else -1


def in_transform(text: str) -> list[str]:
    references, refused = scan(text, calls=False)
    found = [
        "metadata of an item type in a transform"
        for one in references
        if one.sign == "%" and one.type
    ]
    found += ["item reference in a transform" for one in references if one.sign == "@"]
    return found + [one.what for one in refused]


def in_argument(text: str) -> list[str]:
    references, refused = scan(text, calls=False)
    found = [
        "reference to items or metadata in an argument or separator"
        for one in references
        if one.sign != "$"
    ]
    return found + [one.what for one in refused]


def mixed(text: str, references: list[Reference]) -> bool:
    """Whether an entry of a list has an item reference beside other characters."""
    hidden = text
    for one in reversed(references):
        mark = "\0" if one.sign == "@" else "x"
        hidden = hidden[: one.begin] + mark + hidden[one.end :]
    entries = (entry.strip(" \t\r\n") for entry in hidden.split(";"))
    return any("\0" in entry and entry != "\0" for entry in entries)
