#!/usr/bin/env python3
"""Try random texts over a built program against plain programs that stand here.

usage: tests/random_texts.py PROGRAM [SEED [COUNT]]

COUNT texts (1,000 where it is not given) of each kind are drawn from SEED (1): paths that are made
normal, patterns, expressions, conditions, and project files with one element that is refused.
Those that a plain program reads stand together in one project, which `eval` shows; those that it
refuses stand in files of their own, which one `build` calls. Each text that comes out otherwise
prints a line. The last line is `N passed, M failed`, and the status is 0 where nothing failed and
something passed, 1 elsewhere, and 2 for wrong words.
"""

import json
import os
import random
import re
import string
import subprocess
import sys
import tempfile
from collections.abc import Callable, Iterator
from dataclasses import dataclass
from fractions import Fraction
from pathlib import Path
from typing import Any

USAGE = "usage: random_texts.py PROGRAM [SEED [COUNT]]"
SECONDS = 60
TOGETHER = 250
Element = dict[str, Any]


# ---- Forms: what a text may look like, taken byte by byte -------------------------------------
#
# A form is a set of texts. Its derivative by a character is what may follow that character, so the
# first character behind which nothing may follow is the one at which a text is refused.


class Form:
    """A set of texts; equal forms are one object."""

    __slots__ = ("kind", "parts", "may_end", "by_char", "open")
    known: dict[tuple[Any, ...], "Form"] = {}

    def __init__(self, kind: str, parts: tuple[Any, ...], may_end: bool) -> None:
        self.kind, self.parts, self.may_end = kind, parts, may_end
        self.by_char: dict[str, Form] = {}
        self.open: frozenset[str] | None = None


def form(kind: str, parts: tuple[Any, ...], may_end: bool) -> Form:
    """The form of these parts, made once."""
    key = (kind, *parts)
    if key not in Form.known:
        Form.known[key] = Form(kind, parts, may_end)
    return Form.known[key]


NOTHING = form("nothing", (), False)
EMPTY = form("empty", (), True)


def any_of(characters: str) -> Form:
    """One of these characters."""
    return form("one", (frozenset(characters), True), False)


def none_of(characters: str) -> Form:
    """Any other character."""
    return form("one", (frozenset(characters), False), False)


def two(first: Form, second: Form) -> Form:
    """One form, and then another."""
    if NOTHING in (first, second):
        return NOTHING
    if first is EMPTY or second is EMPTY:
        return second if first is EMPTY else first
    return form("seq", (first, second), first.may_end and second.may_end)


def seq(*forms: Form | str) -> Form:
    """Forms, and literal texts, one behind another."""
    made = EMPTY
    for one in reversed(forms):
        for part in [one] if isinstance(one, Form) else map(any_of, reversed(one)):
            made = two(part, made)
    return made


def either(*forms: Form) -> Form:
    """One of several forms."""
    flat: set[Form] = set()
    for one in forms:
        flat |= one.parts[0] if one.kind == "either" else {one}
    flat.discard(NOTHING)
    if not flat:
        return NOTHING
    if len(flat) == 1:
        return flat.pop()
    return form("either", (frozenset(flat),), any(one.may_end for one in flat))


def many(repeated: Form) -> Form:
    """A form any number of times."""
    return form("many", (repeated,), True)


def maybe(optional: Form) -> Form:
    """A form or nothing."""
    return either(EMPTY, optional)


def named(name: str, inner: Form) -> Form:
    """A form that is told by its name while a text stands inside it."""
    return form("named", (name, inner), inner.may_end)


def inside(name: str, inner: Form) -> Form:
    """What is left of a named form."""
    if inner in (NOTHING, EMPTY):
        return inner
    return form("inside", (name, inner), inner.may_end)


def but_not(kept: Form, left_out: Form) -> Form:
    """The texts of one form that are not of another; each can go on to a text that is kept."""
    if NOTHING in (kept, left_out):
        return kept
    return form("but_not", (kept, left_out), kept.may_end and not left_out.may_end)


def not_before(characters: str) -> Form:
    """Nothing, where none of these characters comes next."""
    return form("not before", (frozenset(characters),), True)


def derive(of: Form, letter: str) -> Form:
    """What may follow this character."""
    if letter not in of.by_char:
        of.by_char[letter] = derived(of, letter)
    return of.by_char[letter]


def may_end_before(of: Form, letter: str) -> bool:
    """Whether a form has the empty text where this character comes next."""
    if not of.may_end:
        return False
    parts = of.parts
    if of.kind == "not before":
        return letter not in parts[0]
    if of.kind == "seq":
        return may_end_before(parts[0], letter) and may_end_before(parts[1], letter)
    if of.kind == "either":
        return any(may_end_before(one, letter) for one in parts[0])
    if of.kind in ("named", "inside"):
        return may_end_before(parts[1], letter)
    return of.may_end


def derived(of: Form, letter: str) -> Form:
    """What may follow this character, worked out by the kind of the form."""
    parts = of.parts
    if of.kind == "one":
        return EMPTY if (letter in parts[0]) == parts[1] else NOTHING
    if of.kind == "seq":
        first = two(derive(parts[0], letter), parts[1])
        past = may_end_before(parts[0], letter)
        return either(first, derive(parts[1], letter)) if past else first
    if of.kind == "either":
        return either(*(derive(one, letter) for one in parts[0]))
    if of.kind == "many":
        return two(derive(parts[0], letter), of)
    if of.kind in ("named", "inside"):
        return inside(parts[0], derive(parts[1], letter))
    if of.kind == "but_not":
        return but_not(derive(parts[0], letter), derive(parts[1], letter))
    return NOTHING


def open_names(of: Form) -> frozenset[str]:
    """The names of the forms that a text stands inside."""
    if of.open is None:
        of.open = frozenset()
        if of.kind == "inside":
            of.open = open_names(of.parts[1]) | {of.parts[0]}
        elif of.kind in ("seq", "but_not"):
            of.open = open_names(of.parts[0])
        elif of.kind == "either":
            of.open = frozenset().union(*map(open_names, of.parts[0]))
    return of.open


@dataclass
class Stop:
    """Where a text is refused: a character at which it can't go on, or its end."""

    place: int
    names: frozenset[str]


def stop_of(of: Form, text: str) -> Stop | None:
    """Where a text is refused, or None where it is of the form."""
    for place, letter in enumerate(text):
        rest = derive(of, letter)
        if rest is NOTHING:
            return Stop(place, open_names(of))
        of = rest
    return None if of.may_end else Stop(len(text), open_names(of))


def front_length(of: Form, text: str) -> int:
    """How many characters the front of a text has that is of a form which can't go on then."""
    for place, letter in enumerate(text):
        of = derive(of, letter)
        if of is EMPTY:
            return place + 1
    raise ValueError(text)


def byte_place(text: str, place: int) -> int:
    """The place of a character, in bytes."""
    return len(text[:place].encode())


# ---- Expressions ------------------------------------------------------------------------------

LETTERS = string.ascii_letters
SPACES = many(any_of(" "))
NAME = seq(any_of(LETTERS + "_"), many(any_of(LETTERS + string.digits + "_-")))
PROPERTY = seq("$", named("reference", seq("(", SPACES, NAME, SPACES, ")")))
METADATA = seq("%", named("reference", seq(
    "(", SPACES, NAME, SPACES, maybe(seq(".", SPACES, NAME, SPACES)), ")")))
PLAIN_METADATA = seq("%", named("reference", seq(
    "(", SPACES, named("its name", seq(NAME, SPACES)), ")")))


def text_form(signs: str, references: Form, end: str) -> Form:
    """A text in which each of these signs with a `(` behind it begins a reference."""
    sign = any_of(signs)
    plain = either(none_of(signs + end), seq(sign, many(sign), none_of(signs + "(" + end)))
    return seq(many(either(plain, seq(many(sign), references))), many(sign))


TRANSFORM = named("transform", text_form("$%@", either(PROPERTY, PLAIN_METADATA), "'"))
ARGUMENT = seq("'", text_form("$", PROPERTY, "'"), "'")
ARGUMENTS = maybe(seq(ARGUMENT, SPACES, many(seq(",", SPACES, ARGUMENT, SPACES))))
CALL = seq(NAME, SPACES, "(", SPACES, ARGUMENTS, ")")
STEP = seq("->", SPACES, either(seq("'", TRANSFORM, "'"), CALL), SPACES)
ITEMS = seq("@", named("items", seq(
    named("type", seq("(", SPACES, NAME, SPACES)), many(STEP),
    maybe(seq(",", SPACES, ARGUMENT, SPACES)), ")")))


def keyword(word: str) -> Form:
    """A word in any case."""
    return seq(*(any_of(letter.lower() + letter.upper()) for letter in word))


def called_form(quoted: Form) -> Form:
    """A property with calls behind its name, or calls of `[MSBuild]`; some arguments are quoted."""
    loose = but_not(text_form("$", PROPERTY, "'(),@%"), EMPTY)
    argument = either(quoted, loose)
    arguments = either(SPACES, seq(argument, many(seq(",", argument))))
    name = seq(SPACES, NAME, SPACES)
    parentheses = seq("(", arguments, ")", SPACES)
    calls = many(seq(".", name, maybe(parentheses)))
    return seq("$", named("reference", seq("(", either(
        seq(name, calls), seq(keyword("[msbuild]::"), name, parentheses, calls)), ")")))


CALLED = called_form(seq(SPACES, ARGUMENT, SPACES))
REFERENCE = either(CALLED, METADATA, ITEMS)
EXPRESSION = text_form("$%@", REFERENCE, "")
# between the quotes of a condition no quote is a part of a call
QUOTED = text_form("$%@", either(called_form(NOTHING), METADATA, ITEMS), "'")


def refusal(text: str, stop: Stop) -> str:
    """The fault of an expression, the first of the list that fits."""
    place = byte_place(text, stop.place)
    if stop.place == len(text):
        return f"8 Unclosed {place}"
    letter, before = text[stop.place], text[:stop.place][-1:]
    if "transform" in stop.names and letter == "(" and before == "@":
        return f"10 NestedTransform {place}"
    if "its name" in stop.names and letter == ".":
        return f"9 BadTransform {place}"
    if stop.names & {"reference", "type"}:
        return f"7 BadName {place}"
    return f"9 BadTransform {place}"


class Fault(Exception):
    """The fault that an evaluation meets."""


def value_of(reference: str, values: dict[str, str]) -> str:
    """The value of `$( Name )`, with the calls behind the name."""
    head, body = re.match(r"( *[\w-]+ *|\[msbuild\]::)(.*)", reference[2:-1], re.I | re.S).groups()
    value = None if head[0] == "[" else values.get(head.strip(" ").lower(), "")
    if not body:
        return value or ""
    of = None if value is None else unescaped(value)
    while body:
        name, body = re.match(r"\.? *([\w-]+) *(.*)", body, re.S).groups()
        arguments = None
        if body[:1] == "(":
            arguments, body = read_arguments(body[1:], values)
        of = called(of, name, arguments)
    return re.sub(r"[%$@';?*]", lambda found: f"%{ord(found[0]):02X}", of or "")


def read_arguments(text: str, values: dict[str, str]) -> tuple[list[str], str]:
    """The arguments behind a `(`, and what comes behind their `)` and the spaces after it."""
    found: list[str] = []
    while True:
        match = re.match(r" *'([^']*)' *|((?:\$\([^)]*\)|[^,)])*)", text)
        plain = match[2].strip(" \t\r\n") if match[1] is None else match[1]
        value = re.sub(r"\$\([^)]*\)", lambda one: value_of(one[0], values), plain)
        if found or match[1] is not None or match[2].strip(" ") or text[match.end()] == ",":
            found.append(unescaped(value))
        text = text[match.end():]
        if text[0] == ")":
            return found, text[1:].lstrip(" ")
        text = text[1:]


TEXT_CALLS = {"replace": (2,), "substring": (1, 2), "startswith": (1,), "endswith": (1,),
              "contains": (1,), "trim": (0,)}
BUILD_CALLS = {"add": (2,), "subtract": (2,), "multiply": (2,), "valueordefault": (2,)}


def called(of: str | None, name: str, arguments: list[str] | None) -> str:
    """What a property function gives, of a text or of `[MSBuild]`, or its fault."""
    key, known = name.lower(), BUILD_CALLS if of is None else TEXT_CALLS
    if arguments is None and of is not None and key == "length":
        return str(len(of))
    if arguments is None or key not in known:
        raise Fault(f"13 UnknownFunction {name}")
    if len(arguments) not in known[key]:
        raise Fault(f"26 BadArgument {name}")
    if key == "valueordefault":
        return arguments[0] or arguments[1]
    if of is None or key == "substring":
        numbers = [whole_number(name, text) for text in arguments]
        return of_numbers(name, numbers) if of is None else substring(of, name, numbers)
    if key == "replace" and not arguments[0]:
        raise Fault(f"26 BadArgument {name}")
    return {"replace": lambda: of.replace(*arguments), "trim": of.strip,
            "startswith": lambda: str(of.startswith(*arguments)),
            "endswith": lambda: str(of.endswith(*arguments)),
            "contains": lambda: str(arguments[0] in of)}[key]()


def whole_number(name: str, text: str) -> int:
    """A number of 64 bits with sign."""
    if not re.fullmatch(r"-?[0-9]{1,19}", text):
        raise Fault(f"26 BadArgument {name}")
    return in_range(name, int(text))


def in_range(name: str, number: int) -> int:
    if not -2 ** 63 <= number < 2 ** 63:
        raise Fault(f"27 Overflow {name}")
    return number


def of_numbers(name: str, numbers: list[int]) -> str:
    left, right = numbers
    results = {"add": left + right, "subtract": left - right, "multiply": left * right}
    return str(in_range(name, results[name.lower()]))


def substring(of: str, name: str, numbers: list[int]) -> str:
    begin, count = numbers[0], numbers[1] if len(numbers) > 1 else 0
    if min(begin, count) < 0 or begin + count > len(of):
        raise Fault(f"26 BadArgument {name}")
    return of[begin:begin + count] if len(numbers) > 1 else of[begin:]


def stays(items: str, values: dict[str, str]) -> str:
    """An item reference as it stays text: without spaces, and with the values of properties."""
    pieces, kept = re.findall(r"'[^']*'|->|[^' ]", items), ""
    for piece in pieces:
        if piece[0] == "'":
            if kept.endswith("->"):
                piece = re.sub(r"%\( *([^ )]*) *\)", r"%(\1)", piece)
            piece = re.sub(r"\$\([^)]*\)", lambda found: value_of(found[0], values), piece)
        kept += piece
    return kept


def property_value(text: str, values: dict[str, str]) -> str:
    """The value that a readable text gives a property."""
    value = ""
    while text:
        length = 1
        if text[:2] in ("$(", "%(", "@("):
            length = front_length(REFERENCE, text)
            shown = {"$": lambda: value_of(text[:length], values),
                     "%": lambda: text[:length].replace(" ", ""),
                     "@": lambda: stays(text[:length], values)}[text[0]]()
        else:
            shown = text[0]
        value, text = value + shown, text[length:]
    return value


def unescaped(text: str) -> str:
    """A text without its escapes."""
    return re.sub("%([0-9A-Fa-f]{2})", lambda found: chr(int(found[1], 16)), text)


# ---- Conditions -------------------------------------------------------------------------------

IN_WORDS = LETTERS + string.digits + "_.+-"
BLANKS = many(any_of(" \t\r\n"))
WORD_END = not_before(IN_WORDS)  # a word goes as far as it can


AND, OR = seq(keyword("and"), WORD_END), seq(keyword("or"), WORD_END)
WORD = seq(but_not(seq(any_of(IN_WORDS), many(any_of(IN_WORDS))),
                   either(keyword("and"), keyword("or"))), WORD_END)
FUNCTION = either(keyword("exists"), keyword("hastrailingslash"))
SIGN = either(*map(seq, ("==", "!=", "<", ">", "<=", ">=")))
QUOTED_OPERAND = seq("'", named("quoted", QUOTED), "'")


def condition_form(depth: int) -> Form:
    """Conditions with so many levels of functions, `!` and `(`."""
    operand = unary = whole = NOTHING
    for _ in range(depth):
        function = seq(FUNCTION, BLANKS, "(", BLANKS, operand, BLANKS, ")")
        operand = either(WORD, QUOTED_OPERAND, REFERENCE, function)
        comparison = seq(operand, maybe(seq(BLANKS, SIGN, BLANKS, operand)))
        unary = either(seq("!", BLANKS, unary), seq("(", BLANKS, whole, BLANKS, ")"), comparison)
        both = seq(unary, many(seq(BLANKS, AND, BLANKS, unary)))
        whole = seq(both, many(seq(BLANKS, OR, BLANKS, both)))
    return seq(BLANKS, maybe(seq(whole, BLANKS)))


CONDITION = condition_form(12)


def condition_refusal(text: str, stop: Stop) -> str:
    """The fault of a condition: that of an expression inside it, or Syntax."""
    place = byte_place(text, stop.place)
    if not stop.names & {"reference", "items", "type"}:
        return f"16 Syntax {place}"
    at_quote = text[stop.place:stop.place + 1] == "'"
    if at_quote and "quoted" in stop.names and "items" not in stop.names:
        return f"8 Unclosed {place}"
    return refusal(text, stop)


@dataclass
class Reader:
    """A condition that is readable, taken token by token and evaluated from the left."""

    text: str
    values: dict[str, str]
    files: set[str]
    at: int = 0

    def next(self, pattern: str) -> str:
        """Takes what matches here behind blanks, or nothing."""
        found = re.compile(rf"[ \t\r\n]*({pattern})", re.IGNORECASE).match(self.text, self.at)
        if found is None:
            return ""
        self.at = found.end()
        return found[1]

    def any(self, reached: bool) -> bool:
        """One or more parts with `or` between them; what is not reached has no fault."""
        holds = self.all(reached)
        while self.next(r"or(?![\w.+-])"):
            holds = self.all(reached and not holds) or holds
        return holds

    def all(self, reached: bool) -> bool:
        """One or more parts with `and` between them."""
        holds = self.one(reached)
        while self.next(r"and(?![\w.+-])"):
            holds = self.one(reached and holds) and holds
        return holds

    def one(self, reached: bool) -> bool:
        """A negated part, one in parentheses, or a comparison or truth value."""
        if self.next("!(?!=)"):
            return not self.one(reached)
        if self.next(r"\("):
            holds = self.any(reached)
            self.next(r"\)")
            return holds
        left = self.operand(reached)
        sign = self.next("==|!=|<=|>=|<|>")
        right = self.operand(reached) if sign else ""
        if not reached:
            return False
        return compared(left, sign, right) if sign else truth(left)

    def operand(self, reached: bool) -> str:
        """The text of an operand, without its escapes."""
        function = self.next(r"(?:exists|hastrailingslash)(?=[ \t\r\n]*\()")
        if function:
            self.next(r"\(")
            inner = self.operand(reached)
            self.next(r"\)")
            return self.call(function.lower(), inner)
        if self.next("'"):
            inner = self.quoted()
        else:
            inner = self.next(r"[\w.+-]+") or self.next_reference()
        return unescaped(expanded(inner, self.values)) if reached else ""

    def quoted(self) -> str:
        """A text up to the first quote outside item references."""
        begin, of = self.at, QUOTED
        while derive(of, self.text[self.at]) is not NOTHING:
            of = derive(of, self.text[self.at])
            self.at += 1
        self.at += 1
        return self.text[begin:self.at - 1]

    def next_reference(self) -> str:
        """A reference that stands without quotes."""
        self.next("(?=[$%@])")
        begin = self.at
        self.at += front_length(REFERENCE, self.text[begin:])
        return self.text[begin:self.at]

    def call(self, function: str, text: str) -> str:
        """The text that a function gives."""
        if function == "hastrailingslash":
            return "true" if text[-1:] in ("/", "\\") and text else "false"
        path = normal_path("", text)
        return "true" if path in self.files else "false"


def expanded(text: str, values: dict[str, str]) -> str:
    """The value of a text where neither items nor metadata may stand."""
    value = ""
    while text:
        length = front_length(REFERENCE, text) if text[:2] in ("$(", "%(", "@(") else 1
        if length > 1 and text[0] != "$":
            raise Fault("11 ItemsHere" if text[0] == "@" else "12 MetadataHere")
        value += value_of(text[:length], values) if length > 1 else text[0]
        text = text[length:]
    return value


TRUE = ("true", "on", "yes", "!false", "!off", "!no")
FALSE = ("false", "off", "no", "!true", "!on", "!yes")


def truth(text: str) -> bool:
    """The truth value of a text."""
    if text.lower() not in TRUE + FALSE:
        raise Fault(f"17 NotBoolean {text}")
    return text.lower() in TRUE


def number(text: str) -> Fraction | None:
    """The number that a text is, if it is one."""
    if re.fullmatch("0x[0-9A-Fa-f]{1,16}", text):
        return Fraction(int(text, 16))
    plain = re.fullmatch(r"[+-]?[0-9]+(\.[0-9]+)?", text)
    digits = sum(letter.isdigit() for letter in text)
    return Fraction(text) if plain and digits <= 18 else None


def compared(left: str, sign: str, right: str) -> bool:
    """Whether a comparison holds."""
    numbers = number(left), number(right)
    if None not in numbers:
        ordered = (numbers[0] > numbers[1]) - (numbers[0] < numbers[1])
        return {"==": ordered == 0, "!=": ordered != 0, "<": ordered < 0, ">": ordered > 0,
                "<=": ordered <= 0, ">=": ordered >= 0}[sign]
    if sign not in ("==", "!="):
        raise Fault(f"18 NotNumbers {left} {right}")
    if left.lower() in TRUE + FALSE and right.lower() in TRUE + FALSE:
        equal = truth(left) == truth(right)
    else:
        equal = left.casefold() == right.casefold()
    return equal == (sign == "==")


def condition_answer(text: str, values: dict[str, str], files: set[str]) -> str:
    """`true`, `false`, or the fault of a condition in the property pass."""
    stop = stop_of(CONDITION, text)
    if stop is not None:
        return condition_refusal(text, stop)
    if not text.strip(" \t\r\n"):
        return "true"
    try:
        return "true" if Reader(text, values, files).any(True) else "false"
    except Fault as fault:
        return str(fault)


# ---- Paths and patterns -----------------------------------------------------------------------


def normal_path(base: str, text: str) -> str | None:
    """A text made normal on a folder, or None where it can't be."""
    text = text.replace("\\", "/")
    segments = [] if text.startswith("/") or not base else base.split("/")
    for segment in text.split("/"):
        if segment == "..":
            if not segments:
                return None
            segments.pop()
        elif segment not in ("", "."):
            segments.append(segment)
    return "/".join(segments) or None


def fits(pattern: str, path: str) -> bool:
    """Whether a normal pattern stands for a normal path, by trying everything."""
    if pattern == "**":
        return path != ""
    if pattern.startswith("**/"):
        _, slash, behind = path.partition("/")
        return fits(pattern[3:], path) or (slash != "" and fits(pattern, behind))
    if pattern.startswith("*"):
        return fits(pattern[1:], path) or (path[:1] not in ("", "/") and fits(pattern, path[1:]))
    if pattern.startswith("?"):
        return path[:1] not in ("", "/") and fits(pattern[1:], path[1:])
    if not pattern or not path:
        return pattern == path
    return pattern[0] == path[0] and fits(pattern[1:], path[1:])


def recursive_dir(pattern: str, path: str) -> str:
    """The fewest folders that the first `**` of a pattern may stand for, each with `/`."""
    before, behind = re.fullmatch(r"((?:(?!\*\*(?:/|$))[^/]*/)*)\*\*/?(.*)", pattern).groups()
    depth = before.count("/")
    rest = path.split("/")[depth:]
    for taken in range(len(rest)):
        last = taken == len(rest) - 1
        if fits(behind, "/".join(rest[taken:])) if behind else last:
            return "".join(f"{folder}/" for folder in rest[:taken])
    raise ValueError(path)


def pattern_fault(base: str, text: str) -> str | None:
    """Why a text with wildcards is no pattern."""
    segments = text.replace("\\", "/").split("/")
    if any("**" in segment and segment != "**" for segment in segments):
        return "20 StarsInSegment"
    return f"19 BadPath {text}" if normal_path(base, text) is None else None


def matches(base: str, text: str, paths: list[str]) -> list[tuple[str, str]]:
    """The identity and the RecursiveDir of each path that a pattern matches, in byte order."""
    pattern, slashed = normal_path(base, text), text.replace("\\", "/")
    fixed = slashed[:re.search(r"[^/]*[*?]", slashed).start()]
    folder = normal_path(base, fixed) or ""
    found = []
    for path in sorted(paths, key=str.encode):
        if fits(pattern, path):
            prefix = f"{folder}/" if folder else ""
            kept = fixed + path[len(prefix):] if path.startswith(prefix) else f"/{path}"
            recursive = recursive_dir(pattern, path) if "**" in pattern.split("/") else ""
            found.append((kept, recursive))
    return found


# ---- Drawing ----------------------------------------------------------------------------------


@dataclass
class Shown:
    """A text that is read, the elements that hold it, and the lines that `eval` shows of them."""

    number: str
    text: str
    elements: list[Element]
    lines: list[str]


@dataclass
class Refused:
    """A text that is refused, the last children of its project, and the fault with its place."""

    number: str
    text: str
    children: list[Element]
    fault: str


Probe = Shown | Refused
Draw = Callable[[random.Random, str, str], Probe]

VALUES = {"a": "1", "b1": "true", "c": "x", "d": "0x1F", "e": "d/e", "x-": "w%3By"}
FILES = ["a.txt", "d/e", "a/b/a", "a/b/b", "a/b/ab", "a/b/a.b", "a/b/c/a", "a/b/c/b/a", "a/c/ab",
         "ab/a", "ab/b/a/b", "b/b", "bb", "b.b", "c"]
NAMES = [*FILES, "a", "a/b", "b", "b/a", "a/a/a/b", "aab", "ab", "a.b/b"]
ROOT = "all.proj"
FOLDERS = {"/".join(path.split("/")[:depth]) for path in FILES for depth in range(1, 5)}


def element(name: str, text: str = "", **attributes: str) -> Element:
    """An element without children."""
    made: Element = {"e": name}
    if attributes:
        made["a"] = attributes
    if text:
        made["t"] = text
    return made


def group(name: str, elements: list[Element]) -> Element:
    """An element with children."""
    return {"e": name, "c": elements}


def escaped(text: str) -> str:
    """A text in which each character that is special, or trimmed, is escaped."""
    return re.sub(r"[%$@';?*\s]", lambda found: f"%{ord(found[0]):02x}", text)


def at(folder: str, name: str) -> str:
    """The path of a file in a folder."""
    return f"{folder}/{name}" if folder else name


def drawn_text(draws: random.Random, pieces: list[str], most: int) -> str:
    """Some of these pieces, one behind another."""
    return "".join(draws.choices(pieces, k=draws.randint(1, most)))


def draw_path(draws: random.Random, folder: str, number: str) -> Probe:
    """A path that is made normal on the folder of the project."""
    text = drawn_text(draws, ["/", "\\", ".", "..", "../", "a", "b", "/a", "c.d", "é", " "], 9)
    elements = [element(f"X{number}", Include=escaped(text)),
                element(f"Y{number}", Include=f"@(X{number}->'%(FullPath)')")]
    path = normal_path(folder, text)
    if path is None:
        return Refused(number, text, [group("ItemGroup", elements)], f"/2/1: 19 BadPath {text}")
    return Shown(number, text, elements, [f"item x{number} {text}", f"item y{number} /{path}"])


def draw_pattern(draws: random.Random, folder: str, number: str) -> Probe:
    """A pattern, over the files of the folder and over items of which it leaves some out."""
    start = draws.choice(["", "", "", "./", "../", "..\\", "/", "a/", "\\a\\b/"])
    pieces = ["a", "b", "*", "?", "**", "/", "/**/", "/", ".", "ab"]
    text = start + drawn_text(draws, pieces, 5) + draws.choice("*?")
    fault = pattern_fault(folder, text)
    if fault is not None:
        child = group("ItemGroup", [element("X", Include=text)])
        return Refused(number, text, [child], f"/2/0: {fault}")
    pattern = normal_path(folder, text)
    kept = [name for name in NAMES if not fits(pattern, normal_path(folder, name))]
    lines = [f"item e{number} {name}" for name in kept]
    lines += [f"item r{number} {identity}|{recursive}"
              for identity, recursive in matches(folder, text, [*FILES, at(folder, ROOT)])]
    return Shown(number, text, [
        element("T", Include=text),
        element(f"R{number}", Include="@(T->'%(Identity)|%(RecursiveDir)')"),
        element("T", Remove="@(T)"),
        element(f"E{number}", Include="@(Names)", Exclude=text)], lines)


EXPRESSION_PIECES = ["$(", "%(", "@(X", "@(", "@", "$", "%", "(", ")", "'", ",", ".", "-", ">",
                     "->", " ", "A", "b1", "X-", "7", "->'", "F(", "')", "','", "é"]
WHOLE_PIECES = ["$(A)", "$( b1 )", "%(M)", "%( T . M )", "@(X)", "@( X- -> 'a$( c )%( M )' )",
                "@(X->F( 'v' , '%( M )$(D)'), '$( A )')", "a b", "%41", "$", "@", "'", "->", "é"]
CALL_PIECES = ["$(A.", "$(b1.", "$(X-.", "$([MSBuild]::", "$([msbuild", "]::", ".", "(", ")", "()",
               ",", "'", "' '", " ", "\t", "-", "7", "a", "%3B", "$(E)", "$(X-)", "$(", "@", "%",
               "é", "Length", "length)", "Trim()", "Replace('u', ", "StartsWith(t", "Add(",
               "Add(1,"]
NUMBERS_GIVEN = ["0", "1", "-1", "2", "007", "-0", "9223372036854775807", "-9223372036854775808",
                 "9999999999999999999", "12345678901234567890", "+1", "x", "", " 3 ", "'4'", "' 5'",
                 "$(A)", "$(c)"]
TEXTS_GIVEN = ["''", "'t'", "ru", "' ru '", " ru ", "'$(E)'", "$(X-)", "%77", "'e;'", "true", "é",
               "$"]


def drawn_call(draws: random.Random) -> str:
    """A call of a property function, mostly with arguments that it may take."""
    name = draws.choice([*TEXT_CALLS, *BUILD_CALLS, "length", "Length", "Other"])
    given = NUMBERS_GIVEN if name in ("substring", "add", "subtract", "multiply") else TEXTS_GIVEN
    most = max({**TEXT_CALLS, **BUILD_CALLS}.get(name, (0,)))
    count = most if draws.random() < 0.8 else draws.randrange(4)
    if name.lower() == "length" and draws.random() < 0.9:
        return name
    comma = draws.choice([",", ", "])
    return f"{name}({comma.join(draws.choices(given, k=count))})"


def drawn_function(draws: random.Random) -> str:
    """A property reference with calls."""
    head = draws.choice(["$(A.", "$( b1 .", "$(X-.", "$(E.", "$([MSBuild]::", "$(None."])
    calls = ".".join(drawn_call(draws) for _ in range(draws.randint(1, 3)))
    return f"{head}{calls})"


def draw_expression(draws: random.Random, folder: str, number: str) -> Probe:
    """A text that is read as an expression, as the value of a property."""
    kind = draws.random()
    pieces = WHOLE_PIECES if kind < 0.3 else CALL_PIECES if kind < 0.5 else EXPRESSION_PIECES
    text = drawn_function(draws) if kind > 0.7 else drawn_text(draws, pieces, 8)
    child = group("PropertyGroup", [element("P", text)])
    stop = stop_of(EXPRESSION, text)
    if stop is not None:
        return Refused(number, text, [child], f"/2/0: {refusal(text, stop)}")
    try:
        value = unescaped(property_value(text, VALUES))
    except Fault as fault:
        return Refused(number, text, [child], f"/2/0: {fault}")
    return Shown(number, text, [element(f"P{number}", text)], [f"property p{number}={value}"])


CONDITION_PIECES = ["a", "an", "and", "or", "o", "Exists", "Exists(", "(", ")", "(", ")", "'", "!",
                    "=", "==", "!=", "<", ">", " ", " ", "$(A)", "$", "7", "&", "@(X", "%(", "é"]
TRUTHS = ["true", "'no'", "On", "'!yes'", "$( b1 )", "Exists('$(e)')", "exists ( 'd\\e/../' )",
          "Exists(no)", "HasTrailingSlash('a/')", "HASTRAILINGSLASH(Exists(d))", "'!$(b1)'"]
NUMBERS = ["1", "2.50", "-7", "+0.5", "0x1f", "'31.0'", "$(A)", "'$(d)'", "'%31'",
           "123456789012345678"]
OTHERS = ["x", "'X'", "'$(None)'", "''", "'1.'", "+0x2", "1234567890123456789", "%(M)",
          "'@(X->'(', ')')'", "'$(x-)'", "'W;Y'"]


def drawn_comparison(draws: random.Random) -> str:
    """A comparison, mostly of operands that can be compared."""
    sign = draws.choice(["==", " == ", "!=", " != ", "<", " > ", "<= ", " >="])
    operands = TRUTHS + NUMBERS + OTHERS
    if draws.random() < 0.8:
        equality = sign.strip() in ("==", "!=")
        operands = draws.choice([NUMBERS, TRUTHS, OTHERS]) if equality else NUMBERS
    return draws.choice(operands) + sign + draws.choice(operands)


def drawn_condition(draws: random.Random, depth: int) -> str:
    """A condition of the grammar."""
    kind = draws.randrange(6) if depth > 0 else draws.randrange(2)
    if kind == 0:
        return draws.choice(TRUTHS * 3 + OTHERS)
    if kind == 1:
        return drawn_comparison(draws)
    if kind == 2:
        return draws.choice(["!", "! "]) + drawn_condition(draws, depth - 1)
    if kind == 3:
        return f"({drawn_condition(draws, depth - 1)})"
    word = draws.choice([" and ", " And ", " or ", "\tOR\t"])
    return drawn_condition(draws, depth - 1) + word + drawn_condition(draws, depth - 1)


def draw_condition(draws: random.Random, folder: str, number: str) -> Probe:
    """A condition in the property pass: of the grammar, of it but for a piece, or any pieces."""
    text = drawn_condition(draws, 3)
    kind = draws.random()
    if kind < 0.25:
        text = drawn_text(draws, CONDITION_PIECES, 8)
    elif kind < 0.5:
        place = draws.randrange(len(text) + 1)
        piece = draws.choice(["", draws.choice(CONDITION_PIECES)])
        text = text[:place] + piece + text[place + draws.randrange(3):]
    answer = condition_answer(text, VALUES, set(FILES) | FOLDERS)
    if answer in ("true", "false"):
        lines = [f"property c{number}="] if answer == "true" else []
        return Shown(number, text, [element(f"C{number}", Condition=text)], lines)
    child = group("PropertyGroup", [element("P", Condition=text)])
    return Refused(number, text, [child], f"/2/0: {answer}")


def with_condition(name: str, condition: str, elements: list[Element]) -> Element:
    """An element with a Condition and children."""
    return {"e": name, "a": {"Condition": condition}, "c": elements}


GROUPS = [group("PropertyGroup", [element("A", "b")]),
          element("ItemGroup", Condition="false"),
          group("ItemGroup", [element("C", Include="a", M="b")]),
          group("ItemDefinitionGroup", [group("C", [element("M")])]),
          group("Choose", [with_condition("When", "true", [])])]
REFUSED_GROUPS: list[tuple[Any, str, str]] = [
    (True, "", "2 NotElement"),
    (group("PropertyGroup", [element("A"), {"e": "B", "a": []}]), "/1", "2 NotElement"),
    (element("Group"), "", "3 UnknownElement"),
    (element("PropertyGroup", B=""), "", "3 UnknownElement"),
    (element("OnError", ExecuteTargets="A"), "", "4 Misplaced"),
    (group("Choose", [element("Otherwise")]), "", "4 Misplaced"),
    (element("Choose"), "", "5 MissingAttribute When"),
    (group("ItemGroup", [element("C", Include="a"), element("C")]), "/1",
     "5 MissingAttribute Include"),
    (group("ItemGroup", [element("C", Include="a", Remove="b")]), "/0",
     "6 BothAttributes Include Remove"),
    (group("PropertyGroup", [element("A"), element("1")]), "/1", "7 BadName 0")]


def surrounded(draws: random.Random, inner: Any, levels: int) -> tuple[list[Element], str]:
    """An element among groups without a fault, in levels of Choose, and its place."""
    before = draws.choices(GROUPS, k=draws.randrange(4))
    behind = draws.choices(GROUPS, k=draws.randrange(3))
    place = ""
    if levels > 0:
        children, place = surrounded(draws, inner, levels - 1)
        inner, place = group("Choose", [with_condition("When", "true", children)]), f"/0{place}"
    return [*before, inner, *behind], f"/{len(before)}{place}"


def draw_elements(draws: random.Random, folder: str, number: str) -> Probe:
    """An element that is refused, at some place of a project."""
    refused, below, fault = draws.choice(REFUSED_GROUPS)
    children, place = surrounded(draws, refused, draws.randrange(3))
    first, rest = re.fullmatch(r"/(\d+)(.*)", place).groups()
    place = f"/{int(first) + len(HEAD)}{rest}{below}"
    return Refused(number, json.dumps(refused), children, f"{place}: {fault}")


# ---- Running ----------------------------------------------------------------------------------


@dataclass(frozen=True)
class Kind:
    """Texts that are drawn in one way, and where their projects stand."""

    name: str
    draw: Draw
    group: str
    folder: str = ""


KINDS = [Kind("path from the root", draw_path, "ItemGroup"),
         Kind("path from a folder", draw_path, "ItemGroup", "a/b"),
         Kind("pattern from the root", draw_pattern, "ItemGroup"),
         Kind("pattern from a folder", draw_pattern, "ItemGroup", "a/b"),
         Kind("expression", draw_expression, "PropertyGroup"),
         Kind("condition", draw_condition, "PropertyGroup"),
         Kind("elements", draw_elements, "PropertyGroup")]
HEAD = [group("PropertyGroup", [element(name, value) for name, value in VALUES.items()]),
        group("ItemGroup", [element("Names", Include=";".join(NAMES))])]


def project(children: list[Element]) -> str:
    """The text of a project file."""
    return json.dumps({"e": "Project", "c": [*HEAD, *children]}, ensure_ascii=False)


def run(program: Path, files: dict[str, str], words: list[str]) -> list[str]:
    """The lines that the program prints in a folder of these files and those of FILES."""
    shared = "/dev/shm" if os.access("/dev/shm", os.W_OK) else None
    with tempfile.TemporaryDirectory(prefix="msb-texts-", dir=shared) as folder:
        for path, text in ({name: "" for name in FILES} | files).items():
            target = Path(folder, path)
            target.parent.mkdir(parents=True, exist_ok=True)
            target.write_text(text, encoding="utf-8")
        try:
            done = subprocess.run([program, *words], cwd=folder, stdin=subprocess.DEVNULL,
                                  capture_output=True, timeout=SECONDS, check=False)
        except subprocess.TimeoutExpired:
            return [f"no end within {SECONDS} seconds"]
    return done.stdout.decode("utf-8", "backslashreplace").split("\n")


def shown_failures(program: Path, kind: Kind, probes: list[Shown]) -> Iterator[str]:
    """What differs of texts that are read, which stand in one project."""
    path = at(kind.folder, ROOT)
    while probes:
        elements = [one for probe in probes for one in probe.elements]
        printed = run(program, {path: project([group(kind.group, elements)])}, ["eval", path])
        place = re.match(r"project refused\n  .* /2/(\d+): (.*)", "\n".join(printed[:2]))
        if place is None:
            yield from line_failures(probes, printed)
            return
        owners = [probe for probe in probes for _ in probe.elements]
        owner = owners[int(place[1])]
        yield f"{owner.text!r}: wanted {owner.lines}, got {place[2]}"
        probes = [probe for probe in probes if probe is not owner]


def line_failures(probes: list[Shown], printed: list[str]) -> Iterator[str]:
    """What differs of the lines of each text; a type or a property tells whose they are."""
    got: dict[str, list[str]] = {}
    for line in printed:
        found = re.match(r"(?:item|property) [a-z](\d{5})[ =]", line)
        if found is not None:
            got.setdefault(found[1], []).append(line)
    evaluated = "property a=1" in printed
    for probe in probes:
        lines = got.get(probe.number, [])
        if lines != probe.lines or not evaluated:
            yield f"{probe.text!r}: wanted {probe.lines}, got {lines or printed[:2]}"


def refused_failures(program: Path, kind: Kind, probes: list[Refused]) -> Iterator[str]:
    """What differs of texts that are refused, each in a file of its own that one build calls."""
    names = [f"p{probe.number}.proj" for probe in probes]
    call = element("MSBuild", Projects=";".join(names), ContinueOnError="ErrorAndContinue")
    root = group("Project", [{"e": "Target", "a": {"Name": "Build"}, "c": [call]}])
    files = {at(kind.folder, name): project(probe.children) for name, probe in zip(names, probes)}
    path = at(kind.folder, ROOT)
    printed = run(program, files | {path: json.dumps(root)}, ["build", path])
    got: dict[str, str] = {}
    for line in printed:
        found = re.match(r"  error: (?:.*/)?p(\d{5})\.proj:? (.*)", line)
        if found is not None:
            got[found[1]] = found[2]
    for probe in probes:
        if got.get(probe.number) != probe.fault:
            yield f"{probe.text!r}: wanted {probe.fault}, got {got.get(probe.number, printed[:2])}"


def kind_failures(program: Path, kind: Kind, draws: random.Random, count: int) -> Iterator[str]:
    """What differs of as many texts of a kind."""
    for begin in range(0, count, TOGETHER):
        numbers = range(min(TOGETHER, count - begin))
        probes = [kind.draw(draws, kind.folder, f"{number:05}") for number in numbers]
        shown = [probe for probe in probes if isinstance(probe, Shown)]
        refused = [probe for probe in probes if isinstance(probe, Refused)]
        yield from shown_failures(program, kind, shown)
        yield from refused_failures(program, kind, refused)


class WordsError(Exception):
    """Words that can't be used."""


def read_words(words: list[str]) -> tuple[Path, int, int]:
    """The program, the seed and the count of the words; ends where they are none."""
    numbers = words[1:]
    if not 1 <= len(words) <= 3 or not all(number.isdecimal() for number in numbers):
        raise WordsError(USAGE)
    program = Path(words[0]).resolve()
    if not (program.is_file() and os.access(program, os.X_OK)):
        raise WordsError(f"random_texts.py: {words[0]}: no program")
    seed, count = (*map(int, numbers), *(1, 1000)[len(numbers):])
    return program, seed, count


def main(words: list[str]) -> int:
    """Try texts of all kinds; the status of the script."""
    try:
        program, seed, count = read_words(words)
    except WordsError as fault:
        print(fault, file=sys.stderr)
        return 2
    sys.stdout.reconfigure(errors="backslashreplace")
    failures = 0
    for kind in KINDS:
        for line in kind_failures(program, kind, random.Random(f"{seed} {kind.name}"), count):
            failures += 1
            print(f"FAIL {kind.name}: {line}", flush=True)
    print(f"{len(KINDS) * count - failures} passed, {failures} failed")
    return 0 if count > 0 and failures == 0 else 1


if __name__ == "__main__":
    sys.exit(main(sys.argv[1:]))
