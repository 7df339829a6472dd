"""The grammar of conditions (docs/FORMATS.md, Conditions)."""

from __future__ import annotations

import re

from .expressions import FUNCTION, ITEMS, METADATA, PROPERTY

SPACE = re.compile(r"[ \t\r\n]*")
SIGN = re.compile(r"==|!=|<=|>=|<|>|!|\(|\)")
WORD = re.compile(r"[A-Za-z0-9_.+-]+")
NUMBER = re.compile(r"[+-]?(?:[0-9]+(?:\.[0-9]+)?)$|0x[0-9A-Fa-f]{1,16}$")
COMPARISONS = ("==", "!=", "<=", ">=", "<", ">")
TESTS = ("exists", "hastrailingslash")
DEEPEST = 64


class Syntax(Exception):
    """A condition that has no reading, and what stands where it ends."""


def is_no_number(operand: str) -> bool:
    """Whether an operand has no reference, and is no number."""
    return not re.search(r"[$@%]\(", operand) and not NUMBER.match(operand)


class Condition:
    """Reads a condition. `orders` are the literals in its order comparisons that are no numbers."""

    def __init__(self, text: str):
        self.text = text
        self.place = 0
        self.depth = 0
        self.orders: list[str] = []
        self.next()
        if self.token:
            self.either()
        if self.token:
            self.refuse()

    def refuse(self) -> None:
        shown = self.text[self.begin :].split()
        raise Syntax(shown[0][:20] if shown else "its end")

    def next(self) -> None:
        """Takes the token at the place: a sign, a word, a reference, or a text in quotes."""
        self.begin = SPACE.match(self.text, self.place).end()
        for pattern in (SIGN, WORD, PROPERTY, FUNCTION, ITEMS, METADATA):
            found = pattern.match(self.text, self.begin)
            if found:
                self.token, self.place = found[0], found.end()
                return
        self.token, self.place = "", self.begin
        if self.text[self.begin : self.begin + 1] == "'":
            self.place = self.quoted(self.begin + 1)
            self.token = self.text[self.begin : self.place]
        elif self.begin < len(self.text):
            self.refuse()

    def quoted(self, place: int) -> int:
        """The place behind the `'` that ends a quoted text: the next one in no item reference."""
        while place < len(self.text):
            items = ITEMS.match(self.text, place)
            if self.text[place] == "'":
                return place + 1
            place = items.end() if items else place + 1
        return self.refuse()

    def is_word(self, word: str) -> bool:
        return self.token.lower() == word

    def either(self) -> None:
        self.both()
        while self.is_word("or"):
            self.next()
            self.both()

    def both(self) -> None:
        self.one()
        while self.is_word("and"):
            self.next()
            self.one()

    def one(self) -> None:
        if self.token in ("!", "("):
            self.deeper(self.token)
            return
        left = self.operand()
        if self.token in COMPARISONS:
            sign = self.token
            self.next()
            right = self.operand()
            if sign[0] in "<>":
                self.orders += [one for one in (left, right) if is_no_number(one)]

    def deeper(self, sign: str) -> None:
        self.depth += 1
        if self.depth > DEEPEST:
            self.refuse()
        self.next()
        if sign == "!":
            self.one()
        else:
            self.either()
            self.close()
        self.depth -= 1

    def close(self) -> None:
        if self.token != ")":
            self.refuse()
        self.next()

    def operand(self) -> str:
        token = self.token
        if not token or token in COMPARISONS or token in "!()" or token.lower() in ("and", "or"):
            self.refuse()
        self.next()
        if token.lower() in TESTS and self.token == "(":
            self.next()
            self.operand()
            self.close()
        elif self.token == "(" and WORD.fullmatch(token):
            raise Syntax(f"{token}(")
        return token.strip("'")
