"""Writes elements as JSON: each begins on the line of its tag, and in its column if it can."""

from __future__ import annotations

import json

from .reading import Element

shown = json.JSONEncoder(ensure_ascii=False).encode


class Writer:
    def __init__(self) -> None:
        self.parts: list[str] = []
        self.line = self.column = 1

    def put(self, text: str) -> None:
        self.parts.append(text)
        self.column += len(text)

    def go(self, line: int, column: int) -> None:
        """Goes on to a place, if that lies ahead."""
        if line > self.line:
            self.parts.append("\n" * (line - self.line))
            self.line, self.column = line, 1
        if line == self.line and column > self.column:
            self.put(" " * (column - self.column))

    def element(self, element: Element) -> None:
        self.go(element.line, element.column)
        self.put('{"e": ' + shown(element.name))
        if element.attributes:
            self.put(', "a": ' + shown(element.attributes))
        if element.text:
            self.put(', "t": ' + shown(element.text))
        if element.children:
            self.put(', "c": [')
            self.element(element.children[0])
            for child in element.children[1:]:
                is_ahead = (child.line, child.column) > (self.line, self.column + 1)
                self.put("," if is_ahead else ", ")
                self.element(child)
            self.put("]")
        self.put("}")


def write(root: Element) -> bytes:
    writer = Writer()
    writer.element(root)
    return "".join(writer.parts).encode() + b"\n"
