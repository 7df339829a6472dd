"""Reads a project in MSBuild's XML notation into elements.

White space alone is no text, as in MSBuild, unless xml:space="preserve" holds; a CDATA section or a
character reference is one. Line ends in texts and attributes stay, but for those between the
parts of an item reference. Dropped are comments and processing instructions, the attributes
xml:.. and xmlns:.. and those of the XMLSchema-instance namespace, and what stands below
ProjectExtensions and UsingTask.
"""

from __future__ import annotations

import re
from dataclasses import dataclass, field
from xml.parsers import expat

from .content import Content, Names
from .documents import NotTaken, decoded
from .references import spaced

DEEPEST = 63  # elements, so that their JSON has at most the 127 levels that msb reads
INSTANCE = "http://www.w3.org/2001/XMLSchema-instance"
WHITE = " \t\r\n"
VALUE = rb"\s*=\s*(?:\"([^\"]*)\"|'([^']*)')"
ATTRIBUTE = re.compile(rb"\s([^\s=]+)" + VALUE)
TAG = re.compile(rb"<[^\s/>]+(?:\s+[^\s=]+\s*=\s*(?:\"[^\"]*\"|'[^']*'))*\s*(/?)>")
LINE_ENDS = re.compile(rb"[\t\r\n]")
REFERENCE = re.compile(r"&(?:#x([0-9A-Fa-f]+)|#([0-9]+)|([a-z]+));")
ENTITIES = {"amp": "&", "lt": "<", "gt": ">", "quot": '"', "apos": "'"}
GROUPS = ("ItemGroup", "ItemDefinitionGroup")


@dataclass
class Element:
    """An element with the line and column of its tag, from 1, and the line of its end."""

    name: str
    attributes: dict[str, str]
    line: int
    column: int
    text: str = ""
    children: list[Element] = field(default_factory=list)
    end: int = 0


@dataclass
class Scope:
    """What holds inside an element: namespaces, and whether white space alone is text."""

    names: Names
    keeps_space: bool


class Run:
    """Text that no markup parts."""

    def __init__(self) -> None:
        self.pieces: list[str] = []
        self.place: tuple[int, int] | None = None  # of its first character that is text

    def take(self) -> str:
        text = "".join(self.pieces)
        self.pieces, self.place = [], None
        return text


class Reader:
    def __init__(self, document: bytes):
        self.document = document
        self.parser = expat.ParserCreate("utf-8")
        self.parser.ordered_attributes = True
        self.parser.StartElementHandler = self.start
        self.parser.EndElementHandler = self.end
        self.parser.CharacterDataHandler = self.characters
        self.parser.StartCdataSectionHandler = self.start_section
        self.parser.EndCdataSectionHandler = self.end_section
        self.parser.CommentHandler = self.comment
        self.parser.ProcessingInstructionHandler = self.instruction
        self.parser.StartDoctypeDeclHandler = self.document_type
        self.root: Element | None = None
        self.open: list[Element] = []  # the innermost last
        self.plain: list[list[str]] = []  # the texts of each open element
        self.scopes = [Scope({}, False)]
        self.run = Run()
        self.is_section = False
        self.content: Content | None = None  # of the property or metadata that is open
        self.inside = 0  # elements that are open inside that, or in one without effect

    def place(self) -> tuple[int, int]:
        return self.parser.CurrentLineNumber, self.parser.CurrentColumnNumber + 1

    def start(self, name: str, pairs: list[str]) -> None:
        self.flush()
        tag = TAG.match(self.document, self.parser.CurrentByteIndex)
        attributes = written_attributes(tag, name, pairs)
        self.scopes.append(inner_scope(self.scopes[-1], attributes))
        if self.content:
            self.content.start(name, attributes, self.scopes[-1].names, tag[1] == b"/")
            self.inside += 1
        elif self.is_without_effect():
            self.inside += 1
        else:
            self.start_element(name, attributes)

    def start_element(self, name: str, attributes: dict[str, str]) -> None:
        line, column = self.place()
        kept = kept_attributes(attributes, self.scopes[-1].names)
        if self.open and kept.pop("xmlns", None) not in (None, self.scopes[-2].names.get("", "")):
            raise NotTaken(line, column, f"<{name}> is of another namespace than the project")
        for written in [name, *kept]:
            if ":" in written:
                raise NotTaken(line, column, f"the name {written} has a prefix")
        if len(self.open) == DEEPEST:
            raise NotTaken(line, column, f"<{name}> stands below {DEEPEST} others")
        if self.plain and self.plain[-1]:
            raise NotTaken(line, column, f"<{name}> stands beside text in <{self.open[-1].name}>")
        element = Element(name, kept, line, column)
        if self.open:
            self.open[-1].children.append(element)
        self.root = self.root or element
        self.open.append(element)
        self.plain.append([])
        self.content = Content() if self.is_text() else None

    def is_text(self) -> bool:
        """Whether the innermost element is a property or metadata."""
        names = ["", "", *(element.name for element in self.open[-3:])]
        return names[-2] == "PropertyGroup" or names[-3] in GROUPS

    def is_without_effect(self) -> bool:
        """Whether the innermost element is one of a project that has no effect, with all below."""
        return len(self.open) == 2 and self.open[-1].name in ("ProjectExtensions", "UsingTask")

    def end(self, name: str) -> None:
        self.flush()
        self.scopes.pop()
        if self.inside:
            self.inside -= 1
            if self.content:
                self.content.end()
            return
        element, plain = self.open.pop(), self.plain.pop()
        element.end = self.parser.CurrentLineNumber
        element.text = spaced(self.content.value()) if self.content else "".join(plain)
        self.content = None

    def characters(self, text: str) -> None:
        index = self.parser.CurrentByteIndex
        begin = self.document[index : index + 2]
        is_reference = begin[:1] == b"&" and not self.is_section
        if text == "\n" and begin[:1] == b"\r":
            text = begin.decode() if begin == b"\r\n" else "\r"
        spaces = len(text) - len(text.lstrip(WHITE))
        if self.run.place is None and (spaces < len(text) or is_reference or self.is_section):
            line, column = self.place()
            self.run.place = line, column + (spaces if spaces < len(text) else 0)
        self.run.pieces.append(text)

    def flush(self) -> None:
        """Takes in the text ahead of the markup at hand."""
        place, text = self.run.place, self.run.take()
        if self.content and (place or self.scopes[-1].keeps_space):
            self.content.text(text)
        elif place and not self.content and not self.is_without_effect():
            self.add_text(text, place)

    def add_text(self, text: str, place: tuple[int, int]) -> None:
        """Text in an element that is no property and no metadata."""
        if self.open[-1].children:
            raise NotTaken(*place, f"text stands beside elements in <{self.open[-1].name}>")
        self.plain[-1].append(text)

    def start_section(self) -> None:
        self.flush()
        self.is_section = True

    def end_section(self) -> None:
        self.is_section = False
        if self.content:
            self.content.section(self.run.take())
        else:
            self.flush()

    def comment(self, text: str) -> None:
        self.flush()
        if self.content:
            self.content.comment(text)

    def instruction(self, target: str, text: str) -> None:
        self.flush()
        if self.content:
            self.content.markup(f"<?{target} {text}?>" if text else f"<?{target}?>")

    def document_type(self, *_: object) -> None:
        raise NotTaken(*self.place(), "a document type is not read")


def written_attributes(tag: re.Match[bytes], name: str, pairs: list[str]) -> dict[str, str]:
    """The attributes of a tag. Line ends and tabs, of which expat makes spaces, stay."""
    if not LINE_ENDS.search(tag[0]):
        return dict(zip(pairs[::2], pairs[1::2]))
    found = ATTRIBUTE.finditer(tag[0], 1 + len(name.encode()))
    return {
        one[1].decode(): REFERENCE.sub(referred, (one[2] or one[3] or b"").decode())
        for one in found
    }


def referred(reference: re.Match[str]) -> str:
    if reference[3]:
        return ENTITIES[reference[3]]
    return chr(int(reference[1], 16) if reference[1] else int(reference[2]))


def inner_scope(outer: Scope, attributes: dict[str, str]) -> Scope:
    if not any(name.startswith(("xml:", "xmlns")) for name in attributes):
        return outer
    names = {key[6:]: uri for key, uri in attributes.items() if key.startswith("xmlns:")}
    if "xmlns" in attributes:
        names[""] = attributes["xmlns"]
    space = attributes.get("xml:space")
    keeps_space = space == "preserve" if space else outer.keeps_space
    return Scope({**outer.names, **names} if names else outer.names, keeps_space)


def kept_attributes(attributes: dict[str, str], names: Names) -> dict[str, str]:
    """An element's attributes without those of XML itself and of schemas."""

    def is_kept(name: str) -> bool:
        prefix, colon, _ = name.partition(":")
        return not colon or prefix not in ("xml", "xmlns") and names.get(prefix) != INSTANCE

    return {name: spaced(value) for name, value in attributes.items() if is_kept(name)}


def read(document: bytes) -> Element:
    """The root element of an XML document, or NotTaken."""
    reader = Reader(decoded(document).encode())
    try:
        reader.parser.Parse(reader.document, True)
    except expat.ExpatError as error:
        raise NotTaken(error.lineno, error.offset + 1, expat.ErrorString(error.code)) from None
    return reader.root
