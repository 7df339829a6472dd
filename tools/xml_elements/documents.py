"""Which files are projects in XML, and their text."""

from __future__ import annotations

import codecs
import re

MSBUILD = "http://schemas.microsoft.com/developer/msbuild/2003"
NAMED = (".proj", ".csproj", ".targets", ".props")
HEAD = 65536  # bytes in which a project's first element begins

MARKS = (  # byte order marks; that of UTF-32 begins as that of UTF-16
    (codecs.BOM_UTF8, "utf-8"),
    (codecs.BOM_UTF32_LE, "utf-32-le"),
    (codecs.BOM_UTF32_BE, "utf-32-be"),
    (codecs.BOM_UTF16_LE, "utf-16-le"),
    (codecs.BOM_UTF16_BE, "utf-16-be"),
)
UNMARKED = ((b"<\0", "utf-16-le"), (b"\0<", "utf-16-be"))
DECLARED = re.compile(rb"<\?xml[^>]*?\sencoding\s*=\s*[\"']([A-Za-z][A-Za-z0-9._-]*)[\"']")
AHEAD = re.compile(r"(?:\s+|<\?.*?\?>|<!--.*?-->)*", re.DOTALL)
ROOT = re.compile(r"<([^\s/>!?]+)(?=[\s/>])([^>]*)")
NAMESPACE = re.compile(r"\sxmlns\s*=\s*[\"']([^\"']*)[\"']")


class NotTaken(Exception):
    """What the element form can't hold, with the place where it stands."""

    def __init__(self, line: int, column: int, what: str):
        super().__init__(f"line {line}, column {column}: {what}")
        self.line, self.column, self.what = line, column, what


def encoding_of(document: bytes) -> tuple[str, int]:
    """The name of a document's encoding, and how many bytes its mark has."""
    for mark, name in MARKS:
        if document.startswith(mark):
            return name, len(mark)
    for begin, name in UNMARKED:
        if document.startswith(begin):
            return name, 0
    declared = DECLARED.match(document)
    name = declared[1].decode().lower() if declared else "utf-8"
    return ("utf-8" if name.startswith(("utf-16", "utf-32", "ucs-")) else name), 0


def decoded(document: bytes) -> str:
    """The text of an XML document, by its byte order mark or else by its declared encoding."""
    name, mark = encoding_of(document)
    try:
        return document[mark:].decode(name)
    except LookupError:
        raise NotTaken(1, 1, f"the encoding {name} is not known") from None
    except UnicodeDecodeError as error:
        ahead = error.object[: error.start].decode(name, "replace")
        line, column = ahead.count("\n") + 1, len(ahead) - ahead.rfind("\n")
        raise NotTaken(line, column, f"the text is not {name}") from None
    except UnicodeError:
        raise NotTaken(1, 1, f"the text is not {name}") from None


def root_in(head: bytes) -> tuple[str, str]:
    """The name and the namespace of an XML document's first element, by its first bytes.

    Both are empty in another file, and the name is ? in one that has no such element.
    """
    name, mark = encoding_of(head)
    try:
        text = head[mark:].decode(name, "ignore")
    except (LookupError, UnicodeError):
        text = head.decode("latin-1")
    root = ROOT.match(text, AHEAD.match(text).end())
    if not root:
        return ("?" if text.lstrip()[:1] == "<" else ""), ""
    namespace = NAMESPACE.search(root[2])
    return root[1], namespace[1] if namespace else ""


def is_named(path: str) -> bool:
    """Whether a file has a name of projects."""
    return path.lower().endswith(NAMED)


def is_project(path: str, head: bytes) -> bool:
    """Whether a file is a project in XML, by its name and its first bytes (at most HEAD).

    A file with a name of projects that is no whole XML counts as one, so that its fault is told.
    """
    root, namespace = root_in(head)
    if is_named(path):
        return root in ("Project", "?")
    return root == "Project" and namespace in ("", MSBUILD)
