"""The text of a property or of metadata, which may have markup in it.

MSBuild takes the text without its markup where this is comments alone, or where the content begins
with a CDATA section. Any other markup makes the content a text itself, as XmlNode.InnerXml writes
it: attributes in double quotes, white space alone between elements dropped, and each namespace
declared that is used.
(MSBuild project file schema reference, Property element.)
"""

from __future__ import annotations

TEXT = str.maketrans({"&": "&amp;", "<": "&lt;", ">": "&gt;"})
ATTRIBUTE = TEXT | str.maketrans({'"': "&quot;", "\n": "&#xA;", "\r": "&#xD;"})
Names = dict[str, str]  # the namespaces of prefixes; the default one has the empty prefix


class Content:
    def __init__(self) -> None:
        self.plain: list[str] = []
        self.written: list[str] = []
        self.is_markup = False
        self.open: list[str] = []
        self.declared: list[Names] = [{}]

    def text(self, text: str) -> None:
        self.plain.append(text)
        self.written.append(text.translate(TEXT))

    def section(self, text: str) -> None:
        """A CDATA section."""
        self.plain.append(text)
        self.markup(f"<![CDATA[{text}]]>")

    def comment(self, text: str) -> None:
        self.written.append(f"<!--{text}-->")

    def markup(self, written: str) -> None:
        self.is_markup = True
        self.written.append(written)

    def start(self, name: str, attributes: dict[str, str], names: Names, is_empty: bool) -> None:
        """An element inside the content. `names` are the namespaces that hold there."""
        own = {key[6:]: uri for key, uri in attributes.items() if key.startswith("xmlns:")}
        if "xmlns" in attributes:
            own[""] = attributes["xmlns"]
        declared = {**self.declared[-1], **own}
        pairs = list(attributes.items())
        for prefix in prefixes(name, attributes):
            uri = names.get(prefix, "")
            if declared.get(prefix, "") != uri:
                declared[prefix] = uri
                pairs.append((f"xmlns:{prefix}" if prefix else "xmlns", uri))
        shown = "".join(f' {key}="{value.translate(ATTRIBUTE)}"' for key, value in pairs)
        self.markup(f"<{name}{shown}{' />' if is_empty else '>'}")
        self.open.append("" if is_empty else name)
        self.declared.append(declared)

    def end(self) -> None:
        name = self.open.pop()
        self.declared.pop()
        if name:
            self.markup(f"</{name}>")

    def value(self) -> str:
        written = "".join(self.written)
        is_written = self.is_markup and not written.startswith("<![CDATA[")
        return written if is_written else "".join(self.plain)


def prefixes(name: str, attributes: dict[str, str]) -> list[str]:
    """The prefixes of an element, its own, which may be empty, and of its attributes."""
    found = [name.partition(":")[0] if ":" in name else ""]
    found += [key.partition(":")[0] for key in attributes if ":" in key]
    return [prefix for prefix in dict.fromkeys(found) if prefix not in ("xml", "xmlns")]
