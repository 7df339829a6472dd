"""The Imports that an Sdk stands for, where its files stand as NAME/Sdk/Sdk.props and Sdk.targets.

An Sdk of a Project imports Sdk.props ahead of its first element and Sdk.targets behind its last,
an element Sdk does the same, and an Import with an Sdk takes its file from there. An Sdk that is
not staged stays as it is written.
(MSBuild, How to: Reference an MSBuild project SDK.)
"""

from __future__ import annotations

import os

from .reading import Element

Staged = dict[str, str]  # from names of Sdks, in lower case, to the whole paths of their folders


def names_in(text: str) -> list[str]:
    """The names in an attribute Sdk, without their versions."""
    entries = (entry.strip() for entry in text.split(";"))
    return [entry.partition("/")[0] for entry in entries if entry]


def used_by(root: Element) -> list[str]:
    """The names of all Sdks that a project names, in order."""
    texts = [root.attributes.get("Sdk", "")]
    for child in root.children:
        texts.append(child.attributes.get("Name" if child.name == "Sdk" else "Sdk", ""))
        texts += [
            inner.attributes.get("Sdk", "") for inner in child.children if inner.name == "Import"
        ]
    return list(dict.fromkeys(name for text in texts for name in names_in(text)))


def escaped(path: str) -> str:
    return "".join(f"%{ord(one):02X}" if one in "%$@';?*" else one for one in path)


class Imports:
    """Puts Imports in the place of staged Sdks in one project, whose file stands in `folder`."""

    def __init__(self, staged: Staged, folder: str):
        self.staged, self.folder = staged, folder

    def path(self, name: str, file: str) -> str:
        folder = os.path.relpath(self.staged[name.lower()], self.folder)
        return f"{escaped(folder)}/{file}"

    def are_staged(self, names: list[str]) -> bool:
        return bool(names) and all(name.lower() in self.staged for name in names)

    def of_file(self, names: list[str], file: str, line: int, column: int) -> list[Element]:
        paths = [self.path(name, file) for name in names]
        return [Element("Import", {"Project": path}, line, column) for path in paths]

    def put_in(self, root: Element) -> None:
        self.put_in_imports(root)
        named = names_in(root.attributes.get("Sdk", ""))
        if self.are_staged(named):
            del root.attributes["Sdk"]
        else:
            named = []
        kept = []
        for child in root.children:
            name = child.attributes.get("Name", "")
            is_staged = child.name == "Sdk" and self.are_staged([name])
            (named if is_staged else kept).append(name if is_staged else child)
        first = self.of_file(named, "Sdk.props", root.line, root.column)
        root.children = first + kept + self.of_file(named, "Sdk.targets", root.end, 1)

    def put_in_imports(self, element: Element) -> None:
        """Gives each Import with a staged Sdk its path, in a Project and in its ImportGroups."""
        for child in element.children:
            if child.name == "ImportGroup":
                self.put_in_imports(child)
            names = names_in(child.attributes.get("Sdk", "")) if child.name == "Import" else []
            if len(names) == 1 and self.are_staged(names) and "Project" in child.attributes:
                del child.attributes["Sdk"]
                child.attributes.pop("Version", None)
                child.attributes.pop("MinimumVersion", None)
                child.attributes["Project"] = self.path(names[0], child.attributes["Project"])


def in_folder(folder: str) -> Staged:
    """The Sdks in a folder of Sdks."""
    names = sorted(os.listdir(folder))
    places = {name.lower(): os.path.join(os.path.abspath(folder), name, "Sdk") for name in names}
    return {
        name: place
        for name, place in places.items()
        if os.path.isfile(os.path.join(place, "Sdk.props"))
    }


def among(paths: list[str], top: str) -> tuple[Staged, dict[str, list[str]]]:
    """The Sdks among paths from `top`, and the places of those that stand there more than once."""
    places: dict[str, list[str]] = {}
    for path in paths:
        parts = path.split(os.sep)
        if len(parts) > 2 and parts[-2:] == ["Sdk", "Sdk.props"]:
            places.setdefault(parts[-3].lower(), []).append(os.path.dirname(path))
    staged = {
        name: os.path.join(top, found[0]) for name, found in places.items() if len(found) == 1
    }
    return staged, {name: found for name, found in places.items() if len(found) > 1}
