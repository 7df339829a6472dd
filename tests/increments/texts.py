"""What the texts of small projects denote: names, patterns, references to items, transforms.

It reads what the sets of incremental_sets.py use, from the same files as the program: entries of a
list that are a name, a pattern with `*` in one segment, `@(X)` or `@(X->'..')`, `%(X.M)` for the
value by which an element is batched, and `$(P)`, where no target changes a property. (MSBuild
items; MSBuild transforms; MSBuild batching; MSBuild properties; Import element.)
"""

import json
import posixpath
import re
from collections.abc import Iterable
from dataclasses import dataclass
from functools import lru_cache
from typing import Any

Element = dict[str, Any]  # an element of a project file

REFERENCE = re.compile(r"@\((\w+)(?:->'([^']*)')?\)")
METADATA = re.compile(r"%\((?:(\w+)\.)?(\w+)\)")
PROPERTY = re.compile(r"\$\((\w+)\)")


@dataclass(frozen=True)
class Item:
    """An item: its identity, and the metadata that it was given."""

    identity: str
    metadata: tuple[tuple[str, str], ...] = ()

    def value(self, name: str) -> str:
        """One of its metadata, empty where it has none of this name."""
        if name == "Identity":
            return self.identity
        if name == "Filename":
            return posixpath.splitext(posixpath.basename(self.identity))[0]
        return dict(self.metadata).get(name, "")


Items = tuple[Item, ...]
Scope = dict[str, Items]  # the items of each type
Values = dict[tuple[str, str], str]  # by type and name of a metadatum


@dataclass(frozen=True)
class Bucket:
    """The values by which an element is batched, and the items that have them."""

    values: Values
    lists: Scope


def attribute(element: Element, name: str) -> str | None:
    """An attribute of an element."""
    return element.get("a", {}).get(name)


def children(element: Element) -> list[Element]:
    """The children of an element."""
    return element.get("c", [])


def folder_of(project: str) -> str:
    """The folder of a project, with the `/` behind it; empty for the folder of the build."""
    return project[: project.rfind("/") + 1]


def path_in(project: str, name: str) -> str:
    """The path of a file that a project names; a name with `/` ahead begins at the tree's root."""
    folder = "" if name.startswith("/") else folder_of(project)
    return posixpath.normpath(folder + name.lstrip("/"))


# ---- Properties and imports ---------------------------------------------------------------------


def with_imports(tree: dict[str, Any], path: str) -> list[tuple[str, Element]]:
    """The children of a project file, those of the files that it imports in their places, each
    with the file in which it stands."""
    found: list[tuple[str, Element]] = []
    for child in children(json.loads(tree[path].text)):
        if child["e"] == "Import":
            found += with_imports(tree, path_in(path, child["a"]["Project"]))
        else:
            found.append((path, child))
    return found


def with_properties(element: Element, properties: dict[str, str]) -> Element:
    """An element with the values of properties in all its texts."""
    def value(text: str) -> str:
        return PROPERTY.sub(lambda found: properties.get(found[1], ""), text)
    attributes = {name: value(text) for name, text in element.get("a", {}).items()}
    inner = [with_properties(child, properties) for child in children(element)]
    return element | {"a": attributes, "c": inner} | (
        {"t": value(element["t"])} if "t" in element else {})


def read_project(tree: dict[str, Any], path: str) -> Element:
    """A project as one element, with what it imports and the values of its properties. Without
    DefaultTargets its first target is the default."""
    properties: dict[str, str] = {}
    found = with_imports(tree, path)
    for place, child in found:
        here = properties | {"MSBuildThisFileDirectory": f"/{folder_of(place)}"}
        for one in children(child) if child["e"] == "PropertyGroup" else []:
            properties[one["e"]] = with_properties(one, here).get("t", "")
    inside = [with_properties(child, properties) for _, child in found]
    first = [child["a"]["Name"] for child in inside if child["e"] == "Target"][:1]
    defaults = attribute(json.loads(tree[path].text), "DefaultTargets") or ";".join(first)
    return {"e": "Project", "a": {"DefaultTargets": defaults}, "c": inside}


def filled(text: str, values: Values) -> str:
    """A text with the values of a bucket."""
    return METADATA.sub(lambda found: values[found[1], found[2]], text)


@lru_cache(maxsize=4096)
def transformed(item: Item, pattern: str | None) -> Item:
    """The item that a transform makes of one, or the item itself where there is no transform."""
    if pattern is None:
        return item
    return Item(METADATA.sub(lambda found: item.value(found[2]), pattern), item.metadata)


def listed(text: str, scope: Scope, values: Values) -> Items:
    """The items that a text denotes."""
    items: list[Item] = []
    for entry in filter(None, map(str.strip, text.split(";"))):
        reference = REFERENCE.fullmatch(entry)
        if reference is None:
            items.append(Item(filled(entry, values)))
        else:
            items += [transformed(item, reference[2]) for item in scope.get(reference[1], ())]
    return tuple(items)


def matches(pattern: str, project: str, paths: Iterable[str]) -> list[str]:
    """The files that a pattern of a project names, in order."""
    folder = folder_of(project)
    rule = re.compile("[^/]*".join(map(re.escape, pattern.split("*"))))
    names = [path[len(folder):] for path in sorted(paths) if path.startswith(folder)]
    return [name for name in names if rule.fullmatch(name)]


def with_files(items: Items, project: str, paths: Iterable[str]) -> Items:
    """Items, where the files that a pattern names stand in the place of each pattern."""
    found: list[Item] = []
    for item in items:
        if "*" in item.identity:
            found += [Item(name, item.metadata) for name in matches(item.identity, project, paths)]
        else:
            found.append(item)
    return tuple(found)


def included(element: Element, project: str, scope: Scope, paths: Iterable[str]) -> Items:
    """The items that an item element includes, with its metadata."""
    given = {name: text for name, text in element["a"].items() if name != "Include"}
    items = listed(element["a"]["Include"], scope, {})
    found = with_files(items, project, paths)
    return tuple(Item(i.identity, tuple(sorted((dict(i.metadata) | given).items()))) for i in found)


def with_items(scope: Scope, kind: str, items: Items) -> Scope:
    """A scope with more items of a type."""
    return scope | {kind: scope.get(kind, ()) + items}


def buckets(texts: Iterable[str], scope: Scope) -> list[Bucket]:
    """The buckets of an element with these texts: one for each tuple of values that the items of
    the type that they name have, in order of first appearance."""
    plain = [REFERENCE.sub("", text) for text in texts]
    names = sorted({(found[1], found[2]) for text in plain for found in METADATA.finditer(text)})
    if not names:
        return [Bucket({}, {})]
    kind = names[0][0]
    if any(other != kind for other, _ in names):
        raise ValueError(f"batched by more than one type: {names}")
    tuples = [tuple(item.value(name) for _, name in names) for item in scope.get(kind, ())]
    return [
        Bucket(dict(zip(names, found)), {kind: tuple(
            item for item, own in zip(scope[kind], tuples) if own == found)})
        for found in dict.fromkeys(tuples)
    ] or [Bucket(dict.fromkeys(names, ""), {})]
