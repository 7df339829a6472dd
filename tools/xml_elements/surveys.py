"""Tells what msb does not take in projects: as one table, the most frequent first.

What a project says is looked at, and not what it comes to: a Condition that is never true hides
nothing here, and what comes of the values of properties, as a path that names no file, is not seen.
"""

from __future__ import annotations

import re
from collections import defaultdict
from dataclasses import dataclass

from .conditions import Condition, Syntax
from .expressions import Reference, mixed, scan
from .reading import Element
from .table import (
    EMPTY_METADATA,
    EMPTY_PROPERTIES,
    IN_TARGET,
    KINDS,
    NAME,
    NO_TASKS,
    PARAMETERS,
    SET_BY_ENGINE,
    SET_BY_ITEMS,
    TARGET_NAME,
    TASKS,
    Kind,
)

REFUSED, FAILS, EMPTY = (
    "refused",
    "fails",
    "empty",
)  # a project, a run of a target, a value
SHOWN = {
    "property": "a property",
    "item": "an item",
    "metadata": "metadata",
    "definition": "an item definition",
    "default": "metadata of an item definition",
    "task": "a task",
}
ITEM_LISTS = ("Include", "Exclude", "Remove", "Update")
TARGET_LISTS = ("DependsOnTargets", "BeforeTargets", "AfterTargets")
LISTS = {
    "Project": ("DefaultTargets", "InitialTargets", "TreatAsLocalProperty"),
    "item": ITEM_LISTS,
    "Target": TARGET_LISTS + ("Inputs", "Outputs", "Returns"),
    "OnError": ("ExecuteTargets",),
}
TASK_LISTS = frozenset(
    "sourcefiles destinationfiles lines include exclude additionalmetadata"
    " projects targets properties removeproperties".split()
)
STARS = re.compile(r"(?:^|[/\\;])[ \t\r\n]*(?:[^;/\\]*[^;/\\* ]\*\*|\*\*[^;/\\ ])")


@dataclass(frozen=True)
class Find:
    """What msb does not take, what comes of it, and where it stands."""

    effect: str
    what: str
    file: str
    line: int


@dataclass(frozen=True)
class Place:
    """Where a text stands, and which references may stand there."""

    shown: str
    items: bool = True
    metadata: str = ""  # "": none, "*": any, else an item type, whose own may
    is_list: bool = False
    in_target: bool = False


class Survey:
    """The finds of one file."""

    def __init__(self, file: str):
        self.file = file
        self.finds: list[Find] = []

    def tell(self, effect: str, what: str, element: Element) -> None:
        self.finds.append(Find(effect, what, self.file, element.line))

    def look(self, element: Element, kind: str, in_target: bool = False, item: str = "") -> None:
        """Looks at an element and at those below. `item` is the type that it is metadata of."""
        row = KINDS[kind]
        if row.is_ignored:
            return
        self.look_at_names(element, kind, row, in_target)
        for name, text in element.attributes.items():
            self.look_at_text(
                element, text, attribute_place(kind, name, element, in_target, item), name
            )
        if row.has_text:
            self.look_at_text(element, element.text, text_place(kind, in_target, item), "")
        elif element.text:
            self.tell(REFUSED, f"text in <{element.name}>", element)
        inner = element.name if kind in ("item", "definition") else ""
        for child in element.children:
            below = child_kind(row, kind, child.name)
            if below:
                self.look(child, below, in_target or kind == "Target", inner)
            else:
                self.tell(REFUSED, f"<{child.name}> in {shown_kind(kind, element)}", child)
        self.look_at_order(element, kind)

    def look_at_names(self, element: Element, kind: str, row: Kind, in_target: bool) -> None:
        allowed = row.attributes | IN_TARGET if kind == "item" and in_target else row.attributes
        others = [name for name in element.attributes if name not in allowed]
        for name in others:
            if not row.free:
                self.tell(REFUSED, f"attribute {name} of {shown_kind(kind, element)}", element)
            elif not re.fullmatch(NAME, name):
                self.tell(REFUSED, f"name {name} of {row.free}", element)
        for name in row.required:
            if name not in element.attributes:
                self.tell(REFUSED, f"<{element.name}> without {name}", element)
        if kind in (
            "property",
            "item",
            "definition",
            "metadata",
            "default",
            "task",
        ) and not re.fullmatch(NAME, element.name):
            self.tell(REFUSED, f"name {element.name} of {SHOWN[kind]}", element)
        if kind == "Target" and not re.fullmatch(TARGET_NAME, element.attributes.get("Name", "A")):
            self.tell(
                REFUSED,
                "name of a target with other characters than letters, digits, _ . : and -",
                element,
            )
        self.look_at_kind(element, kind, others, in_target)

    def look_at_kind(self, element: Element, kind: str, others: list[str], in_target: bool) -> None:
        effect = FAILS if in_target else REFUSED
        if kind == "property" and element.name.lower() in SET_BY_ENGINE:
            self.tell(effect, f"property {element.name} is set, which the engine sets", element)
        metadata = (
            others
            if kind in ("item", "definition")
            else [element.name]
            if kind in ("metadata", "default")
            else []
        )
        for name in metadata:
            if name.lower() in SET_BY_ITEMS:
                self.tell(effect, f"metadata {name} is set, which the engine sets", element)
        if kind == "item":
            self.look_at_item(element, in_target)
        if kind == "task":
            self.look_at_task(element, others)
        if kind == "Output" and ("ItemName" in element.attributes) == (
            "PropertyName" in element.attributes
        ):
            self.tell(REFUSED, "<Output> with not just one of ItemName and PropertyName", element)

    def look_at_item(self, element: Element, in_target: bool) -> None:
        given = [name for name in ("Include", "Remove", "Update") if name in element.attributes]
        if len(given) > 1:
            self.tell(REFUSED, "item with two of Include, Remove and Update", element)
        elif not given and (not in_target or "Exclude" in element.attributes):
            self.tell(REFUSED, "item without Include, Remove and Update", element)
        elif given != ["Include"] and "Exclude" in element.attributes:
            self.tell(REFUSED, "item with Exclude and no Include", element)
        if any(STARS.search(element.attributes.get(name, "")) for name in ITEM_LISTS):
            self.tell(
                FAILS if in_target else REFUSED, "pattern with ** beside other characters", element
            )

    def look_at_task(self, element: Element, others: list[str]) -> None:
        known = PARAMETERS.get(element.name.lower())
        if known is None:
            self.tell(FAILS, f"task {element.name}", element)
            return
        for name in others:
            if name.lower() not in known:
                shown = next(task for task in TASKS if task.lower() == element.name.lower())
                self.tell(FAILS, f"parameter {name} of {shown}", element)

    def look_at_order(self, element: Element, kind: str) -> None:
        names = [child.name for child in element.children]
        if kind == "Choose" and (names[:1] != ["When"] or "Otherwise" in names[:-1]):
            self.tell(REFUSED, "<Choose> that is not When.., Otherwise", element)
        if (
            kind == "Target"
            and "OnError" in names
            and set(names[names.index("OnError") :]) != {"OnError"}
        ):
            self.tell(REFUSED, "element behind an OnError", element)
        if kind == "Import" and re.search(r"[*?]", element.attributes.get("Project", "")):
            self.tell(REFUSED, "import of a pattern", element)

    def look_at_text(self, element: Element, text: str, place: Place | None, name: str) -> None:
        if place is None:
            return
        references, refused = scan(text)
        effect = FAILS if place.in_target else REFUSED
        is_text = place.metadata == "text"
        for one in refused:
            if not (is_text and one.is_late):
                self.tell(effect, one.what, element)
        for one in references:
            self.look_at_reference(element, one, place)
        if name == "Condition":
            self.look_at_condition(element, text, bool(refused), effect)
        elif place.is_list and not refused and mixed(text, references):
            self.tell(effect, "item reference beside other characters in a list", element)

    def look_at_reference(self, element: Element, one: Reference, place: Place) -> None:
        effect = FAILS if place.in_target else REFUSED
        if one.sign == "$" and one.name.lower() in EMPTY_PROPERTIES:
            self.tell(
                EMPTY, f"$({EMPTY_PROPERTIES[one.name.lower()]}), unless it is given", element
            )
        if one.sign == "@" and not place.items:
            self.tell(effect, f"item reference in {place.shown}", element)
        if one.sign == "%" and place.metadata != "text":
            is_own = not one.type or one.type.lower() == place.metadata.lower()
            if not place.metadata or (place.metadata != "*" and not is_own):
                self.tell(effect, f"metadata reference in {place.shown}", element)
            elif one.name.lower() in EMPTY_METADATA:
                self.tell(EMPTY, f"%({EMPTY_METADATA[one.name.lower()]})", element)

    def look_at_condition(self, element: Element, text: str, is_refused: bool, effect: str) -> None:
        try:
            orders = Condition(text).orders
        except Syntax as error:
            if not is_refused:
                self.tell(effect, f"condition that is not read at {error}", element)
            return
        for one in orders:
            self.tell(effect, f"order comparison with {one}, which is no number", element)


def shown_kind(kind: str, element: Element) -> str:
    return f"<{element.name}>" if kind in (element.name, "task") else SHOWN[kind]


def child_kind(row: Kind, kind: str, name: str) -> str:
    """The kind of a child, or nothing where it may not stand."""
    if kind == "Target" and name in NO_TASKS:
        return ""
    return row.children.get(name) or row.others


def is_task_list(task: str, parameter: str) -> bool:
    return task.lower() in PARAMETERS and parameter.lower() in TASK_LISTS


def attribute_place(
    kind: str, name: str, element: Element, in_target: bool, item: str
) -> Place | None:
    """Where the text of an attribute stands, or None where it is not read."""
    if name in (
        "Label",
        "Name",
        "TaskParameter",
        "ItemName",
        "PropertyName",
        "xmlns",
        "ToolsVersion",
    ):
        return None
    is_list = name in LISTS.get(kind, ()) or (kind == "task" and is_task_list(element.name, name))
    shown = f"{name} of {SHOWN.get(kind, kind)}"
    if kind in ("Target", "OnError") or (in_target and kind in ("PropertyGroup", "ItemGroup")):
        has_metadata = name in ("Inputs", "Outputs", "Returns", "KeepDuplicateOutputs")
        return Place(shown, True, "*" if has_metadata else "", is_list, True)
    if in_target:
        return Place(shown, True, "*", is_list, True)
    if kind == "item":
        is_own = name not in ITEM_LISTS and name != "Condition"
        return Place(shown, True, element.name if is_own else "", is_list)
    if kind == "definition":
        return Place(shown, False, "" if name == "Condition" else element.name)
    if kind in ("metadata", "default"):
        return Place(shown, kind == "metadata", item)
    return Place(shown, kind == "ItemGroup", "", is_list)


def text_place(kind: str, in_target: bool, item: str) -> Place:
    """Where the text of a property or of metadata stands."""
    if in_target:
        return Place(SHOWN[kind], True, "*", False, True)
    return Place(SHOWN[kind], kind != "default", "text" if kind == "property" else item)


def look(file: str, root: Element) -> list[Find]:
    """What msb does not take in a project."""
    survey = Survey(file)
    if root.name != "Project":
        survey.tell(REFUSED, f"<{root.name}> in place of <Project>", root)
    else:
        survey.look(root, "Project")
    return survey.finds


def table(finds: list[Find], with_places: bool) -> list[str]:
    """The lines of the table of finds."""
    rows: dict[tuple[str, str], list[Find]] = defaultdict(list)
    for find in finds:
        rows[find.effect, find.what].append(find)
    order = sorted(rows, key=lambda row: (-len(rows[row]), row))
    width = max([len(what) for _, what in order], default=0)
    lines = (
        [f"{'times':>6} {'files':>6}  {'effect':<7}  {'what':<{width}}  first at"] if order else []
    )
    for effect, what in order:
        found = rows[effect, what]
        files = len({find.file for find in found})
        first = f"{found[0].file}:{found[0].line}"
        lines.append(f"{len(found):>6} {files:>6}  {effect:<7}  {what:<{width}}  {first}")
        if with_places:
            lines += [
                f"{'':>15}{one}"
                for one in dict.fromkeys(f"{find.file}:{find.line}" for find in found)
            ]
    return lines
