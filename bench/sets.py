#!/usr/bin/env python3
"""Sets of projects that call each other, as files for msb, ninja, make and xbuild.

usage: bench/sets.py FORM SHAPE SIZE FOLDER

writes the set of SIZE projects of a shape to FOLDER, in the form of one of these programs. Other
scripts import this file.

Project 0 is the root, which does nothing but call others, and projects 1 to SIZE stand in a folder
of their own each. Such a project has 2 or 3 sources, by turns, an item type of a pattern that
matches them, and a target with Inputs and Outputs that writes their names to `out.txt`. One that
calls others does so in a target without Inputs and Outputs, so that the calls are made in each
build, before its file is written. In the forms of ninja and make a command of the shell writes each
file, and an order-only dependency has it wait for the files of the projects that are called.

- `flat`: the root calls all others.
- `chains`: the root calls the first of each 100 projects, and each of these the next one.
- `layers`: 25 layers where 25 divides SIZE, else layers of SIZE / 25 projects, rounded up; the root
  calls the first layer, and each project two of the next one.
- `tree`: the root calls project 1, and project i the projects 2 i and 2 i + 1.
"""

from __future__ import annotations

import json
import sys
from collections.abc import Callable, Iterable, Iterator
from pathlib import Path
from xml.etree import ElementTree

ROOT = "0/p.proj"
OUTPUT = "out.txt"
LENGTH = 100
LAYERS = 25
XML_NAMESPACE = "http://schemas.microsoft.com/developer/msbuild/2003"

# The projects that each project calls; none where it is not there.
Calls = dict[int, list[int]]
# A path from the folder of the set, and the text of the file.
File = tuple[str, str]

# ---- Shapes -----------------------------------------------------------------------------------


def flat(size: int) -> Calls:
    return {0: list(range(1, size + 1))}


def chains(size: int, length: int = LENGTH) -> Calls:
    calls = {number: [number + 1] for number in range(1, size) if number % length}
    return {0: list(range(1, size + 1, length)), **calls}


def layers(size: int, count: int = LAYERS) -> Calls:
    width = -(-size // count)
    calls = {0: list(range(1, width + 1))}
    for number in range(1, size - width + 1):
        layer, place = divmod(number - 1, width)
        first = (layer + 1) * width + 1
        two = {first + place, first + (place + 1) % width}
        calls[number] = sorted(other for other in two if other <= size)
    return calls


def tree(size: int) -> Calls:
    calls = {number: [other for other in (2 * number, 2 * number + 1) if other <= size]
             for number in range(1, size + 1)}
    return {0: [1], **calls}


SHAPES: dict[str, Callable[[int], Calls]] = {
    "flat": flat, "chains": chains, "layers": layers, "tree": tree}

# ---- Projects ---------------------------------------------------------------------------------


def sources(number: int) -> list[str]:
    """The sources of a project, from its folder."""
    return [f"src/{source}.c" for source in range(2 + number % 2)]


def output(number: int) -> str:
    """The path of the file that a project writes: a line for each source."""
    return f"{number}/{OUTPUT}"


def element(name: str, attributes: dict[str, str], *children: dict) -> dict:
    return {"e": name, "a": attributes, "c": list(children)}


def caller(name: str, called: Iterable[int]) -> dict:
    """A target that calls these projects at once."""
    projects = ";".join(f"../{number}/p.proj" for number in called)
    task = element("MSBuild", {"Projects": projects, "BuildInParallel": "true"})
    return element("Target", {"Name": name}, task)


def project(number: int, called: list[int]) -> dict:
    """The elements of a project."""
    if number == 0:
        return element("Project", {}, caller("Build", called))
    build = {"Name": "Build", "Inputs": "@(Source)", "Outputs": OUTPUT}
    targets = []
    if called:
        build["DependsOnTargets"] = "Call"
        targets.append(caller("Call", called))
    write = {"File": OUTPUT, "Lines": "@(Source)", "Overwrite": "true"}
    targets.append(element("Target", build, element("WriteLinesToFile", write)))
    items = element("ItemGroup", {}, element("Source", {"Include": "src/*.c"}))
    return element("Project", {"DefaultTargets": "Build"}, items, *targets)


# ---- Forms ------------------------------------------------------------------------------------


def as_xml(tree_of_elements: dict) -> ElementTree.Element:
    made = ElementTree.Element(tree_of_elements["e"], tree_of_elements["a"])
    made.extend(as_xml(child) for child in tree_of_elements["c"])
    return made


def xml_text(tree_of_elements: dict) -> str:
    root = as_xml(tree_of_elements)
    root.set("xmlns", XML_NAMESPACE)
    return ElementTree.tostring(root, encoding="unicode")


def msb_files(calls: Calls, size: int) -> Iterator[File]:
    for number in range(size + 1):
        yield f"{number}/p.proj", json.dumps(project(number, calls.get(number, [])))


def xbuild_files(calls: Calls, size: int) -> Iterator[File]:
    for number in range(size + 1):
        yield f"{number}/p.proj", xml_text(project(number, calls.get(number, [])))


def inputs(number: int) -> str:
    return " ".join(f"{number}/{source}" for source in sources(number))


def outputs_of(called: list[int]) -> str:
    return " ".join(output(number) for number in called)


def ninja_files(calls: Calls, size: int) -> Iterator[File]:
    lines = ["rule list", "  command = printf '%s\\n' $names > $out"]
    for number in range(1, size + 1):
        called = outputs_of(calls.get(number, []))
        behind = f" || {called}" if called else ""
        lines.append(f"build {output(number)}: list {inputs(number)}{behind}")
        lines.append(f"  names = {' '.join(sources(number))}")
    lines += [f"build all: phony {outputs_of(calls[0])}", "default all"]
    yield "build.ninja", "\n".join(lines) + "\n"


def make_files(calls: Calls, size: int) -> Iterator[File]:
    lines = [".PHONY: all", f"all: {outputs_of(calls[0])}"]
    for number in range(1, size + 1):
        called = outputs_of(calls.get(number, []))
        behind = f" | {called}" if called else ""
        lines.append(f"{output(number)}: {inputs(number)}{behind}")
        lines.append(f"\t@printf '%s\\n' {' '.join(sources(number))} > $@")
    yield "Makefile", "\n".join(lines) + "\n"


FORMS: dict[str, Callable[[Calls, int], Iterator[File]]] = {
    "msb": msb_files, "ninja": ninja_files, "make": make_files, "xbuild": xbuild_files}


def files(form: str, shape: str, size: int) -> Iterator[File]:
    """All files of a set."""
    for number in range(1, size + 1):
        for source in sources(number):
            yield f"{number}/{source}", f"int of_{number};\n"
    yield from FORMS[form](SHAPES[shape](size), size)


def write(folder: Path, made: Iterable[File]) -> None:
    for path, text in made:
        place = folder / path
        place.parent.mkdir(parents=True, exist_ok=True)
        place.write_text(text)


def main(words: list[str]) -> None:
    if len(words) != 4 or not (words[0] in FORMS and words[1] in SHAPES and words[2].isdecimal()):
        sys.exit(f"usage: bench/sets.py {'|'.join(FORMS)} {'|'.join(SHAPES)} SIZE FOLDER")
    form, shape, size, folder = words
    write(Path(folder), files(form, shape, int(size)))


if __name__ == "__main__":
    main(sys.argv[1:])
