#!/usr/bin/env python3
"""Evaluates the same properties from the project files themselves and from files that they import.

usage: bench/imports.py [PROGRAM] [--sizes 1,250,1000] [--rounds 3] [--folder FOLDER]

PROGRAM is the built program, crates/msb/out/msb where it is not given. A set has a root that calls
all other projects of the set, and each of these has a target that prints one of 320
properties: in `own` each project's file states them, in `one import` one file that all projects
import, and in `imports` 16 files of 20 that all import.

A line has the seconds by the clock and of processors, the least of the rounds each, the peak in
MiB, and how many times the processor seconds of `own` it takes.
"""

from __future__ import annotations

import argparse
import json
import subprocess
import sys
import tempfile
from collections.abc import Iterator
from pathlib import Path

import compare
import sets

FILES = 16
PROPERTIES = 20
LAST = f"$(P{FILES * PROPERTIES - 1})"


def text_of(number: int) -> str:
    """A property's text, by the property before it; one in ten begins anew."""
    return f"$(P{number - 1})x" if number % 10 else f"begins{number}"


def group(first: int, count: int) -> dict:
    """A group of properties."""
    stated = ({"e": f"P{number}", "t": text_of(number)} for number in range(first, first + count))
    return sets.element("PropertyGroup", {}, *stated)


def importing(name: str) -> dict:
    return sets.element("Import", {"Project": f"../shared/{name}"})


def project(form: str) -> dict:
    """A project whose target prints the last property."""
    if form == "own":
        stated = [group(0, FILES * PROPERTIES)]
    elif form == "imports":
        stated = [importing(f"{number}.props") for number in range(FILES)]
    else:
        stated = [importing("all.props")]
    target = sets.element("Target", {"Name": "Build"},
                          sets.element("Message", {"Text": LAST}))
    return sets.element("Project", {}, *stated, target)


def files(form: str, size: int) -> Iterator[sets.File]:
    """The files of a set."""
    yield sets.ROOT, json.dumps(sets.project(0, list(range(1, size + 1))))
    for number in range(1, size + 1):
        yield f"{number}/p.proj", json.dumps(project(form))
    for number in range(FILES):
        part = sets.element("Project", {}, group(number * PROPERTIES, PROPERTIES))
        yield f"shared/{number}.props", json.dumps(part)
    whole = sets.element("Project", {}, group(0, FILES * PROPERTIES))
    yield "shared/all.props", json.dumps(whole)


def last_text() -> str:
    """The text of the last property."""
    last = FILES * PROPERTIES - 1
    return f"begins{last - last % 10}" + last % 10 * "x"


def check_notes(program: str, folder: Path, size: int) -> None:
    """Looks whether each project but the root prints its last property."""
    ran = subprocess.run([program, "build", sets.ROOT], cwd=folder, check=True,
                         stdout=subprocess.PIPE, text=True)
    if ran.stdout.count(last_text()) != size:
        sys.exit(f"imports: {last_text()} is not printed {size} times\n{ran.stdout}")


def least(program: str, form: str, size: int, rounds: int, folder: Path) -> compare.Use:
    """The least that a build of a set takes."""
    with tempfile.TemporaryDirectory(prefix="imports-", dir=folder) as top:
        sets.write(Path(top), files(form, size))
        check_notes(program, Path(top), size)
        uses = [compare.timed([program, "build", sets.ROOT], Path(top)) for _ in range(rounds)]
    return compare.Use(*map(min, zip(*uses)))


def main() -> None:
    parser = argparse.ArgumentParser(description=__doc__.split("\n", maxsplit=1)[0])
    parser.add_argument("program", nargs="?", default=compare.TOP / "crates/msb/out/msb")
    parser.add_argument("--sizes", default="1,250,1000")
    parser.add_argument("--rounds", type=int, default=3)
    parser.add_argument("--folder", type=Path,
                        default=compare.IN_MEMORY if compare.IN_MEMORY.is_dir() else None)
    given = parser.parse_args()
    print("projects form        clock s  processor s  peak MiB  to own")
    for size in map(int, given.sizes.split(",")):
        own = None
        for form in ("own", "one import", "imports"):
            use = least(str(given.program), form, size, given.rounds, given.folder)
            own = own or use
            print(f"{size:8} {form:11} {use.clock:7.3f}  {use.processor:11.3f}  {use.peak:8.0f}"
                  f"  {use.processor / own.processor:6.2f}", flush=True)


if __name__ == "__main__":
    main()
