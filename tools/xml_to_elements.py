#!/usr/bin/env python3
"""Writes projects in MSBuild's XML notation as the elements that msb reads. It is not proved.

usage: tools/xml_to_elements.py [FILE] [-o OUT] [--sdks FOLDER]
       tools/xml_to_elements.py SOURCE TARGET [--without NAME].. [--sdks FOLDER]
       tools/xml_to_elements.py --survey [SOURCE..] [--without NAME].. [--sdks FOLDER] [--places]

The XML of FILE, or of standard input, goes to OUT, or to standard output, as JSON in the form of
docs/FORMATS.md, in which each element begins on the line of its XML tag. Names, attributes and
texts stay as they are. White space alone is no text, as in MSBuild, and what the engine ignores is
dropped. What the element form can't hold is said with its line and column. Which element may stand
where, and which attributes it may have, msb says itself.

Of a folder SOURCE a mirror is made in TARGET: projects (*.proj, *.csproj, *.targets, *.props, and
each other file that begins with a Project element) as elements under the same names, and all other
files as copies with their stamps. The next time only what has changed at the source is made again.
TARGET.mirrored.json lists what the mirror made, and nothing else in TARGET is written over or
removed.

With --survey a table tells what msb does not take in the projects SOURCE and in those of the
folders SOURCE, the most frequent first: what makes it refuse the project, what fails where a target
runs, and what is empty where MSBuild has a value.

  -o OUT          the file for the JSON, with the stamp of FILE
  --sdks FOLDER   the Sdks that are staged, as NAME/Sdk/Sdk.props and Sdk.targets in FOLDER; without
                  this option those that stand in a folder SOURCE. The Sdk of a project becomes its
                  two Imports.
  --without NAME  files and folders of SOURCE that are left out; * and ? are wildcards. .git, .hg
                  and .svn always are.
  --places        all places of each row of the table, and not the first one alone

The status is 0, or 1 where a file could not be taken or written, or 2 for wrong words.
"""

from __future__ import annotations

import argparse
import os
import shutil
import stat
import sys
from collections.abc import Iterator

sys.dont_write_bytecode = True

from xml_elements import sdks, surveys  # noqa: E402
from xml_elements.documents import HEAD, NotTaken, is_project  # noqa: E402
from xml_elements.mirrors import FULL, LIST, MOST, BadList, Mirror, replaced  # noqa: E402
from xml_elements.reading import Element, read  # noqa: E402
from xml_elements.trees import Tree, described  # noqa: E402
from xml_elements.writing import write  # noqa: E402

VERSION_CONTROL = [".git", ".hg", ".svn"]
INPUT = "/dev/stdin"


class Wrong(Exception):
    """Words that can't be followed, or a file that can't be taken."""


def put(text: str | bytes) -> None:
    """Writes to standard output."""
    data = text if isinstance(text, bytes) else text.encode("utf-8", "backslashreplace")
    try:
        while data:
            data = data[os.write(1, data) :]
    except OSError as error:
        raise Wrong(f"standard output: {described(error)}") from None


def tell(file: str, what: str) -> None:
    print(f"{file}: {what}", file=sys.stderr)


def content_of(file: str) -> bytes:
    try:
        with open(file, "rb") as opened:
            return opened.read()
    except OSError as error:
        raise Wrong(f"{file}: {described(error)}") from None


def project_in(file: str) -> Element:
    try:
        return read(content_of(file))
    except NotTaken as error:
        raise Wrong(f"{file}: {error}") from None


def convert(file: str, out: str | None, folder: str | None) -> int:
    """Writes one project."""
    if os.path.isdir(file):
        raise Wrong(f"{file} is a folder: name a second one for its mirror, or say --survey")
    if out and os.path.exists(out) and os.path.exists(file) and os.path.samefile(file, out):
        raise Wrong(f"{out} is the project itself: name another file")
    root = project_in(file)
    if folder:
        sdks.Imports(staged_in(folder), os.path.dirname(os.path.abspath(out or file))).put_in(root)
    content = write(root)
    if out is None:
        put(content)
        return 0
    try:
        write_file(out, content, file)
    except OSError as error:
        raise Wrong(f"{out}: {described(error)}") from None
    return 0


def write_file(out: str, content: bytes, file: str) -> None:
    """Writes a file with the stamp of another one."""
    if os.path.exists(out) and not os.path.isfile(out):
        with open(out, "wb") as opened:
            opened.write(content)
        return
    with replaced(os.path.realpath(out)) as temporary:
        with open(temporary, "wb") as opened:
            opened.write(content)
        if stat.S_ISREG(os.stat(file).st_mode):
            shutil.copystat(file, temporary)


def staged_in(folder: str) -> sdks.Staged:
    try:
        return sdks.in_folder(folder)
    except OSError as error:
        raise Wrong(f"{folder}: {described(error)}") from None


def mirror(source: str, target: str, without: list[str], folder: str | None) -> int:
    """Makes, or brings up to date, the mirror of a folder."""
    if not os.path.exists(source):
        raise Wrong(f"{source}: No such file or directory")
    if not os.path.isdir(source):
        raise Wrong(f"{source} is no folder: one project is written by {source} -o {target}")
    inner, outer = (os.path.join(os.path.realpath(path), "") for path in (source, target))
    if inner.startswith(outer):
        raise Wrong(f"{target} is {source} itself, or has it inside: name another folder")
    target = os.path.abspath(target)
    tree = Tree(source, without, [target, target + LIST])
    made = Mirror(tree, target, staged_for(tree, source, target, folder))
    try:
        made.run()
    except BadList as error:
        raise Wrong(f"{target + LIST}: {error}") from None
    except OSError as error:
        place = target if error.errno in FULL else error.filename or target
        raise Wrong(f"{place}: {described(error)}") from None
    finally:
        for file, what in made.notes + made.faults:
            tell(os.path.join(source, file), what)
    report(made)
    return 1 if made.faults else 0


def staged_for(tree: Tree, source: str, target: str, folder: str | None) -> sdks.Staged:
    """The Sdks of a mirror, with the folders in which they stand there."""
    if folder is None:
        staged, several = sdks.among(list(tree.files), target)
        for name, places in several.items():
            shown = " and ".join(places)
            tell(source, f"the Sdk {name} stands in {shown}: --sdks FOLDER takes one")
        return staged
    top, real = os.path.join(os.path.realpath(source), ""), os.path.realpath(folder)
    staged = staged_in(real)
    if not real.startswith(top):
        return staged
    inner = {name: os.path.relpath(place, top) for name, place in staged.items()}
    return {name: os.path.join(target, place) for name, place in inner.items()}


def report(made: Mirror) -> None:
    files, projects = len(made.made), sum(one.is_project for one in made.made.values())
    left = f", without {', '.join(sorted(made.tree.left_out))}" if made.tree.left_out else ""
    done = f"{made.written} written, {made.removed} removed{left}"
    put(f"{files} files, {projects} of them projects: {done}\n")
    sizes = [one.file[0] for one in made.made.values()]
    if files > MOST[0] or sum(sizes) > MOST[1] or max(sizes, default=0) > MOST[2]:
        has = f"{files:,} files of {sum(sizes):,} bytes in all and {max(sizes):,} each"
        takes = f"{MOST[0]:,} files of {MOST[1]:,} bytes in all and {MOST[2]:,} each"
        tell(made.target, f"this has {has} at most, and msb reads {takes} at most")


def survey(told: argparse.Namespace, without: list[str]) -> int:
    """Prints what msb does not take in some projects."""
    finds: list[surveys.Find] = []
    faults = projects = taken = 0
    for file, staged in projects_among(told.words or ["."], without, told.sdks):
        projects += 1
        try:
            root = project_in(file)
        except Wrong as error:
            faults += 1
            print(error, file=sys.stderr)
            continue
        sdks.Imports(staged, os.path.dirname(os.path.abspath(file))).put_in(root)
        found = surveys.look(file, root)
        finds += found
        taken += not found
    lines = surveys.table(finds, told.places)
    lines.append(f"nothing is found in {taken} of {projects} projects")
    put("".join(line + "\n" for line in lines))
    return 1 if faults else 0


def projects_among(
    sources: list[str], without: list[str], folder: str | None
) -> Iterator[tuple[str, sdks.Staged]]:
    """The paths of the projects among files and in folders, and the Sdks that are staged there."""
    for source in sources:
        if not os.path.isdir(source):
            yield source, staged_in(folder) if folder else {}
            continue
        tree = Tree(source, without, [])
        for file, what in tree.told:
            tell(os.path.join(source, file), what)
        staged = staged_for(tree, source, os.path.abspath(source), folder)
        paths = (os.path.join("" if source == "." else source, file) for file in tree.files)
        yield from ((path, staged) for path in paths if is_project(path, head_of(path)))


def head_of(file: str) -> bytes:
    try:
        with open(file, "rb") as opened:
            return opened.read(HEAD)
    except OSError as error:
        tell(file, described(error))
        return b""


class Words(argparse.ArgumentParser):
    def error(self, message: str) -> None:
        told = __doc__.split("\n\n")[1]
        self.exit(2, f"{message}\n{told}\n")


def read_words() -> argparse.Namespace:
    parser = Words(add_help=False)
    parser.add_argument("words", nargs="*")
    parser.add_argument("-h", "--help", action="store_true")
    parser.add_argument("-o", "--output", dest="out")
    parser.add_argument("--sdks")
    parser.add_argument("--without", action="append", default=[])
    parser.add_argument("--survey", action="store_true")
    parser.add_argument("--places", action="store_true")
    told = parser.parse_intermixed_args()
    if not told.help and not stand_together(told):
        parser.error("these words do not stand together")
    return told


def stand_together(told: argparse.Namespace) -> bool:
    """Whether the options are those of one of the three uses."""
    if told.survey:
        return not told.out
    is_mirror = len(told.words) == 2
    return len(told.words) <= 2 and not (told.places or (told.out if is_mirror else told.without))


def follow(told: argparse.Namespace) -> int:
    without = VERSION_CONTROL + told.without
    if told.help:
        put(__doc__)
        return 0
    if told.survey:
        return survey(told, without)
    if len(told.words) == 2:
        return mirror(told.words[0], told.words[1], without, told.sdks)
    return convert(INPUT if told.words in ([], ["-"]) else told.words[0], told.out, told.sdks)


def main() -> None:
    try:
        sys.exit(follow(read_words()))
    except Wrong as error:
        sys.exit(str(error))
    except KeyboardInterrupt:
        sys.exit(130)


if __name__ == "__main__":
    main()
