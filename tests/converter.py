#!/usr/bin/env python3
"""Tests of tools/xml_to_elements.py: what becomes of projects and folders, and what a survey finds.

usage: tests/converter.py [PROGRAM]

In tests/converter, `elements` holds projects in XML and beside each the elements that are made of
it, byte for byte, and `refused` such as can't be taken, with what is said of them. `finds.txt` has
what the survey finds in a project. With PROGRAM, a built msb, each of these finds is compared with
what msb says of the project, and `claims.txt`, which has what docs/FROM_MSBUILD.md says of msb, is
tried.
"""

from __future__ import annotations

import json
import os
import re
import shutil
import subprocess
import sys
import tempfile
import time
import traceback
from collections.abc import Callable, Iterator
from pathlib import Path

sys.dont_write_bytecode = True
TOP = Path(__file__).resolve().parent.parent
CASES = TOP / "tests" / "converter"
CONVERTER = TOP / "tools" / "xml_to_elements.py"
sys.path.insert(0, str(TOP / "tools"))

from xml_elements import mirrors, surveys, table  # noqa: E402
from xml_elements.reading import Element, read  # noqa: E402
from xml_elements.writing import write  # noqa: E402


def converter(
    *words: object, folder: Path | None = None, given: bytes = b""
) -> subprocess.CompletedProcess[bytes]:
    command = [sys.executable, str(CONVERTER), *map(str, words)]
    return subprocess.run(
        command, cwd=folder, input=given, stdout=subprocess.PIPE, stderr=subprocess.PIPE
    )


def expect(what: str, got: object, wanted: object) -> None:
    if got != wanted:
        raise AssertionError(f"{what}\nwanted {wanted!r}\ngot    {got!r}")


def elements_are_as_written() -> None:
    for case in sorted((CASES / "elements").glob("*.xml")):
        made = converter(case)
        expect(f"{case.name}: status, errors", (made.returncode, made.stderr), (0, b""))
        expect(
            f"{case.name}: elements",
            made.stdout.decode(),
            case.with_suffix(".json").read_bytes().decode(),
        )


def elements_begin_on_their_lines() -> None:
    for case in sorted((CASES / "elements").glob("*.xml")):
        xml = re.split("\r\n|\n", surveys_text(case))
        for number, line in enumerate(case.with_suffix(".json").read_text().split("\n")):
            for name in re.findall(r'\{"e": "([^"]*)"', line):
                expect(
                    f"{case.name}:{number + 1}: <{name} stands there",
                    f"<{name}" in xml[number],
                    True,
                )


def surveys_text(case: Path) -> str:
    data = case.read_bytes()
    wide = (
        "utf-16-le" if data[:2] == b"\xff\xfe" else "utf-16-be" if data[:1] == b"\0" else "latin-1"
    )
    return data.decode(wide)


def what_cannot_be_taken_is_said() -> None:
    for case in sorted((CASES / "refused").glob("*.xml")):
        made = converter(case.name, folder=case.parent)
        told = case.with_suffix(".txt").read_text()
        expect(case.name, (made.returncode, made.stderr.decode(), made.stdout), (1, told, b""))


def elements_have_a_deepest_level() -> None:
    for depth, status in ((63, 0), (64, 1)):
        xml = "<Project>" + "<A>" * (depth - 1) + "</A>" * (depth - 1) + "</Project>"
        expect(f"{depth} levels", converter(given=xml.encode()).returncode, status)
    inside = "<A>" * 5000 + "</A>" * 5000
    group = f"<PropertyGroup><P>{inside}</P></PropertyGroup>"
    xml = f"<Project>{group}<ProjectExtensions>{inside}</ProjectExtensions></Project>"
    expect("levels in a text", converter(given=xml.encode()).returncode, 0)


def time_grows_with_the_text() -> None:
    kinds = {
        "text": b"<Project><PropertyGroup><A>%b</A></PropertyGroup></Project>",
        "section": b"<Project><PropertyGroup><A><![CDATA[%b]]></A></PropertyGroup></Project>",
        "attribute": b'<Project><PropertyGroup Label="%b"/></Project>',
        "comments": b"<Project><PropertyGroup><A>%b</A></PropertyGroup></Project>",
    }
    for kind, frame in kinds.items():
        line = (
            b"a line &amp; more <!-- c -->@(A\n"
            if kind == "comments"
            else b"a line &amp; more\n@(A "
        )
        times = []
        for number in (10_000, 80_000):
            begin = time.process_time()
            write(read(frame % (line * number)))
            times.append(time.process_time() - begin)
        expect(f"{kind}: {times} grow with the text", times[1] < 30 * times[0], True)


def one_project_is_written(folder: Path) -> None:
    project = folder / "a.xml"
    project.write_text("<Project/>\n")
    os.utime(project, (1000, 1000))
    for given in (b"<Project/>", b"\n<Project/>"):
        wanted = given.replace(b"<Project/>", b'{"e": "Project"}\n')
        for words in ((), ("-",)):
            expect("from standard input", converter(*words, given=given).stdout, wanted)
    made = converter("a.xml", "-o", "a.proj", folder=folder)
    expect("-o says nothing", (made.returncode, made.stdout, made.stderr), (0, b"", b""))
    expect("-o", (folder / "a.proj").read_text(), '{"e": "Project"}\n')
    expect("-o has the stamp", (folder / "a.proj").stat().st_mtime, 1000)
    expect("nothing else is left", sorted(os.listdir(folder)), ["a.proj", "a.xml"])


def wrong_words_are_said(folder: Path) -> None:
    (folder / "a.xml").write_text("<Project/>\n")
    (folder / "b").mkdir()
    for words, status, told in (
        (("none.xml",), 1, "none.xml: No such file or directory"),
        (("b",), 1, "b is a folder: name a second one for its mirror, or say --survey"),
        (("a.xml", "b"), 1, "a.xml is no folder: one project is written by a.xml -o b"),
        (("none", "b"), 1, "none: No such file or directory"),
        (("a.xml", "-o", "a.xml"), 1, "a.xml is the project itself: name another file"),
        (("a.xml", "-o", "none/a.proj"), 1, "none/a.proj: No such file or directory"),
        (("a.xml", "-o", "/dev/full"), 1, "/dev/full: No space left on device"),
        (("b", "b"), 1, "b is b itself, or has it inside: name another folder"),
        (("b", "."), 1, ". is b itself, or has it inside: name another folder"),
        (("a.xml", "--sdks", "none"), 1, "none: No such file or directory"),
        (("a", "b", "c"), 2, "these words do not stand together"),
        (("--none",), 2, "unrecognized arguments: --none"),
        (("a.xml", "--places"), 2, "these words do not stand together"),
    ):
        made = converter(*words, folder=folder)
        said = made.stderr.decode().split("\n")
        expect(f"{words}", (made.returncode, said[0], made.stdout), (status, told, b""))
        expect(f"{words}: usage", status == 2, len(said) > 2)
    with open("/dev/full", "wb") as full:
        command = [sys.executable, str(CONVERTER), str(folder / "a.xml")]
        made = subprocess.run(command, stdout=full, stderr=subprocess.PIPE)
    said = (made.returncode, made.stderr)
    expect("a full disk", said, (1, b"standard output: No space left on device\n"))


def tree_of(folder: Path) -> dict[str, str]:
    """The files below a folder with their content."""
    paths = sorted(path for path in folder.rglob("*") if path.is_file())
    return {str(path.relative_to(folder)): path.read_text() for path in paths}


def put_files(folder: Path, files: dict[str, str]) -> None:
    for name, text in files.items():
        (folder / name).parent.mkdir(parents=True, exist_ok=True)
        (folder / name).write_text(text)


def mirrored(folder: Path, status: int = 0, words: tuple[str, ...] = ()) -> tuple[str, str]:
    """What is printed, and told, by a mirror of `source` in `target`."""
    made = converter("source", "target", *words, folder=folder)
    expect(f"status, as {made.stderr.decode()} is told", made.returncode, status)
    return made.stdout.decode(), made.stderr.decode()


SOURCE = {
    "a/a.csproj": "<Project>\n</Project>",
    "a/x.c": "int x;",
    "b.props": "<Project/>",
    "c.targets": '{"e": "Project"}',
    "d.xml": "<!-- c --><Project />",
    "e.xml": "<project/>",
    "f.xml": '<Project xmlns="urn:other"/>',
    "g": "<ProjectX/>",
    ".git/config": "x",
}
MADE = {
    "a/a.csproj": '{"e": "Project"}\n',
    "a/x.c": "int x;",
    "b.props": '{"e": "Project"}\n',
    "c.targets": '{"e": "Project"}',
    "d.xml": '          {"e": "Project"}\n',
    "e.xml": "<project/>",
    "f.xml": '<Project xmlns="urn:other"/>',
    "g": "<ProjectX/>",
}


def a_folder_is_mirrored(folder: Path) -> None:
    put_files(folder / "source", SOURCE)
    os.utime(folder / "source/a/x.c", ns=(5, 1_000_000_007))
    os.utime(folder / "source/b.props", ns=(5, 2_000_000_007))
    shown = "8 files, 3 of them projects: 8 written, 0 removed, without .git\n"
    expect("first", mirrored(folder), (shown, ""))
    expect("files", tree_of(folder / "target"), MADE)
    for name in SOURCE.keys() & MADE.keys():
        stamps = [(folder / top / name).stat().st_mtime_ns for top in ("source", "target")]
        expect(f"{name}: stamps", stamps[0], stamps[1])
        expect(f"{name} is no link", (folder / "target" / name).stat().st_nlink, 1)
    before = (folder / "target.mirrored.json").stat().st_mtime_ns
    expect("second", mirrored(folder), (shown.replace("8 written", "0 written"), ""))
    expect("the list stays", (folder / "target.mirrored.json").stat().st_mtime_ns, before)


def only_what_changed_is_mirrored(folder: Path) -> None:
    put_files(folder / "source", SOURCE)
    mirrored(folder)
    put_files(
        folder / "source",
        {"a/a.csproj": "<Project><Target Name='t'/></Project>", "new/y.c": "int y;"},
    )
    os.utime(folder / "source/g", ns=(5, 5))
    (folder / "target/a/x.c").unlink()
    shown = "9 files, 3 of them projects: 4 written, 0 removed, without .git\n"
    expect("changed, new, touched and lost", mirrored(folder), (shown, ""))
    made = json.loads((folder / "target/a/a.csproj").read_text())
    expect("changed", made, {"e": "Project", "c": [{"e": "Target", "a": {"Name": "t"}}]})
    expect("lost", (folder / "target/a/x.c").read_text(), "int x;")
    expect("new", (folder / "target/new/y.c").read_text(), "int y;")
    expect("touched", (folder / "target/g").stat().st_mtime_ns, 5)


def what_vanished_at_the_source_vanishes(folder: Path) -> None:
    put_files(folder / "source", SOURCE | {"z/z/z.c": "z", "out/kept.c": "k"})
    mirrored(folder)
    built = {"a/out/x.o": "o", "out/y.o": "o", "out/kept.c": "k, changed by a build"}
    put_files(folder / "target", built)
    shutil.rmtree(folder / "source/a")
    shutil.rmtree(folder / "source/z")
    shutil.rmtree(folder / "source/out")
    printed, told = mirrored(folder)
    expect("printed", printed, "6 files, 2 of them projects: 0 written, 3 removed, without .git\n")
    stays = f"source/out/kept.c: {mirrors.GONE}\n"
    expect("told", told, stays)
    wanted = {name: text for name, text in MADE.items() if not name.startswith("a/")}
    expect("files", tree_of(folder / "target"), wanted | built)
    expect("empty folders", (folder / "target/z").exists(), False)
    expect("again", mirrored(folder)[1], "")


def what_was_changed_in_the_mirror_stays(folder: Path) -> None:
    put_files(folder / "source", SOURCE)
    put_files(folder / "target", {"a/x.c": "own", "g": SOURCE["g"]})
    foreign = f"source/a/x.c: {mirrors.FOREIGN}\n"
    expect("a file of its own", mirrored(folder, 1)[1], foreign)
    expect("it stays", (folder / "target/a/x.c").read_text(), "own")
    (folder / "target/a/x.c").unlink()
    expect("removed", mirrored(folder)[1], "")
    put_files(folder / "target", {"a/x.c": "edited"})
    expect("the source is as it was", mirrored(folder)[1], "")
    expect("an edit reaches no source", (folder / "source/a/x.c").read_text(), "int x;")
    put_files(folder / "source", {"a/x.c": "changed too"})
    edited = f"source/a/x.c: {mirrors.EDITED}\n"
    for _ in range(2):
        expect("both changed", mirrored(folder, 1)[1], edited)
    expect("the edit stays", (folder / "target/a/x.c").read_text(), "edited")
    (folder / "target/a/x.c").unlink()
    mirrored(folder)
    expect("the source's", (folder / "target/a/x.c").read_text(), "changed too")


def a_lost_list_is_made_again(folder: Path) -> None:
    put_files(folder / "source", SOURCE)
    mirrored(folder)
    (folder / "target.mirrored.json").unlink()
    expect(
        "nothing is written",
        mirrored(folder)[0].split(": ")[1],
        "0 written, 0 removed, without .git\n",
    )
    (folder / "source/g").unlink()
    expect(
        "it is known again",
        mirrored(folder)[0].split(": ")[1],
        "0 written, 1 removed, without .git\n",
    )
    (folder / "target.mirrored.json").write_text("{")
    told = mirrored(folder, 1)[1].split(": ")[1]
    expect("a bad list", told, "this is no list of a mirror")


def a_mirror_has_one_source(folder: Path) -> None:
    put_files(folder / "source", SOURCE)
    put_files(folder / "other", {"g": "another g"})
    mirrored(folder)
    made = converter("other", "target", folder=folder)
    told = "this is a mirror of ../source: name another folder, or remove this list\n"
    expect("told", made.stderr.decode().split(": ", 1)[1], told)
    expect("nothing is removed", tree_of(folder / "target"), MADE)
    shutil.copytree(folder, folder / "moved", symlinks=True)
    shown = "8 files, 3 of them projects: 8 written, 0 removed, without .git\n"
    expect("both may be moved", mirrored(folder / "moved"), (shown.replace("8 w", "0 w"), ""))


def links_are_copied(folder: Path) -> None:
    put_files(folder / "source", {"a/x.c": "x"})
    put_files(folder / "beside", {"y.c": "y"})
    for name, target in (("x.c", "a/x.c"), ("b", "../beside"), ("loop", "."), ("dead", "none")):
        (folder / "source" / name).symlink_to(target)
    os.mkfifo(folder / "source/pipe")
    told = (
        "source/dead: No such file or directory\n"
        "source/loop: a link to a folder above it: left out\n"
        "source/pipe: no regular file: left out\n"
    )
    expect("told", mirrored(folder, 1)[1], told)
    expect("files", tree_of(folder / "target"), {"a/x.c": "x", "b/y.c": "y", "x.c": "x"})
    expect("links", [path for path in (folder / "target").rglob("*") if path.is_symlink()], [])
    shutil.rmtree(folder / "target/b")
    (folder / "target/b").symlink_to("../beside")
    put_files(folder / "beside", {"y.c": "changed"})
    told = "source/b/y.c: its folder in the mirror is a link out of it: left out\n" + told
    expect("no link is followed in the mirror", "a link out of it" in mirrored(folder, 1)[1], True)
    expect("its file stays", (folder / "beside/y.c").read_text(), "changed")


def odd_names_are_said(folder: Path) -> None:
    put_files(folder / "source", {"a b;$(c)%.c": "x", "\u00e9.c": "e"})
    for name in (b"\xff.c", b"a\\b", b"a\nb"):
        (folder / "source" / os.fsdecode(name)).write_text("x")
    told = mirrored(folder, 1)[1]
    expect("told", told.count("left out\n"), 3)
    expect("files", tree_of(folder / "target"), {"a b;$(c)%.c": "x", "\u00e9.c": "e"})


def a_bad_project_is_copied_and_said(folder: Path) -> None:
    files = {
        "a.proj": "<Project>",
        "b.props": "<Other/>",
        "c.props": "a = b",
        "d.xml": "<Project>\n<A",
        "e.proj": "<Project/>",
    }
    put_files(folder / "source", files)
    told = (
        "source/a.proj: line 1, column 10: no element found; it is copied as it is\n"
        "source/d.xml: line 2, column 1: unclosed token; it is copied as it is\n"
    )
    note = "source/b.props: it begins with <Other> and not with <Project>: it is copied as it is\n"
    expect("first", mirrored(folder, 1)[1], note + told)
    expect("again", mirrored(folder, 1)[1], told)
    expect("files", tree_of(folder / "target"), files | {"e.proj": MADE["a/a.csproj"]})
    put_files(folder / "source", {"a.proj": "<Project/>", "d.xml": "<Project/>"})
    expect("mended", mirrored(folder)[1], "")


def a_full_disk_is_said(folder: Path) -> None:
    import resource

    put_files(folder / "source", {"a.c": "a", "big.c": "x" * 100_000, "z.c": "z"})

    def limit() -> None:
        resource.setrlimit(resource.RLIMIT_FSIZE, (50_000, 50_000))

    command = [sys.executable, str(CONVERTER), "source", "target"]
    made = subprocess.run(
        command, cwd=folder, preexec_fn=limit, stdout=subprocess.PIPE, stderr=subprocess.PIPE
    )
    expect("status, told", (made.returncode, made.stderr), (1, b"source/big.c: File too large\n"))
    expect("the others", tree_of(folder / "target"), {"a.c": "a", "z.c": "z"})
    expect("then", mirrored(folder)[0], "3 files, 0 of them projects: 1 written, 0 removed\n")


def a_mirror_may_stand_in_its_source(folder: Path) -> None:
    put_files(folder, {"a.proj": "<Project/>", "bin/x": "x", "b.tmp": "y"})
    for shown in (
        "2 files, 1 of them projects: 2 written, 0 removed, without *.tmp\n",
        "2 files, 1 of them projects: 0 written, 0 removed, without *.tmp\n",
    ):
        expect(
            "printed",
            converter(".", "mirror", "--without", "*.tmp", folder=folder).stdout.decode(),
            shown,
        )
    expect("files", tree_of(folder / "mirror"), {"a.proj": MADE["a/a.csproj"], "bin/x": "x"})
    shown = "1 files, 1 of them projects: 0 written, 1 removed, without *.tmp, bin\n"
    made = converter(".", "mirror", "--without", "*.tmp", "--without", "bin", folder=folder)
    expect("left out later", made.stdout.decode(), shown)


SDK = {
    "tools/Sdks/My.Sdk/Sdk/Sdk.props": "<Project/>",
    "tools/Sdks/My.Sdk/Sdk/Sdk.targets": "<Project/>",
}


def imports_of(path: Path) -> list[str]:
    root = json.loads(path.read_text())
    attributes = root.get("a", {})
    names = [
        child["a"].get("Project", child["e"]) if child["e"] == "Import" else child["e"]
        for child in root.get("c", [])
    ]
    return [f"Sdk={text}" for name, text in attributes.items() if name == "Sdk"] + names


SDK_PLACE = "tools/Sdks/My.Sdk/Sdk/Sdk"
SDK_IMPORTS = [f"{SDK_PLACE}.props", "PropertyGroup", f"{SDK_PLACE}.targets"]
SDK_USERS = {
    "app/a.csproj": '<Project Sdk="My.Sdk/1.0">\n<PropertyGroup/>\n</Project>',
    "b.csproj": '<Project><Sdk Name="my.sdk" Version="1"/><PropertyGroup/></Project>',
    "c.csproj": '<Project><Import Project="Sdk.props" Sdk="My.Sdk"/><PropertyGroup/></Project>',
    "d.csproj": '<Project Sdk="None;My.Sdk"><PropertyGroup/></Project>',
}


def an_sdk_becomes_its_imports(folder: Path) -> None:
    put_files(folder / "source", SDK_USERS)
    expect("not staged", mirrored(folder)[1].count("is not staged, and msb takes none\n"), 5)
    wanted = ["Sdk=My.Sdk/1.0", "PropertyGroup"]
    expect("it stays", imports_of(folder / "target/app/a.csproj"), wanted)
    put_files(folder / "source", SDK)
    told = "source/d.csproj: the Sdk None is not staged, and msb takes none\n"
    expect("one is not staged", mirrored(folder)[1], told)
    first, body, last = SDK_IMPORTS
    wanted = [f"../{first}", body, f"../{last}"]
    expect("of a Project", imports_of(folder / "target/app/a.csproj"), wanted)
    lines = (folder / "target/app/a.csproj").read_text().split("\n")
    expect("its last line", lines[2].startswith('{"e": "Import",'), True)
    expect("of an element", imports_of(folder / "target/b.csproj"), SDK_IMPORTS)
    expect("of an Import", imports_of(folder / "target/c.csproj"), SDK_IMPORTS[:2])
    wanted = ["Sdk=None;My.Sdk", "PropertyGroup"]
    expect("of two", imports_of(folder / "target/d.csproj"), wanted)
    surveyed = converter("--survey", "source", folder=folder).stdout.decode()
    row = "     1      1  refused  attribute Sdk of <Project>  source/d.csproj:1"
    expect("a survey", surveyed.split("\n")[1:3], [row, "nothing is found in 5 of 6 projects"])


def an_sdk_in_two_places_is_chosen(folder: Path) -> None:
    put_files(folder / "source", SDK | SDK_USERS | {"old/My.Sdk/Sdk/Sdk.props": "<Project/>"})
    told = mirrored(folder)[1]
    expect("two", "stands in old/My.Sdk/Sdk and tools/Sdks/My.Sdk/Sdk: --sdks" in told, True)
    expect("none is taken", imports_of(folder / "target/b.csproj"), ["Sdk", "PropertyGroup"])
    mirrored(folder, 0, ("--sdks", "source/tools/Sdks"))
    expect("one is taken", imports_of(folder / "target/b.csproj"), SDK_IMPORTS)


def an_sdk_of_one_project_becomes_its_imports(folder: Path) -> None:
    put_files(folder / "source", SDK | SDK_USERS)
    words = ("source/b.csproj", "-o", "one/b.proj", "--sdks", "source/tools/Sdks")
    expect("a folder that is missing", converter(*words, folder=folder).returncode, 1)
    (folder / "one").mkdir()
    expect("status", converter(*words, folder=folder).returncode, 0)
    wanted = [f"../source/{SDK_PLACE}.props", "PropertyGroup", f"../source/{SDK_PLACE}.targets"]
    expect("one project", imports_of(folder / "one/b.proj"), wanted)


def blocks(path: Path) -> Iterator[tuple[str, str]]:
    """The first line and the others of each block of a file, behind its head."""
    for block in path.read_text().split("\n\n")[1:]:
        head, _, rest = block.strip("\n").partition("\n")
        yield head, rest


def finds_of(xml: str) -> str:
    found = surveys.look("a.proj", read(xml.encode()))
    told = dict.fromkeys(f"{find.effect}: {find.what}" for find in found)
    return ", ".join(told) or "none"


def a_survey_finds_what_is_not_taken() -> None:
    for head, xml in blocks(CASES / "finds.txt"):
        expect(xml, finds_of(xml), head)


def a_survey_is_one_table(folder: Path) -> None:
    exec_task = '<Project>\n<Target Name="a">\n<Exec Command="x"/>\n</Target></Project>'
    files = {
        "a.proj": exec_task,
        "b/b.csproj": exec_task.replace("</Target>", "<Exec/>\n<Del/></Target>"),
        "c.props": "<Project/>",
    }
    put_files(folder, files | {"d.proj": "<Project>", "e.txt": "<Exec/>", ".git/f.proj": exec_task})
    lines = [
        " times  files  effect   what       first at",
        "     3      2  fails    task Exec  a.proj:3",
        "     1      1  fails    task Del   b/b.csproj:5",
        "nothing is found in 1 of 4 projects",
    ]
    made = converter("--survey", folder=folder)
    expect("table", made.stdout.decode(), "\n".join(lines) + "\n")
    expect(
        "status, told",
        (made.returncode, made.stderr),
        (1, b"d.proj: line 1, column 10: no element found\n"),
    )
    made = converter("--survey", "b", "a.proj", "--places", folder=folder)
    places = ["b/b.csproj:3", "b/b.csproj:4", "a.proj:3"]
    lines[1] = "     3      2  fails    task Exec  b/b.csproj:3"
    lines[2:2] = [f"{'':15}{place}" for place in places]
    lines[6:] = [f"{'':15}b/b.csproj:5", "nothing is found in 0 of 2 projects"]
    expect("places", (made.returncode, made.stdout.decode()), (0, "\n".join(lines) + "\n"))


def documented(heading: str, columns: int) -> list[list[str]]:
    """The rows of the first table below a heading of docs/FORMATS.md, without its head."""
    text = (TOP / "docs" / "FORMATS.md").read_text().split(f"\n## {heading}\n")[1].split("\n## ")[0]
    tables = [block.split("\n") for block in text.split("\n\n") if block.startswith("|")]
    rows = next(rows for rows in tables if rows[0].count("|") == columns + 1)
    return [[cell.strip() for cell in row.strip("|").split("|")] for row in rows[2:]]


def the_survey_knows_the_documented_tasks() -> None:
    rows = {}
    for name, parameters, *_ in documented("Tasks", 4):
        parameters = re.sub(r"\([^()]*\)|of `N=V`", "", parameters)
        rows[name.strip("`")] = sorted(set(re.findall(r"[A-Z]\w+", parameters)))
    expect("tasks", rows, {name: sorted(text.split()) for name, text in table.TASKS.items()})


def the_survey_knows_the_documented_elements() -> None:
    kinds = {
        "property element": "property",
        "item element": "item",
        "definition element": "definition",
    }
    kinds |= {"metadata element": "metadata", "task element": "task"}
    for name, _, attributes, _ in documented("Project files", 4)[0:]:
        kind = table.KINDS[kinds.get(name, name.strip("`"))]
        if kind.is_ignored:
            continue
        named = {one for one in re.findall(r"`(\w+)`", attributes.split("in a `Target`")[0])}
        expect(f"attributes of {name}", set(kind.attributes) - {"Label"}, named)


def first_cells(head: str) -> list[str]:
    """The first cells of the table of docs/FORMATS.md that has this head."""
    text = (TOP / "docs" / "FORMATS.md").read_text()
    rows = text.split(f"\n{head}\n")[1].split("\n\n")[0].split("\n")[1:]
    return [row.split(" | ")[0].removeprefix("| ") for row in rows]


def the_survey_knows_the_documented_names() -> None:
    functions = {}
    for cell in first_cells("| Function | Its items |"):
        name, arguments = re.findall(r"`(\w+)\((.*)\)`", cell)[0]
        functions[name] = arguments.count("'") // 2
    expect("item functions", functions, table.FUNCTIONS)
    known = [cell.strip("`") for cell in first_cells("| Metadata | Value |")]
    expect("well-known metadata", sorted(known), sorted(table.WELL_KNOWN))
    cells = first_cells("| Property | Value |")
    reserved = [name for cell in cells for name in re.findall(r"`(\w+)`", cell)]
    expect("reserved properties", sorted(reserved), sorted(table.RESERVED))


class Program:
    """A built msb."""

    def __init__(self, path: str):
        self.path = os.path.abspath(path)

    def run(self, folder: Path, *words: str) -> tuple[int, str]:
        made = subprocess.run([self.path, *words], cwd=folder, stdout=subprocess.PIPE)
        return made.returncode, made.stdout.decode()

    def project(self, folder: Path, xml: str, *words: str) -> tuple[int, str]:
        (folder / "a.proj").write_bytes(write(read(xml.encode())))
        return self.run(folder, *words)


def a_survey_agrees_with_the_program(folder: Path, program: Program) -> None:
    for head, xml in blocks(CASES / "finds.txt"):
        effect = head.partition(":")[0]
        targets = targets_of(read(xml.encode()))
        words = ("build", "a.proj", "--target", targets) if targets else ("eval", "a.proj")
        status, printed = program.project(folder, xml, *words)
        has_fault = bool(re.search(r"^(  )?error: ", printed, re.M))
        said = "refused" if status == 3 else "fails" if has_fault else "none"
        expect(f"{head}\n{xml}\n{printed}", said, "none" if effect == "empty" else effect)


def targets_of(root: Element) -> str:
    names = [child.attributes.get("Name", "") for child in root.children if child.name == "Target"]
    return ";".join(name for name in names if re.fullmatch(r"\w+", name))


def the_program_reads_what_is_made(folder: Path, program: Program) -> None:
    for case in sorted((CASES / "elements").glob("*.json")):
        shutil.copy(case, folder / "a.proj")
        printed = program.run(folder, "eval", "a.proj")[1]
        expect(f"{case.name}: {printed}", " NotJson" in printed or " NotElement" in printed, False)
    inner = "<A>" * 62 + "</A>" * 62
    expect(
        "63 levels",
        program.project(folder, f"<Project>{inner}</Project>", "eval", "a.proj")[1].split()[3:],
        ["/0:", "3", "UnknownElement"],
    )


def white_space_alone_is_no_text(folder: Path, program: Program) -> None:
    shutil.copy(CASES / "elements" / "white.json", folder / "a.proj")
    names = re.findall(
        r'"e": "(\w+)"(?:, "t": "([^"]*)")?}', (CASES / "elements" / "white.json").read_text()
    )
    texts = {name: json.loads(f'"{text}"') for name, text in names[:19]}
    conditions = [f"<C Condition=\"'$({name})' == ''\">$(C) {name}</C>" for name in texts]
    group = f'<PropertyGroup>{"".join(conditions)}</PropertyGroup>'
    xml = f'<Project><Import Project="white.proj"/>{group}</Project>'
    shutil.move(folder / "a.proj", folder / "white.proj")
    printed = program.project(folder, xml, "eval", "a.proj")[1]
    empty = re.search(r"^property c= (.*)$", printed, re.M)[1].split()
    expect("empty texts", empty, [name for name, text in texts.items() if not text])


def a_refusal_has_its_line(folder: Path, program: Program) -> None:
    xml = [
        "<Project>",
        "",
        "  <!-- a",
        "  comment --><PropertyGroup>",
        "    <A>a",
        "",
        "</A><B>",
        "",
        "$(C</B>",
        "  </PropertyGroup>",
    ]
    printed = program.project(folder, "\n".join([*xml, "</Project>"]), "eval", "a.proj")[1]
    expect("place", printed.split("\n")[1], "  a.proj /0/1: 8 Unclosed 5")
    lines = (folder / "a.proj").read_text().split("\n")
    begins = [number for number, line in enumerate(lines) for _ in re.findall(r'\{"e"', line)]
    expect(
        "the line of /, /0, /0/0 and /0/1",
        [xml[number] for number in begins],
        [xml[0], xml[3], xml[4], xml[6]],
    )


def a_mirror_is_built(folder: Path, program: Program) -> None:
    outputs = "@(S->'out/%(Filename).o')"
    copy = f'<Copy SourceFiles="@(S)" DestinationFiles="{outputs}"/>'
    target = f'<Target Name="b" Inputs="@(S)" Outputs="{outputs}">{copy}</Target>'
    project = f'<Project><ItemGroup><S Include="*.c"/></ItemGroup>{target}</Project>'
    put_files(folder / "source", {"a/a.csproj": project, "a/x.c": "x", "a/y.c": "y"})
    mirrored(folder)
    target = folder / "target"
    expect(
        "first", program.run(target, "build", "a/a.csproj")[1].split("\n")[0], "a/a.csproj : b ran"
    )
    mirrored(folder)
    expect(
        "second",
        program.run(target, "build", "a/a.csproj")[1].split("\n")[0],
        "a/a.csproj : b up to date",
    )
    time.sleep(0.02)
    put_files(folder / "source", {"a/y.c": "y2"})
    mirrored(folder)
    expect(
        "changed",
        program.run(target, "build", "a/a.csproj")[1].split("\n")[0],
        "a/a.csproj : b partial 1 of 2",
    )
    expect("outputs", tree_of(target / "a/out"), {"x.o": "x", "y.o": "y2"})


def a_staged_sdk_is_evaluated(folder: Path, program: Program) -> None:
    props = "<Project><PropertyGroup><A>props $(B)</A></PropertyGroup></Project>"
    targets = "<Project><PropertyGroup><A>$(A) targets $(B)</A></PropertyGroup></Project>"
    files = {f"{SDK_PLACE}.props": props, f"{SDK_PLACE}.targets": targets}
    project = '<Project Sdk="My.Sdk"><PropertyGroup><B>body</B></PropertyGroup></Project>'
    put_files(folder / "source", files | {"app/a.csproj": project})
    mirrored(folder)
    printed = program.run(folder / "target", "eval", "app/a.csproj")[1]
    expect("order", printed, "property a=props  targets body\nproperty b=body\n")


def files_are_as_the_page_says(folder: Path, program: Program) -> None:
    put_files(folder, {"s.sh": "x", "other/y.c": "y"})
    (folder / "s.sh").chmod(0o755)
    os.utime(folder / "s.sh", (1000, 1000))
    (folder / "link.c").symlink_to("other/y.c")
    (folder / "linked").symlink_to("other")
    copy = '<Target Name="T"><Copy SourceFiles="s.sh" DestinationFolder="out" /></Target>'
    xml = f'<Project><ItemGroup><X Include="**/*.c" /></ItemGroup>{copy}</Project>'
    expect("links", program.project(folder, xml, "eval", "a.proj")[1], "item x other/y.c\n")
    expect("copy", program.run(folder, "build", "a.proj")[0], 0)
    made = (folder / "out/s.sh").stat()
    expect(
        "the copy is new, without the x bit",
        (made.st_mtime > 2000, made.st_mode & 0o111),
        (True, 0),
    )


def what_the_page_says_holds(folder: Path, program: Program) -> None:
    for head, rest in blocks(CASES / "claims.txt"):
        lines = rest.split("\n")
        files = [line[2:].partition(" ") for line in lines if line.startswith("+ ")]
        words = next(line[2:].split(" ") for line in lines if line.startswith("$ "))
        wanted = "".join(line[2:] + "\n" for line in lines if line.startswith("= "))
        xml = "\n".join(line for line in lines if line[:2] not in ("+ ", "$ ", "= "))
        with tempfile.TemporaryDirectory(dir=folder) as name:
            put_files(Path(name), {path: text + "\n" for path, _, text in files})
            expect(head, program.project(Path(name), xml, *words)[1], wanted)


ALONE = [
    elements_are_as_written,
    elements_begin_on_their_lines,
    what_cannot_be_taken_is_said,
    elements_have_a_deepest_level,
    time_grows_with_the_text,
    a_survey_finds_what_is_not_taken,
    the_survey_knows_the_documented_tasks,
    the_survey_knows_the_documented_elements,
    the_survey_knows_the_documented_names,
]
IN_FOLDER = [
    one_project_is_written,
    wrong_words_are_said,
    a_folder_is_mirrored,
    only_what_changed_is_mirrored,
    what_vanished_at_the_source_vanishes,
    what_was_changed_in_the_mirror_stays,
    a_lost_list_is_made_again,
    a_mirror_has_one_source,
    links_are_copied,
    odd_names_are_said,
    a_bad_project_is_copied_and_said,
    a_full_disk_is_said,
    a_mirror_may_stand_in_its_source,
    an_sdk_becomes_its_imports,
    an_sdk_in_two_places_is_chosen,
    an_sdk_of_one_project_becomes_its_imports,
    a_survey_is_one_table,
]
WITH_PROGRAM = [
    a_survey_agrees_with_the_program,
    the_program_reads_what_is_made,
    white_space_alone_is_no_text,
    a_refusal_has_its_line,
    a_mirror_is_built,
    a_staged_sdk_is_evaluated,
    files_are_as_the_page_says,
    what_the_page_says_holds,
]


def passes(test: Callable[..., None], *given: object) -> bool:
    try:
        with tempfile.TemporaryDirectory() as folder:
            test(*([] if test in ALONE else [Path(folder)]), *given)
    except AssertionError as error:
        print(f"{test.__name__}: {error}")
        return False
    except Exception:
        print(f"{test.__name__}: {traceback.format_exc()}")
        return False
    return True


def main() -> None:
    results = [passes(test) for test in ALONE + IN_FOLDER]
    if len(sys.argv) > 1:
        program = Program(sys.argv[1])
        results += [passes(test, program) for test in WITH_PROGRAM]
    print(f"converter: {sum(results)} passed, {len(results) - sum(results)} failed")
    sys.exit(0 if all(results) else 1)


if __name__ == "__main__":
    main()
