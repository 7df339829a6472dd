#!/usr/bin/env python3
"""Runs every command of docs/GUIDE.md and README.md, and compares what they print with the page.

usage: tests/guide.py PROGRAM

A page is read from its head. A line of an indented block that begins with `$ ` is a command, and
the lines behind it are what it prints, standard error too; all commands of a page run in one
shell's folder. A fenced block is put into the files that the words before it name behind `into` or
`as`. The rows of the guide's last table are tried by the projects below. Each link between pages,
and each source that CONTRIBUTING.md names, has to be there. The last line is `N passed, M failed`.
"""

import os
import re
import shutil
import subprocess
import sys
import tempfile
import time
from dataclasses import dataclass, field
from pathlib import Path

TOP = Path(__file__).resolve().parent.parent
NAMED = re.compile(r"(?:into|as) ((?:`[^`]+`(?:, | and )?)+)")
SECONDS = 60


@dataclass
class Step:
    """A command and what it prints, or a file that the reader writes."""

    command: str = ""
    lines: list[str] = field(default_factory=list)
    files: tuple[str, ...] = ()

    @property
    def text(self) -> str:
        return "".join(f"{line}\n" for line in self.lines)


def read_page(text: str) -> list[Step]:
    """The commands and files of a page, in order."""
    steps: list[Step] = []
    fenced: Step | None = None
    before = ""
    for line in text.splitlines():
        if line.startswith("```"):
            names = [] if fenced else re.findall(r"`([^`]+)`", (NAMED.findall(before) or [""])[-1])
            fenced = None if fenced else Step(files=tuple(names))
            if fenced and names:
                steps.append(fenced)
        elif fenced:
            fenced.lines.append(line)
        elif line.startswith("    $ "):
            steps.append(Step(command=line[6:]))
        elif line.startswith("    ") and before.startswith("    ") and steps and steps[-1].command:
            steps[-1].lines.append(line[4:])
        if line.strip():
            before = line
    return steps


class Shell:
    """A folder that commands run in, one after another."""

    def __init__(self, folder: Path) -> None:
        self.folder, self.status = folder, 0

    def run(self, command: str) -> str:
        """What a command prints; the folder and the status are kept for the next one."""
        time.sleep(0.02)  # so that files which are written later are newer
        script = f'(exit {self.status})\n{command}\nstatus=$?; pwd >&3; exit $status'
        with tempfile.TemporaryFile("w+") as place:
            ran = subprocess.run(["bash", "-c", f"{{ {script}\n}} 3>&{place.fileno()}"],
                                 cwd=self.folder, text=True,
                                 stdin=subprocess.DEVNULL, stdout=subprocess.PIPE,
                                 stderr=subprocess.STDOUT,
                                 pass_fds=[place.fileno()], timeout=SECONDS)
            place.seek(0)
            self.folder = Path(place.read().strip())
        self.status = ran.returncode
        return ran.stdout

    def write(self, step: Step) -> None:
        for name in step.files:
            (self.folder / name).parent.mkdir(parents=True, exist_ok=True)
            (self.folder / name).write_text(step.text)


def lay_out(scratch: Path, program: Path) -> Path:
    """A repository with the launcher, the examples and the program as if it was built there."""
    top = scratch / "msb"
    shutil.copytree(TOP / "tools", top / "tools")
    shutil.copytree(TOP / "examples", top / "examples", ignore=shutil.ignore_patterns("out"))
    shutil.copy2(TOP / "msb", top / "msb")
    (top / "crates.txt").write_text("msb:\n")
    for place in (top / "crates" / "msb" / "out", top / "out" / "unproved"):
        place.mkdir(parents=True)
        shutil.copy(program, place / "msb")
    return top


def try_page(name: str, folder: Path) -> tuple[int, int]:
    """How many commands of a page print what it shows, and how many don't."""
    shell, good, bad = Shell(folder), 0, 0
    for step in read_page((TOP / name).read_text()):
        if step.files:
            shell.write(step)
            continue
        printed = shell.run(step.command)
        if printed == step.text:
            good += 1
        else:
            bad += 1
            print(f"FAIL {name}: {step.command}\nshown\n{step.text}printed\n{printed}")
    return good, bad


def try_quick_start(folder: Path) -> tuple[int, int]:
    """The first block of README.md are commands, each of which succeeds."""
    shell, good, bad = Shell(folder), 0, 0
    block = re.search(r"\n\n((?:    [^\n]+\n)+)", (TOP / "README.md").read_text())[1]
    for command in block.splitlines():
        printed = shell.run(command.strip())
        good, bad = good + (not shell.status), bad + bool(shell.status)
        if shell.status:
            print(f"FAIL README.md: {command.strip()}\n{printed}")
    return good, bad


# ---- The rows of the last table ---------------------------------------------------------------

MESSAGE = '{"e":"Message","a":{"Text":"x"}}'


def project(*children: str, **attributes: str) -> str:
    """A project file of children."""
    own = ",".join(f'"{name}":"{value}"' for name, value in attributes.items())
    return f'{{"e":"Project","a":{{{own}}},"c":[{",".join(children)}]}}'


def target(name: str, *children: str, more: str = "") -> str:
    return f'{{"e":"Target","a":{{"Name":"{name}"{more}}},"c":[{",".join(children)}]}}'


def task(name: str, **attributes: str) -> str:
    own = ",".join(f'"{key}":"{value}"' for key, value in attributes.items())
    return f'{{"e":"{name}","a":{{{own}}}}}'


CALL_ITSELF = project(target("a", task("MSBuild", Projects="app.proj")))
DEEPER = project(
    '{"e":"PropertyGroup","c":[{"e":"N","t":"x"}]}',
    target("a", task("MSBuild", Projects="app.proj", Properties="N=$(N)x")))
# The first words of a row, the project, the words of the run, the status.
ROWS: tuple[tuple[str, str, str, int], ...] = (
    ("usage: msb ACTION PROJECT", project(), "build", 2),
    ("project refused", project(), "build none.proj", 3),
    ("  app.proj /: 3 UnknownElement", project(Sdk="x"), "build app.proj", 3),
    ("  app.proj /: 4 Misplaced", '{"e":"Target"}', "build app.proj", 3),
    ("  app.proj /0: 21 MissingImport msbuild/common.targets",
     project(task("Import", Project="msbuild/common.targets")), "build app.proj", 3),
    ("  app.proj /0/0: 19 BadPath ../../x",
     project('{"e":"ImportGroup","c":[{"e":"Import","a":{"Project":"../../x"}}]}'),
     "build app.proj", 3),
    ("  app.proj /0/0: 7 BadName 3",
     project('{"e":"PropertyGroup","c":[{"e":"A","t":"$([System.IO.Path]::Root())"}]}'),
     "build app.proj", 3),
    ("  app.proj /: 1 NotJson", "{", "build app.proj", 3),
    ("  app.proj /1/0: 3 UnknownElement",
     project(target("a"), '{"e":"PropertyGroup","c":[{"e":"A","a":{"B":"x"}}]}'), "build app.proj",
     3),
    ("app.proj : build failed|  error: zip: unknown task", project(target("Build", task("Zip"))),
     "build app.proj", 1),
    ("app.proj : build failed|  error: copy: missing LICENSE",
     project(target("Build", task("Copy", SourceFiles="LICENSE", DestinationFolder="out"))),
     "build app.proj", 1),
    ("app.proj : build failed|  error: app.proj /1/0: 24 NoList filename",
     project('{"e":"PropertyGroup"}', target("Build", task("Message", Text="%(Filename)"))),
     "build app.proj", 1),
    ("error: app.proj /1: 18 NotNumbers two 1",
     project('{"e":"PropertyGroup"}', target("Build", more=",\"Condition\":\"two > 1\"")),
     "build app.proj", 1),
    ("app.proj : build failed|  error: app.proj /1/0: 8 Unclosed 3",
     project('{"e":"PropertyGroup"}', target("Build", task("Message", Text="$(A"))),
     "build app.proj", 1),
    ("error: unknown target x|build failed", project(target("a")), "build app.proj --target x", 1),
    ("error: circular targets a b a|build failed",
     project(target("a", more=',"DependsOnTargets":"b"'),
             target("b", more=',"DependsOnTargets":"a"')), "build app.proj", 1),
    ("error: no targets|build failed", project(), "build app.proj", 1),
    ("circular request", CALL_ITSELF, "build app.proj", 4),
    ("too deep", DEEPER, "build app.proj", 4),
)

# Rows that are tried elsewhere: store faults, limits and statuses without a text.
ELSEWHERE = ("store fault", "too large", "too many instances", "nothing, and status", "msb: ..")


def rows_of_guide() -> list[str]:
    """The first cells of the guide's last table, less their quotes."""
    table = (TOP / "docs" / "GUIDE.md").read_text().rpartition("|---|---|---|\n")[2]
    return [row.split(" | ")[0].removeprefix("| ") for row in table.splitlines()
            if row.startswith("| ")]


def is_shown(cell: str, texts: list[str]) -> bool:
    """Whether a cell of the table shows these texts, whole or up to `..`."""
    shown = [one.removesuffix("..").rstrip() for one in re.findall(r"`([^`]+)`", cell)]
    return all(any(text.startswith(one) or one.startswith(text) for one in shown) for text in texts)


def try_rows(folder: Path, launcher: Path) -> tuple[int, int]:
    """Each row's text is printed by a project, and each row of the guide is one of these."""
    good = bad = 0
    cells = rows_of_guide()
    for texts, content, words, status in ROWS:
        (folder / "app.proj").write_text(content)
        ran = subprocess.run([launcher, *words.split()], cwd=folder, capture_output=True, text=True,
                             timeout=SECONDS)
        wanted = texts.split("|")
        printed = all(any(line.startswith(one) for line in ran.stdout.splitlines())
                      for one in wanted)
        if ran.returncode == status and printed and any(is_shown(cell, wanted) for cell in cells):
            good += 1
        else:
            bad += 1
            print(f"FAIL row {texts}: {ran.returncode} {ran.stdout} {ran.stderr}")
    for cell in cells:
        text = cell.replace("`", "")
        if text.startswith(ELSEWHERE) or any(is_shown(cell, texts.split("|")) for texts,
                                             *_ in ROWS):
            good += 1
        else:
            bad += 1
            print(f"FAIL no test of the row {cell}")
    return good, bad


# ---- Links and paths --------------------------------------------------------------------------

LINK = re.compile(r"\]\(([^)#:]+)(?:#[^)]*)?\)")
SOURCE = re.compile(r"`(\w+/(?:specs|src|proofs)/[\w/]+\.(?:rt|antt))`")


def try_links() -> tuple[int, int]:
    """What the pages name is there."""
    good = bad = 0
    for page in [*TOP.glob("*.md"), *(TOP / "docs").glob("*.md"), *(TOP / "tests").glob("*.md")]:
        text = page.read_text()
        places = [(link, page.parent / link) for link in LINK.findall(text)]
        places += [(path, TOP / "crates" / path) for path in SOURCE.findall(text)]
        for named, place in places:
            if place.exists():
                good += 1
            else:
                bad += 1
                print(f"FAIL {page.name} names {named}, which is not there")
    return good, bad


def main() -> int:
    if len(sys.argv) != 2 or not os.access(sys.argv[1], os.X_OK):
        print("usage: tests/guide.py PROGRAM", file=sys.stderr)
        return 2
    with tempfile.TemporaryDirectory() as scratch:
        top = lay_out(Path(scratch), Path(sys.argv[1]).resolve())
        own, rows = Path(scratch) / "own", Path(scratch) / "rows"
        own.mkdir()
        rows.mkdir()
        counts = [try_page("docs/GUIDE.md", own), try_quick_start(top), try_page("README.md", top),
                  try_rows(rows, top / "msb"),
                  try_links()]
    good, bad = (sum(column) for column in zip(*counts))
    print(f"{good} passed, {bad} failed")
    return 1 if bad else 0


if __name__ == "__main__":
    sys.exit(main())
