#!/usr/bin/env python3
"""Runs the commands of the examples' pages, and compares what they print with what the pages show.

usage: tools/try_examples.py PROGRAM

Each example is copied to a folder of its own. In its README.md an indented block that has
`../../msb` or `../../tools/` is commands, and the indented block behind it is what they print; a
further block is what the last command prints when it is run again. An example that says "It needs
`NAME`" is passed over where there is no program NAME. The last line is `N passed, M failed`: so
many blocks were compared.
"""

import os
import re
import shutil
import subprocess
import sys
import tempfile
import time
from pathlib import Path
from typing import Iterator

TOP = Path(__file__).resolve().parent.parent
BLOCK = re.compile(r"(?:^|\n\n)((?:    [^\n]*\n?)+(?:\n(?:    [^\n]*\n?)+)*)")
SECONDS = 60


def blocks(page: str) -> Iterator[list[str]]:
    """The indented blocks of a page."""
    for block in BLOCK.findall(page):
        yield [line[4:] for line in block.strip("\n").split("\n") if line.startswith("    ")]


def run(command: str, program: str, folder: Path) -> str:
    """What a command prints in the folder of an example."""
    time.sleep(0.02)  # so that files which are written later are newer
    command = command.replace("../../msb", program).replace("../../tools", str(TOP / "tools"))
    return subprocess.run(["bash", "-c", command], cwd=folder, stdin=subprocess.DEVNULL,
                          stdout=subprocess.PIPE, text=True, timeout=SECONDS).stdout


def missing_programs(page: str) -> list[str]:
    """The programs that a page says it needs, and that are not there."""
    return [name for name in re.findall(r"needs `(\w+)`", page) if shutil.which(name) is None]


def is_commands(block: list[str]) -> bool:
    """Whether an indented block is to be run."""
    return any("../../msb" in line or "../../tools/" in line for line in block)


def try_example(name: str, program: str, folder: Path) -> tuple[int, int]:
    """How many blocks of an example's page are printed so, and how many not."""
    page = (folder / "README.md").read_text()
    if missing := missing_programs(page):
        print(f"{name}: passed over, without {', '.join(missing)}")
        return 0, 0
    last, printed, good, bad = "", "", 0, 0
    for block in blocks(page):
        if is_commands(block):
            printed, last = "".join(run(line, program, folder) for line in block), block[-1]
            continue
        shown = "\n".join(block) + "\n"
        if shown != printed and last:
            printed = run(last, program, folder)
        if shown == printed:
            good += 1
        else:
            bad += 1
            print(f"FAIL {name}: {last}\nshown\n{shown}printed\n{printed}")
    return good, bad


def main() -> int:
    if len(sys.argv) != 2 or not os.access(sys.argv[1], os.X_OK):
        print("usage: tools/try_examples.py PROGRAM", file=sys.stderr)
        return 2
    program, good, bad = os.path.abspath(sys.argv[1]), 0, 0
    for page in sorted((TOP / "examples").glob("*/README.md")):
        with tempfile.TemporaryDirectory() as scratch:
            folder = Path(scratch) / page.parent.name
            shutil.copytree(page.parent, folder, ignore=shutil.ignore_patterns("out"))
            passed, failed = try_example(page.parent.name, program, folder)
            good, bad = good + passed, bad + failed
    print(f"{good} passed, {bad} failed")
    return 1 if bad or not good else 0


if __name__ == "__main__":
    sys.exit(main())
