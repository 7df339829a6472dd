#!/usr/bin/env python3
"""Runs every test over the built program: each script of this folder, the examples, and a look at wrong bodies and tables.

usage: tests/run_all.py [PROGRAM]

PROGRAM is crates/msb/out/msb where it is not given. What a script prints is shown where something fails in it; the last line has
all that passed and failed. The status is 0 where nothing failed.
"""

import re
import subprocess
import sys
import time
from pathlib import Path

TOP = Path(__file__).resolve().parent.parent
PROGRAM = TOP / "crates" / "msb" / "out" / "msb"

# Each ends with such a line; a script without one has run no test, and counts as failed.
TOLD = re.compile(r"^(?:\w+: )?(\d+) passed, (\d+) failed(?:, \d+ skipped)?$", re.M)


def commands(program: Path) -> list[list[str]]:
    """The scripts to run, with their words."""
    scripts = sorted(path for path in (TOP / "tests").glob("*.py") if path != Path(__file__).resolve())
    with_program = [*scripts, TOP / "tools" / "try_examples.py"]
    looks = [["try_edits.py", "--applies"], ["make_tables.py", "--check"]]
    return [[str(path), str(program)] for path in with_program] + [[str(TOP / "tools" / name), word] for name, word in looks]


def run(words: list[str]) -> tuple[int, int]:
    """Runs a script, tells how it ended, and gives how many tests passed and failed in it."""
    began = time.monotonic()
    told = subprocess.run([sys.executable, *words], stdin=subprocess.DEVNULL, stdout=subprocess.PIPE,
                          stderr=subprocess.STDOUT, text=True, errors="replace")
    counts = TOLD.findall(told.stdout)
    passed, failed = map(int, counts[-1]) if counts else (0, 1)
    failed = failed or int(told.returncode != 0)
    if failed:
        print(told.stdout)
    name = Path(words[0]).relative_to(TOP)
    print(f"{name}: {passed} passed, {failed} failed ({time.monotonic() - began:.0f} s)", flush=True)
    return passed, failed


def main() -> int:
    program = Path(sys.argv[1]).resolve() if len(sys.argv) > 1 else PROGRAM
    if len(sys.argv) > 2 or not program.is_file():
        print(f"run_all: {program} is no program\nusage: tests/run_all.py [PROGRAM]", file=sys.stderr)
        return 2
    counts = [run(words) for words in commands(program)]
    passed, failed = (sum(column) for column in zip(*counts))
    print(f"{passed} passed, {failed} failed")
    return 1 if failed else 0


if __name__ == "__main__":
    sys.exit(main())
