#!/usr/bin/env python3
"""Times builds of small projects whose one target does nothing but call others, in three shapes.

usage: bench/scheduler.py [PROGRAM [PROJECTS ..]]

PROGRAM is the built program, crates/msb/out/msb if it is not given; the numbers of projects, with
the root, are 250 to 1000 if none is given. The shapes are those of bench/sets.py, with 50 layers. A
line has the least processor seconds of three builds on one node and their peak memory in MiB, each
with how many times that of the line above it is, and the processor seconds of `eval`, which loads
the same files and evaluates the root alone. The peak of Python itself, some 15 MiB, is the least
that shows.
"""

import json
import os
import subprocess
import sys
import tempfile
from collections.abc import Iterable
from pathlib import Path

import sets

TOP = Path(__file__).resolve().parent.parent
RUNS = 3
LAYERS = 50

SHAPES = {"flat": sets.flat, "chains": sets.chains,
          "layers": lambda size: sets.layers(size, LAYERS)}


def project(called: Iterable[int]) -> str:
    """A project that calls these at once."""
    names = ";".join(f"p{number}.proj" for number in called)
    task = {"e": "MSBuild", "a": {"Projects": names, "BuildInParallel": "true"}}
    target = {"e": "Target", "a": {"Name": "Build"}, "c": [task] if names else []}
    return json.dumps({"e": "Project", "c": [target]})


def lay_out(folder: Path, calls: sets.Calls, size: int) -> None:
    """Write the projects of a set."""
    for number in range(size):
        (folder / f"p{number}.proj").write_text(project(calls.get(number, ())))


def once(program: str, folder: Path, action: str) -> tuple[float, float]:
    """The processor seconds and the peak in MiB of one run."""
    child = subprocess.Popen([program, action, "p0.proj"], cwd=folder, stdout=subprocess.DEVNULL)
    _, status, used = os.wait4(child.pid, 0)
    child.returncode = os.waitstatus_to_exitcode(status)
    if child.returncode != 0:
        sys.exit(f"{action} of {folder}: status {child.returncode}")
    return used.ru_utime + used.ru_stime, used.ru_maxrss / 1024


def times(now: float, before: float | None) -> str:
    """How many times the value of the line above it a value is."""
    return "" if before is None else f"x{now / before:.1f}"


def measure(program: str, shape: str, sizes: list[int]) -> None:
    """Print the lines of a shape."""
    before: tuple[float, float] | None = None
    for size in sizes:
        with tempfile.TemporaryDirectory() as name:
            lay_out(Path(name), SHAPES[shape](size - 1), size)
            seconds, memory = min(once(program, Path(name), "build") for _ in range(RUNS))
            loading, _ = min(once(program, Path(name), "eval") for _ in range(RUNS))
        old = before or (None, None)
        print(f"{shape:6} {size:5} {seconds:8.4f} s {times(seconds, old[0]):5} {memory:6.1f} MiB "
              f"{times(memory, old[1]):5} eval {loading:7.4f} s", flush=True)
        before = (seconds, memory)


def main(words: list[str]) -> None:
    """Read the words, and measure each shape."""
    program = os.path.abspath(words[0]) if words else str(TOP / "crates/msb/out/msb")
    if not os.access(program, os.X_OK) or not all(word.isdecimal() for word in words[1:]):
        sys.exit("usage: bench/scheduler.py [PROGRAM [PROJECTS ..]]")
    sizes = [int(word) for word in words[1:]] or [250, 500, 1000]
    for shape in SHAPES:
        measure(program, shape, sizes)


if __name__ == "__main__":
    main(sys.argv[1:])
