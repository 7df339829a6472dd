#!/usr/bin/env python3
"""Times second builds on one node, on several, and as many builds on one node side by side.

usage: bench/scaling.py [PROGRAM] [--shapes flat,chains,layers] [--size 4000] [--nodes 4]
                        [--rounds 5] [--folder FOLDER] [--plain]

PROGRAM is the built program, crates/msb/out/msb where it is not given. The sets are those of
bench/sets.py, each written to as many folders as there are nodes, below a new folder of FOLDER,
which is /dev/shm where it is there and none is named, and built once before any build is timed.
PROGRAM is started with the settings of the allocator with which the launcher starts it, and with
`--plain` without them.

A row has the least and the median of the rounds by the clock, and the least seconds of processors
of one build. The last two columns are ratios of the least ones to the build on one node that is
alone. Builds side by side share nothing but the machine. So what each of them takes more than one
alone is what the processors lose beside each other; on several nodes a build takes no less, and by
the clock no less than its share of that.
"""

from __future__ import annotations

import argparse
import os
import statistics
import subprocess
import sys
import tempfile
import time
from pathlib import Path
from typing import NamedTuple

import compare
import sets

COLUMNS = ("set", "build", "least s", "median s", "processor s", "of clock", "of processor")
WIDTHS = (6, 15, 7, 8, 11, 8, 12)


class Use(NamedTuple):
    """What builds took: seconds by the clock until all were over, and of processors for each."""

    clock: float
    processor: float


class Way(NamedTuple):
    """A way to build: its name, on how many nodes, and how many builds at once."""

    name: str
    nodes: int
    builds: int


def ways(nodes: int) -> list[Way]:
    return [Way("1 node", 1, 1), Way(f"{nodes} nodes", nodes, 1),
            Way(f"{nodes} side by side", 1, nodes)]


def timed(words: argparse.Namespace, way: Way, folders: list[Path]) -> Use:
    """Runs the builds of a way to their end, each in a folder of its own."""
    build = [words.program, "build", sets.ROOT, "--nodes", str(way.nodes)]
    environment = compare.environment(words.plain)
    began = time.monotonic()
    runs = [subprocess.Popen(build, cwd=folder, env=environment, stdout=subprocess.DEVNULL)
            for folder in folders[:way.builds]]
    processor = 0.0
    for run in runs:
        _, status, used = os.wait4(run.pid, 0)
        if status:
            sys.exit(f"scaling: {' '.join(build)}: status {os.waitstatus_to_exitcode(status)}")
        processor += used.ru_utime + used.ru_stime
    return Use(time.monotonic() - began, processor / way.builds)


def measure(words: argparse.Namespace, shape: str, top: Path) -> dict[Way, list[Use]]:
    """The uses of all rounds; in each round each way has its turn."""
    folders = [top / str(number) for number in range(words.nodes)]
    found: dict[Way, list[Use]] = {way: [] for way in ways(words.nodes)}
    for folder in folders:
        sets.write(folder, sets.files("msb", shape, words.size))
        timed(words, ways(words.nodes)[0], [folder])
    for _ in range(words.rounds):
        for way, uses in found.items():
            uses.append(timed(words, way, folders))
    return found


def line(cells: tuple[str, ...]) -> str:
    return f"| {' | '.join(f'{cell:{width}}' for cell, width in zip(cells, WIDTHS))} |"


def rows(shape: str, found: dict[Way, list[Use]]) -> list[str]:
    least = {way: Use(*map(min, zip(*uses))) for way, uses in found.items()}
    alone = next(iter(least.values()))
    return [line((shape, way.name, f"{use.clock:.3f}",
                  f"{statistics.median(each.clock for each in found[way]):.3f}",
                  f"{use.processor:.3f}", compare.ratio(use.clock, alone.clock),
                  compare.ratio(use.processor, alone.processor)))
            for way, use in least.items()]


def read_words() -> argparse.Namespace:
    parser = argparse.ArgumentParser(description=__doc__.split("\n", maxsplit=1)[0])
    parser.add_argument("program", nargs="?", default=str(compare.TOP / "crates/msb/out/msb"))
    parser.add_argument("--shapes", type=compare.shapes, default=["flat", "chains", "layers"])
    parser.add_argument("--size", type=int, default=4000)
    parser.add_argument("--nodes", type=int, default=4)
    parser.add_argument("--rounds", type=int, default=5)
    in_memory = compare.IN_MEMORY if os.access(compare.IN_MEMORY, os.W_OK) else None
    parser.add_argument("--folder", type=Path, default=in_memory)
    parser.add_argument("--plain", action="store_true")
    words = parser.parse_args()
    words.program = os.path.abspath(words.program)
    if not os.access(words.program, os.X_OK) or min(words.size, words.nodes, words.rounds) < 1:
        parser.error(f"{words.program} is no program, or a number is below 1")
    return words


def main() -> None:
    words = read_words()
    print(f"{os.cpu_count()} processors, load {os.getloadavg()[0]:.1f}; {words.size:,} projects, "
          f"second builds, {words.rounds} rounds; {compare.started(words.plain)}\n", flush=True)
    print(f"{line(COLUMNS)}\n|{'|'.join('-' * (width + 2) for width in WIDTHS)}|", flush=True)
    for shape in words.shapes:
        with tempfile.TemporaryDirectory(prefix="msb-scaling-", dir=words.folder) as top:
            print("\n".join(rows(shape, measure(words, shape, Path(top)))), flush=True)


if __name__ == "__main__":
    main()
