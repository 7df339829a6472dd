#!/usr/bin/env python3
"""Builds sets of projects with msb, ninja, make and xbuild in turn, and prints one table.

usage: bench/compare.py [PROGRAM] [--sizes 250,1000,4000] [--shapes flat,chains,layers]
                        [--nodes 1,4] [--beside ninja,make,xbuild] [--rounds 3]
                        [--folder FOLDER] [--plain]

PROGRAM is the built program, crates/msb/out/msb where it is not given. The sets are those of
bench/sets.py, each written once for each program in a new folder of FOLDER, which is /dev/shm where
it is there and none is named. Ninja and make have four jobs, msb builds on each of the numbers of
nodes, and of the programs beside it those that are not installed are left out. msb is started with
the settings of the allocator with which the launcher starts it, and with `--plain` without them;
the others never have them.

In each round each program in turn builds twice: `clean`, from which no output is there, and
`second`, which finds all up to date. Whether each output holds what it should is looked at after
the first, and whether each has kept its time of change after the second. A program whose clean
build takes over 5 seconds has one round.

A row has the least of the rounds, each column by itself: seconds by the clock, seconds of
processors, those of all processes that were started included, and the peak in MiB of the largest
process. A peak that is no larger than that of the small Python which starts the program, some 8
MiB, does not show, and is `-`. The ratios:

- `msb/clock`, `msb/processor`: how many times what the row has msb takes on the least number of
  nodes: above 1 where msb is slower.
- `growth`: the seconds of processors to those of the size above it in the same shape.
- `to flat`: the seconds of processors to those of the flat set of the same size.
"""

from __future__ import annotations

import argparse
import os
import shutil
import subprocess
import sys
import tempfile
from pathlib import Path
from typing import NamedTuple

import sets

TOP = Path(__file__).resolve().parent.parent
# At the end, since this folder has modules of the same names.
sys.path.append(str(TOP / "tools" / "launcher"))

import allocator  # noqa: E402

BUILDS = ("clean", "second")
JOBS = "-j4"
SLOW_SECONDS = 5
IN_MEMORY = Path("/dev/shm")

# Runs a command and prints the seconds by the clock and of processors, the peak in KiB, and the
# status. The system counts the memory of the process that starts a command as the command's, so
# this one imports next to nothing, and gives settings of the allocator to the command alone.
RUNNER = f"""
import posix, sys, time
settings, *words = sys.argv[1:]
if settings:
    posix.environ[b"{allocator.VARIABLE}"] = settings.encode()
null = posix.open("/dev/null", posix.O_RDWR)
actions = [(posix.POSIX_SPAWN_DUP2, null, number) for number in (0, 1)]
began = time.monotonic()
run = posix.posix_spawnp(words[0], words, posix.environ, file_actions=actions)
_, status, used = posix.wait4(run, 0)
clock = time.monotonic() - began
print(clock, used.ru_utime + used.ru_stime, used.ru_maxrss, posix.waitstatus_to_exitcode(status))
"""

# What ninja leaves beside the outputs.
LEFT_BEHIND = (".ninja_log", ".ninja_deps")

# The columns of the table, and how wide they are.
WIDTHS = {"set": 6, "projects": 8, "build": 6, "by": 13, "clock s": 8, "processor s": 11,
          "peak MiB": 8, "msb/clock": 9, "msb/processor": 13, "growth": 6, "to flat": 7}


class Program(NamedTuple):
    """A program that builds: its name in the table, the form of its sets, its words, and the
    settings of its allocator."""

    name: str
    form: str
    words: list[str]
    settings: str = ""


class Use(NamedTuple):
    """What a build took: seconds by the clock, seconds of processors, peak in MiB."""

    clock: float
    processor: float
    peak: float


class Case(NamedTuple):
    """What is built, and by which program."""

    shape: str
    size: int
    build: str
    name: str


BESIDE = (Program(f"ninja {JOBS}", "ninja", ["ninja", JOBS]),
          Program(f"make {JOBS}", "make", ["make", "-rs", JOBS]),
          Program("xbuild", "xbuild", ["xbuild", "/nologo", "/verbosity:quiet", sets.ROOT]))


def environment(is_plain: bool) -> dict[str, str]:
    """The environment of msb: as the launcher starts it, or as it is here."""
    return dict(os.environ) if is_plain else allocator.environment()


def started(is_plain: bool) -> str:
    """How msb is started, in words."""
    settings = environment(is_plain).get(allocator.VARIABLE, "")
    if settings == allocator.SETTINGS:
        return "msb with the settings of the launcher"
    return f"msb with {allocator.VARIABLE}={settings}" if settings else "msb without settings"


def programs(words: argparse.Namespace) -> list[Program]:
    """msb on each of the numbers of nodes, and the programs beside it that are there."""
    settings = environment(words.plain).get(allocator.VARIABLE, "")
    found = [Program(f"msb, {number} node{'s' if number > 1 else ''}", "msb",
                     [words.program, "build", sets.ROOT, "--nodes", str(number)], settings)
             for number in words.nodes]
    return found + [program for program in BESIDE
                    if program.form in words.beside and shutil.which(program.words[0])]


# ---- Builds -----------------------------------------------------------------------------------


def timed(words: list[str], folder: Path, settings: str = "") -> Use:
    """Runs a command to its end, with these settings of its allocator. No earlier write is still
    on its way."""
    os.sync()
    run = subprocess.run([sys.executable, "-ISc", RUNNER, settings, *words], cwd=folder,
                         check=True, stdout=subprocess.PIPE, text=True)
    clock, processor, peak, status = map(float, run.stdout.split())
    if status:
        sys.exit(f"compare: {' '.join(words)}: status {status:.0f}")
    return Use(clock, processor, peak / 1024)


def remove_outputs(folder: Path, size: int) -> None:
    for number in range(1, size + 1):
        (folder / sets.output(number)).unlink(missing_ok=True)
    for name in LEFT_BEHIND:
        (folder / name).unlink(missing_ok=True)


def check_outputs(program: Program, folder: Path, size: int) -> None:
    """Looks at the lines of each output; xbuild has them in the order of the disk."""
    for number in range(1, size + 1):
        place = folder / sets.output(number)
        if not place.is_file() or sorted(place.read_text().split()) != sets.sources(number):
            sys.exit(f"compare: {program.name} has not written {sets.output(number)}")


def stamps(folder: Path, size: int) -> list[int]:
    return [(folder / sets.output(number)).stat().st_mtime_ns for number in range(1, size + 1)]


def build_twice(program: Program, folder: Path, size: int) -> tuple[Use, Use]:
    """What a clean build takes, and a second one."""
    remove_outputs(folder, size)
    clean = timed(program.words, folder, program.settings)
    check_outputs(program, folder, size)
    before = stamps(folder, size)
    second = timed(program.words, folder, program.settings)
    if stamps(folder, size) != before:
        sys.exit(f"compare: {program.name} has written an output again in its second build")
    return clean, second


def measure(used: list[Program], shape: str, size: int, rounds: int, top: Path) -> dict[Case, Use]:
    """The least of the rounds of each program."""
    folders = {program.form: top / program.form for program in used}
    for form, folder in folders.items():
        sets.write(folder, sets.files(form, shape, size))
    found: dict[Case, list[Use]] = {}
    for _ in range(rounds):
        for program in used:
            cases = [Case(shape, size, build, program.name) for build in BUILDS]
            if cases[0] in found and found[cases[0]][0].clock > SLOW_SECONDS:
                continue
            for case, use in zip(cases, build_twice(program, folders[program.form], size)):
                found.setdefault(case, []).append(use)
    return {case: Use(*map(min, zip(*uses))) for case, uses in found.items()}


# ---- The table --------------------------------------------------------------------------------


def line(cells: list[str]) -> str:
    laid = [f"{cell:{width}}" for cell, width in zip(cells, WIDTHS.values())]
    return f"| {' | '.join(laid)} |"


def head() -> str:
    rules = ["-" * (width + 2) for width in WIDTHS.values()]
    return f"{line(list(WIDTHS))}\n|{'|'.join(rules)}|"


def ratio(now: float, other: float | None) -> str:
    """How many times the other one it is, or nothing where that is not known."""
    if not other:
        return ""
    times = now / other
    digits = 0 if times >= 10 else 1 if times >= 1 else 2 if times >= 0.1 else 3
    return f"{times:.{digits}f}"


def processor_of(found: dict[Case, Use], case: Case) -> float | None:
    return found[case].processor if case in found else None


def row(found: dict[Case, Use], case: Case, first: str, smaller: int | None, least: float) -> str:
    """The line of a case, by all that were measured; a peak has to be above the least one."""
    use, msb = found[case], found[case._replace(name=first)]
    growth = case._replace(size=smaller) if smaller else None
    to_flat = processor_of(found, case._replace(shape="flat")) if case.shape != "flat" else None
    return line([case.shape, f"{case.size:,}", case.build, case.name, f"{use.clock:.3f}",
                 f"{use.processor:.3f}", f"{use.peak:.0f}" if use.peak > least else "-",
                 ratio(msb.clock, use.clock), ratio(msb.processor, use.processor),
                 ratio(use.processor, processor_of(found, growth)) if growth else "",
                 ratio(use.processor, to_flat)])


def compare(used: list[Program], words: argparse.Namespace) -> None:
    """Prints the table, the rows of a set as soon as it is measured."""
    found: dict[Case, Use] = {}
    least = timed(["true"], Path.cwd()).peak * 1.02
    print(head(), flush=True)
    for shape in words.shapes:
        for smaller, size in zip([None, *words.sizes], words.sizes):
            with tempfile.TemporaryDirectory(prefix="msb-compare-", dir=words.folder) as top:
                found |= measure(used, shape, size, words.rounds, Path(top))
            for build in BUILDS:
                for program in used:
                    case = Case(shape, size, build, program.name)
                    print(row(found, case, used[0].name, smaller, least), flush=True)


# ---- Words ------------------------------------------------------------------------------------


def numbers(text: str) -> list[int]:
    """Numbers above 0, in rising order."""
    found = sorted({int(part) for part in text.split(",")})
    if found[0] < 1:
        raise ValueError(text)
    return found


def shapes(text: str) -> list[str]:
    """Shapes in the order of bench/sets.py."""
    named = text.split(",")
    if unknown := [name for name in named if name not in sets.SHAPES]:
        raise ValueError(unknown[0])
    return [name for name in sets.SHAPES if name in named]


def read_words() -> argparse.Namespace:
    parser = argparse.ArgumentParser(description=__doc__.split("\n", maxsplit=1)[0])
    parser.add_argument("program", nargs="?", default=str(TOP / "crates/msb/out/msb"))
    parser.add_argument("--sizes", type=numbers, default=[250, 1000, 4000])
    parser.add_argument("--shapes", type=shapes, default=["flat", "chains", "layers"])
    parser.add_argument("--nodes", type=numbers, default=[1, 4])
    parser.add_argument("--beside", type=lambda text: text.split(","),
                        default=[program.form for program in BESIDE])
    parser.add_argument("--rounds", type=int, default=3)
    parser.add_argument("--folder", type=Path,
                        default=IN_MEMORY if os.access(IN_MEMORY, os.W_OK) else None)
    parser.add_argument("--plain", action="store_true")
    words = parser.parse_args()
    words.program = os.path.abspath(words.program)
    if not os.access(words.program, os.X_OK) or words.rounds < 1:
        parser.error(f"{words.program} is no program, or there is no round")
    return words


def main() -> None:
    words = read_words()
    load = os.getloadavg()[0]
    rounds = f"least of {words.rounds} rounds"
    print(f"{os.cpu_count()} processors, load {load:.1f}; {rounds}; {started(words.plain)}\n",
          flush=True)
    compare(programs(words), words)


if __name__ == "__main__":
    main()
