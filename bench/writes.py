#!/usr/bin/env python3
"""Times builds that are mostly writes: 1,000 files of 1 KiB, new ones and ones that replace others.

    bench/writes.py [PROGRAM ..]

PROGRAM is the built program, crates/msb/out/msb if none is given. Of several programs each is run
in turn, in a folder of its own, so that all see the same machine. A line has the least seconds by
the clock and the least processor seconds of the rounds: for new files, for files that are replaced,
and for a build that finds all up to date, which reads as much as the second one.
"""
import json
import os
import subprocess
import sys
import tempfile
import time
from pathlib import Path

TOP = Path(__file__).resolve().parent.parent
FILES = 1000
BYTES = 1024
ROUNDS = 7

# The kinds of builds, in the order of a round, and the words of each.
BUILDS = {"new": [], "replaced": ["--clean"], "nothing": []}


def project() -> str:
    target = {"Name": "Build", "Inputs": "@(S)", "Outputs": "@(S->'out/%(Filename).o')"}
    copy = {"SourceFiles": "@(S)", "DestinationFiles": "@(S->'out/%(Filename).o')"}
    items = {"e": "ItemGroup", "c": [{"e": "S", "a": {"Include": "src/*.c"}}]}
    build = {"e": "Target", "a": target, "c": [{"e": "Copy", "a": copy}]}
    return json.dumps({"e": "Project", "c": [items, build]})


def make(folder: Path) -> None:
    (folder / "src").mkdir(parents=True)
    (folder / "app.proj").write_text(project())
    for number in range(FILES):
        (folder / "src" / f"{number}.c").write_bytes(f"{number:08}".encode() * (BYTES // 8))


def empty(folder: Path) -> None:
    for path in folder.glob("out/*"):
        path.unlink()


def timed(program: str, folder: Path, words: list[str]) -> tuple[float, float]:
    """The seconds by the clock, and the processor seconds. No earlier write is still on its way."""
    os.sync()
    began = time.perf_counter()
    command = [program, "build", "app.proj", *words]
    run = subprocess.Popen(command, cwd=folder, stdout=subprocess.DEVNULL)
    _, status, usage = os.wait4(run.pid, 0)
    seconds = time.perf_counter() - began
    if status != 0 or len(list(folder.glob("out/*"))) != FILES:
        sys.exit(f"writes.py: {program} has not built {FILES} files (status {status})")
    return seconds, usage.ru_utime + usage.ru_stime


def measured(programs: list[str], top: Path) -> dict[tuple[str, str], list[tuple[float, float]]]:
    """The times of each program and kind of build, round by round."""
    times: dict[tuple[str, str], list[tuple[float, float]]] = {}
    folders = {program: top / str(place) for place, program in enumerate(programs)}
    for folder in folders.values():
        make(folder)
    for _ in range(ROUNDS):
        for program, folder in folders.items():
            empty(folder)
            for kind, words in BUILDS.items():
                times.setdefault((program, kind), []).append(timed(program, folder, words))
    return times


def main() -> None:
    programs = [os.path.abspath(word) for word in sys.argv[1:]] or [str(TOP / "crates/msb/out/msb")]
    with tempfile.TemporaryDirectory(prefix="msb-writes-") as scratch:
        times = measured(programs, Path(scratch))
    for program in programs:
        for kind in BUILDS:
            clock, processor = (min(column) for column in zip(*times[program, kind]))
            print(f"{program} {kind}: {clock:.3f} s by the clock, {processor:.3f} s of a processor")


if __name__ == "__main__":
    main()
