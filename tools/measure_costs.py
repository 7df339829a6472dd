#!/usr/bin/env python3
"""Measures what the merge gate costs, crate by crate, and writes it to tools/costs.txt.

usage: tools/measure_costs.py [COMMAND ..]

Without words it runs `rt ci --anew`, which proves everything from nothing; a COMMAND is run in its place, and is measured in the
same way (`rt ci` where nothing is kept yet, say). Run it on a machine that does nothing else. It looks twice a second at the
processes of the run, and adds up the processor time of each by the crate that it works for and by what it does there: the proof,
the second proof with which edits begin, the edits, and the tests with what is built and run. The last line has the whole run's
time as the system counts it. The status is that of the command; the table is written where that is 0.
"""

import os
import re
import resource
import subprocess
import sys
import time
from collections import defaultdict
from pathlib import Path

TOP = Path(__file__).resolve().parent.parent
COSTS = TOP / "tools" / "costs.txt"
KINDS = ("proof", "second", "edits", "tests")
TICKS = os.sysconf("SC_CLK_TCK")
SECONDS_BETWEEN_LOOKS = 0.5

HEAD = """\
# Processor seconds that the merge gate takes from nothing, by crate: its proof, the second proof with which its edits begin, its
# edits, and its tests with what is built and run. Lines are those of src/. Made by tools/measure_costs.py.
"""


class Process:
    """A process of the run: its parent, its words, its folder and its processor seconds."""

    def __init__(self, pid: int) -> None:
        folder = Path(f"/proc/{pid}")
        fields = (folder / "stat").read_text().rpartition(")")[2].split()
        self.parent = int(fields[1])
        self.seconds = (int(fields[11]) + int(fields[12])) / TICKS
        self.words = (folder / "cmdline").read_bytes().decode(errors="replace").split("\0")
        self.folder = os.readlink(folder / "cwd")

    def crate(self) -> str | None:
        """The crate that it was started for; none where its words name none."""
        if "--crate-name" not in self.words:
            return None
        return self.words[self.words.index("--crate-name") + 1]

    def kind(self) -> str:
        """What it does for its crate."""
        if "--test" in self.words or "build" in self.words[:2] and self.crate() == "msb":
            return "tests"
        if "/rt-edit-" not in self.folder:
            return "proof"
        kept = self.words[self.words.index("--incremental") + 1] if "--incremental" in self.words else ""
        return "second" if kept.endswith("/seed") else "edits"


def processes() -> dict[int, Process]:
    """All processes that can be looked at now."""
    found = {}
    for entry in Path("/proc").iterdir():
        if entry.name.isdecimal():
            try:
                found[int(entry.name)] = Process(int(entry.name))
            except (OSError, IndexError, ValueError):
                pass  # It has ended meanwhile.
    return found


def owner(pid: int, found: dict[int, Process], root: int) -> tuple[str, str] | None:
    """The crate and the kind of work of a process below the root, by the nearest process above it that names a crate."""
    work = None
    while pid in found and pid != root:
        if work is None and found[pid].crate():
            work = found[pid].crate(), found[pid].kind()
        pid = found[pid].parent
    if pid != root:
        return None
    return work or ("other", "tests")


def watch(run: subprocess.Popen) -> dict[tuple[str, str], float]:
    """Adds up the processor seconds of the run's processes until it ends."""
    seen: dict[tuple[int, str, str], float] = {}
    while run.poll() is None:
        found = processes()
        for pid, process in found.items():
            work = owner(pid, found, run.pid)
            if work:
                seen[pid, *work] = process.seconds
        time.sleep(SECONDS_BETWEEN_LOOKS)
    total: dict[tuple[str, str], float] = defaultdict(float)
    for (_, crate, kind), seconds in seen.items():
        total[crate, kind] += seconds
    return total


def lines_of(crate: str) -> int:
    return sum(path.read_bytes().count(b"\n") for path in (TOP / "crates" / crate / "src").rglob("*.rt"))


def table(costs: dict[tuple[str, str], float], whole: float, wall: float) -> str:
    """The text of the table, in the order of crates.txt."""
    names = re.findall(r"^(\w+)[^:\n]*:", (TOP / "crates.txt").read_text(), re.M)
    rows = [("crate", "lines", *KINDS)]
    for name in [*names, *sorted({crate for crate, _ in costs} - set(names))]:
        rows.append((name, str(lines_of(name)), *(str(round(costs.get((name, kind), 0))) for kind in KINDS)))
    sums = [round(sum(costs.get((name[0], kind), 0) for name in rows)) for kind in KINDS]
    rows.append(("all", str(sum(lines_of(name) for name in names)), *map(str, sums)))
    widths = [max(len(row[at]) for row in rows) for at in range(len(rows[0]))]
    laid = ["  ".join([row[0].ljust(widths[0]), *(cell.rjust(width) for cell, width in zip(row[1:], widths[1:]))]) for row in rows]
    minutes = f"# The whole run: {round(whole / 60)} processor minutes, {round(wall / 60)} minutes on {os.cpu_count()} processors."
    return HEAD + minutes + "\n" + "\n".join(laid) + "\n"


def main() -> int:
    words = sys.argv[1:] or ["rt", "ci", "--anew"]
    began = time.monotonic()
    run = subprocess.Popen(words, cwd=TOP, stdin=subprocess.DEVNULL)
    costs = watch(run)
    used = resource.getrusage(resource.RUSAGE_CHILDREN)
    text = table(costs, used.ru_utime + used.ru_stime, time.monotonic() - began)
    if run.returncode == 0:
        COSTS.write_text(text)
    print(text, end="")
    return run.returncode


if __name__ == "__main__":
    sys.exit(main())
