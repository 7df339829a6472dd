#!/usr/bin/env python3
"""Proves the program and the crates that it stands on, and builds it.

usage: tools/build.py

`rt ci` does the work, in a copy of these crates without the edits that their proofs must refuse and without the crates for
tests: it proves as many crates side by side as there are processors and memory, the longest chain first, and keeps what is
proved on this machine, so that a build that was broken off goes on where it stood. This file says on standard error how long
that takes by measure, and tells each crate that is proved. The program stands at crates/msb/out/msb then, and beside it in
built_from the digest of all that it was built from. The status is 0 where the program is built.
"""

import fcntl
import hashlib
import os
import re
import shutil
import signal
import subprocess
import sys
import tempfile
import time
from pathlib import Path

TOP = Path(__file__).resolve().parent.parent
PROGRAM = "msb"
OUT = TOP / "crates" / PROGRAM / "out"
MARK, LOG = OUT / "built_from", OUT / "build.log"

# What a crate's proof and build don't read.
LEFT_OUT = ("out", "must-fail")

# What a proof may need of the memory, from the kit's guide.
BYTES_A_PROOF = 3 << 30

# For a crate that was never measured: what the proof of a line cost in the others.
SECONDS_A_LINE = 0.2


def say(text: str) -> None:
    print(f"msb: {text}", file=sys.stderr, flush=True)


def read_crates() -> dict[str, tuple[str, list[str]]]:
    """The program's crate and all that it stands on, lowest first, each with its line and the crates right below it."""
    lines = [line.split("#")[0].strip() for line in (TOP / "crates.txt").read_text().splitlines()]
    named = {re.split(r"[ :]", line)[0]: line for line in lines if line}
    found: dict[str, tuple[str, list[str]]] = {}

    def add(name: str) -> None:
        below = [other for other in named[name].partition(":")[2].split() if other in named]
        for other in below:
            if other not in found:
                add(other)
        found[name] = named[name], below

    add(PROGRAM)
    return found


def files_of(name: str) -> list[Path]:
    """Each file of a crate that a proof, a build or a run of it reads."""
    folder = TOP / "crates" / name
    return sorted(path for path in folder.rglob("*")
                  if path.is_file() and path.relative_to(folder).parts[0] not in LEFT_OUT)


def digest_of(crates: dict[str, tuple[str, list[str]]]) -> str:
    """A digest of all that the program is built from."""
    digest = hashlib.sha256(subprocess.run(["rt", "version"], capture_output=True, check=True).stdout)
    for name, (line, _) in crates.items():
        digest.update(f"{line}\n".encode())
        for path in files_of(name):
            content = path.read_bytes()
            digest.update(f"{path.relative_to(TOP)} {len(content)}\n".encode() + content)
    return digest.hexdigest()


def processors() -> int:
    """How many proofs may run side by side, by processors and memory."""
    found = re.search(r"^MemAvailable: +(\d+) kB", Path("/proc/meminfo").read_text(), re.M)
    memory = int(found.group(1)) * 1024 if found else BYTES_A_PROOF
    return max(1, min(len(os.sched_getaffinity(0)), memory // BYTES_A_PROOF))


def expected_minutes(crates: dict[str, tuple[str, list[str]]]) -> int:
    """How long the proofs take from nothing by what they cost: no less than their longest chain."""
    measured = re.findall(r"^(\w+) +\d+ +(\d+)", (TOP / "tools" / "costs.txt").read_text(), re.M)
    costs = {name: float(seconds) for name, seconds in measured}
    chains: dict[str, float] = {}
    for name, (_, below) in crates.items():
        lines = sum(path.read_bytes().count(b"\n") for path in files_of(name) if path.suffix == ".rt")
        own = costs.setdefault(name, lines * SECONDS_A_LINE)
        chains[name] = own + max((chains[other] for other in below), default=0)
    whole = sum(costs[name] for name in crates)
    return max(1, round(max(whole / processors(), chains[PROGRAM]) / 60))


def copy_crates(crates: dict[str, tuple[str, list[str]]], to: Path) -> None:
    """Makes a repository of these crates alone."""
    for name in crates:
        shutil.copytree(TOP / "crates" / name, to / "crates" / name, ignore=shutil.ignore_patterns(*LEFT_OUT))
    (to / "crates.txt").write_text("".join(f"{line}\n" for line, _ in crates.values()))
    shutil.copy2(TOP / "HANDLES", to / "HANDLES")
    (to / ".git").mkdir()


def prove(folder: Path, number: int) -> int:
    """Runs the proofs and the build there, tells each crate that is proved, and gives the status."""
    began, proved = time.monotonic(), 0
    with LOG.open("w") as log, subprocess.Popen(
            ["rt", "ci"], cwd=folder, stdin=subprocess.DEVNULL, stdout=subprocess.PIPE, stderr=subprocess.STDOUT,
            text=True, errors="replace", start_new_session=True) as run:
        try:
            for line in run.stdout:
                log.write(line)
                if told := re.match(r"rt: (\w+) (?:proved|is kept)\b", line):
                    proved += 1
                    seconds = int(time.monotonic() - began)
                    say(f"{proved:2} of {number} proved, after {seconds // 60}:{seconds % 60:02}: {told[1]}")
                elif line.startswith("rt: note:"):
                    say(line.removeprefix("rt: ").rstrip())
        except BaseException:
            os.killpg(run.pid, signal.SIGTERM)
            raise
    return run.returncode


def build(crates: dict[str, tuple[str, list[str]]], digest: str) -> int:
    say(f"proving and building {len(crates)} crates; by measure this takes about {expected_minutes(crates)} min from nothing, "
        f"and what was proved on this machine is not proved again")
    with tempfile.TemporaryDirectory(prefix="msb-build-") as folder:
        copy_crates(crates, Path(folder))
        status = prove(Path(folder), len(crates))
        made = Path(folder) / "crates" / PROGRAM / "out" / PROGRAM
        if status or not made.is_file():
            say(f"not built; the whole log is {LOG}, and this is its end:")
            print("".join(LOG.read_text().splitlines(keepends=True)[-30:]), end="", file=sys.stderr)
            return 1
        # Renamed beside its place, so that a program that runs now is not written to.
        shutil.copy2(made, OUT / f"{PROGRAM}.new")
        (OUT / f"{PROGRAM}.new").rename(OUT / PROGRAM)
        MARK.write_text(digest)
    return 0


def main() -> int:
    if sys.argv[1:]:
        print(__doc__, end="")
        return 0 if sys.argv[1:] == ["--help"] else 2
    signal.signal(signal.SIGTERM, lambda *_: sys.exit(1))
    if not shutil.which("rt"):
        say("the command `rt` of the Rattle kit is not in PATH; it proves and builds the program")
        return 1
    OUT.mkdir(exist_ok=True)
    with (OUT / "build.lock").open("w") as lock:
        fcntl.flock(lock, fcntl.LOCK_EX)
        crates = read_crates()
        digest = digest_of(crates)
        if (OUT / PROGRAM).is_file() and MARK.is_file() and MARK.read_text() == digest:
            return 0
        try:
            return build(crates, digest)
        except KeyboardInterrupt:
            say("broken off; the next command goes on from here")
            return 130


if __name__ == "__main__":
    sys.exit(main())
