#!/usr/bin/env python3
"""Build a generated set with less memory than it takes, by a built program.

usage: tests/little_memory.py PROGRAM

The program's address space is limited, and its data alone (its heap, and the stacks of its
threads): by 64 KiB more each time, from where the program can just be started up to where the set
is built twice in a row. Each build either answers want of memory (status 7), prints nothing, and
leaves of the list of files that it writes those up to some place; or it answers as it does with
ample memory. Each limit that shows another answer prints a line `FAIL KIND LIMIT: what differs`;
the last line is `N passed, M failed`. The status is 0 where nothing failed and some builds wanted
memory, 1 elsewhere, and 2 for wrong words.
"""

import os
import resource
import subprocess
import sys
import tempfile
from pathlib import Path

from generated_sets import SECONDS, SHARED, Files, Outcome, lay_out, trial_calls, trial_files
from generated_sets import trial_outputs, written

USAGE = "little_memory.py PROGRAM"
KINDS = {"address space": resource.RLIMIT_AS, "data": resource.RLIMIT_DATA}
SEED, SIZE = 7, 100
STEP = 64 * 1024
LEAST, MOST = 64 * 1024, 256 * 1024 * 1024


class Limited:
    """A program of which one kind of memory is limited."""

    def __init__(self, program: Path, kind: str) -> None:
        self.program, self.kind = program, kind

    def run(self, folder: Path, words: list[str], limit: int) -> tuple[int, bytes]:
        """The status and the output of a run under a limit in bytes."""
        def restrict() -> None:
            resource.setrlimit(KINDS[self.kind], (limit, limit))
        run = subprocess.run([self.program, *words], cwd=folder, stdin=subprocess.DEVNULL,
                             check=False, capture_output=True, timeout=SECONDS, preexec_fn=restrict)
        return run.returncode, run.stdout

    def least_limit(self) -> int:
        """The least limit at which the program can tell that there are no words."""
        for limit in range(LEAST, MOST, STEP):
            if self.run(Path("/"), [], limit)[0] == 2:
                return limit
        sys.exit(f"little_memory.py: {self.program} can't be started")

    def build(self, files: Files, words: list[str], limit: int) -> Outcome:
        """What a build of the set in a fresh folder comes to."""
        with tempfile.TemporaryDirectory(prefix="msb-set-", dir=SHARED) as name:
            lay_out(Path(name), files)
            status, text = self.run(Path(name), words, limit)
            text = text.decode("utf-8", "backslashreplace")
            return Outcome(status, text, written(Path(name), files))


def differs(got: Outcome, ample: Outcome) -> str | None:
    """Tells where an answer is neither that of ample memory nor want of memory."""
    if got == ample:
        return None
    if got.status != 7 or got.text != "":
        return f"status {got.status} with {got.text[:200]!r}"
    front = dict(list(ample.files.items())[:len(got.files)])
    return None if got.files == front else f"files that are no front of the list: {list(got.files)}"


def tried(limited: Limited, words: list[str]) -> tuple[int, int, int]:
    """How many builds with little memory were right, were wrong, and wanted memory."""
    calls = trial_calls(SEED, SIZE)
    files, limit = trial_files(calls), limited.least_limit()
    whole = limited.build(files, words, MOST)
    ample = Outcome(whole.status, whole.text, trial_outputs(calls))
    right, wrong, wanting, in_a_row = 0, 0, 0, 0
    while in_a_row < 2 and limit < MOST:
        got = limited.build(files, words, limit)
        fault = differs(got, ample)
        if fault is not None:
            print(f"FAIL {limited.kind} {limit}: {' '.join(words)}: {fault}", flush=True)
        right, wrong = right + (fault is None), wrong + (fault is not None)
        wanting += got.status == 7
        in_a_row = in_a_row + 1 if got == ample else 0
        limit += STEP
    return right, wrong + (whole != ample), wanting


def main(words: list[str]) -> int:
    """Read the words, and build under each kind of limit, on one node and on several."""
    if len(words) != 1 or not os.access(words[0], os.X_OK):
        print(f"usage: {USAGE}", file=sys.stderr)
        return 2
    program = Path(words[0]).resolve()
    counts = [tried(Limited(program, kind), ["build", "all.proj", "--nodes", nodes])
              for kind in KINDS for nodes in ("1", "4")]
    right, wrong = sum(count[0] for count in counts), sum(count[1] for count in counts)
    print(f"{right} passed, {wrong} failed")
    return 0 if wrong == 0 and all(count[2] > 0 for count in counts) else 1


if __name__ == "__main__":
    sys.exit(main(sys.argv[1:]))
