#!/usr/bin/env python3
"""Run the program with one of its allocations refused, another one in each run.

usage: tests/allocations.py PROGRAM [all]

The runs are those of the worked examples, which are the cases of projects.json and sets.json in
tests/cases, and builds of a generated set of 20 projects on 1 and on 4 nodes. By the word `all`
each allocation of the worked examples is refused in turn, and each 50th of the set; without it some
of each run. tests/allocations.c, which is loaded before the program, refuses them, and tells in
which order files are written.

A run in which an allocation is refused answers as it does without; or it answers want of memory
(status 7), prints nothing, and leaves of the files that it writes those up to some place. Where the
words can't be got, the status is 11. Each run that ends otherwise, or has no end, prints a line
`FAIL NAME: NUMBER: what differs`. The line before the last tells how many runs wanted memory, and
the last line is `N passed, M failed`. The status is 0 where nothing failed and some runs wanted
memory, 1 elsewhere, and 2 for wrong words. Without a C compiler `cc` nothing is tried.
"""

import os
import shutil
import subprocess
import sys
import tempfile
from collections import Counter
from collections.abc import Iterator
from concurrent.futures import ThreadPoolExecutor
from dataclasses import dataclass, replace
from functools import partial
from pathlib import Path

from generated_sets import SECONDS, SHARED, trial_calls, trial_files
from run_cases import SECOND, Case, Step, look, make_edits, read_cases, run_step, write_file

USAGE = "usage: allocations.py PROGRAM [all]"
FOLDER = Path(__file__).resolve().parent
WORKED = ("projects.json", "sets.json")
SEED, SIZE, APART = 7, 20, 50
QUICK, LAST = 10, range(0, 50, 5)  # where not all are refused: so many, and these from the last on
WANTED_MEMORY, NO_WORDS = 7, 11

Contents = dict[str, bytes]


@dataclass
class Run:
    """A run of the program: the folder that it finds, and its step; the allocations that are
    refused in it are so far apart."""

    name: str
    contents: Contents
    stamps: dict[str, int]
    step: Step
    apart: int


@dataclass
class Ended:
    """What a run comes to: its answer, the folder behind it, the paths that it writes, in order,
    and how many allocations it asks for."""

    status: int
    output: bytes
    contents: Contents
    written: list[str]
    asked: int


@dataclass
class Subject:
    """A program, and the library that refuses its allocations."""

    program: Path
    library: Path


# ---- Running ----------------------------------------------------------------------------------


def contents_of(folder: str) -> Contents:
    """The files of a folder, none of which is large."""
    return {path: seen.content or b"" for path, seen in look(folder).items()}


def ended(subject: Subject, run: Run, number: int) -> Ended:
    """What a run in a fresh folder comes to where the allocation of this number is refused."""
    with tempfile.TemporaryDirectory(prefix="msb-memory-", dir=SHARED) as name:
        for path, content in run.contents.items():
            write_file(Path(name), path, content, run.stamps[path])
        loaded = {"LD_PRELOAD": str(subject.library), "REFUSED": str(number)}
        got = subprocess.run([subject.program, *run.step.words], cwd=name, env=loaded, check=False,
                             stdin=subprocess.DEVNULL, capture_output=True, timeout=SECONDS)
        told = [line.partition(" ") for line in os.fsdecode(got.stderr).splitlines()]
        written = [os.path.normpath(path) for word, _, path in told if word == "renamed"]
        asked = sum(int(count) for word, _, count in told if word == "asked")
        return Ended(got.returncode, got.stdout, contents_of(name), written, asked)


def fronts(run: Run, whole: Ended) -> Iterator[Contents]:
    """The folder that a run finds, and how it is behind each file that is written."""
    contents = run.contents
    yield contents
    for path in whole.written:
        contents = {**contents, path: whole.contents[path]}
        yield contents


def differs(run: Run, whole: Ended, got: Ended) -> str | None:
    """Tells where an answer is neither that of the whole run nor want of memory."""
    files = [path for path, content in got.contents.items() if run.contents.get(path) != content]
    if got.status == whole.status and got.output in (whole.output, *(run.step.prints or [])):
        return None if got.contents == whole.contents else f"the whole answer with {files}"
    if got.status not in (WANTED_MEMORY, NO_WORDS) or got.output != b"":
        return f"status {got.status} with {got.output[:200]!r}"
    may_be = list(fronts(run, whole)) if got.status == WANTED_MEMORY else [run.contents]
    return None if got.contents in may_be else f"status {got.status} with {files}"


def answer(subject: Subject, run: Run, whole: Ended, number: int) -> tuple[int, str | None]:
    """The status of a run in which an allocation is refused, and what is wrong with it."""
    try:
        got = ended(subject, run, number)
    except subprocess.TimeoutExpired:
        return -1, f"no end within {SECONDS} seconds"
    return got.status, differs(run, whole, got)


# ---- What is run ------------------------------------------------------------------------------


def case_runs(program: Path, case: Case) -> Iterator[Run]:
    """The runs of a case, each in the folder that those ahead of it leave."""
    with tempfile.TemporaryDirectory(prefix="msb-memory-", dir=SHARED) as name:
        folder = Path(name)
        for path, content in case.files.items():
            write_file(folder, path, content, case.stamps.get(path, 1) * SECOND)
        for number, step in enumerate(case.steps, 1):
            make_edits(folder, step)
            stamps = {path: seen.stamp for path, seen in look(folder).items()}
            yield Run(f"{case.name}: step {number}", contents_of(name), stamps, step, 1)
            run_step(program, folder, replace(step, edits={}, stamps={}))


def worked_runs(program: Path) -> Iterator[Run]:
    """The runs of the worked examples."""
    for name in WORKED:
        for case in read_cases(FOLDER / "cases" / name, None):
            yield from case_runs(program, case)


def set_runs() -> Iterator[Run]:
    """Builds of a generated set, on one node and on several."""
    files = trial_files(trial_calls(SEED, SIZE))
    contents = {path: text.encode() for path, text in files.items()}
    for nodes in ("1", "4"):
        step = Step(["build", "all.proj", "--nodes", nodes], 0, None, {})
        stamps = dict.fromkeys(files, SECOND)
        yield Run(f"a set on {nodes} nodes", contents, stamps, step, APART)


# ---- All of them ------------------------------------------------------------------------------


def numbers(run: Run, whole: Ended, is_quick: bool) -> list[int]:
    """The allocations of a run that are refused. Among the last ones files are written."""
    if not is_quick:
        return list(range(1, whole.asked + 1, run.apart))
    spread = range(1, whole.asked + 1, -(-whole.asked // QUICK))
    return sorted({*spread, *(whole.asked - number for number in LAST if number < whole.asked)})


def wrong_answers(subject: Subject, run: Run, whole: Ended, chosen: list[int],
                  pool: ThreadPoolExecutor) -> Iterator[tuple[int, str | None]]:
    """The status of each run in which an allocation is refused, and what is wrong with it."""
    words_got = False
    for status, wrong in pool.map(partial(answer, subject, run, whole), chosen):
        if status == NO_WORDS and words_got:
            wrong = "no words, and with an earlier allocation refused there were some"
        words_got = words_got or status != NO_WORDS
        yield status, wrong


def tried(subject: Subject, run: Run, is_quick: bool, pool: ThreadPoolExecutor) -> Counter[str]:
    """How many runs were right, how many were wrong, and how many wanted memory."""
    whole = ended(subject, run, 0)
    if whole.status != run.step.status or not whole.asked:
        print(f"FAIL {run.name}: status {whole.status}, {whole.asked} allocations", flush=True)
        return Counter(failed=1)
    chosen, counts = numbers(run, whole, is_quick), Counter()
    answers = wrong_answers(subject, run, whole, chosen, pool)
    for number, (status, wrong) in zip(chosen, answers):
        counts.update(["passed" if wrong is None else "failed", status])
        if wrong is not None:
            print(f"FAIL {run.name}: {number}: {wrong}", flush=True)
    return counts


def try_all(subject: Subject, is_quick: bool) -> int:
    """Try all runs, several at once, and give the status."""
    counts: Counter[str | int] = Counter()
    with ThreadPoolExecutor(len(os.sched_getaffinity(0))) as pool:
        for run in [*worked_runs(subject.program), *set_runs()]:
            counts += tried(subject, run, is_quick, pool)
    print(f"{counts[WANTED_MEMORY]} runs wanted memory")
    print(f"{counts['passed']} passed, {counts['failed']} failed")
    return 0 if counts[WANTED_MEMORY] and not counts["failed"] else 1


def main(words: list[str]) -> int:
    """Read the words, make the library, and try all."""
    if not words or words[1:] not in ([], ["all"]) or not os.access(words[0], os.X_OK):
        print(USAGE, file=sys.stderr)
        return 2
    if shutil.which("cc") is None:
        print("0 passed, 0 failed, 1 skipped")
        return 0
    with tempfile.TemporaryDirectory(prefix="msb-memory-") as name:
        library = Path(name, "allocations.so")
        made = ["cc", "-O2", "-shared", "-fPIC", "-o", library, FOLDER / "allocations.c"]
        subprocess.run(made, check=True)
        return try_all(Subject(Path(words[0]).resolve(), library), len(words) == 1)


if __name__ == "__main__":
    sys.exit(main(sys.argv[1:]))
