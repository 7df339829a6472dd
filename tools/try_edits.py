#!/usr/bin/env python3
"""Tries wrong bodies that the proofs must refuse: those of edits/CRATE/, which the merge gate doesn't read.

usage: tools/try_edits.py [--applies] [--since COMMIT] [CRATE ..]

The merge gate tries the edits in crates/CRATE/must-fail/, a few that break a rule of the engine each. All others stand in
edits/, since a crate with edits is proved a second time. This file tries these: those of the crates that are named, else of the
crates that changed since a commit, else all. It copies the repository, with what `rt check` kept of it, puts the edits where
`rt must-fail` reads them, and runs it there. With --applies nothing is proved: it only looks whether each edit can still be
applied, which is that its old text stands once in the file that it names.

An edit is a file of lines `file: PATH`, then pairs `old: TEXT` and `new: TEXT`, which are applied one after the other. The status
is 0 where each edit is refused, or can be applied.
"""

import argparse
import os
import shutil
import subprocess
import sys
import tempfile
from pathlib import Path

TOP = Path(__file__).resolve().parent.parent

# What a verdict on a crate reads, and what checks of it kept.
PARTS = ("src", "specs", "proofs", "out")


def changed_crates(commit: str) -> set[str]:
    """The crates whose files changed since a commit, or whose edits did."""
    words = ["git", "diff", "--name-only", commit, "--", "crates", "edits"]
    told = subprocess.run(words, cwd=TOP, capture_output=True, text=True)
    if told.returncode:
        sys.exit(f"try_edits: {told.stderr.strip()}")
    return {Path(line).parts[1] for line in told.stdout.splitlines()}


def crates_to_try(named: list[str], since: str | None) -> list[str]:
    """The crates with edits among those that are asked for."""
    every = sorted(folder.name for folder in (TOP / "edits").iterdir() if folder.is_dir())
    unknown = sorted(set(named) - set(every))
    if unknown:
        sys.exit(f"try_edits: no edits of {' '.join(unknown)}; there are those of {' '.join(every)}")
    if since is not None:
        return [name for name in every if name in changed_crates(since)]
    return named or every


def why_not_applied(edit: Path, crate: Path) -> str | None:
    """Why an edit can't be applied to its crate; none where it can."""
    texts: dict[str, str] = {}
    path, old, pairs = "", None, 0
    for number, line in enumerate(edit.read_text().splitlines(), 1):
        key, _, value = line.partition(":")
        value = value.removeprefix(" ")
        if key == "file":
            path = value.strip()
            if not (crate / path).is_file():
                return f"line {number}: there is no file {path}"
            texts.setdefault(path, (crate / path).read_text())
        elif key == "old" and path:
            old = value
        elif key == "new" and old is not None:
            found = texts[path].count(old)
            if found != 1:
                return f"line {number}: its old text stands {found} times in {path}"
            texts[path], old, pairs = texts[path].replace(old, value), None, pairs + 1
        else:
            return f"line {number} is none of 'file: ', 'old: ' and 'new: ' in their order"
    return None if pairs else "it changes nothing"


def look_at(crates: list[str]) -> int:
    """Tells each edit that can't be applied, also of those that the merge gate tries."""
    edits = [edit for name in crates for edit in sorted((TOP / "edits" / name).iterdir())]
    edits += sorted(TOP.glob("crates/*/must-fail/*.edit"))
    failed = 0
    for edit in edits:
        crate = edit.parent.name if edit.parent.name != "must-fail" else edit.parent.parent.name
        why = why_not_applied(edit, TOP / "crates" / crate)
        if why:
            failed += 1
            print(f"{edit.relative_to(TOP)}: {why}")
    print(f"{len(edits) - failed} passed, {failed} failed")
    return 1 if failed else 0


def link_or_copy(one: str, other: str) -> None:
    """A second name for what a check kept, which is never written to once it is made; else a copy."""
    if "/out/" not in one:
        shutil.copy2(one, other)
        return
    try:
        os.link(one, other)
    except OSError:
        shutil.copy2(one, other)


def copy_repository(to: Path, crates: list[str]) -> None:
    """Copies all that a proof reads, with the edits of these crates in the place where the toolchain reads them."""
    for file in ("crates.txt", "HANDLES"):
        shutil.copy2(TOP / file, to / file)
    (to / ".git").mkdir()
    for crate in sorted(path for path in (TOP / "crates").iterdir() if path.is_dir()):
        for part in PARTS:
            if (crate / part).is_dir():
                shutil.copytree(crate / part, to / "crates" / crate.name / part, copy_function=link_or_copy)
    for name in crates:
        shutil.copytree(TOP / "edits" / name, to / "crates" / name / "must-fail")


def try_edits(crates: list[str]) -> int:
    """Runs the toolchain over a copy that has the edits, and gives its status."""
    if not crates:
        print("try_edits: no crate with edits has changed")
        return 0
    with tempfile.TemporaryDirectory(prefix="try-edits-", dir=TOP.parent) as folder:
        copy_repository(Path(folder), crates)
        return subprocess.run(["rt", "must-fail", *crates], cwd=folder, stdin=subprocess.DEVNULL).returncode


def main() -> int:
    words = argparse.ArgumentParser(description=__doc__.splitlines()[0])
    words.add_argument("--applies", action="store_true", help="only look whether each edit can be applied")
    words.add_argument("--since", metavar="COMMIT", help="the crates that changed since this commit")
    words.add_argument("crates", metavar="CRATE", nargs="*")
    told = words.parse_args()
    crates = crates_to_try(told.crates, told.since)
    return look_at(crates) if told.applies else try_edits(crates)


if __name__ == "__main__":
    sys.exit(main())
