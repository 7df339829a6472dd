#!/usr/bin/env python3
"""Tries the built program over real folders: files stay whole, nothing outside is touched, and each
fault is told.

usage: tests/real_folder.py PROGRAM [TEST ..]

Each test has a folder of its own, and the name of its function in tests/folder_tests. A test that
this machine doesn't allow, as one that mounts a small file system, is skipped: it says why, and
counts as neither passed nor failed. The last line is `N passed, M failed`, and `, K skipped` stands
behind it where tests were skipped. The status is 0 where nothing failed, and 2 for other words.
"""
import shutil
import sys
import tempfile
from pathlib import Path

from folder_tests import faults, links, removals, whole
from folder_tests.place import Failed, Place, Skipped

TESTS = [*whole.TESTS, *links.TESTS, *removals.TESTS, *faults.TESTS]


def outcome(test, place: Place) -> str:
    """Runs a test, tells how it went, and says in a word what it counts as."""
    try:
        test(place)
    except Skipped as why:
        print(f"{test.__name__}: skipped: {why}", flush=True)
        return "skipped"
    except (Failed, OSError) as why:
        print(f"{test.__name__}: FAILED: {why}", flush=True)
        return "failed"
    print(f"{test.__name__}: passed", flush=True)
    return "passed"


def run_all(program: Path, tests: list) -> dict[str, int]:
    counts = {"passed": 0, "failed": 0, "skipped": 0}
    with tempfile.TemporaryDirectory(prefix="msb-tests-", ignore_cleanup_errors=True) as scratch:
        top = Path(scratch)
        top.chmod(0o755)  # so that another user can reach it
        copied = shutil.copy(program, top / "msb")
        for test in tests:
            folder = top / test.__name__
            folder.mkdir()
            counts[outcome(test, Place(Path(copied), folder))] += 1
    return counts


def main() -> int:
    words = sys.argv[1:]
    chosen = [test for test in TESTS if test.__name__ in words[1:]] or TESTS
    unknown = set(words[1:]) - {test.__name__ for test in TESTS}
    if not words or unknown:
        print("usage: tests/real_folder.py PROGRAM [TEST ..]", *sorted(unknown), file=sys.stderr)
        return 2
    if not Path(words[0]).is_file():
        print(f"real_folder.py: no program is at {words[0]}", file=sys.stderr)
        return 2
    counts = run_all(Path(words[0]).resolve(), chosen)
    skipped = f", {counts['skipped']} skipped" if counts["skipped"] else ""
    print(f"{counts['passed']} passed, {counts['failed']} failed{skipped}")
    return 1 if counts["failed"] else 0


if __name__ == "__main__":
    sys.exit(main())
