#!/usr/bin/env python3
"""Tests of tools/run_todo.py, and of examples/compile, whose sources it compiles.

usage: tests/compile.py [PROGRAM]

With PROGRAM, a built msb, the example is walked through where there is a C compiler cc: a first
build, one with nothing to do, one changed source, a changed header, and a compile that fails and is
made again.
"""

from __future__ import annotations

import os
import shutil
import signal
import subprocess
import sys
import tempfile
import time
import traceback
from collections.abc import Callable
from pathlib import Path

TOP = Path(__file__).resolve().parent.parent
RUN_TODO = TOP / "tools" / "run_todo.py"


def expect(what: str, got: object, wanted: object) -> None:
    if got != wanted:
        raise AssertionError(f"{what}\nwanted {wanted!r}\ngot    {got!r}")


def run_todo(folder: Path, *words: str) -> tuple[int, list[str]]:
    command = [sys.executable, str(RUN_TODO), *words]
    made = subprocess.run(command, cwd=folder, stdout=subprocess.PIPE, stderr=subprocess.STDOUT)
    return made.returncode, made.stdout.decode().splitlines()


def begin(folder: Path, *words: str) -> subprocess.Popen[bytes]:
    """Starts the script, and waits until its first command runs, which makes the file `begun`."""
    process = subprocess.Popen(
        [sys.executable, str(RUN_TODO), *words], cwd=folder, stdout=subprocess.DEVNULL
    )
    for _ in range(6000):
        if (folder / "begun").exists():
            return process
        time.sleep(0.01)
    raise AssertionError("no command was begun")


def write(path: Path, text: str) -> None:
    path.parent.mkdir(parents=True, exist_ok=True)
    path.write_text(text)


def commands_are_run_and_the_list_removed(folder: Path) -> None:
    write(folder / "todo.sh", "# a comment\n\necho a > a -o a\nwait\ncp a b -o b/../b\n")
    expect("nothing is there", run_todo(folder, "none.sh"), (0, ["nothing to do"]))
    shown = ["echo a > a -o a", "cp a b -o b/../b"]
    write(folder / "todo.sh", "echo a > a\nwait\nwait\ncp a b; exit 0 -o out/x/b\n")
    shown = ["echo a > a", "cp a b; exit 0 -o out/x/b", "2 done"]
    expect("run", run_todo(folder), (0, shown))
    expect("what they made", (folder / "b").read_text(), "a\n")
    expect("the folder of an output", (folder / "out/x").is_dir(), True)
    expect("the lists", sorted(path.name for path in folder.iterdir()), ["a", "b", "out"])


MEET = "touch {0}; until test -e {1}; do sleep 0.01; done"


def several_run_at_once(folder: Path) -> None:
    write(folder / "todo.sh", MEET.format("a", "b") + "\n" + MEET.format("b", "a") + "\n")
    expect("two meet", run_todo(folder, "-j", "2")[0], 0)
    order = "".join(f"echo {number} >> order\n" for number in range(20))
    write(folder / "todo.sh", order)
    expect("one after the other", run_todo(folder, "-j1")[0], 0)
    expect("their order", (folder / "order").read_text().split(), [str(one) for one in range(20)])


def a_wait_parts_commands(folder: Path) -> None:
    write(folder / "todo.sh", "sleep 0.2; echo a >> x\nwait\necho b >> x\n")
    expect("status", run_todo(folder, "-j", "8")[0], 0)
    expect("order", (folder / "x").read_text(), "a\nb\n")


def the_last_of_equal_commands_counts(folder: Path) -> None:
    first, link = "echo a >> x", "echo link >> x"
    write(folder / "todo.sh", f"wait\n{link}\n{first}\nwait\n{link}\n")
    expect("run", run_todo(folder), (0, [first, link, "2 done"]))
    expect("order", (folder / "x").read_text(), "a\nlink\n")


def outputs_have_the_stamp_of_the_list(folder: Path) -> None:
    write(folder / "todo.sh", "echo a > 'a b' ; true -o 'a b'\n")
    os.utime(folder / "todo.sh", ns=(5, 1_000_000_007))
    expect("status", run_todo(folder)[0], 0)
    expect("stamp", (folder / "a b").stat().st_mtime_ns, 1_000_000_007)


def a_failure_leaves_nothing_half_made(folder: Path) -> None:
    bad, good = "echo half > a; false -o a", "echo b > b; true -o b"
    later = "echo c > c; true -o c"
    for name in "abc":
        write(folder / name, "old")
    write(folder / "todo.sh", f"{good}\n{bad}\n{later}\nwait\necho link\n")
    shown = [good, bad, f"failed: {bad}", "1 done, 1 failed, 2 not run"]
    expect("run", run_todo(folder, "-j", "1"), (1, shown))
    expect("what is there", sorted(path.name for path in folder.iterdir()), ["b"])
    expect("it was made", (folder / "b").read_text(), "b\n")


def a_run_that_is_broken_off_leaves_nothing_half_made(folder: Path) -> None:
    slow = "echo half > a; touch begun; sleep 60; true -o a"
    for kind, status in ((signal.SIGINT, 130), (signal.SIGTERM, 130)):
        write(folder / "todo.sh", f"{slow}\n")
        process = begin(folder)
        process.send_signal(kind)
        expect(f"{kind.name}: status", process.wait(60), status)
        expect(f"{kind.name}: files", [path.name for path in folder.iterdir()], ["begun"])
        (folder / "begun").unlink()


def a_run_that_was_killed_is_told(folder: Path) -> None:
    write(folder / "todo.sh", "echo half > a; touch begun; sleep 2; true -o a\n")
    process = begin(folder)
    process.kill()
    process.wait()
    write(folder / "todo.sh", "echo b > b\n")
    told = "todo.sh: an earlier run was broken off, and what it made is removed: build again"
    expect("told", run_todo(folder), (1, [told]))
    expect("files", sorted(path.name for path in folder.iterdir()), ["begun", "todo.sh"])
    expect("then", run_todo(folder), (0, ["echo b > b", "1 done"]))


def lists_are_run_in_their_folders(folder: Path) -> None:
    write(folder / "a/todo.sh", "cat x > y\n")
    write(folder / "a/x", "a")
    write(folder / "b/todo.sh", "cp ../a/y z\n")
    shown = ["cat x > y", "1 done", "cp ../a/y z", "1 done"]
    expect("run", run_todo(folder, "a/todo.sh", "b/todo.sh"), (0, shown))
    expect("made", (folder / "b/z").read_text(), "a")
    write(folder / "a/todo.sh", "false\n")
    write(folder / "b/todo.sh", "true\n")
    shown = ["false", "failed: false", "0 done, 1 failed, 0 not run"]
    expect("a failure ends all", run_todo(folder, "a/todo.sh", "b/todo.sh"), (1, shown))


def wrong_words_are_said(folder: Path) -> None:
    for words in (("-j", "0"), ("-j", "x"), ("--none",)):
        expect(f"{words}", run_todo(folder, *words)[0], 2)
    expect("a folder", run_todo(folder, "none/todo.sh"), (1, ["none: No such file or directory"]))
    (folder / "todo.sh").write_bytes(b"\xff\n")
    expect("no text", run_todo(folder)[1][0].startswith("todo.sh: 'utf-8' codec"), True)


class Example:
    """A copy of examples/compile."""

    def __init__(self, folder: Path, program: str):
        self.folder, self.program = folder / "compile", os.path.abspath(program)
        ignored = shutil.ignore_patterns("out")
        shutil.copytree(TOP / "examples" / "compile", self.folder, ignore=ignored)

    def build(self, compiled: str, linked: str, done: str, status: int = 0) -> None:
        """Builds it, runs what there is to do, and compares how sources and the program fare."""
        words = [self.program, "build", "compile.proj"]
        made = subprocess.run(words, cwd=self.folder, stdout=subprocess.PIPE)
        lines = made.stdout.decode().splitlines()
        wanted = [f"compile.proj : compile {compiled}", f"compile.proj : link {linked}"]
        expect("build", (made.returncode, lines[:2]), (0, wanted))
        got = run_todo(self.folder)
        expect(f"run, as {got[1]} is told", (got[0], got[1][-1]), (status, done))

    def says(self) -> str:
        return subprocess.run([self.folder / "out/app"], stdout=subprocess.PIPE).stdout.decode()

    def change(self, name: str, before: str, after: str) -> None:
        time.sleep(0.02)
        path = self.folder / "src" / name
        path.write_text(path.read_text().replace(before, after))


OLD = "up to date"


def the_example_is_walked_through(folder: Path, program: str) -> None:
    example = Example(folder, program)
    example.build("ran, ran", "ran", "3 done")
    expect("the program", example.says(), "42\n")
    example.build(f"{OLD}, {OLD}", OLD, "nothing to do")
    example.change("main.c", "{40,", "{41,")
    example.build(f"{OLD}, ran", "ran", "2 done")
    expect("one changed source", example.says(), "43\n")
    example.change("list.h", "struct list {", "struct list { /* changed */")
    example.build("ran, ran", "ran", "3 done")
    example.change("list.c", "return total;", "return total")
    for _ in range(2):
        example.build(f"ran, {OLD}", "ran", "0 done, 1 failed, 1 not run", 1)
        made = sorted(path.name for path in (example.folder / "out").iterdir())
        expect("a compile that fails", made, ["main.o"])
    example.change("list.c", "return total", "return 2 * total;")
    example.build(f"ran, {OLD}", "ran", "2 done")
    expect("made again", example.says(), "86\n")
    example.build(f"{OLD}, {OLD}", OLD, "nothing to do")


def a_failure_that_is_taken_back_is_made_again(folder: Path, program: str) -> None:
    example = Example(folder, program)
    source = example.folder / "src/list.c"
    example.build("ran, ran", "ran", "3 done")
    stamp = source.stat()
    example.change("list.c", "return total;", "return total")
    example.build(f"ran, {OLD}", "ran", "0 done, 1 failed, 1 not run", 1)
    example.change("list.c", "return total", "return total;")
    os.utime(source, ns=(stamp.st_atime_ns, stamp.st_mtime_ns))
    example.build(f"ran, {OLD}", "ran", "2 done")
    expect("the program", example.says(), "42\n")


def a_link_that_fails_is_made_again(folder: Path, program: str) -> None:
    example = Example(folder, program)
    example.change("list.c", "int sum(", "int other(")
    example.build("ran, ran", "ran", "2 done, 1 failed, 0 not run", 1)
    example.build(f"{OLD}, {OLD}", "ran", "0 done, 1 failed, 0 not run", 1)
    example.change("list.c", "int other(", "int sum(")
    example.build(f"ran, {OLD}", "ran", "2 done")
    expect("the program", example.says(), "42\n")


def two_builds_ahead_of_a_run_are_one(folder: Path, program: str) -> None:
    example = Example(folder, program)
    words = [example.program, "build", "compile.proj"]
    subprocess.run(words, cwd=example.folder, stdout=subprocess.DEVNULL)
    example.build("ran, ran", "ran", "3 done")
    expect("the program", example.says(), "42\n")


ALONE = [
    commands_are_run_and_the_list_removed,
    several_run_at_once,
    a_wait_parts_commands,
    the_last_of_equal_commands_counts,
    outputs_have_the_stamp_of_the_list,
    a_failure_leaves_nothing_half_made,
    a_run_that_is_broken_off_leaves_nothing_half_made,
    a_run_that_was_killed_is_told,
    lists_are_run_in_their_folders,
    wrong_words_are_said,
]
WITH_COMPILER = [
    the_example_is_walked_through,
    a_failure_that_is_taken_back_is_made_again,
    a_link_that_fails_is_made_again,
    two_builds_ahead_of_a_run_are_one,
]


def passes(test: Callable[..., None], *given: object) -> bool:
    try:
        with tempfile.TemporaryDirectory() as folder:
            test(Path(folder), *given)
    except AssertionError as error:
        print(f"{test.__name__}: {error}")
        return False
    except Exception:
        print(f"{test.__name__}: {traceback.format_exc()}")
        return False
    return True


def main() -> None:
    results = [passes(test) for test in ALONE]
    skipped = ""
    if len(sys.argv) > 1 and shutil.which("cc"):
        results += [passes(test, sys.argv[1]) for test in WITH_COMPILER]
    else:
        why = "there is no cc" if len(sys.argv) > 1 else "no PROGRAM is named"
        skipped = f", {len(WITH_COMPILER)} skipped, since {why}"
    print(f"compile: {sum(results)} passed, {len(results) - sum(results)} failed{skipped}")
    sys.exit(0 if all(results) else 1)


if __name__ == "__main__":
    main()
