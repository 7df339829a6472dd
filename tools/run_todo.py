#!/usr/bin/env python3
"""Runs the commands that a build has written to todo.sh, several at once, and removes todo.sh.

usage: tools/run_todo.py [-j N] [FILE..]

msb calls no compiler: a target writes one command for each source that is out of date, as
examples/compile shows, and this runs them. FILE is todo.sh where none is named; several are run in
their order, each in its own folder, and one that is not there has nothing to do. Each line is a
command of the shell. A line `wait` parts them: what stands behind it is run once all before it are
done. Of a command that stands there twice, as after two builds, the last counts. N commands run at
once, as many as there are processors where N is left out.

What stands behind -o in a command is its output. It is removed before the first command is run, and
once more where its command fails or is broken off, so it is there only if it was made whole, and a
build makes what is missing again. Its folder is made. It has the stamp of todo.sh, so that a source
which is changed while it is compiled is newer. A command without -o has to see to this itself.

The status is 0, or 1 where a command has failed, behind which no other is begun, or 2 for wrong
words.
"""

from __future__ import annotations

import argparse
import contextlib
import os
import shlex
import signal
import sys
from dataclasses import dataclass, field

RUNNING = ".run"  # what a list is called while its commands run, in place of .sh
SIGNALS = {signal.SIGCHLD, signal.SIGINT, signal.SIGTERM}  # waited for, and else held back


class Wrong(Exception):
    """A list that can't be run."""


def output_of(command: str) -> str:
    """What stands behind -o in a command, or nothing."""
    try:
        words = shlex.split(command)
    except ValueError:
        return ""
    return next((name for word, name in zip(words, words[1:]) if word == "-o"), "")


def stages_of(text: str) -> list[list[str]]:
    """The commands of a list, parted at each `wait`; of equal ones the last is taken."""
    stages: list[list[str]] = [[]]
    seen = set()
    for line in reversed(text.splitlines()):
        command = line.strip()
        if command == "wait":
            stages.insert(0, [])
        elif command and not command.startswith("#") and command not in seen:
            seen.add(command)
            stages[0].insert(0, command)
    return [stage for stage in stages if stage]


def remove(outputs: list[str]) -> None:
    for output in outputs:
        with contextlib.suppress(FileNotFoundError):
            os.remove(output)


@dataclass
class Run:
    """The commands of one list, in its folder. `stamp` is that of the list, in nanoseconds."""

    stamp: int
    jobs: int
    running: dict[int, str] = field(default_factory=dict)  # commands by their processes
    done: int = 0
    failed: int = 0

    def stage(self, commands: list[str]) -> None:
        """Runs commands that don't wait for each other. After one that fails no other is begun."""
        waiting = list(reversed(commands))
        while self.running or (waiting and not self.failed):
            if waiting and not self.failed and len(self.running) < self.jobs:
                self.begin(waiting.pop())
            else:
                self.end()

    def begin(self, command: str) -> None:
        print(command, flush=True)
        folder = os.path.dirname(output_of(command))
        if folder:
            os.makedirs(folder, exist_ok=True)
        words = ["sh", "-c", command]
        process = os.posix_spawn("/bin/sh", words, os.environ, setpgroup=0, setsigmask=[])
        self.running[process] = command

    def end(self) -> None:
        """Waits for the end of commands, or for a signal that breaks them off."""
        process, status = os.waitpid(-1, os.WNOHANG)
        if process:
            self.take(self.running.pop(process), status)
        elif signal.sigwait(SIGNALS) != signal.SIGCHLD:
            raise KeyboardInterrupt

    def take(self, command: str, status: int) -> None:
        """Takes in how a command has ended."""
        output = output_of(command)
        if status != 0:
            self.failed += 1
            remove([output] if output else [])
            print(f"failed: {command}", flush=True)
            return
        self.done += 1
        if output and os.path.exists(output):
            os.utime(output, ns=(self.stamp, self.stamp))

    def stop(self) -> None:
        """Ends what runs, and removes what that was making."""
        for process in self.running:
            with contextlib.suppress(ProcessLookupError, PermissionError):
                os.killpg(process, signal.SIGTERM)
        for process, command in self.running.items():
            os.waitpid(process, 0)
            output = output_of(command)
            remove([output] if output else [])


def run_in_folder(name: str, jobs: int) -> bool:
    """Runs a list in the current folder, and tells whether all its commands are done."""
    begun = os.path.splitext(name)[0] + RUNNING
    if os.path.exists(begun):
        remove(outputs_in(begun) + [begun])
        raise Wrong("an earlier run was broken off, and what it made is removed: build again")
    if not os.path.exists(name):
        print("nothing to do")
        return True
    os.rename(name, begun)
    with open(begun, encoding="utf-8") as opened:
        stages = stages_of(opened.read())
    remove(outputs_in(begun))
    run = Run(os.stat(begun).st_mtime_ns, jobs)
    try:
        for stage in stages:
            run.stage([] if run.failed else stage)
    except BaseException:
        run.stop()
        raise
    finally:
        os.remove(begun)
    left = sum(map(len, stages)) - run.done - run.failed
    print(f"{run.done} done" + f", {run.failed} failed, {left} not run" * bool(run.failed))
    return not run.failed


def outputs_in(name: str) -> list[str]:
    with open(name, encoding="utf-8") as opened:
        outputs = (output_of(command) for stage in stages_of(opened.read()) for command in stage)
        return [output for output in outputs if output]


def run_list(path: str, jobs: int) -> bool:
    folder, name = os.path.split(path)
    here = os.getcwd()
    if folder:
        os.chdir(folder)
    try:
        return run_in_folder(name, jobs)
    finally:
        os.chdir(here)


def number(word: str) -> int:
    if not word.isdecimal() or int(word) == 0:
        raise argparse.ArgumentTypeError(f"{word} is no number of commands")
    return int(word)


def main() -> None:
    parser = argparse.ArgumentParser(usage=__doc__.split("\n\n")[1].removeprefix("usage: "))
    parser.add_argument("-j", dest="jobs", type=number, default=os.cpu_count() or 1)
    parser.add_argument("files", nargs="*", default=["todo.sh"])
    words = parser.parse_args()
    signal.signal(signal.SIGCHLD, lambda *_: None)
    signal.pthread_sigmask(signal.SIG_BLOCK, SIGNALS)
    for file in words.files:
        try:
            if not run_list(file, words.jobs):
                sys.exit(1)
        except KeyboardInterrupt:
            sys.exit(130)
        except (Wrong, UnicodeError) as error:
            sys.exit(f"{file}: {error}")
        except OSError as error:
            sys.exit(f"{error.filename or file}: {error.strerror}")


if __name__ == "__main__":
    main()
