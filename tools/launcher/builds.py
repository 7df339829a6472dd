"""Which program the launcher runs, and how it is built."""

import os
import signal
import stat
import sys

# The launcher's own status: there is no program to run.
NOT_BUILT = 125

# What a proof and a build read.
SOURCES = (".rt", ".antt")

# Folders of a crate that hold none of the program's sources.
LEFT_OUT = ("out", "must-fail")


def say(text: str) -> None:
    print(f"msb: {text}", file=sys.stderr, flush=True)


def is_newer(folder: str, than: int) -> bool:
    """Whether a source in the folder or below has changed since that time."""
    for entry in os.scandir(folder):
        if entry.is_dir(follow_symlinks=False):
            if entry.name not in LEFT_OUT and is_newer(entry.path, than):
                return True
        elif entry.name.endswith(SOURCES) and entry.stat().st_mtime_ns > than:
            return True
    return False


def is_old(top: str, program: str) -> bool:
    """Whether the program is not there, or older than its sources."""
    try:
        found = os.stat(program)
        crates = os.stat(os.path.join(top, "crates.txt")).st_mtime_ns
    except OSError:
        return True
    if not stat.S_ISREG(found.st_mode) or not os.access(program, os.X_OK):
        return True
    return crates > found.st_mtime_ns or is_newer(os.path.join(top, "crates"), found.st_mtime_ns)


def run_script(top: str, name: str) -> int:
    """Runs a script of tools/ to its end, which ctrl-C may bring, and gives its status."""
    before = signal.signal(signal.SIGINT, signal.SIG_IGN)
    script = os.path.join(top, "tools", name)
    python = sys.executable or "/usr/bin/env"
    words = [python, script] if sys.executable else [python, "python3", script]
    number = os.posix_spawn(python, words, os.environ, setsigdef=[signal.SIGINT, signal.SIGPIPE])
    status = os.waitstatus_to_exitcode(os.waitpid(number, 0)[1])
    signal.signal(signal.SIGINT, before)
    return status if status >= 0 else 128 - status


def wants_unproved() -> bool:
    """Asks on a terminal which of the two programs is to be built."""
    if not (os.isatty(0) and os.isatty(2)):
        return False
    say("the program is not built yet. To prove and build it takes over an hour; to compile")
    say("an unproved one, which is checked as it runs and gives the same answers, some minutes.")
    question = "msb: [p]rove and build, or run the [u]nproved one? [p] "
    print(question, end="", file=sys.stderr, flush=True)
    return sys.stdin.readline().strip().lower() in ("u", "unproved")


def note_time(program: str) -> None:
    """Notes that the program is as new as its sources, also where it stayed as it was."""
    try:
        os.utime(program)
    except OSError:
        pass


def proved(top: str) -> tuple[str, int]:
    """The proved program, built where it is not there, or none and the status."""
    program = os.path.join(top, "crates", "msb", "out", "msb")
    if not is_old(top, program):
        return program, 0
    if not os.path.exists(program) and wants_unproved():
        return unproved(top)
    status = run_script(top, "build.py")
    if status:
        return "", 130 if status == 130 else NOT_BUILT
    note_time(program)
    return program, 0


def unproved(top: str) -> tuple[str, int]:
    """The unproved program, built where it is not there, or none and the status."""
    program = os.path.join(top, "out", "unproved", "msb")
    if is_old(top, program):
        status = run_script(top, "build_unproved.py")
        if status:
            return "", 130 if status == 130 else NOT_BUILT
        note_time(program)
    say("this is not the proved program; `./msb` without --unproved proves and builds that one")
    return program, 0


def program_for(top: str, is_unproved: bool) -> tuple[str, int]:
    """The program to run, or none and the status to end with."""
    return unproved(top) if is_unproved else proved(top)
