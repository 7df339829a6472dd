"""Runs the program, hands its text on, and tells on a terminal that it is still at work."""

import os
import select
import signal
import sys
import time

import allocator

# The status of the program where all was done, and its text could not be printed.
NOT_PRINTED = 6

# As much of a text is kept for hints.
MOST_KEPT = 8 << 20

# Signals that end both the launcher and the program.
PASSED_ON = (signal.SIGINT, signal.SIGTERM, signal.SIGHUP, signal.SIGQUIT)

# When the line comes that tells of a long run, and how often it changes, in seconds.
LONG, STEP = 2.0, 1.0


class Ended:
    """How a run ended: its status or the signal that ended it, its text, and what it took."""

    def __init__(self) -> None:
        self.status = 0
        self.signal = 0
        self.text = bytearray()
        self.print_error: OSError | None = None
        self.seconds = 0.0
        self.processor_seconds = 0.0
        self.peak_kilobytes = 0

    @property
    def failed(self) -> bool:
        return self.status != 0 or self.signal != 0


class Progress:
    """The line on a terminal that tells of a long run."""

    def __init__(self, word: str) -> None:
        self.word = word
        self.began = time.monotonic()
        self.width = 0
        self.is_on = os.isatty(2) and os.environ.get("TERM") != "dumb"

    def milliseconds_left(self) -> int | None:
        """How long until the line is to change; None where there is none."""
        if not self.is_on:
            return None
        passed = time.monotonic() - self.began
        due = LONG if passed < LONG else STEP * (passed // STEP + 1)
        return int((due - passed) * 1000) + 1

    def tell(self) -> None:
        passed = int(time.monotonic() - self.began)
        if self.is_on and passed >= LONG:
            line = f"{self.word}, {passed} s"
            self.width = len(line)
            self.write(f"\r{line}")

    def clear(self) -> None:
        if self.width:
            self.write("\r" + " " * self.width + "\r")
        self.width, self.is_on = 0, False

    def write(self, text: str) -> None:
        try:
            os.write(2, text.encode())
        except OSError:
            self.is_on = False


def write_all(piece: bytes) -> None:
    """Writes all of it to standard output, also where that doesn't wait."""
    view = memoryview(piece)
    while view:
        try:
            view = view[os.write(1, view):]
        except BlockingIOError:
            select.select([], [1], [])


def relay(source: int, ended: Ended, progress: Progress) -> None:
    """Hands on all that comes, until the end or until it can't be printed."""
    poll = select.poll()
    poll.register(source, select.POLLIN)
    while True:
        if not poll.poll(progress.milliseconds_left()):
            progress.tell()
            continue
        piece = os.read(source, 1 << 16)
        progress.clear()
        if not piece:
            return
        if len(ended.text) < MOST_KEPT:
            ended.text += piece
        try:
            write_all(piece)
        except OSError as error:
            ended.print_error = error
            return


def started(program: str, words: list[str], output: int | None) -> int:
    """Starts the program with these words, with `output` as its standard output."""
    actions = [] if output is None else [(os.POSIX_SPAWN_DUP2, output, 1)]
    return os.posix_spawn(program, [program, *words], allocator.environment(),
                          file_actions=actions, setsigmask=(),
                          setsigdef=[signal.SIGINT, signal.SIGPIPE])


def pass_signals_on(number: int) -> None:
    """From now on a signal that would end the launcher ends the program, and so both."""
    def pass_on(name: int, _: object) -> None:
        try:
            os.kill(number, name)
        except ProcessLookupError:
            pass
    for name in PASSED_ON:
        signal.signal(name, pass_on)


def wait(number: int, began: float, ended: Ended) -> None:
    """Waits for the program's end."""
    _, status, usage = os.wait4(number, 0)
    for name in PASSED_ON:
        signal.signal(name, signal.SIG_DFL)
    code = os.waitstatus_to_exitcode(status)
    ended.status, ended.signal = max(code, 0), max(-code, 0)
    ended.seconds = time.monotonic() - began
    ended.processor_seconds = usage.ru_utime + usage.ru_stime
    ended.peak_kilobytes = usage.ru_maxrss


def word_for(words: list[str]) -> str:
    """What the program does, for the line on a terminal."""
    if words[:1] == ["check"]:
        return "checking"
    return "evaluating" if words[:1] in (["eval"], ["targets"]) else "building"


def run_relayed(program: str, words: list[str], ended: Ended) -> None:
    """Runs the program and hands its text on."""
    source, output = os.pipe()
    began = time.monotonic()
    number = started(program, words, output)
    os.close(output)
    pass_signals_on(number)
    signal.pthread_sigmask(signal.SIG_UNBLOCK, PASSED_ON)
    progress = Progress(word_for(words))
    relay(source, ended, progress)
    os.close(source)
    wait(number, began, ended)
    if ended.print_error and ended.status in (0, 1):
        ended.status = NOT_PRINTED


def run(program: str, words: list[str], relays: bool) -> Ended:
    """Runs the program to its end; where it relays, its text goes through the launcher."""
    ended = Ended()
    signal.pthread_sigmask(signal.SIG_BLOCK, PASSED_ON)
    if relays:
        run_relayed(program, words, ended)
        return ended
    began = time.monotonic()
    number = started(program, words, None)
    pass_signals_on(number)
    signal.pthread_sigmask(signal.SIG_UNBLOCK, PASSED_ON)
    wait(number, began, ended)
    return ended


def say_time(ended: Ended) -> None:
    """Says how long the run took, how much processor time, and how much memory at most."""
    print(f"msb: {ended.seconds:.2f} s, {ended.processor_seconds:.2f} s of processor time, "
          f"{ended.peak_kilobytes / 1024:.0f} MiB at most", file=sys.stderr, flush=True)


def leave(ended: Ended) -> int:
    """The status of the launcher; where a signal ended the program, it ends the launcher too."""
    if ended.signal in PASSED_ON:
        os.kill(os.getpid(), ended.signal)
    return 128 + ended.signal if ended.signal else ended.status
