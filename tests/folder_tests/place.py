"""A folder in which the program is run, and what tests ask of it."""
import contextlib
import json
import os
import subprocess
from collections.abc import Callable, Iterator
from dataclasses import dataclass
from pathlib import Path

# A run that takes longer waits for something that never comes, as the other end of a pipe.
SECONDS = 120

# The user of runs that permissions bind, where the tests run as root: `nobody`.
NOBODY = 65534

# An earlier time than that of anything that a test or a build writes.
LONG_AGO = 1_000_000_000

# How the name of a new file begins until it is whole.
NEW = ".msb-"


class Failed(Exception):
    """The program did otherwise than it should."""


class Skipped(Exception):
    """This machine doesn't allow the test."""


@dataclass
class Ended:
    """The status of a run that has ended, and what it printed."""

    status: int
    text: str


def expect(what: str, got: object, want: object) -> None:
    if got != want:
        raise Failed(f"{what}: {shortened(got)}, and not {shortened(want)}")


def shortened(value: object) -> str:
    shown = repr(value)
    return shown if len(shown) <= 120 else f"{shown[:100]}.. ({len(shown)} characters)"


class Place:
    """A folder, and the program that runs in it."""

    def __init__(self, program: Path, folder: Path) -> None:
        self.program = program
        self.folder = folder

    def at(self, folder: Path) -> "Place":
        """The same program in another folder."""
        return Place(self.program, folder)

    def path(self, name: str) -> Path:
        return self.folder / name

    def write(self, name: str, content: bytes) -> Path:
        path = self.path(name)
        path.parent.mkdir(parents=True, exist_ok=True)
        path.write_bytes(content)
        return path

    def read(self, name: str) -> bytes:
        path = self.path(name)
        if not path.is_file():
            raise Failed(f"{name}: no file is there")
        return path.read_bytes()

    def age(self) -> None:
        """Makes all files older than those that are written from now on."""
        for folder, _, names in os.walk(self.folder):
            for name in names:
                os.utime(os.path.join(folder, name), (LONG_AGO, LONG_AGO), follow_symlinks=False)

    def start(self, *words: str | bytes, **how: object) -> subprocess.Popen:
        """A run that has begun; `how` goes to `subprocess.Popen`."""
        usual = {"stdin": subprocess.DEVNULL, "stdout": subprocess.PIPE, "cwd": self.folder}
        usual["stderr"] = subprocess.STDOUT
        return subprocess.Popen([self.program, *words], **{**usual, **how})

    def run(self, *words: str | bytes, **how: object) -> Ended:
        with self.start(*words, **how) as run:
            try:
                printed, _ = run.communicate(timeout=SECONDS)
            except subprocess.TimeoutExpired:
                run.kill()
                raise Failed(f"a run of {words} has not ended after {SECONDS} seconds") from None
        return Ended(run.returncode, (printed or b"").decode(errors="backslashreplace"))

    def build(self, *words: str, **how: object) -> Ended:
        return self.run("build", "app.proj", *words, **how)

    def builds(self, *words: str, **how: object) -> None:
        """A build that succeeds."""
        ended = self.build(*words, **how)
        if ended.status != 0:
            raise Failed(f"the status of a build: {ended.status}, with {ended.text[-200:]!r}")

    def fails(self, status: int, text: str, **how: object) -> None:
        """A build with this status, which prints just this text."""
        expect("the status and text of a build", self.build(**how), Ended(status, text))

    def leaves_no_new_file(self) -> None:
        left = [path.name for path in self.folder.rglob(NEW + "*")]
        expect("new files that are left", left, [])


def element(name: str, attributes: dict[str, str] | None = None, *children: dict) -> dict:
    parts = {"e": name, "a": attributes, "c": list(children)}
    return {key: value for key, value in parts.items() if value}


def project(*children: dict) -> bytes:
    return json.dumps(element("Project", None, *children)).encode()


def copies(pattern: str = "src/*.c") -> bytes:
    """A project that copies each source that has changed to `out`, in byte order of the sources."""
    target = {"Name": "Build", "Inputs": "@(S)", "Outputs": "@(S->'out/%(Filename).o')"}
    copy = {"SourceFiles": "@(S)", "DestinationFiles": "@(S->'out/%(Filename).o')"}
    return project(
        element("ItemGroup", None, element("S", {"Include": pattern})),
        element("Target", target, element("Copy", copy)),
    )


def make_sources(place: Place, contents: dict[str, bytes]) -> None:
    """The project that copies its sources, and these sources by their names without `.c`."""
    place.write("app.proj", copies())
    for name, content in contents.items():
        place.write(f"src/{name}.c", content)


def bound() -> dict[str, object]:
    """How a run is started so that permissions bind it."""
    if os.geteuid() != 0:
        return {}
    return {"user": NOBODY, "group": NOBODY, "extra_groups": []}


@contextlib.contextmanager
def needs(what: str) -> Iterator[None]:
    """What the system refuses in here can't be tried on this machine."""
    try:
        yield
    except OSError as error:
        raise Skipped(f"{what}: {error}") from None


def may_run_bound(place: Place) -> None:
    """Skips the test where the program can't be run so that permissions bind it."""
    with needs("no run as another user"):
        place.run("none", **bound())


@contextlib.contextmanager
def small_disk(folder: Path, kibibytes: int) -> Iterator[Callable[[int], None]]:
    """A file system of this size at a folder. It gives a function that sets another size."""
    folder.mkdir()

    def mount(options: str) -> None:
        command = ["mount", "-t", "tmpfs", "-o", options, "tmpfs", str(folder)]
        with needs("no file system can be mounted"):
            run = subprocess.run(command, stderr=subprocess.PIPE, text=True)
        if run.returncode != 0:
            raise Skipped(f"no file system can be mounted: {' '.join(run.stderr.split())}")

    mount(f"size={kibibytes}k")
    try:
        yield lambda more: mount(f"remount,size={more}k")
    finally:
        subprocess.run(["umount", str(folder)])
