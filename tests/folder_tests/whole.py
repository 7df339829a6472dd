"""Each output is whole, old or new: on a full disk, after a kill, and with another build beside."""
import os
import random
import resource
import signal
import time
from collections.abc import Callable

from .place import (
    NEW,
    SECONDS,
    Ended,
    Failed,
    Place,
    Skipped,
    bound,
    element,
    expect,
    make_sources,
    may_run_bound,
    project,
    small_disk,
)

OLD = b"old\n"
SMALL = b"small\n"
LARGE = b"x" * 110_000

# No file of a run may grow beyond this where a test limits it; LARGE is beyond it.
LIMIT = 65_536


def old_outputs(place: Place) -> None:
    """Two sources whose outputs are old, of which the second one has become large."""
    make_sources(place, {"a": OLD, "b": OLD})
    place.builds()
    place.age()
    make_sources(place, {"a": SMALL, "b": LARGE})


def expect_half(place: Place) -> None:
    """The first output is the new one, and the second one the old one."""
    expect("out/a.o", place.read("out/a.o"), SMALL)
    expect("out/b.o", place.read("out/b.o"), OLD)


def expect_whole(place: Place) -> None:
    expect("out/a.o", place.read("out/a.o"), SMALL)
    expect("out/b.o", place.read("out/b.o"), LARGE)


def full_disk(place: Place) -> None:
    with small_disk(place.path("disk"), 192) as resize:
        disk = place.at(place.path("disk"))
        old_outputs(disk)
        disk.fails(5, "store fault out/b.o\n")
        expect_half(disk)
        disk.leaves_no_new_file()
        resize(1024)
        disk.builds()
        expect_whole(disk)


def full_disk_without_an_old_file(place: Place) -> None:
    with small_disk(place.path("disk"), 256) as resize:
        disk = place.at(place.path("disk"))
        make_sources(disk, {"a": SMALL, "b": LARGE, "c": LARGE})
        disk.fails(5, "store fault out/b.o\n")
        expect("the outputs", os.listdir(disk.path("out")), ["a.o"])
        resize(1024)
        disk.builds()
        expect_whole(disk)


def limited(ignored: bool) -> dict[str, object]:
    """How a run is started whose files may not grow beyond LIMIT.

    A write beyond it fails where the signal is ignored, and ends the run elsewhere.
    """

    def prepare() -> None:
        resource.setrlimit(resource.RLIMIT_FSIZE, (LIMIT, LIMIT))
        resource.setrlimit(resource.RLIMIT_CORE, (0, 0))
        signal.signal(signal.SIGXFSZ, signal.SIG_IGN if ignored else signal.SIG_DFL)

    return {"preexec_fn": prepare, "restore_signals": False}


def file_too_large_for_the_system(place: Place) -> None:
    old_outputs(place)
    place.fails(5, "store fault out/b.o\n", **limited(ignored=True))
    expect_half(place)
    place.leaves_no_new_file()
    place.builds()
    expect_whole(place)


def killed_within_a_write(place: Place) -> None:
    """The system ends the run when a new file has some of its bytes."""
    old_outputs(place)
    expect("the end", place.build(**limited(ignored=False)), Ended(-signal.SIGXFSZ, ""))
    expect_half(place)
    left = [path.name for path in place.path("out").glob(NEW + "*")]
    expect("how many new files are left", len(left), 1)
    place.builds()
    expect_whole(place)
    expect("the names", sorted(os.listdir(place.path("out"))), sorted(["a.o", "b.o", *left]))


FILES = 40
KILLS = 30


def version(number: int) -> bytes:
    """The content of all sources at a time: 128 KiB, no part of which an earlier one has."""
    return f"{number:08}".encode() * (16 * 1024)


def make_version(place: Place, number: int) -> None:
    make_sources(place, {f"{name:02}": version(number) for name in range(FILES)})


def numbers(place: Place) -> list[int]:
    """Of each output the number of its version, if it has this whole."""
    found = []
    for name in range(FILES):
        content = place.read(f"out/{name:02}.o")
        number = int(content[:8] or b"-1")
        expect(f"out/{name:02}.o is whole", content == version(number), True)
        found.append(number)
    return found


def kill_within_the_commit(place: Place, draw: random.Random) -> None:
    """Begins a build, waits until its first output is new, and ends the run some time later."""
    first = place.path("out/00.o")
    before = first.stat().st_mtime_ns
    run = place.start("build", "app.proj")
    end = time.monotonic() + SECONDS
    while run.poll() is None and first.stat().st_mtime_ns == before:
        if time.monotonic() > end:
            run.kill()
            raise Failed(f"no output has changed after {SECONDS} seconds")
    time.sleep(draw.random() ** 2 * 0.01)
    run.send_signal(draw.choice([signal.SIGKILL, signal.SIGINT, signal.SIGTERM]))
    run.communicate()


def killed_at_any_time(place: Place) -> None:
    draw, halves = random.Random(32), 0
    make_version(place, 0)
    place.builds()
    for number in range(1, KILLS + 1):
        place.age()
        make_version(place, number)
        kill_within_the_commit(place, draw)
        if len(set(numbers(place))) > 1:
            halves += 1
        place.builds()
        expect("the versions after the next build", set(numbers(place)), {number})
    if halves == 0:
        raise Skipped(f"none of {KILLS} kills has come within a commit")


def new_files_are_no_sources(place: Place) -> None:
    """What a killed run has left is in no listing, however large, and no build changes it."""
    place.write("app.proj", project_of_all())
    place.write("src/a.c", SMALL)
    left = {f"src/{NEW}0": OLD, f"{NEW}1/b.c": OLD, f"out/{NEW}0": b"x" * (17 << 20)}
    for name, content in left.items():
        place.write(name, content)
    items = "item s app.proj\nitem s src/a.c\n"
    expect("the listed files", place.run("eval", "app.proj").text, items)
    place.builds()
    expect("out/a.c", place.read("out/a.c"), SMALL)
    for name, content in left.items():
        expect(name, place.read(name) == content, True)


def project_of_all() -> bytes:
    """A project that lists all files and copies one source."""
    copy = {"SourceFiles": "src/a.c", "DestinationFolder": "out"}
    return project(
        element("ItemGroup", None, element("S", {"Include": "**/*"})),
        element("Target", {"Name": "Build"}, element("Copy", copy)),
    )


def two_builds_at_once(place: Place) -> None:
    for number in range(5):
        make_version(place, number)
        runs = [place.start("build", "app.proj", "--clean") for _ in range(2)]
        for run in runs:
            printed, _ = run.communicate(timeout=SECONDS)
            ended = Ended(run.returncode, printed.decode()[-60:])
            expect("one of two builds", ended, Ended(0, ended.text))
        expect("the versions", set(numbers(place)), {number})
        place.leaves_no_new_file()


def permissions_are_kept(place: Place) -> None:
    make_sources(place, {"a": OLD, "b": OLD, "c": OLD})
    place.builds(umask=0o027)
    expect("the mode of a new output", mode(place, "out/a.o"), 0o640)
    place.path("out/a.o").chmod(0o600)
    place.path("out/b.o").chmod(0o755)
    place.age()
    make_sources(place, {"a": SMALL, "b": SMALL})
    place.builds(umask=0o022)
    modes = [mode(place, f"out/{name}.o") for name in "abc"]
    expect("the modes", modes, [0o600, 0o755, 0o640])
    expect("out/b.o", place.read("out/b.o"), SMALL)


def mode(place: Place, name: str) -> int:
    return place.path(name).stat().st_mode & 0o7777


def file_that_may_not_be_written(place: Place) -> None:
    """A file that its user may not write stays, also where the folder would let it be replaced."""
    may_run_bound(place)
    make_sources(place, {"a": OLD})
    place.write("out/a.o", SMALL).chmod(0o444)
    place.path("out").chmod(0o777)
    place.age()
    make_sources(place, {"a": OLD})
    place.fails(5, "store fault out/a.o\n", **bound())
    expect("out/a.o", place.read("out/a.o"), SMALL)
    place.leaves_no_new_file()


TESTS: list[Callable[[Place], None]] = [
    full_disk,
    full_disk_without_an_old_file,
    file_too_large_for_the_system,
    killed_within_a_write,
    killed_at_any_time,
    new_files_are_no_sources,
    two_builds_at_once,
    permissions_are_kept,
    file_that_may_not_be_written,
]
