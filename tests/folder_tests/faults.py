"""Faults of the folder, of standard output and of the words: status, text, and what is left."""
import os
import resource
import threading
from collections.abc import Callable
from pathlib import Path

from .place import (
    Ended,
    Place,
    Skipped,
    bound,
    element,
    expect,
    make_sources,
    may_run_bound,
    needs,
    project,
)

SOURCE = b"source\n"
KEPT = b"kept\n"
WHOLE = b"x" * 100


def name_that_is_no_text(place: Place) -> None:
    make_sources(place, {"a": SOURCE})
    with needs("no such name can be made"):
        Path(os.fsdecode(os.fsencode(place.path("src")) + b"/\xff.c")).write_bytes(SOURCE)
    place.fails(5, "store fault\n")
    expect("a check", place.run("check", "app.proj"), Ended(5, "store fault\n"))
    expect("an output is there", place.path("out").exists(), False)


def folder_that_may_not_be_listed(place: Place) -> None:
    may_run_bound(place)
    make_sources(place, {"a": SOURCE})
    place.path("secret").mkdir(mode=0o000)
    place.folder.chmod(0o777)
    place.fails(5, "store fault\n", **bound())
    expect("an output is there", place.path("out").exists(), False)


def file_that_may_not_be_read(place: Place) -> None:
    may_run_bound(place)
    make_sources(place, {"a": SOURCE, "b": SOURCE, "c": SOURCE})
    place.path("src/b.c").chmod(0o000)
    place.folder.chmod(0o777)
    place.fails(5, "store fault src/b.c\n", **bound())
    checked = place.run("check", "app.proj", **bound())
    expect("a check", checked, Ended(5, "store fault src/b.c\n"))
    expect("an output is there", place.path("out").exists(), False)


def folder_that_is_read_only(place: Place) -> None:
    """No folder of an output can be made."""
    may_run_bound(place)
    make_sources(place, {"a": SOURCE})
    place.folder.chmod(0o555)
    place.fails(5, "store fault out/a.o\n", **bound())
    expect("the names", sorted(os.listdir(place.folder)), ["app.proj", "src"])


def outputs_that_are_read_only(place: Place) -> None:
    """No file can be made beside an output."""
    may_run_bound(place)
    make_sources(place, {"a": SOURCE})
    place.write("out/a.o", KEPT).chmod(0o666)
    place.path("out").chmod(0o555)
    place.age()
    make_sources(place, {"a": SOURCE})
    place.fails(5, "store fault out/a.o\n", **bound())
    expect("out/a.o", place.read("out/a.o"), KEPT)
    expect("the names", os.listdir(place.path("out")), ["a.o"])


def write_that_fails_stops_the_commit(place: Place) -> None:
    """What stands before it is written, and what stands behind it is made by the next build."""
    make_sources(place, {"a": SOURCE, "b": SOURCE, "c": SOURCE})
    place.path("out/b.o").mkdir(parents=True)
    place.fails(5, "store fault out/b.o\n")
    expect("the outputs", sorted(os.listdir(place.path("out"))), ["a.o", "b.o"])
    expect("out/a.o", place.read("out/a.o"), SOURCE)
    place.path("out/b.o").rmdir()
    place.builds()
    for name in "abc":
        expect(f"out/{name}.o", place.read(f"out/{name}.o"), SOURCE)


def full_standard_output(place: Place) -> None:
    """The files are written all the same."""
    make_sources(place, {"a": SOURCE})
    with needs("no full device"):
        device = open("/dev/full", "wb")
    with device as full:
        expect("the status of a build", place.build(stdout=full).status, 6)
        expect("the status of a check", place.run("check", "app.proj", stdout=full).status, 6)
        expect("the status of eval", place.run("eval", "app.proj", stdout=full).status, 6)
        expect("the status of targets", place.run("targets", "app.proj", stdout=full).status, 6)
        trial = place.run("trial", "1", "--size", "2", stdout=full)
        expect("the status of a trial", trial.status, 6)
    expect("out/a.o", place.read("out/a.o"), SOURCE)


def closed_standard_output(place: Place) -> None:
    """No file that the run opens meanwhile takes the report."""
    make_sources(place, {"a": SOURCE})
    closed = {"stdout": None, "preexec_fn": lambda: os.close(1)}
    expect("the status of a build", place.build(**closed).status, 6)
    expect("out/a.o", place.read("out/a.o"), SOURCE)
    expect("src/a.c", place.read("src/a.c"), SOURCE)


def words_that_are_no_text(place: Place) -> None:
    make_sources(place, {"a": SOURCE})
    expect("a run", place.run("build", b"app\xff.proj"), Ended(11, ""))
    expect("a run", place.run("build", "app.proj", "--target", b"\xff"), Ended(11, ""))
    expect("an output is there", place.path("out").exists(), False)


# More files than a build takes, whose bytes are more than the memory of the run.
TOO_MANY = 20_001
LITTLE = 32 * 1024 * 1024


def folder_that_is_too_large_for_the_memory(place: Place) -> None:
    """One node tells it as too large: that needs the listing alone."""
    make_sources(place, {"a": SOURCE})
    for number in range(TOO_MANY):
        place.write(f"more/{number % 100}/{number}", b"x" * 4096)
    limits = (LITTLE, LITTLE)
    little = {"preexec_fn": lambda: resource.setrlimit(resource.RLIMIT_DATA, limits)}
    place.fails(8, f"too large: {TOO_MANY + 2} files\n", **little)


CHURNED = 100
RUNS = 25


def churn(place: Place, over: threading.Event) -> None:
    """Makes files and folders and removes them again. A file is whole from the first moment on."""
    beside = place.folder.parent / "beside"
    while not over.is_set():
        for number in range(CHURNED):
            place.path(f"tmp/{number}").mkdir()
            for name in (f"tmp/{number}.t", f"tmp/{number}/in.t"):
                beside.write_bytes(WHOLE)
                beside.rename(place.path(name))
        for number in range(CHURNED):
            place.path(f"tmp/{number}.t").unlink()
            place.path(f"tmp/{number}/in.t").unlink()
            place.path(f"tmp/{number}").rmdir()


def copies_whole_files(place: Place) -> int:
    """One build beside which files come and go: each is copied whole, or not at all."""
    ended = place.build("--clean")
    expect("the status and text", (ended.status, ended.text if ended.status else ""), (0, ""))
    copied = [path for path in place.path("out").rglob("*") if path.is_file()]
    for path in copied:
        expect(f"a copy of {path.name} is whole", path.read_bytes() == WHOLE, True)
        path.unlink()
    return len(copied)


def names_that_vanish(place: Place) -> None:
    copied_to = "@(S->'out/%(RecursiveDir)%(Filename)%(Extension)')"
    copy = element("Copy", {"SourceFiles": "@(S)", "DestinationFiles": copied_to})
    items = element("ItemGroup", None, element("S", {"Include": "tmp/**/*.t"}))
    inside = place.at(place.path("inside"))
    inside.write("app.proj", project(items, element("Target", {"Name": "Build"}, copy)))
    inside.path("tmp").mkdir()
    over = threading.Event()
    other = threading.Thread(target=churn, args=(inside, over))
    other.start()
    try:
        copied = sum(copies_whole_files(inside) for _ in range(RUNS))
    finally:
        over.set()
        other.join()
    if copied == 0:
        raise Skipped("no file was there at the time of a listing")


TESTS: list[Callable[[Place], None]] = [
    name_that_is_no_text,
    folder_that_may_not_be_listed,
    file_that_may_not_be_read,
    folder_that_is_read_only,
    outputs_that_are_read_only,
    write_that_fails_stops_the_commit,
    full_standard_output,
    closed_standard_output,
    words_that_are_no_text,
    folder_that_is_too_large_for_the_memory,
    names_that_vanish,
]
