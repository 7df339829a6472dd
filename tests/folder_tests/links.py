"""Links, pipes and devices: none is followed, listed or written through."""
import os
import socket
import stat
from collections.abc import Callable
from pathlib import Path

from .place import Ended, Failed, Place, element, expect, make_sources, needs, project

NEWS = b"new\n"
KEPT = b"kept\n"


def is_replaced(place: Place, name: str) -> None:
    """A regular file of its own is there, with the new content."""
    found = os.lstat(place.path(name))
    expect(f"{name} is a regular file", stat.S_ISREG(found.st_mode), True)
    expect(f"how many names {name} has", found.st_nlink, 1)
    expect(name, place.read(name), NEWS)
    place.leaves_no_new_file()


def inner(place: Place) -> Place:
    """A folder beside which there is one that is outside, with a source in it."""
    place.path("outside").mkdir()
    below = place.at(place.path("inside"))
    make_sources(below, {"a": NEWS})
    return below


def outputs(place: Place) -> Path:
    place.path("out").mkdir()
    return place.path("out/a.o")


def link_at_an_output(place: Place) -> None:
    below = inner(place)
    kept = place.write("outside/kept", KEPT)
    outputs(below).symlink_to(kept)
    below.builds("--clean")
    is_replaced(below, "out/a.o")
    expect("what the link named", kept.read_bytes(), KEPT)


def link_to_nothing_at_an_output(place: Place) -> None:
    below = inner(place)
    outputs(below).symlink_to(place.path("outside/none"))
    below.builds()
    is_replaced(below, "out/a.o")
    expect("what is outside", os.listdir(place.path("outside")), [])


def hard_link_at_an_output(place: Place) -> None:
    below = inner(place)
    kept = place.write("outside/kept", KEPT)
    os.link(kept, outputs(below))
    below.builds("--clean")
    is_replaced(below, "out/a.o")
    expect("the other name of the file", kept.read_bytes(), KEPT)


def pipe_at_an_output(place: Place) -> None:
    make_sources(place, {"a": NEWS})
    os.mkfifo(outputs(place))
    place.builds()
    is_replaced(place, "out/a.o")


def socket_at_an_output(place: Place) -> None:
    make_sources(place, {"a": NEWS})
    with socket.socket(socket.AF_UNIX) as other:
        other.bind(str(outputs(place)))
        place.builds()
    is_replaced(place, "out/a.o")


def device_at_an_output(place: Place) -> None:
    make_sources(place, {"a": NEWS})
    make_device(outputs(place))
    place.builds()
    is_replaced(place, "out/a.o")


def make_device(path: Path) -> None:
    """One that takes all that is written to it, as /dev/null."""
    with needs("no device can be made"):
        os.mknod(path, stat.S_IFCHR | 0o666, os.makedev(1, 3))


def folder_at_an_output(place: Place) -> None:
    make_sources(place, {"a": NEWS})
    place.write("out/a.o/kept", KEPT)
    place.fails(5, "store fault out/a.o\n")
    expect("out/a.o/kept", place.read("out/a.o/kept"), KEPT)
    place.leaves_no_new_file()


def is_refused(below: Place, outside: Path) -> None:
    """The build fails at its output, and nothing is outside."""
    below.fails(5, "store fault out/a.o\n")
    expect("what is outside", os.listdir(outside), [])
    expect("out is still a link", below.path("out").is_symlink(), True)


def folder_link_on_the_way(place: Place) -> None:
    below = inner(place)
    below.path("out").symlink_to(place.path("outside"))
    is_refused(below, place.path("outside"))


def folder_link_to_nothing_on_the_way(place: Place) -> None:
    below = inner(place)
    below.path("out").symlink_to(place.path("outside/none"))
    is_refused(below, place.path("outside"))


def folder_link_within_the_folder(place: Place) -> None:
    make_sources(place, {"a": NEWS})
    place.path("other").mkdir()
    place.path("out").symlink_to("other")
    is_refused(place, place.path("other"))


def folder_link_far_up_the_way(place: Place) -> None:
    """No folder is made outside either."""
    below = inner(place)
    copy = {"SourceFiles": "src/a.c", "DestinationFiles": "out/x/y/a.o"}
    below.write("app.proj", project(element("Target", {"Name": "Build"}, element("Copy", copy))))
    below.path("out").symlink_to(place.path("outside"))
    below.fails(5, "store fault out/x/y/a.o\n")
    expect("what is outside", os.listdir(place.path("outside")), [])


def file_on_the_way(place: Place) -> None:
    make_sources(place, {"a": NEWS})
    place.write("out", KEPT)
    place.fails(5, "store fault out/a.o\n")
    expect("out", place.read("out"), KEPT)
    place.leaves_no_new_file()


def file_that_is_a_folder_of_another(place: Place) -> None:
    """The files before it are written, and it is told."""
    lines = [line("out"), line("out/x"), line("z")]
    place.write("app.proj", project(element("Target", {"Name": "Build"}, *lines)))
    place.fails(5, "store fault out/x\n")
    expect("out", place.read("out"), b"out\n")
    expect("the names", sorted(os.listdir(place.folder)), ["app.proj", "out"])


def line(name: str) -> dict:
    return element("WriteLinesToFile", {"File": name, "Lines": name, "Overwrite": "true"})


def path_that_leaves_the_folder(place: Place) -> None:
    below = inner(place)
    below.write("app.proj", project(element("Target", {"Name": "Build"}, line("../outside/x"))))
    ended = below.build()
    expect("the status", ended.status, 1)
    if "error: writelinestofile: bad file" not in ended.text:
        raise Failed(f"the text of the build is {ended.text!r}")
    expect("what is outside", os.listdir(place.path("outside")), [])


def links_among_the_sources(place: Place) -> None:
    """Neither a link nor what it names is listed, and a circle of links is no fault."""
    below = inner(place)
    below.write("app.proj", listing())
    place.write("outside/kept", KEPT)
    below.path("src/b.c").symlink_to(place.path("outside/kept"))
    below.path("src/c.c").symlink_to("a.c")
    below.path("src/d.c").symlink_to("none")
    below.path("src/e.c").symlink_to("e.c")
    below.path("src/f").symlink_to(place.path("outside"))
    below.path("src/g").symlink_to(".")
    lists_only(below, ["app.proj", "src/a.c"])


def pipe_among_the_sources(place: Place) -> None:
    make_sources(place, {"a": NEWS})
    place.write("app.proj", listing())
    os.mkfifo(place.path("src/b.c"))
    with socket.socket(socket.AF_UNIX) as other:
        other.bind(str(place.path("src/c.c")))
        lists_only(place, ["app.proj", "src/a.c"])


def device_among_the_sources(place: Place) -> None:
    make_sources(place, {"a": NEWS})
    place.write("app.proj", listing())
    make_device(place.path("src/b.c"))
    lists_only(place, ["app.proj", "src/a.c"])


def listing() -> bytes:
    return project(element("ItemGroup", None, element("S", {"Include": "**/*"})))


def lists_only(place: Place, names: list[str]) -> None:
    ended = place.run("eval", "app.proj")
    expect("a listing", ended, Ended(0, "".join(f"item s {name}\n" for name in names)))


TESTS: list[Callable[[Place], None]] = [
    link_at_an_output,
    link_to_nothing_at_an_output,
    hard_link_at_an_output,
    pipe_at_an_output,
    socket_at_an_output,
    device_at_an_output,
    folder_at_an_output,
    folder_link_on_the_way,
    folder_link_to_nothing_on_the_way,
    folder_link_within_the_folder,
    folder_link_far_up_the_way,
    file_on_the_way,
    file_that_is_a_folder_of_another,
    path_that_leaves_the_folder,
    links_among_the_sources,
    pipe_among_the_sources,
    device_among_the_sources,
]
