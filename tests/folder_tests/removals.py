"""Files that are removed: nothing outside is touched, folders stay, and each fault is told."""
import os
from collections.abc import Callable

from .place import Place, bound, element, expect, may_run_bound, project

KEPT = b"kept\n"


def deletes(*names: str) -> bytes:
    """A project that removes these files."""
    return targets(element("Delete", {"Files": ";".join(names)}))


def writes_and_deletes(name: str) -> bytes:
    """A project that writes and removes a file, so that the commit removes it, be it there or not."""
    line = element("WriteLinesToFile", {"File": name, "Lines": name, "Overwrite": "true"})
    return targets(line, element("Delete", {"Files": name}))


def targets(*tasks: dict) -> bytes:
    return project(element("Target", {"Name": "Build"}, *tasks))


def inside(place: Place, content: bytes) -> Place:
    """A folder with this project, beside which there is one that is outside, with a file in it."""
    place.write("outside/kept", KEPT)
    below = place.at(place.path("inside"))
    below.write("app.proj", content)
    return below


def nothing_outside_is_touched(place: Place) -> None:
    expect("what is outside", os.listdir(place.path("outside")), ["kept"])
    expect("the file outside", place.read("outside/kept"), KEPT)


def file_is_removed(place: Place) -> None:
    """Only that file: its folder stays, be it empty or not."""
    place.write("app.proj", deletes("out/a.o", "out/b/b.o"))
    for name in ("out/a.o", "out/kept", "out/b/b.o"):
        place.write(name, KEPT)
    place.builds()
    expect("out", sorted(os.listdir(place.path("out"))), ["b", "kept"])
    expect("out/b", os.listdir(place.path("out/b")), [])
    expect("out/kept", place.read("out/kept"), KEPT)


def file_that_is_not_there(place: Place) -> None:
    """Nor is its folder, and none is made."""
    place.write("app.proj", writes_and_deletes("out/a.o"))
    place.builds()
    expect("the names", os.listdir(place.folder), ["app.proj"])
    place.path("out").mkdir()
    place.builds()
    expect("out", os.listdir(place.path("out")), [])


def hard_link_is_removed(place: Place) -> None:
    below = inside(place, deletes("a"))
    os.link(place.path("outside/kept"), below.path("a"))
    below.builds()
    expect("the names", os.listdir(below.folder), ["app.proj"])
    nothing_outside_is_touched(place)


def link_is_removed(place: Place) -> None:
    """What it names stays."""
    below = inside(place, writes_and_deletes("a"))
    below.path("a").symlink_to(place.path("outside/kept"))
    below.builds()
    expect("the names", os.listdir(below.folder), ["app.proj"])
    nothing_outside_is_touched(place)


def pipe_is_removed(place: Place) -> None:
    place.write("app.proj", writes_and_deletes("a"))
    os.mkfifo(place.path("a"))
    place.builds()
    expect("the names", os.listdir(place.folder), ["app.proj"])


def folder_is_kept(place: Place) -> None:
    """Be it empty or not."""
    place.write("app.proj", writes_and_deletes("out"))
    place.path("out").mkdir()
    place.fails(5, "store fault out\n")
    place.write("out/kept", KEPT)
    place.fails(5, "store fault out\n")
    expect("out/kept", place.read("out/kept"), KEPT)


def removal_through_a_link(place: Place) -> None:
    below = inside(place, writes_and_deletes("out/kept"))
    below.path("out").symlink_to(place.path("outside"))
    below.fails(5, "store fault out/kept\n")
    expect("out is still a link", below.path("out").is_symlink(), True)
    nothing_outside_is_touched(place)


def removal_through_a_link_far_up_the_way(place: Place) -> None:
    below = inside(place, writes_and_deletes("out/x/kept"))
    place.write("outside/x/kept", KEPT)
    below.path("out").symlink_to(place.path("outside"))
    below.fails(5, "store fault out/x/kept\n")
    expect("outside/x/kept", place.read("outside/x/kept"), KEPT)


def removal_through_a_link_within_the_folder(place: Place) -> None:
    place.write("app.proj", writes_and_deletes("out/kept"))
    place.write("other/kept", KEPT)
    place.path("out").symlink_to("other")
    place.fails(5, "store fault out/kept\n")
    expect("other/kept", place.read("other/kept"), KEPT)


def removal_below_a_file(place: Place) -> None:
    """No file can be there."""
    place.write("app.proj", writes_and_deletes("out/a.o"))
    place.write("out", KEPT)
    place.builds()
    expect("out", place.read("out"), KEPT)


def removal_outside_the_folder(place: Place) -> None:
    below = inside(place, deletes("../outside/kept"))
    below.build()
    nothing_outside_is_touched(place)


def files_in_a_read_only_folder(place: Place) -> None:
    """What stands before is removed, and what stands behind is removed by the next build."""
    may_run_bound(place)
    place.write("app.proj", deletes("a/x", "b/x", "c/x"))
    for name in "abc":
        place.write(f"{name}/x", KEPT)
        place.path(name).chmod(0o555 if name == "b" else 0o777)
    place.fails(5, "store fault b/x\n", **bound())
    there = [name for name in "abc" if place.path(f"{name}/x").exists()]
    expect("the files that are left", there, ["b", "c"])
    expect("b/x", place.read("b/x"), KEPT)
    place.path("b").chmod(0o777)
    place.builds(**bound())
    left = [name for name in "abc" if os.listdir(place.path(name))]
    expect("the folders that have files", left, [])


def file_that_is_read_only(place: Place) -> None:
    """It is removed, as its folder allows it."""
    may_run_bound(place)
    place.write("app.proj", deletes("out/x"))
    place.write("out/x", KEPT).chmod(0o444)
    place.path("out").chmod(0o777)
    place.builds(**bound())
    expect("out", os.listdir(place.path("out")), [])


def file_that_is_made_anew(place: Place) -> None:
    """It is removed and written again in one build."""
    place.write("out/x", KEPT)
    line = element("WriteLinesToFile", {"File": "out/x", "Lines": "new", "Overwrite": "true"})
    place.write("app.proj", targets(element("Delete", {"Files": "out/x"}), line))
    place.builds()
    expect("out/x", place.read("out/x"), b"new\n")
    expect("out", os.listdir(place.path("out")), ["x"])


TESTS: list[Callable[[Place], None]] = [
    file_is_removed,
    file_that_is_not_there,
    hard_link_is_removed,
    link_is_removed,
    pipe_is_removed,
    folder_is_kept,
    removal_through_a_link,
    removal_through_a_link_far_up_the_way,
    removal_through_a_link_within_the_folder,
    removal_below_a_file,
    removal_outside_the_folder,
    files_in_a_read_only_folder,
    file_that_is_read_only,
    file_that_is_made_anew,
]
