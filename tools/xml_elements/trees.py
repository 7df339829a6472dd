"""The files below a folder."""

from __future__ import annotations

import fnmatch
import os
import stat

Stamp = list[int]  # the size of a file and its time of change, in nanoseconds
Told = list[tuple[str, str]]  # paths, and what is said of each


def stamp(path: str) -> Stamp:
    told = os.stat(path)
    return [told.st_size, told.st_mtime_ns]


def described(error: OSError) -> str:
    return error.strerror or str(error)


def name_fault(name: str) -> str:
    """Why msb lists no folder with a file of this name, or nothing."""
    try:
        name.encode()
    except UnicodeEncodeError:
        return "the name is not UTF-8: left out"
    is_bad = "\\" in name or any(ord(one) < 32 for one in name)
    return "msb takes no \\ and no control character in a name: left out" if is_bad else ""


class Tree:
    """The files below a folder, by their paths from there.

    Links are followed, but for those to a folder above. Left out are files and folders of which the
    name, or the path, matches an entry of `without`, and the paths `hidden`.
    """

    def __init__(self, top: str, without: list[str], hidden: list[str]):
        self.top, self.without = top, without
        inside = os.path.join(os.path.realpath(top), "")
        self.hidden = {real for real in map(os.path.realpath, hidden) if real.startswith(inside)}
        self.files: dict[str, Stamp] = {}
        self.left_out: set[str] = set()  # the entries of `without` that left something out
        self.told: Told = []
        self.unread: list[str] = []
        self.list("", [])

    def list(self, folder: str, above: list[str]) -> None:
        """Takes in a folder. `above` are the real paths of those that it stands in."""
        real = os.path.realpath(os.path.join(self.top, folder))
        if real in above:
            self.told.append((folder, "a link to a folder above it: left out"))
            return
        try:
            names = sorted(os.listdir(real))
        except OSError as error:
            self.tell_unread(folder or ".", error)
            return
        for name in names:
            path = os.path.join(folder, name)
            rules = [
                rule
                for rule in self.without
                if fnmatch.fnmatchcase(name, rule) or fnmatch.fnmatchcase(path, rule)
            ]
            self.left_out.update(rules)
            if not rules and os.path.join(real, name) not in self.hidden:
                self.take(path, name, [*above, real])

    def take(self, path: str, name: str, above: list[str]) -> None:
        fault = name_fault(name)
        if fault:
            self.told.append((path, fault))
            return
        try:
            told = os.stat(os.path.join(self.top, path))
        except OSError as error:
            self.tell_unread(path, error)
            return
        if stat.S_ISDIR(told.st_mode):
            self.list(path, above)
        elif stat.S_ISREG(told.st_mode):
            self.files[path] = [told.st_size, told.st_mtime_ns]
        else:
            self.told.append((path, "no regular file: left out"))

    def tell_unread(self, path: str, error: OSError) -> None:
        self.told.append((path, described(error)))
        self.unread.append(path)

    def is_unread(self, path: str) -> bool:
        """Whether a path, or a folder that it is in, could not be read."""
        return any(one in (".", path) or path.startswith(one + os.sep) for one in self.unread)
