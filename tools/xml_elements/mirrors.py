"""Mirrors a folder: projects in XML as elements under the same names, all other files as copies.

A list beside the mirror tells what it made, with the stamps of the sources and of what was made. By
it only what changed at the source is made again, and only what the mirror made is removed when its
source is gone. A file that was changed in the mirror, as by a build, is not overwritten and not
removed.
"""

from __future__ import annotations

import contextlib
import errno
import filecmp
import json
import os
import shutil
from collections.abc import Iterator
from dataclasses import asdict, dataclass

from .documents import HEAD, NotTaken, is_named, is_project, root_in
from .reading import read
from .sdks import Imports, Staged, used_by
from .trees import Stamp, Told, Tree, described, stamp
from .writing import write

FORM = 1  # of the list, and of what is made of a project: another number makes all projects again
MOST = (20_000, 268_435_456, 16_777_216)  # files, bytes and bytes of one file that msb reads
LIST = ".mirrored.json"  # behind the mirror's name
FULL = (errno.ENOSPC, errno.EDQUOT)
EDITED = "it was changed in the mirror, and is left so: remove it there to have that of the source"
GONE = "it is gone at the source, and was changed in the mirror: it stays there"
FOREIGN = "it is no file of the mirror, and is left so: remove it there to have that of the source"


class BadList(Exception):
    """The list of a mirror can't be read."""


@dataclass
class Made:
    """A file that the mirror made: the stamps of its source and its own, and its fault or none."""

    source: Stamp
    file: Stamp
    is_project: bool
    fault: str = ""


@contextlib.contextmanager
def replaced(path: str) -> Iterator[str]:
    """A path for new content, which takes the place of the old one in one step if nothing fails."""
    temporary = os.path.join(os.path.dirname(path), f".{os.getpid()}.new")
    try:
        yield temporary
        os.replace(temporary, path)
    except BaseException:
        with contextlib.suppress(OSError):
            os.remove(temporary)
        raise


class Mirror:
    """A mirror of the folder of `tree` in `target`, for which the Sdks of `staged` are staged."""

    def __init__(self, tree: Tree, target: str, staged: Staged):
        self.tree, self.target, self.staged = tree, target, staged
        self.faults: Told = list(tree.told)
        self.notes: Told = []
        self.written = self.removed = 0
        self.made: dict[str, Made] = {}
        self.list: object = None  # as it was read
        self.is_same_form = False

    def run(self) -> None:
        os.makedirs(self.target, exist_ok=True)
        self.load()
        try:
            gone = [path for path in self.made if path not in self.tree.files]
            for path in gone:
                if not self.tree.is_unread(path):
                    self.remove(path)
            for path in self.tree.files:
                self.take(path)
        finally:
            self.save()

    def load(self) -> None:
        """Reads the list of what was made before; without one nothing was."""
        try:
            with open(self.target + LIST, encoding="utf-8") as file:
                self.list = told = json.load(file)
            self.made = {path: Made(**entry) for path, entry in told["files"].items()}
            self.is_same_form = told["form"] == FORM and told["sdks"] == self.sdks()
            source = told["source"]
        except FileNotFoundError:
            return
        except (ValueError, KeyError, TypeError, AttributeError):
            raise BadList(
                "this is no list of a mirror: remove it to make the mirror anew"
            ) from None
        if source != self.source():
            raise BadList(f"this is a mirror of {source}: name another folder, or remove this list")

    def save(self) -> None:
        files = {path: asdict(self.made[path]) for path in sorted(self.made)}
        told = {"form": FORM, "source": self.source(), "sdks": self.sdks(), "files": files}
        if told != self.list:
            with replaced(self.target + LIST) as new, open(new, "w", encoding="utf-8") as file:
                json.dump(told, file, indent=0)

    def source(self) -> str:
        return os.path.relpath(os.path.realpath(self.tree.top), os.path.realpath(self.target))

    def sdks(self) -> Staged:
        return {
            name: os.path.relpath(folder, self.target)
            for name, folder in sorted(self.staged.items())
        }

    def remove(self, path: str) -> None:
        """Removes a file whose source is gone, if it is as it was made, and folders left empty."""
        file = os.path.join(self.target, path)
        try:
            if not os.path.lexists(file):
                pass
            elif self.is_inside(path) and self.is_as_made(path):
                os.remove(file)
                self.removed += 1
            else:
                self.notes.append((path, GONE))
        except OSError as error:
            self.faults.append((path, described(error)))
            return
        del self.made[path]
        folder = os.path.dirname(path)
        with contextlib.suppress(OSError):
            while folder and not os.path.isdir(os.path.join(self.tree.top, folder)):
                os.rmdir(os.path.join(self.target, folder))
                folder = os.path.dirname(folder)

    def is_inside(self, path: str) -> bool:
        """Whether the folder of a file of the mirror is in it, and no link out of it."""
        folder = os.path.dirname(os.path.join(self.target, path))
        real, top = os.path.realpath(folder), os.path.realpath(self.target)
        return real == top or real.startswith(os.path.join(top, ""))

    def is_as_made(self, path: str) -> bool:
        file, made = os.path.join(self.target, path), self.made.get(path)
        return made is not None and not os.path.islink(file) and stamp(file) == made.file

    def take(self, path: str) -> None:
        """Makes a file of the mirror, if its source is new or has changed, and tells its fault."""
        try:
            fault = self.make(path)
        except OSError as error:
            if error.errno in FULL:
                raise
            fault = described(error)
        if fault:
            self.faults.append((path, fault))

    def make(self, path: str) -> str:
        file, made = os.path.join(self.target, path), self.made.get(path)
        is_there = os.path.lexists(file)
        is_same = (
            made
            and made.source == self.tree.files[path]
            and (self.is_same_form or not made.is_project)
        )
        if is_same and is_there:
            return made.fault
        if not self.is_inside(path):
            return "its folder in the mirror is a link out of it: left out"
        content, fault, is_xml = self.content(path)
        if not is_there or self.is_as_made(path):
            self.write(path, content)
        elif not self.is_equal(path, content):
            return EDITED if made else FOREIGN
        self.made[path] = Made(self.tree.files[path], stamp(file), is_xml, fault)
        return fault

    def content(self, path: str) -> tuple[bytes | None, str, bool]:
        """The elements of a project, its fault, and whether the file is a project in XML."""
        with open(os.path.join(self.tree.top, path), "rb") as file:
            head = file.read(HEAD)
            if not is_project(path, head):
                self.note_other(path, head)
                return None, "", False
            document = head + file.read()
        try:
            root = read(document)
        except NotTaken as error:
            return None, f"{error}; it is copied as it is", True
        folder = os.path.dirname(os.path.join(self.target, path))
        Imports(self.staged, folder).put_in(root)
        for name in used_by(root):
            if name.lower() not in self.staged:
                self.notes.append((path, f"the Sdk {name} is not staged, and msb takes none"))
        return write(root), "", True

    def note_other(self, path: str, head: bytes) -> None:
        """Says of a file that only its name is that of a project."""
        root = root_in(head)[0]
        if is_named(path) and root:
            self.notes.append(
                (path, f"it begins with <{root}> and not with <Project>: it is copied as it is")
            )

    def write(self, path: str, content: bytes | None) -> None:
        source, file = os.path.join(self.tree.top, path), os.path.join(self.target, path)
        os.makedirs(os.path.dirname(file), exist_ok=True)
        with replaced(file) as temporary:
            if content is None:
                shutil.copyfile(source, temporary)
            else:
                with open(temporary, "wb") as made:
                    made.write(content)
            shutil.copystat(source, temporary)
        self.written += 1

    def is_equal(self, path: str, content: bytes | None) -> bool:
        """Whether a file of the mirror has just what would be made."""
        source, file = os.path.join(self.tree.top, path), os.path.join(self.target, path)
        if os.path.islink(file) or not os.path.isfile(file):
            return False
        if content is None:
            return filecmp.cmp(source, file, shallow=False)
        with open(file, "rb") as there:
            return there.read() == content
