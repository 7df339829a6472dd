"""Why a folder or a file could not be read or written, where that can be seen again."""

import os
import stat

# Less room than this counts as none, and with less than the largest file that a build writes there
# may have been too little: what was begun of a file is removed where its write fails.
LEAST_ROOM, LARGEST_FILE = 1 << 16, 1 << 24


def why_unlisted(folder: str) -> str:
    """Why the folder or one below it can't be listed, or nothing."""
    left = [os.fsencode(folder)]
    while left:
        here = left.pop()
        try:
            for entry in os.scandir(here):
                path = entry.path.removeprefix(b"./")
                if told := wrong_name(entry.name, path):
                    return told
                if entry.is_dir(follow_symlinks=False):
                    left.append(entry.path)
        except OSError as error:
            return f"{shown(here.removeprefix(b'./'))}: {error.strerror}"
    return ""


def shown(path: bytes) -> str:
    return path.decode("utf-8", "backslashreplace")


def wrong_name(name: bytes, path: bytes) -> str:
    try:
        name.decode("utf-8")
    except UnicodeDecodeError:
        return f"{shown(path)}: the name is no UTF-8; rename or remove it"
    return ""


def parent_fault(path: str) -> str:
    """The first folder on the way to a file that is none, or is a link."""
    here = ""
    for part in path.split("/")[:-1]:
        here = f"{here}/{part}" if here else part
        try:
            found = os.lstat(here)
        except OSError as error:
            return "" if isinstance(error, FileNotFoundError) else f"{here}: {error.strerror}"
        if stat.S_ISLNK(found.st_mode):
            return f"{here}: it is a link, and nothing is written through one"
        if not stat.S_ISDIR(found.st_mode):
            return f"{here}: it is a file, and a folder is wanted"
    return ""


def nearest(path: str) -> str:
    """The nearest folder above a path that is there."""
    folder = os.path.dirname(path)
    while folder and not os.path.isdir(folder):
        folder = os.path.dirname(folder)
    return folder or "."


def room_fault(path: str) -> str:
    """What the file system of a path says: that it is only read, or has no room."""
    found = os.statvfs(nearest(path))
    if found.f_flag & os.ST_RDONLY:
        return f"{path}: the file system is read-only"
    if found.f_bavail * found.f_frsize < LEAST_ROOM:
        return f"{path}: no room is left on the file system"
    if found.f_files and not found.f_favail:
        return f"{path}: the file system has no room for another file"
    return ""


def little_room(path: str) -> str:
    """How much room the file system of a path has, if it may be too little, or nothing."""
    found = os.statvfs(nearest(path))
    room = found.f_bavail * found.f_frsize
    if room < LARGEST_FILE:
        return f"{path}: {room >> 10:,} KiB are left on the file system, which may be too little"
    return ""


def why_unread(path: str) -> str:
    """Why the file can't be read, or nothing."""
    try:
        with open(path, "rb") as file:
            file.read(1)
    except OSError as error:
        return f"{path}: {error.strerror}"
    return ""


def why_unwritten(path: str) -> str:
    """Why the file can't be written, or nothing."""
    if told := parent_fault(path):
        return told
    if os.path.isdir(path):
        return f"{path}: it is a folder, and a file is to be written there"
    if told := room_fault(path):
        return told
    folder = nearest(path)
    if not os.access(folder, os.W_OK | os.X_OK):
        return f"{folder}: no permission to write in this folder"
    if os.path.lexists(path) and not os.access(path, os.W_OK):
        return f"{path}: no permission to write"
    return little_room(path)


def cause(path: str) -> str:
    """The cause of a fault at a path, or of the listing where there is none."""
    if not path:
        return why_unlisted(".")
    return (why_unread(path) if os.path.isfile(path) else "") or why_unwritten(path)


def most_of_folder(of_bytes: bool) -> list[tuple[str, int]]:
    """The folders right below the current one that hold most files, or most bytes."""
    sums: dict[str, int] = {}
    for entry in os.scandir("."):
        if entry.is_dir(follow_symlinks=False):
            sums[entry.name + "/"] = weight(entry.path, of_bytes)
        elif entry.is_file(follow_symlinks=False):
            sums[entry.name] = entry.stat(follow_symlinks=False).st_size if of_bytes else 1
    return sorted(sums.items(), key=lambda one: -one[1])[:3]


def weight(folder: str, of_bytes: bool) -> int:
    """How many files, or bytes, a folder holds."""
    whole = 0
    for here, _, names in os.walk(folder):
        for name in names:
            if of_bytes:
                try:
                    whole += os.lstat(os.path.join(here, name)).st_size
                except OSError:
                    pass
            else:
                whole += 1
    return whole
