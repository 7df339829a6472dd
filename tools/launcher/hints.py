"""What the launcher says on standard error where the program did not do what it was asked for."""

import difflib
import os
import re
import sys

import causes
import places
from advice import advice
from child import NOT_PRINTED, Ended
from words import help_text

# As many places of faults are told.
MOST_PLACES = 5

FAULT = re.compile(
    r"(?:error: |warning: )?(.+?) (/[0-9/]*): ([0-9]+) ([A-Z][A-Za-z]+)(?: (.*))?\Z", re.S)

# What a fault means, by its number, where its name does not say it.
MEANINGS = {
    "3": "an element, attribute or text that the format does not have here; the table is in "
         "docs/FORMATS.md",
    "4": "this element may not stand here; docs/FORMATS.md has the table",
    "7": "a name has letters, digits, `_` and `-`, and begins with a letter or `_`; functions of "
         ".NET types and registry references are not read",
    "11": "a list `@(..)` has no value yet where this is read",
    "12": "metadata `%(..)` have no value where this is read",
    "13": "there is no function of this name that is called so; docs/FORMATS.md has those of items "
          "and of properties",
    "15": "an entry of a list is one `@(..)` alone, or has none",
    "19": "a path stays below the folder that msb runs in, and names a file",
    "21": "the imported file is not in the folder that msb runs in; a toolset's files are staged "
          "there",
    "23": "the engine sets this one itself",
    "24": "write `%(TYPE.NAME)`, or name the list by `@(TYPE)` in the same element",
    "26": "this property function takes other arguments; docs/FORMATS.md has the table",
    "27": "property functions have whole numbers of 64 bits",
}

AT_ROOT = {
    "3": "the Project element has an attribute that is not read, as Sdk; docs/FROM_MSBUILD.md says "
         "what to do",
    "4": "the root of a project file is one element named Project",
}


def say(text: str) -> None:
    print(f"msb: {text}", file=sys.stderr, flush=True)


def say_words(words: list[str]) -> None:
    """Which word is wrong, or the help."""
    lines, asks_for_help = advice(words)
    if asks_for_help or not lines:
        print(help_text(), end="", file=sys.stderr, flush=True)
        return
    for line in lines:
        say(line)
    say("`msb --help` shows all words")


def project_of(words: list[str]) -> str:
    """The PROJECT of words that the program has read."""
    alone, is_value = [], False
    for word in words:
        if not is_value and not word.startswith("-"):
            alone.append(word)
        is_value = not is_value and word.startswith("--") and "=" not in word and word != "--clean"
    return alone[1] if len(alone) > 1 else ""


def projects_in(folder: str) -> list[str]:
    """The files of a folder that look like projects."""
    files = (entry for entry in os.scandir(folder or ".") if entry.is_file(follow_symlinks=False))
    return sorted(file.name for file in files if re.search(r"\.\w*proj\Z", file.name))


def say_not_found(project: str) -> None:
    """Why a project is not found."""
    project = project.replace("\\", "/")
    below = os.path.relpath(project) if os.path.isabs(project) else os.path.normpath(project)
    if os.path.isabs(project) and os.path.exists(project):
        say_absolute(project, below)
    elif below.startswith(".."):
        say(f"`{project}` leaves the current folder; a build sees only files in it and below: "
            "change to a folder above both")
    elif os.path.isdir(below):
        say_folder(below)
    elif os.path.islink(below):
        say(f"`{project}` is a link; links are not followed")
    else:
        say_near(below)


def say_absolute(project: str, below: str) -> None:
    if below.startswith(".."):
        say(f"`{project}` is not below the current folder; change to a folder above it, and give "
            "the path from there")
    else:
        say(f"PROJECT is a path from the current folder: `{below}`")


def say_folder(folder: str) -> None:
    found = projects_in(folder)
    here = f": `{os.path.normpath(os.path.join(folder, found[0]))}`" if found else ""
    say(f"`{folder}` is a folder; name a file{here}")


def say_near(path: str) -> None:
    """Names a file that is near, or where the path ends."""
    folder, name = os.path.split(path)
    if not os.path.isdir(folder or "."):
        say(f"there is no folder `{folder}` in {os.getcwd()}")
        return
    names = sorted(os.listdir(folder or "."))
    same = [one for one in names if one.lower() == name.lower()]
    found = same or difflib.get_close_matches(name, names, 1, 0.6) or projects_in(folder)[:1]
    if found:
        say(f"there is no `{path}`; is `{os.path.join(folder, found[0])}` meant?")
    else:
        say(f"there is no `{path}` in {os.getcwd()}")


def say_fault(line: str) -> bool:
    """Where the fault of a line stands, and what it means; whether the line has one."""
    found = FAULT.match(line.strip())
    if not found:
        return False
    path, place, number = found[1], found[2], found[3]
    if number == "1":
        told = places.json_fault(path) if os.path.isfile(path) else f"{path}: it is gone"
        if told:
            say(told)
        return True
    at = places.located(path, place)
    meaning = (AT_ROOT if place == "/" else {}).get(number) or MEANINGS.get(number, "")
    if at:
        say(at)
    if meaning:
        say(f"{number} {found[4]}: {meaning}")
    return bool(at or meaning)


def say_faults(text: str) -> None:
    """Where the faults of a text stand, each once."""
    lines = [line for line in text.splitlines() if FAULT.match(line.strip())]
    told = list(dict.fromkeys(lines))
    for line in told[:MOST_PLACES]:
        say_fault(line)
    if len(told) > MOST_PLACES:
        say(f"and {len(told) - MOST_PLACES} more faults")


def say_refused(words: list[str], text: str) -> None:
    """Why a project is refused."""
    lines = text.split("\n")
    if len(lines) > 1 and lines[1].endswith(": not found"):
        say_not_found(project_of(words) or lines[1].strip().removesuffix(": not found"))
    else:
        say_faults(text.removeprefix("project refused\n").rstrip("\n").replace("\n", " "))


def say_circle(text: str) -> None:
    """Why a build is refused."""
    if text.startswith("circular request"):
        say("each of these runs waits for the next: one of these calls has to go, or name other "
            "targets")
    elif text.startswith("too deep"):
        say("at most 128 requests are nested; does a project call itself with other global "
            "properties each time?")
    elif text.startswith("too many instances"):
        say("at most 4,096 projects, told apart by path and global properties, are built at once")


def say_verdict(text: str) -> None:
    """What a check has found, and how it is mended."""
    if text.startswith("differs "):
        say("this target makes another thing where it is built in another order; does it read what "
            "a target writes that it does not depend on?")
    elif text.startswith("not whole: circular "):
        say("this target calls itself, over other projects or not: one of the calls has to go, or "
            "name other targets")
    elif text.startswith("not whole: too deep "):
        say_circle("too deep")
    elif text.startswith("not whole: too many instances "):
        say_circle("too many instances")


def say_store(text: str) -> None:
    """Why the folder or a file could not be read or written."""
    path = text.removeprefix("store fault").strip("\n").removeprefix(" ")
    told = causes.cause(path)
    say(told or "the cause can't be seen any more; run it again")


def say_limit(text: str) -> None:
    """What makes the folder too large."""
    found = re.match(r"too large: ([0-9]+) (files|bytes)\n", text)
    if found:
        largest = causes.most_of_folder(found[2] == "bytes")
        told = ", ".join(f"{name} {number:,}" for name, number in largest)
        say(f"all files of the current folder and below are read; most {found[2]} are in {told}")
        say("run it in the folder of your sources alone, or move what is no source, as .git or "
            "node_modules, out of it")
    elif text.startswith("bad path: "):
        say("the name of a file has a control character or a `\\`; rename or remove it")
    else:
        say("a file of the folder has more than 16,777,216 bytes; move it out of the folder")


def say_not_text(words: list[str]) -> None:
    """Which word is no text."""
    for number, word in enumerate(words, 1):
        try:
            word.encode("utf-8")
        except UnicodeEncodeError:
            say(f"word {number} is no UTF-8: {os.fsencode(word)!r}")


def say_by_status(words: list[str], status: int, text: str) -> None:
    if status == 1:
        say_verdict(text)
        say_faults(text)
    elif status == 2:
        say_words(words)
    elif status == 3:
        say_refused(words, text)
    elif status == 4:
        say_circle(text)
    elif status == 5:
        say_store(text)
    elif status == 7:
        say("no memory was found; `ulimit -v` shows whether the shell limits it")
    elif status == 8:
        say_limit(text)
    elif status == 9:
        say("a project that many others call is made for each of them here: check a part of the set, "
            "by --target or by another PROJECT")
    elif status == 11:
        say_not_text(words)


def tell(words: list[str], ended: Ended) -> None:
    """Says what helps after a run that did not do what it was asked for."""
    if ended.signal == 9:
        say("the program was killed, as the system does where memory is short")
    if ended.signal:
        return
    if ended.print_error is not None:
        say(f"the text could not be printed: {ended.print_error.strerror}")
    if ended.status != NOT_PRINTED:
        try:
            say_by_status(words, ended.status, ended.text.decode("utf-8", "replace"))
        except OSError as error:
            say(f"{error.filename}: {error.strerror}")
        except (ValueError, LookupError, RecursionError):
            pass  # A hint is missing, and nothing else.
