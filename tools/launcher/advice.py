"""Which word of a refused command line is wrong, and which words are near."""

import difflib
import os
import re
import shlex
from typing import NamedTuple

import words as table

NAME = re.compile(r"[A-Za-z_][A-Za-z0-9_-]*\Z")
TARGET = re.compile(r"[A-Za-z_][A-Za-z0-9_.:-]*\Z")
RESERVED = {"msbuild" + name for name in (
    "projectdirectory", "projectfile", "projectname", "projectextension", "projectfullpath",
    "thisfile", "thisfilename", "thisfilefullpath", "thisfiledirectory")}

HELP = {"-h", "-?", "-help", "--help", "--h", "/?", "/h", "/help", "help"}

# Switches of MSBuild and make that have an option here.
SWITCHES = {"t": "--target", "target": "--target", "p": "--property", "property": "--property",
            "m": "--nodes", "maxcpucount": "--nodes", "j": "--nodes", "jobs": "--nodes"}

# And those that have something else, or nothing.
OTHERS = {
    "v": "there is no verbosity; `--show low` prints messages of low importance too",
    "verbosity": "there is no verbosity; `--show low` prints messages of low importance too",
    "ts": "the action `targets` shows the targets of a project",
    "targets": "the action `targets` shows the targets of a project",
    "pp": "the action `eval` shows what a project is evaluated to",
    "preprocess": "the action `eval` shows what a project is evaluated to",
    "getproperty": "the action `eval` shows the properties of a project",
    "getitem": "the action `eval` shows the items of a project",
    "version": "no word tells a version; CHANGELOG.md does",
    "nologo": "nothing is printed but the text of the build",
    "restore": "there is no restore; a target of that name is built by `--target Restore`",
}

SWITCH = re.compile(r"(?:--?|/)([A-Za-z]+)(?:[:=](.*))?\Z", re.S)
COUNTED = re.compile(r"-j([0-9]+)\Z")


class Given(NamedTuple):
    """The words in their places, and what is wrong with them."""

    stand_alone: list[str]
    options: dict[str, list[str]]
    wrong: list[str]
    left_out: list[str]
    asks_for_help: bool


def entries(value: str) -> list[str]:
    """A list, cut as the program cuts it."""
    pieces = (piece.strip(" \t\r\n") for piece in value.split(";"))
    return [piece for piece in pieces if piece]


def wrong_targets(value: str) -> str:
    for entry in entries(value):
        if not TARGET.match(entry):
            return f"`{entry}` is no name of a target"
    return "" if entries(value) else "it names no target"


def wrong_properties(value: str) -> str:
    for entry in entries(value):
        name, equals, _ = entry.partition("=")
        if not equals:
            return f"`{entry}` is no NAME=VALUE; a `;` that belongs to a value is written %3B"
        if not NAME.match(name):
            return f"`{name}` is no name of a property"
        if name.lower() in RESERVED:
            return f"`{name}` is a property that the engine sets itself"
    return "" if entries(value) else "it gives no property"


def wrong_number(value: str, digits: int, most: int) -> str:
    """What keeps a value from being a number of so many digits, from 1 to the most."""
    if re.fullmatch(r"[0-9]+", value) and len(value) <= digits and 1 <= int(value) <= most:
        return ""
    return f"it is a number from 1 to {most}"


def wrong_seed(value: str) -> str:
    if re.fullmatch(r"[0-9]{1,20}", value) and int(value) < 2**64:
        return ""
    return "the SEED of a trial is a number below 2^64, in up to 20 digits"


CHECKS = {
    "--target": wrong_targets,
    "--property": wrong_properties,
    "--nodes": lambda value: wrong_number(value, 2, 64),
    "--size": lambda value: wrong_number(value, 3, 100),
    "--show": lambda value: "" if value == "low" else "its one value is `low`",
    "--clean": lambda value: "",
}


def near(word: str, names: list[str]) -> str:
    """The name that is nearest to a word, told as a question, or nothing."""
    found = difflib.get_close_matches(word.lower(), names, 1, 0.6)
    return f"; is `{found[0]}` meant?" if found else ""


def wrong_option(word: str) -> str:
    """What is wrong with a word that begins with `-` and is no option."""
    name = word.partition("=")[0]
    if name in (option.name for option in table.OWN):
        return f"`{name}` stands before the action: msb {name} ACTION PROJECT"
    if found := SWITCH.match(word):
        if found[1].lower() in OTHERS:
            return f"`{word}`: {OTHERS[found[1].lower()]}"
    names = [option.name for option in table.OPTIONS]
    return f"`{word}` is no option" + near("--" + name.lstrip("-"), names)


def switch_of(word: str) -> tuple[str, str] | None:
    """The option and the value that a switch of MSBuild or make has here."""
    if counted := COUNTED.match(word):
        return "--nodes", counted[1]
    found = SWITCH.match(word)
    if not found or word.startswith("--") and len(found[1]) > 1:
        return None
    if word.startswith("/") and found[2] is None and found[1].lower() != "m":
        return None
    option = SWITCHES.get(found[1].lower())
    if option is None:
        return None
    return option, found[2] or (str(min(64, os.cpu_count() or 1)) if option == "--nodes" else "")


def written(option: str, value: str) -> str:
    """An option with its value, as it is typed in a shell."""
    return in_a_shell([option, value] if table.option_of(option).value else [option])


def read(words: list[str]) -> Given:
    """Puts each word into its place as the program does, and a switch where its option goes."""
    given, waiting = Given([], {}, [], [], bool(HELP & set(words)) or not words), ""
    for word in words:
        if waiting:
            take(given, waiting, word)
            waiting = ""
        elif word in HELP and word != "help":
            continue
        elif found := switch_of(word):
            given.wrong.append(f"`{word}` is written `{written(*found)}` here")
            given.options.setdefault(found[0], []).append(found[1])
        elif word.startswith("-") or not word:
            waiting = read_option(given, word)
        else:
            given.stand_alone.append(word)
    if waiting:
        given.wrong.append(f"`{waiting}` has no value: {table.option_of(waiting).example}")
        given.left_out.append(waiting)
    return given


def read_option(given: Given, word: str) -> str:
    """Takes a word that begins an option; the answer is the one whose value comes next."""
    name, equals, value = word.partition("=")
    option = table.option_of(name)
    if not word:
        given.wrong.append("a word is empty")
    elif option is None:
        given.wrong.append(wrong_option(word))
        given.left_out.append(word)
    elif option.value and not equals:
        return name
    elif not option.value and equals:
        given.wrong.append(f"`{name}` has no value")
        given.options.setdefault(name, []).append("")
    else:
        take(given, name, value)
    return ""


def take(given: Given, name: str, value: str) -> None:
    """Takes the value of an option."""
    option = table.option_of(name)
    if option.value and (not value or value.startswith("-")):
        given.wrong.append(f"`{name}` has no value: {option.example}")
        given.left_out.append(name)
        return
    if told := CHECKS[name](value):
        given.wrong.append(f"`{name} {value}`: {told}")
    if name in given.options:
        given.wrong.append(f"`{name}` stands twice" + joined(name, given.options[name] + [value]))
    given.options.setdefault(name, []).append(value)


def joined(name: str, values: list[str]) -> str:
    """How several values of one option are written."""
    if name not in ("--target", "--property"):
        return ""
    return f"; write {written(name, ';'.join(values))}"


def check_actions(given: Given) -> table.Action | None:
    """Looks at the words that stand alone, and gives the action."""
    alone, names = given.stand_alone, [action.name for action in table.ACTIONS]
    action = table.action_of(alone[0]) if alone else None
    if not alone:
        given.wrong.append(f"the action is missing: one of {', '.join(names)}")
    elif action is None and "/" not in alone[0] and "." not in alone[0]:
        given.wrong.append(f"`{alone[0]}` is no action: {', '.join(names)}" + near(alone[0], names))
    elif action is None:
        given.wrong.append(f"`{alone[0]}` stands where the action stands: {', '.join(names)}")
        alone.insert(0, "build")
        action = table.action_of("build")
    if action and len(alone) < 2:
        given.wrong.append(f"the {action.operand} is missing: msb {action.name} {action.operand}")
    if len(alone) > 2:
        given.wrong.append(f"`{alone[2]}` is one word too many")
    return action


def check_options(given: Given, action: table.Action) -> None:
    """Looks at what the action takes."""
    for name in given.options:
        if name not in action.options:
            given.wrong.append(f"`{action.name}` does not take `{name}`")
    if action.name == "trial":
        if "--size" not in given.options:
            given.wrong.append("`trial` needs `--size N`")
        if len(given.stand_alone) > 1 and (told := wrong_seed(given.stand_alone[1])):
            given.wrong.append(f"`{given.stand_alone[1]}`: {told}")


def command(given: Given, action: table.Action | None) -> list[str]:
    """The words that were meant, as far as they can be told, or none."""
    if action is None or given.left_out or len(given.stand_alone) != 2:
        return []
    meant = [action.name, given.stand_alone[1]]
    for name, values in given.options.items():
        meant.append(name)
        if table.option_of(name).value:
            meant.append(";".join(values) if name in ("--target", "--property") else values[-1])
    return meant


def quoted(word: str) -> str:
    """A word as it is typed in a shell."""
    if re.fullmatch(r"[A-Za-z0-9_./:=,+-]+", word):
        return word
    return shlex.quote(word) if re.search(r'[$`"\\!]', word) else f'"{word}"'


def in_a_shell(words: list[str]) -> str:
    """Words as they are typed in a shell."""
    return " ".join(quoted(word) for word in words)


def advice(words: list[str]) -> tuple[list[str], bool]:
    """What is wrong with the words and what is near, a line each, and whether help is asked for."""
    given = read(words)
    if given.asks_for_help:
        return [], True
    action = check_actions(given)
    if action:
        check_options(given, action)
    lines = list(dict.fromkeys(given.wrong))
    meant = command(given, action)
    if lines and meant and meant != words and advice(meant) == ([], False):
        lines.append(f"try: {in_a_shell(['msb', *meant])}")
    return lines, False
