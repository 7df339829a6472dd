"""The words of the command line: the one source of the help, the completion and the man page."""

from typing import NamedTuple


class Action(NamedTuple):
    name: str
    operand: str
    meaning: str
    options: tuple[str, ...]


class Option(NamedTuple):
    name: str
    value: str
    meaning: str
    example: str


ACTIONS = (
    Action("build", "PROJECT", "build its default targets, or those of --target",
           ("--target", "--property", "--nodes", "--clean", "--show")),
    Action("check", "PROJECT", "tell whether its build gives one answer in every order",
           ("--target", "--property", "--clean")),
    Action("eval", "PROJECT", "show its properties and items", ("--property",)),
    Action("targets", "PROJECT", "show its targets in order", ("--property",)),
    Action("trial", "SEED",
           "build a generated set of projects on one node and on several, and compare",
           ("--size", "--nodes")),
)

OPTIONS = (
    Option("--target", "LIST", "the targets to build", '--target "Restore;Build"'),
    Option("--property", "LIST", "global properties, which win over those of the project",
           '--property "Configuration=Release;OS=Unix"'),
    Option("--nodes", "N", "how many nodes build, from 1 to 64: 1 without it, and 4 for trial",
           "--nodes 4"),
    Option("--clean", "", "skip nothing for being up to date", "--clean"),
    Option("--show", "low", "print messages of low importance too", "--show low"),
    Option("--size", "N", "how many projects the set of a trial has, from 1 to 100", "--size 20"),
)

OWN = (
    Option("--quiet", "", "say nothing on standard error: no help, no hint, no progress",
           "--quiet"),
    Option("--time", "", "say at the end how long it took", "--time"),
    Option("--unproved", "", "run an unproved program, which is built in minutes", "--unproved"),
)

EXAMPLES = (
    ("msb build app/app.proj", "build the default targets of a project"),
    ('msb build app/app.proj --target Test --property "Configuration=Release" --nodes 4',
     "build a target, with a global property, on four nodes"),
    ("msb check app/app.proj", "see that many nodes can't change what is built"),
    ("msb eval app/app.proj", "show the properties and items of a project"),
    ("msb trial 7 --size 100", "try the engine on this machine"),
)

STATUSES = (
    ("0", "it was done"),
    ("1", "the build failed, or a check did not find the set of projects steady"),
    ("2", "the words are not those of the program"),
    ("3", "the project is refused: it is not there, or has a fault"),
    ("4", "the build is refused: a circle of calls, calls that are nested too deep, or too many "
          "projects"),
    ("5", "a file or the folder could not be read or written"),
    ("6", "the text could not be printed"),
    ("7", "no memory was found"),
    ("8", "the folder passes a limit"),
    ("9", "a check made 100,000 bodies of targets, and was given up"),
    ("11", "the words could not be got"),
    ("125", "the launcher has no program to run"),
)

PROJECT_IS = ("PROJECT is a file in the current folder or below, as app/app.proj: an element tree "
              "in JSON. All files of the folder and below are read first.")


def option_of(name: str) -> Option | None:
    """The option of a name."""
    return next((option for option in OPTIONS if option.name == name), None)


def action_of(name: str) -> Action | None:
    """The action of a name."""
    return next((action for action in ACTIONS if action.name == name), None)


def shown(option: Option) -> str:
    """An option with its value."""
    return f"{option.name} {option.value}".rstrip()


def taken_by(option: Option) -> str:
    """The actions that take an option."""
    return ", ".join(action.name for action in ACTIONS if option.name in action.options)


def help_text() -> str:
    """The help: actions, options and examples."""
    lines = ["usage: msb ACTION PROJECT [OPTION ..]", ""]
    lines += [f"  {action.name + ' ' + action.operand:<18}{action.meaning}" for action in ACTIONS]
    lines += ["", PROJECT_IS.replace(". ", ".\n"), "", "options, each at most once, in any order:"]
    lines += [f"  {shown(option):<18}{option.meaning} ({taken_by(option)})" for option in OPTIONS]
    lines += ["", "words of the launcher, before the action:"]
    lines += [f"  {option.name:<18}{option.meaning}" for option in OWN]
    lines += ["", "examples:"]
    lines += [f"  {command}\n      {meaning}" for command, meaning in EXAMPLES]
    return "\n".join(lines) + "\n"
