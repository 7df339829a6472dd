#!/usr/bin/env python3
"""Run the program on examples and cases in which something was changed at random.

usage: tests/mutations.py PROGRAM [SEED [COUNT]]

COUNT inputs (500 where it is not given) are drawn from SEED (1). Each is the folder and the words
of an example, or of a case of tests/cases whose files are small, with one to four changes: of bytes
of a file, of a text or an element of a project file, of a word, or of a name of the folder. Each
run has to end within 60 seconds, with a status that docs/FORMATS.md has for a run with memory whose
output is taken, and with a text of the form that goes with it; it prints nothing on standard error,
makes nothing beside the folder, and leaves the folder as it was unless it is a build that ended.

An input whose run does otherwise is made smaller as long as the run does the same, and printed as a
case: `FAIL NUMBER: what is wrong: CASE`. The last line is `N passed, M failed`, and the status is 0
where nothing failed and something passed, 1 elsewhere, and 2 for wrong words.
"""

import copy
import json
import os
import random
import re
import resource
import subprocess
import sys
import tempfile
from collections.abc import Callable, Iterator
from concurrent.futures import ThreadPoolExecutor
from contextlib import contextmanager, suppress
from dataclasses import dataclass, replace
from functools import partial
from itertools import islice
from pathlib import Path
from typing import Any

from generated_sets import SECONDS, SHARED
from run_cases import SECOND, Case, look, read_cases, write_file

USAGE = "usage: mutations.py PROGRAM [SEED [COUNT]]"
TOP = Path(__file__).resolve().parent.parent
CHANGES = 4  # of an input, at most
LARGE = 64 * 1024  # bytes of a file that is not taken
LONG = 4096  # bytes of a word or a path, at most
DEEP = 100  # names of a path, at most
TRIES = 2000  # runs by which an input is made smaller
TOGETHER = 1000
MEMORY = 16 << 30  # bytes that a run may address


@dataclass
class Input:
    """The folder of a run, the times of its files in seconds, and its words."""

    files: dict[str, bytes]
    stamps: dict[str, int]
    words: list[str]


# ---- What is changed --------------------------------------------------------------------------


def is_small(case: Case) -> bool:
    """Whether the files of a case are few and small."""
    files = list(case.files.values())
    return len(files) <= 50 and all(isinstance(one, bytes) and len(one) < LARGE for one in files)


def case_inputs(path: Path) -> list[Input]:
    """The first run of each case of a file."""
    cases = [case for case in read_cases(path, None) if is_small(case)]
    return [Input(case.files, case.stamps, case.steps[0].words) for case in cases]


def example_inputs(folder: Path) -> list[Input]:
    """The runs of an example: each action on each of its projects."""
    paths = [path for path in sorted(folder.rglob("*")) if path.is_file()]
    files = {str(path.relative_to(folder)): path.read_bytes() for path in paths}
    actions = (["build"], ["eval"], ["targets"], ["build", "--nodes", "4"], ["build", "--clean"])
    return [Input(files, {}, [*words, path])
            for path in files if path.endswith(".proj") for words in actions]


def all_inputs() -> list[list[Input]]:
    """The inputs of each example and of each file of cases."""
    inputs = [case_inputs(path) for path in sorted((TOP / "tests" / "cases").glob("*.json"))]
    folders = [path for path in sorted((TOP / "examples").iterdir()) if path.is_dir()]
    return [some for some in [*inputs, *map(example_inputs, folders)] if some]


# ---- Changes ----------------------------------------------------------------------------------

PIECES = [b"$(", b"%(", b"@(", b")", b"(", b"->", b"'", b'"', b"\\", b"/", b"../", b"**", b"*",
          b"?", b";", b"%3B", b"%00", b"%", b"=", b" == ", b" < ", b"!", b" and ", b" or ", b"-",
          b"{", b"}", b"[", b"]", b",", b":", b"\n", b"\t", b"\x7f", b"\xff", b"\xc3\xa9",
          b"\xc4\xb0", b"\xef\xbb\xbf", b"0x1", b"18446744073709551616", b"Exists('", b"true",
          b".msb-0", b"Identity", b"RecursiveDir", b"MSBuildThisFile", b"->Count()", b"\\u0000"]
ELEMENTS = ["Project", "PropertyGroup", "ItemGroup", "ItemDefinitionGroup", "Import", "ImportGroup",
            "Choose", "When", "Otherwise", "UsingTask", "Target", "Output", "OnError", "Message",
            "Error", "Copy", "WriteLinesToFile", "ReadLinesFromFile", "Delete", "CreateItem",
            "CreateProperty", "MSBuild", "P"]
ATTRIBUTES = ["Condition", "Label", "Include", "Exclude", "Remove", "Update", "KeepDuplicates",
              "KeepMetadata", "RemoveMetadata", "Project", "Name", "DependsOnTargets",
              "BeforeTargets", "AfterTargets", "Inputs", "Outputs", "Returns", "ContinueOnError",
              "TaskParameter", "ItemName", "PropertyName", "ExecuteTargets", "DefaultTargets",
              "InitialTargets", "TreatAsLocalProperty", "Text", "Importance", "SourceFiles",
              "DestinationFiles", "DestinationFolder", "File", "Lines", "Overwrite", "Projects",
              "Targets", "Properties", "BuildInParallel", "RunEachTargetSeparately"]
WORDS = ["build", "check", "eval", "targets", "trial", "--target", "--property", "--nodes",
         "--clean", "--show", "low", "--size", "--target=Build", "--property=P=1", "--nodes=64", "--nodes=0",
         "--nodes=2", "--show=low", "--size=3", "1", "8", "", "-", "--", "/", "..", "A;B", "P=%3B"]


def changed_bytes(draws: random.Random, old: bytes) -> bytes:
    """Bytes of which a piece is taken out, repeated, or replaced by a byte or by a usual piece."""
    at = draws.randrange(len(old) + 1)
    span = old[at:at + draws.choice((0, 0, 1, 1, 2, 8, 64))]
    other = draws.choice((b"", bytes([draws.randrange(256)]), draws.choice(PIECES),
                          draws.choice(PIECES), span * 2, span * draws.choice((3, 70, 1000))))
    return old[:at] + other + old[at + len(span):]


def change_file(draws: random.Random, given: Input) -> None:
    """Change bytes of a file."""
    path = draws.choice(list(given.files))
    given.files[path] = changed_bytes(draws, given.files[path])


def parts_of(value: Any) -> Iterator[Any]:
    """The objects and arrays of a JSON value."""
    if isinstance(value, (dict, list)):
        yield value
        for part in value.values() if isinstance(value, dict) else value:
            yield from parts_of(part)


def change_text(draws: random.Random, project: Any) -> None:
    """Change bytes of a text of a project, seldom of a name of an element, or put another one of
    its texts there."""
    names = draws.randrange(8) == 0
    places = [(part, key) for part in parts_of(project) if isinstance(part, dict)
              for key in part if isinstance(part[key], str) and (names or key != "e")]
    part, key = draws.choice(places)
    if draws.randrange(4) == 0:
        other, there = draws.choice(places)
        part[key] = other[there]
    else:
        text = changed_bytes(draws, part[key].encode(errors="replace"))
        part[key] = text.decode(errors="replace")


def change_element(draws: random.Random, project: Any) -> None:
    """Take out an element of a project, put it elsewhere too, name it anew, or give it an
    attribute."""
    lists = [part for part in parts_of(project) if isinstance(part, list)]
    elements = draws.choice([some for some in lists if some])
    at, kind = draws.randrange(len(elements)), draws.randrange(4)
    if kind == 0:
        del elements[at]
    elif kind == 1:
        others = draws.choice(lists)
        others.insert(draws.randrange(len(others) + 1), copy.deepcopy(elements[at]))
    elif kind == 2:
        elements[at]["e"] = draws.choice(ELEMENTS)
    else:
        texts = [text for part in parts_of(project) if isinstance(part, dict)
                 for text in part.values() if isinstance(text, str)]
        elements[at].setdefault("a", {})[draws.choice(ATTRIBUTES)] = draws.choice(texts)


def change_project(draws: random.Random, given: Input) -> None:
    """Change a project file that is read as JSON; other files stay as they are."""
    path = draws.choice(list(given.files))
    with suppress(ValueError, RecursionError, LookupError, TypeError, AttributeError):
        project = json.loads(given.files[path])
        draws.choice((change_text, change_text, change_element))(draws, project)
        given.files[path] = json.dumps(project).encode()


def changed_name(draws: random.Random, name: str) -> str:
    """A word or a path of which bytes are changed."""
    changed = changed_bytes(draws, os.fsencode(name))
    return os.fsdecode(changed.replace(b"\0", b"")[:LONG])


def change_word(draws: random.Random, given: Input) -> None:
    """Add a word, take one out, put another one in its place, or change its bytes."""
    words, at = given.words, draws.randrange(len(given.words) + 1)
    other, kind = draws.choice([*WORDS, *WORDS, *given.files]), draws.randrange(4)
    if kind == 0 or at == len(words):
        words.insert(at, other)
    elif kind == 1:
        del words[at]
    else:
        words[at] = other if kind == 2 else changed_name(draws, words[at])


def change_path(draws: random.Random, given: Input) -> None:
    """Give a file another path, or take it out; what is no path of a file is left out later."""
    path = draws.choice(list(given.files))
    content = given.files.pop(path)
    if draws.randrange(3) > 0:
        others = [*given.files, "a", "out/a", "..a", ".msb-0", "a.proj/b", "a\\b"]
        given.files[draws.choice((changed_name(draws, path), draws.choice(others)))] = content


def changed(inputs: list[list[Input]], seed: int, number: int) -> Input:
    """The input of this number: one of these, chosen and changed."""
    draws = random.Random(f"{seed} {number}")
    given = copy.deepcopy(draws.choice(draws.choice(inputs)))
    kinds = [change_project] * 10 + [change_file] * 2 + [change_word, change_path]
    for change in draws.choices(kinds, k=draws.randint(1, CHANGES)):
        if given.files or change is change_word:
            change(draws, given)
    given.stamps |= {path: draws.randint(1, 3) for path in given.files if draws.randrange(2)}
    return given


# ---- Answers ----------------------------------------------------------------------------------

USAGE_LINE = ("usage: msb ACTION PROJECT [--target LIST] [--property LIST] [--nodes N] [--clean] "
              "[--show low] [--size N]\n")
FAULT = r"(?:[1-9]|1[0-9]|2[0-5]) [A-Z][A-Za-z]+(?: .*)?"
FORMS = {
    0: r"(?:.*\n)?",
    1: r"(?:.*\n)?returned 0\nbuild failed\n|differs [^\n]+ : [^\n]+\nfirst.*\nsecond.*\n"
       r"|not whole: (?:circular|too deep|too many instances) [^\n]+\n",
    2: re.escape(USAGE_LINE),
    3: rf"project refused\n  .*(?:: not found|: {FAULT})\n",
    4: r"circular request\n(?:  [^\n]+ : [^\n]+\n){2,}|too deep\n(?:  [^\n]+\n){129}"
       r"|too many instances\n  [^\n]+\n",
    5: r"store fault(?: .+)?\n",
    8: r"too large: .+\n|bad path: .+\n",
    9: r"spent 100000\n",
    11: ""}
STORE_FAULT = 5
BUILT = (b"build succeeded\n", b"build failed\n")


def lay_out(folder: Path, given: Input) -> None:
    """Write the files of an input, but for those whose paths the system refuses."""
    for path, content in given.files.items():
        names = path.split("/")
        if len(names) <= DEEP and not {"", ".", ".."} & set(names):
            with suppress(OSError):
                write_file(folder, path, content, given.stamps.get(path, 1) * SECOND)


def wrong_answer(run: subprocess.CompletedProcess[bytes]) -> str | None:
    """What is wrong with the status and the text of a run, or None."""
    if run.returncode < 0:
        return f"signal {-run.returncode}"
    if run.returncode not in FORMS:
        return f"status {run.returncode}: {run.stdout[:200]!r}"
    if run.stderr:
        return f"standard error: {run.stderr[:200]!r}"
    try:
        text = run.stdout.decode()
    except UnicodeDecodeError:
        return f"no UTF-8: {run.stdout[:200]!r}"
    if re.compile(FORMS[run.returncode], re.DOTALL).fullmatch(text) is None:
        return f"a text of another form than status {run.returncode} has: {text[:200]!r}"
    return None


@contextmanager
def scratch() -> Iterator[str]:
    """A folder for a run. `rm` removes it, since Python removes no more than some 1,000 levels."""
    name = tempfile.mkdtemp(prefix="msb-changed-", dir=SHARED)
    try:
        yield name
    finally:
        subprocess.run(["rm", "-rf", "--", name], check=True)


def fault(program: Path, given: Input) -> str | None:
    """What is wrong with the run of an input, or None; what stands ahead of `:` is its kind."""
    with scratch() as name:
        folder = Path(name, "folder")
        folder.mkdir()
        lay_out(folder, given)
        before = look(folder)
        try:
            run = subprocess.run([program, *given.words], cwd=folder, stdin=subprocess.DEVNULL,
                                 capture_output=True, timeout=SECONDS, check=False)
        except subprocess.TimeoutExpired:
            return f"no end: within {SECONDS} seconds"
        if os.listdir(name) != ["folder"]:
            return f"beside the folder: {os.listdir(name)}"
        may_write = run.returncode == STORE_FAULT or run.stdout.endswith(BUILT)
        if not may_write and look(folder) != before:
            return f"a changed folder: status {run.returncode} with {run.stdout[:200]!r}"
        return wrong_answer(run)


# ---- Smaller inputs ---------------------------------------------------------------------------


def with_less(given: Input) -> Iterator[Input]:
    """The inputs that lack a file, a word, or a piece of a file, larger pieces first."""
    for path in given.files:
        yield replace(given, files={one: given.files[one] for one in given.files if one != path})
    for at in range(len(given.words)):
        yield replace(given, words=given.words[:at] + given.words[at + 1:])
    for path, content in given.files.items():
        size = len(content)
        while size > 0:
            for at in range(0, len(content), size):
                less = content[:at] + content[at + size:]
                yield replace(given, files={**given.files, path: less})
            size //= 2


def smallest(program: Path, given: Input, wrong: str) -> Input:
    """An input from which nothing can be left out so that the run still does the same."""
    left = TRIES if not wrong.startswith("no end") else 0
    kind = wrong.partition(":")[0]
    while left > 0:
        tries = islice(with_less(given), left)
        for left, less in zip(range(left - 1, -1, -1), tries):
            if (fault(program, less) or "").partition(":")[0] == kind:
                given = less
                break
        else:
            return given
    return given


def as_case(given: Input) -> str:
    """An input in the form of a case, with contents in hexadecimal where they are no text."""
    files: dict[str, Any] = {}
    for path, content in given.files.items():
        try:
            files[path] = content.decode()
        except UnicodeDecodeError:
            files[path] = {"hex": content.hex()}
    stamps = {path: given.stamps[path] for path in files if path in given.stamps}
    return json.dumps({"files": files, "stamps": stamps, "words": given.words})


# ---- All of them ------------------------------------------------------------------------------


def failure(program: Path, inputs: list[list[Input]], seed: int, number: int) -> str | None:
    """The line of an input whose run does otherwise, or None."""
    given = changed(inputs, seed, number)
    wrong = fault(program, given)
    if wrong is None:
        return None
    return f"FAIL {number}: {wrong}: {as_case(smallest(program, given, wrong))}"


def failures(program: Path, seed: int, count: int) -> Iterator[str]:
    """The lines of so many inputs, of which several are run at once."""
    one = partial(failure, program, all_inputs(), seed)
    with ThreadPoolExecutor(len(os.sched_getaffinity(0))) as pool:
        for begin in range(0, count, TOGETHER):
            yield from filter(None, pool.map(one, range(begin, min(begin + TOGETHER, count))))


def restrict(limit: int, most: int) -> None:
    """Let this script, and the runs that it starts, have no more of something."""
    ends = [end for end in resource.getrlimit(limit) if end != resource.RLIM_INFINITY]
    resource.setrlimit(limit, (min([most, *ends]), min([most, *ends])))


def main(words: list[str]) -> int:
    """Read the words, and try so many inputs; the status of the script."""
    numbers = words[1:]
    usual = 1 <= len(words) <= 3 and all(number.isdecimal() for number in numbers)
    if not usual or not os.access(words[0], os.X_OK):
        print(USAGE, file=sys.stderr)
        return 2
    seed, count = (*map(int, numbers), *(1, 500)[len(numbers):])
    restrict(resource.RLIMIT_AS, MEMORY)
    restrict(resource.RLIMIT_CORE, 0)
    failed = 0
    for line in failures(Path(words[0]).resolve(), seed, count):
        failed += 1
        print(line, flush=True)
    print(f"{count - failed} passed, {failed} failed")
    return 0 if count > 0 and failed == 0 else 1


if __name__ == "__main__":
    sys.exit(main(sys.argv[1:]))
