#!/usr/bin/env python3
"""Run the cases of tests/cases over a built program.

usage: tests/run_cases.py PROGRAM [FILE.json[:NAME] ..]

Without a FILE all of tests/cases/*.json are run. tests/README.md has the form of a file. Each case
that fails prints `FAIL FILE: NAME: what differs`; the last line is `N passed, M failed`. The status
is 0 where nothing failed and something passed, 1 elsewhere, and 2 for wrong words or a wrong file.
"""

import json
import os
import re
import shutil
import subprocess
import sys
import tempfile
import time
from concurrent.futures import ThreadPoolExecutor
from dataclasses import dataclass, field
from pathlib import Path
from typing import Any, Callable, Iterator

USAGE = "run_cases.py PROGRAM [FILE.json[:NAME] ..]"
SECONDS = 60  # a run takes less than one; the rest is for machines with other work
SECOND = 10**9
LARGE = 1 << 20
PLACEHOLDER = re.compile(r"<<([A-Za-z][A-Za-z0-9_]*)>>")


class CaseError(Exception):
    """A file of cases that is not of the form, or words that can't be used."""


@dataclass(frozen=True)
class Zeros:
    """The content of a file of so many zero bytes, which is written as a hole."""

    count: int


Content = bytes | Zeros


@dataclass
class Step:
    """One run of the program in the folder of a case, and what is wanted of it."""

    words: list[str]
    status: int
    prints: list[bytes] | None
    writes: dict[str, bytes | None]
    edits: dict[str, Content | None] = field(default_factory=dict)
    stamps: dict[str, int] = field(default_factory=dict)
    wrote_stamp: int | None = None


@dataclass
class Case:
    """A folder of files and the runs in it, one after another."""

    file: str
    name: str
    files: dict[str, Content]
    stamps: dict[str, int]
    steps: list[Step]


# ---- Reading the form -------------------------------------------------------------------------

RUN_KEYS = {"words", "status", "prints", "prints_one_of", "writes"}
STEP_KEYS = RUN_KEYS | {"edits", "stamps", "wrote_stamp"}
CASE_KEYS = RUN_KEYS | {"name", "files", "stamps", "many", "nodes", "steps"}


def need(good: bool, where: str, what: str) -> None:
    """Refuse the file unless `good`."""
    if not good:
        raise CaseError(f"{where}: {what}")


def check_keys(where: str, value: Any, known: set[str]) -> None:
    """Refuse what is no object, and keys that the form does not have."""
    need(isinstance(value, dict), where, "an object is wanted")
    for key in value:
        need(key in known, where, f"unknown key `{key}`")


def as_text(where: str, value: Any) -> bytes:
    """The bytes of a text."""
    need(isinstance(value, str), where, "a text is wanted")
    try:
        return value.encode("utf-8")
    except UnicodeEncodeError:
        raise CaseError(f"{where}: a text that is no UTF-8") from None


def as_number(where: str, value: Any) -> int:
    """A whole number that is not negative."""
    good = isinstance(value, int) and not isinstance(value, bool) and value >= 0
    need(good, where, "a number is wanted")
    return value


def as_list(where: str, value: Any) -> list[Any]:
    """A list that is not empty."""
    need(isinstance(value, list) and value != [], where, "a list that is not empty is wanted")
    return value


def as_hex(where: str, value: Any) -> bytes:
    """The bytes of a hexadecimal text."""
    try:
        return bytes.fromhex(value)
    except (TypeError, ValueError):
        raise CaseError(f"{where}: a hexadecimal text is wanted") from None


def as_content(where: str, value: Any) -> bytes:
    """The bytes of a content that is written out: a text, or an object of one of four kinds."""
    if isinstance(value, str):
        return as_text(where, value)
    need(isinstance(value, dict), where, "a content is wanted")
    if set(value) == {"project"}:
        return as_text(where, json.dumps(value["project"], ensure_ascii=False))
    if set(value) == {"hex"}:
        return as_hex(where, value["hex"])
    if set(value) == {"parts"}:
        return b"".join(as_content(where, part) for part in as_list(where, value["parts"]))
    check_keys(where, value, {"repeat", "times", "head", "tail"})
    need("repeat" in value and "times" in value, where, "`repeat` and `times` are wanted")
    repeated = as_text(where, value["repeat"]) * as_number(where, value["times"])
    head = as_text(where, value.get("head", ""))
    return head + repeated + as_text(where, value.get("tail", ""))


def as_file(where: str, value: Any) -> Content:
    """The content of a file of the folder."""
    if isinstance(value, dict) and set(value) == {"zeros"}:
        return Zeros(as_number(where, value["zeros"]))
    return as_content(where, value)


def as_path(where: str, path: str) -> str:
    """A path below the folder of the case."""
    good = path != "" and all(part not in ("", ".", "..") for part in path.split("/"))
    need(good and "\0" not in path, where, f"no path of a file: `{path}`")
    return path


def as_files(where: str, value: Any, gone: bool) -> dict[str, Any]:
    """A table of paths and contents, with null for a file that is gone where that may be."""
    need(isinstance(value, dict), where, "an object is wanted")
    files: dict[str, Content | None] = {}
    for path, content in value.items():
        none = gone and content is None
        files[as_path(where, path)] = None if none else as_file(f"{where} `{path}`", content)
    return files


def as_writes(where: str, value: Any) -> dict[str, bytes | None]:
    """A table of paths and what is to be written there."""
    files = as_files(where, value, True)
    for path, content in files.items():
        need(not isinstance(content, Zeros), f"{where} `{path}`", "`zeros` can't be wanted")
    return files


def as_stamps(where: str, value: Any) -> dict[str, int]:
    """A table of paths and times in seconds."""
    need(isinstance(value, dict), where, "an object is wanted")
    return {as_path(where, path): as_number(where, stamp) for path, stamp in value.items()}


def as_printed(where: str, value: Any) -> bytes:
    """A wanted output: a list of lines, or one content."""
    if isinstance(value, list):
        return b"".join(as_text(where, line) + b"\n" for line in value)
    return as_content(where, value)


def as_outputs(where: str, value: dict[str, Any]) -> list[bytes] | None:
    """The wanted outputs, of which any is right; None where none is compared."""
    need(not {"prints", "prints_one_of"} <= set(value), where, "two kinds of `prints`")
    if "prints_one_of" in value:
        return [as_printed(where, one) for one in as_list(where, value["prints_one_of"])]
    return [as_printed(where, value["prints"])] if "prints" in value else None


def as_step(where: str, value: dict[str, Any]) -> Step:
    """One run of a case or of one of its steps."""
    need("words" in value and "status" in value, where, "`words` and `status` are wanted")
    need(isinstance(value["words"], list), f"{where}: words", "a list is wanted")
    for word in value["words"]:
        as_text(f"{where}: words", word)
    stamp = value.get("wrote_stamp")
    return Step(
        words=value["words"],
        status=as_number(f"{where}: status", value["status"]),
        prints=as_outputs(f"{where}: prints", value),
        writes=as_writes(f"{where}: writes", value.get("writes", {})),
        edits=as_files(f"{where}: edits", value.get("edits", {}), True),
        wrote_stamp=None if stamp is None else as_number(f"{where}: wrote_stamp", stamp),
    )


def as_steps(where: str, value: dict[str, Any]) -> list[Step]:
    """The runs of a case: its own one, or its steps."""
    if "steps" not in value:
        return [as_step(where, value)]
    for key in sorted(RUN_KEYS & set(value)):
        raise CaseError(f"{where}: `{key}` beside `steps`")
    steps = []
    for number, one in enumerate(as_list(where, value["steps"]), 1):
        inner = f"{where}: step {number}"
        check_keys(inner, one, STEP_KEYS)
        step = as_step(inner, one)
        step.stamps = as_stamps(f"{inner}: stamps", one.get("stamps", {}))
        steps.append(step)
    return steps


def add_many(where: str, value: Any, files: dict[str, Content]) -> None:
    """Put the numbered files of `many` among the files of the case."""
    check_keys(where, value, {"prefix", "count", "text"})
    need(set(value) == {"prefix", "count", "text"}, where, "a key is missing")
    need(isinstance(value["prefix"], str), where, "a text is wanted")
    text = as_file(where, value["text"])
    for number in range(as_number(where, value["count"])):
        files[as_path(where, f"{value['prefix']}{number}")] = text


def check_paths(where: str, case: Case) -> None:
    """Refuse stamps and removals of files that can't be there."""
    known = set(case.files)
    need(set(case.stamps) <= known, where, "a stamp of a file that is not there")
    for step in case.steps:
        gone = {path for path, content in step.edits.items() if content is None}
        need(gone <= known, where, "an edit removes a file that is not there")
        known = (known | set(step.edits)) - gone
        need(set(step.stamps) <= known, where, "a stamp of a file that is not there")
        known |= {path for path, content in step.writes.items() if content is not None}


def with_nodes(steps: list[Step], nodes: int) -> list[Step]:
    """The same runs, with a number of nodes for each build."""
    words = [step.words + ["--nodes", str(nodes)] * (step.words[:1] == ["build"]) for step in steps]
    return [Step(**{**vars(step), "words": one}) for step, one in zip(steps, words)]


def as_cases(file: str, where: str, value: dict[str, Any]) -> Iterator[Case]:
    """One case, or one for each number of its nodes."""
    check_keys(where, value, CASE_KEYS)
    files = as_files(f"{where}: files", value.get("files", {}), False)
    if "many" in value:
        add_many(f"{where}: many", value["many"], files)
    stamps = as_stamps(f"{where}: stamps", value.get("stamps", {}))
    case = Case(file, value["name"], files, stamps, as_steps(where, value))
    check_paths(where, case)
    if "nodes" not in value:
        yield case
        return
    for nodes in as_list(f"{where}: nodes", value["nodes"]):
        count = as_number(f"{where}: nodes", nodes)
        steps = with_nodes(case.steps, count)
        yield Case(file, f"{case.name} ({count} nodes)", files, stamps, steps)


# ---- Rows -------------------------------------------------------------------------------------


def filled_text(where: str, text: str, let: dict[str, Any]) -> str:
    """A text with each placeholder replaced by a text."""
    def one(found: re.Match[str]) -> str:
        need(found[1] in let, where, f"the placeholder `{found[1]}` has no value")
        need(isinstance(let[found[1]], str), where, f"`{found[1]}` is no text")
        return let[found[1]]
    return PLACEHOLDER.sub(one, text)


def filled(where: str, value: Any, let: dict[str, Any]) -> Any:
    """A value with each placeholder in its texts and keys replaced."""
    if isinstance(value, str):
        whole = PLACEHOLDER.fullmatch(value)
        return let[whole[1]] if whole and whole[1] in let else filled_text(where, value, let)
    if isinstance(value, list):
        return [filled(where, part, let) for part in value]
    if isinstance(value, dict):
        return {filled_text(where, key, let): filled(where, part, let)
                for key, part in value.items()}
    return value


def row_case(where: str, case: dict[str, Any], row: Any, number: int) -> dict[str, Any]:
    """The case that one row makes of the case it stands in."""
    check_keys(where, row, CASE_KEYS | {"let"})
    let = row.get("let", {})
    need(isinstance(let, dict), where, "`let` is no object")
    mixed = {key: value for key, value in case.items() if key != "rows"}
    mixed.update((key, value) for key, value in row.items() if key != "let")
    made = filled(where, mixed, let)
    if made["name"] == case["name"]:
        made["name"] = f"{case['name']}, row {number}"
    return made


def with_rows(where: str, case: Any) -> Iterator[dict[str, Any]]:
    """The case itself, or the cases that its rows make."""
    check_keys(where, case, CASE_KEYS | {"rows"})
    need(isinstance(case.get("name"), str) and case["name"] != "", where, "`name` is wanted")
    inner = f"{where} `{case['name']}`"
    if "rows" not in case:
        yield filled(inner, case, {})
        return
    for number, row in enumerate(as_list(f"{inner}: rows", case["rows"]), 1):
        yield row_case(f"{inner}: row {number}", case, row, number)


# ---- Files of cases ---------------------------------------------------------------------------


def only_once(pairs: list[tuple[str, Any]]) -> dict[str, Any]:
    """An object of JSON, in which no key may stand twice."""
    made = dict(pairs)
    if len(made) != len(pairs):
        twice = next(key for key, _ in pairs if sum(key == other for other, _ in pairs) > 1)
        raise CaseError(f"the key `{twice}` stands twice in an object")
    return made


def read_json(path: Path) -> Any:
    """The value of a file of cases."""
    try:
        return json.loads(path.read_text("utf-8"), object_pairs_hook=only_once)
    except OSError as fault:
        raise CaseError(f"{path}: {fault.strerror}") from None
    except (ValueError, CaseError) as fault:
        raise CaseError(f"{path}: {fault}") from None


def read_cases(path: Path, name: str | None) -> list[Case]:
    """The cases of a file: all of them, or those of one name with all its rows."""
    value = read_json(path)
    check_keys(str(path), value, {"shows", "cases"})
    need(set(value) == {"shows", "cases"}, str(path), "`shows` and `cases` are wanted")
    as_text(f"{path}: shows", value["shows"])
    cases: list[Case] = []
    names: set[str] = set()
    for number, given in enumerate(as_list(f"{path}: cases", value["cases"]), 1):
        for made in with_rows(f"{path}: case {number}", given):
            need(made["name"] not in names, str(path), f"the name `{made['name']}` stands twice")
            names.add(made["name"])
            read = list(as_cases(path.name, f"{path}: `{made['name']}`", made))
            cases += read if name in (None, given["name"], made["name"]) else []
    need(cases != [], str(path), f"no case of the name `{name}`")
    return cases


# ---- Running ----------------------------------------------------------------------------------


@dataclass
class Seen:
    """What a file in the folder of a case holds, and when it was changed."""

    content: bytes | None  # None of a large file, which is known by the time of its last change
    size: int
    stamp: int
    changed: int


def look_at(path: str, told: os.stat_result) -> Seen:
    """One file."""
    if told.st_size > LARGE:
        return Seen(None, told.st_size, told.st_mtime_ns, told.st_ctime_ns)
    content = b""
    if told.st_size > 0:
        with open(path, "rb") as opened:
            content = opened.read()
    return Seen(content, told.st_size, told.st_mtime_ns, 0)


def look(folder: str | Path, prefix: str = "") -> dict[str, Seen]:
    """All files below a folder, by their paths in it."""
    files = {}
    with os.scandir(folder) as entries:
        for entry in entries:
            if entry.is_dir(follow_symlinks=False):
                files.update(look(entry.path, f"{prefix}{entry.name}/"))
            else:
                files[prefix + entry.name] = look_at(entry.path, entry.stat())
    return files


def set_stamp(folder: Path, path: str, stamp: int) -> None:
    """Give a file its time, in nanoseconds."""
    os.utime(folder / path, ns=(stamp, stamp))


def write_file(folder: Path, path: str, content: Content, stamp: int) -> None:
    """Write a file of a case, with the folders above it."""
    target = os.path.join(folder, path)
    if "/" in path:
        os.makedirs(os.path.dirname(target), exist_ok=True)
    with open(target, "wb") as opened:
        if isinstance(content, Zeros):
            opened.truncate(content.count)
        else:
            opened.write(content)
    os.utime(target, ns=(stamp, stamp))


def make_edits(folder: Path, step: Step) -> None:
    """Change, remove and stamp files before a step."""
    newest = max((seen.stamp for seen in look(folder).values()), default=0) if step.edits else 0
    for path, content in step.edits.items():
        if content is None:
            (folder / path).unlink(missing_ok=True)
        else:
            write_file(folder, path, content, newest + SECOND)
    for path, stamp in step.stamps.items():
        if (folder / path).exists():
            set_stamp(folder, path, stamp * SECOND)


def first_difference(wanted: bytes, got: bytes) -> str:
    """The first line that differs."""
    def shown(line: bytes | None) -> str:
        return "no line" if line is None else repr(line[:200].decode("utf-8", "backslashreplace"))
    wanted_lines, got_lines = wanted.split(b"\n"), got.split(b"\n")
    for number in range(max(len(wanted_lines), len(got_lines))):
        left = wanted_lines[number] if number < len(wanted_lines) else None
        right = got_lines[number] if number < len(got_lines) else None
        if left != right:
            return f"line {number + 1}: wanted {shown(left)}, got {shown(right)}"
    return "nothing differs"


def difference(folder: Path, path: str, old: Seen | None, new: Seen | None,
               writes: dict[str, bytes | None]) -> str | None:
    """What is wrong with a file that was there before a step, is there behind it, or is wanted."""
    if path not in writes:
        if old == new:
            return None
        return f"was {'removed' if new is None else 'written'}, and that is not wanted"
    wanted = writes[path]
    if wanted is None:
        return None if new is None else "is still there"
    if new is None or (old is not None and new.stamp == old.stamp):
        return "was not written"
    got = (folder / path).read_bytes()
    return None if got == wanted else first_difference(wanted, got)


def differing_file(folder: Path, step: Step, before: dict[str, Seen],
                   after: dict[str, Seen]) -> str | None:
    """The first file, in order of paths, that is not as it is wanted."""
    for path in sorted(set(before) | set(after) | set(step.writes)):
        wrong = difference(folder, path, before.get(path), after.get(path), step.writes)
        if wrong is not None:
            return f"`{path}`: {wrong}"
    return None


def run_step(program: Path, folder: Path, step: Step) -> str | None:
    """Run one step; what differs from the wanted answer, or None."""
    make_edits(folder, step)
    before = look(folder)
    try:
        run = subprocess.run([program, *step.words], cwd=folder, stdin=subprocess.DEVNULL,
                             capture_output=True, timeout=SECONDS, check=False)
    except subprocess.TimeoutExpired:
        return f"no end within {SECONDS} seconds"
    after = look(folder)
    if step.wrote_stamp is not None:
        for path in (path for path in after if after[path] != before.get(path)):
            set_stamp(folder, path, step.wrote_stamp * SECOND)
    if run.returncode != step.status:
        printed = run.stdout[:200].decode("utf-8", "backslashreplace")
        return f"status: wanted {step.status}, got {run.returncode} with {printed!r}"
    if step.prints is not None and run.stdout not in step.prints:
        one = "" if len(step.prints) == 1 else f"none of {len(step.prints)} outputs; of the first, "
        return one + first_difference(step.prints[0], run.stdout)
    return differing_file(folder, step, before, after)


def run_case(program: Path, case: Case) -> str | None:
    """Run a case in a folder of its own; its line of failure, or None."""
    shared = "/dev/shm" if os.access("/dev/shm", os.W_OK) else None
    folder = Path(tempfile.mkdtemp(prefix="msb-case-", dir=shared))
    try:
        for path, content in case.files.items():
            write_file(folder, path, content, case.stamps.get(path, 1) * SECOND)
        for number, step in enumerate(case.steps, 1):
            if number > 1:
                time.sleep(0.02)  # so that a file that is written again has another time
            wrong = run_step(program, folder, step)
            if wrong is not None:
                place = f"step {number}: " if len(case.steps) > 1 else ""
                return f"FAIL {case.file}: {case.name}: {place}{wrong}"
        return None
    except OSError as fault:
        return f"FAIL {case.file}: {case.name}: {fault}"
    finally:
        shutil.rmtree(folder, ignore_errors=True)


def chosen(words: list[str]) -> Iterator[tuple[Path, str | None]]:
    """The files to run, each with the name of a case where one is given."""
    if not words:
        words = sorted(map(str, (Path(__file__).parent / "cases").glob("*.json")))
    for word in words:
        head, found, name = word.partition(".json:")
        yield (Path(f"{head}.json"), name) if found else (Path(word), None)


def run_all(run: Callable[[Case], str | None], cases: list[Case]) -> int:
    """Run the cases, several at once, print what failed, and give the status."""
    sys.stdout.reconfigure(errors="backslashreplace")
    with ThreadPoolExecutor(os.cpu_count() or 1) as pool:
        failures = 0
        for line in pool.map(run, cases):
            if line is not None:
                failures += 1
                print(line, flush=True)
    print(f"{len(cases) - failures} passed, {failures} failed")
    return 0 if cases and failures == 0 else 1


def main(words: list[str]) -> int:
    """Run the cases that the words name; the status of the script."""
    try:
        need(words != [] and words[0][:1] != "-", "usage", USAGE)
        program = Path(words[0]).resolve()
        need(os.access(program, os.X_OK) and program.is_file(), words[0], "no program")
        cases = [case for path, name in chosen(words[1:]) for case in read_cases(path, name)]
    except CaseError as fault:
        print(f"run_cases.py: {fault}", file=sys.stderr)
        return 2
    return run_all(lambda case: run_case(program, case), cases)


if __name__ == "__main__":
    sys.exit(main(sys.argv[1:]))
