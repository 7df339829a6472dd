#!/usr/bin/env python3
"""Build generated sets of projects by a built program, and compare with what the rules give.

usage: tests/generated_sets.py PROGRAM [SETS]

SETS is how many sets of each kind are made, 200 where it is not given. Random projects have two
targets, whose bodies call some targets of others, and write what these return. Where no run needs
itself, text and files have to be those of a recursion that shares nothing, on any number of nodes;
else the build is refused with runs each of which calls the next. The sets of the action `trial`
are made here again, by the rule of docs/FORMATS.md, built, and tried. At last come sets at the
limits: 128 nested requests, 4,096 instances, and 64 files that import each other in a chain. Each
set that fails prints a line `FAIL SET: what differs`; the last line is `N passed, M failed`. The
status is 0 where nothing failed, 1 elsewhere, and 2 for wrong words.
"""

import json
import os
import shutil
import subprocess
import sys
import tempfile
from concurrent.futures import ThreadPoolExecutor
from dataclasses import dataclass
from pathlib import Path
from random import Random
from typing import Any, Callable

USAGE = "generated_sets.py PROGRAM [SETS]"
SECONDS = 60
NODES = (1, 2, 4, 16, 64)
SHARED = "/dev/shm" if os.access("/dev/shm", os.W_OK) else None

Files = dict[str, str]
Run = tuple[int, int]  # a project and one of its targets
Journal = tuple[Run, ...]  # the runs that have ended, in order


@dataclass
class Outcome:
    """What a program has answered, and the files that it has written."""

    status: int
    text: str
    files: Files


@dataclass
class Check:
    """A set of projects, the words of runs over it, and what each of them has to answer."""

    name: str
    files: Files
    words: list[list[str]]
    differs: Callable[[Outcome], str | None]


# ---- Running ----------------------------------------------------------------------------------


def lay_out(folder: Path, files: Files) -> None:
    """Write the files of a set."""
    for path, text in files.items():
        (folder / path).parent.mkdir(parents=True, exist_ok=True)
        (folder / path).write_text(text)


def written(folder: Path, before: Files) -> Files:
    """The files of a folder that are not as they were."""
    files = [path for path in folder.rglob("*") if path.is_file()]
    after = {str(path.relative_to(folder)): path.read_text() for path in files}
    return {path: text for path, text in after.items() if before.get(path) != text}


def answered(program: Path, files: Files, words: list[str]) -> Outcome:
    """Run the program in a fresh folder with these files."""
    with tempfile.TemporaryDirectory(prefix="msb-set-", dir=SHARED) as name:
        lay_out(Path(name), files)
        run = subprocess.run([program, *words], cwd=name, stdin=subprocess.DEVNULL,
                             capture_output=True, timeout=SECONDS, check=False)
        text = run.stdout.decode("utf-8", "backslashreplace")
        return Outcome(run.returncode, text, written(Path(name), files))


def failures(program: Path, check: Check) -> list[str]:
    """The lines of the runs of a set that answer otherwise."""
    lines = []
    for words in check.words:
        try:
            wrong = check.differs(answered(program, check.files, words))
        except subprocess.TimeoutExpired:
            wrong = f"no end within {SECONDS} seconds"
        if wrong is not None:
            lines.append(f"FAIL {check.name}: {' '.join(words)}: {wrong}")
    return lines


def is_outcome(wanted: Outcome) -> Callable[[Outcome], str | None]:
    """Tells what differs from this outcome."""
    def differs(got: Outcome) -> str | None:
        if got.status != wanted.status:
            return f"status: wanted {wanted.status}, got {got.status} with {got.text[:200]!r}"
        if got.text != wanted.text:
            return f"text: wanted {wanted.text[:400]!r}, got {got.text[:400]!r}"
        if got.files != wanted.files:
            return f"files: wanted {str(wanted.files)[:400]}, got {str(got.files)[:400]}"
        return None
    return differs


def text_of(lines: list[str]) -> str:
    """Lines, each of them ended."""
    return "".join(f"{line}\n" for line in lines)


def on_nodes(words: list[str], nodes: tuple[int, ...]) -> list[list[str]]:
    """The words of a build by each number of nodes."""
    return [[*words, "--nodes", str(number)] for number in nodes]


# ---- Random projects --------------------------------------------------------------------------


@dataclass(frozen=True)
class Call:
    """One MSBuild task: the projects, the targets of each, and whether they are called at once."""

    projects: tuple[int, ...]
    targets: tuple[int, ...]
    at_once: bool


class World:
    """Some projects with two targets each, and what the body of each target calls, in order."""

    def __init__(self, seed: int, may_call_all: bool) -> None:
        random = Random(seed)
        self.size = random.randint(3, 7)
        self.calls: dict[Run, list[Call]] = {}
        self.known: dict[tuple[Run, Journal], Journal] = {}
        for project in range(self.size):
            first = 0 if may_call_all else project + 1
            for target in range(2):
                self.calls[project, target] = some_calls(random, range(first, self.size))

    def after_run(self, run: Run, journal: Journal) -> Journal:
        """The runs that have ended behind this one; those of the journal had ended before."""
        if run in journal:
            return journal
        if (run, journal) not in self.known:
            self.known[run, journal] = (*self.after_body(run, journal), run)
        return self.known[run, journal]

    def after_body(self, run: Run, journal: Journal) -> Journal:
        """The same behind what a body calls."""
        for call in self.calls[run]:
            journal = self.after_call(call, journal)
        return journal

    def after_request(self, project: int, targets: tuple[int, ...], journal: Journal) -> Journal:
        """The same behind some targets of a project."""
        for target in targets:
            journal = self.after_run((project, target), journal)
        return journal

    def after_call(self, call: Call, journal: Journal) -> Journal:
        """The same behind a task: calls at once begin alike, and are joined in order."""
        joined = list(journal)
        for project in call.projects:
            begin = journal if call.at_once else tuple(joined)
            after = self.after_request(project, call.targets, begin)
            joined += [run for run in after if run not in joined]
        return tuple(joined)

    def called(self, run: Run) -> list[Run]:
        """The runs that a body calls, in order."""
        return [(project, target) for call in self.calls[run]
                for project in call.projects for target in call.targets]

    def needs_itself(self, run: Run, above: Journal) -> bool:
        """Whether a run that this one needs needs itself."""
        path = (*above, run)
        return run in above or any(self.needs_itself(one, path) for one in self.called(run))


def some_calls(random: Random, projects: range) -> list[Call]:
    """At most two tasks, each of which calls some of these projects."""
    most = max(3, len(projects))
    calls = []
    for _ in range(random.randint(0, 2)):
        chosen = [project for project in projects if random.randrange(most) < 2]
        targets = random.choice(((0,), (1,), (0, 1)))
        if chosen:
            calls.append(Call(tuple(chosen), targets, random.random() < 0.5))
    return calls


def project_text(world: World, project: int) -> str:
    """The file of a project of a world."""
    targets = [target_element(world, (project, target)) for target in range(2)]
    return json.dumps({"e": "Project", "c": targets})


def target_element(world: World, run: Run) -> dict[str, Any]:
    """A target that makes its calls, and then writes its name and what they have returned."""
    made = f"O{run[1]}"
    tasks = [call_element(call, made) for call in world.calls[run]]
    lines = {"File": output_of(run), "Lines": f"{name_of(run)};@({made})", "Overwrite": "true"}
    tasks.append({"e": "WriteLinesToFile", "a": lines})
    return {"e": "Target", "a": {"Name": f"T{run[1]}", "Outputs": output_of(run)}, "c": tasks}


def call_element(call: Call, made: str) -> dict[str, Any]:
    """The MSBuild task of a call, which puts what is returned into a list."""
    attributes = {
        "Projects": ";".join(f"p{project}.proj" for project in call.projects),
        "Targets": ";".join(f"T{target}" for target in call.targets),
        "BuildInParallel": "true" if call.at_once else "false",
    }
    outputs = {"TaskParameter": "TargetOutputs", "ItemName": made}
    return {"e": "MSBuild", "a": attributes, "c": [{"e": "Output", "a": outputs}]}


def name_of(run: Run) -> str:
    """A run, as its file has it."""
    return f"p{run[0]}t{run[1]}"


def output_of(run: Run) -> str:
    """The file that a run writes and returns."""
    return f"out/{name_of(run)}.txt"


def line_of(run: Run) -> str:
    """A run, as it is printed."""
    return f"p{run[0]}.proj : t{run[1]}"


def world_files(world: World) -> Files:
    """The projects of a world."""
    return {f"p{project}.proj": project_text(world, project) for project in range(world.size)}


def meant(world: World) -> Outcome:
    """What the two targets of the first project come to where no run needs itself."""
    journal = world.after_request(0, (0, 1), ())
    lines = [f"{line_of(run)} ran" for run in journal]
    lines += ["returned 2", f"  {output_of((0, 0))}", f"  {output_of((0, 1))}", "build succeeded"]
    return Outcome(0, text_of(lines), {output_of(run): output_text(world, run) for run in journal})


def output_text(world: World, run: Run) -> str:
    """What a run writes: its name, and what the runs that it calls return."""
    return text_of([name_of(run), *map(output_of, world.called(run))])


def shows_circle(world: World) -> Callable[[Outcome], str | None]:
    """Tells where a refusal does not show runs each of which calls the next, in a circle."""
    runs = {f"  {line_of(run)}": run for run in world.calls}
    def differs(got: Outcome) -> str | None:
        head, *lines = got.text.splitlines() or [""]
        if got.status != 4 or head != "circular request" or got.files:
            return f"no circle: status {got.status} with {got.text[:200]!r}, {got.files}"
        circle = [runs.get(line) for line in lines]
        if None in circle or len(circle) < 2 or circle[0] != circle[-1]:
            return f"not from one run to itself: {lines}"
        if any(after not in world.called(before) for before, after in zip(circle, circle[1:])):
            return f"one does not call the next: {lines}"
        return None
    return differs


def random_check(seed: int, may_call_all: bool) -> Check:
    """A random world, built on any number of nodes."""
    world = World(seed, may_call_all)
    is_circle = any(world.needs_itself((0, target), ()) for target in range(2))
    differs = shows_circle(world) if is_circle else is_outcome(meant(world))
    words = on_nodes(["build", "p0.proj", "--target", "T0;T1"], NODES)
    kind = "circle" if is_circle else "random"
    return Check(f"{kind} {seed}", world_files(world), words, differs)


# ---- The sets of `trial` ----------------------------------------------------------------------


def compact(value: Any) -> str:
    """JSON as the generated sets have it: no spaces, and keys in byte order."""
    return json.dumps(value, sort_keys=True, separators=(",", ":"))


def draws(seed: int) -> Callable[[], int]:
    """The numbers that are drawn from a seed."""
    state = seed
    def draw() -> int:
        nonlocal state
        state = (state * 6364136223846793005 + 1442695040888963407) % 2**64
        return state // 2**33
    return draw


def trial_calls(seed: int, size: int) -> list[list[int]]:
    """The projects that each project calls, the first one first."""
    draw = draws(seed)
    calls: list[list[int]] = [[]]
    for number in range(2, size + 1):
        count = draw() % 4
        calls.append(sorted({1 + draw() % (number - 1) for _ in range(count)}))
    return calls


def trial_task(projects: list[int], made: str | None) -> dict[str, Any]:
    """The MSBuild task of a generated project."""
    names = ";".join(f"p{number}.proj" for number in projects)
    task: dict[str, Any] = {"e": "MSBuild", "a": {"BuildInParallel": "true", "Projects": names}}
    if made is not None:
        task["c"] = [{"e": "Output", "a": {"ItemName": made, "TaskParameter": "TargetOutputs"}}]
    return task


def trial_project(number: int, called: list[int]) -> str:
    """The file of a generated project."""
    path = f"out/p{number}.txt"
    lines = {"File": path, "Lines": f"p{number};@(O)", "Overwrite": "true"}
    tasks = [trial_task(called, "O")] if called else []
    tasks.append({"e": "WriteLinesToFile", "a": lines})
    target = {"e": "Target", "a": {"Name": "Build", "Outputs": path}, "c": tasks}
    return compact({"e": "Project", "c": [target]})


def trial_files(calls: list[list[int]]) -> Files:
    """The files of a generated set."""
    every = list(range(1, len(calls) + 1))
    target = {"e": "Target", "a": {"Name": "Build"}, "c": [trial_task(every, None)]}
    files = {"all.proj": compact({"e": "Project", "c": [target]})}
    for number, called in enumerate(calls, 1):
        files[f"p{number}.proj"] = trial_project(number, called)
    return files


def trial_outputs(calls: list[list[int]]) -> Files:
    """What a generated set writes: each its name, and the files of those that it calls."""
    return {f"out/p{number}.txt": text_of([f"p{number}", *(f"out/p{one}.txt" for one in called)])
            for number, called in enumerate(calls, 1)}


def trial_build(seed: int, size: int) -> Check:
    """A generated set, built. Projects call those of lower numbers, so they end in their order."""
    calls = trial_calls(seed, size)
    names = [f"p{number}" for number in range(1, size + 1)] + ["all"]
    lines = [f"{name}.proj : build ran" for name in names]
    text = text_of([*lines, "returned 0", "build succeeded"])
    wanted = Outcome(0, text, trial_outputs(calls))
    words = on_nodes(["build", "all.proj"], NODES)
    return Check(f"generated {seed}", trial_files(calls), words, is_outcome(wanted))


def trial_told(seed: int, size: int, nodes: int) -> Check:
    """A generated set, as the action `trial` tells it."""
    outputs = trial_outputs(trial_calls(seed, size))
    count = sum(map(len, outputs.values()))
    text = text_of([f"trial {seed} size {size} nodes {nodes}", f"runs {size + 1}", f"files {size}",
                    f"bytes {count}", "equal"])
    words = [["trial", str(seed), "--size", str(size), "--nodes", str(nodes)]]
    return Check(f"trial {seed}", {}, words, is_outcome(Outcome(0, text, {})))


# ---- Limits -----------------------------------------------------------------------------------


def calling(projects: str) -> str:
    """A project that calls others at once."""
    task = {"e": "MSBuild", "a": {"Projects": projects, "BuildInParallel": "true"}}
    return json.dumps({"e": "Project", "c": [{"e": "Target", "a": {"Name": "Build"}, "c": [task]}]})


def nested(count: int) -> Check:
    """So many projects, each of which calls the next one."""
    names = [f"p{number}.proj" for number in range(count)]
    files = {name: calling(after) for name, after in zip(names, [*names[1:], ""])}
    lines = [f"{name} : build ran" for name in reversed(names)] + ["returned 0", "build succeeded"]
    if count > 128:
        lines = ["too deep"] + [f"  {name}" for name in names[:129]]
    wanted = Outcome(4 if count > 128 else 0, text_of(lines), {})
    words = on_nodes(["build", "p0.proj"], (1, 8))
    return Check(f"{count} nested", files, words, is_outcome(wanted))


def side_by_side(count: int) -> Check:
    """A project that calls others, so many in all."""
    names = [f"p{number}.proj" for number in range(1, count)]
    files = {name: calling("") for name in names} | {"p0.proj": calling(";".join(names))}
    lines = [f"{name} : build ran" for name in [*names, "p0.proj"]]
    lines += ["returned 0", "build succeeded"]
    if count > 4096:
        lines = ["too many instances", f"  {names[4095]}"]
    wanted = Outcome(4 if count > 4096 else 0, text_of(lines), {})
    words = on_nodes(["build", "p0.proj"], (1, 8))
    return Check(f"{count} instances", files, words, is_outcome(wanted))


def importing(name: str, after: str | None) -> str:
    """A file that sets a property to its name, and then imports another one."""
    group = {"e": "PropertyGroup", "c": [{"e": "P", "t": name}]}
    imports = [] if after is None else [{"e": "Import", "a": {"Project": after}}]
    return json.dumps({"e": "Project", "c": [group, *imports]})


def imported(count: int) -> Check:
    """So many files, each of which imports the next one; the 64th may not."""
    names = [f"f{number}.props" for number in range(count)]
    files = {name: importing(name, after) for name, after in zip(names, [*names[1:], None])}
    lines = [f"property p={names[-1]}"]
    if count > 64:
        lines = ["project refused", f"  {names[63]} /1: 22 ImportDepth"]
    wanted = Outcome(3 if count > 64 else 0, text_of(lines), {})
    return Check(f"{count} imported", files, [["eval", names[0]]], is_outcome(wanted))


# ---- All of them ------------------------------------------------------------------------------


def checks(sets: int) -> list[Check]:
    """So many sets of each kind, and those at the limits."""
    made = [random_check(seed, False) for seed in range(sets)]
    made += [random_check(seed, True) for seed in range(sets)]
    made += [trial_build(seed, 1 + seed % 16) for seed in range(sets)]
    made += [trial_told(seed, 1 + seed % 100, (1, 2, 64)[seed % 3]) for seed in range(sets)]
    made += [trial_told(2**64 - 1, 100, 64), nested(128), nested(129), nested(130)]
    made += [side_by_side(4096), side_by_side(4097), side_by_side(4098)]
    return made + [imported(64), imported(65), imported(66)]


def run_all(program: Path, sets: int) -> int:
    """Run the program over all sets, several at once, and give the status."""
    failed, every = 0, checks(sets)
    with ThreadPoolExecutor(os.cpu_count() or 1) as pool:
        for lines in pool.map(lambda check: failures(program, check), every):
            failed += bool(lines)
            for line in lines:
                print(line, flush=True)
    print(f"{len(every) - failed} passed, {failed} failed")
    return 0 if failed == 0 else 1


def main(words: list[str]) -> int:
    """Read the words; the status of the script."""
    program = shutil.which(str(Path(words[0]).resolve())) if words else None
    sets = words[1] if len(words) == 2 else "200"
    if program is None or len(words) > 2 or not sets.isdecimal() or int(sets) == 0:
        print(f"usage: {USAGE}", file=sys.stderr)
        return 2
    return run_all(Path(program), int(sets))


if __name__ == "__main__":
    sys.exit(main(sys.argv[1:]))
