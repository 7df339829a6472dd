#!/usr/bin/env python3
"""Build random sets of projects in increments and from nothing, and compare what they leave.

usage: tests/incremental_sets.py PROGRAM [SETS]

SETS is how many sets are made, 200 where it is not given. In tests/increments stand what a build
means and the premises of docs/INCREMENTAL.md, as plain code. A set is built, and again after each
of some changes of its files; the changes are drawn until that code tells that the set is declared
and fresh. Each time the builds on 1 and on 8 nodes have to leave the files, the status and the
returned items of a clean build. Where the set is also settled and repeated, what was left has to be
fresh again and up to date, and the next build has to skip each piece and to write nothing of them.
The same is looked at for an ordinary set of projects that share an import. At last come sets that
break one rule each: the code has to tell the rule, and an incremental build to leave something else
than a clean one. Each set that fails prints a line `FAIL SET: what differs`; the last line is `N
passed, M failed`. The status is 0 where nothing failed, 1 elsewhere, and 2 for wrong words.
"""

import os
import re
import shutil
import subprocess
import sys
import tempfile
from collections import Counter
from concurrent.futures import ThreadPoolExecutor
from dataclasses import dataclass
from pathlib import Path
from random import Random

sys.dont_write_bytecode = True

from increments.builds import NOTHING, SKIP, Act, Build, File, Record, Tree, View  # noqa: E402
from increments.premises import (  # noqa: E402
    DECLARED, is_declared, is_fresh, is_repeated, is_settled, is_up_to_date,
)
from increments.sets import (  # noqa: E402
    ROOT, Broken, broken_sets, changed, ordinary_set, random_set, with_text,
)

USAGE = "incremental_sets.py PROGRAM [SETS]"
SECONDS = 60
INCREMENTS = 2
DRAWS = 200  # changes that are drawn at most until the premises hold
SECOND = 10**9  # nanoseconds; stamps of trees are whole seconds
CLEAN, NODES = ("--clean",), (("--nodes", "1"), ("--nodes", "8"))
SHARED = "/dev/shm" if os.access("/dev/shm", os.W_OK) else None

Words = dict[tuple[str, str], list[str]]  # of each run, what was decided of its buckets


# ---- Running ------------------------------------------------------------------------------------


@dataclass
class Outcome:
    """The status of a build, the returned items and the end as they are printed, and all files."""

    status: int
    returned: list[str]
    texts: dict[str, str]


@dataclass
class Built:
    """What a build has come to: its outcome, the words of its runs, the tree that it leaves with
    its stamps in their order, and the paths that it has written."""

    outcome: Outcome
    words: Words
    tree: Tree
    written: set[str]


def lay_out(folder: str, tree: Tree) -> None:
    """Write the files of a tree, with their stamps."""
    for path, file in tree.items():
        place = os.path.join(folder, path)
        os.makedirs(os.path.dirname(place), exist_ok=True)
        with open(place, "w", encoding="utf-8") as written:
            written.write(file.text)
        os.utime(place, ns=(file.stamp * SECOND, file.stamp * SECOND))


def read_back(folder: str) -> Tree:
    """The files of a folder, with their stamps in nanoseconds."""
    places = [os.path.join(inner, name) for inner, _, names in os.walk(folder) for name in names]
    tree: Tree = {}
    for place in places:
        with open(place, encoding="utf-8") as read:
            text = read.read()
        tree[os.path.relpath(place, folder)] = File(text, os.stat(place).st_mtime_ns)
    return tree


def ranked(tree: Tree) -> Tree:
    """A tree whose stamps are small numbers in the same order."""
    order = sorted({file.stamp for file in tree.values()})
    rank = {stamp: place for place, stamp in enumerate(order, 1)}
    return {path: File(file.text, rank[file.stamp]) for path, file in tree.items()}


def run_words(printed: list[str]) -> Words:
    """What is printed of the buckets of each run."""
    found = [re.fullmatch(r"(\S+) : (\S+) (.+)", line) for line in printed]
    return {(one[1], one[2]): one[3].split(", ") for one in found if one is not None}


def built(program: Path, tree: Tree, words: tuple[str, ...], root: str = ROOT) -> Built:
    """Build a tree in a fresh folder."""
    with tempfile.TemporaryDirectory(prefix="msb-set-", dir=SHARED) as name:
        lay_out(name, tree)
        run = subprocess.run([program, "build", root, *words], cwd=name, timeout=SECONDS,
                             stdin=subprocess.DEVNULL, capture_output=True, check=False)
        left = read_back(name)
    printed = run.stdout.decode("utf-8", "backslashreplace").splitlines()
    heads = [at for at, line in enumerate(printed) if line.startswith("returned ")]
    texts = {path: file.text for path, file in left.items()}
    outcome = Outcome(run.returncode, printed[heads[-1]:] if heads else printed, texts)
    written = {path for path, file in left.items()
               if path not in tree or tree[path].stamp * SECOND != file.stamp}
    return Built(outcome, run_words(printed), ranked(left), written)


def meant(build: Build) -> Outcome:
    """The outcome that a build means."""
    items = [item.identity for _, found in build.result.returned for item in found]
    end = "build succeeded" if build.result.ok else "build failed"
    view = View(ROOT, build.tree, build.journal)
    returned = [f"returned {len(items)}", *(f"  {item}" for item in items), end]
    return Outcome(int(not build.result.ok), returned, {p: view.text(p) for p in view.paths()})


def meant_words(build: Build) -> Words:
    """The words that a build means for its runs."""
    return {(run[0], run[1].lower()): list(entry.words)
            for (run, _), entry in build.journal.items() if isinstance(entry, Record)}


def difference(what: str, got: Outcome, wanted: Outcome) -> str | None:
    """Tells what differs from a wanted outcome."""
    for name in ("status", "returned", "texts"):
        if getattr(got, name) != getattr(wanted, name):
            return (f"{what}: {name}: wanted {str(getattr(wanted, name))[:400]}, "
                    f"got {str(getattr(got, name))[:400]}")
    return None


# ---- Sets that keep the premises ----------------------------------------------------------------


def holds(clean: Build) -> bool:
    """Whether a set may be built in increments."""
    return is_declared(clean) and is_fresh(clean)


def first_tree(draw: Random) -> Tree:
    """The files of a random set of which the premises hold."""
    while True:
        tree = {path: File(text, 1) for path, text in random_set(draw).items()}
        if holds(Build(tree, ROOT, clean=True)):
            return tree


class Set:
    """A random set that is built by a program in increments, and what was seen of its builds."""

    def __init__(self, program: Path, number: int) -> None:
        self.program, self.number = program, number
        self.draw = Random(f"increments {number}")
        self.seen: Counter[str] = Counter()

    def next_tree(self, tree: Tree) -> Tree:
        """A changed tree of which the premises hold. The first one of which they don't is built
        too, to see whether it matters."""
        for number in range(DRAWS):
            after = changed(self.draw, tree)
            if holds(Build(after, ROOT, clean=True)):
                return after
            if number == 0:
                one, other = (built(self.program, after, words) for words in (CLEAN, NODES[0]))
                self.seen["premises fail"] += 1
                self.seen["differ there"] += one.outcome != other.outcome
        raise ValueError(f"the premises hold after none of {DRAWS} changes")

    def wrong_builds(self, tree: Tree, step: int) -> tuple[str | None, Tree]:
        """What is wrong in the builds of a tree, and a tree that they leave."""
        clean, first = (Build(tree, ROOT, clean=mode) for mode in (True, False))
        wanted, left = meant(clean), []
        wrong = difference("clean", built(self.program, tree, CLEAN).outcome, wanted)
        for words in NODES:
            left.append(built(self.program, tree, words))
            wrong = wrong or difference(" ".join(words), left[-1].outcome, wanted)
            if wrong is None and left[-1].words != meant_words(first):
                wrong = f"{words}: wanted {meant_words(first)}, got {left[-1].words}"
        if step > 0:
            self.seen.update(word.split()[0] for found in left[0].words.values() for word in found)
            self.seen["failed builds"] += not clean.result.ok
            self.seen["builds that remove"] += any(
                isinstance(entry, Act) and entry.text is None for entry in clean.journal.values())
        after = left[step % len(left)].tree
        return wrong or self.wrong_second(clean, first, after), after

    def wrong_second(self, clean: Build, first: Build, left: Tree) -> str | None:
        """What is wrong in the tree that a build left, and in the build of that tree, where the
        set is settled and repeated."""
        again = Build(left, ROOT, clean=True)
        if not (clean.result.ok and is_settled(first) and is_repeated(clean, again)):
            return None
        self.seen["settled and repeated"] += 1
        if not is_fresh(again) or not is_up_to_date(again):
            return "what a build left is not fresh, or not up to date"
        if not is_declared(again):
            return None
        self.seen["second builds"] += 1
        second = built(self.program, left, NODES[0])
        return not_skipped(again, second) or difference("second", second.outcome, meant(again))

    def wrong_step(self) -> str | None:
        """What is wrong in the first build or after one of the changes."""
        tree = first_tree(self.draw)
        for step in range(INCREMENTS + 1):
            tree = self.next_tree(tree) if step > 0 else tree
            wrong, tree = self.wrong_builds(tree, step)
            if wrong is not None:
                return f"set {self.number}, step {step}: {wrong}"
        return None

    def wrong(self) -> str | None:
        """The same, also where it can't be built."""
        try:
            return self.wrong_step()
        except (ValueError, subprocess.TimeoutExpired) as fault:
            return f"set {self.number}: {fault}"


def not_skipped(again: Build, second: Built) -> str | None:
    """Tells where a build does not print `up to date` for a piece, or writes a file that no run
    without a piece writes."""
    for o in again.demand:
        words = second.words.get((o.body.run[0], o.body.run[1].lower()), [])
        if o.pieces and (words.count(SKIP) != len(o.pieces) or {*words} - {SKIP, NOTHING}):
            return f"second: {o.body.run}: {words} for {len(o.pieces)} pieces"
    free = {act.path for o in again.demand if not o.pieces for act in o.record.segments
            if isinstance(act, Act)}
    written = second.written - free
    return f"second: wrote {sorted(written)}" if written else None


# ---- The ordinary set ---------------------------------------------------------------------------

ORDINARY, CHANGED = "app/app.proj", "a/a2.c"
EXPECTED = {"first": ["ran"], "changed": ["partial 1 of 2"]}  # of the project with two sources


def wrong_ordinary(program: Path) -> str | None:
    """What is wrong with the set of projects that share an import: all premises hold of it, also
    after a change of a source, and its builds do what they promise."""
    tree = {path: File(text, 1) for path, text in ordinary_set().items()}
    for step, words in EXPECTED.items():
        first = Build(tree, ORDINARY, clean=False)
        if meant_words(first)["a/a.proj", "build"] != words:
            return f"ordinary, {step}: wanted {words}, meant {meant_words(first)}"
        left = built(program, tree, NODES[0], ORDINARY).tree
        if wrong := wrong_ordinary_step(program, tree, first, left):
            return f"ordinary, {step}: {wrong}"
        tree = with_text(CHANGED, "changed\n")(left)
    return None


def wrong_ordinary_step(program: Path, tree: Tree, first: Build, left: Tree) -> str | None:
    """What is wrong with its premises, its builds on 1 and 8 nodes, or the build after them."""
    clean, again = Build(tree, ORDINARY, clean=True), Build(left, ORDINARY, clean=True)
    if not (holds(clean) and is_settled(first)):
        return "not declared, not fresh or not settled"
    for words in (CLEAN, *NODES):
        made = built(program, tree, words, ORDINARY)
        if wrong := difference(" ".join(words), made.outcome, meant(clean)):
            return wrong
        if words != CLEAN and made.words != meant_words(first):
            return f"{words}: wanted {meant_words(first)}, got {made.words}"
    if not (is_repeated(clean, again) and holds(again) and is_up_to_date(again)):
        return "not repeated, or what a build left is not up to date"
    return not_skipped(again, built(program, left, NODES[0], ORDINARY))


# ---- Sets that break a rule ---------------------------------------------------------------------


def wrong_broken(program: Path, broken: Broken) -> str | None:
    """What is wrong where a rule is broken: the premises don't tell it, or nothing differs."""
    tree = {path: File(text, 1) for path, text in broken.files.items()}
    tree = broken.then(built(program, tree, NODES[0]).tree)
    clean = Build(tree, ROOT, clean=True)
    told = [rule.__name__ for rule in (*DECLARED, is_fresh) if not rule(clean)]
    if told != broken.told_by:
        return f"{broken.rule}: told by {told}, wanted {broken.told_by}"
    made = built(program, tree, CLEAN).outcome
    for words in NODES:
        if built(program, tree, words).outcome == made:
            return f"{broken.rule}: nothing differs with {' '.join(words)}"
    return difference(broken.rule, made, meant(clean))


# ---- All of them --------------------------------------------------------------------------------


def shows_too_little(seen: Counter[str], sets: int) -> str | None:
    """Tells where hardly any build was of a kind that is to be tried."""
    least = {"up": sets, "ran": sets, "partial": sets // 10, "nothing": sets // 50,
             "failed builds": sets // 50, "second builds": sets, "builds that remove": sets // 10,
             "premises fail": sets // 10, "differ there": sets // 20}
    few = {kind: seen[kind] for kind, number in least.items() if seen[kind] < number}
    return f"too few builds of a kind: {few}" if few else None


def run_all(program: Path, count: int) -> int:
    """Run the program over all sets, several at once, and give the status."""
    sets = [Set(program, number) for number in range(count)]
    with ThreadPoolExecutor(os.cpu_count() or 1) as pool:
        wrong = list(pool.map(Set.wrong, sets))
    wrong += [wrong_broken(program, broken) for broken in broken_sets()]
    wrong.append(wrong_ordinary(program))
    seen = sum((one.seen for one in sets), Counter())
    wrong.append(shows_too_little(seen, count))
    for line in filter(None, wrong):
        print(f"FAIL {line}", flush=True)
    print(", ".join(f"{kind}: {number}" for kind, number in sorted(seen.items())))
    failed = sum(line is not None for line in wrong)
    print(f"{len(wrong) - failed} passed, {failed} failed")
    return 0 if failed == 0 else 1


def main(words: list[str]) -> int:
    """Read the words; the status of the script."""
    program = shutil.which(str(Path(words[0]).resolve())) if words else None
    sets = words[1] if len(words) == 2 else "200"
    if program is None or len(words) > 2 or not sets.isdecimal() or int(sets) == 0:
        print(f"usage: {USAGE}", file=sys.stderr)
        return 2
    return run_all(Path(program), int(sets))


if __name__ == "__main__":
    sys.exit(main(sys.argv[1:]))
