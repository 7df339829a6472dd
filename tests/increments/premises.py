"""When an incremental build may be trusted to skip: docs/INCREMENTAL.md as plain code.

A *piece* is a bucket of a target that has Inputs and Outputs, where both lists name something. The
words are said of builds of small sets of projects: `is_declared`, `is_trusted`, `is_fresh`,
`is_up_to_date`, `is_settled`, `is_repeated`. Each is computed from what a build means alone, and
never from what the program does. (How to build incrementally; Target element.)
"""

from collections.abc import Iterator
from functools import lru_cache
from itertools import product

from increments.builds import (
    RUN, SKIP, Act, Build, Choice, Journal, Lists, Mark, Occurrence, Part, Piece, Run, State,
    acts_on, all_of, content, last_text,
)
from increments.texts import Items, children

FILE_LIMIT, RUN_LIMIT = 16_777_216, 67_108_864  # bytes of a file, and of all that a run writes

# ---- Ways to do a piece -------------------------------------------------------------------------


def parts(lists: Lists) -> Iterator[tuple[Items, list[bool]]]:
    """Each part of the items of a piece that takes them one by one: some of them and not all."""
    if lists.one_by_one():
        for marks in product([True, False], repeat=len(lists.items)):
            if any(marks) and not all(marks):
                kept = tuple(item for item, mark in zip(lists.items, marks) if mark)
                yield kept, list(marks)


def may_choose(lists: Lists) -> list[Choice]:
    """All that may be done with a piece: all of it, none of it, or a part."""
    return [RUN, SKIP, *(Part(items) for items, _ in parts(lists))]


@lru_cache(maxsize=256)
def ways(occurrence: Occurrence) -> list[State | None]:
    """The ends of a run, whichever of its pieces are skipped or run in part; none where it calls
    a request."""
    lists = [piece.lists for piece in occurrence.pieces]
    every = product(*map(may_choose, lists))
    return [end_by(occurrence, dict(zip(lists, chosen))) for chosen in every]


@lru_cache(maxsize=1024)
def whole_end(piece: Piece) -> State | None:
    """What comes of a piece where all of it runs."""
    return piece.end(RUN)


def end_by(occurrence: Occurrence, chosen: dict[Lists, Choice]) -> State | None:
    """The end of a run where this is chosen for its pieces."""
    def choose(lists: Lists, journal: Journal) -> Choice:
        return chosen.get(lists, all_of(lists))
    return occurrence.body.alone(
        lambda body: body.perform(occurrence.scope, occurrence.journal, choose)[0])


# ---- Declared -----------------------------------------------------------------------------------


def runs_make_one_record(clean: Build) -> bool:
    """It makes each run with one record."""
    made = {}
    return all(made.setdefault(o.body.run, o.record) == o.record for o in clean.demand)


def pieces_write_their_outputs(clean: Build) -> bool:
    """A target with Inputs and Outputs writes its Outputs and nothing else, and removes nothing."""
    return all({act.path for act in piece.acts_since(whole)} == set(piece.lists.outputs)
               and all(act.text is not None for act in piece.acts_since(whole))
               for piece, whole in succeeded(clean))


def pieces_call_nothing(clean: Build) -> bool:
    """It calls no other project, whichever of its pieces are skipped or run in part."""
    return all(end is not None for o in clean.demand if o.pieces for end in ways(o))


def outputs_are_given(clean: Build) -> bool:
    """Each Output element names a parameter that the task element gives, and the task returns just
    that list."""
    ends = [whole_end(piece) for piece in clean.pieces()]
    return all(
        name in call.params and call.answer.outputs.get(name) == call.params[name]
        for end in ends if end is not None for call in end.calls
        for name in (output["a"]["TaskParameter"].lower() for output in children(call.element)))


def parts_make_the_same(clean: Build) -> bool:
    """Where a target takes its items one by one, the same holds of each part of the items."""
    return all(part_makes_the_same(piece, whole, *part) for piece, whole in succeeded(clean)
               for part in parts(piece.lists))


def part_makes_the_same(piece: Piece, whole: State, items: Items, marks: list[bool]) -> bool:
    """Its tasks on a part succeed, write the outputs of the part with the bytes that the whole
    would write, and no others. Where the outputs of the other items are there, they change the
    same items and properties, and return the same."""
    part = piece.end(Part(items))
    if part is None or not part.ok:
        return False
    acts, all_acts = piece.acts_since(part), piece.acts_since(whole)
    own = {path for path, mark in zip(piece.lists.outputs, marks) if mark}
    others = {path for path, mark in zip(piece.lists.outputs, marks) if not mark}
    there = all(text_at(piece, path) is not None for path in others)
    return ({act.path for act in acts} == own
            and all(last_text(acts, path) == last_text(all_acts, path) for path in own)
            and (not there or (part.changes, part.items) == (whole.changes, whole.items)))


def no_file_is_too_large(clean: Build) -> bool:
    """No task of a run with a piece fails because a file is too large, whichever of its pieces are
    skipped or run in part."""
    sizes = [[len((act.text or "").encode()) for act in end.segments]
             for o in clean.demand if o.pieces for end in ways(o) if end is not None]
    return all(size <= FILE_LIMIT for run in sizes for size in run) and all(
        sum(run) <= RUN_LIMIT for run in sizes)


def one_run_writes_each_path(clean: Build) -> bool:
    """Where calls made at once write or remove one path, one run has done so."""
    return all(
        len(actors(so_far, begin, path) | actors(left, begin, path)) == 1
        for begin, so_far, left in clean.joins
        for path in acted_since(so_far, begin) & acted_since(left, begin))


DECLARED = (runs_make_one_record, pieces_write_their_outputs, pieces_call_nothing,
            outputs_are_given, parts_make_the_same, no_file_is_too_large, one_run_writes_each_path)


def is_declared(clean: Build) -> bool:
    """The clean build makes each run with one record and keeps the rules for targets with Inputs
    and Outputs; no file is too large; and calls made at once act on no path by two runs."""
    return all(holds(clean) for holds in DECLARED)


# ---- Fresh --------------------------------------------------------------------------------------


def pairs(lists: Lists) -> list[tuple[str, tuple[str, ...]]]:
    """Each output with the inputs that it is paired with: item by item with its own input, else
    with every one."""
    if lists.one_by_one():
        return [(output, (given,)) for given, output in zip(lists.inputs, lists.outputs)]
    return [(output, lists.inputs) for output in lists.outputs]


def is_trusted(piece: Piece, output: str, inputs: tuple[str, ...]) -> bool:
    """The output is in the tree and has the tree's bytes when its piece begins, as each input has
    that it is paired with, none of them with a greater stamp."""
    tree = piece.body.tree
    return all(path in tree and text_at(piece, path) == tree[path].text
               for path in (output, *inputs)) and all(
        tree[path].stamp <= tree[output].stamp for path in inputs)


def is_fresh(clean: Build) -> bool:
    """Each piece that takes its items one by one writes to each trusted output the bytes that are
    there, and each other piece does so where all its outputs are trusted."""
    return all(map(piece_is_fresh, clean.pieces()))


def piece_is_fresh(piece: Piece) -> bool:
    """So of one piece, which has to succeed then."""
    trusted = [is_trusted(piece, *pair) for pair in pairs(piece.lists)]
    if not any(trusted) or not (piece.lists.one_by_one() or all(trusted)):
        return True
    whole, tree = whole_end(piece), piece.body.tree
    return whole is not None and whole.ok and all(
        last_text(piece.acts_since(whole), output) == tree[output].text
        for output, told in zip(piece.lists.outputs, trusted) if told)


def is_up_to_date(clean: Build) -> bool:
    """Each output of a piece is in the tree, as each input is that it is paired with, none of them
    with a greater stamp; and runs without a piece write or remove no input or output of one."""
    tree = clean.tree
    return free_runs_keep_off(clean) and all(
        path in tree and output in tree and tree[path].stamp <= tree[output].stamp
        for piece in clean.pieces() for output, inputs in pairs(piece.lists) for path in inputs)


# ---- Settled and repeated -----------------------------------------------------------------------


def is_settled(build: Build) -> bool:
    """Every piece succeeds, and its inputs exist. Whatever the build does to an input of a piece
    had been done when the piece began, at each place where its run is made; whatever it does to an
    output had been too, or the piece itself has done it. Runs without a piece write or remove
    neither. The build makes each run with one record."""
    return runs_make_one_record(build) and free_runs_keep_off(build) and all(
        piece_is_settled(build, o, piece) for o in build.demand for piece in o.pieces)


def piece_is_settled(build: Build, occurrence: Occurrence, piece: Piece) -> bool:
    """So of one piece, as it is decided."""
    before = piece.begins.journal
    end = piece.end(build.choose(piece.lists, before))
    if end is None or not end.ok:
        return False
    run, begins = occurrence.body.run, len(piece.begins.segments)
    places = [other.journal for other in build.demand if other.body.run == run]
    def stood(mark: Mark) -> bool:
        return mark in [(run, number) for number in range(begins)] or all(
            mark in journal for journal in places)
    own = [(run, number) for number in range(begins, len(end.segments))]
    return (all(content(build.tree, before, path) is not None for path in piece.lists.inputs)
            and all(stood(mark) for path in piece.lists.inputs
                    for mark in acts_on(build.journal, path))
            and all(stood(mark) or mark in own for path in piece.lists.outputs
                    for mark in acts_on(build.journal, path)))


def free_runs_keep_off(build: Build) -> bool:
    """Runs without a piece write or remove no input and no output of a piece."""
    kept = {path for piece in build.pieces() for path in piece.lists.inputs + piece.lists.outputs}
    return not any(act.path in kept for o in build.demand if not o.pieces
                   for act in o.record.segments if isinstance(act, Act))


def is_repeated(clean: Build, again: Build) -> bool:
    """Over the tree that the build left, the clean build makes each run with one record. It makes
    the same runs with pieces, with the same records. Their pieces have the same inputs and outputs,
    paired in the same way, and leave the same bytes at each output. Its runs without a piece write
    or remove no input and no output of a piece."""
    first, second = made(clean), made(again)
    return (first == second and len(first) == len({run for run, *_ in first})
            and runs_make_one_record(again) and free_runs_keep_off(again))


def made(clean: Build) -> set[tuple]:
    """The runs with pieces that a build makes, with their records and pieces."""
    return {(o.body.run, o.record, tuple(map(left, o.pieces))) for o in clean.demand if o.pieces}


def left(piece: Piece) -> tuple:
    """A piece: its inputs and outputs, how they are paired, and what it leaves at each output."""
    whole, lists = whole_end(piece), piece.lists
    texts = None
    if whole is not None and whole.ok:
        texts = tuple(last_text(piece.acts_since(whole), path) for path in lists.outputs)
    return lists.inputs, lists.outputs, lists.one_by_one(), texts


# ---- Pieces and joins ---------------------------------------------------------------------------


def succeeded(clean: Build) -> list[tuple[Piece, State]]:
    """The pieces that succeed, with the ends of the whole."""
    ends = [(piece, whole_end(piece)) for piece in clean.pieces()]
    return [(piece, end) for piece, end in ends if end is not None and end.ok]


def text_at(piece: Piece, path: str) -> str | None:
    """The text of a path when the piece begins."""
    return content(piece.body.tree, piece.begins.journal, path)


def acted_since(journal: Journal, begin: Journal) -> set[str]:
    """The paths that a journal has written or removed since it was an earlier one."""
    return {entry.path for mark, entry in journal.items()
            if isinstance(entry, Act) and mark not in begin}


def actors(journal: Journal, begin: Journal, path: str) -> set[Run]:
    """The runs that have written or removed a path since."""
    return {run for run, number in acts_on(journal, path) if (run, number) not in begin}
