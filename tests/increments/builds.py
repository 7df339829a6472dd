"""What a build of a small set of projects means: a recursion on one node that shares nothing.

A run is the body of a target of a project; a request runs the targets of a project in their order;
a journal has what the runs before have done to files, and their records. A clean build runs each bucket
that has something to do, an incremental one what is out of date. It knows DependsOnTargets,
ItemGroups, and the tasks Copy, WriteLinesToFile, ReadLinesFromFile, Delete, CreateItem and MSBuild,
and no error texts.
(Target element; Target build order; MSBuild task; How to build incrementally.)
"""

from __future__ import annotations

from collections.abc import Callable
from dataclasses import dataclass, field, replace
from typing import NamedTuple, Union

from increments.texts import (
    REFERENCE, Bucket, Element, Item, Items, Scope, Values, attribute, buckets, children,
    included, listed, path_in, read_project, with_files, with_items,
)

# ---- Files, records and journals ----------------------------------------------------------------


@dataclass(frozen=True)
class File:
    """A file of a tree: its text, and the time of its last change."""

    text: str
    stamp: int


Tree = dict[str, File]
Run = tuple[str, str]  # a project and a target
Change = tuple[str, Items]  # items that are added to a type


@dataclass(frozen=True)
class Act:
    """What a run has done to a file: the text that it has written, none where it removed it."""

    path: str
    text: str | None


@dataclass(frozen=True)
class Called:
    """Requests that a run has made at once, with the runs that each has made or used."""

    projects: tuple[str, ...]
    runs: tuple[tuple[Run, ...], ...]


@dataclass(frozen=True)
class Record:
    """What others see of a run: whether it succeeded, what was decided of its buckets, the items
    that it returns, what it changes, and what it did to files and called, in order."""

    ok: bool
    words: tuple[str, ...]
    items: Items
    changes: tuple[Change, ...]
    segments: tuple[Act | Called, ...]


# An act of a run by its number, or the end of the run, which has none; in order, each once.
Mark = tuple[Run, Union[int, None]]
Journal = dict[Mark, Union[Act, Record]]


@dataclass(frozen=True)
class Result:
    """What a request gives: whether it succeeded, what its targets have returned, and its runs."""

    ok: bool
    returned: tuple[tuple[str, Items], ...]
    runs: tuple[Run, ...]


def merged(journal: Journal, other: Journal) -> Journal:
    """A journal with what another has besides."""
    return journal | {mark: entry for mark, entry in other.items() if mark not in journal}


def acts_on(journal: Journal, path: str) -> dict[Mark, Act]:
    """What a journal has done to a path."""
    return {mark: entry for mark, entry in journal.items()
            if isinstance(entry, Act) and entry.path == path}


def content(tree: Tree, journal: Journal, path: str) -> str | None:
    """The text of a path: what the last act left there, else what the tree has."""
    acts = list(acts_on(journal, path).values())
    if acts:
        return acts[-1].text
    return tree[path].text if path in tree else None


def last_text(acts: tuple[Act, ...], path: str) -> str | None:
    """What the last act left at a path."""
    return next((act.text for act in reversed(acts) if act.path == path), None)


# ---- What is decided of a bucket ----------------------------------------------------------------


@dataclass(frozen=True)
class Lists:
    """The paths of Inputs and Outputs in a bucket, and, where Inputs is just `@(X)` and Outputs
    just a transform of X, the type and its items."""

    inputs: tuple[str, ...]
    outputs: tuple[str, ...]
    kind: str | None
    items: Items

    def one_by_one(self) -> bool:
        """Whether each item has an input and an output of its own."""
        return self.kind is not None and len(self.inputs) == len(self.outputs) == len(self.items)


@dataclass(frozen=True)
class Part:
    """Some of the items of a bucket, on which alone its tasks run."""

    items: Items


RUN, SKIP, NOTHING = "ran", "up to date", "nothing to do"
Choice = Union[str, Part]


def is_old(tree: Tree, journal: Journal, given: str, made: str) -> bool:
    """A pair of an input and an output is out of date where one of them is not there or was
    written or removed in this build, or where the input's stamp is greater."""
    acted = acts_on(journal, given) or acts_on(journal, made)
    if acted or given not in tree or made not in tree:
        return True
    return tree[given].stamp > tree[made].stamp


def all_of(lists: Lists) -> Choice:
    """What a clean build does with a bucket."""
    return RUN if lists.inputs and lists.outputs else NOTHING


def decided(tree: Tree, journal: Journal, lists: Lists) -> Choice:
    """What an incremental build does with a bucket."""
    if all_of(lists) == NOTHING:
        return NOTHING
    if not lists.one_by_one():
        pairs = [(given, made) for given in lists.inputs for made in lists.outputs]
        return RUN if any(is_old(tree, journal, *pair) for pair in pairs) else SKIP
    rows = zip(lists.items, lists.inputs, lists.outputs)
    old = tuple(item for item, *pair in rows if is_old(tree, journal, *pair))
    if len(old) == len(lists.items):
        return RUN
    return Part(old) if old else SKIP


def word_of(choice: Choice, lists: Lists | None) -> str:
    """The word for it in the record."""
    if isinstance(choice, Part):
        return f"partial {len(choice.items)} of {len(lists.items)}"
    return choice


# ---- Tasks --------------------------------------------------------------------------------------

Params = dict[str, Items]  # by the names of parameters, in lower case


@dataclass(frozen=True)
class Answer:
    """What a task gives: whether it succeeded, its outputs, and what it does to files."""

    ok: bool
    outputs: Params = field(default_factory=dict)
    acts: tuple[Act, ...] = ()


@dataclass(frozen=True)
class TaskCall:
    """A task element that was called, its parameters and its answer."""

    element: Element
    params: Params
    answer: Answer


@dataclass(frozen=True)
class View:
    """The files as a task of a project sees them."""

    project: str
    tree: Tree
    journal: Journal

    def text(self, name: str) -> str | None:
        """The text of a file."""
        return content(self.tree, self.journal, path_in(self.project, name))

    def paths(self) -> list[str]:
        """The paths of all files that there are."""
        acted = {act.path for act in self.journal.values() if isinstance(act, Act)}
        return sorted(path for path in acted.union(self.tree)
                      if content(self.tree, self.journal, path) is not None)


def copied(view: View, params: Params) -> Answer:
    """Copy: each source's content to its destination, up to a source that is not there."""
    sources, destinations = params["sourcefiles"], params.get("destinationfiles", ())
    if sources and len(sources) != len(destinations):
        return Answer(False)
    done: list[Item] = []
    acts: list[Act] = []
    for source, destination in zip(sources, destinations):
        text = view.text(source.identity)
        if text is None:
            break
        acts.append(Act(path_in(view.project, destination.identity), text))
        done.append(Item(destination.identity, source.metadata))
    outputs = {"destinationfiles": tuple(done), "copiedfiles": tuple(done)}
    return Answer(len(done) == len(sources), outputs, tuple(acts))


def lines_written(view: View, params: Params) -> Answer:
    """WriteLinesToFile: each line, instead of what the file has or behind it."""
    name = params["file"][0].identity
    lines = "".join(f"{line.identity}\n" for line in params.get("lines", ()))
    if [item.identity for item in params.get("overwrite", ())] == ["true"]:
        return Answer(True, {}, (Act(path_in(view.project, name), lines),))
    present = view.text(name) or ""
    return Answer(True, {}, (Act(path_in(view.project, name), present + lines),) if lines else ())


def created(view: View, params: Params) -> Answer:
    """CreateItem: the items of Include, and the files that its patterns name."""
    return Answer(True, {"include": with_files(params["include"], view.project, view.paths())})


def lines_read(view: View, params: Params) -> Answer:
    """ReadLinesFromFile: the lines of a file that are not blank, trimmed; none where it is not
    there."""
    lines = (view.text(params["file"][0].identity) or "").split("\n")
    return Answer(True, {"lines": tuple(Item(line.strip()) for line in lines if line.strip())})


def deleted(view: View, params: Params) -> Answer:
    """Delete: each file that is there is removed, and all are told."""
    there = dict.fromkeys(path_in(view.project, item.identity) for item in params["files"]
                          if view.text(item.identity) is not None)
    acts = tuple(Act(path, None) for path in there)
    return Answer(True, {"deletedfiles": params["files"]}, acts)


TASKS: dict[str, Callable[[View, Params], Answer]] = {
    "Copy": copied, "WriteLinesToFile": lines_written, "ReadLinesFromFile": lines_read,
    "Delete": deleted, "CreateItem": created}


def outputs_of(element: Element, given: Params) -> list[Change]:
    """What the Outputs of a task element change, by what its task or its parameters give."""
    return [(output["a"]["ItemName"], given[name]) for output in children(element)
            if (name := output["a"]["TaskParameter"].lower()) in given]


# ---- The run of a target ------------------------------------------------------------------------


class Calls(Exception):
    """A part of a run that has to call nothing calls a request."""


# The results of requests that are made at once, or one after the other, and the journal then.
Caller = Callable[[tuple[str, ...], Journal], tuple[list[Result], Journal]]


class State(NamedTuple):
    """How far a run is: the scope of its bucket, the items that its tasks see where they run on a
    part of a type, the journal, and what its record will say. Of the tasks it knows the calls."""

    scope: Scope
    journal: Journal
    part: tuple[str, Items] | None = None
    ok: bool = True
    words: tuple[str, ...] = ()
    items: Items = ()
    changes: tuple[Change, ...] = ()
    segments: tuple[Act | Called, ...] = ()
    calls: tuple[TaskCall, ...] = ()

    def task_scope(self) -> Scope:
        """The scope that tasks see."""
        return self.scope if self.part is None else self.scope | dict([self.part])

    def changed(self, changes: list[Change]) -> State:
        """With these changes, made of a part as of the items of its type."""
        state = self._replace(changes=self.changes + tuple(changes))
        for kind, items in changes:
            state = state._replace(scope=with_items(state.scope, kind, items))
            if state.part is not None and state.part[0] == kind:
                state = state._replace(part=(kind, state.part[1] + items))
        return state

    def acted(self, run: Run, act: Act) -> State:
        """With what the run has done to a file."""
        journal = self.journal | {(run, len(self.segments)): act}
        return self._replace(journal=journal, segments=(*self.segments, act))

    def record(self) -> Record:
        """What the record says."""
        items = self.items if self.ok else ()
        return Record(self.ok, self.words, items, self.changes, self.segments)


@dataclass(frozen=True, eq=False)
class Piece:
    """A bucket of a run where both Inputs and Outputs name files, and the state where it begins."""

    body: Body
    bucket: Bucket
    lists: Lists
    begins: State

    def end(self, choice: Choice) -> State | None:
        """What comes of it where this is chosen for it; none where it calls a request."""
        return self.body.alone(lambda body: body.bucket_end(
            self.bucket, self.lists, choice, self.begins))

    def acts_since(self, end: State) -> tuple[Act, ...]:
        """What it has done to files at its end."""
        return end.segments[len(self.begins.segments):]


@dataclass(frozen=True)
class Body:
    """The run of a target of a project of a tree."""

    tree: Tree
    run: Run
    element: Element
    returns: str
    call: Caller | None

    def alone(self, part: Callable[[Body], State]) -> State | None:
        """What comes of a part of it; none where that calls a request."""
        try:
            return part(replace(self, call=None))
        except Calls:
            return None

    def lists(self, bucket: Bucket, scope: Scope) -> Lists | None:
        """The Inputs and Outputs of a bucket; none where the target has not both."""
        texts = [attribute(self.element, "Inputs"), attribute(self.element, "Outputs")]
        if None in texts:
            return None
        paths = [tuple(path_in(self.run[0], item.identity) for item in listed(
            text, scope, bucket.values)) for text in texts]
        given, made = map(REFERENCE.fullmatch, texts)
        plain = given is not None and made is not None and given[1] == made[1]
        kind = given[1] if plain and given[2] is None and made[2] is not None else None
        return Lists(*paths, kind, scope.get(kind, ()) if kind else ())

    def perform(self, scope: Scope, journal: Journal,
                choose: Callable[[Lists, Journal], Choice]) -> tuple[State, list[Piece]]:
        """The end of the run where this is chosen for each bucket, and its pieces."""
        texts = [attribute(self.element, name) or "" for name in ("Inputs", "Outputs", "Returns")]
        state, pieces = State(scope, journal), []
        for bucket in buckets(texts, scope):
            state = state._replace(scope=scope | bucket.lists, part=None)
            lists = self.lists(bucket, state.scope)
            if lists is not None and lists.inputs and lists.outputs:
                pieces.append(Piece(self, bucket, lists, state))
            choice = RUN if lists is None else choose(lists, state.journal)
            state = self.bucket_end(bucket, lists, choice, state)
            if not state.ok:
                break
        return state, pieces

    def bucket_end(self, bucket: Bucket, lists: Lists | None, choice: Choice,
                   state: State) -> State:
        """The children by what is chosen, and then the items that are returned, each once."""
        if isinstance(choice, Part):
            state = state._replace(part=(lists.kind, choice.items))
        for child in children(self.element) if choice != NOTHING else []:
            state = self.child(child, choice, state)
            if not state.ok:
                return state._replace(words=(*state.words, "failed"))
        returned = listed(self.returns, state.scope, bucket.values)
        items = tuple(dict.fromkeys(state.items + returned))
        return state._replace(items=items, words=(*state.words, word_of(choice, lists)))

    def child(self, child: Element, choice: Choice, state: State) -> State:
        """A group, or a task: called, or with its Outputs inferred, or called on a part of the
        items with its Outputs inferred for all of them."""
        if child["e"] == "ItemGroup":
            for item in children(child):
                paths = View(self.run[0], self.tree, state.journal).paths()
                items = included(item, self.run[0], state.scope, paths)
                state = state.changed([(item["e"], items)])
            return state
        changes: list[Change] = []
        if choice != SKIP:
            state, changes = self.called(child, state)
        if choice != RUN:
            changes = self.inferred(child, state)
        return state.changed(changes)

    def params(self, task: Element, scope: Scope, values: Values) -> Params:
        """What a task is given."""
        return {name.lower(): listed(text, scope, values) for name, text in task["a"].items()}

    def called(self, task: Element, state: State) -> tuple[State, list[Change]]:
        """A task is called bucket by bucket, up to one that fails; what its Outputs change."""
        scope, changes = state.task_scope(), []
        for bucket in buckets(task["a"].values(), scope):
            params = self.params(task, scope | bucket.lists, bucket.values)
            state, answer = self.answered(task["e"], params, state)
            state = state._replace(ok=answer.ok,
                            calls=(*state.calls, TaskCall(task, params, answer)))
            changes += outputs_of(task, answer.outputs)
            if not answer.ok:
                break
        return state, changes

    def inferred(self, task: Element, state: State) -> list[Change]:
        """What the Outputs of a task change where they are the parameters of the same names."""
        changes: list[Change] = []
        for bucket in buckets(task["a"].values(), state.scope):
            params = self.params(task, state.scope | bucket.lists, bucket.values)
            changes += outputs_of(task, params)
        return changes

    def answered(self, task: str, params: Params, state: State) -> tuple[State, Answer]:
        """A task's answer, once its acts are done or its requests have come back."""
        if task == "MSBuild":
            return self.requested(params, state)
        answer = TASKS[task](View(self.run[0], self.tree, state.journal), params)
        for act in answer.acts:
            state = state.acted(self.run, act)
        return state, answer

    def requested(self, params: Params, state: State) -> tuple[State, Answer]:
        """The MSBuild task: requests that are made at once, or one after the other."""
        if self.call is None:
            raise Calls
        projects = tuple(path_in(self.run[0], item.identity) for item in params["projects"])
        at_once = [item.identity for item in params.get("buildinparallel", ())] == ["true"]
        results: list[Result] = []
        for group in [projects] if at_once else [(project,) for project in projects]:
            more, journal = self.call(group, state.journal)
            segment = Called(group, tuple(result.runs for result in more))
            state = state._replace(journal=journal, segments=(*state.segments, segment))
            results += more
        found = [from_call(project, target, item) for project, result in zip(projects, results)
                 for target, items in result.returned for item in items]
        return state, Answer(all(r.ok for r in results), {"targetoutputs": tuple(found)})


def from_call(project: str, target: str, item: Item) -> Item:
    """An item that a target of a project has returned, which says so in its metadata."""
    source = {"MSBuildSourceProjectFile": f"/{project}", "MSBuildSourceTargetName": target}
    return Item(item.identity, tuple(sorted((dict(item.metadata) | source).items())))


# ---- Requests and builds ------------------------------------------------------------------------


@dataclass(frozen=True, eq=False)
class Occurrence:
    """A body that a build contains: where it begins, what it makes, and its pieces."""

    body: Body
    scope: Scope
    journal: Journal
    record: Record
    pieces: list[Piece]


class Build:
    """A build of a project of a tree, clean or incremental: its result, the journal then, and what
    it contains: its bodies, and how calls made at once are joined."""

    def __init__(self, tree: Tree, root: str, *, clean: bool) -> None:
        self.tree, self.clean = tree, clean
        self.demand: list[Occurrence] = []
        self.joins: list[tuple[Journal, Journal, Journal]] = []
        self.result, self.journal = self.request((), {}, root)

    def pieces(self) -> list[Piece]:
        """The pieces of all its runs."""
        return [piece for occurrence in self.demand for piece in occurrence.pieces]

    def choose(self, lists: Lists, journal: Journal) -> Choice:
        """What is done with a bucket."""
        return all_of(lists) if self.clean else decided(self.tree, journal, lists)

    def request(self, above: tuple[Run, ...], journal: Journal,
                project: str) -> tuple[Result, Journal]:
        """The default targets of a project, each behind those that it depends on."""
        root = read_project(self.tree, project)
        scope = evaluated(self.tree, project, root)
        asked = attribute(root, "DefaultTargets").split(";")
        returned, runs = [], []
        for name in visited(targets_of(root), asked):
            run = (project, name)
            if (run, None) not in journal:
                journal = self.made(above, run, root, scope, journal)
            record = journal[run, None]
            runs.append(run)
            for kind, items in record.changes:
                scope = with_items(scope, kind, items)
            if not record.ok:
                return Result(False, (), tuple(runs)), journal
            if name in asked:
                returned.append((name.lower(), record.items))
        return Result(True, tuple(returned), tuple(runs)), journal

    def made(self, above: tuple[Run, ...], run: Run, root: Element, scope: Scope,
             journal: Journal) -> Journal:
        """The journal when a run has been made."""
        if run in above:
            raise ValueError(f"{run} calls itself")
        def call(projects: tuple[str, ...], begin: Journal) -> tuple[list[Result], Journal]:
            return self.called((*above, run), begin, projects)
        element = targets_of(root)[run[1]]
        body = Body(self.tree, run, element, returns_of(root, element), call)
        state, pieces = body.perform(scope, journal, self.choose)
        self.demand.append(Occurrence(body, scope, journal, state.record(), pieces))
        return state.journal | {(run, None): state.record()}

    def called(self, above: tuple[Run, ...], begin: Journal,
               projects: tuple[str, ...]) -> tuple[list[Result], Journal]:
        """Requests made at once: each begins with the caller's journal, and they are joined."""
        results, so_far = [], begin
        for project in projects:
            result, left = self.request(above, begin, project)
            self.joins.append((begin, so_far, left))
            so_far = merged(so_far, left)
            results.append(result)
        return results, so_far


def evaluated(tree: Tree, project: str, root: Element) -> Scope:
    """The items of a project."""
    scope: Scope = {}
    for group in children(root):
        for item in children(group) if group["e"] == "ItemGroup" else []:
            scope = with_items(scope, item["e"], included(item, project, scope, tree))
    return scope


def targets_of(root: Element) -> dict[str, Element]:
    """The targets of a project, by name."""
    return {child["a"]["Name"]: child for child in children(root) if child["e"] == "Target"}


def visited(targets: dict[str, Element], names: list[str]) -> list[str]:
    """Targets and those that they depend on, in the order in which they run, each once."""
    order: list[str] = []
    for name in names:
        depends = attribute(targets[name], "DependsOnTargets") or ""
        inner = visited(targets, [one for one in depends.split(";") if one])
        order += [one for one in (*inner, name) if one not in order]
    return order


def returns_of(root: Element, target: Element) -> str:
    """The text of what a target returns: Returns, or Outputs where no target has Returns."""
    if any("Returns" in element["a"] for element in targets_of(root).values()):
        return attribute(target, "Returns") or ""
    return attribute(target, "Outputs") or ""
