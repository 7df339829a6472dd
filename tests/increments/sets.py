"""Random sets of projects, changes of their files, and a set for each rule that can be broken."""

from __future__ import annotations

import json
from collections.abc import Callable
from dataclasses import dataclass, replace
from random import Random

from increments.builds import File, Tree
from increments.texts import Element, folder_of

ROOT = "app.proj"
Texts = dict[str, str]

# ---- Projects -----------------------------------------------------------------------------------


def element(name: str, attributes: Texts | None = None, *inside: Element) -> Element:
    """An element of a project."""
    return {"e": name, "a": attributes or {}, "c": list(inside)}


def project(default: str, *inside: Element) -> str:
    """The file of a project."""
    return json.dumps(element("Project", {"DefaultTargets": default}, *inside))


def target(name: str, attributes: Texts, *inside: Element) -> Element:
    """A target."""
    return element("Target", {"Name": name} | attributes, *inside)


def items(kind: str, include: str, **metadata: str) -> Element:
    """A group with one item element."""
    return element("ItemGroup", None, element(kind, {"Include": include} | metadata))


def output(parameter: str, kind: str) -> Element:
    """An Output that adds items."""
    return element("Output", {"TaskParameter": parameter, "ItemName": kind})


def copy(sources: str, destinations: str, *outputs: Element) -> Element:
    """A Copy task."""
    words = {"SourceFiles": sources, "DestinationFiles": destinations}
    return element("Copy", words, *outputs)


def lines(path: str, text: str) -> Element:
    """A task that writes a list of lines."""
    return element("WriteLinesToFile", {"File": path, "Lines": text, "Overwrite": "true"})


def delete(files: str, *outputs: Element) -> Element:
    """A Delete task."""
    return element("Delete", {"Files": files}, *outputs)


def calls(projects: list[str], at_once: bool, *outputs: Element) -> Element:
    """A task that calls projects."""
    words = {"Projects": ";".join(projects), "BuildInParallel": str(at_once).lower()}
    return element("MSBuild", words, *outputs)


# ---- Random sets --------------------------------------------------------------------------------

OBJECTS = "@(C->'out/%(Filename).o')"


def compiling(draw: Random) -> Element:
    """A target that copies sources to objects: one by one, or all of them where one is old."""
    inputs = draw.choice(["@(C)", "@(C)", "@(C)", "@(C);flags.txt"])
    words = {"Inputs": inputs, "Outputs": OBJECTS, "Returns": "@(O)"}
    if draw.random() < 0.7:
        return target("Compile", words, copy("@(C)", OBJECTS, output("DestinationFiles", "O")))
    return target("Compile", words, copy("@(C)", OBJECTS), items("O", OBJECTS))


def bundling() -> Element:
    """A target in a bucket for each group of sources, which writes their list beside copies."""
    copies, listing = "@(C->'sets/%(Group)/%(Filename).s')", "sets/%(C.Group).txt"
    words = {"Inputs": "@(C)", "Outputs": f"{copies};{listing}", "Returns": "@(O)"}
    return target("Bundle", words, copy("@(C)", copies), lines(listing, "@(C)"))


def sweeping(draw: Random) -> list[Element]:
    """Targets that remove files and write what they have removed, or the lines of a list, again."""
    gone = draw.choice(["old.txt", "old.txt;lost.txt", "swept.txt;old.txt", "out/all.txt"])
    sweep = target("Sweep", {}, delete(gone, output("DeletedFiles", "D")),
                   *draw.choice([[], [lines("swept.txt", "@(D)")]]))
    read = element("ReadLinesFromFile", {"File": draw.choice(["names.txt", "old.txt"])},
                   output("Lines", "L"))
    return draw.choice([[sweep], [target("Names", {}, read, lines("listed.txt", "@(L)")), sweep]])


def linking(also: list[str]) -> Element:
    """A target that writes the list of the objects, by these and other files."""
    words = {"Inputs": ";".join([OBJECTS, *also]), "Outputs": "out/all.txt"}
    return target("Link", words, lines("out/all.txt", OBJECTS))


@dataclass
class Library:
    """A project, the files that it needs, and a file that others may copy."""

    path: str
    files: Texts
    result: str | None


def sources(draw: Random, folder: str) -> tuple[list[Element], Texts]:
    """Sources of a project in one or two groups."""
    groups = draw.choice([["a"], ["a", "b"]])
    names = [f"{group}{number}" for group in groups for number in range(draw.randint(1, 2))]
    files = {f"{folder}/src/{name}.c": f"{name} {draw.random()}\n" for name in names}
    return [items("C", f"src/{group}*.c", Group=group) for group in groups], files


def library(draw: Random, folder: str, base: str | None) -> Library:
    """A project with some of these targets, which may call a base first. A base leaves a list."""
    groups, files = sources(draw, folder)
    files |= {f"{folder}/flags.txt": "-O\n", f"{folder}/seed.txt": "seed\n",
              f"{folder}/names.txt": " one \n\ntwo\n", f"{folder}/old.txt": "old\n"}
    targets, also = [compiling(draw)], []
    if draw.random() < 0.3:
        words = {"Inputs": "seed.txt", "Outputs": "made/seed.c"}
        targets.insert(0, target("Make", words, copy("seed.txt", "made/seed.c")))
        groups.append(items("C", "made/seed.c", Group="made"))
    if base is not None:
        targets.insert(0, target("Base", {}, calls([f"../{base}"], draw.random() < 0.5)))
        also.append("../base/out/all.txt")
    if draw.random() < 0.3:
        targets.append(target("Note", {}, lines("note.txt", "@(O)")))
        also += ["note.txt"] if draw.random() < 0.2 else []
    if draw.random() < 0.3:
        targets.append(bundling())
    result = "out/all.txt" if folder == "base" or draw.random() < 0.6 else None
    if result is not None:
        targets.append(linking(also))
    if draw.random() < 0.4:
        targets += sweeping(draw)
    order = ";".join(one["a"]["Name"] for one in targets)
    everything = target("All", {"DependsOnTargets": order, "Returns": "@(O)"})
    files[f"{folder}/p.proj"] = project("All", *groups, *targets, everything)
    return Library(f"{folder}/p.proj", files, result and f"{folder}/{result}")


def calling(draw: Random, libraries: list[Library]) -> str:
    """A project that calls libraries, some of them twice, one after another or at once, and copies
    what they leave."""
    paths = [one.path for one in libraries]
    called = paths + draw.sample(paths, draw.randint(0, len(paths)))
    task = calls(called, draw.random() < 0.6, output("TargetOutputs", "Lib"))
    results = [one.result for one in libraries if one.result is not None]
    copies = [f"app/{number}.txt" for number in range(len(results))]
    words = {"Inputs": ";".join(results), "Outputs": ";".join(copies),
             "DependsOnTargets": "Libraries", "Returns": "@(Lib)"}
    app = target("App", words, copy(words["Inputs"], words["Outputs"]))
    return project("App", target("Libraries", {}, task), app)


def random_set(draw: Random) -> Texts:
    """A root project, the libraries that it calls, and perhaps a base that some of them share."""
    bases = [library(draw, "base", None)] if draw.random() < 0.4 else []
    made = []
    for number in range(draw.randint(1, 3)):
        base = bases[0].path if bases and draw.random() < 0.8 else None
        made.append(library(draw, f"l{number}", base))
    files = {ROOT: calling(draw, made)}
    for one in made + bases:
        files |= one.files
    return files


# ---- An ordinary set ----------------------------------------------------------------------------


def ordinary_set() -> Texts:
    """A shared file that projects import: it has a property with the folder in which the file
    stands, and the target that copies each project's sources, which a pattern names. A fourth
    project calls the three at once and writes the list of what they return."""
    made = "@(Src->'$(Out)/%(Filename).o')"
    out = {"e": "Out", "t": "$(MSBuildThisFileDirectory)out"}
    build = target("Build", {"Inputs": "@(Src)", "Outputs": made, "Returns": "@(Made)"},
                   copy("@(Src)", made), items("Made", made))
    shared = element("Project", None, element("PropertyGroup", None, out), build)
    brought = element("Import", {"Project": "../common.props"})
    part = json.dumps(element("Project", None, brought, items("Src", "*.c")))
    called = items("Lib", "../a/a.proj;../b/b.proj;../c/c.proj")
    task = element("MSBuild", {"Projects": "@(Lib)", "BuildInParallel": "true"},
                   output("TargetOutputs", "O"))
    link = target("Link", {}, task, lines("$(Out)/app.txt", "@(O)"))
    return {
        "common.props": json.dumps(shared), "app/app.proj": project("Link", brought, called, link),
        **{f"{name}/{name}.proj": part for name in "abc"},
        **{f"{path}.c": f"{path}\n" for path in ("a/a1", "a/a2", "b/b", "c/c")},
    }


# ---- Changes ------------------------------------------------------------------------------------


GIVEN = ("flags.txt", "seed.txt", "names.txt", "old.txt")


def is_source(path: str) -> bool:
    """Whether a file is given, and is no project."""
    return "/src/" in path or path.endswith(GIVEN)


def is_made(path: str) -> bool:
    """Whether a file is made by a build."""
    return not is_source(path) and not path.endswith(".proj")


def changed_once(draw: Random, tree: Tree, stamp: int) -> Tree:
    """A tree where a file is changed, added, removed or touched."""
    act = draw.choice(["change", "change", "add", "drop", "touch", "touch made", "edit made",
                       "remove", "old"])
    if act == "add":
        folders = sorted(folder_of(path) for path in tree if path.endswith("/p.proj"))
        name = f"{draw.choice('ab')}{draw.randint(5, 9)}"
        return tree | {f"{draw.choice(folders)}src/{name}.c": File("added\n", stamp)}
    kept = is_made if act in ("touch made", "edit made", "remove", "old") else is_source
    files = sorted(filter(kept, tree))
    if not files:
        return tree
    path = draw.choice(files)
    if act in ("drop", "remove"):
        return {one: file for one, file in tree.items() if one != path}
    if act in ("touch", "touch made"):
        return tree | {path: replace(tree[path], stamp=stamp)}
    return tree | {path: File(f"{act} {draw.random()}\n", 0 if act == "old" else stamp)}


def changed(draw: Random, tree: Tree) -> Tree:
    """A tree after one to three changes, the files of each with a stamp that is newer than all."""
    for _ in range(draw.randint(1, 3)):
        tree = changed_once(draw, tree, 1 + max(file.stamp for file in tree.values()))
    return tree


# ---- Broken rules -------------------------------------------------------------------------------


@dataclass
class Broken:
    """A set that breaks a rule, by which of the premises it is told, and what happens to its files
    between two builds."""

    rule: str
    told_by: list[str]
    files: Texts
    then: Callable[[Tree], Tree]


def with_text(path: str, text: str) -> Callable[[Tree], Tree]:
    """A file is changed."""
    return lambda tree: tree | {path: File(text, 1 + max(f.stamp for f in tree.values()))}


def without(path: str) -> Callable[[Tree], Tree]:
    """A file is removed."""
    return lambda tree: {one: file for one, file in tree.items() if one != path}


def making(*tasks: Element, **words: str) -> str:
    """A project with one target, which makes out.txt of in.txt unless other words are given."""
    attributes = {"Inputs": "in.txt", "Outputs": "out.txt"} | words
    return project("Make", target("Make", attributes, *tasks))


def broken_sets() -> list[Broken]:
    """The examples of docs/INCREMENTAL.md."""
    one, made = {"in.txt": "one\n"}, copy("in.txt", "out.txt")
    version = copy("in.txt;version.txt", "out.txt;version.out")
    called = project("Lib", target("Lib", {}, copy("lib.txt", "lib.out")))
    found = element("CreateItem", {"Include": "*.txt"}, output("Include", "Made"))
    texts = target("Make", {"Inputs": "@(T)", "Outputs": "all.txt"}, lines("all.txt", "@(T)"))
    listed = target("Make", {"Inputs": "@(C)", "Outputs": OBJECTS}, copy("@(C)", OBJECTS),
                    lines("out/a.o", "@(C)"))
    return [
        Broken("an output that is not listed", ["pieces_write_their_outputs"],
               one | {ROOT: making(made, copy("in.txt", "out.map"))}, without("out.map")),
        Broken("an input that is not listed", ["is_fresh"],
               one | {"version.txt": "1\n", ROOT: making(version, Outputs="out.txt;version.out")},
               with_text("version.txt", "2\n")),
        Broken("a file that is removed beside the outputs", ["pieces_write_their_outputs"],
               one | {"old.txt": "old\n", ROOT: making(made, delete("old.txt"))},
               with_text("old.txt", "again\n")),
        Broken("a call from a target with Inputs", ["pieces_call_nothing", "is_fresh"],
               one | {"lib.proj": called, "lib.txt": "one\n",
                      ROOT: making(made, calls(["lib.proj"], False))},
               with_text("lib.txt", "two\n")),
        Broken("an Output that is not what the task returns", ["outputs_are_given"],
               one | {ROOT: making(made, found, Returns="@(Made)")}, lambda tree: tree),
        Broken("a pattern that matches an output", ["is_fresh"],
               one | {ROOT: project("Make", items("T", "*.txt"), texts)}, lambda tree: tree),
        Broken("a task that writes something about all items", ["parts_make_the_same"],
               {"a.c": "a\n", "b.c": "b\n", ROOT: project("Make", items("C", "*.c"), listed)},
               with_text("b.c", "new\n")),
    ]
