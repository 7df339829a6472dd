#!/usr/bin/env python3
"""Times the evaluation of projects of growing size: properties, item elements, patterns over many files, entries of
Exclude, Remove and Update that name as many items, and imports.

    bench/evaluation.py [PROGRAM]

PROGRAM is the built program, crates/msb/out/msb if it is not given. For each size a project is written to a folder of
its own, shown by `eval` three times, and the least time is printed in milliseconds, with the time of one part.
"""
import json
import os
import subprocess
import sys
import tempfile
import time

TOP = os.path.dirname(os.path.dirname(os.path.abspath(__file__)))
PROGRAM = os.path.abspath(sys.argv[1]) if len(sys.argv) > 1 else os.path.join(TOP, "crates/msb/out/msb")


def element(name, attributes=None, children=None, text=None):
    parts = {"e": name, "a": attributes, "c": children, "t": text}
    return {key: value for key, value in parts.items() if value is not None}


def project(*children):
    return element("Project", children=list(children))


def properties(size):
    """Each property is over the one before it, and each fiftieth begins anew."""
    texts = [f"$(P{i - 1})x" if i % 50 else "x" for i in range(size)]
    return {"a.proj": project(element("PropertyGroup", children=[element(f"P{i}", text=text) for i, text in enumerate(texts)]))}


def items(size):
    """Each element adds one item of one type, with a metadata."""
    include = [element("C", {"Include": f"{i}.c", "K": f"v{i}"}) for i in range(size)]
    return {"a.proj": project(element("ItemGroup", children=include))}


def patterns(size):
    """Each element matches the files of one folder of a hundred."""
    include = [element("C", {"Include": f"src/{i}/*.c"}) for i in range(size // 100)]
    files = {f"src/{i // 100}/{i}.c": "" for i in range(size)}
    return {"a.proj": project(element("ItemGroup", children=include)), **files}


def names(front, size):
    return ";".join(f"{front}{i}.c" for i in range(size))


def excluded(size):
    """One element adds the items, and as many more that its Exclude names in capitals."""
    both = names("kept", size) + ";" + names("out", size)
    return {"a.proj": project(element("ItemGroup", children=[element("C", {"Include": both, "Exclude": names("OUT", size)})]))}


def removed(size):
    """One element adds the items and as many more, and one takes these away."""
    both = names("kept", size) + ";" + names("out", size)
    children = [element("C", {"Include": both}), element("C", {"Remove": names("OUT", size)})]
    return {"a.proj": project(element("ItemGroup", children=children))}


def updated(size):
    """One element adds the items, and one names each of them and gives it a metadata."""
    children = [element("C", {"Include": names("a", size)}), element("C", {"Update": names("A", size), "K": "v"})]
    return {"a.proj": project(element("ItemGroup", children=children))}


def imports(size):
    """Each import brings in one file with one property."""
    brought = {f"{i}.props": project(element("PropertyGroup", children=[element(f"P{i}", text="x")])) for i in range(size)}
    return {"a.proj": project(*[element("Import", {"Project": f"{i}.props"}) for i in range(size)]), **brought}


def write(folder, files):
    for name, content in files.items():
        path = os.path.join(folder, name)
        os.makedirs(os.path.dirname(path), exist_ok=True)
        with open(path, "w") as file:
            file.write(content if isinstance(content, str) else json.dumps(content))


def least_time(files, size):
    with tempfile.TemporaryDirectory() as folder:
        write(folder, files)
        times = []
        for _ in range(3):
            start = time.monotonic()
            done = subprocess.run([PROGRAM, "eval", "a.proj"], cwd=folder, capture_output=True, text=True)
            times.append(time.monotonic() - start)
            shown = done.stdout.count("property ") + done.stdout.count("item ")
            assert done.returncode == 0 and shown == size, (done.returncode, shown, size)
        return min(times)


for shape in (properties, items, patterns, excluded, removed, updated, imports):
    for size in (1000, 4000, 16000):
        seconds = least_time(shape(size), size)
        print(f"{shape.__name__} {size}: {seconds * 1e3:.1f} ms, {seconds / size * 1e6:.1f} us a part")
