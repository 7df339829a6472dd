#!/usr/bin/env python3
"""Times the bodies of targets, in one project without files: of growing numbers of tasks, items, buckets and groups.

    bench/bodies.py [PROGRAM [SIZE ..]]

PROGRAM is the built program, crates/msb/out/msb if it is not given; the sizes are 1000 to 16000 if none is given. Each
line has the processor seconds and the peak memory in MiB of one build, and beside each how many times that of the line
above it is. A peak below that of Python itself, some 15 MiB, does not show.

- `tasks`: a target has that many task elements, each with an Output that adds an item to one list.
- `items`: a task element with such an Output is batched, so that it is called once for each item of a list.
- `buckets`: a target with Outputs and Returns is batched, so that it is run once for each item, and adds an item to a list
  in each of its buckets. The MSBuild task is given all the items that it returns.
- `groups`: a target has that many groups, at most 1,000, each of which adds two items to a list of 10,000, so that the
  second sees the first. Here a line is ten times the one above it, from 10 on.
"""
import json
import os
import subprocess
import sys
import tempfile

TOP = os.path.dirname(os.path.dirname(os.path.abspath(__file__)))
PROGRAM = os.path.abspath(sys.argv[1]) if len(sys.argv) > 1 else os.path.join(TOP, "crates/msb/out/msb")
SIZES = [int(word) for word in sys.argv[2:]] or [1000, 2000, 4000, 8000, 16000]
GROUPS = [10, 100, 1000]
LISTED = min(10000, 10 * max(SIZES))


def element(name, attributes=None, children=None):
    parts = {"e": name, "a": attributes, "c": children}
    return {key: value for key, value in parts.items() if value is not None}


def listed(size):
    return element("ItemGroup", children=[element("S", {"Include": ";".join(str(i) for i in range(size))})])


def added(text):
    """A task that adds the items of a text to X."""
    output = element("Output", {"TaskParameter": "Include", "ItemName": "X"})
    return element("CreateItem", {"Include": text}, [output])


def counted(kind):
    return element("Message", {"Text": f"count @({kind}->Count())"})


def target(name, attributes, *children):
    return element("Target", {"Name": name, **attributes}, list(children))


def tasks(size):
    return [target("Build", {}, *[added(str(i)) for i in range(size)], counted("X"))], size


def items(size):
    return [listed(size), target("Build", {}, added("%(S.Identity)"), counted("X"))], size


def buckets(size):
    call = element(
        "MSBuild",
        {"Projects": "a.proj", "Targets": "Each"},
        [element("Output", {"TaskParameter": "TargetOutputs", "ItemName": "X"})],
    )
    group = element("ItemGroup", children=[element("Y", {"Include": "%(S.Identity)"})])
    each = target("Each", {"Outputs": "%(S.Identity)", "Returns": "@(S);@(Y)"}, group)
    return [listed(size), target("Build", {}, call, counted("X")), each], size


def groups(size):
    group = element("ItemGroup", children=[element("S", {"Include": "a"}), element("S", {"Include": "b"})])
    return [listed(LISTED), target("Build", {}, *[group] * size, counted("S"))], LISTED + 2 * size


def built(children, count):
    """The processor seconds and the peak memory of a build, which counts so many items."""
    with tempfile.TemporaryDirectory() as folder:
        with open(os.path.join(folder, "a.proj"), "w") as file:
            json.dump(element("Project", children=children), file)
        with open(os.path.join(folder, "text"), "w+") as text:
            child = subprocess.Popen([PROGRAM, "build", "a.proj"], cwd=folder, stdout=text, stderr=text)
            _, status, usage = os.wait4(child.pid, 0)
            text.seek(0)
            shown = text.read()
    assert status == 0 and shown.endswith("build succeeded\n"), (status, shown[-200:])
    assert f"count {count}\n" in shown, shown[-200:]
    return usage.ru_utime + usage.ru_stime, usage.ru_maxrss / 1024


def main():
    print("%-8s %6s %9s %6s %6s" % ("", "", "s", "", "MiB"))
    for shape in (tasks, items, buckets, groups):
        before = None
        for size in GROUPS if shape is groups else SIZES:
            now = built(*shape(size))
            times = ["x%.1f" % (now[i] / before[i]) if before else "" for i in (0, 1)]
            print("%-8s %6d %9.3f %6s %6.1f %6s" % (shape.__name__, size, now[0], times[0], now[1], times[1]), flush=True)
            before = now


if __name__ == "__main__":
    main()
