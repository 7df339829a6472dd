#!/usr/bin/env python3
"""Times builds that write files, in one project: of growing numbers of sources, and of one chain of many targets.

    bench/builds.py [PROGRAM [SIZE ..]]

PROGRAM is the built program, crates/msb/out/msb if it is not given; the sizes are 1000 to 16000 if none is given. Each
project is written to a folder of its own and built twice: the first build makes all, the second finds all up to date.
Each line has the processor seconds and the peak memory in MiB of both, and beside each how many times that of the line
above it is. A peak below that of Python itself, some 15 MiB, does not show.

- `items`: a target takes its sources one by one, and one Copy copies all. Where sources and outputs together are over
  the 20,000 files that the program takes, there is no second build.
- `tasks`: a target takes its sources one by one, and a Copy is batched, so that it is called once for each source.
- `targets`: a target is batched by the folders of the sources, of which each has 16, and writes one file for each folder.
- `chain`: 5,000 targets, or as many as the largest size if that is less, each of which depends on the next and writes a
  file of its own from that of the next.
"""
import json
import os
import subprocess
import sys
import tempfile

TOP = os.path.dirname(os.path.dirname(os.path.abspath(__file__)))
PROGRAM = os.path.abspath(sys.argv[1]) if len(sys.argv) > 1 else os.path.join(TOP, "crates/msb/out/msb")
SIZES = [int(word) for word in sys.argv[2:]] or [1000, 2000, 4000, 8000, 16000]
FILES = 20000
CHAIN = 5000


def element(name, attributes=None, children=None):
    parts = {"e": name, "a": attributes, "c": children}
    return {key: value for key, value in parts.items() if value is not None}


def project(*children):
    return json.dumps(element("Project", children=list(children)))


def sources(pattern):
    return element("ItemGroup", children=[element("S", {"Include": pattern})])


def one_by_one(task):
    lists = {"Name": "Build", "Inputs": "@(S)", "Outputs": "@(S->'o/%(Filename).o')"}
    return project(sources("src/*.c"), element("Target", lists, [element("Copy", task)]))


def flat(size):
    return {f"src/{i}.c": f"source {i}\n" for i in range(size)}


def items(size):
    copy = {"SourceFiles": "@(S)", "DestinationFiles": "@(S->'o/%(Filename).o')"}
    return {"a.proj": one_by_one(copy), **flat(size)}, size


def tasks(size):
    copy = {"SourceFiles": "%(S.Identity)", "DestinationFiles": "o/%(S.Filename).o"}
    return {"a.proj": one_by_one(copy), **flat(size)}, size


def targets(size):
    """A folder's file lists its sources."""
    lists = {"Name": "Build", "Inputs": "@(S)", "Outputs": "o/%(S.RecursiveDir)all.txt"}
    write = {"File": "o/%(S.RecursiveDir)all.txt", "Lines": "@(S)", "Overwrite": "true"}
    build = element("Target", lists, [element("WriteLinesToFile", write)])
    files = {f"src/{i // 16}/{i}.c": f"source {i}\n" for i in range(size)}
    return {"a.proj": project(sources("src/**/*.c"), build), **files}, -(-size // 16)


def chain(size):
    """Target i copies the file that target i + 1 has made, and the last one the source."""
    rows = []
    for i in range(size):
        made = f"o/{i + 1}.txt" if i + 1 < size else "source.txt"
        lists = {"Name": f"T{i}", "Inputs": made, "Outputs": f"o/{i}.txt"}
        if i + 1 < size:
            lists["DependsOnTargets"] = f"T{i + 1}"
        rows.append(element("Target", lists, [element("Copy", {"SourceFiles": made, "DestinationFiles": f"o/{i}.txt"})]))
    return {"a.proj": project(*rows), "source.txt": "source\n"}, size


def write(folder, files):
    for name, content in files.items():
        path = os.path.join(folder, name)
        os.makedirs(os.path.dirname(path), exist_ok=True)
        with open(path, "w") as file:
            file.write(content)


def written(folder):
    return sum(len(names) for _, _, names in os.walk(os.path.join(folder, "o")))


def built(folder):
    """The processor seconds, the peak memory, and the printed text of a build."""
    with open(os.path.join(folder, "..", "text"), "w+") as text:
        child = subprocess.Popen([PROGRAM, "build", "a.proj"], cwd=folder, stdout=text, stderr=text)
        _, status, usage = os.wait4(child.pid, 0)
        seconds = usage.ru_utime + usage.ru_stime
        text.seek(0)
        shown = text.read()
    assert status == 0 and shown.endswith("build succeeded\n"), (status, shown[-200:])
    return seconds, usage.ru_maxrss / 1024, shown


def measured(files, outputs):
    with tempfile.TemporaryDirectory() as top:
        folder = os.path.join(top, "project")
        os.mkdir(folder)
        write(folder, files)
        first = built(folder)
        assert written(folder) == outputs, (written(folder), outputs)
        assert "up to date" not in first[2]
        if len(files) + outputs > FILES:
            return first, None
        second = built(folder)
        assert " ran" not in second[2] and "partial" not in second[2]
        return first, second


def column(now, before):
    if now is None:
        return " %9s %6s %6s %6s" % ("-", "", "-", "")
    times = ["", ""]
    if before is not None:
        times = ["x%.1f" % (now[i] / before[i]) for i in (0, 1)]
    return " %9.3f %6s %6.1f %6s" % (now[0], times[0], now[1], times[1])


def main():
    print("%-8s %6s   %-30s %s" % ("", "", "first: s, MiB", "second: s, MiB"))
    for shape in (items, tasks, targets):
        before = (None, None)
        for size in SIZES:
            now = measured(*shape(size))
            print("%-8s %6d %s %s" % (shape.__name__, size, column(now[0], before[0]), column(now[1], before[1])), flush=True)
            before = now
    size = min(CHAIN, max(SIZES))
    now = measured(*chain(size))
    print("%-8s %6d %s %s" % ("chain", size, column(now[0], None), column(now[1], None)), flush=True)


if __name__ == "__main__":
    main()
