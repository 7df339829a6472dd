#!/usr/bin/env python3
"""Times builds on one node and on several.

    bench/nodes.py [PROGRAM]

PROGRAM is the built program, crates/msb/out/msb if it is not given. Two sets are built: 64 projects that don't call each
other, each of which copies a source of 1 MiB and writes 1 MiB of lines made of items, and 16 small ones. For each number of
nodes the least time of three clean builds is printed, with the processor time of that build.
"""
import json
import os
import shutil
import subprocess
import sys
import tempfile
import time

TOP = os.path.dirname(os.path.dirname(os.path.abspath(__file__)))
PROGRAM = os.path.abspath(sys.argv[1]) if len(sys.argv) > 1 else os.path.join(TOP, "crates/msb/out/msb")


def project(children):
    return json.dumps({"e": "Project", "c": [{"e": "Target", "a": {"Name": "Build"}, "c": children}]})


def large(number):
    """Copies a source of 1 MiB, and writes 1 MiB of lines that are made of the metadata of 8,000 items."""
    names = ";".join(f"part/{item}.c" for item in range(8000))
    line = "@(Part->'%(Identity) %(Filename)%(Extension) %(RelativeDir) " + "x" * 90 + "')"
    return json.dumps({"e": "Project", "c": [
        {"e": "ItemGroup", "c": [{"e": "Part", "a": {"Include": names}}]},
        {"e": "Target", "a": {"Name": "Build"}, "c": [
            {"e": "Copy", "a": {"SourceFiles": f"src/{number}.txt", "DestinationFiles": f"out/{number}.txt"}},
            {"e": "WriteLinesToFile", "a": {"File": f"out/{number}.lst", "Lines": line, "Overwrite": "true"}},
        ]},
    ]})


def small(number):
    return project([{"e": "WriteLinesToFile", "a": {"File": f"out/{number}.txt", "Lines": str(number), "Overwrite": "true"}}])


def write(folder, count, form):
    os.makedirs(f"{folder}/src")
    for number in range(count):
        with open(f"{folder}/src/{number}.txt", "w") as source:
            source.write("".join(f"{number} {line:040d}\n" for line in range(24000)) if form is large else "")
        with open(f"{folder}/{number}.proj", "w") as file:
            file.write(form(number))
    names = ";".join(f"{number}.proj" for number in range(count))
    with open(f"{folder}/all.proj", "w") as file:
        file.write(project([{"e": "MSBuild", "a": {"Projects": names, "BuildInParallel": "true"}}]))


def build(folder, nodes):
    shutil.rmtree(f"{folder}/out", ignore_errors=True)
    start = time.perf_counter()
    child = subprocess.Popen([PROGRAM, "build", "all.proj", "--nodes", str(nodes)], cwd=folder, stdout=subprocess.DEVNULL)
    _, status, used = os.wait4(child.pid, 0)
    if status != 0:
        sys.exit(f"{PROGRAM} ended with {status}")
    return time.perf_counter() - start, used.ru_utime + used.ru_stime


def main():
    for name, count, form, numbers in (("large", 64, large, (1, 2, 4, 8)), ("small", 16, small, (1, 4, 64))):
        with tempfile.TemporaryDirectory() as folder:
            write(folder, count, form)
            for nodes in numbers:
                seconds, processor = min(build(folder, nodes) for _ in range(3))
                print(f"{name} {count} projects, {nodes:2} nodes: {seconds:.3f} s, processor {processor:.3f} s", flush=True)


if __name__ == "__main__":
    main()
