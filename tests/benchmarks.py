#!/usr/bin/env python3
"""Runs bench/compare.py on small sets: each program has to write the outputs of each set, and once.
Runs bench/scaling.py on small sets, bench/checks.py on small diamonds, each of which has to be
steady, with its number of bodies, and bench/imports.py on two projects, which have to print the
property that they import.

usage: tests/benchmarks.py PROGRAM

The scripts themselves look at the outputs of each build and at the text of each check, and end with
a status above 0 where one is not as it should be. The last line is `N passed, M failed`: so many
shapes of sets and other scripts were tried.
"""

import re
import subprocess
import sys
import tempfile
from pathlib import Path

TOP = Path(__file__).resolve().parent.parent
SHAPES = ("flat", "chains", "layers", "tree")
# One project, layers of two, and a second chain and a last layer of one project.
SIZES = (1, 26, 101)
LAYERS = (1, 4, 10)
SECONDS = 300


def compare(program: str, shape: str) -> str:
    """What is wrong with the comparison over sets of this shape, or nothing."""
    with tempfile.TemporaryDirectory() as folder:
        words = [TOP / "bench" / "compare.py", program, "--shapes", shape, "--rounds", "1",
                 "--sizes", ",".join(map(str, SIZES)), "--folder", folder,
                 "--beside", "ninja,make"]
        ran = subprocess.run([sys.executable, "-B", *words], stdin=subprocess.DEVNULL, text=True,
                             stdout=subprocess.PIPE, stderr=subprocess.STDOUT, timeout=SECONDS)
    if ran.returncode:
        return f"status {ran.returncode}\n{ran.stdout}"
    for size in SIZES:
        for build in ("clean", "second"):
            for nodes in ("1 node ", "4 nodes"):
                row = rf"^\| {shape} +\| {size} +\| {build} +\| msb, {nodes} +\| [0-9.]+ "
                if len(re.findall(row, ran.stdout, re.M)) != 1:
                    return f"no row of {size} projects, {build}, {nodes}\n{ran.stdout}"
    return ""


def scaling(program: str) -> str:
    """What is wrong with builds on several nodes beside builds on one, or nothing."""
    with tempfile.TemporaryDirectory() as folder:
        words = [TOP / "bench" / "scaling.py", program, "--size", "26", "--nodes", "3",
                 "--rounds", "1", "--folder", folder]
        ran = subprocess.run([sys.executable, "-B", *words], stdin=subprocess.DEVNULL, text=True,
                             stdout=subprocess.PIPE, stderr=subprocess.STDOUT, timeout=SECONDS)
    ways = ("1 node", "3 nodes", "3 side by side")
    rows = [rf"^\| {shape} +\| {way} +\| [0-9.]+ " for shape in SHAPES[:3] for way in ways]
    if ran.returncode or any(len(re.findall(row, ran.stdout, re.M)) != 1 for row in rows):
        return f"status {ran.returncode}\n{ran.stdout}"
    return ""


def check(program: str) -> str:
    """What is wrong with the checks of diamonds, or nothing."""
    words = [TOP / "bench" / "checks.py", program, *map(str, LAYERS)]
    ran = subprocess.run([sys.executable, "-B", *words], stdin=subprocess.DEVNULL, text=True,
                         stdout=subprocess.PIPE, stderr=subprocess.STDOUT, timeout=SECONDS)
    if ran.returncode:
        return f"status {ran.returncode}\n{ran.stdout}"
    for layers in LAYERS:
        bodies = 2 ** (layers + 1) - 1
        line = rf"^{layers} layers, {1 + 2 * layers} runs, {bodies} bodies: "
        if not re.search(line, ran.stdout, re.M):
            return f"no line of {layers} layers\n{ran.stdout}"
    return ""


def imports(program: str) -> str:
    """What is wrong with the sets that import properties, or nothing."""
    with tempfile.TemporaryDirectory() as folder:
        words = [TOP / "bench" / "imports.py", program, "--sizes", "2", "--rounds", "1",
                 "--folder", folder]
        ran = subprocess.run([sys.executable, "-B", *words], stdin=subprocess.DEVNULL, text=True,
                             stdout=subprocess.PIPE, stderr=subprocess.STDOUT, timeout=SECONDS)
    if ran.returncode or ran.stdout.count("\n") != 4:
        return f"status {ran.returncode}\n{ran.stdout}"
    return ""


def main() -> int:
    if len(sys.argv) != 2:
        print("usage: tests/benchmarks.py PROGRAM", file=sys.stderr)
        return 2
    wrong = {shape: compare(sys.argv[1], shape) for shape in SHAPES}
    wrong["builds side by side"] = scaling(sys.argv[1])
    wrong["checks of diamonds"] = check(sys.argv[1])
    wrong["imports"] = imports(sys.argv[1])
    for shape, told in wrong.items():
        if told:
            print(f"FAIL {shape}: {told}")
    failed = sum(map(bool, wrong.values()))
    print(f"{len(wrong) - failed} passed, {failed} failed")
    return 1 if failed else 0


if __name__ == "__main__":
    sys.exit(main())
