#!/usr/bin/env python3
"""Times the program on projects of many targets: one chain of DependsOnTargets, one row of DefaultTargets, and one target
that all others hook on.

    bench/order.py [PROGRAM]

PROGRAM is the built program, crates/msb/out/msb if it is not given. For each size a project is written to a folder of
its own, built three times, and the least time is printed in milliseconds, with the time of one target.
"""
import json
import os
import subprocess
import sys
import tempfile
import time

TOP = os.path.dirname(os.path.dirname(os.path.abspath(__file__)))
PROGRAM = os.path.abspath(sys.argv[1]) if len(sys.argv) > 1 else os.path.join(TOP, "crates/msb/out/msb")


def target(name, **lists):
    return {"e": "Target", "a": {"Name": name, **lists}, "c": [{"e": "Message", "a": {"Text": name}}]}


def chain(size):
    """Target i depends on target i + 1."""
    last = size - 1
    return {}, [target(f"T{i}", **({"DependsOnTargets": f"T{i + 1}"} if i < last else {})) for i in range(size)]


def row(size):
    """The default targets are all of them, one after another."""
    names = [f"T{i}" for i in range(size)]
    return {"DefaultTargets": ";".join(names)}, [target(name) for name in names]


def star(size):
    """Each other target names the first one, half of them ahead of its body and half behind it."""
    return {}, [target("T0")] + [
        target(f"T{i}", **{"BeforeTargets" if i % 2 else "AfterTargets": "T0"}) for i in range(1, size)
    ]


def least_time(attributes, targets):
    with tempfile.TemporaryDirectory() as folder:
        with open(os.path.join(folder, "a.proj"), "w") as file:
            json.dump({"e": "Project", "a": attributes, "c": targets}, file)
        times = []
        for _ in range(3):
            start = time.monotonic()
            done = subprocess.run([PROGRAM, "build", "a.proj"], cwd=folder, capture_output=True, text=True)
            times.append(time.monotonic() - start)
            ran = done.stdout.count(" ran\n")
            assert done.returncode == 0 and ran == len(targets), (done.returncode, ran)
        return min(times)


for shape in (chain, row, star):
    for size in (500, 1000, 2000, 5000, 10000):
        seconds = least_time(*shape(size))
        print(f"{shape.__name__} {size}: {seconds * 1e3:.1f} ms, {seconds / size * 1e6:.1f} us a target")
