#!/usr/bin/env python3
"""Times `check` on diamonds: each layer has two projects, and each of them calls both of the next layer at once, so there are
twice as many bodies a layer and two more runs.

    bench/checks.py [PROGRAM [LAYERS ..]]

PROGRAM is the built program, crates/msb/out/msb if it is not given; the numbers of layers are 4 to 20 if none is given. For each
the set is written to a folder of its own and checked: up to 15 layers it is steady, and from 16 on 100,000 bodies don't do, so a
diamond of 20 layers shows what the most bodies cost. The number of runs and bodies, the time in milliseconds, that of one body,
and the most memory are printed.
"""
import json
import os
import subprocess
import sys
import tempfile
import time

TOP = os.path.dirname(os.path.dirname(os.path.abspath(__file__)))
PROGRAM = os.path.abspath(sys.argv[1]) if len(sys.argv) > 1 else os.path.join(TOP, "crates/msb/out/msb")
LAYERS = [int(word) for word in sys.argv[2:]] or [4, 8, 10, 12, 13, 14, 15, 16, 20]


def project(number, calls):
    """A project that calls others at once and writes a file of its own."""
    tasks = [{"e": "MSBuild", "a": {"Projects": ";".join(calls), "BuildInParallel": "true"}}] if calls else []
    tasks.append({"e": "WriteLinesToFile", "a": {"File": f"out/{number}", "Lines": number, "Overwrite": "true"}})
    return {"e": "Project", "c": [{"e": "Target", "a": {"Name": "Build"}, "c": tasks}]}


def write_set(folder, layers):
    """The root and so many layers of two projects."""
    for layer in range(layers + 1):
        calls = [f"l{layer + 1}a", f"l{layer + 1}b"] if layer < layers else []
        for number in [f"l{layer}a", f"l{layer}b"] if layer else ["l0a"]:
            with open(os.path.join(folder, number), "w") as file:
                json.dump(project(number, calls), file)


def checked(layers):
    """The text of a check, its time and the most memory that it had, in MiB."""
    with tempfile.TemporaryDirectory() as folder:
        write_set(folder, layers)
        start = time.monotonic()
        ran = subprocess.Popen([PROGRAM, "check", "l0a"], cwd=folder, stdout=subprocess.PIPE, text=True)
        text = ran.stdout.read()
        _, status, usage = os.wait4(ran.pid, 0)
        ran.returncode = os.waitstatus_to_exitcode(status)
        return text.split(), time.monotonic() - start, usage.ru_maxrss / 1024


for layers in LAYERS:
    words, seconds, memory = checked(layers)
    bodies = 2 ** (layers + 1) - 1
    wanted = ["steady", "bodies", str(bodies)] if bodies <= 100_000 else ["spent", "100000"]
    assert words == wanted, words
    made = min(bodies, 100_000)
    print(f"{layers} layers, {1 + 2 * layers} runs, {made} bodies: {seconds * 1e3:.0f} ms, {seconds / made * 1e6:.1f} us a body, "
          f"{memory:.0f} MiB")
