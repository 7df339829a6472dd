#!/usr/bin/env python3
"""Measures the reading of project files: time and peak memory for growing files.

Run it at the top of the repository: bench/elements.py [MEBIBYTES ..]

It makes a crate of its own in a temporary folder, over copies of the crates that it needs, whose program reads one file
by `serde_json` alone or as a project. Each line that it prints has the size, and for both the seconds and the peak
memory in MiB.
"""
import os
import resource
import shutil
import subprocess
import sys
import tempfile
import time

MAIN = """//! Reads a file in one of two ways.
#![tactic(auto)]

use msb_elements::read_project;
use serde_json::Value;
use std::env;
use std::fs;
use std::process::ExitCode;

fn main(rt: HostRuntime) -> ExitCode {
    let Ok(mut words) = env::args(&rt) else { return ExitCode::from(1); };
    let (Some(_), Some(way), Some(path)) = (words.next(), words.next(), words.next()) else { return ExitCode::from(2); };
    let Ok(bytes) = fs::read(&rt, path.as_str()) else { return ExitCode::from(3); };
    if way.as_str() == "json" {
        return ExitCode::from(if Value::from_slice(rt.alloc(), &bytes).is_ok() { 0 } else { 4 });
    }
    ExitCode::from(if read_project(rt.alloc(), &bytes).is_ok() { 0 } else { 5 })
}
"""

ITEM = '{"a":{"Include":"src/file%d.c","Link":"yes","Optimize":"full"},"c":[{"e":"Level","t":"%d"}],"e":"Compile"}'


def project(mebibytes):
    """A valid project of about this size, of item elements with one child each."""
    items, size = [], 0
    while size < mebibytes * 2**20:
        items.append(ITEM % (len(items), len(items)))
        size += len(items[-1]) + 1
    return '{"c":[{"c":[%s],"e":"ItemGroup"}],"e":"Project"}' % ",".join(items), 2 * len(items) + 2


def built(folder):
    crates = os.path.join(folder, "crates")
    os.makedirs(os.path.join(crates, "read_elements", "src"))
    needed = ("msb_laws", "msb_values", "msb_elements")
    for name in needed:
        shutil.copytree(os.path.join("crates", name), os.path.join(crates, name))
    with open("crates.txt") as file:
        lines = [line for line in file if line.partition(":")[0] in needed]
    with open(os.path.join(folder, "crates.txt"), "w") as file:
        file.writelines(lines + ["read_elements: msb_elements serde_json\n"])
    with open(os.path.join(crates, "read_elements", "src", "main.rt"), "w") as file:
        file.write(MAIN)
    where = os.path.join(crates, "read_elements")
    subprocess.run(["rt", "run", "--", "json", "nothing"], cwd=where, stdout=subprocess.DEVNULL)
    return os.path.join(where, "out", "read_elements")


def measured(program, way, path):
    start = time.time()
    child = subprocess.Popen([program, way, path])
    _, status, usage = os.wait4(child.pid, 0)
    return status >> 8, time.time() - start, usage.ru_maxrss / 1024


def main():
    sizes = [float(word) for word in sys.argv[1:]] or [1, 2, 4, 8, 16]
    with tempfile.TemporaryDirectory() as folder:
        program = built(folder)
        path = os.path.join(folder, "large.proj")
        print("    MiB elements     json s  MiB      read s  MiB")
        for size in sizes:
            text, count = project(size)
            with open(path, "w") as file:
                file.write(text)
            line = "%7.1f %8d" % (len(text) / 2**20, count)
            for way in ("json", "read"):
                status, seconds, mebibytes = measured(program, way, path)
                line += "  %9.2f %4.0f" % (seconds, mebibytes) if status == 0 else "  status %d" % status
            print(line, flush=True)


if __name__ == "__main__":
    main()
