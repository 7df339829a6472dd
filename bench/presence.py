#!/usr/bin/env python3
"""Times whether a path is there, in trees of growing size.

Run it at the top of the repository: bench/presence.py [FILES ..]

It makes a crate of its own in a temporary folder, over copies of the crates that it needs, whose program makes a tree of
so many files, a hundred in a folder, and asks it a number of times for a file, for a folder and for a path that is not
there. Each line has the number of files and the least processor time of one question in nanoseconds.
"""
import os
import shutil
import subprocess
import sys
import tempfile

MAIN = """//! Asks a tree of many files for paths.
#![tactic(auto)]

use file_store::{File, Tree};
use msb_paths::Present;
use msb_values::{List, NoMemory, Text, Text8};
use std::alloc::Global;
use std::env;
use std::process::ExitCode;

fn tree_of(alloc: Global, number: u32) -> Result<Option<Tree>, NoMemory> {
    let mut files = List::new(alloc);
    for place in 0..number {
        let (folder, name) = (place / 100, place % 100);
        files.push(File {
            path: Text::from(format!(in alloc; "folder{folder:03}/file{name:02}.c")?),
            bytes: Text8::new(alloc),
            stamp: 1,
        })?;
    }
    Ok(Tree::of(files))
}

fn asked(alloc: Global, tree: &Tree, folders: u32, turns: u32) -> Result<u32, NoMemory> {
    let mut found = 0u32;
    for folder in 0..folders {
        let file = format!(in alloc; "folder{folder:03}/file50.c")?;
        let above = format!(in alloc; "folder{folder:03}")?;
        let missing = format!(in alloc; "folder{folder:03}/none.c")?;
        for _ in 0..turns {
            for path in [file.as_str(), above.as_str(), missing.as_str()] {
                found = found.wrapping_add(u32::from(tree.there(path)));
            }
        }
    }
    Ok(found)
}

fn main(rt: HostRuntime) -> ExitCode {
    let Ok(mut words) = env::args(&rt) else { return ExitCode::from(1); };
    let (Some(_), Some(number), Some(turns)) = (words.next(), words.next(), words.next()) else { return ExitCode::from(2); };
    let (Ok(number), Ok(turns)) = (number.as_str().parse::<u32>(), turns.as_str().parse::<u32>()) else { return ExitCode::from(3); };
    let Ok(Some(tree)) = tree_of(rt.alloc(), number) else { return ExitCode::from(4); };
    let Ok(found) = asked(rt.alloc(), &tree, number / 100, turns) else { return ExitCode::from(5); };
    ExitCode::from(if found == (number / 100).wrapping_mul(turns).wrapping_mul(2) { 0 } else { 6 })
}
"""
QUESTIONS = 3_000_000


def built(folder):
    crates = os.path.join(folder, "crates")
    os.makedirs(os.path.join(crates, "ask_paths", "src"))
    for name in ("msb_laws", "msb_values", "msb_paths", "file_store"):
        shutil.copytree(os.path.join("crates", name), os.path.join(crates, name))
    with open(os.path.join(folder, "crates.txt"), "w") as file:
        file.write("msb_laws:\nmsb_values: msb_laws caseless\nmsb_paths:\nfile_store: msb_laws msb_values msb_paths\n")
        file.write("ask_paths: file_store msb_paths msb_values\n")
    with open(os.path.join(crates, "ask_paths", "src", "main.rt"), "w") as file:
        file.write(MAIN)
    where = os.path.join(crates, "ask_paths")
    subprocess.run(["rt", "run", "--", "100", "1"], cwd=where, stdout=subprocess.DEVNULL)
    return os.path.join(where, "out", "ask_paths")


def least_time(program, files, turns):
    times = []
    for _ in range(3):
        child = subprocess.Popen([program, str(files), str(turns)])
        _, status, usage = os.wait4(child.pid, 0)
        assert status == 0, status
        times.append(usage.ru_utime)
    return min(times)


def main():
    sizes = [int(word) for word in sys.argv[1:]] or [100, 1000, 5000, 10000, 20000]
    with tempfile.TemporaryDirectory() as folder:
        program = built(folder)
        for files in sizes:
            turns = QUESTIONS // (3 * (files // 100))
            seconds = least_time(program, files, turns) - least_time(program, files, 0)
            print(f"{files} files: {seconds / (3 * turns * (files // 100)) * 1e9:.0f} ns a question", flush=True)


if __name__ == "__main__":
    main()
