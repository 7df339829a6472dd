#!/bin/sh
# Times a hundred groups of a target, each of one element, over lists of growing size: a property, an Include, an Update and
# a Remove of one item. Usage: bench/groups.sh. It makes a program of its own in a folder that is removed at the end. The
# libraries are proved first where they aren't built yet, which takes some minutes.
set -e
root=$(cd "$(dirname "$0")/.." && pwd)
libraries='msb_laws msb_values msb_paths file_store msb_elements target_order build_world msb_glob msb_expression msb_expand msb_condition msb_batching result_cache msb_files msb_items'
work=$(mktemp -d)
trap 'rm -rf "$work"' EXIT
for library in $libraries; do
    (cd "$root" && tar cf - "crates/$library") | (cd "$work" && tar xf -)
    grep -E "^$library[ :]" "$root/crates.txt" >> "$work/crates.txt"
done
echo 'groups_bench: msb_values file_store msb_elements build_world msb_files msb_items' >> "$work/crates.txt"
mkdir -p "$work/crates/groups_bench/src" "$work/crates/groups_bench/specs" "$work/crates/groups_bench/proofs"
: > "$work/crates/groups_bench/specs/Lib.antt"
cat > "$work/crates/groups_bench/src/main.rt" <<'PROGRAM'
#![tactic(auto)]

use build_world::PlacedElement;
use file_store::Tree;
use msb_elements::{Element, Project, read_project};
use msb_files::{FileView, Journal};
use msb_items::change_by_group;
use msb_values::{
    Defaults, Item, List, Lists, Name, NoMemory, Pairs, Scope, SharedItems, Text,
};
use std::alloc::Global;
use std::io;
use std::time::Instant;

const GROUPS: &[(&str, &str)] = &[
    ("property", "{\"e\":\"PropertyGroup\",\"c\":[{\"e\":\"P\",\"t\":\"$(P)x\"}]}"),
    ("include", "{\"e\":\"ItemGroup\",\"c\":[{\"e\":\"X\",\"a\":{\"Include\":\"new.c\",\"M\":\"1\"}}]}"),
    ("update", "{\"e\":\"ItemGroup\",\"c\":[{\"e\":\"X\",\"a\":{\"M\":\"1\",\"Update\":\"SRC/7.c\"}}]}"),
    ("remove", "{\"e\":\"ItemGroup\",\"c\":[{\"e\":\"X\",\"a\":{\"Remove\":\"SRC/7.c\"}}]}"),
];

fn name(alloc: Global, text: &str) -> Result<Name, NoMemory> {
    match Name::read(alloc, text) {
        Ok(name) => Ok(name),
        Err(_) => Err(NoMemory),
    }
}

fn item(alloc: Global, number: u32) -> Result<Item, NoMemory> {
    let mut meta = Pairs::new(alloc);
    meta.insert(name(alloc, "K")?, Text::of(alloc, "value")?)?;
    let ident = format!(in alloc; "src/{number}.c")?;
    Ok(Item {
        ident: Text::of(alloc, ident.as_str())?,
        recursive: Text::of(alloc, "")?,
        meta,
    })
}

fn scope(alloc: Global, size: u32) -> Result<Scope, NoMemory> {
    let mut items = List::new(alloc);
    for number in 0..size {
        items.push(item(alloc, number)?)?;
    }
    let mut lists = Lists::new(alloc);
    lists.insert(name(alloc, "X")?, SharedItems::of(alloc, items)?)?;
    Ok(Scope {
        globals: Pairs::new(alloc),
        props: Pairs::new(alloc),
        items: lists,
        defaults: Defaults::new(alloc),
    })
}

// A project with a target of a hundred groups.
fn project(alloc: Global, group: &str) -> Result<Project, NoMemory> {
    let mut text = String::new(alloc);
    text.push_str("{\"e\":\"Project\",\"c\":[{\"e\":\"Target\",\"a\":{\"Name\":\"T\"},\"c\":[")?;
    text.push_str(group)?;
    for _ in 1..100 {
        text.push_str(",")?;
        text.push_str(group)?;
    }
    text.push_str("]}]}")?;
    match read_project(alloc, text.as_bytes()) {
        Ok(project) => Ok(project),
        Err(_) => Err(NoMemory),
    }
}

// How many changes there are.
fn changes(
    alloc: Global,
    view: &FileView<'_>,
    target: &Element,
    scope: &mut Scope,
) -> Result<usize, NoMemory> {
    let mut count = 0;
    for group in target.children() {
        let group = PlacedElement {
            file: "a.proj",
            element: group,
        };
        match change_by_group(alloc, view, "a.proj", &group, scope) {
            Ok(changes) => count = changes.len().max(count),
            Err(_) => return Err(NoMemory),
        }
    }
    Ok(count)
}

fn time(rt: &HostRuntime, kind: &str, group: &str, size: u32) -> io::Result<()> {
    let alloc = rt.alloc();
    let (Ok(mut scope), Ok(project), Ok(journal)) =
        (scope(alloc, size), project(alloc, group), Journal::new(alloc))
    else {
        return println!(rt; "no memory");
    };
    let (Some(tree), Some(target)) = (Tree::of(List::new(alloc)), project.root.child(0)) else {
        return println!(rt; "no target");
    };
    let view = FileView::of(&tree, &journal);
    let start = Instant::now(rt)?;
    let made = changes(alloc, &view, target, &mut scope);
    let micros = start.elapsed(rt)?.as_micros();
    match made {
        Ok(_) => println!(rt; "{kind}, {size} items: {micros} us"),
        Err(_) => println!(rt; "no changes"),
    }
}

fn main(rt: HostRuntime) -> io::Result<()> {
    for (kind, group) in GROUPS {
        for size in [1_000, 4_000, 16_000] {
            time(&rt, kind, group, size)?;
        }
    }
    Ok(())
}
PROGRAM
cd "$work/crates/groups_bench"
rt run
