#!/usr/bin/env python3
"""Writes the tables and the picture that come of crates.txt, the costs and the wrong bodies.

usage: tools/make_tables.py [--check]

From crates.txt come the table of crates in docs/ARCHITECTURE.md and the picture docs/layers.svg,
and with tools/costs.txt the table of what a change costs in CONTRIBUTING.md. From
crates/CRATE/must-fail/ and edits/CRATE/ come the counts in docs/TESTED.md; its last column, when
the edits of a crate were last tried, is kept. With --check nothing is written; the status is 1
where a file is not what would be written, or where a crate stands above one that it stands on.
"""

import re
import sys
from pathlib import Path
from typing import Callable, NamedTuple
from xml.sax.saxutils import escape

TOP = Path(__file__).resolve().parent.parent
WIDTH, LINE, GAP, LETTER = 860, 20, 26, 7.3
NEVER_TRIED = "not from this place yet"

PICTURE = """\
<svg xmlns="http://www.w3.org/2000/svg" width="%WIDTH%" height="%HEIGHT%"
  viewBox="0 0 %WIDTH% %HEIGHT%">
<title>The layers of the repository</title>
<style>
text { font: 14px sans-serif }
text.name { font-weight: bold }
text.crates { font: 12px monospace }
rect.layer { fill: #f4f6fa; stroke: #51607a; rx: 6px }
path.arrow { fill: none; stroke: #51607a }
</style>
<defs><marker id="tip" markerWidth="8" markerHeight="8" refX="7" refY="4" orient="auto">
<path d="M0,0 L8,4 L0,8 z" fill="#51607a"/></marker></defs>
<rect width="100%" height="100%" fill="white"/>
%PARTS%
</svg>
"""


class Crate(NamedTuple):
    name: str
    told: str
    layer: str
    stands_on: list[str]


class Wrong(Exception):
    """A crates.txt that is not of the form, or a page without its marks."""


def read_crates(text: str) -> dict[str, Crate]:
    """The crates in their order, each with the line above it and its layer."""
    crates: dict[str, Crate] = {}
    layer = told = ""
    for line in text.splitlines():
        if line.startswith("# == "):
            layer, told = line[5:].strip(), ""
        elif line.startswith("#"):
            told = line[1:].strip()
        elif line.strip():
            head, _, below = line.partition(":")
            name = head.split()[0]
            if not layer or not told:
                raise Wrong(f"crates.txt: {name} has no layer, or no line that tells what it is")
            crates[name] = Crate(name, told, layer, below.split())
            told = ""
    return crates


def check_order(crates: dict[str, Crate]) -> None:
    """Each crate stands behind those of the repository that it stands on."""
    seen: set[str] = set()
    for crate in crates.values():
        for other in crate.stands_on:
            if other in crates and other not in seen:
                raise Wrong(f"crates.txt: {crate.name} stands above {other}, on which it stands")
        seen.add(crate.name)


def all_below(crates: dict[str, Crate], name: str) -> set[str]:
    """All that a crate stands on, by others too."""
    found: set[str] = set()
    for other in crates[name].stands_on if name in crates else []:
        found |= {other} | all_below(crates, other)
    return found


def right_below(crates: dict[str, Crate], name: str) -> list[str]:
    """What a crate stands on, less what it stands on by others."""
    on = crates[name].stands_on
    by_others = set().union(*(all_below(crates, other) for other in on)) if on else set()
    return [other for other in on if other not in by_others]


def layers_of(crates: dict[str, Crate]) -> dict[str, list[str]]:
    """The crates of each layer."""
    layers: dict[str, list[str]] = {}
    for crate in crates.values():
        layers.setdefault(crate.layer, []).append(crate.name)
    return layers


def crate_table(crates: dict[str, Crate]) -> str:
    lines = ["| Crate | In a line | Stands on |", "|---|---|---|"]
    for layer, names in layers_of(crates).items():
        lines.append(f"| **{layer}** | | |")
        for name in names:
            on = ", ".join(f"`{other}`" for other in right_below(crates, name))
            lines.append(f"| `{name}` | {crates[name].told} | {on} |")
    return "\n".join(lines)


# ---- The picture ------------------------------------------------------------------------------


def wrapped(names: list[str]) -> list[str]:
    """Names in lines that fit the picture."""
    lines = [""]
    for name in names:
        if len(lines[-1]) + len(name) + 3 > (WIDTH - 130) / LETTER:
            lines.append("")
        lines[-1] += ("   " if lines[-1] else "") + name
    return lines


def layers_below(crates: dict[str, Crate]) -> dict[str, list[str]]:
    """The layers that each layer stands on, less those that it stands on by others."""
    on = {layer: {crates[other].layer for name in names for other in crates[name].stands_on
                  if other in crates} - {layer}
          for layer, names in layers_of(crates).items()}
    return {layer: [one for one in on[layer] if not any(one in on[other] for other in on[layer])]
            for layer in on}


def box(layer: str, lines: list[str], top: float) -> str:
    height = LINE * (len(lines) + 1) + 12
    parts = [f'<rect class="layer" x="20" y="{top}" width="{WIDTH - 100}" height="{height}"/>',
             f'<text x="34" y="{top + 20}" class="name">{escape(layer)}</text>']
    parts += [f'<text class="crates" x="34" y="{top + 20 + LINE * number}">{escape(line)}</text>'
              for number, line in enumerate(lines, 1)]
    return "\n".join(parts)


def picture(crates: dict[str, Crate]) -> str:
    """The layers, the lowest one at the bottom, and at the right what each stands on."""
    layers = list(layers_of(crates).items())[::-1]
    tops: dict[str, tuple[float, float]] = {}
    parts, top = [], 20.0
    for layer, names in layers:
        lines = wrapped(names)
        parts.append(box(layer, lines, top))
        height = LINE * (len(lines) + 1) + 12
        tops[layer] = top, top + height
        top += height + GAP
    parts += arrows(layers_below(crates), tops)
    text = PICTURE.replace("%WIDTH%", str(WIDTH)).replace("%HEIGHT%", f"{top:.0f}")
    return text.replace("%PARTS%", "\n".join(parts))


def arrows(on: dict[str, list[str]], tops: dict[str, tuple[float, float]]) -> list[str]:
    """An arrow from each layer to those that it stands on, straight or along the right side."""
    order, parts, lane, middle = list(tops), [], 0, WIDTH // 2 - 40
    for layer in order:
        for other in sorted(on[layer], key=order.index):
            if order.index(other) == order.index(layer) + 1:
                path = f"M{middle},{tops[layer][1]} L{middle},{tops[other][0]}"
            else:
                x, lane = WIDTH - 68 + 8 * (lane % 7), lane + 1
                start = tops[layer][1] - 14 - 3 * (lane % 4)
                end = tops[other][0] + 10 + 4 * (lane % 4)
                path = f"M{WIDTH - 80},{start} L{x},{start} L{x},{end} L{WIDTH - 80},{end}"
            parts.append(f'<path class="arrow" d="{path}" marker-end="url(#tip)"/>')
    return parts


# ---- Costs ------------------------------------------------------------------------------------


def read_costs(text: str) -> dict[str, float]:
    """Processor seconds of each crate: the sum of the columns behind that of its lines, if any."""
    costs = {}
    for line in text.splitlines():
        name, *numbers = line.split() or [""]
        if numbers and all(re.fullmatch(r"[0-9]+", number) for number in numbers):
            costs[name] = sum(map(float, numbers[1:] or numbers))
    return costs


def cost_table(crates: dict[str, Crate], costs: dict[str, float]) -> str:
    """What a change in the lowest and in the highest crate of a layer makes to be proved again."""
    above = {name: sum(costs.get(other, 0) for other in crates if other == name
                       or name in all_below(crates, other))
             for name in crates}
    lines = ["| Layer | Its crates | A change of a crate, with all above it |", "|---|---|---|"]
    for layer, names in layers_of(crates).items():
        own, most = sum(costs.get(name, 0) for name in names), max(names,
                                                                   key=lambda name: above[name])
        least = min(names, key=lambda name: above[name])
        span = f"{above[most] / 60:.0f} min (`{most}`)"
        if least != most:
            span = f"{above[least] / 60:.0f} min (`{least}`) to {span}"
        lines.append(f"| {layer} | {own / 60:.0f} min | {span} |")
    return "\n".join(lines)


# ---- Wrong bodies -----------------------------------------------------------------------------


def count_edits(folder: Path) -> int:
    return len(list(folder.glob("*.edit")))


def edit_table(crates: dict[str, Crate], before: str) -> str:
    """How many wrong bodies of each crate are tried where, and when those of edits/ last were."""
    kept = dict(re.findall(r"^\| `(\w+)` \|[^|]*\|[^|]*\| (.*?) \|$", before, re.M))
    lines = ["| Crate | In the gate | In edits/ | All of edits/ last tried and refused |",
             "|---|---|---|---|"]
    gate_sum = edit_sum = 0
    for name in crates:
        gate = count_edits(TOP / "crates" / name / "must-fail")
        edits = count_edits(TOP / "edits" / name)
        gate_sum, edit_sum = gate_sum + gate, edit_sum + edits
        if gate or edits:
            tried = kept.get(name, NEVER_TRIED) if edits else ""
            lines.append(f"| `{name}` | {gate or ''} | {edits or ''} | {tried} |")
    return "\n".join(lines + [f"| all | {gate_sum} | {edit_sum} | |"])


def between(text: str, mark: str, make: Callable[[str], str]) -> str:
    """The text with what stands between two marks made anew from what stood there."""
    first, last = f"<!-- {mark} -->\n", f"<!-- end of {mark} -->"
    if first not in text or last not in text:
        raise Wrong(f"the marks of `{mark}` are not there")
    head, _, rest = text.partition(first)
    old, _, tail = rest.partition(last)
    return f"{head}{first}{make(old)}\n{last}{tail}"


def pages() -> dict[Path, str]:
    crates = read_crates((TOP / "crates.txt").read_text())
    check_order(crates)
    costs = read_costs((TOP / "tools" / "costs.txt").read_text())
    architecture, tested = TOP / "docs" / "ARCHITECTURE.md", TOP / "docs" / "TESTED.md"
    contributing = TOP / "CONTRIBUTING.md"
    return {
        contributing: between(contributing.read_text(), "costs",
                              lambda _: cost_table(crates, costs)),
        architecture: between(architecture.read_text(), "crates", lambda _: crate_table(crates)),
        tested: between(tested.read_text(), "edits", lambda old: edit_table(crates, old)),
        TOP / "docs" / "layers.svg": picture(crates),
    }


def look_at(made: dict[Path, str]) -> int:
    """Tells each page that is not what would be written."""
    old = [path for path, text in made.items() if not path.is_file() or path.read_text() != text]
    for path in old:
        print(f"{path.relative_to(TOP)} is not what tools/make_tables.py writes")
    print(f"{len(made) - len(old)} passed, {len(old)} failed")
    return 1 if old else 0


def main() -> int:
    if sys.argv[1:] not in ([], ["--check"]):
        print("usage: tools/make_tables.py [--check]", file=sys.stderr)
        return 2
    try:
        made = pages()
        if sys.argv[1:]:
            return look_at(made)
        for path, text in made.items():
            path.write_text(text)
    except (Wrong, OSError) as error:
        print(f"make_tables: {error}", file=sys.stderr)
        return 1
    return 0


if __name__ == "__main__":
    sys.exit(main())
