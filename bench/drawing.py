#!/usr/bin/env python3
"""Draws bench/results.svg from the tables of bench/results.md: how long ours takes where the baseline takes 1.

    bench/drawing.py             draws it anew, of the results as they stand
    bench/drawing.py --check     fails where the picture isn't what is drawn of them
"""
from __future__ import annotations

import math
import os
import re
import sys
from typing import Iterator, List, NamedTuple, Tuple

if {"-h", "--help"} & set(sys.argv[1:]):
    print(__doc__)
    sys.exit()

HERE = os.path.dirname(os.path.abspath(__file__))
# The groups in their order: a title, and how the names of its rows begin.
GROUPS = [
    ("A node, as its callers see it", ("read-", "slowest", "seats-", "turns-", "submit", "publish-", "workers-")),
    ("Blocks and the chain", ("connect-", "chain", "blocks-above", "reorganise", "alone", "decode", "write", "records")),
    ("Coins", ("coins-",)),
    ("Scripts and signatures", ("key-hash", "two-of-three", "swaps", "hashes", "long-code", "conditions", "digests", "each-input", "queue-")),
    ("Hashes", ("double-sha", "ripemd", "merkle", "ids")),
]
LOW, HIGH = 0.05, 4.0
LEFT, WIDTH, STEP = 250, 420, 19
STYLE = """
  .page { fill: #ffffff } text { fill: #14181c } .head { font-size: 14px; font-weight: bold } .small { fill: #51606e }
  .axis { stroke: #c3ccd4; stroke-width: 1 } .one { stroke: #51606e; stroke-width: 1.5 } .goal { stroke: #14181c; stroke-width: 2 } .edge { stroke: #ffffff; stroke-width: 4 }
  .met { fill: #2f7d3b } .near { fill: #b3681c } .missed { fill: #b3261e }
  @media (prefers-color-scheme: dark) {
    .page { fill: #14181c } text { fill: #f2f5f8 } .small { fill: #9fb0c0 } .axis { stroke: #3a4651 } .one { stroke: #9fb0c0 }
    .goal { stroke: #f2f5f8 } .edge { stroke: #14181c } .met { fill: #6cc07a } .near { fill: #e0a060 } .missed { fill: #f2837c }
  }
"""


class Row(NamedTuple):
    """A workload's name, its size, ours over the baseline, and how much that may be."""

    name: str
    size: str
    ratio: float
    goal: float


def rows(text: str) -> Iterator[Row]:
    """Each row that has a ratio and a goal."""
    for line in text.splitlines():
        cells = [cell.strip() for cell in line.strip("| ").split("|")]
        goal = re.match(r"([0-9.]+), (?:met|missed)$", cells[-1])
        ratios = [cell for cell in cells[3:-1] if re.fullmatch(r"[0-9]+\.[0-9]{2}", cell)]
        if goal and ratios and len(cells) >= 7:
            yield Row(cells[0], cells[1], float(ratios[-1]), float(goal[1]))


def grouped(found: Iterator[Row]) -> Iterator[Tuple[str, List[Row]]]:
    left = list(found)
    for title, begins in GROUPS:
        own = [row for row in left if row.name.startswith(begins)]
        left = [row for row in left if row not in own]
        if own:
            yield title, own
    if left:
        yield "Others", left


def across(ratio: float) -> float:
    """Where a ratio stands: each doubling is as wide."""
    part = math.log(min(max(ratio, LOW), HIGH) / LOW) / math.log(HIGH / LOW)
    return LEFT + part * WIDTH


def bar(row: Row, y: int) -> str:
    kind = "met" if row.ratio <= row.goal else "near" if row.ratio <= 1.25 * row.goal else "missed"
    one, end, at = across(1), across(row.ratio), across(row.goal)
    label = f'<text x="{LEFT - 14}" y="{y + 11}" text-anchor="end">{row.name} <tspan class="small">{row.size}</tspan></text>'
    drawn = [label, f'<rect class="{kind}" x="{min(one, end):.1f}" y="{y}" width="{max(abs(end - one), 1):.1f}" height="13"/>']
    if row.ratio < LOW:
        drawn.append(f'<path class="{kind}" d="M{LEFT} {y - 2}v17l-9 -8.5z"/>')
    drawn.append(f'<line class="edge" x1="{at:.1f}" y1="{y - 3}" x2="{at:.1f}" y2="{y + 16}"/>')
    drawn.append(f'<line class="goal" x1="{at:.1f}" y1="{y - 2}" x2="{at:.1f}" y2="{y + 15}"/>')
    drawn.append(f'<text x="{LEFT + WIDTH + 14}" y="{y + 11}">{row.ratio:.2f}</text>')
    return "\n".join(drawn)


def key(y: int) -> List[str]:
    """What colours and marks mean, in two lines."""
    kinds = (("met", "the goal is met"), ("near", "missed by a quarter at most"), ("missed", "missed by more"))
    out, x = [], 20
    for kind, said in kinds:
        out.append(f'<rect class="{kind}" x="{x}" y="{y}" width="13" height="13"/><text x="{x + 20}" y="{y + 11}">{said}</text>')
        x += 60 + 7 * len(said)
    under = y + 22
    out.append(f'<line class="goal" x1="26" y1="{under - 2}" x2="26" y2="{under + 15}"/><text x="40" y="{under + 11}">the goal</text>')
    out.append(f'<path class="met" d="M161 {under - 2}v17l-9 -8.5z"/><text x="172" y="{under + 11}">goes on, below {LOW:g}</text>')
    said = "grey: how many; on the right the ratio; each doubling is as wide"
    out.append(f'<text class="small" x="328" y="{under + 11}">{said}</text>')
    return out


def axis(top: int, bottom: int) -> List[str]:
    out = []
    for ratio in (0.05, 0.1, 0.25, 0.5, 1, 2, 4):
        x = across(ratio)
        out.append(f'<line class="{"one" if ratio == 1 else "axis"}" x1="{x:.1f}" y1="{top}" x2="{x:.1f}" y2="{bottom}"/>')
        out.append(f'<text class="small" x="{x:.1f}" y="{top - 6}" text-anchor="middle">{ratio:g}</text>')
    return out


def picture(text: str) -> str:
    """The drawing of what results.md says."""
    out = ['<text class="head" x="20" y="28">Time over the C++ baseline: left of 1 ours is faster</text>', *key(44)]
    y = 104
    for title, own in grouped(rows(text)):
        bottom = y + 48 + STEP * len(own)
        out += [f'<text class="head" x="20" y="{y + 12}">{title}</text>', *axis(y + 40, bottom)]
        out += [bar(row, y + 46 + STEP * place) for place, row in enumerate(own)]
        y = bottom + 24
    head = f'<svg xmlns="http://www.w3.org/2000/svg" viewBox="0 0 740 {y}" font-family="sans-serif" font-size="11.5">'
    page = f'<rect class="page" width="740" height="{y}"/>'
    return "\n".join([head, "<title>Time over the C++ baseline</title>", f"<style>{STYLE}</style>", page, *out, "</svg>"]) + "\n"


def read(name: str) -> str:
    with open(f"{HERE}/{name}", encoding="utf-8") as file:
        return file.read()


def draw() -> None:
    drawn = picture(read("results.md"))
    with open(f"{HERE}/results.svg", "w", encoding="utf-8") as file:
        file.write(drawn)


def main() -> int:
    if sys.argv[1:] == ["--check"]:
        if picture(read("results.md")) == read("results.svg"):
            return 0
        print("bench/drawing.py: results.svg isn't what is drawn of results.md", file=sys.stderr)
        return 1
    draw()
    return 0


if __name__ == "__main__":
    sys.exit(main())
