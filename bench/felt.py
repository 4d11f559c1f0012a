#!/usr/bin/env python3
"""Puts first into bench/results.md what a user feels, reckoned from its tables: blocks a second, reads a second, bytes a coin.

    bench/felt.py             puts it anew, of the tables as they stand
    bench/felt.py --check     fails where the page says something else than is reckoned of its tables
"""
from __future__ import annotations

import os
import re
import sys
from typing import Dict, Iterator, List, NamedTuple, Optional, Tuple

HERE = os.path.dirname(os.path.abspath(__file__))
RESULTS = f"{HERE}/results.md"
BEGIN, END = "<!-- written by bench/felt.py -->", "<!-- end of bench/felt.py -->"


class Line(NamedTuple):
    """What is counted, of how many things a row's seconds are (None: the row has bytes), and which row it is."""

    what: str
    things: Optional[int]
    name: str
    size: str


#: Next to the baseline, in one process.
LINES = [
    Line("blocks of 2,000 payments a second, from bytes to published coins", 25, "submit", "25"),
    Line("the same connected, without what is before and behind", 1, "connect-1", "1,000,000"),
    Line("blocks without payments a second", 100_000, "chain", "100,000"),
    Line("reads of a coin a second, one seat", 100_000, "read-coin-1", "100,000"),
    Line("the same, four seats", 400_000, "read-coin-4", "100,000"),
    Line("the same, four seats next to a writer", 400_000, "read-beside-4", "100,000"),
    Line("bytes a coin in a node, where most", None, "keep-coins", "27"),
    Line("bytes a coin in a map", None, "hold-coins", "0"),
]
PEERS, ANCHOR = "## Beside a real node", "beside-a-real-node"
#: Whole programs (bench/core): the workload, its size, and what it has.
PROGRAMS = [("payments", "200", "blocks of 2,000 payments a second"), ("empty", "10,000", "blocks without payments a second")]


def tables(text: str) -> Tuple[Dict[Tuple[str, str], List[str]], Dict[Tuple[str, str, str], float]]:
    """The cells behind name and size of each row; and the seconds of each program at a workload and a size."""
    rows: Dict[Tuple[str, str], List[str]] = {}
    programs: Dict[Tuple[str, str, str], float] = {}
    name = size = ""
    is_of_programs = False
    for line in text.splitlines():
        is_of_programs |= line == PEERS
        cells = [cell.strip() for cell in line.strip()[1:-1].split("|")] if line.startswith("| ") else []
        if is_of_programs and len(cells) > 4 and cells[2].startswith("`"):
            name, size = cells[0] or name, cells[1] or size
            programs[name, size, cells[2]] = float(cells[3])
        elif len(cells) > 4 and re.fullmatch(r"[\d,]+", cells[1]):
            rows[cells[0], cells[1]] = cells[3:5]
        elif len(cells) > 4 and re.fullmatch(r"[\d,]+", cells[2]):
            # Of several ranges of sizes, the one at which ours takes most.
            before = rows.get((cells[0], cells[2]))
            if before is None or float(cells[3].replace(",", "")) > float(before[0].replace(",", "")):
                rows[cells[0], cells[2]] = cells[3:5]
    return rows, programs


def rounded(number: float) -> str:
    """Three digits count."""
    scale = 10 ** max(len(str(int(number))) - 3, 0)
    return f"{round(number / scale) * scale:,}"


def next_to_baseline(rows: Dict[Tuple[str, str], List[str]]) -> Iterator[str]:
    for line in LINES:
        found = rows.get((line.name, line.size))
        if found:
            numbers = [float(cell.replace(",", "")) for cell in found]
            shown = [rounded(line.things / number if line.things else number) for number in numbers]
            yield f"| {line.what} (`{line.name}`) | {shown[0]} | {shown[1]} |"


def of_programs(programs: Dict[Tuple[str, str, str], float]) -> Iterator[str]:
    for name, size, what in PROGRAMS:
        found = {door: seconds for (own, many, door), seconds in programs.items() if (own, many) == (name, size)}
        if found:
            each = (f"{door} {rounded(int(size.replace(',', '')) / seconds)}" for door, seconds in found.items())
            yield f"- {what}, by [whole programs](#{ANCHOR}): {', '.join(each)}."


def section(text: str) -> str:
    rows, programs = tables(text)
    head = ["What a user feels, by the tables below:", "", "| | ours | baseline |", "|---|---:|---:|"]
    said = [*head, *next_to_baseline(rows), "", *of_programs(programs)]
    return "\n".join([BEGIN, *said, END])


def renewed(text: str) -> str:
    """The page with that section behind its title."""
    title, _, rest = text.partition("\n")
    before, begin, old = rest.partition(BEGIN)
    rest = before + old.partition(END)[2] if begin else rest
    return f"{title}\n\n{section(rest)}\n\n{rest.strip()}\n"


def put() -> None:
    with open(RESULTS, encoding="utf-8") as file:
        text = renewed(file.read())
    with open(RESULTS, "w", encoding="utf-8") as file:
        file.write(text)


def main() -> int:
    if {"-h", "--help"} & set(sys.argv[1:]):
        print(__doc__)
    elif sys.argv[1:] == ["--check"]:
        with open(RESULTS, encoding="utf-8") as file:
            text = file.read()
        if renewed(text) != text:
            print("bench/felt.py: results.md says something else than its tables", file=sys.stderr)
            return 1
    elif sys.argv[1:]:
        print("usage: bench/felt.py [--check]", file=sys.stderr)
        return 2
    else:
        put()
    return 0


if __name__ == "__main__":
    sys.exit(main())
