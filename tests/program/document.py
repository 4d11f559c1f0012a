"""The examples of docs/PROGRAM.md.

An example is an indented block with a line `regchain .. <<'END'` and the scenario, and the indented block behind it,
which is what is printed. A line `printf DIGITS | xxd -r -p > FILE` before it makes a file, and `| grep -v 'WORDS'` or
`| grep -c WORD` behind it leaves lines out or counts them.
"""
from __future__ import annotations

import os
import re
from typing import NamedTuple

from running import ROOT

PAGE = os.path.join(ROOT, "docs", "PROGRAM.md")
COMMAND = re.compile(r"regchain(.*?) <<'END'(?: \| grep -([vc]) '?([^']*?)'?)?")
FILE = re.compile(r"printf ([0-9a-f]+) \| xxd -r -p > (\S+)")


class Example(NamedTuple):
    """An example: what is typed, and what is printed."""

    words: list[str]
    scenario: str
    output: str
    # v, c, or nothing: lines with the word are left out, or counted.
    filter: str
    word: str
    # Files that are made before, by their names.
    files: dict[str, bytes]

    def filtered(self, output: str) -> str:
        """What is printed of an output."""
        lines = output.splitlines(keepends=True)
        if self.filter == "c":
            return f"{sum(self.word in line for line in lines)}\n"
        return "".join(line for line in lines if self.filter == "" or self.word not in line)


def indented_blocks(text: str) -> list[list[str]]:
    """The indented blocks, as lists of lines."""
    found: list[list[str]] = [[]]
    for line in text.split("\n"):
        if line.startswith("    "):
            found[-1].append(line[4:])
        elif found[-1]:
            found.append([])
    return [block for block in found if block]


def example_of(block: list[str], printed: list[str]) -> Example | None:
    """The example that a block is, with what is printed; none where it calls no program on a scenario."""
    files = {}
    while block and (file := FILE.fullmatch(block[0])):
        files[file[2]] = bytes.fromhex(file[1])
        block = block[1:]
    command = COMMAND.fullmatch(block[0]) if block else None
    if command is None:
        return None
    scenario = "".join(line + "\n" for line in block[1 : block.index("END")])
    output = "".join(line + "\n" for line in printed)
    return Example(command[1].split(), scenario, output, command[2] or "", command[3] or "", files)


def examples() -> list[Example]:
    """In the document's order."""
    with open(PAGE, encoding="latin-1") as file:
        blocks = indented_blocks(file.read())
    blocks.append([])
    found = [example_of(block, printed) for block, printed in zip(blocks, blocks[1:])]
    return [example for example in found if example]
