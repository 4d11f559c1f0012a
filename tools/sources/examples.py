"""Compares the examples of the pages with the files that they come from, which the gate builds and runs.

A whole example is its file, word for word. Of a part each paragraph stands in the file, perhaps further in.
"""
import re
import sys
import textwrap
from typing import List

from .repository import read

# the page, the language and the place of its block, the file, and whether the block is all of it
EXAMPLES = [
    ("README.md", "python", 0, "ffi/examples/two_threads.py", False),
    ("docs/LIBRARY.md", "rust", 0, "crates/wallet/src/main.rt", True),
    ("docs/PROOF.md", "rust", 0, "crates/node/src/writes.rt", False),
    ("docs/PROOF.md", "rust", 1, "crates/node/src/reads.rt", False),
    ("ffi/python/README.md", "python", 0, "ffi/examples/two_threads.py", True),
    ("ffi/python/README.md", "python", 4, "ffi/examples/waiting.py", False),
]


def straight(text: str) -> str:
    """The lines of a text without what stands before or behind their words."""
    return "\n".join(line.strip() for line in text.strip().splitlines())


def faults_of(page: str, language: str, place: int, path: str, is_whole: bool) -> List[str]:
    """How a page's example differs from its file."""
    blocks = re.findall(rf"(?ms)^```{language}\n(.*?)^```$", read(page))
    if place >= len(blocks):
        return ["it has no such block"]
    block, source = blocks[place], read(path)
    if is_whole:
        return [] if block == source else [f"it isn't {path}, word for word"]
    parts = re.split(r"\n\n+", textwrap.dedent(block))
    return [f"{path} has no such lines:\n{part}" for part in parts if straight(part) not in straight(source)]


def main() -> int:
    if {"-h", "--help"} & set(sys.argv[1:]):
        print(__doc__)
        return 0
    faults = [(example, fault) for example in EXAMPLES for fault in faults_of(*example)]
    for (page, language, *_), fault in faults:
        print(f"docs/examples: {page}, {language}: {fault}", file=sys.stderr)
    return 1 if faults else 0

