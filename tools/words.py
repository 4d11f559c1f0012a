#!/usr/bin/env python3
"""Counts the words of the pages, as `wc -w` does: of each, of all, of README's sentences and of each answer in docs/decisions.

    tools/words.py    prints the counts, and fails where one is above its limit

The limits are in LIMITS. docs/BOOK.md, which a script writes from the definitions, counts in none.
"""

import argparse
import re
import subprocess
import sys
from typing import Dict, Iterator, List, Tuple

from sources.repository import ROOT, read

BOOK = "docs/BOOK.md"
# Of a page; RULES has a row for each rule, PROGRAM one for each option, results.md one for each measurement.
LIMITS = {"all": 48_000, "README": 500, "sentence": 18, "crate": 400, "page": 2500, "answer": 60}
LONG = ("docs/RULES.md", "docs/PROGRAM.md", "bench/results.md")
# What is left of a paragraph is prose: no fences, tables, headings, pictures.
FENCE = re.compile(r"^```.*?^```$", re.M | re.S)
OTHER = re.compile(r"^(?:[|#<!].*|\[!.*)$", re.M)
TARGET = re.compile(r"\]\([^)]*\)")
END = re.compile(r"(?<=[.?!])\**\s+|\n\n|\n(?=[-*] |\d+\. )")


def pages() -> Dict[str, int]:
    """Each page with its words."""
    listed = subprocess.run(["git", "ls-files", "*.md"], cwd=ROOT, stdout=subprocess.PIPE, text=True, check=True).stdout.split()
    return {path: len(read(path).split()) for path in listed if path != BOOK}


def sentences(text: str) -> List[int]:
    """The words of each sentence of a page's prose."""
    prose = TARGET.sub("]", OTHER.sub("", FENCE.sub("", text)))
    found = (len([word for word in it.split() if re.search(r"\w", word)]) for it in END.split(prose))
    return [it for it in found if it]


def answers(text: str) -> Iterator[Tuple[str, int]]:
    """Each question in bold at a line's start, and the words of its answer up to the next one or a heading."""
    for it in re.split(r"^(?=\*\*|#)", text, flags=re.M):
        found = re.match(r"\*\*([^*]+\?)\*\*(.*)", it, re.S)
        if found:
            yield found[1], len(TARGET.sub("]", FENCE.sub("", found[2])).split())


def counted() -> Iterator[Tuple[str, str, float]]:
    """What is counted, by what limit, and its number."""
    found = pages()
    yield "all pages", "all", sum(found.values())
    yield "README.md", "README", found["README.md"]
    each = sentences(read("README.md"))
    yield "README.md, a sentence in the mean", "sentence", sum(each) / len(each)
    for path, words in found.items():
        if re.fullmatch(r"crates/\w+/README\.md", path):
            yield path, "crate", words
        elif path not in LONG:
            yield path, "page", words
        if path.startswith("docs/decisions/"):
            yield from ((f"{path}: {question}", "answer", number) for question, number in answers(read(path)))


def main() -> int:
    argparse.ArgumentParser(description=__doc__, formatter_class=argparse.RawDescriptionHelpFormatter).parse_args()
    rows = list(counted())
    above = [(what, limit, number) for what, limit, number in rows if number > LIMITS[limit]]
    for what, limit, number in above:
        print(f"tools/words.py: {what}: {number:,.1f} words, where {LIMITS[limit]:,} are allowed".replace(".0 ", " "), file=sys.stderr)
    most = {limit: max(number for _, it, number in rows if it == limit) for limit in LIMITS}
    print("words: " + ", ".join(f"{it} {most[it]:,.1f} ({LIMITS[it]:,})".replace(".0 ", " ") for it in LIMITS))
    return 1 if above else 0


if __name__ == "__main__":
    sys.exit(main())
