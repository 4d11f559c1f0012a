#!/usr/bin/env python3
"""Measures the functions in crates/: parameters beside self, clauses, the width of clauses, lines of a body; and in how many
crates a type's name stands for one of their own.

    tools/style.py          fails where a function is above a limit, and tools/style.txt doesn't say so of it; or where it
                            says more than there is, so that the list only shrinks
    tools/style.py --write  takes from the list what got better. It adds nothing

A line of the list has the measure, the file below crates/, the function (`#2` is the second of its name) and its number. For a
type's name the file is `*`.
"""
import argparse
import os
import re
import sys
from typing import Dict, Set, Tuple

sys.dont_write_bytecode = True
from sources import repository
from sources.rattle import Function, functions

LIST = f"{repository.ROOT}/tools/style.txt"
LIMITS = {"parameters": 6, "clauses": 8, "width": 100, "lines": 40, "types": 1}
TYPE = re.compile(r"^(?:pub(?:\([a-z]+\))? )?(?:struct|enum|trait|type) (\w+)", re.MULTILINE)

# A measure, a file, a function.
Key = Tuple[str, str, str]


def measured(text: str, it: Function) -> "Dict[str, int]":
    """What is measured of a function of a text."""
    clauses = [clause for clause in it.clauses if clause.word in ("requires", "ensures")]
    # From the line of the first clause up to that of the body's brace.
    begin = text.rfind("\n", 0, clauses[0].begin) + 1 if clauses else it.end
    end = text.rfind("\n", 0, it.body.start) if it.body else it.end
    return {
        "parameters": len(it.parameters),
        "clauses": len(clauses),
        "width": max((len(line) for line in text[begin:end].split("\n") if not line.lstrip().startswith("//")), default=0),
        "lines": max(text.count("\n", it.body.start, it.body.stop) - 1, 0) if it.body else 0,
    }


def above() -> "Dict[Key, int]":
    """Each function and type above a limit, with its number."""
    found: Dict[Key, int] = {}
    types: Dict[str, Set[str]] = {}
    for crate in sorted(os.listdir(f"{repository.ROOT}/crates")):
        for source in repository.sources(crate):
            text = repository.read(f"crates/{crate}/{source}")
            for name in TYPE.findall(text):
                types.setdefault(name, set()).add(crate)
            seen: Dict[str, int] = {}
            for it in functions(text):
                seen[it.name] = seen.get(it.name, 0) + 1
                name = it.name if seen[it.name] == 1 else f"{it.name}#{seen[it.name]}"
                for measure, number in measured(text, it).items():
                    if number > LIMITS[measure]:
                        found[measure, f"{crate}/{source}", name] = number
    found.update({("types", "*", name): len(crates) for name, crates in types.items() if len(crates) > LIMITS["types"]})
    return found


def listed() -> "Dict[Key, int]":
    rows = [line.split() for line in repository.text_of(LIST).splitlines() if line.strip() and not line.startswith("#")]
    return {(measure, path, name): int(number) for measure, path, name, number in rows}


def write(rows: "Dict[Key, int]") -> None:
    head = [f"{line}\n" for line in repository.text_of(LIST).splitlines() if line.startswith("#")]
    with open(LIST, "w", encoding="utf-8") as file:
        file.writelines(head)
        file.writelines(f"{measure} {path} {name} {number}\n" for (measure, path, name), number in sorted(rows.items()))


def main() -> int:
    words = argparse.ArgumentParser(description="Measures the functions in crates/.")
    words.add_argument("--write", action="store_true", help="takes from the list what got better")
    given = words.parse_args()
    found, allowed = above(), listed()
    worse = {key: number for key, number in found.items() if number > allowed.get(key, LIMITS[key[0]])}
    better = {key: number for key, number in allowed.items() if found.get(key, 0) < number}
    if given.write:
        write({key: min(number, found[key]) for key, number in allowed.items() if key in found})
        better = {}
    for (measure, path, name), number in sorted(worse.items()):
        print(f"tools/style.py: crates/{path}: {name}: {number} {measure}, where {LIMITS[measure]} are allowed", file=sys.stderr)
    for (measure, path, name), number in sorted(better.items()):
        print(f"tools/style.py: {measure} of {name} in crates/{path} got better than {number}: --write", file=sys.stderr)
    count = {measure: len([key for key in found if key[0] == measure]) for measure in LIMITS}
    print("above the limits: " + ", ".join(f"{count[it]} {it} ({limit})" for it, limit in LIMITS.items()))
    return 1 if worse or better else 0


if __name__ == "__main__":
    sys.exit(main())
