#!/usr/bin/env python3
"""Counts the calls between a submission at a seat and the connection of a transaction, on the way of a new block on the best one.

    tools/calls.py    prints the functions on that way; fails where one doesn't call the next, or where there are too many

Each line of WAY is a function: its file below crates/, and its name behind its type's.
"""
import re
import sys
from typing import List, Optional

sys.dont_write_bytecode = True
from sources.rattle import bare, functions, plain
from sources.repository import read

if {"-h", "--help"} & set(sys.argv[1:]):
    print(__doc__)
    sys.exit()

MOST = 12
WAY = [
    ("node/src/writes.rt", "Seat::submit"),
    ("node/src/writes.rt", "Seat::write"),
    ("node/src/writes.rt", "Seat::write_under_lock"),
    ("node/src/published_history.rt", "PublishedHistory::step"),
    ("node/src/published_history/locked_chain.rt", "LockedChain::step"),
    ("activate/src/core_state/steps.rt", "Core::step_over"),
    ("activate/src/core_state/preparation.rt", "Core::prepare"),
    ("activate/src/core_state/settlement.rt", "Core::settle_new"),
    ("activate/src/branch_try.rt", "ActiveBranch::try_new_block"),
    ("connect/src/connect_block.rt", "apply_in_layer"),
    ("connect/src/connect_block.rt", "connect_txs"),
    ("connect/src/connect_block.rt", "connect_others"),
    ("connect/src/turn.rt", "connect_tx"),
]


def body(path: str, name: str) -> Optional[str]:
    """The text between the braces of a function's body, without comments."""
    text = bare(read(f"crates/{path}"))
    for it in functions(text):
        of = f"{plain(it.block.of)}::" if it.block else ""
        if of + it.name == name and it.body:
            return text[it.body.start : it.body.stop]
    return None


def faults() -> List[str]:
    """What keeps the way from being one."""
    found = []
    for (path, name), (_, following) in zip(WAY, WAY[1:]):
        inside, last = body(path, name), following.rpartition("::")[2]
        if inside is None:
            found.append(f"{path} has no {name}")
        elif not re.search(rf"\b{last}(?:::<[^;]*?>)?\(", inside):
            found.append(f"{name} doesn't call {following}")
    if body(*WAY[-1]) is None:
        found.append(f"{WAY[-1][0]} has no {WAY[-1][1]}")
    if len(WAY) - 1 > MOST:
        found.append(f"there are {len(WAY) - 1} calls, and at most {MOST} are allowed")
    return found


def main() -> int:
    for number, (path, name) in enumerate(WAY):
        print(f"{number:3} {name:32} {path}")
    found = faults()
    for it in found:
        print(f"tools/calls.py: {it}", file=sys.stderr)
    return 1 if found else 0


if __name__ == "__main__":
    sys.exit(main())
