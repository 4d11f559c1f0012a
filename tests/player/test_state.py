"""What a chainstate shows after commands: height, of how many blocks undo is kept, best block, tips, and coins."""
from __future__ import annotations

import unittest
from typing import NamedTuple

from playing_lists import client, in_parallel, play

# A chain of 100 blocks, a block that spends the first one's coinbase, and 300 blocks more.
LONG = """\
chain c 100 genesis
tx A 1 0
in c1.cb:0 -
out 5000000000 51
block d c100 A
chain g 300 d
"""

ALL_OF_LONG = ["each c 1 100", "submit d", "each g 1 300"]

# The payment, what it spends, and the last coinbase.
OF_LONG = ["txout A:0", "txout c1.cb:0", "txout g300.cb:0"]

# The subsidy was halved twice below the last block. The coin that the payment spends is none, so there is no line of it.
SHOWN_OF_LONG = """\
height = 401
undo = 288
best = g300
tips = g300 401 0 active
txout A:0 = 5000000000 51 height 101
txout g300.cb:0 = 1250000000 51 height 401 coinbase
"""

CHAIN = "chain c 300 genesis\n"


class Row(NamedTuple):
    """Blocks, commands, outputs that are looked at, and what has to be shown after the commands."""

    definitions: str
    commands: list[str]
    outputs: list[str]
    shown: str


ROWS = [
    Row(LONG, ALL_OF_LONG, OF_LONG, SHOWN_OF_LONG),
    # More blocks are taken back than undo is kept for.
    Row(
        LONG,
        [*ALL_OF_LONG, "invalidate c100"],
        OF_LONG,
        """\
height = 99
undo = 0
best = c99
tips = g300 401 302 invalid; c99 99 0 active
txout c1.cb:0 = 5000000000 51 height 1 coinbase
""",
    ),
    # And connected again.
    Row(LONG, [*ALL_OF_LONG, "invalidate c100", "reconsider c100"], OF_LONG, SHOWN_OF_LONG),
    # Two blocks of one height are called precious in turn, one beside them is marked, and one below was never looked at
    # whole.
    Row(
        "block b1 genesis\nblock p2 b1\nblock q2 b1\nblock r1 genesis\nblock e2 b1\n",
        ["submit b1", "submit p2", "submit r1", "submit q2", "precious q2", "submit e2", "invalidate e2"],
        [],
        """\
height = 2
undo = 2
best = q2
tips = p2 2 1 valid-fork; q2 2 0 active; e2 2 1 invalid; r1 1 1 valid-headers
""",
    ),
    # Undo is kept for as many blocks as there are, up to 288.
    Row(CHAIN, [], [], "height = 0\nundo = 0\nbest = genesis\ntips = genesis 0 0 active\n"),
    Row(CHAIN, ["each c 1 2"], [], "height = 2\nundo = 2\nbest = c2\ntips = c2 2 0 active\n"),
    Row(CHAIN, ["each c 1 288"], [], "height = 288\nundo = 288\nbest = c288\ntips = c288 288 0 active\n"),
    Row(CHAIN, ["each c 1 300"], [], "height = 300\nundo = 288\nbest = c300\ntips = c300 300 0 active\n"),
    Row(
        CHAIN,
        ["each c 1 300", "invalidate c300"],
        [],
        "height = 299\nundo = 287\nbest = c299\ntips = c300 300 1 invalid; c299 299 0 active\n",
    ),
]

# The higher branch fails, so the last step but two changes no coin. Behind each command stands how many do.
FAILING = """\
block b1 genesis
block b2 b1
block x1 genesis
block x2 x1 reward=5000000001
block x3 x2
"""
STEPS = [
    ("submit b1", "accepted", 1),
    ("submit b2", "accepted", 1),
    ("submit x1", "inconclusive", 0),
    ("submit x2", "inconclusive", 0),
    ("submit x3", "inconclusive", 0),
    ("invalidate b2", "done", 1),
    ("reconsider b2", "done", 1),
]


class Shown(unittest.TestCase):
    def test_state_after_commands(self) -> None:
        """By one call for all of them, by a call for each, and over coins that are lent. That all are accepted, and marks
        done, is in what they leave."""

        def played(door: str) -> list[str]:
            return in_parallel(
                lambda row: play(door, row.definitions + client("a", row.commands) + client("b", row.outputs)), ROWS
            )

        for door in ("run", "chainstate", "core"):
            for row, given in zip(ROWS, played(door)):
                with self.subTest(door=door, commands=row.commands):
                    self.assertEqual(given[given.index("height = ") :], row.shown)

    def test_replies(self) -> None:
        """Each block of the rows is accepted, and each mark done, but for the branches beside."""
        others = {"submit r1": "inconclusive", "submit q2": "inconclusive", "submit e2": "inconclusive"}
        for row in ROWS:
            printed = play("run", row.definitions + client("a", row.commands)).splitlines()
            replies = dict(line.split(" = ") for line in printed[: printed.index(row.shown.split("\n")[0])])
            for command, reply in replies.items():
                with self.subTest(command=command):
                    right = others.get(command, "accepted" if command.startswith("submit") else "done")
                    self.assertEqual(reply, right)

    def test_coins_beside_a_branch_that_fails(self) -> None:
        given = play("core", FAILING + client("a", [command for command, _, _ in STEPS]))
        right = [f"changes = {count}\n{command} = {reply}\n" for command, reply, count in STEPS]
        state = "height = 2\nundo = 2\nbest = b2\ntips = x3 3 3 invalid; b2 2 0 active\n"
        self.assertEqual(given, "".join(right) + state)
