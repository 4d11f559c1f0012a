"""A block for each fault that it can have over the coins, with the next smaller case; and which of its scripts are run."""
from __future__ import annotations

import random
import re
import unittest
from typing import Any, NamedTuple

from playing_lists import Played, client, in_parallel, play

GENESIS_TIME = 1296688602
NOW = f"now {GENESIS_TIME + 12_000}"
SUBSIDY = 2_500_000_000  # from height 150 on

# A script with 3,980 signature operations that are not executed, 0 IF, 199 times CHECKMULTISIG, ENDIF and 1; its push; and the
# script that pays to its hash.
INNER = "0063" + "ae" * 199 + "6851"
PUSHED = "4ccb" + INNER
TO_INNER = "a914d3e42b15d60b7a1d8e6dba1833935bcd178674ac87"

# Two pushes of 520 bytes, dropped: with scripts that begin so sixteen threads have enough to run.
LONG = 2 * ("4d0802" + "00" * 520 + "75")

MISSING = "bad-txns-inputs-missingorspent"


def tx(name: str, spends: list[str], pays: list[tuple[int, str]], version: int = 1) -> str:
    """A transaction. What it spends is an outpoint, and behind it a script and a sequence number where they are not `-` and
    ffffffff."""
    ins = [f"in {it}\n" if " " in it else f"in {it} -\n" for it in spends]
    return "".join([f"tx {name} {version} 0\n", *ins, *(f"out {value} {script}\n" for value, script in pays)])


def pay(name: str, spent: str, value: int = 50, sequence: int = 0xFFFFFFFF, version: int = 1, script: str = "51") -> str:
    """One of one coin, to one output."""
    return tx(name, [f"{spent} - {sequence}"], [(value, script)], version)


# Coins of 50 satoshis, made at height 101: five whose script accepts, and six that pay to the inner script. The blocks that are
# judged stand on u5, of height 210, and the median time past there is 11,000 seconds after the coins': so at most 110
# blocks and 21 units of 512 seconds lie between.
COINS = (
    "chain c 100 genesis\n"
    + tx("M", ["c1.cb:0"], [(50, "51")] * 5 + [(50, TO_INNER)] * 6)
    + "block f c100 M\nchain g 103 f\n"
    + f"block t g103 time={GENESIS_TIME + 95 + 11_000}\nchain u 5 t\n"
)

CHAIN = [NOW, "each c 1 100", "submit f", "each g 1 103", "submit t", "each u 1 5"]


class Case(NamedTuple):
    """Transactions, the words of a block with them, and what is answered to it."""

    name: str
    transactions: str
    block: str
    reply: str = "accepted"


def lock(name: str, version: int, sequence: int, reply: str = "accepted") -> Case:
    return Case(name, pay("A", "M:0", sequence=sequence, version=version), "A", reply)


def inner(count: int, plain: int, reply: str = "accepted") -> Case:
    """So many coins that pay to the inner script, spent to an output with so many CHECKSIGs."""
    spends = [f"M:{index} {PUSHED}" for index in range(5, 5 + count)]
    made = tx("A", spends, [(50, "ac" * plain or "-")])
    return Case(f"{count} inner scripts and {plain} operations", made, "A", reply)


FEES = pay("A", "M:0", 47) + pay("B", "M:1")
WITHIN = pay("A", "M:0") + pay("B", "A:0")

CASES = [
    Case("the whole subsidy", "", f"reward={SUBSIDY}"),
    Case("more than the subsidy", "", f"reward={SUBSIDY + 1}", "bad-cb-amount"),
    Case("the subsidy and the fees", FEES, f"A B reward={SUBSIDY + 3}"),
    Case("more than the subsidy and the fees", FEES, f"A B reward={SUBSIDY + 4}", "bad-cb-amount"),
    Case("as much out as in", pay("A", "M:0"), "A"),
    Case("more out than in", pay("A", "M:0", 51), "A", "bad-txns-in-belowout"),
    Case("no such coin", pay("A", "M:11"), "A", MISSING),
    Case("one coin twice", pay("A", "M:0") + pay("B", "M:0", 49), "A B", MISSING),
    Case("an output of the block", WITHIN, "A B"),
    Case("an output of a later transaction", WITHIN, "B A", MISSING),
    Case("an output that begins with OP_RETURN", pay("A", "M:0", script="6a") + pay("B", "A:0"), "A B", MISSING),
    lock("110 blocks", 2, 110),
    lock("111 blocks", 2, 111, "bad-txns-nonfinal"),
    lock("111 blocks in version 1", 1, 111),
    lock("21 units of 512 seconds", 2, 0x0040_0000 + 21),
    lock("22 units of 512 seconds", 2, 0x0040_0000 + 22, "bad-txns-nonfinal"),
    lock("111 blocks, disabled", 2, 0x8000_0000 + 111),
    Case("a coinbase 100 blocks below", pay("A", "g10.cb:0"), "A"),
    Case("a coinbase 99 blocks below", pay("A", "g11.cb:0"), "A", "bad-txns-premature-spend-of-coinbase"),
    inner(5, 0),
    inner(6, 0, "bad-blk-sigops"),
    inner(5, 100),
    inner(5, 101, "bad-blk-sigops"),
    inner(1, 20_001, "bad-blk-sigops"),
]


def replies(door: str, definitions: str, commands: list[str], **settings: Any) -> list[str]:
    """What is answered to commands, the state behind them left out."""
    printed = play(door, definitions + client("a", commands), **settings).splitlines()
    return [line.split(" = ")[1] for line in printed if line.partition(" ")[0] in ("submit", "invalidate")]


class Faults(unittest.TestCase):
    def test_blocks_over_coins(self) -> None:
        """Each block alone is submitted on the same chain."""

        def told(case: Case) -> str:
            definitions = f"{COINS}{case.transactions}block x u5 {case.block}\n"
            return replies("chainstate", definitions, [*CHAIN, "submit x"])[-1]

        for case, reply in zip(CASES, in_parallel(told, CASES)):
            with self.subTest(case.name):
                self.assertEqual(reply, case.reply)

    def test_the_halved_subsidy(self) -> None:
        definitions = f"chain c 149 genesis\nblock more c149 reward={SUBSIDY + 1}\nblock most c149 reward={SUBSIDY}\n"
        given = replies("chainstate", definitions, ["each c 1 149", "submit more", "submit most"])
        self.assertEqual(given[-2:], ["bad-cb-amount", "accepted"])

    def test_coins_that_are_there(self) -> None:
        """Before BIP 34 two coinbases can be the same, and so can what is paid of them: a block can make no coin that is there
        (BIP 30). Where the coin of the coinbase is spent it can come again, and its payment can't as long as that's there."""
        twin = "cb=5151 reward=50"
        definitions = (
            f"block a genesis {twin}\nblock a_again a {twin}\nchain c 99 a\n{pay('P', 'a.cb:0')}block p c99 P\n"
            f"block b p {twin}\nchain d 99 b\nblock p_again d99 P\n{pay('Q', 'P:0')}block q d99 Q\nblock p_now q P\n"
        )
        commands = ["a", "a_again", *(f"c{n}" for n in range(1, 100)), "p", "b", *(f"d{n}" for n in range(1, 100))]
        commands = [f"submit {name}" for name in [*commands, "p_again", "q", "p_now"]]
        given = dict(zip(commands, replies("chainstate", definitions, commands, heights="100000,1,1,1")))
        refused = {name: reply for name, reply in given.items() if reply != "accepted"}
        self.assertEqual(refused, {"submit a_again": "bad-txns-BIP30", "submit p_again": "bad-txns-BIP30"})

    def test_blocks_of_one_reorganisation(self) -> None:
        """Two blocks that one step connects: the second finds what the first left."""
        twin = "cb=5151 reward=50"
        definitions = (
            f"{COINS}{pay('A', 'M:0', 40)}{pay('B', 'A:0', 40)}{pay('C', 'M:0')}block v u5\n"
            f"block w u5 A {twin}\nblock x w B\nblock y w C\nblock z w {twin}\n"
        )
        for last, reply, best in (("x", "accepted", "x"), ("y", MISSING, "v"), ("z", "bad-txns-BIP30", "v")):
            with self.subTest(last):
                commands = [*CHAIN, "submit v", "submit w", f"submit {last}"]
                printed = play("chainstate", definitions + client("a", commands), heights="100000,1,1,1")
                self.assertIn(f"submit {last} = {reply}\n", printed)
                self.assertIn(f"best = {best}\n", printed)


# On u5 one block spends a coin, and another, which makes it again the active one when the first is marked.
SPENT = f"{COINS}{pay('A', 'M:0', 40)}{pay('B', 'M:0', 30)}block v u5 A\nblock w u5 B\nblock x w A\n"


class Layers(unittest.TestCase):
    """How many coins a step changes, at a chainstate that is lent its coins."""

    def changes(self, commands: list[str]) -> list[tuple[str, int]]:
        printed = play("core", SPENT + client("a", [*CHAIN, *commands])).splitlines()
        told, count = [], 0
        for line in printed:
            if line.startswith("changes = "):
                count = int(line.removeprefix("changes = "))
            elif line.split(" = ")[0] in commands:
                told.append((line, count))
        return told

    def test_there_and_back_again(self) -> None:
        """A block with a payment is taken back and connected again: each time its coinbase, what it made and what it spent
        change. Where a higher branch fails, it is taken back and connected again in one step, which changes nothing."""
        self.assertEqual(
            self.changes(["submit v", "invalidate v", "reconsider v", "submit w", "submit x"]),
            [
                ("submit v = accepted", 3),
                ("invalidate v = done", 3),
                ("reconsider v = done", 3),
                ("submit w = inconclusive", 0),
                (f"submit x = {MISSING}", 0),
            ],
        )


def two_of_three(refused: tuple[int, ...]) -> str:
    """Coins whose scripts refuse at these places, and the two transactions over them."""
    coins = [(1, "00" if place in refused else "51") for place in range(6)]
    first, second = ([f"K:{place}" for place in places] for places in ((0, 1, 2), (3, 4, 5)))
    return tx("K", ["M:0"], coins) + tx("X", first, [(3, "51")]) + tx("Y", second, [(3, "51")])


class Scripts(unittest.TestCase):
    def test_the_first_refusal_by_any_crew(self) -> None:
        """Input 2 of the first payment refuses, 1 of the second, 0 of the first: the same is told by one thread, and by workers
        before the lock and under it."""
        places = [((2,), "1:2"), ((4, 5), "2:1"), ((5, 0, 4), "1:0")]
        for refused, place in places:
            made = COINS + two_of_three(refused)
            on_top = f"{made}block k u5 K\nblock x k X Y\n"
            beside = f"{made}block j u5\nblock k u5 K\nblock x k X Y\n"
            for definitions, blocks in ((on_top, ["k", "x"]), (beside, ["j", "k", "x"])):
                commands = [*CHAIN, *(f"submit {name}" for name in blocks)]
                given = {replies("chainstate", definitions, commands)[-1]}
                for workers in (1, 2, 8):
                    printed = play("node", definitions + client("a", commands), workers=workers)
                    line = next(it for it in printed.splitlines() if it.startswith("submit x = "))
                    given.add(line.removeprefix("submit x = ").partition(" @")[0])
                with self.subTest(refused=refused, blocks=blocks):
                    self.assertEqual(given, {f"blk-bad-inputs {place}"})

    def begun(self, definitions: str, blocks: list[str]) -> tuple[str, int]:
        """What is answered to the last of these blocks, and how many scripts are run for all of them."""
        commands = [*CHAIN, *(f"submit {name}" for name in blocks)]
        given = Played(play("node", definitions + client("a", commands), wanted=0))
        found = re.fullmatch(r"gate = met, (\d+) begun, \1 ended", "".join(given.gate))
        assert found, given.gate
        # The script of the payment which makes the coins isn't counted.
        return given.clients["a"][-1].split(" = ")[1].partition(" @")[0], int(found[1]) - 1

    def test_scripts_above_a_refusal(self) -> None:
        """One worker under the lock runs none above the first that refuses; before the lock, where the block is on the best one,
        all three are run. One more is that of K."""
        definitions = COINS + two_of_three((0, 2)) + "block j u5\nblock k u5 K\nblock x k X\n"
        for blocks, count in ((["j", "k", "x"], 1), (["k", "x"], 3)):
            with self.subTest(blocks):
                self.assertEqual(self.begun(definitions, blocks), ("blk-bad-inputs 1:0", count + 1))

    def test_scripts_that_are_run_early(self) -> None:
        """Before the lock those are run whose coin is there, or made by an earlier transaction of the block."""
        first, lost = pay("A", "M:0"), pay("L", "M:11")
        for block, made, expected in (
            ("A B", first + pay("B", "A:0"), ("accepted", 2)),
            ("B A", first + pay("B", "A:0"), (MISSING, 1)),
            ("L A", first + lost, (MISSING, 1)),
        ):
            with self.subTest(block):
                self.assertEqual(self.begun(f"{COINS}{made}block x u5 {block}\n", ["x"]), expected)

    def test_random_lists_and_the_plain_loop(self) -> None:
        """1,000 lists of up to 40 inputs, some of whose scripts refuse, by one worker and several under the lock: the first that
        a plain loop finds is told."""
        chance = random.Random(20_260_101)
        drawn = [[chance.randrange(8) == 0 for _ in range(chance.randrange(1, 41))] for _ in range(1000)]

        def told(case: tuple[int, int]) -> list[str]:
            """Each list's coins are made by a block beside the best one, which the block that is judged stands on."""
            first, workers = case
            coins = tx("Z", ["c2.cb:0"], [(1, "51")] * 100)
            definitions, commands = [f"{COINS}{coins}block z u5 Z\nblock y z\n"], [*CHAIN, "submit z", "submit y"]
            for number, refused in enumerate(drawn[first : first + 100]):
                coins = tx(f"K{number}", [f"Z:{number}"], [(0, LONG + ("00" if it else "51")) for it in refused])
                spends = tx(f"X{number}", [f"K{number}:{place}" for place in range(len(refused))], [(0, "51")])
                blocks = f"block k{number} z K{number}\nblock x{number} k{number} X{number}\n"
                definitions.append(coins + spends + blocks)
                commands += [f"submit k{number}", f"submit x{number}", f"invalidate k{number}"]
            given = Played(play("node", "".join(definitions) + client("a", commands), workers=workers))
            return [line.split(" = ")[1].partition(" @")[0] for line in given.clients["a"] if line.startswith("submit x")]

        cases = [(first, workers) for first in range(0, 1000, 100) for workers in (1, 2, 8, 16)]
        for (first, workers), found in zip(cases, in_parallel(told, cases)):
            wanted = [f"blk-bad-inputs 1:{it.index(True)}" if True in it else "accepted" for it in drawn[first : first + 100]]
            with self.subTest(first=first, workers=workers):
                self.assertEqual(found, wanted)
