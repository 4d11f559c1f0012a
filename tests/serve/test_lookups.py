"""Blocks by id and by height, coins one after the other, and who waits for more steps."""
from __future__ import annotations

import time
import unittest
from typing import Any

from blocks import GENESIS as GENESIS_BYTES
from running import ProgramTest
from serving import GENESIS, Names, Served, request, play

DEFINITIONS = "block b1 genesis\nblock p2 b1\nblock q2 b1\nblock q3 q2\nblock q4 q3\n"
PARENTS = dict(line.split()[1:3] for line in DEFINITIONS.splitlines())
KEPT = "block b1 genesis\nblock x b1 reward=5000000001\nblock y x\nblock b2 b1\nblock b3 b2\n"
SPENDS = """chain c 100 genesis
tx A 1 0
in c1.cb:0 -
out 3000000000 5175
tx B 1 0
in A:0 5151
out 1000000000 51
block d c100 A B
"""
NOW = 1_296_688_602
SUBSIDY = 5_000_000_000


class Lookups(ProgramTest):
    def setUp(self) -> None:
        super().setUp()
        self.names = Names(self.folder, DEFINITIONS)
        self.served = Served(self.folder, "--seats", "3")
        self.addCleanup(self.served.kill)

    def submit(self, name: str, seat: int = 0) -> None:
        answer = self.served.ask("submit", seat=seat, block=self.names.data[name].hex(), now=NOW)["answer"]
        self.assertIn(answer, ("accepted", "inconclusive"))

    def ask(self, method: str, at: int, **params: object) -> object:
        result = self.served.ask(method, seat=1, **params)
        self.assertEqual(result["at"], at)
        return result["answer"]

    def header(self, name: str, at: int, height: int, confirmations: int) -> None:
        expected = {"header": self.names.data[name][:80].hex(), "height": height, "confirmations": confirmations}
        self.assertEqual(self.ask("getblockheader", at, id=self.names.ids[name]), expected)

    def heights(self, at: int, *names: str) -> None:
        ids = [GENESIS, *[self.names.ids[name] for name in names]]
        for height, id in enumerate(ids):
            self.assertEqual(self.ask("getblockhash", at, height=height), {"hash": id})
        for height in (len(ids), 2**63, 2**64 - 1):
            self.assertIsNone(self.ask("getblockhash", at, height=height))

    def test_blocks(self) -> None:
        """Over a reorganisation; a seat that only reads sees what the others brought."""
        self.heights(0)
        self.assertEqual(self.ask("getblock", 0, id=GENESIS), GENESIS_BYTES)
        self.assertEqual(
            self.ask("getblockheader", 0, id=GENESIS), {"header": GENESIS_BYTES[:160], "height": 0, "confirmations": 1}
        )
        self.assertIsNone(self.ask("getblock", 0, id=self.names.ids["b1"]))
        for name in ("b1", "p2", "q2"):
            self.submit(name)
        self.served.ask("told", seat=1, **{"from": 0})
        self.heights(3, "b1", "p2")
        self.header("p2", 3, 2, 1)
        self.header("q2", 3, 2, -1)
        self.submit("q3", 2)
        self.served.ask("told", seat=1, **{"from": 2})
        self.heights(4, "b1", "q2", "q3")
        self.header("p2", 4, 2, -1)
        self.header("b1", 4, 1, 3)
        self.header("q3", 4, 3, 1)
        for name in ("b1", "p2", "q2", "q3"):
            self.assertEqual(self.ask("getblock", 4, id=self.names.ids[name]), self.names.data[name].hex())
        self.served.ask("invalidate", seat=2, id=self.names.ids["q2"])
        self.served.ask("told", seat=1, **{"from": 2})
        self.heights(5, "b1", "p2")
        self.header("q3", 5, 3, -1)

    def branch(self, name: str) -> list[str]:
        """The ids of a block's branch, from genesis up."""
        ids = []
        while name != "genesis":
            ids.append(self.names.ids[name])
            name = PARENTS[name]
        return [GENESIS, *ids[::-1]]

    def branches(self, at: int, *names: str) -> None:
        """Of each of these blocks the block at each height; of each two, the last that both branches have."""
        for one in names:
            mine = self.branch(one)
            for height, id in enumerate(mine):
                self.assertEqual(self.ask("getancestor", at, id=mine[-1], height=height), {"hash": id})
            for height in (len(mine), 2**63, 2**64 - 1):
                self.assertIsNone(self.ask("getancestor", at, id=mine[-1], height=height))
            for other in names:
                theirs = self.branch(other)
                shared = [id for id in mine if id in theirs][-1]
                self.assertEqual(self.ask("getfork", at, id=mine[-1], other=theirs[-1]), {"hash": shared})

    def test_branches(self) -> None:
        """Of all blocks that were brought, whichever branch is active; other ids have no answer."""
        self.branches(0, "genesis")
        for name in ("b1", "p2", "q2"):
            self.submit(name)
        self.served.ask("told", seat=1, **{"from": 0})
        self.branches(3, "genesis", "b1", "p2", "q2")
        for id in (self.names.ids["q3"], "00" * 32):
            self.assertIsNone(self.ask("getancestor", 3, id=id, height=0))
            self.assertIsNone(self.ask("getfork", 3, id=id, other=GENESIS))
            self.assertIsNone(self.ask("getfork", 3, id=GENESIS, other=id))
            self.assertIsNone(self.ask("getfork", 3, id=id, other=id))
        self.submit("q3", 2)
        self.served.ask("invalidate", seat=2, id=self.names.ids["q2"])
        self.served.ask("told", seat=1, **{"from": 2})
        self.branches(5, "genesis", "b1", "p2", "q2", "q3")

    def test_spent(self) -> None:
        """Blocks of a coinbase alone spent nothing; of those that aren't active there is no answer."""
        self.assertEqual(self.ask("getspent", 0, id=GENESIS), [])
        for name in ("b1", "p2", "q2"):
            self.submit(name)
        for name in ("b1", "p2", "q2", "q3"):
            self.assertEqual(self.ask("getspent", 3, id=self.names.ids[name]), [] if name in ("b1", "p2") else None)
        self.submit("q3", 2)
        for name in ("b1", "p2", "q2", "q3"):
            self.assertEqual(self.ask("getspent", 4, id=self.names.ids[name]), None if name == "p2" else [])

    def test_spent_coins(self) -> None:
        """A coinbase's coin, and an output of the same block's earlier transaction."""
        names = Names(self.folder, SPENDS)
        for number, name in enumerate((*(f"c{number}" for number in range(1, 101)), "d"), 1):
            result = self.served.ask("submit", seat=0, block=names.data[name].hex(), now=NOW)
            self.assertEqual(result, {"at": number, "answer": "accepted"})
        spent = [
            {"value": SUBSIDY, "script": "51", "height": 1, "coinbase": True},
            {"value": 3_000_000_000, "script": "5175", "height": 101, "coinbase": False},
        ]
        self.assertEqual(self.ask("getspent", 101, id=names.ids["d"]), spent)
        self.assertEqual(self.ask("getspent", 101, id=names.ids["c100"]), [])
        self.served.ask("invalidate", seat=0, id=names.ids["d"])
        self.assertIsNone(self.ask("getspent", 102, id=names.ids["d"]))

    def test_a_refused_block_is_none(self) -> None:
        """Bytes that were submitted and refused: they are in the history, and no block of it."""
        orphan = self.names.data["q2"]
        reply = self.served.ask("submit", seat=0, block=orphan.hex(), now=NOW)
        self.assertEqual((reply["at"], reply["answer"]), (1, "prev-blk-not-found"))
        self.served.ask("told", seat=1, **{"from": 0})
        self.assertIsNone(self.ask("getblock", 1, id=self.names.ids["q2"]))
        self.assertIsNone(self.ask("getblockheader", 1, id=self.names.ids["q2"]))
        self.assertIsNone(self.ask("getancestor", 1, id=self.names.ids["q2"], height=0))
        self.assertIsNone(self.ask("getfork", 1, id=self.names.ids["q2"], other=GENESIS))
        self.submit("b1")
        self.submit("q2")
        self.served.ask("told", seat=1, **{"from": 0})
        self.assertEqual(self.ask("getblock", 3, id=self.names.ids["q2"]), orphan.hex())

    # Its tree is made of the replies: of a refused block these don't say whether it is kept. It has to be the chainstate's own.
    @unittest.expectedFailure
    def test_each_kept_block(self) -> None:
        """Those that were refused over the coins, too, and what is on them: such a tip is shown, so its blocks are."""
        names = Names(self.folder, KEPT)
        for name, answer in (("b1", "accepted"), ("x", "bad-cb-amount"), ("b2", "accepted"), ("b3", "accepted")):
            self.assertEqual(self.served.ask("submit", seat=0, block=names.data[name].hex(), now=NOW)["answer"], answer)
        self.served.ask("reconsider", seat=0, id=names.ids["x"])
        result = self.served.ask("submit", seat=0, block=names.data["y"].hex(), now=NOW)
        self.assertEqual(result, {"at": 6, "answer": "inconclusive"})
        self.served.ask("told", seat=1, **{"from": 0})
        self.assertIn(names.ids["y"], [tip["hash"] for tip in self.served.ask("getchaintips", seat=1)["answer"]])
        for height, name in ((2, "x"), (3, "y")):
            id, data = names.ids[name], names.data[name].hex()
            self.assertEqual(self.ask("getblock", 6, id=id), data)
            self.assertEqual(self.ask("getblockheader", 6, id=id), {"header": data[:160], "height": height, "confirmations": -1})
            self.assertEqual(self.ask("getancestor", 6, id=id, height=2), {"hash": names.ids["x"]})
            self.assertEqual(self.ask("getfork", 6, id=id, other=names.ids["b3"]), {"hash": names.ids["b1"]})

    def test_coins(self) -> None:
        """Pages by rising outpoints, ordered by the bytes of ids as they are hashed."""
        self.assertEqual(self.ask("coins", 0, most=1000), [])
        for name in ("b1", "p2", "q2", "q3"):
            self.submit(name)
        self.served.ask("told", seat=1, **{"from": 0})
        coins: list[dict[str, Any]] = [
            {"txid": self.names.transaction(f"{name}.cb"), "n": 0, "value": SUBSIDY, "script": "51", "height": height,
             "coinbase": True}
            for name, height in (("b1", 1), ("q2", 2), ("q3", 3))
        ]  # fmt: skip
        coins.sort(key=lambda coin: bytes.fromhex(coin["txid"])[::-1])
        self.assertEqual(self.ask("coins", 4, most=1000), coins)
        self.assertEqual(self.ask("coins", 4, most=2**64 - 1), coins)
        self.assertEqual(self.ask("coins", 4, most=0), [])
        self.assertEqual(self.ask("coins", 4, most=2), coins[:2])
        for place, coin in enumerate(coins):
            above = {"txid": coin["txid"], "n": coin["n"]}
            self.assertEqual(self.ask("coins", 4, most=2, **above), coins[place + 1 :][:2])
        self.assertEqual(self.ask("coins", 4, most=5, txid="00" * 32, n=0), coins)
        self.assertEqual(self.ask("coins", 4, most=5, txid="ff" * 32, n=2**32 - 1), [])

    def test_who_waits(self) -> None:
        """An answer comes with the step, to each who waits for it; the others' seats go on."""
        first = self.served.begin("wait", seat=1, after=0)
        second = self.served.begin("wait", seat=2, after=1)
        time.sleep(0.2)
        self.assertTrue(self.served.answers[first].empty() and self.served.answers[second].empty())
        self.submit("b1")
        self.assertEqual(self.served.answer_of(first)["result"], {"at": 1})
        time.sleep(0.2)
        self.assertTrue(self.served.answers[second].empty())
        self.submit("p2", 1)
        self.assertEqual(self.served.answer_of(second)["result"], {"at": 2})
        self.assertEqual(self.served.ask("wait", seat=0, after=1), {"at": 2})
        self.assertEqual(self.served.end(), (0, ""))

    def test_the_end_wakes_who_waits(self) -> None:
        lines = [request(1, "wait", seat=0, after=5), request(2, "note", seat=0), request(3, "wait", seat=1, after=0)]
        finish = request(4, "finish")
        for data in (b"".join(lines), b"".join([*lines, finish])):
            ended = play(self.folder, data, "--seats", "2")
            self.assertEqual((ended.status, ended.err), (0, ""))
            answers = {it["id"]: it["result"] for it in ended.answers}
            self.assertEqual([answers[number] for number in (1, 2, 3)], [{"at": 0}] * 3)
