"""Heights of soft forks by name: what they are, and BIP 147 at both sides of its height at each door of the package."""

import tempfile
import unittest
from typing import Any, List

from blocks import NOW, Maker, block_id, spend
from wakotehu import Bench, Chainstate, CoinSet, Node, Pool, Rejected
from wakotehu.chainstate import REGTEST, read_heights
from wakotehu.consensus import block_place
from wakotehu.deployments import SoftForks, read_word
from wakotehu.encoding import block_at_front, write_transaction
from wakotehu.errors import Error, NotAccepted
from wakotehu.nodebench import NodeBench

#: CHECKMULTISIG with no signature of no key, which takes one element more; the spend puts a 1 there, which BIP 147 refuses.
CODE, DUMMY = bytes.fromhex("0000ae"), bytes.fromhex("51")


def blocks() -> List[bytes]:
    """A branch of 102 blocks; the last one spends the first one's coin."""
    maker = Maker(CODE)
    made = maker.chain(101)
    first = maker.coinbases[block_id(made[0])]
    tx = spend(block_at_front(made[0]).ids[0], 0, first.outputs[0].value, DUMMY)
    return [*made, maker.block(block_id(made[-1]), [tx])]


class Words(unittest.TestCase):
    def test_what_is_the_same(self) -> None:
        named = read_heights({"nulldummy": 5})
        self.assertEqual(named, read_heights({"bip147": 5, "cltv": 1}))
        self.assertEqual(named, read_word("1,1,1,1,bip147@5"))
        self.assertEqual((named.word, repr(named), tuple(named)), ("1,1,1,1,nulldummy@5", "SoftForks(1,1,1,1,nulldummy@5)", (1, 1, 1, 1)))
        self.assertEqual((named.height("nulldummy"), named.height("bip66"), REGTEST.height("nulldummy")), (5, 1, float("inf")))
        self.assertNotEqual(named, REGTEST)
        self.assertNotEqual(named, (1, 1, 1, 1))
        self.assertEqual(REGTEST, (1, 1, 1, 1))
        self.assertEqual(len({named, read_word(named.word), REGTEST, read_heights([1, 1, 1, 1])}), 2)
        self.assertEqual(read_heights({"dersig": 7, "csv": 9}), (1, 1, 7, 9))
        self.assertEqual(read_heights(named), named)

    def test_what_is_none(self) -> None:
        bad: List[Any] = [
            {"nulldummy": -1}, {"nulldummy": 1 << 32}, {"csv\0": 1}, {"": 1}, {"CSV": 1}, {"csv": None}, {1: 1}, "1,1,1,1", [1] * 5,
        ]
        for value in bad:
            with self.subTest(value), self.assertRaises((TypeError, ValueError)):
                read_heights(value)
        for word in ("", "1,1,1", "1,1,1,1,", "1,1,1,1,2", "1,1,1,1,nulldummy@", "1,1,1,1,a@1@1", "1,1,1,1,a@-1", "1,1,1,1,a@\N{ARABIC-INDIC DIGIT ONE}"):
            with self.subTest(word), self.assertRaises(ValueError):
                read_word(word)
        with self.assertRaisesRegex(ValueError, "no soft fork is named 'taproot'"):
            Chainstate({"taproot": 1})


class Doors(unittest.TestCase):
    @classmethod
    def setUpClass(cls) -> None:
        cls.blocks = blocks()

    def judged(self, chain: Any) -> str:
        submit = getattr(chain, "submit", None) or chain.try_submit
        for block in self.blocks[:-1]:
            submit(block, NOW)
        try:
            told = submit(self.blocks[-1], NOW)
            told = getattr(told, "reason", None) or getattr(told, "reply", told)
            return str(told)
        except Rejected as error:
            return error.reason

    def test_a_chainstate(self) -> None:
        for heights, reply in ((REGTEST, "accepted"), ({"nulldummy": 102}, "blk-bad-inputs"), ({"bip147": 103}, "accepted")):
            for by_need in (False, True):
                with self.subTest(heights), Chainstate(heights, by_need=by_need) as chain:
                    self.assertEqual(self.judged(chain), reply)

    def test_benches(self) -> None:
        for heights, reply in (({"nulldummy": 102}, "blk-bad-inputs"), ({"nulldummy": 103}, "accepted")):
            with self.subTest(heights), Bench(heights) as bench:
                self.assertEqual(self.judged(bench), reply)
            with self.subTest(heights), NodeBench(heights) as node:
                self.assertEqual(node.heights, SoftForks((1, 1, 1, 1), heights))
                with node.turn:
                    self.assertEqual(self.judged(node), reply)

    def test_a_folder(self) -> None:
        """It keeps the height: another one is refused, and none asks for it."""
        with tempfile.TemporaryDirectory() as folder:
            with Node(heights={"nulldummy": 102}, datadir=f"{folder}/d") as node:
                self.assertEqual(self.judged(node.seat(0)), "blk-bad-inputs")
            with open(f"{folder}/d/heights.txt", encoding="ascii") as file:
                self.assertEqual(file.read(), "1,1,1,1,nulldummy@102\n")
            with Node(datadir=f"{folder}/d") as node:
                self.assertEqual(node.info.heights.height("nulldummy"), 102)
            with self.assertRaises(Error):
                Node(heights={"nulldummy": 103}, datadir=f"{folder}/d").close()

    def test_what_waits(self) -> None:
        """It waits until the rule comes into force, and not from then on."""
        for height, waits in ((102, False), (103, True)):
            with self.subTest(height), Bench({"nulldummy": height}) as bench:
                for block in self.blocks[:-1]:
                    bench.submit(block, NOW)
                pool = Pool(bench)
                tx = write_transaction(block_at_front(self.blocks[-1]).transaction(1))
                if not waits:
                    with self.assertRaisesRegex(NotAccepted, "Dummy CHECKMULTISIG argument must be zero"):
                        pool.add(tx)
                    continue
                pool.add(tx)
                self.assertEqual(len(pool), 1)
                # A block without it, behind which the rule is in force.
                bench.submit(Maker(CODE).chain(102)[-1], NOW)
                self.assertEqual((bench.height(), len(pool)), (102, 0))

    def test_coins_and_places(self) -> None:
        """Over coins of one's own, and by a block's place, where the setting's four count no more."""
        first, last = self.blocks[0], self.blocks[-1]
        for heights, is_broken in (({"nulldummy": 102}, True), ({"nulldummy": 103}, False)):
            with CoinSet() as coins:
                self.assertIsNone(coins.connect(first, 1, NOW, (), heights))
                fault = coins.connect(last, 102, NOW, [NOW] * 101, heights)
                self.assertEqual(fault is not None and fault.reason == "blk-bad-inputs", is_broken)
        self.assertEqual(block_place(first, 2, 1, NOW), "bad-cb-height")
        self.assertEqual(block_place(first, 2, 1, NOW, {"bip34": 3}), "")


if __name__ == "__main__":
    unittest.main()
