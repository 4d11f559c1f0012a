"""What `generateblock` judges: a block is judged before the chainstate has it, as the chainstate judges it.

The reasons of the table are what a program of Bitcoin Core 0.21's code answered to `generateblock` of the same transactions
(Debian's litecoind 0.21.2.1), except for those of signatures and of BIPs 30 and 68, which are RULES.md's.
"""

import unittest
from unittest import mock

from blocks import Maker, block_id, signed, spend, with_script
from servers import PROGRAM, Running, seats
from test_bench import KEYS, SECP, SECRETS, pay_to_key
from wakotehu import show
from wakotehu.consensus import Triple
from wakotehu.encoding import (
    GENESIS, Input, Output, Transaction, block_at_front, coinbase, hash160, mine, push, signature_digest,
    write_transaction,
)  # fmt: skip
from wakotehu.nodebench import NodeBench
from wakotehu.rpc import node as rpc_node, stats as rpc_stats

COIN, LAST = 50 * 100_000_000, 0xFFFFFFFF
MISSING, LOCKED = "bad-txns-inputs-missingorspent", "bad-txns-nonfinal"


def of(inputs, outputs, version=1, lock=0):
    """A transaction of inputs (an id and, perhaps, a script, a sequence and an output's number) and outputs."""
    rows = [row + (b"", LAST, 0)[len(row) - 1 :] for row in inputs]
    ins = [Input(id, number, script, sequence) for id, script, sequence, number in rows]
    return Transaction(version, ins, [Output(value, script) for value, script in outputs], lock)


class Blocks(unittest.TestCase):
    """A chain of 130 blocks, whose coinbases pay to the script 51; the second's to a key."""

    heights = (1, 1, 1, 1)

    def start(self):
        return Running(seats(self.heights))

    def setUp(self):
        self.running = self.start()
        self.addCleanup(self.running.stop)
        self.call, self.node = self.running.call, self.running.node
        self.call("setmocktime", GENESIS.time + 600 * 200)
        self.maker = Maker()
        self.blocks = self.maker.chain(1)
        self.maker.script = pay_to_key(KEYS[0])
        self.blocks += self.maker.chain(1, block_id(self.blocks[0]))
        self.maker.script = b"\x51"
        self.blocks += self.maker.chain(128, block_id(self.blocks[1]))
        for block in self.blocks:
            self.assertIsNone(self.call("submitblock", block.hex()))
        self.coins = [self.maker.coinbases[block_id(block)].id for block in self.blocks]

    def rows(self):
        """Names, transactions, and the first rule that is broken."""
        first, third, late = self.coins[0], self.coins[2], self.coins[-3]
        pay = [(COIN - 1000, b"\x51")]
        ok = of([(first,)], pay)
        inner = of([(first,)], [(COIN, b"\xa9\x14" + hash160(b"\x51\x51\x87") + b"\x87")])
        many = of([(first,)], [(COIN, b"\xa9\x14" + hash160(b"\x51\xae" * 250) + b"\x87")])
        checks = [of([(ok.id,)], [(COIN // 3, b"\xac" * 9_999)]), of([(third,)], [(1, b"\xac" * 10_002)])]
        yield "nothing", [], ""
        yield "a payment", [ok], ""
        yield "an output that isn't there", [of([(b"\1" * 32,)], pay)], MISSING
        yield "its number isn't there", [of([(first, b"", LAST, 5)], pay)], MISSING
        yield "a coin twice", [ok, of([(first,)], [(5, b"\x51")])], MISSING
        yield "a transaction twice", [ok, ok], MISSING
        yield "an output of a later one", [of([(ok.id,)], [(5, b"\x51")]), ok], MISSING
        yield "an output of an earlier one", [ok, of([(ok.id,)], [(5, b"\x51")])], ""
        yield "an output that can't be spent", [of([(first,)], [(1, b"\x6a")]), of([(first,)], [(1, b"\x6a")])], MISSING
        yield "a coinbase too soon", [of([(late,)], pay)], "bad-txns-premature-spend-of-coinbase"
        yield "a coinbase too soon, and too much", [of([(late,)], [(COIN + 5, b"")])], "bad-txns-premature-spend-of-coinbase"
        yield "too much", [of([(first,)], [(COIN + 1, b"\x51")])], "bad-txns-in-belowout"
        yield "a lock time of the height", [of([(first, b"", 0)], pay, lock=131)], LOCKED
        yield "one below it", [of([(first, b"", 0)], pay, lock=130)], ""
        yield "a script that fails", [of([(first, b"\x6a")], pay)], "blk-bad-inputs 1:0"
        yield "it comes last", [of([(first, b"\x6a")], pay), of([(b"\1" * 32,)], pay)], MISSING
        yield "an inner script", [inner, of([(inner.id, b"\x51" + push(b"\x51\x51\x87"))], pay)], ""
        yield "that fails", [inner, of([(inner.id, b"\x52" + push(b"\x52\x51\x87"))], pay)], "blk-bad-inputs 2:0"
        yield "a negative value", [of([(first,)], [(-1, b"\x51")])], "bad-txns-vout-negative"
        yield "more than there is", [of([(first,)], [(21 * 10**14 + 1, b"\x51")])], "bad-txns-vout-toolarge"
        yield "together", [of([(first,)], [(21 * 10**14, b""), (1, b"")])], "bad-txns-txouttotal-toolarge"
        yield "no output", [of([(first,)], [])], "bad-txns-vout-empty"
        yield "an input twice", [of([(first,), (first,)], pay)], "bad-txns-inputs-duplicate"
        yield "a null input", [of([(first,), (bytes(32), b"", LAST, LAST)], pay)], "bad-txns-prevout-null"
        yield "a coinbase", [coinbase(131, 5, b"\x51", b"zz")], "bad-cb-multiple"
        yield "signature operations", [of([(first,)], [(1, b"\xac" * 20_001)])], "bad-blk-sigops"
        yield "at their most", [of([(first,)], [(1, b"\xac" * 20_000)])], ""
        yield "of two", [ok, *checks], "bad-blk-sigops"
        yield "with inner ones", [many, of([(many.id, push(b"\x51\xae" * 250))], [(1, b"\xac" * 19_751)])], "bad-blk-sigops"
        yield "a relative lock", [of([(first, b"", 131)], pay, version=2)], LOCKED
        yield "that is over", [of([(first, b"", 130)], pay, version=2)], ""
        yield "on a coin of this block", [ok, of([(ok.id, b"", 1)], [(5, b"")], version=2)], LOCKED
        yield "by time", [of([(first, b"", 1 << 22 | 150)], pay, version=2)], LOCKED
        yield "by time, over", [of([(first, b"", 1 << 22 | 140)], pay, version=2)], ""

    def signature_rows(self):
        tx = spend(self.coins[1], 0, COIN - 5, b"")
        [right] = signed(SECP, SECRETS[:1], tx, 0, pay_to_key(KEYS[0]))
        [wrong] = signed(SECP, SECRETS[1:2], tx, 0, pay_to_key(KEYS[0]))
        yield "a signature", [with_script(tx, 0, right)], ""
        yield "another's", [with_script(tx, 0, wrong)], "blk-bad-inputs 1:0"
        yield "none", [with_script(tx, 0, b"")], "blk-bad-inputs 1:0"
        yield "not in BIP 66's form", [with_script(tx, 0, b"\x30" + right)], "blk-bad-inputs 1:0"

    def expect_untouched(self, state):
        self.assertEqual((self.call("getchaintips"), len(self.running.bench.index.blocks)), state)

    def expect(self, transactions, reason):
        """It is refused by this reason, and nothing is left of it; or it isn't, and is the active block then."""
        state = self.call("getchaintips"), len(self.running.bench.index.blocks)
        raw = [write_transaction(tx).hex() for tx in transactions]
        for more in ([False], [True], []):
            told = self.call("generateblock", "raw(51)", raw, *more)
            if reason:
                self.assertEqual(told, {"code": -25, "message": f"TestBlockValidity failed: {reason}"})
            else:
                self.assertEqual(set(told), {"hash", "hex"} if more == [False] else {"hash"})
            if reason or more == [False]:
                self.expect_untouched(state)
            else:
                self.assertEqual(self.call("getbestblockhash"), told["hash"])
                self.call("invalidateblock", told["hash"])
                state = self.call("getchaintips"), len(self.running.bench.index.blocks)

    def expect_as_submitted(self, block, reason):
        """The dry run gives the submission's word."""
        with self.node.turn:
            found = self.node.judge(block_at_front(block))
            reply = self.node.submit(block_at_front(block))
        self.assertEqual((found, "" if reply.text == "accepted" else reply.text), (reply, reason))
        if reply.text == "accepted":
            self.call("invalidateblock", show(block_id(block)))


class DryRunTest(Blocks):
    def test_table(self):
        for name, transactions, reason in [*self.rows(), *self.signature_rows()]:
            with self.subTest(name):
                self.expect(transactions, reason)

    def test_the_chainstate_gives_the_same_word(self):
        rows = [*self.rows(), *self.signature_rows()]
        self.assertGreater(len(rows), 35)
        for number, (name, transactions, reason) in enumerate(rows):
            with self.subTest(name):
                block = self.maker.block(block_id(self.blocks[-1]), transactions, extra=b"%d" % number)
                self.expect_as_submitted(block, reason)

    def test_too_much_for_the_coinbase(self):
        for more, reason in ((1000, ""), (1001, "bad-cb-amount")):
            paid = of([(self.coins[0],)], [(COIN - 1000, b"\x51")])
            self.expect_as_submitted(self.maker.block(block_id(self.blocks[-1]), [paid], more=more), reason)

    def test_a_transaction_that_no_block_has_room_for(self):
        large = "00" * 1_000_001
        told = self.call("generateblock", "raw(51)", [large])
        self.assertEqual(told, {"code": -25, "message": "TestBlockValidity failed: bad-blk-length"})
        paid = of([(self.coins[0],)], [(1, b"\x51" * 999_900)])
        self.expect([paid], "bad-blk-length")

    def test_signatures_that_the_table_says_are_valid(self):
        tx = spend(self.coins[1], 0, COIN - 5, b"")
        digest = signature_digest(tx, 0, pay_to_key(KEYS[0]), 1)
        signature = bytes.fromhex("3006020101020101")
        triple = Triple(KEYS[0], signature, digest)
        for table, reason in ((b"", "blk-bad-inputs 1:0"), (b"# ours\n\n" + triple.line.replace(b" ", b"  "), "")):
            running = Running(seats(self.heights, table))
            self.addCleanup(running.stop)
            running.call("setmocktime", GENESIS.time + 600 * 200)
            for block in self.blocks:
                running.call("submitblock", block.hex())
            raw = write_transaction(with_script(tx, 0, signature + b"\1")).hex()
            told = running.call("generateblock", "raw(51)", [raw])
            self.assertEqual(told.get("message", ""), reason and f"TestBlockValidity failed: {reason}")


class TableTest(Blocks):
    """The same where a table has the signatures."""

    def start(self):
        script = pay_to_key(KEYS[0])
        maker = Maker()
        first = maker.chain(1)
        maker.script = script
        second = maker.chain(1, block_id(first[0]))
        tx = spend(maker.coinbases[block_id(second[0])].id, 0, COIN - 5, b"")
        [signature] = signed(SECP, SECRETS[:1], tx, 0, script)
        line = Triple(KEYS[0], signature[:-1], signature_digest(tx, 0, script, 1)).line
        return Running(NodeBench(self.heights, table=line, program=PROGRAM))

    def test_table(self):
        for name, transactions, reason in [*self.rows(), *self.signature_rows()]:
            with self.subTest(name):
                self.expect(transactions, reason)

    def test_a_block_that_comes_meanwhile(self):
        """The block is made anew, on that one."""
        other = self.maker.block(block_id(self.blocks[-1]), extra=b"other")
        judge, told, judged = NodeBench.judge_spelled, [], []

        def slow(bench, spelled, now):
            if not told:
                with bench.others():
                    told.append(self.call("submitblock", other.hex()))
            judged.append(spelled.header.parent)
            return judge(bench, spelled, now)

        raw = write_transaction(of([(self.coins[0],)], [(1, b"\x51")])).hex()
        with mock.patch.object(NodeBench, "judge_spelled", slow):
            found = self.call("generateblock", "raw(51)", [raw])
        self.assertEqual((told, judged), ([None], [block_id(self.blocks[-1]), block_id(other)]))
        shown = self.call("getblockheader", found["hash"])
        self.assertEqual((shown["previousblockhash"], shown["confirmations"]), (show(block_id(other)), 1))


class WithoutForksTest(Blocks):
    """Below the heights of all soft forks, where a coinbase may be made again."""

    heights = (1000, 1000, 1000, 1000)

    def test_locks_and_signatures_are_free(self):
        tx = spend(self.coins[1], 0, COIN - 5, b"")
        [right] = signed(SECP, SECRETS[:1], tx, 0, pay_to_key(KEYS[0]))
        loose = b"\x30\x81" + right[1:]
        for name, transactions in (
            ("a relative lock", [of([(self.coins[0], b"", 131)], [(1, b"")], version=2)]),
            ("a lock of the script", [of([(self.coins[0], b"\x02\xff\x7f\xb1\xb2\x75")], [(1, b"")])]),
            ("a signature by another form", [with_script(tx, 0, loose)]),
        ):
            with self.subTest(name):
                self.expect(transactions, "")

    def test_a_coin_that_is_there(self):
        """BIP 30."""
        again = self.maker.coinbases[block_id(self.blocks[-1])]
        block = mine(block_id(self.blocks[-1]), GENESIS.time + 600 * 131, [again])
        self.expect_as_submitted(block, "bad-txns-BIP30")


class ReadOnceTest(Blocks):
    """What a block spends is read once for each transaction that made it, not once for each input."""

    def test_many_outputs_of_one_transaction(self):
        many = of([(self.coins[0],)], [(1000, b"\x51")] * 1000)
        self.call("generateblock", "raw(51)", [write_transaction(many).hex()])
        spending = [write_transaction(of([(many.id, b"", LAST, n)], [(1, b"\x51")])).hex() for n in range(1000)]
        with mock.patch.object(rpc_node, "read_transaction", wraps=rpc_node.read_transaction) as read:
            told = self.call("generateblock", "raw(51)", spending)
            self.assertLessEqual(read.call_count, 3)
            read.reset_mock()
            shown = self.call("getblock", told["hash"], 2)
            self.assertEqual(read.call_count, 1)
        with mock.patch.object(rpc_stats, "outputs", wraps=rpc_stats.outputs) as read:
            stats = self.call("getblockstats", told["hash"])
            self.assertEqual(read.call_count, 1)
        self.assertEqual([tx.get("fee") for tx in shown["tx"]], [None] + [0.00000999] * 1000)
        self.assertEqual((stats["totalfee"], stats["ins"]), (999_000, 1000))

    def test_outputs_of_blocks_and_of_one_another(self):
        """Coinbases of ten blocks, and a chain of payments within the block."""
        one = of([(coin,) for coin in self.coins[2:12]], [(5, b"\x51"), (6, b"\x52")])
        two = of([(one.id, b"", LAST, 1), (one.id,)], [(3, b"\x51")])
        told = self.call("generateblock", "raw(51)", [write_transaction(tx).hex() for tx in (one, two)])
        fees = [tx.get("fee") for tx in self.call("getblock", told["hash"], 2)["tx"]]
        self.assertEqual(fees, [None, (10 * COIN - 11) / 10**8, 0.00000008])


if __name__ == "__main__":
    unittest.main()
