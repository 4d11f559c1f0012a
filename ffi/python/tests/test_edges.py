"""What lies round the proved calls: which bytes are kept, numbers out of range, copies, and exceptions in the middle."""

import _thread
import copy
import pickle
import resource
import signal
import threading
import time
import unittest

import wakotehu
from blocks import NOW, Maker, block_id, signed, spend, with_script
from test_bench import SECP, SECRETS, KEYS, pay_to_key
from wakotehu import Bench, Chainstate, errors
from wakotehu.encoding import (
    GENESIS, Block, Input, Output, Transaction, coinbase, mine, read_block, read_transaction, subsidy,
    write_block,
)  # fmt: skip


def pair(maker, parent, coin):
    """A valid block of two transactions, and the block of its header whose one transaction is their two ids.

    Those 64 bytes are read as one input with a script of 13 bytes, and no output: of the first id byte 4 is 1, of the
    second byte 9 is 13 and byte 27 is 0.
    """
    height = maker.heights[parent] + 1
    for extra in range(2**20):
        made = coinbase(height, subsidy(height), maker.script, extra.to_bytes(4, "little"))
        if made.id[4] == 1:
            break
    for lock_time in range(2**24):
        spent = Transaction(1, [Input(coin, 0, b"", 0xFFFFFFFF)], [Output(1, b"\x51")], lock_time)
        if spent.id[9] == 13 and spent.id[27] == 0:
            break
    block = mine(parent, GENESIS.time + 600 * height, [made, spent])
    return block, block[:80] + b"\x01" + made.id + spent.id


class PairTest(unittest.TestCase):
    """Two blocks with one id, of which one is refused."""

    def setUp(self):
        maker = Maker()
        self.blocks = maker.chain(101)
        coin = maker.coinbases[block_id(self.blocks[0])].id
        self.real, self.other = pair(maker, block_id(self.blocks[-1]), coin)
        self.assertEqual(self.real[:80], self.other[:80])
        self.assertEqual(len(read_transaction(self.other[81:]).inputs), 1)

    def played(self, chain):
        self.addCleanup(chain.close)
        for block in self.blocks:
            chain.submit(block, NOW)
        with self.assertRaises(errors.BadCbMissing):
            chain.submit(self.other, NOW)
        self.assertIsNone(chain.block(block_id(self.real)))
        self.assertEqual(chain.submit(self.real, NOW), "accepted")
        self.assertEqual(chain.block(block_id(self.real)), self.real)
        self.assertEqual(chain.try_submit(self.other, NOW).text, "duplicate")
        self.assertEqual(chain.block(block_id(self.real)), self.real)
        # 102 coinbases and one output of the spending transaction, without the coin that it spends.
        self.assertEqual(len(chain.coins()), 102)

    def test_the_bytes_of_a_refused_block_are_not_those_of_the_valid_one(self):
        self.played(Chainstate())

    def test_a_bench_too(self):
        self.played(Bench())


class KeptTest(unittest.TestCase):
    """A block's bytes are kept just where the chainstate keeps the block."""

    def test_what_is_kept_of_refused_blocks(self):
        maker = Maker()
        blocks = maker.chain(101)
        parent, coin = block_id(blocks[-1]), maker.coinbases[block_id(blocks[0])].id
        locked = Transaction(1, [Input(coin, 0, b"", 0)], [Output(1, b"\x51")], 500)
        relative = Transaction(2, [Input(coin, 0, b"", 200)], [Output(1, b"\x51")], 0)
        many = spend(coin, 0, 1, b"", to=b"\xac" * 20001)
        # Signature operations that a redeemed script has are counted over the coins alone.
        counted = spend(coin, 0, 1, b"", to=b"\x51")
        cases = [
            ("bad-txns-nonfinal", [locked], False),
            ("bad-txns-nonfinal", [relative], True),
            ("bad-blk-sigops", [many], False),
            ("bad-txns-in-belowout", [spend(coin, 0, 5000000001, b"")], True),
            ("bad-txns-inputs-missingorspent", [spend(bytes(31) + b"\x01", 0, 1, b"")], True),
            ("blk-bad-inputs 1:0", [spend(coin, 0, 1, b"\x6a")], True),
            ("bad-txns-vout-empty", [counted._replace(outputs=[])], False),
        ]
        for kind in (Chainstate, Bench):
            for reason, transactions, kept in cases:
                with self.subTest(kind=kind, reason=reason, kept=kept), kind() as chain:
                    for block in blocks:
                        chain.submit(block, NOW)
                    block = maker.block(parent, transactions)
                    self.assertEqual(chain.try_submit(block, NOW).text, reason)
                    self.assertEqual(chain.block(block_id(block)), block if kept else None)
                    self.assertEqual(chain.is_kept(block_id(block)), kept)
                    again = chain.try_submit(block, NOW).text
                    self.assertEqual(again, "duplicate-invalid" if kept else reason)

    def test_signature_operations_over_the_coins(self):
        redeem = b"\xac" * 200
        script = b"\xa9\x14" + wakotehu.encoding.hash160(redeem) + b"\x87"
        outs = [Output(1, script)] * 101
        maker = Maker()
        blocks = maker.chain(101)
        coin = maker.coinbases[block_id(blocks[0])].id
        makes = Transaction(1, [Input(coin, 0, b"", 0xFFFFFFFF)], outs, 0)
        first = maker.block(block_id(blocks[-1]), [makes])
        own = wakotehu.encoding.push(redeem)
        spends = [spend(makes.id, index, 1, own) for index in range(101)]
        block = maker.block(block_id(first), spends)
        with Chainstate() as chain:
            for one in (*blocks, first):
                chain.submit(one, NOW)
            self.assertEqual(chain.try_submit(block, NOW).text, "bad-blk-sigops")
            self.assertEqual(chain.block(block_id(block)), block)

    @unittest.skipIf("libasan" in open("/proc/self/maps").read(), "the sanitizer keeps freed memory")
    def test_refused_blocks_leave_no_memory(self):
        maker = Maker()
        [first] = maker.chain(1)
        for kind in (Chainstate, Bench):
            with self.subTest(kind=kind), kind() as chain:
                chain.submit(first, NOW)
                before = resource.getrusage(resource.RUSAGE_SELF).ru_maxrss
                for number in range(300):
                    made = coinbase(7, 1, b"\x61" * 9000, number.to_bytes(4, "little"))
                    out = [Output(1, bytes([0x51 + number % 16]) * 9000)] * 10
                    block = mine(block_id(first), NOW - 100, [made._replace(outputs=out)])
                    self.assertEqual(chain.try_submit(block, NOW).text, "bad-cb-height")
                grown = resource.getrusage(resource.RUSAGE_SELF).ru_maxrss - before
                # They have 27 MB. In KiB.
                self.assertLess(grown, 4000)


class NumbersTest(unittest.TestCase):
    def test_numbers_out_of_range_are_refused(self):
        chain = Chainstate()
        self.addCleanup(chain.close)
        block = Maker().block(GENESIS.id)
        cases = [
            (chain.coin, bytes(32), 2**32), (chain.coin, bytes(32), -1), (chain.submit, block, -1),
            (chain.submit, block, 2**64), (Chainstate, ()), (Chainstate, (1, 1, 1)), (Chainstate, (1, 1, 1, 1, 1)),
            (Chainstate, (1, 1, 1, 2**32)), (Chainstate, (1, 1, 1, -1)), (Bench, ()), (Bench, (1, 1, 1, -1)),
        ]  # fmt: skip
        for call, *words in cases:
            with self.subTest(call=call, words=words):
                self.assertRaises(ValueError, call, *words)
        self.assertRaises(TypeError, chain.coin, bytes(32), 0.5)
        self.assertRaises(TypeError, chain.submit, block, "1")
        self.assertEqual(chain.height(), 0)
        self.assertIsNone(chain.coin(bytes(32), 2**32 - 1))

    def test_copies_and_pickles_are_refused(self):
        for kind in (Chainstate, Bench):
            with kind() as chain:
                for call in (copy.copy, copy.deepcopy, pickle.dumps):
                    self.assertRaises(TypeError, call, chain)
                self.assertEqual(chain.height(), 0)


class InterruptedTest(unittest.TestCase):
    """Exceptions in the middle of a call."""

    def setUp(self):
        # What a shell starts in the background ignores interrupts.
        kept = signal.signal(signal.SIGINT, signal.default_int_handler)
        self.addCleanup(signal.signal, signal.SIGINT, kept)

    def test_an_interrupted_verdict_changes_nothing(self):
        maker = Maker(pay_to_key(KEYS[0]))
        with Bench() as bench:
            blocks = maker.chain(101)
            for block in blocks:
                bench.submit(block, NOW)
            tx = spend(maker.coinbases[block_id(blocks[0])].id, 0, 5000000000, b"")
            tx = with_script(tx, 0, *signed(SECP, SECRETS[:1], tx, 0, pay_to_key(KEYS[0])))
            block = maker.block(bench.best(), [tx])
            calls = []

            def interrupted(lines):
                calls.extend(lines)
                raise KeyboardInterrupt

            bench._verifier.verdicts = interrupted
            self.assertRaises(KeyboardInterrupt, bench.submit, block, NOW)
            del bench._verifier.verdicts
            self.assertEqual((len(calls), bench.height(), bench.table), (1, 101, b""))
            self.assertEqual(bench.submit(block, NOW), "accepted")

    def test_an_interrupted_walk_over_coins_is_told_and_leaves_the_handle_free(self):
        maker = Maker()
        with Chainstate() as chain:
            for block in maker.chain(3000):
                chain.submit(block, NOW + 600 * 3000)
            told = 0
            for delay in (0.0005, 0.002, 0.004, 0.006, 0.008):
                timer = threading.Timer(delay, _thread.interrupt_main)
                try:
                    timer.start()
                    self.assertEqual(len(chain.coins()), 3000)
                    # It came too late: it comes now.
                    timer.join()
                    time.sleep(0.05)
                except KeyboardInterrupt:
                    told += 1
                self.assertEqual(chain.height(), 3000)
            self.assertEqual(told, 5)
            self.assertEqual(len(chain.coins()), 3000)

    def test_an_exception_in_the_callback_is_raised(self):
        from wakotehu import chainstate

        maker, kept = Maker(), chainstate.Coin
        with Chainstate() as chain:
            for block in maker.chain(3):
                chain.submit(block, NOW)
            try:
                chainstate.Coin = lambda *words: 1 // 0
                self.assertRaises(ZeroDivisionError, chain.coins)
            finally:
                chainstate.Coin = kept
            self.assertEqual(len(chain.coins()), 3)


class ScreenTest(unittest.TestCase):
    """The rules that take no script are looked at before scripts are run, and scripts ask for what they come to alone."""

    def block(self, work=True):
        """A block of 2 KB with many signatures, keys and code separators in one script."""
        maker = Maker(b"\x51")
        blocks = maker.chain(101)
        coin = maker.coinbases[block_id(blocks[0])].id
        script = b"".join(b"\x0a\x30" + bytes([number]) * 8 + b"\x01" for number in range(40))
        keys = b"".join(b"\x21\x02" + bytes([number]) * 32 for number in range(1, 16))
        tx = spend(coin, 0, 1, script + keys + b"\xab" * 60 + b"\xac")
        block = maker.block(block_id(blocks[-1]), [tx])
        if work:
            return blocks, block
        read = read_block(block)
        header = read.header
        while int.from_bytes(header.id, "little") <= 0x7FFFFF << 232:
            header = header._replace(nonce=header.nonce + 1)
        return blocks, write_block(Block(header, read.transactions))

    def test_no_script_is_run_for_a_block_without_work(self):
        blocks, block = self.block(work=False)
        with Bench() as bench:
            for one in blocks:
                bench.submit(one, NOW)
            wrong = [
                (block, NOW, "high-hash"),
                (self.block()[1], 1000, "time-too-new"),
                (self.block()[1][:-1] + b"\x01", NOW, "bad-txnmrklroot"),
            ]
            for bad, now, reason in wrong:
                begun = time.perf_counter()
                self.assertEqual(bench.try_submit(bad, now).text, reason)
                spent = time.perf_counter() - begun
                print(f"\n{len(bad)} bytes, {reason}: {1000 * spent:.2f} ms")
                self.assertLess(spent, 0.1)

    def test_signatures_that_nobody_asks_for_cost_nothing(self):
        blocks, block = self.block()
        with Bench() as bench:
            for one in blocks:
                bench.submit(one, NOW)
            begun = time.perf_counter()
            self.assertEqual(bench.try_submit(block, NOW).text, "blk-bad-inputs 1:0")
            spent = time.perf_counter() - begun
            print(f"\n{len(block)} bytes with work: {1000 * spent:.2f} ms")
            self.assertLess(spent, 0.5)


if __name__ == "__main__":
    unittest.main()
