"""The chainstate by Python: what is answered, what is raised, and misuse."""

import threading
import unittest

import wakotehu
from blocks import NOW, Maker, block_id
from wakotehu import Chainstate, errors, show
from wakotehu.encoding import GENESIS, Output, coinbase, mine


class ChainstateTest(unittest.TestCase):
    def setUp(self):
        self.maker = Maker()
        self.chain = Chainstate()
        self.addCleanup(self.chain.close)

    def test_begins_with_genesis(self):
        self.assertEqual(show(self.chain.best()), "0f9188f13cb7b2c71f2a335e3a4fc328bf5beb436012afca590b1a11466e2206")
        self.assertEqual(self.chain.height(), 0)
        self.assertEqual(self.chain.tips(), [(GENESIS.id, 0, 0, "active")])

    def test_reorganises_and_back(self):
        b1, b2 = self.maker.chain(2, extra=b"b")
        c1, c2, c3 = self.maker.chain(3, extra=b"c")
        replies = [self.chain.submit(block, NOW) for block in (b1, b2, c1, c2, c3)]
        self.assertEqual(replies, ["accepted", "accepted", "inconclusive", "inconclusive", "accepted"])
        coin_of = {block: self.maker.coinbases[block_id(block)].id for block in (b1, b2, c1, c2, c3)}
        self.assertIsNone(self.chain.coin(coin_of[b1], 0))
        self.assertEqual(self.chain.coin(coin_of[c1], 0), (5000000000, b"\x51", 1, True))
        self.assertEqual([tip[1:] for tip in self.chain.tips()], [(3, 0, "active"), (2, 2, "valid-fork")])
        self.chain.invalidate(block_id(c2))
        self.assertEqual(self.chain.best(), block_id(b2))
        self.assertEqual([tip.status for tip in self.chain.tips()], ["invalid", "active"])
        self.chain.reconsider(block_id(c3))
        self.assertEqual(self.chain.best(), block_id(c3))
        self.assertEqual(self.chain.submit(c1, NOW), "duplicate")
        self.chain.invalidate(block_id(c3))
        self.chain.precious(block_id(c2))
        self.assertEqual((self.chain.best(), self.chain.height()), (block_id(c2), 2))

    def test_refusals_have_their_reasons(self):
        block = self.maker.block(GENESIS.id, more=1)
        with self.assertRaises(errors.BadCbAmount) as caught:
            self.chain.submit(block, NOW)
        self.assertEqual(str(caught.exception), "bad-cb-amount")
        self.assertIsInstance(caught.exception, wakotehu.Rejected)
        self.assertEqual(self.chain.submit(block, NOW), "duplicate-invalid")
        orphan = self.maker.block(block_id(self.maker.block(GENESIS.id, extra=b"o")))
        with self.assertRaises(errors.PrevBlkNotFound):
            self.chain.submit(orphan, NOW)
        with self.assertRaises(errors.TimeTooNew):
            self.chain.submit(self.maker.block(GENESIS.id, extra=b"n"), 1000)
        with self.assertRaises(wakotehu.DecodeFailed):
            self.chain.submit(b"nonsense", NOW)
        with self.assertRaises(wakotehu.DecodeFailed):
            self.chain.submit(b"", NOW)
        with self.assertRaises(wakotehu.NotFound):
            self.chain.invalidate(bytes(32))
        with self.assertRaises(wakotehu.Genesis):
            self.chain.invalidate(GENESIS.id)
        with self.assertRaises(ValueError):
            self.chain.precious(b"short")
        self.assertEqual(self.chain.height(), 0)

    def test_reasons_and_words_are_those_of_the_library(self):
        from wakotehu.chainstate import _REPLIES
        from wakotehu.library import library

        for texts, call in ((errors.REASONS, "reason"), (_REPLIES, "reply")):
            told = getattr(library(), f"wakotehu_{call}_text")
            self.assertEqual([told(number).decode() for number in range(len(texts) + 2)], [*texts, "", ""])

    def test_heights_and_tables(self):
        with Chainstate(heights=(500, 1, 1, 1)) as chain:
            from wakotehu.encoding import coinbase, mine

            other = mine(GENESIS.id, GENESIS.time + 600, [coinbase(7, 5000000000)])
            self.assertEqual(chain.submit(other, NOW), "accepted")
            with self.assertRaises(errors.BadCbHeight):
                self.chain.submit(other, NOW)
        with self.assertRaises(wakotehu.BadTable) as caught:
            Chainstate(table="# a comment\n\nnonsense\n")
        self.assertEqual(caught.exception.line, 3)

    def test_a_script_of_any_length_is_read(self):
        for length in (0, 127, 128, 129, 9000):
            maker = Maker(script=b"\x61" * length)
            block = maker.block(GENESIS.id)
            with Chainstate() as chain:
                chain.submit(block, NOW)
                coin = chain.coin(maker.coinbases[block_id(block)].id, 0)
                self.assertEqual(coin.script, b"\x61" * length)

    def test_coins_and_blocks(self):
        blocks = self.maker.chain(3)
        other = self.maker.chain(2, extra=b"o")
        for block in (*other, *blocks):
            self.chain.submit(block, NOW)
        coins = self.chain.coins()
        wanted = [(self.maker.coinbases[block_id(block)].id, 0, height) for height, block in enumerate(blocks, 1)]
        self.assertEqual([(id, index, coin.height) for id, index, coin in coins], sorted(wanted))
        self.assertEqual({coin[:2] + coin[3:] for _, _, coin in coins}, {(5000000000, b"\x51", True)})
        for block in (*other, *blocks):
            self.assertEqual(self.chain.block(block_id(block)), block)
        self.assertIsNone(self.chain.block(GENESIS.id))
        self.assertIsNone(self.chain.block(bytes(32)))
        self.assertRaises(ValueError, self.chain.block, b"")

    def test_coins_while_one_map_becomes_many(self):
        """From 102,400 coins on they are moved to many maps, one for each that comes."""
        wanted, parent = [], GENESIS.id
        for height in range(1, 6):
            made = coinbase(height, 0, b"\x51", b"\x00")
            made = made._replace(outputs=[Output(0, bytes([0x51, 0x50 + height]))] * 55_000)
            block = mine(parent, GENESIS.time + 600 * height, [made])
            self.assertEqual(self.chain.submit(block, NOW), "accepted")
            parent = block_id(block)
            maker = made.id
            wanted += [(maker, index, height) for index in range(55_000)]
            coins = [(id, index, coin.height) for id, index, coin in self.chain.coins()]
            self.assertEqual(len(coins), len(wanted))
            self.assertTrue(coins == sorted(wanted), f"the coins at height {height}")

    def test_coins_with_long_scripts_and_long_blocks(self):
        maker = Maker(script=b"\x61" * 9000)
        block = maker.block(GENESIS.id)
        self.chain.submit(block, NOW)
        [(_, _, coin)] = self.chain.coins()
        self.assertEqual(coin.script, b"\x61" * 9000)
        self.assertEqual(self.chain.block(block_id(block)), block)

    def test_closed(self):
        self.chain.close()
        self.chain.close()
        for call in (self.chain.best, self.chain.height, self.chain.tips, lambda: self.chain.submit(b"", NOW)):
            self.assertRaises(wakotehu.Closed, call)

    def test_threads_are_let_in_one_by_one(self):
        blocks, told = self.maker.chain(60), []

        def submit():
            for block in blocks:
                try:
                    told.append(self.chain.submit(block, NOW))
                except (wakotehu.Busy, errors.PrevBlkNotFound):
                    pass

        threads = [threading.Thread(target=submit) for _ in range(4)]
        for thread in threads:
            thread.start()
        for thread in threads:
            thread.join()
        self.assertEqual(told.count("accepted"), self.chain.height())
        submit()
        self.assertEqual(self.chain.best(), block_id(blocks[-1]))


if __name__ == "__main__":
    unittest.main()
