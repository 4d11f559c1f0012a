"""A dry run answers what the submission would, and changes nothing; a copy is the same, and goes its own way."""

import random
import time
import unittest

from blocks import NOW, Maker, block_id, signed, spend, with_script
from servers import PROGRAM
from test_bench import KEYS, SECP, SECRETS, pay_to_key
from wakotehu import AsyncNode, Bench, Chainstate, Node, Stamped, errors, secp256k1


def seen(chain):
    """What a chainstate shows."""
    return chain.best(), chain.height(), chain.tips(), chain.coins()


class JudgeTest(unittest.TestCase):
    def test_as_a_submission(self):
        for seed in range(20):
            draw = random.Random(seed)
            maker = Maker()
            with Chainstate() as chain:
                blocks = maker.chain(101)
                for block in blocks:
                    chain.submit(block, NOW)
                coins = [maker.coinbases[block_id(block)].id for block in blocks]
                ids = [block_id(block) for block in blocks[-4:]]
                for place in range(40):
                    txs = [spend(draw.choice(coins[:8]), 0, draw.choice((1, 60)) * 10**8, b"")] if draw.random() < 0.5 else []
                    block = maker.block(draw.choice(ids[-4:]), txs, extra=bytes([place, seed]), more=draw.choice((0, 0, 0, 1)))
                    given = block if draw.random() < 0.9 else draw.choice((block[:-1], block + b"\0", blocks[-1]))
                    before = seen(chain)
                    told = chain.judge(given, NOW)
                    self.assertEqual(seen(chain), before)
                    reply = chain.try_submit(given, NOW)
                    self.assertEqual(told, reply)
                    if reply.reply in ("accepted", "inconclusive") and given is block:
                        ids.append(block_id(block))

    def test_with_real_signatures(self):
        maker = Maker(pay_to_key(KEYS[0]))
        with Bench() as bench:
            blocks = maker.chain(101)
            for block in blocks:
                bench.submit(block, NOW)
            tx = spend(maker.coinbases[block_id(blocks[0])].id, 0, 10**8, b"")
            for secret, reply in ((1, "blk-bad-inputs 1:0"), (0, "accepted")):
                [signature] = signed(SECP, SECRETS[secret : secret + 1], tx, 0, maker.script)
                block = maker.block(bench.best(), [with_script(tx, 0, signature)], extra=bytes([secret]))
                before = seen(bench), list(bench.journal), dict(bench.index.blocks)
                self.assertEqual(bench.judge(block, NOW).text, reply)
                self.assertEqual((seen(bench), bench.journal, bench.index.blocks), before)
                found = bench.found_out
                self.assertEqual(bench.try_submit(block, NOW).text, reply)
                # What the dry run found out is known.
                self.assertEqual(bench.found_out, found)

    def test_by_need_it_wants(self):
        maker = Maker(pay_to_key(KEYS[0]))
        with Chainstate(by_need=True) as chain:
            blocks = maker.chain(101)
            for block in blocks:
                chain.submit(block, NOW)
            tx = spend(maker.coinbases[block_id(blocks[0])].id, 0, 10**8, b"")
            block = maker.block(chain.best(), [with_script(tx, 0, *signed(SECP, SECRETS[:1], tx, 0, maker.script))])
            with self.assertRaises(errors.Wants) as wanted:
                chain.judge(block, NOW)
            self.assertEqual(len(wanted.exception.triples), 1)
            chain.learn(wanted.exception.triples[0], True)
            self.assertEqual((chain.judge(block, NOW).text, chain.height()), ("accepted", 101))

    def test_a_closed_chainstate(self):
        chain = Chainstate()
        chain.close()
        for call in (lambda: chain.judge(b"", NOW), chain.copy):
            self.assertRaises(errors.Closed, call)


class ServedTest(unittest.IsolatedAsyncioTestCase):
    """The same at seats of a node, and of one for asyncio: a stamped reply, and no step."""

    def made(self):
        """101 blocks of a key, and blocks on them with the replies that they get: a payment by another key and one by this, too
        much for the coinbase, a block beside, one of no parent, one that is there, and bytes that are no block."""
        maker = Maker(pay_to_key(KEYS[0]))
        blocks = maker.chain(101)
        tx, tip = spend(maker.coinbases[block_id(blocks[0])].id, 0, 10**8, b""), block_id(blocks[-1])
        wrong, right = (signed(SECP, SECRETS[place : place + 1], tx, 0, maker.script) for place in (1, 0))
        beside = maker.block(block_id(blocks[-2]), extra=b"b")
        return blocks, [
            (maker.block(tip, [with_script(tx, 0, *wrong)], extra=b"w"), "blk-bad-inputs 1:0"),
            (maker.block(tip, [with_script(tx, 0, *right)], extra=b"r"), "accepted"),
            (maker.block(tip, more=1), "bad-cb-amount"), (beside, "inconclusive"),
            (maker.block(block_id(beside), extra=b"c"), "prev-blk-not-found"), (blocks[5], "duplicate"), (blocks[5][:-1], "decode-failed"),
        ]  # fmt: skip

    def test_of_a_node(self):
        blocks, rows = self.made()
        with Node(seats=2, program=PROGRAM, verify=secp256k1) as node:
            for block in blocks:
                node.seat(0).submit(block, NOW)
            node.seat(1).told(node.seat(0))
            for block, reply in rows:
                before = [node.seat(0).getchaintips().value, node.seat(0).coins().value]
                told = node.seat(1).judge(block, NOW)
                self.assertEqual((type(told), told.value.text), (Stamped, reply))
                self.assertEqual([node.seat(0).getchaintips().value, node.seat(0).coins().value], before)
                self.assertEqual(node.seat(1).judge(block, NOW).value, told.value)
            commands = [entry.command for entry in node.seat(1).journal().value]
            # A signature that was found out is a step, and a dry run isn't.
            self.assertEqual((commands.count("submit"), commands[101:]), (101, ["invalid", "valid"]))
            self.assertEqual(node.seat(0).submit(rows[1][0], NOW).value, "accepted")
            self.assertEqual([entry.command for entry in node.seat(0).journal().value][101:], ["invalid", "valid", "submit"])
            self.assertRaises(ValueError, node.seat(0).judge, bytes(33_554_433), NOW)
            node.close()
            self.assertRaises(errors.Closed, node.seat(0).judge, blocks[0], NOW)

    async def test_of_an_asyncnode(self):
        blocks, rows = self.made()
        async with AsyncNode(seats=2, program=PROGRAM, verify=secp256k1) as node:
            for block in blocks:
                await node.seat(0).submit(block, NOW)
            told = [await node.seat(0).judge(block, NOW) for block, _ in rows]
            self.assertEqual([(each.value.text, each.at) for each in told], [
                (reply, 101 + min(place + 1, 2)) for place, (_, reply) in enumerate(rows)
            ])  # fmt: skip

    def test_of_a_table(self):
        blocks, rows = self.made()
        with Node(seats=1, program=PROGRAM) as node:
            for block in blocks:
                node.seat(0).submit(block, NOW)
            told = [node.seat(0).judge(block, NOW) for block, _ in rows]
            self.assertEqual({each.at for each in told}, {101})
            self.assertEqual([each.value.text for each in told[:3]], ["blk-bad-inputs 1:0"] * 2 + ["bad-cb-amount"])


class CopyTest(unittest.TestCase):
    def test_each_goes_its_own_way(self):
        maker = Maker()
        with Chainstate() as chain:
            for block in maker.chain(101):
                chain.submit(block, NOW)
            before = seen(chain)
            copies = [chain.copy() for _ in range(100)]
            for place, copy in enumerate(copies):
                self.assertEqual(seen(copy), before)
                block = maker.block(copy.best(), extra=bytes([place, 1]))
                copy.submit(block, NOW)
                self.assertEqual(copy.best(), block_id(block))
            self.assertEqual(seen(chain), before)
            chain.invalidate(chain.best())
            self.assertEqual([copy.height() for copy in copies], [102] * 100)
            # A copy of a copy takes back what it has, by undo of its own.
            with copies[3].copy() as other:
                copies[3].close()
                other.invalidate(other.best())
                other.invalidate(other.best())
                self.assertEqual((other.best(), other.coins()), (chain.best(), chain.coins()))
            for copy in copies:
                copy.close()

    def test_a_thousand_one_after_the_other(self):
        maker = Maker()
        with Bench() as bench:
            for block in maker.chain(101):
                bench.submit(block, NOW)
            for place in range(1000):
                with bench.copy() as copy:
                    block = maker.block(bench.best(), extra=place.to_bytes(2, "little"))
                    self.assertEqual((copy.submit(block, NOW), copy.height(), len(copy.journal)), ("accepted", 102, 102))
            self.assertEqual(bench.height(), 101)

    def test_it_is_quick(self):
        """101 mined blocks in a millisecond; twice that beside other work."""
        maker = Maker()
        with Chainstate() as chain:
            for block in maker.chain(101):
                chain.submit(block, NOW)
            best = 1.0
            for _ in range(50):
                begun = time.perf_counter()
                copy = chain.copy()
                best = min(best, time.perf_counter() - begun)
                copy.close()
            self.assertLess(best, 0.002)

    def test_verdicts_are_copied(self):
        maker = Maker(pay_to_key(KEYS[0]))
        with Bench() as bench:
            blocks = maker.chain(101)
            for block in blocks:
                bench.submit(block, NOW)
            tx = spend(maker.coinbases[block_id(blocks[0])].id, 0, 10**8, b"")
            block = maker.block(bench.best(), [with_script(tx, 0, *signed(SECP, SECRETS[:1], tx, 0, maker.script))])
            bench.submit(block, NOW)
            with bench.copy() as copy:
                copy.invalidate(copy.best())
                copy.reconsider(block_id(block))
                self.assertEqual((copy.best(), copy.rounds, copy.table), (block_id(block), 0, bench.table))

    def test_too_many(self):
        copies = []
        with Chainstate() as chain:
            with self.assertRaises(errors.TooMany):
                for _ in range(300):
                    copies.append(chain.copy())
            for copy in copies:
                copy.close()
            chain.copy().close()


if __name__ == "__main__":
    unittest.main()
