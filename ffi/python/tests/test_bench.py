"""Real signatures: made by libsecp256k1, found in the scripts, and judged by the proved chainstate."""

import hashlib
import time
import unittest

from blocks import NOW, Maker, block_id, signed, spend, with_script
from wakotehu import Bench, Chainstate, consensus as c, errors
from wakotehu.encoding import Input, Output, Transaction, push, signature_digest, write_transaction
from wakotehu.signatures import Secp256k1

SECP = Secp256k1()
SECRETS = [bytes([number]) * 32 for number in (1, 2, 3)]
KEYS = [SECP.public_key(secret) for secret in SECRETS]


def hash160(data):
    return hashlib.new("ripemd160", hashlib.sha256(data).digest()).digest()


def pay_to_key(key):
    return push(key) + b"\xac"


def pay_to_key_hash(key):
    return b"\x76\xa9" + push(hash160(key)) + b"\x88\xac"


def pay_to_script(script):
    return b"\xa9" + push(hash160(script)) + b"\x87"


def multisig(needed, keys):
    return bytes([0x50 + needed]) + b"".join(map(push, keys)) + bytes([0x50 + len(keys), 0xAE])


class BenchTest(unittest.TestCase):
    def mined(self, script, count=101):
        """A bench with blocks whose coinbases this script spends."""
        self.maker = Maker(script)
        bench = Bench()
        self.addCleanup(bench.close)
        self.blocks = self.maker.chain(count)
        for block in self.blocks:
            self.assertEqual(bench.submit(block, NOW), "accepted")
        return bench

    def coin(self, place=0):
        return self.maker.coinbases[block_id(self.blocks[place])].id

    def test_keys_and_hashes_of_keys(self):
        for script, more in ((pay_to_key(KEYS[0]), ()), (pay_to_key_hash(KEYS[0]), (KEYS[0],))):
            for kind in (1, 2, 3, 129, 130, 131):
                with self.subTest(script=script.hex(), kind=kind):
                    bench = self.mined(script)
                    tx = spend(self.coin(), 0, 5000000000, b"")
                    [signature] = signed(SECP, SECRETS[:1], tx, 0, script, kind)
                    wrong = signed(SECP, SECRETS[1:2], tx, 0, script, kind)
                    bad = self.maker.block(bench.best(), [with_script(tx, 0, *wrong, *more)], extra=b"w")
                    with self.assertRaises(errors.BlkBadInputs) as caught:
                        bench.submit(bad, NOW)
                    self.assertEqual((caught.exception.transaction, caught.exception.input), (1, 0))
                    good = self.maker.block(bench.best(), [with_script(tx, 0, signature, *more)])
                    self.assertEqual(bench.submit(good, NOW), "accepted")
                    # Each was asked for once.
                    self.assertEqual((bench.rounds, bench.found_out), (2, 2))
                    self.assertIsNone(bench.coin(self.coin(), 0))
                    again = spend(self.coin(), 0, 4000000000, b"")
                    twice = self.maker.block(
                        bench.best(),
                        [with_script(again, 0, *signed(SECP, SECRETS[:1], again, 0, script, kind), *more)],
                    )
                    with self.assertRaises(errors.BadTxnsInputsMissingorspent):
                        bench.submit(twice, NOW)

    def test_two_of_three_by_script_hash(self):
        redeem = multisig(2, KEYS)
        bench = self.mined(pay_to_script(redeem))
        tx = spend(self.coin(), 0, 5000000000, b"")
        both = signed(SECP, SECRETS[1:], tx, 0, redeem)
        for order, reply in ((both[::-1], "blk-bad-inputs 1:0"), (both, "accepted")):
            block = self.maker.block(bench.best(), [with_script(tx, 0, *order, redeem, begins=b"\x00")])
            self.assertEqual(bench.try_submit(block, NOW).text, reply)

    def test_code_separators(self):
        # The signature signs what follows the separator.
        script = b"\x61\xab" + pay_to_key(KEYS[0])
        bench = self.mined(script)
        tx = spend(self.coin(), 0, 5000000000, b"")
        block = self.maker.block(
            bench.best(), [with_script(tx, 0, *signed(SECP, SECRETS[:1], tx, 0, pay_to_key(KEYS[0])))]
        )
        self.assertEqual(bench.submit(block, NOW), "accepted")

    def test_any_of_twenty_keys(self):
        secrets = [bytes([number]) * 32 for number in range(1, 21)]
        keys = [SECP.public_key(secret) for secret in secrets]
        script = b"\x53" + b"".join(map(push, keys)) + b"\x01\x14\xae"
        bench = self.mined(script)
        tx = spend(self.coin(), 0, 5000000000, b"")
        for signers, reply in (((0, 9, 19), "accepted"), ((9, 0, 19), "blk-bad-inputs 1:0")):
            tip = bench.best()
            pushed = signed(SECP, [secrets[place] for place in signers], tx, 0, script)
            block = self.maker.block(tip, [with_script(tx, 0, *pushed, begins=b"\x00")], extra=bytes(signers))
            self.assertEqual(bench.try_submit(block, NOW).text, reply)
            bench.invalidate(block_id(block))

    def test_nothing_that_is_known_is_asked(self):
        """Of a script that asks for many signatures some are in the table, on which libsecp256k1 would say otherwise: it isn't
        asked about them, also where what is asked for next is guessed, and about no signature twice."""
        script = multisig(3, KEYS)
        bench = self.mined(script)
        tx = spend(self.coin(), 0, 5000000000, b"")
        signatures = signed(SECP, SECRETS, tx, 0, script, 1)
        # The second one is of another digest.
        signatures[1] = signed(SECP, SECRETS[1:2], spend(self.coin(1), 0, 1, b""), 0, script, 1)[0]
        block = self.maker.block(bench.best(), [with_script(tx, 0, b"", *signatures)])
        digest = c.signature_digest(write_transaction(tx), 0, script, 1)
        triples = [c.Triple(key, signature[:-1], digest) for key, signature in zip(KEYS, signatures)]
        self.assertEqual([SECP.valid(triple) for triple in triples], [True, False, True])
        for known in ([1], [1, 2], [0, 1, 2]):
            with self.subTest(known=known), Bench(table=b"".join(triples[place].line for place in known)) as other:
                asked = []
                verdicts = other._verifier.verdicts
                other._verifier.verdicts = lambda lines: asked.extend(lines) or verdicts(lines)
                for one in self.blocks:
                    other.submit(one, NOW)
                self.assertEqual(other.judge(block, NOW).text, "accepted")
                self.assertEqual(other.submit(block, NOW), "accepted")
                self.assertEqual(len(asked), len(set(asked)))
                told = {triple.line[:-1] for place, triple in enumerate(triples) if place in known}
                self.assertFalse(told & set(asked))
                with other.copy() as copied:
                    self.assertTrue(all(copied._test(triples).values()))
                self.assertEqual(len(asked), len(set(asked)))

    def test_only_what_is_asked_gets_into_the_table(self):
        # A signature that is valid by a key that is dropped, and another that isn't tried.
        script = push(KEYS[1]) + b"\x75" + pay_to_key(KEYS[0])
        bench = self.mined(script)
        tx = spend(self.coin(), 0, 5000000000, b"")
        one, two = signed(SECP, SECRETS[:2], tx, 0, script)
        block = self.maker.block(bench.best(), [with_script(tx, 0, two, one)])
        self.assertEqual(bench.submit(block, NOW), "accepted")
        self.assertEqual([line.split()[0] for line in bench.table.splitlines()], [KEYS[0].hex().encode()])

    def test_a_thousand_inputs(self):
        script = pay_to_key_hash(KEYS[0])
        bench = self.mined(script)
        outputs = [Output(4000000, script)] * 1000
        tx = spend(self.coin(), 0, 5000000000, b"")._replace(outputs=outputs)
        tx = with_script(tx, 0, *signed(SECP, SECRETS[:1], tx, 0, script), KEYS[0])
        self.assertEqual(bench.submit(self.maker.block(bench.best(), [tx]), NOW), "accepted")
        then = Transaction(1, [Input(tx.id, n, b"", 0xFFFFFFFF) for n in range(1000)], [Output(4000000000, script)], 0)
        ready = write_transaction(then)
        inputs = []
        for n, spends in enumerate(then.inputs):
            signature = SECP.sign(SECRETS[0], c.signature_digest(ready, n, script, 1)) + b"\x01"
            inputs.append(spends._replace(script=push(signature) + push(KEYS[0])))
        block = self.maker.block(bench.best(), [then._replace(inputs=inputs)])
        begun = time.process_time()
        self.assertEqual(bench.submit(block, NOW), "accepted")
        spent = time.process_time() - begun
        print(f"\na transaction of 1,000 inputs: {1000 * spent:.0f} ms of a processor, in {bench.rounds} rounds")
        self.assertEqual(bench.rounds, 2)
        self.assertLess(spent, 2.0)

    def test_several_inputs_and_a_chain_within_a_block(self):
        script = pay_to_key(KEYS[0])
        bench = self.mined(script, 103)
        inputs = [Input(self.coin(place), 0, b"", 0xFFFFFFFF) for place in range(3)]
        tx = Transaction(1, inputs, [Output(15000000000, script)], 0)
        for place in range(3):
            digest = signature_digest(tx, place, script, 1)
            tx = with_script(tx, place, SECP.sign(SECRETS[0], digest) + b"\x01")
        then = spend(tx.id, 0, 15000000000, b"")
        then = with_script(then, 0, *signed(SECP, SECRETS[:1], then, 0, script))
        self.assertEqual(bench.submit(self.maker.block(bench.best(), [tx, then]), NOW), "accepted")
        self.assertEqual(bench.coin(then.id, 0).value, 15000000000)
        coins = bench.coins()
        self.assertEqual(len(coins), 103 - 3 + 1 + 1)
        self.assertEqual(sum(coin.value for _, _, coin in coins), 104 * 5000000000)

    def test_blocks_are_given_back(self):
        bench = self.mined(b"\x51", 2)
        block = self.maker.block(bench.best())
        self.assertIsNone(bench.block(block_id(block)))
        # A block with its header, and another coinbase, isn't taken for it.
        bench.try_submit(block[:-1] + b"\x01", NOW)
        self.assertIsNone(bench.block(block_id(block)))
        bench.submit(block, NOW)
        self.assertEqual(bench.block(block_id(block)), block)
        self.assertEqual(bench.branch(), [block_id(it) for it in (*self.blocks, block)])
        early = self.maker.block(bench.best())
        bench.try_submit(early, 1000)
        self.assertIsNone(bench.block(block_id(early)))
        self.assertEqual([bench.is_kept(block_id(it)) for it in (block, early)], [True, False])

    def test_a_reorganisation_gives_the_coin_back(self):
        script = pay_to_key(KEYS[0])
        bench = self.mined(script)
        tip = bench.best()
        tx = spend(self.coin(), 0, 5000000000, b"")
        tx = with_script(tx, 0, *signed(SECP, SECRETS[:1], tx, 0, script))
        bench.submit(self.maker.block(tip, [tx]), NOW)
        other = self.maker.chain(2, tip, extra=b"o")
        self.assertEqual([bench.submit(block, NOW) for block in other], ["inconclusive", "accepted"])
        self.assertEqual(bench.coin(self.coin(), 0).value, 5000000000)
        # On that branch it can be spent again, by the same signature, which isn't asked for again.
        rounds = bench.rounds
        self.assertEqual(bench.submit(self.maker.block(bench.best(), [tx]), NOW), "accepted")
        self.assertEqual(bench.rounds, rounds)

    def test_a_reorganisation_asks_for_what_its_blocks_need(self):
        script = pay_to_key(KEYS[0])
        bench = self.mined(script)
        tip, found = bench.best(), []
        for number in range(2):
            tx = spend(self.coin(), 0, 5000000000 - number, b"")
            found.append(with_script(tx, 0, *signed(SECP, SECRETS[:1], tx, 0, script)))
        bench.submit(self.maker.block(tip, found[:1]), NOW)
        self.assertEqual(bench.found_out, 1)
        # A block beside the best one runs no script, and the one on it brings both about.
        first = self.maker.block(tip, found[1:], extra=b"o")
        self.assertEqual(bench.submit(first, NOW), "inconclusive")
        self.assertEqual(bench.found_out, 1)
        self.assertEqual(bench.submit(self.maker.block(block_id(first), extra=b"p"), NOW), "accepted")
        self.assertEqual(bench.found_out, 2)
        # Taking it back wants nothing new.
        bench.invalidate(block_id(first))
        self.assertEqual(bench.found_out, 2)

    def test_under_the_table_each_reply_is_the_same(self):
        script = pay_to_key(KEYS[0])
        bench = self.mined(script)
        tx = spend(self.coin(), 0, 5000000000, b"")
        for place in (1, 0):
            wrong = with_script(tx, 0, *signed(SECP, SECRETS[place : place + 1], tx, 0, script))
            bench.try_submit(self.maker.block(bench.best(), [wrong], extra=bytes([place])), NOW)
        with Chainstate(table=bench.table) as chain:
            for entry in bench.journal:
                self.assertEqual(chain.try_submit(bench.block(entry.id), entry.now).text, entry.reply)
            self.assertEqual(chain.best(), bench.best())
        self.assertEqual(bench.journal[-2].reply, "blk-bad-inputs 1:0")

    def test_a_table_to_begin_with(self):
        script = pay_to_key(KEYS[0])
        first = self.mined(script)
        tx = spend(self.coin(), 0, 5000000000, b"")
        block = self.maker.block(first.best(), [with_script(tx, 0, *signed(SECP, SECRETS[:1], tx, 0, script))])
        first.submit(block, NOW)
        with Bench(table=b"# a comment\n\n" + first.table.rstrip()) as bench:
            for data in (*self.blocks, block):
                self.assertEqual(bench.submit(data, NOW), "accepted")
            self.assertEqual(bench.rounds, 0)

    def test_a_block_without_work_runs_no_script(self):
        script = pay_to_key(KEYS[0])
        bench = self.mined(script)
        tx = spend(self.coin(), 0, 5000000000, b"")
        block = self.maker.block(bench.best(), [with_script(tx, 0, *signed(SECP, SECRETS[:1], tx, 0, script))])
        # The first number of a header whose id is above the limit.
        headers = (block[:76] + nonce.to_bytes(4, "little") for nonce in range(100))
        header = next(header for header in headers if c.double_sha(header)[-1] > 0x7F)
        self.assertEqual((bench.try_submit(header + block[80:], NOW).text, bench.rounds), ("high-hash", 0))


if __name__ == "__main__":
    unittest.main()
