"""What scripts will ask for, guessed, beside what the library asks for; and how many rounds a Bench needs. SEED names
another seed, COUNT how many inputs."""

import hashlib
import os
import random
import sys
import unittest

sys.path.append(os.path.join(os.path.dirname(os.path.abspath(__file__)), "..", "..", "..", "tests", "vectors"))

from play import pairs

from blocks import NOW, Maker, block_id, spend, with_script
from test_bench import KEYS, SECP, SECRETS, multisig, pay_to_script
from test_consensus import signature_scripts
from wakotehu import Bench, ahead, consensus as c
from wakotehu.encoding import Input, Output, Transaction, push, read_transaction, signature_digest, write_transaction

SEED = int(os.environ.get("SEED", random.randrange(1 << 32)))
COUNT = int(os.environ.get("COUNT", 10000)) // 10
ALL = ahead.Flags(True, True, True)


def setUpModule():
    print(f"seed {SEED}", flush=True)


class AskedTest(unittest.TestCase):
    """Both ask for the same signatures, whatever is valid."""

    def asked_by_the_library(self, raw, input, spent, flags, verdict):
        names = [name for name, on in zip(("DERSIG", "CLTV", "CSV"), flags) if on]
        lines, found = {True: [], False: []}, []
        while True:
            told = c.verify_known(raw, input, spent, names, b"".join(lines[True]), b"".join(lines[False]))
            if isinstance(told, bool):
                return found
            found.append(told)
            lines[verdict(told)].append(told.line)

    def same(self, raw, input, spent, flags, salt):
        def verdict(triple):
            # Most are valid, or few are, or half of them.
            return hashlib.sha256(salt + triple.line).digest()[0] < (230, 30, 128)[salt[0] % 3]

        one = ahead.Asking(ahead._Signing(raw, read_transaction(raw)), input, spent, flags)
        asked = ahead.found_out([one], {}, lambda triples: list(map(verdict, triples)))
        expected = self.asked_by_the_library(raw, input, spent, flags, verdict)
        self.assertEqual(asked, expected, (SEED, raw.hex(), spent.hex(), flags, salt))
        return len(asked)

    def spender(self, rng, own):
        """A transaction with this script in one of its inputs, and which."""
        inputs = [Input(rng.randbytes(32), rng.randrange(9), rng.randbytes(rng.choice((0, 9, 300))), rng.randrange(1 << 32))
                  for _ in range(rng.randrange(1, 4))]  # fmt: skip
        place = rng.randrange(len(inputs))
        inputs[place] = inputs[place]._replace(script=own)
        outputs = [Output(rng.randrange(99), rng.randbytes(rng.randrange(9))) for _ in range(rng.randrange(1, 4))]
        return write_transaction(Transaction(rng.choice((1, 2)), inputs, outputs, rng.randrange(1 << 32))), place

    def test_signatures_of_all_kinds(self):
        rng, most = random.Random(SEED), 0
        for _ in range(COUNT):
            own, spent = signature_scripts(rng)
            raw, place = self.spender(rng, own)
            most = max(most, self.same(raw, place, spent, ahead.Flags(*rng.choices((True, False), k=3)), rng.randbytes(4)))
        self.assertGreater(most, 5)

    def test_any_opcodes(self):
        """Numbers, keys and signatures go in, and opcodes of all kinds come, most of which meet what they need."""
        rng, many = random.Random(SEED + 1), 0
        signature = bytes.fromhex("3006020101020101") + b"\1"
        parts = [bytes([n]) for n in (*range(0x4F, 0xBA), *range(0x6B, 0x7E), *range(0x87, 0xA6), *[0x51, 0x52] * 9)]
        ends = (b"\xac", b"\xad", b"\xac\x69")
        checks = [push(signature) + push(b"\2" + bytes([n])) + end for n in range(3) for end in ends]
        checks += [b"\0" + push(signature) + b"\x51" + push(b"\3") + push(b"\4") + b"\x52\xae", b"\x6e\xac", b"\xab"]
        for _ in range(2 * COUNT):
            given = (b"\0", b"\x51", b"\x52", b"\x53", b"\x02\x05\x81", push(signature))
            own = b"".join(rng.choice(given) for _ in range(6))
            spent = b"".join(rng.choice(checks if rng.randrange(3) == 0 else parts) for _ in range(rng.randrange(1, 14)))
            raw, place = self.spender(rng, own)
            many += self.same(raw, place, spent, ahead.Flags(*rng.choices((True, False), k=3)), rng.randbytes(4)) > 1
        self.assertGreater(many, COUNT // 50)

    def test_the_vectors(self):
        for pair in pairs():
            forced = ahead.Flags("DERSIG" in pair.flags, "CLTV" in pair.flags, "CSV" in pair.flags)
            for salt in (b"\0", b"\1", b"\2"):
                self.same(pair.tx, pair.input, pair.spent, forced, salt)

    def test_wrong_guesses_cost_no_more_than_right_ones(self):
        """Of scripts whose way hangs on each verdict few signatures are tested that aren't asked for."""
        signature = push(bytes.fromhex("3006020101020101") + b"\1")
        # A key is a hash of the one before, and the verdict says which: DUP, the signature, SWAP, CHECKSIG, IF,
        # SHA256, ELSE, RIPEMD160, ENDIF.
        spent = push(b"\2") + (b"\x76" + signature + b"\x7c\xac\x63\xa8\x67\xa6\x68") * 25
        raw, _ = self.spender(random.Random(3), b"")
        for salt in range(40):
            tested = []

            def test(triples):
                tested.extend(triples)
                return [bool(hashlib.sha256(bytes([salt]) + triple.line).digest()[0] & 1) for triple in triples]

            one = ahead.Asking(ahead._Signing(raw, read_transaction(raw)), 0, spent, ALL)
            asked = ahead.found_out([one], {}, test)
            self.assertEqual(len(asked), 25)
            self.assertLess(len(tested), 100)

    def test_limits(self):
        """At Bitcoin Core's limits and behind them."""
        check = push(bytes.fromhex("3006020101020101") + b"\1") + b"\x51\xac"
        for spent in (
            b"\x61" * 200 + check, b"\x61" * 201 + check, b"\x51" * 998 + check, b"\x51" * 999 + check,
            b"\x4d\x08\x02" + bytes(520) + check, b"\x4d\x09\x02" + bytes(521) + check, check + b"\x05", check + b"\x63",
            (b"\x4d\x08\x02" + bytes(520)) * 19 + check, (b"\x4d\x08\x02" + bytes(520)) * 20 + check,
            b"\0" + check[:-2] + b"\x51" + b"\x51" * 20 + b"\x01\x14\xae",
            b"\0" + check[:-2] + b"\x51" + b"\x51" * 21 + b"\x01\x15\xae",
            b"\x61" * 181 + b"\0" + check[:-2] + b"\x51" + b"\x51" * 20 + b"\x01\x14\xae",
            b"\x61" * 180 + b"\0" + check[:-2] + b"\x51" + b"\x51" * 20 + b"\x01\x14\xae",
        ):  # fmt: skip
            raw, place = self.spender(random.Random(3), b"")
            for salt in (b"\0", b"\1"):
                self.same(raw, place, spent, ALL, salt)


class RoundsTest(unittest.TestCase):
    """However many signatures a script asks for, and whichever are valid, they are found out in one round."""

    def mined(self, script):
        """A bench, and a transaction with three outputs that this script spends."""
        self.maker, bench = Maker(), Bench()
        self.addCleanup(bench.close)
        blocks = self.maker.chain(101)
        made = spend(self.maker.coinbases[block_id(blocks[0])].id, 0, 1, b"")._replace(outputs=[Output(9, script)] * 3)
        for block in [*blocks, self.maker.block(block_id(blocks[-1]), [made])]:
            bench.submit(block, NOW)
        return bench, made

    def in_a_row(self):
        """60 keys, each with a signature of what follows a code separator, and an input that has them."""
        script = (push(KEYS[0]) + b"\xad\xab") * 60 + b"\x51"

        def own(tx, wrong=None):
            signed = []
            for place in range(60):
                digest = signature_digest(tx, 0, script[place * (len(push(KEYS[0])) + 2) :], 1)
                signed.append(SECP.sign(SECRETS[place == wrong], digest) + b"\1")
            return with_script(tx, 0, *signed[::-1])

        return script, own

    def test_60_in_a_row(self):
        script, own = self.in_a_row()
        bench, made = self.mined(script)
        tip = bench.best()
        bad = own(spend(made.id, 0, 1, b""), wrong=30)
        self.assertEqual(bench.try_submit(self.maker.block(tip, [bad], extra=b"w"), NOW).text, "blk-bad-inputs 1:0")
        # No signature behind the wrong one was asked for.
        self.assertEqual((bench.rounds, bench.found_out, len(bench.table.splitlines())), (1, 31, 30))
        good = [own(spend(made.id, n, 1, b"")) for n in range(3)]
        self.assertEqual(bench.submit(self.maker.block(tip, good), NOW), "accepted")
        # The 30 signatures before the wrong one are known already.
        self.assertEqual((bench.rounds, bench.found_out), (2, 31 + 180 - 30))

    def test_60_that_are_not_valid(self):
        script = push(KEYS[0]) + b"\x6e\xac\x75\xab" * 49 + b"\x6d\x51"
        bench, made = self.mined(script)
        txs = [with_script(spend(made.id, n, 1, b""), 0, SECP.sign(SECRETS[1], bytes(32)) + b"\1") for n in range(3)]
        self.assertEqual(bench.submit(self.maker.block(bench.best(), txs), NOW), "accepted")
        self.assertEqual((bench.rounds, bench.found_out, bench.table), (1, 147, b""))

    def test_signatures_in_the_script_that_is_spent(self):
        signature = push(SECP.sign(SECRETS[1], bytes(32)) + b"\1") + push(KEYS[0])
        bench, made = self.mined(signature + b"\x6e\xac\x75\xab" * 49 + b"\x6d\x51")
        txs = [spend(made.id, n, 1, b"") for n in range(3)]
        self.assertEqual(bench.submit(self.maker.block(bench.best(), txs), NOW), "accepted")
        self.assertEqual((bench.rounds, bench.found_out), (1, 147))

    def test_inputs_that_look_as_if_they_paid_to_a_hash(self):
        """They are passed over once."""
        bench, made = self.mined(b"\x6e\xac\x75\xab" * 49 + b"\x6d\x51")
        signature = SECP.sign(SECRETS[1], bytes(32)) + b"\1"
        txs = [with_script(spend(made.id, n, 1, b""), 0, signature, KEYS[0]) for n in range(3)]
        self.assertEqual(bench.submit(self.maker.block(bench.best(), txs), NOW), "accepted")
        self.assertEqual((bench.rounds, bench.found_out), (2, 147))

    def test_a_branch_that_comes_at_once(self):
        """The scripts of several blocks, which are run when the last of them comes or a mark is taken."""
        script, own = self.in_a_row()
        bench, made = self.mined(script)
        tip = bench.best()
        first = self.maker.block(tip, [own(spend(made.id, 0, 1, b""))], extra=b"a")
        second = self.maker.block(block_id(first), [own(spend(made.id, 1, 1, b""))], extra=b"a")
        other = self.maker.chain(1, tip, extra=b"o")
        self.assertEqual([bench.submit(block, NOW) for block in (*other, first)], ["accepted", "inconclusive"])
        self.assertEqual(bench.submit(second, NOW), "accepted")
        self.assertEqual((bench.rounds, bench.found_out), (2, 120))
        third = self.maker.block(block_id(other[0]), [own(spend(made.id, 2, 1, b""))], extra=b"b")
        self.assertEqual(bench.submit(third, NOW), "inconclusive")
        bench.precious(block_id(third))
        self.assertEqual((bench.best(), bench.rounds, bench.found_out), (block_id(third), 3, 180))

    def test_several_keys_by_script_hash(self):
        secrets = [bytes([n]) * 32 for n in range(1, 16)]
        keys = [SECP.public_key(secret) for secret in secrets]
        redeem = multisig(8, keys)
        bench, made = self.mined(pay_to_script(redeem))
        for n, signers in enumerate((range(8), range(7, 15), range(0, 15, 2))):
            tx = spend(made.id, n, 1, b"")
            digest = signature_digest(tx, 0, redeem, 1)
            pushed = [SECP.sign(secrets[place], digest) + b"\1" for place in signers]
            block = self.maker.block(bench.best(), [with_script(tx, 0, *pushed, redeem, begins=b"\0")])
            self.assertEqual(bench.submit(block, NOW), "accepted")
            self.assertEqual(bench.rounds, n + 1)

    def test_outputs_of_the_same_block(self):
        script, own = self.in_a_row()
        bench, made = self.mined(b"\x51")
        first = spend(made.id, 0, 9, b"", to=script)
        block = self.maker.block(bench.best(), [first, own(spend(first.id, 0, 1, b""))])
        self.assertEqual(bench.submit(block, NOW), "accepted")
        self.assertEqual(bench.rounds, 1)


if __name__ == "__main__":
    unittest.main()
