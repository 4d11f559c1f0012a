"""Which signatures are valid: by several threads, by one, and without the library for that. The verdicts, replies and
tables are the same, whatever goes wrong."""

import copy
import hashlib
import os
import pickle
import random
import threading
import time
import unittest
from unittest import mock

from bitcoin.core.key import CPubKey

from blocks import NOW, Maker, block_id, with_script
from wakotehu import Bench, Closed, consensus, signatures
from wakotehu.consensus import Triple
from wakotehu.encoding import Input, Output, Transaction, push, write_transaction
from wakotehu.library import secp256k1_library
from wakotehu.signatures import Secp256k1, Verifier

SECP = Secp256k1()
SECRETS = [bytes([number]) * 32 for number in range(1, 9)]
ORDER = 0xFFFFFFFFFFFFFFFFFFFFFFFFFFFFFFFEBAAEDCE6AF48A03BBFD25E8CD0364141


def by_ctypes(made):
    """What is made where the library that tests signatures isn't there."""
    with mock.patch.object(signatures, "secp256k1_library", lambda: None):
        return made()


def digest(number):
    return hashlib.sha256(b"%d" % number).digest()


def spelled(*numbers, long=False):
    """Numbers as a signature: strictly, or as BIP 66 refuses them, with zeros in front and lengths of two bytes."""
    body = b""
    for number in numbers:
        data = bytes(3) * long + number.to_bytes(number.bit_length() // 8 + 1, "big")
        body += b"\x02" + b"\x81" * long + bytes([len(data)]) + data
    return b"\x30" + b"\x81" * long + bytes([len(body)]) + body


def numbers(signature):
    """The two numbers of a strict signature."""
    length = signature[3]
    return int.from_bytes(signature[4 : 4 + length], "big"), int.from_bytes(signature[6 + length :], "big")


def triples(dice, count):
    """Triples with their verdicts, which are OpenSSL's, by bitcoinlib, or those of how they were made."""
    found = []
    for n in range(count):
        secret, whole = dice.choice(SECRETS), dice.random() < 0.5
        key, made = SECP.public_key(secret, not whole), SECP.sign(secret, digest(n))
        kind = dice.randrange(10)
        if kind < 5:
            # As made, or with another digest, key, or byte.
            changed = [
                Triple(key, made, digest(n)), Triple(key, made, digest(n + 1)),
                Triple(SECP.public_key(dice.choice(SECRETS)), made, digest(n)),
                Triple(key, made[:-1] + bytes([made[-1] ^ 1]), digest(n)),
                Triple(bytes([6 + key[-1] % 2]) + key[1:] if whole else key, made, digest(n)),
            ][kind]  # fmt: skip
            pubkey = CPubKey(changed.key)
            found.append((changed, bool(pubkey.is_fullyvalid and pubkey.verify(changed.digest, changed.signature))))
        elif kind == 5:
            # OpenSSL reads keys of other lengths as none, and so does Bitcoin Core.
            bad = dice.choice([
                b"", key[:-1], key + b"\0", b"\x05" + key[1:], b"\x02" + b"\xff" * 32, dice.randbytes(33),
            ])  # fmt: skip
            pubkey = CPubKey(bad)
            found.append((Triple(bad, made, digest(n)), bool(pubkey.is_fullyvalid and pubkey.verify(digest(n), made))))
        elif kind == 6:
            bad = dice.choice([b"", b"\x30", made[:-1], b"\x31" + made[1:], dice.randbytes(70), bytes(72)])
            found.append((Triple(key, bad, digest(n)), False))
        else:
            # The same numbers spelled longer, the higher number in the place of the lower one, and numbers out of
            # range.
            r, s = numbers(made)
            again, verdict = [
                (spelled(r, s, long=True), True), (spelled(r, ORDER - s, long=dice.random() < 0.5), True),
                (spelled(*dice.choice([(0, s), (r, 0), (r + 2**256, s), (r, s + ORDER), (ORDER, s)])), False),
            ][kind - 7]  # fmt: skip
            found.append((Triple(key, again, digest(n)), verdict))
    return found


def lines(triples):
    return [triple.line.rstrip() for triple in triples]


def mutated(dice, data):
    """The bytes with some changed, taken out, put in, or all behind a place cut off."""
    data = bytearray(data)
    for _ in range(dice.choice([1, 1, 2, 3])):
        at, kind = dice.randrange(len(data) + 1), dice.randrange(6)
        if kind == 0:
            data[at : at + 1] = dice.randbytes(1)
        elif kind == 1:
            data[at : at + 1] = bytes([data[at] ^ 1 << dice.randrange(8)]) if at < len(data) else b""
        elif kind == 2:
            del data[at : at + dice.choice([1, 2, 30])]
        elif kind == 3:
            data[at:at] = dice.choice([b"\0", b"\x80", b"\x81", b"\xff", b"\0" * 20, dice.randbytes(3)])
        elif kind == 4:
            # In front, where lengths and tags stand.
            at = dice.choice([0, 1, 2, 3, 4, 35, 36, 37, 38, 39])
            data[at : at + 1] = dice.randbytes(1)
        elif dice.random() < 0.2:
            del data[at:]
    return bytes(data)


class VerdictsTest(unittest.TestCase):
    def setUp(self):
        self.assertIsNotNone(secp256k1_library(), "libwakotehu-secp256k1 isn't there: has ffi/build made it?")

    def test_verdicts_are_right_for_any_number_of_threads(self):
        dice = random.Random(5)
        made = triples(dice, 600)
        self.assertGreater(sum(valid for _, valid in made), 150)
        self.assertGreater(sum(not valid for _, valid in made), 150)
        for verifier in (*map(Verifier, (1, 2, 3, 8, 1000)), by_ctypes(Verifier)):
            for count in (0, 1, 7, 8, 40, 600):
                some = dice.sample(made, count)
                with self.subTest(threads=verifier.threads, count=count):
                    self.assertEqual(verifier.verdicts(lines(it for it, _ in some)), [valid for _, valid in some])

    def test_changed_signatures_are_read_as_by_python(self):
        dice, slow, fast = random.Random(6), by_ctypes(Verifier), Verifier(4)
        self.assertIsNone(slow._library)
        self.assertIsNone(fast._secp)
        asked, read = [], 0
        for n in range(6000):
            secret = dice.choice(SECRETS)
            key, made = SECP.public_key(secret, dice.random() < 0.5), SECP.sign(secret, digest(n))
            if dice.random() < 0.5:
                made = spelled(*numbers(made), long=True)
            if dice.random() < 0.9:
                made = mutated(dice, made)
            else:
                key = mutated(dice, key)
            asked.append(Triple(key, made, digest(n)))
            read += signatures.read_signature(made) is not None
        found = slow.verdicts(lines(asked))
        self.assertEqual(fast.verdicts(lines(asked)), found)
        # Many are read and aren't valid, many are valid all the same, and many can't be read.
        self.assertGreater(sum(found), 300)
        self.assertGreater(read - sum(found), 1000)
        self.assertGreater(len(asked) - read, 1000)

    def test_bytes_of_any_kind(self):
        dice, asked = random.Random(7), []
        for _ in range(2000):
            key, signature = (dice.randbytes(dice.choice([0, 1, 33, 65, 72, 520])) for _ in range(2))
            asked.append(Triple(key, b"\x30" * dice.randrange(2) + signature, dice.randbytes(32)))
        self.assertEqual(Verifier(4).verdicts(lines(asked)), [False] * 2000)
        self.assertEqual(by_ctypes(Verifier).verdicts(lines(asked)), [False] * 2000)

    def test_by_default_there_is_one_for_each_processor(self):
        for count in (1, 3, 4):
            with mock.patch.object(os, "sched_getaffinity", lambda _: set(range(count))):
                self.assertEqual(Verifier(None).threads, count)
        with mock.patch.object(os, "sched_getaffinity", lambda _: set(range(100))):
            self.assertEqual(Verifier(None).threads, signatures.MOST_THREADS)
        with mock.patch.object(os, "sched_getaffinity", side_effect=AttributeError):
            for count, threads in ((None, 1), (1, 1), (2, 2)):
                with mock.patch.object(os, "cpu_count", lambda: count):
                    self.assertEqual(Verifier(None).threads, threads)
        for threads in (0, -1, 2**31):
            with self.assertRaises(ValueError):
                Verifier(threads)

    def test_lines_that_cannot_be_read(self):
        good = [it.line.rstrip() for it, _ in triples(random.Random(8), 20)]
        for bad in (b"", b"x", b"- -", good[0][:-1], good[0] + b"0", good[0].upper()):
            for count in (0, 20):
                with self.assertRaises(ValueError):
                    Verifier(4).verdicts([*good[:count], bad])

    def test_a_forked_process(self):
        made = triples(random.Random(9), 60)
        asked, valid = lines(it for it, _ in made), [verdict for _, verdict in made]
        verifier = Verifier(4)
        self.assertEqual(verifier.verdicts(asked), valid)
        child = os.fork()
        if child == 0:
            good = False
            try:
                good = all(verifier.verdicts(asked) == valid for _ in range(100))
            finally:
                os._exit(0 if good else 1)
        ends = time.monotonic() + 60
        while True:
            ended, status = os.waitpid(child, os.WNOHANG)
            if ended or time.monotonic() > ends:
                break
            time.sleep(0.01)
        if not ended:
            os.kill(child, 9)
            os.waitpid(child, 0)
        self.assertEqual((ended, status), (child, 0))
        self.assertEqual(verifier.verdicts(asked), valid)

    def test_threads_of_python_ask_at_once(self):
        made = triples(random.Random(10), 60)
        asked, valid = lines(it for it, _ in made), [verdict for _, verdict in made]
        verifier, wrong = Verifier(3), []

        def ask():
            wrong.extend(n for n in range(50) if verifier.verdicts(asked) != valid)

        callers = [threading.Thread(target=ask) for _ in range(4)]
        for caller in callers:
            caller.start()
        for caller in callers:
            caller.join()
        self.assertEqual(wrong, [])

    def test_without_libsecp256k1_it_is_named(self):
        with mock.patch.object(signatures.ctypes.util, "find_library", lambda _: None):
            with self.assertRaisesRegex(OSError, "libsecp256k1-dev"):
                by_ctypes(Verifier)


    def test_an_unusable_libsecp256k1_is_named(self):
        """A library of that name which lacks its calls."""
        with mock.patch.object(signatures.ctypes.util, "find_library", lambda _: "libc.so.6"):
            for make in (Verifier, Bench):
                with self.assertRaisesRegex(OSError, "libsecp256k1 can't be used: .*secp256k1_context_create"):
                    by_ctypes(make)


class BlocksTest(unittest.TestCase):
    """Benches of several threads, and one without the library, beside one of one thread, over the same blocks."""

    def setUp(self):
        self.benches = [*(Bench(threads=threads) for threads in (1, 2, 5)), by_ctypes(Bench)]
        for bench in self.benches:
            self.addCleanup(bench.close)
        self.key = SECP.public_key(SECRETS[0])
        self.script = b"\x76\xa9" + push(consensus.hash160(self.key)) + b"\x88\xac"
        self.maker = Maker(self.script)
        self.blocks = self.maker.chain(140)
        for block in self.blocks:
            self.submit(block)

    def submit(self, block):
        """What all benches answer."""
        told = {bench.try_submit(block, NOW).text for bench in self.benches}
        self.assertEqual(len(told), 1)
        return told.pop()

    def block(self, wrong, value):
        """A block of 40 inputs, these of which are signed wrongly: by another key, over another digest, or both."""
        coins = [self.maker.coinbases[block_id(block)].id for block in self.blocks[:40]]
        spends = [Input(id, 0, b"", 0xFFFFFFFF) for id in coins]
        tx = Transaction(1, spends, [Output(value, self.script)], 0)
        ready, self.digests = write_transaction(tx), []
        for place in range(40):
            made = consensus.signature_digest(ready, place, self.script, 1)
            self.digests.append(made.hex().encode())
            secret, made = (SECRETS[0], made) if place not in wrong else (
                (SECRETS[1], made), (SECRETS[0], digest(place)), (SECRETS[1], digest(place)))[place % 3]  # fmt: skip
            tx = with_script(tx, place, SECP.sign(secret, made) + b"\x01", self.key)
        return self.maker.block(self.benches[0].best(), [tx], extra=value.to_bytes(4, "little"))

    def test_replies_rounds_and_tables_are_those_of_one_thread(self):
        dice = random.Random(13)
        for number in range(12):
            wrong = dice.sample(range(40), dice.choice([1, 2, 10, 40])) if number < 11 else []
            told = self.submit(self.block(wrong, 10**6 + number))
            self.assertEqual(told, f"blk-bad-inputs 1:{min(wrong)}" if wrong else "accepted")
        one = self.benches[0]
        self.assertGreater(one.found_out, 400)
        for bench in self.benches[1:]:
            self.assertEqual((bench.rounds, bench.found_out), (one.rounds, one.found_out))
            self.assertEqual((bench.table, bench.tips(), bench.journal), (one.table, one.tips(), one.journal))
        # The lines stand in the order in which scripts asked, the order of the last block's inputs.
        self.assertEqual([line.split()[2] for line in one.table.splitlines()[-40:]], self.digests)

    def test_what_goes_wrong_changes_nothing(self):
        block = self.block([], 10**6)
        for bench in self.benches:
            before = bench.best(), bench.tips(), bench.table, bench.found_out
            with mock.patch.object(bench._verifier, "verdicts", side_effect=MemoryError("odd")):
                with self.assertRaisesRegex(MemoryError, "odd"):
                    bench.submit(block, NOW)
            self.assertEqual((bench.best(), bench.tips(), bench.table, bench.found_out), before)
        self.assertEqual(self.submit(block), "accepted")
        self.assertEqual(len({bench.table for bench in self.benches}), 1)

    def test_after_closing(self):
        self.submit(self.block([], 10**6))
        for bench in self.benches:
            bench.close()
            bench.close()
            with self.assertRaises(Closed):
                bench.submit(self.blocks[0], NOW)

    def test_they_are_neither_copied_nor_pickled(self):
        self.submit(self.block([], 10**6))
        for bench in self.benches:
            for call in (copy.copy, copy.deepcopy, pickle.dumps):
                self.assertRaises(TypeError, call, bench)
        self.assertEqual(self.submit(self.blocks[0]), "duplicate")


if __name__ == "__main__":
    unittest.main()
