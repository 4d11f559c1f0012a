"""The rules as calls, beside python3-bitcoinlib on random inputs. SEED names another seed, COUNT how many inputs."""

import doctest
import hashlib
import os
import random
import unittest
from typing import Dict, List, Tuple

import bitcoin
from bitcoin.core import (
    CBlock, CBlockHeader, CheckProofOfWork, CheckProofOfWorkError, CheckTransaction, CheckTransactionError, COutPoint,
    CTransaction, CTxIn, CTxOut, Hash, Hash160, b2lx, lx, x,
)  # fmt: skip
from bitcoin.core._bignum import bn2vch, vch2bn
from bitcoin.core.contrib.ripemd160 import ripemd160
from bitcoin.core.script import CScript, CScriptInvalidError, RawSignatureHash
from bitcoin.core.scripteval import SCRIPT_VERIFY_P2SH, VerifyScript, VerifyScriptError, EvalScriptError
from bitcoin.core.serialize import compact_from_uint256, uint256_from_compact

from wakotehu import consensus as c, encoding as e
from wakotehu.errors import BadTable

SEED = int(os.environ.get("SEED", random.randrange(1 << 32)))
COUNT = int(os.environ.get("COUNT", 10000))


def transaction(rng: random.Random) -> CTransaction:
    """With scripts without the byte of a code separator, which the two programs look for in different ways."""
    def script() -> CScript:
        return CScript(bytes(b for b in rng.randbytes(rng.randrange(40)) if b != 0xAB))

    return CTransaction(
        [CTxIn(COutPoint(rng.randbytes(32), rng.randrange(1 << 32)), script(), rng.randrange(1 << 32))
         for _ in range(rng.randrange(1, 5))],
        [CTxOut(rng.randrange(1 << 50), script()) for _ in range(rng.randrange(1, 5))],
        rng.randrange(1 << 32), rng.randrange(-(1 << 31), 1 << 31),
    )  # fmt: skip


def opcodes(rng: random.Random) -> bytes:
    """Any opcodes and pushes; a few end in the middle of a push."""
    parts = []
    for _ in range(rng.randrange(8)):
        number = rng.choice((rng.randrange(256), 0xAC, 0xAE, 0x51, 0x60, 0x4C, 0x4D))
        length = number if number < 0x4C else rng.randrange(300) if number < 0x4E else 0
        length = min(length, 255) if number == 0x4C else length
        said = length.to_bytes(number - 0x4B, "little") if number in (0x4C, 0x4D) else b""
        parts.append(bytes([number]) + said + rng.randbytes(length))
    whole = b"".join(parts)
    return whole[: rng.randrange(len(whole) + 1)] if rng.randrange(8) == 0 else whole


def push(data: bytes) -> bytes:
    assert len(data) < 256
    return (b"\x4c" if len(data) > 75 else b"") + bytes([len(data)]) + data


def signature_scripts(rng: random.Random) -> Tuple[bytes, bytes]:
    """An input's script and one that it spends, with signatures of all hash types: CHECKSIG, or CHECKMULTISIG of up to 20
    keys, some of them the same; behind code separators or none; by a script's hash or itself."""
    def signature() -> bytes:
        return bytes.fromhex("30060201") + bytes([rng.randrange(4)]) + b"\x02\x01\x01" + bytes([rng.randrange(256)])

    def number(n: int) -> bytes:
        return bytes([0x50 + n]) if 1 <= n <= 16 else push(bytes([n] if n else []))

    keys = [b"\2" + bytes([rng.randrange(6)]) for _ in range(rng.randrange(1, 21))]
    own, code = b"", b""
    for _ in range(rng.randrange(1, 4)):
        code += rng.choice((b"", b"", b"\xab"))
        if rng.randrange(2):
            own = rng.choice((push(signature()), push(signature()), b"\0")) + own
            code += push(rng.choice(keys)) + rng.choice((b"\xad", b"\xac\x69", b"\xac\x91\x69", b"\xac\x75"))
        else:
            signatures = [signature() for _ in range(rng.randrange(min(len(keys), 4) + 1))]
            own = b"\0" + b"".join(map(push, signatures)) + own
            listed = keys if rng.randrange(2) else keys[: max(1, len(signatures))]
            code += number(len(signatures)) + b"".join(map(push, listed)) + number(len(listed))
            code += rng.choice((b"\xaf", b"\xae\x69", b"\xae\x91\x69", b"\xae\x75"))
    code += b"\x51"
    if len(code) < 256 and rng.randrange(2):
        return own + push(code), b"\xa9\x14" + c.hash160(code) + b"\x87"
    return own, code


def setUpModule() -> None:
    print(f"seed {SEED}", flush=True)
    bitcoin.SelectParams("regtest")


class BesideBitcoinlib(unittest.TestCase):
    def test_ids_and_digests(self) -> None:
        rng = random.Random(SEED)
        for n in range(COUNT):
            tx = transaction(rng)
            raw, place, kind = tx.serialize(), rng.randrange(len(tx.vin)), n % 256
            code = CScript(b"\x76\xa9\x14" + rng.randbytes(20).replace(b"\xab", b"\0") + b"\x88\xac")
            told = c.transaction(raw + rng.randbytes(rng.randrange(3)))
            self.assertEqual((told.id, told.size), (tx.GetTxid(), len(raw)))
            self.assertEqual((told.inputs, told.outputs), (len(tx.vin), len(tx.vout)))
            expected = RawSignatureHash(code, tx, place, kind)[0]
            self.assertEqual(c.signature_digest(raw, place, code, kind), expected, (SEED, n))
            self.assertEqual(c.double_sha(raw), Hash(raw))

    def test_digests_of_codes_with_separators(self) -> None:
        """They are no part of what is signed. Bytes of that number that are pushed are."""
        rng, separated = random.Random(SEED + 9), 0
        parts = [b"\xab", b"\xab\xab", b"\x51", b"\xac", b"\x02\xab\xab", b"\x4c\x01\xab", b"\x4d\x01\x00\xab", b"\x6a"]
        for n in range(COUNT // 4):
            tx = transaction(rng)
            raw, place, kind = tx.serialize(), rng.randrange(len(tx.vin)), rng.choice((1, 2, 3, 0x81, rng.randrange(1 << 32)))
            code = b"".join(rng.choice(parts) for _ in range(rng.randrange(12)))
            expected = RawSignatureHash(CScript(code), tx, place, kind & 0xFF)[0] if kind < 256 else None
            found = c.signature_digest(raw, place, code, kind)
            self.assertEqual(found, e.signature_digest(e.read_transaction(raw), place, code, kind), (SEED, n))
            if expected is not None:
                self.assertEqual(found, expected, (SEED, n, code.hex(), kind))
            left = e.without_separators(code)
            self.assertEqual(found, c.signature_digest_as_given(raw, place, left, kind), (SEED, n))
            if left != code and found != (1).to_bytes(32, "little"):
                self.assertNotEqual(found, c.signature_digest_as_given(raw, place, code, kind), (SEED, n))
                separated += 1
        self.assertGreater(separated, COUNT // 10)

    def test_parts_read_and_written(self) -> None:
        rng = random.Random(SEED + 1)
        for n in range(COUNT):
            tx = transaction(rng)
            raw = tx.serialize()
            found = c.transaction_parts(raw + rng.randbytes(rng.randrange(3)))
            inputs = [(i.prevout.hash, i.prevout.n, bytes(i.scriptSig), i.nSequence) for i in tx.vin]
            self.assertEqual([(i.id, i.index, i.script, i.sequence) for i in found.inputs], inputs, (SEED, n))
            outputs = [(o.nValue, bytes(o.scriptPubKey)) for o in tx.vout]
            self.assertEqual([(o.value, o.script) for o in found.outputs], outputs, (SEED, n))
            self.assertEqual((found.version, found.lock_time), (tx.nVersion, tx.nLockTime))
            self.assertEqual(c.write_transaction(found), raw, (SEED, n))

    def test_rules_of_a_transaction(self) -> None:
        """Both say of a transaction whether it breaks a rule by itself, and both know one of each kind."""
        rng, reasons = random.Random(SEED + 2), set()
        values = (0, 1, 21 * 10**14, 21 * 10**14 + 1, -1, 10**15)
        points = [COutPoint(b"\7" * 32, n) for n in range(3)] + [COutPoint()]
        for n in range(COUNT):
            scripts = [CScript(bytes(rng.choice((1, 2, 100, 101)))) for _ in range(rng.randrange(1, 3))]
            ins = [CTxIn(rng.choice(points), script) for script in scripts]
            outs = [CTxOut(rng.choice(values), CScript(b"")) for _ in range(rng.randrange(3))]
            tx = CTransaction(ins, outs)
            found = c.transaction(tx.serialize())
            try:
                CheckTransaction(tx)
                expected = True
            except CheckTransactionError:
                expected = False
            self.assertEqual(found.reason == "", expected, (SEED, n, found))
            self.assertEqual(found.coinbase, tx.is_coinbase())
            reasons.add(found.reason)
        self.assertEqual(len(reasons), 8, reasons)

    def test_blocks(self) -> None:
        rng = random.Random(SEED + 3)
        for n in range(COUNT):
            txs = [transaction(rng) for _ in range(rng.randrange(1, 4))]
            made = CBlock(
                rng.randrange(-(1 << 31), 1 << 31), rng.randbytes(32), bytes(32), rng.randrange(1 << 32),
                0x207FFFFF, rng.randrange(1 << 32), txs,
            )  # fmt: skip
            raw, after = made.serialize(), rng.randbytes(rng.randrange(3))
            found = c.block(raw)
            self.assertEqual((found.id, found.merkle), (made.GetHash(), made.calc_merkle_root()), (SEED, n))
            self.assertEqual((found.parent, found.root), (made.hashPrevBlock, made.hashMerkleRoot))
            fields = (made.nVersion, made.nTime, made.nBits, made.nNonce, len(raw))
            self.assertEqual((found.version, found.time, found.bits, found.nonce, found.size), fields)
            self.assertEqual(c.block_ids(raw), [tx.GetTxid() for tx in txs], (SEED, n))
            self.assertEqual(c.block_size(raw + after), len(raw))
            try:
                CheckProofOfWork(made.GetHash(), 0x207FFFFF)
                expected = True
            except CheckProofOfWorkError:
                expected = False
            self.assertEqual((found.target, c.meets_target(found.id)), (expected, expected))

    def test_headers(self) -> None:
        rng = random.Random(SEED + 10)
        for n in range(COUNT):
            made = CBlockHeader(
                rng.randrange(-(1 << 31), 1 << 31), rng.randbytes(32), rng.randbytes(32), *(rng.randrange(1 << 32) for _ in range(3))
            )  # fmt: skip
            raw = made.serialize()
            found = c.header(raw)
            self.assertEqual((found.id, found.parent, found.root), (made.GetHash(), made.hashPrevBlock, made.hashMerkleRoot))
            fields = made.nVersion, made.nTime, made.nBits, made.nNonce
            self.assertEqual((found.version, found.time, found.bits, found.nonce), fields, (SEED, n))
            other = e.read_header(raw)
            self.assertEqual({name: getattr(other, name) for name in vars(found)}, vars(found), (SEED, n))
        for wrong, fault in ((b"", "short"), (raw[:79], "short"), (raw + b"\0", "extra"), (raw * 2, "extra")):
            with self.assertRaises(c.Refused) as caught:
                c.header(wrong)
            self.assertEqual(caught.exception.fault, fault)

    def test_merkle_roots(self) -> None:
        """Where the last ids are those of a level's odd one, the list that repeats them has the same root (CVE-2012-2459)."""
        rng, twins = random.Random(SEED + 11), 0
        for n in range(COUNT // 10):
            ids = [rng.randbytes(32) for _ in range(rng.randrange(1, 40))]
            part = len(ids) & -len(ids)  # the last ids that some level has as its odd one
            tail = ids[len(ids) - rng.choice((0, part, rng.randrange(len(ids) + 1))) :]
            found = c.merkle(ids + tail)
            self.assertEqual(found, e.merkle(ids + tail), (SEED, n))
            self.assertEqual(found.root, CBlock.build_merkle_tree_from_txids(ids + tail)[-1], (SEED, n))
            self.assertFalse(c.merkle(ids).twin, (SEED, n))
            if part == len(tail) < len(ids):
                self.assertEqual(found, c.merkle(ids)._replace(twin=True), (SEED, n))
                twins += 1
        self.assertGreater(twins, COUNT // 1000)
        self.assertEqual(c.merkle([]), (bytes(32), False))
        # Block 100,000 of the main network.
        ids = [lx(id) for id in (
            "8c14f0db3df150123e6f3dbbf30f8b955a8249b62ac1d1ff16284aefa3d06d87",
            "fff2525b8931402dd09222c50775608f75787bd2b87e56995a7bdd30f79702c4",
            "6359f0868171b1d194cbee1af2f16ea598ae8fad666d9b012c8ed2b79a236ec4",
            "e9a66845e05d5abc0ad04ec80f774a7e585c6e8db975962d069a522137b80c1d",
        )]  # fmt: skip
        root = "f3e94742aca4b5ef85488dc37c06c3282295ffec960994b2c0d5ac2a25a95766"
        self.assertEqual((c.show(c.merkle(ids).root), c.merkle(ids).twin), (root, False))

    def test_bits(self) -> None:
        """bitcoinlib knows neither the sign nor an overflow."""
        rng = random.Random(SEED + 12)
        words = (0, 1, 0x7F, 0x80, 0xFF, 0x100, 0x7FFF, 0x8000, 0xFFFF, 0x10000, 0x7FFFFF)
        edges = [size << 24 | sign | word for size in range(256) for sign in (0, 0x800000) for word in words]
        others = [rng.randrange(38) << 24 | rng.randrange(1 << 24) >> rng.randrange(24) for _ in range(COUNT)]
        for bits in edges + others:
            found = c.read_bits(bits)
            self.assertEqual(found, e.read_bits(bits), (SEED, hex(bits)))
            self.assertEqual(c.work(bits), e.work(bits), (SEED, hex(bits)))
            if not bits & 0x800000:
                value = uint256_from_compact(bits)
                self.assertEqual((found.value, found.overflow), (value % (1 << 256), value >= 1 << 256), (SEED, hex(bits)))
        values = [(1 << n) + less for n in range(256) for less in (-1, 0, 1)] + [(1 << 256) - 1]
        for value in values + [rng.randrange(1 << 256) >> rng.randrange(256) for _ in range(COUNT)]:
            bits = c.write_bits(value)
            self.assertEqual(bits, compact_from_uint256(value), (SEED, hex(value)))
            self.assertEqual(c.write_bits(value, True), e.write_bits(value, True), (SEED, hex(value)))
            self.assertEqual(c.write_bits(c.read_bits(bits).value), bits, (SEED, hex(value)))

    def test_bits_of_bitcoin_core(self) -> None:
        """The values of its own tests (`bignum_SetCompact`), and the work of two genesis blocks."""
        for bits in (0, 0x00123456, 0x01003456, 0x02000056, 0x03000000, 0x04000000, 0x00923456, 0x01803456, 0x02800056,
                     0x03800000, 0x04800000):  # fmt: skip
            self.assertEqual(c.read_bits(bits), (0, False, False), hex(bits))
            self.assertEqual(c.work(bits), 0, hex(bits))
        for bits, value, negative, again in (
            (0x01123456, 0x12, False, 0x01120000), (0x01FEDCBA, 0x7E, True, 0x01FE0000),
            (0x02123456, 0x1234, False, 0x02123400), (0x03123456, 0x123456, False, 0x03123456),
            (0x04123456, 0x12345600, False, 0x04123456), (0x04923456, 0x12345600, True, 0x04923456),
            (0x05009234, 0x92340000, False, 0x05009234), (0x20123456, 0x123456 << 232, False, 0x20123456),
        ):  # fmt: skip
            self.assertEqual(c.read_bits(bits), (value, negative, False), hex(bits))
            self.assertEqual(c.write_bits(value, negative), again, hex(bits))
        self.assertEqual((c.write_bits(0), c.write_bits(0, True), c.write_bits(0x80)), (0, 0, 0x02008000))
        self.assertEqual((c.read_bits(0xFF123456).negative, c.read_bits(0xFF123456).overflow), (False, True))
        self.assertEqual((c.work(0x1D00FFFF), c.work(0x207FFFFF)), (0x100010001, 2))
        self.assertEqual((c.work(0x01010000), c.work(0x1D80FFFF), c.work(0xFF123456)), (1 << 255, 0, 0))

    def test_opcodes_and_kinds(self) -> None:
        """Counts of signature operations are compared plainly alone: bitcoinlib's accurate count fails at a number."""
        rng, cut = random.Random(SEED + 4), 0
        for n in range(COUNT):
            raw = opcodes(rng)
            if rng.randrange(10) == 0:
                raw = b"\xa9\x14" + rng.randbytes(20) + b"\x87"
            script, expected = CScript(raw), []
            found, rest = c.opcodes(raw)
            try:
                for number, data, offset in script.raw_iter():
                    expected.append((offset, int(number), data or b""))
                self.assertEqual(rest, b"")
            except CScriptInvalidError:
                self.assertNotEqual(rest, b"", (SEED, n))
                cut += 1
            self.assertEqual([(op.offset, op.number, op.data) for op in found], expected, (SEED, n, raw.hex()))
            told = c.script(raw)
            self.assertEqual((told.push_only, told.p2sh), (script.is_push_only(), script.is_p2sh()), (SEED, n, raw.hex()))
            self.assertEqual(told.unspendable, script.is_unspendable(), (SEED, n))
            if not rest:
                self.assertEqual(told.plain, script.GetSigOpCount(False), (SEED, n, raw.hex()))
        self.assertGreater(cut, COUNT // 50)

    def test_numbers(self) -> None:
        rng = random.Random(SEED + 5)
        for n in range(COUNT):
            value = rng.randrange(-(1 << 63) + 1, 1 << 63) >> rng.randrange(63)
            self.assertEqual(c.number_bytes(value), bn2vch(value), (SEED, n, value))
            raw = rng.randbytes(rng.randrange(9))
            self.assertEqual(c.read_number(raw, 8), vch2bn(raw), (SEED, n, raw.hex()))
            self.assertEqual(c.read_number(raw) is None, len(raw) > 4)

    def test_hashes_and_texts(self) -> None:
        rng = random.Random(SEED + 6)
        for n in range(COUNT):
            raw, id = rng.randbytes(rng.randrange(150)), rng.randbytes(32)
            self.assertEqual((c.double_sha(raw), c.hash160(raw)), (Hash(raw), Hash160(raw)), (SEED, n))
            self.assertEqual(c.sha256(raw), hashlib.sha256(raw).digest(), (SEED, n))
            self.assertEqual(c.sha1(raw), hashlib.sha1(raw).digest(), (SEED, n))
            self.assertEqual(c.show(id), b2lx(id))
            self.assertEqual(c.read_id(b2lx(id)), lx(b2lx(id)))
            if n % 20 == 0:
                self.assertEqual(c.ripemd160(raw), ripemd160(raw))

    def test_scripts(self) -> None:
        """Scripts of pushes and opcodes without signatures; the opcodes of BIPs 65 and 112 do nothing. WITHIN isn't
        among them: bitcoinlib leaves a zero byte for false, and Bitcoin Core no byte."""
        rng, accepted = random.Random(SEED), 0
        for n in range(COUNT):
            pushes = [bytes([rng.choice((0x00, 0x4F, 0x51, 0x52, 0x53, 0x60))]) for _ in range(rng.randrange(1, 7))]
            pushes += [bytes([2]) + rng.randbytes(2)] * rng.randrange(2)
            rng.shuffle(pushes)
            own = b"".join(pushes)
            spent = bytes(rng.choice((*range(0x61, 0x65), *range(0x67, 0x7E), *range(0x82, 0x86), *range(0x87, 0xA5), *range(0xA6, 0xAB), 0x51))
                          for _ in range(rng.randrange(7)))
            inputs = [CTxIn(COutPoint(b"\7" * 32, 0), CScript(own))]
            tx = CTransaction(inputs, [CTxOut(1, CScript(b""))])
            try:
                VerifyScript(CScript(own), CScript(spent), tx, 0, (SCRIPT_VERIFY_P2SH,))
                expected = True
            except (VerifyScriptError, EvalScriptError):
                expected = False
            found = c.verify(tx.serialize(), 0, spent, flags=())
            self.assertEqual(found, expected, (SEED, n, own.hex(), spent.hex()))
            accepted += found
        self.assertGreater(accepted, COUNT // 20)

    def test_refusals(self) -> None:
        raw = transaction(random.Random(SEED)).serialize()
        for end in range(len(raw)):
            with self.assertRaises(c.Refused) as caught:
                c.transaction(raw[:end])
            self.assertEqual(caught.exception.fault, "short")
        with self.assertRaises(c.Refused):
            c.signature_digest(raw, 1 << 40, b"", 1)
        with self.assertRaises(c.Refused):
            c.locks_met(raw, [], 0, 0)
        with self.assertRaises(BadTable):
            c.verify(raw, 0, b"\x51", table=b"\n00 00\n")
        with self.assertRaises(ValueError):
            c.verify(raw, 0, b"\x51", flags=["P2SH"])

    def test_records(self) -> None:
        block = x("00" * 5)
        file = b"\xfa\xbf\xb5\xda" + len(block).to_bytes(4, "little") + block
        self.assertEqual(list(c.records(file * 2 + bytes(9))), [block] * 2)
        for bytes_, fault in ((b"x", "foreign"), (file[:-1], "cut"), (file[:4] + b"\xff" * 4, "too long")):
            with self.assertRaises(c.Refused) as caught:
                list(c.records(bytes_))
            self.assertEqual(caught.exception.fault, fault)

    def test_tables(self) -> None:
        """A table has what was added and nothing else, and its text says the same."""
        rng = random.Random(SEED + 7)
        for n in range(COUNT // 20):
            table = c.Table(rng.choice((b"", b"# words\n", b"\n", b"aa - " + b"0" * 64)))
            triples = [tuple(rng.randbytes(rng.randrange(3)) for _ in range(2)) + (rng.randbytes(32),) for _ in range(4)]
            for k, triple in enumerate(triples):
                self.assertFalse(table.has(*triple), (SEED, n))
                table.add(*triple)
                again = c.Table(table.text)
                self.assertEqual([again.has(*other) for other in triples], [m <= k for m in range(4)], (SEED, n))
        with self.assertRaises(BadTable) as caught:
            c.Table("aa bb cc\n")
        self.assertEqual(caught.exception.line, 1)
        with self.assertRaises(ValueError):
            table.add(b"", b"", b"")

    def test_a_signature_of_the_table(self) -> None:
        """A signature is valid exactly where the table has its triple: of this key, this signature and this digest."""
        rng = random.Random(SEED + 8)
        key, signature = b"\2" + rng.randbytes(32), bytes.fromhex("3006020101020101")
        for kind in (1, 2, 3, 0x81, 0x82, 0x83):
            own = bytes([9]) + signature + bytes([kind])
            tx = CTransaction([CTxIn(COutPoint(b"\7" * 32, 0), CScript(own))], [CTxOut(1, CScript(b""))]).serialize()
            spent = bytes([33]) + key + b"\xac"
            digest = c.signature_digest(tx, 0, spent, kind)
            for triple, expected in (
                ((key, signature, digest), True), ((key[:-1] + b"\0", signature, digest), key[-1] == 0),
                ((key, signature[:-1] + b"\2", digest), False), ((key, signature, digest[::-1]), False),
            ):  # fmt: skip
                table = c.Table()
                table.add(*triple)
                self.assertEqual(c.verify(tx, 0, spent, table=table), expected, (SEED, kind))
            self.assertFalse(c.verify(tx, 0, spent))

    def found_out(
        self, tx: bytes, spent: bytes, salt: bytes, known: Dict[c.Triple, bool], rng: random.Random
    ) -> Tuple[bool, Dict[c.Triple, bool]]:
        """The verdict where what isn't known is found out one by one, and then known in any order; and all that is known
        in the end. What is valid is said by a hash."""
        while True:
            lines: List[List[bytes]] = [[], []]
            for triple in rng.sample(list(known), len(known)):
                lines[known[triple]].append(triple.line)
            found = c.verify_known(tx, 0, spent, valid=b"".join(lines[1]), invalid=b"".join(lines[0]))
            if isinstance(found, bool):
                return found, known
            self.assertNotIn(found, known)
            known[found] = hashlib.sha256(salt + b"".join(found)).digest()[0] < 100

    def test_signatures_that_are_found_out_one_by_one(self) -> None:
        """The verdict is that of the table of all that turned out valid, whatever was known before."""
        rng = random.Random(SEED + 9)
        asked, most, accepted = 0, 0, 0
        for n in range(max(COUNT // 20, 100)):
            own, spent = signature_scripts(rng)
            tx = CTransaction(
                [CTxIn(COutPoint(b"\7" * 32, 0), CScript(own)), CTxIn(COutPoint(b"\7" * 32, 1), CScript(b""))],
                [CTxOut(1, CScript(b""))],
            ).serialize()
            salt = rng.randbytes(4)
            expected, known = self.found_out(tx, spent, salt, {}, rng)
            table = c.Table(b"".join(triple.line for triple, valid in known.items() if valid))
            self.assertEqual(c.verify(tx, 0, spent, table=table), expected, (SEED, n))
            asked, most, accepted = asked + len(known), max(most, len(known)), accepted + expected
            # Some are known from the start, and others that nobody asks for.
            before = {triple: known[triple] for triple in rng.sample(list(known), rng.randrange(len(known) + 1))}
            nobody = {triple._replace(digest=rng.randbytes(32)): rng.random() < 0.5 for triple in known}
            again, _ = self.found_out(tx, spent, salt, {**before, **nobody}, rng)
            self.assertEqual(again, expected, (SEED, n))
            self.assertEqual(c.verify(tx, 0, spent, table=table), expected, (SEED, n))
        print(f"{asked} signatures were asked for, {most} by one input at most; {accepted} inputs were accepted")
        self.assertGreater(most, 10)
        self.assertTrue(COUNT // 100 < accepted < COUNT // 20)

    def test_what_is_known_is_refused_where_it_contradicts_itself(self) -> None:
        raw = CTransaction([CTxIn()], [CTxOut()]).serialize()
        line = c.Triple(b"\2", b"\x30", bytes(32)).line
        for valid, invalid in ((line, line), (b"# a\n" + line * 2, b"02 30 " + b"1" * 64 + b"\n" + line)):
            with self.assertRaises(c.Refused) as caught:
                c.verify_known(raw, 0, b"\x51", valid=valid, invalid=invalid)
            self.assertEqual(caught.exception.fault, "contradiction")
        for valid, invalid, number in ((b"\n00", b"", 2), (line, b"\n\n00", 3)):
            with self.assertRaises(BadTable) as bad:
                c.verify_known(raw, 0, b"\x51", valid=valid, invalid=invalid)
            self.assertEqual(bad.exception.line, number)
        with self.assertRaises(c.Refused):
            c.verify_known(raw, 1, b"\x51")


class Document(unittest.TestCase):
    def test_examples(self) -> None:
        """Those of docs/CONSENSUS.md."""
        genesis = bitcoin.params.GENESIS_BLOCK.serialize()
        path = os.path.join(os.path.dirname(os.path.abspath(__file__)), "../../../docs/CONSENSUS.md")
        failed, tried = doctest.testfile(path, module_relative=False, globs={"genesis": genesis})
        self.assertEqual(failed, 0)
        self.assertGreater(tried, 25)


if __name__ == "__main__":
    unittest.main()
