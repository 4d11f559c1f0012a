"""Headers, targets, Merkle roots, hashes and addresses: beside python3-bitcoinlib, the proved calls and Bitcoin Core's
own test values of targets. SEED names another seed."""

import hashlib
import os
import random
import unittest
from typing import List, Tuple

import bitcoin
from bitcoin.core import CBlockHeader, CTransaction, Hash, x
from bitcoin.core.script import CScript
from bitcoin.core.serialize import compact_from_uint256, uint256_from_compact
from bitcoin.wallet import CBitcoinAddress, P2PKHBitcoinAddress, P2SHBitcoinAddress

from wakotehu import consensus as c, encoding as e
from wakotehu.addresses import address_of, script_of

SEED = int(os.environ.get("SEED", random.randrange(1 << 32)))

#: Bits, what they spell, its faults, and the bits of that, as Bitcoin Core's `arith_uint256_tests` have them.
BITS: List[Tuple[int, int, bool, bool, int]] = [
    *((bits, 0, False, False, 0) for bits in (
        0, 0x00123456, 0x01003456, 0x02000056, 0x03000000, 0x04000000, 0x00923456, 0x01803456, 0x02800056, 0x03800000,
        0x04800000,
    )),
    (0x01123456, 0x12, False, False, 0x01120000), (0x01FEDCBA, 0x7E, True, False, 0x01FE0000),
    (0x02123456, 0x1234, False, False, 0x02123400), (0x03123456, 0x123456, False, False, 0x03123456),
    (0x04123456, 0x12345600, False, False, 0x04123456), (0x04923456, 0x12345600, True, False, 0x04923456),
    (0x05009234, 0x92340000, False, False, 0x05009234), (0x20123456, 0x123456 << 232, False, False, 0x20123456),
    (0xFF123456, 0, False, True, 0),
    # By the rule: the last that fit into 256 bits, and the first that don't.
    (0x207FFFFF, 0x7FFFFF << 232, False, False, 0x207FFFFF), (0x2100FFFF, 0xFFFF << 240, False, False, 0x2100FFFF),
    (0x220000FF, 0xFF << 248, False, False, 0x2100FF00), (0x21010000, 0, False, True, 0),
    (0x22000100, 0, False, True, 0), (0x23000001, 0, False, True, 0),
    (0x21810000, 0, True, True, 0), (0x23000000, 0, False, False, 0),
    (0x2100FF01, 0xFF01 << 240, False, False, 0x2100FF01), (0x21123456, 0x3456 << 240, False, True, 0x20345600),
]  # fmt: skip


class TargetsTest(unittest.TestCase):
    def test_bits(self) -> None:
        for bits, value, negative, overflow, again in BITS:
            with self.subTest(hex(bits)):
                self.assertEqual(e.read_bits(bits), (value, negative, overflow))
                self.assertEqual(e.write_bits(value, negative), again)
        self.assertEqual(e.write_bits(0x80), 0x02008000)
        self.assertEqual(e.write_bits(0, True), 0)

    def test_bits_beside_bitcoinlib(self) -> None:
        """It knows neither sizes below 3 nor faults."""
        rng = random.Random(SEED)
        for n in range(5000):
            value = rng.randrange(1 << 256) >> rng.randrange(256)
            self.assertEqual(e.write_bits(value), compact_from_uint256(value), (SEED, n, value))
            bits = rng.randrange(3, 33) << 24 | rng.randrange(1 << 23)
            self.assertEqual(e.read_bits(bits), (uint256_from_compact(bits), False, False), (SEED, n, bits))

    def test_work(self) -> None:
        """Of the first blocks of the networks, as their work is known; beside a difficulty that is known, which is the
        work's part of the first block's; and so many tries for the whole of 256 bits."""
        self.assertEqual((e.work(0x1D00FFFF), e.work(0x207FFFFF)), (0x100010001, 2))
        self.assertAlmostEqual(e.work(0x1B0404CB) / e.work(0x1D00FFFF), 16307.420938523983, 6)
        self.assertEqual((e.work(0x01010000), e.work(0x2100FFFF)), (1 << 255, 1))
        for bits in (0, 0x01003456, 0x04923456, 0xFF123456, 0x21123456):
            self.assertEqual(e.work(bits), 0)
        rng = random.Random(SEED + 1)
        for _ in range(2000):
            bits = rng.randrange(1, 33) << 24 | rng.randrange(1 << 23)
            target, work = e.read_bits(bits).value, e.work(bits)
            if target:
                self.assertTrue(work * (target + 1) <= 1 << 256 < (work + 1) * (target + 1), (SEED, bits))


class HeadersTest(unittest.TestCase):
    def test_headers(self) -> None:
        rng = random.Random(SEED + 2)
        for n in range(2000):
            raw = rng.randbytes(80)
            found, other = e.read_header(raw), CBlockHeader.deserialize(raw)
            fields = (other.nVersion, other.hashPrevBlock, other.hashMerkleRoot, other.nTime, other.nBits, other.nNonce)
            self.assertEqual(found, fields, (SEED, n))
            self.assertEqual((found.id, e.write_header(found)), (other.GetHash(), raw))
        for length in (0, 79, 81):
            with self.assertRaises(e.EncodingError):
                e.read_header(bytes(length))

    def test_roots_and_twins(self) -> None:
        """Beside the proved reading of blocks: some of few different transactions, so that many have a twin."""
        rng, twins = random.Random(SEED + 3), 0
        front = bytes(80)
        for n in range(3000):
            kinds = rng.choice((1, 2, 100))
            txs = [CTransaction(nLockTime=rng.randrange(kinds)) for _ in range(rng.randrange(1, 20))]
            if rng.randrange(3) == 0:
                # As a twin is made: a list of an odd length at some level goes on with the part at its end.
                part = 1 << rng.randrange(3)
                txs = txs[: len(txs) // part * part] or txs
                txs += txs[-part:]
            found = e.merkle([tx.GetTxid() for tx in txs])
            told = c.block(front + bytes([len(txs)]) + b"".join(tx.serialize() for tx in txs))
            self.assertEqual(found, (told.merkle, told.twin), (SEED, n))
            self.assertEqual(e.merkle_root([tx.GetTxid() for tx in txs]), told.merkle)
            twins += found.twin
        self.assertTrue(500 < twins < 2900, twins)
        self.assertEqual(e.merkle([]), (bytes(32), False))
        # Two lists of one root: the twin is the longer one.
        ids = [bytes([n]) * 32 for n in (1, 2, 3, 3)]
        self.assertEqual((e.merkle(ids[:3])[0], e.merkle(ids[:3])[1]), (e.merkle(ids)[0], not e.merkle(ids)[1]))

    def test_hashes(self) -> None:
        """The values of FIPS 180 for "abc"."""
        self.assertEqual(e.sha1(b"abc").hex(), "a9993e364706816aba3e25717850c26c9cd0d89d")
        self.assertEqual(
            e.sha256(b"abc").hex(), "ba7816bf8f01cfea414140de5dae2223b00361a396177a9cb410ff61f20015ad"
        )
        self.assertEqual(Hash(b"abc"), e.sha256(e.sha256(b"abc")))
        self.assertEqual(c.ripemd160(b"abc"), hashlib.new("ripemd160", b"abc").digest())


class AddressesTest(unittest.TestCase):
    def tearDown(self) -> None:
        bitcoin.SelectParams("regtest")

    def test_known_addresses(self) -> None:
        """That of the genesis block's key, and the example of BIP 13's form."""
        key = x("76a91462e907b15cbf27d5425399ebf6f0fb50ebb88f1888ac")
        self.assertEqual(address_of(key, "main"), "1A1zP1eP5QGefi2DMPTfTL5SLmv7DivfNa")
        self.assertEqual(script_of("1A1zP1eP5QGefi2DMPTfTL5SLmv7DivfNa", "main"), key)
        self.assertEqual(address_of(x("76a914" + "00" * 20 + "88ac"), "main"), "1111111111111111111114oLvT2")

    def test_addresses_beside_bitcoinlib(self) -> None:
        rng = random.Random(SEED + 4)
        for network, named in (("main", "mainnet"), ("test", "testnet"), ("regtest", "regtest")):
            bitcoin.SelectParams(named)
            for n in range(500):
                digest = bytes(rng.randrange(3)) + rng.randbytes(20)
                key, inner = b"\x76\xa9\x14" + digest[:20] + b"\x88\xac", b"\xa9\x14" + digest[:20] + b"\x87"
                for script, kind in ((key, P2PKHBitcoinAddress), (inner, P2SHBitcoinAddress)):
                    expected = str(kind.from_scriptPubKey(CScript(script)))
                    self.assertEqual(address_of(script, network), expected, (SEED, n))
                    self.assertEqual(script_of(expected, network), script)
                    self.assertEqual(bytes(CBitcoinAddress(expected).to_scriptPubKey()), script)
                    self.assertIsNone(script_of(expected, "regtest" if network == "main" else "main"))
                    place = rng.randrange(len(expected))
                    other = expected[:place] + rng.choice("123abcXYZ0OIl") + expected[place + 1 :]
                    for bad in (other, "1" + expected, expected[1:], expected + "1", expected[:-1], expected + " "):
                        if bad != expected:
                            self.assertIsNone(script_of(bad, network), (SEED, bad))
                for bad_script in (key[:-1], key + b"\0", inner[1:], inner + b"\x61", b"\x75" + key[1:], b""):
                    self.assertIsNone(address_of(bad_script, network))
                self.assertIsNone(address_of(inner[:-1] + b"\x88", network))


if __name__ == "__main__":
    print(f"seed {SEED}")
    unittest.main()
