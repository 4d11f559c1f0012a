"""Blocks, transactions and digests beside python3-bitcoinlib's."""

import random
import unittest

from bitcoin.core import CBlock, CTransaction, CMutableTransaction
from bitcoin.core.script import CScript, RawSignatureHash

from blocks import Maker
from wakotehu.encoding import (
    GENESIS, EncodingError, Input, Output, Transaction, block_at_front, merkle_root, push, read_block,
    read_transaction, signature_digest, write_transaction,
)  # fmt: skip
from wakotehu.signatures import read_signature


class EncodingTest(unittest.TestCase):
    def setUp(self):
        self.chance = random.Random(7)

    def transaction(self):
        some = self.chance.randrange
        inputs = [
            Input(self.chance.randbytes(32), some(2**32), self.chance.randbytes(some(300)), some(2**32))
            for _ in range(1 + some(4))
        ]
        outputs = [Output(some(2**50), self.chance.randbytes(some(300))) for _ in range(1 + some(4))]
        return Transaction(some(-5, 5), inputs, outputs, some(2**32))

    def test_transactions_are_written_and_read(self):
        for _ in range(50):
            tx = self.transaction()
            other = CTransaction.deserialize(write_transaction(tx))
            self.assertEqual(other.serialize(), write_transaction(tx))
            self.assertEqual(other.GetTxid(), tx.id)
            self.assertEqual(read_transaction(write_transaction(tx)), tx)
        for bad in (b"", b"\x01", write_transaction(tx)[:-1], write_transaction(tx) + b"\x00"):
            self.assertRaises(EncodingError, read_transaction, bad)

    def test_blocks_are_made(self):
        for block in Maker().chain(20):
            other = CBlock.deserialize(block)
            self.assertEqual(other.GetHash(), read_block(block).header.id)
            self.assertEqual(other.calc_merkle_root(), read_block(block).header.root)
        for count in range(1, 12):
            txs = [self.transaction() for _ in range(count)]
            made = [CTransaction.deserialize(write_transaction(tx)) for tx in txs]
            self.assertEqual(merkle_root([tx.id for tx in txs]), CBlock.build_merkle_tree_from_txs(made)[-1])

    def test_the_block_at_the_front_is_the_one_that_is_read(self):
        cut = 0
        for _ in range(2000):
            count = self.chance.randrange(4)
            whole = bytearray(self.chance.randbytes(80) + bytes([count]))
            for _ in range(count):
                whole += write_transaction(self.transaction())
            for _ in range(self.chance.randrange(3)):
                whole[self.chance.randrange(80, len(whole))] = self.chance.choice([0, 1, 253, 254, 255])
            data = bytes(whole[: self.chance.choice([len(whole), self.chance.randrange(len(whole) + 1)])])
            try:
                front = block_at_front(data)
            except EncodingError:
                # No beginning of the bytes is a block.
                cut += 1
                self.assertRaises(EncodingError, read_block, data)
                continue
            block = read_block(front.data)
            self.assertEqual(front.header, block.header)
            self.assertEqual([front.transaction(n) for n in range(len(front.ids))], block.transactions)
            self.assertTrue(data.startswith(front.data))
        self.assertGreater(cut, 200)

    def test_digests(self):
        for _ in range(300):
            tx = self.transaction()
            code = b"".join(
                self.chance.choice([b"\xab", b"\x51", b"\xac", push(self.chance.randbytes(20))]) for _ in range(8)
            )
            input = self.chance.randrange(len(tx.inputs))
            kind = self.chance.choice([0, 1, 2, 3, 4, 129, 130, 131, 255])
            other = CMutableTransaction.from_tx(CTransaction.deserialize(write_transaction(tx)))
            wanted, _ = RawSignatureHash(CScript(code), other, input, kind)
            self.assertEqual(signature_digest(tx, input, code, kind), wanted)

    def test_signatures_are_read_leniently(self):
        def number(value, wide):
            return b"\x02" + wide + value

        def numbers(*values):
            return b"".join(value.to_bytes(32, "big") for value in values)

        plain = b"\x30\x06" + number(b"\x05", b"\x01") + number(b"\x07", b"\x01")
        self.assertEqual(read_signature(plain), numbers(5, 7))
        self.assertEqual(read_signature(b"\x30\x81\x99" + plain[2:] + b"left over"), numbers(5, 7))
        zero = b"\x30\x00" + number(b"\x00\x05", b"\x81\x02") + number(b"", b"\x00")
        self.assertEqual(read_signature(zero), numbers(5, 0))
        for bad in (b"", b"\x30", b"\x31" + plain[1:], plain[:-1], plain[:4], b"\x30\x00\x03" + plain[3:]):
            self.assertIsNone(read_signature(bad))
        self.assertIsNone(read_signature(b"\x30\x00" + number(b"\x01" * 33, b"\x21") + number(b"\x07", b"\x01")))

    def test_genesis(self):
        from bitcoin.core import CoreRegTestParams

        self.assertEqual(GENESIS.id, CoreRegTestParams.GENESIS_BLOCK.GetHash())


if __name__ == "__main__":
    unittest.main()
