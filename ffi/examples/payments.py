"""Blocks with payments, for the example of a payment service: a chain whose coinbases pay to a key, and payments that it signs."""

from typing import List, Sequence

from wakotehu.encoding import (
    GENESIS, Input, Output, Transaction, coinbase, double_sha, hash160, mine, push, read_block, signature_digest, subsidy,
)  # fmt: skip
from wakotehu.signatures import Secp256k1

#: A moment in seconds since 1970. A block may be two hours ahead of it.
NOW = GENESIS.time + 10_000_000
COIN = 100_000_000
_SECRET = bytes([7]) * 32


def pay_to(name: bytes) -> bytes:
    """The script that pays to a key, by its hash; here the hash of a name stands for a key's."""
    return b"\x76\xa9" + push(hash160(name)) + b"\x88\xac"


class Chain:
    """101 blocks on genesis, so many that the first coinbases can be spent."""

    def __init__(self) -> None:
        self.secp = Secp256k1()
        self.script = push(self.secp.public_key(_SECRET)) + b"\xac"
        self.heights = {GENESIS.id: 0}
        self.blocks: List[bytes] = []
        at = GENESIS.id
        for _ in range(101):
            self.blocks.append(self._block(at, []))
            at = self.id(self.blocks[-1])

    def id(self, block: bytes) -> bytes:
        return double_sha(block[:80])

    def _block(self, parent: bytes, transactions: Sequence[Transaction], extra: bytes = b"\x00") -> bytes:
        height = self.heights[parent] + 1
        made = coinbase(height, subsidy(height), self.script, extra)
        block = mine(parent, GENESIS.time + 600 * height, [made, *transactions])
        self.heights[self.id(block)] = height
        return block

    def on(self, block: bytes, transactions: Sequence[Sequence[Transaction]]) -> List[bytes]:
        """Blocks one on the other, the first on a block, with these transactions; unlike all others of their parents."""
        found, at = [], self.id(block)
        for some in transactions:
            found.append(self._block(at, some, len(self.heights).to_bytes(2, "little")))
            at = self.id(found[-1])
        return found

    def payment(self, place: int, script: bytes, value: int) -> Transaction:
        """Pays from the coinbase of a block, which its key signs."""
        coin = read_block(self.blocks[place]).transactions[0].id
        unsigned = Transaction(1, [Input(coin, 0, b"", 0xFFFFFFFF)], [Output(value, script)], 0)
        signature = self.secp.sign(_SECRET, signature_digest(unsigned, 0, self.script, 1)) + b"\x01"
        return unsigned._replace(inputs=[unsigned.inputs[0]._replace(script=push(signature))])
