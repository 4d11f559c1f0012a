"""Blocks that tests make."""

from typing import List, Optional, Sequence

from wakotehu.encoding import (
    GENESIS, Input, Output, Transaction, coinbase, mine, push, read_block, signature_digest, subsidy,
)  # fmt: skip

#: Two hours before it no block of these is too new.
NOW = 1296688602 + 600 * 2000


class Maker:
    """Makes blocks one on the other, and knows their ids, heights and coinbases."""

    def __init__(self, script: bytes = b"\x51") -> None:
        self.script = script
        self.heights = {GENESIS.id: 0}
        self.coinbases = {}

    def block(
        self, parent: bytes, transactions: Sequence[Transaction] = (), extra: bytes = b"\x00", more: int = 0
    ) -> bytes:
        """A block on `parent`; its coinbase makes `more` than the subsidy."""
        height = self.heights[parent] + 1
        made = coinbase(height, subsidy(height) + more, self.script, extra)
        block = mine(parent, GENESIS.time + 600 * height, [made, *transactions])
        id = read_block(block).header.id
        self.heights[id], self.coinbases[id] = height, made
        return block

    def chain(self, count: int, parent: Optional[bytes] = None, extra: bytes = b"\x00") -> List[bytes]:
        """Blocks one on the other."""
        blocks, at = [], parent or GENESIS.id
        for _ in range(count):
            blocks.append(self.block(at, extra=extra))
            at = block_id(blocks[-1])
        return blocks


def block_id(block: bytes) -> bytes:
    return read_block(block).header.id


def spend(id: bytes, index: int, value: int, script: bytes, to: bytes = b"\x51") -> Transaction:
    """A transaction of one input, with that script, and one output."""
    return Transaction(1, [Input(id, index, script, 0xFFFFFFFF)], [Output(value, to)], 0)


def signed(secp, secrets: Sequence[bytes], tx: Transaction, input: int, code: bytes, kind: int = 1) -> List[bytes]:
    """The signatures of an input by these secrets, with their hash type."""
    digest = signature_digest(tx, input, code, kind)
    return [secp.sign(secret, digest) + bytes([kind]) for secret in secrets]


def with_script(tx: Transaction, input: int, *pushed: bytes, begins: bytes = b"") -> Transaction:
    """The transaction with an input's script that pushes these."""
    inputs = list(tx.inputs)
    inputs[input] = inputs[input]._replace(script=begins + b"".join(map(push, pushed)))
    return tx._replace(inputs=inputs)
