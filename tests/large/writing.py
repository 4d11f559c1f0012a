"""Texts of scenarios with many outputs, and blk files and journals that are made without the program."""
from __future__ import annotations

import hashlib
import struct
from collections.abc import Iterator

# The header of regtest's genesis block, and its time.
GENESIS = bytes.fromhex(
    "01000000" + "00" * 32 + "3ba3edfd7a7b12b27ac72c3e67768f617fc81bc3888a51323a9fb8aa4b1e5e4a" + "dae5494dffff7f2002000000"
)
GENESIS_TIME = 1296688602

# What stands before each record of regtest's blk files.
MAGIC = bytes.fromhex("fabfb5da")


def transaction(name: str, inputs: list[str], outputs: list[str]) -> list[str]:
    """The lines of a transaction that spends these outputs with empty scripts; each output is `VALUE SCRIPT`."""
    return [f"tx {name} 1 0", *(f"in {spent} -" for spent in inputs), *(f"out {output}" for output in outputs)]


def double_sha(data: bytes) -> bytes:
    return hashlib.sha256(hashlib.sha256(data).digest()).digest()


def coinbase() -> bytes:
    """A coinbase of height 1 that pays the subsidy to the script `51`."""
    front = struct.pack("<iB", 1, 1) + bytes(32) + b"\xff" * 4
    return front + b"\x02\x51\x00" + b"\xff" * 4 + b"\x01" + struct.pack("<q", 5_000_000_000) + b"\x01\x51" + bytes(4)


def blocks_on_genesis() -> Iterator[bytes]:
    """Blocks on genesis that differ in their nonces: each meets regtest's target, which every second header does."""
    made = coinbase()
    front = struct.pack("<i", 4) + double_sha(GENESIS) + double_sha(made) + struct.pack("<I", GENESIS_TIME + 1)
    front += bytes.fromhex("ffff7f20")
    for nonce in range(2**32):
        header = front + struct.pack("<I", nonce)
        if double_sha(header)[31] < 0x80:
            yield header + b"\x01" + made


def id_of(block: bytes) -> str:
    """A block's id as programs print it."""
    return double_sha(block[:80])[::-1].hex()


def record(block: bytes) -> bytes:
    return MAGIC + struct.pack("<I", len(block)) + block
