"""Blocks that stand in two chains: the same transactions, versions, times and faults, with each chain's own header."""

from dataclasses import dataclass
from typing import Callable, Dict, List, Optional, Tuple

from wakotehu.encoding import GENESIS, Block, Header, Transaction, double_sha, merkle_root, write_block, write_header

from . import peer
from .rules import Body, Tx

#: The genesis block, as the parent of a block.
ROOT = -1

BITS = 0x207FFFFF


TARGET = 0x7FFFFF << 232


def work(header: bytes) -> int:
    """What is compared with a target here: double SHA-256 of the header, as a number."""
    return int.from_bytes(double_sha(header), "little")


@dataclass
class Logical:
    """A block without its chain: which block it stands on (its number, or ROOT), and what its header has."""

    parent: int
    time: int
    transactions: List[Transaction]
    version: int = 4
    bits: int = BITS
    #: None for the root of the transactions.
    root: Optional[bytes] = None
    #: Whether its header meets the target.
    works: bool = True
    #: Bytes in the place of the transactions as they are written; what a fault of bytes needs.
    body: Optional[bytes] = None
    #: What stands behind the block.
    behind: bytes = b""


class Chain:
    """The spellings of logical blocks in one chain."""

    def __init__(self, genesis: bytes, work: Callable[[bytes], int]) -> None:
        self.genesis, self._work = genesis, work
        self._spelled: Dict[int, Tuple[bytes, bytes]] = {}
        self._nonce = 0

    def copy(self, nonce: int) -> "Chain":
        """The same, so that other blocks may come behind those that were spelled, with nonces from this one on."""
        chain = Chain(self.genesis, self._work)
        chain._spelled, chain._nonce = dict(self._spelled), nonce
        return chain

    def spell(self, blocks: List[Logical], number: int) -> Tuple[bytes, bytes]:
        """A block's id and bytes."""
        if number not in self._spelled:
            block = blocks[number]
            parent = self.genesis if block.parent == ROOT else self.spell(blocks, block.parent)[0]
            self._spelled[number] = self._write(block, parent)
        return self._spelled[number]

    def id(self, blocks: List[Logical], number: int) -> bytes:
        return self.genesis if number == ROOT else self.spell(blocks, number)[0]

    def body(self, blocks: List[Logical], number: int, txs: List[Tx]) -> Body:
        """A block as the rules have it."""
        block, data = blocks[number], self.spell(blocks, number)[1]
        length = len(data) - len(block.behind)
        return Body(self._work(data[:80]), block.version, block.time, block.bits, data[36:68], txs, length, len(block.behind))

    def _write(self, block: Logical, parent: bytes) -> Tuple[bytes, bytes]:
        root = merkle_root([tx.id for tx in block.transactions]) if block.root is None else block.root
        header = Header(block.version, parent, root, block.time, block.bits, self._nonce)
        while (self._work(write_header(header)) <= TARGET) != block.works:
            header = header._replace(nonce=header.nonce + 1)
        spelled = write_header(header)
        body = write_block(Block(header, block.transactions))[80:] if block.body is None else block.body
        return double_sha(spelled), spelled + body + block.behind


def ours() -> Chain:
    """The chain of this project: Bitcoin's regtest."""
    return Chain(GENESIS.id, work)


def theirs() -> Chain:
    """The chain of the peer."""
    return Chain(peer.GENESIS_ID, peer.work)
