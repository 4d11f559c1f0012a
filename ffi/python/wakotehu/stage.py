"""Chainstates of this process on which what waits is mined already, so that a long chain of transactions isn't judged as a whole
for each that comes."""

from typing import Callable, Dict, List, Optional, Protocol, Sequence, Set

from .chainstate import Chainstate, Reply
from .encoding import GENESIS, Spelled, Transaction, coinbase, mine_spelled, read_header, write_transaction
from .errors import Wants

#: Says of the lines of signatures which are valid.
Verdicts = Callable[[Sequence[bytes]], Sequence[bool]]
#: No block is too new at this moment.
_LATE = 1 << 40


class Spelt(Protocol):
    """A transaction's id, and its bytes."""

    @property
    def id(self) -> bytes: ...

    @property
    def data(self) -> bytes: ...


def next_coinbase(height: int, tag: bytes) -> Transaction:
    """A coinbase that makes no coin."""
    return coinbase(height, 0, b"\x6a", tag)


def next_block(parent: bytes, height: int, when: int, transactions: Sequence[Spelt], tag: bytes) -> Spelled:
    """A block of some transactions behind `next_coinbase`."""
    made = next_coinbase(height, tag)
    data = [write_transaction(made), *(tx.data for tx in transactions)]
    return mine_spelled(parent, when, data, ids=[made.id, *(tx.id for tx in transactions)])


def by_need(chain: Chainstate, verdicts: Optional[Verdicts], command: Callable[[], Reply]) -> Reply:
    """Makes a command of a chainstate, and finds out the signatures that it wants; one with a table wants none."""
    while True:
        try:
            return command()
        except Wants as wants:
            assert verdicts is not None, "a chainstate with a table wants none"
            for triple, valid in zip(wants.triples, verdicts(wants.lines)):
                chain.learn(triple, valid)


class Stage:
    """Transactions are mined here, and others judged that hang on them. The chainstate is its own.

    when: the time of the chainstate's active block."""

    def __init__(self, chain: Chainstate, when: int, verdicts: Optional[Verdicts]) -> None:
        self._chain, self._when, self._verdicts = chain, when, verdicts
        self._mined: Set[bytes] = set()

    def judge(self, above: Sequence[Spelt], tx: Spelt) -> Optional[Reply]:
        """What a block of a transaction would be answered behind blocks of those that it hangs on, in their order; None where
        that can't be said."""
        new = [it for it in above if it.id not in self._mined]
        if new:
            block = self._next(new)
            if by_need(self._chain, self._verdicts, lambda: self._chain.try_submit(block, _LATE)).reply != "accepted":
                return None
            self._when += 1
            self._mined.update(it.id for it in new)
        block = self._next([tx])
        reply = by_need(self._chain, self._verdicts, lambda: self._chain.judge(block, _LATE))
        return reply if reply.reply in ("accepted", "rejected") else None

    def _next(self, transactions: Sequence[Spelt]) -> bytes:
        height = self._chain.height() + 1
        return next_block(self._chain.best(), height, min(self._when + 1, 0xFFFFFFFF), transactions, b"a stage").data


class Shadow:
    """A chainstate that has a branch of another one, whose blocks it takes as stages are asked for.

    table: the valid signatures, where nothing says which others are."""

    def __init__(self, heights: Sequence[int], table: bytes, verdicts: Optional[Verdicts]) -> None:
        self._heights, self._table, self._verdicts = heights, table, verdicts
        self._ids: List[bytes] = []
        self._chain: Optional[Chainstate] = None

    def stage(self, ids: Sequence[bytes], blocks: Dict[bytes, bytes]) -> Optional[Stage]:
        """A stage on the last block of a branch, genesis first, or None where these blocks aren't such a branch."""
        if self._chain is None or self._ids != ids[: len(self._ids)]:
            self._chain, self._ids = self._empty(), [GENESIS.id]
        chain = self._chain
        for id in ids[len(self._ids) :]:
            data = blocks[id]
            if by_need(chain, self._verdicts, lambda: chain.try_submit(data, _LATE)).reply != "accepted":
                self._chain = None
                return None
            self._ids.append(id)
        top = GENESIS if len(ids) == 1 else read_header(blocks[ids[-1]][:80])
        return Stage(chain.copy(), top.time, self._verdicts)

    def _empty(self) -> Chainstate:
        return Chainstate(self._heights, self._table) if self._verdicts is None else Chainstate(self._heights, by_need=True)
