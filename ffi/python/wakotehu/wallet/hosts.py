"""The chainstates that a wallet follows: its blocks, what waits to be mined on it, and where transactions are sent to."""

import time
from typing import Any, Dict, List, Mapping, NamedTuple, Optional, Protocol, Sequence, Tuple, Union

from ..bench import Bench
from ..chainstate import Coin
from ..encoding import GENESIS
from ..errors import NotFound
from ..index import Index
from ..mempool import Entry
from ..node import Node, Seat
from ..nodebench import NodeBench
from ..pool import Pool

#: So many blocks are named at once.
PART = 100


class Way(NamedTuple):
    """From one block to another: the blocks that are left, the highest first, and those that come, the lowest first."""

    gone: Sequence[bytes]
    come: Sequence[bytes]


class Seen(NamedTuple):
    """What a wallet sees of a chainstate at one moment: the active block, and what waits to be mined, which nobody changes; None
    where nothing is known of that. `changes` is another number when that is another."""

    best: bytes
    waiting: Optional[Mapping[bytes, Entry]]
    changes: int


class Host(Protocol):
    """What a wallet asks of a chainstate."""

    def seen(self, changes: int) -> Seen:
        """The active block, and what waits; where the number of this is still the given one, that is left out."""

    def now(self) -> int:
        """The moment, in seconds."""

    def height(self, id: bytes) -> int:
        """The height of a kept block."""

    def way(self, old: bytes, new: bytes) -> Optional[Way]:
        """From a block to another; None where the first isn't kept."""

    def ids(self, best: bytes, low: int, high: int) -> List[bytes]:
        """The blocks of some heights, from 1 on, below a kept block or itself, the lowest first: few of them."""

    def block(self, id: bytes) -> bytes:
        """The bytes of a kept block."""

    def send(self, data: bytes) -> None:
        """Has a transaction wait, or raises `NotAccepted`."""

    def coins_at(self, outpoints: Sequence[Tuple[bytes, int]]) -> List[Optional[Coin]]:
        """The coins of outpoints."""


class IndexHost:
    """A `Bench` or a `NodeBench`, with the pool over it."""

    def __init__(self, bench: Union[Bench, NodeBench], pool: Optional[Pool] = None) -> None:
        self.bench, self.pool = bench, pool
        self._changes = 0

    @property
    def index(self) -> Index:
        return self.bench.index

    def seen(self, changes: int) -> Seen:
        if self.pool is None:
            return Seen(self.index.active[-1], None, -1)
        self._changes += 1
        return Seen(self.index.active[-1], {entry.id: entry for entry in self.pool}, self._changes)

    def now(self) -> int:
        return int(time.time())

    def height(self, id: bytes) -> int:
        return self.index.blocks[id].height

    def way(self, old: bytes, new: bytes) -> Optional[Way]:
        return Way(*self.index.way(old, new)) if old in self.index.blocks else None

    def ids(self, best: bytes, low: int, high: int) -> List[bytes]:
        index, height = self.index, self.index.blocks[best].height
        found = index.active[low : min(high, height) + 1]
        # Where it isn't active any more, these may be of another branch.
        return found if index.at(height) == best else index.branch(best)[low - 1 : high]

    def block(self, id: bytes) -> bytes:
        found = self.bench.block(id)
        assert found is not None, "blocks of the index are kept"
        return found

    def send(self, data: bytes) -> None:
        if self.pool is not None:
            self.pool.add(data)

    def coins_at(self, outpoints: Sequence[Tuple[bytes, int]]) -> List[Optional[Coin]]:
        if isinstance(self.bench, Bench):
            return self.bench.coins_at(outpoints)
        with self.bench.turn:
            return self.bench.coins_at(outpoints)


class SeatHost:
    """A seat of a `Node` or of a `Replica`. A transaction that is sent is the caller's to mine."""

    def __init__(self, seat: Any) -> None:
        self.seat = seat
        self._heights: Dict[bytes, int] = {GENESIS.id: 0}

    def seen(self, changes: int) -> Seen:
        return Seen(self.seat.getbestblockhash().value, None, -1)

    def now(self) -> int:
        return int(time.time())

    def height(self, id: bytes) -> int:
        if id not in self._heights:
            self._heights[id] = self.seat.getblockheader(id).value.height
        return self._heights[id]

    def way(self, old: bytes, new: bytes) -> Optional[Way]:
        try:
            fork = self.seat.getfork(old, new).value
        except NotFound:
            fork = None
        if fork is None:
            return None
        low = self.height(fork) + 1
        return Way(self._above(old, low)[::-1], self._above(new, low))

    def _above(self, id: bytes, low: int) -> List[bytes]:
        return [self.seat.getancestor(id, height).value for height in range(low, self.height(id) + 1)]

    def ids(self, best: bytes, low: int, high: int) -> List[bytes]:
        return [self.seat.getancestor(best, height).value for height in range(low, min(high, self.height(best)) + 1)]

    def block(self, id: bytes) -> bytes:
        found: bytes = self.seat.getblock(id).value
        return found

    def send(self, data: bytes) -> None:
        pass

    def coins_at(self, outpoints: Sequence[Tuple[bytes, int]]) -> List[Optional[Coin]]:
        if not outpoints:
            return []
        found = (it.value for it in self.seat.gettxouts(outpoints))
        return [None if it is None else Coin(*it[:4]) for it in found]


def host_of(chain: Any, pool: Optional[Pool] = None) -> Host:
    """The host of a `Bench`, a `NodeBench`, a `Node`, a `Replica`, or a seat of these."""
    if isinstance(chain, (Bench, NodeBench)):
        return IndexHost(chain, pool)
    if isinstance(chain, Node) or hasattr(chain, "seats"):
        return SeatHost(chain.seat(0))
    if isinstance(chain, Seat) or hasattr(chain, "getancestor"):
        return SeatHost(chain)
    raise TypeError(f"chain must be a Bench, a NodeBench, a Node, a Replica or a seat, not {type(chain).__name__}")
