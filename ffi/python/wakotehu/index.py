"""What is known of the blocks that a chainstate keeps, so that no read walks over a branch."""

from typing import Dict, List, NamedTuple, Optional, Tuple

from .arguments import id_of, number
from .chainstate import Coin
from .encoding import GENESIS, GENESIS_BLOCK, Header, Output, Spelled, Transaction, read_transaction


class Kept(NamedTuple):
    """A block that is kept. `times` are its own time and the times of the ten blocks below it, the highest first,
    `transactions` how many it has, `size` how many bytes, `branch_size` and `branch_transactions` how many its branch has
    with genesis."""

    id: bytes
    height: int
    header: Header
    times: Tuple[int, ...]
    transactions: int
    size: int
    branch_size: int
    branch_transactions: int

    @property
    def median(self) -> int:
        """The median time past of a block on it (BIP 113)."""
        return sorted(self.times)[len(self.times) // 2]


class Index:
    """Blocks by their ids, the active branch by heights, and where each transaction is.

    A block's parent has to be there before it. The active branch is moved by `follow`, in as many steps as blocks leave
    it and come.
    """

    def __init__(self) -> None:
        self.blocks: Dict[bytes, Kept] = {}
        #: The ids of the active branch, genesis first.
        self.active: List[bytes] = [GENESIS.id]
        #: A block that has the transaction of an id, and the place of its bytes in that. An id names the bytes.
        self.transactions: Dict[bytes, Tuple[bytes, int, int]] = {}
        #: The height of the highest block.
        self.highest = 0
        size = len(GENESIS_BLOCK)
        self.blocks[GENESIS.id] = Kept(GENESIS.id, 0, GENESIS, (GENESIS.time,), 1, size, size, 1)

    def copy(self) -> "Index":
        """Another index of the same."""
        found = Index()
        found.blocks, found.active = dict(self.blocks), list(self.active)
        found.transactions, found.highest = dict(self.transactions), self.highest
        return found

    @property
    def active_size(self) -> int:
        """How many bytes the blocks of the active branch have."""
        return self.blocks[self.active[-1]].branch_size

    def add(self, id: bytes, spelled: Spelled) -> None:
        """Adds a block of this id, whose parent is there. Where it is cut short it may be called again."""
        header, parent = spelled.header, self.blocks[spelled.header.parent]
        height, times = parent.height + 1, (header.time, *parent.times[:10])
        self.highest = max(self.highest, height)
        for tx, (begin, end) in zip(spelled.ids, spelled.places):
            self.transactions.setdefault(tx, (id, begin, end))
        size, many = len(spelled.data), len(spelled.ids)
        sums = parent.branch_size + size, parent.branch_transactions + many
        self.blocks[id] = Kept(id, height, header, times, many, size, *sums)

    def follow(self, best: bytes) -> Tuple[List[bytes], List[bytes]]:
        """Makes the branch of a block the active one, in one step. The ids of the blocks that left, the highest first, and of
        those that came, the lowest first."""
        if best == self.active[-1]:
            return [], []
        come, at = [], self.blocks[best]
        if at.header.parent == self.active[-1]:
            self.active.append(best)
            return [], [best]
        while not self.is_active(at.id):
            come.append(at)
            at = self.blocks[at.header.parent]
        gone, new = self.active[:at.height:-1], [kept.id for kept in reversed(come)]
        self.active[at.height + 1 :] = new
        return gone, new

    def way(self, old: bytes, new: bytes) -> Tuple[List[bytes], List[bytes]]:
        """From the branch of a block to that of another: the ids of the blocks that are left, the highest first, and of those
        that come, the lowest first."""
        gone, come, at, other = [], [], self.blocks[old], self.blocks[new]
        while at.id != other.id:
            if at.height < other.height:
                come.append(other.id)
                other = self.blocks[other.header.parent]
            else:
                gone.append(at.id)
                at = self.blocks[at.header.parent]
        return gone, come[::-1]

    def is_active(self, id: bytes) -> bool:
        """Whether a block is on the active branch."""
        found = self.blocks.get(id)
        return found is not None and self.at(found.height) == id

    def is_above(self, id: bytes, other: bytes) -> bool:
        """Whether a kept block is on the branch of another one, which may be itself."""
        low, at = self.blocks[other].height, self.blocks[id]
        while at.height > low and not self.is_active(at.id):
            at = self.blocks[at.header.parent]
        return at.id == other or (at.height > low and self.is_active(other))

    def at(self, height: int) -> Optional[bytes]:
        """The active block of a height, or None."""
        return self.active[height] if 0 <= height < len(self.active) else None

    def branch(self, id: bytes) -> List[bytes]:
        """The ids of a block's branch, the block next to genesis first."""
        found = self.beside(id)
        low = self.blocks[found[0]].height if found else self.blocks[id].height + 1
        return self.active[1:low] + found

    def beside(self, id: bytes) -> List[bytes]:
        """The ids of those blocks of a block's branch that aren't active, the lowest first."""
        found = []
        while id in self.blocks and not self.is_active(id):
            found.append(id)
            id = self.blocks[id].header.parent
        return found[::-1]


class Unspent(NamedTuple):
    """A coin, with the id of the active block that it was read at, and how many blocks it is deep there."""

    coin: Coin
    best: bytes
    confirmations: int


class Walks:
    """Walks over the blocks of an index, whose bytes `block` gives."""

    index: Index

    def best(self) -> bytes:
        """The active block's id."""
        raise NotImplementedError

    def block(self, id: bytes) -> Optional[bytes]:
        """The bytes of a kept block, or None."""
        raise NotImplementedError

    def parent(self, id: bytes) -> bytes:
        """The id of a kept block's parent."""
        return self.index.blocks[id_of(id)].header.parent

    def branch(self, id: Optional[bytes] = None) -> List[bytes]:
        """The ids of a block's branch, the block next to genesis first; of the active block by default. Empty for a
        block that isn't kept."""
        at = self.best() if id is None else id_of(id)
        return self.index.branch(at) if at in self.index.blocks else []

    def is_kept(self, id: bytes) -> bool:
        """Whether a block is kept, genesis or another."""
        return id_of(id) in self.index.blocks

    def output(self, id: bytes, index: int) -> Optional[Output]:
        """An output that a kept block made, spent or not, on whatever branch; or None."""
        tx, index = self.transaction(id), number(index, "index")
        return tx.outputs[index] if tx and index < len(tx.outputs) else None

    def transaction(self, id: bytes) -> Optional[Transaction]:
        """A transaction of a kept block, or None."""
        data = self.spelled(id)
        return None if data is None else read_transaction(data)

    def spelled(self, id: bytes) -> Optional[bytes]:
        """The bytes of a transaction of a kept block, or None."""
        id = id_of(id)
        if id not in self.index.transactions:
            return None
        block, begin, end = self.index.transactions[id]
        data = self.block(block)
        assert data is not None, "blocks of the index are kept"
        return data[begin:end]
