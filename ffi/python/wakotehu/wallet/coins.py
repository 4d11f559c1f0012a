"""What a wallet holds: its transactions and its coins, as the blocks of a branch leave them. A block is done, and undone, in as many
steps as it has transactions of the wallet."""

from dataclasses import dataclass, field, replace
from typing import Callable, Dict, Iterator, List, Mapping, NamedTuple, Optional, Set, Tuple

from ..encoding import Output, Spelled, Transaction
from ..mempool import MATURITY

Outpoint = Tuple[bytes, int]


class Place(NamedTuple):
    """Where a transaction was mined: the block, its height, the place in it, and the block's time."""

    block: bytes
    height: int
    number: int
    time: int


@dataclass
class Record:
    """A transaction of the wallet. `time` is the moment that lists show, `received` when the wallet heard of it first."""

    id: bytes
    tx: Transaction
    data: bytes
    order: int
    time: int
    received: int
    place: Optional[Place] = None
    is_abandoned: bool = False
    #: What was noted with it: "comment", "to", "replaces_txid" and "replaced_by_txid".
    notes: Dict[str, str] = field(default_factory=dict)


class Coin(NamedTuple):
    """An output of the wallet that may be spent; how deep it is, and whether it is safe to spend (Bitcoin Core's `fSafe`)."""

    outpoint: Outpoint
    output: Output
    depth: int
    is_safe: bool


class Balances(NamedTuple):
    """Satoshis, as `getbalances` has them."""

    trusted: int
    pending: int
    immature: int


def spent_by(tx: Transaction) -> List[Outpoint]:
    """The outpoints that a transaction spends; a coinbase spends none."""
    return [] if tx.is_coinbase else [(it.id, it.index) for it in tx.inputs]


class Ledger:
    """The transactions of a wallet, on a branch whose last block is `best`.

    is_mine: says of a script whether the wallet has it.
    """

    def __init__(self, is_mine: Callable[[bytes], bool], best: bytes, height: int) -> None:
        self.is_mine = is_mine
        self.best, self.height = best, height
        self.records: Dict[bytes, Record] = {}
        #: Outputs of the wallet, spent or not; and the ones that no mined transaction spends.
        self.coins: Dict[Outpoint, Output] = {}
        self.unspent: Dict[Outpoint, None] = {}
        #: The wallet's transactions that spend an outpoint, whoever has it.
        self.spenders: Dict[Outpoint, List[bytes]] = {}
        #: Those that aren't mined; and of these the ones that wait to be.
        self.pending: Dict[bytes, None] = {}
        self.waiting: Set[bytes] = set()
        #: The wallet's transactions of a block, and those that one of a block made impossible.
        self._mined: Dict[bytes, List[bytes]] = {}
        self._conflicts: Dict[bytes, Dict[bytes, int]] = {}
        self._refused_by: Dict[bytes, List[bytes]] = {}
        #: Outputs of the wallet's transactions that others have, by their scripts.
        self._others: Dict[bytes, List[Outpoint]] = {}
        #: Those that changed since they were kept last.
        self.changed: Dict[bytes, None] = {}
        self._order = self._latest = 0
        #: Of those that aren't mined, as long as nothing changes: the lowest block that made one impossible, and who is trusted.
        self._lowest: Dict[bytes, int] = {}
        self._trusted: Dict[bytes, bool] = {}
        #: As long as no block comes or leaves: what `_mined_coins` answers.
        self._oldest: Optional[List[Outpoint]] = None

    def copy(self, is_mine: Callable[[bytes], bool]) -> "Ledger":
        """Another one that is the same."""
        found = Ledger(is_mine, self.best, self.height)
        found.records = {id: replace(own, notes=dict(own.notes)) for id, own in self.records.items()}
        found.coins, found.unspent, found.waiting = dict(self.coins), dict(self.unspent), set(self.waiting)
        found.pending, found.changed = dict(self.pending), dict(self.changed)
        found.spenders = {at: list(ids) for at, ids in self.spenders.items()}
        found._mined = {block: list(ids) for block, ids in self._mined.items()}
        found._conflicts = {id: dict(blocks) for id, blocks in self._conflicts.items()}
        found._refused_by = {block: list(ids) for block, ids in self._refused_by.items()}
        found._others = {script: list(at) for script, at in self._others.items()}
        found._order, found._latest = self._order, self._latest
        return found

    def _change(self, id: bytes) -> None:
        self.changed[id] = None
        self._lowest, self._trusted = {}, {}

    # ---- what comes

    def put(self, record: Record) -> Record:
        """Puts a record, with what it spends and makes; one that is there stays."""
        if record.id in self.records:
            return self.records[record.id]
        self.records[record.id] = record
        self._order, self._latest = max(self._order, record.order), max(self._latest, record.time)
        for at in spent_by(record.tx):
            self.spenders.setdefault(at, []).append(record.id)
        for index, out in enumerate(record.tx.outputs):
            if self.is_mine(out.script):
                self._have((record.id, index), out)
            else:
                self._others.setdefault(out.script, []).append((record.id, index))
        if record.place is None:
            self.pending[record.id] = None
        else:
            self._place(record, record.place)
        self._change(record.id)
        return record

    def _have(self, at: Outpoint, out: Output) -> None:
        """An output is the wallet's."""
        self.coins[at] = out
        self._lowest, self._trusted = {}, {}
        if self.records[at[0]].place is not None:
            self._oldest = None
        if not any(self.records[id].place for id in self.spenders.get(at, ())):
            self.unspent[at] = None

    def claim(self, script: bytes) -> bool:
        """The wallet has another script: what its transactions pay to it is the wallet's. Whether there is such a thing."""
        found = self._others.pop(script, [])
        for id, index in found:
            self._have((id, index), self.records[id].tx.outputs[index])
        return bool(found)

    def concerns(self, tx: Transaction) -> bool:
        """Whether a transaction spends of the wallet or pays to it."""
        return any(at in self.coins for at in spent_by(tx)) or any(self.is_mine(it.script) for it in tx.outputs)

    def take(self, id: bytes, tx: Transaction, data: bytes, now: int, place: Optional[Place] = None) -> Optional[Record]:
        """A transaction was heard of, in a block or not: its record, or None where it isn't the wallet's."""
        found = self.records.get(id)
        if found is None and self.concerns(tx):
            # As Bitcoin Core: of a block its time, but not before those that were heard of earlier (`ComputeTimeSmart`).
            when = now if place is None else max(self._latest, min(place.time, now))
            found = self.put(Record(id, tx, data, self._order + 1, min(when, now), now, place))
        elif found is not None and place is not None and found.place != place:
            self._place(found, place)
        return found

    # ---- blocks

    def _place(self, record: Record, place: Place) -> None:
        if record.place is not None and record.place != place:
            self._displace(record)
        record.place, record.is_abandoned, self._oldest = place, False, None
        self.pending.pop(record.id, None)
        self.waiting.discard(record.id)
        own = self._mined.setdefault(place.block, [])
        if record.id not in own:
            own.append(record.id)
        for at in spent_by(record.tx):
            self.unspent.pop(at, None)
        self._change(record.id)

    def _displace(self, record: Record) -> None:
        record.place, self._oldest = None, None
        self.pending[record.id] = None
        for at in spent_by(record.tx):
            if at in self.coins and not any(self.records[id].place for id in self.spenders[at]):
                self.unspent[at] = None
        self._change(record.id)

    def connect(self, spelled: Spelled, id: bytes, height: int, now: int) -> List[Record]:
        """Does a block: its transactions that are the wallet's, and those that it makes impossible."""
        found = []
        for index, own in enumerate(spelled.ids):
            tx = spelled.transaction(index)
            begin, end = spelled.places[index]
            for at in spent_by(tx):
                for other in self.spenders.get(at, ()):
                    if other != own:
                        self.refuse(other, id, height)
            record = self.take(own, tx, spelled.data[begin:end], now, Place(id, height, index, spelled.header.time))
            if record is not None:
                found.append(record)
        return found

    def advance(self, id: bytes, height: int) -> None:
        """A block is the last one now."""
        self.best, self.height, self._lowest = id, height, {}

    def set_waiting(self, ids: Set[bytes]) -> None:
        """Which of the wallet's transactions wait to be mined."""
        if ids != self.waiting:
            self.waiting, self._trusted = ids, {}

    def refuse(self, id: bytes, block: bytes, height: int) -> None:
        """A block spends what a transaction spends."""
        blocks = self._conflicts.setdefault(id, {})
        if block not in blocks:
            blocks[block] = height
            self._refused_by.setdefault(block, []).append(id)
            self._change(id)

    def disconnect(self, id: bytes) -> None:
        """Undoes a block."""
        for own in reversed(self._mined.pop(id, [])):
            place = self.records[own].place
            if place is not None and place.block == id:
                self._displace(self.records[own])
        for own in self._refused_by.pop(id, []):
            self._conflicts[own].pop(id, None)
            self._change(own)

    def blocks(self) -> List[bytes]:
        """The blocks that changed something."""
        return list(dict.fromkeys([*self._mined, *self._refused_by]))

    def conflicts_of(self, id: bytes) -> Mapping[bytes, int]:
        """The blocks that make a transaction impossible, with their heights."""
        return self._conflicts.get(id, {})

    # ---- what is known of one

    def depth(self, record: Record) -> int:
        """How deep it is: 0 where it isn't mined, negative where a mined one made it or what it spends impossible."""
        if record.place is not None:
            return self.height - record.place.height + 1
        lowest = self._lowest_of(record)
        return lowest - self.height - 1 if lowest <= self.height else 0

    def _above(self, record: Record) -> List[Record]:
        """The wallet's transactions that one spends coins of and that aren't mined."""
        found = {it.id: self.records[it.id] for it in record.tx.inputs if it.id in self.pending}
        return list(found.values())

    def _lowest_of(self, record: Record) -> int:
        """The lowest height of a block that made it, or what it spends, impossible; one above the branch where none did."""
        known, left = self._lowest, [record]
        while left:
            above = self._above(left[-1])
            unknown = [it for it in above if it.id not in known]
            if not unknown:
                own = left.pop()
                heights = [*self.conflicts_of(own.id).values(), *(known[it.id] for it in above)]
                known[own.id] = min([self.height + 1, *heights])
            left += unknown
        return known[record.id]

    def is_live(self, record: Record) -> bool:
        """Whether it counts as spending its coins (Bitcoin Core's `IsSpent`)."""
        return record.place is not None or (not record.is_abandoned and self.depth(record) == 0)

    def is_spent(self, at: Outpoint) -> bool:
        """Whether one of the wallet's transactions spends an outpoint."""
        return any(self.is_live(self.records[id]) for id in self.spenders.get(at, ()))

    def debit(self, tx: Transaction) -> int:
        """The satoshis of the wallet that a transaction spends."""
        return sum(self.coins[at].value for at in spent_by(tx) if at in self.coins)

    def credit(self, record: Record) -> int:
        """The satoshis that it pays to the wallet; nothing for a coinbase that isn't deep enough."""
        if record.tx.is_coinbase and not self.is_mature(record):
            return 0
        return sum(out.value for index, out in enumerate(record.tx.outputs) if (record.id, index) in self.coins)

    def is_mature(self, record: Record) -> bool:
        """Whether the next block may spend its outputs."""
        return not record.tx.is_coinbase or (record.place is not None and self.depth(record) > MATURITY)

    def is_trusted(self, record: Record) -> bool:
        """Whether it is mined, or waits and is the wallet's own throughout (Bitcoin Core's `IsTrusted`)."""
        known, left = self._trusted, [record]
        while left:
            own = left[-1]
            unknown = [] if own.id in known else [it for it in self._above(own) if it.id not in known]
            if not unknown:
                left.pop()
                known[own.id] = own.place is not None or self._is_own(own)
            left += unknown
        return known[record.id]

    def _is_own(self, record: Record) -> bool:
        """Whether it waits, and spends coins of the wallet alone that are trusted."""
        if record.tx.is_coinbase or record.id not in self.waiting or self.depth(record) < 0:
            return False
        spent = spent_by(record.tx)
        return all(at in self.coins and (at[0] not in self.pending or self._trusted[at[0]]) for at in spent)

    def conflicting(self, record: Record) -> List[bytes]:
        """The wallet's other transactions that spend the same coins."""
        found = (id for at in spent_by(record.tx) for id in self.spenders.get(at, ()))
        return sorted({*found} - {record.id}, key=lambda id: id[::-1])

    def children(self, record: Record) -> List[bytes]:
        """The wallet's transactions that spend its outputs."""
        found = (self.spenders.get((record.id, index), ()) for index in range(len(record.tx.outputs)))
        return list(dict.fromkeys(id for ids in found for id in ids))

    # ---- all of it

    def in_order(self) -> List[Record]:
        """All transactions, as the wallet heard of them."""
        return sorted(self.records.values(), key=lambda it: it.order)

    def available(self) -> Iterator[Coin]:
        """The coins that the next block may spend, mined ones first, the oldest first; then those of transactions that wait."""
        for at in self._mined_coins():
            record = self.records[at[0]]
            if self.is_mature(record) and not self.is_spent(at):
                yield Coin(at, self.coins[at], self.depth(record), True)
        for record in sorted((self.records[id] for id in self.waiting), key=lambda it: it.order):
            is_replaced = "replaces_txid" in record.notes or "replaced_by_txid" in record.notes
            for at in ((record.id, index) for index in range(len(record.tx.outputs))):
                if at in self.unspent and self.depth(record) == 0 and not self.is_spent(at):
                    yield Coin(at, self.coins[at], 0, not is_replaced and self.is_trusted(record))

    def _mined_coins(self) -> List[Outpoint]:
        """The outputs of mined transactions that no mined one spends, the oldest first."""
        if self._oldest is None:
            rows = ((self.records[at[0]].place, at) for at in self.unspent)
            self._oldest = [at for _, _, _, at in sorted((it.height, it.number, at[1], at) for it, at in rows if it is not None)]
        return self._oldest

    def balances(self, least_depth: int = 0) -> Balances:
        """The sums of what isn't spent; of what is trusted only at some depth or deeper."""
        trusted = pending = immature = 0
        for at in self.unspent:
            record, value = self.records[at[0]], self.coins[at].value
            if self.is_spent(at):
                continue
            if record.place is not None and not self.is_mature(record):
                immature += value
            elif record.place is not None or self.is_trusted(record):
                trusted += value if self.depth(record) >= least_depth else 0
            elif record.id in self.waiting and not record.tx.is_coinbase and self.depth(record) == 0:
                pending += value
        return Balances(trusted, pending, immature)

    def revive(self, record: Record) -> None:
        """One that waits again counts again."""
        if record.is_abandoned:
            record.is_abandoned = False
            self._change(record.id)

    def abandon(self, id: bytes) -> None:
        """One, and what hangs on it, spends its coins no more."""
        left = [id]
        while left:
            record = self.records[left.pop()]
            if record.place is None and not record.is_abandoned:
                record.is_abandoned = True
                self._change(record.id)
                left += self.children(record)
