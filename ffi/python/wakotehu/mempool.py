"""Which transactions may wait to be mined (Bitcoin Core's `CTxMemPool`), by consensus rules alone: there is no policy, so what a
block may have is accepted. Of two that spend one coin the first stays, but where it says that it may be replaced (BIP 125) and
the other pays more.

Whether the next block may have a transaction is for the chainstate to say: a block of it, and of what waits and has to be mined
before it, is judged by a dry run, so nothing of it is left behind, and no rule is written here a second time. Where much has to
be mined before it, and no rule looks at its block's height, that is mined on a stage, and the transaction alone is judged."""

import heapq
from collections import deque
from contextlib import contextmanager
from fractions import Fraction
from itertools import starmap, takewhile
from typing import Deque, Dict, FrozenSet, Iterable, Iterator, List, NamedTuple, Optional, Protocol, Sequence, Set, Tuple, Union

from . import consensus
from .chainstate import Coin, Reply
from .coinset import CoinSet
from .deployments import SoftForks
from .encoding import Spelled, Transaction, block_at_front, read_transaction, write_transaction
from .errors import DecodeFailed, NotAccepted
from .index import Index, Kept
from .replacing import expect_replacing, money, rate, signals
from .stage import Stage, next_block, next_coinbase

Outpoint = Tuple[bytes, int]
#: The most bytes of all that wait, where nobody says it: Bitcoin Core's -maxmempool.
MOST_BYTES = 300_000_000
#: The most bytes and signature operations of a block, how many bytes its header has, and what a coinbase may take that a miner
#: makes, as Bitcoin Core reserves it.
MAX_BLOCK, MAX_SIGOPS, HEADER = 1_000_000, 20_000, 80
HEAD_SIZE, HEAD_SIGOPS = 1_000, 400
#: How many blocks above a coinbase its coins may be spent.
MATURITY = 100
#: The coins of so many outpoints are asked for at once.
PART = 1000
#: What the coinbase of a dry run has.
_TAG = b"a dry run"
#: Of so many transactions that waited and were mined it is known what they paid.
MOST_RATES = 10_000
#: Where more than these have to be mined before a transaction, it is judged on a stage. Bitcoin Core lets no more wait.
DEEP = 24

#: What Bitcoin Core's mempool says of a transaction that isn't accepted where a block is refused by these.
_WORDS = {
    "bad-blk-sigops": "bad-txns-too-many-sigops", "bad-txns-nonfinal": "non-BIP68-final", "bad-txns-BIP30": "txn-already-known",
    "blk-bad-inputs": "mandatory-script-verify-flag-failed",
}  # fmt: skip
#: The rules of scripts that soft forks bring.
_RULES = {"bip65": "CLTV", "bip66": "DERSIG", "csv": "CSV", "nulldummy": "NULLDUMMY"}
#: What is said where no block has room, so that none is judged.
_NO_ROOM = Reply("no room", "no room", "", 0, 0)


class Entry(NamedTuple):
    """A transaction that waits: its bytes, its fee in satoshis, its signature operations, when it came, the height of the best
    block then, and whether it was sent: else a block had it that left the active branch."""

    id: bytes
    tx: Transaction
    data: bytes
    fee: int
    sigops: int
    time: int
    height: int
    is_sent: bool

    @property
    def size(self) -> int:
        return len(self.data)


class Room:
    """What a block has room for beside its header and its coinbase, which takes so many bytes and signature operations."""

    def __init__(self, size: int = HEAD_SIZE - HEADER, sigops: int = HEAD_SIGOPS) -> None:
        self.size, self.sigops, self.count = MAX_BLOCK - HEADER - size, MAX_SIGOPS - sigops, 1

    @classmethod
    def beside(cls, made: Transaction) -> "Room":
        """That beside a coinbase."""
        data = write_transaction(made)
        return cls(len(data), consensus.transaction(data).sigops)

    def take(self, *entries: Entry) -> bool:
        """Whether there is room for more, which is taken then. How many there are is spelled in one byte, or in three."""
        size, sigops = sum(len(entry.data) for entry in entries), sum(entry.sigops for entry in entries)
        count = self.count + len(entries)
        if size + (1 if count < 253 else 3) > self.size or sigops > self.sigops:
            return False
        self.size, self.sigops, self.count = self.size - size, self.sigops - sigops, count
        return True


class Waiting:
    """Transactions, and which of them spends what."""

    def __init__(self) -> None:
        #: In the order in which they are mined: parents come before their children.
        self.entries: Dict[bytes, Entry] = {}
        #: The transaction that spends an outpoint.
        self.spenders: Dict[Outpoint, bytes] = {}
        self.bytes = 0
        #: The place of each in that order.
        self._places: Dict[bytes, int] = {}
        self._last = 0
        #: The one that was put last, behind those that have to be mined before it: the next one often hangs on it.
        self._line: List[Entry] = []
        #: What miners are asked to add to fees, by the ids of transactions, in satoshis.
        self.deltas: Dict[bytes, int] = {}
        #: Counts what came and went.
        self.changes = 0

    def copy(self) -> "Waiting":
        """Another of the same, which stays as it is."""
        found = Waiting()
        found.entries, found.spenders, found.bytes = dict(self.entries), dict(self.spenders), self.bytes
        found.deltas, found._places, found._last = dict(self.deltas), dict(self._places), self._last
        return found

    def put(self, entry: Entry) -> None:
        """Puts one behind all others."""
        self._line = self.with_ancestors(entry)
        self._last += 1
        self.changes += 1
        self.entries[entry.id], self._places[entry.id] = entry, self._last
        self.spenders.update(((it.id, it.index), entry.id) for it in entry.tx.inputs)
        self.bytes += entry.size

    def drop(self, id: bytes) -> None:
        """One goes by itself."""
        entry, self._line = self.entries.pop(id), []
        self.changes += 1
        del self._places[id]
        self.bytes -= entry.size
        for spends in entry.tx.inputs:
            del self.spenders[spends.id, spends.index]

    def coin(self, id: bytes, index: int) -> Optional[Coin]:
        """The coin that one of them would make."""
        entry = self.entries.get(id)
        if entry is None or index >= len(entry.tx.outputs):
            return None
        out = entry.tx.outputs[index]
        return None if consensus.script(out.script).unspendable else Coin(out.value, out.script, 0x7FFFFFFF, False)

    # ---- what hangs on what

    def parents(self, id: bytes) -> List[bytes]:
        """Those that one spends coins of."""
        return self._made_by(self.entries[id].tx)

    def _made_by(self, tx: Transaction) -> List[bytes]:
        found = [it.id for it in tx.inputs if it.id in self.entries]
        return found if len(found) < 2 else list(dict.fromkeys(found))

    def children(self, id: bytes) -> List[bytes]:
        """Those that spend coins of one."""
        count = len(self.entries[id].tx.outputs)
        found = (self.spenders.get((id, index)) for index in range(count))
        return list(dict.fromkeys(it for it in found if it is not None))

    def ancestors(self, id: bytes) -> List[bytes]:
        """Those that have to be mined before one."""
        return self._reached(self.parents(id), up=True)

    def descendants(self, id: bytes) -> List[bytes]:
        """Those that can't be mined without one."""
        return self._reached(self.children(id), up=False)

    def with_descendants(self, ids: Iterable[bytes]) -> List[bytes]:
        """Some, and those that can't be mined without them."""
        return list(dict.fromkeys(it for id in ids for it in [id, *self.descendants(id)]))

    def conflicts(self, tx: Transaction) -> List[bytes]:
        """Those that spend a coin that a transaction spends."""
        found = map(self.spenders.get, [spends[:2] for spends in tx.inputs])
        return list(dict.fromkeys(filter(None, found)))

    def paid(self, entry: Entry) -> int:
        """The fee of one, with what miners are asked to add to it."""
        return entry.fee + self.deltas.get(entry.id, 0)

    def _reached(self, first: Iterable[bytes], up: bool) -> List[bytes]:
        found: Set[bytes] = set()
        left = list(first)
        while left:
            it = left.pop()
            if it not in found:
                found.add(it)
                left += self.parents(it) if up else self.children(it)
        return list(found)

    def with_ancestors(self, *entries: Entry) -> List[Entry]:
        """Some, which needn't wait yet, behind those that have to be mined before them."""
        own = {entry.id for entry in entries}
        parents = list(dict.fromkeys(it for entry in entries for it in self._made_by(entry.tx)))
        if self._line and parents == [self._line[-1].id] and parents[0] not in own:
            return [*self._line, *entries]
        above = self._reached(parents, up=True)
        return [*(self.entries[it] for it in self.in_order(above) if it not in own), *entries]

    def in_order(self, ids: Iterable[bytes]) -> List[bytes]:
        """Some of them, parents before their children."""
        return sorted(ids, key=self._places.__getitem__)

    def is_replaceable(self, id: bytes) -> bool:
        """Whether it, or what has to be mined before it, signals by BIP 125 that it may be replaced."""
        return any(signals(self.entries[it]) for it in [id, *self.ancestors(id)])

    def selection(self, room: Room) -> List[Entry]:
        """What a block has room for, parents before children: all that waits, in the order in which it came; or else what pays
        most for its size, with what has to be mined before it (Bitcoin Core's `addPackageTxs`)."""
        everything = list(self.entries.values())
        return everything if room.take(*everything) else _Choice(self, room).made()


class _Choice:
    """Chooses what a block has that has no room for all that waits."""

    def __init__(self, waiting: Waiting, room: Room) -> None:
        self._all, self._room = waiting, room
        self._chosen: Dict[bytes, Entry] = {}
        #: What to look at, the best first: of one that was put in again, the worse is out of date.
        self._queue: List[Tuple[Fraction, int, bytes]] = []
        self._count = 0

    def made(self) -> List[Entry]:
        """What is chosen, in order."""
        for id in self._all.entries:
            self._put(id)
        while self._queue:
            worth, _, id = heapq.heappop(self._queue)
            package = None if id in self._chosen else self._package(id)
            if package is None:
                continue
            if self._worth(id, package) != worth:
                self._put(id)
            elif self._room.take(*package):
                self._chosen.update((entry.id, entry) for entry in package)
                self._look_again(package)
        return list(self._chosen.values())

    def _package(self, id: bytes) -> Optional[List[Entry]]:
        """One behind what has to be mined before it and isn't chosen; None where that is too much to be looked at together."""
        found, left = {id}, [id]
        while left:
            for it in self._all.parents(left.pop()):
                if it not in found and it not in self._chosen:
                    found.add(it)
                    left.append(it)
            if len(found) > DEEP + 1:
                return None
        return [self._all.entries[it] for it in self._all.in_order(found)]

    def _worth(self, id: bytes, package: Sequence[Entry]) -> Fraction:
        """What stands in the queue for a package: by its fee for a byte, or by that of the last alone where that is less."""
        paid, size = sum(map(self._all.paid, package)), sum(entry.size for entry in package)
        own = self._all.entries[id]
        return -min(Fraction(paid, size), Fraction(self._all.paid(own), own.size))

    def _put(self, id: bytes) -> None:
        package = self._package(id)
        if package is not None:
            self._count += 1
            heapq.heappush(self._queue, (self._worth(id, package), self._count, id))

    def _look_again(self, package: Sequence[Entry]) -> None:
        """Puts in again what a choice may have made worth more: what hangs on it, so far as it would be looked at together."""
        found: Set[bytes] = set()
        level = [entry.id for entry in package]
        for _ in range(DEEP + 1):
            below = (it for id in level for it in self._all.children(id))
            level = [it for it in dict.fromkeys(below) if it not in found and it not in self._chosen]
            found.update(level)
        for id in found:
            self._put(id)


class Chain(Protocol):
    """What the rules ask of a chainstate: a `Bench`, or the seats of a node."""

    @property
    def index(self) -> Index: ...

    @property
    def heights(self) -> SoftForks: ...

    def judge_spelled(self, spelled: Spelled, now: int) -> Reply: ...

    def coins_at(self, outpoints: Sequence[Outpoint]) -> List[Optional[Coin]]: ...

    def block(self, id: bytes) -> Optional[bytes]: ...


class Policy(Protocol):
    """What else is asked of a transaction than the rules of consensus ask; `NotAccepted` says no."""

    def expect_standard(self, tx: Transaction, size: int) -> None:
        """By itself."""

    def expect_standard_spends(self, tx: Transaction, coins: Sequence[Coin], sigops: int) -> None:
        """By the coins that it spends."""

    def expect_fee(self, fee: int, size: int) -> None:
        """By what it pays."""


class Mempool(Waiting):
    """What waits on the active branch of a chainstate."""

    #: Asked besides, where there is one.
    policy: Optional[Policy] = None

    def __init__(self, bench: Chain, most: int = MOST_BYTES, full_rbf: bool = False) -> None:
        super().__init__()
        self.bench, self.most = bench, most
        #: Whether one that pays more replaces one that doesn't say that it may be replaced, too (-mempoolfullrbf).
        self.full_rbf = full_rbf
        #: Transactions of blocks that left the active branch, to be looked at again.
        self._returning: Dict[bytes, Tuple[Transaction, bytes]] = {}
        #: Whether what waits has to be judged again; and the soft forks that are in force in the next block.
        self.is_stale = False
        self._forks = self._in_force()
        #: Counts the moves of the active branch.
        self._moves = 0
        #: A stage on the active block, where one was needed.
        self._stage: Optional[Stage] = None
        #: Heights at which transactions were mined that waited here, and what they paid for 1,000 bytes.
        self.mined: Deque[Tuple[int, int]] = deque(maxlen=MOST_RATES)

    # ---- what is another thing at a bench and at a server

    def now(self) -> int:
        """The moment at which a transaction comes."""
        raise NotImplementedError

    @contextmanager
    def others(self) -> Iterator[None]:
        """Lets other threads go on meanwhile."""
        yield

    def told(self, label: bytes, id: bytes, data: bytes = b"") -> None:
        """One came (A), with its bytes, or went without being mined (R)."""

    def stage(self) -> Optional[Stage]:
        """A stage on the active block, or None."""
        raise NotImplementedError

    def is_valid(self, triple: consensus.Triple) -> bool:
        """Whether the chainstate takes a signature for valid."""
        raise NotImplementedError

    # ---- what is kept beyond the process

    def rows(self) -> List[Entry]:
        """All that waits, parents before children, and behind it what may wait again of blocks that left the active branch."""
        again = [Entry(id, tx, data, 0, 0, self.now(), 0, False) for id, (tx, data) in self._returning.items()]
        return [*self.entries.values(), *again]

    # ---- the active branch

    def tip(self) -> Kept:
        """The active block."""
        index = self.bench.index
        return index.blocks[index.active[-1]]

    def follow(self, gone: Sequence[bytes], come: Sequence[bytes]) -> None:
        """Takes up a move of the active branch: the ids of the blocks that left it, the highest first, and of those that came,
        the lowest first. What was mined is gone, with what spends the same coins; what blocks that left had comes back when it
        is looked at again."""
        self._moves += 1
        self._stage = None
        before, self._forks = self._forks, self._in_force()
        for id in gone:
            self._returning.update(self._transactions(id))
        if not self.entries and not self._returning and not self.deltas:
            return
        for id in come:
            for own, (tx, _) in self._transactions(id).items():
                self._returning.pop(own, None)
                self._mined(own, tx)
        self.is_stale |= bool(gone) or self._forks != before

    def _in_force(self) -> FrozenSet[str]:
        next_height = self.tip().height + 1
        return frozenset(name for name, height in self.bench.heights.named.items() if next_height >= height)

    def _transactions(self, id: bytes) -> Dict[bytes, Tuple[Transaction, bytes]]:
        """The transactions of a block but its coinbase, with their bytes."""
        data = self.bench.block(id)
        assert data is not None, "blocks of the index are kept"
        block = block_at_front(data)
        places = range(1, len(block.ids))
        return {block.ids[at]: (block.transaction(at), data[slice(*block.places[at])]) for at in places}

    def estimate(self, blocks: int) -> Optional[int]:
        """The middle of what was paid for 1,000 bytes by what waited here and was mined within so many blocks; None where none
        was."""
        lowest = self.tip().height - blocks
        rates = sorted(paid for height, paid in self.mined if height > lowest)
        return rates[len(rates) // 2] if rates else None

    def _mined(self, id: bytes, tx: Transaction) -> None:
        self.deltas.pop(id, None)
        if id in self.entries:
            self.mined.append((self.tip().height, rate(self.entries[id].fee, self.entries[id].size)))
            self.drop(id)
        for spends in tx.inputs:
            other = self.spenders.get((spends.id, spends.index))
            if other is not None:
                self._remove(other)

    def _remove(self, id: bytes) -> None:
        """One goes, and all that hang on it."""
        for it in [id, *self.descendants(id)]:
            self.drop(it)
            self.told(b"R", it)

    def look_again(self) -> None:
        """What still may be mined of what blocks that left had and of what waits. Another block may come meanwhile: then all
        is looked at once more."""
        while self.is_stale:
            moves, fresh = self._moves, Waiting()
            rows = {**self._returning, **{it.id: (it.tx, it.data) for it in self.entries.values()}}
            self._sift([rows[id][1] for id in _parents_first(rows)], fresh)
            if self._moves == moves:
                self._take(fresh)

    def _take(self, fresh: Waiting) -> None:
        before, self.entries = self.entries, {id: self.entries.get(id, entry) for id, entry in fresh.entries.items()}
        self.spenders, self.bytes, self._line = fresh.spenders, fresh.bytes, []
        self._places, self._last = fresh._places, fresh._last
        self._returning, self.is_stale = {}, False
        self.changes += 1
        for id in before:
            if id not in self.entries:
                self.told(b"R", id)
        for entry in self.entries.values():
            if entry.id not in before:
                self.told(b"A", entry.id, entry.data)

    def _sift(self, rows: Sequence[bytes], among: Waiting) -> None:
        """Puts those among others that may wait: all of them where one block may have them, else of each half."""
        if len(rows) > 1 and not self._put_all(rows, among):
            self._sift(rows[: len(rows) // 2], among)
            self._sift(rows[len(rows) // 2 :], among)
        elif len(rows) == 1:
            try:
                among.put(self._judged(rows[0], among))
            except NotAccepted:
                pass

    def _put_all(self, rows: Sequence[bytes], among: Waiting) -> bool:
        """Puts all of them among others, or none."""
        entries: List[Entry] = []
        try:
            for data in rows:
                entries.append(self._weighed(data, among))
                self._expect_bytes(entries[-1], among)
                among.put(entries[-1])
            if self._is_refused(among.with_ancestors(*entries)) is None:
                return True
        except NotAccepted:
            pass
        for entry in reversed(entries):
            among.drop(entry.id)
        return False

    # ---- what comes

    def judge(self, data: bytes, tx: Optional[Transaction] = None) -> Entry:
        """What a transaction, which may be read already, would be that is sent now; `NotAccepted` where it may not wait."""
        while True:
            moves = self._moves
            try:
                found = self._judged(data, self, tx, may_replace=True)
            except NotAccepted:
                if self._moves == moves:
                    raise
            else:
                if self._moves == moves:
                    return found._replace(is_sent=True)
            self.look_again()

    def judge_all(self, rows: Sequence[Tuple[bytes, Transaction]]) -> List[Union[Entry, NotAccepted]]:
        """What `judge` says of transactions that are sent one after the other, up to the first that may not wait. They replace nothing."""
        while True:
            moves, found = self._moves, self._judged_all(rows, self.copy())
            if self._moves == moves:
                return found
            self.look_again()

    def _judged_all(self, rows: Sequence[Tuple[bytes, Transaction]], among: Waiting) -> List[Union[Entry, NotAccepted]]:
        found: List[Union[Entry, NotAccepted]] = []
        for data, tx in rows:
            try:
                entry = self._judged(data, among, tx)
            except NotAccepted as error:
                is_spent = error.reason == "txn-mempool-conflict"
                return [*found, NotAccepted("bip125-replacement-disallowed") if is_spent else error]
            among.put(entry)
            found.append(entry._replace(is_sent=True))
        return found

    def add(self, entry: Entry) -> List[bytes]:
        """Adds what was judged on this active branch: the ids of what it replaces, which goes."""
        gone = self.with_descendants(self.conflicts(entry.tx))
        self._stage = None if gone else self._stage
        for id in gone:
            self.drop(id)
            self.told(b"R", id)
        self.put(entry)
        self.told(b"A", entry.id, entry.data)
        return gone

    def prioritise(self, id: bytes, delta: int) -> None:
        """Has miners add to the fee of a transaction, which needn't wait yet; what was said before counts too."""
        self.deltas[id] = self.deltas.get(id, 0) + delta

    def _judged(self, data: bytes, among: Waiting, tx: Optional[Transaction] = None, may_replace: bool = False) -> Entry:
        """What a transaction would be among others; `NotAccepted` where the next block may not have it behind them."""
        entry = self._weighed(data, among, tx, may_replace)
        if among.conflicts(entry.tx):
            # There what is to be replaced may be mined already.
            self._stage = None
        block = among.with_ancestors(entry)
        is_deep = len(block) > DEEP + 1 and self._may_come_later(entry, among)
        reply = self._is_refused_on_stage(block) if is_deep else self._is_refused(block)
        if reply is not None:
            raise self._not_accepted(reply, entry, among)
        self._expect_bytes(entry, among)
        return entry

    def _expect_bytes(self, entry: Entry, among: Waiting) -> None:
        """That one more may wait."""
        gone = sum(among.entries[it].size for it in among.with_descendants(among.conflicts(entry.tx)))
        if among.bytes - gone + entry.size > self.most:
            raise NotAccepted("mempool full")

    def _weighed(self, data: bytes, among: Waiting, read: Optional[Transaction] = None, may_replace: bool = False) -> Entry:
        """A transaction with what its coins make of it, in so far as they are there; what it breaks by itself, and by what waits,
        is refused, in Bitcoin Core's order."""
        tip = self.tip()
        with self.others():
            try:
                own = consensus.transaction(data)
                tx = read or read_transaction(data)
            except (consensus.Refused, ValueError):
                raise DecodeFailed("the bytes are no transaction") from None
            is_final = not own.reason and consensus.is_final(data, tip.height + 1, tip.median)
        if own.reason or own.coinbase:
            raise NotAccepted(own.reason or "coinbase")
        if self.policy:
            self.policy.expect_standard(tx, len(data))
        if not is_final:
            raise NotAccepted("non-final")
        if own.id in among.entries:
            raise NotAccepted("txn-already-in-mempool")
        others = among.conflicts(tx)
        if others and not (may_replace and (self.full_rbf or all(signals(among.entries[it]) for it in others))):
            raise NotAccepted("txn-mempool-conflict")
        coins = self._coins(tx, among)
        if len(coins) < len(tx.inputs):
            is_known = own.id in self.bench.index.transactions and self.has_coin(own.id, len(tx.outputs))
            raise NotAccepted("txn-already-known" if is_known else "bad-txns-inputs-missingorspent")
        with self.others():
            fee = sum(coin.value for coin in coins) - sum(out.value for out in tx.outputs)
            # A script's hash is paid to by one that begins with HASH160.
            pairs = [(it.script, coin.script) for it, coin in zip(tx.inputs, coins) if coin.script[:1] == b"\xa9"]
            inner = sum(starmap(consensus.p2sh_sigops, pairs))
        found = Entry(own.id, tx, data, fee, own.sigops + inner, self.now(), tip.height, False)
        # What makes money is refused by a rule.
        if self.policy and fee >= 0:
            self.policy.expect_standard_spends(tx, coins, found.sigops)
            self.policy.expect_fee(among.paid(found), found.size)
        if others and fee >= 0:
            expect_replacing(found, others, among)
        return found

    def _coins(self, tx: Transaction, among: Waiting) -> List[Coin]:
        """The coins that a transaction spends, of what waits and of the active branch, up to the first that isn't there. They are
        asked for in parts, so that little is asked where one is missing."""
        found: List[Coin] = []
        while len(found) < len(tx.inputs):
            part = [(it.id, it.index) for it in tx.inputs[len(found) : 16 + 9 * len(found)]]
            coins = dict(zip(part, (among.coin(*it) for it in part)))
            others = [it for it in part if coins[it] is None]
            coins.update(zip(others, self.bench.coins_at(others) if others else ()))
            there = list(takewhile(lambda coin: coin is not None, (coins[it] for it in part)))
            found += [coin for coin in there if coin is not None]
            if len(there) < len(part):
                break
        return found

    def has_coin(self, id: bytes, count: int) -> bool:
        """Whether one of so many outputs of a transaction is a coin of the active branch."""
        parts = ([(id, at) for at in range(begin, min(begin + PART, count))] for begin in range(0, count, PART))
        return any(coin is not None for part in parts for coin in self.bench.coins_at(part))

    def _is_refused(self, entries: Sequence[Entry]) -> Optional[Reply]:
        """What the next block would be answered that has these; None where it would be accepted."""
        tip = self.tip()
        if not Room.beside(next_coinbase(tip.height + 1, _TAG)).take(*entries):
            return _NO_ROOM
        # The least time that it may have: what is final then is final later.
        when = min(tip.median + 1, 0xFFFFFFFF)
        with self.others():
            block = next_block(tip.id, tip.height + 1, when, entries, _TAG)
        reply = self.bench.judge_spelled(block, when)
        if reply.reply == "tree-full":
            reply.check()
        return None if reply.reply == "accepted" else reply

    def _may_come_later(self, entry: Entry, among: Waiting) -> bool:
        """Whether each later block may have a transaction that is final where the next one may: it spends no coinbase, it has no
        relative lock (BIP 68), and no soft fork is to come."""
        coins, locks = self._coins(entry.tx, among), [it.sequence >> 31 == 0 for it in entry.tx.inputs]
        is_there = len(coins) == len(entry.tx.inputs)
        is_last = len(self._forks) == len(self.bench.heights.named)
        return is_last and not any(locks) and is_there and not any(coin.coinbase for coin in coins)

    def _is_refused_on_stage(self, entries: Sequence[Entry]) -> Optional[Reply]:
        """The same for one that may come later, the last of these, behind blocks of the others."""
        if not Room.beside(next_coinbase(self.tip().height + 1, _TAG)).take(*entries):
            return _NO_ROOM
        moves, reply = self._moves, None
        stage = self._stage or self.stage()
        if stage is not None:
            with self.others():
                reply = stage.judge(entries[:-1], entries[-1])
        if self._moves == moves:
            self._stage = stage if reply else None
        if reply is None:
            return self._is_refused(entries)
        return None if reply.reply == "accepted" else reply

    def _not_accepted(self, reply: Reply, entry: Entry, among: Waiting) -> NotAccepted:
        """Why a transaction isn't accepted, by what a block was answered that has it; as Bitcoin Core says it."""
        coins = self._coins(entry.tx, among)
        reason = self._no_room(entry, coins) if reply is _NO_ROOM else reply.reason or reply.reply
        more = "no block has room for it and what it needs" if reason == "too-long-mempool-chain" else ""
        if reason == "bad-txns-in-belowout":
            spent, paid = sum(it.value for it in coins), sum(it.value for it in entry.tx.outputs)
            more = f"value in ({money(spent)}) < value out ({money(paid)})"
        if reason == "bad-txns-premature-spend-of-coinbase":
            deep = [self.tip().height + 1 - coin.height for coin in coins if coin.coinbase]
            more = f"tried to spend coinbase at depth {next((it for it in deep if it < MATURITY), 0)}"
        failure = self._failure(reply.input, entry, among) if reason == "blk-bad-inputs" else ""
        return NotAccepted(_WORDS.get(reason, reason) + failure, more, reply)

    def _no_room(self, entry: Entry, coins: Sequence[Coin]) -> str:
        """Why a transaction may not wait that no block has room for, or not with what it needs: what it breaks by its coins comes
        first."""
        height = self.tip().height + 1
        with self.others():
            with CoinSet([(it.id, it.index, coin) for it, coin in zip(entry.tx.inputs, coins)]) as own:
                found = own.check_tx_inputs(entry.data, height)
            room = Room.beside(next_coinbase(height, _TAG))
        if isinstance(found, str):
            return found
        if room.take(entry):
            return "too-long-mempool-chain"
        if entry.size < room.size:
            return "bad-txns-too-many-sigops"
        return "tx-size" if entry.size <= MAX_BLOCK else "bad-txns-oversize"

    def _failure(self, input: int, entry: Entry, among: Waiting) -> str:
        """Why an input may not spend its script, as Bitcoin Core adds it; "" where it may: then another transaction's may not."""
        coin = dict(enumerate(self._coins(entry.tx, among))).get(input)
        if coin is None:
            return ""
        rules = ["P2SH", *(rule for name, rule in _RULES.items() if name in self._forks)]
        known = {True: b"", False: b""}
        while True:
            found = consensus.verify_script(entry.data, input, coin.script, rules, known[True], known[False])
            if not isinstance(found, consensus.Triple):
                return f" ({found.text})" if found else ""
            known[self.is_valid(found)] += found.line


def _parents_first(rows: Dict[bytes, Tuple[Transaction, bytes]]) -> List[bytes]:
    """The ids of transactions in their order, but each behind those that it spends coins of."""
    found: Dict[bytes, None] = {}
    for id in rows:
        left = [id]
        while left:
            above = [it.id for it in rows[left[-1]][0].inputs if it.id in rows and it.id not in found]
            left += above
            if not above:
                found[left.pop()] = None
    return list(found)
