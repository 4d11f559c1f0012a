"""Transactions that wait to be mined on a `Bench`, or at the seats of a node or a replica."""

import time
from collections import deque
from typing import Deque, Iterator, List, Optional, Sequence, Tuple, Union

from .addresses import script_of
from .arguments import id_of, instance, number, octets, signed, text
from .bench import Bench
from .chainstate import Coin, Reply, moment_of
from .consensus import Triple
from .deployments import SoftForks
from .encoding import Spelled, Transaction, coinbase, double_sha, mine_spelled, subsidy, write_transaction
from .errors import NotAccepted, NotFound, TooMany
from .index import Index
from .mempool import MOST_BYTES, Entry, Mempool, Room
from .nodebench import Move, NodeBench
from .stage import Stage

#: The script 51, which anyone spends: to it pay blocks where nothing else is said.
ANYONE = b"\x51"


class _Mempool(Mempool):
    """What waits on the active branch of a bench."""

    def now(self) -> int:
        return int(time.time())

    def moves(self) -> Iterator[Tuple[Sequence[bytes], Sequence[bytes]]]:
        """The moves of the active branch that weren't asked for yet: the blocks that left it, and those that came."""
        raise NotImplementedError

    def fresh(self) -> int:
        """A number for a block that is made."""
        raise NotImplementedError

    def submit(self, block: bytes) -> None:
        """Submits a block."""
        raise NotImplementedError

    def look_again(self) -> None:
        """As it is after all moves."""
        for gone, come in self.moves():
            self.follow(gone, come)
        super().look_again()


class _Benched(_Mempool):
    """On a `Bench`."""

    def __init__(self, bench: Bench, most: int, full_rbf: bool) -> None:
        super().__init__(bench, most, full_rbf)
        self._own = bench
        self._seen, self._best = len(bench.bests), bench.best()

    def moves(self) -> Iterator[Tuple[Sequence[bytes], Sequence[bytes]]]:
        bests = self._own.bests
        while self._seen < len(bests):
            before, self._best = self._best, bests[self._seen]
            self._seen += 1
            if before != self._best:
                yield self._own.index.way(before, self._best)

    def fresh(self) -> int:
        return self._own.fresh()

    def submit(self, block: bytes) -> None:
        self._own.submit(block)

    def stage(self) -> Optional[Stage]:
        try:
            return Stage(self._own.chain.copy(), self.tip().header.time, self._own._find_out)
        except TooMany:
            return None

    def is_valid(self, triple: Triple) -> bool:
        return self._own._test([triple])[triple]


class _Turned:
    """The seats of a node as a mempool asks them: each call has the turn."""

    def __init__(self, bench: NodeBench) -> None:
        self._own = bench
        self.heights: SoftForks = bench.heights

    @property
    def index(self) -> Index:
        return self._own.index

    def judge_spelled(self, spelled: Spelled, now: int) -> Reply:
        with self._own.turn:
            return self._own.judge_spelled(spelled, now)

    def coins_at(self, outpoints: Sequence[Tuple[bytes, int]]) -> List[Optional[Coin]]:
        with self._own.turn:
            return self._own.coins_at(outpoints)

    def block(self, id: bytes) -> Optional[bytes]:
        return self._own.block(id)


class _Seated(_Mempool):
    """At the seats of a node, whose active branch other threads, or other machines, move meanwhile."""

    def __init__(self, bench: NodeBench, most: int, full_rbf: bool) -> None:
        super().__init__(_Turned(bench), most, full_rbf)
        self._own, self._told = bench, bench.moved
        self._moved: Deque[Move] = deque()
        with bench.turn:
            bench.moved = self._note

    def _note(self, move: Move) -> None:
        """Notes a move, on the thread that takes the step: what is judged meanwhile is judged again."""
        self._told(move)
        self._moves += 1
        self._moved.append(move)

    def judge(self, data: bytes, tx: Optional[Transaction] = None) -> Entry:
        while True:
            moves = self._moves
            self.look_again()
            try:
                found = super().judge(data, tx)
            except NotAccepted:
                if self._moves == moves:
                    raise
            else:
                if self._moves == moves:
                    return found

    def moves(self) -> Iterator[Tuple[Sequence[bytes], Sequence[bytes]]]:
        while self._moved:
            move = self._moved.popleft()
            yield move.gone, move.come

    def fresh(self) -> int:
        with self._own.turn:
            return self._own.fresh()

    def submit(self, block: bytes) -> None:
        with self._own.turn:
            self._own.try_submit(block, moment_of(None)).check()

    def stage(self) -> Optional[Stage]:
        with self._own.turn:
            return self._own.stage()

    def is_valid(self, triple: Triple) -> bool:
        return self._own.is_valid(triple)


class Pool:
    """Transactions that wait to be mined on the active branch of a bench, in the order in which they came, by consensus rules
    alone: there is no policy, but that one which pays more replaces those that signal it (BIP 125). A block takes those away
    that it has, with what spends the same coins; what blocks that leave the active branch had waits again.

    Whether one may wait is for the chainstate to say, by a dry run: its journal and its blocks stay as they are. Signatures
    that this asks for are verified, and stay known.

    bench: a `Bench`, or the seats of a node or a replica (`nodebench.NodeBench`, `replicabench.ReplicaBench`), whose turn nobody
        has who uses the pool. Each step that it takes is taken up when the pool is used next.
    most: how many bytes may wait.
    full_rbf: whether those that don't signal it are replaced too.
    """

    def __init__(self, bench: Union[Bench, NodeBench], most: int = MOST_BYTES, full_rbf: bool = False) -> None:
        most, full_rbf = number(most, "most", 64), instance(full_rbf, bool, "full_rbf")
        self.bench = bench if isinstance(bench, NodeBench) else instance(bench, Bench, "bench")
        self._all = _Seated(bench, most, full_rbf) if isinstance(bench, NodeBench) else _Benched(bench, most, full_rbf)

    def _now(self) -> Mempool:
        """What waits, after all steps of the bench so far."""
        self._all.look_again()
        return self._all

    def _with(self, id: bytes) -> Mempool:
        """The same, where the transaction of an id is among it."""
        found = self._now()
        if id_of(id) not in found.entries:
            raise NotFound("no such transaction waits")
        return found

    # ---- what comes

    def add(self, tx: bytes) -> bytes:
        """Puts a transaction among those that wait: its id. One that may not wait raises `NotAccepted` with Bitcoin Core's word
        as `reason`; bytes that are no transaction raise `DecodeFailed`."""
        entry = self.test(tx)
        self._all.add(entry)
        return entry.id

    def test(self, tx: bytes) -> Entry:
        """What `add` would put, or its exception; nothing changes."""
        data = octets(tx, "tx")
        return self._now().judge(data)

    def prioritise(self, id: bytes, delta: int) -> None:
        """Has blocks take a transaction as if it paid so many satoshis more, or less; it needn't wait yet."""
        self._now().prioritise(id_of(id), signed(delta, "delta", 64))

    # ---- what waits

    def __len__(self) -> int:
        return len(self._now().entries)

    def __contains__(self, id: object) -> bool:
        return id in self._now().entries

    def __iter__(self) -> Iterator[Entry]:
        """All of it, in the order in which it is mined."""
        return iter(list(self._now().entries.values()))

    @property
    def size(self) -> int:
        """How many bytes wait."""
        return self._now().bytes

    def entry(self, id: bytes) -> Entry:
        """One of those that wait. Another id raises `NotFound`, here and in the next four calls."""
        return self._with(id).entries[id_of(id)]

    def parents(self, id: bytes) -> List[bytes]:
        """Those that one spends coins of."""
        return self._with(id).parents(id_of(id))

    def children(self, id: bytes) -> List[bytes]:
        """Those that spend coins of one."""
        return self._with(id).children(id_of(id))

    def ancestors(self, id: bytes) -> List[bytes]:
        """Those that have to be mined before one, in their order."""
        found = self._with(id)
        return [it.id for it in found.with_ancestors(found.entries[id_of(id)])[:-1]]

    def descendants(self, id: bytes) -> List[bytes]:
        """Those that can't be mined without one."""
        return self._with(id).descendants(id_of(id))

    def spender(self, id: bytes, index: int) -> Optional[bytes]:
        """Which of them spends an outpoint, or None."""
        return self._now().spenders.get((id_of(id), number(index, "index")))

    def coin(self, id: bytes, index: int) -> Optional[Coin]:
        """The coin at an outpoint as all that waits leaves it, or None. One that isn't mined has the height 0x7FFFFFFF, as at
        Bitcoin Core."""
        all, outpoint = self._now(), (id_of(id), number(index, "index"))
        if outpoint in all.spenders:
            return None
        return all.coin(*outpoint) or all.bench.coins_at([outpoint])[0]

    # ---- blocks

    def selection(self, to: Union[bytes, str] = ANYONE) -> List[Entry]:
        """What a block that pays to a script or an address has room for, in order."""
        all, script = self._now(), _script(to)
        return all.selection(Room.beside(_made(all.tip().height + 1, 0, script, 0)))

    def template(self, to: Union[bytes, str] = ANYONE) -> bytes:
        """The block that `mine` would submit."""
        chosen, tip = self.selection(to), self._all.tip()
        fees = sum(entry.fee for entry in chosen)
        made = _made(tip.height + 1, fees, _script(to), self._all.fresh())
        data = [write_transaction(made), *(entry.data for entry in chosen)]
        return mine_spelled(tip.id, tip.header.time + 1, data).data

    def mine(self, count: int = 1, to: Union[bytes, str] = ANYONE) -> List[bytes]:
        """Mines blocks on the active one, each of the selection: their ids. They pay the subsidy and the fees to a script or an
        address. A block's time is a second behind its parent's, as with `wakotehu.benches.Miner`."""
        script, found = _script(to), []
        for _ in range(number(count, "count")):
            block = self.template(script)
            self._all.submit(block)
            found.append(double_sha(block[:80]))
        self._now()
        return found


def _made(height: int, fees: int, script: bytes, number: int) -> Transaction:
    """The coinbase of a block, which takes the fees."""
    return coinbase(height, subsidy(height) + fees, script, b"pool" + number.to_bytes(4, "little"))


def _script(to: Union[bytes, str]) -> bytes:
    """A script, or that of an address."""
    found = script_of(text(to, "to")) if isinstance(to, str) else octets(to, "to")
    if found is None:
        raise ValueError(f"to must be a script or an address of regtest, not {to!r}")
    return found
