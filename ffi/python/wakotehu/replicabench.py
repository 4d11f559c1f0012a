"""A replica as one bench, for a server whose connections call beside one another, and which has one history with others."""

import math
import random
import threading
from typing import Callable, Dict, List, Optional, Sequence, Tuple, TypeVar

from .arguments import id_of, octets
from .chainstate import Coin, Reply, Tip
from .deployments import soft_forks
from .encoding import EncodingError, Spelled, block_at_front, double_sha
from .errors import Error
from .index import Index, Unspent
from .node import Seat
from .nodebench import Coins, NodeBench
from .replica import Placed, Replica, ReplicaSeat
from .replicalog import Row
from .served import MOST
from .signatures import KnownSignatures, secp256k1

T = TypeVar("T")

#: As many as a replica may have.
SEATS = MOST - 1
#: So often all coins are listed anew, where the history goes on meanwhile.
_TRIES = 20


class ReplicaBench(NodeBench):
    """What `NodeBench` has, over the seats of a `Replica`. The database has the heights and the signatures.

    What is known of blocks (`index`) follows the rows, whichever machine appended them: the thread that takes them holds `turn`
    for each. So a call that holds `turn` and asks nothing sees one place, and a read comes after every row that was taken.
    """

    def __init__(
        self, url: str, seats: int = SEATS, workers: int = 2, program: Optional[str] = None, durable: bool = True
    ) -> None:
        self.index = Index()
        self.turn = threading.Condition(threading.Lock())
        self.steps = self.loaded = 0
        self._listing = 0
        self.moved = lambda move: None
        self._cut = None
        self._data: Dict[bytes, bytes] = {}
        self._own = threading.local()
        self._threads = [0] * seats
        self._seen = [0] * seats
        # A block may take longer than callers of a node wait.
        self.replica = Replica(
            url, seats, workers=workers, program=program, timeout=None, watch=self._took, durable=durable
        )
        self.heights = soft_forks(self.replica.setting.heights)
        self.table = self.replica.setting.signatures
        self.known = KnownSignatures(secp256k1, b"") if self.replica.setting.by_need else None
        self._shadow = None

    def close(self) -> None:
        """Ends the replica."""
        self.replica.close()

    def settle(self, seconds: float = math.inf) -> None:
        """Nothing is under way that the end would lose: the database has it."""

    # ---- rows

    def _took(self, row: Row, reply: Reply, seat: Seat) -> None:
        """Takes a row up, on the thread that follows the log."""
        command, spelled = row.command, None
        if command.command == "submit":
            try:
                spelled = block_at_front(command.data)
            except EncodingError:
                pass
        id = command.data if command.command != "submit" else double_sha(command.data[:80])
        best = seat.getbestblockhash().value
        with self.turn:
            while self._listing:
                self.turn.wait()
            if spelled is not None and id not in self.index.blocks and self._is_kept_by(seat, id, spelled, reply):
                self._data[id] = command.data
                self.index.add(id, spelled)
            self._cut_at(command.command, id)
            self._follow(best)
            self.steps = row.place
            self.turn.notify_all()

    def _is_kept_by(self, seat: Seat, id: bytes, spelled: Spelled, reply: Reply) -> bool:
        """Whether a block is kept, as `NodeBench._is_kept`."""
        if reply.reply != "rejected":
            return reply.reply in ("accepted", "inconclusive")
        return spelled.header.parent in self.index.blocks and any(tip.id == id for tip in seat.getchaintips().value)

    # ---- commands

    def try_submit(self, block: bytes, now: int) -> Reply:
        """As `Bench.try_submit`."""
        data = octets(block, "block")
        return self._written(lambda seat: seat.try_submit(data, now))

    def try_submit_spelled(self, spelled: Spelled, now: int) -> Reply:
        """As `Bench.try_submit_spelled`."""
        return self._written(lambda seat: seat.try_submit(spelled.data, now))

    def try_mark(self, command: str, id: bytes) -> Reply:
        """As `Bench.try_mark`."""
        return self._written(lambda seat: seat.try_mark(command, id))

    def _written(self, ask: Callable[[ReplicaSeat], Placed[Reply]]) -> Reply:
        number = self._number()
        with self.others():
            answered = ask(self.replica.seat(number))
        self._seen[number] = max(self._seen[number], answered.at)
        return answered.value

    # ---- dry runs

    def judge_spelled(self, spelled: Spelled, now: int) -> Reply:
        """As `NodeBench.judge_spelled`."""
        found = self._ask(lambda seat: seat.judge(spelled.data, now))
        if found.value.reply != "accepted":
            self._wait_until_taken(found.at)
        return found.value

    def _wait_until_taken(self, place: int) -> None:
        """Waits until all rows up to a place are taken up here."""
        while self.steps < place:
            # The node took them; where the replica has stopped they won't be taken up.
            self.turn.wait(0.5)
            self.replica.status()

    # ---- reads

    def _ask(self, ask: Callable[[ReplicaSeat], Placed[T]]) -> Placed[T]:
        """Makes a read, which comes after each row that was taken."""
        number, place = self._number(), self.steps
        with self.others():
            seat = self.replica.seat(number)
            if self._seen[number] < place:
                seat.told(place)
            answered = ask(seat)
        self._seen[number] = max(self._seen[number], answered.at)
        return answered

    def tips(self) -> List[Tip]:
        """As `Bench.tips`."""
        return self._ask(ReplicaSeat.getchaintips).value

    def unspent(self, id: bytes, index: int) -> Optional[Unspent]:
        """As `Bench.unspent`."""
        while True:
            found = self._ask(lambda seat: seat.gettxout(id, index))
            if found.value is None:
                return None
            best = self._ask(ReplicaSeat.getbestblockhash)
            if best.at == found.at:
                value, script, height, coinbase, confirmations = found.value
                return Unspent(Coin(value, script, height, coinbase), best.value, confirmations)

    def coins_at(self, outpoints: Sequence[Tuple[bytes, int]]) -> List[Optional[Coin]]:
        """As `NodeBench.coins_at`."""

        def ask(seat: ReplicaSeat) -> Placed[List[Optional[Coin]]]:
            answers = seat.gettxouts(outpoints)
            return Placed(answers[-1].at, [None if it.value is None else Coin(*it.value[:4]) for it in answers])

        if not outpoints:
            return []
        found = self._ask(ask)
        if None in found.value:
            self._wait_until_taken(found.at)
        return found.value

    def coins(self) -> Tuple[bytes, Coins]:
        """As `NodeBench.coins`. The thread that takes rows waits, so that all parts of the list are of one place."""
        seat, place = self.replica.seat(self._number()), self.steps
        self._listing += 1
        try:
            with self.others():
                best, found = self._listed(seat, place)
        finally:
            self._listing -= 1
            self.turn.notify_all()
        self._wait_until_taken(best.at)
        return best.value, found

    @staticmethod
    def _listed(seat: ReplicaSeat, place: int) -> Tuple[Placed[bytes], Coins]:
        """The active block and all coins of one place, which isn't below this one."""
        seat.told(place)
        for _ in range(_TRIES):
            best = seat.getbestblockhash()
            found: Coins = []
            part = seat.coins()
            while part.value and part.at == best.at:
                found += part.value
                part = seat.coins(found[-1][:2])
            if part.at == best.at:
                return best, found
        raise Error("the history goes on faster than its coins can be listed")

    def block(self, id: bytes) -> Optional[bytes]:
        """The bytes of a kept block, or None."""
        return self._data.get(id_of(id))

    def fresh(self) -> int:
        """As `Bench.fresh`; at random, so that no two machines make one block."""
        return random.getrandbits(31)
