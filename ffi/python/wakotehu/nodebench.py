"""A node of many seats as one bench, for a server whose connections call beside one another."""

import math
import os
import threading
import time
from contextlib import contextmanager
from types import TracebackType
from typing import Callable, Dict, Iterator, List, NamedTuple, NoReturn, Optional, Sequence, Tuple, Type, TypeVar, Union

from . import ahead, errors
from .arguments import Path, id_of, lines, octets, path
from .chainstate import Coin, Reply, Tip
from .consensus import Table, Triple
from .deployments import GivenHeights
from .encoding import EncodingError, Spelled, block_at_front, double_sha
from .history import LOG, VERDICTS, past_of
from .index import Index, Unspent, Walks
from .node import Node, Seat, Stamped
from .signatures import KnownSignatures, Verify
from .stage import Shadow, Stage

T = TypeVar("T")
#: Coins with their outpoints.
Coins = List[Tuple[bytes, int, Coin]]

#: As many as a node may have.
SEATS = 16
#: So many seconds are no limit, and not too many for a lock.
_LONG = 3600.0


class Move(NamedTuple):
    """A move of the active branch: the ids of the blocks that left it, the highest first, and of those that came, the lowest
    first; the height of its best block before, and of the parent of a block that was marked as invalid on it."""

    gone: List[bytes]
    come: List[bytes]
    top: int
    cut: Optional[int]


class NodeBench(Walks):
    """What `Bench` has, over the seats of a `Node`.

    table: the valid signatures, as lines; no others are.
    verify: finds out which others are valid, as scripts ask for them: a function as `Node`'s. It runs on the thread that
        submits, which holds no lock then.
    datadir, sync: as `Node`'s. What is known of blocks and signatures begins with what the folder's log tells.

    A thread has a seat from its first call until `leave`; where all are taken it shares the one that the fewest threads
    have. Who calls holds `turn`, and it is let go while the node answers: so a read waits for no submission of another
    thread, and two submissions are judged at once.

    What is known of blocks (`index`) follows the history. Each thread takes its own command up, in the order of the
    steps, and returns when the active branch is known as it was after that step or a later one. Steps that are verdicts
    are nobody's to take up: the journal says which those are. A seat that has seen less than the one that took the last
    step hears of it before it reads: so a read comes after every step that was answered.
    """

    def __init__(
        self, heights: Optional[GivenHeights] = None, table: Union[str, bytes] = b"", seats: int = SEATS,
        workers: int = 2, program: Optional[str] = None, verify: Optional[Verify] = None,
        datadir: Optional[Path] = None, sync: bool = True,
    ) -> None:  # fmt: skip
        #: What was found out of signatures; None where the table says which are valid.
        self.known = None if verify is None else KnownSignatures(verify, table)
        #: The signatures that are valid where nothing is found out of others.
        self.table = lines(table, "table")
        self.index = Index()
        #: Held by who calls; told when a step was taken up.
        self.turn = threading.Condition(threading.Lock())
        #: The place of the last command that was taken up, and after which step the active branch is known.
        self.steps = 0
        self._followed = 0
        #: How many commands the folder had.
        self.loaded = 0
        self._made = 0
        self._under_way = 0
        #: How many threads list all coins, for which commands wait.
        self._listing = 0
        self._broken: Optional[errors.Error] = None
        #: Is told of each move of the active branch.
        self.moved: Callable[[Move], None] = lambda move: None
        self._cut: Optional[int] = None
        self._data: Dict[bytes, bytes] = {}
        self._shadow: Optional[Shadow] = None
        self._own = threading.local()
        self._threads = [0] * seats
        self._seen = [0] * seats
        self._newest = 0
        # A block may take longer than callers of a node wait, and a step that nobody takes up would hold up all others.
        given, verify = (self.table, None) if self.known is None else (None, self._verdicts)
        self.node = Node(
            seats, workers, heights, given, program, datadir=datadir, sync=sync, timeout=None, verify=verify
        )
        # Rounds needs all that a command wants at once.
        self.node._is_parted = False
        self.heights = self.node.info.heights
        if datadir is not None:
            try:
                self._go_on(os.path.join(path(datadir, "datadir"), LOG))
            except BaseException:
                self.close()
                raise

    def _go_on(self, log: str) -> None:
        """Takes up what a log has, which the node has played."""
        seat = self.node.seat(0)
        past = past_of(log, seat.getchaintips().value, seat.getbestblockhash().value)
        self.index, self._data, self.loaded = past.index, past.data, past.commands
        if self.known is not None:
            self.known.learn(past.verdicts)
        self.steps = self._followed = self._seen[0] = seat.note()

    def close(self) -> None:
        """Ends the node."""
        self.node.kill()

    def __enter__(self) -> "NodeBench":
        return self

    def __exit__(
        self, kind: Optional[Type[BaseException]], value: Optional[BaseException], trace: Optional[TracebackType]
    ) -> None:
        self.close()

    def __reduce_ex__(self, protocol: object) -> NoReturn:
        """As of a `Node`."""
        raise TypeError("a NodeBench can't be copied or pickled")

    # ---- threads and their seats

    @contextmanager
    def others(self) -> Iterator[None]:
        """Lets other threads call meanwhile."""
        self.turn.release()
        try:
            yield
        finally:
            self.turn.acquire()

    def _number(self) -> int:
        """The number of this thread's seat."""
        number: Optional[int] = getattr(self._own, "number", None)
        if number is None:
            number = self._threads.index(min(self._threads))
            self._threads[number] += 1
            self._own.number = number
        return number

    def leave(self) -> None:
        """This thread calls no more."""
        number = getattr(self._own, "number", None)
        if number is not None:
            self._threads[number] -= 1
            del self._own.number

    def settle(self, seconds: float = math.inf) -> None:
        """Waits until no step is under way, and at most so long."""
        until = time.monotonic() + seconds
        while self._under_way and not self._broken and time.monotonic() < until:
            self.turn.wait(min(until - time.monotonic(), _LONG))

    def _asked(self, ask: Callable[[Seat], Stamped[T]]) -> Stamped[T]:
        """What this thread's seat answers, while other threads call."""
        number = self._number()
        try:
            with self.others():
                answered = ask(self.node.seat(number))
        except (errors.Owed, errors.NodeDied) as error:
            # A step of which nobody was told: those behind it can't be taken up.
            raise self._break(error)
        except errors.NotSaved as error:
            raise self._break(self._why(error))
        except errors.Contradiction as error:
            # Its command may have been taken all the same.
            raise self._break(error) if error.answered else error
        self._saw(number, answered.at)
        return answered

    def _why(self, error: errors.NotSaved) -> errors.Error:
        """The same fault with its reason: the node ends, and says it."""
        try:
            with self.others():
                self.node.seat(0).note()
        except errors.NodeDied as died:
            return errors.NotSaved(error.code, "not saved", died.stderr.strip().rpartition("\n")[2])
        except errors.Error:
            pass
        return error

    def _break(self, error: errors.Error) -> errors.Error:
        """No more steps can be taken up."""
        self._broken = error
        self.turn.notify_all()
        return error

    def _saw(self, number: int, at: int) -> None:
        self._seen[number] = max(self._seen[number], at)
        if at > self._seen[self._newest]:
            self._newest = number

    def _read(self, ask: Callable[[Seat], Stamped[T]]) -> Stamped[T]:
        """Makes a read, which comes after each step that was answered."""
        number, newest = self._number(), self._newest
        if self._seen[number] < self._seen[newest]:
            self._asked(lambda seat: Stamped(seat.told(self.node.seat(newest)), None))
        return self._asked(ask)

    # ---- commands

    def try_submit(self, block: bytes, now: int) -> Reply:
        """As `Bench.try_submit`."""
        data = octets(block, "block")
        try:
            spelled = block_at_front(data)
        except EncodingError:
            spelled = None
        if spelled is None or spelled.data != data:
            # No block, so no step.
            return self._asked(lambda seat: seat.try_submit(data, now)).value
        return self.try_submit_spelled(spelled, now)

    def try_submit_spelled(self, spelled: Spelled, now: int) -> Reply:
        """As `Bench.try_submit_spelled`."""
        id, data = double_sha(spelled.data[:80]), spelled.data

        def take_up(reply: Reply) -> None:
            if id not in self.index.blocks and self._is_kept(id, spelled, reply):
                self._data[id] = data
                self.index.add(id, spelled)

        return self._step(lambda seat: seat.try_submit(data, now), take_up, spelled)

    def try_mark(self, command: str, id: bytes) -> Reply:
        """As `Bench.try_mark`."""
        return self._step(lambda seat: seat.try_mark(command, id), lambda reply: self._cut_at(command, id))

    def _is_kept(self, id: bytes, spelled: Spelled, reply: Reply) -> bool:
        """Whether a block is kept that wasn't there before. One that breaks a rule as it is connected is kept, as a tip
        that nothing stands on."""
        if reply.reply != "rejected":
            return reply.reply in ("accepted", "inconclusive")
        known = spelled.header.parent in self.index.blocks
        return known and any(tip.id == id for tip in self._asked(Seat.getchaintips).value)

    def _step(
        self, ask: Callable[[Seat], Stamped[Reply]], take_up: Callable[[Reply], None], spelled: Optional[Spelled] = None
    ) -> Reply:
        """Has a command taken as a step, a submission or a mark, and takes it up in its turn."""
        while self._listing:
            self.turn.wait()
        self._under_way += 1
        try:
            if self.known is not None:
                self._own.rounds = self._rounds(self.known, self.node.seat(self._number()), spelled)
            answered = self._asked(ask)
            if answered.value.reply != "decode-failed":
                self._take_up(answered, take_up, spelled)
        finally:
            self._own.rounds = None
            self._under_way -= 1
            self.turn.notify_all()
        return answered.value

    def _take_up(
        self, answered: Stamped[Reply], take_up: Callable[[Reply], None], spelled: Optional[Spelled]
    ) -> None:  # fmt: skip
        self._wait_for(answered.at - 1)
        try:
            take_up(answered.value)
        finally:
            self.steps = answered.at
            self.turn.notify_all()
        best = self._best_after(answered, spelled)
        if self._followed < best.at:
            self._followed = best.at
            self._follow(best.value)
        self._cut = None

    def _follow(self, best: bytes) -> None:
        """Makes the branch of a block the active one, and tells of that."""
        top, cut = len(self.index.active) - 1, self._cut
        self._cut = None
        gone, come = self.index.follow(best)
        if gone or come:
            self.moved(Move(gone, come, top, cut))

    def _cut_at(self, command: str, id: bytes) -> None:
        """Notes where an active block is marked as invalid: its parent is the best one before others come."""
        found = self.index.blocks.get(id)
        if command == "invalidate" and found is not None and self.index.is_active(id):
            self._cut = found.height - 1

    def _best_after(self, answered: Stamped[Reply], spelled: Optional[Spelled]) -> Stamped[bytes]:
        """The active block after a command, or after a later one; all up to it were taken up."""
        if spelled and answered.value.reply == "accepted":
            return Stamped(answered.at, double_sha(spelled.data[:80]))
        best = self._asked(Seat.getbestblockhash)
        self._wait_for(best.at)
        return best

    def _wait_for(self, step: int) -> None:
        """Waits until all commands among so many steps were taken up."""
        try:
            last = max(self._commands(self.steps + 1, step), default=0)
        except errors.Memory as error:
            raise self._break(errors.Owed(f"a step can't be taken up: {error}")) from error
        while self.steps < last:
            if self._broken:
                raise self._broken
            self.turn.wait()

    def _wait_until_followed(self, step: int) -> None:
        """Waits until the active branch is known as it was after so many steps."""
        last = max(self._commands(self._followed + 1, step), default=0)
        while self._followed < last:
            if self._broken:
                raise self._broken
            self.turn.wait()
        # No other commands are among them.
        self._followed = max(self._followed, step)

    def _commands(self, first: int, last: int) -> Sequence[int]:
        """Which of these steps, which this thread's seat has seen, are commands. The others are verdicts."""
        if self.known is None or first > last:
            return range(first, last + 1)
        entries = self._asked(lambda seat: seat.journal(first, last)).value
        return [entry.step for entry in entries if entry.command not in VERDICTS]

    # ---- dry runs

    def judge_spelled(self, spelled: Spelled, now: int) -> Reply:
        """As `Bench.judge_spelled`. A block that wouldn't be accepted is answered when the active branch is known as it was then:
        perhaps it isn't the one that the block was made for."""
        try:
            if self.known is not None:
                self._own.rounds = self._rounds(self.known, self.node.seat(self._number()), spelled)
            found = self._read(lambda seat: seat.judge(spelled.data, now))
        finally:
            self._own.rounds = None
        if found.value.reply != "accepted":
            self._wait_until_followed(found.at)
        return found.value

    def stage(self) -> Optional[Stage]:
        """A stage on the active block, or None where the active branch moves meanwhile. It is of a chainstate of this process,
        which takes the active blocks here: one thread at a time may ask for it."""
        ids = list(self.index.active)
        with self.others():
            if self._shadow is None:
                self._shadow = Shadow(self.heights, self.table, None if self.known is None else self.known.verdicts)
            return self._shadow.stage(ids, self._data)

    # ---- signatures

    def is_valid(self, triple: Triple) -> bool:
        """Whether the node takes a signature for valid, or would, once it asked."""
        if self.known is None:
            return Table(self.table).has(*triple)
        return self.known.verdicts([triple.line[:-1]])[0]

    def _verdicts(self, lines: Sequence[bytes]) -> List[bool]:
        """Which signatures are valid that this thread's command wants. Other threads call meanwhile."""
        rounds: Optional[ahead.Rounds] = self._own.rounds
        assert rounds is not None, "commands alone want signatures"
        return rounds.verdicts(lines)

    def _rounds(self, known: KnownSignatures, seat: Seat, spelled: Optional[Spelled]) -> ahead.Rounds:
        return ahead.Rounds(known, lambda: self._places(seat, spelled), self.transaction, seat._learn)

    def _places(self, seat: Seat, spelled: Optional[Spelled]) -> Iterator[ahead.Place]:
        """The blocks whose scripts a command may run: those of a branch that aren't active, the lowest first."""
        tips = [spelled.header.parent] if spelled else [tip.id for tip in seat.getchaintips().value]
        with self.turn:
            found = [self.index.blocks[id] for tip in tips for id in self.index.beside(tip)]
            parent = self.index.blocks.get(tips[0])
        for kept in found:
            yield ahead.Place(block_at_front(self._data[kept.id]), ahead.Flags.at(kept.height, self.heights))
        if spelled and parent:
            yield ahead.Place(spelled, ahead.Flags.at(parent.height + 1, self.heights))

    # ---- reads

    def best(self) -> bytes:
        """The active block's id."""
        return self.index.active[-1]

    def tips(self) -> List[Tip]:
        """As `Bench.tips`."""
        return self._read(Seat.getchaintips).value

    def unspent(self, id: bytes, index: int) -> Optional[Unspent]:
        """As `Bench.unspent`."""
        while True:
            found = self._read(lambda seat: seat.gettxout(id, index))
            if found.value is None:
                return None
            best = self._asked(Seat.getbestblockhash)
            if not self._commands(found.at + 1, best.at):
                value, script, height, coinbase, confirmations = found.value
                return Unspent(Coin(value, script, height, coinbase), best.value, confirmations)

    def coins_at(self, outpoints: Sequence[Tuple[bytes, int]]) -> List[Optional[Coin]]:
        """As `Bench.coins_at`. Where one isn't there, it is answered when the active branch is known as it was then."""

        def ask(seat: Seat) -> Stamped[List[Optional[Coin]]]:
            answers = seat.gettxouts(outpoints)
            coins = [None if it.value is None else Coin(*it.value[:4]) for it in answers]
            return Stamped(answers[-1].at, coins)

        if not outpoints:
            return []
        found = self._read(ask)
        if None in found.value:
            self._wait_until_followed(found.at)
        return found.value

    def coins(self) -> Tuple[bytes, Coins]:
        """The active block's id, and all coins by rising outpoints, of one state. They come in parts: where a command
        comes between these they are read again; the third time commands wait, and reads don't."""
        for _ in range(2):
            best = self._read(Seat.getbestblockhash)
            found = self._all_coins(self._asked)
            if not self._commands(best.at + 1, found.at):
                self._wait_for(best.at)
                return best.value, found.value
        self._listing += 1
        try:
            self.settle()
            best = self._read(Seat.getbestblockhash)
            return best.value, self._all_coins(self._asked).value
        finally:
            self._listing -= 1
            self.turn.notify_all()

    @staticmethod
    def _all_coins(asked: Callable[[Callable[[Seat], Stamped[Coins]]], Stamped[Coins]]) -> Stamped[Coins]:
        """All coins, and the place of the last part."""
        found: Coins = []
        while True:
            part = asked(lambda seat: seat.coins(found[-1][:2] if found else None))
            if not part.value:
                return Stamped(part.at, found)
            found += part.value

    def block(self, id: bytes) -> Optional[bytes]:
        """The bytes of a kept block, or None."""
        return self._data.get(id_of(id))

    def fresh(self) -> int:
        """As `Bench.fresh`."""
        self._made = max(self._made + 1, self.steps)
        return self._made
