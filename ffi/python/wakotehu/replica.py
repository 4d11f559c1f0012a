"""One history on many machines: a node on each, which takes the commands in the order of a table of PostgreSQL.

docs/REPLICAS.md says what is promised. Nothing of it is proved; each node is, and the replicas compare their replies.
"""

import os
import re
import socket
import time
from types import TracebackType
from typing import Callable, Dict, List, NamedTuple, NoReturn, Optional, Sequence, Tuple, Type, TypeVar, Union
from uuid import UUID, uuid4

from . import arguments, errors
from .arguments import Path, number
from .chainstate import BlockHeader, Coin, Moved, Reply, Tip
from .following import Follower
from .node import Node, Seat
from .replicalog import Command, Log, Lost
from .replication import Appender, Bell, Fresh, State, Watch, Watcher, Write
from .served import MOST, TIMEOUT, Stamped, UnspentOutput, Wanted, checked, dry_run, mark, submission
from .signatures import Verify, secp256k1

T = TypeVar("T")

#: As many bytes a block has at most that a node takes.
LONGEST_BLOCK = 0x02000000
_NAME = re.compile("[A-Za-z0-9_]{1,24}")


class Placed(Stamped[T]):
    """An answer, and its place in the table: a write's own, and for a read how many places it comes after.

    `behind`: a read has every row that was in the table so many seconds before it was answered. Of a write it is 0."""

    __slots__ = ("behind",)

    def __init__(self, at: int, value: T, behind: float = 0.0) -> None:
        super().__init__(at, value)
        self.behind = behind


class Status(NamedTuple):
    """How a replica stands: the place that it has, how many seconds it may be behind the table, and why the database can't be
    reached, or None."""

    place: int
    behind: float
    lost: Optional[str]


class ReplicaSeat:
    """A caller's place at a replica. Its calls are a `Seat`'s, and their stamps are places of the table."""

    def __init__(self, replica: "Replica", number: int) -> None:
        self.replica = replica
        self.number = number
        self._seat = replica._node.seat(number)

    # ---- commands

    def submit(self, block: bytes, now: Optional[int] = None, token: Optional[UUID] = None) -> Stamped[str]:
        """Submits a block, as `Seat.submit`: answered when its row is in the table, and this replica's node took it.

        `token` is the row's own, by which `Replica.find` looks for it; a random one by default. `Unavailable` is raised where
        the row isn't in the table and won't be, and `Undecided` where that isn't known."""
        return checked(self.try_submit(block, now, token))

    def try_submit(self, block: bytes, now: Optional[int] = None, token: Optional[UUID] = None) -> Placed[Reply]:
        """The same, and a refusal is answered, not raised. Bytes that are no block have a row too."""
        return self._written(self._submission(block, now, token))

    def invalidate(self, id: bytes, token: Optional[UUID] = None) -> Stamped[str]:
        """As `Seat.invalidate`."""
        return checked(self.try_mark("invalidate", id, token))

    def reconsider(self, id: bytes, token: Optional[UUID] = None) -> Stamped[str]:
        """As `Seat.reconsider`."""
        return checked(self.try_mark("reconsider", id, token))

    def precious(self, id: bytes, token: Optional[UUID] = None) -> Stamped[str]:
        """As `Seat.precious`."""
        return checked(self.try_mark("precious", id, token))

    def try_mark(self, command: str, id: bytes, token: Optional[UUID] = None) -> Placed[Reply]:
        """As `Seat.try_mark`."""
        return self._written(self._mark(command, id, token))

    def _submission(self, block: bytes, now: Optional[int], token: Optional[UUID]) -> Command:
        data = arguments.octets(block, "block")
        if len(data) > LONGEST_BLOCK:
            raise ValueError(f"block must have at most {LONGEST_BLOCK} bytes, not {len(data)}")
        moment = int(time.time()) if now is None else number(now, "now", 63)
        submission(b"", moment)
        return self._command("submit", data, moment, token)

    def _mark(self, command: str, id: bytes, token: Optional[UUID]) -> Command:
        mark(command, id)
        return self._command(command, arguments.id_of(id), None, token)

    def _command(self, command: str, data: bytes, now: Optional[int], token: Optional[UUID]) -> Command:
        own = uuid4() if token is None else arguments.instance(token, UUID, "token")
        return Command(own, f"{self.replica.name}_{self.number}", command, data, now)

    def _written(self, command: Command) -> Placed[Reply]:
        return self._answered(*self.replica._write(command))

    def _answered(self, place: int, reply: Reply) -> Placed[Reply]:
        """From here on the seat reads no earlier than what it was answered."""
        self._seat.told(self.replica._follower_seat)
        return Placed(place, reply)

    # ---- reads

    def gettxout(self, txid: bytes, n: int) -> Placed[Optional[UnspentOutput]]:
        """As `Seat.gettxout`."""
        return self._read(lambda seat: seat.gettxout(txid, n))

    def gettxouts(self, outpoints: Sequence[Tuple[bytes, int]]) -> List[Placed[Optional[UnspentOutput]]]:
        """As `Seat.gettxouts`."""
        return self._read_all(lambda seat: seat.gettxouts(outpoints))

    def getbestblockhash(self) -> Placed[bytes]:
        """As `Seat.getbestblockhash`."""
        return self._read(Seat.getbestblockhash)

    def getchaintips(self) -> Placed[List[Tip]]:
        """As `Seat.getchaintips`."""
        return self._read(Seat.getchaintips)

    def getblock(self, id: bytes) -> Placed[Optional[bytes]]:
        """As `Seat.getblock`."""
        return self._read(lambda seat: seat.getblock(id))

    def getblockheader(self, id: bytes) -> Placed[Optional[BlockHeader]]:
        """As `Seat.getblockheader`."""
        return self._read(lambda seat: seat.getblockheader(id))

    def getblockhash(self, height: int) -> Placed[Optional[bytes]]:
        """As `Seat.getblockhash`."""
        return self._read(lambda seat: seat.getblockhash(height))

    def getancestor(self, id: bytes, height: int) -> Placed[Optional[bytes]]:
        """As `Seat.getancestor`."""
        return self._read(lambda seat: seat.getancestor(id, height))

    def getfork(self, one: bytes, other: bytes) -> Placed[Optional[bytes]]:
        """As `Seat.getfork`."""
        return self._read(lambda seat: seat.getfork(one, other))

    def getspent(self, id: bytes) -> Placed[Optional[List[Coin]]]:
        """As `Seat.getspent`."""
        return self._read(lambda seat: seat.getspent(id))

    def moved(self, before: bytes) -> Placed[Moved]:
        """As `Seat.moved`."""
        return self._read(lambda seat: seat.moved(before))

    def judge(self, block: bytes, now: Optional[int] = None) -> Placed[Reply]:
        """As `Seat.judge`. It has no row; the signatures for which it asks are verified here."""
        call = dry_run(block, now)

        def ask(seat: Seat) -> Stamped[Reply]:
            answered: Stamped[Reply] = seat._ask(call)
            return answered

        while True:
            try:
                return self._read(ask)
            except Wanted as wanted:
                lines = wanted.lines
            self.replica._follower.learn(lines)

    def coins(
        self, above: Optional[Tuple[bytes, int]] = None, most: int = 1000
    ) -> Placed[List[Tuple[bytes, int, Coin]]]:
        """As `Seat.coins`."""
        return self._read(lambda seat: seat.coins(above, most))

    def _read(self, ask: Callable[[Seat], Stamped[T]]) -> Placed[T]:
        return self._read_all(lambda seat: [ask(seat)])[0]

    def _read_all(self, ask: Callable[[Seat], List[Stamped[T]]]) -> List[Placed[T]]:
        """Reads, and stamps what was read by places."""
        replica = self.replica
        while True:
            fresh = replica._fresh()
            answers = ask(self._seat)
            places = [replica._state.places.at(answered.at) for answered in answers]
            if not places or places[0] >= fresh.place:
                behind = time.monotonic() - fresh.moment
                return [Placed(place, answered.value, behind) for place, answered in zip(places, answers)]
            # A seat that was told nothing may be behind the node.
            self._seat.told(replica._follower_seat)

    # ---- what was seen

    def note(self) -> int:
        """The place that the seat has seen. It means the same at every replica."""
        return self.replica._state.places.at(self._seat.note())

    def told(self, place: int) -> int:
        """Waits until this replica has a place, the note of a seat at any replica. From then on the seat has seen it, and reads
        no earlier: which place that makes. Where it doesn't come in time `TimedOut` is raised."""
        self.replica.wait_for(place)
        return self._seen()

    def _seen(self) -> int:
        """The seat has seen what this replica has: which place that makes."""
        return self.replica._state.places.at(self._seat.told(self.replica._follower_seat))


class Replica:
    """A node of a history that many machines have, each by a replica of its own.

    url: the database, as libpq reads it: `postgresql://host/name` or `host=.. dbname=..`. `wakotehu-replica init` prepares it.
    seats: how many callers, 1 to 15.
    name: the replica's name, another one for each: letters, digits and `_`, at most 24; the host's and the process's by
        default.
    workers, program: as of a `Node`.
    verify: as of a `Node`, where the history has signatures by need; `secp256k1` by default.
    recheck: which share of the verdicts of other replicas is tested again, from 0 to 1.
    timeout: how many seconds a call waits; None is for ever.
    catch_up: how many seconds the opening waits until the replica has what the table has; None is for ever.
    poll: how many seconds pass at most until the table is asked for new rows, where the database doesn't notify.
    durable: False also takes a database whose settings may lose rows that it has confirmed (`NotDurable` says which).
    watch: is called with each row, its reply and a seat that reads just behind it, by the thread that takes the rows, before the
        reply is answered.

        with Replica("postgresql://log.example/history") as replica:
            replica.seat(0).submit(block)

    Any thread may call. Where a reply differs from another replica's, calls raise `ReplicaDiffers`.
    """

    def __init__(
        self, url: str, seats: int = 4, *, name: Optional[str] = None, workers: int = 2, program: Optional[Path] = None,
        verify: Optional[Verify] = None, recheck: float = 0.0, timeout: Optional[float] = TIMEOUT,
        catch_up: Optional[float] = None, poll: float = 0.5, watch: Optional[Watch] = None, durable: bool = True,
    ) -> None:  # fmt: skip
        self.url = arguments.text(url, "url")
        if not 1 <= number(seats, "seats") < MOST:
            raise ValueError(f"seats must be from 1 to {MOST - 1}")
        self.name = _name(name)
        self._timeout, catch_up = arguments.seconds(timeout, "timeout"), arguments.seconds(catch_up, "catch_up")
        recheck, poll = _share(recheck), arguments.seconds(poll, "poll") or 0.5
        self._count = int(seats)
        self._seats: Dict[int, ReplicaSeat] = {}
        self._state = State(self.name, arguments.instance(durable, bool, "durable"))
        logs = [self._connect()]
        try:
            used = self._open(logs, workers, program, verify)
        except BaseException:
            for log in logs:
                log.close()
            raise
        self._follower: Follower = Follower(
            self._state, self.url, logs[0], self._follower_seat, used, recheck, poll, self._may_write, watch
        )
        self._threads: List[Union[Follower, Appender]] = [
            self._follower,
            *(Appender(self._state, self.url, log) for log in logs[1:]),
        ]
        for thread in (*self._threads, Watcher(self._state, self._threads)):
            thread.start()
        try:
            self._wait(lambda: self._state.fresh is not None, catch_up, "the replica didn't catch up in time")
        except BaseException:
            self.close()
            raise

    def _connect(self) -> Log:
        try:
            return Log(self.url)
        except Lost as error:
            raise errors.Unavailable(f"the database can't be reached: {error}") from None

    def _open(
        self, logs: List[Log], workers: int, program: Optional[Path], verify: Optional[Verify]
    ) -> Optional[Verify]:
        """Opens the node, and one more connection where rows may be added: what finds out signatures, or None for a table."""
        try:
            setting, self._may_write = logs[0].setting(), logs[0].may_write()
            if self._state.is_durable:
                logs[0].check_durable()
        except Lost as error:
            raise errors.Unavailable(f"the database can't be reached: {error}") from None
        #: Under which rules all replicas run.
        self.setting = setting
        if verify is not None and not setting.by_need:
            raise ValueError("verify must be None: the history has a table of signatures")
        if self._may_write:
            logs.append(self._connect())
        used = (verify or secp256k1) if setting.by_need else None
        self._node = Node(
            self._count + 1, workers, setting.heights, None if setting.by_need else setting.signatures, program,
            timeout=self._timeout, verify=used,
        )  # fmt: skip
        #: The seat of the one that takes the rows; no caller has it.
        self._follower_seat = self._node.seat(self._count)
        return used

    @property
    def seats(self) -> List[ReplicaSeat]:
        """Its seats, in order."""
        return [self.seat(number) for number in range(self._count)]

    def seat(self, number: int) -> ReplicaSeat:
        """The seat of a number, from 0."""
        if not 0 <= arguments.integer(number, "number") < self._count:
            raise IndexError(f"the seats are 0 to {self._count - 1}")
        return self._seats.setdefault(number, ReplicaSeat(self, number))

    # ---- how it stands

    @property
    def place(self) -> int:
        """The place that the replica has."""
        return self._state.taken

    def status(self) -> Status:
        """How the replica stands; one that has stopped raises why."""
        fresh = self._fresh()
        with self._state.lock:
            lost = next(iter(self._state.lost.values()), None)
            return Status(self._state.taken, time.monotonic() - fresh.moment, lost)

    def wait_for(self, place: int) -> None:
        """Waits until the replica has a place; where it doesn't come in time `TimedOut` is raised."""
        place = number(place, "place", 63)
        self._wait(lambda: self._state.taken >= place, self._timeout, late(place))

    def find(self, token: UUID, after: int = 0) -> Optional[int]:
        """The place of the row with a token, or None if there is no such row yet. It goes over the rows above `after`."""
        token, after = arguments.instance(token, UUID, "token"), number(after, "after", 63)
        try:
            with self._connect() as log:
                return log.place_of(token, after)
        except Lost as error:
            raise errors.Unavailable(f"the database can't be reached: {error}") from None

    def _fresh(self) -> Fresh:
        with self._state.lock:
            self._check()
            assert self._state.fresh is not None
            return self._state.fresh

    def _check(self) -> None:
        """Refuses calls where the replica has stopped."""
        if self._state.error is not None:
            raise self._state.error
        if self._state.is_closing:
            raise errors.Closed("the replica was closed")

    def _wait(self, is_done: Callable[[], bool], seconds: Optional[float], late: str) -> None:
        state, until = self._state, None if seconds is None else time.monotonic() + seconds
        while True:
            bell = Bell()
            with state.lock:
                self._check()
                if is_done():
                    return
                state.look(bell)
            try:
                left = None if until is None else max(0.0, until - time.monotonic())
                if not bell.wait(left):
                    raise errors.TimedOut(late)
            finally:
                state.leave(bell)

    # ---- writes

    def _write(self, command: Command) -> Tuple[int, Reply]:
        """Has a command appended, and taken: its place and the reply."""
        write = Write(command, Bell())
        self._begin(write)
        try:
            write.done.wait(self._timeout)
        finally:
            self._leave(write)
        return self._outcome(write)

    def _begin(self, write: Write) -> None:
        """Hands a command to the thread that appends."""
        state, token = self._state, write.command.token
        with state.lock:
            self._check()
            if not self._may_write:
                raise errors.ReadOnly("the role of this replica may only follow")
            if state.lost:
                raise errors.Unavailable(f"the database can't be reached: {next(iter(state.lost.values()))}")
            if token in state.writes:
                raise ValueError("token must be another one: a write with this one is under way")
            state.writes[token] = write
            state.queue.append(write)
            state.work.notify()

    def _leave(self, write: Write) -> None:
        """Nobody waits for a command any more. One that wasn't sent is taken back."""
        state = self._state
        with state.lock:
            del state.writes[write.command.token]
            if not write.is_sent and write in state.queue:
                state.queue.remove(write)

    def _outcome(self, write: Write) -> Tuple[int, Reply]:
        """What became of a write."""
        if write.reply is not None and write.place is not None:
            return write.place, write.reply
        if write.error is not None:
            raise write.error
        if not write.is_sent:
            self._check()
            raise errors.Unavailable("the command wasn't sent in time")
        if self._state.error is not None:
            raise self._state.error
        where = "whether the row is in the table isn't known" if write.place is None else f"the row has place {write.place}"
        raise errors.Undecided(f"the write wasn't answered in time: {where}", write.command.token)

    # ---- its life

    def close(self) -> None:
        """Stops. Who waits hears `Closed`, or `Undecided` where the command was sent; replies are written first."""
        state = self._state
        state.stop(None)
        for thread in reversed(self._threads):
            if isinstance(thread, Appender):
                thread.join(5)
            thread.interrupt()
            thread.join(5)
        # A thread that is there still waits for the node.
        self._node.kill()
        for thread in self._threads:
            thread.join(10)

    def __enter__(self) -> "Replica":
        return self

    def __exit__(
        self, kind: Optional[Type[BaseException]], value: Optional[BaseException], trace: Optional[TracebackType]
    ) -> None:
        self.close()

    def __reduce_ex__(self, protocol: object) -> NoReturn:
        """As of a `Node`."""
        raise TypeError("a Replica can't be copied or pickled")


def late(place: int) -> str:
    """What is said of a place that didn't come."""
    return f"place {place} didn't come in time"


def _name(given: Optional[str]) -> str:
    if given is None:
        host = re.sub("[^A-Za-z0-9_]", "_", socket.gethostname())[:16]
        return f"{host or 'replica'}_{os.getpid()}"
    if not _NAME.fullmatch(arguments.text(given, "name")):
        raise ValueError("name must have 1 to 24 letters, digits or _")
    return given


def _share(value: float) -> float:
    if isinstance(value, bool) or not isinstance(value, (int, float)):
        raise TypeError(f"recheck must be a number, not {arguments.kind_of(value)}")
    if not 0 <= value <= 1:
        raise ValueError("recheck must be from 0 to 1")
    return float(value)
