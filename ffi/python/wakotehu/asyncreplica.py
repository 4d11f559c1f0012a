"""A replica for asyncio. Its two threads follow the log and add to it, as a `Replica`'s; a write, and who waits for a
place, takes no thread of its own. A read is made by one of a few threads, since the node answers at once."""

import asyncio
from concurrent.futures import Future, ThreadPoolExecutor
from functools import partial
from types import TracebackType
from typing import Callable, Dict, List, NoReturn, Optional, Sequence, Tuple, Type, TypeVar
from uuid import UUID

from . import errors
from .arguments import Path, number
from .chainstate import BlockHeader, Coin, Moved, Reply, Tip
from .replica import Placed, Replica, ReplicaSeat, Status, late
from .replicalog import Command, Setting
from .replication import Bell, Watch, Write
from .served import TIMEOUT, Stamped, UnspentOutput, checked
from .signatures import Verify

T = TypeVar("T")

#: So many reads are made at once.
_READERS = 8


class _Bell(Bell):
    """Is set by any thread, and heard in an event loop."""

    def __init__(self) -> None:
        super().__init__()
        self._loop = asyncio.get_running_loop()
        self._heard: "asyncio.Future[None]" = self._loop.create_future()

    def set(self) -> None:
        super().set()
        try:
            self._loop.call_soon_threadsafe(self._hear)
        except RuntimeError:
            pass  # The loop is closed, and nobody waits any more.

    def _hear(self) -> None:
        if not self._heard.done():
            self._heard.set_result(None)

    async def heard(self, seconds: Optional[float]) -> None:
        """Waits until it is set, and at most so long."""
        await asyncio.wait([self._heard], timeout=seconds)


class AsyncReplicaSeat:
    """As `ReplicaSeat`, each call a coroutine."""

    def __init__(self, replica: "AsyncReplica", seat: ReplicaSeat) -> None:
        self.replica = replica
        self.number = seat.number
        self._seat = seat

    # ---- commands

    async def submit(self, block: bytes, now: Optional[int] = None, token: Optional[UUID] = None) -> Stamped[str]:
        """As `ReplicaSeat.submit`."""
        return checked(await self.try_submit(block, now, token))

    async def try_submit(
        self, block: bytes, now: Optional[int] = None, token: Optional[UUID] = None
    ) -> Placed[Reply]:
        """As `ReplicaSeat.try_submit`."""
        return await self._written(self._seat._submission(block, now, token))

    async def invalidate(self, id: bytes, token: Optional[UUID] = None) -> Stamped[str]:
        """As `ReplicaSeat.invalidate`."""
        return checked(await self.try_mark("invalidate", id, token))

    async def reconsider(self, id: bytes, token: Optional[UUID] = None) -> Stamped[str]:
        """As `ReplicaSeat.reconsider`."""
        return checked(await self.try_mark("reconsider", id, token))

    async def precious(self, id: bytes, token: Optional[UUID] = None) -> Stamped[str]:
        """As `ReplicaSeat.precious`."""
        return checked(await self.try_mark("precious", id, token))

    async def try_mark(self, command: str, id: bytes, token: Optional[UUID] = None) -> Placed[Reply]:
        """As `ReplicaSeat.try_mark`."""
        return await self._written(self._seat._mark(command, id, token))

    async def _written(self, command: Command) -> Placed[Reply]:
        place, reply = await self.replica._write(command)
        return await self._run(lambda: self._seat._answered(place, reply))

    # ---- reads

    async def gettxout(self, txid: bytes, n: int) -> Placed[Optional[UnspentOutput]]:
        """As `ReplicaSeat.gettxout`."""
        return await self._run(lambda: self._seat.gettxout(txid, n))

    async def gettxouts(self, outpoints: Sequence[Tuple[bytes, int]]) -> List[Placed[Optional[UnspentOutput]]]:
        """As `ReplicaSeat.gettxouts`."""
        return await self._run(lambda: self._seat.gettxouts(outpoints))

    async def getbestblockhash(self) -> Placed[bytes]:
        """As `ReplicaSeat.getbestblockhash`."""
        return await self._run(self._seat.getbestblockhash)

    async def getchaintips(self) -> Placed[List[Tip]]:
        """As `ReplicaSeat.getchaintips`."""
        return await self._run(self._seat.getchaintips)

    async def getblock(self, id: bytes) -> Placed[Optional[bytes]]:
        """As `ReplicaSeat.getblock`."""
        return await self._run(lambda: self._seat.getblock(id))

    async def getblockheader(self, id: bytes) -> Placed[Optional[BlockHeader]]:
        """As `ReplicaSeat.getblockheader`."""
        return await self._run(lambda: self._seat.getblockheader(id))

    async def getblockhash(self, height: int) -> Placed[Optional[bytes]]:
        """As `ReplicaSeat.getblockhash`."""
        return await self._run(lambda: self._seat.getblockhash(height))

    async def getancestor(self, id: bytes, height: int) -> Placed[Optional[bytes]]:
        """As `ReplicaSeat.getancestor`."""
        return await self._run(lambda: self._seat.getancestor(id, height))

    async def getfork(self, one: bytes, other: bytes) -> Placed[Optional[bytes]]:
        """As `ReplicaSeat.getfork`."""
        return await self._run(lambda: self._seat.getfork(one, other))

    async def getspent(self, id: bytes) -> Placed[Optional[List[Coin]]]:
        """As `ReplicaSeat.getspent`."""
        return await self._run(lambda: self._seat.getspent(id))

    async def moved(self, before: bytes) -> Placed[Moved]:
        """As `ReplicaSeat.moved`."""
        return await self._run(lambda: self._seat.moved(before))

    async def judge(self, block: bytes, now: Optional[int] = None) -> Placed[Reply]:
        """As `ReplicaSeat.judge`."""
        return await self._run(lambda: self._seat.judge(block, now))

    async def coins(
        self, above: Optional[Tuple[bytes, int]] = None, most: int = 1000
    ) -> Placed[List[Tuple[bytes, int, Coin]]]:
        """As `ReplicaSeat.coins`."""
        return await self._run(lambda: self._seat.coins(above, most))

    async def _run(self, call: Callable[[], T]) -> T:
        return await self.replica._run(call)

    # ---- what was seen

    async def note(self) -> int:
        """As `ReplicaSeat.note`."""
        return await self._run(self._seat.note)

    async def told(self, place: int) -> int:
        """As `ReplicaSeat.told`."""
        await self.replica.wait_for(place)
        return await self._run(self._seat._seen)


class AsyncReplica:
    """As `Replica`, for asyncio. It is opened and closed with the context.

        async with AsyncReplica("postgresql://log.example/history") as replica:
            await replica.seat(0).submit(block)

    It is of the event loop in which it was opened: in another one its calls raise `OtherLoop`. A write that is cancelled
    may go in all the same, unless it wasn't sent yet.
    """

    def __init__(
        self, url: str, seats: int = 4, *, name: Optional[str] = None, workers: int = 2,
        program: Optional[Path] = None, verify: Optional[Verify] = None, recheck: float = 0.0,
        timeout: Optional[float] = TIMEOUT, catch_up: Optional[float] = None, poll: float = 0.5,
        watch: Optional[Watch] = None, durable: bool = True,
    ) -> None:  # fmt: skip
        self._open = partial(
            Replica, url, seats, name=name, workers=workers, program=program, verify=verify, recheck=recheck,
            timeout=timeout, catch_up=catch_up, poll=poll, watch=watch, durable=durable,
        )  # fmt: skip
        self._replica: Optional[Replica] = None
        self._threads: Optional[ThreadPoolExecutor] = None
        self._seats: Dict[int, AsyncReplicaSeat] = {}

    async def __aenter__(self) -> "AsyncReplica":
        if self._threads is not None:
            raise errors.Closed("the replica was opened before")
        self._loop = asyncio.get_running_loop()
        self._threads = ThreadPoolExecutor(_READERS, "wakotehu-read")
        opening = self._threads.submit(self._open)
        try:
            opened = await asyncio.wrap_future(opening)
        except BaseException:
            # Where it was cancelled it may be opened yet.
            opening.add_done_callback(_close)
            self._threads.shutdown(wait=False)
            self._threads = None
            raise
        self._replica = opened
        return self

    async def __aexit__(
        self, kind: Optional[Type[BaseException]], value: Optional[BaseException], trace: Optional[TracebackType]
    ) -> None:
        await self.close()

    async def close(self) -> None:
        """As `Replica.close`."""
        replica, threads = self._opened(), self._threads
        assert threads is not None
        # Beside the threads that read, which may wait for the node.
        await self._loop.run_in_executor(None, replica.close)
        threads.shutdown(wait=False)

    def _opened(self) -> Replica:
        if self._replica is None:
            raise errors.Closed("the replica isn't open")
        if asyncio.get_running_loop() is not self._loop:
            raise errors.OtherLoop("the replica was opened in another event loop")
        return self._replica

    async def _run(self, call: Callable[[], T]) -> T:
        """Makes a call by a thread."""
        replica = self._opened()
        with replica._state.lock:
            replica._check()
        return await self._loop.run_in_executor(self._threads, call)

    # ---- seats

    @property
    def seats(self) -> List[AsyncReplicaSeat]:
        """Its seats, in order."""
        return [self.seat(own.number) for own in self._opened().seats]

    def seat(self, number: int) -> AsyncReplicaSeat:
        """The seat of a number, from 0."""
        own = self._opened().seat(number)
        return self._seats.setdefault(own.number, AsyncReplicaSeat(self, own))

    # ---- how it stands

    @property
    def name(self) -> str:
        """The replica's name."""
        return self._opened().name

    @property
    def setting(self) -> Setting:
        """Under which rules all replicas run."""
        return self._opened().setting

    @property
    def place(self) -> int:
        """The place that the replica has."""
        return self._opened().place

    def status(self) -> Status:
        """As `Replica.status`."""
        return self._opened().status()

    async def wait_for(self, place: int) -> None:
        """As `Replica.wait_for`."""
        replica, place, bell = self._opened(), number(place, "place", 63), _Bell()
        state = replica._state
        with state.lock:
            replica._check()
            state.wait(place, bell)
        try:
            await bell.heard(replica._timeout)
        finally:
            state.leave(bell)
        with state.lock:
            replica._check()
            if state.taken < place:
                raise errors.TimedOut(late(place))

    async def find(self, token: UUID, after: int = 0) -> Optional[int]:
        """As `Replica.find`."""
        replica = self._opened()
        return await self._run(lambda: replica.find(token, after))

    async def _write(self, command: Command) -> Tuple[int, Reply]:
        """As `Replica._write`."""
        replica, bell = self._opened(), _Bell()
        write = Write(command, bell)
        replica._begin(write)
        try:
            await bell.heard(replica._timeout)
        finally:
            replica._leave(write)
        return replica._outcome(write)

    def __reduce_ex__(self, protocol: object) -> NoReturn:
        """As of a `Node`."""
        raise TypeError("an AsyncReplica can't be copied or pickled")


def _close(opening: "Future[Replica]") -> None:
    """Closes what nobody waits for any more."""
    if not opening.cancelled() and opening.exception() is None:
        opening.result().close()
