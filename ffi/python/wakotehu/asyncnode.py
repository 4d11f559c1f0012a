"""A node for many callers in a process of its own, for asyncio."""

import asyncio
import os
import warnings
from collections import deque
from types import TracebackType
from typing import Any, Deque, Dict, List, NoReturn, Optional, Sequence, Tuple, Type, Union, cast
from weakref import WeakSet, ref

from . import arguments, errors
from .arguments import Path
from .chainstate import BlockHeader, Coin, Moved, Reply, Tip
from .deployments import GivenHeights
from .served import (
    BEST, FINISH, INFO, KEPT, MOST, NOTE, SAVE, TIMEOUT, TIPS, UNDER_WAY, Call, Entry, Info, Opening,
    Stamped, UnspentOutput, Wanted, ancestor_of, block_of, checked, coins_above, died, dry_run, entries, fork_of, hash_at,
    header_of, longer_than, mark, moving, outcome, outcome_behind, output, outputs, parted, read_answer, request, spent_by,
    submission, told, verdicts,
)  # fmt: skip
from .signatures import Verify

#: Requests of no seat, and of each.
_KINDS = MOST + 1
#: More bytes than these are written at once; fewer wait until the others that ask now have asked.
_PIECE = 1 << 16


class _Asked:
    """A request: its line is made when it is written, and its answer is waited for from the beginning."""

    __slots__ = ("call", "seat", "answer", "until")

    def __init__(self, call: Call, seat: Optional[int], answer: "asyncio.Future[Dict[str, Any]]", until: float) -> None:
        self.call, self.seat, self.answer, self.until = call, seat, answer, until

    def tell(self, answer: Dict[str, Any]) -> None:
        if not self.answer.done():
            self.answer.set_result(answer)

    def fail(self, error: errors.Error) -> None:
        if not self.answer.done():
            self.answer.set_exception(error)


#: A fork has copies of the pipes, which would keep the processes from seeing that their input has ended.
_OPENED: "WeakSet[_Pipe]" = WeakSet()


def _forked() -> None:
    for pipe in list(_OPENED):
        process = pipe.transport.get_extra_info("subprocess")
        for file in (process.stdin, process.stdout, process.stderr):
            file.close()


os.register_at_fork(after_in_child=_forked)


class _Pipe(asyncio.SubprocessProtocol):
    """A process that answers lines, and all who wait for answers."""

    def __init__(self, timeout: Optional[float]) -> None:
        self.loop = asyncio.get_running_loop()
        self.timeout = timeout
        self.is_closed = False
        self.owner = os.getpid()
        self.ended: "asyncio.Future[None]" = self.loop.create_future()
        self.status: Optional[int] = None
        self._said = self._fault = b""
        self._next = 0
        #: Requests that aren't written yet, by kind; and those that are, by kind and number.
        self._queues: List[Deque[_Asked]] = [deque() for _ in range(_KINDS)]
        self._waiting: List[Dict[int, _Asked]] = [{} for _ in range(_KINDS)]
        #: All that wait, in the order in which they asked, and so of their ends.
        self._all: Dict[_Asked, None] = {}
        self._clock: Optional[asyncio.TimerHandle] = None
        self._is_full = self._will_write = False
        self._lines: List[bytes] = []
        self._received: List[bytes] = []

    # ---- asking

    def check_place(self) -> None:
        """Refuses a fork, which would read what is another's, and another event loop."""
        if os.getpid() != self.owner:
            raise errors.OtherProcess("the node was opened by another process")
        if asyncio.get_running_loop() is not self.loop:
            raise errors.OtherLoop("the node was opened in another event loop")

    async def ask(self, call: Call, seat: Optional[int], is_last: bool = False) -> Any:
        """What is answered to a call."""
        return outcome(await self.begun(call, seat, is_last), call)

    def begun(self, call: Call, seat: Optional[int], is_last: bool = False) -> "asyncio.Future[Dict[str, Any]]":
        """The answer that will come to a call. Who cancels it before its request is written leaves nothing."""
        self.check_place()
        if self.is_closed and not is_last:
            raise errors.Closed("the node was closed")
        if self.ended.done():
            raise self.why()
        kind = 0 if seat is None else seat + 1
        asked = _Asked(call, seat, self.loop.create_future(), self._until())
        self._all[asked] = None
        self._queues[kind].append(asked)
        self._write_requests(kind)
        return asked.answer

    def _until(self) -> float:
        """When a request that is made now has waited long enough."""
        if self.timeout is None:
            return 0.0
        until = self.loop.time() + self.timeout
        if self._clock is None:
            self._clock = self.loop.call_at(until, self._look_at_the_clock)
        return until

    def _look_at_the_clock(self) -> None:
        """Ends the waits that were long enough. One that was written keeps its place until its answer comes."""
        self._clock, now = None, self.loop.time()
        for asked in list(self._all):
            if asked.until > now:
                self._clock = self.loop.call_at(asked.until, self._look_at_the_clock)
                return
            asked.fail(errors.TimedOut("the node didn't answer in time"))
            self._all.pop(asked, None)

    def _write_requests(self, kind: int) -> None:
        """Writes the requests of a kind whose turn it is. Those of which nobody waits any more leave nothing."""
        queue, waiting = self._queues[kind], self._waiting[kind]
        while queue and not self._is_full and len(waiting) < UNDER_WAY:
            asked = queue.popleft()
            if asked.answer.done():
                self._all.pop(asked, None)
                continue
            self._next += 1
            number = self._next * _KINDS + kind
            waiting[number] = asked
            parts = request(number, asked.call, asked.seat)
            self._lines += parts
            if sum(map(len, parts)) > _PIECE:
                self._write()
            elif not self._will_write:
                self._will_write = True
                self.loop.call_soon(self._write)

    def _write(self) -> None:
        self._will_write = False
        if not self._lines:
            return
        lines, self._lines = self._lines, []
        stdin = cast(Optional[asyncio.WriteTransport], self.transport.get_pipe_transport(0))
        if stdin is not None:
            stdin.write(b"".join(lines))

    def pause_writing(self) -> None:
        self._is_full = True

    def resume_writing(self) -> None:
        self._is_full = False
        for kind in range(_KINDS):
            self._write_requests(kind)

    # ---- answers

    def connection_made(self, transport: asyncio.BaseTransport) -> None:
        self.transport = cast(asyncio.SubprocessTransport, transport)
        _OPENED.add(self)

    def pipe_data_received(self, fd: int, data: Union[bytes, str]) -> None:
        assert isinstance(data, bytes)
        if fd == 2:
            self._said = (self._said + data)[-KEPT:]
            return
        self._received.append(data)
        if b"\n" in data:
            *lines, rest = data.split(b"\n")
            lines[0] = b"".join([*self._received[:-1], lines[0]])
            self._received = [rest] if rest else []
            for line in lines:
                self._hand_out(line)
            # The program has something to do while those who waited go on.
            self._write()

    def _hand_out(self, line: bytes) -> None:
        try:
            answer = read_answer(line)
            number = answer["id"]
            if number is None:
                # It says of no request that it is the one, so all that wait are refused.
                for waiting in self._waiting:
                    for asked in list(waiting.values()):
                        self._all.pop(asked, None)
                        asked.tell({"error": answer["error"]})
                    waiting.clear()
                for kind in range(_KINDS):
                    self._write_requests(kind)
                return
            kind = number % _KINDS
            found = self._waiting[kind].pop(number, None)
        except (ValueError, KeyError, TypeError):
            self._fault = b"an answer can't be read: %r" % line[:200]
            self.transport.kill()
            return
        if found is not None:
            self._all.pop(found, None)
            found.tell(answer)
            self._write_requests(kind)

    # ---- the end

    def connection_lost(self, error: Optional[Exception]) -> None:
        """The process has ended, and all that it wrote was read."""
        self.status = self.transport.get_returncode()
        self.transport.close()
        if self._clock is not None:
            self._clock.cancel()
        for asked in list(self._all):
            asked.fail(self.why())
        self.ended.set_result(None)

    def why(self) -> errors.Error:
        """Why there are no more answers, each time anew."""
        if self.is_closed and self.status == 0:
            return errors.Closed("the node was closed")
        return died(self.status, self._fault or self._said)

    async def end(self, wait: bool) -> None:
        """Ends the process, unless it ends by itself in time."""
        try:
            if wait:
                await asyncio.wait_for(asyncio.shield(self.ended), self.timeout)
        except asyncio.TimeoutError:
            raise errors.TimedOut("the node's process didn't end in time") from None
        finally:
            if not self.ended.done():
                self.kill()
                await asyncio.shield(self.ended)
            self.transport.close()

    def kill(self) -> bool:
        """Ends the process at once where it runs, and says whether it did. A fork leaves it alone."""
        if os.getpid() != self.owner or self.transport.get_returncode() is not None:
            return False
        try:
            self.transport.kill()
        except ProcessLookupError:
            return False
        return True


def _let_go(answers: "Sequence[asyncio.Future[Dict[str, Any]]]") -> None:
    """Where one is refused, or the call is cancelled, nobody waits for the others."""
    for answer in answers:
        if not answer.cancel() and not answer.cancelled():
            answer.exception()


class AsyncSeat:
    """As `Seat`, each call a coroutine."""

    def __init__(self, node: "AsyncNode", number: int) -> None:
        self.node = node
        self.number = number

    async def _ask(self, call: Call) -> Any:
        return outcome(await self.node._opened().begun(call, self.number), call)

    async def _command(self, call: Call) -> Any:
        """As `Seat._command`. Signatures are verified by a thread of the event loop's."""
        pipe, verify = self.node._opened(), self.node._opening.verify
        calls, asked = [call], [pipe.begun(call, self.number)]
        try:
            while True:
                answers = [await answer for answer in asked]
                try:
                    return outcome_behind(answers, calls)
                except Wanted as wanted:
                    lines = wanted.lines
                assert verify is not None
                calls, asked = [], []
                for part in parted(lines):
                    for one in await pipe.loop.run_in_executor(None, verdicts, part, verify):
                        calls.append(one)
                        asked.append(pipe.begun(one, self.number))
                calls.append(call)
                asked.append(pipe.begun(call, self.number))
        finally:
            _let_go(asked)

    async def submit(self, block: bytes, now: Optional[int] = None) -> Stamped[str]:
        """As `Seat.submit`."""
        return checked(await self.try_submit(block, now))

    async def try_submit(self, block: bytes, now: Optional[int] = None) -> Stamped[Reply]:
        """As `Seat.try_submit`."""
        answered: Stamped[Reply] = await self._command(submission(block, now))
        return answered

    async def judge(self, block: bytes, now: Optional[int] = None) -> Stamped[Reply]:
        """As `Seat.judge`."""
        answered: Stamped[Reply] = await self._command(dry_run(block, now))
        return answered

    async def invalidate(self, id: bytes) -> Stamped[str]:
        """As `Seat.invalidate`."""
        return checked(await self.try_mark("invalidate", id))

    async def reconsider(self, id: bytes) -> Stamped[str]:
        """As `Seat.reconsider`."""
        return checked(await self.try_mark("reconsider", id))

    async def precious(self, id: bytes) -> Stamped[str]:
        """As `Seat.precious`."""
        return checked(await self.try_mark("precious", id))

    async def try_mark(self, command: str, id: bytes) -> Stamped[Reply]:
        """As `Seat.try_mark`."""
        answered: Stamped[Reply] = await self._command(mark(command, id))
        return answered

    async def gettxout(self, txid: bytes, n: int) -> Stamped[Optional[UnspentOutput]]:
        """As `Seat.gettxout`."""
        answered: Stamped[Optional[UnspentOutput]] = await self._ask(output(txid, n))
        return answered

    async def gettxouts(self, outpoints: Sequence[Tuple[bytes, int]]) -> List[Stamped[Optional[UnspentOutput]]]:
        """As `Seat.gettxouts`."""
        calls = outputs(outpoints)
        answers = [self.node._opened().begun(call, self.number) for call in calls]
        try:
            return [outcome(await answer, call) for answer, call in zip(answers, calls)]
        finally:
            _let_go(answers)

    async def getbestblockhash(self) -> Stamped[bytes]:
        """As `Seat.getbestblockhash`."""
        answered: Stamped[bytes] = await self._ask(BEST)
        return answered

    async def getchaintips(self) -> Stamped[List[Tip]]:
        """As `Seat.getchaintips`."""
        answered: Stamped[List[Tip]] = await self._ask(TIPS)
        return answered

    async def getblock(self, id: bytes) -> Stamped[Optional[bytes]]:
        """As `Seat.getblock`."""
        answered: Stamped[Optional[bytes]] = await self._ask(block_of(id))
        return answered

    async def getblockheader(self, id: bytes) -> Stamped[Optional[BlockHeader]]:
        """As `Seat.getblockheader`."""
        answered: Stamped[Optional[BlockHeader]] = await self._ask(header_of(id))
        return answered

    async def getblockhash(self, height: int) -> Stamped[Optional[bytes]]:
        """As `Seat.getblockhash`."""
        answered: Stamped[Optional[bytes]] = await self._ask(hash_at(height))
        return answered

    async def getancestor(self, id: bytes, height: int) -> Stamped[Optional[bytes]]:
        """As `Seat.getancestor`."""
        answered: Stamped[Optional[bytes]] = await self._ask(ancestor_of(id, height))
        return answered

    async def getfork(self, one: bytes, other: bytes) -> Stamped[Optional[bytes]]:
        """As `Seat.getfork`."""
        answered: Stamped[Optional[bytes]] = await self._ask(fork_of(one, other))
        return answered

    async def getspent(self, id: bytes) -> Stamped[Optional[List[Coin]]]:
        """As `Seat.getspent`."""
        answered: Stamped[Optional[List[Coin]]] = await self._ask(spent_by(id))
        return answered

    async def moved(self, before: bytes) -> Stamped[Moved]:
        """As `Seat.moved`."""
        asking = moving(before)
        answer: Any = None
        while True:
            try:
                call = asking.send(answer)
            except StopIteration as end:
                moved: Stamped[Moved] = end.value
                return moved
            answer = await self._ask(call)

    async def coins(
        self, above: Optional[Tuple[bytes, int]] = None, most: int = 1000
    ) -> Stamped[List[Tuple[bytes, int, Coin]]]:
        """As `Seat.coins`."""
        answered: Stamped[List[Tuple[bytes, int, Coin]]] = await self._ask(coins_above(above, most))
        return answered

    async def wait(self, after: int) -> int:
        """As `Seat.wait`."""
        return int(await self._ask(longer_than(after)))

    async def journal(self, first: int = 1, last: int = 2**64 - 1) -> Stamped[List[Entry]]:
        """As `Seat.journal`."""
        answered: Stamped[List[Entry]] = await self._ask(entries(first, last))
        return answered

    async def note(self) -> int:
        """As `Seat.note`."""
        return int(await self._ask(NOTE))

    async def told(self, other: "AsyncSeat") -> int:
        """As `Seat.told`."""
        if arguments.instance(other, AsyncSeat, "other").node is not self.node:
            raise ValueError("other must be a seat of the same node")
        return int(await self._ask(told(other.number)))


class AsyncNode:
    """As `Node`, for asyncio. The process begins and ends with the context.

        async with AsyncNode(seats=2) as node:
            await node.seat(0).submit(block)

    It is of the event loop in which it was opened: in another one its calls raise `OtherLoop`. A call that is cancelled
    may be taken all the same, unless it wasn't written yet.
    """

    def __init__(
        self, seats: int = 4, workers: int = 2, heights: Optional[GivenHeights] = None,
        table: Optional[Union[str, bytes]] = None, program: Optional[Path] = None, *,
        blk: Optional[Path] = None, load: Optional[Path] = None, save: Optional[Path] = None,
        datadir: Optional[Path] = None, sync: bool = True, timeout: Optional[float] = TIMEOUT,
        verify: Optional[Verify] = None, history_memory: Optional[int] = None,
    ) -> None:  # fmt: skip
        self._opening = Opening(seats, workers, heights, table, program, blk, load, save, datadir, sync, timeout, verify, history_memory)
        self._pipe: Optional[_Pipe] = None
        self._kept: Dict[int, "ref[AsyncSeat]"] = {}

    @property
    def seats(self) -> List[AsyncSeat]:
        """Its seats, in order."""
        return [self.seat(number) for number in range(self._opening.seats)]

    def seat(self, number: int) -> AsyncSeat:
        """The seat of a number, from 0."""
        if not 0 <= arguments.integer(number, "number") < self._opening.seats:
            raise IndexError(f"the seats are 0 to {self._opening.seats - 1}")
        kept = self._kept.get(number)
        found = None if kept is None else kept()
        if found is None:
            found = AsyncSeat(self, number)
            self._kept[number] = ref(found)
        return found

    async def __aenter__(self) -> "AsyncNode":
        if self._pipe is not None:
            raise errors.Closed("the node was opened before")
        self._pipe = pipe = _Pipe(self._opening.timeout)
        with self._opening as words:
            try:
                # In a session of its own, so that Ctrl-C goes to Python alone.
                await pipe.loop.subprocess_exec(lambda: pipe, *words, start_new_session=True)
            except BaseException:
                self._pipe = None
                raise
            try:
                #: How the node was opened.
                self.info: Info = await pipe.ask(INFO, None)
            except BaseException:
                await self.kill()
                raise
        return self

    async def __aexit__(
        self, kind: Optional[Type[BaseException]], value: Optional[BaseException], trace: Optional[TracebackType]
    ) -> None:
        assert self._pipe is not None
        if kind is not None and self._pipe.ended.done():
            await self.kill()
            return
        await self.close()

    async def save(self) -> int:
        """As `Node.save`."""
        return int(await self._opened().ask(SAVE, None))

    async def close(self) -> Optional[int]:
        """As `Node.close`."""
        pipe = self._pipe
        if pipe is None or pipe.is_closed:
            return None
        pipe.check_place()
        pipe.is_closed, steps = True, None
        try:
            steps = int(await pipe.ask(FINISH, None, is_last=True))
        finally:
            await pipe.end(wait=steps is not None)
        if pipe.status:
            raise pipe.why()
        return steps

    async def kill(self) -> None:
        """As `Node.kill`."""
        if self._pipe is not None:
            self._pipe.check_place()
            self._pipe.is_closed = True
            await self._pipe.end(wait=False)

    def __del__(self) -> None:
        pipe: Optional[_Pipe] = getattr(self, "_pipe", None)
        if pipe is not None and not pipe.ended.done() and hasattr(pipe, "transport") and pipe.kill():
            warnings.warn(f"an AsyncNode wasn't closed: its process is ended ({self!r})", ResourceWarning, source=self)

    def __reduce_ex__(self, protocol: object) -> NoReturn:
        """A process isn't copied and isn't pickled."""
        raise TypeError("an AsyncNode can't be copied or pickled")

    def _opened(self) -> _Pipe:
        if self._pipe is None:
            raise errors.Closed("the node isn't open")
        return self._pipe
