"""The pipe to a node's process, for threads. It has no thread of its own: of those who wait for an answer one reads for
all. So one caller alone changes no thread, and a node that nobody has any more is seen to be gone.

An interrupt may come between any two steps of Python. So what is read or written is noted in the same call of C that reads
or writes it, and what may have been cut short is done again.
"""

import os
import select
import subprocess
import tempfile
import threading
import time
from typing import Any, Callable, Dict, List, Optional, Sequence
from weakref import WeakSet

from . import errors
from .processor import environment
from .served import KEPT, MOST, UNDER_WAY, Call, died, outcome, read_answer, request

#: No wait is longer: then a waiter looks again whether somebody reads.
_LOOK = 0.5
#: Requests of no seat, and of each.
_KINDS = MOST + 1
_PIECE = 1 << 16
#: So many requests of one call are written at once: while half are answered the others wait.
_AT_ONCE = UNDER_WAY // 2


class Waiter:
    """Who waits for an answer, or for its turn to ask."""

    __slots__ = ("answer", "bell", "thread")

    def __init__(self) -> None:
        self.answer: Optional[Dict[str, Any]] = None
        self.thread = threading.get_ident()
        self.bell = threading.Lock()
        self.bell.acquire()

    def ring(self) -> None:
        try:
            self.bell.release()
        except RuntimeError:
            pass  # it was rung before, and that wasn't heard yet


class _Lines:
    """Lines that are being written, who waits for their answers, and how much each write took."""

    __slots__ = ("parts", "kind", "waiters", "written", "length")

    def __init__(self, parts: Sequence[bytes], kind: int, waiters: Dict[int, Waiter]) -> None:
        self.parts, self.kind, self.waiters = parts, kind, waiters
        self.written: List[int] = []
        self.length = sum(map(len, parts))

    def left(self) -> List[memoryview]:
        """What isn't written yet."""
        begin, found = sum(self.written), []
        for part in self.parts:
            found.append(memoryview(part)[begin:])
            begin = max(0, begin - len(part))
        return found


#: A fork has copies of the pipes, which would keep the processes from seeing that their input has ended.
_OPENED: "WeakSet[Pipe]" = WeakSet()


def _forked() -> None:
    for pipe in list(_OPENED):
        pipe.close_files()


os.register_at_fork(after_in_child=_forked)


class Pipe:
    """A process that answers lines, and all who wait for answers."""

    def __init__(self, words: Sequence[str], timeout: Optional[float]) -> None:
        self.timeout = timeout
        self.is_closed = False
        self.ended = False
        self._fault = b""
        self._owner = os.getpid()
        self._stderr = tempfile.TemporaryFile()
        # In a session of its own, so that Ctrl-C goes to Python alone.
        pipe = subprocess.PIPE
        try:
            self.process: "subprocess.Popen[bytes]" = subprocess.Popen(
                words, stdin=pipe, stdout=pipe, stderr=self._stderr, bufsize=0, start_new_session=True, env=environment()
            )
        except BaseException:
            self._stderr.close()
            raise
        assert self.process.stdin and self.process.stdout
        self._in, self._out = self.process.stdin.fileno(), self.process.stdout.fileno()
        os.set_blocking(self._in, False)
        self._readable, self._writable = select.poll(), select.poll()
        self._readable.register(self._out, select.POLLIN)
        self._writable.register(self._in, select.POLLOUT)
        self._writing = threading.Lock()
        self._next = 0
        #: The lines that are being written.
        self._lines: Optional[_Lines] = None
        #: Who waits for an answer, by kind and number; and who waits until there are fewer of a kind.
        self._waiting: List[Dict[int, Waiter]] = [{} for _ in range(_KINDS)]
        self._crowd: List[Dict[Waiter, None]] = [{} for _ in range(_KINDS)]
        #: What was read and isn't taken in, and how many pieces of that end no line.
        self._received: List[bytes] = []
        self._looked_at = 0
        #: Who reads, at 0; and who sleeps meanwhile.
        self._reader: Dict[int, Waiter] = {}
        self._asleep: Dict[Waiter, None] = {}
        _OPENED.add(self)

    # ---- asking

    def check_process(self) -> None:
        """Refuses a fork, which would read what is another's."""
        if os.getpid() != self._owner:
            raise errors.OtherProcess("the node was opened by another process")

    def close(self) -> bool:
        """Takes no more calls but the last; False where it was closed before."""
        with self._writing:
            before, self.is_closed = self.is_closed, True
        return not before

    def ask(self, call: Call, seat: Optional[int], is_last: bool = False) -> Any:
        """What is answered to a call."""
        return self.ask_all([call], seat, is_last)[0]

    def ask_all(self, calls: Sequence[Call], seat: Optional[int], is_last: bool = False) -> List[Any]:
        """What is answered to calls, of which as many are under way as may be."""
        found: List[Any] = []
        asked: List[List[Waiter]] = []
        for place in range(0, len(calls), _AT_ONCE):
            asked.append(self.begun(calls[place : place + _AT_ONCE], seat, is_last))
            if len(asked) > 1:
                found += map(outcome, self.answers(asked.pop(0)), calls[len(found) :])
        for waiters in asked:
            found += map(outcome, self.answers(waiters), calls[len(found) :])
        return found

    def answers(self, waiters: Sequence[Waiter]) -> List[Dict[str, Any]]:
        """What those who wait are answered, the last one after all others."""
        until = self._until()
        for waiter in reversed(waiters):
            if waiter.answer is None:
                self._wait(waiter, lambda: waiter.answer is not None, until)
        return [waiter.answer or {} for waiter in waiters]

    def _until(self) -> Optional[float]:
        return None if self.timeout is None else time.monotonic() + self.timeout

    def begun(self, calls: Sequence[Call], seat: Optional[int], is_last: bool = False) -> List[Waiter]:
        """Writes requests as soon as so many may be under way: who waits for their answers."""
        self.check_process()
        until, kind = self._until(), 0 if seat is None else seat + 1
        waiters = [Waiter() for _ in calls]
        while not self._begun(waiters, calls, seat, until, is_last):
            self._crowd[kind][waiters[0]] = None
            try:
                self._wait(waiters[0], lambda: len(self._waiting[kind]) + len(calls) <= UNDER_WAY, until)
            finally:
                self._crowd[kind].pop(waiters[0], None)
        return waiters

    def _begun(
        self, waiters: Sequence[Waiter], calls: Sequence[Call], seat: Optional[int], until: Optional[float], is_last: bool
    ) -> bool:
        """Writes requests, whose answers those who wait get; False where too many of their kind are under way."""
        kind = 0 if seat is None else seat + 1
        with self._writing:
            if self.is_closed and not is_last:
                raise errors.Closed("the node was closed")
            if self.ended:
                raise self.why()
            if len(self._waiting[kind]) + len(calls) > UNDER_WAY:
                return False
            # What was left of other lines comes first.
            self._write(until)
            first = self._next + 1
            self._next += len(calls)
            numbers = range(first * _KINDS + kind, (self._next + 1) * _KINDS, _KINDS)
            parts = [part for number, call in zip(numbers, calls) for part in request(number, call, seat)]
            lines = _Lines(parts, kind, dict(zip(numbers, waiters)))
            try:
                self._lines = lines
                self._write(until)
            except BaseException:
                if not sum(lines.written):
                    # Nothing of them was written, so nothing was asked.
                    self._lines = None
                    for number in numbers:
                        self._waiting[kind].pop(number, None)
                raise
        return True

    def _write(self, until: Optional[float]) -> None:
        """Writes what is left of the lines. Where this is cut short the next one goes on."""
        lines = self._lines
        if lines is None:
            return
        if not sum(lines.written):
            self._waiting[lines.kind].update(lines.waiters)
        while sum(lines.written) < lines.length:
            try:
                # One step of C, which an interrupt doesn't part.
                lines.written.extend(map(os.writev, (self._in,), (lines.left(),)))
            except BlockingIOError:
                self._writable.poll(_milliseconds(_left(until)))
            except OSError:
                break  # the process has ended: who reads finds that
        self._lines = None

    # ---- waiting

    def _wait(self, waiter: Waiter, is_done: Callable[[], bool], until: Optional[float]) -> None:
        """Waits until it is done, and reads for all where nobody else does."""
        try:
            try:
                while not is_done():
                    if self.ended:
                        raise self.why()
                    left = _left(until)
                    self._asleep[waiter] = None
                    if not self._is_reader(waiter):
                        waiter.bell.acquire(timeout=min(left, _LOOK))
                    elif not is_done():
                        # Before it began to read another one may have read its answer, and then no more may come.
                        self._read(left)
            finally:
                self._leave(waiter)
        finally:
            # Again, where an interrupt came into the first one.
            self._leave(waiter)

    def _is_reader(self, waiter: Waiter) -> bool:
        """Whether this one reads for all: nobody else does, or who did was of this thread and didn't get to leave."""
        reader = self._reader.setdefault(0, waiter)
        if reader is not waiter and reader.thread == waiter.thread:
            self._reader[0] = reader = waiter
        return reader is waiter

    def _leave(self, waiter: Waiter) -> None:
        """Waits and reads no more, and wakes another one who reads."""
        self._asleep.pop(waiter, None)
        if self._reader.get(0) is waiter:
            self._reader.clear()
        if not self._reader:
            for other in list(self._asleep):
                return other.ring()

    def _read(self, left: float) -> None:
        """Reads what is there, or waits for it; and hands it out."""
        if len(self._received) == self._looked_at:
            if self.ended or not self._readable.poll(_milliseconds(left)):
                return
            # One step of C, which an interrupt doesn't part.
            self._received.extend(map(os.read, (self._out,), (_PIECE,)))
        if not self._received[-1]:
            self._end_of_answers()
        elif b"\n" in self._received[-1]:
            *lines, rest = self._received[-1].split(b"\n")
            lines[0] = b"".join([*self._received[:-1], lines[0]])
            for line in lines:
                self._hand_out(line)
            self._looked_at = 0
            self._received[:] = [rest] if rest else []
        self._looked_at = len(self._received)

    def _hand_out(self, line: bytes) -> None:
        """Gives an answer to who waits for it. One that was given before is passed over."""
        try:
            answer = read_answer(line)
            number = answer["id"]
            if number is None:
                # It says of no request that it is the one, so all that wait are refused.
                for waiting in self._waiting:
                    for other in list(waiting):
                        self._give(waiting, other, {"error": answer["error"]})
            else:
                self._give(self._waiting[number % _KINDS], number, answer)
        except (ValueError, KeyError, TypeError):
            self._fault = b"an answer can't be read: %r" % line[:200]
            self.process.kill()

    def _give(self, waiting: Dict[int, Waiter], number: int, answer: Dict[str, Any]) -> None:
        waiter = waiting.get(number)
        if waiter is None:
            return
        waiter.answer = answer
        waiting.pop(number, None)
        waiter.ring()
        for other in list(self._crowd[number % _KINDS]):
            other.ring()

    # ---- the end

    def _end_of_answers(self) -> None:
        """The process writes no more: it is waited for, and all who wait hear of it."""
        try:
            self.process.wait(10)
        except subprocess.TimeoutExpired:
            self.process.kill()
            self.process.wait()
        self.ended = True
        for waiter in list(self._asleep):
            waiter.ring()

    def why(self) -> errors.Error:
        """Why there are no more answers, each time anew."""
        if self.is_closed and self.process.returncode == 0:
            return errors.Closed("the node was closed")
        return died(self.process.returncode, self._fault or self._said())

    def _said(self) -> bytes:
        """The end of the standard error."""
        try:
            file = self._stderr.fileno()
            return os.pread(file, KEPT, max(0, os.fstat(file).st_size - KEPT))
        except (OSError, ValueError):
            return self._fault  # another thread has closed it meanwhile, and kept what it said before

    def end(self, wait: bool) -> None:
        """Ends the process, unless it ends by itself in time; and gives back what it took."""
        waiter = Waiter()
        try:
            if wait:
                self.process.wait(self.timeout)
        except subprocess.TimeoutExpired:
            raise errors.TimedOut("the node's process didn't end in time")
        finally:
            if self.process.poll() is None:
                self.process.kill()
                self.process.wait()
            try:
                self._wait(waiter, lambda: self.ended, time.monotonic() + 10)
            except errors.Error:
                pass  # that it ended is what is wanted
            self._give_back(waiter)

    def _give_back(self, waiter: Waiter) -> None:
        """Closes the files, which nobody reads any more."""
        self.ended = True
        while not self._is_reader(waiter):
            time.sleep(0.001)
        with self._writing:
            self._fault = self._fault or self._said()
            self.close_files()
        self._leave(waiter)

    def drop(self) -> bool:
        """Ends the process at once where it was left running, and says whether it was. A fork leaves it alone."""
        if os.getpid() != self._owner or self.process.poll() is not None:
            return False
        self.process.kill()
        self.process.wait()
        self.close_files()
        return True

    def close_files(self) -> None:
        """Closes this process's ends of the pipes."""
        for file in (self.process.stdin, self.process.stdout, self._stderr):
            if file is not None:
                file.close()


def _left(until: Optional[float]) -> float:
    """How many seconds are left. No end is a long time, which is looked at again."""
    if until is None:
        return 3600.0
    left = until - time.monotonic()
    if left <= 0:
        raise errors.TimedOut("the node didn't answer in time")
    return left


def _milliseconds(seconds: float) -> int:
    return int(1000 * min(seconds, 3600)) + 1
