"""What the threads of a replica share, and the one that adds commands to the log; `following` has the other one."""

import time
from array import array
from bisect import bisect_right
from collections import deque
from heapq import heapify, heappop, heappush
from itertools import count
from threading import Condition, Event, Lock, Thread
from typing import Callable, Deque, Dict, Iterable, List, NamedTuple, Optional, Sequence, Set, Tuple
from uuid import UUID

from . import errors
from .chainstate import Reply
from .node import Seat
from .replicalog import Command, Log, Lost, Refused, Row, Told

#: So many commands, so many bytes, and so many replies are added by one commit at most.
_MOST, _MOST_BYTES, _REPLIES = 500, 8_000_000, 1000
#: So many seconds replies wait to be written with a command.
_TOGETHER = 0.01
#: So many seconds a replica leaves to others between two commits.
_TURN = 0.003
#: So many seconds it takes at first, and at most, until a lost connection is tried again.
_SOON, _LATE = 0.05, 1.0
#: So many seconds a statement may take at first until its connection is given up, and at most where that was done before.
_PATIENCE, _MOST_PATIENCE = 20, 640


class Places:
    """Which place of the table each number of the node's steps is. Verdicts are steps of the node too, and no places.

    The number of a place's step is noted before the node takes it. So a read finds it, whenever it comes.
    """

    def __init__(self) -> None:
        self._lock = Lock()
        #: The number of steps after each place, from 1 on.
        self._steps = array("Q")

    def note(self, steps: Sequence[int]) -> None:
        """The numbers of steps after the next places."""
        with self._lock:
            self._steps.extend(steps)

    def withdraw(self) -> None:
        """The last place wasn't taken with that step."""
        with self._lock:
            self._steps.pop()

    def at(self, steps: int) -> int:
        """The highest place among so many steps."""
        with self._lock:
            return bisect_right(self._steps, steps)


class Bell:
    """As `threading.Event` for one thread that waits, which an interrupt may cut short at each moment: then `Event.wait` may give back
    a lock that it doesn't hold."""

    def __init__(self) -> None:
        self._is_set, self._lock = False, Lock()
        self._lock.acquire()

    def set(self) -> None:
        self._is_set = True
        try:
            self._lock.release()
        except RuntimeError:
            pass  # It rings already.

    def wait(self, seconds: Optional[float] = None) -> bool:
        """Waits until it is set, and at most so long."""
        return self._is_set or self._lock.acquire(timeout=-1 if seconds is None else seconds)


class Write:
    """A caller's command on its way into the log."""

    __slots__ = ("command", "done", "error", "is_sent", "place", "reply")

    def __init__(self, command: Command, done: Bell) -> None:
        self.command = command
        #: Set where it was answered, or won't be.
        self.done = done
        self.is_sent = False
        self.place: Optional[int] = None
        self.reply: Optional[Reply] = None
        self.error: Optional[errors.Error] = None


class Fresh(NamedTuple):
    """At this moment, of `time.monotonic`, the log had no place above this one."""

    moment: float
    place: int


#: Is told of a row, its reply, and the seat of the one that took it, which reads just behind that row.
Watch = Callable[[Row, Reply, Seat], None]


class State:
    """What the threads of a replica share. Who reads or changes it holds `lock`."""

    def __init__(self, name: str, is_durable: bool = True) -> None:
        self.name = name
        #: Whether a database whose settings may lose confirmed rows is refused.
        self.is_durable = is_durable
        self.lock = Lock()
        #: Told of each place that is taken, and of the end.
        self.moved = Condition(self.lock)
        #: Told of what there is to append, and of the end.
        self.work = Condition(self.lock)
        self.places = Places()
        #: The place that the node has taken, and the hash of its row with all before it.
        self.taken = 0
        self.chain = b""
        self.fresh: Optional[Fresh] = None
        #: Why the replica has stopped.
        self.error: Optional[errors.Error] = None
        self.is_closing = False
        self.ended = Event()
        #: Why the database can't be reached, of the thread that appends and the one that follows.
        self.lost: Dict[str, str] = {}
        #: Who waits for a place and takes no thread meanwhile, by places.
        self._waits: List[Tuple[int, int, Bell]] = []
        #: Who looks at each place that is taken.
        self._looks: Set[Bell] = set()
        self._numbers = count()
        self.writes: Dict[UUID, Write] = {}
        self.queue: Deque[Write] = deque()
        #: Replies that this replica has to write.
        self.replies: Dict[int, Told] = {}

    @property
    def is_over(self) -> bool:
        return self.is_closing or self.error is not None

    def stop(self, error: Optional[errors.Error]) -> None:
        """Takes no row and no call any more: for an error, or since it is closed."""
        with self.lock:
            # What fails since it is being closed is no fault.
            if not self.is_closing:
                self.error = self.error or error
            self.is_closing = self.is_closing or error is None
            self.wake()
            self.ended.set()
            self.work.notify_all()
            for write in self.writes.values():
                write.done.set()

    def answer(self, row: Row, reply: Reply) -> None:
        """A row was taken: who asked for it hears of it."""
        with self.lock:
            self.taken, self.chain = row.place, row.chain
            write = self.writes.get(row.command.token)
            if write is not None:
                write.place, write.reply = row.place, reply
                write.done.set()
            self.wake()

    def wake(self) -> None:
        """Who waits hears of the place that was taken, or of the end."""
        self.moved.notify_all()
        for bell in self._looks:
            bell.set()
        self._looks.clear()
        while self._waits and (self.is_over or self._waits[0][0] <= self.taken):
            heappop(self._waits)[2].set()

    def look(self, done: Bell) -> None:
        """Has this set when the next place is taken, or what the replica has is newer, or at the end. The lock is held."""
        self._looks.add(done)

    def wait(self, place: int, done: Bell) -> None:
        """Has this set as soon as a place is taken, or at the end. The lock is held."""
        heappush(self._waits, (place, next(self._numbers), done))
        self.wake()

    def leave(self, done: Bell) -> None:
        """Nobody waits for a place any more."""
        with self.lock:
            self._looks.discard(done)
            self._waits = [own for own in self._waits if own[2] is not done]
            heapify(self._waits)


class Connected(Thread):
    """A thread with a connection of its own, which it opens again where it is lost."""

    def __init__(self, state: State, url: str, word: str, log: Log) -> None:
        super().__init__(name=f"wakotehu-{word}", daemon=True)
        self._state, self._url, self._word = state, url, word
        self._log: Optional[Log] = log
        #: The statement that was under way a second ago, for how many seconds it was, and how many it may be.
        self._under_way: Tuple[Optional[Log], int] = (None, 0)
        self._seconds, self._patience = 0, _PATIENCE

    def run(self) -> None:
        wait = _SOON
        while not self._state.is_over:
            try:
                self._log = self._log or Log(self._url)
                self._note_lost(None)
                with self._log as log:
                    if self._state.is_durable:
                        log.check_durable()
                    self.work(log)
            except (Lost, Refused) as lost:
                wait = _SOON if self._log is not None else min(2 * wait, _LATE)
                self._log = None
                self._note_lost(str(lost))
                with self._state.lock:
                    self._state.moved.wait_for(lambda: self._state.is_over, wait)
            except errors.Error as error:
                self._state.stop(error)
            except BaseException as error:
                # What fails since the node is being closed is no fault.
                if self._state.is_closing:
                    return
                self._state.stop(errors.Error(f"{self._word}: {error!r}"))
                raise

    def interrupt(self) -> None:
        log = self._log
        if log is not None:
            log.interrupt()

    def tick(self) -> None:
        """A second has passed. A connection on which nothing is answered is given up, each time later: a server that hangs
        closes none, and might be left with more and more of them."""
        log = self._log
        asked = 0 if log is None else log.asked
        before, self._under_way = self._under_way, (log, asked)
        if self._under_way != before or asked % 2 == 0:
            self._seconds = 0
            if before[0] is log and asked > before[1] + 1:
                self._patience = _PATIENCE
            return
        self._seconds += 1
        if self._seconds >= self._patience:
            self._seconds, self._patience = 0, min(2 * self._patience, _MOST_PATIENCE)
            self.interrupt()

    def _note_lost(self, why: Optional[str]) -> None:
        with self._state.lock:
            if why is None:
                self._state.lost.pop(self._word, None)
            else:
                self._state.lost[self._word] = why
        if why is not None:
            self.lost(why)

    def look(self, log: Log) -> int:
        """The newest place. A log without the row that was taken last is another one, as after a failover that lost rows."""
        with self._state.lock:
            taken, chain = self._state.taken, self._state.chain
        newest, found = log.look(taken)
        # A standby alone may be behind what this replica took elsewhere.
        if found != chain and (newest >= taken or not log.is_standby()):
            raise errors.BadRow(f"the log has lost or changed place {taken}, which this replica took")
        return newest

    def work(self, log: Log) -> None:
        """Works until the replica stops, or the connection is lost."""
        raise NotImplementedError

    def lost(self, why: str) -> None:
        """The connection is lost."""


class Watcher(Thread):
    """Tells threads that a second has passed. A process that was stopped hasn't waited meanwhile."""

    def __init__(self, state: State, threads: Sequence[Connected]) -> None:
        super().__init__(name="wakotehu-watch", daemon=True)
        self._state, self._threads = state, threads

    def run(self) -> None:
        while not self._state.ended.wait(1):
            for thread in self._threads:
                thread.tick()


class Appender(Connected):
    """Adds the commands of callers to the log, all that wait by one commit, and the replies of this replica.

    What was sent is sent again at the same place until it is known whether it has that place: so it stands in the log once,
    however often the connection is lost.
    """

    def __init__(self, state: State, url: str, log: Log) -> None:
        super().__init__(state, url, "append", log)
        self._sent: List[Write] = []
        #: The place of the first one that was sent.
        self._first: Optional[int] = None
        #: Whether the connection was lost behind them, so that they may be there.
        self._is_doubtful = False
        #: The highest place that is known to be taken.
        self._top = 0

    def work(self, log: Log) -> None:
        self.look(log)
        while True:
            with self._state.lock:
                self._state.work.wait_for(self._has_work)
                if not self._sent:
                    # Replies wait for a command that comes right behind: one commit has both.
                    self._state.work.wait_for(lambda: bool(self._state.is_over or self._state.queue), _TOGETHER)
                if self._state.is_over and not (self._sent or self._state.replies):
                    return
                # In order, so that no two replicas wait for one another.
                replies = dict(sorted(self._state.replies.items())[:_REPLIES])
                if self._first is None:
                    self._top = max(self._top, self._state.taken)
                    self._fill()
            if self._sent:
                self._first = self._first or self._top + 1
            self._append(log, self._first or 1, replies)

    def _has_work(self) -> bool:
        state = self._state
        return bool(state.is_over or self._sent or state.queue or state.replies)

    def _fill(self) -> None:
        """Takes what waits, up to so much."""
        size = sum(len(write.command.data) for write in self._sent)
        while self._state.queue and not self._state.is_over and len(self._sent) < _MOST and size < _MOST_BYTES:
            write = self._state.queue.popleft()
            write.is_sent = True
            self._sent.append(write)
            size += len(write.command.data)

    def _append(self, log: Log, first: int, replies: Dict[int, Told]) -> None:
        """Adds what was sent at this place, or finds that another command has it."""
        commands = [write.command for write in self._sent]
        try:
            is_in = log.append(first, commands, list(replies.items()))
            if not is_in and self._is_doubtful:
                found = log.token_at(first)
                if found is None:
                    return  # what was sent on the lost connection may come to this place yet
                if found == commands[0].token:
                    is_in, replies = True, {}
        except Refused as refused:
            # Of what was sent before, on a connection that was lost, it says nothing.
            if not self._is_doubtful:
                self._settle(errors.Unavailable(f"the database refuses the row: {refused}"))
            raise
        self._first, self._is_doubtful = None, False
        if is_in:
            self._top = max(self._top, first + len(commands) - 1)
            self._settle(None, first, replies)
            if self._state.queue:
                # A replica that lost this place gets to try the next one; and more commands come together.
                time.sleep(_TURN)
        else:
            self._top = self.look(log)

    def _settle(self, error: Optional[errors.Error], first: int = 0, replies: Iterable[int] = ()) -> None:
        """What was sent is decided: it is in the log, or nothing of it is."""
        with self._state.lock:
            for place, write in enumerate(self._sent, first):
                write.error = error
                if error is None:
                    write.place = place
                else:
                    write.done.set()
            for told in replies:
                self._state.replies.pop(told, None)
        self._sent, self._first, self._is_doubtful = [], None, False

    def lost(self, why: str) -> None:
        """Who wasn't sent yet hears of it."""
        self._is_doubtful = self._first is not None
        with self._state.lock:
            while self._state.queue:
                write = self._state.queue.popleft()
                write.error = errors.Unavailable(f"the database can't be reached: {why}")
                write.done.set()
