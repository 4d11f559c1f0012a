"""How a replica follows the log: it takes the rows on its node, in their order, and compares the replies."""

import random
import re
import threading
import time
from collections import deque
from itertools import islice
from typing import Any, Deque, Dict, List, Optional, Sequence, Tuple

from . import errors
from .chainstate import Reply
from .node import Seat
from .replicalog import LARGE, Log, Lost, Refused, Row, Told
from .replication import Connected, Fresh, State, Watch
from .served import Call, Stamped, Wanted, mark, submission, verdicts
from .signatures import Verify

#: So many rows more than this are read by one COPY.
_MANY = 1000
#: So many are read at once otherwise, and so many rows that have their replies are handed to the node at once.
_SOME = 100
#: So many seconds others wait for the reply, and the verdicts, of the replica that appended a row.
_GRACE = 1.0
#: A client's name in a journal, and a verdict.
_SEAT = re.compile("[A-Za-z0-9_]{1,32}")
_VERDICT = re.compile("(?:in)?valid (?:[0-9a-f]+|-) (?:[0-9a-f]+|-) [0-9a-f]{64}")


class Held(Exception):
    """A row wants signatures, and waits for the verdicts of the replica that appended it. No step was taken."""


class Follower(Connected):
    """Takes the rows on the node, in their order, and compares the replies. Nobody else writes to that node."""

    def __init__(
        self, state: State, url: str, log: Log, seat: Seat, verify: Optional[Verify], recheck: float, poll: float,
        may_write: bool, watch: Optional[Watch] = None,
    ) -> None:  # fmt: skip
        super().__init__(state, url, "follow", log)
        self._seat, self._verify, self._recheck, self._poll, self._may_write = seat, verify, recheck, poll, may_write
        self._watch = watch
        self._steps = 0
        #: What was taken and isn't compared yet, and since when.
        self._untold: Dict[int, Tuple[float, Told]] = {}
        #: At which moments the log had which places, as far as they aren't taken yet.
        self._seen: Deque[Fresh] = deque()
        #: Held while the node is given rows, or verdicts: their steps are counted.
        self._turn = threading.Lock()
        #: Verdicts for which dry runs asked, as long as no row has them.
        self._early: Dict[str, bool] = {}
        #: Whether rows that want signatures wait for the verdicts of the replica that appended them.
        self._holds = False
        self._chance = random.Random()

    def work(self, log: Log) -> None:
        log.listen()
        while not self._state.is_over:
            began, newest = time.monotonic(), self.look(log)
            if not self._seen or self._seen[-1].place < newest:
                self._seen.append(Fresh(began, newest))
            if newest > self._state.taken + _MANY:
                self._take_many(log, newest)
            elif newest > self._state.taken:
                self._take_some(log)
            self._compare(log)
            self._note_fresh()
            if self._state.taken >= newest:
                log.wait(self._poll)

    def _note_fresh(self) -> None:
        """Notes since when the replica has what the log had."""
        with self._state.lock:
            while self._seen and self._seen[0].place <= self._state.taken:
                self._state.fresh = self._seen.popleft()
            self._state.wake()

    def _take_many(self, log: Log, newest: int) -> None:
        """Takes the rows of a long history."""
        waiting: List[Row] = []
        size = 0
        for row in log.copied(self._state.taken, newest):
            if self._state.is_over:
                return
            waiting.append(row)
            size += len(row.command.data)
            if len(waiting) == _SOME or size > LARGE or self._verify is not None or row.told is None:
                self._take_all(waiting)
                waiting, size = [], 0
        self._take_all(waiting)

    def _take_some(self, log: Log) -> None:
        """Takes the next rows, one after the other."""
        try:
            self._holds = True
            for row in log.tail(self._state.taken, _SOME):
                if self._state.is_over:
                    return
                self._take_all([row])
        except Held:
            log.wait(_GRACE / 10)
        finally:
            self._holds = False

    def _is_held(self, row: Row) -> bool:
        """Whether a row that wants signatures waits for the replica that appended it, so that each is tested once."""
        if not self._holds or row.told is not None or row.command.token in self._state.writes:
            return False
        now = time.monotonic()
        return now < next((seen.moment for seen in self._seen if seen.place >= row.place), now) + _GRACE

    def _take_all(self, rows: Sequence[Row]) -> None:
        """Takes rows. Several are handed to the node at once where each is known to be one step."""
        before = self._state.chain
        for place, row in enumerate(rows, self._state.taken + 1):
            row.check(place, before)
            before = row.chain
        with self._turn:
            self._take_next(rows)

    def _take_next(self, rows: Sequence[Row]) -> None:
        """Takes rows whose places are next."""
        if len(rows) > 1 and self._watch is None and all(row.told is not None and row.told.reply != "decode-failed" for row in rows):
            self._state.places.note(range(self._steps + 1, self._steps + len(rows) + 1))
            answers: List[Stamped[Reply]] = self._ask_all([call_of(row) for row in rows])
            for row, answered in zip(rows, answers):
                self._steps += 1
                self._taken(row, answered, "")
            return
        for row in rows:
            found: Dict[str, bool] = {}
            answered = self._reply(row, found)
            self._taken(row, answered, _verdict_lines({**self._early, **found}))

    def _reply(self, row: Row, found: Dict[str, bool]) -> Stamped[Reply]:
        """Has the node take a row's command; `found` gets the verdicts for which it asks."""
        call = call_of(row)
        if row.told is not None and row.told.verdicts:
            self._learn_told(row.place, row.told, found)
        while True:
            self._state.places.note([self._steps + 1])
            try:
                answered: Stamped[Reply] = self._ask_all([call])[0]
            except Wanted as wanted:
                self._state.places.withdraw()
                lines = wanted.lines
            else:
                if answered.value.reply == "decode-failed":
                    # No step: the place is there all the same.
                    self._state.places.withdraw()
                    self._state.places.note([self._steps])
                else:
                    self._steps += 1
                return answered
            if self._is_held(row):
                raise Held
            if self._verify is None:
                raise errors.BadRow(f"place {row.place} wants signatures, and the history has a table")
            self._learn(dict(zip([line.decode() for line in lines], self._verify(lines))), found)

    def _learn_told(self, place: int, told: Told, found: Dict[str, bool]) -> None:
        """Learns the verdicts that another replica found, and tests a share of them again."""
        given = read_verdicts(place, told.verdicts)
        own = [line for line in given if self._chance.random() < self._recheck]
        if own and self._verify is not None:
            for line, valid in zip(own, self._verify([line.encode() for line in own])):
                if bool(valid) is not given[line]:
                    raise self._differ(place, _verdict_lines({line: bool(valid)}), told)
        try:
            self._learn(given, found)
        except errors.Contradiction as error:
            raise self._differ(place, str(error), told) from None

    def _learn(self, given: Dict[str, bool], found: Dict[str, bool]) -> None:
        """Tells the node verdicts, each of which is a step of its own there."""
        lines = [line.encode() for line in given]
        self._steps = max([self._steps, *self._ask_all(verdicts(lines, lambda _: list(given.values())))])
        found.update(given)

    def learn(self, lines: Sequence[bytes]) -> None:
        """Finds out signatures for which a dry run asks, on its caller's thread, and tells the node. The next row of which this
        replica tells has the verdicts too, so that who has the rows has all that a reply rests on."""
        assert self._verify is not None, "a node with a table asks for none"
        found = dict(zip([line.decode() for line in lines], map(bool, self._verify(lines))))
        with self._turn:
            self._learn(found, self._early)

    def _ask_all(self, calls: Sequence[Call]) -> List[Any]:
        return self._seat.node._pipe.ask_all(calls, self._seat.number)

    def _taken(self, row: Row, answered: Stamped[Reply], verdicts: str) -> None:
        own = Told(answered.value.text, verdicts, self._state.name)
        if row.told is not None:
            self._expect(row.place, own, row.told)
        if answered.at != self._steps:
            raise errors.BadRow(f"place {row.place} is step {answered.at} of the node, where {self._steps} was next")
        if row.told is None:
            self._untold[row.place] = (time.monotonic(), own)
            if row.command.token in self._state.writes:
                self._write_replies([row.place])
        if self._watch is not None:
            self._watch(row, answered.value, self._seat)
        self._state.answer(row, answered.value)

    # ---- comparing

    def _compare(self, log: Log) -> None:
        """Compares what was taken with what others told meanwhile."""
        places = list(islice(self._untold, _MANY))
        for place, told in log.told(places).items() if places else ():
            self._expect(place, self._untold.pop(place)[1], told)
            with self._turn:
                for line in read_verdicts(place, told.verdicts) if self._early else ():
                    self._early.pop(line, None)
        late = time.monotonic() - _GRACE
        self._write_replies([place for place in places if place in self._untold and self._untold[place][0] < late])
        differs = log.difference(self._state.name)
        if differs is not None:
            raise differs

    def _write_replies(self, places: Sequence[int]) -> None:
        if places and self._may_write:
            with self._state.lock:
                self._state.replies.update({place: self._untold[place][1] for place in places})
                self._state.work.notify()

    def _expect(self, place: int, own: Told, told: Told) -> None:
        """Another reply, or another verdict on a signature, stops the replica."""
        known, given = read_verdicts(place, own.verdicts), read_verdicts(place, told.verdicts)
        if own.reply != told.reply or any(known.get(line, valid) is not valid for line, valid in given.items()):
            raise self._differ(place, "\n".join([own.reply, own.verdicts]).strip(), told)

    def _differ(self, place: int, own: str, told: Told) -> errors.ReplicaDiffers:
        """Writes down that this replica differs, for the one that wrote the reply."""
        if self._may_write:
            try:
                with Log(self._url) as log:
                    log.differs(place, self._state.name, own)
            except (Lost, Refused, errors.Error):
                pass  # this replica stops in any case
        return errors.ReplicaDiffers(place, own, "\n".join([told.reply, told.verdicts]).strip(), told.replica)


def call_of(row: Row) -> Call:
    """What the node is asked for a row; `BadRow` where it is no command."""
    command = row.command
    try:
        if not _SEAT.fullmatch(command.seat):
            raise ValueError(f"{command.seat!r} is no client's name")
        if command.command == "submit":
            return submission(command.data, command.now)
        return mark(command.command, command.data)
    except (TypeError, ValueError) as error:
        raise errors.BadRow(f"the command of place {row.place} can't be taken: {error}") from None


def _verdict_lines(found: Dict[str, bool]) -> str:
    return "\n".join(f"{'valid' if valid else 'invalid'} {line}" for line, valid in found.items())


def read_verdicts(place: int, text: str) -> Dict[str, bool]:
    """The verdicts told of a place, each a word and the line of a table; `BadRow` where one is none."""
    found = {}
    for own in text.splitlines():
        if not _VERDICT.fullmatch(own):
            raise errors.BadRow(f"the verdicts of place {place} can't be read: {own[:80]!r}")
        word, _, line = own.partition(" ")
        found[line] = word == "valid"
    return found
