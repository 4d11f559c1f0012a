"""A test bench: the proved chainstate with real signatures."""

from types import TracebackType
from typing import Callable, Dict, Iterator, List, Mapping, NamedTuple, NoReturn, Optional, Sequence, Tuple, Type, Union

from . import ahead, arguments, consensus, errors
from .arguments import id_of, instance, number, octets
from .chainstate import (
    REGTEST, BlockHeader, Chainstate, Coin, Moved, Reply, Tip, mark_of, moment_of, read_heights, reply_of,
)  # fmt: skip
from .consensus import Triple
from .deployments import GivenHeights
from .encoding import EncodingError, Spelled, block_at_front, double_sha
from .index import Index, Unspent, Walks
from .library import Answer
from .signatures import Verifier, signatures_of


class Entry(NamedTuple):
    """A command that changed something, with its reply: "submit" of a kept block at a moment, or a mark."""

    command: str
    id: bytes
    now: int
    reply: str


class _Step:
    """A command that was begun: what is to be recorded of it once the library has taken it. The library writes `answer` in
    the call in which it takes the step, so a record can be made whenever an interrupt has cut that short."""

    def __init__(self, command: str, id: bytes, now: int, spelled: Optional[Spelled], is_new: bool) -> None:
        self.command, self.id, self.now, self.spelled, self.is_new = command, id, now, spelled, is_new
        self.answer = Answer()
        self.is_running = True
        #: Its place in the journal, once it has one.
        self.place: Optional[int] = None


class Bench(Walks):
    """A chainstate of real signatures, which libsecp256k1 finds out as they are asked for.

    Where the scripts of a block ask for signatures of which nothing is known, the chainstate takes no step and names
    them; libsecp256k1 says whether they are valid, and the block comes again. A verdict never changes, and no reply
    that was given depends on one that came later: both are proved. Blocks that break a rule by themselves or by their
    place run no script.

    It has the calls of `Chainstate`, and walks over blocks: `parent`, `branch`, `is_kept`.

    table: signatures that are known to be valid, as lines: libsecp256k1 isn't asked about them, nor about any twice.
    threads: how many threads test signatures at once, the caller's among them; 1 starts none. By default one for each
        processor that the process may use, at most 8. Verdicts, replies and the table are the same for any number.
    """

    def __init__(
        self, heights: GivenHeights = REGTEST, table: Union[str, bytes] = b"", threads: Optional[int] = None
    ) -> None:
        self.heights = read_heights(heights)
        self._journal: List[Entry] = []
        self._bests: List[bytes] = []
        #: Commands that were begun and aren't recorded.
        self._begun: List[_Step] = []
        #: Is told of each step: command, id, a block's bytes, moment and reply.
        self.taken: Callable[[str, bytes, bytes, int, str], None] = lambda *words: None
        #: How often a command came again after signatures were found out, and how many were.
        self.rounds = self.found_out = 0
        self._index = Index()
        self._verifier = Verifier(threads)
        self._table = bytearray(arguments.lines(table, "table"))
        if self._table and not self._table.endswith(b"\n"):
            self._table += b"\n"
        #: What is known of signatures: those of the table, and what libsecp256k1 said; and which of them the chainstate has.
        self._verdicts = {triple: True for triple in signatures_of(consensus.Table(bytes(self._table)).text)}
        self._learnt = set(self._verdicts)
        self.chain = Chainstate(self.heights, by_need=True)
        for triple in self._learnt:
            self.chain.learn(triple, True)

    @property
    def journal(self) -> List[Entry]:
        """The submissions of kept blocks and the marks so far, with their replies. Other commands change nothing."""
        self._settle()
        return self._journal

    @property
    def bests(self) -> List[bytes]:
        """The active block's id behind each step of the journal."""
        self._settle()
        return self._bests

    @property
    def index(self) -> Index:  # type: ignore[override]  # a variable of Walks, which only Bench computes
        """What is known of the kept blocks."""
        self._settle()
        return self._index

    @property
    def table(self) -> bytes:
        """The signatures that were found valid, as the lines of a table. Under it `Chainstate` and `regchain audit`
        give the same replies."""
        return self.table_from(0)

    @property
    def table_size(self) -> int:
        """How many bytes `table` has. It only grows."""
        return len(self._table)

    def table_from(self, place: int) -> bytes:
        """The bytes of `table` from a place on."""
        return bytes(self._table[number(place, "place", 64) :])

    def __reduce_ex__(self, protocol: object) -> NoReturn:
        """As of a `Chainstate`."""
        raise TypeError("a Bench can't be copied or pickled")

    def copy(self) -> "Bench":
        """Another bench that is the same: blocks are shared, coins and verdicts copied. Each then goes its own way. `taken` isn't
        copied."""
        self._settle()
        found = Bench.__new__(Bench)
        found.heights, found._journal, found._begun = self.heights, list(self._journal), []
        found._bests = list(self._bests)
        found.taken = lambda *words: None
        found.rounds = found.found_out = 0
        found._index, found._verifier, found._table = self._index.copy(), self._verifier, bytearray(self._table)
        found._verdicts, found._learnt = dict(self._verdicts), set(self._learnt)
        found.chain = self.chain.copy()
        return found

    def close(self) -> None:
        """Closes the chainstate."""
        try:
            self._settle()
        finally:
            self.chain.close()

    def __enter__(self) -> "Bench":
        return self

    def __exit__(
        self, kind: Optional[Type[BaseException]], value: Optional[BaseException], trace: Optional[TracebackType]
    ) -> None:
        self.close()

    # ---- commands

    def submit(self, block: bytes, now: Optional[int] = None) -> str:
        """As `Chainstate.submit`."""
        return self.try_submit(block, now).check()

    def try_submit(self, block: bytes, now: Optional[int] = None) -> Reply:
        """As `Chainstate.try_submit`."""
        data, moment = octets(block, "block"), moment_of(now)
        try:
            spelled = block_at_front(data)
        except EncodingError:
            return self.chain.try_submit(data, moment)
        return self.try_submit_spelled(spelled, moment) if spelled.data == data else self.chain.try_submit(data, moment)

    def try_submit_spelled(self, spelled: Spelled, now: int) -> Reply:
        """The same for a block that was read already."""
        spelled, now = instance(spelled, Spelled, "spelled"), number(now, "now", 64)
        id = double_sha(spelled.data[:80])
        step = _Step("submit", id, now, spelled, id not in self.index.blocks)
        return self._taken(step, lambda: self.chain._submit_into(step.answer, spelled.data, now))

    def judge(self, block: bytes, now: Optional[int] = None) -> Reply:
        """As `Chainstate.judge`. Signatures that it asks for are verified, and stay known."""
        data, moment = octets(block, "block"), moment_of(now)
        try:
            spelled = block_at_front(data)
        except EncodingError:
            return self.chain.judge(data, moment)
        return self.judge_spelled(spelled, moment) if spelled.data == data else self.chain.judge(data, moment)

    def judge_spelled(self, spelled: Spelled, now: int) -> Reply:
        """The same for a block that was read already."""
        spelled, now = instance(spelled, Spelled, "spelled"), number(now, "now", 64)
        self._settle()
        step = _Step("judge", double_sha(spelled.data[:80]), now, spelled, False)
        return self._by_need(step, lambda: self.chain.judge(spelled.data, now))

    def try_mark(self, command: str, id: bytes) -> Reply:
        """As `Chainstate.try_mark`."""
        id = id_of(id)
        step = _Step(mark_of(command), id, 0, None, False)
        return self._taken(step, lambda: self.chain._mark_into(step.answer, command, id))

    def _taken(self, step: _Step, command: Callable[[], Reply]) -> Reply:
        """Has the library take a step, and records it. Where this is interrupted between the two, the next call does."""
        self._settle()
        self._begun.append(step)
        try:
            reply = self._by_need(step, command)
        finally:
            step.is_running = False
        self._settle()
        return reply

    def _settle(self) -> None:
        """Records the steps that were taken and aren't recorded yet."""
        if not self._begun:
            return
        for step in [step for step in self._begun if not step.is_running]:
            # It is 0 until the library has taken the step.
            if step.answer.reply:
                self._record(step)
            self._begun.remove(step)
            if step.answer.reply:
                reply = reply_of(step.answer)
                data = step.spelled.data if step.spelled else b""
                if reply.reply != "decode-failed":
                    self.taken(step.command, step.id, data, step.now, reply.text)

    def _record(self, step: _Step) -> None:
        """Makes the record of a step. Where this is cut short it is called again, and does what was left."""
        reply = reply_of(step.answer)
        if step.spelled:
            if not step.is_new or not self.chain.is_kept(step.id):
                return
            if step.id not in self._index.blocks:
                self._index.add(step.id, step.spelled)
        elif reply.reply != "done":
            return
        if step.place is None:
            step.place = len(self._journal)
        best = self.chain.best()
        self._bests[step.place : step.place + 1] = [best]
        self._journal[step.place : step.place + 1] = [Entry(step.command, step.id, step.now, reply.text)]
        self._index.follow(best)

    def _by_need(self, step: _Step, command: Callable[[], Reply]) -> Reply:
        """Makes a command, and finds out what it wants, until it is taken."""
        is_again = False
        while True:
            try:
                return command()
            except errors.Wants as wants:
                self.rounds += 1
                self._learn(self._test(wants.triples, wants.lines))
                # What the scripts that wanted something will want next.
                asking = ahead.asking(wants.triples, self._places(step), self.transaction, is_again)
                asked = ahead.found_out(asking, self._verdicts, lambda more: list(self._test(more).values()))
                self._learn(self._test(asked))
                is_again = True

    def _find_out(self, lines: Sequence[bytes]) -> List[bool]:
        """Whether the signatures of lines are valid. That stays known."""
        verdicts = self._test(Triple.of_lines(lines), lines)
        self._learn(verdicts)
        return list(verdicts.values())

    def _test(self, triples: Sequence[Triple], lines: Optional[Sequence[bytes]] = None) -> Dict[Triple, bool]:
        """Whether signatures are valid. libsecp256k1 is asked about those that aren't known."""
        told = [triple.line[:-1] for triple in triples] if lines is None else lines
        unknown = {triple: line for triple, line in zip(triples, told) if triple not in self._verdicts}
        if unknown:
            self._verdicts.update(zip(unknown, self._verifier.verdicts(list(unknown.values()))))
        return {triple: self._verdicts[triple] for triple in triples}

    def _learn(self, verdicts: Mapping[Triple, bool]) -> None:
        """Gives the verdicts to the chainstate, those that it doesn't have."""
        for triple, valid in verdicts.items():
            if triple in self._learnt:
                continue
            # First the table: where this is interrupted, it has all that the chainstate knows, perhaps a line twice.
            if valid:
                self._table += triple.line
            self.chain.learn(triple, valid)
            self._learnt.add(triple)
            self.found_out += 1

    def _places(self, step: _Step) -> Iterator[ahead.Place]:
        """The blocks whose scripts a step may run: those of a branch that aren't active, the lowest first."""
        index = self._index
        tips = [step.spelled.header.parent] if step.spelled else [tip.id for tip in self.chain.tips()]
        for tip in tips:
            for id in index.beside(tip):
                data = self.chain.block(id)
                if data is not None:
                    yield ahead.Place(block_at_front(data), self._flags_at(index.blocks[id].height))
            if step.spelled and tip in index.blocks:
                yield ahead.Place(step.spelled, self._flags_at(index.blocks[tip].height + 1))

    def _flags_at(self, height: int) -> ahead.Flags:
        return ahead.Flags.at(height, self.heights)

    def invalidate(self, id: bytes) -> None:
        """As `Chainstate.invalidate`."""
        self.try_mark("invalidate", id).check()

    def reconsider(self, id: bytes) -> None:
        """As `Chainstate.reconsider`."""
        self.try_mark("reconsider", id).check()

    def precious(self, id: bytes) -> None:
        """As `Chainstate.precious`."""
        self.try_mark("precious", id).check()

    # ---- reads

    def best(self) -> bytes:
        """The active block's id."""
        return self.chain.best()

    def height(self) -> int:
        """The active block's height."""
        return self.chain.height()

    def tips(self) -> List[Tip]:
        """The tips, by height downwards, then as they came."""
        return self.chain.tips()

    def coin(self, id: bytes, index: int) -> Optional[Coin]:
        """The coin at an outpoint, or None."""
        return self.chain.coin(id, index)

    def block(self, id: bytes) -> Optional[bytes]:
        """As `Chainstate.block`."""
        return self.chain.block(id)

    def id_at(self, height: int) -> Optional[bytes]:
        """As `Chainstate.id_at`."""
        return self.chain.id_at(height)

    def header(self, id: bytes) -> Optional[BlockHeader]:
        """As `Chainstate.header`."""
        return self.chain.header(id)

    def ancestor(self, id: bytes, height: int) -> Optional[bytes]:
        """As `Chainstate.ancestor`."""
        return self.chain.ancestor(id, height)

    def fork(self, one: bytes, other: bytes) -> Optional[bytes]:
        """As `Chainstate.fork`."""
        return self.chain.fork(one, other)

    def moved(self, before: bytes) -> Moved:
        """As `Chainstate.moved`."""
        return self.chain.moved(before)

    def spent(self, id: bytes) -> Optional[List[Coin]]:
        """As `Chainstate.spent`."""
        return self.chain.spent(id)

    def unspent(self, id: bytes, index: int) -> Optional[Unspent]:
        """The coin at an outpoint with the active block, or None."""
        coin = self.coin(id, index)
        return coin and Unspent(coin, self.best(), self.height() - coin.height + 1)

    def coins_at(self, outpoints: Sequence[Tuple[bytes, int]]) -> List[Optional[Coin]]:
        """The coins at some outpoints, or None."""
        pairs = [arguments.several(pair, "outpoints", 2) for pair in arguments.sequence(outpoints, "outpoints")]
        return [self.coin(id_of(id, "outpoints"), number(index, "outpoints")) for id, index in pairs]

    def coins(self) -> List[Tuple[bytes, int, Coin]]:
        """As `Chainstate.coins`."""
        return self.chain.coins()

    def fresh(self) -> int:
        """A number for a coinbase, that none on the active block has."""
        return len(self.journal)
