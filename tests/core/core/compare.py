"""Lists compared, step by step, and made small where they differ."""

import shutil
from collections import Counter
from dataclasses import dataclass, field
from pathlib import Path
from types import TracebackType
from typing import Callable, List, NamedTuple, Optional, Sequence, Tuple, Type

from wakotehu.encoding import GENESIS

from . import goals
from .chainstate import Chainstate, Refusal
from .peer import HEIGHTS, Peer, remove
from .playing import CORE, Base, Lines, Played, model, play_library, play_model, play_peer, play_program, write_scenario
from .trees import List_, Maker


class Difference(NamedTuple):
    """A step at which an answer isn't what it has to be: what, where, what was answered, and what the rules say."""

    what: str
    step: int
    found: object
    expected: object

    def __str__(self) -> str:
        return f"{self.what} at step {self.step}\n  answered  {self.found}\n  expected  {self.expected}"


@dataclass
class Tally:
    """What was compared."""

    lists: int = 0
    commands: int = 0
    #: Commands after which both said the same, and after which each said what it has to.
    equal: int = 0
    apart: int = 0
    #: Commands from where on the peer's answer hangs on addresses; ours are compared there too.
    unclear: int = 0
    #: Replies of ours, and which rules were broken where.
    replies: "Counter[str]" = field(default_factory=Counter)
    refusals: "Counter[Refusal]" = field(default_factory=Counter)
    #: How often the rules were asked at their edges.
    edges: "Counter[str]" = field(default_factory=Counter)


class Four(NamedTuple):
    """What four said of a list: the peer, ours, and what each has to say."""

    core: Played
    ours: Played
    core_expected: Played
    ours_expected: Played
    #: Of what is expected of ours.
    chain: Chainstate


def differs(who: str, found: Played, expected: Played) -> Optional[Difference]:
    """The first step at which it isn't what it has to be, or the coins at the end."""
    for step, (seen, said) in enumerate(zip(found.seen, expected.seen)):
        if said is None:
            return None
        if seen != said:
            return Difference(f"{who}: another answer", step, seen, said)
    if found.coins != expected.coins:
        return Difference(f"{who}: other coins at the end", len(found.seen) - 1, found.coins, expected.coins)
    return None


def count(four: Four, tally: Tally) -> None:
    tally.lists += 1
    for theirs, own, said in zip(four.core.seen, four.ours.seen, four.core_expected.seen):
        assert own is not None
        tally.commands += 1
        tally.replies[own.reply.split(" ")[0]] += 1
        if said is None:
            tally.unclear += 1
        elif theirs == own.as_core():
            tally.equal += 1
        else:
            tally.apart += 1
    tally.refusals.update(four.chain.refusals)
    tally.edges.update(goals.told(four.chain))


def as_core(played: Played) -> Played:
    return played._replace(seen=[seen and seen.as_core() for seen in played.seen])


class Bench:
    """A peer over a base, and lists that are played on it."""

    def __init__(
        self, height: int, room: Path, program: Optional[str] = None, kept: Optional[Path] = None, options: Sequence[str] = ()
    ) -> None:
        self.maker = Maker(height)
        self.base = Base(self.maker.base)
        self.made = {tx.id for block in self.maker.base for tx in block.transactions}
        self.product: Callable[[Lines], Played] = play_library
        self.height, self.program = height, program
        self.folder, self.options = room / f"peer-{height}", options
        if kept is not None and (kept / f"base-{height}").exists():
            shutil.copytree(kept / f"base-{height}", self.folder)
        self.peer = Peer(self.folder, self.options)
        self.reverse, self.precious_height = -1, 0
        self._lay_base()
        if kept is not None and not (kept / f"base-{height}").exists():
            self.peer.stop(is_kept=True)
            shutil.copytree(self.folder, kept / f"base-{height}")
            self._restart()

    def _lay_base(self) -> None:
        self.peer.call("setmocktime", GENESIS.time + 600 * self.height + 10**6)
        is_there = self.peer.call("getblockcount") == self.height
        for number in range(self.height):
            data = self.base.theirs.spell(self.maker.base, number)[1]
            self.base.ours.spell(self.maker.base, number)
            if not is_there and self.peer.submit(data) != "accepted":
                raise RuntimeError(f"block {number + 1} of a base is refused")

    def __enter__(self) -> "Bench":
        return self

    def __exit__(
        self, kind: Optional[Type[BaseException]], value: Optional[BaseException], trace: Optional[TracebackType]
    ) -> None:
        self.peer.stop()
        remove(self.folder)

    def ask(self, list_: List_) -> Tuple[Lines, Four]:
        """Plays a list at both, and by what each has to say."""
        lines = Lines(self.base, list_)
        core, core_expected = play_peer(self.peer, lines), self.expect(lines)
        chain = goals.telling(self.base, lines, self.made)
        return lines, Four(core, self.product(lines), core_expected, play_model(lines, chain), chain)

    def play(self, list_: List_, tally: Tally) -> Optional[Difference]:
        """The first answer of a list that isn't what it has to be."""
        lines, four = self.ask(list_)
        count(four, tally)
        return self.judge(lines, four)

    def judge(self, lines: Lines, four: Four) -> Optional[Difference]:
        found = differs("ours", four.ours, four.ours_expected) or differs("Core", four.core, as_core(four.core_expected))
        if found is None and self.program is not None:
            printed = Played(play_program(self.program, lines), four.ours.coins)
            found = differs("the program", printed, four.ours_expected)
        return found

    def expect(self, lines: Lines) -> Played:
        """What Bitcoin Core says of a list, behind the lists before it."""
        chain = model(CORE, self.base, lines, self.reverse, self.precious_height)
        expected = play_model(lines, chain)
        self.reverse, self.precious_height = chain.reverse, chain.precious_height
        if None in expected.seen:
            self._restart()
        return expected

    def _restart(self) -> None:
        """Starts the peer anew: it forgets its count of preferences, which isn't known behind a tie by addresses."""
        self.peer.stop(is_kept=True)
        self.peer = Peer(self.folder, self.options)
        self.peer.call("setmocktime", GENESIS.time + 600 * self.height + 10**6)
        self.reverse, self.precious_height = -1, 0

    def shrink(self, list_: List_) -> Tuple[List_, Difference]:
        """The list with as few commands as still differ, and how. Each trial has blocks of its own."""
        kept, salt, last = list(range(len(list_.commands))), 1, None
        size = max(1, len(kept) // 2)
        while True:
            at = 0
            while at < len(kept):
                rest = kept[:at] + kept[at + size :]
                less = self._part(list_.seed, salt, rest)
                salt += 1
                found = self.play(less, Tally()) if rest else None
                if found is None:
                    at += size
                else:
                    kept, last = rest, (less, found)
            if size == 1:
                break
            size //= 2
        if last is None:
            raise ValueError("the list doesn't differ again")
        return last

    def _part(self, seed: int, salt: int, kept: List[int]) -> List_:
        whole = self.maker.list(seed, salt)
        return whole._replace(commands=[whole.commands[n] for n in kept])

    def report(self, list_: List_, found: Difference) -> str:
        """The difference, and the list made small, as a scenario that the program plays."""
        head = f"base {self.height}, seed {list_.seed}: {found}\n"
        try:
            small, again = self.shrink(list_)
        except ValueError as error:
            return head + f"{error}\n"
        text = write_scenario(Lines(self.base, small), small.commands)
        heights = ",".join(map(str, HEIGHTS))
        return head + f"made small: {again}\nregchain run --heights {heights} --scenario - <<'END'\n{text}END\n"
