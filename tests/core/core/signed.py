"""300 blocks with real signatures, submitted to a served node by four writers at once beside eight readers. The node finds the
signatures out by need, with libsecp256k1. What it answered is compared with what the rules say, and with what the peer answers
to the same commands in the node's order.

    python3 -m core.signed PROGRAM [SEED]
"""

import sys
import tempfile
import threading
import time
from bisect import bisect_right
from collections import Counter
from pathlib import Path
from typing import Any, Callable, Dict, List, NamedTuple, Optional, Sequence, Tuple

from wakotehu import Node, Seat, secp256k1
from wakotehu.encoding import GENESIS

from .chainstate import Chainstate
from .compare import as_core, differs
from .peer import HEIGHTS, Peer
from .playing import CORE, OURS, Base, Lines, Played, Seen, as_read, hash_coins, model, play_model, play_peer, word
from .rules import Coins, Point
from .signing import TYPES, WRITERS, Plan
from .trees import Command, List_

READERS = 8
#: A moment at which no block is too new.
NOW = GENESIS.time + 600 * 1000
#: So many reads of each reader are compared at most.
MOST_READS = 4000


class Read(NamedTuple):
    """A read's place, what was asked, and the answer."""

    at: int
    asked: Any
    answer: Any


class Told(NamedTuple):
    """What a node answered: the blocks in the order of their steps, with their replies; reads; and what it has at the end."""

    steps: List[Tuple[int, int, str]]
    reads: List[Read]
    verdicts: "Counter[str]"
    coins: Coins
    seen: Seen


class Run:
    """Writers and readers at a node."""

    def __init__(self, node: Node, lines: Lines, plan: Plan) -> None:
        self.node, self.lines, self.plan = node, lines, plan
        self.steps: List[Tuple[int, int, str]] = []
        self.reads: List[Read] = []
        self.faults: List[BaseException] = []
        self._round = threading.Barrier(WRITERS)
        self._ended = threading.Event()

    def play(self) -> None:
        """Has all of them run until the writers are done."""
        writers = [threading.Thread(target=self._try, args=(self._write, number)) for number in range(WRITERS)]
        readers = [threading.Thread(target=self._try, args=(self._read, number)) for number in range(READERS)]
        for thread in writers + readers:
            thread.start()
        for thread in writers:
            thread.join(60)
        self._ended.set()
        for thread in readers:
            thread.join(60)
        if self.faults:
            raise self.faults[0]

    def _try(self, run: Callable[[int], None], number: int) -> None:
        try:
            run(number)
        except BaseException as fault:
            self.faults.append(fault)
            self._round.abort()

    def _write(self, number: int) -> None:
        seat = self.node.seat(number)
        for blocks in self.plan.rounds:
            # What others made in the rounds before is there.
            self._round.wait(60)
            for block in blocks[number]:
                told = seat.try_submit(self.lines.ours.spell(self.plan.blocks, block)[1], NOW)
                self.steps.append((told.at, block, told.value.text))

    def _read(self, number: int) -> None:
        seat, outpoints, count = self.node.seat(WRITERS + number), self.plan.outpoints, 0
        seat.told(self.node.seat(0))
        while not self._ended.is_set() and count < MOST_READS:
            point = outpoints[(count * 7 + number) % len(outpoints)]
            best, tips, coin = seat.getbestblockhash(), seat.getchaintips(), seat.gettxout(*point)
            self.reads += [Read(best.at, "best", best.value), Read(tips.at, "tips", tips.value), Read(coin.at, point, coin.value)]
            count += 3


def submit_base(seat: Seat, lines: Lines) -> None:
    for number in range(lines.list.base):
        seat.submit(lines.ours.spell(lines.list.blocks, number)[1], NOW)


def told_by(program: str, lines: Lines, plan: Plan, verify: Callable[[Sequence[bytes]], List[bool]]) -> Told:
    """What a node answers to the writers and readers."""
    with Node(WRITERS + READERS, heights=HEIGHTS, program=program, verify=verify) as node:
        submit_base(node.seat(0), lines)
        run = Run(node, lines, plan)
        run.play()
        seat = node.seat(0)
        for other in node.seats[1:]:
            seat.told(other)
        entries = seat.journal().value
        steps = sorted(run.steps)
        listed = [(it.step, it.block, it.reply) for it in entries if it.command == "submit"][lines.list.base :]
        ids = [(at, lines.ours.id(plan.blocks, block), reply) for at, block, reply in steps]
        if listed != ids:
            raise AssertionError("the journal differs from what callers were told")
        verdicts = Counter(it.command for it in entries if it.command != "submit")
        return Told(steps, run.reads, verdicts, _coins(seat), _seen(seat, lines, steps[-1][2]))


def _coins(seat: Seat) -> Coins:
    found: Coins = {}
    above: Optional[Point] = None
    while True:
        part = seat.coins(above).value
        if not part:
            return found
        found.update({(id, n): coin for id, n, coin in part})  # type: ignore[misc]  # a coin of either kind
        above = part[-1][:2]


def _seen(seat: Seat, lines: Lines, reply: str) -> Seen:
    best, tips = seat.getbestblockhash().value, seat.getchaintips().value
    found = tuple((lines.by_ours[tip.id], tip.height, tip.length, tip.status) for tip in tips)
    height = next(tip.height for tip in tips if tip.status == "active")
    return Seen(reply, lines.by_ours[best], height, found, ())


# ---- what has to be answered


class Expected(NamedTuple):
    """After some commands: what is seen, and all coins."""

    seen: Seen
    coins: Coins


def expected(base: Base, lines: Lines) -> List[Expected]:
    """By the rules, before the first command and after each."""
    chain = model(OURS, base, lines)
    found = [_state(chain, "")]
    for command in lines.list.commands:
        reply = chain.submit(command.block, command.now)
        found.append(_state(chain, reply))
    return found


def _state(chain: Chainstate, reply: str) -> Expected:
    active = chain.active
    return Expected(Seen(reply, active.number, active.height, tuple(chain.tips()), ()), chain.coins())


def read_faults(told: Told, lines: Lines, said: List[Expected]) -> List[str]:
    """Reads that aren't what the rules say at their place."""
    places = [at for at, _, _ in told.steps]
    faults = []
    for read in told.reads:
        seen, coins = said[bisect_right(places, read.at)]
        if read.asked == "best":
            is_right = lines.by_ours[read.answer] == seen.best
        elif read.asked == "tips":
            tips = tuple((lines.by_ours[tip.id], tip.height, tip.length, tip.status) for tip in read.answer)
            is_right = tips == seen.tips
        else:
            coin = read.answer and (
                read.answer.value, read.answer.script.hex(), read.answer.height, read.answer.coinbase, read.answer.confirmations
            )
            is_right = coin == as_read(coins.get(read.asked), seen.height)
        if not is_right:
            faults.append(f"a read after {read.at} steps: {read.asked} is {read.answer}")
    return faults


def step_faults(told: Told, said: List[Expected], core: Played) -> List[str]:
    """Replies that aren't what the rules say, or what the peer says where both have the same rules."""
    faults = []
    for (at, block, reply), own, theirs in zip(told.steps, said[1:], core.seen):
        assert theirs is not None
        if reply != own.seen.reply:
            faults.append(f"step {at}, block {block}: {reply}, and by the rules {own.seen.reply}")
        if word(reply) != theirs.reply:
            faults.append(f"step {at}, block {block}: {reply}, and the peer says {theirs.reply}")
    return faults


def end_faults(told: Told, lines: Lines, said: Expected, core: Played) -> List[str]:
    """What is there at the end, and isn't what the rules and the peer say."""
    faults = [] if told.seen == said.seen else [f"at the end {told.seen}, and by the rules {said.seen}"]
    last = core.seen[-1]
    assert last is not None
    if told.seen.as_core() != last._replace(reads=()):
        faults.append(f"at the end {told.seen.as_core()}, and the peer has {last}")
    if hash_coins(lines, told.seen.best, told.coins) != core.coins:
        faults.append("other coins at the end than the peer's")
    return faults


# ---- all of it


def counts(told: Told, said: List[Expected], plan: Plan) -> Tuple[Dict[str, int], List[str]]:
    """What was played, and what came too seldom."""
    replies = Counter(word(reply) for _, _, reply in told.steps)
    bests = [it.seen.best for it in said]
    found = {
        "blocks": len(told.steps), "accepted": replies["accepted"], "on another branch": replies["inconclusive"],
        "with a wrong signature": replies["blk-bad-inputs"], "valid signatures": told.verdicts["valid"],
        "wrong ones": told.verdicts["invalid"], "reads": len(told.reads),
        "reorganisations": sum(
            new != old and plan.blocks[new].parent != max(old, plan.base - 1) for old, new in zip(bests, bests[1:]) if new >= 0
        ),
    }  # fmt: skip
    least = {
        "blocks": 300, "accepted": 30, "on another branch": 60, "with a wrong signature": 5, "valid signatures": 300,
        "wrong ones": 20, "reads": 500, "reorganisations": 8,
    }  # fmt: skip
    few = [f"{found[name]} {name}, not {count}" for name, count in least.items() if found[name] < count]
    few += [] if len(plan.signer.signed) == 8 * len(TYPES) else ["a kind wasn't signed with each hash type"]
    return found, few


def faults_of(program: str, seed: int, room: Path, verify: Callable[[Sequence[bytes]], List[bool]] = secp256k1) -> List[str]:
    """Plays all of it, and answers what differs."""
    plan = Plan(seed)
    base = Base(plan.blocks[: plan.base])
    list_ = List_(plan.blocks, plan.base, [], list(plan.signer.lines), plan.outpoints)
    told = told_by(program, Lines(base, list_), plan, verify)
    lines = Lines(base, list_._replace(commands=[Command("submit", block, NOW) for _, block, _ in told.steps]))
    said = expected(base, lines)
    with Peer(room / "peer") as peer:
        peer.call("setmocktime", NOW)
        for number in range(plan.base):
            reply = peer.submit(base.theirs.spell(plan.blocks, number)[1])
            if reply != "accepted":
                raise AssertionError(f"the peer refuses block {number} of the base: {reply}")
        core = play_peer(peer, lines)
    of_core = play_model(lines, model(CORE, base, lines))
    found = differs("Core", core, as_core(of_core))
    counted, few = counts(told, said, plan)
    print(f"signatures by need, {WRITERS} writers and {READERS} readers: " + ", ".join(f"{n} {name}" for name, n in counted.items()))
    faults = [*([str(found)] if found else []), *step_faults(told, said, core), *end_faults(told, lines, said[-1], core)]
    return [*faults, *read_faults(told, lines, said), *few]


def main(words: Sequence[str]) -> int:
    if not words or words[0].startswith("-"):
        print(__doc__)
        return 0 if words else 2
    begun = time.monotonic()
    with tempfile.TemporaryDirectory() as room:
        faults = faults_of(words[0], int(words[1]) if len(words) > 1 else 1, Path(room))
    for fault in faults[:10]:
        print(f"FAULT {fault[:500]}")
    print(f"{time.monotonic() - begun:.0f} seconds, {len(faults)} faults")
    return 1 if faults else 0


if __name__ == "__main__":
    sys.exit(main(sys.argv[1:]))
