"""How often the lists come to the edges of each rule, as the rules are asked about them.

`Telling` is the rules with a count: what is counted is a question that the rules came to, on the active block or in a
reorganisation, and not what a case meant to ask.
"""

from collections import Counter
from dataclasses import dataclass
from typing import Dict, List, Set, Tuple

from .chainstate import ON_BRANCH, REORGANISING, Chainstate, Node
from .interpreter import is_push_only, opcodes, pays_to_script_hash
from .playing import OURS, Base, Lines, model
from .rules import Body, Coins, Place, Rules, Turn, Tx, tally

#: What has to come, and how often in 100 lists.
GOALS: Dict[str, int] = {
    **{f"a coinbase's coin {age} blocks old, {where}": n for age in (99, 100, 101) for where, n in ((ON_BRANCH, 5), (REORGANISING, 3))},
    "BIP 30: all outputs of the same are spent": 5, "BIP 30: the last output alone is there": 5,
    "BIP 30: the first output alone is there": 5,
    "a relative lock by height, just met": 5, "a relative lock by height, short by one": 5, "a relative lock by time, just met": 5,
    "a relative lock by time, short by one": 5, "a relative lock by the median of the coin's parent, not of its block": 5,
    "a relative lock by the median, not the block's own time": 5, "a relative lock with other bits": 5,
    "a lock that isn't met, in version 0 or 1": 5, "a lock in a negative version": 5,
    "finality by the median, not the block's time": 5, "finality by the block's time, not the median": 5,
    "a lock time of the height": 5, "a lock time of the height less 1": 5,
    "inner operations by a number of keys, not by 20": 5, "inner operations of OP_1": 3, "inner operations of OP_2 to OP_15": 5,
    "inner operations of OP_16": 3, "an input that does more than push": 5, "the last of several pushes": 3,
    "20,000 operations with inner ones": 5, "20,001 operations with inner ones": 5, "20,000 operations": 5, "20,001 operations": 5,
    "an output's operations by 20, not by its number of keys": 5,
    **{f"a twin on level {level}": 5 for level in (1, 2, 3)},
    "7,200 seconds ahead": 5, "7,201 seconds ahead": 5, "the total at the limit": 5, "the total above the limit by 1": 5,
    "an id that is null, another index": 5, "an index that is null, another id": 5,
}  # fmt: skip


class Telling(Rules):
    """The rules, which count what they are asked."""

    goals: "Counter[str]"
    where: str
    #: The transactions that were made by now.
    made: Set[bytes]

    def _tell(self, goal: str, does: bool = True) -> None:
        if does:
            self.goals[goal] += 1

    # ---- a block by itself

    def has_twin(self, block: Body) -> bool:
        level, number = [tx.id for tx in block.txs], 1
        while len(level) > 1:
            if self.twin_of_level(level):
                self._tell(f"a twin on level {number}")
                break
            level, number = [self._above(pair) for pair in self.pairs(level)], number + 1
        return super().has_twin(block)

    def _above(self, pair: Tuple[bytes, bytes]) -> bytes:
        return self.root(list(pair))

    def is_null(self, id: bytes, index: int) -> bool:
        self._tell("an id that is null, another index", id == bytes(32) and index != 0xFFFFFFFF)
        self._tell("an index that is null, another id", id != bytes(32) and index == 0xFFFFFFFF)
        return super().is_null(id, index)

    def value_fault(self, value: int, total: int) -> str:
        self._tell("the total at the limit", total == self.money and 0 <= value <= self.money)
        self._tell("the total above the limit by 1", total == self.money + 1 and 0 <= value <= self.money)
        return super().value_fault(value, total)

    def has_many_operations(self, block: Body) -> bool:
        count = sum(map(self.own_operations, block.txs))
        self._tell("20,000 operations", count == 20000)
        self._tell("20,001 operations", count == 20001)
        return super().has_many_operations(block)

    def own_operations(self, tx: Tx) -> int:
        by_keys = [tally(o.script, True) for o in tx.outputs] != [tally(o.script, False) for o in tx.outputs]
        self._tell("an output's operations by 20, not by its number of keys", by_keys)
        return super().own_operations(tx)

    # ---- a block by its place

    def is_too_new(self, block: Body, place: Place, now: int) -> bool:
        self._tell("7,200 seconds ahead", block.time == now + 7200)
        self._tell("7,201 seconds ahead", block.time == now + 7201)
        return super().is_too_new(block, place, now)

    def is_not_final(self, block: Body, place: Place) -> bool:
        for tx in block.txs:
            by_median, by_time = (self.is_final(tx, place.height, cutoff) for cutoff in (place.cutoff, place.time))
            is_last = any(i.sequence != 0xFFFFFFFF for i in tx.inputs)
            self._tell("finality by the median, not the block's time", by_median != by_time and place.height >= self.csv)
            self._tell("finality by the block's time, not the median", by_median != by_time and place.height < self.csv)
            self._tell("a lock time of the height", is_last and tx.tx.lock_time == place.height)
            self._tell("a lock time of the height less 1", is_last and tx.tx.lock_time == place.height - 1)
        return super().is_not_final(block, place)

    # ---- a block over the coins of its branch

    def makes_again(self, block: Body, coins: Coins) -> bool:
        for tx in block.txs:
            there = [n for n in range(len(tx.outputs)) if (tx.id, n) in coins]
            self._tell("BIP 30: all outputs of the same are spent", tx.id in self.made and not there)
            self._tell("BIP 30: the last output alone is there", there == [len(tx.outputs) - 1] != [0])
            self._tell("BIP 30: the first output alone is there", there == [0] != [len(tx.outputs) - 1])
        return super().makes_again(block, coins)

    def after(self, tx: Tx, height: int, coins: Coins) -> None:
        self.made.add(tx.id)
        super().after(tx, height, coins)

    def spends_unripe(self, turn: Turn) -> bool:
        for age in {turn.place.height - coin.height for coin in turn.spent() if coin.coinbase}:
            self._tell(f"a coinbase's coin {age} blocks old, {self.where}")
        return super().spends_unripe(turn)

    def breaks_a_lock(self, turn: Turn) -> bool:
        version, is_counted = turn.tx.tx.version, turn.place.height >= self.csv
        pairs = list(zip(turn.tx.inputs, turn.spent()))
        is_short = not all(super(Telling, self).is_lock_met(i.sequence, coin.height, turn.place) for i, coin in pairs)
        self._tell("a lock that isn't met, in version 0 or 1", is_counted and version in (0, 1) and is_short)
        self._tell("a lock in a negative version", is_counted and version < 0 and any(not i.sequence >> 31 for i, _ in pairs))
        return super().breaks_a_lock(turn)

    def is_lock_met(self, sequence: int, height: int, place: Place) -> bool:
        met, count = super().is_lock_met(sequence, height, place), sequence & 0xFFFF
        if not sequence >> 31:
            self._tell("a relative lock with other bits", sequence & ~(0xFFFF | 1 << 22) != 0)
            by_time = sequence >> 22 & 1
            left = (self.lock_ends(place) - self.lock_begins(height, place)) // 512 - count if by_time else place.height - height - count
            kind = "time" if by_time else "height"
            self._tell(f"a relative lock by {kind}, just met", left == 0)
            self._tell(f"a relative lock by {kind}, short by one", left == -1)
            # A coin of the block itself has no median of its own yet.
            if by_time and height < place.height:
                own = place.median_at(height) + 512 * count <= place.cutoff
                self._tell("a relative lock by the median of the coin's parent, not of its block", own != met)
                now = self.lock_begins(height, place) + 512 * count <= place.time
                self._tell("a relative lock by the median, not the block's own time", now != met)
        return met

    def goes_over(self, turn: Turn) -> bool:
        count = turn.before + self.all_operations(turn)
        has_inner = self.all_operations(turn) > self.own_operations(turn.tx)
        self._tell("20,000 operations with inner ones", has_inner and count == 20000)
        self._tell("20,001 operations with inner ones", has_inner and count == 20001)
        return super().goes_over(turn)

    def inner_operations(self, own: bytes, spent: bytes) -> int:
        pushed = [op.data or b"" for op in opcodes(own)]
        if pays_to_script_hash(spent) and pushed:
            counts = tally(pushed[-1], True), tally(pushed[-1], False)
            self._tell("an input that does more than push", not is_push_only(own) and counts[0] > 0)
            if is_push_only(own):
                self._tell("inner operations by a number of keys, not by 20", counts[0] != counts[1])
                self._tell("the last of several pushes", tally(pushed[0], True) != counts[0])
                for number in _numbers(pushed[-1]):
                    named = number if number in (1, 16) else "2 to OP_15"
                    self._tell(f"inner operations of OP_{named}")
        return super().inner_operations(own, spent)


def _numbers(script: bytes) -> List[int]:
    """The numbers of keys that stand before CHECKMULTISIG."""
    codes = [op.code for op in opcodes(script)]
    return [last - 0x50 for last, code in zip(codes, codes[1:]) if code in (0xAE, 0xAF) and 0x51 <= last <= 0x60]


@dataclass
class Settling(Chainstate):
    """A chainstate that tells its rules where a block is connected."""

    def __post_init__(self) -> None:
        super().__post_init__()
        self.began = self.active

    def _settle(self) -> Dict[Node, str]:
        self.began = self.active
        return super()._settle()

    def _try(self, node: Node) -> Tuple[str, Coins]:
        if node.tried is None:
            assert isinstance(self.rules, Telling)
            self.rules.where = ON_BRANCH if node.is_on(self.began) else REORGANISING
        return super()._try(node)


def telling(base: Base, lines: Lines, made: Set[bytes]) -> Chainstate:
    """What is expected of ours, with a count; `made` are the ids of the base's transactions."""
    chain = model(OURS._replace(rules=Telling, chainstate=Settling), base, lines)
    rules = chain.rules
    assert isinstance(rules, Telling)
    rules.goals, rules.where, rules.made = Counter(), ON_BRANCH, set(made)
    return chain


def told(chain: Chainstate) -> "Counter[str]":
    assert isinstance(chain.rules, Telling)
    return chain.rules.goals


def lacking(goals: "Counter[str]", lists: int) -> List[str]:
    """Prints how often each goal came; those that came too seldom."""
    print("  edges of the rules, as often as the lists came to them:")
    for goal, least in GOALS.items():
        print(f"    {goals[goal]:>6} {goal}")
    seldom = [(goal, least * lists // 100) for goal, least in GOALS.items() if goals[goal] < least * lists // 100]
    return [f"{goal}: {goals[goal]} times, not {least}" for goal, least in seldom]
