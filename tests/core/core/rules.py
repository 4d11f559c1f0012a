"""The rules of blocks as docs/RULES.md has them, and the kinds of docs/CORE.md in which Bitcoin Core differs, as switches.

Nothing here asks the library. What a rule says is a method or a number of its own, so that a wrong one can be planted.
"""

import hashlib
import re
from functools import lru_cache
from typing import Callable, Dict, FrozenSet, Iterable, List, NamedTuple, Optional, Sequence, Tuple

from wakotehu.encoding import Transaction, write_transaction

from .interpreter import accepts, is_push_only, opcodes, pays_to_script_hash

#: The kinds of docs/CORE.md, by their names there.
ABOVE = "marks above an invalidated block"
LATE = "a child of a marked branch that was valid"
HEADER_FIRST = "tests of the header before marks spread"
NOT_FINAL = "a header stays of a block that isn't final"
NO_HEIGHT = "a header stays of a block without its height"
UNTRIED = "a block that was never tried comes again"
OTHER_BYTES = "other bytes under the header of a block that was never tried"
BEHIND = "bytes behind a block"
NO_INPUTS = "a transaction without inputs"
NO_COINBASE = "a block that begins with no coinbase"
OWN_TARGET = "a target of the header's own"
COINS_FIRST = "signature operations before a missing input"
ANEW = "ranks are counted anew"
ALL_KINDS = frozenset(
    (ABOVE, LATE, HEADER_FIRST, NOT_FINAL, NO_HEIGHT, UNTRIED, OTHER_BYTES, BEHIND, NO_INPUTS, NO_COINBASE, OWN_TARGET, COINS_FIRST, ANEW)
)

Point = Tuple[bytes, int]


class Coin(NamedTuple):
    value: int
    script: bytes
    height: int
    coinbase: bool


Coins = Dict[Point, Coin]


class Tx:
    """A transaction with its id and its length."""

    def __init__(self, tx: Transaction) -> None:
        data = write_transaction(tx)
        self.tx, self.length = tx, len(data)
        self.id = _double(data)
        self.inputs, self.outputs = tx.inputs, tx.outputs


class Body(NamedTuple):
    """A block: its id as a number, what its header has, its transactions, its length, and how much stands behind it."""

    work: int
    version: int
    time: int
    bits: int
    root: bytes
    txs: List[Tx]
    length: int
    behind: int


class Place(NamedTuple):
    """Where a block stands: its height, the median time past at each height of its branch below it, its own time."""

    height: int
    median_at: Callable[[int], int]
    time: int

    @property
    def cutoff(self) -> int:
        return self.median_at(self.height - 1)


class Turn(NamedTuple):
    """A transaction in its turn: the coins that it finds (none for one that isn't there), the operations before it."""

    tx: Tx
    found: List[Optional[Coin]]
    before: int
    place: Place

    def spent(self) -> List[Coin]:
        return [coin for coin in self.found if coin is not None]


def _double(data: bytes) -> bytes:
    return hashlib.sha256(hashlib.sha256(data).digest()).digest()


#: What a script without signature operations lacks.
_COUNTED = re.compile(rb"[\xac-\xaf]")


@lru_cache(maxsize=100000)
def tally(script: bytes, accurate: bool) -> int:
    """The signature operations of a script."""
    count, last = 0, 0
    if not _COUNTED.search(script):
        return 0
    for op in opcodes(script):
        if op.code in (0xAC, 0xAD):
            count += 1
        elif op.code in (0xAE, 0xAF):
            count += last - 0x50 if accurate and 0x51 <= last <= 0x60 else 20
        last = op.code
    return count


def height_push(height: int) -> bytes:
    """BIP 34's push of a height."""
    if height <= 16:
        return bytes([0x50 + height])
    size = height.bit_length() // 8 + 1
    return bytes([size]) + height.to_bytes(size, "little")


class Signatures:
    """The valid signatures (a key, a signature, a digest), and the scripts that were run by them."""

    def __init__(self, valid: Iterable[Tuple[bytes, bytes, bytes]]) -> None:
        self.valid = frozenset(valid)
        self._known: Dict[Tuple[bytes, int, bytes, FrozenSet[str]], bool] = {}

    def accept(self, tx: Tx, at: int, script: bytes, flags: FrozenSet[str]) -> bool:
        """Whether an input may spend a script by these rules."""
        key = (tx.id, at, script, flags)
        if key not in self._known:
            self._known[key] = accepts(tx.tx, at, script, flags, lambda *triple: triple in self.valid)
        return self._known[key]


#: Heights of BIP 34, BIP 65, BIP 66, and of BIPs 68, 112 and 113.
Heights = Sequence[int]

#: Rules in their order: the method that says that one is broken, and its reason.
Table = Tuple[Tuple[str, str], ...]


class Rules:
    """The rules; of the kinds in `kinds` Bitcoin Core's are followed."""

    TARGET = 0x7FFFFF << 232
    BITS = 0x207FFFFF
    MOST_BYTES = 1000000
    MOST_OPERATIONS = 20000
    MATURITY = 100
    HALVING = 150
    AHEAD = 7200
    VERSIONS = (("bip34", 2), ("bip66", 3), ("bip65", 4))

    def __init__(self, money: int, heights: Heights, signatures: "Signatures", kinds: FrozenSet[str]) -> None:
        self.money, self.signatures, self.kinds = money, signatures, kinds
        self.bip34, self.bip65, self.bip66, self.csv = heights

    def _first(self, table: Table, *words: object) -> str:
        return next((reason for name, reason in table if getattr(self, name)(*words)), "")

    # ---- a block by itself

    ALONE: Table = (
        ("is_without_work", "high-hash"),
        ("has_other_root", "bad-txnmrklroot"),
        ("has_twin", "bad-txns-duplicate"),
        ("has_bad_length", "bad-blk-length"),
        ("lacks_coinbase", "bad-cb-missing"),
        ("has_second_coinbase", "bad-cb-multiple"),
    )
    TRANSACTION: Table = (
        ("has_no_input", "bad-txns-vin-empty"),
        ("has_no_output", "bad-txns-vout-empty"),
        ("has_bad_value", ""),
        ("spends_twice", "bad-txns-inputs-duplicate"),
        ("has_bad_coinbase_script", "bad-cb-length"),
        ("names_null", "bad-txns-prevout-null"),
    )

    def alone(self, block: Body) -> str:
        """The first rule that a block breaks by itself."""
        found = self._first(self.ALONE, block)
        if found:
            return found
        for tx in block.txs:
            for name, reason in self.TRANSACTION:
                said = getattr(self, name)(tx)
                if said:
                    return reason or str(said)
        return "bad-blk-sigops" if self.has_many_operations(block) else ""

    def is_without_work(self, block: Body) -> bool:
        target = own_target(block.bits) if OWN_TARGET in self.kinds else self.TARGET
        return block.work > target

    def has_other_root(self, block: Body) -> bool:
        return self.root([tx.id for tx in block.txs]) != block.root

    def root(self, level: List[bytes]) -> bytes:
        while len(level) > 1:
            level = [_double(a + b) for a, b in self.pairs(level)]
        return level[0] if level else bytes(32)

    def pairs(self, level: List[bytes]) -> List[Tuple[bytes, bytes]]:
        return list(zip(level[::2], level[1::2])) + ([(level[-1], level[-1])] if len(level) % 2 else [])

    def has_twin(self, block: Body) -> bool:
        level = [tx.id for tx in block.txs]
        while len(level) > 1:
            if self.twin_of_level(level):
                return True
            level = [_double(a + b) for a, b in self.pairs(level)]
        return False

    def twin_of_level(self, level: List[bytes]) -> bool:
        return any(a == b for a, b in zip(level[::2], level[1::2]))

    def has_bad_length(self, block: Body) -> bool:
        return not block.txs or block.length > self.MOST_BYTES

    def lacks_coinbase(self, block: Body) -> bool:
        return not self.is_coinbase(block.txs[0])

    def has_second_coinbase(self, block: Body) -> bool:
        return any(self.is_coinbase(tx) for tx in block.txs[1:])

    def is_coinbase(self, tx: Tx) -> bool:
        return len(tx.inputs) == 1 and self.is_null(tx.inputs[0].id, tx.inputs[0].index)

    def is_null(self, id: bytes, index: int) -> bool:
        return id == bytes(32) and index == 0xFFFFFFFF

    def has_no_input(self, tx: Tx) -> bool:
        return not tx.inputs

    def has_no_output(self, tx: Tx) -> bool:
        return not tx.outputs

    def has_bad_value(self, tx: Tx) -> str:
        total = 0
        for output in tx.outputs:
            total += output.value
            found = self.value_fault(output.value, total)
            if found:
                return found
        return ""

    def value_fault(self, value: int, total: int) -> str:
        if value < 0:
            return "bad-txns-vout-negative"
        if value > self.money:
            return "bad-txns-vout-toolarge"
        return "bad-txns-txouttotal-toolarge" if total > self.money else ""

    def spends_twice(self, tx: Tx) -> bool:
        return len({(i.id, i.index) for i in tx.inputs}) < len(tx.inputs)

    def has_bad_coinbase_script(self, tx: Tx) -> bool:
        return self.is_coinbase(tx) and not 2 <= len(tx.inputs[0].script) <= 100

    def names_null(self, tx: Tx) -> bool:
        return not self.is_coinbase(tx) and any(self.is_null(i.id, i.index) for i in tx.inputs)

    def has_many_operations(self, block: Body) -> bool:
        return sum(map(self.own_operations, block.txs)) > self.MOST_OPERATIONS

    def own_operations(self, tx: Tx) -> int:
        """Those of its scripts, counted plainly."""
        return sum(tally(i.script, False) for i in tx.inputs) + sum(tally(o.script, False) for o in tx.outputs)

    # ---- a block by its place

    HEADER: Table = (("has_other_bits", "bad-diffbits"), ("is_too_old", "time-too-old"))
    AHEAD_OF: Table = (("is_too_new", "time-too-new"),)
    VERSION: Table = (("has_low_version", "bad-version"),)
    PLACE: Table = (("is_not_final", "bad-txns-nonfinal"), ("lacks_height", "bad-cb-height"))

    def header(self, block: Body, place: Place, now: int) -> str:
        """The first rule of headers that a block breaks by its place."""
        return self._first(self.HEADER + self.AHEAD_OF + self.VERSION, block, place, now)

    def place(self, block: Body, place: Place) -> str:
        """The first rule of the rest that it breaks by its place."""
        return self._first(self.PLACE, block, place)

    def has_other_bits(self, block: Body, place: Place, now: int) -> bool:
        return block.bits != self.BITS

    def is_too_old(self, block: Body, place: Place, now: int) -> bool:
        return block.time <= place.cutoff

    def is_too_new(self, block: Body, place: Place, now: int) -> bool:
        return block.time > now + self.AHEAD

    def has_low_version(self, block: Body, place: Place, now: int) -> bool:
        return any(place.height >= getattr(self, fork) and block.version < least for fork, least in self.VERSIONS)

    def is_not_final(self, block: Body, place: Place) -> bool:
        cutoff = self.final_cutoff(place)
        return not all(self.is_final(tx, place.height, cutoff) for tx in block.txs)

    def final_cutoff(self, place: Place) -> int:
        return place.cutoff if place.height >= self.csv else place.time

    def is_final(self, tx: Tx, height: int, cutoff: int) -> bool:
        lock = tx.tx.lock_time
        has_passed = lock < (height if lock < 500000000 else cutoff)
        return lock == 0 or has_passed or all(i.sequence == 0xFFFFFFFF for i in tx.inputs)

    def lacks_height(self, block: Body, place: Place) -> bool:
        script = block.txs[0].inputs[0].script
        return place.height >= self.bip34 and not script.startswith(height_push(place.height))

    # ---- a block over the coins of its branch

    TURN: Table = (
        ("goes_over_by_its_own", "bad-blk-sigops"),
        ("misses_a_coin", "bad-txns-inputs-missingorspent"),
        ("spends_unripe", "bad-txns-premature-spend-of-coinbase"),
        ("spends_more", "bad-txns-in-belowout"),
        ("breaks_a_lock", "bad-txns-nonfinal"),
        ("goes_over", "bad-blk-sigops"),
    )

    def connect(self, block: Body, place: Place, before: Coins) -> Tuple[str, Coins]:
        """The first rule that a block breaks over coins, and the coins after it."""
        coins = dict(before)
        if self.makes_again(block, coins):
            return "bad-txns-BIP30", coins
        operations, fees, checks = 0, 0, []
        for number, tx in enumerate(block.txs):
            coinbase = self.is_coinbase(tx)
            found = [] if coinbase else [coins.get((i.id, i.index)) for i in tx.inputs]
            turn = Turn(tx, found, operations, place)
            fault = self._first(self.TURN, turn)
            if fault:
                return fault, coins
            operations += self.all_operations(turn)
            if not coinbase:
                fees += self.worth(turn) - sum(o.value for o in tx.outputs)
            checks += [(number, at, tx, coin.script) for at, coin in enumerate(found) if coin is not None]
            self.after(tx, place.height, coins)
        if self.takes_too_much(block, place.height, fees):
            return "bad-cb-amount", coins
        flags = self.flags(place.height)
        for number, at, tx, script in checks:
            if not self.accepts(tx, at, script, flags):
                return f"blk-bad-inputs {number}:{at}", coins
        return "", coins

    def makes_again(self, block: Body, coins: Coins) -> bool:
        return any((tx.id, n) in coins for tx in block.txs for n in range(len(tx.outputs)))

    def goes_over_by_its_own(self, turn: Turn) -> bool:
        return COINS_FIRST not in self.kinds and turn.before + self.own_operations(turn.tx) > self.MOST_OPERATIONS

    def misses_a_coin(self, turn: Turn) -> bool:
        return None in turn.found

    def spends_unripe(self, turn: Turn) -> bool:
        return any(c.coinbase and turn.place.height - c.height < self.MATURITY for c in turn.spent())

    def worth(self, turn: Turn) -> int:
        return sum(coin.value for coin in turn.spent())

    def spends_more(self, turn: Turn) -> bool:
        return not self.is_coinbase(turn.tx) and self.worth(turn) < sum(o.value for o in turn.tx.outputs)

    def breaks_a_lock(self, turn: Turn) -> bool:
        if turn.place.height < self.csv or turn.tx.tx.version & 0xFFFFFFFF < 2:
            return False
        pairs = zip(turn.tx.inputs, turn.spent())
        return not all(self.is_lock_met(i.sequence, coin.height, turn.place) for i, coin in pairs)

    def is_lock_met(self, sequence: int, height: int, place: Place) -> bool:
        count = sequence & 0xFFFF
        if sequence >> 31:
            return True
        if sequence >> 22 & 1:
            return self.lock_begins(height, place) + 512 * count <= self.lock_ends(place)
        return height + count <= place.height

    def lock_begins(self, height: int, place: Place) -> int:
        return place.median_at(max(height - 1, 0))

    def lock_ends(self, place: Place) -> int:
        return place.cutoff

    def goes_over(self, turn: Turn) -> bool:
        return turn.before + self.all_operations(turn) > self.MOST_OPERATIONS

    def all_operations(self, turn: Turn) -> int:
        """Those of its scripts, and of the inner scripts that it runs."""
        pairs = zip(turn.tx.inputs, turn.spent())
        return self.own_operations(turn.tx) + sum(self.inner_operations(i.script, coin.script) for i, coin in pairs)

    def inner_operations(self, own: bytes, spent: bytes) -> int:
        if not pays_to_script_hash(spent) or not is_push_only(own):
            return 0
        last = [op.data for op in opcodes(own)][-1:]
        return tally(last[0] or b"", True) if last else 0

    def takes_too_much(self, block: Body, height: int, fees: int) -> bool:
        return sum(o.value for o in block.txs[0].outputs) > self.subsidy(height) + fees

    def subsidy(self, height: int) -> int:
        halvings = height // self.HALVING
        return 5000000000 >> halvings if halvings < 64 else 0

    def flags(self, height: int) -> FrozenSet[str]:
        forks = (("DERSIG", self.bip66), ("CLTV", self.bip65), ("CSV", self.csv))
        return frozenset(name for name, first in forks if height >= first)

    def accepts(self, tx: Tx, at: int, script: bytes, flags: FrozenSet[str]) -> bool:
        return self.signatures.accept(tx, at, script, flags)

    def after(self, tx: Tx, height: int, coins: Coins) -> None:
        """Takes away what a transaction spends, and adds its outputs."""
        coinbase = self.is_coinbase(tx)
        if not coinbase:
            for i in tx.inputs:
                del coins[(i.id, i.index)]
        for n, output in enumerate(tx.outputs):
            if not self.is_unspendable(output.script):
                coins[(tx.id, n)] = Coin(output.value, output.script, height, coinbase)

    def is_unspendable(self, script: bytes) -> bool:
        return script[:1] == b"\x6a" or len(script) > 10000


def own_target(bits: int) -> int:
    """The target that a header's bits name; below every id where they name none."""
    size, digits = bits >> 24, bits & 0x7FFFFF
    target = digits << 8 * (size - 3) if size > 3 else digits >> 8 * (3 - size)
    is_one = 0 < target <= 0x7FFFFF << 232 and not bits & 0x800000
    return target if is_one else -1
