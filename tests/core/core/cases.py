"""Cases of each rule: a block that breaks it, most often by the least there is, or that just keeps it.

A case lays what it needs on a block (coins, say), and gives the block that it is about. Each has the reason that it is there
for; the lists deal them in turn, so that each reason comes as often.
"""

import struct
from typing import TYPE_CHECKING, Callable, Dict, List, NamedTuple, Optional, Sequence, Tuple

from wakotehu.encoding import Input, Output, Transaction, coinbase, merkle_root, push, push_number, subsidy, write_transaction

from .peer import HEIGHTS, MAX_MONEY
from .spelling import Logical

if TYPE_CHECKING:
    from .trees import Made, Making

FINAL = 0xFFFFFFFF
TRUE = b"\x51"
#: The limits of money, here and at the peer.
LIMITS = (21 * 10**14, MAX_MONEY)


class Laid(NamedTuple):
    """The block of a case, whether it is (as far as the case knows) by all rules, and the moment of its submission."""

    block: Logical
    is_valid: bool = False
    now: Optional[int] = None


Case = Callable[["Making", int], Optional[Laid]]

#: Of each reason its cases, by itself, by the place, and over the coins.
ALONE: Dict[str, List[Case]] = {}
PLACE: Dict[str, List[Case]] = {}
COINS: Dict[str, List[Case]] = {}


def _of(cases: Dict[str, List[Case]], reason: str, times: int = 1) -> Callable[[Case], Case]:
    def take(case: Case) -> Case:
        cases.setdefault(reason, []).extend([case] * times)
        return case

    return take


def _first(block: Logical, **changes: object) -> None:
    block.transactions[0] = block.transactions[0]._replace(**changes)  # type: ignore[arg-type]


def _some(m: "Making", at: int, count: int) -> "List[Made]":
    """So many coins to spend, or none."""
    coins = m.coins(at)
    return m.chance.sample(coins, count) if len(coins) >= count else []


def _paid(m: "Making", at: int) -> Optional[Logical]:
    """A block with one spend."""
    coins = _some(m, at, 1)
    return m.template(at, [m.pay(coins)]) if coins else None


def _spends(m: "Making", at: int, count: int) -> List[Transaction]:
    """So many transactions: one that splits a coin, and the others that spend what it makes."""
    coins = [coin for coin in m.coins(at) if coin.value >= 100 * count]
    if not coins:
        return []
    coin = m.chance.choice(coins)
    part = coin.value // count
    top = m.pay([coin], [Output(coin.value - part * (count - 1), TRUE)] + [Output(part, TRUE)] * (count - 1))
    own = [Transaction(1, [Input(top.id, n, b"", FINAL)], [Output(part, TRUE)], 0) for n in range(1, count)]
    return [top, *own]


# ---- by itself


@_of(ALONE, "high-hash")
def _no_work(m: "Making", at: int) -> Optional[Laid]:
    block = m.template(at)
    block.works = False
    return Laid(block)


@_of(ALONE, "bad-txnmrklroot")
def _other_root(m: "Making", at: int) -> Optional[Laid]:
    txs = _spends(m, at, m.chance.choice((1, 2, 4)))
    block = m.template(at, txs)
    ids = [tx.id for tx in block.transactions]
    block.root = m.chance.choice((bytes(31) + b"\1", merkle_root(ids[::-1] + ids[:1]), merkle_root(ids + ids), merkle_root(ids)[::-1]))
    return Laid(block)


@_of(ALONE, "bad-txns-duplicate", 4)
def _twin(m: "Making", at: int) -> Optional[Laid]:
    """The last one, two or four transactions twice, under the root of the block without; which comes after, or before it."""
    last = m.chance.choice((1, 2, 4))
    txs = _spends(m, at, 3 * last - 1)
    if not txs:
        return None
    block = m.template(at, txs)
    again = block.transactions + block.transactions[-last:]
    twin = Logical(at, block.time, again, root=merkle_root([tx.id for tx in block.transactions]))
    if m.chance.random() < 0.5:
        m.lay(twin, False)
        return Laid(block, True)
    m.lay(block)
    return Laid(twin)


@_of(ALONE, "bad-txns-duplicate", 4)
def _twin_alone(m: "Making", at: int) -> Optional[Laid]:
    """A pair of equal ids on some level, none of them repeated: the first, the middle or the last pair."""
    wide = m.chance.choice((1, 2, 4))
    txs = _spends(m, at, 4 * wide - 1)
    if not txs:
        return None
    block = m.template(at, txs)
    pair = m.chance.choice((0, 2)) * wide
    block.transactions[pair + wide : pair + 2 * wide] = block.transactions[pair : pair + wide]
    return Laid(block)


@_of(ALONE, "bad-txns-duplicate")
def _equal_unpaired(m: "Making", at: int) -> Optional[Laid]:
    """Two equal transactions that aren't paired: the second finds its coin spent."""
    txs = _spends(m, at, 2)
    return Laid(m.template(at, [txs[0], txs[0], txs[1]])) if txs else None


@_of(ALONE, "bad-blk-length", 3)
def _empty(m: "Making", at: int) -> Optional[Laid]:
    block = m.template(at)
    block.transactions = []
    return Laid(block)


@_of(ALONE, "bad-blk-length", 2)
def _long(m: "Making", at: int) -> Optional[Laid]:
    wanted = m.chance.choice((1000000, 1000001, 1000001))
    block = m.template(at)
    top = block.transactions[0]

    def filled(count: int) -> Transaction:
        return top._replace(outputs=[*top.outputs, Output(0, b"\x4e" + struct.pack("<I", count) + bytes(count))])

    block.transactions = [filled(900000 + wanted - 81 - len(write_transaction(filled(900000))))]
    return Laid(block, wanted == 1000000)


@_of(ALONE, "bad-cb-missing")
def _no_coinbase(m: "Making", at: int) -> Optional[Laid]:
    """No null outpoint: by its id, by its index, or two inputs; or the coinbase is the second."""
    block = m.template(at, _spends(m, at, 1))
    own = block.transactions[0].inputs[0]
    kind = m.chance.randrange(4)
    if kind == 0:
        _first(block, inputs=[own._replace(id=b"\1" * 32)])
    elif kind == 1:
        _first(block, inputs=[own._replace(index=m.chance.choice((0, FINAL - 1)))])
    elif kind == 2:
        _first(block, inputs=[own, Input(b"\1" * 32, 0, b"", FINAL)])
    else:
        block.transactions = block.transactions[::-1]
        if len(block.transactions) == 1:
            return None
    return Laid(block)


@_of(ALONE, "bad-cb-multiple")
def _two_coinbases(m: "Making", at: int) -> Optional[Laid]:
    block = m.template(at, _spends(m, at, 2))
    height = m.branches[at].height + 1
    block.transactions.insert(m.chance.randrange(1, len(block.transactions) + 1), coinbase(height, 0, TRUE, b"\7\7"))
    return Laid(block)


@_of(ALONE, "bad-txns-vin-empty")
def _no_inputs(m: "Making", at: int) -> Optional[Laid]:
    return Laid(m.template(at, [Transaction(1, [], [Output(0, TRUE)], 0)]))


@_of(ALONE, "bad-txns-vout-empty")
def _no_outputs(m: "Making", at: int) -> Optional[Laid]:
    block = _paid(m, at) or m.template(at)
    block.transactions[-1] = block.transactions[-1]._replace(outputs=[])
    return Laid(block)


def _values(m: "Making", at: int, values: Sequence[int]) -> Laid:
    block = _paid(m, at) or m.template(at)
    block.transactions[-1] = block.transactions[-1]._replace(outputs=[Output(value, TRUE) for value in values])
    return Laid(block)


@_of(ALONE, "bad-txns-vout-negative")
def _negative(m: "Making", at: int) -> Optional[Laid]:
    most = LIMITS[0]
    return _values(m, at, m.chance.choice(((-1,), (-(2**63),), (5, -1), (-1, most + 1), (-1, most, most))))


@_of(ALONE, "bad-txns-vout-toolarge")
def _large(m: "Making", at: int) -> Optional[Laid]:
    here, there = LIMITS
    return _values(m, at, m.chance.choice(((here + 1,), (there + 1,), (2**63 - 1,), (here,), (there,), (there + 1, -1), (1, there + 1))))


@_of(ALONE, "bad-txns-txouttotal-toolarge")
def _total(m: "Making", at: int) -> Optional[Laid]:
    """The total at the limit, or above it: here, or at the peer."""
    most = m.chance.choice((LIMITS[0], *LIMITS))
    return _values(m, at, m.chance.choice(((most, 1), (most - 1, 2), (most - 1, 1), (1, most), (most, 1, -1), (most, most))))


@_of(ALONE, "bad-txns-inputs-duplicate", 3)
def _twice(m: "Making", at: int) -> Optional[Laid]:
    coins = _some(m, at, 2)
    if not coins:
        return None
    return Laid(m.template(at, [m.pay(m.chance.choice((coins + coins[:1], coins[:1] * 2, [coins[1], coins[0], coins[0]])))]))


@_of(ALONE, "bad-txns-inputs-duplicate")
def _same_id(m: "Making", at: int) -> Optional[Laid]:
    """Two outputs of one transaction are no duplicates."""
    coins = m.coins(at)
    pair = next(([a, b] for a in coins for b in coins if a.id == b.id and a.index < b.index), None)
    return Laid(m.template(at, [m.pay(pair)]), True) if pair else None


@_of(ALONE, "bad-cb-length")
def _coinbase_script(m: "Making", at: int) -> Optional[Laid]:
    height = m.branches[at].height + 1
    begin = push_number(height)
    size = m.chance.choice((0, 1, 101, 101, 2, 100))
    m.extra += 1
    block = m.template(at)
    tail = struct.pack("<QHH", m.seed % 2**64, m.salt % 2**16, m.extra) + bytes(101)
    _first(block, inputs=[block.transactions[0].inputs[0]._replace(script=(begin + tail)[:size])])
    return Laid(block, size == 100)


@_of(ALONE, "bad-txns-prevout-null", 5)
def _null(m: "Making", at: int) -> Optional[Laid]:
    return _with_input(m, at, Input(bytes(32), FINAL, b"", FINAL))


@_of(ALONE, "bad-txns-prevout-null")
def _half_null(m: "Making", at: int) -> Optional[Laid]:
    half = m.chance.choice(((bytes(32), 0), (b"\1" + bytes(31), FINAL), (bytes(31) + b"\1", FINAL), (bytes(32), FINAL - 1)))
    return _with_input(m, at, Input(*half, b"", FINAL))


def _with_input(m: "Making", at: int, more: Input) -> Optional[Laid]:
    coins = _some(m, at, 1)
    if not coins:
        return None
    tx = m.pay(coins)
    return Laid(m.template(at, [tx._replace(inputs=m.chance.choice(([*tx.inputs, more], [more, *tx.inputs])))]))


#: Scripts of operations, with how many they have where they are counted plainly.
PLAIN = (
    (b"\xac", 1), (b"\xad", 1), (b"\xae", 20), (b"\xaf", 20), (b"\x52\xae", 20), (b"\x60\xaf", 20), (b"\x02\xac\xac\xac", 1),
    (b"\xac\x05\xac\xac", 1), (b"\xae\x4c", 20), (b"\x6a\xac", 1), (b"\x00\x63\xac\x68", 1),
)  # fmt: skip


def _filled(block: Logical, wanted: int, plain: int) -> None:
    """An output more, so that of `plain` operations in its scripts there are so many."""
    _first(block, outputs=[*block.transactions[0].outputs, Output(0, b"\xac" * (wanted - plain))])


def _plain(txs: Sequence[Transaction]) -> int:
    from .rules import tally

    scripts = [i.script for tx in txs for i in tx.inputs] + [o.script for tx in txs for o in tx.outputs]
    return sum(tally(script, False) for script in scripts)


@_of(ALONE, "bad-blk-sigops", 4)
def _operations(m: "Making", at: int) -> Optional[Laid]:
    """As many operations as there may be, or one more; of outputs, or of the coinbase's input."""
    wanted = m.chance.choice((20000, 20001, 20001))
    block = m.template(at)
    script, _ = m.chance.choice(PLAIN)
    if m.chance.random() < 0.3:
        own = block.transactions[0].inputs[0]
        _first(block, inputs=[own._replace(script=own.script + script)])
    else:
        _first(block, outputs=[*block.transactions[0].outputs, Output(0, script)])
    _filled(block, wanted, _plain(block.transactions))
    return Laid(block, wanted == 20000)


# ---- by the place


@_of(PLACE, "prev-blk-not-found")
def _on_refused(m: "Making", at: int) -> Optional[Laid]:
    block = m.template(at)
    block.works = False
    number = m.lay(block, False)
    return Laid(m.template(number))


@_of(PLACE, "bad-prevblk")
def _on_marked(m: "Making", at: int) -> Optional[Laid]:
    """On a block that was marked, or on one above it."""
    number = m.lay(m.template(at, fee=1), False)
    child = m.template(number)
    if m.chance.random() < 0.3:
        return Laid(m.template(m.lay(child, False)))
    return Laid(child)


@_of(PLACE, "bad-diffbits")
def _bits(m: "Making", at: int) -> Optional[Laid]:
    block = m.template(at)
    block.bits = m.chance.choice((0x207FFFFE, 0x207EFFFF, 0x1D00FFFF, 0x2100FFFF, 0x20FFFFFF, 0, 0x217FFFFF))
    return Laid(block)


@_of(PLACE, "time-too-old")
def _old(m: "Making", at: int) -> Optional[Laid]:
    block, back = m.template(at), m.chance.choice((0, 0, 1, -1))
    block.time = m.branches[at].median - back
    return Laid(block, back < 0)


@_of(PLACE, "time-too-new")
def _new(m: "Making", at: int) -> Optional[Laid]:
    block, ahead = m.template(at), m.chance.choice((7200, 7201, 7201))
    return Laid(block, ahead == 7200, block.time - ahead)


@_of(PLACE, "bad-version", 3)
def _version(m: "Making", at: int) -> Optional[Laid]:
    """The least that each height lets pass, and one less."""
    height = m.branches[at].height + 1
    least = max([1] + [n for n, first in ((2, HEIGHTS[0]), (3, HEIGHTS[2]), (4, HEIGHTS[1])) if height >= first])
    block = m.template(at)
    block.version = m.chance.choice((least - 1, least - 1, 0, 1, 2, -1, -(2**31), least, 2**31 - 1))
    return Laid(block, block.version >= least)


@_of(PLACE, "bad-txns-nonfinal", 4)
def _not_final(m: "Making", at: int) -> Optional[Laid]:
    """Lock times at their edges: by height, by the median of the parent, by the block's own time."""
    coins = _some(m, at, 2)
    if not coins:
        return None
    branch, block = m.branches[at], m.template(at)
    block.time = branch.median + m.chance.choice((1, 2, 1000))
    height, cutoff = branch.height + 1, branch.median if branch.height + 1 >= HEIGHTS[3] else block.time
    lock, passes = m.chance.choice(
        (
            (height, False), (height - 1, True), (cutoff, False), (cutoff - 1, True), (branch.median, False), (block.time - 1, False),
            (499999999, False), (500000000, True), (500000000, True),
        )  # fmt: skip
    )
    sequences = m.chance.choice(([0, FINAL], [FINAL, FINAL - 1], [0, 0], [FINAL, FINAL]))
    block.transactions.append(m.pay(coins, lock=lock, sequences=sequences))
    return Laid(block, passes or sequences == [FINAL, FINAL])


@_of(PLACE, "bad-txns-nonfinal")
def _coinbase_not_final(m: "Making", at: int) -> Optional[Laid]:
    block = m.template(at)
    own = block.transactions[0].inputs[0]._replace(sequence=m.chance.choice((0, FINAL - 1)))
    _first(block, inputs=[own], lock_time=m.branches[at].height + 1)
    return Laid(block)


@_of(PLACE, "bad-cb-height", 3)
def _height(m: "Making", at: int) -> Optional[Laid]:
    height, block = m.branches[at].height + 1, m.template(at)
    own = block.transactions[0].inputs[0]
    tail = own.script[len(push_number(height)) :]
    right = push_number(height)
    wrong = (push_number(height + 1), push_number(height - 1), push(struct.pack("<I", height)), right[1:], b"\x51" + right, b"\x00" + right)
    _first(block, inputs=[own._replace(script=m.chance.choice(wrong) + tail)])
    return Laid(block)


# ---- over the coins


@_of(COINS, "bad-txns-BIP30")
def _copy(m: "Making", at: int) -> Optional[Laid]:
    """The coinbase of a block of the base again: its coin is there, or it was spent: all outputs, or but one."""
    if m.branches[at].height + 1 >= HEIGHTS[0]:
        return None
    ready = [c for c in m.coins(at) if c.coinbase and c.height <= m.maker.height]
    pairs = [c for c in ready if c.index == 0 and any(o.id == c.id and o.index for o in ready)]
    kind = m.chance.choice(("there", "there", "last", "first", "spent", "later"))
    coins = pairs if kind in ("last", "first") else ready
    if not coins:
        return None
    coin = m.chance.choice(coins)
    parts = [c for c in m.maker.coins if c.id == coin.id]
    unspent = [c for c in ready if c.id == coin.id]
    gone: "List[Made]" = {"spent": unspent, "last": unspent[:1], "first": unspent[-1:]}.get(kind, [])
    if gone:
        at = m.lay(m.template(at, [m.pay(gone)]))
    block = m.template(at)
    block.transactions = [m.maker.base[coin.height - 1].transactions[0]]
    if kind == "later":
        # Of a coin that the block itself spends: the rule comes before it.
        block.transactions.append(m.pay([c for c in unspent]))
    return Laid(block, len(gone) == len(parts))


def _inner(code: bytes) -> bytes:
    """A script that is true, with code that isn't run."""
    return b"\x00\x63" + code + b"\x68\x51"


#: Inner scripts, with their operations as BIP 16 has them counted.
INNER = tuple(
    (_inner(code), count)
    for code, count in (
        (b"\xae", 20), (b"\x51\xae", 1), (b"\x52\xaf", 2), (b"\x60\xae", 16), (b"\x00\xae", 20), (b"\x4f\xae", 20), (b"\x61\xae", 20),
        (b"\x01\x02\xae", 20), (b"\xac\xad", 2), (b"\x53\x61\xae", 20), (b"\x02\xae\xae", 0), (b"\x5f\xae\x5f\xaf", 30),
    )
)  # fmt: skip


def _hashed(m: "Making", at: int, scripts: Sequence[bytes]) -> "Tuple[int, List[Made]]":
    """A block with outputs of these inner scripts, and the coins."""
    coins = [coin for coin in m.coins(at) if coin.value >= 100 * len(scripts)]
    if not coins:
        return at, []
    coin = m.chance.choice(coins)
    values = [coin.value - 100 * (len(scripts) - 1)] + [100] * (len(scripts) - 1)
    tx = m.pay([coin], [Output(value, m.scripts.hashed(inner)) for value, inner in zip(values, scripts)])
    at = m.lay(m.template(at, [tx]))
    return at, [m.branches[at].made[(tx.id, n)] for n in range(len(scripts))]


@_of(COINS, "bad-blk-sigops", 5)
def _inner_operations(m: "Making", at: int) -> Optional[Laid]:
    """As many operations as there may be with those of inner scripts, or one more."""
    inner, number = m.chance.choice(INNER)
    at, coins = _hashed(m, at, [inner])
    if not coins:
        return None
    wanted = m.chance.choice((20000, 20001))
    tx = m.pay(coins)
    if m.chance.random() < 0.3:
        # Of two pushes the last is the inner script.
        more = m.chance.choice((push(b"\xae\xae"), push(_inner(b"\x51\xae")), b"\x60", b"\x00"))
        tx = tx._replace(inputs=[tx.inputs[0]._replace(script=more + tx.inputs[0].script)])
    block = m.template(at, [tx])
    _filled(block, wanted, _plain(block.transactions) + number)
    return Laid(block, wanted == 20000)


@_of(COINS, "bad-blk-sigops")
def _not_only_pushes(m: "Making", at: int) -> Optional[Laid]:
    """An input that does more than push, or whose last opcode pushes no script, has no inner operations; its script fails."""
    inner, number = m.chance.choice(INNER)
    at, coins = _hashed(m, at, [inner])
    if not coins or not number:
        return None
    tx = m.pay(coins)
    own = tx.inputs[0].script
    other = m.chance.choice((b"\x61" + own, own + b"\x61", own + b"\x51", own + b"\x00", own + b"\x4c", b""))
    block = m.template(at, [tx._replace(inputs=[tx.inputs[0]._replace(script=other)])])
    _filled(block, 20000, _plain(block.transactions))
    return Laid(block)


@_of(COINS, "bad-blk-sigops", 2)
def _sum_of_operations(m: "Making", at: int) -> Optional[Laid]:
    """Inner operations of two inputs, or of two transactions, are added up."""
    two = m.chance.choices([pair for pair in INNER if pair[1]], k=2)
    at, coins = _hashed(m, at, [inner for inner, _ in two])
    if not coins:
        return None
    wanted = m.chance.choice((20000, 20001))
    txs = m.chance.choice(([m.pay(coins)], [m.pay(coins[:1]), m.pay(coins[1:])]))
    block = m.template(at, txs)
    _filled(block, wanted, _plain(block.transactions) + sum(number for _, number in two))
    return Laid(block, wanted == 20000)


@_of(COINS, "bad-txns-inputs-missingorspent", 3)
def _missing(m: "Making", at: int) -> Optional[Laid]:
    """A coin that never was, an output too far, one that was spent below or in the block, an output that never is a coin."""
    coins = _some(m, at, 2)
    if not coins:
        return None
    kind = m.chance.randrange(6)
    if kind == 0:
        return Laid(m.template(at, [Transaction(1, [Input(b"\3" * 32, 0, b"", FINAL)], [Output(0, TRUE)], 0)]))
    if kind == 1:
        tx = m.pay(coins)
        return Laid(m.template(at, [tx._replace(inputs=[tx.inputs[0], tx.inputs[1]._replace(index=tx.inputs[1].index + 2)])]))
    if kind == 2:
        at = m.lay(m.template(at, [m.pay(coins[:1])]))
        return Laid(m.template(at, [m.pay(coins, version=2)]))
    if kind == 3:
        return Laid(m.template(at, [m.pay(coins[:1]), m.pay(coins)]))
    script = m.chance.choice((b"\x6a", b"\x6a\x51", b"\x51" * 10001, b"\x51" + b"\x61" * 10000))
    tx = m.pay(coins[:1], [Output(coins[0].value, script)])
    spend = Transaction(1, [Input(tx.id, 0, b"", FINAL)], [Output(0, TRUE)], 0)
    if kind == 4:
        return Laid(m.template(at, [tx, spend]))
    return Laid(m.template(m.lay(m.template(at, [tx])), [spend]))


@_of(COINS, "bad-txns-inputs-missingorspent", 2)
def _order(m: "Making", at: int) -> Optional[Laid]:
    """Of what another transaction of the block makes: it has to come before."""
    txs = _spends(m, at, 2)
    if not txs:
        return None
    is_valid = m.chance.random() < 0.3
    return Laid(m.template(at, txs if is_valid else txs[::-1]), is_valid)


@_of(COINS, "bad-txns-inputs-missingorspent", 2)
def _longest_coin(m: "Making", at: int) -> Optional[Laid]:
    """A script of 10,000 bytes is a coin, and so is one in which RETURN isn't the first."""
    coins = _some(m, at, 1)
    if not coins:
        return None
    long = b"\x00\x75" * 4 + b"\x51" + bytes(9991)
    script = m.chance.choice((long, long, b"\x00\x63\x6a\x68\x51"))
    tx = m.pay(coins, [Output(coins[0].value, script)])
    spend = Transaction(1, [Input(tx.id, 0, b"\x51" if len(script) > 100 else b"", FINAL)], [Output(0, TRUE)], 0)
    return Laid(m.template(m.lay(m.template(at, [tx])), [spend], coins[0].value), len(script) < 100)


@_of(COINS, "bad-txns-premature-spend-of-coinbase", 3)
def _age(m: "Making", at: int) -> Optional[Laid]:
    """Coins of coinbases at their edge: 99 (or fewer), 100 and 101 blocks."""
    branch = m.branches[at]
    age = m.chance.choice((99, 99, 99, 99, 99, 98, 1, 100, 101))
    coins = [
        coin
        for coin in (*m.maker.coins, *branch.made.values())
        if coin.coinbase and coin.height == branch.height + 1 - age and coin.kind in ("true", "hash", "key", "key-hash", "two-of-three")
        and (coin.id, coin.index) not in branch.spent
    ]  # fmt: skip
    if not coins:
        return None
    return Laid(m.template(at, [m.pay([m.chance.choice(coins)])]), age >= 100)


@_of(COINS, "bad-txns-in-belowout")
def _below(m: "Making", at: int) -> Optional[Laid]:
    """A transaction pays one more than it spends, or as much."""
    coins = _some(m, at, 2)
    if not coins:
        return None
    total, more = sum(coin.value for coin in coins), m.chance.choice((1, 1, 1, 0))
    tx = m.pay(coins, [Output(total - 50 + more, TRUE), Output(50, TRUE)])
    # A fee of another transaction doesn't help.
    other = [m.pay([c], [Output(c.value - 7, TRUE)]) for c in _some(m, at, 1) if c not in coins] if m.chance.random() < 0.3 else []
    return Laid(m.template(at, [*other, tx]), more == 0)


@_of(COINS, "bad-txns-nonfinal")
def _relative(m: "Making", at: int) -> Optional[Laid]:
    """Locks of BIP 68 at their edges: by height or by the medians, with other bits, another version, a second input."""
    branch = m.branches[at]
    height = branch.height + 1
    made = [c for c in m.coins(at) if not c.coinbase and c.height > m.maker.height]
    coins = m.coins(at)
    if height < HEIGHTS[3] or len(coins) < 2:
        return None
    coin = m.chance.choice(made if made and m.chance.random() < 0.4 else coins)
    other = m.chance.choice([c for c in coins if c is not coin])
    more = m.chance.choice((1, 0))
    if m.chance.random() < 0.5:
        count, kind = height - coin.height + more, 0
    else:
        count, kind = (branch.median - _median_below(m, at, coin.height)) // 512 + more, 1 << 22
    if not 0 <= count <= 0xFFFF:
        return None
    rest = m.chance.choice((0, 0, 0, 0x003F0000, 0x7F800000, 0x7F800000, 0x80000000))
    version = m.chance.choice((2, 2, 2, 2, 3, -1, -(2**31), 1, 1, 0))
    sequences = m.chance.choice(([count | kind | rest, FINAL], [FINAL, count | kind | rest]))
    pair = [coin, other] if sequences[1] == FINAL else [other, coin]
    block = m.template(at, [m.pay(pair, version=version, sequences=sequences)])
    block.time = branch.median + m.chance.choice((1, 1000, 7000))
    return Laid(block, not more or rest >= 1 << 31 or version in (0, 1))


def _median_below(m: "Making", at: int, height: int) -> int:
    """The median time past of the block below a height of a branch."""
    times: List[int] = []
    while m.branches[at].height >= height:
        at = m.blocks[at].parent
        if at < m.first:
            break
    if at >= m.first:
        return m.branches[at].median
    below = min(height - 1, m.maker.height)
    times = [m.maker.base[n].time for n in range(max(0, below - 11), below)]
    times = times if below >= 11 else [1296688602, *times]
    return sorted(times)[len(times) // 2]


@_of(COINS, "bad-cb-amount")
def _amount(m: "Making", at: int) -> Optional[Laid]:
    """All the subsidy and the fees, or one more; in one output, or in two."""
    height = m.branches[at].height + 1
    coins = _some(m, at, 2)
    fees = [m.chance.choice((0, 1, 7)) for _ in coins]
    txs = [m.pay([coin], [Output(coin.value - fee, TRUE)]) for coin, fee in zip(coins, fees)]
    more = m.chance.choice((1, 1, 1, 0, -1))
    block = m.template(at, txs, sum(fees) + more)
    if m.chance.random() < 0.4 and subsidy(height) > 100:
        out = block.transactions[0].outputs[0]
        _first(block, outputs=[out._replace(value=out.value - 100), Output(100, m.chance.choice((TRUE, b"\x6a")))])
    return Laid(block, more < 1)


@_of(COINS, "blk-bad-inputs")
def _script(m: "Making", at: int) -> Optional[Laid]:
    """The script of some input of some transaction isn't accepted."""
    coins = _some(m, at, 3)
    if not coins:
        return None
    txs = [m.pay(coins[:1]), m.pay(coins[1:])]
    which, bad = m.chance.choice(((0, 0), (1, 0), (1, 1)))
    tx = txs[which]
    inputs = list(tx.inputs)
    own = inputs[bad].script
    wrong = b"\x00" if coins[which + bad].kind != "true" else m.chance.choice((b"\x6a", b"\x4c", b"\x00\x69"))
    inputs[bad] = inputs[bad]._replace(script=m.chance.choice((wrong, wrong, own + b"\x6a", b"\x63" + own)))
    txs[which] = tx._replace(inputs=inputs)
    return Laid(m.template(at, txs))


@_of(COINS, "blk-bad-inputs")
def _locked(m: "Making", at: int) -> Optional[Laid]:
    """The opcodes of locks, at their edges, where they are in force and where they aren't."""
    coins = _some(m, at, 1)
    if not coins:
        return None
    height = m.branches[at].height + 2
    wanted, code = m.chance.choice(((height, b"\xb1"), (height, b"\xb1"), (height - 1, b"\xb1"), (2, b"\xb2"), (1, b"\xb2"), (0, b"\xb2")))
    script = push_number(wanted) + code + b"\x75\x51"
    tx = m.pay(coins, [Output(coins[0].value, script)])
    at = m.lay(m.template(at, [tx]))
    sequence, lock = m.chance.choice(((1, height - 1), (1, 0), (0, height - 1), (FINAL, height - 1)))
    spend = Transaction(2, [Input(tx.id, 0, b"", sequence)], [Output(coins[0].value, TRUE)], lock)
    return Laid(m.template(at, [spend]))


# ---- more than one


def _orders(m: "Making", at: int) -> Optional[Laid]:
    """A block that breaks two rules or three: the first of them in the published order is the answer."""
    block = _paid(m, at) or m.template(at)
    branch, own = m.branches[at], block.transactions[0].inputs[0]
    out = block.transactions[0].outputs[0]
    breaks: Dict[str, Callable[[], None]] = {
        "work": lambda: setattr(block, "works", False),
        "root": lambda: setattr(block, "root", bytes(31) + b"\1"),
        "second": lambda: block.transactions.append(coinbase(branch.height + 1, 0, TRUE, b"\7\7")),
        "script": lambda: _first(block, inputs=[own._replace(script=own.script + bytes(100))]),
        "value": lambda: _first(block, outputs=[out._replace(value=-1)]),
        "operations": lambda: _first(block, outputs=[*block.transactions[0].outputs, Output(0, b"\xac" * 20001)]),
        "bits": lambda: setattr(block, "bits", 0x207FFFFE),
        "old": lambda: setattr(block, "time", branch.median),
        "version": lambda: setattr(block, "version", 1),
        "final": lambda: _first(block, inputs=[block.transactions[0].inputs[0]._replace(sequence=0)], lock_time=branch.height + 1),
        "height": lambda: _first(block, inputs=[block.transactions[0].inputs[0]._replace(script=b"\2\2\2" + own.script)]),
        "new": lambda: None,
    }
    pair = m.chance.choice(PAIRS).split()
    for name in pair:
        breaks[name]()
    return Laid(block, now=block.time - (7201 if "new" in pair else 7200))


#: Rules that are broken together, most of them neighbours in the order.
PAIRS = (
    "work root", "root second", "second script", "value script", "script operations", "operations bits", "value old", "bits old",
    "old version", "new version", "new version", "version final", "final height", "final height", "bits new",
)  # fmt: skip


def _orders_of_coins(m: "Making", at: int) -> Optional[Laid]:
    """The same of rules over the coins: unripe, missing, worth less, too much for the coinbase, a script, operations."""
    branch, coins = m.branches[at], _some(m, at, 1)
    unripe = [c for c in m.maker.coins if branch.height - 98 <= c.height and (c.id, c.index) not in branch.spent and c.kind == "true"]
    if not coins or not unripe:
        return None
    bad = m.chance.choice(((0, 1), (0, 2), (0, 2), (1, 2), (2, 3), (3, 4), (0, 5), (4, 5), (3, 5), (2, 4)))
    spent = coins + ([m.chance.choice(unripe)] if 0 in bad else [])
    total = sum(coin.value for coin in spent)
    more = [Output(1, TRUE)] if 2 in bad else []
    tx = m.pay(spent, [Output(total, TRUE), *more])
    if 1 in bad:
        tx = tx._replace(inputs=[*tx.inputs, Input(b"\3" * 32, 0, b"", FINAL)])
    if 4 in bad:
        tx = tx._replace(inputs=[tx.inputs[0]._replace(script=b"\x6a"), *tx.inputs[1:]])
    block = m.template(at, [tx], int(3 in bad))
    if 5 in bad and branch.height + 1 < HEIGHTS[0]:
        block.transactions[0] = m.chance.choice(m.maker.base).transactions[0]
    return Laid(block)


@_of(COINS, "bad-txns-premature-spend-of-coinbase")
def _own_coinbase(m: "Making", at: int) -> Optional[Laid]:
    """The coinbase of the block itself, or of the one below."""
    block = m.template(at)
    below = at if at >= 0 and m.blocks[at].transactions and m.chance.random() < 0.5 else None
    top = (block if below is None else m.blocks[below]).transactions[0]
    spend = Transaction(1, [Input(top.id, 0, b"", FINAL)], [Output(0, TRUE)], 0)
    block.transactions.append(spend)
    return Laid(block)


# ---- dealt


def _deck(m: "Making") -> List[Tuple[str, List[Case]]]:
    """The reasons that a base can have; those that not each base has come twice."""
    height = m.maker.height
    often = {
        "bad-blk-sigops": 3, "bad-txns-nonfinal": 5, "bad-txns-txouttotal-toolarge": 2, "bad-txns-duplicate": 2, "blk-bad-inputs": 2,
        "bad-txns-inputs-missingorspent": 2, "bad-cb-length": 2,
    }  # fmt: skip
    seldom = {"bad-version": height >= HEIGHTS[0], "bad-cb-height": height >= HEIGHTS[0], "bad-txns-BIP30": height < HEIGHTS[0]}
    deck: List[Tuple[str, List[Case]]] = []
    for cases in (ALONE, PLACE, COINS):
        for reason, of in cases.items():
            times = 3 if seldom.get(reason) else often.get(reason, 1) if cases is not PLACE or reason != "bad-txns-nonfinal" else 2
            is_there = seldom.get(reason, True) and (of[0] is not _relative or height >= HEIGHTS[3])
            deck += [(reason, of)] * (times * is_there)
    return deck + [("orders", [_orders])] * 4 + [("orders", [_orders_of_coins])] * 2


def deal(m: "Making", count: int = 20, reorganisations: int = 3) -> None:
    """Cases on the best block, and then some of those over coins on a branch that takes its place (if it is valid)."""
    deck = _deck(m)
    for number in range(m.seed * count, (m.seed + 1) * count):
        _lay(m, _turn(deck, number), m.tip)
    coins = [entry for entry in deck if entry[1] is COINS.get(entry[0])]
    for number in range(m.seed * reorganisations, (m.seed + 1) * reorganisations):
        _reorganise(m, _turn(coins, number))
    STORIES[m.seed % len(STORIES)](m)


def _turn(deck: List[Tuple[str, List[Case]]], number: int) -> Case:
    """The deck goes round and round, and in each round each reason has another of its cases."""
    turn, place = divmod(number, len(deck))
    of = deck[place][1]
    return of[(turn + place) % len(of)]


def _lay(m: "Making", case: Case, at: int) -> None:
    laid = case(m, at)
    if laid is not None:
        m.lay(laid.block, laid.is_valid, laid.now)


def _reorganise(m: "Making", case: Case) -> None:
    """A case on a branch that begins two blocks below the best one, and blocks on it till it is higher."""
    fork, wanted = m.tip, m.branches[m.tip].height + 1
    for _ in range(2):
        if fork != m.root:
            fork = m.blocks[fork].parent
    laid = case(m, fork)
    if laid is None:
        return
    at = m.lay(laid.block, laid.is_valid, laid.now)
    while m.branches[at].height < wanted:
        at = m.lay(m.template(at), laid.is_valid)


# ---- stories of the tree


def _preferences(m: "Making") -> None:
    """Blocks of one height, of which now this and now that is called precious; then others come."""
    at = m.tip
    own = [m.lay(m.template(at)) for _ in range(3)]
    for number in m.chance.choices(own, k=3):
        m.mark("precious", number)
    own.append(m.lay(m.template(at), False))
    m.mark("precious", m.chance.choice(own))
    m.mark("precious", at)
    top = m.lay(m.template(m.chance.choice(own)))
    other = m.lay(m.template(m.chance.choice(own)))
    for number in (other, m.chance.choice((top, other)), m.chance.choice(own)):
        m.mark("precious", number)
    m.mark("invalidate", m.chance.choice((top, other)))


def _marks(m: "Making") -> None:
    """A fork; a block below is marked, and the marks are taken from what is on it, beside it, or below."""
    low = m.lay(m.template(m.tip))
    left, right = m.lay(m.template(low)), m.lay(m.template(low))
    tops = [m.lay(m.template(left)), m.lay(m.template(right), False)]
    m.mark("invalidate", m.chance.choice((low, left, right)))
    m.again(m.chance.choice((low, left, right, *tops)))
    m.lay(m.template(m.chance.choice((low, left, right, *tops))), False)
    m.mark("reconsider", m.chance.choice((low, left, right, *tops)))
    m.again(m.chance.choice((left, right, *tops)))
    m.mark("invalidate", m.chance.choice((low, left, *tops)))
    m.mark("invalidate", m.chance.choice((low, left, *tops)))
    m.mark("reconsider", m.chance.choice((low, left, right, *tops)))


def _failing(m: "Making") -> None:
    """A longer branch of which a block in the middle fails; its mark is taken, and blocks come again."""
    low = m.lay(m.template(m.tip))
    good = m.lay(m.template(low))
    side = m.lay(m.template(low), False)
    bad = m.lay(m.template(side, fee=1), False)
    top = m.lay(m.template(bad), False)
    for number in (good, side, bad, top):
        m.again(number)
    m.mark("reconsider", m.chance.choice((side, bad, top)))
    m.mark("invalidate", m.chance.choice((good, low, side)))
    m.lay(m.template(m.chance.choice((good, side, top))), False)
    m.mark("reconsider", m.chance.choice((good, low, bad)))


STORIES = (_preferences, _marks, _failing, _preferences)
