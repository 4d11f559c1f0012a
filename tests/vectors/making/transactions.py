"""Rows of transactions.json: what litecoind and python3-bitcoinlib read, and which rule is broken."""

import random
from typing import Any, Dict, Iterator, List, Tuple

import bitcoin.core.serialize as lib_serialize  # type: ignore

from .asking import HAND, hexed, unhexed
from .outside import CORE, FINAL, LIB, REASONS, Chain, Disagree, core_reads, lib_fault, lib_tx
from .reading import Fails, Input, Output, Tx, double_sha, fault, read, spell

MONEY = 21 * 10**14
NULL = Input(bytes(32), FINAL, b"\1\2", FINAL)
PLAIN = Input(b"\7" * 32, 2, b"\x51", FINAL - 1)
ONE = Output(1, b"\x51")


def lawful() -> Iterator[Tx]:
    """Transactions of all shapes."""
    for inputs in range(4):
        for outputs in range(4):
            yield Tx(1, [PLAIN._replace(place=k) for k in range(inputs)], [Output(k, b"\x52" * k) for k in range(outputs)], 9)
    for version in (-(2**31), -1, 0, 2, 0x01020304, 2**31 - 1):
        yield Tx(version, [PLAIN], [ONE], 0x05060708)
    for number in (0, 1, 255, 256, 65536, 2**31, FINAL - 1, FINAL):
        yield Tx(1, [PLAIN._replace(place=number)], [ONE], 0)
        yield Tx(1, [PLAIN._replace(sequence=number)], [ONE], 0)
        yield Tx(1, [PLAIN], [ONE], number)
    for size in (0, 1, 2, 252, 253, 254, 255, 256, 65535, 65536):
        yield Tx(1, [PLAIN._replace(script=b"\x51" * size)], [ONE], 0)
        yield Tx(1, [PLAIN], [Output(5, b"\x51" * size)], 0)
    for many in (252, 253, 254):
        yield Tx(1, [PLAIN], [Output(0, b"")] * many, 0)
    yield Tx(1, [PLAIN._replace(place=k, script=b"") for k in range(253)], [ONE], 0)


def rules() -> Iterator[Tx]:
    """Each rule of a transaction by itself, from both sides."""
    values: List[Tuple[int, ...]] = [
        (0,), (-1,), (-(2**63),), (MONEY - 1,), (MONEY,), (MONEY + 1,), (2**63 - 1,), (MONEY, 0), (MONEY, 1), (0, MONEY), (1, MONEY),
        (MONEY // 2, MONEY // 2), (MONEY // 2 + 1, MONEY // 2), (MONEY, 1, -1), (MONEY, -1), (-1, MONEY + 1), (MONEY + 1, -1), (MONEY, MONEY + 1),
        (700000000000000,) * 3, (700000000000000,) * 4, (1, -1), (0, 0, -1), (MONEY, MONEY), (84 * 10**14,), (2**63 - 1, 2**63 - 1),
        (1, MONEY - 1), (2, MONEY - 1), (MONEY - 1, 1, 1),
    ]  # fmt: skip
    for each in values:
        yield Tx(1, [PLAIN], [Output(v, b"\x51") for v in each], 0)
    points = [(b"\7", 0), (b"\7", 1), (b"\x08", 0), (b"\7", 256)]
    for order in ((0, 1), (0, 0), (0, 2), (0, 1, 2, 3), (0, 1, 0), (1, 0, 0), (0, 1, 2, 0), (2, 1, 3, 1), (3, 3), (0, 3)):
        yield Tx(1, [Input(points[k][0] * 32, points[k][1], b"", n) for n, k in enumerate(order)], [ONE], 0)
    yield Tx(1, [PLAIN._replace(place=k) for k in range(40)] + [PLAIN._replace(place=39)], [ONE], 0)
    yield Tx(1, [PLAIN, PLAIN], [Output(-1, b"")], 0)
    yield Tx(1, [PLAIN, PLAIN], [], 0)
    for id, index in (
            (bytes(32), FINAL), (bytes(32), FINAL - 1), (bytes(32), 0), (b"\1" + bytes(31), FINAL), (bytes(31) + b"\1", FINAL),
    ):  # fmt: skip
        null = Input(id, index, b"\1\2", FINAL)
        yield Tx(1, [PLAIN, null], [ONE], 0)
        yield Tx(1, [null, PLAIN], [ONE], 0)
        yield Tx(1, [null], [ONE], 0)
        yield Tx(1, [null, null], [ONE], 0)
    for size in (0, 1, 2, 3, 99, 100, 101, 252, 253):
        yield Tx(1, [NULL._replace(script=b"\x51" * size)], [ONE], 0)
        yield Tx(1, [PLAIN._replace(script=b"\x51" * size), NULL], [ONE], 0)
    yield Tx(1, [NULL._replace(script=b"\x51")], [Output(-1, b"")], 0)
    yield Tx(1, [NULL._replace(script=b"\x51")], [], 0)


def random_ones(number: int) -> Iterator[Tx]:
    chance = random.Random(4)
    for _ in range(number):
        inputs = [
            Input(chance.randbytes(32), chance.randrange(1 << 32), chance.randbytes(chance.randrange(9)), chance.randrange(1 << 32))
            for _ in range(chance.randrange(1, 4))
        ]
        outputs = [Output(chance.randrange(10**14), chance.randbytes(chance.randrange(30))) for _ in range(chance.randrange(1, 4))]
        yield Tx(chance.randrange(-(1 << 31), 1 << 31), inputs, outputs, chance.randrange(1 << 32))


def broken() -> Iterator[bytes]:
    """Bytes that can't be read: cut, or with counts that are spelled too long or are too large, at each place of a count."""
    tx = Tx(1, [PLAIN], [ONE], 9)
    whole = spell(tx)
    for end in range(len(whole)):
        if end % 3 == 0 or end in (4, 5, 37, 41, 42, 43, 46, 47, 48, 56, 57, 58, 61):
            yield whole[:end]
    places = (4, 41, 47, 56)
    forms = (
        "fd0100", "fdfc00", "fe01000000", "feffff0000", "fe01000002", "ff0100000000000000", "ffffffffff00000000", "ff0000000001000000",
        "fd01", "ff00",
    )  # fmt: skip
    for place in places:
        for form in forms:
            yield whole[:place] + bytes.fromhex(form) + whole[place + 1 :]
        yield whole[:place] + b"\xfe\0\0\0\2" + whole[place + 1 :]


# ---- what the programs read


def row_of(chain: Chain, tx: Tx) -> List[Any]:
    data = spell(tx)
    found, theirs = core_reads(chain.peer, data), lib_tx(data)
    if found is None:
        raise Disagree(f"litecoind can't read {data.hex()[:200]}")
    inputs = [[i.prevout.hash.hex(), i.prevout.n, bytes(i.scriptSig).hex(), i.nSequence] for i in theirs.vin]
    outputs = [[o.nValue, bytes(o.scriptPubKey).hex()] for o in theirs.vout]
    id = theirs.GetTxid()[::-1].hex()
    core = [[_id(i), i.get("vout", FINAL), _script(i), i["sequence"]] for i in found["vin"]]
    if core != inputs or [o["scriptPubKey"]["hex"] for o in found["vout"]] != [o[1] for o in outputs]:
        raise Disagree(f"litecoind reads {found} and python3-bitcoinlib {theirs}")
    if (found["txid"], found["version"], found["locktime"]) != (id, theirs.nVersion % (1 << 32), theirs.nLockTime):
        raise Disagree(f"litecoind reads {found} and python3-bitcoinlib {theirs}")
    for own, other in zip(found["vout"], outputs):
        if abs(other[0]) < 1 << 50 and round(own["value"] * 10**8) != other[0]:
            raise Disagree(f"litecoind reads {found} and python3-bitcoinlib {theirs}")
    reason, by = reason_of(chain, tx, data)
    expected: Dict[str, Any] = {
        "id": id, "size": len(data), "inputs": len(inputs), "outputs": len(outputs), "version": theirs.nVersion,
        "lock_time": theirs.nLockTime, "coinbase": int(theirs.is_coinbase()), "reason": reason,
    }  # fmt: skip
    if len(data) < 400:
        expected["inputs_are"], expected["outputs_are"] = inputs, outputs
    if read(data) != tx or fault(tx) != reason:
        raise Disagree(f"the reading of {data.hex()[:200]}")
    return [hexed(data), expected, by]


def _id(input: Dict[str, Any]) -> str:
    return bytes.fromhex(input["txid"])[::-1].hex() if "txid" in input else bytes(32).hex()


def _script(input: Dict[str, Any]) -> str:
    return str(input["scriptSig"]["hex"] if "scriptSig" in input else input["coinbase"])


def reason_of(chain: Chain, tx: Tx, data: bytes) -> Tuple[str, str]:
    """The rule that is broken, and who says so. What a litecoin may be worth is another number, and a block's transaction
    without inputs reads as one with witnesses: then python3-bitcoinlib alone is asked."""
    found = lib_fault(data)
    if not tx.inputs or any(v > MONEY for v in _sums(tx)):
        return found, f"read by {CORE}{f', {LIB}' if tx.inputs else ''}; judged by {LIB}"
    said = chain.judge_first(data) if lib_tx(data).is_coinbase() else chain.judge([data])[0]
    if (said if said in REASONS.values() else "") != found:
        raise Disagree(f"litecoind says {said}, python3-bitcoinlib {found or 'nothing'} of {data.hex()[:200]}")
    return found, f"{CORE}, {LIB}"


def _sums(tx: Tx) -> Iterator[int]:
    total = 0
    for out in tx.outputs:
        total += out.value
        yield max(total, out.value)


def broken_row(chain: Chain, data: bytes) -> List[Any]:
    """That it is refused is litecoind's answer; how the fault is named is this project's own."""
    if core_reads(chain.peer, data) is not None:
        raise Disagree(f"litecoind reads {data.hex()}")
    by = CORE
    try:
        read(data)
        raise Disagree(f"the reading reads {data.hex()}")
    except Fails as fails:
        name = str(fails)
    try:
        lib_tx(data)
    except lib_serialize.SerializationTruncationError:
        by = f"{CORE}, {LIB}" if name == "short" else by
    except lib_serialize.SerializationError:
        pass
    return [hexed(data), name, by]


def by_hand(rows: List[List[Any]]) -> List[List[Any]]:
    """Rows that were written by hand: ids are put to hashlib, and faults and reasons follow the rules."""
    for raw, said, *_ in rows:
        data = unhexed("0x" + raw)
        size = said.get("size", len(data)) if isinstance(said, dict) else len(data)
        if isinstance(said, dict) and "id" in said and double_sha(data[:size])[::-1].hex() != said["id"]:
            raise Disagree(f"hashlib has another id than the row by hand {raw}")
        if isinstance(said, dict) and "reason" in said and lib_fault(data[:size]) != said["reason"]:
            raise Disagree(f"{LIB} has another reason than the row by hand {raw}")
    return [[*row[:2], f"{f'hashlib, {LIB}' if isinstance(row[1], dict) else 'docs/RULES.md'}, {HAND}"] for row in rows]


def rows(chain: Chain) -> List[List[Any]]:
    found = [row_of(chain, tx) for tx in [*lawful(), *rules(), *random_ones(30)]]
    return found + [broken_row(chain, data) for data in broken()]


