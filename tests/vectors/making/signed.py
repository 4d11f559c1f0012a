"""Rows of sighash.json: digests by python3-bitcoinlib, and by whether litecoind takes a signature of them."""

import random
from typing import Any, Iterator, List, NamedTuple, Tuple

from .asking import HAND, hexed, unhexed
from .outside import CORE, FINAL, KEYS, LIB, TRUE, Chain, Disagree, core_verifies, lib_digest, sign
from .reading import Input, Output, Tx, digest, push, spell

HEAD = ["raw_transaction, script, input_index, hashType, signature_hash (in the order in which it is signed), who gave it"]
DEFINED = (1, 2, 3, 0x81, 0x82, 0x83)


class Sample(NamedTuple):
    """What is signed: a transaction's input, the spent script, and what of it is the signed code."""

    tx: Tx
    at: int
    spent: bytes
    code: bytes
    kind: int


def spent_by(chance: random.Random) -> Tuple[bytes, bytes]:
    """A script with a signature operation, and its signed code."""
    end = push(KEYS[0]) + b"\xac"
    draw = chance.randrange(6)
    if draw == 0:
        return end, end
    if draw == 1:
        return push(KEYS[0]) + b"\xab\xac", b"\xac"
    data = push(chance.randbytes(chance.choice((1, 2, 20, 75, 76, 200, 217, 218))) + b"\xab\xff")
    if draw == 2:
        return b"\xab" + data + b"\x75\xab" + end, end
    if draw == 3:
        return b"\x51\x64\xab\x68" + end, b"\x51\x64\x68" + end
    return data + b"\x75" + end, data + b"\x75" + end


def outputs_by(chance: random.Random, least: int) -> List[Output]:
    count = chance.choice((least, 1, 1, 2, 2, 3, 4))
    return [Output(chance.choice((0, 1, 255, 65536)), chance.randbytes(chance.choice((0, 1, 2, 25)))) for _ in range(count)]


def row_of(sample: Sample, own: bytes, by: str) -> List[Any]:
    """The row; the reading's digest has to be the same."""
    tx = sample.tx._replace(inputs=[i._replace(script=own if k == sample.at else i.script) for k, i in enumerate(sample.tx.inputs)])
    found = lib_digest(spell(tx), sample.at, sample.code, sample.kind)
    if digest(tx, sample.at, sample.code, sample.kind) != found:
        raise Disagree(f"the reading's digest of {sample}")
    return [hexed(spell(tx)), sample.code.hex(), sample.at, sample.kind, found.hex(), by]


def signed(sample: Sample) -> bytes:
    return push(sign(0, lib_digest(spell(sample.tx), sample.at, sample.code, sample.kind)) + bytes([sample.kind & 255]))


def by_blocks(chain: Chain, kinds: List[int]) -> Iterator[List[Any]]:
    """One for each of these hash types, in transactions that blocks can have."""
    chance = random.Random(1)
    for first in range(0, len(kinds), 64):
        part = kinds[first : first + 64]
        places: List[Tuple[int, bytes, bytes, List[int]]] = []
        scripts: List[bytes] = []
        for _ in part:
            count = chance.choice((1, 2, 2, 3, 4))
            at, (spent, code) = chance.randrange(count), spent_by(chance)
            places.append((at, spent, code, [len(scripts) + k for k in range(count)]))
            scripts += [spent if k == at else TRUE for k in range(count)]
        id, _ = chain.fund(scripts)
        samples = []
        for kind, (at, spent, code, numbers) in zip(part, places):
            inputs = [Input(id, n, b"", chance.choice((FINAL, FINAL - 1, 1 << 31, FINAL - 256))) for n in numbers]
            version, lock_time = chance.choice((1, 2, -1, 0, 2**31 - 1, 256)), chance.choice((0, 0, 1, 101, 500000007))
            samples.append(Sample(Tx(version, inputs, outputs_by(chance, 1), lock_time), at, spent, code, kind))
        owns = [signed(s) for s in samples]
        whole = []
        for s, own in zip(samples, owns):
            whole.append(spell(s.tx._replace(inputs=[i._replace(script=own if k == s.at else b"") for k, i in enumerate(s.tx.inputs)])))
        for sample, own, said in zip(samples, owns, chain.judge(whole)):
            if said != "accepted":
                raise Disagree(f"litecoind says {said} of a signature by python3-bitcoinlib's digest: {sample}")
            yield row_of(sample, own, f"{CORE}, {LIB}")


def by_relay(chain: Chain, number: int) -> Iterator[List[Any]]:
    """Transactions that no block can have, with the hash types that have names."""
    chance = random.Random(2)
    edges = (0, 1, 255, 256, 65535, 1 << 22, 1 << 31, FINAL - 1, FINAL)
    for k in range(number):
        count = 253 if k == 0 else chance.randrange(1, 5)
        inputs = [Input(b"\7" * 32, n, b"\x51" * (n % 3), chance.choice(edges)) for n in range(count)]
        if count < 9:
            places = (0, 1, 255, 65536, 2**31 - 1)
            inputs = [i._replace(id=bytes([chance.randrange(256)]) * 32, place=chance.choice(places)) for i in inputs]
        at = chance.randrange(count)
        inputs[at] = inputs[at]._replace(id=b"\x11" * 32, place=77, script=b"")
        values = (0, 1, 21 * 10**14, 2**63 - 1, -1, -(2**63), 256)
        many = 253 if k == 1 else chance.choice((0, 1, 1, 2, 3, 5))
        outputs = [Output(chance.choice(values), chance.randbytes(chance.choice((0, 1, 25)))) for _ in range(many)]
        if k == 2:
            outputs[:1] = [Output(1, b"\x51" * 70000)]
        code = push(KEYS[0]) + b"\xac"
        if chance.random() < 0.5:
            code = push(chance.randbytes(chance.choice((2, 20, 75, 76, 217, 218, 219, 255, 256, 520)))) + b"\x75" + code
        tx = Tx(chance.choice((-1, 0, 1, 2, 3, 2**31 - 1, -(2**31), 0x01020304)), inputs, outputs, chance.choice((*edges, 500000000)))
        sample = Sample(tx, at, code, code, DEFINED[k % 6])
        own = signed(sample)
        inputs[at] = inputs[at]._replace(script=own)
        said, why = core_verifies(chain.peer, tx, at, code)
        if not said:
            raise Disagree(f"litecoind refuses a signature by python3-bitcoinlib's digest ({why}): {sample}")
        yield row_of(sample, own, f"{CORE}, {LIB}")


def by_lib(number: int) -> Iterator[List[Any]]:
    """Codes of any opcodes, and hash types of four bytes: no signature in a script has those."""
    chance = random.Random(3)
    for k in range(number):
        count = chance.randrange(1, 5)
        inputs = [Input(chance.randbytes(32), chance.randrange(1 << 32), b"", chance.randrange(1 << 32)) for _ in range(count)]
        codes = [0, 0x51, 0x52, 0x63, 0x65, 0x6A, 0xAC, 0xFF]
        code = bytes(chance.choice(codes) for _ in range(chance.randrange(10)))
        tx = Tx(chance.randrange(-(1 << 31), 1 << 31), inputs, outputs_by(chance, 0), chance.randrange(1 << 32))
        any_kind, other_kind = chance.randrange(1 << 32), chance.randrange(1 << 32)
        kind = chance.choice((any_kind, other_kind, 0x100 | chance.choice(DEFINED), 0xFFFFFF00 | chance.choice(DEFINED)))
        yield row_of(Sample(tx, chance.randrange(count), code, code, kind), b"", LIB)


def by_hand(rows: List[List[Any]]) -> List[List[Any]]:
    """Rows that were written by hand, asked of python3-bitcoinlib."""
    for raw, code, at, kind, said, *_ in rows:
        if lib_digest(unhexed("0x" + raw), at, bytes.fromhex(code), kind).hex() != said:
            raise Disagree(f"{LIB} has another digest than the row by hand {raw}")
    return [[*row[:5], f"{LIB}, {HAND}"] for row in rows]


def rows(chain: Chain) -> List[List[Any]]:
    kinds = list(range(256)) + [3, 0x83, 2, 0x82, 1, 0x81] * 10
    return [*by_blocks(chain, kinds), *by_relay(chain, 150), *by_lib(60)]
