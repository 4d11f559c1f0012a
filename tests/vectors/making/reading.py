"""A small reading of the rules of scripts, digests and transactions, written from docs/RULES.md.

Expected values never come from it. It says which signatures a pair of scripts asks for, and `changes` measures how many small
changes of it the rows of this folder refuse. It has all the rules: python3-bitcoinlib lacks BIPs 65, 66 and 112.
"""

import hashlib
from typing import Callable, Dict, Iterator, List, NamedTuple, Set, Tuple


class Fails(Exception):
    """A script fails, or bytes can't be read."""


class Input(NamedTuple):
    id: bytes
    place: int
    script: bytes
    sequence: int


class Output(NamedTuple):
    value: int
    script: bytes


class Tx(NamedTuple):
    version: int
    inputs: List[Input]
    outputs: List[Output]
    lock_time: int


class Job(NamedTuple):
    """What scripts are run for: an input of a transaction, under some flags, over valid signatures."""

    tx: Tx
    input: int
    flags: Set[str]
    valid: Callable[[bytes, bytes, bytes], bool]


# ---- bytes


def count(n: int) -> bytes:
    if n < 253:
        return bytes([n])
    if n < 65536:
        return b"\xfd" + n.to_bytes(2, "little")
    return b"\xfe" + n.to_bytes(4, "little")


def spell(tx: Tx) -> bytes:
    out = tx.version.to_bytes(4, "little", signed=True) + count(len(tx.inputs))
    for i in tx.inputs:
        out += i.id + i.place.to_bytes(4, "little") + count(len(i.script)) + i.script + i.sequence.to_bytes(4, "little")
    out += count(len(tx.outputs))
    for o in tx.outputs:
        out += o.value.to_bytes(8, "little", signed=True) + count(len(o.script)) + o.script
    return out + tx.lock_time.to_bytes(4, "little")


class Reader:
    """Takes parts of bytes, from the front on."""

    def __init__(self, data: bytes) -> None:
        self.data, self.at = data, 0

    def take(self, length: int) -> bytes:
        if self.at + length > len(self.data):
            raise Fails("short")
        self.at += length
        return self.data[self.at - length : self.at]

    def number(self, length: int, signed: bool = False) -> int:
        return int.from_bytes(self.take(length), "little", signed=signed)

    def count(self) -> int:
        first = self.number(1)
        if first < 253:
            return first
        found = self.number(2 << (first - 253))
        if found < (253, 1 << 16, 1 << 32)[first - 253]:
            raise Fails("long form")
        if found > 33554432:
            raise Fails("too large")
        return found


def read(data: bytes) -> Tx:
    r = Reader(data)
    version = r.number(4, True)
    inputs = [Input(r.take(32), r.number(4), r.take(r.count()), r.number(4)) for _ in range(r.count())]
    outputs = [Output(r.number(8, True), r.take(r.count())) for _ in range(r.count())]
    return Tx(version, inputs, outputs, r.number(4))


def double_sha(data: bytes) -> bytes:
    return hashlib.sha256(hashlib.sha256(data).digest()).digest()


def hash160(data: bytes) -> bytes:
    return hashlib.new("ripemd160", hashlib.sha256(data).digest()).digest()


# ---- a transaction by itself


def fault(tx: Tx) -> str:
    if not tx.inputs:
        return "bad-txns-vin-empty"
    if not tx.outputs:
        return "bad-txns-vout-empty"
    total = 0
    for out in tx.outputs:
        total += out.value
        if out.value < 0:
            return "bad-txns-vout-negative"
        if out.value > 2100000000000000:
            return "bad-txns-vout-toolarge"
        if total > 2100000000000000:
            return "bad-txns-txouttotal-toolarge"
    points = [(i.id, i.place) for i in tx.inputs]
    if len(set(points)) < len(points):
        return "bad-txns-inputs-duplicate"
    null = (bytes(32), 0xFFFFFFFF)
    if points == [null]:
        return "" if 2 <= len(tx.inputs[0].script) <= 100 else "bad-cb-length"
    return "bad-txns-prevout-null" if null in points else ""


# ---- digests


def digest(tx: Tx, number: int, code: bytes, kind: int) -> bytes:
    base = kind & 31
    if base == 3 and number >= len(tx.outputs):
        return b"\1" + bytes(31)
    inputs, outputs = [], list(tx.outputs)
    for n, i in enumerate(tx.inputs):
        if n == number:
            inputs.append(i._replace(script=code))
        elif not kind & 128:
            inputs.append(i._replace(script=b"", sequence=0 if base in (2, 3) else i.sequence))
    if base == 2:
        outputs = []
    if base == 3:
        outputs = [Output(-1, b"")] * number + [outputs[number]]
    return double_sha(spell(Tx(tx.version, inputs, outputs, tx.lock_time)) + kind.to_bytes(4, "little"))


# ---- locks


def median(times: List[int]) -> int:
    return sorted(times)[len(times) // 2]


def is_final(lock_time: int, sequences: List[int], height: int, cutoff: int) -> bool:
    if lock_time == 0 or lock_time < (height if lock_time < 500000000 else cutoff):
        return True
    return all(sequence == 0xFFFFFFFF for sequence in sequences)


def are_met(version: int, sequences: List[int], starts: List[Tuple[int, int]], height: int, cutoff: int) -> bool:
    """Relative locks, given each coin's height and the median time past below it."""
    for sequence, (coin, start) in zip(sequences, starts):
        if 0 <= version < 2 or sequence & 1 << 31:
            continue
        if sequence & 1 << 22:
            if start + 512 * (sequence & 65535) > cutoff:
                return False
        elif coin + (sequence & 65535) > height:
            return False
    return True


# ---- scripts as opcodes


class Op(NamedTuple):
    number: int
    data: bytes
    start: int
    end: int


def opcodes(script: bytes) -> Iterator[Op]:
    at = 0
    while at < len(script):
        start, number, length = at, script[at], 0
        at += 1
        if number <= 75:
            length = number
        elif number <= 78:
            wide = 1 << (number - 76)
            length = int.from_bytes(script[at : at + wide], "little")
            at += wide
        if at + length > len(script):
            raise Fails("cut")
        at += length
        yield Op(number, script[at - length : at], start, at)


def is_push_only(script: bytes) -> bool:
    try:
        return all(op.number <= 0x60 for op in opcodes(script))
    except Fails:
        return False


def is_script_hash(script: bytes) -> bool:
    return len(script) == 23 and script[:2] == b"\xa9\x14" and script[22] == 0x87


def push(data: bytes) -> bytes:
    """The shortest push by length."""
    size = len(data)
    if size < 76:
        return bytes([size]) + data
    if size < 256:
        return b"\x4c" + bytes([size]) + data
    return b"\x4d" + size.to_bytes(2, "little") + data


def without(script: bytes, piece: bytes) -> bytes:
    """A script without the opcodes that equal a piece; a push that is cut short stays, with all behind it."""
    kept, end = b"", 0
    try:
        for op in opcodes(script):
            end = op.end
            if script[op.start : end] != piece:
                kept += script[op.start : end]
    except Fails:
        pass
    return kept + script[end:]


# ---- elements


def is_true(element: bytes) -> bool:
    return any(element[:-1]) or element[-1:] not in (b"", b"\0", b"\x80")


def value(element: bytes, most: int = 4) -> int:
    if len(element) > most:
        raise Fails("a number is too long")
    found = int.from_bytes(element, "little")
    sign = 128 << 8 * len(element) >> 8
    return sign - found if found & sign else found


def number(n: int) -> bytes:
    size = abs(n)
    out = bytearray(size.to_bytes((size.bit_length() + 7) // 8, "little"))
    if out and out[-1] & 128:
        out.append(0)
    if n < 0:
        out[-1] |= 128
    return bytes(out)


# ---- signatures


def is_strict(signature: bytes) -> bool:
    """BIP 66, of a signature with its hash type."""
    size = len(signature)
    if size < 9 or size > 73 or signature[0] != 0x30 or signature[1] != size - 3:
        return False
    r = signature[3]
    if 5 + r >= size:
        return False
    s = signature[5 + r]
    if r + s + 7 != size:
        return False
    return is_integer(signature[2:]) and is_integer(signature[4 + r :])


def is_integer(part: bytes) -> bool:
    """Whether a number is at the front."""
    if part[0] != 2 or part[1] == 0 or part[2] & 128:
        return False
    return part[1] == 1 or part[2] != 0 or part[3] & 128 != 0


def checks(job: Job, signature: bytes, key: bytes, code: bytes) -> bool:
    if signature and "DERSIG" in job.flags and not is_strict(signature):
        raise Fails("a signature isn't strictly encoded")
    if not signature:
        return False
    return job.valid(key, signature[:-1], digest(job.tx, job.input, without(code, b"\xab"), signature[-1]))


def many(job: Job, stack: List[bytes], code: bytes, counted: int) -> int:
    """CHECKMULTISIG; how many operations there are then."""
    keys_count = value(take(stack))
    if not 0 <= keys_count <= 20:
        raise Fails("a wrong number of keys")
    counted += keys_count
    if counted > 201:
        raise Fails("too many operations")
    keys = [take(stack) for _ in range(keys_count)]
    wanted = value(take(stack))
    if not 0 <= wanted <= keys_count:
        raise Fails("a wrong number of signatures")
    signatures = [take(stack) for _ in range(wanted)]
    take(stack)
    for signature in signatures:
        code = without(code, push(signature))
    while signatures and len(signatures) <= len(keys):
        if checks(job, signatures[0], keys[0], code):
            signatures.pop(0)
        keys.pop(0)
    stack.append(b"" if signatures else b"\1")
    return counted


def look_at_lock_time(job: Job, wanted: int) -> None:
    if wanted < 0 or wanted > job.tx.lock_time or (wanted < 500000000) != (job.tx.lock_time < 500000000):
        raise Fails("a lock time isn't met")
    if job.tx.inputs[job.input].sequence == 0xFFFFFFFF:
        raise Fails("the input is final")


def look_at_sequence(job: Job, wanted: int) -> None:
    if wanted < 0:
        raise Fails("a relative lock is negative")
    if wanted & 1 << 31:
        return
    own = job.tx.inputs[job.input].sequence
    if 0 <= job.tx.version < 2 or own & 1 << 31 or (wanted ^ own) & 1 << 22 or wanted & 65535 > own & 65535:
        raise Fails("a relative lock isn't met")


# ---- runs


def take(stack: List[bytes]) -> bytes:
    if not stack:
        raise Fails("too few elements")
    return stack.pop()


#: How many elements are taken, the lowest first, and which of them are put back.
SHUFFLES: Dict[int, Tuple[int, Tuple[int, ...]]] = {
    0x6D: (2, ()), 0x6E: (2, (0, 1, 0, 1)), 0x6F: (3, (0, 1, 2, 0, 1, 2)), 0x70: (4, (0, 1, 2, 3, 0, 1)),
    0x71: (6, (2, 3, 4, 5, 0, 1)), 0x72: (4, (2, 3, 0, 1)), 0x75: (1, ()), 0x76: (1, (0, 0)), 0x77: (2, (1,)),
    0x78: (2, (0, 1, 0)), 0x7B: (3, (1, 2, 0)), 0x7C: (2, (1, 0)), 0x7D: (2, (1, 0, 1)),
}  # fmt: skip

UNARY: Dict[int, Callable[[int], int]] = {
    0x8B: lambda a: a + 1, 0x8C: lambda a: a - 1, 0x8F: lambda a: -a, 0x90: abs, 0x91: lambda a: int(a == 0),
    0x92: lambda a: int(a != 0),
}  # fmt: skip

BINARY: Dict[int, Callable[[int, int], int]] = {
    0x93: lambda a, b: a + b, 0x94: lambda a, b: a - b, 0x9A: lambda a, b: int(a != 0 and b != 0),
    0x9B: lambda a, b: int(a != 0 or b != 0), 0x9C: lambda a, b: int(a == b), 0x9E: lambda a, b: int(a != b),
    0x9F: lambda a, b: int(a < b), 0xA0: lambda a, b: int(a > b), 0xA1: lambda a, b: int(a <= b),
    0xA2: lambda a, b: int(a >= b), 0xA3: min, 0xA4: max,
}  # fmt: skip

HASHES: Dict[int, Callable[[bytes], bytes]] = {
    0xA6: lambda a: hashlib.new("ripemd160", a).digest(), 0xA7: lambda a: hashlib.sha1(a).digest(),
    0xA8: lambda a: hashlib.sha256(a).digest(), 0xA9: hash160, 0xAA: double_sha,
}  # fmt: skip

#: Those before them, with VERIFY behind.
VERIFYING = {0x88, 0x9D, 0xAD, 0xAF}

NOTHING = {0x61, 0xAB, 0xB0, 0xB1, 0xB2, 0xB3, 0xB4, 0xB5, 0xB6, 0xB7, 0xB8, 0xB9}

NEVER = {
    0x65, 0x66, 0x7E, 0x7F, 0x80, 0x81, 0x83, 0x84, 0x85, 0x86, 0x8D, 0x8E, 0x95, 0x96, 0x97, 0x98, 0x99,
}  # fmt: skip


def run(job: Job, script: bytes, stack: List[bytes]) -> None:
    """Runs a script on a stack."""
    if len(script) > 10000:
        raise Fails("a script is too long")
    other: List[bytes] = []
    branches: List[bool] = []
    counted, code = 0, script
    for op in opcodes(script):
        if len(op.data) > 520 or op.number in NEVER:
            raise Fails("a push is too long, or an opcode is never allowed")
        if op.number > 0x60:
            counted += 1
        if counted > 201:
            raise Fails("too many operations")
        if op.number in (0x63, 0x64, 0x67, 0x68):
            branch(op.number, branches, stack)
        elif all(branches):
            if op.number in (0xAE, 0xAF):
                counted = many(job, stack, code, counted)
            elif op.number in (0xAC, 0xAD):
                key, signature = take(stack), take(stack)
                stack.append(b"\1" if checks(job, signature, key, without(code, push(signature))) else b"")
            else:
                step(job, op.number - (op.number in VERIFYING), op.data, stack, other)
            if op.number == 0xAB:
                code = script[op.end :]
            if op.number in VERIFYING and not is_true(take(stack)):
                raise Fails("it is false")
        if len(stack) + len(other) > 1000:
            raise Fails("too many elements")
    if branches:
        raise Fails("a condition is open")


def branch(number_: int, branches: List[bool], stack: List[bytes]) -> None:
    if number_ in (0x63, 0x64):
        branches.append(all(branches) and is_true(take(stack)) == (number_ == 0x63))
    elif not branches:
        raise Fails("no condition is open")
    elif number_ == 0x67:
        branches[-1] = not branches[-1]
    else:
        branches.pop()


def step(job: Job, code: int, data: bytes, stack: List[bytes], other: List[bytes]) -> None:
    """An opcode that is neither of conditions nor of signatures."""
    if code <= 0x4E:
        stack.append(data)
    elif code == 0x4F or 0x51 <= code <= 0x60:
        stack.append(number(code - 0x50))
    elif code in SHUFFLES:
        takes, gives = SHUFFLES[code]
        taken = [take(stack) for _ in range(takes)][::-1]
        stack.extend(taken[n] for n in gives)
    elif code in UNARY:
        stack.append(number(UNARY[code](value(take(stack)))))
    elif code in BINARY:
        b, a = value(take(stack)), value(take(stack))
        stack.append(number(BINARY[code](a, b)))
    elif code in HASHES:
        stack.append(HASHES[code](take(stack)))
    elif code in (0x79, 0x7A):
        deep = value(take(stack))
        if not 0 <= deep < len(stack):
            raise Fails("too deep")
        stack.append(stack[-1 - deep] if code == 0x79 else stack.pop(-1 - deep))
    else:
        rest(job, code, stack, other)


def rest(job: Job, code: int, stack: List[bytes], other: List[bytes]) -> None:
    if code == 0x69:
        if not is_true(take(stack)):
            raise Fails("it is false")
    elif code == 0x6B:
        other.append(take(stack))
    elif code == 0x6C:
        stack.append(take(other))
    elif code == 0x73:
        top = take(stack)
        stack.extend([top, top] if is_true(top) else [top])
    elif code == 0x74:
        stack.append(number(len(stack)))
    elif code == 0x82:
        top = take(stack)
        stack.extend([top, number(len(top))])
    elif code == 0x87:
        stack.append(b"\1" if take(stack) == take(stack) else b"")
    elif code == 0xA5:
        most, least, tried = value(take(stack)), value(take(stack)), value(take(stack))
        stack.append(number(int(least <= tried < most)))
    elif code == 0xB1 and "CLTV" in job.flags:
        top = take(stack)
        stack.append(top)
        look_at_lock_time(job, value(top, 5))
    elif code == 0xB2 and "CSV" in job.flags:
        top = take(stack)
        stack.append(top)
        look_at_sequence(job, value(top, 5))
    elif code not in NOTHING:
        raise Fails("no such opcode")


def accepts(job: Job, own: bytes, spent: bytes) -> bool:
    """Whether an input's script and the spent one accept."""
    try:
        stack: List[bytes] = []
        run(job, own, stack)
        left = list(stack)
        run(job, spent, stack)
        if not is_true(take(stack)):
            return False
        if is_script_hash(spent):
            if not is_push_only(own):
                return False
            run(job, take(left), left)
            return is_true(take(left))
        return True
    except Fails:
        return False


