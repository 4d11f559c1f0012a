"""Does an input's script spend an output's? By docs/RULES.md, "Running scripts", and by nothing of ours that runs."""

import hashlib
from typing import Callable, Dict, FrozenSet, Iterator, List, NamedTuple, Optional, Tuple, Type

from wakotehu.encoding import Transaction, hash160, push, signature_digest

#: Whether a key's signature (without its hash type) of a digest is valid.
IsValid = Callable[[bytes, bytes, bytes], bool]

T, F = b"\1", b""
DISABLED = {*range(0x7E, 0x82), *range(0x83, 0x87), 0x8D, 0x8E, *range(0x95, 0x9A), 0x65, 0x66}


class Refused(Exception):
    """The script fails."""


class Op(NamedTuple):
    """An opcode, what it pushes, and where it ends."""

    code: int
    data: Optional[bytes]
    end: int


def opcodes(script: bytes) -> Iterator[Op]:
    """The opcodes of a script, up to a push that is cut short (of which nothing comes)."""
    at = 0
    while at < len(script):
        code = script[at]
        wide = {0x4C: 1, 0x4D: 2, 0x4E: 4}.get(code, 0)
        first = at + 1 + wide
        if code > 0x4E:
            count, data = 0, None
        else:
            if first > len(script):
                return
            count = int.from_bytes(script[at + 1 : first], "little") if wide else code
            data = script[first : first + count]
        if first + count > len(script):
            return
        at = first + count
        yield Op(code, data, at)


def is_whole(script: bytes) -> bool:
    end = 0
    for op in opcodes(script):
        end = op.end
    return end == len(script)


def is_push_only(script: bytes) -> bool:
    return is_whole(script) and all(op.code <= 0x60 for op in opcodes(script))


def pays_to_script_hash(script: bytes) -> bool:
    return len(script) == 23 and script[:2] == b"\xa9\x14" and script[22] == 0x87


def is_true(element: bytes) -> bool:
    return any(element[:-1]) or element[-1:] not in (b"", b"\0", b"\x80")


def number(element: bytes, most: int = 4) -> int:
    if len(element) > most:
        raise Refused
    if not element:
        return 0
    size = int.from_bytes(element[:-1] + bytes([element[-1] & 0x7F]), "little")
    return -size if element[-1] & 0x80 else size


def spelled(value: int) -> bytes:
    """The shortest spelling of a number."""
    size = abs(value)
    if not size:
        return b""
    out = bytearray(size.to_bytes(size.bit_length() // 8 + 1, "little"))
    if value < 0:
        out[-1] |= 0x80
    return bytes(out)


def is_strict(signature: bytes) -> bool:
    """BIP 66, of a signature with its hash type."""
    if not signature:
        return True
    s = signature
    if not 9 <= len(s) <= 73 or s[0] != 0x30 or s[1] != len(s) - 3 or s[2] != 2:
        return False
    first = s[3]
    if 5 + first >= len(s) or s[4 + first] != 2:
        return False
    second = s[5 + first]
    if first + second + 7 != len(s):
        return False
    return all(_is_shortest(part) for part in (s[4 : 4 + first], s[6 + first : 6 + first + second]))


def _is_shortest(part: bytes) -> bool:
    return len(part) > 0 and not part[0] & 0x80 and (part[0] != 0 or len(part) == 1 or part[1] & 0x80 != 0)


def accepts(
    tx: Transaction, input: int, spent: bytes, flags: FrozenSet[str], is_valid: IsValid, run: "Optional[Type[Run]]" = None
) -> bool:
    """Whether the input may spend the output's script; `flags` of DERSIG, CLTV, CSV."""
    own, run = tx.inputs[input].script, run or Run
    try:
        stack = run(tx, input, flags, is_valid).run(own, [])
        left = run(tx, input, flags, is_valid).run(spent, list(stack))
        if not left or not is_true(left[-1]):
            return False
        if pays_to_script_hash(spent):
            if not is_push_only(own) or not stack:
                return False
            left = run(tx, input, flags, is_valid).run_inner(stack)
            return bool(left) and is_true(left[-1])
    except Refused:
        return False
    return True


def _flag(yes: bool) -> bytes:
    return T if yes else F


_NUMBERS1: Dict[int, Callable[[int], int]] = {
    0x8B: lambda a: a + 1, 0x8C: lambda a: a - 1, 0x8F: lambda a: -a, 0x90: abs, 0x91: lambda a: int(a == 0), 0x92: lambda a: int(a != 0),
}  # fmt: skip
_NUMBERS2: Dict[int, Callable[[int, int], int]] = {
    0x93: lambda a, b: a + b, 0x94: lambda a, b: a - b, 0x9A: lambda a, b: int(a != 0 and b != 0),
    0x9B: lambda a, b: int(a != 0 or b != 0), 0x9C: lambda a, b: int(a == b), 0x9D: lambda a, b: int(a == b),
    0x9E: lambda a, b: int(a != b), 0x9F: lambda a, b: int(a < b), 0xA0: lambda a, b: int(a > b), 0xA1: lambda a, b: int(a <= b),
    0xA2: lambda a, b: int(a >= b), 0xA3: min, 0xA4: max,
}  # fmt: skip
_HASHES: Dict[int, Callable[[bytes], bytes]] = {
    0xA6: lambda a: hashlib.new("ripemd160", a).digest(), 0xA7: lambda a: hashlib.sha1(a).digest(),
    0xA8: lambda a: hashlib.sha256(a).digest(), 0xA9: hash160,
    0xAA: lambda a: hashlib.sha256(hashlib.sha256(a).digest()).digest(),
}  # fmt: skip
#: How many elements are taken, and which of them (the lowest is 0) stand there after it.
_MOVES: Dict[int, Tuple[int, Tuple[int, ...]]] = {
    0x6D: (2, ()), 0x6E: (2, (0, 1, 0, 1)), 0x6F: (3, (0, 1, 2, 0, 1, 2)), 0x70: (4, (0, 1, 2, 3, 0, 1)), 0x71: (6, (2, 3, 4, 5, 0, 1)),
    0x72: (4, (2, 3, 0, 1)), 0x75: (1, ()), 0x76: (1, (0, 0)), 0x77: (2, (1,)), 0x78: (2, (0, 1, 0)), 0x7B: (3, (1, 2, 0)),
    0x7C: (2, (1, 0)), 0x7D: (2, (1, 0, 1)),
}  # fmt: skip


class Run:
    """A run of one script: the stacks, the open conditions, the count of opcodes."""

    def __init__(self, tx: Transaction, input: int, flags: FrozenSet[str], is_valid: IsValid) -> None:
        self.tx, self.input, self.flags, self.is_valid = tx, input, flags, is_valid
        self.stack: List[bytes] = []
        self.other: List[bytes] = []
        self.open: List[bool] = []
        self.count = 0

    MOST_BYTES, MOST_ELEMENTS, MOST_PUSHED, MOST_OPCODES, MOST_KEYS = 10000, 1000, 520, 201, 20
    LOCK_NUMBER = 5

    def run_inner(self, stack: List[bytes]) -> List[bytes]:
        """The top as a script on the others (BIP 16)."""
        return self.run(stack[-1], stack[:-1])

    def run(self, script: bytes, stack: List[bytes]) -> List[bytes]:
        self.stack = stack
        if len(script) > self.MOST_BYTES:
            raise Refused
        self.script, self.code, end = script, script, 0
        for op in opcodes(script):
            end = op.end
            self._step(op)
            if len(self.stack) + len(self.other) > self.MOST_ELEMENTS:
                raise Refused
        if end != len(script) or self.open:
            raise Refused
        return self.stack

    def take(self, count: int) -> List[bytes]:
        if len(self.stack) < count:
            raise Refused
        out = self.stack[len(self.stack) - count :]
        del self.stack[len(self.stack) - count :]
        return out

    def _step(self, op: Op) -> None:
        if op.data is not None and len(op.data) > self.MOST_PUSHED or op.code in DISABLED:
            raise Refused
        self._tally(op.code > 0x60)
        runs = all(self.open)
        if op.code in (0x63, 0x64, 0x67, 0x68):
            self._condition(op.code, runs)
        elif not runs:
            return
        elif op.data is not None:
            self.stack.append(op.data)
        elif op.code == 0x4F or 0x51 <= op.code <= 0x60:
            self.stack.append(spelled(op.code - 0x50))
        else:
            self._operate(op)

    def _tally(self, more: int) -> None:
        self.count += more
        if self.count > self.MOST_OPCODES:
            raise Refused

    def _condition(self, code: int, runs: bool) -> None:
        if code in (0x63, 0x64):
            self.open.append(runs and is_true(self.take(1)[0]) == (code == 0x63))
        elif not self.open:
            raise Refused
        elif code == 0x67:
            self.open[-1] = not self.open[-1]
        else:
            self.open.pop()

    def _operate(self, op: Op) -> None:
        code, stack = op.code, self.stack
        if code in _MOVES:
            count, places = _MOVES[code]
            taken = self.take(count)
            stack += [taken[n] for n in places]
        elif code in _NUMBERS1:
            stack.append(spelled(_NUMBERS1[code](number(self.take(1)[0]))))
        elif code in _NUMBERS2:
            stack.append(spelled(_NUMBERS2[code](*map(number, self.take(2)))))
        elif code == 0xA5:
            x, least, most = map(number, self.take(3))
            stack.append(_flag(least <= x < most))
        elif code in _HASHES:
            stack.append(_HASHES[code](self.take(1)[0]))
        elif code in (0x87, 0x88):
            a, b = self.take(2)
            stack.append(_flag(a == b))
        elif code in (0xAC, 0xAD):
            stack.append(_flag(self._check_one(*self.take(2))))
        elif code in (0xAE, 0xAF):
            stack.append(_flag(self._check_many()))
        elif code == 0xAB:
            self.code = self.script[op.end :]
        else:
            self._rest(code)
        if code in (0x69, 0x88, 0x9D, 0xAD, 0xAF) and not is_true(self.take(1)[0]):
            raise Refused

    def _rest(self, code: int) -> None:
        stack = self.stack
        if code == 0x6B:
            self.other += self.take(1)
        elif code == 0x6C:
            if not self.other:
                raise Refused
            stack.append(self.other.pop())
        elif code == 0x73:
            (a,) = self.take(1)
            stack += [a, a] if is_true(a) else [a]
        elif code == 0x74:
            stack.append(spelled(len(stack)))
        elif code in (0x79, 0x7A):
            n = number(self.take(1)[0])
            if not 0 <= n < len(stack):
                raise Refused
            stack.append(stack[-1 - n] if code == 0x79 else stack.pop(-1 - n))
        elif code == 0x82:
            (a,) = self.take(1)
            stack += [a, spelled(len(a))]
        elif code == 0xB1:
            self._lock_time()
        elif code == 0xB2:
            self._sequence()
        elif code not in (0x61, 0x69, 0xB0, *range(0xB3, 0xBA)):
            raise Refused

    # ---- locks

    def _top(self) -> int:
        if not self.stack:
            raise Refused
        return number(self.stack[-1], self.LOCK_NUMBER)

    def _lock_time(self) -> None:
        if "CLTV" not in self.flags:
            return
        top, lock, limit = self._top(), self.tx.lock_time, 500000000
        if top < 0 or (top < limit) != (lock < limit) or top > lock or self.tx.inputs[self.input].sequence == 0xFFFFFFFF:
            raise Refused

    def _sequence(self) -> None:
        if "CSV" not in self.flags:
            return
        top, own = self._top(), self.tx.inputs[self.input].sequence
        if top < 0:
            raise Refused
        if top >> 31 & 1:
            return
        is_other = (top ^ own) >> 22 & 1
        if self.tx.version & 0xFFFFFFFF < 2 or own >> 31 or is_other or top & 0xFFFF > own & 0xFFFF:
            raise Refused

    # ---- signatures

    def _check_one(self, signature: bytes, key: bytes) -> bool:
        self._shape(signature)
        return self._signs(signature, key, self._signed_code([signature]))

    def _signed_code(self, signatures: List[bytes]) -> bytes:
        return without(self.code, signatures)

    def _shape(self, signature: bytes) -> None:
        if "DERSIG" in self.flags and not is_strict(signature):
            raise Refused

    def _signs(self, signature: bytes, key: bytes, code: bytes) -> bool:
        if not signature:
            return False
        return self.is_valid(key, signature[:-1], self._digest(code, signature[-1]))

    def _digest(self, code: bytes, kind: int) -> bytes:
        return signature_digest(self.tx, self.input, code, kind)

    def _some(self, most: int) -> List[bytes]:
        """A number on the top, and so many elements below it."""
        count = number(self.take(1)[0])
        if not 0 <= count <= most:
            raise Refused
        return self.take(count)

    def _check_many(self) -> bool:
        keys = self._some(self.MOST_KEYS)
        self._tally(len(keys))
        signatures = self._some(len(keys))
        self.take(1)
        code = self._signed_code(signatures)
        while signatures:
            if len(signatures) > len(keys):
                return False
            self._shape(signatures[-1])
            if self._signs(signatures[-1], keys.pop(), code):
                signatures.pop()
        return True


def without(code: bytes, signatures: List[bytes]) -> bytes:
    """The code without the opcodes that push one of the signatures in the shortest way."""
    pushes = {push(s) for s in signatures}
    kept, at = b"", 0
    for op in opcodes(code):
        if code[at : op.end] not in pushes:
            kept += code[at : op.end]
        at = op.end
    return kept + code[at:]
