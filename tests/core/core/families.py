"""Families of script pairs: what an output asks, and an input that is meant for it, with parameters at random.

Nothing here says what is accepted: most scripts test by themselves all that an opcode leaves, as the rules have it
(interpreter.py), and the peer judges them. Some are then altered, so that they are refused.
"""

import random
from dataclasses import dataclass
from enum import Enum
from typing import Any, Callable, Dict, List, NamedTuple, Optional, Sequence, Tuple, TypeVar, Union

from wakotehu.encoding import Input, Output, Transaction, hash160, push, signature_digest
from wakotehu.signatures import Secp256k1

from . import interpreter

FINAL = 0xFFFFFFFF
#: Writes the input's script, over the transaction that has it and the input's number.
Writer = Callable[[Transaction, int], bytes]


class Plan(NamedTuple):
    """An output's script, who writes the input's, and what the transaction has to have."""

    spent: bytes
    own: Writer
    version: Optional[int] = None
    sequence: Optional[int] = None
    lock_time: Optional[int] = None


class Place(Enum):
    """In a script that tests a signature of its own: the signature, pushed in the shortest way or in another; a separator."""

    SHORTEST, WIDE, SEPARATOR = "shortest", "wide", "separator"


Part = Union[bytes, Place]
Item = TypeVar("Item")

#: Numbers at which a spelling grows by a byte, and round them.
SIZES = (0, 1, 2, 3, 15, 16, 17, 126, 127, 128, 129, 254, 255, 256, 257, 32767, 32768, 65535, 65536, 8388607, 8388608, 2**31 - 1)
#: Elements that are true, and that are false.
TRUTHS = (b"\1", b"\x81", b"\0\1", b"\1\0", b"\x80\0", b"\0\0\x01", b"\0\x40", b"\x7f", b"\x40\x80")
LIES = (b"", b"\0", b"\x80", b"\0\0", b"\0\x80", b"\0\0\x80", b"\0\0\0\0\0\x80")

UNARY = (0x8B, 0x8C, 0x8F, 0x90, 0x91, 0x92)
BINARY = (0x93, 0x94, 0x9A, 0x9B, 0x9C, 0x9D, 0x9E, 0x9F, 0xA0, 0xA1, 0xA2, 0xA3, 0xA4)
#: Opcodes that move elements, with how many they take; and how many elements more they leave.
MOVES = {
    0x6D: (2, -2), 0x6E: (2, 2), 0x6F: (3, 3), 0x70: (4, 2), 0x71: (6, 0), 0x72: (4, 0), 0x73: (1, 1), 0x74: (0, 1), 0x75: (1, -1),
    0x76: (1, 1), 0x77: (2, -1), 0x78: (2, 1), 0x79: (1, 0), 0x7A: (1, -1), 0x7B: (3, 0), 0x7C: (2, 0), 0x7D: (2, 1), 0x82: (1, 1),
}  # fmt: skip
HASHES = (0xA6, 0xA7, 0xA8, 0xA9, 0xAA)
NEVER = (*range(0x7E, 0x82), *range(0x83, 0x87), 0x8D, 0x8E, *range(0x95, 0x9A), 0x65, 0x66)
#: Those that fail only where they are run.
RESERVED = (0x50, 0x62, 0x89, 0x8A, 0x6A, *range(0xBA, 0x100))
NOTHING = (0x61, 0xB0, *range(0xB3, 0xBA))
#: How many elements each opcode takes at least.
TAKES: Dict[int, int] = {
    **{code: takes for code, (takes, _) in MOVES.items() if takes}, **{code: 1 for code in (*UNARY, *HASHES, 0x63, 0x64, 0x69, 0x6B)},
    **{code: 2 for code in (*BINARY, 0x79, 0x7A, 0x87, 0x88, 0xAC, 0xAD)}, **{code: 3 for code in (0xA5, 0xAE, 0xAF)},
}  # fmt: skip
FEW = tuple((code, takes, less) for code, takes in TAKES.items() for less in (0, 1))
#: Opcodes that have no effect where they aren't run.
NOT_RUN = tuple(code for code in range(0x4F, 0x100) if code not in (0x63, 0x64, 0x67, 0x68, *NEVER))
KINDS = (1, 2, 3, 3, 0x81, 0x82, 0x83)

SECRETS = [n.to_bytes(32, "big") for n in (3, 5, 7, 11, 13)]


def element(data: bytes) -> bytes:
    """The shortest push of an element."""
    return push(data) if data else b"\x00"


def told(value: int) -> bytes:
    """The push of a number in its shortest spelling."""
    return element(interpreter.spelled(value))


def script_hash(inner: bytes) -> bytes:
    return b"\xa9\x14" + hash160(inner) + b"\x87"


@dataclass
class Families:
    """Plans at random, for spends at a height whose block is made at a time."""

    chance: random.Random
    height: int
    time: int

    def __post_init__(self) -> None:
        self.secp = Secp256k1()
        self.keys = [self.secp.public_key(secret) for secret in SECRETS]
        self.decks: Dict[Tuple[object, ...], List[Any]] = {}
        # Fewer of those that ask for a rule which isn't in force yet.
        strict, lock_times, sequences = (12 if self.height >= first else 2 for first in (1251, 1351, 432))
        self.all: Sequence[Tuple[int, Callable[[], Plan]]] = (
            (16, self.numbers), (12, self.moves), (6, self.picks), (5, self.hashes), (5, self.truths), (5, self.pushes),
            (10, self.each_opcode), (16, self.few), (10, self.conditions), (12, self.limits), (strict, self.strict), (20, self.signed),
            (8, self.taken_out), (10, self.many), (lock_times, self.lock_times), (sequences, self.sequences),
            (5, self.script_hashes), (4, self.own_scripts),
        )  # fmt: skip

    def dealt(self, items: Sequence[Item]) -> Item:
        """One of these: each comes once before any comes again."""
        deck = self.decks.setdefault(tuple(items), [])
        if not deck:
            deck += self.chance.sample(items, len(items))
        found: Item = deck.pop()
        return found

    def plan(self) -> Plan:
        """One of them; at times behind its hash."""
        (family,) = self.chance.choices([it for _, it in self.all], [weight for weight, _ in self.all])
        found = family()
        if self.chance.random() < 0.2 and len(found.spent) <= 521 and not interpreter.pays_to_script_hash(found.spent):
            return self.hidden(found)
        return found

    def hidden(self, plan: Plan) -> Plan:
        """The same with the hash of the output's script as output; the input pushes that script."""
        inner = plan.spent

        def own(tx: Transaction, at: int) -> bytes:
            draw = self.chance.random()
            last = element(inner) if draw > 0.04 else self.chance.choice((b"", b"\x51", element(inner[:-1]), element(inner + b"\x61")))
            return plan.own(tx, at) + last

        return plan._replace(spent=script_hash(inner), own=own)

    # ---- closing

    def closed(self, code: bytes, front: Sequence[bytes]) -> Plan:
        """The code over some elements, with a test of all that it leaves. Some of the elements come from the input."""
        here = self.chance.randrange(len(front) + 1) if self.chance.random() < 0.7 else len(front)
        given = b"".join(map(element, front[:here]))
        code = b"".join(map(element, front[here:])) + code
        nothing = Transaction(1, [Input(bytes(32), 0, b"", FINAL)], [Output(0, b"")], 0)
        try:
            left = interpreter.Run(nothing, 0, frozenset(), lambda *_: False).run(code, list(front[:here]))
        except interpreter.Refused:
            return Plan(code + self.chance.choice((b"\x51", b"")), lambda *_: given)
        return Plan(code + self.test_of(left), lambda *_: given)

    def test_of(self, left: Sequence[bytes]) -> bytes:
        """That these elements are there, and no others; now and then of something else."""
        left = list(left)
        if left and self.chance.random() < 0.1:
            place = self.chance.randrange(len(left))
            left[place] = self.chance.choice((left[place] + b"\0", left[place][:-1], b"\1"))
        last = b"\x74" + told(-1 if self.chance.random() < 0.02 else 0) + b"\x87"
        return b"".join(element(it) + b"\x88" for it in reversed(left)) + last

    # ---- elements

    def near(self, value: int) -> int:
        return self.chance.choice((value, value, value + 1, value - 1, -value))

    def value(self) -> int:
        size = self.chance.choice(SIZES[:6] if self.chance.random() < 0.5 else SIZES)
        return size * self.chance.choice((1, -1))

    def spelling(self, value: int) -> bytes:
        """A number in one of its spellings: mostly the shortest; a zero byte more, or as many as there may be, and one more."""
        data = interpreter.spelled(value)
        if self.chance.random() < 0.8:
            return data
        sign = 0x80 if value < 0 or value == 0 and self.chance.random() < 0.5 else 0
        body = abs(value).to_bytes(self.chance.choice((len(data), len(data) + 1, 3, 4)), "little") if abs(value) < 2**24 else data
        return body + bytes([sign]) if abs(value) < 2**24 else data

    def short(self) -> bytes:
        """A short element, unlike others."""
        return bytes([self.chance.randrange(2, 0x7F) for _ in range(self.chance.choice((1, 1, 1, 2, 3)))])

    def shorts(self, count: int) -> List[bytes]:
        return [self.short() for _ in range(max(count, 0))]

    def amiss(self) -> int:
        """Mostly 0; else one more or less than there have to be."""
        return self.chance.choice((0,) * 9 + (-1,))

    # ---- opcodes by what they leave

    def numbers(self) -> Plan:
        first = self.value()
        draw = self.chance.random()
        if draw < 0.25:
            code, values = self.dealt(UNARY), [first]
        elif draw < 0.85:
            code, values = self.dealt(BINARY), [first, self.near(first) if self.chance.random() < 0.6 else self.value()]
        else:
            code, values = 0xA5, [self.near(first), self.near(first), self.near(first)]
        if self.chance.random() < 0.4:
            values = [self.chance.choice((0, 0, 1, 1, -1, 2)) for _ in values]
        front = self.shorts(self.chance.choice((0, 0, 1))) + [self.spelling(v) for v in values]
        return self.closed(bytes([code]), front[1:] if self.amiss() and len(front) == len(values) else front)

    def moves(self) -> Plan:
        code = self.dealt(tuple(MOVES))
        takes, _ = MOVES[code]
        front = self.shorts(takes + self.chance.choice((0, 0, 1, 2)) + self.amiss())
        if code == 0x82:
            front[-1:] = [self.chance.randbytes(self.chance.choice((0, 1, 2, 127, 128, 255, 256, 519, 520)))]
        elif code == 0x73:
            front[-1:] = [self.chance.choice(TRUTHS + LIES)]
        elif code == 0x74:
            front = [b"\2"] * self.chance.choice((0, 1, 2, 16, 17, 60))
        elif code in (0x79, 0x7A):
            return self.picks()
        if self.chance.random() < 0.2:
            back = self.chance.randrange(1, 4)
            aside = b"\x6b" * back + b"\x6c" * self.chance.choice((back, back, back, back - 1, back + 1))
            aside += bytes([code]) if self.chance.random() < 0.3 else b""
            return self.closed(aside, self.shorts(back + self.chance.choice((0, 1))))
        return self.closed(bytes([code]), front)

    def picks(self) -> Plan:
        count = self.chance.randrange(1, 7)
        deep = self.chance.choice((*range(count), count - 1, count, count + 1, -1))
        return self.closed(self.chance.choice((b"\x79", b"\x7a")), self.shorts(count) + [self.spelling(deep)])

    def hashes(self) -> Plan:
        data = self.chance.randbytes(self.chance.choice((0, 1, 32, 33, 55, 56, 63, 64, 65, 119, 120, 520)))
        return self.closed(bytes([self.dealt(HASHES)]), self.shorts(self.chance.choice((0, 1))) + [data][: 1 + self.amiss()])

    def truths(self) -> Plan:
        """Elements that are true or false, at the end, and where opcodes take them."""
        data = self.chance.choice(TRUTHS + LIES)
        kind = self.chance.randrange(4)
        if kind == 0:
            return Plan(self.chance.choice((b"", b"\x61", b"\x76")), lambda *_: element(data))
        if kind == 1:
            return self.closed(b"\x69", self.shorts(1) + [data])
        if kind == 2:
            return self.closed(self.chance.choice((b"\x87", b"\x88")), [data, self.chance.choice((data, data, data + b"\0", data[:-1]))])
        return self.closed(b"\x91" + b"\x69" * (not interpreter.is_true(data)), [data])

    def pushes(self) -> Plan:
        """Each form of a push, whole and cut."""
        size = self.dealt((0, 1, 2, 16, 74, 75, 76, 77, 254, 255, 256, 257, 519, 520, 520, 521, 521))
        data = self.chance.randbytes(size)
        wide = self.chance.choice([w for w, most in ((0, 75), (1, 255), (2, 65535), (4, 2**32)) if size <= most])
        pushed = bytes([{0: size, 1: 0x4C, 2: 0x4D, 4: 0x4E}[wide]]) + (size.to_bytes(wide, "little") if wide else b"") + data
        draw = self.chance.random()
        if draw < 0.2:
            cut = pushed[: self.chance.randrange(1, min(len(pushed), 8) + 1)] if self.chance.random() < 0.6 else pushed[:-1]
            return Plan(b"\x51" + (cut if self.chance.random() < 0.5 else b"\x00\x63" + cut + b"\x68"), lambda *_: b"")
        if draw < 0.35:
            constant = self.chance.choice((0x4F, *range(0x51, 0x61)))
            return self.closed(bytes([constant]), [])
        if draw < 0.45:
            return Plan(b"\x00\x63" + pushed + b"\x68\x51", lambda *_: b"")
        if draw < 0.6:
            return Plan(element(data) + b"\x87" if size < 521 else b"\x75\x51", lambda *_: pushed)
        return self.closed(pushed, [])

    def each_opcode(self) -> Plan:
        """Any opcode, where it is run and where it isn't, behind elements that suit most."""
        code = self.dealt(self.chance.choice((range(0x4F, 0xBC), range(256), NEVER, RESERVED)))
        whole = bytes([code])
        if code <= 75:
            whole += self.chance.randbytes(code)
        elif code <= 0x4E:
            whole += (2).to_bytes(1 << (code - 76), "little") + b"\2\3"
        draw = self.chance.random()
        if draw < 0.3:
            whole += {0x63: b"\x68", 0x64: b"\x68"}.get(code, b"")
            return Plan(b"\x51\x00\x63" + whole + b"\x68", lambda *_: b"")
        if draw < 0.5:
            many = bytes(self.dealt(NOT_RUN) for _ in range(16))
            return Plan(b"\x51\x00\x63" + many + b"\x68", lambda *_: b"")
        if code in (0xAC, 0xAD, 0xAE, 0xAF, 0xB1, 0xB2, 0x67, 0x68):
            return Plan(whole + b"\x51", lambda *_: element(self.chance.choice((b"", b"\1"))) * 3)
        if code in (0x63, 0x64):
            return self.closed(whole + b"\x52\x68", [b"\2", self.chance.choice((b"", b"\1"))])
        front = [b"\3", b"\2"] + [self.chance.choice((b"\1", b"\2", b"")) for _ in range(4)]
        return self.closed(whole, front)

    def few(self) -> Plan:
        """An opcode with as many elements as it takes, or with one less."""
        code, takes, less = self.dealt(FEW)
        count = takes - less
        front = b"".join(self.chance.choice((b"\x00", b"\x51", b"\x52")) for _ in range(count))
        # PICK and ROLL of 0, and no keys and no signatures for CHECKMULTISIG.
        front = b"\x00" * count if code in (0x79, 0x7A, 0xAE, 0xAF) else front
        here = self.chance.randrange(count + 1)
        end = b"\x68\x51" if code in (0x63, 0x64) else b"\x51"
        return Plan(front[here:] + bytes([code]) + end, lambda *_: front[:here])

    def conditions(self) -> Plan:
        """Conditions within conditions; all that is left tells which parts were run."""
        code = self._within(self.chance.choice((1, 2, 2, 3)))
        draw = self.chance.random()
        if draw < 0.08:
            code += self.chance.choice((b"\x67", b"\x68", b"\x63", b"\x00\x63", b"\x51\x64"))
        elif draw < 0.12:
            code = self.chance.choice((b"\x67", b"\x68")) + code
        return self.closed(code, self.shorts(self.chance.choice((0, 1))))

    def _within(self, depth: int) -> bytes:
        out = b""
        for _ in range(self.chance.choice((1, 1, 2))):
            out += element(self.short()) if self.chance.random() < 0.5 else b""
            if depth == 0:
                continue
            is_true = self.chance.random() < 0.5
            out += element(self.chance.choice(TRUTHS if is_true else LIES)) + self.chance.choice((b"\x63", b"\x64"))
            out += element(self.short()) + self._within(depth - 1)
            for _ in range(self.chance.choice((0, 1, 1, 2))):
                out += b"\x67" + element(self.short()) + (self._within(depth - 1) if self.chance.random() < 0.4 else b"")
            out += b"\x68"
        return out

    # ---- limits

    def limits(self) -> Plan:
        writers = (self._bytes, self._not_counted, *(self._counted, self._filled, self._counted_keys) * 2)
        return self.dealt(writers)()

    def _bytes(self) -> Plan:
        rest = self.dealt((10000, 10000, 10001)) - 1
        code = (push(bytes(500)) + b"\x75") * (rest // 504) + push(bytes(rest % 504 - 4)) + b"\x75\x51"
        if self.chance.random() < 0.5:
            return Plan(code, lambda *_: b"")
        return Plan(self.chance.choice((b"\x61", b"\x51")), lambda *_: code)

    def _counted(self) -> Plan:
        """So many opcodes that count, run or not, with others that don't."""
        count = self.chance.choice((200, 201, 201, 202))
        kind = self.chance.randrange(4)
        if kind == 0:
            return Plan(bytes([self.chance.choice(NOTHING)]) * count + b"\x51", lambda *_: b"")
        if kind == 1:
            code = bytes([self.chance.choice((0x61, 0x6A, 0xBA, 0xFF, 0xAC, 0xAE, 0x93))])
            return Plan(b"\x51\x00\x63" + code * (count - 2) + b"\x68", lambda *_: b"")
        if kind == 2:
            return Plan(self.chance.choice((b"", b"\x61")), lambda *_: b"\x51" + b"\x61" * count)
        whole = b"\x00\x8b\x75"
        return Plan(whole * (count // 2) + b"\x61" * (count % 2) + b"\x51", lambda *_: b"\x61" * self.chance.choice((0, 1, 201)))

    def _not_counted(self) -> Plan:
        """Opcodes up to OP_16 don't count."""
        code = self.chance.choice((0x50, 0x60, 0x4F, 0x51, 0x61))
        many = bytes([code]) * self.chance.choice((200, 210))
        return Plan((b"\x51\x00\x63" + many + b"\x68") if code == 0x50 or self.chance.random() < 0.5 else many + b"\x51", lambda *_: b"")

    def _filled(self) -> Plan:
        """An opcode that leaves more elements, where as many are there as may be, or one more."""
        code, (takes, more) = self.chance.choice([it for it in MOVES.items() if it[1][1] > 0])
        after = self.chance.choice((1000, 1000, 1001))
        front = after - more
        aside = self.chance.choice((0, 0, 1, 5)) if front - takes >= 5 else 0
        pushed = b"\x52" * front
        here = self.chance.choice((0, front // 2, front))
        end = b"\x75" * 2 + b"\x51" if self.chance.random() < 0.5 else b""
        return Plan(pushed[here:] + b"\x6b" * aside + bytes([code]) + end, lambda *_: pushed[:here])

    def _counted_keys(self) -> Plan:
        """The keys of CHECKMULTISIG count as opcodes; there are at most 20."""
        keys = self.dealt((0, 1, 2, 19, 20, 20, 21, 21))
        wanted = self.chance.choice((0, 0, 1, keys, keys + 1))
        # Signatures of no bytes aren't valid.
        end = b"\xae" + (b"\x91" if wanted and self.chance.random() < 0.9 else b"")
        fill = self.chance.choice((201, 201, 201, 202, 202, 200, keys + 2)) - len(end) - keys
        return Plan(b"\x61" * fill + b"\x00" * (1 + wanted) + told(wanted) + b"\x51" * keys + told(keys) + end, lambda *_: b"")

    # ---- signatures

    def strict(self) -> Plan:
        """Signatures of a shape at random, none of them valid: false is answered if the shape is strict, else the script fails."""
        first, second = self._part(), self._part()
        if self.chance.random() < 0.15:
            room = self.chance.choice((65, 66, 66, 67))
            first = bytes([1]) * self.chance.choice((32, 33, 34, 1, room - 1))
            second = bytes([2]) * max(room - len(first), 0)
        parts = [[0x02, len(first)], list(first), [0x02, len(second)], list(second)]
        body = [byte for part in parts for byte in part]
        data = [0x30, len(body), *body, self.chance.choice((1, 2, 3, 0))]
        if self.chance.random() < 0.3:
            self._bent(data, len(first))
        signature = bytes(data)
        if self.chance.random() < 0.1:
            signature = self.chance.choice((signature[:-1], signature[:-2], signature + b"\1", signature[:8], signature[:9], signature[:1]))
        key = self.chance.choice(self.keys)
        if self.chance.random() < 0.2:
            front = b"\x00" + element(signature) + b"\x51" if self.chance.random() < 0.7 else b"\x00\x00" + element(signature) + b"\x52"
            return Plan(element(key) * 2 + b"\x52\xae\x91", lambda *_: front)
        return Plan(element(key) + b"\xac\x91", lambda *_: element(signature))

    def _part(self) -> bytes:
        size = self.chance.choice((0, 1, 1, 1, 2, 2, 2, 3, 31, 32, 33))
        right = (b"\0\x80", b"\0\xff", b"\1\0", b"\1\x80", b"\x7f\xff", b"\x7f\1")
        wrong = (b"\0\x7f", b"\0\0\x80", b"\0\1", b"\x80\0", b"\x81\1", b"\xff\xff")
        if size == 1:
            return self.chance.choice((b"\0", b"\0", b"\1", b"\x7f", b"\x80"))
        return (self.chance.choice(right if self.chance.random() < 0.85 else wrong) + bytes([3]) * size)[:size]

    def _bent(self, data: List[int], first: int) -> None:
        """One byte of the shape one more or less, or another; the first number up to the end, and a byte more or less; or a byte more."""
        if self.chance.random() < 0.15:
            data[3] = max(len(data) - self.chance.choice((4, 5, 5, 6)), 0)
            return
        place = min(self.dealt((0, 1, 2, 3, 4, 5, 6)), len(data) - 1)
        if place == 6:
            # A byte more behind the second number, which the first length counts.
            data[1], data[-1:] = data[1] + 1, [3, data[-1]]
            return
        place += first if place > 3 and place + first < len(data) else 0
        data[place] = (data[place] + self.chance.choice((1, -1, 1, -1, 64, 128))) % 256

    def signed(self) -> Plan:
        """A signature over the transaction, or over one that differs in a part: it counts if that part isn't signed."""
        key = self.chance.randrange(len(self.keys))
        code, signed = self._code(element(self.keys[key]))

        def own(tx: Transaction, at: int) -> bytes:
            return element(self.signature(tx, at, signed, key, 0.4))

        return Plan(code, own, sequence=self.chance.choice((None, FINAL, FINAL - 1)))

    def _code(self, key: bytes) -> Tuple[bytes, bytes]:
        """A script that tests a signature, and the part of it that is signed."""
        fill = self.chance.choice((0, 0, 0, 0, 252, 253, 254, 255, 256)) - len(key) - 3
        front = element(self.chance.randbytes(fill - (fill > 77))) + b"\x75" if fill > 0 else b""
        end = self.chance.choice((b"\xac", b"\xac", b"\xac", b"\xad\x51", b"\xac\x91", b"\xac\x69\x51"))
        if self.chance.random() < 0.6:
            return front + key + end, front + key + end
        ends = (b"\xab", b"\x51\x63\xab\x68", b"\x00\x63\xab\x68", b"\xab\xab", b"\xab\x61\xab", b"\x61\xab\x61")
        middle = self.chance.choice(ends)
        behind = key + middle + end if self.chance.random() < 0.5 else middle + key + end
        whole = front + behind + (b"\xab" if self.chance.random() < 0.2 else b"")
        # From the last separator that is run on.
        cut = 0 if middle[:1] == b"\x00" else len(front) + behind.index(middle) + middle.rindex(b"\xab") + 1
        return whole, whole[cut:] if self.chance.random() < 0.9 else whole

    def signature(self, tx: Transaction, at: int, code: bytes, key: int, share: float) -> bytes:
        """With its hash type; a share of them of a transaction that differs, and some of another type, input or script."""
        kind = self.chance.choice(KINDS) if self.chance.random() < 0.75 else self.dealt(range(256))
        draw = self.chance.random()
        signed, place, said = tx, at, kind
        if draw < share:
            signed = self.varied(tx, at)
        elif draw > 0.96:
            said = self.chance.choice((kind ^ 0x80, kind ^ 1, kind ^ 2, kind ^ 0x20, kind ^ 0x40))
        elif draw > 0.93 and len(tx.inputs) > 1:
            place = self.chance.choice([n for n in range(len(tx.inputs)) if n != at])
        elif draw > 0.91:
            code += b"\x61"
        digest = signature_digest(signed, place, code, kind)
        return self.secp.sign(SECRETS[key], digest) + bytes([said])

    def varied(self, tx: Transaction, at: int) -> Transaction:
        """The transaction with one part changed."""
        inputs, outputs = list(tx.inputs), list(tx.outputs)
        n, k = self.chance.randrange(len(inputs)), self.chance.randrange(len(outputs))
        kind = self.chance.randrange(9)
        if kind == 0:
            return tx._replace(version=tx.version + 1)
        if kind == 1:
            return tx._replace(lock_time=tx.lock_time ^ 1)
        if kind in (2, 3):
            inputs[n] = inputs[n]._replace(sequence=inputs[n].sequence ^ 1)
        elif kind == 4:
            inputs[n] = inputs[n]._replace(index=inputs[n].index + 1)
        elif kind == 5 and len(inputs) > 1 and n != at:
            del inputs[n]
            # The input's own number stays.
            inputs[n:n] = [] if n > at else [Input(b"\7" * 32, 0, b"", FINAL)]
        elif kind in (6, 7):
            outputs[k] = outputs[k]._replace(value=outputs[k].value + 1)
        else:
            outputs[k] = outputs[k]._replace(script=outputs[k].script + b"\x61")
        return tx._replace(inputs=inputs, outputs=outputs)

    def taken_out(self) -> Plan:
        """A signature that is tested in the input's own script, which therefore has it: there it isn't signed."""
        key = self.chance.randrange(len(self.keys))
        # Without BIP 66 zeros may follow: the shortest push grows at 76 bytes, and at 256.
        size = self.chance.choice((0, 0, 75, 76, 77, 255, 256, 257, 520)) if self.height < 1251 else 0
        dropped: List[Part] = [Place.SHORTEST, b"\x75"]
        fronts: Sequence[List[Part]] = ([], [], dropped, dropped, [Place.SEPARATOR], [*dropped, Place.SEPARATOR], [Place.WIDE, b"\x75"])
        test: List[Part] = [Place.SHORTEST, element(self.keys[key]) + b"\xac"]
        if self.chance.random() < 0.4:
            test = [b"\x00", Place.SHORTEST, b"\x51" + element(self.keys[key]) + b"\x51\xae"]
        behind: List[Part] = dropped if self.chance.random() < 0.2 else [self.chance.choice((b"", b"", b"\x69\x51", b"\x91"))]
        parts = self.chance.choice(fronts) + test + behind

        def own(tx: Transaction, at: int) -> bytes:
            last = max((n + 1 for n, part in enumerate(parts) if part is Place.SEPARATOR), default=0)
            code = b"".join(part for part in parts[last:] if isinstance(part, bytes))
            kind = self.chance.choice(KINDS)
            signature = self.secp.sign(SECRETS[key], signature_digest(tx, at, code, kind))
            signature += bytes(max(size - len(signature) - 1, 0)) + bytes([kind])
            spelled = {
                Place.SHORTEST: element(signature), Place.WIDE: b"\x4d" + len(signature).to_bytes(2, "little") + signature,
                Place.SEPARATOR: b"\xab",
            }  # fmt: skip
            return b"".join(part if isinstance(part, bytes) else spelled[part] for part in parts)

        return Plan(b"\x61" if self.chance.random() < 0.8 else b"\x76", own)

    def many(self) -> Plan:
        """CHECKMULTISIG: keys and signatures in order and out of it, counts that are one more or less."""
        keys = self.chance.choice((1, 2, 2, 3, 3, 4, 5, 20))
        order = [self.chance.randrange(len(self.keys)) for _ in range(keys)] if keys > 5 else self.chance.sample(range(5), keys)
        wanted = self.chance.choice((0, 1, 1, 2, 2, keys, keys)) if keys < 6 else self.chance.choice((1, 2))
        wanted = min(wanted, keys)
        said = (wanted + self.chance.choice((0,) * 10 + (1, -1)), keys + self.chance.choice((0,) * 16 + (1, -1)))
        if self.chance.random() < 0.05:
            said = self.chance.choice(((said[0], -1), (-1, said[1]), (-1, -1)))
        end = self.chance.choice((b"\xae", b"\xae", b"\xae\x91", b"\xaf\x51", b"\xaf\x74"))
        spelled = [element(self.keys[k] if self.chance.random() < 0.97 else self.keys[k][:-1]) for k in order]
        code = told(said[0]) + b"".join(spelled) + told(said[1]) + end

        def own(tx: Transaction, at: int) -> bytes:
            places = sorted(self.chance.sample(range(keys), wanted))
            if self.chance.random() < 0.1:
                self.chance.shuffle(places)
            signatures = [self.signature(tx, at, code, order[place], 0.1) for place in places]
            if signatures and self.chance.random() < 0.1:
                signatures[self.chance.randrange(wanted)] = self.chance.choice((b"", b"\1", signatures[0]))
            dummy = self.chance.choice((b"\x00",) * 8 + (b"\x52", b"", b"\x52\x00"))
            return dummy + b"".join(map(element, signatures))

        return Plan(code, own)

    # ---- locks

    def lock_times(self) -> Plan:
        """CHECKLOCKTIMEVERIFY: values round the transaction's lock time and round the first time."""
        first = 500000000
        lock = self.chance.choice((0, 1, 100, self.height - 1, self.height - 1, first, first + 1, self.time - 100000, self.time - 100000))
        values = (*(lock,) * 6, lock + 1, lock + 1, lock - 1, lock - 1, 0, -1, first - 1, first, first + 1, 2**31, 2**32 - 1, 2**39 - 1)
        sequence = self.chance.choice((0, 1 << 31, FINAL - 1, FINAL - 1, FINAL - 1, FINAL))
        return Plan(self._lock(self.chance.choice(values), b"\xb1"), self._below(), sequence=sequence, lock_time=lock)

    def sequences(self) -> Plan:
        """CHECKSEQUENCEVERIFY: values that differ from the input's sequence in a bit."""
        # A coin of the block below is one block old, and of the same median time.
        low, kind = self.chance.choice(((0, 0), (1, 0), (1, 0), (0, 1 << 22)))
        other = self.chance.choice((0, 0, 1 << 16, 1 << 21, 1 << 23, 1 << 30))
        sequence = low | kind | other
        if self.chance.random() < 0.1:
            sequence = self.chance.choice((FINAL, FINAL - 1, 1 << 31, sequence | 1 << 31))
        value = self.chance.choice((sequence, sequence, sequence + 1, sequence - 1, low | kind, 0, -1, 1))
        if self.chance.random() < 0.6:
            value ^= 1 << self.chance.choice((16, 17, 20, 21, 22, 22, 23, 24, 30, 31, 31, 32))
        if self.chance.random() < 0.15:
            value |= 1 << 31 | self.chance.choice((0, 5, 1 << 22))
        version = self.chance.choice((0, 1, 2, 2, 2, 2, 3, -1, -(2**31), 2**31 - 1))
        return Plan(self._lock(value, b"\xb2"), self._below(), version=version, sequence=sequence)

    def _lock(self, value: int, code: bytes) -> bytes:
        """A lock that leaves its value, which is then tested, or dropped."""
        data = interpreter.spelled(value)
        if self.chance.random() < 0.15:
            data = value.to_bytes(self.chance.choice((5, 5, 6)), "little") if 0 <= value < 2**39 else data
        end = element(data) + b"\x87" if self.chance.random() < 0.5 else b"\x75\x51"
        return (element(data) if self.chance.random() < 0.97 else b"") + code + end

    def _below(self) -> Writer:
        below = self.chance.choice((b"", b"", b"\x51"))
        return lambda *_: below

    # ---- inner scripts, and the input's own

    def script_hashes(self) -> Plan:
        """Outputs that look like a script's hash, and inputs that aren't pushes alone."""
        inner = self.chance.choice((b"\x51", b"\x00", b"", b"\x61", b"\x75", b"\x87", b"\x91", b"\x74", b"\x74\x51\x87", b"\x6a", b"\x01"))
        whole = script_hash(inner)
        likes = (whole + b"\x61", b"\x61" + whole, whole[:-1] + b"\x88", whole[:-1] + b"\x88\x51", b"\xa9\x4c" + whole[1:], *(whole,) * 4)
        spent = self.chance.choice(likes)
        if self.chance.random() < 0.1:
            # As long, and with the same end.
            return Plan(element(inner.rjust(21, b"\x61")) + b"\x87", lambda *_: element(inner.rjust(21, b"\x61")))
        before = self.chance.choice((b"", b"\x51", b"\x51\x51", b"\x00", b"\x60", b"\x4f", b"\x51\x61", b"\x61", b"\x51\x76", b"\x51\x6b"))
        after = self.chance.choice((b"",) * 6 + (b"\x61",))
        return Plan(spent, lambda *_: before + element(inner) + after)

    def own_scripts(self) -> Plan:
        """What the input's own script leaves counts, and no more: neither its open conditions nor what it put aside."""
        own = self.chance.choice((
            b"", b"\x51", b"\x00", b"\x51\x6b", b"\x51\x63", b"\x51\x63\x68", b"\x51\x63\x51\x67", b"\x6a", b"\x51\x69",
            b"\x00\x69", b"\x51\x51", b"\x52\x52\x93", b"\x51\xab", b"\x51\x00\x63\x6a\x68", b"\x51\x00\x63\x65\x68", b"\x51\xff",
        ))  # fmt: skip
        spent = self.chance.choice((
            b"", b"\x61", b"\x51", b"\x68", b"\x51\x68", b"\x6c", b"\x6c\x51", b"\x91", b"\x54\x87", b"\x74\x52\x87", b"\x74",
        ))  # fmt: skip
        return Plan(spent, lambda *_: own)

