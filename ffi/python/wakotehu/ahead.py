"""What the scripts of inputs will ask for, one signature after the other: guessed, so that libsecp256k1 may be asked about
many at once.

A chainstate by need names the first signature of each script about which nothing is known. A script that asks for many would
cost a submission for each. So it is run here, under the verdicts that are known and the guess that others are like them.
Nothing here decides: what is found out is learned as a verdict of libsecp256k1, and the chainstate asks for whatever was
guessed wrong.
"""

import hashlib
import struct
from bisect import bisect_right
from typing import Any, Callable, Dict, Iterable, List, NamedTuple, Optional, Sequence, Set, Tuple

from .consensus import Triple, hash160, ripemd160, signature_digest, strict_signature
from .encoding import Spelled, Transaction, operations, push
from .signatures import KnownSignatures

#: So many bytes of a block are looked at for signatures at most; some are looked at more than once.
_MOST_LOOKED_AT = 1 << 26
#: So many signatures are looked for in the scripts that a block spends; others wait for the next round.
_MOST_LOOKED_FOR = 64
#: Bitcoin Core's limits of a script.
_MOST_BYTES, _MOST_ELEMENT, _MOST_ELEMENTS, _MOST_OPCODES, _MOST_KEYS = 10000, 520, 1000, 201, 20
_DISABLED = frozenset({*range(0x7E, 0x82), *range(0x83, 0x87), 0x8D, 0x8E, *range(0x95, 0x9A)})
_NOTHING = frozenset({0x61, 0xB0, *range(0xB3, 0xBA)})
_TRUE, _FALSE = b"\1", b""


class Flags(NamedTuple):
    """Which rules of scripts are in force."""

    dersig: bool
    cltv: bool
    csv: bool

    @classmethod
    def at(cls, height: int, heights: Sequence[int]) -> "Flags":
        """Those of a block of a height, by the heights of soft forks."""
        _, cltv, dersig, csv = heights
        return cls(height >= dersig, height >= cltv, height >= csv)


class _Stop(Exception):
    """The script isn't accepted."""


def _number(data: bytes, most: int = 4) -> int:
    if len(data) > most:
        raise _Stop
    value = int.from_bytes(data, "little")
    sign = 1 << 8 * len(data) >> 1
    return -(value - sign) if value & sign else value


def _spelled(value: int) -> bytes:
    size = (abs(value).bit_length() + 8) // 8 if value else 0
    return (abs(value) | (1 << 8 * size - 1 if value < 0 else 0)).to_bytes(size, "little")


def _is_true(data: bytes) -> bool:
    return bool(data.strip(b"\0")) and not (data[-1] == 0x80 and not data[:-1].strip(b"\0"))


def _flag(value: bool) -> bytes:
    return _TRUE if value else _FALSE


#: What an opcode puts in the place of so many numbers.
_ARITHMETIC: Dict[int, Tuple[int, Callable[..., Any]]] = {
    0x8B: (1, lambda a: a + 1), 0x8C: (1, lambda a: a - 1), 0x8F: (1, lambda a: -a), 0x90: (1, abs),
    0x91: (1, lambda a: a == 0), 0x92: (1, lambda a: a != 0), 0x93: (2, lambda a, b: a + b), 0x94: (2, lambda a, b: a - b),
    0x9A: (2, lambda a, b: a != 0 and b != 0), 0x9B: (2, lambda a, b: a != 0 or b != 0), 0x9C: (2, lambda a, b: a == b),
    0x9D: (2, lambda a, b: a == b), 0x9E: (2, lambda a, b: a != b), 0x9F: (2, lambda a, b: a < b),
    0xA0: (2, lambda a, b: a > b), 0xA1: (2, lambda a, b: a <= b), 0xA2: (2, lambda a, b: a >= b), 0xA3: (2, min),
    0xA4: (2, max), 0xA5: (3, lambda a, b, c: b <= a < c),
}  # fmt: skip
#: What an opcode puts in the place of so many elements.
_MOVES: Dict[int, Tuple[int, Callable[..., Sequence[bytes]]]] = {
    0x6D: (2, lambda a, b: ()), 0x6E: (2, lambda a, b: (a, b, a, b)), 0x6F: (3, lambda a, b, c: (a, b, c, a, b, c)),
    0x70: (4, lambda a, b, c, d: (a, b, c, d, a, b)), 0x71: (6, lambda a, b, c, d, e, f: (c, d, e, f, a, b)),
    0x72: (4, lambda a, b, c, d: (c, d, a, b)), 0x73: (1, lambda a: (a, a) if _is_true(a) else (a,)),
    0x75: (1, lambda a: ()), 0x76: (1, lambda a: (a, a)), 0x77: (2, lambda a, b: (b,)), 0x78: (2, lambda a, b: (a, b, a)),
    0x7B: (3, lambda a, b, c: (b, c, a)), 0x7C: (2, lambda a, b: (b, a)), 0x7D: (2, lambda a, b: (b, a, b)),
    0x82: (1, lambda a: (a, _spelled(len(a)))), 0x87: (2, lambda a, b: (_flag(a == b),)),
    0x88: (2, lambda a, b: (_flag(a == b),)),
    0xA6: (1, lambda a: (ripemd160(a),)), 0xA7: (1, lambda a: (hashlib.sha1(a).digest(),)),
    0xA8: (1, lambda a: (hashlib.sha256(a).digest(),)), 0xA9: (1, lambda a: (hash160(a),)),
    0xAA: (1, lambda a: (hashlib.sha256(hashlib.sha256(a).digest()).digest(),)),
}  # fmt: skip


class _Script:
    """A script's operations, and the code that a signature signs from each on: without code separators."""

    def __init__(self, script: bytes) -> None:
        self.script = script
        self.operations: List[Tuple[int, Optional[bytes], int]] = []
        kept, left, end = [], 0, 0
        for begin, number, data, end in operations(script):
            if number != 0xAB:
                kept.append(script[begin:end])
                left += end - begin
            self.operations.append((number, data, left))
        self.is_whole = end == len(script)
        self.signed = b"".join([*kept, script[end:]])


class _Signing:
    """A transaction, as its signatures sign it."""

    def __init__(self, raw: bytes, tx: Transaction) -> None:
        self.raw, self.tx = raw, tx
        count = _count(len(tx.inputs))
        inputs = b"".join(it.id + struct.pack("<IBI", it.index, 0, it.sequence) for it in tx.inputs)
        ends = sum(41 + len(_count(len(it.script))) - 1 + len(it.script) for it in tx.inputs)
        self._begin = 4 + len(count)
        self._bare = raw[:4] + count + inputs + raw[self._begin + ends :]

    def digest(self, input: int, code: bytes, kind: int) -> bytes:
        """What a signature of an input signs. Of most types the parts that all inputs share are put together once."""
        if kind & 0x80 or kind & 31 in (2, 3):
            return signature_digest(self.raw, input, code, kind)
        at = self._begin + 41 * input + 36
        parts = (self._bare[:at], _count(len(code)), code, self._bare[at + 1 :], struct.pack("<I", kind))
        return hashlib.sha256(hashlib.sha256(b"".join(parts)).digest()).digest()


def _count(number: int) -> bytes:
    if number < 253:
        return bytes([number])
    return struct.pack("<BH", 253, number) if number < 1 << 16 else struct.pack("<BI", 254, number)


class Asking:
    """An input that spends a script, and what its scripts ask for."""

    def __init__(self, signing: _Signing, input: int, spent: bytes, flags: Flags) -> None:
        self.signing, self.input, self.spent, self.flags = signing, input, spent, flags
        #: What it asked for in the last run, and what was guessed of those without a verdict.
        self.asked: List[Triple] = []
        self.guessed: Dict[Triple, bool] = {}
        #: How many are guessed at most, and whether there were more: behind a wrong guess all others are for nothing.
        self._most = _MOST_BYTES
        self._is_cut = False
        self._verdicts: Dict[Triple, bool] = {}
        self._guess = True
        self._digests: Dict[Tuple[bytes, int], bytes] = {}

    def run(self, verdicts: Dict[Triple, bool]) -> List[Triple]:
        """Runs the scripts under these verdicts, and answers those that they ask for without one."""
        self.asked, self.guessed, self._is_cut = [], {}, False
        self._verdicts, self._guess = verdicts, True
        own = self.signing.tx.inputs[self.input].script
        try:
            stack: List[bytes] = []
            self._evaluate(own, stack)
            kept = list(stack)
            self._evaluate(self.spent, stack)
            is_p2sh = len(self.spent) == 23 and self.spent[:2] == b"\xa9\x14" and self.spent[22] == 0x87
            if is_p2sh and _is_true(stack[-1]) and all(number <= 0x60 for _, number, _, _ in operations(own)):
                self._evaluate(kept.pop(), kept)
        except (_Stop, IndexError):
            pass
        return list(self.guessed)

    def is_done(self, verdicts: Dict[Triple, bool]) -> bool:
        """Whether the last run is the one under these verdicts. Else the next one guesses as far as this one was right."""
        right = 0
        for triple, guess in self.guessed.items():
            if verdicts[triple] != guess:
                self._most = right + 1
                return False
            right += 1
        self._most *= 2
        return not self._is_cut

    # ---- signatures

    def _is_valid(self, key: bytes, signature: bytes, code: bytes, must: bool) -> bool:
        """The verdict on a signature; where it isn't known, it is as the last one that is, or as it has to be."""
        if self.flags.dersig and not strict_signature(signature):
            raise _Stop
        if not signature:
            return False
        kind = signature[-1]
        digest = self._digests.get((code, kind))
        if digest is None:
            digest = self._digests[code, kind] = self.signing.digest(self.input, code, kind)
        triple = Triple(key, signature[:-1], digest)
        self.asked.append(triple)
        known = self._verdicts.get(triple)
        if known is not None:
            self._guess = known
            return known
        if triple not in self.guessed and len(self.guessed) >= self._most:
            self._is_cut = True
            self.asked.pop()
            raise _Stop
        return self.guessed.setdefault(triple, must or self._guess)

    def _check(self, stack: List[bytes], code: bytes, must: bool) -> bool:
        key, signature = stack.pop(), stack.pop()
        return self._is_valid(key, signature, _without(code, push(signature)), must)

    def _check_several(self, stack: List[bytes], code: bytes, must: bool, room: int) -> Tuple[bool, int]:
        """Whether signatures are by keys in their order; and how many keys there are, which count as opcodes."""
        keys = self._several(stack, _MOST_KEYS)
        if len(keys) > room:
            raise _Stop
        signatures = self._several(stack, len(keys))
        stack.pop()
        for signature in signatures:
            code = _without(code, push(signature))
        count = len(keys)
        while signatures and len(signatures) <= len(keys):
            # Where as many keys as signatures are left each has to be the one.
            if self._is_valid(keys[0], signatures[0], code, must and len(signatures) == len(keys)):
                signatures.pop(0)
            keys.pop(0)
        return not signatures, count

    def _several(self, stack: List[bytes], most: int) -> List[bytes]:
        """A count and so many elements below it, the top one first."""
        count = _number(stack.pop())
        if not 0 <= count <= most or count > len(stack):
            raise _Stop
        return [stack.pop() for _ in range(count)]

    # ---- opcodes

    def _evaluate(self, script: bytes, stack: List[bytes]) -> None:
        """Runs a script on a stack."""
        if len(script) > _MOST_BYTES:
            raise _Stop
        read = _Script(script)
        other: List[bytes] = []
        taken: List[bool] = []
        begins = count = 0
        for number, data, end in read.operations:
            count += number > 0x60
            if count > _MOST_OPCODES or number in _DISABLED or number in (0x65, 0x66) or len(data or b"") > _MOST_ELEMENT:
                raise _Stop
            if 0x63 <= number <= 0x68:
                self._branch(number, stack, taken)
            elif all(taken):
                if number == 0xAB:
                    begins = end
                elif 0xAC <= number <= 0xAF:
                    count += self._signatures(number, stack, read.signed[begins:], _MOST_OPCODES - count)
                else:
                    self._step(number, data, stack, other)
            if len(stack) + len(other) > _MOST_ELEMENTS:
                raise _Stop
        if taken or not read.is_whole:
            raise _Stop

    def _signatures(self, number: int, stack: List[bytes], code: bytes, room: int) -> int:
        """CHECKSIG, CHECKMULTISIG, and the same with VERIFY: how many opcodes they count as beside themselves."""
        must, count = number in (0xAD, 0xAF), 0
        if number < 0xAE:
            found = self._check(stack, code, must)
        else:
            found, count = self._check_several(stack, code, must, room)
        if must and not found:
            raise _Stop
        if not must:
            stack.append(_flag(found))
        return count

    def _branch(self, number: int, stack: List[bytes], taken: List[bool]) -> None:
        if number in (0x63, 0x64):
            taken.append(all(taken) and _is_true(stack.pop()) == (number == 0x63))
        elif number == 0x67:
            taken[-1] = not taken[-1]
        elif number == 0x68:
            taken.pop()

    def _step(self, number: int, data: Optional[bytes], stack: List[bytes], other: List[bytes]) -> None:
        """An opcode that is neither a condition nor about signatures."""
        if data is not None:
            stack.append(data)
        elif number == 0x4F or 0x51 <= number <= 0x60:
            stack.append(_spelled(number - 0x50))
        elif number in _MOVES:
            wanted, moved = _MOVES[number]
            stack.extend(moved(*_taken(stack, wanted)))
        elif number in _ARITHMETIC:
            wanted, made = _ARITHMETIC[number]
            stack.append(_spelled(int(made(*map(_number, _taken(stack, wanted))))))
        elif number == 0x6B:
            other.append(stack.pop())
        elif number == 0x6C:
            stack.append(other.pop())
        elif number == 0x74:
            stack.append(_spelled(len(stack)))
        elif number in (0x79, 0x7A):
            self._pick(number, stack)
        elif number in (0xB1, 0xB2):
            self._lock(number, stack)
        elif number != 0x69 and number not in _NOTHING:
            raise _Stop
        if number in (0x69, 0x88, 0x9D) and not _is_true(stack.pop()):
            raise _Stop

    def _pick(self, number: int, stack: List[bytes]) -> None:
        place = _number(stack.pop())
        if not 0 <= place < len(stack):
            raise _Stop
        stack.append(stack[-1 - place] if number == 0x79 else stack.pop(-1 - place))

    def _lock(self, number: int, stack: List[bytes]) -> None:
        """CHECKLOCKTIMEVERIFY and CHECKSEQUENCEVERIFY."""
        if not (self.flags.cltv if number == 0xB1 else self.flags.csv):
            return
        tx, sequence = self.signing.tx, self.signing.tx.inputs[self.input].sequence
        wanted = _number(stack[-1], 5)
        if wanted < 0:
            raise _Stop
        if number == 0xB1:
            is_same = (wanted < 500_000_000) == (tx.lock_time < 500_000_000)
            if not is_same or wanted > tx.lock_time or sequence == 0xFFFFFFFF:
                raise _Stop
        elif not wanted & 1 << 31:
            mask = 0x0040FFFF
            is_same = (wanted & 1 << 22) == (sequence & 1 << 22)
            if tx.version % (1 << 32) < 2 or sequence & 1 << 31 or not is_same or wanted & mask > sequence & mask:
                raise _Stop


def _taken(stack: List[bytes], count: int) -> List[bytes]:
    if len(stack) < count:
        raise _Stop
    found = stack[len(stack) - count :]
    del stack[len(stack) - count :]
    return found


def _without(code: bytes, pushed: bytes) -> bytes:
    """A code without each push of a signature (Bitcoin Core's FindAndDelete)."""
    if pushed not in code:
        return code
    kept, at, last = [], 0, 0
    for begin, _, _, end in operations(code):
        if begin < at:
            continue
        at = begin
        while code.startswith(pushed, at):
            kept.append(code[last:at])
            at = last = at + len(pushed)
    return b"".join([*kept, code[last:]])


def found_out(
    asking: Sequence[Asking], verdicts: Dict[Triple, bool], test: Callable[[List[Triple]], List[bool]]
) -> List[Triple]:
    """Runs scripts until each is run under verdicts alone: the triples that they ask for, each once. `verdicts` gets what
    `test` said, of some that aren't asked for too."""
    left = list(asking)
    while left:
        unknown = list(dict.fromkeys(triple for one in left for triple in one.run(verdicts)))
        if unknown:
            verdicts.update(zip(unknown, test(unknown)))
        left = [one for one in left if not one.is_done(verdicts)]
    return list(dict.fromkeys(triple for one in asking for triple in one.asked))


# ---- which inputs ask


class Place(NamedTuple):
    """A block whose scripts may be run, and the rules that are in force there."""

    spelled: Spelled
    flags: Flags


class _Inputs:
    """The inputs of a block in which signatures are found."""

    def __init__(self, place: Place, transaction: Callable[[bytes], Optional[Transaction]]) -> None:
        self.spelled, self.flags = place
        self._transaction = transaction
        self._begins: List[int] = []
        self._own: Dict[bytes, int] = {}
        self._read: Dict[int, Tuple[_Signing, List[int]]] = {}
        self._spent: Dict[bytes, Optional[Transaction]] = {}
        self.asking: Dict[Tuple[int, int], Asking] = {}

    def read(self, number: int) -> Tuple[_Signing, List[int]]:
        """A transaction, and where in the block each of its inputs begins; behind them, where the last one ends."""
        if number not in self._read:
            begin, end = self.spelled.places[number]
            tx = self.spelled.transaction(number)
            at = begin + 4 + len(_count(len(tx.inputs)))
            begins = [at]
            for own in tx.inputs:
                at += 40 + len(_count(len(own.script))) + len(own.script)
                begins.append(at)
            self._read[number] = _Signing(self.spelled.data[begin:end], tx), begins
        return self._read[number]

    def add(self, at: int) -> int:
        """Adds the input at a place of the block, where it may ask for more than one signature; and where it ends."""
        if not self._begins:
            self._begins = [begin for begin, _ in self.spelled.places]
            self._own = {id: number for number, id in enumerate(self.spelled.ids)}
        number = bisect_right(self._begins, at) - 1
        if number < 0:
            return at + 1
        signing, begins = self.read(number)
        input = bisect_right(begins, at) - 1
        if not 0 <= input < len(signing.tx.inputs):
            return at + 1
        spent = self.spent(signing.tx.inputs[input].id, signing.tx.inputs[input].index)
        if spent is not None and not _asks_once(spent):
            self.asking[number, input] = Asking(signing, input, spent, self.flags)
        return begins[input + 1]

    def add_spenders(self, signatures: Sequence[bytes]) -> None:
        """Adds the inputs that spend scripts in which one of these is."""
        for number in range(len(self.spelled.ids)):
            for input, own in enumerate(self.spelled.transaction(number).inputs):
                spent = self.spent(own.id, own.index)
                if spent is not None and any(signature in spent for signature in signatures) and not _asks_once(spent):
                    self.asking[number, input] = Asking(self.read(number)[0], input, spent, self.flags)

    def spent(self, id: bytes, index: int) -> Optional[bytes]:
        """The script of an output of this block, or of one that is kept."""
        if id not in self._spent:
            number = self._own.get(id)
            self._spent[id] = self._transaction(id) if number is None else self.spelled.transaction(number)
        tx = self._spent[id]
        return tx.outputs[index].script if tx is not None and index < len(tx.outputs) else None


def _asks_once(spent: bytes) -> bool:
    """Whether a script asks for one signature at most, as most do."""
    if len(spent) == 23 and spent[:2] == b"\xa9\x14":
        return False
    # The payment to a key's hash, which has any bytes in it.
    if len(spent) == 25 and spent[:3] == b"\x76\xa9\x14" and spent[23:] == b"\x88\xac":
        return True
    return sum({0xAC: 1, 0xAD: 1, 0xAE: 2, 0xAF: 2}.get(number, 0) for _, number, _, _ in operations(spent)) < 2


def asking(
    wanted: Sequence[Triple], places: Iterable[Place], transaction: Callable[[bytes], Optional[Transaction]],
    again: bool = False,
) -> List[Asking]:  # fmt: skip
    """The inputs that have the wanted signatures, or spend scripts that have them, and may ask for more. They are looked
    for in the first of some blocks that has one of them, in the order in which they are wanted. One that looks as if it
    paid to a key's hash, which asks once, is passed over unless the same block wants something again."""
    looked_at = []
    for place in places:
        looked_at.append(_Inputs(place, transaction))
        missing = _add_wanted(looked_at[-1], wanted, again)
        if missing is not None:
            if missing:
                looked_at[-1].add_spenders(missing[:_MOST_LOOKED_FOR])
            return list(looked_at[-1].asking.values())
    for inputs in looked_at:
        inputs.add_spenders([triple.signature for triple in wanted[:_MOST_LOOKED_FOR]])
        if inputs.asking:
            return list(inputs.asking.values())
    return []


def _add_wanted(inputs: _Inputs, wanted: Sequence[Triple], again: bool) -> Optional[List[bytes]]:
    """Adds the inputs that have wanted signatures: the signatures that aren't there, or None where none is."""
    data, at, left = inputs.spelled.data, 0, _MOST_LOOKED_AT
    ends: Dict[bytes, int] = {}
    missing: List[bytes] = []
    for key, signature, _ in wanted:
        # A push of it with its type has its length before it.
        needle = bytes([len(signature) + 1]) + signature if len(signature) < 255 else signature
        begin = ends.get(needle, at)
        found = data.find(needle, begin)
        left -= (found if found >= 0 else len(data)) - begin
        if found < 0 and needle not in ends:
            # It may be before the one that was wanted before it.
            found = data.find(needle)
            left -= len(data)
        if left < 0:
            break
        if found < 0:
            missing.append(signature)
            continue
        at = found + len(needle) + 1
        if again or not data.startswith(bytes([len(key) & 255]) + key, at):
            at = ends[needle] = inputs.add(found)
    return missing if len(missing) < len(wanted) else None


# ---- the rounds of a command


class Rounds:
    """What the scripts of one command of a node want, round by round, and what they will want next.

    places: the blocks whose scripts the command may run, the lowest first.
    transaction: a transaction of a kept block, or None.
    learn: tells the node verdicts, besides those that it asked for.
    """

    def __init__(
        self, known: KnownSignatures, places: Callable[[], Iterable[Place]],
        transaction: Callable[[bytes], Optional[Transaction]], learn: Callable[[Sequence[bytes], Sequence[bool]], None],
    ) -> None:  # fmt: skip
        self._known, self._places, self._transaction, self._learn = known, places, transaction, learn
        self._verdicts: Dict[Triple, bool] = {}
        self._told: Set[Triple] = set()

    def verdicts(self, lines: Sequence[bytes]) -> List[bool]:
        """Whether the wanted signatures are valid. The node is told before what the scripts will want next."""
        wanted, found, is_again = Triple.of_lines(lines), self._known.verdicts(lines), bool(self._told)
        self._verdicts.update(zip(wanted, found))
        self._told.update(wanted)
        asked = found_out(asking(wanted, self._places(), self._transaction, is_again), self._verdicts, self._test)
        more = [triple for triple in asked if triple not in self._told]
        if more:
            self._learn([triple.line[:-1] for triple in more], [self._verdicts[triple] for triple in more])
            self._told.update(more)
        return found

    def _test(self, triples: List[Triple]) -> List[bool]:
        return self._known.verdicts([triple.line[:-1] for triple in triples])
