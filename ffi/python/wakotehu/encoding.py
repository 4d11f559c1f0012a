"""Blocks and transactions as bytes, for tests: they are read here without judging them, and made.

The chainstate itself reads blocks by proved code; nothing here takes part in what it answers.
"""

import hashlib
import struct
from functools import lru_cache
from itertools import accumulate
from typing import Iterable, List, NamedTuple, Optional, Sequence, Tuple

from . import arguments
from .arguments import flag, id_of, instance, number, octets, sequence, sequence_of, several, signed

OP_CODESEPARATOR = 0xAB


class EncodingError(ValueError):
    """The bytes spell no such thing."""


def sha256(data: bytes) -> bytes:
    """SHA-256."""
    return hashlib.sha256(octets(data, "data")).digest()


def sha1(data: bytes) -> bytes:
    """SHA-1."""
    return hashlib.sha1(octets(data, "data")).digest()


def double_sha(data: bytes) -> bytes:
    """SHA-256 of SHA-256."""
    return _double(octets(data, "data"))


def _double(data: bytes) -> bytes:
    return hashlib.sha256(hashlib.sha256(data).digest()).digest()


def hash160(data: bytes) -> bytes:
    """RIPEMD-160 of SHA-256, by which public keys and scripts are named."""
    return hashlib.new("ripemd160", hashlib.sha256(octets(data, "data")).digest()).digest()


class Input(NamedTuple):
    id: bytes
    index: int  # type: ignore[assignment]  # tuples have a method of this name, which no one asks of an input
    script: bytes
    sequence: int


class Output(NamedTuple):
    value: int
    script: bytes


class Transaction(NamedTuple):
    version: int
    inputs: List[Input]
    outputs: List[Output]
    lock_time: int

    @property
    def id(self) -> bytes:
        return double_sha(write_transaction(self))

    @property
    def is_coinbase(self) -> bool:
        return len(self.inputs) == 1 and self.inputs[0].id == bytes(32) and self.inputs[0].index == 0xFFFFFFFF


class Header(NamedTuple):
    version: int
    parent: bytes
    root: bytes
    time: int
    bits: int
    nonce: int

    @property
    def id(self) -> bytes:
        return double_sha(write_header(self))


class Block(NamedTuple):
    header: Header
    transactions: List[Transaction]


#: No id of a block of regtest is above it, as a number.
TARGET = 0x7FFFFF << 232

#: The header of regtest's genesis block.
GENESIS = Header(
    1,
    bytes(32),
    bytes.fromhex("3ba3edfd7a7b12b27ac72c3e67768f617fc81bc3888a51323a9fb8aa4b1e5e4a"),
    1296688602,
    0x207FFFFF,
    2,
)

#: The genesis block's bytes. No chainstate keeps them, as its coinbase makes no coin.
GENESIS_BLOCK = bytes.fromhex(
    "0100000000000000000000000000000000000000000000000000000000000000000000003ba3edfd7a7b12b27ac72c3e67768f617fc81bc3"
    "888a51323a9fb8aa4b1e5e4adae5494dffff7f20020000000101000000010000000000000000000000000000000000000000000000000000"
    "000000000000ffffffff4d04ffff001d0104455468652054696d65732030332f4a616e2f32303039204368616e63656c6c6f72206f6e2062"
    "72696e6b206f66207365636f6e64206261696c6f757420666f722062616e6b73ffffffff0100f2052a01000000434104678afdb0fe554827"
    "1967f1a67130b7105cd6a828e03909a67962e0ea1f61deb649f6bc3f4cef38c4f35504e51ec112de5c384df7ba0b8d578a4c702b6bf11d5f"
    "ac00000000"
)


# ---- reading


_HEADER = struct.Struct("<i32s32sIII")
_OUTPOINT, _NUMBER, _VALUE = struct.Struct("<32sI"), struct.Struct("<I"), struct.Struct("<q")


class _Reader:
    def __init__(self, data: bytes) -> None:
        self.data, self.at = octets(data, "data"), 0

    def take(self, count: int) -> bytes:
        if count > len(self.data) - self.at:
            raise EncodingError("the bytes end early")
        self.at += count
        return self.data[self.at - count : self.at]

    def number(self, width: int, signed: bool = False) -> int:
        return int.from_bytes(self.take(width), "little", signed=signed)

    def count(self) -> int:
        if self.at >= len(self.data):
            raise EncodingError("the bytes end early")
        first = self.data[self.at]
        self.at += 1
        return first if first < 253 else self.number({253: 2, 254: 4, 255: 8}[first])

    def transaction(self) -> Transaction:
        version = self.number(4, signed=True)
        try:
            inputs, outputs = self._inputs(self.count()), self._outputs(self.count())
        except (struct.error, IndexError):
            raise EncodingError("the bytes end early") from None
        return Transaction(version, inputs, outputs, self.number(4))

    # Who sends a transaction decides how many of these there are, so each takes little: no call for a byte or a field.

    def _inputs(self, count: int) -> List[Input]:
        data, at, found = self.data, self.at, []
        for _ in range(count):
            id, index = _OUTPOINT.unpack_from(data, at)
            begin, length = at + 37, data[at + 36]
            if length > 252:
                begin, length = self._long(at + 36)
            at = begin + length + 4
            [sequence] = _NUMBER.unpack_from(data, self._within(at) - 4)
            found.append(tuple.__new__(Input, (id, index, data[begin : at - 4], sequence)))
        self.at = at
        return found

    def _outputs(self, count: int) -> List[Output]:
        data, at, found = self.data, self.at, []
        for _ in range(count):
            [value] = _VALUE.unpack_from(data, at)
            begin, length = at + 9, data[at + 8]
            if length > 252:
                begin, length = self._long(at + 8)
            at = begin + length
            found.append(tuple.__new__(Output, (value, data[begin:at])))
        self.at = self._within(at)
        return found

    def _long(self, at: int) -> Tuple[int, int]:
        """Where a text begins whose count is spelled in several bytes, and its length."""
        self.at = at
        length = self.count()
        self._within(self.at + length)
        return self.at, length

    def _within(self, at: int) -> int:
        if at > len(self.data):
            raise EncodingError("the bytes end early")
        return at

    def skip_transaction(self) -> None:
        """Goes past a transaction where `transaction` reads one, without making it, which is some times as fast."""
        data, end, at = self.data, len(self.data), self.at + 4
        for before, behind in (36, 4), (8, 0):
            self.at = at
            count, at = self.count(), self.at
            for _ in range(count):
                at += before
                if at < end and data[at] < 253:
                    at += 1 + data[at] + behind
                else:
                    self.at = at
                    length = self.count()
                    at = self.at + length + behind
        self.at = at
        self.take(4)

    def header(self) -> Header:
        return Header(*_HEADER.unpack(self.take(80)))

    def end(self) -> None:
        if self.at != len(self.data):
            raise EncodingError("bytes are left over")


def read_transaction(data: bytes) -> Transaction:
    """The transaction that all of these bytes spell."""
    reader = _Reader(data)
    found = reader.transaction()
    reader.end()
    return found


def read_header(data: bytes) -> Header:
    """The header that 80 bytes spell."""
    reader = _Reader(data)
    found = reader.header()
    reader.end()
    return found


def read_block(data: bytes) -> Block:
    """The block that all of these bytes spell."""
    reader = _Reader(data)
    header = reader.header()
    found = Block(header, [reader.transaction() for _ in range(reader.count())])
    reader.end()
    return found


class Spelled(NamedTuple):
    """A block's bytes with its header, and of each transaction the id and the place of its bytes."""

    data: bytes
    header: Header
    ids: List[bytes]
    places: List[Tuple[int, int]]

    def transaction(self, place: int) -> Transaction:
        """The transaction of this place, from 0; read anew each time."""
        begin, end = self.places[_place(place, len(self.places), "place")]
        return read_transaction(self.data[begin:end])


def block_at_front(data: bytes) -> Spelled:
    """The block at the front of bytes; what is left over isn't part of it."""
    reader = _Reader(data)
    header, places = reader.header(), []
    for _ in range(reader.count()):
        begin = reader.at
        reader.skip_transaction()
        places.append((begin, reader.at))
    # Counts that aren't spelled shortest are read here and in no chainstate: only there the bytes aren't the id's.
    ids = [_double(reader.data[begin:end]) for begin, end in places]
    return Spelled(reader.data[: reader.at], header, ids, places)


# ---- writing


def _place(place: int, count: int, name: str) -> int:
    found = number(place, name, 64)
    if found >= count:
        raise ValueError(f"{name} must be below {count}")
    return found


def _count(count: int) -> bytes:
    if count < 253:
        return bytes([count])
    for mark, form, most in ((253, "<H", 2**16), (254, "<I", 2**32), (255, "<Q", 2**64)):
        if count < most:
            return bytes([mark]) + struct.pack(form, count)
    raise ValueError(count)


def _text(data: bytes, name: str) -> bytes:
    data = octets(data, name)
    return _count(len(data)) + data


def _spelled_input(own: Input) -> bytes:
    begins = _OUTPOINT.pack(id_of(own.id, "tx.inputs.id"), number(own.index, "tx.inputs.index"))
    sequence = _NUMBER.pack(number(own.sequence, "tx.inputs.sequence"))
    return begins + _text(own.script, "tx.inputs.script") + sequence


def _spelled_output(own: Output) -> bytes:
    return _VALUE.pack(signed(own.value, "tx.outputs.value", 64)) + _text(own.script, "tx.outputs.script")


def write_transaction(tx: Transaction) -> bytes:
    """The bytes of a transaction."""
    instance(tx, Transaction, "tx")
    inputs = list(map(_spelled_input, sequence_of(tx.inputs, Input, "tx.inputs")))
    outputs = list(map(_spelled_output, sequence_of(tx.outputs, Output, "tx.outputs")))
    ends = signed(tx.version, "tx.version"), number(tx.lock_time, "tx.lock_time")
    parts = [struct.pack("<i", ends[0]), _count(len(inputs)), *inputs, _count(len(outputs)), *outputs]
    return b"".join([*parts, _NUMBER.pack(ends[1])])


def write_header(header: Header) -> bytes:
    """The 80 bytes of a header."""
    return _spelled_header(header, "header")


def _spelled_header(header: Header, name: str) -> bytes:
    instance(header, Header, name)
    ids = id_of(header.parent, f"{name}.parent"), id_of(header.root, f"{name}.root")
    numbers = (number(getattr(header, own), f"{name}.{own}") for own in ("time", "bits", "nonce"))
    return _HEADER.pack(signed(header.version, f"{name}.version"), *ids, *numbers)


def write_block(block: Block) -> bytes:
    """The bytes of a block."""
    instance(block, Block, "block")
    transactions = [write_transaction(tx) for tx in sequence_of(block.transactions, Transaction, "block.transactions")]
    return _spelled_header(block.header, "block.header") + _count(len(transactions)) + b"".join(transactions)


# ---- making


class Merkle(NamedTuple):
    """The root of a Merkle tree, and whether another list of ids has it too: a part of this one stands there twice."""

    root: bytes
    twin: bool


def merkle(ids: Sequence[bytes]) -> Merkle:
    """The root of a Merkle tree over ids; of an odd level the last is paired with itself (Bitcoin Core's
    `ComputeMerkleRoot`, whose `mutated` is `twin`)."""
    level, twin = [id_of(id, "ids") for id in sequence(ids, "ids")] or [bytes(32)], False
    while len(level) > 1:
        twin = twin or any(a == b for a, b in zip(level[::2], level[1::2]))
        level += level[-1:] * (len(level) % 2)
        level = [_paired(a + b) for a, b in zip(level[::2], level[1::2])]
    return Merkle(level[0], twin)


@lru_cache(1 << 14)
def _paired(ids: bytes) -> bytes:
    """What stands above two ids. Blocks that begin alike share most of it."""
    return hashlib.sha256(hashlib.sha256(ids).digest()).digest()


def merkle_root(ids: Sequence[bytes]) -> bytes:
    """The root of a Merkle tree over ids."""
    return merkle(ids).root


def push(data: bytes) -> bytes:
    """The shortest push of at most 65,535 bytes."""
    data = octets(data, "data")
    if len(data) > 0xFFFF:
        raise ValueError("data must have at most 65535 bytes")
    if len(data) < 76:
        return bytes([len(data)]) + data
    if len(data) < 256:
        return b"\x4c" + bytes([len(data)]) + data
    return b"\x4d" + struct.pack("<H", len(data)) + data


def push_number(number: int) -> bytes:
    """The push of a number of 64 bits that isn't negative, as a coinbase has its height."""
    value = arguments.number(number, "number", 64)
    if value == 0:
        return b"\x00"
    if value <= 16:
        return bytes([0x50 + value])
    return push(value.to_bytes(value.bit_length() // 8 + 1, "little"))


def subsidy(height: int) -> int:
    """What a coinbase may make beside fees: it halves every 150 blocks (regtest)."""
    halvings = number(height, "height") // 150
    return 5000000000 >> halvings if halvings < 64 else 0


def coinbase(height: int, value: int, script: bytes = b"\x51", extra: bytes = b"\x00") -> Transaction:
    """A coinbase whose one output is spent by `script`. Two of one height need different `extra` bytes."""
    begins = push_number(number(height, "height")) + push(octets(extra, "extra"))
    output = Output(signed(value, "value", 64), octets(script, "script"))
    return Transaction(1, [Input(bytes(32), 0xFFFFFFFF, begins, 0xFFFFFFFF)], [output], 0)


def mine(parent: bytes, when: int, transactions: List[Transaction], version: int = 4) -> bytes:
    """A block that meets the target of regtest, as bytes."""
    spelled = [write_transaction(tx) for tx in sequence_of(transactions, Transaction, "transactions")]
    return mine_spelled(parent, when, spelled, version).data


def mine_spelled(
    parent: bytes, when: int, transactions: Sequence[bytes], version: int = 4, ids: Optional[Sequence[bytes]] = None
) -> Spelled:
    """The same for transactions that are spelled already, and whose ids may be known."""
    spelled = [octets(tx, "transactions") for tx in sequence(transactions, "transactions")]
    ids = [double_sha(tx) for tx in spelled] if ids is None else list(several(ids, "ids", len(spelled)))
    time, root = number(when, "when"), merkle_root(ids)
    header = meeting_target(Header(signed(version, "version"), id_of(parent, "parent"), root, time, 0x207FFFFF, 0))
    front = write_header(header) + _count(len(spelled))
    ends = list(accumulate(map(len, spelled), initial=len(front)))
    return Spelled(b"".join([front, *spelled]), header, ids, list(zip(ends, ends[1:])))


def meeting_target(header: Header) -> Header:
    """The header with the first nonce, from its own on, by which it meets the target of regtest."""
    spelled = write_header(header)
    begins, nonce = spelled[:76], header.nonce
    while int.from_bytes(double_sha(begins + struct.pack("<I", nonce)), "little") > TARGET:
        nonce = (nonce + 1) % (1 << 32)
    return header._replace(nonce=nonce)


# ---- targets


class Target(NamedTuple):
    """What the bits of a header spell: a number of 256 bits, and its faults: it has a sign, or more bits than 256."""

    value: int
    negative: bool
    overflow: bool


def read_bits(bits: int) -> Target:
    """The target that bits spell (Bitcoin Core's `SetCompact`): a size in bytes, and the three highest of them, whose
    first bit is a sign. Of a number that has more bits than 256 the value is the lowest of them."""
    size, word = divmod(number(bits, "bits"), 1 << 24)
    digits = word & 0x7FFFFF
    digits = digits >> 8 * (3 - size) if size < 3 else digits
    value = digits << 8 * max(size - 3, 0)
    return Target(value & (1 << 256) - 1, digits != 0 and word >= 0x800000, value >= 1 << 256)


def write_bits(value: int, negative: bool = False) -> int:
    """The bits of a target (Bitcoin Core's `GetCompact`), which are its three highest bytes, or two where a third would
    begin with the sign's bit; what is below them is lost."""
    value, negative = number(value, "value", 256), flag(negative, "negative")
    size = (value.bit_length() + 7) // 8
    digits = value << 8 * (3 - size) if size <= 3 else value >> 8 * (size - 3)
    if digits >= 0x800000:
        digits, size = digits >> 8, size + 1
    return size << 24 | digits | (0x800000 if negative and digits else 0)


def work(bits: int) -> int:
    """How many tries a header with these bits takes by chance, as Bitcoin Core counts a chain's work (`GetBlockProof`):
    0 where the target is 0, or has a fault."""
    target = read_bits(bits)
    return 0 if not target.value or target.negative or target.overflow else (1 << 256) // (target.value + 1)


# ---- scripts


def operations(script: bytes) -> Iterable[Tuple[int, int, Optional[bytes], int]]:
    """The operations that can be read: where each begins, its number, what it pushes, and where it ends."""
    return _operations(octets(script, "script"))


def _operations(script: bytes) -> Iterable[Tuple[int, int, Optional[bytes], int]]:
    at = 0
    while at < len(script):
        begin, number = at, script[at]
        at += 1
        if number > 0x4E:
            yield begin, number, None, at
            continue
        wide = {0x4C: 1, 0x4D: 2, 0x4E: 4}.get(number, 0)
        if wide > len(script) - at:
            return
        count = int.from_bytes(script[at : at + wide], "little") if wide else number
        at += wide
        if count > len(script) - at:
            return
        yield begin, number, script[at : at + count], at + count
        at += count


def without_separators(script: bytes) -> bytes:
    """A script without its OP_CODESEPARATORs. What follows a push that is cut short stays."""
    script, kept, last = octets(script, "script"), [], 0
    for begin, operation, _, end in operations(script):
        if operation != OP_CODESEPARATOR:
            kept.append(script[begin:end])
        last = end
    return b"".join([*kept, script[last:]])


def signature_digest(tx: Transaction, input: int, code: bytes, kind: int) -> bytes:
    """What a signature of this hash type signs before segregated witness (Bitcoin Core's SignatureHash): as
    `consensus.signature_digest`, of a transaction that was read."""
    instance(tx, Transaction, "tx")
    input, kind, code = number(input, "input", 64), number(kind, "kind"), octets(code, "code")
    base, one = kind & 31, (1).to_bytes(32, "little")
    if input >= len(tx.inputs) or (base == 3 and input >= len(tx.outputs)):
        return one
    code = without_separators(code)
    inputs = [
        i._replace(script=code if n == input else b"", sequence=i.sequence if n == input or base not in (2, 3) else 0)
        for n, i in enumerate(tx.inputs)
    ]
    outputs = tx.outputs
    if base == 2:
        outputs = []
    if base == 3:
        outputs = [Output(-1, b"")] * input + [tx.outputs[input]]
    if kind & 128:
        inputs = [inputs[input]]
    return double_sha(write_transaction(Transaction(tx.version, inputs, outputs, tx.lock_time)) + struct.pack("<I", kind))
