"""The rules by themselves, without a chainstate: transactions, blocks, scripts, digests and hashes, as proved.

Bytes go in and plain values come out. Ids are bytes in the order in which they are hashed; `show` and `read_id` turn
them into text and back. What can't be read raises `Refused`, whose `fault` names why. See docs/CONSENSUS.md.
"""

import ctypes
from binascii import unhexlify
from ctypes import POINTER, c_char_p, c_int, c_int64, c_size_t, c_uint8, c_uint32, c_uint64, c_void_p
from dataclasses import dataclass
from enum import Enum
from itertools import accumulate
from types import TracebackType
from typing import Any, Callable, Iterable, Iterator, List, NamedTuple, NoReturn, Optional, Sequence, Tuple, Type, TypeVar, Union

from . import arguments, spelling
from .arguments import id_of, number, octets, signed
from .deployments import GivenHeights, soft_forks
from .encoding import Merkle, Target
from .errors import REASONS, BadTable, Busy, Closed, Error, TooMany
from .library import library, params_of

#: Why bytes are refused, by the numbers of the codes.
FAULTS = {
    20: "short", 21: "long form", 22: "too large", 23: "extra", 24: "no such input", 25: "mismatch",
    26: "foreign", 27: "cut", 28: "too long", 30: "contradiction",
}  # fmt: skip
#: What a call may answer beside WAKOTEHU_OK that isn't the same for all: its caller reads it.
_READ = {
    "record": {4}, "next_opcode": {4}, "read_number": {4}, "read_id": {4}, "table_read": {3}, "table_has": {3}, "verify": {3},
    "verify_known": {3, 29}, "verify_script": {3, 29}, "tx_verify_input": {3, 29}, "tx_verify_input_known": {29},
    "tx_verify": {3, 29}, "eval_script": {3, 5, 29, 32},
}  # fmt: skip
#: What is wrong with a transaction that is kept.
_HANDLES = {
    2: (Closed, "the transaction, or the set of coins, was closed"),
    7: (Busy, "another thread is inside a call on the transaction, or on the set of coins"),
    9: (TooMany, "too many transactions are kept"),
}  # fmt: skip
#: How many bytes the line of a signature that scripts ask for has at most.
_MOST_ASKED = 2145
#: All rules of scripts that came by soft forks.
ALL = frozenset({"DERSIG", "CLTV", "CSV"})
#: The same with BIP 16, which the calls that name a failure can do without. These also take "NULLDUMMY" (BIP 147).
NAMED = ALL | {"P2SH"}


class ScriptError(Enum):
    """Why a script fails: Bitcoin Core's names and numbers."""

    UNKNOWN_ERROR = 1
    EVAL_FALSE = 2
    OP_RETURN = 3
    SCRIPT_SIZE = 4
    PUSH_SIZE = 5
    OP_COUNT = 6
    STACK_SIZE = 7
    SIG_COUNT = 8
    PUBKEY_COUNT = 9
    VERIFY = 10
    EQUALVERIFY = 11
    CHECKMULTISIGVERIFY = 12
    CHECKSIGVERIFY = 13
    NUMEQUALVERIFY = 14
    BAD_OPCODE = 15
    DISABLED_OPCODE = 16
    INVALID_STACK_OPERATION = 17
    INVALID_ALTSTACK_OPERATION = 18
    UNBALANCED_CONDITIONAL = 19
    NEGATIVE_LOCKTIME = 20
    UNSATISFIED_LOCKTIME = 21
    SIG_DER = 23
    SIG_PUSHONLY = 25
    SIG_NULLDUMMY = 27

    @property
    def text(self) -> str:
        """Bitcoin Core's text for it."""
        return _word("text", self.value)


class Refused(Error):
    """The bytes, or what was asked of them, are refused; `fault` says why, by a word of `FAULTS`."""

    def __init__(self, fault: str) -> None:
        self.fault = fault
        super().__init__(fault)


class _Transaction(ctypes.Structure):
    _fields_ = [
        ("id", c_uint8 * 32), ("size", c_uint64), ("inputs", c_uint64), ("outputs", c_uint64), ("sigops", c_uint64),
        ("version", ctypes.c_int32), ("lock_time", c_uint32), ("coinbase", c_uint32), ("reason", c_uint32),
    ]  # fmt: skip


class _Input(ctypes.Structure):
    _fields_ = [("id", c_uint8 * 32), ("script", c_uint64), ("index", c_uint32), ("sequence", c_uint32)]


class _Output(ctypes.Structure):
    _fields_ = [("value", c_int64), ("script", c_uint64)]


class _Block(ctypes.Structure):
    _fields_ = [
        ("id", c_uint8 * 32), ("parent", c_uint8 * 32), ("root", c_uint8 * 32), ("merkle", c_uint8 * 32),
        ("size", c_uint64), ("transactions", c_uint64), ("version", ctypes.c_int32), ("time", c_uint32),
        ("bits", c_uint32), ("nonce", c_uint32), ("twin", c_uint32), ("target", c_uint32), ("reason", c_uint32),
    ]  # fmt: skip


class _Header(ctypes.Structure):
    _fields_ = [
        ("id", c_uint8 * 32), ("parent", c_uint8 * 32), ("root", c_uint8 * 32), ("version", ctypes.c_int32),
        ("time", c_uint32), ("bits", c_uint32), ("nonce", c_uint32),
    ]  # fmt: skip


class _Made(ctypes.Structure):
    _fields_ = [("id", c_uint8 * 32), ("outputs", c_uint64)]


class _Opcode(ctypes.Structure):
    _fields_ = [("length", c_uint64), ("pushed", c_uint64), ("number", c_uint32)]


class _Script(ctypes.Structure):
    _fields_ = [
        ("plain", c_uint64), ("accurate", c_uint64), ("push_only", c_uint32), ("p2sh", c_uint32),
        ("unspendable", c_uint32),
    ]  # fmt: skip


class _Flags(ctypes.Structure):
    _fields_ = [("dersig", c_uint32), ("cltv", c_uint32), ("csv", c_uint32)]


class _Evaluated(ctypes.Structure):
    _fields_ = [("elements", c_uint64), ("size", c_uint64), ("error", c_uint32)]


class _Start(ctypes.Structure):
    _fields_ = [("height", c_uint32), ("median", c_uint32)]


_BYTES = [c_char_p, c_size_t]
_YES = [POINTER(c_uint32)]
_CALLS = {
    "read_transaction": _BYTES + [POINTER(_Transaction)],
    "check_transaction": _BYTES + _YES,
    "is_final": _BYTES + [c_uint32, c_uint32] + _YES,
    "locks_met": _BYTES + [POINTER(_Start), c_size_t, c_uint32, c_uint32] + _YES,
    "transaction_parts": _BYTES + [POINTER(_Input), c_size_t, POINTER(_Output), c_size_t, c_char_p, c_size_t],
    "write_transaction": [
        ctypes.c_int32, c_uint32, POINTER(_Input), c_size_t, POINTER(_Output), c_size_t, *_BYTES, *_BYTES,
        POINTER(c_uint64),
    ],
    "read_block": _BYTES + [POINTER(_Block)],
    "read_header": _BYTES + [POINTER(_Header)],
    "merkle": [c_char_p, c_size_t, c_char_p] + _YES,
    "read_bits": [c_uint32, c_char_p] + _YES + _YES,
    "write_bits": [c_char_p, c_uint32, POINTER(c_uint32)],
    "work": [c_uint32, c_char_p],
    "block_size": _BYTES + [POINTER(c_uint64)],
    "block_transactions": _BYTES + [POINTER(_Made), c_size_t, POINTER(c_uint64)],
    "block_place_with": _BYTES + [c_uint32, c_uint32, c_uint64, c_void_p, POINTER(c_uint32)],
    "record": _BYTES + [POINTER(c_uint64)],
    "meets_target": [c_char_p] + _YES,
    "median": [POINTER(c_uint32), c_size_t, POINTER(c_uint32)],
    "next_opcode": _BYTES + [POINTER(_Opcode)],
    "script": _BYTES + [POINTER(_Script)],
    "p2sh_sigops": _BYTES + _BYTES + [POINTER(c_uint64)],
    "read_number": _BYTES + [c_uint64, POINTER(c_int64)],
    "number_bytes": [c_int64, c_char_p, c_size_t, POINTER(c_uint64)],
    "strict_signature": _BYTES + _YES,
    "signature_digest": _BYTES + [c_uint64] + _BYTES + [c_uint32, c_char_p],
    "signature_digest_as_given": _BYTES + [c_uint64] + _BYTES + [c_uint32, c_char_p],
    "verify": _BYTES + [c_uint64] + _BYTES + [POINTER(_Flags)] + _BYTES + [POINTER(c_uint64)] + _YES,
    "verify_known": (
        _BYTES + [c_uint64] + _BYTES + [POINTER(_Flags)] + _BYTES * 2 + [POINTER(c_uint64)] + _YES + _BYTES
        + [POINTER(c_uint64)]
    ),
    "verify_script": (
        _BYTES + [c_uint64] + _BYTES + [c_uint32] + _BYTES * 2 + [POINTER(c_uint64)] + _YES + _BYTES + [POINTER(c_uint64)]
    ),
    "eval_script": (
        _BYTES + [c_uint64] + _BYTES + [c_uint32, POINTER(c_uint64), c_size_t] + _BYTES * 3
        + [POINTER(c_uint64), POINTER(_Evaluated), POINTER(c_uint64), c_size_t] + _BYTES * 2 + [POINTER(c_uint64)]
    ),
    "tx_read": _BYTES + [POINTER(c_size_t), POINTER(c_uint64)],
    "tx_verify_input": (
        [c_uint64, c_uint64] + _BYTES + [c_uint32] + _BYTES * 2 + [POINTER(c_uint64)] + _YES + _BYTES + [POINTER(c_uint64)]
    ),
    "tx_verify_input_known": [c_uint64] * 3 + _BYTES + [c_uint32] + _YES + _BYTES + [POINTER(c_uint64)],
    "tx_verify": (
        [c_uint64] + _BYTES + [POINTER(c_uint64), c_size_t, c_uint32] + _BYTES * 2 + [POINTER(c_uint64), POINTER(c_uint64)]
        + _YES + _BYTES + [POINTER(c_uint64)]
    ),
    "tx_free": [c_uint64],
    "table_read": _BYTES + [POINTER(c_uint64)],
    "table_has": _BYTES * 3 + [c_char_p, POINTER(c_uint64)] + _YES,
    "table_add": _BYTES + [POINTER(c_size_t)] + _BYTES * 2 + [c_char_p],
    "sha1": _BYTES + [c_char_p],
    "sha256": _BYTES + [c_char_p],
    "ripemd160": _BYTES + [c_char_p],
    "hash160": _BYTES + [c_char_p],
    "double_sha": _BYTES + [c_char_p],
    "show_id": [c_char_p, c_char_p],
    "read_id": _BYTES + [c_char_p],
}
_ready: Optional[ctypes.CDLL] = None


def _rest_of(data: bytes) -> Callable[[int], Tuple[c_char_p, int]]:
    """The bytes from a place on, and how many they are, without a copy. `data` has to live as long as they are used."""
    begin = ctypes.cast(c_char_p(data), ctypes.c_void_p).value or 0
    return lambda at: (c_char_p(begin + at), len(data) - at)


def _call(name: str, *args: Any) -> int:
    """The code that a call answers, 0 or one that its caller reads; lack of memory is a `MemoryError`, a fault a `Refused`."""
    global _ready
    if _ready is None:
        loaded = library()
        for call, types in _CALLS.items():
            getattr(loaded, f"wakotehu_{call}").argtypes = types
            getattr(loaded, f"wakotehu_{call}").restype = c_int
        loaded.wakotehu_subsidy.argtypes, loaded.wakotehu_subsidy.restype = [c_uint32], c_int64
        for word in (loaded.wakotehu_script_error_name, loaded.wakotehu_script_error_text):
            word.argtypes, word.restype = [c_uint32], c_char_p
        _ready = loaded
    code = int(getattr(_ready, f"wakotehu_{name}")(*args))
    if code == 1:
        raise MemoryError
    if code in FAULTS:
        raise Refused(FAULTS[code])
    if code == 8:
        raise ValueError("a length is too large")
    if code in _HANDLES:
        raise _HANDLES[code][0](_HANDLES[code][1])
    if code and code not in _READ.get(name, ()):
        raise Error(f"wakotehu_{name} answered {code}")
    return code


def _word(kind: str, error: int) -> str:
    """What the library calls a script's failure."""
    _call("double_sha", b"", 0, ctypes.create_string_buffer(32))
    return bytes(getattr(library(), f"wakotehu_script_error_{kind}")(error)).decode()


def _sized(data: bytes, name: str = "data") -> Tuple[bytes, int]:
    data = octets(data, name)
    return data, len(data)


# ---- transactions


@dataclass(frozen=True)
class Transaction:
    """A transaction, but for its parts. `reason` is the first rule that it breaks by itself, "" for none."""

    id: bytes
    size: int
    inputs: int
    outputs: int
    sigops: int
    version: int
    lock_time: int
    coinbase: bool
    reason: str


def transaction(data: bytes, oversize: bool = False) -> Transaction:
    """The transaction at the front of bytes; `size` of them are its.

    oversize: by Bitcoin Core's rule of sizes too, `reason` is "bad-txns-oversize" of more than 1,000,000 bytes (a block of
        which such a transaction is part breaks its own rule of sizes).
    """
    f, reason = _Transaction(), c_uint32()
    _call("read_transaction", *_sized(data), f)
    if arguments.flag(oversize, "oversize"):
        _call("check_transaction", *_sized(data), reason)
    own = reason.value if oversize else f.reason
    return Transaction(
        bytes(f.id), f.size, f.inputs, f.outputs, f.sigops, f.version, f.lock_time, bool(f.coinbase), REASONS[own]
    )


@dataclass(frozen=True)
class Input:
    """An input: the output that it spends (an id and its number), its script, and its sequence number."""

    id: bytes
    index: int
    script: bytes
    sequence: int


@dataclass(frozen=True)
class Output:
    """An output: its value in satoshis, and its script."""

    value: int
    script: bytes


@dataclass(frozen=True)
class Parts:
    """The parts of a transaction."""

    version: int
    inputs: Tuple[Input, ...]
    outputs: Tuple[Output, ...]
    lock_time: int


def transaction_parts(data: bytes) -> Parts:
    """The parts of the transaction at the front of bytes."""
    data = octets(data, "data")
    whole = transaction(data)
    ins, outs = (_Input * whole.inputs)(), (_Output * whole.outputs)()
    room = ctypes.create_string_buffer(whole.size)
    _call("transaction_parts", *_sized(data), ins, whole.inputs, outs, whole.outputs, room, whole.size)
    scripts, at = room.raw, [0]

    def script(length: int) -> bytes:
        at[0] += length
        return scripts[at[0] - length : at[0]]

    inputs = tuple(Input(bytes(row.id), row.index, script(row.script), row.sequence) for row in ins)
    outputs = tuple(Output(row.value, script(row.script)) for row in outs)
    return Parts(whole.version, inputs, outputs, whole.lock_time)


def write_transaction(parts: Parts) -> bytes:
    """The bytes of the transaction of these parts."""
    arguments.instance(parts, Parts, "parts")
    inputs = arguments.sequence_of(parts.inputs, Input, "parts.inputs")
    outputs = arguments.sequence_of(parts.outputs, Output, "parts.outputs")
    version, lock_time = signed(parts.version, "parts.version"), number(parts.lock_time, "parts.lock_time")
    ins, outs, scripts = (_Input * len(inputs))(), (_Output * len(outputs))(), []
    for row, own in zip(ins, inputs):
        scripts.append(octets(own.script, "parts.inputs.script"))
        row.id[:], row.script = id_of(own.id, "parts.inputs.id"), len(scripts[-1])
        row.index = number(own.index, "parts.inputs.index")
        row.sequence = number(own.sequence, "parts.inputs.sequence")
    for out, made in zip(outs, outputs):
        scripts.append(octets(made.script, "parts.outputs.script"))
        out.value, out.script = signed(made.value, "parts.outputs.value", 64), len(scripts[-1])
    whole = b"".join(scripts)
    most = 64 + len(whole) + 49 * len(ins) + 17 * len(outs)
    room, length = ctypes.create_string_buffer(most), c_uint64()
    _call(
        "write_transaction", version, lock_time, ins, len(ins), outs, len(outs), whole, len(whole), room, most, length
    )
    return room.raw[: length.value]


def is_final(data: bytes, height: int, cutoff: int) -> bool:
    """Whether the transaction may stand in a block of a height; the cutoff is its parent's median time past."""
    yes = c_uint32()
    _call("is_final", *_sized(data), number(height, "height"), number(cutoff, "cutoff"), yes)
    return bool(yes.value)


def locks_met(data: bytes, starts: Sequence[Tuple[int, int]], height: int, cutoff: int) -> bool:
    """Whether its relative locks are met there (BIP 68), given each input's coin height and median time past."""
    yes = c_uint32()
    pairs = [arguments.several(start, "starts", 2) for start in arguments.sequence(starts, "starts")]
    rows = (_Start * len(pairs))(*(_Start(*(number(own, "starts") for own in pair)) for pair in pairs))
    _call("locks_met", *_sized(data), rows, len(rows), number(height, "height"), number(cutoff, "cutoff"), yes)
    return bool(yes.value)


# ---- blocks


@dataclass(frozen=True)
class Block:
    """A block, but for its transactions. `merkle` is the root of its transactions, which another list has too where
    `twin` is true; `reason` is the first rule that it breaks by itself, "" for none."""

    id: bytes
    parent: bytes
    root: bytes
    merkle: bytes
    size: int
    transactions: int
    version: int
    time: int
    bits: int
    nonce: int
    twin: bool
    target: bool
    reason: str


def block(data: bytes) -> Block:
    """The block that all of these bytes spell."""
    f = _Block()
    _call("read_block", *_sized(data), f)
    return Block(
        bytes(f.id), bytes(f.parent), bytes(f.root), bytes(f.merkle), f.size, f.transactions, f.version, f.time,
        f.bits, f.nonce, bool(f.twin), bool(f.target), REASONS[f.reason],
    )  # fmt: skip


@dataclass(frozen=True)
class Header:
    """A header by itself: its id, and its fields."""

    id: bytes
    parent: bytes
    root: bytes
    version: int
    time: int
    bits: int
    nonce: int


def header(data: bytes) -> Header:
    """The header that these 80 bytes are."""
    f = _Header()
    _call("read_header", *_sized(data), f)
    return Header(bytes(f.id), bytes(f.parent), bytes(f.root), f.version, f.time, f.bits, f.nonce)


def merkle(ids: Sequence[bytes]) -> Merkle:
    """The root of the Merkle tree over ids, 32 zero bytes of none, and whether another list of ids has it too (Bitcoin
    Core's `ComputeMerkleRoot`, whose `mutated` is `twin`)."""
    rows, root, twin = [id_of(id, "ids") for id in arguments.sequence(ids, "ids")], ctypes.create_string_buffer(32), c_uint32()
    _call("merkle", b"".join(rows), len(rows), root, twin)
    return Merkle(root.raw, bool(twin.value))


def read_bits(bits: int) -> Target:
    """The target that the bits of a header spell, and its faults (Bitcoin Core's `SetCompact`). Of a number that has more
    bits than 256 the value is the lowest of them."""
    value, negative, overflow = ctypes.create_string_buffer(32), c_uint32(), c_uint32()
    _call("read_bits", number(bits, "bits"), value, negative, overflow)
    return Target(int.from_bytes(value.raw, "little"), bool(negative.value), bool(overflow.value))


def write_bits(value: int, negative: bool = False) -> int:
    """The bits of a target (Bitcoin Core's `GetCompact`), which are its three highest bytes, or two where a third would
    begin with the sign's bit; what is below them is lost."""
    found, target = c_uint32(), number(value, "value", 256).to_bytes(32, "little")
    _call("write_bits", target, int(arguments.flag(negative, "negative")), found)
    return found.value


def work(bits: int) -> int:
    """How many hashes a header with these bits takes on average, as a chain's work is counted (Bitcoin Core's
    `GetBlockProof`): 0 where the target is 0, or has a fault."""
    found = ctypes.create_string_buffer(32)
    _call("work", number(bits, "bits"), found)
    return int.from_bytes(found.raw, "little")


def block_size(data: bytes) -> int:
    """How many bytes the block at the front of bytes takes; the others are left."""
    size = c_uint64()
    _call("block_size", *_sized(data), size)
    return size.value


def block_ids(data: bytes) -> List[bytes]:
    """The ids of a block's transactions, in order."""
    data = octets(data, "data")
    count = block(data).transactions
    rows, found = (_Made * count)(), c_uint64()
    _call("block_transactions", *_sized(data), rows, count, found)
    return [bytes(row.id) for row in rows]


def block_place(
    data: bytes, height: int, median: int, now: int, heights: GivenHeights = (1, 1, 1, 1)
) -> str:
    """The first rule that a block breaks by its place, "" for none: at a height, with its parent's median time past, at
    a moment, where the soft forks of BIPs 34, 65, 66 and 68 are in force from these heights on."""
    reason, place = c_uint32(), (number(height, "height"), number(median, "median"), number(now, "now", 64))
    with params_of(soft_forks(heights)) as params:
        _call("block_place_with", *_sized(data), *place, params, reason)
    return REASONS[reason.value]


def records(data: bytes) -> Iterator[bytes]:
    """The blocks of a blk file of regtest, one by one."""
    return _records(octets(data, "data"))


def _records(data: bytes) -> Iterator[bytes]:
    rest, at, size = _rest_of(data), 0, c_uint64()
    while _call("record", *rest(at), size) == 0:
        yield data[at + 8 : at + 8 + size.value]
        at += 8 + size.value


def subsidy(height: int) -> int:
    """The new coins of a block of this height on regtest, in satoshis."""
    height = number(height, "height")
    _call("double_sha", b"", 0, ctypes.create_string_buffer(32))
    return int(library().wakotehu_subsidy(height))


def meets_target(id: bytes) -> bool:
    """Whether an id meets regtest's target."""
    yes = c_uint32()
    _call("meets_target", id_of(id), yes)
    return bool(yes.value)


def median(times: Sequence[int]) -> int:
    """The median of 1 to 11 times."""
    found, rows = c_uint32(), [number(own, "times") for own in arguments.sequence(times, "times")]
    _call("median", (c_uint32 * len(rows))(*rows), len(rows), found)
    return found.value


# ---- scripts


@dataclass(frozen=True)
class Opcode:
    """An opcode: where it begins, its number, and what it pushes."""

    offset: int
    number: int
    data: bytes


def opcodes(script: bytes) -> Tuple[List[Opcode], bytes]:
    """A script's opcodes, and the rest: nothing, or a push that is cut short."""
    script = octets(script, "script")
    rest, found, at, shown = _rest_of(script), [], 0, _Opcode()
    while _call("next_opcode", *rest(at), shown) == 0:
        end = at + shown.length
        found.append(Opcode(at, shown.number, script[end - shown.pushed : end]))
        at = end
    return found, script[at:]


@dataclass(frozen=True)
class Script:
    """A script's signature operations, counted plainly and accurately, and its kind."""

    plain: int
    accurate: int
    push_only: bool
    p2sh: bool
    unspendable: bool


def script(data: bytes) -> Script:
    """What a script is."""
    f = _Script()
    _call("script", *_sized(data), f)
    return Script(f.plain, f.accurate, bool(f.push_only), bool(f.p2sh), bool(f.unspendable))


#: Scripts as words, and back: see there.
read_script = spelling.read_script
show_script = spelling.show_script


def p2sh_sigops(input: bytes, spent: bytes) -> int:
    """The signature operations of the inner script of an input script and the script that it spends (BIP 16)."""
    count = c_uint64()
    _call("p2sh_sigops", *_sized(input, "input"), *_sized(spent, "spent"), count)
    return count.value


def read_number(data: bytes, most: int = 4) -> Optional[int]:
    """The number that at most so many bytes spell, or None."""
    value = c_int64()
    return None if _call("read_number", *_sized(data), number(most, "most", 64), value) else value.value


def number_bytes(value: int) -> bytes:
    """The shortest spelling of a number of 64 bits."""
    room, count = ctypes.create_string_buffer(9), c_uint64()
    _call("number_bytes", signed(value, "value", 64), room, 9, count)
    return room.raw[: count.value]


def strict_signature(data: bytes) -> bool:
    """Whether a signature with its hash type is strictly encoded (BIP 66), or has no byte."""
    yes = c_uint32()
    _call("strict_signature", *_sized(data), yes)
    return bool(yes.value)


def signature_digest(data: bytes, input: int, code: bytes, kind: int) -> bytes:
    """What a signature of an input signs, for a code and a hash type (Bitcoin Core's SignatureHash before segregated
    witness): each OP_CODESEPARATOR is taken out of the code."""
    return _digest("signature_digest", data, input, code, kind)


def signature_digest_as_given(data: bytes, input: int, code: bytes, kind: int) -> bytes:
    """The same for the code just as it is given, with each OP_CODESEPARATOR in it."""
    return _digest("signature_digest_as_given", data, input, code, kind)


def _digest(name: str, data: bytes, input: int, code: bytes, kind: int) -> bytes:
    found, place = ctypes.create_string_buffer(32), number(input, "input", 64)
    _call(name, *_sized(data), place, *_sized(code, "code"), number(kind, "kind"), found)
    return found.raw


class Triple(NamedTuple):
    """A key, a signature without its hash type, and a digest."""

    key: bytes
    signature: bytes
    digest: bytes

    @property
    def line(self) -> bytes:
        """Its line in the text of a table."""
        words = (self.key.hex() or "-", self.signature.hex() or "-", self.digest.hex())
        return " ".join(words).encode() + b"\n"

    @classmethod
    def of_line(cls, line: bytes) -> "Triple":
        """The triple of such a line."""
        words = octets(line, "line").split()
        if len(words) != 3 or len(words[2]) != 64:
            raise ValueError("line must have a key, a signature and a digest")
        return cls(*(_unhexed(word, "line") for word in words))

    @classmethod
    def of_lines(cls, lines: Sequence[bytes]) -> List["Triple"]:
        """The triples of such lines, one each."""
        joined = b"\n".join([octets(line, "lines") for line in arguments.sequence(lines, "lines")])
        words = [_unhexed(word, "lines") for word in joined.split()]
        if len(words) != 3 * len(lines) or any(len(digest) != 32 for digest in words[2::3]):
            raise ValueError("lines must have a key, a signature and a digest each")
        return list(map(cls, words[::3], words[1::3], words[2::3]))


def _unhexed(word: bytes, name: str) -> bytes:
    try:
        return b"" if word == b"-" else unhexlify(word)
    except ValueError:
        raise ValueError(f"{name} must have hexadecimal words") from None


def triple_of(triple: Triple) -> Triple:
    """A triple whose parts are bytes, 32 of them the digest."""
    key, signature, digest = arguments.several(triple, "triple", 3)
    return Triple(octets(key, "triple.key"), octets(signature, "triple.signature"), id_of(digest, "triple.digest"))


class Table:
    """A table of valid signatures: triples of a key, a signature without its hash type, and the digest that it signs.

    Its text has a line for each, in lower-case hexadecimal, `-` for no bytes; lines without words, or whose first begins
    with `#`, are skipped. A line that can't be read raises `BadTable`."""

    def __init__(self, text: Union[str, bytes] = b"") -> None:
        self._text = arguments.lines(text, "text")
        line = c_uint64()
        if _call("table_read", *_sized(self._text), line) == 3:
            raise BadTable(line.value)

    @property
    def text(self) -> bytes:
        """Its text, as other calls and `Chainstate` take it."""
        return self._text

    def add(self, key: bytes, signature: bytes, digest: bytes) -> None:
        """Puts a triple in."""
        words = (*_sized(key, "key"), *_sized(signature, "signature"), id_of(digest, "digest"))
        most = len(self._text) + 2 * (words[1] + words[3]) + 69
        room, length = ctypes.create_string_buffer(self._text, most), c_size_t(len(self._text))
        _call("table_add", room, most, length, *words)
        self._text = room.raw[: length.value]

    def has(self, key: bytes, signature: bytes, digest: bytes) -> bool:
        """Whether a triple is there."""
        line, yes = c_uint64(), c_uint32()
        words = (*_sized(key, "key"), *_sized(signature, "signature"), id_of(digest, "digest"))
        _call("table_has", *_sized(self._text), *words, line, yes)
        return bool(yes.value)


def verify(
    data: bytes, input: int, spent: bytes, flags: Iterable[str] = ALL, table: Union[str, bytes, Table] = b"",
    signatures: Optional[str] = None,
) -> bool:  # fmt: skip
    """Whether an input of a transaction may spend a script under some of "DERSIG", "CLTV" and "CSV". The table has the
    signatures that are valid; its text is read by each call. With `signatures="secp256k1"` libsecp256k1 is asked about
    each other one that the scripts come to."""
    if signatures is not None:
        rules, own = _words(flags), _text(table, "table")
        return _until_known(lambda *known: verify_known(data, input, spent, rules, *known), own, b"", signatures) is True
    line, yes = c_uint64(), c_uint32()
    asked = (*_sized(data), number(input, "input", 64), *_sized(spent, "spent"), _forced(flags))
    if _call("verify", *asked, *_sized(_text(table, "table")), line, yes) == 3:
        raise BadTable(line.value)
    return bool(yes.value)


def verify_known(
    data: bytes, input: int, spent: bytes, flags: Iterable[str] = ALL,
    valid: Union[str, bytes, Table] = b"", invalid: Union[str, bytes, Table] = b"",
) -> Union[bool, Triple]:  # fmt: skip
    """The same where the signatures of one table are valid, those of another aren't, and of all others nothing is known:
    the verdict, whatever else is valid; or a triple that the scripts ask for, and of which nothing is known. A triple in
    both tables raises `Refused`."""
    line, yes, needed = c_uint64(), c_uint32(), c_uint64()
    room = ctypes.create_string_buffer(_MOST_ASKED)
    asked = (*_sized(data), number(input, "input", 64), *_sized(spent, "spent"), _forced(flags))
    tables = (*_sized(_text(valid, "valid")), *_sized(_text(invalid, "invalid")))
    code = _call("verify_known", *asked, *tables, line, yes, room, _MOST_ASKED, needed)
    if code == 3:
        raise BadTable(line.value)
    return Triple.of_line(room.raw[: needed.value]) if code == 29 else bool(yes.value)


_Found = TypeVar("_Found")


def _until_known(
    ask: Callable[[bytes, bytes], Union[_Found, Triple]], valid: Union[str, bytes, Table], invalid: Union[str, bytes, Table],
    signatures: Optional[str],
) -> Union[_Found, Triple]:  # fmt: skip
    """What a call answers by two tables. With `signatures="secp256k1"` libsecp256k1 is asked about each triple that is in
    none, one after the other, and the answer is no triple."""
    known = {True: _text(valid, "valid"), False: _text(invalid, "invalid")}
    if signatures is None:
        return ask(known[True], known[False])
    arguments.word(signatures, "signatures", ("secp256k1",))
    known = {it: text and text + b"\n" for it, text in known.items()}
    while True:
        found = ask(known[True], known[False])
        if not isinstance(found, Triple):
            return found
        known[_is_valid(found)] += found.line


def _is_valid(triple: Triple) -> bool:
    """Whether a signature is valid, by libsecp256k1."""
    from .signatures import secp256k1

    [verdict] = secp256k1([triple.line])
    return verdict


def verify_script(
    data: bytes, input: int, spent: bytes, flags: Iterable[str] = NAMED, valid: Union[str, bytes, Table] = b"",
    invalid: Union[str, bytes, Table] = b"", signatures: Optional[str] = None,
) -> Union[None, ScriptError, Triple]:  # fmt: skip
    """Why an input of a transaction may not spend a script, None where it may, under some of "P2SH", "DERSIG", "NULLDUMMY",
    "CLTV" and "CSV"; or, as by `verify_known`, a triple that is not known yet, unless libsecp256k1 is asked as by `verify`."""
    return _named("verify_script", _sized(data), input, spent, flags, valid, invalid, signatures)


def _named(
    call: str, tx: Tuple[Any, ...], input: int, spent: bytes, flags: Iterable[str], valid: Union[str, bytes, Table],
    invalid: Union[str, bytes, Table], signatures: Optional[str],
) -> Union[None, ScriptError, Triple]:  # fmt: skip
    """What a call that names failures tells of an input."""
    asked = (*tx, number(input, "input", 64), *_sized(spent, "spent"), _bits(flags))

    def ask(*tables: bytes) -> Union[None, ScriptError, Triple]:
        line, error, needed = c_uint64(), c_uint32(), c_uint64()
        room = ctypes.create_string_buffer(_MOST_ASKED)
        code = _call(call, *asked, *_sized(tables[0]), *_sized(tables[1]), line, error, room, _MOST_ASKED, needed)
        if code == 3:
            raise BadTable(line.value)
        if code == 29:
            return Triple.of_line(room.raw[: needed.value])
        return ScriptError(error.value) if error.value else None

    return _until_known(ask, valid, invalid, signatures)


class ParsedTransaction:
    """A transaction that is read once, so that each of its inputs can be asked for without reading it again. All the bytes
    have to be the transaction, else `Refused` says "extra"; with `whole=False` it is the one at their front. `size` is how
    many bytes it has.

    Its memory is given back by `close`, at the end of a `with`, or by itself. Any threads may ask it at once. `close` raises
    `Busy` while another thread asks, and gives nothing back then.

        with ParsedTransaction(data) as tx:
            tx.verify_input(0, spent)
    """

    def __init__(self, data: bytes, whole: bool = True) -> None:
        self._handle = 0
        used, handle = c_size_t(), c_uint64()
        data, length = _sized(data)
        _call("tx_read", data, length, None if arguments.flag(whole, "whole") else used, handle)
        self._handle, self.size = handle.value, length if whole else used.value

    def verify_input(
        self, input: int, spent: bytes, flags: Iterable[str] = NAMED, valid: Union[str, bytes, Table] = b"",
        invalid: Union[str, bytes, Table] = b"", signatures: Optional[str] = None,
    ) -> Union[None, ScriptError, Triple]:  # fmt: skip
        """What `verify_script` answers for an input of this transaction."""
        return _named("tx_verify_input", (self._handle,), input, spent, flags, valid, invalid, signatures)

    def _verify_known(self, input: int, spent: bytes, known: int, flags: Iterable[str]) -> Union[None, ScriptError, Triple]:
        """What `CoinSet.verify_input` answers: the same by the verdicts of a set of coins, which its handle names."""
        error, needed = c_uint32(), c_uint64()
        room = ctypes.create_string_buffer(_MOST_ASKED)
        asked = (number(input, "input", 64), *_sized(spent, "spent"), _bits(flags))
        if _call("tx_verify_input_known", self._handle, known, *asked, error, room, _MOST_ASKED, needed) == 29:
            return Triple.of_line(room.raw[: needed.value])
        return ScriptError(error.value) if error.value else None

    def verify_inputs(
        self, spent: Sequence[bytes], flags: Iterable[str] = NAMED, valid: Union[str, bytes, Table] = b"",
        invalid: Union[str, bytes, Table] = b"",
    ) -> Union[None, Tuple[int, ScriptError], Triple]:  # fmt: skip
        """The first input that may not spend its script, and why; None where each may; or a triple of which nothing is known.
        `spent` has a script for each input, else `Refused` says "mismatch". What the messages of signatures have in common is
        hashed once for all."""
        scripts = [octets(it, "spent") for it in arguments.sequence(spent, "spent")]
        sizes = (c_uint64 * len(scripts))(*map(len, scripts))
        line, input, error, needed = c_uint64(), c_uint64(), c_uint32(), c_uint64()
        room = ctypes.create_string_buffer(_MOST_ASKED)
        tables = (*_sized(_text(valid, "valid")), *_sized(_text(invalid, "invalid")))
        told = (line, input, error, room, _MOST_ASKED, needed)
        code = _call("tx_verify", self._handle, *_sized(b"".join(scripts)), sizes, len(scripts), _bits(flags), *tables, *told)
        if code == 3:
            raise BadTable(line.value)
        if code == 29:
            return Triple.of_line(room.raw[: needed.value])
        return (input.value, ScriptError(error.value)) if error.value else None

    def verify(
        self, input: int, spent: bytes, flags: Iterable[str] = ALL, table: Union[str, bytes, Table] = b"",
        signatures: Optional[str] = None,
    ) -> bool:  # fmt: skip
        """What `verify` answers for an input of this transaction."""
        rules, own, invalid = ["P2SH", *_words(flags)], _text(table, "table"), b""
        if signatures is not None:
            return self.verify_input(input, spent, rules, own, signatures=signatures) is None
        while True:
            found = self.verify_input(input, spent, rules, own, invalid)
            if not isinstance(found, Triple):
                return found is None
            invalid += found.line

    def close(self) -> None:
        """Gives its memory back. Later calls raise `Closed`; closing twice is fine."""
        try:
            _call("tx_free", self._handle)
        except Closed:
            pass

    def __enter__(self) -> "ParsedTransaction":
        return self

    def __exit__(
        self, kind: Optional[Type[BaseException]], value: Optional[BaseException], trace: Optional[TracebackType]
    ) -> None:
        self.close()

    def __del__(self) -> None:
        if getattr(self, "_handle", 0) and _ready is not None:
            _ready.wakotehu_tx_free(self._handle)

    def __reduce_ex__(self, protocol: object) -> NoReturn:
        """It isn't copied by `copy.copy` and isn't pickled: that copy would close the original's handle."""
        raise TypeError("a ParsedTransaction can't be copied or pickled")


def eval_script(
    data: bytes, input: int, script: bytes, stack: Sequence[bytes] = (), flags: Iterable[str] = NAMED,
    valid: Union[str, bytes, Table] = b"", invalid: Union[str, bytes, Table] = b"", signatures: Optional[str] = None,
) -> Union[List[bytes], ScriptError, Triple]:  # fmt: skip
    """Runs one script on a stack, whose top is last, with signatures of an input of a transaction: the stack that it
    leaves, or why it fails; or a triple that is not known yet, unless libsecp256k1 is asked as by `verify`."""
    given = [octets(element, "stack") for element in arguments.sequence(stack, "stack")]
    sizes, joined = (c_uint64 * len(given))(*map(len, given)), b"".join(given)
    asked = (*_sized(data), number(input, "input", 64), *_sized(script, "script"), _bits(flags))
    sizes_left, left, room = (c_uint64 * 1000)(), ctypes.create_string_buffer(65536), ctypes.create_string_buffer(_MOST_ASKED)

    def ask(*tables: bytes) -> Union[List[bytes], ScriptError, Triple]:
        nonlocal sizes_left, left, room
        line, told, needed = c_uint64(), _Evaluated(), c_uint64()
        known = (*_sized(tables[0]), *_sized(tables[1]), line)
        while True:
            rooms = (sizes_left, len(sizes_left), left, len(left), room, len(room), needed)
            code = _call("eval_script", *asked, sizes, len(given), joined, len(joined), *known, told, *rooms)
            if code == 5:
                sizes_left = (c_uint64 * max(told.elements, len(sizes_left)))()
                left = ctypes.create_string_buffer(max(told.size, len(left)))
            elif code == 32:
                room = ctypes.create_string_buffer(needed.value)
            else:
                break
        if code == 3:
            raise BadTable(line.value)
        if code == 29:
            return Triple.of_line(room.raw[: needed.value])
        if told.error:
            return ScriptError(told.error)
        ends = list(accumulate(sizes_left[: told.elements]))
        raw = left.raw[: told.size]
        return [raw[begin:end] for begin, end in zip([0, *ends], ends)]

    return _until_known(ask, valid, invalid, signatures)


_FORCED = ("DERSIG", "CLTV", "CSV")
#: The bits of rules, which are Bitcoin Core's.
_BITS = {"P2SH": 1, "DERSIG": 4, "NULLDUMMY": 16, "CLTV": 512, "CSV": 1024}


def _bits(flags: Iterable[str]) -> int:
    return sum(_BITS[name] for name in set(arguments.words_of(flags, "flags", tuple(_BITS))))


def _words(flags: Iterable[str]) -> List[str]:
    return list(arguments.words_of(flags, "flags", _FORCED))


def _forced(flags: Iterable[str]) -> _Flags:
    names = _words(flags)
    return _Flags(*(int(name in names) for name in _FORCED))


def _text(table: Union[str, bytes, Table], name: str) -> bytes:
    return table.text if isinstance(table, Table) else arguments.lines(table, name)


# ---- hashes


def _hash(name: str, data: bytes, length: int) -> bytes:
    found = ctypes.create_string_buffer(length)
    _call(name, *_sized(data), found)
    return found.raw


def sha1(data: bytes) -> bytes:
    """SHA-1."""
    return _hash("sha1", data, 20)


def sha256(data: bytes) -> bytes:
    """SHA-256."""
    return _hash("sha256", data, 32)


def ripemd160(data: bytes) -> bytes:
    """RIPEMD-160."""
    return _hash("ripemd160", data, 20)


def hash160(data: bytes) -> bytes:
    """RIPEMD-160 of SHA-256."""
    return _hash("hash160", data, 20)


def double_sha(data: bytes) -> bytes:
    """SHA-256 of SHA-256."""
    return _hash("double_sha", data, 32)


def show(id: bytes) -> str:
    """An id as it is printed."""
    digits = ctypes.create_string_buffer(64)
    _call("show_id", id_of(id), digits)
    return digits.raw.decode()


def read_id(text: str) -> Optional[bytes]:
    """The id that is printed so, or None."""
    found = ctypes.create_string_buffer(32)
    return None if _call("read_id", *_sized(arguments.text(text, "text").encode()), found) else found.raw
