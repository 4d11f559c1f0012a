"""Partially signed transactions (BIP 174) as Bitcoin Core 0.21 reads, writes and puts them together (its psbt.h and psbt.cpp).

What signs and finalizes them is `psbtsigning`.
"""

import base64
import re
from dataclasses import dataclass, field, replace
from functools import lru_cache
from typing import Callable, Dict, Iterator, List, NamedTuple, Optional, Sequence, Set, Tuple, TypeVar, Union

from . import arguments
from .encoding import Output, Transaction, double_sha, hash160, read_transaction, write_transaction
from .rpc.scripts import compact
from .signatures import Secp256k1

#: What each begins with.
MAGIC = b"psbt\xff"
#: The most bytes of one, of its transaction, and of a transaction that it spends (the weight of a block).
MAX_PSBT, MAX_SIZE, MAX_SPENT = 8_000_000, 1_000_000, 4_000_000
#: Nothing is longer (Bitcoin Core's MAX_SIZE).
_MAX_COUNT = 0x02000000


class PsbtError(ValueError):
    """Why bytes aren't a partially signed transaction, or several don't go together."""


class Unreadable(PsbtError):
    """Where bytes break BIP 174's form."""


class Mismatch(PsbtError):
    """They are of different transactions."""


class Previous(NamedTuple):
    """A transaction of which an output is spent: its bytes, and those without its witnesses."""

    data: bytes
    stripped: bytes
    #: For each input its witness; none where no input has one.
    witnesses: Tuple[Tuple[bytes, ...], ...] = ()

    @property
    def id(self) -> bytes:
        """Its id."""
        return double_sha(self.stripped)

    def output(self, index: int) -> Optional[Output]:
        """The output of a number, or None."""
        index, outputs = arguments.number(index, "index"), read_transaction(self.stripped).outputs
        return outputs[index] if index < len(outputs) else None


@dataclass
class PsbtInput:
    """What is known of an input: fields of BIP 174, by whose names they go. What isn't there is None or empty."""

    non_witness_utxo: Optional[Previous] = None
    witness_utxo: Optional[Output] = None
    #: Signatures with their hash types, by their keys.
    partial_sigs: Dict[bytes, bytes] = field(default_factory=dict)
    sighash: int = 0
    redeem_script: bytes = b""
    witness_script: bytes = b""
    #: Where keys come from: a fingerprint of 4 bytes, and numbers of 4 bytes each, lowest byte first.
    derivations: Dict[bytes, bytes] = field(default_factory=dict)
    final_script: bytes = b""
    final_witness: Tuple[bytes, ...] = ()
    unknown: Dict[bytes, bytes] = field(default_factory=dict)

    @property
    def is_final(self) -> bool:
        """Whether it has all that spends its coin."""
        return bool(self.final_script or self.final_witness)


@dataclass
class PsbtOutput:
    """What is known of an output."""

    redeem_script: bytes = b""
    witness_script: bytes = b""
    derivations: Dict[bytes, bytes] = field(default_factory=dict)
    unknown: Dict[bytes, bytes] = field(default_factory=dict)


@dataclass
class Psbt:
    """A transaction whose inputs have no scripts, and what is known of each input and output."""

    tx: Transaction
    inputs: List[PsbtInput]
    outputs: List[PsbtOutput]
    unknown: Dict[bytes, bytes] = field(default_factory=dict)

    def spent(self, place: int) -> Optional[Output]:
        """The output that an input spends, where it is known (Bitcoin Core's `GetInputUTXO`)."""
        own = self.inputs[place_of(place, len(self.inputs))]
        return own.witness_utxo if own.non_witness_utxo is None else own.non_witness_utxo.output(self.tx.inputs[place].index)


def place_of(place: int, count: int) -> int:
    """A place below a count."""
    found = arguments.number(place, "place", 64)
    if found >= count:
        raise ValueError(f"place must be below {count}")
    return found


def blank(tx: Transaction) -> Psbt:
    """What is known of a transaction by itself; scripts of its inputs are left out."""
    arguments.instance(tx, Transaction, "tx")
    inputs = [it._replace(script=b"") for it in tx.inputs]
    return Psbt(tx._replace(inputs=inputs), [PsbtInput() for _ in inputs], [PsbtOutput() for _ in tx.outputs])


# ---- reading


class _Stream:
    """Bytes as Bitcoin Core's streams read them, with its faults."""

    def __init__(self, data: bytes) -> None:
        self.data, self.at = data, 0

    @property
    def is_left(self) -> bool:
        return self.at < len(self.data)

    def take(self, count: int) -> bytes:
        begin, self.at = self.at, self.at + count
        if self.at > len(self.data):
            raise Unreadable("CDataStream::read(): end of data")
        return self.data[begin : self.at]

    def number(self, width: int, signed: bool = False) -> int:
        return int.from_bytes(self.take(width), "little", signed=signed)

    def count(self) -> int:
        found = self.number(1)
        if found > 252:
            wide, least = {253: (2, 253), 254: (4, 1 << 16), 255: (8, 1 << 32)}[found]
            found = self.number(wide)
            if found < least:
                raise Unreadable("non-canonical ReadCompactSize()")
        if found > _MAX_COUNT:
            raise Unreadable("ReadCompactSize(): size too large")
        return found

    def text(self) -> bytes:
        return self.take(self.count())

    def several(self, read: Callable[[], object]) -> int:
        count = self.count()
        for _ in range(count):
            read()
        return count

    def texts(self) -> Tuple[bytes, ...]:
        return tuple([self.text() for _ in range(self.count())])

    def input(self) -> None:
        self.take(36)
        self.text()
        self.take(4)

    def output(self) -> Output:
        return Output(self.number(8, signed=True), self.text())

    def sized(self, read: Callable[[], "_Read"], most: Optional[int] = None) -> "_Read":
        """What a value spells that says its length before it."""
        size, begin = self.count(), self.at
        found = read()
        if self.at - begin != size:
            raise Unreadable("Size of value was not the stated size")
        if most is not None and size > most:
            raise Unreadable(f"A transaction has more than {most} bytes")
        return found

    def unsigned(self) -> Transaction:
        """A transaction in the form without witnesses."""
        begin = self.at
        self.take(4)
        self.several(self.input)
        self.several(self.output)
        self.take(4)
        return read_transaction(self.data[begin : self.at])

    def previous(self, may_have_witness: bool = True) -> Previous:
        """A transaction in either form (BIP 144)."""
        begin = self.at
        self.take(4)
        flags, front, inputs = 0, self.at, self.several(self.input)
        if not inputs and may_have_witness:
            flags = self.number(1)
            front, inputs = (self.at, self.several(self.input)) if flags else (front, 0)
        if inputs or flags or not may_have_witness:
            self.several(self.output)
        end, witnesses = self.at, []
        if flags & 1:
            witnesses = [self.texts() for _ in range(inputs)]
            if not any(witnesses):
                raise Unreadable("Superfluous witness record")
        if flags & ~1:
            raise Unreadable("Unknown transaction optional data")
        self.take(4)
        data = self.data[begin : self.at]
        if not flags:
            return Previous(data, data)
        return Previous(data, data[:4] + self.data[front:end] + data[-4:], tuple(witnesses))


_Read = TypeVar("_Read")
_Map = TypeVar("_Map", "_Front", PsbtInput, PsbtOutput)
_Own = TypeVar("_Own", PsbtInput, PsbtOutput)


class _Front:
    """The map that comes first."""

    def __init__(self) -> None:
        self.tx: Optional[Transaction] = None
        self.unknown: Dict[bytes, bytes] = {}


def _read_map(stream: _Stream, found: _Map, fields: Dict[int, "_Field"], name: str) -> _Map:
    """Fills a map in."""
    seen: Set[bytes] = set()
    while stream.is_left:
        key = stream.text()
        if not key:
            return found
        own = fields.get(key[0])
        if own is not None:
            own.read(stream, key, found, seen)
        elif key in found.unknown:
            raise Unreadable("Duplicate Key, key for unknown value already provided")
        else:
            found.unknown[key] = stream.text()
    raise Unreadable(f"Separator is missing at the end of {name}")


class _Value(NamedTuple):
    """A field whose key is its type alone."""

    attribute: str
    #: How faults name it: where it is there twice, and where its key is longer.
    twice: str
    longer: str
    take: Callable[[_Stream], object]

    def read(self, stream: _Stream, key: bytes, into: Union[_Front, PsbtInput, PsbtOutput], seen: Set[bytes]) -> None:
        if key in seen:
            raise Unreadable(f"Duplicate Key, {self.twice} already provided")
        seen.add(key)
        if len(key) != 1:
            raise Unreadable(f"{self.longer} key is more than one byte type")
        setattr(into, self.attribute, self.take(stream))


class _OfKeys(NamedTuple):
    """A field with a public key in its key."""

    attribute: str
    twice: str
    kind: str
    take: Callable[[_Stream], bytes]

    def read(self, stream: _Stream, key: bytes, into: Union[_Front, PsbtInput, PsbtOutput], seen: Set[bytes]) -> None:
        if len(key) not in (34, 66):
            raise Unreadable(f"Size of key was not the expected size for the type {self.kind}")
        own = getattr(into, self.attribute)
        if not secp().is_key(key[1:]):
            raise Unreadable("Invalid pubkey")
        if key[1:] in own:
            raise Unreadable(f"Duplicate Key, {self.twice} already provided")
        own[key[1:]] = self.take(stream)


_Field = Union[_Value, _OfKeys]


@lru_cache(maxsize=None)
def secp() -> Secp256k1:
    """The curve, for all threads."""
    return Secp256k1()


def _path(stream: _Stream) -> bytes:
    size = stream.count()
    if size % 4 or not size:
        raise Unreadable("Invalid length for HD key path")
    return stream.take(size)


def _unsigned(stream: _Stream) -> Transaction:
    found = stream.sized(stream.unsigned, MAX_SIZE)
    if any(it.script for it in found.inputs):
        raise Unreadable("Unsigned tx does not have empty scriptSigs and scriptWitnesses.")
    return found


def _spent(stream: _Stream) -> Optional[Output]:
    """An output; one of -1 isn't there."""
    found = stream.sized(stream.output)
    return None if found.value == -1 else found


_FRONT: Dict[int, _Field] = {
    0: _Value("tx", "unsigned tx", "Global unsigned tx", _unsigned),
}
_INPUT: Dict[int, _Field] = {
    0: _Value("non_witness_utxo", "input non-witness utxo", "Non-witness utxo", lambda it: it.sized(it.previous, MAX_SPENT)),
    1: _Value("witness_utxo", "input witness utxo", "Witness utxo", _spent),
    2: _OfKeys("partial_sigs", "input partial signature for pubkey", "partial signature pubkey", _Stream.text),
    3: _Value("sighash", "input sighash type", "Sighash type", lambda it: it.sized(lambda: it.number(4, signed=True))),
    4: _Value("redeem_script", "input redeemScript", "Input redeemScript", _Stream.text),
    5: _Value("witness_script", "input witnessScript", "Input witnessScript", _Stream.text),
    6: _OfKeys("derivations", "pubkey derivation path", "BIP32 keypath", _path),
    7: _Value("final_script", "input final scriptSig", "Final scriptSig", _Stream.text),
    8: _Value("final_witness", "input final scriptWitness", "Final scriptWitness", lambda it: it.sized(it.texts)),
}
_OUTPUT: Dict[int, _Field] = {
    0: _Value("redeem_script", "output redeemScript", "Output redeemScript", _Stream.text),
    1: _Value("witness_script", "output witnessScript", "Output witnessScript", _Stream.text),
    2: _OfKeys("derivations", "pubkey derivation path", "BIP32 keypath", _path),
}


def decode(data: bytes) -> Psbt:
    """The one that all of these bytes spell, at most MAX_PSBT; else `PsbtError` in Bitcoin Core's words."""
    stream = _Stream(arguments.octets(data, "data"))
    if len(stream.data) > MAX_PSBT:
        raise PsbtError(f"It has more than {MAX_PSBT} bytes")
    if stream.take(len(MAGIC)) != MAGIC:
        raise Unreadable("Invalid PSBT magic bytes")
    front = _read_map(stream, _Front(), _FRONT, "the global map")
    if front.tx is None:
        raise Unreadable("No unsigned transcation was provided")
    found = Psbt(front.tx, [], [], front.unknown)
    for spends in found.tx.inputs:
        if not stream.is_left:
            raise Unreadable("Inputs provided does not match the number of inputs in transaction.")
        own = _read_map(stream, PsbtInput(), _INPUT, "an input map")
        if own.non_witness_utxo is not None and own.non_witness_utxo.id != spends.id:
            raise Unreadable("Non-witness UTXO does not match outpoint hash")
        found.inputs.append(own)
    for _ in found.tx.outputs:
        if not stream.is_left:
            raise Unreadable("Outputs provided does not match the number of outputs in transaction.")
        found.outputs.append(_read_map(stream, PsbtOutput(), _OUTPUT, "an output map"))
    if stream.is_left:
        raise PsbtError("extra data after PSBT")
    return found


def previous_of(data: bytes, may_have_witness: bool = True) -> Previous:
    """The transaction of these bytes, else `PsbtError`. If it may have witnesses, what begins like one with them is one (BIP 144)."""
    stream = _Stream(arguments.octets(data, "data"))
    found = stream.previous(arguments.flag(may_have_witness, "may_have_witness"))
    if stream.is_left:
        raise PsbtError("Bytes are left over")
    return found


def from_base64(text: str) -> Psbt:
    """The one that a text in base 64 spells; else `PsbtError`."""
    given = arguments.text(text, "text")
    if len(given) > 4 * MAX_PSBT // 3 + 4:
        raise PsbtError(f"It has more than {MAX_PSBT} bytes")
    if len(given) % 4 or not re.fullmatch(r"[A-Za-z0-9+/]*={0,2}", given, re.ASCII):
        raise PsbtError("invalid base64")
    data = base64.b64decode(given)
    # Bits that are left over have to be zero.
    if base64.b64encode(data[-(len(data) % 3 or 3) :]).decode() != given[-4:]:
        raise PsbtError("invalid base64")
    return decode(data)


# ---- writing


def prefixed(data: bytes) -> bytes:
    """Bytes behind their number."""
    return compact(len(data)) + data


def written(output: Output) -> bytes:
    """The bytes of an output."""
    return output.value.to_bytes(8, "little", signed=True) + prefixed(output.script)


def _stack(items: Sequence[bytes]) -> bytes:
    return compact(len(items)) + b"".join(map(prefixed, items))


_Pairs = Iterator[Tuple[bytes, bytes]]


def _by_hash(keys: Dict[bytes, bytes]) -> List[Tuple[bytes, bytes]]:
    return sorted(keys.items(), key=lambda pair: hash160(pair[0]))


def _pairs_of_input(own: PsbtInput) -> _Pairs:
    """Its fields in Bitcoin Core's order; what a final one needs no more isn't written."""
    if own.non_witness_utxo is not None:
        yield b"\0", own.non_witness_utxo.stripped
    if own.witness_utxo is not None:
        yield b"\1", written(own.witness_utxo)
    if not own.is_final:
        yield from ((b"\2" + key, signature) for key, signature in _by_hash(own.partial_sigs))
        if own.sighash > 0:
            yield b"\3", own.sighash.to_bytes(4, "little")
        yield from ((kind, script) for kind, script in ((b"\4", own.redeem_script), (b"\5", own.witness_script)) if script)
        yield from ((b"\6" + key, path) for key, path in sorted(own.derivations.items()))
    if own.final_script:
        yield b"\7", own.final_script
    if own.final_witness:
        yield b"\x08", _stack(own.final_witness)
    yield from sorted(own.unknown.items())


def _pairs_of_output(own: PsbtOutput) -> _Pairs:
    yield from ((kind, script) for kind, script in ((b"\0", own.redeem_script), (b"\1", own.witness_script)) if script)
    yield from ((b"\2" + key, path) for key, path in sorted(own.derivations.items()))
    yield from sorted(own.unknown.items())


def _written_map(pairs: _Pairs) -> bytes:
    return b"".join([prefixed(key) + prefixed(value) for key, value in pairs]) + b"\0"


def encode(psbt: Psbt) -> bytes:
    """Its bytes, as Bitcoin Core writes them: sorted, transactions that are spent without their witnesses."""
    arguments.instance(psbt, Psbt, "psbt")
    front = iter([(b"\0", write_transaction(psbt.tx)), *sorted(psbt.unknown.items())])
    maps = [front, *map(_pairs_of_input, psbt.inputs), *map(_pairs_of_output, psbt.outputs)]
    return MAGIC + b"".join(map(_written_map, maps))


def to_base64(psbt: Psbt) -> str:
    """The same in base 64."""
    return base64.b64encode(encode(psbt)).decode()


# ---- putting together


def combine(psbts: Sequence[Psbt]) -> Psbt:
    """What several of one transaction know together; of two values of a field the first stays. One at least; `Mismatch` where the
    transactions differ."""
    if not arguments.sequence_of(psbts, Psbt, "psbts"):
        raise ValueError("psbts must have one at least")
    first = psbts[0]
    inputs, outputs = [_copied(own) for own in first.inputs], [_copied(own) for own in first.outputs]
    found = Psbt(first.tx, inputs, outputs, dict(first.unknown))
    for other in psbts[1:]:
        if other.tx != found.tx:
            raise Mismatch("PSBTs not compatible (different transactions)")
        for own, its in zip(found.inputs, other.inputs):
            _merge(own, its)
        for output, its_output in zip(found.outputs, other.outputs):
            _merge(output, its_output)
        found.unknown = {**other.unknown, **found.unknown}
    return found


def _copied(own: _Own) -> _Own:
    """Another of the same fields."""
    return replace(own, **{name: dict(value) for name, value in vars(own).items() if isinstance(value, dict)})


def _merge(own: Union[PsbtInput, PsbtOutput], other: Union[PsbtInput, PsbtOutput]) -> None:
    """Adds what another one knows; hash types stay, as in Bitcoin Core."""
    for name, value in vars(other).items():
        if isinstance(value, dict):
            setattr(own, name, {**value, **getattr(own, name)})
        elif name != "sighash":
            setattr(own, name, getattr(own, name) or value)


def join(psbts: Sequence[Psbt]) -> Psbt:
    """One with the inputs and outputs of all, in their order, without signatures; the highest version and the lowest lock time.
    It is a `PsbtError` where two have an input."""
    arguments.sequence_of(psbts, Psbt, "psbts")
    version = max([1, *(it.tx.version & 0xFFFFFFFF for it in psbts)])
    lock = min([0xFFFFFFFF, *(it.tx.lock_time for it in psbts)])
    found, known = Psbt(Transaction(version - (version >> 31 << 32), [], [], lock), [], []), set()
    for psbt in psbts:
        for spends, own in zip(psbt.tx.inputs, psbt.inputs):
            if spends in known:
                raise PsbtError(f"Input {spends.id[::-1].hex()}:{spends.index} exists in multiple PSBTs")
            known.add(spends)
            found.tx.inputs.append(spends)
            found.inputs.append(_copied(own))
            found.inputs[-1].partial_sigs, found.inputs[-1].final_script, found.inputs[-1].final_witness = {}, b"", ()
        found.tx.outputs.extend(psbt.tx.outputs)
        found.outputs += [_copied(own) for own in psbt.outputs]
        found.unknown = {**psbt.unknown, **found.unknown}
    return found


def extract(psbt: Psbt) -> bytes:
    """The bytes of the transaction, with witnesses where an input has one (BIP 144); a `PsbtError` where an input isn't final."""
    arguments.instance(psbt, Psbt, "psbt")
    if not all(own.is_final for own in psbt.inputs):
        raise PsbtError("An input isn't final")
    inputs = [spends._replace(script=own.final_script) for spends, own in zip(psbt.tx.inputs, psbt.inputs)]
    data = write_transaction(psbt.tx._replace(inputs=inputs))
    if not any(own.final_witness for own in psbt.inputs):
        return data
    return data[:4] + b"\0\1" + data[4:-4] + b"".join(_stack(own.final_witness) for own in psbt.inputs) + data[-4:]
