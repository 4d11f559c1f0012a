"""Signing and finalizing partially signed transactions (BIP 174), as Bitcoin Core 0.21 does (`SignPSBTInput`, `ProduceSignature`)."""

import struct
from dataclasses import dataclass, field
from functools import cached_property
from typing import Callable, List, Mapping, NamedTuple, Optional, Tuple, Union

from . import consensus
from .arguments import flag, instance, kind_of as kind_name, number
from .consensus import Triple
from .encoding import Output, Transaction, double_sha, hash160, push, write_transaction
from .psbt import Psbt, PsbtError, PsbtInput, PsbtOutput, place_of, prefixed, previous_of, secp, written
from .rpc.scripts import MAX_SCRIPT, compact, kind_of, script_keys
from .rpc.values import MAX_MONEY
from .signatures import Secp256k1, read_signature

#: Half of the curve's order: a signature's second number is no higher.
_HALF = 0x7FFFFFFFFFFFFFFFFFFFFFFFFFFFFFFF5D576E7357A4501DDFE92F46681B20A0
#: The most bytes that a script pushes.
MAX_ELEMENT = 520
_PROGRAMS = ("witness_v0_keyhash", "witness_v0_scripthash")
#: A signature that was made up, of hash type ALL.
_DUMMY = bytes.fromhex("3044022001" + "00" * 31 + "022001" + "00" * 31 + "01")


@dataclass
class Means:
    """What is signed by: secrets and origins (as in `PsbtInput.derivations`) by keys, keys and scripts by their hashes (HASH160). A
    wallet may give its own mappings."""

    secrets: Mapping[bytes, bytes] = field(default_factory=dict)
    keys: Mapping[bytes, bytes] = field(default_factory=dict)
    scripts: Mapping[bytes, bytes] = field(default_factory=dict)
    origins: Mapping[bytes, bytes] = field(default_factory=dict)

    @property
    def public(self) -> "Means":
        """The same without secrets."""
        return Means({}, self.keys, self.scripts, self.origins)


class Satisfied(NamedTuple):
    """What a script asks for, and whether all of it is there."""

    items: List[bytes]
    is_whole: bool


def satisfy(code: bytes, signature: Callable[[bytes], Optional[bytes]], key_of: Callable[[bytes], Optional[bytes]]) -> Satisfied:
    """The signatures, and keys, that a script to one key, its hash, or several keys asks for (Bitcoin Core's `SignStep`), by what gives
    a key's signature, or None, and a hash's key. Of several keys each is asked, so that all signatures are known behind it."""
    kind, needed, _ = kind_of(code)
    if kind == "pubkeyhash":
        key = key_of(code[3:23])
        made = None if key is None else signature(key)
        return Satisfied([], False) if key is None or made is None else Satisfied([made, key], True)
    if kind not in ("pubkey", "multisig"):
        return Satisfied([], False)
    found = [it for it in map(signature, script_keys(code)) if it is not None][:needed]
    if kind == "pubkey":
        return Satisfied(found, bool(found))
    # What stands for a signature that isn't there is empty, and so is what CHECKMULTISIG takes besides.
    return Satisfied([b"", *found, *[b""] * filled(needed - len(found))], len(found) == needed)


def filled(lacks: int) -> int:
    """How many empty ones Bitcoin Core 0.21 puts where so many signatures are missing: half of them, by its loop."""
    return (lacks + 1) // 2


def push_shortest(data: bytes) -> bytes:
    """The push of data by the shortest operation."""
    if len(data) == 1 and 1 <= data[0] <= 16:
        return bytes([0x50 + data[0]])
    return b"\x4f" if data == b"\x81" else push(data)


class _WitnessDigests:
    """What signatures of witness programs sign (BIP 143); what inputs have in common is hashed once."""

    def __init__(self, tx: Transaction) -> None:
        self.tx = tx

    @cached_property
    def _outpoints(self) -> bytes:
        return double_sha(b"".join([it.id + struct.pack("<I", it.index) for it in self.tx.inputs]))

    @cached_property
    def _sequences(self) -> bytes:
        return double_sha(b"".join([struct.pack("<I", it.sequence) for it in self.tx.inputs]))

    @cached_property
    def _outputs(self) -> bytes:
        return double_sha(b"".join(map(written, self.tx.outputs)))

    def of(self, place: int, code: bytes, kind: int, value: int) -> bytes:
        """The digest for an input's code, hash type and amount."""
        own, base, alone, none = self.tx.inputs[place], kind & 31, kind & 128, bytes(32)
        outputs = none if base in (2, 3) else self._outputs
        if base == 3 and place < len(self.tx.outputs):
            outputs = double_sha(written(self.tx.outputs[place]))
        parts = [
            struct.pack("<i", self.tx.version), none if alone else self._outpoints,
            none if alone or base in (2, 3) else self._sequences, own.id, struct.pack("<I", own.index), prefixed(code),
            struct.pack("<qI", value, own.sequence), outputs, struct.pack("<II", self.tx.lock_time, kind),
        ]  # fmt: skip
        return double_sha(b"".join(parts))


# ---- what an input needs


@dataclass
class Lacks:
    """What wasn't there: of keys and signatures the hashes of the keys (HASH160), and the hashes of scripts."""

    keys: List[bytes] = field(default_factory=list)
    signatures: List[bytes] = field(default_factory=list)
    redeem_script: bytes = b""
    witness_script: bytes = b""


class Signed(NamedTuple):
    """Whether an input has all that spends its coin, and what it lacks else."""

    is_complete: bool
    lacks: Lacks


class Signer:
    """Signs the inputs of a partially signed transaction, which it changes. Without means it finalizes what is signed.

    kind: the hash type of signatures that it makes.
    is_dummy: whether a signature is made up for each that isn't there, to know the size (as Bitcoin Core's dummy creator).
    """

    def __init__(self, psbt: Psbt, means: Optional[Means] = None, kind: int = 1, is_dummy: bool = False) -> None:
        self.psbt, self.means = instance(psbt, Psbt, "psbt"), Means() if means is None else instance(means, Means, "means")
        self.kind, self.is_dummy = number(kind, "kind", 8), flag(is_dummy, "is_dummy")
        self.secp = secp()
        #: The transaction's bytes: no input has a script.
        self.data = write_transaction(psbt.tx)
        self.witness_digests = _WitnessDigests(psbt.tx)

    def sign(self, place: int) -> Signed:
        """Adds what can be made for an input (Bitcoin Core's `SignPSBTInput`)."""
        spent, own = self.psbt.spent(place), self.psbt.inputs[place]
        if own.is_final:
            return Signed(True, Lacks())
        if spent is None:
            return Signed(False, Lacks())
        made = _Production(self, place, spent, own)
        # An output that nobody has shown the transaction of is signed for where the signature has its amount alone.
        if own.non_witness_utxo is None and not made.is_witness:
            return Signed(False, Lacks())
        made.put(own)
        if made.is_witness:
            own.witness_utxo = spent
        return Signed(made.is_complete, made.lacks)

    def describe(self, place: int) -> None:
        """Adds the scripts and origins of keys of an output (Bitcoin Core's `UpdatePSBTOutput`)."""
        place = place_of(place, len(self.psbt.outputs))
        own, paid = self.psbt.outputs[place], self.psbt.tx.outputs[place]
        made = _Production(self, 0, paid, own) if self.psbt.inputs else None
        if made is not None:
            own.redeem_script, own.witness_script = made.redeem_script, made.witness_script
            own.derivations = {**made.origins, **own.derivations}


class _Production:
    """What spends an output (Bitcoin Core's `ProduceSignature`), as far as it can be made."""

    def __init__(self, signer: Signer, place: int, spent: Output, known: Union[PsbtInput, PsbtOutput]) -> None:
        self.signer, self.place, self.spent = signer, place, spent
        self.signatures = dict(known.partial_sigs) if isinstance(known, PsbtInput) else {}
        self.origins = dict(known.derivations)
        self.redeem_script, self.witness_script = known.redeem_script, known.witness_script
        self.lacks, self.is_witness = Lacks(), False
        self.final_script, self.final_witness = b"", ()  # type: Tuple[bytes, Tuple[bytes, ...]]
        self.is_complete = self._run()

    def put(self, own: PsbtInput) -> None:
        """Puts it into an input."""
        if self.is_complete:
            own.partial_sigs, own.derivations, own.redeem_script, own.witness_script = {}, {}, b"", b""
            own.final_script, own.final_witness = self.final_script, self.final_witness
            return
        own.partial_sigs = {**self.signatures, **own.partial_sigs}
        own.redeem_script, own.witness_script = own.redeem_script or self.redeem_script, own.witness_script or self.witness_script
        own.derivations = {**self.origins, **own.derivations}

    def _run(self) -> bool:
        code, inner = self.spent.script, []
        kind, found = self._step(code, False)
        if kind == "scripthash" and found.is_whole:
            code = self.redeem_script = found.items[0]
            inner = [code]
            kind, found = self._step(code, False)
            found = found._replace(is_whole=found.is_whole and kind != "scripthash")
        self.is_witness = found.is_whole and kind in _PROGRAMS
        if self.is_witness:
            code, found = self._witness(kind, found.items[0])
            self.final_witness = (*found.items, code) if kind == "witness_v0_scripthash" else tuple(found.items)
        items = [] if self.is_witness else found.items
        self.final_script = b"".join(map(push_shortest, [*items, *inner]))
        return found.is_whole and self._is_accepted(code)

    def _witness(self, kind: str, item: bytes) -> Tuple[bytes, Satisfied]:
        """The script of a witness program, and what it asks for."""
        if kind == "witness_v0_keyhash":
            code = b"\x76\xa9\x14" + item + b"\x88\xac"
            return code, self._step(code, True)[1]
        self.witness_script = item
        kind, found = self._step(item, True)
        return item, found._replace(is_whole=found.is_whole and kind not in ("scripthash", *_PROGRAMS))

    def _step(self, code: bytes, is_witness: bool) -> Tuple[str, Satisfied]:
        """A script's type, and what it asks for: a program its hash or script."""
        kind = kind_of(code)[0]
        if kind == "witness_v0_keyhash":
            return kind, Satisfied([code[2:]], True)
        if kind not in ("scripthash", "witness_v0_scripthash"):
            return kind, satisfy(code, lambda key: self._signature(key, code, is_witness), self._key_of)
        digest = code[2:22] if kind == "scripthash" else consensus.ripemd160(code[2:])
        for script in (self.signer.means.scripts.get(digest), self.redeem_script, self.witness_script):
            if script is not None and hash160(script) == digest:
                return kind, Satisfied([script], True)
        if kind == "scripthash":
            self.lacks.redeem_script = digest
        else:
            self.lacks.witness_script = code[2:]
        return kind, Satisfied([], False)

    def _key_of(self, digest: bytes) -> Optional[bytes]:
        """The key of a hash."""
        known = next((key for key in (*self.signatures, *self.origins) if hash160(key) == digest), None)
        known = self.signer.means.keys.get(digest) if known is None else known
        if known is None:
            self.lacks.keys.append(digest)
        return known

    def _signature(self, key: bytes, code: bytes, is_witness: bool) -> Optional[bytes]:
        """The signature by a key, as it is known or can be made."""
        if key in self.signatures:
            return self.signatures[key]
        origin = self.signer.means.origins.get(key)
        if origin is not None:
            self.origins.setdefault(key, origin)
        made = self._made(key, code, is_witness)
        if made is None:
            self.lacks.signatures.append(hash160(key))
        else:
            self.signatures[key] = made
        return made

    def _made(self, key: bytes, code: bytes, is_witness: bool) -> Optional[bytes]:
        if self.signer.is_dummy:
            return _DUMMY
        secret = self.signer.means.secrets.get(key)
        if secret is None or (is_witness and (len(key) != 33 or not 0 <= self.spent.value <= MAX_MONEY)):
            return None
        kind = self.signer.kind
        return self.signer.secp.sign_short(secret, self._digest(code, kind, is_witness)) + bytes([kind])

    def _digest(self, code: bytes, kind: int, is_witness: bool) -> bytes:
        if is_witness:
            return self.signer.witness_digests.of(self.place, code, kind, self.spent.value)
        return consensus.signature_digest(self.signer.data, self.place, code, kind)

    # ---- whether it is accepted

    def _is_accepted(self, code: bytes) -> bool:
        """Whether it spends the output, by the rules that Bitcoin Core relays by: its signatures are of the strict form and valid."""
        used = self._used(code)
        if len(code) > MAX_SCRIPT or not all(self._is_strict(key, signature) for key, signature in used):
            return False
        if self.signer.is_dummy:
            return self.is_witness or len(self.redeem_script) <= MAX_ELEMENT
        if self.is_witness:
            digests = ((key, signature, self._digest(code, signature[-1], True)) for key, signature in used)
            return all(self.signer.secp.valid(Triple(key, signature[:-1], digest)) for key, signature, digest in digests)
        return self._holds()

    def _used(self, code: bytes) -> List[Tuple[bytes, bytes]]:
        """The keys with the signatures that stand in it."""
        kind, needed, _ = kind_of(code)
        keys = [key for key in self.signatures if hash160(key) == code[3:23]] if kind == "pubkeyhash" else script_keys(code)
        return [(key, self.signatures[key]) for key in keys if key in self.signatures][:needed]

    def _is_strict(self, key: bytes, signature: bytes) -> bool:
        if len(key) == 65 and (self.is_witness or key[0] != 4):
            return False
        if not signature:
            return self.signer.is_dummy
        numbers = read_signature(signature[:-1])
        if numbers is None or not consensus.strict_signature(signature):
            return False
        return int.from_bytes(numbers[32:], "big") <= _HALF and 1 <= signature[-1] & 127 <= 3

    def _holds(self) -> bool:
        """Whether the input may spend its output, by the proved rules."""
        place = self.place
        at = 4 + len(compact(len(self.signer.psbt.tx.inputs))) + 41 * place + 36
        data = self.signer.data[:at] + prefixed(self.final_script) + self.signer.data[at + 1 :]
        return holds(data, place, self.spent.script, self.signer.secp)


def holds(data: bytes, place: int, script: bytes, secp: Secp256k1) -> bool:
    """Whether an input of a transaction's bytes may spend a script, by the rules before segregated witness."""
    known = {True: b"", False: b""}
    while True:
        found = consensus.verify_known(data, place, script, consensus.ALL, known[True], known[False])
        if isinstance(found, bool):
            return found
        known[secp.valid(found)] += found.line


# ---- all inputs


def finalize(psbt: Psbt) -> bool:
    """Puts the signatures of each input that has all of them into what spends its coin: whether each input has that (Bitcoin
    Core's `FinalizePSBT`)."""
    signer = Signer(instance(psbt, Psbt, "psbt"))
    return all([signer.sign(place).is_complete for place in range(len(psbt.inputs))])


class HashTypeMismatch(PsbtError):
    """An input names another hash type than the one that is asked for."""


class MissingOutput(PsbtError):
    """A transaction lacks the output that is spent."""


def fill(
    psbt: Psbt, means: Means, previous: Callable[[bytes], Optional[bytes]] = lambda id: None, kind: int = 1, signs: bool = True,
    tells_origins: bool = True,
) -> bool:  # fmt: skip
    """Adds what a wallet knows to a partially signed transaction, and signs it: whether each input is final then (Bitcoin Core's
    `FillPSBT`).

    previous: gives the bytes of the wallet's transaction of an id, or None.
    kind: the hash type of signatures; one that an input names and that isn't this raises `HashTypeMismatch`.
    signs: whether it signs; tells_origins: whether it adds the origins of keys.
    """
    signs, tells_origins, means = flag(signs, "signs"), flag(tells_origins, "tells_origins"), instance(means, Means, "means")
    if not callable(previous):
        raise TypeError(f"previous must be a function, not {kind_name(previous)}")
    means = Means(means.secrets if signs else {}, means.keys, means.scripts, means.origins if tells_origins else {})
    signer = Signer(psbt, means, kind)
    for place, (spends, own) in enumerate(zip(psbt.tx.inputs, psbt.inputs)):
        if own.is_final:
            continue
        if own.non_witness_utxo is None:
            data = previous(spends.id)
            own.non_witness_utxo = None if data is None else previous_of(data)
        if signs and own.sighash > 0 and own.sighash != kind:
            raise HashTypeMismatch("Specified sighash value does not match value stored in PSBT")
        if own.non_witness_utxo is not None and psbt.spent(place) is None:
            raise MissingOutput("Inputs missing or spent")
        signer.sign(place)
    signer = Signer(psbt, means.public, kind)
    for place in range(len(psbt.outputs)):
        signer.describe(place)
    return all(own.is_final for own in psbt.inputs)
