"""Calls for partially signed transactions (BIP 174). `walletpsbts` has those that a wallet answers."""

import re
import secrets
from typing import Any, Dict, List, Mapping, NamedTuple, Optional, Tuple, Union

from .. import consensus
from ..chainstate import Coin
from ..encoding import Output, Transaction, hash160, read_transaction, write_transaction
from ..psbt import (
    MAX_PSBT, Mismatch, Previous, Psbt, PsbtError, PsbtInput, PsbtOutput, Unreadable, blank, combine, extract, from_base64,
    join, previous_of, to_base64,
)  # fmt: skip
from ..psbtsigning import HashTypeMismatch, Lacks, Means, MissingOutput, Signed, Signer, fill
from .blockchain import scanned_scripts
from .descriptors import read_descriptor
from .errors import DESERIALIZATION_ERROR, INVALID_PARAMETER, MISC_ERROR, TRANSACTION_ERROR, RpcError
from .making import made_transaction
from .node import Node, call
from .scripts import asm, is_script_hash, kind_of, shown
from .txs import GROUP, MAX_SIZE, transaction_fields
from .values import (
    HASH_TYPES, MAX_MONEY, Amount, Object, array, boolean, expect, expect_or_null, hexadecimal, object_of, text,
)  # fmt: skip

#: Names of hash types.
_NAMES = {kind: name for name, kind in HASH_TYPES.items()}
#: What a partially signed transaction needs next, from the first on.
ROLES = ("creator", "updater", "signer", "finalizer", "extractor")
_CREATOR, _UPDATER, _SIGNER, _FINALIZER, _EXTRACTOR = range(5)
#: So many bytes a signature operation counts for, in the size by which fees are compared.
_SIGOP_SIZE = 20


def read(given: Any) -> Psbt:
    """One in base64."""
    try:
        return from_base64(text(given))
    except PsbtError as error:
        # What a stream of C++ adds.
        more = ": iostream error" if isinstance(error, Unreadable) else ""
        raise RpcError(DESERIALIZATION_ERROR, f"TX decode failed {error}{more}") from None


def _read_all(given: List[Any]) -> List[Psbt]:
    """Several, which have no more bytes together than one may have."""
    if sum(len(it) for it in given if isinstance(it, str)) > 4 * MAX_PSBT // 3:
        raise RpcError(DESERIALIZATION_ERROR, f"TX decode failed They have more than {MAX_PSBT} bytes")
    return list(map(read, given))


# ---- made


@call(GROUP, "inputs", "outputs", "locktime", "replaceable", needed=2)
def createpsbt(node: Node, inputs: Any, outputs: Any, locktime: Any, replaceable: Any) -> str:
    """A partially signed transaction of inputs {"txid", "vout", "sequence"} and outputs {ADDRESS: AMOUNT} or {"data": HEX}."""
    with node.others():
        return to_base64(blank(made_transaction(inputs, outputs, locktime, replaceable)))


@call(GROUP, "hexstring", "permitsigdata", "iswitness", needed=1)
def converttopsbt(node: Node, hexstring: Any, permitsigdata: Any, iswitness: Any) -> str:
    """A partially signed transaction of a transaction. One with signatures is refused, unless permitsigdata has them left out."""
    for value, kind in ((hexstring, "string"), (permitsigdata, "bool"), (iswitness, "bool")):
        expect_or_null(value, kind)
    with node.others():
        tx = _converted(hexadecimal(hexstring, "TX decode failed", 4 * MAX_SIZE), iswitness)
        if not permitsigdata and (tx.witnesses or any(it.script for it in tx.transaction.inputs)):
            raise RpcError(DESERIALIZATION_ERROR, "Inputs must not have scriptSigs and scriptWitnesses")
        return to_base64(blank(tx.transaction))


class _Converted(NamedTuple):
    transaction: Transaction
    witnesses: bool


def _converted(data: bytes, is_witness: Optional[bool]) -> _Converted:
    """The transaction of bytes, in the form with witnesses or in the other one, or in the one that can be read (Bitcoin Core's
    `DecodeHexTx`)."""
    try:
        found = previous_of(data, is_witness is not False)
    except PsbtError:
        if is_witness is not None:
            raise RpcError(DESERIALIZATION_ERROR, "TX decode failed") from None
        try:
            found = previous_of(data, False)
        except PsbtError:
            raise RpcError(DESERIALIZATION_ERROR, "TX decode failed") from None
    return _Converted(read_transaction(found.stripped), any(found.witnesses))


# ---- shown


@call(GROUP, "psbt", needed=1, types=("string",))
def decodepsbt(node: Node, psbt: Any) -> Object:
    """A partially signed transaction, shown."""
    with node.others():
        found = read(psbt)
        fields: Object = {
            "tx": _transaction(found.tx),
            "unknown": _hex(found.unknown),
            "inputs": [_input(found, place) for place in range(len(found.inputs))],
            "outputs": list(map(_output, found.outputs)),
        }
        fee = _fee(found)
        return fields if fee is None else {**fields, "fee": Amount(fee)}


def _fee(psbt: Psbt) -> Optional[int]:
    """What it pays, where each input and all amounts are known."""
    spent = [psbt.spent(place) for place in range(len(psbt.inputs))]
    values = [-1 if it is None else it.value for it in spent]
    paid = _sum(values), _sum([it.value for it in psbt.tx.outputs])
    return None if paid[0] is None or paid[1] is None else paid[0] - paid[1]


def _sum(values: List[int]) -> Optional[int]:
    """A sum of amounts, each of which and all together may be."""
    is_right = all(0 <= it <= MAX_MONEY for it in values) and sum(values) <= MAX_MONEY
    return sum(values) if is_right else None


def _transaction(tx: Transaction) -> Object:
    return transaction_fields(write_transaction(tx), with_hex=False)


def _previous(own: Previous) -> Object:
    """A transaction that is spent, with its witnesses."""
    fields = transaction_fields(own.stripped, with_hex=False)
    if own.witnesses:
        weight = 3 * len(own.stripped) + len(own.data)
        id = consensus.show(consensus.double_sha(own.data))
        fields.update(hash=id, size=len(own.data), vsize=(weight + 3) // 4, weight=weight)
        for shown_input, items in zip(fields["vin"], own.witnesses):
            if items:
                sequence = shown_input.pop("sequence")
                shown_input.update(txinwitness=[it.hex() for it in items], sequence=sequence)
    return fields


def _script(code: bytes, with_address: bool = False) -> Object:
    own = shown(code)
    names = ("asm", "hex", "type", "address") if with_address else ("asm", "hex", "type")
    return {name: own[name] for name in names if name in own}


def _hex(pairs: Mapping[bytes, bytes]) -> Dict[str, str]:
    return {key.hex(): value.hex() for key, value in sorted(pairs.items())}


def origin_of(fingerprint: str, path: str) -> bytes:
    """An origin as `PsbtInput.derivations` has it, of a fingerprint in hexadecimal and a path such as /1'/2."""
    steps = (int(step.rstrip("'")) + (1 << 31) * step.endswith("'") for step in path.split("/")[1:])
    return bytes.fromhex(fingerprint) + b"".join(step.to_bytes(4, "little") for step in steps)


def _origin(key: bytes, origin: bytes) -> Object:
    steps = (int.from_bytes(origin[at : at + 4], "little") for at in range(4, len(origin), 4))
    path = "".join(f"/{step & 0x7FFFFFFF}" + "'" * (step >> 31) for step in steps)
    return {"pubkey": key.hex(), "master_fingerprint": origin[:4].hex(), "path": f"m{path}"}


def _known(own: Union[PsbtInput, PsbtOutput]) -> Object:
    """Scripts and keys."""
    found: Object = {}
    if own.redeem_script:
        found["redeem_script"] = _script(own.redeem_script)
    if own.witness_script:
        found["witness_script"] = _script(own.witness_script)
    if own.derivations:
        found["bip32_derivs"] = [_origin(*pair) for pair in sorted(own.derivations.items())]
    return found


def _input(psbt: Psbt, place: int) -> Object:
    own, found = psbt.inputs[place], {}  # type: PsbtInput, Object
    if own.witness_utxo is not None:
        found["witness_utxo"] = {"amount": Amount(own.witness_utxo.value), "scriptPubKey": _script(own.witness_utxo.script, True)}
    if own.non_witness_utxo is not None:
        found["non_witness_utxo"] = _previous(own.non_witness_utxo)
    if own.partial_sigs:
        pairs = sorted(own.partial_sigs.items(), key=lambda pair: hash160(pair[0]))
        found["partial_signatures"] = {key.hex(): signature.hex() for key, signature in pairs}
    if own.sighash > 0:
        found["sighash"] = _NAMES.get(own.sighash & 255, "")
    found.update(_known(own))
    if own.final_script:
        found["final_scriptSig"] = {"asm": asm(own.final_script, signatures=True), "hex": own.final_script.hex()}
    if own.final_witness:
        found["final_scriptwitness"] = [it.hex() for it in own.final_witness]
    return {**found, "unknown": _hex(own.unknown)} if own.unknown else found


def _output(own: PsbtOutput) -> Object:
    return {**_known(own), "unknown": _hex(own.unknown)} if own.unknown else _known(own)


# ---- put together


@call(GROUP, "txs", needed=1)
def combinepsbt(node: Node, txs: Any) -> str:
    """What several partially signed transactions know together, which are of one transaction."""
    expect_or_null(txs, "array")
    with node.others():
        if not array(txs):
            raise RpcError(INVALID_PARAMETER, "Parameter 'txs' cannot be empty")
        try:
            return to_base64(combine(_read_all(txs)))
        except Mismatch as error:
            raise RpcError(INVALID_PARAMETER, str(error)) from None


@call(GROUP, "txs", needed=1)
def joinpsbts(node: Node, txs: Any) -> str:
    """A partially signed transaction with the inputs and outputs of several, in any order and without signatures."""
    expect_or_null(txs, "array")
    with node.others():
        if len(array(txs)) < 2:
            raise RpcError(INVALID_PARAMETER, "At least two PSBTs are required to join PSBTs.")
        found = _read_all(txs)
        try:
            return to_base64(_shuffled(join(found)))
        except PsbtError as error:
            raise RpcError(INVALID_PARAMETER, str(error)) from None


def _shuffled(psbt: Psbt) -> Psbt:
    """The same in another order, which tells nobody whose an input is."""
    order = secrets.SystemRandom()
    ins = order.sample(range(len(psbt.inputs)), len(psbt.inputs))
    outs = order.sample(range(len(psbt.outputs)), len(psbt.outputs))
    tx = psbt.tx._replace(inputs=[psbt.tx.inputs[at] for at in ins], outputs=[psbt.tx.outputs[at] for at in outs])
    return Psbt(tx, [psbt.inputs[at] for at in ins], [psbt.outputs[at] for at in outs], psbt.unknown)


@call(GROUP, "psbt", "extract", needed=1)
def finalizepsbt(node: Node, psbt: Any, extracts: Any) -> Object:
    """Makes the inputs that are signed final: the transaction where all are, unless extract is false."""
    for value, kind in ((psbt, "string"), (extracts, "bool")):
        expect_or_null(value, kind)
    with node.others():
        found = read(psbt)
        complete = all([it.is_complete for it in _signed(node, Signer(found))])
        if complete and extracts is not False:
            return {"hex": extract(found).hex(), "complete": True}
        return {"psbt": to_base64(found), "complete": complete}


@call(GROUP, "psbt", "descriptors", needed=1)
def utxoupdatepsbt(node: Node, psbt: Any, descriptors: Any) -> str:
    """Adds the coins of witness programs that are spent, and the scripts and keys of descriptors."""
    for value, kind in ((psbt, "string"), (descriptors, "array")):
        expect_or_null(value, kind)
    with node.others():
        found = read(psbt)
        means = _means(scanned_scripts(node, descriptors or []))
    coins = _coins(node, [(it.id, it.index) for it in found.tx.inputs])
    with node.others():
        signer = Signer(found, means)
        for place, (own, coin) in enumerate(zip(found.inputs, coins)):
            if own.non_witness_utxo is None and own.witness_utxo is None:
                if coin is not None and _is_witness(coin.script, means):
                    own.witness_utxo = Output(coin.value, coin.script)
                signer.sign(place)
        for place in range(len(found.outputs)):
            signer.describe(place)
        return to_base64(found)


def _coins(node: Node, places: List[Tuple[bytes, int]]) -> List[Optional[Coin]]:
    """The coins at outpoints, which transactions that wait would make or which the active branch has."""
    with node.mempool.read():
        waiting = [node.mempool.coin(*place) for place in places]
    return [own or coin for own, coin in zip(waiting, node.bench.coins_at(places))]


def _is_witness(script: bytes, means: Means) -> bool:
    """Whether a script is a witness program, or the hash of one that is known (Bitcoin Core's `IsSegWitOutput`)."""
    inner = means.scripts.get(script[2:22], b"") if is_script_hash(script) else script
    return kind_of(inner)[0] in ("witness_v0_keyhash", "witness_v0_scripthash", "witness_unknown")


_ORIGIN = re.compile(r"\[([0-9a-f]{8})((?:/[0-9]+'?)*)\]([0-9a-f]+)")


def _means(described: Mapping[bytes, str]) -> Means:
    """What descriptors of scripts know: keys, where these come from, and the scripts within."""
    keys: Dict[bytes, bytes] = {}
    origins: Dict[bytes, bytes] = {}
    codes: Dict[bytes, bytes] = {}
    for name in described.values():
        for fingerprint, path, digits in _ORIGIN.findall(name):
            key = bytes.fromhex(digits)
            keys[hash160(key)] = key
            origins.setdefault(key, origin_of(fingerprint, path))
        while name.startswith(("sh(", "wsh(")):
            name = name.partition("(")[2][:-1]
            code = _inner(name)
            codes[hash160(code)] = code
    return Means({}, keys, codes, origins)


def _inner(name: str) -> bytes:
    """The script of a descriptor that stands within another one, where more keys may stand than outside."""
    if not name.startswith(("multi(", "wsh(multi(")):
        return read_descriptor(name).at(0)[0].code
    needed, *keys = name[name.index("multi(") + 6 :].rstrip(")").split(",")
    own = [bytes.fromhex(key.rpartition("]")[2]) for key in keys]
    script = b"".join([bytes([0x50 + int(needed)]), *(bytes([len(key)]) + key for key in own), bytes([0x50 + len(own)]), b"\xae"])
    return b"\0\x20" + consensus.sha256(script) if name.startswith("wsh") else script


# ---- looked at


class _Faulty(Exception):
    """Why one can't become a transaction."""


class _Analysed(NamedTuple):
    """What an input has and lacks, and its next role."""

    has_output: bool
    is_final: bool
    role: int
    lacks: Lacks

    @property
    def fields(self) -> Object:
        """As the call shows it."""
        lacks, missing = self.lacks, {}  # type: Lacks, Object
        if lacks.keys:
            missing["pubkeys"] = [it.hex() for it in lacks.keys]
        if lacks.redeem_script:
            missing["redeemscript"] = lacks.redeem_script.hex()
        if lacks.witness_script:
            missing["witnessscript"] = lacks.witness_script.hex()
        if lacks.signatures:
            missing["signatures"] = [it.hex() for it in lacks.signatures]
        found: Object = {"has_utxo": self.has_output, "is_final": self.is_final, "next": ROLES[self.role]}
        return {**found, "missing": missing} if missing else found


@call(GROUP, "psbt", needed=1, types=("string",))
def analyzepsbt(node: Node, psbt: Any) -> Object:
    """What a partially signed transaction has, what it lacks, and what it needs next."""
    with node.others():
        found = read(psbt)
        try:
            return _analysed(node, found)
        except _Faulty as error:
            return {"next": ROLES[_CREATOR], "error": f"PSBT is not valid. {error}"}


def _analysed(node: Node, psbt: Psbt) -> Object:
    spent = _outputs(psbt)
    before = [it.is_final for it in psbt.inputs]
    signed = _signed(node, Signer(psbt))
    own = [_analysed_input(*it) for it in zip(spent, before, signed)]
    found: Object = {"inputs": [it.fields for it in own]} if own else {}
    if all(it is not None for it in spent):
        out = _sum([it.value for it in psbt.tx.outputs])
        if out is None:
            raise _Faulty("Output amount invalid")
        fee = sum(it.value for it in spent if it is not None) - out
        size = _size(node, psbt)
        if size is not None:
            found.update(estimated_vsize=size, estimated_feerate=Amount(_rate(fee, size)))
        found["fee"] = Amount(fee)
    found["next"] = ROLES[min([_EXTRACTOR, *(it.role for it in own)])]
    return found


def _rate(fee: int, size: int) -> int:
    """A fee for 1,000 bytes, as C divides."""
    return fee * 1000 // size if fee >= 0 else -(-fee * 1000 // size)


def _outputs(psbt: Psbt) -> List[Optional[Output]]:
    """The outputs that are spent, as far as they are known; each may be spent."""
    found: List[Optional[Output]] = []
    total = 0
    for place, own in enumerate(psbt.inputs):
        output = psbt.spent(place)
        if output is None and own.non_witness_utxo is not None:
            raise _Faulty(f"Input {place} specifies invalid prevout")
        if output is not None and _sum([total, output.value]) is None:
            raise _Faulty(f"Input {place} has invalid value")
        if output is not None and consensus.script(output.script).unspendable:
            raise _Faulty(f"Input {place} spends unspendable output")
        total += 0 if output is None else output.value
        found.append(output)
    return found


def _signed(node: Node, signer: Signer) -> List[Signed]:
    """What each input has and lacks. Each costs what the whole transaction's digest does, so the client may not wait for all."""
    found = []
    for place in range(len(signer.psbt.inputs)):
        node.expect_running()
        node.expect_client()
        found.append(signer.sign(place))
    return found


def _analysed_input(output: Optional[Output], was_final: bool, signed: Signed) -> _Analysed:
    if output is None:
        return _Analysed(False, False, _UPDATER, Lacks())
    if was_final:
        return _Analysed(True, True, _EXTRACTOR, Lacks())
    if signed.is_complete:
        return _Analysed(True, False, _FINALIZER, Lacks())
    lacks = signed.lacks
    only_signatures = lacks.signatures and not (lacks.keys or lacks.redeem_script or lacks.witness_script)
    return _Analysed(True, False, _SIGNER if only_signatures else _UPDATER, lacks)


def _size(node: Node, psbt: Psbt) -> Optional[int]:
    """The size by which the fee of the transaction would be compared, where all that its inputs need is known but signatures."""
    if not all([it.is_complete for it in _signed(node, Signer(psbt, is_dummy=True))]):
        return None
    data = extract(psbt)
    stripped = previous_of(data).stripped if psbt.inputs else data
    operations = sum(consensus.script(it.script).plain for it in psbt.tx.outputs)
    cost = 4 * operations + sum(_operations(own, psbt.spent(place)) for place, own in enumerate(psbt.inputs))
    return (max(3 * len(stripped) + len(data), _SIGOP_SIZE * cost) + 3) // 4


def _operations(own: PsbtInput, spent: Optional[Output]) -> int:
    """What the signature operations of an input cost."""
    assert spent is not None, "it is signed for"
    before = consensus.script(own.final_script).plain + consensus.p2sh_sigops(own.final_script, spent.script)
    program = own.final_script[1:] if is_script_hash(spent.script) else spent.script
    kind = kind_of(program)[0]
    if kind == "witness_v0_keyhash":
        return 4 * before + 1
    return 4 * before + (consensus.script(own.final_witness[-1]).accurate if kind == "witness_v0_scripthash" else 0)
