"""signrawtransactionwithkey: inputs without witnesses, to a key, its hash, several keys, or the hash of such a script."""

from typing import Any, Dict, List, NamedTuple, Optional, Tuple

from ..chainstate import show
from ..consensus import Triple
from ..encoding import Input, Transaction, hash160, operations, signature_digest, write_transaction
from ..psbtsigning import filled, holds, push_shortest, satisfy
from ..signatures import Secp256k1
from .errors import DESERIALIZATION_ERROR, INVALID_ADDRESS_OR_KEY, INVALID_PARAMETER, MISC_ERROR, RpcError
from .node import Node, call
from .scripts import asm, base58_data, is_script_hash, kind_of, script_keys
from .txs import GROUP, raw_transaction
from .values import HASH_TYPES, Object, amount, array, digits, expect_member, expect_or_null, hex_text, integer, text

#: The first byte of a private key of regtest.
SECRET_PREFIX = 239

_MISSING = "Unable to sign input, invalid stack size (possibly missing key)"
_FEW = "CHECK(MULTI)SIG failing with non-zero signature (possibly need more signatures)"
_FALSE = "Script evaluated without error but finished with a false/empty top stack element"
_SIGNED = ("pubkey", "pubkeyhash", "multisig", "scripthash")


class Keys:
    """Private keys by the public ones, and public ones by their hashes."""

    def __init__(self) -> None:
        self.secrets: Dict[bytes, bytes] = {}
        self.keys: Dict[bytes, bytes] = {}

    def add(self, key: bytes, secret: Optional[bytes]) -> None:
        """Adds a public key, with its private one where that is known."""
        self.keys[hash160(key)] = key
        if secret is not None:
            self.secrets[key] = secret


def _read_keys(secp: Secp256k1, given: List[Any]) -> Keys:
    """Private keys as wallets write them."""
    found = Keys()
    for word in given:
        secret = read_secret(text(word))
        if secret is None:
            raise RpcError(INVALID_ADDRESS_OR_KEY, "Invalid private key")
        try:
            found.add(secp.public_key(*secret), secret[0])
        except ValueError:
            raise RpcError(INVALID_ADDRESS_OR_KEY, "Invalid private key")
    return found


def read_secret(word: str) -> Optional[Tuple[bytes, bool]]:
    """A private key of regtest as wallets write it, and whether its public key is compressed; or None."""
    data = base58_data(word)
    if data is None or data[:1] != bytes([SECRET_PREFIX]) or not (len(data) == 33 or (len(data) == 34 and data[33] == 1)):
        return None
    return data[1:33], len(data) == 34


@call(GROUP, "hexstring", "privkeys", "prevtxs", "sighashtype", needed=2)
def signrawtransactionwithkey(node: Node, hexstring: Any, privkeys: Any, prevtxs: Any, sighashtype: Any) -> Object:
    """Signs the inputs of a transaction by private keys, of coins and of the outputs that are given: {"txid", "vout",
    "scriptPubKey", "redeemScript"}. Witness programs aren't signed."""
    for value, kind in ((hexstring, "string"), (privkeys, "array"), (prevtxs, "array"), (sighashtype, "string")):
        expect_or_null(value, kind)
    with node.others():
        tx = raw_transaction(text(hexstring), "TX decode failed. Make sure the tx has at least one input.", True).tx
        secp = Secp256k1()
        keys = _read_keys(secp, array(privkeys))
        places = [(it.id, it.index) for it in tx.inputs]
    coins = zip(places, node.bench.coins_at(places))
    spent = {place: coin.script for place, coin in coins if coin is not None}
    redeems: Dict[bytes, bytes] = {}
    with node.others():
        for given in prevtxs or ():
            take_output(given, spent, redeems)
        return sign_inputs(tx, spent, Means(secp, keys, redeems, hash_type(sighashtype)))


def hash_type(given: Any) -> int:
    """The hash type of a name."""
    if given is not None and given not in HASH_TYPES:
        raise RpcError(MISC_ERROR, f"{given[:100]} is not a valid sighash parameter.")
    return HASH_TYPES[given or "ALL"]


def take_output(given: Any, spent: Dict[Tuple[bytes, int], bytes], redeems: Dict[bytes, bytes], needs_redeem: bool = True) -> None:
    """Takes an output that a transaction spends, and the script whose hash it has, which need not be given where the signer may
    know it."""
    if not isinstance(given, dict):
        raise RpcError(DESERIALIZATION_ERROR, 'expected object with {"txid\'","vout","scriptPubKey"}')
    for name, kind in (("scriptPubKey", "string"), ("txid", "string"), ("vout", "number")):
        expect_member(given, name, kind)
    id, index = digits(given["txid"], "txid"), integer(given["vout"])
    if index < 0:
        raise RpcError(DESERIALIZATION_ERROR, "vout cannot be negative")
    script = hex_text(given["scriptPubKey"], "scriptPubKey")
    known = spent.get((id, index), script)
    if known != script:
        message = f"Previous output scriptPubKey mismatch:\n{asm(known)}\nvs:\n{asm(script)}"
        raise RpcError(DESERIALIZATION_ERROR, message)
    if "amount" in given:
        amount(given["amount"])
    spent[id, index] = script
    if is_script_hash(script) and (needs_redeem or "redeemScript" in given or "witnessScript" in given):
        redeem = _redeem(given)
        if hash160(redeem) != script[2:22]:
            raise RpcError(INVALID_PARAMETER, "redeemScript/witnessScript does not match scriptPubKey")
        redeems[script[2:22]] = redeem


def _redeem(given: Object) -> bytes:
    """The script of an output to a hash."""
    for name in ("redeemScript", "witnessScript"):
        if given.get(name) is not None:
            expect_member(given, name, "string")
    if given.get("witnessScript") is not None:
        return hex_text(given["witnessScript"], "witnessScript")
    if given.get("redeemScript") is None:
        raise RpcError(INVALID_PARAMETER, "Missing redeemScript/witnessScript")
    return hex_text(given["redeemScript"], "redeemScript")


# ---- signing


class Means(NamedTuple):
    """What inputs are signed by: keys, scripts by their hashes, and a hash type."""

    secp: Secp256k1
    keys: Keys
    redeems: Dict[bytes, bytes]
    kind: int


def sign_inputs(tx: Transaction, spent: Dict[Tuple[bytes, int], bytes], means: Means) -> Object:
    """The transaction with the signatures that could be made."""
    errors: List[Object] = []
    for place, it in enumerate(tx.inputs):
        script = spent.get((it.id, it.index))
        if script is None:
            error = "Input not found or already spent"
        else:
            signer = _Signer(tx, place, script, means)
            tx, error = signer.signed(), signer.error
        if error:
            errors.append(_error(tx.inputs[place], error))
    found: Object = {"hex": write_transaction(tx).hex(), "complete": not errors}
    return {**found, "errors": errors} if errors else found


def _error(it: Input, error: str) -> Object:
    return {"txid": show(it.id), "vout": it.index, "witness": [], "scriptSig": it.script.hex(), "sequence": it.sequence,
            "error": error}  # fmt: skip


class _Signer:
    """Signs one input, as Bitcoin Core's `ProduceSignature`: signatures that it has already are kept."""

    def __init__(self, tx: Transaction, place: int, script: bytes, means: Means) -> None:
        self.tx, self.place, self.script, self.means = tx, place, script, means
        self.error = ""
        #: The signatures by their keys, as they are found or made.
        self.known: Dict[bytes, bytes] = {}

    def signed(self) -> Transaction:
        """The transaction with the input as far as it could be signed."""
        if kind_of(self.script)[0].startswith("witness"):
            self.error = "Witness programs aren't signed here"
            return self.tx
        if self._holds(self.tx):
            return self.tx
        tx = self.tx
        # A signature of type SINGLE signs the output of its input's number, which has to be there.
        if self.means.kind & 127 != 3 or self.place < len(tx.outputs):
            self._read_known()
            inputs = list(tx.inputs)
            inputs[self.place] = inputs[self.place]._replace(script=b"".join(map(push_shortest, self._items())))
            tx = tx._replace(inputs=inputs)
        if not self._holds(tx):
            self.error = self._why(tx.inputs[self.place].script)
        return tx

    def _why(self, made: bytes) -> str:
        """Why an input isn't accepted, in Bitcoin Core's words where the script is one that is signed."""
        code = self._code(self._pushes(made))
        kind, needed, _ = kind_of(self.script if code is None else code)
        if kind not in _SIGNED:
            return "The script isn't satisfied"
        lacks = needed - len(self.known)
        if kind != "multisig" or not made or lacks > filled(lacks):
            return _MISSING
        return _FEW if self.known else _FALSE

    def _holds(self, tx: Transaction) -> bool:
        """Whether the input may spend its script."""
        return holds(write_transaction(tx), self.place, self.script, self.means.secp)

    @staticmethod
    def _pushes(script: bytes) -> List[bytes]:
        return [data for _, _, data, _ in operations(script) if data is not None]

    def _code(self, pushed: List[bytes]) -> Optional[bytes]:
        """The script that signatures are for: that of the output, or the one whose hash it has; None where that isn't
        known."""
        if not is_script_hash(self.script):
            return self.script
        wanted = self.script[2:22]
        if pushed and hash160(pushed[-1]) == wanted:
            return pushed[-1]
        return self.means.redeems.get(wanted)

    def _read_known(self) -> None:
        """Finds the signatures that the input has already."""
        pushed = self._pushes(self.tx.inputs[self.place].script)
        code = self._code(pushed)
        if code is None:
            return
        keys = script_keys(code) or pushed
        for signature in pushed:
            for key in keys:
                if key not in self.known and self._is_valid(key, signature, code):
                    self.known[key] = signature
                    break

    def _is_valid(self, key: bytes, signature: bytes, code: bytes) -> bool:
        if len(signature) < 9 or len(key) not in (33, 65):
            return False
        digest = signature_digest(self.tx, self.place, code, signature[-1])
        return self.means.secp.valid(Triple(key, signature[:-1], digest))

    def _items(self) -> List[bytes]:
        """What the input's script pushes."""
        code = self._code(self._pushes(self.tx.inputs[self.place].script))
        if code is None:
            return []
        found = self._step(code)
        return found if code is self.script else [*found, code]

    def _step(self, code: bytes) -> List[bytes]:
        """The signatures, and keys, that a script asks for; none where one of them can't be made."""
        return satisfy(code, lambda key: self._signature(key, code) or None, self._key_of).items

    def _key_of(self, hash: bytes) -> Optional[bytes]:
        """The key of a hash."""
        return next((key for key in self.known if hash160(key) == hash), self.means.keys.keys.get(hash))

    def _signature(self, key: bytes, code: bytes) -> bytes:
        """The signature by a key; empty where its private key isn't there."""
        if key not in self.known and key in self.means.keys.secrets:
            digest = signature_digest(self.tx, self.place, code, self.means.kind)
            made = self.means.secp.sign_short(self.means.keys.secrets[key], digest)
            self.known[key] = made + bytes([self.means.kind])
        return self.known.get(key, b"")

