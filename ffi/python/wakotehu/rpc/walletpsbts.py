"""Calls by which a wallet funds, completes and signs partially signed transactions (BIP 174)."""

from typing import Any, Dict, Iterator, Optional, Protocol

from ..encoding import Transaction, hash160
from ..psbt import Psbt, blank, to_base64
from ..psbtsigning import HashTypeMismatch, Means, MissingOutput, fill
from ..wallet import Wallet
from ..wallet.funding import Funded
from .errors import DESERIALIZATION_ERROR, TRANSACTION_ERROR, RpcError
from .making import made_transaction
from .node import Node, call
from .psbts import origin_of, read
from .scripts import key_script
from .signing import hash_type
from .values import Amount, Object, boolean, expect, expect_or_null, object_of, text
from .wallets import GROUP, using
from .walletsending import checked_options, fund


class PsbtWallet(Protocol):
    """What a wallet gives."""

    def means(self, psbt: Psbt) -> Means:
        """Its keys and scripts, those of this one's inputs and outputs at least."""

    def previous(self, id: bytes) -> Optional[bytes]:
        """The bytes of its transaction of an id."""

    def fund(self, tx: Transaction, options: Object, adds: bool) -> Funded:
        """A transaction that pays its outputs and a fee, by the options of fundrawtransaction; `adds`: coins are chosen unless
        the options say otherwise."""


class Held:
    """A wallet that is used."""

    def __init__(self, wallet: Wallet) -> None:
        self.wallet = wallet

    def means(self, psbt: Psbt) -> Means:
        secrets: Dict[bytes, bytes] = {}
        keys: Dict[bytes, bytes] = {}
        scripts: Dict[bytes, bytes] = {}
        origins: Dict[bytes, bytes] = {}
        for script in {*self._scripts(psbt)}:
            own = self.wallet.key_for(script)
            if own is None:
                continue
            if own.inner is not None:
                scripts[hash160(own.inner)] = own.inner
            for it in own.keys:
                keys[hash160(it.key)] = it.key
                origins[it.key] = origin_of(it.fingerprint, it.path)
                if it.secret is not None:
                    secrets[it.key] = it.secret
        return Means(secrets, keys, scripts, origins)

    def _scripts(self, psbt: Psbt) -> Iterator[bytes]:
        """The scripts that the wallet may know: those of outputs that are spent or made, and those to keys that it names."""
        for place, spends in enumerate(psbt.tx.inputs):
            spent = psbt.spent(place) or self.wallet.output((spends.id, spends.index))
            if spent is not None:
                yield spent.script
        yield from (it.script for it in psbt.tx.outputs)
        for own in psbt.inputs:
            yield from map(key_script, own.derivations)
            yield own.redeem_script

    def previous(self, id: bytes) -> Optional[bytes]:
        found = self.wallet.ledger.records.get(id)
        return None if found is None else found.data

    def fund(self, tx: Transaction, options: Object, adds: bool) -> Funded:
        return fund(self.wallet, tx, {"add_inputs": adds, **checked_options(options)})


@call(GROUP, "psbt", "sign", "sighashtype", "bip32derivs", needed=1, types=("string", "bool", "string"))
def walletprocesspsbt(node: Node, psbt: Any, sign: Any, sighashtype: Any, bip32derivs: Any) -> Object:
    """Adds what the wallet knows to a partially signed transaction, and signs it."""
    with using(node) as wallet:
        return processed(Held(wallet), psbt, sign, sighashtype, bip32derivs)


@call(GROUP, "inputs", "outputs", "locktime", "options", "bip32derivs", needed=2)
def walletcreatefundedpsbt(node: Node, inputs: Any, outputs: Any, locktime: Any, options: Any, bip32derivs: Any) -> Object:
    """A partially signed transaction to which the wallet adds inputs and change."""
    with using(node) as wallet:
        return created(Held(wallet), inputs, outputs, locktime, options, bip32derivs)


def processed(wallet: PsbtWallet, psbt: Any, sign: Any, sighashtype: Any, bip32derivs: Any) -> Object:
    """What walletprocesspsbt answers."""
    found = read(psbt)
    kind = hash_type(None if sighashtype is None else text(sighashtype))
    complete = _fill(wallet, found, kind, sign is not False, bip32derivs)
    return {"psbt": to_base64(found), "complete": complete}


def created(wallet: PsbtWallet, inputs: Any, outputs: Any, locktime: Any, options: Any, bip32derivs: Any) -> Object:
    """What walletcreatefundedpsbt answers."""
    for value, kind in ((inputs, "array"), (locktime, "number"), (options, "object"), (bip32derivs, "bool")):
        expect_or_null(value, kind)
    given = object_of(options or {})
    if given.get("replaceable") is not None:
        expect(given["replaceable"], "bool")
    tx = made_transaction(inputs, outputs, locktime, given.get("replaceable"))
    funded = wallet.fund(tx, given, not tx.inputs)
    found = blank(funded.tx)
    _fill(wallet, found, 1, False, bip32derivs)
    return {"psbt": to_base64(found), "fee": Amount(funded.fee), "changepos": funded.change}


def _fill(wallet: PsbtWallet, psbt: Psbt, kind: int, signs: bool, tells_origins: Any) -> bool:
    origins = True if tells_origins is None else boolean(tells_origins)
    try:
        return fill(psbt, wallet.means(psbt), wallet.previous, kind, signs, origins)
    except HashTypeMismatch as error:
        raise RpcError(DESERIALIZATION_ERROR, str(error)) from None
    except MissingOutput as error:
        raise RpcError(TRANSACTION_ERROR, str(error)) from None
