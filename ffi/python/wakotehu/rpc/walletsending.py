"""Calls by which a wallet pays, signs and bumps fees."""

import os
import sqlite3
from typing import Any, Dict, List, NamedTuple, Optional, Set, Tuple

from ..chainstate import show
from ..encoding import Output, Transaction, write_transaction
from ..replacing import REPLACEABLE
from ..wallet import Payment, Plan, Wallet, WalletError
from ..wallet.funding import MOST_FEE, Funded, expect_place
from ..wallet.keys import expect_type
from .errors import (
    INSUFFICIENT_FUNDS, INVALID_ADDRESS_OR_KEY, INVALID_PARAMETER, TYPE_ERROR, WALLET_ERROR, RpcError,
)  # fmt: skip
from .node import Node, call
from .policy import RELAY
from .scripts import address_script
from .signing import hash_type, take_output
from .txs import raw_transaction
from .values import Amount, Object, amount, array, boolean, digits, expect_or_null, integer, kind_name, object_of, text
from .walletcoins import expect_kind
from .wallets import GROUP, using

#: The names of how fees are estimated, and the most blocks that may be waited for.
_MODES, _MOST_BLOCKS = ("unset", "economical", "conservative"), 1008
_WAIT = "Please provide either a confirmation target in blocks for automatic fee estimation, or an explicit fee rate."


class _Fees(NamedTuple):
    """What is asked for of a fee: a rate for 1,000 bytes, in satoshis, or None, and whether the transaction may be replaced."""

    rate: Optional[int]
    is_replaceable: bool

    @property
    def sequence(self) -> int:
        return REPLACEABLE if self.is_replaceable else REPLACEABLE + 1


def _fees(target: Any, mode: Any, rate: Any, replaceable: Any) -> _Fees:
    """What parameters ask for (Bitcoin Core's `SetFeeEstimateMode`). No target changes the rate: that is the same for all."""
    may = None if replaceable is None else boolean(replaceable)
    if rate is not None:
        if target is not None:
            raise RpcError(INVALID_PARAMETER, f"Cannot specify both conf_target and fee_rate. {_WAIT}")
        if mode is not None and text(mode) != "unset":
            raise RpcError(INVALID_PARAMETER, "Cannot specify both estimate_mode and fee_rate")
        own = amount(rate) // 100_000
        return _Fees(own, may is not False)
    if mode is not None and text(mode).lower() not in _MODES:
        names = ", ".join(f'"{name}"' for name in _MODES)
        raise RpcError(INVALID_PARAMETER, f"Invalid estimate_mode parameter, must be one of: {names}")
    if target is not None and not 1 <= integer(target) <= _MOST_BLOCKS:
        raise RpcError(INVALID_PARAMETER, f"Invalid conf_target, must be between 1 and {_MOST_BLOCKS}")
    return _Fees(None, may is True)


def _expect_rate(rate: Optional[int], code: int) -> None:
    if rate is not None and rate < RELAY:
        message = f"Fee rate ({_by_byte(rate)}) is lower than the minimum fee rate setting ({_by_byte(RELAY)})"
        raise RpcError(code, message)


def _by_byte(rate: int) -> str:
    return f"{rate // 1000}.{rate % 1000:03} sat/vB"


# ---- payments


@call(
    GROUP, "address", "amount", "comment", "comment_to", "subtractfeefromamount", "replaceable", "conf_target", "estimate_mode",
    "avoid_reuse", "fee_rate", "verbose", needed=2,
)  # fmt: skip
def sendtoaddress(node: Node, address: Any, value: Any, comment: Any, comment_to: Any, *more: Any) -> Any:
    """Pays to an address: the transaction's id."""
    subtract, replaceable, target, mode, avoid_reuse, rate, verbose = more
    notes = {name: text(it) for name, it in (("comment", comment), ("to", comment_to)) if it is not None and it != ""}
    takes = subtract is not None and boolean(subtract)
    fees = _fees(target, mode, rate, replaceable)
    if avoid_reuse is not None and boolean(avoid_reuse):
        raise RpcError(WALLET_ERROR, "wallet does not have the \"avoid reuse\" feature enabled")
    is_verbose = verbose is not None and boolean(verbose)
    with using(node) as wallet:
        payments = _payments({text(address): value}, {address} if takes else set())
        return _sent(wallet, payments, fees, notes, is_verbose)


@call(
    GROUP, "dummy", "amounts", "minconf|dummy2", "comment", "subtractfeefrom", "replaceable", "conf_target", "estimate_mode",
    "fee_rate", "verbose", needed=2,
)  # fmt: skip
def sendmany(node: Node, dummy: Any, amounts: Any, minconf: Any, comment: Any, subtractfeefrom: Any, *more: Any) -> Any:
    """Pays to several addresses: the transaction's id."""
    replaceable, target, mode, rate, verbose = more
    if dummy is not None and text(dummy) != "":
        raise RpcError(INVALID_PARAMETER, 'Dummy value must be set to ""')
    notes = {"comment": text(comment)} if comment is not None and comment != "" else {}
    fees = _fees(target, mode, rate, replaceable)
    is_verbose = verbose is not None and boolean(verbose)
    with using(node) as wallet:
        takers = {text(it) for it in (() if subtractfeefrom is None else array(subtractfeefrom))}
        return _sent(wallet, _payments(object_of(amounts), takers), fees, notes, is_verbose)


def _payments(amounts: Dict[str, Any], takers: Set[str]) -> List[Payment]:
    """What is paid (Bitcoin Core's `ParseRecipients`)."""
    found: Dict[bytes, Payment] = {}
    for address, value in amounts.items():
        script = address_script(address)
        if script is None:
            raise RpcError(INVALID_ADDRESS_OR_KEY, f"Invalid Bitcoin address: {address[:100]}")
        if script in found:
            raise RpcError(INVALID_PARAMETER, f"Invalid parameter, duplicated address: {address}")
        found[script] = Payment(Output(amount(value), script), address in takers)
    return list(found.values())


def _sent(wallet: Wallet, payments: List[Payment], fees: _Fees, notes: Dict[str, str], is_verbose: bool) -> Any:
    _expect_keys(wallet)
    _expect_rate(fees.rate, INSUFFICIENT_FUNDS)
    plan = wallet.plan(payments, fees.rate)
    plan.sequence = fees.sequence
    id = show(wallet.send(wallet.fund(plan).tx, notes))
    reason = "Fallback fee" if fees.rate is None and not wallet.rate else "PayTxFee set"
    return {"txid": id, "fee_reason": reason} if is_verbose else id


def _expect_keys(wallet: Wallet) -> None:
    if not wallet.has_private:
        raise RpcError(WALLET_ERROR, "Error: Private keys are disabled for this wallet")


@call(GROUP, "amount", needed=1)
def settxfee(node: Node, value: Any) -> bool:
    """What the wallet pays for 1,000 bytes where nothing else is said; 0 for what the server does."""
    with using(node) as wallet:
        rate = amount(value)
        if 0 < rate < RELAY:
            message = f"txfee cannot be less than min relay tx fee ({Amount(RELAY)} BTC/kvB)"
            raise RpcError(INVALID_PARAMETER, message)
        if rate > MOST_FEE:
            message = f"txfee cannot be more than wallet max tx fee ({Amount(MOST_FEE)} BTC/kvB)"
            raise RpcError(INVALID_PARAMETER, message)
        wallet.rate = rate
        return True


# ---- transactions that others begin

#: The options of fundrawtransaction, with their types; None for what is read later.
_OPTIONS: Dict[str, Optional[str]] = {
    "add_inputs": "bool", "add_to_wallet": "bool", "changeAddress": "string", "change_address": "string", "changePosition": "number",
    "change_position": "number", "change_type": "string", "includeWatching": "bool", "include_watching": "bool", "inputs": "array",
    "lockUnspents": "bool", "lock_unspents": "bool", "locktime": "number", "feeRate": None, "fee_rate": None, "psbt": "bool",
    "subtractFeeFromOutputs": "array", "subtract_fee_from_outputs": "array", "replaceable": "bool", "conf_target": "number",
    "estimate_mode": "string",
}  # fmt: skip


@call(GROUP, "hexstring", "options", "iswitness", needed=1)
def fundrawtransaction(node: Node, hexstring: Any, options: Any, iswitness: Any) -> Object:
    """Adds inputs to a transaction until its outputs and its fee are paid for, and at most one output for change. The inputs that it
    has are the wallet's."""
    if kind_name(hexstring) != "string":
        raise RpcError(TYPE_ERROR, f"Expected type string, got {kind_name(hexstring)}")
    expect_or_null(iswitness, "bool")
    with using(node) as wallet:
        tx = raw_transaction(hexstring, "TX decode failed", False).tx
        given = {} if options is None or isinstance(options, bool) else checked_options(options)
        found = fund(wallet, tx, given)
        return {"hex": write_transaction(found.tx).hex(), "fee": Amount(found.fee), "changepos": found.change}


def fund(wallet: Wallet, tx: Transaction, given: Object) -> Funded:
    """A transaction with inputs and change added, by the options of fundrawtransaction; its coins are locked where that is asked for."""
    if not tx.outputs:
        raise RpcError(INVALID_PARAMETER, "TX must have at least one output")
    plan, locks = _fund_plan(wallet, list(tx.outputs), given)
    plan.inputs, plan.version, plan.lock_time = tx.inputs, tx.version, tx.lock_time
    try:
        found = wallet.fund(plan)
    except WalletError as error:
        raise RpcError(WALLET_ERROR if error.code == INSUFFICIENT_FUNDS else error.code, str(error)) from error
    if locks:
        wallet.locked.update(((it.id, it.index), None) for it in found.tx.inputs)
    return found


def checked_options(given: Any) -> Object:
    """The options of fundrawtransaction or walletcreatefundedpsbt that are given."""
    for name, value in object_of(given).items():
        if name not in _OPTIONS:
            raise RpcError(TYPE_ERROR, f"Unexpected key {name[:100]}")
        kind = _OPTIONS[name]
        if kind is not None and value is not None:
            expect_kind(value, kind, name)
    return {name: value for name, value in given.items() if value is not None}


def _fund_plan(wallet: Wallet, outputs: List[Output], given: Object) -> Tuple[Plan, bool]:
    """How outputs are paid by the options of fundrawtransaction or walletcreatefundedpsbt, and whether the coins are locked."""

    def option(name: str, other: str) -> Any:
        return given.get(name, given.get(other))

    takers = _positions(option("subtractFeeFromOutputs", "subtract_fee_from_outputs") or [], len(outputs))
    fees = _rate_of(given)
    plan = wallet.plan([Payment(out, at in takers) for at, out in enumerate(outputs)], fees.rate)
    plan.may_add = given.get("add_inputs", True)
    plan.sequence = fees.sequence
    address, kind = option("changeAddress", "change_address"), given.get("change_type")
    if address is not None:
        script = address_script(address)
        if script is None:
            raise RpcError(INVALID_ADDRESS_OR_KEY, "Change address must be a valid bitcoin address")
        if kind is not None:
            raise RpcError(INVALID_PARAMETER, "Cannot specify both change address and address type options")
        own: bytes = script
        plan.change = lambda: own
    elif kind is not None:
        expect_type(kind)
        type: str = kind
        plan.change = lambda: wallet.change_script(type)
    place = option("changePosition", "change_position")
    plan.place = None if place is None or place == -1 else expect_place(integer(place), len(outputs))
    return plan, bool(option("lockUnspents", "lock_unspents"))


def _rate_of(given: Object) -> _Fees:
    """What options ask for of the fee; feeRate is in bitcoin for 1,000 bytes."""
    target, mode, rate = given.get("conf_target"), given.get("estimate_mode"), given.get("fee_rate")
    if "feeRate" not in given:
        return _fees(target, mode, rate, given.get("replaceable"))
    for other in ("fee_rate", "conf_target", "estimate_mode"):
        if other in given:
            more = {"fee_rate": " (sat/vB) and feeRate (BTC/kvB)", "conf_target": f" and feeRate. {_WAIT}"}.get(other, " and feeRate")
            raise RpcError(INVALID_PARAMETER, f"Cannot specify both {other}{more}")
    return _Fees(amount(given["feeRate"]), given.get("replaceable") is True)


def _positions(given: List[Any], count: int) -> Set[int]:
    """The places of outputs."""
    found: Set[int] = set()
    for it in given:
        at = integer(it)
        for is_wrong, what in ((at in found, "duplicated position"), (at < 0, "negative position"), (at >= count, "position too large")):
            if is_wrong:
                raise RpcError(INVALID_PARAMETER, f"Invalid parameter, {what}: {at}")
        found.add(at)
    return found


@call(GROUP, "hexstring", "prevtxs", "sighashtype", needed=1)
def signrawtransactionwithwallet(node: Node, hexstring: Any, prevtxs: Any, sighashtype: Any) -> Object:
    """Signs the inputs of a transaction by the wallet's keys; of outputs that aren't known {"txid", "vout", "scriptPubKey",
    "redeemScript"} are given."""
    for value, kind in ((hexstring, "string"), (prevtxs, "array"), (sighashtype, "string")):
        expect_or_null(value, kind)
    with using(node) as wallet:
        tx = raw_transaction(text(hexstring), "TX decode failed. Make sure the tx has at least one input.", True).tx
        spent: Dict[Tuple[bytes, int], bytes] = {}
        places = [(it.id, it.index) for it in tx.inputs]
        redeems: Dict[bytes, bytes] = {}
        if prevtxs:
            coins = zip(places, wallet.host.coins_at(places))
            spent.update({at: coin.script for at, coin in coins if coin is not None})
        for given in prevtxs or ():
            take_output(given, spent, redeems, needs_redeem=False)
        return wallet.sign(tx, spent, hash_type(sighashtype), redeems)


@call(GROUP, "txid", "options", needed=1)
def bumpfee(node: Node, txid: Any, options: Any) -> Object:
    """Replaces a transaction that waits by one that pays more (BIP 125)."""
    for value, kind in ((txid, "string"), (options, "object")):
        expect_or_null(value, kind)
    id = digits(txid, "txid")
    given: Object = options or {}
    for name, value in given.items():
        kinds = {"conf_target": "number", "fee_rate": None, "replaceable": "bool", "estimate_mode": "string"}
        if name not in kinds:
            raise RpcError(TYPE_ERROR, f"Unexpected key {name[:100]}")
        if kinds[name] is not None and value is not None:
            expect_kind(value, str(kinds[name]), name)
    replaceable = given.get("replaceable")
    fees = _fees(given.get("conf_target"), given.get("estimate_mode"), given.get("fee_rate"), replaceable)
    with using(node) as wallet:
        _expect_keys(wallet)
        try:
            found = wallet.bump(id, fees.rate, replaceable is not False)
        except WalletError as error:
            if error.code == INSUFFICIENT_FUNDS:
                raise RpcError(WALLET_ERROR, f"Unable to create transaction. {error}") from error
            raise
        return {"txid": show(found.id), "origfee": Amount(found.old_fee), "fee": Amount(found.fee), "errors": []}


# ---- its file


@call(GROUP, "destination", needed=1)
def backupwallet(node: Node, destination: Any) -> None:
    """Writes a copy of the wallet into a file, or into a folder."""
    path = text(destination)
    with using(node) as wallet:
        try:
            wallet.backup(os.path.join(path, "wallet.dat") if os.path.isdir(path) else path)
        except (OSError, ValueError, sqlite3.Error) as error:
            raise RpcError(WALLET_ERROR, "Error: Wallet backup failed!") from error
