"""Calls on the addresses, labels and descriptors of a wallet."""

import base64
from typing import Any, Dict, List, Optional

from ..encoding import double_sha, hash160
from .descriptors import Descriptor, Underivable, curve, descriptor_range, read_descriptor
from ..wallet import Wallet, WalletError
from ..wallet.keys import (
    DEFAULT_TYPE, FUNCTIONS, Owned, destination, expect_spendable, expect_type, is_spendable, secret_text,
)  # fmt: skip
from . import keys
from .checksums import checksum
from .errors import (
    INVALID_ADDRESS_OR_KEY, INVALID_LABEL_NAME, INVALID_PARAMETER, TYPE_ERROR, WALLET_ERROR, RpcError,
)  # fmt: skip
from .node import Node, call
from .scripts import address_script, compact, is_script_hash, key_script, kind_of, script_keys, without_checksum
from .signing import read_secret
from .values import Amount, Object, boolean, integer, is_number, kind_name, object_of, text
from .wallets import GROUP, named, rescanned, using

#: Wallets of this version have all that Bitcoin Core 0.21 knows.
WALLET_VERSION = 169900
#: So many keys may be known beyond the last used one.
MOST_KEYPOOL = 100_000
_NO_PRIVATE = "Cannot import private keys to a wallet with private keys disabled"


def label_of(given: Any) -> str:
    """A label (Bitcoin Core's `LabelFromValue`)."""
    label = text(given)
    if label == "*":
        raise RpcError(INVALID_LABEL_NAME, "Invalid label name")
    return label


def _script(given: Any, fault: str = "Invalid Bitcoin address") -> bytes:
    found = address_script(text(given))
    if found is None:
        raise RpcError(INVALID_ADDRESS_OR_KEY, fault)
    return found


# ---- addresses


@call(GROUP, "label", "address_type")
def getnewaddress(node: Node, label: Any, address_type: Any) -> str:
    """A new address of the wallet, of type legacy. Where no wallet is loaded, that of a new key, which dumpprivkey gives as long as
    the server runs."""
    if named(node) is None:
        return keys.new_address(node, label, address_type)
    own = "" if label is None else label_of(label)
    kind = DEFAULT_TYPE if address_type is None else text(address_type)
    with using(node) as wallet:
        return wallet.address(own, kind)


@call(GROUP, "address_type")
def getrawchangeaddress(node: Node, address_type: Any) -> Optional[str]:
    """A new address for change."""
    with using(node) as wallet:
        kind = DEFAULT_TYPE if address_type is None else text(address_type)
        expect_type(kind)
        return destination(wallet.new_script(kind, is_internal=True))


@call(GROUP, "address", needed=1)
def getaddressinfo(node: Node, address: Any) -> Object:
    """What the wallet knows of an address."""
    with using(node) as wallet:
        script = _script(address, "Invalid address")
        known, own = wallet.key_for(script), wallet.owner(script)
        is_solvable = wallet.is_solvable(script)
        found: Object = {"address": destination(script), "scriptPubKey": script.hex(), "ismine": own is not None,
                         "solvable": is_solvable}  # fmt: skip
        if known is not None and is_solvable:
            found["desc"] = described(known.text)
        found.update(iswatchonly=False, isscript=is_script_hash(script), iswitness=False)
        if known is not None and is_solvable:
            found.update(_details(script, known.inner, [it.key for it in known.keys]))
        found["ischange"] = wallet.is_change(script)
        if own is not None and known is not None:
            found["timestamp"] = own.timestamp
            if len(known.keys) == 1 and known.keys[0].path:
                key = known.keys[0]
                found.update(hdkeypath=f"m{key.path}", hdseedid="00" * 20, hdmasterfingerprint=key.fingerprint)
        found["labels"] = [wallet.labels[script][0]] if script in wallet.labels else []
        return found


def described(text: str) -> str:
    """A descriptor with its checksum."""
    return f"{text}#{checksum(text)}"


def _details(script: bytes, inner: Optional[bytes], known: List[bytes]) -> Object:
    """What is known of how an address is spent (Bitcoin Core's `DescribeWalletAddressVisitor`)."""
    if inner is None:
        return {"pubkey": known[0].hex(), "iscompressed": len(known[0]) == 33} if known else {}
    kind, needed, _ = kind_of(inner)
    found: Object = {"script": kind, "hex": inner.hex()}
    if kind == "multisig":
        found.update(sigsrequired=needed, pubkeys=[key.hex() for key in script_keys(inner)])
    elif kind == "pubkey":
        found.update(pubkey=known[0].hex())
    return found


@call(GROUP)
def getwalletinfo(node: Node) -> Object:
    """What the wallet is."""
    with using(node) as wallet:
        sums = wallet.ledger.balances()
        sizes = [wallet.active(DEFAULT_TYPE, is_internal) for is_internal in (False, True)]
        outer, inner = (0 if own is None else own.high - own.next for own in sizes)
        scanning = wallet.scan_state()
        return {
            "walletname": wallet.name,
            "walletversion": WALLET_VERSION,
            "format": "sqlite",
            "balance": Amount(sums.trusted),
            "unconfirmed_balance": Amount(sums.pending),
            "immature_balance": Amount(sums.immature),
            "txcount": len(wallet.ledger.records),
            "keypoolsize": outer,
            "keypoolsize_hd_internal": inner,
            "paytxfee": Amount(wallet.rate),
            "private_keys_enabled": wallet.has_private,
            "avoid_reuse": False,
            "scanning": False if scanning is None else {"duration": int(scanning[0]), "progress": scanning[1]},
            "descriptors": True,
        }


@call(GROUP, "newsize")
def keypoolrefill(node: Node, newsize: Any) -> None:
    """Has so many keys known beyond those that were given."""
    with using(node) as wallet:
        size = None if newsize is None else integer(newsize)
        if size is not None and not 0 <= size <= MOST_KEYPOOL:
            raise RpcError(INVALID_PARAMETER, "Invalid parameter, expected valid size.")
        for own in list(wallet.owned.values()):
            wallet.refill(own, size or None)


# ---- private keys


@call(GROUP, "address", needed=1)
def dumpprivkey(node: Node, address: Any) -> str:
    """The private key of an address of the wallet, or of one that getnewaddress gave without one."""
    if named(node) is None:
        return keys.private_key(node, address)
    with using(node) as wallet:
        script = _script(address)
        if is_script_hash(script):
            raise RpcError(TYPE_ERROR, "Address does not refer to a key")
        known = wallet.key_for(script)
        if known is not None and known.keys and known.keys[0].secret is not None:
            return secret_text(known.keys[0].secret, len(known.keys[0].key) == 33)
    # It may be one that was given before a wallet was loaded.
    return keys.private_key(node, address)


@call(GROUP, "address", "message", needed=2)
def signmessage(node: Node, address: Any, message: Any) -> str:
    """Signs a message by the key of an address of the wallet: in base 64, as `verifymessage` reads it."""
    with using(node) as wallet:
        script, said = address_script(text(address)), text(message).encode()
        if script is None or is_script_hash(script):
            raise RpcError(TYPE_ERROR, "Invalid address" if script is None else "Address does not refer to key")
        known = wallet.key_for(script)
        if known is None or not known.keys or known.keys[0].secret is None:
            raise RpcError(WALLET_ERROR, "Private key not available")
        digest = double_sha(b"\x18Bitcoin Signed Message:\n" + compact(len(said)) + said)
        made = curve().sign_recoverable(known.keys[0].secret, digest)
        first = 27 + made[0] + 4 * (len(known.keys[0].key) == 33)
        return base64.b64encode(bytes([first]) + made[1:]).decode()


@call(GROUP, "privkey", "label", "rescan", needed=1)
def importprivkey(node: Node, privkey: Any, label: Any, rescan: Any) -> None:
    """Adds a private key, as the descriptor combo of it, and looks for its coins in all blocks unless rescan is false."""
    with using(node) as wallet:
        if not wallet.has_private:
            raise RpcError(WALLET_ERROR, _NO_PRIVATE)
        word, own = text(privkey), "" if label is None else text(label)
        looks = True if rescan is None else boolean(rescan)
        secret = read_secret(word.strip())
        if secret is None:
            raise RpcError(INVALID_ADDRESS_OR_KEY, "Invalid private key encoding")
        try:
            key = curve().public_key(*secret)
        except ValueError:
            raise RpcError(INVALID_ADDRESS_OR_KEY, "Private key outside allowed range") from None
        wallet.add(f"combo({secret_text(*secret)})", 1)
        script = key_script(key)
        if label is not None or script not in wallet.labels:
            wallet.set_label(script, own, "receive")
    if looks:
        with node.others():
            rescanned(node, wallet, 0, None)


# ---- labels


@call(GROUP, "address", "label", needed=2)
def setlabel(node: Node, address: Any, label: Any) -> None:
    """Gives an address a label."""
    with using(node) as wallet:
        script = _script(address)
        wallet.set_label(script, label_of(label), "receive" if wallet.owner(script) is not None else "send")


@call(GROUP, "label", needed=1)
def getaddressesbylabel(node: Node, label: Any) -> Object:
    """The addresses that have a label."""
    with using(node) as wallet:
        wanted = label_of(label)
        found = {destination(script): {"purpose": purpose} for script, (own, purpose) in wallet.labels.items() if own == wanted}
        if not found:
            raise RpcError(INVALID_LABEL_NAME, f"No addresses with label {wanted[:1000]}")
        return {address: about for address, about in found.items() if address is not None}


@call(GROUP, "purpose")
def listlabels(node: Node, purpose: Any) -> List[str]:
    """All labels, or those of addresses that are for a purpose: receive or send."""
    with using(node) as wallet:
        wanted = None if purpose is None else text(purpose)
        return sorted({label for label, own in wallet.labels.values() if not wanted or own == wanted})


# ---- descriptors


@call(GROUP, "requests", needed=1, types=("array",))
def importdescriptors(node: Node, requests: Any) -> List[Object]:
    """Adds descriptors: {"desc", "active", "range", "next_index", "timestamp", "internal", "label"}, and looks for their coins from
    the blocks of the lowest timestamp on, which may be "now"."""
    found: List[Object] = []
    lowest: Optional[int] = None
    with using(node) as wallet:
        now = wallet.host.now()
        moments = [_timestamp(object_of(it), now) for it in requests]
        for given, moment in zip(requests, moments):
            try:
                answer: Object = {"success": True}
                warnings = _imported(wallet, given, moment)
                if warnings:
                    answer["warnings"] = warnings
                lowest = moment if lowest is None else min(lowest, moment)
            except RpcError as error:
                answer = {"success": False, "error": {"code": error.code, "message": str(error)}}
            found.append(answer)
    if lowest is not None and lowest < now:
        with node.others():
            rescanned(node, wallet, wallet.height_at(lowest), None)
    return found


def _timestamp(given: Object, now: int) -> int:
    value = given.get("timestamp")
    if value is None:
        raise RpcError(TYPE_ERROR, "Missing required timestamp field for key")
    if value == "now":
        return now
    if not is_number(value):
        raise RpcError(TYPE_ERROR, f'Expected number or "now" timestamp value for key. got type {kind_name(value)}')
    return max(1, integer(value, 64))


def _imported(wallet: Wallet, given: Object, moment: int) -> List[str]:
    """Adds a descriptor: what is said of it besides."""
    if given.get("desc") is None:
        raise RpcError(INVALID_PARAMETER, "Descriptor not found.")
    spelled = text(given["desc"])
    flags = {name: given.get(name) is not None and boolean(given[name]) for name in ("active", "internal")}
    label = "" if given.get("label") is None else label_of(given["label"])
    own = without_checksum(spelled)
    if "#" not in spelled:
        raise RpcError(INVALID_ADDRESS_OR_KEY, "Missing checksum")
    expect_spendable(own)
    found = read_descriptor(own)
    warnings: List[str] = []
    low, high, next = _range(wallet, found, given, warnings)
    _expect_fitting(wallet, found, own, flags, label)
    if flags["active"] and not found.is_range:
        raise RpcError(INVALID_PARAMETER, "Active descriptors must be ranged")
    _expect_derivable(wallet, found, low)
    if wallet.has_private and _lacks_keys(found, low):
        warnings.append("Not all private keys provided. Some wallet functionality may return unexpected errors")
    gives = flags["active"] and own.partition("(")[0] in FUNCTIONS
    if flags["active"] and not gives:
        warnings.append("Unknown output type, cannot set descriptor to active.")
    added = wallet.add(found.private, moment, low, high, next, gives, flags["internal"])
    if not found.is_range and not flags["internal"]:
        _set_labels(wallet, added, label)
    return warnings


def _range(wallet: Wallet, found: Descriptor, given: Object, warnings: List[str]) -> List[int]:
    """The first place, the one behind the last, and the next that is given."""
    if not found.is_range:
        if given.get("range") is not None:
            raise RpcError(INVALID_PARAMETER, "Range should not be specified for an un-ranged descriptor")
        return [0, 1, 0]
    if given.get("range") is None:
        warnings.append("Range not given, using default keypool range")
        low, high = 0, wallet.settings.keypool
    else:
        low, last = descriptor_range(given["range"])
        high = last + 1
    next = low
    if given.get("next_index") is not None:
        next = integer(given["next_index"], 64)
        if not low <= next < high:
            raise RpcError(INVALID_PARAMETER, "next_index is out of range")
    return [low, high, next]


def _expect_fitting(wallet: Wallet, found: Descriptor, own: str, flags: Dict[str, bool], label: str) -> None:
    """That the wallet may have it so."""
    if found.is_range and label:
        raise RpcError(INVALID_PARAMETER, "Ranged descriptors should not have a label")
    if flags["internal"] and label:
        raise RpcError(INVALID_PARAMETER, "Internal addresses should not have a label")
    if flags["active"] and own.startswith("combo("):
        raise WalletError(WALLET_ERROR, "Combo descriptors cannot be set to active")
    if found.has_private and not wallet.has_private:
        raise RpcError(WALLET_ERROR, _NO_PRIVATE)
    if not found.has_private and wallet.has_private:
        message = "Cannot import descriptor without private keys to a wallet with private keys enabled"
        raise RpcError(WALLET_ERROR, message)


def _expect_derivable(wallet: Wallet, found: Descriptor, low: int) -> None:
    """That its scripts are known, and none is of a kind that anyone might spend."""
    try:
        scripts = found.at(low)
    except Underivable:
        message = "Cannot expand descriptor. Probably because of hardened derivations without private keys provided"
        raise RpcError(INVALID_ADDRESS_OR_KEY, message) from None
    if not any(map(is_spendable, scripts)):
        raise RpcError(INVALID_ADDRESS_OR_KEY, f"A script of the type {kind_of(scripts[0].code)[0]} can't be spent here")


def _lacks_keys(found: Descriptor, low: int) -> bool:
    return any(key.secret is None for script in found.at(low) for key in script.keys)


def _set_labels(wallet: Wallet, own: Owned, label: str) -> None:
    for script in own.scripts(own.low):
        if destination(script.code) is not None:
            wallet.set_label(script.code, label, "receive")


@call(GROUP, "private")
def listdescriptors(node: Node, private: Any) -> Object:
    """The wallet's descriptors, with private keys where that is asked for."""
    with using(node) as wallet:
        is_private = private is not None and boolean(private)
        if is_private and not wallet.has_private:
            raise RpcError(WALLET_ERROR, "Can't get private descriptor string for watch-only wallets")
        return {"wallet_name": wallet.name, "descriptors": [_listed(own, is_private) for own in wallet.owned.values()]}


def _listed(own: Owned, is_private: bool) -> Object:
    found: Object = {"desc": own.shown(is_private), "timestamp": own.timestamp, "active": own.is_active}
    if own.is_active:
        found["internal"] = own.is_internal
    if own.found.is_range:
        found.update(range=[own.low, own.high - 1], next=own.next)
    return found
