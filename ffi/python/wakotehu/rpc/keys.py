"""What getnewaddress and dumpprivkey answer where no wallet is loaded: keys of this run. Nothing is signed by them but with their
private keys."""

import os
from typing import Any

from ..addresses import base58, spelled
from ..encoding import hash160
from ..signatures import Secp256k1
from .errors import (
    INVALID_ADDRESS_OR_KEY, INVALID_LABEL_NAME, KEYPOOL_RAN_OUT, TYPE_ERROR, WALLET_ERROR, RpcError,
)  # fmt: skip
from .node import Node
from .scripts import KEY_PREFIX, address_script, is_script_hash
from .signing import SECRET_PREFIX
from .values import shortened, text

#: The types of addresses of Bitcoin Core, of which the first is given.
_TYPES = ("legacy", "p2sh-segwit", "bech32", "bech32m")


def new_address(node: Node, label: Any, address_type: Any) -> str:
    """An address of a new key, of type legacy."""
    if label is not None and text(label) == "*":
        raise RpcError(INVALID_LABEL_NAME, "Invalid label name")
    kind = _TYPES[0] if address_type is None else text(address_type)
    if kind not in _TYPES:
        raise RpcError(INVALID_ADDRESS_OR_KEY, f"Unknown address type '{shortened(kind)}'")
    if kind != _TYPES[0]:
        raise RpcError(KEYPOOL_RAN_OUT, f"Error: No {kind} addresses available.")
    # One of 2^128 numbers is no key.
    secret = os.urandom(32)
    digest = hash160(Secp256k1().public_key(secret))
    node.keys[digest] = secret
    return spelled(KEY_PREFIX, digest)


def private_key(node: Node, address: Any) -> str:
    """The private key of an address that `new_address` gave since the server began."""
    with node.others():
        script = address_script(text(address))
    if script is None:
        raise RpcError(INVALID_ADDRESS_OR_KEY, "Invalid Bitcoin address")
    if is_script_hash(script):
        raise RpcError(TYPE_ERROR, "Address does not refer to a key")
    secret = node.keys.get(script[3:23])
    if secret is None:
        raise RpcError(WALLET_ERROR, f"Private key for address {address} is not known")
    return base58(bytes([SECRET_PREFIX]) + secret + b"\1")
