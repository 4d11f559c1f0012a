"""The keys of a wallet: a seed's (BIP 32), the descriptors that a new wallet has, and the descriptors that it was given."""

from dataclasses import dataclass
from functools import lru_cache
from itertools import compress
from typing import Dict, List, NamedTuple, Optional, Tuple

from ..addresses import address_of, base58, spelled
from ..encoding import hash160
from ..extendedkeys import PRIVATE, PUBLIC, ExtendedKey, master
from ..rpc.checksums import checksum
from ..rpc.descriptors import Descriptor, Script, curve, read_descriptor
from ..rpc.errors import INVALID_ADDRESS_OR_KEY, KEYPOOL_RAN_OUT
from ..rpc.scripts import KEY_PREFIX, kind_of
from ..rpc.signing import SECRET_PREFIX
from .errors import WalletError

#: How many keys of a range are known beyond the last that was used (-keypool).
KEYPOOL = 1000
#: The coin type of test chains (BIP 44).
COIN_TYPE = 1


class AddressType(NamedTuple):
    """A type of addresses: the descriptor of a new wallet, whose words are its key and the branch; None for one that the chain
    has no rules for, so that anyone might spend what is paid to it."""

    descriptor: Optional[str]


#: The types of addresses that calls may ask for. One that the chain learns to spend gets its descriptor here.
TYPES: Dict[str, AddressType] = {
    "legacy": AddressType("pkh({key}/44'/{coin}'/0'/{branch}/*)"), "p2sh-segwit": AddressType(None),
    "bech32": AddressType(None), "bech32m": AddressType(None),
}  # fmt: skip
#: The types of the addresses that functions of descriptors give.
FUNCTIONS = {"pkh": "legacy", "sh": "legacy"}
#: The type of addresses where none is asked for.
DEFAULT_TYPE = "legacy"
#: The kinds of scripts that the chain has rules for.
SPENDABLE = ("pubkey", "pubkeyhash", "multisig", "scripthash")


def expect_type(name: str) -> None:
    """That addresses of a type may be given."""
    if name not in TYPES:
        more = "" if len(name) <= 100 else ".."
        raise WalletError(INVALID_ADDRESS_OR_KEY, f"Unknown address type '{name[:100]}{more}'")
    if TYPES[name].descriptor is None:
        raise WalletError(KEYPOOL_RAN_OUT, f"Error: No {name} addresses available.")


def extended_text(key: ExtendedKey, is_private: bool = True) -> str:
    """A seed's key as wallets write it: `tprv..`, or `tpub..`."""
    own = b"\0" + key.secret if is_private and key.secret is not None else key.key
    return base58((PRIVATE if is_private else PUBLIC) + bytes(9) + key.chain + own)


def first_descriptors(seed: bytes, type: str, is_internal: bool) -> str:
    """The descriptor of a type that a new wallet has, of a seed."""
    shape = TYPES[type].descriptor
    assert shape is not None, "it is a type that is given"
    key = extended_text(master(curve(), seed))
    return shape.format(key=key, coin=COIN_TYPE, branch=int(is_internal))


def secret_text(secret: bytes, is_compressed: bool = True) -> str:
    """A private key as wallets write it."""
    return base58(bytes([SECRET_PREFIX]) + secret + b"\1" * is_compressed)


def destination(script: bytes) -> Optional[str]:
    """The address of a script; a key's is that of its hash (Bitcoin Core's `ExtractDestination`)."""
    if kind_of(script)[0] == "pubkey":
        return spelled(KEY_PREFIX, hash160(script[1:-1]))
    return address_of(script)


@lru_cache(maxsize=1000)
def read(text: str) -> Descriptor:
    """A descriptor of a wallet, without its checksum."""
    return read_descriptor(text)


@dataclass
class Owned:
    """A descriptor of a wallet: its text with the private keys, since when it is used, the range of places whose scripts are the
    wallet's, and the next place that is given."""

    number: int
    text: str
    timestamp: int
    low: int
    high: int
    next: int
    is_active: bool = False
    is_internal: bool = False
    #: How far its scripts are known; it isn't kept.
    known: int = 0

    @property
    def found(self) -> Descriptor:
        return read(self.text)

    @property
    def type(self) -> Optional[str]:
        """The type of its addresses; None for what gives none."""
        return FUNCTIONS.get(self.text.partition("(")[0])

    def scripts(self, place: int) -> List[Script]:
        """Those of its scripts that the chain has rules for."""
        return list(compress(self.found.at(place), _which(self.text, self.low)))

    def shown(self, is_private: bool) -> str:
        """The descriptor with its checksum."""
        text = self.found.private if is_private else self.found.text
        return f"{text}#{checksum(text)}"


def is_spendable(script: Script) -> bool:
    """Whether the chain has rules for a script, and for the one whose hash it pays to."""
    return all(kind_of(code)[0] in SPENDABLE for code in (script.code, script.inner) if code is not None)


@lru_cache(maxsize=1000)
def _which(text: str, place: int) -> Tuple[bool, ...]:
    """Which of a descriptor's scripts the chain has rules for: the same at all places."""
    found = read(text)
    return tuple(is_spendable(it) or not found.is_solvable for it in found.at(place))


def expect_spendable(text: str) -> None:
    """That a descriptor has scripts that the chain has rules for, and none that anyone might spend."""
    name, inner = text.partition("(")[0], text.partition("(")[2].partition("(")[0]
    if name in ("wpkh", "wsh", "tr") or (name == "sh" and inner in ("wpkh", "wsh")):
        message = f"Descriptor {name}(..) has no rules on this chain: anyone may spend its coins"
        raise WalletError(INVALID_ADDRESS_OR_KEY, message)
