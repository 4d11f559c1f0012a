"""Extended keys (BIP 32): keys with which more keys are derived."""

import hashlib
import hmac
from typing import NamedTuple, Optional

from .encoding import hash160
from .signatures import Secp256k1

#: The first bytes of extended keys of regtest, and how many bytes one has.
PUBLIC, PRIVATE, SIZE = bytes.fromhex("043587cf"), bytes.fromhex("04358394"), 78
#: The first number of hardened keys, which are derived from a secret alone.
HARDENED = 0x80000000
#: The order of the curve.
_ORDER = 0xFFFFFFFFFFFFFFFFFFFFFFFFFFFFFFFEBAAEDCE6AF48A03BBFD25E8CD0364141


class ExtendedKey(NamedTuple):
    """A public key of 33 bytes with a chain code of 32, and its secret where it is known."""

    key: bytes
    chain: bytes
    secret: Optional[bytes] = None

    @property
    def fingerprint(self) -> bytes:
        """The first four bytes of the key's hash."""
        return hash160(self.key)[:4]

    def child(self, secp: Secp256k1, number: int) -> Optional["ExtendedKey"]:
        """The key of a number, hardened from `HARDENED` on; None where that needs a secret which isn't known. (One of 2^127
        numbers has no key, and is None too.)"""
        front = self.key
        if number >= HARDENED:
            if self.secret is None:
                return None
            front = b"\0" + self.secret
        both = hmac.digest(self.chain, front + number.to_bytes(4, "big"), hashlib.sha512)
        tweak, chain = both[:32], both[32:]
        if self.secret is None:
            key = secp.tweaked(self.key, tweak)
            return None if key is None else ExtendedKey(key, chain)
        secret = (int.from_bytes(tweak, "big") + int.from_bytes(self.secret, "big")) % _ORDER
        if int.from_bytes(tweak, "big") >= _ORDER or not secret:
            return None
        own = secret.to_bytes(32, "big")
        return ExtendedKey(secp.public_key(own), chain, own)


def master(secp: Secp256k1, seed: bytes) -> ExtendedKey:
    """The key of a seed, of 16 to 64 bytes (BIP 32). (One of 2^127 seeds has none: `ValueError`.)"""
    both = hmac.digest(b"Bitcoin seed", seed, hashlib.sha512)
    return ExtendedKey(secp.public_key(both[:32]), both[32:], both[:32])


def read_extended(secp: Secp256k1, data: bytes) -> Optional[ExtendedKey]:
    """An extended key of regtest, from its 78 bytes; None where these are none."""
    if len(data) != SIZE or data[:4] not in (PUBLIC, PRIVATE):
        return None
    chain, key = data[13:45], data[45:]
    if data[:4] == PUBLIC:
        return ExtendedKey(key, chain)
    try:
        return ExtendedKey(secp.public_key(key[1:]), chain, key[1:])
    except ValueError:
        return None
