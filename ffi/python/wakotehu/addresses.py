"""Addresses in base 58, of hashes of keys and of scripts."""

from typing import Dict, Optional, Tuple

from . import arguments
from .encoding import double_sha, push

_DIGITS = "123456789ABCDEFGHJKLMNPQRSTUVWXYZabcdefghijkmnopqrstuvwxyz"
#: Two digits at once, by their value.
_PAIRS = [high + low for high in _DIGITS for low in _DIGITS]
#: Ten digits are a number below this, with which Python divides faster than with longer ones.
_TEN = 58**10
_VALUES = {digit: value for value, digit in enumerate(_DIGITS)}
#: An address has no more characters.
MAX_ADDRESS = 100
#: The first bytes of addresses, to a hash of a key and of a script.
PREFIXES: Dict[str, Tuple[int, int]] = {"main": (0, 5), "test": (111, 196), "regtest": (111, 196)}


def address_of(script: bytes, network: str = "regtest") -> Optional[str]:
    """The address that pays to a script: to a key's hash or to a script's, else None. `network` is "main", "test" or
    "regtest"."""
    script = arguments.octets(script, "script")
    key, inner = PREFIXES[arguments.word(network, "network", PREFIXES)]
    if len(script) == 25 and script[:3] == b"\x76\xa9\x14" and script[23:] == b"\x88\xac":
        return spelled(key, script[3:23])
    if len(script) == 23 and script[:2] == b"\xa9\x14" and script[22:] == b"\x87":
        return spelled(inner, script[2:22])
    return None


def script_of(address: str, network: str = "regtest") -> Optional[bytes]:
    """The script that an address of the network pays to, or None."""
    address = arguments.text(address, "address")
    key, inner = PREFIXES[arguments.word(network, "network", PREFIXES)]
    data = data_of(address)
    if data is None or len(data) != 21:
        return None
    if data[0] == key:
        return b"\x76\xa9" + push(data[1:]) + b"\x88\xac"
    return b"\xa9" + push(data[1:]) + b"\x87" if data[0] == inner else None


def data_of(text: str, most: int = MAX_ADDRESS) -> Optional[bytes]:
    """What a text in base 58 has before the four bytes of its digest, or None. Each zero byte in front is a digit 1."""
    if len(text) > most or not text:
        return None
    number = 0
    for digit in text:
        if digit not in _VALUES:
            return None
        number = number * 58 + _VALUES[digit]
    data = bytes(len(text) - len(text.lstrip("1"))) + number.to_bytes((number.bit_length() + 7) // 8, "big")
    return data[:-4] if len(data) >= 4 and double_sha(data[:-4])[:4] == data[-4:] else None


def spelled(prefix: int, digest: bytes) -> str:
    """The address of a first byte and a hash."""
    return base58(bytes([arguments.number(prefix, "prefix", 8)]) + arguments.octets_of(digest, 20, "digest"))


def base58(data: bytes) -> str:
    """Bytes in base 58, with four bytes of their digest."""
    data += double_sha(data)[:4]
    number, pairs = int.from_bytes(data, "big"), []
    while number:
        number, ten = divmod(number, _TEN)
        for _ in range(5):
            ten, pair = divmod(ten, 3364)
            pairs.append(_PAIRS[pair])
    return "1" * (len(data) - len(data.lstrip(b"\0"))) + "".join(reversed(pairs)).lstrip("1")
