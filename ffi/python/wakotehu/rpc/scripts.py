"""Scripts as calls show them, and addresses and descriptors as calls take them."""

import re
from itertools import islice
from typing import Dict, List, Optional, Tuple

from ..addresses import MAX_ADDRESS, PREFIXES, data_of, script_of, spelled as address
from ..encoding import hash160, operations
from ..spelling import NAMES
from .checksums import checksum, is_spelled
from .errors import INVALID_ADDRESS_OR_KEY, RpcError
from .values import HASH_TYPES, unhexed

#: The first bytes of addresses of regtest, to a hash of a key and of a script.
KEY_PREFIX, SCRIPT_PREFIX = PREFIXES["regtest"]
#: What Bitcoin Core skips around an address.
_SPACES = b" \f\n\r\t\v"
#: A script of more bytes can't be spent.
MAX_SCRIPT = 10_000
#: A script of keys has no more of them.
MOST_KEYS = 16
_WITNESS = {
    (0, 22): "witness_v0_keyhash", (0, 34): "witness_v0_scripthash", (0x51, 34): "witness_v1_taproot",
}  # fmt: skip
#: A descriptor's script has no more digits.
MAX_RAW = 2 * 1_000_000

#: Opcodes as words.
_NAMED: Dict[int, str] = {0: "0", 0x4F: "-1", **{0x50 + number: str(number) for number in range(1, 17)}}
_NAMED.update({0x50: "OP_RESERVED", 0xFF: "OP_INVALIDOPCODE"})
_NAMED.update((number, "OP_" + name) for number, name in (*NAMES.items(), (0xBA, "CHECKSIGADD")))
#: The same by their numbers. A script may have a million of one.
_WORDS = [_NAMED.get(number, "OP_UNKNOWN") for number in range(256)]
#: Opcodes that push nothing, in a row.
_PLAIN = re.compile(b"[\0\x4f-\xff]+")
_HASH_TYPES = {kind: name for name, kind in HASH_TYPES.items()}


def asm(script: bytes, signatures: bool = False) -> str:
    """A script's operations as words (Bitcoin Core's `ScriptToAsmStr`); with `signatures` the hash type of what reads as
    one is a word, except for scripts that can't be spent."""
    signatures = signatures and script[:1] != b"\x6a" and len(script) <= MAX_SCRIPT
    words: List[str] = []
    at = 0
    while at < len(script):
        if not 0 < script[at] < 0x4F:
            plain = _PLAIN.match(script, at)
            assert plain is not None, "it is one of them"
            words += [_WORDS[number] for number in plain[0]]
            at = plain.end()
            continue
        data, at = _pushed_at(script, at)
        if data is None:
            words.append("[error]")
        elif len(data) <= 4:
            words.append(_NUMBERS.get(data) or str(_script_number(data)))
        else:
            words.append(_signature_words(data) if signatures else data.hex())
    return " ".join(words)


def _pushed_at(script: bytes, at: int) -> Tuple[Optional[bytes], int]:
    """What the operation at a place pushes, and where it ends; None where the script ends before that."""
    begin = at + 1
    end = begin + script[at]
    if script[at] > 0x4B:
        begin += {0x4C: 1, 0x4D: 2, 0x4E: 4}[script[at]]
        end = begin + int.from_bytes(script[at + 1 : begin], "little")
    return (script[begin:end] if end <= len(script) else None), end


def _script_number(data: bytes) -> int:
    value, sign = int.from_bytes(data, "little"), 1 << 8 * len(data) >> 1
    return -(value - sign) if data and value & sign else value


#: Numbers of one byte as words.
_NUMBERS = {bytes([byte]): str(_script_number(bytes([byte]))) for byte in range(256)}


def _signature_words(data: bytes) -> str:
    """Data that is a signature of BIP 66's form with a known hash type has that as a word."""
    kind = _HASH_TYPES.get(data[-1])
    return f"{data[:-1].hex()}[{kind}]" if kind and _is_strict(data) else data.hex()


def _is_strict(data: bytes) -> bool:
    """BIP 66's form, with the hash type."""
    if not 9 <= len(data) <= 73 or data[0] != 0x30 or data[1] != len(data) - 3:
        return False
    long = data[3]
    if 5 + long >= len(data):
        return False
    short = data[5 + long]
    if long + short + 7 != len(data) or data[2] != 2 or data[4 + long] != 2 or not long or not short:
        return False
    for number in (data[4 : 4 + long], data[6 + long : 6 + long + short]):
        if number[0] & 0x80 or (len(number) > 1 and number[0] == 0 and not number[1] & 0x80):
            return False
    return True


def _is_key(data: bytes) -> bool:
    return (len(data) == 33 and data[0] in (2, 3)) or (len(data) == 65 and data[0] in (4, 6, 7))


def _is_data(script: bytes) -> bool:
    """Whether a script is OP_RETURN and pushes."""
    end = 0
    if script[:1] != b"\x6a":
        return False
    for begin, number, _, end in operations(script):
        if number != 0x6A if begin == 0 else number > 0x60:
            return False
    return bool(script) and end == len(script)


def _few(script: bytes) -> List[Tuple[int, int, Optional[bytes], int]]:
    """The operations of a script; empty where they are more than keys to sign for may have, or can't all be read."""
    found = list(islice(operations(script), MOST_KEYS + 4))
    return found if found and found[-1][3] == len(script) and len(found) <= MOST_KEYS + 3 else []


def _multisig(script: bytes) -> Optional[Tuple[int, List[bytes]]]:
    """How many signatures a script of keys asks for, and its keys."""
    found = _few(script)
    if len(found) < 4 or found[-1][1] != 0xAE:
        return None
    needed, most = found[0][1] - 0x50, found[-2][1] - 0x50
    keys = [data for _, _, data, _ in found[1:-2] if data is not None and _is_key(data)]
    if not 1 <= needed <= most <= 16 or len(keys) != len(found) - 3 or len(keys) != most:
        return None
    return needed, keys


def script_keys(script: bytes) -> List[bytes]:
    """The keys of a script to one key or to several; empty for others."""
    kind = kind_of(script)[0]
    if kind == "pubkey":
        return [script[1:-1]]
    found = _multisig(script) if kind == "multisig" else None
    return found[1] if found else []


def is_script_hash(script: bytes) -> bool:
    """Whether a script pays to the hash of another one."""
    return len(script) == 23 and script[:2] == b"\xa9\x14" and script[22:] == b"\x87"


def key_script(key: bytes) -> bytes:
    """The script that pays to a key's hash."""
    return b"\x76\xa9\x14" + hash160(key) + b"\x88\xac"


def kind_of(script: bytes) -> Tuple[str, int, List[str]]:
    """A script's type, how many signatures spend it, and the addresses that it pays to (Bitcoin Core's `Solver`)."""
    if is_script_hash(script):
        return "scripthash", 1, [address(SCRIPT_PREFIX, script[2:22])]
    if len(script) == 25 and script[:3] == b"\x76\xa9\x14" and script[23:] == b"\x88\xac":
        return "pubkeyhash", 1, [address(KEY_PREFIX, script[3:23])]
    if 4 <= len(script) <= 42 and (script[0] == 0 or 0x51 <= script[0] <= 0x60) and script[1] + 2 == len(script):
        other = "nonstandard" if script[0] == 0 else "witness_unknown"
        return _WITNESS.get((script[0], len(script)), other), 0, []
    if _is_data(script):
        return "nulldata", 0, []
    found = _few(script)
    if len(found) == 2 and found[1][1] == 0xAC and found[0][2] and _is_key(found[0][2]):
        return "pubkey", 1, []
    keys = _multisig(script)
    if keys:
        return "multisig", keys[0], [address(KEY_PREFIX, hash160(key)) for key in keys[1]]
    return "nonstandard", 0, []


def shown(script: bytes, with_hex: bool = True) -> Dict[str, object]:
    """A script as Bitcoin Core 0.21 shows it, with the `address` of later versions beside `addresses`."""
    kind, needed, addresses = kind_of(script)
    fields: Dict[str, object] = {"asm": asm(script)}
    if with_hex:
        fields["hex"] = script.hex()
    if addresses:
        fields["reqSigs"] = needed
        if kind in ("pubkeyhash", "scripthash"):
            fields["address"] = addresses[0]
    fields["type"] = kind
    if addresses:
        fields["addresses"] = addresses
    return fields


def compact(number: int) -> bytes:
    """A count of less than 2^32 as bytes."""
    if number < 253:
        return bytes([number])
    return b"\xfd" + number.to_bytes(2, "little") if number < 2**16 else b"\xfe" + number.to_bytes(4, "little")


# ---- addresses and descriptors


def address_script(text: str) -> Optional[bytes]:
    """The script that an address of regtest pays to, or None. Spaces around it don't count."""
    # Bytes are stripped some times as fast as texts.
    return script_of(text.encode().strip(_SPACES).decode()) if text.isascii() else None


def base58_data(text: str, most: int = MAX_ADDRESS) -> Optional[bytes]:
    """What a text in base 58 has before the four bytes of its digest, or None. Spaces around it don't count."""
    return data_of(text.encode().strip(_SPACES).decode(), most) if text.isascii() else None


def fixed_script(text: str) -> Optional[bytes]:
    """The script of `raw(HEX)` or `addr(ADDRESS)`, or None."""
    if text[-1:] != ")":
        return None
    if text[:4] == "raw(":
        # One that is too long isn't read.
        return unhexed(text[4:-1]) or None if len(text) <= MAX_RAW + 5 else None
    return address_script(text[5:-1]) if text[:5] == "addr(" else None


def without_checksum(descriptor: str) -> str:
    """A descriptor without its checksum, which has to be right where it is there (Bitcoin Core's `CheckChecksum`)."""
    text, *checks = descriptor.split("#", 2)
    if len(checks) > 1:
        raise RpcError(INVALID_ADDRESS_OR_KEY, "Multiple '#' symbols")
    if checks and len(checks[0].encode()) != 8:
        message = f"Expected 8 character checksum, not {len(checks[0].encode())} characters"
        raise RpcError(INVALID_ADDRESS_OR_KEY, message)
    computed = checksum(text) if checks else ""
    if not computed and not is_spelled(text):
        raise RpcError(INVALID_ADDRESS_OR_KEY, "Invalid characters in payload")
    if checks and checks[0] != computed:
        message = f"Provided checksum '{checks[0]}' does not match computed checksum '{computed}'"
        raise RpcError(INVALID_ADDRESS_OR_KEY, message)
    return text
