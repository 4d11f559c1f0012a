"""Descriptors as Bitcoin Core 0.21 reads them (doc/descriptors.md), and the scripts that they name."""

import re
from functools import lru_cache
from hashlib import sha256
from itertools import islice
from typing import Any, Callable, List, NamedTuple, Optional, Tuple

from ..addresses import base58, spelled
from ..encoding import hash160, push
from ..extendedkeys import HARDENED, PUBLIC, ExtendedKey, read_extended
from ..signatures import Secp256k1
from .errors import INVALID_ADDRESS_OR_KEY, INVALID_PARAMETER, RpcError
from .node import Node, call
from .checksums import checksum
from .scripts import KEY_PREFIX, MAX_RAW, MOST_KEYS, address_script, base58_data, fixed_script, kind_of, without_checksum
from .signing import read_secret
from .values import Object, integer, is_number, unhexed

#: An extended key has no more characters. A script of which the hash is spent has no more bytes; a bare one no more keys.
MAX_EXTENDED, MAX_ELEMENT, MOST_BARE = 120, 520, 3

_KEYS = ("pk", "pkh", "combo", "wpkh")
_MULTI = ("sortedmulti", "multi")
#: Which functions may stand at the top, within sh, and within wsh.
_ALLOWED = {
    "": (*_KEYS, *_MULTI, "sh", "wsh", "addr", "raw"), "P2SH": ("pk", "pkh", "wpkh", *_MULTI, "wsh"),
    "P2WSH": ("pk", "pkh", *_MULTI),
}  # fmt: skip


def _fault(message: str) -> RpcError:
    return RpcError(INVALID_ADDRESS_OR_KEY, message)


class Underivable(Exception):
    """A key can't be derived without a private one."""


class Derived(NamedTuple):
    """A key, and where it comes from: the fingerprint of another one and a path; with its secret where that is known."""

    key: bytes
    fingerprint: str
    path: str
    secret: Optional[bytes] = None

    @property
    def text(self) -> str:
        return f"[{self.fingerprint}{self.path}]{self.key.hex()}"


class Script(NamedTuple):
    """A script, and a descriptor of it that names its keys; these keys, and the script whose hash it pays to."""

    code: bytes
    text: str
    keys: Tuple[Derived, ...] = ()
    inner: Optional[bytes] = None

    @property
    def hashed(self) -> "Script":
        """The script to its hash (BIP 16)."""
        return Script(b"\xa9\x14" + hash160(self.code) + b"\x87", f"sh({self.text})", self.keys, self.code)

    @property
    def witness(self) -> "Script":
        """The witness program of its hash (BIP 141)."""
        return Script(b"\0\x20" + sha256(self.code).digest(), f"wsh({self.text})", self.keys, self.code)


class _Key(NamedTuple):
    """A key of a descriptor in its own form, without private keys."""

    text: str
    size: int
    #: The key at a place of its range.
    at: Callable[[int], Derived]
    is_range: bool = False
    has_private: bool = False
    #: The same with its private keys.
    private: str = ""


class Descriptor(NamedTuple):
    """A descriptor, or a part of one, in its own form without private keys."""

    text: str
    #: Its scripts at a place of its range.
    at: Callable[[int], List[Script]]
    is_range: bool = False
    is_solvable: bool = True
    has_private: bool = False
    #: The same with its private keys.
    private: str = ""


@lru_cache(maxsize=None)
def curve() -> Secp256k1:
    """The curve, for all threads."""
    return Secp256k1()


def read_descriptor(text: str) -> Descriptor:
    """The descriptor of a text without its checksum."""
    found, rest = _script(curve(), text, "")
    if rest:
        raise _fault("")
    return found


def fixed_descriptor(descriptor: str) -> Optional[Script]:
    """The script of `raw(HEX)` or `addr(ADDRESS)`, with a right checksum or without one; None for others."""
    text, mark, check = descriptor.partition("#")
    code = fixed_script(text)
    # One that has a script has no character that descriptors have not.
    return Script(code, text) if code is not None and (not mark or check == checksum(text)) else None


def descriptor_script(descriptor: str) -> bytes:
    """The script of a descriptor without a range; of combo the one that Bitcoin Core mines to."""
    fixed = fixed_descriptor(descriptor)
    return _only(read_descriptor(without_checksum(descriptor))) if fixed is None else fixed.code


def _only(found: Descriptor) -> bytes:
    if found.is_range:
        message = "Ranged descriptor not accepted. Maybe pass through deriveaddresses first?"
        raise RpcError(INVALID_PARAMETER, message)
    try:
        scripts = found.at(0)
    except Underivable:
        raise _fault("Cannot derive script without private keys") from None
    # Of combo to the witness program of the key's hash, if it has one, and else to the key's hash.
    code = scripts[len(scripts) // 2].code
    if len(code) > MAX_RAW // 2:
        raise _fault(f"Script has more than {MAX_RAW // 2} bytes")
    return code


def output_script(output: str) -> bytes:
    """The script of a descriptor, or of an address."""
    fixed = fixed_descriptor(output)
    script = address_script(output) if fixed is None else fixed.code
    if script is not None:
        return script
    try:
        found = read_descriptor(without_checksum(output))
    except RpcError:
        raise _fault("Error: Invalid address or descriptor") from None
    return _only(found)


@call("Util", "descriptor", needed=1, types=("string",))
def getdescriptorinfo(node: Node, descriptor: Any) -> Object:
    """What a descriptor is, with its checksum, and in its own form without private keys."""
    with node.others():
        given = without_checksum(descriptor)
        found = read_descriptor(given)
        check = checksum(given)
        own = check if found.text == given else checksum(found.text)
    return {
        "descriptor": f"{found.text}#{own}",
        "checksum": check,
        "isrange": found.is_range,
        "issolvable": found.is_solvable,
        "hasprivatekeys": found.has_private,
    }


def descriptor_range(given: Any) -> Tuple[int, int]:
    """The lowest and highest place of a range (Bitcoin Core's `ParseDescriptorRange`)."""
    if type(given) is int and 0 <= given < 1_000_000:
        return 0, given
    both = given if isinstance(given, list) else [0, given]
    if len(both) != 2 or not all(map(is_number, both)):
        raise RpcError(INVALID_PARAMETER, "Range must be specified as end or as [begin,end]")
    low, high = (integer(it, 64) for it in both)
    if low > high and isinstance(given, list):
        raise RpcError(INVALID_PARAMETER, "Range specified as [begin,end] must not have begin after end")
    if low < 0:
        raise RpcError(INVALID_PARAMETER, "Range should be greater or equal than 0")
    if not 0 <= high < 2**31:
        raise RpcError(INVALID_PARAMETER, "End of range is too high")
    if high >= low + 1_000_000:
        raise RpcError(INVALID_PARAMETER, "Range is too large")
    return low, high


@call("Util", "descriptor", "range", needed=1, types=("string",), padded=False)
def deriveaddresses(node: Node, descriptor: Any, *range_given: Any) -> List[str]:
    """The addresses of a descriptor with its checksum, at the places of a range where it has one: an end, or [begin,end]."""
    low, high = descriptor_range(range_given[0]) if range_given and range_given[0] is not None else (0, 0)
    with node.others():
        text = without_checksum(descriptor)
        if "#" not in descriptor:
            raise _fault("Missing checksum")
        found = read_descriptor(text)
        if bool(range_given) != found.is_range:
            words = "must be specified for a ranged" if found.is_range else "should not be specified for an un-ranged"
            raise RpcError(INVALID_PARAMETER, f"Range {words} descriptor")
        return [_address(script) for place in range(low, high + 1) for script in _at(node, found, place)]


def _at(node: Node, found: Descriptor, place: int) -> List[Script]:
    node.expect_running()
    try:
        return found.at(place)
    except Underivable:
        raise _fault("Cannot derive script without private keys") from None


def _address(script: Script) -> str:
    """The address of a script; a key's is that of its hash (Bitcoin Core's `ExtractDestination`)."""
    kind, _, addresses = kind_of(script.code)
    if kind == "pubkey":
        return spelled(KEY_PREFIX, hash160(script.code[1:-1]))
    if kind not in ("pubkeyhash", "scripthash"):
        raise _fault("Descriptor does not have a corresponding address")
    return addresses[0]


_MARKS = re.compile("[(),]")
#: All bytes but these.
_OTHERS = bytes(set(range(256)) - set(b"(),"))
#: How many characters are looked at together, first and at most.
_FIRST, _MOST = 128, 1 << 16


def _end(text: str, begin: int = 0) -> int:
    """Where the expression ends that begins at a place: at a comma or bracket that isn't within it."""
    level, size = 0, _FIRST
    while begin < len(text):
        marks = text[begin : begin + size].encode().translate(None, _OTHERS)
        for place, mark in enumerate(marks):
            if mark == 0x28:
                level += 1
            elif level:
                level -= mark == 0x29
            else:
                return next(islice(_MARKS.finditer(text, begin), place, None)).start()
        begin, size = begin + size, min(2 * size, _MOST)
    return len(text)


def _script(secp: Secp256k1, text: str, within: str) -> Tuple[Descriptor, str]:
    """A function, and what is behind it."""
    end = _end(text)
    own, rest = text[:end], text[end:]
    name, _, inner = own.partition("(")
    if name not in _ALLOWED[within] or inner[-1:] != ")":
        raise _fault(_refused(own, name if inner[-1:] == ")" else "", within))
    inner = inner[:-1]
    if name in _KEYS:
        found = _of_key(name, _key(secp, inner, within != "P2WSH" and name != "wpkh"))
    elif name in _MULTI:
        found = _multi(secp, name, inner, within)
    elif name in ("sh", "wsh"):
        found, left = _script(secp, inner, "P2SH" if name == "sh" else "P2WSH")
        if left:
            raise _fault("")
        found = _of_hash(name, found)
    else:
        found = _fixed(name, inner)
    return found, rest


def _of_key(name: str, key: _Key) -> Descriptor:
    """A function of one key."""
    return Descriptor(
        f"{name}({key.text})", lambda place: _key_scripts(name, key.at(place)), key.is_range, has_private=key.has_private,
        private=f"{name}({key.private})",
    )  # fmt: skip


def _key_scripts(name: str, own: Derived) -> List[Script]:
    digest, text = hash160(own.key), own.text
    found = {
        "pk": Script(push(own.key) + b"\xac", f"pk({text})", (own,)),
        "pkh": Script(b"\x76\xa9\x14" + digest + b"\x88\xac", f"pkh({text})", (own,)),
        "wpkh": Script(b"\0\x14" + digest, f"wpkh({text})", (own,)),
    }
    if name != "combo":
        return [found[name]]
    more = [found["wpkh"], found["wpkh"].hashed] if len(own.key) == 33 else []
    return [found["pk"], found["pkh"], *more]


def _of_hash(name: str, inner: Descriptor) -> Descriptor:
    """A function of the hash of a script."""

    def at(place: int) -> List[Script]:
        return [script.hashed if name == "sh" else script.witness for script in inner.at(place)]

    return inner._replace(text=f"{name}({inner.text})", at=at, private=f"{name}({inner.private})")


def _refused(own: str, name: str, within: str) -> str:
    """Why a function isn't taken where it stands."""
    if within and name in ("combo", "sh"):
        return f"Cannot have {name} in non-top level"
    if within == "P2WSH" and name in ("wpkh", "wsh"):
        return f"Cannot have {name} within wsh"
    return f"A function is needed within {within}" if within else f"{own[:200]} is not a valid descriptor function"


def _fixed(name: str, inner: str) -> Descriptor:
    """An address, or a script's digits."""
    code = address_script(inner) if name == "addr" else unhexed(inner)
    if name == "addr" and code is None:
        raise _fault("Address is not valid")
    if not code:
        raise _fault("Raw script is not hex")
    text = f"{name}({inner.lower() if name == 'raw' else inner})"
    script = Script(code, f"{name}({inner})")
    return Descriptor(text, lambda place: [script], is_solvable=False, private=text)


def _number(word: str) -> Optional[int]:
    """A number of 32 bits."""
    digits = word[1:] if word[:1] == "+" else word
    if len(digits) > 10 or not (digits.isascii() and digits.isdigit()):
        return None
    found = int(digits)
    return found if found < 2**32 else None


def _multi(secp: Secp256k1, name: str, inner: str, within: str) -> Descriptor:
    """How many signatures, and of which keys."""
    end = _end(inner)
    needed = _number(inner[:end])
    if needed is None:
        raise _fault(f"Multi threshold '{inner[:end][:100]}' is not valid")
    keys: List[_Key] = []
    while end < len(inner):
        if inner[end] != ",":
            raise _fault(f"Multi: expected ',', got '{inner[end]}'")
        begin, end = end + 1, _end(inner, end + 1)
        keys.append(_key(secp, inner[begin:end], within != "P2WSH"))
    _expect_few(needed, keys, within)
    return _of_multi(name, needed, keys)


def _of_multi(name: str, needed: int, keys: List[_Key]) -> Descriptor:
    """So many signatures of some keys."""

    def at(place: int) -> List[Script]:
        own = [key.at(place) for key in keys]
        return [_of_keys(needed, sorted(own, key=lambda it: it.key) if name == "sortedmulti" else own)]

    return Descriptor(
        f"{name}({','.join([str(needed), *(key.text for key in keys)])})", at,
        is_range=any(key.is_range for key in keys), has_private=any(key.has_private for key in keys),
        private=f"{name}({','.join([str(needed), *(key.private for key in keys)])})",
    )  # fmt: skip


def _of_keys(needed: int, keys: List[Derived]) -> Script:
    """The script that asks for so many signatures of keys."""
    code = b"".join([bytes([0x50 + needed]), *(push(own.key) for own in keys), bytes([0x50 + len(keys)]), b"\xae"])
    return Script(code, f"multi({','.join([str(needed), *(own.text for own in keys)])})", tuple(keys))


def _expect_few(needed: int, keys: List[_Key], within: str) -> None:
    """That so many keys may stand in a script."""
    size = sum(key.size + 1 for key in keys) + 3
    if not 1 <= len(keys) <= MOST_KEYS:
        raise _fault(f"Cannot have {len(keys)} keys in multisig; must have between 1 and {MOST_KEYS} keys, inclusive")
    if needed < 1:
        raise _fault(f"Multisig threshold cannot be {needed}, must be at least 1")
    if needed > len(keys):
        raise _fault(
            f"Multisig threshold cannot be larger than the number of keys; threshold is {needed} but only {len(keys)} keys"
            " specified"
        )
    if not within and len(keys) > MOST_BARE:
        raise _fault(f"Cannot have {len(keys)} pubkeys in bare multisig; only at most {MOST_BARE} pubkeys")
    if within == "P2SH" and size > MAX_ELEMENT:
        raise _fault(f"P2SH script is too large, {size} bytes is larger than {MAX_ELEMENT} bytes")


# ---- keys


def _key(secp: Secp256k1, text: str, uncompressed: bool) -> _Key:
    """A key, with where it comes from before it."""
    parts = text.split("]", 2)
    if len(parts) > 2:
        raise _fault("Multiple ']' characters found for a single pubkey")
    if len(parts) == 1:
        return _bare_key(secp, text, uncompressed)
    if parts[0][:1] != "[":
        raise _fault(f"Key origin start '[ character expected but not found, got '{parts[0][:1] or ']'}' instead")
    fingerprint, *steps = parts[0][1:].split("/")
    if len(fingerprint) != 8:
        raise _fault(f"Fingerprint is not 4 bytes ({len(fingerprint)} characters instead of 8 characters)")
    if not re.fullmatch("[0-9a-fA-F]{8}", fingerprint):
        raise _fault(f"Fingerprint '{fingerprint}' is not hex")
    fingerprint, path = fingerprint.lower(), _shown(_path(steps))
    found = _bare_key(secp, parts[1], uncompressed)

    def at(place: int) -> Derived:
        own = found.at(place)
        return own._replace(fingerprint=fingerprint, path=path + own.path)

    return found._replace(text=f"[{fingerprint}{path}]{found.text}", at=at, private=f"[{fingerprint}{path}]{found.private}")


def _path(steps: List[str]) -> List[int]:
    """A path of numbers, each hardened or not."""
    found = []
    for step in steps:
        hard = step[-1:] in ("'", "h")
        number = _number(step[:-1] if hard else step)
        if number is None:
            raise _fault(f"Key path value '{(step[:-1] if hard else step)[:100]}' is not a valid uint32")
        if number >= HARDENED:
            raise _fault(f"Key path value {number} is out of range")
        found.append(number + HARDENED * hard)
    return found


def _shown(path: List[int]) -> str:
    return "".join(f"/{number % HARDENED}" + "'" * (number >= HARDENED) for number in path)


def _bare_key(secp: Secp256k1, text: str, uncompressed: bool) -> _Key:
    """A key as digits, a private key as wallets write it, or an extended one with a path."""
    word, *steps = text.split("/")
    if not word:
        raise _fault("No key provided")
    key, secret = (None, None) if steps else _plain_key(secp, word)
    if key is not None:
        if len(key) != 33 and not uncompressed:
            raise _fault("Uncompressed keys are not allowed")
        own, private = Derived(key, hash160(key)[:4].hex(), "", secret), key.hex() if secret is None else word
        return _Key(key.hex(), len(key), lambda place: own, has_private=secret is not None, private=private)
    data = base58_data(word, MAX_EXTENDED) or b""
    root = read_extended(secp, data)
    if root is None:
        raise _fault(f"key '{word[:200]}' is not valid")
    last = steps.pop() if steps and steps[-1] in ("*", "*'", "*h") else ""
    branch = _Branch(secp, root, _path(steps), last)
    end = "" if not last else "/*" + "'" * (last != "*")
    path = _shown(branch.path) + end
    text = base58(PUBLIC + data[4:45] + root.key) + path
    return _Key(text, 33, branch.at, is_range=bool(last), has_private=root.secret is not None, private=word + path)


class _Branch:
    """The keys of an extended key by a path, and by a place behind it where last is `*`, `*'` or `*h`."""

    def __init__(self, secp: Secp256k1, root: ExtendedKey, path: List[int], last: str) -> None:
        self._secp = secp
        self._root = root
        self.path = path
        self._last = last
        #: The key of the path, once it was asked for.
        self._parent: Optional[ExtendedKey] = None

    def at(self, place: int) -> Derived:
        """The key at a place."""
        if self._parent is None:
            self._parent = self._reached(self._root, self.path)
        more = [place + HARDENED * (self._last != "*")] if self._last else []
        own = self._reached(self._parent, more)
        return Derived(own.key, self._root.fingerprint.hex(), _shown(self.path + more), own.secret)

    def _reached(self, key: ExtendedKey, path: List[int]) -> ExtendedKey:
        for number in path:
            found = key.child(self._secp, number)
            if found is None:
                raise Underivable
            key = found
        return key


def _plain_key(secp: Secp256k1, word: str) -> Tuple[Optional[bytes], Optional[bytes]]:
    """A public key, with its secret where it was given by that; None for what is neither."""
    if len(word) % 2 == 0 and re.fullmatch("[0-9a-fA-F]+", word):
        key = bytes.fromhex(word)
        if not secp.is_key(key):
            raise _fault(f"Pubkey '{word[:200]}' is invalid")
        return key, None
    secret = read_secret(word)
    return (None, None) if secret is None else (secp.public_key(*secret), secret[0])
