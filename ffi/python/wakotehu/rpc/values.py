"""Parameters of calls: their types, with the codes and texts of Bitcoin Core 0.21."""

import re
from typing import Any, Dict, List, Optional

from .errors import DESERIALIZATION_ERROR, INVALID_PARAMETER, MISC_ERROR, TYPE_ERROR, RpcError


class Number:
    """A number of a request that isn't a whole one of 64 bits, as it was spelled."""

    def __init__(self, spelled: str) -> None:
        self.spelled = spelled

    def __str__(self) -> str:
        return self.spelled


def is_number(value: Any) -> bool:
    return isinstance(value, (int, Number)) and not isinstance(value, bool)


_KINDS = ((str, "string"), (bool, "bool"), (list, "array"), (dict, "object"), (type(None), "null"))


def kind_name(value: Any) -> str:
    """A value's type, as Bitcoin Core names it."""
    return next((name for it, name in _KINDS if isinstance(value, it)), "number")


def expect(value: Any, kind: str) -> None:
    """That a parameter has a type, where Bitcoin Core tests the types of all of a call's parameters first."""
    if kind_name(value) != kind:
        raise RpcError(TYPE_ERROR, f"Expected type {kind}, got {kind_name(value)}")


def expect_or_null(value: Any, kind: str) -> None:
    """The same, null allowed."""
    if value is not None:
        expect(value, kind)


def expect_member(given: Dict[str, Any], name: str, kind: str) -> None:
    """That a member is there and has a type."""
    if given.get(name) is None:
        raise RpcError(TYPE_ERROR, f"Missing {name}")
    if kind_name(given[name]) != kind:
        raise RpcError(TYPE_ERROR, f"Expected type {kind} for {name}, got {kind_name(given[name])}")


def _wrong(kind: str) -> RpcError:
    return RpcError(MISC_ERROR, f"JSON value is not {kind} as expected")


def integer(value: Any, bits: int = 32) -> int:
    """A whole number with a sign, of so many bits."""
    if not is_number(value):
        raise _wrong("an integer")
    if isinstance(value, Number) or not -(2 ** (bits - 1)) <= value < 2 ** (bits - 1):
        raise RpcError(MISC_ERROR, "JSON integer out of range")
    return int(value)


def text(value: Any) -> str:
    if not isinstance(value, str):
        raise _wrong("a string")
    return value


def boolean(value: Any) -> bool:
    if not isinstance(value, bool):
        raise _wrong("a boolean")
    return value


def array(value: Any) -> List[Any]:
    if not isinstance(value, list):
        raise _wrong("an array")
    return value


def object_of(value: Any) -> Dict[str, Any]:
    if not isinstance(value, dict):
        raise _wrong("an object")
    return value


def digits(value: Any, name: str) -> bytes:
    """An id of 64 digits, as it is printed."""
    given = text(value)
    if len(given) != 64:
        raise RpcError(INVALID_PARAMETER, f"{name} must be of length 64 (not {len(given)}, for '{shortened(given)}')")
    found = unhexed(given)
    if found is None:
        raise RpcError(INVALID_PARAMETER, f"{name} must be hexadecimal string (not '{given}')")
    return found[::-1]


def unhexed(given: str) -> Optional[bytes]:
    """The bytes of hexadecimal digits, or None."""
    try:
        found = bytes.fromhex(given)
    except ValueError:
        return None
    # Python passes over spaces.
    return found if 2 * len(found) == len(given) else None


def hexadecimal(value: Any, fault: str, most: Optional[int] = None) -> bytes:
    """Bytes as digits, `most` bytes at most; `fault` is the answer to others."""
    given = text(value)
    if most is not None and len(given) > 2 * most:
        raise RpcError(DESERIALIZATION_ERROR, f"{fault} It has more than {most} bytes.")
    found = unhexed(given)
    if found is None:
        raise RpcError(DESERIALIZATION_ERROR, fault)
    return found


def hex_text(value: Any, name: str) -> bytes:
    """Bytes as digits, one at least, by Bitcoin Core's `ParseHexV`: anything but text counts as no digits."""
    given = value if isinstance(value, str) else ""
    found = unhexed(given)
    if not found:
        raise RpcError(INVALID_PARAMETER, f"{name} must be hexadecimal string (not '{shortened(given)}')")
    return found


def shortened(given: str) -> str:
    """A text that is told back: no more of it than 100 characters."""
    return given if len(given) <= 100 else given[:100] + ".."


class Amount:
    """An amount in satoshis, which is written as bitcoin with eight digits."""

    def __init__(self, satoshis: int) -> None:
        self.satoshis = satoshis

    def __str__(self) -> str:
        whole, part = divmod(abs(self.satoshis), 100_000_000)
        return f"{'-' if self.satoshis < 0 else ''}{whole}.{part:08}"


#: Hash types of signatures by their names.
HASH_TYPES = {"ALL": 1, "NONE": 2, "SINGLE": 3, "ALL|ANYONECANPAY": 129, "NONE|ANYONECANPAY": 130, "SINGLE|ANYONECANPAY": 131}
#: No output has more, in satoshis.
MAX_MONEY = 21_000_000 * 100_000_000


def amount(value: Any) -> int:
    """An amount in bitcoin, a number or a text, as satoshis."""
    if not isinstance(value, str) and not is_number(value):
        raise RpcError(TYPE_ERROR, "Amount is not a number or string")
    found = satoshis(str(value))
    if found is None:
        raise RpcError(TYPE_ERROR, "Invalid amount")
    if not 0 <= found <= MAX_MONEY:
        raise RpcError(TYPE_ERROR, "Amount out of range")
    return found


def satoshis(spelled: str) -> Optional[int]:
    """A number of bitcoin as satoshis (Bitcoin Core's `ParseFixedPoint` of 8 digits), or None."""
    found = re.fullmatch(r"(-?)(0|[1-9][0-9]*)(?:\.([0-9]+))?(?:[eE]([+-]?[0-9]{1,18}))?", spelled, re.ASCII)
    if found is None:
        return None
    # One zero before the point is no digit.
    digits = found[2].lstrip("0") + (found[3] or "")
    kept = digits.rstrip("0").lstrip("0")
    exponent = int(found[4] or 0) - len(found[3] or "") + len(digits) - len(digits.rstrip("0")) + 8
    if not 0 <= exponent < 18 or len(kept) > 18:
        return None
    value = int(kept or 0) * 10**exponent
    return None if value >= 10**18 else -value if found[1] else value


Object = Dict[str, Any]
