"""What callers give. Each kind of argument is taken by one function here; another kind, or a value out of range, is
refused by a `TypeError` or a `ValueError` that names the argument. Nothing is converted silently."""

import operator
import os
from typing import Any, Collection, Iterable, Optional, Sequence, Tuple, Type, TypeVar, Union

T = TypeVar("T")
Path = Union[str, "os.PathLike[str]"]

#: The formats of a buffer's items that are bytes, as `struct` names them.
_BYTES = frozenset({"B", "b", "c"})


def kind_of(value: object) -> str:
    """The name of a value's type, for messages."""
    return type(value).__name__


def octets(value: object, name: str) -> bytes:
    """Bytes: `bytes` or a copy of another contiguous buffer of bytes, as a `bytearray`, a `memoryview` or an
    `array('B')`. A number, a text, a list or a buffer of wider items is refused."""
    if type(value) is bytes:
        return value
    try:
        view = memoryview(value)  # type: ignore[arg-type]
    except TypeError:
        raise TypeError(f"{name} must be bytes, not {kind_of(value)}") from None
    except ValueError as error:
        raise ValueError(f"{name} can't be read: {error}") from None
    with view:
        # A single number of ctypes or numpy is a buffer too: of no dimension.
        if view.itemsize != 1 or view.ndim == 0 or view.format.lstrip("@=<>!") not in _BYTES:
            raise TypeError(f"{name} must be bytes, not {kind_of(value)} of items {view.format!r}")
        if not view.c_contiguous:
            raise TypeError(f"{name} must be contiguous")
        return view.tobytes()


def octets_of(value: object, length: int, name: str) -> bytes:
    """So many bytes."""
    found = octets(value, name)
    if len(found) != length:
        raise ValueError(f"{name} must have {length} bytes, not {len(found)}")
    return found


def id_of(value: object, name: str = "id") -> bytes:
    """An id, or a digest: 32 bytes."""
    return octets_of(value, 32, name)


def number(value: object, name: str, bits: int = 32, least: int = 0) -> int:
    """A number without sign of so many bits, which is no less than the least. What `operator.index` takes is a number,
    so no float and no text; a bool isn't one here."""
    found = integer(value, name)
    if not least <= found < 1 << bits:
        raise ValueError(f"{name} must be from {least} to {(1 << bits) - 1}")
    return found


def signed(value: object, name: str, bits: int = 32) -> int:
    """A number of so many bits, one of them its sign."""
    found = integer(value, name)
    if not -(1 << bits - 1) <= found < 1 << bits - 1:
        raise ValueError(f"{name} must be from {-(1 << bits - 1)} to {(1 << bits - 1) - 1}")
    return found


def integer(value: object, name: str) -> int:
    """A number of any size."""
    if type(value) is int:
        return value
    if isinstance(value, bool):
        raise TypeError(f"{name} must be a number, not bool")
    try:
        return operator.index(value)  # type: ignore[arg-type]
    except TypeError:
        raise TypeError(f"{name} must be a number, not {kind_of(value)}") from None


def flag(value: object, name: str) -> bool:
    """True or False."""
    if value is True or value is False:
        return value
    raise TypeError(f"{name} must be True or False, not {kind_of(value)}")


def text(value: object, name: str) -> str:
    """A text that has a spelling in UTF-8."""
    if not isinstance(value, str):
        raise TypeError(f"{name} must be a text, not {kind_of(value)}")
    try:
        value.encode()
    except UnicodeEncodeError:
        raise ValueError(f"{name} must be a text that can be encoded") from None
    return value


def word(value: object, name: str, words: Collection[str]) -> str:
    """One of some words."""
    if text(value, name) not in words:
        raise ValueError(f"{name} must be one of {', '.join(words)}")
    return str(value)


def lines(value: object, name: str) -> bytes:
    """A text of lines, or its bytes."""
    return text(value, name).encode() if isinstance(value, str) else octets(value, name)


def sequence(value: object, name: str) -> Sequence[Any]:
    """A list, a tuple, or another sequence: no text, no bytes, and nothing without an order."""
    if isinstance(value, (list, tuple)):
        return value
    if isinstance(value, (str, bytes, bytearray, memoryview)) or not isinstance(value, Sequence):
        raise TypeError(f"{name} must be a sequence, not {kind_of(value)}")
    return value


def several(value: object, name: str, length: int) -> Sequence[Any]:
    """A sequence of so many."""
    found = sequence(value, name)
    if len(found) != length:
        raise ValueError(f"{name} must have {length} items, not {len(found)}")
    return found


def sequence_of(value: object, kind: Type[T], name: str) -> Sequence[T]:
    """A sequence of what is of one type."""
    found = sequence(value, name)
    for own in found:
        instance(own, kind, name)
    return found


def instance(value: object, kind: Type[T], name: str) -> T:
    """A value of a type of this package."""
    if not isinstance(value, kind):
        raise TypeError(f"{name} must be of {kind.__name__}, not {kind_of(value)}")
    return value


def words_of(value: object, name: str, known: Collection[str]) -> Iterable[str]:
    """Any number of some words, one after the other."""
    if isinstance(value, (str, bytes, bytearray, memoryview, dict)) or not isinstance(value, Iterable):
        raise TypeError(f"{name} must be texts, one after the other, not {kind_of(value)}")
    return [word(own, name, known) for own in value]


def path(value: object, name: str) -> str:
    """A path, as a text or an object that has one. A name that begins like an option is written so that it isn't read as one."""
    try:
        found = os.fsdecode(os.fspath(value))  # type: ignore[call-overload]
    except TypeError:
        raise TypeError(f"{name} must be a path, not {kind_of(value)}") from None
    if not found or "\0" in found:
        raise ValueError(f"{name} must be a path, not {'a text with a null' if found else 'an empty text'}")
    return os.path.join(".", found) if found.startswith("-") else str(found)


def seconds(value: object, name: str) -> Optional[float]:
    """So many seconds, or None for no end."""
    if value is None:
        return None
    if isinstance(value, bool) or not isinstance(value, (int, float)):
        raise TypeError(f"{name} must be a number of seconds, not {kind_of(value)}")
    # Larger ones are too long for the clocks of some systems; a NaN isn't above 0.
    if not 0 < value <= 1e8:
        raise ValueError(f"{name} must be above 0 and at most 100,000,000 seconds")
    return float(value)
