"""What pairs of scripts are made of."""

from typing import Callable, NamedTuple, Tuple, Union

from .outside import FINAL, OPCODES, TRUE, lib_digest, sign
from .reading import Output, Tx, hash160, number, push, spell

ALL = ("DERSIG", "CLTV", "CSV")
OLD: Tuple[str, ...] = ()
NAMES = {**OPCODES, 0xB1: "CHECKLOCKTIMEVERIFY", 0xB2: "CHECKSEQUENCEVERIFY"}
Own = Union[bytes, Callable[[Tx, int], bytes]]


class Wish(NamedTuple):
    """A pair that is asked about. Its input spends a coin of its own, and the others the script 51."""

    comment: str
    own: Own
    spent: bytes
    flags: Tuple[str, ...] = ALL
    version: int = 1
    lock_time: int = 0
    sequences: Tuple[int, ...] = (FINAL,)
    at: int = 0
    outputs: Tuple[Output, ...] = (Output(1, TRUE),)
    #: Asked by a block; or by relay alone, where no block can have it.
    by_block: bool = True


# ---- pieces


def e(data: bytes) -> bytes:
    """A push of an element."""
    return push(data)


def n(value: int) -> bytes:
    """A push of a number."""
    if 1 <= value <= 16 or value == -1:
        return bytes([0x50 + value])
    return push(number(value))


def left(*elements: bytes) -> bytes:
    """Code that takes these elements from the stack, the top last, sees that no other is there, and leaves true."""
    return b"".join(e(x) + b"\x88" for x in reversed(elements)) + b"\x74\x00\x9c"


def script_hash(inner: bytes) -> bytes:
    return b"\xa9\x14" + hash160(inner) + b"\x87"


def digest(tx: Tx, at: int, code: bytes, kind: int) -> bytes:
    return lib_digest(spell(tx), at, code, kind)


def signature(which: int, code: bytes, kind: int = 1, change: Callable[[Tx], Tx] = lambda tx: tx) -> Callable[[Tx, int], bytes]:
    """A signature with its hash type; of the changed transaction."""

    def make(tx: Tx, at: int) -> bytes:
        return sign(which, digest(change(tx), at, code, kind)) + bytes([kind])

    return make


def joined(*parts: Union[bytes, Callable[[Tx, int], bytes]]) -> Callable[[Tx, int], bytes]:
    """Scripts, and signatures that are pushed, one behind the other."""
    return lambda tx, at: b"".join(p if isinstance(p, bytes) else e(p(tx, at)) for p in parts)
