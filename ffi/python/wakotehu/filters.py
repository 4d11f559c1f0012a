"""Compact filters of blocks (BIP 158): which scripts a block pays to or spends, in some 20 bits a script.

A filter says of a script that the block hasn't it, or that it may have it: of 784,931 that it hasn't one is taken for one that it
has. A header chains a filter to those of all blocks below (BIP 157). Hashes and keys are in the order in which they are hashed.
"""

from typing import Iterable, Iterator, List, Sequence, Set, Tuple

from .encoding import Output, Transaction, _count, _Reader, double_sha

#: The low bits of a difference, and how many values there are for each script.
_P, _M = 19, 784_931
_MASK = 2**64 - 1
#: The header below genesis.
NO_HEADER = bytes(32)


def block_scripts(transactions: Sequence[Transaction], spent: Iterable[Output]) -> Set[bytes]:
    """The scripts that a block's filter has: of its outputs without those that begin with OP_RETURN, and of the outputs that
    it spends, which are given."""
    made = {out.script for tx in transactions for out in tx.outputs if not out.script.startswith(b"\x6a")}
    return (made | {out.script for out in spent}) - {b""}


def block_filter(id: bytes, scripts: Set[bytes]) -> bytes:
    """The basic filter of the block with an id."""
    bits, before = [], 0
    for value in _values(id, scripts, len(scripts)):
        high, low = divmod(value - before, 1 << _P)
        bits.append("1" * high + "0" + format(low, f"0{_P}b"))
        before = value
    text = "".join(bits)
    text += "0" * (-len(text) % 8)
    return _count(len(scripts)) + (int(text, 2).to_bytes(len(text) // 8, "big") if text else b"")


def filter_header(filter: bytes, before: bytes) -> bytes:
    """The header of a filter, behind that of the block below."""
    return double_sha(double_sha(filter) + before)


def may_have(id: bytes, filter: bytes, scripts: Set[bytes]) -> bool:
    """Whether the block with an id may have one of some scripts, by its filter."""
    reader = _Reader(filter)
    count = reader.count()
    wanted = iter(_values(id, scripts, count))
    value = next(wanted, None)
    for there in _read(filter[reader.at :], count):
        while value is not None and value < there:
            value = next(wanted, None)
        if value is None or value == there:
            return value is not None
    return False


def _values(id: bytes, scripts: Set[bytes], count: int) -> List[int]:
    """What scripts are hashed to, in a filter of so many, by rising numbers."""
    keys = int.from_bytes(id[:8], "little"), int.from_bytes(id[8:16], "little")
    return sorted(siphash(keys, script) * (count * _M) >> 64 for script in scripts)


def _read(coded: bytes, count: int) -> Iterator[int]:
    """The numbers of a filter, of which it has so many."""
    text = format(int.from_bytes(coded, "big"), f"0{8 * len(coded)}b") if coded else ""
    value = at = 0
    for _ in range(count):
        end = text.index("0", at)
        value += (end - at << _P) + int(text[end + 1 : end + 1 + _P], 2)
        at = end + 1 + _P
        yield value


def siphash(keys: Tuple[int, int], data: bytes) -> int:
    """SipHash-2-4 (Aumasson and Bernstein, 2012)."""
    v = keys[0] ^ 0x736F6D6570736575, keys[1] ^ 0x646F72616E646F6D, keys[0] ^ 0x6C7967656E657261, keys[1] ^ 0x7465646279746573
    padded = data + bytes(-(len(data) + 1) % 8) + bytes([len(data) & 0xFF])
    for at in range(0, len(padded), 8):
        word = int.from_bytes(padded[at : at + 8], "little")
        a, b, c, d = _rounds(2, v[0], v[1], v[2], v[3] ^ word)
        v = a ^ word, b, c, d
    a, b, c, d = _rounds(4, v[0], v[1], v[2] ^ 0xFF, v[3])
    return a ^ b ^ c ^ d


def _rounds(many: int, a: int, b: int, c: int, d: int) -> Tuple[int, int, int, int]:
    for _ in range(many):
        a = (a + b) & _MASK
        b = ((b << 13 | b >> 51) & _MASK) ^ a
        a = (a << 32 | a >> 32) & _MASK
        c = (c + d) & _MASK
        d = ((d << 16 | d >> 48) & _MASK) ^ c
        a = (a + d) & _MASK
        d = ((d << 21 | d >> 43) & _MASK) ^ a
        c = (c + b) & _MASK
        b = ((b << 17 | b >> 47) & _MASK) ^ c
        c = (c << 32 | c >> 32) & _MASK
    return a, b, c, d
