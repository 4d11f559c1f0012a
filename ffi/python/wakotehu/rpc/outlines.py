"""Transactions of kept blocks in outline, which is read some times as fast as all of them."""

import struct
from typing import List, NamedTuple, Tuple

#: An outpoint, or a value, with the first byte of the count behind it.
_SPENDS, _MAKES = struct.Struct("<32sIB"), struct.Struct("<qB")


class Outline(NamedTuple):
    """Of a transaction how many bytes it has, the outpoints that it spends, and of its outputs how many there are, the sum of their
    values, and how many bytes their scripts have with their counts."""

    size: int
    spends: List[Tuple[bytes, int]]
    outputs: int
    value: int
    scripts: int


def outlines(data: bytes) -> List[Outline]:
    """The outlines of all transactions of a kept block: bytes that are none aren't refused."""
    found = []
    many, at = _counted(data, 80)
    for _ in range(many):
        begin, value = at, 0
        spends, at = _spends(data, at + 4)
        count, at = data[at], at + 1
        if count > 252:
            count, at = _counted(data, at - 1)
        first = at
        for _ in range(count):
            paid, length = _MAKES.unpack_from(data, at)
            value += paid
            at += 9 + length
            if length > 252:
                length, start = _counted(data, at - length - 1)
                at = start + length
        found.append(tuple.__new__(Outline, (at + 4 - begin, spends, count, value, at - first - 8 * count)))
        at += 4
    return found


def outputs(data: bytes) -> List[Tuple[int, int]]:
    """The outputs of a transaction of a kept block: of each the value, and how many bytes its script has with their count."""
    _, at = _spends(data, 4)
    count, at = _counted(data, at)
    found = []
    for _ in range(count):
        value, length = _MAKES.unpack_from(data, at)
        begin, at = at + 8, at + 9 + length
        if length > 252:
            length, start = _counted(data, begin)
            at = start + length
        found.append((value, at - begin))
    return found


def _spends(data: bytes, at: int) -> Tuple[List[Tuple[bytes, int]], int]:
    """The outpoints that inputs spend, and the place behind these."""
    count, at = data[at], at + 1
    if count > 252:
        count, at = _counted(data, at - 1)
    found = []
    for _ in range(count):
        id, index, length = _SPENDS.unpack_from(data, at)
        found.append((id, index))
        at += 41 + length
        if length > 252:
            length, start = _counted(data, at - length - 5)
            at = start + length + 4
    return found, at


def _counted(data: bytes, at: int) -> Tuple[int, int]:
    """The count at a place, and the place behind it."""
    first = data[at]
    if first < 253:
        return first, at + 1
    wide = {253: 2, 254: 4, 255: 8}[first]
    return int.from_bytes(data[at + 1 : at + 1 + wide], "little"), at + 1 + wide
