"""Pairs of scripts: each opcode, the limits, and script hashes."""

from typing import Iterator

from .outside import KEYS, TRUE
from .pieces import NAMES, OLD, Wish, e, joined, left, n, script_hash, signature
from .reading import BINARY, HASHES, NEVER, SHUFFLES, UNARY, hash160, number


def shuffles() -> Iterator[Wish]:
    for code, (takes, gives) in SHUFFLES.items():
        name = NAMES[code]
        elements = [bytes([0x20 + k]) * (k % 3 + 1) for k in range(takes)]
        below = [b"below"]
        after = [elements[k] for k in gives]
        own = b"".join(map(e, below + elements))
        yield Wish(name, own, bytes([code]) + left(*below, *after))
        yield Wish(f"{name}: nothing below", b"".join(map(e, elements)), bytes([code]) + left(*after))
        for k in range(len(after)):
            other = after[:k] + [b"other"] + after[k + 1 :]
            yield Wish(f"{name}: another element {k}", own, bytes([code]) + left(*below, *other))
        for count in range(takes):
            yield Wish(f"{name}: of {count} elements", b"".join(map(e, elements[:count])), bytes([code]) + TRUE)
        yield Wish(f"{name}: not executed", b"", b"\x00\x63" + bytes([code]) + b"\x68" + TRUE)


def depth_codes() -> Iterator[Wish]:
    elements = [b"a", b"bb", b"ccc", b"dddd"]
    own = b"".join(map(e, elements))
    for code in (0x79, 0x7A):
        name = NAMES[code]
        for deep in range(4):
            rest = elements if code == 0x79 else elements[: 3 - deep] + elements[4 - deep :]
            yield Wish(f"{name}: {deep}", own, n(deep) + bytes([code]) + left(*rest, elements[3 - deep]))
            yield Wish(f"{name}: {deep}, another", own, n(deep) + bytes([code]) + e(elements[(4 - deep) % 4]) + b"\x87")
        for deep in (-1, 4, 5, 255, -(2**31) + 1):
            yield Wish(f"{name}: {deep} of 4", own, n(deep) + bytes([code]) + TRUE)
        yield Wish(f"{name}: a long number", own, e(b"\x01\0\0\0") + bytes([code]) + e(b"ccc") + b"\x87")
        yield Wish(f"{name}: five bytes", own, e(b"\x01\0\0\0\0") + bytes([code]) + TRUE)
        yield Wish(f"{name}: -0", own, e(b"\x80") + bytes([code]) + e(b"dddd") + b"\x87")
        yield Wish(f"{name}: 0 of none", b"", b"\x00" + bytes([code]) + TRUE)
        yield Wish(f"{name}: 0 of one", b"\x52", b"\x00" + bytes([code]) + b"\x52\x87")
        yield Wish(f"{name}: no number", b"", bytes([code]) + TRUE)
        yield Wish(f"{name}: not executed", b"", b"\x00\x63" + bytes([code]) + b"\x68" + TRUE)


def sizes() -> Iterator[Wish]:
    """DEPTH, SIZE, and what is true."""
    for count in (0, 1, 2, 3, 16, 17, 127, 128, 129):
        yield Wish(f"DEPTH of {count}", b"\x53" * count, b"\x74" + e(number(count)) + b"\x87")
    yield Wish("DEPTH: another", b"\x51\x52", b"\x74\x53\x87")
    yield Wish("DEPTH: without the other stack", b"\x51\x52", b"\x6b\x74\x51\x87")
    for size in (0, 1, 2, 75, 127, 128, 255, 256, 520):
        element = b"\x07" * size
        yield Wish(f"SIZE of {size}", e(element), b"\x82" + left(element, number(size)))
        yield Wish(f"SIZE of {size} over another", e(b"\x07" * (size ^ 1)) + e(element), b"\x82" + e(number(size)) + b"\x87")
    yield Wish("SIZE of 128: in one byte", e(b"\x07" * 128), b"\x82" + e(b"\x80") + b"\x87")
    yield Wish("SIZE: another", e(b"\0\0"), b"\x82\x51\x87")
    yield Wish("SIZE: of nothing", b"", b"\x82\x51")
    for top, is_true in TRUTHS:
        yield Wish(f"IFDUP of {top.hex() or '-'}", e(top), b"\x73" + left(*([top, top] if is_true else [top])))
        yield Wish(f"IFDUP of {top.hex() or '-'}: the other way", e(top), b"\x73" + left(*([top] if is_true else [top, top])))
        yield Wish(
            f"IFDUP of {top.hex() or '-'} over another", e(b"x" if not is_true else b"") + e(top), b"\x73\x74" + n(2 + is_true) + b"\x87",
        )  # fmt: skip
        yield Wish(f"VERIFY of {top.hex() or '-'}", e(top), b"\x69" + left())
        yield Wish(f"VERIFY of {top.hex() or '-'}, then true", e(top), b"\x69\x51")
        yield Wish(f"VERIFY of {top.hex() or '-'} over another", e(b"x" if not is_true else b"") + e(top), b"\x69\x51")
        yield Wish(f"at the end {top.hex() or '-'}", e(top), b"\x61")
        yield Wish(f"IF of {top.hex() or '-'}", e(top), b"\x63\x51\x67\x00\x68")
        yield Wish(f"NOTIF of {top.hex() or '-'}", e(top), b"\x64\x51\x67\x00\x68")
    for code in (0x69, 0x73, 0x63, 0x64):
        yield Wish(f"{NAMES[code]} of nothing", b"", bytes([code]) + (TRUE if code in (0x69, 0x73) else b"\x51\x67\x51\x68"))
        yield Wish(
            f"{NAMES[code]}: not executed", b"", b"\x00\x63" + bytes([code]) + (b"\x68" if code < 0x65 else b"") + b"\x68" + TRUE,
        )  # fmt: skip


TRUTHS = [
    (b"", False), (b"\0", False), (b"\x80", False), (b"\0\0", False), (b"\0\x80", False), (b"\0\0\0\0\0\x80", False),
    (b"\1", True), (b"\x81", True), (b"\x80\0", True), (b"\0\1", True), (b"\0\x80\0", True), (b"\x7f", True), (b"\xff", True),
    (b"\0" * 5 + b"\1", True), (b"\x80\x80", True),
]  # fmt: skip


def stacks() -> Iterator[Wish]:
    yield Wish("TOALTSTACK and back", b"\x51\x52\x53", b"\x6b\x6b\x74\x51\x88\x6c\x6c" + left(b"\1", b"\2", b"\3"))
    yield Wish("TOALTSTACK: in order", b"\x51\x52\x53", b"\x6b\x6b\x6c\x6c" + left(b"\1", b"\3", b"\2"))
    yield Wish("TOALTSTACK of nothing", b"", b"\x6b\x51")
    yield Wish("TOALTSTACK takes it", b"\x52", b"\x6b\x74\x00\x87")
    yield Wish("TOALTSTACK leaves nothing", b"\x52", b"\x6b")
    yield Wish("FROMALTSTACK of nothing", b"\x51", b"\x6c")
    yield Wish("FROMALTSTACK twice", b"\x51", b"\x6b\x6c\x6c")
    yield Wish("FROMALTSTACK: the input script's", b"\x51\x51\x6b", b"\x6c")
    yield Wish("FROMALTSTACK: an element of its own", b"\x52\x53\x6b", b"\x6b\x6c\x52\x87")
    yield Wish("TOALTSTACK: not executed", b"", b"\x00\x63\x6b\x6c\x68\x51")


def constants() -> Iterator[Wish]:
    for code in (0x4F, *range(0x51, 0x61)):
        value = code - 0x50
        yield Wish(f"{NAMES[code]}", bytes([code]), e(number(value)) + b"\x87")
        yield Wish(f"{NAMES[code]}: another", bytes([code]), e(number(value + 1 if value < 16 else 15)) + b"\x87")
    yield Wish("0 is no byte", b"\x00", b"\x82" + left(b"", b""))
    yield Wish("0 isn't a zero byte", b"\x00", e(b"\0") + b"\x87")
    for size in (1, 2, 74, 75, 76, 77, 127, 255, 256, 257, 519, 520, 521):
        data = bytes(k % 251 + 1 for k in range(size))
        spellings = [(1, b"\x4c"), (2, b"\x4d"), (4, b"\x4e")]
        forms = [bytes([size])] if size <= 75 else []
        forms += [code + size.to_bytes(wide, "little") for wide, code in spellings if size < 1 << 8 * wide]
        for form in forms:
            yield Wish(f"a push of {size} by {form.hex()}", form + data, b"\xa8" + e(HASHES[0xA8](data)) + b"\x87")
            if size < 76:
                yield Wish(f"a push of {size} by {form.hex()}: another", form + data, b"\xa8" + e(HASHES[0xA8](data + b"\7")) + b"\x87")
            if size in (1, 75, 76, 255, 256, 520):
                yield Wish(f"a push of {size} by {form.hex()} that is cut", b"\x51" + form + data[:-1], b"\x51")
                yield Wish(f"a spent push of {size} by {form.hex()} that is cut", b"", b"\x51" + form + data[:-1])
        if size > 518:
            yield Wish(f"a push of {size} that isn't executed", b"\x00", b"\x63" + forms[-1] + data + b"\x68\x51")
    for size in range(3, 74):
        yield Wish(f"a push of {size}", bytes([size]) + b"\x07" * size, b"\x82" + left(b"\x07" * size, number(size)))
        yield Wish(f"a push of {size}: another", bytes([size]) + b"\x07" * size, b"\x82" + e(number(size + 1)) + b"\x87")
    for high in (b"\1\0\1\0", b"\1\0\0\1", b"\1\0\xff\0", b"\1\0\0\x80", b"\1\1\0\0", b"\x02\0\0\0"):
        yield Wish(f"a length {high.hex()}", b"\x4e" + high + b"\x51", b"\x51")
        yield Wish(f"a length {high.hex()}, not executed", b"", b"\x51\x00\x63\x4e" + high + b"\x68")
    for high in (b"\1\1", b"\1\x80", b"\2\0", b"\1\0"):
        yield Wish(f"a length {high.hex()}", b"\x4d" + high + b"\x51", b"\x51")
    for cut in (b"\x4c", b"\x4d", b"\x4d\0", b"\x4e", b"\x4e\0", b"\x4e\0\0", b"\x4e\0\0\0", b"\x01", b"\x4e\0\0\0\x01"):
        yield Wish(f"a cut length {cut.hex()}", b"\x51", b"\x51" + cut)
        yield Wish(f"a cut length {cut.hex()} of the input", b"\x51" + cut, b"\x51")
    for empty in (b"\x4c\0", b"\x4d\0\0", b"\x4e\0\0\0\0"):
        yield Wish(f"an empty push {empty.hex()}", empty, b"\x82" + left(b"", b""))
        yield Wish(f"an empty push {empty.hex()} is false", empty, b"\x61")
    yield Wish("a cut push that isn't executed", b"", b"\x51\x00\x63\x02\xaa")


def equality() -> Iterator[Wish]:
    for a, b in (
            (b"", b""), (b"", b"\0"), (b"\0", b"\x80"), (b"\1", b"\1\0"),
            (b"ab", b"ab"), (b"ab", b"ac"), (b"a" * 520, b"a" * 520),
    ):  # fmt: skip
        yield Wish("EQUAL", e(a) + e(b), b"\x87")
        yield Wish("EQUAL: not", e(a) + e(b), b"\x87\x91")
        yield Wish("EQUALVERIFY", e(a) + e(b), b"\x88" + left())
        yield Wish("EQUALVERIFY, then true", e(a) + e(b), b"\x88\x51")
    yield Wish("EQUAL: F is no byte", b"\x51\x52", b"\x87" + left(b""))
    yield Wish("EQUAL: T is 01", b"\x51\x51", b"\x87" + left(b"\1"))
    for code in (0x87, 0x88, 0x9C, 0x9D):
        yield Wish(f"{NAMES[code]} of one", b"\x51", bytes([code]) + TRUE)
        yield Wish(f"{NAMES[code]} of none", b"", bytes([code]) + TRUE)
    for code in (0x87, 0x88):
        yield Wish(f"{NAMES[code]}: not executed", b"", b"\x00\x63" + bytes([code]) + b"\x68" + TRUE)


EDGES = (0, 1, -1, 2, -2, 127, 128, -128, 255, -255, 256, 32767, 32768, 65535, -65536, 8388607, 8388608, 2**31 - 1, -(2**31) + 1)


def arithmetic() -> Iterator[Wish]:
    for code, rule in UNARY.items():
        name = NAMES[code]
        for a in (0, 1, -1, 2, -5, 127, 128, -128, 255, 2**31 - 1, -(2**31) + 1):
            yield Wish(f"{name} of {a}", n(a), bytes([code]) + left(number(rule(a))))
        yield Wish(f"{name}: another", n(7), bytes([code]) + left(number(rule(7) + 1)))
        yield Wish(f"{name} of 5 over another", n(9) + n(5), bytes([code]) + left(number(9), number(rule(5))))
        yield Wish(
            f"{name} of -1 over an element that is no number", e(b"\7" * 9) + n(-1), bytes([code]) + left(b"\7" * 9, number(rule(-1))),
        )  # fmt: skip
        yield Wish(f"{name} of -0", e(b"\x80"), bytes([code]) + left(number(rule(0))))
        yield Wish(f"{name} of a long 5", e(b"\5\0\0\0"), bytes([code]) + left(number(rule(5))))
        yield Wish(f"{name} of a long -5", e(b"\5\0\0\x80"), bytes([code]) + left(number(rule(-5))))
        yield Wish(f"{name} of five bytes", e(b"\1\0\0\0\0"), bytes([code]) + b"\x75" + TRUE)
        yield Wish(f"{name} of nothing", b"", bytes([code]) + b"\x75" + TRUE)
        yield Wish(f"{name}: not executed", b"", b"\x00\x63" + bytes([code]) + b"\x68" + TRUE)


def binary() -> Iterator[Wish]:
    pairs = ((0, 0), (0, 1), (1, 0), (1, 1), (2, 3), (3, 2), (-1, 1), (-2, -1), (2**31 - 1, 2**31 - 1), (-(2**31) + 1, 2**31 - 1))
    for code, two in BINARY.items():
        name = NAMES[code]
        for a, b in pairs:
            yield Wish(f"{name} of {a} and {b}", n(a) + n(b), bytes([code]) + left(number(two(a, b))))
        yield Wish(f"{name}: another", n(9) + n(7), bytes([code]) + left(number(two(9, 7) + 1)))
        yield Wish(f"{name} of 9 and 7 over another", n(3) + n(9) + n(7), bytes([code]) + left(number(3), number(two(9, 7))))
        yield Wish(f"{name} of -0 and 0", e(b"\x80") + b"\0", bytes([code]) + left(number(two(0, 0))))
        yield Wish(f"{name} of five bytes and 1", e(b"\1\0\0\0\0") + b"\x51", bytes([code]) + b"\x75" + TRUE)
        yield Wish(f"{name} of 1 and five bytes", b"\x51" + e(b"\1\0\0\0\0"), bytes([code]) + b"\x75" + TRUE)
        yield Wish(f"{name} of one", b"\x51", bytes([code]) + b"\x75" + TRUE)
        yield Wish(f"{name}: not executed", b"", b"\x00\x63" + bytes([code]) + b"\x68" + TRUE)


def comparisons() -> Iterator[Wish]:
    for a, b in ((3, 3), (3, 4), (0, -1)):
        yield Wish(f"NUMEQUALVERIFY of {a} and {b}", n(a) + n(b), b"\x9d" + left())
        yield Wish(f"NUMEQUALVERIFY of {a} and {b}, then true", n(a) + n(b), b"\x9d\x51")
    yield Wish("NUMEQUALVERIFY of 0 and -0", b"\x00\x01\x80", b"\x9d" + left())
    for x, least, most in ((1, 1, 2), (0, 1, 2), (2, 1, 2), (1, 0, 1), (1, 2, 0), (-1, -1, 0), (5, 1, 9), (3, 3, 3), (0, -1, 1)):
        yield Wish(f"WITHIN: {x} {least} {most}, not", n(x) + n(least) + n(most), b"\xa5\x91")
        yield Wish(f"WITHIN of {x} {least} {most}", n(x) + n(least) + n(most), b"\xa5" + left(number(int(least <= x < most))))
    yield Wish("WITHIN: F is no byte", b"\x53\x51\x52", b"\xa5" + left(b"\0"))
    yield Wish("WITHIN: another", b"\x51\x51\x52", b"\xa5" + left(b""))
    for k in range(3):
        parts = [b"\x51", b"\x51", b"\x52"]
        parts[k] = e(b"\1\0\0\0\0")
        yield Wish(f"WITHIN: five bytes, {k}", b"".join(parts), b"\xa5\x75\x51")
        yield Wish(f"WITHIN of {k}", b"\x51" * k, b"\xa5\x75\x51")
    yield Wish("WITHIN: not executed", b"", b"\x00\x63\xa5\x68\x51")
    for a in EDGES:
        yield Wish(f"number {a} shortest", e(number(a)), b"\x8f\x8f" + e(number(a)) + b"\x87")
        yield Wish(f"number {a} by ADD", n(a), b"\x51\x93" + e(number(a + 1)) + b"\x87")


def hashes() -> Iterator[Wish]:
    for code, rule in HASHES.items():
        name = NAMES[code]
        for data in (b"", b"a", b"abc", b"\x07" * 64, b"\x07" * 55, b"\x80" * 520):
            yield Wish(f"{name} of {len(data)} bytes", e(data), bytes([code]) + left(rule(data)))
        wrong = bytearray(rule(b"abc"))
        wrong[-1] ^= 1
        yield Wish(f"{name}: another", e(b"abc"), bytes([code]) + left(bytes(wrong)))
        yield Wish(f"{name} of nothing", b"", bytes([code]) + b"\x75" + TRUE)
        yield Wish(f"{name}: not executed", b"", b"\x00\x63" + bytes([code]) + b"\x68" + TRUE)


def nothing() -> Iterator[Wish]:
    for code in (0x61, 0xB0, *range(0xB3, 0xBA)):
        yield Wish(f"{NAMES[code]}", b"\x52", bytes([code]) + left(b"\2"))
        yield Wish(f"{NAMES[code]}: leaves false", b"\x00", bytes([code]))
    for code in sorted(NEVER):
        name = NAMES.get(code, f"{code:02x}")
        yield Wish(f"{name}", b"\x51\x51\x51\x51", bytes([code]) + TRUE)
        yield Wish(f"{name}: not executed", b"\x00", b"\x63" + bytes([code]) + b"\x68\x51")
        yield Wish(f"{name}: as data", b"", b"\x01" + bytes([code]) + b"\x75\x51")
    for code in (0x50, 0x62, 0x6A, 0x89, 0x8A, *range(0xBA, 0x100)):
        name = NAMES.get(code, f"{code:02x}")
        yield Wish(f"{name}", b"\x51\x51", b"\x51" + bytes([code]) + TRUE)
        yield Wish(f"{name}: not executed", b"\x00", b"\x63" + bytes([code]) + b"\x68\x51")
        if code < 0xBC:
            yield Wish(f"{name}: in the input", b"\x51" + bytes([code]), b"\x51")


def conditions() -> Iterator[Wish]:
    texts = (
        "51 63 51 68", "00 63 51 68", "51 63 51 67 00 68", "00 63 51 67 00 68", "00 64 51 68", "51 64 51 67 52 68",
        "51 63 00 67 51 67 51 68", "51 63 51 67 00 67 00 68", "00 63 00 67 51 67 00 68", "51 63 67 67 51 68", "51 63 00 67 67 51 68",
        "51 51 63 51 63 51 68 68", "51 00 63 63 00 68 67 51 68", "00 63 51 63 00 67 00 68 67 51 68", "00 63 00 63 51 67 51 68 67 51 68",
        "00 63 51 64 6a 67 6a 68 67 51 68", "51 63 00 63 6a 67 51 68 67 6a 68", "51 63 51 63 00 67 6a 68 51 67 6a 68",
        "51 63", "51 63 51", "51 63 51 67", "51 63 51 68 68", "51 67", "51 68", "51 67 68", "51 63 51 68 67", "51 64 51", "63 51 68",
        "64 51 68", "51 63 63 51 68 68", "00 63 63 51 68 68 51", "51 00 63 67 67 67 6a 68", "51 00 63 64 68 68",
        "51 00 63 63 64 67 68 68 68", "51 51 64 68", "51 51 63 67 6a 68", "52 63 51 67 6a 68", "51 63 75 68 51",
        "51 64 65 68 51", "51 63 51 66 68", "51 00 63 61 68 63 51 68", "51 00 64 63 51 68 68", "00 63 6a 68 51",
        "51 51 51 63 63 51 67 00 68 67 00 68", "00 51 51 63 63 51 67 51 68 67 00 68 63 00 68 51",
        "00 63 65 51", "00 63 66 51", "51 63 65 51", "51 63 66 51", "00 63 65 67 51 68", "00 63 66 67 51 68",
    )  # fmt: skip
    for text in texts:
        yield Wish(f"conditions {text}", b"", bytes.fromhex(text))
    yield Wish("a condition of the input that the spent closes", b"\x51\x51\x63", b"\x68")
    yield Wish("an open condition of the input", b"\x51\x51\x63\x51", b"\x51")
    yield Wish("a condition of the input, closed", b"\x51\x63\x51\x68", b"\x51\x87")
    yield Wish("a branch of the input that isn't taken", b"\x00\x63\x6a\x68\x51", b"\x51\x87")
    for depth in (3, 20, 100):
        yield Wish(f"{depth} conditions, taken", b"\x51" * depth, b"\x63" * depth + b"\x51" + b"\x68" * depth)
        yield Wish(f"{depth} conditions, one more closed", b"\x51" * depth, b"\x63" * depth + b"\x51" + b"\x68" * (depth + 1))
        yield Wish(f"{depth} conditions, one less closed", b"\x51" * depth, b"\x63" * depth + b"\x51" + b"\x68" * (depth - 1))
        yield Wish(f"{depth} conditions, none taken", b"\x51\x00", b"\x63" * depth + b"\x6a" + b"\x68" * depth)


def limits() -> Iterator[Wish]:
    for count in (200, 201, 202):
        yield Wish(f"{count} operations", b"", b"\x51" + b"\x61" * count)
        yield Wish(f"{count} operations of the input", b"\x51" + b"\x61" * count, b"\x51")
        yield Wish(f"{count} operations, not executed", b"", b"\x00\x63" + b"\x61" * (count - 2) + b"\x68\x51")
        yield Wish(f"{count} operations of an inner script", e(b"\x51" + b"\x61" * count), script_hash(b"\x51" + b"\x61" * count))
        yield Wish(f"{count} locks", b"", b"\x51" + b"\xb1" * count, OLD)
        yield Wish(
            f"{count} operations, the last of conditions", b"", b"\x51" + b"\x61" * (count - 2) + b"\x63\x51\x68"[:2] + b"\x51\x68",
        )  # fmt: skip
        for keys in (1, 3, 20):
            yield Wish(
                f"{count} operations with {keys} keys of none", b"",
                b"\x61" * (count - 1 - keys) + b"\x00\x00" + e(KEYS[0]) * keys + n(keys) + b"\xae",
            )  # fmt: skip
        yield Wish(
            f"{count} operations, CHECKMULTISIG not executed", b"", b"\x00\x63" + b"\x61" * (count - 4) + b"\x60\xae\x68\x51\x61",
        )  # fmt: skip
        yield Wish(f"{count} operations, the keys first", b"", b"\x00\x00" + b"\x51" * 20 + b"\x01\x14\xae" + b"\x61" * (count - 21))
        yield Wish(
            f"{count} operations, the keys twice", b"", (b"\x00\x00" + b"\x51" * 16 + b"\x60\xae\x75") * 2 + b"\x51" + b"\x61" * (count - 36),
        )  # fmt: skip
    yield Wish("201 operations of each", b"\x51" + b"\x61" * 201, b"\x61" * 201)
    yield Wish("201 operations and pushes that don't count", b"\x51" * 200, b"\x61" * 201 + b"\x60" * 200)
    yield Wish("201 operations and RESERVED that doesn't count", b"", b"\x51\x00\x63" + b"\x61" * 199 + b"\x50" * 9 + b"\x68")
    yield Wish("201 operations, one of 61 more", b"", b"\x51\x00\x63" + b"\x61" * 200 + b"\x50\x68")


def sizes_of_all() -> Iterator[Wish]:
    """How many elements there are, and how long scripts."""
    for count in (999, 1000, 1001):
        yield Wish(f"{count} elements", b"\x51" * count, b"\x61")
        yield Wish(f"{count} elements by pushes of bytes", b"", b"\x01\x07" * count)
        yield Wish(f"{count} elements by the spent", b"\x51" * 900, b"\x51" * (count - 900))
        yield Wish(f"{count} elements of both stacks", b"\x51" * 900, b"\x6b" * 100 + b"\x51" * (count - 900))
        yield Wish(f"{count} elements by DUP", b"\x51" * (count - 1), b"\x76")
        yield Wish(f"{count} elements by 3DUP", b"\x51" * (count - 3), b"\x6f")
        yield Wish(f"{count} elements by 3DUP, that are taken at once", b"\x51" * (count - 3), b"\x6f\x6d")
        yield Wish(f"{count} elements by DEPTH", b"\x51" * (count - 1), b"\x74")
    for size in (9999, 10000, 10001):
        whole = (b"\x4d\xf4\x01" + b"\x07" * 500 + b"\x75") * 19
        yield Wish(f"an input script of {size} bytes", whole + b"\x01\x07\x75" * 19 + _filled(size - len(whole) - 57), b"\x51")
        if size == 10001:
            yield Wish(f"a spent script of {size} bytes", b"", b"\x51" + b"\x00" * (size - 1001) + b"\x51" * 1000)
        else:
            yield Wish(f"a spent script of {size} bytes", b"", whole + b"\x01\x07\x75" * 19 + _filled(size - len(whole) - 57))
    for size in (519, 520, 521):
        inner = b"\x4d" + (size - 5).to_bytes(2, "little") + b"\x07" * (size - 5) + b"\x75\x51"
        yield Wish(f"an inner script of {size} bytes", e(inner), script_hash(inner))


def _filled(size: int) -> bytes:
    """Pushes of so many bytes that leave true, without operations."""
    return b"\x01\x07" * (size // 2) if size % 2 == 0 else b"\x01\x07" * (size // 2) + b"\x51"


def unspendable() -> Iterator[Wish]:
    """What is spent can't be a coin: by relay."""
    for spent in (b"\x6a", b"\x6a\x51", b"\x6a\x01\x51"):
        yield Wish("RETURN first", b"", spent, by_block=False)
        yield Wish("RETURN first, over true", b"\x51", spent, by_block=False)


def script_hashes() -> Iterator[Wish]:
    p = script_hash
    yield Wish("BIP 16: true", e(b"\x51"), p(b"\x51"))
    yield Wish("BIP 16: false", e(b"\x00"), p(b"\x00"))
    yield Wish("BIP 16: the hash alone", e(b"\x6a"), p(b"\x6a"))
    yield Wish("BIP 16: an empty inner script", b"\x00", p(b""))
    yield Wish("BIP 16: an empty inner script over true", b"\x51\x00", p(b""))
    yield Wish("BIP 16: an empty inner script over false", b"\x00\x00", p(b""))
    yield Wish("BIP 16: another hash", e(b"\x51"), p(b"\x52"))
    yield Wish("BIP 16: nothing on the stack", b"", p(b"\x51"))
    yield Wish("BIP 16: over elements", b"\x51\x52" + e(b"\x93\x53\x87"), p(b"\x93\x53\x87"))
    yield Wish("BIP 16: over wrong elements", b"\x51\x53" + e(b"\x93\x53\x87"), p(b"\x93\x53\x87"))
    yield Wish("BIP 16: too few elements", b"\x51" + e(b"\x93\x53\x87"), p(b"\x93\x53\x87"))
    yield Wish("BIP 16: what the spent script does counts no more", b"\x52" + e(b"\x74\x51\x87"), p(b"\x74\x51\x87"))
    yield Wish("BIP 16: the inner script is a push", b"\x51", p(b"\1"))
    yield Wish("BIP 16: the inner script is OP_16's 10", b"\x60", p(b"\x10"))
    yield Wish("BIP 16: pushed by PUSHDATA1", b"\x4c\x01\x51", p(b"\x51"))
    yield Wish("BIP 16: pushed by PUSHDATA2", b"\x4d\x01\x00\x51", p(b"\x51"))
    yield Wish("BIP 16: pushed by PUSHDATA4", b"\x4e\x01\x00\x00\x00\x51", p(b"\x51"))
    yield Wish("BIP 16: an input that does more", e(b"\x51") + b"\x61", p(b"\x51"))
    yield Wish("BIP 16: an input that does more, earlier", b"\x61" + e(b"\x51"), p(b"\x51"))
    yield Wish("BIP 16: an input with RESERVED that isn't executed", b"\x00\x63\x50\x68" + e(b"\x51"), p(b"\x51"))
    yield Wish("BIP 16: an input with DUP", b"\x51\x76" + e(b"\x93\x52\x87"), p(b"\x93\x52\x87"))
    yield Wish("BIP 16: an input with 16", b"\x60" + e(b"\x60\x87"), p(b"\x60\x87"))
    yield Wish("BIP 16: an input with -1", b"\x4f" + e(b"\x4f\x87"), p(b"\x4f\x87"))
    yield Wish("BIP 16: within it no other", e(b"\x51") + e(p(b"\x51")), p(p(b"\x51")))
    yield Wish("BIP 16: within it another that would be refused", e(b"\x6a") + e(p(b"\x6a")), p(p(b"\x6a")))
    yield Wish("BIP 16: cut within", e(b"\x51\x02\xaa"), p(b"\x51\x02\xaa"))
    yield Wish("BIP 16: an open condition within", e(b"\x51\x51\x63"), p(b"\x51\x51\x63"))
    yield Wish("BIP 16: elements are left", b"\x00\x00" + e(b"\x51"), p(b"\x51"))


def other_forms() -> Iterator[Wish]:
    """Scripts that are nearly of BIP 16's form."""
    for inner in (b"\x6a", b"\x00", b"\x61"):
        h = hash160(inner)
        other = (
            ("by PUSHDATA1", b"\xa9\x4c\x14" + h + b"\x87"), ("with NOP", b"\xa9\x14" + h + b"\x87\x61"),
            ("NOP first", b"\x61\xa9\x14" + h + b"\x87"), ("by EQUALVERIFY", b"\xa9\x14" + h + b"\x88\x51"),
            ("by HASH256", b"\xaa" + e(lib_double(inner)) + b"\x87"),
        )  # fmt: skip
        for name, spent in other:
            yield Wish(f"no form of BIP 16: {name}, {inner.hex()}", e(inner), spent)
        drop = b"\xa9\x75\x12" + b"\7" * 18 + b"\x76\x87"
        yield Wish(f"no form of BIP 16: 23 bytes with DROP, {inner.hex()}", e(inner), drop)
        yield Wish(f"no form of BIP 16: 23 bytes with EQUALVERIFY, {inner.hex()}", b"\x51" + e(inner), b"\xa9\x14" + h + b"\x88")
        yield Wish(f"no form of BIP 16: 22 bytes, {inner.hex()}", e(inner), b"\xa9\x75\x12" + b"\7" * 18 + b"\x51")
    yield Wish("no form of BIP 16: an input that does more", e(b"\x6a") + b"\x61", b"\xa9\x4c\x14" + hash160(b"\x6a") + b"\x87")
    yield Wish("no form of BIP 16: NUMEQUAL at the end", b"\x52", b"\xa9\x14" + bytes(20) + b"\x75")
    yield Wish("no form of BIP 16: SHA1", e(b"\x6a"), b"\xa7\x14" + HASHES[0xA7](b"\x6a") + b"\x87")
    yield Wish("no form of BIP 16: RIPEMD160", e(b"\x6a"), b"\xa6\x14" + HASHES[0xA6](b"\x6a") + b"\x87")


def signed_inner() -> Iterator[Wish]:
    p = script_hash
    inner = e(KEYS[0]) + b"\xac"
    for kind in (1, 2, 3, 0x81, 0, 0x80, 4):
        yield Wish(f"BIP 16 with a signature, {kind:02x}", joined(signature(0, inner, kind), e(inner)), p(inner))
    yield Wish("BIP 16 with a signature of the spent script", joined(signature(0, p(inner)), e(inner)), p(inner))
    yield Wish("BIP 16 with another's signature", joined(signature(1, inner), e(inner)), p(inner))
    both = b"\x52" + b"".join(map(e, KEYS[:3])) + b"\x53\xae"
    for which in ((0, 1), (0, 2), (1, 2), (1, 0), (0,), (0, 0)):
        parts = [signature(w, both) for w in which]
        yield Wish(f"BIP 16 with signatures {which} of 2 of 3", joined(b"\x00", *parts, e(both)), p(both))
    for count in (15,):
        many = b"\x51" + e(KEYS[1]) * (count - 1) + e(KEYS[0]) + n(count) + b"\xae"
        yield Wish(f"BIP 16 with 1 of {count}, {len(many)} bytes", joined(b"\x00", signature(0, many), e(many)), p(many))


def lib_double(data: bytes) -> bytes:
    return HASHES[0xAA](data)
