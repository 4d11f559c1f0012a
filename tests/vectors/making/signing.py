"""Pairs of scripts: signatures, by one key and by several, their shapes, and the code that they sign."""

from typing import Callable, Dict, Iterator, List, Optional, Sequence, Tuple

from .outside import KEYS, LONG, TRUE
from .pieces import ALL, NAMES, OLD, Own, Wish, e, joined, left, n, script_hash, signature
from .reading import Tx, hash160, number


def plain_signatures() -> Iterator[Wish]:
    code = e(KEYS[0]) + b"\xac"
    yield Wish("CHECKSIG", joined(signature(0, code)), code)
    yield Wish("CHECKSIG: another's", joined(signature(1, code)), code)
    yield Wish("CHECKSIG: another digest", joined(signature(0, code + b"\x61")), code)
    yield Wish("CHECKSIG: T", joined(signature(0, code + left(b"\1"))), code + left(b"\1"))
    yield Wish("CHECKSIG: F is no byte", b"\x00", code + left(b""))
    yield Wish("CHECKSIG: nothing below", joined(b"\x57", signature(0, code + left(b"\7", b"\1"))), code + left(b"\7", b"\1"))
    yield Wish("CHECKSIGVERIFY: nothing is left", joined(signature(0, code[:-1] + b"\xad" + left())), code[:-1] + b"\xad" + left())
    yield Wish("CHECKSIGVERIFY: another's", joined(signature(1, code[:-1] + b"\xad\x51")), code[:-1] + b"\xad\x51")
    yield Wish("CHECKSIGVERIFY: empty", b"\x00", code[:-1] + b"\xad\x51")
    for last in (0xAC, 0xAD):
        yield Wish(f"{NAMES[last]} of one", e(KEYS[0]), bytes([last]) + TRUE)
        yield Wish(f"{NAMES[last]} of none", b"", bytes([last]) + TRUE)
        yield Wish(f"{NAMES[last]}: not executed", b"", b"\x00\x63" + bytes([last]) + b"\x68" + TRUE)
    hashed = b"\x76\xa9\x14" + hash160(KEYS[0]) + b"\x88\xac"
    yield Wish("to a key's hash", joined(signature(0, hashed), e(KEYS[0])), hashed)
    yield Wish("to a key's hash: another key", joined(signature(1, hashed), e(KEYS[1])), hashed)
    yield Wish("to a key's hash: another's signature", joined(signature(1, hashed), e(KEYS[0])), hashed)


def odd_keys() -> Iterator[Wish]:
    keys = {
        "long": LONG[0], "hybrid": bytes([6 + LONG[0][64] % 2]) + LONG[0][1:], "wrong hybrid": bytes([7 - LONG[0][64] % 2]) + LONG[0][1:],
        "of the other sign": bytes([5 - KEYS[0][0]]) + KEYS[0][1:], "05": b"\5" + KEYS[0][1:], "cut": KEYS[0][:-1],
        "a byte more": KEYS[0] + b"\0", "empty": b"", "no point": b"\4" + b"\7" * 64, "one byte": b"\2", "01": b"\1" + KEYS[0][1:],
        "long as short": b"\2" + LONG[0][1:], "short as long": b"\4" + KEYS[0][1:], "zero": bytes(33),
    }  # fmt: skip
    for name, key in keys.items():
        for flags in (ALL, OLD):
            yield Wish(f"a key that is {name}", joined(signature(0, e(key) + b"\xac")), e(key) + b"\xac", flags)
        yield Wish(f"a key that is {name}, not", joined(signature(0, e(key) + b"\xac\x91")), e(key) + b"\xac\x91")


def hash_types() -> Iterator[Wish]:
    code = e(KEYS[0]) + b"\xac"
    for kind in range(0, 256, 5):
        yield Wish(f"hash type {kind:02x}", joined(signature(0, code, kind)), code)
    for kind in (
            1, 2, 3, 4, 0x1F, 0x20, 0x21, 0x22, 0x23, 0x40, 0x42, 0x43, 0x60,
            0x7F, 0x80, 0x81, 0x82, 0x83, 0x84, 0xA2, 0xA3, 0xC2, 0xE3, 0xFF,
    ):  # fmt: skip
        yield Wish(f"hash type {kind:02x} before BIP 66", joined(signature(0, code, kind)), code, OLD)
        other = lambda tx, at, kind=kind: e(signature(0, code, kind)(tx, at)[:-1] + bytes([kind ^ 1]))  # noqa: E731
        yield Wish(f"hash type {kind:02x}, said to be {kind ^ 1:02x}", other, code)


def signed_places() -> Iterator[Wish]:
    """Signatures in the input script, and more than one."""
    code = e(KEYS[0]) + b"\xac"
    yield Wish("CHECKSIG in the input script", joined(signature(0, e(KEYS[0]) + b"\xac"), e(KEYS[0]), b"\xac"), b"\x61")
    yield Wish("CHECKSIG of the code of another script", joined(signature(0, code), e(KEYS[0])), b"\xac")
    yield Wish("CHECKSIG: the key from the input", joined(signature(0, b"\xac"), e(KEYS[0])), b"\xac")
    two = e(KEYS[0]) + b"\xad" + e(KEYS[1]) + b"\xac"
    yield Wish("two signatures", joined(signature(1, two), signature(0, two)), two)
    yield Wish("two signatures, the first wrong", joined(signature(1, two), signature(1, two)), two)
    yield Wish("two signatures, the second wrong", joined(signature(0, two), signature(0, two)), two)


def separators() -> Iterator[Wish]:
    key = e(KEYS[0])
    forms = {
        "in front": (b"\xab" + key + b"\xac", key + b"\xac"),
        "behind the key": (key + b"\xab\xac", b"\xac"),
        "behind CHECKSIG": (key + b"\xac\xab", key + b"\xac"),
        "two": (b"\xab" + key + b"\xab\xac", b"\xac"),
        "two together": (b"\xab\xab" + key + b"\xac", key + b"\xac"),
        "not executed": (key + b"\x00\x63\xab\x68\xac", key + b"\x00\x63\x68\xac"),
        "within a branch": (key + b"\x51\x63\xab\x68\xac", b"\x68\xac"),
        "in a push": (b"\x02\xab\xab\x75" + key + b"\xac", b"\x02\xab\xab\x75" + key + b"\xac"),
        "behind it another push": (key + b"\xab\x01\xab\x75\xac", b"\x01\xab\x75\xac"),
        "one before, one behind": (b"\xab" + key + b"\xac\xab\x61", key + b"\xac\x61"),
    }
    for name, (spent, code) in forms.items():
        yield Wish(f"CODESEPARATOR {name}", joined(signature(0, code)), spent)
        whole = bytes(b for b in spent if b != 0xAB)
        if code != spent:
            yield Wish(
                f"CODESEPARATOR {name}: signed as if it weren't there", joined(signature(0, spent if name == "in a push" else whole)), spent,
            )  # fmt: skip
        yield Wish(f"CODESEPARATOR {name}: signed with a byte more", joined(signature(0, b"\x61" + code)), spent)
    yield Wish("CODESEPARATOR of the input", joined(signature(0, key + b"\xac"), b"\xab"), key + b"\xac")
    twice = e(KEYS[0]) + b"\xab\xad" + e(KEYS[1]) + b"\xac"
    rest = b"\xad" + e(KEYS[1]) + b"\xac"
    yield Wish("CODESEPARATOR for two signatures", joined(signature(1, rest), signature(0, rest)), twice)
    between = e(KEYS[0]) + b"\xad\xab" + e(KEYS[1]) + b"\xac"
    first = e(KEYS[0]) + b"\xad" + e(KEYS[1]) + b"\xac"
    second = e(KEYS[1]) + b"\xac"
    yield Wish("CODESEPARATOR between two signatures", joined(signature(1, second), signature(0, first)), between)
    yield Wish("CODESEPARATOR between two signatures, not the second's", joined(signature(1, first), signature(0, first)), between)
    inner = b"\xab" + key + b"\xac"
    yield Wish("CODESEPARATOR in an inner script", joined(signature(0, key + b"\xac"), e(inner)), script_hash(inner))
    several = b"\x51" + e(KEYS[0]) + b"\x51\xab\xae"
    yield Wish("CODESEPARATOR before CHECKMULTISIG", joined(b"\x00", signature(0, b"\xae")), several)
    yield Wish("CODESEPARATOR before CHECKMULTISIG: not", joined(b"\x00", signature(0, several)), several)


def within(code: bytes, form: Callable[[bytes], bytes]) -> Own:
    """An input script of some form round a signature of a code."""
    return lambda tx, at: form(signature(0, code)(tx, at))


def taken_out() -> Iterator[Wish]:
    """Signatures within the signed code, in input scripts: else an id would hang on itself."""
    end = e(KEYS[0]) + b"\xac"
    yield Wish("taken out: the signature", within(end, lambda s: e(s) + end), b"\x61")
    yield Wish("taken out: twice", within(b"\x75" + end, lambda s: e(s) + b"\x75" + e(s) + end), b"\x61")
    yield Wish("taken out: behind CHECKSIG", within(end + b"\x75\x51", lambda s: e(s) + end + e(s) + b"\x75\x51"), b"\x61")
    yield Wish("taken out: not by PUSHDATA1", within(end, lambda s: b"\x4c" + bytes([len(s)]) + s + end), b"\x61")
    yield Wish(
        "taken out: not from within a push", within(b"\x76\x75" + end, lambda s: e(b"\x07" + e(s)) + b"\x75" + e(s) + end), b"\x61",
    )  # fmt: skip
    yield Wish("taken out: with a separator", within(end, lambda s: e(s) + b"\xab" + end), b"\x61")
    yield Wish("taken out: not executed", within(b"\x00\x63\x68" + end, lambda s: e(s) + b"\x00\x63" + e(s) + b"\x68" + end), b"\x61")
    yield Wish(
        "taken out: another signature isn't", within(e(b"\7" * 70) + b"\x75" + end, lambda s: e(s) + e(b"\7" * 70) + b"\x75" + end), b"\x61",
    )  # fmt: skip
    yield Wish("taken out: an empty signature isn't asked", b"\x00" + end + b"\x91", b"\x61")

    def wide(size: int, how: Callable[[bytes], bytes]) -> Callable[[bytes], bytes]:
        return lambda s: how(widened(s, size)) + end

    def by_two(signature: bytes) -> bytes:
        return b"\x4d" + len(signature).to_bytes(2, "little") + signature

    for size in (74, 75, 76, 77, 254, 255, 256, 257, 520):
        yield Wish(f"taken out: a signature of {size} bytes", within(end, wide(size, e)), b"\x61", OLD)
        yield Wish(f"taken out: not a signature of {size} bytes by PUSHDATA2", within(end, wide(size, by_two)), b"\x61", OLD)


def taken_out_by_many() -> Iterator[Wish]:
    key = e(KEYS[0])
    several = b"\x51" + key + b"\x51\xae"
    yield Wish("taken out by CHECKMULTISIG", within(b"\x00" + several, lambda s: b"\x00" + e(s) + several), b"\x61")
    yield Wish(
        "taken out by CHECKMULTISIG, twice", within(b"\x75\x00" + several, lambda s: e(s) + b"\x75\x00" + e(s) + several), b"\x61",
    )  # fmt: skip
    yield Wish("taken out by CHECKMULTISIG: not", within(b"\x57\x00" + several, lambda s: b"\x00" + e(s) + several), b"\x61")
    both = b"\x52" + e(KEYS[0]) + e(KEYS[1]) + b"\x52\xae"

    def two(tx: Tx, at: int) -> bytes:
        code = b"\x00" + both
        return b"\x00" + e(signature(0, code)(tx, at)) + e(signature(1, code)(tx, at)) + both

    yield Wish("taken out by CHECKMULTISIG, both", two, b"\x61")
    one_bare = b"\x51" + e(KEYS[0]) + b"\x51\xae"
    shown = signature(0, e(b"\x01\x01") + b"\x75\x00" + one_bare)
    yield Wish(
        "taken out by CHECKMULTISIG: no other push", lambda tx, at: e(b"\x01\x01") + b"\x75\x00" + e(shown(tx, at)) + one_bare, b"\x61",
    )  # fmt: skip


def widened(signature: bytes, size: int) -> bytes:
    """The same numbers in so many bytes with the hash type: R has zeros in front, and a length of one, two or three bytes."""
    r, s = parts_of(signature[:-1])
    rest = b"\x02" + bytes([len(s)]) + s + signature[-1:]
    for wide in (0, 1, 2):
        length = size - len(rest) - 4 - wide
        if length < (128, 256, 1 << 16)[wide]:
            spelled = bytes([length]) if wide == 0 else bytes([128 + wide]) + length.to_bytes(wide, "big")
            return b"\x30\x00\x02" + spelled + r.rjust(length, b"\0") + rest
    raise ValueError(size)


def der(numbers: Tuple[bytes, bytes]) -> bytes:
    r, s = numbers
    return b"\x30" + bytes([len(r) + len(s) + 4, 2, len(r)]) + r + b"\x02" + bytes([len(s)]) + s


ORDER = 0xFFFFFFFFFFFFFFFFFFFFFFFFFFFFFFFEBAAEDCE6AF48A03BBFD25E8CD0364141


def parts_of(signature: bytes) -> Tuple[bytes, bytes]:
    r = signature[4 : 4 + signature[3]]
    return r, signature[6 + len(r) :]


def set_byte(at: int, to: Callable[[int], int]) -> Callable[[bytes], bytes]:
    return lambda s: s[:at] + bytes([to(s[at]) & 255]) + s[at + 1 :]


def of_parts(change: Callable[[bytes, bytes], bytes]) -> Callable[[bytes], bytes]:
    return lambda s: change(*parts_of(s))


def high(r: bytes, s: bytes) -> bytes:
    other = ORDER - int.from_bytes(s, "big")
    return der((r, number(other)[::-1]))


def alterations() -> Dict[str, Callable[[bytes], bytes]]:
    """Ways to alter a signature without its hash type."""
    return {
        "as it is": lambda s: s,
        "the first byte is 31": set_byte(0, lambda b: 0x31),
        "the length is 1 less": set_byte(1, lambda b: b - 1),
        "the length is 1 more": set_byte(1, lambda b: b + 1),
        "R's mark is 03": set_byte(2, lambda b: 3),
        "R's length is 1 less": set_byte(3, lambda b: b - 1),
        "R's length is 1 more": set_byte(3, lambda b: b + 1),
        "R's length is 0": set_byte(3, lambda b: 0),
        "R's length is all": set_byte(3, lambda b: 67),
        "R's length is ff": set_byte(3, lambda b: 255),
        "a byte more": lambda s: s + b"\0",
        "a byte more, and counted": lambda s: set_byte(1, lambda b: b + 1)(s + b"\0"),
        "a byte less": lambda s: s[:-1],
        "its first half": lambda s: s[:35],
        "a long length": lambda s: s[:1] + b"\x81" + s[1:],
        "R has a zero more": of_parts(lambda r, s: der((b"\0" + r, s))),
        "S has a zero more": of_parts(lambda r, s: der((r, b"\0" + s))),
        "R and S have five zeros more": of_parts(lambda r, s: der((b"\0" * 5 + r, b"\0" * 5 + s))),
        "R without its zero": of_parts(lambda r, s: der((r.lstrip(b"\0"), s))),
        "S is high": of_parts(high),
        "S is high, without its zero": of_parts(lambda r, s: der((r, (ORDER - int.from_bytes(s, "big")).to_bytes(32, "big")))),
        "S's mark is 03": of_parts(lambda r, s: der((r, s))[: 4 + len(r)] + b"\x03" + der((r, s))[5 + len(r) :]),
        "S's length is 1 less": of_parts(lambda r, s: der((r, s))[: 5 + len(r)] + bytes([len(s) - 1]) + s),
        "S's length is 1 more": of_parts(lambda r, s: der((r, s))[: 5 + len(r)] + bytes([len(s) + 1]) + s),
        "S is missing": of_parts(lambda r, s: b"\x30" + bytes([len(r) + 2, 2, len(r)]) + r),
        "S is empty": of_parts(lambda r, s: der((r, b""))),
        "R is empty": of_parts(lambda r, s: der((b"", s))),
        "R is 0": of_parts(lambda r, s: der((b"\0", s))),
        "S is 0": of_parts(lambda r, s: der((r, b"\0"))),
        "R and S are changed": of_parts(lambda r, s: der((s, r))),
    }  # fmt: skip


def strict_shapes() -> Iterator[Wish]:
    """Each way not to be strictly encoded, of valid signatures and of others, with BIP 66 and without."""
    code, no = e(KEYS[0]) + b"\xac", e(KEYS[0]) + b"\xac\x91"
    for name, change in alterations().items():
        for flags in (ALL, OLD):
            for spent in (code, no):

                def own(tx: Tx, at: int, spent: bytes = spent, change: Callable[[bytes], bytes] = change) -> bytes:
                    return e(change(signature(0, spent)(tx, at)[:-1]) + b"\1")

                yield Wish(f"{name}{', not' if spent == no else ''}", own, spent, flags)


def odd_numbers() -> Iterator[Wish]:
    no = e(KEYS[0]) + b"\xac\x91"
    numbers = {
        "01 01": (b"\1", b"\1"), "00 00": (b"\0", b"\0"), "80 01": (b"\x80", b"\1"), "01 80": (b"\1", b"\x80"), "81 01": (b"\x81", b"\1"),
        "0080 01": (b"\0\x80", b"\1"), "01 0080": (b"\1", b"\0\x80"), "007f 01": (b"\0\x7f", b"\1"), "01 007f": (b"\1", b"\0\x7f"),
        "0000 01": (b"\0\0", b"\1"), "01 0000": (b"\1", b"\0\0"), "00ff 00ff": (b"\0\xff", b"\0\xff"), "7f 7f": (b"\x7f", b"\x7f"),
        "33 and 33 bytes": (b"\0" + b"\xff" * 32, b"\0" + b"\xff" * 32), "34 and 32 bytes": (b"\1" * 34, b"\1" * 32),
        "33 and 34 bytes": (b"\1" * 33, b"\1" * 34), "34 and 33 bytes": (b"\1" * 34, b"\1" * 33), "1 and 65 bytes": (b"\1", b"\1" * 65),
        "1 and 66 bytes": (b"\1", b"\1" * 66), "65 and 1 bytes": (b"\1" * 65, b"\1"), "66 and 1 bytes": (b"\1" * 66, b"\1"),
        "no R": (b"", b"\1\1"), "no S": (b"\1\1", b""), "40 and 20 bytes": (b"\1" * 40, b"\1" * 20), "0100 01": (b"\1\0", b"\1"),
        "8000 01": (b"\x80\0", b"\1"), "01 8000": (b"\1", b"\x80\0"),
    }  # fmt: skip
    for name, pair in numbers.items():
        for flags in (ALL, ("CSV",)):
            yield Wish(f"a signature of {name}, not", e(der(pair) + b"\1"), no, flags)


def odd_shapes() -> Iterator[Wish]:
    code, no = e(KEYS[0]) + b"\xac", e(KEYS[0]) + b"\xac\x91"
    shapes = (
        "30", "3006", "300602", "30060201", "3006020101", "300602010102", "30060201010201", "3006020101020101", "30050201010201",
        "300402010102", "3003020101", "30060201010201010101", "3007020101020101", "3005020101020101", "30060200020201010101",
        "300602ff01020101", "30060201010200010101", "300602030102010101", "0000000000000000000000", "30 06 02 01 01 02 02 01 01",
        "30 07 02 02 01 01 02 01 01", "30 06 02 02 01 01 02 01 01", "30 07 02 01 01 02 01 01 01", "30 06 03 01 01 02 01 01 01",
        "30 06 02 01 01 03 01 01 01", "30 06 02 01 01 02 00 01 01", "30 06 02 00 01 02 01 01 01", "30 05 02 01 01 02 01 01",
        "30 06 02 04 01 02 01 01 01", "30 06 02 05 01 02 01 01 01", "30 06 02 06 01 02 01 01 01", "30 05 02 01 01 02 00 01",
        "30 05 02 00 02 01 01 01", "30 04 02 01 01 02 01", "01", "00",
    )  # fmt: skip
    for text in shapes:
        for flags in (ALL, OLD):
            yield Wish(f"a signature {text.replace(' ', '')}, not", e(bytes.fromhex(text)), no, flags)
        yield Wish(
            f"a signature {text.replace(' ', '')} in a branch that isn't taken", e(bytes.fromhex(text)), b"\x00\x63" + no + b"\x68\x51",
        )  # fmt: skip
    for flags in (ALL, OLD, ("CSV",), ("DERSIG", "CSV")):
        yield Wish("an empty signature, not", b"\x00", no, flags)
        yield Wish("an empty signature", b"\x00", code, flags)
        yield Wish("not strict, not", e(b"\x30\x01\x01"), no, flags)


def multi(wanted: int, keys: Sequence[bytes], last: bytes = b"\xae") -> bytes:
    """So many signatures of these keys."""
    return n(wanted) + b"".join(map(e, keys)) + n(len(keys)) + last


def multi_signed(which: Sequence[Optional[int]], code: bytes, first: bytes = b"\x00", kind: int = 1) -> Own:
    """Signatures of these keys, None for an empty one, over an element more."""
    parts: List[Own] = [b"\x00" if w is None else signature(w, code, kind) for w in which]
    return joined(first, *parts)


def multisig() -> Iterator[Wish]:
    tried: List[Tuple[int, int, Sequence[Optional[int]]]] = [
        (0, 0, ()), (0, 1, ()), (0, 3, ()), (1, 1, (0,)), (1, 1, (1,)), (1, 1, (None,)), (1, 2, (0,)), (1, 2, (1,)), (1, 2, (2,)),
        (2, 2, (0, 1)), (2, 2, (1, 0)), (2, 2, (0, 0)), (2, 2, (0, None)), (2, 2, (None, 1)), (1, 3, (0,)), (1, 3, (1,)), (1, 3, (2,)),
        (1, 3, (3,)), (2, 3, (0, 1)), (2, 3, (0, 2)), (2, 3, (1, 2)), (2, 3, (1, 0)), (2, 3, (2, 1)), (2, 3, (2, 0)), (2, 3, (0, 0)),
        (2, 3, (3, 0)), (2, 3, (0, 3)), (3, 3, (0, 1, 2)), (3, 3, (0, 2, 1)), (3, 3, (0, 1, 1)), (3, 5, (0, 2, 4)), (3, 5, (0, 4, 2)),
        (4, 5, (0, 1, 2, 4)), (5, 5, (0, 1, 2, 3, 4)), (2, 5, (3, 4)), (2, 5, (4, 4)),
    ]  # fmt: skip
    for wanted, count, which in tried:
        code = multi(wanted, KEYS[:count])
        yield Wish(f"CHECKMULTISIG {wanted} of {count} by {which}", multi_signed(which, code), code)
        if wanted:
            code = multi(wanted, KEYS[:count], b"\xae\x91")
            yield Wish(f"CHECKMULTISIG {wanted} of {count} by {which}, not", multi_signed(which, code), code)


def multisig_stacks() -> Iterator[Wish]:
    """What it takes and leaves."""
    two = multi(2, KEYS[:3])
    for first in (b"\x51", b"\x01\x80", b"\x4f", e(b"\7" * 520), b"\x00\x00"):
        yield Wish("CHECKMULTISIG with another element below", multi_signed((0, 1), two, first), two)
    yield Wish("CHECKMULTISIG without the element below", multi_signed((0, 1), two, b""), two)
    for after, what in ((left(b"\1"), "T"), (left(b"x", b"\1"), "and what is below")):
        code = two + after
        yield Wish(f"CHECKMULTISIG leaves {what}", multi_signed((0, 1), code, b"\x00" if what == "T" else b"\x01x\x00"), code)
    code = two + left(b"")
    yield Wish("CHECKMULTISIG leaves F", multi_signed((1, 0), code), code)
    verify = multi(2, KEYS[:3], b"\xaf" + left())
    yield Wish("CHECKMULTISIGVERIFY", multi_signed((0, 1), verify), verify)
    yield Wish("CHECKMULTISIGVERIFY: not", multi_signed((1, 0), verify), verify)
    verify = multi(2, KEYS[:3], b"\xaf\x51")
    yield Wish("CHECKMULTISIGVERIFY: not, then true", multi_signed((1, 0), verify), verify)
    yield Wish("CHECKMULTISIGVERIFY 0 of 0", b"\x00", b"\x00\x00\xaf\x51")
    for last in (b"\xae", b"\xaf"):
        yield Wish("CHECKMULTISIG: not executed", b"", b"\x00\x63" + last + b"\x68\x51")
        for own in (
                b"", b"\x00", b"\x00\x00", b"\x51", b"\x00\x51", b"\x00\x51\x51",
                b"\x00\x00\x51\x51", b"\x00\x00\x51\x51\x51", b"\x51\x51\x52",
        ):  # fmt: skip
            yield Wish(f"CHECKMULTISIG over {own.hex() or '-'}", own, last + TRUE)


def multisig_counts() -> Iterator[Wish]:
    for count in (-1, 20, 21, 22, 255, -(2**31) + 1):
        yield Wish(f"CHECKMULTISIG of {count} keys", b"\x00\x00" + b"\x52" * max(min(count, 30), 0) + n(count), b"\xae")
    for wanted, count in ((-1, 1), (-1, 0), (0, 1), (-2, 2), (-1, 3)):
        yield Wish(f"CHECKMULTISIG {wanted} of {count}", b"\x00" + n(wanted) + b"\x52" * count + n(count), b"\xae")
    for wanted, count in ((-1, 1), (2, 1), (1, 0), (4, 3), (3, 3), (21, 20), (-1, 0)):
        yield Wish(
            f"CHECKMULTISIG {wanted} of {count}, not", b"\x00" + b"\x00" * max(wanted, 0) + n(wanted) + b"\x52" * count + n(count), b"\xae\x91",
        )  # fmt: skip
    for long in (b"\1\0\0\0", b"\1\0\0\0\0", b"\1\0"):
        yield Wish("CHECKMULTISIG: a long number of keys", b"\x00\x00\x52" + e(long), b"\xae")
        yield Wish("CHECKMULTISIG: a long number of signatures", b"\x00\x00" + e(long) + b"\x52\x51", b"\xae\x91")
    yield Wish("CHECKMULTISIG: -0 keys", b"\x00\x00\x01\x80", b"\xae")
    yield Wish("CHECKMULTISIG: -0 signatures", b"\x00\x01\x80\x52\x51", b"\xae")


def twenty_keys() -> Iterator[Wish]:
    keys = (KEYS * 4)[:20]
    for place in (0, 1, 19):
        mixed = [LONG[4]] * 20
        mixed[place] = KEYS[0]
        code = multi(1, mixed)
        yield Wish(f"CHECKMULTISIG 1 of 20, number {place}", multi_signed((0,), code), code)
    code = multi(5, keys)
    yield Wish("CHECKMULTISIG 5 of 20", multi_signed((0, 1, 2, 3, 4), code), code)
    code = multi(20, keys)
    yield Wish("CHECKMULTISIG 20 of 20", multi_signed([w % 5 for w in range(20)], code), code)
    yield Wish("CHECKMULTISIG 20 of 20, the last wrong", multi_signed([w % 5 for w in range(19)] + [0], code), code)
    yield Wish("CHECKMULTISIG 20 of 20, the first wrong", multi_signed([1] + [w % 5 for w in range(1, 20)], code), code)


def multisig_tried() -> Iterator[Wish]:
    """Which signatures are tried, of which types, and by which keys."""
    bad = e(b"\x30\x01\x01")
    for flags in (ALL, OLD):
        code = multi(2, KEYS[:2], b"\xae\x91")
        good = signature(1, code)
        yield Wish("CHECKMULTISIG: not strict, never tried", joined(b"\x00", bad, b"\x00"), code, flags)
        yield Wish("CHECKMULTISIG: not strict, tried first", joined(b"\x00", b"\x00", bad), code, flags)
        yield Wish("CHECKMULTISIG: not strict, tried second", joined(b"\x00", bad, good), code, flags)
        code = multi(1, KEYS[:2], b"\xae\x91")
        yield Wish("CHECKMULTISIG: not strict, of 1 of 2", joined(b"\x00", bad), code, flags)
        code = multi(2, KEYS[:3], b"\xae\x91")
        yield Wish("CHECKMULTISIG: not strict, behind two that fail", joined(b"\x00", bad, signature(3, code)), code, flags)
        code = multi(0, KEYS[:2])
        yield Wish("CHECKMULTISIG: not strict, of 0 of 2", joined(bad, bad), code, flags)
    for kind in (0, 2, 3, 4, 0x80, 0x81, 0x83, 0xFF):
        code = multi(2, KEYS[:3])
        mixed_kinds = joined(b"\x00", signature(0, code, kind), signature(2, code, 1))
        yield Wish(f"CHECKMULTISIG with types {kind:02x} and 01", mixed_kinds, code)
    for name, key in (("of no point", b"\2" + b"\xff" * 32), ("empty", b""), ("cut", KEYS[1][:-1])):
        code = b"\x51" + e(KEYS[0]) + e(key) + b"\x52\xae"
        yield Wish(f"CHECKMULTISIG beside a key that is {name}", multi_signed((0,), code), code)
