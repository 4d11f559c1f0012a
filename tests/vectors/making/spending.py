"""Pairs of scripts: what of a transaction is signed, and locks."""

from functools import partial
from typing import Any, Callable, Dict, Iterator

from .outside import FINAL, KEYS, sign
from .pieces import ALL, NAMES, OLD, Wish, digest, e, joined, left, n, script_hash, signature
from .reading import Input, Output, Tx

THREE = tuple(Output(v, s) for v, s in ((3, b"\x51"), (0, b"\x52\x53"), (70000, b"\x51" * 30)))
SEQUENCES = (7, 8, 9)


def changes_of() -> Dict[str, Callable[[Tx], Tx]]:
    """Ways to change what is signed."""

    def altered(number_: int, **parts: Any) -> Callable[[Tx], Tx]:
        return lambda tx: tx._replace(inputs=[i._replace(**parts) if k == number_ else i for k, i in enumerate(tx.inputs)])

    def paid(number_: int, **parts: Any) -> Callable[[Tx], Tx]:
        return lambda tx: tx._replace(outputs=[o._replace(**parts) if k == number_ else o for k, o in enumerate(tx.outputs)])

    return {
        "unchanged": lambda tx: tx,
        "another version": lambda tx: tx._replace(version=2),
        "another lock time": lambda tx: tx._replace(lock_time=5),
        "its own sequence": altered(1, sequence=6),
        "another input's sequence": altered(0, sequence=6),
        "a later input's sequence": altered(2, sequence=6),
        "another input's outpoint": altered(0, place=77),
        "a later input's id": altered(2, id=b"\7" * 32),
        "its own outpoint": altered(1, place=77),
        "another input's script": altered(0, script=b"\x51"),
        "its own script": altered(1, script=b"\x51"),
        "its output's value": paid(1, value=1),
        "its output's script": paid(1, script=b"\x52"),
        "an earlier output's value": paid(0, value=1),
        "an earlier output's script": paid(0, script=b"\x52"),
        "a later output's value": paid(2, value=1),
        "an output more": lambda tx: tx._replace(outputs=[*tx.outputs, Output(0, b"")]),
        "an output less": lambda tx: tx._replace(outputs=tx.outputs[:2]),
        "one output": lambda tx: tx._replace(outputs=tx.outputs[:1]),
        "an input more": lambda tx: tx._replace(inputs=[*tx.inputs, Input(b"\7" * 32, 0, b"", 0)]),
        "an input less": lambda tx: tx._replace(inputs=tx.inputs[:2]),
        "outputs in another order": lambda tx: tx._replace(outputs=tx.outputs[::-1]),
    }


def digests() -> Iterator[Wish]:
    code, changes = e(KEYS[0]) + b"\xac", changes_of()
    for name, change in changes.items():
        for kind in (1, 2, 3, 0x81, 0x82, 0x83):
            yield Wish(
                f"signed with {kind:02x}: {name}", joined(signature(0, code, kind, change)), code, sequences=SEQUENCES, at=1,
                outputs=THREE, version=1,
            )  # fmt: skip
    for kind in (0, 4, 0x1F, 0x20, 0x22, 0x23, 0x43, 0x60, 0x80, 0x84, 0x9F, 0xA2, 0xC3):
        for name in ("unchanged", "another input's sequence", "an earlier output's value", "its output's value"):
            yield Wish(
                f"signed with {kind:02x}: {name}", joined(signature(0, code, kind, changes[name])), code, sequences=SEQUENCES, at=1, outputs=THREE
            )  # fmt: skip


def places() -> Iterator[Wish]:
    code = e(KEYS[0]) + b"\xac"
    for inputs in (1, 2, 3, 4):
        for at in range(inputs):
            for outputs in range(1, 5):
                kind = (3, 2, 0x83, 0x82, 1, 0x81, 0x23)[(inputs + 2 * at + 3 * outputs) % 7]
                yield Wish(
                    f"input {at} of {inputs}, {outputs} outputs, {kind:02x}", joined(signature(0, code, kind)), code,
                    sequences=tuple(range(1, inputs + 1)), at=at, outputs=tuple(Output(k, b"\x51" * k) for k in range(outputs)),
                )  # fmt: skip
    for kind in (3, 0x83, 0x23, 0x43, 0xC3, 0x63):
        one = sign(0, digest(Tx(1, [Input(b"\7" * 32, 0, b"", 0)], [], 0), 0, b"", 3))
        own = e(one + bytes([kind]))
        for inputs, at, outputs in ((2, 1, 1), (3, 2, 2), (3, 1, 1), (4, 3, 1)):
            made = tuple(Output(k, b"\x51") for k in range(outputs))
            yield Wish(f"{kind:02x} without an output: the number 1", own, code, sequences=(5,) * inputs, at=at, outputs=made)
        yield Wish(f"{kind:02x} with an output: not the number 1", own, code, sequences=(5,) * 2, at=1, outputs=made[:1] * 2)


def fields() -> Iterator[Wish]:
    """Versions, sequences, lock times and lengths."""
    code = e(KEYS[0]) + b"\xac"
    for version in (-1, 0, 2, 3, 2**31 - 1, -(2**31)):
        yield Wish(f"version {version}", joined(signature(0, code)), code, version=version, sequences=(1 << 31,))
    for sequence in (0, 1, 0xFFFFFFFE, 1 << 31, 1 << 22):
        yield Wish(f"sequence {sequence}", joined(signature(0, code)), code, sequences=(sequence,))
    for lock_time in (1, 100, 1000, 500000000, 1296000000):
        yield Wish(f"lock time {lock_time}", joined(signature(0, code)), code, lock_time=lock_time, sequences=(3,))
    for count in (252, 253, 254):
        yield Wish(f"{count} outputs", joined(signature(0, code)), code, outputs=(Output(0, b""),) * count)
    for size in (252, 253, 520):
        yield Wish(f"an output's script of {size} bytes", joined(signature(0, code)), code, outputs=(Output(0, b"\x51" * size),))
    for size in (216, 217, 218, 500):
        long = b"\x4d" + (size - 0).to_bytes(2, "little") + b"\7" * size + b"\x75" + code
        yield Wish(f"a code of {len(long)} bytes", joined(signature(0, long)), long)


# ---- locks

HIGH = 1 << 31
TIMED = 1 << 22


def locks() -> Iterator[Wish]:
    """By blocks; where the transaction can't be in one, by relay."""
    for flags in (OLD, ("CSV",), ("DERSIG", "CSV"), ALL):
        for wanted in (0, 1, -1, 99, 100, 101, 500000000):
            yield Wish(f"CHECKLOCKTIMEVERIFY {wanted} at 100", b"", n(wanted) + b"\xb1\x75\x51", flags, lock_time=100, sequences=(3,))
        yield Wish("CHECKLOCKTIMEVERIFY of a final input", b"", b"\x51\xb1", flags, lock_time=100)
        yield Wish("CHECKLOCKTIMEVERIFY of none", b"", b"\xb1\x51", flags, lock_time=100, sequences=(3,))
        for wanted in (0, 1, 2, -1, TIMED, HIGH, HIGH | 5):
            yield Wish(f"CHECKSEQUENCEVERIFY {wanted} at 1", b"", n(wanted) + b"\xb2\x75\x51", flags, version=2, sequences=(1,))
        yield Wish("CHECKSEQUENCEVERIFY of none", b"", b"\xb2\x51", flags, version=2, sequences=(1,))
        yield Wish("CHECKSEQUENCEVERIFY of version 1", b"", b"\x51\xb2", flags, version=1, sequences=(1,))


def lock_values() -> Iterator[Wish]:
    for wanted in (499999999, 500000000, 500000001, 1296688601, 1296688602, 1296688603, 100):
        yield Wish(
            f"CHECKLOCKTIMEVERIFY {wanted} at 1296688602", b"", n(wanted) + b"\xb1\x75\x51", lock_time=1296688602, sequences=(3,),
        )  # fmt: skip
    for wanted in (0, 1, 99, 499999999, 500000000, 500000001):
        yield Wish(f"CHECKLOCKTIMEVERIFY {wanted} at 500000000", b"", n(wanted) + b"\xb1\x75\x51", lock_time=500000000, sequences=(3,))
    for wanted in (0, 1, 500000000):
        yield Wish(f"CHECKLOCKTIMEVERIFY {wanted} at 0", b"", n(wanted) + b"\xb1\x75\x51", sequences=(3,))
    for top in (
            b"", b"\0", b"\x80", b"\x64\0\0\0\0", b"\x64\0\0\0\0\0", b"\1\0\0\0\x80", b"\x64\0",
            b"\x65\0\0\0", b"\x81", b"\1\0\0\0\0", b"\1\0\0\0\0\0", bytes(5), bytes(6),
    ):  # fmt: skip
        yield Wish(f"CHECKLOCKTIMEVERIFY of {top.hex() or '-'}", e(top), b"\xb1\x75\x51", lock_time=100, sequences=(3,))
        yield Wish(f"CHECKSEQUENCEVERIFY of {top.hex() or '-'}", e(top), b"\xb2\x75\x51", version=2, sequences=(100 | HIGH,))
        yield Wish(f"CHECKLOCKTIMEVERIFY of {top.hex() or '-'} at 0", e(top), b"\xb1\x75\x51", sequences=(3,))
        yield Wish(f"CHECKSEQUENCEVERIFY of {top.hex() or '-'} at 1", e(top), b"\xb2\x75\x51", version=2, sequences=(1,))


def lock_codes() -> Iterator[Wish]:
    for code in (0xB1, 0xB2):
        name = NAMES[code]
        ask = partial(Wish, lock_time=100, version=2, sequences=(1,))
        yield ask(f"{name} leaves the top", b"\x51", bytes([code]) + left(b"\1"))
        yield ask(f"{name} leaves false", b"\x00", bytes([code]))
        yield ask(f"{name} not executed", b"", b"\x00\x63\x4f" + bytes([code]) + b"\x68\x51")
        yield ask(f"{name} in the input", b"\x51" + bytes([code]), b"\x51\x87")
        yield ask(f"{name} in the input, not met", b"\x53\x8f" + bytes([code]), b"\x51")
        yield ask(f"{name} twice", b"\x51", bytes([code]) * 2 + left(b"\1"))
        for count in (201, 202):
            yield ask(f"{name} {count} times", b"\x51", bytes([code]) * count)
        inner = b"\x51" + bytes([code])
        yield ask(f"{name} in an inner script", e(inner), script_hash(inner))
        inner = b"\x4f" + bytes([code])
        yield ask(f"{name} in an inner script, not met", e(inner), script_hash(inner))
    for at in (0, 1):
        yield Wish(f"CHECKLOCKTIMEVERIFY beside a final input, {at}", b"", b"\x51\xb1", lock_time=100, sequences=(3, FINAL), at=at)
        yield Wish(f"CHECKSEQUENCEVERIFY beside another sequence, {at}", b"", b"\x51\xb2", version=2, sequences=(1, HIGH | 1), at=at)
        yield Wish(f"CHECKSEQUENCEVERIFY beside a less one, {at}", b"", b"\x51\xb2", version=2, sequences=(1, 0), at=at)
    for version in (0, 1, 2, 3, -1, -2, 2**31 - 1, -(2**31)):
        yield Wish(f"CHECKSEQUENCEVERIFY of version {version}", b"", b"\x51\xb2", version=version, sequences=(1,))


def locks_by_relay() -> Iterator[Wish]:
    # A transaction that isn't final, or whose relative lock isn't met, is in no block.
    for lock_time in (499999998, 499999999):
        for wanted in (499999997, 499999998, 499999999, 500000000):
            yield Wish(
                f"CHECKLOCKTIMEVERIFY {wanted} at {lock_time}", b"", n(wanted) + b"\xb1", lock_time=lock_time, sequences=(3,), by_block=False,
            )  # fmt: skip
    for lock_time in (2**31 - 1, 2**31, 2**32 - 1):
        for wanted in (2**31 - 1, 2**31, 2**32 - 1, 2**32, 2**39 - 1):
            yield Wish(
                f"CHECKLOCKTIMEVERIFY {wanted} at {lock_time}", b"", n(wanted) + b"\xb1", lock_time=lock_time, sequences=(0,), by_block=False,
            )  # fmt: skip
    for sequence in (FINAL, FINAL - 1, HIGH - 1, HIGH, 0):
        yield Wish(
            f"CHECKLOCKTIMEVERIFY with the sequence {sequence:x}", b"", b"\x51\xb1", lock_time=2**31, sequences=(sequence,), by_block=False,
        )  # fmt: skip
        yield Wish(
            f"CHECKLOCKTIMEVERIFY of a time with the sequence {sequence:x}", b"", n(500000000) + b"\xb1", lock_time=2**31, sequences=(sequence,), by_block=False,
        )  # fmt: skip
    for sequence in (
            0, 1, 5, 65535, TIMED, TIMED | 5, TIMED | 65535, HIGH, HIGH | 5,
            HIGH | TIMED | 5, 0x10005, 0x200005, 0x800005, 0x40000005, FINAL,
    ):  # fmt: skip
        for wanted in (
                1, 4, 5, 6, 65535, TIMED, TIMED | 5, TIMED | 6, 0x10005,
                0x200005, 0x800004, 0x40000005, HIGH, HIGH | 6, 2**32, 2**39 - 1,
        ):  # fmt: skip
            if (sequence * 7 + wanted * 3) % 5 < 2 or sequence in (5, TIMED | 5):
                yield Wish(
                    f"CHECKSEQUENCEVERIFY {wanted:x} at {sequence:x}", b"", n(wanted) + b"\xb2", version=2, sequences=(sequence,), by_block=False,
                )  # fmt: skip
