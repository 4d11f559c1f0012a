"""Calls that write into the caller's room: what is too small is told apart from an answer, and rooms that grow change none."""

import ctypes
import random
import unittest
from ctypes import c_uint64
from typing import Any, List, Tuple

from wakotehu import consensus as c
from wakotehu.encoding import Input, Output, Transaction, write_transaction
from wakotehu.library import library

TX = write_transaction(Transaction(1, [Input(b"\7" * 32, 0, b"", 0)], [Output(1, b"")], 0))
#: A strict signature with its hash type, whose numbers are 1.
SIGNATURE = bytes.fromhex("300602010102010101")
LONG = bytes(range(250)) * 4


class EvalScriptTest(unittest.TestCase):
    def test_a_long_key_or_signature_is_asked_for(self) -> None:
        """CHECKSIGVERIFY 1, of a signature and a key, either of 1,000 bytes, which only a stack that is given can have."""
        for stack in ([SIGNATURE, LONG], [LONG, b"\2" * 33], [LONG, LONG[::-1]]):
            with self.subTest(sizes=[*map(len, stack)]):
                ask = lambda **more: c.eval_script(TX, 0, b"\xad\x51", stack, (), **more)  # noqa: E731
                asked = ask()
                self.assertIsInstance(asked, c.Triple)
                self.assertEqual((asked.key, asked.signature), (stack[1], stack[0][:-1]))
                self.assertEqual(ask(valid=asked.line), [b"\1"])
                self.assertEqual(ask(invalid=asked.line), c.ScriptError.CHECKSIGVERIFY)
                # No such key is a point of the curve, and no such signature is one.
                self.assertEqual(ask(signatures="secp256k1"), c.ScriptError.CHECKSIGVERIFY)
                self.assertEqual(ask(signatures="secp256k1", valid=asked.line), [b"\1"])

    def test_a_long_stack_and_many_elements_are_left(self) -> None:
        stack = [bytes([n % 251]) * (n % 977) for n in range(900)]
        self.assertEqual(c.eval_script(TX, 0, b"\x51", stack), [*stack, b"\1"])
        many = [b""] * 3000
        self.assertEqual(c.eval_script(TX, 0, b"", many), many)

    def test_random_runs_by_growing_rooms(self) -> None:
        """4,000 scripts on random stacks: a call with rooms of any size says the answer, or which room is too small and what it
        needs; with that much it is the answer of large rooms."""
        rng, met = random.Random(85), {0: 0, 5: 0, 29: 0, 32: 0}
        for n in range(4000):
            script = bytes(rng.choice(b"\x51\x52\x75\x76\x78\xac\xad\xae") for _ in range(rng.randrange(1, 7)))
            stack = [rng.randbytes(rng.choice((rng.randrange(12), rng.randrange(900, 1000)))) for _ in range(rng.randrange(1, 6))]
            flags = rng.choice((0, 1, 4, 1 | 4 | 512 | 1024))
            right = self.run_in(script, stack, flags, 1200, 1 << 17, 1 << 13)
            rooms = [rng.randrange(3), rng.randrange(1000), rng.randrange(3000)]
            found = self.run_in(script, stack, flags, *rooms)
            met[found[0]] += 1
            if found[0] == 5:
                rooms[:2] = [found[1][0], found[1][1]]
            elif found[0] == 32:
                self.assertEqual(found[1], (0, 0, 1))
                rooms[2] = found[4]
            self.assertEqual(self.run_in(script, stack, flags, *rooms), right, n)
            told = c.eval_script(TX, 0, script, stack, [name for name, bit in c._BITS.items() if flags & bit])
            self.assertEqual(told, self.shown(right), n)
        self.assertTrue(all(count > 99 for count in met.values()), met)

    def run_in(self, script: bytes, stack: List[bytes], flags: int, sizes: int, left: int, line: int) -> Tuple[Any, ...]:
        """The code, what is told of the stack, the stack, the line that is asked for, and its length."""
        c.sha1(b"")
        given = (c_uint64 * len(stack))(*map(len, stack))
        joined, room = b"".join(stack), ctypes.create_string_buffer(max(line, 1))
        told, needed, at = c._Evaluated(7, 7, 7), c_uint64(0), c_uint64()
        lengths, bytes_left = (c_uint64 * max(sizes, 1))(), ctypes.create_string_buffer(max(left, 1))
        code = library().wakotehu_eval_script(
            TX, len(TX), 0, script, len(script), flags, given, len(stack), joined, len(joined), b"", 0, b"", 0, at, told,
            lengths, sizes, bytes_left, left, room, line, needed,
        )  # fmt: skip
        own = (told.elements, told.size, told.error)
        if code == 0:
            return code, own, [*lengths[: told.elements]], bytes_left.raw[: told.size], 0
        return code, own, [], room.raw[: needed.value] if code == 29 else b"", needed.value

    def shown(self, run: Tuple[Any, ...]) -> Any:
        """What Python's call says of such a run."""
        code, (_, _, error), lengths, text, _ = run
        if code == 29:
            return c.Triple.of_line(text)
        if error:
            return c.ScriptError(error)
        ends = [sum(lengths[: n + 1]) for n in range(len(lengths))]
        return [text[end - length : end] for end, length in zip(ends, lengths)]


class VerifyTest(unittest.TestCase):
    def test_the_longest_line_of_what_scripts_push(self) -> None:
        """A key of 520 bytes and a signature of 520 with its hash type: each call has the room for it."""
        own, spent = push_long(bytes(519) + b"\1"), push_long(bytes(520)) + b"\xac"
        raw = write_transaction(Transaction(1, [Input(b"\7" * 32, 0, own, 0)], [Output(1, b"")], 0))
        found = [c.verify_script(raw, 0, spent, ()), c.verify_known(raw, 0, spent, ())]
        with c.ParsedTransaction(raw) as tx:
            found += [tx.verify_input(0, spent, ()), tx.verify_inputs([spent], ())]
        for one in found:
            self.assertIsInstance(one, c.Triple)
            self.assertEqual((len(one.key), len(one.signature), len(one.line)), (520, 519, 2145))
        self.assertEqual(c.verify_script(raw, 0, spent, (), signatures="secp256k1"), c.ScriptError.EVAL_FALSE)


class CodesTest(unittest.TestCase):
    def test_no_unknown_code_is_an_answer(self) -> None:
        """A code that a call doesn't read is an error, also one that a later library may have."""
        c.sha1(b"")
        own = library()
        for code in (3, 4, 5, 6, 10, 11, 31, 32, 33, 99):
            for name, ask in (
                ("strict_signature", lambda: c.strict_signature(b"")), ("verify_script", lambda: c.verify_script(TX, 0, b"")),
                ("verify_known", lambda: c.verify_known(TX, 0, b"")), ("block_size", lambda: c.block_size(b"")),
            ):  # fmt: skip
                real = getattr(own, f"wakotehu_{name}")
                setattr(own, f"wakotehu_{name}", lambda *_: code)
                try:
                    with self.subTest(name=name, code=code), self.assertRaises(c.Error):
                        ask()
                finally:
                    setattr(own, f"wakotehu_{name}", real)


def push_long(data: bytes) -> bytes:
    return b"\x4d" + len(data).to_bytes(2, "little") + data


if __name__ == "__main__":
    unittest.main()
