"""A transaction that is read once: each answer compared with the call that reads its bytes, its life, and misuse."""

import copy
import gc
import pickle
import threading
import unittest
from typing import List, Union

import wakotehu
from wakotehu import consensus as c
from wakotehu.encoding import push
from wakotehu.errors import BadTable, Closed
from wakotehu.signatures import Secp256k1


def spending(scripts: List[bytes]) -> bytes:
    """A transaction with an input for each script."""
    inputs = tuple(c.Input(bytes([n % 251]) * 32, n, script, 0) for n, script in enumerate(scripts))
    return c.write_transaction(c.Parts(1, inputs, (c.Output(1, b""),), 0))


class ParsedTest(unittest.TestCase):
    def test_a_thousand_inputs(self) -> None:
        """Each input pushes its number, and each script is right for one of them."""
        data = spending([push(n.to_bytes(2, "little")) for n in range(1000)])
        with wakotehu.ParsedTransaction(data) as tx:
            self.assertEqual(tx.size, len(data))
            for n in range(1000):
                spent = push((n ^ (n % 3 == 0)).to_bytes(2, "little")) + b"\x87"
                found = tx.verify_input(n, spent)
                self.assertEqual(found, c.ScriptError.EVAL_FALSE if n % 3 == 0 else None)
                if n % 100 < 3:
                    self.assertEqual(found, c.verify_script(data, n, spent))
                    self.assertEqual(tx.verify(n, spent), c.verify(data, n, spent))
            for beyond in (1000, (1 << 64) - 1):
                with self.assertRaisesRegex(c.Refused, "no such input"):
                    tx.verify_input(beyond, b"\x51")

    def test_all_inputs_at_once(self) -> None:
        """Beside one after the other: the first that is refused, whichever it is."""
        data = spending([push(bytes([n])) for n in range(40)])
        right = [push(bytes([n])) + b"\x87" for n in range(40)]
        with c.ParsedTransaction(data) as tx:
            self.assertIsNone(tx.verify_inputs(right))
            for n in (0, 1, 17, 31, 32, 39):
                wrong = [*right[:n], right[n - 1], *right[n + 1 :]]
                wrong[39] = b"\x6a"
                self.assertEqual(tx.verify_inputs(wrong), (n, c.ScriptError.EVAL_FALSE if n < 39 else c.ScriptError.OP_RETURN))
            for lacking in (right[:-1], [*right, b""], []):
                with self.assertRaisesRegex(c.Refused, "mismatch"):
                    tx.verify_inputs(lacking)
            self.assertEqual(tx.verify_inputs([*right[:7], b"\x01\x7f\xb1", *right[8:]]), (7, c.ScriptError.UNSATISFIED_LOCKTIME))
            self.assertIsNone(tx.verify_inputs([*right[:7], b"\x01\x7f\xb1", *right[8:]], ["P2SH"]))

    def test_all_signatures_at_once(self) -> None:
        """Of a hundred inputs, signed by every type of hash: what is asked for is what a second program signs."""
        secp, secret = Secp256k1(), bytes(31) + b"\x07"
        spent = push(secp.public_key(secret)) + b"\xac"
        bare = spending([b""] * 100)
        kinds = [(1, 2, 3, 0x81, 0x82, 0x83)[n % 6] for n in range(100)]
        own = [
            push(secp.sign(secret, c.signature_digest(bare, n, spent, kind)) + bytes([kind])) for n, kind in enumerate(kinds)
        ]  # fmt: skip
        for wrong in (None, 57):
            scripts = [own[(n + 6) % 100 if n == wrong else n] for n in range(100)]
            asked, valid, invalid = 0, b"", b""
            with c.ParsedTransaction(spending(scripts)) as tx:
                while isinstance(found := tx.verify_inputs([spent] * 100, ["P2SH", "DERSIG"], valid, invalid), c.Triple):
                    asked += 1
                    if secp.valid(found):
                        valid += found.line
                    else:
                        invalid += found.line
            self.assertEqual(found, None if wrong is None else (57, c.ScriptError.EVAL_FALSE))
            # Of SINGLE without an output each digest is 1, so one signature serves them all.
            met = 100 if wrong is None else wrong + 1
            self.assertEqual(asked, met - sum(kind & 3 == 3 for kind in kinds[:met]) + 1)

    def test_flags_of_each_call_alone_count(self) -> None:
        data = spending([b"\x51", b"\x01\x00"])
        inner = b"\xa9\x14" + c.hash160(b"\x00") + b"\x87"
        with c.ParsedTransaction(data) as tx:
            for _ in range(3):
                self.assertEqual(tx.verify_input(0, b"\x01\x7f\xb1"), c.ScriptError.UNSATISFIED_LOCKTIME)
                self.assertIsNone(tx.verify_input(0, b"\x01\x7f\xb1", ["P2SH"]))
                self.assertEqual(tx.verify_input(1, inner), c.ScriptError.EVAL_FALSE)
                self.assertIsNone(tx.verify_input(1, inner, []))
                self.assertEqual(tx.verify(0, b"\x01\x7f\xb1", flags=[]), True)
                self.assertEqual(tx.verify(1, inner, flags=[]), False)

    def test_real_signatures(self) -> None:
        secp, secret = Secp256k1(), bytes(31) + b"\x07"
        spent = push(secp.public_key(secret)) + b"\xac"
        bare = spending([b""] * 3)
        own = [push(secp.sign(secret, c.signature_digest(bare, n, spent, 1)) + b"\x01") for n in range(3)]
        given = [own[0], own[1], own[0]]
        data = spending(given)
        with c.ParsedTransaction(data) as tx:
            for n, right in enumerate((True, True, False)):
                self.assertEqual(tx.verify(n, spent, signatures="secp256k1"), right)
                self.assertFalse(tx.verify(n, spent))
                failed = None if right else c.ScriptError.EVAL_FALSE
                self.assertEqual(tx.verify_input(n, spent, signatures="secp256k1"), failed)
                self.assertEqual(c.verify_script(data, n, spent, signatures="secp256k1"), failed)
                self.assertEqual(c.eval_script(data, n, spent, [given[n][1:]], signatures="secp256k1"), [b"\1" * right])
                # Each signature signs another code.
                failed = c.ScriptError.CHECKSIGVERIFY
                self.assertEqual(tx.verify_input(n, spent[:-1] + b"\xad\x51", signatures="secp256k1"), failed)
                asked = tx.verify_input(n, spent)
                assert isinstance(asked, c.Triple)
                self.assertTrue(tx.verify(n, spent, table=asked.line))
                self.assertIsNone(tx.verify_input(n, spent, valid=asked.line))
                self.assertEqual(tx.verify_input(n, spent, invalid=asked.line), c.ScriptError.EVAL_FALSE)
                with self.assertRaisesRegex(c.Refused, "contradiction"):
                    tx.verify_input(n, spent, valid=asked.line, invalid=asked.line)
            tables: List[Union[str, bytes]] = ["# fine\nnonsense", b"\n\xff"]
            for wrong in tables:
                with self.assertRaises(BadTable) as caught:
                    tx.verify(0, spent, table=wrong)
                self.assertEqual(caught.exception.line, 2)

    def test_what_is_read(self) -> None:
        data = spending([b"\x51"])
        for wrong, fault in ((data[:-1], "short"), (b"", "short"), (data + b"\0", "extra"), (data + data, "extra")):
            with self.assertRaises(c.Refused) as caught:
                c.ParsedTransaction(wrong)
            self.assertEqual(caught.exception.fault, fault)
        with c.ParsedTransaction(data + b"more", whole=False) as tx:
            self.assertEqual(tx.size, len(data))
            self.assertTrue(tx.verify(0, b"\x61"))
        with self.assertRaisesRegex(c.Refused, "short"):
            c.ParsedTransaction(data[:-1], whole=False)

    def test_its_life(self) -> None:
        tx, other = c.ParsedTransaction(spending([b"\x51"])), c.ParsedTransaction(spending([b"\x00"]))
        self.assertRaises(TypeError, copy.copy, tx)
        self.assertRaises(TypeError, pickle.dumps, tx)
        tx.close()
        tx.close()
        for call in (tx.verify, tx.verify_input):
            with self.assertRaisesRegex(Closed, "transaction"):
                call(0, b"\x61")
        self.assertFalse(other.verify(0, b"\x61"))
        # More than can be kept at once: each is given back by itself.
        for n in range(70_000):
            self.assertEqual(c.ParsedTransaction(spending([b"\x51"])).size, 61)
        gc.collect()
        other.close()

    def test_threads_share_one(self) -> None:
        """Eight threads ask at once: none is refused with Busy, and each answer is right."""
        data = spending([push(bytes([n])) for n in range(40)])
        right = [push(bytes([n])) + b"\x87" for n in range(40)]
        wrong: List[object] = []

        def ask(tx: c.ParsedTransaction) -> None:
            try:
                for n in range(50):
                    found = tx.verify_inputs(right), tx.verify_input(n % 40, right[n % 40]), tx.verify_input(0, right[1])
                    if found != (None, None, c.ScriptError.EVAL_FALSE):
                        wrong.append(found)
            except Exception as error:
                wrong.append(error)

        with c.ParsedTransaction(data) as tx:
            threads = [threading.Thread(target=ask, args=(tx,)) for _ in range(8)]
            for thread in threads:
                thread.start()
            for thread in threads:
                thread.join()
        self.assertEqual(wrong, [])


if __name__ == "__main__":
    unittest.main()
