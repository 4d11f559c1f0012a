"""Requests that are long: each takes no more than so much of the processor, and holds up nobody."""

import json
import random
import threading
import time
import unittest

from blocks import Maker, block_id, spend
from servers import Running
from wakotehu import show
from wakotehu.encoding import GENESIS, GENESIS_BLOCK, Input, Output, Transaction, coinbase, mine, write_transaction
from wakotehu.rpc import outlines
from wakotehu.rpc.jsonrpc import MAX_DEPTH, answer

#: How many seconds a read waits at most that another connection makes meanwhile.
SOON = 1.0
#: A key of the curve: its generator.
KEY = "0279be667ef9dcbbac55a06295ce870b07029bfcdb2dce28d959f2815b16f81798"


def many_inputs(count):
    return Transaction(1, [Input(b"\1" * 32, place, b"\x51", 0) for place in range(count)], [Output(1, b"\x51")], 0)


def many_outputs(count):
    return Transaction(1, [Input(b"\1" * 32, 0, b"\x51", 0)], [Output(1, b"\x51")] * count, 0)


class HeavyTest(unittest.TestCase):
    @classmethod
    def setUpClass(cls):
        cls.running = Running()
        cls.addClassCleanup(cls.running.stop)
        cls.running.call("generatetodescriptor", 3, "raw(51)")

    def takes(self, seconds, method, *params):
        """The error or the result of a call, which takes at most so much of the processor, while others are answered."""
        body = json.dumps({"method": method, "params": params, "id": 1}).encode()
        waits, is_over = [], threading.Event()

        def read():
            while not is_over.is_set():
                began = time.monotonic()
                self.assertEqual(self.running.call("getblockcount"), 3)
                waits.append(time.monotonic() - began)
                time.sleep(0.02)

        reader = threading.Thread(target=read)
        reader.start()
        began = time.process_time()
        try:
            status, answered = self.running.posted(body)
            taken = time.process_time() - began
        finally:
            is_over.set()
            reader.join()
        self.assertLess(max(waits), SOON)
        self.assertLess(taken, seconds)
        reply = json.loads(answered)
        return reply["error"] or reply["result"]

    def test_lists(self):
        """As many as 32 MB have room for: the processor's seconds are some times those that they take here."""
        inputs = [{"txid": f"{place:064x}", "vout": place} for place in range(100_000)]
        prevtxs = [{"txid": f"{place:064x}", "vout": 0, "scriptPubKey": "51" * 30} for place in range(50_000)]
        for seconds, method, params, has in (
            (5, "scantxoutset", ("start", [f"raw({place:08x})" for place in range(300_000)]), "success"),
            (5, "scantxoutset", ("start", [{"desc": f"raw({place:08x})", "range": 9} for place in range(100_000)]), "success"),
            (6, "createrawtransaction", (inputs, []), None), (3, "getblockstats", (1, ["txs"] * 300_000), "txs"),
            (3, "gettxoutproof", ([f"{place:064x}" for place in range(100_000)], "11" * 32), "code"),
            (3, "generateblock", ("raw(51)", ["11" * 32] * 200_000), "code"), (3, "logging", (["net"] * 300_000,), "net"),
            (8, "signrawtransactionwithkey", (write_transaction(many_inputs(1)).hex(), [], prevtxs), "complete"),
        ):  # fmt: skip
            with self.subTest(method):
                found = self.takes(seconds, method, *params)
                self.assertTrue(has is None or has in found, found if len(str(found)) < 200 else method)

    def test_descriptors(self):
        nested, long = "raw(" * 3_000_000, "raw(" + "51" * 3_000_000 + ")"
        for seconds, method, params, code in (
            (4, "generatetodescriptor", (1, nested), -5), (4, "generatetodescriptor", (1, long), -5),
            (4, "generateblock", (nested, []), -5), (6, "getdescriptorinfo", (nested,), -5), (6, "getdescriptorinfo", ("sh(" * 3_000_000,), -5),
            (6, "getdescriptorinfo", ("wsh(" * 2_000_000 + "pk(a)" + ")" * 2_000_000,), -5),
            (6, "getdescriptorinfo", (f"multi(1{f',{KEY}' * 20_000})",), -5), (4, "getdescriptorinfo", (f"pk({']' * 9_000_000})",), -5),
        ):  # fmt: skip
            with self.subTest(f"{method} {str(params)[:20]}"):
                self.assertEqual(self.takes(seconds, method, *params)["code"], code)
        found = self.takes(6, "getdescriptorinfo", long)
        self.assertEqual((found["descriptor"][:-9], found["checksum"]), (long, found["descriptor"][-8:]))

    def test_transactions(self):
        inputs, outputs = (write_transaction(tx).hex() for tx in (many_inputs(20_000), many_outputs(90_000)))
        for seconds, method, params, code in (
            (3, "testmempoolaccept", ([inputs],), None), (3, "sendrawtransaction", (inputs,), -25), (3, "testmempoolaccept", ([outputs],), None),
            (8, "decoderawtransaction", (outputs,), None), (3, "testmempoolaccept", (["00" * 200] * 20_000,), -8),
            (4, "decodescript", ("0101" * 500_000,), None),
        ):  # fmt: skip
            with self.subTest(method):
                found = self.takes(seconds, method, *params)
                self.assertEqual(found.get("code") if isinstance(found, dict) else None, code)
                if method == "testmempoolaccept" and code is None:
                    self.assertEqual(found[0]["reject-reason"], "missing-inputs")

    def test_digits(self):
        """Texts of 12 MB, where something shorter is asked for."""
        for method, params in (
            ("submitblock", ("aa" * 6_000_000,)), ("submitblock", (GENESIS_BLOCK[:80].hex() + "fe40420f00" + "00" * 5_000_000,)),
            ("verifytxoutproof", (GENESIS_BLOCK[:80].hex() + "01000000" + "00" + "fe00005b00" + "ff" * 5_963_776,)),
            ("validateaddress", (" " * 12_000_000,)), ("generatetoaddress", (1, "a" * 12_000_000)),
            ("getblocktemplate", ({"mode": "proposal", "data": "00" * 6_000_000, "rules": ["segwit"]},)),
        ):  # fmt: skip
            with self.subTest(method):
                self.takes(4, method, *params)

    def test_texts_within_brackets(self):
        """How deep brackets lie is found in one go, whatever the texts among them are."""
        for text in (b'\\"' * 3_000_000, b'",' * 6_000_000, b"\\\\" * 3_000_000):
            began = time.process_time()
            self.assertEqual(answer(lambda method, params: 0, b"[" + b"[]," * MAX_DEPTH + b'"' + text)[0], 500)
            self.assertLess(time.process_time() - began, 4)
        for depth, code in ((MAX_DEPTH - 1, None), (MAX_DEPTH, -32700)):
            params = b"[" * depth + rb'"]]\\\"[["' + b"]" * depth
            answered = json.loads(answer(lambda method, params: 0, b'{"method": "echo", "params": ' + params + b"}")[1])
            self.assertEqual((answered["error"] or {}).get("code"), code)


class OutlinesTest(unittest.TestCase):
    """Outlines of a block are those of its transactions as they are read whole."""

    def test_random_blocks(self):
        chance = random.Random(3)

        def script():
            return chance.randbytes(chance.choice((0, 1, 25, 252, 253, 300, 65_535, 65_536)))

        for _ in range(100):
            inputs = [Input(chance.randbytes(32), chance.randrange(2**32), script(), 0) for _ in range(chance.choice((1, 2, 260)))]
            outputs = [Output(chance.randrange(2**50), script()[:400]) for _ in range(chance.choice((1, 2, 300)))]
            txs = [coinbase(1, 50, b"\x51", b"\0"), Transaction(1, inputs, outputs, 0)]
            found = outlines.outlines(mine(GENESIS.id, GENESIS.time, txs))
            self.assertEqual(len(found), 2)
            for tx, own in zip(txs, found):
                data = write_transaction(tx)
                sizes = [len(write_transaction(Transaction(1, [], [out], 0))) - 18 for out in tx.outputs]
                self.assertEqual(own[:3], (len(data), [(it.id, it.index) for it in tx.inputs], len(tx.outputs)))
                self.assertEqual(own[3:], (sum(it.value for it in tx.outputs), sum(sizes)))
                self.assertEqual(outlines.outputs(data), [(it.value, size) for it, size in zip(tx.outputs, sizes)])


class TwiceTest(unittest.TestCase):
    """A block that is submitted again is the same bytes as the kept ones, or is judged."""

    def setUp(self):
        self.running = Running()
        self.addCleanup(self.running.stop)
        self.maker = Maker()

    def submit(self, block, more=b""):
        return self.running.call("submitblock", (block + more).hex())

    def test_answers(self):
        self.running.call("setmocktime", GENESIS.time + 600 * 200)
        first, second = self.maker.chain(2)
        others = self.maker.chain(2, extra=b"o")
        coin = self.maker.coinbases[block_id(first)].id
        early = self.maker.block(block_id(second), [spend(coin, 0, 1, b"")])
        for block, answered in ((first, None), (second, None), (others[0], "inconclusive"), (others[1], "inconclusive")):
            self.assertEqual(self.submit(block), answered)
        self.assertEqual(self.submit(early), "bad-txns-premature-spend-of-coinbase")
        steps = self.running.bench.steps
        # What is left over isn't looked at.
        for block in (GENESIS_BLOCK, first, second, *others):
            for more in (b"", b"\0"):
                self.assertEqual(self.submit(block, more), "duplicate")
        self.assertEqual(self.running.bench.steps, steps)
        # Others are judged: refused ones, and other bytes under a header.
        self.assertEqual(self.submit(early), "duplicate-invalid")
        self.assertEqual(self.submit(second[:-5] + b"\1" + second[-4:]), "duplicate")
        self.assertEqual(self.running.bench.steps, steps + 2)
        self.running.call("invalidateblock", show(block_id(first)))
        self.assertEqual([self.submit(block) for block in (first, second, *others)], ["duplicate-invalid"] * 2 + ["duplicate"] * 2)
        self.running.call("reconsiderblock", show(block_id(first)))
        self.assertEqual([self.submit(block) for block in (first, second, *others)], ["duplicate"] * 4)


if __name__ == "__main__":
    unittest.main()
