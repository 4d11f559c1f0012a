"""What of the mempool litecoind has no peer for: transactions that come together, priority, and the file mempool.dat. Words are
Bitcoin Core's, from memory."""

import os
import signal
import struct
import tempfile
import threading
import unittest
import unittest.mock

from blocks import spend
from mempool_steps import COIN, LAST
from test_datadir import FolderCase
from test_mempool import Waiting
from wakotehu import read_id, server, show
from wakotehu.encoding import EncodingError, Input, Output, Transaction, write_transaction
from wakotehu.rpc import saved, settings


def raw(*txs):
    return [write_transaction(tx).hex() for tx in txs]


class TogetherTest(Waiting):
    def asked(self, *txs, most=0):
        return self.call("testmempoolaccept", raw(*txs), most)

    def test_each_behind_those_before_it(self):
        first = self.spends(self.coins[0], 49 * COIN)
        second = self.spends(first.id, 48 * COIN)
        third = self.spends(second.id, 47 * COIN)
        found = self.asked(first, second, third)
        self.assertEqual([(it["txid"], it["allowed"], it["vsize"], it["fees"]) for it in found],
                         [(show(tx.id), True, len(write_transaction(tx)), {"base": 1.0}) for tx in (first, second, third)])  # fmt: skip
        self.assertEqual(self.waiting(), set())
        self.assertEqual([it["allowed"] for it in self.asked(second)], [False])

    def test_none_behind_one_that_is_refused(self):
        first, bad = self.spends(self.coins[0], 49 * COIN), self.spends(self.coins[1], 51 * COIN)
        last = self.spends(self.coins[2])
        found = self.asked(first, bad, last)
        self.assertTrue(found[0]["allowed"])
        self.assertEqual(found[1:], [{"txid": show(bad.id), "allowed": False, "reject-reason": "bad-txns-in-belowout"},
                                     {"txid": show(last.id)}])  # fmt: skip
        found = self.asked(first, last, most=0.1)
        self.assertEqual(found, [{"txid": show(first.id), "allowed": False, "reject-reason": "max-fee-exceeded"}, {"txid": show(last.id)}])

    def test_what_comes_not_together(self):
        first = self.spends(self.coins[0], 49 * COIN)
        second, other = self.spends(first.id, 48 * COIN), self.spends(self.coins[0], 48 * COIN)
        for txs, fault in (
            ((first, first), "package-contains-duplicates"), ((second, first), "package-not-sorted"),
            ((first, other), "conflict-in-package"),
        ):  # fmt: skip
            self.assertEqual(self.asked(*txs), [{"txid": show(tx.id), "package-error": fault} for tx in txs])
            if fault != "conflict-in-package":
                continue
            message = "package topology disallowed. not child-with-parents or parents depend on each other."
            self.assertEqual(self.call("submitpackage", raw(self.spends(self.coins[5]), second)), {"code": -25, "message": message})

    def test_a_coin_that_one_spends_twice(self):
        """By inputs that differ: it is refused by itself, as by litecoind, and is no conflict of several."""
        inputs = [Input(self.coins[0], 0, b"", LAST), Input(self.coins[0], 0, b"", LAST - 1)]
        twice, other = Transaction(2, inputs, [Output(COIN, b"\x51")], 0), self.spends(self.coins[1])
        refused = {"txid": show(twice.id), "allowed": False, "reject-reason": "bad-txns-inputs-duplicate"}
        self.assertEqual(self.asked(twice), [refused])
        self.assertEqual(self.asked(twice, other), [refused, {"txid": show(other.id)}])

    def test_together_none_is_replaced(self):
        first = Transaction(2, [Input(self.coins[0], 0, b"", LAST - 2)], [Output(49 * COIN, b"\x51")], 0)
        self.send(first)
        other = self.spends(self.coins[0], 40 * COIN)
        self.assertEqual(self.asked(other)[0]["allowed"], True)
        self.assertEqual(self.asked(other, self.spends(self.coins[1]))[0]["reject-reason"], "bip125-replacement-disallowed")

    def test_faults(self):
        lone = raw(self.spends(self.coins[0]))
        many = {"code": -8, "message": "Array must contain between 1 and 25 transactions."}
        decode = {"code": -22, "message": "TX decode failed. Make sure the tx has at least one input."}
        for method in ("testmempoolaccept", "submitpackage"):
            self.assertEqual(self.call(method, []), many)
            self.assertEqual(self.call(method, lone * 26), many)
            self.assertEqual(self.call(method, [*lone, "00"]), decode)

    def test_a_package(self):
        parents = [self.spends(self.coins[place], 50 * COIN) for place in (0, 1)]
        child = Transaction(2, [Input(tx.id, 0, b"", LAST) for tx in parents], [Output(100 * COIN - 6000, b"\x51")], 0)
        self.send(parents[0])
        found = self.call("submitpackage", raw(*parents, child))
        self.assertEqual((found["package_msg"], found["replaced-transactions"]), ("success", []))
        size = len(write_transaction(child))
        self.assertEqual(found["tx-results"][show(child.id)], {
            "txid": show(child.id), "vsize": size,
            "fees": {"base": 0.00006, "effective-feerate": 6000 * 1000 // size / COIN, "effective-includes": [show(child.id)]},
        })  # fmt: skip
        self.assertEqual(self.waiting(), {show(tx.id) for tx in (*parents, child)})

    def test_a_package_that_replaces(self):
        first = Transaction(2, [Input(self.coins[0], 0, b"", LAST - 2)], [Output(50 * COIN - 10, b"\x51")], 0)
        self.send(first)
        other = self.spends(self.coins[0], 50 * COIN - 1000)
        found = self.call("submitpackage", raw(other))
        self.assertEqual((found["package_msg"], found["replaced-transactions"]), ("success", [show(first.id)]))
        self.assertEqual(self.waiting(), {show(other.id)})

    def test_a_package_that_fails(self):
        parent = self.spends(self.coins[0], 50 * COIN)
        child = self.spends(parent.id, 51 * COIN)
        found = self.call("submitpackage", raw(parent, child))
        self.assertEqual((found["package_msg"], found["tx-results"][show(child.id)]),
                         ("transaction failed", {"txid": show(child.id), "error": "bad-txns-in-belowout"}))  # fmt: skip
        self.assertEqual(self.waiting(), {show(parent.id)})
        rich = self.spends(self.coins[1], COIN)
        self.assertEqual(self.call("submitpackage", raw(rich))["tx-results"][show(rich.id)]["error"], "max feerate exceeded")
        found = self.call("submitpackage", raw(rich, rich))
        self.assertEqual((found["package_msg"], found["tx-results"][show(rich.id)]["error"]),
                         ("package-contains-duplicates", "package-not-validated"))  # fmt: skip

    def test_what_is_burnt(self):
        burnt = self.spends(self.coins[0], 50 * COIN - 1000, to=b"\x6a")
        message = "Unspendable output exceeds maximum configured by user (maxburnamount)"
        self.assertEqual(self.call("submitpackage", raw(burnt)), {"code": -25, "message": message})
        self.assertEqual(self.call("submitpackage", raw(burnt), 0, 50)["package_msg"], "success")


class ReplacedTest(Waiting):
    def test_by_a_call(self):
        first = Transaction(2, [Input(self.coins[0], 0, b"", LAST - 2)], [Output(50 * COIN - 1000, b"\x51")], 0)
        self.send(first)
        child = self.spends(first.id, 50 * COIN - 2000)
        self.send(child)
        shown = self.call("getmempoolentry", show(child.id))
        self.assertTrue(shown["bip125-replaceable"])
        low = self.spends(self.coins[0], 50 * COIN - 1500)
        answer = self.send(low)
        self.assertEqual(answer["code"], -26)
        self.assertEqual(answer["message"].partition(";")[0].partition(",")[0], "insufficient fee")
        other = self.spends(self.coins[0], 50 * COIN - 9000)
        self.assertEqual(self.send(other), show(other.id))
        self.assertEqual(self.waiting(), {show(other.id)})
        self.assertEqual(self.send(self.spends(self.coins[0], COIN)), {"code": -26, "message": "txn-mempool-conflict"})
        self.running.node.mempool.full_rbf = True
        last = self.spends(self.coins[0], COIN)
        self.assertEqual(self.send(last), show(last.id))


class PriorityTest(Waiting):
    def test_a_fee_by_word(self):
        tx = self.spends(self.coins[0], 50 * COIN - 300)
        self.assertIs(self.call("prioritisetransaction", show(tx.id), 0, 700), True)
        self.send(tx)
        child = self.spends(tx.id, 50 * COIN - 500)
        self.send(child)
        self.assertIs(self.call("prioritisetransaction", show(child.id), None, -50), True)
        shown = self.call("getmempoolentry", show(child.id))
        self.assertEqual((shown["fees"], shown["ancestorfees"]),
                         ({"base": 2e-06, "modified": 1.5e-06, "ancestor": 1.15e-05, "descendant": 1.5e-06}, 1150))  # fmt: skip
        # What a block takes stays the fee.
        [mined] = self.mined(1)
        self.assertEqual(self.call("getblock", mined, 2)["tx"][0]["vout"][0]["value"], 50 + 500 / COIN)

    def test_faults(self):
        for words, code, message in (
            (["11" * 32, 1, 5], -8, "Priority is no longer supported, dummy argument to prioritisetransaction must be 0."),
            (["11" * 31, 0, 5], -8, "txid must be of length 64 (not 62, for '" + "11" * 31 + "')"),
            (["11" * 32, 0, 1.5], -1, "JSON integer out of range"),
        ):  # fmt: skip
            self.assertEqual(self.call("prioritisetransaction", *words), {"code": code, "message": message})


class FileTest(Waiting):
    """mempool.dat as Bitcoin Core's first form has it."""

    def spelled(self, rows, deltas=(), sent=()):
        parts = [struct.pack("<QQ", 1, len(rows))]
        parts += [write_transaction(tx) + struct.pack("<qq", time, delta) for tx, time, delta in rows]
        parts += [bytes([len(deltas)]), *(id + struct.pack("<q", delta) for id, delta in deltas)]
        return b"".join([*parts, bytes([len(sent)]), *sent])

    def test_its_bytes(self):
        first = self.spends(self.coins[0], 50 * COIN - 1000)
        child = self.spends(first.id, 50 * COIN - 2000)
        for tx in (first, child):
            self.send(tx)
        self.call("prioritisetransaction", show(child.id), 0, -7)
        self.call("prioritisetransaction", "22" * 32, 0, 9)
        now = 1296688602 + 600 * 2000
        data = self.spelled([(first, now, 0), (child, now, -7)], [(read_id("22" * 32), 9)], [first.id, child.id])
        node = self.running.node
        with node.turn:
            self.assertEqual(saved.spelled(node.mempool), data)
        found = saved.read(data)
        self.assertEqual([(row.data, row.tx, row.time) for row in found.rows],
                         [(write_transaction(tx), tx, now) for tx in (first, child)])  # fmt: skip
        self.assertEqual((found.deltas, found.sent), ({child.id: -7, read_id("22" * 32): 9}, {first.id, child.id}))

    def test_bytes_that_are_no_file(self):
        data = self.spelled([(self.spends(self.coins[0]), 1, 2)])
        saved.read(data)
        for cut in range(len(data)):
            self.assertRaises(EncodingError, saved.read, data[:cut])
        for bad in (data + b"\0", b"\2" + data[1:], data[:8] + b"\xff" * 8 + data[16:], b""):
            self.assertRaises(EncodingError, saved.read, bad)

    def test_what_is_read_is_judged(self):
        first, late = self.spends(self.coins[0], 50 * COIN - 1000), self.spends(self.coins[109])
        child = self.spends(first.id, 50 * COIN - 2000)
        gone = self.spends(b"\x11" * 32)
        with tempfile.TemporaryDirectory() as folder:
            path = os.path.join(folder, "mempool.dat")
            node = self.running.node
            with node.turn:
                saved.load(node, path)
            self.assertEqual(self.waiting(), set())
            with open(path, "wb") as file:
                file.write(self.spelled([(first, 77, 5), (late, 78, 0), (gone, 79, 0), (child, 80, 0)], (), [child.id]))
            with node.turn:
                saved.load(node, path)
            shown = {id: (it["time"], it["unbroadcast"], it["modifiedfee"]) for id, it in self.call("getrawmempool", True).items()}
            self.assertEqual(shown, {show(first.id): (77, False, 1.005e-05), show(child.id): (80, True, 1e-05)})
            with open(path, "wb") as file:
                file.write(b"\1")
            with node.turn:
                saved.load(node, path)
            node.saves_to = path
            self.assertEqual(self.call("savemempool"), {"filename": path})
            with open(path, "rb") as file:
                self.assertEqual([row.tx.id for row in saved.read(file.read()).rows], [first.id, child.id])
            self.assertEqual(os.stat(path).st_mode & 0o777, 0o600)
            node.saves_to = os.path.join(folder, "none", "mempool.dat")
            self.assertEqual(self.call("savemempool"), {"code": -1, "message": "Unable to dump mempool to disk"})

    def test_others_go_on_while_the_disk_is_waited_for(self):
        begun, ends = threading.Event(), threading.Event()
        self.running.node.saves_to = "mempool.dat"
        with unittest.mock.patch.object(saved, "_write", side_effect=lambda path, data: begun.set() or ends.wait(30)):
            thread = threading.Thread(target=self.call, args=("savemempool",))
            thread.start()
            self.assertTrue(begun.wait(10))
            self.send(self.spends(self.coins[0], 49 * COIN))
            self.assertTrue(thread.is_alive())
            ends.set()
            thread.join()

    def test_no_folder(self):
        self.assertEqual(self.call("savemempool"), {"code": -1, "message": "Unable to dump mempool to disk"})

    def test_what_left_a_block_is_kept_too(self):
        tx = self.spends(self.coins[0], 50 * COIN - 1000)
        self.send(tx)
        [mined] = self.mined(1)
        node = self.running.node
        with node.turn:
            node.bench.try_mark("invalidate", read_id(mined))
            self.assertEqual([row.tx.id for row in saved.read(saved.spelled(node.mempool)).rows], [tx.id])


class ServersTest(FolderCase):
    def test_from_one_to_the_next(self):
        first = self.started()
        [*_, last] = first.call("generatetodescriptor", 101, "raw(51)")
        coin = first.call("getblock", first.call("getblockhash", 1))["tx"][0]
        tx = spend(read_id(coin), 0, 50 * COIN - 1000, b"", b"\x51")
        id = first.call("sendrawtransaction", write_transaction(tx).hex())
        self.assertEqual(id, show(tx.id))
        first.end(signal.SIGTERM)
        second = self.started()
        self.assertEqual((second.call("getrawmempool"), second.call("getbestblockhash")), ([id], last))
        self.assertEqual(second.call("stop"), "Wakotehu stopping")
        second.process.wait(10)
        third = self.started("-persistmempool=0")
        self.assertEqual(third.call("getrawmempool"), [])
        third.end(signal.SIGTERM)
        fourth = self.started()
        self.assertEqual(fourth.call("getrawmempool"), [id])


class FlagsTest(unittest.TestCase):
    def given(self, *words):
        return server._given(["-rpcport=0", *words])

    def test_switches(self):
        found = self.given()
        self.assertEqual((found.mempoolfullrbf, found.persistmempool), (False, True))
        found = self.given("-mempoolfullrbf", "-nopersistmempool")
        self.assertEqual((found.mempoolfullrbf, found.persistmempool), (True, False))
        self.assertEqual({*settings.SWITCHES} & {*settings.RULES}, set())


if __name__ == "__main__":
    unittest.main()
