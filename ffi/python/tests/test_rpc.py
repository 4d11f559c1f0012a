"""The calls: faults beside those of Bitcoin Core 0.21, what blocks and scripts look like, and chains that are marked.

faults.json has faults as a program of Bitcoin Core 0.21's code answered them (Debian's litecoind 0.21.2.1, on a chain of
genesis alone): the call, the HTTP status, the code and the text.
"""

import json
import os
import re
import shutil
import socket
import subprocess
import tempfile
import time
import unittest

from blocks import Maker, block_id, spend
from servers import Running
from wakotehu import show
from wakotehu.encoding import GENESIS, GENESIS_BLOCK, Input, Output, Transaction, write_transaction
from wakotehu.rpc.node import CALLS

HERE = os.path.dirname(os.path.abspath(__file__))


class CallsTest(unittest.TestCase):
    #: What is tested over another bench too has its own.
    start = staticmethod(Running)

    def setUp(self):
        self.running = self.start()
        self.addCleanup(self.running.stop)
        self.call = self.running.call
        self.maker = Maker()

    def submit(self, block):
        return self.call("submitblock", block.hex())

    def mined(self, count):
        return self.call("generatetodescriptor", count, "raw(51)")


class FaultsTest(CallsTest):
    def test_faults_are_those_of_bitcoin_core(self):
        with open(os.path.join(HERE, "faults.json"), encoding="ascii") as file:
            rows = json.load(file)
        self.assertGreater(len(rows), 180)
        ids = {"GENESIS": show(GENESIS.id), "COINBASE": show(GENESIS.root)}
        for words, status, code, message in rows:
            with self.subTest(words=words):
                name, *params = [ids.get(word, word) if isinstance(word, str) else word for word in words]
                found, body = self.running.posted({"method": name, "params": params})
                error = json.loads(body)["error"]
                self.assertEqual((found, error["code"], error["message"]), (status, code, message))

    def test_wrong_counts_of_parameters_are_told_by_the_usage(self):
        """Null is a parameter too, as at Bitcoin Core."""
        for words in (
            ["getblockhash"], ["getblockhash", 1, 2], ["uptime", 1], ["getblock"], ["gettxout", "00" * 32],
            ["getbestblockhash", None], ["getblockcount", None, None], ["getblockhash", 0, None], ["uptime", None],
        ):  # fmt: skip
            error = self.call(*words)
            self.assertEqual(error["code"], -1)
            self.assertTrue(error["message"].startswith(words[0]))


class PageTest(unittest.TestCase):
    def test_the_page_lists_all_calls(self):
        with open(f"{HERE}/../../../docs/START.md", encoding="utf-8") as file:
            listed = re.search(r"(?s)## The server's calls\n(.*?)\. `help`", file.read())[1]
        self.assertEqual(re.findall("`([a-z]+)`", listed), sorted(CALLS))


class RequestsTest(CallsTest):
    def test_two_names_of_one_parameter(self):
        """The text is litecoind's; of what is left over the first by the alphabet is named."""
        genesis = show(GENESIS.id)
        for named, left in (
            ({"verbosity": 0, "verbose": 1}, "verbose"), ({"verbose": 0, "verbosity": 1}, "verbose"),
            ({"x": 1, "b": 2, "verbose": 0}, "b"), ({"verbosity": None, "verbose": None}, "verbose"),
        ):  # fmt: skip
            with self.subTest(named):
                error = self.call("getblock", blockhash=genesis, **named)
                self.assertEqual(error, {"code": -8, "message": f"Unknown named parameter {left}"})
        self.assertEqual(self.call("getblock", verbosity=0)["message"], "JSON value is not a string as expected")
        # Of one name that is given twice the first counts here; at Bitcoin Core the last does.
        status, body = self.running.posted(b'{"method": "getblockhash", "params": {"height": 0, "height": 1}}')
        self.assertEqual((status, json.loads(body)["result"]), (200, genesis))

    def test_numbers_and_signs_of_requests(self):
        """Ids come back as they were spelled; halves of a sign aren't read. As litecoind's answers."""
        parse = b'{"result":null,"error":{"code":-32700,"message":"Parse error"},"id":null}\n'
        for id in (b"1" * 5000, b"-" + b"9" * 30, b"1.50", b"1e400", b"-0.0", b'{"a":[1.0,null,true]}', b"[12345678901234567890123]"):
            with self.subTest(id[:30]):
                body = b'{"method": "getblockcount", "id": ' + id + b"}"
                self.assertEqual(self.running.posted(body), (200, b'{"result":0,"error":null,"id":' + id + b"}\n"))
        for id in (b"\\ud800", b"\\udc00", b"\\ud800\\ud800", b"\\uD83Dx", b"\\ude00\\ud83d", b"\\\\\\ud800"):
            with self.subTest(id):
                for body in (b'{"method": "getblockcount", "id": "%s"}', b'{"method": "%s"}', b'{"method": "x", "params": ["%s"]}'):
                    self.assertEqual(self.running.posted(body % id), (500, parse))
        for id, sign in ((b"\\ud83d\\ude00", "\U0001f600"), (b"\\uD83D\\uDE00", "\U0001f600"), (b"\\\\ud800", "\\ud800")):
            status, body = self.running.posted(b'{"method": "getblockcount", "id": "%s"}' % id)
            self.assertEqual((status, json.loads(body)["id"]), (200, sign))
        for word in (b"1" * 5000, b"-" + b"1" * 50, b"1e5", b"1E0", b"1.0", b"1e400"):
            with self.subTest(word[:30]):
                status, body = self.running.posted(b'{"method": "getblockhash", "params": [' + word + b"]}")
                told = {"code": -1, "message": "JSON integer out of range"}
                self.assertEqual((status, json.loads(body)["error"]), (500, told))

    def test_names_and_nulls(self):
        genesis = show(GENESIS.id)
        self.assertEqual(self.call("getblockhash", height=0), genesis)
        self.assertEqual(self.call("getblock", blockhash=genesis, verbosity=0), GENESIS_BLOCK.hex())
        self.assertEqual(self.call("getblock", blockhash=genesis, verbose=False), GENESIS_BLOCK.hex())
        self.assertEqual(self.call("getblock", genesis, None), self.call("getblock", genesis))
        self.assertEqual(self.call("getblockheader", genesis, None), self.call("getblockheader", genesis, True))
        self.assertIsNone(self.call("gettxout", "00" * 32, 0, None))

    def test_versions_and_batches(self):
        cases = [
            ({"method": "getblockcount", "id": 1}, 200, {"result": 0, "error": None, "id": 1}),
            ({"method": "getblockcount"}, 200, {"result": 0, "error": None, "id": None}),
            ({"jsonrpc": "1.0", "method": "x", "id": "a"}, 404,
             {"result": None, "error": {"code": -32601, "message": "Method not found"}, "id": "a"}),
            ({"jsonrpc": "2.0", "method": "getblockcount", "id": 1}, 200, {"jsonrpc": "2.0", "result": 0, "id": 1}),
            ({"jsonrpc": "2.0", "method": "x", "id": 1}, 200,
             {"jsonrpc": "2.0", "error": {"code": -32601, "message": "Method not found"}, "id": 1}),
            ([], 200, []),
            ([{"method": "getblockcount", "id": 1}, 5], 200,
             [{"result": 0, "error": None, "id": 1},
              {"result": None, "error": {"code": -32600, "message": "Invalid Request object"}, "id": None}]),
        ]  # fmt: skip
        for request, status, reply in cases:
            with self.subTest(request=request):
                found, body = self.running.posted(request)
                self.assertEqual((found, json.loads(body)), (status, reply))
        self.assertEqual(self.running.posted({"jsonrpc": "2.0", "method": "getblockcount"}), (204, b""))
        self.assertEqual(self.running.posted([{"jsonrpc": "2.0", "method": "getblockcount"}]), (204, b""))


class SubmitTest(CallsTest):
    """The part of mining_basic that submits blocks."""

    def test_words(self):
        b1, b2 = self.maker.chain(2)
        c1, c2, c3 = self.maker.chain(3, extra=b"c")
        self.assertIsNone(self.submit(b1))
        self.assertEqual(self.submit(b1), "duplicate")
        self.assertEqual(self.submit(c2), "prev-blk-not-found")
        self.assertEqual(self.submit(c2), "prev-blk-not-found")
        self.assertEqual(self.submit(c1), "inconclusive")
        # A block that is kept and was never connected.
        self.assertEqual(self.submit(c1), "duplicate")
        bad = self.maker.block(block_id(b1), more=1)
        self.assertEqual(self.submit(bad), "bad-cb-amount")
        self.assertEqual(self.submit(bad), "duplicate-invalid")
        self.assertEqual(self.submit(self.maker.block(block_id(bad))), "bad-prevblk")
        self.assertIsNone(self.submit(b2))

    def test_bytes(self):
        [b1] = self.maker.chain(1)
        for bad in (b"", b1[:-1], b1[:80]):
            error = self.submit(bad)
            self.assertEqual((error["code"], error["message"]), (-22, "Block decode failed"))
        for without in (b1[:80] + b"\0", b1[:80] + b"\1" + write_transaction(spend(bytes(31) + b"\1", 0, 1, b""))):
            error = self.submit(without)
            self.assertEqual((error["code"], error["message"]), (-22, "Block does not start with a coinbase"))
        # What is left over isn't looked at.
        self.assertIsNone(self.submit(b1 + b"left over"))
        self.assertEqual(self.call("getblock", show(block_id(b1)), 0), b1.hex())

    def test_headers(self):
        b1, b2 = self.maker.chain(2)
        self.assertEqual(self.call("submitheader", b2[:80].hex())["code"], -25)
        self.assertIn("isn't supported", self.call("submitheader", b1[:80].hex())["message"])
        self.submit(b1)
        self.assertIsNone(self.call("submitheader", b1[:80].hex()))


class MarksTest(CallsTest):
    def test_rpc_invalidateblock(self):
        """As Bitcoin Core's test of this name, on one node."""
        ids = self.mined(4)
        other = self.maker.chain(6, extra=b"o")
        for block in other:
            self.submit(block)
        self.assertEqual(self.call("getbestblockhash"), show(block_id(other[5])))
        self.call("invalidateblock", show(block_id(other[1])))
        self.assertEqual(self.call("getblockcount"), 4)
        self.assertEqual(self.call("getbestblockhash"), ids[3])
        more = self.mined(1)
        self.assertEqual(self.call("getblockcount"), 5)
        self.call("invalidateblock", more[0])
        self.call("invalidateblock", ids[0])
        self.assertEqual(self.call("getbestblockhash"), show(block_id(other[0])))
        # A descendant takes the marks from its ancestors, an ancestor from its descendants.
        self.call("reconsiderblock", show(block_id(other[5])))
        self.assertEqual(self.call("getblockcount"), 6)
        self.call("invalidateblock", show(block_id(other[0])))
        self.call("reconsiderblock", ids[0])
        self.assertEqual(self.call("getbestblockhash"), more[0])

    def test_rpc_preciousblock(self):
        """As Bitcoin Core's test of this name: three branches of one height."""
        branches = [self.maker.chain(2, extra=bytes([number])) for number in range(3)]
        for block in sum(branches, []):
            self.submit(block)
        ends = [show(block_id(branch[-1])) for branch in branches]
        self.assertEqual(self.call("getbestblockhash"), ends[0])
        for place in (1, 2, 0, 0, 2):
            self.assertIsNone(self.call("preciousblock", ends[place]))
            self.assertEqual(self.call("getbestblockhash"), ends[place])
        # Of a lower block it changes nothing.
        self.call("preciousblock", show(block_id(branches[0][0])))
        self.assertEqual(self.call("getbestblockhash"), ends[2])

    def test_rpc_getchaintips(self):
        """As Bitcoin Core's test of this name: a short fork beside a long one."""
        short, long = self.maker.chain(10, extra=b"s"), self.maker.chain(20, extra=b"l")
        for block in (*short, *long):
            self.submit(block)
        tips = self.call("getchaintips")
        self.assertEqual(
            tips,
            [
                {"height": 20, "hash": show(block_id(long[-1])), "branchlen": 0, "status": "active"},
                {"height": 10, "hash": show(block_id(short[-1])), "branchlen": 10, "status": "valid-fork"},
            ],
        )


class StopTest(unittest.TestCase):
    start = staticmethod(Running)

    def setUp(self):
        self.running = self.start()
        self.addCleanup(self.running.stop)

    def expect_stopped(self, begun, least, most):
        """The server ends by itself, so many seconds after a moment, and answers no more."""
        self.running.thread.join(10)
        self.assertFalse(self.running.thread.is_alive())
        self.assertTrue(least <= time.monotonic() - begun < most)
        with self.assertRaises(OSError):
            socket.create_connection(("127.0.0.1", self.running.port), 1).close()

    def test_at_once(self):
        begun = time.monotonic()
        self.assertEqual(self.running.call("stop"), "Wakotehu stopping")
        self.expect_stopped(begun, 0, 2)

    def test_after_a_while(self):
        """The answer comes at once, and until the server ends each call is told so."""
        begun = time.monotonic()
        self.assertEqual(self.running.call("stop", 1500), "Wakotehu stopping")
        self.assertLess(time.monotonic() - begun, 1)
        self.assertTrue(self.running.thread.is_alive())
        self.assertEqual(self.running.call("getblockcount"), {"code": -1, "message": "The server is stopping"})
        self.expect_stopped(begun, 1.5, 4)

    def test_by_name(self):
        begun = time.monotonic()
        self.assertEqual(self.running.call("stop", wait=300), "Wakotehu stopping")
        self.expect_stopped(begun, 0.3, 3)

    def test_what_is_no_time(self):
        """The server goes on."""
        for wait in ("1", True, [], {}, 2**40, 1.5):
            error = self.running.call("stop", wait)
            self.assertIn(error["code"], (-1, -3), error)
        self.assertIn("stop", self.running.call("stop", 1, 2)["message"])
        self.assertEqual(self.running.call("getblockcount"), 0)


class ShownTest(CallsTest):
    def paid(self):
        """Blocks of which the last one's transaction pays a fee of 1000."""
        self.call("setmocktime", GENESIS.time + 600 * 200)
        blocks = self.maker.chain(101)
        for block in blocks:
            self.submit(block)
        coin = self.maker.coinbases[block_id(blocks[0])].id
        tx = Transaction(2, [Input(coin, 0, b"", 5)], [Output(4999999000 - 7, b"\x52"), Output(7, b"\x6a\x01a")], 0)
        [block] = [self.maker.block(block_id(blocks[-1]), [tx], more=1000)]
        self.assertIsNone(self.submit(block))
        return tx, block

    def test_transactions(self):
        tx, block = self.paid()
        id = show(block_id(block))
        shown = self.call("getblock", id, 2)["tx"][1]
        self.assertEqual((shown["txid"], shown["fee"], shown["hex"]), (show(tx.id), 0.00001, write_transaction(tx).hex()))
        self.assertEqual([out["scriptPubKey"]["type"] for out in shown["vout"]], ["nonstandard", "nulldata"])
        self.assertEqual(shown["vout"][1]["scriptPubKey"]["asm"], "OP_RETURN 97")
        raw = write_transaction(tx).hex()
        self.assertEqual(self.call("getrawtransaction", show(tx.id), 0, id), raw)
        self.assertEqual(self.call("getrawtransaction", show(tx.id), False, id), raw)
        found = self.call("getrawtransaction", show(tx.id), 1, id)
        self.assertEqual((found["confirmations"], found["blockhash"], found["in_active_chain"]), (1, id, True))
        decoded = self.call("decoderawtransaction", raw)
        self.assertEqual(decoded["vin"], shown["vin"])

    def test_getblockstats(self):
        tx, block = self.paid()
        size = len(write_transaction(tx))
        stats = self.call("getblockstats", 102)
        wanted = {
            "txs": 2, "ins": 1, "outs": 3, "totalfee": 1000, "avgfee": 1000, "total_size": size, "maxtxsize": size,
            "avgfeerate": 1000 // size, "feerate_percentiles": [1000 // size] * 5, "utxo_increase": 2, "height": 102,
            "subsidy": 5000000000, "total_out": 4999999000, "blockhash": show(block_id(block)),
        }  # fmt: skip
        self.assertEqual({name: stats[name] for name in wanted}, wanted)
        self.assertEqual(self.call("getblockstats", show(block_id(block)), ["txs"]), {"txs": 2})
        self.assertEqual(self.call("getblockstats", 102, ["x"])["code"], -8)

    def test_all_coins(self):
        tx, _ = self.paid()
        info = self.call("gettxoutsetinfo")
        self.assertEqual((info["txouts"], info["transactions"], info["total_amount"]), (102, 102, 5100 - 7e-8))
        found = self.call("scantxoutset", "start", ["raw(52)"])
        self.assertEqual((found["txouts"], len(found["unspents"])), (102, 1))
        it = found["unspents"][0]
        self.assertEqual((it["txid"], it["vout"], it["height"]), (show(tx.id), 0, 102))

    def test_the_hash_of_all_coins_is_that_of_bitcoin_core(self):
        """Of litecoind 0.21.2.1 (Bitcoin Core's code), on its genesis block alone."""
        from wakotehu import read_id
        from wakotehu.rpc.blockchain import coins_hash

        best = read_id("530827f38f93b43ed12af0b3ad25a288dc02ed74d6d7857862df51fc56c416f9")
        wanted = "badaac3f6458cdd07e1071244a498be4d5f5b61fcc2dd62db8c4b770a6aaf61a"
        self.assertEqual(show(coins_hash(best, [])), wanted)

    def test_scripts(self):
        key = "02" + "79be667ef9dcbbac55a06295ce870b07029bfcdb2dce28d959f2815b16f81798"
        table = [
            ("", "", "nonstandard"), ("51", "1", "nonstandard"), ("4c", "[error]", "nonstandard"),
            ("21" + key + "ac", key + " OP_CHECKSIG", "pubkey"),
            ("76a914" + "11" * 20 + "88ac", "OP_DUP OP_HASH160 " + "11" * 20 + " OP_EQUALVERIFY OP_CHECKSIG",
             "pubkeyhash"),
            ("a914" + "11" * 20 + "87", "OP_HASH160 " + "11" * 20 + " OP_EQUAL", "scripthash"),
            ("6a0568656c6c6f", "OP_RETURN 68656c6c6f", "nulldata"),
            ("5121" + key + "51ae", "1 " + key + " 1 OP_CHECKMULTISIG", "multisig"),
            ("0014" + "11" * 20, "0 " + "11" * 20, "witness_v0_keyhash"),
            ("ff04ffffffff4f", "OP_INVALIDOPCODE -2147483647 -1", "nonstandard"),
            # As litecoind answered:
            ("ba", "OP_CHECKSIGADD", "nonstandard"), ("bb", "OP_UNKNOWN", "nonstandard"), ("fe", "OP_UNKNOWN", "nonstandard"),
            ("50", "OP_RESERVED", "nonstandard"), ("4c00", "0", "nonstandard"), ("4d0000", "0", "nonstandard"),
            ("0180", "0", "nonstandard"), ("020080", "0", "nonstandard"), ("03008000", "32768", "nonstandard"),
            ("5120" + "11" * 32, "1 " + "11" * 32, "witness_v1_taproot"), ("5114" + "11" * 20, "1 " + "11" * 20, "witness_unknown"),
            ("6020" + "11" * 32, "16 " + "11" * 32, "witness_unknown"), ("0015" + "11" * 21, "0 " + "11" * 21, "nonstandard"),
            ("6a", "OP_RETURN", "nulldata"), ("6a51", "OP_RETURN 1", "nulldata"), ("6a61", "OP_RETURN OP_NOP", "nonstandard"),
            ("6a01", "OP_RETURN [error]", "nonstandard"),
            ("52" + "21" + key + "51ae", "2 " + key + " 1 OP_CHECKMULTISIG", "nonstandard"),
            ("51" + ("21" + key) * 17 + "0111ae", "1 " + (key + " ") * 17 + "17 OP_CHECKMULTISIG", "nonstandard"),
            ("51" + ("21" + key) * 16 + "60ae", "1 " + (key + " ") * 16 + "16 OP_CHECKMULTISIG", "multisig"),
        ]  # fmt: skip
        for script, asm, kind in table:
            with self.subTest(script=script):
                found = self.call("decodescript", script)
                self.assertEqual((found["asm"], found["type"]), (asm, kind))
        # BIP 380's algorithm; the checksum is Bitcoin Core's.
        self.assertEqual(self.call("generatetodescriptor", 0, "raw(51)#8lvh9jxk"), [])
        self.assertEqual(self.call("generatetodescriptor", 0, "raw(51)#8lvh9jxx")["code"], -5)
        self.assertEqual(self.call("decodescript", "51")["p2sh"], "2ND8PB9RrfCaAcjfjP1Y6nAgFd9zWHYX4DN")

    def test_a_transaction_without_inputs(self):
        """As litecoind reads it."""
        none, one = "01000000000000000000", "0100000000010100000000000000015100000000"
        for words in ((none,), (none, True), (none, False), (one,), (one, False)):
            with self.subTest(words):
                found = self.call("decoderawtransaction", *words)
                self.assertEqual((found["vin"], len(found["vout"]), found["size"]), ([], words[0] == one, len(words[0]) // 2))

    def test_versions_and_signatures_as_litecoind_shows_them(self):
        """A version has no sign; a hash type is a word where the script can be spent."""
        signature = "3006020101020101"
        for script, asm in (
            ("09" + signature + "01", signature + "[ALL]"), ("09" + signature + "83", signature + "[SINGLE|ANYONECANPAY]"),
            ("09" + signature + "00", signature + "00"), ("6a09" + signature + "01", "OP_RETURN " + signature + "01"),
            ("61" * 9991 + "09" + signature + "01", "OP_NOP " * 9991 + signature + "01"),
            ("61" * 9990 + "09" + signature + "01", "OP_NOP " * 9990 + signature + "[ALL]"),
        ):  # fmt: skip
            with self.subTest(script[-40:]):
                tx = Transaction(-1, [Input(b"\1" * 32, 0, bytes.fromhex(script), 0)], [Output(1, bytes.fromhex(script))], 0)
                shown = self.call("decoderawtransaction", write_transaction(tx).hex())
                self.assertEqual(shown["version"], 4294967295)
                self.assertEqual(shown["vin"][0]["scriptSig"]["asm"], asm)
                # An output's script has none.
                self.assertEqual(shown["vout"][0]["scriptPubKey"]["asm"][-8:], script[-8:])

    def test_a_block_off_the_branch(self):
        """As litecoind shows it: without its time in getrawtransaction, and without statistics."""
        a, b = self.maker.chain(2), self.maker.chain(1, extra=b"b")
        for block in (*a, *b):
            self.submit(block)
        [id] = map(block_id, b)
        self.assertEqual(self.call("getblockstats", show(id)), {"code": -8, "message": "Block is not in chain regtest"})
        tx = show(self.maker.coinbases[id].id)
        shown = self.call("getrawtransaction", tx, True, show(id))
        self.assertEqual((shown["in_active_chain"], shown["confirmations"]), (False, 0))
        self.assertFalse({"time", "blocktime"} & set(shown))
        other = show(self.maker.coinbases[block_id(a[0])].id)
        shown = self.call("getrawtransaction", other, True, show(block_id(a[0])))
        self.assertEqual((shown["confirmations"], shown["time"], shown["blocktime"]), (2, *2 * (GENESIS.time + 600,)))
        self.assertEqual(self.call("getblockstats", 1, ["b", "a"])["message"], "Invalid selected statistic a")

    def test_no_time_to_wait(self):
        """A negative one is over at once."""
        [id] = self.mined(1)
        for words in (["waitfornewblock", -1], ["waitforblockheight", 9, -1], ["waitforblock", "11" * 32, -(2**31)],
                      ["waitforblockheight", -1, 1], ["waitforblock", id, 0]):  # fmt: skip
            with self.subTest(words):
                self.assertEqual(self.call(*words), {"hash": id, "height": 1})

    def test_tries(self):
        """Each nonce that doesn't meet the target is one; where none is left no block comes any more."""
        self.assertEqual(self.call("generatetodescriptor", 5, "raw(51)", 0), [])
        self.assertEqual(len(self.call("generatetodescriptor", 5, "raw(51)", -1)), 5)
        self.assertEqual(self.call("generatetodescriptor", -1, "raw(51)", 5), [])
        address = self.call("decodescript", "51")["p2sh"]
        for tries in (1, 2, 3, 5, 8):
            with self.subTest(tries):
                height = self.call("getblockcount")
                found = self.call("generatetoaddress", 100, address, tries)
                self.assertEqual(self.call("getblockcount"), height + len(found))
                self.assertLess(sum(self.call("getblockheader", id)["nonce"] for id in found), tries)
                self.assertLess(len(found), 100)

    def test_infos_let_clients_start(self):
        for name in ("getmempoolinfo", "getnetworkinfo", "getmininginfo", "getblockchaininfo"):
            self.assertNotIn("code", self.call(name))
        self.assertEqual([self.call("getrawmempool"), self.call("getpeerinfo"), self.call("getconnectioncount")], [[], [], 0])
        self.assertIn("getblockhash height", self.call("help"))
        self.assertTrue(self.call("help", "getblock").startswith("getblock blockhash ( verbosity )"))


class KeysTest(CallsTest):
    """Codes and texts are those of Bitcoin Core 0.21: of litecoind with a wallet, and of its source for types that no wallet has."""

    def test_two_askers_get_two_addresses(self):
        first, second = self.call("getnewaddress"), self.call("getnewaddress", "label", "legacy")
        self.assertNotEqual(first, second)
        self.assertEqual(self.call("getnewaddress", None, None)[0] in "mn", True)
        # What is paid to it is spent by the key.
        [block] = self.call("generatetoaddress", 1, first)
        self.call("generatetodescriptor", 100, "raw(51)")
        [coinbase] = self.call("getblock", block)["tx"]
        raw = self.call("createrawtransaction", [{"txid": coinbase, "vout": 0}], {second: 49.999})
        other = self.call("signrawtransactionwithkey", raw, [self.call("dumpprivkey", second)])
        self.assertFalse(other["complete"])
        spending = self.call("signrawtransactionwithkey", raw, [self.call("dumpprivkey", first)])
        self.assertTrue(spending["complete"])
        self.assertEqual(len(self.call("sendrawtransaction", spending["hex"])), 64)
        [mined] = self.call("generatetodescriptor", 1, "raw(51)")
        self.assertEqual(self.call("getblock", mined, 2)["tx"][1]["vout"][0]["scriptPubKey"]["addresses"], [second])

    def test_refused(self):
        script = "2N3oefVeg6stiTb5Kh3ozCSkaqmx91FDbsm"
        self.assertTrue(self.call("validateaddress", script)["isscript"])
        unknown = "mipcBbFg9gMiCh81Kj8tqqdgoZub1ZJRfn"
        for words, code, message in (
            (("getnewaddress", "", "bech32"), -12, "Error: No bech32 addresses available."),
            (("getnewaddress", "", "p2sh-segwit"), -12, "Error: No p2sh-segwit addresses available."),
            (("getnewaddress", "", "x"), -5, "Unknown address type 'x'"), (("getnewaddress", "*", "x"), -11, "Invalid label name"),
            (("getnewaddress", 5), -1, "JSON value is not a string as expected"),
            (("getnewaddress", "", 5), -1, "JSON value is not a string as expected"), (("dumpprivkey", "x"), -5, "Invalid Bitcoin address"),
            (("dumpprivkey", unknown), -4, f"Private key for address {unknown} is not known"),
            (("dumpprivkey", script), -3, "Address does not refer to a key"), (("getmemoryinfo", "x"), -8, "unknown mode x"),
            (("addnode", "127.0.0.1", "add"), -31, "Error: Peer-to-peer functionality missing or disabled"),
            (("disconnectnode", "127.0.0.1"), -29, "Node not found in connected nodes"),
            (("disconnectnode", None, 1), -29, "Node not found in connected nodes"), (("disconnectnode", "", 1), -29, "Node not found in connected nodes"),
            (("disconnectnode",), -32602, "Only one of address and nodeid should be provided."),
            (("disconnectnode", "a", 1), -32602, "Only one of address and nodeid should be provided."),
            (("mockscheduler", 3601), -1, "delta_time must be between 1 and 3600 seconds (1 hr)"),
            (("mockscheduler", 0), -1, "delta_time must be between 1 and 3600 seconds (1 hr)"),
            (("mockscheduler", "1"), -3, "Expected type number, got string"),
        ):  # fmt: skip
            error = self.call(*words)
            self.assertEqual((error["code"], error["message"]), (code, message))
        self.assertEqual(self.call("addnode", "127.0.0.1", "x")["code"], -1)

    def test_no_peers(self):
        self.assertIsNone(self.call("ping"))
        totals = self.call("getnettotals")
        self.assertEqual((totals["totalbytesrecv"], totals["totalbytessent"], totals["uploadtarget"]["target"]), (0, 0, 0))
        self.assertEqual(set(self.call("getmemoryinfo")["locked"].values()), {0})
        self.assertIsNone(self.call("syncwithvalidationinterfacequeue"))
        self.assertIsNone(self.call("mockscheduler", 3600))

    def test_deployments(self):
        """Of each block, as they are in force in its child."""
        self.assertEqual(self.call("getdeploymentinfo"), self.call("getdeploymentinfo", self.call("getbestblockhash")))
        last = self.call("generatetodescriptor", 3, "raw(51)")[-1]
        self.assertEqual(self.call("getdeploymentinfo")["deployments"], self.call("getblockchaininfo")["softforks"])
        told = self.call("getdeploymentinfo", self.call("getblock", last)["previousblockhash"])
        self.assertEqual(told["height"], self.call("getblockcount") - 1)
        self.assertEqual(self.call("getdeploymentinfo", "00" * 32)["message"], "Block not found")

    def test_uptime_is_by_the_clock_that_is_set(self):
        self.assertLess(self.call("uptime"), 600)
        self.call("setmocktime", 1296688700)
        self.assertAlmostEqual(self.call("uptime"), 1296688700 - time.time(), delta=600)


class CommandLineTest(CallsTest):
    @unittest.skipUnless(shutil.which("litecoin-cli") or shutil.which("bitcoin-cli"), "no client is installed")
    def test_a_client_of_bitcoind(self):
        client = shutil.which("bitcoin-cli") or shutil.which("litecoin-cli")
        with tempfile.TemporaryDirectory() as folder:

            def asked(*words):
                command = [client, "-regtest", f"-datadir={folder}", f"-rpcport={self.running.port}"]
                done = subprocess.run(
                    [*command, "-rpcuser=name", "-rpcpassword=password", *words], capture_output=True, text=True
                )
                self.assertEqual(done.returncode, 0, done.stderr)
                return done.stdout.strip()

            self.assertEqual(json.loads(asked("-getinfo"))["blocks"], 0)
            self.assertEqual(len(json.loads(asked("-generate", "3"))["blocks"]), 3)
            self.assertEqual(asked("getblockcount"), "3")
            self.assertEqual(asked("-named", "getblockhash", "height=0"), show(GENESIS.id))
            self.assertIn("== Blockchain ==", asked("help"))


if __name__ == "__main__":
    unittest.main()
