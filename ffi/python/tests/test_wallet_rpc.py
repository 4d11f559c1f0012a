"""The calls on wallets of a server: beside the answers of Debian's litecoind 0.21.2.1 (litecoind_wallet.json, by wallet_steps.py), what
a restart leaves, what doesn't wait for what, and parameters at random."""

import json
import os
import random
import signal
import tempfile
import threading
import time
import unittest
from unittest import mock

import bitcoin
from bitcoin.signmessage import BitcoinMessage, VerifyMessage
from bitcoin.wallet import P2PKHBitcoinAddress
from servers import Running
from test_datadir import FolderCase
from wakotehu.encoding import Output, Transaction, write_transaction
from wakotehu.rpc.checksums import checksum
from wakotehu.rpc.node import CALLS
from wakotehu.rpc.wallets import Wallets
from wakotehu.wallet import Settings
from wakotehu.wallet.store import Store
from wallet_steps import OTHER, played

HERE = os.path.dirname(os.path.abspath(__file__))
#: So many requests at random; 100,000 by hand.
REQUESTS = int(os.environ.get("WAKOTEHU_REQUESTS", "3000"))
#: What wallets of Bitcoin Core may answer, by its `rpc/protocol.h`, and what JSON-RPC does.
CODES = {-1, -3, -4, -5, -6, -8, -11, -12, -16, -18, -19, -22, -25, -26, -27, -32, -32601}
KEY = "tprv8ZgxMBicQKsPeDgjzdC36fs6bMjGApWDNLR9erAXMs5skhMv36j9MV5ecvfavji5khqjWaWSFhN3YcCUUdiKH6isR4Pwy3U5y5egddBr16m"
PUBLIC = "tpubD6NzVbkrYhZ4XgiXtGrdW5XDAPFCL9h7we1vwNCpn8tGbBcgfVYjXyhWo4E1xkh56hjod1RhGjxbaTLV3X4FyWuejifB9jusQ46QzG87VKp"
GROUP = [name for name, own in CALLS.items() if own.group == "Wallet"]


class Case(unittest.TestCase):
    """A server whose wallets are in a folder."""

    def setUp(self):
        self.folder = tempfile.TemporaryDirectory()
        self.addCleanup(self.folder.cleanup)
        self.server = Running()
        self.addCleanup(self.stop)
        self.server.node.wallets = Wallets(self.server.node, self.folder.name, Settings(keypool=20))

    def stop(self):
        self.server.stop()
        self.server.node.wallets.close()

    def call(self, method, *params, path="/", **named):
        _, body = self.server.posted({"method": method, "params": named or list(params), "id": 1}, path=path)
        reply = json.loads(body)
        return reply["error"] or reply["result"]

    def funded(self, name="w", blocks=1):
        self.call("createwallet", name)
        own = self.call("getnewaddress", path=f"/wallet/{name}")
        self.call("generatetoaddress", blocks, own)
        self.call("generatetoaddress", 100, OTHER)
        return own


class BesideLitecoindTest(Case):
    #: Litecoind lets nothing replace another transaction: so the first of two is mined, and the second doesn't wait.
    OTHERWISE = ("abandontransaction ['ID'] {} w", "gettransaction ['ID'] {} w", "listsinceblock [] {} w", "getbalances [] {} w")

    def test_steps(self):
        with open(os.path.join(HERE, "litecoind_wallet.json"), encoding="ascii") as file:
            rows = json.load(file)
        compared = 0
        # Of two in a hundred keys a signature is shorter, and a fee another one: these are none of them.
        with mock.patch("os.urandom", random.Random(7).randbytes):
            found = played(self.call, self.folder.name)
        self.assertEqual([what for what, _ in found], [what for what, _ in rows])
        for (what, answer), (_, wanted) in zip(found, rows):
            if answer != wanted and what in self.OTHERWISE:
                # But for what was replaced it is of the same shape.
                shape = [sorted(it) for it in (answer, wanted) if isinstance(it, dict)]
                self.assertTrue(len(shape) < 2 or what.startswith("gettransaction") or shape[0] == shape[1], what)
                continue
            with self.subTest(what):
                self.assertEqual(answer, wanted)
                compared += 1
        self.assertGreater(compared, 140)


class DescriptorsTest(Case):
    def test_import(self):
        self.funded()
        self.call("createwallet", "watch", True)
        self.call("createwallet", "blank", False, True)
        outer, both = f"pkh({PUBLIC}/0/*)", f"sh(multi(1,{KEY}/1/*,{KEY}/2/*))"
        row = {"desc": f"{outer}#{checksum(outer)}", "active": True, "timestamp": "now", "range": [0, 5], "next_index": 2}
        self.assertEqual(self.call("importdescriptors", [row], path="/wallet/watch"), [{"success": True}])
        addresses = self.call("deriveaddresses", row["desc"], [0, 5])
        self.assertEqual(self.call("getnewaddress", path="/wallet/watch"), addresses[2])
        self.call("generatetoaddress", 1, addresses[5])
        self.assertEqual(self.call("getbalances", path="/wallet/watch")["mine"]["immature"], 50)
        self.assertEqual(self.call("getnewaddress", path="/wallet/watch"), self.call("deriveaddresses", row["desc"], [6, 6])[0])
        listed = self.call("listdescriptors", path="/wallet/watch")["descriptors"]
        self.assertEqual([(it["desc"], it["active"], it["internal"], it["next"]) for it in listed], [(row["desc"], True, False, 7)])
        own = {"desc": f"{both}#{checksum(both)}", "timestamp": 0, "range": 3, "active": True}
        self.assertEqual(self.call("importdescriptors", [own], path="/wallet/blank"), [{"success": True}])
        self.assertEqual(self.call("listdescriptors", True, path="/wallet/blank")["descriptors"][0]["desc"], own["desc"])
        self.assertNotIn("tprv", json.dumps(self.call("listdescriptors", path="/wallet/blank")))
        address = self.call("deriveaddresses", own["desc"], [1, 1])[0]
        info = self.call("getaddressinfo", address, path="/wallet/blank")
        self.assertEqual([self.call("getnewaddress", path="/wallet/blank") for _ in range(2)][1], address)
        bare = f"pk({KEY}/9/*)"
        [answer] = self.call("importdescriptors", [{**own, "desc": f"{bare}#{checksum(bare)}"}], path="/wallet/blank")
        self.assertEqual(answer["warnings"], ["Unknown output type, cannot set descriptor to active."])
        self.assertEqual((info["script"], info["sigsrequired"], len(info["pubkeys"]), info["ismine"]), ("multisig", 1, 2, True))

    def test_what_was_paid_before(self):
        """A key that is imported has its coins by a rescan from its moment on."""
        first = self.funded()
        key = self.call("dumpprivkey", first)
        self.call("createwallet", "other", False, True)
        self.assertIsNone(self.call("importprivkey", key, "a label", path="/wallet/other"))
        self.assertEqual(self.call("getbalance", path="/wallet/other"), 50)
        self.assertEqual(self.call("getaddressesbylabel", "a label", path="/wallet/other"), {first: {"purpose": "receive"}})
        self.assertEqual(self.call("dumpprivkey", first, path="/wallet/other"), key)
        text = self.call("listdescriptors", True, path="/wallet/w")["descriptors"][0]["desc"]
        sent = self.call("sendtoaddress", first, 1, path="/wallet/w")
        self.assertEqual(self.call("gettransaction", sent, path="/wallet/other")["confirmations"], 0)
        self.call("createwallet", "fourth", False, True)
        self.call("importprivkey", key, path="/wallet/fourth")
        self.assertEqual(self.call("gettransaction", sent, path="/wallet/fourth")["trusted"], True)
        self.call("generatetoaddress", 1, OTHER)
        self.call("createwallet", "third", False, True)
        for moment, balance in (("now", 0), (int(time.time()) + 10**6, 0), (0, 50 - 225 * 20 / 1e8)):
            row = {"desc": text, "timestamp": moment, "active": True}
            answer = self.call("importdescriptors", [row], path="/wallet/third")
            self.assertEqual(answer, [{"success": True, "warnings": ["Range not given, using default keypool range"]}])
            self.assertEqual(self.call("getbalance", path="/wallet/third"), balance)
            text = self.call("listdescriptors", True, path="/wallet/w")["descriptors"][1]["desc"]
            self.call("importdescriptors", [{"desc": text, "timestamp": moment, "internal": True, "active": True}], path="/wallet/third")
            text = row["desc"]

    def test_refusals(self):
        self.call("createwallet", "w")
        self.call("createwallet", "watch", True)
        plain, own = f"pkh({PUBLIC}/0)", f"pkh({KEY}/*)"
        combo, hard = f"combo({KEY}/*)", f"pkh({PUBLIC}/*')"
        kinds = [f"wpkh({PUBLIC}/0)", f"sh(wpkh({PUBLIC}/0))", f"wsh(pk({PUBLIC}/0))", "raw(0014" + "11" * 20 + ")"]
        for name, row, code, text in (
            ("w", {"desc": "x"}, -3, "Missing required timestamp"), ("w", {"timestamp": 0}, -8, "Descriptor not found."),
            ("w", {"desc": plain, "timestamp": 0}, -5, "Missing checksum"), ("w", {"desc": plain + "#00000000", "timestamp": 0}, -5, "Provided checksum"),
            ("w", {"desc": f"{plain}#{checksum(plain)}", "timestamp": 0}, -4, "without private keys to a wallet with private keys"),
            ("watch", {"desc": f"{own}#{checksum(own)}", "timestamp": 0, "range": 2}, -4, "private keys disabled"),
            ("w", {"desc": f"{own}#{checksum(own)}", "timestamp": 0, "range": [5, 2]}, -8, "begin after end"),
            ("w", {"desc": f"{own}#{checksum(own)}", "timestamp": 0, "range": 5, "next_index": 9}, -8, "next_index is out of range"),
            ("w", {"desc": f"{own}#{checksum(own)}", "timestamp": 0, "range": 5, "label": "x"}, -8, "should not have a label"),
            ("w", {"desc": f"{combo}#{checksum(combo)}", "timestamp": 0, "range": 5, "active": True}, -4, "Combo descriptors"),
            ("watch", {"desc": f"{plain}#{checksum(plain)}", "timestamp": 0, "active": True}, -8, "must be ranged"),
            ("watch", {"desc": f"{plain}#{checksum(plain)}", "timestamp": 0, "range": 5}, -8, "should not be specified"),
            ("watch", {"desc": f"{hard}#{checksum(hard)}", "timestamp": 0, "range": 5}, -5, "Cannot expand descriptor"),
            *(("watch", {"desc": f"{it}#{checksum(it)}", "timestamp": 0}, -5, "spen") for it in kinds),
        ):  # fmt: skip
            with self.subTest(row):
                [answer] = [self.call("importdescriptors", [row], path=f"/wallet/{name}")]
                error = answer if isinstance(answer, dict) else answer[0]["error"]
                self.assertEqual((error["code"], text in error["message"]), (code, True), error)


class PartiallySignedTest(Case):
    def made(self, name, outputs, *more):
        found = self.call("walletcreatefundedpsbt", [], outputs, 0, *more, path=f"/wallet/{name}")
        return found, self.call("decodepsbt", found["psbt"])

    def mined(self, complete):
        """Sent and mined: its fields in the chain."""
        id = self.call("sendrawtransaction", self.call("finalizepsbt", complete)["hex"])
        self.call("generatetoaddress", 1, OTHER)
        return self.call("getrawtransaction", id, True, self.call("getbestblockhash"))

    def test_one_wallet(self):
        self.funded()
        found, shown = self.made("w", {OTHER: 1})
        [spends] = shown["inputs"]
        own = spends["non_witness_utxo"]["vout"][0]["scriptPubKey"]["address"]
        info = self.call("getaddressinfo", own)
        [origin] = spends["bip32_derivs"]
        self.assertEqual((origin["pubkey"], origin["path"]), (info["pubkey"], info["hdkeypath"].replace("h", "'")))
        self.assertEqual([shown["fee"], shown["tx"]["vout"][1 - found["changepos"]]["value"]], [found["fee"], 1])
        self.assertIn("bip32_derivs", shown["outputs"][found["changepos"]])
        without = self.made("w", {OTHER: 1}, {}, False)[1]
        self.assertNotIn("bip32_derivs", json.dumps(without))
        self.assertFalse(self.call("walletprocesspsbt", found["psbt"], False)["complete"])
        signed = self.call("walletprocesspsbt", found["psbt"])
        self.assertTrue(signed["complete"])
        mined = self.mined(signed["psbt"])
        self.assertEqual(self.call("gettransaction", mined["txid"])["fee"], -found["fee"])

    def test_refusals(self):
        self.funded()
        code = lambda *given: self.call("walletcreatefundedpsbt", *given)["code"]
        self.assertEqual(code([], {OTHER: 1000}), -4)
        self.assertEqual(code([], []), -8)
        self.assertEqual(code([], {OTHER: 1}, 0, {"x": 1}), -3)
        self.assertEqual(code([], {OTHER: 1}, 0, {"add_inputs": False}), -4)
        self.assertEqual(self.call("walletprocesspsbt", "x")["code"], -22)
        self.call("unloadwallet", "w")
        self.assertEqual(code([], {OTHER: 1}), -18)

    def test_two_wallets(self):
        """A coin that both have to sign for: one after the other, and apart."""
        self.funded("w")
        self.call("createwallet", "v")
        keys = []
        for name in ("w", "v"):
            at = self.call("getnewaddress", path=f"/wallet/{name}")
            keys.append([self.call(*it, path=f"/wallet/{name}") for it in (("getaddressinfo", at), ("dumpprivkey", at))])
        (one, one_secret), (two, two_secret) = [(info["pubkey"], secret) for info, secret in keys]
        for name, own in (("w", f"sh(multi(2,{one_secret},{two}))"), ("v", f"sh(multi(2,{one},{two_secret}))")):
            given = [{"desc": f"{own}#{checksum(own)}", "timestamp": "now"}]
            self.assertTrue(self.call("importdescriptors", given, path=f"/wallet/{name}")[0]["success"])
        public = f"sh(multi(2,{one},{two}))"
        [shared] = self.call("deriveaddresses", f"{public}#{checksum(public)}")
        for signs_apart in (False, True):
            id = self.call("sendtoaddress", shared, 5, path="/wallet/w")
            [place] = [it["n"] for it in self.call("getrawtransaction", id, True)["vout"] if it["value"] == 5]
            self.call("generatetoaddress", 1, OTHER)
            given = [{"txid": id, "vout": place}], {OTHER: 4.9}, 0, {"changeAddress": shared}
            made = self.call("walletcreatefundedpsbt", *given, path="/wallet/w")["psbt"]
            first = self.call("walletprocesspsbt", made, path="/wallet/w")
            self.assertFalse(first["complete"])
            second = self.call("walletprocesspsbt", made if signs_apart else first["psbt"], path="/wallet/v")
            self.assertEqual(second["complete"], not signs_apart)
            both = self.call("combinepsbt", [first["psbt"], second["psbt"]]) if signs_apart else second["psbt"]
            self.assertEqual(self.mined(both)["vin"][0]["txid"], id)


class MessagesTest(Case):
    def test_beside_bitcoinlib(self):
        bitcoin.SelectParams("regtest")
        self.addCleanup(bitcoin.SelectParams, "mainnet")
        own = self.funded()
        for said in ("", "a message", "é" * 300):
            signed = self.call("signmessage", own, said)
            self.assertTrue(VerifyMessage(P2PKHBitcoinAddress(own), BitcoinMessage(said), signed.encode()))
            self.assertFalse(VerifyMessage(P2PKHBitcoinAddress(own), BitcoinMessage(said + "x"), signed.encode()))
        for words, code, message in (((OTHER, "x"), -4, "Private key not available"), (("x", "x"), -3, "Invalid address")):
            self.assertEqual(self.call("signmessage", *words), {"code": code, "message": message})


class KeptTest(Case):
    def test_a_restart(self):
        own = self.funded()
        sent = self.call("sendtoaddress", own, 1, "a comment")
        before = {name: self.call(name) for name in ("getbalances", "listtransactions", "listunspent", "listdescriptors", "listlabels")}
        self.call("createwallet", "other", None, None, None, None, None, True)
        self.call("unloadwallet", "w", True)
        self.call("unloadwallet", "other")
        node = self.server.node
        node.wallets = Wallets(node, self.folder.name, Settings(keypool=20))
        self.assertEqual(self.call("listwalletdir"), {"wallets": [{"name": "other"}, {"name": "w"}]})
        # What isn't mined waits again, where the server forgot it.
        with node.turn:
            for id in list(node.mempool.entries):
                node.mempool.drop(id)
        with node.turn, node.others():
            node.wallets.start(["nix"])
        self.assertEqual(sorted(self.call("listwallets")), ["other", "w"])
        self.assertEqual(self.call("getrawmempool"), [sent])
        for name, answer in before.items():
            with self.subTest(name):
                self.assertEqual(self.call(name, path="/wallet/w"), answer)
        with open(os.path.join(self.folder.name, "bad.sqlite"), "wb") as file:
            file.write(b"x" * 5000)
        self.assertEqual(self.call("loadwallet", "bad")["code"], -4)
        self.assertEqual(self.call("createwallet", "bad")["code"], -4)
        # As after a crash while it was made.
        Store(os.path.join(self.folder.name, "begun.sqlite")).close()
        self.assertEqual(self.call("loadwallet", "begun")["code"], -18)
        self.assertEqual(self.call("createwallet", "begun")["name"], "begun")
        self.call("unloadwallet", "begun")
        self.call("unloadwallet", "w", False)
        self.assertEqual(node.wallets.at_start(), ["other"])

    def test_names(self):
        for name in ("../x", "a/b", "/x", ".x", "..", "a\0b", "x" * 101, "\\x", "ö" * 101):
            with self.subTest(name):
                self.assertEqual(self.call("createwallet", name)["code"], -4)
                self.assertEqual(self.call("loadwallet", name)["code"], -18)
        for name, path in (("", ""), ("ö ä", "%C3%B6%20%C3%A4")):
            self.assertEqual(self.call("createwallet", name)["name"], name)
            self.assertEqual(self.call("getwalletinfo", path=f"/wallet/{path}")["walletname"], name)

    def test_without_a_folder(self):
        self.server.node.wallets = Wallets(self.server.node, None, Settings(keypool=5))
        first = self.call("getnewaddress")
        key = self.call("dumpprivkey", first)
        self.call("createwallet", "w")
        own = self.call("getnewaddress", "a label")
        self.assertEqual(self.call("dumpprivkey", first), key)
        for _ in range(2):
            self.call("unloadwallet", "w")
            answer = self.call("loadwallet", "w")
            self.assertEqual(answer, {"name": "w", "warning": ""})
            self.assertEqual(self.call("getaddressesbylabel", "a label"), {own: {"purpose": "receive"}})
        for _ in range(2):
            self.call("unloadwallet", "w")
        self.assertEqual(self.call("loadwallet", "w")["code"], -18)


class ProcessTest(FolderCase):
    """A server that is killed, and the next one."""

    def test_killed(self):
        server = self.started("-keypool=20", "-fallbackfee=0.0003")
        server.call("createwallet", "w")
        own = server.call("getnewaddress", "a label")
        server.call("generatetoaddress", 3, own)
        server.call("generatetoaddress", 100, OTHER)
        sent = server.call("sendtoaddress", OTHER, 1)
        self.assertEqual(float(server.call("gettransaction", sent)["fee"]), -225 * 30 / 1e8)
        [block] = server.call("generatetoaddress", 1, OTHER)
        asked = ("getbalances", "listunspent", "listtransactions", "listlabels", "listdescriptors")
        given = server.call("getnewaddress")
        before = {name: server.call(name) for name in asked}
        server.end(signal.SIGKILL)
        self.assertEqual(os.stat(os.path.join(self.folder, "wallets", "w.sqlite")).st_mode & 0o777, 0o600)
        server = self.started("-keypool=20", "-wallet=w")
        self.assertEqual(server.call("getaddressinfo", given)["labels"], [""])
        self.assertEqual({name: server.call(name) for name in asked}, before)
        # A branch changes while the wallet isn't loaded.
        server.call("unloadwallet", "w", False)
        server.call("invalidateblock", block)
        server.call("generatetoaddress", 2, OTHER)
        server.end(signal.SIGTERM)
        server = self.started("-keypool=20")
        self.assertEqual(server.call("listwallets"), [])
        server.call("loadwallet", "w", True)
        self.assertNotIn(server.call("gettransaction", sent)["blockhash"], (block, None))
        self.assertEqual(server.call("getbalances")["mine"]["trusted"], 149 - 225 * 30 / 1e8)
        server.end(signal.SIGTERM)
        self.assertEqual(self.started("-keypool=20").call("listwallets"), ["w"])


class ReorganisationTest(Case):
    def test_a_block_that_leaves(self):
        own = self.funded()
        sent = self.call("sendtoaddress", own, 1)
        before = self.call("getbestblockhash")
        [block] = self.call("generatetoaddress", 1, OTHER)
        self.assertEqual(self.call("gettransaction", sent)["blockhash"], block)
        self.call("invalidateblock", block)
        self.assertEqual(self.call("gettransaction", sent)["confirmations"], 0)
        self.assertEqual(self.call("getbalance", "*", 1), 0)
        [other] = self.call("generatetoaddress", 1, OTHER)
        found = self.call("listsinceblock", block)
        self.assertEqual([it["txid"] for it in found["removed"]], [sent] * 2)
        self.assertEqual([it["blockhash"] for it in found["transactions"]], [other] * 2)
        self.assertEqual((found["lastblock"], self.call("listsinceblock", before, 2)["lastblock"]), (other, before))
        self.call("invalidateblock", self.call("getblockhash", 1))
        self.assertEqual([it["category"] for it in self.call("listtransactions")], ["orphan", "receive", "send"])
        self.assertEqual(self.call("getbalances")["mine"], {"trusted": 0, "untrusted_pending": 0, "immature": 0})


class WaitingTest(Case):
    def test_a_rescan_holds_up_no_call(self):
        """While a wallet is rebuilt each other call is answered, also those on the wallet."""
        own = self.funded(blocks=20)
        for _ in range(15):
            self.call("generatetoaddress", 200, own)
        ended, slowest = [], 0.0
        thread = threading.Thread(target=lambda: ended.append(self.call("rescanblockchain")))
        thread.start()
        count = 0
        while thread.is_alive():
            for name in ("getblockcount", "getbalance", "getwalletinfo"):
                began = time.monotonic()
                self.assertNotIsInstance(self.call(name), str)
                slowest, count = max(slowest, time.monotonic() - began), count + 1
        thread.join()
        self.assertEqual(ended, [{"start_height": 0, "stop_height": 3120}])
        self.assertLess(slowest, 0.5)

    def test_a_rescan_is_aborted(self):
        self.funded(blocks=20)
        self.assertIs(self.call("abortrescan"), False)
        wallet = self.server.node.wallets.loaded["w"]
        began, aborted, part = threading.Event(), threading.Event(), wallet._scan

        def scan(*given):
            began.set()
            aborted.wait(10)
            part(*given)

        ended = []
        with mock.patch.object(wallet, "_scan", scan):
            thread = threading.Thread(target=lambda: ended.append(self.call("rescanblockchain")))
            thread.start()
            self.assertTrue(began.wait(10))
            aborts = threading.Thread(target=lambda: ended.extend(self.call("abortrescan") for _ in range(2)))
            aborts.start()
            threading.Timer(0.2, aborted.set).start()
            aborts.join()
            thread.join()
        self.assertEqual([it for it in ended if isinstance(it, bool)], [True, False])
        self.assertEqual([it["code"] for it in ended if isinstance(it, dict)], [-1])
        self.assertEqual(self.call("rescanblockchain")["stop_height"], 120)


class ManyTest(Case):
    """What a client sends is read in a time that grows with it, while others are answered."""

    def test_long_requests(self):
        own = self.funded()
        address, text = self.call("getnewaddress"), f"pkh({KEY}/7)"
        raw = write_transaction(Transaction(2, [], [Output(1000, b"\x51")] * 60_000, 0)).hex()
        row = {"desc": f"{text}#{checksum(text)}", "timestamp": "now"}
        for name, *params in (
            ("listunspent", 0, 9, [own, address] * 100_000), ("sendmany", "", {own: 1}, 1, "", [address] * 300_000), ("fundrawtransaction", raw),
            ("fundrawtransaction", raw, {"subtractFeeFromOutputs": list(range(60_000))}), ("lockunspent", True, [{"txid": "00" * 32, "vout": 0}] * 100_000),
            ("importdescriptors", [row] * 5_000), ("importdescriptors", [{**row, "desc": f"pk({number:066x})", "timestamp": 0} for number in range(50_000)]),
            ("setlabel", own, "x" * 3_000_000), ("getnewaddress", "y" * 3_000_000), ("sendtoaddress", own, 1, "z" * 3_000_000),
        ):  # fmt: skip
            began, slowest = time.monotonic(), 0.0
            thread = threading.Thread(target=self.call, args=(name, *params))
            thread.start()
            while thread.is_alive():
                since = time.monotonic()
                self.call("getblockcount")
                slowest = max(slowest, time.monotonic() - since)
            with self.subTest(name):
                self.assertLess(slowest, 2)
                self.assertLess(time.monotonic() - began, 20)


class TogetherTest(Case):
    """Calls of several clients on wallets that come and go, while blocks come and go: each is answered."""

    def test_together(self):
        own = self.funded(blocks=3)
        for name in ("a", "b"):
            self.call("createwallet", name)
        numbers, answers, until = random.Random(5), [], time.monotonic() + 4

        def client(seed):
            numbers, path = random.Random(seed), "/wallet/w"
            while time.monotonic() < until:
                words = numbers.choice((
                    ("getbalances",), ("listunspent", 0), ("sendtoaddress", own, 0.01), ("listtransactions",), ("getnewaddress",),
                    ("generatetoaddress", 1, OTHER), ("rescanblockchain",), ("unloadwallet", "a"), ("loadwallet", "a"), ("listwallets",),
                    ("invalidateblock", self.call("getbestblockhash")), ("getwalletinfo",), ("sendtoaddress", OTHER, 0.01, "", "", False, True),
                ))  # fmt: skip
                is_free = words[0] in ("unloadwallet", "loadwallet", "listwallets")
                answers.append((words[0], self.call(*words, path="/" if is_free else numbers.choice((path, path, "/wallet/b")))))

        threads = [threading.Thread(target=client, args=(numbers.random(),)) for _ in range(6)]
        for thread in threads:
            thread.start()
        for thread in threads:
            thread.join(30)
            self.assertFalse(thread.is_alive(), "a call waits for ever")
        self.assertEqual({name for name, _ in answers} >= {"getbalances", "sendtoaddress", "rescanblockchain", "loadwallet"}, True)
        for name, answer in answers:
            if isinstance(answer, dict) and "code" in answer:
                self.assertIn(answer["code"], CODES, (name, answer))
                self.assertNotRegex(answer["message"], r"^[A-Z][A-Za-z]*(Error|Exception)\b", name)
        # What it has then is what a wallet of the same keys finds, once what waits no more spends nothing.
        waiting = self.call("getrawmempool")
        for id in {it["txid"] for it in self.call("listtransactions", "*", 10**6, path="/wallet/w") if it["confirmations"] == 0} - {*waiting}:
            self.call("abandontransaction", id, path="/wallet/w")
        text = self.call("listdescriptors", True, path="/wallet/w")["descriptors"]
        self.call("generatetoaddress", 1, OTHER)
        self.call("createwallet", "again", False, True)
        self.call("importdescriptors", [{"desc": it["desc"], "timestamp": 0, "range": it["range"]} for it in text], path="/wallet/again")
        found = [{(it["txid"], it["vout"]) for it in self.call("listunspent", path=f"/wallet/{name}")} for name in ("w", "again")]
        self.assertEqual(found[0], found[1])


class RandomTest(Case):
    """Whatever the parameters are, the answer is a result or an error of Bitcoin Core's codes, and the server goes on."""

    def test_parameters(self):
        numbers = random.Random(11)
        own = self.funded()
        key = self.call("dumpprivkey", own)
        self.call("createwallet", "watch", True)
        sent = self.call("sendtoaddress", own, 1, "", "", False, True, path="/wallet/w")
        raw = self.call("createrawtransaction", [], {OTHER: 1})
        text = f"pkh({KEY}/*)"
        values = [
            None, True, False, 0, 1, -1, 2**31, 2**63, 10**30, 0.5, 1e-9, 1e300, "", "x", "*", "0", "1.5", "ff" * 40, own, OTHER, key, sent, raw,
            "legacy", "bech32", "p2sh-segwit", "unset", "ALL", [], {}, [own], [{}], {own: 1}, {OTHER: "0.1"}, [{"txid": sent, "vout": 0}],
            [{"desc": f"{text}#{checksum(text)}", "timestamp": "now", "range": 2}], [{"desc": text, "timestamp": 0}], {"fee_rate": 50},
            {"changePosition": 0}, {"feeRate": "x"}, {"minimumAmount": 1}, [[[]]], "\0", "é" * 50, "a" * 5000, [None], {"": None}, 1.5, "watch", "w",
        ]  # fmt: skip
        names = [name for name in GROUP if name != "backupwallet"]
        for number in range(REQUESTS):
            name = numbers.choice(names)
            params = [numbers.choice(values) for _ in range(numbers.randrange(min(5, len(CALLS[name].names)) + 1))]
            if name == "keypoolrefill" and params and isinstance(params[0], int) and params[0] > 100:
                continue
            if name in ("createwallet", "unloadwallet") and number % 20:
                continue
            path = numbers.choice(("/wallet/w", "/wallet/w", "/wallet/watch", "/", "/wallet/nix"))
            with self.subTest(name=name, params=str(params)[:200], path=path):
                status, body = self.server.posted({"method": name, "params": params, "id": 1}, path=path)
                reply = json.loads(body)
                if reply["error"] is not None:
                    self.assertIn(reply["error"]["code"], CODES)
                    # An exception of Python's is no answer of a wallet.
                    self.assertNotRegex(reply["error"]["message"], r"^[A-Z][A-Za-z]*(Error|Exception)\b")
            if "w" not in self.server.node.wallets.loaded:
                self.call("loadwallet", "w")
        self.assertEqual(self.call("getwalletinfo", path="/wallet/w")["walletname"], "w")


if __name__ == "__main__":
    unittest.main()
