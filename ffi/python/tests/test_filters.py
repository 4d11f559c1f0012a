"""Compact filters of blocks (BIP 158): beside litecoind, Bitcoin Core's code, on its own blocks, and outside values."""

import random
import unittest

import peers
from servers import Running
from wakotehu.chainstate import show
from wakotehu.encoding import GENESIS, GENESIS_BLOCK, Input, Output, Transaction, read_block, read_transaction, write_transaction
from wakotehu.filters import NO_HEADER, block_filter, block_scripts, filter_header, may_have, siphash
from wakotehu.rpc.filters import FilterIndex

#: SipHash-2-4's own vectors: of the key 00 to 0f, and the messages 00, 01, .. of these lengths.
SIPHASH = {0: 0x726FDB47DD0E0E31, 1: 0x74F839C593DC67FD, 8: 0x93F5F5799A932462, 15: 0xA129CA6149BE45E5}
#: Testnet's genesis block in BIP 158's vectors; its transactions are regtest's.
TESTNET = "000000000933ea01ad0ee984209779baaec3ced90fa3f408719526f8d77f4943"
FILTER, HEADER = "019dfca8", "21584579b7eb08997773e5aeff3a7f932700042d0ed2a6129012b7d7ae81b750"


class Filters(unittest.TestCase):
    def test_siphash(self):
        keys = (0x0706050403020100, 0x0F0E0D0C0B0A0908)
        for length, value in SIPHASH.items():
            self.assertEqual(siphash(keys, bytes(range(length))), value, length)

    def test_genesis_of_testnet(self):
        id = bytes.fromhex(TESTNET)[::-1]
        found = block_filter(id, block_scripts(read_block(GENESIS_BLOCK).transactions, []))
        self.assertEqual((found.hex(), show(filter_header(found, NO_HEADER))), (FILTER, HEADER))

    def test_a_filter_has_its_scripts(self):
        """Each of its scripts, and of others some 1 in 784,931."""
        dice = random.Random(158)
        for count in (0, 1, 2, 100, 3000):
            id, scripts = dice.randbytes(32), {dice.randbytes(dice.randrange(1, 60)) for _ in range(count)}
            found = block_filter(id, scripts)
            self.assertTrue(all(may_have(id, found, {script}) for script in list(scripts)[:50]))
            others = {dice.randbytes(61) for _ in range(300)}
            self.assertFalse(may_have(id, found, others))
            self.assertEqual(may_have(id, found, {*others, *list(scripts)[:1]}), bool(scripts))


class Calls(unittest.TestCase):
    def setUp(self):
        self.server = Running()
        self.addCleanup(self.server.stop)

    def refused(self, *words):
        error = self.server.call("getblockfilter", *words)
        return error["code"], error["message"]

    def test_without_the_index(self):
        self.assertEqual(self.refused(show(GENESIS.id)), (-1, "Index is not enabled for filtertype basic"))

    def test_filters_of_the_server(self):
        """Faults in Bitcoin Core's words; headers are chained from genesis on."""
        self.server.node.filters = FilterIndex()
        self.assertEqual(self.refused("00" * 32, "other"), (-5, "Unknown filtertype"))
        self.assertEqual(self.refused("00" * 32), (-5, "Block not found"))
        hashes = self.server.call("generatetodescriptor", 5, "raw(51)")
        before = NO_HEADER
        for id in (show(GENESIS.id), *hashes):
            data = bytes.fromhex(self.server.call("getblock", id, 0))
            own = block_filter(bytes.fromhex(id)[::-1], block_scripts(read_block(data).transactions, []))
            before = filter_header(own, before)
        # The highest first: its header takes those of all below.
        found = self.server.call("getblockfilter", id, "basic")
        self.assertEqual(found, {"filter": own.hex(), "header": show(before)})
        told = {"basic block filter index": {"synced": True, "best_block_height": 5}}
        self.assertEqual(self.server.call("getindexinfo"), told)
        self.assertEqual(self.server.call("getindexinfo", "txindex"), {})

    def test_a_block_that_spends_its_own_coin(self):
        """A kept block's coin, and one of a transaction before it in the same block: the scripts of both are in its filter."""
        self.server.node.filters = FilterIndex()
        hashes = self.server.call("generatetodescriptor", 101, "raw(51)")
        coin = self.server.call("getblock", hashes[0])["tx"][0]
        for script in (b"\x51\x51", b"\x52"):
            raw = self.server.call("createrawtransaction", [{"txid": coin, "vout": 0}], [{"data": "00"}])
            coin = self.server.call("sendrawtransaction", with_outputs(raw, [script]), 0)
        (id,) = self.server.call("generatetodescriptor", 1, "raw(53)")
        own = block_filter(bytes.fromhex(id)[::-1], {b"\x53", b"\x51\x51", b"\x52", b"\x51"})
        self.assertEqual(self.server.call("getblockfilter", id)["filter"], own.hex())


    def payment(self, height, scripts):
        """A block behind 100 others that spends the coinbase of a height and pays to scripts."""
        block = read_block(bytes.fromhex(self.server.call("getblock", self.server.call("getblockhash", height), 0)))
        spends = [Input(block.transactions[0].id, 0, b"", 0xFFFFFFFF)]
        tx = Transaction(1, spends, [Output(1000, script) for script in scripts], 0)
        return self.server.call("generateblock", "raw(51)", [write_transaction(tx).hex()])["hash"]

    def test_a_block_that_spends(self):
        """Its filter has the scripts of what it spends and makes, by the blocks' bytes; on a branch that left too."""
        self.server.node.filters = FilterIndex()
        self.server.call("generatetodescriptor", 1, "raw(5152)")
        self.server.call("generatetodescriptor", 100, "raw(51)")
        id = self.payment(1, [b"\x53", b"\x6aa"])
        own = block_filter(bytes.fromhex(id)[::-1], {b"\x51\x52", b"\x51", b"\x53"}).hex()
        self.assertEqual(self.server.call("getblockfilter", id)["filter"], own)
        self.server.node.filters = FilterIndex()
        self.server.call("invalidateblock", id)
        self.assertEqual(self.server.call("getblockfilter", id)["filter"], own)

    def scanned(self, *words):
        return self.server.call("scanblocks", "start", *words)

    def test_scanblocks(self):
        self.assertEqual(self.scanned([]), {"code": -1, "message": "Index is not enabled for filtertype basic"})
        self.server.node.filters = FilterIndex()
        first, *_ = self.server.call("generatetodescriptor", 1, "raw(5152)")
        self.server.call("generatetodescriptor", 101, "raw(51)")
        spending = self.payment(1, [b"\x53", b"\x6aa"])
        self.assertEqual(
            self.scanned(["raw(5152)"]),
            {"from_height": 0, "to_height": 103, "relevant_blocks": [first, spending], "completed": True},
        )
        for words, wanted in (
            ((["raw(53)"],), [spending]), ((["raw(6a61)"],), []), (([],), []), ((["raw(5152)", "raw(54)"], 2), [spending]),
            ((["raw(5152)"], 1, 102), [first]), ((["raw(5152)"], 1, 1), [first]), ((["raw(5152)"], None, 102, "basic"), [first]),
            ((["raw(5152)"], 0, 103, "basic", {"filter_false_positives": True}), [first, spending]),
        ):  # fmt: skip
            self.assertEqual(self.scanned(*words)["relevant_blocks"], wanted, words)
        found = self.scanned(["raw(51)"], 2, 102)
        self.assertEqual((found["from_height"], found["to_height"], len(found["relevant_blocks"])), (2, 102, 101))
        self.assertEqual((self.server.call("scanblocks", "status"), self.server.call("scanblocks", "abort")), (None, False))

    def test_scanblocks_refused(self):
        """In Bitcoin Core's words (src/rpc/blockchain.cpp)."""
        self.server.node.filters = FilterIndex()
        self.server.call("generatetodescriptor", 3, "raw(51)")
        for words, code, message in (
            (("begin",), -8, "Invalid action 'begin'"), (("start",), -1, "JSON value is not an array as expected"),
            (("start", [], 4), -1, "Invalid start_height"), (("start", [], -1), -1, "Invalid start_height"),
            (("start", [], 2, 1), -1, "Invalid stop_height"), (("start", [], 0, 4), -1, "Invalid stop_height"),
            (("start", [], 0, 3, "other"), -5, "Unknown filtertype"), (("start", [5]), -8, "Scan object needs to be either a string or an object"),
            ((5,), -3, "Expected type string, got number"),
        ):  # fmt: skip
            error = self.server.call("scanblocks", *words)
            self.assertEqual((error["code"], error["message"]), (code, message), words)
        # What was refused is no scan.
        self.assertEqual(self.scanned([])["completed"], True)

    def test_scanblocks_is_told_of_and_ended(self):
        """While it looks for filters another call tells of it, none other begins, and one ends it."""
        index = self.server.node.filters = FilterIndex()
        self.server.call("generatetodescriptor", 3, "raw(51)")
        of, told = index.of, []

        def seen(node, id):
            with node.others():
                if index.scan.done == 2:
                    told.append(self.server.call("scanblocks", "status"))
                    told.append(self.scanned([])["message"])
                    told.append(self.server.call("scanblocks", "abort"))
            return of(node, id)

        index.of = seen
        found = self.scanned(["raw(51)"], 1)
        self.assertEqual(found, {"from_height": 1, "to_height": 3, "relevant_blocks": self.hashes(1, 3), "completed": False})
        self.assertEqual(told, [{"progress": 66, "current_height": 2}, 'Scan already in progress, use action "abort" or "status"', True])

    def hashes(self, first, last):
        return [self.server.call("getblockhash", height) for height in range(first, last + 1)]


def with_outputs(raw, scripts):
    """A transaction with outputs of these scripts in the place of its own, as digits."""
    tx = read_transaction(bytes.fromhex(raw))
    return write_transaction(tx._replace(outputs=[Output(1000, script) for script in scripts])).hex()


@unittest.skipUnless(peers.IS_THERE, "litecoind isn't installed")
class Peers(unittest.TestCase):
    def test_filters_of_blocks_that_spend(self):
        """Of 136 blocks, some with payments to several scripts, data and empty scripts: filter and header."""
        dice = random.Random(7)
        with peers.Litecoind("-blockfilterindex=1", "-acceptnonstdtxn=1") as peer:
            for _ in range(13):
                peer.call("generatetodescriptor", 10, "raw(51)")
            mined = 0
            for height in range(1, 25):
                txid = peer.call("getblock", peer.call("getblockhash", height), 2)["tx"][0]["txid"]
                raw = peer.call("createrawtransaction", [{"txid": txid, "vout": 0}], [{"data": "00"}])
                scripts = [dice.choice([b"", b"\x51", b"\x51" * 9, b"\x6a\x01a", b"\x6a"]) for _ in range(dice.randrange(1, 6))]
                # One of nothing but data is no transaction that it relays.
                mined += not str(peer.call("sendrawtransaction", with_outputs(raw, scripts), 0)).startswith("error")
                if height % 4 == 0:
                    peer.call("generatetodescriptor", 1, "raw(5151)")
            self.assertGreater(mined, 10)
            before, outputs, spent = NO_HEADER, {}, 0
            for height in range(peer.call("getblockcount") + 1):
                id = peer.call("getblockhash", height)
                txs = read_block(bytes.fromhex(peer.call("getblock", id, 0))).transactions
                for tx in txs:
                    outputs.update({(tx.id, number): out for number, out in enumerate(tx.outputs)})
                taken = [outputs[it.id, it.index] for tx in txs[1:] for it in tx.inputs]
                own = block_filter(bytes.fromhex(id)[::-1], block_scripts(txs, taken))
                before, spent = filter_header(own, before), spent + len(taken)
                self.assertEqual(peer.call("getblockfilter", id), {"filter": own.hex(), "header": show(before)}, height)
            self.assertEqual((height, spent), (136, mined))


if __name__ == "__main__":
    unittest.main()
