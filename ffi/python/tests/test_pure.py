"""Calls that ask for no block, or for none but what is there, beside Debian's litecoind 0.21.2.1, which is Bitcoin Core's
code: litecoind.json has what it answered on regtest. `calls` were made in their order on a chain of genesis alone,
`descriptors` anywhere, `signed` by the private keys 01.., 02.., 03.. and 04.. of 32 bytes; `proofs` are of blocks of 1
to 12 transactions: the header, the ids, which were asked for, the proof, and what it leads to; `spoiled` are edits of the
last one, and `other proofs` too.
"""

import json
import os
import unittest

from blocks import block_id, spend
from test_rpc import CallsTest
from wakotehu import read_id, show
from wakotehu.encoding import GENESIS, hash160
from wakotehu.rpc.errors import RpcError
from wakotehu.rpc.proofs import leads_to, proof
from wakotehu.rpc.scripts import SCRIPT_PREFIX, address, address_script

HERE = os.path.dirname(os.path.abspath(__file__))
#: litecoind's genesis block, and an address that it prints in another way.
OTHER_GENESIS = "530827f38f93b43ed12af0b3ad25a288dc02ed74d6d7857862df51fc56c416f9"
OTHER_ADDRESS = "QVeyDxTK7GiQD5RoyCRxiCDEh8UT4iUJnt"


def rows(name):
    with open(os.path.join(HERE, "litecoind.json"), encoding="ascii") as file:
        return json.load(file)[name]


def wanted(answer):
    """What litecoind answers, without what its chain has of its own."""
    if isinstance(answer, dict):
        return {name: wanted(value) for name, value in answer.items() if name != "ismweb"}
    if answer == OTHER_ADDRESS:
        return "2N2JD6wb56AfK4tfmM6PwdVmoYk2dCKf4Br"
    if isinstance(answer, str):
        return answer.replace("Litecoin", "Bitcoin").replace(OTHER_GENESIS, show(GENESIS.id))
    return answer


class BesideLitecoindTest(CallsTest):
    def compare(self, name):
        found = rows(name)
        for words, answer in found:
            with self.subTest(words=words):
                self.assertEqual(self.call(*words), wanted(answer))
        return len(found)

    def test_calls(self):
        self.assertGreater(self.compare("calls"), 100)

    def test_descriptors(self):
        self.assertGreater(self.compare("descriptors"), 110)

    def test_signatures_are_the_same_bytes(self):
        found = rows("signed")
        for words, answer in found:
            with self.subTest(words=words):
                self.assertEqual(self.call("signrawtransactionwithkey", *words), wanted(answer))
        self.assertEqual(len(found), 100)


class ProofTest(CallsTest):
    def test_proofs_are_those_of_litecoind(self):
        for head, txs, asked, made, led in rows("proofs"):
            with self.subTest(asked=asked, of=len(txs)):
                ids = [read_id(tx) for tx in txs]
                self.assertEqual(head + proof(ids, [tx in asked for tx in txs]).hex(), made)
                count, found = leads_to(bytes.fromhex(made))
                self.assertEqual((count, [show(id) for id in found]), (len(txs), led))

    def test_spoiled_proofs(self):
        *_, txs, _, made, _ = rows("proofs")[-1]
        made = bytes.fromhex(made)
        count = 0
        for edit, first, end, answer in rows("spoiled"):
            for place in range(first, end):
                with self.subTest(edit=edit, place=place):
                    count += 1
                    changed = bytearray(made[:place] if edit == "cut" else made + b"\0")
                    if edit == "flip":
                        changed = bytearray(made)
                        changed[place] ^= 1
                    self.assertEqual(self.answered(bytes(changed), len(txs)), answer)
        self.assertEqual(count, 2 * (len(made) - 80) + 1)
        for what, changed, answer in rows("other proofs"):
            with self.subTest(what):
                self.assertEqual(self.answered(bytes.fromhex(changed), len(txs)), answer)

    @staticmethod
    def answered(changed, many):
        try:
            count, found = leads_to(changed)
        except RpcError as error:
            return "end" if str(error) == "CDataStream::read(): end of data: iostream error" else str(error)
        # Of another number of transactions than the block has it leads to none.
        return [] if found is None or count != many else [show(id) for id in found]

    def test_twins(self):
        """A level of three is paired as one of four whose last two are the same: of those a proof leads to nothing."""
        head, txs = next((bytes.fromhex(row[0]), row[1]) for row in rows("proofs") if len(row[1]) == 3)
        ids = [read_id(tx) for tx in txs]
        self.assertEqual(leads_to(head + proof(ids, [False, False, True])), (3, ids[2:]))
        for marks in ([False, False, False, True], [True] * 4):
            self.assertEqual(leads_to(head + proof([*ids, ids[2]], marks)), (4, None))

    def test_of_kept_blocks(self):
        blocks = self.maker.chain(103)
        for block in blocks:
            self.submit(block)
        coins = [self.maker.coinbases[block_id(block)].id for block in blocks[:3]]
        txs = [spend(coin, 0, 1000 + place, b"") for place, coin in enumerate(coins)]
        block = self.maker.block(block_id(blocks[-1]), txs)
        self.assertIsNone(self.submit(block))
        id, ids = show(block_id(block)), [show(tx.id) for tx in txs]
        made = self.call("gettxoutproof", ids[1:])
        self.assertEqual(made[:160], block[:80].hex())
        self.assertEqual(self.call("gettxoutproof", ids[1:], id), made)
        self.assertEqual(self.call("verifytxoutproof", made), ids[1:])
        self.assertEqual(self.call("verifytxoutproof", self.call("gettxoutproof", [], id)), [])
        # What is spent isn't found without its block; and none in another block.
        told = {"code": -5, "message": "Transaction not yet in block"}
        self.assertEqual(self.call("gettxoutproof", [show(coins[0])]), told)
        first = self.call("gettxoutproof", [show(coins[0])], show(block_id(blocks[0])))
        self.assertEqual(self.call("verifytxoutproof", first), [show(coins[0])])
        told = {"code": -5, "message": "Not all transactions found in specified or retrieved block"}
        self.assertEqual(self.call("gettxoutproof", [show(coins[0])], id), told)
        self.assertEqual(self.call("gettxoutproof", [ids[0], show(coins[0])]), told)
        self.call("invalidateblock", id)
        self.assertEqual(self.call("verifytxoutproof", made), {"code": -5, "message": "Block not found in chain"})
        self.assertEqual(self.call("gettxoutproof", ids[1:])["code"], -5)


class ChainTest(CallsTest):
    def test_statistics(self):
        """As litecoind answered on 103 blocks that were made at one moment."""
        self.call("setmocktime", 1700000000)
        ids = self.mined(103)
        told = {"time": 1700000011, "txcount": 61, "window_final_block_hash": ids[59], "window_final_block_height": 60}
        found = self.call("getchaintxstats", 5, ids[59])
        self.assertEqual(found, {**told, "window_block_count": 5, "window_tx_count": 5, "window_interval": 0})
        told = {"time": 1700000000, "txcount": 2, "window_final_block_hash": ids[0], "window_final_block_height": 1}
        self.assertEqual(self.call("getchaintxstats", 0, ids[0]), {**told, "window_block_count": 0})
        message = "Invalid block count: should be between 0 and the block's height - 1"
        for words in ((1, ids[0]), (103,), (-1,)):
            self.assertEqual(self.call("getchaintxstats", *words), {"code": -8, "message": message})
        for words, rate in (((5, 50), 10), ((-1, 50), 2.479473627981284e-07), ((5, 0), 0), ((1, 60), 0)):
            with self.subTest(words):
                self.assertEqual(self.call("getnetworkhashps", *words), rate)
        self.assertEqual(self.call("getmininginfo")["networkhashps"], self.call("getnetworkhashps"))
        beside = self.maker.chain(1, extra=b"b")
        self.submit(beside[0])
        told = {"code": -8, "message": "Block is not in main chain"}
        self.assertEqual(self.call("getchaintxstats", 0, show(block_id(beside[0]))), told)

    def test_a_change_of_difficulty(self):
        """As litecoind answered on 2,018 blocks: -1 and 0 count from the last block at which the difficulty may change."""
        self.call("setmocktime", 1700000000)
        self.mined(2018)
        for words, rate in (
            ((), 12), ((-1,), 6), ((0,), 6), ((-1, 2015), 9.992270619152701e-06), ((-1, 2016), 0), ((2, 2017), 0),
            ((-1, 2014), 9.987311675917389e-06), ((5, 2016), 10),
        ):  # fmt: skip
            with self.subTest(words):
                self.assertEqual(self.call("getnetworkhashps", *words), rate)
        found = self.call("getchaintxstats")
        del found["window_final_block_hash"]
        self.assertEqual(found, {
            "time": 1700000338, "txcount": 2019, "window_final_block_height": 2018, "window_block_count": 2017,
            "window_tx_count": 2017, "window_interval": 337, "txrate": 5.985163204747774,
        })  # fmt: skip

    def test_counts_transactions(self):
        blocks = self.maker.chain(101)
        for block in blocks:
            self.submit(block)
        coin = self.maker.coinbases[block_id(blocks[0])].id
        self.submit(self.maker.block(block_id(blocks[-1]), [spend(coin, 0, 1, b"")]))
        found = self.call("getchaintxstats", 2)
        # Medians of blocks of which each is ten minutes after the one before.
        self.assertEqual((found["txcount"], found["window_tx_count"], found["window_interval"]), (104, 3, 1200))
        self.assertEqual(found["txrate"], 0.0025)
        # All but the first block, as Bitcoin Core counts by default.
        self.assertEqual(self.call("getchaintxstats")["window_block_count"], 101)

    def test_blocks_are_verified_again(self):
        self.mined(12)
        for words in ((), (0,), (4, 0), (4, 3), (3, 100), (-1, -1)):
            with self.subTest(words):
                self.assertIs(self.call("verifychain", *words), True)
        # Other bytes under a kept block's id are found where they are looked at.
        data = self.running.bench._data
        id = self.running.bench.index.active[8]
        whole = data[id]
        data[id] = whole[:-1] + bytes([whole[-1] ^ 1])
        try:
            self.assertEqual([self.call("verifychain", *words) for words in ((3, 4), (3, 5), (0, 5), (1, 0))],
                             [True, False, True, False])  # fmt: skip
            data[id] = whole[:79] + bytes([whole[79] ^ 1]) + whole[80:]
            self.assertEqual([self.call("verifychain", *words) for words in ((0, 4), (0, 5))], [True, False])
        finally:
            data[id] = whole

    def test_the_calls_that_run(self):
        found = self.call("getrpcinfo")
        self.assertEqual(found["logpath"], "")
        [it] = found["active_commands"]
        self.assertEqual((it["method"], it["duration"] < 10**7), ("getrpcinfo", True))
        self.assertEqual(self.running.node.running, {})


class SpendingTest(CallsTest):
    def test_a_transaction_from_its_making_to_its_block(self):
        """Two keys of three, one after the other, of a coin whose script is known by its hash alone."""
        from test_bench import KEYS, SECRETS
        from wakotehu.encoding import double_sha, push

        digits = "123456789ABCDEFGHJKLMNPQRSTUVWXYZabcdefghijkmnopqrstuvwxyz"

        def written(secret):
            data = b"\xef" + secret + b"\1"
            data += double_sha(data)[:4]
            number, made = int.from_bytes(data, "big"), ""
            while number:
                number, digit = divmod(number, 58)
                made = digits[digit] + made
            return made

        script = b"\x52" + b"".join(map(push, KEYS[:3])) + b"\x53\xae"
        to = address(SCRIPT_PREFIX, hash160(script))
        [id] = self.call("generatetoaddress", 1, to)
        self.mined(100)
        coin = self.call("getblock", id)["tx"][0]
        raw = self.call("createrawtransaction", [{"txid": coin, "vout": 0}], {to: 49.5, "data": "beef"})
        told = {"txid": coin, "vout": 0, "scriptPubKey": address_script(to).hex(), "redeemScript": script.hex()}
        half = self.call("signrawtransactionwithkey", raw, [written(SECRETS[2])], [told])
        self.assertFalse(half["complete"])
        self.assertIn("possibly need more signatures", half["errors"][0]["error"])
        # The script is in the input now.
        done = self.call("signrawtransactionwithkey", half["hex"], [written(SECRETS[0])])
        self.assertEqual(set(done), {"hex", "complete"})
        made = self.call("generateblock", to, [done["hex"]])
        self.assertEqual(len(self.call("getblock", made["hash"])["tx"]), 2)
        raw = self.call("createrawtransaction", [{"txid": coin, "vout": 0}], {})
        found = self.call("signrawtransactionwithkey", raw, [], [])
        self.assertEqual(found["errors"][0]["error"], "Input not found or already spent")

    def test_another_script_than_the_coin_has(self):
        [id] = self.mined(1)
        coin = self.call("getblock", id)["tx"][0]
        raw = self.call("createrawtransaction", [{"txid": coin, "vout": 0}], {})
        told = self.call("signrawtransactionwithkey", raw, [], [{"txid": coin, "vout": 0, "scriptPubKey": "52"}])
        self.assertEqual(told, {"code": -22, "message": "Previous output scriptPubKey mismatch:\n1\nvs:\n2"})
        self.assertTrue(self.call("signrawtransactionwithkey", raw, [])["complete"])

    def test_what_is_not_signed(self):
        raw = self.call("createrawtransaction", [{"txid": "11" * 32, "vout": 0}], {})
        table = ("0014" + "11" * 20, "Witness programs aren't signed here"), ("6a", "The script isn't satisfied")
        for script, error in table:
            told = {"txid": "11" * 32, "vout": 0, "scriptPubKey": script}
            found = self.call("signrawtransactionwithkey", raw, [], [told])
            self.assertEqual((found["complete"], found["errors"][0]["error"]), (False, error))


if __name__ == "__main__":
    unittest.main()
