"""Transactions that wait to be mined: what calls answer beside Debian's litecoind 0.21.2.1 (litecoind.json, under "mempool": the
steps of mempool_steps.py, with -segwitheight=-1, -acceptnonstdtxn=1 and -minrelaytxfee=0), and what follows from the rules."""

import json
import random
import threading
import unittest
from unittest import mock

from blocks import block_id, signed, spend, with_script
from mempool_steps import COIN, played
from servers import PROGRAM, Running
from test_bench import KEYS, SECP, SECRETS
from test_pure import rows
from test_rpc import CallsTest
from wakotehu import mempool, read_id, show
from wakotehu.consensus import Triple
from wakotehu.encoding import (
    GENESIS, Input, Output, Transaction, block_at_front, hash160, push, read_transaction, signature_digest, write_header,
    write_transaction,
)  # fmt: skip
from wakotehu.nodebench import NodeBench
from wakotehu.rpc.mempool import ServedMempool


def told(answer):
    """An answer as a list of JSON has it, amounts as their text."""
    return json.loads(json.dumps(answer), parse_float=str)


class BesideLitecoindTest(CallsTest):
    #: Litecoin's code replaces no transaction, and tests one alone.
    OTHERWISE = {"R spends the same coin as A", "a fault: testmempoolaccept ([],)", "a fault: testmempoolaccept (['00', '00'"}

    def test_steps(self):
        def call(*words):
            status, body = self.running.posted({"method": words[0], "params": list(words[1:]), "id": 1})
            reply = json.loads(body, parse_float=str)
            return reply["error"] or reply["result"]

        found, wanted = played(call), rows("mempool")
        self.assertEqual(len(found), len(wanted))
        for (what, answer), (name, other) in zip(found, wanted):
            with self.subTest(what):
                self.assertEqual(what, name)
                self.assertEqual(told(answer) == other, what not in self.OTHERWISE, (told(answer), other))


class Waiting(CallsTest):
    """A chain of 110 blocks, whose coinbases anyone spends."""

    def setUp(self):
        super().setUp()
        self.call("setmocktime", GENESIS.time + 600 * 2000)
        self.blocks = self.maker.chain(110)
        for block in self.blocks:
            self.assertIsNone(self.submit(block))
        self.coins = [self.maker.coinbases[block_id(block)].id for block in self.blocks]

    def send(self, tx):
        return self.call("sendrawtransaction", write_transaction(tx).hex(), 0)

    def waiting(self):
        return set(self.call("getrawmempool"))

    def spends(self, id, value=COIN, index=0, to=b"\x51"):
        return spend(id, index, value, b"", to)


class RulesTest(Waiting):
    def test_what_a_block_spends_is_gone_with_what_hangs_on_it(self):
        first = self.spends(self.coins[0])
        second = self.spends(first.id, COIN - 1)
        third = self.spends(self.coins[1])
        for tx in (first, second, third):
            self.assertEqual(self.send(tx), show(tx.id))
        other = self.spends(self.coins[0], 2 * COIN)
        self.assertIsNone(self.submit(self.maker.block(block_id(self.blocks[-1]), [other])))
        self.assertEqual(self.waiting(), {show(third.id)})
        self.assertIsNone(self.call("gettxout", show(first.id), 0))

    def test_who_spends_an_output(self):
        """In the shape and words of Bitcoin Core 24 (src/rpc/mempool.cpp)."""
        tx = self.spends(self.coins[0])
        id, coin, other = self.send(tx), show(self.coins[0]), show(self.coins[1])
        asked = [{"txid": coin, "vout": 0}, {"txid": other, "vout": 0}, {"vout": 1, "txid": coin}, {"txid": id, "vout": 0}]
        found = self.call("gettxspendingprevout", asked)
        self.assertEqual([it.pop("spendingtxid", None) for it in found], [id, None, None, None])
        self.assertEqual(found, asked)
        for given, code, message in (
            ([], -8, "Invalid parameter, outputs are missing"), ([5], -1, "JSON value is not an object as expected"),
            ([{"txid": coin}], -3, "Missing vout"), ([{"vout": 0}], -3, "Missing txid"),
            ([{"txid": coin, "vout": "0"}], -3, "Expected type number for vout, got string"),
            ([{"txid": coin, "vout": 0, "script": ""}], -3, "Unexpected key script"),
            ([{"txid": coin, "vout": -1}], -8, "Invalid parameter, vout cannot be negative"),
            ([{"txid": "00", "vout": 0}], -8, "txid must be of length 64 (not 2, for '00')"),
        ):  # fmt: skip
            error = self.call("gettxspendingprevout", given)
            self.assertEqual((error["code"], error["message"]), (code, message), given)

    def test_a_reorganisation_brings_transactions_back(self):
        """What was mined on the branch that left waits again, unless the new branch has it, or spends the same coin."""
        tip = block_id(self.blocks[-1])
        kept, again, gone = (self.spends(self.coins[place]) for place in range(3))
        mined = self.maker.block(tip, [kept, again, gone])
        self.assertIsNone(self.submit(mined))
        child = self.spends(gone.id, COIN - 5)
        self.send(child)
        self.assertEqual(self.waiting(), {show(child.id)})
        low = self.maker.block(tip, [kept, self.spends(self.coins[2], 3 * COIN)], extra=b"\x01")
        high = self.maker.block(block_id(low), extra=b"\x01")
        self.submit(low), self.submit(high)
        self.assertEqual(self.call("getbestblockhash"), show(block_id(high)))
        self.assertEqual(self.waiting(), {show(again.id)})
        self.assertFalse(self.call("getmempoolentry", show(again.id))["unbroadcast"])

    def test_a_coinbase_that_is_early_again(self):
        """A spend of a coinbase that is 100 deep leaves with the block that made it so deep."""
        late = self.spends(self.coins[10])
        self.assertEqual(self.send(late), show(late.id))
        self.call("invalidateblock", show(block_id(self.blocks[-1])))
        self.assertEqual(self.waiting(), set())
        self.assertEqual(self.send(late)["message"], "bad-txns-premature-spend-of-coinbase, tried to spend coinbase at depth 99")
        self.call("reconsiderblock", show(block_id(self.blocks[-1])))
        self.assertEqual(self.send(late), show(late.id))

    def test_scripts_run_before_it_waits(self):
        first = self.spends(self.coins[0], to=b"\x00")
        self.send(first)
        error = self.send(self.spends(first.id, COIN - 1))
        # Bitcoin Core's text of this fault, from memory; under its relay rules it may find another fault first.
        failed = "mandatory-script-verify-flag-failed (Script evaluated without error but finished with a false/empty top stack element)"
        self.assertEqual((error["code"], error["message"]), (-26, failed))
        script = push(KEYS[0]) + b"\xad\x51"
        signing = self.spends(self.coins[1], to=script)
        self.send(signing)
        tx = self.spends(signing.id, COIN - 1)
        [other] = signed(SECP, [SECRETS[1]], tx, 0, script)
        [told] = self.call("testmempoolaccept", [write_transaction(with_script(tx, 0, other)).hex()])
        self.assertEqual(
            told["reject-reason"], "mandatory-script-verify-flag-failed (Script failed an OP_CHECKSIGVERIFY operation)"
        )
        self.assertEqual(self.waiting(), {show(first.id), show(signing.id)})

    def test_a_block_takes_in_what_fits(self):
        """What pays most for its size comes first, and parents before children; what is too large for one block comes in the
        next one."""
        data = bytes(300_000)
        large = [self.spends(self.coins[place], to=b"\x6a\x4e" + len(data).to_bytes(4, "little") + data) for place in range(4)]
        small = self.spends(self.coins[4])
        child = self.spends(small.id, COIN - 1)
        for tx in (*large, small, child):
            self.assertEqual(self.send(tx), show(tx.id))
        info = self.call("getmempoolinfo")
        self.assertEqual((info["size"], info["bytes"]), (6, sum(len(write_transaction(tx)) for tx in (*large, small, child))))
        [first] = self.mined(1)
        ids = [show(tx.id) for tx in (small, *large[:3], child)]
        self.assertEqual(self.call("getblock", first)["tx"][1:], ids)
        self.assertEqual(self.waiting(), {show(large[3].id)})
        [second] = self.mined(1)
        self.assertEqual(self.call("getblock", second)["tx"][1:], [show(large[3].id)])

    def test_signature_operations_of_a_block(self):
        """20,000 at most with those of the coinbase that is made: so two with 10,000 are in one block, or one waits for the
        next, and more than fit no block are refused. A miner of a template has room for a coinbase of its own."""
        many = [self.spends(self.coins[place], to=b"\xac" * 10_000) for place in range(2)]
        for tx in many:
            self.send(tx)
        self.assertEqual(len(self.call("getblocktemplate", {"rules": ["segwit"]})["transactions"]), 1)
        [first] = self.call("generatetodescriptor", 1, "raw(ac)")
        self.assertEqual(self.call("getblock", first)["tx"][1:], [show(many[0].id)])
        self.assertEqual(self.waiting(), {show(many[1].id)})
        whole = self.spends(self.coins[2], to=b"\xac" * 20_000)
        self.assertEqual(self.send(whole), show(whole.id))
        [second], [third] = (self.call("generatetodescriptor", 1, "raw(51)") for _ in range(2))
        self.assertEqual([self.call("getblock", it)["tx"][1:] for it in (second, third)], [[show(many[1].id)], [show(whole.id)]])
        error = self.send(self.spends(self.coins[3], to=b"\xac" * 20_001))
        self.assertEqual((error["code"], error["message"]), (-26, "bad-txns-too-many-sigops"))

    def test_a_missing_input_comes_before_room(self):
        """As in Bitcoin Core's MemPoolAccept; and so do values, and what is locked."""
        for tx, reason in (
            (spend(b"\1" * 32, 0, 1, b"", to=b"\xac" * 20_001), "missing-inputs"),
            (spend(b"\1" * 32, 0, 1, b"", to=bytes(999_900)), "missing-inputs"),
            (self.spends(self.coins[0], 51 * COIN, to=b"\xac" * 20_001), "bad-txns-in-belowout"),
            (self.spends(self.coins[-1], to=b"\xac" * 20_001), "bad-txns-premature-spend-of-coinbase"),
            (self.spends(self.coins[0], to=b"\xac" * 20_001), "bad-txns-too-many-sigops"),
        ):
            [found] = self.call("testmempoolaccept", [write_transaction(tx).hex()])
            self.assertEqual(found["reject-reason"], reason)

    def test_no_more_than_a_limit(self):
        self.running.node.mempool.most = 200
        first, second = (self.spends(self.coins[place], to=b"\x51" * 100) for place in range(2))
        self.send(first)
        self.assertEqual(self.send(second)["message"], "mempool full")
        self.mined(1)
        self.assertEqual(self.send(second), show(second.id))

    def test_finality_is_by_the_median(self):
        median = self.call("getblockheader", self.call("getbestblockhash"))["mediantime"]
        for lock, final in ((median - 1, True), (median, False)):
            tx = Transaction(1, [Input(self.coins[0], 0, b"", 0)], [Output(COIN, b"\x51")], lock)
            [found] = self.call("testmempoolaccept", [write_transaction(tx).hex()], 0)
            self.assertEqual((found["allowed"], found.get("reject-reason")), (final, None if final else "non-final"))


class TemplateTest(Waiting):
    def template(self):
        return self.call("getblocktemplate", {"rules": ["segwit"]})

    def test_a_block_that_is_made_of_it(self):
        first = self.spends(self.coins[0], COIN)
        second = self.spends(first.id, COIN - 7)
        for tx in (first, second):
            self.send(tx)
        made = self.template()
        self.assertEqual([(it["txid"], it["depends"], it["fee"]) for it in made["transactions"]],
                         [(show(first.id), [], 49 * COIN), (show(second.id), [1], 7)])  # fmt: skip
        self.assertEqual((made["height"], made["coinbasevalue"]), (111, 99 * COIN + 7))
        self.assertEqual((made["previousblockhash"], made["bits"]), (show(block_id(self.blocks[-1])), "207fffff"))
        txs = [read_transaction(bytes.fromhex(it["data"])) for it in made["transactions"]]
        block = self.maker.block(read_id(made["previousblockhash"]), txs, more=made["coinbasevalue"] - 50 * COIN)
        self.assertIsNone(self.call("getblocktemplate", {"mode": "proposal", "data": block.hex()}))
        self.assertEqual(self.call("getblockcount"), 110)
        self.assertIsNone(self.submit(block))
        self.assertEqual(self.call("getblocktemplate", {"mode": "proposal", "data": block.hex()}), "duplicate")

    def test_proposals_that_are_refused(self):
        tip = block_id(self.blocks[-1])
        missing = self.maker.block(tip, [self.spends(b"\x11" * 32)])
        late = self.maker.block(block_id(self.blocks[-2]), extra=b"\x05")
        for block, answer in ((missing, "bad-txns-inputs-missingorspent"), (late, "inconclusive-not-best-prevblk")):
            self.assertEqual(self.call("getblocktemplate", {"mode": "proposal", "data": block.hex()}), answer)
            self.assertNotIn(block_id(block), self.running.bench.index.blocks)

    def test_a_proposal_needs_no_proof_of_work(self):
        """Of each nonce null, as from litecoind; other bits are refused there too."""
        header = block_at_front(self.maker.block(block_id(self.blocks[-1]))).header
        data = self.maker.block(block_id(self.blocks[-1]))
        for nonce in range(20):
            proposed = write_header(header._replace(nonce=nonce)) + data[80:]
            self.assertIsNone(self.call("getblocktemplate", {"mode": "proposal", "data": proposed.hex()}))
        other = write_header(header._replace(bits=0x1F7FFFFF)) + data[80:]
        self.assertEqual(self.call("getblocktemplate", {"mode": "proposal", "data": other.hex()}), "bad-diffbits")
        self.assertEqual(self.call("getblockcount"), 110)

    def test_proposals_that_cannot_be_read(self):
        data = self.maker.block(block_id(self.blocks[-1]))
        longer = data[:80] + b"\xfd\1\0" + data[81:]
        self.assertEqual(self.call("getblocktemplate", {"mode": "proposal", "data": longer.hex()})["message"], "Block decode failed")

    def test_faults(self):
        rules = 'getblocktemplate must be called with the segwit rule set (call with {"rules": ["segwit"]})'
        for words, code, message in (
            ([], -8, rules), ([{}], -8, rules), ([{"mode": "x"}], -8, "Invalid mode"), ([{"mode": 5}], -8, "Invalid mode"),
            ([{"mode": "proposal"}], -3, "Missing data String key for proposal"),
            ([{"mode": "proposal", "data": "00"}], -22, "Block decode failed"),
        ):  # fmt: skip
            self.assertEqual(self.call("getblocktemplate", *words), {"code": code, "message": message})


class TraceTest(Waiting):
    def test_a_refused_one_leaves_no_trace(self):
        """Neither in the history nor among the blocks."""
        def seen():
            bench = self.running.bench
            with bench.turn:
                return bench.tips(), dict(bench.index.blocks), bench.coins(), bench.node.seat(0).journal().value

        before = seen()
        for tx in (self.spends(b"\x11" * 32), self.spends(self.coins[-1]), self.spends(self.coins[0], 51 * COIN),
                   spend(self.coins[0], 0, COIN, b"\x6a")):  # fmt: skip
            self.assertIn("code", self.send(tx))
            self.call("testmempoolaccept", [write_transaction(tx).hex()], 0)
            self.assertIn("code", self.call("generateblock", "raw(51)", [write_transaction(tx).hex()]))
        self.assertEqual(self.send(self.spends(self.coins[1])), show(self.spends(self.coins[1]).id))
        self.assertEqual(seen(), before)


class IndexTest(Waiting):
    def test_transactions_by_their_ids(self):
        tx = self.spends(self.coins[0])
        self.send(tx)
        self.assertEqual(self.call("getrawtransaction", show(tx.id)), write_transaction(tx).hex())
        self.assertNotIn("blockhash", self.call("getrawtransaction", show(tx.id), True))
        [mined] = self.mined(1)
        self.assertTrue(self.call("getrawtransaction", show(tx.id))["message"].startswith("No such mempool transaction. Use -txindex"))
        self.running.node.has_index = True
        self.assertEqual(self.call("getindexinfo"), {"txindex": {"synced": True, "best_block_height": 111}})
        shown = self.call("getrawtransaction", show(tx.id), True)
        self.assertEqual((shown["blockhash"], shown["confirmations"], "in_active_chain" in shown), (mined, 1, False))
        self.call("invalidateblock", mined)
        self.assertNotIn("blockhash", self.call("getrawtransaction", show(tx.id), True))
        # Another block has it too, which isn't the one that the index names.
        other = self.maker.block(block_id(self.blocks[-1]), [tx], extra=b"\x09")
        self.submit(other)
        self.assertEqual(self.call("getrawtransaction", show(tx.id), True)["blockhash"], show(block_id(other)))
        unknown = self.call("getrawtransaction", "11" * 32)
        self.assertEqual(unknown["message"], "No such mempool or blockchain transaction. Use gettransaction for wallet transactions.")


class ThreadsTest(Waiting):
    def test_beside_blocks(self):
        """Four threads send chains of transactions while blocks are mined and taken back: what waits in the end can be mined in
        one block, and every transaction is mined or waits."""
        ends, faults = [], []

        def sends(place):
            at, value = self.coins[place], 50 * COIN
            for _ in range(25):
                value -= 1000
                tx = self.spends(at, value)
                while True:
                    answer = self.send(tx)
                    if answer == show(tx.id) or answer.get("message") == "Transaction already in block chain":
                        break
                    # What it spends was taken back and isn't looked at yet.
                    if answer["message"] != "bad-txns-inputs-missingorspent":
                        return faults.append(answer)
                at = tx.id
            ends.append(at)

        threads = [threading.Thread(target=sends, args=(place,)) for place in range(4)]
        for thread in threads:
            thread.start()
        draw = random.Random(5)
        while any(thread.is_alive() for thread in threads):
            self.mined(1)
            if draw.random() < 0.4:
                self.call("invalidateblock", self.call("getbestblockhash"))
        for thread in threads:
            thread.join()
        self.assertEqual(faults, [])
        self.mined(1)
        self.assertEqual(self.waiting(), set())
        for id in ends:
            self.assertIsNotNone(self.call("gettxout", show(id), 0))


class OnStages:
    """The same where each that hangs on another is judged on a stage, if it may be: on a chainstate of the server's process."""

    def setUp(self):
        patched = mock.patch.object(mempool, "DEEP", 0)
        patched.start()
        self.addCleanup(patched.stop)
        super().setUp()


class RulesOnStagesTest(OnStages, RulesTest):
    pass


class ThreadsOnStagesTest(OnStages, ThreadsTest):
    pass


class BesideLitecoindOnStagesTest(OnStages, BesideLitecoindTest):
    pass


class LongChainTest(Waiting):
    """60 transactions, each of which spends the one before: with real signatures, or those of a table."""

    def chain(self, count=60):
        script, secret = b"\x76\xa9" + push(hash160(KEYS[0])) + b"\x88\xac", SECRETS[:1]
        txs, triples, at = [self.spends(self.coins[0], 50 * COIN, to=script)], [], None
        for place in range(count - 1):
            at = self.spends(txs[-1].id, 50 * COIN - 10 * place - 10, to=script)
            [signature] = signed(SECP, secret, at, 0, script)
            triples.append(Triple(KEYS[0], signature[:-1], signature_digest(at, 0, script, 1)))
            txs.append(with_script(at, 0, signature, KEYS[0]))
        return txs, triples

    def play(self, txs, forged):
        judged, made = [], NodeBench.judge_spelled

        def judge(bench, spelled, now):
            judged.append(len(spelled.ids))
            return made(bench, spelled, now)

        with mock.patch.object(NodeBench, "judge_spelled", judge):
            for tx in txs[:30]:
                self.assertEqual(self.send(tx), show(tx.id))
            self.assertEqual(self.send(forged)["code"], -26)
            # The stage is of the block that comes now, and then of another branch.
            block = self.maker.block(block_id(self.blocks[-1]), txs[:3], extra=b"c")
            self.assertIsNone(self.submit(block))
            for tx in txs[30:45]:
                self.assertEqual(self.send(tx), show(tx.id))
            self.call("invalidateblock", show(block_id(block)))
            for tx in txs[45:]:
                self.assertEqual(self.send(tx), show(tx.id))
        # What hangs on more than 24 isn't judged as a whole; all that came back is, once.
        self.assertEqual(sorted(judged)[-2:], [26, 46])
        self.assertEqual(len(self.call("getrawmempool")), 60)
        [mined] = self.mined(1)
        self.assertEqual(self.call("getblock", mined)["tx"][1:], [show(tx.id) for tx in txs])

    def test_real_signatures(self):
        txs, _ = self.chain()
        [wrong] = signed(SECP, SECRETS[1:2], txs[30], 0, txs[0].outputs[0].script)
        self.play(txs, with_script(txs[30], 0, wrong, KEYS[0]))

    def test_signatures_of_a_table(self):
        txs, triples = self.chain()
        lines = b"".join(triple.line for triple in triples)
        self.running = Running(NodeBench(table=lines, program=PROGRAM))
        self.addCleanup(self.running.stop)
        self.call = self.running.call
        self.call("setmocktime", GENESIS.time + 600 * 2000)
        for block in self.blocks:
            self.assertIsNone(self.submit(block))
        # Another signature of the same key, which is right and isn't in the table.
        other = txs[30]._replace(outputs=[Output(5, b"\x51")])
        [right] = signed(SECP, SECRETS[:1], other, 0, txs[0].outputs[0].script)
        self.play(txs, with_script(other, 0, right, KEYS[0]))


class MeanwhileTest(OnStages, Waiting):
    """Blocks that come while a transaction is judged."""

    def test_while_a_stage_is_made(self):
        """That stage is of the block before: it isn't used again."""
        first, other = self.spends(self.coins[0]), self.spends(self.coins[1])
        second = self.spends(first.id, COIN - 1)
        self.send(first)
        block = self.maker.block(block_id(self.blocks[-1]), [other], extra=b"m")
        stage, told = NodeBench.stage, []

        def slow(bench):
            found = stage(bench)
            if not told:
                with bench.others():
                    told.append(self.submit(block))
            return found

        with mock.patch.object(NodeBench, "stage", slow):
            self.assertEqual(self.send(second), show(second.id))
        both = Transaction(1, [Input(it, 0, b"", 0xFFFFFFFF) for it in (second.id, other.id)], [Output(COIN, b"\x51")], 0)
        self.assertEqual((told, self.send(both)), ([None], show(both.id)))
        self.assertEqual(self.waiting(), {show(tx.id) for tx in (first, second, both)})

    def behind_a_dry_run(self, block):
        """A block comes once, just when a dry run was answered. Its call is answered when what waits was looked at again."""
        judge, submits = NodeBench.judge_spelled, threading.Thread(target=self.submit, args=(block,))
        self.addCleanup(submits.join, 20)

        def slow(bench, spelled, now):
            reply = judge(bench, spelled, now)
            if not submits.ident:
                submits.start()
                while bench.best() != block_id(block):
                    bench.turn.wait(20)
            return reply

        return mock.patch.object(NodeBench, "judge_spelled", slow)

    def test_a_block_that_spends_the_same_coin(self):
        tx, other = self.spends(self.coins[0]), self.spends(self.coins[0], 2 * COIN)
        with self.behind_a_dry_run(self.maker.block(block_id(self.blocks[-1]), [other], extra=b"m")):
            self.assertEqual(self.send(tx), {"code": -25, "message": "bad-txns-inputs-missingorspent"})
        self.assertEqual(self.waiting(), set())

    def test_a_block_that_comes_while_all_is_looked_at_again(self):
        one, two = self.spends(self.coins[0]), self.spends(self.coins[1])
        self.send(one), self.send(two)
        block = self.maker.block(block_id(self.blocks[-2]), [one], extra=b"m")
        with self.behind_a_dry_run(block):
            self.call("invalidateblock", show(block_id(self.blocks[-1])))
        self.assertEqual((self.call("getbestblockhash"), self.waiting()), (show(block_id(block)), {show(two.id)}))

    def test_a_block_that_is_not_taken_up_yet(self):
        """The node has it, and the server doesn't know it: what is judged then is judged again."""
        block = self.maker.block(block_id(self.blocks[-1]), extra=b"m")
        best_after, entered, released = NodeBench._best_after, threading.Event(), threading.Event()

        def slow(bench, answered, spelled):
            entered.set()
            with bench.others():
                released.wait(20)
            return best_after(bench, answered, spelled)

        tx, told = self.spends(self.coins[0]), []
        with mock.patch.object(NodeBench, "_best_after", slow):
            submits = threading.Thread(target=self.submit, args=(block,))
            sends = threading.Thread(target=lambda: told.append(self.send(tx)))
            submits.start()
            self.assertTrue(entered.wait(20))
            sends.start()
            sends.join(1)
            self.assertEqual(told, [])
            released.set()
            submits.join(20), sends.join(20)
        self.assertEqual((told, self.call("getblockcount")), ([show(tx.id)], 111))


class CountsTest(Waiting):
    def test_no_entry_is_lost_in_the_counts(self):
        for place in range(3):
            self.send(self.spends(self.coins[place]))
        self.mined(1)
        pool = self.running.node.mempool
        self.assertEqual((pool.entries, pool.spenders, pool.bytes), ({}, {}, 0))
        self.assertIsInstance(pool, ServedMempool)


if __name__ == "__main__":
    unittest.main()
