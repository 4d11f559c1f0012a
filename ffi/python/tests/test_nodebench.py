"""The server over the seats of a node: calls that run beside one another, with a table and with real signatures; and the
calls of the other tests with a table."""

import contextlib
import io
import json
import os
import signal
import socket
import threading
import time
import unittest
import unittest.mock

import test_datadir
import test_http
import test_rpc
from blocks import Maker, block_id, signed, spend, with_script
from servers import AUTHORIZATION, PROGRAM, Running, seats
from test_bench import KEYS, SECP, SECRETS, pay_to_key
from test_node_by_need import Mined, then
from wakotehu import Node, errors, secp256k1, server, show, signatures
from wakotehu.consensus import Triple
from wakotehu.encoding import GENESIS, Input, Output, Transaction, push, signature_digest, write_transaction
from wakotehu.history import VERDICTS
from wakotehu.node import Seat
from wakotehu.nodebench import NodeBench
from wakotehu.signatures import KnownSignatures

#: A moment at which no block of these tests is too new.
LATER = GENESIS.time + 600 * 2000


def with_a_table(*words, **more):
    """A server whose table says which signatures are valid."""
    return Running(NodeBench(program=PROGRAM), *words, **more)


# ---- the calls of the other tests, with a table

CASES = (
    test_rpc.FaultsTest, test_rpc.RequestsTest, test_rpc.SubmitTest, test_rpc.MarksTest, test_rpc.StopTest,
    test_rpc.ShownTest, test_rpc.CommandLineTest, test_http.HeldUpTest,
)  # fmt: skip
for case in CASES:
    name = f"{case.__name__}WithATable"
    globals()[name] = type(name, (case,), {"start": staticmethod(with_a_table), "__module__": __name__})
del case


# ---- callers beside one another


class Connection:
    """A connection that is kept."""

    def __init__(self, port, timeout=30):
        self.socket = socket.create_connection(("127.0.0.1", port), timeout)
        self.socket.setsockopt(socket.IPPROTO_TCP, socket.TCP_NODELAY, True)

    def call(self, method, *params):
        body = json.dumps({"method": method, "params": params, "id": 1}).encode()
        head = f"POST / HTTP/1.1\r\nHost: 127.0.0.1\r\nAuthorization: {AUTHORIZATION}\r\nContent-Length: {len(body)}\r\n\r\n"
        self.socket.sendall(head.encode() + body)
        got = b""
        while not got.endswith(b"}\n"):
            piece = self.socket.recv(1 << 20)
            if not piece:
                raise OSError("closed")
            got += piece
        reply = json.loads(got.partition(b"\r\n\r\n")[2])
        return reply["error"] or reply["result"]


class Callers(unittest.TestCase):
    """A server, and those who call beside one another."""

    def started(self, **more):
        running = Running(NodeBench(program=PROGRAM, **more))
        self.addCleanup(running.stop)
        running.call("setmocktime", LATER)
        return running

    def connected(self, running, timeout=30):
        connection = Connection(running.port, timeout)
        self.addCleanup(connection.socket.close)
        return connection

    def run_all(self, *bodies):
        """Runs these at once; a fault in one is raised here."""
        faults = []

        def run(body):
            try:
                body()
            except BaseException as fault:
                faults.append(fault)

        threads = [threading.Thread(target=run, args=(body,)) for body in bodies]
        for thread in threads:
            thread.start()
        for thread in threads:
            thread.join(60)
        if faults:
            raise faults[0]


class SeatsTest(Callers):
    def test_sixteen_writers_and_readers(self):
        """Each connection submits a branch of its own and reads what it wrote, or reads what another wrote."""
        running, branches = self.started(), []
        for number in range(16):
            branches.append(Maker().chain(10 + number, extra=bytes([number + 1])))
        written = [None] * 16

        def writer(number):
            connection = self.connected(running)
            for height, block in enumerate(branches[number], 1):
                told = connection.call("submitblock", block.hex())
                self.assertIn(told, (None, "inconclusive"))
                self.assertGreaterEqual(connection.call("getblockcount"), height)
                self.assertEqual(connection.call("getblockheader", show(block_id(block)))["height"], height)
                written[number] = block

        def reader(number):
            connection, least = self.connected(running), 0
            while written[number] is not branches[number][-1]:
                seen = written[number]
                tips = connection.call("getchaintips")
                if seen is not None:
                    # What was answered to another connection is there.
                    self.assertEqual(connection.call("getblock", show(block_id(seen)), 0), seen.hex())
                best = tips[0]["height"]
                self.assertGreaterEqual(best, least)
                least = best

        self.run_all(*(lambda n=n: writer(n) for n in range(16)), *(lambda n=n: reader(n) for n in range(16)))
        self.assertEqual(running.call("getblockcount"), 25)
        self.assertEqual(running.call("getbestblockhash"), show(block_id(branches[15][-1])))
        tips = {tip["hash"]: tip["status"] for tip in running.call("getchaintips")}
        self.assertEqual(sorted(tips), sorted(show(block_id(branch[-1])) for branch in branches))
        self.assertEqual(running.bench.steps, sum(map(len, branches)))
        self.assertEqual(running.call("gettxoutsetinfo")["txouts"], 25)

    def test_blocks_made_by_eight_at_once_stand_on_one_another(self):
        running, found = self.started(), []
        self.run_all(*[lambda: found.extend(self.connected(running).call("generatetodescriptor", 10, "raw(51)"))] * 8)
        self.assertEqual((len(set(found)), running.call("getblockcount")), (80, 80))

    def test_reads_beside_a_writer(self):
        """Blocks of 2,000 payments come in, and another connection reads on: no block is answered before five reads that
        began behind its submission are. It prints the slowest read."""
        running, maker = self.started(), Maker()
        blocks = maker.chain(110)
        for block in blocks:
            self.assertIsNone(running.call("submitblock", block.hex()))
        coins, at, payments = [maker.coinbases[block_id(block)].id for block in blocks], block_id(blocks[-1]), []
        for coin in coins[:5]:
            first = Transaction(1, [Input(coin, 0, b"", 0xFFFFFFFF)], [Output(2_000_000, b"\x51")] * 2000, 0)
            more = [spend(first.id, place, 1_000_000, b"") for place in range(2000)]
            payments.append(maker.block(at, [first, *more]))
            at = block_id(payments[-1])
        ended, submitted, read, answered = threading.Event(), [], [], threading.Condition()
        submit = Seat.try_submit

        def held(seat, block, now):
            # One read may have begun before. A read that waited for the submission would wait for as long as this does.
            wanted = len(read) + 6
            reply = submit(seat, block, now)
            with answered:
                self.assertTrue(answered.wait_for(lambda: len(read) >= wanted, 30))
            return reply

        def write():
            connection = self.connected(running)
            try:
                for block in payments:
                    submitted.append(connection.call("submitblock", block.hex()))
            finally:
                ended.set()

        def ask():
            connection = self.connected(running)
            while not ended.is_set():
                begun = time.perf_counter()
                self.assertEqual(connection.call("gettxout", show(coins[109]), 0)["coinbase"], True)
                with answered:
                    read.append(time.perf_counter() - begun)
                    answered.notify_all()

        with unittest.mock.patch.object(Seat, "try_submit", held):
            self.run_all(write, ask)
        self.assertEqual(submitted, [None] * len(payments))
        print(f"{len(read)} reads by RPC beside blocks of 2,000 payments: the slowest took {max(read) * 1000:.1f} ms")

    def test_all_coins_are_of_one_state(self):
        """A block comes between their parts, once or each time: those that are told are the coins of the block that is."""
        for times in (1, 2):
            running, left = self.started(), Maker().chain(8, extra=bytes([times]))
            self.assertIsNone(running.call("submitblock", left.pop(0).hex()))
            coins, asked = Seat.coins, []

            def between(seat, above=None, most=1000):
                asked.append(above)
                if above is None and len(left) > 7 - times:
                    self.assertIsNone(self.connected(running).call("submitblock", left.pop(0).hex()))
                # Also where blocks wait.
                self.assertEqual(self.connected(running).call("getblockcount"), 8 - len(left))
                return coins(seat, above, most)

            with unittest.mock.patch.object(Seat, "coins", between):
                info = running.call("gettxoutsetinfo")
            # Each block has a coin. Twice they are read in vain.
            self.assertEqual((info["txouts"], info["height"]), (1 + times, 1 + times))
            self.assertEqual(info["bestblock"], running.call("getblockhash", 1 + times))
            self.assertEqual(len(asked), 2 * (times + 1))
            scanned = running.call("scantxoutset", "start", ["raw(51)"])
            self.assertEqual((scanned["txouts"], len(scanned["unspents"]), scanned["height"]), (1 + times,) * 3)

    def test_more_connections_than_seats(self):
        running = self.started(seats=2)
        connections = [self.connected(running) for _ in range(9)]
        for connection in connections:
            self.assertIsNone(connection.call("gettxout", "11" * 32, 0))
        self.assertEqual(sorted(running.bench._threads), [4, 5])
        for connection in connections:
            connection.socket.close()
        for _ in range(100):
            if running.bench._threads == [0, 0]:
                break
            time.sleep(0.05)
        self.assertEqual(running.bench._threads, [0, 0])

    def test_signatures_are_those_of_the_table(self):
        """A spend by a real signature is refused until the table has it."""
        script = pay_to_key(KEYS[0])
        maker = Maker(script)
        blocks = maker.chain(101)
        tx = spend(maker.coinbases[block_id(blocks[0])].id, 0, 1, b"")
        digest = signature_digest(tx, 0, script, 1)
        [signature] = signed(SECP, SECRETS[:1], tx, 0, script)
        spending = maker.block(block_id(blocks[-1]), [with_script(tx, 0, signature)])
        line = Triple(KEYS[0], signature[:-1], digest).line
        # It is kept where it was refused by its scripts, as a tip that is invalid.
        for table, told, txouts, again in ((b"", "blk-bad-inputs", 101, "duplicate-invalid"), (line, None, 102, "duplicate")):
            running = self.started(table=table)
            for block in blocks:
                self.assertIsNone(running.call("submitblock", block.hex()))
            self.assertEqual(running.call("submitblock", spending.hex()), told)
            self.assertEqual(running.call("gettxoutsetinfo")["txouts"], txouts)
            self.assertEqual(running.call("submitblock", spending.hex()), again)
            self.assertEqual(running.call("getblock", show(block_id(spending)), 0), spending.hex())

    def test_a_node_that_dies(self):
        """The call gets an answer, and the server ends."""
        running = self.started()
        running.bench.node._process.kill()
        error = running.call("gettxout", "11" * 32, 0)
        self.assertEqual(error["code"], -1)
        self.assertIn("A fatal internal error occurred: NodeDied", error["message"])
        running.thread.join(10)
        self.assertFalse(running.thread.is_alive())

    def test_a_step_that_is_owed(self):
        """Nobody was told its place, so no step behind it is answered."""
        running = self.started()
        [block, other] = Maker().chain(2)
        seat = type(running.bench.node.seat(0))

        def owed(self, data, now):
            raise errors.Owed("owed")

        kept, seat.try_submit = seat.try_submit, owed
        try:
            told = running.call("submitblock", block.hex())
        finally:
            seat.try_submit = kept
        self.assertIn("A fatal internal error occurred: Owed", told["message"])
        running.thread.join(10)
        self.assertFalse(running.thread.is_alive())

    def test_a_table_that_is_none(self):
        with self.assertRaises(errors.BadTable):
            NodeBench(program=PROGRAM, table=b"x\n")
        bench = NodeBench(program=PROGRAM)
        self.addCleanup(bench.close)
        self.assertRaises(TypeError, lambda: bench.__reduce_ex__(2))


class SignaturesTest(Callers):
    """Real signatures, by callers beside one another."""

    def mined(self, running, count=104):
        """A chain whose first coinbases can be spent, which the server has."""
        mined = Mined(count)
        for block in mined.chain:
            self.assertIsNone(running.call("submitblock", block.hex()))
        return mined

    def branch(self, mined, number, length):
        """A branch on the chain, each block of which spends what the one before made; and, before each, a block that is as
        high and spends it with a wrong signature."""
        tip, found = mined.tip, []
        wrong, paid = mined.spend(0, secret=1), mined.spend(0, kind=(1, 2, 3, 129, 130, 131)[number % 6])
        for _ in range(length):
            found.append((mined.block(tip, [wrong], bytes([number, 1])), mined.block(tip, [paid], bytes([number, 2]))))
            tip, wrong, paid = block_id(found[-1][1]), then(paid, right=False), then(paid, kind=1 + number % 3)
        return found

    def test_sixteen_connections_submit_branches(self):
        """Sixteen branches that spend the same coin, with wrong signatures among them, beside eight readers."""
        running = Running(seats())
        self.addCleanup(running.stop)
        running.call("setmocktime", LATER)
        mined = self.mined(running)
        branches = [self.branch(mined, number, 3 + number % 8) for number in range(16)]
        ended, reads, replies = threading.Event(), [], []

        def writer(branch):
            connection = self.connected(running)
            for wrong, block in branch:
                # It is higher than the active block, or it isn't looked into.
                told = connection.call("submitblock", wrong.hex())
                self.assertIn(told, ("blk-bad-inputs", "inconclusive"))
                replies.append(told)
                self.assertIn(connection.call("submitblock", block.hex()), (None, "inconclusive"))
                self.assertEqual(connection.call("getblock", show(block_id(block)), 0), block.hex())

        def reader():
            connection, least = self.connected(running), 0
            while not ended.is_set():
                best = connection.call("getchaintips")[0]["height"]
                self.assertGreaterEqual(best, least)
                self.assertGreaterEqual(connection.call("getblockcount"), 104)
                coinbase = connection.call("gettxout", show(mined.maker.coinbases[block_id(mined.chain[1])].id), 0)
                self.assertEqual(coinbase["coinbase"], True)
                least = best
                reads.append(best)

        def write():
            try:
                self.run_all(*(lambda branch=branch: writer(branch) for branch in branches))
            finally:
                ended.set()

        self.run_all(write, *[reader] * 8)
        self.assertIn("blk-bad-inputs", replies)
        # Two branches have ten blocks: the one whose last block came first is the active one.
        self.assertEqual(running.call("getblockcount"), 114)
        ends = [show(block_id(branches[number][-1][1])) for number in (7, 15)]
        self.assertIn(running.call("getbestblockhash"), ends)
        shown = {tip["hash"]: tip["status"] for tip in running.call("getchaintips")}
        self.assertLessEqual({show(block_id(branch[-1][1])) for branch in branches}, set(shown))
        for wrong, _ in (pair for branch in branches for pair in branch):
            self.assertIn(shown[show(block_id(wrong))], ("invalid", "valid-headers"))
        # A coin for each coinbase but the one that is spent, and the payment of the highest block.
        self.assertEqual(running.call("gettxoutsetinfo")["txouts"], 114)
        commands = [entry.command for entry in running.bench.node.seat(0).journal().value]
        self.assertEqual(commands.count("submit"), 104 + 2 * sum(map(len, branches)))
        verdicts = running.bench.known._verdicts
        self.assertEqual(set(verdicts.values()), {True, False})
        self.assertTrue(all(SECP.valid(Triple.of_line(line)) is verdict for line, verdict in verdicts.items()))
        print(f"{len(reads)} rounds of three reads beside {2 * sum(map(len, branches))} blocks of real signatures by 16 connections")

    def test_none_waits_for_a_signature(self):
        """While a block's signature is being found out, reads are answered and another block is accepted."""
        asked, go_on, slow = threading.Event(), threading.Event(), []

        def verify(lines):
            if set(lines) & set(slow):
                asked.set()
                self.assertTrue(go_on.wait(30))
            return secp256k1(lines)

        running = Running(seats(verify=verify))
        self.addCleanup(running.stop)
        self.addCleanup(go_on.set)
        running.call("setmocktime", LATER)
        mined = self.mined(running)
        held, other = (mined.block(mined.tip, [mined.spend(place)], bytes([place])) for place in (0, 1))
        slow += self.lines(mined.spend(0))
        told = []
        thread = threading.Thread(target=lambda: told.append(self.connected(running).call("submitblock", held.hex())))
        thread.start()
        self.assertTrue(asked.wait(30))
        connection = self.connected(running, timeout=10)
        coin = show(mined.maker.coinbases[block_id(mined.chain[0])].id)
        self.assertEqual(connection.call("gettxout", coin, 0)["confirmations"], 104)
        self.assertEqual(len(connection.call("getchaintips")), 1)
        self.assertEqual(connection.call("gettxoutsetinfo")["txouts"], 104)
        self.assertIsNone(connection.call("submitblock", other.hex()))
        self.assertEqual(connection.call("getbestblockhash"), show(block_id(other)))
        self.assertEqual(connection.call("invalidateblock", show(block_id(other))), None)
        self.assertEqual(connection.call("getblockcount"), 104)
        self.assertEqual(told, [])
        go_on.set()
        thread.join(30)
        self.assertEqual(told, [None])
        self.assertEqual(running.call("getbestblockhash"), show(block_id(held)))

    def lines(self, tx):
        """The line of the signature by the first key that spends an output to its hash."""
        script = tx.inputs[0].script
        signature, key = script[1 : 1 + script[0]], script[2 + script[0] :]
        bare = tx._replace(inputs=[tx.inputs[0]._replace(script=b"")])
        digest = signature_digest(bare, 0, Mined(1).maker.script, signature[-1])
        return [Triple(key, signature[:-1], digest).line.rstrip()]

    def forked(self, running):
        """A branch of two blocks, of which the second would make it the higher one; and the active block beside its first.
        The first has one signature. The second has two in one script, which asks for the other once it knows the one."""
        mined = self.mined(running)
        both = push(KEYS[0]) + b"\xad" + push(KEYS[1]) + b"\xac"
        paid = mined.spend(0, to=both)
        tx = spend(paid.id, 0, paid.outputs[0].value, b"")
        one, other = signed(SECP, SECRETS[:2], tx, 0, both)
        first = mined.block(mined.tip, [paid], b"first")
        second = mined.block(block_id(first), [with_script(tx, 0, other, one)], b"second")
        beside = mined.block(mined.tip, [], b"beside")
        self.assertIsNone(running.call("submitblock", beside.hex()))
        self.assertEqual(running.call("submitblock", first.hex()), "inconclusive")
        return mined, first, second, block_id(beside)

    def test_verdicts_between_commands(self):
        """Two signatures are wanted at once, and then one. Between the verdicts on them another connection's commands are
        steps, and none waits for a step that is a verdict."""
        asked, go_on, calls = threading.Event(), threading.Event(), []

        def verify(lines):
            calls.append(len(lines))
            if len(calls) == 2:
                asked.set()
                self.assertTrue(go_on.wait(30))
            return secp256k1(lines)

        running = Running(seats(verify=verify))
        self.addCleanup(running.stop)
        self.addCleanup(go_on.set)
        running.call("setmocktime", LATER)
        mined, _, second, beside = self.forked(running)
        told = []
        thread = threading.Thread(target=lambda: told.append(self.connected(running).call("submitblock", second.hex())))
        thread.start()
        self.assertTrue(asked.wait(30))
        # A command stands behind the verdict, whose own command comes later.
        connection = self.connected(running, timeout=10)
        plain = mined.block(beside, [], b"plain")
        self.assertIsNone(connection.call("submitblock", plain.hex()))
        self.assertIsNone(connection.call("preciousblock", show(block_id(plain))))
        go_on.set()
        thread.join(30)
        self.assertEqual(told, ["inconclusive"])
        entries = running.bench.node.seat(0).journal(104).value
        commands = ["submit", "submit", "submit", "valid", "valid", "submit", "precious", "valid", "submit"]
        self.assertEqual([entry.command for entry in entries], commands)
        self.assertEqual(calls, [2, 1])
        self.assertIsNone(connection.call("preciousblock", show(block_id(second))))
        self.assertEqual(connection.call("getbestblockhash"), show(block_id(second)))

    def test_verify_that_raises(self):
        """The call is answered by the error. The verdicts before it stand, and later commands go on."""
        calls = []

        def verify(lines):
            calls.append(lines)
            if len(calls) == 2:
                raise ValueError("out of order")
            return secp256k1(lines)

        running = Running(seats(verify=verify))
        self.addCleanup(running.stop)
        running.call("setmocktime", LATER)
        mined, _, second, beside = self.forked(running)
        told = running.call("submitblock", second.hex())
        self.assertEqual(told, {"code": -1, "message": "ValueError: out of order"})
        commands = [entry.command for entry in running.bench.node.seat(0).journal().value]
        self.assertEqual((running.call("getbestblockhash"), commands.count("valid")), (show(beside), 2))
        plain = mined.block(beside, [], b"plain")
        self.assertIsNone(running.call("submitblock", plain.hex()))
        self.assertEqual(running.call("submitblock", second.hex()), "inconclusive")
        # It isn't higher any more, so nothing is wanted.
        self.assertEqual(len(calls), 2)
        self.assertIsNone(running.call("preciousblock", show(block_id(second))))
        self.assertEqual((len(calls), calls[2] == calls[1]), (3, True))
        self.assertEqual(running.call("getbestblockhash"), show(block_id(second)))

    def test_signatures_that_are_wanted_one_after_the_other(self):
        """A script asks for forty, of which the last but one is wrong or none is: one or two rounds find out all of them."""
        rounds, verdicts = [], NodeBench._verdicts

        def counted(bench, lines):
            rounds.append(lines)
            return verdicts(bench, lines)

        with unittest.mock.patch.object(NodeBench, "_verdicts", counted):
            running = Running(seats())
        self.addCleanup(running.stop)
        running.call("setmocktime", LATER)
        mined = self.mined(running)
        code = (push(KEYS[0]) + b"\xad") * 40 + b"\x51"
        paid = mined.spend(0, to=code)
        self.assertIsNone(running.call("submitblock", mined.block(mined.tip, [paid]).hex()))
        tip, tx = running.bench.best(), spend(paid.id, 0, 1, b"")
        for wrong, told in ((38, "blk-bad-inputs"), (None, None)):
            made = [signed(SECP, SECRETS[int(kind == wrong) :], tx, 0, code, kind + 1)[0] for kind in range(40)]
            before = len(rounds)
            block = mined.block(tip, [with_script(tx, 0, *reversed(made))])
            self.assertEqual(running.call("submitblock", block.hex()), told)
            self.assertIn(len(rounds) - before, (1, 2))
        entries = running.bench.node.seat(0).journal(107).value
        # Behind a wrong signature the script asks for no more; all others are told once.
        self.assertEqual(sorted(entry.command for entry in entries), ["invalid", "submit", "submit", *["valid"] * 40])

    def test_generated_blocks(self):
        """A block that is judged before the chainstate has it holds up none while its signature is found out."""
        asked, go_on = threading.Event(), threading.Event()

        def verify(lines):
            asked.set()
            self.assertTrue(go_on.wait(30))
            return secp256k1(lines)

        running = Running(seats(verify=verify))
        self.addCleanup(running.stop)
        self.addCleanup(go_on.set)
        running.call("setmocktime", LATER)
        mined, told = self.mined(running), []
        raw = write_transaction(mined.spend(0)).hex()
        thread = threading.Thread(
            target=lambda: told.append(self.connected(running).call("generateblock", "raw(51)", [raw]))
        )
        thread.start()
        self.assertTrue(asked.wait(30))
        connection = self.connected(running, timeout=10)
        self.assertEqual(connection.call("getblockcount"), 104)
        self.assertIsNone(connection.call("submitblock", mined.block(mined.tip, [], b"other").hex()))
        go_on.set()
        thread.join(30)
        # It was made anew, on the block that came meanwhile.
        self.assertEqual(connection.call("getbestblockhash"), told[0]["hash"])
        self.assertEqual(connection.call("getblockcount"), 106)


class KnownTest(unittest.TestCase):
    """What is known of signatures."""

    def test_the_first_verdict_stays(self):
        lines, answers = [b"02 30 " + digit * 64 for digit in (b"1", b"2", b"3")], [[True, False], [True], [False, True]]
        asked = []

        def verify(lines):
            asked.append(list(lines))
            return answers.pop(0)

        known = KnownSignatures(verify, b"# ours\n02  30 " + b"f" * 64)
        self.assertEqual(known.verdicts([b"02 30 " + b"f" * 64]), [True])
        self.assertEqual(known.verdicts(lines[:2]), [True, False])
        self.assertEqual(known.verdicts(lines), [True, False, True])
        self.assertEqual(asked, [lines[:2], lines[2:]])
        more = b"02 30 " + b"5" * 64
        known.learn({lines[0]: False, more: False})
        self.assertEqual(known.verdicts([lines[0], more]), [True, False])
        self.assertEqual(len(asked), 2)
        with self.assertRaises(ValueError):
            known.verdicts([b"02 30 " + b"4" * 64])

    def test_two_that_ask_at_once(self):
        """The one that comes first decides for both."""
        both, line = threading.Barrier(2), b"02 30 " + b"1" * 64

        def verify(lines):
            both.wait(30)
            return [threading.current_thread().name == "yes"]

        known, found = KnownSignatures(verify), []
        threads = [threading.Thread(name=name, target=lambda: found.extend(known.verdicts([line]))) for name in ("yes", "no")]
        for thread in threads:
            thread.start()
        for thread in threads:
            thread.join(30)
        self.assertEqual(found, [found[0]] * 2)
        self.assertEqual(known.verdicts([line]), found[:1])

    def test_what_is_refused(self):
        with self.assertRaises(errors.BadTable):
            KnownSignatures(secp256k1, b"x\n")
        with self.assertRaises(TypeError):
            KnownSignatures(True)

    def test_a_machine_without_libsecp256k1(self):
        told = io.StringIO()
        with unittest.mock.patch.object(signatures, "secp256k1_library", lambda: None), \
                unittest.mock.patch.object(signatures.ctypes.util, "find_library", lambda name: None), \
                contextlib.redirect_stderr(told), self.assertRaises(SystemExit) as caught:
            server.main(["-rpcport=0", "--no-auth"])
        self.assertIn("libsecp256k1 isn't found", str(caught.exception.code))


class FolderTest(test_datadir.FolderCase):
    """A folder, with real signatures by many connections."""

    def test_what_many_did(self):
        """Sixteen connections submit branches with right and wrong signatures. The program judges them, and the next
        server goes on from there, with a kill between."""
        server = self.started("-workers=4")
        server.call("setmocktime", LATER)
        mined = Mined(104)
        for block in mined.chain:
            self.assertIsNone(server.call("submitblock", block.hex()))

        def submit(number):
            tip, wrong, paid = mined.tip, mined.spend(0, secret=1), mined.spend(0)
            for _ in range(2):
                block = mined.block(tip, [paid], bytes([number, 1]))
                for it in (mined.block(tip, [wrong], bytes([number, 2])), block):
                    told.append(server.call("submitblock", it.hex()))
                server.call("preciousblock", show(block_id(block)))
                tip, wrong, paid = block_id(block), then(paid, right=False), then(paid)

        told = []
        threads = [threading.Thread(target=submit, args=(number,)) for number in range(16)]
        for thread in threads:
            thread.start()
        for thread in threads:
            thread.join(60)
        self.assertEqual(set(told), {None, "inconclusive", "blk-bad-inputs"})
        before = self.shown(server)
        server.end(signal.SIGKILL)
        self.expect_audited()
        again = self.started()
        self.assertEqual(again.told[0], f"{104 + 16 * 6} commands of {self.folder} were taken again")
        self.assertEqual(self.shown(again), before)
        verdicts = [(step.rest, step.command) for step in self.logged() if step.command in VERDICTS]
        self.assertEqual(len(verdicts), len(dict(verdicts)))
        for line, word in verdicts:
            self.assertEqual(SECP.valid(Triple.of_line(line)), word == "valid")
        again.end(signal.SIGTERM)
        with Node(seats=1, program=PROGRAM, datadir=self.node, verify=secp256k1) as node:
            self.assertEqual(show(node.seat(0).getbestblockhash().value), before[0])


class FolderWithATableTest(test_datadir.FolderCase):
    """A folder, with a table from outside."""

    def setUp(self):
        super().setUp()
        self.table = self.folder + ".table"
        with open(self.table, "wb") as file:
            file.write(b"")

    def at_seats(self, *words):
        return self.started(f"-table={self.table}", *words, WAKOTEHU_PROGRAM=PROGRAM)

    def test_commands_are_taken_again_after_a_kill(self):
        server = self.at_seats()
        before = self.played(server)
        server.end(signal.SIGKILL)
        again = self.at_seats("-workers=4")
        self.assertEqual(again.told[0], f"111 commands of {self.folder} were taken again")
        self.assertEqual(self.shown(again), before)
        self.assertEqual(again.call("stop"), "Wakotehu stopping")
        self.assertEqual(again.process.wait(10), 0)

    def test_the_program_judges_what_many_did(self):
        """Sixteen connections submit branches, and the journal is the node's."""
        server = self.at_seats()
        server.call("setmocktime", LATER)

        def submit(number):
            for block in Maker().chain(12, extra=bytes([number + 1])):
                server.call("submitblock", block.hex())
                server.call("preciousblock", show(block_id(block)))

        threads = [threading.Thread(target=submit, args=(number,)) for number in range(16)]
        for thread in threads:
            thread.start()
        for thread in threads:
            thread.join(60)
        best = server.call("getbestblockhash")
        server.end(signal.SIGTERM)
        self.expect_audited()
        self.assertEqual(len(list(self.logged())), 16 * 24)
        with Node(seats=1, program=PROGRAM, datadir=self.node) as node:
            self.assertEqual(show(node.seat(0).getbestblockhash().value), best)

    def test_another_table_is_refused(self):
        with open(self.table, "wb") as file:
            file.write(b"02 30 " + b"00" * 32 + b"\n")
        self.at_seats().end(signal.SIGTERM)
        with open(os.path.join(self.node, "table.txt"), "rb") as file:
            self.assertEqual(file.read(), b"02 30 " + b"00" * 32 + b"\n")
        self.at_seats().end(signal.SIGTERM)
        for text, flag, told in (
            (b"02 30 " + b"11" * 32, True, "another table"), (b"", True, "another table"), (b"", False, "was made with -table"),
        ):  # fmt: skip
            with open(self.table, "wb") as file:
                file.write(text)
            self.assertIn(told, self.refused(f"-datadir={self.folder}", *[f"-table={self.table}"] * flag))

    def test_a_node_that_dies(self):
        """The server says so, and ends with a fault."""
        server = self.at_seats()
        with open(f"/proc/{server.process.pid}/task/{server.process.pid}/children", encoding="ascii") as file:
            [child] = map(int, file.read().split())
        os.kill(child, signal.SIGKILL)
        self.assertEqual(server.call("gettxout", "11" * 32, 0), 500)
        self.assertEqual(server.process.wait(10), 1)
        self.assertIn("wakotehu-server: A fatal internal error occurred: NodeDied", server.process.stderr.read())

    def test_flags_that_are_refused(self):
        for flags, word in (
            (["-table=/nowhere"], "/nowhere"), (["-workers=17"], "16"), ([f"-table={self.table}", "-workers=17"], "16"),
            (["-workers=0"], "workers"), ([f"-table={self.table}", "-workers=0"], "workers"),
        ):  # fmt: skip
            with self.subTest(flags):
                self.assertIn(word, self.refused(*flags, WAKOTEHU_PROGRAM=PROGRAM))


if __name__ == "__main__":
    unittest.main()
