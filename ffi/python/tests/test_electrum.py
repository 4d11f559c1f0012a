"""The example of an Electrum server, spoken to by a plain socket, and by Debian's Electrum where that is installed."""

import asyncio
import base64
import hashlib
import json
import os
import shutil
import socket
import sys
import tempfile
import time
import unittest
import urllib.request

from wakotehu import Bench, show
from wakotehu.addresses import address_of
from wakotehu.benches import BenchMiner
from wakotehu.encoding import (
    GENESIS, Input, Output, Transaction, double_sha, read_block, read_header, write_header, write_transaction,
)  # fmt: skip

sys.path.append(os.path.join(os.path.dirname(os.path.abspath(__file__)), "..", "..", "examples"))
import electrum_server  # noqa: E402
from histories import hashed  # noqa: E402

ELECTRUM = shutil.which("electrum")
#: What anyone spends, and two scripts that are paid to, which anyone spends too.
ANYONE, ONE, TWO = b"\x51", b"\x01\x01", b"\x01\x02"
ADDRESS = address_of(b"\x76\xa9\x14" + bytes(20) + b"\x88\xac", "regtest")


def free_port():
    with socket.create_server(("127.0.0.1", 0)) as probe:
        return probe.getsockname()[1]


class Client:
    """A wallet's end of a connection. What the server says of itself is kept in `told`."""

    def __init__(self, reader, writer):
        self.reader, self.writer, self.told, self.count = reader, writer, [], 0

    async def ask(self, method, *params):
        self.count += 1
        self.writer.write(json.dumps({"jsonrpc": "2.0", "id": self.count, "method": method, "params": params}).encode() + b"\n")
        while True:
            found = json.loads(await asyncio.wait_for(self.reader.readline(), 20))
            if "method" not in found:
                assert found["id"] == self.count
                return found["error"]["message"] if "error" in found else found["result"]
            self.told.append((found["method"], found["params"]))

    async def news(self):
        """What it was told since it was asked last."""
        await self.ask("server.ping")
        told, self.told = self.told, []
        return told


class Served(unittest.IsolatedAsyncioTestCase):
    """A server over a bench of 110 blocks, which anyone's coins are on."""

    async def asyncSetUp(self):
        # Tests of asyncio complain of calls that take a tenth of a second; so long some take where much else runs.
        asyncio.get_running_loop().slow_callback_duration = 60
        self.bench = Bench()
        self.addCleanup(self.bench.close)
        self.miner = BenchMiner(self.bench)
        self.miner.mine(110)
        self.electrum = electrum_server.Electrum(self.bench)
        self.server = await asyncio.start_server(self.electrum.serve, "127.0.0.1", 0, limit=electrum_server.MOST_LINE)
        self.port = self.server.sockets[0].getsockname()[1]

    async def asyncTearDown(self):
        self.server.close()
        await self.server.wait_closed()

    def mine(self, *words):
        found = self.miner.mine(*words)
        self.electrum.changed()
        return found


class ElectrumTest(Served):
    async def asyncSetUp(self):
        await super().asyncSetUp()
        self.client = Client(*await asyncio.open_connection("127.0.0.1", self.port))

    async def asyncTearDown(self):
        self.client.writer.close()
        await self.client.writer.wait_closed()
        await super().asyncTearDown()

    def payment(self, place, script, value=1000):
        """A transaction that spends the coinbase of a height."""
        coin = read_block(self.bench.block(self.bench.branch()[place - 1])).transactions[0]
        return Transaction(1, [Input(coin.id, 0, b"", 0xFFFFFFFF)], [Output(value, script)], 0)

    async def broadcast(self, tx):
        return await self.client.ask("blockchain.transaction.broadcast", write_transaction(tx).hex())

    async def test_headers(self):
        ask = self.client.ask
        self.assertEqual(await ask("server.version", "test", "1.4"), ["wakotehu", "1.4"])
        self.assertEqual((await ask("server.features"))["genesis_hash"], show(GENESIS.id))
        top = await ask("blockchain.headers.subscribe")
        self.assertEqual((top["height"], top["hex"]), (110, self.bench.block(self.bench.best())[:80].hex()))
        found = await ask("blockchain.block.headers", 0, 5)
        self.assertEqual((found["count"], found["hex"][:160]), (5, write_header(GENESIS).hex()))
        self.assertEqual((await ask("blockchain.block.headers", 100, 5000))["count"], 11)
        self.assertEqual(await ask("blockchain.block.header", 110), top["hex"])
        self.mine()
        told = [("blockchain.headers.subscribe", [{"height": 111, "hex": self.bench.block(self.bench.best())[:80].hex()}])]
        self.assertEqual(await self.client.news(), told)

    async def test_history_broadcast_and_proof(self):
        ask, name = self.client.ask, hashed(ONE)
        self.assertIsNone(await ask("blockchain.scripthash.subscribe", name))
        tx = self.payment(3, ONE)
        self.assertEqual(await self.broadcast(tx), show(tx.id))
        waits = {"tx_hash": show(tx.id), "height": 0, "fee": 4999999000}
        self.assertEqual(await ask("blockchain.scripthash.get_history", name), [waits])
        self.assertEqual(await ask("blockchain.scripthash.get_mempool", name), [waits])
        self.assertEqual(await ask("blockchain.scripthash.get_balance", name), {"confirmed": 0, "unconfirmed": 1000})
        status = hashlib.sha256(f"{show(tx.id)}:0:".encode()).hexdigest()
        self.assertEqual(await self.client.news(), [("blockchain.scripthash.subscribe", [name, status])])
        # In a block of five transactions, each with its branch.
        others = [self.payment(place, TWO) for place in (4, 5, 6)]
        self.mine(1, ANYONE, [*others, tx])
        status = hashlib.sha256(f"{show(tx.id)}:111:".encode()).hexdigest()
        self.assertEqual(await self.client.news(), [("blockchain.scripthash.subscribe", [name, status])])
        self.assertEqual(await ask("blockchain.scripthash.get_history", name), [{"tx_hash": show(tx.id), "height": 111}])
        coin = {"tx_hash": show(tx.id), "tx_pos": 0, "height": 111, "value": 1000}
        self.assertEqual(await ask("blockchain.scripthash.listunspent", name), [coin])
        self.assertEqual(await ask("blockchain.transaction.get", show(tx.id)), write_transaction(tx).hex())
        root = read_header(bytes.fromhex(await ask("blockchain.block.header", 111))).root
        for each in (*others, tx):
            self.assertEqual(await self.proved(each.id, 111), root)
        # It is spent: the balance is what waits.
        spends = Transaction(1, [Input(tx.id, 0, b"", 0xFFFFFFFF)], [Output(600, TWO)], 0)
        await self.broadcast(spends)
        self.assertEqual(await ask("blockchain.scripthash.get_balance", name), {"confirmed": 1000, "unconfirmed": -1000})
        self.assertEqual(await ask("blockchain.scripthash.listunspent", name), [])
        self.assertEqual([it["height"] for it in await ask("blockchain.scripthash.get_history", name)], [111, 0])
        later = Transaction(1, [Input(spends.id, 0, b"", 0xFFFFFFFF)], [Output(500, ONE)], 0)
        await self.broadcast(later)
        self.assertEqual([it["height"] for it in await ask("blockchain.scripthash.get_history", name)], [111, 0, -1])

    async def proved(self, id, height):
        """The Merkle root that a branch leads to."""
        found = await self.client.ask("blockchain.transaction.get_merkle", show(id), height)
        at, place = id, found["pos"]
        for side in (bytes.fromhex(text)[::-1] for text in found["merkle"]):
            at, place = double_sha(side + at if place % 2 else at + side), place // 2
        return at

    async def test_a_reorganisation_of_6_takes_a_payment_back(self):
        ask, name = self.client.ask, hashed(ONE)
        tx, other = self.payment(3, ONE), self.payment(3, TWO)
        for script in (ONE, TWO):
            await ask("blockchain.scripthash.subscribe", hashed(script))
        await ask("blockchain.headers.subscribe")
        self.mine(1, ANYONE, [tx])
        self.mine(5)
        await self.client.news()
        # The same blocks taken back, without the payment: it waits again.
        self.miner.reorg(6)
        self.electrum.changed()
        self.assertEqual((await ask("blockchain.scripthash.get_history", name))[0]["height"], 0)
        self.assertEqual([method for method, _ in await self.client.news()], ["blockchain.headers.subscribe", "blockchain.scripthash.subscribe"])
        self.mine(1, ANYONE, [tx])
        self.mine(5)
        self.assertEqual(await ask("blockchain.scripthash.get_balance", name), {"confirmed": 1000, "unconfirmed": 0})
        await self.client.news()
        # Now by a branch that spends the same coin: the payment is gone for good.
        fork = self.bench.height() - 6
        gone = [self.bench.branch()[fork]]
        self.bench.invalidate(gone[0])
        self.mine(1, ANYONE, [other])
        self.mine(6)
        self.bench.reconsider(gone[0])
        self.electrum.changed()
        self.assertEqual(self.bench.height(), fork + 7)
        self.assertEqual(await ask("blockchain.scripthash.get_history", name), [])
        self.assertEqual(await ask("blockchain.scripthash.get_history", hashed(TWO)), [{"tx_hash": show(other.id), "height": fork + 1}])
        last = {params[0]: params[1] for method, params in await self.client.news() if "scripthash" in method}
        self.assertIsNone(last[name])
        self.assertIsNotNone(last[hashed(TWO)])

    async def test_what_is_refused(self):
        ask = self.client.ask
        tx = self.payment(3, ONE)
        await self.broadcast(tx)
        self.assertEqual(await self.broadcast(self.payment(3, TWO)), "the transaction was rejected: txn-mempool-conflict")
        self.assertEqual(await self.broadcast(self.payment(50, TWO)), "the transaction was rejected: bad-txns-premature-spend-of-coinbase")
        self.assertEqual(await self.broadcast(self.payment(4, ONE, 10**10)), "the transaction was rejected: bad-txns-in-belowout")
        self.assertEqual(await ask("blockchain.transaction.broadcast", "00"), "the transaction was rejected: it doesn't decode")
        self.assertEqual(await ask("blockchain.transaction.get", "11" * 32), "no such transaction, or verbose")
        self.assertEqual(await ask("blockchain.transaction.get_merkle", "11" * 32, 3), "the block doesn't have this transaction")
        self.assertEqual(await ask("blockchain.transaction.get_merkle", show(tx.id), 111), "no such height")
        self.assertEqual(await ask("blockchain.block.header", -1), "no such height")
        self.assertEqual(await ask("nothing"), "unknown method")
        self.assertIn("argument", await ask("blockchain.block.header"))
        self.client.writer.write(b"nonsense\n")
        self.assertEqual(await asyncio.wait_for(self.client.reader.read(), 20), b"")


class ProgramTest(unittest.IsolatedAsyncioTestCase):
    async def test_it_serves_101_blocks(self):
        port = free_port()
        process = await asyncio.create_subprocess_exec(sys.executable, electrum_server.__file__, str(port), ADDRESS)
        try:
            for _ in range(300):
                try:
                    reader, writer = await asyncio.open_connection("127.0.0.1", port)
                    break
                except OSError:
                    await asyncio.sleep(0.1)
            top = await Client(reader, writer).ask("blockchain.headers.subscribe")
            self.assertEqual(top["height"], 101)
            writer.close()
        finally:
            process.kill()
            await process.wait()


@unittest.skipUnless(ELECTRUM, "electrum isn't installed")
class WalletTest(Served):
    """Debian's Electrum: a daemon, which is asked by its RPC."""

    async def asyncSetUp(self):
        await super().asyncSetUp()
        folder = tempfile.TemporaryDirectory()
        self.addCleanup(folder.cleanup)
        self.rpc = free_port()
        os.mkdir(f"{folder.name}/regtest")
        with open(f"{folder.name}/regtest/config", "w", encoding="ascii") as file:
            json.dump({"rpcsock": "tcp", "rpcport": self.rpc, "rpcuser": "u", "rpcpassword": "p", "check_updates": False}, file)
        none, names = asyncio.subprocess.DEVNULL, {**os.environ, "PYTHONPATH": "", "LD_LIBRARY_PATH": ""}
        words = [ELECTRUM, "--regtest", "-D", folder.name, "daemon", "--oneserver", "--server", f"127.0.0.1:{self.port}:t"]
        self.process = await asyncio.create_subprocess_exec(*words, stdin=none, stdout=none, stderr=none, env=names)

    async def asyncTearDown(self):
        self.process.kill()
        await self.process.wait()
        await super().asyncTearDown()

    async def says(self, method, **words):
        return await asyncio.to_thread(self.asked, method, words)

    def asked(self, method, words):
        head = {"Authorization": "Basic " + base64.b64encode(b"u:p").decode()}
        body = json.dumps({"jsonrpc": "2.0", "id": 1, "method": method, "params": words}).encode()
        with urllib.request.urlopen(urllib.request.Request(f"http://127.0.0.1:{self.rpc}", body, head), timeout=60) as answer:
            found = json.load(answer)
        self.assertIn("result", found, found)
        return found["result"]

    async def waited(self, expected, method, **words):
        """Waits until this is answered."""
        end, found = time.monotonic() + 60, None
        while time.monotonic() < end:
            try:
                found = await self.says(method, **words)
            except OSError:
                pass  # It doesn't answer yet.
            if found == expected:
                return
            await asyncio.sleep(0.1)
        self.assertEqual(found, expected)

    async def test_a_wallet(self):
        await self.waited([], "list_wallets")
        await self.says("create", seed_type="standard")
        await self.says("load_wallet")
        self.miner.fund(await self.says("getunusedaddress"), 700_000_000)
        self.electrum.changed()
        await self.waited({"confirmed": "7"}, "getbalance")
        data = await self.says("payto", destination=ADDRESS, amount="2", fee="0.0001")
        id = await self.says("broadcast", tx=data)
        (waits,) = [entry.tx for entry in self.electrum.scripts.pool]
        self.assertEqual((show(waits.id), 200_000_000 in [it.value for it in waits.outputs]), (id, True))
        await self.waited({"confirmed": "4.9999"}, "getbalance")
        await self.waited({"confirmations": 0}, "get_tx_status", txid=id)
        self.mine(1, ANYONE, [waits])
        await self.waited({"confirmations": 1}, "get_tx_status", txid=id)
        # By another branch it waits again.
        self.miner.reorg(1)
        self.electrum.changed()
        await self.waited({"confirmations": 0}, "get_tx_status", txid=id)
        await self.waited({"confirmed": "4.9999"}, "getbalance")


if __name__ == "__main__":
    unittest.main()
