"""`wakotehu-server -replica`: the calls of the server's own tests over a replica, and two servers with one history; `Pool` at a
replica's seats."""
from __future__ import annotations

import json
import os
import signal
import socket
import subprocess
import sys
import time
import unittest
import uuid
from urllib.request import Request, urlopen

import psycopg
import running
from blocks import NOW, Maker, block_id, signed, spend, with_script
from cases import HERE, ReplicaTest
from database import Database
from servers import Running
from wakotehu import show
from wakotehu.encoding import push, write_transaction

try:
    import test_mempool
    import test_pool_seats
    import test_rpc
    from test_pool import spends
    from wakotehu import Pool, consensus
    from wakotehu.replicabench import ReplicaBench
    from wakotehu.signatures import Secp256k1

    SECP = Secp256k1()

    consensus.library()
    LACKS = ""
except Exception as error:
    LACKS = f"the library for C isn't built (ffi/build): {error}"


def over_a_replica(*words, **more):
    """A server over a replica with a history of its own."""
    url = Database.shared().make(f"server{next(ReplicaTest._numbers)}")
    return Running(ReplicaBench(url, program=running.PROGRAM), *words, **more)


if not LACKS:
    for case in (
        test_rpc.FaultsTest, test_rpc.RequestsTest, test_rpc.SubmitTest, test_rpc.MarksTest, test_rpc.ShownTest,
        test_mempool.RulesTest, test_mempool.RulesOnStagesTest,
    ):  # fmt: skip
        name = f"{case.__name__}OverAReplica"
        globals()[name] = type(name, (case,), {"start": staticmethod(over_a_replica), "__module__": __name__})
    del case

    def replica(heights):
        """The seats of a replica with a history of its own."""
        url = Database.shared().make(f"pool{next(ReplicaTest._numbers)}", heights=heights)
        return ReplicaBench(url, program=running.PROGRAM)

    class PoolsAtReplicas(test_pool_seats.AtSeats):
        opened = staticmethod(replica)

        def test_another_machine(self):
            """What a block of another machine has waits no more."""
            with ReplicaBench(self.bench.own.replica.url, program=running.PROGRAM) as other:
                tx, far = write_transaction(spends(self.coins[0])), Pool(other)
                self.pool.add(tx)
                far.add(tx)
                self.assertEqual(len(far.mine()), 1)
                until = time.monotonic() + 20
                while len(self.pool) and time.monotonic() < until:
                    time.sleep(0.05)
                self.assertEqual((len(self.pool), len(far)), (0, 0))

    globals().update(test_pool_seats.over(PoolsAtReplicas, "AtReplicas"))


@unittest.skipIf(LACKS, LACKS)
class TwoServers(ReplicaTest):
    def started(self):
        server = Running(ReplicaBench(self.url, program=running.PROGRAM))
        self.addCleanup(server.stop)
        return server

    def test_one_history(self) -> None:
        """What is mined at one server is the other's chain, and a call that waits there hears of it."""
        self.history()
        one, two = self.started(), self.started()
        mined = one.call("generatetodescriptor", 5, "raw(51)")
        self.until(lambda: two.call("getblockcount") == 5)
        self.assertEqual((two.call("getbestblockhash"), two.call("getblock", mined[2])["height"]), (mined[-1], 3))
        self.assertEqual(two.call("gettxoutsetinfo")["txouts"], 5)
        self.assertIsNone(two.call("invalidateblock", mined[3]))
        self.until(lambda: one.call("getblockcount") == 3)
        more = two.call("generatetodescriptor", 2, "raw(51)")
        self.until(lambda: one.call("getbestblockhash") == more[-1])
        # Both are of height 5, and the invalid one came first.
        self.assertEqual([tip["status"] for tip in one.call("getchaintips")], ["invalid", "active"])
        # One that opens later knows all of it.
        three = self.started()
        self.assertEqual((three.call("getbestblockhash"), three.call("getblockhash", 2)), (more[-1], mined[1]))

    def test_what_waits(self) -> None:
        """At each server by itself, with real signatures: a block of one takes it away at the other."""
        self.history(by_need=True)
        one, two = self.started(), self.started()
        secret = bytes([5]) * 32
        maker = Maker(push(SECP.public_key(secret)) + b"\xac")
        for block in maker.chain(102):
            self.assertIsNone(one.call("submitblock", block.hex()))
        coin = maker.coinbases[next(iter(maker.coinbases))].id
        tx = spend(coin, 0, 10**8, b"")
        wrong, right = (with_script(tx, 0, *signed(SECP, [key], tx, 0, maker.script)) for key in (bytes([6]) * 32, secret))
        self.until(lambda: two.call("getblockcount") == 102)
        for server in (one, two):
            self.assertEqual(server.call("sendrawtransaction", write_transaction(wrong).hex(), 0)["code"], -26)
            self.assertEqual(server.call("sendrawtransaction", write_transaction(right).hex(), 0), show(right.id))
        [mined] = one.call("generatetodescriptor", 1, "raw(51)")
        self.assertEqual(one.call("getblock", mined)["tx"][1:], [show(right.id)])
        self.until(lambda: two.call("getblockcount") == 103)
        self.assertEqual((one.call("getrawmempool"), two.call("getrawmempool")), ([], []))
        two.call("invalidateblock", mined)
        self.until(lambda: one.call("getblockcount") == 102)
        self.assertEqual((one.call("getrawmempool"), two.call("getrawmempool")), ([show(right.id)],) * 2)

    def test_a_long_history(self) -> None:
        """More rows than are read one after the other: each block is known, and the last one is the best."""
        self.history()
        chain = self.chain(1100)
        with psycopg.connect(self.url, autocommit=True) as connection:
            rows = [(place, uuid.uuid4(), block, NOW) for place, block in enumerate(chain, 1)]
            connection.cursor().executemany("INSERT INTO wakotehu.commands VALUES (%s, %s, 'gone_0', 'submit', %s, %s)", rows)
            connection.execute("INSERT INTO wakotehu.replies SELECT place, 'accepted', '', 'gone' FROM wakotehu.commands")
        server = self.started()
        self.assertEqual(server.call("getbestblockhash"), show(block_id(chain[-1])))
        self.assertEqual(server.call("getblockhash", 700), show(block_id(chain[699])))

    def test_the_command(self) -> None:
        self.history()
        environment = {**os.environ, "PYTHONPATH": os.path.join(HERE, "../../ffi/python"), "WAKOTEHU_PROGRAM": running.PROGRAM}
        words = [sys.executable, "-m", "wakotehu.server", f"-replica={self.url}", "-rpcport=0", "-no-auth"]
        for more in (f"-datadir={self.room}", "-table=/dev/null", "-testactivationheight=csv@3"):
            ended = subprocess.run([*words, more], capture_output=True, text=True, env=environment, timeout=60)
            self.assertEqual(ended.returncode, 2)
            self.assertIn("-replica has its commands", ended.stderr)
        process = subprocess.Popen(words, stdout=subprocess.PIPE, stderr=subprocess.PIPE, text=True, env=environment)
        self.addCleanup(process.kill)
        assert process.stdout is not None
        line = process.stdout.readline()
        self.assertRegex(line, r"^127\.0\.0\.1:\d+$", process.poll())
        request = Request(f"http://{line.strip()}/", b'{"method":"getblockcount"}', {"Content-Type": "application/json"})
        with urlopen(request, timeout=60) as answer:
            self.assertEqual(json.load(answer)["result"], 0)
        # It ends at once, whatever it does.
        body = b'{"method":"generatetodescriptor","params":[30000,"raw(51)"]}'
        with socket.create_connection(("127.0.0.1", int(line.rpartition(":")[2])), 60) as connection:
            connection.sendall(b"POST / HTTP/1.1\r\nHost: 127.0.0.1\r\nContent-Length: %d\r\n\r\n%b" % (len(body), body))
            time.sleep(0.5)
            began = time.monotonic()
            for number in (signal.SIGTERM, signal.SIGINT):
                process.send_signal(number)
            self.assertEqual((process.communicate(timeout=60)[1], process.returncode), ("", 0))
        self.assertLess(time.monotonic() - began, 2)


if __name__ == "__main__":
    unittest.main()
