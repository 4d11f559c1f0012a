"""SIGTERM and SIGINT, once and twice, at many moments: the server ends within a second, in order, and says nothing."""

import os
import random
import signal
import subprocess
import sys
import threading
import time
import unittest

import test_datadir
from servers import PROGRAM
from wakotehu import read_id
from wakotehu.addresses import spelled
from wakotehu.encoding import Input, Output, Transaction, write_transaction

#: How long the end may take, in seconds: of a server that is busy, on a machine that may be.
END = 1.0
TERM, INT = signal.SIGTERM, signal.SIGINT
#: A key of the curve: its generator.
KEY = "0279be667ef9dcbbac55a06295ce870b07029bfcdb2dce28d959f2815b16f81798"


class StopTest(test_datadir.FolderCase):
    def ended(self, server, *signals, pause=0.0):
        """How long the server takes to end after these signals, which leave nothing behind."""
        began = time.monotonic()
        for number in signals:
            server.process.send_signal(number)
            time.sleep(pause)
        told = server.process.communicate(timeout=60)
        taken = time.monotonic() - began
        self.assertEqual((server.process.returncode, *told), (0, "", ""))
        self.assertFalse(os.path.exists(server.cookie))
        return taken

    def busy(self, server, method, *params):
        """Has a connection make a call that takes long."""
        thread = threading.Thread(target=self.asked, args=(server, method, *params), daemon=True)
        thread.start()
        self.addCleanup(thread.join, 10)
        time.sleep(0.7)
        self.assertTrue(thread.is_alive(), "the call was too short")

    def asked(self, server, method, *params):
        try:
            server.call(method, *params)
        except (OSError, ValueError):
            pass  # The connection was closed, or what came was cut short.

    def test_amid_long_calls(self):
        """Once, and as `timeout` of GNU does it, which sends two."""
        many = [f"raw({place:08x})" for place in range(600_000)]
        for method, params in (
            ("generatetoaddress", (30_000, spelled(196, bytes(20)))), ("waitforblock", ("11" * 32,)), ("waitfornewblock", ()),
            ("waitforblockheight", (10**6, 60_000)), ("scantxoutset", ("start", many)), ("getdescriptorinfo", (f"multi(1{f',{KEY}' * 400_000})",)),
        ):  # fmt: skip
            for signals in ((TERM,), (TERM, TERM), (INT, TERM)):
                with self.subTest(f"{method} {len(signals)}"):
                    server = self.started()
                    try:
                        self.busy(server, method, *params)
                        self.assertLess(self.ended(server, *signals), END)
                    finally:
                        server.process.kill()
        # Each block that was told of is there, and the next one comes on it.
        server = self.started()
        self.assertGreater(server.call("getblockcount"), 10)

    def test_while_others_wait_to_make_blocks(self):
        server = self.started()
        for _ in range(3):
            self.busy(server, "generatetodescriptor", 30_000, "raw(51)")
        self.assertLess(self.ended(server, TERM, INT, TERM), END)

    def test_after_stop(self):
        """A server that answers some time longer."""
        server = self.started()
        server.call("stop", 60_000)
        self.assertLess(self.ended(server, INT), END)

    def test_while_a_history_is_taken_again(self):
        server = self.started()
        server.call("generatetodescriptor", 3000, "raw(51)")
        self.ended(server, TERM)
        chance = random.Random(7)
        for number in range(12):
            process = self.command()
            # A signal before the command's first step ends it as any other program.
            while not self.has_begun(process) and process.poll() is None:
                time.sleep(0.005)
            time.sleep(chance.random() * 0.4)
            began = time.monotonic()
            process.send_signal((TERM, INT)[number % 2])
            process.send_signal(TERM)
            told = process.communicate(timeout=60)
            self.assertLess(time.monotonic() - began, END)
            self.assertEqual((process.returncode, told[1]), (0, ""))
        self.assertEqual(self.started().call("getblockcount"), 3000)

    def test_while_what_waited_is_judged_again(self):
        """The file of what waits stays as it is, until a server has looked at all of it."""
        server, count = self.started(), 5000
        server.call("generatetodescriptor", 101, "raw(51)")
        coin = read_id(server.call("getblock", server.call("getblockhash", 1))["tx"][0])
        fan = Transaction(1, [Input(coin, 0, b"", 0)], [Output(1000, b"\x51")] * count, 0)
        server.call("generateblock", "raw(51)", [write_transaction(fan).hex()])
        spends = (Transaction(1, [Input(fan.id, place, b"", 0)], [Output(0, b"\x51")], 0) for place in range(count))
        sent = [write_transaction(tx).hex() for tx in spends]
        for begin in range(0, count, 500):
            server.call_each("sendrawtransaction", sent[begin : begin + 500])
        self.assertLess(self.ended(server, TERM), END)
        path = os.path.join(self.folder, "mempool.dat")
        size = os.path.getsize(path)
        chance = random.Random(9)
        for number in range(4):
            process = self.command()
            # It says this before it judges what waited.
            self.assertIn("were taken again", process.stdout.readline())
            time.sleep(chance.random() * 0.5)
            began = time.monotonic()
            for signals in (TERM, INT)[number % 2 :]:
                process.send_signal(signals)
            told = process.communicate(timeout=60)
            self.assertLess(time.monotonic() - began, END)
            self.assertEqual((process.returncode, *told, os.path.getsize(path)), (0, "", "", size))
        self.assertEqual(self.started().call("getmempoolinfo")["size"], count)

    @staticmethod
    def has_begun(process):
        """Whether the server's node runs."""
        try:
            with open(f"/proc/{process.pid}/task/{process.pid}/children", encoding="ascii") as file:
                return bool(file.read())
        except OSError:
            return False

    def command(self):
        process = subprocess.Popen(
            [sys.executable, "-m", "wakotehu.server", "-rpcport=0", f"-datadir={self.folder}"], stdout=subprocess.PIPE,
            stderr=subprocess.PIPE, text=True, env={**os.environ, "WAKOTEHU_PROGRAM": PROGRAM},
        )  # fmt: skip
        self.addCleanup(process.kill)
        return process

    def test_a_second_one_at_many_moments(self):
        """From the first one on until the process is gone."""
        chance = random.Random(8)
        for number in range(25):
            server = self.started()
            self.busy_for_a_while(server)
            server.process.send_signal(TERM)
            for _ in range(12):
                time.sleep(chance.random() * 0.06)
                server.process.send_signal((TERM, INT)[chance.randrange(2)])
            with self.subTest(number):
                self.assertLess(self.ended(server, TERM), END)

    def busy_for_a_while(self, server):
        threading.Thread(target=self.asked, args=(server, "generatetodescriptor", 20_000, "raw(51)"), daemon=True).start()


if __name__ == "__main__":
    unittest.main()
