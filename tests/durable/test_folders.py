"""Folders that are taken, full, read-only or of another setting, and disks that fail."""
from __future__ import annotations

import json
import os
import shutil
import subprocess
import tempfile
import time
import unittest
from typing import Any

import blocks
import running
from keeping import GENESIS, NOW, Client, Keeping, KeepingTest, os_environment
from serving import Served
from test_torn_ends import COMMANDS, batch

HERE = os.path.dirname(os.path.realpath(__file__))


class Folders(KeepingTest):
    def test_two_processes(self) -> None:
        """A folder has one node; the second is refused, and disturbs nothing."""
        first = Served(self.folder, "--datadir", "data")
        self.addCleanup(first.kill)
        first.ask("invalidate", seat=0, id=GENESIS)
        ended = self.serve(b"")
        self.assertEqual(ended.returncode, 1)
        self.assertEqual(ended.stderr.decode(), "regchain: cannot write data/lock\ncannot write data/lock: another process has the folder\n")
        self.assertEqual(first.ask("invalidate", seat=0, id=GENESIS)["at"], 2)
        self.assertEqual(first.end(), (0, ""))
        self.assertEqual(len(self.history()), 2)

    def test_two_savers(self) -> None:
        """So it is with the folder of --save, whether it was loaded or not."""
        self.make_folder("saved")
        first = Served(self.folder, "--save", "saved")
        self.addCleanup(first.kill)
        first.ask("invalidate", seat=0, id=GENESIS)
        for words in (["--save", "saved"], ["--load", "saved", "--save", "saved"]):
            ended = subprocess.run([running.PROGRAM, "serve", *words], cwd=self.folder, input=b"", capture_output=True)
            self.assertEqual(ended.returncode, 1, words)
            self.assertIn(b"another process has the folder", ended.stderr)
        self.assertEqual(first.end(), (0, ""))
        self.assertEqual(self.read("saved/journal.txt"), f"1 seat0 invalidate {GENESIS} = genesis\n")

    def test_no_history_in_the_place_of_one(self) -> None:
        self.make_folder("saved")
        played = subprocess.run([running.PROGRAM, "serve", "--save", "saved"], cwd=self.folder, input=batch(COMMANDS), capture_output=True)
        self.assertEqual(played.returncode, 0)
        before = self.read_bytes("saved/journal.txt")
        played = subprocess.run([running.PROGRAM, "serve", "--save", "saved"], cwd=self.folder, input=b"", capture_output=True)
        self.assertEqual(played.returncode, 1)
        self.assertIn(b"cannot write saved/journal.txt: there is a history", played.stderr)
        self.assertEqual(self.read_bytes("saved/journal.txt"), before)

    def test_other_setting(self) -> None:
        self.assertEqual(self.serve(b"", "--heights", "1,2,3,4").returncode, 0)
        self.assertEqual(self.serve(b"", "--heights", "1,2,3,4").returncode, 0)
        self.assertEqual(self.serve(b"").returncode, 0)
        ended = self.serve(b"", "--heights", "1,2,3,5")
        self.assertEqual((ended.returncode, ended.stderr.splitlines()[0]), (1, b"regchain: cannot read data/heights.txt"))
        ended = self.serve(b"", "--heights", "1,2,3,4,nulldummy@0")
        self.assertEqual((ended.returncode, ended.stderr.splitlines()[0]), (1, b"regchain: cannot read data/heights.txt"))
        self.write("table", "aa 3006020101020101 " + "0" * 64 + "\n")
        ended = self.serve(b"", "--table", "table")
        self.assertEqual((ended.returncode, ended.stderr.splitlines()[0]), (1, b"regchain: cannot read data/table.txt"))

    @unittest.skipIf(os.geteuid() == 0 and not shutil.which("setpriv"), "root may write everywhere")
    def test_no_permission(self) -> None:
        """A folder in which nothing may be written is refused before the first request."""
        self.make_folder("data")
        os.chmod(self.path("data"), 0o555)
        os.chmod(self.folder, 0o755)
        words = [running.PROGRAM, "serve", "--datadir", "data"]
        if os.geteuid() == 0:
            words = ["setpriv", "--reuid=65534", "--regid=65534", "--clear-groups", *words]
        ended = subprocess.run(words, cwd=self.folder, input=batch(COMMANDS), capture_output=True)
        self.assertEqual((ended.returncode, ended.stdout), (1, b""))
        self.assertEqual(ended.stderr.splitlines()[0], b"regchain: cannot write data/lock")

    def test_too_long_a_block(self) -> None:
        """A block that no record can hold is refused, and is no step."""
        longest = bytes(33_554_432).hex()
        served = Served(self.folder, "--datadir", "data")
        self.addCleanup(served.kill)
        answer = served.answer("submit", seat=0, block=longest + "00", now=NOW)
        self.assertEqual(answer["error"], {"code": -32602, "message": "invalid params", "data": "block"})
        self.assertEqual(served.ask("submit", seat=0, block=longest, now=NOW)["answer"], "decode-failed")
        self.assertEqual(served.ask("note", seat=0)["at"], 0)
        self.assertEqual(served.end(), (0, ""))


class Disks(KeepingTest):
    """Disks that fail, by a library under the program."""

    library: str

    @classmethod
    def setUpClass(cls) -> None:
        room = tempfile.TemporaryDirectory(prefix="regchain-")
        cls.addClassCleanup(room.cleanup)
        cls.library = os.path.join(room.name, "disk.so")
        subprocess.run(["cc", "-O1", "-shared", "-fPIC", "-o", cls.library, os.path.join(HERE, "disk.c"), "-ldl"], check=True)

    def played(self, **more: str) -> tuple[int, list[dict[str, Any]], str]:
        """Serves the batch twice, a line at a time, until an answer doesn't come."""
        environment = os_environment(LD_PRELOAD=self.library, **more)
        process = subprocess.Popen(
            [running.PROGRAM, "serve", "--datadir", "data"], cwd=self.folder, env=environment,
            stdin=subprocess.PIPE, stdout=subprocess.PIPE, stderr=subprocess.PIPE,
        )  # fmt: skip
        assert process.stdin and process.stdout and process.stderr
        answers = []
        for line in batch(COMMANDS + COMMANDS).splitlines(keepends=True):
            try:
                process.stdin.write(line)
                process.stdin.flush()
            except BrokenPipeError:
                break
            answer = process.stdout.readline()
            if not answer:
                break
            answers.append(json.loads(answer))
            if "result" not in answers[-1]:
                break
        try:
            process.stdin.close()
        except BrokenPipeError:
            pass
        err = process.stderr.read().decode()
        for stream in (process.stdout, process.stderr):
            stream.close()
        return process.wait(running.SECONDS), answers, err

    def test_each_call_fails(self) -> None:
        """Each call that changes the disk fails in turn, or does half of its work: no answer goes out then, the process ends by
        a fault, and the next one has what was answered."""
        for how in ("FAIL_AT", "CUT_AT", "FAIL_ALL"):
            for number in range(1, 100):
                shutil.rmtree(self.path("data"), ignore_errors=True)
                status, answers, err = self.played(**{how: str(number)})
                if status == 0:
                    # There are fewer calls: each of 8 steps is a write and a sync.
                    self.assertGreater(number, 16)
                    break
                self.assertEqual(status, 1, (how, number, err))
                self.assertRegex(err, r"\Aregchain: cannot (write|read) (data/\S+|history\.log)\n", (how, number))
                told = [it for it in answers if "result" in it]
                for it in answers[len(told) :]:
                    self.assertEqual(it, {"jsonrpc": "2.0", "id": None, "error": {"code": -32004, "message": "not saved"}})
                steps = self.history()
                for it in told:
                    self.assertLessEqual(it["result"]["at"], len(steps))
                    self.assertEqual(steps[it["result"]["at"] - 1][3], it["result"]["answer"])

    def test_a_full_disk(self) -> None:
        """A disk that is really full, where one can be mounted."""
        self.make_folder("data")
        mounted = subprocess.run(
            ["mount", "-t", "tmpfs", "-o", "size=64k", "tmpfs", self.path("data")], capture_output=True
        )
        if mounted.returncode:
            self.skipTest("nothing can be mounted here")
        self.addCleanup(lambda: subprocess.run(["umount", "-l", self.path("data")]))
        clients = [Client(seat, seat, [(blocks.FIRST_ID, blocks.FIRST)]) for seat in range(16)]
        keeping = Keeping(self.folder, clients)
        keeping.run()
        until = time.monotonic() + running.SECONDS
        while not keeping.bad and time.monotonic() < until:
            time.sleep(0.01)
        status, err = keeping.end()
        self.assertEqual((status, err.splitlines()[0]), (1, "regchain: cannot write history.log"))
        self.assertEqual(keeping.bad, [b'{"jsonrpc":"2.0","id":null,"error":{"code":-32004,"message":"not saved"}}'])
        # Without room for what is to be cut nothing is, and with it all is there.
        log = self.read_bytes("data/history.log")
        if not log.endswith(b"\n"):
            ended = self.serve(b"")
            told = b"regchain: cannot write data/torn-1\ncannot write data/torn-1: No space left on device\n"
            self.assertEqual((ended.returncode, ended.stderr), (1, told))
        self.assertEqual((self.read_bytes("data/history.log"), self.exists("data/torn-1")), (log, False))
        subprocess.run(["mount", "-o", "remount,size=1m", self.path("data")], check=True)
        self.assertGreater(self.expect_kept(clients), 100)
