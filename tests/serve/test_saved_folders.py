"""What a served node saves and loads, and how it ends."""
from __future__ import annotations

import os
import shutil
import subprocess
import sys
import time
from subprocess import PIPE

import running
from running import ProgramTest
from serving import GENESIS, Names, Served, play, request

DEFINITIONS = "block b1 genesis\nblock p2 b1\nblock q2 b1\nblock q3 q2\n"
FILES = ("journal.txt", "blocks.blk", "table.txt", "heights.txt")
NOW = 1_296_688_602


class Folders(ProgramTest):
    def setUp(self) -> None:
        super().setUp()
        self.names = Names(self.folder, DEFINITIONS)
        self.make_folder("saved")

    def submit(self, served: Served, name: str, seat: int) -> str:
        answer: str = served.ask("submit", seat=seat, block=self.names.data[name].hex(), now=NOW)["answer"]
        return answer

    def files(self, folder: str) -> list[bytes]:
        return [self.read_bytes(f"{folder}/{name}") for name in FILES]

    def line(self, step: int, client: str, name: str, reply: str) -> str:
        return f"{step} {client} submit {self.names.ids[name]} {NOW} = {reply}\n"

    def expect_agrees(self, folder: str) -> None:
        self.expect(["audit", "--saved", folder], "", running.Played(0, "agrees\n", ""))

    def save_two(self) -> None:
        """Two blocks, by two seats, saved."""
        served = Served(self.folder, "--seats", "2", "--save", "saved", "--heights", "1,2,3,4")
        self.addCleanup(served.kill)
        self.assertEqual(self.submit(served, "b1", 0), "accepted")
        self.assertEqual(self.submit(served, "p2", 1), "accepted")
        self.assertEqual(served.end(), (0, ""))

    def test_what_is_saved(self) -> None:
        self.save_two()
        first, second = self.line(1, "seat0", "b1", "accepted"), self.line(2, "seat1", "p2", "accepted")
        self.assertEqual(self.read("saved/journal.txt"), first + second)
        self.assertEqual((self.read("saved/heights.txt"), self.read("saved/table.txt")), ("1,2,3,4\n", ""))
        self.expect_agrees("saved")

    def test_it_goes_on_where_it_was(self) -> None:
        """A folder that is loaded and saved again: the same history, with its clients, goes on."""
        self.save_two()
        before = self.files("saved")
        served = Served(self.folder, "--seats", "3", "--load", "saved", "--save", "saved")
        self.addCleanup(served.kill)
        info = served.ask("info")
        self.assertEqual(info["loaded"], 2)
        self.assertEqual(info["heights"], {"bip34": 1, "bip65": 2, "bip66": 3, "csv": 4})
        best = served.ask("getbestblockhash", seat=2)
        self.assertEqual(best, {"at": 2, "answer": {"hash": self.names.ids["p2"]}})
        self.assertEqual(self.submit(served, "q2", 2), "inconclusive")
        self.assertEqual(served.end(), (0, ""))
        after = self.files("saved")
        more = self.line(3, "seat2", "q2", "inconclusive").encode()
        self.assertEqual(after[0], before[0] + more)
        self.assertTrue(after[1].startswith(before[1]))
        self.assertEqual(after[2:], before[2:])
        self.expect_agrees("saved")

    def test_a_fork_by_name(self) -> None:
        """A soft fork that is set by name: in `info`, in the folder by its own name, and again when that is loaded."""
        told = {"bip34": 1, "bip65": 2, "bip66": 3, "csv": 4, "nulldummy": 5}
        for words in (["--heights", "1,2,3,4,bip147@5"], ["--load", "saved"]):
            served = Served(self.folder, *words, "--save", "saved")
            self.addCleanup(served.kill)
            self.assertEqual(served.ask("info")["heights"], told)
            self.assertEqual(served.end(), (0, ""))
            self.assertEqual(self.read("saved/heights.txt"), "1,2,3,4,nulldummy@5\n")

    def test_it_is_killed_between(self) -> None:
        """A node that loads a folder to save there, and is killed: the folder is as it was, and is loaded again."""
        self.save_two()
        before = self.files("saved")
        served = Served(self.folder, "--load", "saved", "--save", "saved")
        self.assertEqual(self.submit(served, "q2", 0), "inconclusive")
        served.kill()
        self.assertEqual((self.files("saved"), sorted(os.listdir(self.path("saved")))), (before, sorted([*FILES, "lock"])))
        served = Served(self.folder, "--load", "saved", "--save", "saved")
        self.addCleanup(served.kill)
        self.assertEqual(served.ask("note", seat=1), {"at": 0})
        self.assertEqual(self.submit(served, "q2", 0), "inconclusive")
        self.assertEqual(self.submit(served, "q3", 1), "accepted")
        self.assertEqual(served.end(), (0, ""))
        self.expect_agrees("saved")

    def test_a_load_that_differs(self) -> None:
        """A recorded reply that the node doesn't give: a fault line, and nothing is served or saved."""
        self.save_two()
        journal = self.read("saved/journal.txt")
        self.write("saved/journal.txt", journal.replace("= accepted\n2", "= inconclusive\n2"))
        before = self.files("saved")
        ended = play(self.folder, request(1, "note", seat=0), "--load", "saved", "--save", "saved")
        line = "regchain: journal line 1\njournal line 1: the node replies accepted\n"
        self.assertEqual((ended.out, ended.err, ended.status), (b"", line, 1))
        self.assertEqual(self.files("saved"), before)
        # An owed reply agrees with any.
        self.write("saved/journal.txt", journal.replace("= accepted\n2", "= owed\n2"))
        ended = play(self.folder, request(1, "note", seat=0), "--load", "saved")
        self.assertEqual(ended.answers, [{"jsonrpc": "2.0", "id": 1, "result": {"at": 2}}])

    def test_faults_before_the_first_request(self) -> None:
        self.save_two()
        self.write("table", "x\n")
        why = "it is no key, signature and digest of 64 digits, in lower-case hexadecimal digits or -"
        for words, err in [
            (["--load", "none"], "regchain: cannot read none/journal.txt\ncannot read none/journal.txt: No such file or directory\n"),
            (["--save", "none"], "regchain: cannot write none/journal.txt\ncannot write none/journal.txt: No such file or directory\n"),
            (["--table", "table"], f"regchain: table line 1\ntable line 1: {why}\n"),
            (["--heights", "1"], "regchain: heights\nheights: they are four numbers from 0 to 4294967295, parted by commas\n"),
            (["--blk", "table"], "regchain: blk stopped at 0\nblk stopped at 0: there is neither a record nor a rest of zero bytes\n"),
        ]:
            with self.subTest(words=words):
                ended = play(self.folder, request(1, "note", seat=0), *words)
                self.assertEqual((ended.out, ended.err, ended.status), (b"", err, 1))
        for words in (["--seats", "0"], ["--seats", "17"], ["--workers", "17"], ["--load", "saved", "--heights", "1,1,1,1"]):
            with self.subTest(words=words):
                ended = play(self.folder, b"", *words)
                self.assertEqual((ended.out, ended.status), (b"", 1))
                self.assertIn("error: ", ended.err)

    def test_finish(self) -> None:
        """It is answered last, with the number of steps, when all is saved; what comes behind it isn't read."""
        blocks = [request(name, "submit", seat=place % 2, block=self.names.data[name].hex(), now=NOW) for place, name in enumerate(["b1", "q2"])]
        data = b"".join(blocks) + request("end", "finish") + request("more", "note", seat=0)
        ended = play(self.folder, data, "--seats", "2", "--save", "saved")
        self.assertEqual((ended.status, ended.err, len(ended.answers)), (0, "", 3))
        steps = len(self.read("saved/journal.txt").splitlines())
        self.assertEqual(ended.answers[-1], {"jsonrpc": "2.0", "id": "end", "result": {"at": steps}})
        self.expect_agrees("saved")

    def test_finish_that_cannot_save(self) -> None:
        served = Served(self.folder, "--save", "saved")
        self.addCleanup(served.kill)
        self.assertEqual(self.submit(served, "b1", 0), "accepted")
        shutil.rmtree(self.path("saved"))
        error = {"code": -32004, "message": "not saved"}
        self.assertEqual(served.answer("finish")["error"], error)
        why = "cannot write saved/journal.txt"
        self.assertEqual(served.end(), (1, f"regchain: {why}\n{why}: No such file or directory\n"))

    def test_an_output_that_closes(self) -> None:
        """As for a run: what was begun is taken and saved, and the fault is told."""
        served = subprocess.Popen(
            [running.PROGRAM, "serve", "--save", "saved"], cwd=self.folder, stdin=PIPE, stdout=PIPE, stderr=PIPE
        )
        assert served.stdout
        served.stdout.close()
        _, err = served.communicate(request(1, "submit", seat=0, block=self.names.data["b1"].hex(), now=NOW), running.SECONDS)
        self.assertEqual(err, b"regchain: cannot write -\ncannot write -: Broken pipe\n")
        self.assertEqual(served.returncode, 1)
        self.assertEqual(self.read("saved/journal.txt"), self.line(1, "seat0", "b1", "accepted"))
        self.expect_agrees("saved")

    def test_a_client_that_is_killed(self) -> None:
        """The client that started it is killed amid its requests: the node ends, and what it saves is whole."""
        line = request(1, "submit", seat=0, block=self.names.data["b1"].hex(), now=NOW).decode()
        client = (
            "import os, signal, subprocess, sys\n"
            "p = subprocess.Popen([sys.argv[1], 'serve', '--save', 'saved'], stdin=-1, stdout=-1)\n"
            "print(p.pid, flush=True)\n"
            f"p.stdin.write({line!r}.encode()); p.stdin.flush(); p.stdout.readline()\n"
            f"p.stdin.write({line!r}.encode() * 1000 + b'{{\"cut'); p.stdin.flush()\n"
            "os.kill(os.getpid(), signal.SIGKILL)\n"
        )
        ended = subprocess.run([sys.executable, "-c", client, running.PROGRAM], cwd=self.folder, stdout=PIPE, stderr=PIPE, timeout=60)
        self.assertEqual(ended.returncode, -9)
        wait_for_end(int(ended.stdout))
        self.assertEqual(sorted(os.listdir(self.path("saved"))), sorted([*FILES, "lock"]))
        self.assertTrue(self.read("saved/journal.txt").startswith(self.line(1, "seat0", "b1", "accepted")))
        self.expect_agrees("saved")

    def test_blocks_of_a_blk_file(self) -> None:
        """They are submitted before the first request, by the client `blk`."""
        self.save_two()
        ended = play(self.folder, request(1, "journal", seat=1, **{"from": 1, "to": 9}), "--blk", "saved/blocks.blk")
        told = [(it["step"], it["client"], it["command"], it["block"], it["now"], it["reply"]) for it in ended.answers[0]["result"]["answer"]]
        last = 2**32 - 1
        ids = self.names.ids
        self.assertEqual(told, [(1, "blk", "submit", ids["b1"], last, "accepted"), (2, "blk", "submit", ids["p2"], last, "accepted")])
        self.assertEqual((ended.status, ended.err), (0, ""))

    def test_what_a_seat_hears(self) -> None:
        """A seat that reads nothing has seen nothing, until it is told."""
        served = Served(self.folder, "--seats", "3")
        self.addCleanup(served.kill)
        self.submit(served, "b1", 0)
        self.assertEqual([served.ask("note", seat=seat)["at"] for seat in range(3)], [1, 0, 0])
        self.assertEqual(served.ask("told", seat=1, **{"from": 2}), {"at": 0})
        self.assertEqual(served.ask("told", seat=1, **{"from": 0}), {"at": 1})
        self.assertEqual(served.ask("told", seat=2, **{"from": 1}), {"at": 1})
        self.assertEqual(served.ask("told", seat=2, **{"from": 2}), {"at": 1})
        self.assertEqual(served.ask("getbestblockhash", seat=2), {"at": 1, "answer": {"hash": self.names.ids["b1"]}})
        self.assertEqual(served.ask("invalidate", seat=2, id=GENESIS), {"at": 2, "answer": "genesis"})
        self.assertEqual(served.end(), (0, ""))


def wait_for_end(pid: int) -> None:
    """Waits for a process that isn't a child."""
    for _ in range(600):
        try:
            with open(f"/proc/{pid}/stat", encoding="latin-1") as file:
                if file.read().rsplit(")", 1)[1].split()[0] == "Z":
                    return
        except OSError:
            return
        time.sleep(0.05)
    raise AssertionError("it doesn't end")
