"""What a served node takes in before it has answered: a bound, whatever a client writes; and memory that doesn't grow."""
from __future__ import annotations

import fcntl
import os
import subprocess
import time
from subprocess import PIPE
from typing import Any

import running
from running import ProgramTest
from serving import GENESIS, Names, Served, double_sha, play, request
from test_lines import TOO_MANY

#: So many answers wait for being written, so many requests for their seat (docs/SERVE.md), and some are under way.
WAITING = 64 + 64 + 4
#: Two pipes, and what the program reads at once.
BYTES = 3 * 65_536


class Limits(ProgramTest):
    def test_a_client_that_reads_no_answer(self) -> None:
        """The program stops reading, and goes on when its answers are read: each request has one, in order."""
        served = subprocess.Popen([running.PROGRAM, "serve", "--seats", "1"], cwd=self.folder, stdin=PIPE, stdout=PIPE)
        self.addCleanup(served.kill)
        assert served.stdin and served.stdout
        number = served.stdin.fileno()
        fcntl.fcntl(number, fcntl.F_SETFL, os.O_NONBLOCK)
        lines = b"".join(request(n, "getbestblockhash", seat=0) for n in range(20_000))
        written, last = 0, time.monotonic()
        while time.monotonic() < last + 2:
            try:
                written += os.write(number, lines[written : written + 4096])
                last = time.monotonic()
            except BlockingIOError:
                time.sleep(0.05)
        self.assertLess(written, len(lines))
        # An answer is longer than its request.
        self.assertLessEqual(written, BYTES + WAITING * len(lines) // 20_000)
        os.set_blocking(number, True)
        for n in range(lines[:written].count(b"\n")):
            line = served.stdout.readline()
            want = f'{{"jsonrpc":"2.0","id":{n},"result":{{"at":0,"answer":{{"hash":"{GENESIS}"}}}}}}\n'
            self.assertEqual(line.decode(), want)
        # The line that was cut, or the next one.
        os.write(number, lines[written : lines.index(b"\n", written) + 1])
        served.stdin.close()
        self.assertEqual(served.stdout.read().count(b"\n"), 1)
        self.assertEqual(served.wait(running.SECONDS), 0)
        served.stdout.close()

    def allocations(self, id: str) -> int:
        """How many allocations a node makes which answers 100 steps and 100 refusals to requests of this id."""
        mark = request(id, "precious", seat=0, id=GENESIS)
        env = {"LD_PRELOAD": self.path("shim.so"), "REFUSE_AT": "0", "REFUSE_REPORT": self.path("report")}
        ended = play(self.folder, (mark + request(id, "none", seat=0)) * 100, "--seats", "1", env=env)
        self.assertEqual([it["id"] for it in ended.answers], [id] * 200)
        return int(self.read("report").split()[0])

    def test_room_for_an_answer(self) -> None:
        """Room for the line that answers a request is asked for at once, before its turn: an id that is written with many escapes, each
        of six bytes, takes no allocation more than one of as many letters."""
        source = os.path.join(running.ROOT, "tests", "refusals", "shim.c")
        subprocess.run(["cc", "-O2", "-shared", "-fPIC", "-o", self.path("shim.so"), source], check=True)
        plain, escaped = self.allocations("x" * 400), self.allocations("\1" * 400)
        self.assertLess(escaped, plain + 100)

    def test_memory_does_not_grow_with_answers(self) -> None:
        served = Served(self.folder, "--seats", "4")
        self.addCleanup(served.kill)

        def ask(count: int) -> None:
            for start in range(0, count, 40):
                begun = [served.begin("gettxout", seat=n % 4, txid=GENESIS, n=0) for n in range(start, start + 40)]
                for number in begun:
                    self.assertEqual(served.answer_of(number)["result"], {"at": 0, "answer": None})

        ask(4_000)
        before = resident(served.process.pid)
        ask(40_000)
        self.assertLess(resident(served.process.pid), before + 200)
        self.assertEqual(served.end(), (0, ""))

    def test_memory_of_a_line_of_many_values(self) -> None:
        """Lines of 69 MB: the node keeps little of each, and goes on."""
        served = Served(self.folder, "--seats", "1")
        self.addCleanup(served.kill)
        for front, again in [(b"[1", b",1"), (b"", b"["), (b'{"a":1', b',"a":1'), (b'["', b'","'), (b"", b'{"a":'), (b"", b",")]:
            with self.subTest(again=again):
                served.stdin.write(front + again * (69_000_000 // len(again)) + b"\n")
                self.assertEqual(served.answer_of(None)["error"], TOO_MANY)
                self.assertEqual(served.ask("note", seat=0), {"at": 0})
        self.assertLess(most_resident(served.process.pid), 16_384)
        self.assertEqual(served.end(), (0, ""))


#: So many requests of one seat, each of which takes much longer to answer than to read.
MANY = 200
#: So many steps each of them lists.
STEPS = 2_000


class Busy(ProgramTest):
    def flood(self, *words: str) -> tuple[Served, list[int], int]:
        """A node whose first seat has many requests to answer, and then the second seat one: their ids."""
        served = Served(self.folder, "--seats", "2", *words)
        self.addCleanup(served.kill)
        for _ in range(0, STEPS, 50):
            for number in served.begin_all([("invalidate", {"seat": 0, "id": GENESIS})] * 50):
                self.assertEqual(served.answer_of(number)["result"]["answer"], "genesis")
        journal = ("journal", {"seat": 0, "from": 1, "to": STEPS})
        *flood, other = served.begin_all([journal] * MANY + [("note", {"seat": 1})])
        return served, flood, other

    def test_a_seat_that_is_flooded(self) -> None:
        """With --busy the requests for which there is no room are refused by name, and no other seat waits."""
        served, flood, other = self.flood("--busy")
        self.assertEqual(served.answer_of(other)["result"], {"at": 0})
        # The first 64 are taken, whatever the seat has answered meanwhile; most aren't answered yet.
        self.assertTrue(served.answers[flood[63]].empty())
        answers = [served.answer_of(number) for number in flood]
        for answer in answers[:64]:
            self.assertEqual(len(answer["result"]["answer"]), STEPS)
        refused = [answer for answer in answers if "error" in answer]
        for answer in refused:
            self.assertEqual(answer["error"], {"code": -32005, "message": "busy"})
        self.assertGreater(len(refused), 0)
        for answer in answers:
            if "result" in answer:
                self.assertEqual(answer["result"]["at"], STEPS)
        self.assertEqual(served.ask("note", seat=0), {"at": STEPS})
        self.assertEqual(served.end(), (0, ""))

    def test_a_refused_step_is_not_taken(self) -> None:
        """As many steps are in the journal as were answered as such; each seat's places rise."""
        served, flood, _ = self.flood("--busy")
        steps = served.begin_all([("invalidate", {"seat": 0, "id": GENESIS})] * 200)
        for number in flood:
            served.answer_of(number)
        answers = [served.answer_of(number) for number in steps]
        taken = [answer["result"]["at"] for answer in answers if "result" in answer]
        self.assertEqual(taken, list(range(STEPS + 1, STEPS + 1 + len(taken))))
        self.assertEqual(served.answer("finish")["result"], {"at": STEPS + len(taken)})
        self.assertEqual(served.end(), (0, ""))

    def test_without_it_all_are_answered(self) -> None:
        """Requests that wait for room are all taken, in their order."""
        served, flood, other = self.flood()
        for number in flood:
            self.assertEqual(len(served.answer_of(number)["result"]["answer"]), STEPS)
        self.assertEqual(served.answer_of(other)["result"], {"at": 0})
        self.assertEqual(served.end(), (0, ""))

    def test_a_file_of_many_requests(self) -> None:
        """A thousand steps of one seat that are all there before it begins: each is taken, in order."""
        data = b"".join(request(n, "invalidate", seat=0, id=GENESIS) for n in range(1_000))
        ended = play(self.folder, data, "--seats", "2")
        self.assertEqual([(it["id"], it["result"]["at"]) for it in ended.answers], [(n, n + 1) for n in range(1_000)])
        self.assertEqual((ended.status, ended.err), (0, ""))


#: Three blocks; each submission that isn't kept is counted with some 300 bytes beside its block's.
BLOCKS = "block b1 genesis\nblock b2 b1\nblock b3 b2\n"
FULL = {"code": -32006, "message": "history-full"}
NOW = 1_296_688_602
#: Bytes of a script, in the coinbase of a large block.
LARGE = 400_000


class HistoryMemory(ProgramTest):
    def served(self, *words: str) -> Served:
        served = Served(self.folder, "--seats", "2", *words)
        self.addCleanup(served.kill)
        return served

    def submit(self, served: Served, data: bytes, seat: int = 0) -> dict[str, Any]:
        return served.answer("submit", seat=seat, block=data.hex(), now=NOW)

    def large_coinbase(self) -> bytes:
        coinbase = b"\1\0\0\0\1" + bytes(32) + b"\xff" * 4 + b"\2\x51\0" + b"\xff" * 4 + b"\1" + bytes(8)
        return coinbase + b"\xfe" + LARGE.to_bytes(4, "little") + bytes(LARGE) + bytes(4)

    def large_block(self) -> bytes:
        """A block on genesis, of many bytes."""
        coinbase = self.large_coinbase()
        begins = b"\4\0\0\0" + bytes.fromhex(GENESIS)[::-1] + double_sha(coinbase) + (NOW + 1).to_bytes(4, "little") + b"\xff\xff\x7f\x20"
        headers = (begins + nonce.to_bytes(4, "little") for nonce in range(100))
        return next(it for it in headers if double_sha(it)[31] < 0x7f) + b"\1" + coinbase

    def refused_block(self, version: int = 0) -> bytes:
        """A block that is refused for its header alone, of many bytes behind it."""
        # Regtest's target begins with a bit that isn't set.
        headers = (version.to_bytes(4, "little") + bytes(72) + nonce.to_bytes(4, "little") for nonce in range(100))
        return next(it for it in headers if double_sha(it)[31] >= 0x80) + b"\1" + self.large_coinbase()

    def test_submissions_that_are_not_kept(self) -> None:
        """Beyond the bound a submission that wouldn't be kept is no step; one that is goes on, and a mark does."""
        names = Names(self.folder, BLOCKS)
        served = self.served("--history-memory", "1")
        self.assertEqual(self.submit(served, names.data["b1"])["result"], {"at": 1, "answer": "accepted"})
        refused = self.refused_block()
        for step in (2, 3, 4):
            self.assertEqual(self.submit(served, refused)["result"], {"at": step, "answer": "high-hash"})
        for data in (refused, names.data["b1"], names.data["b3"], b"\0"):
            self.assertEqual(self.submit(served, data)["error"], FULL)
        self.assertEqual(served.ask("judge", seat=0, block=refused.hex(), now=NOW), {"at": 4, "answer": "high-hash"})
        self.assertEqual(self.submit(served, names.data["b2"])["result"], {"at": 5, "answer": "accepted"})
        self.assertEqual(served.ask("invalidate", seat=1, id=names.ids["b2"])["answer"], "done")
        self.assertEqual(self.submit(served, names.data["b3"], 1)["error"], FULL)
        self.assertEqual(served.ask("reconsider", seat=1, id=names.ids["b2"])["answer"], "done")
        self.assertEqual(self.submit(served, names.data["b3"], 1)["result"], {"at": 8, "answer": "accepted"})
        self.assertEqual(served.answer("finish")["result"], {"at": 8})
        self.assertEqual(served.end(), (0, ""))

    def test_none_at_all(self) -> None:
        """With 0 only blocks that are kept are steps; without the option all are."""
        names = Names(self.folder, BLOCKS)
        served, other = self.served("--history-memory", "0"), self.served()
        for name in ("b1", "b2"):
            self.assertEqual(self.submit(served, names.data[name])["result"]["answer"], "accepted")
            self.assertEqual(self.submit(served, names.data[name])["error"], FULL)
            self.assertEqual(self.submit(other, names.data[name])["result"]["answer"], "accepted")
            self.assertEqual(self.submit(other, names.data[name])["result"]["answer"], "duplicate")
        self.assertEqual((served.ask("note", seat=0)["at"], other.ask("note", seat=0)["at"]), (2, 4))
        self.assertEqual((served.end(), other.end()), ((0, ""), (0, "")))

    def test_what_was_loaded_counts(self) -> None:
        self.make_folder("kept")
        refused = self.refused_block()
        first = self.served("--datadir", "kept")
        for step in (1, 2, 3):
            self.assertEqual(self.submit(first, refused)["result"]["at"], step)
        self.assertEqual(first.end(), (0, ""))
        again = self.served("--datadir", "kept", "--history-memory", "1")
        self.assertEqual(self.submit(again, refused)["error"], FULL)
        self.assertEqual(again.end(), (0, ""))
        more = self.served("--datadir", "kept", "--history-memory", "2")
        self.assertEqual(self.submit(more, refused)["result"]["at"], 4)
        self.assertEqual(more.end(), (0, ""))

    def test_memory_of_many_that_are_refused(self) -> None:
        """A node takes no more for 400 such blocks than for those within the bound."""
        served = self.served("--history-memory", "4")
        refused = self.refused_block()
        for _ in range(20):
            self.submit(served, refused)
        before = resident(served.process.pid)
        for _ in range(400):
            self.assertEqual(self.submit(served, refused)["error"], FULL)
        # So many bytes would be 160 MB.
        self.assertLess(resident(served.process.pid), before + 8_192)
        self.assertEqual(served.end(), (0, ""))

    def test_memory_of_one_that_comes_again(self) -> None:
        """The history shares the bytes of a block that is kept: a duplicate takes none."""
        served, block = self.served(), self.large_block()
        self.assertEqual(self.submit(served, block)["result"], {"at": 1, "answer": "accepted"})
        self.submit(served, block)
        before = resident(served.process.pid)
        for step in range(3, 103):
            self.assertEqual(self.submit(served, block)["result"], {"at": step, "answer": "duplicate"})
        # So many bytes would be 40 MB.
        self.assertLess(resident(served.process.pid), before + 8_192)
        self.assertEqual(served.end(), (0, ""))

    def test_memory_of_two_that_are_refused_again(self) -> None:
        """Nor does a block that was refused before, whatever came between."""
        served = self.served()
        blocks = [self.refused_block(version) for version in (0, 1)]
        for block in blocks:
            self.submit(served, block)
        before = resident(served.process.pid)
        for step in range(3, 103):
            self.assertEqual(self.submit(served, blocks[step % 2])["result"]["at"], step)
        self.assertLess(resident(served.process.pid), before + 8_192)
        self.assertEqual(served.end(), (0, ""))

    def test_a_number_is_wanted(self) -> None:
        ended = play(self.folder, b"", "--history-memory", "much")
        self.assertEqual((ended.status, ended.out), (1, b""))


def resident(pid: int, field: str = "VmRSS:") -> int:
    """How many KiB of memory a process has."""
    with open(f"/proc/{pid}/status", encoding="ascii") as file:
        for line in file:
            if line.startswith(field):
                return int(line.split()[1])
    raise AssertionError(f"no {field}")


def most_resident(pid: int) -> int:
    """How many KiB it had at most."""
    return resident(pid, "VmHWM:")
