"""The request to save: what is on the disk then, and where it is refused."""
from __future__ import annotations

import os
import signal
import subprocess
from typing import Any

import running
from running import ROOT, ProgramTest
from serving import GENESIS, Names, Served

DEFINITIONS = "block b1 genesis\nblock p2 b1\n"
NOW = 1_296_688_602


class Saves(ProgramTest):
    def setUp(self) -> None:
        super().setUp()
        self.names = Names(self.folder, DEFINITIONS)

    def serve(self, *words: str) -> Served:
        served = Served(self.folder, "--seats", "2", *words)
        self.addCleanup(served.kill)
        return served

    def submit(self, served: Served, name: str, seat: int) -> Any:
        return served.ask("submit", seat=seat, block=self.names.data[name].hex(), now=NOW)["answer"]

    def expect_refused(self, served: Served, why: str) -> None:
        self.assertEqual(served.answer("save")["error"], {"code": -32004, "message": "not saved", "data": why})

    def test_a_data_directory(self) -> None:
        """It is answered with all steps that were answered, of all seats: seat 0, in whose turn it is, was told nothing of seat
        1's. A kill loses none of them."""
        served = self.serve("--datadir", "data")
        self.assertEqual(served.ask("save"), {"at": 0})
        self.assertEqual(self.submit(served, "b1", 1), "accepted")
        self.assertEqual(served.ask("save"), {"at": 1})
        self.assertEqual(len(self.read("data/history.log").splitlines()), 1)
        self.assertEqual(self.submit(served, "p2", 0), "accepted")
        self.assertEqual(served.ask("save"), {"at": 2})
        served.kill()
        served = self.serve("--datadir", "data")
        self.assertEqual(served.ask("info")["loaded"], 2)
        self.assertEqual(served.end(), (0, ""))

    def test_a_node_by_need(self) -> None:
        """A verdict is a step of the log."""
        served = self.serve("--datadir", "data", "--by-need")
        line = f"02{'ab' * 32} 3006020101020101 {'cd' * 32}"
        self.assertEqual(served.ask("learn", seat=1, valid=line, invalid=""), {"at": 1, "answer": "done"})
        self.assertEqual(served.ask("save"), {"at": 1})
        self.assertEqual(served.end(), (0, ""))

    def test_where_it_is_refused(self) -> None:
        """The node goes on."""
        for words, why in [((), "datadir"), (("--datadir", "data", "--no-sync"), "no-sync")]:
            with self.subTest(words=words):
                served = self.serve(*words)
                self.assertEqual(self.submit(served, "b1", 0), "accepted")
                self.expect_refused(served, why)
                self.assertEqual(self.submit(served, "p2", 1), "accepted")
                served.end()

    def test_a_folder_to_save_into(self) -> None:
        """It is answered when the folder has all steps that any seat was answered; a kill loses those behind it alone."""
        self.make_folder("saved")
        served = self.serve("--save", "saved")
        self.assertEqual(served.ask("save"), {"at": 0})
        self.assertEqual(self.submit(served, "b1", 1), "accepted")
        self.assertEqual(served.ask("save"), {"at": 1})
        self.assertEqual(len(self.read("saved/journal.txt").splitlines()), 1)
        self.assertEqual(self.submit(served, "p2", 0), "accepted")
        served.kill()
        self.assertEqual(self.audit("saved"), 0)
        again = self.serve("--load", "saved", "--save", "saved")
        self.assertEqual(again.ask("info")["loaded"], 1)
        self.assertEqual(self.submit(again, "p2", 0), "accepted")
        self.assertEqual(again.ask("save"), {"at": 2})
        self.assertEqual(again.answer("finish")["result"], {"at": 2})
        self.assertEqual(again.end(), (0, ""))
        self.assertEqual(len(self.read("saved/journal.txt").splitlines()), 2)

    def test_a_signal_saves_nothing(self) -> None:
        """With `--save` alone: what is there stays, as the page says first."""
        for number in (signal.SIGTERM, signal.SIGINT, signal.SIGHUP):
            folder = f"saved{number}"
            self.make_folder(folder)
            served = self.serve("--save", folder)
            self.assertEqual(self.submit(served, "b1", 0), "accepted")
            self.assertEqual(served.ask("save"), {"at": 1})
            self.assertEqual(self.submit(served, "p2", 0), "accepted")
            served.process.send_signal(number)
            self.assertEqual(served.process.wait(running.SECONDS), -number)
            self.assertEqual(len(self.read(f"{folder}/journal.txt").splitlines()), 1)
        with open(os.path.join(ROOT, "docs/SERVE.md"), encoding="utf-8") as file:
            self.assertIn("and `--save` saves nothing then; with `--datadir` nothing that was answered is lost", file.read(1000))

    def test_saves_between_requests(self) -> None:
        """Requests of all seats around many saves are each answered, in their order; one that waits is answered then."""
        self.make_folder("saved")
        served = self.serve("--save", "saved")
        waits = served.begin("wait", seat=1, after=9)
        marks = []
        for _ in range(20):
            marks += served.begin_all([("invalidate", {"seat": 0, "id": GENESIS})] * 10)
            marks.append(served.begin("save"))
        places = [served.answer_of(number)["result"]["at"] for number in marks]
        self.assertEqual(places, [at for round in range(20) for at in [*range(10 * round + 1, 10 * round + 11), 10 * round + 10]])
        self.assertIn(served.answer_of(waits)["result"]["at"], range(11))
        self.assertEqual(served.end(), (0, ""))

    def test_a_folder_that_takes_no_more(self) -> None:
        """The answer says why, the node goes on, and a later request saves."""
        self.make_folder("saved")
        folder = self.path("saved")
        served = self.serve("--save", "saved")
        self.assertEqual(self.submit(served, "b1", 0), "accepted")
        os.rename(folder, folder + ".away")
        answer = served.answer("save")["error"]
        self.assertEqual((answer["code"], answer["message"]), (-32004, "not saved"))
        self.assertEqual(self.submit(served, "p2", 1), "accepted")
        os.rename(folder + ".away", folder)
        self.assertEqual(served.ask("save"), {"at": 2})
        self.assertEqual(served.end(), (0, ""))

    def test_a_node_by_need_into_a_folder(self) -> None:
        """The folder has the verdicts as its table, and the history without them."""
        self.make_folder("saved")
        served = self.serve("--save", "saved", "--by-need")
        line = f"02{'ab' * 32} 3006020101020101 {'cd' * 32}"
        self.assertEqual(served.ask("learn", seat=1, valid=line, invalid=""), {"at": 1, "answer": "done"})
        self.assertEqual(self.submit(served, "b1", 0), "accepted")
        self.assertEqual(served.ask("save"), {"at": 2})
        self.assertEqual(self.read("saved/table.txt").split("\n")[0], line)
        self.assertEqual(len(self.read("saved/journal.txt").splitlines()), 1)
        self.assertEqual(served.end(), (0, ""))

    def audit(self, folder: str) -> int:
        return subprocess.run([running.PROGRAM, "audit", "--saved", folder], cwd=self.folder, stdout=subprocess.DEVNULL).returncode
