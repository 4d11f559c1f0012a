"""Lists at random on sixteen threads that run at once: what a served node answers them, and its journal."""
from __future__ import annotations

import os
import sys
import threading
from typing import Any, NamedTuple

import running
from running import ROOT, ProgramTest
from serving import Names, Served

sys.path.append(os.path.join(ROOT, "tests", "soak"))
from deal import BASE, CLIENTS, Dealer  # noqa: E402

WRITES = ("submit", "invalidate", "reconsider", "precious")
MOMENT = 1_296_688_602


class Asked(NamedTuple):
    """A request that was answered, in the words of a scenario."""

    words: str
    method: str
    params: dict[str, Any]
    answer: Any
    at: int


class Caller(threading.Thread):
    """Asks its seat what its list says. Now and then the seat is told before what its neighbour has seen."""

    def __init__(self, served: Served, names: Names, seat: int, commands: list[str], seen: list[int]) -> None:
        super().__init__(daemon=True)
        self.served, self.names, self.seat, self.commands, self.seen = served, names, seat, commands, seen
        self.asked: list[Asked] = []
        self.wrong: list[str] = []

    def run(self) -> None:
        try:
            self.ask_all()
        except Exception as error:  # it is told by the test
            self.wrong.append(repr(error))

    def ask_all(self) -> None:
        now, last = MOMENT, self.seen[self.seat]
        for place, command in enumerate(self.commands):
            if command.startswith("now "):
                now = int(command.split()[1])
                continue
            if place % 3 == 0:
                before = (self.seat - 1) % len(self.seen)
                least = max(self.seen[before], last)
                last = self.served.ask("told", seat=self.seat, **{"from": before})["at"]
                if last < least:
                    self.wrong.append(f"told of {least} steps, it has seen {last}")
            method, params = self.names.request(command, now)
            result = self.served.ask(method, seat=self.seat, **params)
            if result["at"] < last:
                self.wrong.append(f"{command}: a stamp that falls from {last} to {result['at']}")
            last = self.seen[self.seat] = result["at"]
            self.asked.append(Asked(command, method, params, result["answer"], last))
        noted = self.served.ask("note", seat=self.seat)["at"]
        if noted != last:
            self.wrong.append(f"it has seen {noted} steps, and its last stamp is {last}")


class Threads(ProgramTest):
    def setUp(self) -> None:
        super().setUp()
        self.make_folder("base")
        text = f"chain c {BASE} genesis\nclient a\neach c 1 {BASE}\n"
        self.expect_status(["run", "--scenario", "-", "--save", "base"], text)

    def expect_status(self, words: list[str], text: str = "") -> str:
        played = self.play(words, text)
        self.assertEqual((played.status, played.err), (0, ""))
        return played.out

    def test_lists_at_random(self) -> None:
        for seed in range(200 if running.LONG else 12):
            with self.subTest(seed=seed):
                self.play_list(seed, 24)

    def play_list(self, seed: int, blocks: int) -> None:
        scenario = Dealer(seed, blocks).scenario()
        names = Names(self.folder, "\n".join(scenario.definitions) + "\n")
        folder = f"saved{seed}"
        self.make_folder(folder)
        words = ["--seats", "16", "--workers", str(1 + seed % 3), "--blk", "base/blocks.blk", "--save", folder]
        served = Served(self.folder, *words)
        self.addCleanup(served.kill)
        # The chain stands before the first request, submitted by the first seat. The sixteenth reads.
        seen = [BASE] + [0] * 15
        lists = [commands[BASE:] for commands in scenario.commands] + [["best", "tips"] * 20]
        self.assertEqual(len(lists), CLIENTS + 1)
        callers = [Caller(served, names, seat, commands, seen) for seat, commands in enumerate(lists)]
        for caller in callers:
            caller.start()
        for caller in callers:
            caller.join(running.SECONDS)
            self.assertEqual(caller.wrong, [])
        entries = served.ask("journal", seat=0, **{"from": 1, "to": 2**64 - 1})["answer"]
        self.assertEqual(served.answer("finish")["result"], {"at": len(entries)})
        self.assertEqual(served.end(), (0, ""))
        self.expect_journal(folder, entries, callers)
        self.assertEqual(self.expect_status(["audit", "--saved", folder]), "agrees\n")
        self.expect_reads(folder, names, entries, callers)

    def expect_journal(self, folder: str, entries: list[dict[str, Any]], callers: list[Caller]) -> None:
        """Each step stands in the journal at its stamp, and there are no others; it is the one that is saved."""
        for place, entry in enumerate(entries):
            self.assertEqual(entry["step"], place + 1)
        wrote = 0
        for caller in callers:
            for asked in caller.asked:
                if asked.method not in WRITES or asked.answer == "decode-failed":
                    continue
                wrote += 1
                entry = entries[asked.at - 1]
                told = (entry["client"], entry["command"], entry["reply"], entry.get("now"))
                self.assertEqual(told, (f"seat{caller.seat}", asked.method, asked.answer, asked.params.get("now")))
        self.assertEqual(wrote, sum(entry["client"] != "blk" for entry in entries))
        self.assertEqual([entry["client"] for entry in entries[:BASE]], ["blk"] * BASE)
        self.assertEqual(self.read(f"{folder}/journal.txt"), "".join(map(line_of, entries)))

    def expect_reads(self, folder: str, names: Names, entries: list[dict[str, Any]], callers: list[Caller]) -> None:
        """One seat that takes the same steps in their order reads the same, each read at its place."""
        reads: dict[int, dict[str, Asked]] = {}
        for caller in callers:
            for asked in caller.asked:
                if asked.method in WRITES:
                    continue
                first = reads.setdefault(asked.at, {}).setdefault(asked.words, asked)
                self.assertEqual(first.answer, asked.answer)
        served = Served(self.folder, "--seats", "1")
        self.addCleanup(served.kill)
        blocks = records_of(self.read_bytes(f"{folder}/blocks.blk"))
        for entry in entries:
            params = {"block": next(blocks).hex(), "now": entry["now"]} if entry["command"] == "submit" else {"id": entry["block"]}
            result = served.ask(entry["command"], seat=0, **params)
            self.assertEqual((result["at"], result["answer"]), (entry["step"], entry["reply"]))
            for asked in reads.get(entry["step"], {}).values():
                told = served.ask(asked.method, seat=0, **asked.params)
                self.assertEqual((asked.words, told["at"], told["answer"]), (asked.words, asked.at, asked.answer))
        self.assertEqual(served.end(), (0, ""))


def line_of(entry: dict[str, Any]) -> str:
    """An entry as a line of a saved journal."""
    now = f" {entry['now']}" if "now" in entry else ""
    return f"{entry['step']} {entry['client']} {entry['command']} {entry['block']}{now} = {entry['reply']}\n"


def records_of(data: bytes) -> Any:
    """The blocks of a blk file."""
    place = 0
    while place < len(data):
        length = int.from_bytes(data[place + 4 : place + 8], "little")
        yield data[place + 8 : place + 8 + length]
        place += 8 + length
