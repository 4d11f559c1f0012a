"""A served node by need: the seat that wants signatures tells which are valid, and makes its call again.

Without these verdicts the history is that of a node over the table of the valid ones: every answer is the one that it has there,
at the same place among the other steps.
"""
from __future__ import annotations

import json
import threading
from typing import Any

from running import Played, ProgramTest
from scenarios import BRANCHES, NAMED, SPENDS, Scenario
from serving import Names, Served, commands_of, play, request
from test_by_need import Signed

NOW = 1_296_688_602
FILES = ("journal.txt", "blocks.blk", "table.txt", "heights.txt")
LONG = NAMED["A_LONG_BRANCH_TAKEN_BACK"]
#: A key, a signature without its hash type, and a digest that no block has.
STRAY = f"02{'ab' * 32} 3006020101020101 {'cd' * 32}"


def wants(answer: Any) -> list[str] | None:
    """The signatures that a call wants, if it does."""
    return answer["wants"] if isinstance(answer, dict) and "wants" in answer else None


class ByNeed(ProgramTest):
    def served(self, *words: str) -> Served:
        served = Served(self.folder, "--by-need", *words)
        self.addCleanup(served.kill)
        return served

    def table_of(self, scenario: Scenario) -> list[str]:
        """The lines of a scenario's valid signatures, as a run saves them."""
        if not self.exists("saved"):
            self.make_folder("saved")
        words = ["run", "--scenario", "-", "--heights", scenario.heights, "--save", "saved"]
        self.assertEqual(self.play(words, scenario.text()).err, "")
        return self.read("saved/table.txt").splitlines()

    def learn(self, served: Served, seat: int, lines: list[str], table: list[str]) -> int:
        """Tells which of these signatures are valid: how many steps there are then."""
        valid, invalid = [it for it in lines if it in table], [it for it in lines if it not in table]
        told = served.ask("learn", seat=seat, valid="\n".join(valid), invalid="\n".join(invalid))
        self.assertEqual(told["answer"], "done")
        at: int = told["at"]
        return at

    def asked(self, served: Served, seat: int, method: str, params: dict[str, Any], table: list[str]) -> tuple[dict[str, Any], int]:
        """The answer to a call that is made until it wants nothing, and how many verdicts were told for it."""
        told = 0
        while True:
            result = served.ask(method, seat=seat, **params)
            lines = wants(result["answer"])
            if lines is None:
                self.assertEqual(served.ask("wants", seat=seat)["answer"], {"wants": []})
                return result, told
            self.assertEqual(served.ask("wants", seat=seat), result)
            # A read leaves them, and a verdict doesn't.
            served.ask("getbestblockhash", seat=seat)
            self.assertEqual(served.ask("wants", seat=seat)["answer"], {"wants": lines})
            self.assertEqual(len(set(lines)), len(lines))
            told += self.learn(served, seat, lines, table) - result["at"]
            self.assertEqual(served.ask("wants", seat=seat)["answer"], {"wants": []})
            self.assertEqual(told > 0, True)

    def play_scenario(self, scenario: Scenario, seats: int) -> int:
        """Its answers are those under the table, and its folder is audited. How many verdicts were told."""
        names, table = Names(self.folder, scenario.definitions), self.table_of(scenario)
        if not self.exists("kept"):
            self.make_folder("kept")
        served = self.served("--seats", str(seats), "--heights", scenario.heights, "--save", "kept")
        verdicts = 0
        for turn, command in enumerate(commands_of(scenario)):
            seat, before = turn % seats, (turn - 1) % seats
            if turn and seats > 1:
                served.ask("told", seat=seat, **{"from": before})
            method, params = names.request(command.words, command.now)
            result, more = self.asked(served, seat, method, params, table)
            verdicts += more
            told = names.text(method, result["answer"])
            self.assertEqual((command.words, told, result["at"]), (command.words, command.reply, command.stamp + verdicts))
        steps = served.ask("journal", seat=0, to=2**63, **{"from": 1})["answer"]
        self.assertEqual(sum(step["command"] in ("valid", "invalid") for step in steps), verdicts)
        count = {word: sum(step["command"] == word for step in steps) for word in ("valid", "invalid")}
        self.assertEqual(served.end(), (0, ""))
        # The saved history has no verdicts, and is the run's.
        journal = self.read("kept/journal.txt").replace(" seat", " a").splitlines()
        without_seats = [line.split(" ", 2)[2] for line in journal]
        self.assertEqual(without_seats, [line.split(" ", 2)[2] for line in self.read("saved/journal.txt").splitlines()])
        self.expect_found(table, count["valid"], count["invalid"])
        self.expect(["audit", "--saved", "kept"], "", Played(0, "agrees\n", ""))
        return verdicts

    def expect_found(self, table: list[str], valid: int, invalid: int) -> None:
        """The saved folder has so many signatures of the table, and so many others."""
        found = self.read("kept/table.txt").splitlines()
        self.assertEqual((len(found), set(found) - set(table)), (valid, set()))
        # there is no file of none
        self.assertEqual(self.exists("kept/invalid.txt"), invalid > 0)
        found = self.read("kept/invalid.txt").splitlines() if invalid else []
        self.assertEqual((len(found), len(set(found)), set(found) & set(table)), (invalid, invalid, set()))

    def play_table(self, seats: int) -> None:
        told = 0
        for scenario in [*BRANCHES, *SPENDS, LONG]:
            with self.subTest(scenario=scenario.name):
                told += self.play_scenario(scenario, seats)
        self.assertGreater(told, 3)

    def test_by_one_seat(self) -> None:
        self.play_table(1)

    def test_by_four_seats(self) -> None:
        self.play_table(4)

    def test_by_sixteen_seats(self) -> None:
        self.play_table(16)

    # ---- verdicts

    def test_verdicts(self) -> None:
        served = self.served("--seats", "2")
        self.assertEqual(served.ask("wants", seat=0), {"at": 0, "answer": {"wants": []}})
        self.assertEqual(served.ask("learn", seat=0, valid="", invalid=""), {"at": 0, "answer": "done"})
        lines = [STRAY.replace("ab", f"{number:02x}") for number in range(4)]
        text = "# a remark\n\n" + "\n".join(lines[:2]) + "\n"
        self.assertEqual(served.ask("learn", seat=0, valid=text, invalid=lines[2]), {"at": 3, "answer": "done"})
        # what is known is no step, and another seat sees it
        self.assertEqual(served.ask("learn", seat=1, valid=lines[0], invalid=lines[2]), {"at": 3, "answer": "done"})
        # up to the first contradiction: what stands before it is told, and nothing behind it
        told = served.ask("learn", seat=1, valid=f"{lines[3]}\n{lines[2]}\n{STRAY}", invalid=STRAY)
        self.assertEqual(told, {"at": 4, "answer": {"contradicted": lines[2]}})
        self.assertEqual(served.ask("learn", seat=0, valid="", invalid=lines[3])["answer"], {"contradicted": lines[3]})
        self.assertEqual(served.ask("learn", seat=0, valid="", invalid=STRAY), {"at": 5, "answer": "done"})
        steps = served.ask("journal", seat=0, to=9, **{"from": 1})["answer"]
        self.assertEqual([(it["client"], it["command"], it["reply"]) for it in steps], [
            ("seat0", "valid", "done"), ("seat0", "valid", "done"), ("seat0", "invalid", "done"),
            ("seat1", "valid", "done"), ("seat0", "invalid", "done"),
        ])  # fmt: skip
        self.assertEqual(served.end(), (0, ""))

    def test_what_is_no_verdict(self) -> None:
        served = self.served()
        cases: list[tuple[dict[str, Any], str]] = [
            ({"valid": ""}, "invalid"), ({"invalid": ""}, "valid"), ({"valid": 1, "invalid": ""}, "valid"),
            ({"valid": "", "invalid": [STRAY]}, "invalid"), ({"valid": STRAY.upper(), "invalid": ""}, "valid"),
            ({"valid": "", "invalid": f"{STRAY}\n{STRAY} 00"}, "invalid"), ({"valid": STRAY[:-1], "invalid": ""}, "valid"),
        ]  # fmt: skip
        for params, name in cases:
            error = served.answer("learn", seat=0, **params)["error"]
            self.assertEqual(error, {"code": -32602, "message": "invalid params", "data": name})
        self.assertEqual(served.ask("note", seat=0), {"at": 0})
        self.assertEqual(served.end(), (0, ""))

    def test_words_without_bytes(self) -> None:
        """A key and a signature may have none: their verdicts are steps, and known then."""
        served = self.served("--seats", "1")
        key, signature, digest = STRAY.split()
        words = [f"- {signature}", f"{key} -", "- -"]
        told = [(f"{it} {digest}", "valid", "invalid") for it in words] + [(f"{it} {digest[::-1]}", "invalid", "valid") for it in words]
        for at, (line, verdict, other) in enumerate(told, 1):
            for _ in range(2):
                self.assertEqual(served.ask("learn", seat=0, **{verdict: line, other: ""}), {"at": at, "answer": "done"})
            self.assertEqual(served.ask("learn", seat=0, **{verdict: "", other: line}), {"at": at, "answer": {"contradicted": line}})
        self.assertEqual(served.end(), (0, ""))

    def test_a_line_has_any_number_of_verdicts(self) -> None:
        served = self.served("--seats", "1")
        text = "".join(f"{STRAY[:-8]}{number:08x}\n" for number in range(5000))
        self.assertEqual(served.ask("learn", seat=0, valid=text, invalid=""), {"at": 5000, "answer": "done"})
        self.assertEqual(served.end(), (0, ""))

    def test_a_node_with_a_table_knows_all(self) -> None:
        self.write("table.txt", STRAY + "\n")
        other = STRAY.replace("ab", "ac")
        data = b"".join([
            request(1, "wants", seat=0), request(2, "learn", seat=0, valid=STRAY, invalid=other),
            request(3, "learn", seat=0, valid=other, invalid=""),
        ])  # fmt: skip
        ended = play(self.folder, data, "--table", "table.txt")
        self.assertEqual([it["result"] for it in ended.answers], [
            {"at": 0, "answer": {"wants": []}}, {"at": 0, "answer": "done"}, {"at": 0, "answer": {"contradicted": other}},
        ])  # fmt: skip

    def test_not_beside_a_table_or_a_blk_file(self) -> None:
        for option in ("--table", "--blk"):
            played = self.play(["serve", "--by-need", option, "F"], "")
            self.assertEqual((played.status, "cannot be used with" in played.err), (1, True), played.err)

    # ---- folders

    def test_it_goes_on_where_it_was(self) -> None:
        """A folder that is loaded by need and saved again, and under its table."""
        scenario = max(SPENDS, key=lambda it: it.definitions.count("verdict"))
        names, table = Names(self.folder, scenario.definitions), self.table_of(scenario)
        self.make_folder("kept")
        commands = commands_of(scenario)
        halves = commands[: len(commands) // 2], commands[len(commands) // 2 :]
        verdicts, heights = 0, ["--heights", scenario.heights]
        for half, words in zip(halves, ([*heights], ["--load", "kept"])):
            served = self.served("--seats", "1", "--save", "kept", *words)
            verdicts = served.ask("note", seat=0)["at"] - served.ask("info")["loaded"]
            for command in half:
                method, params = names.request(command.words, command.now)
                result, more = self.asked(served, 0, method, params, table)
                verdicts += more
                told = names.text(method, result["answer"])
                self.assertEqual((command.words, told, result["at"]), (command.words, command.reply, command.stamp + verdicts))
            self.assertEqual(served.end(), (0, ""))
            self.expect(["audit", "--saved", "kept"], "", Played(0, "agrees\n", ""))
        journal = [line.split(" ", 2)[2] for line in self.read("kept/journal.txt").splitlines()]
        self.assertEqual(journal, [line.split(" ", 2)[2] for line in self.read("saved/journal.txt").splitlines()])
        before = [self.read_bytes(f"kept/{name}") for name in FILES]
        settings: list[list[str]] = [["--by-need"], []]
        for words in settings:
            stood = self.exists("kept/invalid.txt")
            ended = play(self.folder, b"", "--load", "kept", "--save", "kept", *words)
            self.assertEqual((ended.status, ended.err), (0, ""))
            self.assertEqual([self.read_bytes(f"kept/{name}") for name in FILES], before)
            # under the table nothing was found out
            self.assertEqual(self.exists("kept/invalid.txt"), stood and bool(words))

    def test_a_run_is_loaded_by_need(self) -> None:
        """What its table hasn't isn't valid."""
        for scenario in SPENDS:
            with self.subTest(scenario=scenario.name):
                self.table_of(scenario)
                if not self.exists("kept"):
                    self.make_folder("kept")
                ended = play(self.folder, b"", "--by-need", "--load", "saved", "--save", "kept")
                self.assertEqual((ended.status, ended.err), (0, ""))
                for name in FILES:
                    self.assertEqual(self.read_bytes(f"kept/{name}"), self.read_bytes(f"saved/{name}"), name)

    def test_what_was_found_invalid_is_kept(self) -> None:
        """Also what no step asks for."""
        self.make_folder("kept")
        other = STRAY.replace("ab", "ac")
        served = self.served("--save", "kept")
        self.assertEqual(served.ask("learn", seat=1, valid=STRAY, invalid=other)["at"], 2)
        self.assertEqual(served.end(), (0, ""))
        self.assertEqual([self.read(f"kept/{name}") for name in ("journal.txt", "table.txt", "invalid.txt")], ["", STRAY + "\n", other + "\n"])
        served = self.served("--load", "kept")
        self.assertEqual(served.ask("learn", seat=1, valid="", invalid=other), {"at": 2, "answer": "done"})
        self.assertEqual(served.ask("learn", seat=1, valid=other, invalid="")["answer"], {"contradicted": other})
        self.assertEqual([it["client"] for it in served.ask("journal", seat=0, to=9, **{"from": 1})["answer"]], ["seat0"] * 2)
        self.assertEqual(served.end(), (0, ""))

    # ---- many at once

    def test_threads(self) -> None:
        """Sixteen seats submit the same blocks at once, and each tells what it finds out: each verdict is one step."""
        for seed in range(1000, 1010):
            with self.subTest(list=seed):
                self.play_signed(Signed(seed))

    def play_signed(self, signed: Signed) -> None:
        names = Names(self.folder, signed.definitions)
        for name in ("saved", "kept"):
            if not self.exists(name):
                self.make_folder(name)
        self.assertEqual(self.play(["run", "--scenario", "-", "--save", "saved"], signed.definitions + "client a\nsubmit f1\n").err, "")
        table = self.read("saved/table.txt").splitlines()
        served = self.served("--seats", "16", "--workers", "2", "--save", "kept")
        for name in ("f1", *(f"c{number}" for number in range(1, 100)), "b0"):
            self.assertEqual(served.ask("submit", seat=0, block=names.data[name].hex(), now=NOW)["answer"], "accepted")
        failed: list[str] = []

        def run(seat: int, order: list[str]) -> None:
            try:
                last = 0
                for name in order:
                    params = {"block": names.data[name].hex(), "now": NOW}
                    result, _ = self.asked_beside(served, seat, "submit", params, table)
                    if last > result["at"]:
                        failed.append(f"{seat}: {last} > {result['at']}")
                    last = result["at"]
            except BaseException as error:
                failed.append(f"{seat}: {error!r}")

        blocks = [f"b{number}" for number in range(1, signed.BLOCKS + 1)]
        threads = [threading.Thread(target=run, args=(seat, blocks)) for seat in range(16)]
        for thread in threads:
            thread.start()
        for thread in threads:
            thread.join()
        self.assertEqual(failed, [])
        note = served.ask("gettxout", seat=0, txid="00" * 32, n=0)["at"]
        steps = served.ask("journal", seat=0, to=note, **{"from": 1})["answer"]
        verdicts = [step["block"] for step in steps if step["command"] in ("valid", "invalid")]
        self.assertEqual((len(verdicts) > 3, len(set(verdicts))), (True, len(verdicts)))
        self.assertEqual(served.end(), (0, ""))
        self.expect(["audit", "--saved", "kept"], "", Played(0, "agrees\n", ""))
        count = {word: sum(step["command"] == word for step in steps) for word in ("valid", "invalid")}
        self.expect_found(table, count["valid"], count["invalid"])

    def asked_beside(self, served: Served, seat: int, method: str, params: dict[str, Any], table: list[str]) -> tuple[Any, int]:
        """As `asked`, where others tell verdicts meanwhile."""
        for told in range(1000):
            result = served.ask(method, seat=seat, **params)
            lines = wants(result["answer"])
            if lines is None:
                return result, told
            self.learn(served, seat, lines, table)
        raise AssertionError(json.dumps(params)[:200])
