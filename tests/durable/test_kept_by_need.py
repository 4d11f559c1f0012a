"""A node by need whose history is kept: its log has the verdicts, and it goes on under them."""
from __future__ import annotations

import random
import time

import running
from keeping import LOG, KeepingTest
from running import Played
from scenarios import SPENDS, Scenario
from serving import Names, Served, commands_of

#: The scenario with the most signatures.
SIGNED = max(SPENDS, key=lambda it: it.definitions.count("verdict"))
#: A key, a signature without its hash type, and a digest that no block has.
STRAY = f"02{'ab' * 32} 3006020101020101 {'cd' * 32}"


class KeptByNeed(KeepingTest):
    def setUp(self) -> None:
        super().setUp()
        self.names = Names(self.folder, SIGNED.definitions)
        self.table = self.saved_table(SIGNED)

    def saved_table(self, scenario: Scenario) -> list[str]:
        """The lines of a scenario's valid signatures, as a run saves them."""
        self.make_folder("saved")
        words = ["run", "--scenario", "-", "--heights", scenario.heights, "--save", "saved"]
        self.assertEqual(self.play(words, scenario.text()).err, "")
        return self.read("saved/table.txt").splitlines()

    def served(self, *words: str) -> Served:
        served = Served(self.folder, "--by-need", "--datadir", "data", "--seats", "1", "--heights", SIGNED.heights, *words)
        self.addCleanup(served.kill)
        return served

    def asked(self, served: Served, method: str, params: dict[str, object]) -> tuple[dict[str, object], int]:
        """The answer to a call that is made until it wants nothing, and how many signatures it wanted."""
        told = 0
        while True:
            result = served.ask(method, seat=0, **params)
            answer = result["answer"]
            if not (isinstance(answer, dict) and "wants" in answer):
                return result, told
            lines = answer["wants"]
            valid, invalid = [it for it in lines if it in self.table], [it for it in lines if it not in self.table]
            served.ask("learn", seat=0, valid="\n".join(valid), invalid="\n".join(invalid))
            told += len(lines)

    def test_it_goes_on_where_it_was_killed(self) -> None:
        """Killed behind each answer: the next node wants no signature again, and answers as under the table."""
        verdicts = 0
        for command in commands_of(SIGNED):
            served = self.served()
            before = served.ask("note", seat=0)["at"]
            method, params = self.names.request(command.words, command.now)
            result, more = self.asked(served, method, params)
            verdicts += more
            told = self.names.text(method, result["answer"])
            self.assertEqual((command.words, told, result["at"]), (command.words, command.reply, command.stamp + verdicts))
            self.assertLessEqual(before, result["at"])
            served.kill()
        self.assertGreater(verdicts, 3)
        lines = self.read(LOG).splitlines()
        signed = [line.split("\t")[1] for line in lines if line.split(" ")[2] in ("valid", "invalid")]
        self.assertEqual((len(signed), len(set(signed))), (verdicts, verdicts))
        self.expect_audited(lines)

    def expect_audited(self, lines: list[str]) -> None:
        """The log's audit agrees, and its export is what a run saves under the table."""
        self.expect(["audit", "--datadir", "data"], "", Played(0, "agrees\n", ""))
        self.expect(["audit", "--datadir", "data", "--quick"], "", Played(0, "agrees\n", ""))
        self.make_folder("exported")
        self.expect(["export", "--datadir", "data", "--save", "exported"], "", Played(0, "", ""))
        self.expect(["audit", "--saved", "exported"], "", Played(0, "agrees\n", ""))
        valid = {line.split("\t")[1] for line in lines if line.split(" ")[2] == "valid"}
        invalid = {line.split("\t")[1] for line in lines if line.split(" ")[2] == "invalid"}
        self.assertEqual(set(self.read("exported/table.txt").splitlines()), valid)
        self.assertEqual(set(self.read("exported/invalid.txt").splitlines()) if invalid else set(), invalid)
        self.assertEqual((valid <= set(self.table), invalid & set(self.table)), (True, set()))
        steps = [line.split(" ", 2)[2] for line in self.read("exported/journal.txt").splitlines()]
        self.assertEqual(steps, [line.split(" ", 2)[2] for line in self.read("saved/journal.txt").splitlines()])

    def test_nothing_told_is_lost(self) -> None:
        """Killed while verdicts are told: each that was answered is in the log."""
        draw, told = random.Random(5), 0
        for life in range(60 if running.LONG else 6):
            served = self.served(*(["--no-sync"] if life % 3 == 2 else []))
            self.assertGreaterEqual(served.ask("note", seat=0)["at"], told)
            until, number = time.monotonic() + draw.uniform(0.02, 0.2), 0
            while time.monotonic() < until:
                line = f"{STRAY[:-12]}{life:06x}{number:06x}"
                told = served.ask("learn", seat=0, valid=line if number % 2 else "", invalid="" if number % 2 else line)["at"]
                number += 1
            served.kill()
        self.assertGreater(told, 10)
        self.assertGreaterEqual(len(self.read(LOG).splitlines()), told)

    def test_what_no_log_has(self) -> None:
        """A verdict that is given twice, one that contradicts, one of another digest, and a submission that wants a verdict."""
        served = self.served()
        for command in commands_of(SIGNED):
            self.asked(served, *self.names.request(command.words, command.now))
        self.assertEqual(served.end(), (0, ""))
        lines = self.read(LOG).splitlines()
        place = next(number for number, line in enumerate(lines) if line.split(" ")[2] == "valid")
        other = f"{place + 2} {lines[place].split(' ', 1)[1]}"
        no_step, foreign = "it is no step behind those before it", "it isn't what is printed for a step of this number"
        for wrong, line, why in (
            ([*lines[: place + 1], other], place + 2, no_step),
            ([*lines[: place + 1], other.replace(" valid ", " invalid ")], place + 2, no_step),
            ([*lines[:place], lines[place][:-1] + ("1" if lines[place][-1] == "0" else "0")], place + 1, foreign),
            ([*lines[:place], lines[place].replace("\t", "\tx")], place + 1, foreign),
            ([*lines[:place], lines[place].replace(" valid ", " precious ")], place + 1, foreign),
            (self.without(lines, place), None, no_step),
        ):
            self.write(LOG, "".join(f"{it}\n" for it in wrong))
            ended = self.serve(b"", "--by-need")
            told = ended.stderr.decode().splitlines()
            self.assertEqual((ended.returncode, len(told)), (1, 2), ended.stderr)
            if line is not None:
                self.assertEqual(told[0], f"regchain: journal line {line}")
            self.assertTrue(told[1].endswith(f": {why}"), told)

    def without(self, lines: list[str], place: int) -> list[str]:
        """A log's lines without the one at a place, numbered anew."""
        left = lines[:place] + lines[place + 1 :]
        return [f"{number} {line.split(' ', 1)[1]}" for number, line in enumerate(left, 1)]

    def test_a_folder_is_by_need_or_not(self) -> None:
        self.assertEqual(self.served().end(), (0, ""))
        self.assertEqual(self.exists("data/table.txt"), False)
        for words, told in (
            (["--datadir", "data"], "made with --by-need"), (["--datadir", "other", "--by-need"], "made without --by-need"),
        ):  # fmt: skip
            if not self.exists("other"):
                self.assertEqual(self.play(["serve", "--datadir", "other"]).status, 0)
            played = self.play(["serve", *words])
            self.assertEqual((played.status, played.out), (1, ""))
            self.assertIn(told, played.err)
