"""The table of scenarios through a served node, with 1, 4 and 16 seats in turn; each submission is judged first."""
from __future__ import annotations

from running import ProgramTest
from scenarios import BRANCHES, SPENDS, Scenario
from serving import Names, Served, commands_of


class Table(ProgramTest):
    def play_scenario(self, scenario: Scenario, seats: int) -> None:
        names = Names(self.folder, scenario.definitions)
        words = ["--seats", str(seats), "--heights", scenario.heights]
        if "verdict" in scenario.definitions:
            words += ["--table", self.table_of(scenario)]
        served = Served(self.folder, *words)
        self.addCleanup(served.kill)
        for turn, command in enumerate(commands_of(scenario)):
            seat, before = turn % seats, (turn - 1) % seats
            if turn and seats > 1:
                served.ask("told", seat=seat, **{"from": before})
            method, params = names.request(command.words, command.now)
            if method == "submit":
                judged = served.ask("judge", seat=seat, **params)
                # The step itself is the next one; bytes that are no block are none.
                steps = command.stamp - (command.reply != "decode-failed")
                self.assertEqual((command.words, judged), (command.words, {"at": steps, "answer": command.reply}))
            result = served.ask(method, seat=seat, **params)
            told = names.text(method, result["answer"])
            self.assertEqual((command.words, told, result["at"]), (command.words, command.reply, command.stamp))
        self.assertEqual(served.end(), (0, ""))

    def table_of(self, scenario: Scenario) -> str:
        """The file of a scenario's valid signatures, as a run saves them."""
        if not self.exists("saved"):
            self.make_folder("saved")
        words = ["run", "--scenario", "-", "--heights", scenario.heights, "--save", "saved"]
        self.assertEqual(self.play(words, scenario.text()).err, "")
        return "saved/table.txt"

    def test_by_one_seat(self) -> None:
        self.play_table(1)

    def test_by_four_seats(self) -> None:
        self.play_table(4)

    def test_by_sixteen_seats(self) -> None:
        self.play_table(16)

    def play_table(self, seats: int) -> None:
        for scenario in [*BRANCHES, *SPENDS]:
            with self.subTest(scenario=scenario.name):
                self.play_scenario(scenario, seats)
