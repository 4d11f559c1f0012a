"""The table of scenarios at every door: the definition, the chainstate of one thread, the one that is lent its coins, and a
node's seats in turn."""
from __future__ import annotations

from typing import Any, Callable

from playing_lists import ListTest, Played, answers, in_parallel, is_write, journal, play, play_list
from scenarios import BRANCHES, NAMED, SPENDS, Scenario

LONG = NAMED["A_LONG_BRANCH_TAKEN_BACK"]

# Behind the commands of each scenario stand bytes that are no block.
NO_BLOCK = "raw 010203"


def replies(scenario: Scenario) -> list[str]:
    """What is replied to each command that takes a step."""
    return [f"{it.command} = {it.text}" for it in answers(scenario) if is_write(it.command)]


def lines(scenario: Scenario) -> list[str]:
    """What is answered without stamps."""
    return [f"{it.command} = {it.text}" for it in answers(scenario)]


class Table(ListTest):
    def expect(self, scenarios: list[Scenario], door: str, wanted: Callable[[Scenario], list[str]]) -> None:
        """The answers at a door begin with these, and then comes that to bytes that are no block."""

        def played(scenario: Scenario) -> list[str]:
            text = f"{scenario.text()}{NO_BLOCK}\n"
            printed = play(door, text, heights=scenario.heights).splitlines()
            return [line for line in printed if not line.startswith("changes = ")]

        for scenario, given in zip(scenarios, in_parallel(played, scenarios)):
            with self.subTest(scenario=scenario.name):
                right = [*wanted(scenario), f"{NO_BLOCK} = decode-failed"]
                self.expect_lines(given[: len(right)], right)
                last = [line for line in given[len(right) :] if not line.startswith(("height = ", "undo = "))]
                self.assertEqual([line.split(" = ")[0] for line in last], [] if door == "definition" else ["best", "tips"])

    def test_definition(self) -> None:
        self.expect([*BRANCHES, *SPENDS, LONG], "definition", replies)

    def test_run(self) -> None:
        self.expect([*BRANCHES, *SPENDS, LONG], "run", replies)

    def test_chainstate(self) -> None:
        self.expect([*BRANCHES, *SPENDS, LONG], "chainstate", lines)

    def test_lent_coins(self) -> None:
        self.expect([*BRANCHES, *SPENDS, LONG], "core", lines)

    def test_a_scenario_by_its_name(self) -> None:
        """The program has the table itself, with the heights of each."""
        for scenario in (LONG, NAMED["BIP_66_BY_HEIGHT"]):
            with self.subTest(scenario=scenario.name):
                self.expect_lines(play_list("text", scenario.name).splitlines(), scenario.text().splitlines())
                given = play_list("chainstate", scenario.name)
                wanted = play("chainstate", scenario.text(), heights=scenario.heights)
                self.expect_lines(given.splitlines(), wanted.splitlines())


class Seats(ListTest):
    def expect(self, seats: int, workers: int, **settings: Any) -> None:
        """The whole table: every answer with its stamp, and the journal."""

        def played(scenario: Scenario) -> Played:
            text = scenario.text()
            return Played(play("node", text, heights=scenario.heights, seats=seats, workers=workers, **settings))

        scenarios = [*BRANCHES, *SPENDS, LONG]
        for scenario, given in zip(scenarios, in_parallel(played, scenarios)):
            with self.subTest(scenario=scenario.name):
                right = [f"{it.command} = {it.text} @{it.at}" for it in answers(scenario)]
                self.assertEqual(list(given.clients), ["a"])
                self.expect_lines(given.clients["a"], right)
                self.expect_lines(given.journal, journal(scenario, seats))

    def test_at_one_seat(self) -> None:
        self.expect(1, 1)

    def test_at_four_seats(self) -> None:
        self.expect(4, 2)

    def test_at_sixteen_seats(self) -> None:
        self.expect(16, 8)

    def test_by_sixteen_workers(self) -> None:
        self.expect(2, 16, close=1)

    def test_each_call_on_a_thread_of_its_own(self) -> None:
        """Seats and note are moved to it."""
        self.expect(3, 2, moved=1)
