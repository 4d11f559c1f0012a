"""A history of more than 2^20 entries: a node that gives up at some number of them would keep every clause."""
from __future__ import annotations

from playing_lists import ListTest, Played, client, play

COUNT = 2**20 + 1_000


class LongHistory(ListTest):
    def test_more_than_a_million_entries(self) -> None:
        """Each preference of four seats in turn is a step, and has the next place."""
        text = "chain c 1 genesis\n" + client("a", ["submit c1", *["precious c1"] * COUNT])
        given = Played(play("node", text, seats=4))
        self.expect_lines(given.clients["a"][1:], [f"precious c1 = done @{place}" for place in range(2, COUNT + 2)])
        self.expect_lines(
            given.journal[1:], [f"{place} {(place - 1) % 4} precious c1 = done" for place in range(2, COUNT + 2)]
        )
