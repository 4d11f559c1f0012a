"""Lists drawn at random through the definition and through the chainstate of one thread.

Both must give the same replies. The definition gives nothing else, so what the chainstate shows at a list's end is recounted
(recount.py); and the blocks of the active branch alone, submitted in order to another chainstate, must all be accepted, and
leave the same active block and, wherever the list has an output, the same coin.

Of 300 lists, 150 begin at genesis, where no coinbase is ripe, so that what they spend is refused: they have 20 to 40 commands.
The other 150 begin with a chain of 100 blocks, on which payments are accepted, and have 40 more. A list's number is its seed.
"""
from __future__ import annotations

from playing_lists import ListTest, client, definitions_of, in_parallel, outputs_of, play, play_list
from recount import Recount

# The last moment: no block is too new.
LAST = "now 18446744073709551615"


def drawn(seed: int, below: int, count: int) -> str:
    return play_list("text", "random", seed=seed, below=below, count=count)


class Compared:
    """A list at each door, with the coins at all its outputs."""

    def __init__(self, seed: int) -> None:
        self.seed = seed
        below, count = (0, 20 + seed % 21) if seed < 150 else (100, 40)
        text = drawn(seed, below, count)
        definitions = definitions_of(text)
        coins = client("b", outputs_of(definitions))
        self.definition = play("definition", text).splitlines()
        self.run, self.chainstate, self.core = (play(door, text + coins) for door in ("run", "chainstate", "core"))
        self.best = self.chainstate.partition("\nbest = ")[2].split("\n")[0]
        self.tips = self.chainstate.partition("\ntips = ")[2].split("\n")[0]
        self.recount = Recount(definitions, self.definition, self.best)
        branch = self.recount.branch[-2::-1]
        climb = client("a", [LAST, *(f"submit {name}" for name in branch)])
        self.climbed = play("chainstate", definitions + climb + coins)
        self.accepted = "".join(f"submit {name} = accepted\n" for name in branch)


class DrawnLists(ListTest):
    def expect(self, first: int, end: int) -> None:
        for it in in_parallel(Compared, range(first, end)):
            with self.subTest(list=it.seed):
                chainstate = it.chainstate.splitlines()
                state = chainstate[len(it.definition) :]
                self.expect_lines(chainstate[: len(it.definition)], it.definition)
                self.expect_lines(it.run.splitlines(), chainstate)
                lent = [line for line in it.core.splitlines() if not line.startswith("changes = ")]
                self.expect_lines(lent, chainstate)
                self.assertTrue(it.recount.is_best_right())
                self.assertEqual(it.tips, it.recount.tips())
                self.assertEqual(state[2:4], [f"best = {it.best}", f"tips = {it.tips}"])
                self.assertTrue(it.climbed.startswith(it.accepted))
                self.expect_lines(shown(it.climbed, it.accepted), [*state[:1], state[2], *state[4:]])

    def test_lists_on_genesis(self) -> None:
        self.expect(0, 150)

    def test_lists_on_a_chain(self) -> None:
        self.expect(150, 300)


def shown(printed: str, accepted: str) -> list[str]:
    """Height, best block and coins behind these replies."""
    lines = printed.removeprefix(accepted).splitlines()
    return [lines[0], lines[2], *lines[4:]]
