"""A node by need: whether a signature is valid is found out by the seat that wants it, and told as a step of the history.

Without these steps the history is that of a node over the table of the list, and every answer is the one that it has there, at
the same place. What nobody asked for changes nothing: the definition gives the same replies under a table with a thousand
triples more.
"""
from __future__ import annotations

import random
import unittest
from typing import NamedTuple

from playing_lists import ListTest, Played, Step, answer, answers, client, in_parallel, is_write, journal, play
from scenarios import BRANCHES, NAMED, SPENDS, Scenario
from test_seats import Right

LONG = NAMED["A_LONG_BRANCH_TAKEN_BACK"]

VERDICTS = ("valid", "invalid")


class Parted(NamedTuple):
    """A history without its verdicts, numbered anew; the place of each of these steps in the whole, behind a 0; the verdicts."""

    steps: list[Step]
    places: list[int]
    verdicts: list[Step]


def parted(steps: list[Step]) -> Parted:
    others = [step for step in steps if step.command.split(" ")[0] not in VERDICTS]
    renumbered = [step._replace(place=place) for place, step in enumerate(others, 1)]
    verdicts = [step for step in steps if step.command.split(" ")[0] in VERDICTS]
    return Parted(renumbered, [0, *(step.place for step in others)], verdicts)


def unasked(seed: int) -> str:
    """A thousand valid signatures that no script asks for."""
    draw = random.Random(seed)
    parts = ((draw.randbytes(33).hex(), draw.randbytes(70).hex(), draw.randbytes(3).hex()) for _ in range(1000))
    return "".join(f"verdict {key} {signature} genesis.cb 0 {code} 1\n" for key, signature, code in parts)


def signature(number: int) -> str:
    """One of 16,129, without its hash type."""
    return f"30060201{1 + number // 127:02x}0201{1 + number % 127:02x}"


class Signed:
    """Blocks on one another and beside each other, drawn at random, whose inputs have signatures: most are valid."""

    OUTPUTS = 60
    BLOCKS = 24

    def __init__(self, seed: int) -> None:
        self.draw = random.Random(seed)
        codes = [f"01{number:02x}ac" for number in range(1, self.OUTPUTS + 1)]
        lines = ["block f1 genesis", "chain c 99 f1", "tx A 1 0", "in f1.cb:0 -", *(f"out 1000000 {code}" for code in codes), "block b0 c99 A"]
        left = [list(range(self.OUTPUTS))]
        for number in range(1, self.BLOCKS + 1):
            parent = self.draw.randrange(max(0, number - 4), number)
            unspent = left[parent][:]
            self.draw.shuffle(unspent)
            spent, unspent = unspent[:3], unspent[3:]
            left.append(unspent)
            lines += [f"tx T{number} 1 0"]
            lines += [f"in A:{it} 09{signature(3 * number + place)}01" for place, it in enumerate(spent)]
            lines += [f"out {1000000 * len(spent)} 51"]
            is_valid = self.draw.random() < 0.8
            for place, it in enumerate(spent):
                if is_valid or place != 1:
                    lines.append(f"verdict {it + 1:02x} {signature(3 * number + place)} T{number} {place} {codes[it]} 1")
            lines.append(f"block b{number} b{parent} T{number}")
        self.definitions = "".join(f"{line}\n" for line in lines)

    def text(self, seats: int) -> str:
        """The chain below by all seats in turn, and then all blocks and some marks at so many seats at once, each in its own order."""
        below = client("p", ["submit f1", "each c 1 99", "submit b0"])
        each = []
        for seat in range(seats):
            commands = [f"submit b{number}" for number in range(1, self.BLOCKS + 1)]
            marks = [f"{word} b{self.draw.randrange(1, self.BLOCKS + 1)}" for word in ("invalidate", "reconsider", "precious")]
            for mark in marks:
                commands.insert(self.draw.randrange(len(commands)), mark)
            each.append(client(f"s{seat}", [line for command in commands for line in (command, "best")]))
        return self.definitions + below + "".join(each)


class Early(unittest.TestCase):
    def test_scripts_whose_signatures_the_seat_told(self) -> None:
        """A script without signatures runs only before the lock. Three that want a signature each run there too; under the lock their
        wants are answered without running them. After the seat has learnt the verdicts they run once more before the lock, and not
        under it."""
        codes = [f"01{number:02x}ac" for number in (1, 2, 3)]
        lines = ["chain c 100 genesis", "tx A 1 0", "in c1.cb:0 -", *(f"out 1000000 {code}" for code in codes), "block b0 c100 A", "tx T 1 0"]
        lines += [f"in A:{it} 09{signature(it)}01" for it in range(3)]
        lines += ["out 3000000 51", *(f"verdict {it + 1:02x} {signature(it)} T {it} {codes[it]} 1" for it in range(3)), "block b1 b0 T"]
        text = "".join(f"{line}\n" for line in lines) + client("a", ["each c 1 100", "submit b0", "submit b1"])
        for workers in (1, 4):
            with self.subTest(workers=workers):
                given = Played(play("node", text, workers=workers, need=1, wanted=0))
                self.assertEqual(given.clients["a"][-2:], ["submit b0 = accepted @101", "submit b1 = accepted @105"])
                self.assertEqual(given.gate, ["gate = met, 7 begun, 7 ended"])


class NoBytes(unittest.TestCase):
    """Words without bytes are asked for and told as others: whoever verifies them says that they aren't valid (Bitcoin Core's CheckSig
    has it so). Below the height of BIP 66, so that such a signature is tried."""

    def test_a_key_and_a_signature_without_bytes(self) -> None:
        codes = ["00ac91", "01aaac91", "00ac91"]
        spends = [f"09{signature(0)}01", "0101", "0101"]
        lines = ["chain c 100 genesis", "tx A 1 0", "in c1.cb:0 -", *(f"out 1000000 {code}" for code in codes), "block b0 c100 A"]
        lines += ["tx T 1 0", *(f"in A:{place} {spend}" for place, spend in enumerate(spends)), "out 3000000 51", "block b1 b0 T"]
        text = "".join(f"{line}\n" for line in lines) + client("a", ["each c 1 100", "submit b0", "submit b1"])
        for workers in (1, 4):
            with self.subTest(workers=workers):
                steps = Played(play("node", text, workers=workers, need=1, heights="500,1351,1251,432")).steps()
                self.assertEqual([step.command.split(" ")[0] for step in steps[100:]], ["submit", "invalid", "invalid", "invalid", "submit"])
                self.assertEqual(steps[-1].reply, "accepted")


class ByNeed(ListTest):
    def expect_places(self, steps: list[Step], verdicts: list[Step]) -> None:
        self.assertEqual([step.place for step in steps], list(range(1, len(steps) + 1)))
        self.assertEqual({step.reply for step in verdicts} - {"done"}, set())

    def expect_table(self, seats: int, workers: int) -> None:
        """The scenarios, each by all seats in turn."""

        def played(scenario: Scenario) -> Played:
            text = scenario.text()
            return Played(play("node", text, heights=scenario.heights, seats=seats, workers=workers, need=1))

        words = set()
        scenarios = [*BRANCHES, *SPENDS, LONG]
        for scenario, given in zip(scenarios, in_parallel(played, scenarios)):
            with self.subTest(scenario=scenario.name):
                steps, places, verdicts = parted(given.steps())
                self.expect_places(given.steps(), verdicts)
                words |= {step.command.split(" ")[0] for step in verdicts}
                lines = [f"{step.place} {step.seat} {step.command} = {step.reply}" for step in steps]
                self.expect_lines(lines, journal(scenario, seats))
                right = [f"{it.command} = {it.text} @{places[it.at]}" for it in answers(scenario)]
                self.expect_lines(given.clients["a"], right)
        self.assertEqual(words, set(VERDICTS))

    def test_at_one_seat(self) -> None:
        self.expect_table(1, 1)

    def test_at_four_seats_with_four_workers(self) -> None:
        self.expect_table(4, 4)

    def test_at_sixteen_seats(self) -> None:
        self.expect_table(16, 2)

    def expect_free(self, first: int, end: int) -> None:
        """Lists that fourteen seats share on threads that run at once."""

        def played(seed: int) -> tuple[int, Played, Right, list[str]]:
            signed = Signed(seed)
            given = Played(play("node", signed.text(14), seats=14, workers=2, need=1))
            steps = parted(given.steps()).steps
            more = client("a", [line for step in steps for line in step.words()])
            under_more = play("definition", signed.definitions + unasked(seed) + more).splitlines()
            return seed, given, Right(signed.definitions, steps), under_more

        words, shared = set(), 0
        for seed, given, right, under_more in in_parallel(played, range(first, end)):
            with self.subTest(list=seed):
                steps, places, verdicts = parted(given.steps())
                self.expect_places(given.steps(), verdicts)
                replies = [f"{step.words()[-1]} = {step.reply}" for step in steps]
                self.expect_lines(replies, right.replies)
                self.expect_lines(replies, right.definition)
                self.expect_lines(replies, under_more)
                for seat in range(14):
                    self.expect_seat(given.clients[f"s{seat}"], places, right)
                words |= {step.command.split(" ")[0] for step in verdicts}
                shared += len({step.seat for step in verdicts}) > 1
        self.assertEqual(words, set(VERDICTS))
        # more than one seat finds signatures out, wherever threads have processors
        self.assertGreater(shared, 20)

    def expect_seat(self, lines: list[str], places: list[int], right: Right) -> None:
        """Each answer is that of its place in the history, and the places never fall."""
        last = 0
        for line in lines:
            command, text, at = answer(line)
            self.assertLessEqual(last, at, line)
            last = at
            # so many other steps stand up to that place
            before = sum(place <= at for place in places[1:])
            if is_write(command):
                if text != "decode-failed":
                    self.assertEqual((places[before], text), (at, right.replies[before - 1].rpartition(" = ")[2]), line)
            else:
                self.assertEqual(f"{command} = {text}", right.best[before], line)

    def test_free_lists(self) -> None:
        self.expect_free(0, 200)
