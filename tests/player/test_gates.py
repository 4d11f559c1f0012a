"""Scripts that wait in the gate: before the lock and under it, and what others do meanwhile.

A reader can't be held inside a view by any public call of a node: the reading calls call nothing that a caller gave while they
are inside, and a submission leaves the view before its scripts, so before the gate is called. What is tested is that a writer
which is held in the gate, before the lock or under it, holds up no reader, and before the lock no writer. Where somebody waits
in vain, the program goes on after some looks and says `not met`.
"""
from __future__ import annotations

import unittest
from typing import Any, NamedTuple

from playing_lists import Played, client, in_parallel, play

# How many inputs a block with many scripts has.
MANY = 300

# A chain of 100; blocks on it of one script, of two, and of none, and some on those; and two blocks of as many inputs as MANY:
# of one that spends a coinbase, and of others that spend what it makes.
DEFINITIONS = (
    """\
chain c 100 genesis
tx A 1 0
in c1.cb:0 -
out 5000000000 51
tx B 1 0
in A:0 -
out 5000000000 51
block f c100 A
block g c100 A
block h c100 A B
block h2 h
block i f B
block r c100 root=0000000000000000000000000000000000000000000000000000000000000000 A B
chain k 3 c100
tx M 1 0
in c1.cb:0 -
"""
    + "out 1 51\n" * (MANY - 1)
    + "tx N 1 0\nout 1 51\n"
    + "".join(f"in M:{number} -\n" for number in range(MANY - 1))
    + "block m c100 M N\nblock n c100 M N\n"
)

CHAIN = ["each c 1 100"]

# A number of scripts that never begin: the gate opens as the first client has ended.
NEVER = 2**64 - 1


class Row(NamedTuple):
    """What two seats do after others were asked in turn: so many scripts are run, each once, and nobody waits in vain."""

    # As so many scripts have begun, the gate opens. At 0 it is open.
    wanted: int
    # How many scripts are run in all.
    scripts: int
    clients: list[list[str]]
    # What may be answered to the last two of them.
    answers: list[list[list[str]]]
    # How many workers a seat has.
    workers: int = 1
    # From which height on the rules of BIP 65, of BIP 66 and of BIPs 68, 112 and 113 are in force.
    forks: int = 1
    # Whether both are asked at once, or one after the other.
    threads: int = 2


# Two blocks of 300 inputs on the same one. The gate opens when more scripts have begun than one seat has workers, so both are
# before the lock. The block that comes second is never connected, and yet all its scripts are run: they are run before the
# lock, as the first one's, and not again under it.
MANY_AT_TWO_SEATS = Row(
    2,
    2 * MANY,
    [CHAIN, ["submit m"], ["submit n"]],
    [[["accepted @101"], ["inconclusive @102"]], [["inconclusive @102"], ["accepted @101"]]],
)

ROWS = [
    # Two seats submit blocks on the same one, and both are in the gate at once, so before the lock. The script of neither is
    # run again.
    Row(
        2,
        2,
        [CHAIN, ["submit f"], ["submit g"]],
        [[["accepted @101"], ["inconclusive @102"]], [["inconclusive @102"], ["accepted @101"]]],
    ),
    # While the scripts of a submission are run, another seat submits three blocks on the same one, and reads. The submission
    # is answered by the chain that it then comes to.
    Row(
        NEVER,
        2,
        [CHAIN, ["each k 1 3", "best"], ["submit h", "tips"]],
        [
            [
                ["accepted @101", "accepted @102", "accepted @103", "k3 @103"],
                ["inconclusive @104", "k3 103 0 active; h 101 1 valid-headers @104"],
            ]
        ],
    ),
    # While a writer runs scripts under the lock, another seat reads what was published before.
    Row(
        NEVER,
        2,
        [[*CHAIN, "submit k1", "submit h"], ["best", "txout c1.cb:0"], ["submit h2", "best"]],
        [[["k1 @102", "5000000000 51 height 1 coinbase conf 101 @102"], ["accepted @103", "h2 @103"]]],
    ),
    # A seat that wasn't told of a block submits one on it, which spends what that made.
    Row(
        0,
        2,
        [CHAIN, ["submit f"], ["submit i", "best"]],
        [[["accepted @101"], ["accepted @102", "i @102"]]],
        threads=1,
    ),
    # A block that breaks a rule by itself, though its scripts could be run.
    Row(0, 0, [CHAIN, ["submit r"], ["best"]], [[["bad-txnmrklroot @101"], ["c100 @101"]]], threads=1),
    # The first block of a height at which forks are in force. A script that was run before the lock under the rules of the
    # height below would be run again under it.
    Row(0, 2, [CHAIN, ["submit h"], ["best"]], [[["accepted @101"], ["h @101"]]], forks=101, threads=1),
    MANY_AT_TWO_SEATS,
    MANY_AT_TWO_SEATS._replace(wanted=5, workers=4),
    MANY_AT_TWO_SEATS._replace(wanted=17, workers=16),
]


def played(row: Row) -> Played:
    text = DEFINITIONS + "".join(client(f"s{number}", lines) for number, lines in enumerate(row.clients))
    heights = f"1,{row.forks},{row.forks},{row.forks}"
    numbers: dict[str, Any] = {"seats": 2, "workers": row.workers, "threads": row.threads, "wanted": row.wanted}
    return Played(play("node", text, heights=heights, **numbers))


class Gates(unittest.TestCase):
    def test_scripts_before_the_lock(self) -> None:
        for row, given in zip(ROWS, in_parallel(played, ROWS)):
            with self.subTest(clients=row.clients, workers=row.workers):
                told = [[line.split(" = ")[1] for line in given.clients[name]] for name in ("s1", "s2")]
                self.assertIn(told, row.answers)
                self.assertEqual(given.gate, [f"gate = met, {row.scripts} begun, {row.scripts} ended"])


# The seats of three clients on three running threads: the first submits a chain of 100 and sends a note; it submits a block that
# spends, and is held in the gate. The second, told the note, reads; then the gate opens, and the second, told the next note,
# reads again. The third is told nothing, and reads when the others are done.
class Handover(unittest.TestCase):
    def test_notes_between_running_threads(self) -> None:
        text = (
            "chain c 100 genesis\ntx A 1 0\nin c1.cb:0 -\nout 5000000000 51\nblock f c100 A\n"
            + client("a", [*CHAIN, "submit f"])
            + client("b", ["best", "tips"])
            + client("c", ["best", "tips"])
        )
        given = Played(play("handover", text, wanted=NEVER))
        chain = [f"submit c{height} = accepted @{height}" for height in range(1, 101)]
        before = ["best = c100 @100", "tips = c100 100 0 active @100"]
        behind = ["best = f @101", "tips = f 101 0 active @101"]
        self.assertEqual(given.clients["writer"], [*chain, "submit f = accepted @101"])
        self.assertEqual(given.clients["reader"], [*before, *behind])
        self.assertEqual(given.clients["last"], behind)
        self.assertEqual(given.gate, ["gate = met, 1 begun, 1 ended"])


class Inside(unittest.TestCase):
    def test_a_reader_that_stays(self) -> None:
        """While a reader is inside, one publication ends and the next one doesn't, and another reader comes and goes 1,000 times.
        When it has left, that publication ends too."""
        given = play("inside")
        self.assertEqual(given, "published while a reader was inside = 1\npublished = 2\n")


class Moved(unittest.TestCase):
    def test_a_seat_that_is_told_nothing(self) -> None:
        """It reads on threads of its own, and sees each step that has ended."""
        marks = ["invalidate " + "07" * 32, "best"] * 100
        given = Played(play("node", client("a", marks), seats=2, moved=1, untold=1))
        stamps = [line.rsplit("@", 1)[1] for line in given.clients["a"]]
        self.assertEqual(stamps, [str(at) for step in range(1, 101) for at in (step, step)])


class Meeting(unittest.TestCase):
    def expect(self, threads: int) -> Played:
        """Two seats that come back from their threads meet: both have then seen what either had, and each reads no earlier."""
        steps = [f"invalidate {'07' * 32}"]
        text = client("p", []) + client("a", steps * 30) + client("b", [*steps * 40, "best"])
        given = Played(play("node", text, seats=2, threads=threads, meet=1))
        stamps = [int(given.clients[name][-1].rsplit("@", 1)[1]) for name in ("a", "b")]
        before, behind, *reads = given.clients["meeting"]
        self.assertEqual(before, f"seen {stamps[0]} {stamps[1]}")
        self.assertEqual(behind, f"seen {max(stamps)} {max(stamps)}")
        self.assertEqual(reads, ["best = genesis @70"] * 2)
        return given

    def test_seats_that_come_back_meet(self) -> None:
        self.expect(2)

    def test_one_seat_after_the_other(self) -> None:
        """The first has seen its own steps alone until they meet."""
        self.assertEqual(self.expect(1).clients["meeting"][:2], ["seen 30 70", "seen 70 70"])


class Ends(unittest.TestCase):
    def test_seats_that_are_left_out(self) -> None:
        """Whoever isn't passed to `finish` or `close`, the whole history comes."""
        block = "07" * 32
        text = client("a", [f"invalidate {block}"] * 3)
        right = [f"{seat + 1} {seat} invalidate {block} = not-found" for seat in range(3)]
        for passed in range(4):
            for close in (0, 1):
                with self.subTest(passed=passed, close=close):
                    given = Played(play("node", text, seats=3, passed=passed, close=close))
                    self.assertEqual(given.journal, right)


class Openings(unittest.TestCase):
    def test_numbers_that_are_refused(self) -> None:
        for workers, seats, fault in [(0, 17, "workers"), (17, 1, "workers"), (16, 0, "seats"), (1, 17, "seats")]:
            with self.subTest(workers=workers, seats=seats):
                self.assertEqual(play("node", "client a\nbest\n", workers=workers, seats=seats), f"open = {fault}\n")

    def test_the_largest_numbers(self) -> None:
        given = Played(play("node", client("a", ["invalidate genesis"] * 17), workers=16, seats=16))
        self.assertEqual([step.seat for step in given.steps()], [*range(16), 0])
