"""Seats of a node over lists drawn at random: sixteen in turn, four that share a list on running threads, and a ring of sixteen.

The history's replies are the definition's, its best blocks and tips the ones of the chainstate of one thread. Each seat's
answers are those at their places in it, and never stand before the ones that it had earlier: so whatever two seats saw, one
saw a beginning of what the other did.
"""
from __future__ import annotations

from playing_lists import ListTest, Played, Step, answer, client, definitions_of, in_parallel, is_write, play, play_list

# How many commands of a list are made at most.
COUNT = 2000

# How many blocks the chain of a ring has below.
BELOW = 100


class Drawn:
    """A list, and the clients of so many seats that share it, with such reads behind each command."""

    def __init__(self, seed: int, below: int, count: int) -> None:
        text = play_list("text", "random", seed=seed, below=below, count=count)
        self.definitions = definitions_of(text)
        self.commands = text.partition("client a\n")[2].splitlines()

    def clients(self, seats: int, reads: list[str], skipped: int = 0) -> list[str]:
        """Those behind so many commands. The moment of a submission is told to all."""
        lines: list[list[str]] = [[] for _ in range(seats)]
        number = 0
        for command in self.commands[skipped:]:
            if command.startswith("now "):
                for each in lines:
                    each.append(command)
                continue
            if number < COUNT:
                lines[number % seats] += [command, *reads]
            number += 1
        return [client(f"s{seat}", each) for seat, each in enumerate(lines)]


def word_of(command: str) -> str:
    """The word of a command. Blocks may have several names, of which a journal has one."""
    return command.split(" ")[0]


class Right:
    """What must be answered after each step of a history: its reply, the best block and the tips, from none on."""

    def __init__(self, definitions: str, steps: list[Step]) -> None:
        commands = [line for step in steps for line in step.words()]
        reads = ["best", "tips"]
        lines = [line for it in commands for line in ([it] if it.startswith("now ") else [it, *reads])]
        printed = play("chainstate", definitions + client("a", [*reads, *lines])).splitlines()
        self.best, self.tips = printed[0 : 3 * len(steps) + 2 : 3], printed[1 : 3 * len(steps) + 2 : 3]
        self.replies = printed[2 : 3 * len(steps) + 2 : 3]
        self.definition = play("definition", definitions + client("a", commands)).splitlines()


class Seats(ListTest):
    def expect_replies(self, steps: list[Step], right: Right) -> None:
        """A history's steps are numbered from 1, and their replies are the chainstate's and the definition's."""
        self.assertEqual([it.place for it in steps], list(range(1, len(steps) + 1)))
        given = [f"{step.words()[-1]} = {step.reply}" for step in steps]
        self.expect_lines(given, right.replies)
        self.expect_lines(given, right.definition)

    def expect_seat(self, number: int, lines: list[str], steps: list[Step], right: Right, first: int = 0) -> None:
        """A seat's answers behind so many steps, its own steps and best blocks in turn, are right; its stamps never fall, also
        not below that of a note that it was told; and its steps are its entries."""
        own, last, told = [], 0, 0
        for line in lines:
            if line.startswith("told "):
                told = int(line.removeprefix("told "))
                continue
            command, text, at = answer(line)
            self.assertLessEqual(max(last, told), at, line)
            last = at
            if is_write(command):
                own.append(at)
                step = steps[at - 1]
                self.assertEqual((step.seat, word_of(step.command), step.reply), (number, word_of(command), text))
            else:
                self.assertEqual(f"{command} = {text}", right.best[at])
        self.assertEqual(own, [step.place for step in steps[first:] if step.seat == number])

    def test_sixteen_seats_in_turn(self) -> None:
        """Two thousand commands, each with two reads behind it at the same seat; each step's place is one more than that of the
        one before."""
        drawn = Drawn(2000, 100, 800)
        text = drawn.definitions + "".join(drawn.clients(1, ["best", "tips"]))
        played = Played(play("node", text, seats=16, workers=2, in_a_row=3))
        steps = played.steps()
        self.assertEqual(len(steps), COUNT)
        right = Right(drawn.definitions, steps)
        self.expect_replies(steps, right)
        self.assertEqual([step.seat for step in steps], [number % 16 for number in range(COUNT)])
        lines = played.clients["s0"]
        for step, own, best, tips in zip(steps, lines[::3], lines[1::3], lines[2::3]):
            command, text, at = answer(own)
            self.assertEqual((word_of(command), text, at), (word_of(step.command), step.reply, step.place))
            self.assertEqual(best, f"{right.best[step.place]} @{step.place}")
            self.assertEqual(tips, f"{right.tips[step.place]} @{step.place}")
        self.assertEqual((list(played.clients), len(lines)), (["s0"], 3 * COUNT))

    def expect_free(self, first: int, end: int, below: int, count: int) -> None:
        """Lists that four seats share on threads that run at once, told nothing by the others."""

        def played(seed: int) -> tuple[int, Played, Right]:
            drawn = Drawn(seed, below, count)
            text = drawn.definitions + client("p", []) + "".join(drawn.clients(4, ["best"]))
            played = Played(play("node", text, seats=4, workers=2))
            return seed, played, Right(drawn.definitions, played.steps())

        for seed, found, right in in_parallel(played, range(first, end)):
            with self.subTest(list=seed):
                steps = found.steps()
                self.expect_replies(steps, right)
                self.assertEqual(sorted(found.clients), ["p", "s0", "s1", "s2", "s3"])
                for seat in range(4):
                    self.expect_seat(seat, found.clients[f"s{seat}"], steps, right)

    def test_free_lists_on_genesis(self) -> None:
        self.expect_free(0, 200, 0, 44)

    def test_free_lists_on_a_chain(self) -> None:
        self.expect_free(200, 210, 100, 100)

    def expect_told(self, lines: list[str], neighbour: list[str]) -> int:
        """A seat is told before each of its answers what its neighbour had seen by one of its own, ever more: how often that is
        more than it has seen itself."""
        self.assertTrue(all(line.startswith("told ") for line in lines[::2]))
        told = [int(line.removeprefix("told ")) for line in lines[::2]]
        stamps = [answer(line).at for line in lines[1::2]]
        self.assertEqual(told, sorted(told))
        self.assertLessEqual({at for at in told if at > BELOW}, {answer(line).at for line in neighbour[1::2]})
        return sum(before < at for before, at in zip([BELOW, *stamps], told))

    def test_a_ring_of_two_thousand_commands(self) -> None:
        """Behind a chain sixteen running threads in a ring share the commands, each with a read behind it: each is told before
        every call what its neighbour has seen by its last answer. How often that is news is up to who runs when: once at
        least, since no seat can be behind none of its neighbours."""
        drawn = Drawn(2001, BELOW, COUNT)
        chain = client("p", drawn.commands[:BELOW])
        text = drawn.definitions + chain + "".join(drawn.clients(1, ["best"], BELOW))
        played = Played(play("node", text, seats=16, workers=2, in_a_row=2, ring=1))
        steps = played.steps()
        self.assertEqual(len(steps), BELOW + COUNT)
        right = Right(drawn.definitions, steps)
        self.expect_replies(steps, right)
        names = [f"seat {seat}" for seat in range(16)]
        self.assertEqual(list(played.clients), ["p", *names])
        rings = [played.clients[name] for name in names]
        news = 0
        for seat, lines in enumerate(rings):
            self.assertEqual(len(lines), 4 * COUNT // 16)
            self.expect_seat(seat, lines, steps, right, BELOW)
            news += self.expect_told(lines, rings[seat - 1])
        self.assertGreater(news, 0)
