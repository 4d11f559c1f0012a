"""Plays of the program `player` while allocations are refused beneath it, and what each must print.

A play is asked again where it is refused memory. What it prints is in the table of scenarios, but for the replies that were
owed; at a chainstate also its state after each command. `player` prints the lines of a play where they differ from the play
before, and before them a line for each call in which memory was refused.
"""
import collections
import os
import re
import subprocess
import sys

ROOT = os.path.dirname(os.path.dirname(os.path.dirname(os.path.realpath(__file__))))
PLAYER = f"{ROOT}/crates/player/out/player"
SECONDS = 20  # for a play

for _it in ("program", "player"):
    sys.path.insert(0, f"{ROOT}/tests/{_it}")

import playing_lists as playing  # noqa: E402
import scenarios  # noqa: E402

# A coin whose script is too long to stand in place (more than 28 bytes), so that reading it takes memory.
SCRIPT = 28 * "61" + "51"
APART = scenarios.Scenario(
    "a coin of a long script",
    "1,1,1,1",
    f"block f1 genesis pay={SCRIPT}",
    f"submit f1 = accepted @1\ntxout f1.cb:0 = 5000000000 {SCRIPT} height 1 coinbase conf 1 @1\ntips = f1 1 0 active @1",
)
# Scripts so long that threads are started for them: before the lock, and under it by a reorganisation.
LONG = 8 * f"4d0802{520 * '00'}75" + "51"
THREADS = scenarios.Scenario(
    "long scripts",
    scenarios.REGTEST,
    f"chain c 100 genesis\ntx A 1 0\nin c1.cb:0 -\nout 1 {LONG}\nout 2 {LONG}\nout 3 {LONG}\n"
    "tx B 1 0\nin A:0 -\nin A:1 -\nin A:2 -\nout 1 51\nblock k c100 A\nblock x k B\nblock y k B\nblock z y",
    "each c 1 100 = accepted @1\nsubmit k = accepted @101\nsubmit x = accepted @102\nsubmit y = inconclusive @103\nsubmit z = accepted @104",
)
TABLE = {it.name: it for it in (*scenarios.NAMED.values(), APART, THREADS)}

WRITE = ("submit", "invalidate", "reconsider", "precious")

# These take no memory.
NONE = ("finish", "close", "getbestblockhash")


class Play(collections.namedtuple("Play", "door name seats skipped count")):
    """A list at a door; so many calls are made before allocations count, and so many of them are refused in a play."""

    def __str__(self):
        return f"{self.door}, {self.name}, seats {self.seats}, from call {self.skipped + 1} on, {self.count} refused"

    @property
    def scenario(self):
        return TABLE[self.name]

    @property
    def text(self):
        """What is played. At a chainstate the coins at all outputs of the blocks are looked at."""
        text = self.scenario.text()
        if self.door == "node":
            return text
        return text + playing.client("coins", playing.outputs_of(self.scenario.definitions))

    def words(self, first, number):
        """The words for so many plays, from that on in which the allocation of this number is the first that is refused."""
        numbers = {"heights": self.scenario.heights, "seats": self.seats, "skipped": self.skipped, "each": 1}
        numbers |= {"refused": self.count, "first": first, "count": number}
        return [self.door, "-", *(f"{name}={value}" for name, value in numbers.items())]

    def run(self, shim, first, number, **more):
        env = shim.env(REFUSALS_SECONDS=SECONDS, **more)
        how = {"env": env, "input": self.text, "capture_output": True, "text": True}
        return subprocess.run([PLAYER, *self.words(first, number)], **how)

    def kinds(self):
        """The writing calls of the list that take a step."""
        steps = (it.command.split()[0] for it in playing.answers(self.scenario) if it.text != "decode-failed")
        return {it for it in steps if it in WRITE}

    def right(self):
        """What a chainstate prints with nothing refused: the replies are those of the table, and each state that of a
        chainstate of one thread, also where the coins are lent."""
        printed = [playing.play(door, self.text, heights=self.scenario.heights, each=1) for door in ("chainstate", self.door)]
        one, other = ([line for line in it.splitlines() if not line.startswith("changes = ")] for it in printed)
        said = iter(one)
        wanted = [f"{it.command} = {it.text}" for it in playing.answers(self.scenario)]
        if one != other or not all(line in said for line in wanted):
            raise AssertionError(f"{self}: differs with nothing refused")
        return printed[1].splitlines()


class Difference(Exception):
    """What a play printed that it mustn't."""


def expect_seats(play, lines):
    """The lines of a play at a node: which calls were owed, by their kinds."""
    owed, seen, lines = [], 0, iter(lines)
    replies = {}

    def expect(wanted, command):
        line = next(lines, "nothing more")
        if line != wanted:
            raise Difference(f"{command}: {line}, not {wanted}")

    expect("client a", "the first line")
    for it in playing.answers(play.scenario):
        line = next(lines, "nothing more")
        if line == f"{it.command} = owed":
            owed.append(it.command.split()[0])
            replies[it.at] = "owed"
            expect(f"nothing = decode-failed @{seen}", it.command)
        elif line == f"{it.command} = {it.text} @{it.at}":
            seen = it.at
        else:
            raise Difference(f"{line}, not {it.command} = {it.text} @{it.at}")
    expect("journal", "the last line")
    for wanted in playing.journal(play.scenario, play.seats):
        place, front = int(wanted.split()[0]), wanted.rpartition(" = ")[0]
        expect(f"{front} = {replies[place]}" if place in replies else wanted, "the journal")
    if next(lines, None) is not None:
        raise Difference("more lines than there are calls")
    return owed


def expect_chain(right, lines):
    for line, wanted in zip([*lines, "nothing more"], [*right, "nothing more"]):
        if line != wanted:
            raise Difference(f"{line}, not {wanted}")
    return []


class Met:
    """What plays met: of each kind of call how many allocations were refused, and how often it was answered Memory and Owed."""

    def __init__(self):
        self.plays, self.kinds = 0, collections.defaultdict(lambda: [0] * 3)
        self.is_last = False

    def read(self, play, printed, right):
        """Reads what plays printed, and compares it: the first difference is raised, with the number of the allocation."""
        texts = re.split(r"^play (\d+)\n", printed, flags=re.M)[1:]
        owed = []
        for number, text in zip(texts[::2], texts[1::2]):
            refusals = re.findall(r"^refused (\d+) (\w+) (\w+)\n", text, re.M)
            lines = text.splitlines()[len(refusals) :]
            try:
                if lines:
                    owed = expect_seats(play, lines) if play.door == "node" else expect_chain(right, lines)
                self.add(play, refusals, owed)
            except Difference as why:
                raise Difference(f"{play.name}, allocation {number}: {why}") from None
            self.plays, self.is_last = self.plays + 1, not refusals

    def add(self, play, refusals, owed):
        """Each refusal is told by an answer, where one is refused; and what is told as owed is owed in the lines."""
        for count, kind, outcome in refusals:
            met = self.kinds[kind]
            met[0] += int(count)
            met[1] += outcome == "memory"
            met[2] += outcome == "owed"
            if kind in NONE:
                raise Difference(f"{kind} takes memory")
            if outcome not in ("memory", "owed") and play.count == 1:
                raise Difference(f"{kind} is answered although memory was refused in it")
            if play.count == 1 and int(count) != 1:
                raise Difference(f"{count} refusals in {kind}, of one that was asked for")
        told = sorted(kind for _, kind, outcome in refusals if outcome == "owed")
        if told != sorted(owed):
            raise Difference(f"{told} are told as owed, and {owed} are")

    def missing(self, play):
        """The writing calls that were never owed, though they take a step."""
        if play.door != "node" or play.count != 1:
            return []
        return [kind for kind in sorted(play.kinds()) if not self.kinds[kind][2] and (self.kinds[kind][0] or not play.skipped)]
