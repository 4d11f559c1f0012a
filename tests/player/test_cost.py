"""What no clause says of scripts: how many are run above one that refuses, and what those of many inputs cost."""
from __future__ import annotations

import os
import subprocess
import tempfile
import unittest

import playing_lists
from playing_lists import Played, client, play

# A push of 520 bytes that is hashed 60 times: some 35,000 bytes. The first script refuses at once, so that whoever begins others
# beside it is busy with one until the refusal is noted.
SLOW = "4d0802" + "00" * 520 + "76a875" * 60 + "7551"
REFUSES = "00"

CHAIN = ["each c 1 101"]
ON_TOP = "block k c101 K\nblock x k X\n"
BESIDE = f"block j c101\n{ON_TOP}"


def given(scripts: list[str], spending: str, blocks: str, commands: list[str]) -> str:
    """A chain, a block with coins of these scripts, and one with a transaction that spends them all, each by the same script."""
    pays = "tx K 1 0\nin c1.cb:0 -\n" + "".join(f"out 1 {script}\n" for script in scripts)
    spends = "tx X 2 0\n" + "".join(f"in K:{place} {spending}\n" for place in range(len(scripts))) + "out 1 51\n"
    return "chain c 101 genesis\n" + pays + spends + blocks + client("a", [*CHAIN, *commands])


class AboveARefusal(unittest.TestCase):
    """Under the lock, of a block beside the best one: the scripts below the one that refuses are run, and of the others no more than
    are begun before its refusal is noted. Up to 256 scripts workers take one at a time, and above that many eight."""

    def begun(self, case: tuple[int, int, int]) -> int:
        """How many scripts are begun, of so many of which the one at a place refuses, by so many workers."""
        count, refused, workers = case
        coins = [REFUSES if place == refused else SLOW for place in range(count)]
        text = given(coins, "-", BESIDE, ["submit j", "submit k", "submit x"])
        played = Played(play("node", text, workers=workers, wanted=0))
        self.assertRegex(played.clients["a"][-1], f"^submit x = blk-bad-inputs 1:{refused} ")
        # The script of the payment which makes the coins isn't counted.
        return int(played.gate[0].split()[3]) - 1

    def test_scripts_above_a_refusal_by_several_workers(self) -> None:
        """A worker that the machine lets wait may note its refusal late, so the best of three plays counts."""
        for count, taken in ((256, 1), (600, 8)):
            for workers in (2, 8, 16):
                for refused in (0, 20):
                    with self.subTest(count=count, workers=workers, refused=refused):
                        found = min(self.begun((count, refused, workers)) for _ in range(3))
                        self.assertGreater(found, refused)
                        self.assertLessEqual(found, refused + taken * workers)


# A key of one byte, CHECKSIG and NOT: the signature, which is strictly encoded, isn't in the table, so the script accepts.
ASKS = "01aaac91"
SIGNATURE = "093006020101020101"
ALL, NONE = "01", "02"
# A script that drops what the input pushes.
DROPS = "7551"

# By which calls a block's scripts are run.
DOORS = [
    ("one thread", "chainstate", ON_TOP, ["submit k", "submit x"]),
    ("before the lock", "node", ON_TOP, ["submit k", "submit x"]),
    ("under the lock", "node", BESIDE, ["submit j", "submit k", "submit x"]),
]


class ManyInputs(unittest.TestCase):
    def test_digests_that_share_their_message(self) -> None:
        """By its definition a digest is of the whole transaction, so those of many inputs cost the square. What inputs of hash type
        ALL share is hashed once, and the rest eight at once; those of NONE share nothing, and are the measure."""
        for name, door, blocks, commands in DOORS:
            with self.subTest(name):
                shared, whole, none = (
                    given([script] * 1_000, SIGNATURE + kind, blocks, commands)
                    for script, kind in ((ASKS, ALL), (ASKS, NONE), (DROPS, ALL))
                )
                self.assertLess(least_ratio(door, whole, shared, none), 0.4)

    def test_digests_are_found_once(self) -> None:
        """Where scripts are run before the lock, digests are found there, and not again under it: so a block takes less than one and a
        half times as long as by one thread, and not twice as long. The plays are made in turn, and the least of three ratios counts."""
        doors = [(door, code, blocks, commands) for _, door, blocks, commands in DOORS[:2] for code in (ASKS, DROPS)]
        texts = {(door, code): given([code] * 2_000, SIGNATURE + ALL, blocks, commands) for door, code, blocks, commands in doors}
        self.assertLess(min(early_ratio(texts) for _ in range(3)), 1.5)

    def test_eight_times_the_inputs(self) -> None:
        """Without digests, eight times the inputs take less than sixteen times as long."""
        for name, door, blocks, commands in DOORS:
            with self.subTest(name):
                texts = [given([DROPS] * count, SIGNATURE + ALL, blocks, commands) for count in (2_000, 16_000)]
                self.assertLess(least_ratio(door, *texts), 16)


def early_ratio(texts: dict[tuple[str, str], str]) -> float:
    """How often the seconds for digests before the lock are those of one thread."""
    found = [{key: busy_once(key[0], text) for key, text in texts.items()} for _ in range(3)]
    least = {key: min(it[key] for it in found) for key in texts}
    alone, early = (least[door, ASKS] - least[door, DROPS] for door in ("chainstate", "node"))
    return early / alone


def least_ratio(door: str, few: str, many: str, none: str | None = None) -> float:
    """How often the seconds of one play are those of another, each less those of a third: the least of three times, since other
    work of the machine lengthens plays and never shortens them."""

    def ratio() -> float:
        beside = busy(door, none) if none else 0.0
        return (busy(door, many) - beside) / (busy(door, few) - beside)

    return min(ratio() for _ in range(3))


def busy(door: str, text: str) -> float:
    """The seconds that a processor has for a play, the least of three. Its last block has to be accepted."""
    return min(busy_once(door, text) for _ in range(3))


def busy_once(door: str, text: str) -> float:
    """All threads on one processor: two on halves of one core take longer each, so more threads would seem to do more work."""
    on_one = ["taskset", "--cpu-list", str(min(os.sched_getaffinity(0)))]
    with tempfile.TemporaryFile("w+") as listed, tempfile.TemporaryFile("w+") as told:
        listed.write(text)
        listed.seek(0)
        child = subprocess.Popen([*on_one, playing_lists.PLAYER, door, "-"], stdin=listed, stdout=told)
        _, status, usage = os.wait4(child.pid, 0)
        child.returncode = status
        told.seek(0)
        assert not status and "submit x = accepted" in told.read(), status
        # What of it was the system's is known by samples alone, and none may fall into the rest.
        return float(usage.ru_utime + usage.ru_stime)

