"""A node with so many coins that many maps of them are opened, with spends on both sides of that, and the allocations of
the step in which it happens refused."""
import glob
import os
import subprocess
import sys
from collections import Counter

import running
from running import ROOT, ProgramTest, lines
from writing import transaction

sys.path[:0] = [os.path.join(ROOT, "tests", "refusals"), os.path.join(ROOT, "tools")]

import places  # noqa: E402
from sources import repository  # noqa: E402

# A coin that comes where one map holds so many has many maps opened, and each that comes then brings one over
# (crates/coins).
MANY = 102_400
# How many of a step's allocations are refused from its first one on, and up to its last one. Of those between, by which
# the second copy takes in the coins of the block before, every APART-th is refused. After every LONG-th the call is made
# again.
ENDS, APART, LONG = 60, 250, 20


def coins(name: str, numbers: list[int]) -> list[str]:
    """Outputs of a transaction."""
    return [f"{name}:{number}" for number in numbers]


class ManyCoins(ProgramTest):
    def expect_answers(self, text: str, skipped: int, wanted: list[str]) -> None:
        """Plays a scenario, and compares the answers of its one client but for the first ones."""
        played = self.play(["run", "--scenario", "-", "--workers", "1"], text)
        self.assertEqual((played.status, played.err), (0, ""))
        self.assertEqual(played.out.split("journal\n")[0].splitlines()[1 + skipped :], wanted)

    def test_spends_on_both_sides(self) -> None:
        """60,000 coins, then 42,000, then 60,000; the third block spends of the first two; the next one of all, and so
        does one after it was taken back, when there are fewer again."""
        text = lines(
            "chain c 103 genesis",
            *transaction("A", ["c1.cb:0"], ["1 51"] * 60_000),
            "block a c103 A",
            *transaction("B", ["c2.cb:0", *coins("A", [0, 1])], ["2 51"] * 42_000),
            "block b a B",
            *transaction("C", ["c3.cb:0", *coins("A", [2, 59_999]), *coins("B", [0, 41_999])], ["3 51"] * 60_000),
            "block x b C",
            *transaction("D", [*coins("A", [3]), *coins("B", [1]), *coins("C", [0, 59_999])], ["9 51"]),
            "block y x D",
            *transaction("E", [*coins("A", [3, 4]), *coins("B", [2])], ["4 51"]),
            "block z b E",
            "client a",
            "each c 1 103",
            "submit a",
            "submit b",
            "submit x",
            "submit y",
            "txout A:2",
            "txout A:4",
            "txout A:59998",
            "txout B:1",
            "txout B:41998",
            "txout C:0",
            "txout C:59998",
            "txout D:0",
            "invalidate x",
            "txout A:2",
            "txout A:3",
            "txout B:1",
            "txout C:1",
            "submit z",
            "txout A:4",
            "txout B:2",
            "txout E:0",
            "invalidate z",
            "reconsider x",
            "txout A:4",
            "txout B:2",
            "txout C:59998",
            "txout D:0",
            "best",
        )
        self.expect_answers(
            text,
            103,
            [
                "submit a = accepted @104",
                "submit b = accepted @105",
                "submit x = accepted @106",
                "submit y = accepted @107",
                "txout A:2 = none @107",
                "txout A:4 = 1 51 height 104 conf 4 @107",
                "txout A:59998 = 1 51 height 104 conf 4 @107",
                "txout B:1 = none @107",
                "txout B:41998 = 2 51 height 105 conf 3 @107",
                "txout C:0 = none @107",
                "txout C:59998 = 3 51 height 106 conf 2 @107",
                "txout D:0 = 9 51 height 107 conf 1 @107",
                "invalidate x = done @108",
                "txout A:2 = 1 51 height 104 conf 2 @108",
                "txout A:3 = 1 51 height 104 conf 2 @108",
                "txout B:1 = 2 51 height 105 conf 1 @108",
                "txout C:1 = none @108",
                "submit z = accepted @109",
                "txout A:4 = none @109",
                "txout B:2 = none @109",
                "txout E:0 = 4 51 height 106 conf 1 @109",
                "invalidate z = done @110",
                "reconsider x = done @111",
                "txout A:4 = 1 51 height 104 conf 4 @111",
                "txout B:2 = 2 51 height 105 conf 3 @111",
                "txout C:59998 = 3 51 height 106 conf 2 @111",
                "txout D:0 = 9 51 height 107 conf 1 @111",
                "best = y @111",
            ],
        )


# Coins before the step: those of 104 coinbases, of A and of B, with two coinbases spent that come from c1 and c2.
FIRST = 60_000
SECOND = MANY - 1 - (104 - 1 + 1 + FIRST) - 1 + 2
READS = ["txout A:1", "txout A:3", "txout B:0", "txout X:0", "best"]
# How many lines a call and the reads after it have.
CALL = 1 + len(READS)


class RefusedCoins(ProgramTest):
    """One coin is lacking to MANY. The block x brings four and takes three, so in its step both published copies open many
    maps and bring coins over. It is submitted twice: what was refused is taken or shown by the second call."""

    def setUp(self) -> None:
        super().setUp()
        self.shim = self.path("forks.so")
        source = os.path.join(ROOT, "tests", "refusals", "forks.c")
        subprocess.run(["cc", "-O2", "-Wall", "-shared", "-fPIC", "-o", self.shim, source], check=True)
        text = lines(
            "chain c 104 genesis",
            *transaction("A", ["c1.cb:0"], ["1 51"] * FIRST),
            "block a c104 A",
            *transaction("B", ["c2.cb:0", "A:0"], ["1 51"] * SECOND),
            "block b a B",
            *transaction("X", ["A:1", "A:2", "B:0"], ["1 51"] * 3),
            "block x b X",
            "client a",
            "each c 1 104",
            "submit a",
            "submit b",
            *["submit x", *READS] * 2,
        )
        self.write("scenario.txt", text)

    def run_forks(self, line: int, **more: int) -> list[int]:
        """Refuses allocations of the step whose answer is in the line of this number: how many it makes, how many
        processes ended by a signal, how many with another status than 0, and how many were refused."""
        settings = {"FROM": line - 1, "TO": line, "LINES": CALL, "LONG": LONG, "LONG_LINES": 2 * CALL, **more}
        settings["AT_ONCE"] = os.cpu_count() or 1
        env = {f"FORKS_{name}": str(value) for name, value in settings.items()}
        for file in glob.glob(self.path("room/*")):
            os.remove(file)
        words = [running.PROGRAM, "run", "--scenario", "scenario.txt", "--workers", "1"]
        env |= {"LD_PRELOAD": self.shim, "FORKS_ROOM": self.path("room")}
        env |= {"STACKS_TABLE": self.path("table"), "STACKS_FILE": self.path("room/stacks")}
        with open(self.path("out"), "wb") as out:
            subprocess.run(words, cwd=self.folder, env=env, stdout=out, stderr=subprocess.DEVNULL, check=True, timeout=300)
        return [int(word) for word in self.read("room/count").split()]

    def expect_step(self, line: int, answers: dict[str, list[str]]) -> None:
        """Each process wrote one of these lists of answers, by the first one's word; each list was met. A process that was
        refused what the answer's line takes ends with a fault, and wrote nothing."""
        number = self.run_forks(line, FIRST=0, LAST=0)[0]
        self.assertGreater(number, 2 * ENDS)
        _, killed, faults, refused = self.run_forks(line, FIRST=ENDS, LAST=number - ENDS, APART=APART)
        self.assertEqual(killed, 0)
        self.expect_stacks(number, refused)
        met: Counter[str] = Counter()
        for file in glob.glob(self.path("room/[0-9]*")):
            written = self.read(file).splitlines()
            if not written:
                faults -= 1
                continue
            word = written[0].split(" = ")[1]
            is_long = int(os.path.basename(file)) % LONG == 0
            self.assertEqual(written, answers[word][: 2 * CALL if is_long else CALL])
            met[word] += 1
        self.assertEqual(faults, 0)
        self.assertEqual(sorted(met), sorted(answers))
        self.assertGreater(sum(met.values()), 2 * ENDS + (number - 2 * ENDS) // APART - 20)

    def expect_stacks(self, number: int, refused: int) -> None:
        """At least one allocation of each call stack was refused, if they can be read. Prints which weren't refused."""
        stacks = list(places.stacks_in(self.path("room/stacks")))
        met = {it.hash: it for it in stacks if it.kind == "met"}
        odd = [it for it in met.values() if not self.calls.is_consistent(it.frames)]
        if len(met) <= 20 or places.are_too_many(odd, met.values()):
            print("call stacks can't be read to their end, so they aren't judged here", file=sys.__stdout__)
            return
        self.assertEqual(met.keys(), {it.hash for it in stacks if it.kind == "refused"})
        print(
            f"of {number} allocations by {len(met)} call stacks {refused} are refused, of each stack one; the others, from {ENDS + 1} "
            f"to {number - ENDS} except for each {APART}th, are of the same stacks",
            file=sys.__stdout__,
        )

    def test_allocations_refused(self) -> None:
        self.make_folder("room")
        self.calls = places.Program(running.PROGRAM, set(repository.crates()))
        self.calls.write_table(self.path("table"))
        before = ["txout A:1 = 1 51 height 105 conf 2 @106", "txout A:3 = 1 51 height 105 conf 2 @106"]
        before += ["txout B:0 = 1 51 height 106 conf 1 @106", "txout X:0 = none @106", "best = b @106"]

        def after(at: int) -> list[str]:
            """The reads after x, of a list of so many entries."""
            reads = ["txout A:1 = none", "txout A:3 = 1 51 height 105 conf 3", "txout B:0 = none"]
            reads += ["txout X:0 = 1 51 height 107 conf 1", "best = x"]
            return [f"{read} @{at}" for read in reads]

        self.expect_step(
            108,
            {
                "memory": ["submit x = memory", *before, "submit x = accepted @107", *after(107)],
                "owed": ["submit x = owed", *before, "submit x = duplicate @108", *after(108)],
            },
        )
