"""A script that is refused far down a block, and a coin with the longest script that a coin may have."""
from running import ProgramTest, lines
from writing import transaction

# What a script of a coin may have at most, in bytes.
LONGEST = 10_000


class LongScripts(ProgramTest):
    def test_a_script_refused_at_input_1500(self) -> None:
        """1,600 coins of which one has a script that leaves no true top: by one worker and by several."""
        outputs = ["1 51"] * 1500 + ["1 00"] + ["1 51"] * 99
        text = lines(
            "chain c 100 genesis",
            *transaction("F", ["c1.cb:0"], outputs),
            "block f c100 F",
            *transaction("G", [f"F:{number}" for number in range(1600)], ["1600 51"]),
            "block g f G",
            *transaction("H", [f"F:{number}" for number in range(1600) if number != 1500], ["1599 51"]),
            "block h f H",
            "client a",
            "each c 1 100",
            "submit f",
            "submit g",
            "submit h",
            "txout F:1500",
            "txout H:0",
        )
        for workers in ["1", "4", "16"]:
            with self.subTest(workers=workers):
                played = self.play(["run", "--scenario", "-", "--workers", workers], text)
                self.assertEqual((played.status, played.err), (0, ""))
                answers = played.out.split("journal\n")[0].splitlines()[101:]
                wanted = [
                    "submit f = accepted @101",
                    "submit g = blk-bad-inputs 1:1500 @102",
                    "submit h = accepted @103",
                    "txout F:1500 = 1 00 height 101 conf 2 @103",
                    "txout H:0 = 1599 51 height 102 conf 1 @103",
                ]
                self.assertEqual(answers, wanted)

    def test_a_coin_with_the_longest_script(self) -> None:
        """One byte more, and the output is no coin."""
        longest = "51" * LONGEST
        text = lines(
            "chain c 100 genesis",
            *transaction("F", ["c1.cb:0"], [f"7 {longest}", f"8 {longest}51"]),
            "block f c100 F",
            "client a",
            "each c 1 100",
            "submit f",
            "txout F:0",
            "txout F:1",
        )
        played = self.play(["run", "--scenario", "-"], text)
        self.assertEqual((played.status, played.err), (0, ""))
        answers = played.out.split("journal\n")[0].splitlines()[101:]
        wanted = [
            "submit f = accepted @101",
            f"txout F:0 = 7 {longest} height 101 conf 1 @101",
            "txout F:1 = none @101",
        ]
        self.assertEqual(answers, wanted)
