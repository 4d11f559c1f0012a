"""Options of `run`: heights of soft forks, workers, folders; and how far the work is."""
from playing import SavedTest
from running import Played
from scenarios import NAMED

# What isn't four decimal numbers of 32 bits, parted by commas.
NO_HEIGHTS = [
    "",
    "1",
    "1,1,1",
    "1,1,1,1,1",
    "1,1,1,",
    "1,,1,1",
    "1,1,1,+1",
    "1,1,1,-1",
    "1, 1,1,1",
    "1,1,1,4294967296",
]

# Heights that can be read.
HEIGHTS = ["0,0,0,0", "0001,1,1,1", "4294967295,1,1,1"]

# Numbers of workers that there can't be.
NO_WORKERS = ["0", "17", "two", ""]


class CommandLineRuns(SavedTest):
    def expect_empty_run(self, words: list[str]) -> None:
        """A run without a command."""
        self.expect(words, "client a\n", Played(0, "client a\njournal\n", ""))

    def expect_refused(self, words: list[str]) -> None:
        """A command line that is refused by `clap`'s text."""
        with self.subTest(words=words):
            played = self.play(words, "client a\n")
            self.assertEqual(played.err[:7], "error: ")
            self.assertEqual((played.status, played.out), (1, ""))

    def test_heights_that_are_not_read(self) -> None:
        """They are looked at before any file."""
        for word in NO_HEIGHTS:
            self.expect_fault(["run", "--scenario", "no", "--heights", word], "", "regchain: heights\n")

    def test_heights_that_are_read(self) -> None:
        for word in HEIGHTS:
            self.expect_empty_run(["run", "--scenario", "-", "--heights", word])

    def test_workers(self) -> None:
        for word in ["1", "16"]:
            self.expect_empty_run(["run", "--scenario", "-", "--workers", word])
        for word in NO_WORKERS:
            self.expect_refused(["run", "--scenario", "-", "--workers", word])

    def test_a_folder_that_is_not_there(self) -> None:
        """It is told before the run, and the first file is named with the folder as it was given. The blk file's fault
        comes first."""
        self.write("file", "")
        self.write("garbage.blk", "garbage")
        words = ["run", "--scenario", "-", "--save"]
        for folder, why in [("not/there", "No such file or directory"), ("file", "Not a directory")]:
            fault = f"cannot write {folder}/journal.txt"
            self.expect_fault([*words, folder], "client a\n", f"regchain: {fault}\n{fault}: {why}\n")
        self.expect_fault([*words, "not/there"], "", "regchain: scenario line 1\n")
        wanted = Played(1, "client blk\n", "regchain: blk stopped at 0\n")
        self.expect([*words, "not/there", "--blk", "garbage.blk"], "client a\n", wanted)

    def test_progress(self) -> None:
        """How far a run is stands on a terminal alone: not on the standard output, nor on any other standard error."""
        words, text = ["run", "--scenario", "-"], "client a\nsubmit genesis\nbest\n"
        played = self.play_over_terminal(words, text)
        self.assertEqual(
            played.out,
            "client a\nsubmit genesis = duplicate @1\nbest = genesis @1\njournal\n"
            "1 a submit genesis 1296688602 = duplicate\n",
        )
        self.assertRegex(played.err, r"\Aregchain: 1 blocks, ")
        self.assertEqual(played.status, 0)
        self.assertEqual(self.play(words, text).err, "")

    def test_progress_of_an_audit(self) -> None:
        """A replay tells how many lines and blocks it has before it begins, and how many blocks it had when it has
        ended."""
        self.save(NAMED["MARKS_SET_AND_TAKEN"])
        words = ["audit", "--journal", "saved/journal.txt", "--blk", "saved/blocks.blk"]
        played = self.play_over_terminal(words)
        self.assertEqual((played.out, played.status), ("agrees\n", 0))
        self.assertRegex(played.err, r"\Aregchain: replaying 9 lines, 5 blocks\nregchain: 5 blocks, ")
        self.assertEqual(self.play(words).err, "")
