"""The block tree of a run and of a saved folder, on a terminal and as a picture."""
from __future__ import annotations

import re
import xml.etree.ElementTree as xml
from subprocess import PIPE

from blocks import FIRST, FIRST_HEAD, FIRST_ID, child_of_genesis
from running import Played, ProgramTest, Terminal, lines

# A branch that fails: x2 pays too much, which is found when x3 makes it the highest.
FAILING = lines(
    "block b1 genesis",
    "block b2 b1",
    "block x1 genesis",
    "block x2 x1 reward=5000000001",
    "block x3 x2",
    "block y2 x1",
    "client a",
    "submit b1",
    "submit b2",
    "submit x1",
    "submit x2",
    "submit x3",
    "submit y2",
)

FAILING_TREE = lines(
    "● genesis (0) active",
    "┠─○ x1 (1) valid-fork",
    "┃ ├─□ y2 (2) valid-headers",
    "┃ ◆ x2 (2) invalid, marked",
    "┃ ◇ x3 (3) invalid",
    "● b1 (1) active",
    "● b2 (2) active, best",
)

# Runs: of blocks that look alike, and of no fewer than four; where a mark is set the branches above the best stand open.
LONG = lines(
    "chain c 100 genesis",
    "chain d 3 c100",
    "block e1 c10",
    "chain f 4 c99",
    "client a",
    "each c 1 100",
    "each d 1 3",
    "submit e1",
    "each f 1 4",
    "invalidate c100",
    "invalidate f1",
)

LONG_TREE = lines(
    "● genesis (0) active",
    "● c1 .. c10 (1 to 10, 10 blocks) active",
    "┠─□ e1 (11) valid-headers",
    "● c11 .. c99 (11 to 99, 89 blocks) active, best",
    "┠─◆ c100 (100) invalid, marked",
    "┃ ◇ d1 (101) invalid",
    "┃ ◇ d2 (102) invalid",
    "┃ ◇ d3 (103) invalid",
    "┖─◆ f1 (100) invalid, marked",
    "  ◇ f2 (101) invalid",
    "  ◇ f3 (102) invalid",
    "  ◇ f4 (103) invalid",
)

# The branches of both, folded.
FAILING_FOLDED = lines(
    "● genesis (0) active",
    "┠─▣ x1 .. x3 (1 to 3, 4 blocks, 2 tips) mixed, marked",
    "● b1 (1) active",
    "● b2 (2) active, best",
)

LONG_FOLDED = lines(
    "● genesis (0) active",
    "● c1 .. c10 (1 to 10, 10 blocks) active",
    "┠─□ e1 (11) valid-headers",
    "● c11 .. c99 (11 to 99, 89 blocks) active, best",
    "┠─◆ c100 .. d3 (100 to 103, 4 blocks) invalid, marked",
    "┖─◆ f1 .. f4 (100 to 103, 4 blocks) invalid, marked",
)

# From the height at which a branch begins, so that it hangs on a stub too, and from one above the active block.
LONG_FROM_11 = lines(
    "┊ c10 (10) below",
    "┠┄┊ c10 (10) below",
    "┃ □ e1 (11) valid-headers",
    *LONG_TREE.splitlines()[3:],
)

LONG_FROM_101 = lines(
    "┊ c99 (99) below",
    "◇ d1 (101) invalid",
    "◇ d2 (102) invalid",
    "◇ d3 (103) invalid",
    "┊ c99 (99) below",
    "◇ f2 (101) invalid",
    "◇ f3 (102) invalid",
    "◇ f4 (103) invalid",
)

# The colours of ECMA-48 by the words of a line.
COLORS = {"active": 32, "valid-fork": 94, "valid-headers": 90, "invalid": 31, "mixed": 35, "below": 90}

SVG = "{http://www.w3.org/2000/svg}"


class Tree(ProgramTest):
    def utf8(self, text: str) -> str:
        """A text as `play` gives it: a letter for each byte."""
        return text.encode().decode("latin-1")

    def expect_tree(self, words: list[str], text: str, tree: str) -> None:
        self.expect(words, text, Played(0, self.utf8(tree), ""))

    def picture(self, name: str) -> xml.Element:
        return xml.fromstring(self.read_bytes(name))

    def pieces(self, picture: xml.Element) -> list[tuple[str, str]]:
        """The class and the title of each block or run of a picture."""
        found = [(group.get("class", ""), group.find(f"{SVG}title")) for group in picture.iter(f"{SVG}g")]
        return [(kind, title.text or "") for kind, title in found if title is not None]

    def test_of_a_scenario(self) -> None:
        self.expect_tree(["tree", "--scenario", "-"], FAILING, FAILING_TREE)

    def test_runs_and_marks_above_the_best_block(self) -> None:
        self.expect_tree(["tree", "--scenario", "-"], LONG, LONG_TREE)

    def test_a_part(self) -> None:
        """From a height on, or the last heights up to the highest block; all where there are fewer."""
        words = ["tree", "--scenario", "-"]
        for more, tree in [
            (["--from", "0"], LONG_TREE),
            (["--from", "11"], LONG_FROM_11),
            (["--last", "93"], LONG_FROM_11),
            (["--from", "101"], LONG_FROM_101),
            (["--last", "3"], LONG_FROM_101),
            (["--last", "104"], LONG_TREE),
            (["--last", "18446744073709551615"], LONG_TREE),
        ]:
            self.expect_tree([*words, *more], LONG, tree)
        told = "no height 104"
        pictures: list[list[str]] = [[], ["--svg", "tree.svg"]]
        for more in pictures:
            self.expect_fault([*words, "--from", "104", *more], LONG, f"regchain: {told}\n{told}: the highest block is at 103\n")
        self.assertFalse(self.exists("tree.svg"))

    def test_folded(self) -> None:
        words = ["tree", "--scenario", "-", "--fold"]
        self.expect_tree([*words, "always"], FAILING, FAILING_FOLDED)
        self.expect_tree([*words, "always"], LONG, LONG_FOLDED)
        for when in ("never", "auto"):
            self.expect_tree([*words, when], LONG, LONG_TREE)

    def test_options_that_are_refused(self) -> None:
        for words in (["--last", "0"], ["--from", "1", "--last", "1"], ["--fold", "yes"], ["--color", ""], ["--from", "-1"]):
            with self.subTest(words=words):
                played = self.play(["tree", "--scenario", "-", *words], FAILING)
                self.assertEqual((played.status, played.out, played.err[:7]), (1, "", "error: "))

    def test_colors(self) -> None:
        """The shape and the words of each line have the colour of its status. On a terminal they come unasked, elsewhere not."""
        tree = ["tree", "--scenario", "-"]
        for text, plain in [(FAILING, FAILING_TREE), (LONG, LONG_TREE)]:
            out = self.play([*tree, "--color", "always"], text).out
            self.assertEqual(re.sub("\x1b\\[\\d+m", "", out), self.utf8(plain))
            for line in out.splitlines():
                word = re.findall(r"\) (?:\x1b\[\d+m)?([a-z-]+)", line)[0]
                self.assertEqual(re.findall("\x1b\\[(\\d+)m", line), [str(COLORS[word]), "0"] * 2)
        asked: list[tuple[list[str], bool]] = [([], True), (["--color", "never"], False), (["--color", "auto"], True)]
        for words, is_colored in asked:
            with Terminal() as terminal:
                self.play_on([*tree, *words], input=FAILING.encode(), stdout=terminal.side, stderr=PIPE)
                self.assertEqual("\x1b[" in terminal.shown(), is_colored)

    def test_an_output_that_is_compared_has_no_colors(self) -> None:
        words = ["run", "--scenario", "-", "--tree"]
        self.write("expected.txt", self.play(words, FAILING).out)
        with Terminal() as terminal:
            played = self.play_on([*words, "--expect", "expected.txt"], input=FAILING.encode(), stdout=terminal.side, stderr=PIPE)
            self.assertEqual((played.status, played.err), (0, ""))
            self.assertNotIn("\x1b[", terminal.shown())

    def test_the_legend_of_a_text(self) -> None:
        """Behind the tree there is a line for each shape, with its status."""
        out = self.play(["tree", "--scenario", "-", "--legend"], FAILING).out.encode("latin-1").decode()
        self.assertEqual(out[: len(FAILING_TREE)], FAILING_TREE)
        told = [line.split(" ")[:2] for line in out[len(FAILING_TREE) :].splitlines()]
        wanted = [("●", "active"), ("○", "valid-fork"), ("□", "valid-headers"), ("◇", "invalid"), ("◆", "marked"), ("▣", "folded"), ("┊", "stub")]
        self.assertEqual(told, [list(each) for each in wanted])

    def test_options_of_a_run(self) -> None:
        words = ["run", "--scenario", "-"]
        plain = self.play(words, LONG).out
        more = ["--tree", "--from", "11", "--fold", "always", "--color", "never"]
        tree = lines(*LONG_FROM_11.splitlines()[:4], *LONG_FOLDED.splitlines()[4:])
        self.expect_tree([*words, *more], LONG, plain + "tree\n" + tree)

    def test_options_of_a_tree_that_is_not_shown(self) -> None:
        """A run that shows no tree and draws none takes none of them; one that draws does."""
        for words in (["--legend"], ["--from", "1"], ["--last", "2"], ["--fold", "always"], ["--color", "never"]):
            played = self.play(["run", "--scenario", "-", *words], LONG)
            told = f"error: the argument '{words[0]}' cannot be used without '--tree' or '--svg'"
            self.assertEqual((played.status, played.out, played.err.splitlines()[0]), (1, "", told))
            self.assertEqual(self.play(["run", "--scenario", "-", "--svg", "tree.svg", *words], LONG).status, 0)

    def test_genesis_alone(self) -> None:
        self.expect_tree(["tree", "--scenario", "-"], "client a\n", "● genesis (0) active, best\n")

    def test_after_the_journal_of_a_run(self) -> None:
        words = ["run", "--scenario", "-"]
        played = self.play(words, FAILING)
        self.expect_tree([*words, "--tree"], FAILING, played.out + "tree\n" + FAILING_TREE)
        self.assertTrue(self.play([*words, "--tree", "--json"], FAILING).err.startswith("error: "))

    def test_of_a_saved_folder(self) -> None:
        """It has ids in place of names, or the names that a scenario gives. Nothing of the folder is changed."""
        self.make_folder("saved")
        words = ["run", "--scenario", "-", "--save", "saved", "--heights", "1,1,1,1"]
        self.assertEqual(self.play(words, "block b1 genesis\nblock o1 genesis\nclient a\nsubmit b1\nsubmit o1\n").err, "")
        other, _ = child_of_genesis("o1")
        told = lines(
            "● genesis (0) active",
            f"┠─□ {other[:8]}… (1) valid-headers",
            f"● {FIRST_ID[:8]}… (1) active, best",
        )
        self.expect_tree(["tree", "--saved", "saved"], "", told)
        named = lines("● genesis (0) active", "┠─□ o1 (1) valid-headers", f"● {FIRST_ID[:8]}… (1) active, best")
        self.expect_tree(["tree", "--saved", "saved", "--scenario", "-"], "block o1 genesis\nclient a\n", named)
        self.expect(["audit", "--saved", "saved"], "", Played(0, "agrees\n", ""))

    def test_blocks_that_are_not_kept(self) -> None:
        """A block that came before its parent, too early, or broke a rule isn't drawn; when it is kept at last, it is."""
        text = lines(
            "block b1 genesis",
            "block b2 b1",
            "block late b2 time=1296700000",
            "block bad b2 cb=none",
            "client a",
            "submit b2",
            "submit b1",
            "submit late",
            "submit bad",
            "submit b2",
        )
        tree = lines("● genesis (0) active", "● b1 (1) active", "● b2 (2) active, best")
        self.expect_tree(["tree", "--scenario", "-"], text, tree)

    def test_with_a_blk_file(self) -> None:
        self.write_bytes("first.blk", bytes.fromhex(FIRST_HEAD + FIRST))
        tree = lines("● genesis (0) active", f"● {FIRST_ID[:8]}… (1) active, best")
        self.expect_tree(["tree", "--scenario", "-", "--blk", "first.blk"], "client a\n", tree)

    def test_a_picture(self) -> None:
        """It is XML, and each piece has its status as its class: in the order of rows, that of the active branch first."""
        self.expect_tree(["tree", "--scenario", "-", "--svg", "tree.svg"], FAILING, FAILING_TREE)
        self.assertEqual(
            self.pieces(self.picture("tree.svg")),
            [
                ("active", "genesis, active"),
                ("active", "b1, active"),
                ("active", "b2, active"),
                ("valid-fork", "x1, valid-fork"),
                ("invalid", "x2, invalid, marked"),
                ("invalid", "x3, invalid"),
                ("valid-headers", "y2, valid-headers"),
            ],
        )

    def test_the_same_picture_of_a_run_and_of_its_folder(self) -> None:
        self.make_folder("saved")
        words = ["run", "--scenario", "-", "--save", "saved", "--svg", "run.svg"]
        self.assertEqual(self.play(words, FAILING).status, 0)
        self.write("scenario.txt", FAILING)
        words = ["tree", "--saved", "saved", "--scenario", "scenario.txt", "--svg", "saved.svg"]
        self.assertEqual(self.play(words).status, 0)
        self.assertEqual(self.read("run.svg"), self.read("saved.svg"))

    def test_a_picture_that_cannot_be_written(self) -> None:
        """It is told before the run."""
        self.make_folder("folder")
        for file, why in [("not/there.svg", "No such file or directory"), ("folder", "Is a directory")]:
            fault = f"cannot write {file}"
            for verb in ["run", "tree"]:
                words = [verb, "--scenario", "-", "--svg", file]
                self.expect_fault(words, "client a\n", f"regchain: {fault}\n{fault}: {why}\n")
