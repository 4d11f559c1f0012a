"""Soft forks by name beside the four heights: `--heights A,B,C,D,NAME@HEIGHT`."""
from __future__ import annotations

from running import ProgramTest

# A coin of CHECKMULTISIG with no signature of no key, which takes one element more; the block d at height 102 spends it with a 1
# in that element's place, which BIP 147 refuses.
SCENARIO = """\
block f1 genesis pay=0000ae
chain c 100 f1
tx A 1 0
in f1.cb:0 51
out 5000000000 51
block d c100 A
client a
submit f1
each c 1 100
submit d
"""
REFUSED = "submit d = blk-bad-inputs 1:0 @102"
ACCEPTED = "submit d = accepted @102"


class NamedHeights(ProgramTest):
    def reply(self, *words: str) -> str:
        played = self.play(["run", "--scenario", "-", *words], SCENARIO)
        self.assertEqual((played.status, played.err), (0, ""))
        return next(line for line in played.out.splitlines() if line.startswith("submit d"))

    def test_from_its_height_on(self) -> None:
        """BIP 147 by each of its names, at both sides of its height; never by default, and the last height of one counts."""
        for word, reply in [
            ("1,1,1,1", ACCEPTED),
            ("1,1,1,1,nulldummy@0", REFUSED),
            ("1,1,1,1,nulldummy@102", REFUSED),
            ("1,1,1,1,nulldummy@103", ACCEPTED),
            ("1,1,1,1,bip147@102", REFUSED),
            ("1,1,1,1,bip147@4294967295", ACCEPTED),
            ("1,1,1,1,nulldummy@103,bip147@102", REFUSED),
            ("1,1,1,1,csv@7,nulldummy@102,dersig@500", REFUSED),
        ]:
            with self.subTest(word):
                self.assertEqual(self.reply("--heights", word), reply)

    def test_what_is_no_height(self) -> None:
        for word in (
            "1,1,1,1,", "1,1,1,1,nulldummy", "1,1,1,1,nulldummy@", "1,1,1,1,@1", "1,1,1,1,nulldummy@-1", "1,1,1,1,nulldummy@+1",
            "1,1,1,1,nulldummy@4294967296", "1,1,1,1,nulldummy@1@1", "1,1,1,1,nulldummy@1,", "1,1,1,1,,nulldummy@1",
            "1,1,1,1,NULLDUMMY@1", "1,1,1,1,taproot@1", "1,1,1,1,5", "1,1,1,nulldummy@1", "nulldummy@1", "1,1,1,1,nulldummy@ 1",
        ):
            with self.subTest(word):
                played = self.play(["run", "--scenario", "-", "--heights", word], SCENARIO)
                self.assertEqual(played.status, 1)
                self.assertTrue(played.err.startswith("regchain: heights\n"), played.err)

    def test_a_saved_run_keeps_it(self) -> None:
        """The folder says it by the deployment's own name; the run is audited, and shown, under it."""
        self.make_folder("saved")
        self.assertEqual(self.reply("--heights", "1,1,1,1,bip147@102", "--save", "saved"), REFUSED)
        self.assertEqual(self.read("saved/heights.txt"), "1,1,1,1,bip147@102\n")
        audited = self.play(["audit", "--saved", "saved"])
        self.assertEqual((audited.status, audited.out), (0, "agrees\n"))
        self.write("saved/heights.txt", "1,1,1,1\n")
        audited = self.play(["audit", "--saved", "saved"])
        self.assertEqual((audited.status, audited.out), (1, "line 102\n"))
