"""Command lines of which one fault hides another, and the two programs of an audit."""
import os
import subprocess

import running
from playing import SavedTest
from running import ROOT, lines


class CommandLines(SavedTest):
    def test_a_missing_file_before_a_faulty_table(self) -> None:
        """The blk file is looked for before the table is read."""
        self.write("scenario.txt", "client a\n")
        self.write("table.txt", "no table\n")
        words = ["run", "--scenario", "scenario.txt", "--table", "table.txt"]
        played = self.play([*words, "--blk", "missing"])
        self.assertEqual((played.status, played.out), (1, ""))
        self.assertEqual(played.err.splitlines()[0], "regchain: cannot read missing")
        played = self.play(words)
        self.assertEqual((played.status, played.out), (1, ""))
        self.assertEqual(played.err.splitlines()[0], "regchain: table line 1")

    def test_an_audit_without_a_journal(self) -> None:
        self.write("blocks.blk", "")
        played = self.play(["audit", "--blk", "blocks.blk"])
        self.assertEqual((played.status, played.out), (1, ""))
        self.assertEqual(played.err[:7], "error: ")
        self.assertIn("--journal", played.err)


class TwoAudits(SavedTest):
    """`audit` replays by the definition, which has to replay each block's branch from genesis, and `audit --quick` by the
    chainstate, whose steps cost the same whatever stands below. Both give the same finding, so they are told apart by how
    many allocations each makes over chains of two lengths."""

    def allocations(self, words: list[str]) -> int:
        """How many allocations an audit that agrees makes."""
        env = {"LD_PRELOAD": self.path("shim.so"), "REFUSE_AT": "0", "REFUSE_REPORT": self.path("report")}
        command = [running.PROGRAM, "audit", "--saved", "saved", *words]
        ended = subprocess.run(command, cwd=self.folder, env=env, capture_output=True, check=True)
        self.assertEqual(ended.stdout, b"agrees\n")
        return int(self.read("report").split()[0])

    def test_the_definition_and_the_chainstate(self) -> None:
        source = os.path.join(ROOT, "tests", "refusals", "shim.c")
        subprocess.run(["cc", "-O2", "-shared", "-fPIC", "-o", self.path("shim.so"), source], check=True)
        self.make_folder("saved")
        made = {}
        for length in [50, 200]:
            text = lines(f"chain c {length} genesis", "client a", f"each c 1 {length}")
            played = self.play(["run", "--scenario", "-", "--save", "saved"], text)
            self.assertEqual((played.status, played.err), (0, ""))
            made[length] = (self.allocations([]), self.allocations(["--quick"]))
        # Four times as many blocks: the definition makes some sixteen times as many allocations, the chainstate four.
        self.assertGreater(made[200][0], 8 * made[50][0])
        self.assertLess(made[200][1], 6 * made[50][1])
