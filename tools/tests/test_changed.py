"""What tests/changed says of two crates, one over the other, with a stand-in for the kit."""

import os
import shutil
import subprocess
import tempfile
import unittest
from typing import List

ROOT = os.path.dirname(os.path.dirname(os.path.dirname(os.path.realpath(__file__))))
# `rt lib` leaves a library, whose module is seen from above as its source says; each call is noted.
RT = """#!/bin/sh
[ "$1" = version ] && { echo kit; exit; }
name=$(basename "$PWD")
echo "$1 $name" >>"$NOTES"
mkdir -p "out/rlib/$name.rlib/toolchain" && cp src/lib.rt "out/rlib/$name.rlib/toolchain/made.json"
"""
SEEN = '["%s", 0, 0, "%s"]\n'


class Changed(unittest.TestCase):
    def setUp(self) -> None:
        self.room = tempfile.mkdtemp()
        self.addCleanup(shutil.rmtree, self.room)
        for folder in ("bin", "tests", "tools", "crates/low/src", "crates/high/src"):
            os.makedirs(f"{self.room}/{folder}")
        shutil.copy(f"{ROOT}/tests/changed", f"{self.room}/tests")
        shutil.copytree(f"{ROOT}/tools/sources", f"{self.room}/tools/sources")
        self.write("bin/rt", RT)
        os.chmod(f"{self.room}/bin/rt", 0o755)
        self.write("crates.txt", "low:\nhigh: low\n")
        self.write("crates/low/src/lib.rt", SEEN % ("low/f/Statement", 1))
        self.write("crates/high/src/lib.rt", SEEN % ("high/g/Statement", 1))

    def write(self, path: str, text: str) -> None:
        with open(f"{self.room}/{path}", "w", encoding="utf-8") as file:
            file.write(text)

    def run_with(self, *words: str) -> "subprocess.CompletedProcess[str]":
        whole = {**os.environ, "PATH": f"{self.room}/bin:{os.environ['PATH']}", "NOTES": f"{self.room}/notes"}
        return subprocess.run([f"{self.room}/tests/changed", *words], env=whole, capture_output=True, text=True)

    def changed(self) -> List[str]:
        return self.run_with().stdout.split()

    def proved(self) -> List[str]:
        """What a run proves."""
        self.write("notes", "")
        self.assertEqual(self.run_with("--prove").returncode, 0)
        with open(f"{self.room}/notes", encoding="utf-8") as file:
            return file.read().splitlines()

    def test_what_changed_is_proved_and_who_sees_it(self) -> None:
        self.assertEqual(self.changed(), ["low", "high"])
        self.assertEqual(self.proved(), ["lib low", "lib high"])
        self.assertEqual((self.changed(), self.proved()), ([], []))
        # Another body is seen by nobody above, another statement is.
        self.write("crates/low/src/lib.rt", SEEN % ("low/f/Statement", 1) + SEEN % ("low/f/Code", 2))
        self.assertEqual((self.changed(), self.proved()), (["low"], ["lib low"]))
        self.write("crates/low/src/lib.rt", SEEN % ("low/f/Statement", 3) + SEEN % ("low/f/Code", 2))
        self.assertEqual((self.changed(), self.proved()), (["low"], ["lib low", "lib high"]))

    def test_up_to_date_is_what_was_built_as_it_stands(self) -> None:
        self.assertEqual(self.run_with("--up-to-date", "high").returncode, 1)
        self.proved()
        self.assertEqual(self.run_with("--up-to-date", "high").returncode, 0)
        self.write("crates/low/src/lib.rt", SEEN % ("low/f/Statement", 2))
        self.assertEqual(self.run_with("--up-to-date", "high").returncode, 1)
        self.assertEqual(self.run_with("--built", "low").returncode, 0)
        self.assertEqual(self.run_with("--up-to-date", "high").returncode, 0)
        shutil.rmtree(f"{self.room}/crates/low/out")
        self.assertEqual(self.run_with("--up-to-date", "high").returncode, 1)

    def test_what_rt_ci_proved_counts_as_it_was_at_the_beginning(self) -> None:
        self.run_with("--begin")
        self.write("crates/high/src/lib.rt", SEEN % ("high/g/Statement", 2))
        self.run_with("--proved")
        self.assertEqual(self.changed(), ["high"])

    def test_other_words_are_refused(self) -> None:
        for words in (["--below"], ["--below", "nobody"], ["--built"], ["other"]):
            self.assertEqual(self.run_with(*words).returncode, 2, words)


if __name__ == "__main__":
    unittest.main()
