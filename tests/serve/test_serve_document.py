"""The examples of docs/SERVE.md, played."""
from __future__ import annotations

import os
import subprocess
from subprocess import PIPE

import running
from running import ROOT, ProgramTest

PAGE = os.path.join(ROOT, "docs", "SERVE.md")


class Document(ProgramTest):
    def test_the_session(self) -> None:
        """Each line waits for the answer to the one before."""
        with open(PAGE, encoding="utf-8") as file:
            lines = [line[4:] for line in file.read().split("\n") if line.startswith(("    > ", "    < "))]
        asked = [line[2:] for line in lines if line.startswith("> ")]
        told = [line[2:] for line in lines if line.startswith("< ")]
        self.assertEqual((len(asked), len(told), len(lines)), (10, 10, 20))
        served = subprocess.Popen([running.PROGRAM, "serve"], cwd=self.folder, stdin=PIPE, stdout=PIPE, stderr=PIPE)
        self.addCleanup(served.communicate)
        assert served.stdin and served.stdout
        for line, answer in zip(asked, told):
            served.stdin.write(line.encode() + b"\n")
            served.stdin.flush()
            self.assertEqual(served.stdout.readline().decode(), answer + "\n")
        out, err = served.communicate(timeout=running.SECONDS)
        self.assertEqual((out, err, served.returncode), (b"", b"", 0))

    def test_the_first_example(self) -> None:
        with open(PAGE, encoding="utf-8") as file:
            text = file.read().split("    regchain serve --seats 2 <<'END'\n", 1)[1]
        asked, _, rest = text.partition("\n    END\n")
        told = rest.strip("\n").split("\n\n")[0]
        played = self.play(["serve", "--seats", "2"], asked.removeprefix("    ") + "\n")
        self.assertEqual((played.out, played.err, played.status), (told.removeprefix("    ") + "\n", "", 0))
