"""What is installed beside the program: its man page, and its completion for three shells, have each option of its help."""
from __future__ import annotations

import os
import re
import shutil
import subprocess
import tempfile
import unittest

import running
from running import ProgramTest

ROOT = os.path.dirname(os.path.dirname(os.path.dirname(os.path.realpath(__file__))))
SUBCOMMANDS = ("run", "audit", "tree", "show", "serve", "export")


def read(path: str) -> str:
    with open(os.path.join(ROOT, path), encoding="utf-8") as file:
        return file.read()


def between(text: str, front: str, end: str) -> str:
    """What stands behind a front, up to an end or to the text's own."""
    return text.partition(front)[2].partition(end)[0]


class Installed(ProgramTest):
    def options(self, subcommand: str) -> set[str]:
        """The options of a subcommand's own help, but for --help."""
        told = self.play([subcommand, "--help"]).err
        return set(re.findall(r"^ +(?:-\w, )?--([a-z-]+)", told, re.M)) - {"help"}

    def test_the_man_page_has_each_option(self) -> None:
        page = read("docs/regchain.1")
        for name in SUBCOMMANDS:
            section = between(page, f".SH {name.upper()}\n", ".SH ")
            found = re.findall(r"^\.B --([a-z-]+)", section.replace("\\-", "-"), re.M)
            self.assertEqual(set(found), self.options(name), name)

    def test_completions_have_each_option(self) -> None:
        bash, zsh, fish = read("completion/regchain.bash"), read("completion/_regchain"), read("completion/regchain.fish")
        for name in SUBCOMMANDS:
            wanted = self.options(name)
            line = between(bash, f"\n    {name}) options=\"", "\"")
            self.assertEqual(set(re.findall(r"--([a-z-]+)", line)) - {"help"}, wanted, name)
            case = between(zsh, f"\n{name})\n", ";;")
            self.assertEqual(set(re.findall(r"'--([a-z-]+)\[", case)) - {"help"}, wanted, name)
            found = re.findall(rf"__fish_seen_subcommand_from {name}' -l ([a-z-]+)", fish)
            self.assertEqual(set(found), wanted, name)

    def test_help_and_version_are_completed(self) -> None:
        for path, wanted in [
            ("completion/regchain.bash", '"run audit tree show serve export help version --help --version"'),
            ("completion/_regchain", "    'help:"),
            ("completion/_regchain", "    'version:"),
            ("completion/regchain.fish", "-n __fish_use_subcommand -a help "),
            ("completion/regchain.fish", "-n __fish_use_subcommand -a version "),
            ("docs/regchain.1", "\n.SH HELP\n"),
            ("docs/regchain.1", "\n.SH VERSION\n"),
        ]:
            self.assertIn(wanted, read(path), path)

    def test_bash_reads_its_completion(self) -> None:
        words = "source completion/regchain.bash; COMP_WORDS=(regchain run --he) COMP_CWORD=2; _regchain; echo ${COMPREPLY[*]}"
        told = subprocess.run(["bash", "-c", words], cwd=ROOT, capture_output=True, text=True)
        self.assertEqual((told.stdout, told.stderr), ("--heights --help\n", ""))

    def test_what_install_puts(self) -> None:
        with tempfile.TemporaryDirectory() as room:
            copy = os.path.join(room, "copy")
            for name in ("install", "tools/regchain.sh", "docs/regchain.1", *("completion/" + it for it in os.listdir(os.path.join(ROOT, "completion")))):
                os.makedirs(os.path.dirname(os.path.join(copy, name)), exist_ok=True)
                shutil.copy(os.path.join(ROOT, name), os.path.join(copy, name))
            told = subprocess.run([os.path.join(copy, "install"), os.path.join(room, "to")], capture_output=True, text=True)
            self.assertEqual((told.returncode, told.stderr), (1, "install: run ./build or ffi/build first\n"))
            os.makedirs(os.path.join(copy, "crates/regchain/out"))
            shutil.copy(running.PROGRAM, os.path.join(copy, "crates/regchain/out/regchain"))
            told = subprocess.run([os.path.join(copy, "install"), os.path.join(room, "to")], capture_output=True, text=True)
            self.assertEqual((told.returncode, told.stderr), (0, ""))
            put = sorted(os.path.relpath(os.path.join(at, it), os.path.join(room, "to")) for at, _, its in os.walk(os.path.join(room, "to")) for it in its)
            self.assertEqual(
                put,
                [
                    "bin/regchain",
                    "lib/wakotehu/regchain",
                    "share/bash-completion/completions/regchain",
                    "share/fish/vendor_completions.d/regchain.fish",
                    "share/man/man1/regchain.1",
                    "share/zsh/site-functions/_regchain",
                ],
            )


if __name__ == "__main__":
    unittest.main()
