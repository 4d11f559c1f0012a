"""Every script of the repository prints its help, and does nothing else."""

import os
import subprocess
import tempfile
import unittest

ROOT = os.path.dirname(os.path.dirname(os.path.dirname(os.path.realpath(__file__))))


def scripts() -> "list[str]":
    """The files of the repository that can be run."""
    listed = subprocess.run(["git", "ls-files", "-s"], cwd=ROOT, stdout=subprocess.PIPE, text=True, check=True).stdout
    return [line.split("\t")[1] for line in listed.splitlines() if line.startswith("100755")]


def state() -> "list[tuple[str, int, int]]":
    """All files of the checkout but those of git and of crates, with their lengths and times."""
    found = []
    for at, folders, names in os.walk(ROOT):
        folders[:] = [it for it in folders if it not in (".git", "crates", "__pycache__")]
        for name in names:
            status = os.lstat(os.path.join(at, name))
            found.append((os.path.join(at, name), status.st_size, status.st_mtime_ns))
    return sorted(found)


class Help(unittest.TestCase):
    def test_of_every_script(self) -> None:
        names = scripts()
        self.assertGreater(len(names), 20)
        before = state()
        with tempfile.TemporaryDirectory() as room:
            # Without a kit and a compiler, so that nothing can be proved, built or installed.
            os.makedirs(f"{room}/bin")
            for name in ("apt-get", "cc", "c++", "gcc", "g++", "rt"):
                with open(f"{room}/bin/{name}", "w", encoding="utf-8") as file:
                    file.write(f"#!/bin/sh\necho {name} >>{room}/called\nexit 1\n")
                os.chmod(f"{room}/bin/{name}", 0o755)
            names_of = {**os.environ, "PATH": f"{room}/bin:{os.environ['PATH']}", "PYTHONDONTWRITEBYTECODE": "1"}
            for name in names:
                with self.subTest(name):
                    ran = subprocess.run(
                        [f"{ROOT}/{name}", "--help"], env=names_of, stdin=subprocess.DEVNULL, stdout=subprocess.PIPE,
                        stderr=subprocess.PIPE, text=True, timeout=60)
                    self.assertEqual((ran.returncode, ran.stderr), (0, ""))
                    shown = name if name != ".ci/run" else "./test"
                    self.assertIn(os.path.basename(shown), ran.stdout)
                    self.assertGreater(len(ran.stdout), 60)
                    self.assertFalse(os.path.exists(f"{room}/called"), "it called a program")
        self.assertEqual(state(), before)


if __name__ == "__main__":
    unittest.main()
