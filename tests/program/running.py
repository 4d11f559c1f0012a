"""The program as a process: a test runs it in a folder of its own, and compares all that it writes, and its status.

Texts stand for bytes, a letter for each (Latin-1), so any bytes can be said and every difference is seen.
"""
from __future__ import annotations

import os
import pty
import subprocess
import tempfile
import termios
import threading
import unittest
from subprocess import PIPE
from typing import Any, NamedTuple

ROOT = os.path.dirname(os.path.dirname(os.path.dirname(os.path.realpath(__file__))))

# The program that is tested; tests/run may name another.
PROGRAM = os.path.join(ROOT, "crates", "regchain", "out", "regchain")

# How long a run may take.
SECONDS = 60

# Whether the tests of a served node play more.
LONG = False


class Played(NamedTuple):
    """What the program wrote, and its status."""

    status: int
    out: str
    err: str


def text_of(data: bytes | None) -> str:
    return (data or b"").decode("latin-1")


def without_reason(err: str) -> str:
    """What is told on the standard error, without a second line that says why. It repeats the first one."""
    told = err.split("\n")
    if len(told) == 3 and told[1].startswith(told[0].removeprefix("regchain: ") + ": "):
        return told[0] + "\n"
    return err


def lines(*each: str) -> str:
    """These lines as a text."""
    return "".join(line + "\n" for line in each)


class ProgramTest(unittest.TestCase):
    """A test with a new folder, in which the program runs."""

    maxDiff = 10_000

    def setUp(self) -> None:
        room = tempfile.TemporaryDirectory(prefix="regchain-")
        self.addCleanup(room.cleanup)
        self.folder = room.name

    def path(self, name: str) -> str:
        return os.path.join(self.folder, name)

    def make_folder(self, name: str) -> None:
        os.makedirs(self.path(name))

    def exists(self, name: str) -> bool:
        return os.path.exists(self.path(name))

    def write(self, name: str, text: str) -> None:
        self.write_bytes(name, text.encode("latin-1"))

    def write_bytes(self, name: str, data: bytes) -> None:
        with open(self.path(name), "wb") as file:
            file.write(data)

    def read(self, name: str) -> str:
        return text_of(self.read_bytes(name))

    def read_bytes(self, name: str) -> bytes:
        with open(self.path(name), "rb") as file:
            return file.read()

    def play_on(self, words: list[str], **streams: Any) -> Played:
        """Runs the program on these words and standard streams, which are said as for `subprocess.run`. What goes to
        none of its pipes is empty."""
        ended = subprocess.run([PROGRAM, *words], cwd=self.folder, timeout=SECONDS, **streams)
        return Played(ended.returncode, text_of(ended.stdout), text_of(ended.stderr))

    def play(self, words: list[str], text: str = "") -> Played:
        """Runs the program with this text on its standard input. No stream is a terminal."""
        return self.play_on(words, input=text.encode("latin-1"), stdout=PIPE, stderr=PIPE)

    def play_over_terminal(self, words: list[str], text: str = "") -> Played:
        """Runs the program with a standard error that is a terminal."""
        with Terminal() as terminal:
            played = self.play_on(words, input=text.encode("latin-1"), stdout=PIPE, stderr=terminal.side)
            return played._replace(err=terminal.shown())

    def play_typed(self, words: list[str], text: str) -> Played:
        """Runs the program with a standard input that is a terminal, on which this text is typed, and its end."""
        with Terminal() as terminal:
            terminal.type(text + "\x04")
            return self.play_on(words, stdin=terminal.side, stdout=PIPE, stderr=PIPE)

    def expect(self, words: list[str], text: str, wanted: Played) -> None:
        """Runs the program, and compares the standard output, the standard error and the status. The line that says why
        there is a fault is compared where it is wanted; test_reasons wants all of them."""
        with self.subTest(words=words):
            played = self.play(words, text)
            self.assertEqual(played.out, wanted.out)
            self.assertIn(wanted.err, [played.err, without_reason(played.err)])
            self.assertEqual(played.status, wanted.status)

    def expect_output(self, text: str, output: str) -> None:
        """A scenario on the standard input, and the whole output that it must have."""
        self.expect([], text, Played(0, output, ""))

    def expect_fault(self, words: list[str], text: str, line: str) -> None:
        """A command line and a scenario, and what they must give on the standard error, with no output."""
        self.expect(words, text, Played(1, "", line))


class Terminal:
    """A terminal, which changes nothing of what is written to it. `side` is the program's side of it."""

    def __enter__(self) -> Terminal:
        self.own, self.side = pty.openpty()
        modes = termios.tcgetattr(self.side)
        modes[1] &= ~termios.OPOST
        termios.tcsetattr(self.side, termios.TCSANOW, modes)
        self.pieces: list[bytes] = []
        self.reader = threading.Thread(target=self.read_all)
        self.reader.start()
        return self

    def read_all(self) -> None:
        """Reads until nobody has the program's side any more, which Linux tells as an error."""
        try:
            while piece := os.read(self.own, 4096):
                self.pieces.append(piece)
        except OSError:
            pass

    def type(self, text: str) -> None:
        os.write(self.own, text.encode("latin-1"))

    def shown(self) -> str:
        """Closes the program's side: all that was written to it."""
        os.close(self.side)
        self.side = -1
        self.reader.join()
        return text_of(b"".join(self.pieces))

    def __exit__(self, *_: object) -> None:
        if self.side >= 0:
            self.shown()
        os.close(self.own)
