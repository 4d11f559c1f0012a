"""What the tests of one process have in common: one database server, and a history for each test."""
from __future__ import annotations

import itertools
import os
import stat
import subprocess
import sys
import tempfile
import time
import unittest
from typing import Any, Callable

import running
from blocks import NOW, Maker
from database import Database
from wakotehu.replica import Replica

HERE = os.path.dirname(os.path.realpath(__file__))


class ReplicaTest(unittest.TestCase):
    """Replicas in this process."""

    database: Database
    _numbers = itertools.count()

    @classmethod
    def setUpClass(cls) -> None:
        cls.database = Database.shared()

    def setUp(self) -> None:
        room = tempfile.TemporaryDirectory(prefix="wakotehu-")
        self.addCleanup(room.cleanup)
        self.room = room.name

    def history(self, **more: Any) -> str:
        self.url = self.database.make(f"history{next(self._numbers)}", **more)
        return self.url

    def replica(self, name: str, **more: Any) -> Replica:
        url = more.pop("url", None) or self.url
        given: dict[str, Any] = {"program": running.PROGRAM, "timeout": 60, "catch_up": 60, **more}
        opened = Replica(url, name=name, **given)
        self.addCleanup(opened.close)
        return opened

    def until(self, is_so: Callable[[], bool], seconds: float = 60) -> None:
        """Waits for what no event tells."""
        end = time.monotonic() + seconds
        while not is_so():
            if time.monotonic() > end:
                raise AssertionError("it didn't come in time")
            time.sleep(0.01)

    def audited(self, *words: str) -> str:
        """What `wakotehu-replica check` prints; it has to find nothing."""
        ended = self.command("check", self.url, *words)
        self.assertEqual((ended.returncode, ended.stderr), (0, ""), ended.stdout)
        return ended.stdout

    def command(self, *words: str) -> subprocess.CompletedProcess[str]:
        environment = {**os.environ, "PYTHONPATH": os.path.join(HERE, "../../ffi/python"), "WAKOTEHU_PROGRAM": running.PROGRAM}
        return subprocess.run(
            [sys.executable, "-m", "wakotehu.replicacommand", *words], capture_output=True, text=True, env=environment, timeout=120
        )

    def wrong_program(self, number: int) -> str:
        """A program that changes one answer (wrapper.py)."""
        path = os.path.join(self.room, f"wrong{number}")
        with open(path, "w", encoding="utf-8") as file:
            file.write(f'#!/bin/sh\nexec {sys.executable} {HERE}/wrapper.py {running.PROGRAM} {number} "$@"\n')
        os.chmod(path, stat.S_IRWXU)
        return path

    def chain(self, count: int) -> list[bytes]:
        return Maker().chain(count)


__all__ = ["NOW", "ReplicaTest"]
