"""Workers over one database: started, ended, and what they leave read for the checker."""
from __future__ import annotations

import atexit
import glob
import json
import os
import subprocess
import sys
import tempfile
from typing import Any, Optional

from checker import SECONDS, Asked, Row, read_lines
from database import Database

HERE = os.path.dirname(os.path.realpath(__file__))
#: How many replicas there are, and how many clients each has.
REPLICAS, CLIENTS = 3, 6


class Worker:
    """A process with a replica and its clients. Its group ends with it, so also its node."""

    def __init__(self, program: str, **options: Any) -> None:
        self.name = options["name"]
        self.process = subprocess.Popen(
            [sys.executable, os.path.join(HERE, "worker.py"), json.dumps(options)],
            env={**os.environ, "WAKOTEHU_PROGRAM": program}, stdin=subprocess.DEVNULL, stdout=subprocess.PIPE,
            stderr=subprocess.PIPE, text=True,
        )  # fmt: skip
        atexit.register(self.process.kill)

    def opened(self) -> None:
        """Waits until it has opened its replica."""
        assert self.process.stdout is not None
        if self.process.stdout.readline() != "open\n":
            raise AssertionError(f"{self.name} wasn't opened: {self.process.communicate(timeout=SECONDS)[1]}")

    def ended(self, seconds: float = SECONDS) -> None:
        """Waits for its end, which has to be in order."""
        try:
            _, err = self.process.communicate(timeout=seconds)
        except subprocess.TimeoutExpired:
            self.kill()
            raise AssertionError(f"{self.name} didn't end in time") from None
        atexit.unregister(self.process.kill)
        if self.process.returncode or err:
            raise AssertionError(f"{self.name} ended with {self.process.returncode}: {err}")

    def kill(self) -> None:
        self.process.kill()
        self.process.communicate()


class History:
    """A database of its own, the notes of its clients, and the lines that workers write."""

    def __init__(self, database: Database, name: str, program: str) -> None:
        self.database, self.program = database, program
        self.url = database.make(name)
        self.room = tempfile.TemporaryDirectory(prefix="wakotehu-")
        self.notes = os.path.join(self.room.name, "notes")
        with open(self.notes, "wb") as file:
            file.write(bytes(8 * REPLICAS * CLIENTS))
        self.workers: list[Worker] = []

    def start(self, number: int, generation: int = 0, **more: Any) -> Worker:
        """Starts a worker; one that takes another's place is of a later generation."""
        name = f"r{number}g{generation}"
        options = {
            "url": self.url, "name": name, "seed": 1, "lines": os.path.join(self.room.name, name), "notes": self.notes,
            "slot": number * CLIENTS, "clients": CLIENTS, **more,
        }  # fmt: skip
        worker = Worker(self.program, **options)
        self.workers.append(worker)
        return worker

    def clients(self) -> dict[str, list[Asked]]:
        """What the clients asked and were answered."""
        found = {}
        for path in glob.glob(os.path.join(self.room.name, "r*.*")):
            name, _, number = os.path.basename(path).partition(".")
            found[f"{name}_{number}"] = read_lines(path)
        return found

    def rows(self) -> list[Row]:
        rows = self.database.run(
            self.url, "SELECT place, token, seat, command, bytes, now, reply FROM wakotehu.commands"
            " LEFT JOIN wakotehu.replies USING (place) ORDER BY place",
        )  # fmt: skip
        return [Row(place, str(token), seat, command, data.hex(), now, reply) for place, token, seat, command, data, now, reply in rows]

    def remove(self) -> None:
        for worker in self.workers:
            if worker.process.poll() is None:
                worker.kill()
        self.room.cleanup()


def needs() -> Optional[str]:
    """What isn't there that these tests need."""
    from database import programs

    return None if programs() else "PostgreSQL (Debian's postgresql)"
