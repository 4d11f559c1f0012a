"""A node with a folder of its own, and what it was told: what has to be there however it ends."""
from __future__ import annotations

import json
import os
import random
import subprocess
import threading
from subprocess import PIPE
from typing import Any, NamedTuple, Optional

import running
from running import ProgramTest

GENESIS = "0f9188f13cb7b2c71f2a335e3a4fc328bf5beb436012afca590b1a11466e2206"
LOG = "data/history.log"
NOW = 1_296_688_602


class Told(NamedTuple):
    """An answer: its place, and of a step what was asked and replied."""

    at: int
    step: Optional[tuple[str, str, str]]


class Client:
    """Asks a seat for steps and reads, one after the other, and writes down what it was told."""

    def __init__(self, seat: int, seed: int, blocks: list[tuple[str, str]]) -> None:
        self.seat, self.draw, self.blocks = seat, random.Random(seed), blocks
        self.told: list[Told] = []

    def request(self, number: int) -> tuple[bytes, Optional[tuple[str, str]]]:
        kind = self.draw.randrange(10)
        params: dict[str, Any] = {"seat": self.seat}
        step = None
        if kind < 3 and self.blocks:
            id, data = self.draw.choice(self.blocks)
            method, step = "submit", ("submit", id)
            params |= {"block": data, "now": NOW + 7000}
        elif kind < 7:
            id = f"{self.draw.randrange(1 << 64):064x}"
            method = self.draw.choice(["invalidate", "reconsider", "precious"])
            step = (method, id)
            params["id"] = id
        elif kind < 8:
            method = "note"
        elif kind < 9:
            method = "told"
            params["from"] = self.draw.randrange(16)
        else:
            method = "getbestblockhash"
        return json.dumps({"jsonrpc": "2.0", "id": number, "method": method, "params": params}).encode() + b"\n", step


class Keeping:
    """A served node under sixteen clients, whose answers are read by a thread of its own."""

    def __init__(self, folder: str, clients: list[Client], *words: str, **how: Any) -> None:
        self.process = subprocess.Popen(
            [running.PROGRAM, "serve", "--seats", "16", "--datadir", "data", *words],
            cwd=folder, stdin=PIPE, stdout=PIPE, stderr=PIPE, bufsize=0, **how,
        )  # fmt: skip
        assert self.process.stdin and self.process.stdout and self.process.stderr
        self.stdin, self.stdout, self.stderr = self.process.stdin, self.process.stdout, self.process.stderr
        self.clients, self.asked = clients, [0] * 16
        self.waiting: dict[int, Optional[tuple[str, str]]] = {}
        self.lock = threading.Lock()
        self.bad: list[bytes] = []
        self.reader = threading.Thread(target=self._read, daemon=True)
        self.reader.start()

    def ask(self, seat: int) -> None:
        """Has a client ask once more. An input that nobody reads any more is passed over."""
        number = (self.asked[seat] << 4) + seat
        self.asked[seat] += 1
        line, step = self.clients[seat].request(number)
        with self.lock:
            self.waiting[number] = step
        try:
            self.stdin.write(line)
        except BrokenPipeError:
            pass

    def _read(self) -> None:
        rest = b""
        while piece := self.stdout.read(1 << 16):
            *lines, rest = (rest + piece).split(b"\n")
            for line in lines:
                self._take(line)
        # What isn't a whole line was told to nobody.

    def _take(self, line: bytes) -> None:
        answer = json.loads(line)
        number = answer["id"]
        if "result" not in answer:
            self.bad.append(line)
            return
        seat, at = number % 16, answer["result"]["at"]
        step = self.waiting[number]
        told = Told(at, None)
        if step is not None and answer["result"]["answer"] != "decode-failed":
            told = Told(at, (*step, answer["result"]["answer"]))
        self.clients[seat].told.append(told)
        if not self.stops:
            self.ask(seat)

    stops = False

    def run(self) -> None:
        """Has each client ask, and ask again at each answer."""
        for seat in range(16):
            self.ask(seat)

    def kill(self) -> None:
        self.stops = True
        self.process.kill()
        self.finish()

    def end(self) -> tuple[int, str]:
        """Ends the input: the status and the standard error."""
        self.stops = True
        try:
            self.stdin.close()
        except BrokenPipeError:
            pass
        return self.finish()

    def finish(self) -> tuple[int, str]:
        # A process that doesn't end by itself is ended, which its status tells.
        late = threading.Timer(running.SECONDS, self.process.kill)
        late.start()
        err = self.stderr.read().decode("latin-1")
        status = self.process.wait(running.SECONDS)
        late.cancel()
        self.reader.join(running.SECONDS)
        for stream in (self.stdin, self.stdout, self.stderr):
            try:
                stream.close()
            except BrokenPipeError:
                pass
        return status, err


class KeepingTest(ProgramTest):
    """What was told has to be there."""

    def serve(self, data: bytes, *words: str, **how: Any) -> subprocess.CompletedProcess[bytes]:
        return subprocess.run(
            [running.PROGRAM, "serve", "--datadir", "data", *words],
            cwd=self.folder, input=data, capture_output=True, timeout=running.SECONDS, **how,
        )  # fmt: skip

    def history(self) -> list[tuple[str, str, str, str]]:
        """The steps that a node has which is opened again: client, command, block and reply, read from the node itself."""
        lines = [
            {"jsonrpc": "2.0", "id": 1, "method": "journal", "params": {"seat": 0, "from": 1, "to": 1 << 40}},
        ]
        ended = self.serve(b"".join(json.dumps(line).encode() + b"\n" for line in lines))
        self.assertEqual(ended.returncode, 0, ended.stderr)
        entries = json.loads(ended.stdout)["result"]["answer"]
        return [(it["client"], it["command"], it["block"], it["reply"]) for it in entries]

    def expect_kept(self, clients: list[Client]) -> int:
        """All that the clients were told is in the history: how many steps that has."""
        steps = self.history()
        for client in clients:
            for told in client.told:
                self.assertLessEqual(told.at, len(steps), (client.seat, told))
                if told.step is not None:
                    self.assertEqual(steps[told.at - 1], (f"seat{client.seat}", *told.step))
        return len(steps)


def whole_lines(data: bytes) -> int:
    """How many lines a log stands for: those that are ended before the first zero byte."""
    return data.split(b"\0")[0].count(b"\n")


def os_environment(**more: str) -> dict[str, str]:
    return {**os.environ, **more}
