"""`regchain serve` as a process, asked by requests, and scenarios as requests."""
from __future__ import annotations

import collections
import hashlib
import json
import queue
import subprocess
import threading
from subprocess import PIPE
from typing import Any, NamedTuple

import running
from scenarios import Scenario

GENESIS = "0f9188f13cb7b2c71f2a335e3a4fc328bf5beb436012afca590b1a11466e2206"


class Served:
    """A served node. Answers are read by a thread of their own, and found by the ids of requests."""

    def __init__(self, folder: str, *words: str, **how: Any) -> None:
        self.process = subprocess.Popen(
            [running.PROGRAM, "serve", *words], cwd=folder, stdin=PIPE, stdout=PIPE, stderr=PIPE, **how
        )
        assert self.process.stdin and self.process.stdout and self.process.stderr
        self.stdin, self.stdout, self.stderr = self.process.stdin, self.process.stdout, self.process.stderr
        self.lock = threading.Lock()
        self.count = 0
        self.answers: dict[int | None, queue.SimpleQueue[dict[str, Any]]] = collections.defaultdict(queue.SimpleQueue)
        self.reader = threading.Thread(target=self.read_all, daemon=True)
        self.reader.start()

    def read_all(self) -> None:
        for line in self.stdout:
            answer = json.loads(line)
            self.answers[answer["id"]].put(answer)

    def begin(self, method: str, **params: Any) -> int:
        """Writes a request: its id."""
        return self.begin_all([(method, params)])[0]

    def begin_all(self, requests: list[tuple[str, dict[str, Any]]]) -> list[int]:
        """Writes requests at once: their ids."""
        with self.lock:
            numbers = list(range(self.count + 1, self.count + 1 + len(requests)))
            self.count += len(requests)
            for number in numbers:
                self.answers[number] = queue.SimpleQueue()
            lines = [request(number, method, **params) for number, (method, params) in zip(numbers, requests)]
            self.stdin.write(b"".join(lines))
            self.stdin.flush()
        return numbers

    def answer_of(self, number: int | None) -> dict[str, Any]:
        answer = self.answers[number].get(timeout=running.SECONDS)
        del self.answers[number]
        return answer

    def answer(self, method: str, **params: Any) -> dict[str, Any]:
        """The whole answer to a request."""
        return self.answer_of(self.begin(method, **params))

    def ask(self, method: str, **params: Any) -> Any:
        """The result of a request."""
        answer = self.answer(method, **params)
        if "result" not in answer:
            raise AssertionError(f"{method}: {answer}")
        return answer["result"]

    def end(self) -> tuple[int, str]:
        """Ends the input: the status, and what was written on the standard error."""
        try:
            self.stdin.close()
        except BrokenPipeError:
            pass
        late = threading.Timer(running.SECONDS, self.process.kill)
        late.start()
        err = self.stderr.read().decode("latin-1")
        status = self.process.wait(running.SECONDS)
        late.cancel()
        self.reader.join(running.SECONDS)
        self.stdout.close()
        self.stderr.close()
        return status, err

    def kill(self) -> None:
        """Ends it at once, if it hasn't ended."""
        if not self.stdout.closed:
            self.process.kill()
            self.end()


class Ended(NamedTuple):
    """What a served node wrote to an input that was whole before it began."""

    status: int
    answers: list[dict[str, Any]]
    out: bytes
    err: str


def play(folder: str, data: bytes, *words: str, **how: Any) -> Ended:
    """Serves an input to its end."""
    ended = subprocess.run(
        [running.PROGRAM, "serve", *words], cwd=folder, input=data, capture_output=True, timeout=running.SECONDS, **how
    )
    answers = [json.loads(line) for line in ended.stdout.splitlines()]
    return Ended(ended.returncode, answers, ended.stdout, ended.stderr.decode("latin-1"))


def request(number: Any, method: str, **params: Any) -> bytes:
    """A request's line."""
    return json.dumps({"jsonrpc": "2.0", "id": number, "method": method, "params": params}).encode() + b"\n"


# ---- scenarios as requests


def double_sha(data: bytes) -> bytes:
    return hashlib.sha256(hashlib.sha256(data).digest()).digest()


def read_count(data: bytes, place: int) -> tuple[int, int]:
    """A compact size, and the place behind it."""
    first = data[place]
    if first < 253:
        return first, place + 1
    length = {253: 2, 254: 4, 255: 8}[first]
    return int.from_bytes(data[place + 1 : place + 1 + length], "little"), place + 1 + length


def transaction_end(data: bytes, place: int) -> int:
    """The place behind a transaction."""
    count, place = read_count(data, place + 4)
    for _ in range(count):
        length, place = read_count(data, place + 36)
        place += length + 4
    count, place = read_count(data, place)
    for _ in range(count):
        length, place = read_count(data, place + 8)
        place += length
    return place + 4


class Names:
    """What the names of a scenario stand for, as `regchain show` says."""

    def __init__(self, folder: str, definitions: str) -> None:
        self.ids: dict[str, str] = {}
        self.data: dict[str, bytes] = {}
        self.names: dict[str, str] = {}
        asked: list[list[str]] = [["genesis"], []]
        for names in asked:
            shown = subprocess.run(
                [running.PROGRAM, "show", "--scenario", "-", *names],
                cwd=folder, input=definitions.encode(), capture_output=True, timeout=running.SECONDS, check=True,
            )  # fmt: skip
            for line in shown.stdout.decode().splitlines():
                name, id, digits = line.split(" ")
                self.ids[name], self.data[name] = id, bytes.fromhex(digits)
                self.names.setdefault(id, name)

    def id(self, word: str) -> str:
        return self.ids.get(word, word)

    def transaction(self, word: str) -> str:
        """The id of a transaction, or of a block's coinbase."""
        block, dot, _ = word.partition(".cb")
        if not dot:
            return self.id(word)
        data = self.data[block]
        _, place = read_count(data, 80)
        return double_sha(data[place : transaction_end(data, place)])[::-1].hex()

    def request(self, command: str, now: int) -> tuple[str, dict[str, Any]]:
        """A command as a method and its parameters."""
        match command.split(" "):
            case ["submit", name]:
                return "submit", {"block": self.data[name].hex(), "now": now}
            case ["cut", name, length]:
                return "submit", {"block": self.data[name][: int(length)].hex(), "now": now}
            case ["raw", digits]:
                return "submit", {"block": digits.removeprefix("-"), "now": now}
            case ["best"]:
                return "getbestblockhash", {}
            case ["tips"]:
                return "getchaintips", {}
            case ["txout", output]:
                name, _, place = output.rpartition(":")
                return "gettxout", {"txid": self.transaction(name), "n": int(place)}
            case [("invalidate" | "reconsider" | "precious") as word, block]:
                return word, {"id": self.id(block)}
        raise AssertionError(command)

    def text(self, method: str, answer: Any) -> str:
        """An answer as the program prints it in a run."""
        if method == "getbestblockhash":
            return self.names.get(answer["hash"], answer["hash"])
        if method == "getchaintips":
            return "; ".join(
                f"{self.names.get(it['hash'], it['hash'])} {it['height']} {it['branchlen']} {it['status']}" for it in answer
            )
        if method == "gettxout":
            if answer is None:
                return "none"
            coinbase = " coinbase" if answer["coinbase"] else ""
            script = answer["script"] or "-"
            return f"{answer['value']} {script} height {answer['height']}{coinbase} conf {answer['confirmations']}"
        told: str = answer
        return told


class Command(NamedTuple):
    """A command of a scenario, with its moment, and what it must be answered."""

    words: str
    now: int
    reply: str
    stamp: int


def commands_of(scenario: Scenario) -> list[Command]:
    """The commands of a scenario's client, each `each` spelled out."""
    from scenarios import MOMENT, answers_of

    now, found = int(MOMENT), []
    for line in scenario.told.split("\n"):
        if line.startswith("now "):
            now = int(line.removeprefix("now "))
            continue
        found += [Command(words, now, reply, stamp) for words, reply, stamp in answers_of(line)]
    return found
