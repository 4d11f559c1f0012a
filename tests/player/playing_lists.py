"""The program `player` at its doors (crates/player/README.md), as a process whose lines are read."""
from __future__ import annotations

import concurrent.futures
import os
import re
import subprocess
import unittest
from typing import Callable, Iterable, NamedTuple, TypeVar

from running import ROOT
from scenarios import MOMENT, Scenario, answers_of

PLAYER = os.path.join(ROOT, "crates", "player", "out", "player")
# The program that `regchain` is too, with a gate (crates/gated/README.md).
GATED = os.path.join(ROOT, "crates", "gated", "out", "gated")

SECONDS = 120  # for a play

WRITES = ("submit", "invalidate", "reconsider", "precious", "cut")

Item = TypeVar("Item")
Result = TypeVar("Result")


def in_parallel(play: Callable[[Item], Result], items: Iterable[Item]) -> list[Result]:
    """What comes of each, as many at a time as there are processors."""
    with concurrent.futures.ThreadPoolExecutor(os.cpu_count()) as pool:
        return list(pool.map(play, items))


def play(door: str, text: str = "", rest: Iterable[str] = (), folder: str | None = None, **settings: object) -> str:
    """What is printed of a list, which is this text, at a door. The status has to be 0, and nothing is told of a fault."""
    return play_list(door, "-", text, rest, folder, **settings)


def play_list(
    door: str, name: str, text: str = "", rest: Iterable[str] = (), folder: str | None = None, **settings: object
) -> str:
    """As `play`, with a list by its name."""
    numbers = [f"{key.replace('_', '-')}={int(value) if isinstance(value, bool) else value}" for key, value in settings.items()]
    words = [GATED if door == "program" else PLAYER, door, name, *numbers, *(["--", *rest] if rest else [])]
    ended = subprocess.run(words, input=text, capture_output=True, text=True, cwd=folder, timeout=SECONDS)
    if ended.returncode or ended.stderr:
        raise AssertionError(f"{words[1:]}: status {ended.returncode}, {ended.stderr!r}, {ended.stdout[-400:]!r}")
    return ended.stdout


class ListTest(unittest.TestCase):
    def expect_lines(self, given: list[str], wanted: list[str]) -> None:
        """Compares lines, and shows the first that differs."""
        if given != wanted:
            places = range(max(len(given), len(wanted)))
            at = next(it for it in places if given[it : it + 1] != wanted[it : it + 1])
            self.fail(f"line {at + 1}: {given[at : at + 1]}, not {wanted[at : at + 1]}")


class Answer(NamedTuple):
    """A line `COMMAND = ANSWER @STAMP`."""

    command: str
    text: str
    at: int


class Step(NamedTuple):
    """A line of a journal, `PLACE SEAT COMMAND = REPLY`, where a submission has its moment behind the block's name."""

    place: int
    seat: int
    command: str
    reply: str

    def words(self) -> list[str]:
        """The command as a client gives it, with its moment before."""
        word, name, *moment = self.command.split(" ")
        return [*(f"now {it}" for it in moment), f"{word} {name}"]


class Played:
    """What a node's seats answered: of each client its lines, and the journal."""

    def __init__(self, printed: str) -> None:
        all_lines = printed.splitlines()
        self.gate = [line for line in all_lines if line.startswith("gate = ")]
        self.clients: dict[str, list[str]] = {}
        self.journal: list[str] = []
        lines = self.journal
        for line in (line for line in all_lines if not line.startswith("gate = ")):
            if line.startswith("client "):
                lines = self.clients[line.removeprefix("client ")] = []
            elif line == "journal":
                lines = self.journal
            else:
                lines.append(line)

    def steps(self) -> list[Step]:
        found = re.findall(r"(?m)^(\d+) (\d+) (.*) = (.*)$", "\n".join(self.journal))
        assert len(found) == len(self.journal)
        return [Step(int(stamp), int(seat), command, reply) for stamp, seat, command, reply in found]


def answer(line: str) -> Answer:
    found = re.fullmatch(r"(.*) = (.*) @(\d+)", line)
    if not found:
        raise AssertionError(f"no answer with a stamp: {line}")
    return Answer(found[1], found[2], int(found[3]))


def is_write(command: str) -> bool:
    return command.split(" ", 1)[0] in WRITES


def answers(scenario: Scenario) -> list[Answer]:
    """Every answer that a scenario must have."""
    lines = [line for line in scenario.told.split("\n") if " = " in line]
    return [Answer(*each) for line in lines for each in answers_of(line)]


def journal(scenario: Scenario, seats: int) -> list[str]:
    """The journal that it must have where so many seats make the calls in turn."""
    lines, now, turn = [], MOMENT, 0
    for line in scenario.told.split("\n"):
        if line.startswith("now "):
            now = line.removeprefix("now ")
            continue
        for command, reply, stamp in answers_of(line):
            if is_write(command) and reply != "decode-failed":
                moment = f" {now}" if command.startswith("submit ") else ""
                lines.append(f"{stamp} {turn % seats} {command}{moment} = {reply}")
            turn += 1
    return lines


def definitions_of(text: str) -> str:
    """The lines of a list before its clients."""
    return text.partition("client ")[0]


def outputs_of(definitions: str) -> list[str]:
    """Commands that ask for each output that blocks and transactions of these lines make."""
    found, name, index = ["txout genesis.cb:0"], "", 0
    for line in definitions.splitlines():
        words = line.split()
        if words[:1] == ["block"] and "cb=none" not in words:
            found.append(f"txout {words[1]}.cb:0")
        elif words[:1] == ["chain"]:
            found += [f"txout {words[1]}{number}.cb:0" for number in range(1, int(words[2]) + 1)]
        elif words[:1] == ["tx"]:
            name, index = words[1], 0
        elif words[:1] == ["out"]:
            found.append(f"txout {name}:{index}")
            index += 1
    return found


def client(name: str, lines: Iterable[str]) -> str:
    return "".join(f"{line}\n" for line in [f"client {name}", *lines])
