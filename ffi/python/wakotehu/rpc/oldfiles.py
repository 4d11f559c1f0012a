"""The files that earlier versions of the server kept in the folder of -datadir: the program's saved files
(docs/PROGRAM.md)."""

import os
import re
from typing import BinaryIO, NamedTuple, Optional, Sequence, Set

from ..chainstate import read_id
from ..history import regular
from ..nodebench import NodeBench

JOURNAL, BLOCKS, TABLE, HEIGHTS = "journal.txt", "blocks.blk", "table.txt", "heights.txt"
MAGIC = bytes.fromhex("fabfb5da")
MAX_RECORD = 33_554_432
_LINE = re.compile(r"(\d+) \w{1,32} (?:submit ([0-9a-f]{64}) (\d+)|(invalidate|reconsider|precious) ([0-9a-f]{64})) = (.+)")


class BadFolder(Exception):
    """The folder can't be used, and why."""


class Step(NamedTuple):
    command: str
    id: bytes
    now: int
    reply: str


class OldFiles:
    """The files of an earlier version in a folder. They are only read, and what wasn't written whole counts for nothing:
    nobody was told of it."""

    def __init__(self, path: str) -> None:
        self.path = path

    def are_there(self) -> bool:
        return os.path.exists(os.path.join(self.path, JOURNAL))

    def heights(self, given: Optional[Sequence[int]]) -> Sequence[int]:
        """The heights of soft forks. Those that are given have to be the same."""
        with self._open(HEIGHTS) as file:
            found = file.read()
        try:
            saved = tuple(int(word) for word in found.decode().strip().split(","))
        except ValueError:
            raise BadFolder(f"{HEIGHTS} can't be read")
        if given is not None and given != saved:
            raise BadFolder(f"{self.path} was made with the heights {saved}, not {tuple(given)}")
        return saved

    def table(self, given: Optional[bytes]) -> bytes:
        """The valid signatures. Those that are given have to be the same."""
        with self._open(TABLE) as file:
            saved = file.read()
        saved = saved[: saved.rfind(b"\n") + 1]
        if given is not None and _lines(given) != _lines(saved):
            raise BadFolder(f"{self.path} was made with another table")
        return saved

    def replay(self, bench: NodeBench) -> None:
        """Takes all commands again. A reply that differs is refused."""
        with self._open(JOURNAL) as journal, self._open(BLOCKS) as blocks, bench.turn:
            for place, line in enumerate(journal, 1):
                if not line.endswith(b"\n"):
                    return
                step = _step(line.decode("ascii", "replace").rstrip("\n"), place)
                if step.command == "submit":
                    reply = bench.try_submit(_record(blocks, place), step.now).text
                else:
                    reply = bench.try_mark(step.command, step.id).text
                if reply != step.reply:
                    raise BadFolder(f"{JOURNAL} line {place}: {step.reply!r} was answered, and {reply!r} now")

    def move(self, folder: str) -> None:
        """Moves those that are there into another folder."""
        for name in (BLOCKS, TABLE, HEIGHTS, JOURNAL):
            if os.path.exists(os.path.join(self.path, name)):
                os.rename(os.path.join(self.path, name), os.path.join(folder, name))

    def _open(self, name: str) -> BinaryIO:
        return open(os.path.join(self.path, name), "rb", opener=regular)


def _lines(table: bytes) -> Set[bytes]:
    return {line.strip() for line in table.splitlines()} - {b""}


def _step(line: str, place: int) -> Step:
    found = _LINE.fullmatch(line)
    if not found or int(found[1]) != place:
        raise BadFolder(f"{JOURNAL} line {place} can't be read")
    if found[2]:
        return Step("submit", read_id(found[2]), int(found[3]), found[6])
    return Step(found[4], read_id(found[5]), 0, found[6])


def _record(blocks: BinaryIO, place: int) -> bytes:
    begins = blocks.read(8)
    length = int.from_bytes(begins[4:], "little")
    data = blocks.read(length) if begins[:4] == MAGIC and length <= MAX_RECORD else b""
    if len(begins) < 8 or not data or len(data) < length:
        raise BadFolder(f"{BLOCKS} has no block of line {place}")
    return data
