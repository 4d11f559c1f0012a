"""The folder of -datadir. The node has a folder of its own there, in which it keeps its history."""

import fcntl
import os
import shutil
import sys
import time
from typing import BinaryIO, Callable, NamedTuple, Optional, Sequence

from ..errors import NodeDied
from ..history import LOG, regular
from ..nodebench import NodeBench
from .oldfiles import TABLE, BadFolder, OldFiles

__all__ = ["BadFolder", "Folder", "Opening"]

#: The node's folder, and where the files of an earlier version are in the end. While these are taken over the names have
#: another end: so a folder that has its name is whole.
NODE, OLD, BEGUN = "node", "old-files", ".begun"
#: How many seconds a node that lost its server may take to end.
PATIENCE = 60.0


class Opening(NamedTuple):
    """How the server was told to open a node: the heights and the table that were given, whether answers wait for the disk,
    and what opens a bench: by heights, signatures that are known to be valid, a folder, and whether answers wait."""

    heights: Optional[Sequence[int]]
    table: Optional[bytes]
    sync: bool
    bench: Callable[[Optional[Sequence[int]], bytes, str, bool], NodeBench]


class Folder:
    """A folder that this server alone uses."""

    def __init__(self, path: str) -> None:
        self.path = path
        self.node, self._old = os.path.join(path, NODE), os.path.join(path, OLD)
        os.makedirs(path, mode=0o700, exist_ok=True)
        lock = os.path.join(path, ".lock")
        # No link is followed.
        number = regular(lock, os.O_RDWR | os.O_CREAT | os.O_NOFOLLOW | os.O_CLOEXEC)
        self._lock = os.fdopen(number, "r+b")
        if not _locks(self._lock):
            self.close()
            raise BadFolder(f"{path} is in use by another server")

    def close(self) -> None:
        self._lock.close()

    def __enter__(self) -> "Folder":
        return self

    def __exit__(self, *raised: object) -> None:
        self.close()

    def open(self, opening: Opening) -> NodeBench:
        """A bench over the node's folder."""
        old = OldFiles(self.path)
        if os.path.exists(self._old + BEGUN) and os.path.exists(self.node):
            self._move(old)
        elif old.are_there():
            self._take_over(old, opening)
            self._move(old)
        has_table = os.path.exists(os.path.join(self.node, TABLE))
        if os.path.exists(os.path.join(self.node, LOG)) and has_table is not (opening.table is not None):
            raise BadFolder(f"{self.path} was made {'with' if has_table else 'without'} -table")
        return self._opened(opening, opening.heights, b"", self.node, opening.sync)

    def _opened(
        self, opening: Opening, heights: Optional[Sequence[int]], known: bytes, node: str, sync: bool
    ) -> NodeBench:  # fmt: skip
        _wait_for_end(node)
        try:
            return opening.bench(heights, known, node, sync)
        except NodeDied as died:
            why = died.stderr.strip().rpartition("\n")[2]
            raise BadFolder(f"{node}: {why}" if why else str(died))

    # ---- files of an earlier version

    def _take_over(self, old: OldFiles, opening: Opening) -> None:
        """Makes the node's folder from the commands of an earlier version. It gets its name once it has all of them."""
        for path in (self.node, self._old):
            if os.path.exists(path):
                raise BadFolder(f"{self.path} has files of an earlier version, and {path}: one of them has to be moved away")
        begun = self.node + BEGUN
        _wait_for_end(begun)
        if os.path.exists(begun):
            shutil.rmtree(begun)
        heights, table = old.heights(opening.heights), old.table(opening.table)
        with self._opened(opening, heights, table, begun, False) as bench:
            old.replay(bench)
            bench.node.close()
        _sync(os.path.join(begun, LOG))
        os.makedirs(self._old + BEGUN, mode=0o700, exist_ok=True)
        os.rename(begun, self.node)
        _sync(self.path)

    def _move(self, old: OldFiles) -> None:
        """Moves the files of an earlier version aside, whose commands the node's folder has."""
        old.move(self._old + BEGUN)
        _sync(self._old + BEGUN)
        os.rename(self._old + BEGUN, self._old)
        _sync(self.path)
        print(f"wakotehu-server: the commands of an earlier version's files are in {self.node} now, the files in {self._old}",
            file=sys.stderr)  # fmt: skip


def _locks(file: BinaryIO) -> bool:
    """Locks a file, and says whether it did: not where another process has locked it."""
    try:
        fcntl.flock(file, fcntl.LOCK_EX | fcntl.LOCK_NB)
    except BlockingIOError:
        return False
    return True


def _wait_for_end(node: str) -> None:
    """Waits until no node has a folder. One whose server was killed ends by itself, when its input has."""
    until = time.monotonic() + PATIENCE
    try:
        with open(os.path.join(node, "lock"), "r+b", opener=regular) as file:
            while not _locks(file):
                if time.monotonic() > until:
                    raise BadFolder(f"{node} is in use by another process")
                time.sleep(0.01)
    except FileNotFoundError:
        pass


def _sync(path: str) -> None:
    """Brings a file, or a folder's names, onto the disk."""
    number = os.open(path, os.O_RDONLY)
    try:
        os.fsync(number)
    finally:
        os.close(number)
