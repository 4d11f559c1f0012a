"""The log of a node whose history is kept, `history.log` in the folder of `Node(datadir=..)`: its steps, and what they tell
of blocks and signatures. docs/SERVE.md says what a line has."""

import errno
import gc
import os
import stat
from binascii import unhexlify
from typing import Dict, Iterator, NamedTuple, Sequence

from .chainstate import Tip
from .encoding import Spelled, block_at_front, double_sha
from .index import Index

LOG = "history.log"
#: The commands of steps that tell a verdict on a signature.
VERDICTS = ("valid", "invalid")


def regular(path: str, flags: int, mode: int = 0o600) -> int:
    """An opener for `open`: of a regular file, or of a link to one. `OSError` of another one: a pipe nobody writes to would be waited
    for, and a device may have no end. `mode` is that of a file that is made."""
    number = os.open(path, flags | os.O_NONBLOCK, mode)
    if stat.S_ISREG(os.fstat(number).st_mode):
        return number
    os.close(number)
    raise OSError(errno.EINVAL, "not a regular file", path)


class Logged(NamedTuple):
    """A step. `rest` is a submission's block in hexadecimal, a verdict's signature as a line of a table, else nothing."""

    command: str
    reply: str
    rest: bytes


def steps_of(path: str) -> Iterator[Logged]:
    """The steps of a log, as far as its lines are whole. One that can't be read is a `ValueError`."""
    with open(path, "rb", opener=regular) as file:
        for place, line in enumerate(file, 1):
            if not line.endswith(b"\n") or b"\0" in line:
                return
            head, _, rest = line[:-1].partition(b"\t")
            told, equals, reply = head.decode("ascii", "replace").partition(" = ")
            words = told.split(" ")
            if not equals or len(words) < 4 or words[0] != str(place):
                raise ValueError(f"{path} line {place} can't be read")
            yield Logged(words[2], reply, rest)


class Past:
    """What a log tells: the blocks that are kept and their bytes, the verdicts on signatures, and how many of the steps are
    commands.

    A block is kept if it is on the branch of a tip. For one that was accepted, or is inconclusive, that is known at once;
    one that was refused may be kept too, where it was refused over its coins. Of several submissions of a kept block the
    last one counts that isn't answered as a duplicate.
    """

    def __init__(self) -> None:
        self.index = Index()
        self.data: Dict[bytes, bytes] = {}
        self.verdicts: Dict[bytes, bool] = {}
        self.commands = 0
        self._refused: Dict[bytes, Spelled] = {}

    def take(self, step: Logged) -> None:
        """Takes the next step up."""
        if step.command in VERDICTS:
            self.verdicts[step.rest] = step.command == "valid"
            return
        self.commands += 1
        if step.command == "submit" and not step.reply.startswith("duplicate"):
            spelled = block_at_front(unhexlify(step.rest))
            id = double_sha(spelled.data[:80])
            if step.reply in ("accepted", "inconclusive"):
                self._keep(id, spelled)
            else:
                self._refused[id] = spelled

    def end(self, tips: Sequence[Tip], best: bytes) -> None:
        """Says which blocks the history leaves."""
        for tip in tips:
            self._keep_refused(tip.id)
        self._refused.clear()
        self.index.follow(best)

    def _keep(self, id: bytes, spelled: Spelled) -> None:
        self._refused.pop(id, None)
        self._keep_refused(spelled.header.parent)
        self.data[id] = spelled.data
        self.index.add(id, spelled)

    def _keep_refused(self, id: bytes) -> None:
        """Keeps those of a kept block's branch, itself among them, that were refused."""
        branch = []
        while id in self._refused:
            branch.append(id)
            id = self._refused[id].header.parent
        for id in reversed(branch):
            self._keep(id, self._refused[id])


def past_of(path: str, tips: Sequence[Tip], best: bytes) -> Past:
    """What a log tells after which these are the tips and the active block."""
    past, collects = Past(), gc.isenabled()
    # All that is made stays. Python's collector would look for garbage in it again and again, which takes most of the time.
    gc.disable()
    try:
        for step in steps_of(path):
            past.take(step)
    finally:
        if collects:
            gc.enable()
    past.end(tips, best)
    return past
