"""Notices of blocks and transactions: by ZeroMQ in the forms of Bitcoin Core 0.21 (doc/zmq.md), and by a command."""

import importlib
import ipaddress
import queue
import re
import subprocess
import threading
from typing import Any, Callable, Dict, List, NamedTuple, Optional, Sequence, Union

from ..chainstate import show
from ..encoding import block_at_front
from ..index import Index
from ..nodebench import Move
from .node import Node, call
from .values import Object

#: How many messages wait for a subscriber before others are dropped, where nobody says it.
HIGH_WATER = 1000


#: How long the end waits until all was told, in seconds.
SOON = 0.3


class BadNotice(Exception):
    """A notice that can't be sent, and why."""


class Notice(NamedTuple):
    """What is published where."""

    topic: str
    address: str
    high_water: int


class Step(NamedTuple):
    """A block that came to the active branch (C) or left it (D); whether it is published as the best one then, and whether the
    command is run."""

    id: bytes
    data: bytes
    label: bytes
    is_best: bool
    runs: bool


class Waiting(NamedTuple):
    """A transaction that came to the mempool (A) or left it without being mined (R), and how many came or left before."""

    id: bytes
    data: bytes
    label: bytes
    number: int


def read_notice(topic: str, address: str, high_water: int) -> Notice:
    """A notice of the command line. Its address is on this machine."""
    found = re.fullmatch(r"tcp://(?:\[([0-9a-f:]+)\]|([0-9.]+|localhost)):([0-9]{1,5})", address)
    try:
        is_own = found is not None and (found[2] == "localhost" or ipaddress.ip_address(found[1] or found[2]).is_loopback)
    except ValueError:
        is_own = False
    if not is_own and not re.fullmatch("ipc://.+", address):
        raise BadNotice(f"-zmqpub{topic}={address[:100]} isn't taken: it is ipc://PATH or tcp://HOST:PORT of the loopback")
    return Notice(topic, address, high_water)


class Publisher:
    """Tells of the steps of the active branch, in their order, by a thread of its own. Nothing waits for it.

    command: is run with each best block's hash in the place of %s; empty for none.
    """

    def __init__(self, notices: Sequence[Notice], command: str = "") -> None:
        self.notices, self.command = list(notices), command
        self._steps: "queue.SimpleQueue[Optional[Sequence[Union[Step, Waiting]]]]" = queue.SimpleQueue()
        self._counts: Dict[Notice, int] = dict.fromkeys(notices, 0)
        self._sockets: Dict[str, Any] = {}
        self._context: Any = None
        self._is_over = False
        if notices:
            self._open()
        self._thread = threading.Thread(target=self._run, daemon=True)
        self._thread.start()

    def _open(self) -> None:
        """Binds a socket for each address."""
        try:
            zmq: Any = importlib.import_module("zmq")
        except ImportError:
            raise BadNotice(f"-zmqpub{self.notices[0].topic} needs Debian's python3-zmq, which isn't installed")
        self._context = zmq.Context()
        for notice in self.notices:
            if notice.address in self._sockets:
                continue
            socket = self._sockets[notice.address] = self._context.socket(zmq.PUB)
            socket.set_hwm(notice.high_water)
            try:
                socket.bind(notice.address)
            except zmq.ZMQError as error:
                self._close()
                raise BadNotice(f"-zmqpub{notice.topic}={notice.address}: {error}")

    def moved(self, node: Node, move: Move) -> None:
        """Tells of a move of a node's active branch."""
        self.tell(steps_of(node.bench.index, move, node.data))

    def tell_of(self, id: bytes, label: bytes, data: bytes, number: int) -> None:
        """Tells of a transaction that came to the mempool (A), with its bytes, or left it without being mined (R), and how many
        came or left before."""
        self._steps.put([Waiting(id, data, label, number)])

    def tell(self, steps: Sequence[Step]) -> None:
        """Tells of these, sooner or later."""
        self._steps.put(list(steps))

    def close(self) -> None:
        """Ends when all was told, or soon."""
        self._steps.put(None)
        self._thread.join(SOON)
        self._is_over = True
        self._thread.join()
        self._close()

    def _close(self) -> None:
        for socket in self._sockets.values():
            socket.close(linger=0)
        if self._context is not None:
            self._context.term()

    def _run(self) -> None:
        while True:
            steps = self._steps.get()
            if steps is None:
                return
            for step in steps:
                if self._is_over:
                    return
                if isinstance(step, Waiting):
                    self._tell_of(step)
                else:
                    self._tell(step)

    def _tell_of(self, it: Waiting) -> None:
        if it.label == b"A":
            self._send(hashtx=it.id[::-1], rawtx=it.data)
        self._send(sequence=it.id[::-1] + it.label + it.number.to_bytes(8, "little"))

    def _tell(self, step: Step) -> None:
        if step.label:
            if any(notice.topic in ("hashtx", "rawtx") for notice in self.notices):
                block = block_at_front(step.data)
                for id, (begin, end) in zip(block.ids, block.places):
                    self._send(hashtx=id[::-1], rawtx=step.data[begin:end])
            self._send(sequence=step.id[::-1] + step.label)
        if step.is_best:
            self._send(hashblock=step.id[::-1], rawblock=step.data)
        if step.runs and self.command:
            run = self.command.replace("%s", show(step.id))
            threading.Thread(target=subprocess.call, args=(run,), kwargs={"shell": True}, daemon=True).start()

    def _send(self, **bodies: bytes) -> None:
        """Sends what is asked for: the topic, the body, and the number of the notice's message in four bytes."""
        for notice in self.notices:
            if notice.topic in bodies:
                count = self._counts[notice]
                self._counts[notice] = (count + 1) % 2**32
                parts = [notice.topic.encode(), bodies[notice.topic], count.to_bytes(4, "little")]
                self._sockets[notice.address].send_multipart(parts)


def steps_of(index: Index, move: Move, data: Callable[[bytes], bytes]) -> List[Step]:
    """The steps of a move of the active branch. As Bitcoin Core does, each block that came above the best one's height is told
    as the best one, and in any case the last. The parent of a block that was marked as invalid was the best one before
    others came: the command alone is told of it."""
    found = [Step(id, data(id), b"D", False, False) for id in move.gone]
    top = move.top
    if move.cut is not None:
        top = move.cut
        low = next((id for id in move.gone if index.blocks[id].height == top + 1), None)
        if low is not None:
            found.append(Step(index.blocks[low].header.parent, b"", b"", False, True))
    for id in move.come:
        is_best = index.blocks[id].height > top or id == move.come[-1]
        found.append(Step(id, data(id), b"C", is_best, is_best))
    return found


@call("Zmq")
def getzmqnotifications(node: Node) -> List[Object]:
    """What is published by ZeroMQ, and where."""
    return [
        {"type": f"pub{notice.topic}", "address": notice.address, "hwm": notice.high_water}
        for notice in (node.publisher.notices if node.publisher else ())
    ]
