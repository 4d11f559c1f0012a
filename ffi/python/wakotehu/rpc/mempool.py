"""What waits to be mined at a server: the rules of `wakotehu.mempool` over the seats of a node."""

from contextlib import contextmanager
from typing import TYPE_CHECKING, Iterator, Optional

from ..consensus import Triple
from ..mempool import MOST_BYTES, Entry, Mempool
from ..nodebench import Move
from ..stage import Stage

if TYPE_CHECKING:
    from .node import Node


class ServedMempool(Mempool):
    """What waits on the active branch of a node. Who calls holds the node's turn, which is let go while coins are read, blocks
    are judged and bytes are read."""

    def __init__(self, node: "Node", most: int = MOST_BYTES, full_rbf: bool = False) -> None:
        super().__init__(node.bench, most, full_rbf)
        self.node = node
        #: Counts what came and went, from 1 on.
        self.sequence = 1
        self._is_busy = False

    def now(self) -> int:
        return self.node.now()

    @contextmanager
    def others(self) -> Iterator[None]:
        with self.node.others():
            yield

    def told(self, label: bytes, id: bytes, data: bytes = b"") -> None:
        if self.node.publisher is not None:
            self.node.publisher.tell_of(id, label, data, self.sequence)
        self.sequence += 1

    def stage(self) -> Optional[Stage]:
        return self.node.bench.stage()

    def is_valid(self, triple: Triple) -> bool:
        return self.node.bench.is_valid(triple)

    def moved(self, move: Move) -> None:
        """Takes up a move of the active branch; what blocks that left had comes back when the mempool is used next."""
        self.follow(move.gone, move.come)

    @contextmanager
    def used(self) -> Iterator[None]:
        """The mempool as it is on the active branch; one call at a time."""
        while self._is_busy:
            self.node.turn.wait()
        self._is_busy = True
        try:
            self.look_again()
            yield
        finally:
            self._is_busy = False
            self.node.turn.notify_all()

    @contextmanager
    def read(self) -> Iterator[None]:
        """The same for a call that only reads, which waits for none that judges what was sent: that changes nothing before it
        ends, in one step."""
        self.settle()
        yield

    def settle(self) -> None:
        """Takes up what blocks that left the active branch had."""
        if self.is_stale:
            with self.used():
                pass


__all__ = ["MOST_BYTES", "Entry", "ServedMempool"]
