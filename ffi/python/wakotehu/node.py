"""A node for many callers: the program `regchain serve`, as a process.

`Node` is for threads, `AsyncNode` for asyncio. What the process does is proved, as crates/node says; that these modules
ask for what their calls say, and read what is answered, is tested.
"""

import warnings
from types import TracebackType
from typing import Any, Dict, List, NoReturn, Optional, Sequence, Tuple, Type, Union
from weakref import ref

from . import arguments
from .arguments import Path
from .asyncnode import AsyncNode, AsyncSeat
from .chainstate import BlockHeader, Coin, Moved, Reply, Tip
from .deployments import GivenHeights
from .pipe import Pipe
from .served import (
    BEST, FINISH, INFO, NOTE, SAVE, TIMEOUT, TIPS, UNDER_WAY, Call, Entry, Info, Opening, Stamped,
    UnspentOutput, Wanted, ancestor_of, block_of, checked, coins_above, dry_run, entries, fork_of, hash_at, header_of,
    learning, longer_than, mark, moving, outcome_behind, output, outputs, parted, program_path, spent_by, submission, told,
    verdicts,
)  # fmt: skip
from .signatures import Verify

__all__ = [
    "UNDER_WAY", "AsyncNode", "AsyncSeat", "BlockHeader", "Entry", "Info", "Node", "Seat", "Stamped", "UnspentOutput", "program_path",
]  # fmt: skip


class Seat:
    """A caller's place at a node's history. Any thread may call it; its calls are answered in order.

    Ids are bytes in the order in which they are hashed, as everywhere in this package.
    """

    def __init__(self, node: "Node", number: int) -> None:
        self.node = node
        self.number = number

    def _ask(self, call: Call) -> Any:
        return self.node._pipe.ask(call, self.number)

    def _command(self, call: Call) -> Any:
        """Makes a command. If it wants signatures, this thread verifies them, reports each part while it verifies the next, and
        sends the command again behind the last report, without waiting for the answers."""
        node, pipe = self.node, self.node._pipe
        calls, asked = [call], pipe.begun([call], self.number)
        while True:
            try:
                return outcome_behind(pipe.answers(asked), calls)
            except Wanted as wanted:
                lines = wanted.lines
            assert node._verify is not None
            calls, asked = [], []
            for part in parted(lines) if node._is_parted else [lines]:
                for one in verdicts(part, node._verify):
                    calls.append(one)
                    asked += pipe.begun([one], self.number)
            calls.append(call)
            asked += pipe.begun([call], self.number)

    def _learn(self, lines: Sequence[bytes], found: Sequence[bool]) -> None:
        """Tells the node verdicts that it didn't ask for."""
        self.node._pipe.ask_all(learning(lines, found), self.number)

    # ---- commands

    def submit(self, block: bytes, now: Optional[int] = None) -> Stamped[str]:
        """Submits a block at a moment in seconds since 1970, now by default: "accepted", "inconclusive", "duplicate",
        "duplicate-invalid" or "duplicate-inconclusive".

        A block that breaks a rule raises `Rejected`, of the reason's class, with the step's place as `at`; bytes that
        are no block raise `DecodeFailed`.
        """
        return checked(self.try_submit(block, now))

    def try_submit(self, block: bytes, now: Optional[int] = None) -> Stamped[Reply]:
        """The same, and a refusal is answered, not raised."""
        answered: Stamped[Reply] = self._command(submission(block, now))
        return answered

    def judge(self, block: bytes, now: Optional[int] = None) -> Stamped[Reply]:
        """The reply that `submit` would get now, a refusal too, after so many steps. No step is taken."""
        answered: Stamped[Reply] = self._command(dry_run(block, now))
        return answered

    def invalidate(self, id: bytes) -> Stamped[str]:
        """Marks a block as invalid. One that isn't kept raises `NotFound`; the genesis block raises `Genesis`."""
        return checked(self.try_mark("invalidate", id))

    def reconsider(self, id: bytes) -> Stamped[str]:
        """Takes the marks from a block, its ancestors and its descendants."""
        return checked(self.try_mark("reconsider", id))

    def precious(self, id: bytes) -> Stamped[str]:
        """Prefers a block to all that are as high."""
        return checked(self.try_mark("precious", id))

    def try_mark(self, command: str, id: bytes) -> Stamped[Reply]:
        """One of "invalidate", "reconsider", "precious"; a refusal is answered, not raised."""
        answered: Stamped[Reply] = self._command(mark(command, id))
        return answered

    # ---- reads

    def gettxout(self, txid: bytes, n: int) -> Stamped[Optional[UnspentOutput]]:
        """The output at an outpoint, or None."""
        answered: Stamped[Optional[UnspentOutput]] = self._ask(output(txid, n))
        return answered

    def gettxouts(self, outpoints: Sequence[Tuple[bytes, int]]) -> List[Stamped[Optional[UnspentOutput]]]:
        """The outputs at many outpoints, or None: as `gettxout` for each, in this order, and some times as fast."""
        return self.node._pipe.ask_all(outputs(outpoints), self.number)

    def getbestblockhash(self) -> Stamped[bytes]:
        """The best block's id."""
        answered: Stamped[bytes] = self._ask(BEST)
        return answered

    def getchaintips(self) -> Stamped[List[Tip]]:
        """The tips, by height downwards, then as they came."""
        answered: Stamped[List[Tip]] = self._ask(TIPS)
        return answered

    def getblock(self, id: bytes) -> Stamped[Optional[bytes]]:
        """The bytes of a block that was submitted and not refused, or None."""
        answered: Stamped[Optional[bytes]] = self._ask(block_of(id))
        return answered

    def getblockheader(self, id: bytes) -> Stamped[Optional[BlockHeader]]:
        """The header of such a block, and where it stands, or None."""
        answered: Stamped[Optional[BlockHeader]] = self._ask(header_of(id))
        return answered

    def getblockhash(self, height: int) -> Stamped[Optional[bytes]]:
        """The id of the active branch's block at a height, or None above the best one."""
        answered: Stamped[Optional[bytes]] = self._ask(hash_at(height))
        return answered

    def getancestor(self, id: bytes, height: int) -> Stamped[Optional[bytes]]:
        """The id of the block at a height of a block's branch, on which it is itself. None above that block, or if `getblock`
        doesn't have it."""
        answered: Stamped[Optional[bytes]] = self._ask(ancestor_of(id, height))
        return answered

    def getfork(self, one: bytes, other: bytes) -> Stamped[Optional[bytes]]:
        """The id of the last block that the branches of two blocks share. None if `getblock` doesn't have both."""
        answered: Stamped[Optional[bytes]] = self._ask(fork_of(one, other))
        return answered

    def getspent(self, id: bytes) -> Stamped[Optional[List[Coin]]]:
        """The coins that a block of the active branch spent, in the order of its inputs, as `Chainstate.spent`; None of another
        block. It takes its turn among submissions."""
        answered: Stamped[Optional[List[Coin]]] = self._ask(spent_by(id))
        return answered

    def moved(self, before: bytes) -> Stamped[Moved]:
        """What the steps did since this was the best block, as `Chainstate.moved`. One that `getblock` doesn't have raises
        `NotFound`.

        It is read from `getbestblockhash`, whose `at` it has, and from `getfork` and headers, of which none ever changes. So it
        is one answer for the best block at `at`, also if steps are taken meanwhile. The next call tells what they do, from
        that best block: the last of `connected`, or `fork` if that is empty.
        """
        asking = moving(before)
        answer: Any = None
        while True:
            try:
                call = asking.send(answer)
            except StopIteration as end:
                moved: Stamped[Moved] = end.value
                return moved
            answer = self._ask(call)

    def coins(
        self, above: Optional[Tuple[bytes, int]] = None, most: int = 1000
    ) -> Stamped[List[Tuple[bytes, int, Coin]]]:
        """The unspent outputs above an outpoint, or from the least on, by rising outpoints, as `Chainstate.coins` lists
        them: at most so many, at most 1,000, and fewer only where there are no more. Lists with the same `at` are of one
        state."""
        answered: Stamped[List[Tuple[bytes, int, Coin]]] = self._ask(coins_above(above, most))
        return answered

    def wait(self, after: int) -> int:
        """Waits until the history has more steps than `after`: how many the seat then has seen. Its other calls wait too;
        those of other seats don't."""
        return int(self._ask(longer_than(after)))

    def journal(self, first: int = 1, last: int = 2**64 - 1) -> Stamped[List[Entry]]:
        """The steps of these numbers, from 1, both included, of all that the seat then has seen."""
        answered: Stamped[List[Entry]] = self._ask(entries(first, last))
        return answered

    # ---- what was seen

    def note(self) -> int:
        """How many steps the seat has seen."""
        return int(self._ask(NOTE))

    def told(self, other: "Seat") -> int:
        """From now on the seat has seen what the other had by its last answer too: how many steps that makes."""
        if arguments.instance(other, Seat, "other").node is not self.node:
            raise ValueError("other must be a seat of the same node")
        return int(self._ask(told(other.number)))


class Node:
    """A node of 1 to 16 seats in a process of its own.

    seats, workers: 1 to 16 each; at most so many threads check a block's scripts.
    heights: from which heights BIPs 34, 65, 66 and 68 with 112 and 113 are in force; regtest's by default.
    table: the valid signatures, as lines of a key, a signature without its hash type and a digest, in hexadecimal and
        parted by spaces. No other signature is valid.
    program: the program's path; see `program_path`.
    blk: a file of blocks that are submitted first.
    load: the folder of an earlier run, which is played again first, under its own heights and table.
    save: the folder into which the history is saved at the end; it may be the same. It is made where it isn't there.
    verify: finds out which signatures are valid, as scripts ask for them, in place of a table: `secp256k1`, or a function that
        says of lines as a table's which are. It runs on the threads of those who call `submit` and the marks, while no other
        call waits for it. Of 400 and more it is asked in parts, of at least 200: one is reported while the next is
        verified.
    datadir: the folder in which the history is kept, of this node alone. It is made where it isn't there, under these heights
        and this table; else the node goes on from it, and None of them stands for what it has. An answer comes when its
        steps are on the disk: however the process or the machine ends, nothing that was answered is lost.
    sync: False answers without waiting for the disk; a crash of the machine may then lose what was answered.
    history_memory: how many megabytes submissions may take that aren't kept, but repeated or refused. Beyond, such a
        submission raises `HistoryFull`, and is no step. A repeated one counts whole, though it shares the kept block's bytes. None
        is without a bound.
    timeout: how many seconds a call waits for its answer, `close` and the opening with `blk`, `load` or `datadir` included; None is
        for ever. Then it raises `TimedOut`.

        with Node(seats=2) as node:
            node.seat(0).submit(block)

    Any thread may call, of the process that opened it. Where the node's process ends, calls raise `NodeDied`; after
    `close`, `Closed`. A node that is dropped without `close` ends its process, and nothing is saved but what `datadir` has.
    """

    def __init__(
        self, seats: int = 4, workers: int = 2, heights: Optional[GivenHeights] = None,
        table: Optional[Union[str, bytes]] = None, program: Optional[Path] = None, *,
        blk: Optional[Path] = None, load: Optional[Path] = None, save: Optional[Path] = None,
        datadir: Optional[Path] = None, sync: bool = True, timeout: Optional[float] = TIMEOUT,
        verify: Optional[Verify] = None, history_memory: Optional[int] = None,
    ) -> None:  # fmt: skip
        opening = Opening(seats, workers, heights, table, program, blk, load, save, datadir, sync, timeout, verify, history_memory)
        self._verify = opening.verify
        #: Whether `verify` may be asked for a part of what a command wants.
        self._is_parted = True
        self._count = opening.seats
        # Seats keep their node, not the other way round: so it is seen at once that nobody has it any more.
        self._kept: Dict[int, "ref[Seat]"] = {}
        with opening as words:
            self._pipe = Pipe(words, opening.timeout)
            self._process = self._pipe.process
            try:
                #: How the node was opened.
                self.info: Info = self._pipe.ask(INFO, None)
            except BaseException:
                self.kill()
                raise

    @property
    def seats(self) -> List[Seat]:
        """Its seats, in order."""
        return [self.seat(number) for number in range(self._count)]

    def seat(self, number: int) -> Seat:
        """The seat of a number, from 0."""
        if not 0 <= arguments.integer(number, "number") < self._count:
            raise IndexError(f"the seats are 0 to {self._count - 1}")
        kept = self._kept.get(number)
        found = None if kept is None else kept()
        if found is None:
            found = Seat(self, number)
            self._kept[number] = ref(found)
        return found

    # ---- its life

    def save(self) -> int:
        """Waits until every step that any call was answered is in the folder of `datadir` or `save`: how many steps that are. With
        `datadir` they are there behind each answer already. Where the folder of `save` can't be written, without either, and with
        `sync=False`, it raises `NotSaved`, and the node goes on."""
        return int(self._pipe.ask(SAVE, None))

    def close(self) -> Optional[int]:
        """Has the process finish and save: how many steps the history has, or None where it was closed before. A process
        that doesn't end in time is killed."""
        pipe, steps = self._pipe, None
        pipe.check_process()
        if not pipe.close():
            return None
        try:
            steps = int(pipe.ask(FINISH, None, is_last=True))
        finally:
            pipe.end(wait=steps is not None)
        if self._process.returncode:
            raise pipe.why()
        return steps

    def kill(self) -> None:
        """Ends the process at once. Nothing is saved; a folder keeps what it had."""
        self._pipe.check_process()
        # Without waiting for who is writing: that ends with the process.
        self._pipe.is_closed = True
        self._pipe.end(wait=False)

    def __enter__(self) -> "Node":
        return self

    def __exit__(
        self, kind: Optional[Type[BaseException]], value: Optional[BaseException], trace: Optional[TracebackType]
    ) -> None:
        if kind is not None and self._pipe.ended:
            self.kill()
            return
        self.close()

    def __del__(self) -> None:
        pipe: Optional[Pipe] = getattr(self, "_pipe", None)
        if pipe is not None and pipe.drop():
            warnings.warn(f"a Node wasn't closed: its process is ended ({self!r})", ResourceWarning, source=self)

    def __reduce_ex__(self, protocol: object) -> NoReturn:
        """A process isn't copied and isn't pickled."""
        raise TypeError("a Node can't be copied or pickled")
