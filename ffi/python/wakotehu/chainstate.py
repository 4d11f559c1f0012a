"""The proved chainstate."""

import ctypes
import re
import threading
import time
from types import TracebackType
from typing import Any, Iterator, List, NamedTuple, NoReturn, Optional, Sequence, Tuple, Type, TypeVar, Union

from . import arguments, errors
from .arguments import id_of, number, octets
from .consensus import Triple, triple_of
from .deployments import GivenHeights, SoftForks, soft_forks
from .library import Answer, CoinCall, library, params_of
from .library import Coin as _Coin
from .library import Header as _Header
from .library import SpentSize as _SpentSize
from .library import Tip as _Tip

#: The heights of regtest: all soft forks from height 1 on.
REGTEST = SoftForks((1, 1, 1, 1))

_DIGITS = re.compile("[0-9A-Fa-f]{64}")
_MARKS = ("invalidate", "reconsider", "precious")
_Self = TypeVar("_Self", bound="_Held")
_STATUS = ("", "active", "invalid", "valid-fork", "valid-headers")
_REPLIES = (
    "", "accepted", "inconclusive", "duplicate", "duplicate-invalid", "duplicate-inconclusive", "rejected",
    "decode-failed", "tree-full", "done", "not-found", "genesis",
)  # fmt: skip


def show(id: bytes) -> str:
    """An id as it is printed: its bytes reversed, in hexadecimal."""
    return id_of(id)[::-1].hex()


def read_id(text: str) -> bytes:
    """The id that is printed so."""
    if not _DIGITS.fullmatch(arguments.text(text, "text")):
        raise ValueError("text must have the 64 digits of an id")
    return bytes.fromhex(text)[::-1]


class Coin(NamedTuple):
    """An output that isn't spent: its value in satoshis, its script, the height of its block."""

    value: int
    script: bytes
    height: int
    coinbase: bool


class Tip(NamedTuple):
    """A tip. `length` is how many blocks of its branch aren't on the active one; `status` is "active", "invalid",
    "valid-fork" or "valid-headers"."""

    id: bytes
    height: int
    length: int
    status: str


class BlockHeader(NamedTuple):
    """A kept block: its header of 80 bytes, its height, and how many blocks of the active branch there are from it on, -1
    where it isn't on that branch."""

    header: bytes
    height: int
    confirmations: int

    @property
    def parent(self) -> bytes:
        """The id of the block below it; 32 zero bytes of genesis."""
        return self.header[4:36]


class Moved(NamedTuple):
    """From one best block to another: the last block of both branches, and the blocks above it: those that were taken back,
    the highest first, and those that were connected, the lowest first."""

    fork: bytes
    disconnected: List[bytes]
    connected: List[bytes]


class Reply(NamedTuple):
    """The reply to a command, in the words of the program: "accepted", "bad-cb-amount", "blk-bad-inputs 1:0", .."""

    text: str
    reply: str
    reason: str
    transaction: int
    input: int

    def check(self) -> str:
        """The reply's word, or the exception for a reply that is a refusal."""
        if self.reply == "rejected":
            raise errors.BY_REASON[self.reason](self.transaction, self.input)
        kinds = {
            "decode-failed": errors.DecodeFailed,
            "tree-full": errors.TreeFull,
            "not-found": errors.NotFound,
            "genesis": errors.Genesis,
        }
        if self.reply in kinds:
            raise kinds[self.reply](self.text)
        return self.reply


def reply_of(answer: Answer) -> Reply:
    """The reply that the library wrote."""
    reply, reason = _REPLIES[answer.reply], errors.REASONS[answer.reason]
    text = reason or reply
    if reason == "blk-bad-inputs":
        text = f"{reason} {answer.transaction}:{answer.input}"
    return Reply(text, reply, reason, answer.transaction, answer.input)


class _Held:
    """What the library keeps behind a handle: it has coins, and it learns of signatures."""

    _prefix = "wakotehu_"
    _library: ctypes.CDLL
    _handle = 0

    def _of(self, name: str) -> Any:
        """A call of this kind of handle."""
        return getattr(self._library, self._prefix + name)

    # ---- its life

    def close(self) -> None:
        """Gives its memory back. Later calls raise `Closed`; closing twice is fine."""
        if self._handle:
            code = self._of("close")(self._handle)
            if code != 2:
                self._check(code)

    def __enter__(self: _Self) -> _Self:
        return self

    def __exit__(
        self, kind: Optional[Type[BaseException]], value: Optional[BaseException], trace: Optional[TracebackType]
    ) -> None:
        self.close()

    def __del__(self) -> None:
        if getattr(self, "_handle", 0):
            self._of("close")(self._handle)

    def __reduce_ex__(self, protocol: object) -> NoReturn:
        """It isn't copied by `copy.copy` and isn't pickled: that copy would close the original's handle."""
        raise TypeError(f"a {type(self).__name__} can't be copied or pickled")

    # ---- signatures by need

    def wants(self) -> List[Triple]:
        """The signatures at which scripts of the last command stopped, each once, where that raised `Wants`."""
        return Triple.of_lines(self._want_lines())

    def _want_lines(self) -> List[bytes]:
        """Their lines in the text of a table, each once."""
        needed, lines = ctypes.c_size_t(), ctypes.create_string_buffer(8192)
        # Another thread's command may want more meanwhile.
        while (code := self._of("want_lines")(self._handle, lines, len(lines), ctypes.byref(needed))) == 5:
            lines = ctypes.create_string_buffer(needed.value)
        self._check(code)
        # A newline stands in front of each.
        return list(dict.fromkeys(ctypes.string_at(lines, needed.value).split(b"\n")[1:]))

    def learn(self, triple: Triple, valid: bool) -> None:
        """Takes whether a signature is valid. A verdict that contradicts a known one raises `Contradiction`."""
        (key, signature, digest), valid = triple_of(triple), arguments.flag(valid, "valid")
        words = key, len(key), signature, len(signature), digest, int(valid)
        self._check(self._of("learn")(self._handle, *words))

    # ---- coins

    def coin(self, id: bytes, index: int) -> Optional[Coin]:
        """The coin at an outpoint, or None."""
        id, index = id_of(id), number(index, "index")
        coin, script = _Coin(), ctypes.create_string_buffer(128)
        while (code := self._of("coin_at")(self._handle, id, index, ctypes.byref(coin), script, len(script))) == 5:
            script = ctypes.create_string_buffer(coin.script)
        if code == 4:
            return None
        self._check(code)
        return Coin(coin.value, script.raw[: coin.script], coin.height, bool(coin.coinbase))

    def coins(self) -> List[Tuple[bytes, int, Coin]]:
        """All coins, as the id of a transaction, an output's number, and the coin, by rising outpoints: by the bytes of the
        id as they are hashed, then by the number.

        An exception, Ctrl-C too, ends the walk and is raised.
        """
        walk = _Walk()
        # On a thread of its own: Python lets Ctrl-C interrupt the main thread alone, and inside a callback it would be
        # lost.
        thread = threading.Thread(target=walk.run, args=(self._of("coins"), self._handle))
        try:
            thread.start()
            thread.join()
        finally:
            walk.stop()
        if walk.error is not None:
            raise walk.error
        self._check(walk.code)
        return walk.found

    def _spent(self, name: str, *words: object) -> Optional[List[Coin]]:
        """The coins that a block spent, or None where the call answers that there is no such block."""
        size, coins, scripts = _SpentSize(), (_Coin * 16)(), ctypes.create_string_buffer(1024)
        while (code := self._of(name)(self._handle, *words, coins, len(coins), scripts, len(scripts), ctypes.byref(size))) == 5:
            coins, scripts = (_Coin * size.coins)(), ctypes.create_string_buffer(size.scripts or 1)
        if code == 4:
            return None
        self._check(code)
        return list(_coins_of(coins[: size.coins], scripts.raw))

    # ---- inside

    def _check(self, code: int) -> None:
        if code == 0:
            return
        kinds = {
            1: MemoryError, 2: errors.Closed, 7: errors.Busy, 8: ValueError, 9: errors.TooMany, 30: errors.Contradiction,
        }  # fmt: skip
        raise kinds.get(code, errors.Error)(self._library.wakotehu_code_text(code).decode())


class Chainstate(_Held):
    """A chainstate, as the proved library keeps it. It begins with the genesis block alone.

    heights: from which heights BIPs 34, 65, 66 and 68 with 112 and 113 are in force; or by name, as {"nulldummy": 0} (BIP 147).
    table: the valid signatures, as lines of a key, a signature without its hash type and a digest, in hexadecimal and
        parted by spaces. No other signature is valid.
    by_need: no table says which are valid. A command whose scripts ask for signatures of which nothing is known raises
        `Wants`, and has no effect; `learn` takes what was found out, and the command is made again. `Bench` does so.

    Ids are bytes in the order in which they are hashed; `show` prints them as everywhere. One thread at a time may be
    inside a call: another one is refused with `Busy`.

        with Chainstate() as chain:
            chain.submit(block)
    """

    def __init__(
        self, heights: GivenHeights = REGTEST, table: Union[str, bytes] = b"", by_need: bool = False
    ) -> None:
        self._handle = 0
        rules, text = read_heights(heights), arguments.lines(table, "table")
        if arguments.flag(by_need, "by_need") and text:
            raise ValueError("table must be empty where by_need is True")
        self._library = library()
        handle, line = ctypes.c_uint64(), ctypes.c_uint64()
        with params_of(rules) as params:
            if by_need:
                code = self._library.wakotehu_open_by_need_with(ctypes.byref(handle), params)
            else:
                code = self._library.wakotehu_open_with(ctypes.byref(handle), params, text, len(text), ctypes.byref(line))
        if code == 3:
            raise errors.BadTable(line.value)
        self._check(code)
        self._handle = handle.value

    # ---- commands

    def submit(self, block: bytes, now: Optional[int] = None) -> str:
        """Submits a block at a moment in seconds since 1970, now by default.

        Answers "accepted", "inconclusive" (it is kept beside the active branch), "duplicate", "duplicate-invalid" or
        "duplicate-inconclusive". A block that breaks a rule raises `Rejected`, of the reason's class; bytes that are no
        block raise `DecodeFailed`.
        """
        return self.try_submit(block, now).check()

    def try_submit(self, block: bytes, now: Optional[int] = None) -> Reply:
        """The same, and a refusal is answered, not raised."""
        return self._submit_into(Answer(), block, now)

    def _submit_into(self, answer: Answer, block: bytes, now: Optional[int] = None) -> Reply:
        """The same, and the library itself writes the answer in the same call in which it takes the step: so that is
        known even where an interrupt keeps this from returning."""
        block, moment = octets(block, "block"), moment_of(now)
        return self._command("submit", arguments.instance(answer, Answer, "answer"), block, len(block), moment)

    def judge(self, block: bytes, now: Optional[int] = None) -> Reply:
        """What `try_submit` would answer now. No step is taken: the block isn't kept."""
        block, moment = octets(block, "block"), moment_of(now)
        return self._command("judge", Answer(), block, len(block), moment)

    def copy(self) -> "Chainstate":
        """Another chainstate that is the same: blocks are shared, coins and verdicts copied. Each then goes its own way."""
        handle = ctypes.c_uint64()
        self._check(self._library.wakotehu_copy(self._handle, ctypes.byref(handle)))
        found = Chainstate.__new__(Chainstate)
        found._library, found._handle = self._library, handle.value
        return found

    def invalidate(self, id: bytes) -> None:
        """Marks a block as invalid. One that isn't kept raises `NotFound`; the genesis block raises `Genesis`."""
        self.try_mark("invalidate", id).check()

    def reconsider(self, id: bytes) -> None:
        """Takes the marks from a block, its ancestors and its descendants."""
        self.try_mark("reconsider", id).check()

    def precious(self, id: bytes) -> None:
        """Prefers a block to all that are as high."""
        self.try_mark("precious", id).check()

    def try_mark(self, command: str, id: bytes) -> Reply:
        """One of "invalidate", "reconsider", "precious"; a refusal is answered, not raised."""
        return self._mark_into(Answer(), command, id)

    def _mark_into(self, answer: Answer, command: str, id: bytes) -> Reply:
        """As `_submit_into`."""
        return self._command(mark_of(command), arguments.instance(answer, Answer, "answer"), id_of(id))

    # ---- reads

    def best(self) -> bytes:
        """The active block's id."""
        id = ctypes.create_string_buffer(32)
        self._check(self._library.wakotehu_best(self._handle, id))
        return id.raw

    def height(self) -> int:
        """The active block's height."""
        height = ctypes.c_uint64()
        self._check(self._library.wakotehu_height(self._handle, ctypes.byref(height)))
        return height.value

    def tips(self) -> List[Tip]:
        """The tips, by height downwards, then as they came."""
        return list(self._tips())

    def _tips(self) -> Iterator[Tip]:
        tip = _Tip()
        for place in range(2**32):
            code = self._library.wakotehu_tip_at(self._handle, place, ctypes.byref(tip))
            if code == 4:
                return
            self._check(code)
            yield Tip(bytes(tip.id), tip.height, tip.length, _STATUS[tip.status])

    def block(self, id: bytes) -> Optional[bytes]:
        """The bytes of a block that is kept, or None; None for the genesis block too.

        Kept are the blocks that were accepted or inconclusive, and those that were refused over the coins.
        """
        id, needed, data = id_of(id), ctypes.c_size_t(), ctypes.create_string_buffer(4096)
        while (code := self._library.wakotehu_block(self._handle, id, data, len(data), ctypes.byref(needed))) == 5:
            data = ctypes.create_string_buffer(needed.value)
        if code == 4:
            return None
        self._check(code)
        return data.raw[: needed.value]

    def is_kept(self, id: bytes) -> bool:
        """Whether `block` has the bytes of a block. It doesn't of genesis."""
        needed = ctypes.c_size_t()
        code = self._library.wakotehu_block(self._handle, id_of(id), None, 0, ctypes.byref(needed))
        if code not in (4, 5):
            self._check(code)
        return bool(code == 5)

    # ---- where blocks stand, and what they spent

    def id_at(self, height: int) -> Optional[bytes]:
        """The id of the active branch's block at a height, or None above the active block."""
        return self._id("id_at", number(height, "height", 64))

    def header(self, id: bytes) -> Optional[BlockHeader]:
        """The header, height and confirmations of a block, on whatever branch it is, genesis too; None where it isn't kept."""
        shown = _Header()
        code = self._library.wakotehu_header(self._handle, id_of(id), ctypes.byref(shown))
        if code == 4:
            return None
        self._check(code)
        return BlockHeader(bytes(shown.header), shown.height, shown.confirmations)

    def ancestor(self, id: bytes, height: int) -> Optional[bytes]:
        """The id of the block at a height of a block's branch, on which it is itself. None above it, and where it isn't kept."""
        return self._id("ancestor", id_of(id), number(height, "height", 64))

    def fork(self, one: bytes, other: bytes) -> Optional[bytes]:
        """The id of the last block that the branches of two blocks share. None where one of them isn't kept."""
        return self._id("fork", id_of(one, "one"), id_of(other, "other"))

    def moved(self, before: bytes) -> Moved:
        """What the steps did since this was the best block. One that isn't kept raises `NotFound`.

        It is read from `fork` and from the blocks' headers, of which none ever changes. So it is one answer for one best block,
        also where another thread takes a step meanwhile.
        """
        before = id_of(before, "before")
        best = self.best()
        fork = self.fork(before, best)
        if fork is None:
            raise errors.NotFound("not-found")
        return Moved(fork, self._above(before, fork), self._above(best, fork)[::-1])

    def spent(self, id: bytes) -> Optional[List[Coin]]:
        """The coins that a block of the active branch spent, by its transactions and their inputs, in order; the coinbase spends
        none, and genesis neither. None where the block isn't on the active branch."""
        return self._spent("spent", id_of(id))

    # ---- inside

    def _id(self, name: str, *words: object) -> Optional[bytes]:
        """An id that a call answers, or None where there is none."""
        id = ctypes.create_string_buffer(32)
        code = getattr(self._library, f"wakotehu_{name}")(self._handle, *words, id)
        if code == 4:
            return None
        self._check(code)
        return id.raw

    def _above(self, id: bytes, fork: bytes) -> List[bytes]:
        """The ids from a block down to one of its branch, without that one."""
        found = []
        while id != fork:
            found.append(id)
            header = self.header(id)
            assert header is not None, "a kept block's parent is kept"
            id = header.parent
        return found

    def _command(self, name: str, answer: Answer, *words: object) -> Reply:
        code = getattr(self._library, f"wakotehu_{name}")(self._handle, *words, ctypes.byref(answer))
        if code == 31:
            lines = self._want_lines()
            raise errors.Wants(Triple.of_lines(lines), lines)
        self._check(code)
        return reply_of(answer)

def _coins_of(coins: Sequence[_Coin], scripts: bytes) -> Iterator[Coin]:
    """Coins, whose scripts stand one after the other."""
    place = 0
    for it in coins:
        yield Coin(it.value, scripts[place : place + it.script], it.height, bool(it.coinbase))
        place += it.script


class _Walk:
    """A walk over all coins, and what it met."""

    def __init__(self) -> None:
        self.found: List[Tuple[bytes, int, Coin]] = []
        self.code = 0
        self.error: Optional[BaseException] = None
        self._stopped = False
        self._running = threading.Lock()

    def run(self, call: Any, handle: int) -> None:
        """Walks, unless it was stopped before."""
        with self._running:
            if not self._stopped:
                self.code = call(handle, CoinCall(self.take), None)

    def stop(self) -> None:
        """Stops the walk, and waits until it has ended."""
        self._stopped = True
        with self._running:
            pass

    def take(self, _context: Any, id: Any, index: int, coin: Any, script: Any) -> int:
        """Keeps a coin. No exception may leave a callback: it would be printed, and the walk would go on."""
        try:
            it = coin.contents
            made = Coin(it.value, ctypes.string_at(script, it.script), it.height, bool(it.coinbase))
            self.found.append((ctypes.string_at(id, 32), index, made))
        except BaseException as error:
            self.error = error
        return 1 if self._stopped or self.error is not None else 0


def read_heights(heights: GivenHeights) -> SoftForks:
    """Four heights of 32 bits, of BIPs 34, 65, 66 and 68, or heights of soft forks by name, or ValueError."""
    return soft_forks(heights)


def moment_of(now: Optional[int]) -> int:
    """A moment in seconds since 1970: the one that is given, or now."""
    return int(time.time()) if now is None else number(now, "now", 64)


def mark_of(command: str) -> str:
    """The name of a command that marks blocks."""
    return arguments.word(command, "command", _MARKS)
