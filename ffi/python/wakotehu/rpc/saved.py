"""What waits to be mined, kept in the folder of -datadir from one server to the next: as mempool.dat, in the first form that
Bitcoin Core gave that file. A transaction that was read is judged anew, as if it were sent."""

import os
import struct
import sys
import threading
from typing import Callable, Dict, List, NamedTuple, Set

from ..encoding import EncodingError, Transaction, _count, _Reader
from ..errors import DecodeFailed, NotAccepted
from ..history import regular
from ..mempool import Mempool
from .errors import MISC_ERROR, RpcError
from .mempool import ServedMempool
from .node import Node, call
from .values import Object

VERSION = 1
#: Held by who writes the file.
_writing = threading.Lock()


class _Ends(Exception):
    """The server ends."""


class Row(NamedTuple):
    """A transaction that waited, and since when."""

    data: bytes
    tx: Transaction
    time: int


class Saved(NamedTuple):
    """What a file says: what waited, what was to be added to fees, and which of it was sent by a call."""

    rows: List[Row]
    deltas: Dict[bytes, int]
    sent: Set[bytes]


def spelled(pool: Mempool) -> bytes:
    """The bytes of the file."""
    rows = pool.rows()
    waiting = {entry.id for entry in rows}
    others = {id: delta for id, delta in pool.deltas.items() if id not in waiting}
    sent = [entry.id for entry in rows if entry.is_sent]
    parts = [struct.pack("<QQ", VERSION, len(rows))]
    parts += [entry.data + struct.pack("<qq", entry.time, pool.deltas.get(entry.id, 0)) for entry in rows]
    parts += [_count(len(others)), *(id + struct.pack("<q", delta) for id, delta in others.items())]
    return b"".join([*parts, _count(len(sent)), *sent])


def read(data: bytes, look: Callable[[], None] = lambda: None) -> Saved:
    """What the bytes of a file say; `EncodingError` where they are no such file. `look` is called for each transaction."""
    reader = _Reader(data)
    if reader.number(8) != VERSION:
        raise EncodingError("another form")
    rows: List[Row] = []
    deltas: Dict[bytes, int] = {}
    for _ in range(reader.number(8)):
        look()
        begin = reader.at
        tx = reader.transaction()
        own = reader.data[begin : reader.at]
        rows.append(Row(own, tx, reader.number(8, signed=True)))
        deltas[tx.id] = reader.number(8, signed=True)
    for _ in range(reader.count()):
        id = reader.take(32)
        deltas[id] = reader.number(8, signed=True)
    sent = {reader.take(32) for _ in range(reader.count())}
    reader.end()
    return Saved(rows, {id: delta for id, delta in deltas.items() if delta}, sent)


def save(node: Node, path: str) -> None:
    """Writes the file: all of it, or it stays as it was. The turn is held, but while the disk is waited for."""
    with node.others():
        _writing.acquire()
    try:
        data = spelled(node.mempool)
        with node.others():
            _write(path, data)
    finally:
        _writing.release()


def _write(path: str, data: bytes) -> None:
    with open(f"{path}.new", "wb", opener=_private) as file:
        file.write(data)
        file.flush()
        os.fsync(file.fileno())
    os.replace(f"{path}.new", path)


def _private(path: str, flags: int) -> int:
    return regular(path, flags | os.O_NOFOLLOW)


def load(node: Node, path: str, is_ending: Callable[[], bool] = lambda: False) -> bool:
    """Has wait what a file says, if it still may. The turn is held. False where the server ends before all was looked at: then the
    file has to stay as it is."""

    def look() -> None:
        if is_ending():
            raise _Ends

    try:
        with open(path, "rb", opener=regular) as file:
            found = read(file.read(), look)
    except _Ends:
        return False
    except FileNotFoundError:
        return True
    except (OSError, ValueError) as error:
        print(f"wakotehu-server: {path} can't be read, and nothing waits: {error}", file=sys.stderr)
        return True
    try:
        _take(node.mempool, found, look)
    except _Ends:
        return False
    return True


def _take(pool: ServedMempool, found: Saved, look: Callable[[], None]) -> None:
    """Judges what a file says."""
    pool.deltas.update(found.deltas)
    with pool.used():
        for row in found.rows:
            look()
            try:
                entry = pool.judge(row.data, row.tx)
            except (NotAccepted, DecodeFailed):
                continue
            pool.add(entry._replace(time=row.time, is_sent=entry.id in found.sent))


@call("Blockchain")
def savemempool(node: Node) -> Object:
    """Writes what waits to be mined into the folder of -datadir, as the server does at its end: the file's name."""
    if node.saves_to is None:
        raise RpcError(MISC_ERROR, "Unable to dump mempool to disk")
    with node.mempool.read():
        try:
            save(node, node.saves_to)
        except OSError as error:
            raise RpcError(MISC_ERROR, "Unable to dump mempool to disk") from error
    return {"filename": node.saves_to}
