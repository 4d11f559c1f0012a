"""The file of a wallet (SQLite). A change is on the disk when the call that made it returns, all of it or nothing."""

import json
import os
import sqlite3
from typing import Any, Dict, List, NamedTuple, Optional, Tuple

from ..encoding import read_transaction
from .coins import Ledger, Place, Record
from .keys import Owned

#: The form of the file.
VERSION = 1

_TABLES = """
CREATE TABLE meta (name TEXT PRIMARY KEY, value);
CREATE TABLE descriptors (number INTEGER PRIMARY KEY, text TEXT, timestamp INTEGER, low INTEGER, high INTEGER, next INTEGER,
    active INTEGER, internal INTEGER);
CREATE TABLE records (id BLOB PRIMARY KEY, data BLOB, place INTEGER, time INTEGER, received INTEGER, block BLOB, height INTEGER,
    number INTEGER, block_time INTEGER, abandoned INTEGER, notes TEXT);
CREATE TABLE conflicts (id BLOB, block BLOB, height INTEGER, PRIMARY KEY (id, block));
CREATE TABLE labels (script BLOB PRIMARY KEY, label TEXT, purpose TEXT);
"""


class Kept(NamedTuple):
    """What a file has."""

    meta: Dict[str, Any]
    descriptors: List[Owned]
    records: List[Record]
    conflicts: List[Tuple[bytes, bytes, int]]
    labels: Dict[bytes, Tuple[str, str]]


class Store:
    """The file of a wallet, which this process alone uses.

    path: it is made where it isn't there; None for one in memory.
    """

    def __init__(self, path: Optional[str]) -> None:
        if path is not None:
            _make(path)
        self._file = sqlite3.connect(path or ":memory:", check_same_thread=False, isolation_level=None)
        try:
            self._open()
        except sqlite3.Error:
            self._file.close()
            raise

    def _open(self) -> None:
        for name, value in (("locking_mode", "EXCLUSIVE"), ("journal_mode", "WAL"), ("synchronous", "FULL")):
            self._file.execute(f"PRAGMA {name}={value}")
        [version] = self._file.execute("PRAGMA user_version").fetchone()
        if version == 0:
            self._file.executescript(f"BEGIN IMMEDIATE;{_TABLES}PRAGMA user_version={VERSION};COMMIT;")
        elif version != VERSION:
            raise sqlite3.DatabaseError(f"it has the form {version}")

    def close(self) -> None:
        self._file.close()

    def read(self) -> Kept:
        """All of it."""
        ask = self._file.execute
        owned = [_owned(row) for row in ask("SELECT * FROM descriptors ORDER BY number")]
        records = [_record(row) for row in ask("SELECT * FROM records ORDER BY place")]
        conflicts = list(ask("SELECT id, block, height FROM conflicts"))
        labels = {script: (label, purpose) for script, label, purpose in ask("SELECT * FROM labels")}
        return Kept(dict(ask("SELECT * FROM meta")), owned, records, conflicts, labels)

    def write(self, kept: Kept) -> None:
        """Keeps what is given, in one step; of a record that is given its conflicts are kept, and no others."""
        put = self._file.executemany
        self._file.execute("BEGIN IMMEDIATE")
        try:
            put("INSERT OR REPLACE INTO meta VALUES (?, ?)", kept.meta.items())
            put("INSERT OR REPLACE INTO descriptors VALUES (?, ?, ?, ?, ?, ?, ?, ?)", map(_owned_row, kept.descriptors))
            put(f"INSERT OR REPLACE INTO records VALUES ({', '.join('?' * 11)})", map(_record_row, kept.records))
            put("DELETE FROM conflicts WHERE id = ?", ((record.id,) for record in kept.records))
            put("INSERT INTO conflicts VALUES (?, ?, ?)", kept.conflicts)
            put("INSERT OR REPLACE INTO labels VALUES (?, ?, ?)", ((it, *both) for it, both in kept.labels.items()))
            self._file.execute("COMMIT")
        except BaseException:
            self._file.execute("ROLLBACK")
            raise

    def copy_to(self, path: str) -> None:
        """Writes a copy of the file."""
        _make(path)
        other = sqlite3.connect(path)
        try:
            self._file.backup(other)
        finally:
            other.close()


def is_whole(path: str) -> bool:
    """Whether a file was written at least once: else its wallet was begun, and nobody was told of it."""
    if not os.path.exists(path):
        return False
    file = sqlite3.connect(path)
    try:
        return file.execute("SELECT 1 FROM meta").fetchone() is not None
    except sqlite3.Error as error:
        return "no such table" not in str(error)
    finally:
        file.close()


def _make(path: str) -> None:
    """Makes a missing file, which its owner alone reads: it has the keys."""
    os.close(os.open(path, os.O_RDWR | os.O_CREAT | os.O_NOFOLLOW, 0o600))


def _owned_row(own: Owned) -> Tuple[Any, ...]:
    return (own.number, own.text, own.timestamp, own.low, own.high, own.next, own.is_active, own.is_internal)


def _owned(row: Tuple[Any, ...]) -> Owned:
    number, text, timestamp, low, high, next, active, internal = row
    return Owned(number, text, timestamp, low, high, next, bool(active), bool(internal))


def _record_row(own: Record) -> Tuple[Any, ...]:
    place: Tuple[Any, ...] = own.place or (None,) * 4
    return (own.id, own.data, own.order, own.time, own.received, *place, own.is_abandoned, json.dumps(own.notes))


def _record(row: Tuple[Any, ...]) -> Record:
    id, data, order, time, received, block, height, index, block_time, abandoned, notes = row
    place = None if block is None else Place(block, height, index, block_time)
    return Record(id, read_transaction(data), data, order, time, received, place, bool(abandoned), json.loads(notes))


def changed(ledger: Ledger) -> Tuple[List[Record], List[Tuple[bytes, bytes, int]]]:
    """The records that changed since they were kept last, and the blocks that make them impossible."""
    records = [ledger.records[id] for id in ledger.changed]
    return records, [(own.id, *it) for own in records for it in ledger.conflicts_of(own.id).items()]


def restored(ledger: Ledger, kept: Kept) -> None:
    """Puts what was kept into a ledger that is empty."""
    for record in kept.records:
        ledger.put(record)
    for id, block, height in kept.conflicts:
        ledger.refuse(id, block, height)
    ledger.changed.clear()


