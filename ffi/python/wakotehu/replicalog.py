"""The tables of a replicated history in PostgreSQL: what a `Replica` reads and writes there, through one connection."""

import os
import select
import socket
from hashlib import sha256
from types import TracebackType
from typing import Any, Dict, Iterable, Iterator, List, NamedTuple, Optional, Sequence, Tuple, Type
from uuid import UUID

from . import errors

#: So many bytes of blocks are read at once.
LARGE = 16_000_000
#: The format of the tables, as `setting` names it.
FORMAT = 2
#: By these settings a crash of the database loses rows that it has confirmed.
_LOSES = {"fsync": "off", "full_page_writes": "off", "synchronous_commit": "off"}
#: A connection that nobody answers is lost after some 10 seconds. What the URL says comes before these.
_DEFAULTS = {
    "connect_timeout": "10", "keepalives_idle": "5", "keepalives_interval": "2", "keepalives_count": "3",
    "tcp_user_timeout": "10000", "application_name": "wakotehu",
}  # fmt: skip

#: The place is taken (unique_violation); two commits waited for one another (serialization_failure, deadlock_detected).
_AGAIN = ("23505", "40001", "40P01")
_ROW = "c.place, c.token, c.seat, c.command, c.bytes, c.now, c.chain, r.reply, r.verdicts, r.replica"
_TYPES = ("int8", "uuid", "text", "text", "bytea", "int8", "bytea", "text", "text", "text")
#: Both tables by a range of places, so that neither is gone over.
_ROWS = f"""SELECT {_ROW} FROM wakotehu.commands c
    LEFT JOIN wakotehu.replies r ON r.place = c.place AND r.place > {{after}} AND r.place <= {{last}}
    WHERE c.place > {{after}} AND c.place <= {{last}} ORDER BY c.place"""
_COPY = f"COPY ({_ROWS}) TO STDOUT (FORMAT BINARY)"
#: The last of so many rows, of which none begins so many bytes behind the first.
_LAST = """SELECT coalesce(max(place), 0) FROM (
    SELECT place, sum(octet_length(bytes)) OVER (ORDER BY place) - octet_length(bytes) AS size
    FROM wakotehu.commands WHERE place > %b ORDER BY place LIMIT %b) AS own WHERE size < %b"""
_APPEND = """
    WITH added AS (
        INSERT INTO wakotehu.commands (place, token, seat, command, bytes, now)
        SELECT * FROM unnest(%b::bigint[], %b::uuid[], %b::text[], %b::text[], %b::bytea[], %b::bigint[]) RETURNING 1
    ), told AS (
        INSERT INTO wakotehu.replies (place, reply, verdicts, replica)
        SELECT * FROM unnest(%b::bigint[], %b::text[], %b::text[], %b::text[]) ON CONFLICT (place) DO NOTHING RETURNING 1
    )
    SELECT pg_notify('wakotehu', '') FROM (SELECT FROM added UNION ALL SELECT FROM told LIMIT 1) AS one"""


class Command(NamedTuple):
    """What a caller asks: a command's name, a block or an id, and the moment of a submission. `seat` says whose it is, and
    `token` is its own alone."""

    token: UUID
    seat: str
    command: str
    data: bytes
    now: Optional[int]


class Told(NamedTuple):
    """What a replica told of a place: the reply, and the lines of the verdicts for which its command asked."""

    reply: str
    verdicts: str
    replica: str


class Row(NamedTuple):
    """A row of the log: `chain` is its hash with the row before it; `told` is None where no replica wrote its reply yet."""

    place: int
    command: Command
    chain: bytes
    told: Optional[Told]

    def check(self, place: int, before: bytes) -> None:
        """Raises `BadRow` unless this is the row of a place, behind one with that `chain` (`wakotehu.chained` in replica.sql)."""
        if self.place != place:
            raise errors.BadRow(f"the log has place {self.place} where {place} is next")
        token, seat, command, data, now = self.command
        found = sha256(before + place.to_bytes(8, "big") + token.bytes)
        for text in (seat.encode(), command.encode()):
            found.update(len(text).to_bytes(4, "big") + text)
        found.update((-1 if now is None else now).to_bytes(8, "big", signed=True))
        found.update(data)
        if found.digest() != self.chain:
            raise errors.BadRow(f"place {place} was changed: its hash isn't that of the row and the one before it")


class Setting(NamedTuple):
    """Under which rules all replicas run."""

    heights: Tuple[int, int, int, int]
    signatures: bytes
    by_need: bool


class Lost(errors.Error):
    """The connection is lost. Whether what was under way was done isn't known."""


Refused = errors.DatabaseRefused


def psycopg() -> Any:
    """Python's psycopg 3. It is imported where a replica is opened, and nowhere else."""
    try:
        import psycopg as found
    except ImportError:
        raise errors.DatabaseMissing("psycopg isn't found: install Debian's python3-psycopg") from None
    return found


class Log:
    """A connection to the tables. One thread uses it; any may call `interrupt`."""

    def __init__(self, url: str) -> None:
        self._psycopg = psycopg()
        try:
            words = {**_DEFAULTS, **self._psycopg.conninfo.conninfo_to_dict(url)}
            self._connection = self._psycopg.connect(**words, autocommit=True)
        except self._psycopg.Error as error:
            raise Lost(_said(error)) from None
        #: How many statements were begun and ended: it is odd while the database is waited for.
        self.asked = 0
        # psycopg takes what the database notifies beside the answer to a statement too.
        self._is_new = False
        self._connection.add_notify_handler(self._notified)

    def _notified(self, notice: object) -> None:
        self._is_new = True

    def __enter__(self) -> "Log":
        return self

    def __exit__(
        self, kind: Optional[Type[BaseException]], value: Optional[BaseException], trace: Optional[TracebackType]
    ) -> None:
        self.close()

    def close(self) -> None:
        """Closes the connection."""
        self._connection.close()

    def interrupt(self) -> None:
        """Has the call that is under way end, as lost."""
        try:
            with socket.socket(fileno=os.dup(self._connection.fileno())) as own:
                own.shutdown(socket.SHUT_RDWR)
        except (OSError, self._psycopg.Error):
            pass  # it is closed already

    # ---- asking

    def _fault(self, error: Exception) -> Exception:
        """What an error means: the connection is lost, or nothing was done."""
        if self._connection.broken or self._connection.closed:
            return Lost(_said(error))
        state = getattr(error, "sqlstate", None)
        if state in ("42P01", "3F000"):
            return errors.NoHistory("the database has no history: wakotehu-replica init makes one")
        return Refused(_said(error))

    def ask(self, statement: str, *values: Any) -> List[Tuple[Any, ...]]:
        """The rows that a statement gives, as bytes that aren't text."""
        cursor = self._execute(statement, values or None, binary=True)
        return list(cursor.fetchall()) if cursor.description else []

    def _execute(self, statement: str, values: Any = None, binary: bool = False) -> Any:
        self.asked += 1
        try:
            return self._connection.execute(statement, values, binary=binary)
        except self._psycopg.Error as error:
            raise self._fault(error) from error
        finally:
            self.asked += 1

    def run(self, statements: str) -> None:
        """Runs statements, as one commit."""
        self._execute(statements)

    def setting(self) -> Setting:
        rows = self.ask("SELECT format, heights, signatures, by_need FROM wakotehu.setting")
        if not rows:
            raise errors.NoHistory("the database has no history: wakotehu-replica init makes one")
        form, heights, signatures, by_need = rows[0]
        if form != FORMAT:
            more = ": wakotehu-replica init brings it there" if form == 1 else ""
            raise errors.NoHistory(f"the history is of format {form}, and this package knows {FORMAT}{more}")
        bip34, bip65, bip66, csv = heights
        return Setting((bip34, bip65, bip66, csv), bytes(signatures), by_need)

    def check_durable(self) -> None:
        """Raises `NotDurable` where a crash of the database may lose what it has confirmed."""
        for name, value in _LOSES.items():
            if self.ask("SELECT current_setting(%b::text)", name)[0][0] == value:
                raise errors.NotDurable(f"the database has {name} = {value}: a crash may lose rows that it has confirmed")
        if self.ask("SELECT 1 FROM pg_class WHERE oid = to_regclass('wakotehu.commands') AND relpersistence = 'u'"):
            raise errors.NotDurable("wakotehu.commands is unlogged: a crash of the database empties it")

    def may_write(self) -> bool:
        """Whether the role may add rows."""
        found = self.ask("SELECT has_table_privilege('wakotehu.commands', 'INSERT')")
        return bool(found[0][0]) and not self.is_standby()

    def is_standby(self) -> bool:
        """Whether the server follows another one."""
        return bool(self.ask("SELECT pg_is_in_recovery()")[0][0])

    def newest(self) -> int:
        """The highest place, or 0."""
        return int(self.ask("SELECT coalesce(max(place), 0) FROM wakotehu.commands")[0][0])

    def look(self, place: int) -> Tuple[int, bytes]:
        """The highest place, or 0; and the `chain` of the row at a place, or nothing where there is none."""
        row = "(SELECT chain FROM wakotehu.commands WHERE place = %b)"
        [(newest, chain)] = self.ask(f"SELECT coalesce(max(place), 0), {row} FROM wakotehu.commands", place)
        return newest, bytes(chain or b"")

    def tail(self, after: int, most: int) -> List[Row]:
        """The first rows above a place: so many, and fewer where they are large."""
        last = self.ask(_LAST, after, most, LARGE)[0][0]
        return [_row(found) for found in self.ask(_ROWS.format(after=int(after), last=int(last)))]

    def copied(self, after: int, last: int) -> Iterator[Row]:
        """The rows above a place up to another, as they come, by one COPY."""
        try:
            with self._connection.cursor() as cursor:
                with cursor.copy(_COPY.format(after=int(after), last=int(last))) as copy:
                    copy.set_types(_TYPES)
                    rows = copy.rows()
                    while True:
                        # What is done with a row is no wait for the next one.
                        self.asked += 1
                        try:
                            found = next(rows, None)
                        finally:
                            self.asked += 1
                        if found is None:
                            break
                        yield _row(found)
        except self._psycopg.Error as error:
            raise self._fault(error) from None

    def told(self, places: Sequence[int]) -> Dict[int, Told]:
        """What was told of these places."""
        rows = self.ask("SELECT place, reply, verdicts, replica FROM wakotehu.replies WHERE place = ANY(%b)", list(places))
        return {place: Told(reply, verdicts, replica) for place, reply, verdicts, replica in rows}

    def token_at(self, place: int) -> Optional[UUID]:
        """The token of the row at a place."""
        rows = self.ask("SELECT token FROM wakotehu.commands WHERE place = %b", place)
        return rows[0][0] if rows else None

    def place_of(self, token: UUID, after: int) -> Optional[int]:
        """The place of the row with a token, above a place, or None. It goes over all rows there."""
        rows = self.ask("SELECT place FROM wakotehu.commands WHERE place > %b AND token = %b LIMIT 1", after, token)
        return rows[0][0] if rows else None

    # ---- writing

    def append(self, first: int, commands: Sequence[Command], told: Sequence[Tuple[int, Told]]) -> bool:
        """Adds commands at the places from the first one on, and what was told of other places, in one commit: all or none,
        and False where another command has one of these places, or the database says to try again. What is told already
        stays."""
        values: Iterable[Sequence[Any]] = [
            range(first, first + len(commands)), *_columns(commands, 5), [place for place, _ in told],
            *_columns([own for _, own in told], 3),
        ]  # fmt: skip
        try:
            self._execute(_APPEND, [list(column) for column in values])
        except Refused as refused:
            if getattr(refused.__cause__, "sqlstate", None) in _AGAIN:
                return False
            raise
        return True

    def differs(self, place: int, replica: str, reply: str) -> None:
        """Writes down that a replica has another reply than the written one, and wakes all."""
        self.ask("INSERT INTO wakotehu.differences VALUES (%s, %s, %s) ON CONFLICT DO NOTHING", place, replica, reply)
        self.ask("SELECT pg_notify('wakotehu', '')")

    def difference(self, replica: str) -> Optional[errors.ReplicaDiffers]:
        """The first reply that this replica wrote and another one differs from."""
        # Two statements: the first table is as good as empty, and the other one long.
        found = self.ask("SELECT place, reply, replica FROM wakotehu.differences ORDER BY place LIMIT 100")
        told = self.told([place for place, _, _ in found]) if found else {}
        for place, other, by in found:
            if place in told and told[place].replica == replica:
                return errors.ReplicaDiffers(place, told[place].reply, other, by)
        return None

    # ---- waiting

    def listen(self) -> None:
        """Has `wait` hear of new rows. A standby of PostgreSQL can't, and is asked each time."""
        try:
            self.ask("LISTEN wakotehu")
        except Refused:
            pass

    def wait(self, seconds: float) -> None:
        """Waits until there is something new, and at most so long."""
        pipe, poll = self._connection.pgconn, select.poll()
        try:
            if not self._is_new:
                poll.register(pipe.socket, select.POLLIN)
                poll.poll(seconds * 1000)
                pipe.consume_input()
            while pipe.notifies() is not None:
                pass
        except self._psycopg.Error as error:
            raise Lost(_said(error)) from None
        self._is_new = False


def _said(error: Exception) -> str:
    """What an error says, as one line."""
    return " ".join(str(error).split())


def _row(found: Tuple[Any, ...]) -> Row:
    place, token, seat, command, data, now, chain, reply, verdicts, replica = found
    told = None if reply is None else Told(reply, verdicts, replica)
    return Row(place, Command(token, seat, command, bytes(data), now), bytes(chain), told)


def _columns(rows: Sequence[Tuple[Any, ...]], count: int) -> List[Sequence[Any]]:
    """The columns of rows, each of so many items."""
    return list(zip(*rows)) if rows else [()] * count
