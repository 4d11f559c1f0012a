"""A PostgreSQL of the test's own: its data in a folder, on a Unix socket there, by a user that isn't root."""
from __future__ import annotations

import atexit
import glob
import os
import pathlib
import pwd
import shutil
import signal
import stat
import subprocess
import tempfile
import time
from typing import Any, Optional

import psycopg
from wakotehu.replicacommand import prepare

#: So many seconds a program of PostgreSQL may take.
SECONDS = 120
#: Root hands PostgreSQL to this user.
USER = "nobody"


def programs() -> Optional[str]:
    """The folder of PostgreSQL's programs: Debian's newest one, or that of the path."""
    found = sorted(glob.glob("/usr/lib/postgresql/*/bin/initdb"), key=lambda path: int(path.split("/")[4]))
    where = found[-1] if found else shutil.which("initdb")
    return os.path.dirname(where) if where else None


def reached() -> str:
    """A folder for temporary files that each user reaches: TMPDIR may be one's own."""
    for folder in (tempfile.gettempdir(), "/tmp", "/var/tmp"):
        path = pathlib.Path(os.path.realpath(folder))
        if all(it.stat().st_mode & stat.S_IXOTH for it in (path, *path.parents)):
            return str(path)
    raise OSError("PostgreSQL's user reaches neither TMPDIR nor /tmp nor /var/tmp")


class Database:
    """A server that runs until `remove`."""

    def __init__(self, *settings: str, of: Optional["Database"] = None) -> None:
        self.folder = tempfile.mkdtemp(prefix="wakotehu-pg-", dir=reached() if os.geteuid() == 0 else None)
        # Also where the tests are interrupted.
        atexit.register(self.remove)
        self.who: dict[str, Any] = {}
        if os.geteuid() == 0:
            own = pwd.getpwnam(USER)
            os.chown(self.folder, own.pw_uid, own.pw_gid)
            self.who = {"user": own.pw_uid, "group": own.pw_gid, "extra_groups": []}
        self.data, self.settings = os.path.join(self.folder, "data"), settings
        self.process: Optional[subprocess.Popen[bytes]] = None
        if of is None:
            self._run("initdb", "-D", self.data, "-U", "owner", "-A", "trust", "-E", "UTF8", "--locale=C", "-N")
        else:
            # A standby of that server, from a copy of its data.
            self._run("pg_basebackup", "-D", self.data, "-h", of.folder, "-U", "owner", "-R", "-X", "stream", "-c", "fast", "-N")
        self.start()

    def _run(self, program: str, *words: str) -> None:
        path = os.path.join(programs() or "", program)
        subprocess.run([path, *words], check=True, capture_output=True, timeout=SECONDS, cwd=self.folder, **self.who)

    def start(self) -> None:
        words = ["-D", self.data, "-k", self.folder, "-c", "listen_addresses=", "-c", "max_connections=100"]
        words += [word for setting in self.settings for word in ("-c", setting)]
        with open(os.path.join(self.folder, "log"), "ab") as log:
            self.process = subprocess.Popen(
                [os.path.join(programs() or "", "postgres"), *words], cwd=self.folder, stdin=subprocess.DEVNULL,
                stdout=log, stderr=log, start_new_session=True, **self.who,
            )  # fmt: skip
        until = time.monotonic() + SECONDS
        while True:
            try:
                psycopg.connect(self.url("postgres")).close()
                return
            except psycopg.OperationalError:
                if time.monotonic() > until or self.process.poll() is not None:
                    raise
                time.sleep(0.02)

    def stop(self, how: int = signal.SIGINT) -> None:
        """Ends the server: SIGINT at once and in order, SIGQUIT `immediate`, as a crash."""
        if self.process is not None:
            self.process.send_signal(how)
            self.process.wait(SECONDS)
            self.process = None

    def promote(self) -> None:
        """Makes a standby the one that is written to."""
        self._run("pg_ctl", "promote", "-D", self.data, "-w")

    def remove(self) -> None:
        self.stop(signal.SIGQUIT)
        shutil.rmtree(self.folder, ignore_errors=True)
        atexit.unregister(self.remove)

    _shared: Optional["Database"] = None

    @classmethod
    def shared(cls) -> "Database":
        """The one server of all tests that don't end it."""
        if cls._shared is None:
            cls._shared = cls()
        return cls._shared

    def url(self, name: str, user: str = "owner") -> str:
        return f"host={self.folder} dbname={name} user={user}"

    def make(self, name: str, **more: Any) -> str:
        """A database with the tables of a history: its URL."""
        with psycopg.connect(self.url("postgres"), autocommit=True) as connection:
            connection.execute(f'CREATE DATABASE "{name}"')
        prepare(self.url(name), **more)
        return self.url(name)

    def run(self, url: str, statement: str, *values: Any) -> list[tuple[Any, ...]]:
        """What a statement gives, by a connection of its own."""
        with psycopg.connect(url, autocommit=True) as connection:
            cursor = connection.execute(statement, values or None)
            return list(cursor.fetchall()) if cursor.description else []
