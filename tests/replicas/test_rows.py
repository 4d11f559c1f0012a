"""Rows that no replica writes, rows that were changed, and databases that refuse, or may lose what they have confirmed."""
from __future__ import annotations

import os
import subprocess
import sys
import unittest
import uuid
from typing import Any, Callable

import psycopg
import running
from cases import HERE, NOW, ReplicaTest
from database import Database
from wakotehu import errors
from wakotehu.encoding import GENESIS

#: Rows that are no commands: the seat, the command, its bytes and moment.
BAD = (
    ("x_0", "burn", bytes(32), None), ("x_0", "precious", bytes(5), None), ("x_0", "precious", bytes(32), 1),
    ("x_0", "submit", b"\0", None), ("x_0", "submit", b"\0", -1), ("x 0", "submit", b"\0", 1), ("", "submit", b"\0", 1),
    ("x" * 33, "submit", b"\0", 1), ("x_0", "learn", bytes(32), None), ("x_0", "submit", bytes(33_554_433), 1),
)  # fmt: skip
INSERT = "INSERT INTO wakotehu.commands VALUES (%s, gen_random_uuid(), %s, %s, %s, %s)"
#: What an owner has to take away before such a row goes in.
OPEN = "ALTER TABLE wakotehu.commands DROP CONSTRAINT is_command"


class Rows(ReplicaTest):
    def setUp(self) -> None:
        super().setUp()
        self.history()

    def raised(self, call: Callable[[], Any]) -> BaseException:
        try:
            call()
        except BaseException as error:
            return error
        raise AssertionError("nothing was raised")

    def marked(self, count: int) -> None:
        """So many rows, with their replies."""
        with self.replica("first") as first:
            for _ in range(count):
                first.seat(0).try_mark("precious", GENESIS.id)

    def said(self, *words: str) -> str:
        """What `wakotehu-replica` says as it fails."""
        ended = self.command(*words)
        self.assertEqual(ended.returncode, 1, ended.stdout)
        return ended.stderr

    def test_the_table_takes_commands_alone(self) -> None:
        """A writer's bad row is refused, and each replica goes on."""
        self.database.run(self.url, "CREATE ROLE bad_writer LOGIN IN ROLE wakotehu_writer")
        self.addCleanup(self.database.run, self.url, "DROP ROLE bad_writer")
        writer = self.url.replace("user=owner", "user=bad_writer")
        one = self.replica("one")
        one.seat(0).try_mark("precious", GENESIS.id)
        for row in BAD:
            with self.subTest(row[:2]), self.assertRaises(psycopg.errors.CheckViolation):
                self.database.run(writer, INSERT, 2, *row)
        for place in (0, 1, 3, 2**63 - 1):
            with self.subTest(place), self.assertRaises((psycopg.errors.CheckViolation, psycopg.errors.UniqueViolation)):
                self.database.run(writer, INSERT, place, "x_0", "precious", bytes(32), None)
        for reply, verdicts in (("", ""), ("a b", ""), ("done", "valid"), ("done", "valid aa bb " + "0" * 63), ("done", "\n")):
            with self.subTest(verdicts), self.assertRaises(psycopg.errors.CheckViolation):
                self.database.run(writer, "INSERT INTO wakotehu.replies VALUES (2, %s, %s, 'x')", reply, verdicts)
        self.database.run(writer, INSERT, 2, "x_0", "precious", bytes(32), None)
        self.assertEqual(one.seat(0).try_mark("precious", GENESIS.id).at, 3)

    def test_a_row_that_is_no_command_is_named(self) -> None:
        """By a replica that runs, by a new one, by `follow`, `check` and `export`; the owner takes it away."""
        self.marked(2)
        one = self.replica("one")
        self.database.run(self.url, OPEN)
        self.database.run(self.url, INSERT, 3, *BAD[0])
        self.until(lambda: one._state.error is not None)
        told = "the command of place 3 can't be taken"
        found: list[Callable[[], Any]] = [one.status, lambda: self.replica("two"), lambda: one.seat(0).try_mark("precious", GENESIS.id)]
        for call in found:
            error = self.raised(call)
            self.assertIsInstance(error, errors.BadRow)
            self.assertIn(told, str(error))
        for words in (["follow", self.url], ["check", self.url], ["export", self.url, f"{self.room}/out"]):
            self.assertIn(told, self.said(*words))
        self.database.run(self.url, "DELETE FROM wakotehu.commands WHERE place >= 3")
        self.assertEqual(self.replica("three").seat(0).try_mark("precious", GENESIS.id).at, 3)

    def test_verdicts_that_cannot_be_read_are_named(self) -> None:
        self.history(by_need=True)
        self.marked(1)
        self.database.run(self.url, "ALTER TABLE wakotehu.replies DROP CONSTRAINT is_reply")
        self.database.run(self.url, "UPDATE wakotehu.replies SET verdicts = 'valid'")
        for told in (str(self.raised(lambda: self.replica("two"))), self.said("check", self.url)):
            self.assertIn("the verdicts of place 1 can't be read", told)

    def test_a_changed_row_is_found(self) -> None:
        """Whatever is changed in it: by `check`, by a new replica, and by one that took it, where it connects again."""
        changes = (
            "token = gen_random_uuid()", "seat = 'other_0'", "command = 'reconsider'", "bytes = decode(repeat('ab', 32), 'hex')",
            "command = 'submit', now = 1", "chain = sha256('')",
        )  # fmt: skip
        for change in changes:
            with self.subTest(change):
                self.history()
                self.marked(3)
                self.assertIn("agrees", self.audited())
                self.database.run(self.url, f"UPDATE wakotehu.commands SET {change} WHERE place = 2")
                self.assertIn("place 2 was changed", self.said("check", self.url))
                self.assertIn("place 2 was changed", str(self.raised(lambda: self.replica("two"))))
        self.history()
        self.marked(3)
        one = self.replica("one")
        # The owner makes the hashes fit: who took the rows before sees it all the same.
        self.database.run(self.url, """DO $$ DECLARE own record; last bytea := ''; BEGIN
            UPDATE wakotehu.commands SET seat = 'other_0' WHERE place = 2;
            FOR own IN SELECT * FROM wakotehu.commands ORDER BY place LOOP
                last := wakotehu.chained(last, own.place, own.token, own.seat, own.command, own.bytes, own.now);
                UPDATE wakotehu.commands SET chain = last WHERE place = own.place;
            END LOOP; END $$""")
        self.audited()
        self.database.run(self.url, "SELECT pg_terminate_backend(pid) FROM pg_stat_activity WHERE application_name = 'wakotehu'")
        self.until(lambda: one._state.error is not None)
        self.assertIn("has lost or changed place 3", str(self.raised(one.status)))

    def test_tables_of_before(self) -> None:
        """`init` brings a history of format 1 to this one, and refuses one with a row that is no command."""
        self.marked(3)
        before = """DROP TRIGGER chain_row ON wakotehu.commands; ALTER TABLE wakotehu.commands DROP CONSTRAINT is_command,
            DROP COLUMN chain; ALTER TABLE wakotehu.replies DROP CONSTRAINT is_reply; UPDATE wakotehu.setting SET format = 1"""
        kept = self.database.run(self.url, "SELECT place, token, chain FROM wakotehu.commands ORDER BY place")
        self.database.run(self.url, before)
        self.assertIn("init brings it there", str(self.raised(lambda: self.replica("one"))))
        self.database.run(self.url, INSERT, 4, *BAD[0])
        self.assertIn("place 4 is no command", self.said("init", self.url))
        self.database.run(self.url, "DELETE FROM wakotehu.commands WHERE place = 4")
        for _ in range(2):
            self.assertEqual(self.command("init", self.url).stderr, "")
        self.assertEqual(self.database.run(self.url, "SELECT place, token, chain FROM wakotehu.commands ORDER BY place"), kept)
        self.assertEqual(self.replica("one").seat(0).try_mark("precious", GENESIS.id).at, 4)
        self.audited()


class Databases(ReplicaTest):
    def test_settings_that_lose_rows(self) -> None:
        """They are refused by name, also where they come later, unless that was asked for."""
        self.history()
        [(name,)] = self.database.run(self.url, "SELECT current_database()")
        one = self.replica("one")
        self.database.run(self.url, f"ALTER DATABASE {name} SET synchronous_commit = off")
        with self.assertRaisesRegex(errors.NotDurable, "synchronous_commit = off"):
            self.replica("two")
        ended = self.command("follow", self.url)
        self.assertEqual((ended.returncode, "synchronous_commit = off" in ended.stderr), (1, True))
        self.database.run(self.url, "SELECT pg_terminate_backend(pid) FROM pg_stat_activity WHERE application_name = 'wakotehu'")
        self.until(lambda: one._state.error is not None)
        self.assertRaises(errors.NotDurable, one.status)
        self.assertEqual(self.replica("three", durable=False).seat(0).try_mark("precious", GENESIS.id).at, 1)
        self.assertRaises(TypeError, self.replica, "four", durable=None)

    def test_a_server_that_does_not_sync(self) -> None:
        for setting in ("fsync", "full_page_writes"):
            database = Database(f"{setting}=off")
            self.addCleanup(database.remove)
            url = database.make("loses")
            with self.assertRaisesRegex(errors.NotDurable, f"{setting} = off"):
                self.replica("one", url=url)
            self.replica("two", url=url, durable=False).close()

    def test_a_table_that_a_crash_empties(self) -> None:
        """An unlogged one."""
        self.history()
        self.database.run(self.url, "ALTER TABLE wakotehu.commands SET UNLOGGED")
        with self.assertRaisesRegex(errors.NotDurable, "wakotehu.commands is unlogged"):
            self.replica("one")
        self.replica("two", durable=False).close()
        self.database.run(self.url, "ALTER TABLE wakotehu.commands SET LOGGED")
        self.replica("three").close()

    def test_commands_by_option(self) -> None:
        """`wakotehu-replica follow` and the server name the setting and end, unless their option says that it is known."""
        self.history()
        [(name,)] = self.database.run(self.url, "SELECT current_database()")
        self.database.run(self.url, f"ALTER DATABASE {name} SET synchronous_commit = off")
        environment = {**os.environ, "PYTHONPATH": os.path.join(HERE, "../../ffi/python"), "WAKOTEHU_PROGRAM": running.PROGRAM}
        follow = [sys.executable, "-m", "wakotehu.replicacommand", "follow", self.url]
        serve = [sys.executable, "-m", "wakotehu.server", f"-replica={self.url}", "-rpcport=0", "-no-auth"]
        for words, option in ((follow, "--not-durable"), (serve, "-replica-not-durable")):
            with self.subTest(words[2]):
                ended = subprocess.run(words, capture_output=True, text=True, env=environment, timeout=60)
                self.assertEqual((ended.returncode, "synchronous_commit = off" in ended.stderr), (1, True), ended.stderr)
                self.assertNotIn("Traceback", ended.stderr)
                process = subprocess.Popen([*words, option], stdout=subprocess.PIPE, text=True, env=environment)
                self.addCleanup(process.kill)
                assert process.stdout is not None
                # Each says where it is once it is open.
                self.assertNotEqual(process.stdout.readline(), "")
                process.terminate()
                process.communicate(timeout=60)

    def test_a_refusal_is_an_error_of_the_package(self) -> None:
        """No rights, and a database's own limit of time."""
        self.history()
        self.database.run(self.url, "CREATE ROLE bad_nobody LOGIN")
        self.addCleanup(self.database.run, self.url, "DROP ROLE bad_nobody")
        with self.assertRaisesRegex(errors.DatabaseRefused, "permission denied"):
            self.replica("one", url=self.url.replace("user=owner", "user=bad_nobody"))
        two = self.replica("two", url=f"{self.url} options='-c statement_timeout=300'")
        with psycopg.connect(self.url) as other:
            other.execute("LOCK TABLE wakotehu.commands IN ACCESS EXCLUSIVE MODE")
            with self.assertRaisesRegex(errors.DatabaseRefused, "statement timeout"):
                two.find(uuid.uuid4())
        self.assertEqual(two.seat(0).submit(self.chain(1)[0], NOW).at, 1)


if __name__ == "__main__":
    unittest.main()
