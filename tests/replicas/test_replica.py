"""The calls of a replica, its roles, and the command `wakotehu-replica`."""
from __future__ import annotations

import os
import random
import signal
import subprocess
import sys
import threading
import time
import unittest
import uuid

import running
from blocks import Maker, block_id
from cases import HERE, NOW, ReplicaTest
from wakotehu import Bench, Pool, errors, show
from wakotehu.encoding import GENESIS
from wakotehu.replicalog import Log
from wakotehu.wallet import Settings, Wallet


class Calls(ReplicaTest):
    def test_two_replicas_and_a_note(self) -> None:
        """A write at one replica, and a read at another that was told its place; worked by hand."""
        self.history()
        one, two = self.replica("one"), self.replica("two")
        maker = Maker()
        [first, second] = maker.chain(2)
        [other] = maker.chain(1, extra=b"\x07")
        wallet, reader = one.seat(0), two.seat(3)
        self.assertEqual((wallet.submit(first, NOW).at, wallet.submit(second, NOW).value), (1, "accepted"))
        self.assertEqual(reader.told(wallet.note()), 2)
        best = reader.getbestblockhash()
        self.assertEqual((best.at, best.value), (2, block_id(second)))
        self.assertLess(best.behind, 5)
        with self.assertRaises(errors.NotFound) as caught:
            reader.invalidate(block_id(other))
        self.assertEqual(caught.exception.at, 3)
        self.assertEqual(reader.submit(other, NOW).value, "inconclusive")
        self.assertEqual(reader.invalidate(block_id(second)).value, "done")
        self.assertEqual(wallet.told(5), 5)
        self.assertEqual(wallet.getbestblockhash().value, block_id(first))
        self.assertEqual(wallet.precious(block_id(other)).at, 6)
        self.assertEqual(wallet.getbestblockhash().value, block_id(other))
        self.assertEqual(wallet.reconsider(block_id(second)).value, "done")
        self.assertEqual(wallet.getblockhash(2).value, block_id(second))
        self.assertEqual(wallet.getancestor(block_id(second), 1).value, block_id(first))
        self.assertEqual(wallet.getfork(block_id(other), block_id(second)).value, GENESIS.id)
        self.assertEqual((wallet.getspent(block_id(second)).value, wallet.getspent(block_id(other)).value), ([], None))
        moved = wallet.moved(block_id(other))
        self.assertEqual((moved.at, moved.value), (7, (GENESIS.id, [block_id(other)], [block_id(first), block_id(second)])))
        coins = [maker.coinbases[block_id(block)].id for block in (first, second, other)]
        found = wallet.gettxouts([(coin, 0) for coin in coins])
        self.assertEqual([(own.at, own.value is not None) for own in found], [(7, True), (7, True), (7, False)])
        self.assertEqual(wallet.gettxout(coins[0], 0).value.height, 1)
        self.assertEqual(len(wallet.coins().value), 2)
        self.assertEqual(wallet.getblock(block_id(other)).value, other)
        self.assertEqual(wallet.getblockheader(block_id(other)).value.confirmations, -1)
        self.assertEqual([tip.height for tip in wallet.getchaintips().value], [2, 1])
        self.assertEqual(wallet.gettxouts([]), [])
        told = [wallet.judge(block, NOW) for block in (maker.block(block_id(second)), maker.block(block_id(second), more=1), other)]
        self.assertEqual([(own.at, own.value.text) for own in told], [(7, "accepted"), (7, "bad-cb-amount"), (7, "duplicate")])
        rows = self.database.run(self.url, "SELECT place, seat, command, now FROM wakotehu.commands ORDER BY place")
        names = ["one_0", "one_0", "two_3", "two_3", "two_3", "one_0", "one_0"]
        self.assertEqual([row[0] for row in rows], list(range(1, 8)))
        self.assertEqual([row[1] for row in rows], names)
        self.assertEqual([row[3] for row in rows], [NOW, NOW, None, NOW, None, None, None])
        one.close()
        self.assertEqual(self.audited(), "7 of 7 places have their replies, 0 are no steps\nagrees\n")

    def test_a_wallet(self) -> None:
        """A wallet at one replica has what another one mines, and follows it where it reorganises."""
        self.history()
        one, two = self.replica("one"), self.replica("two")
        wallet = Wallet(two, seed=bytes(16), settings=Settings(keypool=5))
        with Bench() as bench:
            Pool(bench).mine(1, wallet.address())
            Pool(bench).mine(100)
            blocks = [bench.block(id) or b"" for id in bench.branch()]
        for block in blocks:
            place = one.seat(0).submit(block, NOW + 10**6).at
        two.seat(0).told(place)
        self.assertEqual(wallet.balances(), (50 * 10**8, 0, 0))
        wallet.pay(b"\x51", 10**8)
        # It has 201 bytes, at 20 satoshis each.
        self.assertEqual((wallet.balance(), wallet.balance(1)), (49 * 10**8 - 4020, 0))
        two.seat(0).told(one.seat(0).invalidate(block_id(blocks[0])).at)
        # Where there is no pool, nobody says that the payment waits no more.
        self.assertEqual((wallet.balances(), wallet.ledger.height), ((0, 49 * 10**8 - 4020, 0), 0))
        wallet.abandon(wallet.ledger.in_order()[-1].id)
        self.assertEqual(wallet.balances(), (0, 0, 0))

    def test_bytes_that_are_no_block_have_a_place_and_no_step(self) -> None:
        self.history()
        one = self.replica("one")
        seat, [block] = one.seat(0), self.chain(1)
        for data, reply in ((b"", "decode-failed"), (block, "accepted"), (block[:-1], "decode-failed"), (block, "duplicate")):
            self.assertEqual(seat.try_submit(data, NOW).value.text, reply)
        self.assertEqual((seat.getbestblockhash().at, seat.note(), one.place), (4, 4, 4))
        self.assertRaises(errors.DecodeFailed, seat.submit, b"", NOW)
        two = self.replica("two")
        self.assertEqual((two.place, two.seat(0).getbestblockhash().at), (5, 5))
        one.close()
        self.assertEqual(self.audited(), "5 of 5 places have their replies, 3 are no steps\nagrees\n")

    def test_tokens(self) -> None:
        self.history()
        one, token = self.replica("one"), uuid.uuid4()
        self.assertIsNone(one.find(token))
        seat = one.seat(0)
        seat.submit(self.chain(1)[0], NOW)
        seat.try_mark("invalidate", GENESIS.id, token)
        self.assertEqual((one.find(token), one.find(token, after=1), one.find(token, after=2)), (2, 2, None))

    def test_what_is_refused(self) -> None:
        """Arguments are refused before anything is asked, and nothing is written."""
        self.history()
        one = self.replica("one")
        seat = one.seat(0)
        for call, kind in (
            (lambda: seat.submit("00", NOW), TypeError), (lambda: seat.submit(bytes(0x02000001), NOW), ValueError),
            (lambda: seat.submit(b"", 1 << 63), ValueError), (lambda: seat.submit(b"", -1), ValueError),
            (lambda: seat.invalidate(b"1"), ValueError), (lambda: seat.try_mark("submit", GENESIS.id), ValueError),
            (lambda: seat.invalidate(GENESIS.id, "token"), TypeError), (lambda: seat.told(-1), ValueError),
            (lambda: seat.gettxout(b"", 0), ValueError), (lambda: one.seat(4), IndexError), (lambda: one.find("a"), TypeError),
        ):  # fmt: skip
            self.assertRaises(kind, call)
        for more, kind in (
            ({"seats": 16}, ValueError), ({"seats": 0}, ValueError), ({"name": "a b"}, ValueError), ({"name": "a" * 25}, ValueError),
            ({"recheck": 2}, ValueError), ({"recheck": True}, TypeError), ({"verify": lambda lines: []}, ValueError),
            ({"timeout": 0}, ValueError), ({"url": 5}, TypeError),
        ):  # fmt: skip
            with self.subTest(more):
                self.assertRaises(kind, self.replica, **{"name": "two", **more})
        self.assertEqual(self.database.run(self.url, "SELECT count(*) FROM wakotehu.commands"), [(0,)])

    def test_a_place_that_does_not_come(self) -> None:
        self.history()
        one = self.replica("one", timeout=2)
        begun = time.monotonic()
        self.assertRaises(errors.TimedOut, one.seat(0).told, 1)
        self.assertLess(time.monotonic() - begun, 20)

    def test_closed(self) -> None:
        self.history()
        one = self.replica("one")
        seat, waiting = one.seat(0), []
        thread = threading.Thread(target=lambda: waiting.append(self.raised(lambda: seat.told(9))))
        thread.start()
        self.until(thread.is_alive)
        one.close()
        thread.join(10)
        self.assertIsInstance(waiting[0], errors.Closed)
        for call in (lambda: seat.submit(b"", NOW), seat.getbestblockhash, one.status):
            self.assertIsInstance(self.raised(call), errors.Closed)

    def raised(self, call) -> BaseException:
        try:
            call()
        except BaseException as error:
            return error
        raise AssertionError("nothing was raised")

    def test_no_database_and_no_history(self) -> None:
        self.assertIsInstance(self.raised(lambda: self.replica("one", url=f"host={self.room} dbname=none")), errors.Unavailable)
        self.assertIsInstance(self.raised(lambda: self.replica("one", url=self.database.url("postgres"))), errors.NoHistory)
        self.database.run(self.history(), "UPDATE wakotehu.setting SET format = 3")
        self.assertIsInstance(self.raised(lambda: self.replica("one")), errors.NoHistory)

    def test_without_psycopg(self) -> None:
        """The package doesn't need it; a replica names what is missing."""
        code = (
            "import sys; sys.modules['psycopg'] = None\nimport wakotehu\n"
            "try:\n    wakotehu.Replica('dbname=none')\nexcept wakotehu.errors.DatabaseMissing as error:\n    print(error)"
        )
        environment = {**os.environ, "PYTHONPATH": os.path.join(HERE, "../../ffi/python")}
        ended = subprocess.run([sys.executable, "-c", code], capture_output=True, text=True, env=environment, timeout=30)
        self.assertEqual(ended.stdout, "psycopg isn't found: install Debian's python3-psycopg\n", ended.stderr)

    def test_a_short_history_is_caught_up(self) -> None:
        """Rows that are read some at a time: the opening waits for all of them."""
        self.history()
        self.database.run(
            self.url, "INSERT INTO wakotehu.commands SELECT place, gen_random_uuid(), 'x_0', 'precious', %s, NULL FROM generate_series(1, 350) place", bytes(32)
        )
        one = self.replica("one")
        self.assertEqual((one.place, one.seat(0).getbestblockhash().at), (350, 350))

    def test_large_rows_are_read_a_few_at_a_time(self) -> None:
        """Of rows of 10 MB two, as the third begins behind 16 MB; of one that is larger one."""
        self.history()
        self.database.run(
            self.url, "INSERT INTO wakotehu.commands SELECT place, gen_random_uuid(), 'x_0', 'submit',"
            " convert_to(repeat('a', CASE place WHEN 4 THEN 20000000 ELSE 10000000 END), 'UTF8'), 1 FROM generate_series(1, 5) place",
        )  # fmt: skip
        with Log(self.url) as log:
            self.assertEqual([[row.place for row in log.tail(after, 100)] for after in range(5)], [[1, 2], [2, 3], [3, 4], [4], [5]])
            self.assertEqual([row.place for row in log.tail(0, 1)], [1])
        one = self.replica("one")
        self.assertEqual((one.place, one.seat(0).getbestblockhash().at), (5, 5))

    def test_a_long_history_is_caught_up(self) -> None:
        """More rows than are read one after the other: by one COPY, with and without replies, one of them no step."""
        self.history()
        values = [(place, uuid.uuid4(), "x_0", "submit" if place == 700 else "precious", b"\x00" if place == 700 else bytes(32),
                   NOW if place == 700 else None) for place in range(1, 2501)]  # fmt: skip
        import psycopg

        with psycopg.connect(self.url, autocommit=True) as connection:
            connection.cursor().executemany("INSERT INTO wakotehu.commands VALUES (%s, %s, %s, %s, %s, %s)", values)
            connection.execute("INSERT INTO wakotehu.replies SELECT place, CASE place WHEN 700 THEN 'decode-failed' ELSE 'not-found' END,"
                               " '', 'x' FROM wakotehu.commands WHERE place NOT BETWEEN 1000 AND 1100")  # fmt: skip
        one = self.replica("one")
        self.assertEqual((one.place, one.seat(0).getbestblockhash().at), (2500, 2500))
        self.until(lambda: self.database.run(self.url, "SELECT count(*) FROM wakotehu.replies") == [(2500,)])
        self.assertEqual(self.audited("--quick"), "2500 of 2500 places have their replies, 1 are no steps\nagrees\n")


class Roles(ReplicaTest):
    def test_a_follower_may_not_write(self) -> None:
        self.history()
        for name in ("writer", "follower"):
            self.database.run(self.url, f"CREATE ROLE own_{name} LOGIN IN ROLE wakotehu_{name}")
        base = self.url.replace("user=owner", "user=own_")
        writer, follower = self.replica("writer", url=f"{base}writer"), self.replica("follower", url=f"{base}follower")
        [block] = self.chain(1)
        self.assertEqual(writer.seat(0).submit(block, NOW).at, 1)
        self.assertEqual(follower.seat(0).told(1), 1)
        self.assertEqual(follower.seat(0).getbestblockhash().value, block_id(block))
        self.assertRaises(errors.ReadOnly, follower.seat(0).submit, block, NOW)
        self.assertEqual(len(follower._threads), 1)
        import psycopg

        for statement in ("DELETE FROM wakotehu.commands", "UPDATE wakotehu.replies SET reply = 'done'", "UPDATE wakotehu.setting SET format = 1",
                          "INSERT INTO wakotehu.setting VALUES (true, 1, '{1,1,1,1}', '', false)", "TRUNCATE wakotehu.commands"):  # fmt: skip
            with self.assertRaises(psycopg.errors.InsufficientPrivilege, msg=statement):
                self.database.run(f"{base}writer", statement)
        with self.assertRaises(psycopg.errors.InsufficientPrivilege):
            self.database.run(f"{base}follower", "INSERT INTO wakotehu.differences VALUES (1, 'a', 'b')")


class CommandLine(ReplicaTest):
    def test_init(self) -> None:
        """It may be run again under the same rules, and no others."""
        self.database.run(self.database.url("postgres"), "CREATE DATABASE own")
        url = self.database.url("own")
        with open(os.path.join(self.room, "table"), "w", encoding="ascii") as file:
            file.write("aa 3006020101020101 " + "0" * 64 + "\n")
        words = ["init", url, "--heights", "1,2,3,4", "--table", file.name]
        for _ in range(2):
            self.assertEqual((self.command(*words).returncode, self.command(*words).stderr), (0, ""))
        for other in (["init", url], ["init", url, "--by-need"], ["init", url, "--heights", "1,2,3,4"]):
            ended = self.command(*other)
            self.assertEqual((ended.returncode, ended.stderr), (1, "wakotehu-replica: the database has a history under other rules\n"))
        one = self.replica("one", url=url)
        self.assertEqual(one._node.info.heights, (1, 2, 3, 4))

    def test_export(self) -> None:
        """The files of a run, which the program audits and loads; bytes by hand."""
        self.history()
        one = self.replica("one")
        [block] = self.chain(1)
        one.seat(1).submit(block, NOW)
        one.seat(2).try_mark("precious", GENESIS.id)
        one.close()
        folder = os.path.join(self.room, "out")
        self.assertEqual(self.command("export", self.url, folder).stdout, "2 of 2 places, as 2 lines\n")
        with open(f"{folder}/journal.txt", encoding="ascii") as file:
            first = f"1 one_1 submit {show(block_id(block))} {NOW} = accepted\n"
            self.assertEqual(file.read(), first + f"2 one_2 precious {show(GENESIS.id)} = done\n")
        with open(f"{folder}/blocks.blk", "rb") as file:
            self.assertEqual(file.read(), bytes.fromhex("fabfb5da") + len(block).to_bytes(4, "little") + block)
        again = self.command("export", self.url, folder)
        self.assertEqual((again.returncode, "has a journal" in again.stderr), (1, True))
        # A pipe in a file's place isn't waited for.
        for name in ("heights.txt", "blocks.blk", "table.txt"):
            other = os.path.join(self.room, name[:5])
            os.mkdir(other)
            os.mkfifo(os.path.join(other, name))
            again = self.command("export", self.url, other)
            self.assertEqual((again.returncode, name in again.stderr), (1, True))
        ended = subprocess.run([running.PROGRAM, "serve", "--load", folder], stdin=subprocess.DEVNULL, capture_output=True, timeout=30)
        self.assertEqual((ended.returncode, ended.stderr), (0, b""))

    def test_check_finds_a_wrong_reply(self) -> None:
        self.history()
        one = self.replica("one")
        for block in self.chain(3):
            one.seat(0).submit(block, NOW)
        one.close()
        self.audited()
        self.database.run(self.url, "UPDATE wakotehu.replies SET reply = 'inconclusive' WHERE place = 2")
        ended = self.command("check", self.url)
        self.assertEqual((ended.returncode, ended.stdout.splitlines()[1]), (1, "line 2"))
        self.database.run(self.url, "UPDATE wakotehu.replies SET reply = 'accepted' WHERE place = 2")
        self.database.run(self.url, "INSERT INTO wakotehu.differences VALUES (2, 'two', 'inconclusive')")
        ended = self.command("check", self.url)
        self.assertEqual((ended.returncode, ended.stdout.splitlines()[1:]), (1, ["agrees", "place 2: two differs: inconclusive"]))
        self.database.run(self.url, "DELETE FROM wakotehu.commands WHERE place = 2")
        ended = self.command("check", self.url)
        self.assertEqual((ended.returncode, ended.stderr), (1, "wakotehu-replica: the log has place 3 where 2 is next\n"))

    def test_follow(self) -> None:
        self.history()
        one = self.replica("one")
        one.seat(0).submit(self.chain(1)[0], NOW)
        environment = {**os.environ, "PYTHONPATH": os.path.join(HERE, "../../ffi/python"), "WAKOTEHU_PROGRAM": running.PROGRAM}
        process = subprocess.Popen(
            [sys.executable, "-m", "wakotehu.replicacommand", "follow", self.url], stdout=subprocess.PIPE, stderr=subprocess.PIPE,
            text=True, env=environment,
        )  # fmt: skip
        self.addCleanup(process.kill)
        assert process.stdout is not None
        self.assertRegex(process.stdout.readline(), r"^place 1, \d+\.\d s behind at most$")
        process.send_signal(signal.SIGTERM)
        out, err = process.communicate(timeout=30)
        self.assertEqual((process.returncode, err), (0, ""))

    def test_follow_ends_in_order(self) -> None:
        """Within a second, whatever signals come until it has ended."""
        self.history()
        environment = {**os.environ, "PYTHONPATH": os.path.join(HERE, "../../ffi/python"), "WAKOTEHU_PROGRAM": running.PROGRAM}
        words = [sys.executable, "-m", "wakotehu.replicacommand", "follow", self.url]
        chance = random.Random(85)
        for number in range(12):
            process = subprocess.Popen(words, stdout=subprocess.PIPE, stderr=subprocess.PIPE, text=True, env=environment)
            self.addCleanup(process.kill)
            assert process.stdout is not None
            process.stdout.readline()
            begun = time.monotonic()
            for _ in range(4):
                process.send_signal(chance.choice((signal.SIGTERM, signal.SIGINT)))
                time.sleep(chance.random() * 0.08)
            self.assertEqual((process.communicate(timeout=30)[1], process.returncode), ("", 0), number)
            self.assertLess(time.monotonic() - begun, 1)


if __name__ == "__main__":
    unittest.main()
