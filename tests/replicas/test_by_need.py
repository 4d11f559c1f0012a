"""Real signatures: verdicts travel with the replies, and a share of them is tested again."""
from __future__ import annotations

import hashlib
import os
import unittest
import uuid
from typing import Any

import psycopg
from blocks import NOW, Maker, block_id, signed, spend, with_script
from cases import ReplicaTest
from wakotehu import errors, secp256k1
from wakotehu.encoding import Output, push
from wakotehu.signatures import Secp256k1

COIN = 5000000000
BLOCKS = 105


class Counted:
    """`secp256k1`, which counts what it is asked; `lies` says the contrary."""

    def __init__(self, lies: bool = False) -> None:
        self.asked: list[bytes] = []
        self.lies = lies

    def __call__(self, lines: Any) -> Any:
        self.asked += lines
        return [verdict is not self.lies for verdict in secp256k1(lines)]


class ByNeed(ReplicaTest):
    def setUp(self) -> None:
        super().setUp()
        self.history(by_need=True)
        self.secp = Secp256k1()
        key = self.secp.public_key(bytes([1]) * 32)
        self.script = b"\x76\xa9" + push(hashlib.new("ripemd160", hashlib.sha256(key).digest()).digest()) + b"\x88\xac"
        self.key = key
        self.maker = Maker(self.script)
        self.blocks = self.maker.chain(BLOCKS)
        self.tip = block_id(self.blocks[-1])

    def paid(self, place: int, secret: int = 1) -> Any:
        """A transaction that spends a coinbase, signed by this secret."""
        tx = spend(self.maker.coinbases[block_id(self.blocks[place])].id, 0, COIN, b"")._replace(outputs=[Output(COIN, self.script)])
        return with_script(tx, 0, *signed(self.secp, [bytes([secret]) * 32], tx, 0, self.script), self.key)

    def mined(self, *replicas: Any) -> None:
        """Puts the chain into the log, as a replica that is gone."""
        with psycopg.connect(self.url, autocommit=True) as connection:
            rows = [(place, uuid.uuid4(), block, NOW) for place, block in enumerate(self.blocks, 1)]
            connection.cursor().executemany("INSERT INTO wakotehu.commands VALUES (%s, %s, 'gone_0', 'submit', %s, %s)", rows)
        for replica in replicas:
            replica.wait_for(BLOCKS)
        # Its replies are written by whoever took it first, after a second.
        self.until(lambda: self.database.run(self.url, "SELECT count(*) FROM wakotehu.replies") == [(BLOCKS,)])

    def test_verdicts_travel(self) -> None:
        """The replica that writes finds out signatures; others learn them with the reply, and test none, or all."""
        writer, follower, careful = Counted(), Counted(), Counted()
        one, two = self.replica("one", verify=writer), self.replica("two", verify=follower)
        three = self.replica("three", verify=careful, recheck=1.0)
        self.mined(one, two, three)
        good = self.maker.block(self.tip, [self.paid(0), self.paid(1)])
        self.assertEqual((one.seat(0).submit(good, NOW).at, len(writer.asked)), (BLOCKS + 1, 2))
        bad = self.maker.block(block_id(good), [self.paid(2, secret=2)])
        with self.assertRaises(errors.BlkBadInputs) as caught:
            one.seat(0).submit(bad, NOW)
        self.assertEqual(caught.exception.at, BLOCKS + 2)
        for replica in (two, three):
            self.assertEqual(replica.seat(0).told(BLOCKS + 2), BLOCKS + 2)
            best = replica.seat(0).getbestblockhash()
            # Verdicts are steps of the node, and no places.
            self.assertEqual((best.at, best.value), (BLOCKS + 2, block_id(good)))
            self.assertEqual(replica._node.seat(0).note(), BLOCKS + 5)
        self.assertEqual((len(writer.asked), follower.asked, sorted(careful.asked)), (3, [], sorted(writer.asked)))
        # One that opens later catches up by the verdicts that stand there.
        late = Counted()
        four = self.replica("four", verify=late)
        self.assertEqual((four.place, late.asked), (BLOCKS + 2, []))
        self.until(lambda: self.database.run(self.url, "SELECT count(*) FROM wakotehu.replies") == [(BLOCKS + 2,)])
        self.assertEqual(self.audited("--quick"), f"{BLOCKS + 2} of {BLOCKS + 2} places have their replies, 0 are no steps\nagrees\n")
        folder = os.path.join(self.room, "out")
        self.command("export", self.url, folder)
        for name, count in (("table", 2), ("invalid", 1)):
            with open(f"{folder}/{name}.txt", encoding="ascii") as file:
                self.assertEqual(len(file.read().splitlines()), count)

    def test_dry_runs(self) -> None:
        """They have no rows. Verdicts that one found out stand in the next row of which its replica tells: so others know
        them, and so does the audit."""
        writer, follower = Counted(), Counted()
        one, two = self.replica("one", verify=writer), self.replica("two", verify=follower)
        self.mined(one, two)
        good, forged = (self.maker.block(self.tip, [self.paid(0, secret)], extra=bytes([secret])) for secret in (1, 2))
        for _ in range(2):
            for block, reply in ((good, "accepted"), (forged, "blk-bad-inputs 1:0"), (b"", "decode-failed")):
                told = one.seat(0).judge(block, NOW)
                self.assertEqual((told.at, told.value.text), (BLOCKS, reply))
        self.assertEqual((one.seat(0).getbestblockhash().value, len(writer.asked)), (self.tip, 2))
        self.assertEqual((one.seat(0).submit(good, NOW).at, len(writer.asked)), (BLOCKS + 1, 2))
        two.seat(0).told(BLOCKS + 1)
        self.assertEqual(follower.asked, [])
        # A row of another replica, which asks for what a dry run found out here: it has it, and no later row does.
        second = self.maker.block(block_id(good), [self.paid(1)])
        self.assertEqual((two.seat(0).judge(second, NOW).value.text, len(follower.asked)), ("accepted", 1))
        self.assertEqual((one.seat(0).submit(second, NOW).at, len(writer.asked)), (BLOCKS + 2, 3))
        two.seat(0).told(BLOCKS + 2)
        self.until(lambda: not two._follower._early and not one._follower._early)
        two.seat(0).submit(self.maker.block(block_id(second)), NOW)
        wrote = "SELECT verdicts FROM wakotehu.replies WHERE place > 105 ORDER BY place"
        self.until(lambda: len(self.database.run(self.url, wrote)) == 3)
        self.assertEqual([len(text.splitlines()) for text, in self.database.run(self.url, wrote)], [2, 1, 0])
        late = Counted()
        self.assertEqual((self.replica("three", verify=late).place, late.asked), (BLOCKS + 3, []))
        self.assertEqual(self.audited("--quick"), f"{BLOCKS + 3} of {BLOCKS + 3} places have their replies, 0 are no steps\nagrees\n")

    def test_a_lie_is_found(self) -> None:
        """A replica that calls a forged signature valid is found by one that tests it again."""
        liar, careful = self.replica("liar", verify=Counted(lies=True)), self.replica("careful", recheck=1.0)
        self.mined(liar, careful)
        forged = self.maker.block(self.tip, [self.paid(0, secret=2)])
        self.assertEqual(liar.seat(0).submit(forged, NOW).value, "accepted")
        self.until(lambda: careful._state.error is not None and liar._state.error is not None)
        with self.assertRaises(errors.ReplicaDiffers) as caught:
            careful.status()
        self.assertEqual((caught.exception.place, caught.exception.own[:8], caught.exception.replica), (BLOCKS + 1, "invalid ", "liar"))
        # Under the verdicts that stand there the replies are right; so these are tested too.
        self.until(lambda: self.database.run(self.url, "SELECT count(*) FROM wakotehu.replies") == [(BLOCKS + 1,)])
        ended = self.command("check", self.url, "--quick")
        self.assertEqual((ended.returncode, ended.stdout.splitlines()[1]), (1, "agrees"))
        self.assertRegex(ended.stdout.splitlines()[-1], "^not valid: [0-9a-f]{66} ")

    def test_a_writer_that_dies(self) -> None:
        """A row whose replica is gone before it writes the reply: another one finds out its signatures, and writes it."""
        one, two = self.replica("one"), self.replica("two")
        self.mined(one, two)
        one.close()
        good = self.maker.block(self.tip, [self.paid(0)])
        self.database.run(
            self.url, "INSERT INTO wakotehu.commands VALUES (%s, gen_random_uuid(), 'gone_0', 'submit', %s, %s)", BLOCKS + 1, good, NOW
        )
        self.assertEqual(two.seat(0).told(BLOCKS + 1), BLOCKS + 1)
        self.assertEqual(two.seat(0).getbestblockhash().value, block_id(good))
        found = "SELECT reply, replica, verdicts FROM wakotehu.replies WHERE place = %s"
        self.until(lambda: self.database.run(self.url, found, BLOCKS + 1) != [])
        [(reply, replica, verdicts)] = self.database.run(self.url, found, BLOCKS + 1)
        self.assertEqual((reply, replica, verdicts[:6], len(verdicts.splitlines())), ("accepted", "two", "valid ", 1))


if __name__ == "__main__":
    unittest.main()
