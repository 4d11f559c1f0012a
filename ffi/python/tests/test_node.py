"""A served node by Python: its calls from threads and from asyncio, what is raised, and processes that end."""

import asyncio
import os
import shutil
import subprocess
import tempfile
import threading
import time
import unittest

import wakotehu
from blocks import NOW, Maker, block_id, spend
from fakes import fake
from wakotehu import AsyncNode, Coin, Node, Stamped, errors, served
from wakotehu.encoding import GENESIS, Input, Output, Transaction
from wakotehu.node import program_path

ROOT = os.path.realpath(os.path.join(os.path.dirname(__file__), "..", "..", ".."))
#: The program: WAKOTEHU_PROGRAM, or where `./build` and `rt ci` leave it.
PROGRAM = os.environ.get("WAKOTEHU_PROGRAM", f"{ROOT}/crates/regchain/out/regchain")


class NodeTest(unittest.TestCase):
    def setUp(self):
        room = tempfile.TemporaryDirectory()
        self.addCleanup(room.cleanup)
        self.room = room.name
        self.maker = Maker()

    def node(self, *words, **more):
        node = Node(*words, program=PROGRAM, **more)
        self.addCleanup(node.kill)
        return node

    def fake(self, body):
        return fake(self.room, body)

    # ---- a folder of its own

    def test_save(self):
        """With a data directory: what any seat was answered is counted. Else it is refused, and the node goes on."""
        folder = os.path.join(self.room, "saved")
        b1 = self.maker.chain(1)[0]
        node = self.node(seats=2, datadir=folder)
        self.assertEqual(node.save(), 0)
        self.assertEqual(node.seat(1).submit(b1, NOW), Stamped(1, "accepted"))
        self.assertEqual(node.save(), 1)
        node.kill()

        async def saves():
            async with AsyncNode(seats=1, program=PROGRAM, datadir=folder) as again:
                return again.info.loaded, await again.save()

        self.assertEqual(asyncio.run(saves()), (1, 1))
        for why, more in (("datadir", {}), ("no-sync", {"datadir": folder, "sync": False})):
            with self.subTest(why=why), Node(seats=1, program=PROGRAM, **more) as node:
                with self.assertRaises(errors.NotSaved) as caught:
                    node.save()
                self.assertEqual((caught.exception.code, caught.exception.data), (-32004, why))
                self.assertEqual(node.seat(0).getbestblockhash().at, node.info.loaded)

    def test_a_data_directory(self):
        """What was answered is there, however the process ended; heights and table are the folder's."""
        folder = os.path.join(self.room, "data")
        b1, b2 = self.maker.chain(2)
        node = self.node(seats=2, heights=(5, 6, 7, 8), datadir=folder)
        self.assertEqual(node.seat(0).submit(b1, NOW), Stamped(1, "accepted"))
        self.assertRaises(errors.NodeDied, Node, program=PROGRAM, datadir=folder)
        node.kill()
        with Node(seats=1, program=PROGRAM, datadir=folder, sync=False) as node:
            self.assertEqual(node.info[4:], ((5, 6, 7, 8), 1))
            self.assertEqual(node.seat(0).getbestblockhash(), Stamped(1, block_id(b1)))
            self.assertEqual(node.seat(0).submit(b2, NOW), Stamped(2, "accepted"))
        self.assertRaises(errors.NodeDied, Node, program=PROGRAM, datadir=folder, heights=(1, 1, 1, 1))

        async def again():
            async with AsyncNode(seats=1, program=PROGRAM, datadir=folder) as node:
                return await node.seat(0).getbestblockhash()

        self.assertEqual(asyncio.run(again()), Stamped(2, block_id(b2)))
        for words in ({"load": folder}, {"save": folder}):
            self.assertRaises(ValueError, Node, program=PROGRAM, datadir=folder, **words)
        self.assertRaises(ValueError, Node, program=PROGRAM, sync=False)

    def test_a_history_under_a_table(self):
        """Where a table is given it has to be the folder's, an empty one too."""
        folder, table = os.path.join(self.room, "data"), "02 30 " + "00" * 32 + "\n"
        self.node(datadir=folder, table=table).close()
        for given in (None, table, table.encode()):
            self.node(datadir=folder, table=given).close()
        for wrong in ("", b"# none\n", "03" + table[2:]):
            with self.assertRaisesRegex(errors.NodeDied, "the folder was made with another table"):
                Node(program=PROGRAM, datadir=folder, table=wrong)
        self.node(datadir=folder + "2", table="").close()
        self.node(datadir=folder + "2", table="").close()

    # ---- calls

    def test_the_calls_of_a_seat(self):
        node = self.node(seats=2, heights=(5, 6, 7, 8))
        self.assertEqual(node.info[0], "regchain")
        self.assertEqual(node.info[2:], (2, 2, (5, 6, 7, 8), 0))
        seat = node.seat(0)
        self.assertEqual(seat.getbestblockhash(), Stamped(0, GENESIS.id))
        b1, b2 = self.maker.chain(2)
        self.assertEqual(seat.submit(b1, NOW), Stamped(1, "accepted"))
        self.assertEqual(seat.submit(b2, NOW), Stamped(2, "accepted"))
        self.assertEqual(seat.submit(b1, NOW), Stamped(3, "duplicate"))
        self.assertEqual(seat.getchaintips(), Stamped(3, [(block_id(b2), 2, 0, "active")]))
        made = self.maker.coinbases[block_id(b1)].id
        self.assertEqual(seat.gettxout(made, 0), Stamped(3, (5000000000, b"\x51", 1, True, 2)))
        self.assertEqual(seat.gettxout(made, 1), Stamped(3, None))
        self.assertEqual(seat.invalidate(block_id(b2)), Stamped(4, "done"))
        self.assertEqual(seat.reconsider(block_id(b2)).value, "done")
        self.assertEqual(seat.precious(block_id(b2)), Stamped(6, "done"))
        entries = seat.journal(2, 4)
        self.assertEqual(entries.at, 6)
        self.assertEqual(
            entries.value,
            [
                (2, "seat0", "submit", block_id(b2), NOW, "accepted"),
                (3, "seat0", "submit", block_id(b1), NOW, "duplicate"),
                (4, "seat0", "invalidate", block_id(b2), None, "done"),
            ],
        )
        self.assertEqual(len(node.seat(1).journal().value), 6)
        self.assertEqual(node.close(), 6)
        self.assertIsNone(node.close())

    def test_what_a_seat_hears(self):
        node = self.node(seats=3)
        first, second, third = node.seats
        first.submit(self.maker.block(GENESIS.id), NOW)
        self.assertEqual([seat.note() for seat in node.seats], [1, 0, 0])
        self.assertEqual(second.told(third), 0)
        self.assertEqual((second.told(first), third.told(second)), (1, 1))
        with self.assertRaises(ValueError):
            first.told(self.node().seat(0))

    def test_refusals_are_raised_with_their_places(self):
        seat = self.node().seat(3)
        block = self.maker.block(GENESIS.id, more=1)
        with self.assertRaises(errors.BadCbAmount) as caught:
            seat.submit(block, NOW)
        self.assertEqual((str(caught.exception), caught.exception.at), ("bad-cb-amount", 1))
        with self.assertRaises(wakotehu.DecodeFailed) as caught:
            seat.submit(b"nonsense", NOW)
        self.assertEqual(caught.exception.at, 1)
        with self.assertRaises(wakotehu.NotFound):
            seat.invalidate(bytes(32))
        with self.assertRaises(wakotehu.Genesis):
            seat.invalidate(GENESIS.id)
        told = seat.try_submit(block, NOW)
        self.assertEqual(told, Stamped(4, ("duplicate-invalid", "duplicate-invalid", "", 0, 0)))

    def test_a_script_that_is_refused_names_its_input(self):
        seat = self.node().seat(0)
        blocks = self.maker.chain(100)
        for block in blocks:
            seat.submit(block, NOW)
        coin = self.maker.coinbases[block_id(blocks[0])].id
        block = self.maker.block(block_id(blocks[-1]), [spend(coin, 0, 1, b"\x6a")])
        with self.assertRaises(errors.BlkBadInputs) as caught:
            seat.submit(block, NOW)
        self.assertEqual((caught.exception.transaction, caught.exception.input), (1, 0))
        self.assertEqual(seat.getbestblockhash().value, block_id(blocks[-1]))

    def test_what_is_no_argument(self):
        node = self.node(seats=2)
        seat = node.seat(0)
        for call in (
            lambda: node.seat(2), lambda: node.seat(-1),
        ):  # fmt: skip
            self.assertRaises(IndexError, call)
        for call in (
            lambda: seat.submit(b"", -1), lambda: seat.submit(b"", 2**64), lambda: seat.invalidate(b"short"),
            lambda: seat.gettxout(bytes(32), 2**32), lambda: seat.gettxout(bytes(31), 0), lambda: seat.journal(0, 1),
            lambda: seat.try_mark("submit", bytes(32)),
            lambda: Node(program=PROGRAM, load="x", table=""), lambda: Node(program=PROGRAM, heights=(1, 1, 1)),
            lambda: Node(seats=17, program=PROGRAM), lambda: Node(workers=0, program=PROGRAM),
        ):  # fmt: skip
            self.assertRaises(ValueError, call)
        self.assertRaises(TypeError, lambda: node.__reduce_ex__(2))

    # ---- threads

    def test_two_threads(self):
        """One submits, and lets the other know; that reads no earlier."""
        node = self.node(seats=2)
        blocks, ready, found = self.maker.chain(20), threading.Event(), []

        def write():
            for block in blocks:
                node.seat(0).submit(block, NOW)
            ready.set()

        def read():
            ready.wait()
            node.seat(1).told(node.seat(0))
            found.append(node.seat(1).getbestblockhash())

        threads = [threading.Thread(target=each) for each in (write, read)]
        for thread in threads:
            thread.start()
        for thread in threads:
            thread.join()
        self.assertEqual(found, [Stamped(20, block_id(blocks[-1]))])

    def test_many_outputs_at_once(self):
        node = self.node(seats=2, timeout=20)
        blocks = self.maker.chain(150)
        coins = [(self.maker.coinbases[block_id(block)].id, 0) for block in blocks]
        asked = [point for coin in coins for point in (coin, (coin[0], 1))] * 3
        for block in blocks:
            node.seat(0).submit(block, NOW)
        found, others = [], []

        def many():
            found.append(node.seat(0).gettxouts(asked))

        threads = [threading.Thread(target=many) for _ in range(3)]
        threads += [threading.Thread(target=lambda: others.append(node.seat(0).note())) for _ in range(20)]
        for thread in threads:
            thread.start()
        for thread in threads:
            thread.join()
        self.assertEqual(found[0], [node.seat(0).gettxout(*point) for point in asked])
        self.assertEqual((found[1:], others), ([found[0]] * 2, [150] * 20))
        self.assertEqual([one.value.height if one.value else 0 for one in found[0][:4]], [1, 0, 2, 0])
        self.assertEqual(node.seat(1).gettxouts([]), [])

    def test_blocks_and_coins(self):
        """By id, by height and one after the other; a seat that waits is told of the next step."""
        node = self.node(seats=2)
        writer, reader = node.seat(0), node.seat(1)
        b1, b2 = self.maker.chain(2)
        ids = [GENESIS.id, block_id(b1), block_id(b2)]
        told = []
        waiting = threading.Thread(target=lambda: told.append(reader.wait(1)))
        waiting.start()
        for block in (b1, b2):
            writer.submit(block, NOW)
        waiting.join()
        self.assertEqual(told, [2])
        self.assertEqual([reader.getblockhash(height) for height in range(3)], [Stamped(2, id) for id in ids])
        self.assertEqual(reader.getblockhash(3), Stamped(2, None))
        self.assertEqual(reader.getblock(ids[2]), Stamped(2, b2))
        self.assertEqual(reader.getblock(b"\1" * 32), Stamped(2, None))
        self.assertEqual(reader.getblockheader(ids[1]), Stamped(2, (b1[:80], 1, 2)))
        self.assertEqual(reader.getblockheader(b"\1" * 32), Stamped(2, None))
        coins = sorted(
            (self.maker.coinbases[id].id, 0, wakotehu.Coin(5000000000, b"\x51", height, True))
            for height, id in enumerate(ids) if height
        )  # fmt: skip
        self.assertEqual(reader.coins(), Stamped(2, coins))
        self.assertEqual(reader.coins(most=1), Stamped(2, coins[:1]))
        self.assertEqual(reader.coins(coins[0][:2]), Stamped(2, coins[1:]))

    def branch(self, id):
        """The ids of a block's branch, from genesis up."""
        return [GENESIS.id] if id == GENESIS.id else [*self.branch(self.parents[id]), id]

    def tree(self):
        """Branches of three and of four blocks above the first two."""
        trunk = self.maker.chain(2)
        left = self.maker.chain(3, block_id(trunk[1]), extra=b"l")
        right = self.maker.chain(4, block_id(trunk[1]), extra=b"r")
        self.parents = {block_id(block): block[4:36] for block in trunk + left + right}
        return trunk, left, right

    def test_where_branches_part(self):
        """Of each block, the block at each height; of each two, the last that both branches have."""
        node = self.node(seats=1)
        seat = node.seat(0)
        trunk, left, right = self.tree()
        for block in trunk + left + right[:2]:
            seat.submit(block, NOW)
        absent = [block_id(right[2]), b"\1" * 32]
        for one in [GENESIS.id, *map(block_id, trunk + left + right[:2])]:
            mine = self.branch(one)
            found = [seat.getancestor(one, height) for height in (*range(len(mine) + 1), 2**64 - 1)]
            self.assertEqual(found, [Stamped(7, id) for id in (*mine, None, None)])
            for other in [GENESIS.id, *map(block_id, trunk + left + right[:2])]:
                shared = [id for id in mine if id in self.branch(other)][-1]
                self.assertEqual(seat.getfork(one, other), Stamped(7, shared))
            for other in absent:
                self.assertEqual((seat.getfork(one, other), seat.getfork(other, one)), (Stamped(7, None), Stamped(7, None)))
        for id in absent:
            self.assertEqual(seat.getancestor(id, 0), Stamped(7, None))
            with self.assertRaises(errors.NotFound) as caught:
                seat.moved(id)
            self.assertEqual(caught.exception.at, 7)

    def test_what_blocks_spent(self):
        """Two coinbases, and an output of the first of them in the same block; the block is left, and comes back."""
        node = self.node(seats=2)
        maker = Maker()
        chain = maker.chain(102)
        first, second = (maker.coinbases[block_id(chain[place])] for place in (0, 1))
        one = spend(first.id, 0, 4_000_000_000, b"", b"\x52")
        both = Transaction(1, [Input(one.id, 0, b"", 0), Input(second.id, 0, b"", 0)], [Output(1, b"\x51")], 0)
        spending = maker.block(block_id(chain[-1]), [one, both])
        for block in (*chain, spending):
            node.seat(0).submit(block, NOW)
        made = [Coin(5_000_000_000, b"\x51", 1, True), Coin(4_000_000_000, b"\x52", 103, False), Coin(5_000_000_000, b"\x51", 2, True)]
        seat = node.seat(1)
        self.assertEqual(seat.getspent(block_id(spending)), Stamped(103, made))
        self.assertEqual(seat.getspent(block_id(chain[-1])), Stamped(103, []))
        self.assertEqual(seat.getspent(GENESIS.id), Stamped(103, []))
        self.assertEqual(seat.getspent(bytes(32)), Stamped(103, None))
        node.seat(0).invalidate(block_id(spending))
        self.assertEqual(seat.getspent(block_id(spending)), Stamped(104, None))
        node.seat(0).reconsider(block_id(spending))
        self.assertEqual(seat.getspent(block_id(spending)), Stamped(105, made))
        # Below the highest 288 blocks a coin's undo is kept packed.
        for block in maker.chain(300, block_id(spending)):
            node.seat(0).submit(block, NOW)
        self.assertEqual(seat.getspent(block_id(spending)), Stamped(405, made))

    def test_what_moved(self):
        """After each step, from each best block before it: what is left of that branch, and what is new of the best one's."""
        node = self.node(seats=1)
        seat = node.seat(0)
        trunk, left, right = self.tree()
        steps = [lambda block=block: seat.submit(block, NOW) for block in trunk + left + right]
        steps += [lambda: seat.invalidate(block_id(right[1])), lambda: seat.invalidate(block_id(trunk[0]))]
        steps += [lambda: seat.reconsider(block_id(left[2])), lambda: seat.reconsider(block_id(right[3]))]
        bests = [GENESIS.id]
        for at, step in enumerate(steps, 1):
            step()
            bests.append(seat.getbestblockhash().value)
            for before in bests:
                gone, come = self.branch(before), self.branch(bests[-1])
                kept = [one for one, other in zip(gone, come) if one == other]
                expected = (kept[-1], gone[: len(kept) - 1 : -1], come[len(kept) :])
                self.assertEqual(seat.moved(before), Stamped(at, expected))
        one, other = block_id(left[-1]), block_id(right[-1])
        self.assertEqual(bests[5:], [one, one, one, one, other, one, GENESIS.id, one, other])

    def test_what_moved_while_steps_are_taken(self):
        """Each answer goes on where the one before ended: so together they make the list of the last active branch."""
        node = self.node(seats=2)
        trunk, left, right = self.tree()
        writing = threading.Thread(target=lambda: [node.seat(0).submit(block, NOW) for block in trunk + left + right])
        active, last = [GENESIS.id], 0
        writing.start()
        while active[-1] != block_id(right[-1]):
            node.seat(1).told(node.seat(0))
            moved = node.seat(1).moved(active[-1])
            self.assertLessEqual(last, moved.at)
            last = moved.at
            for id in moved.value.disconnected:
                self.assertEqual(active.pop(), id)
            self.assertEqual(active[-1], moved.value.fork)
            active += moved.value.connected
            self.assertEqual(active, self.branch(active[-1]))
        writing.join()

    def test_many_threads_at_each_seat(self):
        """Answers find who asked, and no stamp falls."""
        node = self.node(seats=3)
        blocks, wrong = self.maker.chain(30), []
        coins = {block_id(block): self.maker.coinbases[block_id(block)].id for block in blocks}

        def read(number):
            last = 0
            for place in range(60):
                block = blocks[(number * 7 + place) % 30]
                stamped = node.seat(number % 3).gettxout(coins[block_id(block)], 0)
                expected = stamped.at > blocks.index(block)
                if (stamped.value is not None) != expected or stamped.at < last:
                    wrong.append((number, place, stamped))
                last = stamped.at

        threads = [threading.Thread(target=read, args=(number,)) for number in range(24)]
        for thread in threads:
            thread.start()
        for block in blocks:
            node.seat(0).submit(block, NOW)
        for thread in threads:
            thread.join()
        self.assertEqual(wrong, [])

    # ---- its life

    def test_it_saves_and_goes_on(self):
        b1, b2 = self.maker.chain(2)
        folder = os.path.join(self.room, "new", "-one")
        with Node(seats=1, heights=(1, 2, 3, 4), program=PROGRAM, save=folder) as node:
            node.seat(0).submit(b1, NOW)
        with Node(program=PROGRAM, load=folder, save=folder) as node:
            self.assertEqual((node.info.loaded, node.info.heights), (1, (1, 2, 3, 4)))
            self.assertEqual(node.seat(3).submit(b2, NOW), Stamped(2, "accepted"))
        audit = [PROGRAM, "audit", "--saved", folder]
        self.assertEqual(subprocess.run(audit, capture_output=True, check=True).stdout, b"agrees\n")
        with Node(program=PROGRAM, blk=os.path.join(folder, "blocks.blk")) as node:
            self.assertEqual(node.seat(0).getbestblockhash(), Stamped(2, block_id(b2)))

    def test_what_cannot_be_saved_is_raised(self):
        folder = os.path.join(self.room, "saved")
        os.mkdir(folder)
        node = self.node(save=folder)
        shutil.rmtree(folder)
        with self.assertRaises(errors.BadRequest) as caught:
            node.close()
        self.assertEqual(caught.exception.code, -32004)

    def test_it_is_killed(self):
        node = self.node()
        node.seat(0).note()
        node._process.kill()
        with self.assertRaises(wakotehu.NodeDied) as caught:
            for _ in range(1000):
                node.seat(0).note()
                time.sleep(0.01)
        self.assertEqual(caught.exception.status, -9)
        self.assertRaises(wakotehu.NodeDied, node.seat(1).note)
        self.assertRaises(wakotehu.NodeDied, node.close)
        self.assertRaises(wakotehu.Closed, node.seat(1).note)

    def test_who_waits_is_told_of_the_end(self):
        fake = self.fake("print('it hurts', file=sys.stderr, flush=True)\nos._exit(3)\n")
        node = Node(seats=1, program=fake)
        self.addCleanup(node.kill)
        with self.assertRaises(wakotehu.NodeDied) as caught:
            node.seat(0).note()
        self.assertEqual((caught.exception.status, caught.exception.stderr), (3, "it hurts\n"))

    def test_calls_after_the_end(self):
        node = self.node()
        node.close()
        self.assertRaises(wakotehu.Closed, node.seat(0).note)
        node = self.node()
        node.kill()
        self.assertRaises(wakotehu.Closed, node.seat(0).getbestblockhash)

    def test_openings_that_fail(self):
        with self.assertRaises(wakotehu.NodeDied) as caught:
            Node(blk=os.path.join(self.room, "none"), program=PROGRAM)
        self.assertEqual(caught.exception.status, 1)
        self.assertIn("none", caught.exception.stderr)
        with self.assertRaises(wakotehu.BadTable) as caught:
            Node(table="\n\nx\n", program=PROGRAM)
        self.assertEqual(caught.exception.line, 3)
        with self.assertRaises(wakotehu.NodeDied) as caught:
            Node(load=os.path.join(self.room, "none"), program=PROGRAM)
        self.assertIn("cannot read", str(caught.exception))
        self.assertRaises(wakotehu.ProgramMissing, Node, program=self.room + "/none")

    def test_an_exception_inside(self):
        with self.assertRaises(KeyError):
            with Node(program=PROGRAM) as node:
                raise KeyError
        self.assertEqual(node._process.returncode, 0)

    # ---- what a node may answer

    def test_faults_of_the_node(self):
        fake = self.fake(
            """
            faults = {'note': (-32001, 'memory'), 'getchaintips': (-32002, 'owed'), 'getbestblockhash': (-32003, 'closed')}
            if asked['method'] == 'finish':
                say(asked['id'], result={'at': 0})
                break
            code, message = faults.get(asked['method'], (-32602, 'invalid params'))
            say(asked['id'], error={'code': code, 'message': message, 'data': 'x'})
            """
        )
        with Node(seats=1, program=fake) as node:
            seat = node.seat(0)
            self.assertRaises(wakotehu.Memory, seat.note)
            self.assertRaises(wakotehu.Owed, seat.getchaintips)
            self.assertRaises(wakotehu.Closed, seat.getbestblockhash)
            with self.assertRaises(wakotehu.BadRequest) as caught:
                seat.invalidate(bytes(32))
            self.assertEqual((caught.exception.code, caught.exception.data), (-32602, "x"))

    def test_where_the_program_is_looked_for(self):
        before = dict(os.environ)
        self.addCleanup(os.environ.update, before)
        place = os.path.join(self.room, "regchain")
        os.symlink(PROGRAM, place)
        # A package of which nobody knows yet whether it has the program inside.
        package = os.path.join(self.room, "package")
        os.mkdir(package)
        self.addCleanup(setattr, served, "__file__", served.__file__)
        served.__file__ = os.path.join(package, "served.py")
        os.environ["WAKOTEHU_PROGRAM"] = place
        self.assertEqual(program_path(), place)
        self.assertEqual(program_path(PROGRAM), PROGRAM)
        del os.environ["WAKOTEHU_PROGRAM"]
        os.environ["WAKOTEHU_LIBRARY"] = os.path.join(self.room, "libwakotehu.so")
        self.assertEqual(program_path(), place)
        del os.environ["WAKOTEHU_LIBRARY"]
        os.environ["PATH"] = self.room
        self.assertEqual(program_path(), place)
        os.environ["PATH"] = "/nowhere"
        self.assertRaises(wakotehu.ProgramMissing, program_path)
        os.symlink(PROGRAM, os.path.join(package, "regchain"))
        os.environ["PATH"] = self.room
        self.assertEqual(program_path(), os.path.join(package, "regchain"))
        if "WAKOTEHU_LIBRARY" not in before:
            os.environ.pop("WAKOTEHU_LIBRARY", None)


class AsyncNodeTest(unittest.IsolatedAsyncioTestCase):
    def setUp(self):
        self.maker = Maker()

    async def test_the_calls(self):
        async with AsyncNode(seats=2, program=PROGRAM) as node:
            self.assertEqual(node.info.seats, 2)
            first, second = node.seats
            blocks = self.maker.chain(5)
            written = await asyncio.gather(*(first.submit(block, NOW) for block in blocks))
            self.assertEqual(written, [Stamped(place, "accepted") for place in range(1, 6)])
            self.assertEqual(await second.note(), 0)
            self.assertEqual(await second.told(first), 5)
            self.assertEqual(await second.getbestblockhash(), Stamped(5, block_id(blocks[-1])))
            self.assertEqual(await second.getchaintips(), Stamped(5, [(block_id(blocks[-1]), 5, 0, "active")]))
            made = self.maker.coinbases[block_id(blocks[0])].id
            self.assertEqual(await second.gettxout(made, 0), Stamped(5, (5000000000, b"\x51", 1, True, 5)))
            asked = [(made, n % 2) for n in range(500)]
            found = await asyncio.gather(second.gettxouts(asked), second.gettxouts(asked), second.note())
            self.assertEqual(found[0], [await second.gettxout(*point) for point in asked])
            self.assertEqual(found[1:], [found[0], 5])
            self.assertEqual((await second.invalidate(block_id(blocks[1]))).at, 6)
            self.assertEqual(await second.reconsider(block_id(blocks[1])), Stamped(7, "done"))
            self.assertEqual(await second.precious(block_id(blocks[1])), Stamped(8, "done"))
            self.assertEqual([entry.command for entry in (await first.journal(5)).value][-1], "precious")
            with self.assertRaises(errors.DecodeFailed):
                await first.submit(b"", NOW)
            best = await second.getblockhash(5)
            self.assertEqual(best, Stamped(8, block_id(blocks[4])))
            self.assertEqual(await second.getblock(best.value), Stamped(8, blocks[4]))
            self.assertEqual(await second.getblockheader(best.value), Stamped(8, (blocks[4][:80], 5, 1)))
            ids = [block_id(block) for block in blocks]
            self.assertEqual(await second.getancestor(best.value, 2), Stamped(8, ids[1]))
            self.assertEqual(await second.getancestor(best.value, 6), Stamped(8, None))
            self.assertEqual(await second.getfork(best.value, ids[2]), Stamped(8, ids[2]))
            self.assertEqual(await second.moved(ids[2]), Stamped(8, (ids[2], [], ids[3:])))
            with self.assertRaises(errors.NotFound):
                await second.moved(bytes(32))
            self.assertEqual(await second.getspent(best.value), Stamped(8, []))
            self.assertEqual(len((await second.coins(most=3)).value), 3)
            self.assertEqual(await asyncio.gather(first.wait(8), second.precious(best.value)), [9, Stamped(9, "done")])
            many = await asyncio.gather(*(seat.getbestblockhash() for seat in node.seats * 200))
            self.assertEqual({stamped.value for stamped in many}, {block_id(blocks[-1])})
        with self.assertRaises(wakotehu.Closed):
            await first.note()

    async def test_it_is_killed(self):
        async with AsyncNode(program=PROGRAM) as node:
            await node.seat(0).note()
            node._pipe.transport.kill()
            with self.assertRaises(wakotehu.NodeDied) as caught:
                for _ in range(1000):
                    await node.seat(0).note()
                    await asyncio.sleep(0.01)
            self.assertEqual(caught.exception.status, -9)
            await node.kill()

    async def test_openings_that_fail(self):
        with self.assertRaises(wakotehu.NodeDied):
            async with AsyncNode(blk="/nowhere/none", program=PROGRAM):
                pass
        with self.assertRaises(ValueError):
            AsyncNode(seats=17, program=PROGRAM)
        with self.assertRaises(wakotehu.BadTable):
            async with AsyncNode(table="x", program=PROGRAM):
                pass
        with self.assertRaises(ValueError):
            async with AsyncNode(load="x", table="", program=PROGRAM):
                pass


if __name__ == "__main__":
    unittest.main()
