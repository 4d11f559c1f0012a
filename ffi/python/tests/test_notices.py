"""Notices of blocks: by ZeroMQ, as Bitcoin Core's doc/zmq.md has them (the topic, the body, and four bytes of a number), and by
a command, as litecoind 0.21.2.1 ran it for the same commands (`TOLD`)."""

import importlib.util
import os
import subprocess
import sys
import tempfile
import time
import unittest
from unittest import mock

from blocks import spend
from servers import PROGRAM
from wakotehu import show
from wakotehu.benches import Server
from wakotehu.encoding import GENESIS, block_at_front, coinbase, mine, subsidy, write_transaction
from wakotehu.rpc.errors import RpcError
from wakotehu.rpc.notices import BadNotice, Notice, Publisher, read_notice

HAS_ZMQ = importlib.util.find_spec("zmq") is not None
TOPICS = ("hashblock", "hashtx", "rawblock", "rawtx", "sequence")

#: Commands on blocks a1 to a4 and b1 on a2, and of which blocks litecoind's command was told, in any order.
TOLD = (
    (("mine", "a", 4), {"a1", "a2", "a3", "a4"}), (("invalidateblock", "a3"), {"a2"}), (("mine", "b", 1), {"b1"}),
    (("reconsiderblock", "a3"), {"a4"}), (("invalidateblock", "a2"), {"a1"}), (("reconsiderblock", "a2"), {"a2", "a3", "a4"}),
    (("invalidateblock", "a4"), {"a3"}), (("preciousblock", "b1"), {"b1"}), (("preciousblock", "a3"), {"a3"}),
    (("invalidateblock", "a3"), {"a2", "b1"}), (("invalidateblock", "a1"), {"genesis"}),
)  # fmt: skip


def server(case, *words):
    with mock.patch.dict(os.environ, {"WAKOTEHU_PROGRAM": PROGRAM}):
        found = Server(words)
    case.addCleanup(found.stop)
    return found


class CommandTest(unittest.TestCase):
    def test_the_command_is_told_what_litecoinds_is(self):
        folder = tempfile.TemporaryDirectory()
        self.addCleanup(folder.cleanup)
        path = os.path.join(folder.name, "told")
        running = server(self, f"-blocknotify=echo %s >> {path}")
        names, ids = {show(GENESIS.id): "genesis"}, {}
        # Beside litecoind's own rule, that marks lie on each active block above, here they are one mark.
        for words, wanted in TOLD:
            with self.subTest(words):
                if words[0] == "mine":
                    for number, id in enumerate(running.generatetodescriptor(words[2], "raw(51)"), 1):
                        ids[f"{words[1]}{number}"], names[id] = id, f"{words[1]}{number}"
                else:
                    running.call(words[0], ids[words[1]])
                self.assertEqual(self.lines(path, len(wanted), names), sorted(wanted))

    def lines(self, path, count, names):
        """What the command wrote, when it wrote so many lines, and no more of them soon after."""
        until, found = time.monotonic() + 20, []
        while len(found) < count and time.monotonic() < until:
            time.sleep(0.05)
            found = self.read(path)
        time.sleep(0.1)
        found = self.read(path)
        os.remove(path)
        return sorted(names[line] for line in found)

    @staticmethod
    def read(path):
        try:
            with open(path, encoding="ascii") as file:
                return file.read().split()
        except FileNotFoundError:
            return []

    def test_of_a_file(self):
        """-blocknotify may stand in bitcoin.conf too."""
        folder = tempfile.TemporaryDirectory()
        self.addCleanup(folder.cleanup)
        path = os.path.join(folder.name, "told")
        with open(os.path.join(folder.name, "bitcoin.conf"), "w", encoding="ascii") as file:
            file.write(f"blocknotify=echo %s >> {path}\n")
        running = server(self, f"-conf={folder.name}/bitcoin.conf")
        [id] = running.generatetodescriptor(1, "raw(51)")
        self.assertEqual(self.lines(path, 1, {id: "it"}), ["it"])
        self.assertEqual(running.getzmqnotifications(), [])


@unittest.skipUnless(HAS_ZMQ, "python3-zmq isn't installed")
class PublishedTest(unittest.TestCase):
    def setUp(self):
        import zmq

        folder = tempfile.TemporaryDirectory()
        self.addCleanup(folder.cleanup)
        self.address = f"ipc://{folder.name}/socket"
        self.running = server(self, *(f"-zmqpub{topic}={self.address}" for topic in TOPICS), "-zmqpubrawtxhwm=7")
        context = zmq.Context()
        self.addCleanup(context.destroy, linger=0)
        self.socket = context.socket(zmq.SUB)
        self.socket.setsockopt(zmq.SUBSCRIBE, b"")
        self.socket.connect(self.address)
        self.subscribed()

    def subscribed(self):
        """Mines until a message comes: who subscribes late misses the first ones."""
        while not self.socket.poll(200):
            self.running.generatetodescriptor(1, "raw(51)")
        self.counts = {}
        self.taken()

    def taken(self):
        """The messages so far: topics and bodies. Each topic's numbers rise by one."""
        found = []
        while self.socket.poll(500):
            topic, body, number = self.socket.recv_multipart()
            self.assertEqual(len(number), 4)
            count = int.from_bytes(number, "little")
            self.assertEqual(self.counts.get(topic, count), count)
            self.counts[topic] = count + 1
            found.append((topic.decode(), body))
        return found

    def block(self, id):
        return bytes.fromhex(self.running.getblock(id, 0))

    def of_block(self, id, label, is_best=True):
        """What is told of a block that comes or goes: ids are in the order in which they are printed."""
        data = self.block(id)
        block = block_at_front(data)
        found = []
        for place, tx in enumerate(block.ids):
            found += [("hashtx", bytes.fromhex(show(tx))), ("rawtx", write_transaction(block.transaction(place)))]
        found.append(("sequence", bytes.fromhex(id) + label))
        return found + [("hashblock", bytes.fromhex(id)), ("rawblock", data)] * is_best

    def test_blocks_come(self):
        ids = self.running.generatetodescriptor(3, "raw(51)")
        self.assertEqual(self.taken(), sum((self.of_block(id, b"C") for id in ids), []))

    def test_a_block_with_a_transaction(self):
        self.running.generatetodescriptor(101, "raw(51)")
        self.taken()
        made = block_at_front(self.block(self.running.getblockhash(2))).ids[0]
        raw = write_transaction(spend(made, 0, 1, b"")).hex()
        id = self.running.generateblock("raw(51)", [raw])["hash"]
        told = self.taken()
        self.assertEqual(told, self.of_block(id, b"C"))
        self.assertEqual([topic for topic, _ in told].count("hashtx"), 2)
        self.assertIn(("rawtx", bytes.fromhex(raw)), told)

    def test_a_reorganisation(self):
        """The highest block goes first; of those that come only what is above the old best block is told as the best one."""
        a = self.running.generatetodescriptor(3, "raw(51)")
        self.running.invalidateblock(a[1])
        b = self.running.generatetodescriptor(2, "raw(52)")
        self.taken()
        self.running.invalidateblock(b[0])
        told = [*self.of_block(b[1], b"D", False), *self.of_block(b[0], b"D", False)]
        self.assertEqual(self.taken(), told)
        self.running.reconsiderblock(a[1])
        self.assertEqual(self.taken(), [*self.of_block(a[1], b"C"), *self.of_block(a[2], b"C")])
        self.running.reconsiderblock(b[0])
        self.assertEqual(self.taken(), [])
        self.running.preciousblock(b[1])
        self.assertEqual(self.taken(), [
            *self.of_block(a[2], b"D", False), *self.of_block(a[1], b"D", False),
            *self.of_block(b[0], b"C", False), *self.of_block(b[1], b"C"),
        ])  # fmt: skip

    def test_refused_and_stale_blocks_are_not_told(self):
        [a] = self.running.generatetodescriptor(1, "raw(51)")
        self.taken()
        self.assertEqual(self.running.submitblock(self.block(a).hex()), "duplicate")
        header, height = block_at_front(self.block(a)).header, self.running.getblockcount()
        beside = mine(header.parent, header.time, [coinbase(height, subsidy(height), b"\x53")])
        self.assertEqual(self.running.submitblock(beside.hex()), "inconclusive")
        with self.assertRaises(RpcError):
            self.running.generateblock("raw(51)", [write_transaction(spend(bytes(32), 0, 1, b"")).hex()])
        self.assertEqual((self.running.getbestblockhash(), self.taken()), (a, []))

    def test_what_is_published(self):
        told = [{"type": f"pub{topic}", "address": self.address, "hwm": 7 if topic == "rawtx" else 1000} for topic in TOPICS]
        self.assertEqual(self.running.getzmqnotifications(), told)

    def test_an_address_that_is_taken(self):
        done = subprocess.run(
            [sys.executable, "-m", "wakotehu.server", "-rpcport=0", f"-zmqpubhashtx={self.address}/x"],
            capture_output=True, text=True, env={**os.environ, "WAKOTEHU_PROGRAM": PROGRAM}, timeout=60,
        )  # fmt: skip
        self.assertEqual((done.returncode, done.stdout), (1, ""))
        self.assertIn(f"wakotehu-server: -zmqpubhashtx={self.address}/x: ", done.stderr)


class RefusedTest(unittest.TestCase):
    def test_addresses(self):
        for address in ("tcp://127.0.0.1:28332", "tcp://[::1]:1", "tcp://localhost:65535", "ipc:///tmp/x"):
            self.assertEqual(read_notice("hashtx", address, 5), Notice("hashtx", address, 5))
        for address in ("", "tcp://*:28332", "tcp://0.0.0.0:28332", "tcp://10.0.0.1:1", "127.0.0.1:1", "tcp://127.0.0.1",
                        "tcp://127.0.0.1:x", "udp://127.0.0.1:1", "tcp://999.0.0.1:1", "ipc://", "inproc://x"):  # fmt: skip
            with self.subTest(address), self.assertRaisesRegex(BadNotice, f"-zmqpubhashtx={address[:10]}".replace("*", ".")):
                read_notice("hashtx", address, 5)

    def test_without_zmq(self):
        """It is refused by name before anything else is begun."""
        with mock.patch("importlib.import_module", side_effect=ImportError), self.assertRaisesRegex(
            BadNotice, "-zmqpubrawtx needs Debian's python3-zmq, which isn't installed"
        ):
            Publisher([Notice("rawtx", "ipc:///tmp/x", 1000)])

    def test_flags(self):
        for flag in ("-zmqpubhashblock=tcp://*:28332", "-zmqpubhashblockhwm=x", "-zmqpubnothing=ipc://x"):
            with self.subTest(flag):
                done = subprocess.run([sys.executable, "-m", "wakotehu.server", flag], capture_output=True, text=True, timeout=60)
                self.assertEqual((done.returncode, done.stdout), (2, ""))
                self.assertIn(flag.partition("=")[0], done.stderr)
        help = subprocess.run([sys.executable, "-m", "wakotehu.server", "--help"], capture_output=True, text=True, timeout=60)
        for topic in TOPICS:
            self.assertIn(f"--zmqpub{topic} ADDRESS", help.stdout)
        self.assertIn("--blocknotify COMMAND", help.stdout)


if __name__ == "__main__":
    unittest.main()
