"""A server's folder of an earlier version, whose files the node's log takes the place of: once, whenever that is cut short."""

import contextlib
import io
import os
import re
import shutil
import signal
import subprocess
import sys
import tempfile
import time
import unittest
import unittest.mock

import test_datadir
from servers import PROGRAM, seats
from test_node_by_need import Counted
from wakotehu import secp256k1, show
from wakotehu.rpc import datadir

FILES = ["blocks.blk", "heights.txt", "journal.txt", "table.txt"]
COMMANDS = 111
#: The server's command, which waits for ever where so many blocks, its first word, were submitted.
WAITING = """
import sys, time
from wakotehu import nodebench, server

own, left = nodebench.NodeBench.try_submit, [int(sys.argv[1])]

def taken(*words):
    while not left[0]:
        time.sleep(1)
    left[0] -= 1
    return own(*words)

nodebench.NodeBench.try_submit = taken
server.main(sys.argv[2:])
"""


class Crash(BaseException):
    """Stands for a crash."""


class Files:
    """Files of an earlier version: what `played` does in `test_datadir`, in the form in which the program saves it, with the
    client's name of that version."""

    def __init__(self, folder):
        self.folder = os.path.join(folder, "saved")
        case = test_datadir.FolderCase()
        try:
            case.setUp()
            server = case.started()
            self.shown = case.played(server)
            server.end(signal.SIGTERM)
            os.makedirs(self.folder)
            subprocess.run([PROGRAM, "export", "--datadir", case.node, "--save", self.folder], check=True)
        finally:
            case.doCleanups()
        with open(os.path.join(self.folder, "journal.txt"), "r+", encoding="ascii") as file:
            text = re.sub(r"(?m)^(\d+) seat\d+ ", r"\1 rpc ", file.read())
            file.seek(0)
            file.truncate()
            file.write(text)
        self.journal = text.splitlines(keepends=True)


class OldFilesCase(test_datadir.FolderCase):
    @classmethod
    def setUpClass(cls):
        room = tempfile.TemporaryDirectory()
        cls.addClassCleanup(room.cleanup)
        cls.files = Files(room.name)

    def setUp(self):
        super().setUp()
        shutil.copytree(self.files.folder, self.folder)
        self.old = os.path.join(self.folder, "old-files")

    def path(self, name):
        return os.path.join(self.folder, name)

    def read(self, path):
        with open(path, "rb") as file:
            return file.read()

    def write(self, name, data):
        with open(self.path(name), "wb") as file:
            file.write(data)

    def begin(self, commands):
        """Leaves the first commands alone, which are blocks."""
        self.write("journal.txt", "".join(self.files.journal[:commands]).encode())

    def opened(self, verify=secp256k1, table=None, heights=None):
        """What the folder tells, opened in this process: how many commands, and the best block. What is said is kept."""
        verify = verify if table is None else None

        def pool(heights, known, node, sync):
            return seats(heights, known if table is None else table, verify=verify, datadir=node, sync=sync)

        said = io.StringIO()
        try:
            with contextlib.redirect_stderr(said), datadir.Folder(self.folder) as folder, \
                    folder.open(datadir.Opening(heights, table, True, pool)) as found:
                return found.loaded, show(found.best())
        finally:
            self.said = said.getvalue()

    def expect_moved(self):
        self.assertEqual(sorted(os.listdir(self.old)), FILES)
        self.assertEqual(sorted(os.listdir(self.folder)), [".lock", "node", "old-files"])


class OldFilesTest(OldFilesCase):
    def test_they_are_taken_over_once(self):
        # What wasn't written whole was told to nobody.
        for name, rest in (("journal.txt", b"112 rpc sub"), ("blocks.blk", b"\xfa\xbf\xb5"), ("table.txt", b"02")):
            self.write(name, self.read(self.path(name)) + rest)
        before = {name: self.read(self.path(name)) for name in FILES}
        server = self.started()
        self.assertEqual(server.told[0], f"{COMMANDS} commands of {self.folder} were taken again")
        self.assertEqual(self.shown(server), self.files.shown)
        server.process.send_signal(signal.SIGTERM)
        told = f"the commands of an earlier version's files are in {self.node} now, the files in {self.old}"
        self.assertEqual(server.process.communicate(timeout=10)[1], f"wakotehu-server: {told}\n")
        self.assertEqual({name: self.read(os.path.join(self.old, name)) for name in FILES}, before)
        self.expect_audited()
        moments = [line.split()[4] for line in self.read(self.log).decode().splitlines() if line.split()[2] == "submit"]
        self.assertEqual(moments, [line.split()[4] for line in self.files.journal if line.split()[2] == "submit"])
        again = self.started()
        self.assertEqual(again.told[0], server.told[0])
        self.assertEqual(self.shown(again), self.files.shown)
        again.process.send_signal(signal.SIGTERM)
        self.assertEqual(again.process.communicate(timeout=10)[1], "")

    def test_its_signatures_are_known(self):
        """Those of the table aren't asked for."""
        verify = Counted()
        self.assertEqual(self.opened(verify), (COMMANDS, self.files.shown[0]))
        self.assertEqual(len(self.read(os.path.join(self.old, "table.txt")).splitlines()), 1)
        self.assertEqual(verify.asked, [])

    def test_with_the_table(self):
        """As it was made with it: the node has the table then."""
        table = self.read(self.path("table.txt"))
        for wrong in (b"", table.replace(b"02", b"03")):
            with self.assertRaisesRegex(datadir.BadFolder, "another table"):
                self.opened(table=wrong)
        self.assertEqual(self.opened(table=b"\n" + table), (COMMANDS, self.files.shown[0]))
        self.assertEqual(self.read(os.path.join(self.node, "table.txt")), table)
        self.assertEqual(self.opened(table=table), (COMMANDS, self.files.shown[0]))
        with self.assertRaisesRegex(datadir.BadFolder, "was made with -table"):
            self.opened()

    def test_its_heights(self):
        with self.assertRaisesRegex(datadir.BadFolder, r"was made with the heights \(1, 1, 1, 1\), not \(1, 1, 1, 2\)"):
            self.opened(heights=(1, 1, 1, 2))
        self.write("heights.txt", b"500,1,1,432\n")
        self.begin(20)
        self.assertEqual(self.opened()[0], 20)
        self.assertEqual(self.read(os.path.join(self.node, "heights.txt")), b"500,1,1,432\n")

    def test_files_that_were_changed_are_refused(self):
        """They stay as they are, and are taken once they are right again."""
        text = self.read(self.path("journal.txt"))
        blocks, last = self.read(self.path("blocks.blk")), COMMANDS
        for name, wrong, told in (
            (
                "journal.txt", text.replace(b"= duplicate-invalid\n", b"= accepted\n"),
                "line 104: 'accepted' was answered, and 'duplicate-invalid' now",
            ),
            ("journal.txt", text.replace(b"2 rpc", b"3 rpc", 1), "journal.txt line 2 can't be read"),
            ("journal.txt", b"x\n" + text, "journal.txt line 1 can't be read"), ("heights.txt", b"1,x\n", "heights.txt can't be read"),
            ("blocks.blk", blocks[:-1], "blocks.blk has no block of line"), ("table.txt", b"02 30\n", "line 1 of the table can't be read"),
        ):  # fmt: skip
            right = self.read(self.path(name))
            self.write(name, wrong)
            self.assertIn(told, self.refused(f"-datadir={self.folder}"))
            self.assertEqual((self.read(self.path(name)), os.path.exists(self.node), os.path.exists(self.old)), (wrong, False, False))
            self.write(name, right)
        self.assertEqual(self.opened(), (last, self.files.shown[0]))
        self.expect_moved()

    def test_beside_a_node(self):
        """Where an earlier version was run later, nobody knows which history counts."""
        self.begin(20)
        self.opened()
        shutil.copytree(self.files.folder, self.folder, dirs_exist_ok=True)
        for path in (self.node, self.old):
            with self.assertRaises(datadir.BadFolder) as caught:
                self.opened()
            told = f"{self.folder} has files of an earlier version, and {path}: one of them has to be moved away"
            self.assertEqual(str(caught.exception), told)
            shutil.rmtree(path)
        self.assertEqual(self.opened(), (COMMANDS, self.files.shown[0]))

    def test_a_table_of_the_user_s(self):
        """A file of this name alone is no file of an earlier version."""
        for name in ("journal.txt", "blocks.blk", "heights.txt"):
            os.remove(self.path(name))
        table = self.read(self.path("table.txt"))
        self.assertEqual(self.opened(table=table)[0], 0)
        self.assertEqual(self.read(self.path("table.txt")), table)


class CrashTest(OldFilesCase):
    """Whatever stands after a crash, the next server has all commands, and the files aren't lost."""

    def test_at_each_change(self):
        """Before each call that renames, makes or syncs in turn."""
        self.begin(5)
        shutil.copytree(self.folder, self.folder + ".first")
        expected = self.opened()
        calls = []
        for number in range(100):
            shutil.rmtree(self.folder)
            shutil.copytree(self.folder + ".first", self.folder)
            calls.append(self.crashed(number))
            if calls[-1] is None:
                break
            self.assertEqual(self.opened(), expected, calls[-1])
            self.expect_moved()
            self.assertEqual(len(self.logged()), 5)
        # The log; the node's name, and its folder; four files, and where they are; its name, and its folder.
        self.assertEqual(len(calls) - 1, 10)

    def crashed(self, number):
        """Opens the folder until so many calls were made: the one that wasn't, or None where there were fewer."""
        left, names = [number], []

        def before(name, call):
            def called(*words, **more):
                if not left[0]:
                    names.append((name, words))
                    raise Crash
                left[0] -= 1
                return call(*words, **more)

            return called

        patches = [
            unittest.mock.patch.object(module, name, before(name, getattr(module, name)))
            for module, name in ((os, "rename"), (datadir, "_sync"))
        ]
        with contextlib.ExitStack() as stack:
            for patch in patches:
                stack.enter_context(patch)
            try:
                self.opened()
            except Crash:
                return names[0]
        return None

    def test_while_commands_are_taken(self):
        """The server is killed when the new log has some of the commands, twice; then it is left alone."""
        begun = os.path.join(self.folder, "node.begun", "history.log")
        for count in (5, 60):
            process = self.begun(count)
            self.wait_until(lambda: os.path.exists(begun) and self.read(begun).count(b"\n") == count)
            process.kill()
            process.communicate(timeout=10)
            self.assertFalse(os.path.exists(self.node))
        self.assertEqual(self.opened(), (COMMANDS, self.files.shown[0]))
        self.expect_moved()

    def test_what_is_no_regular_file(self):
        """A pipe nobody writes to is refused, whichever file's place it has."""
        for name in FILES:
            with self.subTest(name):
                os.rename(self.path(name), self.path("kept"))
                os.mkfifo(self.path(name))
                with self.assertRaisesRegex(OSError, "not a regular file"):
                    self.opened()
                os.rename(self.path("kept"), self.path(name))
        self.assertEqual(self.opened(), (COMMANDS, self.files.shown[0]))

    def begun(self, count):
        """A server that waits when it has taken so many blocks again."""
        environment = {**os.environ, "WAKOTEHU_PROGRAM": PROGRAM}
        process = subprocess.Popen(
            [sys.executable, "-c", WAITING, f"{count}", "-rpcport=0", f"-datadir={self.folder}"], stdout=subprocess.PIPE,
            stderr=subprocess.PIPE, env=environment,
        )  # fmt: skip
        self.addCleanup(process.kill)
        return process

    def wait_until(self, is_so):
        until = time.monotonic() + 30
        while not is_so():
            self.assertLess(time.monotonic(), until)
            time.sleep(0.001)


if __name__ == "__main__":
    unittest.main()
