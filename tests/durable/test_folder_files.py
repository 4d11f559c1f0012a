"""The files of a node's folder: one that is missing, removed while a node runs, or no regular file."""
from __future__ import annotations

import fcntl
import os
import subprocess

import running
from keeping import GENESIS
from serving import Served
from test_spoiled_logs import MARKS, SpoiledTest
from test_torn_ends import COMMANDS

FILES = ("history.log", "heights.txt", "table.txt", "lock")


class Missing(SpoiledTest):
    def test_no_log(self) -> None:
        """A folder that had a log is refused without it, and keeps its heights."""
        files = self.make(MARKS)
        left = {name: data for name, data in files.items() if name != "history.log"}
        told = "regchain: cannot read data/history.log\ncannot read data/history.log: it is missing beside heights.txt or table.txt\n"
        for lost in ((), ("table.txt",), ("heights.txt",)):
            self.put({name: data for name, data in left.items() if name not in lost})
            before = self.files()
            ended = self.serve(b"", "--heights", "9,9,9,9")
            self.assertEqual((ended.returncode, ended.stderr.decode()), (1, told))
            self.assertEqual(self.files(), before)

    def test_no_setting(self) -> None:
        files = self.make(MARKS)
        self.put({name: data for name, data in files.items() if name != "heights.txt"})
        before = self.files()
        ended = self.serve(b"")
        self.assertEqual((ended.returncode, ended.stderr.splitlines()[0]), (1, b"regchain: cannot read data/heights.txt"))
        self.assertEqual(self.files(), before)

    def test_a_start_that_was_cut_off(self) -> None:
        """A node that was killed as it made its folder leaves one that opens: under the setting of the start that made the
        log, and else of the next one."""
        files = self.make([])
        table, heights = files["table.txt"], files["heights.txt"]
        other = b"1,2,3,4\n"
        starts: list[tuple[dict[str, bytes], bytes]] = [
            ({}, other), ({"lock": b""}, other), ({"table.txt.new": b"x"}, other), ({"table.txt.new": table, "heights.txt.new": b"1,"}, other),
            ({"table.txt.new": table, "heights.txt.new": heights, "history.log": b""}, heights),
            ({"table.txt": table, "heights.txt.new": heights, "history.log": b""}, heights),
            ({"table.txt.new": table, "heights.txt": heights, "history.log": b""}, heights),
        ]  # fmt: skip
        for left, wanted in starts:
            self.put(left)
            words = ["--heights", "1,2,3,4"] if wanted == other else []
            ended = self.serve(b"", *words)
            self.assertEqual((ended.returncode, ended.stderr), (0, b""), left)
            self.assertEqual(self.files(), {"heights.txt": wanted, "history.log": b"", "lock": b"", "table.txt": table})

    def test_a_start_by_need_behind_another(self) -> None:
        """A table that an earlier start left isn't the node's."""
        self.make_folder("data")
        self.put({"table.txt.new": b"", "heights.txt.new": b"1,1,1,1\n"})
        ended = self.serve(b"", "--by-need")
        self.assertEqual((ended.returncode, ended.stderr), (0, b""))
        self.assertEqual(sorted(self.files()), ["heights.txt", "history.log", "lock"])


class Locks(SpoiledTest):
    def test_a_removed_lock(self) -> None:
        """Without its lock a folder still has one node."""
        first = Served(self.folder, "--datadir", "data")
        self.addCleanup(first.kill)
        self.assertEqual(first.ask("invalidate", seat=0, id=GENESIS)["at"], 1)
        os.remove(self.path("data/lock"))
        ended = self.serve(b"")
        self.assertEqual((ended.returncode, ended.stderr.splitlines()[1]), (1, b"cannot write data/lock: another process has the folder"))
        self.assertEqual(first.ask("invalidate", seat=0, id=GENESIS)["at"], 2)
        self.assertEqual(first.end(), (0, ""))
        self.assertEqual(len(self.history()), 2)

    def test_each_of_the_locks(self) -> None:
        """The file `lock`, which older programs take alone, keeps a node out, and so does the folder's own lock."""
        self.make(MARKS)
        for name in ("data/lock", "data"):
            held = os.open(self.path(name), os.O_RDONLY)
            fcntl.flock(held, fcntl.LOCK_EX)
            ended = self.serve(b"")
            os.close(held)
            self.assertEqual((ended.returncode, ended.stderr.splitlines()[1]), (1, b"cannot write data/lock: another process has the folder"))
        self.assertEqual(self.serve(b"").returncode, 0)

    def test_an_audit_isnt_kept_waiting(self) -> None:
        """Neither of the log, nor of saved files that aren't there."""
        served = Served(self.folder, "--datadir", "data")
        self.addCleanup(served.kill)
        served.ask("invalidate", seat=0, id=GENESIS)
        self.expect(["audit", "--datadir", "data"], "", running.Played(0, "agrees\n", ""))
        for words in (["audit", "--saved", "data"], ["serve", "--load", "data"]):
            played = self.play(words)
            self.assertEqual((played.status, played.err.splitlines()[0]), (1, "regchain: cannot read data/journal.txt"))
        self.assertEqual(served.end(), (0, ""))


class OtherCommands(SpoiledTest):
    def test_a_tree_of_a_log(self) -> None:
        """`tree --saved` reads a node's folder as it reads the export of one."""
        self.make(COMMANDS)
        self.expect(["export", "--datadir", "data", "--save", "exported"], "", running.Played(0, "", ""))
        wanted = self.play(["tree", "--saved", "exported"])
        self.assertEqual((wanted.status, len(wanted.out.splitlines())), (0, 2))
        self.expect(["tree", "--saved", "data"], "", wanted)
        self.make_folder("empty")
        played = self.play(["tree", "--saved", "empty"])
        self.assertEqual((played.status, played.err.splitlines()[0]), (1, "regchain: cannot read empty/journal.txt"))

    def test_an_export_makes_its_folder(self) -> None:
        self.make(MARKS)
        self.expect(["export", "--datadir", "data", "--save", "new"], "", running.Played(0, "", ""))
        self.expect(["audit", "--saved", "new"], "", running.Played(0, "agrees\n", ""))
        played = self.play(["export", "--datadir", "data", "--save", "not/there"])
        self.assertEqual((played.status, played.err.splitlines()[0]), (1, "regchain: cannot write not/there/journal.txt"))


class NoRegularFile(SpoiledTest):
    """A pipe nobody writes to, or a device that has no end, is refused where a file is wanted; nothing waits for it."""

    def spoil(self, name: str, how: str) -> str:
        """Puts something else in a file's place: why it is refused."""
        os.remove(self.path(name))
        if how == "fifo":
            os.mkfifo(self.path(name))
        elif how == "folder":
            os.mkdir(self.path(name))
        else:
            os.symlink(how, self.path(name))
        return "Is a directory" if how == "folder" else "not a regular file"

    def ran(self, *words: str) -> tuple[int, list[str]]:
        ended = subprocess.run([running.PROGRAM, *words], cwd=self.folder, input=b"", capture_output=True, timeout=20)
        return ended.returncode, ended.stderr.decode().splitlines()

    def test_in_a_nodes_folder(self) -> None:
        files = self.make(MARKS)
        for how in ("fifo", "/dev/full", "/dev/zero", "folder"):
            for name in FILES:
                self.put(files)
                why = self.spoil(f"data/{name}", how)
                verb = "write" if name == "lock" else "read"
                told = [f"regchain: cannot {verb} data/{name}", f"cannot {verb} data/{name}: {why}"]
                self.assertEqual(self.ran("serve", "--datadir", "data"), (1, told), how)
                if name != "lock":
                    self.assertEqual(self.ran("audit", "--datadir", "data"), (1, told), how)
                (os.rmdir if how == "folder" else os.remove)(self.path(f"data/{name}"))

    def test_a_link_to_a_file(self) -> None:
        """A link to a regular file is one."""
        files = self.make(MARKS)
        for name in FILES:
            self.put(files)
            os.rename(self.path(f"data/{name}"), self.path("elsewhere"))
            os.symlink("../elsewhere", self.path(f"data/{name}"))
            self.assertEqual(self.ran("serve", "--datadir", "data"), (0, []), name)
            os.remove(self.path(f"data/{name}"))

    def test_in_a_saved_folder(self) -> None:
        self.make_folder("saved")
        self.assertEqual(self.ran("serve", "--save", "saved"), (0, []))
        for how in ("fifo", "/dev/full", "folder"):
            for name in ("journal.txt", "blocks.blk", "table.txt", "heights.txt"):
                why = self.spoil(f"saved/{name}", how)
                told = [f"regchain: cannot read saved/{name}", f"cannot read saved/{name}: {why}"]
                for words in (["serve", "--load", "saved"], ["audit", "--saved", "saved"], ["tree", "--saved", "saved"]):
                    self.assertEqual(self.ran(*words), (1, told), (how, words))
                (os.rmdir if how == "folder" else os.remove)(self.path(f"saved/{name}"))
                self.assertEqual(self.ran("serve", "--save", "saved"), (0, []))
        os.remove(self.path("saved/lock"))
        os.mkfifo(self.path("saved/lock"))
        told = ["regchain: cannot write saved/lock", "cannot write saved/lock: not a regular file"]
        self.assertEqual(self.ran("serve", "--save", "saved"), (1, told))
