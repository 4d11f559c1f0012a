"""Logs with lost bytes before their end: refused with nothing changed, or cut where that is asked for, and kept beside."""
from __future__ import annotations

import os
import subprocess

import running
from keeping import GENESIS, LOG, KeepingTest
from running import Played
from test_torn_ends import COMMANDS, batch

MARKS: list[tuple[str, dict[str, object]]] = [
    ("invalidate", {"id": GENESIS}), ("precious", {"id": "ab" * 32}), ("reconsider", {"id": GENESIS}), ("invalidate", {"id": "cd" * 32}),
]  # fmt: skip


class SpoiledTest(KeepingTest):
    def files(self) -> dict[str, bytes]:
        """All files of the folder."""
        return {name: self.read_bytes(f"data/{name}") for name in sorted(os.listdir(self.path("data")))}

    def put(self, files: dict[str, bytes]) -> None:
        for name in os.listdir(self.path("data")):
            os.remove(self.path(f"data/{name}"))
        for name, data in files.items():
            self.write_bytes(f"data/{name}", data)

    def make(self, commands: list[tuple[str, dict[str, object]]]) -> dict[str, bytes]:
        ended = self.serve(batch(commands))
        self.assertEqual(ended.returncode, 0, ended.stderr)
        return self.files()

    def expect_refused(self, place: int) -> None:
        """The node, an audit and an export tell the place, and nothing is changed."""
        before = self.files()
        told = f"regchain: spoiled data/history.log\nspoiled data/history.log: whole lines follow a zero byte at {place}\n"
        ended = self.serve(batch(COMMANDS))
        self.assertEqual((ended.returncode, ended.stdout, ended.stderr.decode()), (1, b"", told))
        self.assertEqual(self.files(), before, place)


class EachByte(SpoiledTest):
    def test_zeroed(self) -> None:
        """A zero in the last line is what a crash may leave: that line is cut, and kept beside. Before it, it is refused."""
        files = self.make(MARKS)
        log = files["history.log"]
        last = log.rindex(b"\n", 0, -1) + 1
        for place in range(len(log)):
            data = log[:place] + b"\0" + log[place + 1 :]
            self.put({**files, "history.log": data})
            if place < last:
                self.expect_refused(place)
                continue
            ended = self.serve(b"")
            cut = len(data) - last
            told = f"regchain: history.log: {cut} bytes of an unfinished line were cut off: no whole line, kept in data/torn-1\n"
            self.assertEqual((ended.returncode, ended.stderr.decode()), (0, told), place)
            self.assertEqual(self.files(), {**files, "history.log": log[:last], "torn-1": data[last:]})

    def test_a_zero_page(self) -> None:
        """One amid the log, and behind it whole lines: nobody says that these are an unfinished one."""
        files = self.make(MARKS * 60)
        log = files["history.log"]
        data = log[:8192] + bytes(4096) + log[12288:]
        self.assertGreater(len(log), 16384)
        self.put({**files, "history.log": data})
        self.expect_refused(8192)
        self.expect(["audit", "--datadir", "data"], "", self.refused(8192))
        self.expect(["audit", "--datadir", "data", "--quick"], "", self.refused(8192))
        self.make_folder("saved")
        self.expect(["export", "--datadir", "data", "--save", "saved"], "", self.refused(8192))
        self.assertEqual(os.listdir(self.path("saved")), [])

    def refused(self, place: int) -> Played:
        return Played(1, "", f"regchain: spoiled data/history.log\nspoiled data/history.log: whole lines follow a zero byte at {place}\n")

    def test_cut(self) -> None:
        """With --cut the lines before it count, and those behind it are kept beside."""
        files = self.make(MARKS)
        log = files["history.log"]
        first = log.index(b"\n") + 1
        data = log[: first + 5] + b"\0" + log[first + 6 :]
        self.put({**files, "history.log": data})
        ended = self.serve(b"", "--cut")
        cut = len(data) - first
        told = f"regchain: history.log: {cut} bytes behind a zero byte were cut off: 2 whole lines, kept in data/torn-1\n"
        self.assertEqual((ended.returncode, ended.stderr.decode()), (0, told))
        self.assertEqual(self.files(), {**files, "history.log": log[:first], "torn-1": data[first:]})
        self.assertEqual(len(self.history()), 1)


class Order(SpoiledTest):
    def test_nothing_is_cut_before_all_is_played(self) -> None:
        """A line that can't be read, or whose reply differs, and behind it a torn end: all stays as it is."""
        files = self.make(MARKS)
        log = files["history.log"]
        for wrong in (log.replace(b"\n3 ", b"\n4 "), log.replace(b"= genesis", b"= done", 1), log.replace(b"seat0", b"seat9x", 1)):
            for end in (b"5 seat0 inval", b"\0" * 40, b"5 se\0t0 precious\n"):
                self.put({**files, "history.log": wrong + end})
                before = self.files()
                ended = self.serve(batch(COMMANDS))
                self.assertEqual((ended.returncode, ended.stdout), (1, b""))
                self.assertRegex(ended.stderr.decode(), r"\Aregchain: journal line [1-4]\n")
                self.assertEqual(self.files(), before)

    def test_what_is_cut_is_kept(self) -> None:
        """Each torn end has a file of its own."""
        files = self.make(MARKS)
        log = files["history.log"]
        for number, end in enumerate((b"5 seat0", b"\0\0", b"x"), 1):
            self.write_bytes(LOG, log + end)
            ended = self.serve(b"")
            told = f"regchain: history.log: {len(end)} bytes of an unfinished line were cut off: no whole line, kept in data/torn-{number}\n"
            self.assertEqual((ended.returncode, ended.stderr.decode()), (0, told))
            self.assertEqual((self.read_bytes(f"data/torn-{number}"), self.read_bytes(LOG)), (end, log))

    def test_it_is_kept_before_the_cut(self) -> None:
        """Where it can't be kept, nothing is cut."""
        files = self.make(MARKS)
        self.put({**files, "history.log": files["history.log"] + b"5 seat0"})
        os.chmod(self.path("data"), 0o555)
        os.chmod(self.folder, 0o755)
        self.addCleanup(os.chmod, self.path("data"), 0o755)
        words = [running.PROGRAM, "serve", "--datadir", "data"]
        if os.geteuid() == 0:
            for name in os.listdir(self.path("data")):
                os.chown(self.path(f"data/{name}"), 65534, 65534)
            words = ["setpriv", "--reuid=65534", "--regid=65534", "--clear-groups", *words]
        before = self.files()
        ended = subprocess.run(words, cwd=self.folder, input=b"", capture_output=True)
        told = "regchain: cannot write data/torn-1\ncannot write data/torn-1: Permission denied\n"
        self.assertEqual((ended.returncode, ended.stderr.decode()), (1, told))
        self.assertEqual(self.files(), before)
