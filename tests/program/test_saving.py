"""What a folder of `--save` holds, whatever happens to a run: what it held before, or what the run saves, whole."""
from __future__ import annotations

import fcntl
import os
import random
import signal
import subprocess
import threading
import time
from subprocess import DEVNULL, PIPE

import running
from running import Played, ProgramTest, SECONDS

FILES = ["journal.txt", "blocks.blk", "table.txt", "heights.txt"]

# Heights and the text of a run: of one that saved before, and of one that saves then. All four files differ.
OLD = ("1,1,1,1", "block b1 genesis\nverdict aa 3006 genesis.cb 0 51 1\nclient a\nsubmit b1\n")
NEW = ("1,9,5,1", "chain c 3 genesis\nverdict bb 3006 genesis.cb 0 51 1\nclient a\neach c 1 3\ninvalidate c2\n")

# One that takes a while to save, and says when it begins: its answers are out then.
LONG = ("1,1,1,1", "chain c 1000 genesis\nclient a\n" + "each c 1 1000\n" * 8)


class Saving(ProgramTest):
    def setUp(self) -> None:
        super().setUp()
        self.make_folder("old")
        self.make_folder("new")
        self.make_folder("saved")
        self.save(OLD, "old")
        self.save(NEW, "new")
        self.save(OLD, "saved")

    def words(self, case: tuple[str, str], folder: str) -> list[str]:
        return ["run", "--scenario", "-", "--heights", case[0], "--save", folder]

    def save(self, case: tuple[str, str], folder: str) -> None:
        played = self.play(self.words(case, folder), case[1])
        self.assertEqual((played.err, played.status), ("", 0))

    def held(self, folder: str) -> dict[str, bytes]:
        """All that stands there, under its names."""
        return {name: self.read_bytes(f"{folder}/{name}") for name in os.listdir(self.path(folder))}

    def expect_held(self, folder: str, wanted: str) -> None:
        """That a folder holds the files of another, and nothing else, and that its audit agrees."""
        self.assertEqual(self.held(folder), self.held(wanted))
        self.expect(["audit", "--saved", folder], "", Played(0, "agrees\n", ""))

    def expect_refused(self, fault: str, why: str) -> None:
        """That a run can't save, says why, and leaves the folder as it was."""
        before = sorted(os.listdir(self.path("saved")))
        played = self.play(self.words(NEW, "saved"), NEW[1])
        self.assertEqual((played.err, played.status), (f"regchain: {fault}\n{fault}: {why}\n", 1))
        self.assertEqual(sorted(os.listdir(self.path("saved"))), before)

    def move(self, name: str, folder: str, to: str) -> None:
        os.replace(self.path(f"{folder}/{name}"), self.path(to))

    def test_a_run_over_another(self) -> None:
        self.save(NEW, "saved")
        self.expect_held("saved", "new")

    def test_an_empty_name(self) -> None:
        """It is no folder, and not the one at the root."""
        for words, fault in [
            (["run", "--scenario", "-", "--save", ""], "cannot write /journal.txt"),
            (["audit", "--saved", ""], "cannot read /journal.txt"),
            (["tree", "--saved", ""], "cannot read /journal.txt"),
        ]:
            self.expect_fault(words, "client a\n", f"regchain: {fault}\n{fault}: No such file or directory\n")

    def test_a_symlink_under_a_new_name(self) -> None:
        """It is taken away, and what it names stays."""
        self.write("mine", "precious")
        for name in FILES:
            for target in ["../mine", "nothing"]:
                os.symlink(target, self.path(f"saved/{name}.new"))
                self.save(NEW, "saved")
                self.expect_held("saved", "new")
        self.assertEqual(self.read("mine"), "precious")

    def test_a_symlink_in_the_place(self) -> None:
        """The file takes its place, and what it names stays."""
        self.write("mine", "precious")
        for name in FILES:
            os.remove(self.path(f"saved/{name}"))
            os.symlink("../mine", self.path(f"saved/{name}"))
        self.save(NEW, "saved")
        self.expect_held("saved", "new")
        self.assertFalse(os.path.islink(self.path("saved/journal.txt")))
        self.assertEqual(self.read("mine"), "precious")

    def test_a_folder_in_the_place(self) -> None:
        for name in FILES:
            with self.subTest(name=name):
                self.move(name, "saved", "aside")
                self.make_folder(f"saved/{name}")
                self.expect_refused(f"cannot write saved/{name}", "Is a directory")
                os.rmdir(self.path(f"saved/{name}"))
                os.rename(self.path("aside"), self.path(f"saved/{name}"))
                self.expect_held("saved", "old")

    def test_a_folder_under_a_new_name(self) -> None:
        for name in FILES:
            with self.subTest(name=name):
                self.make_folder(f"saved/{name}.new")
                self.expect_refused(f"cannot write saved/{name}", "Is a directory")
                self.expect(["audit", "--saved", "saved"], "", Played(0, "agrees\n", ""))
                os.rmdir(self.path(f"saved/{name}.new"))
        self.expect_held("saved", "old")

    def test_what_a_run_left_that_was_killed_before_it_saved(self) -> None:
        """As long as journal.txt.new is there the old files count, and the next run takes the others away."""
        for count in range(1, 5):
            with self.subTest(count=count):
                for name in FILES[:count]:
                    self.write_bytes(f"saved/{name}.new", self.read_bytes(f"new/{name}")[:-1])
                self.expect(["audit", "--saved", "saved"], "", Played(0, "agrees\n", ""))
                self.save(OLD, "saved")
                self.expect_held("saved", "old")

    def test_what_a_run_left_that_was_killed_when_it_had_saved(self) -> None:
        """Once journal.txt is renamed the new files count, renamed or not."""
        for count in range(1, 5):
            with self.subTest(count=count):
                for name in FILES[:count]:
                    self.write_bytes(f"saved/{name}", self.read_bytes(f"new/{name}"))
                for name in FILES[count:]:
                    self.write_bytes(f"saved/{name}.new", self.read_bytes(f"new/{name}"))
                self.expect(["audit", "--saved", "saved"], "", Played(0, "agrees\n", ""))
                # A run that can't save puts them in place all the same.
                self.make_folder("saved/journal.txt.new.aside")
                os.rename(self.path("saved/journal.txt"), self.path("saved/journal.txt.new.aside/file"))
                self.make_folder("saved/journal.txt")
                played = self.play(self.words(OLD, "saved"), OLD[1])
                self.assertEqual(played.status, 1)
                os.rmdir(self.path("saved/journal.txt"))
                os.rename(self.path("saved/journal.txt.new.aside/file"), self.path("saved/journal.txt"))
                os.rmdir(self.path("saved/journal.txt.new.aside"))
                self.expect_held("saved", "new")
                self.save(OLD, "saved")
                self.expect_held("saved", "old")

    def lock(self, how: int) -> int:
        """Locks the folder as a run does that saves, or an audit that reads."""
        folder = os.open(self.path("saved"), os.O_RDONLY)
        self.addCleanup(os.close, folder)
        fcntl.flock(folder, how)
        return folder

    def test_a_second_run_while_the_first_saves(self) -> None:
        folder = self.lock(fcntl.LOCK_EX)
        self.expect_refused("cannot write saved/journal.txt", "another run saves into the folder")
        fcntl.flock(folder, fcntl.LOCK_UN)
        self.expect_held("saved", "old")

    def run_while(self, folder: int, words: list[str], text: str) -> Played:
        """Runs the program, and lets the folder go when it has waited for a while."""
        let_go = threading.Timer(0.5, fcntl.flock, [folder, fcntl.LOCK_UN])
        let_go.start()
        begun = time.monotonic()
        played = self.play(words, text)
        self.assertGreater(time.monotonic() - begun, 0.4)
        let_go.join()
        return played

    def test_an_audit_while_a_run_saves(self) -> None:
        """It waits."""
        played = self.run_while(self.lock(fcntl.LOCK_EX), ["audit", "--saved", "saved"], "")
        self.assertEqual(played, Played(0, "agrees\n", ""))

    def test_a_run_while_an_audit_reads(self) -> None:
        """It waits, and saves."""
        played = self.run_while(self.lock(fcntl.LOCK_SH), self.words(NEW, "saved"), NEW[1])
        self.assertEqual((played.err, played.status), ("", 0))
        self.expect_held("saved", "new")

    def test_two_runs_at_once(self) -> None:
        """One of them saves, or both after one another; the other is refused. What is there is one run's."""
        self.make_folder("third")
        self.save(LONG, "third")
        for _ in range(5):
            runs = []
            for case in [LONG, NEW, LONG, OLD]:
                words = [running.PROGRAM, *self.words(case, "saved")]
                run = subprocess.Popen(words, cwd=self.folder, stdin=PIPE, stdout=DEVNULL, stderr=PIPE)
                assert run.stdin
                run.stdin.write(case[1].encode())
                run.stdin.close()
                runs.append(run)
            ended = []
            for run in runs:
                assert run.stderr
                ended.append((run.wait(SECONDS), run.stderr.read()))
                run.stderr.close()
            fault = "cannot write saved/journal.txt"
            busy = f"regchain: {fault}\n{fault}: another run saves into the folder\n".encode()
            self.assertLessEqual(set(ended), {(0, b""), (1, busy)})
            self.assertIn((0, b""), ended)
            self.assertIn(self.held("saved"), [self.held(name) for name in ["old", "new", "third"]])
            self.expect(["audit", "--quick", "--saved", "saved"], "", Played(0, "agrees\n", ""))

    def test_a_run_that_is_killed_at_random(self) -> None:
        """A run that saves is killed some time after its last answer. tests/refusals/saves.py ends one at each of its calls."""
        self.make_folder("third")
        begun = time.monotonic()
        self.save(LONG, "third")
        whole = time.monotonic() - begun
        drawn = random.Random(45)
        found = []
        for _ in range(40):
            words = [running.PROGRAM, *self.words(LONG, "saved")]
            run = subprocess.Popen(words, cwd=self.folder, stdin=PIPE, stdout=DEVNULL, stderr=DEVNULL)
            assert run.stdin
            run.stdin.write(LONG[1].encode())
            run.stdin.close()
            time.sleep(whole * drawn.uniform(0.4, 1.1))
            run.send_signal(signal.SIGKILL)
            run.wait(SECONDS)
            played = self.play(["audit", "--quick", "--saved", "saved"])
            self.assertEqual(played, Played(0, "agrees\n", ""))
            self.save(OLD, "saved")
            self.expect_held("saved", "old")
            found.append(run.returncode)
        self.assertIn(-signal.SIGKILL, found)
