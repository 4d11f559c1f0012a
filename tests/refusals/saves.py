"""A run that saves over what an earlier one saved, ended or failing at each call that changes files: the folder then
holds what it held before or what the run saves, whole, by the audit and by its bytes; and the next run saves there."""
import os, shutil, signal, subprocess
from concurrent.futures import Executor
from typing import Any, List, Tuple

FILES = ["journal.txt", "blocks.blk", "table.txt", "heights.txt"]
SECONDS = 20

# What was saved before, what is saved, and what is saved then. Of each two all four files differ.
OLD = ("1,1,1,1", b"block b1 genesis\nverdict aa 3006 genesis.cb 0 51 1\nclient a\nsubmit b1\n")
NEW = ("1,9,5,1", b"chain c 3 genesis\nverdict bb 3006 genesis.cb 0 51 1\nclient a\neach c 1 3\ninvalidate c2\n")
NEXT = ("2,2,2,2", b"block d1 genesis\nverdict cc 3006 genesis.cb 0 51 1\nclient a\nsubmit d1\nprecious d1\n")


class Saves:
    def __init__(self, program: str, shim: str, room: str, faults: Any) -> None:
        self.program, self.shim, self.room, self.faults = program, shim, room, faults
        self.sets: List[List[bytes]] = []
        for number, case in enumerate((OLD, NEW, NEXT)):
            folder = f"{room}/set{number}"
            os.mkdir(folder)
            if self.save(case, folder).returncode:
                faults.add("a run that saves: fails with nothing wrong")
            self.sets.append(self.bytes_of(folder))

    def save(self, case: Tuple[str, bytes], folder: str, **env: str) -> "subprocess.CompletedProcess[bytes]":
        heights, text = case
        words = [self.program, "run", "--scenario", "-", "--heights", heights, "--save", folder]
        env = {"LD_PRELOAD": self.shim, **env} if env else {}
        return subprocess.run(words, input=text, env=env, capture_output=True, timeout=SECONDS)

    def bytes_of(self, folder: str) -> List[bytes]:
        """The files that count: where journal.txt.new stands those under their names; else each under `.new`, if it is
        there."""
        found = []
        is_decided = not os.path.lexists(f"{folder}/journal.txt.new")
        for name in FILES:
            path = f"{folder}/{name}"
            path = f"{path}.new" if is_decided and os.path.exists(f"{path}.new") else path
            with open(path, "rb") as file:
                found.append(file.read())
        return found

    def once(self, how: str, at: int, begun: int) -> Tuple[bool, bool]:
        """A run of which this call is its last, or fails; over a folder as another run left it whose call of the number
        `begun` was its last, if not 0. Whether it came so far."""
        folder = f"{self.room}/{how}{at}-{begun}"
        os.mkdir(folder)
        self.save(OLD, folder)
        if begun:
            self.save(NEW, folder, KILL_AT=str(begun))
        what = f"a run that saves, {how} {at}" + (f", after KILL_AT {begun}" if begun else "")
        ran = self.save(NEW, folder, **{how: str(at)})
        if how == "FAIL_AT" and ran.returncode not in (0, 1) or how == "KILL_AT" and ran.returncode not in (
            0,
            -signal.SIGKILL,
        ):
            self.faults.add(f"{what}: ends with {ran.returncode}, {ran.stderr!r}")
        held = self.bytes_of(folder)
        if held not in self.sets[:2] or (ran.returncode == 0 and held != self.sets[1]):
            self.faults.add(f"{what}: {sorted(os.listdir(folder))} are neither what was there nor what is saved")
        audited = subprocess.run([self.program, "audit", "--saved", folder], capture_output=True, timeout=SECONDS)
        if audited.stdout != b"agrees\n" or audited.returncode:
            self.faults.add(f"{what}: the audit says {audited.stdout + audited.stderr!r}")
        again = self.save(NEXT, folder)
        names = sorted(os.listdir(folder))
        if again.returncode or names != sorted(FILES) or self.bytes_of(folder) != self.sets[2]:
            self.faults.add(f"{what}: the next run ends with {again.returncode}, {again.stderr!r}, and leaves {names}")
        shutil.rmtree(folder)
        return ran.returncode == -signal.SIGKILL, held == self.sets[1]


def play(program: str, room: str, faults: Any, pool: Executor) -> None:
    """All of it; how many calls there are, and after how many of them what is saved counts."""
    shim, here = f"{room}/files.so", f"{room}/saves"
    os.mkdir(here)
    source = os.path.join(os.path.dirname(os.path.realpath(__file__)), "files.c")
    subprocess.run([os.environ.get("CC") or "cc", "-O2", "-shared", "-fPIC", source, "-o", shim], check=True)
    saves = Saves(program, shim, here, faults)
    numbers = []
    for at in range(1, 10_000):
        is_killed, _ = saves.once("KILL_AT", at, 0)
        if not is_killed:
            break
        numbers.append(at)
    each = [(how, at, 0) for how in ("FAIL_AT",) for at in numbers]
    each += [(how, at, begun) for how in ("KILL_AT", "FAIL_AT") for begun in numbers for at in numbers]
    ended = list(pool.map(lambda it: saves.once(*it), each))
    if not numbers or not any(new for _, new in ended) or all(new for _, new in ended):
        faults.add("a run that saves: no call of it is met")
    print(f"a run that saves, of {len(numbers)} calls that change files: ended at each, failing at each, and both again")
    print(f"over what a run left that was ended at each: {len(each) + len(numbers)} runs", flush=True)
