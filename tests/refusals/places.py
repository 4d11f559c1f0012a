"""Which places of a program ask for memory, and at which of them it was refused.

A place is a call in a function of this repository that leads to the allocator, there or through the kit's own libraries; it is
told by its function and how many bytes from its beginning. Call stacks are read by `stacks.h` without frame pointers, by a
table that is made here from the program's instructions: how far the stack pointer is below the return address at each call.
"""

import os
import re
import struct
import subprocess
import tempfile
import threading
from bisect import bisect_right
from collections import Counter
from typing import Callable, Collection, Dict, Iterable, Iterator, List, NamedTuple, Optional, Set, Tuple, TypeVar

ALLOCATOR = ("rattle_alloc", "rattle_realloc", "malloc@plt", "realloc@plt", "calloc@plt")
LINE = re.compile(r"^ +([0-9a-f]+):\t(\S+) *([^#]*?) *(?:#.*)?$")
LABEL = re.compile(r"^([0-9a-f]+) <(.*)>:$")
TARGET = re.compile(r"^([0-9a-f]+) <")
ADDED = re.compile(r"^\$(0x[0-9a-f]+),%rsp$")
LEA = re.compile(r"^(-?0x[0-9a-f]+)\(%rsp\),(%rsp|%r11)$")


Result = TypeVar("Result")


class Call(NamedTuple):
    """A call: the function that makes it, the address that it calls (None where a register has it), and how far above the
    stack pointer the return address of that function is behind it."""

    function: str
    callee: Optional[int]
    distance: int


class Instruction(NamedTuple):
    address: int
    word: str
    rest: str

    @property
    def taken(self) -> int:
        """How much it takes from the stack pointer."""
        if self.word in ("push", "pop"):
            return 8 if self.word == "push" else -8
        added, lea = ADDED.match(self.rest), LEA.match(self.rest)
        if added and self.word in ("sub", "add"):
            count = int(added.group(1), 16)
            count -= count >> 63 << 64
            return count if self.word == "sub" else -count
        return -int(lea.group(1), 16) if lea and self.word == "lea" and lea.group(2) == "%rsp" else 0


def depth_within(function: List[Instruction]) -> int:
    """How far the stack pointer is below the return address between prologue and epilogue: as much as is given back before a
    return. Where nothing returns, as much as is taken at the beginning."""
    found = []
    for end, it in enumerate(function):
        if it.word == "ret":
            given, at = 0, end - 1
            while at >= 0 and (function[at].taken < 0 or function[at].word[:3] == "mov"):
                given -= function[at].taken
                at -= 1
            found.append(given)
    if found:
        return max(found)
    taken = 0
    for it in function:
        taken += max(it.taken, 0)
        if not it.taken and it.word[:3] != "mov":
            break
    return taken


def depths(function: List[Instruction]) -> Iterator[int]:
    """Before each instruction how far the stack pointer is below the return address, in the order in which they stand."""
    within, depth, probed, is_after_end = depth_within(function), 0, 0, False
    at: Dict[int, int] = {}  # at the targets of jumps
    for it in function:
        depth = at.get(it.address, within if is_after_end else depth)
        yield depth
        is_after_end = it.word in ("ret", "jmp", "ud2", "int3")
        depth += it.taken
        lea = LEA.match(it.rest)
        if lea and it.word == "lea" and lea.group(2) == "%r11":
            probed = depth - int(lea.group(1), 16)
        elif it.word == "cmp" and set(it.rest.split(",")) == {"%r11", "%rsp"}:
            depth = probed  # the end of a loop that touches each page of a large frame
        target = TARGET.match(it.rest) if it.word[0] == "j" else None
        if target:
            at.setdefault(int(target.group(1), 16), depth)


class Program:
    """The calls of a program, by the address behind each."""

    def __init__(self, path: str, crates: Set[str]) -> None:
        self.path, self.crates = path, crates
        self.calls: Dict[int, Call] = {}
        self.starts: List[int] = []
        self.names: List[str] = []
        self.called: Set[str] = set()
        #: Of each function those to which it jumps at its end, in the place of a call.
        self.ends_in: Dict[str, Set[str]] = {}
        self._read()

    def _read(self) -> None:
        words = ["objdump", "-d", "--no-show-raw-insn", self.path]
        text = subprocess.run(words, capture_output=True, text=True, check=True).stdout
        functions: List[List[Instruction]] = []
        for line in text.splitlines():
            found, label = LINE.match(line), LABEL.match(line)
            if found:
                functions[-1].append(Instruction(int(found.group(1), 16), found.group(2), found.group(3)))
            elif label:
                functions.append([])
                self.starts.append(int(label.group(1), 16))
                self.names.append(label.group(2))
        for name, function in zip(self.names, functions):
            for it, after, depth in zip(function, function[1:], depths(function)):
                if it.word == "call":
                    target = TARGET.match(it.rest)
                    self.calls[after.address] = Call(name, int(target.group(1), 16) if target else None, depth)
        starts = dict(zip(self.starts, self.names))
        for name, function in zip(self.names, functions):
            targets = (int(it.rest.split()[0], 16) for it in function if it.word == "jmp" and TARGET.match(it.rest))
            self.ends_in[name] = {starts[it] for it in targets if it in starts} - {name}
        #: The functions that a call names.
        self.called = {self.function_at(call.callee) for call in self.calls.values() if call.callee is not None}

    def write_table(self, path: str) -> None:
        with open(path, "wb") as file:
            for address, call in sorted(self.calls.items()):
                file.write(struct.pack("<II", address, call.distance))

    def function_at(self, address: int) -> str:
        return self.names[bisect_right(self.starts, address) - 1]

    def is_ours(self, function: str) -> bool:
        """Whether a function is of a crate of this repository, or of the C file over them."""
        return function.startswith("wakotehu_") or re.split(r"::|\+", function.lstrip("<"))[0] in self.crates

    def place_of(self, stack: Tuple[int, ...]) -> Optional[int]:
        """The innermost call of a stack in a function of this repository."""
        return next((it for it in stack if it and self.is_ours(self.calls[it].function)), None)

    def is_consistent(self, stack: Tuple[int, ...]) -> bool:
        """Whether each call of a stack leads to the function that makes the one before, up to a function that no call names."""
        for inner, outer in zip(stack, stack[1:]):
            callee = self.calls[outer].callee
            if inner and callee is not None and self.calls[inner].function not in self._ends(self.function_at(callee)):
                return False
        return len(stack) > 0 and self.calls[stack[-1]].function not in self.called

    def _ends(self, function: str) -> Set[str]:
        """The function, and those in which it ends."""
        found, todo = {function}, [function]
        while todo:
            more = self.ends_in.get(todo.pop(), set()) - found
            found |= more
            todo += more
        return found

    def told(self, place: int) -> str:
        function = self.calls[place].function
        return f"{function}+{place - self.starts[self.names.index(function)]:#x}"

    def all_places(self) -> Set[int]:
        """The calls in functions of this repository that call the allocator, or a library's function that leads to it. (What is
        called by a register isn't known.)"""
        starts = dict(zip(self.starts, self.names))
        calls: Dict[str, Set[str]] = {}
        edges = [(call.function, starts[call.callee]) for call in self.calls.values() if call.callee in starts]
        for function, callee in edges + [(name, end) for name, ends in self.ends_in.items() for end in ends]:
            if not self.is_ours(function):
                calls.setdefault(callee, set()).add(function)
        leading, todo = set(ALLOCATOR), list(ALLOCATOR)
        while todo:
            more = calls.get(todo.pop(), set()) - leading
            leading |= more
            todo += more
        return {at for at, call in self.calls.items() if self.is_ours(call.function) and starts.get(call.callee or -1) in leading}


class Stack(NamedTuple):
    """A line of `stacks.h`."""

    kind: str
    hash: int
    number: int
    frames: Tuple[int, ...]


def stacks_in(path: str) -> Iterator[Stack]:
    """What `stacks.h` wrote to a file."""
    if os.path.exists(path):
        with open(path, encoding="ascii") as file:
            for line in file:
                kind, hash, number, *frames = line.split()
                yield Stack(kind, int(hash), int(number), tuple(int(it, 16) for it in frames))


class Shim(NamedTuple):
    """The library that refuses allocations of a program, and the files by which it tells their stacks."""

    path: str
    table: str
    file: str

    def env(self, **more: object) -> Dict[str, str]:
        """The environment of a run."""
        given = {"LD_PRELOAD": self.path, "STACKS_TABLE": self.table, "STACKS_FILE": self.file}
        return {**given, **{name: str(value) for name, value in more.items()}}

    def telling(self, file: str) -> "Shim":
        """The same, which tells stacks in another file."""
        return self._replace(file=file)


def are_too_many(odd: Collection[Stack], every: Collection[Stack]) -> bool:
    """Whether more than one call stack in fifty can't be read: those of functions with a stack of another kind."""
    return 50 * len(odd) > len(every)


TRIES = 20


def until_refused(run: Callable[[], int]) -> None:
    """Makes runs until one refuses an allocation. A call stack that hangs on how threads meet doesn't come in each run; a
    place that is never refused is reported at the end."""
    for _ in range(TRIES):
        if run():
            break


class Places:
    """What was met, and what was refused, of a program."""

    def __init__(self, program: Program, shim: str, room: str) -> None:
        name = os.path.basename(program.path)
        self.program, self.room, self.lock = program, room, threading.Lock()
        self.shim = Shim(shim, f"{room}/{name}.table", f"{room}/{name}.refused")
        program.write_table(self.shim.table)
        self.met: Dict[int, Stack] = {}

    def meet(self, run: Callable[[Shim], Result]) -> Tuple[Result, List[Stack]]:
        """Makes a run with nothing refused, in which each stack is told: what it comes to, and the stacks."""
        handle, file = tempfile.mkstemp(dir=self.room)
        os.close(handle)
        result = run(self.shim.telling(file))
        stacks = list(stacks_in(file))
        os.remove(file)
        with self.lock:
            for stack in stacks:
                self.met.setdefault(stack.hash, stack)
        return result, stacks

    def refused(self) -> Dict[int, Stack]:
        """The stacks that were refused by now."""
        return {stack.hash: stack for stack in stacks_in(self.shim.file)}

    def _places(self, stacks: Iterable[Stack]) -> Set[int]:
        found = (self.program.place_of(it.frames) for it in stacks)
        return {it for it in found if it is not None}

    def tell(self, is_each_told: bool) -> List[str]:
        """Prints how many places there are, were met and were refused, and which were never met; what is wrong with them."""
        program, refused = self.program, self.refused()
        every = {**self.met, **refused}
        met, told = self._places(every.values()), self._places(refused.values())
        never = Counter(program.calls[it].function for it in program.all_places() - met)
        print(f"{os.path.basename(program.path)}: {len(met)} places that ask for memory were met, {len(told)} of them refused, by")
        print(f"  {len(every)} and {len(refused)} call stacks; {sum(never.values())} places, of {len(never)} functions, were never met")
        for function, count in sorted(never.items()) if is_each_told else ():
            print(f"    {count} in {function}")
        odd = [it for it in every.values() if not program.is_consistent(it.frames)]
        if odd:
            print(f"  {len(odd)} call stacks can't be read to their end")
        if are_too_many(odd, every.values()):
            print("  so places aren't judged here")
            return []
        faults: List[str] = []
        if not met:
            print("  no place was found, so places aren't judged here")
            return []
        # One that is planted: as if nothing had been refused at the last place.
        last = max(met)
        kept = [it for it in refused.values() if program.place_of(it.frames) != last]
        if last not in self._left(every.values(), kept):
            faults.append(f"a place that is planted as never refused isn't found: {program.told(last)}")
        left = sorted(self._left(every.values(), refused.values()))
        return faults + [f"{program.told(it)} asks for memory, and it was never refused there" for it in left]

    def _left(self, every: Iterable[Stack], refused: Iterable[Stack]) -> Set[int]:
        """The places that were met and never refused."""
        return self._places(every) - self._places(refused)
