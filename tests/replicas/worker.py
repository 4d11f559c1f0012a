"""A replica in a process of its own with its clients, each of which runs a random list. What a client asks, and what it is
answered, is written into a file at once, a line each: so it is there however the process ends.

    worker.py OPTIONS    an object of JSON; the fields of `Options`
"""
from __future__ import annotations

import asyncio
import json
import mmap
import os
import random
import struct
import sys
import threading
import time
import uuid
from typing import Any, NamedTuple, Optional

HERE = os.path.dirname(os.path.realpath(__file__))
sys.dont_write_bytecode = True
sys.path[:0] = [os.path.join(HERE, "../../ffi/python"), os.path.join(HERE, "../../ffi/python/tests")]

from pool import JUNK, NOWS, Pool
from wakotehu import AsyncReplica, errors, show
from wakotehu.following import Follower
from wakotehu.replica import Replica


class Options(NamedTuple):
    """What a worker is started with."""

    url: str
    name: str
    seed: int
    #: The file for lines, and the one of the notes of all clients, each in its slot of 8 bytes.
    lines: str
    notes: str
    slot: int
    clients: int = 6
    #: How many commands each list has.
    commands: int = 33
    #: So many seconds a row takes here, and a client waits between its calls.
    slow: float = 0.0
    pause: float = 0.0
    timeout: float = 90.0
    #: Ends as soon as this file is there, in place of after so many commands.
    until: str = ""
    program: Optional[str] = None
    #: Whether the replica is one for asyncio.
    is_async: bool = False


class Notes:
    """The places that clients tell one another, through a file that all processes map."""

    def __init__(self, path: str) -> None:
        with open(path, "r+b") as file:
            self.map = mmap.mmap(file.fileno(), 0)

    def put(self, slot: int, place: int) -> None:
        struct.pack_into("<Q", self.map, 8 * slot, place)

    def any(self, draw: random.Random) -> int:
        return int(struct.unpack_from("<Q", self.map, 8 * draw.randrange(len(self.map) // 8))[0])


class Bridged:
    """An `AsyncReplica` in the event loop of another thread, or a seat of it, with the calls of a `Replica`'s."""

    def __init__(self, inner: Any, loop: asyncio.AbstractEventLoop) -> None:
        self._inner, self._loop = inner, loop

    def __getattr__(self, name: str) -> Any:
        def call(*words: Any, **more: Any) -> Any:
            return asyncio.run_coroutine_threadsafe(self._called(name, *words, **more), self._loop).result()

        return call

    async def _called(self, name: str, *words: Any, **more: Any) -> Any:
        answer = getattr(self._inner, name)(*words, **more)
        return Bridged(answer, self._loop) if name == "seat" else await answer

    def __enter__(self) -> "Bridged":
        threading.Thread(target=self._loop.run_forever, daemon=True).start()
        self.__aenter__()
        return self

    def __exit__(self, *why: object) -> None:
        self.close()
        self._loop.call_soon_threadsafe(self._loop.stop)


class Client:
    """One caller, on a seat of its own."""

    def __init__(self, given: Options, replica: Any, notes: Notes, pool: Pool, number: int) -> None:
        self.given, self.notes, self.pool, self.number = given, notes, pool, number
        self.seat = replica.seat(number)
        self.draw = random.Random(f"{given.seed} {given.name} {number}")
        # Unbuffered: a line is in the file when the call returns.
        self.file = open(f"{given.lines}.{number}", "ab", buffering=0)

    def say(self, **line: Any) -> None:
        self.file.write(json.dumps(line).encode() + b"\n")

    def run(self) -> None:
        done = 0
        while done < self.given.commands if not self.given.until else not os.path.exists(self.given.until):
            time.sleep(self.given.pause)
            kind = self.draw.randrange(16)
            if kind < 9:
                self.write()
                done += 1
            elif kind < 14:
                self.read()
            else:
                self.hear()
        self.file.close()

    def write(self) -> None:
        """Makes a command. Where it isn't in the table it is made again, as another one."""
        kind, pick = self.draw.randrange(20), self.draw.randrange(len(self.pool.blocks))
        name = "submit" if kind < 14 else self.draw.choice(["invalidate", "reconsider", "precious"])
        now = self.draw.choice(NOWS) if name == "submit" else None
        data = self.pool.blocks[pick] if name == "submit" else self.pool.ids[pick]
        if kind == 0:
            data = self.draw.choice(JUNK)
        until = time.monotonic() + 120
        while True:
            token = uuid.UUID(int=self.draw.getrandbits(128))
            self.say(asks=name, token=str(token), data=data.hex(), now=now)
            try:
                if name == "submit":
                    answered = self.seat.try_submit(data, now, token)
                else:
                    answered = self.seat.try_mark(name, data, token)
            except errors.Undecided:
                return self.say(error="undecided")
            except errors.Unavailable:
                self.say(error="unavailable")
                if time.monotonic() > until:
                    raise
                time.sleep(0.02)
            else:
                self.say(at=answered.at, value=answered.value.text)
                return self.notes.put(self.given.slot + self.number, answered.at)

    def read(self) -> None:
        kind = self.draw.randrange(3)
        value: Any
        if kind == 0:
            self.say(asks="best")
            best = self.seat.getbestblockhash()
            at, value = best.at, show(best.value)
        elif kind == 1:
            self.say(asks="tips")
            tips = self.seat.getchaintips()
            at, value = tips.at, [[show(tip.id), tip.height, tip.length, tip.status] for tip in tips.value]
        else:
            coin = self.draw.choice(self.pool.coinbases)
            self.say(asks="txout", coin=show(coin))
            out = self.seat.gettxout(coin, 0)
            at = out.at
            value = out.value and [out.value.value, out.value.script.hex(), out.value.height, out.value.coinbase, out.value.confirmations]
        self.say(at=at, value=value)

    def hear(self) -> None:
        """Is told a place that another client was answered, at any replica."""
        place = self.notes.any(self.draw)
        self.say(asks="told", place=place)
        self.say(at=self.seat.told(place))


def slow_down(seconds: float) -> None:
    take_all = Follower._take_all

    def slowly(self: Follower, rows: Any) -> None:
        time.sleep(seconds * len(rows))
        take_all(self, rows)

    Follower._take_all = slowly  # type: ignore


def main() -> int:
    given = Options(**json.loads(sys.argv[1]))
    if given.slow:
        slow_down(given.slow)
    pool, notes = Pool(), Notes(given.notes)
    faults: list[BaseException] = []
    words: Any = {"name": given.name, "timeout": given.timeout, "catch_up": 300, "program": given.program}
    opened: Any = Replica
    if given.is_async:
        opened = lambda *own, **more: Bridged(AsyncReplica(*own, **more), asyncio.new_event_loop())  # noqa: E731
    with opened(given.url, given.clients, **words) as replica:
        print("open", flush=True)

        def run(client: Client) -> None:
            try:
                client.run()
            except BaseException as fault:
                client.say(fault=repr(fault))
                faults.append(fault)

        clients = [Client(given, replica, notes, pool, number) for number in range(given.clients)]
        threads = [threading.Thread(target=run, args=(client,)) for client in clients]
        for thread in threads:
            thread.start()
        for thread in threads:
            thread.join()
    for fault in faults:
        print(repr(fault), file=sys.stderr)
    return 1 if faults else 0


if __name__ == "__main__":
    sys.exit(main())
