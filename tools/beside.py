#!/usr/bin/env python3
"""Runs parts of a gate side by side.

    tools/beside.py --table FILE NAME COMMAND [NAME COMMAND ..] [+ NAME COMMAND ..] ..

A `+` begins a list that runs beside those before it; the parts of a list run one after the other, and one that fails ends
its list. What a part prints is shown when it has ended. FILE gets a line for each: its name, its seconds by the clock and
its thousandths of a second of a processor, with tabs between. The status is 1 where a part failed, and the failed parts are named.
"""
import argparse
import os
import signal
import subprocess
import sys
import tempfile
import threading
import time
from typing import List, Tuple

Part = Tuple[str, str]


class Lists:
    """Lists of parts that run at the same time."""

    def __init__(self, table: str) -> None:
        self.table = table
        self.failed: "List[str]" = []
        self.lock = threading.Lock()
        self.running: "List[subprocess.Popen[bytes]]" = []

    def run_list(self, parts: "List[Part]") -> None:
        for part in parts:
            if not self.run_part(*part):
                return

    def run_part(self, name: str, command: str) -> bool:
        print(f"./test: {name} begins", file=sys.stderr, flush=True)
        with tempfile.TemporaryFile() as told:
            begun = time.monotonic()
            process = subprocess.Popen(["bash", "-c", command], stdin=subprocess.DEVNULL, stdout=told, stderr=told, start_new_session=True)
            with self.lock:
                self.running.append(process)
            _, status, used = os.wait4(process.pid, 0)
            process.returncode = os.WEXITSTATUS(status) if os.WIFEXITED(status) else 1
            seconds, spent = time.monotonic() - begun, used.ru_utime + used.ru_stime
            told.seek(0)
            with self.lock:
                print(f"./test: {name}", file=sys.stderr, flush=True)
                sys.stdout.buffer.write(told.read())
                sys.stdout.flush()
                with open(self.table, "a", encoding="utf-8") as file:
                    file.write(f"{name}\t{seconds:.0f}\t{1000 * spent:.0f}\n")
                if process.returncode:
                    self.failed.append(name)
        return not process.returncode

    def end(self) -> None:
        """Ends what still runs, with all that it has started."""
        for process in self.running:
            if process.returncode is None:
                os.killpg(process.pid, signal.SIGTERM)


def lists_of(words: "List[str]") -> "List[List[Part]]":
    found: "List[List[Part]]" = [[]]
    rest = list(words)
    while rest:
        if rest[0] == "+":
            found.append([])
            rest = rest[1:]
            continue
        if len(rest) < 2 or rest[1] == "+":
            sys.exit(f"tools/beside.py: {rest[0]} has no command")
        found[-1].append((rest[0], rest[1]))
        rest = rest[2:]
    return found


def main() -> int:
    words = argparse.ArgumentParser(description=__doc__, formatter_class=argparse.RawDescriptionHelpFormatter)
    words.add_argument("--table", metavar="FILE", required=True)
    words.add_argument("words", nargs="+", metavar="NAME COMMAND")
    given = words.parse_args()
    lists = Lists(given.table)

    def stop(number: int, _: object) -> None:
        lists.end()
        os._exit(128 + number)

    signal.signal(signal.SIGTERM, stop)
    signal.signal(signal.SIGINT, stop)
    threads = [threading.Thread(target=lists.run_list, args=(parts,)) for parts in lists_of(given.words)]
    for thread in threads:
        thread.start()
    for thread in threads:
        thread.join()
    for name in lists.failed:
        print(f"tools/beside.py: failed: {name}", file=sys.stderr)
    return 1 if lists.failed else 0


if __name__ == "__main__":
    sys.exit(main())
