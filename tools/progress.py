#!/usr/bin/env python3
"""Proves crates, and says how far it is: crate k of n, what is done, and about how many minutes are left.

    tools/progress.py build --jobs N    the program regchain with what is below it, by `rt lib` crate by crate
    tools/progress.py ci [--anew]       `rt ci`

The minutes that a crate takes are those of the tables in docs/KIT.md, scaled by what the crates before it took here. On a
terminal one line moves; else there is a line a crate. What the kit prints stands in out/build.log; of `rt ci` it is
shown too where that is no terminal. The status is 1 where something isn't proved.
"""
import argparse
import os
import re
import signal
import subprocess
import sys
import time
from typing import IO, Dict, Iterator, List

ROOT = os.path.dirname(os.path.dirname(os.path.realpath(__file__)))
LOG = f"{ROOT}/out/build.log"
# How the rows of each table in docs/KIT.md begin behind its head.
BUILD, GATE = "| Crates | minutes of a processor |", "| Crates | Their proofs |"


def minutes(head: str) -> Dict[str, float]:
    """The minutes of each crate, by the table of docs/KIT.md with this head, in its order."""
    with open(f"{ROOT}/docs/KIT.md", encoding="utf-8") as file:
        _, found, rest = file.read().partition(head)
    if not found:
        raise SystemExit(f"tools/progress.py: docs/KIT.md has no table with the head {head}")
    made: Dict[str, float] = {}
    for row in rest.split("\n\n")[0].splitlines():
        names, numbers = re.findall(r"`(\w+)`", row), re.findall(r"\d+\.\d+", row)
        # The first number of a longer list is their sum.
        for name, number in zip(names, numbers[len(numbers) - len(names):]):
            made[name] = float(number)
    return made


class Progress:
    """What is done of some crates, on standard error."""

    def __init__(self, table: Dict[str, float], names: List[str]) -> None:
        self.minutes = {name: table.get(name, 1.0) for name in names}
        self.done: List[str] = []
        self.begun = time.monotonic()
        # The table's minutes and the seconds here of what was proved now, and not kept from an earlier run.
        self.counted = self.spent = 0.0
        self.ended = self.begun
        self.moves = sys.stderr.isatty()

    def left(self) -> float:
        """The minutes that are left by the clock, as far as the table tells."""
        rest = sum(number for name, number in self.minutes.items() if name not in self.done)
        scale = self.spent / 60 / self.counted if self.counted else 1.0
        return max(0.0, rest * scale - (time.monotonic() - self.ended) / 60)

    def line(self, now: str) -> str:
        past = (time.monotonic() - self.begun) / 60
        return f"crate {len(self.done) + 1} of {len(self.minutes)}: {now} ({past:.0f} minutes so far, about {self.left():.0f} left)"

    def move(self, now: str) -> None:
        if self.moves:
            print(f"\r\033[K{self.line(now)}", end="", file=sys.stderr, flush=True)

    def begin(self, now: str) -> None:
        if not self.moves:
            print(self.line(now), file=sys.stderr, flush=True)

    def finish(self, name: str, is_kept: bool = False) -> None:
        """A crate is proved; one that took far less than its minutes was kept from an earlier run."""
        if name not in self.minutes or name in self.done:
            return
        took, self.ended = time.monotonic() - self.ended, time.monotonic()
        self.done.append(name)
        if not is_kept:
            self.counted, self.spent = self.counted + self.minutes[name], self.spent + took

    def end(self) -> None:
        if self.moves:
            print("\r\033[K", end="", file=sys.stderr, flush=True)


def wait(process: "subprocess.Popen[str]", progress: Progress, now: str) -> int:
    """The status of a child, whose line moves meanwhile."""
    while True:
        progress.move(now)
        try:
            return process.wait(1.0 if progress.moves else None)
        except subprocess.TimeoutExpired:
            continue


def end_of_log() -> str:
    with open(LOG, encoding="utf-8", errors="replace") as file:
        return "".join(file.readlines()[-30:])


def below(name: str) -> List[str]:
    found = subprocess.run([f"{ROOT}/tests/changed", "--below", name], stdout=subprocess.PIPE, text=True, check=True)
    return found.stdout.split()


def build(jobs: int) -> int:
    """The program, the lowest crate first; its version is what it says last, and its status 1."""
    names = below("regchain")
    is_new = subprocess.run([f"{ROOT}/tests/changed", "--up-to-date", "regchain"]).returncode == 0
    progress = Progress(minutes(BUILD), [*([] if is_new else names), "regchain"])
    os.makedirs(os.path.dirname(LOG), exist_ok=True)
    with open(LOG, "w", encoding="utf-8") as log:
        for name in progress.minutes:
            act = ["rt", "run", "--jobs", str(jobs), "--", "--version"] if name == "regchain" else ["rt", "lib", "--jobs", str(jobs)]
            progress.begin(name)
            process = subprocess.Popen(act, cwd=f"{ROOT}/crates/{name}", stdin=subprocess.DEVNULL, stdout=log, stderr=log, text=True)
            status = wait(process, progress, name)
            progress.finish(name, is_kept=time.monotonic() - progress.ended < 12 * progress.minutes[name])
            log.flush()
            last = end_of_log().strip().splitlines()[-1:] if name == "regchain" else []
            if not last[0].startswith("regchain ") if last else status:
                progress.end()
                print(f"{end_of_log()}\n{name} isn't proved; out/build.log has all that was printed", file=sys.stderr)
                return 1
            subprocess.run([f"{ROOT}/tests/changed", "--built", name], check=True)
    progress.end()
    return 0


def lines(stream: IO[str], log: IO[str]) -> Iterator[str]:
    for line in stream:
        log.write(line)
        yield line


def gate(anew: bool) -> int:
    """`rt ci`, which says of each crate when it is proved."""
    table = minutes(GATE)
    progress = Progress(table, list(table))
    os.makedirs(os.path.dirname(LOG), exist_ok=True)
    process = subprocess.Popen(
        ["rt", "ci", *(["--anew"] if anew else [])], cwd=ROOT, stdin=subprocess.DEVNULL, stdout=subprocess.PIPE,
        stderr=subprocess.STDOUT, text=True, errors="replace")
    assert process.stdout is not None
    with open(LOG, "w", encoding="utf-8") as log:
        for line in lines(process.stdout, log):
            if not progress.moves:
                print(line, end="", flush=True)
            told = re.match(r"rt: (\w+) ", line)
            if told and told[1] in progress.minutes and told[1] not in progress.done:
                progress.finish(told[1], is_kept="is kept" in line)
                if len(progress.done) < len(progress.minutes):
                    progress.begin(f"behind {told[1]}")
                    progress.move(f"behind {told[1]}")
    progress.end()
    status = process.wait()
    if progress.moves:
        print(end_of_log(), end="", file=sys.stderr)
    return status


def main() -> int:
    parser = argparse.ArgumentParser(description=__doc__, formatter_class=argparse.RawDescriptionHelpFormatter)
    kinds = parser.add_subparsers(dest="kind", required=True)
    kinds.add_parser("build").add_argument("--jobs", type=int, default=1)
    kinds.add_parser("ci").add_argument("--anew", action="store_true")
    asked = parser.parse_args()
    signal.signal(signal.SIGTERM, lambda *_: sys.exit(143))
    return build(asked.jobs) if asked.kind == "build" else gate(asked.anew)


if __name__ == "__main__":
    sys.exit(main())
