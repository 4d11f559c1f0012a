"""Runs each workload of crates/bench and of the baseline in turn, and writes a table and a plot of them."""

import math
import os
import platform
import subprocess
import sys
import time
from typing import Any, Dict, Iterator, List, Optional, Sequence, Tuple

import drawing
import felt
from commit import named

HERE = os.path.dirname(os.path.abspath(__file__))
OURS = os.path.join(HERE, "..", "crates", "bench", "out", "bench")
BASELINE = os.path.join(HERE, "out", "baseline")
RESULTS = os.path.join(HERE, "results.md")
# What `bench/core` writes into the results stays there.
KEPT = ("<!-- written by bench/core -->", "<!-- end of bench/core -->")
BUILD = os.environ.get("BENCH_BUILD", "the default processor").removeprefix("--cpu=")
# Hides the processor's SHA instructions from OpenSSL.
HIDDEN = {"OPENSSL_ia32cap": ":~0x20000000"}

# Name, what it is, the goal as a ratio to the baseline, and sizes, the last of which goes into the table.
WORKLOADS = [
    ("double-sha", "double SHA-256 of 80 bytes", "hash", [1_000_000]),
    ("ripemd", "RIPEMD-160 of 32 bytes", "hash", [1_000_000]),
    ("ripemd-long", "one message, by its bytes", "hash", [1_000_000]),
    ("merkle", "Merkle root of ids", "hash", [500, 1000, 2000, 4000]),
    ("ids", "ids of payments", "hash", [550, 1100, 2200, 4400]),
    ("alone", "judging a block by itself", "hash", [550, 1100, 2200, 4400]),
    ("decode", "reading a block", "work", [550, 1100, 2200, 4400]),
    ("write", "writing a block", "work", [550, 1100, 2200, 4400]),
    ("records", "records of a blk file", "work", [1250, 2500, 5000, 10_000]),
    ("key-hash", "inputs of a key's hash", "work", [1250, 2500, 5000, 10_000]),
    ("two-of-three", "inputs of two of three keys", "work", [1250, 2500, 5000, 10_000]),
    ("swaps", "201 SWAP on 520 bytes", "work", [1000]),
    ("hashes", "200 HASH256", "hash", [200]),
    ("long-code", "66 CHECKSIG over 9,600 opcodes", "work", [20]),
    ("conditions", "9,700 opcodes under 100 conditions", "work", [500]),
    ("digests", "digests of 1,000 inputs", "hash", [1000]),
    ("each-input", "CHECKSIG of each input", "hash", [625, 1250, 2500, 5000]),
    ("queue-1", "key-hash with 1 worker", "work", [10_000]),
    ("queue-2", "2 workers", "work", [10_000]),
    ("queue-4", "4 workers", "work", [10_000]),
    ("queue-8", "8 workers", "work", [10_000]),
    ("queue-start", "four inputs, four workers", "work", [1000]),
    ("coins-insert", "into a map", "work", [125_000, 250_000, 500_000, 1_000_000]),
    ("coins-look-up", "through a layer", "work", [125_000, 250_000, 500_000, 1_000_000]),
    ("coins-spend", "in a layer", "work", [125_000, 250_000, 500_000, 1_000_000]),
    ("connect-1", "a block of 2,000 payments, 1 worker", "work", [125_000, 250_000, 500_000, 1_000_000]),
    ("connect-4", "4 workers", "work", [125_000, 250_000, 500_000, 1_000_000]),
    ("chain", "blocks without payments", "work", [10_000, 100_000]),
    ("chain-heavy", "blocks of almost a megabyte", "work", [20, 60]),
    ("blocks-above", "a hundred blocks", "work", [100, 10_000]),
    ("reorganise", "activating a branch", "work", [10, 100, 288, 289, 1000, 5000]),
]

READERS = [1, 2, 4, 8]

# Those of a node and its seats, likewise.
NODE = [
    ("read-map", "a plain map's look-ups", [100_000]),
    *[(f"read-coin-{n}", "`gettxout`", [100_000]) for n in READERS],
    *[(f"read-best-{n}", "`getbestblockhash`", [100_000]) for n in READERS],
    *[(f"read-beside-{n}", "next to a writer", [100_000]) for n in READERS],
    ("slowest", "of a million reads", [500, 4000]),
    ("publish-1", "ten blocks, one coin each", [10_000, 1_000_000]),
    ("publish-100", "101 coins each", [10_000, 1_000_000]),
    ("publish-10000", "10,001 coins each", [10_000, 1_000_000]),
    ("seats-1", "four branches, one seat", [100]),
    ("seats-2", "two seats", [100]),
    ("seats-4", "four seats", [100]),
    ("turns-1", "one branch, one seat", [50]),
    ("turns-4", "four seats in turn", [50]),
    ("submit", "blocks of 2,000 payments to a script's hash, from bytes to published coins", [25]),
    ("workers-1", "long-code payments, one worker", [100]),
    ("workers-4", "four workers", [100]),
]

# What the machine itself has, by workloads of the baseline: so many hashes by each of one thread and of four, and the
# longest of a million beside another thread.
MACHINE = [("threads-1", 500_000), ("threads-4", 500_000), ("pauses", 1_000_000)]

# Each size of these has a line in the table.
EACH_SIZE = {"chain", "blocks-above", "reorganise"} | {row[0] for row in NODE}

# Those that the baseline hasn't: it keeps no verdicts.
OURS_ALONE = [
    ("early-wide", "inputs with early verdicts", [6000, 24_000]),
]

# Name, what is kept, the bytes that it has of a block, what it may take at most, and two sizes, whose difference tells
# what one more takes.
MEMORY = [
    ("chain", "a block without payments, one thread", 190, 2 * 190 + 300, [50_000, 100_000]),
    ("chain-heavy", "of almost a megabyte, one thread", 999_205, 2 * 999_205 + 300, [20, 60]),
    ("chain-beside", "off the active branch, one thread", 190, 2 * 190 + 300, [50_000, 100_000]),
    ("keep", "a block without payments, a node", 190, 700, [50_000, 100_000]),
    ("keep-heavy", "of almost a megabyte, a node", 999_205, 2 * 999_205 + 300, [20, 60]),
    ("hold-coins", "a coin of 25 script bytes, a map", 0, 170, [500_000, 1_000_000]),
    # A map of ordered nodes is less full after one has become many, so a range says little of another.
    ("keep-coins", "a coin of one script byte, a node of 100,000 to 200,000", 27, 130, [100_000, 200_000]),
    ("keep-coins", "of 400,000 to 800,000", 27, 130, [400_000, 800_000]),
    ("keep-coins", "of 800,000 to 1,600,000", 27, 130, [800_000, 1_600_000]),
]

# How long ours may take where the baseline takes 1, without SHA instructions where it has them hidden; 1 where no other
# number is wanted.
GOALS = {
    "merkle": 0.6, "ids": 0.7, "digests": 0.6, "each-input": 0.35,
    "key-hash": 0.9, "queue-start": 0.6, "chain-heavy": 0.8,
    "coins-look-up": 1.1, "coins-spend": 1.1, "connect-1": 1.1, "connect-4": 1.1,
    "queue-1": 1.1, "queue-2": 1.1, "queue-4": 1.1, "queue-8": 1.1,
    "swaps": 1.5, "reorganise": 1.1,
}

if BUILD == "x86-64-v3":
    GOALS["each-input"] = 0.2

# How much more a block may cost on the second chain of `blocks-above` than on the first.
MOST_GROWTH = 1.1


# The verdicts of all goals so far.
VERDICTS: List[str] = []

# What runs a workload: a program, and what is set in its environment.
Side = Tuple[str, Dict[str, str]]
# A line of a table: a workload, with its sizes and what each took.
Row = Tuple[Any, ...]


def once(program: str, name: str, size: int, environment: Dict[str, str]) -> Tuple[float, str]:
    """Seconds and check of one run."""
    words = [program, name, str(size)]
    done = subprocess.run(words, capture_output=True, text=True, env={**os.environ, **environment})
    if done.returncode != 0:
        sys.exit(f"bench: {' '.join(words)}: {done.stderr.strip()}")
    _, _, seconds, check = done.stdout.split()
    return float(seconds), check


def allocated(program: str, name: str, size: int) -> int:
    """The most bytes that the allocator had handed out at once in a run, by its own count (`allocated.c`)."""
    told = os.path.join(HERE, "out", "allocated.txt")
    once(program, name, size, {"LD_PRELOAD": os.path.join(HERE, "out", "allocated.so"), "ALLOCATED": told})
    with open(told, encoding="utf-8") as file:
        return int(file.read())


def measure_memory() -> List[Row]:
    rows: List[Row] = []
    for name, what, length, most, (low, high) in MEMORY:
        each = [(allocated(program, name, high) - allocated(program, name, low)) / (high - low) for program in (OURS, BASELINE)]
        if name == "keep-coins":
            # its block stands in the list of those that are submitted, and is kept
            each = [bytes - 2 * length for bytes in each]
        print(f"memory {name:14} " + " ".join(f"{x:12.0f}" for x in each), flush=True)
        rows.append((name, what, length, most, each))
    return rows


def table_of_memory(rows: List[Row]) -> str:
    text = [
        "",
        "Bytes that one more takes (the allocator's count; a block with its coin, undo and command):",
        "",
        "| workload | what | its bytes | ours | baseline | goal at most |",
        "|---|---|---:|---:|---:|---:|",
    ]
    for name, what, length, most, each in rows:
        text.append(f"| {name} | {what} | {length:,} | {each[0]:,.0f} | {each[1]:,.0f} | {most:,}, {verdict(each[0] <= most)} |")
    return "\n".join(text) + "\n"


def verdict(holds: bool) -> str:
    """A goal's verdict; each is counted."""
    word = "met" if holds else "missed"
    VERDICTS.append(word)
    return word


def least(name: str, size: int, sides: Sequence[Side], limit: float, fewest: int) -> List[float]:
    """The least time of each side, of runs in turn: up to fifteen rounds or so many seconds, and at least so many."""
    best = [math.inf] * len(sides)
    begin = time.monotonic()
    for done in range(1, 16):
        checks = set()
        for at, (program, environment) in enumerate(sides):
            seconds, check = once(program, name, size, environment)
            best[at] = min(best[at], seconds)
            checks.add(check)
        if len(checks) != 1:
            sys.exit(f"bench: {name} {size}: the sides did not do the same: {' '.join(sorted(checks))}")
        if done >= fewest and time.monotonic() - begin > limit:
            break
    return best


def processor() -> Tuple[str, int, bool]:
    with open("/proc/cpuinfo", encoding="utf-8") as file:
        lines = file.read().splitlines()
    names = [line.split(":")[1].strip() for line in lines if line.startswith("model name")]
    flags = next(line for line in lines if line.startswith("flags")).split()
    return names[0], len(names), "sha_ni" in flags


def sides_of(has_sha: bool) -> List[Side]:
    sides: List[Side] = [(OURS, {}), (BASELINE, {})]
    return sides + [(BASELINE, HIDDEN)] * has_sha


def measure(names: List[str], has_sha: bool) -> List[Row]:
    sides = sides_of(has_sha)
    rows: List[Row] = []
    for name, what, kind, sizes in WORKLOADS:
        if names and name not in names:
            continue
        costs = [(size, least(name, size, sides, *((6, 3) if size == sizes[-1] else (2, 1)))) for size in sizes]
        size, times = costs[-1]
        print(f"{name:14} {size:9} " + " ".join(f"{t:12.6f}" for t in times), flush=True)
        rows.append((name, what, kind, costs))
    return rows


def measure_node(names: List[str], has_sha: bool) -> List[Row]:
    """The same of a node: each run makes its chain first, so there are fewer."""
    sides = sides_of(has_sha)
    rows: List[Row] = []
    for name, what, sizes in NODE:
        if names and name not in names:
            continue
        costs = [(size, least(name, size, sides, 5, 3)) for size in sizes]
        for size, times in costs:
            print(f"{name:14} {size:9} " + " ".join(f"{t:12.6f}" for t in times), flush=True)
        rows.append((name, what, "work", costs))
    return rows


def goal(text: str, ratio: float, bound: float, is_most: bool = True) -> str:
    """A line of a list, with what a ratio should be and whether it is."""
    holds = ratio <= bound if is_most else ratio >= bound
    return f"- {text}: {ratio:.2f}; at {'most' if is_most else 'least'} {bound}, {verdict(holds)}."


def measure_machine() -> Tuple[float, float]:
    """How much more four threads do in a second than one, where none waits for another, and the longest pause of one."""
    one, four, pause = (least(name, size, [(BASELINE, {})], 4, 3)[0] for name, size in MACHINE)
    return 4 * one / four, pause


def goals_of_a_node(rows: List[Row], machine: Optional[Tuple[float, float]]) -> str:
    """What a node's times are to be beside each other, of those that were measured."""
    found = {(name, size): times[0] for name, _, _, costs in rows for size, times in costs}
    theirs = {(name, size): times[1] for name, _, _, costs in rows for size, times in costs}
    lines: List[str] = []

    def ask(text: str, over: Tuple[str, int], under: Tuple[str, int], bound: float, is_most: bool = True) -> None:
        if over in found and under in found:
            other = theirs[over] / theirs[under]
            lines.append(goal(text, found[over] / found[under], bound, is_most)[:-1] + f" (baseline: {other:.2f}).")

    size = 100_000
    ask("read-coin-1 over read-map", ("read-coin-1", size), ("read-map", size), 3)
    for n in READERS:
        over, under = (f"read-coin-{n}", size), (f"read-beside-{n}", size)
        ask(f"read-coin-{n} over read-beside-{n}", over, under, 0.9, False)
    ask("slowest 4,000 over 500", ("slowest", 4000), ("slowest", 500), 1.5)
    for n in (1, 100, 10_000):
        ask(f"publish-{n} 1,000,000 over 10,000", (f"publish-{n}", 1_000_000), (f"publish-{n}", 10_000), 1.2)
    ask("seats-1 over seats-4", ("seats-1", 100), ("seats-4", 100), 2.5, False)
    ask("turns-4 over turns-1", ("turns-4", 50), ("turns-1", 50), 1.1)
    ask("workers-1 over workers-4", ("workers-1", 100), ("workers-4", 100), 3.2, False)
    if machine:
        lines.append(f"- the machine: four hashing threads do {machine[0]:.2f} times as much as one; of a million hashes next to another thread the longest takes {1000 * machine[1]:.2f} ms.")
    for coins in (10_000, 1_000_000):
        # ten blocks, of which the first workload has all but the changes
        one, few, many = (found.get((f"publish-{n}", coins), 0) for n in (1, 100, 10_000))
        if one and few and many:
            each = [1e6 * (few - one) / 1000, 1e6 * (many - one) / 100_000]
            lines.append(f"- a change over {coins:,} coins: {each[0]:.2f} microseconds among 100, {each[1]:.2f} among 10,000.")
    return "\n".join(lines)


def table_of_node(rows: List[Row], has_sha: bool, machine: Optional[Tuple[float, float]]) -> str:
    without = " | baseline without SHA instructions | ratio" if has_sha else ""
    text = [
        "",
        "A node and its seats:",
        "",
        f"| workload | size | what | ours | baseline | ratio{without} | goal at most |",
        "|---|---:|---|---:|---:|---:|" + ("---:|---:|" if has_sha else "") + "---|",
        *lines_of(rows),
        "",
        goals_of_a_node(rows, machine),
    ]
    return "\n".join(text) + "\n"


def measure_alone(names: List[str]) -> List[Row]:
    rows: List[Row] = []
    for name, what, sizes in OURS_ALONE:
        if names and name not in names:
            continue
        costs = [(size, least(name, size, [(OURS, {})], 20, 1)[0]) for size in sizes]
        for size, seconds in costs:
            print(f"{name:14} {size:9} {seconds:12.6f}", flush=True)
        rows.append((name, what, costs))
    return rows


def table_alone(rows: List[Row]) -> str:
    text = ["", "Ours alone:", "", "| workload | size | what | seconds |", "|---|---:|---|---:|"]
    for name, what, costs in rows:
        text += [f"| {name} | {size:,} | {what} | {seconds:.6f} |" for size, seconds in costs]
    return "\n".join(text) + "\n"


def growth_of_a_block(rows: List[Row]) -> str:
    """What a block costs on a high chain over what it costs on a low one, where both were timed."""
    for name, _, _, costs in rows:
        if name == "blocks-above":
            (low, before), (high, after) = costs
            other = after[1] / before[1]
            text = goal(f"blocks-above {high:,} over {low:,}", after[0] / before[0], MOST_GROWTH)
            return f"{text[:-1]} (baseline: {other:.2f})."
    return ""


def head_of(commit: str, has_sha: bool) -> str:
    """What was run, and where. It is written last, when all goals have been looked at."""
    name, cores, _ = processor()
    return (
        "# Results\n\n"
        f"One run by {commit}, on {name}, {cores} cores, {platform.system()}; {'with' if has_sha else 'without'} SHA "
        f"instructions. Ours is built for {BUILD}. Least of 3 to 15 runs, in seconds; below 1 ours is faster. Load at the "
        f"end, with the run's own: {os.getloadavg()[2]:.0f} on {cores} cores. {VERDICTS.count('met')} of {len(VERDICTS)} "
        "goals are met. [README](README.md) explains the workloads.\n\n"
    )


def table(rows: List[Row], has_sha: bool) -> str:
    without = " | baseline without SHA instructions | ratio" if has_sha else ""
    text = [
        f"| workload | size | what | ours | baseline | ratio{without} | goal at most |",
        "|---|---:|---|---:|---:|---:|" + ("---:|---:|" if has_sha else "") + "---|",
    ]
    return "\n".join([*text, *lines_of(rows), "", growth_of_a_block(rows)]) + "\n"


def drawn(rows: List[Row]) -> Iterator[Row]:
    """Name, size, what it is, times and goal of each line of a table: of a workload's last size, or of each."""
    for name, what, _, costs in rows:
        for size, times in costs if name in EACH_SIZE else costs[-1:]:
            yield name, size, what, times, GOALS.get(name, 1)


def lines_of(rows: List[Row]) -> List[str]:
    text, last = [], ""
    for name, size, what, times, most in drawn(rows):
        # What a workload is stands in the first of its lines.
        words, last = "" if what == last else f"{what} ", what
        cells = [f"{times[0]:.6f}"]
        for other in times[1:]:
            cells += [f"{other:.6f}", f"{times[0] / other:.2f}"]
        text.append(f"| {name} | {size:,} | {words}| " + " | ".join(cells) + f" | {most:g}, {verdict(times[0] / times[-1] <= most)} |")
    return text


def main() -> None:
    names = sys.argv[1:]
    unknown = set(names) - {row[0] for row in WORKLOADS + NODE + OURS_ALONE} - {"memory"}
    if unknown:
        sys.exit(f"bench: no such workload: {' '.join(sorted(unknown))}")
    has_sha, commit = processor()[2], named()
    rows = measure(names, has_sha)
    node = measure_node(names, has_sha)
    alone = measure_alone(names)
    machine = measure_machine() if not names or "workers-4" in names else None
    memory = measure_memory() if not names or "memory" in names else []
    if names:
        print(growth_of_a_block(rows), goals_of_a_node(node, machine), sep="\n")
        return
    text = table(rows, has_sha) + table_of_node(node, has_sha, machine) + table_of_memory(memory) + table_alone(alone)
    write(head_of(commit, has_sha) + text)
    felt.put()
    drawing.draw()
    print(f"of {len(VERDICTS)} goals {VERDICTS.count('met')} are met")


def write(text: str) -> None:
    """Writes the results, and behind them what `bench/core` wrote."""
    with open(RESULTS, encoding="utf-8") as file:
        _, begin, rest = file.read().partition(KEPT[0])
    kept = f"\n{begin}{rest.partition(KEPT[1])[0]}{KEPT[1]}\n" if begin else ""
    with open(RESULTS, "w", encoding="utf-8") as file:
        file.write(text + kept)


if __name__ == "__main__":
    main()
