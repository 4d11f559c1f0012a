"""A served node with every allocation refused in turn.

Seat 0 is asked what a small scenario has, a read after each step, and what isn't a request; seat 1 is told and lists the
journal. The input is whole before the node begins, or each line waits for the answer to the one before. Each run has to
end by itself, with an answer to each line or a fault line: an answer is the right one, or tells of memory or of an owed
step. What is saved is whole or absent, and the audit agrees with it.

A node that submits a blk file first, or plays a saved folder again, does so before the first request, or ends with a
fault line.

A node by need is asked the commands of a scenario with signatures, told verdicts, one of which contradicts another, and
asked the commands again: no verdict and no step is lost that was answered.
"""
import collections
import json
import os
import re
import select
import shutil
import subprocess
import sys
import threading
from typing import Callable, NamedTuple

TESTS = os.path.dirname(os.path.dirname(os.path.realpath(__file__)))
sys.path[:0] = [f"{TESTS}/program", f"{TESTS}/serve"]

import running  # noqa: E402
import serving  # noqa: E402
from places import until_refused  # noqa: E402
from scenarios import SPENDS  # noqa: E402

SECONDS = 20
BLOCKS = "block b1 genesis\nblock p2 b1\nblock q2 b1\nblock q3 q2\n"
FILES = ["blocks.blk", "heights.txt", "journal.txt", "table.txt"]
BY_NEED = "--by-need"
#: A key, a signature without its hash type, and a digest that no block has.
STRAY = f"02{'ab' * 32} 3006020101020101 {'cd' * 32}"
#: So many commands of a scenario with spends make the chain below these.
CHAIN = 100
#: What seat 1 is asked.
BESIDE = ["told", "note", "journal", "wait", "getblock", "getblockheader", "getblockhash", "getancestor", "getfork", "getspent", "coins"]
TELLS = {-32001: "memory", -32002: "owed"}


def request(number, method, **params):
    return json.dumps({"jsonrpc": "2.0", "id": number, "method": method, "params": params}).encode() + b"\n"


def lines_of(regchain):
    """The input: requests of a scenario's blocks."""
    shown = subprocess.run([regchain, "show", "--scenario", "-"], input=BLOCKS.encode(), capture_output=True, check=True)
    blocks = {name: (id, data) for name, id, data in (line.split(" ") for line in shown.stdout.decode().splitlines())}
    lines = []

    def ask(method, **params):
        lines.append(request(len(lines), method, **params))

    def read():
        ask("getbestblockhash", seat=0)
        ask("getchaintips", seat=0)
        ask("gettxout", seat=0, txid=blocks["b1"][0], n=0)

    for name in ("b1", "p2", "q2", "q3"):
        ask("submit", seat=0, block=blocks[name][1], now=1296688602)
        read()
    ask("invalidate", seat=0, id=blocks["q3"][0])
    ask("reconsider", seat=0, id=blocks["q3"][0])
    ask("precious", seat=0, id=blocks["p2"][0])
    read()
    ask("submit", seat=0, block="00", now=1)
    ask("told", seat=1, **{"from": 0})
    ask("note", seat=1)
    ask("journal", seat=1, **{"from": 1, "to": 3})
    ask("wait", seat=1, after=0)
    for name in ("b1", "q3"):
        ask("getblock", seat=1, id=blocks[name][0])
        ask("getblockheader", seat=1, id=blocks[name][0])
    ask("getblockhash", seat=1, height=1)
    ask("getancestor", seat=1, id=blocks["q3"][0], height=1)
    ask("getfork", seat=1, id=blocks["p2"][0], other=blocks["q3"][0])
    ask("getspent", seat=1, id=blocks["b1"][0])
    ask("coins", seat=1, most=5)
    ask("info")
    lines.append(b"no request\n")
    lines.append(request("x" * 400, "no", seat=0))
    lines.append(request('\0"\\\n' * 100, "no", seat=1))
    ask("save")
    ask("finish")
    return lines


def by_need(regchain, room):
    """What a node by need is asked: the commands of a scenario with signatures, of which it wants some; verdicts; and what wanted
    them again. Refused is what comes behind the chain below."""
    running.PROGRAM = regchain
    scenario = max(SPENDS, key=lambda it: it.definitions.count("verdict"))
    saved = f"{room}/signed"
    os.mkdir(saved)
    words = [regchain, "run", "--scenario", "-", "--heights", scenario.heights, "--save", saved]
    subprocess.run(words, input=scenario.text().encode(), stdout=subprocess.DEVNULL, check=True)
    with open(f"{saved}/table.txt") as file:
        table = file.read()
    names = serving.Names(room, scenario.definitions)
    commands = [names.request(command.words, command.now) for command in serving.commands_of(scenario)]
    blocks = [bytes.fromhex(params["block"]) for method, params in commands[CHAIN:] if method == "submit"]
    spent = [("getspent", {"id": serving.double_sha(block[:80])[::-1].hex()}) for block in blocks]
    asked = [
        *commands, ("wants", {}), ("learn", {"valid": table, "invalid": STRAY}), ("learn", {"valid": STRAY, "invalid": ""}),
        *commands[CHAIN:], *spent, ("journal", {"from": CHAIN, "to": 999}),
    ]  # fmt: skip
    lines = [request(number, method, seat=0, **params) for number, (method, params) in enumerate(asked)]
    lines.append(request(len(lines), "finish"))
    return [Kind("by need", one_by_one, lines, [BY_NEED, "--heights", scenario.heights], count, CHAIN) for count in (1, 4)]


# What is asked where the steps were taken before the first request.
READS = [request(0, "getbestblockhash", seat=0), request(1, "journal", seat=0, **{"from": 1, "to": 99}), request(2, "finish")]


def whole(words, env, lines):
    """Serves lines that are all there when it begins."""
    return subprocess.run(words, env=env, input=b"".join(lines), capture_output=True, timeout=SECONDS)


def one_by_one(words, env, lines):
    """Serves lines of which each waits for the answer to the one before."""
    with subprocess.Popen(words, env=env, stdin=subprocess.PIPE, stdout=subprocess.PIPE, stderr=subprocess.PIPE) as served:
        out = []
        try:
            for line in lines:
                os.write(served.stdin.fileno(), line)
                if not select.select([served.stdout], [], [], SECONDS)[0]:
                    raise subprocess.TimeoutExpired(words, SECONDS)
                out.append(served.stdout.readline())
                if not out[-1]:
                    break  # it has ended
        except BrokenPipeError:
            pass
        except subprocess.TimeoutExpired:
            served.kill()
            raise
        rest, err = served.communicate(timeout=SECONDS)
        return subprocess.CompletedProcess(words, served.returncode, b"".join(out) + rest, err)


def serve(regchain, how, lines, folder, more=(), shim=None, at=0, count=0, **env):
    """A run: how it ended, and how many allocations counted and were refused."""
    report = f"{folder}.report"
    if shim:
        env = shim.env(REFUSE_AT=at, REFUSE_COUNT=count, REFUSE_REPORT=report, **env)
    words = [regchain, "serve", "--seats", "2", "--save", folder, *more]
    try:
        ran = how(words, env, lines)
    except subprocess.TimeoutExpired:
        return None, 0, 0
    if not os.path.isfile(report):
        return ran, 0, 0
    with open(report) as file:
        counted, refused = map(int, file.read().split())
    os.remove(report)
    return ran, counted, refused


def is_fault_line(ran):
    return ran.returncode == 1 and re.fullmatch(rb"regchain: ([^\n]*)\n(\1: [^\n]*\n)?", ran.stderr) is not None


class Kind(NamedTuple):
    """What is served, and how many allocations are refused."""

    name: str
    how: Callable
    lines: list
    more: list
    count: int
    #: So many lines come before the first refusal.
    head: int = 0

    def __str__(self):
        return f"regchain serve, {self.name}, {self.count} refused"


class Sweep:
    """What a served node meets."""

    def __init__(self, regchain, places, kind, faults):
        self.regchain, self.places, self.kind, self.faults = regchain, places, kind, faults
        self.lines = kind.lines
        self.met, self.lock = collections.Counter(), threading.Lock()

    def serve(self, folder, shim, at=0, count=0, **env):
        os.mkdir(folder)
        return serve(self.regchain, self.kind.how, self.lines, folder, self.kind.more, shim, at, count, **env)

    def run(self, room, pool):
        met, stacks = self.places.meet(lambda telling: self.serve(f"{room}/whole", telling, STACKS_MET=1))
        whole, counted, _ = met
        if whole is None or whole.returncode or whole.stderr:
            self.faults.add(f"{self.kind}: fails with nothing refused: {whole}")
            return 0
        self.whole = {self.key(answer): answer for answer in map(json.loads, whole.stdout.splitlines())}
        if len(self.whole) != len(self.lines):
            self.faults.add(f"{self.kind}: not an answer a line with nothing refused")
        # Threads begin in another order each time, so some more are tried than counted.
        list(pool.map(lambda at: self.once(room, at), range(self.first(room), counted + 6)))
        refused = self.places.refused()
        again = [it.hash for it in stacks if it.hash not in refused]
        list(pool.map(lambda stack: until_refused(lambda: self.once(room, 0, stack)), again))
        if not self.met["refused"]:
            self.faults.add(f"{self.kind}: nothing was refused")
        return counted

    def first(self, room):
        """The allocation that is refused first."""
        if not self.kind.head:
            return 1
        folder = f"{room}/head"
        os.mkdir(folder)
        lines = [*self.lines[: self.kind.head], self.lines[-1]]
        ran, counted, _ = serve(self.regchain, self.kind.how, lines, folder, self.kind.more, self.places.shim)
        if ran is None or ran.returncode:
            self.faults.add(f"{self.kind}: fails with nothing refused: {ran}")
        return max(counted - 40, 1)

    @staticmethod
    def key(answer):
        return json.dumps(answer["id"])

    def once(self, room, at, stack=0):
        """A run in which the allocation of this number is refused, or the first one of a call stack. How many were refused."""
        folder = f"{room}/{at}-{stack}"
        ran, _, refused = self.serve(folder, self.places.shim, at, self.kind.count, REFUSE_STACK=stack)
        what = self.outcome(ran, folder)
        if what in ("told", "fault") and not refused:
            what = f"{what}, and nothing was refused"
        if what not in ("right", "told", "fault"):
            self.faults.add(f"{self.kind}, allocation {at or f'of the stack {stack}'}: {what}")
        with self.lock:
            self.met[what] += 1
            self.met["refused"] += refused
        shutil.rmtree(folder)
        return refused

    def outcome(self, ran, folder):
        if ran is None:
            return f"no end in {SECONDS} seconds"
        if ran.returncode < 0:
            return f"ended by signal {-ran.returncode}"
        if ran.returncode and not is_fault_line(ran) or not ran.returncode and ran.stderr:
            return f"status {ran.returncode}, {ran.stderr!r}"
        if ran.stderr.startswith(b"regchain: closed"):
            return "told as closed"
        answers = [json.loads(line) for line in ran.stdout.splitlines()]
        # The lock says nothing: another node may take it.
        files = sorted(set(os.listdir(folder)) - {"lock"})
        if files not in ([], FILES) and (BY_NEED not in self.kind.more or files != sorted([*FILES, "invalid.txt"])):
            return f"leaves {files}"
        if files:
            audit = [self.regchain, "audit", "--quick", "--saved", folder]
            audited = subprocess.run(audit, stdin=subprocess.DEVNULL, capture_output=True)
            if audited.stdout != b"agrees\n":
                return f"saves what the audit refuses: {audited}"
        wrong = self.wrong_answer(answers, folder if files else None)
        if wrong:
            return wrong
        if ran.returncode:
            return "fault"
        if not files or len(answers) != len(self.lines):
            return f"{len(answers)} answers to {len(self.lines)} lines, saves {files}, and no fault"
        return "told" if any(self.tells(answer) for answer in answers) else "right"

    @staticmethod
    def tells(answer):
        return answer.get("error", {}).get("code") in TELLS

    def wrong_answer(self, answers, folder):
        """An answer that isn't the right one, tells of no memory, and isn't explained by a step that wasn't taken."""
        journal = []
        if folder:
            with open(f"{folder}/journal.txt") as file:
                journal = file.read().splitlines()
        is_told = any(self.tells(answer) for answer in answers)
        for answer in answers:
            if self.tells(answer) or answer == self.whole.get(self.key(answer)):
                continue
            if "result" not in answer:
                if answer["error"]["code"] == -32004:
                    continue
                return f"answers {answer}"
            told = answer["result"].get("answer")
            number = answer["id"]
            asked = json.loads(self.lines[number]) if isinstance(number, int) else {}
            method = asked.get("method", "")
            if method in BESIDE and asked["params"]["seat"] == 1:
                continue  # seat 1 runs beside seat 0
            if method == "finish":
                if folder and BY_NEED not in self.kind.more and answer["result"]["at"] != len(journal):
                    return f"answers {answer}, and the journal has {len(journal)} lines"
                continue
            if not is_told:
                return f"answers {answer} where none was refused"
            if method in ("submit", "invalidate", "reconsider", "precious") and journal and told != "decode-failed":
                if BY_NEED not in self.kind.more and not journal[answer["result"]["at"] - 1].endswith(f" = {told}"):
                    return f"answers {answer}, and the journal has another reply"
        return self.lost_step(answers, journal) if folder and BY_NEED in self.kind.more else None

    def lost_step(self, answers, journal):
        """A reply of a node by need that its saved journal, which has no verdicts, doesn't have in its turn."""
        replies = iter([line.split(" = ")[1] for line in journal])
        for answer in answers:
            told = answer.get("result", {}).get("answer")
            is_step = json.loads(self.lines[answer["id"]])["method"] in ("submit", "invalidate", "reconsider", "precious")
            if is_step and isinstance(told, str) and told != "decode-failed" and told not in replies:
                return f"answers {answer}, and the journal lacks it"
        return None


def kinds(regchain, room):
    """All that is served, once a first run has saved what others begin with."""
    lines, saved = lines_of(regchain), f"{room}/served"
    os.mkdir(saved)
    serve(regchain, whole, lines, saved)
    found = [Kind("all lines at once", whole, lines, [], count) for count in (1, 4)]
    found += [Kind("each line after an answer", one_by_one, lines, [], count) for count in (1, 6)]
    for name in (f"--blk {saved}/blocks.blk", f"--load {saved}"):
        found.append(Kind(name.split()[0], one_by_one, READS, name.split(), 1))
    return [*found, *by_need(regchain, room)]


def play(regchain, room, places, faults, pool):
    for number, kind in enumerate(kinds(regchain, room)):
        sweep = Sweep(regchain, places, kind, faults)
        folder = f"{room}/serve{number}"
        os.mkdir(folder)
        counted = sweep.run(folder, pool)
        met = ", ".join(f"{what} {number}" for what, number in sorted(sweep.met.items()))
        print(f"{kind}, of {counted} allocations: {met}", flush=True)
