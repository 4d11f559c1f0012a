"""What real signatures cost a Bench, beside libsecp256k1's own time for them. It is no test.

    python3 measure_need.py blocks [BLOCKS] [SIGNATURES]    blocks of so many signatures, 1,000 of 20 by default
    python3 measure_need.py inputs [INPUTS] [OUTPUTS]       blocks of one transaction, by default of 1,000 and 1
    python3 measure_need.py work                            a block of 2 KB without work

Each signature is by a key of its own. Each block is given to a Bench of one thread and to one of as many as it takes by
default, and its signatures to a program in C (measure_need.c), which has libsecp256k1 read and test them in one thread.
Of each tenth of the blocks it prints the middle time, by the clock and of the processor (of all threads).
"""

import os
import statistics
import subprocess
import sys
import tempfile
import time

from blocks import NOW, Maker
from wakotehu import Bench, consensus
from wakotehu.encoding import Input, Output, Transaction, double_sha, push, write_transaction
from wakotehu.signatures import Secp256k1, processors, read_signature

SECP = Secp256k1()
NOW_OF_ALL = NOW + 10**8
ROW = "%7s %16s %16s %16s %12s %12s"


class Alone:
    """libsecp256k1 alone: the program in C."""

    def __init__(self, folder, count):
        source, program = os.path.join(os.path.dirname(os.path.abspath(__file__)), "measure_need.c"), f"{folder}/alone"
        subprocess.run(["cc", "-std=c11", "-O2", "-Wall", "-Wextra", source, "-lsecp256k1", "-o", program], check=True)
        self.count, pipe = count, subprocess.PIPE
        self.running = subprocess.Popen([program, str(count)], stdin=pipe, stdout=pipe, text=True)

    def timed(self, triples):
        """Milliseconds by the clock and of the processor."""
        words = [(key, read_signature(signature), digest) for key, signature, digest in triples]
        self.running.stdin.write("".join(" ".join(map(bytes.hex, row)) + "\n" for row in words))
        self.running.stdin.flush()
        clock, spent, valid = self.running.stdout.readline().split()
        assert int(valid) == self.count == len(triples)
        return float(clock) / 1000, float(spent) / 1000

    def close(self):
        self.running.stdin.close()
        self.running.wait()


def script_of(secret):
    return b"\x76\xa9" + push(consensus.hash160(SECP.public_key(secret))) + b"\x88\xac"


class Chain:
    """Blocks of one transaction each, which spends the outputs of the one before."""

    def __init__(self):
        self.used = 0
        first, script = self.paid()
        self.maker = Maker(script)
        self.begins = self.maker.chain(101)
        self.tip = double_sha(self.begins[-1][:80])
        coin = self.maker.coinbases[double_sha(self.begins[0][:80])]
        #: What can be spent: the transaction's id, and of each output its value, script and secret.
        self.id, self.coins = coin.id, [(coin.outputs[0].value, script, first)]

    def paid(self):
        """A secret that wasn't used, and the script that its key spends."""
        self.used += 1
        secret = self.used.to_bytes(32, "big")
        return secret, script_of(secret)

    def next(self, outputs):
        """A block on the last one, and the triples that its scripts ask for."""
        value, made = sum(coin[0] for coin in self.coins) // outputs, [self.paid() for _ in range(outputs)]
        spends = [Input(self.id, n, b"", 0xFFFFFFFF) for n in range(len(self.coins))]
        tx = Transaction(1, spends, [Output(value, script) for _, script in made], 0)
        ready, triples, inputs = write_transaction(tx), [], []
        for n, (_, script, secret) in enumerate(self.coins):
            key, digest = SECP.public_key(secret), consensus.signature_digest(ready, n, script, 1)
            triples.append((key, SECP.sign(secret, digest), digest))
            inputs.append(spends[n]._replace(script=push(triples[n][1] + b"\x01") + push(key)))
        tx = tx._replace(inputs=inputs)
        self.id, self.coins = tx.id, [(value, script, secret) for secret, script in made]
        block = self.maker.block(self.tip, [tx])
        self.tip = double_sha(block[:80])
        return block, triples


def submitted(bench, block, reply="accepted"):
    """Milliseconds by the clock and of the processor."""
    clock, spent = time.perf_counter(), time.process_time()
    told = bench.try_submit(block, NOW_OF_ALL).text
    found = 1000 * (time.perf_counter() - clock), 1000 * (time.process_time() - spent)
    assert told == reply, told
    return found


def show(name, rows):
    """The middle of each column, and how many times those of libsecp256k1 alone they are."""
    one, all, alone = ([statistics.median(column) for column in zip(*kind)] for kind in zip(*rows))
    times = ["%.2f, %.2f" % (kind[0] / alone[0], kind[1] / alone[1]) for kind in (one, all)]
    print(ROW % (name, *("%.2f, %.2f" % tuple(kind) for kind in (one, all, alone)), *times), flush=True)


def measured(chain, rounds, before, outputs, count):
    """Prints what blocks of so many signatures cost. Before each come blocks that aren't measured."""
    print(f"{processors()} processors, load {os.getloadavg()[0]:.1f}; milliseconds by the clock, and of the processor")
    print(ROW % ("blocks", "1 thread", "by default", "secp256k1", "1 thread", "by default"))
    with tempfile.TemporaryDirectory() as folder, Bench(threads=1) as one, Bench() as all:
        for block in chain.begins:
            one.submit(block, NOW_OF_ALL), all.submit(block, NOW_OF_ALL)
        alone, rows = Alone(folder, count), []
        for n in range(1, rounds + 1):
            for block in [chain.next(outputs)[0] for outputs in before]:
                one.submit(block, NOW_OF_ALL), all.submit(block, NOW_OF_ALL)
            block, triples = chain.next(outputs)
            # In turns each is first: the second finds more in the processor's caches.
            found = {bench: submitted(bench, block) for bench in ((one, all) if n % 2 else (all, one))}
            rows.append((found[one], found[all], alone.timed(triples)))
            if n % (rounds // 10) == 0:
                show(n, rows)
                rows = []
        alone.close()


def blocks(rounds=1000, signatures=20):
    chain = Chain()
    chain.begins.append(chain.next(signatures)[0])
    measured(chain, rounds, [], signatures, signatures)


def work(rounds=100):
    """A block of 2 KB that is right but for its header's id, and whose scripts ask for signatures."""
    chain, rows = Chain(), []
    with Bench() as bench:
        for block in [*chain.begins, chain.next(11)[0]]:
            bench.submit(block, NOW_OF_ALL)
        block, _ = chain.next(11)
        headers = (block[:76] + nonce.to_bytes(4, "little") for nonce in range(100))
        bad = next(header for header in headers if double_sha(header)[-1] > 0x7F) + block[80:]
        rows = [submitted(bench, bad, "high-hash") for _ in range(rounds)]
        assert bench.rounds == 1
    print(f"{len(bad)} bytes without work: %.3f ms by the clock, %.3f of the processor" % tuple(map(min, zip(*rows))))


def inputs(count=1000, outputs=1):
    measured(Chain(), 10, [count], outputs, count)


if __name__ == "__main__":
    {"blocks": blocks, "inputs": inputs, "work": work}[sys.argv[1]](*map(int, sys.argv[2:]))
