"""Plays the vectors of this folder over the library's calls: python3 -m unittest play, where wakotehu can be imported."""

import json
import os
import random
import unittest
from ctypes import byref, c_size_t, c_uint32, c_uint64
from typing import Any, Dict, Iterator, List, NamedTuple, Set

from wakotehu import Chainstate, consensus as c
from wakotehu.encoding import GENESIS, coinbase, mine, read_block, subsidy
from wakotehu.errors import BadTable
from wakotehu.library import secp256k1_library
from wakotehu.signatures import secp256k1

HERE = os.path.dirname(os.path.abspath(__file__))


def rows(name: str) -> List[Any]:
    """A file's rows without its head."""
    with open(os.path.join(HERE, name), encoding="utf-8") as file:
        return list(json.load(file))[1:]


def data(text: str) -> bytes:
    """Hexadecimal, in parts that are parted by spaces; HEX*N for so many times."""
    parts = (part.partition("*") for part in text.split())
    return b"".join(bytes.fromhex(digits) * int(times or 1) for digits, _, times in parts)


def genesis() -> bytes:
    """The genesis block, which is the first of its file."""
    return data(rows("blocks.json")[0][1])


def spelled(n: int) -> bytes:
    """A count below 65,536."""
    return bytes([n]) if n < 253 else b"\xfd" + n.to_bytes(2, "little")


def spender(version: int, lock_time: int, sequences: List[int], scripts: List[bytes], outputs: int) -> bytes:
    """A transaction whose inputs spend output 0 of the id of 32 times 7."""
    ends = zip(sequences, scripts)
    inputs = [b"\7" * 32 + bytes(4) + spelled(len(s)) + s + n.to_bytes(4, "little") for n, s in ends]
    made = [(1).to_bytes(8, "little") + b"\0"] * outputs
    return b"".join([
        version.to_bytes(4, "little", signed=True), spelled(len(inputs)), *inputs, spelled(outputs), *made,
        lock_time.to_bytes(4, "little"),
    ])  # fmt: skip


class Pair(NamedTuple):
    """A row of script_tests.json: an input of a transaction, and what it spends."""

    tx: bytes
    input: int
    spent: bytes
    flags: List[str]
    table: str
    accepted: bool


def pairs() -> Iterator[Pair]:
    """The rows of script_tests.json. Without a transaction of the row's own the script is in the second of two inputs."""
    for row in rows("script_tests.json"):
        setting = row.pop(0) if isinstance(row[0], dict) else {}
        own, spent, flags, expected = row[:4]
        script = data(own[2:])
        if "tx" in setting:
            front, back = map(data, setting["tx"])
            tx, at = front + spelled(len(script)) + script + back, setting.get("input", 0)
        else:
            ends = [setting.get("sequence", 0)] * 2
            tx, at = spender(setting.get("version", 1), setting.get("lock_time", 0), ends, [b"", script], 1), 1
        forced = [name for name in flags.split(",") if name]
        yield Pair(tx, at, data(spent[2:]), forced, setting.get("table", ""), expected == "OK")


class Chain:
    """A chainstate, and blocks of a coinbase each by their names."""

    def __init__(self) -> None:
        self.chain = Chainstate()
        self.bytes, self.ids, self.heights = {"genesis": genesis()}, {"genesis": GENESIS.id}, {"genesis": 0}

    def block(self, name: str, parent: str, seconds: int) -> None:
        height = self.heights[parent] + 1
        made = mine(self.ids[parent], GENESIS.time + seconds, [coinbase(height, subsidy(height))])
        self.bytes[name], self.ids[name], self.heights[name] = made, read_block(made).header.id, height

    def told(self, step: str, *words: Any) -> Any:
        """What the chainstate says, in the form in which the step has it."""
        names = {id: name for name, id in self.ids.items()}
        if step == "submit":
            return [words[0], self.chain.try_submit(self.bytes[words[0]], GENESIS.time).text]
        if step == "best":
            return [names[self.chain.best()], self.chain.height()]
        if step == "tips":
            return [[[names[tip.id], tip.height, tip.length, tip.status] for tip in self.chain.tips()]]
        if step == "many":
            for n in range(words[0]):
                self.block(f"m{n}", "genesis", n + 1)
                self.chain.try_submit(self.bytes[f"m{n}"], GENESIS.time)
            return [words[0], len(self.chain.tips())]
        return [words[0], self.chain.try_mark(step, self.ids[words[0]]).text]


class Vectors(unittest.TestCase):
    def test_scripts_by_pairs(self) -> None:
        for number, pair in enumerate(pairs()):
            found = c.verify(pair.tx, pair.input, pair.spent, pair.flags, pair.table)
            self.assertEqual(found, pair.accepted, (number, pair))

    def test_scripts_of_transactions_that_are_read_once(self) -> None:
        """The same pairs, each transaction read once: all of its pairs in any order, by both calls, with and without what is
        known of signatures."""
        seed = random.randrange(1 << 32)
        chance = random.Random(seed)
        each = list(pairs())
        kept = {pair.tx: c.ParsedTransaction(pair.tx) for pair in each}
        for pair in chance.sample(each, len(each)):
            parsed, rules = kept[pair.tx], {"P2SH", *pair.flags}
            self.assertEqual(parsed.verify(pair.input, pair.spent, pair.flags, pair.table), pair.accepted, (seed, pair))
            for table in ("", pair.table):
                expected = c.verify_script(pair.tx, pair.input, pair.spent, rules, table)
                self.assertEqual(parsed.verify_input(pair.input, pair.spent, rules, table), expected, (seed, pair))
        for parsed in kept.values():
            parsed.close()

    def test_scripts_over_signatures_that_are_found_out_one_by_one(self) -> None:
        """The same pairs: nothing is known at first, or some of the table's lines in any order and others that nobody asks
        for; what isn't known is found out in the table."""
        seed = random.randrange(1 << 32)
        chance = random.Random(seed)
        for number, pair in enumerate(pairs()):
            table = c.Table(pair.table)
            lines = [line + b"\n" for line in table.text.splitlines() if line.strip()]
            for known in (0, chance.randrange(len(lines) + 1)):
                valid = chance.sample(lines, known) + [f"{chance.randrange(99):02} - {'7' * 64}\n".encode()] * known
                found = self.found_out(pair, table, valid, chance)
                self.assertEqual(found, pair.accepted, (seed, number, pair))

    def test_scripts_with_real_signatures(self) -> None:
        """The pairs whose tables have real signatures alone, by libsecp256k1 and without a table, as the call of C says
        too."""
        loaded, played, accepted = secp256k1_library(), 0, 0
        self.assertIsNotNone(loaded)
        call = loaded.wakotehu_secp256k1_verify  # type: ignore[union-attr]
        for number, pair in enumerate(pairs()):
            lines = [line for line in pair.table.encode().splitlines() if line.strip()]
            if not all(secp256k1(lines)):
                continue
            found = c.verify(pair.tx, pair.input, pair.spent, pair.flags, signatures="secp256k1")
            self.assertEqual(found, pair.accepted, (number, pair))
            flags = (c_uint32 * 3)(*(name in pair.flags for name in ("DERSIG", "CLTV", "CSV")))
            told, place = c_uint32(7), c_uint64(pair.input)
            spent, tx = (pair.spent, c_size_t(len(pair.spent))), (pair.tx, c_size_t(len(pair.tx)))
            self.assertEqual(call(*tx, place, *spent, flags, byref(told)), 0)
            self.assertEqual(told.value, int(pair.accepted), (number, pair))
            played, accepted = played + bool(lines), accepted + (bool(lines) and found)
        print(f"{played} pairs had real signatures; {accepted} of them were accepted")
        self.assertGreater(played, 300)
        self.assertGreater(accepted, 100)

    def test_each_opcode_from_both_sides(self) -> None:
        """Each opcode is in a pair that is accepted, as an opcode, and in one that is refused; those that fail wherever they
        stand are in refused ones alone."""
        found: Dict[bool, Set[int]] = {True: set(), False: set()}
        for pair in pairs():
            own = c.transaction_parts(pair.tx).inputs[pair.input].script
            found[pair.accepted] |= {op.number for script in (own, pair.spent) for op in c.opcodes(script)[0]}
        never = {0x65, 0x66, 0x8D, 0x8E, *range(0x7E, 0x82), *range(0x83, 0x87), *range(0x95, 0x9A)}
        self.assertEqual(set(range(256)) - found[True], never)
        self.assertEqual(set(range(256)) - found[False], set())

    def test_each_row_says_who_was_asked(self) -> None:
        """A program from outside, or the rules; the table of README.md has how many rows there are."""
        with open(os.path.join(HERE, "README.md"), encoding="utf-8") as file:
            page = file.read()
        for name in ("script_tests.json", "sighash.json", "transactions.json", "locks.json"):
            every = rows(name)
            self.assertTrue(f"| `{name}` | {len(every):,} |" in page, f"{name} has {len(every)} rows, and the table another number")
            for row in every:
                self.assertRegex(row[-1], "^(read by )?(litecoind|python3-bitcoinlib|hashlib|docs/RULES.md)")

    def found_out(self, pair: Pair, table: c.Table, valid: List[bytes], chance: random.Random) -> Any:
        """The verdict, where each signature that is asked for is looked for in the table."""
        invalid: List[bytes] = []
        for _ in range(1000):
            found = c.verify_known(pair.tx, pair.input, pair.spent, pair.flags, b"".join(valid), b"".join(invalid))
            if isinstance(found, bool):
                break
            kept = valid if table.has(*found) else invalid
            kept.insert(chance.randrange(len(kept) + 1), found.line)
        return found

    def test_digests(self) -> None:
        for raw, code, number, kind, expected, *_ in rows("sighash.json"):
            self.assertEqual(c.signature_digest(data(raw), number, data(code), kind).hex(), expected, (code, number, kind))

    def test_hashes(self) -> None:
        for name, message, expected in rows("hashes.json"):
            if name == "id":
                found = c.read_id(message)
                self.assertEqual(found and found.hex(), expected)
                if found:
                    self.assertEqual(c.show(found), message.lower())
            else:
                self.assertEqual(getattr(c, name)(data(message)).hex(), expected)

    def test_numbers(self) -> None:
        for spelling, most, number, shortest in rows("numbers.json"):
            self.assertEqual(c.read_number(data(spelling), most), number)
            if shortest:
                self.assertEqual(c.number_bytes(number).hex(), spelling)

    def test_locks(self) -> None:
        for name, given, expected, _ in rows("locks.json"):
            if name == "median":
                self.assertEqual(c.median(given[0]), expected)
            elif name == "final":
                lock_time, sequences, height, cutoff = given
                tx = spender(1, lock_time, sequences, [b""] * len(sequences), 0)
                self.assertEqual(c.is_final(tx, height, cutoff), expected, given)
            else:
                version, sequences, starts, height, cutoff = given
                tx = spender(version, 0, sequences, [b""] * len(sequences), 0)
                self.assertEqual(c.locks_met(tx, starts, height, cutoff), expected, given)

    def test_scripts(self) -> None:
        for name, given, expected in rows("scripts.json"):
            scripts = [data(text) for text in given]
            if name == "opcodes":
                found, rest = c.opcodes(scripts[0])
                self.assertEqual([[op.number, op.data.hex()] for op in found] + [rest.hex()], expected)
            elif name == "p2sh_sigops":
                self.assertEqual(c.p2sh_sigops(*scripts), expected)
            else:
                self.assertEqual(getattr(c.script(scripts[0]), name), expected, given)

    def refused(self, call: Any, bytes_: bytes, fault: str) -> None:
        with self.assertRaises(c.Refused) as caught:
            call(bytes_)
        self.assertEqual(caught.exception.fault, fault)

    def fields(self, found: Any, expected: Any) -> None:
        """Compares the fields that are named; ids are expected as they are printed."""
        for name, value in expected.items():
            told = getattr(found, name)
            self.assertEqual(c.show(told) if isinstance(told, bytes) else told, value, name)

    def test_transactions(self) -> None:
        for raw, expected, *_ in rows("transactions.json"):
            bytes_ = data(raw)
            if isinstance(expected, str):
                self.refused(c.transaction, bytes_, expected)
                self.refused(c.transaction_parts, bytes_, expected)
                continue
            inputs, outputs = expected.pop("inputs_are", None), expected.pop("outputs_are", None)
            self.fields(c.transaction(bytes_), expected)
            parts = c.transaction_parts(bytes_)
            self.assertEqual(c.write_transaction(parts), bytes_[: expected["size"]] if "size" in expected else bytes_)
            if inputs is not None:
                self.assertEqual([[i.id.hex(), i.index, i.script.hex(), i.sequence] for i in parts.inputs], inputs)
            if outputs is not None:
                self.assertEqual([[o.value, o.script.hex()] for o in parts.outputs], outputs)

    def test_blocks(self) -> None:
        for name, given, *expected in rows("blocks.json"):
            getattr(self, f"play_{name}")(given, *expected)

    def play_block(self, given: str, expected: Any) -> None:
        if isinstance(expected, str):
            self.refused(c.block, data(given), expected)
            return
        ids = expected.pop("ids", None)
        self.fields(c.block(data(given)), expected)
        self.assertEqual(c.block_size(data(given) + b"\0"), len(data(given)))
        if ids is not None:
            self.assertEqual([id.hex() for id in c.block_ids(data(given))], ids)

    def play_cuts(self, given: str) -> None:
        whole = data(given)
        for end in range(len(whole)):
            self.refused(c.block, whole[:end], "short")
            self.refused(c.block_size, whole[:end], "short")
        self.refused(c.block, whole + b"\0", "extra")
        self.assertEqual(c.block_size(whole + bytes(9)), len(whole))

    def play_subsidy(self, height: int, expected: int) -> None:
        self.assertEqual(c.subsidy(height), expected)

    def play_target(self, id: str, expected: bool) -> None:
        self.assertEqual(c.meets_target(data(id)), expected)

    def play_place(self, given: Any, expected: str) -> None:
        raw, height, median, now, heights = given
        self.assertEqual(c.block_place(data(raw), height, median, now, heights), expected, given[1:])

    def play_many(self, count: int, expected: Any) -> None:
        """The genesis block's header, and so many transactions: number n spends output n of the id of 32 times 7 by the
        script 51 52, and pays nothing to an empty script; its lock time is 9. And a transaction of as many inputs."""
        header = genesis()[:80]
        front, back = b"\1\0\0\0\1" + b"\7" * 32, b"\2\x51\x52" + b"\xff" * 4 + b"\1" + bytes(9) + b"\t\0\0\0"
        txs = [front + n.to_bytes(4, "little") + back for n in range(count)]
        raw = header + spelled(count) + b"".join(txs)
        self.assertEqual(c.show(c.block_ids(raw)[-1]), expected.pop("last"))
        self.fields(c.block(raw), expected)
        inputs = tuple(c.Input(b"\7" * 32, n, b"", 0) for n in range(count))
        written = c.write_transaction(c.Parts(1, inputs, (c.Output(0, b""),), 0))
        self.assertEqual(c.transaction(written).reason, "")
        self.assertEqual(c.transaction_parts(written).inputs, inputs)

    def test_blk_files(self) -> None:
        for raw, lengths, *fault in rows("blk.json"):
            if raw == "fronts":
                self.play_fronts(data(lengths))
                continue
            file, found = c.records(data(raw)), []
            try:
                for block in file:
                    found.append(len(block))
                self.assertIsNone(fault[0], raw[:40])
            except c.Refused as refused:
                self.assertEqual(refused.fault, fault[0], raw[:40])
            self.assertEqual(found, lengths, raw[:40])

    def play_fronts(self, record: bytes) -> None:
        self.assertEqual(list(c.records(b"")), [])
        for end in range(1, len(record)):
            with self.assertRaises(c.Refused) as caught:
                list(c.records(record[:end]))
            self.assertEqual(caught.exception.fault, "foreign" if end < 4 else "cut", end)

    def test_tables(self) -> None:
        for text, expected in rows("tables.json"):
            if isinstance(expected, int):
                with self.assertRaises(BadTable) as caught:
                    c.Table(text)
                self.assertEqual(caught.exception.line, expected, text)
                continue
            table, made = c.Table(text), c.Table()
            for key, signature, digest, is_there in expected:
                triple = (data(key), data(signature), data(digest))
                self.assertEqual(table.has(*triple), is_there, (text, key))
                if is_there:
                    made.add(*triple)
            for key, signature, digest, is_there in expected:
                self.assertEqual(made.has(data(key), data(signature), data(digest)), is_there, (text, key))

    def test_chains(self) -> None:
        for name, *steps in rows("chains.json"):
            at = Chain()
            with at.chain:
                for step, *words in steps:
                    if step == "block":
                        at.block(*words)
                    else:
                        self.assertEqual(at.told(step, *words), words, (name, step))

    def test_signatures(self) -> None:
        for signature, expected, _ in rows("signatures.json"):
            self.assertEqual(c.strict_signature(data(signature)), expected)


if __name__ == "__main__":
    unittest.main()
