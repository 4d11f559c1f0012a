"""What -acceptnonstdtxn=0 refuses. Words are those of Debian's litecoind 0.21.2.1 with -acceptnonstdtxn=0, -dustrelayfee=0.00003
and -segwitheight=-1, of the same transactions on the same blocks."""

import unittest

from mempool_steps import COIN, LAST
from test_rpc import CallsTest
from wakotehu import read_id
from wakotehu.encoding import Input, Output, Transaction, hash160, push, write_transaction
from wakotehu.rpc import policy

#: A key, a script to its hash, and inner scripts with their hash.
KEY = bytes.fromhex("0279be667ef9dcbbac55a06295ce870b07029bfcdb2dce28d959f2815b16f81798")
TO_KEY = b"\x76\xa9\x14" + hash160(KEY) + b"\x88\xac"


def to_hash(inner):
    return b"\xa9\x14" + hash160(inner) + b"\x87"


def to_keys(count, needed=1):
    return bytes([0x50 + needed]) + push(KEY) * count + bytes([0x50 + count, 0xAE])


OPEN, MANY = b"\x51", b"\x51" + b"\x61" * 3 + b"\x63" + b"\xac" * 16 + b"\x68"
VALUE = 50 * COIN


def made(spends, outs, version=2, script=b"", lock=0):
    return Transaction(version, [Input(id, index, script, LAST) for id, index in spends], [Output(*out) for out in outs], lock)


def rows(first, open_, many):
    """Names of transactions, and each that spends the coinbase of anyone, or of a hash of a script of anyone or of many operations."""

    def one(outs, version=2, script=push(OPEN)):
        return made([(open_, 0)], outs, version, script)

    plain = (VALUE - 10_000, TO_KEY)
    yield "fine", one([plain])
    for version in (-1, 0, 1, 2, 3):
        yield f"version {version}", one([plain], version)
    yield "no push", one([plain], script=b"\x61" + push(OPEN))
    yield "long", one([plain], script=push(bytes(520)) * 3 + push(bytes(80)) + push(OPEN))
    yield "to anyone", one([(VALUE - 10_000, b"\x51")])
    for count in (1, 3, 4):
        yield f"to {count} keys", one([(VALUE - 10_000, to_keys(count))])
    for length in (80, 81):
        yield f"data of {length}", one([plain, (0, b"\x6a\x4c" + bytes([length]) + bytes(length))])
    yield "data twice", one([plain, (0, b"\x6a"), (0, b"\x6a")])
    for value in (545, 546):
        yield f"{value} to a key", one([plain, (value, TO_KEY)])
    for value in (539, 540):
        yield f"{value} to a hash", one([plain, (value, to_hash(OPEN))])
    for value in (293, 294):
        yield f"{value} to a program", one([plain, (value, b"\0\x14" + bytes(20))])
    yield "dust of data", one([plain, (1, b"\x6a")])
    yield "small", one([(VALUE - 10_000, b"\x6a")])
    yield "many operations", made([(many, 0)], [plain], script=push(MANY))
    yield "spends of no standard", made([(first, 0)], [plain])
    for paid in (85, 86, 87, 88):
        yield f"pays {paid}", one([(VALUE - paid, TO_KEY)])


#: None where it is accepted.
WORDS = {
    "fine": None,
    "version -1": "version",
    "version 0": "version",
    "version 1": None,
    "version 2": None,
    "version 3": "version",
    "no push": "scriptsig-not-pushonly",
    "long": "scriptsig-size",
    "to anyone": "scriptpubkey",
    "to 1 keys": None,
    "to 3 keys": None,
    "to 4 keys": "scriptpubkey",
    "data of 80": None,
    "data of 81": "scriptpubkey",
    "data twice": "multi-op-return",
    "545 to a key": "dust",
    "546 to a key": None,
    "539 to a hash": "dust",
    "540 to a hash": None,
    "293 to a program": "dust",
    "294 to a program": None,
    "dust of data": None,
    "small": "tx-size-small",
    "many operations": "bad-txns-nonstandard-inputs",
    "spends of no standard": "bad-txns-nonstandard-inputs",
    "pays 85": "min relay fee not met",
    "pays 86": "min relay fee not met",
    "pays 87": None,
    "pays 88": None,
}


def played(call):
    """What a server says of each that has genesis alone."""
    blocks = [call("generatetodescriptor", 1, f"raw({script.hex()})")[0] for script in (b"\x51", to_hash(OPEN), to_hash(MANY))]
    call("generatetodescriptor", 100, "raw(51)")
    coins = [read_id(call("getblock", block)["tx"][0]) for block in blocks]
    found = {}
    for name, tx in rows(*coins):
        [answer] = call("testmempoolaccept", [write_transaction(tx).hex()], 0)
        found[name] = answer.get("reject-reason")
    return found


class StandardTest(CallsTest):
    def test_words(self):
        self.running.node.mempool.policy = policy
        self.assertEqual(played(self.call), WORDS)

    def test_no_policy_by_default(self):
        self.assertFalse({*played(self.call).values()} & ({*WORDS.values()} - {None}))


if __name__ == "__main__":
    unittest.main()
