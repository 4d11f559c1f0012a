"""Lines of all kinds: each has one answer, and the node goes on."""
from __future__ import annotations

import random


from running import ProgramTest
from serving import GENESIS, play, request

PARSE = {"code": -32700, "message": "parse error"}
REQUEST = {"code": -32600, "message": "invalid request"}
TOO_LONG = {"code": -32600, "message": "invalid request", "data": "line"}
TOO_MANY = {"code": -32600, "message": "invalid request", "data": "values"}
METHOD = {"code": -32601, "message": "method not found"}


def param(name: str) -> dict[str, object]:
    return {"code": -32602, "message": "invalid params", "data": name}


# Lines, and what they must be answered: the id and the error.
REFUSED: list[tuple[bytes, object, dict[str, object]]] = [
    (b"", None, PARSE),
    (b" ", None, PARSE),
    (b"{", None, PARSE),
    (b"\xff", None, PARSE),
    (b'{"jsonrpc":"2.0","id":1,"method":"\xff"}', None, PARSE),
    (b'{"jsonrpc":"2.0","id":1,"method":"note","params":{"seat":0}}x', None, PARSE),
    (b"null", None, REQUEST),
    (b"1", None, REQUEST),
    (b"[]", None, REQUEST),
    (b'[{"jsonrpc":"2.0","id":1,"method":"note","params":{"seat":0}}]', None, REQUEST),
    (b"[" * 128 + b"]" * 128, None, REQUEST),
    (b"[" * 129 + b"]" * 129, None, PARSE),
    (b"{}", None, REQUEST),
    (b'{"jsonrpc":"2.0","method":"note","params":{"seat":0}}', None, REQUEST),
    (b'{"jsonrpc":"2.0","id":[],"method":"note","params":{"seat":0}}', None, REQUEST),
    (b'{"jsonrpc":"2.0","id":true,"method":"note","params":{"seat":0}}', None, REQUEST),
    (b'{"jsonrpc":"1.0","id":1,"method":"note","params":{"seat":0}}', 1, REQUEST),
    (b'{"id":1,"method":"note","params":{"seat":0}}', 1, REQUEST),
    (b'{"jsonrpc":2.0,"id":1,"method":"note","params":{"seat":0}}', 1, REQUEST),
    (b'{"jsonrpc":"2.0","id":1,"params":{"seat":0}}', 1, REQUEST),
    (b'{"jsonrpc":"2.0","id":1,"method":7,"params":{"seat":0}}', 1, REQUEST),
    (b'{"jsonrpc":"2.0","id":1,"method":"note","params":[0]}', 1, REQUEST),
    (b'{"jsonrpc":"2.0","id":1,"method":"note","params":null}', 1, REQUEST),
    (b'{"jsonrpc":"2.0","id":"a\\u0000\\"b","method":"Note","params":{"seat":0}}', 'a\0"b', METHOD),
    (b'{"jsonrpc":"2.0","id":1,"method":"stop"}', 1, METHOD),
    (b'{"jsonrpc":"2.0","id":null,"method":"note"}', None, param("seat")),
    (b'{"jsonrpc":"2.0","id":-1.5e3,"method":"note","params":{"seat":2}}', -1500.0, param("seat")),
    (b'{"jsonrpc":"2.0","id":1,"method":"note","params":{"seat":-1}}', 1, param("seat")),
    (b'{"jsonrpc":"2.0","id":1,"method":"note","params":{"seat":0.0}}', 1, param("seat")),
    (b'{"jsonrpc":"2.0","id":1,"method":"note","params":{"seat":"0"}}', 1, param("seat")),
    (b'{"jsonrpc":"2.0","id":1,"method":"note","params":{"seat":18446744073709551616}}', 1, param("seat")),
]

# What a seat refuses: the method, its parameters, and the parameter that is told.
HASH = "00" * 32
WRONG: list[tuple[str, dict[str, object], str]] = [
    ("submit", {}, "block"),
    ("submit", {"block": 1, "now": 1}, "block"),
    ("submit", {"block": "0", "now": 1}, "block"),
    ("submit", {"block": "0g", "now": 1}, "block"),
    ("submit", {"block": "00"}, "now"),
    ("submit", {"block": "00", "now": 2**64}, "now"),
    ("submit", {"block": "00", "now": -1}, "now"),
    ("invalidate", {}, "id"),
    ("invalidate", {"id": HASH[2:]}, "id"),
    ("reconsider", {"id": HASH + "00"}, "id"),
    ("precious", {"id": "x" * 64}, "id"),
    ("gettxout", {"n": 0}, "txid"),
    ("gettxout", {"txid": HASH}, "n"),
    ("gettxout", {"txid": HASH, "n": 2**32}, "n"),
    ("getblock", {}, "id"),
    ("getblockheader", {"id": 1}, "id"),
    ("getblockhash", {}, "height"),
    ("getblockhash", {"height": -1}, "height"),
    ("getancestor", {"height": 0}, "id"),
    ("getancestor", {"id": HASH[1:], "height": 0}, "id"),
    ("getancestor", {"id": HASH}, "height"),
    ("getancestor", {"id": HASH, "height": "0"}, "height"),
    ("getancestor", {"id": HASH, "height": 2**64}, "height"),
    ("getfork", {"other": HASH}, "id"),
    ("getfork", {"id": 1, "other": HASH}, "id"),
    ("getfork", {"id": HASH}, "other"),
    ("getfork", {"id": HASH, "other": "g" * 64}, "other"),
    ("getspent", {}, "id"),
    ("getspent", {"id": HASH[1:]}, "id"),
    ("coins", {}, "most"),
    ("coins", {"most": 1, "txid": HASH}, "n"),
    ("coins", {"most": 1, "txid": 1, "n": 0}, "txid"),
    ("wait", {}, "after"),
    ("told", {}, "from"),
    ("told", {"from": 2}, "from"),
    ("journal", {"to": 1}, "from"),
    ("journal", {"from": 0, "to": 1}, "from"),
    ("journal", {"from": 1}, "to"),
]


def mutated(chance: random.Random, line: bytes) -> bytes:
    """A line with some bytes changed, left out, doubled or cut off; it stays one line."""
    data = bytearray(line.rstrip(b"\n"))
    for _ in range(chance.choice([0, 1, 1, 2, 5])):
        place = chance.randrange(len(data) + 1)
        match chance.randrange(5):
            case 0:
                data[place : place + 1] = bytes([chance.choice(b'{}[]",:0123456789eE+-.\\ntf"')])
            case 1:
                data[place : place + 1] = bytes([chance.randrange(256)])
            case 2:
                del data[place : place + chance.choice([1, 3, 20])]
            case 3:
                data[place:place] = data[place : place + chance.choice([1, 8, 40])]
            case 4:
                del data[place:]
    return bytes(data).replace(b"\n", b" ") + b"\n"


class Lines(ProgramTest):
    def test_each_refusal(self) -> None:
        wrong = [
            (request(7, method, seat=1, **params).rstrip(b"\n"), 7, param(name)) for method, params, name in WRONG
        ]
        for line, number, error in [*REFUSED, *wrong]:
            with self.subTest(line=line):
                ended = play(self.folder, line + b"\n", "--seats", "2")
                self.assertEqual(ended.answers, [{"jsonrpc": "2.0", "id": number, "error": error}])
                self.assertEqual((ended.status, ended.err), (0, ""))

    def test_it_goes_on_after_refusals(self) -> None:
        """All of them in one input: an answer a line, and the last is that of a read."""
        data = b"".join(line + b"\n" for line, _, _ in REFUSED) + request("last", "getbestblockhash", seat=1)
        ended = play(self.folder, data, "--seats", "2")
        self.assertEqual(len(ended.answers), len(REFUSED) + 1)
        last = {"jsonrpc": "2.0", "id": "last", "result": {"at": 0, "answer": {"hash": GENESIS}}}
        self.assertIn(last, ended.answers)
        self.assertEqual((ended.status, ended.err), (0, ""))

    def test_a_line_that_is_too_long(self) -> None:
        """70,000,000 bytes are read, and one more is refused; what follows is read."""
        front, back = b'{"jsonrpc":"2.0","id":1,"method":"note","params":{"seat":0},"x":"', b'"}'
        fits = front + b"x" * (70_000_000 - len(front) - len(back)) + back
        ended = play(self.folder, fits + b"\n" + fits + b" \n" + request(2, "note", seat=0), "--seats", "1")
        note = {"at": 0}
        self.assertCountEqual(
            ended.answers,
            [
                {"jsonrpc": "2.0", "id": 1, "result": note},
                {"jsonrpc": "2.0", "id": None, "error": TOO_LONG},
                {"jsonrpc": "2.0", "id": 2, "result": note},
            ],
        )
        self.assertEqual((ended.status, ended.err), (0, ""))

    def test_how_many_values_a_line_has(self) -> None:
        """1,000 of the characters that begin values are read, and one more is refused; those in texts don't count."""
        front, back = b'{"jsonrpc":"2.0","id":1,"method":"note","params":{"seat":0},"x":', b"}"
        left = 1_000 - sum(front.count(it) for it in (b",", b"[", b"{"))
        note = {"jsonrpc": "2.0", "id": 1, "result": {"at": 0}}
        for value, is_read in [
            (b"[" + b",".join([b"1"] * left) + b"]", True),
            (b"[" + b",".join([b"1"] * (left + 1)) + b"]", False),
            (b"[" + b",".join([b"[]"] * (left // 2)) + b"]", True),
            (b"[" + b",".join([b"[]"] * (left // 2 + 1)) + b"]", False),
            (b"[" + b",".join([b"{}"] * (left // 2 + 1)) + b"]", False),
            (b"{" + b",".join([b'"a":1'] * left) + b"}", True),
            (b"{" + b",".join([b'"a":1'] * (left + 1)) + b"}", False),
            (b'"' + b",[{" * 1_000 + b'"', True),
            (b'"' + b'\\",' * 1_000 + b'"', True),
            (b'"' + b"\\\\" * 1_000 + b'"', True),
            (b'"\\\\"' + b"," * 1_000, False),
            (b'"' + b"x" * 65_536 + b'\\",' * 1_000 + b'"', True),
        ]:
            with self.subTest(value=value[:20], length=len(value)):
                ended = play(self.folder, front + value + back + b"\n" + request(2, "note", seat=0), "--seats", "1")
                first = note if is_read else {"jsonrpc": "2.0", "id": None, "error": TOO_MANY}
                self.assertCountEqual(ended.answers, [first, {"jsonrpc": "2.0", "id": 2, "result": {"at": 0}}])
                self.assertEqual((ended.status, ended.err), (0, ""))

    def test_a_request_cut_anywhere(self) -> None:
        """Every front of a request as the last line: a parse error, or the empty input's silence; the whole is answered."""
        whole = request(1, "gettxout", seat=0, txid=HASH, n=0).rstrip(b"\n")
        for length in range(len(whole)):
            ended = play(self.folder, whole[:length], "--seats", "1")
            errors = [{"jsonrpc": "2.0", "id": None, "error": PARSE}] if length else []
            self.assertEqual((ended.answers, ended.status, ended.err), (errors, 0, ""))
        ended = play(self.folder, whole, "--seats", "1")
        self.assertEqual(ended.answers, [{"jsonrpc": "2.0", "id": 1, "result": {"at": 0, "answer": None}}])

    def test_many_lines_at_random(self) -> None:
        """Mutated requests: as many answers as lines, each an object with an id and a result or an error."""
        count = 100_000
        chance = random.Random(20_261)
        block = (b"\x01\x00\x00\x00" + bytes(76) + b"\x00").hex()
        requests = [
            request(1, "note", seat=0),
            request("a", "submit", seat=1, block=block, now=1_296_688_602),
            request(None, "gettxout", seat=2, txid=HASH, n=1),
            request(3, "getchaintips", seat=3),
            request(4, "told", seat=0, **{"from": 1}),
            request(5, "invalidate", seat=1, id=GENESIS),
            request(6, "journal", seat=2, **{"from": 1, "to": 2}),
            request(7, "info"),
        ]
        lines = [mutated(chance, chance.choice(requests)) for _ in range(count)]
        lines = [line for line in lines if b"finish" not in line]
        ended = play(self.folder, b"".join(lines), "--seats", "4")
        self.assertEqual((ended.status, ended.err), (0, ""))
        self.assertEqual(len(ended.answers), len(lines))
        for answer in ended.answers:
            self.assertEqual(answer["jsonrpc"], "2.0")
            self.assertEqual(len({"result", "error"} & set(answer)), 1)
            self.assertIn("id", answer)
        for line in ended.out.splitlines():
            self.assertTrue(line.startswith(b'{"jsonrpc":"2.0","id":') and line.endswith(b"}"))
        self.assertGreater(sum("result" in answer for answer in ended.answers), count // 10)
        self.assertGreater(sum("error" in answer for answer in ended.answers), count // 10)
