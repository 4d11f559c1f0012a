"""Who is let in, and what hostile requests are answered."""

import base64
import hashlib
import hmac
import json
import os
import socket
import stat
import tempfile
import threading
import time
import unittest
from unittest import mock

from servers import AUTHORIZATION, Running
from wakotehu.encoding import GENESIS_BLOCK
from wakotehu.rpc import http, txs
from wakotehu.rpc.auth import Gate, write_cookie

COUNT = b'{"id": 1, "method": "getblockcount"}'


class LetInTest(unittest.TestCase):
    @classmethod
    def setUpClass(cls):
        cls.running = Running()
        cls.addClassCleanup(cls.running.stop)

    def test_table_of_requests(self):
        basic = lambda text: "Basic " + base64.b64encode(text).decode()
        table = [
            ("right", {}, 200),
            ("the other names of the loopback", {"Host": "localhost:1234"}, 200),
            ("IPv6", {"Host": "[::1]:18443"}, 200),
            ("no password", {"Authorization": None}, 401),
            ("a wrong one", {"Authorization": basic(b"name:Password")}, 401),
            ("a longer one", {"Authorization": basic(b"name:password2")}, 401),
            ("another user", {"Authorization": basic(b"other:password")}, 401),
            ("no user", {"Authorization": basic(b"")}, 401),
            ("not in base 64", {"Authorization": "Basic *"}, 401),
            ("another scheme", {"Authorization": "Bearer x"}, 401),
            ("bytes that are no text", {"Authorization": basic(b"\xff\xfe:x")}, 401),
            ("a page of another site", {"Origin": "https://evil.example"}, 403),
            ("a page without a site", {"Origin": "null"}, 403),
            ("a page of this machine", {"Origin": "http://127.0.0.1"}, 403),
            ("a name that was bound to the loopback", {"Host": "evil.example"}, 403),
            ("one that begins alike", {"Host": "localhost.evil.example"}, 403),
            ("no Host", {"Host": None}, 403),
            ("an Origin without a password", {"Origin": "x", "Authorization": None}, 403),
            ("a length that is no number", {"Content-Length": "abc"}, 400),
            ("a negative length", {"Content-Length": "-1"}, 400),
            ("a length of many digits", {"Content-Length": "9" * 5000}, 400),
            ("a body that is too long", {"Content-Length": str(32 * 1024 * 1024 + 1)}, 413),
            ("chunks", {"Transfer-Encoding": "chunked"}, 400),
            ("an expectation that no one has", {"Expect": "x"}, 417),
            ("text/plain, as pages may send", {"Content-Type": "text/plain"}, 200),
        ]
        for name, headers, status in table:
            with self.subTest(name):
                found, body = self.running.posted(COUNT, **{key.replace("-", "_"): it for key, it in headers.items()})
                self.assertEqual(found, status)
                # As bitcoind's library of HTTP, that says what it doesn't read on a page.
                self.assertEqual(bool(body), status in (200, 400, 413, 417))

    def test_hosts_that_are_none(self):
        for host in (
            "127.0.0.1:80@evil.example", "127.0.0.1@evil.example", "evil.example@127.0.0.1", "localhost:x", "localhost:80:80",
            "[::1", "[::1]x", "::1", "[::1]:80@evil.example", "127.0.0.1:123456", "localhost/", "", ":80", "localhost, evil",
        ):  # fmt: skip
            with self.subTest(host):
                self.assertEqual(self.running.posted(COUNT, Host=host)[0], 403)
        for host in ("localhost:", "LOCALHOST:1", "127.0.0.1:65535", "[::1]", "[::1]:8"):
            with self.subTest(host):
                self.assertEqual(self.running.posted(COUNT, Host=host)[0], 200)

    def test_methods_and_paths(self):
        """Statuses and texts are litecoind's."""
        only = b"JSONRPC server handles only POST requests"
        table = [
            ("GET", "/", 405, only), ("PUT", "/", 405, only), ("HEAD", "/", 405, b""), ("DELETE", "/", 405, b""),
            ("OPTIONS", "/", 501, None), ("PATCH", "/", 501, None), ("TRACE", "/", 501, None), ("FOO", "/", 501, None),
            ("post", "/", 501, None), ("OPTIONS", "/x", 501, None), ("DELETE", "/x", 405, b""), ("GET", "//", 404, b""),
            ("POST", "/x", 404, b""), ("POST", "//", 404, b""), ("POST", "/rest/chaininfo.json", 404, b""),
            ("GET", "/rest/chaininfo.json", 404, b""), ("POST", "/wallet", 404, b""), ("POST", "/?a=b", 404, b""),
            ("POST", "http://127.0.0.1/", 404, b""), ("POST", "*", 404, b""), ("GET", "/wallet/x", 405, only),
        ]  # fmt: skip
        for method, path, status, text in table:
            with self.subTest(method=method, path=path):
                head = f"{method} {path} HTTP/1.1\r\nHost: localhost\r\nAuthorization: {AUTHORIZATION}\r\n\r\n".encode()
                head, _, body = self.running.raw(head).partition(b"\r\n\r\n")
                self.assertEqual(int(head.split()[1]), status)
                if text is not None:
                    self.assertEqual(body, text)

    def test_wallets_have_paths(self):
        """Clients that set a wallet's path are answered as at bitcoind, which has calls of the node there too."""
        for path in ("/wallet/", "/wallet/name", "/wallet/a/b", "/wallet/%20"):
            with self.subTest(path):
                self.assertEqual(self.running.posted(COUNT, path=path), (200, b'{"result":0,"error":null,"id":1}\n'))
                self.assertEqual(self.running.posted(COUNT, path=path, Authorization=None)[0], 401)
                self.assertEqual(self.running.posted(COUNT, path=path, Origin="x")[0], 403)

    def test_heads(self):
        """Statuses are litecoind's, except for two spaces (404 there), a carriage return within a line (200), a space
        in a header's name (200) and HTTP/0.9 (200)."""
        fields = f"Host: localhost\r\nAuthorization: {AUTHORIZATION}\r\nContent-Length: {len(COUNT)}\r\n".encode()
        first = b"POST / HTTP/1.1"
        room = 8192 - len(first) - len(fields.replace(b"\r\n", b""))
        table = [
            (first, b"", 200), (b"POST / HTTP/1.0", b"", 200), (b"POST / HTTP/1.2", b"", 200), (b"POST / HTTP/2.0", b"", 400),
            (b"POST / HTTP/0.9", b"", 400), (b"POST /", b"", 400), (b"POST", b"", 400), (b"", b"", 400), (b"xx", b"", 400),
            (b"GET /", b"", 400), (b"POST / HTTP/1.1 x", b"", 400), (b"POST / http/1.1", b"", 400),
            (b"POST / FOO/1.1", b"", 400), (b"POST / HTTP/1", b"", 400), (b"POST / HTTP/11", b"", 400),
            (b"POST  / HTTP/1.1", b"", 400), (b"\x16\x03\x01\x02\x00\x01", b"", 400), (b"PRI * HTTP/2.0", b"", 400),
            (b"POST /" + b"a" * 9000 + b" HTTP/1.1", b"", 400), (first, b"X: " + b"a" * (room - 3) + b"\r\n", 200),
            (first, b"X: " + b"a" * (room - 2) + b"\r\n", 400), (first, b"X: " + b"a" * 60000 + b"\r\n", 400),
            (first, b"X: a\r\n" * 90, 200), (first, b"X: a\r\n" * 2100, 400), (first, b"\r\r\n" * 9000, 400),
            (first, b"X: a\r\n b\r\n", 200), (first, b"X\r\n", 400), (first, b"X y: z\r\n", 400), (first, b"X : z\r\n", 400), (first, b"X: a\rOrigin: b\r\n", 400),
        ]  # fmt: skip
        for line, more, status in table:
            with self.subTest(line=line[:30], more=more[:30]):
                answer = self.running.raw(line + b"\r\n" + fields + more + b"\r\n" + COUNT)
                self.assertEqual(answer.split(None, 2)[:2], [b"HTTP/1.1", b"%d" % status])

    def test_a_connection_is_kept(self):
        fields = f"Host: localhost\r\nAuthorization: {AUTHORIZATION}\r\nContent-Length: {len(COUNT)}\r\n".encode()
        for line, more, kept in (
            (b"POST / HTTP/1.1", b"", True), (b"POST / HTTP/1.1", b"Connection: close\r\n", False),
            (b"POST / HTTP/1.0", b"", False), (b"POST / HTTP/1.0", b"Connection: keep-alive\r\n", True),
        ):  # fmt: skip
            with self.subTest(line=line, more=more):
                twice = self.running.raw(2 * (line + b"\r\n" + fields + more + b"\r\n" + COUNT))
                self.assertEqual(twice.count(b'"result":0'), 1 + kept)

    def test_the_body_is_asked_for_after_the_password(self):
        for authorization, status in (("Basic eDp4", b"401"), (AUTHORIZATION, b"100")):
            head = (
                f"POST / HTTP/1.1\r\nHost: localhost\r\nAuthorization: {authorization}\r\nExpect: 100-continue\r\n"
                f"Content-Length: {len(COUNT)}\r\n\r\n"
            )
            with socket.create_connection(("127.0.0.1", self.running.port), 5) as connection:
                connection.sendall(head.encode())
                self.assertEqual(connection.recv(12).split()[1], status)

    def test_hostile_requests_are_answered(self):
        hostile = [
            (b"", 500, -32700), (b"\xff", 500, -32700), (b"[" * 100000, 500, -32700), (b"[" * 400 + b"]" * 400, 200, None),
            (b'{"a":' * 100000 + b"1" + b"}" * 100000, 500, -32700), (b"1" * 100000, 500, -32700),
            (b'{"method": "getblockhash", "params": [' + b"1" * 100000 + b"]}", 500, -1),
            (b'{"method": "getblockhash", "params": [NaN]}', 500, -32700), (b"null", 500, -32700),
            (b'{"method": "getblockhash", "params": 5}', 400, -32600), (b'{"method": null}', 400, -32600),
            (b'{"method": "getblockhash", "params": {"self": 1}}', 500, -8),
            (b'{"method": "getblockhash", "params": {"node": 1}}', 500, -8),
            (b'{"method": "__init__"}', 404, -32601), (b'{"method": "rpc_stop"}', 404, -32601),
            (b'{"method": "setmocktime", "params": [18446744073709551616]}', 500, -1),
            (b'{"method": "generatetoaddress", "params": [1, "' + b"1" * 100000 + b'"]}', 500, -5),
            (b'{"method": "generatetodescriptor", "params": [1000000000, "raw(51)"]}', 500, -1),
            (b'{"method": "decodescript", "params": ["' + b"4d" * 10000 + b'"]}', 200, None),
            (b'{"method": "submitblock", "params": ["' + b"ff" * 10000 + b'"]}', 500, -22),
            (b'{"method": "getblock", "params": ["' + b"0" * 100000 + b'"]}', 500, -8),
        ]  # fmt: skip
        for body, status, code in hostile:
            with self.subTest(body[:60]):
                begun = time.perf_counter()
                found, reply = self.running.posted(body)
                told = json.loads(reply)
                error = told["error"] if isinstance(told, dict) else None
                self.assertEqual((found, error and error["code"]), (status, code))
                self.assertLess(len(reply), 30000)
                self.assertLess(time.perf_counter() - begun, 2)
        self.assertEqual(self.running.call("getblockcount"), 0)

    def test_mocktime_of_more_than_32_bits(self):
        try:
            self.assertIsNone(self.running.call("setmocktime", 2**32))
            # Cut to 32 bits; the text is litecoind's.
            told = "CreateNewBlock: TestBlockValidity failed: time-too-old, block's timestamp is too early"
            for words in (["generateblock", "raw(51)", []], ["generatetodescriptor", 1, "raw(51)"]):
                self.assertEqual(self.running.call(*words), {"code": -1, "message": told})
            self.assertEqual(self.running.call("getblockcount"), 0)
        finally:
            self.running.call("setmocktime", 0)


class HeldUpTest(unittest.TestCase):
    """No one holds the server up."""

    start = staticmethod(Running)

    def test_idle_connections_hold_no_one_up(self):
        running = self.start()
        self.addCleanup(running.stop)
        idle = []
        try:
            for _ in range(3 * http.MAX_CONNECTIONS):
                idle.append(socket.create_connection(("127.0.0.1", running.port), 5))
                idle[-1].sendall(b"POST / HTTP/1.1\r\n")
            begun = time.perf_counter()
            self.assertEqual(running.call("getblockcount"), 0)
            self.assertLess(time.perf_counter() - begun, 3)
            self.assertLess(threading.active_count(), http.MAX_CONNECTIONS + 20)
        finally:
            for connection in idle:
                connection.close()

    def test_a_request_that_comes_too_slowly_is_ended(self):
        with mock.patch.object(http, "TIMEOUT", 0.5):
            running = self.start()
            self.addCleanup(running.stop)
            begun = time.perf_counter()
            with socket.create_connection(("127.0.0.1", running.port), 5) as connection:
                try:
                    # A byte each tenth of a second: each comes in time, and the request doesn't.
                    for sign in b"POST / HTTP/1.1\r\nHost: localhost":
                        connection.sendall(bytes([sign]))
                        time.sleep(0.1)
                except OSError:
                    pass
            self.assertLess(time.perf_counter() - begun, 2)

    def test_both_addresses_of_the_loopback(self):
        try:
            socket.create_server(("::1", 0), family=socket.AF_INET6).close()
        except OSError:
            self.skipTest("this machine has no IPv6")
        running = self.start(hosts=("127.0.0.1", "::1"))
        self.addCleanup(running.stop)
        self.assertEqual(running.call("getblockcount"), 0)
        with socket.create_connection(("::1", running.port), 5) as connection:
            head = f"POST / HTTP/1.1\r\nHost: [::1]\r\nAuthorization: {AUTHORIZATION}\r\nContent-Length: {len(COUNT)}\r\n"
            connection.sendall(head.encode() + b"\r\n" + COUNT)
            self.assertEqual(connection.recv(65536).split()[1], b"200")

    def test_a_wait_ends_with_its_client(self):
        """A connection that is closed gives its place back, and its seat."""
        running = self.start()
        self.addCleanup(running.stop)
        before = threading.active_count()
        words = (
            ("waitforblock", "11" * 32), ("waitforblockheight", 9), ("waitforblockheight", 9, 600000), ("waitfornewblock",),
        )  # fmt: skip
        waiting = []
        for number in range(http.MAX_CONNECTIONS):
            method, *params = words[number % len(words)]
            body = json.dumps({"method": method, "params": params}).encode()
            head = f"POST / HTTP/1.1\r\nHost: localhost\r\nAuthorization: {AUTHORIZATION}\r\nContent-Length: {len(body)}"
            waiting.append(socket.create_connection(("127.0.0.1", running.port), 5))
            waiting[-1].sendall(head.encode() + b"\r\n\r\n" + body)
        # Threads of other servers may end meanwhile.
        self.wait_until(lambda: threading.active_count() >= before + http.MAX_CONNECTIONS - 20)
        for connection in waiting:
            connection.close()
        self.wait_until(lambda: threading.active_count() <= before + 20)
        self.assertEqual(running.call("getblockcount"), 0)

    def wait_until(self, holds):
        for _ in range(300):
            if holds():
                return
            time.sleep(0.1)
        self.fail("it didn't come")

    def test_scripts_and_transactions_hold_no_one_up(self):
        """Those of more than a block are refused; within one, others are answered meanwhile."""
        running = self.start()
        self.addCleanup(running.stop)
        for method, code in (("decodescript", -8), ("decoderawtransaction", -22)):
            error = running.call(method, "51" * 5_000_000)
            self.assertEqual(error["code"], code)
            self.assertIn("1000000 bytes", error["message"])
        with mock.patch.object(txs, "shown", side_effect=lambda *words, **more: (running.call("getblockcount"), {})[1]):
            self.assertIn("p2sh", running.call("decodescript", "51"))
        with mock.patch.object(txs, "transaction_fields", side_effect=lambda *words, **more: running.call("getblockcount")):
            self.assertEqual(running.call("decoderawtransaction", GENESIS_BLOCK[81:].hex()), 0)
        self.assertEqual(len(running.call("decodescript", "51" * 1_000_000)["asm"]), 1_999_999)

    def test_a_fault_of_ours_is_answered(self):
        running = self.start()
        self.addCleanup(running.stop)
        with mock.patch.object(running.bench, "tips", side_effect=AssertionError("ours")):
            error = running.call("getchaintips")
        self.assertEqual((error["code"], error["message"]), (-1, "AssertionError: ours"))

    def test_waiting_calls_let_others_in(self):
        running = self.start()
        self.addCleanup(running.stop)
        told = []
        waiting = threading.Thread(target=lambda: told.append(running.call("waitforblockheight", 2, 4000)))
        waiting.start()
        time.sleep(0.2)
        running.call("generatetodescriptor", 2, "raw(51)")
        waiting.join()
        self.assertEqual((told[0]["height"], told[0]["hash"]), (2, running.call("getbestblockhash")))


class GateTest(unittest.TestCase):
    def test_salted(self):
        gate = Gate()
        digest = hmac.new(b"salt", b"secret", hashlib.sha256).hexdigest()
        gate.add_salted(f"alice:salt${digest}")
        for text, let_in in ((b"alice:secret", True), (b"alice:Secret", False), (b"bob:secret", False), (b"alice", False)):
            self.assertEqual(gate.lets_in("Basic " + base64.b64encode(text).decode()), let_in)
        for bad in ("alice", "alice:salt", ":salt$x", "alice:$x", "alice:salt$"):
            self.assertRaises(ValueError, gate.add_salted, bad)
        self.assertRaises(ValueError, gate.add, "a:b", "c")

    def test_no_one_is_let_in_by_an_empty_gate(self):
        self.assertFalse(Gate().lets_in("Basic " + base64.b64encode(b":").decode()))
        self.assertFalse(Gate().lets_in(None))
        self.assertTrue(Gate(anyone=True).lets_in(None))

    def test_cookie(self):
        with tempfile.TemporaryDirectory() as folder:
            path, other = os.path.join(folder, ".cookie"), os.path.join(folder, "other")
            with open(other, "w", encoding="ascii") as file:
                file.write("mine")
            os.symlink(other, path)
            first, second = write_cookie(path), write_cookie(path)
            self.assertNotEqual(first, second)
            self.assertEqual(stat.S_IMODE(os.lstat(path).st_mode), 0o600)
            self.assertTrue(stat.S_ISREG(os.lstat(path).st_mode))
            with open(path, encoding="ascii") as file:
                self.assertEqual(file.read(), f"__cookie__:{second}")
            with open(other, encoding="ascii") as file:
                self.assertEqual(file.read(), "mine")
            self.assertEqual(sorted(os.listdir(folder)), [".cookie", "other"])


if __name__ == "__main__":
    unittest.main()
