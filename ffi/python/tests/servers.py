"""Servers that tests run."""

import base64
import json
import os
import socket
import threading

from wakotehu import errors, secp256k1
from wakotehu.nodebench import NodeBench
from wakotehu.rpc.auth import Gate
from wakotehu.rpc.node import Node
from wakotehu.rpc.page import Page
from wakotehu.server import serve

ROOT = os.path.realpath(os.path.join(os.path.dirname(__file__), "..", "..", ".."))
PROGRAM = os.environ.get("WAKOTEHU_PROGRAM", f"{ROOT}/crates/regchain/out/regchain")
AUTHORIZATION = "Basic " + base64.b64encode(b"name:password").decode()


def seats(*words, verify=secp256k1, **more):
    """The seats of a node with real signatures, as the server has them by default."""
    return NodeBench(*words, program=PROGRAM, verify=verify, **more)


class Running:
    """A server on a port that is free, which lets in `name` by `password`."""

    def __init__(self, bench=None, gate=None, hosts=("127.0.0.1",), has_page=False):
        self.bench = bench or seats()
        self.node = Node(self.bench)
        page = Page(self.node) if has_page else None
        if gate is None:
            gate = Gate()
            gate.add("name", "password")
        ports, ready = [], threading.Event()

        def told(port):
            ports.append(port)
            ready.set()

        self.thread = threading.Thread(target=serve, args=(self.node, gate, hosts, 0, told, page))
        self.thread.start()
        assert ready.wait(10)
        self.port = ports[0]

    def stop(self):
        with self.node.turn:
            self.node.stopped = True
            self.node.turn.notify_all()
        self.thread.join(20)
        if self.thread.is_alive():
            # A call waits for ever, which fails its test: that has to end.
            with self.node.turn:
                self.bench._break(errors.Closed("the test is over"))
            self.thread.join(20)
        self.bench.close()

    def raw(self, data, timeout=5, close=True):
        """What is answered to these bytes, until the connection is closed."""
        with socket.create_connection(("127.0.0.1", self.port), timeout) as connection:
            connection.sendall(data)
            if close:
                connection.shutdown(socket.SHUT_WR)
            return b"".join(iter(lambda: connection.recv(65536), b""))

    def posted(self, body, path="/", **headers):
        """The status and the body of an answer to a request's body. A header of None isn't sent."""
        if not isinstance(body, bytes):
            body = json.dumps(body).encode()
        named = {"Host": "127.0.0.1", "Authorization": AUTHORIZATION, "Content-Length": str(len(body)),
                 "Connection": "close"}  # fmt: skip
        named.update({name.replace("_", "-"): value for name, value in headers.items()})
        lines = "".join(f"{name}: {value}\r\n" for name, value in named.items() if value is not None)
        # Some calls make a thousand blocks, perhaps while other tests run.
        answer = self.raw(f"POST {path} HTTP/1.1\r\n{lines}\r\n".encode() + body, timeout=60, close=False)
        head, _, rest = answer.partition(b"\r\n\r\n")
        return int(head.split()[1]), rest

    def call(self, method, *params, **named):
        """The result of a call, or its error."""
        _, body = self.posted({"method": method, "params": named or list(params), "id": 1})
        reply = json.loads(body)
        return reply["error"] or reply["result"]
