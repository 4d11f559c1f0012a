#!/usr/bin/env python3
"""Times the server of ffi/python over HTTP, one client on one connection: submitblock of empty blocks, and getblock.

    ./build && ffi/build && bench/server.py [BLOCKS]      20,000 blocks by default

Goals: 2,000 submitblock a second; 1,000 getblock at 20,000 blocks in less than a second. What the client takes counts
too. It takes the library of ffi/out and the program of ./build, and prints a line for each goal; the status is 1 where one is missed.
"""

import base64
import json
import os
import random
import socket
import subprocess
import sys
import time
from typing import Any, List

ROOT = os.path.dirname(os.path.dirname(os.path.realpath(__file__)))
os.environ.setdefault("WAKOTEHU_LIBRARY", f"{ROOT}/ffi/out/libwakotehu.so")
os.environ.setdefault("WAKOTEHU_PROGRAM", f"{ROOT}/crates/regchain/out/regchain")
os.environ["PYTHONPATH"] = f"{ROOT}/ffi/python"
sys.path.insert(0, os.environ["PYTHONPATH"])

from wakotehu.encoding import GENESIS, coinbase, double_sha, mine, subsidy  # noqa: E402


class Client:
    """A client that keeps its connection, and does little more than a socket: Python's own takes as long as the server."""

    def __init__(self, place: str, word: str = "name:password") -> None:
        host, _, port = place.rpartition(":")
        self.connection = socket.create_connection((host, int(port)))
        self.connection.setsockopt(socket.IPPROTO_TCP, socket.TCP_NODELAY, True)
        key = base64.b64encode(word.encode()).decode()
        self.head = f"POST / HTTP/1.1\r\nHost: {host}\r\nAuthorization: Basic {key}\r\nContent-Length: "

    def spelled(self, method: str, *params: Any) -> bytes:
        """A request as it is sent."""
        body = json.dumps({"id": 1, "method": method, "params": params})
        return f"{self.head}{len(body)}\r\n\r\n{body}".encode()

    def ask(self, request: bytes) -> Any:
        """The result of a request."""
        self.connection.sendall(request)
        got = b""
        while not got.endswith(b"}\n"):
            got += self.connection.recv(65536)
        reply = json.loads(got[got.index(b"\r\n\r\n") :])
        if reply["error"]:
            raise SystemExit(f"{reply['error']}")
        return reply["result"]

    def call(self, method: str, *params: Any) -> Any:
        return self.ask(self.spelled(method, *params))


def chain(count: int) -> List[str]:
    """Blocks of a coinbase each, as hexadecimal digits."""
    parent, blocks = GENESIS.id, []
    for height in range(1, count + 1):
        block = mine(parent, GENESIS.time + height, [coinbase(height, subsidy(height))])
        parent = double_sha(block[:80])
        blocks.append(block.hex())
    return blocks


def told(what: str, got: str, unit: str, goal: str, met: bool) -> bool:
    print(f"{what}: {got} {unit}, goal {goal}: {'met' if met else 'missed'}", flush=True)
    return met


def measured(client: Client, blocks: List[str]) -> bool:
    """Whether both goals are met."""
    begun = time.perf_counter()
    for block in blocks:
        client.call("submitblock", block)
    rate = len(blocks) / (time.perf_counter() - begun)
    ids = [client.call("getblockhash", random.randrange(len(blocks))) for _ in range(1000)]
    begun = time.perf_counter()
    for id in ids:
        client.call("getblock", id)
    spent = time.perf_counter() - begun
    begun = time.perf_counter()
    for _ in range(1000):
        client.call("getblockchaininfo")
    infos = time.perf_counter() - begun
    met = told("submitblock", f"{rate:.0f}", "a second", "2,000", rate >= 2000)
    met &= told(f"1,000 getblock at {len(blocks)} blocks", f"{spent:.2f}", "s", "1.00", spent < 1)
    print(f"1,000 getblockchaininfo there: {infos:.2f} s")
    return met


def main() -> None:
    if {"-h", "--help"} & set(sys.argv[1:]):
        print(__doc__)
        return
    blocks = chain(int(sys.argv[1]) if len(sys.argv) > 1 else 20000)
    names = {**os.environ, "WAKOTEHU_RPCUSER": "name", "WAKOTEHU_RPCPASSWORD": "password"}
    command = [sys.executable, "-m", "wakotehu.server", "-rpcport=0"]
    with subprocess.Popen(command, stdout=subprocess.PIPE, text=True, env=names) as server:
        assert server.stdout
        client = Client(server.stdout.readline().strip())
        client.call("setmocktime", GENESIS.time + 10 * len(blocks))
        met = measured(client, blocks)
        client.call("stop")
    sys.exit(0 if met else 1)


if __name__ == "__main__":
    main()
