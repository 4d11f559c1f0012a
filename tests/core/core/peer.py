"""Bitcoin Core's code as a process: Debian's `litecoind`, without segregated witness, on its regtest.

Its validation.cpp, interpreter.cpp and coins.cpp are those of Bitcoin Core 0.21. Its own are the work of a header (scrypt),
the genesis block and the limit of money.
"""

import base64
import hashlib
import http.client
import json
import os
import shutil
import socket
import subprocess
import time
from pathlib import Path
from types import TracebackType
from typing import Any, List, Optional, Sequence, Tuple, Type

PROGRAM = "litecoind"

#: The heights from which its regtest has BIP 34, BIP 65, BIP 66, and BIPs 68, 112 and 113.
HEIGHTS = (500, 1351, 1251, 432)

#: The id of its genesis block, as it is hashed.
GENESIS_ID = bytes.fromhex("530827f38f93b43ed12af0b3ad25a288dc02ed74d6d7857862df51fc56c416f9")[::-1]

#: The most that its blocks may make altogether; Bitcoin's is 21e14.
MAX_MONEY = 84 * 10**14


class PeerError(Exception):
    """A call that was answered by an error."""

    def __init__(self, code: int, text: str) -> None:
        super().__init__(f"{code}: {text}")
        self.code, self.text = code, text


def is_there() -> bool:
    """Whether the program is installed."""
    return shutil.which(PROGRAM) is not None


def work(header: bytes) -> int:
    """What is compared with a target: scrypt of the header, as a number."""
    return int.from_bytes(hashlib.scrypt(header, salt=header, n=1024, r=1, p=1, dklen=32), "little")


def has_work(header: bytes) -> bool:
    """Whether the header meets the target of regtest."""
    return work(header) <= 0x7FFFFF << 232


class Peer:
    """A running peer in a folder of its own. It ends with the `with` block."""

    def __init__(self, folder: Path, options: Sequence[str] = ()) -> None:
        self.folder = folder
        folder.mkdir(parents=True, exist_ok=True)
        self.port = _free_port()
        command = [
            PROGRAM, "-regtest", f"-datadir={folder}", "-segwitheight=-1", f"-rpcport={self.port}", "-rpcuser=u",
            "-rpcpassword=p", "-listen=0", "-dnsseed=0", "-connect=0", "-par=2", "-rpcthreads=2", "-dbcache=64",
            "-server=1", "-daemon=0", "-printtoconsole=0", "-checkblockindex=0", "-checkmempool=0", *options,
        ]  # fmt: skip
        self._process = subprocess.Popen(command, stdout=subprocess.DEVNULL, stderr=subprocess.PIPE)
        self._key = base64.b64encode(b"u:p").decode()
        self._link: Optional[http.client.HTTPConnection] = None
        self._wait()

    @property
    def pid(self) -> int:
        """Its process."""
        return self._process.pid

    def __enter__(self) -> "Peer":
        return self

    def __exit__(
        self, kind: Optional[Type[BaseException]], value: Optional[BaseException], trace: Optional[TracebackType]
    ) -> None:
        self.stop()

    def stop(self, is_kept: bool = False) -> None:
        """Ends the process; at once where its data aren't kept, since it takes half a minute to end by itself."""
        if self._process.poll() is None:
            if is_kept:
                self._process.terminate()
                self._process.wait(120)
            else:
                self._process.kill()
                self._process.wait()
        assert self._process.stderr is not None
        self._process.stderr.close()

    def _wait(self) -> None:
        end = time.monotonic() + 300
        while time.monotonic() < end:
            if self._process.poll() is not None:
                assert self._process.stderr is not None
                raise RuntimeError("litecoind ended: " + self._process.stderr.read().decode(errors="replace"))
            try:
                self.call("getblockcount")
                return
            except (OSError, PeerError, http.client.HTTPException):
                time.sleep(0.1)
        self.stop()
        raise RuntimeError("litecoind doesn't answer")

    def call(self, method: str, *params: Any) -> Any:
        """The result of a call."""
        return self.calls([(method, params)])[0]

    def calls(self, requests: Sequence[Tuple[str, Sequence[Any]]]) -> List[Any]:
        """The results of some calls, one after the other, in one batch."""
        answers = self.try_calls(requests)
        for answer in answers:
            if isinstance(answer, PeerError):
                raise answer
        return answers

    def try_calls(self, requests: Sequence[Tuple[str, Sequence[Any]]]) -> List[Any]:
        """The same; an error stands in the place of its result."""
        batch = [{"id": n, "method": m, "params": list(p)} for n, (m, p) in enumerate(requests)]
        body = json.dumps(batch if len(batch) > 1 else batch[0])
        found = json.loads(self._post(body))
        answers = found if isinstance(found, list) else [found]
        return [_result(answer) for answer in answers]

    def _post(self, body: str) -> bytes:
        head = {"Authorization": "Basic " + self._key, "Content-Type": "application/json"}
        for last in (False, True):
            if self._link is None:
                self._link = http.client.HTTPConnection("127.0.0.1", self.port, timeout=120)
            try:
                self._link.request("POST", "/", body, head)
                # The peer writes a long answer in pieces, and waits for an acknowledgement behind each.
                self._link.sock.setsockopt(socket.IPPROTO_TCP, socket.TCP_QUICKACK, 1)
                return self._link.getresponse().read()
            except (OSError, http.client.HTTPException):
                self._link.close()
                self._link = None
                if last:
                    raise
        raise AssertionError

    # ---- what is asked of it

    def submit(self, block: bytes) -> str:
        """The reply to a submission, in its words; "accepted" for null."""
        answer = self.try_calls([("submitblock", [block.hex()])])[0]
        if isinstance(answer, PeerError):
            if answer.code == -22:
                return "bad-cb-missing" if "coinbase" in answer.text else "decode-failed"
            return str(answer)
        return "accepted" if answer is None else str(answer)

    def mark(self, command: str, id: bytes) -> str:
        """What `invalidate`, `reconsider` or `precious` came to: "done", or "not-found"."""
        answer = self.try_calls([(command + "block", [id[::-1].hex()])])[0]
        if isinstance(answer, PeerError):
            return "not-found" if answer.code == -5 else str(answer)
        return "done"

    def best(self) -> bytes:
        return bytes.fromhex(self.call("getbestblockhash"))[::-1]

    def tips(self) -> List[Tuple[bytes, int, int, str]]:
        """Its tips: id, height, length of the branch, status."""
        return [
            (bytes.fromhex(t["hash"])[::-1], t["height"], t["branchlen"], t["status"]) for t in self.call("getchaintips")
        ]

    def propose(self, blocks: Sequence[bytes]) -> List[str]:
        """Of blocks on the best one, without work: what connecting each would come to; "accepted" for null."""
        asked = ({"mode": "proposal", "data": b.hex(), "rules": ["mweb", "segwit"]} for b in blocks)
        requests: List[Tuple[str, Sequence[Any]]] = [("getblocktemplate", [words]) for words in asked]
        return ["accepted" if a is None else str(a) for a in self.try_calls(requests)]


def _result(answer: Any) -> Any:
    error = answer.get("error")
    return PeerError(error["code"], error["message"]) if error else answer["result"]


def _free_port() -> int:
    with socket.socket() as probe:
        probe.bind(("127.0.0.1", 0))
        return int(probe.getsockname()[1])


def version() -> str:
    """Its first line of `--version`."""
    return subprocess.run([PROGRAM, "--version"], stdout=subprocess.PIPE, check=True).stdout.decode().splitlines()[0]


def remove(folder: Path) -> None:
    """Takes a data folder away."""
    if os.path.lexists(folder):
        shutil.rmtree(folder)
