"""HTTP on the loopback: a thread for each connection, with bounds on time, size and number."""

import io
import re
import select
import socket
import socketserver
import threading
import time
import urllib.parse
from collections import OrderedDict
from http import HTTPStatus
from http.server import BaseHTTPRequestHandler
from typing import Any, Callable, List, Optional, Sequence, Set, Tuple

from .auth import Gate

#: How many connections there may be. Where one more comes, that which waits longest for a request is closed.
MAX_CONNECTIONS = 64
#: How many seconds a request may take to come, and an answer to be taken.
TIMEOUT = 30.0
#: How many bytes the lines of a request's head may have together, as at bitcoind.
MAX_HEAD = 8192
#: How many bytes the body of a request may have.
MAX_BODY = 32 * 1024 * 1024
#: How long a wrong password waits for its answer, in seconds, as in Bitcoin Core.
WRONG_PASSWORD_WAIT = 0.25

LOOPBACK = ("127.0.0.1", "localhost", "::1")
#: The path of the page of -page, and of what it asks for, where a slash ends a path.
PAGE = "/page/"
#: What is before the name of a wallet in a path.
WALLET = "/wallet/"
#: The methods that bitcoind knows; it answers all but POST by 405, and others by 501.
METHODS = ("GET", "POST", "HEAD", "PUT", "DELETE")
_FIRST = re.compile(rb"([!-~]+) ([!-~\x80-\xff]+) HTTP/1\.[0-9]\r?\n")
#: A header, or a line that goes on with it.
_FIELD = re.compile(rb"(?:[!-9;-~]+:|[ \t])[^\r\n]*\r?\n")
_HOST = re.compile(r"(?:\[([0-9a-f:.]+)\]|([a-z0-9.-]+))(?::[0-9]{0,5})?")

#: Answers a request's body by an HTTP status and a body; asks whether the client is gone. The wallet is one that the path names.
Answers = Callable[[bytes, Callable[[], bool], Optional[str]], Tuple[int, bytes]]
#: Answers a GET's path by a status, a body, its type and headers, where that path is the page's.
Pages = Callable[[str, Callable[[], bool]], Tuple[int, bytes, str, Sequence[str]]]


class _Timed(io.RawIOBase):
    """What comes over a socket, until a moment."""

    def __init__(self, connection: socket.socket) -> None:
        self.connection = connection
        self.until = 0.0

    def readable(self) -> bool:
        return True

    def readinto(self, buffer: Any) -> int:
        left = self.until - time.monotonic()
        if left <= 0:
            raise TimeoutError
        self.connection.settimeout(left)
        return self.connection.recv_into(buffer)


class Handler(BaseHTTPRequestHandler):
    """One connection."""

    protocol_version = "HTTP/1.1"
    server: "Server"

    def setup(self) -> None:
        super().setup()
        self.timed = _Timed(self.connection)
        self.rfile = io.BufferedReader(self.timed, 65536)
        self.connection.setsockopt(socket.IPPROTO_TCP, socket.TCP_NODELAY, True)

    def handle_one_request(self) -> None:
        self.timed.until = time.monotonic() + TIMEOUT
        self.close_connection, self.command, self.request_version = True, "", ""
        try:
            lines = self._head()
            if lines:
                self._request(lines)
        except (OSError, ValueError):
            self.close_connection = True

    def _head(self) -> List[bytes]:
        """The lines of a request's head, with the empty one at its end. Empty where the client is gone, or where they are
        too long, which is answered."""
        lines: List[bytes] = []
        left = MAX_HEAD
        while left >= 0:
            lines.append(self.rfile.readline(left + 3))
            left -= max(1, len(lines[-1].rstrip(b"\r\n")))
            if left >= 0 and not lines[-1].endswith(b"\n"):
                return []
            if lines[-1] in (b"\r\n", b"\n"):
                return lines
        self.send_error(400)
        return []

    def _request(self, lines: List[bytes]) -> None:
        first = _FIRST.fullmatch(lines[0])
        if first is None or not all(map(_FIELD.fullmatch, lines[1:-1])):
            return self.send_error(400)
        if first[1].decode() not in METHODS:
            return self.send_error(501)
        self.raw_requestline, whole = lines[0], self.rfile
        self.rfile = io.BytesIO(b"".join(lines[1:]))
        try:
            read = self.parse_request()
        finally:
            self.rfile = whole
        if read:
            # As it was sent: `parse_request` makes one slash of several.
            self.path = first[2].decode("latin-1")
            self._post()

    def send_error(self, code: int, message: Optional[str] = None, explain: Optional[str] = None) -> None:
        """What isn't HTTP as bitcoind reads it has a page as of its library; it is the connection's end."""
        code = code if code in (413, 417, 501) else 400
        phrase = HTTPStatus(code).phrase
        page = f"<HTML><HEAD>\n<TITLE>{code} {phrase}</TITLE>\n</HEAD><BODY>\n<H1>{phrase}</H1>\n</BODY></HTML>\n"
        self._answer(code, page.encode(), last=True, kind="text/html")

    def handle_expect_100(self) -> bool:
        """The body is asked for in `_post`, after the password."""
        return True

    def _post(self) -> None:
        refused = self._refusal()
        if refused is not None:
            self._answer(*refused, last=True)
            return
        length = self._length()
        if length is None or length > MAX_BODY:
            self.send_error(400 if length is None else 413)
            return
        expected = self.headers.get("Expect", "").lower()
        if expected not in ("", "100-continue"):
            self.send_error(417)
            return
        if expected:
            self.send_response_only(100)
            self.end_headers()
        body = self.rfile.read(length)
        if len(body) < length:
            self.close_connection = True
            return
        self.server.takes(self.connection)
        if self.command == "POST":
            status, reply = self.server.answer(body, self._is_gone, self._wallet())
            self._answer(status, reply, last=self.server.stopping())
        elif self.server.page is not None:
            status, reply, kind, more = self.server.page(self.path, self._is_gone)
            self._answer(status, reply, last=self.server.stopping(), kind=kind, more=more)
        self.server.waits(self.connection)

    def _refusal(self) -> Optional[Tuple[int, bytes]]:
        """Why a request isn't read: first what a page in a browser can't hide, then as bitcoind, then the password."""
        if self.headers.get("Origin") is not None or _host(self.headers.get_all("Host", [])) not in LOOPBACK:
            return 403, b""
        if self.command == "DELETE":
            return 405, b""
        is_page = self.server.page is not None and (self.path + "/").startswith(PAGE)
        if self.path != "/" and not self.path.startswith(WALLET) and not is_page:
            return 404, b""
        if is_page and self.headers.get("Sec-Fetch-Site", "none") not in ("none", "same-origin"):
            return 403, b""
        if self.command != ("GET" if is_page else "POST"):
            return 405, b"" if is_page else b"JSONRPC server handles only POST requests"
        if not self.server.gate.lets_in(self.headers.get("Authorization")):
            if self.headers.get("Authorization") is not None:
                time.sleep(WRONG_PASSWORD_WAIT)
            return 401, b""
        return None

    def _wallet(self) -> Optional[str]:
        """The wallet that the path names."""
        if not self.path.startswith(WALLET):
            return None
        return urllib.parse.unquote_to_bytes(self.path[len(WALLET) :].encode("latin-1")).decode(errors="replace")

    def _length(self) -> Optional[int]:
        """The length of the body; None where the head doesn't say it once and in digits."""
        given = self.headers.get_all("Content-Length", ["0"])
        if self.headers.get("Transfer-Encoding") is not None or len(given) > 1:
            return None
        digits = given[0].strip()
        return int(digits) if digits.isascii() and digits.isdigit() and len(digits) < 20 else None

    def _is_gone(self) -> bool:
        """Whether the client has closed the connection."""
        watched = select.poll()
        watched.register(self.connection, getattr(select, "POLLRDHUP", 0))
        return bool(watched.poll(0))

    def _answer(
        self, status: int, body: bytes, last: bool = False, kind: Optional[str] = None, more: Sequence[str] = ()
    ) -> None:  # fmt: skip
        self.connection.settimeout(TIMEOUT)
        if kind is None:
            kind = "application/json" if body and status in (200, 400, 404, 500) else "text/plain"
        lines = [f"HTTP/1.1 {status} {HTTPStatus(status).phrase}", f"Content-Type: {kind}", *more]
        if status == 401:
            lines.append('WWW-Authenticate: Basic realm="jsonrpc"')
        if status != 204:
            lines.append(f"Content-Length: {len(body)}")
        if last:
            self.close_connection = True
        if self.close_connection:
            lines.append("Connection: close")
        elif self.request_version == "HTTP/1.0":
            lines.append("Connection: keep-alive")
        # In one piece, which is one packet where it is short.
        self.wfile.write("\r\n".join([*lines, "", ""]).encode() + (b"" if self.command == "HEAD" else body))

    def log_message(self, format: str, *words: Any) -> None:
        """Nothing is logged."""


def _host(names: List[str]) -> str:
    """The name that a request was sent to, without its port; empty where there isn't one name."""
    found = _HOST.fullmatch(names[0].strip().lower()) if len(names) == 1 else None
    return found[1] or found[2] if found else ""


class Server(socketserver.TCPServer):
    """Listens at an address of the loopback."""

    allow_reuse_address = True
    request_queue_size = 128

    def __init__(self, host: str, port: int, gate: Gate, answer: Answers, page: Optional[Pages] = None) -> None:
        self.gate, self.answer, self.page = gate, answer, page
        self.stopping: Callable[[], bool] = lambda: False
        #: Called by a connection's thread as it ends.
        self.left: Callable[[], None] = lambda: None
        self._lock = threading.Lock()
        # The connections that wait for a request, the one that waits longest first; and those that had one.
        self._waiting: "OrderedDict[socket.socket, None]" = OrderedDict()
        self._busy: Set[socket.socket] = set()
        self.address_family = socket.AF_INET6 if ":" in host else socket.AF_INET
        self._is_closed = False
        super().__init__((host, port), Handler)

    def server_bind(self) -> None:
        """Takes its address; a fault names it."""
        try:
            super().server_bind()
        except OSError as error:
            host: Any
            host, port = self.server_address[:2]
            raise OSError(error.errno, error.strerror, f"{host}:{port}") from None

    def run(self) -> None:
        """Serves until it is shut down. One that was closed before, as by an interrupt, serves nobody."""
        try:
            self.serve_forever(0.1)
        except (OSError, ValueError):
            if not self._is_closed:
                raise

    def server_close(self) -> None:
        self._is_closed = True
        super().server_close()

    def process_request(self, request: Any, client_address: Any) -> None:
        with self._lock:
            full = len(self._waiting) + len(self._busy) >= MAX_CONNECTIONS
            if full and not self._close_one():
                self.shutdown_request(request)
                return
            self._waiting[request] = None
        try:
            threading.Thread(target=self._serve, args=(request, client_address), daemon=True).start()
        except RuntimeError:  # The system has no thread.
            self._ended(request)

    def _close_one(self) -> bool:
        """Closes the connection that waits longest; false where none waits. Its thread ends soon."""
        if not self._waiting:
            return False
        request, _ = self._waiting.popitem(last=False)
        try:
            request.shutdown(socket.SHUT_RDWR)
        except OSError:
            pass
        return True

    def _serve(self, request: Any, client_address: Any) -> None:
        try:
            self.finish_request(request, client_address)
        except (OSError, ValueError):
            pass  # The client is gone, or was too slow.
        finally:
            self._ended(request)
            self.left()

    def _ended(self, request: socket.socket) -> None:
        with self._lock:
            self._waiting.pop(request, None)
            self._busy.discard(request)
        self.shutdown_request(request)

    def takes(self, request: socket.socket) -> None:
        """A request of this connection came."""
        with self._lock:
            if request in self._waiting:
                del self._waiting[request]
                self._busy.add(request)

    def waits(self, request: socket.socket) -> None:
        """A connection waits for the next request."""
        with self._lock:
            if request in self._busy:
                self._busy.discard(request)
                self._waiting[request] = None
