"""Who is let in: the cookie, a user with a password, or users with salted hashes, as bitcoind has them."""

import base64
import binascii
import hashlib
import hmac
import os
import secrets
import tempfile
from typing import List, Optional

from ..history import regular

COOKIE_USER = "__cookie__"


class Gate:
    """Lets in those who know a password. With `anyone`, everyone is."""

    def __init__(self, anyone: bool = False) -> None:
        self.anyone = anyone
        self._plain: List[bytes] = []
        self._salted: List[List[str]] = []

    def add(self, user: str, password: str) -> None:
        """Lets in a user by a password."""
        if ":" in user:
            raise ValueError("a user's name has no colon")
        self._plain.append(f"{user}:{password}".encode())

    def add_salted(self, line: str) -> None:
        """Lets in a user by a line `NAME:SALT$HASH`, as Bitcoin Core's share/rpcauth makes it."""
        user, _, rest = line.partition(":")
        salt, _, digest = rest.partition("$")
        if not (user and salt and digest):
            raise ValueError("rpcauth is NAME:SALT$HASH")
        self._salted.append([user, salt, digest])

    def lets_in(self, header: Optional[str]) -> bool:
        """Whether an HTTP header `Authorization` is a known user's. It takes the same time for any wrong one."""
        if self.anyone:
            return True
        if header is None or not header.startswith("Basic ") or len(header) > 4096:
            return False
        try:
            given = base64.b64decode(header[6:].strip(), validate=True)
        except (binascii.Error, ValueError):
            return False
        found = [hmac.compare_digest(given, known) for known in self._plain]
        user, _, password = given.partition(b":")
        for name, salt, digest in self._salted:
            made = hmac.new(salt.encode(), password, hashlib.sha256).hexdigest().encode()
            right = hmac.compare_digest(made, digest.encode())
            found.append(hmac.compare_digest(user, name.encode()) and right)
        return any(found)


def remove_cookie(path: str, password: str) -> None:
    """Removes a cookie, where the file still has this one: another server may have written its own."""
    try:
        with open(path, encoding="ascii", errors="replace", opener=regular) as file:
            found = file.read(200)
        if found == f"{COOKIE_USER}:{password}":
            os.unlink(path)
    except OSError:
        pass  # It isn't there any more.


def write_cookie(path: str) -> str:
    """Writes a new password to a file that its owner alone can read, and answers it. The file is made anew under another
    name, then renamed: no link that is there is followed."""
    password = secrets.token_hex(32)
    number, made = tempfile.mkstemp(prefix=".cookie.", dir=os.path.dirname(path))
    try:
        with os.fdopen(number, "w", encoding="ascii") as file:
            file.write(f"{COOKIE_USER}:{password}")
        os.replace(made, path)
    except BaseException:
        os.unlink(made)
        raise
    return password
