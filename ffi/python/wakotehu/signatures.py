"""Real signatures: which of them are valid, by libsecp256k1."""

import ctypes
import ctypes.util
import os
import threading
from typing import Any, Callable, Collection, List, Mapping, Optional, Sequence, Union

from . import arguments
from .arguments import flag, id_of, number, octets, octets_of, sequence
from .consensus import Table, Triple, triple_of
from .library import secp256k1_library

#: So many threads are used at most where nobody says how many.
MOST_THREADS = 8

#: Says which of the signatures of these lines, as of a table, are valid: True or False for each.
Verify = Callable[[Sequence[bytes]], Collection[bool]]


class Secp256k1:
    """libsecp256k1 (Debian's libsecp256k1-dev or the library below it), by ctypes."""

    def __init__(self) -> None:
        name = ctypes.util.find_library("secp256k1")
        if name is None:
            raise OSError("libsecp256k1 isn't found: install libsecp256k1-dev")
        self._library = ctypes.CDLL(name)
        try:
            self._library.secp256k1_context_create.restype = ctypes.c_void_p
        except AttributeError as error:
            raise OSError(f"libsecp256k1 can't be used: {error}") from None
        # Flags 0x101 and 0x201: to verify and to sign.
        self._context = ctypes.c_void_p(self._library.secp256k1_context_create(0x301))

    def valid(self, triple: Triple) -> bool:
        """Whether the signature is valid, as Bitcoin Core tests it: the numbers are read leniently, and a signature
        counts as the one with the lower number."""
        triple = triple_of(triple)
        key, signature = ctypes.create_string_buffer(64), ctypes.create_string_buffer(64)
        library, context = self._library, self._context
        if not library.secp256k1_ec_pubkey_parse(context, key, triple.key, ctypes.c_size_t(len(triple.key))):
            return False
        numbers = read_signature(triple.signature)
        if numbers is None or not library.secp256k1_ecdsa_signature_parse_compact(context, signature, numbers):
            return False
        library.secp256k1_ecdsa_signature_normalize(context, signature, signature)
        return bool(library.secp256k1_ecdsa_verify(context, signature, triple.digest, key))

    def is_key(self, key: bytes) -> bool:
        """Whether bytes are a public key, a point of the curve."""
        key = octets(key, "key")
        return bool(self._library.secp256k1_ec_pubkey_parse(
            self._context, ctypes.create_string_buffer(64), key, ctypes.c_size_t(len(key))
        ))  # fmt: skip

    def public_key(self, secret: bytes, compressed: bool = True) -> bytes:
        """The key of a secret, to make tests with."""
        secret, compressed = octets_of(secret, 32, "secret"), flag(compressed, "compressed")
        key = ctypes.create_string_buffer(64)
        if not self._library.secp256k1_ec_pubkey_create(self._context, key, secret):
            raise ValueError("secret must be a number from 1 to the curve's order less 1")
        return self._written(key, compressed)

    def tweaked(self, key: bytes, tweak: bytes) -> Optional[bytes]:
        """A key with the key of a tweak of 32 bytes added, in 33 bytes (BIP 32); None where that is none, or the first isn't."""
        key, tweak = octets(key, "key"), octets_of(tweak, 32, "tweak")
        library, context, point = self._library, self._context, ctypes.create_string_buffer(64)
        if not library.secp256k1_ec_pubkey_parse(context, point, key, ctypes.c_size_t(len(key))):
            return None
        return self._written(point, True) if library.secp256k1_ec_pubkey_tweak_add(context, point, tweak) else None

    def _written(self, key: Any, compressed: bool) -> bytes:
        """A key that the library holds, as bytes."""
        out, length = ctypes.create_string_buffer(65), ctypes.c_size_t(65)
        # 258: 33 bytes; 2: 65.
        self._library.secp256k1_ec_pubkey_serialize(
            self._context, out, ctypes.byref(length), key, 258 if compressed else 2
        )
        return out.raw[: length.value]

    def sign(self, secret: bytes, digest: bytes) -> bytes:
        """A signature in BIP 66's form, without a hash type, to make tests with."""
        return self._signature(octets_of(secret, 32, "secret"), id_of(digest, "digest"), None)

    def sign_short(self, secret: bytes, digest: bytes) -> bytes:
        """The signature that Bitcoin Core makes: the first one whose first number has at most 32 bytes."""
        secret, digest = octets_of(secret, 32, "secret"), id_of(digest, "digest")
        found, tries = self._signature(secret, digest, None), 0
        while found[3] > 32:
            tries += 1
            found = self._signature(secret, digest, tries.to_bytes(32, "little"))
        return found

    def sign_recoverable(self, secret: bytes, digest: bytes) -> bytes:
        """A signature from which its key can be computed, as Bitcoin Core's `SignCompact` makes it: which of four keys it is, and 64
        bytes."""
        secret, digest = octets_of(secret, 32, "secret"), id_of(digest, "digest")
        signature, out, which = ctypes.create_string_buffer(65), ctypes.create_string_buffer(64), ctypes.c_int()
        if not self._library.secp256k1_ecdsa_sign_recoverable(self._context, signature, digest, secret, None, None):
            raise ValueError("secret must be a number from 1 to the curve's order less 1")
        self._library.secp256k1_ecdsa_recoverable_signature_serialize_compact(self._context, out, ctypes.byref(which), signature)
        return bytes([which.value]) + out.raw

    def _signature(self, secret: bytes, digest: bytes, entropy: Optional[bytes]) -> bytes:
        """A signature; other entropy of 32 bytes makes another."""
        signature, out = ctypes.create_string_buffer(64), ctypes.create_string_buffer(72)
        length = ctypes.c_size_t(72)
        if not self._library.secp256k1_ecdsa_sign(self._context, signature, digest, secret, None, entropy):
            raise ValueError("secret must be a number from 1 to the curve's order less 1")
        self._library.secp256k1_ecdsa_signature_serialize_der(self._context, out, ctypes.byref(length), signature)
        return out.raw[: length.value]


class Verifier:
    """Says which signatures are valid: by libwakotehu-secp256k1, and by several threads where there are many. Where that
    library isn't there, by libsecp256k1, one after the other. The verdicts are the same.

    threads: how many test signatures at once, the caller's among them; 1 starts none. By default one for each processor
        that the process may use, at most 8.
    """

    def __init__(self, threads: Optional[int] = None) -> None:
        self.threads = min(processors(), MOST_THREADS) if threads is None else number(threads, "threads", 31, least=1)
        self._library = secp256k1_library()
        self._secp = Secp256k1() if self._library is None else None

    def verdicts(self, lines: Sequence[bytes]) -> List[bool]:
        """Whether the signatures of these lines, as of a table, are valid."""
        if self._secp is not None:
            return [self._secp.valid(triple) for triple in Triple.of_lines(lines)]
        assert self._library is not None
        lines = [octets(line, "lines") for line in sequence(lines, "lines")]
        text, valid = b"\n".join(lines), ctypes.create_string_buffer(len(lines))
        code = self._library.wakotehu_secp256k1_verdicts(text, len(text), self.threads, valid, len(lines))
        if code != 0:
            raise ValueError(f"lines can't be read: {code}")
        return [verdict == 1 for verdict in valid.raw]


def signatures_of(table: Union[str, bytes]) -> List[Triple]:
    """The signatures of a table's text."""
    lines = arguments.lines(table, "table").splitlines()
    return Triple.of_lines([line for line in lines if line.strip() and not line.strip().startswith(b"#")])


class KnownSignatures:
    """Verdicts that a function finds out, each once. The first verdict on a signature stays. Any thread may call it, and
    holds no lock while it asks the function.

    verify: says of lines as a table's which are valid.
    table: signatures that are known to be valid, as lines.
    """

    def __init__(self, verify: Verify, table: Union[str, bytes] = b"") -> None:
        if not callable(verify):
            raise TypeError(f"verify must be a function, not {arguments.kind_of(verify)}")
        self._verify = verify
        self._verdicts = {triple.line[:-1]: True for triple in signatures_of(Table(table).text)}
        #: Held to read and to write what is known.
        self._lock = threading.Lock()

    def learn(self, verdicts: Mapping[bytes, bool]) -> None:
        """Takes verdicts on the signatures of lines."""
        with self._lock:
            self._verdicts = {**verdicts, **self._verdicts}

    def verdicts(self, lines: Sequence[bytes]) -> List[bool]:
        """Whether the signatures of these lines are valid."""
        with self._lock:
            unknown = [line for line in lines if line not in self._verdicts]
        found = list(self._verify(unknown)) if unknown else []
        if len(found) != len(unknown):
            raise ValueError(f"verify must say of each of {len(unknown)} signatures whether it is valid, not of {len(found)}")
        with self._lock:
            for line, verdict in zip(unknown, found):
                self._verdicts.setdefault(line, bool(verdict))
            return [self._verdicts[line] for line in lines]


_verifier: Optional[Verifier] = None


def secp256k1(lines: Sequence[bytes]) -> List[bool]:
    """Whether the signatures of these lines, as of a table, are valid, by a `Verifier` with as many threads as by default.
    Any thread may call it. `Node(verify=secp256k1)` finds signatures out by it."""
    global _verifier
    if _verifier is None:
        _verifier = Verifier()
    return _verifier.verdicts(lines)


def processors() -> int:
    """How many processors this process may use."""
    try:
        return len(os.sched_getaffinity(0))
    except (AttributeError, OSError):
        return os.cpu_count() or 1


def read_signature(data: bytes) -> Optional[bytes]:
    """The two numbers of a signature, 32 bytes each, read as leniently as Bitcoin Core does; None where there are none,
    or one is of more than 256 bits."""
    data = octets(data, "data")
    if len(data) < 2 or data[0] != 0x30:
        return None
    end, numbers = len(data), []
    at = 2 + (data[1] & 127 if data[1] & 128 else 0)
    for _ in range(2):
        if at + 1 >= end or data[at] != 2:
            return None
        length, at = data[at + 1], at + 2
        if length & 128:
            wide = length & 127
            if wide > end - at:
                return None
            length, at = int.from_bytes(data[at : at + wide], "big"), at + wide
        if length > end - at:
            return None
        number, at = data[at : at + length].lstrip(b"\0"), at + length
        if len(number) > 32:
            return None
        numbers.append(number.rjust(32, b"\0"))
    return numbers[0] + numbers[1]
