"""The programs from outside that are asked: litecoind (Bitcoin Core 0.21's code), python3-bitcoinlib, libsecp256k1, OpenSSL."""

import struct
import sys
from pathlib import Path
from typing import Any, Dict, List, Optional, Sequence, Set, Tuple

HERE = Path(__file__).resolve()
ROOT = HERE.parents[3]
sys.path += [str(ROOT / "tests/core"), str(ROOT / "ffi/python")]

import bitcoin.core as lib  # type: ignore  # noqa: E402
import bitcoin.core.key as lib_key  # type: ignore  # noqa: E402
import bitcoin.core.script as lib_script  # type: ignore  # noqa: E402
import bitcoin.core.scripteval as lib_eval  # type: ignore  # noqa: E402
from core.peer import GENESIS_ID, Peer as Peer, PeerError, has_work  # noqa: E402
from wakotehu.consensus import Triple  # noqa: E402
from wakotehu.signatures import Secp256k1  # noqa: E402

from .reading import Input, Output, Tx, count, double_sha, is_strict, number, push, read, spell  # noqa: E402

CORE, LIB = "litecoind", "python3-bitcoinlib"
FINAL = 0xFFFFFFFF
TRUE = b"\x51"
GENESIS_TIME = 1296688602
COIN = 10**8

#: The opcodes' names, by python3-bitcoinlib.
OPCODES = {int(code): str(name)[3:] for code, name in lib_script.OPCODE_NAMES.items() if int(code) <= 0xB9}

#: The flags that are in force in blocks of litecoind's regtest, and a height at which they are.
HEIGHTS = ((112, ()), (442, ("CSV",)), (1262, ("DERSIG", "CSV")), (1362, ("DERSIG", "CLTV", "CSV")))

REASONS = {
    "vin empty": "bad-txns-vin-empty", "vout empty": "bad-txns-vout-empty", "txout.nValue negative": "bad-txns-vout-negative",
    "txout.nValue too high": "bad-txns-vout-toolarge", "txout total out of range": "bad-txns-txouttotal-toolarge",
    "duplicate inputs": "bad-txns-inputs-duplicate", "coinbase script size": "bad-cb-length",
    "prevout is null": "bad-txns-prevout-null",
}  # fmt: skip


class Disagree(Exception):
    """Two programs answer differently."""


# ---- litecoind


class Chain:
    """A chain of litecoind's, whose blocks are made here: a coinbase to the script 51, and what else is asked for."""

    def __init__(self, peer: Peer) -> None:
        self.peer, self.height, self.tip, self.time = peer, 0, GENESIS_ID, GENESIS_TIME
        self.coins: List[Tuple[bytes, int, int]] = []
        peer.call("setmocktime", GENESIS_TIME + 600 * 2000)

    def block(self, txs: Sequence[bytes]) -> bytes:
        """A block on the best one, without work. Fees are left."""
        height = self.height + 1
        made = 50 * COIN >> height // 150
        tx = Tx(1, [Input(bytes(32), FINAL, _height(height) + b"\0", FINAL)], [Output(made, TRUE)], 0)
        return self._block([spell(tx), *txs])

    def _block(self, whole: List[bytes]) -> bytes:
        root = _root([double_sha(t) for t in whole])
        head = struct.pack("<i32s32sIII", 4, self.tip, root, self.time + 600, 0x207FFFFF, 0)
        return head + count(len(whole)) + b"".join(whole)

    def mine(self, txs: Sequence[bytes] = ()) -> None:
        """Puts a block on the best one."""
        block = bytearray(self.block(txs))
        while not has_work(bytes(block[:80])):
            block[76:80] = struct.pack("<I", struct.unpack("<I", block[76:80])[0] + 1)
        said = self.peer.submit(bytes(block))
        if said != "accepted":
            raise RuntimeError(f"a block at height {self.height + 1} is {said}")
        self.tip, self.height, self.time = double_sha(bytes(block[:80])), self.height + 1, self.time + 600
        made = 50 * COIN >> self.height // 150
        size = 80 + len(count(1 + len(txs)))
        rest = bytes(block[size:])
        own = rest if not txs else rest[: len(rest) - sum(map(len, txs))]
        self.coins.append((double_sha(own), made, self.height))

    def lay(self, height: int) -> None:
        while self.height < height:
            self.mine()

    def fund(self, scripts: Sequence[bytes]) -> Tuple[bytes, int]:
        """A block with a transaction that pays to these scripts: its id, and how much to each."""
        id, value, height = self.coins.pop(0)
        if height + 100 > self.height + 1:
            raise RuntimeError("no coin is ripe")
        each = value // len(scripts)
        tx = spell(Tx(1, [Input(id, 0, b"", FINAL)], [Output(each, s) for s in scripts], 0))
        self.mine([tx])
        return double_sha(tx), each

    def judge(self, txs: Sequence[bytes]) -> List[str]:
        """What a block with each of these transactions would be answered, on the best one."""
        said: List[str] = []
        for first in range(0, len(txs), 100):
            said += self.peer.propose([self.block([tx]) for tx in txs[first : first + 100]])
        return said

    def judge_first(self, tx: bytes) -> str:
        """What a block of this coinbase alone would be answered."""
        return self.peer.propose([self._block([tx])])[0]


def _height(height: int) -> bytes:
    return bytes([0x50 + height]) if height <= 16 else push(number(height))


def _root(ids: List[bytes]) -> bytes:
    while len(ids) > 1:
        ids += ids[-1:] * (len(ids) % 2)
        ids = [double_sha(a + b) for a, b in zip(ids[::2], ids[1::2])]
    return ids[0]


def core_verifies(peer: Peer, tx: Tx, at: int, spent: bytes) -> Tuple[bool, str]:
    """What litecoind says of an input by `signrawtransactionwithkey`, without a key: VerifyScript with its rules of relay,
    wherever the coin may be. The others' errors are ignored."""
    own = tx.inputs[at]
    known = [
        {"txid": i.id[::-1].hex(), "vout": i.place, "scriptPubKey": (spent if n == at else TRUE).hex(), "amount": 1}
        for n, i in enumerate(tx.inputs)
    ]
    found = peer.call("signrawtransactionwithkey", spell(tx).hex(), [], known)
    for error in found.get("errors", ()):
        if (error["txid"], error["vout"]) == (own.id[::-1].hex(), own.place):
            return False, str(error["error"])
    return True, ""


def core_reads(peer: Peer, data: bytes) -> Optional[Dict[str, Any]]:
    """What litecoind reads of a transaction's bytes, None where it can't."""
    found = peer.try_calls([("decoderawtransaction", [data.hex(), False])])[0]
    return None if isinstance(found, PeerError) else dict(found)


# ---- python3-bitcoinlib


def lib_tx(data: bytes) -> "lib.CTransaction":
    """A transaction as python3-bitcoinlib reads it. Without inputs it would read one with witnesses: then it is made of parts."""
    if data[4:5] != b"\0":
        return lib.CTransaction.deserialize(data)
    tx = read(data)
    outputs = [lib.CTxOut(o.value, lib_script.CScript(o.script)) for o in tx.outputs]
    return lib.CTransaction([], outputs, tx.lock_time, tx.version)


class NotAsked(Exception):
    """python3-bitcoinlib can't be asked."""


_check = lib_eval._CheckSig


def _checked(sig: bytes, *rest: Any) -> Any:
    """Its test of a signature; one of another shape would end the process within OpenSSL."""
    if sig and not is_strict(sig):
        raise NotAsked("OpenSSL is given no signature of another shape")
    return _check(sig, *rest)


lib_eval._CheckSig = _checked


def lib_verifies(tx: bytes, at: int, own: bytes, spent: bytes) -> bool:
    """What python3-bitcoinlib says of a pair, by the rules that it has: BIP 16 alone."""
    flags = {lib_eval.SCRIPT_VERIFY_P2SH}
    try:
        lib_eval.VerifyScript(lib_script.CScript(own), lib_script.CScript(spent), lib_tx(tx), at, flags)
        return True
    except lib.ValidationError:
        return False
    except (lib_script.CScriptInvalidError, IndexError, ValueError, AssertionError, KeyError, TypeError) as error:
        raise Disagree(f"python3-bitcoinlib ends: {error!r}") from error


def lib_digest(tx: bytes, at: int, code: bytes, kind: int) -> bytes:
    signed = kind - (1 << 32) if kind >> 31 else kind
    found: bytes = lib_script.RawSignatureHash(lib_script.CScript(code), lib_tx(tx), at, signed)[0]
    return found


def lib_fault(data: bytes) -> str:
    """The rule that a transaction breaks by itself, by python3-bitcoinlib's CheckTransaction."""
    try:
        lib.CheckTransaction(lib_tx(data))
        return ""
    except lib.CheckTransactionError as error:
        return REASONS[str(error).partition("() : ")[2]]


# ---- signatures

_secp = Secp256k1()


def is_valid(key: bytes, signature: bytes, digest: bytes) -> bool:
    """Whether a signature without its hash type is valid: libsecp256k1 and OpenSSL are asked, and agree where it is strictly
    encoded. Where it isn't, libsecp256k1 alone is, by the numbers in it."""
    found = _secp.valid(Triple(key, signature, digest))
    if is_strict(signature + b"\1") and key[:1] in (b"\2", b"\3", b"\4") and len(key) in (33, 65):
        other = lib_key.CECKey()
        if other.set_pubkey(key) and other.verify(digest, signature) != found:
            raise Disagree(f"OpenSSL and libsecp256k1 on {key.hex()} {signature.hex()} {digest.hex()}")
    return found


SECRETS = [n.to_bytes(32, "big") for n in (3, 5, 7, 11, 13)]
KEYS = [_secp.public_key(secret) for secret in SECRETS]
LONG = [_secp.public_key(secret, False) for secret in SECRETS]


def sign(which: int, digest: bytes) -> bytes:
    """A strictly encoded signature, without a hash type."""
    return _secp.sign(SECRETS[which], digest)


def flags_text(flags: Set[str]) -> str:
    return ",".join(name for name in ("DERSIG", "CLTV", "CSV") if name in flags)
