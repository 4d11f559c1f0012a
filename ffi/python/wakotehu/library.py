"""libwakotehu.so, by ctypes."""

import ctypes
import ctypes.util
import os
import subprocess
from contextlib import contextmanager
from ctypes import CFUNCTYPE, POINTER, c_char_p, c_int, c_int64, c_size_t, c_uint8, c_uint32, c_uint64, c_void_p
from typing import Iterator, Optional

from .deployments import SoftForks
from .errors import LibraryMissing
from .processor import chosen, home


class Heights(ctypes.Structure):
    _fields_ = [("bip34", c_uint32), ("bip65", c_uint32), ("bip66", c_uint32), ("csv", c_uint32)]


class Answer(ctypes.Structure):
    _fields_ = [("reply", c_uint32), ("reason", c_uint32), ("transaction", c_uint64), ("input", c_uint64)]


class Tip(ctypes.Structure):
    _fields_ = [("id", c_uint8 * 32), ("height", c_uint64), ("length", c_uint64), ("status", c_uint32)]


class Coin(ctypes.Structure):
    _fields_ = [("value", c_int64), ("script", c_uint64), ("height", c_uint32), ("coinbase", c_uint32)]


class Header(ctypes.Structure):
    _fields_ = [("header", c_uint8 * 80), ("height", c_uint64), ("confirmations", c_int64)]


class SpentSize(ctypes.Structure):
    _fields_ = [("coins", c_uint64), ("scripts", c_uint64)]


class Setting(ctypes.Structure):
    _fields_ = [
        ("medians", POINTER(c_uint32)), ("count", c_size_t), ("heights", Heights), ("height", c_uint32), ("cutoff", c_uint32),
    ]  # fmt: skip


class Fault(ctypes.Structure):
    _fields_ = [("transaction", c_uint64), ("input", c_uint64), ("reason", c_uint32)]


CoinCall = CFUNCTYPE(c_int, c_void_p, POINTER(c_uint8), c_uint32, POINTER(Coin), POINTER(c_uint8))

_CALLS = {
    "params_set": [c_void_p, c_char_p, c_uint32],
    "open_with": [POINTER(c_uint64), c_void_p, c_char_p, c_size_t, POINTER(c_uint64)],
    "open_by_need_with": [POINTER(c_uint64), c_void_p],
    "want_lines": [c_uint64, c_char_p, c_size_t, POINTER(c_size_t)],
    "learn": [c_uint64, c_char_p, c_size_t, c_char_p, c_size_t, c_char_p, c_int],
    "close": [c_uint64],
    "submit": [c_uint64, c_char_p, c_size_t, c_uint64, POINTER(Answer)],
    "judge": [c_uint64, c_char_p, c_size_t, c_uint64, POINTER(Answer)],
    "copy": [c_uint64, POINTER(c_uint64)],
    "invalidate": [c_uint64, c_char_p, POINTER(Answer)],
    "reconsider": [c_uint64, c_char_p, POINTER(Answer)],
    "precious": [c_uint64, c_char_p, POINTER(Answer)],
    "best": [c_uint64, c_char_p],
    "height": [c_uint64, POINTER(c_uint64)],
    "tip_at": [c_uint64, c_size_t, POINTER(Tip)],
    "coin_at": [c_uint64, c_char_p, c_uint32, POINTER(Coin), c_char_p, c_size_t],
    "block": [c_uint64, c_char_p, c_char_p, c_size_t, POINTER(c_size_t)],
    "coins": [c_uint64, CoinCall, c_void_p],
    "id_at": [c_uint64, c_uint64, c_char_p],
    "header": [c_uint64, c_char_p, POINTER(Header)],
    "ancestor": [c_uint64, c_char_p, c_uint64, c_char_p],
    "fork": [c_uint64, c_char_p, c_char_p, c_char_p],
    "spent": [c_uint64, c_char_p, POINTER(Coin), c_size_t, c_char_p, c_size_t, POINTER(SpentSize)],
    "utxo_open": [POINTER(c_uint64)],
    "utxo_close": [c_uint64],
    "utxo_put": [c_uint64, c_char_p, c_uint32, POINTER(Coin), c_char_p],
    "utxo_coin_at": [c_uint64, c_char_p, c_uint32, POINTER(Coin), c_char_p, c_size_t],
    "utxo_coins": [c_uint64, CoinCall, c_void_p],
    "utxo_spent": [c_uint64, POINTER(Coin), c_size_t, c_char_p, c_size_t, POINTER(SpentSize)],
    "utxo_want_lines": [c_uint64, c_char_p, c_size_t, POINTER(c_size_t)],
    "utxo_learn": [c_uint64, c_char_p, c_size_t, c_char_p, c_size_t, c_char_p, c_int],
    "connect_with": [c_uint64, c_char_p, c_size_t, POINTER(Setting), c_void_p, POINTER(Fault)],
    "disconnect": [c_uint64],
    "check_tx_inputs": [c_uint64, c_char_p, c_size_t, c_uint32, POINTER(c_uint32), POINTER(c_int64)],
    "check_transaction_inputs": [c_uint64, c_char_p, c_size_t, c_uint32, POINTER(c_uint32), POINTER(c_int64)],
}


def _places() -> Iterator[str]:
    """Where the library may be, the likeliest place first."""
    yield os.path.join(os.path.dirname(os.path.abspath(__file__)), "libwakotehu.so.0")
    try:
        asked = ["pkg-config", "--variable=libdir", "wakotehu"]
        folder = subprocess.run(asked, capture_output=True, text=True, check=True).stdout.strip()
        yield os.path.join(folder, "libwakotehu.so.0")
    except (OSError, subprocess.CalledProcessError):
        pass
    found = ctypes.util.find_library("wakotehu")
    if found:
        yield found
    yield "/usr/local/lib/libwakotehu.so.0"


_loaded: Optional[ctypes.CDLL] = None
_SECP256K1 = "libwakotehu-secp256k1.so.0"


def library() -> ctypes.CDLL:
    """The library, with its calls' types.

    It is looked for where WAKOTEHU_LIBRARY names it, and nowhere else then; else in the package, by pkg-config, where
    the linker looks, and in /usr/local/lib: there the build for the machine's processor, where one is beside the default.
    """
    global _loaded
    if _loaded is not None:
        return _loaded
    named = os.environ.get("WAKOTEHU_LIBRARY")
    for place in [named] if named else map(chosen, _places()):
        try:
            loaded = ctypes.CDLL(place)
        except OSError as error:
            if named:
                raise LibraryMissing(f"WAKOTEHU_LIBRARY={named} can't be loaded: {error}") from error
            continue
        for name, types in _CALLS.items():
            call = getattr(loaded, f"wakotehu_{name}")
            call.argtypes, call.restype = types, c_int
        for name in ("reason", "reply", "code"):
            call = getattr(loaded, f"wakotehu_{name}_text")
            call.argtypes, call.restype = [c_uint32], c_char_p
        loaded.wakotehu_params_new.argtypes, loaded.wakotehu_params_new.restype = [POINTER(Heights)], c_void_p
        loaded.wakotehu_params_free.argtypes, loaded.wakotehu_params_free.restype = [c_void_p], None
        _loaded = loaded
        return loaded
    raise LibraryMissing("libwakotehu.so isn't found: set WAKOTEHU_LIBRARY, or run ./install")


@contextmanager
def params_of(heights: SoftForks) -> Iterator[int]:
    """The heights as the library takes them, for calls within; a ValueError where it knows no soft fork of a name."""
    loaded = library()
    made = loaded.wakotehu_params_new(ctypes.byref(Heights(*heights)))
    if not made:
        raise MemoryError
    try:
        for name, height in heights.further.items():
            if loaded.wakotehu_params_set(made, name.encode(), height):
                raise ValueError(f"heights: no soft fork is named {name[:100]!r}")
        yield made
    finally:
        loaded.wakotehu_params_free(made)


def secp256k1_library() -> Optional[ctypes.CDLL]:
    """The library beside it that tests signatures; None where either isn't there, or libsecp256k1 isn't."""
    try:
        # Without a folder the linker looks for it, as it did for the other one.
        loaded = ctypes.CDLL(os.path.join(home(library()._name), _SECP256K1))
    except (LibraryMissing, OSError):
        return None
    call = loaded.wakotehu_secp256k1_verdicts
    call.argtypes, call.restype = [c_char_p, c_size_t, c_size_t, c_char_p, c_size_t], c_int
    return loaded
