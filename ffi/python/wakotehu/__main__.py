"""Says which version of the package this is, and what it found: `python3 -m wakotehu`."""

import argparse
import ctypes.util
import sys
from typing import Callable

from .errors import Error
from .library import library, secp256k1_library
from .served import program_path
from .signatures import Secp256k1
from .version import __version__


def signatures() -> str:
    """The library that tests signatures, or the one that is asked by ctypes without it."""
    found = secp256k1_library()
    if found is not None:
        return str(found._name)
    alone = ctypes.util.find_library("secp256k1")
    if not alone:
        return "not found: install libsecp256k1 for Bench and wakotehu-server"
    try:
        Secp256k1()
    except (AttributeError, OSError) as error:
        return f"not usable: {alone}: {error}"
    return f"{alone}, in one thread"


def shown(name: str, find: Callable[[], str]) -> bool:
    """Prints where something is, or why it isn't found."""
    try:
        print(f"{name}: {find()}")
        return True
    except Error as error:
        print(f"{name}: not found: {error}")
        return False


def main() -> int:
    parser = argparse.ArgumentParser(
        prog="python3 -m wakotehu", allow_abbrev=False,
        description="Prints the package's version, and where its library, the program regchain and libsecp256k1 are.",
        epilog="The status is 1 where the library or the program isn't found. WAKOTEHU_LIBRARY and WAKOTEHU_PROGRAM name"
        " others than those inside the package.",
    )  # fmt: skip
    parser.add_argument("--version", action="version", version=f"wakotehu {__version__}")
    parser.parse_args()
    print(f"wakotehu {__version__}")
    is_found = shown("library", lambda: str(library()._name))
    if is_found:
        shown("signatures", signatures)
    return 0 if shown("program", program_path) and is_found else 1


if __name__ == "__main__":
    sys.exit(main())
