"""Which program these tests run."""
import os

#: Whether there is time for more lists and faults.
LONG = False
HERE = os.path.dirname(os.path.realpath(__file__))
# The library for C, where ffi/build left one: the server's calls need it.
LIBRARY = os.path.realpath(os.path.join(HERE, "../../ffi/out/libwakotehu.so"))
if os.path.exists(LIBRARY):
    os.environ.setdefault("WAKOTEHU_LIBRARY", LIBRARY)
PROGRAM = os.environ.get("WAKOTEHU_PROGRAM") or os.path.realpath(os.path.join(HERE, "../../crates/regchain/out/regchain"))
