"""Blocks that other programs made, as hexadecimal digits."""
import hashlib

# The block `b1` on genesis.
FIRST = (
    "0400000006226e46111a0b59caaf126043eb5bbf28c34f3a5e332a1fc7b2b73cf188910f4bc9060e5f2e3eb82947c1432592111003cf8eb7"
    "506783ed65a8ccb92502f996dbe5494dffff7f20010000000101000000010000000000000000000000000000000000000000000000000000"
    "000000000000ffffffff0451026231ffffffff0100f2052a01000000015100000000"
)

# Its id.
FIRST_ID = "2405fee2b5db4a6c607abb4c3cde55d59d28f53158f341cc789bacc929f29a52"

# Its coinbase's id.
FIRST_COINBASE_ID = "96f90225b9cca865ed836750b78ecf031011922543c14729b83e2e5f0e06c94b"

# The genesis block.
GENESIS = (
    "0100000000000000000000000000000000000000000000000000000000000000000000003ba3edfd7a7b12b27ac72c3e67768f617fc81bc3"
    "888a51323a9fb8aa4b1e5e4adae5494dffff7f20020000000101000000010000000000000000000000000000000000000000000000000000"
    "000000000000ffffffff4d04ffff001d0104455468652054696d65732030332f4a616e2f32303039204368616e63656c6c6f72206f6e2062"
    "72696e6b206f66207365636f6e64206261696c6f757420666f722062616e6b73ffffffff0100f2052a01000000434104678afdb0fe554827"
    "1967f1a67130b7105cd6a828e03909a67962e0ea1f61deb649f6bc3f4cef38c4f35504e51ec112de5c384df7ba0b8d578a4c702b6bf11d5f"
    "ac00000000"
)

# The block `c128` of a chain on genesis: the first height whose push has two bytes.
LATER = (
    "040000005fee918f4466d2f1efc4d4446bd7058377cd39ef110e80cb8e935a68fcb648701889711932165f9d1888f8f0bbb100acc83fdb0c"
    "a2799b494e77e3e9b3bd13875ae6494dffff7f20000000000101000000010000000000000000000000000000000000000000000000000000"
    "000000000000ffffffff080280000463313238ffffffff0100f2052a01000000015100000000"
)

# What begins a record of a blk file: the mark of regtest, and the length of `b1`.
FIRST_HEAD = "fabfb5da92000000"

# The same of the genesis block.
GENESIS_HEAD = "fabfb5da1d010000"


def double_sha(data: bytes) -> bytes:
    return hashlib.sha256(hashlib.sha256(data).digest()).digest()


def child_of_genesis(name: str) -> tuple[str, bytes]:
    """The id and the bytes of the block of this name, of two letters, on genesis: that of FIRST, with another coinbase."""
    coinbase = bytes.fromhex(FIRST)[81:].replace(b"b1", name.encode())
    header = bytes.fromhex(FIRST)[:36] + double_sha(coinbase) + bytes.fromhex(FIRST)[68:76]
    for nonce in range(1000):
        whole = header + nonce.to_bytes(4, "little")
        if double_sha(whole)[31] <= 0x7F:
            return double_sha(whole)[::-1].hex(), whole + b"\x01" + coinbase
    raise ValueError(name)
