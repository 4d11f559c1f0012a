"""A test bench: a coinbase is paid on with a real signature, and a longer branch takes the payment back."""

from typing import List

from wakotehu import Bench, errors
from wakotehu.encoding import GENESIS, Input, Output, Transaction, coinbase, mine, push, signature_digest, subsidy
from wakotehu.signatures import Secp256k1

NOW = GENESIS.time + 10_000_000
SECRET = bytes([7]) * 32


def block(bench: Bench, script: bytes, transactions: List[Transaction]) -> bytes:
    """A block on the best one, whose coinbase pays to a script."""
    height = bench.height() + 1
    return mine(bench.best(), GENESIS.time + 600 * height, [coinbase(height, subsidy(height), script), *transactions])


def main() -> None:
    secp = Secp256k1()
    script = push(secp.public_key(SECRET)) + b"\xac"  # a key, and OP_CHECKSIG
    with Bench() as bench:
        first = coinbase(1, subsidy(1), script)
        for _ in range(101):
            bench.submit(block(bench, script, []), NOW)
        unsigned = Transaction(1, [Input(first.id, 0, b"", 0xFFFFFFFF)], [Output(5_000_000_000, b"\x51")], 0)
        wrong = secp.sign(bytes([8]) * 32, signature_digest(unsigned, 0, script, 1)) + b"\x01"
        right = secp.sign(SECRET, signature_digest(unsigned, 0, script, 1)) + b"\x01"
        for name, signature in (("another key", wrong), ("its key", right)):
            paid = unsigned._replace(inputs=[unsigned.inputs[0]._replace(script=push(signature))])
            try:
                print(f"signed by {name}:", bench.submit(block(bench, b"\x51", [paid]), NOW))
            except errors.BlkBadInputs as refused:
                print(f"signed by {name}: refused at transaction {refused.transaction}, input {refused.input}")
        print("the coin is spent:", bench.coin(first.id, 0) is None)
        bench.invalidate(bench.best())
        print("the block is taken back, the coin is there:", bench.coin(first.id, 0) is not None)


if __name__ == "__main__":
    main()
