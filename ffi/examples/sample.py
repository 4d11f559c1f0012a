"""A chain whose coinbases pay to a key, and two payments on it: one with the key's signature, and one with another's."""

from typing import List

from wakotehu.encoding import GENESIS, Input, Output, Transaction, coinbase, double_sha, mine, push, signature_digest, subsidy
from wakotehu.signatures import Secp256k1

#: A moment in seconds since 1970. A block may be two hours ahead of it.
NOW = GENESIS.time + 10_000_000
_SECP = Secp256k1()
_KEY, _OTHER = bytes([7]) * 32, bytes([8]) * 32
_SCRIPT = push(_SECP.public_key(_KEY)) + b"\xac"  # the key, and OP_CHECKSIG


def _block(parent: bytes, height: int, transactions: List[Transaction]) -> bytes:
    return mine(parent, GENESIS.time + 600 * height, [coinbase(height, subsidy(height), _SCRIPT), *transactions])


def _payment(height: int, secret: bytes) -> Transaction:
    """Spends the coinbase of a height, with a signature by this secret."""
    coin = coinbase(height, subsidy(height), _SCRIPT).id
    unsigned = Transaction(1, [Input(coin, 0, b"", 0xFFFFFFFF)], [Output(5_000_000_000, b"\x51")], 0)
    signature = _SECP.sign(secret, signature_digest(unsigned, 0, _SCRIPT, 1)) + b"\x01"
    return unsigned._replace(inputs=[unsigned.inputs[0]._replace(script=push(signature))])


#: Blocks one on the other, so many that the coinbases of the first ones can be spent.
CHAIN = [_block(GENESIS.id, 1, [])]
while len(CHAIN) < 101:
    CHAIN.append(_block(double_sha(CHAIN[-1][:80]), len(CHAIN) + 1, []))

_PAID = _payment(1, _KEY)
#: A block on them with a payment that the key signed, and the id of this payment.
PAYMENT, COIN = _block(double_sha(CHAIN[-1][:80]), 102, [_PAID]), _PAID.id
#: A block on that one with a payment that another key signed.
FORGED = _block(double_sha(PAYMENT[:80]), 103, [_payment(2, _OTHER)])
