"""What a wallet refuses, by Bitcoin Core's codes and texts."""

from ..rpc.errors import RpcError


class WalletError(RpcError):
    """A wallet can't do what was asked: a code of Bitcoin Core's `rpc/protocol.h`, and why."""
