"""A wallet for tests on regtest, whose keys are kept in the clear. It has no rule of consensus: what may be mined is for the chain
to say."""

from .coins import Balances, Coin
from .errors import WalletError
from .funding import Funded, Payment, Plan
from .wallet import Bumped, Settings, Wallet

__all__ = ["Balances", "Bumped", "Coin", "Funded", "Payment", "Plan", "Settings", "Wallet", "WalletError"]
