"""A plugin of pytest, which the wheel brings: chains to test wallets and payment code on.

    def test_a_payment(bench, fund, reorg):
        id, index = fund(script, 100_000)
        assert bench.coin(id, index).value == 100_000
        reorg(1)
        assert bench.coin(id, index) is None

Fixtures: `bench` is a `Bench` of 101 blocks, `pool` a `Pool` over it, `wallet` a `Wallet` with coins (one block more), `node` a `Node` of them, and `bitcoind` a server that
answers bitcoind's calls, one for all tests, which is set back behind each. `mine`, `fund` and `reorg` are the helpers of `wakotehu.benches.Miner` on the
one that the test asks for, the first of several, or else on `bench`. `--wakotehu-table` shows the block tree of a test
that fails.
"""

from typing import Any, Callable, Dict, Generator, Iterator, List, Tuple

import pytest

from .addresses import script_of
from .bench import Bench
from .benches import BASE, BenchMiner, Miner, NodeMiner, Server, ServerMiner
from .encoding import Input, Output, Spelled, Transaction, block_at_front
from .node import Node
from .pool import Pool
from .signatures import secp256k1
from .wallet import Settings, Wallet

#: The fixtures that are chains.
CHAINS = ("bench", "node", "bitcoind")
#: So many coins a test's wallet has, and so many keys it knows beyond the last used one.
COINS, KEYS = 10, 100


def pytest_addoption(parser: pytest.Parser) -> None:
    group = parser.getgroup("wakotehu")
    group.addoption("--wakotehu-table", action="store_true", help="show the block tree of a test that fails, as text")


@pytest.fixture(scope="session")
def _wakotehu_base() -> Iterator[Bench]:
    """The chain with which each test begins, mined once."""
    with Bench() as found:
        BenchMiner(found).mine(BASE)
        yield found


@pytest.fixture(scope="session")
def _wakotehu_blocks(_wakotehu_base: Bench) -> List[Spelled]:
    """Its blocks."""
    miner = BenchMiner(_wakotehu_base)
    return [block_at_front(miner.block(id)) for id in _wakotehu_base.branch()]


@pytest.fixture(scope="session")
def _wakotehu_funded(_wakotehu_base: Bench) -> Iterator[Tuple[Bench, Wallet]]:
    """The chain of a test that has a wallet, and this wallet."""
    with _wakotehu_base.copy() as found:
        wallet = Wallet(found, seed=bytes(16), settings=Settings(keypool=KEYS))
        made = block_at_front(found.block(found.branch()[0]) or b"").transaction(0)
        value = made.outputs[0].value // COINS
        scripts = [script_of(wallet.address()) or b"" for _ in range(COINS)]
        paying = Transaction(2, [Input(made.id, 0, b"", 0xFFFFFFFF)], [Output(value, script) for script in scripts], 0)
        BenchMiner(found).mine(1, transactions=[paying])
        wallet.follow()
        yield found, wallet


_Miners = Dict[str, Miner]


@pytest.fixture
def _wakotehu_miners(request: pytest.FixtureRequest) -> _Miners:
    """The helpers of the chains that a test has, by their fixtures."""
    found: _Miners = {}
    request.node._wakotehu_miners = found
    return found


@pytest.fixture
def bench(request: pytest.FixtureRequest, _wakotehu_miners: _Miners) -> Iterator[Bench]:
    """A `Bench` of 101 blocks, whose coins anyone spends; beside a `wallet` of 102."""
    if "wallet" in request.fixturenames:
        base: Bench = request.getfixturevalue("_wakotehu_funded")[0]
    else:
        base = request.getfixturevalue("_wakotehu_base")
    with base.copy() as found:
        _wakotehu_miners["bench"] = BenchMiner(found)
        yield found


@pytest.fixture
def pool(bench: Bench) -> Pool:
    """What waits to be mined on `bench`."""
    return Pool(bench)


@pytest.fixture
def wallet(_wakotehu_funded: Tuple[Bench, Wallet], bench: Bench, pool: Pool) -> Wallet:
    """A wallet on `bench` that sends to `pool`: ten coins of 5 bitcoin each."""
    return _wakotehu_funded[1].copy(bench, pool)


@pytest.fixture
def node(_wakotehu_blocks: List[Spelled], _wakotehu_miners: _Miners) -> Iterator[Node]:
    """A `Node` of 101 blocks, with four seats and real signatures."""
    with Node(seats=4, verify=secp256k1) as found:
        for block in _wakotehu_blocks:
            found.seat(0).submit(block.data, block.header.time)
        for number in range(1, 4):
            found.seat(number).told(found.seat(0))
        _wakotehu_miners["node"] = NodeMiner(found)
        yield found


@pytest.fixture(scope="session")
def _wakotehu_server(_wakotehu_blocks: List[Spelled]) -> Iterator[Server]:
    """The server of all tests."""
    found = Server()
    try:
        for block in _wakotehu_blocks:
            found.call("submitblock", block.data.hex())
        found.begin()
        yield found
    finally:
        found.stop()


@pytest.fixture
def bitcoind(_wakotehu_server: Server, _wakotehu_miners: _Miners) -> Iterator[Server]:
    """A server that answers bitcoind's calls, of 101 blocks: `bitcoind.getblockcount()`, or by `url`, `port` and `cookie`."""
    _wakotehu_miners["bitcoind"] = ServerMiner(_wakotehu_server)
    yield _wakotehu_server
    _wakotehu_server.set_back()


@pytest.fixture
def _wakotehu_miner(request: pytest.FixtureRequest, _wakotehu_miners: _Miners) -> Miner:
    """The helpers of the first chain that the test asks for."""
    name = next((name for name in request.fixturenames if name in CHAINS), "bench")
    request.getfixturevalue(name)
    return _wakotehu_miners[name]


@pytest.fixture
def mine(_wakotehu_miner: Miner) -> Callable[..., List[bytes]]:
    """`mine(count=1, to=SCRIPT or ADDRESS, transactions=[..])`: mines blocks on the active one; their ids."""
    return _wakotehu_miner.mine


@pytest.fixture
def fund(_wakotehu_miner: Miner) -> Callable[..., Tuple[bytes, int]]:
    """`fund(SCRIPT or ADDRESS, satoshis)`: mines a block that pays there; the outpoint."""
    return _wakotehu_miner.fund


@pytest.fixture
def reorg(_wakotehu_miner: Miner) -> Callable[[int], List[bytes]]:
    """`reorg(depth)`: takes so many blocks back by a longer branch; their ids."""
    return _wakotehu_miner.reorg


def _add_tree(item: pytest.Item) -> Generator[None, Any, None]:
    """Adds the block tree to what is told of a test that fails."""
    outcome = yield
    report = outcome.get_result()
    if report.when != "call" or not report.failed or not item.config.getoption("--wakotehu-table"):
        return
    miners: _Miners = getattr(item, "_wakotehu_miners", {})
    for name, miner in miners.items():
        try:
            tree = miner.tree()
        except Exception as error:  # the test's own fault is shown in any case
            tree = f"it can't be read: {type(error).__name__}: {error}"
        report.sections.append((f"Block tree of {name}", tree))


pytest_runtest_makereport = pytest.hookimpl(hookwrapper=True)(_add_tree)
