"""The wallet by itself, over a `Bench` with a `Pool`, a `NodeBench` and a `Node`: keys by BIP 32's vectors, descriptors by those of
BIPs 380 to 383, payments, reorganisations, its file; and a run at random beside a plain replay of the active branch.

WAKOTEHU_HEAVY=1 makes that run one of 5,000 blocks with 20,000 transactions."""

import os
import random
import tempfile
import time
import unittest

from blocks import NOW
from servers import seats
from wakotehu import Bench, Node, Pool, secp256k1
from wakotehu.addresses import address_of, base58, data_of, script_of
from wakotehu.benches import BenchMiner
from wakotehu.encoding import Output, block_at_front
from wakotehu.extendedkeys import HARDENED, PRIVATE, PUBLIC, master
from wakotehu.rpc.checksums import checksum
from wakotehu.rpc.descriptors import curve, read_descriptor
from wakotehu.rpc.errors import RpcError
from wakotehu.rpc.scripts import without_checksum
from wakotehu.wallet import Payment, Settings, Wallet, WalletError
from wakotehu.wallet.keys import expect_spendable, extended_text

COIN = 100_000_000
HEAVY = os.environ.get("WAKOTEHU_HEAVY") == "1"
OTHER = b"\x76\xa9\x14" + bytes(20) + b"\x88\xac"
SEED = bytes(range(16))
#: BIP 32's test vectors 1 and 2: a path, and its extended keys of the main chain.
VECTORS = [
    (SEED.hex(), [
        ("m", "xpub661MyMwAqRbcFtXgS5sYJABqqG9YLmC4Q1Rdap9gSE8NqtwybGhePY2gZ29ESFjqJoCu1Rupje8YtGqsefD265TMg7usUDFdp6W1EGMcet8",
         "xprv9s21ZrQH143K3QTDL4LXw2F7HEK3wJUD2nW2nRk4stbPy6cq3jPPqjiChkVvvNKmPGJxWUtg6LnF5kejMRNNU3TGtRBeJgk33yuGBxrMPHi"),
        ("m/0'", "xpub68Gmy5EdvgibQVfPdqkBBCHxA5htiqg55crXYuXoQRKfDBFA1WEjWgP6LHhwBZeNK1VTsfTFUHCdrfp1bgwQ9xv5ski8PX9rL2dZXvgGDnw",
         "xprv9uHRZZhk6KAJC1avXpDAp4MDc3sQKNxDiPvvkX8Br5ngLNv1TxvUxt4cV1rGL5hj6KCesnDYUhd7oWgT11eZG7XnxHrnYeSvkzY7d2bhkJ7"),
        ("m/0'/1", "xpub6ASuArnXKPbfEwhqN6e3mwBcDTgzisQN1wXN9BJcM47sSikHjJf3UFHKkNAWbWMiGj7Wf5uMash7SyYq527Hqck2AxYysAA7xmALppuCkwQ",
         "xprv9wTYmMFdV23N2TdNG573QoEsfRrWKQgWeibmLntzniatZvR9BmLnvSxqu53Kw1UmYPxLgboyZQaXwTCg8MSY3H2EU4pWcQDnRnrVA1xe8fs"),
        ("m/0'/1/2'/2/1000000000",
         "xpub6H1LXWLaKsWFhvm6RVpEL9P4KfRZSW7abD2ttkWP3SSQvnyA8FSVqNTEcYFgJS2UaFcxupHiYkro49S8yGasTvXEYBVPamhGW6cFJodrTHy",
         "xprvA41z7zogVVwxVSgdKUHDy1SKmdb533PjDz7J6N6mV6uS3ze1ai8FHa8kmHScGpWmj4WggLyQjgPie1rFSruoUihUZREPSL39UNdE3BBDu76"),
    ]),
    ("fffcf9f6f3f0edeae7e4e1dedbd8d5d2cfccc9c6c3c0bdbab7b4b1aeaba8a5a29f9c999693908d8a8784817e7b7875726f6c696663605d5a5754514e4b484542", [
        ("m", "xpub661MyMwAqRbcFW31YEwpkMuc5THy2PSt5bDMsktWQcFF8syAmRUapSCGu8ED9W6oDMSgv6Zz8idoc4a6mr8BDzTJY47LJhkJ8UB7WEGuduB",
         "xprv9s21ZrQH143K31xYSDQpPDxsXRTUcvj2iNHm5NUtrGiGG5e2DtALGdso3pGz6ssrdK4PFmM8NSpSBHNqPqm55Qn3LqFtT2emdEXVYsCzC2U"),
        ("m/0/2147483647'/1/2147483646'/2",
         "xpub6FnCn6nSzZAw5Tw7cgR9bi15UV96gLZhjDstkXXxvCLsUXBGXPdSnLFbdpq8p9HmGsApME5hQTZ3emM2rnY5agb9rXpVGyy3bdW6EEgAtqt",
         "xprvA2nrNbFZABcdryreWet9Ea4LvTJcGsqrMzxHx98MMrotbir7yrKCEXw7nadnHM8Dq38EGfSh6dqA9QWTyefMLEcBYJUuekgW4BYPJcr9E7j"),
    ]),
]  # fmt: skip
A, B = "03a34b99f22c790c4e36b2b3c2c35a36db06226e41c692fc82b8b56ac1c540c5bd", "xprv9s21ZrQH143K31xYSDQpPDxsXRTUcvj2iNHm5NUtrGiGG5e2DtALGdso3pGz6ssrdK4PFmM8NSpSBHNqPqm55Qn3LqFtT2emdEXVYsCzC2U"
C = "xprv9uPDJpEQgRQfDcW7BkF7eTya6RPxXeJCqCJGHuCJ4GiRVLzkTXBAJMu2qaMWPrS7AANYqdq6vcBcBUdJCVVFceUvJFjaPdGZ2y9WACViL4L"
D = "xprvA1RpRA33e1JQ7ifknakTFpgNXPmW2YvmhqLQYMmrj4xJXXWYpDPS3xz7iAxn8L39njGVyuoseXzU6rcxFLJ8HFsTjSyQbLYnMpCqE2VbFWc"
#: Test vectors of BIPs 381, 383 and 384: a descriptor, and its scripts.
DESCRIPTORS = [
    (f"pk({A})", [f"21{A}ac"]), (f"pkh({A})", ["76a9149a1c78a507689f6f54b847ad1cef1e614ee23f1e88ac"]),
    (f"combo({A})", [f"21{A}ac", "76a9149a1c78a507689f6f54b847ad1cef1e614ee23f1e88ac", "00149a1c78a507689f6f54b847ad1cef1e614ee23f1e",
                     "a91484ab21b1b2fd065d4504ff693d832434b6108d7b87"]),
    (f"pk({C}/0)", ["210379e45b3cf75f9c5f9befd8e9506fb962f6a9d185ac87001ec44a8d3df8d4a9e3ac"]),
    (f"pkh({B}/2147483647'/0)", ["76a914ebdc90806a9c4356c1c88e42216611e1cb4c1c1788ac"]),
    (f"sh(multi(2,[00000000/111'/222]{D},{C}/0))", ["a91445a9a622a8b0a1269944be477640eedc447bbd8487"]),
]  # fmt: skip


def of_regtest(text):
    """A descriptor's extended keys as those of regtest."""
    for word in (B, C, D):
        text = text.replace(word, base58(PRIVATE + data_of(word, 120)[4:]))
    return text


def funded(blocks=1, **more):
    """A bench, its pool and a wallet that mined some blocks, of which the next block may spend."""
    bench = Bench()
    pool = Pool(bench)
    wallet = Wallet(bench, pool, seed=SEED, **{"settings": Settings(keypool=20), **more})
    pool.mine(blocks, wallet.address())
    pool.mine(100)
    return bench, pool, wallet


class KeysTest(unittest.TestCase):
    def test_vectors_of_bip_32(self):
        for seed, rows in VECTORS:
            for path, public, private in rows:
                with self.subTest(path):
                    key = master(curve(), bytes.fromhex(seed))
                    for step in path.split("/")[1:]:
                        key = key.child(curve(), int(step.rstrip("'")) + HARDENED * step.endswith("'"))
                    self.assertEqual((key.chain, key.key), (data_of(public, 120)[13:45], data_of(public, 120)[45:]))
                    self.assertEqual(b"\0" + key.secret, data_of(private, 120)[45:])
        root = master(curve(), SEED)
        self.assertEqual(data_of(extended_text(root), 120)[4:], data_of(VECTORS[0][1][0][2], 120)[4:])
        self.assertEqual(data_of(extended_text(root, False), 120), PUBLIC + data_of(VECTORS[0][1][0][1], 120)[4:])

    def test_vectors_of_descriptors(self):
        for text, scripts in DESCRIPTORS:
            with self.subTest(text):
                found = read_descriptor(of_regtest(text))
                self.assertEqual([script.code.hex() for script in found.at(0)], scripts)
                for script in found.at(0):
                    for key in script.keys:
                        if key.secret is not None:
                            self.assertEqual(curve().public_key(key.secret, len(key.key) == 33), key.key)
                self.assertEqual(found.private, of_regtest(text))
                self.assertEqual(read_descriptor(found.private).text, found.text)
                self.assertIs("prv" in text, found.has_private)

    def test_vectors_of_bip_380(self):
        """Checksums and origins of keys, right ones and wrong ones."""
        key = "0260b2003c386519fc9eadf2b5cf124dd8eea4c4e68d5e154050a9346ea98ce600"
        self.assertEqual((without_checksum("raw(deadbeef)#89f8spxm"), checksum("raw(deadbeef)")), ("raw(deadbeef)", "89f8spxm"))
        for text in ("raw(deadbeef)#", "raw(deadbeef)#89f8spxmx", "raw(deadbeef)#89f8spx", "raw(dedbeef)#89f8spxm", "raw(deadbeef)##9f8spxm",
                     "raw(\xdc)#00000000"):  # fmt: skip
            with self.subTest(text), self.assertRaises(RpcError):
                without_checksum(text)
        for origin in ("", "[deadbeef/0h/0h/0h]", "[deadbeef/0'/0'/0']", "[deadbeef/0'/0h/0']"):
            with self.subTest(origin):
                [script] = read_descriptor(f"pk({origin}{key})").at(0)
                self.assertEqual(script.code.hex(), f"21{key}ac")
                self.assertEqual(script.keys[0].path if origin else "", "/0'/0'/0'" if origin else "")
        for origin in ("[deadbeef/0h/0h/0h/]", "[deadbeef/2147483648]", "[deadbeef/1aa]", "[aaaaaaa]", "[aaaaaaaaa]", "[gaaaaaaa]", "[]", "deadbeef]",
                       "[deadbeef][deadbeef]"):  # fmt: skip
            with self.subTest(origin), self.assertRaises(RpcError):
                read_descriptor(f"pk({origin}{key})")

    def test_what_anyone_may_spend_is_refused(self):
        for text in (f"wpkh({A})", f"wsh(pk({A}))", f"sh(wpkh({A}))", f"sh(wsh(pk({A})))", f"tr({A})"):
            with self.subTest(text), self.assertRaises(WalletError) as caught:
                expect_spendable(text)
            self.assertEqual(caught.exception.code, -5)
        with Bench() as bench:
            wallet = Wallet(bench, settings=Settings(keypool=3))
            for type, code in (("p2sh-segwit", -12), ("bech32", -12), ("bech32m", -12), ("x", -5)):
                with self.subTest(type), self.assertRaises(WalletError) as caught:
                    wallet.address(type=type)
                self.assertEqual(caught.exception.code, code)
            wallet.add(f"combo({A})", 0)
            self.assertEqual(sum(own[0] == 3 for own in wallet._scripts.values()), 2)


class PaymentsTest(unittest.TestCase):
    def test_a_payment(self):
        bench, pool, wallet = funded()
        with bench:
            self.assertEqual(wallet.balances(), (50 * COIN, 0, 0))
            id = wallet.pay(OTHER, COIN)
            entry = pool.entry(id)
            # 20 satoshis for each byte of a signature of 71 bytes; this one may have one less.
            self.assertIn(entry.fee - 20 * entry.size, (0, 20))
            self.assertEqual([out.value for out in entry.tx.outputs], [COIN, 49 * COIN - entry.fee])
            self.assertEqual(wallet.balance(), 49 * COIN - entry.fee)
            self.assertEqual(wallet.balance(1), 0)
            pool.mine()
            self.assertEqual(wallet.balance(1), 49 * COIN - entry.fee)
            self.assertEqual(wallet.transaction(id), entry.data)

    def test_dust_is_no_change(self):
        bench, pool, wallet = funded()
        with bench:
            # An input of 147 bytes, and an output of 34: 191 bytes in all, 225 with change; change of 545 satoshis is dust.
            left = 20 * 225 + 545
            id = wallet.pay(OTHER, 50 * COIN - left)
            self.assertEqual((len(pool.entry(id).tx.outputs), pool.entry(id).fee), (1, left))
            self.assertEqual(wallet.balance(), 0)

    def test_oldest_coins_come_first(self):
        bench, pool, wallet = funded(5)
        with bench:
            id = wallet.pay(OTHER, 120 * COIN)
            self.assertEqual([wallet.ledger.conflicting(own) for own in wallet.ledger.in_order()], [[]] * 6)
            heights = [bench.coin(it.id, it.index).height for it in pool.entry(id).tx.inputs]
            self.assertEqual(heights, [1, 2, 3])

    def test_many_small_coins(self):
        """Where the oldest are too many for one transaction, the largest are taken; what isn't worth its fee is left."""
        bench, pool, wallet = funded(2)
        with bench:
            script = script_of(wallet.address())
            wallet.send(wallet.fund(wallet.plan([Payment(Output(3001 + 1000 * (number % 2), script)) for number in range(1500)])).tx)
            pool.mine()
            small = [it for it in wallet.unspent() if it.output.value < 5000]
            self.assertEqual(len(small), 1500)
            pool.mine(1, wallet.address())
            pool.mine(100)
            id = wallet.pay(OTHER, 120 * COIN)
            self.assertEqual(len(pool.entry(id).tx.inputs), 3)
            pool.mine()
            # At 21 satoshis for a byte one of 3,001 isn't worth its 147 bytes.
            for coin in [it for it in wallet.unspent() if it.output.value > 5000]:
                wallet.locked[coin.outpoint] = None
            id = wallet.pay(OTHER, 3000, rate=21_000)
            self.assertEqual({wallet.output((it.id, it.index)).value for it in pool.entry(id).tx.inputs}, {4001})

    def test_what_takes_the_fee(self):
        bench, pool, wallet = funded()
        with bench:
            script = script_of(wallet.address())
            plan = wallet.plan([Payment(Output(20 * COIN, OTHER), True), Payment(Output(30 * COIN, script), True)])
            made = wallet.fund(plan)
            self.assertEqual((made.change, made.fee), (-1, 20 * 225))
            self.assertEqual([out.value for out in made.tx.outputs], [20 * COIN - 2250, 30 * COIN - 2250])

    def test_no_keys_for_change(self):
        bench, pool, wallet = funded()
        with bench:
            alone = Wallet(bench, pool, is_blank=True, settings=Settings(keypool=20))
            alone.add(wallet.owned[1].text, 0, is_active=True)
            alone.rescan()
            with self.assertRaises(WalletError) as caught:
                alone.pay(OTHER, COIN)
            self.assertIn("needs a change address", str(caught.exception))
            alone.pay(OTHER, 50 * COIN - 20 * 191)
            self.assertEqual(alone.balance(), 0)

    def test_refusals(self):
        bench, pool, wallet = funded()
        with bench:
            for value, text in ((51 * COIN, "Insufficient funds"), (50 * COIN, "Insufficient funds"), (1, "Transaction amount too small")):
                with self.subTest(value), self.assertRaises(WalletError) as caught:
                    wallet.pay(OTHER, value)
                self.assertEqual((caught.exception.code, str(caught.exception)), (-6, text))
            self.assertEqual((len(pool), len(wallet.ledger.pending)), (0, 0))
            wallet.settings = Settings(fallback=0)
            with self.assertRaises(WalletError) as caught:
                wallet.pay(OTHER, COIN)
            self.assertIn("Fallbackfee is disabled", str(caught.exception))
            self.assertEqual(pool.entry(wallet.pay(OTHER, COIN, rate=3000)).fee, 675)

    def test_a_fee_is_bumped(self):
        bench, pool, wallet = funded()
        with bench:
            first = wallet.pay(OTHER, COIN, is_replaceable=True)
            fee = pool.entry(first).fee
            bumped = wallet.bump(first)
            self.assertEqual(([it.id for it in pool], bumped.old_fee), ([bumped.id], fee))
            self.assertEqual(pool.entry(bumped.id).fee, bumped.fee)
            self.assertEqual(wallet.balance(), 49 * COIN - bumped.fee)
            again = wallet.bump(bumped.id, rate=100_000)
            self.assertEqual(again.fee, 225 * 100)
            with self.assertRaises(WalletError):
                wallet.bump(first)
            pool.mine()
            self.assertEqual(wallet.balance(1), 49 * COIN - again.fee)
            self.assertEqual(wallet.ledger.depth(wallet.record(first)), -1)
            # Where the block leaves, what was replaced is possible again.
            bench.invalidate(bench.best())
            wallet.follow()
            self.assertEqual(wallet.ledger.depth(wallet.record(first)), 0)

    def test_a_payment_of_several_keys(self):
        bench, pool, wallet = funded()
        with bench:
            for text in ("sh(multi(2,{0}/1/*,{0}/2/*,{0}/3/*))", "sh(sortedmulti(1,{0}/4/*,{0}/5/*))", "multi(1,{0}/6,{0}/7)", "pk({0}/8)"):
                own = wallet.add(text.format(extended_text(master(curve(), bytes(16)))), 0)
                script = own.scripts(0)[0].code
                pool.mine(1, script)
                pool.mine(100)
                for coin in [it for it in wallet.unspent() if it.output.script != script]:
                    wallet.locked[coin.outpoint] = None
                id = wallet.pay(OTHER, COIN // 2)
                self.assertLessEqual(0, pool.entry(id).fee - 20 * pool.entry(id).size)
                self.assertLessEqual(pool.entry(id).fee, 20 * (pool.entry(id).size + 4))
                self.assertEqual([wallet.output((it.id, it.index)).script for it in pool.entry(id).tx.inputs], [script])
                pool.mine()
                wallet.locked.clear()

    def test_others_pay_and_spend(self):
        """What waits from others isn't trusted; what a block makes impossible counts for nothing."""
        bench, pool, wallet = funded()
        with bench:
            other = Wallet(bench, pool, seed=bytes(16), settings=Settings(keypool=3))
            pool.mine(1, other.address())
            pool.mine(100)
            id = other.pay(wallet.address(), 3 * COIN, is_replaceable=True)
            self.assertEqual(wallet.balances(), (50 * COIN, 3 * COIN, 0))
            other.bump(id, rate=60_000)
            self.assertEqual(wallet.balances(), (50 * COIN, 3 * COIN, 0))
            pool.mine()
            self.assertEqual(wallet.balances(), (53 * COIN, 0, 0))
            self.assertEqual(wallet.ledger.depth(wallet.record(id)), -1)

    def test_abandoned(self):
        bench, _, wallet = funded()
        with bench:
            alone = wallet.copy(bench)
            id = alone.pay(OTHER, COIN)
            self.assertEqual(alone.balance(), 49 * COIN - 4500)
            alone.host.pool, alone._changes = Pool(bench), -2
            self.assertEqual(alone.balance(), 0)
            alone.abandon(id)
            self.assertEqual(alone.balance(), 50 * COIN)
            waits = wallet.pay(OTHER, COIN)
            with self.assertRaises(WalletError):
                wallet.abandon(waits)
            self.assertEqual(alone.host.pool.add(alone.transaction(id)), id)
            self.assertEqual(alone.balance(), 49 * COIN - 4500)


class FileTest(unittest.TestCase):
    def test_a_restart_in_a_reorganisation(self):
        with tempfile.TemporaryDirectory() as folder, Bench() as bench:
            path, pool = os.path.join(folder, "w"), Pool(bench)
            wallet = Wallet(bench, pool, seed=SEED, path=path, name="a name", settings=Settings(keypool=20))
            pool.mine(3, wallet.address("a label"))
            pool.mine(100)
            id = wallet.pay(OTHER, COIN, is_replaceable=True)
            bumped = wallet.bump(id)
            pool.mine()
            before, total = wallet.record(id), wallet.balance()
            self.assertEqual(os.stat(path).st_mode & 0o777, 0o600)
            wallet.close()
            BenchMiner(bench).reorg(3)
            again = Wallet(bench, pool, path=path, settings=Settings(keypool=20))
            self.assertEqual((again.name, again.labels), ("a name", wallet.labels))
            self.assertEqual((again.balance(), again.balance(1)), (total, 100 * COIN))
            self.assertIsNone(again.record(bumped.id).place)
            self.assertEqual(again.record(id).notes, {**before.notes})
            self.assertEqual(again.ledger.depth(again.record(id)), 0)
            pool.mine()
            self.assertEqual(again.balance(1), total)
            self.assertEqual(again.ledger.depth(again.record(id)), -1)
            again.backup(os.path.join(folder, "copy"))
            again.close()
            copied = Wallet(bench, pool, path=os.path.join(folder, "copy"), settings=Settings(keypool=20))
            self.assertEqual(copied.balance(1), total)
            self.assertEqual(copied.labels, again.labels)
            copied.close()
            with self.assertRaises(WalletError):
                again.address()

    def test_a_change_is_kept_or_not(self):
        """A process that ends between two writes leaves the last one: the file is read by another connection's rules alone."""
        with tempfile.TemporaryDirectory() as folder, Bench() as bench:
            path = os.path.join(folder, "w")
            wallet = Wallet(bench, seed=SEED, path=path, settings=Settings(keypool=20))
            given = [wallet.address() for _ in range(3)]
            # As after a crash: the file and what was logged, without an end.
            for end in ("", "-wal"):
                with open(path + end, "rb") as file, open(os.path.join(folder, "other" + end), "wb") as copy:
                    copy.write(file.read())
            other = Wallet(bench, path=os.path.join(folder, "other"), settings=Settings(keypool=20))
            self.assertEqual([address_of(script) for script in other.labels], given)
            self.assertEqual(other.address(), wallet.address())

    def test_another_chain(self):
        """A wallet whose chain is another one is rebuilt from that."""
        bench, pool, wallet = funded(3)
        with tempfile.TemporaryDirectory() as folder, bench, Bench() as other:
            wallet.backup(os.path.join(folder, "w"))
            Pool(other).mine(1, next(iter(wallet.labels)))
            Pool(other).mine(100)
            moved = Wallet(other, Pool(other), path=os.path.join(folder, "w"), settings=Settings(keypool=20))
            self.assertEqual(moved.balances(), (50 * COIN, 0, 0))
            # The first coinbase is the same one in both.
            self.assertEqual(sum(own.place is None for own in moved.ledger.records.values()), 2)
            moved.close()


class HostsTest(unittest.TestCase):
    """The wallet over other chainstates: what it sends the caller mines."""

    def test_a_node_and_a_nodebench(self):
        bench, pool, wallet = funded()
        with bench, Node(seats=2, verify=secp256k1) as node, seats() as served:
            blocks = [bench.block(id) for id in bench.branch()]
            for block in blocks:
                node.seat(0).submit(block, NOW + 10**6)
                with served.turn:
                    served.try_submit(block, NOW + 10**6)
            for chain in (node, served):
                with self.subTest(type(chain).__name__):
                    other = Wallet(chain, seed=SEED, settings=Settings(keypool=20))
                    self.assertEqual(other.rescan(), 101)
                    self.assertEqual(other.balances(), (50 * COIN, 0, 0))
                    id = other.pay(OTHER, COIN)
                    self.assertEqual(other.balance(), 49 * COIN - 4500)
                    pool.add(other.transaction(id))
                    pool.mine()
                    block = bench.block(bench.best())
                    if chain is node:
                        node.seat(1).submit(block, NOW + 10**6)
                    else:
                        with served.turn:
                            served.try_submit(block, NOW + 10**6)
                    self.assertEqual(other.balance(1), 49 * COIN - 4500)
                    bench.invalidate(bench.best())
                    list(pool)
                    (node.seat(0) if chain is node else None) and node.seat(0).invalidate(block_at_front(block).header.id)
                    if chain is served:
                        with served.turn:
                            served.try_mark("invalidate", block_at_front(block).header.id)
                    self.assertEqual((other.balance(1), other.ledger.height), (0, 101))
                    pool._all.drop(id)

    def test_arguments(self):
        with self.assertRaises(TypeError):
            Wallet(object())


class Replay:
    """What a wallet with some scripts should have, by its branch from genesis on, and by what waits."""

    def __init__(self, bench, pool, scripts):
        self.coins, self.records, self.height = {}, {}, bench.height()
        for height, id in enumerate(bench.branch(), 1):
            for tx in map(block_at_front(bench.block(id)).transaction, range(len(block_at_front(bench.block(id)).ids))):
                self._do(tx, scripts, height, id)
        mined, self.waiting = dict(self.coins), {}
        for entry in pool:
            is_own = all((it.id, it.index) in mined or self.waiting.get((it.id, it.index), False) for it in entry.tx.inputs)
            self._do(entry.tx, scripts, 0, None)
            self.waiting.update({(entry.id, at): is_own for at, out in enumerate(entry.tx.outputs) if out.script in scripts})

    def _do(self, tx, scripts, height, block):
        spent = [self.coins.pop((it.id, it.index), None) for it in tx.inputs]
        for index, out in enumerate(tx.outputs):
            if out.script in scripts:
                self.coins[tx.id, index] = (out.value, height, tx.is_coinbase)
        if any(spent) or any(out.script in scripts for out in tx.outputs):
            self.records[tx.id] = block

    @property
    def balances(self):
        immature = {at for at, (_, height, made) in self.coins.items() if made and self.height - height + 1 <= 100}
        pending = {at for at, (_, height, _) in self.coins.items() if not height and not self.waiting[at]}
        trusted = self.coins.keys() - immature - pending
        return tuple(sum(self.coins[at][0] for at in ats) for ats in (trusted, pending, immature))


class Run:
    """Payments, blocks and reorganisations at random, of a wallet and another one."""

    def __init__(self, number, folder):
        self.random, self.path = random.Random(number), os.path.join(folder, str(number))
        self.bench = Bench()
        self.pool, self.miner = Pool(self.bench), BenchMiner(self.bench)
        self.wallet = Wallet(self.bench, self.pool, seed=SEED, path=self.path, settings=Settings(keypool=50))
        self.other = Wallet(self.bench, self.pool, seed=bytes(16), settings=Settings(keypool=50))
        for wallet in (self.wallet, self.other):
            self.pool.mine(3, wallet.address())
        self.pool.mine(101)
        self.count = 0

    def step(self):
        weights = (30, 15, 2, 1, 1, 3, 0.5, 0.03) if HEAVY else (30, 15, 10, 3, 2, 4, 1, 1)
        kind = self.random.choices(("pay", "come", "mine", "own", "reorg", "bump", "invalid", "restart"), weights)[0]
        try:
            getattr(self, kind)()
        except WalletError as error:
            assert str(error) in ("Insufficient funds",) or "rejected" in str(error) or "ump" in str(error) or "BIP 125" in str(error) or \
                "descendants" in str(error) or "inputs that don't" in str(error) or "mined" in str(error), error

    def pay(self, wallet=None, to=None):
        wallet = wallet or self.wallet
        target = to or self.random.choice([OTHER, script_of(wallet.address()), script_of(self.other.address())])
        # Blocks pay less and less: a long run has to do with what the first ones paid.
        wallet.pay(target, self.random.randrange(1000, COIN // 100 if HEAVY else 2 * COIN), is_replaceable=self.random.random() < 0.5)
        self.count += 1

    def come(self):
        self.pay(self.other, script_of(self.wallet.address()))

    def mine(self):
        self.pool.mine(self.random.randrange(1, 3))

    def own(self):
        self.pool.mine(1, self.random.choice((self.wallet, self.other)).address())

    def reorg(self):
        depth = self.random.randrange(1, 8)
        self.miner.reorg(depth)
        self.pool.mine(self.random.randrange(3))

    def invalid(self):
        self.bench.invalidate(self.bench.branch()[-self.random.randrange(1, 6)])

    def bump(self):
        pending = list(self.wallet.ledger.pending)
        if pending:
            self.wallet.bump(self.random.choice(pending))

    def restart(self):
        self.wallet.close()
        self.wallet = Wallet(self.bench, self.pool, path=self.path, settings=Settings(keypool=50))

    def compared(self, test):
        """What the wallet has is what a replay has. What doesn't wait any more is abandoned, so that it spends nothing."""
        for wallet in (self.wallet, self.other):
            wallet.follow()
            for id in list(wallet.ledger.pending):
                if id not in wallet.ledger.waiting and wallet.ledger.is_live(wallet.record(id)) and not wallet.record(id).tx.is_coinbase:
                    wallet.abandon(id)
            replay = Replay(self.bench, self.pool, wallet._scripts)
            test.assertEqual(wallet.balances(), replay.balances)
            immature = {at for at, (_, height, made) in replay.coins.items() if made and replay.height - height + 1 <= 100}
            test.assertEqual({coin.outpoint for coin in wallet.unspent()}, replay.coins.keys() - immature)
            found = {id: own.place and own.place.block for id, own in wallet.ledger.records.items() if own.place or id in wallet.ledger.waiting}
            test.assertEqual(found, replay.records)
        fresh = Wallet(self.bench, self.pool, seed=SEED, settings=Settings(keypool=max(100, len(self.wallet._scripts))))
        fresh.rescan()
        test.assertEqual(fresh.balances(), self.wallet.balances())
        test.assertEqual([it.outpoint for it in fresh.unspent() if it.depth], [it.outpoint for it in self.wallet.unspent() if it.depth])


class ReplayTest(unittest.TestCase):
    def test_a_run_at_random(self):
        with tempfile.TemporaryDirectory() as folder:
            for number in range(4):
                run = Run(number, folder)
                with self.subTest(number), run.bench:
                    for _ in range(5):
                        for _ in range(30):
                            run.step()
                        run.compared(self)
                    self.assertGreater(run.count, 40)

    @unittest.skipUnless(HEAVY, "WAKOTEHU_HEAVY=1 has it run, some minutes")
    def test_a_long_run(self):
        with tempfile.TemporaryDirectory() as folder:
            run, began = Run(7, folder), time.monotonic()
            with run.bench:
                while run.count < 20_000 or run.bench.height() < 5_000:
                    run.step()
                    if run.random.random() < 0.1:
                        run.pool.mine(1, run.wallet.address())
                made = time.monotonic()
                run.compared(self)
                shown = time.monotonic()
                run.wallet.balance(), run.wallet.unspent()
                listed = time.monotonic()
                run.wallet.rescan()
                print(f"\n{run.bench.height()} blocks, {run.count} payments made in {made - began:.0f} s, compared in {shown - made:.1f} s;"
                      f" balance and list {listed - shown:.3f} s, rescan {time.monotonic() - listed:.2f} s")  # fmt: skip




if __name__ == "__main__":
    unittest.main()
