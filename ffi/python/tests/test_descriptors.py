"""Descriptors to pay to and to scan for: beside litecoind, Bitcoin Core's code, and BIP 32's own vectors."""

import hashlib
import hmac
import unittest

import peers
from servers import Running
from test_rpc import CallsTest
from wakotehu.addresses import base58, data_of
from wakotehu.extendedkeys import HARDENED, PRIVATE, PUBLIC, ExtendedKey, read_extended
from wakotehu.signatures import Secp256k1

#: BIP 32's first vector: of the seed 00 to 0f, the extended public keys of mainnet at these paths.
VECTORS = (
    ((), "xpub661MyMwAqRbcFtXgS5sYJABqqG9YLmC4Q1Rdap9gSE8NqtwybGhePY2gZ29ESFjqJoCu1Rupje8YtGqsefD265TMg7usUDFdp6W1EGMcet8"),
    ((HARDENED,), "xpub68Gmy5EdvgibQVfPdqkBBCHxA5htiqg55crXYuXoQRKfDBFA1WEjWgP6LHhwBZeNK1VTsfTFUHCdrfp1bgwQ9xv5ski8PX9rL2dZXvgGDnw"),
    ((HARDENED, 1), "xpub6ASuArnXKPbfEwhqN6e3mwBcDTgzisQN1wXN9BJcM47sSikHjJf3UFHKkNAWbWMiGj7Wf5uMash7SyYq527Hqck2AxYysAA7xmALppuCkwQ"),
    ((HARDENED, 1, HARDENED + 2), "xpub6D4BDPcP2GT577Vvch3R8wDkScZWzQzMMUm3PWbmWvVJrZwQY4VUNgqFJPMM3No2dFDFGTsxxpG5uJh7n7epu4trkrX7x7DogT5Uv6fcLW5"),
)  # fmt: skip
SECP = Secp256k1()
SEED = hmac.digest(b"Bitcoin seed", bytes(range(16)), hashlib.sha512)
ROOT = ExtendedKey(SECP.public_key(SEED[:32]), SEED[32:], SEED[:32])
XPRV = base58(PRIVATE + bytes(9) + ROOT.chain + b"\0" + SEED[:32])
XPUB = base58(PUBLIC + bytes(9) + ROOT.chain + ROOT.key)

ONE, TWO = SECP.public_key(bytes(31) + b"\1").hex(), SECP.public_key(bytes(31) + b"\2").hex()
LONG = SECP.public_key(bytes(31) + b"\1", False).hex()
SECRET = base58(b"\xef" + bytes(31) + b"\2\1")
#: Descriptors, all that Bitcoin Core 0.21 has, of which some are refused.
DESCRIPTORS = (
    f"pk({ONE})", f"pkh({ONE})", f"pkh({LONG})", f"combo({TWO})", f"combo({LONG})", f"wpkh({ONE})", f"wpkh({LONG})",
    f"sh(wpkh({ONE}))", f"sh(pkh({LONG}))", f"wsh(pkh({ONE}))", f"sh(wsh(pk({ONE})))", f"multi(1,{ONE},{TWO})",
    f"sortedmulti(2,{TWO},{ONE})", f"sh(multi(2,{ONE},{LONG}))", f"wsh(sortedmulti(2,{TWO},{ONE}))",
    f"pkh([d34db33f/44'/0h/7]{TWO})", f"pkh({XPUB}/1/2)", f"pkh({XPUB}/1/*)", f"combo({XPUB}/3h/2)", f"combo({XPRV}/3h/2)",
    f"pkh({XPRV}/3h/*h)", f"wpkh([00000001/1h]{XPRV}/3h/*)", f"pkh({SECRET})", f"sh(multi(1,{XPUB}/0/*,{XPRV}/1/*h))",
    f"pkh({XPUB}/*h)", f"pk({XPRV})", "raw(5151)", "pkh()", f"pkh({ONE},{TWO})", "foo(1)", f"sh(combo({ONE}))",
    f"wsh(wpkh({ONE}))", f"sh(pk({ONE}))x", f"wsh(multi(1,{LONG}))", f"pkh({ONE})#00000000",
)  # fmt: skip
#: Scripts of places 0 to 4 of the ranges above.
PLACES = (f"pkh({XPUB}/1/3)", f"pkh({XPRV}/3h/4h)", f"wpkh({XPRV}/3h/0)", f"sh(multi(1,{XPUB}/0/2,{XPRV}/1/2h))")


class ExtendedKeysTest(unittest.TestCase):
    def test_vectors(self):
        for path, xpub in VECTORS:
            own = ROOT
            for number in path:
                own = own.child(SECP, number)
            data = data_of(xpub, 120)
            self.assertEqual((own.chain, own.key), (data[13:45], data[45:]), path)

    def test_public_keys_are_derived_without_secrets(self):
        public = ROOT._replace(secret=None)
        for number in (0, 1, HARDENED - 1):
            self.assertEqual(public.child(SECP, number), ROOT.child(SECP, number)._replace(secret=None))
        self.assertIsNone(public.child(SECP, HARDENED))

    def test_read(self):
        self.assertEqual(read_extended(SECP, data_of(XPRV, 120)), ROOT)
        self.assertEqual(read_extended(SECP, data_of(XPUB, 120)), ROOT._replace(secret=None))
        for data in (b"", bytes(78), data_of(XPUB, 120)[:-1], data_of(VECTORS[0][1], 120), PRIVATE + bytes(74)):
            self.assertIsNone(read_extended(SECP, data))


def answer(call, *words):
    """What a call answers; of a fault its code."""
    found = call(*words)
    return f"error {found['code']}" if isinstance(found, dict) and "code" in found else found


def paid(call, descriptor):
    """The script of a block that pays to a descriptor."""
    found = answer(call, "generatetodescriptor", 1, descriptor)
    return found if isinstance(found, str) else call("getblock", found[0], 2)["tx"][0]["vout"][0]["scriptPubKey"]["hex"]


def scanned(call, *wanted):
    """The coins of a scan, by heights."""
    found = answer(call, "scantxoutset", "start", list(wanted))
    if isinstance(found, str):
        return found
    return sorted((it["height"], it["scriptPubKey"], it["desc"]) for it in found["unspents"])


def asked(call):
    """What is asked of ours and of litecoind, and the answers."""
    found = [(descriptor, paid(call, descriptor)) for descriptor in (*DESCRIPTORS, *PLACES)]
    for descriptor in DESCRIPTORS:
        for wanted in (descriptor, {"desc": descriptor, "range": 3}, {"desc": descriptor, "range": [2, 4]}):
            found.append((str(wanted), scanned(call, wanted)))
    return found


def derived(call):
    """Which scripts the addresses of descriptors have, of places 0 to 2 where they have a range."""
    found = []
    for descriptor in DESCRIPTORS:
        told = answer(call, "getdescriptorinfo", descriptor)
        if isinstance(told, str):
            continue
        own = f"{descriptor.partition('#')[0]}#{told['checksum']}"
        for more in ((), (2,), ([1, 2],), (None,)):
            addresses = answer(call, "deriveaddresses", own, *more)
            if not isinstance(addresses, str):
                addresses = [call("validateaddress", address)["scriptPubKey"] for address in addresses]
            found.append((f"{descriptor} {more}", addresses))
    return found


class CallsOfDescriptorsTest(CallsTest):
    def test_faults(self):
        """In Bitcoin Core's words (src/rpc/util.cpp and mining.cpp)."""
        for words, code, message in (
            (("generatetodescriptor", 1, f"pkh({XPUB}/*)"), -8, "Ranged descriptor not accepted. Maybe pass through deriveaddresses first?"),
            (("generateblock", f"pkh({XPUB}/*)", []), -8, "Ranged descriptor not accepted. Maybe pass through deriveaddresses first?"),
            (("generatetodescriptor", 1, f"pkh({XPUB}/1h)"), -5, "Cannot derive script without private keys"),
            (("generateblock", f"pkh({ONE}", []), -5, "Error: Invalid address or descriptor"),
            (("scantxoutset", "start", [f"pkh({XPUB}/1h)"]), -5, f"Cannot derive script without private keys: 'pkh({XPUB}/1h)'"),
        ):  # fmt: skip
            error = self.call(*words)
            self.assertEqual((error["code"], error["message"]), (code, message), words)

    def test_faults_of_deriveaddresses(self):
        """In Bitcoin Core's words (src/rpc/misc.cpp)."""
        def marked(descriptor):
            return f"{descriptor}#{self.call('getdescriptorinfo', descriptor)['checksum']}"

        for words, code, message in (
            ((f"pkh({ONE})",), -5, "Missing checksum"), ((5,), -3, "Expected type string, got number"),
            ((marked(f"pkh({ONE})"), 1), -8, "Range should not be specified for an un-ranged descriptor"),
            ((marked(f"pkh({XPUB}/*)"),), -8, "Range must be specified for a ranged descriptor"),
            ((marked(f"pkh({XPUB}/*)"), [2, 1]), -8, "Range specified as [begin,end] must not have begin after end"),
            ((marked(f"multi(1,{ONE})"),), -5, "Descriptor does not have a corresponding address"),
        ):  # fmt: skip
            error = self.call("deriveaddresses", *words)
            self.assertEqual((error["code"], error["message"]), (code, message), words)

    def test_a_range_of_many(self):
        """Each of its places is looked for, the ends among them."""
        for place in (0, 1000, 1001):
            self.call("generatetodescriptor", 1, f"pkh({XPUB}/{place})")
        first = self.call("getblockcount") - 2
        self.assertEqual([height for height, *_ in scanned(self.call, f"pkh({XPUB}/*)")], [first, first + 1])
        wanted = {"desc": f"pkh({XPUB}/*)", "range": [1, 1001]}
        self.assertEqual([height for height, *_ in scanned(self.call, wanted)], [first + 1, first + 2])


@unittest.skipUnless(peers.IS_THERE, "litecoind isn't installed")
class BesideLitecoindTest(unittest.TestCase):
    def test_descriptors(self):
        """Each is mined to and scanned for: the scripts, the descriptors that are told, the codes of faults."""
        server = Running()
        self.addCleanup(server.stop)
        with peers.Litecoind() as peer:
            ours, theirs = asked(server.call), asked(lambda *words: coded(peer.call(*words)))
            addresses, others = derived(server.call), derived(lambda *words: coded(peer.call(*words)))
        self.assertEqual([what for what, _ in ours + addresses], [what for what, _ in theirs + others])
        for (what, own), (_, other) in zip(ours, theirs):
            with self.subTest(what):
                self.assertEqual(own, other)
        for (what, own), (_, other) in zip(addresses, others):
            # Ours has no addresses of witness programs.
            with self.subTest(what):
                self.assertEqual(own, "error -5" if has_witness(other) else other)
        self.assertGreater(sum(isinstance(own, list) and bool(own) for _, own in ours), 50)


def has_witness(scripts):
    return isinstance(scripts, list) and any(script[:4] in ("0014", "0020") for script in scripts)


def coded(found):
    """A fault as `Running.call` gives it."""
    return {"code": int(found.split()[1])} if isinstance(found, str) and found.startswith("error") else found


if __name__ == "__main__":
    unittest.main()
