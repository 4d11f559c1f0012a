"""Partially signed transactions: BIP 174's own vectors, what is refused, and each call beside litecoind, Bitcoin Core's code."""

import base64
import json
import random
import resource
import time
import unittest
from contextlib import nullcontext
from copy import deepcopy
from dataclasses import replace
from unittest import mock

import peers
from servers import Running
from wakotehu import consensus, psbt, psbtsigning
from wakotehu.addresses import base58
from wakotehu.encoding import Input, Output, Transaction, hash160, push, write_transaction
from wakotehu.psbt import Psbt, PsbtError, PsbtInput, PsbtOutput
from wakotehu.psbtsigning import Means, fill, finalize
from wakotehu.rpc import walletpsbts
from wakotehu.signatures import Secp256k1
from wakotehu.wallet.funding import Funded

SECP = Secp256k1()
#: BIP 174's vectors: what a creator, an updater and a finalizer make, the transaction, and one whose coin's transaction has
#: witnesses.
CREATED = (
    "cHNidP8BAJoCAAAAAljoeiG1ba8MI76OcHBFbDNvfLqlyHV5JPVFiHuyq911AAAAAAD/////g40EJ9DsZQpoqka7CwmK6kQiwHGyyng1Kgd5WdB86h0BAAAAAP//"
    "//8CcKrwCAAAAAAWABTYXCtx0AYLCcmIauuBXlCZHdoSTQDh9QUAAAAAFgAUAK6pouXw+HaliN9VRuh0LR2HAI8AAAAAAAAAAAA="
)
UPDATED = (
    "cHNidP8BAJoCAAAAAljoeiG1ba8MI76OcHBFbDNvfLqlyHV5JPVFiHuyq911AAAAAAD/////g40EJ9DsZQpoqka7CwmK6kQiwHGyyng1Kgd5WdB86h0BAAAAAP//"
    "//8CcKrwCAAAAAAWABTYXCtx0AYLCcmIauuBXlCZHdoSTQDh9QUAAAAAFgAUAK6pouXw+HaliN9VRuh0LR2HAI8AAAAAAAEAuwIAAAABqtc5MQGL0l+ErkALaISL"
    "4J23BurCrBgpi6vucatlb4sAAAAASEcwRAIgWPb8fGoz4bMVSNSByCbAFb0wE1qtQs1neQ2rZtKtJDsCIEoc7SYExnNbY5PltBaR3XiwDwxZQvufdRhW+qk4FX26"
    "Af7///8CgPD6AgAAAAAXqRQPuUY0IWlrgsgzryQceMF9295JNIfQ8gonAQAAABepFCnKdPigj4GZlCgYXJe12FLkBj9hh2UAAAABAwQBAAAAAQRHUiEClYO/Oa4K"
    "YJdHrRma3dY0+mEIVZ1sXNObTCGD8auW4H8hAtq2H/SaFNtqfQKwzR+7ePxLGDErW05U2uTbovv+9TbXUq4iBgKVg785rgpgl0etGZrd1jT6YQhVnWxc05tMIYPx"
    "q5bgfxDZDGpPAAAAgAAAAIAAAACAIgYC2rYf9JoU22p9ArDNH7t4/EsYMStbTlTa5Nui+/71NtcQ2QxqTwAAAIAAAACAAQAAgAABASAAwusLAAAAABepFLf1+vQO"
    "PUClpFmx2zU18rcvqSHohwEEIgAgjCNTFzdDtZXftKB7crqOQuN5fadOh/59nXSX47ICiQMBBUdSIQMIncEMesbbVPkTKa9hczPbOIzq0MIx9yM3nRuZAwsC3CEC"
    "Ot2QTz1tz1nduQaw3uI1Kbf/ue1Q5ehhUZJoYCIfDnNSriIGAjrdkE89bc9Z3bkGsN7iNSm3/7ntUOXoYVGSaGAiHw5zENkMak8AAACAAAAAgAMAAIAiBgMIncEM"
    "esbbVPkTKa9hczPbOIzq0MIx9yM3nRuZAwsC3BDZDGpPAAAAgAAAAIACAACAACICA6mkw39ZltOqJdusa1cK8GUDlEkpQkYLNUdT7Z7spYdxENkMak8AAACAAAAA"
    "gAQAAIAAIgICf2OZdX0u/1WhNq0CxoSxg4tlVuXxtrNCgqlLa1AFEJYQ2QxqTwAAAIAAAACABQAAgAA="
)
FINAL = (
    "cHNidP8BAJoCAAAAAljoeiG1ba8MI76OcHBFbDNvfLqlyHV5JPVFiHuyq911AAAAAAD/////g40EJ9DsZQpoqka7CwmK6kQiwHGyyng1Kgd5WdB86h0BAAAAAP//"
    "//8CcKrwCAAAAAAWABTYXCtx0AYLCcmIauuBXlCZHdoSTQDh9QUAAAAAFgAUAK6pouXw+HaliN9VRuh0LR2HAI8AAAAAAAEAuwIAAAABqtc5MQGL0l+ErkALaISL"
    "4J23BurCrBgpi6vucatlb4sAAAAASEcwRAIgWPb8fGoz4bMVSNSByCbAFb0wE1qtQs1neQ2rZtKtJDsCIEoc7SYExnNbY5PltBaR3XiwDwxZQvufdRhW+qk4FX26"
    "Af7///8CgPD6AgAAAAAXqRQPuUY0IWlrgsgzryQceMF9295JNIfQ8gonAQAAABepFCnKdPigj4GZlCgYXJe12FLkBj9hh2UAAAABB9oARzBEAiB0AYrUGACXuHMy"
    "PAAVcgs2hMyBI4kQSOfbzZtVrWecmQIgc9Npt0Dj61Pc76M4I8gHBRTKVafdlUTxV8FnkTJhEYwBSDBFAiEA9hA4swjcHahlo0hSdG8BV3KTQgjG0kRUOTzZm98i"
    "F3cCIAVuZ1pnWm0KArhbFOXikHTYolqbV2C+ooFvZhkQoAbqAUdSIQKVg785rgpgl0etGZrd1jT6YQhVnWxc05tMIYPxq5bgfyEC2rYf9JoU22p9ArDNH7t4/EsY"
    "MStbTlTa5Nui+/71NtdSrgABASAAwusLAAAAABepFLf1+vQOPUClpFmx2zU18rcvqSHohwEHIyIAIIwjUxc3Q7WV37Sge3K6jkLjeX2nTof+fZ10l+OyAokDAQja"
    "BABHMEQCIGLrelVhB6fHP0WsSrWh3d9vcHX7EnWWmn84Pv/3hLyyAiAMBdu3Rw2/LwhVfdNWxzJcHtMJE+mWzThAlF2xIijaXwFHMEQCIGX0W6WZi1mif/4ae+0B"
    "avHx+Q1Us6qPdFCqX1aiUQO9AiB/ckcDrR7blmgLKEtW1P/LiPf7dZ6rvgiqMPKbhROD0gFHUiEDCJ3BDHrG21T5EymvYXMz2ziM6tDCMfcjN50bmQMLAtwhAjrd"
    "kE89bc9Z3bkGsN7iNSm3/7ntUOXoYVGSaGAiHw5zUq4AIgIDqaTDf1mW06ol26xrVwrwZQOUSSlCRgs1R1Ptnuylh3EQ2QxqTwAAAIAAAACABAAAgAAiAgJ/Y5l1"
    "fS7/VaE2rQLGhLGDi2VW5fG2s0KCqUtrUAUQlhDZDGpPAAAAgAAAAIAFAACAAA=="
)
EXTRACTED = (
    "0200000000010258e87a21b56daf0c23be8e7070456c336f7cbaa5c8757924f545887bb2abdd7500000000da00473044022074018ad4180097b873323c00"
    "15720b3684cc8123891048e7dbcd9b55ad679c99022073d369b740e3eb53dcefa33823c8070514ca55a7dd9544f157c167913261118c01483045022100f6"
    "1038b308dc1da865a34852746f015772934208c6d24454393cd99bdf2217770220056e675a675a6d0a02b85b14e5e29074d8a25a9b5760bea2816f661910"
    "a006ea01475221029583bf39ae0a609747ad199addd634fa6108559d6c5cd39b4c2183f1ab96e07f2102dab61ff49a14db6a7d02b0cd1fbb78fc4b18312b"
    "5b4e54dae4dba2fbfef536d752aeffffffff838d0427d0ec650a68aa46bb0b098aea4422c071b2ca78352a077959d07cea1d01000000232200208c235317"
    "3743b595dfb4a07b72ba8e42e3797da74e87fe7d9d7497e3b2028903ffffffff0270aaf00800000000160014d85c2b71d0060b09c9886aeb815e50991dda"
    "124d00e1f5050000000016001400aea9a2e5f0f876a588df5546e8742d1d87008f000400473044022062eb7a556107a7c73f45ac4ab5a1dddf6f7075fb12"
    "75969a7f383efff784bcb202200c05dbb7470dbf2f08557dd356c7325c1ed30913e996cd3840945db12228da5f01473044022065f45ba5998b59a27ffe1a"
    "7bed016af1f1f90d54b3aa8f7450aa5f56a25103bd02207f724703ad1edb96680b284b56d4ffcb88f7fb759eabbe08aa30f29b851383d20147522103089d"
    "c10c7ac6db54f91329af617333db388cead0c231f723379d1b99030b02dc21023add904f3d6dcf59ddb906b0dee23529b7ffb9ed50e5e86151926860221f"
    "0e7352ae00000000"
)
WITNESSED = (
    "cHNidP8BAHUCAAAAASaBcTce3/KF6Tet7qSze3gADAVmy7OtZGQXE8pCFxv2AAAAAAD+////AtPf9QUAAAAAGXapFNDFmQPFusKGh2DpD9UhpGZap2UgiKwA4fUF"
    "AAAAABepFDVF5uM7gyxHBQ8k0+65PJwDlIvHh7MuEwAAAQD9pQEBAAAAAAECiaPHHqtNIOA3G7ukzGmPopXJRjr6Ljl/hTPMti+VZ+UBAAAAFxYAFL4Y0VKpsBID"
    "na89p95PUzSe7LmF/////4b4qkOnHf8USIk6UwpyN+9rRgi7st0tAXHmOuxqSJC0AQAAABcWABT+Pp7xp0XpdNkCxDVZQ6vLNL1TU/////8CAMLrCwAAAAAZdqkU"
    "hc/xCX/Z4Ai7NK9wnGIZeziXikiIrHL++E4sAAAAF6kUM5cluiHv1irHU6m80GfWx6ajnQWHAkcwRAIgJxK+IuAnDzlPVoMR3HyppolwuAJf3TskAinwf4pfOiQC"
    "IAGLONfc0xTnNMkna9b7QPZzMlvEuqFEyADS8vAtsnZcASED0uFWdJQbrUqZY3LLh+GFbTZSYG2YVi/jnF6efkE/IQUCSDBFAiEA0SuFLYXc2WHS9fSrZgZU327t"
    "zHlMDDPOXMMJ/7X85Y0CIGczio4OFyXBl/saiK9Z9R5E5CVbIBZ8hoQDHAXR8lkqASECI7cr7vCWXRC+B3jv7NYfysb3mk6haTkzgHNEZPhPKrMAAAAAAAAA"
)
#: Of one signature of two for a witness program; and with a field that nobody knows.
PARTIAL = (
    "cHNidP8BAFUCAAAAASeaIyOl37UfxF8iD6WLD8E+HjNCeSqF1+Ns1jM7XLw5AAAAAAD/////AaBa6gsAAAAAGXapFP/pwAYQl8w7Y28ssEYPpPxCfStFiKwAAAAA"
    "AAEBIJVe6gsAAAAAF6kUY0UgD2jRieGtwN8cTRbqjxTA2+uHIgIDsTQcy6doO2r08SOM1ul+cWfVafrEfx5I1HVBhENVvUZGMEMCIAQktY7/qqaU4VWepck7v9So"
    "kGQiQFXN8HC2dxRpRC0HAh9cjrD+plFtYLisszrWTt5g6Hhb+zqpS5m9+GFR25qaAQEEIgAgdx/RitRZZm3Unz1WTj28QvTIR3TjYK2haBao7UiNVoEBBUdSIQOx"
    "NBzLp2g7avTxI4zW6X5xZ9Vp+sR/HkjUdUGEQ1W9RiED3lXR4drIBeP4pYwfv5uUwC89uq/hJ/78pJlfJvggg71SriIGA7E0HMunaDtq9PEjjNbpfnFn1Wn6xH8e"
    "SNR1QYRDVb1GELSmumcAAACAAAAAgAQAAIAiBgPeVdHh2sgF4/iljB+/m5TALz26r+En/vykmV8m+CCDvRC0prpnAAAAgAAAAIAFAACAAAA="
)
UNKNOWN = (
    "cHNidP8BAD8CAAAAAf//////////////////////////////////////////AAAAAAD/////AQAAAAAAAAAAA2oBAAAAAAAACg8BAgMEBQYHCAkPAQIDBAUGBwgJ"
    "CgsMDQ4PAAA="
)
#: The private keys of BIP 174's two signers.
SIGNERS = (
    ("cP53pDbR5WtAD8dYAW9hhTjuvvTVaEiQBdrz9XPrgLBeRFiyCbQr", "cR6SXDoyfQrcp4piaiHE97Rsgta9mNhGTen9XeonVgwsh4iSgw6d"),
    ("cT7J9YpCwY3AVRFSjN6ukeEeWY6mhpbJPxRaDaP5QTdygQRxP9Au", "cNBc3SWUip9PPm1GjRoLEJT6T41iNzCYtD7qro84FMnM5zEqeJsE"),
)



def keys(*numbers, compressed=True):
    """Secrets by their keys."""
    return {SECP.public_key(number.to_bytes(32, "big"), compressed): number.to_bytes(32, "big") for number in numbers}


def means_of(secrets, *scripts):
    """What signs with some secrets, and the scripts whose hashes are known."""
    return Means(secrets, {hash160(key): key for key in secrets}, {hash160(script): script for script in scripts})


# ---- bytes of any form


def text(data):
    return bytes([len(data)]) + data if len(data) < 253 else b"\xfd" + len(data).to_bytes(2, "little") + data


def field(key, value):
    return text(key) + text(value)


TX = Transaction(2, [Input(bytes([7]) * 32, 1, b"", 0xFFFFFFFE)], [Output(5, b"\x51")], 9)
SPENT = Transaction(1, [Input(bytes(32), 0xFFFFFFFF, b"\1\1", 0)], [Output(1, b"\x52"), Output(50_000, b"\x51")], 0)
OWN = TX._replace(inputs=[TX.inputs[0]._replace(id=SPENT.id)])
KEY = SECP.public_key(bytes(31) + b"\7")


def spelled(*inputs, outputs=(b"\0",), tx=TX, front=b""):
    return psbt.MAGIC + field(b"\0", write_transaction(tx)) + front + b"\0" + b"".join(inputs or (b"\0",)) + b"".join(outputs)


def refused():
    """What isn't one, with Bitcoin Core's words."""
    raw, spent = write_transaction(OWN), write_transaction(SPENT)
    yield "a transaction", raw, "Invalid PSBT magic bytes"
    yield "nothing", b"", "CDataStream::read(): end of data"
    yield "outputs left out", spelled(outputs=()), "Outputs provided does not match the number of outputs in transaction."
    missing = "Inputs provided does not match the number of inputs in transaction."
    yield "inputs left out", psbt.MAGIC + field(b"\0", raw) + b"\0", missing
    signed = TX._replace(inputs=[TX.inputs[0]._replace(script=b"\x51")])
    yield "a script", spelled(tx=signed), "Unsigned tx does not have empty scriptSigs and scriptWitnesses."
    yield "no transaction", psbt.MAGIC + b"\0", "No unsigned transcation was provided"
    yield "two transactions", spelled(front=field(b"\0", raw)), "Duplicate Key, unsigned tx already provided"
    yield "a longer key of it", psbt.MAGIC + field(b"\0\1", raw) + b"\0", "Global unsigned tx key is more than one byte type"
    yield "unknown twice", spelled(front=2 * field(b"\xf0", b"")), "Duplicate Key, key for unknown value already provided"
    yield "no end of the front", psbt.MAGIC + field(b"\0", raw), "Separator is missing at the end of the global map"
    yield "no end of an input", spelled(field(b"\xf0", b""), outputs=()), "Separator is missing at the end of an input map"
    yield "no end of an output", spelled(outputs=(field(b"\xf0", b""),)), "Separator is missing at the end of an output map"
    yield "another coin", spelled(field(b"\0", spent) + b"\0"), "Non-witness UTXO does not match outpoint hash"
    yield "more behind it", spelled() + b"\0", None
    yield "a longer value", spelled(field(b"\3", bytes(5)) + b"\0"), "Size of value was not the stated size"
    yield "a count in three bytes", spelled(b"\xfd\1\0\3\4" + bytes(4) + b"\0"), "non-canonical ReadCompactSize()"
    yield "a count that is too large", spelled(b"\xfe\1\0\0\2"), "ReadCompactSize(): size too large"
    nothing = raw[:4] + b"\0\1" + raw[4:-4] + b"\0" + raw[-4:]
    yield "a witness of nothing", spelled(field(b"\0", nothing) + b"\0"), "Superfluous witness record"
    yield "flags", spelled(field(b"\0", raw[:4] + b"\0\2" + raw[4:]) + b"\0"), "Unknown transaction optional data"
    named = {0: "Non-witness utxo", 1: "Witness utxo", 3: "Sighash type", 4: "Input redeemScript", 5: "Input witnessScript",
             7: "Final scriptSig", 8: "Final scriptWitness"}  # fmt: skip
    for kind, name in named.items():
        yield name, spelled(field(bytes([kind, 0]), b"") + b"\0"), f"{name} key is more than one byte type"
    for kind, name in {0: "Output redeemScript", 1: "Output witnessScript"}.items():
        yield name, spelled(outputs=(field(bytes([kind, 0]), b"") + b"\0",)), f"{name} key is more than one byte type"
        twice = f"Duplicate Key, {name[0].lower()}{name[1:]} already provided"
        yield name + " twice", spelled(outputs=(2 * field(bytes([kind]), b"\x51") + b"\0",)), twice
    values = {1: ("witness utxo", bytes(8) + b"\1\x51"), 3: ("sighash type", b"\1\0\0\0"), 4: ("redeemScript", b"\x51"),
              5: ("witnessScript", b"\x51"), 7: ("final scriptSig", b"\x51"), 8: ("final scriptWitness", b"\1\0")}  # fmt: skip
    for kind, (name, value) in values.items():
        yield name + " twice", spelled(2 * field(bytes([kind]), value) + b"\0"), f"Duplicate Key, input {name} already provided"
    yield "two coins", spelled(2 * field(b"\0", spent) + b"\0", tx=OWN), "Duplicate Key, input non-witness utxo already provided"
    for kind, name in ((b"\2", "partial signature pubkey"), (b"\6", "BIP32 keypath")):
        yield name, spelled(field(kind + KEY[:-1], b"") + b"\0"), f"Size of key was not the expected size for the type {name}"
        yield name + " off the curve", spelled(field(kind + b"\5" + KEY[1:], bytes(4)) + b"\0"), "Invalid pubkey"
    yield "a path of 5 bytes", spelled(field(b"\6" + KEY, bytes(5)) + b"\0"), "Invalid length for HD key path"
    yield "no path", spelled(field(b"\6" + KEY, b"") + b"\0"), "Invalid length for HD key path"
    twice = "Duplicate Key, input partial signature for pubkey already provided"
    yield "two signatures", spelled(2 * field(b"\2" + KEY, b"") + b"\0"), twice
    twice = "Duplicate Key, pubkey derivation path already provided"
    yield "two paths", spelled(2 * field(b"\6" + KEY, bytes(4)) + b"\0"), twice
    yield "two paths of an output", spelled(outputs=(2 * field(b"\2" + KEY, bytes(4)) + b"\0",)), twice


CALLED = ("decodepsbt", "analyzepsbt", "finalizepsbt", "utxoupdatepsbt", "combinepsbt", "joinpsbts")
#: Texts that are no base 64, or no PSBT: "extra data" has no stream's words behind it.
TEXTS = ("====", "cHNidP8=A", "cHNidP9=", "cHNidP8", "cHNi dP8=", "cHNidP8-", "AAAAAAAA", "A===")


class VectorsTest(unittest.TestCase):
    """BIP 174's."""

    def test_each_is_written_as_it_is_read(self):
        for given in (CREATED, UPDATED, FINAL, PARTIAL, UNKNOWN):
            self.assertEqual(psbt.to_base64(psbt.from_base64(given)), given)
        field = {bytes.fromhex("0f010203040506070809"): bytes(range(1, 16))}
        self.assertEqual(psbt.from_base64(UNKNOWN).inputs[0].unknown, field)
        # The coin's transaction is written without its witnesses.
        found = psbt.from_base64(WITNESSED)
        self.assertEqual([len(it) for it in found.inputs[0].non_witness_utxo.witnesses], [2, 2])
        written = psbt.decode(psbt.encode(found))
        self.assertEqual(written.inputs[0].non_witness_utxo.witnesses, ())
        self.assertEqual(written.inputs[0].non_witness_utxo.id, found.inputs[0].non_witness_utxo.id)

    def test_digest_of_a_witness_program(self):
        """The signature that one has is valid."""
        found = psbt.from_base64(PARTIAL)
        [(key, signature)] = found.inputs[0].partial_sigs.items()
        code, value = found.inputs[0].witness_script, found.inputs[0].witness_utxo.value
        digest = psbtsigning.Signer(found).witness_digests.of(0, code, signature[-1], value)
        self.assertTrue(SECP.valid(consensus.Triple(key, signature[:-1], digest)))

    def test_creator(self):
        tx = psbt.from_base64(UPDATED).tx
        self.assertEqual(psbt.to_base64(psbt.blank(tx)), CREATED)

    def test_updater(self):
        """What an updater adds, of a descriptor's keys."""
        found, created = psbt.from_base64(UPDATED), psbt.from_base64(CREATED)
        for own, blank in zip(found.inputs, created.inputs):
            blank.non_witness_utxo, blank.witness_utxo, blank.sighash = own.non_witness_utxo, own.witness_utxo, own.sighash
        scripts = [script for own in found.inputs for script in (own.redeem_script, own.witness_script) if script]
        origins = {key: path for own in (*found.inputs, *found.outputs) for key, path in own.derivations.items()}
        means = replace(means_of({}, *scripts), origins=origins, keys={hash160(key): key for key in origins})
        self.assertFalse(fill(created, means, signs=False))
        self.assertEqual(psbt.to_base64(created), UPDATED)

    def signed(self, words, made=UPDATED):
        """One that a signer has signed, as BIP 174's signers did: any first number is taken."""
        found, secrets = psbt.from_base64(made), dict(map(secret, words))
        secp = Secp256k1()
        secp.sign_short = secp.sign
        signer = psbtsigning.Signer(found, means_of(secrets))
        signer.secp = secp
        for place in (0, 1):
            self.assertFalse(signer.sign(place).is_complete)
        return found

    def test_signers_combiner_finalizer_and_extractor(self):
        one, two = map(self.signed, SIGNERS)
        for both in ([one, two], [two, one]):
            found = psbt.combine(both)
            self.assertEqual(sum(len(own.partial_sigs) for own in found.inputs), 4)
            with self.assertRaises(PsbtError):
                psbt.extract(found)
            self.assertTrue(finalize(found))
            self.assertEqual(psbt.to_base64(found), FINAL)
            self.assertEqual(psbt.extract(found).hex(), EXTRACTED)

    def test_one_signer_is_too_few(self):
        found = self.signed(SIGNERS[0])
        self.assertFalse(finalize(found))
        self.assertEqual([own.is_final for own in found.inputs], [False, False])

    def test_refused(self):
        for name, data, why in refused():
            with self.subTest(name):
                with self.assertRaises(PsbtError) as caught:
                    psbt.decode(data)
                self.assertEqual(str(caught.exception), why or "extra data after PSBT")
        for given in TEXTS:
            with self.assertRaises(PsbtError):
                psbt.from_base64(given)

    def test_another_transaction_isnt_combined(self):
        with self.assertRaises(psbt.Mismatch):
            psbt.combine([psbt.from_base64(CREATED), psbt.blank(TX)])


def secret(word):
    """A key with its secret, of a word of a wallet."""
    from wakotehu.rpc.signing import read_secret

    found = read_secret(word)
    return SECP.public_key(*found), found[0]


# ---- random ones


def drawn(dice):
    """One with any fields."""
    def some(most=40):
        return dice.randbytes(dice.randrange(1, most))

    def pairs(kind, value):
        return {kind(): value() for _ in range(dice.randrange(3))}

    def key():
        return SECP.public_key(dice.randrange(1, 1 << 200).to_bytes(32, "big"), dice.random() < 0.8)

    def unknown():
        return pairs(lambda: bytes([dice.randrange(9, 256)]) + some(4), some)

    def path():
        return bytes(4) + some(2) * 4 * dice.randrange(3)

    def known(kind, more):
        redeem, inner = some() * dice.randrange(2), some(400) * dice.randrange(2)
        return kind(redeem_script=redeem, witness_script=inner, derivations=pairs(key, path), unknown=unknown(), **more)

    spent = Transaction(1, [Input(some(2) * 32, 0, some(), 1)], [Output(dice.randrange(10**9), some()) for _ in range(3)], 0)
    ins = [Input(spent.id, at, b"", dice.randrange(1 << 32)) for at in range(dice.randrange(4))]
    outs = [Output(dice.randrange(10**9), some()) for _ in range(dice.randrange(4))]
    tx = Transaction(dice.choice((1, 2, -1)), ins, outs, dice.randrange(1 << 32))
    found = psbt.blank(tx)
    for place in range(len(found.inputs)):
        data = write_transaction(spent)
        more = {"sighash": dice.choice((0, 1, 2, 129)), "partial_sigs": pairs(key, some)}
        found.inputs[place] = known(PsbtInput, more)
        if dice.random() < 0.3:
            found.inputs[place] = PsbtInput(final_script=some(), final_witness=tuple(some() for _ in range(dice.randrange(3))))
        if dice.random() < 0.5:
            found.inputs[place].non_witness_utxo = psbt.previous_of(data)
        if dice.random() < 0.5:
            found.inputs[place].witness_utxo = spent.outputs[0]
    found.outputs = [known(PsbtOutput, {}) for _ in found.outputs]
    found.unknown = unknown()
    return found


class RandomTest(unittest.TestCase):
    def test_there_and_back(self):
        dice, fields = random.Random(1), set()
        for _ in range(400):
            own = drawn(dice)
            data = psbt.encode(own)
            found = psbt.decode(data)
            self.assertEqual(found, own)
            self.assertEqual(psbt.encode(found), data)
            fields |= {name for it in (*own.inputs, *own.outputs) for name, value in vars(it).items() if value}
        self.assertEqual(fields, set(vars(PsbtInput())))

    def test_combining_has_all_and_any_order_is_one(self):
        dice = random.Random(2)
        for _ in range(100):
            whole = drawn(dice)
            one, two = deepcopy(whole), deepcopy(whole)
            for first, second in zip((*one.inputs, *one.outputs), (*two.inputs, *two.outputs)):
                # Each field is left out by one of them at most.
                for name in {*vars(first)} - {"sighash"}:
                    thin = dice.choice((first, second, None))
                    if thin is not None:
                        setattr(thin, name, getattr(type(thin)(), name))
            self.assertEqual(psbt.combine([one, two]), whole)
            self.assertEqual(psbt.combine([two, one, two]), whole)

    def test_joining(self):
        dice = random.Random(3)
        for _ in range(50):
            one, two = drawn(dice), drawn(dice)
            found = psbt.join([one, two])
            self.assertEqual([it for it in found.tx.inputs], one.tx.inputs + two.tx.inputs)
            self.assertEqual(found.outputs, one.outputs + two.outputs)
            self.assertFalse(any(own.is_final or own.partial_sigs for own in found.inputs))
            if one.inputs:
                with self.assertRaises(PsbtError):
                    psbt.join([one, two, one])

    def test_hostile_bytes(self):
        """10,000 changed ones: each is read or refused, and what is read is written and signed without any other exception."""
        dice, seeds = random.Random(4), [base64.b64decode(it) for it in (CREATED, UPDATED, FINAL, WITNESSED)]
        read, begun = 0, time.monotonic()
        for _ in range(10_000):
            data = bytearray(dice.choice(seeds))
            for _ in range(dice.choice((1, 1, 2, 8))):
                at = dice.randrange(len(data))
                if dice.random() < 0.5:
                    data[at] = dice.choice((0, 1, 2, 8, 0xFC, 0xFD, 0xFE, 0xFF, dice.randrange(256)))
                elif dice.random() < 0.5:
                    del data[at : at + dice.randrange(5)]
                else:
                    data[at:at] = bytes([dice.randrange(9)]) * dice.randrange(5)
                data = data or bytearray(b"p")
            try:
                found = psbt.decode(bytes(data))
            except PsbtError:
                continue
            read += 1
            self.assertEqual(psbt.encode(psbt.decode(psbt.encode(found))), psbt.encode(found))
            finalize(found)
        self.assertGreater(read, 1000)
        self.assertLess(time.monotonic() - begun, 60)

    def test_hostile_requests(self):
        """Each is answered, or refused with a code of Bitcoin Core's."""
        running = Running()
        self.addCleanup(running.stop)
        dice, codes = random.Random(6), set()
        seeds = [base64.b64decode(it) for it in (CREATED, UPDATED, FINAL)] + [psbt.encode(it) for it in list(forms())[::4]]
        for _ in range(400):
            data = bytearray(dice.choice(seeds))
            for _ in range(dice.choice((1, 2))):
                data[dice.randrange(len(data))] = dice.choice((0, 1, 2, 0xFD, 0xFE, 0xFF, dice.randrange(256)))
            given = base64.b64encode(data).decode()
            for method in CALLED:
                found = running.call(method, [given, given] if method in ("combinepsbt", "joinpsbts") else given)
                codes.add(found.get("code") if isinstance(found, dict) else None)
        self.assertEqual(codes, {None, -22, -8})

    def test_large_ones(self):
        """As large as may be, of what costs most: each ends soon, and takes a bounded part of the memory."""
        many = psbt.MAX_PSBT - 200
        unknown = b"".join(b"\4\xf0" + number.to_bytes(3, "big") + b"\0" for number in range(many // 6))
        items = b"\xfe" + (many // 2).to_bytes(4, "little") + bytes(many // 2)
        witness = field(b"\x08", b"")[:2] + b"\xfe" + len(items).to_bytes(4, "little") + items + b"\0"
        for data in (spelled(front=unknown), spelled(witness), spelled(b"\xfe" + many.to_bytes(4, "little") + bytes(many))):
            begun, before = time.monotonic(), resource.getrusage(resource.RUSAGE_SELF).ru_maxrss
            try:
                psbt.encode(psbt.decode(data))
            except PsbtError:
                pass
            self.assertLess(time.monotonic() - begun, 30)
            self.assertLess(resource.getrusage(resource.RUSAGE_SELF).ru_maxrss - before, 1_500_000)
        with self.assertRaises(PsbtError):
            psbt.decode(bytes(psbt.MAX_PSBT + 1))


# ---- beside litecoind

#: Of a transaction of litecoind's, and of addresses, which have other first bytes there.
ELSEWHERE = {"ismweb", "address", "addresses", "reqSigs"}


def common(found):
    """What both programs answer alike."""
    if isinstance(found, dict):
        return {name: common(value) for name, value in found.items() if name not in ELSEWHERE}
    return [common(value) for value in found] if isinstance(found, list) else found


def asker(peer):
    """Calls of a peer, whose faults come with their words."""
    def call(method, *params):
        peer.link.request("POST", "/", json.dumps({"method": method, "params": params, "id": 1}), peer.head)
        reply = json.loads(peer.link.getresponse().read())
        return reply["error"] or reply["result"]

    return call


def script_hash(script):
    return b"\xa9\x14" + hash160(script) + b"\x87"


def multisig(needed, *own):
    return bytes([0x50 + needed]) + b"".join(map(push, own)) + bytes([0x50 + len(own), 0xAE])


def paid(key):
    return b"\x76\xa9\x14" + hash160(key) + b"\x88\xac"


ONE, TWO, THREE = (SECP.public_key(bytes(31) + bytes([number])) for number in (1, 2, 3))
LONG = SECP.public_key(bytes(31) + b"\1", False)
BOTH, PROGRAM = multisig(2, ONE, TWO), b"\0\x14" + hash160(ONE)
HASHED = b"\0\x20" + consensus.sha256(BOTH)
#: What outputs are paid to, with the scripts that stand within.
FORMS = (
    (push(ONE) + b"\xac", b"", b""), (push(LONG) + b"\xac", b"", b""), (paid(ONE), b"", b""), (paid(LONG), b"", b""),
    (multisig(1, TWO, ONE), b"", b""), (BOTH, b"", b""), (multisig(2, ONE, THREE, TWO), b"", b""), (script_hash(BOTH), BOTH, b""),
    (script_hash(paid(ONE)), paid(ONE), b""), (script_hash(BOTH), b"", b""),
    (script_hash(multisig(1, LONG)), multisig(1, LONG), b""), (PROGRAM, b"", b""), (script_hash(PROGRAM), PROGRAM, b""),
    (b"\0\x14" + hash160(LONG), b"", b""), (HASHED, b"", BOTH),
    (script_hash(HASHED), HASHED, BOTH), (script_hash(HASHED), HASHED, b""), (HASHED, b"", b""),
    (b"\x51\x20" + bytes(32), b"", b""), (b"\x51", b"", b""), (b"\x6a\x01\x07", b"", b""), (paid(THREE), b"", b""),
    (script_hash(script_hash(BOTH)), script_hash(BOTH), b""),
)  # fmt: skip


def forms(value=100_000):
    """One for each form, with its coin's transaction, or its output where that is of a witness program."""
    for number, (script, redeem, inner) in enumerate(FORMS):
        for is_whole in (True, False):
            spent = Transaction(1, [Input(bytes([number]) * 32, 0, b"", 1)], [Output(7, b"\x51"), Output(value, script)], 0)
            tx = Transaction(2, [Input(spent.id, 1, b"", 0xFFFFFFFD)], [Output(90_000, paid(TWO)), Output(1, HASHED)], 3)
            found = psbt.blank(tx)
            found.inputs[0] = PsbtInput(redeem_script=redeem, witness_script=inner)
            if is_whole:
                found.inputs[0].non_witness_utxo = psbt.previous_of(write_transaction(spent))
            else:
                found.inputs[0].witness_utxo = spent.outputs[1]
            yield found


@unittest.skipUnless(peers.IS_THERE, "litecoind isn't installed")
class BesideLitecoindTest(unittest.TestCase):
    @classmethod
    def setUpClass(cls):
        cls.running = Running()
        cls.addClassCleanup(cls.running.stop)
        cls.litecoind = peers.Litecoind()
        cls.theirs = staticmethod(asker(cls.litecoind.__enter__()))
        cls.addClassCleanup(cls.litecoind.__exit__)
        cls.theirs("createwallet", "w")
        for number in (1, 2):
            for compressed in (True, False):
                word = base58(b"\xef" + bytes(31) + bytes([number]) + b"\1" * compressed)
                assert cls.theirs("importprivkey", word, "", False) is None
        cls.ours = staticmethod(cls.running.call)

    def same(self, *words):
        """The answer of both."""
        own, other = common(self.ours(*words)), common(self.theirs(*words))
        with self.subTest(words=str(words)[:300]):
            self.assertEqual(own, other)
        return own

    def shown(self, given):
        """One that is shown, looked at and made final by both."""
        self.same("decodepsbt", given)
        self.same("analyzepsbt", given)
        self.same("finalizepsbt", given, False)
        return self.same("finalizepsbt", given)

    def test_vectors_and_what_is_refused(self):
        for given in (CREATED, UPDATED, FINAL, WITNESSED, PARTIAL, UNKNOWN, *TEXTS, ""):
            self.shown(given)
        for _, data, _ in refused():
            self.assertEqual(self.shown(base64.b64encode(data).decode())["code"], -22)

    def test_types(self):
        for method in (*CALLED, "converttopsbt"):
            for value in (None, 5, [], [5], {}, True, [None], "", [""]):
                self.same(method, value)
        for words in ((CREATED, 5), (CREATED, "x"), (CREATED, None)):
            self.same("finalizepsbt", *words)
        for words in (([], None), (None, []), ("x", []), ([], 5), ([], {}, -1), ([], {}, 1, 5), ([{}], {}), ([{"txid": ""}], {})):
            self.same("createpsbt", *words)
        for given in (5, [5], [{}], [{"desc": 5}], ["x"], ["pkh()"], [{"desc": f"pk({ONE.hex()})", "range": [2, 1]}]):
            self.same("utxoupdatepsbt", CREATED, given)

    def test_made_ones(self):
        ins = [{"txid": "11" * 32, "vout": 1}, {"txid": "22" * 32, "vout": 2, "sequence": 5}]
        for outputs in ({"data": "0102"}, [{"data": "01"}], {}, []):
            for more in ((), (7,), (7, True), (0, False)):
                self.same("createpsbt", ins, outputs, *more)
                self.same("createpsbt", [], outputs, *more)

    def test_converted_ones(self):
        plain, signed = write_transaction(TX), write_transaction(TX._replace(inputs=[TX.inputs[0]._replace(script=b"\x51")]))
        empty = write_transaction(Transaction(2, [], [Output(1, b"\x51")], 0))
        nothing = write_transaction(Transaction(2, [], [], 0))
        for data in (plain, signed, bytes.fromhex(EXTRACTED), empty, nothing, plain + b"\0", b""):
            for more in ((), (True,), (False,), (True, True), (True, False), (False, True), (None, False), (5,), (None, 5)):
                self.same("converttopsbt", data.hex(), *more)

    def test_combined_and_joined_ones(self):
        one, two = CREATED, psbt.to_base64(psbt.blank(TX))
        more = ([one, FINAL], [FINAL, UPDATED], [one, two], [one, "x"], [], [UPDATED] * 3)
        for given in ([one], [one, UPDATED], [UPDATED, one], *more):
            self.same("combinepsbt", given)
        dice = random.Random(5)
        for _ in range(60):
            own = drawn(dice)
            other = deepcopy(own)
            for its in (*other.inputs, *other.outputs):
                for name in vars(its):
                    if dice.random() < 0.4:
                        setattr(its, name, getattr(type(its)(), name))
            self.same("combinepsbt", [psbt.to_base64(own), psbt.to_base64(other)])
        for given in ([], [one], [one, one], [one, UPDATED]):
            self.same("joinpsbts", given)
        for given in ([two, UPDATED], [FINAL, two], *([psbt.to_base64(drawn(dice)) for _ in range(3)] for _ in range(20))):
            found = [call("joinpsbts", given) for call in (self.ours, self.theirs)]
            if isinstance(found[1], dict):
                self.assertEqual(*found)
            else:
                self.assertEqual(*map(unordered, found))

    def test_signed_ones(self):
        """By litecoind's wallet and by `fill`, for each hash type; then what both make of them, and of ones that are broken."""
        secrets = {**keys(1, 2), **keys(1, 2, compressed=False)}
        means, done = means_of(secrets, PROGRAM, b"\0\x14" + hash160(TWO)), 0
        for made in forms():
            for name, kind in (("ALL", 1), ("NONE", 2), ("SINGLE", 3), ("ALL|ANYONECANPAY", 129), ("SINGLE|ANYONECANPAY", 131)):
                found = deepcopy(made)
                complete = fill(found, means, kind=kind, tells_origins=False)
                theirs = self.theirs("walletprocesspsbt", psbt.to_base64(made), True, name, False)
                with self.subTest(script=made.spent(0).script.hex(), kind=name):
                    self.assertEqual({"psbt": psbt.to_base64(found), "complete": complete}, theirs)
                done += complete
            self.shown(psbt.to_base64(found))
            self.shown(psbt.to_base64(made))
        self.assertGreater(done, 60)

    def test_a_wallets_calls(self):
        """Over a wallet that has what litecoind's has."""
        for name, found in (("using", lambda node: nullcontext()), ("Held", lambda wallet: Wallet())):
            patched = mock.patch.object(walletpsbts, name, found)
            patched.start()
            self.addCleanup(patched.stop)
        made = psbt.to_base64(next(forms()))
        for given in (made, UPDATED, FINAL, "x"):
            for more in ((True, "ALL", False), (False, "ALL", False), (True, "NONE", False)):
                self.same("walletprocesspsbt", given, *more)
            for more in ((True, "x"), (None,), (5,), (True, 5), (True, "ALL", 5)):
                self.same("walletprocesspsbt", given, *more)
        # An output that isn't there.
        spent = psbt.blank(OWN._replace(inputs=[OWN.inputs[0]._replace(index=9)]))
        spent.inputs[0].non_witness_utxo = psbt.previous_of(write_transaction(SPENT))
        self.same("walletprocesspsbt", psbt.to_base64(spent))
        for words in (({}, {}), ([], {}, "x"), ([], {}, 0, 5), ([], {}, 0, {"replaceable": 5}), ([], {}, 0, {}, 5)):
            self.same("walletcreatefundedpsbt", *words)
        found = self.ours("walletcreatefundedpsbt", [], [{"data": "01"}], 3, {"replaceable": True})
        tx = psbt.from_base64(found["psbt"]).tx
        self.assertEqual((len(tx.inputs), tx.lock_time, found["fee"], found["changepos"]), (1, 3, 0.000001, 1))
        self.assertEqual(psbt.from_base64(found["psbt"]).outputs[1].derivations, {ONE: bytes(8)})

    def test_signatures_apart(self):
        """Signed as by each alone, combined, made final; broken, missing and of another form."""
        final = 0
        for made in forms():
            signed = []
            for number in (1, 2):
                # A signature isn't made final by who makes it where that one lacks something.
                found = deepcopy(made)
                psbtsigning.Signer(found, means_of({**keys(number), **keys(number, compressed=False)})).sign(0)
                signed.append(found)
            both = psbt.combine(signed)
            final += self.shown(psbt.to_base64(both)).get("complete", False)
            own = both.inputs[0]
            for key, signature in sorted(own.partial_sigs.items()):
                ends = [signature[:-1] + end for end in (b"", b"\4", b"\x81")]
                for wrong in (b"", *ends, signature[:-2] + b"\0\1", higher(signature)):
                    changed = deepcopy(both)
                    changed.inputs[0].partial_sigs[key] = wrong
                    self.shown(psbt.to_base64(changed))
        self.assertGreater(final, 8)

    def test_amounts_and_faults(self):
        for made in (next(forms()), next(forms(0)), next(forms(-5)), next(forms(20_000_000 * 10**6))):
            for value in (0, 10**8, -1):
                changed = deepcopy(made)
                changed.tx.outputs[0] = changed.tx.outputs[0]._replace(value=value)
                self.shown(psbt.to_base64(changed))
        # An output that isn't there: decodepsbt of Bitcoin Core 0.21 would read beyond the end.
        spent = psbt.blank(OWN._replace(inputs=[OWN.inputs[0]._replace(index=9)]))
        spent.inputs[0].non_witness_utxo = psbt.previous_of(write_transaction(SPENT))
        self.same("analyzepsbt", psbt.to_base64(spent))
        self.same("finalizepsbt", psbt.to_base64(spent))
        self.assertNotIn("fee", self.ours("decodepsbt", psbt.to_base64(spent)))

    def test_updated_ones(self):
        """Coins of descriptors, on the chain and waiting, and what is paid to them."""
        one, two, many = ONE.hex(), TWO.hex(), ",".join(key.hex() for key in keys(9, 8, 7, 6, 5))
        described = (
            f"pkh({one})", f"wpkh({one})", f"sh(wpkh([00000001/1h/2]{one}))", f"sh(multi(2,{one},{two}))",
            f"wsh(multi(1,{two},{one}))", f"sh(wsh(pkh({two})))", f"combo({two})", f"sh(multi(1,{many}))",
            f"sh(wsh(multi(3,{many})))", f"wsh(sortedmulti(2,{many}))", f"sh(pk([0000abcd]{one}))",
        )  # fmt: skip
        for name in described:
            found = []
            for call in (self.ours, self.theirs):
                [block] = call("generatetodescriptor", 1, name)
                [coin] = call("getblock", block)["tx"]
                script = call("getblock", block, 2)["tx"][0]["vout"][0]["scriptPubKey"]["hex"]
                tx = Transaction(2, [Input(bytes.fromhex(coin)[::-1], 0, b"", 5)], [Output(9, bytes.fromhex(script))], 0)
                given = psbt.to_base64(psbt.blank(tx))
                found.append([
                    [common(call("decodepsbt", call("utxoupdatepsbt", given, *more))[part]) for part in ("inputs", "outputs")]
                    for more in ((), ([],), ([name],), (list(described),), ([{"desc": name, "range": 5}],))
                ])  # fmt: skip
            with self.subTest(name):
                self.assertEqual(*found)


class Wallet:
    """A wallet of two keys that adds one input and one output."""

    def means(self, found):
        own = means_of({**keys(1, 2), **keys(1, 2, compressed=False)}, PROGRAM)
        return replace(own, origins={ONE: bytes(8)})

    def previous(self, id):
        return None

    def fund(self, tx, options, adds):
        more = [Input(bytes([9]) * 32, 0, b"", 7)] * adds
        return Funded(tx._replace(inputs=[*tx.inputs, *more], outputs=[*tx.outputs, Output(5, paid(ONE))]), 100, 1)


def unordered(given):
    """One without the order of its inputs and outputs."""
    found = psbt.from_base64(given)
    none = TX._replace(inputs=[], outputs=[])
    ins = [Psbt(none._replace(inputs=[it]), [own], []) for it, own in zip(found.tx.inputs, found.inputs)]
    outs = [Psbt(none._replace(outputs=[it]), [], [own]) for it, own in zip(found.tx.outputs, found.outputs)]
    ins, outs = (sorted(map(psbt.encode, its)) for its in (ins, outs))
    return found.tx.version, found.tx.lock_time, ins, outs, found.unknown


def higher(signature):
    """The same signature with the higher of its two second numbers."""
    order = 0xFFFFFFFFFFFFFFFFFFFFFFFFFFFFFFFEBAAEDCE6AF48A03BBFD25E8CD0364141
    long = signature[3]
    first, second = signature[4 : 4 + long], int.from_bytes(signature[6 + long : -1], "big")
    other = (order - second).to_bytes(33, "big")
    other = other if other[1] & 0x80 else other[1:]
    body = b"\2" + push(first) + b"\2" + push(other)
    return b"\x30" + push(body) + signature[-1:]


if __name__ == "__main__":
    unittest.main()
