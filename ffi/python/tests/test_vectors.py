"""Files in the shapes of Bitcoin Core's vectors, written by hand: what is played, skipped and told, and by which line.

Four rows are Bitcoin Core's own: two of a key and its signature, one of two keys, and one digest. With another byte, or
another transaction around a script, they would have another verdict.
"""

import hashlib
import json
import os
import subprocess
import sys
import tempfile
import unittest
from typing import Any, List, Tuple

from bitcoin.core import CTransaction
from bitcoin.core.script import CScript, RawSignatureHash

from wakotehu import vectors

KEY = (
    "0x41 0x0479be667ef9dcbbac55a06295ce870b07029bfcdb2dce28d959f2815b16f81798483ada7726a3c4655da4fbfc0e1108a8fd17b"
    "448a68554199c47d08ffb10d4b8 CHECKSIG"
)
SIGNED = (
    "0x47 0x304402200a5c6163f07b8d3b013c4d1d6dba25e780b39658d79ba37af7057a3b7f15ffa102201fd9b4eaa9943f734928b99a835"
    "92c2e7bf342ea2680f6a2bb705167966b742001"
)
FORGED = SIGNED.replace("f07b", "f07c")
#: The script OP_0 by its hash: true by itself, and false as a script.
INNER = f"HASH160 0x14 0x{hashlib.new('ripemd160', hashlib.sha256(bytes(1)).digest()).hexdigest()} EQUAL"

#: Rows of scripts, and what comes of them: "" where they are as said, else the name of what is skipped.
SCRIPTS: List[Tuple[List[Any], str]] = [
    ([SIGNED, KEY, "", "OK", "a key and its signature"], ""),
    ([FORGED, KEY, "", "EVAL_FALSE", "another signature"], ""),
    ([SIGNED, KEY, "P2SH,STRICTENC,DERSIG,LOW_S,NULLFAIL,WITNESS", "OK"], ""),
    (["1 2", "ADD 3 NUMEQUAL", "NONE", "OK"], ""),
    (["1 2", "ADD 4 NUMEQUAL", "P2SH,STRICTENC", "EVAL_FALSE"], ""),
    (["'abc'", "SIZE 3 EQUALVERIFY 0x03 0x616263 EQUAL", "P2SH", "OK"], ""),
    (["", "127 CHECKLOCKTIMEVERIFY", "CHECKLOCKTIMEVERIFY", "UNSATISFIED_LOCKTIME"], ""),
    (["", "127 CHECKLOCKTIMEVERIFY", "", "OK"], ""),
    (["", "1 CHECKSEQUENCEVERIFY", "CHECKSEQUENCEVERIFY", "UNSATISFIED_LOCKTIME"], ""),
    (["", "1 CHECKSEQUENCEVERIFY", "P2SH", "OK"], ""),
    (["0x01 0x01", KEY, "DERSIG", "SIG_DER"], ""),
    (["0x01 0x01", KEY, "DERSIG,STRICTENC", "SIG_DER"], ""),
    (["0x01 0x01", KEY, "", "EVAL_FALSE"], ""),
    (["0x01 0x00", INNER, "P2SH", "EVAL_FALSE"], ""),
    (["0x01 0x00", INNER, "", "OK"], ""),
    (["0x01 0x00 NOP", INNER, "P2SH", "SIG_PUSHONLY"], ""),
    (["1 NOP", "1", "SIGPUSHONLY", "SIG_PUSHONLY"], "SIGPUSHONLY"),
    (["0x01 0x00 NOP", INNER, "P2SH,SIGPUSHONLY", "SIG_PUSHONLY"], "SIGPUSHONLY"),
    (["0x01 0x01", KEY, "STRICTENC", "SIG_DER"], "STRICTENC"),
    (["0x01 0x01", KEY, "LOW_S", "SIG_DER"], "LOW_S"),
    (["0x01 0x01", "NOP", "MINIMALDATA", "MINIMALDATA"], "MINIMALDATA"),
    (["0x02 0x0100", "NOT DROP 1", "MINIMALDATA", "UNKNOWN_ERROR"], "MINIMALDATA"),
    (["0x05 0x0100000000", "NOT DROP 1", "", "UNKNOWN_ERROR"], ""),
    (["1 1", "NOP", "CLEANSTACK,P2SH", "CLEANSTACK"], "CLEANSTACK"),
    (["1", "RETURN", "P2SH,CLEANSTACK,MINIMALIF,NULLDUMMY,CONST_SCRIPTCODE", "OP_RETURN"], ""),
    (["0 0 0", "CHECKMULTISIG", "NULLDUMMY", "OK"], ""),
    (["1 0 0", "CHECKMULTISIG", "NULLDUMMY", "SIG_NULLDUMMY"], ""),
    (["1 0 0", "CHECKMULTISIG", "P2SH", "OK"], ""),
    (["0x01 0x00 0 1", f"{' '.join(KEY.split()[:2])} 1 CHECKMULTISIG", "NULLDUMMY", "SIG_NULLDUMMY"], ""),
    (["1", "RETURN", "P2SH,WITNESS", "OP_RETURN"], "WITNESS"),
    (["1", "RETURN", "P2SH,WITNESS,DERSIG", "SIG_DER"], "WITNESS"),
    (["1", "NOP", "P2SH,WITNESS,TAPROOT", "OK"], ""),
    ([["00", 0.5], "", "0 0x14 0x" + "07" * 20, "P2SH,WITNESS", "EVAL_FALSE"], "a witness"),
    (["1", "NOP", "TOMORROW", "OK"], "TOMORROW"),
    (["1", "NOP", "NULLFAIL", "TOMORROWS_ERROR"], "NULLFAIL"),
]  # fmt: skip

FRONT, BACK = "0100000001" + "07" * 32 + "00000000", "00000000" "01" "0100000000000000" "00" "00000000"
#: A transaction whose input has the script 51 52, its form with a witness, one without outputs, and one that pushes 00.
PLAIN = FRONT + "025152" + BACK
WITNESS = "01000000" "0001" + PLAIN[8:-8] + "0101aa" + "00000000"
EMPTY = FRONT + "025152" "00000000" "00" "00000000"
PUSHED = FRONT + "020100" + BACK
BOTH = [
    "60a20bd93aa49ab4b28d514ec10b06e1829ce6818ec06cd3aabd013ebcdc4bb1", 0,
    "1 0x41 0x04cc71eb30d653c0c3163990c47b976f3fb3f37cccdcbedb169a1dfef58bbfbfaff7d8a473e7e2e6d317b87bafe8bde97e3cf"
    "8f065dec022b51d11fcdd0d348ac4 0x41 0x0461cbdcc5409fb4b4d42b51d33381354d80e550078cb532a34bfa2fcfdeb7d76519aecc6"
    "2770f5b0e4ef8551946d8a540911abe3e7854a26f39f58b25c15342af 2 OP_CHECKMULTISIG",
]  # fmt: skip
SPENDS_BOTH = (
    "0100000001b14bdcbc3e01bdaad36cc08e81e69c82e1060bc14e518db2b49aa43ad90ba26000000000490047304402203f16c6f40162ab"
    "686621ef3000b04e75418a0c0cb2d8aebeac894ae360ac1e780220ddc15ecdfc3507ac48e1681a33eb60996631bf6bf5bc0a0682c4db74"
    "3ce7ca2b01ffffffff0140420f00000000001976a914660d4ef3a743e3e696ad990364e555c271ad504b88ac00000000"
)


def point(script: str) -> List[Any]:
    return [["07" * 32, 0, script, 1]]


#: Rows of transactions under flags, and what comes of them as valid ones, as valid ones without these flags, and as
#: invalid ones: "" where they are as said, "!" where not, else the name of what is skipped.
TRANSACTIONS: List[Tuple[List[Any], str, str, str]] = [
    ([[BOTH], SPENDS_BOTH, "P2SH"], "", "!", "!"),
    # Its signature isn't strictly encoded.
    ([[BOTH], SPENDS_BOTH, "DERSIG,LOW_S,STRICTENC"], "!", "", "LOW_S,STRICTENC"),
    ([point("ADD 3 NUMEQUAL"), PLAIN, "NONE"], "", "", "!"),
    ([point("ADD 4 NUMEQUAL"), PLAIN, "P2SH"], "!", "!", ""),
    ([point("127 CHECKLOCKTIMEVERIFY"), PLAIN, "CHECKLOCKTIMEVERIFY"], "!", "", ""),
    ([point("127 CHECKLOCKTIMEVERIFY"), PLAIN, "P2SH"], "", "!", "!"),
    ([point("1 CHECKSEQUENCEVERIFY"), PLAIN, "CHECKSEQUENCEVERIFY"], "!", "", ""),
    ([point("1 CHECKSEQUENCEVERIFY"), PLAIN, "CHECKLOCKTIMEVERIFY"], "", "!", "!"),
    ([point(INNER), PUSHED, "P2SH"], "!", "", ""),
    ([point(INNER), PUSHED, "NONE"], "", "!", "!"),
    ([point("1"), EMPTY, "BADTX"], "!", "!", ""),
    ([point("1"), EMPTY, "P2SH"], "!", "!", ""),
    ([point("1"), PLAIN, "BADTX"], "BADTX", "", "!"),
    ([[["07" * 32, -1, "1"]], PLAIN.replace("07" + "00000000", "07" + "ffffffff", 1), "P2SH"], "", "", "!"),
    ([point("1"), PLAIN, "P2SH,WITNESS,NULLDUMMY"], "", "", "WITNESS"),
    ([point("1"), WITNESS, "P2SH"], "a witness", "a witness", "a witness"),
    ([point("1"), PLAIN, "TOMORROW"], "TOMORROW", "", "TOMORROW"),
    ([point("1"), PLAIN[:-2], "P2SH"], "!", "!", "!"),
    ([point("1"), PLAIN + "00", "P2SH"], "!", "!", "!"),
    ([[["07" * 32, 1, "1"]], PLAIN, "P2SH"], "!", "!", "!"),
    ([[["07" * 31, 0, "1"]], PLAIN, "P2SH"], "!", "!", "!"),
    ([[["07" * 32, "0", "1"]], PLAIN, "P2SH"], "!", "!", "!"),
    ([point("banana"), PLAIN, "P2SH"], "!", "!", "!"),
]  # fmt: skip
DIGEST: List[Any] = [
    "907c2bc503ade11cc3b04eb2918b6f547b0630ab569273824748c87ea14b0696526c66ba740200000004ab65ababfd1f9bdd4ef073c7af"
    "c4ae00da8a66f429c917a0081ad1e1dabce28d373eab81d8628de802000000096aab5253ab52000052ad042b5f25efb33beec9f3364e8a"
    "9139e8439d9d7e26529c3c30b6c3fd89f8684cfd68ea0200000009ab53526500636a52ab599ac2fe02a526ed0400000000085353005163"
    "52515164370e010000000003006300ab2ec229",
    "", 2, 1864164639, "31af167a6cf3f9d5f6875caa4d31704ceb0eba078d132b78dab52c3b8997317e",
]  # fmt: skip


def text_of(rows: List[Any]) -> str:
    """Each row on two lines, behind a comment on the second: so the n-th begins on line 2 n + 3."""
    lines = [json.dumps(row).replace(", ", ",\n", 1) for row in rows]
    return "[\n" + ",\n".join(['["comment, and ]"]', *lines]) + "\n]\n"


class PlayTest(unittest.TestCase):
    def came(self, kind: str, rows: List[Any], expected: List[str], head: str = "") -> None:
        """What comes of each row, by its line."""
        played = vectors.play(text_of(rows).replace("comment", head or "comment"), kind)
        wrong = [2 * n + 3 for n, said in enumerate(expected) if said == "!"]
        self.assertEqual([line for line, _ in played.wrong], wrong, played.wrong)
        skipped = [said for said in expected if said not in ("", "!")]
        self.assertEqual(played.skipped, {name: skipped.count(name) for name in skipped})
        self.assertEqual(played.right, expected.count(""))

    def test_scripts(self) -> None:
        self.came("script", [row for row, _ in SCRIPTS], [said for _, said in SCRIPTS])

    def test_wrong_scripts_are_told(self) -> None:
        """Each row that is played, with the other verdict, without flags of witnesses: under these none is refused."""
        for n, (row, said) in enumerate(SCRIPTS):
            if said == "":
                other = "EVAL_FALSE" if row[3] == "OK" else "OK"
                names = ",".join(name for name in row[2].split(",") if name not in ("WITNESS", "TAPROOT"))
                rows = [row for row, _ in SCRIPTS]
                rows[n] = [*row[:2], names, other]
                self.came("script", rows, [*(it for _, it in SCRIPTS[:n]), "!", *(it for _, it in SCRIPTS[n + 1 :])])

    def test_wrong_names_are_told(self) -> None:
        """Each refused row that is played, with the name of another failure. SCRIPTNUM is UNKNOWN_ERROR."""
        for row, said in SCRIPTS:
            if said == "" and row[3] != "OK":
                other = "OP_COUNT" if row[3] == "OP_RETURN" else "OP_RETURN"
                names = ",".join(name for name in row[2].split(",") if name not in ("WITNESS", "TAPROOT"))
                self.came("script", [[*row[:2], names, other]], ["!"])
        self.came("script", [["0x050102030405", "1ADD", "", name] for name in ("SCRIPTNUM", "UNKNOWN_ERROR", "VERIFY")], ["", "", "!"])

    def test_transactions(self) -> None:
        rows = [row for row, *_ in TRANSACTIONS]
        self.came("valid", rows, [said for _, said, _, _ in TRANSACTIONS])
        self.came("valid", rows, [said for _, _, said, _ in TRANSACTIONS], "transaction, excluded verifyFlags")
        self.came("invalid", rows, [said for _, _, _, said in TRANSACTIONS])

    def test_digests(self) -> None:
        raw, script, place, kind, digest = DIGEST
        wrong = [
            [raw, script, place, kind, digest[:-1] + "f"], [raw, "51", place, kind, digest],
            [raw, script, place, kind + 1, digest], [raw, script, 3, kind, digest], [raw, script, -1, kind, digest],
            [raw[2:], script, place, kind, digest], [raw, "5", place, kind, digest], [raw, script, place, kind],
            [raw, script, "2", kind, digest],
        ]  # fmt: skip
        tx = CTransaction.deserialize(bytes.fromhex(raw))
        other = RawSignatureHash(CScript(b"\x53"), tx, 1, -1391424484)[0][::-1].hex()
        # A separator is no part of what is signed. Without a code all inputs of this type sign the same.
        right = [DIGEST, [raw, "ab", place, kind, digest], [raw, script, 1, kind, digest],
                 [raw, "53", 1, -1391424484, other]]  # fmt: skip
        self.came("sighash", [*right, *wrong], [""] * len(right) + ["!"] * len(wrong))

    def test_rows_of_another_shape_are_told(self) -> None:
        rows: List[Any] = [
            ["1", "1"], ["1", "1", "P2SH"], [1, "1", "P2SH", "OK"], ["1", "1", None, "OK"], ["1 x", "1", "", "OK"],
            {"comment": 1}, "comment", [], ["1", "1", "", "OK"],
        ]  # fmt: skip
        text = "[" + ",\n".join(map(json.dumps, rows)) + "]"
        played = vectors.play(text, "script")
        self.assertEqual([line for line, _ in played.wrong], [1, 2, 3, 4, 5])
        self.assertEqual((played.right, played.skipped), (1, {}))
        for text, line in (('[\n["1"],\n[1,]\n]', 3), ('[\n["1"]\n', 3), ('[["1"] ["1"]]', 1), ("[]\n]", 2), ("", 1)):
            with self.subTest(text), self.assertRaises((json.JSONDecodeError, vectors.Unread)) as caught:
                vectors.play(text, "script")
            self.assertEqual(getattr(caught.exception, "lineno", 1), line)


class CommandTest(unittest.TestCase):
    def run_it(self, *words: str) -> Tuple[int, str, str]:
        done = subprocess.run([sys.executable, "-m", "wakotehu.vectors", *words], capture_output=True, text=True)
        return done.returncode, done.stdout, done.stderr

    def test_files(self) -> None:
        with tempfile.TemporaryDirectory() as folder:
            def put(name: str, rows: List[Any]) -> str:
                with open(os.path.join(folder, name), "w", encoding="utf-8") as file:
                    file.write(text_of(rows))
                return file.name

            right = put("script_tests.json", [row for row, _ in SCRIPTS])
            digests = put("sighash.json", [DIGEST])
            status, out, _ = self.run_it(right, digests)
            played, skipped = [said for _, said in SCRIPTS].count(""), len([said for _, said in SCRIPTS if said])
            self.assertEqual((status, out.splitlines()[1]), (0, f"{digests}: 1 as said, 0 not, 0 skipped"))
            begin = f"{right}: {played} as said, 0 not, {skipped} skipped (1 CLEANSTACK, 1 LOW_S, 2 MINIMALDATA, "
            self.assertEqual(out.splitlines()[0][: len(begin)], begin)
            wrong = put("sighash_wrong.json", [DIGEST, [*DIGEST[:4], "00" * 32]])
            status, out, _ = self.run_it(digests, wrong)
            self.assertEqual(status, 1)
            self.assertIn(f"{wrong}:5: the digest is {DIGEST[4]}\n{wrong}: 1 as said, 1 not, 0 skipped\n", out)
            # A file without a row that is played doesn't agree.
            self.assertEqual(self.run_it(put("tx_valid.json", []))[0], 1)
            other = put("mine.json", [DIGEST])
            self.assertEqual(self.run_it(other)[0], 2)
            self.assertEqual(self.run_it("--kind", "sighash", other)[0], 0)
            self.assertEqual(self.run_it("--kind", "script", other)[0], 1)
            self.assertEqual(self.run_it(os.path.join(folder, "sighash_none.json"))[0], 2)


if __name__ == "__main__":
    unittest.main()
