"""Scripts as words, beside python3-bitcoinlib's parser and by Bitcoin Core's rules, worked by hand. SEED is a seed."""

import os
import random
import unittest

from bitcoin.tests.test_scripteval import parse_script

from wakotehu import consensus as c
from wakotehu.spelling import NAMES

SEED = int(os.environ.get("SEED", random.randrange(1 << 32)))

#: Words and the bytes that `ParseScript` makes of them, by its rules.
READ = [
    ("", ""), (" \t\n ", ""), ("0", "00"), ("-0", "00"), ("00", "00"), ("1", "51"), ("016", "60"), ("16", "60"),
    ("-1", "4f"), ("17", "0111"), ("-2", "0182"), ("-127", "01ff"), ("127", "017f"), ("128", "028000"),
    ("-128", "028080"), ("255", "02ff00"), ("32767", "02ff7f"), ("32768", "03008000"), ("2147483647", "04ffffff7f"), ("2147483648", "050000008000"),
    ("4294967295", "05ffffffff00"), ("-4294967295", "05ffffffff80"),
    ("0x4c 0x01 0x07 ADD", "4c010793"), ("0x4C", "4c"), ("0xaBcD", "abcd"), ("'text'", "0474657874"), ("''", "00"),
    ("'''", "0127"), ("'0x51'", "0430783531"), ("'1'", "0131"), ("'\u00e9'", "02c3a9"),
    ("'" + "a" * 75 + "'", "4b" + "61" * 75), ("'" + "a" * 76 + "'", "4c4c" + "61" * 76),
    ("'" + "a" * 255 + "'", "4cff" + "61" * 255), ("'" + "a" * 256 + "'", "4d0001" + "61" * 256),
    ("'" + "a" * 65535 + "'", "4dffff" + "61" * 65535), ("'" + "a" * 65536 + "'", "4e00000100" + "61" * 65536),
    ("NOP", "61"), ("OP_NOP", "61"), ("NOP10", "b9"), ("RESERVED", "50"), ("OP_RESERVED", "50"), ("VER", "62"),
    ("CHECKLOCKTIMEVERIFY", "b1"), ("NOP2", "b1"), ("CHECKSEQUENCEVERIFY", "b2"), ("OP_NOP3", "b2"),
    ("RESERVED2", "8a"), ("1\t2\nADD  3 EQUAL", "5152935387"), ("0NOTEQUAL 2DUP 1ADD", "926e8b"),
]  # fmt: skip
#: What it refuses.
REFUSED = [
    "4294967296", "-4294967296", "9" * 5000, "-", "+1", "1.0", "0x", "0x1", "0xgg", "0X51", "'", "'a b'", "a", "nop",
    "OP_", "OP_OP_NOP", "OP_1", "OP_0", "1NEGATE", "TRUE", "PUSHDATA1", "CHECKSIGADD", "INVALIDOPCODE", "NOP11",
    "\u0661", "1\r", "51h",
]  # fmt: skip
#: Scripts and what `FormatScript` prints, by its rules.
SHOWN = [
    ("", ""), ("00", "0"), ("4f", "-1"), ("50", "0x50"), ("51", "1"), ("60", "16"), ("61", "NOP"), ("b9", "NOP10"),
    ("ba", "0xba"), ("ff", "0xff"), ("b1b2", "CHECKLOCKTIMEVERIFY CHECKSEQUENCEVERIFY"), ("0107", "0x01 0x07"),
    ("4c0107", "0x4c01 0x07"), ("4c00", "0x4c00"), ("4d0000", "0x4d0000"), ("4e0100000007", "0x4e01000000 0x07"),
    ("510251", "1 0x0251"), ("4c", "0x4c"), ("4d01", "0x4d01"), ("4e000000", "0x4e000000"), ("02aabb93", "0x02 0xaabb ADD"),
    ("76a914" + "07" * 20 + "88ac", "DUP HASH160 0x14 0x" + "07" * 20 + " EQUALVERIFY CHECKSIG"),
]  # fmt: skip


class SpellingTest(unittest.TestCase):
    def test_words_by_the_rules(self) -> None:
        for text, expected in READ:
            with self.subTest(text[:60]):
                self.assertEqual(c.read_script(text).hex(), expected)

    def test_no_words(self) -> None:
        for text in REFUSED:
            with self.subTest(text[:60]), self.assertRaises(ValueError):
                c.read_script(text)

    def test_scripts_by_the_rules(self) -> None:
        for script, expected in SHOWN:
            with self.subTest(script):
                self.assertEqual(c.show_script(bytes.fromhex(script)), expected)
                self.assertEqual(c.read_script(expected).hex(), script)

    def test_words_beside_bitcoinlib(self) -> None:
        """Any words that both read."""
        rng, names = random.Random(SEED), list(NAMES.values())
        for n in range(5000):
            words = []
            for _ in range(rng.randrange(8)):
                number, text = rng.randrange(1 << 32) >> rng.randrange(32), "ab'c0x"[: rng.randrange(7)]
                words.append(rng.choice((
                    str(number), str(-number), "0x" + rng.randbytes(rng.randrange(1, 9)).hex(), rng.choice(names),
                    "OP_" + rng.choice(names), "'" + text * rng.randrange(60) + "'",
                )))  # fmt: skip
            text = rng.choice(" \t\n").join(words)
            self.assertEqual(c.read_script(text), bytes(parse_script(text)), (SEED, n, text))

    def test_what_is_printed_is_read_again(self) -> None:
        rng = random.Random(SEED + 1)
        for n in range(10000):
            kinds = [(rng.randrange(256), rng.randrange(6), 0x4C, 0x4D, 0x4E) for _ in range(rng.randrange(20))]
            script = bytes(map(rng.choice, kinds))
            shown = c.show_script(script)
            self.assertEqual(c.read_script(shown), script, (SEED, n, shown))
            self.assertEqual(bytes(parse_script(shown)), script, (SEED, n, shown))


if __name__ == "__main__":
    print(f"seed {SEED}")
    unittest.main()
