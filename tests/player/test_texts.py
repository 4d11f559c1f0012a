"""How reasons and faults are printed: Bitcoin Core's words for each reason, with its number, and then the faults."""
from __future__ import annotations

import unittest

from playing_lists import play

TEXTS = """\
1 high-hash
2 bad-txnmrklroot
3 bad-txns-duplicate
4 bad-blk-length
5 bad-cb-missing
6 bad-cb-multiple
7 bad-txns-vin-empty
8 bad-txns-vout-empty
9 bad-txns-vout-negative
10 bad-txns-vout-toolarge
11 bad-txns-txouttotal-toolarge
12 bad-txns-inputs-duplicate
13 bad-cb-length
14 bad-txns-prevout-null
15 bad-blk-sigops
16 prev-blk-not-found
17 bad-prevblk
18 bad-diffbits
19 time-too-old
20 time-too-new
21 bad-version
22 bad-txns-nonfinal
23 bad-cb-height
24 bad-txns-BIP30
25 bad-txns-inputs-missingorspent
26 bad-txns-premature-spend-of-coinbase
27 bad-txns-in-belowout
28 bad-cb-amount
no record at 293
the record at 0 ends early
the record at 8 is too long
a read failed
out of memory
stopped at an earlier fault
blk-bad-inputs 2:7
out of memory
the bytes end too early
bytes stand after the block
a count is spelled in more bytes than it needs
line 3 of the table can't be read
out of memory
workers
seats
readers
memory
memory
owed
closed
unknown
"""


class Texts(unittest.TestCase):
    def test_texts(self) -> None:
        self.assertEqual(play("texts"), TEXTS)
