"""Puts pairs of scripts to the programs from outside, and writes what they say as rows."""

import re
from collections import Counter
from typing import Any, Dict, Iterator, List, NamedTuple, Optional, Sequence, Tuple

from .outside import (
    CORE, HEIGHTS, LIB, TRUE, Chain, Disagree, NotAsked, core_verifies, flags_text, is_valid, lib_verifies,
)  # fmt: skip
from .pieces import Wish
from .reading import Fails, Input, Job, Tx, accepts, count, is_strict, opcodes, spell

Triple = Tuple[bytes, bytes, bytes]


class Asked(NamedTuple):
    """A pair with its transaction."""

    wish: Wish
    tx: Tx
    own: bytes


class Answered(NamedTuple):
    """A pair with the verdict, who gave it, and the signatures that are valid."""

    asked: Asked
    accepted: bool
    by: str
    table: List[Triple]


# ---- rows


def hexed(data: bytes) -> str:
    """Bytes as the rows have them: a byte that comes twelve times and more is written once, with how often."""
    text = ""
    for run in re.finditer(rb"(.)\1{11,}|.+?(?=(.)\2{11}|$)", data, re.DOTALL):
        part = run.group()
        text += f" {part[:1].hex()}*{len(part)} " if run.group(1) else part.hex()
    return " ".join(text.split())


def line_of(triple: Triple) -> str:
    return " ".join(part.hex() or "-" for part in triple)


def around(tx: Tx, at: int) -> List[str]:
    """The transaction's bytes before the length of an input's script, and behind the script."""
    bare = tx._replace(inputs=[i._replace(script=b"") if k == at else i for k, i in enumerate(tx.inputs)])
    whole = spell(bare)
    end = 4 + len(count(len(tx.inputs))) + sum(40 + len(count(len(i.script))) + len(i.script) for i in bare.inputs[:at]) + 36
    return [hexed(whole[:end]), hexed(whole[end + 1 :])]


def row_of(found: Answered) -> List[Any]:
    asked, wish = found.asked, found.asked.wish
    setting: Dict[str, Any] = {"tx": around(asked.tx, wish.at)}
    if wish.at:
        setting["input"] = wish.at
    if found.table:
        setting["table"] = "\n".join(map(line_of, found.table))
    flags = flags_text(set(wish.flags))
    own, spent = "0x" + hexed(asked.own), "0x" + hexed(wish.spent)
    return [setting, own, spent, flags, "OK" if found.accepted else "FAIL", wish.comment, found.by]


# ---- asking

_ZERO = "its false is a zero byte, as a remark of its own says"

#: Families of pairs, by the front of their comments, that python3-bitcoinlib is known to judge otherwise.
KNOWN = {
    "WITHIN of": _ZERO, "WITHIN: F": _ZERO, "CHECKSIG: F": _ZERO, "CHECKMULTISIG leaves F": _ZERO,
    "1001 elements by pushes of bytes": "it counts no elements behind a push of bytes",
}  # fmt: skip


def transaction(wish: Wish, points: Sequence[Tuple[bytes, int]]) -> Asked:
    inputs = [Input(id, index, b"", n) for (id, index), n in zip(points, wish.sequences)]
    tx = Tx(wish.version, inputs, list(wish.outputs), wish.lock_time)
    own = wish.own if isinstance(wish.own, bytes) else wish.own(tx, wish.at)
    inputs[wish.at] = inputs[wish.at]._replace(script=own)
    return Asked(wish, tx._replace(inputs=inputs), own)


def signatures(asked: Asked) -> Tuple[bool, List[Triple], List[Triple]]:
    """By the reading: the verdict, the valid signatures that it asks for, and the others."""
    valid: List[Triple] = []
    others: List[Triple] = []

    def known(key: bytes, signature: bytes, digest_: bytes) -> bool:
        found = is_valid(key, signature, digest_)
        kept = valid if found else others
        if (key, signature, digest_) not in kept:
            kept.append((key, signature, digest_))
        return found

    job = Job(asked.tx, asked.wish.at, set(asked.wish.flags), known)
    return accepts(job, asked.own, asked.wish.spent), valid, others


def why_not_asked(asked: Asked, triples: List[Triple]) -> str:
    """Why python3-bitcoinlib can't be asked, or nothing: what it lacks, and what it is known to do otherwise."""
    wish = asked.wish
    flags = set(wish.flags)
    scripts = [asked.own, wish.spent]
    pushed = _opcodes(asked.own)
    if pushed:
        scripts.append(pushed[-1][1])
    numbers = {number for script in scripts for number, _ in _opcodes(script)}
    if (0xB1 in numbers and "CLTV" in flags) or (0xB2 in numbers and "CSV" in flags):
        return "it has neither BIP 65 nor 112"
    if any(not is_strict(s + b"\1") for _, s, _ in triples):
        return "OpenSSL reads other shapes of signatures, and it has no BIP 66"
    if "DERSIG" in flags and numbers & {0xAC, 0xAD, 0xAE, 0xAF} and not _all_strict(scripts):
        return "it has no BIP 66"
    return next((why for start, why in KNOWN.items() if wish.comment.startswith(start)), "")


def _opcodes(script: bytes) -> List[Tuple[int, bytes]]:
    found = []
    try:
        for op in opcodes(script):
            found.append((op.number, op.data))
    except Fails:
        pass
    return found


def _all_strict(scripts: List[bytes]) -> bool:
    pushes = [data for script in scripts for _, data in _opcodes(script)]
    return all(is_strict(data) for data in pushes if data[:1] == b"\x30" and len(data) < 80)


#: Words of litecoind's for refusals that no rule of relay alone makes.
CONSENSUS = ("Locktime requirement not satisfied", "Negative locktime", "OP_RETURN was encountered", "Script is too big")


class Asking:
    """Asks about all wishes, flags by flags, on one chain."""

    def __init__(self, chain: Chain) -> None:
        self.chain = chain
        #: Why python3-bitcoinlib was not asked, how often; "" where it was.
        self.asked: "Counter[str]" = Counter()

    def all(self, wishes: List[Wish]) -> Iterator[Answered]:
        for height, flags in HEIGHTS:
            self.chain.lay(height - 2)
            mine = [w for w in wishes if w.flags == flags and w.by_block and not unspendable(w.spent)]
            for first in range(0, len(mine), 150):
                yield from self._by_block(mine[first : first + 150])
        for wish in wishes:
            if not wish.by_block or unspendable(wish.spent):
                yield self._by_relay(wish)

    def _by_block(self, wishes: List[Wish]) -> Iterator[Answered]:
        scripts: List[bytes] = []
        places: List[List[int]] = []
        for wish in wishes:
            inputs = [wish.spent if k == wish.at else TRUE for k in range(len(wish.sequences))]
            places.append([len(scripts) + k for k in range(len(inputs))])
            scripts += inputs
        id, _ = self.chain.fund(scripts)
        asked = [transaction(wish, [(id, n) for n in place]) for wish, place in zip(wishes, places)]
        for one, said in zip(asked, self.chain.judge([spell(a.tx) for a in asked])):
            if said not in ("accepted", "block-validation-failed"):
                raise RuntimeError(f"{one.wish.comment}: {said}")
            yield self._answered(one, said == "accepted")

    def _by_relay(self, wish: Wish) -> Answered:
        asked = transaction(wish, [(b"\7" * 32, n) for n in range(len(wish.sequences))])
        said, why = core_verifies(self.chain.peer, asked.tx, wish.at, wish.spent)
        if not said and why not in CONSENSUS:
            raise Disagree(f"{CORE} refuses {wish} by a rule of relay alone: {why}")
        answer = self._answered(asked, said)
        return answer._replace(by=answer.by.replace(CORE, f"{CORE} (signrawtransactionwithkey)"))

    def _answered(self, asked: Asked, accepted: bool) -> Answered:
        wish = asked.wish
        read, valid, others = signatures(asked)
        by = CORE
        why = why_not_asked(asked, valid + others)
        if not why:
            try:
                theirs = lib_verifies(spell(asked.tx), wish.at, asked.own, wish.spent)
            except NotAsked as error:
                why = str(error)
            else:
                if theirs != accepted:
                    raise Disagree(f"{CORE} says {accepted} of {wish}, {LIB} {theirs}")
                by = f"{CORE}, {LIB}"
        self.asked[why] += 1
        if read != accepted:
            raise Disagree(f"{CORE} says {accepted} of {wish}, the reading {read}")
        return Answered(asked, accepted, by, valid)


# ---- rows by hand

HAND = "by hand"
RULES = f"docs/RULES.md, {HAND}"


def wish_of(row: List[Any]) -> Optional[Wish]:
    """A row that was written by hand as a question, None where no program can be asked: flags that are in force together at no
    height, signatures of no key, and locks that keep it out of blocks without the flags of relay."""
    setting = row[0] if isinstance(row[0], dict) else {}
    own, spent, flags, _, comment = row[len(row) - 6 : -1]
    known = {flags_text(set(f)): f for _, f in HEIGHTS}
    if "table" in setting or flags not in known:
        return None
    version, sequence = setting.get("version", 1), setting.get("sequence", 0)
    by_block = version == 1 or sequence == 0
    if not by_block and known[flags] != HEIGHTS[-1][1]:
        return None
    return Wish(
        comment, unhexed(own), unhexed(spent), known[flags], version, setting.get("lock_time", 0), (sequence, sequence), 1,
        by_block=by_block,
    )  # fmt: skip


def hand_rows(hand: List[Tuple[List[Any], Optional[Wish]]], answers: List[Answered]) -> List[List[Any]]:
    """The rows by hand, each with who was asked."""
    found = {id(answer.asked.wish): answer for answer in answers}
    rows = []
    for row, wish in hand:
        answer = found.get(id(wish)) if wish else None
        if answer and answer.accepted != (row[-3] == "OK"):
            raise Disagree(f"{CORE} says {answer.accepted} of the row by hand {row}")
        rows.append([*row[:-1], f"{answer.by}, {HAND}" if answer else RULES])
    return rows


def unhexed(text: str) -> bytes:
    """The bytes of a row's script."""
    parts = (part.partition("*") for part in text[2:].split())
    return b"".join(bytes.fromhex(digits) * int(times or 1) for digits, _, times in parts)


def unspendable(script: bytes) -> bool:
    return script[:1] == b"\x6a" or len(script) > 10000


def unique(wishes: Iterator[Wish]) -> List[Wish]:
    """Without those that are the same but for their comments."""
    found: Dict[Any, Wish] = {}
    for wish in wishes:
        found.setdefault(repr(wish._replace(comment="")) if isinstance(wish.own, bytes) else id(wish), wish)
    return list(found.values())
