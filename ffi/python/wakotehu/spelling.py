"""Scripts as words, as Bitcoin Core's test files spell them: `0x4c 0x01 0x07 ADD`, `'text'`, `-1`, names without OP_.

Nothing proves these two; whatever `show_script` prints is read as the same script again.
"""

import re
from typing import Dict

from . import arguments
from .encoding import operations, push

#: The words of opcodes by their numbers, from NOP on.
NAMES: Dict[int, str] = dict(
    enumerate(
        (
            "NOP VER IF NOTIF VERIF VERNOTIF ELSE ENDIF VERIFY RETURN TOALTSTACK FROMALTSTACK 2DROP 2DUP 3DUP 2OVER"
            " 2ROT 2SWAP IFDUP DEPTH DROP DUP NIP OVER PICK ROLL ROT SWAP TUCK CAT SUBSTR LEFT RIGHT SIZE INVERT AND"
            " OR XOR EQUAL EQUALVERIFY RESERVED1 RESERVED2 1ADD 1SUB 2MUL 2DIV NEGATE ABS NOT 0NOTEQUAL ADD SUB MUL"
            " DIV MOD LSHIFT RSHIFT BOOLAND BOOLOR NUMEQUAL NUMEQUALVERIFY NUMNOTEQUAL LESSTHAN GREATERTHAN"
            " LESSTHANOREQUAL GREATERTHANOREQUAL MIN MAX WITHIN RIPEMD160 SHA1 SHA256 HASH160 HASH256 CODESEPARATOR"
            " CHECKSIG CHECKSIGVERIFY CHECKMULTISIG CHECKMULTISIGVERIFY NOP1 CHECKLOCKTIMEVERIFY CHECKSEQUENCEVERIFY"
            " NOP4 NOP5 NOP6 NOP7 NOP8 NOP9 NOP10"
        ).split(),
        0x61,
    )
)
#: Files from before BIPs 65 and 112 have these two.
_OLD = {"NOP2": 0xB1, "NOP3": 0xB2}
_NUMBERS = {**_OLD, "RESERVED": 0x50, **{name: number for number, name in NAMES.items()}}
#: A number in a text is at most this far from 0.
_FAR = 0xFFFFFFFF


def read_script(text: str) -> bytes:
    """The script of some words, parted by spaces, tabs and ends of lines (Bitcoin Core's `ParseScript`): a decimal
    number is pushed in its shortest form, `'text'` is pushed as it stands, `0x..` are bytes that are put in and not
    pushed, and all else is the name of an opcode, with OP_ or without."""
    return b"".join(_word(word) for word in re.split("[ \t\n]", arguments.text(text, "text")) if word)


def _word(word: str) -> bytes:
    if re.fullmatch("-?[0-9]+", word):
        return _pushed_number(word)
    if re.fullmatch("0x([0-9a-fA-F]{2})+", word):
        return bytes.fromhex(word[2:])
    if len(word) >= 2 and word[0] == word[-1] == "'":
        return _pushed(word[1:-1].encode())
    name = word[3:] if word.startswith("OP_") else word
    if name not in _NUMBERS:
        raise ValueError(f"text must have words of a script, not {word[:60]!r}")
    return bytes([_NUMBERS[name]])


def _pushed(data: bytes) -> bytes:
    return push(data) if len(data) <= 0xFFFF else b"\x4e" + len(data).to_bytes(4, "little") + data


def _pushed_number(word: str) -> bytes:
    # Python refuses to read numbers of some thousand digits.
    value = int(word) if len(word.lstrip("-0")) <= 10 else _FAR + 1
    if abs(value) > _FAR:
        raise ValueError(f"text must have numbers from -0xFFFFFFFF to 0xFFFFFFFF, not {word[:60]}")
    if value == 0:
        return b"\x00"
    if -1 <= value <= 16:
        return bytes([0x50 + value])
    digits = abs(value).to_bytes(abs(value).bit_length() // 8 + 1, "little")
    return push(digits[:-1] + bytes([digits[-1] | (0x80 if value < 0 else 0)]))


def show_script(script: bytes) -> str:
    """A script as such words (Bitcoin Core's `FormatScript`): a push is the bytes in front and then those that are
    pushed, both as `0x..`; what is left where a push is cut short is one word of that kind."""
    script, words, end = arguments.octets(script, "script"), [], 0
    for begin, number, data, end in operations(script):
        if number == 0:
            words.append("0")
        elif number == 0x4F or 0x51 <= number <= 0x60:
            words.append(str(number - 0x50))
        elif number in NAMES:
            words.append(NAMES[number])
        else:
            at = end - len(data or b"")
            words += [f"0x{part.hex()}" for part in (script[begin:at], script[at:end]) if part]
    if end < len(script):
        words.append(f"0x{script[end:].hex()}")
    return " ".join(words)
