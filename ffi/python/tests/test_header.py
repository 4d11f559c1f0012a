"""The headers of C beside what Python declares by ctypes, the lists of what the libraries export, and the words for
numbers: no table that was copied from a header differs from it."""

import ctypes
import os
import re
import subprocess
import unittest
from typing import Any, Dict, List, NamedTuple, Tuple

from wakotehu import chainstate, consensus, library
from wakotehu.errors import REASONS

FFI = os.path.realpath(os.path.join(os.path.dirname(os.path.abspath(__file__)), "..", ".."))
HEADER, SECP256K1 = f"{FFI}/include/wakotehu.h", f"{FFI}/include/wakotehu-secp256k1.h"

#: Calls that Python doesn't make.
UNUSED = {
    "wakotehu_version", "wakotehu_wants", "wakotehu_utxo_wants", "wakotehu_secp256k1_verify",
    "wakotehu_secp256k1_verify_script",
    # They have others beside them that take heights by name.
    "wakotehu_open", "wakotehu_open_by_need", "wakotehu_connect", "wakotehu_block_place",
}  # fmt: skip
#: Python's types of the header's structs and callbacks.
STRUCTS: Dict[str, Any] = {
    "wakotehu_heights": library.Heights, "wakotehu_answer": library.Answer, "wakotehu_tip": library.Tip,
    "wakotehu_setting": library.Setting, "wakotehu_fault": library.Fault,
    "wakotehu_coin": library.Coin, "wakotehu_header_shown": library.Header, "wakotehu_spent_size": library.SpentSize,
    "wakotehu_transaction": consensus._Transaction, "wakotehu_input": consensus._Input,
    "wakotehu_output": consensus._Output, "wakotehu_start": consensus._Start, "wakotehu_block_shown": consensus._Block,
    "wakotehu_made": consensus._Made, "wakotehu_opcode": consensus._Opcode, "wakotehu_script_shown": consensus._Script,
    "wakotehu_header_fields": consensus._Header, "wakotehu_flags": consensus._Flags, "wakotehu_evaluated": consensus._Evaluated,
}  # fmt: skip
SCALARS: Dict[str, Any] = {
    "uint8_t": ctypes.c_uint8, "uint32_t": ctypes.c_uint32, "uint64_t": ctypes.c_uint64, "int32_t": ctypes.c_int32,
    "int64_t": ctypes.c_int64, "size_t": ctypes.c_size_t, "int": ctypes.c_int, "wakotehu_handle": ctypes.c_uint64,
    "wakotehu_tx": ctypes.c_uint64, "wakotehu_utxo": ctypes.c_uint64,
    # An enum without negative values.
    "wakotehu_code": ctypes.c_uint32,
}  # fmt: skip


class Header(NamedTuple):
    """What a header declares: calls, with the type of what each answers and those of its arguments; callbacks; structs
    with their fields; the numbers of enums and others."""

    calls: Dict[str, Tuple[str, List[str]]]
    callbacks: Dict[str, Tuple[str, List[str]]]
    structs: Dict[str, List[Tuple[str, str]]]
    numbers: Dict[str, int]


def kind_of(parameter: str) -> str:
    """The type of a parameter, without its name and without `const`."""
    found = re.fullmatch(r"(?:const )?(\w+) (\*?)\w+", parameter.strip())
    assert found is not None, parameter
    return found[1] + found[2]


def fields_of(body: str) -> List[Tuple[str, str]]:
    """The fields of a struct: their names and types."""
    found = []
    for kind, names in re.findall(r"(?:const )?(\w+) ([^;]+);", body):
        for name in names.split(","):
            word, _, count = name.strip().partition("[")
            pointer = "*" if word.startswith("*") else ""
            found.append((word.lstrip("*"), kind + pointer + (f"[{count}" if count else "")))
    return found


def read(text: str) -> Header:
    text = re.sub(r"/\*.*?\*/", " ", text, flags=re.S)
    numbers = {name: int(value) for name, value in re.findall(r"#define (WAKOTEHU_\w+) (\d+)", text)}
    text = " ".join(line for line in text.splitlines() if not line.startswith("#")).replace('extern "C" {', "")
    text = re.sub(r"\s+", " ", text)
    enums = re.findall(r"typedef enum \{([^}]*)\} \w+;", text)
    numbers.update({name: int(value) for body in enums for name, value in re.findall(r"(\w+) = (\d+)", body)})
    structs = {name: fields_of(body) for body, name in re.findall(r"typedef struct \{([^}]*)\} (\w+);", text)}
    callbacks = {
        name: (answer, [kind_of(own) for own in given.split(",")])
        for answer, name, given in re.findall(r"typedef (\w+) \(\*(\w+)\)\(([^)]*)\);", text)
    }
    text = re.sub(r"typedef [^;{]*;|typedef [^;]*\{[^}]*\} \w+;", " ", text)
    calls = {
        name: (answer.strip().replace(" *", "*"), [] if given == "void" else [kind_of(own) for own in given.split(",")])
        for answer, name, given in re.findall(r"([\w ]+ \*?)(\w+)\(([^)]*)\);", text)
    }
    return Header(calls, callbacks, structs, numbers)


def is_type(declared: Any, kind: str) -> bool:
    """Whether a type of ctypes is that of the header. Bytes and texts are given as `bytes` too."""
    if kind in ("uint8_t*", "char*"):
        return declared in (ctypes.c_char_p, ctypes.POINTER(ctypes.c_uint8))
    if kind in ("void*", "wakotehu_params*"):
        return declared is ctypes.c_void_p
    if kind == "wakotehu_coin_call":
        return declared is library.CoinCall
    if kind.endswith("*"):
        pointed = STRUCTS.get(kind[:-1]) or SCALARS[kind[:-1]]
        return declared is ctypes.POINTER(pointed)
    return declared is SCALARS.get(kind)


def is_answer(declared: Any, kind: str) -> bool:
    expected: Dict[str, Any] = {
        "wakotehu_code": ctypes.c_int, "const char*": ctypes.c_char_p, "int64_t": ctypes.c_int64, "void": None,
        "wakotehu_params*": ctypes.c_void_p,
    }  # fmt: skip
    return declared is expected[kind]


def field_type(kind: str) -> Any:
    if kind.endswith("*"):
        return ctypes.POINTER(field_type(kind[:-1]))
    if kind in STRUCTS:
        return STRUCTS[kind]
    word, _, count = kind.partition("[")
    return SCALARS[word] * int(count[:-1]) if count else SCALARS[word]


def differences(header: Header, loaded: ctypes.CDLL) -> List[str]:
    """The names of the header's calls and structs that Python declares otherwise, or doesn't."""
    found = []
    for name, (answer, kinds) in header.calls.items():
        if name in UNUSED:
            continue
        call = getattr(loaded, name)
        declared = list(call.argtypes or [])
        same = len(declared) == len(kinds) and all(map(is_type, declared, kinds))
        if not same or not is_answer(call.restype, answer):
            found.append(name)
    for name, fields in header.structs.items():
        if STRUCTS[name]._fields_ != [(own, field_type(kind)) for own, kind in fields]:
            found.append(name)
    coin = header.callbacks.get("wakotehu_coin_call")
    if coin and not all(map(is_type, library.CoinCall._argtypes_, coin[1])):  # type: ignore[attr-defined]
        found.append("wakotehu_coin_call")
    return found


def text_of(path: str) -> str:
    with open(path, encoding="ascii") as file:
        return file.read()


class DeclarationsTest(unittest.TestCase):
    def setUp(self) -> None:
        consensus.double_sha(b"")
        self.loaded, self.text = library.library(), text_of(HEADER)
        secp256k1 = library.secp256k1_library()
        assert secp256k1 is not None, "libwakotehu-secp256k1 isn't there"
        self.secp256k1 = secp256k1

    def test_each_call_and_struct_is_declared_as_the_header_has_it(self) -> None:
        header = read(self.text)
        self.assertGreaterEqual(len(header.calls), 55)
        self.assertEqual(set(header.structs), set(STRUCTS))
        self.assertEqual(differences(header, self.loaded), [])
        self.assertEqual(differences(read(text_of(SECP256K1)), self.secp256k1), [])

    def test_each_other_header_is_noticed(self) -> None:
        """Of each call an argument goes, or is of another type; of each struct a field goes, or they change places."""
        header = read(self.text)
        for name, (answer, kinds) in header.calls.items():
            for place, kind in enumerate(kinds if name not in UNUSED else []):
                less, other = kinds[:place] + kinds[place + 1 :], kinds[:]
                other[place] = "uint32_t" if kind in ("void*", "wakotehu_params*") else "void*"
                for changed in (less, other):
                    self.assertIn(name, differences(header._replace(calls={name: (answer, changed)}), self.loaded))
        for name, fields in header.structs.items():
            for changed_fields in (fields[:-1], fields[1:] + fields[:1], [*fields[:-1], (fields[-1][0], "uint8_t")]):
                if changed_fields != fields:
                    self.assertIn(name, differences(header._replace(structs={name: changed_fields}), self.loaded))

    def test_numbers(self) -> None:
        """The numbers that Python knows, by the header's names."""
        numbers = read(self.text).numbers
        self.assertEqual(consensus._MOST_ASKED, numbers["WAKOTEHU_MOST_ASKED"])
        faults = {"SHORT": 20, "LONG_FORM": 21, "TOO_LARGE": 22, "EXTRA": 23, "MISMATCH": 25, "FOREIGN": 26, "CUT": 27,
                  "TOO_LONG": 28, "CONTRADICTION": 30}  # fmt: skip
        for name, number in faults.items():
            self.assertEqual(numbers[f"WAKOTEHU_{name}"], number)
            self.assertEqual(consensus.FAULTS[number], name.lower().replace("_", " "))
        self.assertEqual(consensus.FAULTS[numbers["WAKOTEHU_NO_INPUT"]], "no such input")
        self.assertEqual(len(consensus.FAULTS), len(faults) + 1)
        codes = {"OK": 0, "MEMORY": 1, "BAD_TABLE": 3, "NONE": 4, "TOO_SMALL": 5, "NULL": 8, "UNKNOWN": 29, "WANTS": 31}
        self.assertEqual({name: numbers[f"WAKOTEHU_{name}"] for name in codes}, codes)

    def test_names_of_failures(self) -> None:
        """The header's, by the library's words, are Python's, and so are the bits of rules."""
        numbers = read(self.text).numbers
        names = {error.value: error.name for error in consensus.ScriptError}
        for n in range(1, 64):
            self.assertEqual(self.loaded.wakotehu_script_error_name(n).decode(), names.get(n, ""))
            self.assertEqual(bool(self.loaded.wakotehu_script_error_text(n)), n in names)
        found = {name: n for name, n in numbers.items() if name.startswith("WAKOTEHU_SCRIPT_")}
        self.assertEqual(found, {"WAKOTEHU_SCRIPT_OK": 0, **{f"WAKOTEHU_SCRIPT_{name}": n for n, name in names.items()}})
        self.assertEqual(self.loaded.wakotehu_script_error_name(0), b"OK")
        words = {"CLTV": "CHECKLOCKTIMEVERIFY", "CSV": "CHECKSEQUENCEVERIFY"}
        bits = {name: numbers[f"WAKOTEHU_VERIFY_{words.get(name, name)}"] for name in consensus._BITS}
        self.assertEqual(bits, consensus._BITS)

    def test_words(self) -> None:
        """The library's words for replies and reasons are Python's."""
        for n, word in enumerate(REASONS):
            self.assertEqual(self.loaded.wakotehu_reason_text(n).decode(), word)
        self.assertEqual(self.loaded.wakotehu_reason_text(len(REASONS)), b"")
        words = [self.loaded.wakotehu_reply_text(n).decode() for n in range(1, 12)]
        self.assertEqual(words, list(chainstate._REPLIES)[1:])
        self.assertEqual(self.loaded.wakotehu_reply_text(12), b"")


class ExportsTest(unittest.TestCase):
    """What is seen from outside: the calls of the header, each with its version."""

    def names(self, path: str) -> Dict[str, str]:
        """The names of a list, with their versions."""
        text = re.sub(r"/\*.*?\*/", " ", text_of(path), flags=re.S)
        nodes = re.findall(r"(\w[\w.]*) \{\s*global:\s*([\w;\s]*?)\s*(?:local:\s*\*;\s*)?\}", text)
        self.assertGreater(len(nodes), 0)
        found = [(name, node) for node, names in nodes for name in re.findall(r"\w+", names)]
        self.assertEqual(len(found), len(dict(found)))
        return dict(found)

    def test_the_lists_have_the_calls_of_the_headers(self) -> None:
        self.assertEqual(set(self.names(f"{FFI}/libwakotehu.map")), set(read(text_of(HEADER)).calls))
        self.assertEqual(set(self.names(f"{FFI}/libwakotehu-secp256k1.map")), set(read(text_of(SECP256K1)).calls))

    def test_the_libraries_export_them(self) -> None:
        folder = os.path.dirname(os.path.realpath(library.library()._name))
        for name in ("libwakotehu", "libwakotehu-secp256k1"):
            shown = subprocess.run(
                ["nm", "-D", "--defined-only", "--with-symbol-versions", f"{folder}/{name}.so.0"],
                capture_output=True, text=True, check=True,
            ).stdout  # fmt: skip
            found = dict(re.findall(r" T (\w+)@@(\S+)", shown))
            self.assertEqual(found, self.names(f"{FFI}/{name}.map"))


if __name__ == "__main__":
    unittest.main()
