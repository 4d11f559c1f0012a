"""The archives that `ffi/build` makes: what they export beside the calls of the headers, and a program that is linked with them."""

import os
import re
import subprocess
import tempfile
import unittest
from typing import List

FFI = os.path.realpath(os.path.join(os.path.dirname(os.path.abspath(__file__)), "..", ".."))
NAMES = ("libwakotehu", "libwakotehu-secp256k1")
#: A program with names of its own that functions of the library have inside.
PROGRAM = r"""
#include <stdio.h>
#include <wakotehu-secp256k1.h>
int ffi_open(void);
int ffi_open(void) { return 7; }
int ffi_sha256(void);
int ffi_sha256(void) { return 8; }
int main(void) {
    static const uint8_t tx[62] = {1, [4] = 1, [41] = 2, 0x51, 0x52, [48] = 1, 1}, spent[] = {0x93, 0x53, 0x9c};
    uint32_t error = 7;
    wakotehu_code code = wakotehu_secp256k1_verify_script(tx, sizeof tx, 0, spent, sizeof spent, 1, &error);
    printf("%d %d %u %u\n", ffi_open(), ffi_sha256(), (unsigned)code, (unsigned)error);
    return 0;
}
"""


def run(*words: str) -> str:
    return subprocess.run(words, check=True, stdout=subprocess.PIPE, text=True).stdout


def asked(*words: str) -> List[str]:
    return run("pkg-config", *words).split()


class ArchivesTest(unittest.TestCase):
    def setUp(self) -> None:
        if subprocess.run(["pkg-config", "--exists", *(name[3:] for name in NAMES)]).returncode:
            self.skipTest("the libraries aren't installed where pkg-config looks")
        [self.folder] = asked("--variable=libdir", "wakotehu")

    def test_only_calls_are_seen(self) -> None:
        for name in NAMES:
            with open(f"{FFI}/{name}.map", encoding="utf-8") as file:
                calls = re.findall(r"^ +(wakotehu_\w+);$", file.read(), re.M)
            listed = run("nm", "--format=posix", "--extern-only", "--defined-only", f"{self.folder}/{name}.a").splitlines()
            found = sorted(line.split()[0] for line in listed if len(line.split()) > 1)
            self.assertEqual(found, sorted(calls), name)

    def test_a_program(self) -> None:
        with tempfile.TemporaryDirectory() as room:
            with open(f"{room}/main.c", "w", encoding="utf-8") as file:
                file.write(PROGRAM)
            flags = asked("--static", "--cflags", "--libs", "wakotehu-secp256k1")
            # The linker takes these two as archives, and others as they come.
            libs = [f"-l:lib{it[2:]}.a" if it[2:].startswith("wakotehu") else it for it in flags]
            run("cc", "-std=c11", "-Wall", "-Wextra", "-Werror", f"{room}/main.c", *libs, "-o", f"{room}/main")
            self.assertEqual(run(f"{room}/main"), "7 8 0 0\n")
            needed = run("readelf", "-d", f"{room}/main")
            self.assertNotIn("libwakotehu", needed)


if __name__ == "__main__":
    unittest.main()
