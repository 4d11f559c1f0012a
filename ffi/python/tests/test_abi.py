"""`ffi/abi`: changes of the headers after which programs that were linked before don't run, and others."""

import os
import shutil
import subprocess
import tempfile
import unittest
from typing import Dict, List, Tuple

FFI = os.path.realpath(os.path.join(os.path.dirname(os.path.abspath(__file__)), "..", ".."))
NAMES = {"GIT_AUTHOR_NAME": "a", "GIT_AUTHOR_EMAIL": "a@b", "GIT_COMMITTER_NAME": "a", "GIT_COMMITTER_EMAIL": "a@b"}

#: Texts of files that are replaced, where programs that were linked before run on.
RIGHT: Dict[str, List[Tuple[str, str, str]]] = {
    "nothing": [],
    "a call more": [
        ("include/wakotehu.h", "int64_t wakotehu_subsidy(", "int wakotehu_more(void);\nint64_t wakotehu_subsidy("),
        ("c/rules.c", "int64_t wakotehu_subsidy(", "int wakotehu_more(void) { return 1; }\nint64_t wakotehu_subsidy("),
    ],
    "a code more": [("include/wakotehu.h", "WAKOTEHU_WANTS = 31,", "WAKOTEHU_MORE = 33, WAKOTEHU_WANTS = 31,")],
    "another body": [("c/rules.c", "return ffi_subsidy(height);", "return ffi_subsidy(height + 0);")],
}
WRONG: Dict[str, List[Tuple[str, str, str]]] = {
    "a call that is gone": [
        ("include/wakotehu.h", "wakotehu_median(", "wakotehu_middle("),
        ("c/rules.c", "wakotehu_median(", "wakotehu_middle("),
    ],
    "an argument of another type": [
        ("include/wakotehu.h", "wakotehu_subsidy(uint32_t height)", "wakotehu_subsidy(uint64_t height)"),
        ("c/rules.c", "wakotehu_subsidy(uint32_t height)", "wakotehu_subsidy(uint64_t height)"),
    ],
    "a field more": [
        ("include/wakotehu.h", "    uint64_t input;\n} wakotehu_answer;", "    uint64_t input, more;\n} wakotehu_answer;"),
        ("c/wakotehu.c", "sizeof(wakotehu_answer) == 24", "sizeof(wakotehu_answer) == 32"),
    ],
    "fields that change places": [("include/wakotehu.h", "    uint32_t reply;\n    uint32_t reason;",
                                   "    uint32_t reason;\n    uint32_t reply;")],
    "a code of another number": [("include/wakotehu.h", "WAKOTEHU_SHORT = 20,", "WAKOTEHU_SHORT = 40,")],
    "a call of the other library that is gone": [
        ("include/wakotehu-secp256k1.h", "wakotehu_secp256k1_verify(", "wakotehu_secp256k1_try("),
        ("c/verifying.c", "wakotehu_secp256k1_verify(", "wakotehu_secp256k1_try("),
    ],
}  # fmt: skip


@unittest.skipUnless(shutil.which("git"), "git isn't there")
class AbiTest(unittest.TestCase):
    def setUp(self) -> None:
        folder = tempfile.TemporaryDirectory()
        self.addCleanup(folder.cleanup)
        self.folder = folder.name
        for name in ("c", "include"):
            shutil.copytree(f"{FFI}/{name}", f"{self.folder}/ffi/{name}")
        shutil.copy(f"{FFI}/abi", f"{self.folder}/ffi/abi")
        self.git("init", "-q")

    def git(self, *words: str) -> None:
        subprocess.run(["git", *words], cwd=self.folder, env={**os.environ, **NAMES}, check=True, capture_output=True)

    def tag(self) -> None:
        self.git("add", "-A")
        self.git("commit", "-qm", "first")
        self.git("tag", "v1")

    def put(self, name: str, old: str, new: str) -> None:
        path = f"{self.folder}/ffi/{name}"
        with open(path, encoding="ascii") as file:
            text = file.read()
        self.assertEqual(text.count(old), 1, (name, old))
        with open(path, "w", encoding="ascii") as file:
            file.write(text.replace(old, new))

    def asked(self, *words: str, path: str = os.environ["PATH"]) -> Tuple[int, str]:
        done = subprocess.run(
            [f"{self.folder}/ffi/abi", *words], capture_output=True, text=True, env={**os.environ, "PATH": path}
        )
        return done.returncode, done.stdout + done.stderr

    @unittest.skipUnless(shutil.which("abidiff"), "abidiff (abigail-tools) isn't there")
    def test_changes(self) -> None:
        self.tag()
        for expected, changes in ((0, RIGHT), (1, WRONG)):
            for name, replaced in changes.items():
                for each in replaced:
                    self.put(*each)
                status, said = self.asked()
                self.git("checkout", "-q", ".")
                with self.subTest(name):
                    self.assertEqual(status, expected, said)
                    self.assertIn("programs of v1 run with these libraries", said)
        self.put("include/wakotehu.h", "VERSION_MAJOR 0", "VERSION_MAJOR 1")
        self.assertEqual(self.asked(), (0, "ffi/abi: nothing is compared: v1 has another major version\n"))
        self.assertNotEqual(self.asked("v2")[0], 0)

    def test_what_is_left_out(self) -> None:
        os.mkdir(f"{self.folder}/bin")
        for name in ("bash", "dirname", "cat"):
            os.symlink(str(shutil.which(name)), f"{self.folder}/bin/{name}")
        said = "ffi/abi: nothing is compared: abidiff (abigail-tools) is missing\n"
        self.assertEqual(self.asked(path=f"{self.folder}/bin"), (0, said))
        with open(f"{self.folder}/bin/abidiff", "w", encoding="ascii") as file:
            file.write("#!/bin/sh\n")
        os.chmod(file.name, 0o755)
        found = self.asked(path=f"{self.folder}/bin:{os.environ['PATH']}")
        self.assertEqual(found, (0, "ffi/abi: nothing is compared: there is no tag\n"))
        self.assertEqual([self.asked("--help")[0], self.asked("--what")[0], self.asked("a", "b")[0]], [0, 2, 2])


if __name__ == "__main__":
    unittest.main()
