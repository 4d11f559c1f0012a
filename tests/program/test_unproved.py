"""What `./build --unproved` rests on, and that `./install` doesn't take it for the proved program. It isn't built here."""

import os
import shutil
import subprocess
import sys
import tempfile
import unittest
import zipfile

ROOT = os.path.dirname(os.path.dirname(os.path.dirname(os.path.realpath(__file__))))
sys.path.insert(0, f"{ROOT}/tools")
import unproved


class Unproved(unittest.TestCase):
    def test_the_version_says_so(self) -> None:
        with tempfile.TemporaryDirectory() as room:
            copy = unproved.marked(ROOT, room)
            with open(f"{copy}/crates/console/src/options.rt", encoding="utf-8") as file:
                self.assertRegex(file.read(), r'pub const VERSION: &str = "\d+\.\d+ unproved \(')

    def test_the_wheel_says_so(self) -> None:
        with tempfile.TemporaryDirectory() as room:
            for name in ("libwakotehu.so.0", "regchain"):
                with open(f"{room}/{name}", "w", encoding="ascii"):
                    os.chmod(f"{room}/{name}", 0o755)
            environment = {**os.environ, "LIBRARIES": room, "WAKOTEHU_PROGRAM": f"{room}/regchain", "PYTHON": "/usr/bin/python3"}
            subprocess.run([f"{ROOT}/ffi/python/build", "--unproved", f"{room}/wheel"], env=environment, check=True)
            (wheel,) = os.listdir(f"{room}/wheel")
            with zipfile.ZipFile(f"{room}/wheel/{wheel}") as file:
                (metadata,) = (name for name in file.namelist() if name.endswith(".dist-info/METADATA"))
                text = file.read(metadata).decode()
        self.assertIn("+unproved", wheel)
        self.assertRegex(text, r"(?m)^Summary: A chainstate, compiled without its proofs,")
        self.assertNotIn("A proved chainstate", text)

    def test_each_export_is_kept(self) -> None:
        called = unproved.calling_all(f"{ROOT}/crates/ffi/src")
        for name in ("exports::ffi_open(", "known::ffi_verify_known(", "hashes::ffi_id_read("):
            self.assertIn(name, called)
        exports = subprocess.run(
            ["grep", "-rhoE", "^pub (unsafe )?extern \"C\" fn ffi_[a-z0-9_]+", f"{ROOT}/crates/ffi/src"],
            stdout=subprocess.PIPE, text=True, check=True).stdout.split("fn ")[1:]
        self.assertEqual(len(exports), called.count("::ffi_"))

    def test_names_and_main_of_the_library(self) -> None:
        text = 'define internal noundef i32 @"ffi::exports::ffi_open"(ptr %a) #0 {\n  call i32 @"ffi::exports::ffi_open"(ptr %a)\n}\ndefine i32 @main() #0 {\n'
        self.assertEqual(
            unproved.exported(text),
            "define noundef i32 @ffi_open(ptr %a) #0 {\n  call i32 @ffi_open(ptr %a)\n}\ndefine internal i32 @main() #0 {\n")

    def test_another_processor(self) -> None:
        """Each function names one, which counts more than a flag of clang's; nothing else changes."""
        text = 'define i32 @f() #0 {\n}\nattributes #0 = { nounwind "frame-pointer"="all" "target-cpu"="x86-64" }\n'
        with tempfile.TemporaryDirectory() as room:
            with open(unproved.of_v3(text, f"{room}/v3.ll"), encoding="utf-8") as file:
                self.assertEqual(file.read(), text.replace('"x86-64"', '"x86-64-v3"'))

    def test_the_names_of_processors(self) -> None:
        def named(name: str) -> "subprocess.CompletedProcess[str]":
            words = ["bash", "-c", f'source {ROOT}/tools/needs; cpu_named "$1"', "bash", name]
            return subprocess.run(words, stdout=subprocess.PIPE, stderr=subprocess.PIPE, text=True)

        self.assertEqual((named("x86-64-v3").stdout, named("x86-64-v3").returncode), ("x86-64-v3\n", 0))
        native = named("native")
        self.assertEqual((native.stdout == "", native.returncode), ("only the default is built" in native.stderr, 0))
        for script in (f"{ROOT}/build", f"{ROOT}/ffi/build"):
            refused = subprocess.run([script, "--cpu=x86-64-v4"], stdout=subprocess.PIPE, stderr=subprocess.PIPE, text=True)
            self.assertEqual((refused.returncode, refused.stdout), (2, ""))
            self.assertIn("--cpu takes x86-64-v3 or native", refused.stderr)

    def test_install_wants_the_word(self) -> None:
        with tempfile.TemporaryDirectory() as room:
            shutil.copy(f"{ROOT}/install", room)
            os.makedirs(f"{room}/out/unproved/lib")
            for name in ("docs", "completion", "tools"):
                os.symlink(f"{ROOT}/{name}", f"{room}/{name}")
            with open(f"{room}/out/unproved/regchain", "w", encoding="utf-8") as file:
                file.write("#!/bin/sh\n")
            os.chmod(f"{room}/out/unproved/regchain", 0o755)
            refused = subprocess.run([f"{room}/install", f"{room}/to"], stderr=subprocess.PIPE, text=True)
            self.assertEqual((refused.returncode, refused.stderr.strip()), (
                1, "install: only ./build --unproved was run: ./install --unproved installs that"))
            self.assertFalse(os.path.exists(f"{room}/to"))
            subprocess.run([f"{room}/install", "--unproved", f"{room}/to"], check=True, stdout=subprocess.DEVNULL)
            self.assertTrue(os.access(f"{room}/to/bin/regchain", os.X_OK))


if __name__ == "__main__":
    unittest.main()
