"""What is installed: the library with its soname, files below DESTDIR, the pkg-config file, and the package."""

import inspect
import os
import stat
import subprocess
import sys
import tempfile
import unittest
from unittest import mock

import wakotehu
from test_node import PROGRAM as REGCHAIN
from wakotehu.processor import chosen

FFI = os.path.realpath(os.path.join(os.path.dirname(os.path.abspath(__file__)), "..", ".."))
PROGRAM = """#include <stdio.h>
#include <wakotehu.h>
int main(void) { return puts(wakotehu_reply_text(WAKOTEHU_VERSION_MAJOR + 1)) < 0; }
"""
TESTER = """#include <stdio.h>
#include <wakotehu-secp256k1.h>
int main(void) { return puts(wakotehu_reply_text(1 + wakotehu_secp256k1_verdicts("", 0, 4, NULL, 0))) < 0; }
"""


def run(*command, **named):
    return subprocess.run(command, capture_output=True, text=True, check=True, **named).stdout


@unittest.skipUnless(os.path.exists(f"{FFI}/out/libwakotehu.so.0"), "ffi/build wasn't run")
class InstallTest(unittest.TestCase):
    def setUp(self):
        folder = tempfile.TemporaryDirectory()
        self.addCleanup(folder.cleanup)
        self.folder = folder.name

    def test_a_program_is_linked_and_runs(self):
        # Signs that mean something to sed and the shell: pkg-config writes them for `eval`.
        for name in ("plain", "a&b|c"):
            with self.subTest(name):
                self.linked(os.path.join(self.folder, name))

    def linked(self, prefix):
        run(f"{FFI}/install", prefix, umask=0o077)
        names = {**os.environ, "PKG_CONFIG_PATH": f"{prefix}/lib/pkgconfig"}
        self.assertEqual(run("pkg-config", "--variable=prefix", "wakotehu", env=names).strip(), prefix)
        for name, mode in (("lib", 0o755), ("lib/libwakotehu.so.0", 0o644), ("include/wakotehu.h", 0o644),
                           ("lib/pkgconfig/wakotehu.pc", 0o644), ("lib/libwakotehu-secp256k1.so.0", 0o644),
                           ("include/wakotehu-secp256k1.h", 0o644)):  # fmt: skip
            self.assertEqual(stat.S_IMODE(os.stat(os.path.join(prefix, name)).st_mode), mode, name)
        for package, text in (("wakotehu", PROGRAM), ("wakotehu-secp256k1", TESTER)):
            source, made = os.path.join(self.folder, "mine.c"), os.path.join(self.folder, "mine")
            with open(source, "w", encoding="ascii") as file:
                file.write(text)
            rpath = f"-Wl,-rpath,$(pkg-config --variable=libdir {package})"
            # As README has it.
            line = f'cc {source} -o {made} $(pkg-config --cflags --libs {package}) "{rpath}"'
            if "&" in prefix:
                line = f"eval \"cc {source} -o {made} $(pkg-config --cflags --libs {package}) '{rpath}'\""
            run("sh", "-c", line, env=names)
            alone = {name: value for name, value in names.items() if name != "LD_LIBRARY_PATH"}
            self.assertEqual(run(made, env=alone), "accepted\n")
            self.assertIn(f"lib{package}.so.0", run("ldd", made, env=alone))

    def test_destdir(self):
        run(f"{FFI}/install", "/opt/wakotehu", env={**os.environ, "DESTDIR": self.folder})
        with open(f"{self.folder}/opt/wakotehu/lib/pkgconfig/wakotehu.pc", encoding="ascii") as file:
            self.assertEqual(file.readline(), "prefix=/opt/wakotehu\n")
        self.assertEqual(os.readlink(f"{self.folder}/opt/wakotehu/lib/libwakotehu.so"), "libwakotehu.so.0")

    def test_words(self):
        self.assertIn("usage", run(f"{FFI}/install", "--help"))
        for words in (["--nonsense"], ["a", "b"]):
            self.assertNotEqual(subprocess.run([f"{FFI}/install", *words], capture_output=True).returncode, 0)

    def wheel(self):
        """A wheel of the package, made anew."""
        run(
            f"{FFI}/python/build", self.folder,
            env={**os.environ, "PYTHON": "/usr/bin/python3", "WAKOTEHU_PROGRAM": REGCHAIN},
        )  # fmt: skip
        [name] = [name for name in os.listdir(self.folder) if name.endswith(".whl")]
        return os.path.join(self.folder, name)

    def test_the_wheel_in_a_fresh_environment(self):
        wheel = self.wheel()
        # Any Python 3 takes it, as nothing in it is compiled for one of them.
        tags = os.path.basename(wheel)[: -len(".whl")].split("-")[2:]
        self.assertEqual(tags, ["py3", "none", f"linux_{os.uname().machine}"])
        run("/usr/bin/python3", "-m", "venv", f"{self.folder}/venv")
        run(f"{self.folder}/venv/bin/pip", "install", "--quiet", "--no-index", wheel)
        names = {name: value for name, value in os.environ.items() if not name.startswith(("WAKOTEHU", "PYTHON"))}
        names["PATH"] = "/nowhere"
        python = f"{self.folder}/venv/bin/python"
        package = run(python, "-c", "import wakotehu; print(*wakotehu.__path__)", cwd=self.folder, env=names).strip()
        self.assertTrue(package.startswith(f"{self.folder}/venv/"), package)
        told = run(python, "-m", "wakotehu", cwd=self.folder, env=names)
        self.assertEqual(told.splitlines(), [
            f"wakotehu {wakotehu.__version__}", f"library: {chosen(f'{package}/libwakotehu.so.0')}",
            f"signatures: {package}/libwakotehu-secp256k1.so.0", f"program: {chosen(f'{package}/regchain')}",
        ])  # fmt: skip
        asked = "from wakotehu import Bench, Node; print(Bench().height(), Node(save='made').close())"
        self.assertEqual(run(python, "-W", "ignore", "-c", asked, cwd=self.folder, env=names), "0 0\n")
        self.assertTrue(os.path.exists(f"{self.folder}/made/journal.txt"))
        for command in ("wakotehu-server", "wakotehu-replica"):
            self.assertIn("usage", run(f"{self.folder}/venv/bin/{command}", "--help", cwd=self.folder, env=names))
        for name in ("replica.sql", "rpc/page.html"):
            self.assertTrue(os.path.exists(f"{package}/{name}"), name)
        # pytest finds its plugin.
        asked = "from importlib.metadata import distribution as of; print(*of('wakotehu').entry_points)"
        told = run(python, "-c", asked, cwd=self.folder, env=names)
        self.assertIn("EntryPoint(name='wakotehu.testing', value='wakotehu.testing', group='pytest11')", told)

    def test_the_wheel_needs_the_program(self):
        done = subprocess.run(
            [f"{FFI}/python/build", self.folder], capture_output=True, text=True,
            env={**os.environ, "WAKOTEHU_PROGRAM": "/nowhere/regchain"},
        )  # fmt: skip
        self.assertEqual((done.returncode, os.listdir(self.folder)), (1, []))
        self.assertIn("/nowhere/regchain isn't there", done.stderr)
        self.assertEqual(run(f"{FFI}/python/build", "--help").split()[:2], ["ffi/python/build", "[FOLDER]"])
        done = subprocess.run([f"{FFI}/python/build", "--nonsense"], capture_output=True)
        self.assertEqual(done.returncode, 2)


class PackageTest(unittest.TestCase):
    def test_a_wrong_library_is_named(self):
        names = {**os.environ, "WAKOTEHU_LIBRARY": "/nowhere/lib.so"}
        done = subprocess.run(
            [sys.executable, "-c", "import wakotehu; wakotehu.Chainstate()"], capture_output=True, text=True, env=names
        )
        self.assertIn("WAKOTEHU_LIBRARY=/nowhere/lib.so can't be loaded", done.stderr.splitlines()[-1])

    def said(self, *words, **names):
        return subprocess.run(
            [sys.executable, "-m", "wakotehu", *words], capture_output=True, text=True, env={**os.environ, **names}
        )

    def test_what_the_package_says_of_itself(self):
        done = self.said(WAKOTEHU_PROGRAM=REGCHAIN)
        self.assertEqual(done.returncode, 0)
        self.assertEqual([line.split(":")[0] for line in done.stdout.splitlines()[1:]], ["library", "signatures", "program"])
        self.assertIn(f"program: {REGCHAIN}\n", done.stdout)
        for name, word in (("WAKOTEHU_LIBRARY", "library"), ("WAKOTEHU_PROGRAM", "program")):
            done = self.said(**{"WAKOTEHU_PROGRAM": REGCHAIN, name: "/nowhere/none"})
            self.assertEqual(done.returncode, 1)
            self.assertRegex(done.stdout, f"{word}: not found: .*/nowhere/none")
        self.assertEqual(self.said("--version").stdout, f"wakotehu {wakotehu.__version__}\n")
        self.assertIn("usage: python3 -m wakotehu", self.said("--help").stdout)
        self.assertEqual(self.said("nonsense").returncode, 2)

    def test_an_unusable_libsecp256k1_is_told(self):
        """One that can't be loaded, or hasn't the calls: it isn't shown as if it were used."""
        from wakotehu import __main__ as said

        with mock.patch.object(said, "secp256k1_library", lambda: None):
            for name, told in (("libc.so.6", "not usable: libc.so.6: "), ("libnone.so.9", "not usable: libnone.so.9: "), (None, "not found: ")):
                with mock.patch("ctypes.util.find_library", lambda _, name=name: name):
                    self.assertEqual(said.signatures()[: len(told)], told)

    def test_each_exception_says_what_it_is(self):
        for name, kind in vars(wakotehu.errors).items():
            if inspect.isclass(kind) and issubclass(kind, Exception):
                with self.subTest(name):
                    self.assertTrue((vars(kind).get("__doc__") or "").strip().endswith("."))

    def test_exceptions_stand_under_their_names(self):
        from wakotehu.errors import BadCbAmount, BadTxnsBIP30, BlkBadInputs, HighHash

        kinds = [BadCbAmount, BadTxnsBIP30, BlkBadInputs, HighHash]
        self.assertEqual([wakotehu.errors.REASONS.index(kind.reason) for kind in kinds], [28, 24, 29, 1])


if __name__ == "__main__":
    unittest.main()
