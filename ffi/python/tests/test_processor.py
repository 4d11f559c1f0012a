"""The build that the package takes, by the flags of a processor: those of the machine aren't looked at here."""

import os
import shutil
import subprocess
import tempfile
import unittest
from unittest import mock

from wakotehu import library, processor, served

ROOT = os.path.realpath(os.path.join(os.path.dirname(os.path.abspath(__file__)), "..", "..", ".."))
LAUNCHER = f"{ROOT}/tools/regchain.sh"
OLD = "fpu sse sse2 pni ssse3 cx16 sse4_1 sse4_2 popcnt lahf_lm"
NEW = f"{OLD} avx avx2 bmi1 bmi2 f16c fma abm movbe xsave hypervisor"


class ProcessorTest(unittest.TestCase):
    def setUp(self):
        folder = tempfile.TemporaryDirectory()
        self.addCleanup(folder.cleanup)
        self.room = folder.name
        self.better = os.path.join(self.room, processor.FOLDER)

    def cpuinfo(self, *each):
        """A file as the kernel's, of processors with these flags."""
        with tempfile.NamedTemporaryFile("w", dir=self.room, delete=False) as file:
            for number, flags in enumerate(each):
                file.write(f"processor\t: {number}\nmodel name\t: avx2\nflags\t\t: {flags}\nbugs\t\t: avx2\n\n")
        return file.name

    def put(self, name, text="", folder=None):
        folder = folder or self.room
        os.makedirs(folder, exist_ok=True)
        with open(os.path.join(folder, name), "w", encoding="ascii") as file:
            file.write(text)
        os.chmod(file.name, 0o755)
        return file.name

    def test_flags(self):
        self.assertTrue(processor.has_v3(self.cpuinfo(NEW)))
        self.assertTrue(processor.has_v3(self.cpuinfo(NEW, NEW)))
        for each in ([OLD], [], [NEW, OLD], [NEW.replace(" fma", "")], [NEW.replace("avx2", "avx512f")], [""]):
            self.assertFalse(processor.has_v3(self.cpuinfo(*each)), each)
        self.assertFalse(processor.has_v3("/nowhere/cpuinfo"))

    def test_each_flag_is_wanted(self):
        for flag in processor.V3:
            left = " ".join(it for it in NEW.split() if it != flag)
            self.assertFalse(processor.has_v3(self.cpuinfo(left)), flag)

    def test_what_is_chosen(self):
        new, old, place = self.cpuinfo(NEW), self.cpuinfo(OLD), self.put("regchain")
        self.assertEqual(processor.chosen(place, new), place)
        better = self.put("regchain", folder=self.better)
        self.assertEqual(processor.chosen(place, new), better)
        self.assertEqual(processor.chosen(place, old), place)
        # The linker finds by itself what has no folder.
        self.assertEqual(processor.chosen("regchain", new), "regchain")
        for found in (place, better):
            self.assertEqual(processor.home(found), self.room)
        self.assertEqual(processor.home("libwakotehu.so.0"), "")

    def test_the_program(self):
        place, better = self.put("regchain"), self.put("regchain", folder=self.better)
        names = {"WAKOTEHU_LIBRARY": os.path.join(self.room, "libwakotehu.so.0")}
        # A program in the package would come first.
        module = os.path.join(self.room, "empty", "served.py")
        for has, wanted in ((True, better), (False, place)):
            with mock.patch.dict(os.environ, names), mock.patch.object(served, "__file__", module):
                os.environ.pop("WAKOTEHU_PROGRAM", None)
                with mock.patch.object(processor, "has_v3", return_value=has):
                    self.assertEqual(served.program_path(), wanted)
                    # What is named is taken as it is.
                    self.assertEqual(served.program_path(place), place)

    def test_the_library(self):
        place = self.put("libwakotehu.so.0")
        better = self.put("libwakotehu.so.0", folder=self.better)
        for has, wanted in ((True, better), (False, place)):
            tried = []
            with mock.patch.object(library, "_loaded", None), mock.patch.object(library, "_places", lambda: iter([place])), \
                    mock.patch.object(processor, "has_v3", return_value=has), mock.patch.dict(os.environ), \
                    mock.patch.object(library.ctypes, "CDLL", side_effect=lambda name: tried.append(name) or mock.MagicMock()):
                os.environ.pop("WAKOTEHU_LIBRARY", None)
                library.library()
            self.assertEqual(tried, [wanted])

    def test_the_installed_script(self):
        """It wants the same flags, runs one of two programs, and passes words and status on."""
        with open(LAUNCHER, encoding="ascii") as file:
            text = file.read()
        [wanted] = [line for line in text.splitlines() if line.startswith("for flag in ")]
        self.assertEqual(set(wanted[len("for flag in "):].partition(";")[0].split()), processor.V3)
        said = '#!/bin/sh\necho {} "$@" $GLIBC_TUNABLES\nexit 7\n'
        home = os.path.join(self.room, "lib", "wakotehu")
        self.put("regchain", said.format("default"), home)
        self.put("regchain", said.format("v3"), os.path.join(home, processor.FOLDER))
        for flags, one in ((NEW, "v3"), (OLD, "default"), (NEW.replace(" abm", ""), "default"), ("", "default")):
            script = self.put("regchain", text.replace("/proc/cpuinfo", self.cpuinfo(flags)), os.path.join(self.room, "bin"))
            link = os.path.join(self.room, "elsewhere")
            if not os.path.islink(link):
                os.symlink(script, link)
            for called in (script, link):
                for more, pages in (({}, processor.LARGE_PAGES), ({"GLIBC_TUNABLES": "own"}, "own")):
                    names = {name: it for name, it in os.environ.items() if name != "GLIBC_TUNABLES"}
                    done = subprocess.run([called, "run", "a b"], capture_output=True, text=True, env={**names, **more})
                    self.assertEqual((done.returncode, done.stdout, done.stderr), (7, f"{one} run a b {pages}\n", ""))
        # Where there is the default alone, that is run.
        os.remove(os.path.join(home, processor.FOLDER, "regchain"))
        script = self.put("regchain", text.replace("/proc/cpuinfo", self.cpuinfo(NEW)), os.path.join(self.room, "bin"))
        self.assertTrue(subprocess.run([script], capture_output=True, text=True).stdout.startswith("default"))

    def test_large_pages(self):
        """The program of a node gets the setting, unless the environment has one."""
        with mock.patch.dict(os.environ, {"GLIBC_TUNABLES": "own"}):
            self.assertEqual(processor.environment()["GLIBC_TUNABLES"], "own")
            del os.environ["GLIBC_TUNABLES"]
            self.assertEqual(processor.environment(), {**os.environ, "GLIBC_TUNABLES": processor.LARGE_PAGES})


class InstallTest(unittest.TestCase):
    """`./install` of a folder that has both builds, and of one that has the default alone."""

    def setUp(self):
        folder = tempfile.TemporaryDirectory()
        self.addCleanup(folder.cleanup)
        self.copy, self.to = f"{folder.name}/copy", f"{folder.name}/to"
        for name in ("install", "tools/regchain.sh", "docs/regchain.1", "ffi/install", "ffi/wakotehu.pc.in", "ffi/include/wakotehu.h",
                     *(f"completion/{it}" for it in os.listdir(f"{ROOT}/completion"))):  # fmt: skip
            os.makedirs(os.path.dirname(f"{self.copy}/{name}"), exist_ok=True)
            shutil.copy(f"{ROOT}/{name}", f"{self.copy}/{name}")
        self.put("crates/regchain/out/regchain", "echo default")
        for name in ("libwakotehu.so.0", "libwakotehu.a"):
            self.put(f"ffi/out/{name}", "default")

    def put(self, name, text):
        os.makedirs(os.path.dirname(f"{self.copy}/{name}"), exist_ok=True)
        with open(f"{self.copy}/{name}", "w", encoding="ascii") as file:
            file.write(f"#!/bin/sh\n{text}\n")
        os.chmod(file.name, 0o755)

    def installed(self):
        subprocess.run([f"{self.copy}/install", self.to], check=True, stdout=subprocess.DEVNULL)
        names = [os.path.relpath(f"{at}/{it}", self.to) for at, _, its in os.walk(self.to) for it in its]
        return {name for name in names if not name.startswith(("share", "include", "lib/pkgconfig"))}

    def test_both_and_the_default_again(self):
        plain = {"bin/regchain", "lib/wakotehu/regchain", "lib/libwakotehu.a", "lib/libwakotehu.so", "lib/libwakotehu.so.0"}
        self.assertEqual(self.installed(), plain)
        v3 = processor.FOLDER
        self.put(f"crates/regchain/out/{v3}/regchain", "echo v3")
        self.put(f"ffi/out/{v3}/libwakotehu.so.0", "v3")
        both = {f"lib/{v3}/libwakotehu.so.0", f"lib/wakotehu/{v3}/regchain"}
        self.assertEqual(self.installed(), plain | both)
        told = subprocess.run([f"{self.to}/bin/regchain"], capture_output=True, text=True, check=True).stdout
        self.assertEqual(told, "v3\n" if processor.has_v3() else "default\n")
        # A later build without it leaves none that is older than the default.
        shutil.rmtree(f"{self.copy}/crates/regchain/out/glibc-hwcaps")
        shutil.rmtree(f"{self.copy}/ffi/out/glibc-hwcaps")
        self.assertEqual(self.installed(), plain)


if __name__ == "__main__":
    unittest.main()
