"""What the scripts at the top say first, and how they end: without the kit, with another kit, and by a signal; and what those that
compare documents and code notice."""

import io
import os
import re
import signal
import subprocess
import sys
import tempfile
import time
import unittest
from contextlib import redirect_stderr, redirect_stdout

ROOT = os.path.dirname(os.path.dirname(os.path.dirname(os.path.realpath(__file__))))
sys.path.insert(0, f"{ROOT}/tools")
import progress
import style
from sources import believe, book, definitions, repository, trace


def tell(script: str, path: str) -> "tuple[int, str]":
    """The status of a script with this search path, and what it wrote on standard error."""
    ran = subprocess.run(
        ["/bin/bash", f"{ROOT}/{script}"], env={"PATH": path}, stdin=subprocess.DEVNULL, stdout=subprocess.DEVNULL,
        stderr=subprocess.PIPE, text=True, timeout=60)
    return ran.returncode, ran.stderr


class Needs(unittest.TestCase):
    """With a search path of the test's own."""

    def setUp(self) -> None:
        room = tempfile.TemporaryDirectory()
        self.addCleanup(room.cleanup)
        self.path = room.name
        for name in ("dirname", "cat", "grep", "mkdir", "find", "setsid", "sleep"):
            os.symlink(f"/usr/bin/{name}", f"{self.path}/{name}")

    def put(self, name: str, text: str) -> None:
        with open(f"{self.path}/{name}", "w", encoding="utf-8") as file:
            file.write(text)
        os.chmod(f"{self.path}/{name}", 0o755)

    def test_without_the_kit(self) -> None:
        for script in ("build", "demo", "test"):
            with self.subTest(script):
                status, told = tell(script, self.path)
                self.assertEqual(status, 1)
                self.assertIn("rt is missing", told)
                self.assertIn("rattle-kit-", told)
                self.assertIn("Python 3.9", told)

    def test_another_kit(self) -> None:
        os.symlink(sys.executable, f"{self.path}/python3")
        self.put("rt", "#!/bin/bash\necho rattle-kit-99 logic 0123456789abcdef\n")
        status, told = tell("demo", self.path)
        self.assertEqual(status, 1)
        self.assertIn("rattle-kit-99", told)

    def test_one_version_and_one_kit(self) -> None:
        """`tools/version.py` passes, and finds another version or kit at each place."""
        told = re.compile(r"0\.2|rattle-kit-13f|dac8208d650f15bf|(?<=MAJOR )0|(?<=MINOR )2")
        with tempfile.TemporaryDirectory() as room:
            subprocess.run(["git", "-C", ROOT, "checkout-index", "-a", f"--prefix={room}/"], check=True)
            see = [f"{room}/tools/version.py"]
            self.assertEqual(subprocess.run(see).returncode, 0)
            for path in (
                "crates/console/src/options.rt", "crates/gated/stdout", "tests/program/test_command_line.py",
                "ffi/include/wakotehu.h", "README.md", "VERSION",
            ):  # fmt: skip
                with open(f"{room}/{path}", encoding="utf-8") as file:
                    text = file.read()
                with open(f"{room}/{path}", "w", encoding="utf-8") as file:
                    file.write(told.sub("0.9", text))
                done = subprocess.run(see, stderr=subprocess.PIPE, text=True)
                self.assertEqual((done.returncode, path in done.stderr), (1, True), path)
                with open(f"{room}/{path}", "w", encoding="utf-8") as file:
                    file.write(text)


class Children(unittest.TestCase):
    def test_end_with_the_script(self) -> None:
        with tempfile.TemporaryDirectory() as room:
            text = f"set -eu; source {ROOT}/tools/needs; trap end_children EXIT; child bash -c 'echo $$ >{room}/child; sleep 600 & wait'"
            script = subprocess.Popen(["/bin/bash", "-c", text])
            while not (os.path.exists(f"{room}/child") and os.path.getsize(f"{room}/child")):
                time.sleep(0.05)
            with open(f"{room}/child", encoding="ascii") as file:
                child = int(file.read())
            script.send_signal(signal.SIGTERM)
            self.assertEqual(script.wait(60), 143)
            for _ in range(200):
                try:
                    with open(f"/proc/{child}/stat", encoding="ascii") as file:
                        if file.read().split()[2] == "Z":
                            return
                except FileNotFoundError:
                    return
                time.sleep(0.05)
            self.fail("the child goes on")


class Progress(unittest.TestCase):
    def test_each_crate_has_its_minutes(self) -> None:
        with open(f"{ROOT}/crates.txt", encoding="utf-8") as file:
            names = {line.split(":")[0].split()[0] for line in file if line.split("#")[0].strip()}
        self.assertEqual(set(progress.minutes(progress.GATE)), names)
        self.assertLess(set(progress.minutes(progress.BUILD)), names)

    def test_minutes_left_follow_what_was_taken(self) -> None:
        told = progress.Progress({"a": 2.0, "b": 2.0, "c": 6.0}, ["a", "b", "c"])
        self.assertAlmostEqual(told.left(), 10.0, places=1)
        told.begun, told.ended = told.begun - 60, told.ended - 60  # a took a minute in place of two
        told.finish("a")
        self.assertAlmostEqual(told.left(), 4.0, places=1)
        self.assertRegex(told.line("b"), r"^crate 2 of 3: b \(1 minutes so far, about 4 left\)$")

    def test_what_an_earlier_run_kept_says_nothing_of_the_rest(self) -> None:
        told = progress.Progress({"a": 2.0, "b": 2.0, "c": 6.0}, ["a", "b", "c"])
        told.finish("a", is_kept=True)
        self.assertAlmostEqual(told.left(), 8.0, places=1)


class Style(unittest.TestCase):
    """That a function above its limit fails; tools/tests has the measures."""

    def test_what_is_above_fails(self) -> None:
        room = tempfile.TemporaryDirectory()
        self.addCleanup(room.cleanup)
        self.addCleanup(setattr, repository, "ROOT", repository.ROOT)
        self.addCleanup(setattr, style, "LIST", style.LIST)
        repository.ROOT, style.LIST = room.name, f"{room.name}/style.txt"
        os.makedirs(f"{room.name}/crates/a/src")
        names = ", ".join(f"n{n}: u8" for n in range(7))
        with open(f"{room.name}/crates/a/src/lib.rt", "w", encoding="utf-8") as file:
            file.write(f"pub fn many({names}) -> u8 {{\n" + "    n0;\n" * 41 + "}\n")
        for rows, status in (
            ("", 1), ("parameters a/src/lib.rt many 7\n", 1), ("parameters a/src/lib.rt many 7\nlines a/src/lib.rt many 41\n", 0),
            ("parameters a/src/lib.rt many 8\nlines a/src/lib.rt many 41\n", 1),
        ):
            with open(style.LIST, "w", encoding="utf-8") as file:
                file.write(rows)
            with self.subTest(rows), redirect_stdout(io.StringIO()), redirect_stderr(io.StringIO()):
                sys.argv = ["style.py"]
                self.assertEqual(style.main(), status)


class Book(unittest.TestCase):
    """The book of rules and the links to definitions, in a small repository and in this one."""

    FILES = {
        "crates.txt": "bytes:\nnode: bytes\n",
        "crates/bytes/src/lib.rt": "//! Bytes, and how many.\n",
        "crates/bytes/src/part.rt": """//! Parts.

/// Some bytes.
#[derive(Clone)]
pub struct Part {
    pub bytes: Bytes,
}
""",
        "crates/bytes/specs/Fits.antt": """-- What fits.
use Rattle.std.specs.Prelude.{ℕ, ◌≤◌, length}
use Rattle.bytes.specs.declared.part.Part.{Part}
use Rattle.bytes.specs.Limit.{most}

-- a part isn't too long (BIP 34)
abbrev pub Fits : Part → Type 0
Fits part = length part.bytes ≤ most

-- nothing public needs it
abbrev pub unneeded : ℕ
unneeded = 1
""",
        "crates/bytes/specs/Limit.antt": """-- How long a part may be.
use Rattle.std.specs.Prelude.{ℕ}

-- (`MAX_PART`)
abbrev pub most : ℕ
most = 4
""",
        "crates/node/src/lib.rt": "//! Seats.\npub use seat::Seat;\n",
        "crates/node/src/seat.rt": """ghost use Rattle.bytes.specs.Fits.{Fits};

impl Seat {
    pub fn put(&self, part: Part)
        requires { Fits part }
    {
    }
}
""",
        "docs/RULES.md": "# Rules\n\n## How long\n\nDefined as `Fits` in `crates/bytes/specs/Fits.antt`.\n",
        "docs/trace.json": "[]",
    }

    SHOWN = """## bytes

Bytes, and how many. ([README](../crates/bytes/README.md))

### bytes: Limit

[bytes/specs/Limit.antt](../crates/bytes/specs/Limit.antt): How long a part may be.

[`most`](../crates/bytes/specs/Limit.antt#L5) (Core's `MAX_PART`)

```antt
-- (`MAX_PART`)
abbrev pub most : ℕ
most = 4
```

### bytes: types of `part.rt`

[bytes/src/part.rt](../crates/bytes/src/part.rt): Parts.

[`Part`](../crates/bytes/src/part.rt#L5)

```rust
/// Some bytes.
pub struct Part {
    pub bytes: Bytes,
}
```

### bytes: Fits

[bytes/specs/Fits.antt](../crates/bytes/specs/Fits.antt): What fits.

[`Fits`](../crates/bytes/specs/Fits.antt#L7) (BIP 34; [How long](RULES.md#how-long))

```antt
-- a part isn't too long (BIP 34)
abbrev pub Fits : Part → Type 0
Fits part = length part.bytes ≤ most
```

## By standard
"""

    def begin(self) -> None:
        """Makes the small repository the one that is read."""
        room = tempfile.TemporaryDirectory()
        self.addCleanup(room.cleanup)
        self.addCleanup(setattr, repository, "ROOT", repository.ROOT)
        repository.ROOT = room.name
        for path, text in self.FILES.items():
            self.put(path, text)

    def put(self, path: str, text: str) -> None:
        os.makedirs(os.path.dirname(f"{repository.ROOT}/{path}"), exist_ok=True)
        with open(f"{repository.ROOT}/{path}", "w", encoding="utf-8") as file:
            file.write(text)

    def faults(self) -> "list[str]":
        order = repository.crates()
        return list(believe.book_faults(order, definitions.read_specs(order)))

    def page(self) -> str:
        order = repository.crates()
        return believe.book_of(order, definitions.read_specs(order), "node")

    def test_what_is_shown_and_in_which_order(self) -> None:
        self.begin()
        page = self.page()
        self.assertIn(self.SHOWN.strip("\n"), page)
        self.assertIn("2 definitions in 2 files, 4 lines without comments, and 1 types", page)
        self.assertNotIn("unneeded", page)
        self.assertIn("| BIP 34 | [`Fits`](#bytes-fits) |\n| `MAX_PART` | [`most`](#bytes-limit) |\n", page)

    def test_a_page_that_lacks_or_changes_a_line_is_seen(self) -> None:
        self.begin()
        page = self.page()
        self.assertEqual(len(self.faults()), 1, "there is no page")
        for was, now in (
            ("most = 4", "most = 5"), ("abbrev pub most : ℕ\nmost = 4\n", ""), ("Limit.antt#L5", "Limit.antt#L6"),
            ("-- a part isn't too long (BIP 34)\n", ""), ("# The book", "# A book"), ("\n", "\n\n"),
        ):
            with self.subTest(was):
                self.put("docs/BOOK.md", page)
                self.assertEqual(self.faults(), [])
                self.assertIn(was, page)
                self.put("docs/BOOK.md", page.replace(was, now, 1))
                self.assertRegex(" ".join(self.faults()), "^docs/BOOK.md .*docs/believe --book")

    def test_a_definition_that_changes_is_seen(self) -> None:
        self.begin()
        self.put("docs/BOOK.md", self.page())
        for path, was, now, status in (
            ("crates/bytes/specs/Fits.antt", "≤ most", "≤ most + unneeded", 1), ("crates/bytes/specs/Limit.antt", "= 4", "= 5", 1),
            ("crates/bytes/specs/Limit.antt", "-- (", "-- the most (", 1), ("crates/bytes/src/part.rt", "bytes: B", "words: B", 1),
            ("crates/bytes/specs/Fits.antt", "unneeded = 1", "unneeded = 2", 0), ("docs/RULES.md", "How long", "How short", 1),
        ):
            with self.subTest(now):
                self.assertIn(was, self.FILES[path])
                self.put(path, self.FILES[path].replace(was, now))
                self.assertEqual(len(self.faults()), status)
                self.put(path, self.FILES[path])
        self.assertEqual(self.faults(), [])

    def test_each_definition_of_a_node_stands_in_the_page(self) -> None:
        with open(f"{ROOT}/docs/BOOK.md", encoding="utf-8") as file:
            page = file.read()
        shown = self.bare(page)
        specs = definitions.read_specs(repository.crates())
        names = believe.door_names(specs, "node")
        self.assertGreater(len(names), 400)
        for path, name in names:
            with self.subTest(name):
                spec, at = specs[path], f"crates/{'/'.join(path)}.antt"
                self.assertIn(f"[`{name}`](../{at}#L{spec.heads[name] + 1})", page)
                head = repository.read(at).split("\n")[spec.heads[name]]
                self.assertIn(self.bare("\n".join([head, *spec.defs[name].split("\n")[1:]])), shown)

    def bare(self, text: str) -> str:
        """A text without comments and empty lines."""
        lines = (re.sub(r"(^|\s)--.*", "", line).strip() for line in text.split("\n"))
        return "\n".join(line for line in lines if line)

    def test_no_link_of_the_page_is_dead(self) -> None:
        page = repository.read("docs/BOOK.md")
        places = {name: self.places(repository.read(f"docs/{name}.md")) for name in ("BOOK", "RULES", "MAP")}
        links = re.findall(r"\]\(([^)]+)\)", re.sub(r"(?ms)^```.*?^```$", "", page))
        self.assertGreater(len(links), 500)
        for link in links:
            with self.subTest(link):
                path, _, place = link.partition("#")
                if path[-3:] == ".md" and place or not path:
                    self.assertIn(place, places[path[:-3] or "BOOK"])
                else:
                    self.assertTrue(os.path.isfile(f"{ROOT}/docs/{path}"))

    def places(self, page: str) -> "set[str]":
        """The places in a page that links may name."""
        return {book.slug(it) for it in re.findall(r"(?m)^#+ (.*)$", page)} | set(re.findall(r'<a id="([^"]+)">', page))

    def test_links_to_definitions(self) -> None:
        specs = definitions.read_specs(repository.crates())
        line = specs["txn", "specs", "Coinbase"].heads["is_null"] + 1
        path = "crates/txn/specs/Coinbase.antt"
        whole = f"Defined as [`is_null`](../{path}#L{line}) in `{path}`, by [`{path}`](../{path})."
        for text in (f"Defined as `is_null` in `{path}`, by `{path}`.", whole, whole.replace(f"#L{line}", "#L1")):
            with self.subTest(text):
                self.assertEqual(trace.linked(text, specs), (whole, []))
        for text in (whole.replace("is_null", "is_nil"), "As in `crates/txn/specs/Coinbases.antt`."):
            with self.subTest(text):
                self.assertEqual(len(trace.linked(text, specs)[1]), 1)


if __name__ == "__main__":
    unittest.main()
