"""The reader of sources, by texts and values written by hand."""

import os
import sys
import tempfile
import unittest

sys.path.insert(0, os.path.dirname(os.path.dirname(os.path.realpath(__file__))))
import style
from sources import repository
from sources.definitions import Spec, Specs, reach
from sources.edits import function_at, lines_of, name_of
from sources.rattle import Function, Module, bare, blocks, functions, imports, is_for_c, line_of, parts, plain

SOURCE = r'''//! A source, with fn nothing() { in a comment.
ghost use Rattle.wire.specs.Grammar.{Spells, spelled as written};
ghost use Rattle.wire.specs.Reading as reading;
use wire::Reader;

const OPEN: &str = "{ fn no() {";

/// Turns `{` round.
pub(crate) fn turned<'a, F: Fn(u8, &'a [u8]) -> Option<Vec<u8>>, const N: usize>(
    first: (u8, u8),
    // not, a, parameter
    mut each: F,
    rows: &'a [[u8; 4]],
) -> Result<(u8, u8), [u8; 2]>
where
    F: Send,
    requires callable { IsAlwaysCallable each.now }
    // ensures { a comment }
    ensures { IfOk result (λ done.
        done ≡ record { left = first.1 }) }
{
    let open = '{';
    let close = each(first.0, |x| requires { x ≡ '}' } ensures { result ≡ x } { x });
    /* } /* nested } */ } */
    b'}'
}

impl<'a, T: Base + Fn(u8) -> u8, K> wire::Spells<K, Vec<T>> for &'a mut Room<T>
where
    T: Send,
{
    ghost view = { self.rows };

    /// Its length.
    fn len(&self) -> usize { self.rows }
}

pub trait Crew<S: Judges>: Send {
    fn run(&'a mut self, n: u8)
        ensures { result' ≡ n };
    fn stop(self: &Self) {}
}

pub(crate) struct Room<T> {
    rows: T,
}

impl Room<u8> {
    const fn new() -> Self {
        Room { rows: 0 }
    }
}

#[unsafe(no_mangle)]
pub unsafe extern "C" fn ffi_len() -> u8 {
    0
}
'''

SPEC = """-- What is spelled.
use Rattle.std.specs.Prelude.{ℕ, ◌+◌ as ◌plus◌, if◌then◌}
use Rattle.wire.specs.Limit as limit

-- a comment with abbrev no : ℕ
abbrev pub most : ℕ   -- behind it
most = limit.far plus 1

module _ (rows : List) where
  record Fits where
    width : ℕ

pub lemma : most ≡ most
lemma = refl
"""


def named(name: str) -> Function:
    return next(it for it in functions(SOURCE) if it.name == name)


class Bare(unittest.TestCase):
    def test_what_is_blank(self) -> None:
        for text, left in (
            ('a "{\\"}" b', 'a "    " b'),
            ('r#"a " {"# b"x" br"\\"', 'r#"     "# b" " br" "'),
            ("'{' '\\'' '\\u{7d}' b'\"' 'a", "' ' '  ' '      ' b' ' 'a"),
            ("<'a, 'b>(x: &'a u8, 'c')", "<'a, 'b>(x: &'a u8, ' ')"),
            ("let put' = f' x' in 'y'", "let put' = f' x' in ' '"),
            ("a // isn't {\nb", "a           \nb"),
            ("a /* { /* } */\n ' */ b", "a             \n      b"),
            ('"// no comment" /', '"             " /'),
            ('"two\nlines"', '"   \n     "'),
        ):
            with self.subTest(text):
                self.assertEqual(bare(text), left)

    def test_texts_may_be_kept(self) -> None:
        self.assertEqual(bare('"a {b}" // c', keeps_texts=True), '"a {b}"     ')


class Functions(unittest.TestCase):
    def test_which_there_are(self) -> None:
        found = [(it.words, name_of(it), len(it.parameters), len(it.clauses), it.body is not None) for it in functions(SOURCE)]
        self.assertEqual(found, [
            ("pub(crate) ", "turned", 3, 2, True), ("", "RoomSpellsKVec::len", 0, 0, True), ("", "Crew::run", 1, 1, False),
            ("", "Crew::stop", 0, 0, True), ("const ", "Room::new", 0, 0, True), ('pub unsafe extern " " ', "ffi_len", 0, 0, True),
        ])

    def test_parameters(self) -> None:
        self.assertEqual(named("turned").parameters, ["first: (u8, u8)", "mut each: F", "rows: &'a [[u8; 4]]"])
        self.assertEqual(parts("a: Map<u8, (u8, u8)>, f: fn(u8) -> [u8; 2],"), ["a: Map<u8, (u8, u8)>", "f: fn(u8) -> [u8; 2]"])

    def test_clauses(self) -> None:
        first, second = named("turned").clauses
        self.assertEqual((first.word, first.text), ("requires", " IsAlwaysCallable each.now "))
        self.assertEqual((second.word, second.text), ("ensures", " IfOk result (λ done.\n        done ≡ record { left = first.1 }) "))
        self.assertEqual((line_of(SOURCE, second.begin), line_of(SOURCE, second.end)), (19, 20))
        self.assertEqual(named("run").clauses[0].text, " result' ≡ n ")

    def test_where_they_begin_and_end(self) -> None:
        lines = {it.name: (line_of(SOURCE, it.begin), line_of(SOURCE, it.end)) for it in functions(SOURCE)}
        self.assertEqual(lines, {"turned": (9, 26), "len": (35, 35), "run": (39, 40), "stop": (41, 41), "new": (49, 51), "ffi_len": (55, 57)})
        body = named("len").body
        assert body is not None
        self.assertEqual(SOURCE[body.start : body.stop], " self.rows ")
        self.assertEqual(lines_of(SOURCE, "Room::new"), range(49, 52))

    def test_the_one_at_a_place(self) -> None:
        for text, name in (("let open", "turned"), ("fn stop", "Crew::stop"), ("    const fn new", "Room::new"), ("const OPEN", ""), ("rows: T", "")):
            with self.subTest(text):
                self.assertEqual(function_at(SOURCE, SOURCE.index(text)), name)

    def test_measures(self) -> None:
        self.assertEqual({name: tuple(style.measured(SOURCE, named(name)).values()) for name in ("turned", "run", "stop", "new")}, {
            "turned": (3, 2, 51, 4), "run": (1, 1, 32, 0), "stop": (0, 0, 0, 0), "new": (0, 0, 0, 1),
        })

    def test_those_for_c(self) -> None:
        self.assertEqual([it.name for it in functions(SOURCE) if is_for_c(SOURCE, it)], ["ffi_len"])


class Blocks(unittest.TestCase):
    def test_what_is_told_of_each(self) -> None:
        self.assertEqual([tuple(it[:4]) + (line_of(SOURCE, it.begin), line_of(SOURCE, it.end)) for it in blocks(SOURCE)], [
            ("impl", "<'a, T: Base + Fn(u8) -> u8, K>", "wire::Spells<K, Vec<T>>", "&'a mut Room<T>", 28, 36),
            ("trait", "", "", "Crew<S: Judges>: Send", 38, 42), ("struct", "", "", "Room<T>", 44, 46), ("impl", "", "", "Room<u8>", 48, 52),
        ])

    def test_plain_names(self) -> None:
        for text, name in (("&'a mut wire::Room<T>", "Room"), ("dyn Gate + Send", "Gate"), ("[u8]", "")):
            with self.subTest(text):
                self.assertEqual(plain(text), name)


class Definitions(unittest.TestCase):
    def test_use_lines(self) -> None:
        self.assertEqual(imports(SOURCE.split("\n")), {
            "Spells": (("wire", "specs", "Grammar"), "Spells"), "written": (("wire", "specs", "Grammar"), "spelled"),
            "reading": (("wire", "specs", "Reading"), None),
        })

    def test_definitions(self) -> None:
        spec = Spec(SPEC)
        self.assertEqual(spec.defs, {
            "most": " abbrev pub most : ℕ  \nmost = limit.far plus 1\n", "Fits": "(rows : List)   record Fits where\n    width : ℕ\n",
            "lemma": " pub lemma : most ≡ most\nlemma = refl\n",
        })
        self.assertEqual((spec.heads, spec.under, spec.records), ({"most": 5, "Fits": 9, "lemma": 12}, {"Fits": 8}, {"Fits"}))

    def test_what_a_clause_leads_to(self) -> None:
        limit: Module = ("wire", "specs", "Limit")
        specs: Specs = {("wire", "specs", "Spelled"): Spec(SPEC), limit: Spec("abbrev pub far : ℕ\nfar = 2\n\nabbrev pub near : ℕ\nnear = 1\n")}
        names = imports(["ghost use Rattle.wire.specs.Spelled.{most};"])
        self.assertEqual(reach(specs, [("result ≡ most", names)]), {(("wire", "specs", "Spelled"), "most"), (limit, "far")})
        self.assertEqual(reach(specs, [("result ≡ mostly", names)]), set())


class Crates(unittest.TestCase):
    def test_lines(self) -> None:
        with tempfile.TemporaryDirectory() as room:
            with open(f"{room}/crates.txt", "w", encoding="utf-8") as file:
                file.write("# low: no\nlow: sha2 # kit\nffi staticlib: low\n\n")
            self.assertEqual(repository.listed(room), {"low": ("low: sha2 # kit\n", ["sha2"]), "ffi": ("ffi staticlib: low\n", ["low"])})


if __name__ == "__main__":
    unittest.main()
