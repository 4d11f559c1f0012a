"""Edits beside the functions that they change, and what decides whether one still is as it was tried, on a small repository."""

import os
import sys
import tempfile
import unittest
from typing import Dict, List, Tuple

sys.path.insert(0, os.path.dirname(os.path.dirname(os.path.realpath(__file__))))
from sources import alone, edits, repository, seen
from sources.edits import Edit, Variant, batches

FILES = {
    "crates.txt": "low:\nhigh: low\n",
    "crates/low/src/lib.rt": """#![tactic(auto)]
ghost use Rattle.low.specs.Limit.{most};

pub struct Room { pub size: u8 }
pub struct Other { pub size: u8 }

impl Room {
    #[inline]
    pub fn len(&self) -> u8
        ensures { result ≤ most }
    { self.size }

    pub fn grow(&mut self) { self.size = 2; }
}

pub fn spare() -> u8 { 3 }

pub const WIDTH: u8 = 7;

pub fn width() -> u8 { WIDTH }
""",
    "crates/low/specs/Limit.antt": "-- The most.\nabbrev pub most : ℕ\nmost = 9\n",
    "crates/low/specs/Unread.antt": "abbrev pub unread : ℕ\nunread = 1\n",
    "crates/high/src/lib.rt": """use low::Room;

const LAST: u8 = 9;

/// Both.
#[tactic(auto, using(crate::proofs::Sums::summed))]
pub fn both(a: &Room, b: &Room) -> u8 {
    let none = 0;
    a.len() + b.len()
}

pub fn last() -> u8 { LAST }

pub fn room() -> u8 { low::WIDTH }

impl Drop for Kept {
    fn drop(&mut self) { both(); }
}
""",
    "crates/high/proofs/both/Answers.antt": "use Rattle.high.proofs.both.Goals as goal\n\npub returns : goal.returns\n",
    "crates/high/proofs/both/Proof.antt": "use Rattle.high.proofs.both.Statement as stated\npub both_spec : stated.statement\n",
    "crates/high/proofs/Sums.antt": "pub summed : 1 ≡ 1\nsummed = refl\n",
    "crates/high/proofs/Apart.antt": "pub apart : 2 ≡ 2\napart = refl\n",
    "wrong/high/left_alone.edit": "file: src/lib.rt\nold:     a.len() + b.len()\nnew:     a.len() + a.len()\ntwin:     b.len() + a.len()\n",
    "wrong/high/one_more.edit": "file: src/lib.rt\nold: const LAST: u8 = 9;\nnew: const LAST: u8 = 10;\n",
    "wrong/high/less_room.edit": "file: src/lib.rt\nold: { low::WIDTH }\nnew: { low::WIDTH - 1 }\n",
    "wrong/low/one_wider.edit": "file: src/lib.rt\nold: const WIDTH: u8 = 7;\nnew: const WIDTH: u8 = 8;\n",
    "wrong/high/nothing_dropped.edit": "file: src/lib.rt\nold: { both(); }\nnew: { }\n",
}


class Small(unittest.TestCase):
    """A repository of two crates."""

    def setUp(self) -> None:
        room = tempfile.TemporaryDirectory()
        self.addCleanup(room.cleanup)
        self.addCleanup(setattr, repository, "ROOT", repository.ROOT)
        self.addCleanup(setattr, edits, "HERE", edits.HERE)
        repository.ROOT, edits.HERE = room.name, f"{room.name}/wrong"
        for path, text in FILES.items():
            os.makedirs(os.path.dirname(f"{room.name}/{path}"), exist_ok=True)
            repository.write(path, text)
        self.forget()

    def forget(self) -> None:
        seen.definitions.cache_clear()
        seen.exists.cache_clear()
        seen.types.cache_clear()
        seen.units_of.cache_clear()

    def variants(self, *names: Tuple[str, bool]) -> List[Variant]:
        return [Variant(Edit("high", name), as_twin) for name, as_twin in names]


class Together(Small):
    def test_edit_and_twin_stand_beside_the_function(self) -> None:
        (batch,) = batches(self.variants(("left_alone", True), ("left_alone", False)))
        self.assertEqual(batch.functions("high"), {("src/lib.rt", "both_laid0"), ("src/lib.rt", "both_laid1")})
        text = batch.texts("high")["src/lib.rt"]
        for name, body in (("both", "a.len() + b"), ("both_laid0", "b.len() + a"), ("both_laid1", "a.len() + a")):
            self.assertIn(f"fn {name}(a: &Room, b: &Room) -> u8 {{\n    let none = 0;\n    {body}", text)
        self.assertEqual(text.count("#[tactic(auto, using(crate::proofs::Sums::summed))]\npub fn both"), 3)

    def test_what_keeps_its_name_stands_in_place(self) -> None:
        (batch,) = batches(self.variants(("one_more", False), ("nothing_dropped", False)))
        self.assertEqual([it.in_place for it in batch.trials], [True, True])
        self.assertEqual(batch.functions("high"), {("src/lib.rt", "last"), ("src/lib.rt", "KeptDrop::drop")})
        self.assertEqual([len(it.trials) for it in batches(self.variants(("one_more", False), ("one_more", True)))], [1, 1])

    def test_what_reads_a_changed_constant_stands_apart(self) -> None:
        """In a crate above it too."""
        wider, less = Variant(Edit("low", "one_wider"), False), Variant(Edit("high", "less_room"), False)
        for variants in ([wider, less], [less, wider]):
            self.assertEqual([len(it.trials) for it in batches(variants)], [1, 1])

    def test_proofs_are_laid_for_copies(self) -> None:
        (batch,) = batches(self.variants(("left_alone", False)))
        with tempfile.TemporaryDirectory() as room:
            laid = alone.Laid(room, ["high"])
            laid.copy_proof("high", batch.copies["high"][0])
            folder = f"{room}/high/proofs/both_laid0"
            self.assertIn("use Rattle.high.proofs.both_laid0.Goals as goal\n", repository.text_of(f"{folder}/Answers.antt"))
            self.assertIn("proofs.both_laid0.Statement as stated\npub both_laid0_spec :", repository.text_of(f"{folder}/Proof.antt"))


class Seen(Small):
    def changes(self, path: str, old: str, new: str) -> bool:
        """Whether another text there changes what is seen of the edit `left_alone`."""
        before = seen.reached(Edit("high", "left_alone"))
        assert before is not None and old in FILES[path]
        repository.write(path, FILES[path].replace(old, new))
        self.forget()
        after = seen.reached(Edit("high", "left_alone"))
        repository.write(path, FILES[path])
        self.forget()
        return bool(before != after)

    def test_what_counts(self) -> None:
        counts: Dict[Tuple[str, str, str], bool] = {
            ("crates/high/src/lib.rt", "let none = 0", "let none = 1"): True,
            ("crates/high/src/lib.rt", "/// Both.", "/// Both of them."): False,
            ("crates/high/src/lib.rt", "u8 { LAST }", "u8 { 1 }"): False,
            ("crates/high/proofs/both/Answers.antt", "goal.returns", "goal.other"): True,
            ("crates/high/proofs/Sums.antt", "refl", "other"): True,
            ("crates/high/proofs/Apart.antt", "refl", "other"): False,
            ("crates/low/src/lib.rt", "result ≤ most", "result < most"): True,
            ("crates/low/src/lib.rt", "{ self.size }", "{ 1 }"): False,
            ("crates/low/src/lib.rt", "Room { pub size: u8 }", "Room { pub size: u16 }"): True,
            ("crates/low/src/lib.rt", "Other { pub size: u8 }", "Other { pub size: u16 }"): False,
            ("crates/low/src/lib.rt", "spare() -> u8", "spare() -> u16"): False,
            ("crates/low/src/lib.rt", "grow(&mut self)", "grow(&self)"): False,
            ("crates/low/specs/Limit.antt", "most = 9", "most = 8"): True,
            ("crates/low/specs/Limit.antt", "-- The most.", "-- It."): False,
            ("crates/low/specs/Unread.antt", "unread = 1", "unread = 2"): False,
        }
        for (path, old, new), expected in counts.items():
            with self.subTest(f"{path}: {new}"):
                self.assertEqual(self.changes(path, old, new), expected)


if __name__ == "__main__":
    unittest.main()
