"""Pictures of the pages: bench/results.svg is what is drawn of bench/results.md, and each has a card for light pages and dark ones."""
from __future__ import annotations

import os
import re
import subprocess
import sys
import tempfile
import unittest
import xml.etree.ElementTree as xml

ROOT = os.path.dirname(os.path.dirname(os.path.dirname(os.path.realpath(__file__))))
SVG = "{http://www.w3.org/2000/svg}"
PICTURES = ("bench/results.svg", "docs/picture.svg", "docs/replicas.svg")


def read(path: str) -> str:
    with open(os.path.join(ROOT, path), encoding="utf-8") as file:
        return file.read()


def checked(folder: str) -> "subprocess.CompletedProcess[str]":
    words = [os.path.join(folder, "drawing.py"), "--check"]
    return subprocess.run(words, capture_output=True, text=True, env={**os.environ, "PYTHONDONTWRITEBYTECODE": "1"})


def of_felt(text: str) -> str:
    """What bench/felt.py puts first into the results."""
    sys.path.insert(0, os.path.join(ROOT, "bench"))
    import felt

    return felt.section(text)


def extent(text: xml.Element) -> tuple[float, float, float]:
    """A text's base, and about where it begins and ends."""
    size = 14 if text.get("class") == "head" else 11.5
    width, x = 0.55 * size * len("".join(text.itertext())), float(text.get("x", ""))
    left = x - width * {"end": 1, "middle": 0.5}.get(text.get("text-anchor", ""), 0)
    return float(text.get("y", "")), left, left + width


class Drawings(unittest.TestCase):
    def test_results_are_drawn_as_they_stand(self) -> None:
        ran = checked(os.path.join(ROOT, "bench"))
        self.assertEqual((ran.returncode, ran.stderr), (0, ""))

    def test_results_say_first_what_their_tables_have(self) -> None:
        ran = subprocess.run([os.path.join(ROOT, "bench/felt.py"), "--check"], capture_output=True, text=True)
        self.assertEqual((ran.returncode, ran.stderr), (0, ""))
        told = of_felt(
            "| read-coin-4 | 100,000 | | 0.080000 | 0.160000 | 0.50 | 1, met |\n"
            "| submit | 25 | | 0.500000 | 0.250000 | 2.00 | 1, missed |\n"
            "| keep-coins | a coin of one script byte, a node of 100,000 to 200,000 | 27 | 434 | 185 | 340, missed |\n"
            "| keep-coins | of 400,000 to 800,000 | 27 | 310 | 140 | 340, met |\n"
            "## Beside a real node\n"
            "| payments | 200 | `litecoind` | 10.000 | 14.02 | 119 | 63 |\n| | | `regchain serve` | 8.000 | 9.22 | 234 | 0 |\n"
        )
        for line in (
            "| the same, four seats (`read-coin-4`) | 5,000,000 | 2,500,000 |",
            "| blocks of 2,000 payments a second, from bytes to published coins (`submit`) | 50 | 100 |",
            "| bytes a coin in a node, where most (`keep-coins`) | 434 | 185 |",
            "- blocks of 2,000 payments a second, by [whole programs](#beside-a-real-node): `litecoind` 20, `regchain serve` 25.",
        ):
            self.assertIn(line, told.splitlines())

    def test_a_picture_of_other_results_is_refused(self) -> None:
        with tempfile.TemporaryDirectory() as room:
            for name in ("drawing.py", "results.md", "results.svg"):
                text = read(f"bench/{name}")
                with open(os.path.join(room, name), "w", encoding="utf-8") as file:
                    file.write(text.replace("| 0.69 |", "| 0.70 |") if name == "results.md" else text)
            os.chmod(os.path.join(room, "drawing.py"), 0o755)
            self.assertEqual(checked(room).returncode, 1)

    def test_each_row_with_a_goal_is_drawn(self) -> None:
        """By its name, size and ratio; the table of memory has bytes, and no ratio."""
        front = read("bench/results.md").partition("Bytes that one more takes")[0]
        rows = re.findall(r"^\| (\S+) \| ([\d,]+) \|.*\| (\d+\.\d\d) \| [\d.]+, (?:met|missed) \|$", front, re.M)
        self.assertGreater(len(rows), 60)
        texts = list(xml.fromstring(read("bench/results.svg")).iter(f"{SVG}text"))
        drawn = [
            ((text.text or "").strip(), text[0].text, ratio.text)
            for text, ratio in zip(texts, texts[1:])
            if text.get("text-anchor") == "end"
        ]
        self.assertEqual(sorted(drawn), sorted(rows))

    def test_no_two_texts_of_results_lie_on_each_other(self) -> None:
        texts = [extent(text) for text in xml.fromstring(read("bench/results.svg")).iter(f"{SVG}text")]
        self.assertGreater(len(texts), 150)
        for place, (base, left, end) in enumerate(texts):
            for other, x, right in texts[place + 1 :]:
                self.assertTrue(abs(other - base) >= 12 or end < x or right < left, (base, left, end, other, x, right))

    def test_each_picture_has_a_card_for_light_and_dark(self) -> None:
        for name in PICTURES:
            with self.subTest(name):
                picture = xml.fromstring(read(name))
                light, _, dark = picture.findtext(f"{SVG}style", "").partition("@media (prefers-color-scheme: dark)")
                _, _, width, height = picture.get("viewBox", "").split()
                page = picture.find(f"{SVG}rect")
                assert page is not None
                self.assertEqual((page.get("class"), page.get("width"), page.get("height")), ("page", width, height))
                for rules in (light, dark):
                    self.assertRegex(rules, r"\.page \{ fill: #")
                    self.assertRegex(rules, r"text \{ fill: #|\.head \{[^}]*fill: #")


if __name__ == "__main__":
    unittest.main()
