"""Pictures of block trees, as they are seen: where shapes, lines and names lie. Each check is tried on pictures with a planted fault."""
from __future__ import annotations

import random
import re
import xml.etree.ElementTree as xml
from typing import NamedTuple

from running import ProgramTest, lines

SVG = "{http://www.w3.org/2000/svg}"


class Shape(NamedTuple):
    """A block or several: its box, the blocks that it says it has, and the heights of the first and the last."""

    left: int
    right: int
    y: int
    count: int
    first: int
    last: int
    name: str
    # How many pixels a letter of the name is high.
    size: int
    kind: str

    def meets(self, left: int, right: int, y: int) -> bool:
        return abs(self.y - y) < 12 and left < self.right and self.left < right


class Line(NamedTuple):
    """A line: from a point, to where it turns, to another row, to its end."""

    x: int
    y: int
    turn: int
    bottom: int
    end: int
    kind: str


def shape_of(group: xml.Element) -> Shape:
    drawn, texts = group[1], list(group.iter(f"{SVG}text"))
    if drawn.tag == f"{SVG}circle":
        x, y, width = int(drawn.get("cx")) - 9, int(drawn.get("cy")), 18
    elif drawn.tag == f"{SVG}path":
        x, y = map(int, re.match(r"M(\d+) (\d+)l12", drawn.get("d")).groups())
        width = 24
    else:
        x, y, width = int(drawn.get("x")), int(drawn.get("y")) + 9, int(drawn.get("width"))
    number = re.search(r"\d+", texts[0].text) if len(texts) == 3 else None
    count = int(number[0]) if number else 1
    heights = [int(it) for it in texts[-1].text.split(" to ")]
    last = heights[-1] if len(heights) > 1 else heights[0] + count - 1
    size = 10 if texts[-2].get("class") == "pair" else 12
    return Shape(x, x + width, y, count, heights[0], last, texts[-2].text, size, group.get("class"))


def shapes_of(picture: xml.Element) -> list[Shape]:
    """Those of the tree; a group of the legend has no title."""
    return [shape_of(group) for group in picture.iter(f"{SVG}g") if group.find(f"{SVG}title") is not None]


def lines_of(picture: xml.Element) -> list[Line]:
    found = []
    for path in picture.findall(f"{SVG}path"):
        at = [int(it) for it in re.findall(r"\d+", path.get("d"))]
        x, y, turn, bottom, end = at if len(at) == 5 else (at[0], at[1], at[2], at[1], at[2])
        found.append(Line(x, y, turn, bottom, end, path.get("class")))
    return found


def faults(picture: xml.Element, blocks: int) -> list[str]:
    """What is wrong with a picture of so many blocks."""
    shapes, drawn = shapes_of(picture), lines_of(picture)
    kept = [shape for shape in shapes if shape.kind != "below"]
    found = []
    if sum(shape.count for shape in kept) != blocks:
        found.append("blocks are missing")
    # The lowest of the active branch, genesis or a stub, and the other stubs, are built on nothing that is drawn.
    if len(drawn) != len(kept) - (len(kept) == len(shapes)):
        found.append("a shape without a line, or with two")
    return found + on_each_other(shapes) + named_on_each_other(shapes) + led_wrong(shapes, drawn) + crossed(shapes, drawn) + outside(picture, shapes)


def on_each_other(shapes: list[Shape]) -> list[str]:
    row = sorted((shape.y, shape.left, shape.right) for shape in shapes)
    return [f"on each other: {a} {b}" for a, b in zip(row, row[1:]) if a[0] == b[0] and b[1] <= a[2]]


def named_on_each_other(shapes: list[Shape]) -> list[str]:
    """As wide as letters of DejaVu Sans are: none of these names has a wider one than a digit."""
    def width(shape: Shape) -> float:
        return shape.size * sum(0.32 if letter in " ." else 1 if letter == "…" else 0.64 for letter in shape.name)

    row = sorted((shape.y, (shape.left + shape.right) / 2, width(shape)) for shape in shapes)
    return [f"names on each other: {a} {b}" for a, b in zip(row, row[1:]) if a[0] == b[0] and a[1] + a[2] / 2 > b[1] - b[2] / 2]


def led_wrong(shapes: list[Shape], drawn: list[Line]) -> list[str]:
    """Each line leads from a shape to one that begins a height above the first one's end, except for a stub's."""
    found = []
    for line in drawn:
        below = [shape for shape in shapes if shape.y == line.y and shape.left <= line.x <= shape.right]
        above = [shape for shape in shapes if shape.y == line.bottom and shape.left <= line.end <= shape.right]
        if len(below) != 1 or len(above) != 1 or line.turn < line.x or line.end < line.turn:
            found.append(f"leads nowhere: {line}")
        elif (below[0].kind == "below") != (line.kind == "dotted"):
            found.append(f"dotted, or not: {line}")
        elif line.kind != "dotted" and above[0].first != below[0].last + 1:
            found.append(f"another parent: {line}")
    return found


def crossed(shapes: list[Shape], drawn: list[Line]) -> list[str]:
    """A line meets no shape but those at its ends, and crosses no other line."""
    found = []
    for line in drawn:
        own = (line.x, line.y), (line.end, line.bottom)
        for shape in shapes:
            if any(shape.y == y and shape.left <= x <= shape.right for x, y in own):
                continue
            is_across = shape.meets(line.x, line.turn, line.y) or shape.meets(line.turn, line.end, line.bottom)
            is_down = line.y < shape.y < line.bottom and shape.left <= line.turn <= shape.right
            if is_across or is_down:
                found.append(f"a line over a shape: {line} {shape}")
        for other in drawn:
            across = [(other.y, other.x, other.turn), (other.bottom, other.turn, other.end)]
            if any(line.y < y < line.bottom and x < line.turn < end for y, x, end in across):
                found.append(f"lines cross: {line} {other}")
            is_same = (line.x, line.y) == (other.x, other.y) or line.turn != other.turn
            if not is_same and line.y < other.bottom and other.y < line.bottom and other.y < other.bottom:
                found.append(f"lines on each other: {line} {other}")
    return found


def outside(picture: xml.Element, shapes: list[Shape]) -> list[str]:
    width, height = int(picture.get("width")), int(picture.get("height"))
    return [f"outside: {it}" for it in shapes if it.left < 5 or it.right > width - 5 or it.y < 20 or it.y > height - 40]


def forks(active: int, stale: list[tuple[int, int]]) -> tuple[str, int]:
    """A scenario of an active branch, and others that begin on its blocks and have so many; and how many blocks there are."""
    text, played = [f"chain c {active} genesis"], [f"each c 1 {active}"]
    for place, (on, count) in enumerate(stale):
        text.append(f"chain s{place}_ {count} c{on}")
        played.append(f"each s{place}_ 1 {count}")
    return lines(*text, "client a", *played), 1 + active + sum(count for _, count in stale)


def bushy(blocks: int, seed: int) -> tuple[str, int]:
    """A scenario in which each block is on one of the last that came; two are marked."""
    deal, text, names = random.Random(seed), [], ["genesis"]
    for place in range(blocks - 1):
        text.append(f"block r{place} {names[max(0, len(names) - 1 - int(deal.expovariate(0.5)))]}")
        names.append(f"r{place}")
    marks = [f"invalidate {name}" for name in deal.sample(names[len(names) // 2 :], min(2, blocks // 2))]
    return lines(*text, "client a", *(f"submit {name}" for name in names[1:]), *marks), blocks


class TreePictures(ProgramTest):
    def drawn(self, text: str, *words: str) -> xml.Element:
        played = self.play(["tree", "--scenario", "-", "--svg", "tree.svg", *words], text)
        self.assertEqual((played.status, played.err), (0, ""))
        return xml.fromstring(self.read_bytes("tree.svg"))

    def size(self, picture: xml.Element) -> tuple[int, int]:
        return int(picture.get("width")), int(picture.get("height"))

    def test_a_thousand_blocks_with_forks(self) -> None:
        """Below 600 pixels high, and sanely wide: forks beside each other share a row."""
        text, blocks = forks(612, [(5 + 6 * place, place % 7 + 1) for place in range(97)])
        self.assertGreater(blocks, 990)
        for words in ([], ["--fold", "always"], ["--fold", "never"]):
            with self.subTest(words=words):
                picture = self.drawn(text, *words)
                self.assertEqual(faults(picture, blocks), [])
                self.assertLess(self.size(picture)[1], 600)
                self.assertLess(self.size(picture)[0], 20_000 if "never" in words else 8_000)

    def test_forks_on_each_block(self) -> None:
        text, blocks = forks(60, [(on, on % 7 + 1) for on in range(1, 60)])
        for words in ([], ["--fold", "never"]):
            picture = self.drawn(text, *words)
            self.assertEqual(faults(picture, blocks), [])
            self.assertEqual(self.size(picture)[1] < 600, words == [])

    def test_bushy_trees(self) -> None:
        for blocks, seed in [(2, 1), (12, 2), (40, 3), (100, 4), (100, 5), (1000, 6)]:
            text, _ = bushy(blocks, seed)
            for words in ([], ["--fold", "always"], ["--fold", "never"]):
                with self.subTest(blocks=blocks, seed=seed, words=words):
                    self.assertEqual(faults(self.drawn(text, *words), blocks), [])

    def test_a_large_picture_is_folded(self) -> None:
        """In one with more than 64 columns or 6 rows a branch is one shape; in a smaller one each of its blocks is."""
        for stale, is_folded in [([(1, 3)] * 5, False), ([(1, 3)] * 6, True), ([(2 * it + 1, 1) for it in range(20)], False), ([(2 * it + 1, 1) for it in range(40)] + [(70, 2)], True)]:
            text, blocks = forks(90, stale)
            picture = self.drawn(text)
            self.assertEqual(faults(picture, blocks), [])
            names = [group[0].text for group in picture.iter(f"{SVG}g") if group[0].tag == f"{SVG}title"]
            last = f"s{len(stale) - 1}_"
            self.assertEqual(any(name.startswith(f"{last}1 .. ") for name in names), is_folded)

    def test_a_part(self) -> None:
        """The shapes from a height on, and a stub for each branch that starts below it."""
        text, _ = forks(30, [(5, 20), (12, 2), (22, 3)])
        for words in (["--from", "20"], ["--last", "11"]):
            picture = self.drawn(text, *words)
            self.assertEqual(faults(picture, 11 + 6 + 3), [])
            stubs = [(shape.name, shape.first) for shape in shapes_of(picture) if shape.kind == "below"]
            self.assertEqual(stubs, [("c19", 19), ("c5", 5)])
        whole, same = self.drawn(text), self.drawn(text, "--last", "31")
        self.assertEqual(xml.tostring(whole), xml.tostring(same))

    def test_the_legend_explains_each_shape(self) -> None:
        """By a shape of each class, whose words say its colour as it is drawn on both pages."""
        picture = self.drawn("client a\n")
        style = picture.find(f"{SVG}style").text
        told = {}
        for group in picture.iter(f"{SVG}g"):
            if group[0].tag != f"{SVG}title":
                words = [it.text for it in group.iter(f"{SVG}text") if it.get("class") == "meaning"]
                self.assertEqual(len(words), 1)
                told.setdefault(group.get("class"), words[0])
        wanted = {"active": "green", "valid-fork": "blue", "valid-headers": "grey", "invalid": "red", "mixed": "violet", "below": "dotted"}
        self.assertEqual(set(told), set(wanted))
        for kind, color in wanted.items():
            self.assertIn(color, told[kind])
            for red, green, blue in re.findall(rf"\.{kind}{{fill:#(\w\w)(\w\w)(\w\w)", style):
                r, g, b = int(red, 16), int(green, 16), int(blue, 16)
                seen = {"green": g > r and g > b, "blue": b > g > r, "grey": max(r, g, b) - min(r, g, b) < 24, "red": r > g and r > b,
                        "violet": b > r > g, "dotted": True}
                self.assertTrue(seen[color], kind)
            self.assertEqual(len(re.findall(rf"\.{kind}{{fill", style)), 2)

    def test_planted_faults_are_seen(self) -> None:
        """A shape on another, a line through one, a lost block, a lost line, a name over the next, and a line to another parent."""
        text, blocks = forks(20, [(3, 2), (9, 5), (9, 1), (10, 2)])
        self.write("scenario.txt", text)
        self.drawn(text, "--fold", "never")
        plain = self.read_bytes("tree.svg").decode()
        self.assertEqual(faults(xml.fromstring(plain), blocks), [])
        group = re.search(r'<g class="[^"]*"><title>s0_2,.*?</g>\n', plain)[0]
        line = re.search(r'<path class="line" d="M\d+ \d+H\d+V\d+H\d+"/>\n', plain)[0]
        at = [int(it) for it in re.findall(r"\d+", line)]
        rows = sorted({shape.y for shape in shapes_of(xml.fromstring(plain))})
        for kind, other in [
            ("blocks are missing", plain.replace(group, "")),
            ("a shape without a line", plain.replace(line, "")),
            ("on each other", re.sub(r'(title>s0_2,.*?(?:x|cx)=")(\d+)', lambda it: it[1] + str(int(it[2]) - 104), plain)),
            ("a line over a shape", plain.replace(f"V{at[3]}H{at[4]}", f"V{rows[-1]}H{at[4]}")),
            ("leads nowhere", plain.replace(f"V{at[3]}H{at[4]}", f"V{at[3]}H{at[4] + 40}")),
            ("another parent", plain.replace(f'd="M{at[0]} ', f'd="M{at[0] - 104} ')),
            ("names on each other", plain.replace(">s0_1<", ">" + "s0_1" * 6 + "<")),
        ]:
            self.assertNotEqual(other, plain, kind)
            found = faults(xml.fromstring(other), blocks)
            self.assertTrue(any(kind in it for it in found), (kind, found))
