"""Tests of picture.py: python3 -m unittest discover tools. Assumes Python 3.9 or newer and its standard library."""

import sys
import unittest
import xml.etree.ElementTree as tree
from fractions import Fraction
from pathlib import Path

sys.path.insert(0, str(Path(__file__).resolve().parent))
import jobfile
import picture

ROOT = Path(__file__).resolve().parent.parent
SQUARE, BOW = [(0, 0), (1000, 0), (1000, 1000), (0, 1000)], [(0, 0), (1000, 1000), (1000, 0), (0, 1000)]


def drawn(name):
    text = picture.main([str(ROOT / "examples" / (name + ending)) for ending in (".txt", ".out")])
    return text, tree.fromstring(text)


def of(root, tag, **wanted):
    return [part for part in root.iter("{http://www.w3.org/2000/svg}" + tag) if all(part.get(name.replace("_", "-")) == value for name, value in wanted.items())]


def words(root):
    return [part.text for part in of(root, "text")]


class Lobes(unittest.TestCase):
    def test_square_is_one_clockwise_lobe(self):
        self.assertEqual([picture.area2(lobe) for lobe in picture.lobes(SQUARE)], [2_000_000])
        self.assertEqual([picture.area2(lobe) for lobe in picture.lobes(SQUARE[::-1])], [-2_000_000])

    def test_bow_tie_is_two_lobes_of_opposite_sign(self):
        lobes = picture.lobes(BOW)
        self.assertEqual(sorted(picture.area2(lobe) for lobe in lobes), [-500_000, 500_000])
        self.assertTrue(all((Fraction(500), Fraction(500)) in lobe for lobe in lobes))

    def test_lobes_add_up_to_the_ring(self):
        for ring in (SQUARE, BOW, [(0, 0), (70, 40), (0, 80), (50, 10), (60, 90)], [(0, 0), (9, 9), (0, 9), (9, 0), (4, 12), (3, -5)]):
            self.assertEqual(sum(picture.area2(lobe) for lobe in picture.lobes(ring)), picture.area2(ring))


class Pictures(unittest.TestCase):
    def test_square(self):
        _, root = drawn("square")
        self.assertIn("field 1, 4 corners: 1 m², clockwise", words(root))
        self.assertEqual(len(of(root, "polygon")), 1)
        for answer, (fill, stroke) in picture.NOZZLE_LOOK.items():
            self.assertEqual(len(of(root, "circle", fill=fill, stroke=stroke)), 2, answer + ": the nozzle and its legend")

    def test_bow_tie_shows_the_crossing_edges_in_red(self):
        _, root = drawn("bow_tie")
        self.assertEqual(len(of(root, "line", stroke=picture.RED)), 2)
        self.assertEqual(len(of(root, "polygon", fill=picture.CLOCKWISE)), 1)
        self.assertEqual(len(of(root, "polygon", fill=picture.ANTICLOCKWISE)), 1)
        for said in ("edge 0", "edge 2", "+", "−", "field 1, 4 corners: refused 9: edges 0 and 2"):
            self.assertIn(said, words(root))

    def test_north_is_up_and_east_is_right(self):
        found = picture.panels(jobfile.from_text((ROOT / "examples/square.txt").read_text()), (ROOT / "examples/square.out").read_text())
        view = picture.View(found[0])
        south_west, north_west, south_east = view.at((0, 0)), view.at((1000, 0)), view.at((0, 1000))
        self.assertLess(north_west[1], south_west[1])
        self.assertLess(south_west[0], south_east[0])

    def test_each_field_has_its_panel(self):
        _, root = drawn("two_fields")
        self.assertEqual(len(of(root, "g")), 2)
        self.assertEqual(len(of(root, "circle", stroke=picture.NOZZLE_LOOK["shut"][1])), 2)

    def test_every_example_is_drawn(self):
        for output in sorted((ROOT / "examples").glob("*.out")):
            text = output.with_suffix(".txt").read_text(encoding="utf-8")
            if any(line.startswith("field ") for line in text.splitlines()):
                self.assertTrue(drawn(output.stem)[0].endswith("</svg>\n"), output.stem)

    def test_refusals_before_the_ring_is_closed(self):
        job = jobfile.from_text("field 1\ncorner 0 0\ncorner 5 5\ncorner 10000000001 0\nclose\n")
        (panel,) = picture.panels(job, "refused 7 at 36\n")
        self.assertEqual((panel.said, panel.corners), ("refused 7", [(0, 0), (5, 5)]))

    def test_output_of_another_job(self):
        job = jobfile.from_text((ROOT / "examples/square.txt").read_text())
        for output in ("", "end 9\n", "field 2 corners 4 area2 2000000\n", "field 1 corners 4 area2 2000000\nnozzle 1 1 open\n"):
            with self.assertRaises(jobfile.Unreadable):
                picture.panels(job, output)

    def test_the_readme_picture_is_the_script_s(self):
        kept = ROOT / "docs/pictures/bow_tie.svg"
        names = [str(ROOT / "examples" / name) for name in ("square.txt", "square.out", "bow_tie.txt", "bow_tie.out")]
        self.assertEqual(kept.read_text(encoding="utf-8"), picture.main(names))


if __name__ == "__main__":
    unittest.main()
