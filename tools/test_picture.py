"""Pictures of frame reports: what they say, and that nothing in them covers anything else."""

import random
import unittest
import xml.etree.ElementTree as ElementTree
from collections import Counter, namedtuple
from itertools import combinations

import drawing
import histogram
import picture
import sort_frames
from limits import ROUNDS_LIMIT
from ranges import Ranges
from sort_frames import Sorted

SVG = "{http://www.w3.org/2000/svg}"
TOTALS = [1, 10, 99_999, 100_000, 10_000_000, 999_999_999]
CHECKS = [1, 3, 39, 64, 324, 2048]
LONG_TITLE = "Buoy 7 & 8, winter season " * 12

Box = namedtuple("Box", "left top right bottom what")


class Frames(Ranges):
    """So many frames, whatever their numbers."""

    def __init__(self, count):
        super().__init__()
        self.count = count


def found(checks, rounds, cuts, wrong=None, spent=0, refusals=()):
    """Sorted frames by their counts."""
    certified = sum(rounds.values())
    refusals = Counter(dict(refusals))
    return Sorted((2048, checks, 8192), None, wrong is not None,
                  kept=Frames(certified - (wrong or 0)), wrong=Frames(wrong or 0),
                  spent=Frames(spent), refused=Frames(refusals.total()), refusals=refusals,
                  rounds=Counter(rounds), cuts=Counter(cuts))


def spread(total, least, greatest, weight):
    """The total over the bins, by weight; a frame at least in each while there are any."""
    bins = histogram.bins({}, least, greatest)
    weights = [weight(place) for place in range(len(bins))]
    values = Counter({one.low: min(total // len(bins), 1) for one in bins})
    left = total - values.total()
    for one, own in zip(bins, weights):
        values[one.high] += int(left * own / sum(weights))
    values[bins[0].low] += total - values.total()
    return values


def cases():
    """Every total and number of checks: even, one-sided both ways, and random counts; with and
    without shares beside."""
    rng = random.Random(4)
    shapes = [lambda place: 1, lambda place: 0.04 ** place, lambda place: 25.0 ** place,
              lambda place: rng.random()]
    for total in TOTALS:
        for checks in CHECKS:
            for shape in shapes:
                rounds = spread(total, 1, ROUNDS_LIMIT, shape)
                cuts = spread(total, 0, checks, shape)
                yield found(checks, rounds, cuts)
                yield found(checks, rounds, cuts, total // 2, total, {8: 1, 9: total})
                yield found(checks, rounds, cuts, 1, 1, {9: 1})
    yield found(5, {}, {}, None, 12_345, {8: 1})
    yield found(5, {}, {}, 0)


def drawn(sorted_frames, title=sort_frames.TITLE):
    return ElementTree.fromstring(sort_frames.svg(sorted_frames, title))


def said(root):
    return [element.text for element in root.iter(f"{SVG}text")]


def text_boxes(root):
    """Where the words stand, as wide as they can be."""
    for element in root.iter(f"{SVG}text"):
        classes = element.get("class").split()
        style = element.get("style")
        size = (float(style.removeprefix("font-size: ").removesuffix("px")) if style
                else drawing.SIZES[classes[0]])
        wide = drawing.width(element.text, classes[0], size)
        x, y = float(element.get("x")), float(element.get("y"))
        left = x - wide if "end" in classes else x - wide / 2 if "middle" in classes else x
        yield Box(left, y - 0.75 * size, left + wide, y + 0.2 * size, element.text)


def drawn_boxes(root):
    """All boxes but the paper."""
    for element in list(root.iter(f"{SVG}rect"))[1:]:
        x, y, wide, high = (float(element.get(name)) for name in ("x", "y", "width", "height"))
        yield Box(x, y, x + wide, y + high, element.get("fill"))


def meet(one, other):
    return (one.left < other.right and other.left < one.right
            and one.top < other.bottom and other.top < one.bottom)


class Room(unittest.TestCase):
    def expect_room(self, root):
        words, boxes = list(text_boxes(root)), list(drawn_boxes(root))
        pairs = list(combinations(words, 2)) + [(word, box) for word in words for box in boxes]
        self.assertEqual([(one.what, other.what) for one, other in pairs if meet(one, other)], [])
        wide, high = float(root.get("width")), float(root.get("height"))
        self.assertEqual([one.what for one in words + boxes
                          if not (0 <= one.left and one.right <= wide + 0.1
                                  and 0 <= one.top and one.bottom <= high)], [])

    def test_nothing_covers_anything(self):
        for sorted_frames in cases():
            self.expect_room(drawn(sorted_frames))

    def test_long_titles(self):
        self.expect_room(drawn(found(3, {1: 5}, {0: 5}), LONG_TITLE))
        self.expect_room(drawn(Sorted(None, 6, False), LONG_TITLE))

    def test_the_test_sees_overlap(self):
        root = drawn(found(3, {1: 5}, {0: 5}))
        texts = list(root.iter(f"{SVG}text"))
        texts[1].set("y", texts[0].get("y"))
        with self.assertRaises(AssertionError):
            self.expect_room(root)


class Bars(unittest.TestCase):
    def test_every_count_above_0_is_seen(self):
        root = drawn(found(64, {1: 10 ** 7, 2: 1, 1024: 1}, {0: 10 ** 7 + 2}, 1, 1, {9: 1}))
        boxes = list(drawn_boxes(root))
        self.assertEqual(Counter(box.what for box in boxes),
                         {picture.BLUE: 2 + 4, picture.RED: 2, picture.AMBER: 2, picture.GREY: 2})
        for box in boxes:
            self.assertGreaterEqual(min(box.right - box.left, box.bottom - box.top),
                                    picture.SLIVER)

    def test_the_bar_of_shares_is_full(self):
        for spent in (0, 1, 10 ** 6):
            root = drawn(found(3, {1: 10 ** 6}, {0: 10 ** 6}, 3, spent, {8: 1, 9: 7}))
            bar = [box for box in drawn_boxes(root) if box.top == 90]
            self.assertEqual((bar[0].left, round(bar[-1].right, 1)),
                             (picture.MARGIN, picture.RIGHT))

    def test_at_most_five_lines_above_0(self):
        for highest in [*range(1, 200), 10 ** 6, 999_999_999]:
            plot = picture.plotted([histogram.Bin(0, 0, highest)])
            self.assertLessEqual(plot.most // plot.tick, 5)
            self.assertEqual((plot.most % plot.tick, plot.most >= highest), (0, True))


class Words(unittest.TestCase):
    def test_page(self):
        words = said(drawn(found(2, {1: 1, 3: 1, 11: 1}, {0: 1, 1: 1, 2: 1}, 1, 2, {8: 1, 9: 1})))
        for wanted in ["Frame report", "2,048 bits, 2 checks, 8,192 edges; 7 frames", "certified",
                       "certified, wrong", "spent", "refused", "28.6 %", "14.3 %", "33.3 %",
                       "1 with 8: frame not n long; 1 with 9: frame number out of range",
                       "Rounds of the certified frames", "Cuts of the certified frames", "rounds",
                       "cuts", "frames", "9-16", "513-1024"]:
            self.assertIn(wanted, words)
        self.assertFalse([word for word in words if "2048" in word or "1025" in word])

    def test_nothing_to_count(self):
        words = said(drawn(Sorted(None, 6, False), "Buoy 7"))
        self.assertEqual(words, ["Buoy 7", "The code file was refused with 6: a member not "
                                           "below n, or not ascending"])
        self.assertEqual(said(drawn(found(5, {}, {}))).count("None is certified."), 2)

    def test_a_title_is_cut_but_whole_in_the_files_title(self):
        root = drawn(found(3, {1: 5}, {0: 5}), LONG_TITLE)
        self.assertTrue(said(root)[0].endswith("\u2026"))
        self.assertTrue(root.find(f"{SVG}title").text.startswith(LONG_TITLE))


if __name__ == "__main__":
    unittest.main()
