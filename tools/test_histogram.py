"""Bins, percentages and ranges of whole numbers."""

import unittest
from collections import Counter

import histogram
from histogram import percentage
from ranges import Ranges, wrapped


def labels(least, greatest):
    return " ".join(map(histogram.label, histogram.bins({}, least, greatest)))


class Bins(unittest.TestCase):
    def test_rounds(self):
        self.assertEqual(labels(1, 1024), "1 2 3-4 5-8 9-16 17-32 33-64 65-128 129-256 257-512 "
                                          "513-1024")

    def test_cuts_end_at_the_number_of_checks(self):
        self.assertEqual(labels(0, 1), "0 1")
        self.assertEqual(labels(0, 2), "0 1 2")
        self.assertEqual(labels(0, 3), "0 1 2 3")
        self.assertEqual(labels(0, 39), "0 1 2 3-4 5-8 9-16 17-32 33-39")
        self.assertEqual(labels(0, 64), "0 1 2 3-4 5-8 9-16 17-32 33-64")
        self.assertEqual(labels(0, 65), "0 1 2 3-4 5-8 9-16 17-32 33-64 65")
        self.assertEqual(labels(0, 2048), "0 1 2 3-4 5-8 9-16 17-32 33-64 65-128 129-256 257-512 "
                                          "513-1024 1025-2048")

    def test_every_value_is_counted_once(self):
        for least, greatest in ((1, 1024), (0, 1), (0, 324), (0, 2048)):
            values = Counter({value: value + 1 for value in range(least, greatest + 1)})
            bins = histogram.bins(values, least, greatest)
            for one in bins:
                self.assertEqual(one.frames, sum(range(one.low + 1, one.high + 2)))
            self.assertEqual(sum(one.frames for one in bins), values.total())


class Percentages(unittest.TestCase):
    def test_rounded_but_never_to_nothing_or_all(self):
        for part, whole, text in [
                (0, 0, "0 %"), (0, 7, "0 %"), (7, 7, "100 %"), (1, 3, "33.3 %"), (2, 3, "66.7 %"),
                (1, 2, "50.0 %"), (1, 2000, "0.1 %"), (1, 2001, "<0.1 %"),
                (1, 10 ** 7, "<0.1 %"), (1999, 2000, ">99.9 %"), (1998, 2000, "99.9 %"),
                (10 ** 7 - 1, 10 ** 7, ">99.9 %")]:
            self.assertEqual(percentage(part, whole), text)


class RangeTexts(unittest.TestCase):
    def texts(self, numbers):
        ranges = Ranges(numbers)
        self.assertEqual(len(ranges), len(numbers))
        return ", ".join(ranges.texts())

    def test_runs_of_neighbours(self):
        self.assertEqual(self.texts([]), "")
        self.assertEqual(self.texts([0]), "0")
        self.assertEqual(self.texts([4, 5]), "4-5")
        self.assertEqual(self.texts([*range(38), 40, *range(42, 100)]), "0-37, 40, 42-99")
        self.assertEqual(self.texts(range(10 ** 6)), "0-999999")

    def test_lines(self):
        texts = list(Ranges(range(0, 300, 2)).texts())
        for width in (4, 10, 98):
            lines = list(wrapped(texts, width))
            self.assertLessEqual(max(map(len, lines)), width)
            self.assertEqual(" ".join(lines), ", ".join(texts))
        self.assertEqual(list(wrapped(["1", "2", "3"], 5)), ["1, 2,", "3"])
        self.assertEqual(list(wrapped([], 10)), [])


if __name__ == "__main__":
    unittest.main()
