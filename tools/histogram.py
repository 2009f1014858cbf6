"""Counts of values in bins that double: 0, 1, 2, 3-4, 5-8, 9-16 and so on."""

from collections import namedtuple
from itertools import count, takewhile

Bin = namedtuple("Bin", "low high frames")          # low and high both included


def nice(enough):
    """The least of 1, 2, 5, 10, 20, 50, ... that is enough."""
    numbers = (lead * 10 ** power for power in count() for lead in (1, 2, 5))
    return next(number for number in numbers if enough(number))


def bins(frames_by_value, least, greatest):
    """All bins from the least to the greatest value that can occur, empty ones too, so that
    pictures of different reports have the same bins."""
    powers = takewhile(lambda high: high < greatest, (2 ** power for power in count()))
    highs = [0] * (least == 0) + [*powers, greatest]
    lows = [least] + [high + 1 for high in highs[:-1]]
    return [Bin(low, high, sum(frames for value, frames in frames_by_value.items()
                               if low <= value <= high)) for low, high in zip(lows, highs)]


def label(one):
    return str(one.low) if one.low == one.high else f"{one.low}-{one.high}"


def percentage(part, whole):
    """A part of the whole, never rounded to nothing or to all."""
    if part in (0, whole):
        return "0 %" if part == 0 else "100 %"
    tenths = (2000 * part + whole) // (2 * whole)
    if tenths == 0 or tenths == 1000:
        return "<0.1 %" if tenths == 0 else ">99.9 %"
    return f"{tenths // 10}.{tenths % 10} %"
