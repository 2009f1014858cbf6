"""The picture of a frame report: a bar of shares and two histograms."""

from collections import namedtuple

import drawing
import histogram
from drawing import GRID, PALE_INK, box, fitted, fitting, line, width, words
from histogram import percentage

# A part of all frames: its name, what is to be said of it, how many, and its colour.
Share = namedtuple("Share", "name note frames colour")

# Bins with their scale: frames from one grid line to the next, and at the plot's top.
Plot = namedtuple("Plot", "bins tick most")

WIDTH = 960
MARGIN, RIGHT = 40, 920
PLOT_HEIGHT = 190
ROW = 24                            # of the legend, and the height of the bar of shares
SLIVER = 2                          # what is above 0 is seen, however little it is
GAP = 10                            # between words side by side
MOST_BAR = 80                       # a bar alone would fill the plot

BLUE, RED, AMBER, GREY = "#2f6fab", "#b8372e", "#e0a030", "#9aa3ab"


# --- shares ----------------------------------------------------------------------------------

def share_bar(shares, top):
    """One bar of all frames, cut by what became of them."""
    present = [share for share in shares if share.frames > 0]
    total = sum(share.frames for share in present)
    room = RIGHT - MARGIN - SLIVER * len(present)
    at = MARGIN
    for share in present:
        wide = SLIVER + room * share.frames / total
        yield box(at, top, wide, ROW, share.colour)
        at += wide
    if total == 0:
        yield box(MARGIN, top, RIGHT - MARGIN, ROW, GRID)


def legend(shares, top):
    """A row for each share: count and percentage, name and note, each in a column as wide as
    its widest words."""
    total = sum(share.frames for share in shares)
    rows = [(f"{share.frames:,}", percentage(share.frames, total), share) for share in shares]
    count_end = MARGIN + 12 + GAP + max(width(count, "plain") for count, _, _ in rows)
    percent_end = count_end + GAP + max(width(percent, "small") for _, percent, _ in rows)
    name_start = percent_end + 2 * GAP
    note_start = name_start + GAP + max(width(share.name, "strong") for share in shares)
    for place, (count, percent, share) in enumerate(rows):
        y = top + place * ROW + 11.5
        yield box(MARGIN, y - 11.5, 12, 12, share.colour)
        yield words(count_end, y, count, "plain end")
        yield words(percent_end, y, percent, "small end")
        yield words(name_start, y, share.name, "strong")
        if share.note:
            yield fitted(note_start, y, share.note, "small", RIGHT - note_start)


# --- histograms ------------------------------------------------------------------------------

def plotted(bins):
    """The bins with whole numbers of frames from grid line to grid line, at most five above 0;
    None without a bin."""
    if not bins:
        return None
    highest = max(one.frames for one in bins)
    tick = histogram.nice(lambda step: highest <= 5 * step)
    return Plot(bins, tick, -(-highest // tick) * tick)


def axis(plot, left, top):
    """Grid lines with their counts, and above them the axis' name."""
    for frames in range(0, plot.most + 1, plot.tick):
        y = top + PLOT_HEIGHT * (1 - frames / plot.most)
        yield line(left, y, RIGHT, y, GRID if frames else PALE_INK)
        yield words(left - GAP, y + 4.5, f"{frames:,}", "small end")
    yield words(left - GAP, top - 17, "frames", "small end")


def bars(plot, left, top):
    """Bars with count and percentage above, one size for all so that the widest has room."""
    room = (RIGHT - left) / len(plot.bins)
    total = sum(one.frames for one in plot.bins)
    labels = [histogram.label(one) for one in plot.bins]
    label_size = fitting(labels, "label", room - 4)
    counts = [f"{one.frames:,}" for one in plot.bins]
    count_size = fitting(counts + [percentage(one.frames, total) for one in plot.bins],
                         "count", room - 4)
    wide = min(0.8 * room, MOST_BAR)
    base = top + PLOT_HEIGHT
    for place, (one, count, label) in enumerate(zip(plot.bins, counts, labels)):
        middle = left + (place + 0.5) * room
        if one.frames > 0:
            high = max(SLIVER, PLOT_HEIGHT * one.frames / plot.most)
            yield box(middle - wide / 2, base - high, wide, high, BLUE)
            yield words(middle, base - high - 20, count, "count middle", count_size)
            yield words(middle, base - high - 6, percentage(one.frames, total), "count middle",
                        count_size)
        yield words(middle, base + 19, label, "label middle", label_size)


def panel(name, plot, left, top):
    """Parts of a histogram, and where it ends."""
    parts = [words(MARGIN, top, f"{name} of the certified frames", "heading")]
    if plot is None:
        return parts + [words(MARGIN, top + 30, "None is certified.", "plain")], top + 70
    under = top + 60
    parts += [*axis(plot, left, under), *bars(plot, left, under)]
    under += PLOT_HEIGHT
    parts.append(words((left + RIGHT) / 2, under + 42, name.lower(), "small middle"))
    return parts, under + 90


# --- pages -----------------------------------------------------------------------------------

def head(title, text):
    return [fitted(MARGIN, 44, title, "title", RIGHT - MARGIN),
            fitted(MARGIN, 70, text, "plain", RIGHT - MARGIN)]


def page(title, subtitle, shares, histograms):
    """The whole picture of a report; a histogram is a name and its bins."""
    parts = [*head(title, subtitle), *share_bar(shares, 90), *legend(shares, 134)]
    top = 134 + ROW * len(shares) + 40
    plots = [(name, plotted(bins)) for name, bins in histograms]
    axis_words = ["frames"] + [f"{plot.most:,}" for _, plot in plots if plot]
    left = MARGIN + max(width(text, "small") for text in axis_words) + GAP
    for name, plot in plots:
        more, top = panel(name, plot, left, top)
        parts += more
    return drawing.document(WIDTH, top - 24, f"{title}: {subtitle}", parts)


def notice(title, text):
    """A picture that only says something."""
    return drawing.document(WIDTH, 100, f"{title}: {text}", head(title, text))
