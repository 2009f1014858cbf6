"""Ascending whole numbers as ranges, such as `0-37, 40, 42-99`."""

from array import array


class Ranges:
    """Runs of neighbours, first and last of each: a season's frames need little room."""

    def __init__(self, numbers=()):
        self.firsts, self.lasts, self.count = array("q"), array("q"), 0
        for number in numbers:
            self.add(number)

    def __len__(self):
        return self.count

    def add(self, number):
        """A number above all that are here."""
        if self.lasts and self.lasts[-1] == number - 1:
            self.lasts[-1] = number
        else:
            self.firsts.append(number)
            self.lasts.append(number)
        self.count += 1

    def texts(self):
        for first, last in zip(self.firsts, self.lasts):
            yield str(first) if first == last else f"{first}-{last}"


def wrapped(texts, width):
    """Lines of the texts, joined by commas, each line at most so wide if its texts are."""
    line = ""
    for text in texts:
        if line and len(line) + len(", ") + len(text) + len(",") > width:
            yield line + ","
            line = text
        else:
            line += f", {text}" if line else text
    if line:
        yield line
