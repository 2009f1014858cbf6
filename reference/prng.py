"""Fixed pseudo-random numbers, written out so that no Python version changes them."""

WORD = (1 << 64) - 1


class Prng:
    """The splitmix64 generator: a counter with a strong mixing step."""

    def __init__(self, seed):
        self.state = seed & WORD

    def next64(self):
        self.state = (self.state + 0x9E3779B97F4A7C15) & WORD
        mixed = self.state
        mixed = (mixed ^ mixed >> 30) * 0xBF58476D1CE4E5B9 & WORD
        mixed = (mixed ^ mixed >> 27) * 0x94D049BB133111EB & WORD
        return mixed ^ mixed >> 31

    def between(self, low, high):
        """A whole number from low to high, both included."""
        return low + self.next64() % (high - low + 1)

    def chance(self, part, whole):
        return self.between(1, whole) <= part

    def choice(self, items):
        return items[self.between(0, len(items) - 1)]

    def shuffled(self, items):
        result = list(items)
        for last in range(len(result) - 1, 0, -1):
            other = self.between(0, last)
            result[last], result[other] = result[other], result[last]
        return result

    def sample(self, items, count):
        return self.shuffled(items)[:count]

    def bytes(self, count):
        return bytes(self.between(0, 255) for _ in range(count))
