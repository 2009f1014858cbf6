"""Codewords of a table, by elimination modulo 2. A word is a whole number whose bit k is the
code's bit k."""


class Codewords:
    """Independent sums of checks, each with a highest bit of its own, which it settles; all the
    other bits of a codeword are free."""

    def __init__(self, table):
        self.n, checks = table
        rows = {}                           # by length, one more than the highest bit
        for members in checks:
            row = sum(1 << bit for bit in members)
            while row.bit_length() in rows:
                row ^= rows[row.bit_length()]
            if row != 0:
                rows[row.bit_length()] = row
        self.rows = [rows[length] for length in sorted(rows)]

    def rank(self):
        return len(self.rows)

    def dimension(self):
        """How many bits a codeword carries."""
        return self.n - self.rank()

    def settled(self, word):
        """The codeword with the free bits of the word."""
        for row in self.rows:
            if (row & word).bit_count() % 2 == 1:
                word ^= 1 << row.bit_length() - 1
        return word

    def random(self, rng):
        """Each codeword is as likely as any other."""
        return self.settled(rng.getrandbits(self.n))


def bits(word, n):
    """The word's bits as a list of 0 and 1."""
    return [word >> bit & 1 for bit in range(n)]


def meets_all(table, word):
    return all(sum(word >> bit & 1 for bit in members) % 2 == 0 for members in table[1])
