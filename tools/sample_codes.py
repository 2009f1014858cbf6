"""The codes of samples/ that have a rule or a published base matrix. A table is a pair
(n, checks); a check is an ascending list of bit numbers, from 0."""

# CCSDS 231.1-O-1, the (128,64) code for short telecommands; circulants of 16 x 16.
CCSDS_SIZE = 16
CCSDS_BASE = """
0+7  2     14    6     -   0  13  0
6    0+15  0     1     0   -  0   7
4    1     0+15  14    11  0  -   3
0    1     9     0+13  14  1  0   -
"""

# IEEE 802.11n, 648 bits, rate 1/2; circulants of 27 x 27.
WIFI_SIZE = 27
WIFI_BASE = """
0  -  -  -  0  0  -  -  0  -  -  0  1 0 - - - - - - - - - -
22 0  -  -  17 -  0  0  12 -  -  -  - 0 0 - - - - - - - - -
6  -  0  -  10 -  -  -  24 -  0  -  - - 0 0 - - - - - - - -
2  -  -  0  20 -  -  -  25 0  -  -  - - - 0 0 - - - - - - -
23 -  -  -  3  -  -  -  0  -  9  11 - - - - 0 0 - - - - - -
24 -  23 1  17 -  3  -  10 -  -  -  - - - - - 0 0 - - - - -
25 -  -  -  8  -  -  -  7  18 -  -  0 - - - - - 0 0 - - - -
13 24 -  -  0  -  8  -  6  -  -  -  - - - - - - - 0 0 - - -
7  20 -  16 22 10 -  -  23 -  -  -  - - - - - - - - 0 0 - -
11 -  -  -  19 -  -  -  13 -  3  17 - - - - - - - - - 0 0 -
25 -  8  -  23 18 -  14 9  -  -  -  - - - - - - - - - - 0 0
3  -  -  -  16 -  -  2  25 5  -  -  1 - - - - - - - - - - 0
"""


def quasi_cyclic(base, size):
    """A base matrix's words are blocks of size x size: `-` is zero, a number the identity with
    its rows shifted right by so much, and `+` adds two of these."""
    block_rows = [[[] if word == "-" else [int(shift) for shift in word.split("+")]
                   for word in row.split()] for row in base.strip().split("\n")]
    checks = [sorted(size * column + (row + shift) % size
                     for column, shifts in enumerate(blocks) for shift in shifts)
              for blocks in block_rows for row in range(size)]
    return size * len(block_rows[0]), checks


def ccsds():
    return quasi_cyclic(CCSDS_BASE, CCSDS_SIZE)


def wifi():
    return quasi_cyclic(WIFI_BASE, WIFI_SIZE)


def array(size, layers):
    """The array code: check size x j + a has the members size x i + (a + i x j) mod size."""
    return size * size, [sorted(size * i + (a + i * j) % size for i in range(size))
                         for j in range(layers) for a in range(size)]
