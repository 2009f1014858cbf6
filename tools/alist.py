"""Between alist, the text that tools for sparse parity-check codes exchange, and the code file.

    python3 tools/alist.py to-code IN.alist OUT.code
    python3 tools/alist.py to-alist IN.code OUT.alist

An alist has N columns (bits) and M rows (checks), numbered from 1: a line N M; a line of the
greatest column and row weights; a line of the N column weights; a line of the M row weights; per
column a line of its rows; per row a line of its columns. Both halves must say the same table,
and the code file's limits hold (docs/FORMATS.md).

Accepted beside that: lists in any order; zeros after a list's numbers, as many as there are;
blank lines anywhere; comments, from `#`, `%` or `//` to the end of the line; a byte-order mark;
Windows line ends. A list is never spread over lines, and a line never has two.

A row of weight 0 has a line of zeros, or none: blank lines say nothing. If the next line that
says something has zeros only, it is that row's. Written is a line of zeros, as for the others. A
column of weight 0 is refused, since a bit stands in a check.

IN and OUT may be `-`, standard input and output. What is refused is told in one line on standard
error that names the file's own line, with status 1, and nothing is written.
"""

import argparse
import re
from collections import namedtuple
from itertools import accumulate

import codefile
import plain
from limits import BITS_LIMIT, CHECKS_LIMIT, DEGREE_LIMIT, EDGES_LIMIT
from plain import Refused

COMMENT = re.compile(rb"#|%|//")

# A side of the table: what a line is called, what its numbers are called, its least weight, and
# which of the code file's limits holds for its weights.
Side = namedtuple("Side", "name listed least limit")
COLUMN = Side("column", "row", 1, f"a bit stands in 1 to {DEGREE_LIMIT} checks")
ROW = Side("row", "column", 0, f"a check has 0 to {DEGREE_LIMIT} members")

# The numbers of a column or row, without padding, and where they stand.
Listed = namedtuple("Listed", "line numbers")


class Reader:
    """The lines of an alist that say something, taken one after the other."""

    def __init__(self, stream):
        self.lines = ((number, text) for number, text in plain.lines(stream, COMMENT) if text)
        self.put_back = None                # a line that was looked at and not taken
        self.number = 0                     # of the line last taken, from 1

    def next_line(self):
        """Number and text of the next line, or None."""
        line, self.put_back = self.put_back or next(self.lines, None), None
        return line

    def pass_zeros(self):
        """Takes the next line if it has zeros only."""
        line = self.next_line()
        if line is not None and any(plain.whole_numbers(*line)):
            self.put_back = line
        elif line is not None:
            self.number, _ = line

    def take(self, wanted):
        """The next line's numbers."""
        self.number, text = self.next_line() or (self.number + 1, None)
        if text is None:
            self.refuse(f"the file ends where {wanted} should stand")
        return plain.whole_numbers(self.number, text)

    def refuse(self, reason, line=None):
        raise Refused(f"line {line or self.number}: {reason}")

    def refuse_more(self):
        line = self.next_line()
        if line is not None:
            self.refuse("text after the last row", line[0])


# --- alist to table --------------------------------------------------------------------------

def read(stream):
    """The table of an alist, or a refusal that names the line."""
    reader = Reader(stream)
    columns, rows = read_sizes(reader)
    greatest = read_pair(reader, "the greatest column weight and the greatest row weight")
    greatest_line = reader.number
    column_weights = read_weights(reader, COLUMN, columns)
    row_weights = read_weights(reader, ROW, rows)
    refuse_greatest(reader, greatest_line, greatest, column_weights, row_weights)
    refuse_edges(reader, column_weights, row_weights)
    rows_of_columns = [read_list(reader, COLUMN, number, weight, rows)
                       for number, weight in enumerate(column_weights, 1)]
    columns_of_rows = [read_list(reader, ROW, number, weight, columns)
                       for number, weight in enumerate(row_weights, 1)]
    reader.refuse_more()
    refuse_disagreement(reader, rows_of_columns, columns_of_rows)
    return columns, [sorted(column - 1 for column in row.numbers) for row in columns_of_rows]


def read_pair(reader, wanted):
    numbers = reader.take(wanted)
    if len(numbers) != 2:
        field = " (the field of a non-binary alist?)" if len(numbers) == 3 else ""
        reader.refuse(f"{plain.counted(len(numbers), 'number')} where {wanted} should "
                      f"stand{field}")
    return numbers


def read_sizes(reader):
    numbers = read_pair(reader, "N and M")
    for name, number, limit, kind in zip("NM", numbers, (BITS_LIMIT, CHECKS_LIMIT),
                                         ("bits", "checks")):
        if not 1 <= number <= limit:
            reader.refuse(f"{name} is {number}; a code file has 1 to {limit} {kind}")
    return numbers


def read_weights(reader, side, count):
    weights = reader.take(f"the {side.name} weights")
    if len(weights) != count:
        reader.refuse(f"{plain.counted(len(weights), f'{side.name} weight')}, {count} wanted")
    for number, weight in enumerate(weights, 1):
        if not side.least <= weight <= DEGREE_LIMIT:
            reader.refuse(f"{side.name} {number} has weight {weight}; in a code file {side.limit}")
    return weights


def refuse_greatest(reader, line, stated, column_weights, row_weights):
    for side, number, weights in zip((COLUMN, ROW), stated, (column_weights, row_weights)):
        if number != max(weights):
            reader.refuse(f"{number} stated for the greatest {side.name} weight, "
                          f"which is {max(weights)}", line)


def refuse_edges(reader, column_weights, row_weights):
    edges = sum(row_weights)
    if sum(column_weights) != edges:
        reader.refuse(f"the row weights add up to {edges}, "
                      f"the column weights to {sum(column_weights)}")
    if edges > EDGES_LIMIT:
        sums = enumerate(accumulate(row_weights), 1)
        row = next(number for number, total in sums if total > EDGES_LIMIT)
        reader.refuse(f"{edges} edges, too many from row {row} on; "
                      f"a code file has at most {EDGES_LIMIT}")


def read_list(reader, side, number, weight, highest):
    """One column or row; zeros may follow its numbers, and stand for none."""
    if weight == 0:
        reader.pass_zeros()
        return Listed(reader.number, [])
    name = f"{side.name} {number}"
    numbers = reader.take(f"the list of {name}")
    found = sum(item != 0 for item in numbers)
    if found != weight:
        values = " (values of a non-binary alist?)" if found == 2 * weight else ""
        reader.refuse(f"{plain.counted(found, 'number')} beside 0 for {name}, "
                      f"{weight} wanted{values}")
    listed = numbers[:weight]
    for place, item in enumerate(listed):
        if item == 0:
            reader.refuse(f"0 before the last number of {name}")
        if not 1 <= item <= highest:
            reader.refuse(f"{name} lists {side.listed} {item}, 1 to {highest} wanted")
        if item in listed[:place]:
            reader.refuse(f"{name} lists {side.listed} {item} twice")
    return Listed(reader.number, listed)


def refuse_disagreement(reader, rows_of_columns, columns_of_rows):
    """The weights add up alike on both sides, so nothing missing in the columns is nothing
    missing in the rows."""
    in_column = [set(column.numbers) for column in rows_of_columns]
    for row, (line, members) in enumerate(columns_of_rows, 1):
        for column in members:
            if row not in in_column[column - 1]:
                reader.refuse(f"row {row} lists column {column}, but column {column} (line "
                              f"{rows_of_columns[column - 1].line}) does not list row {row}",
                              line)


# --- table to alist --------------------------------------------------------------------------

def write(table):
    """The alist of a table, padded with 0 as MacKay's own files are."""
    n, checks = table
    columns_of_rows = [[bit + 1 for bit in members] for members in checks]
    rows_of_columns = [[] for _ in range(n)]
    for row, members in enumerate(checks, 1):
        for bit in members:
            rows_of_columns[bit].append(row)
    sides = (rows_of_columns, columns_of_rows)
    weights = [[len(listed) for listed in side] for side in sides]
    greatest = [max(side) for side in weights]
    lists = [listed + [0] * (most - len(listed))
             for side, most in zip(sides, greatest) for listed in side]
    lines = [[n, len(checks)], greatest, *weights, *lists]
    return "".join(" ".join(map(str, line)) + "\n" for line in lines).encode("ascii")


# --- program ---------------------------------------------------------------------------------

def convert(given):
    with plain.reading(given.source) as stream:
        result = (codefile.write(read(stream)) if given.direction == "to-code"
                  else write(codefile.read(stream.read())))
    plain.write(given.target, result)


def main():
    parser = argparse.ArgumentParser(description="alist to code file, and back",
                                     epilog="- is standard input or output.")
    parser.add_argument("direction", choices=["to-code", "to-alist"])
    parser.add_argument("source", metavar="IN")
    parser.add_argument("target", metavar="OUT")
    given = parser.parse_args()
    plain.run("alist", lambda: convert(given))


if __name__ == "__main__":
    main()
