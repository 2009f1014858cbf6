"""Plain text in, one-line refusals out: what all the tools share."""

import os
import re
import sys
from contextlib import contextmanager

STANDARD = "-"              # standard input or output, in the place of a file's name
BLANKS = " \t\r"
BYTE_ORDER_MARK = b"\xef\xbb\xbf"
WHOLE_NUMBER = re.compile(r"[+-]?[0-9]{1,18}")
LONGEST_QUOTE = 20


class Refused(Exception):
    """What is wrong with an input, in one line."""


# --- files -----------------------------------------------------------------------------------

@contextmanager
def naming(source):
    """Puts the name of the input before whatever is wrong with it."""
    try:
        yield
    except Refused as refusal:
        name = "standard input" if source == STANDARD else source
        raise Refused(f"{name}: {refusal}") from None


@contextmanager
def reading(source):
    """The bytes of a file or of standard input, as a stream, with its name for refusals."""
    with naming(source):
        if source == STANDARD:
            yield sys.stdin.buffer
        else:
            with open(source, "rb") as stream:
                yield stream


@contextmanager
def writing(target):
    """A file or standard output, as a stream of bytes."""
    if target == STANDARD:
        yield sys.stdout.buffer
    else:
        with open(target, "wb") as stream:
            yield stream


def write(target, data):
    with writing(target) as stream:
        stream.write(data)


def refuse_shared(direction, *names):
    """Standard input, or output, can be lent once only."""
    if names.count(STANDARD) > 1:
        raise Refused(f"standard {direction} (-) is named twice")


# --- text ------------------------------------------------------------------------------------

def lines(stream, comment=None):
    """Number and text of each line of a stream; empty lines at the end don't count. `comment`
    is a pattern of what begins a comment, which is left out to the line's end."""
    seen = 0
    for number, raw in enumerate(stream, 1):
        if number == 1:
            raw = raw.removeprefix(BYTE_ORDER_MARK)
        text = plain_text(number, comment.split(raw, 1)[0] if comment else raw)
        if text:
            yield from ((empty, "") for empty in range(seen + 1, number))
            yield number, text
            seen = number


def plain_text(number, raw):
    try:
        return raw.decode("ascii").rstrip(BLANKS + "\n")
    except UnicodeDecodeError as error:
        raise Refused(f"line {number}: byte {raw[error.start]} is not plain text") from None


def quoted(word):
    """The word for a message, cut if long; no control character reaches the screen."""
    return ascii(word if len(word) <= LONGEST_QUOTE else word[:LONGEST_QUOTE] + "...")


def whole_numbers(line_number, line):
    """The numbers of one line, separated by blanks."""
    words = [word for word in re.split(f"[{BLANKS}]+", line) if word]
    for word in words:
        if not WHOLE_NUMBER.fullmatch(word):
            raise Refused(f"line {line_number}: {quoted(word)} is not a whole number")
    return [int(word) for word in words]


def counted(count, noun):
    return f"{count:,} {noun}" if count == 1 else f"{count:,} {noun}s"


# --- program ---------------------------------------------------------------------------------

def run(program, work):
    """Runs a program's work; what is refused is one line on standard error and status 1."""
    try:
        work()
        sys.stdout.flush()
    except Refused as refusal:
        sys.exit(f"{program}: {refusal}")
    except BrokenPipeError:
        # Whoever reads the output has seen enough; the rest must not be flushed at the end.
        os.dup2(os.open(os.devnull, os.O_WRONLY), sys.stdout.fileno())
        sys.exit(1)
    except OSError as error:
        sys.exit(f"{program}: {error.filename or 'input or output'}: {error.strerror}")
