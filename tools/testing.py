"""What the tests share: tables, a way to run a tool, and the wording of a refusal."""

import random
import subprocess
import sys
from pathlib import Path

from plain import Refused

TOOLS = Path(__file__).resolve().parent
ROOT = TOOLS.parent
SAMPLES = ROOT / "samples"

THREE_BITS = (3, [[0, 1, 2]])
HAMMING = (7, [[0, 2, 4, 6], [1, 2, 5, 6], [3, 4, 5, 6]])

# At the limits: greatest n and m, greatest E with degree 32 on both sides, the least of all, and
# empty checks: all but one of the greatest m, and at both ends.
LIMIT_TABLES = [
    (2048, [[bit] for bit in range(2048)]),
    (256, [sorted((first + k) % 256 for k in range(32)) for first in range(256)]),
    (2048, [sorted({bit, (bit + 1) % 2048, (bit + 5) % 2048, (bit + 9) % 2048})
            for bit in range(2048)]),
    (1, [[0]] * 32),
    (1, [[0]]),
    (32, [[]] * 1000 + [list(range(32))] + [[]] * 1047),
    (7, [[], [0, 2, 4, 6], [], [], [1, 2, 5, 6], [3, 4, 5, 6], []]),
]


def random_table(rng):
    """A valid table, a quarter of its checks empty; a bit left out of all checks gets a check of
    its own."""
    n, m = rng.randint(1, 60), rng.randint(1, 31)
    checks = [set(rng.sample(range(n), rng.randint(1, min(n, 32)))) for _ in range(m)]
    checks = [members if rng.random() < 0.75 else set() for members in checks]
    seen = set().union(*checks)
    checks += [{bit} for bit in range(n) if bit not in seen]
    return n, [sorted(members) for members in checks]


def random_tables(count):
    rng = random.Random(1)
    return [random_table(rng) for _ in range(count)]


def refusal_of(work, *arguments):
    """What the work is refused with, or None."""
    try:
        work(*arguments)
    except Refused as refusal:
        return str(refusal)
    return None


def run_tool(name, *arguments, data=b""):
    """Status, standard output and standard error of a tool run as a program."""
    done = subprocess.run([sys.executable, TOOLS / name, *map(str, arguments)], input=data,
                          capture_output=True, check=False)
    return done.returncode, done.stdout, done.stderr.decode()
