"""Runs README's command lines as they are printed, in order, and compares what they print.

    python3 tools/readme_check.py

Each block fenced as sh is run by bash in the repository's root; where a block fenced as text follows
it, that must be what it prints on standard output. A block whose program is not on this machine is
left out and named. What the lines write goes to folders that git ignores, which is tested too.
"""

import re
import shutil
import subprocess
import sys
from pathlib import Path

ROOT = Path(__file__).resolve().parent.parent
BLOCK = re.compile(r"^```(\w*)\n(.*?)^```$", re.MULTILINE | re.DOTALL)
# Programs that a machine may lack.
OPTIONAL = ["parallel", "gcc", "cargo", "pkg-config"]


def examples(text):
    """Pairs of command lines and what they must print, None where README does not say."""
    blocks = [(match[1], match[2]) for match in BLOCK.finditer(text)]
    for (kind, lines), (next_kind, printed) in zip(blocks, blocks[1:] + [("", "")]):
        if kind == "sh":
            yield lines, printed if next_kind == "text" else None


def missing(lines):
    return [program for program in OPTIONAL
            if re.search(rf"\b{program}\b", lines) and shutil.which(program) is None]


def run(lines, wanted):
    """Whether the lines work, and print what is wanted."""
    done = subprocess.run(["bash", "-euo", "pipefail", "-c", lines], cwd=ROOT,
                          stdout=subprocess.PIPE, stderr=subprocess.PIPE, text=True)
    if done.returncode != 0:
        return f"status {done.returncode}\n{done.stdout}{done.stderr}"
    if wanted is not None and done.stdout != wanted:
        return f"printed\n{done.stdout}README has\n{wanted}"
    return None


def unignored():
    """The files that git would tell of; nothing is told where there is no git repository."""
    listed = subprocess.run(["git", "status", "--porcelain"], cwd=ROOT, capture_output=True,
                            text=True, check=False)
    return set(listed.stdout.splitlines())


def main():
    before, count = unignored(), 0
    for lines, wanted in examples((ROOT / "README.md").read_text(encoding="utf-8")):
        lacking = missing(lines)
        if lacking:
            print(f"readme: no {lacking[0]}, so left out: {lines.splitlines()[0]}")
            continue
        wrong = run(lines, wanted)
        if wrong is not None:
            sys.exit(f"readme: these lines don't do what README says:\n{lines}{wrong}")
        count += 1
    left = unignored() - before
    if left:
        sys.exit("readme: files that git does not ignore: " + ", ".join(sorted(left)))
    if count == 0:
        sys.exit("readme: no lines were run")
    print(f"readme: {count} blocks of lines work as printed")


if __name__ == "__main__":
    main()
