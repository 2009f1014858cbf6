"""Makes samples/ again: codes, frames and the reports that the reference decoder expects.

    python3 tools/make_samples.py           writes samples/
    python3 tools/make_samples.py --check   fails if what is stored differs

Codewords are sent over a made-up channel: a bit 0 is received as gain x (1 + noise), a bit 1 as
gain x (-1 + noise), with noise near to normal. All is worked out in whole numbers from a seed, so
the files are the same on every machine. This is the only tool that uses reference/.
"""

import argparse
import io
import sys
from collections import namedtuple
from pathlib import Path

import alist
import codefile
import frames
import plain
import sample_codes
import sort_frames
from limits import FRAME_LIMIT
from report_text import Certified, Report

ROOT = Path(__file__).resolve().parent.parent
# Behind the tools' own folder, whose modules have other names.
sys.path.append(str(ROOT / "reference"))

import make_tables                                          # noqa: E402
from decoder import frame_report                            # noqa: E402
from make_inputs import random_codeword                     # noqa: E402
from prng import Prng                                       # noqa: E402

THOUSAND = 1000

# groups: of frames, each a count, a gain, and a standard deviation in thousandths of the gain.
# spoilt: frame numbers to numbers out of range, put into their first place.
# short: bytes of a short last frame.
Sample = namedtuple("Sample", "name table seed groups spoilt short")
Sent = namedtuple("Sent", "word frame")


SAMPLES = [
    Sample("hamming", make_tables.hamming(), 7, [(40, 1000, 800)], {}, 0),
    Sample("array", sample_codes.array(13, 3), 13, [(36, 1000, 550)], {20: FRAME_LIMIT + 1}, 337),
    # The last whole frame is weak: its numbers are 2 in size, where each bit stands in 3 checks.
    Sample("regular", make_tables.regular_table(Prng(504), 504, 3, 6), 36,
           [(20, 2000, 700), (1, 2000, 950), (3, 2000, 600), (1, 2, 0)], {22: -32768}, 1),
    Sample("ccsds", sample_codes.ccsds(), 128, [(12, 3000, 750)], {}, 0),
    Sample("wifi", sample_codes.wifi(), 648, [(9, 3000, 700), (3, 3000, 650)], {}, 0),
]


# --- channel ---------------------------------------------------------------------------------

def noise(rng):
    """Near to normal, in thousandths: twelve even draws add up to a standard deviation of 1."""
    return sum(rng.between(-500, 500) for _ in range(12))


def received(rng, bit, gain, deviation):
    symbol = THOUSAND * (-1 if bit else 1)
    amplitude = gain * (THOUSAND * symbol + deviation * noise(rng)) // THOUSAND ** 2
    return max(-FRAME_LIMIT, min(FRAME_LIMIT, amplitude))


def sent_frames(sample):
    """The sent codewords and what was received of them, spoilt numbers put in."""
    rng = Prng(sample.seed)
    channels = [channel for count, *channel in sample.groups for _ in range(count)]
    sent = []
    for number, (gain, deviation) in enumerate(channels):
        word = random_codeword(rng, sample.table)
        frame = [received(rng, bit, gain, deviation) for bit in word]
        frame[0] = sample.spoilt.get(number, frame[0])
        sent.append(Sent(word, frame))
    return sent


def frame_bytes(sample, sent):
    whole = b"".join(number.to_bytes(2, "little", signed=True)
                     for _, frame in sent for number in frame)
    return whole + bytes(sample.short)


# --- files -----------------------------------------------------------------------------------

def known_wrong(expected, sent):
    """Certified frames whose word agrees better than the sent one: it is another one."""
    def agreement(word, frame):
        return sum(-number if bit else number for bit, number in zip(word, frame))
    return [number for number, ending in enumerate(Report(io.BytesIO(expected)).endings())
            if isinstance(ending, Certified) and ending.agreement > agreement(*sent[number])]


def files(sample):
    """The sample's files by name."""
    n, _ = sample.table
    code, sent = codefile.write(sample.table), sent_frames(sample)
    data = frame_bytes(sample, sent)
    expected = frame_report(code + data).encode("ascii")
    wrong = known_wrong(expected, sent)
    found = sort_frames.sort_frames(Report(io.BytesIO(expected)), set(wrong) if wrong else None)
    made = {"code.code": code, "code.alist": alist.write(sample.table), "report.txt": expected}
    if found.refused:
        made["frames.bin"] = data
    else:
        made["frames.txt"] = frames.to_text(n, data)
    if wrong:
        made["wrong.txt"] = "".join(f"{frame}\n" for frame in wrong).encode("ascii")
    made["report.svg"] = sort_frames.svg(found, sort_frames.TITLE).encode("utf-8")
    return made


def write(folder, made):
    folder.mkdir(parents=True, exist_ok=True)
    for name, data in made.items():
        (folder / name).write_bytes(data)


def check(folder, made):
    stored = {path.name for path in folder.iterdir()}
    if stored != set(made):
        raise plain.Refused(f"{folder}: has {sorted(stored)}, {sorted(made)} wanted")
    for name, data in made.items():
        if (folder / name).read_bytes() != data:
            raise plain.Refused(f"{folder / name}: differs from what is made")


def main():
    parser = argparse.ArgumentParser(description="makes samples/ again")
    parser.add_argument("--check", action="store_true", help="compare with what is stored")
    use = check if parser.parse_args().check else write

    def work():
        for sample in SAMPLES:
            use(ROOT / "samples" / sample.name, files(sample))
            print(f"{sample.name}: {'as stored' if use is check else 'written'}", flush=True)
    plain.run("make_samples", work)


if __name__ == "__main__":
    main()
