"""The frame report: a code file and frames in, text out.  Document 01, 'The frame report'."""

import certificate
import rounds
import table
from table import Refused


def fresh_buffers(code):
    """Zeroed buffers of exactly the needed lengths."""
    lengths = vars(rounds.buffer_lengths(code))
    return rounds.Buffers(**{name: [0] * length for name, length in lengths.items()})


def frame_line(code, code_file, frame_bytes):
    """What is said about one frame after its number."""
    try:
        # A short frame is 8, even where one of its numbers is out of range or half there.
        table.refuse_if(len(frame_bytes) != 2 * code.bits, 8)
        frame = [int.from_bytes(frame_bytes[k:k + 2], "little", signed=True)
                 for k in range(0, len(frame_bytes), 2)]
        lent = fresh_buffers(code)
        record = rounds.start(code_file, lent.copies, lent.offsets, lent.sums)
        ending = rounds.rounds(code_file, frame, record, rounds.ROUNDS_LIMIT, lent)
    except Refused as refusal:
        return str(refusal)
    if ending == rounds.SPENT:
        return f"spent {record.rounds_done}"
    cuts = table.number_at(lent.certificate, 0)
    agreed = certificate.agreement(frame, lent.word)
    return f"certified {record.rounds_done} {agreed} {cuts}"


def frame_report(data):
    """The whole output for the whole standard input.

    The code file is as long as its contents say, so surplus bytes are frames and refusal 5
    can only mean that the input ended early.
    """
    try:
        length = table.stated_length(data)
        code = table.parse_code_file(data[:length])
    except Refused as refusal:
        return f"{refusal}\n"
    lines = [f"bits {code.bits} checks {len(code.checks)} edges {code.edges}"]
    for number, position in enumerate(range(length, len(data), 2 * code.bits)):
        frame_bytes = data[position:position + 2 * code.bits]
        lines.append(f"frame {number} {frame_line(code, data[:length], frame_bytes)}")
    return "".join(line + "\n" for line in lines)
