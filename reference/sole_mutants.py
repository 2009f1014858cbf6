"""Judges that are wrong about the mark alone: whether every reduced number differs from 0.

test_sole_cases.py must tell each from the right one, by its worked frames and by the stored cases.
"""

import certificate
from certificate import Certified, reduced_numbers


def marking(right_judge, is_sole):
    """Gaps are answered as ever, and those of 0 get another mark."""
    def judge_codeword(*judged):
        found = right_judge(*judged)
        return Certified(is_sole(*judged)) if isinstance(found, Certified) else found
    return judge_codeword


def reduced_by(test):
    """A mark from the right reduced numbers by another test of them."""
    return lambda code, frame, word, scale, entries: test(
        reduced_numbers(code, frame, scale, entries))


def on_bits(chosen):
    """A mark that looks at some of the bits: by place, word and the bits of the entries' checks."""
    def is_sole(code, frame, word, scale, entries):
        held = {bit for entry in entries for bit in code.checks[entry.check]}
        return all(number != 0 for bit, number
                   in enumerate(reduced_numbers(code, frame, scale, entries))
                   if chosen(bit, word, held))
    return is_sole


def on_other_entries(other):
    """A mark from the reduced numbers of other entries."""
    return lambda code, frame, word, scale, entries: certificate.is_sole(
        code, frame, scale, other(entries))


def one_of_each_check(entries):
    """The last one."""
    return list({entry.check: entry for entry in entries}.values())


def raised_alone(code, frame, word, scale, entries):
    """Nothing is taken from the members outside a mask."""
    raised = [scale * number for number in frame]
    for entry in entries:
        for member, bit in enumerate(code.checks[entry.check]):
            raised[bit] += entry.multiplier * (entry.mask >> member & 1)
    return 0 not in raised


WRONG_SOLES = {
    name: (certificate, "judge_codeword", marking(certificate.judge_codeword, is_sole))
    for name, is_sole in {
        "always sole": lambda *judged: True,
        "never sole": lambda *judged: False,
        "frame numbers for reduced ones": lambda code, frame, *rest: 0 not in frame,
        "reduced numbers at scale 1": lambda code, frame, word, scale, entries:
            certificate.is_sole(code, frame, 1, entries),
        "first bit left out": on_bits(lambda bit, word, held: bit > 0),
        "last bit left out": on_bits(lambda bit, word, held: bit < len(word) - 1),
        "bits of the entries' checks alone": on_bits(lambda bit, word, held: bit in held),
        "bits beside the entries' checks alone": on_bits(lambda bit, word, held: bit not in held),
        "ones alone": on_bits(lambda bit, word, held: word[bit] == 1),
        "zeros alone": on_bits(lambda bit, word, held: word[bit] == 0),
        "reduced numbers above 0 alone": reduced_by(lambda reduced: min(reduced) > 0),
        "some reduced number is not 0": reduced_by(any),
        "sum of the reduced numbers": reduced_by(lambda reduced: sum(reduced) != 0),
        "sizes above 1": reduced_by(lambda reduced: min(map(abs, reduced)) > 1),
        "reduced numbers in 16 bits": reduced_by(
            lambda reduced: all(number % 2**16 for number in reduced)),
        "one mask of each check": on_other_entries(one_of_each_check),
        "last entry left out": on_other_entries(lambda entries: entries[:-1]),
        "nothing taken from others": raised_alone,
    }.items()}
