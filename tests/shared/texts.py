"""How `ptpx` spells times, lengths, identities, counts and faults, apart from it."""
import math
import re
from fractions import Fraction

# How many of those are named of which there may be many.
NAMED = 8

# How octets are written that aren't printed as they are, where others are hexadecimal.
ESCAPES = {9: r'\t', 10: r'\n', 13: r'\r', 34: r'\"', 39: r"\'", 92: r'\\'}

# A fault of lines, with its number, behind which a refusal may stand in brackets, and its line; and what `check` answers, with the number of reports, or
# with the event and the reason.
FAULT = re.compile(rb'ptpx: fault (80[1-8](?: \(60[1-8]\))?) at line ([1-9][0-9]*)\n')
VERDICT = re.compile(rb'accepted ([0-9]+)\n|refused event ([0-9]+): (70[1-8])\n')


def seconds(nanoseconds):
    """A time in seconds, with nine decimals."""
    return f'{nanoseconds // 10**9}.{nanoseconds % 10**9:09}'


def decimals(value):
    """A fraction of a power of two, with all its decimals."""
    value = Fraction(value)
    whole, rest = divmod(abs(value.numerator), value.denominator)
    places = value.denominator.bit_length() - 1
    return '-' * (value < 0) + str(whole) + (f'.{rest * 5**places:0{places}}' if rest else '')


def thousandths(value):
    """A number rounded to thousandths, halves away from 0."""
    size = math.floor(abs(value) * 1000 + Fraction(1, 2))
    return f'{"-" if value < 0 < size else ""}{size // 1000}.{size % 1000:03}'


def port(octets):
    """A portIdentity, of ten octets."""
    return f'{octets[:8].hex()}/{int.from_bytes(octets[8:10], "big")}'


def escaped(octets):
    """Octets without those that aren't printed."""
    return ''.join(ESCAPES.get(octet) or (chr(octet) if 32 <= octet < 127 else f'\\x{octet:02x}') for octet in octets)


def counted(count, noun):
    return f'{count} {noun}{"" if count == 1 else "s"}'


def listed(counts):
    """The first of these with how many each, and how many there are of all others."""
    those = [f'{count} of {name}' for name, count in list(counts.items())[:NAMED]]
    rest = sum(list(counts.values())[NAMED:])
    return ', '.join(those + ([f'{rest} of further ones'] if rest else []))


def told(sentences):
    """Sentences as standard error has them."""
    return ''.join(f'ptpx: {it}\n' for it in sentences)


def fault_at_line(number, line):
    return f'ptpx: fault {number} at line {line}\n'


def fault_at_octet(number, octet, packets):
    """How the fault of a capture begins, behind which its words stand."""
    return f'ptpx: fault {number} at octet {octet}, after {counted(packets, "packet")}'
