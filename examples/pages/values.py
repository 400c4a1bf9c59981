"""Values over time, their statistics, and numbers as text. Lengths of time are whole numbers of units of 2^-17 ns, as they stand in offset2 and path2
of `ptpx measure`, and times whole nanoseconds."""
import re
from decimal import ROUND_HALF_UP, Decimal, getcontext
from fractions import Fraction
from functools import cached_property
from operator import sub

NANOSECOND = 1 << 17
SECOND = 10 ** 9
# So many usual intervals without a value end a stretch.
GAP = 8
# How a time and a length of time are written.
TIME, DECIMAL = r'[0-9]{1,15}(?:\.[0-9]{1,9})?', r'-?[0-9]{1,30}(?:\.[0-9]{1,17})?'
MOMENT, LENGTH = re.compile(TIME), re.compile(DECIMAL)
# Enough digits for any sum of exact values.
getcontext().prec = 150


def nanoseconds(text):
    """A time in whole nanoseconds."""
    seconds, _, decimals = text.partition('.')
    return int(seconds + decimals.ljust(9, '0'))


def half_units(text):
    """A length of time in nanoseconds, in units of 2^-17 ns."""
    whole, _, decimals = text.partition('.')
    value, rest = divmod(int(whole + decimals) * NANOSECOND, 10 ** len(decimals))
    if rest:
        raise ValueError
    return value


class Series:
    """Values of one kind, with their times, and the lines or the numbers by which these are found: `mark` says which. `one` and `more` are the words
    for what has such a value."""

    def __init__(self, name, kind, one, more, mark='line'):
        self.name, self.kind, self.one, self.more, self.mark = name, kind, one, more, mark
        self.times, self.values, self.marks = [], [], []

    def add(self, time, value, mark):
        self.times.append(time)
        self.values.append(value)
        self.marks.append(mark)

    def __len__(self):
        return len(self.values)

    def counted(self):
        return counted(len(self), self.one, self.more)

    @cached_property
    def ordered(self):
        return sorted(self.values)

    @cached_property
    def usual(self):
        """The median of the steps from a value to the next one, of those above 0."""
        steps = sorted(step for step in map(sub, self.times[1:], self.times) if step > 0)
        return steps[len(steps) // 2] if steps else 0

    @cached_property
    def stretches(self):
        """Where times don't fall and there is no gap: where each such stretch begins and ends."""
        cuts = [place for place, step in enumerate(map(sub, self.times[1:], self.times), 1) if not 0 <= step <= GAP * self.usual]
        return list(zip([0, *cuts], [*cuts, len(self)])) if self.values else []

    @cached_property
    def mean(self):
        return Fraction(sum(self.values), len(self))

    @cached_property
    def median(self):
        return Fraction(self.ordered[(len(self) - 1) // 2] + self.ordered[len(self) // 2], 2)

    @cached_property
    def deviation(self):
        """The standard deviation of a sample, by n - 1; None of one value."""
        count, total = len(self), sum(self.values)
        if count < 2:
            return None
        squares = sum(value * value for value in self.values)
        return (Decimal(count * squares - total ** 2) / (count * (count - 1))).sqrt()


# Numbers as text.


def exact(units):
    """Nanoseconds with all their decimals."""
    return f'{(Decimal(Fraction(units).numerator) / (Fraction(units).denominator * NANOSECOND)).normalize():f}'


def rounded(value, places=3):
    """A number with so many decimals, half away from 0."""
    value = value if isinstance(value, Decimal) else Decimal(Fraction(value).numerator) / Fraction(value).denominator
    text = f'{value.quantize(Decimal(1).scaleb(-places), ROUND_HALF_UP):f}'
    return text if text.strip('-0.') else text.lstrip('-')


def seconds(time):
    """A time as ptpx writes it."""
    return f'{time // SECOND}.{time % SECOND:09}'


def counted(count, one, more=None):
    return f'{count} {one if count == 1 else more or one + "s"}'


def spelled(power):
    """Ten to this power, in nanoseconds, with its unit."""
    units = ((9, 's'), (6, 'ms'), (3, 'µs'), (0, 'ns'), (-3, 'ps'), (-6, 'fs'))
    under, name = next((it for it in units if power >= it[0]), units[-1])
    return lambda digit: f'{Decimal(digit).scaleb(power - under):f} {name}'
