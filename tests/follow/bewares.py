"""What `ptpx follow` has to tell to beware of, computed apart from it, with fractions, by the crossings that are owed."""
import math
from fractions import Fraction

import worth
from texts import thousandths

UNITS = 2**16

# From how many crossings of a kind on it is told what speaks against them, and how many are before a step and behind it, at least.
CROSSINGS, LASTING = 16, 4

# From how many thousandths of a nanosecond on a step is told; of a rate and of a drift from how many thousand-millionths on; up to how many a clock is off;
# and up to how many nanoseconds an asymmetry is one, however long or short both ways are.
STEP, RATE, DRIFT, CLOCK, ASYMMETRY, SMALL_ASYMMETRY = 100_000, 1000, 100, 100_000, 100_000, 100

NAMES = {'sync': 'Syncs', 'delay_req': 'Delay_Reqs'}


def place(crossing):
    return crossing['lines'][0]


def rounded(value):
    """The whole number next to one, halves away from 0, without its sign."""
    return math.floor(abs(value) + Fraction(1, 2))


class Way:
    """The crossings of a kind."""

    def __init__(self, kind, crossings):
        self.kind, self.name = kind, NAMES[kind]
        self.those = [it for it in crossings if it['kind'] == kind]
        self.count = len(self.those)
        self.are_enough = self.count >= CROSSINGS
        self.below = {name: [it for it in self.those if it[name] < 0] for name in ('taken', 'rest')}
        self.values = [(it['time'] * UNITS, 2 * it['rest'], place(it)) for it in self.those]

    def most_below(self, name):
        """Whether more than three of four are below 0."""
        return self.are_enough and 4 * len(self.below[name]) > 3 * self.count

    def mean(self, name):
        """The mean of what they have, to a unit."""
        return round(Fraction(sum(it[name] for it in self.those), self.count))

    def step(self, unit):
        if not self.are_enough:
            return None
        shift, (_, by_line) = worth.step(self.values), worth.slope(self.values)
        before = [its for _, _, its in self.values].index(shift.place)
        explains = 2 * shift.explains > 1 and (by_line is None or shift.explains > by_line)
        if not explains or abs(shift.thousandths) < STEP or min(before, self.count - before) < LASTING:
            return None
        return (f'the rest of {self.name} steps by {thousandths(Fraction(shift.thousandths, 1000))} ns (rounded) at {unit} {shift.place}: the clock of a tap was '
                'set there, or the way changed, so no asymmetry and no rate is told: follow what is before it and what is behind it apart')

    def drift(self):
        if not self.are_enough:
            return None
        by, by_line = worth.slope(self.values)
        if by_line is None or 2 * by_line < 1 or rounded(by * 10**9) < DRIFT:
            return None
        return (f'the rest of {self.name} drifts by {thousandths(by * 10**6)} ppm of time (rounded), as clocks of taps do, so no asymmetry and no rate of a clock '
                'between them is told: have both taps stamp by one clock')

    def uncorrected(self, unit):
        if self.are_enough and all(it['corrected'] == 0 < it['taken'] for it in self.those):
            yield (f'none of {self.count} {self.name} was corrected, though each took time, the first at {unit} {place(self.those[0])}: no transparent clock is '
                   "between the taps, but perhaps a plain bridge, or it doesn't correct these, so that all that they took rests")


class Ways:
    """The crossings of both kinds, and by how many millionths the rests of Syncs grow by their corrections, with whether that explains half of how they vary."""

    def __init__(self, crossings, rate, start, end, unit):
        self.syncs, self.requests = (Way(kind, crossings) for kind in NAMES)
        self.start, self.end, self.unit = start, end, unit
        self.rate = rate
        self.moves = next(filter(None, (it for way in (self.syncs, self.requests) for it in (way.step(unit), way.drift()))), None)
        self.asymmetry = None
        if self.syncs.count and self.requests.count:
            means = [Fraction(sum(it['rest'] for it in way.those), way.count) for way in (self.syncs, self.requests)]
            self.asymmetry = round(means[0] - means[1])

    def is_steep(self):
        return self.rate is not None and self.rate[1] and rounded(self.rate[0] * 1000) > CLOCK

    def told_rate(self):
        """The rate, where nothing speaks against it."""
        if self.moves or self.rate is None or self.is_steep() or rounded(self.rate[0] * 1000) < RATE:
            return None
        return self.rate

    def is_too_great(self):
        taken = self.syncs.mean('taken') + self.requests.mean('taken')
        size = abs(self.asymmetry)
        return size > ASYMMETRY * UNITS or (size > SMALL_ASYMMETRY * UNITS and 0 <= taken < 2 * size)

    def are_exchanged(self):
        return self.syncs.most_below('taken') and self.requests.most_below('taken')

    def told_mean_rest(self):
        """The mean rest of both in units, where rests don't move and the taps aren't exchanged."""
        if self.asymmetry is None or self.moves or self.are_exchanged():
            return None
        return round(sum(Fraction(sum(it['rest'] for it in way.those), way.count) for way in (self.syncs, self.requests)) / 2)

    def told_asymmetry(self):
        """The asymmetry in units, where nothing speaks against it."""
        if self.asymmetry is None or self.moves or self.syncs.most_below('taken') or self.requests.most_below('taken') or self.is_too_great():
            return None
        return self.asymmetry

    def below(self):
        ways = (self.syncs, self.requests), (self.requests, self.syncs)
        for way, other in ways:
            if way.most_below('taken'):
                text = f'{len(way.below["taken"])} of {way.count} {way.name} took less than 0 ns, the first at {self.unit} {place(way.below["taken"][0])}: '
                if not other.most_below('taken'):
                    yield text + ('the clock of a tap is off, or the taps are the wrong way round: set both by one clock, or exchange --from and --to')
                elif way is self.syncs:
                    yield text + f'as did most Delay_Reqs, so the taps are the wrong way round: --from {self.end} --to {self.start} exchanges them'
                else:
                    yield text + 'as did most Syncs'
        for way, other in ways:
            if way.most_below('rest') and not way.most_below('taken'):
                text = f'{len(way.below["rest"])} of {way.count} rests of {way.name} are below 0 ns, the first at {self.unit} {place(way.below["rest"][0])}: '
                if not other.most_below('rest'):
                    yield text + 'the clock of a tap is off, or corrections are too big: set both taps by one clock'
                elif way is self.syncs:
                    yield text + ("as those of Delay_Reqs are, so it isn't that one tap is ahead of the other: corrections are too big, a clock that both taps share is "
                                  'slow, or a tap stamps what leaves earlier, or what arrives later, than the clock between does, as software may')
                else:
                    yield text + 'as those of Syncs are'

    def clocks(self):
        if self.asymmetry is not None and not self.moves and not self.are_exchanged() and self.is_too_great():
            size = Fraction(abs(self.asymmetry), UNITS)
            above, ahead = ('below', 'behind') if self.asymmetry < 0 else ('above', 'ahead')
            yield (f'rests of Syncs are {thousandths(size)} ns {above} those of Delay_Reqs, in the mean, more than an asymmetry is as a rule: the clock '
                   f'of {self.end} is {thousandths(size / 2)} ns {ahead}, or one way is so much longer: taps of one clock show which')

    def bewares(self):
        """What is told to beware of, in its order."""
        yield from self.below()
        yield from filter(None, [self.moves])
        yield from self.clocks()
        for way in (self.syncs, self.requests):
            yield from way.uncorrected(self.unit)
        if self.is_steep() and not self.moves:
            yield (f'the rest of Syncs grows by {thousandths(self.rate[0])} ppm of corrected, by least squares (rounded), and no clock is off by more than 100 ppm: '
                   'stamps or corrections are wrong; compare taken and corrected by --csv')
