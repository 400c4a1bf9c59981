"""What is told of the numbers of a measurement, computed apart from the program, with fractions: what speaks against them, what came and what is missing,
and their statistics."""
import collections
import math
import typing
from fractions import Fraction

import texts
from texts import decimals, listed, port, thousandths

# A second and a nanosecond as offsets have them, and a second and a nanosecond as times have them.
SECOND2, NANOSECOND2, SECOND, NANOSECOND = 10**9 * 2**17, 2**17, 10**9 * 2**16, 2**16

# From how many values on a slope or a step is told, from which slope on in thousand-millionths, and from which step on in thousandths of a nanosecond.
VALUES, SLOPE, STEP = 16, 1000, 10**6

# From how many values on it is told that they are set back, and from how far.
TEETH, SET_BACK = 32, 1000 * NANOSECOND2

# The names of the four messages.
SYNC, FOLLOW_UP, REQUEST, RESPONSE = 'Sync', 'Follow_Up', 'Delay_Req', 'Delay_Resp'


class Report(typing.NamedTuple):
    place: int
    units: int
    by: str
    offset2: int
    path2: int
    # Of the Sync and the Follow_Up together, or of the Delay_Resp; None where it isn't known.
    correction: int = None
    # The time between t2 and t3, by the slave's clock, in the units of times; None where it isn't known.
    age: int = None


class Became(typing.NamedTuple):
    """A message of the four that was heard, and what became of it: `report`, or a reason in words or by its number; and whether its sender begins its
    numbers anew with it."""
    place: int
    units: int
    kind: str
    domain: int
    source: bytes
    sequence: int
    correction: int
    log: int
    answer: str
    begins: bool
    # Whether its twoStepFlag is set.
    is_two_step: bool


class Shift(typing.NamedTuple):
    """A step in values: the place of the first value behind it, by how much the mean behind it is above that before, in thousandths of a nanosecond, and
    what part of how the values vary it explains; also how many pairs of a value before it and one behind there are, and by how much those behind are
    above those before in all pairs together."""
    place: int
    thousandths: int
    explains: Fraction
    pairs: int
    jump: int


def nanoseconds(value2):
    """Halves of 2^-16 ns as nanoseconds, with all their decimals."""
    return decimals(Fraction(value2, NANOSECOND2))


def deviation(values):
    """The standard deviation of values, in whole units, rounded down; None where there is none, and from 2^64 units on."""
    count, total = len(values), sum(values)
    size = count > 1 and math.isqrt((count * sum(it * it for it in values) - total * total) // (count * (count - 1)))
    return size if size is not False and size < 2**64 else None


def series(name, unit, values):
    """What is told of values, each with its place."""
    if not values:
        return
    numbers = [value for value, _ in values]
    least, greatest = min(values, key=lambda it: it[0]), max(values, key=lambda it: it[0])
    yield f'{name}: {len(values)}, mean {thousandths(Fraction(sum(numbers), len(numbers) * NANOSECOND2))} ns' + (
        f', standard deviation {thousandths(Fraction(deviation(numbers), NANOSECOND2))} ns' if deviation(numbers) is not None else '') + (
        f' (rounded), least {nanoseconds(least[0])} ns at {unit} {least[1]}, greatest {nanoseconds(greatest[0])} ns at {unit} {greatest[1]}')


def spread(name, unit, values):
    """The least and the greatest of corrections, each with its place."""
    if values and values[0][0] is not None:
        ends = min(values, key=lambda it: it[0]), max(values, key=lambda it: it[0])
        yield f'{name}: ' + ', '.join(f'{end} {nanoseconds(2 * value)} ns at {unit} {place}' for end, (value, place) in zip(('least', 'greatest'), ends))


def statistics(unit, reports):
    yield from series('offsets at a Sync', unit, [(it.offset2, it.place) for it in reports if it.by == 'sync'])
    yield from series('path delays at a response', unit, [(it.path2, it.place) for it in reports if it.by == 'response'])
    corrections = [{it.correction for it in reports if it.by == by} for by in ('sync', 'response')]
    if corrections == [{0}, {0}]:
        yield 'all corrections are 0 ns'
        return
    yield from spread('corrections at a Sync', unit, [(it.correction, it.place) for it in reports if it.by == 'sync'])
    yield from spread('corrections at a response', unit, [(it.correction, it.place) for it in reports if it.by == 'response'])


def whole(value2):
    """The whole number of seconds next to an offset, halves away from 0."""
    size = math.floor(Fraction(abs(value2), SECOND2) + Fraction(1, 2))
    return -size if value2 < 0 else size


class Line(typing.NamedTuple):
    """A line through values over their times, by least squares: how much both vary together, the times, and the values."""
    rise: int
    run: int
    vary: int


def line_of(values):
    count = len(values)
    times, offsets = [units for units, _, _ in values], [value for _, value, _ in values]
    return Line(count * sum(t * x for t, x in zip(times, offsets)) - sum(times) * sum(offsets),
                count * sum(t * t for t in times) - sum(times)**2, count * sum(x * x for x in offsets) - sum(offsets)**2)


def slope(values):
    """By how much values grow by their times, by least squares, and what part of how they vary a line explains; None where all times are one."""
    rise, run, vary = line_of(values)
    return (Fraction(rise, 2 * run), Fraction(rise * rise, run * vary) if vary else Fraction(1)) if run else (0, None)


def varied(numbers):
    """The sum of the squares of how far numbers are from their mean."""
    return sum(it * it for it in numbers) - Fraction(sum(numbers)**2, len(numbers))


def step(values):
    """The step at the greatest change from one value to the next, the first of equal ones."""
    numbers = [value for _, value, _ in values]
    at = max(range(1, len(numbers)), key=lambda it: abs(numbers[it] - numbers[it - 1]))
    before, behind = numbers[:at], numbers[at:]
    by = Fraction(sum(behind), len(behind)) - Fraction(sum(before), len(before))
    # each part still varies about its own mean
    all_of, left = varied(numbers), varied(before) + varied(behind)
    size = math.floor(Fraction(math.floor(abs(by)) * 1000, NANOSECOND2) + Fraction(1, 2))
    jump = at * sum(behind) - len(behind) * sum(before)
    return Shift(values[at][2], -size if by < 0 else size, 1 - left / all_of if all_of else Fraction(0), at * len(behind), jump)


def front(number):
    """A number by its first 63 bits, as the program compares products of long ones."""
    behind = max(number.bit_length() - 63, 0)
    return number >> behind << behind


def front_of_product(*factors):
    made, *others = map(front, factors)
    for it in others:
        made = front(made * it)
    return made


def explains_most(shift, line):
    """Whether a step explains more than half of how values vary, and more than a line does. By their fronts, for both are alike where one time is far
    from all others."""
    jump, rise = abs(shift.jump), abs(line.rise)
    return (front_of_product(shift.pairs, line.vary) < 2 * front_of_product(jump, jump)
            and (not line.run or front_of_product(rise, rise, shift.pairs) < front_of_product(jump, jump, line.run)))


def stepping(name, why, unit, values):
    """What is told of a step in values, each with its time and its place, that explains more than half of how they vary, and more than a line does."""
    if len(values) < VALUES:
        return
    shift = step(values)
    if abs(shift.thousandths) >= STEP and explains_most(shift, line_of(values)):
        yield f'the {name} steps by {thousandths(Fraction(shift.thousandths, 1000))} ns (rounded) at {unit} {shift.place}: {why}'


def running(values):
    """What is told of offsets that run away."""
    if len(values) >= VALUES:
        by, by_line = slope(values)
        size = math.floor(abs(by) * 10**9 + Fraction(1, 2))
        if by_line is not None and 2 * by_line >= 1 and size >= SLOPE:
            yield (f'the offset runs away by {thousandths(by * 10**6)} ppm (rounded): the times are of a clock that '
                   "doesn't follow this master, as that of a tap or of another host, or that was set or was still settling")


def set_back(unit, values):
    """What is told of offsets of which more than three in four changes go one way, and the greatest the other way."""
    if len(values) < TEETH:
        return
    changes = [(here - before, place) for (_, before, _), (_, here, place) in zip(values, values[1:])]
    greatest, place = max(changes, key=lambda it: abs(it[0]))
    against = [change for change, _ in changes if change * greatest < 0]
    # a quarter of all changes together, so that it isn't the only one that sets back what the others go
    if SET_BACK <= abs(greatest) <= Fraction(sum(abs(it) for it, _ in changes), 4) and 4 * len(against) > 3 * len(changes):
        side, other = ('above', 'below') if greatest < 0 else ('below', 'above')
        yield (f'{len(against)} of {len(changes)} offsets are {side} the one before, and others far {other} it, by {abs(greatest) // NANOSECOND2} ns at most, '
               f'at {unit} {place}: the clock drifts, and is set again and again instead of steered')


# What became of a message that is of another domain, of another master, of another slave or to it, and of one that came before.
OF_DOMAIN, OF_MASTER, OF_SLAVE, REPEATED = ('503', 'of another domain'), ('505',), ('508', 'of another slave'), ('before', 'repeated')


def lags(became):
    """How much later the repeats came than the first of their number, where that is the last of its kind."""
    newest = {}
    for it in became:
        if it.answer in REPEATED:
            number, units = newest.get(it.kind, (None, None))
            if number == it.sequence:
                yield max(it.units - units, 0) // NANOSECOND
        elif it.answer not in OF_DOMAIN + OF_MASTER + OF_SLAVE:
            newest[it.kind] = it.sequence, it.units


def silence(times, last, count):
    """How many tenths of a second come after this time, the last of so many, where these are many."""
    long, often = max(times[-1] - last, 0), max(last - times[0], 0) // max(count, 1)
    return long * 10 // SECOND if long >= 10 * SECOND and long // 10 >= often else None


def ending(unit, times, reports, became):
    """What is told of Syncs of the master, or else of reports, that end long before the recording does."""
    syncs = [(at, it) for at, it in enumerate(became) if it.kind == 'Sync' and it.answer not in OF_DOMAIN + OF_MASTER]
    if syncs:
        by_sync = sum(it.by == 'sync' for it in reports)
        tenths = silence(times, syncs[-1][1].units, max(sum(it.answer != 'report' for _, it in syncs), by_sync))
        if tenths is not None:
            new = next((it for it in became[syncs[-1][0]:] if it.kind == 'Sync' and it.answer in OF_MASTER), None)
            yield f'the Syncs of the master end {tenths // 10}.{tenths % 10} s before the recording does' + (
                f', and those of {port(new.source)} begin at {unit} {new.place}; --master {port(new.source)} measures by them'
                if new else ': it went away')
            return
    if reports:
        tenths = silence(times, reports[-1].units, len(reports))
        if tenths is not None:
            yield (f'no report is of the last {tenths // 10}.{tenths % 10} s: the slave went away, or it follows another master, whom --master picks, '
                   'or nobody answers it')


def company(became):
    """What is told of others whose messages are there."""
    masters = collections.Counter(port(it.source) for it in became if it.answer in OF_MASTER)
    slaves = collections.Counter(port(it.source) for it in became if it.kind == 'Delay_Req' and it.answer in OF_SLAVE)
    domains = collections.Counter(it.domain for it in became if it.answer in OF_DOMAIN)
    if masters:
        yield f'messages of other masters of the domain: {listed(masters)}; --master picks one'
    if slaves:
        yield f'Delay_Reqs of other slaves of the domain: {listed(slaves)}; --slave picks one'
    if domains:
        yield f'messages of other domains: {listed({f"domain {it}": domains[it] for it in sorted(domains)})}; --domain picks one'


# What became of a Sync and of a Follow_Up that waits for the other, and of a Delay_Resp whose Delay_Req isn't there.
WAITED, UNASKED = 'held', '509'


def firsts(became, kind):
    """The messages of a kind, of the master and the slave that are watched, each number once."""
    return [it for it in became if it.kind == kind and it.answer not in REPEATED + OF_DOMAIN + OF_MASTER + OF_SLAVE]


class Flow:
    """The messages of a kind by their numbers: how many numbers were passed over and didn't come late, in each life of their sender; how much later each
    came whose number is the next one; and the first and the newest message."""

    def __init__(self, kind, became):
        self.all, self.newest, self.intervals = firsts(became, kind), None, []
        passed_over = late = 0
        for it in self.all:
            ahead = None if self.newest is None or it.begins else (it.sequence - self.newest.sequence) % 2**16
            if ahead is not None and not 1 <= ahead <= 32_767:
                late += 1
                continue
            if ahead is not None:
                passed_over += ahead - 1
            if ahead == 1:
                self.intervals.append((2 * (it.units - self.newest.units), it.place))
            self.newest = it
        self.missing = max(passed_over - late, 0)

    def interval(self):
        """How long it is from one to the next in the mean, in the units of times, rounded down; 0 of fewer than two."""
        return max(self.newest.units - self.all[0].units, 0) // (len(self.all) - 1) if len(self.all) > 1 else 0


def numbers_of(became):
    """Of two-step Syncs, and of Delay_Reqs, how many there are, and of Syncs that waited and of Delay_Reqs how many are without the message that answers
    them."""
    syncs = firsts(became, SYNC)
    two_step, waited = [it.is_two_step for it in syncs], [it.answer == WAITED for it in syncs]
    followed = [it.answer != WAITED for it in firsts(became, FOLLOW_UP)]
    answered = [it.answer != UNASKED for it in firsts(became, RESPONSE)]
    requests = len(firsts(became, REQUEST))
    return sum(two_step), max(sum(waited) - sum(followed), 0), requests, max(requests - sum(answered), 0)


def milliseconds(nanoseconds):
    """A time in milliseconds with three decimals; what is finer is left out."""
    microseconds = math.floor(abs(nanoseconds) / 1000)
    return f'{"-" if nanoseconds < 0 and microseconds else ""}{microseconds // 1000}.{microseconds % 1000:03} ms'


def told_seconds(units):
    """A time in seconds with three decimals; what is finer is left out."""
    size = units * 1000 // SECOND
    return f'{size // 1000}.{size % 1000:03} s'


def to_thousandths(value):
    """Rounded to thousandths, halves away from 0."""
    size = Fraction(math.floor(abs(value) * 1000 + Fraction(1, 2)), 1000)
    return -size if value < 0 else size


def passing(names, unit, flow, logs):
    """How long it is from one message to the next, and what the last message of those tells of it that do."""
    if not flow.intervals:
        return
    values = [value for value, _ in flow.intervals]
    least, greatest = min(flow.intervals, key=lambda it: it[0]), max(flow.intervals, key=lambda it: it[0])
    mean = to_thousandths(Fraction(sum(values), len(values) * NANOSECOND2))
    varies = deviation(values)
    yield f'from one of the {names} to the next: mean {milliseconds(mean)}' + (
        '' if varies is None else f', standard deviation {milliseconds(to_thousandths(Fraction(varies, NANOSECOND2)))}') + (
        f', least {milliseconds(Fraction(least[0], NANOSECOND2))} at {unit} {least[1]}'
        f', greatest {milliseconds(Fraction(greatest[0], NANOSECOND2))} at {unit} {greatest[1]}') + (
        f'; logMessageInterval tells {milliseconds(Fraction(2)**logs[-1] * 10**9)}' if logs and -7 <= logs[-1] <= 6 else '')


def flows(unit, reports, became):
    """What came of the master and the slave, what is missing, how long it is from one message to the next, and how old a path delay was."""
    syncs, requests = Flow(SYNC, became), Flow(REQUEST, became)
    two_step, unfollowed, _, unanswered = numbers_of(became)
    if syncs.all:
        yield (f'Syncs: {len(syncs.all)}, {syncs.missing} missing; of these two-step: {two_step}, Follow_Ups: {len(firsts(became, FOLLOW_UP))}, '
               f'{unfollowed} missing')
    yield from passing('Syncs', unit, syncs, [it.log for it in syncs.all])
    responses = firsts(became, RESPONSE)
    if requests.all:
        yield (f'Delay_Reqs: {len(requests.all)}, {requests.missing} missing; Delay_Resps: {sum(it.answer != UNASKED for it in responses)}, '
               f'{unanswered} missing')
    yield from passing('Delay_Reqs', unit, requests, [it.log for it in responses])
    aged = [it for it in reports if it.by == 'sync' and it.age is not None]
    if aged:
        oldest = max(aged, key=lambda it: it.age)
        yield f'the path delay of an offset is at most {told_seconds(oldest.age)} old, at {unit} {oldest.place}'


def old_delays(unit, syncs, requests):
    """What is told of offsets whose path delay is older than 10 s, where the oldest is 8 intervals between Delay_Reqs old."""
    aged = [it for it in syncs if it.age is not None]
    old = [it for it in aged if it.age > 10 * SECOND]
    if old:
        oldest = max(aged, key=lambda it: it.age)
        if oldest.age // 8 >= requests.interval():
            yield (f'offsets that rest on a path delay older than 10 s: {len(old)}, the first at {unit} {old[0].place}; the oldest was '
                   f"{told_seconds(oldest.age)} old at {unit} {oldest.place}: Delay_Reqs or their answers stopped, and the path delay isn't measured anew")


def losses(became):
    """What is told of messages of which more than one, and more than one in a hundred, are missing."""
    syncs, requests = Flow(SYNC, became), Flow(REQUEST, became)
    two_step, unfollowed, asked, unanswered = numbers_of(became)
    for missing, of, what in (
            (syncs.missing, syncs.missing + len(syncs.all), 'Syncs are missing, by their numbers: lost on the way or in recording'),
            (unfollowed, two_step, "two-step Syncs have no Follow_Up and give no offset: lost, or general messages (port 320) weren't recorded"),
            (requests.missing, requests.missing + len(requests.all), 'Delay_Reqs are missing, by their numbers: lost on the way or in recording'),
            (unanswered, asked, "Delay_Reqs have no Delay_Resp: lost, or the master doesn't answer them")):
        if missing > 1 and 100 * missing > of:
            yield f'{missing} of {of} {what}'


def beginning(unit, became, kind, what, why):
    """What is told of a sender that begins its numbers anew."""
    begun = [it for it in firsts(became, kind) if it.begins]
    if begun:
        often = 'once,' if len(begun) == 1 else f'{len(begun)} times, first'
        yield f'{what} {often} at {unit} {begun[0].place}, at {texts.seconds(begun[0].units // NANOSECOND)}: {why}'


def apart(unit, syncs):
    """What is told of the offset, of 16 and more, that lies farthest from the nearer one of its two neighbours, above both or below both: if that is
    1 us and more, and more than a hundred times as far as the other offsets change from one to the next, in the mean."""
    values = [it.offset2 for it in syncs]
    spikes = [(min(abs(at - before), abs(at - behind)), -place, abs(at - before) + abs(at - behind))
              for place, (before, at, behind) in enumerate(zip(values, values[1:], values[2:]), 1) if (before < at) == (behind < at) and at not in (before, behind)]
    if len(values) < 16 or not spikes:
        return
    size, place, both = max(spikes)
    changes = sum(abs(one - other) for one, other in zip(values, values[1:]))
    if size >= 1000 * NANOSECOND2 and size // 100 > (changes - both) // (len(values) - 3):
        yield (f'the offset at {unit} {syncs[-place].place} lies at least {size // NANOSECOND2} ns from both of its neighbours, more than a hundred times as far as '
               'offsets change else: one of its messages was held up, or has a wrong time')


def beware(unit, counts, reads, reports, became):
    """What speaks against the numbers: of reads the times, in order, and what was refused; of messages what became of them."""
    syncs, responses = [[it for it in reports if it.by == by] for by in ('sync', 'response')]
    is_of_slave = True
    for name, all_of, sign in ('requests', responses, 1), ('Syncs', syncs, -1):
        if len(all_of) > 1 and all(it.offset2 == sign * it.path2 for it in all_of):
            yield f"all {len(all_of)} {name} arrive at the time at which they leave: this was recorded at the master's own port; record at the slave's"
            is_of_slave = False
            break
    paths = [it.path2 for it in responses]
    below, zero = sum(it < 0 for it in paths), sum(it == 0 for it in paths)
    if below:
        least = min(responses, key=lambda it: it.path2)
        yield (f"{below} of {len(paths)} path delays are below 0, the least {nanoseconds(least.path2)} ns at {unit} {least.place}: no message arrives "
               "before it leaves, so the times of the slave's or of the master's port are wrong, a clock was set or runs away, or a correction is too big")
    if is_of_slave and zero > len(paths) // 2:
        yield f'{zero} of {len(paths)} path delays are 0 exactly: the times are too coarse for this path, or made up'
    seconds = {whole(it.offset2) for it in syncs}
    if len(seconds) == 1 and seconds != {0}:
        second = seconds.pop()
        yield (f"all offsets are next to {second} s: one clock keeps UTC and the other TAI, which is 37 s ahead since 2017, or one isn't set; "
               f"where the slave's own clock is right, editcap -t {-second} mends a capture")
    offsets = [(it.units, it.offset2, it.place) for it in syncs]
    stepped = list(stepping('offset', 'a clock was set there, or the way changed', unit, offsets))
    yield from stepped or list(running(offsets)) or set_back(unit, offsets)
    yield from stepping('path delay', 'the way changed, or a clock was set there', unit, [(it.units, it.path2, it.place) for it in responses])
    times = [units for units, _ in reads]
    if times:
        yield from ending(unit, times, reports, became)
    repeats = counts['Delay_Req repeated'] + sum(counts[f'{kind} before'] for kind in ('Sync', 'Follow_Up', 'Delay_Resp'))
    if repeats:
        later = sorted(lags(became))
        yield f'messages with a number that came before: {repeats}' + (f', from {later[0]} to {later[-1]} ns after the first' if later else '') + (
            '; a mirror of both directions writes each twice, and the first of each was used')
    yield from company(became)
    falls = sum(one > other for one, other in zip(times, times[1:]))
    if falls:
        yield (f"times that are before that of the {unit} before: {falls}; a clock was set, or the {unit}s aren't in order, and what is told of missing "
               'messages may come of that: reordercap sorts a capture')
    yield from old_delays(unit, syncs, Flow(REQUEST, became))
    yield from losses(became)
    corrected = [it for it in firsts(became, REQUEST) if it.correction]
    if corrected:
        yield (f'Delay_Reqs that have a correction where they were recorded: {len(corrected)}, the first at {unit} {corrected[0].place}; a transparent '
               'clock stands between the slave and this place, and both results are off by half of the time in it, unless the slave itself corrects an '
               'asymmetry: record in front of it')
    yield from beginning(unit, became, SYNC, 'the master began its numbers anew', 'it was started anew, or another one took its identity, or many of its '
                         'Syncs are missing')
    yield from beginning(unit, became, REQUEST, 'the slave began anew', 'it was started anew, or many of its Delay_Reqs are missing')
    yield from apart(unit, syncs)
    cut = sum(said in ('refused 201', 'refused 205') for _, said in reads)
    if cut:
        yield f'datagrams that are cut short (201, 205): {cut}; a snap length does that, so record whole packets'
    if times and all(units % (1000 * NANOSECOND) == 0 for units in times):
        yield ('all times are of whole microseconds: no offset is better than 1 us; record with tcpdump --time-stamp-precision nano, or '
               'dumpcap')
