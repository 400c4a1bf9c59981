"""A reader of what was met at two taps that was written apart from `ptpx follow`: what that owes for an input.

It has all messages in memory, finds out first which are followed, and then goes through these."""
import fractions
import re
import statistics
import typing

import bewares
import reading
import shown
from texts import NAMED, counted, decimals, port, seconds, thousandths
from told import compact

SYNC, DELAY_REQ, FOLLOW_UP, DELAY_RESP = 0, 1, 8, 9
UNITS = 2**16

# How many messages are kept until all is known, how many Syncs of a tap are looked at, and how many records count.
KEPT, LOOKED_AT, RECORDS = 1024, 256, 256

# Of how many crossings of a kind, at the most, there are medians: the last ones.
RECENT = 4096

NAME = re.compile(rb'[A-Za-z0-9_.-]{1,16}')
LINE = re.compile(rb'([A-Za-z0-9_.-]{1,16}) (0|[1-9][0-9]*)(?:\.([0-9]{1,9}))? ((?:[0-9a-fA-F]{2})*)')

HEAD = 'time,kind,number,taken_ns,corrected_ns,rest_ns\n'


class Wanted(typing.NamedTuple):
    """What is asked for: names of taps as octets, portIdentities as ten octets."""
    start: bytes | None = None
    end: bytes | None = None
    domain: int | None = None
    master: bytes | None = None
    slave: bytes | None = None

    def arguments(self):
        """The words that ask for it."""
        named = [('from', self.start and self.start.decode()), ('to', self.end and self.end.decode()), ('domain', self.domain),
                 ('master', self.master and port(self.master)), ('slave', self.slave and port(self.slave))]
        return [word for name, value in named if value is not None for word in (f'--{name}', str(value))]


class Message(typing.NamedTuple):
    """A message that was met: at which tap, in which line or packet, when, and its fields."""
    tap: bytes
    line: int
    time: int
    octets: bytes

    @property
    def kind(self):
        return self.octets[0] % 16

    def __getattr__(self, field):
        return getattr(shown.message(self.octets), field)


def spread(units):
    """The greatest, the least and the mean of numbers of units, this rounded to a unit, half to even: `round` of a fraction does."""
    if not units:
        return {'greatest': None, 'least': None, 'mean': None}
    mean = round(fractions.Fraction(sum(units), len(units)))
    return {'greatest': nanoseconds(max(units)), 'least': nanoseconds(min(units)), 'mean': nanoseconds(mean)}


def sums(crossings):
    """The three lines of the sums over crossings."""
    lines, means = [], []
    for kind in ('sync', 'delay_req'):
        those = [it for it in crossings if it['kind'] == kind]
        told = {name: spread([it[name] for it in those]) for name in ('taken', 'corrected', 'rest')}
        steps = [abs(later['rest'] - it['rest']) for it, later in zip(those, those[1:])]
        told['rest'] = told['rest'] | {'step': nanoseconds(max(steps)) if steps else None}
        lines.append(told | {'count': len(those), 'kind': kind})
        means.append(fractions.Fraction(sum(it['rest'] for it in those), len(those)) if those else None)
    both = {'asymmetry': None, 'mean_rest': None}
    if None not in means:
        both = {'asymmetry': nanoseconds(round(means[0] - means[1])), 'mean_rest': nanoseconds(round((means[0] + means[1]) / 2))}
    return ''.join(f'{compact(it)}\n' for it in [*lines, both])


def is_beyond(crossings, limit):
    """Whether a rest is greater than so many nanoseconds, either way."""
    return limit is not None and any(abs(it['rest']) > fractions.Fraction(limit) * UNITS for it in crossings)


class Followed(typing.NamedTuple):
    """What is owed: the status, the lines, what standard error says, line by line, but for the fault, how many of these lines it says at once, before the
    fault and the rest, the fault (its number and its line, or its octet) and the tap that is a third one."""
    status: int
    crossings: list
    said: list
    at_once: int = 0
    fault: tuple | None = None
    third: bytes | None = None

    def text(self, csv=False, is_sum=False):
        if is_sum:
            return b'' if self.third else sums(self.crossings).encode()
        form = row if csv else json_line
        return ((HEAD if csv else '') + ''.join(map(form, self.crossings))).encode()


def nanoseconds(units):
    """Units of 2^-16 ns as nanoseconds, with the decimals that they have."""
    return decimals(fractions.Fraction(units, UNITS))


def json_line(crossing):
    told = {name: nanoseconds(crossing[name]) for name in ('corrected', 'rest', 'taken')}
    told |= {name: crossing[name] for name in ('from', 'to', 'kind', 'lines', 'number')} | {'time': seconds(crossing['time'])}
    return f'{compact(told)}\n'


def row(crossing):
    numbers = [nanoseconds(crossing[name]) for name in ('taken', 'corrected', 'rest')]
    return ','.join([seconds(crossing['time']), crossing['kind'], str(crossing['number']), *numbers]) + '\n'


def datagrams_of_capture(octets):
    """Tap, packet, time and octets of each datagram, and the fault."""
    answer = reading.read(octets)
    met = []
    for found in answer.rows:
        own = found.interface.own
        tap = own if own is not None and NAME.fullmatch(own) else b'if%d' % found.interface.place
        met.append(Message(tap, found.number, found.time, found.datagram))
    return met, answer.fault and ('capture', answer.fault)


def datagrams_of_lines(text):
    met = []
    for place, line in enumerate(shown.lines_of(text), 1):
        said, fault = shown.read(line, LINE)
        if fault is None and (int(said[2]) >= 2**48 or len(said[4]) > 4096):
            fault = 806
        if fault:
            return met, ('line', (fault, place))
        tap, whole, rest, digits = said.groups()
        time = int(whole) * 10**9 + int((rest or b'').ljust(9, b'0'))
        met.append(Message(tap, place, time, bytes.fromhex(digits.decode())))
    return met, None


class Watch:
    """What the messages tell that is not asked for."""

    def __init__(self, wanted):
        self.domain, self.master = wanted.domain, wanted.master
        self.taps = [wanted.start, wanted.end]
        # the place among the taps of that which a Sync meets first
        self.first = 0 if wanted.start is not None or wanted.end is not None else None
        self.syncs = [[], []]

    def place(self, tap):
        """Which of the two taps it is, or None of a third one."""
        if tap not in self.taps:
            if None not in self.taps:
                return None
            self.taps[self.taps.index(None)] = tap
        return self.taps.index(tap)

    def notice(self, message):
        if message.kind != SYNC:
            return
        if self.domain is None and self.master in (None, message.source):
            self.domain = message.domain
        if self.master is None and message.domain == self.domain:
            self.master = message.source
        if (message.domain, message.source) != (self.domain, self.master):
            return
        here = self.taps.index(message.tap)
        if self.first is None:
            other = next((time for number, time in reversed(self.syncs[1 - here]) if number == message.sequence), None)
            if other is not None:
                self.first = here if message.time < other else 1 - here
        self.syncs[here] = [*self.syncs[here], (message.sequence, message.time)][-LOOKED_AT:]

    def is_known(self):
        return None not in (self.domain, self.master, self.first, *self.taps)

    def slave(self, messages):
        """The source of the first Delay_Req of the domain at the tap that a Sync meets last."""
        last = self.taps[1 - self.first]
        return next((it.source for it in messages if it.kind == DELAY_REQ and it.domain == self.domain and it.tap == last), None)


class Records:
    """The records of a kind, by the order in which they were opened."""

    def __init__(self):
        self.opened = []
        self.spoiled = 0

    def take(self, place, message, number, complete):
        """The places of the record that this message closes, or None."""
        record = next((it for it in reversed(self.opened[-RECORDS:]) if it['number'] == number), None)
        if record is None or record['state'] == 'closed':
            record = {'number': number, 'state': 'open', 'places': {}}
            self.opened.append(record)
        if record['state'] == 'spoiled':
            return None
        places = record['places']
        if place in places:
            record['state'] = 'spoiled'
            self.spoiled += 1
            return None
        places[place] = message
        needed = complete(places)
        if needed is None or not all(it in places for it in needed):
            return None
        record['state'] = 'closed'
        return [places[it] if it in needed else None for it in ('first', 'second', 'from', 'to')]

    def lost(self, here, there):
        """How many open records have an event message here and not there."""
        return sum(it['state'] == 'open' and here in it['places'] and there not in it['places'] for it in self.opened)

    def unfinished(self):
        """How many open records have both event messages, and not both of the others."""
        return sum(it['state'] == 'open' and {'first', 'second'} <= set(it['places']) and not {'from', 'to'} <= set(it['places']) for it in self.opened)


def needs(kind):
    """Of a record's places, those that it needs, or None while that isn't known."""
    def complete(places):
        if 'first' not in places or 'second' not in places:
            return None
        if kind == 'delay_req':
            return ['first', 'second', 'from', 'to']
        if not places['second'].two_step:
            return ['first', 'second']
        return ['first', 'second', *(['from'] if places['first'].two_step else []), 'to']
    return complete


def why_none(kind, places):
    """Why a closed record is no crossing, or None where it is one."""
    first, second, at_from, at_to = places
    if any(it is not None and it.correction == shown.TOO_BIG for it in places):
        return 'too big'
    if kind == 'sync' and first.two_step and not second.two_step:
        return 'two-step'
    event_from, event_to = (first, second) if kind == 'sync' else (second, first)
    return 'timestamp' if (at_from or event_from).stamp != (at_to or event_to).stamp else None


# The fields that are compared, by the octets in which they are, each with the bits that count.
COMPARED = {'sdoId': {0: 0xf0, 5: 0xff}, 'minorVersionPTP': {1: 0xf0}, 'flagField': {6: 0xff, 7: 0xff}, 'messageTypeSpecific': dict.fromkeys(range(16, 20), 0xff),
            'controlField': {32: 0xff}, 'logMessageInterval': {33: 0xff}, 'originTimestamp': dict.fromkeys(range(34, 44), 0xff)}


def changed(one, other):
    """The fields that differ of two messages."""
    if one is None or other is None:
        return []
    return [field for field, octets in COMPARED.items() if any((one.octets[place] ^ other.octets[place]) & bits for place, bits in octets.items())]


def crossing_of(kind, number, places):
    """What is told of a closed record that is a crossing."""
    first, second, at_from, at_to = places
    taken = (second.time - first.time) * UNITS
    corrected = second.correction - first.correction + (at_to.correction if at_to else 0) - (at_from.correction if at_from else 0)
    return {'kind': kind, 'number': number, 'taken': taken, 'corrected': corrected, 'rest': taken - corrected, 'time': first.time,
            'lines': [it.line if it else None for it in places], 'changed': [changed(first, second), changed(at_from, at_to)]}


class Follower:
    """The messages that are followed, and what came of them."""

    def __init__(self, watch, slave):
        self.watch, self.slave = watch, slave
        self.start, self.end = watch.taps[watch.first], watch.taps[1 - watch.first]
        self.records = {'sync': Records(), 'delay_req': Records()}
        self.crossings = []
        self.untold = {'sync': [], 'delay_req': []}

    def placed(self, message):
        """The kind and the place of a message, or None where it isn't followed."""
        at = 'from' if message.tap == self.start else 'to'
        of_master = message.source == self.watch.master
        if message.kind == SYNC and of_master:
            return 'sync', 'first' if at == 'from' else 'second'
        if message.kind == FOLLOW_UP and of_master:
            return 'sync', at
        if message.kind == DELAY_REQ and message.source == self.slave:
            return 'delay_req', 'first' if at == 'to' else 'second'
        if message.kind == DELAY_RESP and of_master and message.requesting == self.slave:
            return 'delay_req', at
        return None

    def take(self, message):
        if self.slave is None:
            self.slave = self.watch.slave([message])
        placed = self.placed(message) if message.domain == self.watch.domain else None
        if placed is None:
            return
        kind, place = placed
        closed = self.records[kind].take(place, message, message.sequence, needs(kind))
        if closed is None:
            return
        why = why_none(kind, closed)
        if why:
            self.untold[kind].append(why)
        else:
            self.crossings.append(crossing_of(kind, message.sequence, closed) | {'from': self.start.decode(), 'to': self.end.decode()})


def were(count, word, rest_of_one, rest_of_more):
    """A line of so many messages of a kind, or none."""
    return [f'{counted(count, word)} {f"was {rest_of_one}" if count == 1 else f"were {rest_of_more}"}'] if count else []


def rate(crossings):
    """By how many millionths of what Syncs were corrected by their rest grows, by least squares, and whether that explains half of how it varies; none of
    fewer than 16, and where all were corrected by the same."""
    corrected, rest = ([fractions.Fraction(it[name]) for it in crossings if it['kind'] == 'sync'] for name in ('corrected', 'rest'))
    if len(rest) < 16 or len(set(corrected)) == 1:
        return None
    one, other = (sum(them) / len(them) for them in (corrected, rest))
    run = sum((it - one) ** 2 for it in corrected)
    rise = sum((it - one) * (its - other) for it, its in zip(corrected, rest))
    return rise / run * 10**6, 2 * rise**2 >= run * sum((it - other) ** 2 for it in rest)


def rate_lines(ways):
    """What is said of that, from 1 ppm on, where nothing speaks against it."""
    ppm, explains_half = ways.told_rate() or (0, False)
    if not ppm:
        return []
    wrong = 'long' if ppm < 0 else 'short'
    meaning = (f'half of how it varies, or more: by so much a clock between the taps tells its residences too {wrong}, where its rate is the reason' if explains_half
               else 'less than half of how it varies: stamps or the load of a clock are a likelier reason than its rate')
    return [f'rate: rest of Syncs grows by {thousandths(ppm)} ppm of corrected, by least squares (rounded), which explains {meaning}']


def crossed(count, word, first, second, medians=''):
    """How many messages of a kind crossed."""
    return f'{counted(count, word) if count else f"no {word}"} crossed from {first} to {second}' + (f'; in ns, rounded{medians}:' if count else '')


def figure(name, *values):
    """What of crossings of a kind one of three values comes to, in rounded texts."""
    return f'  {name}: ' + ', '.join(f'{which} {value}' for which, value in zip(('least', 'median', 'mean', 'greatest'), values, strict=True))


def asymmetric(asymmetry, half, end, is_below):
    """What is said of an asymmetry, in rounded texts, where Syncs end at this tap, and whether it is below 0."""
    which = 'low' if is_below else 'high'
    return f'asymmetry {asymmetry} ns. If both taps share a clock, a slave behind {end} reads offsets {half.removeprefix("-")} ns too {which}'


def both_ways(mean):
    """What is said of the mean rest of both directions, a rounded text."""
    return f"mean rest of both directions, in which the difference of the taps' clocks cancels: {mean} ns"


def figures(crossings, ways, start, end):
    """What standard error tells of crossings, line by line. Means and the asymmetry are those of the sums, to 2^-16 ns, and medians those of the last
    4,096 of a kind."""
    lines = []
    for kind, word, first, second in (('sync', 'Sync', start, end), ('delay_req', 'Delay_Req', end, start)):
        those = [it for it in crossings if it['kind'] == kind]
        lines.append(crossed(len(those), word, first, second, f', medians of the last {RECENT}' * (len(those) > RECENT)))
        for name in ('taken', 'corrected', 'rest') if those else ():
            units = [fractions.Fraction(it[name]) for it in those]
            mean = fractions.Fraction(round(sum(units) / len(units)))
            median = statistics.median(units[-RECENT:])
            lines.append(figure(name, *(thousandths(it / UNITS) for it in (min(units), median, mean, max(units)))))
    lines += rate_lines(ways)
    asymmetry = ways.told_asymmetry()
    if asymmetry is not None:
        asymmetry = fractions.Fraction(asymmetry, UNITS)
        lines.append(asymmetric(thousandths(asymmetry), thousandths(asymmetry / 2), end, asymmetry < 0))
    mean = ways.told_mean_rest()
    if mean is not None:
        lines.append(both_ways(thousandths(fractions.Fraction(mean, UNITS))))
    return lines


def changed_lines(crossings):
    """What is said of other fields than corrections that changed."""
    messages = [fields for it in crossings for fields in it['changed'] if fields]
    if not messages:
        return []
    by_field = [(field, sum(field in fields for fields in messages)) for field in COMPARED]
    return [f'in {counted(len(messages), "message")} fields other than correctionField differ between the taps: ' + ', '.join(f'{field} in {count}' for field, count in by_field if count)]


def untold_lines(follower, kind, word):
    """Of how many nothing is told, by why."""
    why = follower.untold[kind]
    counts = [(follower.records[kind].spoiled, 'of which a message came twice to a tap'),
              (why.count('too big'), 'with a correction that is too big to be represented'),
              (why.count('two-step'), f'with twoStepFlag only at {follower.start.decode()}'),
              (why.count('timestamp'), 'with timestamps that differ between the taps')]
    return [f'nothing is told of {counted(count, word)} {which}' for count, which in counts if count]


def said(watch, follower, unit):
    """What standard error says, without the name of the program in front, where packets or lines are the unit."""
    names = [it.decode() for it in watch.taps if it is not None]
    if follower is None:
        if len(names) == 2:
            return [f"nothing was followed between {names[0]} and {names[1]}: the domain, the master, the slave or the way isn't known"]
        return [f'nothing was met at another tap than {names[0]}' if names else 'nothing was met at a tap']
    start, end = follower.start.decode(), follower.end.decode()
    slave = f'slave {port(follower.slave)}' if follower.slave else f'no Delay_Req at {end} tells the slave'
    lines = [f'from {start} to {end}', f'domain {watch.domain}', f'master {port(watch.master)}', slave]
    ways = bewares.Ways(follower.crossings, rate(follower.crossings), start, end, unit)
    lines += figures(follower.crossings, ways, start, end) + changed_lines(follower.crossings)
    for kind, word, other, first, second in (('sync', 'Sync', 'Follow_Up', start, end), ('delay_req', 'Delay_Req', 'Delay_Resp', end, start)):
        records = follower.records[kind]
        for count, here, there in ((records.lost('first', 'second'), first, second), (records.lost('second', 'first'), second, first)):
            lines += were(count, word, *[f'met at {here} and not at {there}'] * 2)
        lines += were(records.unfinished(), word, f'met at both taps, and a {other} of it is missing', f'met at both taps, and a {other} of each is missing')
    lines += untold_lines(follower, 'sync', 'Sync') + untold_lines(follower, 'delay_req', 'Delay_Req')
    return lines + [f'beware: {it}' for it in ways.bewares()]


def not_met(wanted, taps):
    """What is said of taps that are asked for and weren't met, by those that were."""
    named = [tap.decode() for tap in taps[:NAMED]]
    there = f': the taps are {", ".join(named)}{" and others" * (len(taps) > NAMED)}' if named else ', or at any other tap'
    return [f'nothing was met at {tap.decode()}, which {option} names{there}' for tap, option in ((wanted.start, '--from'), (wanted.end, '--to'))
            if tap is not None and tap not in taps]


def follow(octets, wanted=Wanted()):
    """What `ptpx follow` owes for an input."""
    met, fault = (datagrams_of_capture if octets[:4] in reading.MAGICS else datagrams_of_lines)(octets)
    watch, kept, follower, third = Watch(wanted), [], None, None

    def begin(is_enough):
        slave = wanted.slave
        first = kept if len(kept) <= KEPT else kept[-1:]
        if not watch.is_known():
            return None
        slave = slave if slave is not None else watch.slave(first)
        if slave is None and not is_enough:
            return None
        begun = Follower(watch, slave)
        for message in first:
            begun.take(message)
        return begun

    for message in met:
        place = watch.place(message.tap)
        if place is None:
            if wanted.start is not None and wanted.end is not None:
                continue
            third = message
            break
        if shown.refusal(message.octets):
            continue
        if follower:
            follower.take(message)
            continue
        watch.notice(message)
        kept.append(message)
        follower = begin(len(kept) >= KEPT)
    if third is None and fault is None and follower is None:
        follower = begin(True)
    crossings = follower.crossings if follower else []
    told = said(watch, follower, 'packet' if octets[:4] in reading.MAGICS else 'line'), 0 if follower is None else 4 if follower.slave else 3
    if third is not None:
        return Followed(2, crossings, *told, ('third', (809, third.line)), third.tap)
    lacking = [] if fault else not_met(wanted, list(dict.fromkeys(message.tap for message in met)))
    return Followed(3 if fault else 2 if lacking else 0, crossings, told[0] + lacking, told[1], fault)
