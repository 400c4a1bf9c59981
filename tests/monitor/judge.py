#!/usr/bin/env -S python3 -B
"""A plain judge of results that a slave reported, by its own readings: what `audit` owes, over fractions, and apart from all code of the
repository.

usage: judge.py [--tolerance NS] [--offset-only] < LINES

LINES are datagrams, each a time, a blank and octets in hexadecimal, and results, each an object of JSON with `offset` and `path` in
nanoseconds. Of datagrams Signaling messages of slave event monitoring are read (IEEE 1588-2019, 16.11): SLAVE_RX_SYNC_TIMING_DATA,
0x8004, of which each record is a Sync that the slave took, and linuxptp's SLAVE_DELAY_TIMING_DATA_NP, 0x7f00, of which each record is an
exchange. A Sync counts where there is an exchange, and an exchange where there is a Sync. A result is of the newest Sync in front of it,
or, where it names a line or a sequenceId, of one that comes; or of the newest exchange, if that came behind the Sync. Each gets a line of
JSON, and standard error tells why one is wrong or unjudged, and at the end how many there are of each verdict.

Lengths are nanoseconds. Of a Sync B = t2 - t1 - correction, of an exchange b = t4 - t3 - correction; by a Sync and an exchange
meanPathDelay is (B + b) / 2.
"""
import argparse
import collections
import json
import re
import sys
import typing
from fractions import Fraction

SIGNALING = 12
# By a TLV's type: of what its records are, and of how many octets each is. Of what it has the first is the master's portIdentity.
KINDS = {0x8004: ('Sync', 34), 0x7f00: ('exchange', 30)}
IDENTITY, HEADER, CLOCK = 10, 44, slice(20, 28)
# So many delays at responses are looked at, so many numbers may be missing between two records of one life of their sender, and so many
# results are held.
NEWEST, NEAR, HELD = 16, 256, 1024
# In nanoseconds.
SECOND = 10**9
# Of so many sequenceIds those less than half a circle ahead are newer.
CIRCLE = 65536
DATAGRAM = re.compile(r'((?:0|[1-9][0-9]{0,14})(?:\.[0-9]{1,9})?) ((?:[0-9a-fA-F]{2})*)')
NUMBER = re.compile(r'-?(0|[1-9][0-9]{0,23})(\.[0-9]{1,16})?')
# No number here has more decimals.
DECIMALS = 17
VERDICTS = ('exact', 'within', 'filtered', 'older', 'wrong', 'unjudged')
BEST = ('exact', 'within', 'filtered', 'older', 'unjudged', 'wrong')
MEMBERS = ('beyond', 'line', 'offset', 'offset_error', 'path', 'path_error', 'path_is', 'sequence', 'sum_error', 'tags', 'time', 'verdict')
NOT_WHOLE = 'not each of the last 16 delays at responses is known'
NO_RESULT = 'no result: a line as {"offset":"-12.5","path":"1000"} is one'
NO_SYNC = 'no Sync behind an exchange came before it'


class Record:
    """A Sync or an exchange, as the slave has it, and the line in which it was told."""

    def __init__(self, kind, octets, master, line):
        def whole(place, size):
            return int.from_bytes(octets[place:place + size], 'big')

        self.kind, self.master, self.line = kind, master, line
        self.number = whole(0, 2)
        correction = Fraction(int.from_bytes(octets[12:20], 'big', signed=True), 1 << 16)
        # Between the two times of a Sync scaledCumulativeRateOffset stands, too.
        last = 24 if kind == 'Sync' else 20
        left, arrived = (whole(it, 6) * SECOND + whole(it + 6, 4) for it in (2, last))
        self.bracket = arrived - left - correction
        self.arrived = f'{whole(last, 6)}.{whole(last + 6, 4):09}'
        # What it comes to where there is a record of the other kind in front of it: its place among all of these; what is missing between its
        # Sync and that of the last one, and between their exchanges, where these are others; and what is known then.
        self.place, self.gaps, self.known = None, None, None


def records(octets):
    """The kind, the octets and the master of each record of a datagram: none where a length doesn't fit, or nanoseconds make a second."""
    if len(octets) < HEADER or octets[0] % 16 != SIGNALING or octets[1] % 16 != 2:
        return []
    length = int.from_bytes(octets[2:4], 'big')
    found, place = [], HEADER
    if not HEADER <= length <= len(octets):
        return []
    while place < length:
        size = int.from_bytes(octets[place + 2:place + 4], 'big')
        kind, of_record = KINDS.get(int.from_bytes(octets[place:place + 2], 'big'), (None, 1))
        value = octets[place + 4:min(place + 4 + size, length)]
        if place + 4 > length or len(value) < size or kind and (size < IDENTITY or (size - IDENTITY) % of_record):
            return []
        if kind:
            found += [(kind, value[it:it + of_record], value[:IDENTITY]) for it in range(IDENTITY, size, of_record)]
        place += 4 + size
    if any(int.from_bytes(it, 'big') >= SECOND for _, them, _ in found for it in (them[8:12], them[-4:])):
        return []
    return found


def watched(datagrams):
    """The records of each of these datagrams, by its line: of the slave that is the first to tell any, in the domain of its first Sync, and
    of the master of that."""
    told = [(line, octets, it) for line, octets in datagrams for it in records(octets)]
    told = [it for it in told if it[1][CLOCK] == told[0][1][CLOCK]]
    first = next((it for it in told if it[2][0] == 'Sync'), None)
    found = {line: [] for line, _ in datagrams}
    for line, octets, (kind, them, master) in told:
        if first and (octets[4], master) == (first[1][4], first[2][2]):
            found[line].append(Record(kind, them, master, line))
    return found


def missing(last, number):
    """The numbers between that of the last record of a kind and this one, or None where one of them began anew."""
    ahead = (number - last) % CIRCLE
    return [(last + it) % CIRCLE for it in range(1, ahead)] if 1 <= ahead <= NEAR else None


def delay(sync, exchange):
    return (sync.bracket + exchange.bracket) / 2


class Known(typing.NamedTuple):
    """What is known at a record that counts: the newest Sync and exchange, of which it is one, and the delays at the last responses, newest
    first, None where one isn't known."""
    sync: Record
    exchange: Record
    delays: tuple

    @property
    def line(self):
        return max(self.sync.line, self.exchange.line)

    def latest(self):
        return delay(self.sync, self.exchange)


class Slave:
    """What a slave has told of its readings so far."""

    def __init__(self):
        # The last record of each kind that came, with those that count nothing; and those that count, in order.
        self.heard, self.counted = {}, []
        # The numbers of the Sync and the exchange of the last one that counts.
        self.last = {}
        # The pair by which the next one counts: none of those that came before one of the two began anew.
        self.pair = {}
        # Delays at the last responses, newest first, of which so many came since the last Sync. Those before the first aren't known, for a slave
        # may have run long before; nor are those before numbers began anew, of which a filter may still know.
        self.delays, self.since = [], 0

    def take(self, record):
        kind = record.kind
        if kind in self.heard and record.number == self.heard[kind].number:
            return
        if kind in self.heard and missing(self.heard[kind].number, record.number) is None:
            self.pair, self.delays, self.since = {}, [], 0
        self.heard[kind] = self.pair[kind] = record
        if len(self.pair) < 2:
            return
        record.place, record.gaps = len(self.counted), dict(self.gaps(kind))
        self.counted.append(record)
        if None in record.gaps.values():
            self.delays, self.since = [], 0
        if kind == 'Sync':
            self.take_sync(record.gaps[kind])
        else:
            self.take_exchange(record.gaps[kind])
        record.known = self.known()
        self.last = {it: of.number for it, of in self.pair.items()}

    def gaps(self, kind):
        """What is missing, by the kind of which another one came."""
        for it, of in self.pair.items():
            if it == kind or of.number != self.last.get(it):
                yield it, missing(self.last[it], of.number) if it in self.last else []

    def known(self):
        return Known(self.pair['Sync'], self.pair['exchange'], tuple(self.delays))

    def take_sync(self, gap):
        """One that is missing may be that by which the delays since the one before were."""
        if gap and self.since:
            self.delays[:self.since] = [None]
        self.since = 0

    def take_exchange(self, gap):
        """Those that are missing, however many, are one delay that isn't known."""
        new = [self.known().latest()] + [None] * bool(gap)
        self.delays = (new + self.delays)[:NEWEST]
        self.since += len(new)


def median(values):
    values = sorted(values)
    return (values[(len(values) - 1) // 2] + values[len(values) // 2]) / 2


def named_delays(latest, known):
    """What `path_is` may be, the first that fits counts."""
    yield 'latest', latest
    for count, it in enumerate(known, 1):
        yield f'response {count}', it
    for name, of in (('median', median), ('mean', lambda them: sum(them) / len(them))):
        for count in range(2, len(known) + 1):
            yield f'{name} {count}', of(known[:count])


def verdict(at, offset, path, tolerance):
    """What a result is by what is known at a record: the members that are told of it, and why it is wrong. Where it has no path, that is
    what makes its offset."""
    bracket, latest, known = at.sync.bracket, at.latest(), [it for it in at.delays if it is not None]
    has_path, path = path is not None, bracket - offset if path is None else path
    least, greatest = min([latest, *known]), max([latest, *known])
    beyond = max(least - path, path - greatest, Fraction(0))
    offset_error, path_error = offset - (bracket - latest), path - latest
    sum_error = offset + path - bracket
    path_is = next((name for name, it in named_delays(latest, known) if abs(path - it) <= tolerance), 'outside' if beyond > tolerance else 'between')
    said = {'beyond': beyond, 'offset_error': offset_error, 'path_error': path_error, 'path_is': path_is, 'sum_error': sum_error}
    sum_fits, offset_fits = abs(sum_error) <= tolerance, abs(offset_error) <= tolerance
    off = decimals(offset_error)
    if offset_error == path_error == 0:
        return said, 'exact', ''
    if offset_fits and abs(path_error) <= tolerance:
        return said, 'within', ''
    if sum_fits and beyond <= tolerance:
        return said, 'filtered', ''
    if offset_fits and any(abs(path - it) <= tolerance for it in known):
        return said, 'older', ''
    if len(known) < NEWEST and (sum_fits or offset_fits):
        return said, 'unjudged', NOT_WHOLE
    if not has_path:
        return said, 'wrong', f'offset is {off} ns from that by the newest delay, and by none within the newest ones{whole_seconds(tolerance, offset_error)}'
    if sum_fits:
        return said, 'wrong', f'offset is by path, which lies {decimals(beyond)} ns outside of the newest delays'
    if offset_fits:
        return said, 'wrong', f'offset is by the newest delay; path is {decimals(path_error)} ns from that, and none at the last responses'
    seconds = whole_seconds(tolerance, sum_error, offset_error)
    return said, 'wrong', f'offset is {decimals(sum_error)} ns from that by path, and {off} ns from that by the newest delay{seconds}'


def whole_seconds(tolerance, *errors):
    """What is told further of a result where one of these errors, the first counts, is a whole number of seconds, but not 0."""
    for size in map(abs, errors):
        count = (size + SECOND // 2) // SECOND
        if count and abs(size - count * SECOND) <= tolerance:
            return f': a whole {count} s, as with currentUtcOffset in the result alone, or in the readings alone'
    return ''


def decimals(value):
    """A number with all its decimals."""
    value = Fraction(value) * 10**DECIMALS
    assert value.denominator == 1, value
    whole, rest = divmod(abs(value.numerator), 10**DECIMALS)
    return ('-' if value < 0 else '') + f'{whole}.{rest:0{DECIMALS}}'.rstrip('0').rstrip('.')


def number(value):
    if not NUMBER.fullmatch(value := str(value)):
        raise ValueError(f'{value} is no number of nanoseconds')
    return Fraction(value)


class Moment(typing.NamedTuple):
    """What is known between two things that come: at the newest Sync, if one counts, and at the newest exchange, if that came behind it; how many
    records count, and how many lines were read; and the line behind which it is."""
    at_sync: Known
    at_exchange: Known
    counted: int
    read: int
    line: int

    def behind(self, record):
        """The next one, behind a record that counts."""
        known = record.known
        if record.kind == 'Sync':
            return self._replace(at_sync=known, at_exchange=None, counted=record.place + 1)
        is_of_it = self.at_sync and self.at_sync.sync is known.sync
        return self._replace(at_sync=self.at_sync if is_of_it else None, at_exchange=known, counted=record.place + 1)

    @property
    def by(self):
        """That by which a result may be, in order."""
        return [it for it in (self.at_sync, self.at_exchange) if it]


class Told:
    """A result, and when it is judged, by what is known then, or why there is nothing."""

    def __init__(self, line, said, place):
        self.line, self.said, self.place, self.at, self.why = line, said, place, None, ''
        self.names = 'sequence' in said or 'line' in said

    def is_settled(self, at, is_end):
        """Whether its Sync is known at a moment; where nothing comes any more, it has to be."""
        if 'sequence' in self.said:
            wanted = int(self.said['sequence'])
            ahead = (wanted - at.by[0].sync.number) % CIRCLE if at.by else 1
            if ahead and ahead < CIRCLE // 2 and not is_end:
                return False
            self.at, self.why = (None, f"Sync {wanted} wasn't the newest one when it was judged") if ahead else (at, '')
            return True
        wanted = int(self.said.get('line', at.read))
        if at.read < wanted and not is_end:
            return False
        if not at.by:
            self.why = NO_SYNC
        elif self.names and wanted < at.by[0].line:
            self.why = f'line {wanted} lies in front of the newest report already'
        else:
            self.at = at
        return True


def read(lines):
    """The records that count, in order, all moments, and the results in the order in which they are judged. What is neither a datagram nor a
    result is an error."""
    datagrams, results = [], []
    for count, line in enumerate(lines, 1):
        line = line.rstrip('\r\n')
        if line.startswith('{'):
            results.append((count, json.loads(line, parse_float=str, parse_int=str)))
            continue
        parts = DATAGRAM.fullmatch(line)
        if not parts:
            raise ValueError(f'line {count} is neither a datagram nor a result')
        datagrams.append((count, bytes.fromhex(parts[2])))
    slave, moments = Slave(), [Moment(None, None, 0, 0, 0)]
    for count, those in watched(datagrams).items():
        for it in those:
            slave.take(it)
            if it.place is not None:
                moments.append(moments[-1]._replace(read=count - 1, line=count))
                moments.append(moments[-1].behind(it))
        moments.append(moments[-1]._replace(read=count, line=count))
    moments.append(moments[-1]._replace(read=len(lines), line=len(lines)))
    return slave.counted, moments, sorted(settled(results, moments), key=lambda it: (it.place, it.line))


def settled(results, moments):
    """Each result with the place of the moment at which it is judged. One that names its Sync waits for those before it that do."""
    came, waiting, end = 0, 0, len(moments) - 1
    for line, said in results:
        while came + 1 < end and moments[came + 1].line < line:
            came += 1
        it = Told(line, said, came)
        if it.names:
            it.place = max(came, waiting)
        while not it.is_settled(moments[it.place], it.place == end):
            it.place += 1
        if it.names:
            waiting = it.place
        yield it


def missed(kind, gap):
    """In words, where anything is missing before a record, or its sender began anew."""
    if gap is None:
        return f'the numbers of {"Syncs" if kind == "Sync" else "Delay_Reqs"} began anew behind its own'
    return gap and (f'Sync {gap[0]} is missing' if kind == 'Sync' else f'the exchange of Delay_Req {gap[0]} is missing')


def excuse_at_once(at, counted):
    """What is missing before one of the exchanges behind a Sync, of which a result may be."""
    return next(filter(None, (missed('exchange', it.gaps['exchange']) for it in counted[at.at_sync.sync.place + 1:at.counted])), '')


def excuse(at, counted, until, is_of_offset):
    """What is missing beside the messages that a result is of, as the next ones tell that come up to a line; where no Sync does, an offset alone
    may be that of one that is missing."""
    waits = {'Sync', 'exchange'}
    for it in counted[at.counted:]:
        if it.line > until:
            break
        for kind in ('exchange', 'Sync'):
            if kind in waits and kind in it.gaps:
                waits.remove(kind)
                if found := missed(kind, it.gaps[kind]):
                    return found
    if 'Sync' in waits and is_of_offset:
        return 'no Sync came behind its own, so it may be of one that is missing'
    return 'no exchange came behind its own, so it may be by one that is missing' if 'exchange' in waits else ''


class Answer(typing.NamedTuple):
    """A result: its own line, its verdict, why it is wrong or unjudged, and the members of its line of JSON."""
    line: int
    verdict: str
    why: str
    told: dict


def judged_by(at, counted, offset, path, tolerance):
    """What a result is by that by which it is best, and by what; of equal ones the first counts."""
    found = []
    for by in at.by:
        said, name, why = verdict(by, offset, path, tolerance)
        if name == 'wrong' and by is at.at_sync and (gone := excuse_at_once(at, counted)):
            name, why = 'unjudged', gone
        found.append((by, said, name, why))
    return min(found, key=lambda it: BEST.index(it[2]))


def answer(it, counted, until, tolerance, has_path):
    """What is said of a result, which is held until this line has come."""
    offset, path = number(it.said['offset']), number(it.said['path']) if has_path else None
    told, name, why = dict.fromkeys(MEMBERS), 'unjudged', it.why
    if it.at:
        by, more, name, why = judged_by(it.at, counted, offset, path, tolerance)
        is_of_offset = not has_path or all(abs(more[key]) > tolerance for key in ('offset_error', 'sum_error'))
        if name == 'wrong' and (missed := excuse(it.at, counted, until, is_of_offset)):
            name, why = 'unjudged', missed
        sync, exchange = by.sync, by.exchange.line
        told |= {'line': by.line, 'sequence': sync.number, 'tags': [sync.line, None, exchange, exchange], 'time': sync.arrived, **more}
        if not has_path:
            told |= {'path_error': None, 'sum_error': None}
    told |= {'offset': offset, 'path': path, 'verdict': name}
    return Answer(it.line, name, why, {key: decimals(value) if isinstance(value, Fraction) else value for key, value in told.items()})


def audited(lines, tolerance, has_path=True):
    """What is said of each result, in order, and what is told on standard error."""
    lines = list(lines)
    counted, moments, results = read(lines)
    untils = [moments[it.place].line for it in results[HELD:]] + [len(lines)] * HELD
    answers = [answer(it, counted, until, tolerance, has_path) for it, until in zip(results, untils)]
    syncs = sum(it.kind == 'Sync' for it in counted) - len({it.at.at_sync.sync.place for it in results if it.at and it.at.at_sync})
    return answers, [*(f'line {it.line}: {it.verdict}: {it.why}' for it in answers if it.why), *summary(answers, syncs, bool(counted))]


def judged(lines, tolerance, has_path=True):
    return audited(lines, tolerance, has_path)[0]


def off_at_least(told):
    """By how much a result is off, whatever delay it is by. Where it has no path, that is what makes its offset."""
    beyond, offset = (abs(Fraction(told[it])) for it in ('beyond', 'offset_error'))
    total, path = (abs(Fraction(told[it] or other)) for it, other in (('sum_error', 0), ('path_error', offset)))
    return min(max(total, beyond), max(offset, path))


def summary(answers, without, has_report):
    """What is told at the end, where so many Syncs have no result, and there was a report or not."""
    counts = collections.Counter(it.verdict for it in answers)
    several = f'{len(answers)} result{"" if len(answers) == 1 else "s"}' if answers else NO_RESULT
    yield ', '.join([several, *(f'{counts[it]} {it}' for it in VERDICTS if counts[it])])
    # The first of those that are farthest off, by their path delay or by the newest one, whatever is nearer.
    wrong = [(off_at_least(it.told), it.line) for it in answers if it.verdict == 'wrong']
    if wrong:
        off, line = max(wrong, key=lambda it: it[0])
        yield f'the worst is that of line {line}, which is {decimals(off)} ns off at the least'
    if without and answers:
        yield f'no result of {without} Sync{"" if without == 1 else "s"}'
    if answers and has_report:
        yield "by the slave's own readings"


def main():
    parser = argparse.ArgumentParser(description=__doc__, formatter_class=argparse.RawDescriptionHelpFormatter)
    parser.add_argument('--tolerance', type=number, default=Fraction(1))
    parser.add_argument('--offset-only', action='store_true')
    given = parser.parse_args()
    answers, told = audited(sys.stdin, given.tolerance, not given.offset_only)
    for it in answers:
        print(json.dumps(it.told, separators=(',', ':')))
    for it in told:
        print(f'judge: {it}', file=sys.stderr)
    return any(it.verdict == 'wrong' for it in answers)


if __name__ == '__main__':
    sys.exit(main())
