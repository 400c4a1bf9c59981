"""A reader of recordings that was written apart from the program: what `measure` owes for an input and its options.
That is what goes to standard output, the fault if there is one, what became of the datagrams of each kind, and what is
told at the end. A slave's own readings are read by the records of tests/monitor/judge.py."""
import collections
import itertools
import re
import typing
from fractions import Fraction

import announces
import judge
import shown
import texts
import worth
from shown import Message, message
from told import compact
from worth import nanoseconds

# How many lines wait until it is known whom to watch, how many of each kind of message a port holds, and of how many of the master's
# the numbers are known.
KEPT = 1024
HELD = 256
KNOWN = 256

# After so many Syncs of the master a tick falls. How many numbers a Sync may be ahead of the newest one, and how many whatever interval it tells.
TICK = 4096
REACH = 256
LOST = 16

# A second, in units.
SECOND = 10**9 * 2**16

# A time: seconds and their decimals. A line: a time and the octets.
TIME = re.compile(rb'(0|[1-9][0-9]{0,14})(?:\.([0-9]{1,9}))?')
LINE = re.compile(TIME.pattern + rb' ((?:[0-9a-fA-F]{2})*)')

# An identity as `show` prints it, and as pmc does.
IDENTITIES = [re.compile(form) for form in (
    r'([0-9a-fA-F]{16})/([0-9]{1,5})', r'([0-9a-fA-F]{6}\.[0-9a-fA-F]{4}\.[0-9a-fA-F]{6})-([0-9]{1,5})')]

# A line with what it said, its octets, and whether it is a slave's own reading; and what completed on either side, with the tick at which it did, when it
# left and came, and its corrections.
Read = collections.namedtuple('Read', 'place time units said octets is_own', defaults=[False])
Completed = collections.namedtuple('Completed', 'tick bracket tags sequence left came correction')

# The columns of a row, and those of it in full.
HEAD = 'time,offset_ns,path_ns,by,line'
FULL = ',t1_s,t2_s,t3_s,t4_s,sync_correction_ns,delay_correction_ns,sync_number,request_number,t2_to_t3_ns'


class Options(typing.NamedTuple):
    """What the arguments say, with None for what they leave to the recording."""
    slave: bytes = None
    master: bytes = None
    domain: int = None
    csv: bool = False
    full: bool = False
    readings: str = None
    limit: Fraction = None
    strict: bool = False


class Measured(typing.NamedTuple):
    """What is owed: the status and the output, the fault with its line, the counts, and what is told as soon as it is known, before the fault, and at the end."""
    status: int
    output: bytes
    fault: tuple
    counts: collections.Counter
    at_once: bytes
    summary: bytes


# The kinds of datagrams in the order in which they are told, each as one and as several of it.
KINDS = {kind: (kind, kind + 's') for kind in ('Sync', 'Follow_Up', 'Delay_Req', 'Delay_Resp')} | {
    f'{name} message': (f'{name} message', f'{name} messages') for name in ('Pdelay', 'Announce', 'Signaling', 'Management')} | {
    'reserved': ('message of a reserved type', 'messages of reserved types'),
    'malformed': ('datagram that is no message', 'datagrams that are no messages')}

# Why they gave no report, in the order in which that is told.
REASONS = {
    'held': ' that waited for the other half of the Sync',
    'completed': ' that came while no path delay was known',
    'departed': ' of the slave', 'anew': ' of the slave',
    'repeated': ' of the slave, with the number of the last one',
    'before': ' with a number that came before',
    'of another domain': ' of another domain', '503': ' of another domain',
    '505': ' of another master',
    'of another slave': ' of another slave', '508': ' of another slave',
    '507': ' with a correction that is too big to be represented',
    '512': ' no newer than the last Sync that was completed',
    '509': " to requests that weren't recorded",
    'peer delay': ": peer delay isn't measured",
    'too early': ' before it was known whom to watch',
    'refused': ''}

# The kinds of datagrams that aren't of the four messages, by messageType.
OTHERS = {2: 'Pdelay message', 3: 'Pdelay message', 10: 'Pdelay message', 11: 'Announce message', 12: 'Signaling message', 13: 'Management message'}


def identity(text):
    """The ten octets of an identity in an argument, or None."""
    for form in IDENTITIES:
        if (said := form.fullmatch(text)) and int(said[2]) < 2**16:
            return bytes.fromhex(said[1].replace('.', '')) + int(said[2]).to_bytes(2, 'big')
    return None


def options(arguments):
    """What these arguments after `measure` say, or None where they are no command."""
    said, rest = {}, []
    for one in arguments:
        rest += one.split('=', 1) if re.match('--(slave|master|domain|readings|limit)=', one) else [one]
    while rest:
        name = rest.pop(0)
        if name[2:] in said or name not in ('--slave', '--master', '--domain', '--readings', '--limit', '--csv', '--full', '--strict'):
            return None
        value = True if name in ('--csv', '--full', '--strict') else rest.pop(0) if rest else ''
        if name in ('--slave', '--master'):
            value = identity(value)
        elif name == '--domain':
            value = int(value) if re.fullmatch('[0-9]{1,3}', value) and int(value) < 256 else None
        elif name == '--readings':
            value = value if value in ('own', 'capture') else None
        elif name == '--limit':
            value = Fraction(value) if TIME.fullmatch(value.encode()) and int(value.split('.')[0]) < 2**48 else None
        if value is None:
            return None
        said[name[2:]] = value
    return Options(**said)


def seconds(units):
    """A time in seconds, with nine decimals or all that it has."""
    whole, rest = divmod(units, 2**16)
    return texts.seconds(whole) + texts.decimals(Fraction(rest, 2**16))[2:]


class Port:
    """A slave port as docs/PROTOCOL.md has it."""

    def __init__(self, watched):
        self.watched = watched
        self.ticks = 0
        self.syncs = collections.deque(maxlen=HELD)
        self.follow_ups = collections.deque(maxlen=HELD)
        # The last request's number, how many were drawn since the first one that departed, and when each departed.
        self.number, self.drawn, self.departed = None, 0, {}
        self.synced = self.answered = None

    def request(self, read):
        """Requests are drawn up to this one, which departed."""
        if self.number is not None:
            self.drawn += (read.said.sequence - self.number) % 2**16
        self.number = read.said.sequence
        self.departed[self.number] = self.drawn, read

    def requested(self, sequence):
        """The request that is held under a number and known to have departed, or None."""
        drawn, read = self.departed.get(sequence, (self.drawn - HELD, None))
        return read if self.drawn - drawn < HELD else None

    def follow_anew(self):
        """The port is told its master again: all that it holds is dropped, and its requests go on."""
        self.syncs.clear()
        self.follow_ups.clear()
        self.departed = {}
        self.synced = self.answered = None

    def in_window(self, tick):
        return self.ticks - tick < 2

    def reason(self, heard):
        """Why a message is ignored, or None."""
        domain, _, master = self.watched
        if heard.domain != domain:
            return 503
        if heard.source != master:
            return 505
        if heard.correction == shown.TOO_BIG:
            return 507
        if heard.kind != 'Delay_Resp':
            last = self.synced and self.in_window(self.synced.tick) and self.synced
            return 512 if last and (heard.sequence - last.sequence) % 2**16 >= 2**15 else None
        if heard.requesting != self.watched[1]:
            return 508
        return None if self.requested(heard.sequence) else 509

    def newest(self, held, sequence):
        """The newest message that is held under a number, or None."""
        found = (read for tick, read in reversed(held) if read.said.sequence == sequence and self.in_window(tick))
        return next(found, None)

    def hear(self, read):
        """What a message is answered: the number of a reason, `held`, `completed`, or a report's results and tags."""
        heard = read.said
        reason = self.reason(heard)
        if reason:
            return reason
        if heard.kind == 'Delay_Resp':
            request = self.requested(heard.sequence)
            bracket = heard.stamp - heard.correction - request.units
            self.answered = Completed(self.ticks, bracket, [request.place, read.place], heard.sequence, request.units, heard.stamp, heard.correction)
        elif not self.sync(read):
            return 'held'
        if not all(half and self.in_window(half.tick) for half in (self.synced, self.answered)):
            return 'completed'
        a, b = self.synced.bracket, self.answered.bracket
        return a - b, a + b, self.synced.tags + self.answered.tags

    def sync(self, read):
        """Whether a Sync or a Follow_Up completes."""
        heard, sync, follow_up = read.said, read, None
        if heard.kind == 'Sync' and not heard.two_step:
            bracket, tags = read.units - heard.stamp - heard.correction, [read.place, None]
            left, correction = heard.stamp, heard.correction
        else:
            own, others = (self.syncs, self.follow_ups) if heard.kind == 'Sync' else (self.follow_ups, self.syncs)
            own.append((self.ticks, read))
            other = self.newest(others, heard.sequence)
            if not other:
                return False
            sync, follow_up = (read, other) if heard.kind == 'Sync' else (other, read)
            bracket = sync.units - (follow_up.said.stamp + follow_up.said.correction) - sync.said.correction
            tags = [sync.place, follow_up.place]
            left, correction = follow_up.said.stamp, follow_up.said.correction + sync.said.correction
        self.synced = Completed(self.ticks, bracket, tags, heard.sequence, left, sync.units, correction)
        return True


class Watch:
    """Whom to watch, as the options and the lines so far tell it."""

    def __init__(self, given):
        self.given = given
        self.domain = (given.domain, 0)
        # Of each domain the source of the first Sync and of the first Delay_Req, and its line.
        self.syncs, self.requests = {}, {}

    def look(self, read):
        said = read.said
        if isinstance(said, str):
            return
        if said.kind == 'Sync':
            self.syncs.setdefault(said.domain, (said.source, read.place))
            if self.domain[0] is None and self.given.master in (None, said.source):
                self.domain = said.domain, read.place
        elif said.kind == 'Delay_Req':
            self.requests.setdefault(said.domain, (said.source, read.place))

    def told(self):
        """Domain, slave and master, each with the line that told it; None for what isn't known."""
        slave = (self.given.slave, 0) if self.given.slave else self.requests.get(self.domain[0], (None, None))
        master = (self.given.master, 0) if self.given.master else self.syncs.get(self.domain[0], (None, None))
        return self.domain, slave, master

    def known(self):
        """Domain, slave and master, or None until all three are known."""
        watched = [value for value, _ in self.told()]
        return None if None in watched else watched


class Life:
    """What was heard of the master's Syncs and Follow_Ups since it began."""

    def __init__(self):
        self.heard = collections.defaultdict(lambda: collections.deque(maxlen=KNOWN))
        # The number and time of the newest Sync of each flag.
        self.newest = {}

    def apart(self, kind, read):
        """Whether the message of a kind that is known under this one's number and flag is a second or more away; None where there is none."""
        units = dict(self.heard[kind, read.said.unicast]).get(read.said.sequence)
        return None if units is None else abs(read.units - units) >= SECOND

    def hear(self, read):
        self.heard[read.said.kind, read.said.unicast].append((read.said.sequence, read.units))

    def ahead(self, read):
        """How many numbers a message is ahead of the newest Sync with its flag; None where there is none."""
        newest = self.newest.get(read.said.unicast)
        return None if newest is None else (read.said.sequence - newest[0]) % 2**16

    def is_far(self, read):
        """Whether it is neither up to 255 behind that nor up to 256 ahead."""
        ahead = self.ahead(read)
        return ahead is not None and REACH < ahead <= 2**16 - REACH

    def fits(self, read):
        """Whether a Sync whose number is unknown is of this life."""
        ahead = self.ahead(read)
        if ahead is None:
            return True
        since = read.units - self.newest[read.said.unicast][1]
        if 1 <= ahead <= REACH:
            log = read.said.log
            return not (-7 <= log <= 6 and ahead > LOST and ahead * SECOND * 2**(log + 7) > 2 * 2**7 * max(since, 0))
        return not self.is_far(read) and abs(since) < SECOND

    def hear_sync(self, read):
        self.hear(read)
        ahead = self.ahead(read)
        if ahead is None or 1 <= ahead <= REACH:
            self.newest[read.said.unicast] = read.said.sequence, read.units


class Measurer:
    """Hears lines one after the other."""

    def __init__(self, watched, csv, full=False):
        self.watched, self.csv, self.full = watched, csv, full
        self.port, self.last = Port(watched), None
        self.life, self.responses = Life(), collections.deque(maxlen=KNOWN)
        self.syncs = 0
        self.counts, self.reports = collections.Counter(), []
        # The Announces of the master, each with its place.
        self.announced = []
        # What became of each message, in order; and whether the master begins its numbers anew with the one that is being heard.
        self.became, self.begins = [], False

    def hear(self, read):
        """What is written for a line."""
        said = read.said
        if isinstance(said, str):
            self.counts[said] += 1
            announce = announces.read(read.octets)
            if announce and [announce.domain, announce.source] == [self.watched[0], self.watched[2]]:
                self.announced.append((read.place, announce.told))
            return ''
        answer = self.request(read) if said.kind == 'Delay_Req' else self.answer(read)
        is_report = isinstance(answer, tuple)
        begins, self.begins = self.begins or answer == 'anew', False
        self.became.append(worth.Became(read.place, read.units, said.kind, said.domain, said.source, said.sequence, said.correction, said.log,
                                        'report' if is_report else str(answer), begins, said.two_step))
        if is_report:
            self.counts['reports'] += 1
            return self.report(read, *answer)
        self.counts[f'{said.kind} {answer}'] += 1
        return ''

    def answer(self, read):
        """What the port answers, or `before` where it doesn't hear the message."""
        said = read.said
        if [said.domain, said.source] != [self.watched[0], self.watched[2]]:
            return self.port.hear(read)
        if said.kind == 'Sync':
            return self.sync(read)
        if said.kind == 'Follow_Up':
            if self.life.apart('Follow_Up', read) is not None or self.life.apart('Sync', read) or self.life.is_far(read):
                return 'before'
            self.life.hear(read)
        elif said.requesting == self.watched[1]:
            if said.sequence in self.responses:
                return 'before'
            self.responses.append(said.sequence)
        return self.port.hear(read)

    def sync(self, read):
        """The answer to a Sync of the master."""
        apart = self.life.apart('Sync', read)
        if apart is False:
            return 'before'
        follow_up = self.life.apart('Follow_Up', read)
        if apart or follow_up or not self.life.fits(read):
            self.begin_anew()
        self.life.hear_sync(read)
        answer = self.port.hear(read)
        self.syncs += 1
        if self.syncs % TICK == 0:
            self.port.ticks += 1
        return answer

    def begin_anew(self):
        """The master began its numbers anew."""
        self.counts['master anew'] += 1
        self.begins = True
        self.life = Life()
        self.responses.clear()
        self.port.follow_anew()

    def request(self, read):
        """What became of a Delay_Req."""
        if read.said.domain != self.watched[0]:
            return 'of another domain'
        if read.said.source != self.watched[1]:
            return 'of another slave'
        ahead = 1 if self.last is None else (read.said.sequence - self.last) % 2**16
        self.last = read.said.sequence
        if ahead == 0:
            return 'repeated'
        if ahead > HELD:
            self.port = Port(self.watched)
            self.responses.clear()
        self.port.request(read)
        return 'departed' if ahead <= HELD else 'anew'

    def report(self, read, offset2, path2, tags):
        by = 'response' if read.said.kind == 'Delay_Resp' else 'sync'
        synced, answered = self.port.synced, self.port.answered
        correction = answered.correction if by == 'response' else synced.correction
        self.reports.append(worth.Report(read.place, read.units, by, offset2, path2, correction, abs(synced.came - answered.left)))
        by = f'own {by}' if read.is_own else by
        if self.csv:
            columns = ''.join(f',{it}' for it in self.exchange().values()) if self.full else ''
            return f'{read.time},{nanoseconds(offset2)},{nanoseconds(path2)},{by},{read.place}{columns}\n'
        told = {'by': by, 'line': read.place, 'offset': nanoseconds(offset2), 'offset2': str(offset2), 'path': nanoseconds(path2), 'path2': str(path2), 'tags': tags, 'time': read.time}
        return compact(told | (self.exchange() if self.full else {})) + '\n'

    def exchange(self):
        """What the last report was made of, in full, in the order of columns."""
        sync, answer = self.port.synced, self.port.answered
        return {'t1': seconds(sync.left), 't2': seconds(sync.came), 't3': seconds(answer.left), 't4': seconds(answer.came),
                'sync_correction': nanoseconds(2 * sync.correction), 'delay_correction': nanoseconds(2 * answer.correction),
                'sync_number': sync.sequence, 'request_number': answer.sequence, 't2_to_t3': nanoseconds(2 * abs(sync.came - answer.left))}


def read(place, line):
    """What a line says, and the fault if it has one."""
    said, fault = shown.read(line, LINE)
    if not fault and int(said[1]) >= 2**48:
        fault = 806
    if fault:
        return None, fault
    decimals = (said[2] or b'').decode().ljust(9, '0')
    time = said[0].split(b' ')[0].decode()
    units = (int(said[1]) * 10**9 + int(decimals)) * 2**16
    octets = bytes.fromhex(said[3].decode())
    return Read(place, time, units, message(octets), octets), None


def own_messages(read, slave):
    """The messages that the readings of a slave stand for which a line tells, each at the time that its clock read."""
    def heard(kind, source, at, correction, stamp, requesting=None):
        said = Message(kind, read.octets[4], False, False, correction, source, shown.number(record[:2]), stamp * 2**16, requesting, 127, 0)
        return Read(read.place, texts.seconds(at), at * 2**16, said, b'', True)

    for kind, record, master in judge.records(read.octets):
        first, last = (shown.number(it[:6]) * 10**9 + shown.number(it[6:]) for it in (record[2:12], record[-10:]))
        correction = int.from_bytes(record[12:20], 'big', signed=True)
        if kind == 'Sync':
            yield heard('Sync', master, last, correction, first)
        else:
            yield heard('Delay_Req', slave, first, 0, first)
            yield heard('Delay_Resp', master, first, correction, last, slave)


class Heard(typing.NamedTuple):
    """What is heard of an input: what is told beforehand, the lines, what is told in place of all of them where there is none, and what behind all else."""
    beforehand: list
    lines: list
    in_vain: list
    aside: list


def tells_readings(read):
    return isinstance(read.said, str) and bool(judge.records(read.octets))


# Why own readings are left aside, where what was captured is measured.
NOT_TAKEN = ", since what was captured is measured, or they are of another slave or domain; --readings own measures a slave's own readings"


def left_aside(captured, telling, why):
    """What is told of so many messages that were captured, and of so many that tell readings, and aren't heard."""
    said = ((captured, 'captured message', '', '; --readings capture measures what was captured'), (telling, 'message', ' with own readings', why))
    return [f'{texts.counted(count, noun)}{of} left aside{then}' for count, noun, of, then in said if count]


def by_readings(lines, given):
    """What is heard of these lines: in their place the readings of a slave, where they are measured: those that are asked for, or those of the first that
    tells any before there is a report."""
    def slave_of(read):
        return given.slave or read.octets[20:30]

    telling = [read for read in lines if tells_readings(read)]
    told = [(place, read) for place, read in enumerate(lines) if tells_readings(read)
            and given.domain in (None, read.octets[4]) and (given.slave is None or read.octets[20:28] == given.slave[:8])]
    as_captured = Heard([], lines, [], left_aside(0, len(telling), NOT_TAKEN))
    if given.readings == 'capture' or not told and not given.readings:
        return as_captured
    sentences = []
    if not given.readings:
        first, read = told[0]
        before = reckoned(lines[:first], given)
        if before.counts['reports']:
            return as_captured
        sentences = [*before.at_once, f"by the slave's own readings, which line {read.place} is the first to tell; --readings capture measures what was captured"]
    own = [read for _, read in told if slave_of(read) == slave_of(told[0][1])]
    aside = left_aside(sum(not isinstance(it.said, str) for it in lines), len(telling) - len(own), ', of another slave or domain')
    who = 'slave that is asked for' if telling else 'slave'
    how = '' if telling else ': ptp4l does to its slave_event_monitor, and examples/monitor writes them as lines'
    in_vain = [] if own else [f'no {who} tells readings of its own{how}', 'no report']
    return Heard(sentences, [it for read in own for it in own_messages(read, slave_of(read))], in_vain, aside)


def kind_of(said):
    """What a datagram is that was refused for this, and why it gave no report."""
    number = re.fullmatch(r'refused 203 type ([0-9]+)', said)
    if not number:
        return 'malformed', 'refused'
    kind = OTHERS.get(int(number[1]), 'reserved')
    return kind, 'peer delay' if kind == 'Pdelay message' else 'refused'


def datagrams(counts):
    """How many datagrams gave no report, in sentences."""
    told = collections.Counter()
    for what, count in counts.items():
        kind, _, reason = what.partition(' ')
        kind, reason = kind_of(what) if kind == 'refused' else (kind, reason)
        told[list(KINDS).index(kind), REASONS[reason]] += count
    order = list(REASONS.values())
    for (place, words), count in sorted(told.items(), key=lambda one: (one[0][0], order.index(one[0][1]))):
        if words == REASONS['completed'] and list(KINDS)[place] == 'Delay_Resp':
            words = ' that came while no Sync was complete'
        yield f'{count} {list(KINDS.values())[place][count != 1]}{words}'


def whom(watch, unit='line'):
    """Whom the input is of, as far as that is known: told once all of it is, or else at the end."""
    domain, slave, master = watch.told()
    tellers = ['Sync of the master' if watch.given.master else 'Sync',
               'Sync' if watch.given.domain is None else 'Sync of the domain', 'Delay_Req of the domain']
    for name, (value, line), teller in zip(['domain', 'master', 'slave'], [domain, master, slave], tellers):
        if value is None:
            yield f'no {teller} tells the {name}'
        else:
            printed = value if name == 'domain' else texts.port(value)
            yield f'{name} {printed}, ' + (f'told by {unit} {line}' if line else 'as asked for')


def callers(given, said):
    """Of messages who sent Syncs and Delay_Reqs, where the master or the slave that is asked for sent none."""
    for asked, kind in (given.master, 'Sync'), (given.slave, 'Delay_Req'):
        if asked is None or any(it.source == asked for it in said):
            continue
        sources = collections.Counter(texts.port(it.source) for it in said if it.kind == kind)
        yield f'{kind}s of others: {texts.listed(sources)}' if sources else f'nobody sent a {kind}'


def summary(counts, reads, written, became, announced, unit='line'):
    """What is told at the end: of reads the times, in order, and what was said; of reports what they are of; of messages what became of them; and the
    Announces of the master."""
    for sentence in worth.beware(unit, counts, reads, written, became):
        yield f'beware: {sentence}'
    reports = counts.pop('reports', 0)
    counts.pop('master anew', 0)
    yield f'{reports or "no"} report{"s" if reports > 1 else ""}'
    yield from datagrams(counts)
    yield from announces.sentences(unit, announced)
    yield from worth.flows(unit, written, became)
    yield from worth.statistics(unit, written)


class Reckoned(typing.NamedTuple):
    """What is owed for lines that were read: the reports in order as they are written, what became of each line, what is told as soon as it is known,
    and at the end; and how far from 0 the farthest offset is, in nanoseconds."""
    written: list
    counts: collections.Counter
    at_once: list
    told: list
    farthest: Fraction


def reckoned(lines, given=Options(), unit='line'):
    """What is owed for these lines with these options."""
    watch, kept, written, reads = Watch(given), [], [], []
    measurer = watch.known() and Measurer(watch.known(), given.csv, given.full)
    early = []
    for count, told in enumerate(lines, 1):
        reads.append((told.units, told.said))
        kept.append(told)
        if not measurer:
            watch.look(told)
            if not watch.known():
                continue
            measurer = Measurer(watch.known(), given.csv, given.full)
            if count > KEPT:
                early, kept = kept[:-1], kept[-1:]
        written += [measurer.hear(one) for one in kept]
        kept = []
    counts = measurer.counts if measurer else collections.Counter()
    counts.update(one.said if isinstance(one.said, str) else f'{one.said.kind} too early' for one in early + kept)
    reports, became, announced = (measurer.reports, measurer.became, measurer.announced) if measurer else ([], [], [])
    those, told = list(whom(watch, unit)), list(summary(counts.copy(), reads, reports, became, announced, unit))
    if measurer and reads:
        return Reckoned(written, counts, those, told, Fraction(max((abs(it.offset2) for it in reports), default=0), 2**17))
    messages = [said for _, said in reads if not isinstance(said, str)]
    return Reckoned(written, counts, [], those + told + (list(callers(given, messages)) if reads else []), Fraction(0))


def measured(text, given=Options()):
    """What `measure` owes for this input with these options."""
    lines, fault = [], None
    for place, line in enumerate(shown.lines_of(text), 1):
        told, number = read(place, line)
        if number:
            fault = number, place
            break
        lines.append(told)
    head = [f'{HEAD}{FULL if given.full else ""}\n'] if given.csv else []
    heard = by_readings(lines, given)
    owed = reckoned(heard.lines, given)
    at_once, told = (texts.told(those).encode() for those in (heard.beforehand + owed.at_once, (heard.in_vain or owed.told) + heard.aside))
    is_doubtful = not owed.counts['reports'] or any(it.startswith('beware: ') for it in owed.told)
    is_refused = given.limit is not None and owed.farthest > given.limit or given.strict and is_doubtful
    return Measured(3 if fault else int(is_refused), ''.join(itertools.chain(head, owed.written)).encode(), fault, owed.counts, at_once, told)
