"""What `ptpx explain` says of messages that were bent, each in a way of its own.

A transcript has one exchange for each way: in it the octets of one message or of more say something else, and readings aren't changed. The
report has the results by the readings, those by the messages, or others. What is owed is computed here, of these octets and of those that
stood there, by the layout of IEEE 1588-2019 (13.3, 13.6 to 13.8) and the formulas of 11.2 and 11.3: all that stands above the moments of a
report and below them, up to the next report, word for word."""
import collections
import dataclasses
import itertools
import json
import re
import unittest
from fractions import Fraction

import texts
from explained import REASON, TRANSCRIPT, explain
from texts import decimals, seconds
from told import compact

WORKED = [json.loads(line) for line in TRANSCRIPT]
NODES, BEGIN, EXCHANGE = WORKED[:3], WORKED[3:5], WORKED[5:]
UNIT = Fraction(1, 65536)

# The messages of an exchange: the place of the event that made each, in the order in which it is told what differs.
SYNC, SYNC_LEFT, FOLLOW_UP, DELAY_REQ, DELAY_REQ_LEFT, DELAY_RESP = 0, 2, 4, 6, 8, 9
TOLD = SYNC, SYNC_LEFT, FOLLOW_UP, DELAY_REQ, DELAY_REQ_LEFT, DELAY_RESP
TYPES = {0: 'Sync', 1: 'Delay_Req', 8: 'Follow_Up', 9: 'Delay_Resp'}
TIMES = {0: 'originTimestamp', 1: 'originTimestamp', 8: 'preciseOriginTimestamp', 9: 'receiveTimestamp'}

# The fields in which nobody here reads anything, or not in each message: where each begins, and how it is called. Of two with one octet the first is told.
UNREAD = [(0, 'majorSdoId'), (0, 'messageType'), (1, 'minorVersionPTP'), (1, 'versionPTP'), (2, 'messageLength'), (5, 'minorSdoId'), (6, 'twoStepFlag'),
          (6, 'flagField'), (16, 'messageTypeSpecific'), (32, 'controlField'), (33, 'logMessageInterval'), (34, 'the timestamp'), (44, 'the suffix')]
# The bits of an octet that the first of its two fields has.
FIRST_OF_TWO = {0: 0xf0, 1: 0xf0, 6: 0x02}

# Why a message can't be read.
OLD_VERSION, NO_TIME = "202: versionPTP isn't 2", '206: the nanoseconds of the timestamp are 10^9 or more'


@dataclasses.dataclass(frozen=True)
class Way:
    """Octets of a message from a place on, in place of those that stand there."""
    message: int
    place: int
    octets: str
    read: bool = True


@dataclasses.dataclass(frozen=True)
class Case:
    """The ways in which messages of an exchange are bent, and what the report has, of its results by the readings and by the messages."""
    ways: tuple
    reported: object


def case(*ways, reported=lambda readings, messages: readings):
    return Case(ways, reported)


def as_told(readings, messages):
    return messages


def half_as_told(readings, messages):
    return messages[0], readings[1]


def otherwise_yet(readings, messages):
    return messages[0] + 1, readings[1] - 2


def unread(message, place, octets):
    return Way(message, place, octets, read=False)


WAYS = [
    Way(SYNC, 0, '01'),                               # a Delay_Req
    Way(SYNC, 4, '07'),                               # domain 7
    Way(SYNC, 6, '00'),                               # no Follow_Up is to come
    Way(SYNC, 8, '0000000000010000'),                 # 1 ns in clocks
    Way(SYNC_LEFT, 8, '0000000007cfc000'),            # 0.25 ns less in the clock
    Way(SYNC_LEFT, 8, '000000000fa00000'),            # 2000 ns more
    Way(SYNC_LEFT, 8, 'fffffffff8300000'),            # below 0
    Way(SYNC_LEFT, 20, '001122fffe334456'),           # another clock
    Way(SYNC_LEFT, 30, 'ffff'),                       # another number
    Way(FOLLOW_UP, 8, '0000000000008000'),            # half a nanosecond later
    Way(FOLLOW_UP, 28, '0002'),                       # another port
    Way(FOLLOW_UP, 30, '1234'),
    Way(FOLLOW_UP, 40, '0000c350'),                   # 50 us later
    Way(FOLLOW_UP, 34, '000000000000'),               # whole seconds earlier
    Way(FOLLOW_UP, 40, '3b9ac9ff'),                   # 999999999 ns
    Way(DELAY_REQ, 8, 'ffffffffffff0000'),            # -1 ns
    Way(DELAY_REQ_LEFT, 30, '0009'),
    Way(DELAY_REQ_LEFT, 20, '00aabbfffeccddef'),
    Way(DELAY_RESP, 8, '000000000dad0000'),           # 1 ns more in clocks
    Way(DELAY_RESP, 40, '00001193'),                  # 1 ns earlier
    Way(DELAY_RESP, 34, '0000000f4240'),              # a million seconds
    Way(DELAY_RESP, 44, '00aabbfffeccddff'),          # to another slave
    Way(DELAY_RESP, 52, '0002'),
    Way(SYNC_LEFT, 0, '08'),                          # a Follow_Up
    Way(FOLLOW_UP, 0, '00'),                          # a Sync
    Way(DELAY_RESP, 0, '08'),                         # a Follow_Up
    Way(SYNC_LEFT, 1, '11'),                          # of PTP version 1
    Way(FOLLOW_UP, 40, '3b9aca00'),                   # 10^9 ns
    Way(DELAY_RESP, 40, 'ffffffff'),
    unread(SYNC, 0, '10'),
    unread(SYNC, 1, '22'),
    unread(SYNC_LEFT, 5, '01'),
    unread(SYNC, 6, '03'),
    unread(SYNC, 7, '08'),
    unread(SYNC_LEFT, 19, '01'),
    unread(SYNC, 32, '05'),
    unread(SYNC, 33, '7f'),
    unread(SYNC, 43, '01'),                           # of a two-step Sync
    unread(FOLLOW_UP, 6, '02'),
    unread(FOLLOW_UP, 32, '00'),
    unread(DELAY_REQ, 16, '01020304'),
    unread(DELAY_REQ, 38, '00000001'),
    unread(DELAY_REQ_LEFT, 33, '00'),
    unread(DELAY_RESP, 5, 'ff'),
    unread(DELAY_RESP, 33, '01'),
]

# The same, with other results in the report.
LATE, LONG, EARLY = Way(FOLLOW_UP, 40, '0000c350'), Way(SYNC_LEFT, 8, '000000000fa00000'), Way(DELAY_RESP, 40, '00001193')
REPORTED = [
    case(LATE, reported=as_told),
    case(LONG, reported=as_told),
    case(EARLY, reported=as_told),
    case(LATE, LONG, EARLY),
    case(LATE, LONG, EARLY, reported=as_told),
    case(LATE, reported=half_as_told),
    case(LATE, reported=otherwise_yet),
    case(unread(SYNC, 32, '05'), reported=otherwise_yet),
    case(Way(SYNC_LEFT, 0, '08'), reported=lambda readings, messages: (readings[0] + 1, readings[1])),
    # t4 is rounded down, and the correctionField has what is missing
    case(EARLY, Way(DELAY_RESP, 8, '000000000dab0000'), LATE),
    case(EARLY, Way(DELAY_RESP, 8, '000000000dab0000')),
]

# Of an exchange whose t1 has a quarter of a nanosecond, which the Follow_Up tells: a clock that tells the residence there.
IN_FOLLOW_UP = Way(SYNC_LEFT, 8, '0000000000000000'), Way(FOLLOW_UP, 8, '0000000007d04000')
TWO_STEP_CLOCK = [
    case(*IN_FOLLOW_UP),
    case(*IN_FOLLOW_UP, EARLY),
    case(*IN_FOLLOW_UP, EARLY, reported=as_told),
    case(*IN_FOLLOW_UP, LATE),
    case(*IN_FOLLOW_UP, Way(FOLLOW_UP, 40, '00000001'), Way(DELAY_RESP, 8, '000000000dad0000')),
    case(Way(SYNC_LEFT, 8, '0000000000000000'), Way(FOLLOW_UP, 8, '0000000007d14000')),
    case(Way(SYNC_LEFT, 8, '0000000000000000')),
    case(Way(FOLLOW_UP, 8, '0000000000000000')),       # the fraction of t1 is left out
    case(Way(FOLLOW_UP, 8, 'ffffffffffff4000'), Way(FOLLOW_UP, 40, '00000001'), EARLY),
]

# Of an exchange with a one-step Sync, whose t1 has a quarter of a nanosecond.
ONE_STEP = [
    case(Way(SYNC_LEFT, 40, '0000c350')),
    case(Way(SYNC, 40, '0000c350'), Way(SYNC_LEFT, 40, '0000c350'), reported=as_told),
    case(Way(SYNC, 40, '0000c350')),
    case(Way(SYNC_LEFT, 8, '000000000fa04000')),
    case(Way(SYNC_LEFT, 8, '0000000007d00000'), reported=as_told),
    case(Way(SYNC_LEFT, 8, '0000000007cf4000'), Way(SYNC_LEFT, 40, '00000001'), EARLY),
    case(Way(SYNC_LEFT, 8, '0000000007cf4000'), Way(SYNC_LEFT, 40, '00000003'), EARLY),
    case(Way(SYNC_LEFT, 6, '02')),                     # a Follow_Up is to come
    case(Way(SYNC_LEFT, 0, '08')),
    case(EARLY, reported=otherwise_yet),
]


def number(octets, place, count, signed=False):
    return int.from_bytes(octets[place:place + count], 'big', signed=signed)


def put(octets, place, new):
    return octets[:place] + new + octets[place + len(new):]


def changed(octets, ways):
    for way in ways:
        octets = put(octets, way.place, bytes.fromhex(way.octets))
    return octets


def has_time(octets):
    """Whether somebody reads the timestamp of a message: of a Follow_Up, a Delay_Resp or a one-step Sync."""
    return octets[0] % 16 in (8, 9) or octets[0] % 16 == 0 and not octets[6] & 2


def later(octets, by):
    """A message with a number that is by so much more, and with a timestamp that is by so many times 10 s later, where it has one."""
    if has_time(octets):
        octets = put(octets, 34, (number(octets, 34, 6) + 10 * by).to_bytes(6, 'big'))
    return put(octets, 30, (number(octets, 30, 2) + by).to_bytes(2, 'big'))


def repeated(event, by, count):
    """An event of the exchange of this number, of exchanges with so many events."""
    shift = count * by
    event = dict(event, n=event['n'] + shift)
    for key in 'copy', 'transit':
        if key in event:
            event[key] += shift
    for key in 'at', 'reading':
        if key in event:
            event[key] = [event[key][0] + 10 * by, *event[key][1:]]
    if 'hex' in event:
        event['hex'] = later(bytes.fromhex(event['hex']), by).hex()
    if 'tags' in event:
        event['tags'] = [None if tag is None else tag + shift for tag in event['tags']]
    return event


def with_octets(event, *ways, **members):
    """An event whose message has other octets, and which has other members."""
    return dict(event, hex=changed(bytes.fromhex(event['hex']), ways).hex(), **members)


def with_fraction(exchange):
    """The exchange with a quarter of a nanosecond in t1, which the Follow_Up tells."""
    exchange = list(exchange)
    exchange[SYNC] = dict(exchange[SYNC], at=[1, 0, 16384], reading=[1, 0, 16384])
    exchange[FOLLOW_UP] = with_octets(exchange[FOLLOW_UP], Way(FOLLOW_UP, 8, '0000000000004000'))
    return exchange


def with_one_step(exchange):
    """The same with a one-step Sync. In place of the Follow_Up and its arrival the clock of T is set by nothing, twice."""
    exchange = with_fraction(exchange)
    exchange[SYNC] = with_octets(exchange[SYNC], Way(SYNC, 6, '00'), Way(SYNC, 8, '0000000000004000'), Way(SYNC, 34, '000000000001'), ev='syncone')
    exchange[SYNC_LEFT] = with_octets(exchange[SYNC_LEFT], Way(SYNC, 6, '00'), Way(SYNC, 8, '0000000007d04000'), Way(SYNC, 34, '000000000001'))
    exchange[3] = dict(exchange[3], out='completed')
    for place in 4, 5:
        exchange[place] = {'diff': '0', 'ev': 'stepclock', 'n': exchange[place]['n'], 'node': 'T', 'out': 'done'}
    sync, _, request, response = exchange[-1]['tags']
    exchange[-1] = dict(exchange[-1], tags=[sync, None, request, response])
    return exchange


def renamed(lines, old, new):
    """Lines with another name of a node."""
    return json.loads(json.dumps(lines).replace(f'"{old}"', f'"{new}"'))


class Exchange:
    """The events of the exchange of this number, with messages that are bent, beside those that a port or a clock makes."""

    def __init__(self, events, by, case):
        self.case = case
        self.right = [repeated(event, by, len(events)) for event in events]
        self.events = list(self.right)
        for way in case.ways:
            self.events[way.message] = with_octets(self.events[way.message], way)
        self.is_one_step = self.events[SYNC]['ev'] == 'syncone'
        self.readings, self.messages = readings(self), results(self)
        self.reported = case.reported(self.readings, self.messages)
        self.events[-1] = dict(self.events[-1], offset2=str(self.reported[0]), path2=str(self.reported[1]))

    def octets(self, place, right=False):
        return bytes.fromhex((self.right if right else self.events)[place]['hex'])

    def place(self, place):
        event = self.events[place]['n']
        return f'event {event}, line {len(NODES) + event + 1}'

    def made(self, place):
        """What made the message, in words."""
        event = self.events[place]['ev']
        return f'{"an" if event == "arrive" else "a"} {event} at {self.events[place]["node"]}'

    def reading(self, place):
        seconds, nanoseconds, fraction = self.events[place]['reading']
        return Fraction(10 ** 9 * seconds + nanoseconds) + fraction * UNIT

    def in_clock(self, entered, left):
        return self.reading(left) - self.reading(entered)


def stamp(octets):
    return number(octets, 34, 6) * 10 ** 9 + number(octets, 40, 4)


def correction(octets):
    return number(octets, 8, 8, signed=True) * UNIT


def read_fields(octets):
    """What each field says that a slave or a master reads, in words, and of times and corrections how many nanoseconds that is."""
    kind = octets[0] % 16
    fields = [('messageType', TYPES[kind], None), ('domainNumber', str(octets[4]), None),
              ('twoStepFlag', str(octets[6] // 2 % 2), None) if kind == 0 else None,
              ('correctionField', f'{decimals(correction(octets))} ns', correction(octets)),
              ('sourcePortIdentity', texts.port(octets[20:30]), None), ('sequenceId', str(number(octets, 30, 2)), None),
              (TIMES[kind], seconds(stamp(octets)), stamp(octets)) if kind != 1 and not (kind == 0 and octets[6] & 2) else None,
              ('requestingPortIdentity', texts.port(octets[44:54]), None) if kind == 9 else None]
    return {name: (said, length) for name, said, length in filter(None, fields)}


def otherwise(found, wanted):
    """What is said of a message whose fields that are read say something else."""
    said, owed = read_fields(found), read_fields(wanted)
    sentences = []
    for name in said:
        value, length = said[name]
        if name == 'originTimestamp' and name not in owed:
            owed[name] = seconds(stamp(wanted)), stamp(wanted)
        if name not in owed or owed[name][0] == value:
            continue
        sentence = f'{name} is {value}; wanted is {owed[name][0]}'
        if length is not None:
            more = owed[name][1] - length
            sentence += f', {decimals(abs(more))} ns {"more" if more > 0 else "less"}'
        sentences.append(sentence)
    return sentences


def unreadable(octets):
    """Why a message can't be read, by its number and in words; none where it can."""
    if octets[1] % 16 != 2:
        return OLD_VERSION
    return NO_TIME if number(octets, 40, 4) >= 10 ** 9 else None


def with_read(found, wanted):
    """The message that is wanted, with what the other one says in fields that are read. It is as long as its type has it."""
    octets = bytearray(wanted)
    octets[0] = wanted[0] & 0xf0 | found[0] & 0x0f
    octets[4], octets[8:16], octets[20:32] = found[4], found[8:16], found[20:32]
    if wanted[0] % 16 == 0:
        octets[6] = wanted[6] & ~2 | found[6] & 2
    if has_time(octets) or octets[0] % 16 != wanted[0] % 16:
        octets[34:44] = found[34:44]
    if octets[0] % 16 == 9:
        octets[44:54] = found[44:54]
    else:
        octets[2:4], octets[44:] = b'\0\x2c', b''
    return bytes(octets)


def unread_field(found, wanted, place):
    """The field that an octet is of, the first that differs there where it has two."""
    begin = max(it for it, _ in UNREAD if it <= place)
    names = [name for it, name in UNREAD if it == begin]
    is_second = place in FIRST_OF_TWO and (found[place] ^ wanted[place]) & FIRST_OF_TWO[place] == 0
    return names[-1] if is_second or place not in FIRST_OF_TWO and len(names) > 1 else names[0]


def rest(found, wanted):
    """What is said of a message that differs in a field that nobody reads."""
    places = [place for place, pair in enumerate(zip(found, wanted)) if pair[0] != pair[1]]
    first = places[0]
    name = unread_field(found, wanted, first)
    if name == 'the timestamp':
        name = TIMES[wanted[0] % 16]
    more = f', and {len(places) - 1} more differ' if places[1:] else ''
    size = f'; it has {len(found)} octets; wanted are {len(wanted)}' if len(found) != len(wanted) else ''
    return f'octet {first} from 0, in {name}, is {found[first]:02x}; wanted is {wanted[first]:02x}{more}{size}'


def sentences(found, wanted):
    """What is said of a message that has other octets than are wanted, and whether a field that is read is among what is named."""
    why = unreadable(found)
    if why:
        return [f'nobody can read it, {why}', rest(found, wanted)], True
    said, others = otherwise(found, wanted), with_read(found, wanted)
    if found == others:
        return said, bool(said)
    return [*said, ("of what isn't read, " if said else '') + rest(found, others)], bool(said)


def units(nanoseconds):
    """In units of 2^-16 ns."""
    value = nanoseconds / UNIT
    assert value.denominator == 1
    return int(value)


def readings(exchange):
    """Twice offsetFromMaster and twice meanPathDelay in units of 2^-16 ns, by the readings and the stays in the clock."""
    a = exchange.reading(3) - exchange.reading(SYNC) - exchange.in_clock(1, SYNC_LEFT)
    b = exchange.reading(DELAY_RESP) - exchange.reading(DELAY_REQ) - exchange.in_clock(7, DELAY_REQ_LEFT)
    return units(a - b), units(a + b)


def results(exchange):
    """The same by the octets that came to the slave and by its readings of t2 and t3; none where one of these messages isn't of the
    type that is heard, or can't be read."""
    types = {SYNC_LEFT: 0, DELAY_RESP: 9} if exchange.is_one_step else {SYNC_LEFT: 0, FOLLOW_UP: 8, DELAY_RESP: 9}
    if any(exchange.octets(place)[0] % 16 != kind or unreadable(exchange.octets(place)) for place, kind in types.items()):
        return None
    sync, response = exchange.octets(SYNC_LEFT), exchange.octets(DELAY_RESP)
    if exchange.is_one_step:
        t1 = stamp(sync)
    else:
        follow = exchange.octets(FOLLOW_UP)
        t1 = stamp(follow) + correction(follow)
    a = exchange.reading(3) - t1 - correction(sync)
    b = stamp(response) - correction(response) - exchange.reading(DELAY_REQ)
    return units(a - b), units(a + b)


def which(exchange):
    """Which message tells otherwise than the clocks read: nothing of a half that comes out right as a whole."""

    def came(name, place):
        return f'    {name} {number(exchange.octets(place), 30, 2)} ({exchange.place(place)})'

    def moment(who, what, later, place):
        if later:
            side = 'later' if later > 0 else 'earlier'
            yield f"{who} tells {what} {decimals(abs(later))} ns {side} than {exchange.events[place]['node']}'s clock read\n"

    def clocks(who, verb, more):
        if more:
            yield f"{who} {verb} of {decimals(abs(more))} ns {'more' if more > 0 else 'less'} in clocks than these read\n"

    t1, t4 = exchange.reading(SYNC), exchange.reading(DELAY_RESP)
    sync, sync_came = exchange.octets(SYNC_LEFT), came('Sync', SYNC_LEFT)
    later, more = stamp(sync) - t1 // 1, correction(sync) - exchange.in_clock(1, SYNC_LEFT) - t1 % 1
    teller, both, verb = sync_came, sync_came, 'tells'
    if not exchange.is_one_step:
        follow = exchange.octets(FOLLOW_UP)
        teller = came('Follow_Up', FOLLOW_UP)
        both, verb = f'{sync_came} and {teller.strip()}', 'together tell'
        later, more = stamp(follow) - t1 // 1, more + correction(follow)
    if later + more:
        yield from moment(teller, 't1', later, SYNC)
        yield from clocks(both, verb, more)
    response, response_came = exchange.octets(DELAY_RESP), came('Delay_Resp', DELAY_RESP)
    later, more = stamp(response) - t4 // 1, correction(response) - exchange.in_clock(7, DELAY_REQ_LEFT) + t4 % 1
    if later - more:
        yield from moment(response_came, 't4', later, DELAY_RESP)
        yield from clocks(response_came, 'tells', more)


# What is said below 706 where the results are equal to those by the messages.
EQUAL = '    the results are equal to those by the messages that came to the slave\n'


def above(exchange):
    """What is owed above the moments of a report: the reasons, and what is said of each message."""
    lines, numbers = [], [708] if exchange.readings == exchange.reported else [706, 708]
    for place in TOLD:
        if 'hex' not in exchange.events[place]:
            continue
        found, wanted = exchange.octets(place), exchange.octets(place, right=True)
        if found == wanted:
            continue
        said, is_read = sentences(found, wanted)
        assert said and is_read == any(way.read for way in exchange.case.ways if way.message == place), (said, exchange.case)
        lines += [f'    {exchange.place(place)}, {exchange.made(place)}: {sentence}\n' for sentence in said]
    met = {706: EQUAL if exchange.messages == exchange.reported else '', 708: ''.join(lines)}
    reasons = '  and '.join(f'{number}: {REASON[number]}\n{met[number]}' for number in numbers)
    return f'{exchange.place(-1)}: the report of S is refused, {reasons}'


def in_nanoseconds(result):
    """Half of twice a result in units of 2^-16 ns."""
    return f'{decimals(result * UNIT / 2)} ns'


def result_row(name, reported, wanted):
    more = reported - wanted
    excess = f'  {in_nanoseconds(abs(more))} too {"much" if more > 0 else "little"}' if more else ''
    raw = f'{reported}, wanted {wanted}' if more else reported
    return f'  {name:6}  reported {in_nanoseconds(reported)}  by the readings {in_nanoseconds(wanted)}{excess}  ("{name}2" {raw})\n'


def messages_row(messages, same):
    offset2, path2 = messages
    return (f'  by the messages  offset {in_nanoseconds(offset2)}  path {in_nanoseconds(path2)}{"  as reported" if same else ""}'
            f'  ("offset2" {offset2}, "path2" {path2})\n')


def error(reported, wanted):
    """How many nanoseconds two results are too much; none where it isn't known."""
    if wanted is None:
        return None
    return {name: decimals((result - other) * UNIT / 2) for name, result, other in zip(('offset', 'path'), reported, wanted)}


def pair(results):
    return None if results is None else {'offset2': str(results[0]), 'path2': str(results[1])}


def judged(exchange):
    """What is owed of a report as JSON."""
    wrong, last = exchange.readings != exchange.reported, exchange.events[-1]
    read = [place for place in sorted(TOLD) if any(way.read for way in exchange.case.ways if way.message == place)]
    owed = {
        'brackets': {name: decimals(half * UNIT / 2) for name, half in zip('ab', halves(exchange.readings))},
        'by_messages': pair(exchange.messages),
        'by_readings': pair(exchange.readings),
        'error': {'by_messages': error(exchange.reported, exchange.messages),
                  'by_readings': error(exchange.reported, exchange.readings)},
        'event': last['n'],
        'line': len(NODES) + last['n'] + 1,
        'node': 'S',
        'octets': 'told' if read else 'other',
        'offset2': str(exchange.reported[0]),
        'otherwise': exchange.events[read[0]]['n'] if read else None,
        'path2': str(exchange.reported[1]),
        'reasons': [706, 708] if wrong else [708],
        **{f't{number}': exchange.events[place]['reading'] for number, place in enumerate((SYNC, 3, DELAY_REQ, DELAY_RESP), 1)},
        'tags': last['tags'],
        # the Delay_Req left behind the Sync's arrival
        'time': exchange.events[DELAY_REQ]['reading'],
    }
    return f'{compact(owed)}\n'


def below(exchange):
    """What is owed below the moments of a report: the results, those by the messages where they are others, and which message tells otherwise."""
    rows = ''.join(map(result_row, ('offset', 'path'), exchange.reported, exchange.readings))
    if exchange.messages in (None, exchange.readings):
        return rows
    return rows + messages_row(exchange.messages, exchange.messages == exchange.reported) + ''.join(which(exchange))


# An exchange whose Sync and whose Delay_Req take so much longer, in nanoseconds, so that the results of each are others: of one whose a and b are
# 2000 ns and 0 ns.
LONGER = [(0, 0), (1000, 500), (Fraction(700), Fraction(1, 4)), (100, 40), (30, 20)]


def with_longer(events, sync, request):
    """The exchange with a Sync that arrives later, and a Delay_Req that leaves earlier."""
    events = list(events)
    for place, by in (3, sync), (DELAY_REQ, -Fraction(request)):
        for key in 'at', 'reading':
            seconds, nanoseconds, fraction = events[place][key]
            moment = (10 ** 9 * seconds + nanoseconds) * 65536 + fraction + units(Fraction(by))
            whole, fraction = divmod(moment, 65536)
            events[place] = dict(events[place], **{key: [*divmod(whole, 10 ** 9), fraction]})
    return events


def halves(results):
    """Twice a and twice b of two results."""
    offset2, path2 = results
    return path2 + offset2, path2 - offset2


def of_halves(a2, b2):
    return (a2 - b2) // 2, (a2 + b2) // 2


def rounded(results):
    return tuple(round(Fraction(result, 131072)) * 131072 for result in results)


# In which way the results of the exchange of this number are wrong, which it is known to be, and what is said of it: of those by the readings, of
# all exchanges up to it, and of the events by which their Sync and their Delay_Resp were heard.
WRONG = [
    (2, lambda all: rounded(all[2]), 'the results are whole nanoseconds, each less than 1 ns from that by the readings'),
    (1, lambda all: (all[1][1], all[1][0]), "the results are equal to those by the readings, with offset2 and path2 in each other's place"),
    (1, lambda all: (-all[1][0], all[1][1]), 'the results are equal to those by the readings, with the sign of offset2 turned'),
    (1, lambda all: (all[1][0], -all[1][1]), 'the results are equal to those by the readings, with the sign of path2 turned'),
    (1, lambda all: (-all[1][0], -all[1][1]), 'the results are equal to those by the readings, with both signs turned'),
    (3, lambda all: all[2], 'the results are equal to those of the report before, event {report[2]}, line {report_line[2]}, by the readings'),
    (3, lambda all: of_halves(halves(all[3])[0], halves(all[2])[1]),
     'the results are equal to those by the readings of another pair: of the Sync of event {sync[3]}, line {sync_line[3]} and of the Delay_Resp of '
     'event {report[2]}, line {report_line[2]}'),
    (4, lambda all: of_halves(halves(all[1])[0], halves(all[4])[1]),
     'the results are equal to those by the readings of another pair: of the Sync of event {sync[1]}, line {sync_line[1]} and of the Delay_Resp of '
     'event {report[4]}, line {report_line[4]}'),
    (4, lambda all: of_halves(halves(all[0])[0], halves(all[4])[1]), None),    # of a half that is too old
    (2, lambda all: (all[2][0] + 1, all[2][1]), None),
    (1, lambda all: (all[1][0] + 131072, all[1][1]), None),                   # whole nanoseconds, and one too much
    (1, lambda all: (all[1][0] + 1, all[1][1] + 1), None),
]

# Messages that a report takes for others: the events behind the first 13, what stands below the moments, of which the results by the
# messages are worked by hand, and what the slave read at the last of the Sync's arrival and the Delay_Req's departure. It isn't told which message tells otherwise, since each told right.
PAIRED = [
    # Sync 1, and the Follow_Up of Sync 0: a = 3.000002 s - 1 s, b = 0
    ([{'copy': 11, 'ev': 'hear', 'node': 'S', 'out': 'completed'},
      {'at': [3, 0, 0], 'ev': 'sync', 'hex': '0012002c00000200000000000000000000000000001122fffe33445500010001000000000000000000000000', 'node': 'M',
       'out': 'made', 'reading': [3, 0, 0]},
      {'at': [3, 1000, 0], 'copy': 14, 'ev': 'arrive', 'node': 'S', 'out': 'held', 'reading': [3, 2000, 0]},
      {'copy': 6, 'ev': 'hear', 'node': 'S', 'offset2': '131072000', 'out': 'report', 'path2': '131072000', 'tags': [15, 16, 8, 13]}],
     (131072000, 131072000), (2000002000 * 65536, 2000002000 * 65536), [3, 2000, 0]),
    # Delay_Req 1, and the Delay_Resp to Delay_Req 0: a = 2000 ns, b = 2.000001 s - 3.000001 s
    ([{'at': [3, 0, 0], 'ev': 'request', 'hex': '0112002c0000000000000000000000000000000000aabbfffeccddee00010001017f00000000000000000000', 'node': 'S',
       'out': 'made', 'reading': [3, 1000, 0]},
      {'ev': 'stamped', 'node': 'S', 'out': 'done'},
      {'copy': 11, 'ev': 'hear', 'node': 'S', 'offset2': '131072000', 'out': 'report', 'path2': '131072000', 'tags': [5, 7, 13, 15]}],
     (131072000, 131072000), (1000002000 * 65536, -999998000 * 65536), [3, 1000, 0]),
]


def exchanges(events, cases):
    return [Exchange(events, by, case) for by, case in enumerate(cases)]


# The fields that are read, in the order in which they are counted.
READ_FIELDS = ['messageType', 'domainNumber', 'twoStepFlag', 'correctionField', 'sourcePortIdentity', 'sequenceId', 'originTimestamp',
               'preciseOriginTimestamp', 'receiveTimestamp', 'requestingPortIdentity']


def wrong_fields(found, wanted):
    """The fields that are read and say something else, and of times and corrections by how many nanoseconds."""
    said, owed = read_fields(found), read_fields(wanted)
    if 'originTimestamp' in said:
        owed.setdefault('originTimestamp', (seconds(stamp(wanted)), stamp(wanted)))
    return {name: None if said[name][1] is None else abs(said[name][1] - owed[name][1])
            for name in said if name in owed and said[name][0] != owed[name][0]}


def fields_that_differ(messages):
    """In how many messages which field that is read differs, and by how much at the most; none where none does."""
    lost = [found for found, _ in messages if unreadable(found)]
    wrong = [wrong_fields(found, wanted) for found, wanted in messages if not unreadable(found)]
    count = len(lost) + len(list(filter(None, wrong)))
    if not count:
        return ''
    lines = [f"octets can't be left aside (708): a field that a slave or a master reads differs in {texts.counted(count, 'message')}\n"]
    if lost:
        lines.append(f"  {texts.counted(len(lost), 'message')} that nobody can read\n")
    for name in READ_FIELDS:
        amounts = [fields[name] for fields in wrong if name in fields]
        if amounts:
            most = '' if amounts[0] is None else f', by {decimals(Fraction(max(amounts)))} ns at the most'
            lines.append(f'  {name} in {len(amounts)}{most}\n')
    return ''.join(lines)


def other_octets(messages):
    """How many messages have other octets, and where those differ that differ in no field that is read."""
    others = [(found, wanted) for found, wanted in messages if found != wanted]
    lines = [f'other octets than a port or a clock writes: {len(others)} of {len(messages)} messages\n']
    begins = collections.Counter()
    for found, wanted in others:
        if unreadable(found) or wrong_fields(found, wanted):
            continue
        first = [place for place, pair in enumerate(zip(found, wanted)) if pair[0] != pair[1]][0]
        begins[unread_field(found, wanted, first)] += 1
    return ''.join([*lines, *(f'  from {name} on: {begins[name]}\n' for _, name in UNREAD if begins[name])])


def end(bent):
    """What is owed behind the last report."""
    reports = texts.counted(len(bent), 'report')
    wrong = sum(exchange.reported != exchange.readings for exchange in bent)
    told = sum(exchange.reported == exchange.messages for exchange in bent)
    against = (f'  706 stands against {wrong}: {REASON[706]}\n' if wrong else '') + f'  708 stands against {len(bent)}: {REASON[708]}\n'
    messages = [(exchange.octets(place), exchange.octets(place, right=True))
                for exchange in bent for place in TOLD if 'hex' in exchange.events[place]]
    first = bent[0]
    # The Sync of each exchange but the first completes a half where that of the Delay_Req before it is there, and has no report.
    passed = len(bent) - 1
    unreported = f'{texts.counted(passed, "completion")} had no report, though both halves of one were there; the verdict says nothing of these\n'
    verdict = 708 if first.reported == first.readings else 706
    return (f'{reports}: 0 sound\n{against}results equal to those by the messages that came to the slave: {told} of {reports}\n'
            f'results equal to those by the readings of the clocks: {len(bent) - wrong} of {reports}\n'
            + fields_that_differ(messages) + other_octets(messages) + (unreported if passed else '') + f"verdict: refused event {first.events[-1]['n']}: {verdict}\n")


def transcript(events):
    return ''.join(f'{compact(event)}\n' for event in events)


def behind_moments(text):
    """What stands behind the moments of a report, up to the next report or to how many there are."""
    lines = text[text.index('  offset  reported '):].splitlines(True)
    return ''.join(itertools.takewhile(lambda line: line.startswith('  '), lines))


# How many outcomes aren't those of a slave here: what a port makes of messages that are bent isn't computed here.
OTHERS = re.compile('(?m)^other outcomes than a slave here has for the messages that came: .*\n  the first: .*\n')


class Bent(unittest.TestCase):
    maxDiff = None

    def compare(self, begin, bent):
        """The whole text of each report but for its moments, and its JSON."""
        lines = transcript([*begin, *(event for exchange in bent for event in exchange.events)])
        ended = explain(lines, '--json')
        self.assertEqual(ended.status, 1)
        self.assertEqual(ended.output.splitlines(True), [judged(exchange) for exchange in bent])
        ended = explain(lines)
        self.assertEqual(ended.status, 1)
        told = re.split(r'(?m)^(?=event )', ended.output)[1:]
        self.assertEqual(len(told), len(bent))
        for exchange, text in zip(bent, told):
            with self.subTest(case=exchange.case):
                self.assertEqual(text[:text.index('  t1  ')], above(exchange))
                self.assertEqual(behind_moments(text), below(exchange))
        last = told[-1]
        self.assertEqual(OTHERS.sub('', last[re.search('(?m)^[0-9]+ reports?: ', last).start():]), end(bent))

    def test_names_each_field_and_by_how_much(self):
        self.assertGreaterEqual(len(WAYS), 30)
        self.assertGreaterEqual(sum(way.read for way in WAYS), 10)
        bent = exchanges(EXCHANGE, [*map(case, WAYS), *REPORTED])
        self.assertEqual({exchange.readings for exchange in bent}, {(int(EXCHANGE[-1]['offset2']), int(EXCHANGE[-1]['path2']))})
        self.compare([*NODES, *BEGIN], bent)

    def test_counts_corrections_of_a_sync_and_its_follow_up_together(self):
        self.compare([*NODES, *BEGIN], exchanges(with_fraction(EXCHANGE), TWO_STEP_CLOCK))

    def test_names_a_one_step_sync(self):
        begin, events = renamed([[*NODES, *BEGIN], with_one_step(EXCHANGE)], 'M', 'GM-1')
        self.compare(begin, exchanges(events, ONE_STEP))

    def test_names_the_way_in_which_results_are_wrong(self):
        right = [Exchange(with_longer(EXCHANGE, *longer), by, case()) for by, longer in enumerate(LONGER)]
        owed = [exchange.readings for exchange in right]
        self.assertEqual(len(set(owed)), len(owed))
        places = {'report': [exchange.events[-1]['n'] for exchange in right], 'sync': [exchange.events[3]['n'] for exchange in right]}
        lines = {f'{name}_line': [event + len(NODES) + 1 for event in events] for name, events in places.items()}
        for number, wrong, said in WRONG:
            with self.subTest(number=number, said=said):
                events = [event for exchange in right[:number + 1] for event in exchange.events]
                offset2, path2 = wrong(owed)
                events[-1] = dict(events[-1], offset2=str(offset2), path2=str(path2))
                text = explain(transcript([*NODES, *BEGIN, *events])).output
                place = f"event {places['report'][number]}, line {lines['report_line'][number]}"
                sentence = '' if said is None else f'    {said.format(**places, **lines)}\n'
                self.assertIn(f'{place}: the report of S is refused, 706: {REASON[706]}\n{sentence}  t1  ', text)

    def test_names_the_results_that_were_reported_before(self):
        first, second = (Exchange(with_longer(EXCHANGE, *longer), by, case()) for by, longer in enumerate(LONGER[:2]))
        events = [*first.events, *second.events]
        for event in first.events[-1], second.events[-1]:
            events[events.index(event)] = dict(event, offset2='7', path2='9')
        text = explain(transcript([*NODES, *BEGIN, *events])).output
        self.assertIn(f' is refused, 706: {REASON[706]}\n    the results are equal to those of the report before, {first.place(-1)}, as they were reported there\n',
                      text)

    def test_names_the_way_in_which_results_are_wrong_by_the_messages(self):
        # One step late, and the results of that with offset and path in each other's place.
        late = Exchange(EXCHANGE, 0, case(LATE, EARLY))
        event = dict(late.events[-1], offset2=str(late.messages[1]), path2=str(late.messages[0]))
        text = explain(transcript([*NODES, *BEGIN, *late.events[:-1], event])).output
        self.assertIn(f" is refused, 706: {REASON[706]}\n    the results are equal to those by the messages, with offset2 and path2 in each other's place\n", text)

    def test_names_the_master_that_answered(self):
        another = dict(NODES[0], id='001122fffe334466', node='N')
        events = [*BEGIN, *EXCHANGE]
        answer = len(BEGIN) + DELAY_RESP
        events[answer] = with_octets(events[answer], Way(DELAY_RESP, 20, another['id']), EARLY, node='N')
        text = explain(transcript([*NODES, another, *events])).output
        self.assertIn(' is refused, 703: ', text)
        # b is 1 ns less
        rows = ''.join(map(result_row, ('offset', 'path'), (131072000, 131072000), (131072000, 131072000)))
        self.assertEqual(behind_moments(text), rows + messages_row((2001 * 65536, 1999 * 65536), False) +
                         "    Delay_Resp 0 (event 11, line 16) tells t4 1 ns earlier than N's clock read\n")

    def test_names_no_message_where_messages_are_of_two_exchanges(self):
        for events, reported, messages, time in PAIRED:
            with self.subTest(events=events):
                lines = [*WORKED[:len(NODES) + 13], *(dict(event, n=13 + place) for place, event in enumerate(events))]
                judged = json.loads(explain(transcript(lines), '--json').output.splitlines()[-1])
                self.assertEqual((judged['reasons'], judged['by_messages'], judged['time']), ([702], pair(messages), time))
                text = explain(transcript(lines)).output
                self.assertIn(' is refused, 702: ', text)
                rows = ''.join(map(result_row, ('offset', 'path'), reported, reported))
                self.assertEqual(behind_moments(text), rows + messages_row(messages, False))
