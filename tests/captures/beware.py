"""Bends a capture as setups in the field do, and sees that `ptpx measure` says what speaks against its numbers: the lines `beware` that are owed,
and the statistics. All is computed apart, reports by tests/hostile/measured.py and the numbers by worth.py; only
of a good capture they are those of the reports that went out. A good capture has no line `beware`.

Further captures, good ones, may be named as arguments; with -v it says what it found."""
import json
import pathlib
import random
import re
import sys
import typing
from fractions import Fraction

import judges
import making
import measured
import reading
import shown
import texts
import unwrapping
import worth
from asking import EXAMPLE, fail, hold
from program import Ended, ask

SYNC, REQUEST, FOLLOW_UP, RESPONSE = 'Sync', 'Delay_Req', 'Follow_Up', 'Delay_Resp'


class Packet(typing.NamedTuple):
    """A packet, of which a snap length may leave fewer octets."""
    time: int
    octets: bytes
    snap: int = making.NO_END


class Packets(reading.Answer):
    """All packets of a capture."""

    def __init__(self, octets):
        super().__init__(None)
        self.all = []
        reading.read_pcap(reading.Input(octets), self)

    def take(self, _, time, octets):
        self.all.append(Packet(time, octets))


def written(packets):
    """A pcap with nanoseconds."""
    capture = making.Pcap(unit=1)
    for it in packets:
        capture.packet(it.time, making.bare(it.octets), it.snap)
    return bytes(capture.octets)


# PTP over UDP over IPv4 over Ethernet, as examples/slave.pcap has it.
def message(packet):
    return unwrapping.unwrapped(making.ETHERNET, packet.octets[:packet.snap])[0] or b''


def said_by(packet):
    return shown.message(message(packet))


def kind(packet):
    return getattr(said_by(packet), 'kind', None)


def with_message(packet, octets):
    return packet._replace(octets=packet.octets[:42] + octets)


def stamp(nanoseconds):
    seconds, rest = divmod(nanoseconds, 10**9)
    return seconds.to_bytes(6, 'big') + rest.to_bytes(4, 'big')


def shifted(packets, by):
    return [it._replace(time=it.time + by) for it in packets]


def drifting(packets, parts):
    """A clock that is quicker by so many parts of a thousand million."""
    first = packets[0].time
    return [it._replace(time=it.time + (it.time - first) * parts // 10**9) for it in packets]


def sawtooth(packets, parts, height):
    """Such a clock is set back each time that it is so many nanoseconds ahead."""
    first = packets[0].time
    return [it._replace(time=it.time + (it.time - first) * parts // 10**9 % height) for it in packets]


def at_master(packets):
    """At the master's own port, by its own stamps: Syncs leave when their Follow_Ups say, and requests come when their responses say."""
    left = {said_by(it).sequence: said_by(it).stamp // 2**16 for it in packets if kind(it) == FOLLOW_UP}
    came = {said_by(it).sequence: said_by(it).stamp // 2**16 for it in packets if kind(it) == RESPONSE}
    times = [left.get(said_by(it).sequence) if kind(it) == SYNC else came.get(said_by(it).sequence) if kind(it) == REQUEST else None for it in packets]
    return [it._replace(time=time or it.time) for it, time in zip(packets, times)]


def coarse(packets, step):
    """All times of the capture and of the messages are whole steps, and nothing takes any time."""
    bent = []
    for it in packets:
        octets = message(it)
        time = it.time // step * step
        if kind(it) in (FOLLOW_UP, RESPONSE):
            it = with_message(it, octets[:34] + stamp(said_by(it).stamp // 2**16 // step * step) + octets[44:])
        bent.append(it._replace(time=time))
    return bent


def with_octet(packet, place, octet):
    """The same, with another octet in its message."""
    octets = message(packet)
    return with_message(packet, octets[:place] + bytes([octet]) + octets[place + 1:])


def of_another(packets, kinds, octet):
    """The messages of these kinds are of another clock."""
    return [with_octet(it, 27, octet) if kind(it) in kinds else it for it in packets]


def of_kinds(packets, *kinds):
    return [it for it in packets if kind(it) in kinds]


def half_way(packets, change):
    """From the middle on something changes."""
    half = len(packets) // 2
    return packets[:half] + change(packets[half:])


def together(packets, others):
    return sorted([*packets, *others], key=lambda it: it.time)


def many_masters(packets):
    """Ten other masters send a Sync each, the first of them a Follow_Up as well."""
    others = [with_octet(it, 27, 0x90 + at) for at, it in enumerate(of_kinds(packets, SYNC)[:10])]
    return together(packets, shifted([*others, with_octet(of_kinds(packets, FOLLOW_UP)[0], 27, 0x90)], 700))


def other_domains(packets):
    """The same exchange goes on in domains 3 and 7, too."""
    return together(packets, [with_octet(it, 4, domain)._replace(time=it.time + 900 + domain) for it in of_kinds(packets, SYNC, FOLLOW_UP) for domain in (7, 3)])


def without(packets, kind_lost, each):
    """One in so many messages of a kind is lost."""
    places = [at for at, it in enumerate(packets) if kind(it) == kind_lost]
    lost = set(places[each // 2::each])
    return [it for at, it in enumerate(packets) if at not in lost]


def until(packets, seconds, *kinds):
    """Messages of these kinds stop after so many seconds."""
    end = packets[0].time + seconds * 10**9
    return [it for it in packets if it.time < end or kind(it) not in kinds]


def shuffled(packets):
    mixed = list(packets)
    random.Random(1588).shuffle(mixed)
    return mixed


def corrected(packet, units):
    """The same, with a correction in 2^-16 ns."""
    octets = message(packet)
    return with_message(packet, octets[:8] + units.to_bytes(8, 'big', signed=True) + octets[16:])


def later_stamp(packet, by):
    """The same, with a timestamp that is so many nanoseconds later."""
    octets = message(packet)
    return with_message(packet, octets[:34] + stamp(said_by(packet).stamp // 2**16 + by) + octets[44:])


def renumbered(packets, kinds, by):
    """Messages of these kinds have other numbers."""
    return [with_message(it, message(it)[:30] + ((said_by(it).sequence + by) % 2**16).to_bytes(2, 'big') + message(it)[32:]) if kind(it) in kinds else it
            for it in packets]


def still(packets):
    """Each Sync and each Delay_Req takes 20 us, and the slave's clock is right."""
    left = {said_by(it).sequence: said_by(it).stamp // 2**16 for it in packets if kind(it) == FOLLOW_UP}
    asked = {said_by(it).sequence: it.time for it in packets if kind(it) == REQUEST}
    bent = [it._replace(time=left[said_by(it).sequence] + 20_000) if kind(it) == SYNC else it for it in packets]
    return together([later_stamp(it, asked[said_by(it).sequence] + 20_000 - said_by(it).stamp // 2**16) if kind(it) == RESPONSE else it for it in bent], [])


def longer_back(packets, by):
    """From the middle on Delay_Reqs take so many nanoseconds longer."""
    return half_way(packets, lambda rest: [later_stamp(it, by) if kind(it) == RESPONSE else it for it in rest])


# Words that stand in several.
FALLS = r"times that are before that of the packet before: %d; a clock was set, or the packets aren't in order, and what is told of missing messages may come of that: reordercap sorts a capture$"
CUT = r'datagrams that are cut short \(201, 205\): %d;'
UNFOLLOWED = r"%d of %d two-step Syncs have no Follow_Up and give no offset: lost, or general messages \(port 320\) weren't recorded$"
UNANSWERED = r"%d of %d Delay_Reqs have no Delay_Resp: lost, or the master doesn't answer them$"
MISSING = r'%d of %d %s are missing, by their numbers: lost on the way or in recording$'
OLD = (r'offsets that rest on a path delay older than 10 s: %d, the first at packet %d; the oldest was %s s old at packet %d: Delay_Reqs or their answers '
       r"stopped, and the path delay isn't measured anew$")
SLOWED = r'1 of 51 path delays are below 0, the least -%s ns at packet 182:'
REPEATED = r'messages with a number that came before: 1;'
MASTER_ANEW = r'the master began its numbers anew %s at packet %d, at %s: it was started anew, or another one took its identity, or many of its Syncs are missing$'
SLAVE_ANEW = r'the slave began anew %s at packet %d, at %s: it was started anew, or many of its Delay_Reqs are missing$'
COARSE = r'all times are of whole microseconds: no offset is better than 1 us;'

def late_once(packets):
    """One Sync in the middle is stamped 0.1 s late."""
    late = of_kinds(packets, SYNC)[29]
    return [it._replace(time=it.time + 10**8) if it is late else it for it in packets]


# What setups do, and what is to be said of it.
BENT = {
    'in UTC': (lambda it: shifted(it, -37 * 10**9), [r'all offsets are next to -37 s: .*editcap -t 37 ']),
    'ahead by 5 s': (lambda it: shifted(it, 5 * 10**9), [r'all offsets are next to 5 s: .*editcap -t -5 ']),
    'of a free clock': (lambda it: drifting(it, 20_000), [r'the offset runs away by (19|20)\.\d{3} ppm']),
    'of a slow clock': (lambda it: drifting(it, -5_000), [r'the offset runs away by -(4|5)\.\d{3} ppm']),
    'of a clock that is set back each 7 s': (lambda it: sawtooth(it, 20_000, 141_000),
                                             [r'42 of 55 offsets are above the one before, and others far below it, by 121812 ns at most, at packet 336: the '
                                              r'clock drifts, and is set again and again instead of steered$']),
    'of a clock that is set ahead each 7 s': (lambda it: sawtooth(it, -20_000, 141_000),
                                             [r'3 of 51 path delays are below 0, the least -50341\.5 ns at packet 333:',
                                              r'42 of 55 offsets are below the one before, and others far above it, by 116230 ns at most, at packet 254: the '
                                              r'clock drifts, and is set again and again instead of steered$']),
    # once isn't again and again
    'still, with a clock that is set back once': (lambda it: sawtooth(still(it), 100, 3000), [r'the path delay steps by 1472\.360 ns \(rounded\) at packet 354: ']),
    # each packet is there twice, as a mirror of both directions writes it
    'mirrored': (lambda it: [copy for one in it for copy in (one, *shifted([one], 4500))],
                 [r'messages with a number that came before: 218, from 4500 to 4500 ns after the first;']),
    'with a snap length': (lambda it: [one._replace(snap=90) for one in it], [UNANSWERED % (51, 51), CUT % 51]),
    'at the master': (at_master, [r'all 51 requests arrive at the time at which they leave']),
    'with requests that are stamped late': (lambda it: [one._replace(time=one.time + 10**6) if kind(one) == REQUEST else one for one in it],
                            [r'51 of 51 path delays are below 0, the least -', FALLS % 51]),
    'in steps of 0.1 ms': (lambda it: coarse(it, 10**5), [r'45 of 51 path delays are 0 exactly', COARSE]),
    # the slave turns to it
    'with another master': (lambda it: half_way(it, lambda rest: of_another(rest, (SYNC, FOLLOW_UP, RESPONSE), 0x99)),
                            [r'the Syncs of the master end \d+\.\d s before the recording does, and those of 020000fffe112299/1 begin at '
                             r'packet \d+; --master 020000fffe112299/1 measures by them',
                             r'messages of other masters of the domain: \d+ of 020000fffe112299/1; --master picks one', UNANSWERED % (27, 51)]),
    'with ten other masters': (many_masters, [r'messages of other masters of the domain: 2 of 020000fffe112290/1, 1 of 020000fffe112291/1, .*, '
                                              r'1 of 020000fffe112297/1, 2 of further ones; --master picks one']),
    'with another slave': (lambda it: together(it, shifted(of_another(of_kinds(it, REQUEST), (REQUEST,), 0x77), 1000)),
                           [r'Delay_Reqs of other slaves of the domain: 51 of 020000fffeaabb77/1; --slave picks one']),
    'with other domains': (other_domains, [r'messages of other domains: 116 of domain 3, 116 of domain 7; --domain picks one']),
    # the slave goes on asking
    'without a master in the end': (lambda it: half_way(it, lambda rest: of_kinds(rest, REQUEST)),
                                    [r'the Syncs of the master end \d+\.\d s before the recording does: it went away', UNANSWERED % (27, 51)]),
    'without a slave in the end': (lambda it: half_way(it, lambda rest: of_kinds(rest, SYNC, FOLLOW_UP, None)), [OLD % (21, 220, r'30\.672', 302)]),
    'without reports in the end': (lambda it: half_way(it, lambda rest: of_kinds(rest, SYNC, None)),
                                   [r'no report is of the last \d+\.\d s: the slave went away', UNFOLLOWED % (31, 58)]),
    # answers or requests stop, and Syncs go on
    'without Delay_Reqs after 10 s': (lambda it: until(it, 10, REQUEST, RESPONSE), [OLD % (42, 99, r'51\.041', 268)]),
    'without Delay_Reqs after 20 s': (lambda it: until(it, 20, REQUEST, RESPONSE), [OLD % (31, 161, r'40\.999', 284)]),
    'without Delay_Resps after 20 s': (lambda it: until(it, 20, RESPONSE), [OLD % (31, 170, r'40\.999', 320), UNANSWERED % (36, 51)]),
    'with one in 10 Follow_Ups lost': (lambda it: without(it, FOLLOW_UP, 10), [UNFOLLOWED % (6, 58)]),
    'with one in 5 Syncs lost': (lambda it: without(it, SYNC, 5), [MISSING % (11, 57, 'Syncs')]),
    'with one in 5 Delay_Reqs lost': (lambda it: without(it, REQUEST, 5), [MISSING % (10, 51, 'Delay_Reqs')]),
    'with half of the Delay_Resps lost': (lambda it: without(it, RESPONSE, 2), [UNANSWERED % (25, 51)]),
    'with one Sync and one Delay_Resp lost': (lambda it: without(without(it, SYNC, 58), RESPONSE, 51), []),
    'without Follow_Ups': (lambda it: without(it, FOLLOW_UP, 1), [UNFOLLOWED % (58, 58)]),
    'with Delay_Reqs that have a correction': (lambda it: [corrected(one, 5000 * 2**16) if kind(one) == REQUEST else one for one in it],
                                               [r'Delay_Reqs that have a correction where they were recorded: 51, the first at packet 22; a transparent clock '
                                                r'stands between the slave and this place, and both results are off by half of the time in it, unless the slave itself corrects an asymmetry: record in front of it$']),
    'with a snap length of 60': (lambda it: [one._replace(snap=60) for one in it], [CUT % 335]),
    # no report is left of either
    'in reverse': (lambda it: it[::-1], [FALLS % 334, UNFOLLOWED % (55, 58), UNANSWERED % (51, 51),
                                         MASTER_ANEW % ('56 times, first', 8, r'1795329198\.843530988'), SLAVE_ANEW % ('50 times, first', 12, r'1795329198\.452161276')]),
    'shuffled': (shuffled, [r'the Syncs of the master end 25\.0 s before the recording does: it went away', FALLS % 162, MISSING % (514, 572, 'Syncs'), UNFOLLOWED % (57, 58),
                            MISSING % (476, 527, 'Delay_Reqs'), UNANSWERED % (50, 51),
                            MASTER_ANEW % ('31 times, first', 16, r'1795329163\.837999592'), SLAVE_ANEW % ('24 times, first', 10, r'1795329146\.246519843')]),
    # one Delay_Resp takes a Sync from before the step
    'stepped by 1 ms': (lambda it: half_way(it, lambda rest: shifted(rest, 10**6)),
                        [SLOWED % 482238, r'the offset steps by 1001501\.792 ns \(rounded\) at packet 185: a clock was set there, or the way changed$']),
    'stepped by 37 s': (lambda it: half_way(it, lambda rest: shifted(rest, 37 * 10**9)),
                        [SLOWED % 18499981721, r'the offset steps by 37000001544\.570 ns \(rounded\) at packet 185: ', REPEATED]),
    # a step is told where it is the greatest change from one to the next: of 5 us it isn't here, where path delays vary as much, and is where they don't
    'with a way back that is 5 us longer in the end': (lambda it: longer_back(it, 5000), []),
    'with a way back that is 50 us longer in the end': (lambda it: longer_back(it, 50_000),
                                                        [r'the offset steps by -23498\.208 ns \(rounded\) at packet 185: a clock was set there, or the way changed$',
                                                         r'the path delay steps by 27283\.569 ns \(rounded\) at packet 182: the way changed, or a clock was set there$']),
    'with one Sync that is stamped 0.1 s late': (late_once, [FALLS % 1, r'the offset at packet \d+ lies at least \d+ ns from both of its neighbours, more than a '
                                                             r'hundred times as far as offsets change else: one of its messages was held up, or has a wrong time$']),
    'still': (still, []),
    'still, with a way back that is 5 us longer in the end': (lambda it: longer_back(still(it), 5000),
                                                              [r'the offset steps by -2500\.000 ns \(rounded\) at packet 185: a clock was set there, or the way changed$',
                                                               r'the path delay steps by 2500\.000 ns \(rounded\) at packet 182: the way changed, or a clock was set there$']),
    'with a master that begins anew': (lambda it: half_way(it, lambda rest: renumbered(rest, (SYNC, FOLLOW_UP), 30_000)),
                                       [REPEATED, MASTER_ANEW % ('once,', 184, r'1795329170\.838843349')]),
    'with a slave that begins anew': (lambda it: half_way(it, lambda rest: renumbered(rest, (REQUEST, RESPONSE), 30_000)),
                                      [SLAVE_ANEW % ('once,', 181, r'1795329170\.236745319')]),
    'of whole microseconds': (lambda it: [one._replace(time=one.time // 1000 * 1000) for one in it], [COARSE]),
    'set back': (lambda it: half_way(it, lambda rest: shifted(rest, -2 * 10**9)),
                 [r'the offset steps by -1999998455\.430 ns \(rounded\) at packet 185: ', REPEATED, FALLS % 1]),
}


def reads_of(packets):
    """The datagrams of PTP, each with its packet."""
    for place, it in enumerate(packets, 1):
        if message(it):
            yield measured.Read(place, texts.seconds(it.time), it.time * 2**16, said_by(it), message(it))


def doubts(said):
    return [it.removeprefix('beware: ') for it in said if it.startswith('beware: ')]


def with_corrections(report, line):
    """A report of a line in full, with its correction."""
    name = 'delay_correction' if line['by'] == 'response' else 'sync_correction'
    return report._replace(correction=int(Fraction(line[name]) * 2**16))


def try_good(name, octets):
    """Of a capture in any form: it has no line `beware`, and its statistics are those of its reports."""
    ended = ask(octets, 'measure', '--full', timeout=600)
    said = [it.removeprefix('ptpx: ') for it in ended.errors.decode().splitlines()]
    if ended.status or doubts(said):
        fail(f'{name}, which is good: {doubts(said)}')
    reports = []
    for line in ended.output.splitlines():
        it = json.loads(line)
        units = judges.nanoseconds(it['time']) * 2**16
        reports.append(with_corrections(worth.Report(it['line'], units, it['by'], int(it['offset2']), int(it['path2'])), it))
    for owed in worth.statistics('packet', reports):
        if owed not in said:
            fail(f'{name}: {owed!r} is owed, and isn\'t among {said}')
    return len(reports)


def try_bent(name, packets, owed):
    """Reports, counts, statistics and what speaks against them are those of a reader that was written apart, word by word; and the lines `beware` are
    those that are owed for this setup, in this order, and no further one."""
    octets, reads = written(packets), list(reads_of(packets))
    expected = measured.reckoned(reads, unit='packet')
    heads = [f'{len(packets)} packets, of which {len(reads)} have PTP', f'{len(packets) - len(reads)} packets without PTP']
    hold(name, octets, ['measure'], Ended(0, ''.join(expected.written).encode(), texts.told(expected.at_once + heads + expected.told).encode()))
    found = doubts(expected.told)
    if len(found) != len(owed) or not all(map(re.match, owed, found)):
        fail(f'{name}: {owed} are owed, and not {found}')
    print(f'{name}: {"; ".join(found)}' if '-v' in sys.argv else f'{name}: {len(found)}')


def main():
    octets = EXAMPLE.read_bytes()
    packets = Packets(octets).all
    if written(packets)[24:] != octets[24:]:
        fail('a capture that is read and written is another one')
    try_bent('as it is', packets, [])
    reports = try_good(EXAMPLE.name, octets)
    for name in [it for it in sys.argv[1:] if not it.startswith('-')]:
        reports += try_good(name, pathlib.Path(name).read_bytes())
    for name, (bend, owed) in BENT.items():
        try_bent(name, bend(packets), owed)
    print(f'captures: {reports} reports of good captures have nothing to beware of, and {len(BENT)} bent captures have what is owed')
