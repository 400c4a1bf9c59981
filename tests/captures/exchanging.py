"""Makes captures of exchanges for `ptpx measure`, at one interface and at several. A message is a place, a time and a datagram."""
import heapq
import random

import making
import recordings
from choosing import KEPT, LOOKED_AT, Wanted
from making import IPV4, PTP, SECOND, Clock
from recordings import MASTERS, SLAVES, datagram

NANOSECONDS = Clock(9)

# When captures begin, and what is no message.
START, JUNK = 1_000 * SECOND, b'\xca\xfe'


def talk(place=0, count=3, start=START, master=MASTERS[0], slave=SLAVES[0], domain=0, is_two_step=True):
    """So many exchanges, one each second."""
    for number in range(count):
        time, of_number = start + number * SECOND, {'sequence': number, 'domain': domain}
        yield place, time, datagram(0, master, two_step=is_two_step, stamp=divmod(time - 5_000, SECOND), **of_number)
        if is_two_step:
            yield place, time + 100_000, datagram(8, master, stamp=divmod(time - 4_500, SECOND), **of_number)
        yield place, time + 200_000, datagram(1, slave, **of_number)
        yield place, time + 300_000, datagram(9, master, stamp=divmod(time + 207_000, SECOND), requesting=slave, **of_number)


def syncs(place=0, count=5, **who):
    """Syncs alone."""
    return (it for it in talk(place, count, **who) if it[2][0] == 0)


def junk(place, count, start=START):
    return [(place, start, JUNK)] * count


def merged(*talks):
    """Messages in the order of their times."""
    return list(heapq.merge(*talks, key=lambda it: it[1]))


def packet(octets, number):
    """A message over Ethernet or UDP."""
    bare = making.bare(octets)
    return making.ethernet(making.ipv4(making.udp(bare)), IPV4) if number % 2 else making.ethernet(bare, PTP)


def pcap(messages, order='little', unit=1):
    capture = making.Pcap(order, unit)
    for number, (_, time, octets) in enumerate(messages):
        capture.packet(time, packet(octets, number))
    return capture


def put(capture, messages):
    for number, (place, time, octets) in enumerate(messages):
        capture.enhanced(place, time, packet(octets, number))
    return capture


def section(capture, names, messages, order=None, clock=NANOSECONDS):
    """One more section, with interfaces of these names."""
    capture.section(order)
    for name in names:
        capture.interface(name=name, clock=clock)
    return put(capture, messages)


def pcapng(names, *talks, clock=NANOSECONDS):
    return section(making.Pcapng(), names, merged(*talks), clock=clock)


def with_others():
    """Packets between those of exchanges that have no number of a line."""
    capture = section(making.Pcapng(), ['eth0'], [])
    fragment = making.ethernet(making.ipv4(making.udp(making.bare(JUNK)), fragment=0x2000), IPV4)
    for number, (_, time, octets) in enumerate(talk()):
        capture.simple(making.ethernet(making.bare(octets), PTP))
        capture.enhanced(0, time, packet(octets, number))
        capture.old(0, fragment)
        capture.enhanced(0, time, fragment)
        capture.enhanced(0, time, making.ethernet(making.bare(bytes(making.LONGEST + 1)), PTP))
        capture.enhanced(0, time, making.ethernet(making.bare(JUNK), 0x0806))
        capture.other(5, bytes(12))
    return capture


def ones():
    """Captures of one interface."""
    for order in ('little', 'big'):
        for unit in (1, 1000):
            yield f'pcap, {order}, units of {unit} ns', pcap(talk(), order, unit), Wanted()
    yield 'pcap, one-step Syncs', pcap(talk(is_two_step=False)), Wanted()
    yield 'pcap, times between microseconds', pcap(talk(start=START + 1)), Wanted()
    yield 'pcapng without a name', pcapng([None], talk()), Wanted()
    yield 'pcapng, whole microseconds', pcapng(['eth0'], talk(), clock=Clock()), Wanted()
    yield 'pcapng, other packets between', with_others(), Wanted()
    yield 'Syncs alone', pcapng(['eth0'], syncs()), Wanted()
    yield 'no message', pcap(junk(0, 3)), Wanted()
    yield 'no packet', pcap([]), Wanted()
    yield 'no interface', section(making.Pcapng(), [], []), Wanted()


# A second pair, of another domain.
OTHER = {'master': MASTERS[1], 'slave': SLAVES[1], 'domain': 1}


def several():
    """Captures of several interfaces."""
    two = ['eth0', 'eth1']
    soon, late = START, START + 150_000
    yield 'Syncs alone at the first', pcapng(two, syncs(0), talk(1, start=late)), Wanted()
    yield 'Syncs alone at the second', pcapng(two, talk(0, start=late), syncs(1)), Wanted()
    yield 'two, the first sooner', pcapng(two, talk(0, start=soon), talk(1, start=late, **OTHER)), Wanted()
    yield 'two, the second sooner', pcapng(two, talk(0, start=late), talk(1, start=soon, **OTHER)), Wanted()
    # the Delay_Req of the second comes before that of the first, which begins sooner
    yield 'two, the second known sooner', pcapng(two, talk(0), talk(1, start=START + 50_000, is_two_step=False)), Wanted()
    first_late = [it for it in talk(0) if it[1] != START + 200_000]
    yield 'two, the first without its first Delay_Req', pcapng(two, first_late, talk(1, start=late)), Wanted()
    yield 'the second without a name', pcapng(['eth0', None], syncs(0), talk(1)), Wanted()
    yield 'one that comes later', pcapng(two, talk(0), junk(1, 2, START + SECOND)), Wanted()
    yield 'one datagram at another', pcapng(two, junk(0, 1), talk(1)), Wanted()
    yield 'odd names', pcapng(['a\tb\\c', '"\'\n\r\x7f über', ' '], syncs(0), junk(1, 1), talk(2)), Wanted()
    yield 'a name like a place', pcapng(['if1', None], syncs(0), talk(1)), Wanted()
    yield 'a name like an earlier place', pcapng([None, 'if0'], syncs(0), talk(1)), Wanted()
    yield 'two of one name', pcapng(['eth0', 'eth0'], syncs(0), talk(1)), Wanted()


def asked():
    """Options that pick one of several interfaces, or none."""
    two, both = ['eth0', 'eth1'], [list(talk(0)), list(talk(1, start=START + 150_000, **OTHER))]
    for name, wanted in {
            'the domain of the second': Wanted(domain=1), 'the master of the second': Wanted(master=MASTERS[1]),
            'the slave of the second': Wanted(slave=SLAVES[1]), 'all of the second': Wanted(1, MASTERS[1], SLAVES[1]),
            'the domain of the first': Wanted(domain=0), 'another domain': Wanted(domain=7), 'another master': Wanted(master=bytes(10)),
            'the master of one and the slave of the other': Wanted(master=MASTERS[0], slave=SLAVES[1]),
            'the master of one and the domain of the other': Wanted(1, MASTERS[0])}.items():
        yield name, pcapng(two, *both), wanted
    # what is asked for is met by any message
    told = [it for it in talk(1) if it[2][0] in (1, 8)]
    yield 'a Follow_Up and a Delay_Req of whom is asked for', pcapng(two, syncs(0), told), Wanted(0, MASTERS[0], SLAVES[0])
    yield 'a Sync of the domain before that of the master', pcapng(two, syncs(0, **OTHER), talk(1)), Wanted(master=MASTERS[0])
    yield 'one interface, another domain', pcap(talk()), Wanted(domain=7)
    yield 'one interface, its slave', pcap(talk()), Wanted(slave=SLAVES[0])
    yield 'one interface, another slave', pcap(talk()), Wanted(slave=SLAVES[1])
    yield 'no Delay_Req, and a slave that is asked for', pcap(syncs()), Wanted(slave=SLAVES[1])
    crowd = [(0, START + number, datagram(1, bytes(9) + bytes([number]), 0)) for number in [*range(1, 11), 9, 3]]
    yield 'ten slaves, and another that is asked for', pcap(crowd), Wanted(slave=SLAVES[1])


def late():
    """So many datagrams at one interface, and at another, before the Delay_Req that tells the slave."""
    begin, *rest = [it for it in talk(1, start=START + 1) if it[1] <= START + 100_001], *talk(1, start=START + 1)
    rest = [it for it in rest if it not in begin]
    for place in (0, 1):
        for count in range(KEPT - 4, KEPT + 1):
            for names in (['eth0', 'eth1'], ['eth0', 'eth1', 'eth2']):
                capture = section(making.Pcapng(), names, [*begin, *junk(place, count, START + 100_001), *rest])
                yield f'{count} datagrams, {len(names)} interfaces, at {place}', capture, Wanted()
    yield 'all at an interface that is not measured', pcapng(['eth0', 'eth1'], syncs(0, KEPT + 5), talk(1, start=START + 2_000 * SECOND)), Wanted()


def many():
    """More interfaces than are looked at."""
    for count in (LOOKED_AT - 1, LOOKED_AT, LOOKED_AT + 1):
        before = [message for place in range(count) for message in junk(place, 1)]
        yield f'the interface after {count}', pcapng([None] * (count + 1), before, talk(count, start=START + 1)), Wanted()
        yield f'the first of {count}, which tells at last', pcapng([None] * (count + 1), before, talk(0, start=START + 1), junk(count, 2, START + 2)), Wanted()
    yield 'datagrams at one that is not looked at', pcapng([None] * 18, [it for place in range(18) for it in junk(place, 2)], talk(3, start=START + 1)), Wanted()


def sections():
    """Several sections, of which each describes its interfaces."""
    messages = list(talk())
    for name, one, other, place in [
            ('one interface in two sections', ['eth0'], ['eth0'], 0), ('one without a name', [None], [None], 0),
            ('another name', ['eth0'], ['eth1'], 0), ('another place', ['eth0'], [None, 'eth0'], 1), ('a name in one alone', ['eth0'], [None], 0),
            ('another order', ['eth0', 'eth1'], ['eth1', 'eth0'], 1), ('one name of two', ['eth0'], ['eth1', 'eth1', 'eth0'], 2)]:
        for cut in (2, 5):
            capture = section(making.Pcapng('little'), one, messages[:cut])
            section(capture, other, [(place, *it[1:]) for it in messages[cut:]], 'big')
            yield f'{name}, {cut} messages in the first', capture, Wanted()


def all_made():
    """The name, the capture and what is asked for, of each."""
    for kind in (ones, several, asked, late, many, sections):
        yield from kind()


def taped(seed):
    """Messages of exchanges that are whole, lost in part, repeated and reordered, at one interface or at several, and what is asked for."""
    rng = random.Random(f'taped {seed}')
    names = rng.choice([['eth0'], [None], ['eth0', 'eth1'], ['eth0', None, 'eth2']])
    talks = []
    for place in range(len(names)):
        tape = recordings.Tape(rng)
        tape.time = START + rng.randrange(SECOND)
        for piece in [recordings.exchange, *rng.choices(recordings.PIECES, k=rng.choice([0, 1, 5, 20]))]:
            piece(rng, tape)
        talks.append([(place, *line) for line in tape.lines])
    # each as it was recorded, though the times of some go back
    messages = talks[0] if len(talks) == 1 else shuffled(rng, talks)
    ports = [None, None, *MASTERS, *SLAVES]
    wanted = Wanted(rng.choice([None, None, 0, 1]), rng.choice(ports[:4]), rng.choice([None, None, *SLAVES])) if rng.random() < 0.5 else Wanted()
    return section(making.Pcapng(rng.choice(['little', 'big'])), names, messages), wanted


def shuffled(rng, talks):
    """Several talks as one, each in its order."""
    order = [place for place, talk_of in enumerate(talks) for _ in talk_of]
    rng.shuffle(order)
    rests = [iter(talk_of) for talk_of in talks]
    return [next(rests[place]) for place in order]
