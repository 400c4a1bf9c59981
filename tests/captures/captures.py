"""Holds what `ptpx extract` writes of captures against what was put into them, against reading.py, a reader that was written apart from it,
and where they are there against tshark, on what editcap and mergecap make, too.

- Rows of frames.tsv, captures.tsv and interfaces.tsv were worked by hand.
- Captures of every form are made by a seed, by making.py, which says what is owed for them, also at one interface, and without times.
- Small captures are cut at each octet, and each of their lengths is set to 0, to 1, to its greatest and to others.
- 10,000 captures are bent and broken by a seed, and so are the headers of 40,000 packets.
- A capture that comes bit by bit is answered packet by packet, and one of 200 MiB in little memory.

Compared are the lines, the status, and of a fault its number, its octet and the count of packets on standard error. With `--pcap` the program is asked for
captures of that kind alone, and with `--reader` for none: that holds reading.py to the hand's, the maker's and tshark's answers."""
import collections
import concurrent.futures
import resource

import cases
import judges
import made
import making
import pausing
import reading
import tables
from asking import AT_ONCE, EXAMPLE, PCAP_ALONE, READER_ALONE, fail, is_asked, see, try_kinds
from cases import SMALL
from making import SECOND
from unwrapping import unwrapped

LARGE = 200 * 2**20

# What must have been seen.
SEEN = [*(f'fault {number}' for number in range(1001, 1007)), 'no fault', 'datagram', 'none', 'no time', 'long', 'fragment', 'simple', 'old', 'link 147']


def try_frames_of(link, rows):
    """All rows of a link type as packets of a pcap."""
    capture = making.Pcap(link=link)
    for place, of, packet, *_ in rows:
        if of == link:
            capture.packet(place * SECOND, making.bare(packet))
    # what is owed for them is the reader's, which was held against each row
    see(f'frames.tsv: link type {link}', bytes(capture.octets))


def try_frames():
    """Each row of frames.tsv by the reader, and all of them as packets of one capture, with an interface for each link type, and of a pcap each."""
    capture, told, counts = making.Pcapng(), [], collections.Counter()
    capture.section()
    rows = list(tables.frames())
    links = sorted({link for _, link, *_ in rows})
    for link in links:
        capture.interface(link)
    for place, link, packet, datagram, outcome in rows:
        if unwrapped(link, packet) != (datagram, outcome):
            fail(f'frames.tsv:{place}: the reader has {unwrapped(link, packet)}')
        # the time says in which line of the table a packet stands
        capture.enhanced(links.index(link), place * SECOND, making.bare(packet))
        counts[outcome] += 1
        if datagram is not None:
            told.append((place * SECOND, datagram))
    see('frames.tsv', bytes(capture.octets), told, counts)
    for link in links:
        try_frames_of(link, rows)
    return len(rows)


def try_captures():
    """Each row of captures.tsv."""
    rows = list(tables.captures())
    for place, octets, fault, packets, text in rows:
        answer = reading.read(octets)
        if (answer.fault, answer.packets, answer.text()) != (fault, packets, text):
            fail(f'captures.tsv:{place}: the reader has {answer.fault}, {answer.packets} packets, {answer.text()}')
        see(f'captures.tsv:{place}', octets)
    return len(rows)


def try_interfaces():
    """Each row of interfaces.tsv."""
    rows = list(tables.interfaces())
    for place, octets, name, datagrams in rows:
        found = [datagram for _, datagram in reading.read(octets, name.encode()).datagrams]
        if found != datagrams:
            fail(f'interfaces.tsv:{place}: the reader has {[datagram.hex() for datagram in found]}')
        see(f'interfaces.tsv:{place}', octets, interface=name, is_timed=False)
    return len(rows)


def try_example():
    """The example, of which tshark made the lines beside it."""
    lines = [line.split(' ') for line in EXAMPLE.with_suffix('.lines').read_text().splitlines()]
    see(EXAMPLE.name, EXAMPLE.read_bytes(), [(judges.nanoseconds(time), bytes.fromhex(octets)) for time, octets in lines])


def see_in_little_memory(name, *case):
    seen = see(name, *case)
    # the most that any run took so far
    memory = resource.getrusage(resource.RUSAGE_CHILDREN).ru_maxrss
    if memory > pausing.MEMORY:
        fail(f'{name}: a run took {memory} KiB', case[0])
    return seen


KINDS = {kind: (see_in_little_memory, those) for kind, those in cases.KINDS.items()}


def compare_with_tshark(name, octets):
    """Compares the answers with what tshark finds in a capture, up to messageLength."""
    see(name, octets)
    found = [(time, judges.up_to_length(datagram)) for time, datagram in reading.read(octets).datagrams]
    if found != judges.tshark(octets):
        fail(f'{name}: tshark finds something else', octets)


def try_tshark(number):
    compare_with_tshark(f'tshark, number {number}', bytes(made.capture(number, odd=False, packets=60).octets))


def try_edited(name, octets):
    if judges.are_there('tshark'):
        compare_with_tshark(name, octets)
    else:
        see(name, octets)


def try_others(pool):
    """What other programs find, and make, where they are there."""
    if judges.are_there('tshark'):
        count = len(list(pool.map(try_tshark, range(16))))
        print(f'captures: {count} as tshark finds')
    else:
        print('captures: tshark is not there, so what it finds is passed over')
    if judges.are_there('editcap', 'mergecap'):
        edited = list(judges.edited(EXAMPLE))
        list(pool.map(try_edited, *zip(*edited)))
        print(f'captures: {len(edited)} by editcap and mergecap')
    else:
        print('captures: editcap and mergecap are not there, so what they make is passed over')


def try_pipes():
    small = [it for it in SMALL if is_asked(it.octets)]
    for capture in small:
        pausing.try_pauses(capture, ['extract'], reading.read(bytes(capture.octets)).text(), lambda packets, lines: lines)
        pausing.try_octet_by_octet(capture)
    kinds = [False] if PCAP_ALONE else [False, True]
    for is_pcapng in kinds:
        pausing.try_large(is_pcapng, LARGE)
    print(f'captures: {len(small)} bit by bit, and {len(kinds)} of 200 MiB')


def main():
    count = try_frames(), try_captures() + try_interfaces()
    print('captures: %d packets and %d captures that were worked by hand' % count)
    try_example()
    try_kinds(__name__, 'extracted')
    with concurrent.futures.ProcessPoolExecutor(AT_ONCE) as pool:
        try_others(pool)
    if READER_ALONE:
        print('captures: the program was not asked')
    else:
        try_pipes()
