"""A reader of captures that was written apart from `ptpx extract` and `ptpx measure`: what an input has, and what `extract` owes for it.

It has the whole input in memory and goes through it once, field after field, in the order of the octets. A field is judged as soon as all of
it is there, so the fault that is met first is the first in the input."""
import collections
import re
import typing

import texts
import unwrapping

SECOND = 10**9

# Times are below this, in nanoseconds.
END_OF_TIMES = 2**48 * SECOND

# The magic of a pcap: the order of octets of its numbers, and how many nanoseconds the unit of a fraction has.
PCAP = {b'\xa1\xb2\xc3\xd4': ('big', 1000), b'\xd4\xc3\xb2\xa1': ('little', 1000),
        b'\xa1\xb2\x3c\x4d': ('big', 1), b'\x4d\x3c\xb2\xa1': ('little', 1)}

# The type of a section's header reads alike in both orders.
SECTION_TYPE = b'\x0a\x0d\x0d\x0a'
MAGICS = [*PCAP, SECTION_TYPE]
BYTE_ORDERS = {b'\x1a\x2b\x3c\x4d': 'big', b'\x4d\x3c\x2b\x1a': 'little'}

# Types of blocks.
SECTION, DESCRIPTION, OLD, SIMPLE, ENHANCED = 0x0a0d0d0a, 1, 2, 3, 6

# The least lengths of blocks by type, and that of all others.
LEAST, LEAST_OF_OTHERS = {SECTION: 28, DESCRIPTION: 20, SIMPLE: 16, ENHANCED: 32}, 12

# Options of an interface's description, and how long two of them are.
END_OF_OPTIONS, NAME, RESOLUTION, OFFSET = 0, 2, 9, 14
LENGTHS = {RESOLUTION: 1, OFFSET: 8}

# An interface without a name of its own is called so, by its place, and so nothing else is.
PLACE_NAME = re.compile(rb'if[0-9]+')


class Fault(Exception):
    """A fault of the input: its number, and the octet that it is told at."""

    def __init__(self, number, octet):
        super().__init__(number, octet)
        self.number, self.octet = number, octet


class Interface(typing.NamedTuple):
    """Where packets were captured, and how it counts time: the octet of its resolution, and the seconds that are added."""
    name: bytes
    link: int
    resolution: int
    offset: int
    # its place in the section, and its name where it has one of its own
    place: int = 0
    own: bytes | None = None

    def time(self, units):
        """A packet's time in whole nanoseconds, or None where it is none."""
        base, exponent = (2, self.resolution - 128) if self.resolution >= 128 else (10, self.resolution)
        time = units * SECOND // base**exponent + self.offset * SECOND
        return time if 0 <= time < END_OF_TIMES else None


class Row(typing.NamedTuple):
    """A packet that carries a datagram: its number, from 1, where and when that was captured, and by which way it came."""
    number: int
    interface: Interface
    time: int
    datagram: bytes
    route: unwrapping.Route


class Answer:
    """What a capture has: the time and the octets of each datagram, the packets that carry them, how many packets there are, what became of each, and
    the fault that ended it: its number, the octet, and how many packets came before."""

    def __init__(self, interface):
        self.interface = interface
        self.datagrams = []
        self.rows = []
        self.packets = 0
        self.counts = collections.Counter()
        self.fault = None

    def outcome(self, interface, time, octets):
        """What becomes of a packet, of which there may be no time."""
        if self.interface is not None and interface.name != self.interface:
            return 'another interface'
        if time is None:
            return 'no time'
        datagram, outcome = unwrapping.unwrapped(interface.link, octets)
        if datagram is not None:
            self.datagrams.append((time, datagram))
            self.rows.append(Row(self.packets + 1, interface, time, datagram, unwrapping.route(interface.link, octets)))
        return outcome

    def take(self, interface, time, octets):
        self.count(self.outcome(interface, time, octets))

    def count(self, what):
        self.packets += 1
        self.counts[what] += 1

    def text(self, is_timed=True):
        """What goes to standard output."""
        return ''.join(line(time if is_timed else None, octets) for time, octets in self.datagrams).encode()


def line(time, octets):
    """The line of a datagram, without its time where that is None."""
    return f'{octets.hex()}\n' if time is None else f'{texts.seconds(time)} {octets.hex()}\n'


class Input:
    """Octets that are read from the first to the last, and the order in which they make numbers."""

    def __init__(self, octets):
        self.octets, self.place, self.order = octets, 0, 'big'
        # where the head, the packet or the block begins that is read
        self.part = 0

    def begin_part(self):
        self.part = self.place

    def is_at_end(self):
        return self.place == len(self.octets)

    def take(self, size):
        if len(self.octets) - self.place < size:
            raise Fault(1006, self.part)
        self.place += size
        return self.octets[self.place - size:self.place]

    def number(self, size):
        return int.from_bytes(self.take(size), self.order)

    def version(self, known):
        """Reads the two numbers of a version, which is one that is known."""
        place = self.place
        if (self.number(2), self.number(2)) not in known:
            raise Fault(1002, place)


def read_pcap(octets, answer):
    octets.order, unit = PCAP[octets.take(4)]
    octets.version([(2, 4)])
    octets.take(12)
    interface = Interface(b'if0', octets.number(4) % 2**16, 9, 0)
    while not octets.is_at_end():
        octets.begin_part()
        seconds, fraction, captured, _ = [octets.number(4) for _ in range(4)]
        packet = octets.take(captured)
        time = seconds * SECOND + fraction * unit
        answer.take(interface, time if fraction * unit < SECOND else None, packet)


class Block:
    """A block whose type was read, and of a section's header the order of octets. Begins with judging its length."""

    def __init__(self, octets, first, kind, length):
        if length % 4 or length < LEAST.get(kind, LEAST_OF_OTHERS):
            raise Fault(1004, first + 4)
        self.octets, self.length = octets, length
        # where its second length stands
        self.last = first + length - 4

    def rest(self):
        return self.last - self.octets.place

    def end(self):
        self.octets.take(self.rest())
        if self.octets.number(4) != self.length:
            raise Fault(1004, self.last)


def begin_block(octets):
    """Reads a block's type and total length, and of a section's header the magic in between, which says how the length is to be read."""
    first = octets.place
    kind = octets.number(4)
    if kind != SECTION:
        return kind, Block(octets, first, kind, octets.number(4))
    length, magic = octets.take(4), octets.take(4)
    if magic not in BYTE_ORDERS:
        raise Fault(1003, first + 8)
    octets.order = BYTE_ORDERS[magic]
    return kind, Block(octets, first, kind, int.from_bytes(length, octets.order))


def read_options(octets, block):
    """The options of an interface's description: of each code the first value."""
    options = {}
    while block.rest() > 0:
        code = octets.number(2)
        if code == END_OF_OPTIONS:
            break
        place, length = octets.place, octets.number(2)
        padded = length + -length % 4
        if padded > block.rest() or length != LENGTHS.get(code, length):
            raise Fault(1004, place)
        options.setdefault(code, octets.take(padded)[:length])
    return options


def read_description(octets, block, interfaces):
    link = octets.number(2)
    octets.take(6)
    options = read_options(octets, block)
    name = options.get(NAME, b'')
    own = name if name and not PLACE_NAME.fullmatch(name) and name not in [other.own for other in interfaces] else None
    called = b'if%d' % len(interfaces) if own is None else own
    resolution = options.get(RESOLUTION, b'\x06')[0]
    offset = int.from_bytes(options.get(OFFSET, b''), octets.order, signed=True)
    return Interface(called, link, resolution, offset, len(interfaces), own)


def read_enhanced(octets, block, interfaces):
    """The interface, the time and the octets of a packet."""
    place, interface = octets.place, octets.number(4)
    if interface >= len(interfaces):
        raise Fault(1005, place)
    units = octets.number(4) * 2**32 + octets.number(4)
    place, captured = octets.place, octets.number(4)
    # the original length stands before the captured octets, which are padded as the block's length is
    if captured > block.rest() - 4:
        raise Fault(1004, place)
    octets.take(4)
    return interfaces[interface], interfaces[interface].time(units), octets.take(captured)


def read_pcapng(octets, answer):
    interfaces = []
    while not octets.is_at_end():
        octets.begin_part()
        packet = None
        kind, block = begin_block(octets)
        if kind == SECTION:
            octets.version([(1, 0), (1, 2)])
            interfaces = []
        elif kind == DESCRIPTION:
            interfaces.append(read_description(octets, block, interfaces))
        elif kind == ENHANCED:
            packet = read_enhanced(octets, block, interfaces)
        block.end()
        if packet:
            answer.take(*packet)
        elif kind in (SIMPLE, OLD):
            answer.count('simple' if kind == SIMPLE else 'old')


def read(octets, interface=None):
    """What is owed for a capture, of all its interfaces or of those with one name."""
    answer = Answer(interface)
    try:
        if octets[:4] == SECTION_TYPE:
            read_pcapng(Input(octets), answer)
        elif octets[:4] in PCAP:
            read_pcap(Input(octets), answer)
        else:
            raise Fault(1001, 0)
    except Fault as fault:
        answer.fault = fault.number, fault.octet, answer.packets
    return answer
