"""Makes captures, and knows what was put into them, without reading them again.

A packet is made from the inside out: `bare` is a datagram, and each function around it puts a header in front. A `Capture` grows by its
packets, and keeps what is owed for them: lines, counts, and where its fields of lengths stand."""
import collections
import re
import typing

SECOND = 10**9
END_OF_TIMES = 2**48 * SECOND

# The longest datagram that is told, how many octets of a packet are looked at, and more than any packet has.
LONGEST, LOOKED_AT, NO_END = 2_035, 65_536, 2**32

# Link types, and types of what is on a network.
ETHERNET, COOKED, COOKED_2, NULL, LOOP, RAW, RAW_4, RAW_6 = 1, 113, 276, 0, 108, 101, 228, 229
PTP, IPV4, IPV6 = 0x88f7, 0x0800, 0x86dd


class Piece(typing.NamedTuple):
    """Octets, at which of them a datagram begins, before which it ends by what headers say, and why it isn't told where it isn't."""
    octets: bytes
    first: int
    last: int
    why: str = 'datagram'

    def hidden(self, why='none'):
        """The same octets, in which no datagram is found. The outermost header that hides it says why."""
        return self._replace(why=why)

    def behind(self, head, tail=b''):
        return Piece(head + self.octets + tail, self.first + len(head), self.last + len(head), self.why)

    def ended(self, last):
        """The same octets, of which a header says that only so many belong to the packet."""
        return self._replace(last=min(self.last, last)) if self.first <= last else self.hidden()

    def cut(self, size):
        """What a snap length leaves."""
        cut = self.ended(min(size, LOOKED_AT)) if self.why == 'datagram' else self
        return cut._replace(octets=self.octets[:size])

    def outcome(self):
        """Why there is no datagram, or 'datagram'."""
        return 'long' if self.why == 'datagram' and len(self.datagram()) > LONGEST else self.why

    def datagram(self):
        return self.octets[self.first:self.last]


def number(value, size, order='big'):
    return value.to_bytes(size, order, signed=value < 0)


def bare(datagram):
    """A datagram, which ends where the packet does as long as no header says that it ends before."""
    return Piece(datagram, 0, NO_END)


def udp(piece, port=319, length=None, source=319):
    """A datagram of UDP. A length below 8 is none; one that is greater than what is there does no harm."""
    length = 8 + len(piece.octets) if length is None else length
    piece = piece.ended(length - 8) if length >= 8 else piece.hidden()
    piece = piece if port in (319, 320) else piece.hidden()
    return piece.behind(number(source, 2) + number(port, 2) + number(length, 2) + b'\xab\xcd')


def ipv4(piece, options=b'', total=None, fragment=0x4000, protocol=17, version=4):
    """A packet of IPv4. The total length 0 is that of all there is. `fragment` has the flags and the offset."""
    size = 20 + len(options)
    total = size + len(piece.octets) if total is None else total
    if fragment & 0x3fff:
        piece = piece.hidden('fragment')
    if total:
        piece = piece.ended(total - size)
    if protocol != 17 or version != 4:
        piece = piece.hidden()
    head = [bytes([16 * version + size // 4, 0]), number(total, 2), b'\x12\x34', number(fragment, 2), bytes([64, protocol]), bytes(2)]
    return piece.behind(b''.join(head) + bytes([10, 0, 0, 1, 224, 0, 1, 129]) + options)


def extended(piece, kinds, kind=17):
    """Headers of IPv6 before what is there, and the number of the first. Each is its number and its octets, of which the first is another's."""
    for head, octets in reversed(kinds):
        if head == 44 and int.from_bytes(octets[2:4], 'big') & 0xfff9:
            piece = piece.hidden('fragment')
        piece, kind = piece.behind(bytes([kind]) + octets[1:]), head
    return piece, kind


def ipv6(piece, kinds=(), length=None, protocol=17, version=6):
    """A packet of IPv6, behind whose header others may stand. The payload length 0 is no datagram's."""
    if protocol != 17:
        piece = piece.hidden()
    piece, kind = extended(piece, kinds, protocol)
    length = len(piece.octets) if length is None else length
    piece = piece.ended(length) if length and version == 6 else piece.hidden()
    return piece.behind(bytes([16 * version, 0, 0, 0]) + number(length, 2) + bytes([kind, 1]) + bytes(15) + b'\1' + bytes(15) + b'\2')


def tagged(piece, kind, tags):
    """Tags before what is there, and the type of the first. Each is its type and the octets between this and the next."""
    if kind not in (PTP, IPV4, IPV6):
        piece = piece.hidden()
    for tag, octets in reversed(tags):
        piece, kind = piece.behind(octets + number(kind, 2)), tag
    return piece, kind


def ethernet(piece, kind, tags=(), padding=b''):
    """A frame. Without a header of IP or UDP the padding is the datagram's, too."""
    piece, kind = tagged(piece, kind, tags)
    return piece.behind(bytes.fromhex('011b19000000 020000000001') + number(kind, 2), padding)


def cooked(piece, kind, tags=()):
    piece, kind = tagged(piece, kind, tags)
    return piece.behind(bytes.fromhex('0000 0001 0006 020000000001 0000') + number(kind, 2))


def cooked_2(piece, kind, tags=()):
    piece, kind = tagged(piece, kind, tags)
    return piece.behind(number(kind, 2) + bytes.fromhex('0000 00000003 0001 00 06 020000000001 0000'))


def loopback(piece, family, order='big'):
    """What a loopback has: the family in front, in the order of octets of whoever captured it."""
    return piece.behind(number(family, 4, order))


class Length(typing.NamedTuple):
    """A field of a length."""
    value: int
    size: int = 4


class Capture:
    """A capture as it grows, and what is owed for it."""

    def __init__(self, order):
        self.order = order
        self.octets = bytearray()
        # of each datagram that is told the time, the interface's name and the octets
        self.told = []
        self.packets = 0
        self.counts = collections.Counter()
        # of each field of a length where it begins, how many octets it has, and their order
        self.lengths = []
        # of the head, of each packet and of each block the octet behind it, and how many packets and lines there are so far
        self.ends = []

    def number(self, value, size):
        return number(value, size, self.order)

    def put(self, *parts):
        """Adds octets and fields of lengths."""
        for part in parts:
            if isinstance(part, Length):
                self.lengths.append((len(self.octets), part.size, self.order))
                part = self.number(*part)
            self.octets += part

    def count(self, what):
        self.packets += 1
        self.counts[what] += 1

    def end(self):
        self.ends.append((len(self.octets), self.packets, len(self.told)))

    def tell(self, name, time, piece):
        """A packet with or without a time was put in."""
        outcome = 'no time' if time is None else piece.outcome()
        self.count(outcome)
        if outcome == 'datagram':
            self.told.append((time, name, piece.datagram()))

    def lines(self, name=None):
        """The times and datagrams that are owed, of all interfaces or of those of this name."""
        return [(time, datagram) for time, called, datagram in self.told if name in (None, called)]


class Pcap(Capture):
    def __init__(self, order='little', unit=1000, link=ETHERNET, high=0):
        super().__init__(order)
        self.unit = unit
        self.named = {(0, 'if0')}
        magic = self.number(0xa1b2c3d4 if unit == 1000 else 0xa1b23c4d, 4)
        # the time zone, the accuracy and the snap length aren't looked at, and neither is what stands above the link type
        self.put(magic, self.number(2, 2), self.number(4, 2), bytes.fromhex('deadbeef 01020304 00000001'), self.number(link + 2**16 * high, 4))
        self.end()

    def packet(self, time, piece, snap=NO_END, beyond=0):
        """A packet. Where its fraction is to be so many nanoseconds beyond a second, it has no time."""
        cut = piece.cut(snap)
        seconds, fraction = divmod(time, SECOND)
        fraction = (fraction + beyond) // self.unit
        self.put(self.number(seconds, 4), self.number(fraction, 4), Length(len(cut.octets)), self.number(len(piece.octets), 4), cut.octets)
        self.tell('if0', None if fraction * self.unit >= SECOND else time - time % self.unit, cut)
        self.end()


class Clock(typing.NamedTuple):
    """How an interface counts: the octet of its resolution, and the seconds that are added."""
    resolution: int = 6
    offset: int = 0

    def step(self):
        """A number of nanoseconds of which each whole multiple can be told."""
        if self.resolution < 128:
            return 10 ** max(9 - self.resolution, 0)
        # a second is 2^9 times a whole number of nanoseconds, and 2^-30 s is less than one
        exponent = self.resolution - 128
        return 1 if exponent >= 30 else SECOND // 2 ** min(exponent, 9)

    def most(self):
        """How many seconds it can count, but for an hour."""
        base, exponent = (10, self.resolution) if self.resolution < 128 else (2, self.resolution - 128)
        return 2**64 // base**exponent - 3601

    def units(self, time, finer=0):
        """The units of a time, a multiple of the step. Where the resolution is finer than nanoseconds, `finer`, from 0 to below 1, says by how much
        the time is past it."""
        time -= self.offset * SECOND
        exponent = self.resolution % 128
        if self.resolution < 128:
            return time // self.step() if exponent <= 9 else time * 10 ** (exponent - 9) + int(finer * 10 ** (exponent - 9))
        # the least number of units that isn't before the time
        return -(-time * 2**exponent // SECOND)


class Pcapng(Capture):
    """Blocks. A section comes first, and its interfaces before their packets."""

    def __init__(self, order='little'):
        super().__init__(order)
        # the places and names of all interfaces, of all sections
        self.named = set()

    def block(self, kind, *parts):
        length = Length(12 + sum(part.size if isinstance(part, Length) else len(part) for part in parts))
        self.put(self.number(kind, 4), length, *parts, length)

    def other(self, kind, body):
        """A block that is passed over."""
        self.block(kind, body)
        self.end()

    def option(self, code, value):
        """The parts of an option."""
        return [self.number(code, 2), Length(len(value), 2), value + bytes(-len(value) % 4)]

    def options(self, options):
        return [part for option in options for part in self.option(*option)]

    def section(self, order=None, minor=0, length=-1, options=()):
        """Begins a section. Whatever it says of its own length isn't looked at."""
        self.order = order or self.order
        self.interfaces = []
        head = self.number(0x1a2b3c4d, 4) + self.number(1, 2) + self.number(minor, 2) + self.number(length, 8)
        self.block(0x0a0d0d0a, head, *self.options(options))
        self.end()

    def interface(self, link=ETHERNET, name=None, clock=Clock(), called=None, before=(), behind=(), after_end=b''):
        """Describes an interface, with options before and behind those of its own. Answers its place. Its packets are told as `called`, or else as
        its name, or else by its place."""
        place = len(self.interfaces)
        options = list(before)
        if name is not None:
            options.append((2, name.encode()))
        if clock.resolution != 6:
            options.append((9, bytes([clock.resolution])))
        if clock.offset:
            options.append((14, self.number(clock.offset, 8)))
        head = self.number(link, 2) + bytes.fromhex('beef 00000001')
        self.block(1, head, *self.options([*options, *behind]), after_end)
        own = name and not re.fullmatch('if[0-9]+', name) and name
        self.interfaces.append((called or own or f'if{place}', clock))
        self.named.add((place, self.interfaces[place][0]))
        self.end()
        return place

    def enhanced(self, place, time, piece, snap=NO_END, options=(), finer=0):
        """A packet. A time that an interface can't have makes one without a time."""
        name, clock = self.interfaces[place]
        units, cut = clock.units(time, finer), piece.cut(snap)
        high, low = divmod(units, 2**32)
        self.block(6, self.number(place, 4), self.number(high, 4), self.number(low, 4), Length(len(cut.octets)), self.number(len(piece.octets), 4),
                   cut.octets + b'\xee' * (-len(cut.octets) % 4), *self.options(options))
        self.tell(name, time if 0 <= time < END_OF_TIMES else None, cut)
        self.end()

    def simple(self, piece):
        self.block(3, self.number(len(piece.octets), 4) + piece.octets + bytes(-len(piece.octets) % 4))
        self.count('simple')
        self.end()

    def old(self, place, piece):
        head = self.number(place, 2) + bytes(10) + 2 * self.number(len(piece.octets), 4)
        self.block(2, head + piece.octets + bytes(-len(piece.octets) % 4))
        self.count('old')
        self.end()
