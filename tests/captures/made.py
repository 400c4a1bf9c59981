"""Makes captures by a seed: of each form, with packets of each kind. What isn't `odd` tshark reads as `ptpx extract` does."""
import random

import making
from making import COOKED, COOKED_2, ETHERNET, IPV4, IPV6, LOOP, NULL, PTP, RAW, RAW_4, RAW_6, SECOND, Clock

LINKS = [ETHERNET, COOKED, COOKED_2, NULL, LOOP, RAW, RAW_4, RAW_6]

# Link types that aren't known, of which 257 has the low octet of Ethernet's.
OTHER_LINKS = [2, 12, 14, 147, 257, 65535]

# Tags, and how many octets of each stand between its type and the next.
TAGS = {0x8100: 2, 0x88a8: 2, 0x9100: 2, 0xf1c1: 4, 0x892f: 4}

# Types that carry nothing of PTP, of which some are near one that does.
OTHER_TYPES = [0, 44, 1500, 0x0806, 0x0801, 0x8847, 0x88f6, 0x88e5, 0x88fb, 0xffff]

# Octets of resolutions, and seconds that are added to what they count.
RESOLUTIONS = [*range(3, 13), *range(128 + 10, 128 + 31)]
TSHARK_RESOLUTIONS = [*range(3, 11), *range(128 + 10, 128 + 31)]
NOW = 1_795_329_143
OFFSETS = [0, 0, 1, NOW, NOW - 1, 3600]
ODD_OFFSETS = [0, NOW, -1, -NOW, 2**47, 2**48 - 2, 2**48, 2**63 - 1, -2**63]

NAMES = [None, None, 'eth0', 'eth', 'eth0.100', 'with a blank', 'Ethernet-Schnittstelle über Funk', 'if0', 'if12', 'if1a']


def message(rng):
    """A message of PTP, with its messageLength."""
    kind = rng.choice([0, 1, 8, 9, 11])
    length = {9: 54, 11: 64}.get(kind, 44)
    suffix = rng.choice([0, 0, 0, 4, 100])
    head = bytes([kind, rng.choice([2, 18])]) + making.number(length + suffix, 2) + b'\0\0' + rng.choice([b'\0\0', b'\2\0']) + bytes(12)
    return head + rng.randbytes(10) + rng.randbytes(2) + bytes([kind % 8, 0]) + bytes(4) + rng.randbytes(2) + bytes(length + suffix - 40)


def datagram(rng, odd):
    """A message, and where it may be odd, any octets of any number."""
    if not odd or rng.random() < 0.5:
        return message(rng) + (bytes(rng.choice([1, 2, 20])) if rng.random() < 0.1 else b'')
    return rng.randbytes(rng.choice([0, 1, 33, 43, 44, rng.randrange(200), making.LONGEST, making.LONGEST, making.LONGEST + 1, 9000]))


def tags(rng):
    return [(tag, rng.randbytes(TAGS[tag])) for tag in rng.choices(list(TAGS), k=rng.choice([0, 0, 0, 1, 2, 5]))]


def oddity(rng, odd, oddities):
    """What is odd of a header, as arguments of its maker: nothing as a rule."""
    return rng.choice(oddities) if odd and rng.random() < 0.2 else {}


def udp(rng, piece, odd):
    size = 8 + len(piece.octets)
    it = oddity(rng, odd, [{'port': rng.choice([0, 318, 321, 0x3f01, 65535])}, {'source': rng.randrange(2**16)}, {'length': rng.randint(8, size)},
                           {'length': rng.choice([size + 1, 65535])}, {'length': rng.randrange(8)}])
    return making.udp(piece, **{'port': rng.choice([319, 320]), **it})


def ipv4(rng, piece, odd):
    options = rng.randbytes(4 * rng.choice([1, 2, 10])) if odd and rng.random() < 0.3 else b''
    head = 20 + len(options)
    size = head + len(piece.octets)
    it = oddity(rng, odd, [{'total': 0}, {'total': rng.randint(head, size) if piece.why == 'datagram' else size}, {'total': rng.choice([size + 1, 65535])},
                           {'total': rng.randrange(1, head)}, {'fragment': rng.choice([0x2000, 0x0001, 0x3fff, 0x1000, 0x6000])},
                           {'fragment': rng.choice([0, 0x8000, 0xc000])}, {'protocol': rng.choice([0, 1, 6, 16, 18, 41, 47, 255])}, {'version': rng.choice([0, 5, 15])}])
    return making.ipv4(piece, options, **it)


def extensions(rng, odd):
    """Headers of IPv6: their numbers and octets. Options are padding, and a fragment header is of a whole datagram but where it may be odd."""
    kinds = []
    for kind in rng.choice([[], [], [], [0], [60], [0, 60], [44], [43], [0, 43, 44, 60]]):
        if kind == 44:
            offset = rng.choice([b'\0\1', b'\0\x08', b'\xff\xf9']) if odd and rng.random() < 0.3 else b'\0\0'
            kinds.append((kind, b'\0\0' + offset + rng.randbytes(4)))
        else:
            more = rng.choice([0, 0, 1, 3])
            size = 8 * more + 8
            options = b'\1' + bytes([size - 4]) + bytes(size - 4) if kind != 43 else b'\0\0' + bytes(size - 4)
            kinds.append((kind, bytes([0, more]) + options))
    return kinds


def ipv6(rng, piece, odd):
    kinds = extensions(rng, odd)
    size = len(piece.octets) + sum(len(octets) for _, octets in kinds)
    it = oddity(rng, odd and not kinds, [{'length': 0}, {'length': rng.randint(1, size) if piece.why == 'datagram' else size}, {'length': rng.choice([size + 1, 65535])},
                                         {'protocol': rng.choice([6, 50, 51, 58, 59, 135, 255])}, {'version': rng.choice([0, 5, 7])}])
    return making.ipv6(piece, kinds, **it)


def internet(rng, piece, odd):
    """A packet of either version, and its type."""
    make, kind = rng.choice([(ipv4, IPV4), (ipv6, IPV6)])
    return make(rng, udp(rng, piece, odd), odd), kind


def on_network(rng, link, piece, odd):
    """A frame of Ethernet, or a cooked packet."""
    if rng.random() < 0.5:
        piece, kind = internet(rng, piece, odd)
    else:
        kind = PTP
    if odd and rng.random() < 0.05:
        kind = rng.choice(OTHER_TYPES)
    if link == COOKED:
        return making.cooked(piece, kind, tags(rng))
    if link == COOKED_2:
        return making.cooked_2(piece, kind, tags(rng))
    return making.ethernet(piece, kind, tags(rng), padding=bytes(rng.choice([0, 0, 2, 16])))


def on_loopback(rng, link, piece, odd):
    piece, kind = internet(rng, piece, odd)
    family = 2 if kind == IPV4 else rng.choice([24, 28, 30])
    if odd and rng.random() < 0.1:
        piece, family = piece.hidden(), rng.choice([0, 1, 10, 23, 26, 2**31])
    return making.loopback(piece, family, 'big' if link == LOOP else rng.choice(['big', 'little']))


def raw(rng, link, piece, odd):
    """A packet without anything in front."""
    if link == RAW:
        return internet(rng, piece, odd)[0]
    return (ipv4 if link == RAW_4 else ipv6)(rng, udp(rng, piece, odd), odd)


def packet(rng, link, odd):
    """A packet on a link."""
    piece = making.bare(datagram(rng, odd))
    if link in (ETHERNET, COOKED, COOKED_2):
        return on_network(rng, link, piece, odd)
    if link in (NULL, LOOP):
        return on_loopback(rng, link, piece, odd)
    if link in LINKS:
        return raw(rng, link, piece, odd)
    return making.ethernet(piece, PTP).hidden(f'link {link}')


def snap(rng, piece, odd):
    """A snap length. What of a fragment is left isn't asked."""
    return rng.randint(0, len(piece.octets)) if odd and piece.why != 'fragment' and rng.random() < 0.1 else making.NO_END


def any_link(rng, odd):
    return rng.choice(OTHER_LINKS) if odd and rng.random() < 0.1 else rng.choice(LINKS)


def pcap(rng, order, unit, odd, packets):
    link = any_link(rng, odd)
    capture = making.Pcap(order, unit, link, high=rng.choice([0, 0x1400, 0xffff]) if odd else 0)
    time = rng.choice([0, NOW, 2**32 - 100]) * SECOND + rng.randrange(SECOND) if odd else NOW * SECOND
    for _ in range(packets):
        time = min(time + rng.choice([0, 1, 999, 1000, rng.randrange(SECOND)]), 2**32 * SECOND - 1)
        piece = packet(rng, link, odd)
        capture.packet(time, piece, snap(rng, piece, odd), beyond=SECOND if odd and rng.random() < 0.05 else 0)
    return capture


def options(rng, codes):
    """Options that aren't looked at."""
    return [(rng.choice(codes), rng.randbytes(rng.choice([0, 1, 4, 7, 8]))) for _ in range(rng.choice([0, 0, 1, 3]))]


def describe(rng, capture, taken, odd):
    """Describes an interface. Of two of one name in its section the later is called by its place, and so is one whose name is as that of a place."""
    link, name = any_link(rng, odd), rng.choice(NAMES)
    clock = Clock(rng.choice(RESOLUTIONS if odd else TSHARK_RESOLUTIONS), rng.choice(OFFSETS))
    if odd and rng.random() < 0.2:
        clock = Clock(rng.choice([3, 6, 9, 138]), rng.choice(ODD_OFFSETS))
    place = len(capture.interfaces)
    called = f'if{place}' if name in (None, 'if0', 'if12') or name in taken else name
    # of options that are given twice the first counts, so another name may stand behind this one
    behind = options(rng, [2, 3, 8, 12, 2988]) if odd and name is not None else []
    if odd and rng.random() < 0.1:
        behind += [(9, b'\x03'), (14, bytes(8))] if clock.resolution != 6 and clock.offset else []
    before = options(rng, [1, 3, 4, 8, 12, 13, 32768]) if odd else []
    after_end = b'\0\0\0\0' + rng.choice([b'', b'\0\x09\xff\xff', rng.randbytes(8)]) if odd and rng.random() < 0.3 else b''
    capture.interface(link, name, clock, called, before, behind, after_end)
    taken.append(called)
    return link, clock


def moment(rng, clock):
    """A time that an interface can tell: soon after the seconds that are added, or now."""
    behind = rng.choice([0, NOW - clock.offset])
    if not 0 <= behind < clock.most():
        behind = 0
    time = (clock.offset + behind) * SECOND + rng.randrange(rng.choice([4, 3600]) * SECOND)
    return time - time % clock.step()


def other_block(rng, capture):
    """A block that is passed over: of names, statistics, secrets, of anyone's own, and of types that nobody has given."""
    capture.other(rng.choice([0, 4, 5, 7, 10, 0x0bad, 0x40000bad, 0x80000006, 0xffffffff]), rng.randbytes(4 * rng.choice([0, 1, 5, 30])))


def section(rng, capture, order, odd, packets):
    """A section with its interfaces, which may be described between packets."""
    capture.section(order, minor=rng.choice([0, 2]) if odd else 0, length=rng.choice([-1, -1, 0, 28, 2**62]) if odd else -1,
                    options=options(rng, [2, 3, 4]) if odd else [])
    taken, links = [], []
    for _ in range(packets):
        if not links or rng.random() < 0.2:
            links.append(describe(rng, capture, taken, odd))
        place = rng.randrange(len(links))
        link, clock = links[place]
        piece = packet(rng, link, odd)
        capture.enhanced(place, moment(rng, clock), piece, snap(rng, piece, odd), options(rng, [1, 2, 4]) if odd else [],
                         finer=rng.choice([0, 0.5, 0.999]))
        if rng.random() < 0.2:
            other_block(rng, capture) if odd else capture.other(5, bytes(12))
        if odd and rng.random() < 0.1:
            capture.simple(piece)
        if odd and rng.random() < 0.1:
            capture.old(rng.choice([place, 65535]), piece)


def pcapng(rng, odd, packets):
    capture = making.Pcapng()
    for _ in range(rng.choice([1, 1, 2, 3])):
        section(rng, capture, rng.choice(['big', 'little']), odd, rng.randint(0, packets) if odd else packets)
    return capture


def capture(seed, odd=True, packets=None):
    """One capture of eight: four are a pcap of each form, and four a pcapng."""
    rng = random.Random(seed)
    packets = rng.choice([0, 1, 2, 5, 20]) if packets is None else packets
    form = seed % 8
    if form < 4:
        return pcap(rng, ['big', 'little'][form % 2], [1000, 1][form // 2], odd, packets)
    return pcapng(rng, odd, packets)
