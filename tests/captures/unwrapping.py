"""Finds the datagram of PTP in a packet, as `ptpx extract` does, written apart from it: each header is a function of the octets from it on."""

import ipaddress
import typing

# Of a packet so many octets are looked at, and a datagram that is told has so many at the most.
LOOKED_AT, LONGEST = 65_536, 2_035

PORTS = [319, 320]

# Tags before the type of what a frame carries, and how many octets of each stand between its own type and the next.
TAGS = {0x8100: 2, 0x88a8: 2, 0x9100: 2, 0xf1c1: 4, 0x892f: 4}

# Headers of IPv6 that are passed over, by their numbers: hop-by-hop options, routing, destination options.
EXTENSIONS, FRAGMENT, UDP = [0, 43, 60], 44, 17

# What stands in front of a loopback's packets.
FAMILIES = {2: 'ipv4', 24: 'ipv6', 28: 'ipv6', 30: 'ipv6'}


class Nothing(Exception):
    """A packet has no datagram that is told. Its one argument says why: 'none', 'fragment', 'long', or 'link' and the number."""


def whole(octets, first, last):
    """Octets of a header, which are all there."""
    if len(octets) < last:
        raise Nothing('none')
    return octets[first:last]


def number(octets, first, last, order='big'):
    return int.from_bytes(whole(octets, first, last), order)


def of_udp(octets):
    port, length = number(octets, 2, 4), number(octets, 4, 6)
    whole(octets, 0, 8)
    if port not in PORTS or length < 8:
        raise Nothing('none')
    return octets[8:length]


def of_ipv4(octets):
    version, size = divmod(number(octets, 0, 1), 16)
    # the total length 0 is that of a packet that the network card cuts up later
    total = number(octets, 2, 4) or len(octets)
    protocol = number(octets, 9, 10)
    if version != 4 or size < 5 or total < 4 * size or protocol != UDP:
        raise Nothing('none')
    # moreFragments and the offset, without the two flags in front
    if number(octets, 6, 8) & 0x3fff:
        raise Nothing('fragment')
    return of_udp(octets[4 * size:total])


def of_ipv6(octets):
    version, length, kind = number(octets, 0, 1) // 16, number(octets, 4, 6), number(octets, 6, 7)
    whole(octets, 0, 40)
    if version != 6 or length == 0:
        raise Nothing('none')
    rest = octets[40:40 + length]
    while kind in EXTENSIONS or kind == FRAGMENT:
        head, size = whole(rest, 0, 8), 8
        if kind != FRAGMENT:
            size = 8 * (head[1] + 1)
        elif number(head, 2, 4) & 0xfff9:
            raise Nothing('fragment')
        kind, rest = head[0], rest[size:]
    if kind != UDP:
        raise Nothing('none')
    return of_udp(rest)


def of_ip(octets):
    """Either version, which the packet itself says."""
    return of_ipv6(octets) if number(octets, 0, 1) // 16 == 6 else of_ipv4(octets)


def of_type(kind, octets):
    """Octets behind a type of Ethernet."""
    while kind in TAGS:
        between = TAGS[kind]
        kind, octets = number(octets, between, between + 2), octets[between + 2:]
    if kind == 0x88f7:
        return octets
    if kind == 0x0800:
        return of_ipv4(octets)
    if kind == 0x86dd:
        return of_ipv6(octets)
    raise Nothing('none')


def of_family(octets, orders):
    """Octets of a loopback, whose family stands in front in one of these orders."""
    for order in orders:
        kind = FAMILIES.get(number(octets, 0, 4, order))
        if kind:
            return of_ipv4(octets[4:]) if kind == 'ipv4' else of_ipv6(octets[4:])
    raise Nothing('none')


def of_ethernet(octets):
    return of_type(number(octets, 12, 14), octets[14:])


def of_cooked(octets):
    """Linux's cooked header, whose type stands last."""
    return of_type(number(octets, 14, 16), octets[16:])


def of_cooked_2(octets):
    """The second such header, whose type stands first."""
    whole(octets, 0, 20)
    return of_type(number(octets, 0, 2), octets[20:])


# What each link type's packets begin with.
LINKS = {0: lambda octets: of_family(octets, ['big', 'little']), 1: of_ethernet, 101: of_ip, 108: lambda octets: of_family(octets, ['big']),
         113: of_cooked, 228: of_ipv4, 229: of_ipv6, 276: of_cooked_2}


def datagram(link, octets):
    """The datagram in a packet of this link type."""
    if link not in LINKS:
        raise Nothing(f'link {link}')
    found = LINKS[link](octets[:LOOKED_AT])
    if len(found) > LONGEST:
        raise Nothing('long')
    return found


# Which of the tags are of VLANs, and how many tags are looked at for them.
VLAN_TAGS, TAGS_MOST = [0x8100, 0x88a8, 0x9100], 8


class Address(typing.NamedTuple):
    """An address: its kind, in the order in which they stand in a table, and its octets."""
    kind: int
    octets: bytes

    def is_unicast(self):
        return [self.octets[0] % 2 == 0, self.octets[0] < 224, self.octets[0] != 255][self.kind]

    def __str__(self):
        if self.kind == 0:
            return ':'.join(f'{it:02x}' for it in self.octets)
        address = ipaddress.ip_address(self.octets)
        mapped = self.kind == 2 and address.ipv4_mapped
        return f'::ffff:{mapped}' if mapped else str(address)


class Route(typing.NamedTuple):
    """By which way a packet came: its VLAN, who sent it, and to whom."""
    vlan: int | None = None
    source: Address | None = None
    destination: Address | None = None

    def over_ip(self, octets):
        """The addresses of IP, by its version."""
        kind, first, size = (2, 8, 16) if octets[0] // 16 == 6 else (1, 12, 4)
        return self._replace(source=Address(kind, octets[first:first + size]), destination=Address(kind, octets[first + size:first + 2 * size]))

    def behind_type(self, kind, octets):
        for _ in range(TAGS_MOST):
            if kind not in TAGS:
                break
            vlan = number(octets, 0, 2) % 4096
            if kind in VLAN_TAGS and vlan:
                self = self._replace(vlan=vlan)
            between = TAGS[kind]
            kind, octets = number(octets, between, between + 2), octets[between + 2:]
        return self.over_ip(octets) if kind in (0x0800, 0x86dd) else self


def route(link, octets):
    """By which way a packet came that has a datagram."""
    if link == 1:
        addressed = Route(None, Address(0, octets[6:12]), Address(0, octets[:6]))
        return addressed.behind_type(number(octets, 12, 14), octets[14:])
    if link in (113, 276):
        kind, size = ((14, 16), 16) if link == 113 else ((0, 2), 20)
        return Route().behind_type(number(octets, *kind), octets[size:])
    return Route().over_ip(octets[4:] if link in (0, 108) else octets)


def unwrapped(link, octets):
    """The datagram in a packet, or None, and what becomes of the packet."""
    try:
        return datagram(link, octets), 'datagram'
    except Nothing as nothing:
        return None, str(nothing)
