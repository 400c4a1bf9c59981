"""The stream of a datagram, of those at its interface: by sdoId, by VLAN, and by the slave to which a master sends alone."""
import typing

from unwrapping import Address

DELAY_REQ, DELAY_RESP, TO_SLAVE = 1, 9, {0, 8, 9}


class Stream(typing.NamedTuple):
    sdo: int = 0
    vlan: int | None = None
    slave: Address | None = None

    def to_all(self):
        return self._replace(slave=None)

    def order(self):
        """Where its rows stand in a table."""
        return self.sdo, self.vlan or 0, self.slave is not None, self.slave

    def told(self):
        """What tells it from others, behind the name of an interface."""
        parts = [self.sdo and f'sdoId {self.sdo:#05x}', self.vlan and f'VLAN {self.vlan}', self.slave and f'unicast to {self.slave}']
        return ''.join(f', {it}' for it in parts if it)

    def cell(self):
        """The same in a table."""
        return ','.join(it for it in [self.sdo and f'sdo={self.sdo:#05x}', self.vlan and f'vlan={self.vlan}', self.slave and f'unicast={self.slave}'] if it) or '-'


def is_exchange(octets):
    """Whether octets are those of a Delay_Req or of its answer, also where they are cut short."""
    return bool(octets) and octets[0] % 16 in (DELAY_REQ, DELAY_RESP)


def unicast(address):
    return address if address and address.is_unicast() else None


def stream(route, octets):
    octets = octets[:6] + bytes(6 - len(octets[:6]))
    kind = octets[0] % 16
    slave = None
    if kind in TO_SLAVE:
        slave = unicast(route.destination)
    elif kind == DELAY_REQ and unicast(route.destination):
        slave = unicast(route.source)
    return Stream(octets[0] // 16 * 256 + octets[5] if octets[1] % 16 == 2 else 0, route.vlan, slave)
