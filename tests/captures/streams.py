"""Mixes two streams at one interface that share their master, and sees that `ptpx measure` tells them apart: by VLAN, by sdoId, and by the slave to
which a master sends alone. Its reports are those of the stream alone that it measures, and the other one is named."""
import json

from asking import EXAMPLE, fail
from beware import FOLLOW_UP, REQUEST, RESPONSE, SYNC, Packets, kind, later_stamp, message, of_another, renumbered, shifted, together, with_message, written
from program import ask

VLAN_TAG = b'\x81\x00'

# Of a packet of UDP over IPv4 over Ethernet without options.
SOURCE, DESTINATION = slice(26, 30), slice(30, 34)
FIRST_SLAVE, SECOND_SLAVE, MASTER = b'\x0a\0\0\x07', b'\x0a\0\0\x08', b'\x0a\0\0\x01'
OTHER_CLOCK = 0x77


def replaced(octets, place, others):
    return octets[:place.start] + others + octets[place.stop:]


def tagged(packets, vlan):
    """In a VLAN; a number of 0 says that a tag has a priority alone (6)."""
    tag = VLAN_TAG + (6 << 13 | vlan).to_bytes(2, 'big')
    return [it._replace(octets=it.octets[:12] + tag + it.octets[12:]) for it in packets]


def of_sdo(packets, sdo):
    """Of an sdoId: its four bits in front, and the eight behind them."""
    def with_sdo(octets):
        return bytes([sdo >> 8 << 4 | octets[0] & 15]) + octets[1:5] + bytes([sdo & 255]) + octets[6:]
    return [with_message(it, with_sdo(message(it))) if kind(it) else it for it in packets]


def to_slave(packets, slave, kinds=(SYNC, FOLLOW_UP, RESPONSE, REQUEST)):
    """Messages of these kinds go between the master and this slave alone."""
    ways = {REQUEST: (slave, MASTER)}
    bent = []
    for it in packets:
        if kind(it) in kinds:
            source, destination = ways.get(kind(it), (MASTER, slave))
            it = it._replace(octets=replaced(replaced(it.octets, SOURCE, source), DESTINATION, destination))
        bent.append(it)
    return bent


def worse(packets):
    """The same exchange 700 ns later, in which Delay_Reqs take 1 ms longer and Syncs have other numbers."""
    late = [later_stamp(it, 10**6) if kind(it) == RESPONSE else it for it in packets]
    return shifted(renumbered(late, (SYNC, FOLLOW_UP), 777), 700)


def of_second(packets):
    """Of another slave: it asks, and is answered."""
    asked = of_another(packets, (REQUEST,), OTHER_CLOCK)
    return [with_message(it, message(it)[:51] + bytes([OTHER_CLOCK]) + message(it)[52:]) if kind(it) == RESPONSE else it for it in asked]


def reports(packets, *words):
    """What is measured, but for its packets, and what is said."""
    ended = ask(written(packets), 'measure', *words, timeout=600)
    if ended.status:
        fail(f'status {ended.status}: {ended.errors.decode()}')
    lines = [json.loads(line) for line in ended.output.splitlines()]
    return [[line[name] for name in ('by', 'offset2', 'path2', 'time')] for line in lines], ended.errors.decode()


def try_mixed(name, one, other, place, other_place, *words):
    """The first stream is measured; the other one is passed over, with its name and with how many datagrams it has."""
    alone, _ = reports(one, *words)
    mixed, said = reports(together(one, other), *words)
    owed = [f'ptpx: measured at if0{place}\n', f'ptpx: {sum(1 for it in other if kind(it))} datagrams at if0{other_place}, which isn\'t measured\n']
    if not alone or mixed != alone:
        fail(f'{name}: {len(mixed)} reports, and not the {len(alone)} of the stream alone')
    for line in owed:
        if line not in said:
            fail(f'{name}: {line!r} is owed, and not {said!r}')


def main():
    packets = [it for it in Packets(EXAMPLE.read_bytes()).all if kind(it)]
    others = worse(packets)
    plain, _ = reports(packets)
    second = to_slave(of_second(others), SECOND_SLAVE)
    first = to_slave(packets, FIRST_SLAVE)
    try_mixed('two VLANs', tagged(packets, 5), tagged(others, 6), ', VLAN 5', ', VLAN 6')
    try_mixed('two VLANs, the other way round', tagged(shifted(others, -1400), 6), tagged(packets, 5), ', VLAN 6', ', VLAN 5')
    try_mixed('a VLAN beside none', tagged(packets, 0), tagged(others, 7), '', ', VLAN 7')
    try_mixed('gPTP beside PTP', packets, of_sdo(others, 0x100), '', ', sdoId 0x100')
    try_mixed('PTP beside gPTP', of_sdo(packets, 0x105), others, ', sdoId 0x105', '')
    try_mixed('two unicast slaves', first, second, ', unicast to 10.0.0.7', ', unicast to 10.0.0.8')
    try_mixed('the second of two unicast slaves', second, first, ', unicast to 10.0.0.8', ', unicast to 10.0.0.7', '--slave', '020000fffeaabb77/1')
    if reports(to_slave(packets, FIRST_SLAVE, (REQUEST, RESPONSE)))[0] != plain:
        fail('Syncs to all, and Delay_Reqs by unicast: the reports are others than where all goes to all')
    print('captures: eight mixtures of two streams are measured as one of them alone, or as what they are')
