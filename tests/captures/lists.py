"""Holds the table that `ptpx extract --list` writes of captures against that of listing.py, over what reading.py finds. Status and standard error are those
of `ptpx extract` over the same capture.

- Captures of messages of every type, by a seed, at interfaces of all kinds of names, with more rows than a table has.
- Captures of exchanges, which are made by exchanging.py, and the example.
- Of captures that have interfaces, one is asked for: each that is met, by its name, and one that none has.
- Captures of every form are those of captures.py, also cut at each octet, bent and broken.
- A writer that fails is told, and of a capture that has a fault, the fault."""
import collections
import functools
import random

import bending
import cases
import exchanging
import making
import reading
from asking import EXAMPLE, Made, fail, hold, try_kinds
from listing import Listing
from program import ask, ask_to_full_device

# Names of interfaces: none, plain ones, ones that a shell has to be given in quotes, and ones that are cut in a row.
INTERFACES = [None, 'eth0', 'eth1', 'br-lan.7', 'if0', 'Local Area Connection', r'\Device\NPF_{0}', "it's", '"', '\t\n', 'ä', '-', 'n' * 64, 'm' * 65, 'é' * 40]

PORTS = [bytes.fromhex('001122fffe334455') + number.to_bytes(2, 'big') for number in (0, 1, 2, 65535)] + [bytes(10), b'\xff' * 10]

# correctionFields: the least, the greatest, the one that is too big, and some with each number of decimals.
CORRECTIONS = [0, 1, -1, 65536, -65536, 2**63 - 1, 2**63 - 2, -2**63, 98304, 0x1234_5678_9abc, *(2**bit for bit in range(16))]

# What must have been seen.
SEEN = ['no message', 'a message', 'calls', 'further rows', 'another version', 'too short', 'a fault', 'no fault', 'some at one interface', 'all at one interface',
        'none at one interface']


def message(rng, ports):
    """A message of some type, with what is listed of it, of version 2 as a rule and long enough."""
    kind = rng.choice([0, 0, 1, 8, 9, 9, rng.randrange(16)])
    version = rng.choice([0x02, 0x12, 0x12, 16 * rng.randrange(16) + 2, rng.randrange(256)] if rng.random() < 0.3 else [0x12])
    head = bytes([16 * rng.randrange(16) + kind, version, 0, 64, rng.choice([0, 0, 1, 255]), 0, rng.choice([0, 2, 255]), 0])
    correction = rng.choice(CORRECTIONS).to_bytes(8, 'big', signed=True)
    octets = head + correction + bytes(4) + rng.choice(ports) + bytes(4) + bytes(10) + rng.choice(ports) + bytes(10)
    return octets[:rng.randrange(len(octets))] if rng.random() < 0.05 else octets


def messages(number):
    """A capture of messages, of one section or several."""
    rng, capture = random.Random(f'listed {number}'), making.Pcapng()
    ports = PORTS if number % 4 else [rng.randbytes(10) for _ in range(60)]
    for _ in range(rng.choice([1, 1, 2])):
        capture.section()
        names = rng.sample(INTERFACES, rng.choice([1, 2, 5, len(INTERFACES)]))
        for name in names:
            capture.interface(name=name, clock=exchanging.NANOSECONDS)
        for _ in range(rng.choice([0, 1, 10, 200]) if number % 4 else 1500):
            time = rng.randrange(10 * making.SECOND)
            capture.enhanced(rng.randrange(len(names)), time, exchanging.packet(message(rng, ports), rng.randrange(2)))
    return bytes(capture.octets)


@functools.cache
def many_interfaces():
    """A message at each of more interfaces than a table has rows, and one more at each of the first."""
    (_, time, sync), capture = next(exchanging.talk()), making.Pcapng()
    capture.section()
    for number in range(1100):
        capture.interface(name=f'eth{number}' if number % 2 else None)
    for number in (*range(1100), *range(10)):
        capture.enhanced(number, time, exchanging.packet(sync, 0))
    return bytes(capture.octets)


def owed(octets, interface=None):
    """The text that is owed, and what was seen."""
    answer = reading.read(octets, interface)
    listing = Listing(answer.rows)
    seen = ['a message' if listing.rows else 'no message', 'a fault' if answer.fault else 'no fault']
    counts = {'further rows': listing.further, 'another version': listing.other_version, 'too short': listing.too_short, 'calls': any(listing.calls())}
    return listing.text().encode(), [*seen, *(name for name, count in counts.items() if count)]


def see(name, octets, interface=None):
    """Ends where an answer is wrong. Else answers what was seen."""
    text, seen = owed(octets, interface)
    of_interface = [] if interface is None else ['--interface', interface]
    hold(name, octets, ['extract', '--list', *of_interface], ask(octets, 'extract', *of_interface)._replace(output=text))
    return collections.Counter(seen)


def see_interfaces(name, octets):
    """Asks for each interface that is met, by its name, and for one that none has."""
    rows, seen = reading.read(octets).rows, collections.Counter()
    for one in cases.interfaces(octets):
        seen += see(f'{name}, at {one!r}', octets, one)
        met = len(reading.read(octets, one).rows)
        seen[f'{"none" if not met else "all" if met == len(rows) else "some"} at one interface'] += 1
    return seen


@functools.cache
def made_by_hand():
    return [(name, octets) for name, octets, _ in cases.made_by_hand()]


# Of each kind what sees a case, and the cases. Interfaces are asked for where they are described.
KINDS = {
    'of exchanges': (see, lambda: [('many interfaces', many_interfaces()), *made_by_hand()]),
    'of exchanges at one interface': (see_interfaces, lambda: [it for it in made_by_hand() if cases.is_pcapng(it[1])]),
    'of messages by a seed': (see, Made(200, messages)),
    'of messages at one interface': (see_interfaces, Made(40, messages)),
    'cut': (see, cases.cuts_of_exchanges),
    'of every form': (see, Made(100, cases.of_every_form)),
    'bent': (see, Made(200, bending.bent)),
}


def try_devices():
    """A writer that fails, of a whole capture and of one that is cut off, and nothing that is written before the end."""
    whole = EXAMPLE.read_bytes()
    for octets, number in [(whole, 802), (whole[:-1], 1006)]:
        ended = ask_to_full_device(octets, 'extract', '--list')
        if ended.status != 3 or not ended.errors.startswith(f'ptpx: fault {number} at octet '.encode()):
            fail(f'--list to a full device: status {ended.status}, {ended.errors[:200]!r}, and fault {number} is owed')


def main():
    try_kinds(__name__, 'listed')
    try_devices()
