"""Bends and breaks captures by a seed: their octets, their numbers, their blocks, and the headers of their packets. Of what comes of that
nobody but a reader says what is owed."""
import random

import inputs
import made
import making
from program import EXAMPLES

# A real capture's beginning.
REAL = (EXAMPLES / 'slave.pcap').read_bytes()[:1500]

# What numbers of 32 and of 16 bits are set to, beside what they are and a little more or less.
NUMBERS = [0, 1, 2, 3, 4, 6, 8, 9, 11, 12, 14, 16, 20, 24, 28, 32, 2**16, 2**31 - 1, 2**31, 2**32 - 16, 2**32 - 4, 2**32 - 1, 0x0a0d0d0a, 0x1a2b3c4d]
SHORT_NUMBERS = [0, 1, 2, 7, 8, 9, 14, 2**15, 2**16 - 4, 2**16 - 1]


def values(value, size):
    """What a length is set to."""
    near = [value + more for more in (-4, -1, 1, 4)]
    return [it for it in {*near, *(NUMBERS if size == 4 else SHORT_NUMBERS)} - {value} if 0 <= it < 256**size]


def with_number(octets, place, size, order, value):
    return octets[:place] + value.to_bytes(size, order) + octets[place + size:]


def all_lengths(capture):
    """The capture with each of its lengths set to each of its values."""
    octets = bytes(capture.octets)
    for place, size, order in capture.lengths:
        for value in sorted(values(int.from_bytes(octets[place:place + size], order), size)):
            yield with_number(octets, place, size, order, value)


def set_number(rng, octets):
    """Sets an aligned number of either order."""
    if len(octets) < 4:
        return octets
    place, order = rng.randrange(len(octets) // 4) * 4, rng.choice(['little', 'big'])
    near = int.from_bytes(octets[place:place + 4], order) + rng.choice([-4, -1, 1, 4])
    return with_number(octets, place, 4, order, rng.choice([near % 2**32, rng.choice(NUMBERS)]))


def move(rng, octets):
    """Takes an aligned piece away, puts it elsewhere, or repeats it."""
    first, last, to = sorted(rng.choices(range(0, len(octets) + 4, 4), k=2)) + [4 * rng.randint(0, len(octets) // 4)]
    piece, rest = octets[first:last], octets[:first] + octets[last:]
    return rng.choice([rest, rest[:to] + piece + rest[to:], octets[:to] + piece + octets[to:]])


def join(rng, octets):
    """Puts another capture behind, in front, or anywhere."""
    other, to = base(rng), rng.choice([0, len(octets), 4 * rng.randint(0, len(octets) // 4)])
    return octets[:to] + other + octets[to:]


def base(rng):
    if rng.random() < 0.1:
        return REAL
    return bytes(made.capture(rng.randrange(2**32), odd=True, packets=rng.choice([0, 1, 2, 4])).octets)


def bent(seed):
    """A capture that was bent and broken."""
    rng = random.Random(f'bent {seed}')
    octets = base(rng)
    for _ in range(rng.choice([1, 1, 1, 2, 4])):
        change = rng.choice([inputs.change_octets, set_number, set_number, set_number, move, join])
        octets = change(rng, octets)
    return octets


def bent_packet(rng, link):
    """A packet whose headers were bent."""
    octets = bytearray(made.packet(rng, link, odd=True).octets)
    for _ in range(rng.choice([1, 1, 2, 3])):
        if octets:
            place = rng.randrange(min(len(octets), rng.choice([20, 50, 100])))
            octets[place] = rng.choice([octets[place] ^ 1 << rng.randrange(8), rng.randrange(256), 0, 255])
    return making.bare(bytes(octets[:rng.choice([len(octets), len(octets), rng.randint(0, len(octets))])]))


def bent_packets(seed, count):
    """A capture of packets of every link type whose headers were bent, at an interface for each."""
    rng = random.Random(f'bent packets {seed}')
    capture = making.Pcapng()
    capture.section()
    for link in made.LINKS:
        capture.interface(link)
    for place in range(count):
        link = rng.randrange(len(made.LINKS))
        capture.enhanced(link, place * making.SECOND, bent_packet(rng, made.LINKS[link]))
    return bytes(capture.octets)
