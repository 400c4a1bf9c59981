"""Announces (IEEE 1588-2019, 13.5): their octets, and what `measure` tells of them, computed apart from the program."""
import typing

import shown

ANNOUNCE, LEAST = 11, 64

# Of octet 1 of flagField (table 37): what is told, and all other flags.
VALID, PTP, OTHER_FLAGS = 0x04, 0x08, 0xf3


class Told(typing.NamedTuple):
    """What an Announce tells, as far as that is told again."""
    grandmaster: bytes
    clock_class: int = 6
    steps_removed: int = 0
    utc_offset: int = 37
    is_valid: bool = True
    is_ptp: bool = True

    def fields(self):
        """Each field with its name, in the order in which they are told."""
        return {'grandmaster': self.grandmaster.hex(), 'clockClass': self.clock_class, 'stepsRemoved': self.steps_removed,
                'currentUtcOffset': f'{self.utc_offset} s ({"" if self.is_valid else "not "}valid)', 'timescale': 'PTP' if self.is_ptp else 'ARB'}


class Announce(typing.NamedTuple):
    domain: int
    source: bytes
    told: Told


def made(source, told, sequence=0, domain=0, other_flags=0, others=0, suffix=b''):
    """The octets of an Announce. `others` is what all fields have that aren't told."""
    flags = VALID * told.is_valid + PTP * told.is_ptp + other_flags
    return b''.join([
        bytes([ANNOUNCE, 0x12]), (LEAST + len(suffix)).to_bytes(2, 'big'), bytes([domain, 0, 0, flags]), bytes(12), source, sequence.to_bytes(2, 'big'),
        bytes([5, 0]), bytes([others]) * 10, told.utc_offset.to_bytes(2, 'big', signed=True), bytes([others]) * 2, bytes([told.clock_class]),
        bytes([others]) * 4, told.grandmaster, told.steps_removed.to_bytes(2, 'big'), bytes([others]), suffix])


def read(octets):
    """The Announce that octets begin with, or None."""
    if len(octets) < LEAST or octets[0] % 16 != ANNOUNCE or octets[1] % 16 != 2 or not LEAST <= shown.number(octets[2:4]) <= len(octets):
        return None
    offset, flags = int.from_bytes(octets[44:46], 'big', signed=True), octets[7]
    told = Told(octets[53:61], octets[48], shown.number(octets[61:63]), offset, flags & VALID != 0, flags & PTP != 0)
    return Announce(octets[4], octets[20:30], told)


def sentences(unit, those):
    """What is told of those of the master, each with its place."""
    if not those:
        return
    changes = [(place, before, told) for (_, before), (place, told) in zip(those, those[1:]) if before != told]
    since = changes[-1][0] if changes else those[0][0]
    yield f'Announces: {len(those)}; ' + ', '.join(f'{name} {value}' for name, value in those[-1][1].fields().items()) + f', from {unit} {since} on'
    if changes:
        place, before, told = changes[0]
        fields = [f'{name} {was} became {value}' for (name, was), value in zip(before.fields().items(), told.fields().values()) if was != value]
        often = 'once,' if len(changes) == 1 else f'{len(changes)} times, first'
        yield f'what Announces tell changed {often} at {unit} {place}: {", ".join(fields)}'
