"""Gives `ptpx measure` Announces of many kinds among an exchange, and sees that it tells of them what is owed: in lines, by octets that are made here, and
in a capture, of which the Announces are changed."""
import re

import announces
from asking import EXAMPLE, fail
from beware import Packets, message, with_message, written
from exchanging import START, talk
from making import SECOND
from program import ask
from reading import line
from recordings import MASTERS, SLAVES

MASTER, OTHER = MASTERS

# What the master's Announces tell, where nothing else is said.
TOLD = announces.Told(MASTER[:8])
WORDS = 'grandmaster 001122fffe334455, clockClass %s, stepsRemoved 0, currentUtcOffset 37 s (%s), timescale PTP'
AS_TOLD = WORDS % (6, 'valid')


def made(told=TOLD, source=MASTER, **more):
    return announces.made(source, told, **more)


def with_change(count, **to):
    """So many Announces that tell the usual, and one that tells something else."""
    return [made()] * count + [made(TOLD._replace(**to))]


def with_length(octets, length):
    return octets[:2] + length.to_bytes(2, 'big') + octets[4:]


# Announces behind the first four lines, which are an exchange; and what is owed. They are lines 5, 6 and so on.
WORKED = {
    'none': ([], []),
    'one': ([made()], [f'Announces: 1; {AS_TOLD}, from line 5 on']),
    'three': ([made()] * 3, [f'Announces: 3; {AS_TOLD}, from line 5 on']),
    'of another master': ([made(source=OTHER)], []),
    'of another port of the clock': ([made(source=MASTER[:9] + b'\2')], []),
    'of another domain': ([made(domain=1)], []),
    'of another master and domain between': ([made(), made(TOLD._replace(clock_class=7), OTHER), made(TOLD._replace(clock_class=7), domain=1), made()],
                                             [f'Announces: 2; {AS_TOLD}, from line 5 on']),
    'whose octets end before messageLength': ([made()[:63]], []),
    'whose messageLength is beyond its octets': ([with_length(made(), 65)], []),
    'whose messageLength is too small': ([with_length(made(), 63)], []),
    'with a suffix, and with octets behind': ([made(suffix=bytes(8)), made() + b'\0'], [f'Announces: 2; {AS_TOLD}, from line 5 on']),
    'of version 1': ([made()[:1] + b'\1' + made()[2:]], []),
    # nothing of these is told: sequenceId, priorities, accuracy, variance, timeSource and the other flags
    'that differ in what is not told': ([made(), made(sequence=9), made(others=255), made(other_flags=announces.OTHER_FLAGS)],
                                        [f'Announces: 4; {AS_TOLD}, from line 5 on']),
    'with one change': (with_change(2, clock_class=248),
                        [f'Announces: 3; {WORDS % (248, "valid")}, from line 7 on', 'what Announces tell changed once, at line 7: clockClass 6 became 248']),
    'with two changes': ([made(), made(TOLD._replace(clock_class=7)), made(TOLD._replace(clock_class=7)), made(TOLD._replace(clock_class=52)), made(TOLD._replace(clock_class=52))],
                         [f'Announces: 5; {WORDS % (52, "valid")}, from line 8 on', 'what Announces tell changed 2 times, first at line 6: clockClass 6 became 7']),
    'with a change and back': ([*with_change(1, clock_class=7), made()],
                               [f'Announces: 3; {AS_TOLD}, from line 7 on', 'what Announces tell changed 2 times, first at line 6: clockClass 6 became 7']),
    'whose currentUtcOffset is not valid any more': (
        with_change(1, is_valid=False), [f'Announces: 2; {WORDS % (6, "not valid")}, from line 6 on',
                                           'what Announces tell changed once, at line 6: currentUtcOffset 37 s (valid) became 37 s (not valid)']),
    'of another timescale': (
        [made(TOLD._replace(is_valid=False, is_ptp=False))],
        ['Announces: 1; grandmaster 001122fffe334455, clockClass 6, stepsRemoved 0, currentUtcOffset 37 s (not valid), timescale ARB, from line 5 on']),
    'whose timescale changes': (
        with_change(1, is_ptp=False), [f'Announces: 2; {AS_TOLD.replace("PTP", "ARB")}, from line 6 on', 'what Announces tell changed once, at line 6: timescale PTP became ARB']),
    'in which all changes': (
        with_change(1, grandmaster=SLAVES[1][:8], clock_class=255, steps_removed=65535, utc_offset=-32768, is_valid=False, is_ptp=False),
        ['Announces: 2; grandmaster 00aabbfffeccddee, clockClass 255, stepsRemoved 65535, currentUtcOffset -32768 s (not valid), timescale ARB, from line 6 on',
         'what Announces tell changed once, at line 6: grandmaster 001122fffe334455 became 00aabbfffeccddee, clockClass 6 became 255, stepsRemoved 0 became 65535, '
         'currentUtcOffset 37 s (valid) became -32768 s (not valid), timescale PTP became ARB']),
}

# What the Announces of the example tell, in a part of the capture or in all of it.
OF_EXAMPLE = 'grandmaster 020000fffe112233, clockClass 248, stepsRemoved 0, currentUtcOffset 37 s (not valid), timescale ARB'


def told(errors):
    """What is told of Announces."""
    return [it.removeprefix('ptpx: ') for it in errors.decode().splitlines() if re.match('ptpx: (Announces: |what Announces)', it)]


def recording(those, before):
    """Lines with so many messages of an exchange, then these Announces, and then the rest of it."""
    messages = [octets for _, _, octets in talk(count=1)]
    octets = messages[:before] + those + messages[before:]
    return ''.join(line(START + number * SECOND // 100, it) for number, it in enumerate(octets)).encode()


def see(name, octets, owed):
    found = told(ask(octets, 'measure').errors)
    if found != owed:
        fail(f'{name}: {owed} is owed, and not {found}', octets)


def numbered(owed, by):
    """What is owed where all lines have other numbers."""
    return [re.sub(r'(?<=line )\d+', lambda it: str(int(it[0]) + by), one) for one in owed]


def changed(packets, place, octet, bit):
    """From the middle on this octet of each Announce is another one."""
    half = len(packets) // 2
    for at, it in enumerate(packets):
        octets = message(it)
        if at >= half and announces.read(octets):
            it = with_message(it, octets[:place] + bytes([octet if bit is None else octets[place] ^ bit]) + octets[place + 1:])
        yield it


def main():
    for name, (those, owed) in WORKED.items():
        see(f'Announces {name}', recording(those, 4), owed)
        # it isn't known yet whom to watch
        see(f'early Announces {name}', recording(those, 0), numbered(owed, -4))
    packets = Packets(EXAMPLE.read_bytes()).all
    of_example = [(at, announces.read(message(it))) for at, it in enumerate(packets, 1) if announces.read(message(it))]
    first, count = of_example[0][0], len(of_example)
    middle = next(at for at, _ in of_example if at > len(packets) // 2)
    see('the Announces of the example', written(packets), [f'Announces: {count}; {OF_EXAMPLE}, from packet {first} on'])
    for name, place, octet, bit, before, after in [
            ('of another clockClass', 48, 7, None, 'clockClass 248', 'clockClass 7'),
            ('with currentUtcOffsetValid', 7, None, announces.VALID, 'currentUtcOffset 37 s (not valid)', 'currentUtcOffset 37 s (valid)'),
            ('with ptpTimescale', 7, None, announces.PTP, 'timescale ARB', 'timescale PTP')]:
        became = after.partition(' ')[2]
        see(f'the Announces of the example, {name}', written(list(changed(packets, place, octet, bit))),
            [f'Announces: {count}; {OF_EXAMPLE.replace(before, after)}, from packet {middle} on',
             f'what Announces tell changed once, at packet {middle}: {before} became {became}'])
    print(f'captures: {2 * len(WORKED) + 4} inputs with Announces have told what is owed')
