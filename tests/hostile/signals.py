"""Makes recordings for `measure` in which slaves tell their own readings (IEEE 1588-2019, 16.11): those of recordings.py as their slaves
have them, several in a TLV and several TLVs in a message, also others between, with lengths, records and fields that are bent."""
import random
import typing

import inputs
import recordings
from recordings import MASTERS, SLAVES
from shown import lines_of, message

SYNC, DELAY = 0x8004, 0x7f00
# Types of TLVs that are passed over, some of them next to these two.
OTHERS = [0x0000, 0x0003, 0x0008, 0x2004, 0x7eff, 0x7f01, 0x8003, 0x8005, 0xffff]

# Where in a Signaling message messageLength stands, and its first TLV.
LENGTH, FIRST = 2, 44
# Lengths that may stand in place of another one, and how far beside it: by an octet, a master, a record of either type, the head of a TLV.
LENGTHS = [0, 1, 9, 10, 11, 33, 43, 44, 65535]
BESIDE = [-1, 1, -10, 10, -30, 30, -34, 34, -4, 4]
# Nanoseconds at the edges of what they may be.
NANOSECONDS = [0, 10**9 - 1, 10**9, 10**9 + 1, 2**32 - 1]

# The most octets of a message that a line holds with its time.
MOST = 2000


class Reading(typing.NamedTuple):
    """A record as a slave has it: when it tells it, the type of its TLV, and whose it is."""
    time: int
    kind: int
    slave: bytes
    domain: int
    master: bytes
    octets: bytes


def moment(units):
    """A time as a message has it."""
    seconds, nanoseconds = divmod(max(units // 2**16, 0), 10**9)
    return seconds.to_bytes(6, 'big') + nanoseconds.to_bytes(4, 'big')


def tlv(kind, value):
    return kind.to_bytes(2, 'big') + len(value).to_bytes(2, 'big') + value


def signaling(rng, slave, domain, tlvs):
    """The octets of a message. linuxptp tells readings from port 0 of its slave."""
    value = b''.join(tlvs)
    return b''.join([
        bytes([rng.choice([0x0c] * 9 + [0x1c]), rng.choice([2, 2, 0x12])]), (FIRST + len(value)).to_bytes(2, 'big'), bytes([domain]), bytes(15),
        slave[:8], rng.choice([bytes(2)] * 9 + [slave[8:]]), rng.randbytes(2), bytes([5, 0x7f]), bytes([255]) * 10, value])


def readings(rng, lines):
    """What slaves tell of the messages of these lines, each a time and octets; what else there is stays as it is."""
    syncs, requests = {}, {}
    for time, octets in lines:
        said = message(octets)
        if isinstance(said, str):
            yield time, octets
        elif said.kind == 'Delay_Req':
            requests[said.source, said.sequence] = time
        elif said.kind == 'Sync' and said.two_step:
            syncs[said.source, said.sequence] = time, said.correction
        elif said.kind == 'Delay_Resp':
            yield reading(time, DELAY, said.requesting, said, requests.get((said.requesting, said.sequence), time - 1000) * 2**16, said.stamp, said.correction)
        else:
            came, correction = syncs.get((said.source, said.sequence), (time, 0)) if said.kind == 'Follow_Up' else (time, 0)
            correction = max(-2**63, min(correction + said.correction, 2**63 - 1))
            slave = rng.choice([SLAVES[0]] * 30 + SLAVES)
            yield reading(time, SYNC, slave, said, said.stamp, came * 2**16, correction)


def reading(time, kind, slave, said, left, came, correction):
    """A record of a message, by when it left and came."""
    rate = bytes(4) if kind == SYNC else b''
    octets = said.sequence.to_bytes(2, 'big') + moment(left) + correction.to_bytes(8, 'big', signed=True) + rate + moment(came)
    return Reading(time, kind, slave, said.domain, said.source, octets)


def messages(rng, told, most):
    """The datagrams that tell these, each with its time: up to so many records of one slave and domain in a message, those of one kind and master also in
    one TLV. Among them are TLVs of other types, and such as hold no record."""
    waiting = []

    def together():
        tlvs = []
        for it in waiting:
            if tlvs and tlvs[-1][:2] == (it.kind, it.master) and rng.random() < 0.7:
                tlvs[-1][2].append(it.octets)
            else:
                tlvs.append((it.kind, it.master, [it.octets]))
        those = [tlv(kind, master + b''.join(records)) for kind, master, records in tlvs]
        if rng.random() < 0.1:
            for _ in range(rng.choice([1, 1, 3])):
                other = tlv(rng.choice(OTHERS), rng.randbytes(rng.choice([0, 1, 6, 44])))
                those.insert(rng.randint(0, len(those)), rng.choice([other, other, tlv(rng.choice([SYNC, DELAY]), MASTERS[0])]))
        return waiting[-1].time, signaling(rng, waiting[0].slave, waiting[0].domain, those)

    for it in told:
        is_record = isinstance(it, Reading)
        fits = is_record and waiting and (waiting[0].slave, waiting[0].domain) == (it.slave, it.domain)
        if waiting and not (fits and len(waiting) < most):
            yield together()
            waiting = []
        if is_record:
            waiting.append(it)
        else:
            yield it
    if waiting:
        yield together()


def places(octets):
    """Where the TLVs of a message begin."""
    found, place = [], FIRST
    while place + 4 <= len(octets):
        found.append(place)
        place += 4 + int.from_bytes(octets[place + 2:place + 4], 'big')
    return found


def put(octets, place, value, width):
    octets[place:place + width] = (value % 256**width).to_bytes(width, 'big')


def other_length(rng, length):
    return rng.choice([length + rng.choice(BESIDE), rng.choice(LENGTHS), rng.randrange(65536)])


def bend_tlv(rng, octets):
    """The lengthField of a TLV says something else, or its type."""
    place = rng.choice(places(octets))
    if rng.random() < 0.8:
        put(octets, place + 2, other_length(rng, int.from_bytes(octets[place + 2:place + 4], 'big')), 2)
    else:
        put(octets, place, rng.choice([SYNC, DELAY, *OTHERS]), 2)


def bend_length(rng, octets):
    put(octets, LENGTH, other_length(rng, len(octets)), 2)


def bend_end(rng, octets):
    """It is cut or goes on, and messageLength says so, or not."""
    if rng.random() < 0.6:
        del octets[-rng.choice([1, 2, 4, 10, 30, 34, rng.randint(1, len(octets))]):]
    else:
        octets += rng.choice([bytes(1), bytes(4), tlv(SYNC, b''), tlv(DELAY, MASTERS[0]), tlv(0x0003, bytes(5)), rng.randbytes(9)])
    if rng.random() < 0.5 and len(octets) >= FIRST:
        put(octets, LENGTH, len(octets), 2)


def bend_record(rng, octets):
    """A record's nanoseconds are at their edge, its correction is, or its seconds are."""
    place = rng.choice(places(octets)) + 14
    record = place + rng.choice([0, 0, 0, 30, 34])
    what = rng.randrange(4)
    if what == 0:
        put(octets, rng.choice([record + 8, len(octets) - 4]), rng.choice(NANOSECONDS), 4)
    elif what == 1:
        put(octets, record + 12, rng.choice(recordings.CORRECTIONS), 8)
    elif what == 2:
        put(octets, record + 2, rng.choice([0, 1, 2**48 - 1]), 6)
    else:
        put(octets, record, rng.choice(recordings.SEQUENCES), 2)


def bend_header(rng, octets):
    """Another type, version, domain or slave."""
    what = rng.randrange(4)
    if what == 0:
        octets[0] ^= rng.choice([1, 4, 8, 0x10])
    elif what == 1:
        octets[1] = rng.choice([1, 2, 3, 0x12, 0x22])
    elif what == 2:
        octets[4] = rng.choice([0, 1, 255])
    else:
        octets[20:30] = rng.choice([*SLAVES, *MASTERS, SLAVES[0][:8] + bytes(2)])


def bent(rng, octets):
    """A message of which something is bent, once or several times."""
    if rng.random() < 0.15:
        return inputs.change_octets(rng, octets)[:MOST]
    octets = bytearray(octets)
    for _ in range(rng.choice([1, 1, 1, 2, 3])):
        if len(octets) > FIRST + 4:
            rng.choice([bend_tlv, bend_tlv, bend_length, bend_end, bend_record, bend_header])(rng, octets)
    return bytes(octets[:MOST])


def walk(rng, count):
    """The datagrams of so many pieces of a recording, each with its time, as they were captured."""
    tape = recordings.Tape(rng)
    for _ in range(rng.choice([0, 0, 1, 2])):
        recordings.exchange(rng, tape)
    for _ in range(count):
        rng.choice(recordings.PIECES)(rng, tape)
    return tape.lines


def recording(rng):
    """The lines of a recording in which slaves tell their readings, of which few are of another form than they should be."""
    lines = walk(rng, rng.choice([1, 3, 8]))
    told = messages(rng, readings(rng, lines), rng.choice([1, 1, 1, 2, 5, 30]))
    share, odd = rng.choice([0, 0.02, 0.2, 0.5]), rng.choice([0, 0, 0, 0, 0.003, 0.05])
    told = [(time, bent(rng, octets) if rng.random() < share else octets) for time, octets in told]
    # What was captured stands before it, among it or nowhere.
    what = rng.random()
    if what < 0.15:
        told = walk(rng, 1)[:rng.choice([2, 4, 40])] + told
    elif what < 0.3:
        told = sorted(told + lines, key=lambda it: it[0])
    return [recordings.line_text(rng, time, octets, odd) for time, octets in told]


def recordings_of_slaves(rng, files):
    """A recording, as it is or changed, or one of the files with its lines changed."""
    if rng.random() < 0.1:
        lines = inputs.change_lines(rng, lines_of(rng.choice(files)))
        lines = [b' '.join([it.split(b' ')[0], bent(rng, bytes.fromhex(it.split(b' ')[1].decode())).hex().encode()]) if it and rng.random() < 0.1 else it
                 for it in lines]
    else:
        lines = recording(rng)
    text = inputs.join(rng, lines, 0.1)
    return inputs.change_octets(rng, text) if rng.random() < 0.05 else text


def long(rng, count):
    """A recording of so many lines, of which one in twenty is bent."""
    made = []
    while len(made) < count:
        told = messages(rng, readings(rng, walk(rng, 100)), rng.choice([1, 1, 3]))
        made += [f'{time // 10**9}.{time % 10**9:09} {(bent(rng, octets) if rng.random() < 0.05 else octets).hex()}'.encode() for time, octets in told]
    return inputs.join(rng, made[:count], 0)


NO_ARGUMENTS = [['--readings'], ['--readings', ''], ['--readings=captured'], ['--readings', 'Own'], ['--readings', 'own', '--readings', 'own'],
                ['--limit', '-1'], ['--limit='], ['--limit', '1e3'], ['--limit', '0', '--limit', '0'], ['--strict', '--strict'], ['--strict=yes']]
READINGS = [[], [], [], [], ['--readings', 'own'], ['--readings=own'], ['--readings', 'capture']]
JUDGED = [[]] * 8 + [['--strict'], ['--limit', '0'], ['--limit=1000'], ['--limit', '12.5'], ['--limit', '281474976710655.999999999'], ['--limit=1', '--strict']]


def arguments(text):
    """The arguments for an input, picked by its octets; none for a long one."""
    if len(text) > 2**20:
        return []
    made, rng = recordings.arguments(text), random.Random(text + b'readings')
    if rng.random() < 0.02:
        return rng.choice(NO_ARGUMENTS)
    return made + rng.choice(READINGS) + rng.choice(JUDGED)
