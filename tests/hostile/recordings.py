"""Makes recordings for `measure` out of bits: exchanges that are whole, lost in part, repeated and reordered, requests
that jump and begin anew, Syncs that aren't newer, steps and slopes, and lines at the edges of what is a line."""
import random

import announces
import inputs
import shown
import texts

MASTERS = [bytes.fromhex('001122fffe3344550001'), bytes.fromhex('001122fffe3344560001')]
SLAVES = [bytes.fromhex('00aabbfffeccddee0001'), bytes.fromhex('00aabbfffeccddee0002')]
DOMAINS = [0, 0, 0, 0, 0, 1, 255]

# How far the next request may be ahead of the last, beside 1.
JUMPS = [0, 1, 2, 255, 256, 257, 32767, 32768, 65535]

# Numbers of messages that meet each other often, on either side of every edge.
SEQUENCES = [0, 1, 2, 255, 256, 257, 32767, 32768, 32769, 65534, 65535]

# Corrections: ordinary ones, and those at the edges of what they say. The last is too big.
CORRECTIONS = [0, 0, 0, 0, 1, -1, 65536, 22515 * 2**16, 2**62, 2**63 - 2, -2**63, 2**63 - 1]

# Types of messages that have no use here.
OTHERS = [0x02, 0x03, 0x0a, 0x0b, 0x0c, 0x0d]

# What Announces tell, at the edges of each field.
TOLD = [announces.Told(MASTERS[0][:8]), announces.Told(MASTERS[0][:8], clock_class=248), announces.Told(MASTERS[0][:8], is_valid=False),
        announces.Told(SLAVES[1][:8], 255, 65535, -32768, is_ptp=False), announces.Told(bytes(8), 0, 256, 32767), announces.Told(bytes([255] * 8), 7, 1, 0)]

# Times that are one and that are none.
TIMES = ['0', '0.0', '0.000000001', '1.5', '281474976710655.999999999', '281474976710655', '9.100000000']
NO_TIMES = ['5.', '.5', '', '05', '00', '-1', '+1', '1e3', '1,5', '281474976710656', '999999999999999',
            '1234567890123456', '1.0123456789', '0x5', '1.5 ', ' 1', '1 .5', '1.-5', '1_0', '\u0661']

# How a blank may be missing, and more than one.
NO_BLANKS = ['', '  ', '\t', ' \t', '\u00a0', ',']

# How many lines come before the one that tells the last of whom to watch, and after how many Syncs a tick falls.
LATE = [1021, 1022, 1023, 1024, 1025, 1026]
TICK = 4096


def datagram(kind, source, sequence, domain=0, stamp=(0, 0), correction=0, two_step=False, unicast=False, requesting=b'', suffix=b'', log=0):
    """The octets of a message."""
    seconds, nanoseconds = stamp
    length = 34 + 10 + len(requesting) + len(suffix)
    return b''.join([
        bytes([kind, 0x12]), length.to_bytes(2, 'big'), bytes([domain, 0, 2 * two_step + 4 * unicast, 0]),
        correction.to_bytes(8, 'big', signed=True), bytes(4), source, sequence.to_bytes(2, 'big'), bytes([kind % 8, log % 256]),
        seconds.to_bytes(6, 'big'), nanoseconds.to_bytes(4, 'big'), requesting, suffix])


class Tape:
    """What is recorded so far: datagrams with their times in nanoseconds, and the numbers that were drawn last."""

    def __init__(self, rng):
        self.rng = rng
        self.lines = []
        self.time = rng.choice([0, 10**9, 1795329143 * 10**9, rng.randrange(2**48 * 10**9 - 10**15)])
        self.master, self.slave, self.domain = MASTERS[0], SLAVES[0], 0
        self.step = rng.choice([1, 1000, 1000, 2000, 2 * 10**6])
        self.unicast = rng.choice([0, 0, 0, 1, 0.5])
        # logMessageInterval: of ordinary Syncs, at the edges of what tells an interval, and beyond.
        self.log = rng.choice([0, 0, -3, -7, -8, 6, 7, 127])
        self.sync, self.request = rng.choice(SEQUENCES), rng.choice(SEQUENCES)
        # How many Syncs there are of the first master.
        self.syncs = 0

    def stamp(self, early=0):
        """A little before this time, as a message says it."""
        return divmod(max(self.time - early, 0), 10**9)

    def put(self, octets):
        self.time += self.rng.choice([1, 999, 500_000]) * self.step
        self.lines.append((self.time, octets))

    def correction(self):
        return self.rng.choice(CORRECTIONS) if self.rng.random() < 0.2 else 0

    def message(self, kind, sequence, **more):
        """A message of the slave where it is a Delay_Req, and else of the master."""
        source = self.slave if kind == 1 else self.master
        self.syncs += (kind, source, self.domain) == (0, MASTERS[0], 0)
        self.put(datagram(kind, source, sequence, self.domain, correction=self.correction(), log=self.log,
                          unicast=self.rng.random() < self.unicast, **more))

    def two_step_sync(self, sequence):
        self.message(0, sequence, two_step=True)

    def one_step_sync(self, sequence):
        self.message(0, sequence, stamp=self.stamp(700))

    def follow_up(self, sequence):
        self.message(8, sequence, stamp=self.stamp(900))

    def delay_req(self, sequence):
        self.request = sequence
        self.message(1, sequence)

    def delay_resp(self, sequence, requesting=None):
        self.message(9, sequence, stamp=self.stamp(), requesting=requesting or self.slave)

    def next_sync(self, ahead=1):
        self.sync = (self.sync + ahead) % 2**16
        return self.sync

    def next_request(self, ahead=1):
        return (self.request + ahead) % 2**16


def exchange(rng, tape):
    """A whole exchange, of which messages may be lost, repeated and reordered."""
    first = len(tape.lines)
    if rng.random() < 0.3:
        tape.one_step_sync(tape.next_sync())
    else:
        tape.two_step_sync(tape.next_sync())
        tape.follow_up(tape.sync)
    tape.delay_req(tape.next_request())
    tape.delay_resp(tape.request)
    if rng.random() < 0.4:
        muddle(rng, tape, first)


def muddle(rng, tape, first):
    """Some of the last datagrams come again, in another order or never; the times of lines are still of any order."""
    lines = tape.lines[first:]
    what = rng.randrange(4)
    if what == 0 and lines:
        del lines[rng.randrange(len(lines))]
    elif what == 1 and lines:
        lines.insert(rng.randint(0, len(lines)), rng.choice(lines))
    elif what == 2:
        rng.shuffle(lines)
    else:
        lines += lines
    tape.lines[first:] = lines


def jump(rng, tape):
    """Requests that are anywhere ahead of the last, with answers to this one and to earlier ones."""
    for _ in range(rng.choice([1, 2, 5])):
        before, ahead = tape.request, rng.choice(JUMPS)
        tape.delay_req(tape.next_request(ahead))
        for _ in range(rng.choice([0, 1, 2])):
            answered = rng.choice([tape.request, before, before + 1, tape.request - 255, tape.request - 256])
            tape.delay_resp(answered % 2**16)


def begin_anew(rng, tape):
    """The slave, the master or both number anew, and an exchange of before goes on."""
    sync, request = tape.sync, tape.request
    tape.two_step_sync(tape.next_sync())
    if rng.random() < 0.7:
        tape.delay_req(rng.choice([*SEQUENCES, (tape.request - 1) % 2**16]))
    if rng.random() < 0.5:
        tape.sync = rng.choice(SEQUENCES)
    answers = [lambda: tape.follow_up(sync), lambda: tape.delay_resp(request), lambda: tape.delay_resp(tape.request),
               lambda: exchange(rng, tape)]
    for answer in rng.sample(answers, rng.randint(1, 4)):
        answer()


def leap(rng, tape):
    """A Sync that completes, and others at the edges of what may follow it, at once and after a while, each perhaps with its Follow_Up."""
    tape.one_step_sync(tape.next_sync())
    newest = tape.sync
    for _ in range(rng.choice([1, 2, 3, 9])):
        number = (newest + rng.choice([1, 2, 15, 16, 17, 18, 255, 256, 257, 5000, 32767, 32768, -1, -1, -2, -254, -255, -256, -257])) % 2**16
        tape.time += rng.choice([0, 0, 0, 10**8, 10**9 - 1000, 10**9, 8 * 10**9, 9 * 10**9, 10**12])
        rng.choice([tape.one_step_sync, tape.two_step_sync])(number)
        if rng.random() < 0.4:
            tape.follow_up((number + rng.choice([0, 0, 0, 1, 255, 256, 257, -255, -256])) % 2**16)
        if rng.random() < 0.3:
            rng.choice([lambda: tape.delay_req(tape.next_request()), lambda: tape.delay_resp(tape.request), lambda: stranger(rng, tape)])()
        newest = rng.choice([newest, number])
    tape.delay_resp(tape.request)
    tape.sync = newest


def meet(rng, tape):
    """Any messages, with numbers that are often the same."""
    sequences = rng.sample(SEQUENCES, 3)
    for _ in range(rng.choice([4, 20])):
        put = rng.choice([tape.one_step_sync, tape.two_step_sync, tape.follow_up, tape.delay_req, tape.delay_resp])
        put(rng.choice(sequences))


def steady(rng, tape):
    """About as many exchanges as are wanted for a step or a slope; from one on Syncs or requests take longer, or shorter, or each takes longer than the one
    before."""
    begin, later, growing = rng.randrange(1, 24), rng.choice([0, 900, 1999, 2000, 2001, -2000, 10**6, 37 * 10**9]), rng.choice([0, 0, 1, 50_000])
    longer, jitter = rng.choice([(1, 0), (0, 1), (1, -1)]), rng.choice([0, 3, 700])
    for count in range(rng.choice([14, 15, 16, 17, 18, 32])):
        to, back = (700 + way * later * (count >= begin) + rng.randint(0, jitter) for way in longer)
        tape.message(0, tape.next_sync(), stamp=tape.stamp(to + growing * count))
        tape.delay_req(tape.next_request())
        tape.message(9, tape.request, stamp=tape.stamp(-back), requesting=tape.slave)
        tape.time += 10**8


def fill(rng, tape):
    """As many Syncs, Follow_Ups or requests as tables hold, one less or one more, before the first is completed."""
    first, count = tape.sync, rng.choice([255, 256, 256, 257, 257])
    kind = rng.choice(['sync', 'follow_up', 'request'])
    if kind == 'request':
        requests = [tape.next_request()]
        tape.delay_req(requests[0])
        for _ in range(count - 1):
            tape.delay_req(tape.next_request())
        tape.delay_resp(requests[0])
        return
    put, complete = (tape.two_step_sync, tape.follow_up) if kind == 'sync' else (tape.follow_up, tape.two_step_sync)
    for _ in range(count):
        put(tape.next_sync())
    tape.delay_req(tape.next_request())
    tape.delay_resp(tape.request)
    complete((first + 1) % 2**16)
    complete((first + 2) % 2**16)


def announce(rng, tape):
    """An Announce of the master or of another one, whole or cut short."""
    octets = announces.made(rng.choice([tape.master, tape.master, *MASTERS]), rng.choice([TOLD[0], *TOLD]), tape.sync, rng.choice([tape.domain, tape.domain, 1]),
                            rng.choice([0, announces.OTHER_FLAGS]), rng.choice([0, 0, 255]), rng.choice([b'', b'', bytes(4)]))
    end = rng.choice([len(octets)] * 8 + [54, 63, 64])
    return octets[:end] + bytes(rng.choice([0, 0, 0, 2]))


def stranger(rng, tape):
    """A message of another master, slave or domain, to another slave, of another type, or none."""
    was = tape.master, tape.slave, tape.domain, tape.request
    what = rng.randrange(6)
    if what == 0:
        tape.master = MASTERS[1]
    elif what == 1:
        tape.slave = SLAVES[1]
    elif what == 2:
        tape.domain = rng.choice([1, 255])
    if what < 3:
        put = rng.choice([tape.one_step_sync, tape.two_step_sync, tape.follow_up, tape.delay_req, tape.delay_resp])
        put(rng.choice([tape.sync, tape.request, tape.next_sync(), *SEQUENCES]))
    elif what == 3:
        tape.delay_resp(tape.request, rng.choice([SLAVES[1], MASTERS[0], SLAVES[0][:9] + b'\0', bytes(10)]))
    elif what == 4:
        kind = rng.choice(OTHERS)
        if kind == announces.ANNOUNCE:
            # several, each of which may tell another thing than the one before
            for _ in range(rng.choice([1, 2, 4])):
                tape.put(announce(rng, tape))
        else:
            tape.put(datagram(kind, tape.master, tape.sync, requesting=tape.slave))
    else:
        answer = datagram(9, tape.master, tape.request, requesting=tape.slave)
        tape.put(rng.choice([b'', bytes(33), bytes(34), bytes(44), answer[:53], datagram(9, tape.master, tape.request),
                             datagram(0, tape.master, tape.sync, stamp=(0, 10**9))]))
    tape.master, tape.slave, tape.domain, tape.request = was


def change_master(rng, tape):
    """Another master, slave or domain from here on."""
    tape.master, tape.slave, tape.domain = rng.choice(MASTERS), rng.choice(SLAVES), rng.choice(DOMAINS)


def tick(rng, tape):
    """So many Syncs that two ticks fall or are due; halves of about the first are completed about the second."""
    tape.master, tape.slave, tape.domain = MASTERS[0], SLAVES[0], 0
    put, other = rng.choice([tape.one_step_sync, tape.two_step_sync]), rng.choice([0, 0.001])
    while tape.syncs < TICK - rng.choice([0, 1, 2]):
        if rng.random() < other:
            rng.choice([leap, begin_anew, jump])(rng, tape)
        else:
            tape.two_step_sync(tape.next_sync())
    tape.delay_req(tape.next_request())
    tape.delay_resp(tape.request)
    while tape.syncs < 2 * TICK - rng.choice([0, 1, 2, 3]):
        tape.two_step_sync(tape.next_sync())
    for _ in range(4):
        put(tape.next_sync())
        tape.follow_up(tape.sync)
    exchange(rng, tape)


def late(rng, tape):
    """The first Delay_Req or the first Sync after so many lines."""
    sync, follow_up, count = tape.next_sync(), rng.random() < 0.5, rng.choice(LATE)
    if rng.random() < 0.8:
        tape.two_step_sync(sync)
        while len(tape.lines) < count:
            put = rng.choice([tape.follow_up, tape.delay_resp, tape.one_step_sync])
            put(tape.next_sync() if rng.random() < 0.9 else sync)
        tape.delay_req(tape.next_request())
    else:
        while len(tape.lines) < count:
            tape.delay_req(tape.next_request(rng.choice([1, 1, 1, 255])))
        tape.two_step_sync(sync)
    if follow_up:
        tape.follow_up(rng.choice([sync, tape.sync]))
    tape.delay_resp(tape.request)


PIECES = [exchange] * 8 + [jump, jump, begin_anew, leap, meet, meet, steady, steady, fill, fill, stranger, stranger, change_master]


def time_text(rng, nanoseconds):
    """A time with all nine decimals or with those that it has."""
    text = texts.seconds(nanoseconds)
    return text if rng.random() < 0.8 else text.rstrip('0').rstrip('.')


def change_octets(rng, octets):
    """A datagram with a field at its edge, cut, or followed by more."""
    if rng.random() < 0.5:
        return octets + rng.randbytes(rng.choice([1, 2, 100]))
    return bytes.fromhex(inputs.change_datagram(rng, octets.hex().encode()).decode())


def long_line(rng, octets):
    """A line of about 4,096 octets."""
    length = rng.choice([4094, 4095, 4096, 4096, 4096, 4097, 4098])
    time = '7' if length % 2 == 0 else '77'
    return f'{time} {(octets + bytes(length // 2))[:(length - len(time) - 1) // 2].hex()}'


def odd_line(rng, time, octets):
    """A line of another form, most of which are none."""
    digits, what = octets.hex(), rng.randrange(-1, 8)
    if what <= 0:
        return f'{rng.choice(NO_TIMES)} {digits}'
    if what == 1:
        return f'{time}{rng.choice(NO_BLANKS)}{digits}'
    if what == 2:
        return f'{time} {digits}{rng.choice(["0", "g", " ", "00 "])}'
    if what == 3:
        return rng.choice(['', time, f'{time} ', ' ', digits])
    return f'{rng.choice(TIMES)} {digits}' if what < 6 else long_line(rng, octets)


def line_text(rng, nanoseconds, octets, odd):
    """The line of a datagram; so many lines are of another form."""
    time, digits = time_text(rng, nanoseconds), octets.hex()
    if rng.random() < odd:
        return odd_line(rng, time, octets).encode()
    return f'{time} {digits.upper() if rng.random() < 0.05 else digits}'.encode()


def recording(rng):
    """The lines of a recording, of which few are of another form than they should be."""
    tape = Tape(rng)
    for _ in range(rng.choice([0, 0, 0, 1, 5])):
        stranger(rng, tape)
    begin = rng.random()
    if begin < 0.9:
        exchange(rng, tape)
    elif begin < 0.94:
        late(rng, tape)
    for _ in range(rng.choice([1, 5, 20])):
        rng.choice(PIECES)(rng, tape)
    if rng.random() < 0.015:
        tick(rng, tape)
    if rng.random() < 0.3:
        muddle(rng, tape, max(0, len(tape.lines) - 20))
    bent, odd = rng.choice([0, 0, 0.01, 0.1]), rng.choice([0, 0, 0, 0, 0.003, 0.1])
    bend = [change_octets(rng, octets) if rng.random() < bent else octets for _, octets in tape.lines]
    return [line_text(rng, time, octets, odd) for (time, _), octets in zip(tape.lines, bend)]


def recordings(rng, files):
    """A recording, as it is or changed, or one of the files with its lines changed."""
    lines = inputs.change_lines(rng, rng.choice(files).splitlines()) if files and rng.random() < 0.1 else recording(rng)
    text = inputs.join(rng, lines, 0.1)
    return inputs.change_octets(rng, text) if rng.random() < 0.05 else text


def identities(lines):
    """The sources in some of these lines, as far as they are there."""
    texts = [line.split(b' ')[-1][40:60] for line in lines[:20]]
    return [bytes.fromhex(text.decode()) for text in texts if len(text) == 20 and shown.DIGITS.fullmatch(text)]


def identity_text(rng, octets):
    """An identity as an argument has it, in either form."""
    clock, port = octets[:8].hex(), str(int.from_bytes(octets[8:], 'big'))
    clock = rng.choice([clock, clock, clock.upper()])
    port = rng.choice([port, port, port.zfill(5)])
    return f'{clock}/{port}' if rng.random() < 0.5 else f'{clock[:6]}.{clock[6:10]}.{clock[10:]}-{port}'


NO_ARGUMENTS = [
    ['--slave', '00aabbfffeccddee-1'], ['--slave', '00aabb.fffe.ccddee/1'], ['--slave', '00aabbfffeccddee/65536'],
    ['--slave', ''], ['--slave', '00aabbfffeccddee/000001'], ['--slave', '00aabbfffeccddee/+1'],
    ['--master', '00aabbfffeccddee/'], ['--master', '0aabbfffeccddee/1'], ['--master', '00aabbfffeccddeg/1'],
    ['--master', ' 00aabbfffeccddee/1'], ['--master'], ['--domain', '256'], ['--domain', '0000'], ['--domain', '+1'],
    ['--domain', ''], ['--domain=-1'], ['--domain', '0', '--domain', '0'], ['--csv', '--csv'], ['--csv=yes'],
    ['further'],
    ['--slaves', '00aabbfffeccddee/1'], ['-s']]


def arguments(text):
    """The arguments for an input. They are picked by its octets, so that an input is a text alone."""
    rng = random.Random(text)
    if rng.random() < 0.02:
        return rng.choice(NO_ARGUMENTS)
    made = [['--csv']] if rng.random() < 0.3 else []
    made += [['--full']] if rng.random() < 0.3 else []
    if rng.random() < 0.4:
        there = identities(shown.lines_of(text))
        for name, own in [('--slave', SLAVES), ('--master', MASTERS)]:
            if rng.random() < 0.5:
                made.append([name, identity_text(rng, rng.choice([*own, *there]))])
        if rng.random() < 0.5:
            made.append(['--domain', rng.choice(['0', '0', '000', '1', '255', '02'])])
    rng.shuffle(made)
    return [part for one in made for part in (['='.join(one)] if len(one) == 2 and rng.random() < 0.5 else one)]
