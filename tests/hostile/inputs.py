"""Makes inputs out of what examples/ holds: octets and lines flipped, cut, repeated and swapped, fields of datagrams and keys of
lines at the edges of their ranges."""
import json
import random

# What stands in place of an octet, where it isn't one of all 256.
MARKS = b'\n\r\0\xff\xc3"\\{}[],:-+.0eE9fgx \t'

# Ends of lines, the usual one first.
ENDS = [b'\n', b'\r\n', b'\r\r\n', b'\n\n', b'\r', b'']

# Datagrams: the places and the widths of their fields, and values at the edges of what these say.
FIELDS = [(0, 1), (1, 1), (2, 2), (4, 1), (6, 1), (8, 8), (20, 8), (28, 2), (30, 2), (33, 1), (34, 6), (40, 4), (44, 8), (52, 2)]
EDGES = [0, 1, 2, 8, 9, 11, 15, 43, 44, 45, 53, 54, 55, 10**9 - 1, 10**9]

# Values of keys, as JSON has them: each range's ends and what is just past them, numbers that are no integers, texts, and what is neither.
NUMBERS = [str(n) for n in (0, 1, 13, 255, 256, -1, -128, -129, 127, 128, 65535, 65536, 10**9 - 1, 10**9, 2**48 - 1, 2**48,
                            2**63 - 1, 2**63, 2**64 - 1, 2**64, -2**63, -2**63 - 1, 10**40)]
NUMBERS += ['-0', '1.0', '1e0', '1e999', '0.5', '01', '+1', '1e', '-']
TEXTS = ['"%s"' % text for text in (
    '', '0', '-0', '+1', '01', '-1', '9' * 32, '9' * 33, '-' + '9' * 31, '-' + '9' * 32, str(2**48 * 10**9 * 2**16), 'M', 'S', 'T',
    'x' * 16, 'x' * 17, 'no name', 'clock', 'master', 'slave', 'made', 'report', 'sync', '001122FFFE334455', '00112', '00112g', '00' * 54,
    '00' * 55, '\\u004d', '\\ud800', 'é', '\x01')]
OTHERS = ['null', 'true', 'false', '{}', '[]', '[0]', '[1,0]', '[1,0,0]', '[1,0,0,0]', '[5,7,8,13]', '[5,null,8,13]', '{"ev":"tick"}',
          '[' * 127 + ']' * 127, '[' * 200 + ']' * 200, '{"a":' * 200 + '1' + '}' * 200, 'nul', '', '[1,', 'NaN']
VALUES = NUMBERS + TEXTS + OTHERS
KEYS = ['node', 'kind', 'id', 'port', 'domain', 'first', 'log', 'ev', 'at', 'copy', 'transit', 'master', 'diff', 'n', 'reading', 'out',
        'hex', 'code', 'offset2', 'path2', 'tags', 'other', '']
EVENTS = ['sync', 'syncone', 'follow', 'enter', 'leave', 'arrive', 'hear', 'request', 'stamped', 'tick', 'setmaster', 'stepclock']


def cut(rng, whole):
    """A piece of what is whole, as its ends."""
    first, last = sorted((rng.randint(0, len(whole)), rng.randint(0, len(whole))))
    return first, last


def flip(rng, octets):
    place = rng.randrange(len(octets))
    octets[place] ^= 1 << rng.randrange(8)


def mark(rng, octets):
    octets[rng.randrange(len(octets))] = rng.choice([rng.choice(MARKS), rng.randrange(256)])


def insert(rng, octets):
    place = rng.randint(0, len(octets))
    octets[place:place] = bytes([rng.choice(MARKS)]) * rng.choice([1, 1, 2, 100])


def remove(rng, octets):
    first, last = cut(rng, octets)
    del octets[first:min(last, first + rng.choice([1, 2, 40, 4000]))]


def end(rng, octets):
    del octets[rng.randint(0, len(octets)):]


def repeat(rng, octets):
    first, last = cut(rng, octets)
    octets[first:first] = octets[first:last] * rng.choice([1, 1, 2, 5])


def swap(rng, octets):
    one, other = rng.randrange(len(octets)), rng.randrange(len(octets))
    octets[one], octets[other] = octets[other], octets[one]


def change_octets(rng, octets):
    """The octets after a few changes, wherever they fall."""
    octets = bytearray(octets)
    for _ in range(rng.choice([1, 1, 1, 2, 5, 30])):
        if octets:
            rng.choice([flip, mark, insert, remove, end, repeat, swap])(rng, octets)
    return bytes(octets)


def change_lines(rng, lines):
    """The lines after a few were taken away, repeated, swapped and moved."""
    lines = list(lines)
    for _ in range(rng.choice([0, 1, 1, 2, 5])):
        first, last = cut(rng, lines)
        what = rng.randrange(5)
        if what == 0:
            del lines[first:min(last, first + 3)]
        elif what == 1:
            lines[last:last] = lines[first:last] * rng.choice([1, 1, 2, 20])
        elif what == 2 and lines:
            lines.insert(rng.randint(0, len(lines)), lines.pop(rng.randrange(len(lines))))
        elif what == 3 and lines:
            one, other = rng.randrange(len(lines)), rng.randrange(len(lines))
            lines[one], lines[other] = lines[other], lines[one]
        elif rng.random() < 0.2:
            lines.insert(first, b'')
    return lines


def join(rng, lines, odd_ends):
    """The text of the lines, most of them ended as usual; so many texts have other ends among them."""
    text = bytearray()
    odd = rng.random() < odd_ends
    for line in lines:
        text += line + (rng.choice(ENDS) if odd and rng.random() < 0.2 else b'\n')
    if rng.random() < 0.2:
        text = text[:-1]
    return bytes(text)


def change_datagram(rng, digits):
    """The datagram with fields at their edges, cut or followed by more, in digits of either case."""
    octets = bytearray.fromhex(digits.decode())
    for _ in range(rng.choice([0, 1, 1, 2, 4])):
        place, width = rng.choice(FIELDS)
        top = 256**width - 1
        value = rng.choice([rng.randint(0, top), 0, 1, top, top // 2, top // 2 + 1, top // 2 - 1, *EDGES])
        octets[place:place + width] = min(value, top).to_bytes(width, 'big')
    what = rng.randrange(8)
    if what == 0:
        del octets[rng.randint(0, len(octets)):]
    elif what == 1:
        octets += rng.randbytes(rng.choice([1, 2, 16, 1000, 2048 - len(octets)]))
    elif what == 2:
        octets = bytearray(change_octets(rng, octets))[:2048]
    elif what == 3:
        # The length field says what there is, and perhaps one octet more or less.
        octets += rng.randbytes(rng.randint(0, 8))
        octets[2:4] = (len(octets) + rng.choice([-1, 0, 0, 1])).to_bytes(2, 'big')
    digits = octets.hex()
    return rng.choice([digits, digits, digits.upper()]).encode()


def datagrams(rng, files):
    """Up to 40 datagrams, of which few inputs have any that isn't hexadecimal."""
    lines = [line for file in files for line in file.splitlines()]
    made = [change_datagram(rng, rng.choice(lines)) for _ in range(rng.choice([1, 5, 40]))]
    if rng.random() < 0.1:
        made.insert(rng.randint(0, len(made)), rng.choice(b'0f') .to_bytes(1, 'big') * rng.choice([0, 1, 4094, 4095, 4096, 4097, 5000]))
    text = join(rng, made, 0.3)
    return change_octets(rng, text) if rng.random() < 0.3 else text


def change_value(rng, text):
    """Another value in place of this one, or of one member of it."""
    if text.startswith('[') and rng.random() < 0.6:
        members = text[1:-1].split(',')
        members[rng.randrange(len(members))] = rng.choice(NUMBERS + ['null', '"1"'])
        return '[' + ','.join(members) + ']'
    if text.isdigit() and rng.random() < 0.5:
        return str(rng.randint(0, 20))
    return rng.choice(VALUES)


def change_object(rng, line):
    """The line with a key that is taken away, further, renamed, twice there or given another value."""
    try:
        members = [[json.dumps(key), json.dumps(value, separators=(',', ':'))] for key, value in json.loads(line).items()]
    except (ValueError, AttributeError):
        return line
    place = rng.randrange(len(members)) if members else 0
    what = rng.randrange(8)
    if not members or what == 0:
        members.append([json.dumps(rng.choice(KEYS)), rng.choice(VALUES)])
    elif what == 1:
        del members[place]
    elif what == 2:
        members[place][0] = json.dumps(rng.choice(KEYS))
    elif what == 3:
        members.insert(place, list(rng.choice(members)))
    elif what == 4:
        rng.shuffle(members)
    elif what == 5:
        for member in members:
            if member[0] == '"ev"':
                member[1] = json.dumps(rng.choice(EVENTS))
    else:
        members[place][1] = change_value(rng, members[place][1])
    space = rng.choice(['', '', ' '])
    return ('{' + (space + ',').join(f'{key}:{space}{value}' for key, value in members) + '}').encode()


# The nodes of a network: two masters, two slaves and two clocks.
NODES = [{'node': name, 'kind': kind, 'id': f'001122fffe33445{place}', 'port': 1, 'domain': 0, 'first': 65530, 'log': 0}
         for place, (name, kind) in enumerate([('M', 'master'), ('N', 'master'), ('S', 'slave'), ('R', 'slave')])]
NODES += [{'node': name, 'kind': 'clock'} for name in 'TU']


def happen(rng, kind, place, world):
    """An event of this kind at this place, of which most can happen in the world of those before it: the copies that were made, the
    stays in clocks, the nodes of which a message waits for its departure time, and the true time."""
    copies, stays, waits, time = world
    if kind in ('enter', 'arrive', 'hear') and not copies or kind == 'leave' and not stays:
        kind = 'sync'
    node = rng.choice({'sync': 'MN', 'syncone': 'MN', 'follow': 'MN', 'enter': 'TU', 'arrive': 'MNSR', 'stepclock': 'MNSRTU'}.get(kind, 'SR'))
    if kind in ('follow', 'stamped') and node not in waits:
        kind = {'follow': 'sync', 'stamped': 'request'}[kind]
    event = {'ev': kind, 'node': node}
    if kind == 'leave':
        event['node'], event['transit'] = stays.pop(rng.randrange(len(stays)))
    elif kind == 'enter':
        stays.append((node, place))
    if kind in ('enter', 'arrive', 'hear'):
        event['copy'] = rng.choice(copies[-8:])
    elif kind == 'setmaster':
        event['master'] = rng.choice('MN')
    elif kind == 'stepclock':
        # The last two leave the clock without a moment that it could read, now and then.
        event['diff'] = rng.choice(['0', '1', '-1', '65536000', '-65536000'] * 8 + ['-' + '9' * 17, '9' * 32])
    return event


def settle(rng, event, place, world):
    """The event at its time, and the world after it."""
    copies, _, waits, time = world
    kind, node = event['ev'], event['node']
    if kind in ('sync', 'syncone', 'request', 'enter', 'leave', 'arrive'):
        event['at'] = [time // 10**9, time % 10**9, rng.randrange(65536)]
    if kind in ('sync', 'syncone', 'follow', 'request', 'leave') or kind == 'arrive' and node in 'MN':
        copies.append(place)
    if kind in ('sync', 'request'):
        waits.add(node)
    elif kind in ('follow', 'stamped'):
        waits.discard(node)
    return event


def exchange(rng):
    """The events of a whole exchange, in which copies and transits go by their places in it."""
    master, slave = rng.choice('MN'), rng.choice('SR')
    steps = [{'ev': 'setmaster', 'node': slave, 'master': master}]

    def go(kind, sender, receiver):
        steps.append({'ev': kind, 'node': sender})
        for clock in rng.sample('TU', rng.randint(0, 2)):
            steps.append({'ev': 'enter', 'node': clock, 'copy': len(steps) - 1})
            steps.append({'ev': 'leave', 'node': clock, 'transit': len(steps) - 1})
        steps.append({'ev': 'arrive', 'node': receiver, 'copy': len(steps) - 1})
        return len(steps) - 1

    kind = rng.choice(['sync', 'syncone'])
    go(kind, master, slave)
    if kind == 'sync':
        steps.append({'ev': 'follow', 'node': master})
        steps.append({'ev': 'hear', 'node': slave, 'copy': len(steps) - 1})
    answer = go('request', slave, master)
    return [*steps, {'ev': 'stamped', 'node': slave}, {'ev': 'hear', 'node': slave, 'copy': answer}]


def walk(rng):
    """A schedule in which most events can happen, with some whole exchanges among them."""
    events, copies, stays, waits, time = [], [], [], set(), 10**9
    for _ in range(rng.choice([5, 20, 80])):
        steps, places = [None], []
        if rng.random() < 0.1:
            # Now and then another event is among them.
            steps = [step for one in exchange(rng) for step in ([None, one] if rng.random() < 0.2 else [one])]
        for step in steps:
            time += rng.choice([1, 500, 10**9])
            world, place = (copies, stays, waits, time), len(events)
            if step:
                event = step | {key: places[step[key]] for key in ('copy', 'transit') if key in step}
                places.append(place)
            else:
                event = happen(rng, rng.choice(EVENTS), place, world)
            events.append(settle(rng, event, place, world))
    nodes = list(NODES)
    if rng.random() < 0.02:
        # Two nodes of one name, or two ports of one identity.
        nodes.insert(rng.randint(0, 6), rng.choice(nodes[:4]) | rng.choice([{}, {'node': 'Z'}]))
    return [json.dumps(line).encode() for line in nodes + events]


def schedules(rng, files):
    """A schedule, as it is or changed."""
    if rng.random() < 0.5:
        return objects(rng, files)
    return b'\n'.join(walk(rng)) if rng.random() < 0.5 else objects(rng, [b'\n'.join(walk(rng))])


def objects(rng, files):
    """The lines of one file, in another order, some with other keys and values, and perhaps other octets."""
    lines = change_lines(rng, rng.choice(files).splitlines())
    for _ in range(rng.choice([0, 0, 1, 1, 3])):
        if lines:
            place = rng.randrange(len(lines))
            lines[place] = change_object(rng, lines[place])
    if rng.random() < 0.05:
        lines.insert(rng.randint(0, len(lines)), b' ' * rng.choice([4095, 4096, 4097]))
    text = join(rng, lines, 0.1)
    return change_octets(rng, text) if rng.random() < 0.2 else text


def retell(rng, line):
    """A line of a transcript in which one value is another of its kind."""
    line = json.loads(line)
    keys = [key for key in ('at', 'copy', 'hex', 'id', 'master', 'offset2', 'path2', 'reading', 'tags', 'transit') if key in line]
    key = rng.choice(keys or ['node'])
    if key == 'at':
        # The clock read what it was, so much later.
        later = rng.choice([1, 150_000])
        line['at'][0] += later
        line['reading'][0] += later
    elif key == 'reading':
        line[key][2] ^= 1
    elif key == 'hex':
        place = rng.randrange(len(line[key]))
        line[key] = line[key][:place] + rng.choice('0123456789abcdef') + line[key][place + 1:]
    elif key == 'tags':
        line[key][rng.randrange(4)] = rng.randrange(line['n'] + 1)
    elif key in ('offset2', 'path2'):
        line[key] = str(int(line[key]) + rng.choice([-1, 1, 2**16]))
    elif key == 'master':
        line[key] = rng.choice('MN')
    elif key == 'id':
        line[key] = line[key][:-1] + rng.choice('0123')
    elif key in ('copy', 'transit'):
        line[key] = rng.randrange(line['n'])
    return json.dumps(line).encode()


def transcripts(rng, files):
    """A transcript in which one value is another, or one that is changed in any way."""
    if rng.random() < 0.5:
        return objects(rng, files)
    lines = rng.choice(files).splitlines()
    place = rng.randrange(len(lines))
    lines[place] = retell(rng, lines[place])
    return b'\n'.join(lines)


def inputs(seed, maker, files, count):
    """So many inputs, the files as they are first."""
    rng = random.Random(seed)
    yield from files[:count]
    for _ in range(count - len(files)):
        yield maker(rng, files)
