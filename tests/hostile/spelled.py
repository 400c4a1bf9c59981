"""What a line is, read apart from `ptpx`: JSON as serde_json takes it, and then a node, an event, or an event with what was recorded of
it. And lines that are spelled in other ways than `ptpx` writes them, or almost so."""
import json
import math
import re

import inputs

NAME = re.compile('[A-Za-z0-9_-]{1,16}')
CLOCK = re.compile('[0-9A-Fa-f]{16}')
OCTETS = re.compile('(?:[0-9A-Fa-f]{2}){0,54}')
NUMBER = re.compile('0|-?[1-9][0-9]*')

# The keys of each kind of event, beside `ev` and `node`, and those of what came of it, beside `out`.
KEYS = {'sync': ['at'], 'syncone': ['at'], 'follow': [], 'enter': ['at', 'copy'], 'leave': ['at', 'transit'], 'arrive': ['at', 'copy'],
        'hear': ['copy'], 'request': ['at'], 'stamped': [], 'tick': [], 'setmaster': ['master'], 'stepclock': ['diff']}
TOLD = {'done': [], 'made': ['hex'], 'entered': [], 'held': [], 'completed': [], 'report': ['offset2', 'path2', 'tags'],
        'ignored': ['code'], 'refused': ['code']}
PORT = ['domain', 'first', 'id', 'kind', 'log', 'node', 'port']


def whole(text):
    # `-0` is no whole number.
    return 0.5 if text == '-0' else int(text)


def real(text):
    if math.isinf(float(text)):
        raise ValueError
    return 0.5


def refuse(_):
    raise ValueError


def texts(value):
    """All texts of a value, its keys among them."""
    if isinstance(value, str):
        yield value
    elif isinstance(value, list):
        for item in value:
            yield from texts(item)
    elif isinstance(value, dict):
        for key, item in value.items():
            yield key
            yield from texts(item)


def value_of(line):
    """The JSON value that a line is, or ValueError."""
    value = json.loads(line.decode('utf-8'), parse_int=whole, parse_float=real, parse_constant=refuse)
    if any('\ud800' <= letter <= '\udfff' for text in texts(value) for letter in text):
        raise ValueError
    return value


def is_whole(value, below=2**64, least=0):
    return type(value) is int and least <= value < below


def is_text(value, form):
    return isinstance(value, str) and bool(form.fullmatch(value))


def is_list(value, *tests):
    return isinstance(value, list) and len(value) == len(tests) and all(test(item) for test, item in zip(tests, value))


def is_moment(value):
    return is_list(value, lambda s: is_whole(s, 2**48), lambda n: is_whole(n, 10**9), lambda f: is_whole(f, 65536))


def is_number(value):
    return is_text(value, NUMBER) and len(value) <= 32


def is_tags(value):
    return is_list(value, is_whole, lambda tag: tag is None or is_whole(tag), is_whole, is_whole)


TESTS = {'at': is_moment, 'reading': is_moment, 'copy': is_whole, 'transit': is_whole, 'n': is_whole,
         'node': lambda v: is_text(v, NAME), 'master': lambda v: is_text(v, NAME), 'diff': is_number, 'offset2': is_number, 'path2': is_number,
         'tags': is_tags, 'code': lambda v: is_whole(v, 65536), 'hex': lambda v: is_text(v, OCTETS), 'id': lambda v: is_text(v, CLOCK),
         'port': lambda v: is_whole(v, 65536), 'first': lambda v: is_whole(v, 65536), 'domain': lambda v: is_whole(v, 256),
         'log': lambda v: is_whole(v, 128, -128), 'ev': lambda v: True, 'out': lambda v: True, 'kind': lambda v: True}


def wanted_keys(value, recorded):
    """The keys that a value must have, or None where it is no line."""
    if 'ev' not in value:
        kind = value.get('kind')
        return {'master': PORT, 'slave': PORT, 'clock': ['kind', 'node']}.get(kind) if isinstance(kind, str) else None
    kind, out = value['ev'], value.get('out')
    if not isinstance(kind, str) or kind not in KEYS:
        return None
    keys = ['ev', 'node', *KEYS[kind]]
    if recorded:
        if not isinstance(out, str) or out not in TOLD:
            return None
        keys += ['n', 'out', *(['reading'] if 'at' in KEYS[kind] else []), *TOLD[out]]
    return keys


def fault_of(line, recorded):
    """The number of a line's fault, 805 or 806, or None where it is a line of a schedule, or of a transcript."""
    try:
        value = value_of(line)
    except ValueError:
        return '805'
    if not isinstance(value, dict):
        return '806'
    keys = wanted_keys(value, recorded)
    if keys is None or sorted(keys) != sorted(value) or not all(TESTS[key](value[key]) for key in keys):
        return '806'
    return None


# ---- other spellings of one line


def escaped(rng, text):
    """A text of JSON, with some of its octets as escapes."""
    often = rng.choice([0, 0, 0.2, 1])
    return '"%s"' % ''.join(rng.choice(['\\u%04x', '\\u%04X']) % ord(letter) if rng.random() < often else letter for letter in text)


def spelled(rng, value):
    """A value as JSON, in one of its spellings."""
    blank = rng.choice(['', '', ' ', ' ', '  ', '\t'])
    if isinstance(value, str):
        return escaped(rng, value)
    if isinstance(value, list):
        return '[' + ('%s,%s' % (blank, blank)).join(spelled(rng, item) for item in value) + ']'
    if isinstance(value, dict):
        members = [(escaped(rng, key), spelled(rng, item)) for key, item in value.items()]
        what = rng.randrange(4)
        if what == 0:
            rng.shuffle(members)
        elif what == 1:
            # Of a key that comes twice the last value counts.
            key = rng.choice(list(value))
            members.insert(0, (escaped(rng, key), rng.choice(['null', '7', '"x"', '[1,0,0]', members[-1][1]])))
        return '{' + blank + (blank + ',' + blank).join(key + blank + ':' + blank + item for key, item in members) + blank + '}'
    return json.dumps(value)


def respelled(rng, line):
    """The same line, spelled in another way."""
    value = json.loads(line)
    for key in ('id', 'hex'):
        if key in value and rng.random() < 0.3:
            value[key] = value[key].upper()
    return rng.choice([json.dumps(value), spelled(rng, value), spelled(rng, value)]).encode()


# Digits, signs and letters that make another line, or none, of one that is in `ptpx`'s own spelling.
BENDS = [(rb'(?<=[:\[,])([0-9])', rb'0\1'), (rb'(?<=[0-9])(?=[,}\]])', b'.0'), (rb'(?<=[:\[,])(?=[0-9])', b'-'), (rb'(?<=[:\[,])[0-9]+', b'18446744073709551616'),
         (rb'(?<=[:\[,])[0-9]+', b'18446744073709551615'), (rb'(?<=[:\[,])[0-9]+', b'-0'), (rb'(?<=")[0-9]+(?=")', b'-0'), (rb'"(?=[0-9])', b'"+'),
         (rb'"(?=[1-9])', b'"0'), (rb'"(?=[1-9])', b'"-'), (rb'[a-f](?=[0-9a-f])', b'F'), (rb'":"', b'": "'), (rb'":', b'" :'), (rb',', b', '), (rb',', b',,'), (rb'}', b',}'),
         (rb'}$', b'} '), (rb'^', b' '), (rb'}$', b'}}'), (rb'}$', b''), (rb'"node":"(.)', rb'"node":"\\u004d'), (rb'"node":"[A-Z]"', b'"node":"xxxxxxxxxxxxxxxx"'),
         (rb'"node":"[A-Z]"', b'"node":"xxxxxxxxxxxxxxxxx"'), (rb'"node":"[A-Z]"', b'"node":""'), (rb'"ev":"[a-z]+"', b'"ev":"sync"'), (rb'"ev":"[a-z]+"', b'"ev":"Sync"'),
         (rb'"out":"[a-z]+"', b'"out":"done"'), (rb'"out":"[a-z]+"', b'"out":"made"'), (rb'"([a-z]+)":', rb'"\1":null,"\1":'), (rb'"([a-z]+)":(\d+)', rb'"\1":\2,"\1":\2'),
         (rb'"([a-z]+)":(\d+)', rb'"\1":\2,"\1":7'), (rb'\d+\]', b'65536]'), (rb',\d+,', b',1000000000,'), (rb'\[\d+,', b'[281474976710656,'), (rb'null', b'0'), (rb'null', b'nul'),
         (rb'}$', b',"zz":0}'), (rb'^{', b'{"a":0,')]


def bent(rng, line):
    """A line that is almost this one: one octet changed, cut, a key twice, another number."""
    if rng.random() < 0.4:
        form, other = rng.choice(BENDS)
        places = list(re.finditer(form, line))
        if places:
            place = rng.choice(places)
            return line[:place.start()] + place.expand(other) + line[place.end():]
    octets = bytearray(line)
    rng.choice([inputs.flip, inputs.mark, inputs.mark, inputs.end, inputs.swap])(rng, octets)
    if rng.random() < 0.3:
        place = rng.randint(0, len(octets))
        octets[place:place] = octets[place:place + rng.choice([1, 1, 2, 9])]
    # An LF makes two lines of one, a CR at the end is none of the line's octets.
    return bytes(octet if octet not in b'\r\n' else 32 for octet in octets) or b' '
