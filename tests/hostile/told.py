"""What `replay` owes of the lines that it answered: of each all but what came of an event, and which of these there can be."""
import json

# What can come of an event at a node, and the keys that this adds.
OUTS = {'sync': ['made'], 'syncone': ['made'], 'follow': ['made'], 'request': ['made'], 'enter': ['entered'], 'leave': ['made', 'refused'],
        'stamped': ['done', 'refused'], 'tick': ['done'], 'setmaster': ['done'], 'stepclock': ['done']}
HEARD = ['held', 'completed', 'report', 'ignored']
ADDED = {'made': ['hex'], 'ignored': ['code'], 'refused': ['code'], 'report': ['offset2', 'path2', 'tags']}


def compact(value):
    """The text of a line: no blanks, and keys in order."""
    return json.dumps(value, sort_keys=True, separators=(',', ':'))


def shifted(moment, units):
    """The moment so many units of 2^-16 ns later."""
    seconds, nanoseconds, fraction = moment
    nanoseconds, fraction = divmod((seconds * 10**9 + nanoseconds) * 2**16 + fraction + units, 2**16)
    return [*divmod(nanoseconds, 10**9), fraction]


def is_event(line):
    return 'ev' in json.loads(line)


def reports(lines):
    """The places of the lines that report, and these lines."""
    told = [(place, json.loads(line)) for place, line in enumerate(lines)]
    return [(place, line) for place, line in told if line.get('out') == 'report']


def mistold(lines, answers):
    """What is wrong with the answers to the first of these lines, in words."""
    kinds, ahead, number = {}, {}, 0
    for line, answer in zip(lines, answers):
        wanted, told = json.loads(line), json.loads(answer)
        if 'ev' in wanted:
            event, node = wanted['ev'], wanted['node']
            wanted['n'] = number
            number += 1
            if 'at' in wanted:
                wanted['reading'] = shifted(wanted['at'], ahead.get(node, 0))
            if event == 'stepclock':
                ahead[node] = int(wanted['diff'])
            out = told.get('out')
            if out not in OUTS.get(event, ['made', 'refused'] if kinds[node] == 'master' else HEARD):
                yield f'out is {out!r} of an event {event!r}'
            wanted |= {key: told.get(key) for key in ['out', *ADDED.get(out, [])]}
        else:
            kinds[wanted['node']] = wanted['kind']
            if 'id' in wanted:
                wanted['id'] = wanted['id'].lower()
        if compact(wanted).encode() != answer:
            yield f'{answer!r} answers {line!r}'
