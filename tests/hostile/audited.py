"""Puts results of a slave among recordings and in front of captures, for `audit`, and says what is wrong with an answer to such an input.
What the results are isn't judged here: tests/monitor holds that to judge.py."""
import json
import random
import re

import inputs
import recorded
import recordings
import signals
from program import EXAMPLES
from shown import lines_of

CAPTURE = (EXAMPLES / 'slave.pcap').read_bytes()
RUNS = [[it.encode() for it in recorded.lines(name)] for name in (*recorded.NAMES, 'restart')]
# Numbers at the edges of what they may be, or almost numbers.
NUMBERS = ['0', '-0', '1', '-1.5', '0.0000000000000001', '9' * 24, f'-{"9" * 24}.{"9" * 16}', '18522.5', '1000', 0, -12, 350.5]
NO_NUMBERS = ['9' * 25, '01', '1.', '.5', '+1', '', 'x', '1e3', '0.00000000000000001', None, [], {}, True, 1e300]
FORMS = [[], [], [], ['--csv'], ['--offset-only'], ['--csv', '--offset-only'], ['--tolerance', '0'], ['--tolerance=281474976710655.999999999'],
         ['--readings', 'own'], ['--readings', 'capture'], ['--domain', '0'], ['--tolerance', '0.5', '--csv']]
HEAD = b'beyond_ns,line,offset_ns,offset_error_ns,path_ns,path_error_ns,path_is,sequence,sum_error_ns,time,verdict'
VERDICTS = ('exact', 'within', 'filtered', 'older', 'wrong', 'unjudged')
FAULT = re.compile(rb'ptpx: fault ([0-9]+)')


def result(rng, odd):
    """A result, few of them of another form than they should be."""
    said = {name: rng.choice([*NUMBERS, str(rng.randint(-5000, 20000)), str(rng.randint(0, 9000))]) for name in ('offset', 'path')}
    if rng.random() < 0.3:
        said[rng.choice(['sequence', 'line'])] = rng.choice([0, 1, 65535, 2**64 - 1 if rng.random() < odd else 7, rng.randrange(300)])
    if rng.random() < odd:
        said[rng.choice(['offset', 'path', 'sequence', 'line'])] = rng.choice(NO_NUMBERS)
    text = json.dumps(said).encode()
    return inputs.change_octets(rng, text).replace(b'\n', b'') if rng.random() < odd else text


def recordings_with_results(rng, files):
    """A recording, or a run with its results, with results among its lines, or a capture, of which something may be bent, with results in front."""
    odd = rng.choice([0, 0, 0, 0.02, 0.2])
    if rng.random() < 0.1:
        front = [result(rng, odd) + b'\n' for _ in range(rng.choice([1, 3, 30]))]
        return b''.join(front) + (inputs.change_octets(rng, CAPTURE) if rng.random() < 0.5 else CAPTURE)
    what = rng.random()
    if what < 0.2:
        lines = inputs.change_lines(rng, rng.choice(RUNS))
    else:
        lines = lines_of(signals.recordings_of_slaves(rng, files) if what < 0.8 else recordings.recordings(rng, files))
    share = rng.choice([0, 0.02, 0.3, 1])
    found = [result(rng, odd) for _ in range(rng.choice([0, 0, 1, 20]))]
    for it in lines:
        found += [it] + ([result(rng, odd)] * rng.choice([1, 1, 1, 3]) if rng.random() < share else [])
    return inputs.join(rng, found, 0.05)


def arguments(text):
    """The arguments for an input, picked by its octets."""
    return random.Random(text + b'audit').choice(FORMS)


def verdicts_of(output, is_table):
    """The verdicts of an answer; where a line is none, this raises ValueError."""
    rows = output.decode().splitlines()
    if not is_table:
        return [json.loads(it)['verdict'] for it in rows]
    if rows and rows[0].encode() != HEAD or any(it.count(',') != HEAD.count(b',') for it in rows):
        raise ValueError(f'a table of {rows[:3]}')
    return [it.rsplit(',', 1)[1] for it in rows[1:]]


def misaudited(text, status, output, errors):
    """What is wrong with an answer, in words."""
    if status not in (0, 1, 3):
        yield f'status {status}'
    if output and not output.endswith(b'\n'):
        yield 'the output ends in mid-line'
    verdicts = verdicts_of(output, '--csv' in arguments(text))
    if set(verdicts) - set(VERDICTS):
        yield f'verdicts {set(verdicts)}'
    if status != 3 and status != ('wrong' in verdicts):
        yield f'status {status} with {verdicts.count("wrong")} wrong results'
    results = sum(it.startswith(b'{') for it in text.split(b'\n'))
    if len(verdicts) > results or status != 3 and CAPTURE[:4] not in text and len(verdicts) != results:
        yield f'{len(verdicts)} of {results} results are answered'
    if errors and not errors.endswith(b'\n') or any(not it.startswith(b'ptpx: ') for it in errors.splitlines()):
        yield f'standard error has {errors[:400]!r}'
    if len(FAULT.findall(errors)) != (status == 3):
        yield f'status {status}, and standard error has {errors[-400:]!r}'


def names_of(text, status, output, errors):
    """What an answer is called that is as it should be, and what is seen in it."""
    fault = FAULT.search(errors)
    return [f'fault {fault[1].decode()}' if fault else f'status {status}', *sorted(set(verdicts_of(output, '--csv' in arguments(text))))]
