"""Lines that are almost spelled as `ptpx` writes them, or in other ways, given to `replay` and `check`: each is read as spelled.py says,
as it is behind a blank, with an escape, and with a key twice, where `ptpx` reads its value."""
import functools
import itertools
import json

import inputs
import spelled
import told
from shown import lines_of
from texts import FAULT, VERDICT

# Of a hundred lines so many are another line or none, the others the same line, in another spelling or as it was.
BENT = 8


def own(lines):
    """The lines in `ptpx`'s own spelling."""
    return [told.compact(json.loads(line)).encode() for line in lines]


def altered(rng, lines, bends=True):
    """The lines in other spellings, some as they were, and some that are almost the same."""
    kept = rng.choice([0, 0.5, 0.9])

    def other(line):
        if bends and rng.randrange(100) < BENT:
            return spelled.bent(rng, line)
        return line if rng.random() < kept else spelled.respelled(rng, line)
    return [other(line) for line in lines]


def text_of(lines):
    return b''.join(line + b'\n' for line in lines)


def with_key_twice(line):
    """The same line, where it is an object, with a key twice; what its value is at the second place counts."""
    try:
        value = spelled.value_of(line)
    except ValueError:
        return line
    if not isinstance(value, dict) or not value:
        return line
    return line.replace(b'{', b'{%s:0,' % json.dumps(next(iter(value))).encode(), 1)


def read_otherwise(given, subcommand, lines):
    """What is wrong where the lines are read as they stand, beside the answers where each stands behind a blank or has an escape, and where
    their values are read."""
    answer = given(subcommand, text_of(lines))
    escaped = [line.replace(b'"node"', b'"\\u006eode"', 1) for line in lines]
    for words, others in (('behind blanks', [b' ' + line for line in lines]), ('with an escape', escaped),
                          ('with a key twice', map(with_key_twice, lines))):
        other = given(subcommand, text_of(others))
        if answer != other:
            yield f'{subcommand} answers {answer}, and {words} {other}'


def first_fault(lines, recorded):
    """The place and the number of the first line that isn't read, or None."""
    events = 0
    for place, line in enumerate(lines):
        fault = spelled.fault_of(line, recorded)
        if not fault:
            value = spelled.value_of(line)
            if 'ev' not in value and events or recorded and 'ev' in value and value['n'] != events:
                fault = '806'
            events += 'ev' in value
        if fault:
            return place, fault
    return None


def start(given, subcommand, lines):
    """The status, the lines that were written, the fault with its reason, and its place."""
    status, output, errors = given(subcommand, text_of(lines))
    fault = FAULT.fullmatch(errors)
    if fault:
        return status, lines_of(output), fault[1][:3].decode(), int(fault[2]) - 1
    if errors or status == 3:
        raise ValueError(errors)
    return status, lines_of(output), None, None


def misanswered(given, subcommand, lines, originals, mistaken):
    """What is wrong with the answers to lines, in words: with the fault, and what `mistaken` says of the lines, of the answers before the
    fault, and of its place or None. A line that isn't read is mended, until all are."""
    for _ in range(len(lines) + 1):
        _, answers, number, place = start(given, subcommand, lines)
        fault = first_fault(lines, subcommand == 'check')
        # 807 is another line than the one that was bent, which makes an event that can't happen, or a network that isn't one.
        impossible = number == '807'
        if (fault and fault[0] < place) if impossible else (fault or (None, None)) != (place, number):
            yield f'fault {number} at line {place and place + 1} in place of {fault}'
            return
        yield from mistaken(lines, answers, place)
        if impossible or not fault:
            return
        lines = [*lines[:place], originals[place], *lines[place + 1:]]


def misreplayed(lines, answers, place):
    """What is wrong with the lines that `replay` writes of a schedule."""
    yield from told.mistold(lines, answers[:place])
    if place is None and len(answers) != len(lines):
        yield f'{len(answers)} answers to {len(lines)} lines'


def mischecked(bends, lines, answers, place):
    """What is wrong with the verdict of `check` on a transcript, which accepts lines that are the same in other spellings."""
    if place is not None:
        return
    reports = [line['n'] for _, line in told.reports(lines)]
    verdict = VERDICT.fullmatch(text_of(answers))
    if not verdict or verdict[1] and int(verdict[1]) != len(reports) or verdict[2] and int(verdict[2]) not in reports:
        yield f'verdict {answers}'
    elif not bends and not verdict[1]:
        yield f'verdict {answers} on the same lines in other spellings'


def changed(lines, originals):
    return sum(line != original for line, original in zip(lines, originals))


def misread(given, rng):
    """How many lines of one schedule and its transcript were changed, and what is wrong with the answers."""
    def wrongs(subcommand, lines, originals, mistaken):
        every = itertools.chain(read_otherwise(given, subcommand, lines), misanswered(given, subcommand, lines, originals, mistaken))
        return list(itertools.islice(every, 3))

    schedule = own(inputs.walk(rng))
    _, answers, number, _ = start(given, 'replay', schedule)
    if number:
        schedule = schedule[:len(answers)]
    lines = altered(rng, schedule)
    wrong = wrongs('replay', lines, schedule, misreplayed)
    count = changed(lines, schedule)
    if not number and not wrong:
        bends = rng.random() < 0.7
        lines = altered(rng, answers, bends)
        wrong = wrongs('check', lines, answers, functools.partial(mischecked, bends))
        count += changed(lines, answers)
    return count, wrong, lines
