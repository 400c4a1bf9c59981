"""What `ptpx explain` owes for an input, beside what `check` and `replay` answered to it: their verdict, their fault and their status, and of each report the reasons against it."""
import json
import re
from fractions import Fraction

from shown import lines_of
from texts import FAULT, VERDICT

BEGIN = re.compile(r'event ([0-9]+), line ([0-9]+): the report of ([A-Za-z0-9_-]+) is refused, (70[1-8]): .*')
FURTHER = re.compile(r'  and (70[1-8]): .*')
COUNT = re.compile(r'([0-9]+) reports?: ([0-9]+) sound')
AGAINST = re.compile(r'  (70[1-8]) stands against ([0-9]+): .*')
ASIDE = re.compile(r'were octets left aside \(708\), ([0-9]+) of ([0-9]+) reports? would be sound')
# How many have the results by the messages, and how many those by the readings.
RIGHT = re.compile(r'results equal to those by the (?:messages that came to the slave|readings of the clocks): ([0-9]+) of ([0-9]+) reports?')
# In place of that, where a field that is read differs in so many messages.
READ = re.compile(r"octets can't be left aside \(708\): a field that a slave or a master reads differs in [1-9][0-9]* messages?")
TIMES = ['t1', 't2', 't3', 't4']
KEYS = ['brackets', 'by_messages', 'by_readings', 'error', 'event', 'line', 'node', 'octets', 'offset2', 'otherwise', 'path2', 'reasons', *TIMES, 'tags', 'time']
ALONE = [701, 704]
TOGETHER = [702, 703, 705, 707, 706, 708]


def line_of_fault(errors):
    """The line at which a fault stands, 0 where there is none."""
    fault = FAULT.fullmatch(errors)
    return int(fault[2]) if fault else 0


def is_owed(explained, checked, replayed):
    """Whether an end is that of `check`, or where `check` stopped at the first event of a schedule, that of `replay`."""
    status, errors = explained
    if (status, errors) == (checked[0], checked[2]):
        return True
    if (status, errors) != (replayed[0], replayed[2]) or b' 806 ' not in checked[2]:
        return False
    stopped = line_of_fault(replayed[2])
    return not stopped or stopped >= line_of_fault(checked[2])


def is_later(explained, checked):
    """Whether a line that can't be read ended the look at lines after the first fault, which is that of `check` or comes after it."""
    return explained[0] == 3 and b' 803 ' in explained[1] and 0 < line_of_fault(checked[2]) < line_of_fault(explained[1])


def wrong_errors(judged):
    """What is wrong with the errors of a judgement, in words: nanoseconds of twice 2^-16 ns, against each of the two results."""
    if (judged['error'] is None) != (judged['by_readings'] is None):
        return [f'error {judged["error"]} with results by the readings {judged["by_readings"]}']
    if judged['error'] is None:
        return []
    owed = {key: None if judged[key] is None else
            {name: (int(judged[f'{name}2']) - int(judged[key][f'{name}2'])) / Fraction(131072) for name in ('offset', 'path')}
            for key in ('by_messages', 'by_readings')}
    told = {key: errors and {name: Fraction(text) for name, text in errors.items()} for key, errors in judged['error'].items()}
    return [] if told == owed else [f'error {judged["error"]}']


def wrong_exchange(judged):
    """What is wrong with the brackets and the moments of a judgement, and with which message tells otherwise, in words."""
    results = judged['by_readings']
    if len({results is None, judged['brackets'] is None, *(judged[key] is None for key in TIMES)}) > 1:
        yield f'brackets {judged["brackets"]} and moments {[judged[key] for key in TIMES]} with results by the readings {results}'
    elif results:
        offset, path = (Fraction(int(results[key]), 131072) for key in ('offset2', 'path2'))
        if {key: Fraction(text) for key, text in judged['brackets'].items()} != {'a': path + offset, 'b': path - offset}:
            yield f'brackets {judged["brackets"]} with results by the readings {results}'
    if (judged['otherwise'] is None) == (judged['octets'] == 'told'):
        yield f'octets {judged["octets"]}, and the message of {judged["otherwise"]} tells otherwise'


def judgements(output):
    """The judgements that were written, and what is wrong with them, in words."""
    told, wrong = [], []
    for line in lines_of(output):
        judged = json.loads(line)
        told.append(judged)
        reasons = judged['reasons']
        if list(judged) != KEYS:
            wrong.append(f'keys {list(judged)}')
        if reasons not in [[why] for why in ALONE] and reasons != [why for why in TOGETHER if why in reasons]:
            wrong.append(f'reasons {reasons}')
        if (judged['by_readings'] is None) != (reasons in [[why] for why in ALONE]):
            wrong.append(f'results by the readings {judged["by_readings"]} with reasons {reasons}')
        for key in 'by_messages', 'time':
            # a message that can't be read is told as 708, beside which results by the messages may be missing
            if judged[key] is None and judged['by_readings'] is not None and (key == 'time' or 708 not in reasons):
                wrong.append(f'no {key} with reasons {reasons}')
            if judged[key] is not None and judged['by_readings'] is None:
                wrong.append(f'{key} {judged[key]} with reasons {reasons}')
        if (judged['octets'] in ('told', 'other')) != (708 in reasons) or judged['octets'] not in (None, 'told', 'other'):
            wrong.append(f'octets {judged["octets"]} with reasons {reasons}')
        if judged['octets'] == 'other' and 702 not in reasons and 707 not in reasons and judged['by_messages'] != judged['by_readings']:
            wrong.append(f'other octets, and results by the messages {judged["by_messages"]}')
        wrong += [*wrong_errors(judged), *wrong_exchange(judged)]
        same = judged['by_readings'] == {key: judged[key] for key in ('offset2', 'path2')}
        if judged['by_readings'] and same == (706 in reasons):
            wrong.append(f'results by the readings {judged["by_readings"]} with reasons {reasons}')
    return told, wrong


def stories(text):
    """The reports that a text tells, each with its event, line, slave and reasons, and all these reasons, each with whether what it met stands below it."""
    told, met = [], []
    behind = False
    for line in text.splitlines():
        begin, further = BEGIN.fullmatch(line), FURTHER.fullmatch(line)
        # behind the two results lines say which message tells otherwise
        behind = not begin and (behind or line.startswith('  offset  reported '))
        if begin:
            told.append((int(begin[1]), int(begin[2]), begin[3], []))
        reason = begin[4] if begin else further[1] if further else None
        if reason:
            told[-1][3].append(int(reason))
            met.append((int(reason), False))
        elif met and not behind and line.startswith('    ') and not line.startswith('     '):
            met[-1] = (met[-1][0], True)
    return told, met


def counts(text):
    """How many reports a text says there are, how many sound, how many each reason stands against, how many were sound without 708, or that a field that is read differs, and how many are right."""
    against = {int(found[1]): int(found[2]) for found in map(AGAINST.fullmatch, text.splitlines()) if found}
    first = [tuple(map(int, found.groups())) for found in map(COUNT.fullmatch, text.splitlines()) if found]
    aside = [tuple(map(int, found.groups())) for found in map(ASIDE.fullmatch, text.splitlines()) if found]
    read = [line for line in text.splitlines() if READ.fullmatch(line)]
    right = [tuple(map(int, found.groups())) for found in map(RIGHT.fullmatch, text.splitlines()) if found]
    return first, against, aside + [None] * len(read), right


def counts_owed(found, is_read, by_messages):
    """The same of these judgements, of which there is one at least, of messages in which a field that is read differs or not, and of so many reports by the messages."""
    reasons = [judged['reasons'] for judged in found]
    sound = reasons.count([])
    against = {why: count for why in [*ALONE, *TOGETHER] if (count := sum(why in each for each in reasons))}
    aside = [None if is_read else (sound + reasons.count([708]), len(found))] if 708 in against else []
    by_readings = sum(judged['by_readings'] == {key: judged[key] for key in ('offset2', 'path2')} for judged in found)
    right = [(by_messages, len(found)), (by_readings, len(found))] if sound < len(found) else []
    return [(len(found), sound)], against, aside, right


def mistold(found, text, is_first):
    """What is wrong with the text of these judgements, or of the first alone that is refused, in words."""
    wanted = [(judged['event'], judged['line'], judged['node'], judged['reasons']) for judged in found if judged['reasons']]
    told, met = stories(text)
    if told != (wanted[:1] if is_first else wanted):
        yield f'{told} is told, and {wanted} is judged'
    # what 706 met are the two results, below the journeys
    if bare := [why for why, is_met in met if why != 706 and not is_met]:
        yield f'nothing stands below {bare}'


def misexplained(text, checked, replayed, start):
    """What is wrong with the answers of `explain` to an input, in words."""
    status, told, errors = start('explain', text)
    as_json = start('explain', text, '--json')
    first = start('explain', text, '--json', '--first')
    for name, answer in [('explain', (status, errors)), ('explain --json', as_json[::2]), ('explain --json --first', first[::2])]:
        if not is_owed(answer, checked, replayed) and not (name == 'explain' and is_later(answer, checked)):
            yield f'{name} ends in {answer}, check in {checked[0]} {checked[2]!r}, replay in {replayed[0]} {replayed[2]!r}'
    found, wrong = judgements(as_json[1])
    yield from wrong
    refused = [line for line in lines_of(as_json[1]) if b',"reasons":[],' not in line]
    if lines_of(first[1]) != refused[:1]:
        yield f'with --first {first[1]!r} is told'
    yield from mistold(found, told.decode(), False)
    if refused:
        yield from mistold(found, start('explain', text, '--first')[1].decode(), True)
    if checked[2] or status not in (0, 1):
        return
    counted = counts(told.decode())
    by_messages = counted[3][0][0] if counted[3] else 0
    owed = counts_owed(found, None in counted[2], by_messages)
    if not sum(not judged['reasons'] for judged in found) <= by_messages <= len(found) and counted[3]:
        yield f'{by_messages} of {len(found)} reports have the results by the messages'
    if found and counted != owed:
        yield f'{counted} is counted, and {owed} is judged'
    if not told.endswith(b'verdict: ' + checked[1]):
        yield f'the story ends in {told[-80:]!r}, and the verdict is {checked[1]!r}'
    verdict = VERDICT.fullmatch(checked[1])
    worst = [(judged['event'], judged['reasons'][0]) for judged in found if judged['reasons']]
    if worst[:1] != ([(int(verdict[2]), int(verdict[3]))] if verdict and verdict[2] else []):
        yield f'{worst[:1]} is judged first, and the verdict is {checked[1]!r}'
