"""Holds the line that `ptpx measure --sum` writes to the reports that it writes without `--sum`, and to what standard error says beside them, of captures
and lines at hand and of those that beware.py bends. The numbers of reports are computed here, with fractions: means, deviations, medians, percentiles,
the least and the greatest; what came, what is missing and what speaks against the numbers is what standard error says, which other tests hold."""
import json
import re
import subprocess
from fractions import Fraction

import beware
import cases
import exchanging
import recorded
import texts
import worth
from asking import EXAMPLE, fail
from program import EXAMPLES, TOP, ask, ask_to_full_device

# Of how many values percentiles and medians are, at the most.
RECENT = 4096

# How lines `beware` begin, by the name that stands for each.
NAMES = {
    'requests_at_once': 'all [0-9]+ requests', 'syncs_at_once': 'all [0-9]+ Syncs', 'paths_below': '.* path delays are below 0',
    'paths_zero': '.* path delays are 0 exactly', 'whole_seconds': 'all offsets are next to', 'offset_steps': 'the offset steps',
    'offset_runs_away': 'the offset runs away', 'offset_is_set_back': '.* offsets are (above|below) the one before', 'path_steps': 'the path delay steps', 'syncs_end': 'the Syncs of the master end',
    'reports_end': 'no report is of the last', 'repeated': 'messages with a number that came before', 'other_masters': 'messages of other masters',
    'other_slaves': 'Delay_Reqs of other slaves', 'other_domains': 'messages of other domains', 'out_of_order': 'times that are before',
    'old_delay': 'offsets that rest on', 'missing_syncs': '.* Syncs are missing', 'missing_follow_ups': '.* two-step Syncs have no',
    'missing_requests': '.* Delay_Reqs are missing', 'missing_responses': '.* Delay_Reqs have no', 'corrected_requests': 'Delay_Reqs that have a correction',
    'master_anew': 'the master began', 'slave_anew': 'the slave began', 'offset_apart': 'the offset at', 'cut_short': 'datagrams that are cut short',
    'whole_microseconds': 'all times are of whole microseconds'}


def units(text):
    """Nanoseconds with all decimals, in 2^-17 ns."""
    return int(Fraction(text) * worth.NANOSECOND2)


def ends(values):
    """The least and the greatest of values in 2^-17 ns, each with its line."""
    if not values:
        return dict.fromkeys(('greatest', 'greatest_line', 'least', 'least_line'))
    greatest, least = max(values, key=lambda it: it[0]), min(values, key=lambda it: it[0])
    return {'greatest': worth.nanoseconds(greatest[0]), 'greatest_line': greatest[1], 'least': worth.nanoseconds(least[0]), 'least_line': least[1]}


def ranked(numbers, per_hundred):
    """The least of the last numbers that so many of a hundred of them don't exceed."""
    recent = sorted(numbers[-RECENT:])
    return next(it for place, it in enumerate(recent, 1) if 100 * place >= per_hundred * len(recent))


def middle(numbers):
    """The mean of the two in the middle of the last numbers."""
    recent = sorted(numbers[-RECENT:])
    return Fraction(recent[(len(recent) - 1) // 2] + recent[len(recent) // 2], 2)


def rounded(value):
    return texts.thousandths(Fraction(value) / worth.NANOSECOND2)


def measured(values):
    """What is owed of offsets or path delays."""
    numbers = [it[0] for it in values]
    size = worth.deviation(numbers)
    return {'count': len(numbers), 'deviation': None if size is None else rounded(size), **ends(values),
            'mean': rounded(Fraction(sum(numbers), len(numbers))) if numbers else None, 'median': rounded(middle(numbers)) if numbers else None,
            **{f'percentile_{it}': worth.nanoseconds(ranked(numbers, it)) if numbers else None for it in (95, 99)}}


def by_reports(reports):
    """What is owed of the reports in full."""
    those = {by: [it for it in reports if it['by'].removeprefix('own ') == by] for by in ('sync', 'response')}
    of = lambda by, name: [(units(it[name]), it['line']) for it in those[by]]
    return {'reports': len(reports), 'offset': measured(of('sync', 'offset')), 'path': measured(of('response', 'path')),
            'age': ends(of('sync', 't2_to_t3')),
            'corrections': {'sync': ends(of('sync', 'sync_correction')), 'response': ends(of('response', 'delay_correction'))}}


def milliseconds(text):
    """Nanoseconds as standard error has them, without what is finer than a microsecond."""
    whole = int(Fraction(text))
    return f'{"-" * (Fraction(text) < 0 and abs(whole) >= 1000)}{abs(whole) // 10**6}.{abs(whole) // 1000 % 1000:03}'


def interval_sentence(names, interval):
    """What standard error says of the time from one message to the next."""
    if interval['mean'] is None:
        return
    deviation = interval['deviation'] and f', standard deviation {milliseconds(interval["deviation"])} ms'
    log = interval['log']
    told = '' if log is None or not -7 <= log <= 6 else f'; logMessageInterval tells {milliseconds(str(int(10**9 * Fraction(2)**log // 1000 * 1000)))} ms'
    least, greatest = (f'{name} {milliseconds(interval[name])} ms at UNIT {interval[name + "_line"]}' for name in ('least', 'greatest'))
    yield f'from one of the {names} to the next: mean {milliseconds(interval["mean"])} ms{deviation or ""}, {least}, {greatest}{told}'


def announce_sentences(announce):
    """What standard error says of the Announces of the master, of which some came."""
    validity, timescale = '' if announce['utc_offset_valid'] else 'not ', 'PTP' if announce['ptp_timescale'] else 'ARB'
    yield (f'Announces: {announce["count"]}; grandmaster {announce["grandmaster"]}, clockClass {announce["clock_class"]}, '
           f'stepsRemoved {announce["steps_removed"]}, currentUtcOffset {announce["utc_offset"]} s ({validity}valid), timescale {timescale}, '
           f'from UNIT {announce["line"]} on')
    if announce['changes']:
        times = 'once, at' if announce['changes'] == 1 else f'{announce["changes"]} times, first at'
        yield f'what Announces tell changed {times} '


def sentences(line):
    """What standard error says beside, of what the line says."""
    if line['announce'] is not None:
        yield from announce_sentences(line['announce'])
    syncs, follow_ups, requests, responses = (line[it] for it in ('syncs', 'follow_ups', 'delay_reqs', 'delay_resps'))
    if syncs['count']:
        yield (f'Syncs: {syncs["count"]}, {syncs["missing"]} missing; of these two-step: {syncs["two_step"]}, '
               f'Follow_Ups: {follow_ups["count"]}, {follow_ups["missing"]} missing')
        yield from interval_sentence('Syncs', syncs['interval'])
    if requests['count']:
        yield f'Delay_Reqs: {requests["count"]}, {requests["missing"]} missing; Delay_Resps: {responses["count"]}, {responses["missing"]} missing'
        yield from interval_sentence('Delay_Reqs', requests['interval'])
    for name in 'domain', 'master', 'slave':
        if line[name] is not None:
            yield f'{name} {line[name]}, '
    if line['places'] and line['place'] is not None:
        yield f'measured at {line["place"]}'
        yield from (f'{texts.counted(it["datagrams"], "datagram")} at {it["name"]}, which isn\'t measured' for it in line['places'] if it['name'] is not None)
    others = line['others']
    for key, words in ('masters', 'messages of other masters of the domain: '), ('slaves', 'Delay_Reqs of other slaves of the domain: '):
        named = [f'{it["messages"]} of {it["port"] or "further ones"}' for it in others[key]]
        if named:
            yield f'beware: {words}{", ".join(named)}; '
    if others['domains']:
        named = {f'domain {it["domain"]}': it['messages'] for it in others['domains']}
        yield f'beware: messages of other domains: {texts.listed(named)}; '


def try_one(name, octets, options, seconds=None):
    """Answers how many reports there are. How long it is may be known."""
    full, summed = (ask(octets, 'measure', form, *options, timeout=600) for form in ('--full', '--sum'))
    if (full.status, full.errors) != (summed.status, summed.errors):
        fail(f'{name}: --sum ends with {summed.status} and says {summed.errors[-500:]!r}, and --full {full.status} and {full.errors[-500:]!r}')
    line = json.loads(summed.output)
    if summed.output.decode() != json.dumps(line, sort_keys=True, separators=(',', ':'), ensure_ascii=False) + '\n':
        fail(f'{name}: this is no line of JSON in order: {summed.output[:300]!r}')
    reports = [json.loads(it) for it in full.output.splitlines()]
    for key, owed in by_reports(reports).items():
        if line[key] != owed:
            fail(f'{name}: {key} is {line[key]}, and {owed} is owed')
    own = any(it['by'].startswith('own ') for it in reports) or options == ['--readings', 'own']
    if line['readings'] != ('own' if own else 'capture'):
        fail(f'{name}: the readings are {line["readings"]!r}')
    # of a capture of which no place is measured nothing is counted
    if seconds is not None and line['seconds'] != (seconds if line['place'] is not None else None):
        fail(f'{name}: it is {line["seconds"]} s long, and {seconds} s are owed')
    said = [it.removeprefix('ptpx: ') for it in summed.errors.decode().splitlines()]
    for owed in sentences(line):
        form = re.escape(owed).replace('UNIT', '(packet|line)')
        if not any(re.match(form, it) for it in said):
            fail(f'{name}: the line says {owed!r}, and standard error has {said}')
    if line['announce'] is None and any(it.startswith('Announces: ') for it in said) and line['place'] is not None:
        fail(f'{name}: standard error has Announces, and the line none: {said}')
    # while no place of a capture is measured, standard error tells of each, and the line of none
    found = [it for it in said if it.startswith('beware: ')]
    if line['place'] is not None or all(it['name'] is None for it in line['places']):
        if len(found) != len(line['bewares']) or not all(re.match(f'beware: {NAMES[it]}', those) for it, those in zip(line['bewares'], found)):
            fail(f'{name}: {line["bewares"]} for {found}')
    return len(reports)


def try_failing_output():
    """The line can't be written: the status is 3, whatever came before, and standard error says so once."""
    octets = EXAMPLE.read_bytes()
    for name, given, options in ('an output that fails', octets, []), ('one behind a fault', octets[:-5], []), ('one beside a limit', octets, ['--limit', '0']):
        ended = ask_to_full_device(given, 'measure', '--sum', *options)
        if ended.status != 3 or ended.errors.count(b"ptpx: fault 802: the sums can't be written\n") != 1:
            fail(f'{name}: {ended}')


def many_exchanges():
    """More reports than percentiles are of."""
    return subprocess.run([TOP / 'bench/recording', 'exchanges', '24000'], stdout=subprocess.PIPE, check=True).stdout


def inputs():
    """Inputs, each with options and, where it is known, how long it is."""
    octets, taps = EXAMPLE.read_bytes(), (EXAMPLES / 'taps.pcapng').read_bytes()
    yield 'a capture', octets, []
    yield 'a capture that breaks off', octets[:-5], []
    yield 'a capture, strictly', octets, ['--strict', '--limit', '1']
    yield 'another domain', octets, ['--domain', '9']
    yield 'another slave', octets, ['--slave', '0011223344556677/1']
    yield 'two taps', taps, []
    yield 'one of two taps', taps, ['--interface', 'right']
    yield 'lines', (EXAMPLES / 'slave.lines').read_bytes(), []
    yield 'lines and one that is none', (EXAMPLES / 'slave.lines').read_bytes() + b'\n', []
    telling = ''.join(f'{it}\n' for it in recorded.lines('l2-1s') if it[0] != '{').encode()
    for options in [], ['--readings', 'own'], ['--readings', 'capture']:
        yield f'own readings {options}', telling, options
        yield f'lines {options}', (EXAMPLES / 'slave.lines').read_bytes(), options
    yield 'nothing', b'', []
    yield 'no capture', b'nothing', []
    yield 'exchanges', many_exchanges(), []
    for interfaces in ['"', '\\', "it's", 'a b'], ['\t', None]:
        capture = exchanging.pcapng(interfaces, *(exchanging.talk(it) for it in range(len(interfaces))))
        yield f'interfaces {interfaces}', bytes(capture.octets), []
    packets = beware.Packets(octets).all
    for name, (bend, _) in beware.BENT.items():
        bent = bend(packets)
        times = [it.units // 2**16 for it in beware.reads_of(bent)]
        yield name, beware.written(bent), [], '-' * (times[-1] < times[0]) + texts.seconds(abs(times[-1] - times[0]))
    yield from ((name, octets, wanted.arguments()) for name, octets, wanted in cases.made_by_hand())


def main():
    tried = [try_one(*it) for it in inputs()]
    try_failing_output()
    print(f'captures: of {len(tried)} inputs with {sum(tried)} reports the line of --sum is what the reports come to')


if __name__ == '__main__':
    main()
