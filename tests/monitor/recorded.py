"""The recorded runs, and in which order readings and results of one may have come."""
import pathlib
import re
from fractions import Fraction

import judge

HERE = pathlib.Path(__file__).resolve().parent
NAMES = ('l2-1s', 'raw-udp4', 'tc-l2')
RESULT = re.compile(r'ptp4l\[[0-9.]+\]: master offset +(-?[0-9]+) s[0-9] freq +[-+][0-9]+ path delay +(-?[0-9]+)')
DELAY = re.compile(r'ptp4l\[[0-9.]+\]: delay   filtered +(-?[0-9]+)   raw +(-?[0-9]+)')


def cut(value):
    """A number without what stands behind its point, as a division of whole numbers leaves it in C."""
    value = Fraction(value)
    return (abs(value.numerator) // value.denominator) * (1 if value >= 0 else -1)


def run(name):
    """The datagrams of a run, as octets, and the lines of its log, as texts, in the one order that its values leave.

    Each exchange behind the first Sync has its line of delays, and a Sync has the line of a result if the next line is one that its
    readings come to: offset and path make t2 - t1 - correction, or the offset is by the newest delay, cut to whole nanoseconds."""
    datagrams = [bytes.fromhex(it) for it in (HERE / f'{name}.events.hex').read_text().split()]
    log = (HERE / f'{name}.log').read_text().splitlines()
    sync, exchange, ordered, at = None, None, [], 0

    def take():
        nonlocal at
        ordered.append(log[at])
        at += 1

    while at < len(log) and not DELAY.fullmatch(log[at]) and not RESULT.fullmatch(log[at]):
        take()
    for octets in datagrams:
        [(kind, them, master)] = judge.records(octets)
        record = judge.Record(kind, them, master, None)
        ordered.append(octets)
        if kind == 'exchange':
            exchange = record
            if sync:
                assert int(DELAY.fullmatch(log[at])[2]) == cut(judge.delay(sync, exchange)), (name, log[at])
                take()
            continue
        sync = record
        said = at < len(log) and RESULT.fullmatch(log[at])
        if said and exchange:
            offset, path = map(int, said.groups())
            newest = cut(judge.delay(sync, exchange))
            if sync.bracket in (offset + path, offset + newest):
                take()
    assert at == len(log), (name, at, log[at])
    return ordered


def spelled(octets, count):
    """A datagram as `examples/monitor` writes it, a millisecond behind the one before."""
    return f'1795329000.{count:03}000000 {octets.hex()}'


def result(line):
    """The line of a result, or None where this line of a log has none."""
    said = RESULT.fullmatch(line)
    return said and '{"offset":"%s","path":"%s"}' % said.groups()


def lines(name):
    """A run as lines, each result behind its Sync."""
    both = [(count, it) for count, it in enumerate(run(name))]
    return [it for it in (spelled(it, count) if isinstance(it, bytes) else result(it) for count, it in both) if it]
