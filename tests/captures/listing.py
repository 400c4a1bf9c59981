"""The table that `ptpx extract --list` owes for a capture, by the packets that reading.py finds in it."""
import typing
from fractions import Fraction

import streaming
import texts
from texts import counted, escaped, seconds

ROWS_MOST, CALLS_MOST, NAME_MOST = 1024, 8, 64

# messageType: the names of IEEE 1588-2019, table 36, in the order of their numbers. Those without a name stand behind them.
NAMES = {0: 'Sync', 1: 'Delay_Req', 2: 'Pdelay_Req', 3: 'Pdelay_Resp', 8: 'Follow_Up', 9: 'Delay_Resp', 10: 'Pdelay_Resp_Follow_Up', 11: 'Announce',
         12: 'Signaling', 13: 'Management'}
WITH_STEPS, WITH_REQUESTING, DELAY_RESP = {0, 3}, {3, 9, 10}, 9

HEAD = ['interface', 'stream', 'domain', 'source', 'requesting', 'message', 'count', 'lost', 'interval',
        'one-step', 'two-step', 'version', 'first', 'last', 'correction ns', 'up to ns']
AT_RIGHT = [HEAD.index(head) for head in HEAD if head not in ('interface', 'stream', 'source', 'requesting', 'message', 'version')]

NONE = 'there is no message of PTP version 2\n'


class Key(typing.NamedTuple):
    """What the messages of a row have in common."""
    interface: tuple
    stream: streaming.Stream
    domain: int
    source: bytes
    kind: int
    requesting: bytes


def order(key, interfaces):
    return interfaces.index(key.interface), key.stream.order(), key.domain, key.source, key.kind not in NAMES, key.kind, key.requesting


def called(interface):
    """An interface in a row."""
    return escaped(interface[:NAME_MOST]) + ('..' if len(interface) > NAME_MOST else '')


def argument(interface):
    """An interface as a shell is given it."""
    is_plain = all(chr(octet).isascii() and (chr(octet).isalnum() or octet in b'._-:@+') for octet in interface)
    return escaped(interface) if is_plain else f"$'{escaped(interface)}'"


def port(octets):
    return texts.port(octets) if octets else '-'


def nanoseconds(units):
    """Units of 2^-16 ns as nanoseconds, exactly."""
    return 'too big' if units == 2**63 - 1 else texts.decimals(Fraction(units, 2**16))


def passed(messages):
    """Of messages with their times how many are lost by their numbers, but for copies of the newest, and how long it is from one to the next, in the
    mean, in milliseconds with three decimals. A number that isn't within 256 of the newest one begins a life."""
    newest, skipped, late, intervals = None, 0, 0, []
    for time, octets in messages:
        number = int.from_bytes(octets[30:32], 'big')
        ahead = None if newest is None else (number - newest[0]) % 2**16
        if ahead == 0:
            continue
        if ahead is not None and ahead <= 256:
            skipped += ahead - 1
            intervals += [time - newest[1]] if ahead == 1 else []
        elif ahead is not None and ahead >= 2**16 - 256:
            late += 1
            continue
        newest = number, time
    if not intervals:
        return max(skipped - late, 0), '-'
    microseconds = int(Fraction(abs(sum(intervals)) * 1000, len(intervals)) + Fraction(1, 2)) // 10**6
    sign = '-' if sum(intervals) < 0 and microseconds else ''
    return max(skipped - late, 0), f'{sign}{microseconds // 1000}.{microseconds % 1000:03} ms'


def cells(key, messages):
    """A row of these messages, each of a time and a datagram."""
    steps = [octets[6] >> 1 & 1 for _, octets in messages]
    corrections = [int.from_bytes(octets[8:16], 'big', signed=True) for _, octets in messages]
    versions = sorted({octets[1] >> 4 for _, octets in messages})
    has_steps = key.kind in WITH_STEPS
    lost, interval = passed(messages)
    return [called(key.interface), key.stream.cell(), str(key.domain), port(key.source), port(key.requesting), NAMES.get(key.kind, f'type {key.kind}'), str(len(messages)),
            str(lost), interval, str(steps.count(0)) if has_steps else '-', str(steps.count(1)) if has_steps else '-', ','.join(f'2.{it}' for it in versions),
            seconds(messages[0][0]), seconds(messages[-1][0]), nanoseconds(min(corrections)), nanoseconds(max(corrections))]


def aligned(rows):
    widths = [max(len(cell) for cell in column) for column in zip(*rows)]
    for row in rows:
        fields = [cell.rjust(width) if place in AT_RIGHT else cell.ljust(width) for place, (cell, width) in enumerate(zip(row, widths))]
        yield '  '.join(fields) + '\n'


class Listing:
    """What a capture has, by rows."""

    def __init__(self, rows):
        self.interfaces, self.rows = [], {}
        self.further = self.other_version = self.too_short = 0
        for row in rows:
            self.take(row)

    def take(self, row):
        octets = row.datagram
        kind = octets[0] & 15 if octets else None
        if len(octets) < 34:
            self.too_short += 1
        elif octets[1] & 15 != 2:
            self.other_version += 1
        elif len(octets) < (54 if kind in WITH_REQUESTING else 34):
            self.too_short += 1
        else:
            stream, requesting = streaming.stream(row.route, octets), octets[44:54] if kind in WITH_REQUESTING else b''
            self.count(Key(row.interface.name, stream, octets[4], octets[20:30], kind, requesting), row.time, octets)

    def count(self, key, time, octets):
        if key not in self.rows and len(self.rows) == ROWS_MOST:
            self.further += 1
            return
        if key.interface not in self.interfaces:
            self.interfaces.append(key.interface)
        self.rows.setdefault(key, []).append((time, octets))

    def keys(self):
        return sorted(self.rows, key=lambda key: order(key, self.interfaces))

    def calls(self):
        """The calls that measure those who are answered."""
        for key in self.keys():
            if key.kind == DELAY_RESP:
                stream = '' if key.stream == streaming.Stream() else f' # stream {key.stream.cell()}'
                interface = f'--interface {argument(key.interface)} ' if len(self.interfaces) > 1 else ''
                yield f'ptpx measure {interface}--domain {key.domain} --master {port(key.source)} --slave {port(key.requesting)}{stream}\n'

    def others(self):
        """What is told of what isn't in a row."""
        if self.further:
            yield f'{counted(self.further, "message")} of further rows: the table has {ROWS_MOST} at most\n'
        if self.other_version:
            yield f'{counted(self.other_version, "datagram")} of another version than 2\n'
        if self.too_short:
            yield f'{counted(self.too_short, "datagram")} too short for a message\n'

    def text(self):
        """What goes to standard output."""
        calls = list(self.calls())
        rows = [NONE] if not self.rows else aligned([HEAD, *(cells(key, self.rows[key]) for key in self.keys())])
        more = ['and so on, for each row of Delay_Resp\n'] if len(calls) > CALLS_MOST else []
        return ''.join([*rows, *(['\n'] if calls else []), *calls[:CALLS_MOST], *more, *self.others()])
