"""Reads what ptpx wrote and what it said on standard error."""
import io
import re
import sys

from pages.followed import Crossings
from pages.measured import Measurement
from pages.summed import Sums
from pages.values import counted

# No line is longer; and the first octets of captures.
LONGEST = 4096
CAPTURES = b'\xd4\xc3\xb2\xa1', b'\x4d\x3c\xb2\xa1', b'\xa1\xb2\xc3\xd4', b'\xa1\xb2\x3c\x4d', b'\x0a\x0d\x0d\x0a'
WATCHED = re.compile('ptpx: (domain|master|slave) ([0-9a-f]+(?:/[0-9]+)?)(?:, (.*))?')
TAPS = re.compile('ptpx: from ([A-Za-z0-9_.-]+) to ([A-Za-z0-9_.-]+)')
NOT_FOLLOWED = re.compile('ptpx: (nothing was followed|nothing was met at|PTP was met at a third tap)')
COUNT = re.compile('ptpx: (no|[0-9]+) (report|Sync|Delay_Req)s?(?: crossed from .*)?')
WARNING = re.compile('ptpx: (beware:|fault |PTP was met at a third tap)')
LOST = re.compile('ptpx: (?:[0-9]+ (?:Sync|Delay_Req)s? (?:was|were) met at|nothing is told of|in [0-9]+ messages? fields) .*')


class Wrong(Exception):
    """Why there is no page."""


class Nothing:
    """An input without a line, of which nobody knows which of the two wrote it."""

    TOOL, WATCHED, EMPTY = 'measure or follow', 'watched', 'There is no line: no report of measure, and no crossing of follow.'

    counts, taps, series = {}, None, ()

    def title(self):
        return 'Nothing was measured, nor followed'

    def subject(self, said):
        return self.title()


class Said:
    """What ptpx said on standard error; nothing where that isn't given."""

    def __init__(self, path):
        self.path, self.is_known, self.lines = path, path is not None, []
        if path is not None:
            with open(path, encoding='utf-8', errors='replace') as text:
                self.lines = text.read().splitlines()
        if self.lines and not any(it.startswith('ptpx: ') for it in self.lines):
            raise Wrong(f'{path} is not what ptpx says on standard error: no line begins with ptpx:')
        self.warnings = [it[6:] for it in self.lines if WARNING.match(it)]
        self.lost = [it[6:] for it in self.lines if LOST.fullmatch(it)]
        self.counts = [(it[2], 0 if it[1] == 'no' else int(it[1])) for it in map(COUNT.fullmatch, self.lines) if it]
        self.watched = [it.groups('') for it in map(WATCHED.fullmatch, self.lines) if it]
        self.taps = next((it.groups() for it in map(TAPS.fullmatch, self.lines) if it), None)
        self.doubts_asymmetry = bool(self.lines) and not any(it.startswith('ptpx: asymmetry ') for it in self.lines)
        self.is_of_follow = self.taps is not None or any(map(NOT_FOLLOWED.match, self.lines))

    def content(self):
        """What there was to be said of, where it has no line."""
        return Crossings() if self.is_of_follow else Measurement() if self.lines else Nothing()

    def compare(self, content, name):
        """Refuses what another run said."""
        for one, count in self.counts:
            if content.counts.get(one, 0) != count:
                raise Wrong(f'{self.path} tells of {counted(count, one)}, and {name} has {content.counts.get(one, 0)}')
        if None not in (self.taps, content.taps) and self.taps != content.taps:
            raise Wrong(f'{self.path} tells of the way from {" to ".join(self.taps)}, and {name} of that from {" to ".join(content.taps)}')


def content_of(name, first, octets):
    """What the lines are that begin with this one, and whether they are rows of a table."""
    for content in Measurement, Crossings:
        if f'{first},'.startswith(f'{content.HEAD},'):
            return content(), True
    if first.startswith('{'):
        return (Sums() if '"count":' in first else Crossings() if '"kind"' in first else Measurement()), False
    if octets in CAPTURES:
        raise Wrong(f'{name} is a capture; what ptpx measure or ptpx follow makes of it is wanted')
    if first.startswith('ptpx: '):
        raise Wrong(f'{name} is what ptpx said on standard error, which comes second')
    raise Wrong(f'{name}: line 1 is neither a {Measurement.LINE}, nor a {Crossings.LINE}, nor the head of a table')


def read_lines(path, name):
    """What ptpx wrote; None where that is nothing."""
    content, is_table = None, False
    with sys.stdin.buffer if path == '-' else open(path, 'rb') as octets:
        begin = octets.peek(4)[:4]
        lines = io.TextIOWrapper(octets, encoding='latin-1', newline='\n')
        for number, text in enumerate(iter(lambda: lines.readline(LONGEST), ''), 1):
            text = text.rstrip('\r\n')
            if content is None:
                content, is_table = content_of(name, text, begin)
                if is_table:
                    continue
            try:
                content.add_row(text) if is_table else content.add_json(text)
            except (ValueError, KeyError, TypeError, AttributeError, RecursionError):
                raise Wrong(f'{name}: line {number} is no {content.LINE}') from None
    if isinstance(content, Sums) and not content.is_whole():
        raise Wrong(f'{name} ends before the third {content.LINE}')
    return content
