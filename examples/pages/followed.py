"""What `ptpx follow` wrote, and the parts of its page."""
import json
import re
from fractions import Fraction
from functools import cached_property
from html import escape

from pages.pictures import Graph
from pages.sheet import distributions_part, over_time_parts, rounded_length, statistics_table, told_table
from pages.values import DECIMAL, LENGTH, MOMENT, TIME, Series, counted, half_units, nanoseconds

ROW = re.compile(f'({TIME}),(sync|delay_req),([0-9]{{1,5}}),({DECIMAL}),({DECIMAL}),({DECIMAL})')
TAP = re.compile('[A-Za-z0-9_.-]{1,16}')
TOLD = ('Least, greatest and median are exact. Means and the two numbers above were computed exactly and rounded as follow does, first to 2^-16 ns, '
        'half to even, and then to three decimals. A number is the sequenceId of the message, and a time that of the tap which it met first.')


class Way:
    """The crossings of a kind, in the order of their times: that of the lines says nothing."""

    def __init__(self, kind, one, rows):
        self.one, self.more = one, f'{one}s'
        series = {name: Series(f'{name} of {self.more}', f'{kind}-{name}', one, self.more, 'number') for name in ('taken', 'corrected', 'rest')}
        self.taken, self.corrected, self.rest = series.values()
        for time, number, *lengths in sorted(rows, key=lambda row: row[0]):
            for it, length in zip(series.values(), lengths):
                it.add(time, length, number)

    def graph(self):
        counted = f'{2 * len(self.rest)} values of {self.rest.counted()}'
        return Graph(f'taken and corrected of {self.more}', {'taken': self.taken, 'corrected': self.corrected}, counted, f'{self.one} that crossed', self.more)

    def table(self):
        columns = {'taken': self.taken, 'corrected': self.corrected, 'rest': self.rest}
        return statistics_table('crossings', columns, self.more, rounded_as_told)


def as_told(units):
    """A mean to 2^-16 ns, half to even, as follow has it."""
    return Fraction(2 * round(Fraction(units) / 2))


def rounded_as_told(units):
    return rounded_length(as_told(units))


class Crossings:
    """What was taken and corrected, and what rests, of the Syncs and of the Delay_Reqs that crossed from a tap to the other."""

    TOOL, WATCHED, LINE = 'follow', 'followed', 'crossing of ptpx follow'
    HEAD = 'time,kind,number,taken_ns,corrected_ns,rest_ns'
    EMPTY = 'There is no crossing: no Sync and no Delay_Req was met at both taps with all that belongs to it.'
    ABOUT = ('<p id="words">Taken is how long a message was on its way from tap to tap, corrected is what its corrections tell of that, and rest is taken less '
             'corrected: the cables between the taps, what a clock there told wrong, by how much the taps\' own clocks differ, and the errors of their '
             'stamps.</p>')

    def __init__(self):
        self.rows, self.taps = {'sync': [], 'delay_req': []}, None

    def add_row(self, text):
        """Takes a row of the table."""
        time, kind, number, *lengths = ROW.fullmatch(text).groups()
        self.add(time, kind, int(number), lengths)

    def add_json(self, text):
        """Takes a line of JSON."""
        it = json.loads(text)
        time, lengths, taps = it['time'], [it['taken'], it['corrected'], it['rest']], (it['from'], it['to'])
        are_written_so = MOMENT.fullmatch(time) and all(map(LENGTH.fullmatch, lengths)) and all(map(TAP.fullmatch, taps))
        if not are_written_so or type(it['number']) is not int or self.taps not in (None, taps):
            raise ValueError
        self.taps = taps
        self.add(time, it['kind'], it['number'], lengths)

    def add(self, time, kind, number, lengths):
        taken, corrected, rest = map(half_units, lengths)
        if taken - corrected != rest:
            raise ValueError
        self.rows[kind].append((nanoseconds(time), number, taken, corrected, rest))

    @property
    def counts(self):
        """How many there are, by their name."""
        return {'Sync': len(self.rows['sync']), 'Delay_Req': len(self.rows['delay_req'])}

    def counted(self):
        return counted(sum(self.counts.values()), 'crossing')

    @cached_property
    def ways(self):
        return Way('sync', 'Sync', self.rows['sync']), Way('delay', 'Delay_Req', self.rows['delay_req'])

    @property
    def series(self):
        return [it.rest for it in self.ways]

    def title(self):
        return 'What crossed ' + ('between two taps' if self.taps is None else 'from {} to {}'.format(*self.taps))

    def subject(self, said):
        return self.title()

    def parts(self, said):
        rests = Graph('rest', {it.more: it.rest for it in self.ways}, ' and '.join(it.rest.counted() for it in self.ways), 'crossing')
        rest, *others = over_time_parts([rests, *(it.graph() for it in self.ways)])
        tables = ''.join(it.table() for it in self.ways)
        statistics = f'<h2>Statistics</h2>{tables}{lost_part(said)}<p class="soft">{TOLD}</p>'
        return [rest, self.asymmetry_part(said), *others, statistics, distributions_part(self.series)]

    def asymmetry_part(self, said):
        without = [it.one for it in self.ways if not len(it.rest)]
        if without:
            return asymmetry_part(self.taps, said, without, None, None)
        syncs, requests = (it.mean for it in self.series)
        return asymmetry_part(self.taps, said, without, as_told(syncs - requests), as_told((syncs + requests) / 2))


def lost_part(said):
    """Which messages didn't cross, and which fields changed of those that did, as was said."""
    return f'<p id="lost">{escape("; ".join(said.lost))}.</p>' if said.lost else ''


def asymmetry_part(taps, said, without, asymmetry, mean_rest):
    """How unequal the two ways are, and what that means, in the words of follow, unless it said none; or of which kind nothing crossed."""
    title = '<h2>Asymmetry</h2>'
    if without:
        return f'{title}<p id="meaning">No {without[0]} crossed, so the asymmetry isn\'t known.</p>'
    rows = [('asymmetry', f'{rounded_length(asymmetry)} ns', 'mean rest of Syncs less that of Delay_Reqs'),
            ('mean rest', f'{rounded_length(mean_rest)} ns', 'half of the sum of both, in which the difference of the taps\' clocks cancels')]
    second = 'the second tap' if taps is None else taps[1]
    half = rounded_length(abs(asymmetry) / 2)
    meaning = (f'Asymmetry {rounded_length(asymmetry)} ns. If both taps share a clock, a slave behind {second} reads offsets {half} ns too '
               f'{"low" if rounded_length(asymmetry).startswith("-") else "high"}.')
    if said.doubts_asymmetry:
        meaning = 'What there is to beware of speaks against this asymmetry.'
    return f'{title}{told_table(rows)}<p id="meaning">{meaning}</p>'
