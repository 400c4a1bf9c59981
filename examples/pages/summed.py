"""What `ptpx follow --sum` wrote, and the parts of its page."""
import json
from fractions import Fraction

from pages.followed import Crossings, asymmetry_part, lost_part
from pages.sheet import cell, columns_table, rounded_length
from pages.values import LENGTH, counted, exact, half_units

KINDS = (('sync', 'sync', 'Sync'), ('delay_req', 'delay', 'Delay_Req'))
COLUMNS = 'taken', 'corrected', 'rest'
# By how much asymmetry and mean rest may differ from what rounded means give, in halves of 2^-16 ns: each of three is rounded by one half at the most.
ROUNDED = 3
ROWS = 'crossings', 'mean, ns', 'least, ns', 'greatest, ns', 'greatest step, ns'
TOLD = ('Least, greatest and step are exact. Means, asymmetry and mean rest are those of the lines, which are rounded to 2^-16 ns, half to even, and here to '
        'three decimals. The greatest step is the greatest change of the rest, without its sign, from one crossing to the next whose record closed. Medians, '
        'standard deviations, distributions and pictures over time are of the lines that follow writes without --sum.')


def length_of(text):
    """A length of time, or none."""
    if text is None:
        return None
    if not LENGTH.fullmatch(text):
        raise ValueError
    return Fraction(half_units(text))


class Way:
    """What the crossings of a kind come to."""

    def __init__(self, kind, one, line):
        self.kind, self.one, self.more, self.count = kind, one, f'{one}s', line['count']
        self.columns = {name: {it: length_of(line[name][it]) for it in ('mean', 'least', 'greatest')} for name in COLUMNS}
        self.step = length_of(line['rest']['step'])
        lengths = [it for column in self.columns.values() for it in column.values()]
        if type(self.count) is not int or self.count < 0 or any((it is None) != (self.count == 0) for it in lengths) or (self.step is None) != (self.count < 2):
            raise ValueError
        if self.count and not all(it['least'] <= it['mean'] <= it['greatest'] for it in self.columns.values()):
            raise ValueError
        if self.count > 1 and not 0 <= self.step <= self.columns['rest']['greatest'] - self.columns['rest']['least']:
            raise ValueError

    def table(self):
        cells = {name: self.cells(name) for name in COLUMNS}
        return columns_table(ROWS, cells, self.more)

    def cells(self, name):
        """The cells of a column, from the top."""
        def told(row, value, as_text):
            return '-' if value is None else cell(f'{self.kind}-{name}-{row}', as_text(value))

        column = self.columns[name]
        return [cell(f'{self.kind}-{name}-count', str(self.count)), told('mean', column['mean'], rounded_length), told('least', column['least'], exact),
                told('greatest', column['greatest'], exact), told('step', self.step if name == 'rest' else None, exact)]


class Sums:
    """The sums over the crossings of both kinds."""

    TOOL, WATCHED, LINE, EMPTY, ABOUT = 'follow', 'followed', 'line of ptpx follow --sum', Crossings.EMPTY, Crossings.ABOUT

    series, taps = (), None

    def __init__(self):
        self.ways, self.both = [], None

    def add_json(self, text):
        """Takes a line: that of Syncs, that of Delay_Reqs, or that of both."""
        it = json.loads(text)
        if self.both is not None:
            raise ValueError
        if len(self.ways) < len(KINDS):
            kind, own, one = KINDS[len(self.ways)]
            if it['kind'] != kind:
                raise ValueError
            self.ways.append(Way(own, one, it))
            return
        self.both = length_of(it['asymmetry']), length_of(it['mean_rest'])
        if any((length is None) != (0 in self.counts.values()) for length in self.both):
            raise ValueError
        if None not in self.both:
            syncs, requests = (it.columns['rest']['mean'] for it in self.ways)
            if abs(syncs - requests - self.both[0]) > ROUNDED or abs((syncs + requests) / 2 - self.both[1]) > ROUNDED:
                raise ValueError

    def is_whole(self):
        return self.both is not None

    @property
    def counts(self):
        """How many crossings there are, by their name."""
        return {it.one: it.count for it in self.ways}

    def title(self):
        return 'What crossed ' + ('between two taps' if self.taps is None else 'from {} to {}'.format(*self.taps)) + ', in sums'

    def subject(self, said):
        return self.title()

    def when(self):
        return f'<p>{" and ".join(counted(it.count, it.one, it.more) for it in self.ways)}.</p>'

    def parts(self, said):
        without = [it.one for it in self.ways if not it.count]
        tables = ''.join(it.table() for it in self.ways)
        return [asymmetry_part(self.taps, said, without, *self.both), f'<h2>Statistics</h2>{tables}{lost_part(said)}<p class="soft">{TOLD}</p>']
