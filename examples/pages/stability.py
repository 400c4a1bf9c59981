"""Evenly spaced time error, and what ITU-T G.810 makes of it: time deviation (TDEV) and maximum time interval error (MTIE)."""
import math
from collections import deque
from fractions import Fraction
from functools import cached_property
from itertools import accumulate, islice

from pages.pictures import log_log
from pages.sheet import cell
from pages.values import GAP, NANOSECOND, SECOND, exact, rounded, seconds


class Even:
    """Offsets at evenly spaced moments: those of the longest stretch, of which the first and the last moment have the first and the last report, and of all
    reports the least and the greatest of each moment."""

    def __init__(self, series):
        self.begin, self.end = max(series.stretches, key=lambda it: it[1] - it[0])
        times, values = series.times[self.begin:self.end], series.values[self.begin:self.end]
        self.first, self.span = times[0], times[-1] - times[0]
        self.steps = (2 * self.span + series.usual) // (2 * series.usual) if self.span else 0
        self.values, taken = [None] * (self.steps + 1), {}
        for time, value in zip(times, values):
            # how far the moment is, in parts of an interval
            moment = self.moment(time)
            away = abs((time - self.first) * self.steps - moment * self.span)
            if moment not in taken or away < taken[moment]:
                taken[moment], self.values[moment] = away, value
        self.extremes = self.extremes_of(series) if self.steps > 1 else []
        self.interval = Fraction(self.span, self.steps or 1)
        self.away = Fraction(max(taken.values()), self.steps or 1)
        self.left_out, self.filled = len(values) - len(taken), self.steps + 1 - len(taken)
        self.fill()

    def moment(self, time):
        """The moment next to a time, which may lie outside of the stretch."""
        return (2 * (time - self.first) * self.steps + self.span) // (2 * self.span) if self.span else 0

    def extremes_of(self, series):
        """Each moment that has reports, with their least and their greatest, by time."""
        found = {}
        for moment, value in zip(map(self.moment, series.times), series.values):
            least, greatest = found.get(moment, (value, value))
            found[moment] = min(value, least), max(value, greatest)
        return [(moment, *found[moment]) for moment in sorted(found)]

    def fill(self):
        """Puts moments without a report on the straight line between their neighbours."""
        last, values = 0, self.values
        for place, value in enumerate(values):
            if value is not None:
                for between in range(last + 1, place):
                    values[between] = values[last] + (value - values[last]) * (between - last) // (place - last)
                last = place

    @cached_property
    def deviations(self):
        """TDEV in units for each n, up to a twelfth of the stretch."""
        sums = list(accumulate((value - self.values[0] for value in self.values), initial=0))
        return {n: time_deviation(sums, n) for n in ladder(self.steps // 12)}

    @cached_property
    def errors(self):
        """MTIE in units for each n, the time from the first to the last moment of all reports the last."""
        if not self.extremes:
            return {}
        most = self.extremes[-1][0] - self.extremes[0][0]
        widest, found = max(it[2] for it in self.extremes) - min(it[1] for it in self.extremes), {}
        error = 0
        for n in sorted({*ladder(most), most}):
            # it never falls, so behind the widest there is nothing to look for
            error = error if error == widest else interval_error(self.extremes, n)
            found[n] = error
        return found


def ladder(most):
    """1, 2, 3, 4, 6, 8, 12 and so on, up to the most."""
    return sorted(n for power in range(most.bit_length()) for n in (1 << power, 3 << power) if n <= most)


def interval_error(extremes, n):
    """MTIE over n intervals: the greatest peak-to-peak of all windows, each of which ends at a moment."""
    # what is in the window, but for what a later moment undercuts, or exceeds
    lows, highs, found = deque(), deque(), 0
    for row in extremes:
        moment, least, greatest = row
        while lows and lows[-1][1] >= least:
            lows.pop()
        while highs and highs[-1][2] <= greatest:
            highs.pop()
        lows.append(row)
        highs.append(row)
        while lows[0][0] < moment - n:
            lows.popleft()
        while highs[0][0] < moment - n:
            highs.popleft()
        found = max(found, highs[0][2] - lows[0][1])
    return found


def time_deviation(sums, n):
    """TDEV over n intervals, of the sums of the first 0, 1, 2 .. values: the inner sum of G.810 is one of four of these."""
    windows = len(sums) - 3 * n
    ahead = [islice(sums, times * n, None) for times in (1, 2, 3)]
    squares = sum((d - 3 * (c - b) - a) ** 2 for a, b, c, d in zip(sums, *ahead))
    return math.sqrt(Fraction(squares, 6 * n * n * windows))


def even_told(even, series):
    """Which reports TDEV and MTIE are made of."""
    stretch = even.end - even.begin
    which = f'all {stretch}' if stretch == len(series) else f'{stretch} of {len(series)}'
    told = (f'TDEV is of offsets at evenly spaced moments, made of {which} reports by sync, from {seconds(series.times[even.begin])} '
            f'to {seconds(series.times[even.end - 1])}, the longest stretch in which no time falls and no gap is longer than {GAP} usual intervals. '
            f'There are {cell("moments", str(even.steps + 1))} moments, {cell("interval", rounded(even.interval / SECOND, 9))} s apart. '
            f'Each has the report that is nearest to it, {rounded(even.away / SECOND, 9)} s away at the most. ')
    if even.filled:
        told += f'Those without a report within half an interval, {even.filled}, lie on the straight line between their neighbours. '
    if even.left_out:
        told += f'Reports of moments that have a nearer one, {even.left_out}, are left out of TDEV. '
    return (told + f'MTIE is of all {len(series)} reports by sync, each at the moment that is next to its time, in front of that stretch and behind it as well. '
            'Observation times reach over all reports for MTIE, and up to a twelfth of the stretch for TDEV; beyond that there are too few reports.')


def stability_table(even):
    """TDEV and MTIE for each observation time."""
    rows = ''
    for n, error in even.errors.items():
        deviation = rounded(even.deviations[n] / NANOSECOND) if n in even.deviations else '-'
        cells = n, rounded(n * even.interval / SECOND, 6), deviation, exact(error)
        rows += f'<tr id="n-{n}">' + ''.join(f'<td class="number">{it}</td>' for it in cells) + '</tr>'
    head = ''.join(f'<th class="number">{it}</th>' for it in ('intervals', 'time, s', 'TDEV, ns', 'MTIE, ns'))
    return f'<div class="scroll"><table><tr>{head}</tr>{rows}</table></div>'


def stability_part(series):
    """TDEV and MTIE, as pictures and as a table."""
    title = '<h2>Stability of the offset</h2>'
    even = Even(series) if len(series) else None
    if not even or not even.errors:
        return title + '<p>There are too few reports by sync in a row for TDEV and MTIE.</p>'
    interval = float(even.interval)
    parts = []
    for name, kind, found in ('TDEV', 'time deviation', even.deviations), ('MTIE', 'maximum time interval error', even.errors):
        drawn = log_log(name, [(n * interval, value / NANOSECOND) for n, value in found.items()])
        told = f'{kind.capitalize()}, by the definition of ITU-T G.810.' if drawn else ''
        why = f'{name} is 0 at each observation time.' if found else f'There are too few reports by sync in a row for {name}.'
        parts.append(f'<figure>{drawn}<figcaption>{told}</figcaption></figure>' if drawn else f'<p>{why}</p>')
    return f'{title}<div class="pair">{"".join(parts)}</div><p class="soft">{even_told(even, series)}</p>{stability_table(even)}'
