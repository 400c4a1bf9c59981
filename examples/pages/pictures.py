"""Pictures of series and of curves, in SVG."""
import math
from bisect import bisect_left
from decimal import Decimal
from fractions import Fraction
from html import escape
from itertools import groupby
from operator import sub

from pages.values import NANOSECOND, SECOND, counted, exact, seconds, spelled

CHARACTER = 8.3
TOP, BOTTOM, RIGHT = 28, 48, 18
TIMES = ((2 * 86400, 86400, 'd'), (2 * 3600, 3600, 'h'), (2 * 60, 60, 'min'), (0, 1, 's'))
LENGTHS = ((10 ** 11, 10 ** 9, 's'), (10 ** 8, 10 ** 6, 'ms'), (10 ** 5, 10 ** 3, 'µs'), (0, 1, 'ns'))


def steps_from(least):
    """1, 2 and 5 times each power of ten, from about this number on."""
    power = Fraction(10) ** math.floor(math.log10(least))
    while True:
        yield from (power, 2 * power, 5 * power)
        power *= 10


class Scale:
    """A straight scale from one value to another, and its labels. `unit` is how many of the values' units make one of the labels'."""

    def __init__(self, low, high, unit, length, room):
        self.low, self.high, self.unit = low, high, unit
        for step in steps_from(Fraction(high - low) / unit / 40):
            width = step * unit
            ticks = range(math.ceil(low / width), math.floor(high / width) + 1)
            self.labels = [(tick * width, f'{Decimal((tick * step).numerator) / (tick * step).denominator:f}') for tick in ticks]
            if all(room(label) * (high - low) <= width * length for _, label in self.labels):
                break

    def lay(self, begin, end):
        self.begin, self.end = begin, end
        return self

    def place(self, value):
        """Its pixel."""
        return self.begin + (self.end - self.begin) * float(Fraction(value - self.low) / (self.high - self.low))

    def ticks(self):
        return [(self.place(value), label) for value, label in self.labels]


class Decades:
    """A logarithmic scale of nanoseconds, from 1, 2 or 5 times a power of ten to such a one, and its labels."""

    def __init__(self, least, greatest, length, room):
        ends = [Fraction(digit) * Fraction(10) ** power for power in range(-20, 40) for digit in (1, 2, 5)]
        self.low = max(it for it in ends if it <= least)
        self.high = min(it for it in ends if it >= greatest and it > self.low)
        decade = length / math.log10(self.high / self.low)
        every = max(1, math.ceil(room / decade))
        digits = (1, 2, 5) if decade * 0.3 >= room else (1,)
        self.labels = [(digit * Fraction(10) ** power, spelled(power)(digit) if digit in digits and power % every == 0 else '')
                       for power in range(-20, 40) for digit in range(1, 10) if self.low <= digit * Fraction(10) ** power <= self.high]

    lay, ticks = Scale.lay, Scale.ticks

    def place(self, value):
        return self.begin + (self.end - self.begin) * math.log10(value / self.low) / math.log10(self.high / self.low)


def wide_room(label):
    """The pixels that a label below a picture takes."""
    return len(label) * CHARACTER + 18


def unit_of(low, high):
    """The unit in which values from low to high are labelled, in units of 2^-17 ns, and its name."""
    most = max(abs(low), abs(high))
    size = (high - low if (high - low) * 1000 < most else most) / NANOSECOND
    _, unit, name = next(it for it in LENGTHS if size >= it[0])
    return unit * NANOSECOND, name


def with_margin(low, high):
    """A range with some room at both ends, and with 0, where the values wouldn't be lost beside it."""
    span = (high - low) or max(abs(low) // 10, NANOSECOND)
    low, high = low - span // 16, high + span // 16
    if 0 < low <= 4 * span:
        low = -span // 16
    if 0 < -high <= 4 * span:
        high = span // 16
    return low, max(high, low + 1)


def left_of(scale):
    """How wide the labels at the left of a picture are."""
    return math.ceil(max((len(it[-1]) for it in scale.labels), default=1) * CHARACTER) + 10


def picture(width, height, across, up, titles, drawn, said):
    """A picture: two scales, and what is drawn over them."""
    across_title, up_title = titles
    parts = [f'<svg viewBox="0 0 {width} {height}" role="img" aria-label="{escape(said)}">']
    for place, label in across.ticks():
        parts.append(f'<path class="{"grid" if label else "fine"}" d="M{place:.1f} {up.begin}V{up.end}"/>')
        # what stands at an end must not reach out of the picture
        middle = min(max(place, len(label) * CHARACTER / 2), width - len(label) * CHARACTER / 2)
        parts.append(f'<text class="middle" x="{middle:.1f}" y="{up.begin + 18}">{label}</text>' if label else '')
    for place, label in up.ticks():
        parts.append(f'<path class="{"grid" if label else "fine"}" d="M{across.begin} {place:.1f}H{across.end}"/>')
        parts.append(f'<text class="end" x="{across.begin - 6}" y="{place + 4.5:.1f}">{label}</text>' if label else '')
    parts.append(f'<text class="title" x="0" y="14">{up_title}</text>')
    parts.append(f'<text class="title end" x="{across.end}" y="{height - 6}">{across_title}</text>')
    return ''.join([*parts, *drawn, '</svg>'])


def reduced(series, begin, end, column):
    """Of a stretch the first, least, greatest and last value of each column of the picture, by place."""
    times, values = series.times, series.values
    for _, places in groupby(range(begin, end), lambda place: column(times[place])):
        places = list(places)
        yield from sorted({places[0], min(places, key=values.__getitem__), max(places, key=values.__getitem__), places[-1]})


class Graph:
    """Series over time on one scale, by their labels; how many values there are in words, and what is missing where there is none; and what stands at the
    scale, and is said besides."""

    def __init__(self, name, lines, counted, without, at_scale=None, about=''):
        self.name, self.lines = name, {label: it for label, it in lines.items() if len(it)}
        self.counted, self.without, self.at_scale, self.about = counted, without, at_scale or name, about

    @property
    def count(self):
        """How many values it has."""
        return sum(map(len, self.lines.values()))

    def range(self):
        """The least and the greatest value."""
        return min(it.ordered[0] for it in self.lines.values()), max(it.ordered[-1] for it in self.lines.values())

    def scale(self, height):
        """Its scale in a picture of this height, and the name of its unit."""
        low, high = with_margin(*self.range())
        unit, name = unit_of(low, high)
        return Scale(low, high, unit, height - TOP - BOTTOM, lambda _: 30).lay(height - BOTTOM, TOP), name

    def breaks(self):
        """Between which times a line is broken."""
        return {(it.times[begin - 1], it.times[begin]) for it in self.lines.values() for begin, _ in it.stretches[1:]}


def legend(graph, end):
    """Which line is which, at the right above a picture that ends there."""
    drawn = []
    for label, series in reversed(graph.lines.items()):
        drawn.append(f'<text class="title end" x="{end:.1f}" y="14">{label}</text>')
        end -= len(label) * CHARACTER + 6
        drawn.append(f'<path class="line {series.kind} key" d="M{end - 22:.1f} 10H{end:.1f}"/>')
        end -= 40
    return drawn


def over_time(graph, first, last, left, width, height):
    """The picture of series over time, and how many values are drawn. `left` is where the picture begins."""
    up, name = graph.scale(height)
    span, columns = max(last - first, 1), width - left - RIGHT
    _, per, short = next(it for it in TIMES if span >= it[0] * SECOND)
    across = Scale(0, span, per * SECOND, columns, wide_room).lay(left, width - RIGHT)
    drawn, count = legend(graph, across.end) if len(graph.lines) > 1 else [], 0
    if up.low <= 0 <= up.high:
        drawn.append(f'<path class="zero" d="M{left} {up.place(0):.1f}H{width - RIGHT}"/>')
    for series in graph.lines.values():
        for begin, end in series.stretches:
            kept = list(reduced(series, begin, end, lambda time: (time - first) * columns // span))
            places = [(across.place(series.times[it] - first), up.place(series.values[it])) for it in kept]
            line = 'L'.join(f'{x:.1f} {y:.1f}' for x, y in places)
            drawn.append(f'<path class="line {series.kind}" d="M{line}{"h0" if len(kept) == 1 else ""}"/>')
            count += len(kept)
            if len(series) <= width // 3:
                drawn += [f'<circle class="{series.kind}" cx="{x:.1f}" cy="{y:.1f}" r="2.2"><title>{exact(series.values[it])} ns at '
                          f'{seconds(series.times[it])}, {series.mark} {series.marks[it]}</title></circle>' for it, (x, y) in zip(kept, places)]
    titles = f'{short} since {seconds(first)}', f'{graph.at_scale}, {name}'
    return picture(width, height, across, up, titles, drawn, f'{graph.name} over time'), count


def shown_range(ordered):
    """From where to where a distribution is drawn: the middle 99 of 100, where few outliers would leave it no room."""
    low, high, part = ordered[0], ordered[-1], (len(ordered) + 100) // 200
    middle = ordered[part], ordered[-1 - part]
    return middle if high - low > 4 * (middle[1] - middle[0]) > 0 else (low, high)


def bar_width(span, bars):
    """The least of 1, 2, 5, 10, .. of which so many reach over a span; of no span a nanosecond."""
    least = Fraction(span or NANOSECOND * bars, bars)
    return next(step for step in (it * NANOSECOND for it in steps_from(least / NANOSECOND)) if least <= step)


def distribution(series, width=440, height=280):
    """The picture of a distribution, and what is outside of it."""
    low, high = shown_range(series.ordered)
    part = bar_width(high - low, min(48, max(8, math.isqrt(4 * len(series)))))
    edges = [it * part for it in range(low // part - 1, high // part + 3)]
    below = [bisect_left(series.ordered, edge) for edge in edges]
    counts = list(map(sub, below[1:], below))
    up = Scale(0, max(counts), 1, height - TOP - BOTTOM, lambda _: 30)
    up.labels = [it for it in up.labels if '.' not in it[1]]
    up.lay(height - BOTTOM, TOP)
    left = left_of(up)
    unit, name = unit_of(edges[0], edges[-1])
    across = Scale(edges[0], edges[-1], unit, width - left - RIGHT, wide_room).lay(left, width - RIGHT)
    drawn = [f'<path class="bar {series.kind}" d="' + ''.join(
        f'M{across.place(edge):.1f} {up.begin}V{up.place(count):.1f}H{across.place(edge + part):.1f}V{up.begin}z'
        for edge, count in zip(edges, counts) if count) + '"/>']
    if edges[0] <= 0 <= edges[-1]:
        drawn.append(f'<path class="zero" d="M{across.place(0):.1f} {up.begin}V{up.end}"/>')
    told = f'A bar is {exact(part)} ns wide.'
    if below[0] or below[-1] < len(series):
        told += f' Outside of the picture are {counted(below[0], series.one, series.more)} at the left and {len(series) - below[-1]} at the right.'
    return picture(width, height, across, up, (f'{series.name}, {name}', series.more), drawn, f'distribution of {series.name}'), told


def log_log(name, points, width=440, height=280):
    """The picture of a curve over observation time, both in nanoseconds; None where no point is above 0."""
    points = [it for it in points if it[1] > 0]
    if not points:
        return None
    up = Decades(min(it[1] for it in points), max(it[1] for it in points), height - TOP - BOTTOM, 22).lay(height - BOTTOM, TOP)
    left = left_of(up)
    across = Decades(points[0][0], points[-1][0], width - left - RIGHT, 62).lay(left, width - RIGHT)
    places = [(across.place(x), up.place(y)) for x, y in points]
    drawn = ['<path class="line offset" d="M' + 'L'.join(f'{x:.1f} {y:.1f}' for x, y in places) + '"/>']
    drawn += [f'<circle class="offset" cx="{x:.1f}" cy="{y:.1f}" r="2.8"/>' for x, y in places]
    return picture(width, height, across, up, ('observation time', name), drawn, f'{name} over observation time')
