"""What `ptpx measure` wrote, and the parts of its page."""
import json
import re

from pages.pictures import Graph
from pages.sheet import distributions_part, over_time_parts, statistics_table
from pages.stability import stability_part
from pages.values import DECIMAL, MOMENT, TIME, Series, counted, half_units, nanoseconds

# Behind these columns others may stand, as of --full.
ROW = re.compile(f'({TIME}),({DECIMAL}),({DECIMAL}),(?:own )?(sync|response),([0-9]{{1,20}})(?:,.*)?')
WHOLE = re.compile('-?[0-9]{1,40}')
# Which half completed a report; a slave's own readings are measured as what was captured is.
HALF = re.compile('(?:own )?(sync|response)')
TOLD = ('Offsets are those of the reports by sync, path delays those of the reports by response, so that each Sync and each Delay_Req counts once. '
        'Least, greatest and median are exact; the others were computed exactly and rounded to three decimals. '
        'A line is that of the recording, and of a capture the number of a packet.')


class Measurement:
    """The offsets of the reports by Sync, and the path delays of those by response."""

    TOOL, WATCHED, LINE = 'measure', 'watched', 'report of ptpx measure'
    HEAD = 'time,offset_ns,path_ns,by,line'
    EMPTY = 'There is no report: nothing was measured.'
    ABOUT = ('<p id="clock">The offset is that of the clock that stamped the recording: of the slave\'s where its own port did or it told its own readings, '
             'at a tap or a mirror port of the box that captured.</p>')

    taps = None

    def __init__(self):
        self.offset = Series('offset', 'offset', 'report by sync', 'reports by sync')
        self.path = Series('path delay', 'path', 'report by response', 'reports by response')
        self.series = self.offset, self.path

    @property
    def counts(self):
        """How many there are, by their name."""
        return {'report': len(self.offset) + len(self.path)}

    def counted(self):
        return counted(self.counts['report'], 'report')

    def add_row(self, text):
        """Takes a row of the table."""
        time, offset, path, by, line = ROW.fullmatch(text).groups()
        self.add(nanoseconds(time), half_units(offset), half_units(path), by, int(line))

    def add_json(self, text):
        """Takes a line of JSON."""
        it = json.loads(text)
        time, offset, path, by, line = it['time'], it['offset2'], it['path2'], it['by'], it['line']
        if not (MOMENT.fullmatch(time) and WHOLE.fullmatch(offset) and WHOLE.fullmatch(path) and type(line) is int and HALF.fullmatch(by)):
            raise ValueError
        self.add(nanoseconds(time), int(offset), int(path), HALF.fullmatch(by)[1], line)

    def add(self, time, offset, path, by, line):
        if by == 'sync':
            self.offset.add(time, offset, line)
        else:
            self.path.add(time, path, line)

    def title(self):
        return 'Offset from a master, and path delay'

    def subject(self, said):
        return next((f'Slave {value}' for name, value, _ in said.watched if name == 'slave'), self.title())

    def parts(self, said):
        abouts = 'Above 0 that clock is ahead of the master. ', ''
        graphs = [Graph(it.name, {it.name: it}, it.counted(), it.one, about=about) for it, about in zip(self.series, abouts)]
        table = statistics_table('reports', {it.name: it for it in self.series})
        return [*over_time_parts(graphs), f'<h2>Statistics</h2>{table}<p class="soft">{TOLD}</p>', distributions_part(self.series),
                stability_part(self.offset)]
