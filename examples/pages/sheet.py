"""The form of a page, and the parts that several pages have."""
import re
from datetime import datetime, timedelta
from html import escape
from operator import sub

from pages.pictures import distribution, left_of, over_time, with_margin
from pages.values import GAP, NANOSECOND, SECOND, counted, exact, rounded, seconds

COLOURS = '--ink:{};--soft:{};--line:{};--fine:{};--paper:{};--beware:{};--warm:{};--first:{};--second:{};--third:{};--fourth:{}'
LIGHT = COLOURS.format('#1b1f24', '#59636e', '#d3d9e0', '#eef0f3', '#fff', '#8a1f11', '#fdecea', '#0b62b0', '#b04a00', '#1f7a3d', '#7b3fa0')
DARK = COLOURS.format('#e6e9ed', '#a3adb8', '#414a55', '#262c34', '#14181d', '#ffc2b8', '#4a1712', '#6db3ff', '#ffab66', '#7fd49a', '#d3a8f2')
STYLE = f'''
:root {{ color-scheme: light dark; {LIGHT} }}
@media (prefers-color-scheme: dark) {{ :root {{ {DARK} }} }}
body {{ margin: 0 auto; max-width: 1080px; padding: 16px }}
body {{ background: var(--paper); color: var(--ink); font: 16px/1.45 system-ui, sans-serif }}
h1 {{ font-size: 1.6em; margin: .2em 0 }} h2 {{ font-size: 1.15em; margin: 1.6em 0 .3em }}
p, figcaption, pre {{ overflow-wrap: anywhere }} .scroll {{ overflow-x: auto }}
figure {{ margin: 0 0 .8em }} figcaption, small, .soft {{ color: var(--soft); font-size: .88em }}
.pair {{ display: grid; grid-template-columns: 1fr 1fr; gap: 0 24px }} .pair > * {{ min-width: 0 }}
.beware {{ border: 2px solid var(--beware); background: var(--warm); color: var(--beware); padding: .4em .9em; margin: 1em 0 }}
.beware p {{ margin: .3em 0; font-weight: 600 }}
table {{ border-collapse: collapse; font-variant-numeric: tabular-nums }}
td, th {{ padding: .25em .8em .25em 0; text-align: left; vertical-align: top; border-bottom: 1px solid var(--line) }}
td.number, th.number {{ text-align: right; padding: .25em 0 .25em .8em }} td.number, span {{ white-space: nowrap }}
pre {{ white-space: pre-wrap; font-size: .84em; margin: .4em 0 }}
svg {{ width: 100%; height: auto; display: block; font: 13px system-ui, sans-serif }}
svg text {{ fill: var(--soft) }} svg .title {{ fill: var(--ink) }} .middle {{ text-anchor: middle }} .end {{ text-anchor: end }}
svg path {{ fill: none }} .grid {{ stroke: var(--line) }} .fine {{ stroke: var(--fine) }} .zero {{ stroke: var(--ink); stroke-width: 1.4 }}
.offset, .sync-rest {{ --own: var(--first) }} .path, .delay-rest {{ --own: var(--second) }}
.sync-taken, .delay-taken {{ --own: var(--third) }} .sync-corrected, .delay-corrected {{ --own: var(--fourth) }}
.line {{ stroke: var(--own); stroke-width: 1.4; stroke-linejoin: round; stroke-linecap: round }}
.line.delay-rest, .line.sync-corrected, .line.delay-corrected {{ stroke-dasharray: 5 3.5 }}
svg circle {{ fill: var(--own) }} svg .bar {{ fill: var(--own); stroke: var(--paper); stroke-width: .5 }}
.statistics th {{ white-space: nowrap }} .three small > span {{ display: block }} .scroll + .scroll {{ margin-top: 1.2em }}
.narrow {{ display: none }}
@media (max-width: 640px) {{
  .wide {{ display: none }} .narrow {{ display: block }} .pair {{ grid-template-columns: 1fr }}
  table {{ font-size: .86em }} small {{ font-size: .8em }} small > span {{ display: block }} small span, .statistics th {{ white-space: normal }}
}}
@media (max-width: 420px) {{ .three {{ font-size: .76em }} .three .number {{ padding-left: .5em }} }}
@media print {{
  :root {{ color-scheme: light; {LIGHT} }} body {{ font-size: 10.5pt; padding: 0 }}
  .wide {{ display: block }} .narrow {{ display: none }} .pair {{ grid-template-columns: 1fr 1fr }}
  figure, tr, .beware, .statistics {{ break-inside: avoid }} h2 {{ break-after: avoid }}
}}
'''


def cell(identity, text):
    return f'<span id="{identity}">{escape(text)}</span>'


def extreme(series, name, value):
    """The cell of the least or the greatest value: where it came first."""
    place, identity = series.values.index(value), f'{series.kind}-{name}'
    # a narrow page breaks the time behind its point
    time = cell(f'{identity}-time', seconds(series.times[place])).replace('.', '.<wbr/>')
    where = f'<span>at {time},</span> <span>{series.mark} {cell(f"{identity}-{series.mark}", str(series.marks[place]))}</span>'
    return f'{cell(identity, exact(value))}<br/><small>{where}</small>'


def rounded_length(units):
    return rounded(units / NANOSECOND)


def statistics(series, mean_text):
    """The cells of a series, from the top."""
    kind = series.kind
    if not len(series):
        return [cell(f'{kind}-count', '0'), *['-'] * 5]
    deviation = '-' if series.deviation is None else rounded_length(series.deviation)
    return [cell(f'{kind}-count', str(len(series))), cell(f'{kind}-mean', mean_text(series.mean)), cell(f'{kind}-deviation', deviation),
            cell(f'{kind}-median', exact(series.median)), extreme(series, 'least', series.ordered[0]), extreme(series, 'greatest', series.ordered[-1])]


def statistics_table(count_name, columns, corner='', mean_text=rounded_length):
    """The statistics of series, side by side below their names."""
    names = count_name, 'mean, ns', 'standard deviation, ns', 'median, ns', 'least, ns', 'greatest, ns'
    return columns_table(names, {name: statistics(it, mean_text) for name, it in columns.items()}, corner)


def columns_table(names, columns, corner=''):
    """Cells side by side below the names of their columns, and behind those of their rows."""
    rows = zip(names, *columns.values())
    body = ''.join(f'<tr><th>{name}</th>' + ''.join(f'<td class="number">{it}</td>' for it in cells) + '</tr>' for name, *cells in rows)
    head = f'<tr><th>{corner}</th>' + ''.join(f'<th class="number">{it}</th>' for it in columns) + '</tr>'
    return f'<div class="scroll"><table class="statistics{" three" if len(columns) > 2 else ""}">{head}{body}</table></div>'


def told_table(rows):
    """A table of names, values and what is told of them."""
    body = ''.join(f'<tr><th>{name}</th><td>{cell(name.replace(" ", "-"), value)}</td><td class="soft">{escape(told)}</td></tr>' for name, value, told in rows)
    return f'<div class="scroll"><table>{body}</table></div>' if rows else ''


def watched_part(content, said):
    rows = list(zip(('from', 'to'), content.taps or (), ('', ''))) + said.watched
    unknown = f'Who was {content.WATCHED} isn\'t known: what {content.TOOL} said on standard error wasn\'t given.'
    return told_table(rows) + ('' if said.is_known else f'<p class="soft">{unknown}</p>')


def when(content):
    """From when to when there is something; what has no times tells how much there is."""
    if not content.series:
        return content.when()
    first, last = time_range(content.series)
    text = f'{content.counted()} from {seconds(first)} to {seconds(last)}'
    try:
        date = datetime(1970, 1, 1) + timedelta(seconds=first // SECOND)
        return f'<p>{text}; the first at {date:%Y-%m-%d %H:%M:%S}, if the clock of the recording counts seconds since 1970.</p>'
    except OverflowError:
        return f'<p>{text}.</p>'


def time_range(series):
    """The first and the last time of all these."""
    series = [it for it in series if len(it)]
    return min(min(it.times) for it in series), max(max(it.times) for it in series)


def drawn_told(graph, count):
    """What a picture shows of what there is."""
    series = list(graph.lines.values())
    low, high = with_margin(*graph.range())
    told = graph.about + graph.counted
    fewer = f', of which {count} are drawn: the first, least, greatest and last of each column of the picture.'
    told += ', all of which are drawn.' if count == graph.count else fewer
    if not low <= 0 <= high:
        told += f' 0 lies {"below" if low > 0 else "above"} the picture.'
    falls = sum(step < 0 for it in series for step in map(sub, it.times[1:], it.times))
    gaps = sum(before <= after for before, after in graph.breaks())
    if gaps:
        told += f' {"The line is" if len(series) == 1 else "Lines are"} broken at {counted(gaps, "gap")} of more than {GAP} usual intervals.'
    if falls:
        told += f' At {counted(falls, series[0].one, series[0].more)} the time is below that of the one before.'
    return told


def over_time_parts(graphs):
    """A part for each graph, all over the same time, once for wide pages and once for narrow ones."""
    there = [it for it in graphs if it.count]
    first, last = time_range(series for it in there for series in it.lines.values())
    drawn = []
    for width, height in (900, 300), (400, 260):
        left = max(left_of(it.scale(height)[0]) for it in there)
        drawn.append([over_time(it, first, last, left, width, height) for it in there])
    figures = {}
    for graph, (wide, count), (narrow, _) in zip(there, *drawn):
        figures[graph.name] = (f'<figure><div class="wide">{wide}</div><div class="narrow">{narrow}</div>'
                               f'<figcaption>{drawn_told(graph, count)}</figcaption></figure>')
    return [f'<h2>{it.name[0].upper()}{it.name[1:]}</h2>{figures.get(it.name) or f"<p>There is no {it.without}.</p>"}' for it in graphs]


def distributions_part(all_series):
    parts = []
    for series in all_series:
        if len(series):
            drawn, told = distribution(series)
            parts.append(f'<figure>{drawn}<figcaption>{told}</figcaption></figure>')
    return f'<h2>Distributions</h2><div class="pair">{"".join(parts)}</div>'


def beware_part(said):
    lines = ''.join(f'<p>{escape(it)}</p>' for it in said.warnings)
    return f'<div class="beware" id="beware" role="alert">{lines}</div>' if lines else ''


def empty_part(content, said):
    """Why there is nothing to see."""
    why = f'<p>What {content.TOOL} said on standard error would tell why.</p>'
    if said.lines:
        why = f'<p>{content.TOOL} said:</p><pre>' + escape('\n'.join(said.lines)) + '</pre>'
    return f'<div class="beware" id="empty" role="alert"><p>{content.EMPTY}</p>{why}</div>'


def page(content, said, command):
    """The whole page, which is well-formed as XML, too."""
    is_there = any(content.counts.values())
    parts = [f'<h1>{escape(content.title())}</h1>', when(content) + content.ABOUT if is_there else '', watched_part(content, said), beware_part(said)]
    if is_there:
        parts += content.parts(said)
        if said.lines:
            parts.append(f'<h2>What {content.TOOL} said</h2><pre id="said">{escape(chr(10).join(said.lines))}</pre>')
    else:
        parts.append(empty_part(content, said))
    parts.append(f'<h2>How this page was made</h2><pre id="command">{escape(command)}</pre>')
    head = ('<meta charset="utf-8"/><meta name="viewport" content="width=device-width, initial-scale=1"/>'
            '<meta http-equiv="Content-Security-Policy" content="default-src \'none\'; style-src \'unsafe-inline\'"/>'
            f'<title>{escape(content.subject(said))}</title><style>{STYLE}</style>')
    text = f'<!DOCTYPE html>\n<html lang="en"><head>{head}</head><body>\n' + '\n'.join(it for it in parts if it) + '\n</body></html>\n'
    # characters that no page may have, from what was said
    return re.sub('[\x00-\x08\x0b\x0c\x0e-\x1f\x7f-\x9f\ufffe\uffff]', '\ufffd', text)
