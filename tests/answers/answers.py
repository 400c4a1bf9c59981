"""What `ptpx` answers to arguments and an input is what a row says, of each row in the files `*.rows`.

A row has, with tabs between them, the arguments, of which the first is the program's own name, the input, the output, what is said on
standard error, and the status. ` | ` stands between arguments, and between inputs, that are answered alike. In a field

- `%` and two hexadecimal digits stand for an octet that can't be seen, and for `%`, `*` and `@`; `%{4096 x}` for so many of one,
  and `%[d4c3 b2a1]` for octets in hexadecimal;
- a star in what is wanted stands for any text;
- `@exchange.schedule.jsonl` stands for that file beside this one or of examples/, or with `..4` behind it for its first four lines; with `5 => TEXT`
  for the file with this text as its line 5, and with `5 OLD => NEW` for the file with one text in the place of another in that line."""
import itertools
import re
import sys
from pathlib import Path

from program import EXAMPLES, PROGRAM, ended_of

HERE = Path(__file__).resolve().parent

ESCAPE = re.compile(r'%\{(\d+) (.)\}|%([0-9a-f]{2})|%\[([0-9a-f ]+)\]')
EXAMPLE = re.compile(r'@(\S+)(?: \.\.(\d+)| (\d+) (?:(.+) )?=> (.*))?')


def octets(text):
    """The octets that a text of a row stands for."""
    return ESCAPE.sub(octets_of_escape, text).encode('latin-1')


def octets_of_escape(it):
    """The octets that what follows a `%` stands for."""
    count, octet, number, numbers = it.groups()
    return int(count) * octet if count else bytes.fromhex(number or numbers).decode('latin-1')


def example(name, first, place, old, new):
    """A file, or its first lines, or the file with another text in one line."""
    file = HERE / name if (HERE / name).exists() else EXAMPLES / name
    lines = file.read_bytes().splitlines(True)[:int(first) if first else None]
    if place:
        line = lines[int(place) - 1]
        if old and octets(old) not in line:
            raise ValueError(f'{old} does not stand in line {place} of {name}')
        lines[int(place) - 1] = line.replace(octets(old), octets(new)) if old else octets(new) + b'\n'
    return b''.join(lines)


def given(field):
    """What a field stands for."""
    it = EXAMPLE.fullmatch(field)
    return example(*it.groups()) if it else octets(field)


def is_wanted(field, written):
    """Whether a text is what a field wants."""
    if field.startswith('@'):
        return written == given(field)
    return re.fullmatch(b'.*'.join(re.escape(octets(part)) for part in field.split('*')), written, re.DOTALL) is not None


def rows():
    """Each row as it is of one call and one input, and where it stands."""
    for file in sorted(HERE.glob('*.rows')):
        for number, row in enumerate(file.read_text().splitlines(), 1):
            if row and not row.startswith('#'):
                calls, sent, rest = row.split('\t', 2)
                for call, one in itertools.product(calls.split(' | '), sent.split(' | ')):
                    yield f'{call}\t{one}\t{rest}', f'{file.name}:{number}'


def flaws(row, output, errors, status):
    """What a row doesn't want of what a program wrote and of how it ended."""
    _, _, *wanted, wanted_status = row.split('\t')
    for what, field, written in zip(('output', 'errors'), wanted, (output, errors), strict=True):
        if not is_wanted(field, written):
            yield f'{what} {written!r}'
    if status != int(wanted_status):
        yield f'status {status}'


def differences(row):
    """What comes of a row that it doesn't want."""
    arguments, sent, *_ = row.split('\t')
    ended = ended_of([octets(it) for it in arguments.split(' ')], given(sent), executable=PROGRAM)
    return flaws(row, ended.output, ended.errors, ended.status)


def main():
    some = list(rows())
    failed = [f'answers: {place}: {difference}, for {row}' for row, place in some for difference in differences(row)]
    if failed or not some:
        sys.exit('\n'.join(failed))
    print(f'answers: {len(some)} calls')
