"""Asks the reader and the program for a capture's lines, and says what is wrong with what they answer."""
import collections
import concurrent.futures
import dataclasses
import functools
import itertools
import re
import subprocess
import sys
import tempfile
import typing

import program
import reading
from program import EXAMPLES, ask

EXAMPLE = EXAMPLES / 'slave.pcap'

# With --reader the program isn't asked, and with --pcap for captures of that kind alone.
READER_ALONE, PCAP_ALONE = (word in sys.argv[1:] for word in ('--reader', '--pcap'))

# How many cases are tried at once.
AT_ONCE = 4

FAULT = re.compile(rb'^ptpx: fault (\d+) at octet (\d+), after (\d+) packets?: .+\n', re.M)


class Case(typing.NamedTuple):
    """A capture, and what is owed for it where its maker knows: times and datagrams with the fault, and what became of its packets."""
    octets: bytes
    told: list | None = None
    counts: dict | None = None
    fault: tuple | None = None
    interface: str | None = None
    is_timed: bool = True


def is_asked(octets):
    """Whether the program is asked for a capture."""
    return not READER_ALONE and not (PCAP_ALONE and octets[:4] == reading.SECTION_TYPE)


def misread(case, answer):
    """What is wrong with the reader's answer, in words."""
    if case.told is not None and (answer.datagrams, answer.fault) != (case.told, case.fault):
        yield f'the reader has {len(answer.datagrams)} lines, fault {answer.fault}, and {len(case.told)} lines, fault {case.fault} are owed'
    if case.counts is not None and answer.counts != case.counts:
        yield f'the reader counts {dict(answer.counts)}, and {dict(case.counts)} were put in'


def misanswered(case, answer):
    """What is wrong with the program's answer, in words."""
    options = ([] if case.is_timed else ['--octets']) + ([] if case.interface is None else ['--interface', case.interface.encode()])
    ended = ask(case.octets, 'extract', *options)
    owed = answer.text(case.is_timed)
    if ended.output != owed:
        yield difference(ended.output, owed)
    if ended.status != (3 if answer.fault else 0):
        yield f'status {ended.status}'
    faults = [tuple(map(int, it)) for it in FAULT.findall(ended.errors)]
    if faults != ([answer.fault] if answer.fault else []):
        yield f'standard error has {ended.errors[:300]!r}, and the fault is {answer.fault}'


def difference(written, owed):
    """Where two texts differ first."""
    pairs = enumerate(itertools.zip_longest(written.split(b'\n'), owed.split(b'\n')), 1)
    place, pair = next((place, pair) for place, pair in pairs if pair[0] != pair[1])
    one, other = ('nothing' if line is None else repr(line[:200]) for line in pair)
    return f'line {place} is {one}, and {other} is owed'


def hold(name, octets, arguments, owed):
    """Ends where the program doesn't end as is owed over a capture."""
    try:
        ended = ask(octets, *arguments, timeout=600)
    except subprocess.TimeoutExpired:
        fail(f'{name}: no end', octets)
    if ended.status != owed.status:
        fail(f'{name}: status {ended.status}, and {owed.status} is owed', octets)
    for what, one, other in [('standard output', ended.output, owed.output), ('standard error', ended.errors, owed.errors)]:
        if one != other:
            fail(f'{name}: {what}, {difference(one, other)}', octets)


def fail(text, octets=None):
    """Ends with what is wrong, and keeps the capture."""
    if octets is not None:
        with tempfile.NamedTemporaryFile(prefix='capture-', delete=False) as file:
            file.write(octets)
        text += f'; the capture is {file.name}'
    program.fail(text)


def see(name, *case, **more):
    """Ends where the answers to a case are wrong. Else answers what was seen."""
    case = Case(*case, **more)
    answer = reading.read(case.octets, None if case.interface is None else case.interface.encode())
    try:
        wrong = [*misread(case, answer)] or ([*misanswered(case, answer)] if is_asked(case.octets) else [])
    except subprocess.TimeoutExpired:
        wrong = ['no end within a minute']
    if wrong:
        fail(f'{name}: {"; ".join(wrong)}', case.octets)
    return answer.counts + collections.Counter([f'fault {answer.fault[0]}' if answer.fault else 'no fault'])


@dataclasses.dataclass
class Made:
    """So many cases, each of which is made of its number."""
    count: int
    make: typing.Callable

    def __call__(self):
        return self

    def __len__(self):
        return self.count

    def __getitem__(self, number):
        return self.make(number)


def try_one(module, kind, number):
    """Sees a case, which a process makes that is given its number alone. It begins with its name, if it has one."""
    see_one, cases = sys.modules[module].KINDS[kind]
    case = cases()[number]
    parts = case if isinstance(case, tuple) else (case,)
    return see_one(*parts) if isinstance(parts[0], str) else see_one(f'{kind}, number {number}', *parts)


def try_kinds(module, what):
    """Tries all cases of each of a module's kinds, which has what sees a case, and what answers all of them; and says what they were. Ends where one of the
    things that must have been seen never was."""
    seen = collections.Counter()
    with concurrent.futures.ProcessPoolExecutor(AT_ONCE) as pool:
        for kind, (_, cases) in sys.modules[module].KINDS.items():
            count = len(cases())
            for one in pool.map(functools.partial(try_one, module, kind), range(count), chunksize=10):
                seen += one
            print(f'captures: {count} {kind}, {what}')
    missed = [name for name in sys.modules[module].SEEN if name not in seen]
    if missed:
        fail(f'nothing {what} had {", ".join(missed)}')
