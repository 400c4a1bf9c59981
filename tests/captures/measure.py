"""Holds what `ptpx measure` writes of captures to the reports that the reader of tests/hostile has of the datagrams that are owed at one interface. Which
interface that is, which of its datagrams are heard, and what is told at the end, says choosing.py over what reading.py finds; of the packets `ptpx extract`
tells the same.

- Captures of exchanges at one interface and at several, with options and without, are made by exchanging.py.
- Captures of every form, without exchanges, are those of captures.py, also cut at each octet, bent and broken.
- A capture that comes bit by bit is answered packet by packet.
- Inputs that are no capture are lines, whatever they begin with.
- A writer and a reader that fail are told at the packet, or at a line before all packets.
- Ctrl-C in a pipe that keeps it from the program ends a capture as it comes, and what came is told."""
import collections
import functools
import os
import random
import signal
import subprocess
import time
import typing

import bending
import cases
import choosing
import exchanging
import inputs
import judges
import measured
import pausing
import reading
import texts
from asking import EXAMPLE, PCAP_ALONE, Made, fail, hold, try_kinds
from choosing import Wanted
from program import PROGRAM, TOP, Ended, ask, ask_to_full_device, begin, lines_from, write

HEAD = b'time,offset_ns,path_ns,by,line\n'
WHOLE = b'ptpx: all times are of whole microseconds\n'
NO_INTERFACE = b'ptpx: lines have no interface, so --interface changes nothing\n'

# What is wrong with a capture.
WORDS = {1002: "the version of the capture isn't known", 1003: 'the octets that tell the order of numbers are none', 1004: "a length can't be",
         1005: "a packet is of an interface that wasn't described", 1006: 'the capture ends within a packet or a block'}

# What must have been seen.
SEEN = [*(f'fault {number}' for number in WORDS), 'no fault', 'report', 'no report', 'measured at another than the first', 'not measured', 'too early']


class Case(typing.NamedTuple):
    octets: bytes
    wanted: Wanted = Wanted()


def reports(choice, is_csv):
    """The reports that are owed, of the datagrams that are heard."""
    measurer = choice.watch and measured.Measurer(choice.watch.known(), is_csv)
    return (HEAD if is_csv else b'') + ''.join(measurer.hear(it.read()) for it in choice.heard()).encode()


def fault_text(fault):
    """How a fault is told, as number, octet and packets."""
    return f'{texts.fault_at_octet(*fault)}: {WORDS[fault[0]]}\n'.encode()


def told(case, answer, choice):
    """What is owed on standard error: whom it is of, the fault, what `extract` tells of the packets, and what is told of the interfaces."""
    fault = fault_text(answer.fault) if answer.fault else b''
    at_once, sentences = (texts.told(those).encode() for those in (choice.at_once(), choice.sentences()))
    extracted = ask(case.octets, 'extract', *case.wanted.interface_arguments()).errors
    if not extracted.startswith(fault):
        fail(f'extract tells {extracted[:300]!r}', case.octets)
    return at_once + fault + extracted[len(fault):].removesuffix(WHOLE) + sentences


def owed_lines(case, is_csv):
    """What is owed where an input is lines, by the reader of recordings of tests/hostile."""
    given = measured.Options(case.wanted.slave, case.wanted.master, case.wanted.domain, is_csv)
    owed = measured.measured(case.octets, given)
    fault = texts.fault_at_line(*owed.fault).encode() if owed.fault else b''
    note = b'' if case.wanted.interface is None else NO_INTERFACE
    empty = b'' if case.octets else b'ptpx: the input is empty\n'
    return Ended(3 if owed.fault else 0, owed.output, owed.at_once + fault + empty + note + owed.summary)


def owed(case, is_csv):
    """What is owed for a case, and what was seen."""
    answer = reading.read(case.octets, case.wanted.interface)
    if answer.fault and answer.fault[0] == 1001:
        return owed_lines(case, is_csv), ['lines']
    choice = choosing.Choice(case.wanted, answer.rows)
    written = reports(choice, is_csv)
    seen = [f'fault {answer.fault[0]}' if answer.fault else 'no fault', 'report' if written.strip() != (HEAD.strip() if is_csv else b'') else 'no report']
    if choice.measured is None:
        seen.append('not measured')
    elif choice.measured != next(iter(choice.looked)):
        seen.append('measured at another than the first')
    if choice.measured and choice.parts()[0]:
        seen.append('too early')
    return Ended(3 if answer.fault else 0, written, told(case, answer, choice)), seen


def see(name, octets, wanted=Wanted(), forms=(True,)):
    """Ends where an answer is wrong. Else answers what was seen."""
    case, counts = Case(octets, wanted), collections.Counter()
    for is_csv in forms:
        answer, seen = owed(case, is_csv)
        arguments = ['measure', *(['--csv'] if is_csv else []), *wanted.arguments()]
        hold(f'{name}: {arguments}', octets, arguments, answer)
        counts.update(seen)
    return counts


def see_both(*case):
    """The same as a table and as JSON."""
    return see(*case, forms=(True, False))


def at_one_interface():
    """The captures that are made by hand, each with what its interfaces are called, and with a name that none has."""
    return [(f'{name} at {one!r}', octets, wanted._replace(interface=one))
            for name, octets, wanted in cases.made_by_hand() if cases.is_pcapng(octets) for one in cases.interfaces(octets)]


def taped(number):
    capture, wanted = exchanging.taped(number)
    return bytes(capture.octets), wanted, [number % 2 == 0]


def of_bent_exchanges(number):
    """A capture of exchanges of which numbers, or single octets, were changed."""
    rng = random.Random(f'bent exchanges {number}')
    capture = rng.choice([exchanging.pcap(exchanging.talk()), exchanging.pcapng(['eth0', None], exchanging.talk(0), exchanging.talk(1, **exchanging.OTHER))])
    octets = bytes(capture.octets)
    for _ in range(rng.choice([1, 1, 2])):
        octets = rng.choice([bending.set_number, inputs.change_octets])(rng, octets)
    return octets


# Inputs that begin with no magic: of no octet, of fewer than four, with an LF among these, and with octets that are nearly a magic.
LINES = [b'', b'\n', b'\n\n', b'\n\n\n\n', b'1\n', b'12\n', b'123\n', b'1 \n\n1 00\n', b'\r\n', b'1', b'1 ', b'1 0', b'1 00', b'1.5 ', b'10 \n', b'0 \n', b'0 \n1 \n2 \n', b'0.1 \n', b'M\n1 00\n', b'\xa1\n\n\n\n', b'\xd4 \n1 00\n', b'10 00\n', b'10 00\r\n\n',
         b'\xa1', b'\xa1\xb2', b'\xa1\xb2\xc3', b'\x0a', b'\x0a\x0d', b'\x0a\x0d\x0d', b'\x0a\x0d\x0d\x0d', b'\xef\xbb\xbf1 00\n',
         b'\n1 00\n1 00\n', b'1.000000000 00\n2 00\nx\n']


def inputs_of_lines():
    """Inputs that are no captures; for an interface one in four is asked."""
    near = [magic[:place] + bytes([magic[place] ^ 1 << bit]) + magic[place + 1:] for magic in reading.MAGICS for place in range(4) for bit in range(8)]
    rest = EXAMPLE.read_bytes()[4:400]
    messages = ''.join(reading.line(time, octets) for _, time, octets in exchanging.talk()).encode()
    those = [*LINES, messages, messages[:-1], *(magic + rest for magic in dict.fromkeys(near) if magic not in reading.MAGICS)]
    return [(octets, Wanted(interface=b'eth0' if number % 4 == 0 else None)) for number, octets in enumerate(those)]


def edited():
    """What other programs make of the example, where they are there."""
    return list(judges.edited(EXAMPLE)) if judges.are_there('editcap', 'mergecap') else []


# Of each kind what sees a case, and the cases.
KINDS = {
    'of exchanges': (see_both, cases.made_by_hand),
    'of exchanges at one interface': (see_both, functools.cache(at_one_interface)),
    'of exchanges by a seed': (see, Made(300, taped)),
    'cut': (see, cases.cuts_of_exchanges),
    'of every form': (see, Made(200, cases.of_every_form)),
    'bent': (see, Made(400, bending.bent)),
    'of exchanges, bent': (see, Made(500, of_bent_exchanges)),
    'that are none, but lines': (see_both, functools.cache(inputs_of_lines)),
    'by editcap and mergecap': (see_both, functools.cache(edited)),
}


def try_pauses(capture):
    """Waits for the reports of what is whole before it goes on."""
    owed_rows = owed(Case(bytes(capture.octets)), True)[0].output
    numbers = [int(line.split(b',')[-1]) for line in owed_rows.splitlines()[1:]]
    pausing.try_pauses(capture, ['measure', '--csv'], owed_rows, lambda packets, _: 1 + sum(number <= packets for number in numbers))


def try_devices():
    """A writer that fails, at the head of a table and at a report, and a reader that does."""
    capture = exchanging.pcap(exchanging.talk())
    # the first report is that of the fourth packet, which begins where the third ends
    at_packet = texts.fault_at_octet(802, capture.ends[3][0], 3) + '\n'
    for arguments, text in [(['--csv'], texts.fault_at_line(802, 0)), ([], at_packet)]:
        ended = ask_to_full_device(bytes(capture.octets), 'measure', *arguments)
        # whom it watches is told before the first report
        told = [it for it in ended.errors.decode().splitlines(True) if ', told by packet ' not in it]
        if ended.status != 3 or told[:1] != [text]:
            fail(f'measure to a full device: status {ended.status}, {ended.errors[:200]!r}, and {text!r} is owed')
    folder = os.open(TOP, os.O_RDONLY)
    ended = subprocess.run([PROGRAM, 'measure'], stdin=folder, capture_output=True, timeout=60)
    os.close(folder)
    if ended.returncode != 3 or not ended.stderr.startswith(texts.fault_at_line(801, 1).encode()):
        fail(f'measure of a folder: status {ended.returncode}, {ended.stderr[:200]!r}')


def try_pipes():
    captures = [exchanging.pcap(exchanging.talk()), exchanging.pcapng(['eth0', 'eth1'], exchanging.syncs(0), exchanging.talk(1))]
    for capture in captures[:1] if PCAP_ALONE else captures:
        try_pauses(capture)
    print('captures: measured bit by bit')


# What README and TUTORIAL give for a capture as it comes, with `cat` in the place of tcpdump, which ends at Ctrl-C, too.
LIVE = 'cat | (trap \'\' INT; exec "$0" measure)'


def try_interrupted():
    """Ctrl-C in the middle of a capture that comes slowly: what came is measured, and told at the end."""
    capture = exchanging.pcap(exchanging.talk(count=3))
    octets, end = bytes(capture.octets), capture.ends[8][0]
    owed_lines = owed(Case(octets[:end]), False)[0].output
    with begin(command=('sh', '-c', LIVE, PROGRAM), errors=subprocess.PIPE, start_new_session=True) as process:
        for place in range(0, end, 100):
            write(process, octets[place:min(place + 100, end)])
            time.sleep(0.01)
        answered = lines_from(process, owed_lines.count(b'\n'))
        os.killpg(process.pid, signal.SIGINT)
        rest, told = process.communicate(timeout=60)
    if answered + rest != owed_lines or b'ptpx: offsets at a Sync: ' not in told:
        fail(f'measure of what came until Ctrl-C answers {answered + rest!r} and {told.decode()!r}', octets[:end])


def main():
    try_kinds(__name__, 'measured')
    try_devices()
    try_pipes()
    try_interrupted()
