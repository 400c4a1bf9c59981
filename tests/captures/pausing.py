"""Gives the program captures bit by bit, and ones that are larger than what it may keep."""
import functools
import itertools
import os
import subprocess
import tempfile

import making
import reading
from asking import fail
from cases import FRAME
from making import SECOND
from program import PROGRAM, begin, lines_from, write

# No run takes more, in KiB.
MEMORY = 64 * 1024


def try_pauses(capture, arguments, owed, lines_of):
    """Writes a capture up to the middle of a packet or block each time, and waits for the lines of what is whole before it goes on: as many as are those of
    the packets and the datagrams so far."""
    octets, written, answered = bytes(capture.octets), 0, b''
    with begin(*arguments) as process:
        for (end, *whole), (following, *_) in itertools.pairwise(capture.ends):
            pause, lines = (end + following) // 2, lines_of(*whole)
            write(process, octets[written:pause])
            answered += lines_from(process, lines - answered.count(b'\n'))
            if answered.count(b'\n') != lines:
                fail(f'{lines} lines of {arguments} are owed once the next packet or block has {pause - end} octets', octets)
            written = pause
        rest, _ = process.communicate(octets[written:])
    if answered + rest != owed or process.returncode:
        fail(f'a capture that comes with pauses has another answer of {arguments}', octets)


def try_octet_by_octet(capture):
    """Writes a capture so that each of its octets may be read alone."""
    octets = bytes(capture.octets)
    with begin('extract') as process:
        for octet in octets:
            write(process, bytes([octet]))
        answered, _ = process.communicate()
    if answered != reading.read(octets).text() or process.returncode:
        fail('a capture that comes octet by octet has another answer', octets)


def large(is_pcapng, size):
    """What stands in front of so many octets of a packet or a block, and behind them, where a packet comes before and after."""
    if is_pcapng:
        capture = making.Pcapng()
        capture.section()
        capture.interface()
        packet = functools.partial(capture.enhanced, 0)
        length = capture.number(size + 12, 4)
        head, tail = capture.number(5, 4) + length, length
    else:
        capture = making.Pcap()
        packet = capture.packet
        head, tail = bytes(8) + 2 * capture.number(size, 4), b''
    packet(SECOND, FRAME)
    front = bytes(capture.octets)
    packet(2 * SECOND, FRAME)
    return front + head, tail + bytes(capture.octets[len(front):])


def try_large(is_pcapng, size):
    """Gives so many octets from a file in which no disk is taken by them."""
    with tempfile.TemporaryFile() as file:
        head, tail = large(is_pcapng, size)
        file.write(head)
        file.seek(size, os.SEEK_CUR)
        file.write(tail)
        file.seek(0)
        process = subprocess.Popen([PROGRAM, 'extract'], stdin=file, stdout=subprocess.PIPE, stderr=subprocess.DEVNULL)
        answered = process.stdout.read()
        _, status, used = os.wait4(process.pid, 0)
    if (status, answered) != (0, b'1.000000000 cafe\n2.000000000 cafe\n') or used.ru_maxrss > MEMORY:
        fail(f'{size} octets of a {"block" if is_pcapng else "packet"}: status {status}, {answered!r}, {used.ru_maxrss} KiB')
