"""Cases of each kind."""
import functools
import random

import bending
import exchanging
import made
import making
import reading
from asking import EXAMPLE, Case, Made
from choosing import Wanted
from making import SECOND

# How many headers a capture has that are bent.
BENT = 400


def case_made(number):
    """A capture of some form; one in four at one interface, one in four without times."""
    capture, rng = made.capture(number), random.Random(f'case {number}')
    octets, kind = bytes(capture.octets), rng.randrange(4)
    names = [name for _, name in capture.named]
    # a name at two places, in two sections, is that of two interfaces
    single = sorted(name for name in names if names.count(name) == 1)
    if kind == 0 and single:
        name = rng.choice(single)
        return Case(octets, capture.lines(name), interface=name)
    return Case(octets, capture.lines(), capture.counts, is_timed=kind != 1)


# What the small captures have at their interfaces: a frame, and a packet of whose datagram the snap length leaves two octets.
FRAME = making.ethernet(making.bare(b'\xca\xfe'), making.PTP)
CUT = making.cooked(making.ipv4(making.udp(making.bare(b'\xbe\xef\0'))), making.IPV4), 46


def small_pcap(order, unit):
    capture = making.Pcap(order, unit)
    for time in (0, 1000 * SECOND + 1000, SECOND):
        capture.packet(time, FRAME)
    return capture


def small_pcapng(order, other_order):
    """All blocks that have a number or say something, with options, and two sections."""
    capture = making.Pcapng(order)
    capture.section(options=[(4, b'made')])
    capture.interface(name='eth0', clock=making.Clock(9, 5), before=[(1, b'')], after_end=bytes(4))
    capture.enhanced(0, 6 * SECOND, FRAME, options=[(2, bytes(4))])
    capture.other(5, bytes(4))
    capture.interface(making.COOKED)
    capture.simple(FRAME)
    capture.old(0, FRAME)
    capture.enhanced(1, 7 * SECOND, *CUT)
    capture.section(other_order)
    capture.interface()
    capture.enhanced(0, 8 * SECOND, FRAME)
    return capture


SMALL = [small_pcap('little', 1000), small_pcap('big', 1), small_pcapng('little', 'big'), small_pcapng('big', 'little')]


def cut(capture, size):
    """So many octets of a capture."""
    end, packets, lines = max(it for it in [(0, 0, 0), *capture.ends] if it[0] <= size)
    fault = (1001, 0, 0) if size < 4 else (1006, end, packets) if size != end else None
    return Case(bytes(capture.octets[:size]), capture.lines()[:lines], fault=fault)


def cuts_of(captures, make=cut):
    """Each capture with each number of its octets."""
    return [make(capture, size) for capture in captures for size in range(len(capture.octets) + 1)]


@functools.cache
def cuts():
    return cuts_of(SMALL)


@functools.cache
def lengths():
    """Each small capture with other values for each of its lengths."""
    return [octets for capture in SMALL for octets in bending.all_lengths(capture)]


# Cases of `extract` of each kind.
KINDS = {'made': Made(600, case_made), 'cut': cuts, 'with another length': lengths, 'bent': Made(10_000, bending.bent),
         f'of {BENT} bent packets each': Made(100, lambda number: bending.bent_packets(number, BENT))}


def of_every_form(number):
    """A capture of some form."""
    return bytes(made.capture(number).octets)


@functools.cache
def cuts_of_exchanges():
    """Small captures of exchanges, and of every block, with each number of their octets."""
    small = [exchanging.pcap(exchanging.talk(count=1)), exchanging.pcapng(['eth0', 'eth1'], exchanging.junk(0, 1), exchanging.talk(1, count=1)), SMALL[0], SMALL[2]]
    return cuts_of(small, lambda capture, size: bytes(capture.octets[:size]))


@functools.cache
def made_by_hand():
    """The captures of exchanging.py, and the example: the name, the octets and what is asked for, of each."""
    return [('the example', EXAMPLE.read_bytes(), Wanted()), *((name, bytes(capture.octets), wanted) for name, capture, wanted in exchanging.all_made())]


def is_pcapng(octets):
    return octets[:4] == reading.SECTION_TYPE


def interfaces(octets):
    """What the interfaces are called at which datagrams are met, and a name that none has."""
    return [*sorted({row.interface.name for row in reading.read(octets).rows}), b'eth9']
