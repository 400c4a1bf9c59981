"""What `ptpx measure` owes for a capture, written apart from it: at which interface and in which of its streams it measures, which datagrams are heard
there, and what it tells of that at the end. The rules are those of FORMATS.md, and the packets those that reading.py finds."""
import typing

import measured
import shown
import streaming
from texts import counted, escaped, port, seconds

# How many datagrams are kept until it is known whom to watch, and how many places are looked at.
KEPT, LOOKED_AT = 1_024, 64


class Wanted(typing.NamedTuple):
    """What is asked for: a number, ports of ten octets, and what an interface is called."""
    domain: int | None = None
    master: bytes | None = None
    slave: bytes | None = None
    interface: bytes | None = None

    def arguments(self):
        said = {'domain': self.domain, 'master': self.master and port(self.master), 'slave': self.slave and port(self.slave)}
        return [*(f'--{name}={value}' for name, value in said.items() if value is not None), *self.interface_arguments()]

    def interface_arguments(self):
        return [] if self.interface is None else [b'--interface=' + self.interface]


class Datagram(typing.NamedTuple):
    """A datagram: the number and the time of its packet, the message that it is, or the refusal in words, and its octets."""
    number: int
    time: int
    said: shown.Message | str
    octets: bytes

    def is_message(self):
        return not isinstance(self.said, str)

    def read(self):
        return measured.Read(self.number, seconds(self.time), self.time * 2**16, self.said, self.octets)


def called(place):
    """What a place is called, an interface and its stream."""
    return escaped(place[0]) + place[1].told()


def watch_of(wanted, datagrams):
    """Whom datagrams are of."""
    watch = measured.Watch(measured.Options(wanted.slave, wanted.master, wanted.domain))
    for it in datagrams:
        watch.look(it.read())
    return watch


def is_met(wanted, datagrams):
    """Whether a message has each of what is asked for."""
    messages = [it.said for it in datagrams if it.is_message()]
    return ((wanted.domain is None or any(said.domain == wanted.domain for said in messages))
            and all(asked is None or any(said.source == asked for said in messages) for asked in (wanted.master, wanted.slave)))


class Choice:
    """What becomes of the packets with PTP: the places that are looked at, streams of interfaces, in order, with the datagrams at each; how many there are
    at others; and the place that is measured, or None."""

    def __init__(self, wanted, rows):
        self.wanted, self.looked, self.others, self.measured, self.watch = wanted, {}, 0, None, None
        # how many datagrams came before the one by which it was known whom to watch, with that one
        self.count = 0
        for row in rows:
            datagram = Datagram(row.number, row.time, shown.message(row.datagram), row.datagram)
            self.take((row.interface.name, self.settled(row)), datagram)

    def settled(self, row):
        """The stream to which a datagram belongs: a Delay_Req or its answer by unicast is of what goes to all where no Sync goes to its slave alone."""
        stream = streaming.stream(row.route, row.datagram)
        if not streaming.is_exchange(row.datagram):
            return stream
        own, to_all = (row.interface.name, stream), (row.interface.name, stream.to_all())
        stays = own in self.looked if self.measured is None else self.measured != to_all
        return stream if stays else stream.to_all()

    def take(self, place, datagram):
        if self.measured is None:
            self.count += 1
            if place in self.looked or len(self.looked) < LOOKED_AT:
                self.looked.setdefault(place, [])
        if place not in self.looked:
            self.others += 1
            return
        self.looked[place].append(datagram)
        if self.measured is None and datagram.is_message() and is_met(self.wanted, self.looked[place]):
            watch = watch_of(self.wanted, self.looked[place])
            if watch.known():
                self.measured, self.watch, self.teller = place, watch, datagram.number

    def parts(self):
        """The datagrams at the interface that is measured: those that came too early, and those that are heard."""
        there = self.looked.get(self.measured, [])
        first = self.teller if self.count > KEPT else 0
        return [it for it in there if it.number < first], [it for it in there if it.number >= first]

    def heard(self):
        return self.parts()[1] if self.measured else []

    def at_once(self):
        """What is told as soon as it is known whom to watch."""
        return list(measured.whom(self.watch, 'packet')) if self.measured else []

    def sentences(self):
        """What is told at the end, but for the packets."""
        are_several = len(self.looked) > 1 or self.others
        if self.measured:
            if are_several:
                yield f'measured at {called(self.measured)}'
            early, heard = self.parts()
            yield from summary(self.watch.known(), early, heard)
            for place, datagrams in self.looked.items():
                if place != self.measured:
                    yield f'{counted(len(datagrams), "datagram")} at {called(place)}, which isn\'t measured'
        else:
            for place, datagrams in self.looked.items():
                if are_several:
                    yield f'at {called(place)}:'
                yield from measured.whom(watch_of(self.wanted, datagrams), 'packet')
                yield from summary(None, datagrams, [])
                yield from measured.callers(self.wanted, [it.said for it in datagrams if it.is_message()])
            if any(stream.vlan for _, stream in self.looked):
                yield ('if the Syncs of a pair are at one of these places and its Delay_Reqs at another, tcprewrite --enet-vlan=del takes tags of VLANs '
                       'away')
        if self.others:
            yield f'{counted(self.others, "datagram")} at other places, which weren\'t looked at: cut the capture by an address or a VLAN (tshark -Y)'


def summary(watched, early, heard):
    """What is told of datagrams that came too early, and of those that were heard."""
    measurer = measured.Measurer(watched, False)
    for it in heard:
        measurer.hear(it.read())
    counts = measurer.counts
    counts.update(f'{it.said.kind} too early' if it.is_message() else it.said for it in early)
    reads = [(it.time * 2**16, it.said) for it in [*early, *heard]]
    yield from measured.summary(counts, reads, measurer.reports, measurer.became, measurer.announced, 'packet')
