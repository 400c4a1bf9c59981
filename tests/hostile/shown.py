"""A reader of datagrams that was written apart from the program: what `show` owes for an input."""
import collections
import functools
import re
import struct

from texts import fault_at_line, port, seconds

# What each message type is called, and how long its fields are.
TYPES = {0: ('Sync', 44), 1: ('Delay_Req', 44), 8: ('Follow_Up', 44), 9: ('Delay_Resp', 54)}

# The correction that says that it is too big.
TOO_BIG = 2**63 - 1


# A message, with its kind, its timestamp in units of 2^-16 ns, and how many octets stand behind its fields; and where its fields stand.
Message = collections.namedtuple('Message', 'kind domain two_step unicast correction source sequence stamp requesting log suffix')
HEAD = struct.Struct('>BBHBBHqI10sHBbHII')


def lines_of(text):
    """The lines of an input, without their ends."""
    lines = text.split(b'\n')
    return lines if lines[-1] else lines[:-1]


def number(octets):
    return int.from_bytes(octets, 'big')


def refusal(octets):
    """The first refusal that applies to a datagram, or None."""
    if len(octets) < 34:
        return 'refused 201'
    if octets[1] % 16 != 2:
        return 'refused 202'
    if octets[0] % 16 not in TYPES:
        return f'refused 203 type {octets[0] % 16}'
    length = number(octets[2:4])
    if length < TYPES[octets[0] % 16][1]:
        return 'refused 204'
    if length > len(octets):
        return 'refused 205'
    return 'refused 206' if number(octets[40:44]) >= 10**9 else None


@functools.lru_cache(2**16)
def message(octets):
    """What a datagram says: a message, or the refusal in words."""
    refused = refusal(octets)
    if refused:
        return refused
    kind, least = TYPES[octets[0] % 16]
    _, _, length, domain, _, flags, correction, _, source, sequence, _, log, high, low, nanoseconds = HEAD.unpack_from(octets)
    stamp = ((high * 2**32 + low) * 10**9 + nanoseconds) * 2**16
    requesting = octets[44:54] if least == 54 else None
    return Message(kind, domain, bool(flags & 0x200), bool(flags & 0x400), correction, source, sequence, stamp, requesting, log, length - least)


def fields(octets):
    """The fields of a datagram that isn't refused, as they are printed."""
    said = message(octets)
    requesting = f' requesting={port(said.requesting)}' if said.requesting else ''
    return (f'{said.kind} sdo={octets[0] // 16:x}{octets[5]:02x} version=2.{octets[1] // 16} domain={said.domain} flags={octets[6:8].hex()}'
            f' correction={"too-big" if said.correction == TOO_BIG else said.correction} specific={octets[16:20].hex()}'
            f' source={port(said.source)} seq={said.sequence} control={octets[32]} log={said.log}'
            f' stamp={seconds(said.stamp // 2**16)}{requesting} suffix={said.suffix} used={number(octets[2:4])}')


def read(line, form):
    """What a line says by its form, and the fault if it has one."""
    if len(line) > 4096:
        return None, 803
    said = form.fullmatch(line[:-1] if line.endswith(b'\r') else line)
    return said, None if said else 806


DIGITS = re.compile(rb'(?:[0-9a-fA-F]{2})*')


def shown(text):
    """The status, standard output and standard error of `show`."""
    written = []
    for place, line in enumerate(lines_of(text), 1):
        said, fault = read(line, DIGITS)
        if fault:
            return 3, ''.join(written).encode(), fault_at_line(fault, place).encode()
        octets = bytes.fromhex(said[0].decode())
        written.append((refusal(octets) or fields(octets)) + '\n')
    return 0, ''.join(written).encode(), b''
