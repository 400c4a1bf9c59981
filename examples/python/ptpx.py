#!/usr/bin/env python3
"""Shows datagrams as `ptpx show` does, by the library for C: one a line in hexadecimal on standard input.

    cc -shared -Wl,--whole-archive libptpx.a -Wl,--no-whole-archive -o libptpx.so
    ./ptpx.py ./libptpx.so < datagrams.hex

It calls the library's own calls, which don't test for null, and states each result's type: the upper bits of a register
may hold anything.
"""
import ctypes
import sys
from ctypes import c_int8, c_int64, c_size_t, c_uint8, c_uint16, c_uint32, c_uint64

NAMES = {0: "Sync", 1: "Delay_Req", 8: "Follow_Up", 9: "Delay_Resp"}


class Timestamp(ctypes.Structure):
    _fields_ = [("seconds", c_uint64), ("nanos", c_uint32)]


class Identity(ctypes.Structure):
    _fields_ = [("clock", c_uint8 * 8), ("port", c_uint16)]

    def __str__(self):
        return f"{bytes(self.clock).hex()}/{self.port}"


class Message(ctypes.Structure):
    _fields_ = [("kind", c_uint8), ("domain", c_uint8), ("major_sdo", c_uint8), ("minor_sdo", c_uint8),
                ("minor_version", c_uint8), ("flags", c_uint8 * 2), ("correction", c_int64), ("specific", c_uint8 * 4),
                ("source", Identity), ("sequence", c_uint16), ("log", c_int8), ("control", c_uint8),
                ("timestamp", Timestamp), ("requesting", Identity), ("suffix_length", c_uint16)]


def decoder(path):
    """The library's decoder: octets to a message, or to the number of a refusal."""
    call = ctypes.CDLL(path).ptpx_raw_decode
    call.restype = c_uint16
    call.argtypes = [ctypes.POINTER(c_uint8), c_size_t, ctypes.POINTER(Message)]

    def decode(octets):
        message = Message()
        refusal = call((c_uint8 * max(len(octets), 1)).from_buffer_copy(octets or b"\0"), len(octets), message)
        return refusal or message
    return decode


def shown(message, octets):
    """The line of `ptpx show` for a message, or for the number of a refusal."""
    if isinstance(message, int):
        return f"refused {message}" + (f" type {octets[0] % 16}" if message == 203 else "")
    requesting = f" requesting={message.requesting}" if message.kind == 9 else ""
    used = message.suffix_length + (54 if message.kind == 9 else 44)
    return (f"{NAMES[message.kind]} sdo={message.major_sdo:x}{message.minor_sdo:02x} version=2.{message.minor_version} "
            f"domain={message.domain} flags={bytes(message.flags).hex()} correction={message.correction} "
            f"specific={bytes(message.specific).hex()} source={message.source} seq={message.sequence} "
            f"control={message.control} log={message.log} "
            f"stamp={message.timestamp.seconds}.{message.timestamp.nanos:09d}{requesting} "
            f"suffix={message.suffix_length} used={used}")


if __name__ == "__main__":
    decode = decoder(sys.argv[1])
    for line in sys.stdin:
        octets = bytes.fromhex(line)
        print(shown(decode(octets), octets))
