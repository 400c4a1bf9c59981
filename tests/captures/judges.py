"""Other programs that read captures: what tshark finds in one, and what editcap and mergecap make of one."""
import datetime
import json
import pathlib
import shutil
import subprocess
import tempfile

from making import SECOND


def are_there(*programs):
    return all(shutil.which(program) for program in programs)


def nanoseconds(text):
    """A time as tshark writes it, as a date or as seconds."""
    whole, _, fraction = text.rstrip('Z').partition('.')
    if 'T' in whole:
        whole = datetime.datetime.fromisoformat(whole + '+00:00').timestamp()
    return int(whole) * SECOND + int(fraction.ljust(9, '0')[:9])


def tshark(octets, interface=None):
    """The time and the octets up to messageLength of each message of PTP that tshark finds, at all interfaces or at one."""
    chosen = f' && frame.interface_name == {json.dumps(interface, ensure_ascii=False)}' if interface is not None else ''
    with tempfile.NamedTemporaryFile() as file:
        file.write(octets)
        file.flush()
        said = subprocess.run(['tshark', '-n', '-r', file.name, '-Y', 'ptp && !icmp && !icmpv6' + chosen, '-T', 'ek', '-x', '-J', 'frame ptp'],
                              stdout=subprocess.PIPE, stderr=subprocess.DEVNULL, check=True, timeout=300).stdout
    layers = [json.loads(line)['layers'] for line in said.splitlines() if not line.startswith(b'{"index"')]
    return [(nanoseconds(it['frame']['frame_frame_time_epoch']), bytes.fromhex(it['ptp_raw'])) for it in layers]


def up_to_length(datagram):
    """A datagram without what stands behind its messageLength."""
    return datagram[:int.from_bytes(datagram[2:4], 'big')]


# What editcap and mergecap make, by their options. Of fewer octets of a message than these leave tshark makes nothing.
EDITS = ['-F pcap', '-F nsecpcap', '-F pcapng', '-F nsecpcap -s 60', '-F pcapng -s 64', '-F pcapng -t 0.5', '-F pcap -t -3600', '-F pcapng -A 2026-11-22T06:32:40Z']
MERGES = ['-F pcapng', '-F pcapng -I none', '-F pcapng -a', '-F nsecpcap', '-F pcap -s 70']


def edited(file):
    """What editcap makes of this file, and mergecap of two that editcap made of it: each with the command."""
    with tempfile.TemporaryDirectory() as folder:
        folder = pathlib.Path(folder)
        for place, options in enumerate(EDITS):
            run('editcap', options, file, folder / str(place))
            yield f'editcap {options}', (folder / str(place)).read_bytes()
        for options in MERGES:
            run('mergecap', options + ' -w', folder / 'merged', folder / '1', folder / '2', folder / '5')
            yield f'mergecap {options}', (folder / 'merged').read_bytes()


def run(program, options, *files):
    subprocess.run([program, *options.split(), *files], check=True, timeout=60, stdout=subprocess.DEVNULL, stderr=subprocess.DEVNULL)
