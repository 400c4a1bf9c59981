"""Reads the tables of frames, captures and interfaces that were worked by hand."""
import pathlib
import re

HERE = pathlib.Path(__file__).resolve().parent
REPEATED = re.compile(r'((?:[0-9a-f]{2})+)(?:\*(\d+))?')


def octets(text, words):
    """The octets that a field stands for: hexadecimal, `ab*20` for twenty times ab, and words."""
    pieces = []
    for part in text.split():
        if part in words:
            pieces.append(words[part])
            continue
        it = REPEATED.fullmatch(part)
        if not it:
            raise ValueError(f'{part} is neither octets nor a word')
        pieces.append(bytes.fromhex(it[1]) * int(it[2] or 1))
    return b''.join(pieces)


def rows(name):
    """The rows of a table: the place of each, its fields, and the words before it."""
    words = {}
    for place, line in enumerate((HERE / name).read_text().splitlines(), 1):
        if not line or line.startswith('#'):
            continue
        fields = line.split('\t')
        if line.startswith('='):
            words[fields[0][1:]] = octets(fields[1], words)
        else:
            yield place, fields, words


def frames():
    """Of each row its place, the link type, the packet, the datagram or None, and what becomes of the packet."""
    for place, (link, packet, wanted, _), words in rows('frames.tsv'):
        outcomes = {'none': 'none', 'fragment': 'fragment', 'long': 'long', 'link': f'link {link}'}
        datagram = None if wanted in outcomes else octets('' if wanted == 'empty' else wanted, words)
        yield place, int(link), octets(packet, words), datagram, outcomes.get(wanted, 'datagram')


def captures():
    """Of each row its place, the capture, the fault or None, how many packets there are, and the lines."""
    for place, (capture, fault, lines, _), words in rows('captures.tsv'):
        number, *at, packets = fault.split()
        text = '' if lines == 'nothing' else lines.replace('; ', '\n') + '\n'
        yield place, octets(capture, words), (int(number), int(at[0]), int(packets)) if at else None, int(packets), text.encode()


def interfaces():
    """Of each row its place, the capture, the interface's name, and the datagrams."""
    for place, (capture, name, lines, _), words in rows('interfaces.tsv'):
        yield place, octets(capture, words), name, [bytes.fromhex(line) for line in lines.split('; ')]
