"""What `ptpx measure` owes of a slave's own readings, by judge.py's reader of them, over fractions, and apart from all code of the
repository."""
import judge


def stamped(octets, place):
    """A time of a record, with nine decimals."""
    return f'{int.from_bytes(octets[place:place + 6], "big")}.{int.from_bytes(octets[place + 6:place + 10], "big"):09}'


def reports(lines, slave=None):
    """Each report of lines whose own readings are measured: of one slave, the first that tells any or one whose clockIdentity is asked
    for. A Sync completes one where an exchange came before it, and an exchange where a Sync did."""
    sync = exchange = None
    for count, line in enumerate(lines, 1):
        octets = bytes.fromhex(line.split()[1])
        told = judge.records(octets)
        if not told or slave not in (None, octets[20:28]):
            continue
        slave = octets[20:28]
        for kind, them, master in told:
            record = judge.Record(kind, them, master, count)
            if kind == 'Sync':
                sync = record
            else:
                exchange = record
            if not sync or not exchange:
                continue
            path = judge.delay(sync, exchange)
            yield {
                'by': 'own sync' if kind == 'Sync' else 'own response',
                'line': count,
                'offset': judge.decimals(sync.bracket - path),
                'path': judge.decimals(path),
                'tags': [sync.line, None, exchange.line, exchange.line],
                'time': stamped(them, 24 if kind == 'Sync' else 2),
            }
