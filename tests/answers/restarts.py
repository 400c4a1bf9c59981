"""Makes recordings of a master that is ended and started again, and looks at what `ptpx measure` reports of each.

Some are of a few Syncs: behind 1 to 300 of them, with numbers that begin with 0, in the middle, 25,536 or just behind the last one, or go on; at 1 and
at 128 Syncs a second; with messages lost, and where each life lost the other half of a Sync. Others are of 300, which begin at 0 to 65,000, and begin
anew at 0, at 1, amid the old numbers or 5,000 ahead, at 1 and at 8 a second, with 1 to 4 requests an interval; all two-step and one-step. The clock of
the second life is a second ahead, so that a report of both lives says what neither does.

- No report is of messages of two lives, nor of a Sync and a Follow_Up that are a second or more apart.
- Each says the offset and the path delay of its life, and no more.
- If nothing is lost, the second life is heard from its first Sync on, or from the second where each Follow_Up comes before its Sync; each Sync and each
  Delay_Resp brings its report; and the master is said to have begun anew once.

No listener can tell two lives apart where the second goes on within the next 256 numbers at a plausible time, or where no Sync of the first was heard; nor
that a message is of the second one that comes before its first Sync. So of reports that join those nothing is asked."""
import itertools
import json
import random
import re

import reading
import recordings
import texts
from program import ask, fail

MASTER, SLAVE = recordings.MASTERS[0], recordings.SLAVES[0]
SECOND = 10**9

# What the slave is ahead by, and how long a message is on its way, in nanoseconds.
AHEAD, WAY = 5_000, 2_000

# How many Syncs the first life of a short recording has, and Syncs a second with their logMessageInterval.
BEHIND = [*range(1, 25), 31, 64, 100, 128, 200, 255, 256, 257, 258, 299, 300]
LOGS = {1: 0, 8: -3, 128: -7}
SECOND_LIFE = 60

# By what the master's clock of each life is ahead.
CLOCKS = [0, SECOND]

# How many numbers a Sync may be ahead, and how many of these however soon it comes.
REACH, LOST = 256, 16


class Recording:
    """Two lives of a master, with what its slave sends, as the slave's port has them."""

    def __init__(self, rate, two_step, requests=1, follow_first=False):
        self.rate, self.two_step, self.requests, self.follow_first = rate, two_step, requests, follow_first
        self.time, self.request = 1_795_329_143 * SECOND, 0
        # How many exchanges each life has.
        self.exchanges = [0, 0]
        # Of each life its lines, each with kind, time and octets.
        self.said = [], []

    def exchange(self, life, number, lost=frozenset()):
        """A Sync with its Follow_Up, and some Delay_Reqs with their Delay_Resps, but for the kinds that are lost."""
        clock, log, step = CLOCKS[life], LOGS[self.rate], SECOND // self.rate
        stamp = divmod(self.time - AHEAD + clock, SECOND)
        said = [('sync', self.time + WAY, recordings.datagram(0, MASTER, number, two_step=self.two_step, stamp=(0, 0) if self.two_step else stamp, log=log))]
        if self.two_step:
            follow = ('follow', self.time + WAY + (-1_000 if self.follow_first else 100_000), recordings.datagram(8, MASTER, number, stamp=stamp, log=log))
            said.insert(0 if self.follow_first else 1, follow)
        self.exchanges[life] += 1
        for part in range(self.requests):
            later = self.time + SECOND // 1000 + part * step // 8
            said += [('request', later, recordings.datagram(1, SLAVE, self.request, log=127)),
                     ('response', later + 2 * WAY, recordings.datagram(
                         9, MASTER, self.request, stamp=divmod(later + WAY - AHEAD + clock, SECOND), requesting=SLAVE, log=log))]
            self.request = (self.request + 1) % 2**16
        self.said[life].extend(one for one in said if one[0] not in lost)
        self.time += step

    def lines(self):
        return [one for life in self.said for one in life]

    def is_told_apart(self):
        """Whether the first Sync of the second life says that it is none of the first."""
        before, after = ([(int.from_bytes(octets[30:32], 'big'), time) for kind, time, octets in life if kind == 'sync'] for life in self.said)
        if not before or not after:
            return False
        ahead, elapsed = (after[0][0] - before[-1][0]) % 2**16, after[0][1] - before[-1][1]
        return not (1 <= ahead <= REACH and (ahead <= LOST or ahead * SECOND <= 2 * elapsed * self.rate))

    def live(self, first, second, silence, lost=lambda place, life: frozenset()):
        """Exchanges with these numbers of Syncs in each life, and so many seconds between; of those of each place some messages are lost."""
        for life, numbers in enumerate([first, second]):
            self.time += life * silence * SECOND
            for place, number in enumerate(numbers, life * len(first)):
                self.exchange(life, number % 2**16, lost(place, life))
        return self


def short(rng, behind, begin, rate, two_step, losses):
    """A recording of a few Syncs, of which messages may be lost."""
    made, first = Recording(rate, two_step), rng.choice([0, 7, 65_500])
    made.request, last = rng.choice([0, 65_000]), first + behind - 1
    second = {'zero': 0, 'middle': 30_000, 'far behind': last - 25_536, 'behind': last, 'earlier': last - 10, 'on': last + 1}[begin]

    def lost(place, life):
        if losses != 'halves':
            return {kind for kind in ('sync', 'follow', 'request', 'response') if rng.random() < losses}
        # the first life keeps Syncs without their Follow_Ups, or these without their Syncs, and the second the other half
        return {'follow' if life == (place % 2) else 'sync'} if abs(place - behind) < 12 or place < 12 else set()
    return made.live(range(first, last + 1), range(second, second + SECOND_LIFE), rng.choice([3, 20]), lost)


def long(first, begin, rate, two_step, requests, follow_first):
    """A recording of 300 Syncs, and of as many behind 3 s without any."""
    second = {'0': 0, '1': 1, 'amid': first + 150, 'ahead': first + 299 + 5000}[begin]
    return Recording(rate, two_step, requests, follow_first).live(range(first, first + 300), range(second, second + 300), 3)


def measured(lines):
    """What `ptpx measure` reports of these lines, for this master and slave, how often it says that the master began anew, and at which line first."""
    arguments = ['--master', texts.port(MASTER), '--slave', texts.port(SLAVE), '--domain', '0']
    ended = ask(''.join(reading.line(time, octets) for _, time, octets in lines).encode(), 'measure', *arguments)
    if ended.status:
        fail(f'measure ends with status {ended.status}: {ended.errors!r}')
    anew = re.search(rb'beware: the master began its numbers anew (once|[0-9]+ times), (?:first )?at line ([0-9]+), at ', ended.errors)
    often, place = (int(anew[1].split()[0].replace(b'once', b'1')), int(anew[2])) if anew else (0, None)
    return [json.loads(line) for line in ended.output.splitlines()], often, place


def wrong(made, nothing_lost):
    """What is wrong with the reports of a recording, in words, and how many reports there are."""
    lines = made.lines()
    reports, anew, anew_line = measured(lines)
    life = lambda line: int(line > len(made.said[0]))
    syncs = [place for place, (kind, _, _) in enumerate(lines, 1) if kind == 'sync' and life(place)]
    faults = []
    for report in reports:
        sync, follow, request, response = report['tags']
        told = {life(line) for line in report['tags'] if line is not None}
        if follow is not None and (life(sync) != life(follow) or abs(lines[sync - 1][1] - lines[follow - 1][1]) >= SECOND):
            faults.append(f'Sync {sync} and Follow_Up {follow} are of two lives, or a second or more apart')
        if len(told) == 1:
            if report['offset'] != str(AHEAD - CLOCKS[max(told)]) or report['path'] != str(WAY):
                faults.append(f'offset {report["offset"]}, path delay {report["path"]} at line {report["line"]}')
        elif made.is_told_apart() and report['line'] >= syncs[0]:
            faults.append(f'{report["tags"]} are of two lives')
    if nothing_lost:
        # the Follow_Up of the Sync by which a life is found is forgotten where it came before
        apart, (first, second), per = made.is_told_apart(), made.exchanges, 1 + made.requests
        owed = first * per - 1 + (second * per - apart if not (apart and made.follow_first) else (second - 1) * per)
        if len(reports) != owed:
            faults.append(f'{len(reports)} reports, and not {owed}')
        if anew != apart:
            faults.append(f'the master began anew {anew} times')
        elif anew and anew_line != syncs[0]:
            faults.append(f'the master began anew at line {anew_line}, and not {syncs[0]}')
        if not any(report['tags'][0] == syncs[apart and made.follow_first] for report in reports):
            faults.append('the second life is not heard from its beginning on')
    return faults, len(reports)


def recorded():
    """Each recording with its name, and whether nothing of it is lost."""
    rng = random.Random(1588)
    for behind, begin, rate, two_step, losses in itertools.product(
            BEHIND, ['zero', 'middle', 'far behind', 'behind', 'earlier', 'on'], [1, 128], [True, False], [0, 0.1, 0.4, 'halves']):
        if losses != 'halves' or two_step:
            yield (f'{behind} Syncs, begins {begin}, {rate} a second, two-step {two_step}, losses {losses}',
                   short(rng, behind, begin, rate, two_step, losses), losses == 0)
    for first, begin, rate, form, requests in itertools.product(
            [0, 20_000, 32_760, 40_000, 65_000], ['0', '1', 'amid', 'ahead'], [1, 8], ['one-step', 'two-step', 'Follow_Up first'], [1, 2, 4]):
        yield (f'{first} first, begins {begin}, {rate} a second, {form}, {requests} requests',
               long(first, begin, rate, form != 'one-step', requests, form == 'Follow_Up first'), True)


def main():
    runs, reported = 0, 0
    for name, made, nothing_lost in recorded():
        faults, reports = wrong(made, nothing_lost)
        if faults:
            fail(f'{name}: {faults[0]}')
        runs, reported = runs + 1, reported + reports
    print(f'answers: {reported} reports of {runs} recordings, none of two lives')
