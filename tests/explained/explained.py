"""What `ptpx explain` says of transcripts, of schedules and of other input, word for word, and with which status it ends."""
import unittest

from program import EXAMPLES, Ended, ask
from told import compact

# One exchange with a slave behind a clock, and what comes of it: lines, each with its LF.
SCHEDULE, TRANSCRIPT = ((EXAMPLES / f'exchange.{kind}.jsonl').read_text().splitlines(True) for kind in ('schedule', 'transcript'))


def explain(text, options=''):
    """What the program makes of a text, of which each character is one octet."""
    status, output, errors = ask(text.encode('latin-1'), 'explain', *options.split(), timeout=600)
    return Ended(status, output.decode(), errors.decode())


def changed(lines, *changes, place=None):
    """Lines as one text, with old parts replaced by new ones: in the line at a place, or wherever they stand."""
    begin, end = (0, len(lines)) if place is None else (place, place + 1)
    text = ''.join(lines[begin:end])
    for old, new in changes:
        assert old in text, f'{old} is to be replaced, and is not there'
        text = text.replace(old, new)
    return ''.join([*lines[:begin], text, *lines[end:]])


# What is said of a report against which one of these reasons stands first.
REASON = {
    701: "a tag of the report isn't that of an event as the report needs it, or no event tells when the Delay_Req left",
    702: "the Sync isn't the one of the Follow_Up, or the Delay_Req isn't the one of the report",
    703: "a message isn't of the present master of the slave, or came before the slave was told this master",
    704: "the journey of the Sync or of the Delay_Req can't be followed back to where it was sent, or a stay on it was left twice",
    705: "a reading isn't that of the clock of its node, or falls while a message is in a clock",
    706: "the two results aren't those of the readings",
    707: 'the Sync or the Delay_Req was in clocks for longer than a correction can say',
    708: "the octets of a message aren't those that a port or a clock writes",
}


def refused(event, line, why):
    """The line that tells of a report that it is refused; what the reason met stands below it."""
    return f'event {event}, line {line}: the report of S is refused, {why}: {REASON[why]}\n'


# The line of the report, with one unit too much.
TOO_MUCH = '{"copy":11,"ev":"hear","n":13,"node":"S","offset2":"131072001","out":"report","path2":"131072000","tags":[5,7,8,13]}\n'

# One more report, of the same messages, with one unit too much.
TOLD_TWICE = '{"copy":11,"ev":"hear","n":14,"node":"S","offset2":"131072000","out":"report","path2":"131072001","tags":[5,7,8,14]}\n'

# What is said of a report with one unit too much.
STORY = """\
event 13, line 17: the report of S is refused, 706: the two results aren't those of the readings
  t1  event  2  line  6  M  1.000000000                   Sync 0 departs; told by event 6
      3 to 4  line 7, 8  T in the clock 2000 ns
  t2  event  5  line  9  S  1.000004000                   a = t2 - t1 - 2000 ns = 2000 ns
  t3  event  8  line 12  S  2.000001000                   Delay_Req 0 departs; told by event 12
      9 to 10  line 13, 14  T in the clock 3500.25 ns
  t4  event 11  line 15  M  2.000004500 + 16384/65536 ns  b = t4 - t3 - 3500.25 ns = 0 ns
  offset  reported 1000.00000762939453125 ns  by the readings 1000 ns  0.00000762939453125 ns too much  \
("offset2" 131072001, wanted 131072000)
  path    reported 1000 ns  by the readings 1000 ns  ("path2" 131072000)
1 report: 0 sound
  706 stands against 1: the two results aren't those of the readings
results equal to those by the messages that came to the slave: 0 of 1 report
results equal to those by the readings of the clocks: 0 of 1 report
verdict: refused event 13: 706
"""

# The same as JSON, and what is said so of the sound report.
MOMENTS = '"t1":[1,0,0],"t2":[1,4000,0],"t3":[2,1000,0],"t4":[2,4500,16384],'
JUDGED = (
    '{"brackets":{"a":"2000","b":"0"},"by_messages":{"offset2":"131072000","path2":"131072000"},"by_readings":{"offset2":"131072000","path2":"131072000"},'
    '"error":{"by_messages":{"offset":"0.00000762939453125","path":"0"},"by_readings":{"offset":"0.00000762939453125","path":"0"}},'
    '"event":13,"line":17,"node":"S","octets":null,"offset2":"131072001","otherwise":null,"path2":"131072000","reasons":[706],'
    + MOMENTS + '"tags":[5,7,8,13],"time":[2,1000,0]}\n')
JUDGED_SOUND = (
    '{"brackets":{"a":"2000","b":"0"},"by_messages":{"offset2":"131072000","path2":"131072000"},"by_readings":{"offset2":"131072000","path2":"131072000"},'
    '"error":{"by_messages":{"offset":"0","path":"0"},"by_readings":{"offset":"0","path":"0"}},"event":13,"line":17,"node":"S","octets":null,'
    '"offset2":"131072000","otherwise":null,"path2":"131072000","reasons":[],' + MOMENTS + '"tags":[5,7,8,13],"time":[2,1000,0]}\n')
SOUND = '1 report: 1 sound\nverdict: accepted 1\n'

# The line of the first event, at a node that no name can have.
NO_NAME = '{"diff":"65536000","ev":"stepclock","n":0,"node":"S 1","out":"done"}\n'

# The first two octets of messages as the standard of 2019 has them, and as that of 2008 does.
VERSIONS = [
    ('"hex":"0012', '"hex":"0002'),
    ('"hex":"0812', '"hex":"0802'),
    ('"hex":"0112', '"hex":"0102'),
    ('"hex":"0912', '"hex":"0902'),
]

# What else is changed in messages of the older standard, what is said of a message then, and at the end.
OLDER = [
    ((), """\
    event 2, line 6, a sync at M: minorVersionPTP, the high half of octet 1 from 0, is 0 (IEEE 1588-2008); \
wanted is 1 (IEEE 1588-2019); all other octets are right
""", """\
were octets left aside (708), 1 of 1 report would be sound
other octets than a port or a clock writes: 6 of 6 messages
  in one nibble alone: 6; minorVersionPTP is 0, as real devices of IEEE 1588-2008 write it, where IEEE 1588-2019 has 1
verdict: refused event 13: 708
"""),
    ([('00000000000100000000"', '0000000000010000c350"')], """\
    event 6, line 10, a follow at M: preciseOriginTimestamp is 1.000050000; wanted is 1.000000000, 50000 ns less
    event 6, line 10, a follow at M: of what isn't read, minorVersionPTP, the high half of octet 1 from 0, is 0 (IEEE 1588-2008); \
wanted is 1 (IEEE 1588-2019)
""", """\
octets can't be left aside (708): a field that a slave or a master reads differs in 1 message
  preciseOriginTimestamp in 1, by 50000 ns at the most
other octets than a port or a clock writes: 6 of 6 messages
  in one nibble alone: 5; minorVersionPTP is 0, as real devices of IEEE 1588-2008 write it, where IEEE 1588-2019 has 1
verdict: refused event 13: 708
"""),
]

# Inputs of other kinds, and what is said of them behind these words.
OTHER = "the input isn't lines of JSON, but "
FOREIGN = [
    ('\xd4\xc3\xb2\xa1\x02\n',
     'a capture (pcap); measure by it with: ptpx measure\n'),
    ('\n\r\r\n\x1c\x00\x00\x00',
     'a capture (pcapng); measure by it with: ptpx measure\n'),
    ('\x1f\x8b\x08\x00\n', 'compressed by gzip; unpack it by: gzip -dc\n'),
    ('\xef\xbb\xbf{"kind":"clock","node":"T"}\n', 'text behind a byte order mark; take the mark away by: tail -c +4\n'),
    ('{"kind":"clock","node":"T"}\r{"kind":"clock","node":"U"}\r', "objects with CR between them; make LF of each CR by: tr '\\r' '\\n'\n"),
    ('\xff\xfe{\x00\n\x00', 'UTF-16; make UTF-8 of it by: iconv -f UTF-16 -t UTF-8\n'),
    ('{\x00"\x00\n\x00', 'UTF-16; make UTF-8 of it by: iconv -f UTF-16LE -t UTF-8\n'),
    ('\x00{\x00"\x00\n', 'UTF-16; make UTF-8 of it by: iconv -f UTF-16BE -t UTF-8\n'),
    ('0012002c\n0112002c\n', 'datagrams in hexadecimal; show them by: ptpx show\n'),
    ('1.000004 0012002c\n', 'times with datagrams in hexadecimal; measure by them with: ptpx measure\n'),
    ('{\n  "kind": "clock",\n  "node": "T"\n}\n', 'JSON objects over several lines; make a line of each by: jq -c .\n'),
    ('[{"kind":"clock","node":"T"}]\n', "a JSON array; make a line of each of its objects by: jq -c '.[]'\n"),
    ("{'kind': 'clock', 'node': 'T'}\n",
     'objects in single quotes, as Python prints them; make JSON of them by: '
     "python3 -c 'import ast, json, sys; [print(json.dumps(ast.literal_eval(s))) for s in sys.stdin]'\n"),
    ("[{'kind': 'clock', 'node': 'T'}]\n",
     'a list in single quotes, as Python prints it; make a line of each object by: '
     "python3 -c 'import ast, json, sys; [print(json.dumps(o)) for o in ast.literal_eval(sys.stdin.read())]'\n"),
]

# Inputs of other kinds whose first line is longer than lines may be: their beginning, and what is said of them.
LONG = [
    ('[{"kind":"clock","node":"T"},', OTHER + "a JSON array; make a line of each of its objects by: jq -c '.[]'\n"),
    ('0012002c', OTHER + 'datagrams in hexadecimal; show them by: ptpx show\n'),
    ('{"kind":"clock",', 'line 1: more than 4096 octets; wanted is an LF after each node and each event\n'),
]

# The place of a line of the schedule, what is replaced in it by what, and what is said then.
REFUSED = [
    (1, '"S"', '"M"',
     'lines 1 and 2: 601: two nodes have one name, M\n'
     'no event happens from line 4 on\n'),
    (1, '00aabbfffeccddee', '001122fffe334455',
     'lines 1 and 2: 602: two ports have one identity, 001122fffe334455/1\n'
     'no event happens from line 4 on\n'),
    (5, '"M"', '"X"',
     'event 2, line 6: refused, 603: no node is called X; there are M, S, T\n'
     'no event happens from line 6 on\n'),
    (4, '"M"', '"X"',
     'event 1, line 5: refused, 603: no node is called X; there are M, S, T\n'
     'no event happens from line 5 on\n'),
    (5, '"M"', '"T"',
     'event 2, line 6: refused, 604: T is a clock; a sync happens at a master\n'
     'no event happens from line 6 on\n'),
    (4, '"M"', '"T"',
     'event 1, line 5: refused, 604: S is a slave; T, which it names, is a clock; a setmaster happens at a slave, and names a master\n'
     'no event happens from line 5 on\n'),
    (8, '"copy":4', '"copy":3',
     'event 5, line 9: refused, 605: event 3 is an enter, which sent no message; there are events 0 to 4\n'
     'no event happens from line 9 on\n'),
    (3, '"diff":"65536000","ev":"stepclock"', '"copy":0,"ev":"hear"',
     'event 0, line 4: refused, 605: there is no event 0 before it; there is no event before it\n'
     'no event happens from line 4 on\n'),
    (4, '"ev":"setmaster","master":"M"', '"copy":1,"ev":"hear"',
     'event 1, line 5: refused, 605: there is no event 1 before it; there is event 0\n'
     'no event happens from line 5 on\n'),
    (8, '"copy":4', '"copy":5',
     'event 5, line 9: refused, 605: there is no event 5 before it; there are events 0 to 4\n'
     'no event happens from line 9 on\n'),
    (7, '"transit":3', '"transit":2',
     'event 4, line 8: refused, 606: event 2 is a sync, and no enter\n'
     'no event happens from line 8 on\n'),
    (7, '"transit":3', '"transit":7',
     'event 4, line 8: refused, 606: there is no event 7 before it; there are events 0 to 3\n'
     'no event happens from line 8 on\n'),
    (13, '"transit":9', '"transit":3',
     'event 10, line 14: refused, 606: what entered by event 3 left already by event 4\n'
     'no event happens from line 14 on\n'),
    (3, '65536000', '18446744073709551616000000000',
     'event 0, line 4: refused, 607: "diff" is 18446744073709551616000000000, which is 281474976710656000000000 ns; '
     'wanted is less than 2^48 s, ahead or behind\n'
     'no event happens from line 4 on\n'),
    (3, '65536000', '-655360000000000',
     'event 5, line 9: refused, 607: event 0 set the clock of S to the true time and -10000000000 ns; '
     'at 1.000003000 it would read -8999997000 ns, and a reading is from 0 to below 2^48 s\n'
     'no event happens from line 9 on\n'),
    (5, '"at":[1,0,0],"ev":"sync"', '"ev":"follow"',
     'event 2, line 6: refused, 608: no Sync waits for its Follow_Up: M sent none\n'
     'no event happens from line 6 on\n'),
    (5, '"sync"', '"syncone"',
     'event 6, line 10: refused, 608: no Sync waits for its Follow_Up: the last one of M is event 2, a syncone, which has none\n'
     'no event happens from line 10 on\n'),
    (10, '{"copy":6,"ev":"hear","node":"S"}', '{"ev":"follow","node":"M"}',
     'event 7, line 11: refused, 608: no Sync waits for its Follow_Up: event 6 sent that of the last two-step one of M, event 2\n'
     'no event happens from line 11 on\n'),
    (9, '{"ev":"follow","node":"M"}', '{"at":[1,5000,0],"ev":"syncone","node":"M"}\n{"ev":"follow","node":"M"}\n{"ev":"follow","node":"M"}',
     'event 8, line 12: refused, 608: no Sync waits for its Follow_Up: event 7 sent that of the last two-step one of M, event 2\n'
     'no event happens from line 12 on\n'),
    (10, '{"copy":6,"ev":"hear","node":"S"}', '{"ev":"stamped","node":"S"}',
     'event 7, line 11: refused, 608: no Delay_Req waits for its departure time: S sent none\n'
     'no event happens from line 11 on\n'),
    (16, '{"copy":11,"ev":"hear","node":"S"}', '{"ev":"stamped","node":"S"}',
     'event 13, line 17: refused, 608: no Delay_Req waits for its departure time: event 12 told that of the last one of S, event 8\n'
     'no event happens from line 17 on\n'),
]

# The place of a line of the transcript, what is replaced in it by what, and what is said first then.
MET = [
    (16, '[5,7,8,13]', '[2,7,8,13]',
     refused(13, 17, 701) +
     '    the 1st of "tags", of the Sync, names event 2, line 6, a sync at M; wanted is an arrive at S\n'
     '1 report: 0 sound\n'),
    (16, '[5,7,8,13]', '[5,null,8,13]',
     refused(13, 17, 701) +
     '    the 2nd of "tags" is null, but the Sync of event 5, line 9, an arrive at S, completed nothing by itself\n'
     '1 report: 0 sound\n'),
    (16, '[5,7,8,13]', '[5,7,8,7]',
     refused(13, 17, 701) +
     '    none of "tags" is 13, which is the Delay_Resp to Delay_Req 0; the 4th, of the Delay_Resp, names event 7, line 11, a hear at S, '
     'which is the Follow_Up of Sync 0\n'
     '1 report: 0 sound\n'),
    (16, '[5,7,8,13]', '[7,7,8,13]',
     refused(13, 17, 701) +
     '    the 1st of "tags", of the Sync, names event 7, line 11, a hear at S, which is the Follow_Up of Sync 0; '
     'wanted is an arrive at S\n'
     '1 report: 0 sound\n'),
    (15, '"S"', '"M"',
     refused(13, 17, 701) +
     '    no event before the report tells when the Delay_Req of event 8, line 12 left\n'
     '1 report: 0 sound\n'),
    (8, '"out":"held"', '"out":"done"',
     refused(13, 17, 701) +
     '    the 1st of "tags", of the Sync, names event 5, line 9, an arrive at S, which can\'t have come out so; '
     'wanted is an arrive at S that came to something\n'
     '1 report: 0 sound\n'),
    (16, '[5,7,8,13]', '[99,7,8,13]',
     refused(13, 17, 701) +
     '    the 1st of "tags", of the Sync, names event 99, which comes behind the report or isn\'t there; wanted is an arrive at S\n'
     '1 report: 0 sound\n'),
    (10, '"out":"completed"', '"code":505,"out":"ignored"',
     refused(13, 17, 701) +
     '    the 2nd of "tags", of the Follow_Up, names event 7, line 11, a hear at S, which was ignored with 505; '
     'wanted is a hear at S that came to something\n'
     '1 report: 0 sound\n'),
    (14, '"hex":"0912003600000000000000000dac000000000000001122fffe3344550001000003000000000000020000119400aabbfffeccddee0001","n":11,'
     '"node":"M","out":"made"', '"code":302,"n":11,"node":"M","out":"refused"',
     refused(13, 17, 701) +
     '    the Delay_Resp of event 13, line 17 is of event 11, line 15, an arrive at M, which was refused with 302; '
     'wanted is an arrive at a master before it that sent it\n'
     '1 report: 0 sound\n'),
    (16, '"copy":11', '"copy":5',
     refused(13, 17, 701) +
     '    the Delay_Resp of event 13, line 17 is of event 5, line 9, an arrive at S; wanted is an arrive at a master before it that sent it\n'
     '1 report: 0 sound\n'),
    (16, '"copy":11,"ev":"hear"', '"ev":"tick"',
     refused(13, 17, 701) +
     "    event 13, line 17, a tick at S, can't report; wanted is an arrive or a hear at a slave\n"
     '1 report: 0 sound\n'),
    (8, '"copy":4', '"copy":1',
     refused(13, 17, 704) +
     '    the journey of the Sync stops at event 5, line 9, an arrive at S: it names event 1, line 5, a setmaster at S, which sent no such message\n'
     '1 report: 0 sound\n'),
    (6, '"out":"entered"', '"out":"done"',
     refused(13, 17, 704) +
     '    the journey of the Sync stops at event 4, line 8, a leave at T: it names event 3, line 7, an enter at T, '
     'which can\'t have come out so\n'
     '1 report: 0 sound\n'),
    (7, '"hex":"0012002c000002000000000007d0000000000000001122fffe33445500010000000000000000000000000000","n":4,"node":"T","out":"made"',
     '"code":401,"n":4,"node":"T","out":"refused"',
     refused(13, 17, 704) +
     '    the journey of the Sync stops at event 5, line 9, an arrive at S: it names event 4, line 8, a leave at T, which was refused with 401\n'
     '1 report: 0 sound\n'),
    (6, '"copy":2', '"copy":4',
     refused(13, 17, 704) +
     '    the journey of the Sync stops at event 3, line 7, an enter at T: it names event 4; wanted is one before it\n'
     '1 report: 0 sound\n'),
    (7, '"transit":3', '"transit":2',
     refused(13, 17, 704) +
     '    the journey of the Sync stops at event 4, line 8, a leave at T: it names event 2, line 6, a sync at M, which is no enter of this clock\n'
     '1 report: 0 sound\n'),
    (12, '"copy":8', '"copy":2',
     refused(13, 17, 704) +
     '    the journey of the Delay_Req stops at event 11, line 15, an arrive at M: what arrives there was sent by event 2, line 6, a sync at M\n'
     '1 report: 0 sound\n'),
    (13, '"transit":9', '"transit":3',
     refused(13, 17, 704) +
     '    the Sync entered a clock by event 3, line 7, and left it twice: by event 4, line 8 and by event 10, line 14, a leave at T\n'
     '1 report: 0 sound\n'),
    (5, '"sync"', '"syncone"',
     refused(13, 17, 702) +
     '    Sync 0, event 2, line 6, a syncone at M, is taken with the Follow_Up of event 6, line 10, a follow at M, '
     'before which its master sent no two-step Sync\n'
     '    so what its messages tell together is the result of no exchange\n'
     '  and 708: '),
    (16, '"offset2":"131072000","out":"report","path2":"131072000","tags":[5,7,8,13]}',
     '"out":"completed"}\n'
     '{"at":[3,0,0],"ev":"sync","hex":"0012002c00000200000000000000000000000000001122fffe33445500010001000000000000000000000000",'
     '"n":14,"node":"M","out":"made","reading":[3,0,0]}\n'
     '{"at":[3,1000,0],"copy":14,"ev":"arrive","n":15,"node":"S","out":"held","reading":[3,2000,0]}\n'
     '{"copy":6,"ev":"hear","n":16,"node":"S","offset2":"131072000","out":"report","path2":"131072000","tags":[15,16,8,13]}',
     refused(16, 20, 702) +
     '    Sync 1, event 14, line 18, a sync at M, is taken with the Follow_Up of event 6, line 10, a follow at M, '
     'which is of Sync 0, event 2, line 6, a sync at M\n'
     '    so what its messages tell together is the result of no exchange\n'
     '  t1  event 14  line 18  M  3.000000000                   Sync 1 departs; event 6 tells when Sync 0 did\n'),
    (4, '"M"', '"T"',
     refused(13, 17, 703) +
     '    S, domain 0, was told no master\n'
     '    the Sync is of M, domain 0; the Delay_Req was answered by event 11, line 15, an arrive at M\n'
     '  t1  event  2  '),
    (0, '"domain":0', '"domain":1',
     refused(13, 17, 703) +
     '    S, domain 0, was told the master M by event 1, line 5, a setmaster at S\n'
     '    the Sync is of M, domain 1; the Delay_Req was answered by event 11, line 15, an arrive at M\n'
     '  and 708: '),
    (8, '[1,4000,0]', '[1,4001,0]',
     refused(13, 17, 705) +
     '    event 5, line 9, an arrive at S: read is 1.000004001, the true moment is 1.000003000, and they differ by 1001 ns; '
     'wanted is 1000 ns, which event 0, line 4 set\n'
     '  and 706: '),
    (7, '"reading":[1,2500,0]', '"reading":[1,400,0]',
     refused(13, 17, 705) +
     '    event 4, line 8, a leave at T: read is 1.000000400, the true moment is 1.000002500, and they differ by -2100 ns; '
     'wanted is 0 ns, since no event set the clock\n'
     '    event 4, line 8, a leave at T: the clock reads 100 ns less than at event 3, line 7; wanted is no less\n'
     '  and 706: '),
    (7, '[1,2500,0]', '[140738,488355827,65535]',
     refused(13, 17, 707) +
     '    the Sync is to have 140737488355327.9999847412109375 ns in its correctionField, of clocks; '
     'it can say less than 140737488355327.9999847412109375 ns\n'
     '  and 706: '),
    (7, '07d00000', '07d10000',
     refused(13, 17, 708) +
     '    event 4, line 8, a leave at T: correctionField is 2001 ns; wanted is 2000 ns, 1 ns less\n'
     '  t1  event  2  '),
    (5, '000000000000"', '0000000000001122"',
     refused(13, 17, 708) +
     '    event 2, line 6, a sync at M: all its octets are right; it has 46 octets; wanted are 44\n'
     '  t1  event  2  '),
    (9, '0100000000', '0200000001',
     refused(13, 17, 708) +
     '    event 6, line 10, a follow at M: preciseOriginTimestamp is 2.000000001; wanted is 1.000000000, 1000000001 ns less\n'
     '  t1  event  2  '),
]

# What is replaced in which lines by what, and what is said first then.
CHANGED = [
    # A leave at another clock than the enter.
    (SCHEDULE, [('{"kind":"clock","node":"T"}', '{"kind":"clock","node":"T"}\n{"kind":"clock","node":"U"}'),
                ('"node":"T","transit":3', '"node":"U","transit":3')],
     'event 4, line 9: refused, 606: event 3 is an enter at T, and this is a leave at U\n'
     'no event happens from line 9 on\n'),
    # A Delay_Req that another master answers.
    (TRANSCRIPT, [('{"kind":"clock","node":"T"}',
                   '{"kind":"clock","node":"T"}\n'
                   '{"domain":0,"first":0,"id":"001122fffe334466","kind":"master","log":0,"node":"N","port":1}'),
                  ('"n":11,"node":"M"', '"n":11,"node":"N"')],
     refused(13, 18, 703) +
     '    S, domain 0, was told the master M by event 1, line 6, a setmaster at S\n'
     '    the Sync is of M, domain 0; the Delay_Req was answered by event 11, line 16, an arrive at N\n'
     '  and 708: '),
    # A Delay_Resp that is taken for a Follow_Up.
    (TRANSCRIPT, [('"n":7,"node":"S","out":"completed"', '"n":7,"node":"S","out":"held"'), ('[5,7,8,13]', '[5,13,8,7]')],
     refused(13, 17, 701) +
     '    the Follow_Up of event 13, line 17 is of event 11, line 15, an arrive at M, which is the Delay_Resp to Delay_Req 0; '
     'wanted is a follow before it that sent it\n'
     '1 report: 0 sound\n'),
    # The slave learns when the Delay_Req left behind the Delay_Resp, or the Delay_Req left behind it.
    (TRANSCRIPT[:15], [(TRANSCRIPT[14], TRANSCRIPT[14] +
                        '{"copy":11,"ev":"hear","n":12,"node":"S","out":"completed"}\n'
                        '{"ev":"stamped","n":13,"node":"S","out":"done"}\n'
                        '{"copy":6,"ev":"hear","n":14,"node":"S","offset2":"131072000","out":"report","path2":"131072000","tags":[5,14,8,12]}\n')],
     refused(14, 18, 701) +
     '    event 13, line 17, a stamped at S, tells when the Delay_Req left; wanted is that before the Delay_Resp, event 12\n'
     '1 report: 0 sound\n'),
    (TRANSCRIPT[:16], [(TRANSCRIPT[15], TRANSCRIPT[15] +
                        '{"copy":11,"ev":"hear","n":13,"node":"S","out":"completed"}\n'
                        '{"at":[3,0,0],"ev":"request","hex":"0112002c0000000000000000000000000000000000aabbfffeccddee00010001017f00000000000000000000",'
                        '"n":14,"node":"S","out":"made","reading":[3,1000,0]}\n'
                        '{"ev":"stamped","n":15,"node":"S","out":"done"}\n'
                        '{"copy":6,"ev":"hear","n":16,"node":"S","offset2":"131072000","out":"report","path2":"131072000","tags":[5,16,14,13]}\n')],
     refused(16, 20, 701) +
     "    the Delay_Req of event 14, line 18 isn't before the Delay_Resp, event 13\n"
     '1 report: 0 sound\n'),
    # Readings of both messages that are wrong.
    (TRANSCRIPT, [('"reading":[1,4000,0]', '"reading":[1,4001,0]'), ('"reading":[2,4500,16384]', '"reading":[2,4500,0]')],
     refused(13, 17, 705) +
     '    event 5, line 9, an arrive at S: read is 1.000004001, the true moment is 1.000003000, and they differ by 1001 ns; '
     'wanted is 1000 ns, which event 0, line 4 set\n'
     '    event 11, line 15, an arrive at M: read is 2.000004500, the true moment is 2.000004500 + 16384/65536 ns, and they differ by -0.25 ns; '
     'wanted is 0 ns, since no event set the clock\n'
     '  and 706: '),
    # A two-step Sync without a Follow_Up.
    (TRANSCRIPT, [('"n":5,"node":"S","out":"held"', '"n":5,"node":"S","out":"completed"'), ('[5,7,8,13]', '[5,null,8,13]')],
     refused(13, 17, 702) +
     '    Sync 0, event 2, line 6, a sync at M, is two-step, and is taken for one that needs no Follow_Up\n'
     '    so what its messages tell together is the result of no exchange\n'
     '  t1  event  2  '),
    # The first event has a flaw, of a transcript and of a schedule.
    (TRANSCRIPT, [('"65536000"', '65536000')],
     'line 4: "diff" is 65536000; wanted is a whole number of at most 32 characters, without +, point or zeros in front, in quotes\n'
     'no report was judged from line 4 on\n'),
    (SCHEDULE, [('"65536000"', '65536000')],
     'line 4: "diff" is 65536000; wanted is a whole number of at most 32 characters, without +, point or zeros in front, in quotes\n'
     'no event happens from line 4 on\n'),
    (TRANSCRIPT, [('"ev":"stepclock"', '"Ev":"stepclock"')],
     'line 4: "ev" of an event or "kind" of a node is missing; there is "Ev"\n'
     'no report was judged from line 4 on\n'),
    # One event's number is wrong.
    (TRANSCRIPT, [('"n":5,', '"n":6,')],
     'line 9: "n" is 6; wanted is 5, the place among the events from 0: an event before it is missing, or "n" is wrong\n'
     'no report was judged from line 9 on\n'),
    # An event that is missing.
    (TRANSCRIPT, [('{"copy":6,"ev":"hear","n":7,"node":"S","out":"completed"}\n', '')],
     'line 11: "n" is 8; wanted is 7, the place among the events from 0: an event before it is missing, or "n" is wrong\n'
     'no report was judged from line 11 on\n'),
    # An empty line, and a line that is cut in two.
    (TRANSCRIPT, [('{"ev":"stamped"', '\n{"ev":"stamped"')],
     'line 16, octet 1: no JSON: nothing; wanted is an object\n'
     'no report was judged from line 16 on\n'),
    (TRANSCRIPT, [('{"ev":"stamped",', '{"ev":"stamped",\n')],
     'line 16, octet 17: no JSON: the line ends before the } of an object\n'
     'line 17, octet 4: no JSON: something after the value; wanted is the end of the line\n'
     'no report was judged from line 16 on\n'),
]

# A second Delay_Req, for which the Delay_Resp to the first one is taken.
TAKEN_FOR_ANOTHER = [
    '{"at":[3,0,0],"ev":"request","hex":"0112002c0000000000000000000000000000000000aabbfffeccddee00010001017f00000000000000000000",'
    '"n":13,"node":"S","out":"made","reading":[3,1000,0]}\n',
    '{"ev":"stamped","n":14,"node":"S","out":"done"}\n',
    '{"copy":11,"ev":"hear","n":15,"node":"S","offset2":"131072000","out":"report","path2":"131072000","tags":[5,7,13,15]}\n',
]

# The slave is told its master again, and reports what came before.
TOLD_AGAIN = [
    '{"ev":"setmaster","master":"M","n":13,"node":"S","out":"done"}\n',
    '{"copy":11,"ev":"hear","n":14,"node":"S","offset2":"131072000","out":"report","path2":"131072000","tags":[5,7,8,14]}\n',
]

# A report that comes by the Follow_Up of another Sync, and is of what came before.
OF_ANOTHER_EVENT = [
    '{"copy":11,"ev":"hear","n":13,"node":"S","out":"completed"}\n',
    '{"at":[3,0,0],"ev":"sync","hex":"0012002c00000200000000000000000000000000001122fffe33445500010001000000000000000000000000",'
    '"n":14,"node":"M","out":"made","reading":[3,0,0]}\n',
    '{"at":[3,1000,0],"copy":14,"ev":"arrive","n":15,"node":"S","out":"held","reading":[3,2000,0]}\n',
    '{"ev":"follow","hex":"0812002c00000000000000000000000000000000001122fffe33445500010001020000000000000300000000",'
    '"n":16,"node":"M","out":"made"}\n',
    '{"copy":16,"ev":"hear","n":17,"node":"S","offset2":"131072000","out":"report","path2":"131072000","tags":[5,7,8,13]}\n',
]

# The report as a completion that has none, and the Delay_Resp once more.
PASSED_OVER = '"offset2":"131072000","out":"report","path2":"131072000","tags":[5,7,8,13]', '"out":"completed"'
ONCE_MORE = '{"copy":11,"ev":"hear","n":14,"node":"S","out":"completed"}\n'

# One event more, and then the Delay_Resp once more.
TICK, TICK_AGAIN = ('{"ev":"tick","n":%d,"node":"S","out":"done"}\n' % number for number in (14, 15))
AFTER_TWO_TICKS = ONCE_MORE.replace('"n":14', '"n":16')

# The ends of transcripts in which completions have no report. A half outlives one tick.
NONE_JUDGED = 'there is no report, so nothing was judged\n'
OTHERS = 'other outcomes than a slave here has for the messages that came: '
UNREPORTED = [
    (TRANSCRIPT, [PASSED_OVER],
     NONE_JUDGED + '1 completion had no report, though both halves of one were there; the verdict says nothing of these\n'
     + OTHERS + '1 of 3; the verdict says nothing of these\n  the first: event 13, line 17: completed; a slave here: report\n'
     'verdict: accepted 0\n'),
    ([*TRANSCRIPT, ONCE_MORE], [PASSED_OVER],
     NONE_JUDGED + '2 completions had no report, though both halves of one were there; the verdict says nothing of these\n'
     + OTHERS + '2 of 4; the verdict says nothing of these\n  the first: event 13, line 17: completed; a slave here: report\n'
     'verdict: accepted 0\n'),
    ([*TRANSCRIPT, ONCE_MORE], [],
     '1 report: 1 sound\n'
     '1 completion had no report, though both halves of one were there; the verdict says nothing of these\n'
     + OTHERS + '1 of 4; the verdict says nothing of these\n  the first: event 14, line 18: completed; a slave here: report\n'
     'verdict: accepted 1\n'),
    ([*TRANSCRIPT, TICK, ONCE_MORE.replace('"n":14', '"n":15')], [],
     '1 report: 1 sound\n'
     '1 completion had no report, though both halves of one were there; the verdict says nothing of these\n'
     + OTHERS + '1 of 4; the verdict says nothing of these\n  the first: event 15, line 19: completed; a slave here: report\n'
     'verdict: accepted 1\n'),
    ([*TRANSCRIPT, TICK, TICK_AGAIN, AFTER_TWO_TICKS], [], '1 report: 1 sound\nverdict: accepted 1\n'),
    ([*TRANSCRIPT, '{"ev":"setmaster","master":"M","n":14,"node":"S","out":"done"}\n', ONCE_MORE.replace('"n":14', '"n":15')], [],
     '1 report: 1 sound\n' + OTHERS + '1 of 4; the verdict says nothing of these\n  the first: event 15, line 19: completed; a slave here: ignored 509\n'
     'verdict: accepted 1\n'),
]

# What is changed in which lines, how many outcomes at slaves aren't those of a slave here then, of three messages that came, and the first.
IGNORED = '"out":"completed"}', '"code":512,"out":"ignored"}'
OUTCOMES = [
    # The Follow_Up is ignored, and so the Delay_Resp completes no report.
    ([*TRANSCRIPT[:10], TRANSCRIPT[10].replace(*IGNORED), *TRANSCRIPT[11:]], [PASSED_OVER],
     '2 of 3; the verdict says nothing of these\n  the first: event 7, line 11: ignored 512; a slave here: completed\n'),
    # The Delay_Resp is passed over.
    (TRANSCRIPT, [PASSED_OVER], '1 of 3; the verdict says nothing of these\n  the first: event 13, line 17: completed; a slave here: report\n'),
    # The Delay_Req has a number behind a gap, and the Delay_Resp has it, too.
    (TRANSCRIPT, [('ccddee00010000017f', 'ccddee00010007017f'), ('0001000003000000000000020000119400', '0001000703000000000000020000119400')], ''),
    # The Sync is of another domain.
    (TRANSCRIPT, [('0012002c00', '0012002c07')], '3 of 3; the verdict says nothing of these\n  the first: event 5, line 9: held; a slave here: ignored 503\n'),
    # It isn't told when the Delay_Req left.
    ([*TRANSCRIPT[:15], TRANSCRIPT[15].replace('"stamped"', '"tick"'), TRANSCRIPT[16]], [],
     '1 of 3; the verdict says nothing of these\n  the first: event 13, line 17: report; a slave here: ignored 510\n'),
]

# The place of a line, what is replaced in it by what, and what is said of this message then, and of how many differ in which field:
# fields that a slave or a master reads.
READ = [
    (5, '"hex":"00', '"hex":"01', 'messageType is Delay_Req; wanted is Sync', 'messageType in 1'),
    (5, '0012002c00', '0012002c07', 'domainNumber is 7; wanted is 0', 'domainNumber in 1'),
    (5, '002c00000200', '002c00000000', 'twoStepFlag is 0; wanted is 1', 'twoStepFlag in 1'),
    (5, '00020000000000000000', '00020000000000000100', 'correctionField is 1 ns; wanted is 0 ns, 1 ns less',
     'correctionField in 1, by 1 ns at the most'),
    (7, '07d00000', '07c00000', 'correctionField is 1984 ns; wanted is 2000 ns, 16 ns more', 'correctionField in 1, by 16 ns at the most'),
    (7, '000000000007d00000', '007fffffffffffffff', 'correctionField is too big; wanted is 2000 ns', 'correctionField in 1'),
    (9, '334455', '334456', 'sourcePortIdentity is 001122fffe334456/1; wanted is 001122fffe334455/1', 'sourcePortIdentity in 1'),
    (11, 'ccddee00010000', 'ccddee00010007', 'sequenceId is 7; wanted is 0', 'sequenceId in 1'),
    (9, '0100000000"', '010000c350"', 'preciseOriginTimestamp is 1.000050000; wanted is 1.000000000, 50000 ns less',
     'preciseOriginTimestamp in 1, by 50000 ns at the most'),
    (14, '000000020000119400', '000000020000119300', 'receiveTimestamp is 2.000004499; wanted is 2.000004500, 1 ns more',
     'receiveTimestamp in 1, by 1 ns at the most'),
    (14, 'ccddee0001', 'ccddee0002', 'requestingPortIdentity is 00aabbfffeccddee/2; wanted is 00aabbfffeccddee/1',
     'requestingPortIdentity in 1'),
    (9, '"hex":"0812', '"hex":"0811', "nobody can read it, 202: versionPTP isn't 2", '1 message that nobody can read'),
    (11, '000000000000000000"', '00000000003b9aca00"', 'nobody can read it, 206: the nanoseconds of the timestamp are 10^9 or more',
     '1 message that nobody can read'),
]

# The same of fields that nobody here reads: a place, and what is replaced in it by what.
UNREAD = [
    (5, '"hex":"0012', '"hex":"1012', 'octet 0 from 0, in majorSdoId, is 10; wanted is 00'),
    (5, '002c0000', '002c0001', 'octet 5 from 0, in minorSdoId, is 01; wanted is 00'),
    (9, '002c00000000', '002c00000200', 'octet 6 from 0, in twoStepFlag, is 02; wanted is 00'),
    (5, '00000000001122fffe', '00000001001122fffe', 'octet 19 from 0, in messageTypeSpecific, is 01; wanted is 00'),
    (9, '00010000020000', '00010000030000', 'octet 32 from 0, in controlField, is 03; wanted is 02'),
    (11, '017f00', '017e00', 'octet 33 from 0, in logMessageInterval, is 7e; wanted is 7f'),
    (11, '00000000"', '0000c350"', 'octet 42 from 0, in originTimestamp, is c3; wanted is 00, and 1 more differ'),
]

# The octets of the messages of an exchange without residence.
SYNC = '0012002c00000200000000000000000000000000001122fffe33445500010000000000000000000000000000'
FOLLOW_UP = '0812002c00000000000000000000000000000000001122fffe33445500010000020000000000000100000000'
DELAY_REQ = '0112002c0000000000000000000000000000000000aabbfffeccddee00010000017f00000000000000000000'
DELAY_RESP = '0912003600000000000000000000000000000000001122fffe3344550001000003000000000000020000000000aabbfffeccddee0001'


# An exchange with a one-step Sync, in no time.
ONE_STEP = [
    *TRANSCRIPT[:3],
    '{"ev":"setmaster","master":"M","n":0,"node":"S","out":"done"}\n',
    '{"at":[1,0,0],"ev":"syncone","hex":"0012002c00000000000000000000000000000000001122fffe33445500010000000000000000000100000000",'
    '"n":1,"node":"M","out":"made","reading":[1,0,0]}\n',
    '{"at":[1,0,0],"copy":1,"ev":"arrive","n":2,"node":"S","out":"completed","reading":[1,0,0]}\n',
    f'{{"at":[2,0,0],"ev":"request","hex":"{DELAY_REQ}","n":3,"node":"S","out":"made","reading":[2,0,0]}}\n',
    '{"ev":"stamped","n":4,"node":"S","out":"done"}\n',
    f'{{"at":[2,0,0],"copy":3,"ev":"arrive","hex":"{DELAY_RESP}","n":5,"node":"M","out":"made","reading":[2,0,0]}}\n',
    '{"copy":5,"ev":"hear","n":6,"node":"S","offset2":"0","out":"report","path2":"0","tags":[2,null,3,6]}\n',
]


def stays_of(events, stays, copy, octets, moment, twice):
    """Adds so many stays of a message, of which the first is of the copy of this number, and the one of that place is left twice."""
    for place in range(stays):
        enter, leave = len(events), len(events) + 1
        events += [{'copy': copy, 'ev': 'enter', 'node': 'T', 'out': 'entered', **moment},
                   *[{'ev': 'leave', 'hex': octets, 'node': 'T', 'out': 'made', 'transit': enter, **moment}] * (2 if place == twice else 1)]
        copy = leave
    return copy


def staying(stays, copy, of_request=0, twice=None):
    """A transcript of an exchange whose Sync stays in a clock so many times, for no time, and whose Delay_Req so many times, and which
    reports one unit too much. The first stay is of the copy of this number, which is 1 for the Sync."""
    first, second = ({'at': moment, 'reading': moment} for moment in ([1, 0, 0], [2, 0, 0]))
    events = [{'ev': 'setmaster', 'master': 'M', 'node': 'S', 'out': 'done'},
              {'ev': 'sync', 'hex': SYNC, 'node': 'M', 'out': 'made', **first}]
    left = stays_of(events, stays, copy, SYNC, first, twice)
    sync, follow, heard, request = range(len(events), len(events) + 4)
    events += [{'copy': left if stays else 1, 'ev': 'arrive', 'node': 'S', 'out': 'held', **first},
               {'ev': 'follow', 'hex': FOLLOW_UP, 'node': 'M', 'out': 'made'},
               {'copy': follow, 'ev': 'hear', 'node': 'S', 'out': 'completed'},
               {'ev': 'request', 'hex': DELAY_REQ, 'node': 'S', 'out': 'made', **second},
               {'ev': 'stamped', 'node': 'S', 'out': 'done'}]
    left = stays_of(events, of_request, request, DELAY_REQ, second, twice)
    answer, report = len(events), len(events) + 1
    events += [{'copy': left, 'ev': 'arrive', 'hex': DELAY_RESP, 'node': 'M', 'out': 'made', **second},
               {'copy': answer, 'ev': 'hear', 'node': 'S', 'offset2': '1', 'out': 'report', 'path2': '0',
                'tags': [sync, heard, request, report]}]
    numbered = (compact({**event, 'n': number}) for number, event in enumerate(events))
    return ''.join([*TRANSCRIPT[:3], *(line + '\n' for line in numbered)])


class Explained(unittest.TestCase):
    maxDiff = None

    def begins(self, output, said):
        self.assertEqual(output[:len(said)], said)

    def ends(self, output, said):
        self.assertEqual(output[-len(said):], said)

    def test_tells_by_how_much(self):
        text = changed(TRANSCRIPT, (TRANSCRIPT[16], TOO_MUCH))
        for options, said in [('', STORY), ('--first', STORY), ('--json', JUDGED), ('--json --first', JUDGED)]:
            with self.subTest(options=options):
                ended = explain(text, options)
                self.assertEqual(ended.output, said)
                self.assertEqual((ended.status, ended.errors), (1, ''))

    def test_tells_the_first_that_is_refused(self):
        text = changed(TRANSCRIPT, (TRANSCRIPT[16], TOO_MUCH + TOLD_TWICE))
        both = '1 report: 0 sound\n  706 stands against 1', '2 reports: 0 sound\n  706 stands against 2'
        self.assertEqual(explain(text, '--first').output, changed(STORY, both, ('0 of 1 report', '0 of 2 reports')))
        self.assertIn('\nevent 14, line 18: the report of S is refused, 706: ', explain(text).output)

    def test_counts_each_reason(self):
        output = explain(changed([*TRANSCRIPT, TOLD_TWICE], *VERSIONS)).output
        self.assertIn("""
2 reports: 0 sound
  706 stands against 1: the two results aren't those of the readings
  708 stands against 2: """, output)
        self.assertIn("""
results equal to those by the messages that came to the slave: 1 of 2 reports
results equal to those by the readings of the clocks: 1 of 2 reports
were octets left aside (708), 1 of 2 reports would be sound
""", output)

    def test_tells_of_a_sound_report(self):
        for options, said in [('', SOUND), ('--json', JUDGED_SOUND), ('--json --first', '')]:
            with self.subTest(options=options):
                ended = explain(''.join(TRANSCRIPT), options)
                self.assertEqual(ended.output, said)
                self.assertEqual(ended.status, 0)

    def test_tells_what_is_no_line(self):
        ended = explain(changed(TRANSCRIPT, (TRANSCRIPT[3], NO_NAME)))
        self.assertEqual(ended.output, """\
line 4: "node" is "S 1"; wanted are 1 to 16 letters, digits, _ or -
no report was judged from line 4 on
""")
        self.assertEqual((ended.status, ended.errors), (3, 'ptpx: fault 806 at line 4\n'))

    def test_tells_of_input_that_has_no_report(self):
        for lines, said in [
            ([], 'there is no report, so nothing was judged\nverdict: accepted 0\n'),
            (TRANSCRIPT[:16], 'there is no report, so nothing was judged\nverdict: accepted 0\n'),
            (SCHEDULE, "a schedule of 14 events, which all happen; 'ptpx replay' makes a transcript of it, which 'ptpx check' judges\n"),
        ]:
            with self.subTest(said=said):
                ended = explain(''.join(lines))
                self.assertEqual(ended.output, said)
                self.assertEqual(ended.status, 0)

    def test_counts_completions_that_have_no_report(self):
        for lines, changes, said in UNREPORTED:
            with self.subTest(changes=changes):
                ended = explain(changed(lines, *changes))
                self.ends(ended.output, said)
                self.assertEqual(ended.status, 0)

    def test_counts_outcomes_that_a_slave_here_has_not(self):
        for lines, changes, said in OUTCOMES:
            with self.subTest(changes=changes, said=said):
                output = explain(changed(lines, *changes)).output
                if said:
                    self.assertIn(f'\n{OTHERS}{said}verdict: ', output)
                else:
                    self.assertNotIn(OTHERS, output)

    def test_tells_of_input_of_other_kinds(self):
        for text, said in FOREIGN:
            with self.subTest(text=text):
                ended = explain(text)
                self.assertEqual(ended.output, OTHER + said)
                self.assertEqual(ended.status, 3)

    def test_tells_of_other_kinds_whose_first_line_is_long(self):
        for begin, said in LONG:
            with self.subTest(begin=begin):
                ended = explain(begin * 1000)
                self.assertEqual(ended.output, said)
                self.assertEqual(ended.status, 3)

    def test_tells_of_twenty_lines(self):
        for count, more in [(20, ''), (21, 'and 1 line more\n'), (22, 'and 2 lines more\n')]:
            with self.subTest(count=count):
                output = explain('x\n' * count).output
                self.assertIn('\nline 20, octet 1: ', output)
                self.assertNotIn('line 21', output)
                self.ends(output, more + 'no report was judged from line 1 on\n')

    def test_tells_what_was_read_before_a_line_that_is_too_long(self):
        ended = explain('\n' + 'x' * 4097)
        self.assertEqual(ended.output, """\
line 1, octet 1: no JSON: nothing; wanted is an object
line 2: more than 4096 octets; wanted is an LF after each node and each event
""")
        self.assertEqual(ended.status, 3)

    def test_tells_that_a_first_line_is_empty(self):
        self.assertEqual(explain('\n').output, """\
line 1, octet 1: no JSON: nothing; wanted is an object
no report was judged from line 1 on
""")
        self.assertEqual(explain('\n{"node":"T"}\n').output, """\
line 1, octet 1: no JSON: nothing; wanted is an object
line 2: "ev" of an event or "kind" of a node is missing
no report was judged from line 1 on
""")

    def test_tells_why_an_event_is_refused(self):
        for place, old, new, said in REFUSED:
            with self.subTest(old=old, new=new):
                ended = explain(changed(SCHEDULE, (old, new), place=place))
                self.assertEqual(ended.output, said)
                self.assertEqual(ended.status, 3)

    def test_tells_that_there_are_no_nodes(self):
        ended = explain(SCHEDULE[3])
        self.assertEqual(ended.output, 'event 0, line 1: refused, 603: no node is called S; there are no nodes\nno event happens from line 1 on\n')
        self.assertEqual(ended.status, 3)

    def test_tells_which_nodes_clash(self):
        text = SCHEDULE[2] + SCHEDULE[0] + SCHEDULE[2]
        self.assertEqual(explain(text).output, 'lines 1 and 3: 601: two nodes have one name, T\n')

    def test_tells_what_each_reason_met(self):
        for place, old, new, said in MET:
            with self.subTest(old=old, new=new):
                ended = explain(changed(TRANSCRIPT, (old, new), place=place))
                self.begins(ended.output, said)
                self.assertEqual(ended.status, 1)

    def test_tells_of_a_follow_up_of_no_sync(self):
        output = explain(changed(TRANSCRIPT, ('"sync"', '"syncone"'), place=5)).output
        self.assertIn('    event 6, line 10, a follow at M: no two-step Sync was sent before it, so no octets are right\n', output)

    def test_tells_of_lines_that_were_changed(self):
        for lines, changes, said in CHANGED:
            with self.subTest(changes=changes):
                ended = explain(changed(lines, *changes))
                self.begins(ended.output, said)
                self.assertNotEqual(ended.status, 0)

    def test_tells_which_request_was_answered(self):
        self.begins(explain(''.join(TRANSCRIPT[:16] + TAKEN_FOR_ANOTHER)).output, refused(15, 19, 702) + """\
    the Delay_Resp answers Delay_Req 0, event 8, line 12, a request at S; it is taken for one to Delay_Req 1, event 13, line 17, a request at S
    so what its messages tell together is the result of no exchange
  t1  event  2  line  6  M  1.000000000                   Sync 0 departs; told by event 6
      3 to 4  line 7, 8  T in the clock 2000 ns
  t2  event  5  line  9  S  1.000004000                   a = t2 - t1 - 2000 ns = 2000 ns
  t3  event  8  line 12  S  2.000001000                   Delay_Req 0 departs; event 14 tells when Delay_Req 1 did
""")

    def test_tells_of_devices_of_the_older_standard(self):
        for changes, said, end in OLDER:
            with self.subTest(changes=changes):
                output = explain(changed(TRANSCRIPT, *VERSIONS, *changes)).output
                self.assertIn(said, output)
                self.ends(output, end)

    def test_tells_from_which_field_on_messages_differ(self):
        # The controlField of the Sync as it was sent.
        control = '33445500010000000000000000000000000000","n":2', '33445500010000050000000000000000000000","n":2'
        # An octet behind the Delay_Req as it was sent.
        suffix = '017f00000000000000000000","n":8', '017f0000000000000000000000","n":8'
        self.ends(explain(changed(TRANSCRIPT, control, suffix)).output, """\
other octets than a port or a clock writes: 2 of 6 messages
  from controlField on: 1
  in the suffix or in length alone: 1
verdict: refused event 13: 708
""")

    def test_tells_octets_behind_a_message_as_read_by_nobody(self):
        longer = '017f00000000000000000000"', '017f000000000000000000000000"'
        # padding, and a part of the message by its messageLength
        for changes in [longer], [longer, ('"hex":"0112002c', '"hex":"0112002e')]:
            with self.subTest(changes=changes):
                text = changed(TRANSCRIPT, *changes, place=11)
                self.assertIn('"octets":"other"', explain(text, '--json').output)
                self.assertIn('it has 46 octets; wanted are 44', explain(text).output)

    def test_tells_by_how_much_fields_that_are_read_differ(self):
        for place, old, new, said, counted in READ:
            with self.subTest(old=old, new=new):
                text = changed(TRANSCRIPT, (old, new), place=place)
                ended = explain(text)
                self.assertIn(f': {said}\n', ended.output)
                self.assertIn(f"""
octets can't be left aside (708): a field that a slave or a master reads differs in 1 message
  {counted}
other octets than a port or a clock writes: 1 of 6 messages
""", ended.output)
                self.assertNotIn('would be sound', ended.output)
                self.assertEqual(ended.status, 1)

    def test_tells_that_fields_that_nobody_reads_can_be_left_aside(self):
        for place, old, new, said in UNREAD:
            with self.subTest(old=old, new=new):
                output = explain(changed(TRANSCRIPT, (old, new), place=place)).output
                self.assertIn(f': {said}\n', output)
                self.assertIn('\nwere octets left aside (708), 1 of 1 report would be sound\n', output)

    def test_tells_no_amount_where_a_correction_is_too_big_to_say(self):
        # The correctionField of the Sync as it was sent, and as it left the clock.
        sent = '00020000000000000000000000000000', '00020000000000000100000000000000'
        left = '000000000007d00000', '007fffffffffffffff'
        output = explain(changed(TRANSCRIPT, sent, left)).output
        self.assertIn('correctionField is 1 ns; wanted is 0 ns, 1 ns less\n', output)
        self.assertIn('correctionField is too big; wanted is 2000 ns\n', output)
        self.assertIn('\n  correctionField in 2\n', output)

    def test_tells_the_time_of_a_one_step_sync(self):
        output = explain(changed(ONE_STEP, ('00000000000100000000"', '0000000000010000c350"'))).output
        self.assertIn('    event 1, line 5, a syncone at M: originTimestamp is 1.000050000; wanted is 1.000000000, 50000 ns less\n', output)
        self.assertIn('\n  originTimestamp in 1, by 50000 ns at the most\n', output)

    def test_tells_the_time_of_a_sync_that_says_that_no_follow_up_comes(self):
        flag = '002c00000200', '002c00000000'
        origin = '00000000000000000000","n":2', '0000000000010000c350","n":2'
        output = explain(changed(TRANSCRIPT, flag, origin, place=5)).output
        self.assertIn(' twoStepFlag is 0; wanted is 1\n', output)
        self.assertIn(' originTimestamp is 1.000050000; wanted is 0.000000000, 1000050000 ns less\n', output)

    def test_tells_which_message_brought_a_report_of_another(self):
        self.begins(explain(''.join(TRANSCRIPT[:16] + OF_ANOTHER_EVENT)).output, refused(17, 21, 701) + """\
    none of "tags" is 17, which is the Follow_Up of Sync 1; the 2nd, of the Follow_Up, names event 7, line 11, a hear at S, \
which is the Follow_Up of Sync 0
1 report: 0 sound
""")

    def test_tells_what_came_before_the_master_was_told(self):
        self.begins(explain(''.join(TRANSCRIPT[:16] + TOLD_AGAIN)).output, refused(14, 18, 703) + """\
    S, domain 0, was told the master M by event 13, line 17, a setmaster at S
    the Sync is of M, domain 0; the Delay_Req was answered by event 11, line 15, an arrive at M
    the Sync of event 5, line 9, an arrive at S, is earlier than event 13
  t1  event  2  """)

    def test_tells_of_long_journeys_in_few_lines(self):
        for stays, copy, said in [
            (20, 1, """\
  t1  event  1  line  5  M  1.000000000  Sync 0 departs; told by event 43
      before these in clocks 0 ns
      10 to 11  line 14, 15  T in the clock 0 ns
      12 to 13  line 16, 17  T in the clock 0 ns
"""),
            (300, 0, """\
can't be followed back to where it was sent, or a stay on it was left twice
    the journey of the Sync stops at event 2, line 6, an enter at T: it names event 0, line 4, a setmaster at S, which sent no such message
"""),
        ]:
            with self.subTest(stays=stays):
                ended = explain(staying(stays, copy))
                self.assertIn(said, ended.output)
                self.assertEqual(ended.status, 1)

    def test_tells_how_much_of_a_journey_was_looked_at(self):
        for stays, message in ((300, 0), 'Sync'), ((0, 300), 'Delay_Req'):
            with self.subTest(message=message):
                output = explain(changed(staying(stays[0], 1, stays[1]), ('"hex":"0812', '"hex":"0802'))).output
                self.assertIn(f'    of the stays of the {message} only the last 16 were looked at for more\n', output)
                for place in 3, 299:
                    output = explain(staying(stays[0], 1, stays[1], place)).output
                    self.assertRegex(output, f'    the {message} entered a clock by event [0-9]+, .*, and left it twice: '
                                             'by event [0-9]+, line [0-9]+ and by event [0-9]+, line [0-9]+, a leave at T\n')

    def test_tells_once_what_is_behind_several_reports(self):
        network = (EXAMPLES / 'network.transcript.jsonl').read_text().splitlines(True)
        # the clock of S1 as it sends the Delay_Req on which three reports rest
        ended = explain(changed(network, ('"reading":[10,5001000,0]', '"reading":[10,5001005,0]'), place=16))
        self.assertEqual(ended.status, 1)
        self.assertEqual(ended.output.count('    event 11, line 17, a request at S1: read is 10.005001005, '), 1)
        told = [line for line in ended.output.splitlines() if line.startswith(('event ', '    as told'))]
        self.assertEqual([line if line.startswith(' ') else line.partition(',')[0] for line in told],
                         ['event 16', 'event 17', '    as told of the report of event 16, line 22', 'event 24',
                          '    as told of the report of event 16, line 22'])

    def test_tells_what_is_wrong_first_before_the_stays_that_are_looked_at(self):
        octets = 'octet 0 from 0, in majorSdoId, is {}; wanted is {}'
        reading = 'read is {0}.000000005, the true moment is {0}.000000000, and they differ by 5 ns; wanted is 0 ns, since no event set the clock'
        for lines, message, event, old, new, said in [
            (staying(300, 1), 'Sync', 11, '"hex":"0012', '"hex":"1012', octets.format('10', '00')),
            (staying(300, 1), 'Sync', 11, '"reading":[1,0,0]', '"reading":[1,5,0]', reading.format(1)),
            (staying(0, 1, 300), 'Delay_Req', 12, '"hex":"0112', '"hex":"1112', octets.format('11', '01')),
            (staying(0, 1, 300), 'Delay_Req', 12, '"reading":[2,0,0]', '"reading":[2,5,0]', reading.format(2)),
        ]:
            with self.subTest(message=message, new=new):
                output = explain(changed(lines.splitlines(True), (old, new), place=event + 3)).output
                # below 708, too, where a reading asks for another correction
                self.assertEqual(output.count(f'    event {event}, line {event + 4}, '), 2 if 'reading' in old else 1)
                self.assertIn(f"""
    event {event}, line {event + 4}, a leave at T: {said}
    of the stays of the {message} only the last 16 were looked at for more
""", output)
