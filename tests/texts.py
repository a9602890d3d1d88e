#!/usr/bin/env python3
"""Hands texts to the program as they stand, and compares what it answers and keeps.

    tests/texts.py

Instants and zones are those of `duty`, of ground duties and of bases, requests those of `do`, and schedules those of `import`. Each text
stands here with what docs/FORMATS.md has of it: a refusal in words, as tests/office.py puts it, or the text that the command is
kept as, which is read from the table `request`. A schedule and some requests are also cut after each of their bytes; how a cut
schedule is answered is worked out with Python's own reader of CSV. What differs is printed on standard error. The line before the last one
says how many cuts there were. The last line is 'N passed, M failed', and the exit status 1 where M isn't 0.
"""

import csv
import io
import re
import sys
import tempfile
from dataclasses import dataclass
from datetime import datetime, timedelta
from pathlib import Path

from office import Book, Ran, build, compact, rosterbook, told, written

ACCEPTED = '{"exceedances":[],"result":"accepted"}'

# ---- Instants.

# Ground duties of one member: their beginnings and their ends, with the minutes that they are kept as.
INSTANTS = [
    ("2000-01-01T00:00Z", 0, "2000-01-01T23:59Z", 1_439),
    ("2000-02-29T00:00Z", 84_960, "2000-03-01T00:00Z", 86_400),
    ("2001-01-01T00:00Z", 527_040, "2025-06-10T11:00:00Z", 13_381_140),
    ("2025-06-10T11:00Z", 13_381_140, "2099-12-31T23:59:00Z", 52_595_999),
]

NO_INSTANTS = {
    "T1 Malformed": [
        "",
        "2025-06-10 11:00Z",
        "2025-06-10T11:00:30Z",
        "2025-06-10T11:00z",
        "2025-06-10t11:00Z",
        "2025-06-10T11:00",
        "2025-06-10T11:00Z ",
        "2025-06-10T11:00:00",
        "2025-6-10T11:00Z",
        "12025-06-10T11:00Z",
        "+025-06-10T11:00Z",
        "2025-06-10T11:00+00:00",
    ],
    "T2 NoSuchTime": [
        "2025-02-29T00:00Z",
        "2025-00-10T00:00Z",
        "2025-13-10T00:00Z",
        "2025-06-00T00:00Z",
        "2025-06-31T00:00Z",
        "2025-12-32T00:00Z",
        "2025-06-10T24:00Z",
        "2025-06-10T11:60Z",
        "1999-02-29T00:00Z",
        "1900-02-29T00:00Z",
        "9999-99-99T99:99Z",
    ],
    "T3 OutOfRange": [
        "0000-02-29T00:00Z",
        "1996-02-29T00:00Z",
        "1999-12-31T23:59Z",
        "2100-01-01T00:00:00Z",
        "9999-12-31T23:59Z",
    ],
}

# ---- Zones.

NEW_YORK = "EST5EDT,M3.2.0,M11.1.0"
AUCKLAND = "NZST-12NZDT,M9.5.0,M4.1.0/3"
LONGEST_ZONE = "<AAAAAAAAAAAAAAA>-05:30<BBBBBBBBBBBBBBB>-06:30:00,M3.2.0,M11.1.0"

# What the clock of a zone shows at an instant.
LOCAL = [
    (NEW_YORK, "2025-06-10T15:59Z", "11:59"),
    (NEW_YORK, "2025-06-10T16:00Z", "12:00"),
    (NEW_YORK, "2025-06-11T03:59Z", "23:59"),
    (NEW_YORK, "2025-06-11T04:00Z", "00:00"),
    (NEW_YORK, "2025-03-09T06:59Z", "01:59"),
    (NEW_YORK, "2025-03-09T07:00Z", "03:00"),
    (NEW_YORK, "2025-03-09T08:30Z", "04:30"),
    (NEW_YORK, "2025-11-02T05:59Z", "01:59"),
    (NEW_YORK, "2025-11-02T06:00Z", "01:00"),
    (NEW_YORK, "2025-11-02T10:00Z", "05:00"),
    (NEW_YORK, "2000-01-01T00:00Z", "19:00"),
    ("UTC0", "2025-06-10T11:00Z", "11:00"),
    ("<+0530>-5:30", "2025-06-10T20:00Z", "01:30"),
    (AUCKLAND, "2025-01-10T11:00Z", "00:00"),
    (AUCKLAND, "2025-06-10T11:59Z", "23:59"),
    (AUCKLAND, "2099-12-31T23:58Z", "12:58"),
    ("LMT4:56:02", "2025-06-10T04:56Z", "00:00"),
    ("<+00>-0:00:59", "2025-06-10T11:00Z", "11:00"),
    (LONGEST_ZONE, "2025-06-10T11:00Z", "17:30"),
]

NO_ZONES = ["", LONGEST_ZONE.replace("06:30:00", "6:30:00").replace("M3.2.0", "M3.2.0/2"), "É5", "America/New_York", "EST", "EST5EDT,M3.2.0"]

# ---- Requests.

TIMES = '"report":"2025-06-10T12:00Z","release":"2025-06-10T13:00Z"'

# A request is refused for its first member that is missing or isn't read, then for a shape, a count and an order of times.
REFUSED = {
    "31 BadJson do": [
        '{"number":1}',
        '{"number":1,"crew":1,"pairing":2}',
        '{"number":1,"do":"Assign","crew":1,"pairing":2}',
    ],
    "31 BadJson pairing": ['{"number":1,"do":"assign","crew":1,"pairing":2}'],
    "31 BadJson crew": [
        '{"number":1,"do":"assign","crew":1,"pairing":"p"}',
        '{"number":1,"do":"assign","pairing":"p1","crew":5}',
        '{"number":1,"do":"record-outside","outside":"x","crew":5,"report":5}',
    ],
    "31 BadJson seat": ['{"number":1,"do":"add-crew","crew":"c","seat":"Captain"}'],
    "31 BadJson name": [
        '{"number":1,"do":"add-crew","crew":"c","seat":"captain"}',
        '{"number":1,"do":"add-crew","crew":"c","seat":"captain","base":null}',
    ],
    # A base may be missing where a member is added, and is a text else.
    "31 BadJson base": [
        '{"number":1,"do":"add-crew","crew":"c","seat":"captain","name":"","base":null}',
        '{"number":1,"do":"add-crew","crew":"c","seat":"captain","name":"","base":5}',
        '{"number":1,"do":"add-crew","crew":"c","seat":"captain","name":"","base":["HOME"]}',
        '{"number":1,"do":"add-crew","crew":"c","seat":"captain","name":"","base":"HOME","base":null}',
        '{"number":1,"do":"add-base"}',
        '{"number":1,"do":"add-base","zone":"nowhere"}',
        '{"number":1,"do":"add-base","base":null,"zone":"nowhere"}',
    ],
    "31 BadJson zone": [
        '{"number":1,"do":"add-base","base":"den"}',
        '{"number":1,"do":"add-base","base":"den","zone":"nowhere"}',
        '{"number":1,"do":"add-base","base":"HOME","zone":null}',
        '{"number":1,"do":"add-base","base":"HOME","zone":5}',
    ],
    "31 BadJson periods": ['{"number":1,"do":"add-pairing","pairing":"p","periods":{}}'],
    "31 BadJson other_pairing": ['{"number":1,"do":"swap","pairing":"p","crew":"c"}'],
    "31 BadJson other_crew": ['{"number":1,"do":"swap","pairing":"p","crew":"c","other_pairing":"q"}'],
    "31 BadJson ground": ['{"number":1,"do":"cancel-ground"}'],
    "31 BadJson begin": ['{"number":1,"do":"add-ground","ground":"g","crew":"c","begin":"2025-06-10T24:00Z"}'],
    "31 BadJson end": ['{"number":1,"do":"add-ground","ground":"g","crew":"c","begin":"2025-06-10T12:00Z"}'],
    "31 BadJson task": [
        '{"number":1,"do":"add-ground","ground":"g","crew":"c","begin":"2025-06-10T12:00Z","end":"2025-06-10T13:00Z","task":null}',
    ],
    "31 BadJson period": [
        '{"number":1,"do":"actual","pairing":"p","period":0}',
        '{"number":1,"do":"actual","pairing":"p","period":11}',
        '{"number":1,"do":"actual","pairing":"p","period":1.0}',
    ],
    "31 BadJson report": [
        '{"number":1,"do":"actual","pairing":"p","period":1,"report":"2025-02-29T00:00Z"}',
        '{"number":1,"do":"record-outside","outside":"x","crew":"c","release":"2025-02-29T00:00Z","segments":[]}',
    ],
    "31 BadJson release": [
        '{"number":1,"do":"actual","pairing":"p","period":1,"report":"2025-06-10T12:00Z"}',
        '{"number":1,"do":"record-outside","outside":"x","crew":"c","report":"2025-06-10T12:00Z","release":"2025-06-10T12:00","segments":1}',
    ],
    "31 BadJson outside": [
        '{"number":1,"do":"record-outside"}',
        '{"number":1,"do":"record-outside","outside":null,"crew":5,"report":""}',
        '{"number":1,"do":"record-outside","outside":["X1"],"crew":"C1"}',
    ],
    "31 BadJson segments": [
        f'{{"number":1,"do":"actual","pairing":"p","period":1,{TIMES},"segments":[{{"out":"2025-06-10T12:00Z"}}]}}',
        f'{{"number":1,"do":"record-outside","outside":"x","crew":"c",{TIMES}}}',
        f'{{"number":1,"do":"record-outside","outside":"x","crew":"c",{TIMES},"segments":{{}}}}',
        f'{{"number":1,"do":"record-outside","outside":"x","crew":"c",{TIMES},"segments":[{{"in":"2025-06-10T12:00Z"}}]}}',
        f'{{"number":1,"do":"record-outside","outside":"x","crew":"c",{TIMES},"segments":[["2025-06-10T12:00Z","2025-06-10T12:30Z"]]}}',
        f'{{"number":1,"do":"record-outside","outside":"x","crew":"c",{TIMES},"segments":[{{"out":"2025-06-10T12:00Z","in":"12:30Z"}}]}}',
    ],
    "18 BadField crew": [
        '{"number":1,"do":"assign","pairing":"P1","crew":"c"}',
        f'{{"number":1,"do":"record-outside","outside":"X","crew":"c",{TIMES},"segments":[]}}',
    ],
    "18 BadField outside": [f'{{"number":1,"do":"record-outside","outside":"x","crew":"c",{TIMES},"segments":[]}}'],
    "18 BadField pairing": [
        '{"number":1,"do":"assign","pairing":"p","crew":"c"}',
        f'{{"number":1,"do":"actual","pairing":"p","period":1,{TIMES},"segments":[]}}',
    ],
    "18 BadField base": [
        '{"number":1,"do":"add-base","base":"den","zone":"UTC0"}',
        '{"number":1,"do":"add-base","base":"","zone":"UTC0"}',
        '{"number":1,"do":"add-crew","crew":"C1","seat":"captain","name":"Ada Ray","base":"home"}',
        '{"number":1,"do":"add-crew","crew":"C1","seat":"captain","name":"Ada Ray","base":""}',
    ],
    "18 BadField ground": [r'{"number":1,"do":"cancel-ground","ground":"G\u0000"}'],
    "18 BadField name": [
        '{"number":1,"do":"add-crew","crew":"C1","seat":"captain","name":"Maximiliana Theodora Alexandrina von Hohenberg-Wittelsbachers"}',
        r'{"number":1,"do":"add-crew","crew":"C1","seat":"captain","name":"\u0001"}',
    ],
    "19 SegmentCount 1": [f'{{"number":1,"do":"actual","pairing":"P","period":1,{TIMES},"segments":[]}}'],
    "19 SegmentCount 0": [
        f'{{"number":1,"do":"record-outside","outside":"X","crew":"C",{TIMES},"segments":[]}}',
        f'{{"number":1,"do":"record-outside","outside":"X","crew":"C",{TIMES},"segments":['
        + ",".join(['{"out":"2025-06-10T12:00Z","in":"2025-06-10T12:00Z"}'] * 13) + "]}",
    ],
    "16 BadTimes 0": [
        f'{{"number":1,"do":"record-outside","outside":"X","crew":"C",{TIMES},"segments":['
        '{"out":"2025-06-10T12:00Z","in":"2025-06-10T12:00Z"}]}',
        f'{{"number":1,"do":"record-outside","outside":"X","crew":"C",{TIMES},"segments":['
        '{"out":"2025-06-10T12:00Z","in":"2025-06-10T13:01Z"}]}',
    ],
    "2 NoSuchCrew": [
        f'{{"number":1,"do":"record-outside","outside":"X","crew":"C",{TIMES},"segments":['
        '{"out":"2025-06-10T12:00Z","in":"2025-06-10T13:00Z"}]}',
    ],
    "16 BadTimes 1": [
        f'{{"number":1,"do":"actual","pairing":"P","period":1,{TIMES},"segments":['
        '{"out":"2025-06-10T11:00Z","in":"2025-06-10T12:30Z"}]}',
    ],
    # Nothing else is looked at before the number.
    "31 BadJson number": [
        "{}",
        '{"do":"cancel-ground","ground":"G1"}',
        '{"number":0,"do":1}',
        '{"number":1,"number":null,"do":"cancel-ground","ground":"G1"}',
        *(
            f'{{"number":{number},"do":"cancel-ground","ground":"G1"}}'
            for number in ('"1"', "1.0", "1e0", "-0", "0", "-1", 2**63, 2**64 + 1, 10**39 + 1)
        ),
    ],
    # No text of one object: half of a pair of escapes is no character, and a NUL stands in no text of JSON.
    "31 BadJson body": [
        "",
        "null",
        "[]",
        '["do","assign"]',
        "\0",
        '{"number":1,"do":"assign"} x',
        '{"number":1,"do":"cancel-ground","ground":"G1"',
        '{"number":1,"do":"cancel-ground","ground":"G1"}{}',
        '{"number":1,"do":"cancel-ground","ground":"G1"}\0',
        '{"number":1,"do":"cancel-ground","ground":"G\0"}',
        r'{"number":1,"do":"cancel-ground","ground":"\ud800"}',
        '{"number":1e999,"do":"cancel-ground","ground":"G1"}',
        '\ufeff{"number":1,"do":"cancel-ground","ground":"G1"}',
        b'{"number":1,"do":"cancel-ground","ground":"G1","note":"\xff"}',
    ],
}  # fmt: skip

NAME = "Maximiliana Theodora Alexandrina von Hohenberg-Wittelsbacher"  # of 60 bytes

# Requests 1, 2 and so on, which are accepted in turn, and the texts that they are kept as.
KEPT = [
    (
        '{"number":1,"do":"add-crew","crew":"C-23456789AB","seat":"captain","name":"%s"}' % NAME,
        '{"crew":"C-23456789AB","do":"add-crew","name":"%s","seat":"captain"}' % NAME,
    ),
    (
        '{"number":2,"do":"add-crew","crew":"F1","seat":"first officer","name":"Bo Lin"}',
        '{"crew":"F1","do":"add-crew","name":"Bo Lin","seat":"first officer"}',
    ),
    # From the first instant to the last, both in the second form, with a task of every kind of letter.
    (
        '{"number":3,"do":"add-ground","ground":"G-23456789AB","crew":"C-23456789AB","begin":"2000-01-01T00:00:00Z",'
        r'"end":"2099-12-31T23:59:00Z","task":"\"a\\b\/\" é\u2028\ud834\udd1e"}',
        '{"begin":"2000-01-01T00:00Z","crew":"C-23456789AB","do":"add-ground","end":"2099-12-31T23:59Z","ground":"G-23456789AB",'
        '"task":"\\"a\\\\b/\\" é\u2028\U0001d11e"}',
    ),
    ('{"number":4,"do":"cancel-ground","ground":"G-23456789AB"}', '{"do":"cancel-ground","ground":"G-23456789AB"}'),
    (
        '{"number":5,"do":"add-pairing","pairing":"P1","periods":[%s]}'
        % ",".join(
            f'{{"report":"2025-06-{day:02}T11:00Z","release":"2025-06-{day:02}T22:00Z","segments":['
            f'{{"flight":"RB1","from":"BOS","out":"2025-06-{day:02}T12:00Z","to":"IAD","in":"2025-06-{day:02}T14:30Z"}},'
            f'{{"flight":"RB2","from":"IAD","out":"2025-06-{day:02}T16:00Z","to":"BOS","in":"2025-06-{day:02}T18:30Z"}}]}}'
            for day in range(1, 20, 2)
        ),
        '{"do":"add-pairing","pairing":"P1","periods":[%s]}'
        % ",".join(
            f'{{"release":"2025-06-{day:02}T22:00Z","report":"2025-06-{day:02}T11:00Z","segments":['
            f'{{"flight":"RB1","from":"BOS","in":"2025-06-{day:02}T14:30Z","out":"2025-06-{day:02}T12:00Z","to":"IAD"}},'
            f'{{"flight":"RB2","from":"IAD","in":"2025-06-{day:02}T18:30Z","out":"2025-06-{day:02}T16:00Z","to":"BOS"}}]}}'
            for day in range(1, 20, 2)
        ),
    ),
    # In any order, with blanks, a member that isn't named, and one that comes twice.
    (
        ' { "pairing" : "P9", "do" : "assign",\n\t\r"note" : [-1.5e3, null], "number" : 6, "crew" : "F1", "pairing" : "\\u0050\\u0031" } ',
        '{"crew":"F1","do":"assign","pairing":"P1"}',
    ),
    (
        '{"number":7,"do":"assign","crew":"C-23456789AB","pairing":"P1"}',
        '{"crew":"C-23456789AB","do":"assign","pairing":"P1"}',
    ),
    (
        '{"number":8,"do":"actual","pairing":"P1","period":10,"report":"2025-06-19T11:10Z","release":"2025-06-19T22:00:00Z","segments":['
        '{"out":"2025-06-19T12:05Z","in":"2025-06-19T14:40Z"},{"out":"2025-06-19T16:05Z","in":"2025-06-19T18:40Z"}]}',
        '{"do":"actual","pairing":"P1","period":10,"release":"2025-06-19T22:00Z","report":"2025-06-19T11:10Z","segments":['
        '{"in":"2025-06-19T14:40Z","out":"2025-06-19T12:05Z"},{"in":"2025-06-19T18:40Z","out":"2025-06-19T16:05Z"}]}',
    ),
    (
        '{"number":9,"do":"add-base","zone":"MST7MDT,M3.2.0,M11.1.0","base":"DEN"}',
        '{"base":"DEN","do":"add-base","zone":"MST7MDT,M3.2.0,M11.1.0"}',
    ),
    (
        '{"number":10,"do":"add-crew","crew":"C9","seat":"captain","name":"Lee Roy","base":"DEN"}',
        '{"base":"DEN","crew":"C9","do":"add-crew","name":"Lee Roy","seat":"captain"}',
    ),
    # HOME is left out, whether it is named or not.
    (
        '{"number":11,"do":"add-crew","crew":"C8","seat":"captain","name":"Bo Lind","base":null,"base":"HOME"}',
        '{"crew":"C8","do":"add-crew","name":"Bo Lind","seat":"captain"}',
    ),
    # Its members and those of its segments in another order, instants in the second form, and members that aren't its own.
    (
        '{"number":12,"do":"record-outside","segments":[{"in":"2025-07-05T14:30:00Z","out":"2025-07-05T13:30Z","flight":"ZZ9"},'
        '{"out":"2025-07-05T14:30Z","in":"2025-07-05T15:45Z"}],"release":"2025-07-05T16:00:00Z","report":"2025-07-05T13:00:00Z",'
        '"period":0,"pairing":null,"crew":"C8","outside":"X-23456789AB"}',
        '{"crew":"C8","do":"record-outside","outside":"X-23456789AB","release":"2025-07-05T16:00Z","report":"2025-07-05T13:00Z","segments":['
        '{"in":"2025-07-05T14:30Z","out":"2025-07-05T13:30Z"},{"in":"2025-07-05T15:45Z","out":"2025-07-05T14:30Z"}]}',
    ),
    # The same one again, at other times.
    (
        '{"number":13,"do":"record-outside","outside":"X-23456789AB","crew":"C8","report":"2025-07-05T13:00Z","release":"2025-07-05T16:00Z",'
        '"segments":[{"out":"2025-07-05T13:00Z","in":"2025-07-05T16:00Z"}]}',
        '{"crew":"C8","do":"record-outside","outside":"X-23456789AB","release":"2025-07-05T16:00Z","report":"2025-07-05T13:00Z","segments":['
        '{"in":"2025-07-05T16:00Z","out":"2025-07-05T13:00Z"}]}',
    ),
]  # fmt: skip


def nested(depth):
    """A request with a member of this many arrays in one another."""
    return '{"number":1,"do":"cancel-ground","ground":"G1","note":' + "[" * depth + "]" * depth + "}"


# ---- Schedules.

HEADER = b"pairing,period,report,release,flight,from,out,to,in\n"
P1 = b"P1,1,2025-06-10T11:00Z,2025-06-10T20:00Z,RB1,BOS,2025-06-10T12:00Z,IAD,2025-06-10T19:30Z"
PERIOD_2 = b"P1,2,2025-06-11T11:00Z,2025-06-11T20:00Z,RB1,BOS,2025-06-11T12:00Z,IAD,2025-06-11T19:30Z"
P1_KEPT = (
    '{"do":"add-pairing","pairing":"P1","periods":[{"release":"2025-06-10T20:00Z","report":"2025-06-10T11:00Z","segments":['
    '{"flight":"RB1","from":"BOS","in":"2025-06-10T19:30Z","out":"2025-06-10T12:00Z","to":"IAD"}]}]}'
)
ONE = HEADER + P1 + b"\n"

MARKED = b"\xef\xbb\xbf" + ONE.replace(b"\n", b"\r\n").replace(b"RB1", b'"RB1"')

# The forms in which records end and fields are quoted.
FORMS = [
    ONE,
    MARKED,
    ONE.replace(b"\n", b"\r"),
    b"\n\n" + HEADER + b"\n" + P1.replace(b"11:00Z", b"11:00:00Z"),
]

# Two segments of a period, another period, another pairing, and the first pairing's id once more.
NEIGHBOURS = HEADER + b"""\
P1,1,2025-06-10T11:00Z,2025-06-10T20:00Z,RB1,BOS,2025-06-10T12:00Z,IAD,2025-06-10T14:00Z
P1,1,2025-06-10T11:00Z,2025-06-10T20:00Z,RB2,IAD,2025-06-10T15:00Z,BOS,2025-06-10T17:00Z
P1,2,2025-06-11T11:00Z,2025-06-11T15:00Z,RB3,BOS,2025-06-11T12:00Z,JFK,2025-06-11T14:00Z
P2,1,2025-06-10T11:00Z,2025-06-10T15:00Z,RB4,BOS,2025-06-10T12:00Z,IAD,2025-06-10T14:00Z
P1,1,2025-06-12T11:00Z,2025-06-12T15:00Z,RB5,BOS,2025-06-12T12:00Z,IAD,2025-06-12T14:00Z
"""
NEIGHBOURS_KEPT = [
    '{"do":"add-pairing","pairing":"P1","periods":['
    '{"release":"2025-06-10T20:00Z","report":"2025-06-10T11:00Z","segments":['
    '{"flight":"RB1","from":"BOS","in":"2025-06-10T14:00Z","out":"2025-06-10T12:00Z","to":"IAD"},'
    '{"flight":"RB2","from":"IAD","in":"2025-06-10T17:00Z","out":"2025-06-10T15:00Z","to":"BOS"}]},'
    '{"release":"2025-06-11T15:00Z","report":"2025-06-11T11:00Z","segments":['
    '{"flight":"RB3","from":"BOS","in":"2025-06-11T14:00Z","out":"2025-06-11T12:00Z","to":"JFK"}]}]}',
    '{"do":"add-pairing","pairing":"P2","periods":['
    '{"release":"2025-06-10T15:00Z","report":"2025-06-10T11:00Z","segments":['
    '{"flight":"RB4","from":"BOS","in":"2025-06-10T14:00Z","out":"2025-06-10T12:00Z","to":"IAD"}]}]}',
]

OTHER_HEADERS = [
    b"",
    b"\n",
    b"pairing,period,report,release,flight,from,out,to\n",
    b"pairing,period,report,release,flight,from,out,to,in,crew\n",
    b"pairing,period,release,report,flight,from,out,to,in\n",
    b"Pairing,period,report,release,flight,from,out,to,in\n",
    b"pairing, period,report,release,flight,from,out,to,in\n",
    b"\xef\xbb\xbf\xef\xbb\xbf" + HEADER,
]

# Records that aren't read: that of P1 with one of its texts in the place of another.
NOT_READ = [
    P1.partition(b"0T20")[0],
    P1.removesuffix(b",2025-06-10T19:30Z"),
    P1 + b",",
    P1.replace(b"P1,1", b"P1,01"),
    P1.replace(b"P1,1", b"P1,0"),
    P1.replace(b"P1,1", b"P1,11"),
    P1.replace(b"P1,1", b"P1, 1"),
    P1.replace(b"P1", b"p1"),
    P1.replace(b"06-10T11", b"06-31T11"),
    P1.replace(b"T20", b" 20"),
    P1.replace(b"RB1", b"RB\xff"),
    P1.replace(b"RB1", b'"RB\n1"'),
    P1.replace(b"BOS", b"BO"),
    P1.replace(b"2025-06-10T12:00Z", b"2100-01-01T00:00Z"),
    P1.replace(b"IAD", b""),
    P1.replace(b"2025-06-10T19:30Z", b""),
]

# Records that are out of their place after that of P1.
MISPLACED = [
    P1.replace(b"P1,1", b"P1,3"),
    P1.replace(b"11:00Z", b"11:01Z"),
    P1.replace(b"20:00Z", b"20:01Z"),
    P1.replace(b"P1,1", b"P2,2"),
]

LATE = P1.replace(b"P1", b"P2").replace(b"19:30Z", b"20:01Z")  # after its release
TO_IAD = P1.replace(b"P1", b"P3").replace(b"19:30Z", b"14:00Z")
FROM_BOS = P1.replace(b"P1", b"P3").replace(b"12:00Z", b"15:00Z")

# Records after the header, and the one that a schedule of them is refused with. What isn't read is looked for in all of them
# first, then what is out of its place, and then what is no pairing.
REFUSED_SCHEDULES = [
    *(([record], 2) for record in NOT_READ),
    *(([P1, record, P1], 3) for record in NOT_READ),
    *(([P1, record], 3) for record in MISPLACED),
    *(([P1, record, P1, b"P1"], 5) for record in MISPLACED),
    ([PERIOD_2], 2),
    ([P1, PERIOD_2, P1], 4),
    ([P1, LATE, P1], 3),
    ([P1, TO_IAD, FROM_BOS, LATE], 3),
    ([LATE, PERIOD_2.replace(b"P1", b"P4")], 3),
]


def schedule(records):
    return HEADER + b"".join(record + b"\n" for record in records)


# The header's fields, with the shapes that the texts below them have where they are whole.
INSTANT = r"\d{4}-\d\d-\d\dT\d\d:\d\d(:00)?Z"
SHAPES = {
    "pairing": "[A-Z0-9-]{1,12}", "period": "[1-9]|10", "report": INSTANT, "release": INSTANT, "flight": "[A-Z0-9]{1,8}",
    "from": "[A-Z0-9]{3,4}", "out": INSTANT, "to": "[A-Z0-9]{3,4}", "in": INSTANT,
}  # fmt: skip


def is_whole(record):
    """Whether a record has all fields, each of its shape."""
    return len(record) == len(SHAPES) and all(re.fullmatch(shape, text) for shape, text in zip(SHAPES.values(), record))


def told_of_a_cut(text):
    """What an import writes of a schedule of P1 that is cut, and the texts that it keeps."""
    lines = io.StringIO(text.removeprefix(b"\xef\xbb\xbf").decode("latin-1"), newline="")
    header, *records = [record for record in csv.reader(lines) if record] or [[]]
    if header != list(SHAPES):
        return refused("30 BadCsv 1"), []
    if not all(is_whole(record) for record in records):
        return refused("30 BadCsv 2"), []
    return Ran(0, "".join("1 accepted\n" for _ in records), ""), [P1_KEPT for _ in records]


# ---- What is tried.


def refused(text):
    """What the program writes where it refuses a command line or a schedule."""
    return Ran(1, "", f"refused {text}\n")


@dataclass
class Desk:
    """A folder for books, one of them empty, and how many texts were answered rightly."""

    room: Path
    empty: Book
    passed: int = 0
    failed: int = 0
    cuts: int = 0

    def expect(self, name, got, wanted):
        self.passed += got == wanted
        self.failed += got != wanted
        if got != wanted:
            print(f"tests/texts.py: {name}\nwanted: {wanted}\ngot: {got}", file=sys.stderr)

    def expect_schedule(self, text, ran, kept):
        """What an import of the schedule writes, and the texts that its parts are kept as."""
        book = self.empty.copy()
        self.expect(text, book.import_schedule(5, text), ran)
        rows = [(5, part, its, ACCEPTED) for part, its in enumerate(kept, 1)]
        self.expect(f"what is kept of {text}", book.requests(), rows)


def try_instants(desk):
    book = desk.empty.copy()
    book.settle("hire C1 captain: Ada Ray")
    for number, (begin, begin_minute, end, end_minute) in enumerate(INSTANTS):
        duty = {"do": "add-ground", "ground": f"G{number}", "crew": "C1", "begin": begin, "end": end, "task": "Sim"}
        desk.expect(f"from {begin} to {end}", told(book.do(number + 1, duty)), "accepted")
        kept = compact({**duty, "begin": begin[:16] + "Z", "end": end[:16] + "Z"})
        desk.expect(f"the text of {begin} and {end}", book.rows("SELECT command FROM request WHERE number = ?", number + 1), [(kept,)])
        minutes = book.rows("SELECT begin_at, end_at FROM ground WHERE id = ?", f"G{number}")
        desk.expect(f"the minutes of {begin} and {end}", minutes, [(begin_minute, end_minute)])
    for fault, texts in NO_INSTANTS.items():
        for text in texts:
            desk.expect(f"instant '{text}'", rosterbook("duty", "UTC0", text, "x", "x"), refused(fault))


def base_at(number, zone):
    """A request that adds a base in a zone."""
    return compact({"number": number, "do": "add-base", "base": f"B{number:02}", "zone": zone})


def try_zones(desk):
    for zone, instant, local in LOCAL:
        ran = rosterbook("duty", zone, instant, instant, written(datetime.fromisoformat(instant[:-1]) + timedelta(minutes=1)))
        desk.expect(f"{zone} at {instant}", ran.out.partition(" segments ")[0], f"report {local}")
    for zone in NO_ZONES:
        desk.expect(f"zone '{zone}'", rosterbook("duty", zone, "x", "x", "x"), refused("T4 ZoneText"))
        desk.expect(f"a base at '{zone}'", told(desk.empty.send(base_at(1, zone))), "31 BadJson zone")
    book = desk.empty.copy()
    zones = list(dict.fromkeys(zone for zone, _, _ in LOCAL))
    for number, zone in enumerate(zones, 1):
        desk.expect(f"a base at {zone}", told(book.send(base_at(number, zone))), "accepted")
    kept = book.rows("SELECT zone FROM base WHERE id <> 'HOME' ORDER BY id")
    desk.expect("the zones of the bases", kept, [(zone,) for zone in zones])
    desk.expect("the bytes of two zones", [len(zone) for zone in (LONGEST_ZONE, NO_ZONES[1])], [64, 65])


def try_requests(desk):
    book = desk.empty
    for wanted, bodies in REFUSED.items():
        for body in bodies:
            desk.expect(body, told(book.send(body)), wanted)
    for depth, wanted in ((126, "15 NoSuchGround"), (127, "31 BadJson body")):
        desk.expect(f"{depth} arrays in one another", told(book.send(nested(depth))), wanted)
    desk.expect("what is kept of them", book.requests(), [])


def try_kept_texts(desk):
    book, rows = desk.empty.copy(), []
    for number, (body, kept) in enumerate(KEPT, 1):
        rows.append((number, 0, kept, ACCEPTED))
        desk.expect(body, told(book.send(body)), "accepted")
        desk.expect(f"what is kept of {body}", book.requests(), rows)
        desk.expect(f"again {body}", told(book.send(body)), "accepted")
        desk.expect(f"what is kept then of {body}", book.requests(), rows)


def try_schedules(desk):
    for text in FORMS:
        desk.expect_schedule(text, Ran(0, "1 accepted\n", ""), [P1_KEPT])
    neighbours = "1 accepted\n2 accepted\n3 refused 5 PairingExists\n"
    desk.expect_schedule(NEIGHBOURS, Ran(1, neighbours, ""), NEIGHBOURS_KEPT)
    desk.expect_schedule(HEADER, Ran(0, "", ""), [])
    for text in OTHER_HEADERS:
        desk.expect_schedule(text, refused("30 BadCsv 1"), [])
    for records, place in REFUSED_SCHEDULES:
        desk.expect_schedule(schedule(records), refused(f"30 BadCsv {place}"), [])


def try_cut_schedules(desk):
    for length in range(len(MARKED) + 1):
        desk.expect_schedule(MARKED[:length], *told_of_a_cut(MARKED[:length]))
        desk.cuts += length < len(MARKED)


def try_cut_requests(desk):
    """A member, a ground duty, an actual, a member of a base, and an outside period."""
    book = desk.empty
    for body, _ in (KEPT[0], KEPT[2], KEPT[7], KEPT[9], KEPT[11]):
        text = body.encode()
        answers = {length: told(book.send(text[:length])) for length in range(len(text))}
        desk.expect(f"cuts of {body}", {length: got for length, got in answers.items() if got != "31 BadJson body"}, {})
        desk.cuts += len(answers)
    desk.expect("what is kept of them", book.requests(), [])


TRIED = (try_instants, try_zones, try_requests, try_kept_texts, try_schedules, try_cut_schedules, try_cut_requests)


def main():
    if not build():
        return 3
    with tempfile.TemporaryDirectory(prefix="texts-") as room:
        desk = Desk(Path(room), Book.made(room))
        for tried in TRIED:
            tried(desk)
    print(f"{desk.cuts} cuts of texts")
    print(f"{desk.passed} passed, {desk.failed} failed")
    return 1 if desk.failed else 0


if __name__ == "__main__":
    sys.exit(main())
