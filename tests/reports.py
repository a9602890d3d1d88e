#!/usr/bin/env python3
"""Prints reports of books by the program, and compares them with texts that were worked out.

    tests/reports.py [NAME..]

A case is a few lines, which tests/office.py has, each of which has to be accepted, on a book of the captain C1 and the first
officer F1; and what `roster`, `limits`, `pairing`, `exceedances`, `members`, `pairings`, `board` and `request` then print, by their
words. No report may change a byte of the book's file, nor of what its log holds. What differs is printed on standard error. The last line is
'N passed, M failed', and the exit status 1 where M isn't 0.
"""

import sqlite3
import sys
import tempfile
from contextlib import closing
from pathlib import Path

from office import Book, Ran, build, compact, kept_text, order, rosterbook, schedule, told

# A log with a frame has its header's 32 bytes, the frame's 24 and a page. One without is written anew where a book is opened.
WITH_A_FRAME = 32 + 24 + 4096

MEMBERS = """
    hire C1 captain: Ada Ray
    hire F1 first-officer: Zoë Roy
"""

# ---- The reports of a small book.

ONE_PAIRING = """
    plan P1 10: 11:00 | 12:00-19:30 | 20:00
    assign P1 C1
"""

# C1 flies on 6, 7 and 8 June, P13A together with F1, and P13B ten hours after it. P13A is flown eleven hours late.
A_LATE_PERIOD = """
    plan P06 6: 12:00 | 13:00-15:00, 21:00-+1 00:00 | +1 00:00
    assign P06 C1
    plan P07 7: 12:00 | 13:00-15:00, 21:00-+1 00:00 | +1 00:00
    assign P07 C1
    plan P08 8: 12:00 | 13:00-15:00, 21:00-+1 00:30 | +1 00:30
    assign P08 C1
    plan P13A 10: 11:00 | 12:00-20:00 | 20:30
    assign P13A C1
    assign P13A F1
    plan P13B 11: 06:30 | 07:30-10:30 | 11:00
    assign P13B C1
    113 fly P13A 1 10: 11:00 | 23:00-+1 07:00 | +1 07:30
"""

# Two periods of P3, which are flown in the other order.
SWAPPED = """
    plan P3 10: 11:00 | 12:00-14:00 | 15:00; 12: 11:00 | 12:00-13:00, 14:00-14:30 | 15:00
    assign P3 C1
    assign P3 F1
    fly P3 1 14: 11:00 | 12:00-14:00 | 15:00
"""

# All of these are flown at the times of one another, or of a ground duty.
AT_ONE_TIME = """
    plan P9 10: 11:00 | 12:00-14:00 | 15:00
    plan P10 12: 11:00 | 12:00-14:00 | 15:00
    plan PA 14: 11:00 | 12:00-14:00 | 15:00
    plan PB 16: 11:00 | 12:00-14:00 | 15:00
    assign P9 C1
    assign P9 F1
    assign P10 C1
    assign P10 F1
    assign PA C1
    assign PA F1
    assign PB C1
    assign PB F1
    {"do":"add-ground","ground":"A","crew":"C1","begin":"2025-06-20T11:00Z","end":"2025-06-20T15:00Z","task":"Übung"}
    {"do":"add-ground","ground":"B","crew":"C1","begin":"2025-06-20T15:00Z","end":"2025-06-20T16:00Z","task":"a, \\"b\\""}
    {"do":"add-ground","ground":"C","crew":"F1","begin":"2025-06-20T11:00Z","end":"2025-06-20T15:00Z","task":"Checks"}
    fly P9 1 20: 11:00 | 12:00-14:00 | 15:00
    fly P10 1 20: 11:00 | 12:00-14:00 | 15:00
    fly PA 1 20: 11:00 | 12:00-14:00 | 14:30
    fly PB 1 20: 10:59 | 12:00-14:00 | 18:00
"""

# Ground duties and outside periods at the times of P10 in AT_ONE_TIME, and others that begin or end a minute apart; one has the id of a
# pairing, and one is of another member.
OUTSIDE_AT_ONE_TIME = """
    outside XB C1 20: 11:00 | 11:00-12:00, 13:00-14:30 | 15:00
    outside XA C1 20: 11:00 | 12:00-14:00 | 15:00
    outside P9 C1 20: 11:00 | 12:00-14:00 | 15:00
    outside 9 C1 20: 11:00 | 12:00-14:00 | 14:59
    outside A C1 20: 10:59 | 12:00-14:00 | 18:00
    outside Z C1 20: 11:01 | 12:00-14:00 | 14:00
    outside XF F1 20: 11:00 | 12:00-14:00 | 15:00
"""

# On C1's five days of flight duty, 3,600 minutes in a week, a minute more is recorded; then it is moved to another week.
A_MINUTE_TOO_MUCH = """
    plan P09 9: 12:00 | 13:00-15:00, 21:00-+1 00:00 | +1 00:00
    assign P09 C1
    plan P10 10: 12:00 | 13:00-15:00, 21:00-+1 00:00 | +1 00:00
    assign P10 C1
    plan P12 12: 12:00 | 13:00-15:00, 21:00-+1 00:00 | +1 00:00
    assign P12 C1
    plan P13 13: 12:00 | 13:00-15:00, 21:00-+1 00:00 | +1 00:00
    assign P13 C1
    plan P14 14: 12:00 | 13:00-15:00, 21:00-+1 00:00 | +1 00:00
    assign P14 C1
    114 outside X1 C1 11: 12:00 | 12:00-12:01 | 12:01
"""

CASES = {
    "a_fresh_member_has_one_line": ["", {
        "roster C1": "ROSTER C1 captain Ada Ray",
        "roster F1": "ROSTER F1 first officer Zoë Roy",
        "exceedances": "EXCEEDANCES 0",
        "members": """
            MEMBERS 2
            C1 captain HOME Ada Ray
            F1 first officer HOME Zoë Roy
        """,
        "pairings": "PAIRINGS 0",
        "pairings --open": "PAIRINGS 0",
        "board 2000-01-01 2000-01-01": """
            BOARD 2000-01-01 2000-01-01
            ROSTER C1 captain Ada Ray
            ROSTER F1 first officer Zoë Roy
            OPEN 0
        """,
        "request 9223372036854775807": "REQUEST 9223372036854775807",
    }],
    "a_pairing_and_its_captain": [ONE_PAIRING, {
        "roster C1": """
            ROSTER C1 captain Ada Ray
            2025-06-10T11:00Z 2025-06-10T20:00Z pairing P1/1 plan fdp 8:30 flight 7:30
        """,
        "roster F1": "ROSTER F1 first officer Zoë Roy",
        "pairing P1": """
            PAIRING P1
            captain C1
            first officer -
            1 plan report 2025-06-10T11:00Z release 2025-06-10T20:00Z
            1.1 RB1 BOS 2025-06-10T12:00Z IAD 2025-06-10T19:30Z
        """,
        "pairings": """
            PAIRINGS 1
            P1 2025-06-10T11:00Z 2025-06-10T20:00Z plan C1 -
        """,
        "pairings --open": """
            PAIRINGS 1
            P1 2025-06-10T11:00Z 2025-06-10T20:00Z plan C1 -
        """,
    }],
    # P13A is flown with both seats; P06 to P08 and P13B have no first officer. Reports decide the order, and not ids.
    "pairings_by_their_first_reports": [A_LATE_PERIOD + """
        plan A9 11: 06:30 | 07:30-10:30 | 11:00
        plan A8 12: 06:30 | 07:30-10:30 | 11:00
        plan Z0 5: 06:30 | 07:30-10:30 | 11:00
        assign Z0 F1
        cancel A8
    """, {
        "pairings": """
            PAIRINGS 7
            Z0 2025-06-05T06:30Z 2025-06-05T11:00Z plan - F1
            P06 2025-06-06T12:00Z 2025-06-07T00:00Z plan C1 -
            P07 2025-06-07T12:00Z 2025-06-08T00:00Z plan C1 -
            P08 2025-06-08T12:00Z 2025-06-09T00:30Z plan C1 -
            P13A 2025-06-10T11:00Z 2025-06-11T07:30Z flown C1 F1
            A9 2025-06-11T06:30Z 2025-06-11T11:00Z plan - -
            P13B 2025-06-11T06:30Z 2025-06-11T11:00Z plan C1 -
        """,
        "pairings --open": """
            PAIRINGS 6
            Z0 2025-06-05T06:30Z 2025-06-05T11:00Z plan - F1
            P06 2025-06-06T12:00Z 2025-06-07T00:00Z plan C1 -
            P07 2025-06-07T12:00Z 2025-06-08T00:00Z plan C1 -
            P08 2025-06-08T12:00Z 2025-06-09T00:30Z plan C1 -
            A9 2025-06-11T06:30Z 2025-06-11T11:00Z plan - -
            P13B 2025-06-11T06:30Z 2025-06-11T11:00Z plan C1 -
        """,
    }],
    "a_late_period_is_shown_as_flown": [A_LATE_PERIOD, {
        "exceedances": """
            EXCEEDANCES 3
            113 C1 117.13(a) P13A/1
            113 C1 117.25(e) P13A/1
            113 F1 117.13(a) P13A/1
        """,
        "roster C1": """
            ROSTER C1 captain Ada Ray
            2025-06-06T12:00Z 2025-06-07T00:00Z pairing P06/1 plan fdp 12:00 flight 5:00
            2025-06-07T12:00Z 2025-06-08T00:00Z pairing P07/1 plan fdp 12:00 flight 5:00
            2025-06-08T12:00Z 2025-06-09T00:30Z pairing P08/1 plan fdp 12:30 flight 5:30
            2025-06-10T11:00Z 2025-06-11T07:30Z pairing P13A/1 actual fdp 20:00 flight 8:00
            2025-06-11T06:30Z 2025-06-11T11:00Z pairing P13B/1 plan fdp 4:00 flight 3:00
        """,
        "roster F1": """
            ROSTER F1 first officer Zoë Roy
            2025-06-10T11:00Z 2025-06-11T07:30Z pairing P13A/1 actual fdp 20:00 flight 8:00
        """,
        "pairing P13A": """
            PAIRING P13A
            captain C1
            first officer F1
            1 actual report 2025-06-10T11:00Z release 2025-06-11T07:30Z
            1.1 RB1 BOS 2025-06-10T23:00Z IAD 2025-06-11T07:00Z
        """,
        "pairing P06": """
            PAIRING P06
            captain C1
            first officer -
            1 plan report 2025-06-06T12:00Z release 2025-06-07T00:00Z
            1.1 RB1 BOS 2025-06-06T13:00Z IAD 2025-06-06T15:00Z
            1.2 RB2 IAD 2025-06-06T21:00Z BOS 2025-06-07T00:00Z
        """,
    }],
    "periods_that_were_flown_in_the_other_order": [SWAPPED, {
        "roster C1": """
            ROSTER C1 captain Ada Ray
            2025-06-12T11:00Z 2025-06-12T15:00Z pairing P3/2 plan fdp 3:30 flight 1:30
            2025-06-14T11:00Z 2025-06-14T15:00Z pairing P3/1 actual fdp 3:00 flight 2:00
        """,
        "pairing P3": """
            PAIRING P3
            captain C1
            first officer F1
            1 actual report 2025-06-14T11:00Z release 2025-06-14T15:00Z
            1.1 RB1 BOS 2025-06-14T12:00Z IAD 2025-06-14T14:00Z
            2 plan report 2025-06-12T11:00Z release 2025-06-12T15:00Z
            2.1 RB2 IAD 2025-06-12T12:00Z BOS 2025-06-12T13:00Z
            2.2 RB3 BOS 2025-06-12T14:00Z IAD 2025-06-12T14:30Z
        """,
        # The first and the last are periods 1 and 2, also where 1 was flown after 2.
        "pairings": """
            PAIRINGS 1
            P3 2025-06-14T11:00Z 2025-06-12T15:00Z flown C1 F1
        """,
        "pairings --open": "PAIRINGS 0",
    }],
    "duties_at_one_time": [AT_ONE_TIME, {
        "pairings": """
            PAIRINGS 4
            PB 2025-06-20T10:59Z 2025-06-20T18:00Z flown C1 F1
            P10 2025-06-20T11:00Z 2025-06-20T15:00Z flown C1 F1
            P9 2025-06-20T11:00Z 2025-06-20T15:00Z flown C1 F1
            PA 2025-06-20T11:00Z 2025-06-20T14:30Z flown C1 F1
        """,
        "roster C1": """
            ROSTER C1 captain Ada Ray
            2025-06-20T10:59Z 2025-06-20T18:00Z pairing PB/1 actual fdp 3:01 flight 2:00
            2025-06-20T11:00Z 2025-06-20T14:30Z pairing PA/1 actual fdp 3:00 flight 2:00
            2025-06-20T11:00Z 2025-06-20T15:00Z pairing P10/1 actual fdp 3:00 flight 2:00
            2025-06-20T11:00Z 2025-06-20T15:00Z pairing P9/1 actual fdp 3:00 flight 2:00
            2025-06-20T11:00Z 2025-06-20T15:00Z ground A Übung
            2025-06-20T15:00Z 2025-06-20T16:00Z ground B a, "b"
        """,
    }],
    # Periods come first, then ground duties, then outside periods, of which `9` is before all letters and ends sooner.
    "outside_periods_at_the_time_of_other_duties": [AT_ONE_TIME + OUTSIDE_AT_ONE_TIME, {
        "roster C1": """
            ROSTER C1 captain Ada Ray
            2025-06-20T10:59Z 2025-06-20T18:00Z pairing PB/1 actual fdp 3:01 flight 2:00
            2025-06-20T10:59Z 2025-06-20T18:00Z outside A fdp 3:01 flight 2:00
            2025-06-20T11:00Z 2025-06-20T14:30Z pairing PA/1 actual fdp 3:00 flight 2:00
            2025-06-20T11:00Z 2025-06-20T14:59Z outside 9 fdp 3:00 flight 2:00
            2025-06-20T11:00Z 2025-06-20T15:00Z pairing P10/1 actual fdp 3:00 flight 2:00
            2025-06-20T11:00Z 2025-06-20T15:00Z pairing P9/1 actual fdp 3:00 flight 2:00
            2025-06-20T11:00Z 2025-06-20T15:00Z ground A Übung
            2025-06-20T11:00Z 2025-06-20T15:00Z outside P9 fdp 3:00 flight 2:00
            2025-06-20T11:00Z 2025-06-20T15:00Z outside XA fdp 3:00 flight 2:00
            2025-06-20T11:00Z 2025-06-20T15:00Z outside XB fdp 3:30 flight 2:30
            2025-06-20T11:01Z 2025-06-20T14:00Z outside Z fdp 2:59 flight 2:00
            2025-06-20T15:00Z 2025-06-20T16:00Z ground B a, "b"
        """,
    }],
    "a_minute_of_outside_flying_too_much": [A_MINUTE_TOO_MUCH, {
        "exceedances": """
            EXCEEDANCES 1
            114 C1 117.23(c)(1) outside X1
        """,
        "roster C1": """
            ROSTER C1 captain Ada Ray
            2025-06-09T12:00Z 2025-06-10T00:00Z pairing P09/1 plan fdp 12:00 flight 5:00
            2025-06-10T12:00Z 2025-06-11T00:00Z pairing P10/1 plan fdp 12:00 flight 5:00
            2025-06-11T12:00Z 2025-06-11T12:01Z outside X1 fdp 0:01 flight 0:01
            2025-06-12T12:00Z 2025-06-13T00:00Z pairing P12/1 plan fdp 12:00 flight 5:00
            2025-06-13T12:00Z 2025-06-14T00:00Z pairing P13/1 plan fdp 12:00 flight 5:00
            2025-06-14T12:00Z 2025-06-15T00:00Z pairing P14/1 plan fdp 12:00 flight 5:00
        """,
        "roster F1": "ROSTER F1 first officer Zoë Roy",
    }],
    "an_outside_period_that_was_moved": [A_MINUTE_TOO_MUCH + """
        115 outside X1 C1 20: 12:00 | 12:00-12:01 | 12:01
    """, {
        "exceedances": """
            EXCEEDANCES 1
            114 C1 117.23(c)(1) outside X1
        """,
        "roster C1": """
            ROSTER C1 captain Ada Ray
            2025-06-09T12:00Z 2025-06-10T00:00Z pairing P09/1 plan fdp 12:00 flight 5:00
            2025-06-10T12:00Z 2025-06-11T00:00Z pairing P10/1 plan fdp 12:00 flight 5:00
            2025-06-12T12:00Z 2025-06-13T00:00Z pairing P12/1 plan fdp 12:00 flight 5:00
            2025-06-13T12:00Z 2025-06-14T00:00Z pairing P13/1 plan fdp 12:00 flight 5:00
            2025-06-14T12:00Z 2025-06-15T00:00Z pairing P14/1 plan fdp 12:00 flight 5:00
            2025-06-20T12:00Z 2025-06-20T12:01Z outside X1 fdp 0:01 flight 0:01
        """,
    }],
    # A period of a pairing and an outside period, both named P1, exceed 117.25(e) by each other; request 3 is of the lower number.
    "exceedances_of_a_pairing_and_of_outside_flying": ["""
        plan P1 10: 11:00 | 12:00-19:30 | 20:00
        assign P1 C1
        assign P1 F1
        4 outside P1 C1 11: 05:00 | 06:00-07:00 | 07:30
        3 fly P1 1 10: 11:00 | 12:00-19:30 | 20:30
    """, {
        "exceedances": """
            EXCEEDANCES 2
            3 C1 117.25(e) P1/1
            4 C1 117.25(e) outside P1
        """,
        "pairing P1": """
            PAIRING P1
            captain C1
            first officer F1
            1 actual report 2025-06-10T11:00Z release 2025-06-10T20:30Z
            1.1 RB1 BOS 2025-06-10T12:00Z IAD 2025-06-10T19:30Z
        """,
    }],
    # A roster has the times of an outside period as UTC, at every base.
    "outside_flying_of_a_member_of_another_base": ["""
        base DEN: MST7MDT,M3.2.0,M11.1.0
        hire C9 captain DEN: Lee Roy
        outside X1 C9 10: 11:00 | 11:00-+4 14:59 | +4 16:00
    """, {
        "roster C9": """
            ROSTER C9 captain Lee Roy
            base DEN
            2025-06-10T11:00Z 2025-06-14T16:00Z outside X1 fdp 99:59 flight 99:59
        """,
    }],
    "a_member_of_another_base_than_home_has_a_line_of_it": ["""
        base DEN: MST7MDT,M3.2.0,M11.1.0
        hire C9 captain DEN: Lee Roy
        hire F9 first-officer HOME: Ann Oh
        plan P1 10: 16:00 | 16:30-20:30, +1 01:29-+1 05:59 | +1 06:30
        assign P1 C9
    """, {
        "roster C9": """
            ROSTER C9 captain Lee Roy
            base DEN
            2025-06-10T16:00Z 2025-06-11T06:30Z pairing P1/1 plan fdp 13:59 flight 8:30
        """,
        "members": """
            MEMBERS 4
            C1 captain HOME Ada Ray
            C9 captain DEN Lee Roy
            F1 first officer HOME Zoë Roy
            F9 first officer HOME Ann Oh
        """,
        "pairings": """
            PAIRINGS 1
            P1 2025-06-10T16:00Z 2025-06-11T06:30Z plan C9 -
        """,
        "roster F9": "ROSTER F9 first officer Ann Oh",
        "roster C1": "ROSTER C1 captain Ada Ray",
        "pairing P1": """
            PAIRING P1
            captain C9
            first officer -
            1 plan report 2025-06-10T16:00Z release 2025-06-11T06:30Z
            1.1 RB1 BOS 2025-06-10T16:30Z IAD 2025-06-10T20:30Z
            1.2 RB2 IAD 2025-06-11T01:29Z BOS 2025-06-11T05:59Z
        """,
        "exceedances": "EXCEEDANCES 0",
    }],
    "a_period_of_more_than_99_hours": ["""
        plan P1 10: 11:00 | 12:00-19:30 | 20:00
        assign P1 C1
        assign P1 F1
        fly P1 1 10: 11:00 | 12:00-+4 15:05 | +4 16:00
    """, {
        "roster F1": """
            ROSTER F1 first officer Zoë Roy
            2025-06-10T11:00Z 2025-06-14T16:00Z pairing P1/1 actual fdp 100:05 flight 99:05
        """,
    }],
}  # fmt: skip

# ---- The board of some days, and what is kept under a number.

# Duties that end as 10 June begins or begin as 11 June ends, and others that are a minute longer, or lie over both days. P4 has a period
# before them and one after them.
AT_THE_EDGES = """
    hire C2 captain: Bo Lind
    train G1 9: 20:00-+1 00:00
    train G2 10: 00:00-00:01
    train G3 11: 23:59-+1 00:00
    train G4 12: 00:00-01:00
    outside X1 F1 9: 20:00 | 20:00-23:00 | +1 00:00
    outside X2 F1 12: 00:00 | 00:00-01:00 | 02:00
    outside X3 C9 9: 12:00 | 13:00-+4 13:00 | +4 14:00
    plan P1 9: 12:00 | 13:00-14:00 | +1 00:00; 11: 23:59 | +1 01:00-+1 02:00 | +1 03:00; 13: 12:00 | 13:00-14:00 | 15:00
    plan P2 9: 12:00 | 13:00-14:00 | +1 00:01
    plan P3 9: 12:00 | 13:00-14:00 | +1 00:00
    plan P4 9: 12:00 | 13:00-14:00 | +1 00:00; 12: 00:00 | 01:00-02:00 | 03:00
    assign P1 C2
"""

BOARDS = {
    "the_board_of_a_pairing_of_one_seat": [ONE_PAIRING, {
        "board 2025-06-10 2025-06-10": """
            BOARD 2025-06-10 2025-06-10
            ROSTER C1 captain Ada Ray
            2025-06-10T11:00Z 2025-06-10T20:00Z pairing P1/1 plan fdp 8:30 flight 7:30
            ROSTER F1 first officer Zoë Roy
            OPEN 1
            P1 2025-06-10T11:00Z 2025-06-10T20:00Z plan C1 -
        """,
        "board 2025-06-11 2025-08-11": """
            BOARD 2025-06-11 2025-08-11
            ROSTER C1 captain Ada Ray
            ROSTER F1 first officer Zoë Roy
            OPEN 0
        """,
    }],
    # P06 ends as 7 June begins; P13A has both seats, and P13B begins on 11 June.
    "the_board_of_some_days_among_others": [A_LATE_PERIOD, {
        "board 2025-06-07 2025-06-10": """
            BOARD 2025-06-07 2025-06-10
            ROSTER C1 captain Ada Ray
            2025-06-07T12:00Z 2025-06-08T00:00Z pairing P07/1 plan fdp 12:00 flight 5:00
            2025-06-08T12:00Z 2025-06-09T00:30Z pairing P08/1 plan fdp 12:30 flight 5:30
            2025-06-10T11:00Z 2025-06-11T07:30Z pairing P13A/1 actual fdp 20:00 flight 8:00
            ROSTER F1 first officer Zoë Roy
            2025-06-10T11:00Z 2025-06-11T07:30Z pairing P13A/1 actual fdp 20:00 flight 8:00
            OPEN 2
            P07 2025-06-07T12:00Z 2025-06-08T00:00Z plan C1 -
            P08 2025-06-08T12:00Z 2025-06-09T00:30Z plan C1 -
        """,
        "request 113": """
            REQUEST 113
            0 {"do":"actual","pairing":"P13A","period":1,"release":"2025-06-11T07:30Z","report":"2025-06-10T11:00Z","segments":[{"in":"2025-06-11T07:00Z","out":"2025-06-10T23:00Z"}]}
            0 {"exceedances":[{"crew":"C1","section":"117.13(a)"},{"crew":"C1","section":"117.25(e)"},{"crew":"F1","section":"117.13(a)"}],"result":"accepted"}
        """,
        "request 11": "REQUEST 11",
        "request 112": "REQUEST 112",
        "request 114": "REQUEST 114",
    }],
    # Period 1 counts by the times at which it was flown, and period 2 has its number.
    "the_board_of_periods_that_were_flown_in_the_other_order": [SWAPPED, {
        "board 2025-06-10 2025-06-10": """
            BOARD 2025-06-10 2025-06-10
            ROSTER C1 captain Ada Ray
            ROSTER F1 first officer Zoë Roy
            OPEN 0
        """,
        "board 2025-06-11 2025-06-13": """
            BOARD 2025-06-11 2025-06-13
            ROSTER C1 captain Ada Ray
            2025-06-12T11:00Z 2025-06-12T15:00Z pairing P3/2 plan fdp 3:30 flight 1:30
            ROSTER F1 first officer Zoë Roy
            2025-06-12T11:00Z 2025-06-12T15:00Z pairing P3/2 plan fdp 3:30 flight 1:30
            OPEN 0
        """,
    }],
    "the_board_of_duties_at_the_edges_of_its_days": ["""
        base DEN: MST7MDT,M3.2.0,M11.1.0
        hire C9 captain DEN: Lee Roy
    """ + AT_THE_EDGES, {
        "board 2025-06-10 2025-06-11": """
            BOARD 2025-06-10 2025-06-11
            ROSTER C1 captain Ada Ray
            2025-06-10T00:00Z 2025-06-10T00:01Z ground G2 Simulator
            2025-06-11T23:59Z 2025-06-12T00:00Z ground G3 Simulator
            ROSTER C2 captain Bo Lind
            2025-06-11T23:59Z 2025-06-12T03:00Z pairing P1/2 plan fdp 2:01 flight 1:00
            ROSTER C9 captain Lee Roy
            base DEN
            2025-06-09T12:00Z 2025-06-13T14:00Z outside X3 fdp 97:00 flight 96:00
            ROSTER F1 first officer Zoë Roy
            OPEN 2
            P1 2025-06-09T12:00Z 2025-06-13T15:00Z plan C2 -
            P2 2025-06-09T12:00Z 2025-06-10T00:01Z plan - -
        """,
    }],
}  # fmt: skip

# ---- How near a member is to each limit.

NOTHING = """
    117.11(a)(1) - within
    117.13(a) - within
    117.23(b)(1) 0:00 of 100:00 within
    117.23(b)(2) 0:00 of 1000:00 within
    117.23(c)(1) 0:00 of 60:00 within
    117.23(c)(2) 0:00 of 190:00 within
    117.25(b) - of 30:00 within
    117.25(e) - of 10:00 within
"""

# The captain of docs/FORMATS.md: two hours and a half of B102 would begin 9:30 after a morning on the ground.
OF_THE_FORMATS = """
    {"do":"add-ground","ground":"G1","crew":"C1","begin":"2025-06-08T09:00Z","end":"2025-06-08T12:00Z","task":"Simulator"}
    plan B101 10: 11:00 | 12:00-18:00, 19:00-19:30 | 20:00
    assign B101 C1
    outside X1 C1 12: 10:00 | 11:00-13:00 | 13:30
    plan B102 8: 21:30 | 22:00-23:00, 23:30-+1 01:00 | +1 01:30
"""

# An outside period of fifteen hours of flight, nine hours after P1.
OUTSIDE_AFTER_P1 = ONE_PAIRING + """
    outside X1 C1 11: 05:00 | 05:00-20:00 | 20:00
"""

LIMITS = {
    "limits_of_a_member_without_duties": ["", {
        "limits C1": "LIMITS C1 captain Ada Ray" + NOTHING,
        "limits F1": "LIMITS F1 first officer Zoë Roy" + NOTHING,
    }],
    # A ground duty is no flight duty period, but takes rest from one.
    "limits_of_a_member_with_ground_duties_alone": ["""
        train G1 10: 00:00-02:00
        train G2 12: 00:00-23:00
        plan P1 10: 11:00 | 12:00-19:30 | 20:00
    """, {
        "limits C1": "LIMITS C1 captain Ada Ray" + NOTHING,
        "limits C1 --with P1": """
            LIMITS C1 captain Ada Ray with P1
            117.11(a)(1) 7:30 of 9:00 P1/1 within
            117.13(a) 8:30 of 14:00 P1/1 within
            117.23(b)(1) 7:30 of 100:00 from 2025-05-13T19:30Z within
            117.23(b)(2) 7:30 of 1000:00 from 2024-06-11T00:00Z within
            117.23(c)(1) 8:30 of 60:00 from 2025-06-03T19:30Z within
            117.23(c)(2) 8:30 of 190:00 from 2025-05-13T19:30Z within
            117.25(b) 157:00 of 30:00 P1/1 within
            117.25(e) 9:00 of 10:00 P1/1 exceeds
        """,
    }],
    "limits_as_the_formats_have_them": [OF_THE_FORMATS, {
        "limits C1": """
            LIMITS C1 captain Ada Ray
            117.11(a)(1) 6:30 of 9:00 B101/1 within
            117.13(a) 8:30 of 14:00 B101/1 within
            117.23(b)(1) 8:30 of 100:00 from 2025-05-15T13:00Z within
            117.23(b)(2) 8:30 of 1000:00 from 2024-06-13T00:00Z within
            117.23(c)(1) 11:30 of 60:00 from 2025-06-05T13:00Z within
            117.23(c)(2) 11:30 of 190:00 from 2025-05-15T13:00Z within
            117.25(b) 71:00 of 30:00 outside X1 within
            117.25(e) 38:00 of 10:00 outside X1 within
        """,
        "limits C1 --with B102": """
            LIMITS C1 captain Ada Ray with B102
            117.11(a)(1) 2:30 of 9:00 B102/1 within
            117.13(a) 3:30 of 12:00 B102/1 within
            117.23(b)(1) 11:00 of 100:00 from 2025-05-15T13:00Z within
            117.23(b)(2) 11:00 of 1000:00 from 2024-06-13T00:00Z within
            117.23(c)(1) 15:00 of 60:00 from 2025-06-05T13:00Z within
            117.23(c)(2) 15:00 of 190:00 from 2025-05-15T13:00Z within
            117.25(b) 71:00 of 30:00 outside X1 within
            117.25(e) 9:30 of 10:00 B102/1 exceeds
        """,
    }],
    # X1 enters neither table, and is named for its rest. P1, held already, is judged beside it.
    "limits_with_an_outside_period": [OUTSIDE_AFTER_P1, {
        "limits C1": """
            LIMITS C1 captain Ada Ray
            117.11(a)(1) 7:30 of 9:00 P1/1 within
            117.13(a) 8:30 of 14:00 P1/1 within
            117.23(b)(1) 22:30 of 100:00 from 2025-05-14T20:00Z within
            117.23(b)(2) 22:30 of 1000:00 from 2024-06-12T00:00Z within
            117.23(c)(1) 23:30 of 60:00 from 2025-06-04T20:00Z within
            117.23(c)(2) 23:30 of 190:00 from 2025-05-14T20:00Z within
            117.25(b) 150:00 of 30:00 outside X1 within
            117.25(e) 9:00 of 10:00 outside X1 exceeds
        """,
        "limits C1 --with P1": """
            LIMITS C1 captain Ada Ray with P1
            117.11(a)(1) 7:30 of 9:00 P1/1 within
            117.13(a) 8:30 of 14:00 P1/1 within
            117.23(b)(1) 22:30 of 100:00 from 2025-05-14T20:00Z within
            117.23(b)(2) 22:30 of 1000:00 from 2024-06-12T00:00Z within
            117.23(c)(1) 23:30 of 60:00 from 2025-06-04T20:00Z within
            117.23(c)(2) 23:30 of 190:00 from 2025-05-14T20:00Z within
            117.25(b) 150:00 of 30:00 outside X1 within
            117.25(e) 9:00 of 10:00 outside X1 exceeds
        """,
        "limits F1": "LIMITS F1 first officer Zoë Roy" + NOTHING,
    }],
    # Members who fly for others alone. One window begins with the year 2000; if the block-in is a minute earlier, none does.
    "limits_of_the_first_days": ["""
        {"do":"record-outside","outside":"X1","crew":"F1","report":"2000-01-07T16:00Z","release":"2000-01-08T00:30Z","segments":[{"out":"2000-01-07T17:00Z","in":"2000-01-08T00:00Z"}]}
        {"do":"record-outside","outside":"X2","crew":"C1","report":"2000-01-07T16:00Z","release":"2000-01-08T00:30Z","segments":[{"out":"2000-01-07T17:00Z","in":"2000-01-07T23:59Z"}]}
    """, {
        "limits F1": """
            LIMITS F1 first officer Zoë Roy
            117.11(a)(1) - within
            117.13(a) - within
            117.23(b)(1) 7:00 of 100:00 from before 2000-01-01T00:00Z within
            117.23(b)(2) 7:00 of 1000:00 from before 2000-01-01T00:00Z within
            117.23(c)(1) 8:00 of 60:00 from 2000-01-01T00:00Z within
            117.23(c)(2) 8:00 of 190:00 from before 2000-01-01T00:00Z within
            117.25(b) 168:00 of 30:00 outside X1 within
            117.25(e) 168:00 of 10:00 outside X1 within
        """,
        "limits C1": """
            LIMITS C1 captain Ada Ray
            117.11(a)(1) - within
            117.13(a) - within
            117.23(b)(1) 6:59 of 100:00 from before 2000-01-01T00:00Z within
            117.23(b)(2) 6:59 of 1000:00 from before 2000-01-01T00:00Z within
            117.23(c)(1) 7:59 of 60:00 from before 2000-01-01T00:00Z within
            117.23(c)(2) 7:59 of 190:00 from before 2000-01-01T00:00Z within
            117.25(b) 168:00 of 30:00 outside X2 within
            117.25(e) 168:00 of 10:00 outside X2 within
        """,
    }],
    # Half an hour of P13A and P13B is counted once, so there are sixty hours of flight duty in a week. With P13A what exceeds a limit is what
    # was recorded of C1. F1 doesn't hold P13B.
    "limits_of_a_late_period": [A_LATE_PERIOD, {
        "limits C1": """
            LIMITS C1 captain Ada Ray
            117.11(a)(1) 8:00 of 9:00 P13A/1 within
            117.13(a) 20:00 of 14:00 P13A/1 exceeds
            117.23(b)(1) 26:30 of 100:00 from 2025-05-14T10:30Z within
            117.23(b)(2) 26:30 of 1000:00 from 2024-06-12T00:00Z within
            117.23(c)(1) 60:00 of 60:00 from 2025-06-04T10:30Z within
            117.23(c)(2) 60:00 of 190:00 from 2025-05-14T10:30Z within
            117.25(b) 53:30 of 30:00 P13B/1 within
            117.25(e) 0:00 of 10:00 P13B/1 exceeds
        """,
        "limits C1 --with P13A": """
            LIMITS C1 captain Ada Ray with P13A
            117.11(a)(1) 8:00 of 9:00 P13A/1 within
            117.13(a) 20:00 of 14:00 P13A/1 exceeds
            117.23(b)(1) 26:30 of 100:00 from 2025-05-14T10:30Z within
            117.23(b)(2) 26:30 of 1000:00 from 2024-06-12T00:00Z within
            117.23(c)(1) 60:00 of 60:00 from 2025-06-04T10:30Z within
            117.23(c)(2) 60:00 of 190:00 from 2025-05-14T10:30Z within
            117.25(b) 53:30 of 30:00 P13B/1 within
            117.25(e) 0:00 of 10:00 P13B/1 exceeds
        """,
        "limits F1 --with P13B": """
            LIMITS F1 first officer Zoë Roy with P13B
            117.11(a)(1) 3:00 of 8:00 P13B/1 within
            117.13(a) 4:00 of 9:00 P13B/1 within
            117.23(b)(1) 11:00 of 100:00 from 2025-05-14T10:30Z within
            117.23(b)(2) 11:00 of 1000:00 from 2024-06-12T00:00Z within
            117.23(c)(1) 23:30 of 60:00 from 2025-06-04T10:30Z within
            117.23(c)(2) 23:30 of 190:00 from 2025-05-14T10:30Z within
            117.25(b) 148:30 of 30:00 P13B/1 within
            117.25(e) 0:00 of 10:00 P13B/1 exceeds
        """,
    }],
    # Five periods are as near as P09 to Table A, and three have as little rest as P10. With P09, which C1 holds, the rest before P10 isn't
    # looked at, since P09 ends twelve hours before it. With P30 the week of 60:01 isn't, but its hours are in the 28 days.
    "limits_in_a_week_with_a_minute_too_much": [A_MINUTE_TOO_MUCH + """
        plan P30 30: 11:00 | 12:00-19:30 | 20:00
    """, {
        "limits C1": """
            LIMITS C1 captain Ada Ray
            117.11(a)(1) 5:00 of 9:00 P09/1 within
            117.13(a) 12:00 of 14:00 P09/1 within
            117.23(b)(1) 25:01 of 100:00 from 2025-05-18T00:00Z within
            117.23(b)(2) 25:01 of 1000:00 from 2024-06-15T00:00Z within
            117.23(c)(1) 60:01 of 60:00 from 2025-06-08T00:00Z exceeds
            117.23(c)(2) 60:01 of 190:00 from 2025-05-18T00:00Z within
            117.25(b) 48:00 of 30:00 P14/1 within
            117.25(e) 12:00 of 10:00 P10/1 within
        """,
        "limits C1 --with P09": """
            LIMITS C1 captain Ada Ray with P09
            117.11(a)(1) 5:00 of 9:00 P09/1 within
            117.13(a) 12:00 of 14:00 P09/1 within
            117.23(b)(1) 25:01 of 100:00 from 2025-05-18T00:00Z within
            117.23(b)(2) 25:01 of 1000:00 from 2024-06-15T00:00Z within
            117.23(c)(1) 60:01 of 60:00 from 2025-06-08T00:00Z exceeds
            117.23(c)(2) 60:01 of 190:00 from 2025-05-18T00:00Z within
            117.25(b) 48:00 of 30:00 P14/1 within
            117.25(e) 168:00 of 10:00 P09/1 within
        """,
        "limits C1 --with P30": """
            LIMITS C1 captain Ada Ray with P30
            117.11(a)(1) 7:30 of 9:00 P30/1 within
            117.13(a) 8:30 of 14:00 P30/1 within
            117.23(b)(1) 32:31 of 100:00 from 2025-06-02T19:30Z within
            117.23(b)(2) 32:31 of 1000:00 from 2024-07-01T00:00Z within
            117.23(c)(1) 8:30 of 60:00 from 2025-06-23T19:30Z within
            117.23(c)(2) 68:31 of 190:00 from 2025-06-02T19:30Z within
            117.25(b) 168:00 of 30:00 P30/1 within
            117.25(e) 168:00 of 10:00 P30/1 within
        """,
    }],
    # P10 is the first in the order of ids. PB reports a minute before the others, and takes their rest.
    "limits_of_duties_at_one_time": [AT_ONE_TIME, {
        "limits C1": """
            LIMITS C1 captain Ada Ray
            117.11(a)(1) 2:00 of 9:00 P10/1 within
            117.13(a) 3:01 of 14:00 PB/1 within
            117.23(b)(1) 2:00 of 100:00 from 2025-05-23T14:00Z within
            117.23(b)(2) 2:00 of 1000:00 from 2024-06-21T00:00Z within
            117.23(c)(1) 3:01 of 60:00 from 2025-06-13T14:00Z within
            117.23(c)(2) 3:01 of 190:00 from 2025-05-23T14:00Z within
            117.25(b) 167:59 of 30:00 P10/1 within
            117.25(e) 0:00 of 10:00 P10/1 exceeds
        """,
    }],
    # Neither P0 nor X1 has a minute of rest before it. P0, which C1 holds, comes first among all duties, and last with `--with`.
    "limits_with_the_periods_of_the_pairing_last": ["""
        plan P0 10: 10:59 | 12:00-19:30 | 20:00
        assign P0 C1
        outside X0 C1 10: 10:00 | 10:00-11:30 | 11:30
        outside X1 C1 10: 11:00 | 12:00-13:00 | 14:00
    """, {
        "limits C1": """
            LIMITS C1 captain Ada Ray
            117.11(a)(1) 7:30 of 9:00 P0/1 within
            117.13(a) 8:31 of 13:00 P0/1 within
            117.23(b)(1) 9:00 of 100:00 from 2025-05-13T19:30Z within
            117.23(b)(2) 9:00 of 1000:00 from 2024-06-11T00:00Z within
            117.23(c)(1) 9:30 of 60:00 from 2025-06-03T19:30Z within
            117.23(c)(2) 9:30 of 190:00 from 2025-05-13T19:30Z within
            117.25(b) 167:00 of 30:00 outside X1 within
            117.25(e) 0:00 of 10:00 P0/1 exceeds
        """,
        "limits C1 --with P0": """
            LIMITS C1 captain Ada Ray with P0
            117.11(a)(1) 7:30 of 9:00 P0/1 within
            117.13(a) 8:31 of 13:00 P0/1 within
            117.23(b)(1) 9:00 of 100:00 from 2025-05-13T19:30Z within
            117.23(b)(2) 9:00 of 1000:00 from 2024-06-11T00:00Z within
            117.23(c)(1) 9:30 of 60:00 from 2025-06-03T19:30Z within
            117.23(c)(2) 9:30 of 190:00 from 2025-05-13T19:30Z within
            117.25(b) 167:00 of 30:00 outside X1 within
            117.25(e) 0:00 of 10:00 outside X1 exceeds
        """,
    }],
    # P2 overlaps P1, and C2 has the captain's seat. The limits are printed all the same.
    "limits_with_a_pairing_that_overlaps": [ONE_PAIRING + """
        plan P2 10: 10:00 | 15:00-16:00 | 21:00
        {"do":"add-crew","crew":"C2","seat":"captain","name":"Bo Lind"}
        assign P2 C2
    """, {
        "limits C1 --with P2": """
            LIMITS C1 captain Ada Ray with P2
            117.11(a)(1) 1:00 of 9:00 P2/1 within
            117.13(a) 6:00 of 13:00 P2/1 within
            117.23(b)(1) 7:30 of 100:00 from 2025-05-13T19:30Z within
            117.23(b)(2) 7:30 of 1000:00 from 2024-06-11T00:00Z within
            117.23(c)(1) 9:30 of 60:00 from 2025-06-03T19:30Z within
            117.23(c)(2) 9:30 of 190:00 from 2025-05-13T19:30Z within
            117.25(b) 167:00 of 30:00 P1/1 within
            117.25(e) 0:00 of 10:00 P1/1 exceeds
        """,
    }],
    # The clock of the member's base: noon at HOME, ten in Denver.
    "limits_by_the_clock_of_the_base": ["""
        base DEN: MST7MDT,M3.2.0,M11.1.0
        hire C9 captain DEN: Lee Roy
        plan P1 10: 16:00 | 16:30-20:30, +1 01:29-+1 05:59 | +1 06:30
        assign P1 C9
    """, {
        "limits C9": """
            LIMITS C9 captain Lee Roy
            117.11(a)(1) 8:30 of 9:00 P1/1 within
            117.13(a) 13:59 of 14:00 P1/1 within
            117.23(b)(1) 8:30 of 100:00 from 2025-05-14T05:59Z within
            117.23(b)(2) 8:30 of 1000:00 from 2024-06-12T00:00Z within
            117.23(c)(1) 13:59 of 60:00 from 2025-06-04T05:59Z within
            117.23(c)(2) 13:59 of 190:00 from 2025-05-14T05:59Z within
            117.25(b) 168:00 of 30:00 P1/1 within
            117.25(e) 168:00 of 10:00 P1/1 within
        """,
        "limits C1 --with P1": """
            LIMITS C1 captain Ada Ray with P1
            117.11(a)(1) 8:30 of 9:00 P1/1 within
            117.13(a) 13:59 of 13:00 P1/1 exceeds
            117.23(b)(1) 8:30 of 100:00 from 2025-05-14T05:59Z within
            117.23(b)(2) 8:30 of 1000:00 from 2024-06-12T00:00Z within
            117.23(c)(1) 13:59 of 60:00 from 2025-06-04T05:59Z within
            117.23(c)(2) 13:59 of 190:00 from 2025-05-14T05:59Z within
            117.25(b) 168:00 of 30:00 P1/1 within
            117.25(e) 168:00 of 10:00 P1/1 within
        """,
    }],
    # The periods of a pairing are named by their numbers, and have the times at which they were flown.
    "limits_of_a_pairing_of_two_periods": [SWAPPED, {
        "limits C1": """
            LIMITS C1 captain Ada Ray
            117.11(a)(1) 2:00 of 9:00 P3/1 within
            117.13(a) 3:30 of 14:00 P3/2 within
            117.23(b)(1) 3:30 of 100:00 from 2025-05-17T14:00Z within
            117.23(b)(2) 3:30 of 1000:00 from 2024-06-15T00:00Z within
            117.23(c)(1) 6:30 of 60:00 from 2025-06-07T14:00Z within
            117.23(c)(2) 6:30 of 190:00 from 2025-05-17T14:00Z within
            117.25(b) 120:00 of 30:00 P3/1 within
            117.25(e) 44:00 of 10:00 P3/1 within
        """,
    }],
}  # fmt: skip


def lines_of(page):
    return [line for line in map(str.strip, page.splitlines()) if line]


def text_of(page):
    return "".join(f"{line}\n" for line in lines_of(page))


def carry_out(book, page):
    """Has each line accepted; one may begin with the number of its request. Returns what differs."""
    for line in lines_of(page):
        number, _, rest = line.partition(" ")
        answer = told(book.do(int(number), order(rest))) if number.isdigit() else book.settle(line)
        if not answer.startswith("accepted"):
            return [f"{line}: {answer}"]
    return []


def log_of(book):
    """What the log of a book holds; nothing where it has no frame behind its header."""
    log = book.folder / "roster.db-wal"
    held = log.read_bytes() if log.exists() else b""
    return held if len(held) >= WITH_A_FRAME else b""


def shown(book, words, given=""):
    """What a report of the book is, and whether it left the file as it was, and in the log what that held."""
    file, log = book.file.read_bytes(), log_of(book)
    ran = rosterbook(*words, given=given)
    return ran, book.file.read_bytes() == file and log_of(book).startswith(log)


def differs(book, words, wanted):
    """What differs of a report, by its words without the file."""
    command, *ids = words
    ran, is_same = shown(book, [command, book.file, *ids])
    if not is_same:
        return [f"{words}: the book has changed"]
    return [] if ran == wanted else [f"{words}: wanted {wanted}, and got {ran}"]


def tried(room, page, reports):
    book = Book.made(room)
    bad = carry_out(book, MEMBERS + page)
    for words, text in reports.items():
        bad += differs(book, words.split(" "), Ran(0, text_of(text), ""))
    return bad


# ---- What a text can't say.


def two_hundred_periods(room):
    """C1 flies from noon to one on each other day for 400 days, and so does nobody else."""
    book = Book.made(room)
    bad = carry_out(book, MEMBERS)
    days = [f"day-{1 + 2 * period}" for period in range(200)]
    plans = [f"plan P{day[4:]} {day}: 11:00 | 12:00-13:00 | 13:30" for day in days]
    answer = book.settle_all(plans)
    bad += [] if answer == "accepted" else [answer]
    for day in days:
        bad += carry_out(book, f"assign P{day[4:]} C1")
    lines = [
        f"{order(plan)['periods'][0]['report']} {order(plan)['periods'][0]['release']} pairing P{day[4:]}/1 plan fdp 2:00 flight 1:00"
        for day, plan in zip(days, plans)
    ]
    text = "".join(f"{line}\n" for line in ["ROSTER C1 captain Ada Ray", *lines])
    bad += differs(book, ["roster", "C1"], Ran(0, text, ""))
    # Each window that holds the most is looked for from the first one on; P101 is the first by its id with another rest than P1.
    return bad + differs(book, ["limits", "C1"], Ran(0, text_of("""
        LIMITS C1 captain Ada Ray
        117.11(a)(1) 1:00 of 9:00 P1/1 within
        117.13(a) 2:00 of 13:00 P1/1 within
        117.23(b)(1) 14:00 of 100:00 from 2024-12-30T13:00Z within
        117.23(b)(2) 183:00 of 1000:00 from 2025-01-01T00:00Z within
        117.23(c)(1) 8:00 of 60:00 from 2024-12-31T13:00Z within
        117.23(c)(2) 28:00 of 190:00 from 2024-12-30T13:00Z within
        117.25(b) 45:30 of 30:00 P101/1 within
        117.25(e) 45:30 of 10:00 P101/1 within
    """), ""))  # fmt: skip


def busy(begin, end):
    """Has C1 on the ground between these times of June."""
    times = {"begin": f"2025-06-{begin}Z", "end": f"2025-06-{end}Z"}
    return compact({"do": "add-ground", "ground": "G1", "crew": "C1", "task": "Course", **times})


P1 = "plan P1 10: 11:00 | 12:00-19:30 | 20:00"
WEEK = [f"outside X{day} C1 {day}: 12:00 | 13:00-+1 00:00 | +1 00:00" for day in (10, 11, 12, 13)]

# What C1 is asked, and the words of `limits` with the line that it has then: what a limit allows, and a minute too much or too little.
EDGES = (
    (["plan P1 10: 11:00 | 12:00-21:00 | 21:00"], "--with P1", "117.11(a)(1) 9:00 of 9:00 P1/1 within"),
    (["plan P1 10: 11:00 | 12:00-21:01 | 21:01"], "--with P1", "117.11(a)(1) 9:01 of 9:00 P1/1 exceeds"),
    (["plan P1 10: 11:00 | 12:00-14:00, 23:00-+1 01:00 | +1 01:00"], "--with P1", "117.13(a) 14:00 of 14:00 P1/1 within"),
    (["plan P1 10: 11:00 | 12:00-14:00, 23:00-+1 01:01 | +1 01:01"], "--with P1", "117.13(a) 14:01 of 14:00 P1/1 exceeds"),
    (["outside X1 C1 10: 11:00 | 11:00-+4 15:00 | +4 15:00"], "", "117.23(b)(1) 100:00 of 100:00 from 2025-05-17T15:00Z within"),
    (["outside X1 C1 10: 11:00 | 11:00-+4 15:01 | +4 15:01"], "", "117.23(b)(1) 100:01 of 100:00 from 2025-05-17T15:01Z exceeds"),
    (["outside X1 C1 10: 11:00 | 11:00-+42 03:00 | +42 03:00"], "", "117.23(b)(2) 1000:00 of 1000:00 from 2024-07-23T00:00Z within"),
    (["outside X1 C1 10: 11:00 | 11:00-+42 03:01 | +42 03:01"], "", "117.23(b)(2) 1000:01 of 1000:00 from 2024-07-23T00:00Z exceeds"),
    ([*WEEK, "outside X1 C1 15: 12:00 | 13:00-+1 00:00 | +1 00:00"], "", "117.23(c)(1) 60:00 of 60:00 from 2025-06-09T00:00Z within"),
    ([*WEEK, "outside X1 C1 15: 11:59 | 13:00-+1 00:00 | +1 00:00"], "", "117.23(c)(1) 60:01 of 60:00 from 2025-06-09T00:00Z exceeds"),
    (["outside X1 C1 10: 11:00 | 12:00-+8 09:00 | +8 09:00"], "", "117.23(c)(2) 190:00 of 190:00 from 2025-05-21T09:00Z within"),
    (["outside X1 C1 10: 10:59 | 12:00-+8 09:00 | +8 09:00"], "", "117.23(c)(2) 190:01 of 190:00 from 2025-05-21T09:00Z exceeds"),
    ([P1, busy("03T11:00", "09T05:00")], "--with P1", "117.25(b) 30:00 of 30:00 P1/1 within"),
    ([P1, busy("04T16:59", "09T05:01")], "--with P1", "117.25(b) 29:59 of 30:00 P1/1 exceeds"),
    ([P1, busy("09T05:01", "10T01:00")], "--with P1", "117.25(e) 10:00 of 10:00 P1/1 within"),
    ([P1, busy("09T05:01", "10T01:01")], "--with P1", "117.25(e) 9:59 of 10:00 P1/1 exceeds"),
)  # fmt: skip


def each_limit_is_reached_and_exceeded(room):
    empty = Book.made(room)
    bad = carry_out(empty, MEMBERS)
    for lines, words, wanted in EDGES:
        book = empty.copy()
        bad += carry_out(book, "\n".join(lines))
        ran, is_same = shown(book, ["limits", book.file, "C1", *words.split()])
        bad += [] if wanted in ran.out.splitlines() and is_same else [f"{lines}: no line {wanted} in {ran}"]
    return bad


def whoever_is_not_there_is_refused(room):
    book = Book.made(room)
    bad = carry_out(book, MEMBERS + ONE_PAIRING)
    for who in ("C9", "c1", "P1", "", "C1 ", "É", "C" * 13):
        for words in (["roster", who], ["limits", who], ["limits", who, "--with", "P1"], ["limits", who, "--with", "P9"]):
            bad += differs(book, words, Ran(1, "", "refused 2 NoSuchCrew\n"))
    for pairing in ("P9", "p1", "C1", "", "P1/1"):
        bad += differs(book, ["pairing", pairing], Ran(1, "", "refused 4 NoSuchPairing\n"))
        bad += differs(book, ["limits", "C1", "--with", pairing], Ran(1, "", "refused 4 NoSuchPairing\n"))
    return bad


def no_book_is_no_report(room):
    folder = Path(tempfile.mkdtemp(dir=room))
    bad = []
    with closing(sqlite3.connect(folder / "other.db")) as tables:
        tables.execute("CREATE TABLE other (x)")
        tables.commit()
    of_ids = (["roster", "C1"], ["limits", "C1"], ["limits", "C1", "--with", "P1"], ["pairing", "P1"])
    of_days = ["board", "2025-06-01", "2025-06-30"]
    all_words = (*of_ids, ["exceedances"], ["members"], ["pairings"], ["pairings", "--open"], of_days, ["request", "900"])
    for words in (*all_words, *([*it, "--json"] for it in all_words)):
        for name, wanted in (("none.db", "refused 40 NotABook\n"), ("other.db", "refused 40 NotABook\n")):
            ran = rosterbook(words[0], folder / name, *words[1:])
            bad += [] if ran == Ran(3, "", wanted) else [f"{words} of {name}: {ran}"]
    return bad + ([] if not (folder / "none.db").exists() else ["a file was made"])


def a_log_stays_as_it_is(room):
    """What a stopped program left in the log beside the book is shown, and stays there."""
    book = Book.made(room)
    bad = carry_out(book, MEMBERS + ONE_PAIRING)
    left = Book(Path(tempfile.mkdtemp(dir=room)))
    with closing(sqlite3.connect(book.file)) as tables:
        tables.execute("PRAGMA journal_mode = wal")
        tables.execute("PRAGMA wal_autocheckpoint = 0")
        tables.execute("UPDATE crew SET name = 'Ann Oh' WHERE id = 'C1'")
        tables.commit()
        for name in ("roster.db", "roster.db-wal"):
            (left.folder / name).write_bytes((book.folder / name).read_bytes())
    if b"Ann Oh" in left.file.read_bytes():
        bad += ["the log was copied into the book"]
    for _ in range(2):
        bad += differs(left, ["roster", "C1"], Ran(0, text_of("""
            ROSTER C1 captain Ann Oh
            2025-06-10T11:00Z 2025-06-10T20:00Z pairing P1/1 plan fdp 8:30 flight 7:30
        """), ""))  # fmt: skip
    given = compact({"number": 900, **order("release P1 C1")})
    reports = ["limits C1", "limits C1 --with P1", "pairing P1", "exceedances", "members", "pairings", "pairings --open"]
    reports += ["board 2025-06-01 2025-06-30", "request 900"]
    for words in (*reports, *(f"{it} --json" for it in reports), "do --dry-run", "do --lines --dry-run"):
        command, *rest = words.split(" ")
        ran, is_same = shown(left, [command, left.file, *rest], given)
        bad += [] if is_same and ran.status == 0 else [f"{words}: the log was copied, or {ran}"]
    bad += carry_out(left, "900 release P1 C1")
    return bad + differs(left, ["roster", "C1"], Ran(0, "ROSTER C1 captain Ann Oh\n", ""))


def parts_of_one_number(room):
    """A command and the pairings of two schedules under number 70, of which the second has one that was refused, and others beside it."""
    book = Book.made(room)
    bad = carry_out(book, """
        7 hire C1 captain: Ada Ray
        70 hire F1 first-officer: Zoë "Zo" Roy
        700 hire C2 captain: Bo Lind
    """)
    plans = [f"plan P{day} {day}: 11:00 | 12:00-13:00 | 13:30" for day in (10, 11, 12)]
    bad += [] if book.import_schedule(70, schedule(plans[:1])) == Ran(0, "1 accepted\n", "") else ["no import"]
    ran = book.import_schedule(70, schedule([*plans[:2], plans[0], plans[2]]))
    bad += [] if ran == Ran(1, "1 accepted\n2 accepted\n3 refused 5 PairingExists\n4 accepted\n", "") else [f"an import: {ran}"]
    commands = [(part, kept_text(order(line))) for part, line in ((0, 'hire F1 first-officer: Zoë "Zo" Roy'), *zip((1, 2, 4), plans))]
    lines = [f"{part} {text}\n" for part, command in commands for text in (command, '{"exceedances":[],"result":"accepted"}')]
    return bad + differs(book, ["request", "70"], Ran(0, "".join(["REQUEST 70\n", *lines]), ""))


OTHERS = (
    two_hundred_periods, each_limit_is_reached_and_exceeded, whoever_is_not_there_is_refused, no_book_is_no_report, a_log_stays_as_it_is,
    parts_of_one_number,
)  # fmt: skip


def main(names):
    if not build():
        return 3
    cases = {name: (tried, *case) for name, case in (CASES | BOARDS | LIMITS).items()} | {case.__name__: (case,) for case in OTHERS}
    failed = 0
    with tempfile.TemporaryDirectory() as room:
        for name in names or cases:
            case, *arguments = cases[name]
            bad = case(room, *arguments)
            failed += bool(bad)
            for line in bad:
                print(f"tests/reports.py: {name}: {line}", file=sys.stderr)
    print(f"{len(names or cases) - failed} passed, {failed} failed")
    return 1 if failed else 0


if __name__ == "__main__":
    sys.exit(main(sys.argv[1:]))
