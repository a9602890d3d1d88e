#!/usr/bin/env python3
"""Asks the program what a crew desk asks, and compares the answers with the rows that were worked out.

    tests/answers.py [NAME..]

A case is a few pages of lines, which are taken in turn on a book of the captains C1 and C2 and the first officer F1. A line is
a command, as tests/office.py has it, or a look into the tables of the book:

    20 assign P1 C1 -> accepted     under the number 20, with what has to be answered
    assign P1 C1                    under a number of its own; it has to be accepted, and to break no limit
    seats -> P1 C1 -                each pairing with its captain and its first officer
    bases -> HOME UTC0              each base with its zone
    members -> C1 HOME              each member with the base to which the member belongs
    exceedances -> none             each exceedance that is kept
    planned P1 10: .. -> yes        whether the pairing is kept with these periods alone
    outsides -> X1 C1               each outside period with the member who flew it
    recorded X1 C1 10: .. -> yes    whether the outside period is kept with this member and these times alone

Each command is checked before it is asked (`do --dry-run`): it has to be answered the same, and no table and no byte of the file may change.
Of a page that begins with the line `import` all others are pairings of one schedule. What differs is printed on standard error.
The last line is 'N passed, M failed', and the exit status 1 where M isn't 0.
"""

import sqlite3
import sys
import tempfile
from dataclasses import dataclass

from office import Book, build, compact, order, told

MEMBERS = """
    hire C1 captain: Ada Ray
    hire C2 captain: Bo Lind
    hire F1 first-officer: Zoë Roy
"""

# ---- Assignments on both sides of a limit.

HELD = """
    plan P801 10: 11:00 | 12:00-19:30 | 20:00
    assign P801 C1
"""

# C1 has ground duties on five days, and flies on 16 June.
FIVE_GROUND_DUTIES = """
    train G1 9: 12:00-20:00
    train G2 10: 12:00-20:00
    train G3 11: 12:00-20:00
    train G4 12: 12:00-20:00
    train G5 13: 12:00-20:00
    plan P901 16: 12:00 | 13:00-15:00 | 15:30
    assign P901 C1
"""

# C1 has 720 minutes of flight duty on each of five days.
FIVE_DAYS_OF_FLIGHT_DUTY = """
    plan P09 9: 12:00 | 13:00-15:00, 21:00-+1 00:00 | +1 00:00
    assign P09 C1
    plan P10 10: 12:00 | 13:00-15:00, 21:00-+1 00:00 | +1 00:00
    assign P10 C1
    plan P12 12: 12:00 | 13:00-15:00, 21:00-+1 00:00 | +1 00:00
    assign P12 C1
    plan P13 13: 12:00 | 13:00-15:00, 21:00-+1 00:00 | +1 00:00
    assign P13 C1
    plan P14 14: 12:00 | 13:00-15:00, 21:00-+1 00:00 | +1 00:00
    assign P14 C1
"""

# C1 has 720 minutes of flight duty on each of fifteen days of June.
FIFTEEN_DAYS_OF_FLIGHT_DUTY = "".join(
    f"plan P{day} {day}: 12:00 | 13:00-15:00, 21:00-+1 00:00 | +1 00:00\nassign P{day} C1\n"
    for day in (2, 3, 5, 6, 9, 10, 12, 13, 16, 17, 19, 20, 23, 24, 26)
)

# C1 flies 480 minutes on each of twelve days of June.
TWELVE_DAYS_OF_FLYING = "".join(
    f"plan P{day} {day}: 11:00 | 12:00-20:00 | 20:30\nassign P{day} C1\n" for day in (1, 3, 5, 8, 10, 12, 15, 17, 19, 22, 24, 26)
)

# C1 flies 500 minutes on each third day of 2025 up to 21 December: 119 periods, 59,500 minutes.
EACH_THIRD_DAY = [1 + 3 * period for period in range(119)]
A_YEAR_PLANNED = "import\n" + "".join(f"plan P{day} day-{day}: 12:00 | 13:00-21:20 | 22:00\n" for day in EACH_THIRD_DAY)
A_YEAR_OF_FLYING = "".join(f"assign P{day} C1\n" for day in EACH_THIRD_DAY)

ASSIGNMENTS = {
    "ten_hours_of_rest_are_enough": [HELD, """
        plan P802 11: 06:00 | 07:00-09:00 | 09:30
        1 assign P802 C1 -> accepted
    """],
    "a_minute_less_than_ten_hours_of_rest_is_too_little": [HELD, """
        plan P803 11: 05:59 | 07:00-09:00 | 09:30
        1 assign P803 C1 -> 12 Limits C1 117.25(e)
    """],
    "thirty_hours_free_from_ground_duties_are_enough": [FIVE_GROUND_DUTIES, """
        plan P902 15: 00:00 | 01:00-05:00 | 06:00
        1 assign P902 C1 -> accepted
    """],
    "a_later_period_keeps_its_thirty_hours_before_it": [FIVE_GROUND_DUTIES, """
        plan P902 15: 00:00 | 01:00-07:00 | 08:00
        1 assign P902 C1 -> 12 Limits C1 117.25(b)
    """],
    # What lies before the later period's week is no part of its thirty hours.
    "a_ground_duty_before_the_week_counts_for_nothing": [FIVE_GROUND_DUTIES, """
        1 excuse G1 -> accepted
        plan P902 15: 00:00 | 01:00-07:00 | 08:00
        2 assign P902 C1 -> 12 Limits C1 117.25(b)
    """],
    "both_tables_are_reached": ["""
        plan P1 10: 16:00 | 16:30-20:30, +1 01:00-+1 05:00 | +1 05:30
        plan P2 10: 16:00 | 16:30-20:30, +1 01:00-+1 05:01 | +1 05:31
        plan P3 10: 08:59 | 09:30-17:30 | 18:00
        plan P4 10: 08:59 | 09:30-17:31 | 18:00
        1 assign P2 C1 -> 12 Limits C1 117.13(a)
        2 assign P1 C1 -> accepted
        3 assign P4 C2 -> 12 Limits C2 117.11(a)(1)
        4 assign P3 C2 -> accepted
    """],
    "a_week_holds_3600_minutes_of_flight_duty": [FIVE_DAYS_OF_FLIGHT_DUTY, """
        plan P11 11: 12:00 | 12:00-12:01 | 12:01
        1 assign P11 C1 -> 12 Limits C1 117.23(c)(1)
    """],
    "four_weeks_hold_11400_minutes_of_flight_duty": [FIFTEEN_DAYS_OF_FLIGHT_DUTY, """
        plan P27 27: 12:00 | 13:00-15:00, 20:00-22:00 | 22:00
        1 assign P27 C1 -> accepted
    """],
    "four_weeks_do_not_hold_11401_minutes_of_flight_duty": [FIFTEEN_DAYS_OF_FLIGHT_DUTY, """
        plan P27 27: 12:00 | 13:00-15:00, 20:00-22:01 | 22:01
        1 assign P27 C1 -> 12 Limits C1 117.23(c)(2)
    """],
    # The window that ends with the new flight begins at 16:00 on 1 June.
    "four_weeks_hold_6000_minutes_of_flight": [TWELVE_DAYS_OF_FLYING, """
        plan P29 29: 07:00 | 08:00-16:00 | 16:30
        1 assign P29 C1 -> accepted
    """],
    "four_weeks_do_not_hold_6001_minutes_of_flight": [TWELVE_DAYS_OF_FLYING, """
        plan P29 29: 06:59 | 07:59-15:59 | 16:30
        1 assign P29 C1 -> 12 Limits C1 117.23(b)(1)
    """],
    # Of the new flight's 530 minutes 500 are of 2025.
    "a_year_holds_60000_minutes_of_flight": [A_YEAR_PLANNED, A_YEAR_OF_FLYING, """
        plan P365 day-365: 15:00 | 15:40-+1 00:30 | +1 01:00
        1 assign P365 C1 -> accepted
    """],
    "a_year_does_not_hold_60001_minutes_of_flight": [A_YEAR_PLANNED, A_YEAR_OF_FLYING, """
        plan P365 day-365: 15:00 | 15:39-+1 00:30 | +1 01:00
        1 assign P365 C1 -> 12 Limits C1 117.23(b)(2)
    """],
}  # fmt: skip

# ---- Periods flown at other times than planned: what is recorded, and what is refused afterwards.

# C1 flies on 6, 7 and 8 June, P13A together with F1, and P13B ten hours after it. P13A is flown eleven hours late, as request
# 113 says. C1's week holds 3,600 minutes of flight duty, and so is within its limit.
A_LATE_PERIOD = """
    plan P06 6: 12:00 | 13:00-15:00, 21:00-+1 00:00 | +1 00:00
    assign P06 C1
    plan P07 7: 12:00 | 13:00-15:00, 21:00-+1 00:00 | +1 00:00
    assign P07 C1
    plan P08 8: 12:00 | 13:00-15:00, 21:00-+1 00:30 | +1 00:30
    assign P08 C1
    plan P13A 10: 11:00 | 12:00-20:00 | 20:30
    assign P13A C1
    assign P13A F1
    plan P13B 11: 06:30 | 07:30-10:30 | 11:00
    assign P13B C1
    113 fly P13A 1 10: 11:00 | 23:00-+1 07:00 | +1 07:30 -> accepted C1 117.13(a) C1 117.25(e) F1 117.13(a)
"""

# C1 flies 3,600 minutes from 2 to 8 June, the last hour of them PL, together with F1. PL is flown long, as request 60 says:
# C1's week is then over its limit.
A_LONG_PERIOD = """
    plan P2 2: 12:00 | 13:00-15:00, 21:00-+1 00:00 | +1 00:00
    assign P2 C1
    plan P3 3: 12:00 | 13:00-15:00, 21:00-+1 00:00 | +1 00:00
    assign P3 C1
    plan P4 4: 12:00 | 13:00-15:00, 21:00-+1 00:00 | +1 00:00
    assign P4 C1
    plan P6 6: 12:00 | 13:00-15:00, 21:00-+1 00:00 | +1 00:00
    assign P6 C1
    plan P7 7: 12:00 | 13:00-15:00, 21:00-23:00 | 23:00
    assign P7 C1
    plan PL 8: 11:00 | 11:10-12:00 | 12:00
    assign PL C1
    assign PL F1
    60 fly PL 1 8: 11:00 | 11:10-18:50 | 19:00 -> accepted C1 117.23(c)(1)
"""

FLOWN_PERIODS = {
    "a_late_period_is_recorded": [A_LATE_PERIOD, """
        exceedances -> 113 0 C1 117.13(a) P13A 1 | 113 0 C1 117.25(e) P13A 1 | 113 0 F1 117.13(a) P13A 1
    """],
    "a_late_period_asked_again_is_recorded_once": [A_LATE_PERIOD, """
        113 fly P13A 1 10: 11:00 | 23:00-+1 07:00 | +1 07:30 -> repeated C1 117.13(a) C1 117.25(e) F1 117.13(a)
        exceedances -> 113 0 C1 117.13(a) P13A 1 | 113 0 C1 117.25(e) P13A 1 | 113 0 F1 117.13(a) P13A 1
    """],
    "a_late_period_is_recorded_under_each_number": [A_LATE_PERIOD, """
        114 fly P13A 1 10: 11:00 | 23:00-+1 07:00 | +1 07:30 -> accepted C1 117.13(a) C1 117.25(e) F1 117.13(a)
        exceedances -> 113 0 C1 117.13(a) P13A 1 | 113 0 C1 117.25(e) P13A 1 | 113 0 F1 117.13(a) P13A 1 \
            | 114 0 C1 117.13(a) P13A 1 | 114 0 C1 117.25(e) P13A 1 | 114 0 F1 117.13(a) P13A 1
    """],
    "the_seats_of_a_flown_pairing_stay": [A_LATE_PERIOD, """
        plan P20 20: 12:00 | 13:00-15:00, 21:00-+1 00:00 | +1 00:00
        assign P20 C2
        1 release P13A C1 -> 10 Flown
        2 swap P13A C1 P20 C2 -> 10 Flown
        3 swap P20 C2 P13A C1 -> 10 Flown
    """],
    "a_longer_period_fills_the_week_before_it": [A_LONG_PERIOD, """
        plan P1 1: 12:00 | 12:10-13:00 | 13:00
        1 assign P1 C1 -> 12 Limits C1 117.23(c)(1)
    """],
    "a_flown_pairing_is_neither_cancelled_nor_released": [A_LONG_PERIOD, """
        1 cancel PL -> 9 PairingCrewed
        2 release PL F1 -> 10 Flown
        3 fly PL 2 8: 11:00 | 11:10-18:50 | 19:00 -> 13 NoSuchDuty
    """],
    # Fourteen hours and a half of flight, in fifteen and a half of flight duty.
    "a_long_flight_breaks_both_tables": ["""
        plan P1 10: 11:00 | 12:00-19:30 | 20:00
        assign P1 C1
        assign P1 F1
        113 fly P1 1 10: 11:00 | 12:00-+1 02:30 | +1 03:00 -> accepted C1 117.11(a)(1) C1 117.13(a) F1 117.11(a)(1) F1 117.13(a)
    """],
    # What was recorded stays.
    "an_actual_takes_the_place_of_an_earlier_one": [A_LONG_PERIOD, """
        61 fly PL 1 8: 11:00 | 11:10-12:00 | 12:00 -> accepted
        exceedances -> 60 0 C1 117.23(c)(1) PL 1
    """],
}  # fmt: skip

# ---- New duties judged in a history: pairings, actual times and ground duties.

# C1 flies 4,010 minutes from 2 to 8 June, since P2, held together with F1, was flown longer than planned.
A_WEEK = """
    plan P2 2: 12:00 | 13:00-15:00, 16:00-17:00 | 17:00
    assign P2 C1
    assign P2 F1
    plan P3 3: 12:00 | 13:00-15:00, 21:00-+1 00:00 | +1 00:00
    assign P3 C1
    plan P4 4: 12:00 | 13:00-15:00, 21:00-+1 00:00 | +1 00:00
    assign P4 C1
    plan P6 6: 12:00 | 13:00-15:00, 21:00-+1 00:00 | +1 00:00
    assign P6 C1
    plan P7 7: 12:00 | 13:00-15:00, 21:00-23:00 | 23:00
    assign P7 C1
    plan P8 8: 11:00 | 11:10-18:50 | 19:00
    assign P8 C1
    60 fly P2 1 2: 12:00 | 13:00-15:00, 21:00-+1 00:00 | +1 00:00 -> accepted C1 117.23(c)(1)
"""

JUDGEMENT = {
    "a_pairing_needs_ten_hours_of_rest": [HELD, """
        plan P803 11: 05:59 | 07:00-09:00 | 09:30
        1 assign P803 C1 -> 12 Limits C1 117.25(e)
        plan P802 11: 06:00 | 07:00-09:00 | 09:30
        2 assign P802 C1 -> accepted
    """],
    # The window from noon on 1 June to noon on 8 June, which the last period flies on past, holds 3,660 minutes.
    "a_week_that_ends_in_a_later_period_is_tried": [A_WEEK, """
        plan P1 1: 12:00 | 12:10-13:00 | 13:00
        1 assign P1 C1 -> 12 Limits C1 117.23(c)(1)
    """],
    # By the actual report, a minute before noon, Table B would give an hour more.
    "tables_are_entered_with_the_planned_report": ["""
        plan P1 10: 16:00 | 16:30-20:30, +1 01:00-+1 05:00 | +1 05:30
        1 assign P1 C1 -> accepted
        2 assign P1 F1 -> accepted
        3 fly P1 1 10: 15:59 | 16:30-20:30, +1 01:00-+1 05:00 | +1 05:30 -> accepted C1 117.13(a) F1 117.13(a)
    """],
    "a_ground_duty_overlaps_by_minutes": ["""
        plan P1 10: 11:00 | 12:00-19:30 | 20:00
        assign P1 C1
        1 train G1 10: 19:59-22:00 -> 11 Overlap
        2 train G1 10: 20:00-22:00 -> accepted
    """],
}  # fmt: skip

# ---- Numbers of requests, and refusals for other causes than limits.

# C1 is assigned P1 by request 20, and released from it by request 21.
ASSIGNED_AND_RELEASED = """
    plan P1 10: 11:00 | 12:00-19:30 | 20:00
    20 assign P1 C1 -> accepted
    seats -> P1 C1 -
    21 release P1 C1 -> accepted
    seats -> P1 - -
"""

# C1 holds P1, C1 and F1 hold P2, P3 is at the time of P1, and C1 has the ground duty G1.
A_SMALL_BOOK = """
    plan P1 10: 11:00 | 12:00-19:30 | 20:00
    assign P1 C1
    plan P2 12: 11:00 | 12:00-19:30 | 20:00
    assign P2 C1
    assign P2 F1
    plan P3 10: 19:59 | 20:30-21:00 | 21:30
    train G1 20: 12:00-20:00
"""

REQUESTS = {
    "a_repeated_assignment_leaves_the_seat_free": [ASSIGNED_AND_RELEASED, """
        20 assign P1 C1 -> repeated
        seats -> P1 - -
    """],
    # The number is looked at before all others.
    "a_held_number_takes_no_other_command": [ASSIGNED_AND_RELEASED, """
        20 assign P1 C2 -> 1 NumberUsed
        20 assign P9 C9 -> 1 NumberUsed
    """],
    # C1 holds P15A, and C2 holds P15B at the same hours two days later and P15C the night before P15A.
    "a_swap_is_refused_for_what_the_other_member_breaks": [ASSIGNED_AND_RELEASED, """
        plan P15A 10: 11:00 | 12:00-19:30 | 20:00
        assign P15A C1
        plan P15B 12: 11:00 | 12:00-19:30 | 20:00
        assign P15B C2
        plan P15C 9: 20:00 | 21:00-+1 03:30 | +1 04:00
        assign P15C C2
        22 swap P15A C1 P15B C2 -> 12 Limits C2 117.25(e)
        seats -> P1 - - | P15A C1 - | P15B C2 - | P15C C2 -
    """],
    # C1 holds P15D the night before P15B too.
    "a_swap_is_refused_for_what_both_members_break": ["""
        plan P15A 10: 11:00 | 12:00-19:30 | 20:00
        assign P15A C1
        plan P15B 12: 11:00 | 12:00-19:30 | 20:00
        assign P15B C2
        plan P15C 9: 20:00 | 21:00-+1 03:30 | +1 04:00
        assign P15C C2
        plan P15D 11: 20:00 | 21:00-+1 03:30 | +1 04:00
        assign P15D C1
        1 swap P15A C1 P15B C2 -> 12 Limits C1 117.25(e) C2 117.25(e)
    """],
    "a_swap_gives_each_member_the_others_seat": ["""
        plan P1 10: 11:00 | 12:00-19:30 | 20:00
        assign P1 C1
        plan P2 12: 11:00 | 12:00-19:30 | 20:00
        assign P2 C2
        1 swap P1 C1 P2 C2 -> accepted
        seats -> P1 C2 - | P2 C1 -
    """],
    "a_refused_command_leaves_its_number_free": ["""
        30 assign P1 C1 -> 4 NoSuchPairing
        30 plan P1 10: 11:00 | 12:00-19:30 | 20:00 -> accepted
        31 assign P1 C1 -> accepted
    """],
    "the_id_of_a_cancelled_pairing_is_used_again": ["""
        plan P1 10: 11:00 | 12:00-19:30 | 20:00
        planned P1 10: 11:00 | 12:00-19:30 | 20:00 -> yes
        1 cancel P1 -> accepted
        seats -> none
        2 plan P1 11: 05:00 | 06:00-07:00, 08:00-09:00 | 09:30 -> accepted
        seats -> P1 - -
        planned P1 11: 05:00 | 06:00-07:00, 08:00-09:00 | 09:30 -> yes
    """],
    "what_is_missing_is_refused": [A_SMALL_BOOK, """
        1 assign P9 C9 -> 2 NoSuchCrew
        2 cancel P9 -> 4 NoSuchPairing
        3 release P1 C2 -> 8 NotAssigned
        4 excuse G9 -> 15 NoSuchGround
    """],
    "an_actual_without_its_duty_is_refused": [A_SMALL_BOOK, """
        1 fly P1 1 10: 11:00 | 12:00-19:30 | 20:00 -> 8 NotAssigned
        2 fly P2 2 10: 11:00 | 12:00-19:30 | 20:00 -> 13 NoSuchDuty
        3 fly P2 1 10: 11:00 | 12:00-13:00, 14:00-15:00 | 15:30 -> 19 SegmentCount 1
    """],
    "what_is_there_is_refused": [A_SMALL_BOOK, """
        1 hire C1 first-officer: Ann Oh -> 3 CrewExists
        2 plan P1 3: 11:00 | 12:00-19:30 | 20:00 -> 5 PairingExists
        3 assign P1 C2 -> 6 SeatTaken
        4 swap P1 C1 P2 F1 -> 7 WrongSeat
        5 cancel P1 -> 9 PairingCrewed
    """],
    "duties_at_one_time_are_refused": [A_SMALL_BOOK, """
        1 assign P3 C1 -> 11 Overlap
        2 train G2 20: 19:59-21:00 -> 11 Overlap
        3 train G1 22: 12:00-20:00 -> 14 GroundExists
    """],
    "a_ground_duty_is_cancelled_once": [A_SMALL_BOOK, """
        1 excuse G1 -> accepted
        2 excuse G1 -> 15 NoSuchGround
    """],
    "a_period_may_report_when_the_one_before_is_released": ["""
        1 plan P1 10: 11:00 | 12:00-14:00, 15:00-17:00 | 20:00; 10: 19:59 | 21:00-22:00 | 23:00 -> 16 BadTimes 2
        2 plan P1 10: 11:00 | 12:00-14:00, 15:00-17:00 | 20:00; 10: 20:00 | 21:00-22:00 | 23:00 -> accepted
    """],
    "a_pairing_has_a_period": ["""
        1 plan P1 -> 19 SegmentCount 0
    """],
    # No member and no pairing of a swap has to be there for that.
    "no_member_swaps_with_the_same_one": ["""
        1 swap P1 C1 P2 C1 -> 18 BadField other_crew
    """],
}  # fmt: skip

# ---- Bases, and members who belong to others than HOME, whose zone is New York's.

# C9 belongs to Denver, whose clock is two hours behind that of C1, C2 and F1.
DENVER = """
    base DEN: MST7MDT,M3.2.0,M11.1.0
    hire C9 captain DEN: Lee Roy
"""

# P1 reports at 12:00 in New York and at 10:00 in Denver, and lasts 13:59. Table B gives two flights 13 hours there, and 14 here.
BOTH_CLOCKS = """
    plan P1 10: 16:00 | 16:30-20:30, +1 01:29-+1 05:59 | +1 06:30
"""

BASES = {
    "a_period_is_judged_by_the_clock_of_the_members_base": [DENVER, BOTH_CLOCKS, """
        1 assign P1 C1 -> 12 Limits C1 117.13(a)
        2 assign P1 C9 -> accepted
        seats -> P1 C9 -
    """],
    # It reports at 20:30 in New York, where Table A gives 8 hours, and at 18:30 in Denver, where it gives 9.
    "the_flight_time_too": [DENVER, """
        plan P2 14: 00:30 | 01:00-09:01 | 09:30
        1 assign P2 C1 -> 12 Limits C1 117.11(a)(1)
        2 assign P2 C9 -> accepted
    """],
    # It reports at 07:00 in New York, where Table B gives 14 hours, and at 05:00 in Denver, where it gives 12.
    "what_new_york_may_fly_denver_may_not": [DENVER, """
        plan P3 10: 11:00 | 12:00-14:00, 22:00-+1 00:00 | +1 00:30
        1 assign P3 C9 -> 12 Limits C9 117.13(a)
        2 assign P3 C1 -> accepted
    """],
    # Each is judged by the clock of the member who gets the pairing, and not of the one who gives it.
    "a_swap_is_judged_by_the_clock_of_who_gets_the_pairing": [DENVER, BOTH_CLOCKS, """
        assign P1 C9
        plan P3 17: 11:00 | 12:00-14:00, 22:00-+1 00:00 | +1 00:30
        assign P3 C1
        plan P4 24: 11:00 | 12:00-14:00 | 14:30
        assign P4 C1
        plan P5 28: 11:00 | 12:00-14:00 | 14:30
        assign P5 C9
        1 swap P4 C1 P1 C9 -> 12 Limits C1 117.13(a)
        2 swap P1 C9 P4 C1 -> 12 Limits C1 117.13(a)
        3 swap P3 C1 P5 C9 -> 12 Limits C9 117.13(a)
        4 swap P3 C1 P1 C9 -> 12 Limits C1 117.13(a) C9 117.13(a)
        5 swap P1 C9 P3 C1 -> 12 Limits C9 117.13(a) C1 117.13(a)
        6 swap P4 C1 P5 C9 -> accepted
    """],
    # Planned at 13 hours, and flown for 13:59 and then for 14:01.
    "each_of_a_crew_is_recorded_by_the_own_clock": [DENVER, """
        plan P1 10: 16:00 | 16:30-20:30, +1 01:00-+1 05:00 | +1 05:30
        assign P1 C9
        assign P1 F1
        1 fly P1 1 10: 16:00 | 16:30-20:30, +1 01:29-+1 05:59 | +1 06:30 -> accepted F1 117.13(a)
        2 fly P1 1 10: 16:00 | 16:30-20:30, +1 01:31-+1 06:01 | +1 06:30 -> accepted C9 117.13(a) F1 117.13(a)
        exceedances -> 1 0 F1 117.13(a) P1 1 | 2 0 C9 117.13(a) P1 1 | 2 0 F1 117.13(a) P1 1
    """],
    "every_book_has_home": ["""
        bases -> HOME EST5EDT,M3.2.0,M11.1.0
        members -> C1 HOME | C2 HOME | F1 HOME
        1 base HOME: UTC0 -> 21 BaseExists
        2 base HOME: EST5EDT,M3.2.0,M11.1.0 -> 21 BaseExists
        bases -> HOME EST5EDT,M3.2.0,M11.1.0
    """],
    "a_base_is_added_once": ["""
        1 base DEN: MST7MDT,M3.2.0,M11.1.0 -> accepted
        1 base DEN: MST7MDT,M3.2.0,M11.1.0 -> repeated
        1 base DEN: MST7 -> 1 NumberUsed
        2 base DEN: MST7MDT,M3.2.0,M11.1.0 -> 21 BaseExists
        3 base DEN: MST7 -> 21 BaseExists
        bases -> DEN MST7MDT,M3.2.0,M11.1.0 | HOME EST5EDT,M3.2.0,M11.1.0
    """],
    # An id that is there is looked at before the base.
    "a_member_belongs_to_a_base_that_is_there": [DENVER, """
        1 hire C3 captain X: Lee Roy -> 20 NoSuchBase
        2 hire C1 captain X: Ada Ray -> 3 CrewExists
        3 hire C1 captain DEN: Ada Ray -> 3 CrewExists
        4 hire C9 captain: Lee Roy -> 3 CrewExists
        1 base X: UTC0 -> accepted
        5 hire C3 captain X: Lee Roy -> accepted
        members -> C1 HOME | C2 HOME | C3 X | C9 DEN | F1 HOME
    """],
    # HOME is left out of the text that is kept, whether the command names it or not.
    "a_member_without_a_base_is_one_of_home": [DENVER, """
        1 hire C3 captain: Lee Roy -> accepted
        1 hire C3 captain HOME: Lee Roy -> repeated
        1 hire C3 captain DEN: Lee Roy -> 1 NumberUsed
        2 hire C4 captain HOME: Lee Roy -> accepted
        2 hire C4 captain: Lee Roy -> repeated
        3 hire C5 captain DEN: Lee Roy -> accepted
        3 hire C5 captain: Lee Roy -> 1 NumberUsed
        3 hire C5 captain HOME: Lee Roy -> 1 NumberUsed
        members -> C1 HOME | C2 HOME | C3 HOME | C4 HOME | C5 DEN | C9 DEN | F1 HOME
    """],
}  # fmt: skip

# ---- What a member flies for another certificate holder: it counts in all limits but those of the tables.


def flown_elsewhere(page):
    """The page with each pairing that is planned and then assigned flown for another certificate holder."""
    lines = [line.split(maxsplit=2) for line in page.strip().split("\n")]
    plans = {words[1]: words[2] for words in lines if words[0] == "plan"}
    made = [f"outside {words[1]} {words[2]} {plans[words[1]]}" if words[0] == "assign" else " ".join(words) for words in lines]
    return "\n".join(line for line in made if not line.startswith("plan"))


HELD_ELSEWHERE = """
    outside X2 C1 10: 11:00 | 12:00-19:30 | 20:00
"""

# On C1's five days of flight duty, 3,600 minutes in a week, a minute more is recorded.
A_MINUTE_TOO_MUCH = """
    114 outside X1 C1 11: 12:00 | 12:00-12:01 | 12:01 -> accepted C1 117.23(c)(1)
"""

OUTSIDE = {
    "ten_hours_of_rest_are_needed_after_outside_flying": [HELD_ELSEWHERE, """
        plan P803 11: 05:59 | 07:00-09:00 | 09:30
        1 assign P803 C1 -> 12 Limits C1 117.25(e)
        plan P802 11: 06:00 | 07:00-09:00 | 09:30
        2 assign P802 C1 -> accepted
    """],
    "ten_hours_of_rest_are_needed_before_outside_flying": ["""
        outside X1 C1 11: 06:00 | 07:00-09:00 | 09:30
        plan P1 10: 11:00 | 12:00-19:30 | 20:01
        1 assign P1 C1 -> 12 Limits C1 117.25(e)
        plan P2 10: 11:00 | 12:00-19:30 | 20:00
        2 assign P2 C1 -> accepted
    """],
    "a_minute_of_outside_flying_too_much_is_recorded": [FIVE_DAYS_OF_FLIGHT_DUTY, A_MINUTE_TOO_MUCH, """
        exceedances -> 114 0 C1 117.23(c)(1) X1 0
        outsides -> X1 C1
        recorded X1 C1 11: 12:00 | 12:00-12:01 | 12:01 -> yes
        114 outside X1 C1 11: 12:00 | 12:00-12:01 | 12:01 -> repeated C1 117.23(c)(1)
        114 outside X1 C1 11: 12:00 | 12:00-12:01 | 12:02 -> 1 NumberUsed
        exceedances -> 114 0 C1 117.23(c)(1) X1 0
    """],
    "an_outside_period_is_replaced_and_its_exceedance_stays": [FIVE_DAYS_OF_FLIGHT_DUTY, A_MINUTE_TOO_MUCH, """
        115 outside X1 C1 20: 12:00 | 12:00-12:01 | 12:01 -> accepted
        recorded X1 C1 20: 12:00 | 12:00-12:01 | 12:01 -> yes
        116 outside X1 C2 20: 12:00 | 12:00-12:01 | 12:01 -> 22 OutsideTaken
        outsides -> X1 C1
        exceedances -> 114 0 C1 117.23(c)(1) X1 0
        114 outside X1 C1 11: 12:00 | 12:00-12:01 | 12:01 -> repeated C1 117.23(c)(1)
        recorded X1 C1 20: 12:00 | 12:00-12:01 | 12:01 -> yes
    """],
    # What was recorded twice at the same times is an exceedance of each request.
    "each_record_of_an_outside_period_is_judged": [FIVE_DAYS_OF_FLIGHT_DUTY, A_MINUTE_TOO_MUCH, """
        113 outside X1 C1 11: 12:00 | 12:00-12:01 | 12:01 -> accepted C1 117.23(c)(1)
        exceedances -> 113 0 C1 117.23(c)(1) X1 0 | 114 0 C1 117.23(c)(1) X1 0
    """],
    # Had the first times stayed beside the second, there would be no rest before 15:00.
    "an_outside_period_is_judged_without_its_earlier_times": [HELD_ELSEWHERE, """
        1 outside X2 C1 10: 15:00 | 16:00-19:30 | 20:00 -> accepted
        2 outside X2 C1 10: 11:00 | 12:00-13:00, 14:00-15:00 | 15:30 -> accepted
        recorded X2 C1 10: 11:00 | 12:00-13:00, 14:00-15:00 | 15:30 -> yes
        plan P1 11: 01:29 | 02:00-04:00 | 04:30
        3 assign P1 C1 -> 12 Limits C1 117.25(e)
        plan P2 11: 01:30 | 02:00-04:00 | 04:30
        4 assign P2 C1 -> accepted
        exceedances -> none
    """],
    # It reports at 12:00 in New York, lasts 24 hours and flies for all of them, which neither table gives. In Denver neither.
    "outside_flying_enters_no_table": [DENVER, """
        1 outside X1 C1 10: 16:00 | 16:00-+1 16:00 | +1 16:00 -> accepted
        2 outside X2 C9 10: 16:00 | 16:00-+1 16:00 | +1 16:00 -> accepted
        3 outside X3 F1 10: 16:00 | 16:00-+1 16:00 | +1 16:00 -> accepted
        exceedances -> none
    """],
    "outside_flying_counts_for_its_member_alone": [HELD_ELSEWHERE, """
        plan P803 11: 05:59 | 07:00-09:00 | 09:30
        1 assign P803 C2 -> accepted
        2 assign P803 F1 -> accepted
    """],
    "a_week_of_outside_flying_holds_3600_minutes_of_flight_duty": [flown_elsewhere(FIVE_DAYS_OF_FLIGHT_DUTY), """
        plan P11 11: 12:00 | 12:00-12:01 | 12:01
        1 assign P11 C1 -> 12 Limits C1 117.23(c)(1)
        2 outside X11 C1 11: 12:00 | 12:00-12:01 | 12:01 -> accepted C1 117.23(c)(1)
    """],
    "four_weeks_of_outside_flying_hold_11400_minutes_of_flight_duty": [flown_elsewhere(FIFTEEN_DAYS_OF_FLIGHT_DUTY), """
        plan P27 27: 12:00 | 13:00-15:00, 20:00-22:01 | 22:01
        1 assign P27 C1 -> 12 Limits C1 117.23(c)(2)
        plan P28 27: 12:00 | 13:00-15:00, 20:00-22:00 | 22:00
        2 assign P28 C1 -> accepted
    """],
    "a_minute_over_11400_is_recorded_of_outside_flying": [FIFTEEN_DAYS_OF_FLIGHT_DUTY, """
        1 outside X27 C1 27: 12:00 | 13:00-15:00, 20:00-22:01 | 22:01 -> accepted C1 117.23(c)(2)
        2 outside X27 C1 27: 12:00 | 13:00-15:00, 20:00-22:00 | 22:00 -> accepted
        exceedances -> 1 0 C1 117.23(c)(2) X27 0
    """],
    "four_weeks_of_outside_flying_hold_6000_minutes_of_flight": [flown_elsewhere(TWELVE_DAYS_OF_FLYING), """
        plan P30 29: 06:59 | 07:59-15:59 | 16:30
        1 assign P30 C1 -> 12 Limits C1 117.23(b)(1)
        plan P29 29: 07:00 | 08:00-16:00 | 16:30
        2 assign P29 C1 -> accepted
    """],
    "a_minute_over_6000_is_recorded_of_outside_flying": [TWELVE_DAYS_OF_FLYING, """
        1 outside X29 C1 29: 06:59 | 07:59-15:59 | 16:30 -> accepted C1 117.23(b)(1)
        2 outside X29 C1 29: 07:00 | 08:00-16:00 | 16:30 -> accepted
    """],
    "a_minute_over_60000_is_recorded_of_outside_flying": [A_YEAR_PLANNED, A_YEAR_OF_FLYING, """
        1 outside X365 C1 day-365: 15:00 | 15:39-+1 00:30 | +1 01:00 -> accepted C1 117.23(b)(2)
        2 outside X365 C1 day-365: 15:00 | 15:40-+1 00:30 | +1 01:00 -> accepted
    """],
    # The report of the outside period on 16 June is one that keeps its thirty hours.
    "an_outside_period_keeps_its_thirty_hours_before_it": [flown_elsewhere(FIVE_GROUND_DUTIES), """
        plan P902 15: 00:00 | 01:00-07:00 | 08:00
        1 assign P902 C1 -> 12 Limits C1 117.25(b)
        plan P903 15: 00:00 | 01:00-05:00 | 06:00
        2 assign P903 C1 -> accepted
    """],
    # Recorded late, behind a period that is planned already: what is named is the outside period, and not the one that lacks its rest.
    "outside_flying_that_is_recorded_late_takes_the_rest_of_a_later_period": [FIVE_GROUND_DUTIES, """
        1 outside X1 C1 15: 00:00 | 01:00-07:00 | 08:00 -> accepted C1 117.25(b)
        2 train G6 14: 12:00-12:01 -> 12 Limits C1 117.25(b)
        3 outside X1 C1 15: 00:00 | 01:00-05:00 | 06:00 -> accepted
        exceedances -> 1 0 C1 117.25(b) X1 0
    """],
    # Into a week that holds 3,600 minutes, with a number below theirs. The 36 hours between P4 and P6 were the thirty free ones of PL. A
    # window from 11:00 on 1 June has no minute of PL.
    "outside_flying_is_recorded_into_a_week_that_was_flown": [A_LONG_PERIOD, """
        61 fly PL 1 8: 11:00 | 11:10-12:00 | 12:00 -> accepted
        7 outside X1 C1 5: 12:00 | 12:00-12:01 | 12:01 -> accepted C1 117.23(c)(1) C1 117.25(b)
        8 outside X1 C1 1: 11:00 | 11:00-11:01 | 11:01 -> accepted
        exceedances -> 7 0 C1 117.23(c)(1) X1 0 | 7 0 C1 117.25(b) X1 0 | 60 0 C1 117.23(c)(1) PL 1
        9 outside X1 F1 5: 12:00 | 12:00-12:01 | 12:01 -> 22 OutsideTaken
        9 outside X2 F1 5: 12:00 | 12:00-12:01 | 12:01 -> accepted
    """],
    # X1 begins an hour before P801, which so lacks its ten hours; X2 is at the same time as P801, and both have theirs.
    "outside_flying_may_overlap": [HELD, """
        1 outside X1 C1 10: 10:00 | 10:30-11:30 | 19:00 -> accepted C1 117.25(e)
        2 outside X1 C1 10: 11:00 | 12:00-19:30 | 20:00 -> accepted
        3 outside X2 C1 10: 11:00 | 12:00-19:30 | 20:00 -> accepted
        outsides -> X1 C1 | X2 C1
        exceedances -> 1 0 C1 117.25(e) X1 0
    """],
    # 720 minutes on each of five days, once for the book and once, at the same times, for another holder: they count once.
    "minutes_that_overlap_count_once": [FIVE_DAYS_OF_FLIGHT_DUTY, """
        1 outside X12 C1 12: 12:00 | 13:00-15:00, 21:00-+1 00:00 | +1 00:00 -> accepted
        2 outside X12 C1 12: 12:00 | 13:00-15:00, 21:00-+1 00:01 | +1 00:01 -> accepted C1 117.23(c)(1)
    """],
    "no_new_duty_is_at_the_time_of_outside_flying": [HELD_ELSEWHERE, """
        plan P1 10: 19:59 | 20:30-21:00 | 21:30
        1 assign P1 C1 -> 11 Overlap
        2 assign P1 C2 -> accepted
        3 train G1 10: 19:59-21:00 -> 11 Overlap
        4 train G1 10: 10:59-11:01 -> 11 Overlap
        5 train G1 10: 20:00-21:00 -> accepted
    """],
    # C1 flies for another holder in the night before P2.
    "a_swap_is_judged_with_outside_flying": ["""
        plan P1 10: 11:00 | 12:00-19:30 | 20:00
        assign P1 C1
        plan P2 12: 11:00 | 12:00-19:30 | 20:00
        assign P2 C2
        outside X1 C1 11: 20:00 | 21:00-+1 03:30 | +1 04:00
        1 swap P1 C1 P2 C2 -> 12 Limits C1 117.25(e)
        2 swap P2 C2 P1 C1 -> 12 Limits C1 117.25(e)
        3 outside X1 C1 11: 20:00 | 21:00-+1 00:30 | +1 01:00 -> accepted
        4 swap P1 C1 P2 C2 -> accepted
    """],
    # P1 is released half an hour late, which leaves F1 less than ten hours before X1.
    "an_actual_is_judged_with_outside_flying": ["""
        plan P1 10: 11:00 | 12:00-18:30 | 19:00
        assign P1 C1
        assign P1 F1
        outside X1 F1 11: 05:30 | 06:00-08:00 | 08:30
        outside X2 C1 11: 05:31 | 06:00-08:00 | 08:30
        113 fly P1 1 10: 11:00 | 12:00-19:00 | 19:31 -> accepted F1 117.25(e)
        exceedances -> 113 0 F1 117.25(e) P1 1
    """],
    "outside_flying_is_of_a_member_who_is_there_and_of_one_alone": [HELD_ELSEWHERE, """
        1 outside X1 C9 10: 11:00 | 12:00-19:30 | 20:00 -> 2 NoSuchCrew
        2 outside X2 C9 10: 11:00 | 12:00-19:30 | 20:00 -> 2 NoSuchCrew
        3 outside X2 C2 10: 11:00 | 12:00-19:30 | 20:00 -> 22 OutsideTaken
        4 outside X2 F1 10: 11:00 | 12:00-19:30 | 20:00 -> 22 OutsideTaken
        4 outside X3 F1 10: 11:00 | 12:00-19:30 | 20:00 -> accepted
        4 outside X2 C2 10: 11:00 | 12:00-19:30 | 20:00 -> 1 NumberUsed
        outsides -> X2 C1 | X3 F1
    """],
    # An outside period may have the id of a pairing, a ground duty or a member; no command removes it.
    "ids_of_outside_periods_are_apart_from_others": [HELD, """
        train G1 12: 12:00-20:00
        1 outside P801 C1 20: 11:00 | 12:00-19:30 | 20:00 -> accepted
        2 outside G1 C1 22: 11:00 | 12:00-19:30 | 20:00 -> accepted
        3 outside C1 C1 24: 11:00 | 12:00-19:30 | 20:00 -> accepted
        4 release P801 C1 -> accepted
        5 cancel P801 -> accepted
        6 excuse G1 -> accepted
        7 cancel P801 -> 4 NoSuchPairing
        8 excuse G1 -> 15 NoSuchGround
        outsides -> C1 C1 | G1 C1 | P801 C1
        plan P1 25: 05:59 | 07:00-09:00 | 09:30
        9 assign P1 C1 -> 12 Limits C1 117.25(e)
    """],
}  # fmt: skip

# ---- Commands that are refused unseen: for texts outside their shapes, equal sides of a swap, counts, times and chains.


def hire(crew, name="Ada Ray"):
    """The JSON of hiring a captain whom no line can name."""
    return compact({"do": "add-crew", "crew": crew, "seat": "captain", "name": name})


def base(base, zone="UTC0"):
    """The JSON of a base that no line can name."""
    return compact({"do": "add-base", "base": base, "zone": zone})


def train(ground, crew, task):
    """The JSON of a ground duty that ends as it begins."""
    times = {"begin": "2025-06-10T12:00Z", "end": "2025-06-10T12:00Z"}
    return compact({"do": "add-ground", "ground": ground, "crew": crew, "task": task, **times})


def plan(counts):
    """The line of a pairing with a period a day, and this many flights of ten minutes in each."""
    flights = [", ".join(f"{hour:02}:00-{hour:02}:10" for hour in range(count)) for count in counts]
    return "plan P1 " + "; ".join(f"{day}: 00:00 | {its} | 23:00" for day, its in enumerate(flights, 1))


def outside(outside, crew, segments=1):
    """The JSON of an outside period that no line can name, of segments that end as they begin, and before its report."""
    times = {"report": "2025-06-10T12:00Z", "release": "2025-06-10T11:00Z"}
    blocks = [{"out": "2025-06-10T11:30Z", "in": "2025-06-10T11:30Z"}] * segments
    return compact({"do": "record-outside", "outside": outside, "crew": crew, **times, "segments": blocks})


SHAPES = {
    "ids_are_of_1_to_12_capitals_digits_and_dashes": [f"""
        1 {hire("A")} -> accepted
        2 {hire("P-20")} -> accepted
        3 {hire("ABCDEFGHIJKL")} -> accepted
        4 {hire("ABCDEFGHIJKLM")} -> 18 BadField crew
        5 {hire("")} -> 18 BadField crew
        6 {hire("c1")} -> 18 BadField crew
        7 {hire("C 1")} -> 18 BadField crew
    """],
    "ids_of_bases_too": [f"""
        1 {base("A")} -> accepted
        2 {base("ABCDEFGHIJ-2")} -> accepted
        3 {base("ABCDEFGHIJ-23")} -> 18 BadField base
        4 {base("")} -> 18 BadField base
        5 {base("den")} -> 18 BadField base
        6 {base("home")} -> 18 BadField base
        7 hire C9 captain den: Lee Roy -> 18 BadField base
        8 hire C9 captain home: Lee Roy -> 18 BadField base
        9 hire C9 captain ABCDEFGHIJ-2: Lee Roy -> accepted
    """],
    "ids_of_outside_periods_too": [f"""
        1 {outside("ABCDEFGHIJ-23", "C1")} -> 18 BadField outside
        2 {outside("", "C1")} -> 18 BadField outside
        3 {outside("x1", "C1")} -> 18 BadField outside
        4 {outside("X 1", "C1")} -> 18 BadField outside
        5 {outside("X1", "")} -> 18 BadField crew
        6 {outside("X1", "ABCDEFGHIJ-23")} -> 18 BadField crew
        7 outside ABCDEFGHIJ-2 C1 10: 11:00 | 12:00-19:30 | 20:00 -> accepted
        8 outside - C1 12: 11:00 | 12:00-19:30 | 20:00 -> accepted
    """],
    "names_are_of_1_to_60_bytes_without_control_bytes": [f"""
        1 {hire("N1", "Zoë Ray")} -> accepted
        2 {hire("N2", "N" * 60)} -> accepted
        3 {hire("N3", "N" * 61)} -> 18 BadField name
        4 {hire("N3", "ë" * 30)} -> accepted
        5 {hire("N4", "ë" * 31)} -> 18 BadField name
        6 {hire("N4", "")} -> 18 BadField name
        7 {hire("N4", "a" + chr(9) + "b")} -> 18 BadField name
        8 {hire("N4", chr(127))} -> 18 BadField name
    """],
    # The times of these plans are out of order, which is looked at later.
    "flights_are_of_1_to_8_capitals_and_digits": ["""
        1 plan P1 10: 11:00 | RB123456/BOS/IAD 10:00-10:10 | 11:00 -> 16 BadTimes 1
        2 plan P1 10: 11:00 | RB1234567/BOS/IAD 10:00-10:10 | 11:00 -> 18 BadField periods
        3 plan P1 10: 11:00 | RB-1/BOS/IAD 10:00-10:10 | 11:00 -> 18 BadField periods
        4 plan P1 10: 11:00 | rb1/BOS/IAD 10:00-10:10 | 11:00 -> 18 BadField periods
        5 plan P1 10: 11:00 | /BOS/IAD 10:00-10:10 | 11:00 -> 18 BadField periods
    """],
    "airports_are_of_3_or_4_capitals_and_digits": ["""
        1 plan P1 10: 11:00 | RB1/KBOS/IA4 10:00-10:10 | 11:00 -> 16 BadTimes 1
        2 plan P1 10: 11:00 | RB1/BO/IAD 10:00-10:10 | 11:00 -> 18 BadField periods
        3 plan P1 10: 11:00 | RB1/BOS/KIAD1 10:00-10:10 | 11:00 -> 18 BadField periods
        4 plan P1 10: 11:00 | RB1/BOS/iad 10:00-10:10 | 11:00 -> 18 BadField periods
        5 plan P1 10: 11:00 | RB1/BOS/ 10:00-10:10 | 11:00 -> 18 BadField periods
    """],
    "the_first_text_outside_its_shape_is_refused": [f"""
        1 {hire("c1", "")} -> 18 BadField crew
        2 {hire("C3", "")} -> 18 BadField name
        10 hire c3 captain den: Lee Roy -> 18 BadField crew
        11 {compact({**order("hire C3 captain den: -"), "name": ""})} -> 18 BadField name
        3 assign p1 c1 -> 18 BadField pairing
        4 assign P1 c1 -> 18 BadField crew
        5 release p1 c1 -> 18 BadField pairing
        6 release P1 c1 -> 18 BadField crew
        7 cancel p1 -> 18 BadField pairing
        8 fly p1 1 10: 11:00 | 12:00-18:00 | 20:00 -> 18 BadField pairing
        9 excuse g1 -> 18 BadField ground
        12 {outside("x1", "c1", 0)} -> 18 BadField outside
        13 {outside("X1", "c1", 0)} -> 18 BadField crew
    """],
    "a_ground_duty_has_its_shapes_and_begins_before_it_ends": [f"""
        1 {train("g1", "c1", "")} -> 18 BadField ground
        2 {train("G1", "c1", "")} -> 18 BadField crew
        3 {train("G1", "C1", "")} -> 18 BadField task
        4 {train("G1", "C1", "Sim")} -> 16 BadTimes 0
    """],
    # In the last of them the members are named as the pairings.
    "a_swap_is_refused_for_shapes_and_then_for_what_is_equal": ["""
        1 swap p1 c1 p1 c1 -> 18 BadField pairing
        2 swap P1 c1 p2 c1 -> 18 BadField crew
        3 swap P1 C1 p2 c2 -> 18 BadField other_pairing
        4 swap P1 C1 P2 c2 -> 18 BadField other_crew
        5 swap P1 C1 P1 c2 -> 18 BadField other_crew
        6 swap P1 C1 P1 C2 -> 18 BadField other_pairing
        7 swap P1 C1 P2 C1 -> 18 BadField other_crew
        8 swap P1 C1 P1 C1 -> 18 BadField other_pairing
        9 swap A1 A1 A2 A2 -> 2 NoSuchCrew
    """],
    "a_pairing_has_1_to_10_periods_of_1_to_12_flights": [f"""
        1 {plan([1] * 11)} -> 19 SegmentCount 0
        2 {plan([0])} -> 19 SegmentCount 1
        3 {plan([13])} -> 19 SegmentCount 1
        4 {plan([1, 12, 13, 0])} -> 19 SegmentCount 3
        5 {plan([1] * 9 + [0])} -> 19 SegmentCount 10
        6 {plan([12] * 10)} -> accepted
        planned {plan([12] * 10).removeprefix("plan ")} -> yes
    """],
    # Each time of a plan, or of an actual, moved past the next one.
    "the_times_of_a_period_are_in_order": ["""
        1 plan P1 10: 01:01 | 01:00-02:30, 03:20-04:50 | 05:00 -> 16 BadTimes 1
        2 plan P1 10: 00:00 | 02:30-02:30, 03:20-04:50 | 05:00 -> 16 BadTimes 1
        3 plan P1 10: 00:00 | 01:00-03:21, 03:20-04:50 | 05:00 -> 16 BadTimes 1
        4 plan P1 10: 00:00 | 01:00-02:30, 04:50-04:50 | 05:00 -> 16 BadTimes 1
        5 plan P1 10: 00:00 | 01:00-02:30, 03:20-04:50 | 04:49 -> 16 BadTimes 1
        6 fly P1 2 10: 01:01 | 01:00-02:30, 03:20-04:50 | 05:00 -> 16 BadTimes 2
        7 fly P1 2 10: 00:00 | 02:30-02:30, 03:20-04:50 | 05:00 -> 16 BadTimes 2
        8 fly P1 2 10: 00:00 | 01:00-03:21, 03:20-04:50 | 05:00 -> 16 BadTimes 2
        9 fly P1 2 10: 00:00 | 01:00-02:30, 04:50-04:50 | 05:00 -> 16 BadTimes 2
        10 fly P1 2 10: 00:00 | 01:00-02:30, 03:20-04:50 | 04:49 -> 16 BadTimes 2
        11 fly P1 2 10: 01:00 | 01:00-03:20, 03:20-05:00 | 05:00 -> 4 NoSuchPairing
        12 plan P1 10: 01:00 | 01:00-03:20, 03:20-05:00 | 05:00 -> accepted
    """],
    "an_actual_has_1_to_12_flights": [f"""
        1 fly P1 2 10: 00:40 |  | 00:10 -> 19 SegmentCount 2
        2 fly P1 2 10: 00:40 | {", ".join(["00:20-00:20"] * 13)} | 00:10 -> 19 SegmentCount 2
        3 fly P1 2 10: 00:40 | {", ".join(["00:20-00:20"] * 12)} | 00:10 -> 16 BadTimes 2
    """],
    "an_outside_period_has_1_to_12_flights": [f"""
        1 {outside("X1", "C9", 0)} -> 19 SegmentCount 0
        2 {outside("X1", "C9", 13)} -> 19 SegmentCount 0
        3 {outside("X1", "C9", 12)} -> 16 BadTimes 0
        4 outside X1 C1 1: 00:00 | {", ".join(f"{hour:02}:00-{hour:02}:10" for hour in range(12))} | 23:00 -> accepted
    """],
    # Each time of an outside period, moved past the next one.
    "the_times_of_an_outside_period_are_in_order": ["""
        1 outside X1 C1 10: 01:01 | 01:00-02:30, 03:20-04:50 | 05:00 -> 16 BadTimes 0
        2 outside X1 C1 10: 00:00 | 02:30-02:30, 03:20-04:50 | 05:00 -> 16 BadTimes 0
        3 outside X1 C1 10: 00:00 | 01:00-03:21, 03:20-04:50 | 05:00 -> 16 BadTimes 0
        4 outside X1 C1 10: 00:00 | 01:00-02:30, 04:50-04:50 | 05:00 -> 16 BadTimes 0
        5 outside X1 C1 10: 00:00 | 01:00-02:30, 03:20-04:50 | 04:49 -> 16 BadTimes 0
        6 outside X1 C9 10: 00:00 | 01:00-02:30, 03:20-04:50 | 04:49 -> 16 BadTimes 0
        7 outside X1 C1 10: 01:00 | 01:00-03:20, 03:20-05:00 | 05:00 -> accepted
        recorded X1 C1 10: 01:00 | 01:00-03:20, 03:20-05:00 | 05:00 -> yes
    """],
    "each_flight_departs_from_where_the_one_before_arrived": ["""
        1 plan P1 10: 11:00 | 12:00-13:00 | 13:00; 11: 11:00 | RB2/IAD/BOS 12:00-13:00, RB3/JFK/BOS 14:00-15:00 | 15:00 -> 17 BadChain 2
        2 plan P1 10: 11:00 | 12:00-13:00 | 13:00; 11: 11:00 | RB2/JFK/BOS 12:00-13:00 | 15:00 -> 17 BadChain 2
        3 plan P1 10: 11:00 | 12:00-13:00 | 13:00; 11: 11:00 | RB2/IAD/BOS 12:00-13:00, RB3/BOS/BOS 14:00-15:00 | 15:00 -> accepted
    """],
    # From one to the next what is named is mended, and all that comes later isn't.
    "shapes_come_before_counts_before_times_before_chains": ["""
        1 plan p1 -> 18 BadField pairing
        2 plan P1 10: 00:00 | rb1/BOS/IAD 00:10-00:20, RB1/JFK/BOS 00:30-00:40 | 00:39; 11: 00:00 |  | 00:39 -> 18 BadField periods
        3 plan P1 10: 00:00 | RB1/BOS/IAD 00:10-00:20, RB1/JFK/BOS 00:30-00:40 | 00:39; 11: 00:00 |  | 00:39 -> 19 SegmentCount 2
        4 plan P1 10: 00:00 | RB1/BOS/IAD 00:10-00:20, RB1/JFK/BOS 00:30-00:40 | 00:39 -> 16 BadTimes 1
        5 plan P1 10: 00:00 | RB1/BOS/IAD 00:10-00:20, RB1/JFK/BOS 00:30-00:40 | 00:40 -> 17 BadChain 1
    """],
}  # fmt: skip

CASES = {**ASSIGNMENTS, **FLOWN_PERIODS, **JUDGEMENT, **REQUESTS, **BASES, **OUTSIDE, **SHAPES}


@dataclass(frozen=True)
class Taken:
    """A book after some pages, and each line that was answered otherwise than it should be."""

    book: Book
    differences: tuple


def look(book, line):
    """What a line says of the tables of the book, or None where it is no such line."""
    word, _, rest = line.partition(" ")
    match word:
        case "seats":
            return " | ".join(book.seats()) or "none"
        case "bases":
            return " | ".join(book.bases()) or "none"
        case "members":
            return " | ".join(book.members()) or "none"
        case "exceedances":
            return " | ".join(book.exceedances()) or "none"
        case "planned":
            plan = order(f"plan {rest}")
            return "yes" if book.planned(plan["pairing"]) == plan["periods"] else "no"
        case "outsides":
            return " | ".join(book.outsides()) or "none"
        case "recorded":
            asked = order(f"outside {rest}")
            wanted = {name: asked[name] for name in ("crew", "report", "release", "segments")}
            return "yes" if book.recorded(asked["outside"]) == [wanted] else "no"
    return None


def kept(book):
    """The rows of each table, and then the bytes of the file, which reading the rows may have changed."""
    return book.tables(), book.file.read_bytes()


def checked(book, number, line):
    """How a command is answered when it is only checked, under a number."""
    tables, content = kept(book)
    words = told(book.check(number, order(line)))
    return words if (book.file.read_bytes(), book.tables()) == (content, tables) else f"{words}, and the book is changed"


def take_command(book, number, line):
    """How a command is answered under a number, where it is answered the same when it is checked before."""
    before = checked(book, number, line)
    found = book.ask(number, line)
    return found if before == found.replace("repeated", "accepted", 1) else f"{found}, but checked before: {before}"


def take_line(book, line):
    """How the line is answered otherwise than it should be, or None."""
    asked, _, wanted = line.partition(" -> ")
    number, _, command = asked.partition(" ")
    found = look(book, asked)
    if found is None:
        found = take_command(book, int(number), command) if number.isdigit() else take_command(book, book.take_number(), asked)
    wanted = " ".join(wanted.split()) or "accepted"
    return None if found == wanted else f"{asked}\n    wanted: {wanted}\n    told:   {found}"


def take_page(book, page):
    lines = [line.strip() for line in page.split("\n") if line.strip()]
    if lines[0] == "import":
        found = book.settle_all(lines[1:])
        return [] if found == "accepted" else [f"import\n    told:   {found}"]
    found = [take_line(book, line) for line in lines]
    return [it for it in found if it]


class Desk:
    """Takes pages on books in a folder. Cases that begin with the same pages share the book that these leave."""

    def __init__(self, room):
        self.taken = {(): Taken(Book.made(room), ())}

    def take(self, pages):
        """The book after these pages."""
        if pages not in self.taken:
            before = self.take(pages[:-1])
            book = before.book.copy()
            self.taken[pages] = Taken(book, (*before.differences, *take_page(book, pages[-1])))
        return self.taken[pages]


def main():
    names = sys.argv[1:] or list(CASES)
    for name in names:
        if name not in CASES:
            sys.exit(f"tests/answers.py: there is no case {name}")
    if not build():
        return 3
    failed = 0
    with tempfile.TemporaryDirectory(prefix="answers-") as room:
        desk = Desk(room)
        for name in names:
            try:
                differences = desk.take((MEMBERS, *CASES[name])).differences
            except sqlite3.Error as fault:
                differences = (f"its tables can't be read: {fault}",)
            for difference in differences:
                print(f"tests/answers.py: {name}: {difference}", file=sys.stderr)
            failed += bool(differences)
    print(f"{len(names) - failed} passed, {failed} failed")
    return 1 if failed else 0


if __name__ == "__main__":
    sys.exit(main())
