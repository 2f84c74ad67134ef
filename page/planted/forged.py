"""Forged reports of the pump: each is right but for what one would change to deceive, and the page must name the contradiction.

`first` is the line of the report at which it is named first, worked out by hand, and `says` are words that name it.
"""

from dataclasses import dataclass


@dataclass
class Forged:
    what: str
    changes: list  # the old bytes, and the new ones; the old ones stand once
    first: int
    says: list


CUT_STEPS = b"hyp 0\ncycle 2\nwhy upto 3\nwhy unreached LowFlow 2715000\nhyp 1\n"
LAST = b"round 6 7 5400000\n"
BEST = b"ranked 1 cost 2 robust 3/3 set FilterClogged\nat FilterClogged 2654000\nat WeakSuction 2714000\nat MotorStrain 3180000\n"
BEST += b"at LowFlow 2715000\nat MotorHot 3300000\nat LowLevel 4500000\n"
REST = b"ranked 2 cost 3 robust 3/4 set ValveStuck\nat ValveStuck 2714500\nat MotorStrain 3180000\nat HighPressure 2719500\nat LowFlow 2715000\n"
REST += b"at MotorHot 3300000\nat LowLevel 4500000\nranked 3 cost 4 robust 3/3 set MotorBearing\nat MotorBearing 2700000\nat MotorStrain 2705000\n"
REST += b"at LowFlow 2715000\nat MotorHot 3300000\nat LowLevel 4500000\n"
COUNTS = b"counts ranked 3 covered 6 rejected 2 open 0\n"
THIRD = b"ranked 3 cost 4 robust 1/3 set MotorBearing\nat MotorBearing 2700000\nat MotorStrain 2705000\nat LowFlow 2715000\n"
SECOND = b"ranked 2 cost 3 robust 1/4 set ValveStuck\nat ValveStuck 2714500\nat LowFlow 2715000\n"

FORGED = [
    Forged("the steps of a rejected set are cut out", [(CUT_STEPS, b"hyp 1\n")], 86, ["set 0 (-) is rejected, and no step of this round shows it"]),
    Forged(
        "a case of a refutation is cut out",
        [(b"hyp 4\ncycle 2\nwhy upto 3\nwhy unreached LowFlow 2715000\n", b"hyp 4\nsplit ormay LowFlow 0 2715000\n")],
        89, ["set 4 (LevelWiring) is rejected, and some case of its steps is left"],
    ),
    Forged(
        "a reason of a refutation is bent by an instant",
        [(b"why unreached LowFlow 2715000\nhyp 1", b"why unreached LowFlow 2714998\nhyp 1")],
        10, ["set 0 (-)", "it is no contradiction"],
    ),
    Forged(
        "the best set is cut out", [(LAST + BEST, LAST)], 183,
        ["set 1 (FilterClogged) and 1 more are neither ranked, open nor rejected", "3 sets that are ranked, and by its lines it has 2"],
    ),
    Forged(
        "the best set is cut out, and the counts are mended",
        [(LAST + BEST + REST + COUNTS, LAST + REST + COUNTS.replace(b"ranked 3 covered 6", b"ranked 2 covered 7"))],
        183, ["set 1 (FilterClogged) and 1 more are neither ranked, open nor rejected, and no part of it is ranked"],
    ),
    Forged(
        "a node is active before its cause", [(LAST + BEST, LAST + BEST.replace(b"WeakSuction 2714000", b"WeakSuction 2653000"))], 170,
        ["the history of FilterClogged does not fit", "WeakSuction is active at 0:44:13, and nothing had arrived over an edge by then"],
    ),
    Forged(
        "an activation is left out",
        [(LAST + BEST, LAST + BEST.replace(b"at LowLevel 4500000\n", b""))], 170,
        ["the history of FilterClogged does not fit", "LowLevel must be active by 1:25:15, and is not active"],
    ),
    Forged(
        "an activation is later than its alarm",
        [(LAST + BEST, LAST + BEST.replace(b"LowLevel 4500000", b"LowLevel 4500001"))], 170,
        ["the alarm of line 6 says that LowLevel was active by 1:15:00"],
    ),
    Forged("more alarms than there are", [(b"robust 1/4 set ValveStuck", b"robust 9/4 set ValveStuck")], 83,
           ["ValveStuck is said to have 9 of 4 alarms, and by the log it has 1 of 4"]),
    Forged("a cost that is not the sum of the rarities", [(b"ranked 1 cost 2 robust 1/3", b"ranked 1 cost 1 robust 1/3")], 79,
           ["the cost of FilterClogged is said to be 1, and its members cost 2"]),
    Forged("a wrong count", [(b"counts ranked 3 covered 6 rejected 2 open 0\nround 4", b"counts ranked 3 covered 7 rejected 1 open 0\nround 4")], 92,
           ["7 sets that are covered, and by its lines it has 6", "1 sets that are rejected, and by its lines it has 2"]),
    Forged("two sets change places", [(SECOND + THIRD, THIRD + SECOND)], 87, ["ValveStuck does not stand in the order"]),
    Forged("a round has the number of the one before", [(b"round 5 6 4500000", b"round 4 6 4500000")], 147, ["this is round 4, where round 5 is due"]),
    Forged("a set has the name of another", [(b"rejected 4 set LevelWiring", b"rejected 4 set ValveStuck,LevelWiring")], 91,
           ["set 4 is LevelWiring, and is said to be ValveStuck,LevelWiring"]),
    Forged("a set is rejected a second time", [(LAST + BEST + REST, LAST + BEST + REST + b"rejected 4 set LevelWiring\n")], 190,
           ["set 4 (LevelWiring) is rejected a second time"]),
    Forged("an open set without a spent budget", [(b"rejected 4 set LevelWiring\n", b"open 4 set LevelWiring\n"), (b"rejected 0 set -\nopen 4 set LevelWiring\n",
           b"open 4 set LevelWiring\nrejected 0 set -\n")], 90, ["set 4 (LevelWiring) is open, and has 0 splits in this round, where the budget is 1000"]),
    Forged("an early time of a round", [(b"round 4 4 3300000", b"round 4 4 3290000")], 93, ["round 4 is at 3290000, and line 4 at 3300000"]),
]  # fmt: skip
