"""Mixed streams of lines, the same in every run: of three, two are of packing and one is of loans.

Every other one is mildly out of order, with some lines twice and with gaps; the others are nearly
in order, so that more is posted."""
import json

ELSEWHERE = ["MUSEUM-X", "LENDER-Y"]
CRATES = [f"C{n}" for n in range(1, 15)]
OBJECTS = ["2001.4.1", "2001.4.2", "L1999.7"]
THINGS = CRATES + OBJECTS
SETUP = (
    """station,PACK
station,GAL
place,S1,inside
place,S1-A,inside
place,S2,inside
place,MUSEUM-X,elsewhere
place,LENDER-Y,elsewhere
"""
    + "".join(f"box,{crate}\n" for crate in CRATES)
    + """own,2001.4.1,S1-A
own,2001.4.2,S1-A
lent,L1999.7
"""
)
LAST = 999999
DAYS = ["2024-05-01", "2024-05-02", "2024-05-31", "2024-06-01", "2024-06-30"]
OUT = {"loan": "LO2024.1"}
IN = {"loan": "LI2024.1"}
TERM = {"first": "2024-05-01", "last": "2024-05-31"}
DAY = {"day": "2024-05-02"}
# a loan out in a crate and a loan in, then one more loan out
STEPS = [
    {"kind": "agree", **OUT, "partner": "MUSEUM-X", "objects": OBJECTS[:2], **TERM},
    {"kind": "authorise", **OUT, "by": "Ann"},
    {"kind": "move", "thing": "2001.4.1", "place": "S1", **DAY},
    {"kind": "agree", **IN, "partner": "LENDER-Y", "objects": OBJECTS[2:], **TERM},
    {"kind": "pack", "thing": "2001.4.1", "container": "C1", **DAY},
    {"kind": "exit", "thing": "C1", **OUT, **DAY},
    {"kind": "move", "thing": "2001.4.2", "place": "S2", **DAY},
    {"kind": "authorise", **IN, "by": "Ann"},
    {"kind": "exit", "thing": "2001.4.2", **OUT, **DAY},
    {"kind": "receive", "thing": "L1999.7", **IN, "place": "S1", **DAY},
    {"kind": "return", "thing": "C1", **OUT, "place": "S2", **DAY},
    {"kind": "return", "thing": "2001.4.2", **OUT, "place": "S1", **DAY},
    {"kind": "exit", "thing": "L1999.7", **IN, **DAY},
    {"kind": "agree", "loan": "LO2024.2", "partner": "MUSEUM-X", "objects": OBJECTS[1:2], **TERM},
    {"kind": "authorise", "loan": "LO2024.2", "by": "Ann"},
    {"kind": "move", "thing": "C1", "place": "S1", **DAY},
]
KEYS = {
    "authorise": ["loan", "by"],
    "exit": ["thing", "loan", "day"],
    "return": ["thing", "loan", "place", "day"],
    "receive": ["thing", "loan", "place", "day"],
    "extend": ["loan", "last"],
    "move": ["thing", "place", "day"],
    "pack": ["thing", "container", "day"],
}
# what is wrong at each key
WRONG = ["", "c1", "2024-5-01", "LX2024.1", 1, None, ["S1"], ["2001.4.1"] * 257, "x" * 61]


class Draws:
    """Numbers that look drawn and are the same in every run."""

    def __init__(self, seed):
        self.state = seed * 2654435761 % 2**32

    def below(self, count):
        self.state = (self.state * 1103515245 + 12345) % 2**31
        return (self.state >> 8) % count

    def one_of(self, choices):
        return choices[self.below(len(choices))]


def placing(draws, rung):
    """A move or a pack, and whether it is a rung: half of them pack a crate into the one numbered
    before it."""
    choice = draws.below(12)
    thing = draws.one_of(CRATES + THINGS + OBJECTS * 3 + ["2009.1"])
    if choice < 6:
        words = {"kind": "pack", "thing": CRATES[rung], "container": CRATES[rung - 1]}
    elif choice < 9:
        into = draws.one_of(CRATES + CRATES[-2:] * 3 + ["C99", "2001.4.1"])
        words = {"kind": "pack", "thing": thing, "container": into}
    else:
        where = draws.one_of(["S1", "S1-A", "S2", "S1", "S2", "MUSEUM-X", "S9"])
        words = {"kind": "move", "thing": draws.one_of([thing, "C1", "C1", "C14"]), "place": where}
    return {**words, "day": "2024-05-01"}, choice < 6


def agreement(draws, loan):
    """Half of the agreements list what may stand there; the others anything, from nothing to two
    things."""
    objects = OBJECTS[2:] if loan.startswith("LI") else draws.one_of([OBJECTS[:1], OBJECTS[:2]])
    if draws.below(2) == 0:
        objects = [
            draws.one_of(OBJECTS + OBJECTS + ["C1", "2009.1"]) for _ in range(draws.below(3))
        ]
    partner = draws.one_of(["MUSEUM-X"] * 6 + ["LENDER-Y", "LENDER-Y", "S1", "S9"])
    last = draws.one_of(["2024-04-30", "2024-05-31", "2024-05-31", "2024-06-10"])
    return {
        "kind": "agree",
        "loan": loan,
        "partner": partner,
        "objects": objects,
        "first": "2024-05-01",
        "last": last,
    }


def of_a_loan(draws, step):
    """A message of a few loans over the objects and two crates, and whether it is a step: a third
    are the next step."""
    if draws.below(3) == 0:
        return STEPS[step % len(STEPS)], True
    kind = draws.one_of(
        [
            "agree",
            "agree",
            "authorise",
            "exit",
            "exit",
            "exit",
            "return",
            "return",
            "receive",
            "extend",
            "move",
            "move",
            "pack",
            "pack",
        ]
    )
    loan = draws.one_of(["LO2024.1"] * 5 + ["LI2024.1"] * 4 + ["LO2024.2"] * 2 + ["LI2024.9"])
    if kind == "agree":
        return agreement(draws, draws.one_of([loan, "LO2024.2", "LO2024.3", "LI2024.2"])), False
    words = {
        "thing": draws.one_of(OBJECTS * 3 + ["L1999.7", "C1", "C1", "C2", "2009.1"]),
        "place": draws.one_of(["S1", "S2", "S1", "S2", "S1-A", "MUSEUM-X", "S9"]),
        "container": draws.one_of(["C1", "C1", "C2"]),
        "loan": loan,
        "by": "Ann",
        "day": draws.one_of(DAYS),
        "last": draws.one_of(DAYS + ["2024-07-31"]),
    }
    return {"kind": kind, **{key: words[key] for key in KEYS[kind]}}, False


def spoiled(draws, message):
    """The message with a key missing, or with something wrong there."""
    key = draws.one_of(list(message))
    rest = {other: value for other, value in message.items() if other != key}
    return rest if draws.below(2) == 0 else {**rest, key: draws.one_of(WRONG)}


def lines(seed):
    """Lines of two stations and of none, with questions and late sign-offs; of three streams one is
    of loans."""
    draws, said, next_number, rung = Draws(seed), [], {"PACK": 1, "GAL": 1, "NONE": 1}, 1
    calm, is_of_loans = seed % 2 == 0, seed % 3 == 0
    ahead = [0] * 30 + [1, -1] if calm else [0, 0, 0, 0, 0, 1, 2, -1, -2, 255, 256, 300]
    for i in range(150):
        station = draws.one_of(["PACK", "GAL", "GAL", "PACK", "GAL", "PACK", "GAL", "PACK", "NONE"])
        if draws.below(5) == 0:
            said.append(
                {
                    "station": station,
                    "ask": draws.one_of(THINGS + OBJECTS * 3 * is_of_loans + ["2009.1"]),
                }
            )
            continue
        n = next_number[station] + draws.one_of(ahead)
        if n == next_number[station] or not calm and draws.below(15) == 0:
            next_number[station] += 1
        if not calm and draws.below(40) == 0:
            n = draws.one_of([0, LAST, LAST + 1])
        message, is_next = of_a_loan(draws, rung - 1) if is_of_loans else placing(draws, rung)
        if i < 4:
            message = {"kind": "move", "thing": "C1", "place": "S1", "day": "2024-05-01"}
        elif i > 90 and draws.below(25) == 0:
            message = {"kind": "signoff", "by": "Ann"}
        elif is_next:
            rung = rung + 1 if is_of_loans else rung % (len(CRATES) - 1) + 1
        if is_of_loans and draws.below(10) == 0:
            said.append({"station": station, "n": max(n, 0), "message": spoiled(draws, message)})
        said.append({"station": station, "n": max(n, 0), "message": message})
    return said


def session(said):
    """The session of these lines: the setup, an empty line, and the lines."""
    return (SETUP + "\n" + "".join(json.dumps(line) + "\n" for line in said)).encode()
