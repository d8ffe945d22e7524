"""The field at fault is shown, and what cannot be seen in it."""
from common.museum import CRATES, MuseumRoom
from common.room import same

ROOM = MuseumRoom
# a row of a setup with its fault and the line of help, behind the row of a station
ROWS = [
    ("shelf,S1", "BadKind", "'shelf' is not station, place, box, own or lent"),
    (
        "box;C1",
        "BadKind",
        "'box;C1' is not station, place, box, own or lent; separate the fields by commas",
    ),
    (
        "place,S1,here",
        "BadFields",
        "'place', 'S1', 'here': write place,CODE,inside or place,CODE,elsewhere",
    ),
    ("box,C01", "BadCode", "'C01' is not a container's code such as C17"),
    (
        "own,1987.12.1\u00a0,S9",
        "BadCode",
        "'1987.12.1\\u{a0}' is not the number of an own object such as 2001.4.1",
    ),
    (
        "own,1987\u201312,S9",
        "BadCode",
        "'1987\\u{2013}12' is not the number of an own object such as 2001.4.1",
    ),
    ("own,1987.12.1,S9 ", "BadCode", "'S9 ' is not a place's code such as S1 or S1-A"),
    (
        "lent,2001.1",
        "BadCode",
        "'2001.1' is not the number of a borrowed object such as L1999.7",
    ),
    (
        "station,MAIN DESK",
        "BadCode",
        "'MAIN DESK' is not a station's name: 1 to 16 of A-Z, a-z, 0-9 and -",
    ),
    (
        "place,B\u00dcRO,inside",
        "BadCode",
        "'B\u00dcRO' is not a place's code such as S1 or S1-A",
    ),
    (
        "own,1987.12.1,S9",
        "UnknownNormal",
        "'S9' is not listed above: list a place before its objects",
    ),
    ("station,A", "Repeated", "'A' is listed twice: delete one row"),
]
# a row of a count list, behind a place
LISTED = [
    ("S1,C1,x", "BadFields", "'S1', 'C1', 'x': write PLACE,THING or PLACE"),
    ("s1,C1", "BadCode", "'s1' is not a place's code such as S1 or S1-A"),
    (
        "S1;C1",
        "BadCode",
        "'S1;C1' is not a place's code such as S1 or S1-A; separate the fields by commas",
    ),
    ("S1,\ufeffC1", "BadCode", "'\\u{feff}C1' is not a thing's code such as 2001.4.1 or C17"),
]


def told(what, fault, text):
    """What a run says that rejects a file."""
    return 1, "", f"fault {what} {fault}\nhelp: wrong.csv{text}\n"


def test_setups(room):
    """The help names the field of a setup that is at fault, and what would be right."""
    good = True
    for row, fault, text in ROWS:
        room.write("wrong.csv", f"station,A\n{row}\n")
        wanted = told("setup", f"{fault} row 2", f" row 2: {text}")
        good &= same(room.run("replay", "--setup", "wrong.csv"), wanted)
    room.write("wrong.csv", b"station,\xff\n")
    wanted = told("setup", "NotCsv", " is not UTF-8 text: save it as CSV in UTF-8")
    return good and same(room.run("replay", "--setup", "wrong.csv"), wanted)


def test_lists(room):
    """The help names the field of a count list that is at fault, and what would be right."""
    words, good = ["count", "--setup", "setup.csv", "--store", "museum.db", "wrong.csv"], True
    room.made(CRATES)
    for row, fault, text in LISTED:
        room.write("wrong.csv", f"S1\n{row}\n")
        wanted = told("counts", f"{fault} row 2", f" row 2: {text}")
        good &= same(room.run(*words), wanted)
    room.remove("wrong.csv")
    return good and same(room.run(*words), (1, "", "fault file\nhelp: wrong.csv does not exist\n"))
