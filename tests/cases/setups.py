"""A setup with a fault is rejected with its first one, and a store has the rows of a setup without
any."""
from common.museum import SETUP, MuseumRoom
from common.sqlite import read

ROOM = MuseumRoom

# each fault's smallest example, and beside it the nearest right file
FILES = [
    (b"", "NoStation"),
    (b"place,S1,inside", "NoStation"),
    (b"station,GAL", None),
    (b"shelf,S1", "BadKind row 1"),
    (b",S1", "BadKind row 1"),
    (b"station,GAL\nplace,S1,here", "BadFields row 2"),
    (b"station,GAL\nplace,S1,inside", None),
    (b"station,GAL,x", "BadFields row 1"),
    (b"station", "BadFields row 1"),
    (b"box,C01", "BadCode row 1"),
    (b"station,GAL\nbox,C10", None),
    (b"station,GAL\nbox,L1999.7", "BadCode row 2"),
    (b"station,GAL\nlent,L1999.7", None),
    (b"station,a-name-of-sixteen", "BadCode row 1"),
    (b"station,name-of-sixteen-", None),
    (b"box,C1\nbox,C1", "Repeated row 2"),
    (b"box,C1\nbox,C2\nbox,C1", "Repeated row 3"),
    (b"station,GAL\nbox,C1\nbox,C2", None),
    (b"own,2001.4.1,S1", "UnknownNormal row 1"),
    (b"own,2001.4.1,S1\nplace,S1,inside", "UnknownNormal row 1"),
    (b"station,GAL\nplace,S1,inside\nown,2001.4.1,S1", None),
    # the first in order, and rows that are skipped but counted
    (b"place,s1,here", "BadFields row 1"),
    (b"place,S1,inside\nown,2001.4.1,S1\nown,2001.4.1,S9", "Repeated row 3"),
    (b"station,GAL\n,,\n\nbox,C01", "BadCode row 3"),
    (b"station,GAL\n,,\n\nbox,C1", None),
    # bytes: UTF-8, a byte order mark, carriage returns, empty fields at the end of a row
    (b"\xFF", "NotCsv"),
    (b"station,\xC3", "NotCsv"),
    (b"station,\xC3\xA9", "BadCode row 1"),
    (b"\xEF\xBB\xBFstation,GAL,,\r\nbox,C1,,\r\n", None),
    (b"\xEF\xBB\xBF\xEF\xBB\xBFstation,GAL", "BadKind row 1"),
]
ROWS = [
    "station,PACK",
    "station,GAL",
    "place,S1,inside",
    "place,S1-A,inside",
    "place,S2,inside",
    "place,MUSEUM-X,elsewhere",
    "place,LENDER-Y,elsewhere",
    "box,C1",
    "box,C2",
    "own,2001.4.1,S1-A",
    "own,2001.4.2,S1-A",
    "own,2001.4.3,S1-A",
    "lent,L1999.7",
]
# rows that don't stand in the order of their numbers, and then do
MIXED = "box,C1\nplace,S1,inside\nstation,GAL\nown,2001.4.1,S1\nplace,M,elsewhere\n"
MIXED_ROWS = ["station,GAL", "place,S1,inside", "place,M,elsewhere", "box,C1", "own,2001.4.1,S1"]


def given(room, setup):
    """What a replay of no lines onto a new store says of a setup."""
    room.clear()
    room.write("given.csv", setup)
    return room.replay(setup="given.csv")


def is_told(room, setup, fault):
    """Whether a setup has this fault, or none."""
    ran = given(room, setup)
    good = ran == ((0, "", "") if fault is None else (1, "", f"fault setup {fault}\n"))
    if not good:
        print(f"{setup}: {ran}, not {fault}")
    return good


def test_setup_faults(room):
    """The smallest example of each fault of a setup has that fault, with its row, and the nearest
    right file has none."""
    return all([is_told(room, setup, fault) for setup, fault in FILES])


def is_kept(room, setup, rows):
    """Whether a new store has these rows of a setup, from 1."""
    ran = given(room, setup)
    kept = read(room.store)[0]["setup"]
    good = ran == (0, "", "") and kept == list(enumerate(rows, 1))
    if not good:
        print(f"{ran}, {kept}")
    return good


def test_setup_row_text(room):
    """A store has each row of the setup, in the order of the numbers: stations, then places, then
    things."""
    return all([is_kept(room, SETUP, ROWS), is_kept(room, MIXED, MIXED_ROWS)])
