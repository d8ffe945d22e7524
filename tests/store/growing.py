"""A setup grows by the files that people save, and is refused by name where it can't."""
import os
import sqlite3
import subprocess

from common.growing import MORE, asks, file_of, grows, lists, prints, story
from common.museum import SETUP, MuseumRoom
from common.room import DAMAGED, same, without_advice
from common.sqlite import changed_by, read, settle
from store.migration import make

ROOM = MuseumRoom

NO_STORE = (
    "fault store Store\nhelp: museum.db does not exist: replay, serve and desk start a new record\n"
)
NO_RECORD = (
    1,
    "",
    "fault store Store\nhelp: museum.db has no record yet: replay, serve and desk start one\n",
)


NEW = ["place,S5,inside", "own,2001.4.9,S5", "station,DOOR", "lent,L2000.1", "box,C9"]
MOVED = "own,2001.4.1,S5"


def files_with(listed):
    """The same additions to this list, in each way in which people save a file."""
    new = [*NEW, MOVED]
    changed = [row.replace("2001.4.1,S1-A", "2001.4.1,S5") for row in listed]
    mixed = sorted(changed, key=lambda row: (not row.startswith("place,"), row[::-1]))
    quoted = [",".join(f'"{field}"' for field in row.split(",")) for row in new]
    return [
        file_of(new),
        file_of(new).removesuffix("\n"),
        file_of(new).replace("\n", "\r\n"),
        "\ufeff" + file_of(new),
        "\ufeff" + file_of(new).replace("\n", ",,\r\n"),
        file_of(quoted),
        file_of(new).replace("\n", "\n\n,,\n"),
        # the whole list, with what is new at its end or at its start, or in any order
        file_of(NEW[:1] + changed + NEW[1:]),
        file_of(NEW + changed),
        file_of(NEW[:1] + mixed + NEW[1:]),
    ]


def test_by_hand(room):
    """The same additions are read in each way in which people save a file, and by the variables and
    the short options."""
    bytes_of, record = story(room, 1)
    if bytes_of is None:
        return False
    listed, good = record.setup.rows(), True
    wanted = record.grow(file_of([*NEW, MOVED]).encode())
    for file in files_with(listed):
        room.clear()
        room.write("museum.db", bytes_of)
        good &= same((file, without_advice(grows(room, file))), (file, wanted))
        good &= same(lists(room), record.setup.file())
    room.write("museum.db", bytes_of)
    env = {**os.environ, "PAIRSALDER_STORE": "museum.db", "PAIRSALDER_SETUP": "new.csv"}
    good &= same(without_advice(room.run("grow", "--check", env=env)), wanted)
    good &= same(room.run("setup", env=env), (0, file_of(listed), ""))
    good &= same(without_advice(room.run("grow", "-s", "new.csv", "-d", "museum.db")), wanted)
    good &= same(room.run("setup", "-d", "museum.db"), (0, record.setup.file(), ""))
    return good and mixed_up(room)


def mixed_up(room):
    """The names of the file and the store in each other's place change neither."""
    before = read(room.store)
    run_mixed = room.run("grow", "--setup", "museum.db", "--store", "museum.csv")
    good = same(
        run_mixed, (1, "", "fault store Store\nhelp: museum.csv is not an SQLite database\n")
    )
    good &= same(room.read("museum.csv").decode(), prints(room)[1])
    return (
        good and same(read(room.store), before) and not os.path.exists(room.path("museum.csv-wal"))
    )


# Growths that are refused

OTHER_SIDE = "is on record as {}, which can't change: give the new place another code"
NOT_ABOVE = "'S9' is neither on record nor listed above: list a place before its objects"
TWICE = "is listed twice: delete one row"
NO_KIND = "is not station, place, box, own or lent"
REFUSED = [
    (
        "place,S9,inside\nplace,S1,elsewhere\n",
        "OtherSide row 2",
        "'S1' " + OTHER_SIDE.format("inside"),
    ),
    ("place,MUSEUM-X,inside\n", "OtherSide row 1", "'MUSEUM-X' " + OTHER_SIDE.format("elsewhere")),
    ("place,S9,inside\nplace,S9,elsewhere\n", "Repeated row 2", "'S9' " + TWICE),
    ("own,2001.4.1,S1\nown,2001.4.1,S2\n", "Repeated row 2", "'2001.4.1' " + TWICE),
    ("station,PACK\n\nstation,PACK\n", "Repeated row 2", "'PACK' " + TWICE),
    ("box,C9\nown,2001.4.1,S9\n", "UnknownNormal row 2", NOT_ABOVE),
    ("own,2009.1,S9\nplace,S9,inside\n", "UnknownNormal row 1", NOT_ABOVE),
    ("box,C9\n,,\n\nbox,C01\n", "BadCode row 3", "'C01' is not a container's code such as C17"),
    (
        "own,L1999.7,S9\n",
        "BadCode row 1",
        "'L1999.7' is not the number of an own object such as 2001.4.1",
    ),
    ("box,C9\nshelf,S9\n", "BadKind row 2", "'shelf' " + NO_KIND),
    ("grew,9,7,15\n", "BadKind row 1", "'grew' " + NO_KIND),
    ("box;C9\n", "BadKind row 1", f"'box;C9' {NO_KIND}; separate the fields by commas"),
    (
        "place,S9,here\n",
        "BadFields row 1",
        "'place', 'S9', 'here': write place,CODE,inside or place,CODE,elsewhere",
    ),
    (
        "place,S1\n",
        "BadFields row 1",
        "'place', 'S1': write place,CODE,inside or place,CODE,elsewhere",
    ),
    (
        file_of(f"station,S-{number}" for number in range(1, 63)),
        "TooMany row 62",
        "'S-62' exceeds the limit of 64 stations, 10000 places and 100000 things",
    ),
]
NO_OWN = "'L1999.7' is not the number of an own object such as 2001.4.1"
# a place and an object that the others name are in rows with faults, so they aren't listed
MANY_FAULTS = [
    (
        "place,S1,elsewhere\n\nown,L1999.7,S1\n",
        "OtherSide row 1",
        "'S1' " + OTHER_SIDE.format("inside"),
    ),
    ("shelf,S9\nplace,S7,inside\nown,2009.1,S9\n", "BadCode row 2", NO_OWN),
    (
        "own,2009.1,S7\nown,2009.1,S7\nbox,C9\nown,2009.2,S8\n",
        "BadKind row 3",
        "'shelf' " + NO_KIND,
    ),
    ("place,S8,inside\nplace,S7,elsewhere\n", "UnknownNormal row 5", NOT_ABOVE),
    ("", "Repeated row 7", "'2009.1' " + TWICE),
    ("", "UnknownNormal row 9", NOT_ABOVE.replace("S9", "S8")),
    ("", "Repeated row 11", "'S7' " + TWICE),
]
NO_TEXT = [
    b"\xff",
    b"box,C9\nstation,\xc3",
    "box,C9\n".encode("utf-16"),
    b"PK\3\4\x14\0\x06\0\x08\0\xe9",
]


def fault_lines(fault, why):
    """The lines of a fault in a row of the file."""
    return f"fault setup {fault}\nhelp: new.csv {fault.split(' ', 1)[1]}: {why}\n"


def test_refused_growths(room):
    """A growth that fails prints why and adds nothing; so does one with --check, or with nothing to
    add."""
    bytes_of, record = story(room)
    if bytes_of is None:
        return False
    runs = [(file.encode(), (1, "", fault_lines(fault, why))) for file, fault, why in REFUSED]
    texts, *faults = zip(*MANY_FAULTS)
    runs.append(("".join(texts).encode(), (1, "", "".join(map(fault_lines, *faults)))))
    encoded = "fault setup NotCsv\nhelp: new.csv is not UTF-8 text: save it as CSV in UTF-8\n"
    runs += [(file, (1, "", encoded)) for file in NO_TEXT]
    listed = record.setup.file().encode()
    runs += [
        (file, (0, "nothing to add\n", "")) for file in (b"", b"\n,,\n", b"station,PACK\n", listed)
    ]
    stored, good = read(room.store), True
    for file, wanted in runs:
        for more in ([], ["--check"]):
            good &= same((file, grows(room, file, *more)), (file, wanted))
        good &= same(record.grow(file), without_advice(wanted))
    good &= same(without_advice(grows(room, MORE, "--check")), record.grow(MORE, check=True))
    good &= same(prints(room), (0, record.setup.file(), "")) and same(read(room.store), stored)
    settle(room.store)
    good &= same(room.read("museum.db") == bytes_of, True)
    return good and other_faults(room, bytes_of, record)


def other_faults(room, bytes_of, record):
    """Files and stores that can't be read, and an output that can't be written."""
    store = ["--store", "museum.db"]
    missing = (1, "", "fault file\nhelp: none.csv does not exist\n")
    good = same(room.run("grow", "--setup", "none.csv", *store), missing)
    good &= same(
        room.run("grow", "--setup", ".", *store), (1, "", "fault file\nhelp: . is a folder\n")
    )
    room.clear()
    good &= same(room.run("grow", "--setup", "none.csv", *store), missing)
    for file in (MORE, b"shelf,S9\n"):
        good &= same(grows(room, file), (1, "", NO_STORE)) and same(prints(room), (1, "", NO_STORE))
    good &= not os.path.exists(room.store)
    room.write("museum.db", "")
    good &= same((grows(room, MORE), prints(room)), (NO_RECORD, NO_RECORD))
    for change, fault in (
        ("UPDATE posting SET verdict = 16 WHERE id = 3", "Damaged 3"),
        ("DELETE FROM spot WHERE thing = 2 AND k = 2", "Damaged 0"),
        ("UPDATE meta SET val = 9 WHERE name = 'version'", "OtherVersion"),
        ("DELETE FROM setup", "Damaged 0"),
        ("UPDATE setup SET txt = 'place,S1,here' WHERE txt = 'place,S1,inside'", "Damaged 0"),
    ):
        changed_by(room, bytes_of, (change,))
        stored = read(room.store)
        good &= same(
            (change, without_advice(grows(room, MORE))), (change, (1, "", f"fault store {fault}\n"))
        )
        good &= same(read(room.store), stored)
    return good and version_1(room) and full_output(room, bytes_of, record)


def version_1(room):
    """A store of version 1 prints its setup, and grows once it is migrated. It keeps its depth."""
    make(room)
    room.write("museum.csv", SETUP)
    good = same(without_advice(grows(room, MORE)), (1, "", "fault store OtherVersion\n"))
    good &= same(prints(room), (0, SETUP, ""))
    good &= same(asks(room, "migrate")[0], 0) and same(grows(room, MORE)[0], 0)
    return good and same(sorted(read(room.store)[0]["meta"]), [("depth", 8), ("version", 2)])


def full_output(room, bytes_of, record):
    """If the output can't be written, the setup has grown all the same."""
    room.clear()
    room.write("museum.db", bytes_of)
    room.write("new.csv", MORE)
    record.grow(MORE)
    good = True
    for words in (["grow", "--setup", "new.csv"], ["setup"]):
        with open("/dev/full", "w", encoding="ascii") as full:
            words = [room.program, *words, "--store", "museum.db"]
            ran = subprocess.run(
                words, cwd=room.folder, stdout=full, stderr=subprocess.PIPE, check=False
            )
        good &= same((ran.returncode, ran.stderr.splitlines()[0]), (1, b"fault write"))
    return good and same(prints(room), (0, record.setup.file(), ""))


TOO_MANY = "fault setup TooManyGrowths\nhelp: a setup can grow 10000 times: begin a new store\n"


def test_most_growths(room):
    """A setup grows 10,000 times, and not once more."""
    bytes_of, record = story(room, 1)
    if bytes_of is None:
        return False
    good, rows, listed, more = True, record.setup.rows(), record.setup.listed_now(), b"box,C9\n"
    ends = [
        (9_999, record.grow(more, check=True), 2),
        (
            10_000,
            (
                1,
                "",
                TOO_MANY,
            ),
            0,
        ),
        (10_001, (1, "", DAMAGED), 0),
    ]
    for count, wanted, added in ends:
        room.write("museum.db", bytes_of)
        conn = sqlite3.connect(room.store)
        with conn:
            grew = f"grew,0,{listed.places},{listed.things}"
            conn.executemany(
                "INSERT INTO setup VALUES (?, ?)",
                [(len(rows) + i, grew) for i in range(1, count + 1)],
            )
        conn.close()
        good &= same(grows(room, b""), wanted if count > 10_000 else (0, "nothing to add\n", ""))
        good &= same(asks(room, "stations")[0] == 0, count <= 10_000)
        good &= same(grows(room, more, "--check"), wanted) and same(grows(room, more), wanted)
        good &= same(len(read(room.store)[0]["setup"]), len(rows) + count + added)
    return good
