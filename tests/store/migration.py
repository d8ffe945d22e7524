"""A store of version 1, which a stock SQLite makes, is migrated whole or stays as it is."""
import sqlite3

from common.museum import CRATES, LOAN, MUSEUM, NORMAL, MuseumRoom
from common.museum import agree, scan, to_and_fro
from common.obstacles import built, stops
from common.room import without_advice
from common.sqlite import held, read, read_copy, settle
from oracle.store import Entry, lines, own_text, setup_rows, spots, terms

ROOM = MuseumRoom

# the texts of the first five tables
FIRST = (
    "CREATE TABLE meta (name TEXT PRIMARY KEY, val INTEGER NOT NULL) STRICT",
    "CREATE TABLE setup (id INTEGER PRIMARY KEY, txt TEXT NOT NULL) STRICT",
    "CREATE TABLE posting (id INTEGER PRIMARY KEY, station INTEGER NOT NULL, "
    "n INTEGER NOT NULL, body TEXT NOT NULL, "
    "verdict INTEGER NOT NULL, UNIQUE (station, n)) STRICT",
    "CREATE TABLE spot (thing INTEGER, k INTEGER, entry INTEGER NOT NULL, "
    "place INTEGER NOT NULL, day INTEGER NOT NULL, "
    "PRIMARY KEY (thing, k)) STRICT",
    "CREATE TABLE line (loan TEXT, object INTEGER, stage INTEGER NOT NULL, "
    "PRIMARY KEY (loan, object)) STRICT",
)
VERDICTS = {"loan": [0, 0, 0, 0, 0, 14, 0, 22, 0, 24, 0], "crates": [0] * len(CRATES)}
NAMES = {0: "Applied", 14: "NotAuthorised", 22: "NotListed", 24: "TermOver"}


def posted(messages, verdicts):
    return [
        Entry(0, n, message, NAMES[verdict])
        for n, (message, verdict) in enumerate(zip(messages, verdicts), 1)
    ]


def make(room, *changes, entries=posted(LOAN, VERDICTS["loan"])):
    """A store of version 1 of these entries, with what another program changes in it."""
    room.clear()
    numbers = {name: number for number, name in NAMES.items()}
    conn = sqlite3.connect(room.store)
    with conn:
        for text in FIRST:
            conn.execute(text)
        conn.executemany("INSERT INTO meta VALUES (?, ?)", [("version", 1), ("depth", 8)])
        conn.executemany("INSERT INTO setup VALUES (?, ?)", setup_rows(MUSEUM, NORMAL))
        rows = [
            (i, e.station, e.n, own_text(e.message), numbers[e.verdict])
            for i, e in enumerate(entries, 1)
        ]
        conn.executemany("INSERT INTO posting VALUES (?, ?, ?, ?, ?)", rows)
        conn.executemany("INSERT INTO spot VALUES (?, ?, ?, ?, ?)", spots(MUSEUM, entries))
        conn.executemany("INSERT INTO line VALUES (?, ?, ?)", lines(MUSEUM, entries))
        for change in changes:
            conn.execute(change)
    conn.close()
    settle(room.store)
    return read(room.store)[0]


def migrate(room):
    return room.command("migrate", "setup.csv")


def is_version_2(room, before, entries):
    """Whether the store is one of version 2 with what stood in it before, and the last days that
    its entries gave."""
    rows, shapes, sound = read(room.store)
    kept = all(
        sorted(rows[table]) == sorted(before[table])
        for table in ("setup", "posting", "spot", "line")
    )
    return (
        sound
        and kept
        and len(shapes) == 6
        and sorted(rows["meta"]) == [("depth", 8), ("version", 2)]
        and rows["term"] == terms(entries)
    )


def test_migrated_store(room):
    """No command opens a store of version 1; once it is migrated, each does, and the record goes
    on. A second migration changes nothing."""
    entries = posted(LOAN, VERDICTS["loan"])
    before = make(room)
    refused = [room.replay(""), room.command("stations", "setup.csv")]
    good = all(ran == (1, "", "fault store OtherVersion\n") for ran in refused)
    good = good and migrate(room) == (0, "migrated\n", "")
    settle(room.store)
    good = good and is_version_2(room, before, entries) and terms(entries) == [("LO2024.1", 19874)]
    bytes_before = held(room)[0]
    good = good and migrate(room) == (0, "migrated\n", "")
    settle(room.store)
    good = good and held(room)[0] == bytes_before
    loan = room.command("loan", "setup.csv", "LO2024.1")
    extend = {"kind": "extend", "loan": "LO2024.1", "last": "2024-06-30"}
    on = room.replay(scan(len(LOAN) + 1, extend))
    return (
        good
        and loan[0] == 0
        and "2024-05-31" in loan[1]
        and on[1] == f"PACK {len(LOAN) + 1} posted {len(LOAN) + 1} Applied\n"
    )


def test_no_loans(room):
    """A record without loans gets a table of last days without rows."""
    entries = posted(CRATES, VERDICTS["crates"])
    before = make(room, entries=entries)
    return (
        migrate(room) == (0, "migrated\n", "")
        and is_version_2(room, before, entries)
        and terms(entries) == []
    )


def test_migrate_refusals(room):
    """A store that can't be migrated is refused with a named fault, and stays as it is; so does one
    that says it is of version 2."""
    body = own_text({"kind": "extend", "loan": "LO2024.1", "last": "2024-06-30"})
    rows = [
        ("UPDATE meta SET val = 2 WHERE name = 'version'", None),
        ("UPDATE meta SET val = 3 WHERE name = 'version'", "OtherVersion"),
        ("DELETE FROM meta", "OtherVersion"),
        ("DELETE FROM meta WHERE name = 'version'", "Damaged 0"),
        ("UPDATE meta SET val = 12 WHERE name = 'depth'", "Damaged 0"),
        ("INSERT INTO meta VALUES ('more', 1)", "Damaged 0"),
        ("UPDATE setup SET txt = 'place,S3,inside' WHERE id = 3", "OtherSetup"),
        ("DELETE FROM setup WHERE id = 13", "OtherSetup"),
        ("UPDATE posting SET verdict = 25 WHERE id = 5", "Damaged 5"),
        (f"UPDATE posting SET body = '{body}' WHERE id = 6", "Damaged 6"),
        ("DELETE FROM posting WHERE id = 2", "Damaged 2"),
        ("UPDATE posting SET station = 5 WHERE id = 4", "Damaged 4"),
        ("DROP TABLE line", "Store"),
        ("ALTER TABLE posting ADD COLUMN more INTEGER", "Store"),
        ("CREATE TABLE other (x INTEGER)", "Store"),
    ]
    for change, fault in rows:
        before = make(room, change)
        kept = held(room)
        ran = migrate(room)
        settle(room.store)
        answer = (1, "", f"fault store {fault}\n") if fault else (0, "migrated\n", "")
        if ran != answer or held(room)[0] != kept[0] or read(room.store)[0] != before:
            print(f"{change}: {ran}, not {fault}")
            return False
    return True


def test_no_store(room):
    """A file that isn't there, one that has no database, and a setup that can't be read are named
    faults."""
    room.clear()
    new = migrate(room) == (1, "", "fault store OtherVersion\n")
    room.clear()
    room.write("museum.db", b"x" * 100)
    other = migrate(room) == (1, "", "fault store Store\n")
    room.write("bad.csv", "x\n")
    return (
        new
        and other
        and room.command("migrate", "bad.csv") == (1, "", "fault setup BadKind row 1\n")
    )


def test_migration_killed(room, rounds=60):
    """A migration that is killed at a random moment leaves version 1 whole or version 2 whole, and
    can be made again."""
    stopped = 0
    entries = posted(to_and_fro(200), [0] * 200)
    entries.append(Entry(0, 201, agree(["2001.4.1"]), "Applied"))
    before = make(room, entries=entries)
    text = room.read("museum.db")
    for _ in range(rounds):
        room.clear()
        room.write("museum.db", text)
        stopped += room.killed(room.draws.uniform(0, 0.02), *room.words("migrate"))
        rows, _, sound = read(room.store)
        whole = is_version_2(room, before, entries) if "term" in rows else rows == before
        if not (sound and whole and migrate(room)[0] == 0 and is_version_2(room, before, entries)):
            print(f"{sorted(rows)} {rows['meta']}")
            return False
        if room.replay("") != (0, "", ""):
            return False
    print(f"{stopped} of {rounds} were stopped before their end")
    return True


def test_disk_stops(room):
    """A migration whose log or database file stops at any call leaves version 1 whole or version 2
    whole, and can be made again."""
    entries = posted(LOAN, VERDICTS["loan"])
    before = make(room)
    text = room.read("museum.db")

    def begin():
        room.clear()
        room.write("museum.db", text)

    def run(env):
        return without_advice(room.run(*room.words("migrate"), env=env))

    good, found = True, set()
    for at, ran in stops(room, built(room, "stop_disk.c"), begin, run):
        rows, _, sound = read_copy(room)
        is_new = "term" in rows
        found.add((ran[0], is_new))
        again = migrate(room)
        right = (
            ran in ((0, "migrated\n", ""), (1, "", "fault store Store\n"))
            and sound
            and (is_new or (ran[0] and rows == before))
        )
        if not (
            right
            and again == (0, "migrated\n", "")
            and is_version_2(room, before, entries)
            and room.replay("") == (0, "", "")
        ):
            print(f"{at}: {ran}, {sound}, {is_new}, then {again}")
            good = False
    print(f"{sorted(found)}")
    return good and found >= {(1, False), (1, True)}
