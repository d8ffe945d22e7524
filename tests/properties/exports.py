"""A stock SQLite (Python's sqlite3) and csvkit read the export of a record, and find what the plain
program has."""
import datetime
import os
import shutil
import sqlite3
import subprocess

from common.museum import MuseumRoom
from common.room import Skipped, same
from oracle import causes, streams
from oracle.book import agreement, applied, chain, crossing, last_day, objects_in
from oracle.book import targets
from oracle.reports import NORMAL, STILL_OUT, Record
from oracle.store import loans, own_text, spots
from properties.reports import json_lines

ROOM = MuseumRoom

COLUMNS = {
    "record": "entries day",
    "place": "code inside",
    "thing": "code kind normal place containers loan since",
    "loan": "code partner first last state",
    "loan_object": "loan thing stage out_entry back_entry",
    "message": "entry station n kind verdict cause text",
    "movement": "entry day thing place container station n",
    "overdue": "loan last",
    "away": "object place normal",
}
KINDS = {"C": "box", "L": "lent"}


def place_rows(record):
    """Each place, with its code without the last segment."""
    for code in record.museum.inside:
        yield code, code.rpartition("-")[0] or None


def thing_rows(record):
    """Each thing, with where it is, since when, and under which loan it is out."""
    things = record.museum.things
    since = {
        things[thing]: record.posted[entry - 1].message["day"]
        for thing, _, entry, _, _ in sorted(spots(record.museum, record.posted))
    }
    out = {
        thing: loan
        for loan in loans(record.posted)
        for thing, found in record.stages(loan)
        if found in STILL_OUT
    }
    for thing in things:
        inside = " ".join(chain(record.put, thing)) or None
        head = thing, KINDS.get(thing[0], "own"), NORMAL.get(thing), record.place(thing), inside
        yield *head, out.get(thing), since.get(thing)


def loan_rows(record):
    """Each loan, with its last day as extended."""
    for loan in loans(record.posted):
        terms = agreement(record.posted, loan)
        days = terms["first"], last_day(record.posted, loan)
        yield loan, terms["partner"], *days, record.state(loan)


def crossings(record, loan, thing):
    """The entries in which an object of a loan left or arrived, and went back."""
    found = {}
    for i, message in applied(record.posted):
        if crossing(message) and message["loan"] == loan:
            if thing in objects_in(record.museum, targets(record.posted[:i]), message["thing"]):
                found[crossing(message)[1] in STILL_OUT] = i + 1
    return found.get(True), found.get(False)


def object_rows(record):
    """The objects of each loan."""
    for loan in loans(record.posted):
        for thing, found in record.stages(loan):
            yield loan, thing, found, *crossings(record, loan, thing)


def message_rows(record):
    """Each entry, with what the report `why` says of it."""
    for number, entry in enumerate(record.posted, 1):
        kind, verdict, _, cause = causes.values(record.museum, record.posted, number)[3:]
        head = number, entry.station, entry.n, kind, verdict
        yield *head, cause or None, own_text(entry.message)


def movement_rows(record):
    """Each location of each thing, in the order of the entries."""
    things, places = record.museum.things, list(record.museum.inside)
    for thing, _, entry, at, _ in sorted(
        spots(record.museum, record.posted), key=lambda spot: (spot[2], spot[0])
    ):
        posted, above = record.posted[entry - 1], chain(targets(record.posted[:entry]), things[thing])
        where = things[thing], places[at], (above or [None])[0]
        yield entry, posted.message["day"], *where, posted.station, posted.n


def rows_of(record, day):
    """The rows of each table and view."""
    return {
        "record": [(len(record.posted), day)],
        "place": list(place_rows(record)),
        "thing": list(thing_rows(record)),
        "loan": list(loan_rows(record)),
        "loan_object": list(object_rows(record)),
        "message": list(message_rows(record)),
        "movement": list(movement_rows(record)),
        "overdue": [tuple(line.split()) for line in record.overdue(day)],
        "away": [tuple(it or None for it in values) for values in record.away_values()],
    }


def read(path):
    """The columns and the rows of each table and view of a database, and whether SQLite finds it
    sound."""
    conn = sqlite3.connect(path)
    found = {name: conn.execute(f"SELECT * FROM {name}") for name in COLUMNS}
    columns = {name: " ".join(it[0] for it in rows.description) for name, rows in found.items()}
    rows = {name: rows.fetchall() for name, rows in found.items()}
    sound = conn.execute("PRAGMA integrity_check").fetchall()
    conn.close()
    return columns, rows, sound


def in_order(rows):
    """The rows of each table in an order that doesn't depend on how they were read."""
    return {name: sorted(own, key=repr) for name, own in rows.items()}


def exported(room, *words):
    """Exports a record to flat.db. Returns the days between which the clock was."""
    room.remove("flat.db")
    days = [today()]
    printed = room.printed("export", *words, "--to", room.path("flat.db"))
    return printed, {*days, today()}


def today():
    return datetime.datetime.now(datetime.timezone.utc).date().isoformat()


def test_exports(room, rounds=20):
    """The tables and views of an export have the plain program's rows. Only the database is left,
    and its log isn't."""
    room.write("setup.csv", streams.SETUP)
    good = True
    for number in room.numbers(rounds):
        record, files = Record.of(streams.SETUP, json_lines(number)), ["setup.csv", f"{number}.db"]
        words = ["--setup", files[0], "--store", files[1]]
        room.run("replay", *words, given=json_lines(number))
        printed, days = exported(room, *words)
        count = len(record.posted)
        good &= same(printed, f"exported {count} {'entry' if count == 1 else 'entries'}\n")
        columns, rows, sound = read(room.path("flat.db"))
        day = rows["record"][0][1]
        good &= day in days
        good &= same((columns, sound), (COLUMNS, [("ok",)]))
        good &= same(in_order(rows), in_order(rows_of(record, day)))
        good &= not any(os.path.exists(room.path("flat.db" + end)) for end in ("-wal", ".part"))
    return good


def test_long_tables(room):
    """A table with more rows than a statement inserts has all of them, each once."""
    places = [f"S{n}" for n in range(1, 1002)]
    things = [f"2000.{n // 1000 + 1}.{n % 1000 + 1}" for n in range(501)]
    setup = ["station,GAL", *(f"place,{code},inside" for code in places)]
    room.write("setup.csv", "".join(f"{row}\n" for row in setup + [f"own,{it},S1" for it in things]))
    moved = [(n, "2024-05-01", things[n % 3], places[n], None, "GAL", n) for n in range(1, 1001)]
    lines = "".join(
        f'{{"station":"GAL","n":{n},"message":{{"kind":"move","thing":"{thing}",'
        f'"place":"{place}","day":"{day}"}}}}\n'
        for n, day, thing, place, *_ in moved
    )
    words = ["--setup", "setup.csv", "--store", "museum.db"]
    room.run("replay", *words, given=lines)
    good = same(exported(room, *words)[0], "exported 1000 entries\n")
    _, rows, sound = read(room.path("flat.db"))
    good &= same(sound, [("ok",)]) and same(rows["movement"], moved)
    good &= same([code for code, _ in rows["place"]], places)
    good &= same([row[0] for row in rows["thing"]], things)
    message = [(n, "GAL", n, "move", "Applied") for n in range(1, 1001)]
    return good & same([row[:5] for row in rows["message"]], message)


def test_overdue(room):
    """The view `overdue` goes by the day of the table `record`, which a reader can change."""
    room.write("setup.csv", streams.SETUP)
    words = ["--setup", "setup.csv", "--store", "museum.db"]
    good, met = True, False
    for number in range(12):
        record = Record.of(streams.SETUP, json_lines(number))
        room.clear()
        room.write("setup.csv", streams.SETUP)
        room.run("replay", *words, given=json_lines(number))
        exported(room, *words)
        conn = sqlite3.connect(room.path("flat.db"))
        for day in streams.DAYS:
            conn.execute("UPDATE record SET day = ?", (day,))
            found = [" ".join(row) for row in conn.execute("SELECT * FROM overdue")]
            good &= same(sorted(found), sorted(record.overdue(day)))
            met |= bool(found)
        conn.close()
    return good and met


def test_csvkit(room):
    """csvkit queries an export."""
    if not shutil.which("sql2csv"):
        raise Skipped("csvkit is not installed")
    room.write("setup.csv", streams.SETUP)
    words = ["--setup", "setup.csv", "--store", "museum.db"]
    room.run("replay", *words, given=json_lines(3))
    exported(room, *words)
    query = "SELECT code, place FROM thing WHERE place IS NOT NULL"
    ended = subprocess.run(
        ["sql2csv", "--db", f"sqlite:///{room.path('flat.db')}", "--query", query],
        capture_output=True,
        text=True,
        check=True,
    )
    record = Record.of(streams.SETUP, json_lines(3))
    placed = [f"{it},{record.place(it)}" for it in record.museum.things if record.place(it)]
    return same(ended.stdout.splitlines(), ["code,place", *placed])


def test_readers(room):
    """A program that may only read finds the tables, their columns and their keys, as Datasette asks
    for them."""
    room.write("setup.csv", streams.SETUP)
    words = ["--setup", "setup.csv", "--store", "museum.db"]
    room.run("replay", *words, given=json_lines(3))
    exported(room, *words)
    good = True
    for how in ("mode=ro", "immutable=1"):
        conn = sqlite3.connect(f"file:{room.path('flat.db')}?{how}", uri=True)
        found = conn.execute("SELECT name FROM sqlite_master WHERE type IN ('table', 'view')")
        good &= same(sorted(name for (name,) in found), sorted(COLUMNS))
        for name, columns in COLUMNS.items():
            shape = conn.execute(f"PRAGMA table_info([{name}])").fetchall()
            good &= same(" ".join(row[1] for row in shape), columns)
            good &= conn.execute(f"SELECT count(*) FROM [{name}]").fetchone()[0] >= 0
            good &= conn.execute(f"PRAGMA foreign_key_list([{name}])").fetchall() == []
        keys = {
            name: [row[1] for row in conn.execute(f"PRAGMA table_info([{name}])") if row[5]]
            for name in ("place", "thing", "loan", "loan_object", "message", "movement")
        }
        wanted = [["code"]] * 3 + [["loan", "thing"], ["entry"], ["entry", "thing"]]
        good &= same(list(keys.values()), wanted)
        conn.close()
    return good
