"""A record survives the way people handle files: copies, moves, mistyped paths, and other
programs."""
import os
import shutil
import sqlite3

from common.museum import CRATES, LOAN, SETUP, MuseumRoom
from common.museum import pack, scan, scans
from common.obstacles import bound_by_rights
from common.room import DAMAGED, same
from common.sqlite import execute, read

ROOM = MuseumRoom

# each command that asks a record, with what it needs beside a setup and a store
ASKING = {
    "count": ["list.csv"],
    "overdue": ["--on", "2026-01-01"],
    "away": [],
    "history": ["2001.4.1"],
    "where": ["2001.4.1"],
    "contents": ["C1"],
    "loan": ["LO2024.1"],
    "at": ["S1"],
    "stations": [],
    "posted": [],
    "loans": [],
    "dues": ["--by", "2026-01-01"],
    "why": ["1"],
    "seal": [],
    "receipt": ["1"],
    "page": [],
}
STATIONS = "PACK next 6\nGAL next 1\n"
MISSING = " does not exist: replay, serve and desk start a new record"
NO_RECORD = " has no record yet: replay, serve and desk start one"


def over(room, command, store, *more, **how):
    """What a command says over a store, which is named as a user in the folder would."""
    room.write("list.csv", "S1\n")
    return room.run(command, "--setup", "setup.csv", "--store", store, *more, **how)


def refused(path, help_line, fault="store Store"):
    return 1, "", f"fault {fault}\nhelp: {path}{help_line}\n"


def names(room):
    """The files of the folder and of those in it, with their bytes."""
    found = {}
    for folder, _, files in os.walk(room.folder):
        for name in files:
            with open(os.path.join(folder, name), "rb") as file:
                found[os.path.relpath(os.path.join(folder, name), room.folder)] = file.read()
    return found


def test_session(room):
    """A copied store has the record; a moved one is not started anew; a mistyped path is no empty
    record."""
    applied = "".join(f"PACK {n} posted {n} Applied\n" for n in range(1, 6))
    good = same(
        over(room, "replay", "a.db", given=scans(CRATES)), (0, applied, "note: new store a.db\n")
    )
    os.mkdir(room.path("usb"))
    shutil.copy(room.path("a.db"), room.path("usb"))
    good &= same(over(room, "stations", "usb/a.db"), (0, STATIONS, ""))
    os.rename(room.path("a.db"), room.path("b.db"))
    before = names(room)
    good &= same(over(room, "where", "a.db", "2001.4.1"), refused("a.db", MISSING))
    good &= same(over(room, "overdue", "a.bd", "--on", "2026-01-01"), refused("a.bd", MISSING))
    return (
        good
        and same(sorted(names(room)), sorted(before))
        and same(over(room, "stations", "b.db"), (0, STATIONS, ""))
    )


def test_asking_creates_nothing(room):
    """No command that asks begins a record, or touches a file that has none."""
    good = True
    for command, more in ASKING.items():
        over(room, command, "none.db", *more)
        before = names(room)
        good &= same(over(room, command, "none.db", *more), refused("none.db", MISSING))
        room.write("empty.db", "")
        good &= same(over(room, command, "empty.db", *more), refused("empty.db", NO_RECORD))
        os.remove(room.path("empty.db"))
        good &= same(names(room), before)
    good &= same(
        over(room, "migrate", "none.db"), refused("none.db", MISSING, "store OtherVersion")
    )
    for command in ("copy", "export"):
        good &= same(over(room, command, "none.db", "--to", "to.db"), refused("none.db", MISSING))
    return good and same(sorted(names(room)), ["list.csv", "setup.csv"])


def page_size(room):
    """The size of the pages of the store, from its header."""
    return int.from_bytes(room.read("museum.db")[16:18], "big")


def test_new_store(room):
    """A new store has pages of 2,048 bytes, and leaves no other file. If a killed start has left its
    page, or the file is there and empty, the store begins without a page of ours."""
    room.clear()
    room.replay(scans(CRATES[:2]))
    good = same((page_size(room), "museum.db.new" in names(room)), (2048, False))
    for name in ("museum.db", "museum.db.new"):
        room.clear()
        room.write(name, "")
        room.replay(scans(CRATES[:2]))
        good &= same((page_size(room), len(read(room.store)[0]["posting"])), (4096, 2))
        good &= same("museum.db.new" in names(room), name == "museum.db.new")
    return good


def test_log_without_its_database(room):
    """A log whose database file is missing is refused by every command, and stays as it is."""
    hub = room.begin(*room.words())
    hub.stdin.write(scans(CRATES).encode())
    for _ in CRATES:
        hub.stdout.readline()
    hub.kill()
    hub.communicate()
    shutil.copy(room.store, room.path("blank.db"))
    os.rename(room.store, room.path("kept"))
    over(room, "stations", "museum.db")
    before = names(room)
    help_line = " is missing, but its log museum.db-wal exists: restore museum.db"
    commands = {
        **ASKING,
        "replay": [],
        "migrate": [],
        "copy": ["--to", "to.db"],
        "export": ["--to", "to.db"],
        "serve": ["setup.csv", "setup.csv"],
    }
    good = len(before["museum.db-wal"]) > 4096
    for command, more in commands.items():
        good &= same(over(room, command, "museum.db", *more), refused("museum.db", help_line))
    good &= same(names(room), before)
    # the copied database file of a killed first run has no record: nobody takes it for an empty one
    good &= same(over(room, "stations", "blank.db"), refused("blank.db", NO_RECORD))
    os.rename(room.path("kept"), room.store)
    return good and same(over(room, "stations", "museum.db"), (0, STATIONS, ""))


def test_database_alone(room):
    """After each command the database file alone has the record, and there is no log."""
    room.clear()
    room.replay(scans(LOAN))
    wanted = read(room.store)
    good = wanted[2] and len(wanted[0]["posting"]) == len(LOAN)
    for command, more in {**ASKING, "replay": [], "migrate": []}.items():
        status, _, _ = over(room, command, "museum.db", *more)
        shutil.copy(room.store, room.path("alone.db"))
        good &= same((command, status, os.path.exists(room.store + "-wal")), (command, 0, False))
        good &= same(read(room.path("alone.db")), wanted)
        os.remove(room.path("alone.db"))
    # after a fault too
    good &= same(over(room, "replay", "museum.db")[0], 0)
    room.write("setup.csv", SETUP + "box,C3\n")
    wanted_help = " has another setup: print it with pairsalder setup --store museum.db"
    good &= same(
        over(room, "stations", "museum.db"), refused("museum.db", wanted_help, "store OtherSetup")
    )
    good &= not os.path.exists(room.store + "-wal")
    return good and same(read(room.store), wanted)


def test_held_messages(room):
    """Messages that are still held at the end are noted, and change neither the replies nor the
    status."""
    given = scan(3, CRATES[0]) + scan(2, CRATES[0], "GAL") + scan(5, CRATES[0], "GAL")
    replies = "PACK 3 held\nGAL 2 held\nGAL 5 held\n"
    notes = (
        "note: PACK: 1 message held, waiting for 1; it is not kept, send it again\n"
        "note: GAL: 2 messages held, waiting for 1; they are not kept, send them again\n"
    )
    good = same(room.run("replay", "--setup", "setup.csv", given=given), (0, replies, notes))
    good &= same(
        over(room, "replay", "museum.db", given=given),
        (0, replies, notes + "note: new store museum.db\n"),
    )
    room.write("pack.jsonl", scan(4, CRATES[0]))
    room.write("gal.jsonl", scan(1, CRATES[0], "GAL"))
    served = over(room, "serve", "museum.db", "pack.jsonl", "gal.jsonl")
    good &= same(sorted(served[1].splitlines()), ["GAL 1 posted 1 Applied", "PACK 4 held"])
    return good and same(served[2], notes.splitlines(True)[0])


def test_strict(room):
    """With --strict the replies stay, and the status is 1 if a line was bad or refused, or not
    applied."""
    applied, refusal, bad = scan(1, CRATES[0]), scan(1, CRATES[1]), "no JSON\n"
    not_applied, unknown = scan(2, pack("C1", "C1")), scan(1, CRATES[0], "NOWHERE")
    rows = [
        ("", 0),
        (applied, 0),
        (applied + '{"station":"PACK","ask":"C1"}\n', 0),
        (scan(9, CRATES[0]), 0),
    ]
    rows += [
        (applied + refusal, 1),
        (bad, 1),
        (applied + not_applied, 1),
        (unknown, 1),
        (applied + bad + scan(2, CRATES[1]), 1),
    ]
    words, good = ["replay", "--setup", "setup.csv"], True
    for given, status in rows:
        plain = room.run(*words, given=given)
        for more in (["--strict"], ["--strict", "--progress"]):
            good &= same(
                (*room.run(*words, *more, given=given)[:2], plain[0]), (status, plain[1], 0)
            )
    return good


def test_progress_is_stored(room):
    """With --progress the record is stored as without it."""
    status, replies, errors = over(room, "replay", "museum.db", "--progress", given=scans(CRATES))
    lines = errors.splitlines()
    good = (status, replies.count(" Applied\n"), lines[-1]) == (0, 5, "note: new store museum.db")
    good &= lines[-2].startswith("5 lines, 5 posted, 0 not applied, ")
    return good and same(over(room, "stations", "museum.db"), (0, STATIONS, ""))


def test_another_program(room):
    """A stock SQLite that has the store open, idle, reading or writing, is named, and nothing is
    changed."""
    in_use = refused("museum.db", " is in use by another program: wait for it to end, or close it")
    good = True
    for begin in (
        "SELECT count(*) FROM posting",
        "BEGIN; SELECT count(*) FROM posting",
        "BEGIN IMMEDIATE",
    ):
        room.clear()
        room.replay(scans(CRATES))
        other = sqlite3.connect(room.store, isolation_level=None)
        for statement in begin.split("; "):
            other.execute(statement).fetchall()
        for command, more in {
            **ASKING,
            "replay": [],
            "migrate": [],
            "copy": ["--to", "to.db"],
            "export": ["--to", "to.db"],
        }.items():
            # it doesn't wait for the other program, which doesn't end
            good &= same(over(room, command, "museum.db", *more), in_use)
        other.close()
        good &= same(over(room, "stations", "museum.db"), (0, STATIONS, ""))
    return good and not os.path.exists(room.path("to.db"))


def test_two_runs(room):
    """Of two runs on one store the second ends at once, and harms nothing."""
    room.clear()
    first = room.begin(*room.words())
    first.stdin.write(scans(CRATES[:2]).encode())
    first.stdout.readline()
    second = over(room, "replay", "museum.db", given=scans(CRATES))
    replies, _ = first.communicate("".join(scan(n, CRATES[n - 1]) for n in (3, 4, 5)).encode())
    good = same(
        second,
        refused("museum.db", " is in use by another program: wait for it to end, or close it"),
    )
    good &= same(replies.decode(), "".join(f"PACK {n} posted {n} Applied\n" for n in range(2, 6)))
    return good and same(over(room, "stations", "museum.db"), (0, STATIONS, ""))


def test_foreign_tables(room):
    """The help names a table, a view, an index or a trigger that no store has."""
    rows = [
        ("ANALYZE", "table sqlite_stat1"),
        ("CREATE TABLE x(a)", "table x"),
        ("CREATE VIEW v AS SELECT * FROM posting", "view v"),
        ("CREATE INDEX i ON posting(n)", "index i"),
        ("CREATE TRIGGER t AFTER INSERT ON posting BEGIN SELECT 1; END", "trigger t"),
    ]
    good = True
    for statement, what in rows:
        room.made(CRATES)
        execute(room.store, statement)
        wanted = refused(
            "museum.db", f" has the {what}, which does not belong in a store: delete it"
        )
        good &= same(over(room, "stations", "museum.db"), wanted)
    room.made(CRATES)
    execute(room.store, "DROP TABLE term")
    wanted = refused(
        "museum.db", " lacks a table, or has its tables in another order or with other columns"
    )
    return good and same(over(room, "stations", "museum.db"), wanted)


def test_causes(room):
    """The help names why a store cannot be opened: no folder, no database, damage, a second name,
    no permission."""
    room.made(CRATES)
    good = same(
        over(room, "replay", "none/museum.db"), refused("the folder none", " does not exist")
    )
    good &= same(over(room, "replay", "."), refused(".", " is not a file"))
    room.write("text.db", "no database\n" * 1000)
    good &= same(
        over(room, "stations", "text.db"), refused("text.db", " is not an SQLite database")
    )
    good &= not os.path.exists(room.path("text.db-wal"))
    os.link(room.store, room.path("second.db"))
    good &= same(
        over(room, "stations", "museum.db"),
        refused("museum.db", " has a second name: delete the hard link"),
    )
    os.remove(room.path("second.db"))
    room.write("cut.db", room.read("museum.db")[:-5000])
    damaged = " is damaged, or has a table that no store has: restore a copy"
    good &= same(over(room, "stations", "cut.db"), refused("cut.db", damaged))
    os.chmod(room.store, 0o444)
    rights = refused("you have no permission to write museum.db", "; reports need it too")
    return good and same(over(room, "stations", "museum.db", preexec_fn=bound_by_rights), rights)


def test_copy(room):
    """A copy is one file with the whole record, and never takes the place of a file."""
    room.clear()
    room.replay(scans(LOAN))
    before = read(room.store)
    os.mkdir(room.path("usb"))
    os.chmod(room.store, 0o640)
    good = same(
        over(room, "copy", "museum.db", "--to", "usb/m.db"),
        (0, f"copied {len(LOAN)} entries\n", ""),
    )
    good &= same(os.listdir(room.path("usb")), ["m.db"]) and same(
        read(room.path("usb/m.db")), before
    )
    good &= same(os.stat(room.path("usb/m.db")).st_mode & 0o777, 0o640)
    good &= same(over(room, "stations", "usb/m.db")[0], 0)
    exists = " already exists: choose another name"
    good &= same(
        over(room, "copy", "museum.db", "--to", "usb/m.db"), refused("usb/m.db", exists, "file")
    )
    good &= same(
        over(room, "copy", "museum.db", "--to", "museum.db"), refused("museum.db", exists, "file")
    )
    good &= same(over(room, "copy", "museum.db", "--to", "usb"), refused("usb", exists, "file"))
    room.write("usb/n.db-wal", "a log\n")
    good &= same(
        over(room, "copy", "museum.db", "--to", "usb/n.db"), refused("usb/n.db-wal", exists, "file")
    )
    gone = refused("the folder none", " does not exist", "file")
    good &= same(over(room, "copy", "museum.db", "--to", "none/m.db"), gone)
    # a damaged store is not copied
    execute(room.store, "UPDATE spot SET day = day + 1 WHERE k = 1")
    good &= same(over(room, "copy", "museum.db", "--to", "usb/o.db"), (1, "", DAMAGED))
    return good and same(sorted(os.listdir(room.path("usb"))), ["m.db", "n.db-wal"])
