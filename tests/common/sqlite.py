"""What a stock SQLite (Python's sqlite3) reads and changes in a store."""
import os
import shutil
import sqlite3


def read(store):
    """The rows of a store's tables, their columns, and whether SQLite finds them sound."""
    conn = sqlite3.connect(store)
    names = [
        name for (name,) in conn.execute("SELECT name FROM sqlite_master WHERE type = 'table'")
    ]
    rows = {name: [tuple(row) for row in conn.execute(f"SELECT * FROM {name}")] for name in names}
    shapes = {name: columns(conn, name) for name in names}
    sound = conn.execute("PRAGMA integrity_check").fetchall() == [("ok",)]
    strict = all(row[5] for row in conn.execute("PRAGMA table_list") if row[1] in names)
    conn.close()
    return rows, shapes, sound and strict


def columns(conn, table):
    """Each column of a table: name, type, NOT NULL, place in the primary key."""
    return [(row[1], row[2], row[3], row[5]) for row in conn.execute(f"PRAGMA table_info({table})")]


def read_copy(room):
    """The same of a copy of the room's store and its log, which stay as they are."""
    for end in ("", "-wal"):
        if os.path.exists(room.store + end):
            shutil.copyfile(room.store + end, room.path("alone.db" + end))
    try:
        return read(room.path("alone.db"))
    finally:
        room.remove("alone.db")


def settle(store):
    """Brings all that is committed into the one file."""
    conn = sqlite3.connect(store)
    conn.execute("PRAGMA wal_checkpoint(TRUNCATE)")
    conn.close()


def execute(store, statement, *values):
    """Executes a statement of another program on a store, and commits it."""
    conn = sqlite3.connect(store)
    try:
        with conn:
            conn.execute(statement, values)
    finally:
        conn.close()


def changed_by(room, text, statement):
    """Whether a statement of another program could change a store of these bytes, which is then the
    room's."""
    room.clear()
    room.write("museum.db", text)
    try:
        execute(room.store, *statement)
    except sqlite3.Error:
        return False
    settle(room.store)
    return True


def held(room):
    """The bytes of the store's file, and whether its log has a page: a log that was just begun has
    none."""
    log = room.store + "-wal"
    return room.read("museum.db"), os.path.exists(log) and os.path.getsize(log) >= 4096
