"""A stock SQLite (Python's sqlite3) reads the store as docs/STORE.md describes it, and the program
finds what it changed."""
import os

from common.museum import CRATES, LOAN, MUSEUM, NORMAL, SETUP, MuseumRoom
from common.museum import ASK, move, pack, scan, scans
from common.obstacles import bound_by_rights
from common.sqlite import changed_by, execute, held, read, settle
from oracle.store import TABLES, Entry, lines, own_text, refusal, setup_rows, spots, terms

ROOM = MuseumRoom


def test_tables(room):
    """A store has the tables, columns and rows that docs/STORE.md describes."""
    room.made(LOAN)
    rows, shapes, sound = read(room.store)
    verdicts = ["Applied"] * len(LOAN)
    verdicts[5], verdicts[7], verdicts[9] = "NotAuthorised", "NotListed", "TermOver"
    posted = [
        Entry(0, n, message, verdict) for n, (message, verdict) in enumerate(zip(LOAN, verdicts), 1)
    ]
    return (
        sound
        and shapes == TABLES
        and sorted(rows["meta"]) == [("depth", 12), ("version", 2)]
        and rows["setup"] == setup_rows(MUSEUM, NORMAL)
        and [row[:4] for row in rows["posting"]]
        == [(n, 0, n, own_text(message)) for n, message in enumerate(LOAN, 1)]
        and [row[4] for row in rows["posting"]] == [0, 0, 0, 0, 0, 14, 0, 22, 0, 24, 0]
        and sorted(rows["spot"]) == spots(MUSEUM, posted)
        and sorted(rows["line"])
        == sorted(lines(MUSEUM, posted))
        == [("LO2024.1", 2, 1), ("LO2024.1", 3, 1)]
        and rows["term"] == terms(posted) == [("LO2024.1", 19874)]
    )


def test_many_counted(room):
    """Three thousand objects are counted, half of them at the other place; a list that is too long
    is TooMany."""
    places = SETUP[: SETUP.index("box,")]
    room.write("many.csv", places + "".join(f"own,2000.{k},S1\n" for k in range(1, 3001)))
    room.write("list.csv", "".join(f"S1,2000.{k}\n" for k in range(1, 3001)))
    room.write("long.csv", "S1\n" * 100001)
    room.clear()
    room.replay(
        scans([move(f"2000.{k}", "S1" if k % 2 else "S2") for k in range(1, 3001)]),
        setup="many.csv",
    )
    counted = room.command("count", "many.csv", room.path("list.csv"))
    wanted = "".join(f"row {k} {'Found' if k % 2 else 'Elsewhere S2'}\n" for k in range(1, 3001))
    return counted == (0, wanted, "") and room.command(
        "count", "many.csv", room.path("long.csv")
    ) == (
        1,
        "",
        "fault counts TooMany row 100001\n",
    )


def opens_as(room, text, statement, fault):
    changed_by(room, text, statement)
    return room.replay("") == ((0, "", "") if fault is None else (1, "", f"fault store {fault}\n"))


def test_damaged_cells(room):
    """A store that another program changed by one statement is refused with the fault of that
    change."""
    text = room.made(CRATES)
    rows = [
        ("SELECT 1", None),
        ("UPDATE posting SET verdict = 16 WHERE id = 3", "Damaged 3"),
        ("DELETE FROM posting WHERE id = 2", "Damaged 2"),
        ("UPDATE posting SET station = 5 WHERE id = 4", "Damaged 4"),
        ("UPDATE posting SET body = '{ ' || substr(body, 2) WHERE id = 1", "Damaged 1"),
        ("DELETE FROM spot WHERE thing = 2 AND k = 2", "Damaged 0"),
        ("DELETE FROM meta WHERE name = 'depth'", "Damaged 0"),
        ("UPDATE meta SET val = 9 WHERE name = 'version'", "OtherVersion"),
        ("UPDATE setup SET txt = 'place,S3,inside' WHERE id = 3", "OtherSetup"),
        ("UPDATE meta SET val = 9 WHERE name = 'depth'", "Damaged 0"),
        ("ALTER TABLE posting DROP COLUMN verdict", "Store"),
    ]
    return all(opens_as(room, text, (statement,), fault) for statement, fault in rows)


def test_wrong_term(room):
    """A last day that no message gave is Damaged."""
    return opens_as(room, room.made(LOAN), ("UPDATE term SET day = 19875",), "Damaged 0")


def test_depth_kept(room):
    """A store of depth 8 opens, and keeps it: nine crates in one another are too many."""
    room.write("deep.csv", SETUP + "".join(f"box,C{n}\n" for n in range(3, 11)))
    room.clear()
    stack = (
        [move("C1", "S1")]
        + [pack(f"C{n}", f"C{n - 1}") for n in range(2, 9)]
        + [pack("2001.4.1", "C8")]
    )
    room.replay(scans(stack), setup="deep.csv")
    settle(room.store)
    execute(room.store, "UPDATE meta SET val = 8 WHERE name = 'depth'")
    ran = room.replay(
        scan(10, pack("C9", "C8")) + scan(11, pack("2001.4.2", "C9")), setup="deep.csv"
    )
    settle(room.store)
    return (
        ran == (0, "PACK 10 posted 10 Applied\nPACK 11 posted 11 TooDeep\n", "")
        and ("depth", 8) in read(room.store)[0]["meta"]
    )


def other_values(value, column):
    """Values of the same type in place of one."""
    if isinstance(value, int):
        return [other for other in (value + 1, value - 1, 0, -1, 3, 26, 2**40) if other != value]
    return [value + " ", "x", "", value[:-1]] + (["version"] if column == "name" else [])


def statements(rows):
    """Each cell changed, each row deleted and doubled under a new key, each table emptied, dropped,
    given a column."""
    for table, columns in TABLES.items():
        names = [column[0] for column in columns]
        for row in rows[table]:
            here = " AND ".join(f"{name} = ?" for name in names)
            for i, name in enumerate(names):
                for value in other_values(row[i], name):
                    yield (f"UPDATE {table} SET {name} = ? WHERE {here}", value, *row)
            yield (f"DELETE FROM {table} WHERE {here}", *row)
            key = "zz" if isinstance(row[0], str) else 77
            doubled = (key, 1, 77, *row[3:]) if table == "posting" else (key, *row[1:])
            yield (f"INSERT INTO {table} VALUES ({', '.join('?' * len(row))})", *doubled)
        yield (f"DELETE FROM {table}",)
        yield (f"DROP TABLE {table}",)
        yield (f"ALTER TABLE {table} ADD COLUMN more INTEGER",)


def is_told(room, text, statement):
    """Whether an opening of the store that a foreign hand changed says what the definitions say,
    and changes nothing where it is refused."""
    if not changed_by(room, text, statement):
        return True
    rows, shapes, _ = read(room.store)
    settle(room.store)
    fault = refusal(MUSEUM, setup_rows(MUSEUM, NORMAL), rows, shapes)
    before = held(room)
    ran = room.replay("")
    if ran != ((0, "", "") if fault is None else (1, "", f"fault store {fault}\n")):
        print(f"{statement}: {ran}, not {fault}")
        return False
    if fault is None:
        return True
    # a new store is bound before its list is looked at
    if held(room) != before and rows.get("meta"):
        print(f"{statement}: a refused opening changed the store")
        return False
    return True


def test_foreign_hand(room):
    """Every cell, row and table of two stores is changed in turn by another program: the store is
    refused for what the definitions say, and then stays as it is."""
    good, tried = True, 0
    for messages in (CRATES, LOAN):
        text = room.made(messages)
        for statement in statements(read(room.store)[0]):
            tried += 1
            good = is_told(room, text, statement) and good
    print(f"{tried} changes")
    return good and tried > 500


def test_no_database(room):
    """A file without a database, a folder and a path in no folder are `fault store`."""
    room.clear()
    room.write("museum.db", b"x" * 100)
    as_file = room.replay("")
    kept = room.read("museum.db") == b"x" * 100
    room.clear()
    as_folder = room.replay("", store=room.folder)
    nowhere = room.replay("", store=room.path("none/museum.db"))
    return kept and all(
        ran == (1, "", "fault store Store\n") for ran in (as_file, as_folder, nowhere)
    )


def test_not_to_be_written(room):
    """A store that the user may not write is refused, and has its record afterwards."""
    room.made(CRATES)
    os.chmod(room.store, 0o444)
    refused = room.replay(scan(6, move("C1", "S1")), preexec_fn=bound_by_rights)
    os.chmod(room.store, 0o644)
    again = room.replay(scan(5, CRATES[4]) + ASK)
    return refused == (1, "", "fault store Store\n") and again[1].startswith(
        "PACK 5 refused Double\n"
    )


def test_together(room):
    """Two programs at once on one store end without a signal, and the store is sound. No promise
    covers them."""
    room.clear()
    room.replay(scans(CRATES))
    hubs = [room.begin(*room.words()) for _ in (1, 2)]
    for hub in hubs:
        hub.communicate("".join(scan(n, move("C1", "S1")) for n in range(6, 60)).encode())
    return all(hub.returncode in (0, 1) for hub in hubs) and read(room.store)[2]
