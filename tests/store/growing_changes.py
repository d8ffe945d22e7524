"""A store whose growths another program changed, or that has lost entries, is refused by the fault
that the definitions give."""
import itertools
import sqlite3

from common.growing import MORE, asks, grows, prints, story
from common.museum import MuseumRoom
from common.room import same, without_advice
from common.sqlite import changed_by, read
from oracle.growth import Setup, further, list_refusal, opening_refusal, own_setup, rows_given
from oracle.store import TABLES

ROOM = MuseumRoom

CELLS = [
    "0",
    "-1",
    "x",
    "",
    "+{}",
    "0{}",
    " {}",
    "{}.0",
    "4294967295",
    "4294967296",
    "1" + "0" * 30,
]


def changed_texts(row):
    """The texts of a growth's row with one cell changed, with more or fewer cells, and of other
    rows."""
    _, *cells = row.split(",")
    for i, cell in enumerate(cells):
        near = [str(int(cell) + step) for step in (-9, -3, -2, -1, 1, 2, 3, 9)]
        for value in dict.fromkeys(near + [value.format(cell) for value in CELLS]):
            if value != cell:
                yield ",".join(["grew", *cells[:i], value, *cells[i + 1 :]])
    yield from (
        f"{row},",
        f"{row},0",
        row.rsplit(",", 1)[0],
        row.title(),
        f"{row}\nbox,C9",
        "grew",
        "box,C9",
    )


def changes(rows):
    """Each way in which another program changes the growths of a table: statements, which run one
    after the other."""
    write, delete = "UPDATE setup SET txt = ? WHERE id = ?", "DELETE FROM setup WHERE id = ?"
    plain = [row for _, row in rows if not row.startswith("grew,")]
    first, last, growths = len(plain) + 1, len(rows), [row for _, row in rows[len(plain) :]]
    up = [("UPDATE setup SET id = id + 1 WHERE id = ?", key) for key in range(last, first - 1, -1)]
    down = [
        ("UPDATE setup SET id = id - 1 WHERE id = ?", key) for key in range(first + 1, last + 1)
    ]
    for key, row in enumerate(growths, first):
        yield from ([(write, other, key)] for other in changed_texts(row))
        # without the row, with a gap in the numbers and without one
        yield [(delete, key)]
        yield [(delete, key), *down[key - first :]]
    yield [("DELETE FROM setup WHERE id >= ?", first)]
    for order in itertools.permutations(growths):
        yield [(write, row, key) for key, row in enumerate(order, first)]
    for row in (*growths, "grew,0,0,0", "grew,0,1,1", "grew,5,5,13", "grew,99,5,13"):
        # behind the others, and in front of them
        yield [("INSERT INTO setup VALUES (?, ?)", last + 1, row)]
        yield [*up, ("INSERT INTO setup VALUES (?, ?)", first, row)]
    # a growth among the plain rows
    yield [(write, growths[0], first - 1), (write, plain[-1], first)]
    yield [(write, plain[-1], last), (write, growths[-1], first - 1)]


def test_changed_growths(room):
    """A store with a changed growth is refused for what the plain program finds, or it has the
    record that it had."""
    bytes_of, record = story(room)
    if bytes_of is None:
        return False
    setup, opened, tried = further(Setup(), record.setup.file().encode())[0], 0, 0
    for statements in changes(record.setup.table()):
        if not all(
            [
                changed_by(room, bytes_of, statements[0]),
                *(changed(room, it) for it in statements[1:]),
            ]
        ):
            continue
        rows, tried = read(room.store)[0], tried + 1
        fault = opening_refusal(setup, rows)
        opened += fault is None
        if not is_refused(room, record, fault, rows):
            print(f"{statements}")
            return False
    print(f"{tried} changes, {opened} without effect on a verdict")
    return tried > 100 and opened > 5


def changed(room, statement):
    """The same as `changed_by` on the store as it is."""
    return changed_by(room, room.read("museum.db"), statement)


def is_refused(room, record, fault, rows):
    """Whether each command finds this fault or none. `grow` and `setup` take the list from the
    store."""
    own = own_setup(rows["setup"])
    good = same(without_advice(asks(room, "posted")), refused(fault) or (0, record.entries(), ""))
    own_fault = list_refusal(own, rows) if own else "Damaged 0"
    good &= same(without_advice(prints(room)), (0, own.file(), "") if own else refused("Damaged 0"))
    status, output, errors = without_advice(grows(room, MORE, "--check"))
    good &= same(
        (status, "" if own_fault is None else output, errors), refused(own_fault) or (0, "", "")
    )
    return good and same(read(room.store)[0]["setup"], rows["setup"])


def refused(fault):
    """The end of a run with this fault, or None."""
    return (1, "", f"fault store {fault}\n") if fault else None


def test_cut_below_a_growth(room):
    """A store with fewer entries than its newest growth found is Damaged 0; one with as many
    opens."""
    bytes_of, record = story(room)
    if bytes_of is None:
        return False
    good, entries, after = True, record.rows(), record.setup.growths[0].after
    for count in range(len(entries) + 1):
        room.write("museum.db", bytes_of)
        keep(room, record, entries[:count])
        for ran in (asks(room, "stations"), grows(room, MORE, "--check")):
            good &= same(
                (count, without_advice(ran) == refused("Damaged 0")), (count, count < after)
            )
    return good


def keep(room, record, entries):
    """Leaves only these first entries in the store, and the rows that they give."""
    conn = sqlite3.connect(room.store)
    with conn:
        conn.execute("DELETE FROM posting WHERE id > ?", (len(entries),))
        for table, rows in rows_given(record.setup, entries).items():
            conn.execute(f"DELETE FROM {table}")
            conn.executemany(
                f"INSERT INTO {table} VALUES ({', '.join('?' * len(TABLES[table]))})", rows
            )
    conn.close()
