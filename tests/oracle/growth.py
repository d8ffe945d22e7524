"""Setups that grow, in the plain program: reading a file of new rows, its faults, what `grow`
prints, the rows of the table `setup`, and why a store isn't opened."""
import csv
import io
import itertools
import re
from collections import namedtuple

from oracle.book import is_container
from oracle.store import bound_refusal, entry_of, lines, may_follow, setup_rows, spots, terms
from oracle.text import NUMBER, OBJECT, Museum, is_place, is_text

MOST = {"station": 64, "place": 10_000, "thing": 100_000}
MOST_GROWTHS = 10_000
SIDES = {"inside": True, "elsewhere": False}
# the numbers of entries, places and things before a growth
Growth = namedtuple("Growth", "after places things")
Listed = namedtuple("Listed", "places things")
CODES = {
    "station": lambda text: is_text(text, "[A-Za-z0-9-]{1,16}"),
    "place": is_place,
    "box": lambda text: is_text(text, f"C{NUMBER}"),
    "own": lambda text: is_text(text, OBJECT),
    "lent": lambda text: is_text(text, f"L{OBJECT}"),
}
FIELDS = {"station": 2, "place": 3, "box": 2, "own": 3, "lent": 2}
GREW = re.compile("grew," + ",".join(3 * ["(0|[1-9][0-9]*)"]))


class Setup:
    """Stations, places with their side, things with their normal location (None for containers and
    borrowed objects), and growths, the newest first."""

    def __init__(self, stations=(), inside=(), things=(), growths=()):
        self.stations, self.inside, self.things = list(stations), dict(inside), dict(things)
        self.growths = list(growths)

    def copy(self):
        return Setup(self.stations, self.inside, self.things, self.growths)

    def museum(self):
        return Museum(self.stations, self.inside, list(self.things))

    def listed_now(self):
        return Listed(len(self.inside), len(self.things))

    def listed_at(self, posted):
        """How much was listed when so many entries had been posted: what the oldest growth since
        then found."""
        since = list(itertools.takewhile(lambda growth: growth.after > posted, self.growths))
        return Listed(since[-1].places, since[-1].things) if since else self.listed_now()

    def museum_at(self, posted):
        listed = self.listed_at(posted)
        inside, things = list(self.inside.items()), list(self.things)
        return Museum(self.stations, dict(inside[: listed.places]), things[: listed.things])

    def rows(self):
        """The rows of a setup file."""
        normal = {thing: place for thing, place in self.things.items() if place}
        return [row for _, row in setup_rows(self.museum(), normal)]

    def file(self):
        return "".join(f"{row}\n" for row in self.rows())

    def table(self):
        """The rows of the table `setup`."""
        grew = [f"grew,{it.after},{it.places},{it.things}" for it in self.growths]
        return list(enumerate([*self.rows(), *grew], 1))


# A file of new rows


def rows_of(file):
    """The rows of a file with their numbers, without empty fields at their end. An empty line isn't
    a row."""
    text = file.decode().removeprefix("\ufeff")
    for number, row in enumerate(filter(None, csv.reader(io.StringIO(text, newline=""))), 1):
        while row and not row[-1]:
            row.pop()
        if row:
            yield number, row


def item_of(row):
    """What a row lists: boxes, own and lent objects are things."""
    return row[0] if row[0] in MOST else "thing", row[1]


def row_fault(setup, above, row):
    """The first fault of a row, in the setup with the rows before it, of which those of the file
    list `above`."""
    kind, *fields = row
    if kind not in FIELDS:
        return "BadKind"
    if len(row) != FIELDS[kind] or kind == "place" and fields[1] not in SIDES:
        return "BadFields"
    if not CODES[kind](fields[0]) or kind == "own" and not is_place(fields[1]):
        return "BadCode"
    if item_of(row) in above:
        return "Repeated"
    if kind == "place" and setup.inside.get(fields[0], SIDES[fields[1]]) != SIDES[fields[1]]:
        return "OtherSide"
    if kind == "own" and fields[1] not in setup.inside:
        return "UnknownNormal"
    listed = {"station": setup.stations, "place": setup.inside}.get(kind, setup.things)
    is_full = len(listed) == MOST[kind if kind in MOST else "thing"]
    return "TooMany" if is_full and fields[0] not in listed else None


def take(setup, row):
    """Adds the item of a row, or gives an own object its normal location."""
    kind, code, *rest = row
    if kind == "station":
        setup.stations += [code] * (code not in setup.stations)
    elif kind == "place":
        setup.inside[code] = SIDES[rest[0]]
    else:
        setup.things[code] = rest[0] if rest else None


def further(setup, file):
    """The setup with the rows of a file, or None if it has faults, and these. A row with a fault is
    not taken."""
    after, above, faults = setup.copy(), set(), []
    try:
        rows = list(rows_of(file))
    except UnicodeDecodeError:
        return None, ["NotCsv"]
    for number, row in rows:
        fault = row_fault(after, above, row)
        if fault:
            faults.append(f"{fault} row {number}")
        else:
            take(after, row)
            above.add(item_of(row))
    return None if faults else after, faults


def grown(before, after, posted):
    """The setup after a growth, which came after so many entries."""
    growth = Growth(posted, *before.listed_now())
    return Setup(after.stations, after.inside, after.things, [growth, *before.growths])


# What `grow` prints


def counted(count, noun):
    return [f"{count} {noun}{'s' * (count != 1)}"] * (count > 0)


def growth_lines(before, after, posted):
    """The lines of a growth from one setup to the other, after these entries."""
    stations, places = len(before.stations), len(before.inside)
    rows = after.rows()
    things = len(after.stations) + len(after.inside)
    added = rows[stations : len(after.stations)] + rows[len(after.stations) + places : things]
    added += rows[things + len(before.things) :]
    moved = [
        (thing, place) for thing, place in before.things.items() if place != after.things[thing]
    ]
    if not added and not moved:
        return ["nothing to add"]
    counts = counted(len(after.inside) - places, "place") + counted(
        len(after.things) - len(before.things), "thing"
    )
    counts += counted(len(after.stations) - stations, "station") + counted(
        len(moved), "normal location"
    )
    return [
        *(f"+ {row}" for row in added),
        *(f"~ own,{thing},{after.things[thing]}  (was {place})" for thing, place in moved),
        f"grown after entry {len(posted)}: {', '.join(counts)}",
        *now_known(before, after, posted),
    ]


def now_known(before, after, posted):
    """The lines about entries that lacked something, if all of it is listed now and wasn't
    before."""
    numbers = {thing: number for number, thing in enumerate(before.things)}
    for k, entry in enumerate(posted):
        code = lacked(before, numbers, k, entry)
        if code and lists(after, entry, code) and not lists(before, entry, code):
            text = f"{entry.verdict} {code}: send it again under a new number"
            yield f"entry {k + 1} {entry.station} {entry.n} {text}"


def lists(setup, entry, code):
    """Whether the setup lists the code, and the other things that the entry names if it lacked a
    thing."""
    if entry.verdict == "UnknownThing":
        return all(thing in setup.things for thing in things_of(entry.message))
    return code in (setup.inside if entry.verdict == "UnknownPlace" else setup.things)


def things_of(message):
    return message.get("objects", [message.get("thing")])


def lacked(setup, numbers, k, entry):
    """The code that the entry after k others named and the setup lacked; an object is no container
    that it lacked."""
    message = entry.message
    if entry.verdict == "UnknownThing":
        listed = setup.listed_at(k).things
        return next(x for x in things_of(message) if numbers.get(x, listed) >= listed)
    if entry.verdict == "UnknownPlace":
        return message.get("place", message.get("partner"))
    is_lacked = entry.verdict == "UnknownContainer" and is_container(message["container"])
    return message["container"] if is_lacked else None


# Why a store isn't opened


def with_growths(setup, rows):
    """The setup with the growths among these rows of the table, in their order, or None if they
    don't fit."""
    found = [GREW.fullmatch(text) for _, text in sorted(rows)]
    growths = [Growth(*map(int, match.groups())) for match in found if match]
    growths = [growth for growth in growths if max(growth) < 2**32]
    later = [setup.listed_now(), *growths]
    fell = any(
        new.places < old.places or new.things < old.things for new, old in zip(later, growths)
    )
    if fell or len(growths) > MOST_GROWTHS:
        return None
    return Setup(setup.stations, setup.inside, setup.things, growths)


def own_setup(rows):
    """The setup that has exactly these rows of the table, or None."""
    plain = "".join(f"{text}\n" for _, text in sorted(rows) if not GREW.fullmatch(text))
    listed, _ = further(Setup(), plain.encode())
    full = with_growths(listed, rows) if listed else None
    return full if full and full.table() == sorted(rows) else None


def opening_refusal(setup, store):
    """Why a store with all its tables can't be opened with this setup file, or None."""
    full = with_growths(setup, store["setup"])
    refused = bound_refusal(store, full.table() if full else [])
    return refused or list_refusal(full, store)


def list_refusal(setup, store):
    """The first fault of the entries, and of posting them again, each under what was listed
    then."""
    entries = [
        entry_of(setup.museum(), i, row) for i, row in enumerate(sorted(store["posting"]), 1)
    ]
    if None in entries:
        return f"Damaged {entries.index(None) + 1}"
    if setup.growths and len(entries) < setup.growths[0].after:
        return "Damaged 0"
    for i, entry in enumerate(entries):
        if not may_follow(setup.museum_at(i), entries[:i], entry):
            return f"Damaged {i + 1}"
    wanted = rows_given(setup, entries)
    return (
        "Damaged 0"
        if any(sorted(store[table]) != sorted(rows) for table, rows in wanted.items())
        else None
    )


def rows_given(setup, entries):
    """The rows of spots, loan lines and last days that these entries give."""
    museum = setup.museum()
    return {"spot": spots(museum, entries), "line": lines(museum, entries), "term": terms(entries)}
