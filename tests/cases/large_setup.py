"""The largest setup has 64 stations, 10,000 places and 100,000 things; one more of each is
TooMany."""
import csv
import functools
import io

from common.museum import MuseumRoom
from common.sqlite import read

ROOM = MuseumRoom
STATIONS, PLACES, THINGS = 64, 10_000, 100_000
KINDS = ["box", "own", "lent"]


def station(number):
    return f"station,ST-{number}"


def place(number):
    return f"place,ROOM-{number},{'elsewhere' if number % 100 == 0 else 'inside'}"


def thing(number):
    """A crate, an own object at some place inside, or a borrowed object, in turn."""
    kind = KINDS[number % 3]
    return {
        "box": f"box,C{number}",
        "own": f"own,2001.{number},ROOM-{number % 99 + 1}",
        "lent": f"lent,L1999.{number}",
    }[kind]


@functools.cache
def rows(stations, places, things):
    counts = [(station, stations), (place, places), (thing, things)]
    return [row(number) for row, count in counts for number in range(1, count + 1)]


def lines_of_the_last():
    """The last station moves the last thing to the last place inside, and asks where it and the
    first thing are."""
    code = thing(THINGS).split(",")[1]
    moved = f'{{"kind":"move","thing":"{code}","place":"ROOM-{PLACES - 1}","day":"2024-05-01"}}'
    name = f"ST-{STATIONS}"
    lines = [
        f'{{"station":"{name}","n":1,"message":{moved}}}',
        f'{{"station":"{name}","ask":"{code}"}}',
    ]
    replies = f"{name} 1 posted 1 Applied\n{name} ask {code} at ROOM-{PLACES - 1}\n"
    return lines, replies


def replay(room, setup, lines):
    """What a session of a setup and lines says."""
    return room.run(given="\n".join([*setup, "", *lines]) + "\n")


def test_largest_setup(room):
    """The largest setup lists each code once, and the program answers for its last station, place
    and thing."""
    largest = rows(STATIONS, PLACES, THINGS)
    codes = {row[1] for row in csv.reader(io.StringIO("\n".join(largest)))}
    lines, replies = lines_of_the_last()
    return len(codes) == len(largest) and replay(room, largest, lines) == (0, replies, "")


def test_largest_setup_stored(room):
    """A store has each row of the largest setup, as a stock SQLite reads it."""
    largest = rows(STATIONS, PLACES, THINGS)
    room.write("setup.csv", "\n".join(largest) + "\n")
    room.replay()
    return read(room.store)[0]["setup"] == list(enumerate(largest, 1))


def test_one_more(room):
    """One station, place or thing more is TooMany, and the last thing twice is Repeated, with the
    number of the row."""
    largest = rows(STATIONS, PLACES, THINGS)
    lines, _ = lines_of_the_last()
    more = {
        station(STATIONS + 1): "TooMany",
        place(PLACES + 1): "TooMany",
        thing(THINGS + 1): "TooMany",
        largest[-1]: "Repeated",
    }
    wanted = {
        row: (1, "", f"fault setup {fault} row {len(largest) + 1}\n") for row, fault in more.items()
    }
    return all([replay(room, [*largest, row], lines) == wanted[row] for row in more])
