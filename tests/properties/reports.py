"""The reports of the program are those of the plain program, on mixed streams, each with a count
list of its own."""
import json

from common.museum import MuseumRoom
from oracle import streams
from oracle.reports import (
    Record,
    history,
    long_history,
    long_objects,
    long_values,
    separated,
    table,
)

ROOM = MuseumRoom

PLACES = ["S1", "S1-A", "S2", *streams.ELSEWHERE, "S9"]
LOANS = "loan state partner first last objects awaiting out back on days_left authorised_by"
DUES = "loan object last stage partner"
LOCATIONS = "entry day place containers loan station n kind"
WHY = "entry station n kind verdict culprit cause"


def named(message):
    """The things that a message names."""
    return [message.get("thing"), message.get("container"), *message.get("objects", [])]


def json_lines(seed):
    return "".join(json.dumps(line) + "\n" for line in streams.lines(seed)).encode()


def count_rows(seed):
    """A count list: places and things, some of them unknown, some named twice."""
    draws = streams.Draws(seed)
    return [
        (
            draws.one_of(PLACES),
            draws.one_of([*streams.THINGS, *streams.OBJECTS * 3, "2009.1", None]),
        )
        for _ in range(12)
    ]


def asked(record, rows):
    """Each command's words, and what it has to print."""
    yield ["count", "list.csv"], record.counted(rows)
    yield ["count", "list.csv", "--sealed"], record.counted(rows, sealed=True)
    for number in {*range(1, len(record.posted) + 2, 3), *record.refused()}:
        yield ["why", str(number)], record.why(number)
    for number in {1, *record.refused()}:
        yield ["why", str(number), "--table"], table(WHY, record.why_values(number))
    yield ["away"], record.away()
    yield ["away", "--table"], table("object place normal", record.away_values())
    yield ["posted"], record.entries()
    yield ["posted", "--from", "3", "--to", "9"], record.entries()[2:9]
    yield ["posted", "--refused"], record.entries_by(lambda entry: entry.verdict != "Applied")
    for station in record.museum.stations:
        yield ["posted", "--station", station], record.entries_by(
            lambda entry: entry.station == station
        )
    for thing in ("C1", "2001.4.1"):
        yield ["posted", "--thing", thing], record.entries_by(
            lambda entry: thing in named(entry.message)
        )
    yield ["posted", "--loan", "LO2024.1"], record.entries_by(
        lambda entry: entry.message.get("loan") == "LO2024.1"
    )
    yield from asked_by_day(record)
    yield from asked_of_things(record)


def asked_by_day(record):
    """The same for the commands on loans."""
    for day in ("2024-05-31", "2024-06-01", "2024-07-01"):
        yield ["overdue", "--on", day], record.overdue(day)
        yield ["loans", "--on", day], record.loans(day, False)
        yield ["loans", "--open", "--on", day], record.loans(day, True)
        yield ["loans", "--csv", "--by", day], separated(LOANS, record.loan_values(day))
        yield ["loans", "--table", "--by", day], table(LOANS, record.loan_values(day))
        yield ["dues", "--by", day], record.dues(day)
        # These plain lines have a word for each value.
        yield ["dues", "--table", "--by", day], table(
            DUES, [line.split() for line in record.dues(day)]
        )


def asked_of_things(record):
    """The same for the commands on where things are."""
    for thing in ("C1", "C2", *streams.OBJECTS):
        locations = record.locations(thing)
        yield ["history", thing], history(locations)
        yield ["history", thing, "--long"], long_history(locations)
        yield ["history", "--long", thing, "--csv"], separated(LOCATIONS, long_values(locations))
        yield ["history", "--long", thing, "--table"], table(LOCATIONS, long_values(locations))
        yield ["history", thing, "--long", "--json"], long_objects(locations)
        yield ["history", thing, "--table"], table(
            "entry day place", [line.split() for line in history(locations)]
        )
    for sought in PLACES[:-1]:
        yield ["at", sought], record.at(sought)
    yield ["contents", "C1"], record.contents("C1")


def asked_then(record, rows, seed):
    """The same about the record as it was after an entry, which may be one that it doesn't have
    yet."""
    entry = seed % (len(record.posted) + 2)
    for words, wanted in asked(record.upto(entry), rows):
        yield [*words, "--upto", str(entry)], wanted


def is_same(room, number):
    """Whether the program prints what the plain one does, after the messages of a stream."""
    record, rows = Record.of(streams.SETUP, json_lines(number)), count_rows(number)
    room.write("list.csv", "".join(f"{at},{thing or ''}\n" for at, thing in rows))
    store = ["--setup", "setup.csv", "--store", f"{number}.db"]
    room.run("replay", *store, given=json_lines(number))
    for (command, *words), wanted in (*asked(record, rows), *asked_then(record, rows, number)):
        status, output, _ = room.run(command, *store, *words)
        if (status, output.splitlines()) != (0, wanted):
            print(f"stream {number}: {command} {words} differs")
            return False
    return True


def test_reports(room, rounds=20):
    """Each report, in each form, has the text that the definitions give the record, now and as it
    was after an entry."""
    room.write("setup.csv", streams.SETUP)
    return all([is_same(room, number) for number in room.numbers(rounds)])
