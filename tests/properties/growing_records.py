"""Records whose setups grow are those of the plain program."""
import collections
import json

from common.growing import Record, asks, file_of, grows, lists
from common.museum import MuseumRoom
from common.room import same, without_advice
from common.sqlite import read
from oracle import causes, streams

ROOM = MuseumRoom

NEW = ["station,NONE", "place,S9,inside", "box,C99", "own,2009.1,S1"]
KINDS = ["station", "place", "box", "own", "lent"]
POOL = sorted(streams.SETUP.splitlines() + NEW, key=lambda row: KINDS.index(row.split(",")[0]))
WRONG = [
    "shelf,S1",
    "place,S1",
    "place,S1,elsewhere",
    "place,MUSEUM-X,inside",
    "box,C01",
    "own,2001.4.1,S77",
]
EVENTS = [
    "Applied",
    "UnknownThing",
    "UnknownPlace",
    "UnknownContainer",
    "UnknownStation",
    "OtherSide",
    "UnknownNormal",
    "BadKind",
    "BadFields",
    "BadCode",
    "Repeated",
    "nothing",
    "+",
    "~",
    "entry",
]


def with_normal(draws, row, places):
    """The row, in which an own object has one of these normal locations."""
    return row.rsplit(",", 1)[0] + f",{draws.one_of(places)}" if row.startswith("own,") else row


def first_file(draws):
    """Half of the rows, and what nearly each message needs."""
    rows = [
        "station,PACK",
        "station,GAL",
        "place,S1,inside",
        "box,C1",
        *(row for row in POOL if draws.below(2)),
    ]
    rows = sorted(dict.fromkeys(rows), key=POOL.index)
    places = [row.split(",")[1] for row in rows if row.startswith("place,")]
    return file_of(with_normal(draws, row, places) for row in rows).encode()


def new_file(draws, setup):
    """A file for a growth: some rows, in the order of their kinds or in any, and now and then two
    that are wrong or that it has twice."""
    rows = [row for row in POOL if draws.below(4) == 0]
    places = [*setup.inside, *(row.split(",")[1] for row in rows if row.startswith("place,"))]
    rows = [with_normal(draws, row, places) for row in rows]
    if draws.below(4) == 0:
        rows = [rows.pop(draws.below(len(rows))) for _ in range(len(rows))]
    for _ in range(2 * (draws.below(4) == 0)):
        rows.insert(draws.below(len(rows) + 1), draws.one_of([*WRONG, *rows]))
    file = file_of(rows)
    return draws.one_of([file, file, file.replace("\n", ",\r\n"), "\ufeff" + file]).encode()


def renumbered(record, lines):
    """The lines of messages and questions, each station's messages numbered from its next
    number."""
    sent = collections.Counter(entry.station for entry in record.posted)
    for line in lines:
        if "n" in line:
            sent[line["station"]] += line["station"] in record.setup.stations
            line = {**line, "n": sent[line["station"]]}
        yield json.dumps(line) + "\n"


def test_growing_records(room, rounds=20):
    """A record that grows now and then has the replies, the reports and the store that the
    definitions give."""
    seen, fixed = collections.Counter(), rounds * 4 // 5
    for number in [
        *range(1, fixed + 1),
        *(fixed + room.draws.randrange(1 << 32) for _ in range(rounds - fixed)),
    ]:
        if not grows_at_random(room, number, seen):
            print(f"record {number}")
            return False
    print(f"{', '.join(f'{event} {seen[event]}' for event in EVENTS)}")
    return same([event for event in EVENTS if not seen[event]], [])


def grows_at_random(room, number, seen):
    """Whether a record is the one of the plain program, after each growth."""
    draws, lines = streams.Draws(number), streams.lines(number)
    record, good = Record(first_file(draws)), True
    room.clear()
    room.write("museum.csv", record.setup.file())
    cuts = sorted(draws.below(len(lines)) for _ in range(2 + draws.below(4)))
    for turn, (begin, end) in enumerate(zip([0, *cuts], [*cuts, len(lines)])):
        if turn:
            file = new_file(draws, record.setup)
            wanted = record.grow(file)
            seen.update(line.split(" ")[0] for line in wanted[1].splitlines())
            seen.update(fault.split(" ")[2] for fault in wanted[2].splitlines())
            good &= same((file, without_advice(grows(room, file))), (file, wanted))
            good &= same(lists(room), record.setup.file())
        given = "".join(renumbered(record, lines[begin:end]))
        wanted = record.replay(given)
        seen.update(reply.split(" ")[-1] for reply in wanted.splitlines())
        good &= same(without_advice(asks(room, "replay", given=given)), (0, wanted, ""))
        good = good and is_record(room, record, draws)
    return good and same(read(room.store)[0]["setup"], record.setup.table())


def is_record(room, record, draws):
    """Whether the program gives the answers of the plain program."""
    things = [*streams.THINGS, "2009.1", "C99"]
    given = "".join(f'{{"station":"PACK","ask":"{thing}"}}\n' for thing in things)
    good = same(asks(room, "replay", given=given), (0, record.replay(given), ""))
    good &= same(asks(room, "posted"), (0, record.entries(), ""))
    thing = draws.one_of(things)
    good &= same(asks(room, "where", thing), (0, record.where(thing), ""))
    unknown = [k for k, entry in enumerate(record.posted) if entry.verdict in EVENTS[1:4]]
    for k in [draws.one_of(unknown)] if unknown else []:
        why = causes.why(record.setup.museum_at(k), record.posted, k + 1)
        good &= same(asks(room, "why", str(k + 1)), (0, why + "\n", ""))
    return good
