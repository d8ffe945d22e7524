"""The feeds of four stations, served over and over, give logs that are merges of them, each whole.

In examples/moving-day told.txt has what each station is told, with # for the number of an entry,
and where.txt where each thing is at the end."""
import re

from common.room import ROOT, none_of, repository_text

FOLDER = f"{ROOT}/examples/moving-day"
POSTED = re.compile(r" posted (\d+) ")


def lines_of(name):
    return repository_text("examples", "moving-day", name).splitlines()


def cut(lines, station):
    """The lines of a station, without the numbers of entries."""
    return [POSTED.sub(" posted # ", line) for line in lines if line.startswith(station + " ")]


def differences(room, store):
    """What of a serving isn't as the example says."""
    record = ["--setup", f"{FOLDER}/museum.csv", "--store", store]
    stations = [row.split(",")[1] for row in lines_of("museum.csv") if row.startswith("station,")]
    feeds = [f"{FOLDER}/{name.lower()}.jsonl" for name in stations]
    log = room.printed("serve", *record, *feeds).splitlines()
    wanted = lines_of("told.txt")
    for station in stations:
        if cut(log, station) != cut(wanted, station):
            yield f"{station}: {cut(log, station)}"
    if len(log) != len(wanted):
        yield f"{len(log)} lines, not {len(wanted)}"
    entries = [int(number) for line in log for number in POSTED.findall(line)]
    if entries != list(range(1, len(entries) + 1)):
        yield f"entries {entries}"
    if len(room.printed("posted", *record).splitlines()) != len(entries):
        yield "another number of entries on record"
    for line in lines_of("where.txt"):
        if room.printed("where", *record, line.split(" ")[0]).splitlines() != [line]:
            yield f"not {line}"


def test_moving_day(room, rounds=50):
    """Each log, cut to a station, is what the station must be told, and its entries are numbered in
    order; the record has each thing where it must be."""
    return none_of(line for turn in range(rounds) for line in differences(room, f"{turn}.db"))
