"""A store that a disk, a kill or damage has changed is refused by a named fault, or has a lawful
record."""
import os

from common.museum import AUTHORISE, LOAN, MUSEUM, NORMAL, MuseumRoom
from common.museum import agree, leave, move, pack, scans, to_and_fro
from common.obstacles import built, stops
from common.room import without_advice
from common.sqlite import read, settle
from oracle.store import refusal, setup_rows

ROOM = MuseumRoom

MOVES = {"PACK": to_and_fro(150), "GAL": to_and_fro(150, "C2", ("S2", "S1"))}


def opened(room, text):
    """A store of these bytes, and what an opening of it says."""
    room.clear()
    room.write("museum.db", text)
    return room.replay("")


def may_open(room):
    """Whether a stock SQLite reads rows in the store that are lawful: None where it can't read
    them."""
    try:
        rows, shapes, _ = read(room.store)
        return refusal(MUSEUM, setup_rows(MUSEUM, NORMAL), rows, shapes) is None
    except Exception:  # whatever another program meets in a damaged file
        return None


def test_damaged_file(room, rounds=60):
    """A store with some bytes changed is refused with a named fault, or its rows are lawful."""
    draws, text, opens = room.draws, room.made(LOAN), 0
    for _ in range(rounds):
        damaged = bytearray(text)
        for _ in range(draws.choice((1, 1, 1, 2, 8))):
            damaged[draws.randrange(len(text))] = draws.randrange(256)
        said = opened(room, bytes(damaged))
        if said == (0, "", ""):
            opens += 1
            if may_open(room) is False:
                print("opened, and the rows aren't lawful")
                return False
        elif said[0] != 1 or said[1] or not said[2].startswith("fault store "):
            print(f"{said}")
            return False
    print(f"{opens} of {rounds} opened")
    return True


def test_cut_file(room, rounds=60):
    """A store that is cut at some byte is refused with a named fault, or its rows are lawful."""
    draws, text = room.draws, room.made(LOAN)
    for _ in range(rounds):
        said = opened(room, text[: draws.randrange(1, len(text))])
        if said[0] not in (0, 1) or said[1] or (said[0] == 1) != said[2].startswith("fault store "):
            print(f"{said}")
            return False
        if said[0] == 0 and may_open(room) is False:
            print("opened, and the rows aren't lawful")
            return False
    return True


def record(room):
    """How many entries each station has on record, where these are the first of its feed and
    nothing is half there."""
    if not os.path.exists(room.store):
        return {"PACK": 0, "GAL": 0}
    ran = room.run(*room.words("posted"))
    posted = without_advice(ran)
    # a run that is killed while it begins a store may leave the store's first name, too
    if " has no record yet" in ran[2] or " has a second name" in ran[2]:
        return {"PACK": 0, "GAL": 0}
    if posted[0] != 0:
        print(f"{posted}")
        return None
    counts = {"PACK": 0, "GAL": 0}
    for line in posted[1].splitlines():
        _, station, number, verdict, _ = line.split(" ", 4)
        counts[station] += 1
        if int(number) != counts[station] or verdict != "Applied":
            print(f"{line}")
            return None
    return counts


def test_serve_killed(room, rounds=60):
    """A serving that is killed at a random moment leaves the first messages of each feed on record;
    served again, it posts the rest."""
    feeds = [room.write(f"{station}.jsonl", scans(messages)) for station, messages in MOVES.items()]
    words = [*room.words("serve"), *feeds]
    stopped = 0
    for _ in range(rounds):
        room.clear()
        stopped += room.killed(room.draws.uniform(0, 0.04), *words)
        kept = record(room)
        _, log, errors = room.run(*words)
        for station, messages in MOVES.items():
            wanted = ["refused Double"] * (kept or {}).get(station, 0)
            wanted += ["posted"] * (len(messages) - len(wanted))
            lines = [line.split(" ", 2)[2] for line in log.splitlines() if line.startswith(station)]
            own = [it if it == "refused Double" else it.split(" ")[0] for it in lines]
            if kept is None or own != wanted:
                print(f"{station}: {kept}, {lines[:3]} {errors}")
                return False
        settle(room.store)
        if not read(room.store)[2]:
            return False
    print(f"{stopped} of {rounds} were stopped before their end")
    return True


EXTEND = {"kind": "extend", "loan": "LO2024.1", "last": "2024-06-30"}
POSTINGS = [agree(["2001.4.1"]), move("C1", "S1"), pack("2001.4.1", "C1"), AUTHORISE, EXTEND]
POSTINGS.append(leave("2024-06-15"))


def replies(kept):
    """The replies to the postings, if so many of them are on record."""
    doubles = [f"PACK {n} refused Double\n" for n in range(1, kept + 1)]
    return doubles + [f"PACK {n} posted {n} Applied\n" for n in range(kept + 1, len(POSTINGS) + 1)]


def is_kept(room, count, ran):
    """Whether a replay whose disk stopped, over a store of so many postings, lost nothing; and how
    many it answered, and how many are on record."""
    status, output, errors = ran
    answered, again = output.splitlines(True), room.replay(scans(POSTINGS))
    kept = again[1].count(" refused Double\n")
    right = (
        answered == replies(count)[: len(answered)]
        and kept - max(len(answered), count) in (0, 1)
        and (status, errors) in ((0, ""), (1, "fault store Store\n"))
        and (status or kept == len(POSTINGS))
        and again == (0, "".join(replies(kept)), "")
        and read(room.store)[2]
    )
    return right, (len(answered), kept)


def stopped(room, library, count):
    """Whether no disk that stops, under a replay over a store of so many postings, loses one."""
    text, found, good = count and room.made(POSTINGS[:count]), set(), True

    def begin():
        room.clear()
        if text:
            room.write("museum.db", text)

    given = scans(POSTINGS)
    for at, ran in stops(room, library, begin, lambda env: room.replay(given, env=env)):
        right, numbers = is_kept(room, count, ran)
        found.add(numbers)
        if not right:
            print(f"{count}, {at}: {ran}, then {numbers}")
            good = False
    print(f"answered, and on record: {sorted(found)}")
    return good and {(0, count), (len(POSTINGS), len(POSTINGS))} <= found


def test_disk_stops(room):
    """A replay meets a log, or a database file, that stops at each call in turn: each answered
    message is on record, perhaps with one more, and the others can be posted."""
    library = built(room, "stop_disk.c")
    return all([stopped(room, library, count) for count in (0, 2)])
