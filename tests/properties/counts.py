"""The counts of the program are those of the plain program, on museums, records and count lists
that are drawn."""
import os
import subprocess
from collections import Counter

from common.museum import MuseumRoom, scans
from common.room import Failed, without_advice
from oracle import counts
from oracle.streams import Draws

ROOM = MuseumRoom

EVENTS = [
    "UnknownPlace",
    "Counted",
    "UnknownObject",
    "Again",
    "Unplaced",
    "Found",
    "Elsewhere",
    "missing",
    "NotCsv",
    "BadFields",
    "BadCode",
]


def count(room, lines):
    """What the program says to the list."""
    room.clear()
    room.replay(lines)
    return room.command("count", "setup.csv", "list.csv")


def count_by_peer(room, peer, lines):
    """What the plain program of bench/peer says: without a fault its error text is the time that it
    took."""
    session = room.read("setup.csv") + b"\n" + lines.encode()
    ran = subprocess.run(
        [peer, "list.csv"], input=session, cwd=room.folder, capture_output=True, check=False
    )
    errors = ran.stderr.decode() if ran.returncode else ""
    return without_advice((ran.returncode, ran.stdout.decode(), errors))


def test_counts(room, rounds=30, peer=""):
    """Each row of a count list has the answer that the definitions give, and what it misses is
    named."""
    seen, numbers = Counter(), room.numbers(rounds)
    for number in numbers:
        draws = Draws(number)
        head = counts.setup(draws)
        lines, text = scans(counts.messages(draws), "GAL"), counts.count_list(draws)
        room.write("setup.csv", head)
        room.write("list.csv", text)
        status, answers, fault = counts.wanted(head, lines.encode(), text)
        wanted = status, "".join(f"{line}\n" for line in answers), fault
        got = count_by_peer(room, os.path.abspath(peer), lines) if peer else count(room, lines)
        if got != wanted:
            raise Failed(f"list {number}: {got}, and the plain program says {wanted}")
        seen.update(word for said in [*answers, fault] for word in said.split())
    print(f"{len(numbers)} lists agree: " + ", ".join(f"{event} {seen[event]}" for event in EVENTS))
    missing = [event for event in EVENTS if not seen[event]]
    if missing:
        raise Failed(f"no list has {', '.join(missing)}")
    return True
