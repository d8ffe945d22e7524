"""A growth that is killed, or meets a disk that fails or is full, or another program, is made whole
or not at all."""
import os
import signal
import subprocess
import time

from common.growing import IN_USE, MORE, asks, file_of, grows, lists, prints, story
from common.museum import MuseumRoom, scans, to_and_fro
from common.obstacles import bounded, built, count_in, loaded
from common.room import Failed, same, without_advice
from common.sqlite import read, read_copy

ROOM = MuseumRoom

MANY = file_of(
    ["place,S5,inside", *(f"own,2020.{number},S5" for number in range(1, 3001))]
).encode()


def is_old_or_new(room, old, new):
    """Whether a store has the old setup or the new one, whole, by its rows and to the program; and
    whether it grew. A growth can go on from it."""
    rows, _, sound = read_copy(room)
    good = same((sound, rows in (old, new)), (True, True))
    has_grown = rows["setup"] == new["setup"]
    listed = [text for _, text in rows["setup"] if not text.startswith("grew,")]
    good &= same(prints(room), (0, file_of(listed), ""))
    again = grows(room, MANY)
    good &= same((again[0], again[1] == "nothing to add\n", again[2]), (0, has_grown, ""))
    good &= same(read(room.store)[0] == new, True)
    return good, has_grown


def before_and_after(room, more=""):
    """The bytes of a store of the story, with these lines after it, its rows, the rows after a
    growth by many rows, and how long that took."""
    made, _ = story(room)
    if made is None or asks(room, "replay", given=more)[0]:
        raise Failed("the program doesn't make the store of the story")
    bytes_of = room.read("museum.db")
    old, began = read(room.store)[0], time.monotonic()
    grows(room, MANY)
    took = time.monotonic() - began
    return bytes_of, old, read(room.store)[0], took


def test_killed(room, rounds=20):
    """A growth that is killed at a random moment leaves the old setup or the new one, and all else
    as it was."""
    bytes_of, old, new, took = before_and_after(room)
    grew, stopped, good = 0, 0, True
    words = ["grow", "--setup", "new.csv", "--store", "museum.db"]
    for _ in range(rounds):
        room.clear()
        room.write("museum.db", bytes_of)
        stopped += room.killed(room.draws.uniform(0, took * 1.1), *words)
        is_good, has_grown = is_old_or_new(room, old, new)
        grew, good = grew + has_grown, good and is_good
        if not good:
            return False
    print(f"{stopped} of {rounds} were stopped before their end; {grew} had grown")
    return good


def calls_of(room, library, bytes_of):
    """The numbers of the calls by which a growth changes files."""
    room.clear()
    room.write("museum.db", bytes_of)
    ended = grows(room, MANY, env=loaded(library, CALLS=room.path("calls")))
    if ended[0]:
        raise Failed(f"the growth fails: {ended}")
    return range(1, count_in(room) + 1)


def test_killed_at_each_call(room):
    """A growth that is killed before each call that changes a file leaves the old setup or the new
    one."""
    bytes_of, old, new, _ = before_and_after(room)
    library, good, found = built(room, "kill_call.c"), True, set()
    numbers = calls_of(room, library, bytes_of)
    for number in numbers:
        room.clear()
        room.write("museum.db", bytes_of)
        status = grows(room, MANY, env=loaded(library, KILLED=number))[0]
        is_good, has_grown = is_old_or_new(room, old, new)
        found.add(has_grown)
        good &= same((number, status, is_good), (number, -signal.SIGKILL, True))
    print(f"{len(numbers)} calls")
    return good and same(found, {False, True})


def test_failing_at_each_call(room):
    """A growth on a disk that fails from some call on says so, unless it is done; it leaves the old
    setup or the new."""
    bytes_of, old, new, _ = before_and_after(room)
    library, good, found = built(room, "kill_call.c"), True, set()
    for number in calls_of(room, library, bytes_of):
        room.clear()
        room.write("museum.db", bytes_of)
        status, _, errors = grows(room, MANY, env=loaded(library, FAILED=number))
        is_good, has_grown = is_old_or_new(room, old, new)
        found.add((status, has_grown))
        said = errors.startswith("fault store Store\n") if status else errors == ""
        good &= same(
            (number, is_good, said, status == 0 and not has_grown), (number, True, True, False)
        )
    return good and same(found >= {(1, False), (1, True)}, True)


def test_full_disk(room):
    """A growth for which a file may not get longer leaves the old setup or the new one."""
    moves = to_and_fro(3000)
    bytes_of, old, new, _ = before_and_after(room, scans(moves, "GAL", 7))
    size, good, found = os.path.getsize(room.store), True, []
    # the last limit is enough for the log, and not for the database file
    for limit in (0, 4096, 200_000, size - 4096):
        room.clear()
        room.write("museum.db", bytes_of)
        status, output, errors = grows(room, MANY, preexec_fn=bounded(limit))
        good &= same(
            (limit, status, output, errors.split("\n")[0]), (limit, 1, "", "fault store Store")
        )
        is_good, has_grown = is_old_or_new(room, old, new)
        good &= is_good
        found.append(has_grown)
    return good and same(found, [False, False, False, True])


def test_together(room):
    """While another program has the store, a growth is refused and nothing is lost. Of two growths
    each is made whole or refused."""
    bytes_of, record = story(room, 1)
    good, in_use = bytes_of is not None, (1, "", IN_USE)
    first = room.begin(*room.words(setup="museum.csv"))
    moves = to_and_fro(9)
    first.stdin.write(scans(moves[:1], "PACK", 6).encode())
    first.stdout.readline()
    for more in ([], ["--check"]):
        good &= same(grows(room, MORE, *more), in_use) and same(prints(room), in_use)
    first.communicate(scans(moves[1:], "PACK", 7).encode())
    record.replay(scans(moves, "PACK", 6))
    good &= same(asks(room, "posted"), (0, record.entries(), "")) and same(
        prints(room), (0, record.setup.file(), "")
    )
    # the log of a killed run has entries that the growth counts
    hub = room.begin(*room.words(setup="museum.csv"))
    hub.stdin.write(scans(moves[:1], "PACK", 15).encode())
    hub.stdout.readline()
    hub.kill()
    hub.communicate()
    record.replay(scans(moves[:1], "PACK", 15))
    good &= same(os.path.getsize(room.store + "-wal") > 4096, True)
    good &= same(without_advice(grows(room, MORE)), record.grow(MORE)) and same(
        lists(room), record.setup.file()
    )
    return good and both_grow(room, record, in_use)


def both_grow(room, record, in_use):
    """Two growths at once, again and again."""
    good, refused = True, 0
    for turn in range(8):
        files = [f"box,C{2 * turn + k + 20}\n".encode() for k in (0, 1)]
        names = [room.write(f"new-{k}.csv", file) for k, file in enumerate(files)]
        words = [["grow", "--setup", name, "--store", "museum.db"] for name in names]
        growing = [room.begin(*it, stderr=subprocess.PIPE) for it in words]
        printed = [tuple(map(bytes.decode, it.communicate())) for it in growing]
        ends = [(it.returncode, *both) for it, both in zip(growing, printed)]
        made = [(file, end) for file, end in zip(files, ends) if end[0] == 0]
        refused += len(files) - len(made)
        good &= same([end for end in ends if end[0] and end != in_use], [])
        # the one that came first has the lower number
        rows = prints(room)[1].splitlines()
        for file, end in sorted(made, key=lambda it: rows.index(it[0].decode().strip())):
            good &= same(end, record.grow(file))
        good &= same(read(room.store)[0]["setup"], record.setup.table())
    print(f"{refused} of 16 growths met the other one")
    return good
