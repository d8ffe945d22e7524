"""Full disks and kills lose nothing that was answered, and leave nothing half done."""
import os
import sqlite3
import subprocess
import time

from common.museum import MuseumRoom, move, scan, scans, to_and_fro
from common.obstacles import bounded, built, count_in, loaded
from common.room import Skipped, same
from common.sqlite import read

ROOM = MuseumRoom


def over(room, command, *more, **how):
    """What a command says over the store."""
    return room.run(command, "--setup", "setup.csv", "--store", "museum.db", *more, **how)


def test_bounded_postings(room):
    """A replay whose files may not grow beyond some size ends in `fault store`: what it answered is
    on record, and the rest can be posted."""
    moves = to_and_fro(400)
    wanted = "".join(f"PACK {n} posted {n} Applied\n" for n in range(1, 401))
    for limit in (0, 4096, 8192, 50_000, 120_000, 200_000, 400_000):
        room.clear()
        status, replies, fault = room.replay(scans(moves), preexec_fn=bounded(limit))
        if (status, fault) != (1, "fault store Store\n") or not wanted.startswith(replies):
            print(f"{limit}: {status} {fault!r}")
            return False
        if not goes_on(room, moves, replies.count("\n"), replies.count("\n") + 1):
            return False
    return True


def goes_on(room, messages, answered, most):
    """Whether a store with so many answered postings has them, at most so many, nothing half, and
    takes the rest."""
    status, replies, fault = room.replay(scans(messages))
    kept = replies.count("refused Double")
    wanted = "".join(f"PACK {n} refused Double\n" for n in range(1, kept + 1))
    wanted += "".join(f"PACK {n} posted {n} Applied\n" for n in range(kept + 1, len(messages) + 1))
    if (status, replies, fault) != (0, wanted, "") or not answered <= kept <= most:
        print(f"{answered} answered, {kept} kept: {status} {fault!r}")
        return False
    # the run has closed the store: the database file alone has all of it
    rows, _, sound = read(room.store)
    return (
        sound and len(rows["posting"]) == len(messages) and not os.path.exists(room.store + "-wal")
    )


def test_killed_postings(room, rounds=100):
    """A replay that is killed at a random moment leaves nothing half done: what it answered is on
    record, and the rest can be posted."""
    moves = to_and_fro(300)
    given = scans(moves).encode()
    for _ in range(rounds):
        room.clear()
        hub = room.begin(*room.words())
        hub.stdin.write(given)
        time.sleep(room.draws.uniform(0, 0.04))
        hub.kill()
        replies = hub.stdout.read()
        hub.stdin.close()
        hub.wait()
        if not goes_on(room, moves, replies.count(b"\n"), len(moves)):
            return False
    return True


def test_files_that_may_not_grow(room):
    """A file that may not grow is an error of the disk, when a message is stored, when the store is
    closed, and when it is copied. What was answered is on record."""
    moves = to_and_fro(400)
    failed = "fault store Store\nhelp: the disk that has museum.db failed to read or write\n"
    room.clear()
    room.replay(scans(moves[:2]))
    good, answered = True, 2
    for limit in (60_000, 100_000, 200_000):
        status, replies, errors = over(
            room, "replay", given=scans(moves), preexec_fn=bounded(limit)
        )
        good &= same((status, errors), (1, failed))
        answered += replies.count(" posted ")
        stations = over(room, "stations")
        # the message that met the fault may be on record too
        good &= stations[1].startswith(
            (f"PACK next {answered + 1}\n", f"PACK next {answered + 2}\n")
        )
        answered = int(stations[1].split()[2]) - 1
    # a log that fits, and a database file that may not grow: closing fails, and nothing is lost
    many = to_and_fro(12_000)
    room.made(many)
    size, closing, answered = os.path.getsize(room.store), 0, len(many)
    for _ in range(4):
        given = "".join(scan(answered + n, move("C1", "S1")) for n in range(1, 31))
        status, replies, errors = over(room, "replay", given=given, preexec_fn=bounded(size))
        good &= same((status, errors), (1, failed) if errors else (0, ""))
        closing += status == 1 and replies.count(" posted ") == 30
        answered += replies.count(" posted ")
    good &= same(over(room, "stations"), (0, f"PACK next {answered + 1}\nGAL next 1\n", ""))
    good &= same(len(read(room.store)[0]["posting"]), answered) and closing > 0
    wanted = 1, "", "fault file\nhelp: to.db.part cannot be written: the disk is full\n"
    good &= same(over(room, "copy", "--to", "to.db", preexec_fn=bounded(20_000)), wanted)
    status, printed, errors = over(room, "export", "--to", "to.db", preexec_fn=bounded(20_000))
    good &= same((status, printed), (1, "")) & same(errors.splitlines()[0], "fault file")
    print(f"{closing} runs failed at closing alone")
    return good and not os.path.exists(room.path("to.db"))


def test_full_disk(room):
    """The help names a disk that is full. It is a small one in memory, which a program sees in a
    name space of its own."""
    own = ["unshare", "-r", "-m", "sh", "-c"]
    mount = "mount -t tmpfs -o size=300k none disk && cp setup.csv disk && cd disk && "
    os.mkdir(room.path("disk"))
    if subprocess.run([*own, mount + "true"], cwd=room.folder, capture_output=True).returncode:
        raise Skipped("no name space of its own can be had")
    room.write("lines.jsonl", scans(to_and_fro(900)))
    record = "--setup setup.csv --store m.db"
    script = (
        f"{room.program} replay {record} < ../lines.jsonl > ../replies; echo $? > ../status; "
        f"{room.program} stations {record} > ../stations 2> ../again"
    )
    ran = subprocess.run([*own, mount + script], cwd=room.folder, capture_output=True)
    found = {name: room.read(name) for name in ("replies", "status", "stations", "again")}
    answered = found["replies"].count(b" posted ")
    good = same(
        ran.stderr.decode(),
        "fault store Store\nhelp: the disk that has m.db is full: free some space and try again\n",
    )
    good &= same(found["status"], b"1\n") and answered > 0
    if found["again"]:
        return good and same(found["again"].decode(), ran.stderr.decode())
    return good and found["stations"].startswith(
        (b"PACK next %d\n" % (answered + 1), b"PACK next %d\n" % (answered + 2))
    )


def test_killed_copy(room, rounds=50):
    """A copy that is killed at a random moment leaves no file of its name, or a whole one, and the
    store as it was."""
    moves = to_and_fro(300)
    room.clear()
    room.replay(scans(moves))
    wanted, whole = read(room.store), 0
    words = [*room.words("copy"), "--to", room.path("to.db")]
    began = time.monotonic()
    room.run(*words)
    took = time.monotonic() - began
    for _ in range(rounds):
        if os.path.exists(room.path("to.db")):
            os.remove(room.path("to.db"))
        room.killed(room.draws.uniform(0, took * 1.2), *words)
        if os.path.exists(room.path("to.db")):
            whole += 1
            if read(room.path("to.db")) != wanted:
                print("a copy that is not whole")
                return False
        if over(room, "stations")[:2] != (0, "PACK next 301\nGAL next 1\n"):
            print("the store was changed")
            return False
    print(f"{whole} of {rounds} were whole")
    if os.path.exists(room.path("to.db")):
        os.remove(room.path("to.db"))
    return same(over(room, "copy", "--to", "to.db"), (0, "copied 300 entries\n", "")) and not [
        name for name in os.listdir(room.folder) if name.startswith("to.db.")
    ]


def calls_of(room, library, command, *more, given=""):
    """How many calls of a run of the command change a file."""
    env = loaded(library, CALLS=room.path("calls"))
    status, _, errors = over(room, command, *more, given=given, env=env)
    return count_in(room) if status == 0 else print(f"{command}: {errors}") or 0


def killed_run(room, library, number, command, *more, given=""):
    """The replies of a run that is killed as it makes this call."""
    return over(room, command, *more, given=given, env=loaded(library, KILLED=number))[1]


def test_replay_killed_at_each_call(room):
    """A replay, with the closing of its store, is killed before each of its calls that change a
    file: all that it answered is on record, and the rest can be posted."""
    library, moves, good = built(room, "kill_call.c"), to_and_fro(30), True
    given, text = scans(moves), room.made(moves[:5])
    count = calls_of(room, library, "replay", given=given)
    for number in range(1, count + 1):
        room.clear()
        room.write("museum.db", text)
        answered = killed_run(room, library, number, "replay", given=given).count(" posted ")
        doubles = over(room, "replay", given=given)[1].count(" refused Double\n")
        rows, _, sound = read(room.store)
        alone = not os.path.exists(room.store + "-wal")
        # more may be on record than was answered: a reply is written once the input is at its end
        if not (answered + 5 <= doubles and len(rows["posting"]) == 30 and sound and alone):
            print(
                f"call {number} of {count}: {answered} answered, {doubles} kept, {sound}, {alone}"
            )
            good = False
    print(f"{count} calls")
    return good and count > 50


def test_start_killed_at_each_call(room):
    """A replay that begins a record is killed before each of its calls that change a file: what it
    answered is on record, and the rest can be posted. If the blank page still has both its names,
    a report refuses the store, and the next replay removes the other name."""
    library, given, good = built(room, "kill_call.c"), scans(to_and_fro(5)), True
    second = "fault store Store\nhelp: museum.db has a second name: delete the hard link\n"
    room.clear()
    count, refused = calls_of(room, library, "replay", given=given), 0
    for number in range(1, count + 1):
        room.clear()
        answered = killed_run(room, library, number, "replay", given=given).count(" posted ")
        has_both = all(os.path.exists(room.path(it)) for it in ("museum.db", "museum.db.new"))
        refused += has_both and over(room, "stations") == (1, "", second)
        doubles = over(room, "replay", given=given)[1].count(" refused Double\n")
        good &= not (has_both and os.path.exists(room.path("museum.db.new")))
        rows, _, sound = read(room.store)
        if not (answered <= doubles and len(rows.get("posting", ())) == 5 and sound):
            print(f"call {number} of {count}: {answered} answered, {doubles} kept, {sound}")
            good = False
    return good and count > 10 and same(refused, 1)


def test_copy_killed_at_each_call(room):
    """A copy is killed before each of its calls that change a file: there is no copy or a whole
    one, and the next copy is made."""
    library, moves, good = built(room, "kill_call.c"), to_and_fro(30), True
    text = room.made(moves)
    wanted, count = read(room.store), calls_of(room, library, "copy", "--to", "to.db")
    for number in range(1, count + 1):
        for start in ("to.db", "museum.db"):
            room.remove(start)
        room.write("museum.db", text)
        killed_run(room, library, number, "copy", "--to", "to.db")
        if os.path.exists(room.path("to.db")):
            good &= same((number, read(room.path("to.db"))), (number, wanted))
            os.remove(room.path("to.db"))
        # what was left is in nobody's way
        good &= same(over(room, "copy", "--to", "to.db"), (0, "copied 30 entries\n", ""))
        good &= same((read(room.path("to.db")), read(room.store)), (wanted, wanted))
    print(f"{count} calls")
    return good and count > 10


def flat_rows(path):
    """The messages and the movements of a flat database, and whether SQLite finds it sound."""
    conn = sqlite3.connect(path)
    rows = [conn.execute(f"SELECT * FROM {it}").fetchall() for it in ("message", "movement")]
    sound = conn.execute("PRAGMA integrity_check").fetchall() == [("ok",)]
    conn.close()
    return rows, sound


def test_export_killed_at_each_call(room):
    """An export is killed before each of its calls that change a file: there is no flat database or
    a whole one, the store stays as it was, and the next export is made."""
    library, moves, good = built(room, "kill_call.c"), to_and_fro(30), True
    text = room.made(moves)
    store, count = read(room.store), calls_of(room, library, "export", "--to", "to.db")
    wanted = flat_rows(room.path("to.db"))
    for number in range(1, count + 1):
        for start in ("to.db", "museum.db"):
            room.remove(start)
        room.write("museum.db", text)
        killed_run(room, library, number, "export", "--to", "to.db")
        if os.path.exists(room.path("to.db")):
            good &= same((number, flat_rows(room.path("to.db"))), (number, wanted))
            room.remove("to.db")
        # what was left is in nobody's way
        good &= same(over(room, "export", "--to", "to.db"), (0, "exported 30 entries\n", ""))
        good &= same((flat_rows(room.path("to.db")), read(room.store)), (wanted, store))
        left = [name for name in os.listdir(room.folder) if name.startswith("to.db.")]
        good &= same((number, left), (number, []))
    print(f"{count} calls")
    return good and wanted[1] and len(wanted[0][0]) == 30 and count > 10
