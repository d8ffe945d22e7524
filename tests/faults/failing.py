"""Input, output, a store or a lane that fails on the way is a named fault, and nothing that was
posted is lost."""
import os
import pty
import subprocess
import tty

from common.museum import MuseumRoom, move, scan
from common.obstacles import bounded, built, loaded
from common.room import ROOT, same, told, without_advice

ROOM = MuseumRoom

SMALL = "station,GAL\nplace,S1,inside\nown,2001.4.1,S1\n"
MOVE = scan(1, move("2001.4.1", "S1"), "GAL")
FEED = MOVE.replace('"station":"GAL",', "") + '{"ask":"2001.4.1"}\n'
STATIONS = ["PACK", "GAL"]  # those of the room's setup
MOST = 1 << 20  # more bytes than a file of a store of one entry has


def broken(room, given):
    """What a run says whose input gives these bytes and then fails: a terminal whose other side is
    shut."""
    ours, other = pty.openpty()
    tty.setraw(other)
    os.write(other, given.encode())
    os.close(other)
    try:
        return without_advice(
            told(subprocess.run([room.program], stdin=ours, capture_output=True, timeout=60))
        )
    finally:
        os.close(ours)


def test_read_fails(room):
    """Input that fails is `fault read`, after the replies to the whole lines before."""
    lines, head = broken(room, f"{SMALL}\n{MOVE}"), broken(room, SMALL)
    return same(lines, (1, "GAL 1 posted 1 Applied\n", "fault read\n")) and same(
        head, (1, "", "fault read\n")
    )


def test_interrupted(room):
    """Input and output are as ever if every other read and write is interrupted, and the others
    take one byte."""
    env = loaded(built(room, "interrupt.c"))
    good = same(room.run(given=f"{SMALL}\n{MOVE}", env=env), (0, "GAL 1 posted 1 Applied\n", ""))
    good &= same(room.run(given=SMALL, env=env), (0, "", ""))
    room.write("small.csv", SMALL)
    room.replay(MOVE, setup="small.csv")
    stations = room.run(*room.words("stations", "small.csv"), env=env)
    return good and same(stations, (0, "GAL next 2\n", ""))


def full(room, roomy):
    """What a replay of the move onto a store says whose output is a file that takes so many bytes
    more."""
    with open(room.path("replies"), "wb") as file:
        file.truncate(MOST - roomy)
        file.seek(MOST - roomy)
        words = [room.program, *room.words(setup="small.csv")]
        ran = subprocess.run(
            words,
            input=MOVE.encode(),
            stdout=file,
            stderr=subprocess.PIPE,
            preexec_fn=bounded(MOST),
            timeout=60,
        )
    with open(room.path("replies"), "rb") as file:
        file.seek(MOST - roomy)
        return ran.returncode, file.read().decode(), ran.stderr.decode()


ON_OUTPUT = (
    "fault write\n"
    "help: the output cannot be written: its disk is full, or the program that reads it has ended\n"
)


def test_write_fails(room):
    """Output that fails is `fault write`: what there was room for is written, and what was posted
    is in the store."""
    room.write("small.csv", SMALL)
    stopped = full(room, 10)
    again = room.replay(MOVE, setup="small.csv")
    posted = room.command("posted", "small.csv")
    good = same(stopped, (1, "GAL 1 post", ON_OUTPUT)) and same(
        again, (0, "GAL 1 refused Double\n", "")
    )
    return good and posted[0] == 0 and posted[1].count("\n") == 1


def served(room, most):
    """What a serving of a message and a question says where no file of the store gets longer than
    this."""
    words = [*room.words("serve", "small.csv"), room.write("feed.jsonl", FEED)]
    return without_advice(room.run(*words, preexec_fn=bounded(most)))


def test_store_refuses(room):
    """A serving whose store takes no byte more prints nothing and posts nothing; then it is served
    whole."""
    room.write("small.csv", SMALL)
    room.replay("", setup="small.csv")
    refused, posted = served(room, 0), room.command("posted", "small.csv")
    log = "GAL 1 posted 1 Applied\nGAL ask 2001.4.1 at S1\n"
    good = same(refused, (1, "", "fault store Store\n")) and same(posted, (0, "", ""))
    return good and same(served(room, MOST), (0, log, ""))


def unfinished(room, library, lost):
    """What a serving of two stations says where the lane of this one, from 1, gives no end."""
    room.clear()
    feeds = [room.write(f"{lane}.jsonl", scan(1, move(f"C{lane}", "S1"))) for lane in (1, 2)]
    env = loaded(library, STATIONS=2, LOST=lost)
    return without_advice(room.run(*room.words("serve"), *feeds, env=env))


def test_lane_gives_no_end(room):
    """A lane that gives no end is `fault unfinished` with its station, and what was printed is what
    was posted. No run comes to this by itself: both ends of a lane are kept until its thread has
    ended (see lose_end.c)."""
    library = built(room, "lose_end.c")
    good = same(unfinished(room, library, 0)[::2], (0, ""))
    for lost, station in enumerate(STATIONS, 1):
        status, log, errors = unfinished(room, library, lost)
        good = same((status, errors), (1, f"fault unfinished {station}\n")) and good
        posted = room.command("posted", "setup.csv")[1].splitlines()
        entries = [line.split(" ") for line in posted]
        wanted = [f"{name} {n} posted {entry} {verdict}" for entry, name, n, verdict, _ in entries]
        good = same(log.splitlines(), wanted) and good
    return good


def test_folder_as_input(room):
    """A folder in place of the input is `fault read`."""
    folder = os.open(room.folder, os.O_RDONLY)
    try:
        ran = told(subprocess.run([room.program], stdin=folder, capture_output=True))
    finally:
        os.close(folder)
    return same(without_advice(ran)[1:], ("", "fault read\n"))


def test_full_output(room):
    """A full disk under the output is `fault write`, with help."""
    with open(f"{ROOT}/examples/first_day/session.txt", "rb") as given, open(
        "/dev/full", "wb"
    ) as full:
        ran = subprocess.run([room.program], stdin=given, stdout=full, stderr=subprocess.PIPE)
    return ran.stderr.decode().endswith(ON_OUTPUT)
