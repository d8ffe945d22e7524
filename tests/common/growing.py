"""A record whose setup grows, in the plain program and in a room: the runs that grow and print a
setup, and a short story of growths."""
from common.museum import AUTHORISE, CRATES, SETUP, agree, move, pack, scans
from common.room import Failed, same, without_advice
from common.sqlite import settle
from oracle.growth import Setup, further, grown, growth_lines
from oracle.plain import Taken, answers, whereabouts
from oracle.store import own_text

# a file by which the store of the story can grow
MORE = b"place,S5,inside\nown,2001.4.9,S5\nown,2001.4.1,S5\n"
IN_USE = (
    "fault store Store\n"
    "help: museum.db is in use by another program: wait for it to end, or close it\n"
)


class Record:
    """A record in the plain program: its setup, and what is posted."""

    def __init__(self, file=SETUP.encode()):
        self.setup, self.posted = further(Setup(), file)[0], []

    def replay(self, lines):
        """The replies to these lines. Messages that are still held at the end aren't kept."""
        taken = [Taken(entry.station, entry.n, entry.message) for entry in self.posted]
        return "".join(
            f"{reply}\n"
            for reply in answers(self.setup.museum(), taken, self.posted, lines.encode())
        )

    def grow(self, file, check=False):
        """The status, the output and the fault lines of a growth."""
        after, faults = further(self.setup, file)
        if faults:
            return 1, "", "".join(f"fault setup {fault}\n" for fault in faults)
        output = growth_lines(self.setup, after, self.posted)
        if output != ["nothing to add"] and not check:
            self.setup = grown(self.setup, after, len(self.posted))
        return 0, "".join(f"{line}\n" for line in output), ""

    def entries(self):
        """What `posted` prints."""
        return "".join(
            f"{number} {entry.station} {entry.n} {entry.verdict} {own_text(entry.message)}\n"
            for number, entry in enumerate(self.posted, 1)
        )

    def rows(self):
        """The entries with the numbers of their stations."""
        return [
            entry._replace(station=self.setup.stations.index(entry.station))
            for entry in self.posted
        ]

    def where(self, thing):
        return f"{thing} {whereabouts(self.setup.museum(), self.posted, thing)}\n"


# The program in a room. Its whole list is museum.csv, and new.csv a file of new rows


def asks(room, command, *more, **how):
    """What a command with the whole list says."""
    return room.run(command, "--setup", "museum.csv", "--store", "museum.db", *more, **how)


def grows(room, file, *more, **how):
    """The same of a growth by this file."""
    room.write("new.csv", file)
    return room.run("grow", "--setup", "new.csv", "--store", "museum.db", *more, **how)


def prints(room):
    """The same of `setup`."""
    return room.run("setup", "--store", "museum.db")


def lists(room):
    """Writes museum.csv as `setup` prints it, and returns it."""
    status, output, errors = prints(room)
    if status or errors:
        raise Failed(f"setup: {errors}")
    room.write("museum.csv", output)
    return output


def file_of(rows):
    """A file with these rows, each on a line."""
    return "".join(f"{row}\n" for row in rows)


# A short story

# before and after each growth a message names something that this growth adds
EARLY = [
    pack("2001.4.2", "C3"),
    agree(["2001.4.1", "2001.4.7"]),
    move("2001.4.2", "S3"),
    move("2001.4.7", "S1"),
]
LATER = [
    move("2001.4.7", "S3"),
    move("C3", "S3"),
    pack("2001.4.2", "C3"),
    agree(["2001.4.1", "2001.4.7"]),
]
DOOR = [move("2001.4.3", "S4"), move("C4", "S4"), pack("2001.4.3", "C4"), move("2001.4.8", "S4")]
LAST = [move("2001.4.8", "S4"), move("C4", "S4"), pack("2001.4.3", "C4"), move("L2000.1", "S1")]
SIGNED = [move("2001.4.9", "S1"), {"kind": "signoff", "by": "Ann"}]
# each file by which the setup grows, and the lines that come after it
STORY = [
    (b"", scans(CRATES, "PACK", 1) + scans(EARLY, "GAL", 1)),
    (
        b"own,2001.4.1,S2\nplace,S3,inside\nbox,C3\nown,2001.4.7,S3\n",
        scans(LATER, "PACK", 6) + scans([AUTHORISE, move("2001.4.8", "S4")], "GAL", 5),
    ),
    (b"station,DOOR\nplace,S4,inside\nplace,MUSEUM-Z,elsewhere\n", scans(DOOR, "DOOR", 1)),
    (
        b"own,2001.4.8,S4\nbox,C4\nlent,L2000.1\nown,2001.4.2,S4\n",
        scans(LAST, "DOOR", 5) + scans(SIGNED, "PACK", 10),
    ),
]


def story(room, steps=len(STORY)):
    """Makes the store of the story up to a step, with museum.csv. Returns its bytes and the plain
    record, or None if the program replied anything else."""
    room.clear()
    room.write("museum.csv", SETUP)
    record, good = Record(), True
    for file, lines in STORY[:steps]:
        if file:
            good &= same(without_advice(grows(room, file)), record.grow(file))
            good &= same(lists(room), record.setup.file())
        good &= same(
            without_advice(asks(room, "replay", given=lines)), (0, record.replay(lines), "")
        )
    settle(room.store)
    return (room.read("museum.db") if good else None), record
