"""The limits of lists, floods and heads hold, and one more is a named fault."""
import subprocess

from common.museum import MuseumRoom, move, scan
from common.room import same, told

ROOM = MuseumRoom
MOST_ROWS = 100_000  # of a count list
MOST_BYTES = 8 << 20  # of a head


def counted(room, rows):
    """What a count of so many rows of one place says, with a row that is skipped before the
    last."""
    room.write("list.csv", "S1\n" * (rows - 1) + ",\nS1\n")
    return room.run("count", "--setup", "setup.csv", "--store", "museum.db", "list.csv")


def test_longest_list(room):
    """A count list has at most 100,000 rows."""
    room.replay()
    answers = "".join(f"row {row} Counted\n" for row in range(1, MOST_ROWS + 1))
    row = MOST_ROWS + 2  # with the row that is skipped
    advice = f"list.csv row {row}: a list has at most {MOST_ROWS} rows"
    fault = f"fault counts TooMany row {row}\nhelp: {advice}\n"
    right = counted(room, MOST_ROWS) == (0, answers, "")
    return right and same(counted(room, MOST_ROWS + 1), (1, "", fault))


def test_flood(room):
    """One message that waits is held once, and refused as Double however often it comes again."""
    line = scan(2, move("2001.4.1", "S1"), "GAL")
    given = room.read("setup.csv") + b"\n" + (line * 10_000).encode()
    status, replies, _ = room.run(given=given)
    return status == 0 and replies == "GAL 2 held\n" + "GAL 2 refused Double\n" * 9_999


def test_head_of_most_bytes(room):
    """A head of 8 MiB is read."""
    return same(room.run(given=b"a" * MOST_BYTES), (1, "", "fault setup BadKind row 1\n"))


def test_head_too_long(room):
    """A head of one byte more is `fault head`."""
    return same(room.run(given=b"a" * (MOST_BYTES + 1)), (1, "", "fault head\n"))


def test_head_without_end(room):
    """A head that never ends is `fault head`."""
    with open("/dev/zero", "rb") as zeros:
        letters = subprocess.Popen(["tr", "\\0", "a"], stdin=zeros, stdout=subprocess.PIPE)
    ran = subprocess.run([room.program], stdin=letters.stdout, capture_output=True)
    letters.kill()
    letters.wait()
    return same(told(ran), (1, "", "fault head\n"))
