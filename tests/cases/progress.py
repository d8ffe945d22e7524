"""`replay --progress` prints how far it is on standard error, and changes no reply."""
import re
import subprocess
import time

from common.museum import MuseumRoom, move, pack, scan

ROOM = MuseumRoom
LINE = re.compile(
    r"(\d+) lines?, (\d+) posted, (\d+) not applied(?: \(([^)]*)\))?, (\d+) held, (\d+) refused(?: \(([^)]*)\))?, "
    r"(\d+) bad, (\d+) questions?, (\d+) lines a second"
)


def session():
    """Lines of each sort: posted, refused by two verdicts, held and then posted, refused before, of
    no station, asked, bad, and empty."""
    moves = [
        scan(1, move("C1", "S1")),
        scan(2, move("C1", "S9")),
        scan(3, move("C1", "S9")),
        scan(4, pack("C1", "C1")),
    ]
    late = [scan(6, move("C1", "S2")), scan(5, move("C1", "S2")), scan(6, move("C1", "S2"))]
    others = [
        scan(1, move("C1", "S1"), "NOWHERE"),
        scan(999, move("C1", "S1")),
        scan(6, move("C1", "S1")),
    ]
    return moves + late + others + ['{"station":"PACK","ask":"C1"}\n', "no JSON\n", "\n"]


def test_counts(room):
    """The replies stay as they are, and the last line has the right counts; without the option
    nothing is printed."""
    words, given = ["replay", "--setup", "setup.csv"], "".join(session())
    plain, told = room.run(*words, given=given), room.run(*words, "--progress", given=given)
    last = LINE.fullmatch(told[2].splitlines()[-1])
    counts = last and last.groups()[:9]
    refused = "UnknownStation 1, Double 2, TooEarly 1"
    print(plain, told)
    return (
        told[:2] == plain[:2]
        and plain[2] == ""
        and counts == ("12", "6", "3", "UnknownPlace 2, Cycle 1", "1", "4", refused, "1", "1")
        and " 1 question, " in told[2]
    )


def test_each_second(room):
    """A line comes about once a second while a replay runs."""
    words = ["replay", "--setup", "setup.csv", "--progress"]
    # a line each tenth of a second, more slowly on a busy machine
    began = time.monotonic()
    with room.begin(*words, stdout=subprocess.DEVNULL, stderr=subprocess.PIPE) as slow:
        for number in range(1, 36):
            slow.stdin.write(scan(number, move("C1", "S1")).encode())
            time.sleep(0.1)
        slow.stdin.close()
        lines = slow.stderr.read().decode().splitlines()
    seconds = time.monotonic() - began
    print(seconds, lines)
    counted = "35 lines, 35 posted, 0 not applied, 0 held, 0 refused, 0 bad, 0 questions, "
    return (
        all(LINE.fullmatch(line) for line in lines)
        and 2 <= len(lines) <= seconds + 1
        and lines[-1].startswith(counted)
    )
