"""Work at a desk: at a terminal, from a pipe, with a log and with kills."""
import os
import pty
import re
import select
import signal
import subprocess
import termios

from common.room import Room

OBJECTS = [f"2001.{group}.{number}" for group in range(1, 5) for number in range(1, 6)]
PLACES = ["S1", "S2", "GAL1"]
CRATES = ["C1", "C2"]
SCANS = 2000  # of a day
PATIENCE = 120  # seconds until an answer has to come
WORDS = "to into out back in . day agree extend ! ? why posted at S1 s1 C1 LO2024.1".split()
SETUP = "".join(
    f"{row}\n"
    for row in [
        "station,PACK",
        "station,GAL",
        *(f"place,{it},inside" for it in PLACES),
        "place,MUSEUM-X,elsewhere",
    ]
    + [f"box,{it}" for it in CRATES]
    + [f"own,{it},S1" for it in OBJECTS]
)
POSTED = re.compile(r"PACK (\d+) posted (\d+) (\w+)")
MESSAGE = '{"kind":"move","thing":"2001.1.1","place":"GAL1","day":"2024-05-01"}'


class ROOM(Room):
    """A room with a setup, museum.csv, and a store, museum.db."""

    def furnish(self):
        self.write("museum.csv", SETUP)

    def over(self, command, *words, given=""):
        """What a command over the store says."""
        return self.run(
            command, "--setup", "museum.csv", "--store", "museum.db", *words, given=given
        )

    def desk(self, given, *words):
        """What a desk says that is given these lines at once."""
        return self.over("desk", *words, given=given)

    def report(self, *words):
        return self.over(*words)[1]


def is_ready(file):
    """Whether there is something to read, once it has come."""
    return bool(select.select([file], [], [], PATIENCE)[0])


class Desk:
    """A desk of PACK at work: the program, what it is told and what it answers, line by line."""

    def __init__(self, room, *words, **how):
        record = ["--setup", "museum.csv", "--store", "museum.db", "--station", "PACK"]
        self.ran = room.begin("desk", *record, *words, **{"stderr": subprocess.PIPE, **how})

    def ask(self, line):
        """The answer to a line, before the next one is written. None if the program has ended."""
        try:
            self.ran.stdin.write(f"{line}\n".encode())
        except OSError:
            return None
        answer = self.ran.stdout.readline().decode() if is_ready(self.ran.stdout) else ""
        return answer.rstrip("\n") or None

    def end(self):
        """The status, and what was left on the standard streams."""
        output, errors = self.ran.communicate(timeout=PATIENCE)
        return self.ran.returncode, output.decode(), errors.decode()


def test_at_a_terminal(room):
    """Each answer comes at a terminal before the next line is typed."""
    terminal, line = pty.openpty()
    shown = termios.tcgetattr(line)
    shown[3] &= ~termios.ECHO
    termios.tcsetattr(line, termios.TCSANOW, shown)
    ran = Desk(room, "--day", "2024-05-01", stdin=line, stdout=line).ran
    os.close(line)
    good = True
    for typed, wanted in (
        ("S1", "to S1"),
        ("2001.1.1", "PACK 1 posted 1 Applied: 2001.1.1 at S1"),
        ("", None),
        ("foo", "not understood: foo; type help"),
    ):
        os.write(terminal, f"{typed}\n".encode())
        answer = b""
        while wanted and not answer.endswith(b"\n") and is_ready(terminal):
            answer += os.read(terminal, 4096)
        good &= answer.decode().rstrip("\r\n") == (wanted or "")
    os.write(terminal, b"\x04")
    good &= ran.wait(timeout=PATIENCE) == 0
    os.close(terminal)
    return good


def test_answers_at_once(room):
    """Each answer comes through a pipe before the next line is written, and what it says is in the
    store by then."""
    desk = Desk(room, "--day", "2024-05-01")
    good = desk.ask("S2") == "to S2"
    for n, thing in enumerate(OBJECTS, 1):
        good &= desk.ask(thing) == f"PACK {n} posted {n} Applied: {thing} at S2"
    desk.ran.send_signal(signal.SIGKILL)
    desk.end()
    return good and room.report("stations") == f"PACK next {len(OBJECTS) + 1}\nGAL next 1\n"


def test_notes_a_new_store(room):
    """A new store is noted before the first line is read, and not again at the end."""
    desk = Desk(room)
    noted = is_ready(desk.ran.stderr) and desk.ran.stderr.readline().decode()
    good = noted == "note: new store museum.db\n" and desk.ask("S1") == "to S1"
    status, _, errors = desk.end()
    return good and status == 0 and errors == ""


def test_logs_each_message(room):
    """Each message is in the log before its answer comes, and a replay of the log posts the
    same."""
    desk = Desk(room, "--day", "2024-05-01", "--log", room.path("pack.jsonl"))
    good = desk.ask("S2") == "to S2"
    for n, thing in enumerate(OBJECTS, 1):
        good &= desk.ask(thing) == f"PACK {n} posted {n} Applied: {thing} at S2"
        with open(room.path("pack.jsonl"), "rb") as log:
            good &= log.read().count(b"\n") == n
    desk.ran.send_signal(signal.SIGKILL)
    desk.end()
    first = room.report("posted")
    os.rename(room.path("museum.db"), room.path("first.db"))
    good &= room.over("replay", given=room.read("pack.jsonl"))[0] == 0
    return good and room.report("posted") == first


def test_logs_that_fail(room):
    """A message whose log can't be written is not posted, and a line of the log that was cut off is
    ended first."""
    status, output, errors = room.desk(
        "S1\n2001.1.1\n", "--station", "PACK", "--day", "2024-05-01", "--log", "/dev/full"
    )
    good = status == 1 and output == "to S1\n" and "fault log\nhelp: /dev/full " in errors
    good &= room.report("stations").startswith("PACK next 1\n")
    with open(room.path("pack.jsonl"), "w", encoding="utf-8") as log:
        log.write('{"station":"PA')
    room.desk(
        "S1\n2001.1.1\n",
        "--station",
        "PACK",
        "--day",
        "2024-05-01",
        "--log",
        room.path("pack.jsonl"),
    )
    with open(room.path("pack.jsonl"), encoding="utf-8") as log:
        lines = log.read().split("\n")
    return (
        good
        and lines[0] == '{"station":"PA'
        and lines[1].startswith('{"station":"PACK","n":1,')
        and lines[2:] == [""]
    )


def test_mixed_lines(room):
    """A desk takes its own scans and the lines of another station, which may come early and
    twice."""
    sent = [f'{{"station":"GAL","n":{n},"message":{MESSAGE}}}' for n in (2, 1, 1)]
    own = f'{{"station":"PACK","n":3,"message":{MESSAGE}}}'
    lines = "".join(f"{it}\n" for it in ["S1", "2001.1.1", *sent, "2001.1.1", "? 2001.1.1", own])
    wanted = [
        "to S1",
        "PACK 1 posted 1 Applied: 2001.1.1 at S1",
        "GAL 2 held",
        "GAL 1 posted 2 Applied",
        "GAL 2 posted 3 Applied",
        "GAL 1 refused Double",
        "PACK 2 posted 4 Applied: 2001.1.1 at S1",
        "2001.1.1 at S1",
        "lines of this station are typed here, not passed on: not sent",
    ]
    status, output, _ = room.desk(lines, "--station", "PACK", "--day", "2024-05-01")
    return status == 0 and output.splitlines() == wanted


def test_cut_input(room):
    """A line without an end counts as it stands."""
    status, output, _ = room.desk(
        "S1\r\n2001.1.1\r\n2001.1.2", "--station", "PACK", "--day", "2024-05-01"
    )
    return status == 0 and output.splitlines()[1:] == [
        "PACK 1 posted 1 Applied: 2001.1.1 at S1",
        "PACK 2 posted 2 Applied: 2001.1.2 at S1",
    ]


def test_twice_at_once(room):
    """A second desk on the same store is refused as long as the first one works."""
    desk = Desk(room, "--day", "2024-05-01")
    good = desk.ask("S1") == "to S1"
    status, output, errors = room.desk("S1\n", "--station", "GAL")
    good &= status == 1 and output == "" and errors.startswith("fault store ")
    good &= desk.ask("2001.1.1") == "PACK 1 posted 1 Applied: 2001.1.1 at S1"
    return good and desk.end()[0] == 0


def strange_line(draws):
    """Random bytes, words in any order, a line about as long as lines may be, or a padded code."""
    kind = draws.randrange(4)
    if kind == 0:
        others = [*range(1, 10), *range(11, 256)]
        return bytes(draws.choices(others, k=draws.randrange(1, 80)))
    if kind == 1:
        return " ".join(draws.choices([*WORDS, *OBJECTS], k=draws.randrange(1, 6))).encode()
    if kind == 2:
        return b"x" * draws.choice((16383, 16384, 16385, 16386, 20000))
    return draws.choice(OBJECTS).encode() + b" " * draws.randrange(16400)


def test_strange_lines(room, lines=300):
    """No line stops a desk: random bytes, long lines, and codes in the wrong place. Only lines that
    say so send a message."""
    given = b"\n".join(strange_line(room.draws) for _ in range(lines))
    status, output, _ = room.desk(given, "--station", "PACK", "--day", "2024-05-01")
    sent = len(POSTED.findall(output))
    return status == 0 and output.isascii() and len(room.report("posted").splitlines()) == sent


def scans_until(desk, draws, last, answered):
    """Scans until so many scans are answered, and then once more, while the desk is killed. Adds
    each answered scan by its number, and returns whether no number came twice."""
    target, is_killed = None, False
    while not is_killed and len(answered) < SCANS:
        is_place = not target or draws.random() < 0.1
        line = draws.choice(PLACES + CRATES if is_place else OBJECTS)
        if is_place:
            desk.ask(".")
        is_killed = len(answered) >= last
        if is_killed and draws.random() < 0.5:
            desk.ran.kill()
        answer = desk.ask(line)
        if is_killed:
            desk.ran.kill()
        elif answer is None:
            return False
        target = target or is_place
        took = POSTED.match(answer or "")
        if took and int(took[1]) in answered:
            return False
        if took:
            answered[int(took[1])] = (int(took[2]), line)
    return True


def test_a_day_with_kills(room, kills=30):
    """In a day of 2,000 scans with kills at random moments nothing that was answered is lost, and
    no number is used twice."""
    answered, killed = {}, 0
    while len(answered) < SCANS:
        desk = Desk(room, "--day", "2024-05-01")
        most = 2 * SCANS // (kills + 1) + 2
        last = len(answered) + room.draws.randrange(1, most) if killed < kills else SCANS
        if not scans_until(desk, room.draws, last, answered):
            return False
        desk.end()
        killed += 1
    print(f"{killed - 1} kills")
    return are_on_record(room, answered)


def are_on_record(room, answered):
    """Whether each answered scan is on record, by its number, and no number is missing."""
    rows = [row.split(" ", 4) for row in room.report("posted").splitlines()]
    entries = {int(n): (int(number), message) for number, _, n, _, message in rows}
    print(f"{len(answered)} answered, {len(entries)} on record")
    return (
        all(station == "PACK" for _, station, *_ in rows)
        and sorted(entries) == list(range(1, len(rows) + 1))
        and all(
            entries.get(n, (0, ""))[0] == entry and f'"{line}"' in entries[n][1]
            for n, (entry, line) in answered.items()
        )
    )


def test_refused_at_the_start(room):
    """A desk of an unknown station, of one that has signed off, or of a wrong day ends before it
    reads a line."""
    cases = [("--station", "NOBODY"), ("--station", "PACK", "--day", "yesterday")]
    good = True
    for words in cases:
        status, output, errors = room.desk("S1\n2001.1.1\n", *words)
        good &= output == "" and errors.startswith("fault ") and "help: " in errors and status == 2
    room.desk("signoff Ann Bee\n", "--station", "PACK")
    status, output, errors = room.desk("S1\n", "--station", "PACK")
    return good and status == 2 and output == "" and errors.startswith("fault station ")
