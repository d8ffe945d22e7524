"""64 stations are served at once, or replayed: the log and the record are right, and memory stays
flat.

Each station packs an object of its own into a crate of its own and moves the crate to and fro; of
each eight messages one comes late, so that two are held, and one is sent twice; where it is served,
a line after them is no message. Each station asks ten questions, one after each line of its first
block and one at its end: by turns where its own object is, and where that of the next station is.
Of the log has to hold: cut to a station it is what that station must be told; its entries are
numbered from 1, in order; each answer follows from the lines above it. Of the record: it has the
messages of each station, in order, and each object where its crate is. Of memory: in the second
half of the time it grows by no more than MOST_BYTES for each message, where there are FEWEST
messages or more: of fewer, what is taken once for all of them outweighs the rest."""
import itertools
import os
import re
import subprocess
import tempfile
import time

STATIONS = 64
FIRST_YEAR = 2001
BLOCK = 8
DAY = '"day":"2024-05-01"'
POSTED = re.compile(r" posted (\d+) ")
ANSWER = re.compile(r"(ST\d+ ask (\d+)\.1\.1) (.*)")
ORDER = (0, 2, 3, 1, 4, 5, 5, 6, 7)  # of the messages of a block
MOST_BYTES = 1000
FEWEST = 20_000
FIRST = 2  # blocks of each station in the serving that tells how fast the disk is
FULL = 210  # blocks of each station without a store: 2,110 lines, of which a lane holds 2,048


def crate_of(station):
    return f"C{station + 1}"


def object_of(station):
    return f"{FIRST_YEAR + station}.1.1"


def setup_of():
    rows = [f"station,ST{s}" for s in range(STATIONS)] + ["place,S1,inside", "place,S2,inside"]
    rows += [f"box,{crate_of(s)}" for s in range(STATIONS)] + [
        f"own,{object_of(s)},S1" for s in range(STATIONS)
    ]
    return "".join(row + "\n" for row in rows)


def line(station, n):
    """The line of a station's message of this number: its crate comes, its object is packed, the
    crate goes to and fro."""
    crate = crate_of(station)
    if n == 2:
        message = f'"kind":"pack","thing":"{object_of(station)}","container":"{crate}",{DAY}'
    else:
        place = "S1" if n == 1 or n % 2 == 0 else "S2"
        message = f'"kind":"move","thing":"{crate}","place":"{place}",{DAY}'
    return f'{{"station":"ST{station}","n":{n},"message":{{{message}}}}}\n'


def ask(station, other):
    """A station's question where the object of one is."""
    return f'{{"station":"ST{station}","ask":"{object_of(other)}"}}\n'


def place_of(station, posted):
    """Where a station's object is once so many of its messages are posted."""
    if posted < 2:
        return "unplaced"
    return f"at {'S1' if posted == 2 or posted % 2 == 0 else 'S2'} in {crate_of(station)}"


def asked_of(station, question):
    """Whose object a question of the station is about."""
    return (station + question % 2) % STATIONS


def feed(station, blocks, is_served):
    """What a station sends: of each block the second message comes after the fourth, and the sixth
    comes twice; in the first block a question follows each."""
    for first in range(1, blocks * BLOCK + 1, BLOCK):
        for at, n in enumerate(ORDER):
            yield line(station, first + n)
            if first == 1:
                yield ask(station, asked_of(station, at))
        if is_served:
            yield "{}\n"
    yield ask(station, asked_of(station, len(ORDER)))


def told(station, blocks, is_served):
    """What it must be told, with # for the number of an entry and for an answer."""
    asks = [f"ST{station} ask {object_of(asked_of(station, at))} #" for at in range(len(ORDER) + 1)]
    for block in range(blocks):
        first = block * BLOCK + 1
        posted = [f"ST{station} {first + n} posted # Applied" for n in range(BLOCK)]
        held = [[f"ST{station} {first + n} held"] for n in (2, 3)]
        double = [f"ST{station} {first + 5} refused Double"]
        replies = [posted[:1], *held, posted[1:4], posted[4:5], posted[5:6], double]
        replies += [posted[6:7], posted[7:]]
        for at, lines in enumerate(replies):
            yield from lines
            yield from asks[at : at + 1] if block == 0 else ()
        if is_served:
            yield f"ST{station} line {(block + 1) * (BLOCK + 2) + len(ORDER)} bad Missing n"
    yield asks[-1]


def resident(process):
    """The bytes of memory that the process has now, or none where it has ended."""
    try:
        with open(f"/proc/{process.pid}/statm", encoding="ascii") as file:
            return int(file.read().split()[1]) * os.sysconf("SC_PAGE_SIZE")
    except (OSError, IndexError):
        return 0


class Run:
    """All stations over a new store, or without one, served or replayed: how long it took, its log,
    and what memory it had from time to time."""

    def __init__(self, program, room, blocks, is_served, is_stored):
        self.program, self.blocks, self.is_served, self.is_stored = (
            program,
            blocks,
            is_served,
            is_stored,
        )
        self.messages, self.room = STATIONS * BLOCK * blocks, room
        self.record = ["--setup", self.write("setup.csv", [setup_of()])]
        if is_stored:
            self.record += ["--store", os.path.join(room, "museum.db")]
        feeds = [feed(s, blocks, is_served) for s in range(STATIONS)]
        if is_served:
            self.run(
                [
                    "serve",
                    *self.record,
                    *[self.write(f"{s}.jsonl", lines) for s, lines in enumerate(feeds)],
                ],
                os.devnull,
            )
        else:
            by_turns = itertools.chain.from_iterable(zip(*feeds))
            self.run(["replay", *self.record], self.write("all.jsonl", by_turns))

    def write(self, name, lines):
        path = os.path.join(self.room, name)
        with open(path, "w", encoding="ascii") as file:
            file.writelines(lines)
        return path

    def run(self, words, given):
        log, self.memory, began = os.path.join(self.room, "log"), [], time.monotonic()
        with open(log, "wb") as output, open(f"{log}.txt", "wb") as notes, open(
            given, "rb"
        ) as lines:
            how = {"stdin": lines, "stdout": output, "stderr": notes}
            running = subprocess.Popen([self.program, *words], **how)
            while running.poll() is None:
                if os.path.exists(self.record[-1]):
                    self.memory.append(resident(running))
                time.sleep(0.01)
        self.seconds, self.status = time.monotonic() - began, running.returncode
        self.memory = [size for size in self.memory if size] or [0]
        with open(log, encoding="ascii") as file:
            self.log = file.read().splitlines()

    def asked(self, word, given=""):
        """What another run over the record prints."""
        ended = subprocess.run(
            [self.program, word, *self.record],
            input=given,
            capture_output=True,
            check=True,
            text=True,
        )
        return ended.stdout.splitlines()

    def differences(self):
        """What of the log and of the record isn't as it must be."""
        if self.status:
            with open(os.path.join(self.room, "log.txt"), encoding="utf-8") as notes:
                yield f"status {self.status}: {notes.read()}"
        cuts = {f"ST{s}": [] for s in range(STATIONS)}
        for one in self.log:
            text = ANSWER.sub(r"\1 #", POSTED.sub(" posted # ", one))
            cuts[one.split(" ", 1)[0]].append(text)
        for station in range(STATIONS):
            if cuts[f"ST{station}"] != list(told(station, self.blocks, self.is_served)):
                yield f"ST{station} isn't told what it must be"
        numbers = [int(number) for one in self.log for number in POSTED.findall(one)]
        if numbers != list(range(1, self.messages + 1)):
            yield "entries aren't numbered from 1, in order"
        yield from self.of_answers()
        if self.is_stored:
            yield from self.of_record()

    def of_answers(self):
        """Each answer that doesn't follow from what is posted in the lines above it."""
        posted, answers = [0] * STATIONS, 0
        for one in self.log:
            station, what = one.split(" ", 1)
            if POSTED.search(one):
                posted[int(station[2:])] = int(what.split(" ", 1)[0])
            asked = ANSWER.fullmatch(one)
            if asked:
                answers += 1
                other = int(asked[2]) - FIRST_YEAR
                if asked[3] != place_of(other, posted[other]):
                    yield f"{one}, after {posted[other]} messages of ST{other}"
        if answers != STATIONS * (len(ORDER) + 1):
            yield f"{answers} answers"

    def of_record(self):
        counts = {f"ST{s}": 0 for s in range(STATIONS)}
        for one in self.asked("posted"):
            _, station, number, _ = one.split(" ", 3)
            counts[station] += 1
            if int(number) != counts[station]:
                yield f"the record has {one}"
        if set(counts.values()) != {self.blocks * BLOCK}:
            yield "another number of entries on record"
        asks, last = "".join(ask(s, s) for s in range(STATIONS)), self.blocks * BLOCK
        answers = [f"ST{s} ask {object_of(s)} {place_of(s, last)}" for s in range(STATIONS)]
        if self.asked("replay", asks) != answers:
            yield "an object isn't where its crate is"

    def growth(self):
        """The bytes of memory that each message took in the second half of the time, when all
        threads are up and read their feeds."""
        return (max(self.memory) - self.memory[len(self.memory) // 2]) / (self.messages / 2)


def ran(program, blocks, is_served, folder, is_stored=True):
    """A run, and what of it is wrong."""
    with tempfile.TemporaryDirectory(dir=folder) as room:
        run = Run(program, room, blocks, is_served, is_stored)
        wrong = list(run.differences())
    print("".join(text + "\n" for text in wrong), end="")
    what = ("served" if is_served else "replayed") + ("" if is_stored else " without a store")
    each = f"{blocks * BLOCK:,} messages of each"
    print(
        f"{STATIONS} stations {what}, {each} in {run.seconds:.1f} s: {len(wrong)} wrong", flush=True
    )
    return run, wrong


def is_flat(run):
    """Whether memory stays flat, where there are messages enough to tell."""
    each = run.growth()
    most = f"{max(run.memory) / 1e6:,.0f} MB at most, {each:,.0f} bytes more a message"
    print(f"{run.messages / run.seconds:,.0f} messages a second; {most}")
    return run.messages < FEWEST or each <= MOST_BYTES


def test_served_without_a_store(room):
    """64 stations are served at once, and each sends more lines than its lane holds."""
    return not ran(room.program, FULL, True, None, False)[1]


def test_served_onto_a_disk(room, seconds=3.0, folder=""):
    """64 stations are served onto a disk, with as many messages as it takes in three seconds."""
    short, wrong = ran(room.program, FIRST, True, folder or None)
    run, more = ran(
        room.program, max(FIRST, round(FIRST * seconds / short.seconds)), True, folder or None
    )
    return not wrong and not more and is_flat(run)


def test_replayed_onto_a_disk(room, messages=2048, folder=""):
    """The messages of 64 stations, by turns, are replayed onto a disk."""
    run, wrong = ran(room.program, -(-messages // (STATIONS * BLOCK)), False, folder or None)
    return not wrong and is_flat(run)
