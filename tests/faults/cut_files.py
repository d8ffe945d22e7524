"""A count list or a feed that is cut after any byte has the answers to its whole lines, and a named
fault or no answer to the line that is cut."""
import json
import os
import re
import shutil
from concurrent.futures import ThreadPoolExecutor

from common.museum import MuseumRoom, move
from common.room import Failed
from oracle import counts
from oracle.streams import Draws
from oracle.text import line_fault

ROOM = MuseumRoom

POSTED = re.compile(r" posted \d+ ")
ONE = "1 message", "it is not kept, send it again"
MANY = "they are not kept, send them again"
HELD = (" held\n", " posted # ")
HEAD = (
    "station,PACK\nstation,GAL\nplace,S1,inside\nplace,S1-A,inside\nplace,S2,inside\n"
    "place,MUSEUM-X,elsewhere\nbox,C1\nbox,C17\nown,2001.4.1,S1-A\nown,2001.4.2,S1-A\n"
    "own,2001.4.21a,S1\nown,2001.4.3,S1\nlent,L1999.7\n"
)
PUTS = [("C17", "S1-A"), ("2001.4.2", "S2"), ("2001.4.21a", "S1-A"), ("2001.4.3", "S1")]
# every answer; marks, quotes, empty fields and rows, a carriage return, and no line feed at the end
LIST = (
    '\ufeffS1-A,C17\r\nS1\n\n"S1",2001.4.21a,\nS9,2001.4.2\nS2,"2001.4.2"\n,\nS1,2001.4.2\n'
    "S1-A,L1999.7,,\nS1,2009.1.1\nMUSEUM-X,C1\nS1-A,2001.4.3"
).encode()
BAD_LISTS = [b"S1\nS1,2001.4.1,x\nS2\n", b"S1\nS1,C01\n", b"S2,\xc3\xa5\n"]


def scan(n, message):
    return json.dumps({"n": n, "message": message}, ensure_ascii=False)


PACKED = {"kind": "pack", "thing": "2001.4.1", "container": "C1", "day": "2024-05-02"}
AUTHORISED = {"kind": "authorise", "loan": "LO2024.1", "by": "Dr. Håkan Öst"}
# held, refused, faulty and empty lines, letters of two bytes, a carriage return and a sign-off
PACK_FEED = "\n".join(
    [scan(2, move("C1", "S2")), scan(1, move("C1", "S1")), "", scan(2, move("C1", "S1")) + "\r"]
    + ["x", "{}", scan(4, PACKED), '{"ask":"2001.4.1"}', scan(3, AUTHORISED), '{"ask":"2001.4.1"}']
    + [scan(0, move("C1", "S1")), '{"ask":"l1"}', scan(5, move("C1", "S9"))]
    + [scan(6, {"kind": "signoff", "by": "Ann"}), scan(7, move("C1", "S1"))]
).encode()
GAL_FEED = "\n".join(
    [scan(3, move("C17", "S2")), scan(1, move("C17", "S1")), '{"ask":"C17"}']
    + [scan(2, move("C17", "S1-A")), '{"ask":"C17"}\r', ""]
).encode()


def run(room, *words):
    """What a command says, without the lines of help."""
    status, output, errors = room.run(*words)
    return (
        status,
        output,
        "".join(line for line in errors.splitlines(True) if not line.startswith("help: ")),
    )


class Lists:
    """A record, and lists that are counted against it, each cut after each byte."""

    def __init__(self, room, head, messages, lists):
        self.room, self.head = room, head
        self.lines = "".join(
            json.dumps({"station": "GAL", "n": n, "message": message}) + "\n"
            for n, message in enumerate(messages, 1)
        ).encode()
        room.clear()
        room.write("setup.csv", head)
        room.replay(self.lines)
        self.cuts = [text[:cut] for text in lists for cut in range(len(text) + 1)]

    def try_cut(self, which):
        text, store = self.cuts[which], self.room.path(f"{which}.db")
        shutil.copy(self.room.store, store)
        words = "--setup", "setup.csv", "--store", store, self.room.write(f"{which}.csv", text)
        got = run(self.room, "count", *words)
        os.remove(store)
        status, lines, errors = counts.wanted(self.head, self.lines, text)
        want = status, "".join(line + "\n" for line in lines), errors
        if got != want:
            raise Failed(f"the list {text!r}: {got}, and the plain program says {want}")


class Feeds:
    """Two feeds that don't touch each other's things, one of which is cut after each byte."""

    def __init__(self, room):
        self.room = room
        self.feeds = {"PACK": PACK_FEED, "GAL": GAL_FEED}
        room.write("setup.csv", HEAD)
        for station, feed in self.feeds.items():
            room.write(f"{station}.jsonl", feed)
        self.replies = {station: self.replies_of(station) for station in self.feeds}
        self.cuts = [(s, cut) for s, feed in self.feeds.items() for cut in range(len(feed) + 1)]

    def served(self, station, feed, name):
        """The replies to each station, where this one's feed is this."""
        names = {other: f"{other}.jsonl" for other in self.feeds}
        names[station] = self.room.write(name, feed)
        status, log, errors = run(self.room, "serve", "--setup", "setup.csv", *names.values())
        log = POSTED.sub(" posted # ", log).splitlines(True)
        cut = {each: [line for line in log if line.startswith(each + " ")] for each in self.feeds}
        if status or sum(map(len, cut.values())) != len(log):
            raise Failed(f"{station}, {feed!r}: status {status}, {log}, {errors!r}")
        if errors != "".join(notes(cut)):
            raise Failed(f"{station}, {feed!r}: {errors!r} after {cut}")
        return cut

    def replies_of(self, station):
        """The replies to the whole lines before each end of a line, the first ones of all."""
        feed = self.feeds[station]
        whole = self.served(station, feed, f"{station}.whole")[station]
        ends = [0, *(at + 1 for at, byte in enumerate(feed) if byte == 10), len(feed)]
        replies = {end: self.served(station, feed[:end], "front")[station] for end in ends}
        for said in replies.values():
            if said != whole[: len(said)]:
                raise Failed(f"{station}: {said} is no front of {whole}")
        return replies

    def try_cut(self, which):
        station, cut = self.cuts[which]
        feed, replies = self.feeds[station], self.replies[station]
        start = feed.rfind(b"\n", 0, cut) + 1
        got = self.served(station, feed[:cut], f"{which}.jsonl")
        end = min((end for end in replies if end > start), default=cut)
        line, whole = feed[start:cut].removesuffix(b"\r"), feed[start:end].rstrip(b"\r\n")
        want = list(replies[start])
        if line == whole:
            want = replies[end]
        elif line:
            number = feed.count(b"\n", 0, cut) + 1
            want.append(f"{station} line {number} bad {fault_of(line)}\n")
        other = {each: said[len(self.feeds[each])] for each, said in self.replies.items()}
        if got != other | {station: want}:
            raise Failed(f"{station}, cut after {cut} bytes: {got}, not {want}")


def fault_of(line):
    """The fault of a line that is cut: what isn't JSON any more is NotJson."""
    try:
        return line_fault(json.loads(line.decode()) | {"station": ""})
    except (TypeError, ValueError):
        return "NotJson"


def notes(cut):
    """The note of each station with messages that are still held at the end."""
    for station, replies in cut.items():
        held, posted = (
            {int(line.split(" ")[1]) for line in replies if word in line} for word in HELD
        )
        count = len(held - posted)
        if count:
            what, again = ONE if count == 1 else (f"{count} messages", MANY)
            yield f"note: {station}: {what} held, waiting for {len(posted) + 1}; {again}\n"


def try_all(tried):
    """How many cuts were tried; each has to be right."""
    with ThreadPoolExecutor(2) as pool:
        return len(list(pool.map(tried.try_cut, range(len(tried.cuts)))))


def test_lists(room, rounds=3):
    """A count list that is cut after any byte has the answers, or the fault, that the definitions
    give. One list has every answer, some have a fault, and some are random."""
    records = [(HEAD, [move(*put) for put in PUTS], [LIST, *BAD_LISTS])]
    for _ in range(rounds):
        draws = Draws(room.draws.randrange(1 << 32))
        head = counts.setup(draws)
        records.append((head, list(counts.messages(draws)), [counts.count_list(draws)]))
    cuts = sum(try_all(Lists(room, *record)) for record in records)
    print(f"{cuts} cuts")
    return cuts > 0


def test_feeds(room):
    """Of two feeds that are served, each in turn is cut after each byte: the lines that ended
    before the cut have the replies that they have in the whole file."""
    cuts = try_all(Feeds(room))
    print(f"{cuts} cuts")
    return cuts > 0
