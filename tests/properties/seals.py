"""Seals and receipts are those of RFC 6962 over the lines of `posted`, and a changed entry breaks
them."""
import json
import sqlite3

from common.room import Room, same
from oracle.seals import receipt_of, seal_of

MUSEUM = "station,GAL\nplace,S1,inside\nplace,S2,inside\nown,2001.4.1,S1\nown,2001.4.2,S2\n"
RECORD = ("--setup", "museum.csv", "--store", "museum.db")


class SealRoom(Room):
    """A record whose entries are random moves of one station."""

    def furnish(self):
        self.write("museum.csv", MUSEUM)
        self.next = 1

    def post(self, message):
        line = json.dumps({"station": "GAL", "n": self.next, "message": message})
        self.next += 1
        return self.run("replay", *RECORD, given=line + "\n")[0] == 0

    def post_moves(self, count):
        """Posts so many random moves, some of things that the setup does not list."""
        lines = []
        for n in range(self.next, self.next + count):
            thing = self.draws.choice(["2001.4.1", "2001.4.2", "2001.4.3"])
            place = self.draws.choice(["S1", "S2", "S3"])
            message = {"kind": "move", "thing": thing, "place": place, "day": "2024-05-01"}
            lines.append(json.dumps({"station": "GAL", "n": n, "message": message}) + "\n")
        self.next += count
        return self.run("replay", *RECORD, given="".join(lines))[0] == 0

    def lines(self):
        """The lines of the entries."""
        return self.printed("posted", *RECORD).encode().splitlines()

    def checked(self, seals):
        """The status and the output of a check of seals."""
        return self.run("seal", "--check", "-", *RECORD, given=seals)[:2]


ROOM = SealRoom


def compact(receipt):
    return json.dumps(receipt, separators=(",", ":"))


def test_seals(room, rounds=5):
    """Each seal is that of RFC 6962, and holds, also after more entries are posted."""
    good = True
    for _ in range(rounds):
        good &= room.post_moves(room.draws.randint(1, 30))
        lines = room.lines()
        sizes = sorted(room.draws.choices(range(len(lines) + 1), k=3)) + [len(lines)]
        seals = [seal_of(lines[:size]) for size in sizes]
        got = [room.printed("seal", "--upto", str(size), *RECORD) for size in sizes]
        good &= same(got, seals) and same(room.printed("seal", *RECORD), seals[-1])
        good &= room.post_moves(room.draws.randint(1, 10))
        held = "".join(f"{size} holds\n" for size in sizes)
        good &= same(room.checked("".join(seals)), (0, held))
    return good


def test_many_entries(room, entries=4200):
    """A seal of many entries, which are hashed in blocks of 1,024 by several threads, is that of
    RFC 6962, too, and so is one that ends beside the end of a block."""
    good = room.post_moves(entries)
    lines = room.lines()
    sizes = [*range(1023, 1026), *range(2047, 2050), room.draws.randint(2050, entries), entries]
    seals = [seal_of(lines[:size]) for size in sizes]
    got = [room.printed("seal", "--upto", str(size), *RECORD) for size in sizes]
    held = "".join(f"{size} holds\n" for size in sizes)
    return same(got, seals) and same(room.checked("".join(seals)), (0, held)) and good


def test_receipts(room, rounds=10):
    """Each receipt is that of RFC 6962, and holds, and one of another line is broken."""
    good = room.post_moves(room.draws.randint(1, 40))
    lines = room.lines()
    for _ in range(rounds):
        size = room.draws.randint(1, len(lines))
        entry = room.draws.randint(1, size)
        receipt, line = receipt_of(entry, lines[:size]), lines[entry - 1].decode()
        text = room.printed("receipt", str(entry), "--upto", str(size), *RECORD)
        good &= same(text, compact(receipt) + "\n")
        shown = f"{entry} holds\nseal {seal_of(lines[:size])}entry {line}\n"
        good &= same(room.run("receipt", "--check", "-", given=text)[:2], (0, shown))
        other = compact(receipt | {"line": line + "."})
        good &= same(room.run("receipt", "--check", "-", given=other)[:2], (1, f"{entry} broken\n"))
    return good


def test_changed_entry(room):
    """A name that is changed in the store, which then opens without a fault, breaks each seal over
    its entry, and no other."""
    good = room.post_moves(room.draws.randint(1, 30))
    good &= room.post({"kind": "authorise", "loan": "LO2024.1", "by": "Ann"})
    good &= room.post_moves(room.draws.randint(1, 10))
    lines = room.lines()
    entry = next(i for i, line in enumerate(lines, 1) if b"Ann" in line)
    seals = "".join(seal_of(lines[:size]) for size in (entry - 1, entry, len(lines)))
    store = sqlite3.connect(room.path("museum.db"))
    store.execute("UPDATE posting SET body = replace(body, 'Ann', 'Bob') WHERE id = ?", (entry,))
    store.commit()
    store.close()
    good &= room.lines() != lines
    wanted = f"{entry - 1} holds\n{entry} broken\n{len(lines)} broken\n"
    return same(room.checked(seals), (1, wanted)) and good
