"""Years of a museum whose setup grows at the end of each month keep the record as it was."""
import json

from common.growing import asks, file_of, grows, lists
from common.museum import MuseumRoom, move, pack, scans
from common.room import same, without_advice
from common.sqlite import held, read
from oracle.growth import Setup, further, grown, growth_lines
from oracle.store import Entry

ROOM = MuseumRoom


def own(number):
    return f"{2001 + number // 10_000}.{number % 10_000 + 1}"


class Years:
    """A museum that gets so many objects in so many months. All is drawn from `draws`."""

    def __init__(self, draws, months, objects):
        self.draws, self.months, self.objects = draws, months, objects
        self.next, self.shelf, self.month, self.loan = {"STORE": 1, "DESK-1": 1}, "R0", 0, None
        self.desk, self.owned, self.crates = "DESK-1", [], []
        first = [
            self.new_object("R0") for _ in range(objects // (months + 1) + objects % (months + 1))
        ]
        head = ["station,STORE", "station,DESK-1", "place,R0,inside", "place,PARTNER-1,elsewhere"]
        self.file = file_of([*head, *self.new_crates(), *first])

    def new_object(self, place):
        self.owned.append(own(len(self.owned)))
        return f"own,{self.owned[-1]},{place}"

    def new_crates(self):
        self.crates += [f"C{len(self.crates) + 1}", f"C{len(self.crates) + 2}"]
        return [f"box,{crate}" for crate in self.crates[-2:]]

    def lines(self, station, messages):
        """The lines of a station, which go on with its next number."""
        first = self.next[station]
        self.next[station] += len(messages)
        return scans(messages, station, first)

    def day(self):
        year, month = divmod(self.month - 1, 12)
        return f"{2024 + year}-{month + 1:02}-10"

    def work(self):
        """The lines of a month: a crate and objects are moved and packed, and a loan goes out, and
        comes back in every other month."""
        day, loan = self.day(), f"LO{2023 + (self.month + 11) // 12}.{(self.month - 1) % 12 + 1}"
        crate, thing_lent = self.draws.choice(self.crates), self.draws.choice(self.owned[10:])
        some = self.draws.choices(self.owned, k=10)
        messages = [move(thing, self.shelf, day) for thing in [crate, *some[:6]]]
        messages += [{**pack(thing, crate), "day": day} for thing in some[6:]]
        terms = {
            "partner": "PARTNER-1",
            "objects": [thing_lent],
            "first": day,
            "last": "2099-01-01",
        }
        crossing = {"thing": thing_lent, "loan": loan, "day": day}
        lent = [
            {"kind": "agree", "loan": loan, **terms},
            {"kind": "authorise", "loan": loan, "by": "Ann"},
        ]
        lent += [move(thing_lent, self.shelf, day), {"kind": "exit", **crossing}]
        lent += [{"kind": "return", "place": self.shelf, **crossing}] * (self.month % 2)
        self.loan = loan
        return self.lines("STORE", messages) + self.lines(self.desk, lent)

    def arrivals(self):
        """The rows that the next growth adds, and rows of listed objects that get another normal
        location."""
        moved = self.draws.sample(self.owned, 3)
        self.shelf = f"R{self.month}-A"
        count = self.objects // (self.months + 1)
        rows = [
            f"place,{self.shelf},inside",
            *self.new_crates(),
            *(self.new_object(self.shelf) for _ in range(count)),
        ]
        rows.append(f"lent,L2020.{self.month}")
        if self.month % 4 == 0:
            rows.append(f"station,DESK-{self.month // 4 + 1}")
        return rows, [f"own,{thing},{self.shelf}" for thing in moved]

    def too_early(self):
        """Messages that name what only the last arrivals list, with their verdicts until then. They
        are applied afterwards: the first ten objects never leave."""
        day, crate, old = self.day(), self.crates[-1], self.draws.choice(self.owned[:10])
        return [
            (move(self.owned[-1], "R0", day), "UnknownThing"),
            (move(self.crates[0], self.shelf, day), "UnknownPlace"),
            (move(crate, self.shelf, day), "UnknownThing"),
            ({**pack(old, crate), "day": day}, "UnknownContainer"),
        ]

    def asked(self):
        """Questions about the record, as the words of commands."""
        older = self.owned[: -(self.objects // (self.months + 1))]
        thing, crate = self.draws.choice(older), self.draws.choice(self.crates[:-2])
        about = [
            ["history", thing],
            ["where", thing],
            ["history", crate],
            ["where", crate],
            ["contents", crate],
        ]
        return [["posted"], ["stations"], ["away"], *about, ["loan", self.loan]]

    def next_desk(self, rows):
        """The lines by which the desk signs off, if these rows list its successor."""
        desks = [row.split(",")[1] for row in rows if row.startswith("station,")]
        if not desks:
            return ""
        lines = self.lines(self.desk, [{"kind": "signoff", "by": "Ann"}])
        self.desk = desks[0]
        self.next[self.desk] = 1
        return lines


def as_file(draws, listed, rows, moved):
    """A file with these additions: only they, the whole list with them at its end, or the whole
    list in any order."""
    form, moving = draws.randrange(3), {row.split(",")[1]: row for row in moved}
    if form == 0:
        return file_of([*rows, *moved])
    whole = [moving.get(row.split(",")[1], row) for row in listed.splitlines()]
    places = [row for row in rows if row.startswith("place,")]
    others = [row for row in rows if row not in places]
    if form == 2:
        whole = sorted(
            draws.sample(whole, len(whole)), key=lambda row: not row.startswith("place,")
        )
    return file_of([*places, *whole, *others])


def away_after(before, old, new):
    """What `away` prints after a growth, by what it printed before."""
    places = {line.split(" ")[0]: line.split(" ")[1] for line in before.splitlines()}
    lines = []
    for thing, normal in new.things.items():
        at = places.get(thing, old.things[thing]) if thing in old.things else "-"
        if normal and at != normal:
            lines.append(f"{thing} {at} normal {normal}\n")
    return "".join(lines)


def entries_of(posted):
    """The entries that `posted` printed."""
    for line in posted.splitlines():
        _, station, number, verdict, text = line.split(" ", 4)
        yield Entry(station, int(number), json.loads(text), verdict)


# The test


def test_years(room, months=10, objects=300):
    """After each growth the record gives the same answers about what it had, and takes what it
    refused as unknown."""
    museum = Years(room.draws, months, objects)
    setup, good = further(Setup(), museum.file.encode())[0], True
    room.write("museum.csv", museum.file)
    for month in range(1, months + 1):
        museum.month = month
        good &= same(asks(room, "replay", given=museum.work())[0], 0)
        setup, is_good = grows_in_a_month(room, museum, setup)
        good &= is_good
        if not good:
            print(f"in month {month}")
            return False
    print(f"{months} growths, {len(setup.things)} things, {len(museum.next)} stations")
    return good and goes_on(room, museum)


def grows_in_a_month(room, museum, setup):
    """The setup after the growth of a month, and whether all was right."""
    listed = setup.file()
    rows, moved = museum.arrivals()
    early = museum.too_early()
    refused = asks(room, "replay", given=museum.lines("STORE", [message for message, _ in early]))[
        1
    ]
    good = same(
        [reply.split(" ")[-1] for reply in refused.splitlines()], [verdict for _, verdict in early]
    )
    asks(room, "replay", given=museum.next_desk(rows))
    asked = [*museum.asked(), ["posted", "--refused"], ["why", refused.split(" ")[3]]]
    before, stored = [asks(room, *words) for words in asked], read(room.store)[0]
    posted = list(entries_of(before[0][1]))
    file = as_file(museum.draws, listed, rows, moved).encode()
    after, faults = further(setup, file)
    good &= same(
        (faults, without_advice(grows(room, file))),
        ([], (0, file_of(growth_lines(setup, after, posted)), "")),
    )
    new = grown(setup, after, len(posted))
    good &= same(without_advice(asks(room, "stations")), (1, "", "fault store OtherSetup\n"))
    good &= same(lists(room), new.file()) and same(
        read(room.store)[0], {**stored, "setup": new.table()}
    )
    good &= are_kept(asked, before, [asks(room, *words) for words in asked], setup, new)
    kept = held(room)
    good &= same(grows(room, file), (0, "nothing to add\n", "")) and same(held(room), kept)
    again = asks(
        room, "replay", given=museum.lines(museum.desk, [message for message, _ in early])
    )[1]
    return new, good and same(
        [reply.split(" ")[-1] for reply in again.splitlines()], ["Applied"] * len(early)
    )


def are_kept(asked, before, after, old, new):
    """Whether the answers before a growth are the ones after it: there may be more stations, and
    `away` goes by the new normal locations."""
    good = True
    for words, (status, output, errors), said in zip(asked, before, after):
        if words == ["stations"]:
            output += file_of(f"{name} next 1" for name in new.stations[len(old.stations) :])
        elif words == ["away"]:
            output = away_after(output, old, new)
        good &= same((words, said), (words, (status, output, errors)))
    return good and before[0][0] == 0


def goes_on(room, museum):
    """Whether a store that has grown is copied, migrated and served like any other."""
    room.write("none.jsonl", "")
    feeds = ["none.jsonl"] * len(museum.next)
    good = same(asks(room, "copy", "--to", "copy.db")[0], 0) and same(
        read(room.path("copy.db")), read(room.store)
    )
    good &= same(asks(room, "migrate"), (0, "migrated\n", "")) and same(
        asks(room, "serve", *feeds), (0, "", "")
    )
    return good and same(asks(room, "serve", *feeds[1:])[0], 2)
