"""What the plain program prints for the commands that read a record, in each form."""
import json
import unicodedata

from oracle import causes
from oracle.book import (
    agreement,
    applied,
    chain,
    is_authorised,
    is_container,
    last_day,
    place,
    stage,
    targets,
)
from oracle.plain import arrival
from oracle.store import day_number, loans, own_text, spots
from oracle.text import museum_of, read_line

NORMAL = {"2001.4.1": "S1-A", "2001.4.2": "S1-A"}
STILL_OUT = ("Away", "Here")


class Record:
    """A museum and what is posted, asked by walking all of it."""

    def __init__(self, museum, posted):
        self.museum, self.posted, self.put = museum, posted, targets(posted)

    @classmethod
    def of(cls, setup, lines):
        """The record after these lines."""
        museum, posted, taken = museum_of(setup), [], []
        for text in lines.split(b"\n"):
            line, fault = read_line(text)
            if not fault and line["station"] in museum.stations and "ask" not in line:
                arrival(museum, taken, posted, line["station"], line["n"], line["message"])
        return cls(museum, posted)

    def upto(self, entry):
        """The record as it was after an entry."""
        return Record(self.museum, self.posted[:entry])

    def place(self, thing):
        return place(self.put, thing)

    def lies(self, thing, sought):
        """Whether a thing's place is the one sought, or lies in it."""
        at = self.place(thing)
        return at is not None and (at == sought or at.startswith(sought + "-"))

    def overdue(self, day):
        late = [loan for loan in loans(self.posted) if last_day(self.posted, loan) < day]
        return [f"{loan} {last_day(self.posted, loan)}" for loan in late if self.is_owed(loan)]

    def is_owed(self, loan):
        return any(
            stage(self.museum, self.posted, loan, thing) in STILL_OUT
            for thing in self.museum.things
        )

    def stages(self, loan):
        """Each object of a loan, with its stage."""
        return [
            (thing, stage(self.museum, self.posted, loan, thing))
            for thing in agreement(self.posted, loan)["objects"]
        ]

    def state(self, loan):
        stages = [found for _, found in self.stages(loan)]
        if not is_authorised(self.posted, loan):
            return "Draft"
        if all(found in ("Back", "GivenBack") for found in stages):
            return "Closed"
        return "Authorised" if all(found == "Awaiting" for found in stages) else "Running"

    def loans(self, day, only_open):
        """The line of each loan, with the days that are left on a day."""
        return [
            self.loan_line(loan, day)
            for loan in loans(self.posted)
            if not only_open or self.state(loan) != "Closed"
        ]

    def loan_line(self, loan, day):
        terms, state, stages = agreement(self.posted, loan), self.state(loan), self.stages(loan)
        last, out = last_day(self.posted, loan), sum(found in STILL_OUT for _, found in stages)
        days = day_number(last) - day_number(day)
        objects = "1 object" if len(stages) == 1 else f"{len(stages)} objects"
        left = (
            f", {abs(days)} day{'s' * (abs(days) != 1)} {'left' if days >= 0 else 'over'}"
            if state != "Closed"
            else ""
        )
        return (
            f"{loan} {state} {terms['partner']} {terms['first']} {last} {objects}, {out} out{left}"
        )

    def loan_values(self, by):
        """The values of the loans that end by a day, by column."""
        return [
            self.values_of(loan) for loan in loans(self.posted) if last_day(self.posted, loan) <= by
        ]

    def values_of(self, loan):
        terms, stages = agreement(self.posted, loan), [found for _, found in self.stages(loan)]
        out, awaited = sum(found in STILL_OUT for found in stages), stages.count("Awaiting")
        names = [
            m["by"]
            for _, m in applied(self.posted)
            if m["kind"] == "authorise" and m["loan"] == loan
        ]
        numbers = [
            str(number) for number in (len(stages), awaited, out, len(stages) - awaited - out)
        ]
        head = [
            loan,
            self.state(loan),
            terms["partner"],
            terms["first"],
            last_day(self.posted, loan),
        ]
        return [*head, *numbers, "", "", names[0] if names else ""]

    def partner(self, loan):
        return agreement(self.posted, loan)["partner"]

    def dues(self, by):
        return [
            " ".join([loan, thing, last_day(self.posted, loan), found, self.partner(loan)])
            for loan in loans(self.posted)
            if last_day(self.posted, loan) <= by
            for thing, found in self.stages(loan)
            if found in STILL_OUT
        ]

    def away(self):
        return [f"{thing} {at or '-'} normal {normal}" for thing, at, normal in self.away_values()]

    def away_values(self):
        return [
            [thing, self.place(thing) or "", normal]
            for thing, normal in NORMAL.items()
            if self.place(thing) != normal
        ]

    def locations(self, thing):
        """The values of each location of a thing, with the containers right after its entry, and
        that entry's message."""
        places, number = list(self.museum.inside), self.museum.things.index(thing)
        return [
            self.location(thing, entry, places[at])
            for one, _, entry, at, _ in spots(self.museum, self.posted)
            if one == number
        ]

    def location(self, thing, number, at):
        entry, above = self.posted[number - 1], chain(targets(self.posted[:number]), thing)
        message = entry.message
        return {
            "entry": number,
            "day": message["day"],
            "place": at,
            "containers": above,
            "loan": message.get("loan"),
            "station": entry.station,
            "n": entry.n,
            "kind": message["kind"],
        }

    def at(self, sought):
        return [
            f"{thing} {self.place(thing)}"
            for thing in self.museum.things
            if self.lies(thing, sought)
        ]

    def contents(self, container):
        inside = [thing for thing in self.museum.things if container in chain(self.put, thing)]
        return [f"{thing} in {' '.join(chain(self.put, thing))}" for thing in inside]

    def entries(self):
        return [
            f"{number} {entry.station} {entry.n} {entry.verdict} {own_text(entry.message)}"
            for number, entry in enumerate(self.posted, 1)
        ]

    def refused(self):
        """The number of the first entry with each verdict other than Applied."""
        first = {}
        for number, entry in enumerate(self.posted, 1):
            first.setdefault(entry.verdict, number)
        return {number for verdict, number in first.items() if verdict != "Applied"}

    def entries_by(self, keeps):
        """The lines of the entries for which a test holds, by the station and the message."""
        return [line for line, entry in zip(self.entries(), self.posted) if keeps(entry)]

    def why(self, number):
        """The line on the cause of an entry's verdict, if there is the entry."""
        return [causes.why(self.museum, self.posted, number)] if number <= len(self.posted) else []

    def why_values(self, number):
        return (
            [causes.values(self.museum, self.posted, number)] if number <= len(self.posted) else []
        )

    def counted(self, rows, sealed=False):
        """What is said to each row, and what the list misses: if sealed, not what is in a container
        that was found."""
        said, named = [], set()
        for sought, thing in rows:
            said.append(self.answer(sought, thing, named))
            named.add(thing)
        found = (
            {thing for sought, thing in rows if self.answer(sought, thing, ()) == "Found"}
            if sealed
            else set()
        )
        mentioned = dict.fromkeys(sought for sought, _ in rows if sought in self.museum.inside)
        missing = [
            f"missing {sought} {thing}"
            for sought in mentioned
            for thing in self.museum.things
            if not is_container(thing)
            and thing not in named
            and self.lies(thing, sought)
            and not found.intersection(chain(self.put, thing))
        ]
        return [f"row {i} {answer}" for i, answer in enumerate(said, 1)] + missing

    def answer(self, sought, thing, named):
        if sought not in self.museum.inside:
            return "UnknownPlace"
        if thing is None:
            return "Counted"
        if thing not in self.museum.things:
            return "UnknownObject"
        if thing in named:
            return "Again"
        if self.place(thing) is None:
            return "Unplaced"
        return "Found" if self.lies(thing, sought) else f"Elsewhere {self.place(thing)}"


def history(locations):
    """The lines on a thing's locations."""
    return [f"{its['entry']} {its['day']} {its['place']}" for its in locations]


def long_history(locations):
    """The same with the containers, the loan and the message."""
    return [
        " ".join(
            [
                *history([its]),
                *(["in"] if its["containers"] else []),
                *its["containers"],
                *([its["loan"]] if its["loan"] else []),
                its["station"],
                str(its["n"]),
                its["kind"],
            ]
        )
        for its in locations
    ]


def long_values(locations):
    """The same as texts, by column."""
    return [
        [
            str(it)
            for it in {
                **its,
                "containers": " ".join(its["containers"]),
                "loan": its["loan"] or "",
            }.values()
        ]
        for its in locations
    ]


def long_objects(locations):
    """The same as JSON."""
    return [json.dumps(its, separators=(",", ":")) for its in locations]


def quoted(text):
    """A text as a comma-separated value."""
    return '"' + text.replace('"', '""') + '"' if any(mark in text for mark in ',"\r\n') else text


def separated(names, rows):
    """The rows as comma-separated values, below the names of their columns."""
    return [",".join(map(quoted, row)) for row in [names.split(), *rows]]


def table(names, rows):
    """The rows as aligned columns, below the names of their columns."""
    lines = [names.split(), *([value or "-" for value in row] for row in rows)]
    widths = [max(map(width, column)) for column in zip(*lines)]
    return ["  ".join([*map(filled, line[:-1], widths), line[-1]]) for line in lines]


def filled(text, columns):
    return text + " " * (columns - width(text))


def width(text):
    """The columns that a text takes in a terminal. The crate `unicode_width` has rules for
    sequences, such as emoji and ligatures, that this hasn't; no text of a random record has one."""
    return sum(
        2 if unicodedata.east_asian_width(mark) in "WF" else not unicodedata.combining(mark)
        for mark in text
    )
