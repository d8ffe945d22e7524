"""Count lists, on museums and records that look drawn and are the same in every run, and what the
plain program says to them: places within places, some of whose codes begin alike, crates in crates,
and objects on loan. A list may have a byte order mark, fields in quotes, empty fields and empty
rows; of four lists one has a fault."""
import csv
import io

from oracle.reports import Record
from oracle.text import is_place, is_thing

PLACES = [
    "S1",
    "S10",
    "S1-A",
    "S1-AB",
    "S1-A-B",
    "S1-A-B-C",
    "S1-A-BC",
    "S10-A",
    "S2-A",
    "S2-A-B",
    "S",
    "T-1-2-3",
]
ELSEWHERE = ["MUSEUM-X", "S1-X", "LENDER-Y"]
CRATES = ["C1", "C2", "C3", "C4"]
OWN = ["2001.4.1", "2001.4.2", "2001.41", "1987.12.3a", "1987.12.3b", "2010.1"]
LENT = ["L1999.7", "L1999.8"]
UNKNOWN = ["2009.1", "C99", None]
BAD_ROWS = ["S1,C1,C2\n", "s1\n", "S1-\n", "S1,C0\n", "S1,2001\n", ",C1\n", "S1,C1,,C2\n"]
ENDS = ["\n", "\n", "\n", "\r\n", ",\n", ",,\n"]
DAY = {"day": "2024-05-02"}
TERM = {"first": "2024-05-01", "last": "2024-05-31"}


def setup(draws):
    """The setup's rows: three of four places, and all things in a drawn order."""
    places = ["S1"] + [place for place in PLACES[1:] if draws.below(4) > 0]
    things = [f"box,{crate}" for crate in CRATES] + [f"lent,{thing}" for thing in LENT]
    things += [f"own,{thing},{draws.one_of(places)}" for thing in OWN]
    rows = [f"place,{place},inside" for place in places] + [
        f"place,{place},elsewhere" for place in ELSEWHERE
    ]
    drawn = [things.pop(draws.below(len(things))) for _ in range(len(things))]
    return "".join(f"{row}\n" for row in ["station,GAL", *rows, *drawn])


def messages(draws):
    """A loan out and a loan in, and then moves and packs, with what exits and what is received
    among them."""
    out, borrowed = {"loan": "LO2024.1"}, {"loan": "LI2024.1"}
    yield {
        "kind": "agree",
        **out,
        "partner": draws.one_of(ELSEWHERE[:2]),
        "objects": OWN[:3],
        **TERM,
    }
    yield {"kind": "agree", **borrowed, "partner": "LENDER-Y", "objects": LENT, **TERM}
    yield {"kind": "authorise", **out, "by": "Ann"}
    yield {"kind": "authorise", **borrowed, "by": "Ann"}
    for _ in range(draws.below(60)):
        thing, place = draws.one_of([*CRATES, *OWN, *LENT]), draws.one_of(PLACES + PLACES[:7])
        yield draws.one_of(
            [
                {"kind": "move", "thing": thing, "place": place, **DAY},
                {"kind": "move", "thing": thing, "place": place, **DAY},
                {"kind": "pack", "thing": thing, "container": draws.one_of(CRATES), **DAY},
                {"kind": "pack", "thing": thing, "container": draws.one_of(CRATES), **DAY},
                {"kind": "exit", "thing": draws.one_of(OWN[:3]), **out, **DAY},
                {"kind": "receive", "thing": draws.one_of(LENT), **borrowed, "place": place, **DAY},
            ]
        )


def row(draws):
    """A row as it is written, or one that is skipped."""
    if draws.below(16) == 0:
        return draws.one_of(["\n", ",\n", '"",""\n'])
    fields = [draws.one_of([*PLACES, *ELSEWHERE, "S1", "S1", "S1", "S1-A", "S1-A", "S9"])]
    thing = draws.one_of([*CRATES, *OWN, *LENT, *UNKNOWN])
    fields += [thing] if thing else []
    return ",".join(
        f'"{field}"' if draws.below(8) == 0 else field for field in fields
    ) + draws.one_of(ENDS)


def count_list(draws):
    """The bytes of a list."""
    rows = [row(draws) for _ in range(draws.below(24))]
    spoiled = draws.below(16)
    if spoiled < 3:
        rows.insert(draws.below(len(rows) + 1), draws.one_of(BAD_ROWS))
    mark = "\ufeff" if draws.below(4) == 0 else ""
    text = (mark + "".join(rows)).encode()
    return text + b"\xff" if spoiled == 3 else text


def read(text):
    """The rows of a list, each a place and a thing or None, and the first fault."""
    try:
        lines = csv.reader(io.StringIO(text.decode().removeprefix("\ufeff"), newline=""))
    except UnicodeDecodeError:
        return [], "NotCsv"
    rows = []
    for number, fields in enumerate(filter(None, lines), 1):
        while fields and not fields[-1]:
            fields.pop()
        if len(fields) > 2:
            return rows, f"BadFields row {number}"
        if fields and not (is_place(fields[0]) and all(map(is_thing, fields[1:]))):
            return rows, f"BadCode row {number}"
        rows += [(fields[0], fields[1] if fields[1:] else None)] if fields else []
    return rows, None


def wanted(head, lines, text):
    """The status, the lines and the error text that a count has to give."""
    rows, fault = read(text)
    return (
        (1, [], f"fault counts {fault}\n")
        if fault
        else (0, Record.of(head, lines).counted(rows), "")
    )
