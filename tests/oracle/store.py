"""What a plain program over the definitions says of a store: the rows that a posted list gives it,
and why it can't be opened, the first refusal in its order. The rows are as a stock SQLite reads
them."""
import datetime
import json
from collections import namedtuple

from oracle.book import agreement, applied, last_day, place, stage, targets, verdict
from oracle.text import message_fault

Entry = namedtuple("Entry", "station n message verdict")
VERDICTS = (
    "Applied UnknownThing UnknownPlace ElsewherePlace UnknownContainer UnknownLoan LoanKnown "
    "InsidePartner NoObjects NotObject Repeated WrongOwner BadTerm AlreadyAuthorised "
    "NotAuthorised WrongDirection NotHere ContainerNotHere Cycle "
    "TooDeep NotWithPartner AlreadyHere NotListed WrongStage TermOver NotLater"
).split()
STAGES = "Awaiting Away Back Here GivenBack".split()
# each table's columns: name, type, NOT NULL, place in the primary key
TABLES = {
    "meta": [("name", "TEXT", 1, 1), ("val", "INTEGER", 1, 0)],
    "setup": [("id", "INTEGER", 0, 1), ("txt", "TEXT", 1, 0)],
    "posting": [
        ("id", "INTEGER", 0, 1),
        ("station", "INTEGER", 1, 0),
        ("n", "INTEGER", 1, 0),
        ("body", "TEXT", 1, 0),
        ("verdict", "INTEGER", 1, 0),
    ],
    "spot": [
        ("thing", "INTEGER", 1, 1),
        ("k", "INTEGER", 1, 2),
        ("entry", "INTEGER", 1, 0),
        ("place", "INTEGER", 1, 0),
        ("day", "INTEGER", 1, 0),
    ],
    "line": [("loan", "TEXT", 1, 1), ("object", "INTEGER", 1, 2), ("stage", "INTEGER", 1, 0)],
    "term": [("loan", "TEXT", 1, 1), ("day", "INTEGER", 1, 0)],
}


def day_number(day):
    return (datetime.date.fromisoformat(day) - datetime.date(1970, 1, 1)).days


def own_text(message):
    return json.dumps(message, separators=(",", ":"), sort_keys=True, ensure_ascii=False)


def setup_rows(museum, normal):
    """The setup's rows: stations, then places, then things; `normal` tells an own object's
    place."""
    rows = [f"station,{name}" for name in museum.stations]
    rows += [
        f"place,{code},{'inside' if inside else 'elsewhere'}"
        for code, inside in museum.inside.items()
    ]
    for thing in museum.things:
        kind = "box" if thing.startswith("C") else "lent" if thing.startswith("L") else "own"
        rows.append(f"{kind},{thing}" + (f",{normal[thing]}" if kind == "own" else ""))
    return list(enumerate(rows, 1))


def spots(museum, posted):
    """For each thing a row for each entry after which its place differs from the one before."""
    places, rows = list(museum.inside), []
    puts = [targets(posted[:i]) for i in range(len(posted) + 1)]
    for number, thing in enumerate(museum.things):
        k = 0
        for i, entry in enumerate(posted):
            at = place(puts[i + 1], thing)
            if at != place(puts[i], thing):
                k += 1
                rows.append((number, k, i + 1, places.index(at), day_number(entry.message["day"])))
    return rows


def loans(posted):
    return [message["loan"] for _, message in applied(posted) if message["kind"] == "agree"]


def lines(museum, posted):
    return [
        (loan, museum.things.index(thing), STAGES.index(stage(museum, posted, loan, thing)))
        for loan in loans(posted)
        for thing in agreement(posted, loan)["objects"]
    ]


def terms(posted):
    return [(loan, day_number(last_day(posted, loan))) for loan in loans(posted)]


def entry_of(museum, number, row):
    """The entry of a row of the list, or None."""
    key, station, n, body, code = row
    if (
        key != number
        or not 0 <= station < len(museum.stations)
        or not 1 <= n <= 999999
        or not 0 <= code <= 25
    ):
        return None
    try:
        message = json.loads(body)
    except ValueError:
        return None
    if not isinstance(message, dict) or message_fault(message) or own_text(message) != body:
        return None
    return Entry(station, n, message, VERDICTS[code])


def may_follow(museum, posted, entry):
    """Whether an entry is the next of its station, and has the verdict of looking back."""
    own = [before for before in posted if before.station == entry.station]
    signed = any(before.message["kind"] == "signoff" for before in own)
    return (
        entry.n == len(own) + 1
        and not signed
        and verdict(museum, posted, entry.message) == entry.verdict
    )


def bound_refusal(store, setup):
    """Why a bound store can't be taken for one of this setup."""
    meta = dict(store["meta"])
    if meta.get("version", 2) != 2:
        return "OtherVersion"
    if sorted(meta) != ["depth", "version"] or meta["depth"] not in (8, 12):
        return "Damaged 0"
    return "OtherSetup" if sorted(store.get("setup", [])) != setup else None


def list_refusal(museum, store):
    """The first fault of the list, and of posting it again."""
    rows = sorted(store["posting"])
    entries = [entry_of(museum, i, row) for i, row in enumerate(rows, 1)]
    if None in entries:
        return f"Damaged {entries.index(None) + 1}"
    for i, entry in enumerate(entries):
        if not may_follow(museum, entries[:i], entry):
            return f"Damaged {i + 1}"
    wanted = {
        "spot": spots(museum, entries),
        "line": lines(museum, entries),
        "term": terms(entries),
    }
    return (
        "Damaged 0"
        if any(sorted(store[table]) != sorted(rows) for table, rows in wanted.items())
        else None
    )


def refusal(museum, setup, store, shapes):
    """Why a store can't be opened with this setup, or None. `shapes` has the columns of each table
    that is there: the first so many of the six, else the store is another program's."""
    made = list(TABLES)[: len(shapes)]
    if shapes != {table: TABLES[table] for table in made}:
        return "Store"
    if not store.get("meta"):
        return list_refusal(museum, {table: store.get(table, []) for table in TABLES})
    refused = bound_refusal(store, setup)
    return refused or (list_refusal(museum, store) if len(made) == len(TABLES) else "Store")
