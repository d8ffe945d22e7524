"""A plain slow program over the definitions: what it replies to a session.

It keeps two lists, what was taken and what is posted, and answers every question by walking them
from their beginning (book.py)."""
from collections import namedtuple

from oracle.book import chain, place, targets, verdict
from oracle.text import museum_of, read_line

WINDOW, LAST = 256, 999999
Taken = namedtuple("Taken", "station n message")
Entry = namedtuple("Entry", "station n message verdict")


def message_at(taken, station, n):
    """The message that was taken under a station's number."""
    for entry in taken:
        if (entry.station, entry.n) == (station, n):
            return entry.message
    return None


def ready(taken, station):
    """The greatest k for which 1 to k were taken and none before k signs off."""
    k = 0
    while message_at(taken, station, k + 1) is not None:
        if k > 0 and message_at(taken, station, k)["kind"] == "signoff":
            break
        k += 1
    return k


def is_signed(taken, station):
    k = ready(taken, station)
    return k > 0 and message_at(taken, station, k)["kind"] == "signoff"


def refusal(taken, station, n):
    """The first refusal that holds."""
    posted = ready(taken, station)
    if not 1 <= n <= LAST:
        return "BadNumber"
    if n <= posted or (not is_signed(taken, station) and message_at(taken, station, n) is not None):
        return "Double"
    if is_signed(taken, station):
        return "SignedOff"
    if n > posted + WINDOW:
        return "TooEarly"
    return None


def whereabouts(museum, posted, thing):
    put = targets(posted)
    if thing not in museum.things:
        return "unknown"
    if place(put, thing) is None:
        return "unplaced"
    above = chain(put, thing)
    return " ".join([f"at {place(put, thing)}"] + ["in"] * (above != []) + above)


def arrival(museum, taken, posted, station, n, message):
    """What is said to a message, which is taken or refused."""
    refused = refusal(taken, station, n)
    if refused:
        return [f"{station} {n} refused {refused}"]
    before = ready(taken, station)
    taken.append(Taken(station, n, message))
    now = ready(taken, station)
    said = [f"{station} {n} held"] if now == before else []
    for k in range(before + 1, now + 1):
        message = message_at(taken, station, k)
        posted.append(Entry(station, k, message, verdict(museum, posted, message)))
        said.append(f"{station} {k} posted {len(posted)} {posted[-1].verdict}")
    return said


def answers(museum, taken, posted, lines):
    """The replies to these lines, after what was taken and posted."""
    said = []
    for number, text in enumerate(lines.split(b"\n"), 1):
        text = text.removesuffix(b"\r")
        if not text:
            continue
        line, fault = read_line(text)
        if fault:
            said.append(f"line {number} bad {fault}")
        elif line["station"] not in museum.stations:
            said.append(f"line {number} refused UnknownStation")
        elif "ask" in line:
            said.append(
                f"{line['station']} ask {line['ask']} {whereabouts(museum, posted, line['ask'])}"
            )
        else:
            said += arrival(museum, taken, posted, line["station"], line["n"], line["message"])
    return said


def replies(session):
    """What is said to a session: a setup without fault, an empty line, and lines."""
    head, _, rest = session.partition(b"\n\n")
    return answers(museum_of(head.decode()), [], [], rest)
