"""The replies of the program are those of the plain program, on mixed streams in which each event
occurs."""
import itertools
import json

from common.room import Failed
from common.shrinking import shortest
from oracle import streams
from oracle.book import DEPTH
from oracle.plain import replies

EVENTS = [
    "Applied",
    "UnknownThing",
    "UnknownPlace",
    "ElsewherePlace",
    "UnknownContainer",
    "UnknownLoan",
    "LoanKnown",
    "InsidePartner",
    "NoObjects",
    "NotObject",
    "Repeated",
    "WrongOwner",
    "BadTerm",
    "AlreadyAuthorised",
    "NotAuthorised",
    "WrongDirection",
    "NotHere",
    "ContainerNotHere",
    "Cycle",
    "TooDeep",
    "NotWithPartner",
    "AlreadyHere",
    "NotListed",
    "WrongStage",
    "TermOver",
    "NotLater",
    "Double",
    "BadNumber",
    "TooEarly",
    "SignedOff",
    "UnknownStation",
    "Missing",
    "BadField",
    "BadKind",
    "held",
    "at",
    "unknown",
    "unplaced",
    "elsewhere in a crate",
]


def event(reply):
    """What a reply tells, in a word."""
    words = reply.split()
    if "posted" in words or "refused" in words:
        return words[-1]
    if "in" in words and words[4] in streams.ELSEWHERE:
        return "elsewhere in a crate"
    return "held" if "held" in words else words[3]


def compared(room, lines):
    """What the program replies to these lines, or its errors, and what the definitions give."""
    session = streams.session(lines)
    status, output, errors = room.run(given=session)
    return [errors] if status else output.splitlines(), replies(session)


def difference(room, number, lines):
    """What is wrong with the replies to a stream, on as few of its lines as are found."""

    def fails(rest):
        got, wanted = compared(room, rest)
        return got != wanted

    lines = shortest(fails, lines)
    pairs = itertools.zip_longest(*compared(room, lines), fillvalue="nothing")
    at, got, wanted = next((at, *pair) for at, pair in enumerate(pairs, 1) if pair[0] != pair[1])
    shown = "".join(f"{json.dumps(line)}\n" for line in lines)
    return f"stream {number}:\n{shown}reply {at}: {got}, and the plain program says {wanted}"


def test_replies(room, rounds=100):
    """Each reply to a random stream is the one that the definitions give."""
    seen, deepest, numbers = dict.fromkeys(EVENTS, 0), 0, room.numbers(rounds)
    for number in numbers:
        lines = streams.lines(number)
        got, wanted = compared(room, lines)
        if got != wanted:
            raise Failed(difference(room, number, lines))
        for reply in wanted:
            seen[event(reply)] += 1
            deepest = max(deepest, len(reply.split()) - 6 if " in " in reply else 0)
    missing = [name for name in EVENTS if not seen[name]]
    counts = ", ".join(f"{name} {seen[name]}" for name in EVENTS)
    print(f"{len(numbers)} streams agree: {counts}; up to {deepest} crates above a thing")
    if missing or deepest < DEPTH:
        raise Failed(f"no stream has {', '.join(missing)}; the deepest answer is {deepest} crates")
    return True
