"""What the plain program reads: a setup without fault, and lines with the messages in them.

JSON is read by Python's json, which takes more than the hub does: NaN, 1e999, half a pair of
surrogates, and what is deeper than 127 levels. The streams have none of these."""
import csv
import datetime
import json
import re
from collections import namedtuple

LONGEST = 16384
Museum = namedtuple("Museum", "stations inside things")


def museum_of(head):
    """The setup of these rows, which has no fault: its stations, its places and whether they are
    inside, its things."""
    museum = Museum([], {}, [])
    for kind, code, *rest in (row for row in csv.reader(head.splitlines()) if row):
        if kind == "station":
            museum.stations.append(code)
        elif kind == "place":
            museum.inside[code] = rest[0] == "inside"
        else:
            museum.things.append(code)
    return museum


NUMBER = "[1-9][0-9]{0,5}"
OBJECT = rf"[0-9]{{4}}(\.{NUMBER}){{1,3}}[a-z]?"


def is_text(value, shape):
    return isinstance(value, str) and re.fullmatch(shape, value) is not None


def is_thing(value):
    return is_text(value, f"L?{OBJECT}|C{NUMBER}")


def is_place(value):
    return is_text(value, "[A-Z0-9]{1,8}(-[A-Z0-9]{1,8}){0,3}")


def is_loan(value):
    return is_text(value, rf"L[OI][0-9]{{4}}\.{NUMBER}")


def is_day(value):
    try:
        return is_text(value, "[0-9]{4}-[0-9]{2}-[0-9]{2}") and bool(
            datetime.date.fromisoformat(value)
        )
    except ValueError:
        return False


def is_name(value):
    return (
        isinstance(value, str)
        and 1 <= len(value.encode()) <= 60
        and not re.search("[\0-\x1f\x7f]", value)
    )


def are_objects(value):
    return isinstance(value, list) and len(value) <= 256 and all(map(is_thing, value))


KINDS = {
    "move": {"thing": is_thing, "place": is_place, "day": is_day},
    "pack": {"thing": is_thing, "container": is_thing, "day": is_day},
    "agree": {
        "loan": is_loan,
        "partner": is_place,
        "objects": are_objects,
        "first": is_day,
        "last": is_day,
    },
    "authorise": {"loan": is_loan, "by": is_name},
    "exit": {"thing": is_thing, "loan": is_loan, "day": is_day},
    "return": {"thing": is_thing, "loan": is_loan, "place": is_place, "day": is_day},
    "receive": {"thing": is_thing, "loan": is_loan, "place": is_place, "day": is_day},
    "signoff": {"by": is_name},
    "extend": {"loan": is_loan, "last": is_day},
}


def fault_at(value, tests):
    """The first fault of an object's values, key by key."""
    for key, fits in tests.items():
        if key not in value:
            return f"Missing {key}"
        if not fits(value[key]):
            return f"BadField {key}"
    return None


def is_number(value):
    return isinstance(value, int) and not isinstance(value, bool) and 0 <= value < 2**64


def message_fault(message):
    if "kind" not in message:
        return "Missing kind"
    kind = message["kind"]
    return fault_at(message, KINDS[kind]) if isinstance(kind, str) and kind in KINDS else "BadKind"


def line_fault(line):
    """The first fault of what a line spells."""
    if not isinstance(line, dict):
        return "NotJson"
    fault = fault_at(line, {"station": lambda value: isinstance(value, str)})
    if fault or "ask" in line:
        return fault or fault_at(line, {"ask": is_thing})
    fault = fault_at(line, {"n": is_number, "message": lambda value: isinstance(value, dict)})
    return fault or message_fault(line["message"])


def read_line(line):
    """What a line spells, and its first fault."""
    if len(line) > LONGEST:
        return None, "TooLong"
    try:
        value = json.loads(line.decode())
    except (ValueError, RecursionError):
        return None, "NotJson"
    return value, line_fault(value)
