#!/usr/bin/env python3
"""Writes a session to measure the program with: a setup, an empty line, and lines, all of one station if not said else.

    bench/session.py moves OBJECTS MESSAGES [IDLE]        each message moves the next object, to one place and another
    bench/session.py mixed OBJECTS MESSAGES [IDLE]        the same from four stations by turns, mildly out of order
    bench/session.py crates CRATES OBJECTS MOVES [IDLE]   so many objects are packed into each crate, and then each
                                                          crate is moved so often, one after the other
    bench/session.py loans LOANS OBJECTS [IDLE]           all objects are moved to a place; then so many loans of so
                                                          many objects, up to 256, are agreed and authorised, and each
                                                          object exits and returns
    bench/session.py again LOANS OBJECTS TIMES [IDLE]     so often the same over the same objects, under new loans
IDLE objects stand in the setup beside these and are never named. A museum has up to 100,000 things, a station up to
999,999 messages. For time and memory: bench/session.py crates 200 499 10 | /usr/bin/time -v bin/pairsalder > /dev/null"""
import itertools
import sys

DAY = '"day":"2024-05-01"'
LAST = '"last":"2024-05-31"'


def objects(start, count):
    """The codes of so many objects, from a number on that counts from 0."""
    return [f"2000.{n // 1000 + 1}.{n % 1000 + 1}" for n in range(start, start + count)]


def place_after(round_number):
    """A crate, or an object, is never moved to the place where it is."""
    return "S1" if round_number % 2 == 0 else "S2"


def move(thing, place):
    return f'"kind":"move","thing":"{thing}","place":"{place}",{DAY}'


def pack(thing, crate):
    return f'"kind":"pack","thing":"{thing}","container":"{crate}",{DAY}'


def agree(loan, things):
    listed = ",".join(f'"{thing}"' for thing in things)
    return f'"kind":"agree","loan":"{loan}","partner":"PARTNER","objects":[{listed}],"first":"2024-05-01",{LAST}'


def authorise(loan):
    return f'"kind":"authorise","loan":"{loan}","by":"Ann"'


def leave(thing, loan):
    return f'"kind":"exit","thing":"{thing}","loan":"{loan}",{DAY}'


def come_back(thing, loan, place):
    return f'"kind":"return","thing":"{thing}","loan":"{loan}","place":"{place}",{DAY}'


def moves(things, messages):
    for number in range(messages):
        yield move(things[number % len(things)], place_after(number // len(things)))


def crates(boxes, things, times):
    """Each crate comes to a place and is packed; the crates are then moved in turn."""
    each = len(things) // len(boxes)
    for number, box in enumerate(boxes):
        yield move(box, "S1")
        for thing in things[number * each:(number + 1) * each]:
            yield pack(thing, box)
    for number, box in itertools.product(range(1, times + 1), boxes):
        yield move(box, place_after(number))


def loans(things, count, times):
    """So often all things come to another place, since only what is here can exit; then one loan after the other."""
    each = len(things) // count
    for round_number in range(times):
        place = place_after(round_number)
        yield from (move(thing, place) for thing in things)
        for number in range(count):
            loan, listed = f"LO2024.{round_number * count + number + 1}", things[number * each:(number + 1) * each]
            yield agree(loan, listed)
            yield authorise(loan)
            yield from (leave(thing, loan) for thing in listed)
            yield from (come_back(thing, loan, place) for thing in listed)


def numbered(stations, messages):
    """The messages in the order in which they are sent: the stations by turns, each numbering its own."""
    for number, message in enumerate(messages):
        yield stations[number % len(stations)], number // len(stations) + 1, message


def mildly_out_of_order(lines):
    """The lines, where of each eight of a station the sixth comes last, so that the two after it wait."""
    lines = list(lines)
    for start in range(0, len(lines), 32):
        part = lines[start:start + 32]
        yield from part[:20] + part[24:] + part[20:24]


def main():
    word, numbers = sys.argv[1], [int(argument) for argument in sys.argv[2:]]
    stations, places, boxes = ["GAL"], ["S1,inside", "S2,inside"], []
    if word in ("moves", "mixed"):
        things = objects(0, numbers[0])
        messages, idle = moves(things, numbers[1]), numbers[2:]
    elif word in ("loans", "again"):
        places.append("PARTNER,elsewhere")
        things = objects(0, numbers[0] * numbers[1])
        times, idle = (numbers[2], numbers[3:]) if word == "again" else (1, numbers[2:])
        messages = loans(things, numbers[0], times)
    else:
        boxes = [f"C{n}" for n in range(1, numbers[0] + 1)]
        things = objects(0, numbers[0] * numbers[1])
        messages, idle = crates(boxes, things, numbers[2]), numbers[3:]
    lines = numbered(stations, messages)
    if word == "mixed":
        stations = ["GAL", "PACK", "STORE-A", "STORE-B"]
        lines = mildly_out_of_order(numbered(stations, messages))
    own = [f"{thing},S1" for thing in things + objects(len(things), sum(idle))]
    for kind, rows in [("station", stations), ("place", places), ("box", boxes), ("own", own)]:
        print("".join(f"{kind},{row}\n" for row in rows), end="")
    print()
    for station, n, message in lines:
        print(f'{{"station":"{station}","n":{n},"message":{{{message}}}}}')


if __name__ == "__main__":
    main()
