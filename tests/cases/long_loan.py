"""The longest loan has 256 objects; one of 257 is rejected."""
from common.museum import AUTHORISE, MuseumRoom, agree, leave, move, pack, scan, scans

ROOM = MuseumRoom

MOST = 256
OBJECTS = [f"2000.{number}" for number in range(1, MOST + 2)]
SETUP = "station,PACK\nplace,S1,inside\nplace,S2,inside\nplace,MUSEUM-X,elsewhere\nbox,C1\n"
SETUP += "".join(f"own,{code},S1\n" for code in OBJECTS)
OUT = [move("C1", "S1"), *(pack(code, "C1") for code in OBJECTS[:MOST])]
OUT += [agree(OBJECTS[:MOST]), AUTHORISE, leave("2024-05-02")]


def come_back(thing):
    message = {"kind": "return", "thing": thing, "loan": "LO2024.1", "place": "S2"}
    return message | {"day": "2024-05-31"}


def are_applied(room, first, messages):
    """Whether messages are posted and applied, from this number on."""
    lines = scans(messages, first=first)
    wanted = [f"PACK {n} posted {n} Applied\n" for n in range(first, first + len(messages))]
    return room.replay(lines, setup="longest.csv") == (0, "".join(wanted), "")


def is_loan(room, state, stages):
    """Whether the loan has this state, and its objects these stages."""
    lines = [f"LO2024.1 {state} with MUSEUM-X from 2024-05-01 to 2024-05-31\n"]
    lines += [f"{code} {stage}\n" for code, stage in zip(OBJECTS, stages)]
    return room.command("loan", "longest.csv", "LO2024.1") == (0, "".join(lines), "")


def out(room):
    """Whether all 256 objects go out in a crate."""
    room.write("longest.csv", SETUP)
    return are_applied(room, 1, OUT) and is_loan(room, "Running", ["Away"] * MOST)


def test_back_in_the_crate(room):
    """A loan of 256 objects goes out in a crate and comes back in it."""
    back = [come_back("C1")]
    if not out(room) or not are_applied(room, len(OUT) + 1, back):
        return False
    carried = room.command("at", "longest.csv", "S2")[1].splitlines()
    return is_loan(room, "Closed", ["Back"] * MOST) and len(carried) == MOST + 1


def test_back_one_by_one(room):
    """A loan of 256 objects comes back one by one; until the last one it is running."""
    back = [come_back(code) for code in reversed(OBJECTS[:MOST])]
    if not out(room) or not are_applied(room, len(OUT) + 1, back[:-1]):
        return False
    if not is_loan(room, "Running", ["Away", *["Back"] * (MOST - 1)]):
        return False
    last = are_applied(room, len(OUT) + MOST, back[-1:])
    return last and is_loan(room, "Closed", ["Back"] * MOST)


def test_one_object_more(room):
    """A loan of 257 objects is rejected, whether each is listed once or one of them twice."""
    room.write("longest.csv", SETUP)
    lists = [OBJECTS, OBJECTS[:MOST] + OBJECTS[:1]]
    lines = "".join(scan(1, agree(objects)) for objects in lists)
    wanted = "line 1 bad BadField objects\nline 2 bad BadField objects\n"
    return room.replay(lines, setup="longest.csv") == (0, wanted, "")
