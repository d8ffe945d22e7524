"""A table becomes exactly the messages of its rows: `lines`, `check`, `audit`, `resend` and
`gap`."""
import csv
import io
import json
import shutil
import subprocess

from common.room import Room, Skipped

OBJECTS = [f"2001.{group}.{number}" for group in range(1, 4) for number in range(1, 5)]
SETUP = "".join(
    f"{row}\n"
    for row in [
        "station,REG",
        "station,GAL",
        "place,S1,inside",
        "place,S2,inside",
        "place,MUSEUM-X,elsewhere",
        "box,C1",
    ]
    + [f"own,{it},S1" for it in OBJECTS]
)
HEADING = ["thing", "place", "day"]
ROWS = [[it, "S1" if i % 2 else "S2", f"2024-05-{i + 1:02}"] for i, it in enumerate(OBJECTS)]


class ROOM(Room):
    """A room with a setup, museum.csv."""

    def furnish(self):
        self.write("museum.csv", SETUP)

    def lines(self, table, *words):
        return self.run(
            "lines",
            "-s",
            "museum.csv",
            "--station",
            "REG",
            "--kind",
            "move",
            *words,
            "-",
            given=table,
        )

    def stored(self, *words, given=b""):
        return self.run(words[0], "-s", "museum.csv", "-d", "museum.db", *words[1:], given=given)


def table(rows, separator=",", end="\n", quoting=csv.QUOTE_MINIMAL):
    text = io.StringIO()
    csv.writer(text, delimiter=separator, lineterminator=end, quoting=quoting).writerows(rows)
    return text.getvalue()


def line(number, thing, place, day="2024-05-01", station="REG"):
    message = {"day": day, "kind": "move", "place": place, "thing": thing}
    return (
        json.dumps({"station": station, "n": number, "message": message}, separators=(",", ":"))
        + "\n"
    )


def test_as_saved(room):
    """One table, saved in all the ways that spreadsheets know, gives the same lines."""
    wanted = "".join(line(i + 1, *row) for i, row in enumerate(ROWS))
    good = True
    for separator in ",;\t":
        for end in ("\n", "\r\n", "\r"):
            for quoting in (csv.QUOTE_MINIMAL, csv.QUOTE_ALL):
                text = table([HEADING, *ROWS], separator, end, quoting)
                for saved in (text, "\ufeff" + text, text.removesuffix(end)):
                    good &= room.lines(saved) == (0, wanted, "")
    shuffled = [[row[2], row[0], row[1]] for row in [HEADING, *ROWS]]
    good &= room.lines(table(shuffled)) == (0, wanted, "")
    for encoding in ("utf-16", "utf-16-le", "utf-16-be"):
        good &= room.lines(table([HEADING, *ROWS]).encode(encoding))[:2] == (1, "")
    return good


def test_all_faults(room):
    """Each faulty cell is named, and no line is printed."""
    rows = [
        HEADING,
        ["2001.1.1\u00a0", "S1", "2024-05-01"],
        ["2001.1.2", "s1", "1/5/2024"],
        ["", "S1", "2024-02-30"],
    ]
    status, output, errors = room.lines(table(rows))
    wanted = [
        "fault table row 2 thing '2001.1.1\\u{a0}': ",
        "fault table row 3 place 's1': ",
        "fault table row 3 day '1/5/2024': ",
        "fault table row 4 thing '': ",
        "fault table row 4 day '2024-02-30': ",
    ]
    *told, advice = errors.splitlines()
    named = len(told) == len(wanted) and all(
        any(it.startswith(front) for it in told) for front in wanted
    )
    named &= advice.startswith("help: codes of places are like S1-A-3, ")
    helped = [
        (["2001.1.1", "S1", "1/5/2024"], "help: --dates dmy "),
        (["2001.1.1", "", "2024-05-01"], "help: --place fills "),
    ]
    helped += [(["c1", "S1", "2024-05-01"], "help: codes of things are like ")]
    named &= all(
        room.lines(table([HEADING, row]))[2].splitlines()[1].startswith(help)
        for row, help in helped
    )
    return (status, output) == (1, "") and named


def test_read_by_csvkit(room):
    """csvkit reads the lines as a table with the cells that they came from."""
    if not shutil.which("in2csv"):
        raise Skipped("csvkit is not installed")
    heading = ["kind", "thing", "place", "day", "loan", "by"]
    rows = [["move", *row, "", ""] for row in ROWS]
    names = [
        "A. Reader",
        'Ann "Nan" O\'Hara',
        "M\u00fcller, Jos\u00e9",
        "\u0130\U0001d11e / 12",
        "1987.12.1",
    ]
    rows += [["authorise", "", "", "", f"LO2024.{i + 1}", name] for i, name in enumerate(names)]
    status, output, errors = room.run(
        "lines", "-s", "museum.csv", "--station", "REG", "-", given=table([heading, *rows])
    )
    ran = subprocess.run(
        ["in2csv", "-I", "-f", "ndjson"],
        input=output.encode(),
        capture_output=True,
        timeout=60,
        check=False,
    )
    read = list(csv.DictReader(io.StringIO(ran.stdout.decode(), newline="")))
    good = (status, errors, ran.returncode) == (0, "", 0) and [it["n"] for it in read] == [
        str(i + 1) for i in range(len(rows))
    ]
    return good and [[it[f"message/{name}"] for name in heading] for it in read] == rows


def cells_of(text):
    """The cells of a table by Python's own reader, row by row, as a mapping of column to cell. None
    if it can't be read."""
    text = text.removeprefix("\ufeff")
    heading = text.replace("\r", "\n").split("\n")[0]
    separators = [it for it in ",;\t" if it in heading]
    if len(separators) > 1:
        return None
    rows = list(csv.reader(io.StringIO(text, newline=""), delimiter=(separators or ["\x00"])[0]))
    names = [it.strip().lower() for it in rows[0]]
    return [dict(zip(names, row)) for row in rows[1:] if any(cell.strip(" ") for cell in row)]


def test_each_byte(room):
    """A table with a byte changed or cut gives its own cells, or a named fault, and never a wrong
    line."""
    text = table([HEADING, *ROWS[:3]], ";").encode()
    for at in range(len(text)):
        for changed in (
            text[:at],
            text[:at] + text[at + 1 :],
            text[:at] + bytes([room.draws.randrange(256)]) + text[at + 1 :],
        ):
            status, output, errors = room.lines(changed, "--day", "2024-05-01", "--place", "S1")
            if status == 1 and not output and errors.startswith("fault table "):
                continue
            read = [json.loads(it)["message"] for it in output.splitlines()]
            cells = cells_of(changed.decode())
            same = (
                cells is not None
                and len(read) == len(cells)
                and all(
                    message["thing"] == cell.get("thing")
                    and message["place"] == (cell.get("place") or "S1")
                    and message["day"] == (cell.get("day") or "2024-05-01")
                    for message, cell in zip(read, cells)
                )
            )
            if status or not same:
                print(f"byte {at}: {changed!r} gives {status}, {output!r}, {errors!r}")
                return False
    return True


def test_first_fault(room):
    """The first fault that `check` prints is the one of the command that reads the file."""
    for _ in range(150):
        changed = bytearray(SETUP.encode())
        for _ in range(room.draws.randrange(1, 6)):
            changed[room.draws.randrange(len(changed))] = room.draws.choice(b'\n,;SC129.\xff"')
        room.write("changed.csv", bytes(changed))
        status, output, errors = room.run("check", "--setup", "changed.csv")
        read = room.run("replay", "--setup", "changed.csv")
        first = "".join(errors.splitlines(True)[:2])
        if read[0] == 0:
            if status or not output.startswith("ok: "):
                return False
        elif (status, output, first) != (1, "", read[2]):
            print(f"{bytes(changed)!r}: {status}, {output!r}, {errors!r}, not {read[2]!r}")
            return False
    return True


def test_whole_way(room):
    """A table is tried and sent: what the trial says, the replay does, and a second sending changes
    nothing."""
    rows = [
        ["kind", *HEADING],
        *(["move", *row] for row in ROWS),
        ["move", "2001.9.9", "S1", "2024-05-20"],
    ]
    room.stored("replay", given=line(1, "C1", "S1"))
    status, output, errors = room.stored("lines", "--station", "REG", "-", given=table(rows))
    good = (status, output.count("\n")) == (0, 13) and output.startswith('{"station":"REG","n":2,')
    good &= errors.startswith("note: row 14 would get UnknownThing") and errors.count("\n") == 1
    good &= room.stored("lines", "--strict", "--station", "REG", "-", given=table(rows))[:2] == (
        1,
        "",
    )
    replies = room.stored("replay", given=output)[1].splitlines()
    good &= [it.split()[4] for it in replies] == ["Applied"] * 12 + ["UnknownThing"]
    again = room.stored("replay", given=output)[1].splitlines()
    good &= all(it.endswith("refused Double") for it in again) and len(again) == 13
    file = room.write("reg.jsonl", line(1, "C1", "S1") + output)
    good &= room.stored("resend", "--station", "REG", file) == (
        0,
        "".join(f"{i} same\n" for i in range(1, 15)),
        "",
    )
    return good


def test_station_files(room):
    """A station's file is compared with the record, and a lost number is filled."""
    room.stored("replay", given=line(1, "2001.1.1", "S1") + line(2, "2001.1.2", "S1"))
    file = (
        line(1, "2001.1.1", "S1")
        + line(2, "2001.1.2", "S2")
        + line(3, "2001.1.3", "S1")
        + line(7, "2001.1.4", "S1")
        + "{\n"
    )
    posted = '{"day":"2024-05-01","kind":"move","place":"S1","thing":"2001.1.2"}'
    wanted = f"1 same\n2 other {posted}\n3 next\n4 waits for 4 to 6\n5 bad NotJson\n"
    good = room.stored("resend", "--station", "REG", "-", given=file) == (1, wanted, "")
    status, gap, _ = room.stored("gap", "--station", "REG", "--by", "Ann Lee")
    reply = room.stored("replay", given=gap)[1]
    good &= (status, reply) == (0, "REG 3 posted 3 UnknownLoan\n")
    good &= room.stored("gap", "--station", "REG", "--by", "")[0] == 2
    return good and room.stored("gap", "--station", "NONE", "--by", "Ann")[2].startswith(
        "fault station UnknownStation\n"
    )


def test_audits(room):
    """After the lines of an audit are posted, the count finds each thing that isn't in a
    container."""
    moves = "".join(
        line(i + 1, *row) for i, row in enumerate([[it, "S1"] for it in ["C1", *OBJECTS]])
    )
    pack = {
        "station": "REG",
        "n": 14,
        "message": {"kind": "pack", "thing": "2001.3.4", "container": "C1", "day": "2024-05-02"},
    }
    room.stored("replay", given=moves + json.dumps(pack) + "\n")
    seen = {it: "S2" if i % 3 == 0 else "S1" for i, it in enumerate(OBJECTS)} | {"2001.3.4": "S2"}
    seen.pop("2001.2.2")
    room.write("list.csv", "".join(f"{place},{thing}\n" for thing, place in seen.items()))
    status, output, errors = room.stored(
        "audit", "--station", "REG", "--day", "2024-05-03", "list.csv"
    )
    moved = [json.loads(it) for it in output.splitlines()]
    want = [it for it in OBJECTS if seen.get(it) == "S2" and it != "2001.3.4"]
    good = status == 0 and [it["message"]["thing"] for it in moved] == want
    good &= [it["n"] for it in moved] == list(range(15, 15 + len(want)))
    good &= "2001.3.4" in errors and "C1" in errors and "missing: 2001.2.2 at S1" in errors
    replies = room.stored("replay", "--strict", given=output)
    count = room.stored("count", "list.csv")[1].splitlines()
    wrong = [it for it in count if not it.endswith(("Counted", "Found"))]
    return good and replies[0] == 0 and len(wrong) == 2 and no_row_is_lost(room)


def no_row_is_lost(room):
    """Each row of a count list is a move or a note, or agrees with the record."""
    rows = ["S9,2001.1.1", "S9", "S1,2009.1", "S2,2001.1.1", "S1,2001.1.1", "MUSEUM-X,2001.1.2"]
    room.write("odd.csv", "".join(f"{row}\n" for row in rows))
    status, output, errors = room.stored(
        "audit", "--station", "REG", "--day", "2024-05-04", "odd.csv"
    )
    told = [*output.splitlines(), *(it for it in errors.splitlines() if it.startswith("note: "))]
    return status == 0 and len(told) == len(rows)


def test_checked_files(room):
    """`check` prints all faults of count lists and of lines, and the size of a file without any."""
    room.write("list.csv", "S1,2001.1.1\nS1,x,y\nS2,\nbad,C1\n")
    room.write("good.csv", "S1,2001.1.1\nS2\n")
    room.write("some.jsonl", line(1, "2001.1.1", "S1") + "{}\nx\n" + line(2, "2001.1.2", "S1"))
    room.write("good.jsonl", line(1, "2001.1.1", "S1") + line(2, "2001.1.2", "S1"))
    status, output, errors = room.run("check", "--counts", "list.csv")
    faults = [it for it in errors.splitlines() if it.startswith("fault ")]
    good = (status, output, faults) == (
        1,
        "",
        ["fault counts BadFields row 2", "fault counts BadCode row 4"],
    )
    status, output, errors = room.run("check", "--lines", "some.jsonl")
    faults = [it.split()[-1] for it in errors.splitlines() if it.startswith("fault lines ")]
    good &= (status, output, faults) == (1, "", ["2", "3"])
    good &= room.run("check", "--counts", "good.csv", "--lines", "good.jsonl") == (
        0,
        "ok: 2 rows\nok: 2 lines\n",
        "",
    )
    good &= room.run("check", "--setup", "museum.csv") == (
        0,
        "ok: 2 stations, 3 places, 1 box, 12 objects\n",
        "",
    )
    return good and room.run("check")[0] == 2
