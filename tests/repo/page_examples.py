"""The examples of the pages for users print what the pages show."""
import contextlib
import csv
import io
import os
import pathlib
import re
import shutil
import sqlite3
import subprocess

from common.room import ROOT, Failed, none_of, same

NAMED = "export PAIRSALDER_SETUP=museum.csv PAIRSALDER_STORE=museum.db"
DAYS = "for day in monday tuesday wednesday; do pairsalder replay < $day.jsonl; done"
BENCH = (
    "pairsalder desk --station PACKING --day 2024-06-03 < monday.txt;"
    "pairsalder desk --station PACKING < tuesday.txt"
)
LISTS = "printf 'A-2,1987.12.2\\nA-2,1991.4.7\\nA-1\\n' > shelves.csv; echo PACK,C1 > crates.csv"
GROWN = (
    "pairsalder replay < thursday.jsonl; pairsalder grow --setup new.csv;"
    "pairsalder setup > grown; mv grown museum.csv; pairsalder replay < friday.jsonl"
)
# a desk that has the store, and one that was killed after it answered a move
ANSWERED = "for i in {{1..600}}; do grep -qs {} answers && break; sleep 0.1; done"
OPEN = (
    "mkfifo scans; exec 3<> scans;"
    "pairsalder desk --station STORE --day 2024-06-07 < scans > answers 3>&- &"
    f"echo A-1 >&3; {ANSWERED.format('A-1')}"
)
KILLED = f"echo 1987.12.3 >&3; {ANSWERED.format('Applied')}; kill -9 $!; wait $!"
SHEET = "printf 'thing;place\\n1987.12.3;A-2\\n' > moves.csv"
# where examples run: the folder that is copied, and what is done there first
PLACES = {
    "audit": ("examples/three-days", f"{NAMED}; {DAYS}; {LISTS}"),
    "bench": ("examples/bench", f"{NAMED}; {BENCH}"),
    "data": ("examples/three-days", f"{NAMED}; {DAYS}; {GROWN}"),
    "days": ("examples/three-days", ":"),
    "held": ("examples/three-days", f"{NAMED}; {DAYS}; {GROWN}; {OPEN}"),
    "killed": ("examples/three-days", f"{NAMED}; {DAYS}; {GROWN}; {OPEN}; {KILLED}"),
    "sheets": ("examples/three-days", f"({NAMED}; {DAYS}); {SHEET}"),
    "seals": ("cases/seals", f"{NAMED}; pairsalder replay < start.jsonl"),
}
# the pages, and from which heading on their examples run where; None for those that aren't run
PAGES = {
    "AUDIT": {"": "audit", "Find out why": "bench", "List the loans": "audit"},
    "DATA": {"": "data"},
    "OPERATING": {
        "": "data",
        "Who can use a record": "held",
        "Another machine": "data",
        "When something goes wrong": "killed",
    },
    "SEALS": {"": "seals"},
    "SPREADSHEETS": {"": "sheets"},
    "USING": {"": None, "A day's messages": "days"},
}
# the blocks that a page says to save: how each begins, and the name of its file
SAVED = {"import hashlib": "seal.py"}


def blocks(page):
    """The indented blocks of a page, each with its heading."""
    heading, lines = "", []
    for line in page.splitlines() + [""]:
        if line.startswith("    "):
            lines.append(line[4:])
            continue
        if lines:
            yield heading, lines
        lines = []
        if line.startswith("#"):
            heading = line.lstrip("# ")


def examples(lines):
    """The commands of a block, each with the lines below it; None if there are none."""
    text = "".join(line + "\n" for line in lines)
    for example in re.findall(r"^\$ (?:.*\n)(?:(?!\$ ).*\n)*", text, re.M):
        command, _, shown = example.partition("\n")
        yield command[2:], shown or None


def queries(lines):
    """The queries of a block, each with the rows below it."""
    text = "".join(line + "\n" for line in lines)
    for query, shown in re.findall(
        r"^sqlite> ((?:.*\n   \.\.\.> )*.*\n)((?:(?!sqlite> ).*\n)*)", text, re.M
    ):
        yield query.replace("   ...> ", ""), shown


def answered(folder, query):
    """The rows that a query finds in the flat database, as sqlite3 prints them."""
    with contextlib.closing(sqlite3.connect(f"{folder}/flat.db")) as it:
        found, printed = it.execute(query), io.StringIO()
        heading = [column[0] for column in found.description]
        csv.writer(printed, lineterminator="\n").writerows([heading, *found])
    return printed.getvalue()


def is_shown(shown, printed):
    """Whether a page shows what is printed. A line of three points stands for any lines."""
    start, points, end = shown.partition("...\n")
    if points:
        return printed.startswith(start) and printed.endswith(end)
    return printed == shown


class Shell:
    """A shell in a copy of a folder, with the program on its path."""

    def __init__(self, room, page, place):
        source, first = PLACES[place]
        self.folder = shutil.copytree(os.path.join(ROOT, source), room.path(f"{page}-{place}"))
        path = room.path("bin") + os.pathsep + os.environ["PATH"]
        self.shell = subprocess.Popen(
            ["bash"],
            cwd=self.folder,
            env=os.environ | {"PATH": path},
            stdin=subprocess.PIPE,
            stdout=subprocess.PIPE,
            stderr=subprocess.STDOUT,
            text=True,
        )
        self.printed(first)

    def printed(self, command):
        """What a command prints, with its errors."""
        self.shell.stdin.write(f"{{ {command}\n}} < /dev/null\necho; echo END OF EXAMPLE\n")
        self.shell.stdin.flush()
        lines = []
        for line in self.shell.stdout:
            if line == "END OF EXAMPLE\n":
                return "".join(lines)[:-1]
            lines.append(line)
        raise Failed(f"the shell ended at {command}: {lines}")

    def end(self):
        # a desk that is open ends with its input
        self.printed("exec 3>&-; wait")
        self.shell.stdin.close()
        self.shell.wait()
        self.shell.stdout.close()


def wrong(room, page):
    """The examples of a page that print something else."""
    shells, place = {}, None
    text = pathlib.Path(ROOT, "docs", f"{page}.md").read_text(encoding="utf-8")
    for heading, lines in blocks(text):
        starts = [it for it in PAGES[page] if it and heading.startswith(it)]
        place = PAGES[page][starts[0]] if starts else place or PAGES[page][""]
        if place is None:
            continue
        if place not in shells:
            shells[place] = Shell(room, page, place)
        for first, name in SAVED.items():
            if lines[0].startswith(first):
                pathlib.Path(shells[place].folder, name).write_text("\n".join(lines) + "\n")
        for command, shown in examples(lines):
            if command.startswith("in2csv ") and not shutil.which("in2csv"):
                continue
            printed = shells[place].printed(command)
            if shown is not None and not is_shown(shown, printed):
                yield f"{page}: $ {command}\n  prints {printed!r}\n  shown  {shown!r}"
        # older ones can't read JSON with ->>
        for query, shown in queries(lines) if sqlite3.sqlite_version_info >= (3, 38) else ():
            printed = answered(shells[place].folder, query)
            if printed != shown:
                yield f"{page}: {query}  finds {printed!r}\n  shown {shown!r}"
    for shell in shells.values():
        shell.end()


def test_page_examples(room):
    """Each `$` line of AUDIT, DATA, OPERATING, SEALS, SPREADSHEETS and USING prints what the page
    shows, errors included, and each query of DATA finds the rows that the page shows."""
    os.mkdir(room.path("bin"))
    os.symlink(room.program, room.path("bin/pairsalder"))
    return none_of(it for page in PAGES for it in wrong(room, page))


def test_desk_page(room):
    """The answers of a desk in the tables of DESK are those that it gives to the scans beside."""
    text = pathlib.Path(ROOT, "docs", "DESK.md").read_text(encoding="utf-8")
    tables = re.findall(r"^\| scan or type \| answer \|\n.*\n((?:\|.*\n)+)", text, re.M)
    folder = shutil.copytree(os.path.join(ROOT, "examples/bench"), room.path("bench"))
    # on Monday the objects are put on their shelf first
    before, good = ["A-1", "1987.12.1", "1987.12.2", "1987.12.3"], same(len(tables), 2)
    for table, day in zip(tables, (["--day", "2024-06-03"], [])):
        scans, answers = zip(*re.findall(r"^\| `(.*?)` \| `(.*?)` \|$", table, re.M))
        words = ["desk", "--setup", "museum.csv", "--store", "museum.db", "--station", "PACKING"]
        run = subprocess.run(
            [room.program, *words, *day],
            cwd=folder,
            input="".join(it + "\n" for it in [*before, *scans]),
            capture_output=True,
            text=True,
        )
        good &= same(run.stdout.splitlines()[len(before) :], list(answers))
        good &= same(len(answers), table.count("\n"))
        before = []
    return good
