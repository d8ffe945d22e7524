"""A page of a record is well-formed, and has each thing once, where the reports have it."""
import collections
import html
import html.parser
import json
import re
import shutil
import subprocess

from common.museum import MuseumRoom
from common.room import Skipped, same
from oracle import causes, streams
from oracle.book import chain, is_container, targets
from oracle.reports import Record
from oracle.seals import seal_of
from oracle.store import loans, spots
from properties.reports import json_lines

VOID = {"meta", "input"}
PLACES = [line.split(",")[1] for line in streams.SETUP.splitlines() if line.startswith("place,")]
MOST = 200  # entries that a page lists
PYTHON = "/usr/bin/python3"  # Debian's, which has html5lib if it is installed
ERRORS = """
import html5lib, sys
parser = html5lib.HTMLParser()
parser.parse(sys.stdin.buffer.read())
print(parser.errors)
"""
# what a reader does who looks for an object, and clicks on what was found first. What the page shows
# then becomes its title: the object's places and containers, its name, the line in the tree at which
# the page is, with the object's locations, and the loans on the time line
SEARCH = """<script>
box.value = 'SOUGHT';
box.dispatchEvent(new Event('input'));
var [button, place] = document.querySelector('#found li').children;
button.click();
var here = document.activeElement;
document.title = JSON.stringify([
  place.textContent.split(' / '),
  button.textContent,
  here.checkVisibility() && nameOf(here),
  Array.from(here.querySelectorAll('td'), function (cell) { return cell.textContent; }),
  Array.from(document.querySelectorAll('#times title'), function (loan) {
    return loan.textContent;
  })
]);
</script>
</body>"""


class Page(html.parser.HTMLParser):
    """The sections of a page, by their headings: the nodes of its trees, each with what it is in,
    the rows of its tables, and its other texts."""

    def __init__(self, text):
        super().__init__()
        self.open, self.wrong, self.nodes, self.texts, self.section = [], [], [], [], ""
        self.scripts = []
        self.trees, self.rows = collections.defaultdict(list), collections.defaultdict(list)
        self.feed(text)
        self.close()

    def handle_starttag(self, tag, attrs):
        if tag not in VOID:
            self.open.append(tag)
        if tag == "li":
            self.nodes.append("")
        if tag == "tr":
            self.rows[self.section].append([])
        if tag == "td":
            self.rows[self.section][-1].append("")

    def handle_endtag(self, tag):
        if not self.open or self.open.pop() != tag:
            self.wrong.append(tag)
        if tag == "li":
            self.nodes.pop()

    def handle_data(self, data):
        text = data.strip()
        if not self.open or not text:
            return
        if self.open[-1] == "script":
            self.scripts.append(text)
            return
        self.texts.append((self.open[-1], text))
        if self.open[-1] == "h2":
            self.section = text
        if self.open[-1] == "td":
            self.rows[self.section][-1][-1] = text
        if self.nodes and not self.nodes[-1]:
            self.nodes[-1] = text
            self.trees[self.section].append(list(self.nodes))

    def numbers(self):
        """The museum in numbers: each name with its number."""
        names, found = ([text for tag, text in self.texts if tag == it] for it in ("dt", "dd"))
        return dict(zip(names, found))

    def locations(self):
        """The locations of each thing, as the script reads them."""
        return json.loads(self.scripts[0])[:-1]

    def table(self, section):
        """The rows of a table without its heading."""
        return [row for row in self.rows[section] if row]


def nodes_of(record, placed):
    """Each thing that was placed, or was not: its place if there is one, its containers from the
    outermost, and itself."""
    for thing in record.museum.things:
        place = record.place(thing)
        if (place is not None) == placed:
            yield [place] * placed + [*reversed(chain(record.put, thing)), thing]


def loan_rows(record, day):
    """The rows of the loans, with the word overdue if a loan is."""
    late = [line.split()[0] for line in record.overdue(day)] if day else []
    for values in record.loan_values("9999-12-31"):
        yield [*values[:6], values[7], "overdue" if values[0] in late else ""]


def object_rows(record):
    """The rows of the objects of each loan."""
    for loan in loans(record.posted):
        for thing, found in record.stages(loan):
            yield [loan, thing, found]


def location_rows(record):
    """Each location of a thing, in the order of the entries, with its containers and its message."""
    things, places = record.museum.things, list(record.museum.inside)
    found = sorted(spots(record.museum, record.posted), key=lambda spot: (spot[2], spot[0]))
    for thing, _, number, at, _ in found:
        entry, above = record.posted[number - 1], chain(targets(record.posted[:number]), things[thing])
        where = [things[thing], number, entry.message["day"], places[at], " ".join(above)]
        yield [*where, entry.station, entry.n]


def entry_rows(record):
    """The rows of the last entries, the newest first, each with what the report `why` says of it."""
    count = len(record.posted)
    for number in range(count, max(count - MOST, 0), -1):
        *head, _, verdict, _, cause = causes.values(record.museum, record.posted, number)
        yield [*head, verdict, cause]


def number_rows(record, day, lines):
    """The museum in numbers, with the seal of these lines."""
    things, states = record.museum.things, [record.state(loan) for loan in loans(record.posted)]
    containers = sum(map(is_container, things))
    yield "Places", len(record.museum.inside)
    yield "Containers", containers
    yield "Objects", len(things) - containers
    yield "Loans", len(states)
    yield "Open loans", len(states) - states.count("Closed")
    yield "Last entry", len(record.posted)
    if day:
        yield "Overdue on", day
    yield "Seal", seal_of(lines).rstrip()


class PageRoom(MuseumRoom):
    def stations(self, *words):
        """The rows of the stations, by what the command of that name prints."""
        printed = self.printed("stations", *words)
        return [line.replace(" next ", " ").split(" ", 1) for line in printed.splitlines()]

    def lines(self, *words):
        """The lines of the posted entries."""
        return self.printed("posted", *words).encode().splitlines()


ROOM = PageRoom


def is_page(text, record, day, stations, lines):
    """Whether the page is well-formed, and has the record's numbers, seal, things, locations, loans
    with their objects, objects away, stations and last entries with their causes."""
    page = Page(text)
    good = same((page.open, page.wrong), ([], []))
    numbers = {name: str(it) for name, it in number_rows(record, day, lines)}
    good &= same(page.numbers(), numbers)
    good &= same(page.locations(), list(location_rows(record)))
    things = [nodes for nodes in page.trees[""] if len(nodes) > 1]
    good &= same(sorted(things), sorted(nodes_of(record, True)))
    good &= same(sorted(page.trees["Not placed"]), sorted(nodes_of(record, False)))
    good &= same(page.table("Loans in and loans out"), list(loan_rows(record, day)))
    good &= same(page.table("Objects of each loan"), list(object_rows(record)))
    good &= same(page.table("Away from the normal location"), record.away_values())
    good &= same(page.table("Stations"), stations)
    return good & same(page.table("Last entries"), list(entry_rows(record)))


def test_pages(room, rounds=20):
    """The page of a record, and of the record as it was after an entry, has what the plain program
    has: each thing once, at its place, and the rows of the reports."""
    room.write("setup.csv", streams.SETUP)
    good = True
    for number in room.numbers(rounds):
        record, files = Record.of(streams.SETUP, json_lines(number)), ["setup.csv", f"{number}.db"]
        words = ["--setup", files[0], "--store", files[1]]
        room.run("replay", *words, given=json_lines(number))
        page = room.printed("page", *words)
        good &= is_page(page, record, None, room.stations(*words), room.lines(*words))
        entry, day = number % (len(record.posted) + 2), room.draws.choice(streams.DAYS)
        words += ["--upto", str(entry)]
        page = room.printed("page", *words, "--on", day)
        stations, lines = room.stations(*words), room.lines(*words)
        good &= is_page(page, record.upto(entry), day, stations, lines)
    return good


def test_last_entries(room):
    """Of a record with more entries than the page lists, it has the last ones, the newest first, each
    with its cause."""
    room.write("setup.csv", "station,GAL\nplace,S1,inside\nplace,S2,inside\nown,2001.1.1,S1\n")
    moved = [(str(n), f"S{n % 2 + 1}") for n in range(1, MOST + 51)]
    lines = "".join(
        f'{{"station":"GAL","n":{n},"message":{{"kind":"move","thing":"2001.1.1",'
        f'"place":"{place}","day":"2024-05-01"}}}}\n'
        for n, place in moved
    )
    words = ["--setup", "setup.csv", "--store", "museum.db"]
    room.run("replay", *words, given=lines)
    page = Page(room.printed("page", *words))
    rows = [[n, "GAL", n, "Applied", f"2001.1.1 went to {place}"] for n, place in moved]
    return same(page.table("Last entries"), rows[:-MOST - 1:-1])


def test_checker(room):
    """html5lib, which finds each error in a page of HTML, finds none."""
    if subprocess.run([PYTHON, "-c", "import html5lib"], capture_output=True, check=False).returncode:
        raise Skipped("python3-html5lib is not installed")
    room.write("setup.csv", streams.SETUP)
    words = ["--setup", "setup.csv", "--store", "museum.db"]
    room.run("replay", *words, given=json_lines(3))
    page = room.printed("page", *words, "--on", "2024-06-30")
    found = subprocess.run(
        [PYTHON, "-c", ERRORS], input=page, capture_output=True, text=True, check=True
    )
    return same(found.stdout, "[]\n")


def browsed(room, text):
    """What a browser has of a page after its scripts, and what it writes to its console."""
    browser = shutil.which("chromium")
    if not browser:
        raise Skipped("chromium is not installed")
    room.write("page.html", text)
    words = ["--headless", "--no-sandbox", "--disable-gpu", "--enable-logging=stderr"]
    words += [f"--user-data-dir={room.path('profile')}", "--dump-dom"]
    ended = subprocess.run(
        [browser, *words, f"file://{room.path('page.html')}"],
        capture_output=True,
        timeout=120,
        check=False,
    )
    console = re.findall(r"CONSOLE.*", ended.stderr.decode(errors="replace"))
    return ended.stdout.decode(), console


def in_places(nodes):
    """The nodes of the tree in a browser, where a place is in the places that it lies in."""
    place, *inside = nodes
    above = [other for other in PLACES if place.startswith(f"{other}-")]
    return [*above, place, *inside]


def test_browser(room):
    """In a browser a page loads without an error. A search finds an object, with what it is in, and
    leads to its line and its locations. The time line has the open loans."""
    number = 3
    record = Record.of(streams.SETUP, json_lines(number))
    room.write("setup.csv", streams.SETUP)
    words = ["--setup", "setup.csv", "--store", "museum.db"]
    room.run("replay", *words, given=json_lines(number))
    page = room.printed("page", *words, "--on", "2024-06-30")
    sought = next(nodes for nodes in nodes_of(record, True) if len(nodes) > 2)
    shown, console = browsed(room, page.replace("</body>", SEARCH.replace("SOUGHT", sought[-1])))
    title = re.search(r"<title>(.*?)</title>", shown)
    cells = [str(it) for row in location_rows(record) if row[0] == sought[-1] for it in row[1:]]
    drawn = [
        " ".join([*row[:5], *["overdue"] * bool(row[7])])
        for row in loan_rows(record, "2024-06-30")
        if row[1] != "Closed"
    ]
    good = [in_places(sought[:-1]), sought[-1], sought[-1], cells, drawn]
    return same(console, []) & same(title and json.loads(html.unescape(title[1])), good)
