"""A small museum with a store, what its stations send, and the room in which the program keeps its
record."""
from common.room import Room, without_advice
from common.sqlite import settle
from oracle.store import own_text
from oracle.text import museum_of

SETUP = (
    "station,PACK\nstation,GAL\nplace,S1,inside\nplace,S1-A,inside\nplace,S2,inside\n"
    "place,MUSEUM-X,elsewhere\nplace,LENDER-Y,elsewhere\nbox,C1\nbox,C2\n"
    "own,2001.4.1,S1-A\nown,2001.4.2,S1-A\nown,2001.4.3,S1-A\nlent,L1999.7\n"
)
MUSEUM = museum_of(SETUP)
NORMAL = {f"2001.4.{i}": "S1-A" for i in (1, 2, 3)}


def move(thing, place, day="2024-05-01"):
    return {"kind": "move", "thing": thing, "place": place, "day": day}


def pack(thing, container):
    return {"kind": "pack", "thing": thing, "container": container, "day": "2024-05-01"}


def agree(objects):
    return {
        "kind": "agree",
        "loan": "LO2024.1",
        "partner": "MUSEUM-X",
        "objects": objects,
        "first": "2024-05-01",
        "last": "2024-05-31",
    }


def leave(day):
    return {"kind": "exit", "thing": "C1", "loan": "LO2024.1", "day": day}


AUTHORISE = {"kind": "authorise", "loan": "LO2024.1", "by": "A. Keeper"}
# a crate in a crate, and a crate that goes out under a loan: what PACK sends
CRATES = [
    move("C1", "S1"),
    move("C2", "S1"),
    pack("C2", "C1"),
    pack("2001.4.1", "C2"),
    move("C1", "S2"),
]
LOAN = (
    [move("C1", "S1")]
    + [pack(f"2001.4.{i}", "C1") for i in (1, 2, 3)]
    + [agree(["2001.4.1", "2001.4.2"]), leave("2024-05-31"), AUTHORISE, leave("2024-05-31")]
    + [move("2001.4.3", "S2"), leave("2024-06-01"), leave("2024-05-31")]
)
ASK = '{"station":"PACK","ask":"2001.4.1"}\n'


def scan(n, message, station="PACK"):
    return f'{{"station":"{station}","n":{n},"message":{own_text(message)}}}\n'


def scans(messages, station="PACK", first=1):
    """The lines of a station's messages, numbered from the first."""
    return "".join(scan(n, message, station) for n, message in enumerate(messages, first))


def to_and_fro(count, thing="C1", places=("S1", "S2")):
    """So many moves of a thing, from one place to the other and back."""
    return [move(thing, places[n % 2]) for n in range(count)]


class MuseumRoom(Room):
    """A room with the museum's setup, setup.csv, and a store, museum.db."""

    def furnish(self):
        self.store = self.path("museum.db")
        self.write("setup.csv", SETUP)

    def words(self, command="replay", setup="setup.csv", store=None):
        """The words of a command over the store."""
        return [command, "--setup", self.path(setup), "--store", store or self.store]

    def replay(self, given="", setup="setup.csv", store=None, **how):
        """What a replay onto the store says, without advice."""
        return without_advice(self.run(*self.words("replay", setup, store), given=given, **how))

    def command(self, name, setup, *more):
        """The same of another command over the store."""
        return without_advice(self.run(*self.words(name, setup), *more))

    def clear(self):
        self.remove("museum.db")

    def made(self, messages):
        """A store of these messages, as one file, and its bytes."""
        self.clear()
        self.replay(scans(messages))
        settle(self.store)
        return self.read("museum.db")
