"""Cases of servings with long feeds, made for refused_growths.py: a feed of one item more than its
lane holds, and two feeds of 2,500 items.

Each station moves a crate of its own to and fro. After each move it asks where the crate is, and
last sends a faulty line."""
LANE = 2048
ROUND = 40  # lines: a message, questions, and a faulty line
SETUP = "place,S1,inside\nplace,S2,inside\n"
WORDS = ["serve", "--setup", "setup.csv", "--store", "museum.db"]
NOTE = "note: new store museum.db\n"


def lines_of(station, crate, count):
    """So many lines of a station, each with its reply, in which # stands for an entry's number."""
    for at in range(count):
        n, step = divmod(at, ROUND)
        place = "S2" if n % 2 else "S1"
        if step == 0:
            message = f'{{"kind":"move","thing":"{crate}","place":"{place}","day":"2024-05-01"}}'
            yield f'{{"n":{n + 1},"message":{message}}}', f"{station} {n + 1} posted 1 Applied"
        elif step < ROUND - 1:
            yield f'{{"ask":"{crate}"}}', f"{station} ask {crate} at {place}"
        else:
            yield "{}", f"{station} line {at + 1} bad Missing n"


def write(folder, name, text):
    (folder / name).write_text(text, encoding="ascii")


def made(folder, stations, count):
    """A case of stations with so many lines each, in this folder."""
    folder.mkdir()
    replies, crates = [], [f"C{number}" for number, _ in enumerate(stations, 1)]
    for station, crate in zip(stations, crates):
        lines = list(lines_of(station, crate, count))
        write(folder, f"{station}.jsonl", "".join(line + "\n" for line, _ in lines))
        replies += [reply + "\n" for _, reply in lines]
    rows = [f"station,{station}\n" for station in stations] + [f"box,{crate}\n" for crate in crates]
    write(folder, "setup.csv", "".join(rows) + SETUP)
    write(folder, "1.args", "\n".join([*WORDS, *(f"{station}.jsonl" for station in stations)]))
    write(folder, "1.stdout", "".join(replies))
    write(folder, "1.stderr", NOTE)
    return folder


def cases(folder):
    """The cases, each in a folder of its own."""
    one = made(folder / "one_more_than_a_lane", ["GAL"], LANE + 1)
    return [one, made(folder / "two_long_feeds", ["PACK", "GAL"], 2500)]
