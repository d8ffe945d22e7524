"""A store has each message by its own text, and each verdict by its number."""
import pathlib
import re

from common.museum import SETUP, MuseumRoom, move
from common.sqlite import read
from oracle.store import VERDICTS
from store.stock_sqlite import opens_as

ROOM = MuseumRoom

# a message as it is sent, and its own text
EXTEND = (
    r'{"kind":"extend","loan":"LO2024.1","last":"2024-06-30"}',
    r'{"kind":"extend","last":"2024-06-30","loan":"LO2024.1"}',
)
NAME = "012345678901234567890123456789012345678901234567890123456789"
TEXTS = [
    (
        r'{"kind":"move","thing":"C1","place":"S1","day":"2024-02-29"}',
        r'{"day":"2024-02-29","kind":"move","place":"S1","thing":"C1"}',
    ),
    (
        r' {"kind": "move", "thing": "2001.4.1", "place": "S1", "day": "2024-05-01", "by": 1} ',
        r'{"day":"2024-05-01","kind":"move","place":"S1","thing":"2001.4.1"}',
    ),
    # the longest codes that are kept in short, and one that is longer
    (
        r'{"kind":"move","thing":"2001.123456.123","place":"ABCDEFGH-123456","day":"2024-05-01"}',
        r'{"day":"2024-05-01","kind":"move","place":"ABCDEFGH-123456","thing":"2001.123456.123"}',
    ),
    (
        r'{"kind":"move","thing":"2001.123456.123","place":"ABCDEFGH-1234567","day":"2024-05-01"}',
        r'{"day":"2024-05-01","kind":"move","place":"ABCDEFGH-1234567","thing":"2001.123456.123"}',
    ),
    (
        r'{"kind":"pack","thing":"2001.4.1","container":"C1","day":"2024-05-01"}',
        r'{"container":"C1","day":"2024-05-01","kind":"pack","thing":"2001.4.1"}',
    ),
    (f'{{"kind":"signoff","by":"{NAME}"}}', f'{{"by":"{NAME}","kind":"signoff"}}'),
    (
        r'{"kind":"signoff","by":"\u00c5sa \"\u65e5\" \/ \\"}',
        r'{"by":"Åsa \"日\" / \\","kind":"signoff"}',
    ),
    (r'{"kind":"move","by":1,"kind":"signoff","by":"A"}', r'{"by":"A","kind":"signoff"}'),
    (
        r'{"kind":"agree","loan":"LO2024.1","partner":"MUSEUM-X","objects":["2001.4.1","2001.4.2"],'
        r'"first":"2024-05-01","last":"2024-05-31"}',
        r'{"first":"2024-05-01","kind":"agree","last":"2024-05-31","loan":"LO2024.1","objects":["2001.4.1","2001.4.2"],'
        r'"partner":"MUSEUM-X"}',
    ),
    (
        r'{"kind":"agree","loan":"LI2024.1","partner":"P","objects":[],"first":"2024-05-31","last":"2024-05-01"}',
        r'{"first":"2024-05-31","kind":"agree","last":"2024-05-01","loan":"LI2024.1","objects":[],"partner":"P"}',
    ),
    (
        r'{"kind":"authorise","loan":"LO2024.1","by":"A. Keeper"}',
        r'{"by":"A. Keeper","kind":"authorise","loan":"LO2024.1"}',
    ),
    (
        r'{"kind":"exit","thing":"2001.4.1","loan":"LO2024.1","day":"2024-05-01"}',
        r'{"day":"2024-05-01","kind":"exit","loan":"LO2024.1","thing":"2001.4.1"}',
    ),
    (
        r'{"kind":"return","thing":"2001.4.1","loan":"LO2024.1","place":"S1","day":"2024-05-01"}',
        r'{"day":"2024-05-01","kind":"return","loan":"LO2024.1","place":"S1","thing":"2001.4.1"}',
    ),
    (
        r'{"kind":"receive","thing":"L1999.7","loan":"LI2024.1","place":"S1","day":"2024-05-01"}',
        r'{"day":"2024-05-01","kind":"receive","loan":"LI2024.1","place":"S1","thing":"L1999.7"}',
    ),
    EXTEND,
]
# cases in which each verdict comes
CASES = [
    "tour_of_verdicts",
    "refusals_of_a_pack",
    "extend_tour",
    "extend_closed",
    "return_under_another_loan",
    "loan_in",
]


def stored(room, texts):
    """A new store of these messages, each of a station of its own, since nothing is posted after a
    sign-off: the number and the text of each row."""
    room.clear()
    room.write("many.csv", SETUP + "".join(f"station,M{k}\n" for k, _ in enumerate(texts, 1)))
    room.replay(
        "".join(
            f'{{"station":"M{k}","n":1,"message":{text}}}\n' for k, text in enumerate(texts, 1)
        ),
        "many.csv",
    )
    return [(row[0], row[3]) for row in read(room.store)[0]["posting"]]


def are_stored(room, texts):
    """Whether each message is stored by its own text, whatever its verdict is."""
    rows, wanted = stored(room, [text for text, _ in texts]), [own for _, own in texts]
    for row in set(rows) ^ set(enumerate(wanted, 1)):
        print(f"{row}")
    return rows == list(enumerate(wanted, 1))


def test_message_texts(room):
    """A store has each message by its own text, whatever spelling was sent."""
    return are_stored(room, TEXTS)


def test_extend_text(room):
    """A store has an extension by its own text."""
    return are_stored(room, [EXTEND])


def test_read_back(room):
    """A run that opens the store prints the same texts."""
    stored(room, [text for text, _ in TEXTS])
    told = [line.split(" ", 4) for line in room.command("posted", "many.csv")[1].splitlines()]
    return [(*words[:3], words[4]) for words in told] == [
        (f"{k}", f"M{k}", "1", own) for k, (_, own) in enumerate(TEXTS, 1)
    ]


def test_no_message(room):
    """A row whose text spells no message is Damaged."""
    text = room.made([move("C1", "S1")])
    return all(
        [
            opens_as(room, text, ("UPDATE posting SET body = ?", body), "Damaged 1")
            for body in ("", "{", "[]", '"move"')
        ]
    )


def verdicts_of(room, case):
    """What a case's replies, the rows of its store, and a run that opens it say of each entry: its
    verdict, by its name."""
    head, lines = (
        (pathlib.Path("cases") / case / "stdin").read_text(encoding="utf-8").split("\n\n", 1)
    )
    room.clear()
    room.write("case.csv", head + "\n")
    replied = re.findall(r"^\S+ \d+ posted (\d+) (\w+)$", room.replay(lines, "case.csv")[1], re.M)
    rows = [
        (str(row[0]), dict(enumerate(VERDICTS)).get(row[4]))
        for row in read(room.store)[0]["posting"]
    ]
    return (
        replied,
        rows,
        re.findall(r"^(\d+) \S+ \d+ (\w+) ", room.command("posted", "case.csv")[1], re.M),
    )


def test_verdicts_by_number(room):
    """A store has each verdict by its number, and a run that opens it prints its name."""
    good, came = True, set()
    for case in CASES:
        replied, rows, told = verdicts_of(room, case)
        if not replied == rows == told:
            print(f"{case}: {replied}, {rows}, {told}")
            good = False
        came |= {verdict for _, verdict in replied}
    return good and came == set(VERDICTS)
