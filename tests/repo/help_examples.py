"""Each example of the help runs, over a record with the files that it names."""
import os
import subprocess

from common.help import commands, examples
from common.museum import LOAN, SETUP, move, scan, scans
from common.room import none_of
from oracle.seals import seal_of

FILES = {
    "museum.csv": SETUP,
    "monday.jsonl": scans([*LOAN, move("C2", "S1")]),
    "shelves.csv": "S1,2001.4.3\nS2\n",
    "packing.jsonl": "",
    "gallery.jsonl": "",
    "moves.csv": "kind,thing,place,day\nmove,2001.4.1,S1-A,2024-06-01\n",
    "gal.jsonl": scan(1, move("C2", "S1"), "GAL"),
    # the seal of no entries, which every record has
    "seals.txt": seal_of([]),
}


def test_commands_have_examples(room):
    """The help of each command has an example of it."""
    names = commands(room)
    lacking = [
        name for name in names if f"\n  pairsalder {name} " not in room.printed(name, "--help")
    ]
    return len(names) > 1 and none_of(f"help {name}: no example" for name in lacking)


def failing(room):
    """The examples that fail."""
    for example in sorted(examples(room), key=lambda line: " replay " not in line):
        line = example.replace(" /media/", " media/")
        how = {
            "cwd": room.folder,
            "stdin": subprocess.DEVNULL,
            "capture_output": True,
            "check": False,
        }
        ran = subprocess.run(["bash", "-c", f"./{line}"], **how)
        if ran.returncode:
            yield f"{example}: {ran}"


def test_help_examples(room):
    """Each example of the help ends with status 0."""
    for name, text in FILES.items():
        room.write(name, text)
    os.symlink(room.program, room.path("pairsalder"))
    os.makedirs(room.path("media/usb"))
    return len(examples(room)) >= len(commands(room)) and none_of(failing(room))
