"""Why each wrong body was refused on this machine, so that none is tried again over the same files.

A result is found by a hash of everything that it rests on: the kit, the scripts, the edit, and the
files of the edit's crate and of each crate below. They are files in `pairsalder` of the user's
cache folder."""
import glob
import hashlib
import os

import prover
from functions import text_of

HERE = os.path.dirname(os.path.abspath(__file__))
SCRIPTS = [
    text_of(f"{HERE}/{it}")
    for it in ("edits", "functions.py", "kept.py", "prover.py", "rounds.py", "wrong_bodies.py")
]
CACHE = os.environ.get("XDG_CACHE_HOME") or os.path.expanduser("~/.cache")
FOLDER = f"{CACHE}/pairsalder/refused"


def hash_of(value):
    return hashlib.sha256(repr(value).encode()).hexdigest()


def texts_of(crate):
    """The name of each file that a proof of the crate reads, and its text."""
    files = [
        it
        for part in prover.PARTS
        for it in glob.glob(f"{crate.folder}/{part}/**/*.*t*", recursive=True)
    ]
    return [
        (os.path.relpath(it, crate.folder), text_of(it))
        for it in sorted(files)
        if os.path.isfile(it)
    ]


def rests_on(crate):
    """A hash of what every result of the crate rests on."""
    crates = [crate, *crate.below()]
    lines = text_of("crates.txt").split("\n")
    uses = [
        line for it in crates for line in lines if line.startswith((f"{it.name}:", f"{it.name} "))
    ]
    return hash_of(
        [text_of(f"{prover.KIT}/KIT-ID"), SCRIPTS, uses, [(it.name, texts_of(it)) for it in crates]]
    )


def name_of(base, edit):
    """The name of an edit's result, over a crate with this hash."""
    return hash_of([base, edit.name, text_of(edit.file), sorted(edit.clauses)])


def find(name):
    """Why the edit was refused, or None."""
    file = f"{FOLDER}/{name}"
    return text_of(file) if os.path.exists(file) else None


def keep(name, why):
    os.makedirs(FOLDER, exist_ok=True)
    part = f"{FOLDER}/{name}.{os.getpid()}"
    with open(part, "w", encoding="utf-8") as it:
        it.write(why)
    os.replace(part, f"{FOLDER}/{name}")
