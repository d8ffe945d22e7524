"""What the wrong bodies take from the inside of the kit's `rt`, and of what the prover prints, all
in one place.

If a kit lacks one of these names, loading stops and names it. If the prover words its lines in
another way, the test `repo/wrong_bodies/verdicts` fails. The rest of the gate uses only `rt`'s
command line."""
import importlib.machinery
import importlib.util
import os
import re
import shutil
import sys

sys.dont_write_bytecode = True


def load():
    """The module of `rt` itself."""
    name = os.environ.get("RT") or "rt"
    path = shutil.which(name)
    if not path:
        sys.exit(f"{name} not found: put the Rattle kit's rt on the path, or use RT=/path/to/rt")
    loader = importlib.machinery.SourceFileLoader("rt", os.path.realpath(path))
    made = importlib.util.module_from_spec(importlib.util.spec_from_loader("rt", loader))
    loader.exec_module(made)
    return made


def taken(owner, name):
    """What a module, a class or a crate has under this name."""
    if not hasattr(owner, name):
        whose = getattr(owner, "__name__", type(owner).__name__)
        sys.exit(
            f"this kit's rt has no {whose}.{name}: adapt tests/tools/prover.py, "
            "which lists what the wrong bodies take of it"
        )
    return getattr(owner, name)


RT = load()
LIBRARY = taken(RT, "rtlib")
# the folder of the kit, with the line that identifies it
KIT = taken(LIBRARY, "KIT")
# the prover's program, the folders of a crate, and the words that run it with bounded memory
RATTLE, PARTS, guarded = (taken(LIBRARY, it) for it in ("RATTLE", "PARTS", "guarded"))
# reads an edit, and returns the edited texts and what is wrong with it
read_edit = taken(RT, "read_edit")


def crates_below(top):
    """The crates of a repository, the lowest first."""
    crates = taken(LIBRARY, "crates_below")(top)
    for crate in crates:
        for name in ("name", "folder", "is_program", "words", "below", "build_rlib"):
            taken(crate, name)
    return crates


def are_proved(crates, log):
    """Whether the log of `rt ci` reports each of these crates as proved."""
    return all(
        f"rt: {it.name} proved\n" in log or f"rt: {it.name} is kept: " in log for it in crates
    )


CI_ENDED = re.compile(r"^\d+ passed, \d+ failed$", re.M)  # the last line of `rt ci`
# a line of the prover about a place: file, line, what it says
PLACE = re.compile(r"(?:note: )?(?:\./)?((?:src|specs|proofs)/\S+?):(\d+):\d+: (.*)")
NOT_PROVED = "it is not proved that"
GOAL = re.compile(r"\(`([^`]+)`\)")  # the name of the goal in this line
ERROR = "error: "
UNREAD = "error"  # what a line on a text that it cannot read begins with
VERDICT = "fn {}::{}: "  # what a line on a function begins with
# what only follows from another's failure
ECHO = re.compile(
    r"was not admitted|was rejected|depends on a hole|not checked|has-holes|error: `no-advice`"
)
# a proof file that names what the edit took away, which says little of the contract
NAMES = re.compile(r"proofs/.*(has no field|is not in scope|has no `|`goal[.]\S+: module )")
# a verdict that rests on an answer which is refused, and the verdicts of a function that passes
RESTS = re.compile(r"it stands on .*[.]Answers[.](?!no-advice)")
PASSED = re.compile(r"proved$|no holes|depends on a hole")
# the last line of a check, and the one after each function
ENDED = re.compile(r"^(only|holes|logic)=\S+.*\Z", re.M)
CHECKED = re.compile(r"checked (\S+), \d+ of \d+$")
