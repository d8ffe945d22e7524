"""Input and words that are damaged, byte by byte, are answered in whole lines, or with a named
fault.

The input of each case is cut after each byte, and each of its bytes is turned to 0, 255, a quote
and a line feed: the session, or of a run with words each file that they name, and each word. Only
every Nth of these is tried, from a place that is another for each run and seed; of a run with few
of them each is tried.

What is answered has to be a named fault, on one line of standard error and with status 1 or 2,
after whole lines of output; or status 0, whole lines, and nothing on standard error but notes;
`resend`, and a run with --strict or --check, may also end so with status 1. `grow`, `check` and `lines` print
a line for each fault of a file. Words that aren't right may have the text of their reader, with
status 2, and may ask for help."""
import os
import re
import subprocess
from collections import Counter
from concurrent.futures import ThreadPoolExecutor

from common.case import CASES, Copy, all_cases, bytes_of, has_session, steps
from common.room import Failed

FAULT = re.compile(rb"fault [a-z]+( [A-Za-z0-9]+)?( row [0-9]+)?\n")
FILE_FAULTS = re.compile(
    rb"(fault (setup|counts|lines) [A-Za-z]+ row [0-9]+\n|fault table row [0-9]+ [^\x00-\x1f]+\n)+"
)
TABLE_FAULT = re.compile(rb"fault table (Near|Twice)Heading column [0-9]+: [^\x00-\x1f]+\n")
LISTING = (b"grow", b"check", b"lines")  # the commands that print all faults of a file
LINES = re.compile(
    "([^\x00-\x1f\x7f\ufffd]*\x07?\n)*"
)  # of UTF-8, where what isn't so becomes U+FFFD; a desk may ring
TURNED = (b"\0", b"\xff", b'"', b"\n")
FEW = 100  # an input with no more damages is tried with each of them


def damaged(data, which):
    """What becomes of an input: it is cut before a byte, or this is turned."""
    at, how = divmod(which, 1 + len(TURNED))
    return data[:at] + (TURNED[how - 1] + data[at + 1 :] if how else b"")


def damages(data):
    return len(data) * (1 + len(TURNED))


def answer(program, words, given, folder):
    ended = subprocess.run(
        [program, *words], input=given, capture_output=True, cwd=folder, timeout=60, check=False
    )
    return ended.returncode, ended.stdout, ended.stderr


def may_fail(words, out):
    """Whether a command without a fault may end with status 1: of a check also without output."""
    return b"--check" in words or (out and (b"--strict" in words or b"resend" in words))


def may_be(said, of_words, words=()):
    status, out, errors = said
    errors = b"".join(
        line
        for line in errors.splitlines(True)
        if not line.startswith((b"help: ", b"note: ", b"missing: "))
    )
    if not LINES.fullmatch(out.decode(errors="replace")):
        return of_words and status == 0 and not errors
    if not errors and (status == 0 or (status == 1 and may_fail(words, out))):
        return True
    if status in (1, 2) and FAULT.fullmatch(errors):
        return True
    if (
        status == 1
        and words
        and words[0] in LISTING
        and (FILE_FAULTS.fullmatch(errors) or TABLE_FAULT.fullmatch(errors))
    ):
        return True
    return of_words and status == 2 and errors.startswith(b"error: ")


class Sessions:
    """The damages of a case's session."""

    def __init__(self, case, peer):
        self.name, self.data, self.peer = case.name, (case / "stdin").read_bytes(), peer

    def count(self):
        return damages(self.data)

    def is_right(self, program, which):
        given = damaged(self.data, which)
        said = answer(program, [], given, None)
        if self.peer:
            return said == answer(self.peer, [], given, None) or said
        return may_be(said, False) or said


class Runs:
    """The damages of what a run of a case is given, its words included; each in a copy of the files
    as they stand before it."""

    def __init__(self, run, before):
        self.name, self.words, self.given, self.before = run.name, run.words, run.given, before

    def inputs(self):
        """Each file that the words name, and each word, with what it holds."""
        named = {
            self.given,
            *(
                word
                for word in self.words
                if (self.before / word).is_file() and not word.endswith(".db")
            ),
        }
        yield from ((name, bytes_of(self.before / name)) for name in sorted(named))
        yield from ((at, word.encode()) for at, word in enumerate(self.words))

    def count(self):
        return sum(damages(data) for _, data in self.inputs())

    def is_right(self, program, which):
        for where, data in self.inputs():
            if which < damages(data):
                break
            which -= damages(data)
        data = damaged(data, which)
        words, of_words = list(map(str.encode, self.words)), isinstance(where, int)
        if of_words and b"\0" in data:
            return True
        with Copy(self.before) as folder:
            if of_words:
                words[where] = data
            else:
                (folder / where).write_bytes(data)
            said = answer(program, words, bytes_of(folder / self.given), folder)
        return may_be(said, of_words, words) or said

    def run(self, program, folder):
        """The run itself, so that the next one stands on it."""
        answer(program, self.words, bytes_of(folder / self.given), folder)


def tried(room, source, each, pool):
    """How many damages of a source were tried; every one has to be right."""
    count = source.count()
    chosen = range(count) if count <= FEW else range(room.draws.randrange(each), count, each)
    for which, right in zip(
        chosen, pool.map(lambda which: source.is_right(room.program, which), chosen)
    ):
        if right is not True:
            raise Failed(f"{source.name}, damage {which}: {right}")
    return len(chosen)


def test_damaged_input(room, each=997, peer="", case=""):
    """Every 997th byte of the input of each case is damaged, and the answer is whole lines or a
    named fault. With a `peer`, the plain program that bench/run builds, the answer to a session has
    to be the peer's, to the byte. `case` names the only case to damage."""
    count = Counter()
    with ThreadPoolExecutor(2) as pool:
        for found in all_cases(CASES):
            if case not in ("", found.name):
                continue
            if has_session(found):
                source = Sessions(found, peer and os.path.abspath(peer))
                count["sessions"] += tried(room, source, each, pool)
            with Copy(found) as files:
                for run in steps(found):
                    source = Runs(run, files)
                    # a run whose words are wrong from the start reads no file
                    if not run.wanted[2].startswith(b"error: "):
                        count["files and words"] += tried(room, source, each, pool)
                    source.run(room.program, files)
    print(", ".join(f"{number:,} damages of {kind}" for kind, number in count.items()))
    return count.total() > 0
