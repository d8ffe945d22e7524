"""A growth that is refused is `fault memory` after whole lines, and takes nothing from the record.

A run of a case is made once to count its requests for memory, and then once for each of them, which
answers none. What then must hold is told at `Refused`. The sessions have some 27,000 growths in
all, which take a minute; a run over a store has thousands, and each takes three runs of the
program. So only every Nth is tried, from a place that is another for each run and seed; of a run
with few growths each is tried."""
import pathlib
import re
import subprocess
from concurrent.futures import ThreadPoolExecutor

from common.case import CASES, Copy, all_cases, bytes_of, runs_of
from common.obstacles import built
from common.room import Failed
from faults import long_feeds

POSTED = re.compile(rb" posted \d+ ")
NEW_STORE = re.compile(rb"\Anote: new store .*\n")
ENTRY = re.compile(rb" posted (\d+) ")
FEW = 16  # a run with no more growths is tried at each of them


class Refused:
    """One run of a case, with the files that stand before it.

    A run with a refused growth writes a front of its lines, each whole, and then `fault memory`,
    with status 1. A page ends after any part of its text. It may end as if nothing had been refused, too, where it does without that
    growth. If it has a store, the same run over what it left posts the rest: the record is then
    that of a run with nothing refused. Of a run of several stations at once a front is that of each
    station; it may end so, too, since threads ask in no fixed order. Of what it posted it has
    written all, except perhaps one entry. A desk numbers its messages itself, so it isn't run
    again: what it left on record is a front of the record of a run with nothing refused, and has
    each entry that it answered."""

    def __init__(self, room, library, run, files):
        self.room, self.library, self.files = room, library, files
        self.name, self.words, self.wanted = run.name, run.words, run.wanted
        self.given = bytes_of(files / run.given)
        self.lines = self.wanted[1].splitlines(keepends=True)
        self.merges = self.words[:1] == ["serve"]
        self.standing, self.entries = (
            0,
            [],
        )  # entries on record before the run, and after that of a desk
        self.may_do_without = self.merges or "--store" in self.words

    def ended(self, folder, words=None, **names):
        """The status, output and error text of the run in a folder."""
        ended = subprocess.run(
            [self.room.program, *(self.words if words is None else words)],
            cwd=folder,
            input=self.given,
            capture_output=True,
            timeout=60,
            check=False,
            env=names,
        )
        return ended.returncode, ended.stdout, ended.stderr

    def growths(self):
        """How many requests for memory the run makes; it also leaves what stands after it."""
        count = self.files / "growths.txt"
        said = self.ended(self.files, LD_PRELOAD=self.library, CALLS=str(count))
        if not self.is_whole(said):
            raise Failed(f"{self.name}: with nothing refused it isn't what the case wants: {said}")
        number = int(count.read_text(encoding="ascii"))
        count.unlink()
        return number

    def is_whole(self, said):
        return (
            said[0] == self.wanted[0] and self.has_errors(said[2]) and self.is_front(said[1], True)
        )

    def has_errors(self, errors):
        """Whether these are the errors that are wanted. Lines of help, for which there may be no
        memory, may be missing."""
        left = errors.splitlines(True)
        for line in self.wanted[2].splitlines(True):
            if left[:1] == [line]:
                del left[0]
            elif not line.startswith(b"help: "):
                return False
        return not left

    def is_front(self, out, whole=False):
        """Whether these are the run's first lines, or all of them. A page may end within a line."""
        if self.words[:1] == ["page"] and not whole:
            return self.wanted[1].startswith(out)
        lines = out.splitlines(keepends=True)
        if self.merges:
            stations = {line.split(b" ")[0] for line in self.lines + lines}
            pairs = [
                (self.cut(lines, station), self.cut(self.lines, station)) for station in stations
            ]
        else:
            pairs = [(lines, self.lines)]
        return all(got == wanted[: None if whole else len(got)] for got, wanted in pairs)

    @staticmethod
    def cut(lines, station):
        return [
            POSTED.sub(b" posted # ", line) for line in lines if line.startswith(station + b" ")
        ]

    def record(self, folder):
        """The entries of the store that the run's words name, as far as they don't depend on the
        order of stations."""
        if not {"--setup", "--store"} <= set(self.words):
            return None
        setup, store = (self.words[self.words.index(word) + 1] for word in ("--setup", "--store"))
        told = self.ended(folder, ["posted", "--setup", setup, "--store", store])
        return told[0], sorted(line.split(b" ", 1)[1] for line in told[1].splitlines()), told[2]

    def listed(self, folder):
        """The lines of the entries on record, in their order."""
        words = [
            word
            for name in ("--setup", "--store")
            for word in (name, self.words[self.words.index(name) + 1])
        ]
        return self.ended(folder, ["posted", *words])[1].splitlines()

    def is_begun(self, folder, out):
        """Whether a desk left a front of the run's entries on record, with each that it
        answered."""
        left = self.listed(folder)
        return left == self.entries[: len(left)] and all(
            int(number) <= len(left) for number in ENTRY.findall(out)
        )

    def is_earned(self, folder, out):
        """Whether a serving wrote all that it posted, except perhaps one entry."""
        numbers = [int(number) for number in ENTRY.findall(out)]
        unwritten = len(self.record(folder)[1]) - self.standing - len(numbers)
        return numbers == sorted(numbers) and 0 <= unwritten <= 1

    def refused(self, before, record, growth):
        """How many lines are written where this growth is refused; the files before are copied."""
        with Copy(before) as folder:
            said = self.ended(folder, LD_PRELOAD=self.library, REFUSED=str(growth))
            # a desk has printed the note on a new store before its first line
            errors = NEW_STORE.sub(b"", said[2]) if self.words[:1] == ["desk"] else said[2]
            told = (said[0], errors) == (1, b"fault memory\n") and self.is_front(said[1])
            if not (told or self.is_whole(said)):
                raise Failed(f"{self.name}, growth {growth}: {said}")
            if record is not None and said != self.wanted:
                if self.merges and not self.is_earned(folder, said[1]):
                    raise Failed(
                        f"{self.name}, growth {growth}: entries that aren't written: {said}"
                    )
                if self.words[0] == "desk":
                    if not self.is_begun(folder, said[1]):
                        raise Failed(f"{self.name}, growth {growth}: another record: {said}")
                    return said[1].count(b"\n") if told else len(self.lines)
                self.ended(folder)
                if self.record(folder) != record:
                    raise Failed(
                        f"{self.name}, growth {growth}: another record after the run was made again"
                    )
        return said[1].count(b"\n") if told else len(self.lines)

    def told(self, pool, each):
        """Refuses growths, and answers how many and a line of the table."""
        with Copy(self.files) as standing:
            record = self.record(standing)
            self.standing = len(record[1]) if record else 0
        with Copy(self.files) as before:
            count = self.growths()
            first, step = (1, 1) if count <= FEW else (1 + self.room.draws.randrange(each), each)
            growths = set(range(first, count + 1, step))
            if self.merges:  # a log is printed by the last ones
                growths.update(range(max(1, count - FEW), count + 1))
            growths = sorted(growths)
            record = self.record(self.files)
            if self.words[:1] == ["desk"] and record is not None:
                self.entries = self.listed(self.files)
            written = list(pool.map(lambda growth: self.refused(before, record, growth), growths))
        fronts = [lines for lines in written if lines < len(self.lines)]
        if not self.may_do_without and fronts != sorted(fronts):
            raise Failed(f"{self.name}: fewer lines than where an earlier growth is refused")
        return (
            len(growths),
            f"| `{self.name}` | {len(growths):,} | {len(self.lines)} | {len(set(written))} |",
        )


def cases(room):
    """The cases without environment variables, and servings with long feeds."""
    return [it for it in all_cases(CASES) if not any(it.glob("*.env"))] + long_feeds.cases(
        pathlib.Path(room.folder)
    )


def test_refused_growths(room, each=397, case=""):
    """Every 397th growth of each run of the cases, and of servings with long feeds, is refused in a
    run of its own. `case` names the only case to run."""
    total = count = 0
    library = built(room, "refuse_growth.c")
    print(
        "| run | growths | lines | different numbers of lines that were left |\n|---|---|---|---|"
    )
    with ThreadPoolExecutor(2) as pool:
        for found in cases(room):
            if case not in ("", found.name):
                continue
            with Copy(found) as files:
                for run in runs_of(found):
                    growths, line = Refused(room, library, run, files).told(pool, each)
                    total, count = total + growths, count + 1
                    print(line)
    print(f"{total:,} growths of {count} runs")
    return total > 0
