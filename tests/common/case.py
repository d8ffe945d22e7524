"""A case: a folder with what goes into one or several runs of the program, and what must come out.

The input of a session is `stdin`, and `stdout`, `stderr` and `status` have what it must give (of an
example `session.txt` and `replies.txt`): nothing, nothing and 0 if there is no such file. A case of
several runs, one after the other over its files, has these as `1.stdin` and so on, and the words of
run 1 in `1.args`, one a line. A last word `< FILE` names the input, and a last one `> FILE` the
file that gets the output. `1.env` has environment variables, as lines NAME=VALUE."""
import os
import pathlib
import shutil
import tempfile

from common.room import MEMORY, ROOT

CASES, EXAMPLES = pathlib.Path(ROOT, "cases"), pathlib.Path(ROOT, "examples")
INPUTS = ("stdin", "session.txt")


def bytes_of(path):
    return path.read_bytes() if path.exists() else b""


def redirected(words, mark):
    """The file of a last word with this mark, which is taken away, or None."""
    return words.pop().removeprefix(mark) if words and words[-1].startswith(mark) else None


class Run:
    """A run of a case: its words, and the names of the files with its input and of the one that
    gets its output."""

    def __init__(self, case, step=None):
        self.case, self.step = case, step
        self.name = f"{case.name} {step}" if step else case.name
        self.words = self.part("args").decode().splitlines()
        self.given = redirected(self.words, "< ") or self.named("stdin")
        self.target = redirected(self.words, "> ")
        if step is None and not (case / "stdin").exists():
            self.given = "session.txt"
        output = self.part("stdout") or (b"" if step else bytes_of(case / "replies.txt"))
        self.wanted = int(self.part("status") or b"0"), output, self.part("stderr")
        self.variables = dict(line.split(b"=", 1) for line in self.part("env").splitlines())

    def named(self, end):
        return end if self.step is None else f"{self.step}.{end}"

    def part(self, end):
        return bytes_of(self.case / self.named(end))

    def environment(self):
        """Our environment without our own variables, and with those of the run."""
        others = {
            name: it for name, it in os.environb.items() if not name.startswith(b"PAIRSALDER_")
        }
        return others | self.variables


def has_session(case):
    return any((case / name).exists() for name in INPUTS)


def steps(case):
    """The runs of a case that has several, in their order."""
    return [Run(case, step) for step in sorted(int(path.stem) for path in case.glob("*.args"))]


def runs_of(case):
    """The run of a session, or the runs of a case that has several."""
    return ([Run(case)] if has_session(case) else []) + steps(case)


def all_cases(*folders):
    """The cases in these folders, by their names."""
    return [
        path
        for folder in folders
        for path in sorted(folder.iterdir())
        if has_session(path) or any(path.glob("1.args"))
    ]


class Copy:
    """A copy of a folder with files, as long as it is needed."""

    def __init__(self, folder):
        self.kept = tempfile.TemporaryDirectory(dir=MEMORY)
        self.folder = shutil.copytree(folder, pathlib.Path(self.kept.name, "case"))

    def __enter__(self):
        return self.folder

    def __exit__(self, *_):
        self.kept.cleanup()
