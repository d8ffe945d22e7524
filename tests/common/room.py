"""A temporary folder in which a test runs the program, and what a test compares."""
import os
import random
import subprocess
import tempfile
import time

ROOT = os.path.dirname(os.path.dirname(os.path.dirname(os.path.abspath(__file__))))
# in memory, so that no test waits for a disk
MEMORY = "/dev/shm" if os.path.isdir("/dev/shm") else None
# lines on standard error that explain a fault or note something
ADVICE = ("help: ", "note: ")

# the errors of a command over museum.db if its fault is in no single entry
DAMAGED = (
    "fault store Damaged 0\n"
    "help: museum.db was changed or damaged: keep the file, and restore the last copy\n"
)


class Failed(Exception):
    """What the program did wrong."""


class Skipped(Exception):
    """Why a test can't be made here. It counts as passed."""


class Room:
    """A folder of its own for one test, with the program and the test's random draws."""

    def __init__(self, program, seed, name):
        self.program, self.seed = os.path.abspath(program), seed
        self.draws = random.Random(f"{seed} {name}")

    def __enter__(self):
        self.kept = tempfile.TemporaryDirectory(dir=MEMORY)
        self.folder = self.kept.name
        self.furnish()
        return self

    def __exit__(self, *_):
        self.kept.cleanup()

    def furnish(self):
        """Writes the files that each test of a kind of room begins with."""

    def path(self, name):
        return os.path.join(self.folder, name)

    def write(self, name, text):
        """Writes a file, and returns its path."""
        with open(self.path(name), "wb") as file:
            file.write(text if isinstance(text, bytes) else text.encode())
        return self.path(name)

    def read(self, name):
        with open(self.path(name), "rb") as file:
            return file.read()

    def remove(self, start):
        """Removes each file whose name starts so."""
        for name in os.listdir(self.folder):
            if name.startswith(start):
                os.remove(self.path(name))

    def numbers(self, count):
        """The numbers of so many random streams, the first ones, and a quarter as many by the
        seed."""
        return [*range(1, count + 1), *range(self.seed + count, self.seed + count + count // 4)]

    def run(self, *words, given="", **how):
        """The status, the output and the errors of the program, run in the folder."""
        given = given if isinstance(given, bytes) else given.encode()
        how = {"cwd": self.folder, "timeout": 300, **how}
        return told(subprocess.run([self.program, *words], input=given, capture_output=True, **how))

    def printed(self, *words):
        """What the program prints, run in the folder, where it has to end without a fault."""
        status, output, errors = self.run(*words)
        if status:
            raise Failed(f"{words}: {errors}")
        return output

    def begin(self, *words, **how):
        """The program, run in the folder until its input ends or it is killed. Its input and its
        output are pipes without a buffer, so that no line waits in one."""
        pipes = {"stdin": subprocess.PIPE, "stdout": subprocess.PIPE, "stderr": subprocess.DEVNULL}
        how = {"cwd": self.folder, "bufsize": 0, **pipes, **how}
        return subprocess.Popen([self.program, *words], **how)

    def killed(self, seconds, *words):
        """Whether a kill after so many seconds stopped a run of the program before its end."""
        run = self.begin(*words, stdin=subprocess.DEVNULL, stdout=subprocess.DEVNULL)
        time.sleep(seconds)
        run.kill()
        return run.wait() != 0


def told(ran):
    """The status of a run, its output and its errors."""
    return ran.returncode, ran.stdout.decode(), ran.stderr.decode()


def without_advice(said):
    """What a run said, without the lines of help and the notes."""
    status, output, errors = said
    kept = [line for line in errors.splitlines(True) if not line.startswith(ADVICE)]
    return status, output, "".join(kept)


def same(got, wanted):
    """Whether two values are equal; prints them if not."""
    if got != wanted:
        print(f"{str(got)[:2000]}, not {str(wanted)[:2000]}")
    return got == wanted


def none_of(wrong):
    """Whether this list of what is wrong is empty; prints it if not."""
    wrong = list(wrong)
    print("".join(f"{line}\n" for line in wrong), end="")
    return not wrong


def repository_text(*path):
    """The text of a file of the repository."""
    with open(os.path.join(ROOT, *path), encoding="utf-8") as file:
        return file.read()
