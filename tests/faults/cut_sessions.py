"""A session that is cut after any byte is answered as far as it goes, or with a named fault.

Each result must be a named fault of the setup and no reply, or the replies to the lines that had
ended, then to the cut line none, a named fault of that line, or its whole reply."""
import re
import subprocess
from concurrent.futures import ThreadPoolExecutor

from common.room import Failed

CASES = ["first_run", "bad_lines", "bad_packs", "crate_in_crate", "loan_out", "loan_in"]

SETUP_FAULT = re.compile(rb"fault setup [A-Za-z]+( row [0-9]+)?\n")
LINE_FAULT = re.compile(rb"line ([0-9]+) bad [A-Za-z]+( [a-z]+)?\n")


def run(program, given):
    """The program's status, output and error text."""
    ended = subprocess.run([program], input=given, capture_output=True, timeout=60, check=False)
    return ended.returncode, ended.stdout, ended.stderr


class Case:
    """A case, and what the program says to its input through each line feed after the head."""

    def __init__(self, program, folder):
        self.program = program
        self.folder = folder
        with open(f"cases/{folder}/stdin", "rb") as file:
            self.given = file.read()
        with open(f"cases/{folder}/stdout", "rb") as file:
            self.wanted = file.read()
        self.lines_from = self.given.index(b"\n\n") + 2
        ends = [
            at + 1 for at, byte in enumerate(self.given) if byte == 10 and at + 1 >= self.lines_from
        ]
        self.replies = {end: self.reply_to(end) for end in ends + [len(self.given)]}

    def reply_to(self, end):
        """What is said to whole lines, which must be the first of the replies that are wanted."""
        status, out, errors = run(self.program, self.given[:end])
        if status or errors or not self.wanted.startswith(out) or (out and out[-1:] != b"\n"):
            raise Failed(f"{self.folder}: the first {end} bytes")
        return out

    def is_right(self, cut):
        """Whether the result for the first bytes is one of those that may be."""
        status, out, errors = run(self.program, self.given[:cut])
        if cut < self.lines_from - 1:
            return out == b"" and (
                SETUP_FAULT.fullmatch(errors) if status == 1 else status == 0 and errors == b""
            )
        if status or errors:
            return False
        if cut < self.lines_from:
            return out == b""
        start = max(end for end in self.replies if end <= cut)
        if not out.startswith(self.replies[start]):
            return False
        last = out[len(self.replies[start]) :]
        number = self.given.count(b"\n", self.lines_from, cut) + 1
        fault = LINE_FAULT.fullmatch(last)
        whole = min((end for end in self.replies if end > cut), default=None)
        if cut == start:
            return last == b""
        if fault is not None:
            return int(fault[1]) == number
        return cut == whole - 1 and out == self.replies[whole]


def test_sessions(room):
    """The input of six cases is cut after each byte: the lines that ended before the cut have their
    replies."""
    cuts = 0
    for folder in CASES:
        case = Case(room.program, folder)
        with ThreadPoolExecutor(2) as pool:
            for cut, right in enumerate(pool.map(case.is_right, range(len(case.given) + 1))):
                if not right:
                    raise Failed(f"{folder}: cut after {cut} bytes")
                cuts += 1
    print(f"{cuts} cuts")
    return cuts > 0
