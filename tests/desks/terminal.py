"""At a terminal the program says that it waits for lines, and each reply comes before the next line
is written."""
import os
import pty
import select
import subprocess

from common.museum import scan, move
from common.room import Room, same

SETUP = "station,GAL\nplace,S1,inside\nown,2001.4.1,S1\n"
PROMPT = b"note: waiting for lines from the terminal; end them with Ctrl-D\n"


class ROOM(Room):
    """A room with a setup, setup.csv."""

    def furnish(self):
        self.write("setup.csv", SETUP)


def run_at_terminal(room, words, typed):
    """What the program prints on standard error, and its status, where this is typed, and then
    Ctrl-D once."""
    terminal, line = pty.openpty()
    ran = room.begin(*words, stdin=line, stdout=subprocess.DEVNULL, stderr=subprocess.PIPE)
    os.close(line)
    os.write(terminal, typed + b"\x04")
    errors = ran.communicate(timeout=60)[1]
    os.close(terminal)
    return errors, ran.returncode


def test_prompt(room):
    """A session and a replay note once that they wait for lines from the terminal; no other command
    does."""
    session, status = run_at_terminal(room, [], f"{SETUP}\n".encode())
    good = same((session.startswith(PROMPT), session.count(b"\n"), status), (True, 2, 0))
    for typed in (b"", b'{"ask":"where","thing":"2001.4.1"}\n'):
        good &= same(run_at_terminal(room, ["replay", "--setup", "setup.csv"], typed), (session, 0))
    for words in (["help", "lines"], ["explain", "Double"]):
        good &= same(run_at_terminal(room, words, b""), (b"", 0))
    fault, status = run_at_terminal(room, ["replay", "--setup", "missing.csv"], b"")
    return good and same(
        (fault.startswith(b"fault file"), PROMPT in fault, status), (True, False, 1)
    )


def test_replies_at_once(room):
    """The reply to a line comes while the pipe stays open, before the next line is written."""
    line, good = scan(1, move("2001.4.1", "S1"), "GAL").encode(), True
    with room.begin() as hub:
        hub.stdin.write(f"{SETUP}\n".encode())
        for reply in (b"GAL 1 posted 1 Applied\n", b"GAL 1 refused Double\n"):
            hub.stdin.write(line)
            ready, _, _ = select.select([hub.stdout], [], [], 60)
            good &= same(ready and hub.stdout.readline(), reply)
    return good
