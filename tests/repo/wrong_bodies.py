"""The tool that tries wrong bodies lists them all, and tells a right body from a wrong one."""
import re
import subprocess

from common.room import repository_text, same

EDITS = "tests/tools/edits"


def printed(*words):
    """What the tool prints."""
    return subprocess.run([EDITS, *words], capture_output=True, text=True, check=False).stdout


def test_list(room):
    """docs/WRONG_BODIES.md is up to date."""
    return printed("--list") == repository_text("docs", "WRONG_BODIES.md")


def test_verdicts(room):
    """A right body is NOT REFUSED, a wrong one is refused, and an edit that can't be read is a BAD
    EDIT."""
    said = printed("--built", "--anew", "--from", "tests/tools/edits_tried", "codes_core")
    verdicts = [
        re.sub(r"^([^:]*: [A-Z a-z]*).*", r"\1", line)
        for line in said.splitlines()
        if not line.startswith("#")
    ]
    return same(
        sorted(verdicts), repository_text("tests", "tools", "edits_tried", "said").splitlines()
    )
