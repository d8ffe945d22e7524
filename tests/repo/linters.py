"""pyflakes and shellcheck find nothing in the scripts."""
import re
import shutil
import subprocess

from common.room import Skipped
from repo.layout import kept


def scripts(end, interpreter):
    """The files that git keeps with this end, or with this interpreter in their first line."""
    for path in kept():
        with open(path, "rb") as file:
            first = file.readline()
        if path.endswith(end) or re.match(rb"#!.*\b" + interpreter + rb"\n", first):
            yield path


def finds_nothing(tools, files):
    """Whether the first of these tools that is installed ends with status 0; prints what it
    finds."""
    tool = next(filter(shutil.which, tools), None)
    if not tool:
        raise Skipped(f"{tools[0]} is not installed")
    ran = subprocess.run([tool, *files], capture_output=True, text=True, check=False)
    print(ran.stdout + ran.stderr)
    return bool(files) and ran.returncode == 0


def test_pyflakes(room):
    """pyflakes finds nothing in the Python scripts."""
    return finds_nothing(["pyflakes3", "pyflakes"], list(scripts(".py", b"python3")))


def test_shellcheck(room):
    """shellcheck finds nothing in the shell scripts."""
    return finds_nothing(["shellcheck"], list(scripts(".sh", b"(ba)?sh")))
