"""The help of the program: its commands, its examples."""
import re

TOPICS = ("setup", "lines", "counts", "verdicts", "files")


def commands(room):
    """The names of the commands that the overview lists."""
    listed = room.printed("--help").partition("Commands:")[2].partition("Options:")[0]
    return re.findall(r"^  (\w+)  +\w", listed, re.M)


def examples(room):
    """The lines of the help that call the program, in the overview, of each command, and on the
    pages."""
    pages = [
        ["--help"],
        *([name, "--help"] for name in commands(room)),
        *(["help", name] for name in TOPICS[:3]),
    ]
    return [
        line.strip()
        for words in pages
        for line in re.findall(r"^  pairsalder .*$", room.printed(*words), re.M)
    ]
