"""The program accepts each example on the pages of its help, and the pages have every kind that the
reference lists."""
import os
import re
import subprocess

from common.help import TOPICS, commands
from common.room import Room, none_of, repository_text

# the pages of the reference, in docs/, whose tables are compared
REFERENCE = ["FORMATS", "REPLIES", "REPORTS"]
WIDTH, HEIGHT = 80, 40
# what the loan in of a page needs before its object can come
BEFORE = [
    '{"kind":"agree","loan":"LI2024.1","partner":"MUSEUM-X","objects":["L1999.7"],"first":"2024-05-01","last":"2024-05-31"}',
    '{"kind":"authorise","loan":"LI2024.1","by":"Ann"}',
]


def table(formats, head):
    """The first cells of the rows of a table, with the other cells."""
    rows = formats.partition(head)[2].partition("\n\n")[0].splitlines()[2:]
    return [[cell.strip() for cell in row.strip("|").split("|")] for row in rows]


class ROOM(Room):
    """A room with the program, and what each page of its help is compared with."""

    def furnish(self):
        os.symlink(self.program, self.path("pairsalder"))
        self.formats = "\n".join(repository_text("docs", f"{page}.md") for page in REFERENCE)

    def page(self, topic):
        return self.run("help", topic)[1]

    def rows(self, topic):
        """The rows of comma-separated fields that a page shows."""
        return re.findall(
            r"^  ([A-Za-z0-9-]+(?:,[A-Za-z0-9.-]+)+|S2)(?:   *\S.*)?$", self.page(topic), re.M
        )

    def messages(self):
        """The messages that the page of the lines shows, each joined to one line."""
        return [
            re.sub(r"\n *", "", text)
            for text in re.findall(r"^  (\{\"kind\".*?\})$", self.page("lines"), re.M | re.S)
        ]

    def replay(self, messages):
        lines = [
            f'{{"station":"GAL","n":{n},"message":{message}}}\n'
            for n, message in enumerate(messages, 1)
        ]
        return self.run(
            "replay",
            "--setup",
            "museum.csv",
            "--store",
            "museum.db",
            "--strict",
            given="".join(lines),
        )

    # each of these yields what is wrong with a page

    def forms(self):
        for topic in TOPICS:
            status, page, errors = self.run("help", topic)
            lines = page.splitlines()
            if status or errors or not lines or len(lines) > HEIGHT or max(map(len, lines)) > WIDTH:
                yield f"help {topic}: status {status}, {len(lines)} lines, errors {errors}"

    def overview(self):
        status, overview, errors = self.run("--help")
        if self.run("help") != (status, overview, errors):
            yield "help isn't --help"
        if "setup, lines, counts, verdicts or files" not in " ".join(overview.split()):
            yield "--help doesn't list the topics"
        for command in commands(self):
            # a name of both is the topic's
            if command not in TOPICS and self.run("help", command) != self.run(command, "--help"):
                yield f"help {command} isn't {command} --help"
        if any(topic not in self.run("help", "nothing")[2] for topic in TOPICS):
            yield "help nothing doesn't list the topics"
        for words in (["nothing"], ["setup", "lines"], [""]):
            if self.run("help", *words)[0] != 2:
                yield f"help {words}: {self.run('help', *words)}"

    def setup(self):
        rows = self.rows("setup")
        self.write("museum.csv", "".join(f"{row}\n" for row in rows))
        status, _, errors = self.run("replay", "--setup", "museum.csv")
        if status:
            yield f"help setup: {rows}: {errors}"
        wanted = {re.match(r"`(\w+),", row[0])[1] for row in table(self.formats, "| row | lists |")}
        if wanted != {row.split(",")[0] for row in rows}:
            yield f"help setup: {rows}, not each of {wanted}"
        if not {"inside", "elsewhere"} <= {row.split(",")[-1] for row in rows}:
            yield "help setup: not both kinds of place"

    def lines(self):
        messages = self.messages()
        *story, filler = messages
        status, replies, errors = self.replay(BEFORE + story)
        if status or replies.count(" Applied\n") != len(BEFORE + story):
            yield f"help lines: status {status}, {replies} {errors}"
        wanted = [
            [row[0].strip("`"), *re.findall(r"`(\w+)`", row[1])]
            for row in table(self.formats, "| kind | keys in order |")
        ]
        # `"kind":"move"` is the first member
        shown = [
            re.findall(r'"kind":"(\w+)"', text) + re.findall(r'"(\w+)":', text)[1:]
            for text in story
        ]
        if sorted(wanted) != sorted(shown):
            yield f"help lines: {shown}, not {wanted}"
        question = re.findall(r'^  (\{"station":"GAL","ask".*\})$', self.page("lines"), re.M)
        answer = self.run(
            "replay", "--setup", "museum.csv", "--store", "museum.db", given="".join(question)
        )
        if answer[:2] != (0, "GAL ask 2001.4.1 at S1 in C1\n"):
            yield f"help lines: {question}: {answer}"
        yield from self.filled(filler)

    def filled(self, filler):
        """A lost number is filled by the message of the page, and by the other kinds that it
        names."""
        thing = re.search(r'"thing":"(\w+)"', filler)[1]
        words = re.findall(r"\w+", re.search(r"not\s+list: a ([^.]*)\.", self.page("lines"))[1])
        kinds = [word for word in words if word != "or"]
        for message in [filler] + [
            re.sub(r'"thing":"[^"]*"', f'"thing":"{thing}"', text) for text in self.messages()[:-1]
        ]:
            kind = re.search(r'"kind":"(\w+)"', message)[1]
            if kind not in kinds:
                continue
            reply = self.run(
                "replay",
                "--setup",
                "museum.csv",
                given=f'{{"station":"GAL","n":1,"message":{message}}}\n',
            )[1]
            if reply != "GAL 1 posted 1 UnknownThing\n":
                yield f"help lines: a lost number and {message}: {reply}"
        if "move" not in kinds or len(kinds) != 5:
            yield f"help lines: a lost number is filled by {kinds}"

    def counts(self):
        rows = self.rows("counts")
        self.write("shelves.csv", "".join(f"{row}\n" for row in rows))
        status, answers, errors = self.run(
            "count", "--setup", "museum.csv", "--store", "museum.db", "shelves.csv"
        )
        if status or answers.count("row ") != len(rows) or len(rows) < 3:
            yield f"help counts: {rows}: {answers} {errors}"
        wanted = [row[0] for row in table(self.formats, "| answer | when |")]
        shown = re.findall(r"^  ([A-Z][A-Za-z]+)(?: S2)?   *\S", self.page("counts"), re.M)
        if shown != wanted:
            yield f"help counts: {shown}, not {wanted}"

    def verdicts(self):
        rows = table(self.formats, "| number | verdict | of | when |")
        wanted = [row[1] for row in sorted(rows, key=lambda row: int(row[0]))]
        shown = re.findall(r"^  ([A-Z][A-Za-z]+)   *\S", self.page("verdicts"), re.M)
        if shown != wanted:
            yield f"help verdicts: {shown}, not {wanted}"

    def files(self):
        os.mkdir(self.path("elsewhere"))
        posted = ("posted", "--setup", "museum.csv", "--store", "museum.db")
        before = self.run(*posted)
        shown = re.findall(r"^  ((?:pairsalder|cp|mkdir) .*)$", self.page("files"), re.M)
        for command in shown:
            line = f"PATH=.:$PATH; {command}"
            ran = subprocess.run(
                ["bash", "-c", line], cwd=self.folder, capture_output=True, check=False
            )
            if ran.returncode or self.run(*posted) != before:
                yield f"help files: {command}: {ran} {self.run(*posted)}"
        moved = self.run(*[word.replace("museum.", "elsewhere/museum.") for word in posted])
        if before[0] or moved != before or len(shown) < 3:
            yield f"help files: {shown}: {moved}, not {before}"


def test_help_topics(room):
    """The program accepts each example on the pages, and the pages have each kind, answer and
    verdict."""
    pages = [
        room.forms,
        room.overview,
        room.setup,
        room.lines,
        room.counts,
        room.verdicts,
        room.files,
    ]
    return none_of(line for page in pages for line in page())
