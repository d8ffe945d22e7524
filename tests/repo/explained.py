"""`explain` knows each word that is printed."""
import functools
import glob
import os
import re

from common.room import ROOT, Failed, none_of, repository_text

# the pages of the reference, in docs/
PAGES = ("FORMATS", "REPLIES", "COMMANDS", "REPORTS", "FAULTS", "STORE", "SEALS")
NAME = r"[A-Z][A-Za-z]+"
# names one after the other, each with what it means, from these words to the end of the paragraph
LISTS = ("The faults of a text, ", "Faults of a line, ", "Refusals, ", "Why it isn't opened, ")
# names that a line prints before its key or its row, in the sentences on a setup and a count list
SENTENCES = (r"Faults: (NotCsv),", r"Last (NoStation):")
# words of these paragraphs that are no names
WORDS = {"JSON", "UTF", "SQLite", "Each", "Of", "Only", "What", "While"}
# the enums whose variants are printed, each in its file
ENUMS = {
    "posting_core/src/verdict.rt": ["Verdict"],
    "posting_core/src/stage.rt": ["LineStage", "LoanState"],
    "station_core/src/lib.rt": ["Refusal"],
    "codes_core/src/fault.rt": ["CodeFault"],
    "nest_core/src/setup_fault.rt": ["SetupFault"],
    "nest_core/src/grow_fault.rt": ["GrowFault"],
    "count_core/src/count_fault.rt": ["CountFault"],
    "count_core/src/answer.rt": ["CountAnswer"],
    "table_core/src/sheet_fault.rt": ["SheetFault"],
    "table_core/src/fault.rt": ["HeadingFault"],
    "line_files/src/gap_fault.rt": ["GapFault"],
    "register_store/src/fault.rt": ["ReadFault"],
    "register_store/src/store_fault.rt": ["StoreFault"],
    "seal_core/src/reading.rt": ["LineFault"],
    "seal_core/src/receipt_fault.rt": ["ReceiptFault"],
}
# a variant that is printed as `fault memory`
UNPRINTED = {"NoMemory"}
# lower words of replies and reports, which no table of the formats lists
REPLIES = [
    "held",
    "posted",
    "refused",
    "bad",
    "ask",
    "at",
    "in",
    "unknown",
    "unplaced",
    "missing",
    "row",
    "normal",
    "next",
    "full",
]
REPLIES += [
    "signed off",
    "copied",
    "exported",
    "migrated",
    "grown",
    "grew",
    "note",
    "fault",
    "store",
    "counts",
    "setup",
    "day",
    "code",
]
# those of a desk
REPLIES += ["to", "into", "out", "not sent", "no target", "no day", "nothing", "not understood"]
# those of the commands that prepare lines or check files
REPLIES += ["table", "lines", "same", "other", "waits", "ok", "OtherStation"]
# those of seals and receipts
REPLIES += ["holds", "broken", "seal", "receipt"]


def formats_names(formats):
    """The names that the formats define."""
    names = set(re.findall(rf"^\| [0-9]+ \| ({NAME}) \|", formats, re.M))
    for head in (r"\| fault \| when \|", r"\| answer \| when \|"):
        for table in re.findall(rf"^{head}.*\n((?:\|.*\n)+)", formats, re.M):
            names.update(re.findall(rf"^\| ({NAME}) \|", table, re.M))
    # the stages before and after a message
    for table in re.findall(r"^\| message \| stage before \|.*\n((?:\|.*\n)+)", formats, re.M):
        names.update(re.findall(rf"\| ({NAME}) (?=\|)", table))
    for first in LISTS:
        names.update(re.findall(NAME, formats.partition(first)[2].partition("\n\n")[0]))
    for sentence in SENTENCES:
        names.update(re.findall(sentence, formats))
    # the fault lines that have no name behind their word
    names.update(re.findall(r"`fault ([a-z]+)(?: STATION)?`", formats))
    return names - WORDS


def source_names():
    """The variants of the enums that are printed, and the words of fault lines."""
    names = set()
    for path, enums in ENUMS.items():
        source = repository_text("crates", *path.split("/"))
        for enum in enums:
            body = source.partition(f"enum {enum} {{")[2].partition("\n}")[0]
            variants = set(re.findall(r"^    ([A-Z]\w+)[,( ]", body, re.M))
            if not variants:
                raise Failed(f"no enum {enum} in {path}")
            names.update(variants)
    names.update(
        re.findall(r'"fault ([a-z]+)', repository_text("crates", "hub_program", "src", "fault.rt"))
    )
    return names - UNPRINTED


def explained_words():
    """All words that have a text, in the order of the sources."""
    sources = sorted(glob.glob(os.path.join(ROOT, "crates", "command_words", "src", "*.rt")))
    return [
        word
        for path in sources
        for word in re.findall(r'^        word: "([^"]+)"', repository_text(path), re.M)
    ]


@functools.cache
def edits(one, other):
    """How many letters have to be added, dropped or changed."""
    row = list(range(len(other) + 1))
    for i, a in enumerate(one, 1):
        row, before = [i], row
        for j, b in enumerate(other, 1):
            row.append(min(row[-1] + 1, before[j] + 1, before[j - 1] + (a != b)))
    return row[-1]


def is_explained(said, word):
    status, output, errors = said
    lines = output.splitlines()
    labels = (
        [lines[0].startswith(f"{word}: "), lines[1].startswith("Cause: ")]
        if len(lines) > 1
        else [False]
    )
    labels.append(sum(line.startswith("Do: ") for line in lines) == 1)
    return (
        status == 0
        and errors == ""
        and all(labels)
        and len(lines) in (3, 4)
        and max(map(len, lines)) <= 80
    )


def slips(word):
    """A word with its last letter dropped, and one with a letter changed."""
    middle = len(word) // 2
    return word[:-1], f"{word[:middle]}x{word[middle + 1:]}"


def wrong_slips(room, words, word):
    """Slips of a word for which another is suggested than the nearest, and the word if none of its
    slips suggests it."""
    lowered, right = {other.lower(): other for other in words}, False
    for slip in slips(word):
        if slip.lower() in lowered:
            continue
        least = min(edits(slip.lower(), other) for other in lowered)
        nearest = [lowered[other] for other in lowered if edits(slip.lower(), other) == least]
        said = room.run("explain", slip)
        if said not in [suggestion(other) for other in nearest]:
            yield f"{slip}: {said}, not one of {nearest}"
        right = right or said == suggestion(word)
    if not right:
        yield f"{word}: suggested for none of {slips(word)}"


def suggestion(word):
    return 2, "", f"fault name\nhelp: did you mean {word}?\n"


def wrong_words(words):
    """What is wrong with the list of explained words."""
    reference = "\n".join(repository_text("docs", f"{page}.md") for page in PAGES)
    lowered = [word.lower() for word in words]
    yield from (f"{word}: twice" for word in set(lowered) if lowered.count(word) > 1)
    wanted = formats_names(reference) | source_names() | set(REPLIES)
    yield from (f"{word}: not explained" for word in wanted if word.lower() not in lowered)
    yield from (
        f"{word}: not in the reference"
        for word in words
        if not re.search(rf"\b{word}\b", reference, re.I)
    )


def wrong_texts(room, words):
    """What is wrong with the texts of the words."""
    for word in words:
        said = room.run("explain", word)
        if not is_explained(said, word):
            yield f"{word}: {said}"
        for other in (word.lower(), word.upper()):
            if room.run("explain", other) != said:
                yield f"{other}: another text than {word}"
        if len(word) > 3:
            yield from wrong_slips(room, words, word)


def test_explained(room):
    """Each word of the reference and of the sources is explained, in any letter case, and suggested
    for a slip."""
    words = explained_words()
    print(f"{len(words)} words")
    return none_of([*wrong_words(words), *wrong_texts(room, words)])
