"""The repository has the layout that its pages describe."""
import re
import subprocess

from common.case import CASES
from common.room import none_of, repository_text

MOST_LINES = 800  # of a file of Rattle


def kept():
    """The files that git keeps."""
    return subprocess.run(
        ["git", "ls-files"], capture_output=True, text=True, check=True
    ).stdout.splitlines()


def test_handles(room):
    """HANDLES allows Threads and Wait alone."""
    return repository_text("HANDLES").strip() == "Handles allowed: Threads, Wait."


def test_tactics(room):
    """Each crate tries its tactics by itself."""
    roots = [path for path in kept() if re.fullmatch(r"crates/\w+/src/(lib|main)\.rt", path)]
    lacking = [
        path for path in roots if not re.search(r"(?m)^#!\[tactic\(auto\)\]", repository_text(path))
    ]
    return len(roots) > 1 and none_of(lacking)


def test_kept_files(room):
    """Git keeps the gate."""
    return "tests/gate" in kept()


def test_file_lengths(room):
    """No file of Rattle has over 800 lines."""
    lengths = {
        path: repository_text(path).count("\n")
        for path in kept()
        if path.endswith((".rt", ".antt"))
    }
    return none_of(
        f"{path}: {lines} lines" for path, lines in lengths.items() if lines > MOST_LINES
    )


def test_index_of_cases(room):
    """Each case is in the index of the cases."""
    index = repository_text("cases", "README.md")
    return none_of(
        path.name for path in CASES.iterdir() if path.is_dir() and f"`{path.name}`" not in index
    )


def test_no_build_output(room):
    """Git keeps no build output."""
    return none_of(path for path in kept() if re.search(r"(^|/)out/|^bin/", path))


def files_of_tests():
    """The files with tests, as FOLDER/FILE."""
    for path in kept():
        is_python = path.startswith("tests/") and path.endswith(".py")
        if is_python and re.search(r"(?m)^def tests?(_\w+)?\(", repository_text(path)):
            yield path.removeprefix("tests/").removesuffix(".py")


def test_page_of_tests(room):
    """docs/TESTS.md names each file of tests, and no other."""
    files = set(files_of_tests())
    folders = "|".join({name.split("/")[0] for name in files})
    named = set(re.findall(rf"`((?:{folders})/\w+)`", repository_text("docs", "TESTS.md")))
    wrong = [f"{name}: not on the page" for name in files - named]
    return none_of(wrong + [f"{name}: no file of tests" for name in named - files])
