"""The man page and the completions agree with the help and the version."""
import os
import re
import shutil
import subprocess

from common.help import commands
from common.room import ROOT, none_of, repository_text

MAN = "man/man1/pairsalder.1"
# each file, and the parts of it that are about one command
FILES = {
    MAN: r"^\.SS {}\n(.*?)^\.S[SH]",
    "bash-completion/completions/pairsalder": r"^ +\*-{}\) (.*?);;",
    "zsh/site-functions/_pairsalder": r"^ +{}\) (.*?);;",
    "fish/vendor_completions.d/pairsalder.fish": r"_from {}' ([^\n]*)",
}
# a shell that completes `pairsalder re`, and prints what it offers
SHELLS = {
    "bash": """source "$1"; COMP_WORDS=(pairsalder re) COMP_CWORD=1
        complete -p pairsalder | grep -q -- "-F _pairsalder " && _pairsalder
        echo "${COMPREPLY[@]}" """,
    "zsh": """zmodload zsh/zpty; zpty inner zsh -f -i
        zpty -w inner "fpath=(${1:h} \\$fpath); autoload -Uz compinit; compinit -D -u"
        zpty -w inner "pairsalder() { echo offers:\\$1 }"
        zpty -w -n inner $'pairsalder re\\t\\n'
        zpty -r inner said '*offers:replay*'; echo $said""",
    "fish": "source $argv[2]; complete -C 'pairsalder re'",
}


def flags(text):
    """The options that a help lists."""
    section = text.partition("Options:\n")[2].partition("\n\n")[0]
    rows = re.findall(r"^ +(-.*?)(?:  |$)", section, re.M)
    return set(re.findall(r"--?[\w-]+", " ".join(rows)))


def plain(text):
    """A man page or a completion, with each option as the help has it."""
    text = re.sub(r"\\f[BIR]", "", text).replace("\\-", "-")
    return re.sub(r" -l (\w)", r" --\1", re.sub(r" -s (\w)\b", r" -\1", text))


def lacking(text, words):
    return sorted(set(words) - set(re.findall(r"(?<![\w-])[\w-]+", text)))


def of_text(path, text, helps):
    """The commands and options that a file lacks."""
    text, common = plain(text), flags(helps[""])
    if path == MAN:
        # its headings and the options that it describes, without the prose
        text = "\n".join(re.findall(r"^\.S[SH] .*|(?<=\.TP\n).*", text, re.M))
    yield from (f"{path}: no {word}" for word in lacking(text, {*common, *helps} - {""}))
    for name in helps:
        part = "\n".join(re.findall(FILES[path].format(name), text, re.M | re.S))
        own = flags(helps[name]) - common
        yield from (f"{path}: no {word} of {name}" for word in lacking(part, own))


def of_shells(folder):
    """The shells that do not offer `replay`."""
    for (shell, code), path in zip(SHELLS.items(), list(FILES)[1:]):
        if shutil.which(shell):
            bare = {"bash": "--norc", "zsh": "-f", "fish": "--no-config"}[shell]
            words = ["timeout", "20", shell, bare, "-c", code, shell, os.path.join(folder, path)]
            ran = subprocess.run(words, capture_output=True, text=True, check=False)
            if "replay" not in ran.stdout:
                yield f"{shell} does not offer replay: {ran.stdout[:200]!r} {ran.stderr[:200]!r}"


def of_man(path):
    """The warnings of man, if it is installed."""
    if shutil.which("man"):
        words = ["man", "--warnings", "-E", "UTF-8", "-l", "-Tutf8", "-Z", path]
        ran = subprocess.run(words, capture_output=True, check=False)
        if ran.returncode or ran.stderr:
            yield f"man: status {ran.returncode} {ran.stderr.decode()}"


def of_versions(room, page):
    """The version, if it is not the same everywhere."""
    newest = re.search(r"^## \[(\d+\.\d+\.\d+)\]", repository_text("CHANGELOG.md"), re.M)
    titles = re.findall(r'^\.TH .* "" "(.*?)"', page, re.M)
    found = [room.printed("--version").split("\n")[0], *titles]
    if not newest or found != [f"pairsalder {newest[1]}"] * 2:
        yield f"versions: CHANGELOG.md {newest and newest[1]}, --version and man page {found}"


def test_packaging(room):
    """The man page and the completions have each command and option, shells offer them, and the
    version is the same everywhere."""
    names = commands(room)
    helps = {"": room.printed("--help")} | {name: room.printed(name, "--help") for name in names}
    subprocess.run(
        [os.path.join(ROOT, "packaging", "generate.py"), room.program, room.folder], check=True
    )
    texts = {path: room.read(path).decode() for path in FILES}
    wrong = [it for path, text in texts.items() for it in of_text(path, text, helps)]
    wrong += [*of_shells(room.folder), *of_man(room.path(MAN)), *of_versions(room, texts[MAN])]
    return len(names) > 1 and none_of(wrong)
