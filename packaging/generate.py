#!/usr/bin/env python3
"""Writes the man page and the completions for bash, zsh and fish, from the program's own help.

Usage: generate.py PROGRAM SHARE. SHARE is the folder that they go below, as /usr/local/share."""
import os
import re
import subprocess
import sys
from dataclasses import dataclass

NAME = "pairsalder"
# the names of values that are files, in the help
FILES = {"PATH", "FILE", "LIST", "FEEDS", "TABLE"}
ORIGIN = "written by packaging/generate.py from the program's help"


@dataclass
class Argument:
    """An option or, with no flags, a positional argument. `value` is empty if it takes no value."""

    flags: list
    value: str
    many: bool
    help: str
    choices: list

    @property
    def is_file(self):
        return self.value in FILES and not self.choices


@dataclass
class Command:
    name: str
    about: str
    usage: list
    arguments: list
    options: list
    more: str


def printed(program, *words):
    how = {"capture_output": True, "check": True, "encoding": "utf-8"}
    return subprocess.run([program, *words], **how).stdout


def rows(text, heading):
    """The rows below a heading of the help, as pairs of a term and its help."""
    found = re.search(rf"^{heading}:\n((?: +\S.*\n)+)", text, re.M)
    pairs = []
    for line in found[1].splitlines() if found else []:
        if len(line) - len(line.lstrip()) >= 8 and pairs:
            pairs[-1][1] = f"{pairs[-1][1]} {line.strip()}".strip()
        else:
            term, _, told = line.strip().partition("  ")
            pairs.append([term, told.strip()])
    return pairs


def argument(term, told, names):
    """The argument of a row such as '-h, --help' or '[LIST]...'."""
    value = re.search(r"[<\[](\w+)[>\]]", term)
    choices = re.search(r" *\[possible values: (.*)\]", told)
    listed = choices[1].split(", ") if choices else []
    if value and value[1] == "TOPIC":
        # 'setup, lines, or a command'
        listed = [*dict.fromkeys([*told.split(", ")[:-1], *names])]
    told = told.replace(choices[0], "") if choices else told
    named = re.findall(r"--?\w[\w-]*", term)
    return Argument(named, value[1] if value else "", "..." in term, told, listed)


def command(name, text, names=()):
    """The command that a help tells of."""
    about, _, rest = text.partition("Usage: ")
    usage, _, rest = rest.partition("\n\n")
    # what follows the options, which come last
    parts = re.split(r"^Options:\n(?: +\S.*\n)+", rest, flags=re.M)
    more = parts[-1].strip() if len(parts) > 1 else ""
    arguments = [argument(*row, names) for row in rows(rest, "Arguments")]
    options = [argument(*row, names) for row in rows(rest, "Options")]
    lines = [line.strip() for line in usage.split("\n")]
    return Command(name, about.strip(), lines, arguments, options, more)


def read(program):
    """The program as a whole, and each of its commands."""
    text = printed(program, "--help")
    about = dict(rows(text, "Commands"))
    # `help setup` is the page of the topic
    commands = [command(name, printed(program, name, "--help"), [*about]) for name in about]
    for it in commands:
        it.about = about[it.name]
    return command(NAME, text), commands


# The man page.

ESCAPES = {"\\": "\\e", "-": "\\-", "'": "\\(aq", "`": "\\(ga", "^": "\\(ha", "~": "\\(ti"}


def roff(text):
    """A text as it stands in a line of a man page."""
    return re.sub(r"^\.", r"\\&.", text.translate(str.maketrans(ESCAPES)), flags=re.M)


def paragraphs(text):
    """The paragraphs of a help. Indented lines, the examples, keep their lines."""
    for paragraph in text.split("\n\n"):
        yield ".PP"
        shown = False
        for line in paragraph.split("\n"):
            if line.startswith("  ") != shown:
                shown = not shown
                yield ".RS 4\n.EX" if shown else ".EE\n.RE"
            yield roff(line.strip())
        if shown:
            yield ".EE\n.RE"


def roff_term(it):
    """An argument as a man page shows it: names are bold, and values are italic."""
    named = ", ".join(rf"\fB{roff(flag)}\fR" for flag in it.flags)
    value = rf"\fI{roff(it.value)}\fR" if it.value else ""
    return f"{named} {value}".strip() + (" ..." if it.many else "")


def described(arguments):
    for it in arguments:
        is_listed = it.choices and it.value != "TOPIC"
        choices = f" One of: {', '.join(it.choices)}." if is_listed else ""
        yield f".TP\n{roff_term(it)}\n{roff(it.help)}.{roff(choices)}"


def synopsis(usage):
    for line in usage:
        yield f".nf\n{roff(line)}\n.fi"


def man_page(whole, commands, version):
    number, _, proved = version.partition("\n")
    lines = [f'.\\" {ORIGIN}', f'.TH {NAME.upper()} 1 "" "{roff(number)}" "User Commands"']
    # ragged right, no hyphens
    lines += [".ad l", ".nh"]
    lines += [".SH NAME", roff(f"{NAME} - {' '.join(whole.about.split()).rstrip('.')}")]
    lines += [".SH SYNOPSIS", *synopsis(whole.usage)]
    lines += [".SH DESCRIPTION", *paragraphs(whole.more)]
    lines += [".SH OPTIONS", *described(whole.options), ".SH COMMANDS"]
    for it in commands:
        lines += [f".SS {roff(it.name)}", f"{roff(it.about)}.", ".PP", *synopsis(it.usage)]
        lines += described(it.arguments)
        lines += described(option for option in it.options if "--help" not in option.flags)
        lines += paragraphs(it.more) if it.more else []
    lines += [".SH VERSION", f"{roff(number)}.", ".PP", roff(proved)]
    return "\n".join(lines) + "\n"


# The completions.


def quoted(text):
    return "'" + text.replace("'", "'\\''") + "'"


def flags(options):
    return [flag for it in options for flag in it.flags]


def bash_values(commands):
    """The cases of options that take a value, by the command and the option. A space stands for
    nothing to offer."""
    for it in commands:
        for option in it.options:
            if option.value:
                words = quoted(" ".join(option.choices) or " ")
                names = " | ".join(quoted(f"{it.name} {flag}") for flag in option.flags)
                yield f"        {names}) {'return' if option.is_file else f'words={words}'} ;;"


def bash_words(commands):
    """The cases of all other words, by the command. For a command that takes files these are the
    options alone."""
    for it in commands:
        choices = [choice for argument in it.arguments for choice in argument.choices]
        words = quoted(" ".join(choices + flags(it.options)))
        takes_files = any(argument.is_file for argument in it.arguments)
        unless = "[[ $word == -* ]] || return; " if takes_files else ""
        yield f"        *-{it.name}) {unless}words={words} ;;"


def bash(whole, commands):
    first = " ".join([it.name for it in commands] + flags(whole.options))
    values, words = "\n".join(bash_values(commands)), "\n".join(bash_words(commands))
    return f"""# bash completion for {NAME}, {ORIGIN}
# If it returns early, a file is wanted, and bash offers files.
_{NAME}() {{
    local word=${{COMP_WORDS[COMP_CWORD]}} before=${{COMP_WORDS[COMP_CWORD - 1]}} words=
    COMPREPLY=()
    [[ $word == = ]] && word=
    [[ $before == = ]] && before=${{COMP_WORDS[COMP_CWORD - 2]}}
    [[ $before == *[\\<\\>] ]] && return
    case "${{COMP_WORDS[1]}} $before" in
{values}
    esac
    [[ $words ]] || case $COMP_CWORD-${{COMP_WORDS[1]}} in
        1-*) words={quoted(first)} ;;
{words}
    esac
    compopt +o bashdefault +o default 2> /dev/null
    COMPREPLY=($(compgen -W "$words" -- "$word"))
}}
complete -o bashdefault -o default -F _{NAME} {NAME}
"""


def zsh_action(it):
    # an empty list offers nothing; with no action zsh would offer no options beside the value
    return "_files" if it.is_file else f"({' '.join(it.choices)})"


def zsh_spec(it):
    """The argument in the form of zsh's _arguments."""
    told = re.sub(r"([\[\]:\\])", r"\\\1", it.help)
    if not it.flags:
        return [quoted(f"{'*' if it.many else ''}:{it.value}:{zsh_action(it)}")]
    value = f":{it.value}:{zsh_action(it)}" if it.value else ""
    return [quoted(f"{flag}{'=' if it.value else ''}[{told}]{value}") for flag in it.flags]


def zsh_specs(arguments):
    return " \\\n                ".join(spec for it in arguments for spec in zsh_spec(it))


def zsh(whole, commands):
    offered = "\n".join(f"                {quoted(f'{it.name}:{it.about}')}" for it in commands)
    head = "_arguments \\\n                "
    cases = "\n".join(
        f"            {it.name}) {head}{zsh_specs(it.options + it.arguments)} ;;" for it in commands
    )
    return f"""#compdef {NAME}
# zsh completion for {NAME}, {ORIGIN}
_{NAME}() {{
    local state
    local -a commands
    _arguments -A "-*" \\
                {zsh_specs(whole.options)} \\
                '1:command:->command' '*::argument:->argument' && return
    case $state in
        command)
            commands=(
{offered}
            )
            _describe -t commands command commands ;;
        argument) case $words[1] in
{cases}
        esac ;;
    esac
}}
_{NAME} "$@"
"""


def fish_line(condition, it):
    """The line of an argument in the form of fish's complete."""
    line = f"complete -c {NAME} -n {quoted(condition)}"
    for flag in it.flags:
        line += f" -l {flag[2:]}" if flag.startswith("--") else f" -s {flag[1:]}"
    if it.is_file:
        line += " -r -F" if it.flags else " -F"
    elif it.value:
        line += " -x" if it.flags else ""
        line += f" -a {quoted(' '.join(it.choices))}" if it.choices else ""
    return line + " -d '" + it.help.replace("\\", "\\\\").replace("'", "\\'") + "'"


def fish(whole, commands):
    lines = [f"# fish completion for {NAME}, {ORIGIN}", f"complete -c {NAME} -f"]
    lines += [fish_line("__fish_use_subcommand", it) for it in whole.options]
    for it in commands:
        named = Argument([], it.name, False, it.about, [it.name])
        lines += [fish_line("__fish_use_subcommand", named)]
        within = f"__fish_seen_subcommand_from {it.name}"
        lines += [fish_line(within, argument) for argument in it.arguments + it.options]
    return "\n".join(lines) + "\n"


def main():
    program, share = os.path.abspath(sys.argv[1]), sys.argv[2]
    whole, commands = read(program)
    files = {
        f"man/man1/{NAME}.1": man_page(whole, commands, printed(program, "--version").strip()),
        f"bash-completion/completions/{NAME}": bash(whole, commands),
        f"zsh/site-functions/_{NAME}": zsh(whole, commands),
        f"fish/vendor_completions.d/{NAME}.fish": fish(whole, commands),
    }
    # all users can read what is installed
    os.umask(0o022)
    for path, text in files.items():
        path = os.path.join(share, path)
        os.makedirs(os.path.dirname(path), exist_ok=True)
        with open(path, "w", encoding="utf-8") as file:
            file.write(text)


if __name__ == "__main__":
    main()
