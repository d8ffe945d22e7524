"""Reads the wrong bodies, crates/NAME/wrong-bodies/*.edit, and lists them as docs/WRONG_BODIES.md.

An edit begins with its title and with the function whose contract refuses it:

  wrong: binds a store of another setup
  refused by: compare, complete

After the function come the clauses that refuse the edit, if they have names. A third line,
`because: ...`, is for a remark. `goals: ...` names the goals that no tactic proves, as
`tests/tools/edits --goals` finds them.

Then comes the change. Each `new` text replaces an `old` one, which is in the `file` once; or `body`
replaces the whole body of the function `fn`, named by the end of the path by which the prover names
it. In a body, the function's own name is the right function, which is taken by its contract.
"""
import collections
import glob
import os
import re
import sys

import prover
from functions import text_of

INTRODUCTION = """\
# Wrong bodies

For anyone who wants to know what the contracts are worth: after this page you know which wrong programs they refuse. It is the
output of `tests/tools/edits --list`.

An *edit* is a file `crates/CRATE/wrong-bodies/NAME.edit`. It changes the body of a function so that the program does something
wrong. The prover must refuse each edit; `make test` tries them all.

The last column names the function whose contract refuses the edit, and the clauses if they have names. This is the nearest
contract, often that of a private function. A few edits keep every contract and are refused by a test; `tests/tools/tested_edits`
tries these, and `make test` doesn't.

[PROMISES](PROMISES.md#what-is-neither-proved-nor-tested) lists what no contract can exclude. [CONTRIBUTING](../CONTRIBUTING.md) describes how to
write an edit.
"""
HEAD = re.compile(r"wrong: (.+)\nrefused by: ([\w:]+)((?:, \w+)*)\n(?:because: (.+)\n)?(?:goals: (.+)\n)?(?=file: )")
TESTED = re.compile(r"wrong: (.+)\ntest: (?:\w+::)*(\w+)\n(?=file: )")
NO_HEAD = (
    "it doesn't begin with 'wrong: TITLE' and 'refused by: FUNCTION, CLAUSE..', "
    "or 'test: NAME' if a test refuses it"
)
ENSURES = re.compile(r"^ *ensures (\w+) \{", re.M)

GOALS = re.compile(r"(?m)^goals: .+\n")

Head = collections.namedtuple("Head", "title function clauses remark goals")


def name_of(file):
    return os.path.basename(file).removesuffix(".edit")


def head_of(text):
    """The title of an edit, the function and the clauses that refuse it, the remark, and the goals
    that fail; None if there is no title."""
    found = HEAD.match(text)
    return found and Head(
        found[1], found[2], re.findall(r"\w+", found[3]), found[4] or "", (found[5] or "").split()
    )


class Edit:
    """The texts that it puts in place, as (file, from, to, text), the functions that these are in,
    and the clauses to try it under."""

    def __init__(self, file, crate, known):
        self.file, self.name = file, f"{crate.name}/{name_of(file)}"
        self.number, self.clauses, self.seconds = 0, set(), 0.0
        self.spans, self.functions, self.is_alone, self.bad = [], [], False, ""
        self.failed = []
        head, lines = head_of(text_of(file)), re.findall(
            r"(?m)^(file|old|new|fn|body): ?(.*)$", text_of(file)
        )
        self.is_whole = [key for key, _ in lines] == ["file", "fn", "body"]
        self.goals = head.goals if head else []
        if not head:
            self.bad = NO_HEAD
        elif self.is_whole:
            self.take_body(crate, known, *[value.strip() for _, value in lines])
        else:
            self.take_pairs(crate, known, lines)
        if (
            head
            and not self.is_alone
            and self.can_be_copied()
            and self.functions[0].name == head.function.split("::")[-1]
        ):
            self.clauses = self.clauses_alone(crate, set(head.clauses))

    def take_body(self, crate, known, path, name, body):
        """Puts this in place of the function's body, and leaves each line in its place."""
        named = lambda it: "::".join(["", *it.path]).endswith(f"::{name}")
        self.functions = [it for it in known if it.file == path and named(it)]
        if len(self.functions) != 1:
            self.bad = f"{len(self.functions)} functions of {path} have the name {name}"
            return
        lines = text_of(f"{crate.folder}/{path}").split("\n")
        first, last = self.functions[0].body + 1, self.functions[0].last
        at, end = (sum(len(it) + 1 for it in lines[:until]) for until in (first, last))
        self.spans.append((path, at, end, body + "\n" * (last - first)))

    def take_pairs(self, crate, known, lines):
        """Puts each new text in place of its old one."""
        _, self.bad = prover.read_edit(self.file, crate.folder)
        for key, value in [] if self.bad else lines:
            if key == "file":
                path, whole = value.strip(), text_of(f"{crate.folder}/{value.strip()}")
            elif key == "old":
                at, end = whole.find(value), whole.find(value) + len(value)
                number = whole.count("\n", 0, max(at, 0))
                inside = [it for it in known if it.file == path and it.first <= number <= it.last]
                self.functions += [it for it in inside if it not in self.functions]
                # it is in no function, or in a text of a pair above
                self.is_alone |= not inside or whole.count(value) != 1
            else:
                self.spans.append((path, at, end, value))

    def clauses_alone(self, crate, clauses):
        """These clauses, if its copy can have them alone: not if they are all that the function
        ensures, or its proof is by hand."""
        [function] = self.functions
        lines = text_of(f"{crate.folder}/{function.file}").split("\n")
        contract = "\n".join(lines[function.first : function.body])
        has_proof = not self.is_whole and os.path.exists(
            f"{crate.folder}/proofs/{function.proofs()}/Proof.antt"
        )
        return clauses if clauses < set(ENSURES.findall(contract)) and not has_proof else set()

    def write_goals(self):
        """Writes the goals that failed into the file of the edit."""
        line = f"goals: {' '.join(self.failed)}\n" if self.failed else ""
        text = GOALS.sub("", text_of(self.file), count=1)
        with open(self.file, "w", encoding="utf-8") as it:
            it.write(re.sub(r"(?m)^(?=file: )", line, text, count=1))

    def can_be_copied(self):
        return len(self.functions) == 1 and self.functions[0].can_be_copied(self.is_whole)

    def is_doubled(self):
        """Whether it is beside its function, which its body may call."""
        return self.is_whole and self.can_be_copied()


def rows(crate):
    """The rows of a crate's table, those that one function refuses together, those that a test
    refuses last."""
    heads = {
        it: head_of(text_of(it)) for it in sorted(glob.glob(f"{crate.folder}/wrong-bodies/*.edit"))
    }
    tests = {
        it: TESTED.match(text_of(it))
        for it in sorted(glob.glob(f"{crate.folder}/refused-by-tests/*.edit"))
    }
    bad = [it for it, head in [*heads.items(), *tests.items()] if not head]
    if bad:
        sys.exit(f"{bad[0]}: {NO_HEAD}")
    for file, head in sorted(heads.items(), key=lambda it: it[1].function):
        names = ", ".join(f"`{it}`" for it in [head.function, *head.clauses])
        yield f"| `{name_of(file)}` | {head.title} | {names}{': ' * bool(head.remark)}{head.remark} |\n"
    for file, found in tests.items():
        yield f"| `{name_of(file)}` | {found[1]} | the test `{found[2]}` |\n"


def page(crates):
    """The text of docs/WRONG_BODIES.md."""
    tables = sorted((it.name, "".join(rows(it))) for it in crates)
    heading = "| edit | wrong body | refused by |\n|---|---|---|\n"
    return INTRODUCTION + "".join(
        f"\n## `{name}`\n\n{heading}{table}" for name, table in tables if table
    )
