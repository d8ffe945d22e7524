"""Where the functions of a crate stand in its text, which `rt fmt` has laid out: a function ends at
the first brace that stands as far in as its head."""
import glob
import itertools
import os
import re

HEAD = re.compile(r"( *)(?:pub(?:\([^)]*\))? )?(?:const )?fn (\w+)")
TYPE = re.compile(r"(?m)^(?:pub(?:\([^)]*\))? )?(?:struct|enum) (\w+)")


def text_of(path):
    with open(path, encoding="utf-8") as it:
        return it.read()


class Impl:
    """The block of a type's or a trait's methods; its name is the prover's: Type, TypeTrait,
    TypeFromOther or Type+Argument."""

    def __init__(self, lines):
        head = "\n".join(lines[:3])
        # with what it brings into its clauses
        self.head = "\n".join(
            [lines[0], *itertools.takewhile(lambda it: it.startswith("    ghost use "), lines[1:])]
        )
        said = re.sub(r"^impl\s*(<(?:[^<>]|<[^<>]*>)*>)?\s*", "", head.split("{")[0]).split(
            " where "
        )[0]
        trait, _, of = said.rpartition(" for ")
        bare = lambda text: re.sub(r"<.*", "", text).split("::")[-1].strip()
        # another crate's type has that crate in its name
        whole = lambda text: "".join(
            it[:1].upper() + it[1:] for it in re.sub(r"<.*", "", text).strip().split("::")
        )
        given = re.sub(r"<.*", "", trait.partition("<")[2].strip().rstrip(">")).split("::")
        # a drop is the type's own
        self.name = (
            whole(of)
            + bare(trait).removesuffix("Drop")
            + "".join(it[:1].upper() + it[1:] for it in given)
        )
        words, given = (
            re.findall(r"\w+", of),
            re.match(r"impl\s*(<(?:[^<>]|<[^<>]*>)*>)?", head)[1] or "",
        )
        # a type's arguments are in its name, if they are more than the impl's own parameters
        if not trait and len(words) > 1 and words[1] not in re.findall(r"\w+", given):
            self.name = "+".join(words)
        self.is_of_trait = bool(trait)


class Function:
    """Lines first to last of a file, of which those after `body` are its body, and the path by
    which the prover names it."""

    def __init__(self, crate, file, lines, at, inside, module):
        indent, self.name = HEAD.match(lines[at]).groups()
        self.file, self.impl = file, inside
        ends = (indent + "}", indent + "{}")
        self.last = next((it for it in range(at, len(lines)) if lines[it] in ends), at)
        # the brace that opens its body ends a line that stands as far in
        opens = re.compile(indent + r"(\S.*)?{$")
        self.body = next((it for it in range(at, self.last) if opens.match(lines[it])), self.last)
        while lines[at - 1].strip().startswith("#["):
            at -= 1
        self.first = at
        self.path = [*module, *([inside.name] if inside else []), self.name]
        # the cycle of calls that it names, whose functions have one folder of proofs
        named = re.search(r"#\[cycle\((\w+)\)\]", "\n".join(lines[at : self.body]))
        self.cycle = named[1] if named else self.name
        self.recurs = os.path.isdir(
            f"{crate.folder}/proofs/{'/'.join(self.path[:-1])}/+{self.cycle}"
        )

    def can_be_copied(self, with_another_body):
        """Whether a copy of it, under another name, means the same; another body doesn't recur."""
        return (with_another_body or not self.recurs) and not (self.impl and self.impl.is_of_trait)

    def proofs(self):
        return "/".join([*self.path[:-1], "+" * self.recurs + self.cycle])


def module_of(file):
    return (
        []
        if file in ("src/lib.rt", "src/main.rt")
        else re.sub(r"^src/|(/mod)?\.rt$", "", file).split("/")
    )


def functions(crate):
    files = sorted(glob.glob("src/**/*.rt", root_dir=crate.folder, recursive=True))
    texts = {it: text_of(f"{crate.folder}/{it}") for it in files}
    homes = {name: module_of(it) for it in files for name in TYPE.findall(texts[it])}
    types, found = sorted(homes, key=len, reverse=True), []
    for file in files:
        inside, lines = None, texts[file].split("\n")
        for at, line in enumerate(lines):
            if re.match(r"impl\b", line):
                inside = Impl(lines[at:])
            elif line.startswith("}"):
                inside = None
            head = HEAD.match(line)
            if head and (inside or not head[1]):
                # a method stands in the module of its type, or in its file's if the type's
                # arguments are in its name
                own = next(
                    (
                        it
                        for it in types
                        if inside and "+" not in inside.name and inside.name.startswith(it)
                    ),
                    None,
                )
                found.append(
                    Function(crate, file, lines, at, inside, homes.get(own, module_of(file)))
                )
    return found
