"""Tries many wrong bodies of a crate at once, in rounds.

A round is one check of a copy of a crate, with as many edits as possible. One edit of a function is
in its place. Each other is in a copy of the function, under its contract and with the rest of its
body and its proofs. So is each whole body, without proofs, and each edit that is tried under some
clauses alone. Every function that isn't edited has no body and a hole for its proof, and is taken
by its contract, so a round costs only the edited functions. An edit is refused if a goal or an
answer of its own function fails. An edit that is in no function is tried alone: on the functions
that it adds, or on the whole crate.

Each edited function of a round has an answer of the wrong type, `no-advice`, which no proof uses.
The prover tries its goals as ever, but prints no advice on those that fail, which takes 5 to 20
percent of the time. No function is proved so. So an edit that isn't refused is tried once more
without it. The program is tried without its `main`: then it is a library, for which the prover
links no code of the crates below.

A goal that fails is dear: the prover tries six tactics on it. The goals that an edit names failed
so when the edit was written. So its copy answers only the first of them, by `search rules`, the
first of the six, which proves most goals, and no tactic tries the others. If it can't be copied,
all that it names are answered so. An edit that isn't refused so is tried once more with all six.

If an edit names the clauses that refuse it, its copy has these alone of all that its function
ensures. Then these refuse it, or what every contract has: the invariant of its type, and the
requirements of the functions that it calls. An edit that isn't refused so is tried once more under
the whole contract, and reported as refused by another clause.
"""
import collections
import contextlib
import glob
import os
import re
import shutil
import subprocess
import tempfile
import types

import prover
from functions import functions, text_of
from wrong_bodies import ENSURES

MOST = 150  # edits of a round, which bounds its memory
LACKS = "only because a proof file names what the edit took away: "
# the answer to a goal that an edit names, and what it uses
ANSWER = "\n\npub {0} : goal.{0}\n{0} c = search rules\n"
RULES = "use Rattle.std.proofs.Common.{rules}\n"
HAS_RULES = re.compile(r"(?m)^use Rattle[.]std[.]proofs[.]Common[.]\{[^}]*\brules\b")
CYCLE = re.compile(r"(?m)^ *#\[cycle\(\w+\)\]$")
# an answer of the wrong type: the prover prints no advice on the goals of a function that has one
NO_ADVICE = "\n\nno-advice : Type 0\nno-advice = Type 0\n"


def write(path, text):
    os.makedirs(os.path.dirname(path), exist_ok=True)
    with open(path, "w", encoding="utf-8") as it:
        it.write(text)


def fits(edit, group):
    """Whether it can join these in one round, in place or in a copy."""
    if edit.is_alone or group[0].is_alone or len(group) >= MOST:
        return False
    used = {it.proofs() for other in group for it in other.functions}
    return edit.can_be_copied() or not used.intersection(it.proofs() for it in edit.functions)


def rounds_of(edits):
    rounds = []
    for edit in sorted(edits, key=lambda it: (it.is_alone, -len(it.functions))):
        group = next((it for it in rounds if fits(edit, it)), None)
        if group is None:
            rounds.append(group := [])
        others = [it for it in group if any(at in it.functions for at in edit.functions)]
        is_in_place = (
            not edit.clauses
            and not edit.is_doubled()
            and not (edit.goals and edit.can_be_copied())
            and all(it.number for it in others)
        )
        edit.number = 0 if is_in_place else 1 + sum(bool(it.number) for it in others)
        group.append(edit)
    return rounds


def with_spans(text, spans):
    for _, at, end, new in sorted(spans, reverse=True):
        text = text[:at] + new + text[end:]
    return text


def without_bodies(text, functions):
    """The text with nothing in the bodies of these functions, and each line in its place. None calls
    itself then, or is in a cycle of calls."""
    lines = text.split("\n")
    for it in functions:
        if it.last - it.body > 1:
            lines[it.body + 1 : it.last] = ["unreachable!()"] + [""] * (it.last - it.body - 2)
        lines[it.first : it.body] = [CYCLE.sub("", line) for line in lines[it.first : it.body]]
    return "\n".join(lines)


def without(text, functions):
    """The text without these functions, and each line in its place."""
    lines = text.split("\n")
    for it in functions:
        lines[it.first : it.last + 1] = [""] * (it.last + 1 - it.first)
    return "\n".join(lines)


def with_clauses(contract, clauses):
    """The contract with nothing said by its other clauses, and each line in its place."""
    for found in reversed(list(ENSURES.finditer(contract))):
        depth, end = 1, found.end()
        while depth:
            depth += {"{": 1, "}": -1}.get(contract[end], 0)
            end += 1
        if found[1] not in clauses:
            said = " Unit {0} " + "\n" * contract[found.end() : end].count("\n")
            contract = contract[: found.end()] + said + contract[end - 1 :]
    return contract


def untried(contract):
    """The contract of a function of which no tactic tries a goal, and each line in its place."""
    own = re.compile(r"(?ms)^ *#\[tactic\(.*?\)\]$")
    contract = own.sub(lambda it: "\n" * it[0].count("\n"), contract)
    head = r"(?m)^( *)(?=(?:pub(?:\(\w+\))? )?fn )"
    return re.sub(head, r"\1#[tactic(none)] ", contract, count=1)


def with_answers_of(text, clauses):
    """The answers but those to goals of other clauses."""
    parts = re.split(r"(?m)^(?=pub )", text)
    ends = lambda part: re.match(r"pub (?!\S*-requires-)\S+-clause-(\w+) :", part)
    return "".join(it for it in parts if not ends(it) or ends(it)[1] in clauses)


def copied(crate, room, edit, text):
    """The text with a copy of the edit's function in it, and where that stands: name, file, lines,
    proofs."""
    [function], path = edit.functions, edit.spans[0][0]
    lines = with_spans(text_of(f"{crate.folder}/{path}"), edit.spans).split("\n")
    name = f"{function.name}_wrong_{edit.number}"
    contract = "\n".join(lines[function.first : function.body])
    contract = with_clauses(contract, edit.clauses) if edit.clauses else contract
    contract = CYCLE.sub("", contract)  # a copy is in none
    contract = untried(contract) if edit.goals else contract
    body = "\n".join([contract, *lines[function.body : function.last + 1]])
    body = re.sub(rf"\bfn {function.name}\b", f"fn {name}", body, count=1)
    text += f"\n{function.impl.head}\n" if function.impl else ""
    first = text.count("\n")
    text += body + "\n" + "}\n" * bool(function.impl)
    to = "/".join([*function.path[:-1], name])
    own = re.escape(".".join(function.path))
    cited = rf"\b(Rattle\.{crate.name}\.(?:proofs|specs\.contracts)\.){own}(?![\w-])"
    for file in (
        [] if edit.is_whole else glob.glob(f"{crate.folder}/proofs/{function.proofs()}/*.antt")
    ):
        if edit.goals and file.endswith("/Answers.antt"):
            continue
        answers = re.sub(cited, r"\g<1>" + to.replace("/", "."), text_of(file))
        answers = with_answers_of(answers, edit.clauses) if edit.clauses else answers
        write(f"{room}/proofs/{to}/{os.path.basename(file)}", answers)
    return text, (to.replace("/", "::"), path, first, first + function.last - function.first, to)


def place_of(function):
    return "::".join(function.path), function.file, function.first, function.last, function.proofs()


def lay_out(crate, room, group, known, has_holes, is_short):
    """Writes a copy of the crate with these edits, without advice if it is short; gives for each
    where its functions stand."""
    shutil.rmtree(room, ignore_errors=True)
    for part in prover.PARTS:
        if os.path.isdir(f"{crate.folder}/{part}"):
            shutil.copytree(f"{crate.folder}/{part}", f"{room}/{part}")
    stands = {}
    edited = [it for edit in group if not edit.number for it in edit.functions]
    whole = {it.proofs() for it in edited}  # a cycle of calls has one folder of proofs
    bare = [it for it in known if has_holes and it.proofs() not in whole]
    # without its `main` a program is a library, for which no code of the crates below is read
    main = [it for it in bare if crate.is_program and it.path == ["main"]]
    for path in {it.file for it in bare} | {span[0] for it in group for span in it.spans}:
        in_place = [span for it in group if not it.number for span in it.spans if span[0] == path]
        text = with_spans(text_of(f"{crate.folder}/{path}"), in_place)
        text = without_bodies(text, [it for it in bare if it.file == path])
        text = without(text, [it for it in main if it.file == path])
        for edit in [it for it in group if it.number and it.spans[0][0] == path]:
            text, place = copied(crate, room, edit, text)
            stands[edit] = [place]
        write(f"{room}/{path}", text)
        if group[0].is_alone:
            # laid out, so that the functions which it adds are seen
            subprocess.run(
                [prover.RATTLE, "fmt", "--write", f"{room}/{path}"], stdout=subprocess.DEVNULL
            )
    for edit in [it for it in group if not it.number]:
        stands[edit] = list(map(place_of, edit.functions))
    if group[0].is_alone:
        paths, copy = [it.path for it in known], types.SimpleNamespace(name=crate.name, folder=room)
        stands[group[0]] = [place_of(it) for it in functions(copy) if it.path not in paths]
    for function in main:
        shutil.rmtree(f"{room}/proofs/{function.proofs()}", ignore_errors=True)
    for function in [it for it in bare if it not in main]:
        leave_a_hole(crate, room, function)
    for edit, places in stands.items() if is_short else ():
        # in a copy no tactic tries the others, so one that fails is enough
        goals = edit.goals[:1] if edit.number else edit.goals
        for *_, proofs in places:
            answer(crate, f"{room}/proofs/{proofs}", proofs, goals if len(places) == 1 else [])
    return stands


def answer(crate, folder, proofs, goals):
    """Answers these goals by `search rules`, if they have no answer, and refuses advice on the
    others."""
    file = f"{folder}/Answers.antt"
    if os.path.exists(f"{folder}/Proof.antt"):
        return
    text = text_of(file) if os.path.exists(file) else ""
    names = f"use Rattle.{crate.name}.proofs.{proofs.replace('/', '.')}.Goals as goal\n"
    answers = "".join(ANSWER.format(it) for it in goals if f"\npub {it} :" not in text)
    if answers:
        text = RULES * (not HAS_RULES.search(text)) + names * (names not in text) + text + answers
    write(file, text + NO_ADVICE)


def leave_a_hole(crate, room, function):
    """Puts a hole in place of the function's proofs."""
    for file in ("Answers", "Invariants", "Proof"):
        with contextlib.suppress(FileNotFoundError):
            os.remove(f"{room}/proofs/{function.proofs()}/{file}.antt")
    path = "/".join(function.path)
    head = f"use Rattle.{crate.name}.proofs.{path.replace('/', '.')}.Statement.{{statement}}\n\n"
    write(
        f"{room}/proofs/{path}/Proof.antt",
        f"{head}pub {function.name}_spec : {{M : Type 1}} → statement M\n"
        f"{function.name}_spec = absurd ?\n",
    )


def processor_time(process):
    """The seconds of a processor that the process has used, 0 if it has ended."""
    fields = text_of(f"/proc/{process.pid}/stat").rpartition(")")[2].split()
    return sum(map(int, fields[11:13])) / os.sysconf("SC_CLK_TCK")


def check(crate, room, asked, work, has_holes):
    """What the prover prints, and the seconds of a processor for each function, by its name."""
    words = [prover.RATTLE, "check", "--progress", *crate.words(["--jobs", "1"], keeps=False)]
    words += ["--incremental", work] * bool(work) + ["--allow-holes"] * has_holes
    words += [word for it in asked for word in ("--only", it)]
    how = {
        "cwd": room,
        "stdin": subprocess.DEVNULL,
        "stdout": subprocess.PIPE,
        "stderr": subprocess.STDOUT,
        "errors": "replace",
    }
    process = subprocess.Popen([*prover.guarded(), *words], text=True, **how)
    said, taken, before = [], collections.Counter(), 0
    for line in process.stdout:
        found = prover.CHECKED.match(line)
        if not found:
            said.append(line)
            continue
        now = processor_time(process)
        taken[found[1].partition("::")[2]] += now - before
        before = now
    process.wait()
    return "".join(said), taken


def told_of(places, lines, by_answers):
    """The first line that tells a failed answer of these functions, or a failed goal, unless no
    tactic tried the goals; of any function where none are told."""
    told = ""
    for line in lines:
        at = prover.PLACE.match(line)
        if not at or prover.ECHO.search(line) or told and not prover.NAMES.search(told):
            continue
        is_goal, is_error = prover.NOT_PROVED in at[3], prover.ERROR in at[3]
        mine = not places and (is_goal or is_error)
        for _, file, first, last, proofs in places:
            is_own = at[1] == file and first < int(at[2]) <= last + 1
            mine |= is_goal and is_own and not by_answers
            mine |= is_error and at[1].startswith(f"proofs/{proofs}/")
        if mine and (not told or not prover.NAMES.search(line)):
            told = line
    return told


def failed_goals(places, lines):
    """The goals of an edit's only function that no tactic proves."""
    found = [
        (at, prover.GOAL.search(at[3]))
        for at in map(prover.PLACE.match, lines)
        if at and prover.NOT_PROVED in at[3] and not prover.ECHO.search(at[0])
    ]
    return [
        goal[1]
        for at, goal in found
        for _, file, first, last, _ in places
        if goal and len(places) == 1 and at[1] == file and first < int(at[2]) <= last + 1
    ]


def judge(crate, places, said, is_short, by_answers):
    """Whether the edit is refused and by what, or None where this check can't tell. A short one
    proves nothing: it can tell only that a goal isn't proved, or that the proof rests on an answer
    that is refused. By answers only the latter counts."""
    lines = said.split("\n")
    if not prover.ENDED.search(said.rstrip()):
        is_own = lambda it: any(it[1] == at[1] and at[2] < int(it[2]) <= at[3] + 1 for at in places)
        own = [
            it
            for it in map(prover.PLACE.match, lines)
            if it and it[3].startswith(prover.UNREAD) and is_own(it)
        ]
        return None, f"the prover cannot read it: {own[0][0]}" if own else ""
    errors = [it for it in map(prover.PLACE.match, lines) if it and it[3].startswith(prover.ERROR)]
    if any(it[1] == at[1] and at[2] < int(it[2]) <= at[3] + 1 for it in errors for at in places):
        return None, ""  # a contract that can't be read refuses nothing
    told = told_of(places, lines, by_answers)
    if not places:
        return bool(told), told
    heads = tuple(prover.VERDICT.format(crate.name, it[0]) for it in places)
    verdicts = [it.split(": ", 1)[1] for it in lines if it.startswith(heads)]
    passed = all(prover.PASSED.match(it) for it in verdicts)
    if is_short:
        passed = prover.NOT_PROVED not in told and not any(map(prover.RESTS.search, verdicts))
    if len(verdicts) != len(places) or passed != (not told) or passed and is_short:
        return None, ""
    return not passed, LACKS * bool(prover.NAMES.search(told)) + told


def try_round(crate, room, work, group, known, is_short):
    """Each edit of the round, whether it is refused, and why."""
    for has_holes in (True, False):
        stands = lay_out(crate, room, group, known, has_holes, is_short)
        asked = sorted({name for it in group for name, *_ in stands[it]})
        said, taken = check(crate, room, asked, work, has_holes)
        for edit in group:
            edit.seconds += sum(taken[name] for name, *_ in stands[edit])
        tried = [
            (it, *judge(crate, stands[it], said, is_short, bool(it.number and it.goals)))
            for it in group
        ]
        for edit in group:
            edit.failed = failed_goals(stands[edit], said.split("\n"))
        # on the whole crate a proof that has a hole may be the one that fails
        if asked or tried[0][1]:
            break
    if len(group) == 1 and tried[0][1] is None and not tried[0][2] and not is_short:
        return [(group[0], None, f"it can't be told of {said.rstrip().split(chr(10))[-1]}")]
    return tried


def try_crate(crate, edits, known):
    """Each edit, whether it is refused, and why: what a round can't tell is tried once more by
    itself, or, where one edit that can't be read kept the others from being judged, in a round
    without it."""
    yield from ((it, None, it.bad) for it in edits if it.bad)
    with tempfile.TemporaryDirectory(prefix="edits-") as top:
        again, rounds = [], rounds_of([it for it in edits if not it.bad])
        # what a round has checked is kept where others come after it, which costs the only one more
        # than it gives
        work = f"{top}/work" if len(rounds) > 1 else ""
        while rounds:
            group = rounds.pop(0)
            tried = try_round(crate, f"{top}/room", work, group, known, not group[0].is_alone)
            unjudged = [edit for edit, refused, why in tried if refused is None and not why]
            if len(unjudged) < len(tried) and any(
                refused is None and why for _, refused, why in tried
            ):
                rounds += [unjudged] * bool(unjudged)
                tried = [it for it in tried if it[0] not in unjudged]
            for edit, refused, why in tried:
                if (
                    refused is None
                    and not why
                    or (edit.clauses or edit.goals)
                    and (not refused or why.startswith(LACKS))
                ):
                    again.append(edit)
                else:
                    yield edit, refused, why
        for edit in again:
            clauses, edit.number, edit.clauses = edit.clauses, int(edit.is_doubled()), set()
            edit.goals = []
            [(_, refused, why)] = try_round(crate, f"{top}/room", work, [edit], known, False)
            yield edit, refused, "not by the clauses that it names: " * bool(
                clauses and refused
            ) + why
