"""Each case of cases/ and of the examples prints what it must."""
import functools
import os
import re
import subprocess

from common.case import CASES, EXAMPLES, Copy, Run, all_cases, bytes_of, has_session, runs_of
from common.room import repository_text, told

END_OF_HEAD = re.compile(rb"(?m)^\r?\n")


def is_right(room, run, folder):
    """Whether a run gives the status, the output and the errors that it must, over the files of
    this folder."""
    how = {"cwd": folder, "env": run.environment(), "input": bytes_of(folder / run.given)}
    ran = subprocess.run([room.program, *run.words], capture_output=True, check=False, **how)
    if run.target:
        (folder / run.target).write_bytes(ran.stdout)
    said = ran.returncode, ran.stdout, ran.stderr
    if said != run.wanted:
        print(f"run {run.name}: {said}, not {run.wanted}")
    return said == run.wanted


def passes(case, room):
    """the status, the output and the errors are those of the case"""
    with Copy(case) as folder:
        return all([is_right(room, run, folder) for run in runs_of(case)])


def passes_over_a_store(case, room):
    """the replies are the same over a store"""
    run = Run(case)
    head, lines = parts_of(bytes_of(case / run.given))
    room.write("setup.csv", head)
    _, replies, _ = room.run("replay", "--setup", "setup.csv", "--store", "museum.db", given=lines)
    return replies.encode() == run.wanted[1]


def parts_of(session):
    """The setup of a session, and the lines after the first empty one."""
    found = END_OF_HEAD.search(session)
    return (session[: found.start()], session[found.end() :]) if found else (session, b"")


def shown():
    """What each case shows, by the index of the cases."""
    for names, text in re.findall(
        r"(?m)^\| (`.*`) \| (.*) \|$", repository_text("cases", "README.md")
    ):
        yield from ((name, text) for name in re.findall(r"`(\w+)`", names))


def tested(function, case, shows):
    """The function for one case, with what the case shows."""
    test = functools.partial(function, case)
    test.__doc__ = (
        f"{shows[case.name]}: {function.__doc__}" if case.name in shows else function.__doc__
    )
    return test


def tests():
    """A test of each case, and one over a store of each session that has no fault."""
    shows = dict(shown())
    for case in all_cases(EXAMPLES, CASES):
        yield case.name, tested(passes, case, shows)
        if has_session(case) and Run(case).wanted[0] == 0:
            yield f"{case.name}/over_a_store", tested(passes_over_a_store, case, shows)


def test_readme(room):
    """The session of the README prints the replies that it shows."""
    readme = repository_text("README.md")
    session, replies = (
        re.search(rf"(?ms)^```{name}\n(.*?)^```$", readme)[1] for name in ("session", "replies")
    )
    os.mkdir(room.path("bin"))
    os.symlink(room.program, room.path("bin/pairsalder"))
    return (
        told(
            subprocess.run(
                ["bash", "-c", session], cwd=room.folder, capture_output=True, check=False
            )
        )[1]
        == replies
    )
