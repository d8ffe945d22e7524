#!/usr/bin/env python3
"""Proves the program and builds it: each crate that it stands on, as many at once as processors
and memory allow.

Usage: prove.py PROGRAM. RT names the command `rt`. With a version of `rt ci` that keeps its
proofs, only the other crates are left after an interruption. The log goes to build.log beside
PROGRAM."""
import os
import re
import shutil
import signal
import subprocess
import sys
import tempfile
import time

from kit import rt

ROOT = os.path.dirname(os.path.dirname(os.path.abspath(__file__)))
TOP = "hub_program"


def lines_of(file):
    """The line of each crate in crates.txt."""
    with open(file, encoding="utf-8") as lines:
        return {re.match(r"\w+", line)[0]: line for line in lines if re.match(r"\w", line)}


def needed(lines, crate):
    """The crate, and each that it stands on."""
    found = [crate]
    for name in found:
        libraries = lines[name].partition(":")[2].split()
        found += [it for it in libraries if it in lines and it not in found]
    return found


def copy(names, lines, room):
    """Copies these crates alone: `rt ci` proves, tests and runs all that it finds."""
    for name in names:
        crate = os.path.join(ROOT, "crates", name)
        built = lambda folder, _, crate=crate: ["out"] if folder == crate else []
        shutil.copytree(crate, os.path.join(room, "crates", name), ignore=built)
    shutil.copy(os.path.join(ROOT, "HANDLES"), room)
    with open(os.path.join(room, "crates.txt"), "w", encoding="utf-8") as file:
        file.writelines(lines[name] for name in names)
    # `rt ci` runs at the top of a repository
    os.mkdir(os.path.join(room, ".git"))


def follow(output, log, total):
    """Copies the output to the log, and prints how far the proof has come, and why a crate is not
    proved."""
    begun, done, functions, section = time.monotonic(), 0, "", []
    for line in output:
        log.write(line)
        log.flush()
        section = [line] if line.startswith("== ") else [*section, line]
        if counted := re.match(r"logic=proved functions=(\d+)", line):
            functions = f", {counted[1]} functions"
        if ended := re.match(r"rt: (\w+) (proved$|is kept: )", line):
            done += 1
            how = functions if ended[2] == "proved" else ", by an earlier run"
            seconds = time.monotonic() - begun
            print(f"{seconds:6.0f} s  {done} of {total} crates proved: {ended[1]}{how}", flush=True)
            section = []
        elif re.match(r"rt: \w+ NOT PROVED", line):
            told = [it for it in section if not it.endswith(": proved\n")]
            print(*told[-20:], sep="", end="", flush=True)
            section = []
        elif re.match(r"rt: (note: |FAILED: |.*; waiting for it$)", line):
            print(line, end="", flush=True)


def prove(names, log, room):
    """Returns whether `rt ci` passes all."""
    how = {"stdin": subprocess.DEVNULL, "stdout": subprocess.PIPE, "stderr": subprocess.STDOUT}
    with subprocess.Popen([rt(), "ci"], cwd=room, encoding="utf-8", errors="replace", **how) as run:
        try:
            follow(run.stdout, log, len(names))
        except BaseException:
            # the proofs that run end with it
            run.kill()
            raise
    return run.returncode == 0


def main():
    program = os.path.abspath(sys.argv[1])
    log = os.path.join(os.path.dirname(program), "build.log")
    for number in (signal.SIGTERM, signal.SIGHUP):
        signal.signal(number, lambda number, _: sys.exit(128 + number))
    lines = lines_of(os.path.join(ROOT, "crates.txt"))
    names = needed(lines, TOP)
    print(f"proving {len(names)} crates; the log is in {os.path.relpath(log)}", flush=True)
    with tempfile.TemporaryDirectory(prefix="pairsalder-", ignore_cleanup_errors=True) as room:
        copy(names, lines, room)
        with open(log, "w", encoding="utf-8") as file:
            passed = prove(names, file, room)
        if passed:
            shutil.copy(os.path.join(room, "crates", TOP, "out", TOP), f"{program}.new")
            os.replace(f"{program}.new", program)
            return 0
    with open(log, encoding="utf-8") as file:
        last = "".join(file.readlines()[-3:])
    print(f"the program was not built:\n{last}", end="", file=sys.stderr)
    return 1


if __name__ == "__main__":
    try:
        sys.exit(main())
    except KeyboardInterrupt:
        sys.exit(130)
