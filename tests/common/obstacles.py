"""What stands in a program's way: files that may not grow, files that it may not write, and
libraries, loaded before the C library, with which calls fail or kill the program."""
import ctypes
import os
import resource
import signal
import subprocess

from common.room import ROOT

PR_CAPBSET_DROP, CAP_DAC_OVERRIDE, CAP_DAC_READ_SEARCH = 24, 1, 2


def bounded(most):
    """Keeps a program from writing files beyond so many bytes: a write that would do so fails."""

    def bound():
        signal.signal(signal.SIGXFSZ, signal.SIG_IGN)
        resource.setrlimit(resource.RLIMIT_FSIZE, (most, most))

    return bound


def bound_by_rights():
    """Binds a program to the rights of files."""
    # the superuser may write any file, but not without these two capabilities
    if os.geteuid() == 0:
        for capability in (CAP_DAC_OVERRIDE, CAP_DAC_READ_SEARCH):
            ctypes.CDLL(None).prctl(PR_CAPBSET_DROP, capability, 0, 0, 0)


def built(room, source):
    """The library of a source in tests/faults."""
    library = room.path(source.replace(".c", ".so"))
    file = os.path.join(ROOT, "tests", "faults", source)
    subprocess.run(
        ["gcc", "-O2", "-Wall", "-shared", "-fPIC", "-o", library, file, "-ldl"], check=True
    )
    return library


def loaded(library, **variables):
    """The environment in which a program loads a library of ours, with the library's variables."""
    return {
        **os.environ,
        "LD_PRELOAD": library,
        **{name: str(value) for name, value in variables.items()},
    }


def count_in(room):
    """The number of calls that a library wrote to the file `calls`, which is removed."""
    count = int(room.read("calls"))
    os.remove(room.path("calls"))
    return count


def stops(room, library, begin, run):
    """Each way in which a run meets a disk that stops: the file, the number of the call on it from
    which each call fails, and whether the machine crashes then and loses what wasn't synced; with
    what the run says, over the store that `begin` makes."""
    for name in ("museum.db-wal", "museum.db"):
        variables = {"NAMED": name, "CALLS": room.path("calls")}
        begin()
        run(loaded(library, **variables))
        count = int(room.read("calls"))
        for number in range(1, count + 1):
            for loses in ({}, {"LOSES": 1}):
                begin()
                yield (name, number, *loses), run(
                    loaded(library, FAILED=number, **variables, **loses)
                )
