"""Runs under the trap: the program stops at each of its calls, and goes on, fails there or is killed."""
import collections
import contextlib
import os
import subprocess

from lab import Trouble
from lab.disks import ROOM

GO, FAIL, KILL = b"g", b"e", b"k"
SYNCS = ("fsync", "fdatasync", "syncfs")
PRINTED, LOGGED = f"{ROOM}/printed", f"{ROOM}/logged"
FILE_WRITES = 2  # so many writes of a file are told apart; each further one is like the second

# A call: its paths, its result, and the number of its fault, if there is one.
Call = collections.namedtuple("Call", "name path other result fault")
# A run: its status (below 0 if it was killed), what it printed, its log behind the first line, and its calls.
Ran = collections.namedtuple("Ran", "status text log calls")


def environment():
    return {"PATH": "/usr/bin", "BOOT_TOOLS_LOG": "1"}


def log_of(told):
    """The log's lines but for the first, which says which program it is."""
    return " | ".join(told.decode(errors="replace").splitlines()[1:])


class Steps:
    """Numbers the calls at which a run may be stopped: they change, sync or print; of a file's writes the first."""

    def __init__(self):
        self.count, self.writes = 0, collections.Counter()

    def number(self, call):
        """The call's number, from 1 on, or None."""
        self.writes[call.path] += call.name == "write"
        if call.name == "write" and self.writes[call.path] > FILE_WRITES and call.path != PRINTED:
            return None
        self.count += 1
        return self.count


class Trap:
    """A program under the trap. `before` and `after` are asked at each call that changes or syncs something."""

    def __init__(self, library, program):
        self.library, self.program = library, program

    def run(self, words, folder, before=None, after=None, is_all=False):
        ask, asked = os.pipe()
        told, answer = os.pipe()
        env = environment() | {"LD_PRELOAD": self.library, "TRAP": f"{asked},{told}"}
        env |= {"TRAP_ALL": "1"} if is_all else {}
        with open(PRINTED, "w+b") as out, open(LOGGED, "w+b") as log:
            how = {"cwd": folder, "env": env, "stdin": subprocess.DEVNULL, "stdout": out, "stderr": log}
            with subprocess.Popen([self.program, *words], pass_fds=(asked, told), **how) as child:
                os.close(asked)
                os.close(told)
                try:
                    calls = list(self.follow(ask, answer, before, after))
                finally:  # the program ends if nobody answers it any more
                    os.close(answer)
            out.seek(0)
            log.seek(0)
            if child.returncode > 100:
                raise Trouble(f"the program doesn't run in the guest: {words} {child.returncode} {log.read()[-300:]}")
            return Ran(child.returncode, out.read().decode(errors="replace"), log_of(log.read()), calls)

    @staticmethod
    def follow(ask, answer, before, after):
        """The calls of a run, as they were made."""
        with open(ask, encoding="utf-8", errors="replace") as lines:
            for line in lines:
                when, name, path, other, result, fault = line.rstrip("\n").split("\t")
                call = Call(name, path, other, int(result), int(fault))
                it = (before if when == "before" else after) or (lambda _: GO)
                said = it(call) or GO
                with contextlib.suppress(BrokenPipeError):
                    os.write(answer, said)
                if when == "after" or said in (KILL, FAIL):
                    yield call
