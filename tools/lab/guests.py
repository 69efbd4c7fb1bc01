"""Guests of user-mode Linux: how the host starts them and gives them a job, and what they say of it."""
import argparse
import concurrent.futures
import contextlib
import errno
import json
import os
import re
import shutil
import signal
import subprocess
import sys
import tempfile
import time
import traceback

from lab import Trouble
from lab.disks import C, ROOM, insert_modules, mount
from lab.host import compile_library, newest

PATIENCE = 7200  # seconds until a guest must have done its job


def add_options(parser, kept):
    """The options of a tool that starts guests. It may keep the disks of what is said here."""
    parser.add_argument("--uml", default=shutil.which("linux.uml") or "/usr/bin/linux.uml")
    parser.add_argument("--modules", default=newest("/usr/lib/uml/modules/*"), help="those of that kernel")
    parser.add_argument("--keep", help=f"a folder that is there, for the disks of {kept}")
    parser.add_argument("--guest", help=argparse.SUPPRESS)


def require_paths(parser, args):
    """Ends the tool if the program, the kernel or its modules aren't there. A guest needs none of them."""
    for path in () if args.guest else (args.program, args.uml, args.modules):
        if not os.path.exists(path):
            parser.error(f"{path or 'a folder of modules'} isn't there")


def be_guest(folder, doers):
    """What the guest does: its job by the doer that it names, and a line for each row that this gives."""
    for kind, target in (("proc", "/proc"), ("sysfs", "/sys"), ("devtmpfs", "/dev"), ("tmpfs", ROOM)):
        try:
            mount("none", target, kind)
        except OSError as error:
            if error.errno != errno.EBUSY:  # the kernel has mounted /dev
                raise
    with open(f"{folder}/job") as file:
        job = json.load(file)
    with open(f"{folder}/said", "a") as out:
        try:
            insert_modules(job["modules"])
            for row in doers[job["do"]](job):
                out.write(json.dumps(row) + "\n")
                out.flush()
            out.write('{"done": true}\n')
        except Exception:  # whatever it is, the host is to know
            out.write(json.dumps({"trouble": traceback.format_exc()}) + "\n")
    os.sync()
    C.reboot(0x4321FEDC)


def preloaded(folder):
    """The environment of user-mode Linux."""
    with open("/proc/cpuinfo") as file:
        if not re.search(r"^flags\b.*\bamx_tile\b", file.read(), re.M):
            return os.environ
    return os.environ | {"LD_PRELOAD": compile_library("registers", folder)}


class Host:
    """Starts guests that run a script with `--guest=`, and gathers what they say."""

    def __init__(self, args, folder, script):
        self.args, self.folder, self.script = args, folder, os.path.realpath(script)
        self.env, self.guests = preloaded(folder), []

    def ask(self, job):
        """What a guest says of a job: its rows, and the seconds that it took."""
        room, began = tempfile.mkdtemp(dir=self.folder), time.monotonic()
        with open(f"{room}/job", "w") as file:
            keep = self.args.keep and os.path.abspath(self.args.keep)
            own = {"program": os.path.abspath(self.args.program), "modules": self.args.modules, "keep": keep}
            json.dump(own | job, file)
        with open(f"{room}/init", "w") as file:
            file.write("#!/bin/sh\nexport PATH=/usr/sbin:/usr/bin:/sbin:/bin\n")
            file.write(f"exec {sys.executable} -B {self.script} --guest={room}\n")
        os.chmod(f"{room}/init", 0o755)
        words = [self.args.uml, "mem=512M", "rootfstype=hostfs", "rootflags=/", "rw", f"init={room}/init"]
        words += [f"uml_dir={room}", "con=null", "con0=null,fd:1", "quiet", "rcupdate.rcu_expedited=1"]
        words += ["seccomp=auto"]  # with this a guest of Linux 7.2 is twice as fast. 6.1 passes it over
        self.start(words, f"{room}/console")
        said = []
        if os.path.exists(f"{room}/said"):
            with open(f"{room}/said") as file:
                said = [json.loads(line) for line in file]
        if not said or "done" not in said[-1]:
            with open(f"{room}/console", errors="replace") as console:
                words = said[-1].get("trouble") if said else ""
                raise Trouble(f"{job}: {words or console.read()[-2000:]}")
        return said[:-1], time.monotonic() - began

    def start(self, words, console):
        """Runs a guest to its end."""
        with open(console, "w") as out:
            them = {"env": self.env, "stdin": subprocess.DEVNULL, "stdout": out, "stderr": -2}
            guest = subprocess.Popen(words, start_new_session=True, **them)
            self.guests.append(guest)
            try:
                guest.wait(PATIENCE)
            finally:
                guest.kill()
                self.guests.remove(guest)

    def end(self):
        """Ends what still runs."""
        for guest in self.guests:
            with contextlib.suppress(ProcessLookupError):
                os.killpg(guest.pid, signal.SIGKILL)

    def ask_all(self, jobs):
        """Each job with what a guest says of it, some guests at a time."""
        jobs = list(jobs)
        with concurrent.futures.ThreadPoolExecutor(self.args.jobs) as pool:
            try:
                for job, (rows, seconds) in zip(jobs, pool.map(self.ask, jobs)):
                    yield job, rows, seconds
            except BaseException:
                self.end()
                pool.shutdown(wait=False, cancel_futures=True)
                raise
