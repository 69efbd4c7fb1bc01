"""Trials: a command that something befalls, what is run behind it, a cut, and what must be there then."""
import collections
import os
import random
import re
import subprocess

from lab import Trouble
from lab.cases import LINUX, LIST, LOADER, build
from lab.disks import ROOM, mark_reply
from lab.host import write_files
from lab.images import small_image, small_stub
from lab.intents import INTENT, names_moved
from lab.models import Models
from lab.systems import System
from lab.traps import Ran, Trap, environment, log_of
from lab.trees import View, told

# The words of a command, and whether it is started in another folder, above the mount point.
Command = collections.namedtuple("Command", "words is_elsewhere")

ENTRY = "EFI/Linux/zfedora-6.9.1+2-1.efi"
BUILT, REPLACED = f"{LINUX}/zbuilt.efi", f"{LINUX}/other-1.efi"
# The commands that something befalls.
COMMANDS = {
    "boot": ["boot"],
    "bless": ["bless", "good", ENTRY],
    "install": ["install", "in/new.efi", "znew"],
    "install-over": ["install", "in/over.efi", "other-1"],
    "build": build(7, BUILT),
    "build-over": build(7, REPLACED),
    "type1": ["type1", "install", "zone", "--linux=in/kernel", "--initrd=in/initrd"],
    "unlink": ["bootctl", "unlink", "old-5.efi"],
    "keep": ["keep", "2"],
    "set-default": ["loader", "set-default", "other*"],
    "list": LIST,
}
# What is run behind it. None: the same command.
THENS = {
    "list": Command(LIST, False),
    "same": None,
    "unlink other": Command(["bootctl", "unlink", "older-2.efi"], False),
    "bless": Command(["bless", "bad", ENTRY], False),
    "bless elsewhere": Command(["bless", "bad", ENTRY], True),
}


def start_files(entries=4):
    """The files at the start, in the order in which they are made."""
    some = random.Random(1)
    files = {"in/stub": small_stub(), "in/kernel": some.randbytes(9000), "in/initrd": some.randbytes(13000)}
    files |= {"in/release": b"ID=demo\n", "in/new.efi": small_image(3, 2100), "in/over.efi": small_image(4, 4200)}
    files |= {"efi/startup.nsh": b"exit\n", "efi/EFI/systemd/systemd-boot.efi": small_image(77, 2500)}
    files |= {f"{LOADER}/loader.conf": b"timeout 3\n", f"{LOADER}/random-seed": b"s" * 32}
    names = {"zfedora-6.9.1+2-1": (900, 2500), "other-1": (1, 1500), "old-5": (5, 1700), "older-2": (2, 1800)}
    made = {f"{LINUX}/{name}.efi": small_image(*it) for name, it in list(names.items())[:entries]}
    more = range(len(made), entries)
    return files | made | {f"{LINUX}/more-{number}.efi": small_image(100 + number, 600) for number in more}


# What the check says if it takes a folder's old bytes for a name, and overwrites what stands there.
CHECK_ERRS = re.compile("Bad short file name|Auto-renaming")
# What a cut has left, as a check, a look and a list show it: with the names in an intent, and what the check has said.
Seen = collections.namedtuple("Seen", "tree status text log intent said")


class Trials:
    """What the ways share: the disks at the start, the runs, the models, and the judgement."""

    def __init__(self, job, files=None):
        self.job, self.models = job, Models(job["program"])
        self.trap, self.system = Trap(job["trap"], job["program"]), System(job["fs"], job["start"])
        self.command = Command(COMMANDS[job["command"]], False) if "command" in job else None
        self.disks, self.looked_at = self.system.make(files or start_files()), None
        self.system.put(self.disks)
        with self.system.mounted() as at:
            self.tree = self.models.keep(at)

    def run(self, command, **how):
        """A command's run on the mounted disks: under the trap if it is told what to do there."""
        words, folder = list(command.words), self.system.at
        if command.is_elsewhere:
            self.remove_intents()
            words, folder = words_above(words, os.path.basename(folder)), os.path.dirname(folder)
        if how:
            ran = self.trap.run(words, folder, **how)
        else:
            them = {"capture_output": True, "check": False, "env": environment()}
            it = subprocess.run([self.job["program"], *words], cwd=folder, **them)
            ran = Ran(it.returncode, it.stdout.decode(errors="replace"), log_of(it.stderr), [])
            if ran.status not in (0, 1, 3):
                raise Trouble(f"the program doesn't run in the guest: {words} {ran.status} {it.stderr[-300:]}")
        return ran._replace(text=ran.text.replace(f"/{os.path.basename(self.system.at)}/", "/"))

    @staticmethod
    def remove_intents():
        """Removes what a run elsewhere has left in that folder, which is none of the trial's."""
        for name in (INTENT, f"{INTENT}.tmp"):
            if os.path.exists(f"{ROOM}/{name}"):
                os.unlink(f"{ROOM}/{name}")

    # What must be there.

    def states_after(self, states, command, ran):
        """The trees that may be there behind a run, by its status and text. None: no order of commands gives these."""
        models = [self.models.after(tree, command.words) for tree in states]
        if ran.status in (0, 1):
            return {model.tree for model in models if (model.status, model.text) == (ran.status, ran.text)}
        fitting = [model for model in models if model.text.startswith(ran.text)] or models
        return {tree for model in fitting for tree in steps_behind(model, ran.text)}

    def chain_of(self, commands):
        """The trees before the commands and behind each, and by command those that it may leave if it is stopped."""
        chain, steps = [self.tree], []
        for command in commands:
            model = self.models.after(chain[-1], command.words)
            chain.append(model.tree)
            steps.append(model.steps)
        return chain, steps

    def record(self, commands):
        """Carries commands out on the disks. It gives the log of the writes and the replies."""
        replies = []
        with self.system.recorded() as log:
            for number, command in enumerate(commands, 1):
                replies.append(self.run(command))
                mark_reply(number)
        if any(ran.status for ran in replies):
            raise Trouble(f"a recorded command fails: {replies}")
        with open(log, "rb") as file:
            return file.read()

    def look(self, disks):
        """What the check makes of a cut's disks, and what a list shows then."""
        self.looked_at = disks
        self.system.put(disks)
        said = self.system.check()
        try:
            with self.system.mounted() as at:
                ran = self.run(Command(LIST, False))
                return Seen(View(at).named(), ran.status, ran.text, ran.log, names_moved(at), said)
        except OSError as error:
            return Seen(frozenset(), 3, "", f"the disk: {error.strerror}", [], said)

    def faults_of(self, seen, states):
        """What is wrong with what a cut has left: pairs of a kind and words."""
        odd = odd_paths(seen.tree, states)
        if odd:
            yield kind_of(odd, seen), words_of(odd, seen.tree)
        yield from self.faults_of_list(seen)
        if not odd and not seen.status and seen.text != self.models.after(seen.tree, LIST).text:
            yield "text", "a list differs"

    @staticmethod
    def faults_of_list(seen):
        """What is wrong with how a list ends behind a cut. The intent of a file that another run has moved stays."""
        if seen.intent and seen.status and not any(path in dict(seen.tree) for path in seen.intent):
            yield "by-hand", "neither name of the intent is left"
        elif seen.status or seen.intent:
            yield "stuck", f"a list ends with {seen.status}: {seen.log or 'the intent is left'}"

    def row(self, place, statuses, logs, faults, apart):
        """A row. Faults of some kinds are counted apart. A broken one's disks may be kept, as before the check."""
        faults = list(faults)
        broken = [it for it in faults if it[0] not in apart]
        if broken and self.job["keep"] and self.looked_at:
            words = [*map(self.job.get, ("do", "fs", "start", "command", "case")), *place.values()]
            name = "-".join(str(it) for it in words if it)
            files = {f"{re.sub(r'[^A-Za-z0-9_+.-]+', '_', name)}-{n}": disk for n, disk in enumerate(self.looked_at)}
            write_files(files, self.job["keep"])
        own = sorted({kind for kind, _ in faults} & set(apart))
        return place | {"statuses": statuses, "own": own, "broken": broken, "log": [it for it in logs if it and broken]}


def words_above(words, folder):
    """The words of the same command for the folder above."""
    words = [re.sub(r"^(--\S+=@?|)(in|efi)/", rf"\1{folder}/\2/", word) for word in words]
    return words if "build" in words else [*words, f"--esp-path={folder}/efi"]


def odd_paths(tree, states):
    """The paths whose files are those of no state, each with what it has in the nearest one."""
    tree = dict(tree)
    nearest = min(map(dict, states), key=lambda state: len(state.items() ^ tree.items()))
    return {path: nearest.get(path) for path, _ in nearest.items() ^ tree.items()}


def kind_of(odd, seen):
    """Whether bytes are lost that some name must have, or the files are a mix; or whether the check has done it."""
    if CHECK_ERRS.search(seen.said):
        return "by-check"
    there = {it for path, it in seen.tree if not path.startswith("in/")}
    return "lost" if set(odd.values()) - {None, *there} else "order"


def fault_of_reply(command, ran):
    return "text", f"{command.words[0]} with {ran.status} replies as in no order: {ran.text[-100:]}"


def words_of(odd, tree):
    tree = dict(tree)
    them = [f"{path} {told(tree.get(path))}, and not: {told(it)}" for path, it in sorted(odd.items())]
    return "; ".join(them[:3])


def steps_behind(model, text):
    """The trees that a command may leave which has told so much of what it does before it was stopped."""
    if text and text == model.text:
        return [model.tree]
    return model.steps[len(re.findall(r"^(?:placed|installed|unlinked) /\S+$", text, re.M)) :]


def where_of(call):
    """A call as it is told of."""
    paths = [path.replace(f"{System.at}/", "") for path in (call.path, call.other) if path]
    return " ".join([call.name, *paths])
