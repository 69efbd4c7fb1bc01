"""Looks at FAT disks, in the guest: what the program makes of them, and what is wrong with that."""
import collections
import contextlib
import os
import re
import shutil
import subprocess

from lab import Trouble, disks
from lab.cases import LINUX
from lab.disks import ROOM, Loop, make_files
from lab.fat_slots import Fat
from lab.fat_states import ENTRY, SOURCES, STATES, WAYS, rows_of
from lab.host import tool, write_files
from lab.intents import INTENT
from lab.traps import environment
from lab.trees import EMPTY, PASSING, View, digest


def targets(words):
    """The paths of the files that a command names."""
    match words:
        case ["install", _, name, *tries]:
            counter = "".join(word.replace("--tries=", "+") for word in tries)
            return [f"{LINUX}/{name}{counter}.efi"]
        case ["type1", "install", name, *_]:
            return [f"efi/loader/entries/{name}.conf"]
        case ["bootctl", "unlink", name]:
            return [f"efi/loader/entries/{name}" if name.endswith(".conf") else f"{LINUX}/{name}"]
        case ["bless", _, path]:
            return [f"efi/{path}", "efi/" + re.sub(r"\+\d+(-\d+)?(?=\.)", "", path)]
        case ["ukify", *_, output]:
            return [output.removeprefix("--output=")]
        case ["loader", *_]:
            return ["efi/loader/loader.conf"]
    return []


def is_misspelled(folder, path):
    """Whether a path is there, but its folder lists neither that name nor the same in capitals."""
    above, name = os.path.split(f"{folder}/{path}")
    return os.path.lexists(f"{above}/{name}") and not {name, name.upper()} & set(os.listdir(above))


def with_capitals(path):
    """A path, and that with its name in capitals. FAT drops dots at the end."""
    above, name = os.path.split(path.rstrip("."))
    return {f"{above}/{name}", f"{above}/{name.upper()}"}


def is_passing(path):
    return bool(PASSING.fullmatch(os.path.basename(path)))


def is_weighed(path):
    """Whether a command may change a file only if it names it. Kernels that no entry names may come and go."""
    return not is_passing(path) and not path.startswith("efi/boot_tools/")


Reply = collections.namedtuple("Reply", "status said log")
REPLIED = re.compile(r"^(installed|built|placed|unlinked|good|bad|indeterminate|booted) /?([^\s,]+)", re.M)
FREEING = ("installed", "built", "placed", "unlinked")
# What a log may say to do by hand, and how it's done with the path of the call that failed.
ADVICE = {
    r"\b(?:rm|remove) (\S*[^\s,;:.])": lambda _, path: os.remove(path.strip("/")),
    r"\b(?:mv|rename) (\S+/\S+) (?:to )?(\S*[^\s,;:.])": lambda _, *paths: os.rename(*(it.strip("/") for it in paths)),
    r"(\S+) and (\S+): if the check finds nothing to mend, touch one of them": lambda _, path, other: os.utime(other),
    r"only short aliases of its file are left: rename one to its second path": lambda _: os.rename(f"{LINUX}/ZFEDOR~1.EFI", ENTRY),
    r"rename (?:it|that) in two steps": lambda path: respell(path.removesuffix(".tmp")),
}


def respell(path):
    """Gives a file that its folder lists in another spelling this one. In one step the driver does nothing."""
    above, name = os.path.split(path)
    listed = next(it for it in os.listdir(above) if it.lower() == name.lower())
    os.rename(f"{above}/{listed}", f"{path}.other")
    os.rename(f"{path}.other", path)


class Mounted(disks.Mounted):
    """A disk's file that is mounted with an option."""

    def __init__(self, disk, option, at=disks.Mounted.at):
        super().__init__("vfat", disk)
        self.option, self.at = f"shortname={option}", at

    def __enter__(self):
        os.makedirs(self.at, exist_ok=True)
        with contextlib.ExitStack() as stack:
            self.loop = stack.enter_context(Loop(0, self.file))
            words = [word.encode() for word in (self.loop.path, self.at, self.kind)]
            disks.called("mount", disks.C.mount(*words, 0, self.option.encode()))
            stack.pop_all()
        return self.at


class Bench:
    """What a guest does: it makes disks, and looks at what the program makes of them."""

    def __init__(self, job):
        self.program, self.option, self.keep = job["program"], job["option"], job["keep"]
        self.known = {digest(data): data for state in STATES.values() for data in state.files.values() if data}

    def make_disk(self, state):
        """The bytes of a disk."""
        path = f"{ROOM}/made"
        with open(path, "wb") as file:
            file.truncate(2 << 20)
        tool(*"mkfs.vfat -F 32 -s 1 -i 12345678".split(), path)
        files = SOURCES | state.files
        files |= {INTENT: "\0".join([*state.intent, ""]).encode()} if state.intent else {}
        with Mounted(path, self.option) as at:
            make_files(files, at)
        with open(path, "rb") as file:
            fat = Fat(bytearray(file.read()))
        for edit, *names in state.edits:
            getattr(fat, edit)(*names)
        return bytes(fat.disk)

    def run(self, words, folder):
        ran = subprocess.run([self.program, *words], cwd=folder, capture_output=True, env=environment(), text=True, check=False)
        if ran.returncode not in (0, 1, 3):
            raise Trouble(f"{words}: status {ran.returncode}: {ran.stderr[-300:]}")
        faults = (re.sub(r"^boot_tools: (\S+ \S+): ", r"\1: ", line) for line in ran.stderr.splitlines()[1:])
        return Reply(ran.returncode, ran.stdout, "; ".join(faults))

    def tree(self, folder):
        """The digest of each file by its path, in which the folder of the images is spelled as ever."""
        tree = {}
        for above, _, names in os.walk(folder):
            for name in names:
                path = re.sub("efi/EFI/Linux(?=/)", LINUX, os.path.relpath(f"{above}/{name}", folder), flags=re.I)
                read = self.read_found if name.startswith("FSCK") else View.read
                tree[path] = read(f"{above}/{name}")
        return tree

    def read_found(self, path):
        """The digest of what fsck has found, which ends at a cluster's end."""
        with open(path, "rb") as file:
            found = file.read()
        return next((it for it, data in self.known.items() if found.startswith(data)), None)

    def look_at_all(self, item):
        """Looks at some rows of a disk."""
        name, rows = item
        state = STATES[name]
        made = self.make_disk(state)
        for row in rows:
            words, way = rows_of(name)[row]
            look = (UnmountedLook if name == "not mounted" else Look)(self, state, made, words)
            look.look(way)
            if look.faults and self.keep:
                write_files({re.sub(r"[^\w+.-]+", "-", f"{row}-{self.option}"): made}, self.keep)
            yield {"row": row, "faults": look.faults, "statuses": look.statuses}


class Look:
    """A row: which bytes must be there, what the last reply told of, and what was wrong."""

    def __init__(self, bench, state, made, words):
        self.bench, self.state, self.words = bench, state, words
        owed = ((path, data) for path, data in state.files.items() if data and not is_passing(path))
        self.owed = {digest(data): path for path, data in owed if not path.lower().endswith("loader.conf")}
        self.due, self.freed, self.faults, self.statuses = {}, set(), [], []
        self.strays, self.reply = [], None  # which of the command's paths are there in another spelling
        self.disk = f"{ROOM}/look"
        with open(self.disk, "wb") as file:
            file.write(made)

    def blame(self, kind, what):
        if kind not in dict(self.faults):
            self.faults.append((kind, what))

    def look(self, way):
        if way == WAYS[1]:
            self.fsck()
        self.visit()
        self.visit()
        self.fsck()
        self.visit()
        if self.reply.status == 3 and not any(self.strays):
            self.follow()
        self.fsck()
        with Mounted(self.disk, self.bench.option) as at:
            self.end(self.bench.tree(at))

    def fsck(self):
        for _ in range(5):
            words = ["fsck.vfat", "-a", self.disk]
            ran = subprocess.run(words, capture_output=True, text=True, check=False)
            if ran.returncode == 0:
                return
        raise Trouble(f"fsck.vfat doesn't come to an end: {ran.stdout}")

    def visit(self):
        """Mounts the disk and runs the command."""
        with Mounted(self.disk, self.bench.option) as at:
            before = self.bench.tree(at)
            self.find_gone(before)
            self.strays = [is_misspelled(at, path) for path in targets(self.words)]
            self.reply = self.bench.run(self.words, at)
            after = self.bench.tree(at)
        self.statuses.append(self.reply.status)
        self.weigh(before, after)

    def follow(self):
        """Does what the log says, and runs the command again."""
        log = self.reply.log
        call, words = log.split(": ", 1)
        for pattern, act in ADVICE.items():
            found = re.search(pattern, words)
            if found:
                with Mounted(self.disk, self.bench.option) as at, contextlib.suppress(OSError), contextlib.chdir(at):
                    act(call.split()[-1], *found.groups())
                self.visit()
                break
        if self.reply.status == 3:
            self.blame("stuck", log)

    def weigh(self, before, after):
        """Judges a run by the files before and after it. At status 3 a `keep` may have told of some removals."""
        status, intent = self.reply.status, set(self.state.intent or ())
        replied = {path.rstrip("."): verb for verb, path in REPLIED.findall(self.reply.said)}
        if any(self.strays) and not intent and status not in ([3] if self.strays[0] else [1, 3]):
            self.blame("spelled", f"status {status}")
        changed = {path for path in before | after if before.get(path) != after.get(path) and is_weighed(path)}
        moved = {path for path, it in before.items() if it in map(after.get, replied)}
        names = {*replied} if status == 1 or any(self.strays) else {*replied, *targets(self.words)}
        named = set().union(moved, *map(with_capitals, names))
        for path in sorted(changed - named - self.moved_by_intent(before, after))[:1]:
            self.blame("changed", f"status {status}, and {path} isn't what it was")
        freed = set().union(*(with_capitals(path) for path, verb in replied.items() if verb in FREEING))
        for it in list(self.owed):
            names = {path for path, other in before.items() if other == it}
            if names and (names <= freed or freed & intent):
                del self.owed[it]
        self.freed |= freed
        kept = {path for path, verb in replied.items() if verb != "unlinked"}
        for path in (kept - after.keys()) | (replied.keys() - kept) & after.keys():
            self.blame("gone", f"the reply {replied[path]} {path} isn't so")
        told_of = {path: after[path] for path in kept & changed & after.keys()}
        self.owed |= {it: path for path, it in told_of.items()}
        self.due = told_of or self.due

    def moved_by_intent(self, before, after):
        """What a recovery may change: the file that the intent is for, and what a cut has emptied."""
        if not self.state.intent:
            return set()
        its = {digest(self.state.files[path]) for path in (self.state.listed or ())[1:]} | {EMPTY}
        return {path for path in before | after if its & {before.get(path), after.get(path)}}

    def find_gone(self, tree):
        for path, it in self.due.items():
            if tree.get(path) != it:
                self.blame("gone", f"{path}, which a reply has told of")

    def end(self, tree):
        self.find_gone(tree)
        for it, path in self.owed.items():
            if it not in tree.values():
                self.blame("lost", f"the bytes of {path}")
        if INTENT in tree and self.reply.status != 3:
            self.blame("stuck", "the intent stays")
        path, source = self.state.listed or (None, None)
        if path and path not in self.freed and tree.get(path) != digest(self.state.files[source]):
            self.blame("gone", f"{path} isn't in the menu")


class UnmountedLook(Look):
    """A row whose partition isn't mounted while the command runs, and is afterwards. The program starts above it."""

    def look(self, way):
        start, at, option = f"{ROOM}/start", f"{ROOM}/start/boot", self.bench.option
        shutil.rmtree(start, ignore_errors=True)
        write_files(SOURCES, start)
        os.makedirs(at)
        intent = "\0".join([*self.state.intent, ""])
        write_files({INTENT: intent.encode()}, start)
        self.run("not mounted", 3, start)
        if View.read(f"{start}/{INTENT}") != digest(intent.encode()):
            self.blame("lost", "the intent")
        if os.listdir(at):
            self.blame("changed", "it makes a folder where the partition is to be mounted")
            shutil.rmtree(f"{at}/efi")
        for when, status in (("mounted", 3), ("after fsck", 0)):
            with Mounted(self.disk, option, at):
                self.words = ["bootctl", "list", "--esp-path=boot/efi"]
                self.run(when, status, start)
            self.fsck()
        with Mounted(self.disk, option, at):
            self.end(self.bench.tree(start))

    def run(self, when, status, folder):
        self.reply = self.bench.run(self.words, folder)
        self.statuses.append(self.reply.status)
        if self.reply.status != status:
            self.blame("status", f"{self.reply.status} {when}: {self.reply.log}")


def rows_of_guest(job):
    """What a guest gives: the rows of its disks."""
    bench = Bench(job)
    for item in job["disks"]:
        yield from bench.look_at_all(item)
