"""Moments: a disk as a cut leaves it between any two writes of a command, and what the program makes of it."""
import collections
import contextlib
import os
import random
import re
import shutil

from lab import Trouble
from lab.cases import CASES, LIST, PAYLOADS, READ, build, start_files
from lab.disks import FILE_SYSTEMS, MENDINGS, ROOM, Mounted
from lab.disks import is_read_only, make_files, mark_reply, mount, recorded, run_check, unmount
from lab.host import tool, write_files
from lab.intents import INTENT
from lab.models import Models
from lab.recordings import Moment, moments
from lab.trees import EMPTY, UNMARKED, UNREADABLE, View, digest, digests_of, is_alias, is_boot_file, told

# What may be there at a moment, what was there before the last reply, and the command that is run then.
State = collections.namedtuple("State", "allowed older words")


class Guest(Models):
    """The laboratory inside: it records a case, and looks at its moments."""

    def __init__(self, job):
        super().__init__(job["program"])
        self.job, self.fs, self.seen = job, FILE_SYSTEMS[job["fs"]], set()
        self.case = CASES[job["case"]].named(job["letters"])

    def make_disk(self, position):
        """A new disk with the case's files, and its bytes."""
        disk = f"{ROOM}/disk"
        write_files({"disk": random.Random(2).randbytes(self.fs.size)}, ROOM)
        tool(*self.fs.make.split(), disk)
        with Mounted(self.fs.kind, disk) as at:
            make_files(start_files(self.case, position, self.fs), at)
            self.chain, self.steps = [self.keep(at)], []
        for words in self.case.commands:
            model = self.after(self.chain[-1], words)
            self.chain.append(model.tree)
            self.steps.append(model.steps)
        with open(disk, "rb") as file:
            return disk, file.read()

    def record(self, disk, commands):
        """Carries commands out on a disk whose writes are recorded. It gives the log and the replies."""
        at, replies = f"{ROOM}/at", []
        with recorded(disk) as log:
            mount("/dev/dm-0", at, self.fs.kind)
            for number, words in enumerate(commands, 1):
                replies.append(self.run(words, at))
                mark_reply(number)
            unmount(at)
        with open(log, "rb") as file:
            return file.read(), replies

    def rows(self):
        """What was seen in each folder of the job."""
        for position in self.job["folders"]:
            yield from self.look_at_all(position)

    def look_at_all(self, position):
        """Looks at each moment of the case. It gives what was seen."""
        self.folder = position
        disk, start = self.make_disk(position)
        log, replies = self.record(disk, self.case.commands)
        if any(status for status, _ in replies):
            raise Trouble(f"a recorded command fails: {replies}")
        for moment in moments(start, log, self.job["order"]):
            words = self.case.commands[min(moment.replies, len(self.case.commands) - 1)]
            allowed = set([*self.steps, self.chain[-1:]][moment.replies])
            state = State(allowed, self.chain[: moment.replies], words)
            for it in self.look_at(moment, state, self.job["ways"]):
                yield {"folder": position, **it}
            for inner, then in self.second_moments(moment, state) if self.job["second"] else ():
                for it in self.look_at(inner, then, ["as_is", "fsck_first"]):
                    yield {"folder": position, **it, "way": f"second {it['way']}"}

    def look_at(self, moment, state, ways):
        """Looks at a moment that no look has seen, in some ways."""
        key = digest(moment.disk), frozenset(state.allowed), tuple(state.words)
        if key in self.seen:
            return
        self.seen.add(key)
        is_half = self.is_half(moment, state)
        for way in filter(lambda it: is_half or it not in ASKING, ways):
            look = Look(self, moment.disk, state)
            getattr(look, way)()
            if look.broken and self.job["keep"]:
                words = [*map(str, map(self.job.get, ("fs", "letters", "case"))), self.folder, moment.name]
                write_files({"-".join(words).replace("/", "_"): moment.disk}, self.job["keep"])
            if look.statuses or look.broken:
                yield {"moment": moment.name, "replies": moment.replies, "way": way, **look.said()}

    def is_half(self, moment, state):
        """Whether a command may be half done, by the look of the disk; or each moment is to be taken so."""
        return self.job["each"] or Look(self, moment.disk, state).is_half()

    def second_moments(self, moment, state):
        """The moments of the first run after a cut: on the disk as it is, and after fsck."""
        for is_mended in (False, True) if self.is_half(moment, state) else ():
            look = Look(self, moment.disk, state)
            if is_mended:
                look.mend()
            disk, commands = look.content(), [LIST, state.words]
            try:
                log, replies = self.record(look.disk, commands)
            except OSError:
                continue
            states = self.states(state, commands, replies)
            for inner in moments(disk, log, self.job["order"]):
                name = f"{moment.name}/{'fsck/' if is_mended else ''}{inner.name}"
                yield Moment(name, inner.disk, inner.replies), states[inner.replies]

    def states(self, state, commands, replies):
        """What may be there before each of these replies, and after them."""
        states, (allowed, older, again) = [], state
        for words, (status, text) in zip(commands, replies):
            steps = {step for tree in allowed for step in self.after(tree, words).steps}
            states.append(State({*allowed, *steps}, older, again))
            then = self.after_reply(allowed, words, status, text) or allowed
            allowed, older = then, [*older, *(allowed - then)]
        return [*states, State(allowed, older, again)]

    def is_touched(self, path):
        """Whether some command of the case moves or writes a file of that name."""
        return len({dict(tree).get(path) for tree in self.chain}) > 1


# The ways to look, and those that ask for a moment at which a command is half done.
WAYS = ["as_is", "fsck_first", "unmounted", "unmounted_fsck", "elsewhere"]
ASKING = WAYS[2:]


class Look:
    """One look at one moment: the trees that may be there, those from before the last reply, and what was seen."""

    def __init__(self, guest, disk, state):
        self.guest, self.allowed, self.older, self.words = guest, state.allowed, state.older, state.words
        self.disk, self.start = f"{ROOM}/look", None
        self.put(disk)
        self.statuses, self.own, self.broken, self.last = [], set(), [], {}
        self.is_away = self.is_nameless = self.is_mended = self.is_unmarked = False

    def put(self, disk):
        with open(self.disk, "wb") as file:
            file.write(disk)

    def content(self):
        with open(self.disk, "rb") as file:
            return file.read()

    def said(self):
        return {"statuses": self.statuses, "own": sorted(self.own), "broken": self.broken}

    def blame(self, kind, when, words):
        if kind == "taken" and self.is_unmarked:
            self.own.add("unmarked")
        else:
            self.broken.append((kind, f"{when}: {words}"))

    # What is done.

    def as_is(self):
        self.is_unmarked = bool(UNMARKED.search(self.told_by_fsck(self.guest.fs.check).stdout))
        self.mounted("as it is", LIST, self.words)
        self.mounted("mounted anew")
        self.mend()
        self.mounted("after fsck", self.words)
        self.mounted("in the end", is_end=True)

    def fsck_first(self):
        self.mend()
        self.mounted("after fsck", LIST, self.words)
        if self.told_by_fsck(self.guest.fs.check).returncode:
            self.own.add("fsck-n")
        self.mounted("in the end", is_end=True)

    def unmounted(self):
        if self.set_apart():
            self.run(READ, self.start, "while the partition isn't mounted")
            self.as_is()

    def unmounted_fsck(self):
        if self.set_apart():
            self.run(READ, self.start, "while the partition isn't mounted")
            self.fsck_first()

    def elsewhere(self):
        """Each command in another folder on its own copy of the disk: it takes no bytes that fsck alone leaves, if it
        doesn't say so, or if two names had them."""
        disk, cut = self.content(), self.paths_by_bytes()
        self.mend()
        left = self.paths_by_bytes()
        for words in self.words_elsewhere(cut) if cut and left else ():
            self.put(disk)
            status, text = self.run_elsewhere(words)
            self.mend()
            after, when = self.paths_by_bytes(), f"{' '.join(words[:3])} with {status} elsewhere, fsck"
            for it, paths in left.items():
                paths = cut.get(it, paths)
                # What `keep` has told of stands, also if it ends with 3 behind it.
                is_done = status == 0 or words[0] == "keep"
                is_told = is_done and len(paths) == 1 and re.search(rf"/{re.escape(paths[0])}\b", text)
                if it not in (after or ()) and not is_told:
                    self.blame("lost", when, " and ".join(paths))
        self.put(disk)

    def words_elsewhere(self, cut):
        """What may free the bytes of an entry that the case moves or writes: the words behind the program's name."""
        paths = [path for paths in cut.values() for path in paths if self.guest.is_touched(path)]
        yield ["keep", "1"]
        for path in sorted(it for it in paths if not it.startswith(PAYLOADS)):
            name = os.path.basename(path)
            yield ["bootctl", "unlink", name]
            if path.endswith(".efi"):
                yield build(8, f"at/{path}", "at/in")
            if "+" in name:
                yield ["bless", "good", path.removeprefix("efi/")]
            elif path.endswith(".efi"):
                yield ["install", "at/in/new.efi", name.removesuffix(".efi")]

    def run_elsewhere(self, words):
        """The status of a command that is started in a folder above the mount point, and its text."""
        for path in (f"{ROOM}/{INTENT}", f"{ROOM}/{INTENT}.tmp"):
            with contextlib.suppress(FileNotFoundError):
                os.unlink(path)
        with Mounted(self.guest.fs.kind, self.disk):
            status, text = self.guest.run([*words, *([] if "build" in words else ["--esp-path=at/efi"])], ROOM)
        self.statuses.append(status)
        return status, text.replace("/at/", "/")

    def paths_by_bytes(self):
        """The paths of the boot files by what they hold, if all can be read."""
        with contextlib.suppress(OSError), Mounted(self.guest.fs.kind, self.disk) as at:
            view = View(at)
            return None if view.is_away else view.by_bytes()

    def is_half(self):
        """Whether an intent or a short alias is there, or a boot file's bytes have two names."""
        with contextlib.suppress(OSError), Mounted(self.guest.fs.kind, self.disk) as at:
            view = View(at)
            return view.has_intent or view.has_alias or any(len(paths) > 1 for paths in view.by_bytes().values())

    def set_apart(self):
        """Makes a starting folder of its own, with all that is beside the partition's files, if they can be read."""
        start = f"{ROOM}/start"
        shutil.rmtree(start, ignore_errors=True)
        with contextlib.suppress(OSError), Mounted(self.guest.fs.kind, self.disk) as at:
            shutil.copytree(at, start, ignore=shutil.ignore_patterns("efi", "lost+found"))
            os.mkdir(f"{start}/efi")
            self.start = start
        return self.start

    def mend(self):
        """Lets fsck mend until it finds nothing."""
        self.is_mended, self.is_away = True, False
        for number in range(MENDINGS):
            if not self.told_by_fsck(self.guest.fs.mend).returncode:
                self.own |= {"twice"} if number > 1 else set()
                return
        self.blame("stuck", "fsck", f"it finds something for the {MENDINGS}th time")

    def told_by_fsck(self, words):
        return run_check(words, self.disk, (0, 1, 4))

    def mounted(self, when, *commands, is_end=False):
        """Mounts the disk, reads all, runs commands and reads all again."""
        try:
            with Mounted(self.guest.fs.kind, self.disk, self.start) as at:
                self.read(at, when, is_end)
                for words in commands:
                    self.run(words, at, when)
                    self.read(at, f"{when}, after {' '.join(words[:2])}")
        except OSError as error:
            self.miss(when, f"the disk: {error.strerror}")

    def run(self, words, at, when):
        """Runs the program: the trees that may be there follow from its reply."""
        was_read_only = is_read_only(f"{at}/efi")
        status, text = self.guest.run(words, at)
        self.statuses.append(status)
        if is_read_only(f"{at}/efi") and not was_read_only:
            self.own.add("read-only")
        after = self.guest.after_reply(self.allowed, words, status, text)
        if words == LIST and not after:
            after = self.allowed if self.guest.after_reply(self.emptied_trees(), words, status, text) else after
        if not after and not self.is_away:
            self.blame(*self.fault_of_reply(words, status, text, when))
        self.allowed = after or self.guest.after_reply(self.allowed, words, status, None) or self.allowed

    def emptied_trees(self):
        """The trees that may be there, each with the empty files that the last view showed and no reply has told of."""
        must = dict(set.intersection(*map(set, self.allowed)))
        paths = [path for path, it in self.last.items() if is_boot_file(path) and it == EMPTY and path not in must]
        return {frozenset({**dict(tree), **dict.fromkeys(paths, EMPTY)}.items()) for tree in self.allowed if paths}

    def fault_of_reply(self, words, status, text, when):
        """What is wrong with a reply that no plain folder gives: its kind, the time and the words."""
        models = [self.guest.after(tree, words) for tree in self.allowed]
        command = " ".join(words[:2])
        if all(model.status != status for model in models):
            return "hidden" if self.is_nameless else "status", when, f"status {status} of {command}"
        ids = [set(re.findall(r"^ *id: (.*)$", model.text, re.M)) for model in models]
        missing = sorted(it for it in set.intersection(*ids) if it not in text) if words == LIST else []
        if missing or self.is_nameless:
            return "hidden", when, f"{command} without {' '.join(missing)}"
        nearest = min((model.text.splitlines() for model in models), key=lambda it: len({*it} ^ {*text.splitlines()}))
        odd = [line for line in [*text.splitlines(), *nearest] if (line in nearest) != (line in text.splitlines())]
        return "text", when, f"{command} differs in {odd[:2]}"

    # What is seen.

    def miss(self, when, what):
        """What can't be read until fsck has run."""
        self.own.add("away")
        if self.is_mended:
            self.blame("lost", when, f"{what} can't be read")
        self.is_away = True

    def read(self, at, when, is_end=False):
        view = View(at)
        self.last = view.tree
        must = set.intersection(*map(set, self.allowed))
        has_none = not any(map(is_boot_file, view.tree)) and any(is_boot_file(path) for path, _ in must)
        self.own |= {"junk"} if view.has_junk else set()
        if view.is_away or has_none:
            self.miss(when, "a folder")
        if self.is_away:
            return
        is_emptied = any(is_boot_file(path) and it == EMPTY for path, it in view.tree.items())
        self.own |= {"alias"} if view.has_alias else set()
        self.own |= {"emptied"} if is_emptied else set()
        for path, it in view.tree.items():
            if it not in self.guest.store and it not in (EMPTY, UNREADABLE):
                self.blame("torn", when, path)
        if view.named() in self.older and view.named() not in self.allowed:
            self.blame("gone", when, "what was acknowledged")
        self.find_lost(view, when)
        for path, it in must:
            is_known = is_end or self.is_nameless and self.guest.is_touched(path)
            if view.tree.get(path) != it and not is_known:
                self.blame(self.kind_of_fault(view, [path], it), when, f"{path} {told(view.tree.get(path))}")
        if is_end:
            self.judge(view, when)

    def kind_of_fault(self, view, paths, it):
        """What it is that a file isn't there with its bytes under one of its names. If fsck has emptied it, which a run
        before it had written beside a short alias, they are taken."""
        is_late = self.is_mended and self.statuses and view.has_alias
        if is_late and EMPTY in map(view.tree.get, paths):
            return "taken"
        found = view.by_bytes().get(it, []) if is_boot_file(paths[0]) else []
        small = [path.lower() for path in paths]
        return "hidden" if any(is_alias(path) or path.lower() in small for path in found) else "wrong"

    def find_lost(self, view, when):
        """Each boot file whose bytes must be there: are they under no name, or under a short alias alone?"""
        there, self.is_nameless = view.by_bytes(), False
        for it in set.intersection(*map(digests_of, self.allowed)):
            names = {path for tree in self.allowed for path, other in tree if other == it}
            if it not in there:
                kind = self.kind_of_fault(view, sorted(names), it)
                self.blame("taken" if kind == "taken" else "lost", when, " or ".join(sorted(names)))
            elif not names & view.tree.keys() and all(map(is_alias, there[it])):
                self.own.add("no-name")
                self.is_nameless = True

    def judge(self, view, when):
        """Whether the last view is right."""
        if self.is_nameless:
            if self.statuses[-1] != 3:
                self.blame("hidden", when, "only a short alias is left")
            return
        if self.statuses[-1] == 3:
            self.blame("stuck", when, f"status 3 after fsck: {self.guest.log}")
        elif view.has_intent:
            self.blame("wrong", when, "the intent is left")
        tree = view.named()
        if tree in self.allowed:
            return
        nearest = min(self.allowed, key=lambda it: len(it ^ tree))
        for path in sorted({path for path, _ in nearest ^ tree}):
            kind = self.kind_of_fault(view, [path], dict(nearest).get(path))
            seen, wanted = told(view.tree.get(path)), told(dict(nearest).get(path))
            self.blame(kind, when, f"{path} {seen}, and not: {wanted}")
