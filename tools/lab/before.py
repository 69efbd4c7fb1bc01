"""Before: a cut at each moment of a command, and then a command before the check.

A case is recorded, and each of its moments taken that looks like no other, by its files and by what a check finds.
There, before the check, one of these runs: a list, the command that was cut, or one that removes, enters, blesses or
sets something else; in the same folder, or from another one. Then the disk is checked, mounted and looked at, and
listed. Beside it stands what the check alone makes of the moment. A file may be

  lost      if it was acknowledged before the cut, and the check alone has it
  gone      if the command before the check has answered with 0 that it is so

While docs/DISK.md says that nothing is lost then, both are broken. If it doesn't, they are counted apart, as
`lost-before-check` and `unsafe-before-check`. Counted apart besides:

  odd       the reply is one that no order of commands gives, since the disk shows what only a check can mend
  half      a file of the cut command is neither as before it nor as after it, which no reply has told of
  by-check  the check has taken old bytes for a name, and has overwritten what stands there, which is its own fault
"""
import os

from lab.cases import CASES, LINUX, LIST, start_files
from lab.disks import FILE_SYSTEMS
from lab.page import PAGE
from lab.recordings import moments
from lab.trees import View
from lab.trials import CHECK_ERRS, Command, Trials, odd_paths, words_of

PROMISE = "If you ran a command before line 1, nothing is lost"
KINDS = ["lost", "gone", "stuck"]
APART = {"lost": "lost-before-check", "gone": "unsafe-before-check"}
OWN = [*APART.values(), "odd", "half", "by-hand", "by-check"]
BY = [("case", "then"), ("fs", "start")]
LETTERS = 13
POSITIONS, QUICK = ["0", "edge", "full0", "new"], ["edge"]
QUICK_THENS = ["list", "same", "set-timeout", "install"]
# What runs before the check. None: the command that was cut.
THENS = {
    "list": LIST,
    "same": None,
    "set-timeout": ["loader", "set-timeout", "7"],
    "install": ["install", "in/new.efi", "zznew"],
    "unlink": ["bootctl", "unlink", "other+3.efi"],
    "bless": ["bless", "good", "EFI/Linux/other+3.efi"],
}


def jobs(args):
    for fs, start in args.systems:
        for name in args.case:
            for position in QUICK if args.quick else POSITIONS:
                if position != "new" or CASES[name].may_be_new:
                    thens = QUICK_THENS if args.quick else list(THENS)
                    yield {"fs": fs, "start": start, "case": name, "folder": position, "thens": thens}


def files_of(case, job):
    """A case's files, in which one more entry counts its boots. The ballast is on the partition."""
    files = start_files(case, job["folder"], FILE_SYSTEMS[job["fs"]])
    paths = {f"{LINUX}/other-1.efi": f"{LINUX}/other+3.efi"}
    paths |= {"in/ballast": "efi/ballast"} if job["start"] == "off" else {}
    return {paths.get(path, path): data for path, data in files.items()}


class Before(Trials):
    def __init__(self, job):
        self.case = CASES[job["case"]].named(LETTERS)
        super().__init__(job, files_of(self.case, job))
        self.known = set()

    def rows(self):
        commands = [Command(words, False) for words in self.case.commands]
        chain, steps = self.chain_of(commands)
        self.system.put(self.disks)
        for moment in moments(b"".join(self.disks), self.record(commands), "kept"):
            disks = self.system.split(moment.disk)
            if self.is_new(disks, moment.replies):
                states = set([*steps, chain[-1:]][moment.replies])
                cut = commands[min(moment.replies, len(commands) - 1)]
                for row in self.rows_at(disks, states, cut):
                    yield {"folder": self.job["folder"], "moment": moment.name} | row

    def is_new(self, disks, replies):
        """Whether no moment before looks like it. One that can't be mounted counts as known."""
        self.system.put(disks)
        said = self.system.told_by_check()
        try:
            with self.system.mounted() as at:
                names = sorted(os.path.join(above, name) for above, _, names in os.walk(at) for name in names)
                key = said, str(names), View(at).named(), replies
        except OSError:
            return False
        is_new = key not in self.known
        self.known.add(key)
        return is_new

    def rows_at(self, disks, states, cut):
        """The rows of a moment at which these trees may be there."""
        alone = self.look(disks)
        for then in self.job["thens"]:
            for is_elsewhere in (False, True):
                command = Command(THENS[then] or cut.words, is_elsewhere)
                self.system.put(disks)
                with self.system.mounted():
                    ran = self.run(command)
                seen = self.look(self.system.cut())
                faults = self.faults_beside(seen, alone, states, command, ran)
                if not page_promises():
                    faults = ((APART.get(kind, kind), it) for kind, it in faults)
                place = {"then": then, "place": "elsewhere" if is_elsewhere else "in the same folder"}
                yield self.row(place, [ran.status, seen.status], [ran.log], faults, OWN)

    def faults_beside(self, seen, alone, states, command, ran):
        """What the command before the check has made worse, beside what the check alone leaves."""
        models = [self.models.after(tree, command.words) for tree in states]
        then_states, told = self.states_after(states, command, ran), set()
        if then_states and ran.status == 0:
            told = {path for tree, model in zip(states, models) for path, _ in tree ^ model.tree}
        elif not then_states:
            yield "odd", ""
            then_states = {step for model in models for step in model.steps}
        tree, left, must = dict(seen.tree), dict(alone.tree), dict(frozenset.intersection(*states))
        odd = odd_paths(seen.tree, then_states)
        gone = {path: it for path, it in odd.items() if path in told}
        worse = {path: it for path, it in odd.items() if path not in told and tree.get(path) != left.get(path)}
        lost = {path: it for path, it in worse.items() if path in must and left.get(path) == must[path]}
        has_erred = CHECK_ERRS.search(seen.said)
        for kind, them in (("gone", gone), ("lost", lost), ("half", worse.keys() - lost.keys())):
            if them and has_erred:
                yield "by-check", ""
            elif them:
                yield kind, words_of({path: odd[path] for path in them}, seen.tree)
        if seen.status == 3 and alone.status == 0 and not has_erred:
            yield from self.faults_of_list(seen)


def page_promises():
    """Whether the page says that nothing is lost by a command before the check."""
    with open(PAGE) as file:
        return PROMISE in " ".join(file.read().split())


def rows(job):
    return Before(job).rows()


def where(row):
    return f"folder {row['folder']}, write {row['moment']}, {row['then']} {row['place']}"
