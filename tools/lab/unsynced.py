"""Unsynced: another program changes names without a sync, a command runs whole, and then the power goes.

It moves, copies or removes a file. That is an entry, or one in `loader` or in the partition's root; or it goes over
an entry. The disk is taken at once, and once more behind the system's own writing. Each is checked, mounted and
looked at, and listed. The same is done without the command, to be compared with.

What the command has answered with 0 or 1 must be on the disk, and what it hasn't touched. Of what the other program
did all or nothing may be there, or what is there without the command; else it is

  lost  if bytes are under no name that are there without the command
  told  if a list has shown it
  half  otherwise: a name with no bytes or a second one, which the driver makes by itself. It is counted apart
"""
import os

from lab.cases import LINUX, LIST, LOADER
from lab.images import small_image
from lab.trees import EMPTY
from lab.trials import COMMANDS, Trials, fault_of_reply, kind_of, odd_paths, start_files, words_of

KINDS = ["lost", "told", "order", "stuck", "text"]
OWN = ["half", "by-check"]
BY = [("command", "action"), ("fs", "start")]
COPIED, MOVED = small_image(6, 3000), small_image(8, 2700)
ENTRY, PART = f"{LINUX}/old-5.efi", f"{LINUX}/part"
# What another program does with its calls.
ACTIONS = {
    "mv": lambda at: os.rename(f"{at}/{ENTRY}", f"{at}/{LINUX}/moved.efi"),
    "mv over": lambda at: os.rename(f"{at}/{PART}", f"{at}/{ENTRY}"),
    "cp": lambda at: put(at, f"{LINUX}/copied.efi"),
    "cp over": lambda at: put(at, ENTRY),
    "rm": lambda at: os.unlink(f"{at}/{ENTRY}"),
    "mv in loader": lambda at: os.rename(f"{at}/{LOADER}/random-seed", f"{at}/{LOADER}/random-seed-2"),
    "cp in loader": lambda at: put(at, f"{LOADER}/random-seed-2"),
    "rm in loader": lambda at: os.unlink(f"{at}/{LOADER}/random-seed"),
    "mv in root": lambda at: os.rename(f"{at}/efi/startup.nsh", f"{at}/efi/startup-2.nsh"),
    "cp in root": lambda at: put(at, "efi/startup-2.nsh"),
    "rm in root": lambda at: os.unlink(f"{at}/efi/startup.nsh"),
}
QUICK = ["mv", "mv over", "cp over", "mv in loader", "mv in root"]


def put(at, path):
    """Writes a file in place, as a copy does."""
    with open(f"{at}/{path}", "wb") as file:
        file.write(COPIED)


def jobs(args):
    for fs, start in args.systems:
        for name in args.command or COMMANDS:
            yield {"fs": fs, "start": start, "command": name, "actions": QUICK if args.quick else list(ACTIONS)}


class Unsynced(Trials):
    def rows(self):
        for action in self.job["actions"]:
            done, _, cuts = self.trial(action, None)
            without = {end: self.look(disks) for end, disks in cuts.items()}
            _, ran, cuts = self.trial(action, self.command)
            states = self.states_after({done}, self.command, ran)
            for end, disks in cuts.items():
                seen = self.look(disks)
                wanted = min(states or {done}, key=lambda tree: len(tree ^ seen.tree))
                faults = [*self.faults_behind(seen, done, wanted, without[end].tree), *self.faults_of_list(seen)]
                faults += [] if states else [fault_of_reply(self.command, ran)]
                yield self.row({"action": action, "end": end}, [ran.status, seen.status], [ran.log], faults, OWN)

    def trial(self, action, command):
        """The files behind the action, the command's run and the disks behind two cuts."""
        self.system.put(self.disks)
        with self.system.mounted() as at:
            ACTIONS[action](at)
            done = self.models.keep(at)
            ran = self.run(command) if command else None
            cuts = {"at once": self.system.cut()}
            os.sync()
            cuts["written"] = self.system.cut()
        return done, ran, cuts

    def faults_behind(self, seen, done, wanted, without):
        """What is wrong with what a cut has left, by the tree that is wanted and the one without the command."""
        foreign = {path for path, _ in self.tree ^ done} - {path for path, _ in done ^ wanted}
        odd = odd_paths(seen.tree, {wanted})
        others = {path: it for path, it in odd.items() if path not in foreign}
        if others:
            yield kind_of(others, seen), words_of(others, seen.tree)
        is_told = self.command.words == LIST and any(path.startswith(LINUX) for path in foreign & odd.keys())
        fault = "told" if is_told else fault_of_foreign(foreign, *map(dict, (seen.tree, wanted, self.tree, without)))
        if fault:
            yield fault, words_of({path: odd[path] for path in foreign & odd.keys()}, seen.tree)


def fault_of_foreign(paths, seen, wanted, before, without):
    """What has become of what another program did: None if all of it, nothing, or what is there without the command."""
    part = lambda tree: {path: tree.get(path) for path in paths}
    if part(seen) in map(part, (wanted, before, without)):
        return None
    missing, gone = (set(part(tree).values()) - {None, EMPTY, *seen.values()} for tree in (wanted, without))
    return "lost" if missing and gone else "half"


def rows(job):
    return Unsynced(job, start_files() | {PART: MOVED}).rows()


def where(row):
    return f"{row['action']}, cut {row['end']}"
