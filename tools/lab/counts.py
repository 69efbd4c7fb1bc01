"""Counts: how many syncs and calls of the system a command makes, by the number of entries and by where they are.

The calls are those that the program makes through the C library. Nothing is judged but that each command ends well.
"""
import collections

from lab.traps import SYNCS
from lab.trials import ENTRY, Command, Trials, start_files

KINDS, OWN = ["status"], []
ENTRIES, QUICK = [1, 10, 100], [1, 10]
# The words of a command, by the number of entries.
COMMANDS = {
    "bootctl list": lambda _: ["bootctl", "list"],
    "boot": lambda _: ["boot"],
    "bless good": lambda _: ["bless", "good", ENTRY],
    "install": lambda _: ["install", "in/new.efi", "znew"],
    "type1 install, two payloads": lambda _: ["type1", "install", "zone", "--linux=in/kernel", "--initrd=in/initrd"],
    "keep, two removals if it can": lambda count: ["keep", str(max(1, count - 2))],
    "bootctl unlink": lambda _: ["bootctl", "unlink", ENTRY.rpartition("/")[2]],
    "loader set-timeout": lambda _: ["loader", "set-timeout", "7"],
}


def jobs(args):
    """A guest for each system, and one for ext4 alone."""
    for fs, start in [*args.systems, ("ext4", "on")]:
        for entries in QUICK if args.quick else ENTRIES:
            yield {"fs": fs, "start": start, "entries": entries}


class Counts(Trials):
    def rows(self):
        for name, words_of in COMMANDS.items():
            command = Command(words_of(self.job["entries"]), False)
            self.system.put(self.disks)
            with self.system.mounted():
                ran = self.run(command, is_all=True)
            names = collections.Counter(call.name for call in ran.calls)
            fault = [] if ran.status == 0 else [("status", f"status {ran.status}: {ran.log}")]
            syncs = sum(names[name] for name in SYNCS)
            place = {"does": name, "syncs": syncs, "calls": sum(names.values()), "names": names}
            yield self.row(place, [ran.status], [ran.log], fault, OWN)


def report(rows):
    """A line for each command and system: the syncs and the calls by the number of entries."""
    counts = sorted({it["entries"] for it in rows})
    found = {(it["does"], it["fs"], it["start"], it["entries"]): it for it in rows}
    wide = max(map(len, COMMANDS))
    heads = [f"{what} with {count}" for what in ("syncs", "calls") for count in counts]
    yield ""
    yield " ".join([f"{'command':{wide}}", f"{'on':7}", f"{'start':5}", *heads])
    for name in COMMANDS:
        for fs, start in dict.fromkeys((it["fs"], it["start"]) for it in rows):
            them = [found[name, fs, start, count][what] for what in ("syncs", "calls") for count in counts]
            numbers = (f"{it:{len(head)}}" for it, head in zip(them, heads))
            yield " ".join([f"{name:{wide}}", f"{fs:7}", f"{start:5}", *numbers])


def rows(job):
    return Counts(job, start_files(job["entries"])).rows()


def where(row):
    return f"{row['does']}, {row['syncs']} syncs, {row['calls']} calls"
