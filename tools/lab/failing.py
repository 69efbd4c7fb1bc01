"""Failing: each sync and write of a command fails once with an I/O error, it is run again, and then the power goes.

While a sync runs, all writes and the flush of its disk fail, or those to one run of sectors alone; each write of a
file fails once by itself; and before each call all fails that the system writes by itself just then. Then, whole:
nothing; the same command again; or a list and the same again: at once, or with the disks unmounted, checked and
mounted between. The disk is taken at once, behind the system's own writing, and unmounted. Each is checked, mounted
and looked at, and listed.

What a run has answered with 0 or 1 must be on the disk. Of what ended with 3 all or nothing may be there. If it is
neither, though each run ended with 3, these are told apart by what a cut leaves behind the failed command alone, be
it at once or once the system has written by itself:

  freed    that is whole: a run behind it has freed the bytes
  driver   that isn't whole either, in a file that the command changes. After a failed write the driver keeps names
           that the disk hasn't got, and the other way round. No call puts that right, so it is counted apart
  aborted  ext4 takes no more changes, since its journal couldn't be written. What is wrong then, or where ext4 has
           lost what it wrote by itself and calls itself clean, is counted apart as `lost-by-ext4`
"""
import os

from lab.cases import LIST
from lab.traps import FAIL, GO, SYNCS, Steps
from lab.trees import View
from lab.trials import COMMANDS, Command, Trials, fault_of_reply, odd_paths, where_of, words_of

KINDS = ["lost", "freed", "order", "stuck", "text"]
OWN = ["driver", "aborted", "lost-by-ext4", "by-check"]
BY = [("command", "then"), ("fs", "start")]
SAME = None
THENS = {
    "nothing": ([], False),
    "same": ([SAME], False),
    "list, same": ([Command(LIST, False), SAME], False),
    "check, same": ([SAME], True),
    "check, list, same": ([Command(LIST, False), SAME], True),
}
BY_ITSELF = "by itself"  # what fails is what the system writes by itself before the call
# What of it is tried if not all of a sync fails, and by the start in a quick run.
OF_PARTS = ["nothing", "same", "list, same"]
QUICK = {"on": ["nothing", "check, list, same"], "off": ["nothing", "same"]}


def jobs(args):
    for fs, start in args.systems:
        for name in args.command or COMMANDS:
            thens = QUICK[start] if args.quick else list(THENS)
            yield {"fs": fs, "start": start, "command": name, "thens": thens, "parts": not args.quick}


class Fault:
    """What fails: the call of some number, of a sync a part of a disk or all; or what the system writes before it."""

    def __init__(self, step, call, part=None):
        self.step, self.call, self.part = step, call, part

    def words(self):
        where = f"{self.step} {where_of(self.call)}"
        if self.part == BY_ITSELF:
            return f"failed by itself before {where}"
        return f"failed at {where}" + (", sectors {1} to {2} of disk {0}".format(*self.part) if self.part else "")


class Failing(Trials):
    def rows(self):
        self.system.is_start_checked = True  # what fails may be on that disk
        for fault in self.faults():
            alone = {}
            for then in self.job["thens"]:
                if not fault.part or then in OF_PARTS:
                    yield from self.trial(fault, then, alone)

    def faults(self):
        """What may fail in the command, by a whole run of it."""
        steps, step, before, found = Steps(), None, (), []

        def stop(call):
            nonlocal step, before
            step = steps.number(call)
            if step and self.job["parts"]:
                found.append(Fault(step, call, BY_ITSELF))
            before = self.system.cut() if call.name in SYNCS and self.job["parts"] else ()

        def note(call):
            if call.name in SYNCS or step and call.name == "write" and call.path.startswith(self.system.at):
                found.append(Fault(step, call))
            for number, disks in enumerate(zip(before, self.system.cut())):
                found.extend(Fault(step, call, (number, *it)) for it in changed_sectors(*disks))

        self.system.put(self.disks)
        with self.system.mounted():
            self.run(self.command, before=stop, after=note)
        return found

    def trial(self, fault, then, alone):
        """The rows of a trial. What a cut leaves behind the failed command alone is kept in `alone`, by its moment."""
        commands, is_checked = THENS[then]
        self.system.put(self.disks)
        with self.system.mounted(can_fail=True) as at:
            runs = [(self.command, self.run_failing(fault))]
            states, faults = self.states_behind({self.tree}, runs)
            if is_checked:
                self.system.check_between()
                faults += self.faults_behind_check(at, states, runs)
                states = {View(at).named()}
            more = [(it, self.run(it)) for it in (it or self.command for it in commands)]
            states, others = self.states_behind(states, more)
            cuts = {"at once": self.system.cut()}
            os.sync()
            cuts["written"] = self.system.cut()
            faults += others + ([("aborted", "")] if self.system.is_aborted() else [])
        cuts["unmounted"] = self.system.cut()
        runs += more
        is_whole_at_once = False
        for end, disks in cuts.items():
            if end != "at once" and disks == cuts["at once"]:
                alone.setdefault(end, alone["at once"])
                continue
            seen = self.look(disks)
            alone.setdefault(end, set(odd_paths(seen.tree, states)))
            all_faults = [*faults, *self.faults_behind(seen, states, runs, set().union(*alone.values()))]
            if end == "at once":
                is_whole_at_once = fault.part == BY_ITSELF and all(kind in OWN for kind, _ in all_faults)
            all_faults = self.without_ext4(all_faults, is_whole_at_once)
            statuses = [*(ran.status for _, ran in runs), seen.status]
            place = {"then": then, "at": fault.words(), "end": end}
            yield self.row(place, statuses, [ran.log for _, ran in runs], all_faults, OWN)

    def without_ext4(self, faults, is_whole_at_once):
        """The faults, of which those that ext4 makes by itself are told as such.

        If a write of its own has failed, and the disk is whole at once, what isn't there later was lost without a call."""
        is_broken = any(kind not in OWN for kind, _ in faults)
        is_lost = is_whole_at_once and self.system.has_ext4()
        if not is_broken or not is_lost and ("aborted", "") not in faults and not self.system.is_damaged():
            return faults
        return [(kind if kind in OWN else "lost-by-ext4", words) for kind, words in faults]

    def run_failing(self, fault):
        """The command's run, in which the call fails."""
        steps = Steps()

        def stop(call):
            if steps.number(call) != fault.step:
                return GO
            if fault.part == BY_ITSELF:
                self.fail_all()
                os.sync()
                self.work()
            elif fault.part:
                number, first, end = fault.part
                self.system.devices[number].fail_some(first, end)
            elif call.name in SYNCS:
                self.fail_all()
            else:
                return FAIL
            return GO

        def go_on(call):
            if steps.count == fault.step and call.name in SYNCS:
                self.work()

        return self.run(self.command, before=stop, after=go_on)

    def fail_all(self):
        for device in self.system.devices:
            device.fail_all()

    def work(self):
        for device in self.system.devices:
            device.work()

    def states_behind(self, states, runs):
        """The trees that may be there behind some runs, and what is wrong with their replies."""
        faults = []
        for command, ran in runs:
            after = self.states_after(states, command, ran)
            faults += [] if after else [fault_of_reply(command, ran)]
            states = after or states
        return states, faults

    def faults_behind_check(self, at, states, runs):
        """What is wrong with what a check has left, which is what counts from then on."""
        self.models.keep(at)
        tree = View(at).named()
        odd = odd_paths(tree, states)
        if odd:
            yield "driver" if self.is_driver(odd, states, runs) else "lost", f"behind the check: {words_of(odd, tree)}"

    def faults_behind(self, seen, states, runs, alone):
        """What is wrong with what a cut has left. A cut behind the failed command alone leaves the paths of `alone` odd."""
        odd = odd_paths(seen.tree, states)
        for kind, words in self.faults_of(seen, states):
            if kind not in ("lost", "order") or not self.is_driver(odd, states, runs):
                yield kind, words
            else:
                yield "driver" if set(odd) <= alone else "freed", words

    def is_driver(self, odd, states, runs):
        """Whether each run has ended with 3, and these are files that the command changes."""
        after = {*states, self.models.after(self.tree, self.command.words).tree}
        changed = {path for tree in after for path, _ in self.tree ^ tree}
        return all(ran.status == 3 for _, ran in runs) and set(odd) <= changed


def changed_sectors(before, after, block=64):
    """The runs of sectors that differ, each from the first to one behind the last."""
    runs = []
    for start in range(0, len(after), block * 512):
        if before[start : start + block * 512] == after[start : start + block * 512]:
            continue
        for place in range(start, min(start + block * 512, len(after)), 512):
            if before[place : place + 512] != after[place : place + 512]:
                sector = place // 512
                if runs and runs[-1][1] == sector:
                    runs[-1] = (runs[-1][0], sector + 1)
                else:
                    runs.append((sector, sector + 1))
    return runs


def rows(job):
    return Failing(job).rows()


def where(row):
    return f"{row['at']}, then {row['then']}, cut {row['end']}"
