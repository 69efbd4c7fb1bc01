"""Killed: a command is killed at each of its calls, another one runs whole, and then the power goes.

Each command is killed before each of its calls that change or sync something (of the writes of a file the first two).
Then, whole, one of these runs: a list, the same command again, a removal of another entry, `bless` from the same
folder, and from another one. The disk is taken at once, and once more behind the system's own writing. Each is
checked, mounted and looked at, and listed.

What a run has answered with 0 or 1 must be on the disk. Of what ended with 3, or was killed, all or nothing may be
there. Counted apart are `by-hand`: a run from another folder has given the entry a third name, and so the intent
stays until it is removed by hand; and `by-check`: the check has taken old bytes for a name, which is its own fault.
"""
import os

from lab.traps import KILL, Steps
from lab.trials import COMMANDS, THENS, Trials, fault_of_reply, where_of

KINDS = ["lost", "order", "stuck", "text"]
OWN = ["by-hand", "by-check"]
BY = [("command", "then"), ("fs", "start")]
QUICK = {"on": ["list", "bless elsewhere"], "off": ["list", "unlink other"]}


def jobs(args):
    for fs, start in args.systems:
        for name in args.command or COMMANDS:
            thens = QUICK[start] if args.quick else list(THENS)
            yield {"fs": fs, "start": start, "command": name, "thens": thens}


class Killed(Trials):
    def rows(self):
        """Each trial's rows, until the command has no more calls."""
        step = 0
        while True:
            step += 1
            for then in self.job["thens"]:
                rows = list(self.trial(step, then))
                if not rows:
                    return
                yield from rows

    def trial(self, step, then):
        command = THENS[then] or self.command
        self.system.put(self.disks)
        with self.system.mounted():
            killed = self.run_killed(step)
            if killed.status >= 0:
                return
            ran = self.run(command)
            cuts = {"at once": self.system.cut()}
            os.sync()
            cuts["written"] = self.system.cut()
        states = self.states_after({self.tree}, self.command, killed)
        then_states = self.states_after(states, command, ran)
        if cuts["written"] == cuts["at once"]:
            del cuts["written"]
        for end, disks in cuts.items():
            seen = self.look(disks)
            faults = [*self.faults_of(seen, then_states or states)]
            faults += [] if then_states else [fault_of_reply(command, ran)]
            place = {"then": then, "step": step, "at": where_of(killed.calls[-1]), "end": end}
            yield self.row(place, [ran.status, seen.status], [ran.log], faults, OWN)

    def run_killed(self, step):
        """The command's run, killed at a step; or whole, if it has fewer."""
        steps = Steps()
        return self.run(self.command, before=lambda call: KILL if steps.number(call) == step else None)


def rows(job):
    return Killed(job).rows()


def where(row):
    return f"killed at {row['step']} {row['at']}, then {row['then']}, cut {row['end']}"
