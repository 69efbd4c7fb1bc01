"""Sectors: a cut at each flush of a command, at which any choice of the sectors that wait for it is on the disk.

A disk may have done any of the writes that it hasn't been told to flush, and of each one some sectors of 512 bytes. A
case is recorded on folders that grow. At each flush some choices are made, and each disk is looked at: checked,
mounted, listed, and the command that was cut is run again. What was acknowledged must be there, each file must be
that of before the command or after it in the end, and nothing may stay stuck.

`fsck.vfat -a` itself may take old bytes at a folder's end for a name, and then it overwrites what stands there.
Before that it says so, without mending anything. So each disk is looked at in two ways:

  check  the check mends at once. What is wrong then is counted apart as `by-check`, if the check has said that it
         takes old bytes for a name
  page   a check that mends nothing comes first. If it says so, nothing is mended: all that was acknowledged must be
         copied by a mount that only reads, file by file as the page says. (If the check would mend it well, that is
         counted apart as `away`: a folder that was growing can't be read before.) Otherwise it is as before, and
         nothing may be wrong

Linux 7.2 takes no new name in a folder with old bytes behind its last one. That is counted apart as `end-mark`. Then
the folder is made anew as the page says, and the same is looked at once more.
"""
import itertools
import os
import random
import subprocess
import tempfile

from lab import end_marks
from lab.before import LETTERS, files_of
from lab.cases import CASES, LIST
from lab.disks import ROOM
from lab.host import tool
from lab.recordings import entries_of
from lab.trees import EMPTY, UNREADABLE, View, digest, is_boot_file, told
from lab.trials import CHECK_ERRS, Command, Trials, fault_of_reply, odd_paths, words_of

KINDS = ["lost", "order", "stuck", "text", "unread"]
OWN = ["by-check", "stopped", "away", "end-mark"]
BY = [("case", "way"), ("fs", "start")]
POSITIONS, QUICK = ["full0", "full3", "edge", "new"], ["full0"]
CHOICES, QUICK_CHOICES = 30, 8


def jobs(args):
    for fs, start in args.systems:
        for name in args.case:
            for position in QUICK if args.quick else POSITIONS:
                if position != "new" or CASES[name].may_be_new:
                    choices = QUICK_CHOICES if args.quick else CHOICES
                    yield {"fs": fs, "start": start, "case": name, "folder": position, "choices": choices}


class Flush:
    """What a disk has at a flush: the bytes that are firm, and by sector the ones that wait, from the oldest on."""

    def __init__(self, number, replies, firm, waiting):
        self.number, self.replies, self.firm, self.waiting = number, replies, firm, waiting

    def disks(self, limit):
        """The disk with choices of the waiting sectors: all of them if they are few."""
        sectors = sorted(self.waiting)
        count = 1
        for sector in sectors:
            count *= 1 + len(self.waiting[sector])
        if count <= limit:
            every = itertools.product(*(range(1 + len(self.waiting[sector])) for sector in sectors))
        else:
            every = self.draw(sectors, limit)
        for chosen in every:
            disk = bytearray(self.firm)
            for sector, version in zip(sectors, chosen):
                if version:
                    disk[512 * sector : 512 * sector + 512] = self.waiting[sector][version - 1]
            yield "".join(map(str, chosen)), bytes(disk)

    def draw(self, sectors, limit):
        """Some choices: of few sectors, of half of them, and of most."""
        some = random.Random(self.number)
        for number in range(limit):
            share = (0.15, 0.5, 0.85)[number % 3]
            yield [some.randint(1, len(self.waiting[it])) if some.random() < share else 0 for it in sectors]


def flushes(disk, log, chosen_from):
    """The flushes of a recording. What lies before a place is on the disk in any case."""
    firm, waiting, replies = bytearray(disk), {}, 0
    for number, (place, data, flags, mark) in enumerate(entries_of(log)):
        replies += mark.startswith("reply-")
        for offset in range(0, len(data), 512):
            sector, part = (place + offset) // 512, data[offset : offset + 512]
            if place < chosen_from:
                firm[place + offset : place + offset + 512] = part
            else:
                waiting.setdefault(sector, []).append(part)
        if flags & 3 and waiting:
            yield Flush(number, replies, bytes(firm), waiting)
            for sector, versions in waiting.items():
                firm[512 * sector : 512 * sector + 512] = versions[-1]
            waiting = {}


class Sectors(Trials):
    def __init__(self, job):
        self.case = CASES[job["case"]].named(LETTERS)
        super().__init__(job, files_of(self.case, job))

    def rows(self):
        commands = [Command(words, False) for words in self.case.commands]
        chain, steps = self.chain_of(commands)
        self.system.put(self.disks)
        whole, log, known = b"".join(self.disks), self.record(commands), set()
        first = len(whole) - len(self.disks[-1])
        for flush in flushes(whole, log, first):
            states = set([*steps, chain[-1:]][flush.replies])
            again = commands[min(flush.replies, len(commands) - 1)]
            for chosen, disk in flush.disks(self.job["choices"]):
                key = digest(disk), flush.replies
                if key not in known:
                    known.add(key)
                    place = {"folder": self.job["folder"], "moment": f"{flush.number}-{chosen}"}
                    yield from self.rows_of(place, self.system.split(disk), states, again)

    def rows_of(self, place, disks, states, again):
        """The rows of a disk: one of both ways, unless the check's words tell them apart."""
        self.looked_at = disks
        self.system.put(disks)
        is_warned = CHECK_ERRS.search(self.system.told_by_check())
        statuses, log, faults = self.mend(states, again)
        if is_warned:
            faults = [(kind if kind in OWN else "by-check", words) for kind, words in faults]
        yield self.row(place | {"way": "check" if is_warned else "page"}, statuses, [log], faults, OWN)
        if is_warned:
            stopped = [("stopped", ""), *self.read_only(disks, states, "unread" if faults else "away")]
            yield self.row(place | {"way": "page"}, [], [], stopped, OWN)

    def read_only(self, disks, states, kind):
        """What isn't copied by a mount that only reads, with its kind. Linux 7.2 lists no more of a folder behind a name of
        old bytes with a slash in it, and `cp -a` then copies nothing of that folder."""
        self.system.put(disks)
        try:
            with self.system.mounted(is_read_only=True) as at, tempfile.TemporaryDirectory(dir=ROOM) as copy:
                words = ["find", ".", "-type", "f", "-exec", "cp", "-a", "--parents", "{}", copy, ";"]
                subprocess.run(words, cwd=at, capture_output=True)
                tree = View(copy).tree
        except OSError as error:
            yield kind, f"the disk: {error.strerror}"
            return
        for path, it in sorted(frozenset.intersection(*states)):
            if tree.get(path) != it and it not in tree.values():
                yield kind, f"{path} {told(tree.get(path))}"

    def mend(self, states, again):
        """Lets the check mend the disk, lists and runs the command again: the statuses, the log and the faults."""
        said = self.system.check()
        end_marks.forget()
        try:
            with self.system.mounted() as at:
                ran, states, faults = self.list_and_run(at, states, again)
            folder = end_marks.folder_at_its_end(ran[-1].status, ran[-1].log)
            if folder and states:
                with self.system.mounted() as at:
                    make_anew(f"{at}/{folder}")
                    kept = [it for it in faults if it != ("stuck", ran[-1].log)]
                    ran, _, faults = self.list_and_run(at, states, again)
                    faults += [("end-mark", folder), *kept]
        except OSError as error:
            return [], said[-200:], [("lost", f"the disk: {error.strerror}")]
        return [it.status for it in ran], ran[-1].log or ran[0].log, faults

    def list_and_run(self, at, states, again):
        """Lists and runs a command: the runs, what may be there then, and the faults."""
        ran = [self.run(Command(LIST, False))]
        faults = self.faults_of_view(View(at), states, is_end=False)
        ran.append(self.run(again))
        then = self.states_after(states, again, ran[-1])
        faults += self.faults_of_view(View(at), then or states, is_end=True)
        if not then:
            faults.append(fault_of_reply(again, ran[-1]))
        return ran, then, faults + [("stuck", it.log) for it in ran if it.status == 3]

    def faults_of_view(self, view, states, is_end):
        """What is wrong with the files behind a check: lost bytes, and in the end any other than those of a state."""
        return list(self.faults_of_tree(view.named(), states, is_end))

    @staticmethod
    def faults_of_tree(tree, states, is_end):
        for path, it in sorted(frozenset.intersection(*states)):
            if dict(tree).get(path) != it:
                yield "lost", f"{path} {told(dict(tree).get(path))}"
        if not is_end:
            there = set(dict(tree).values())
            digests = [{it for path, it in state if is_boot_file(path)} for state in states]
            for it in set.intersection(*digests) - there - {EMPTY, UNREADABLE}:
                yield "lost", next(path for path, other in next(iter(states)) if other == it)
        elif odd_paths(tree, states):
            yield "order", words_of(odd_paths(tree, states), tree)


def make_anew(folder):
    """Copies a folder, and puts the copy in its place, as the page says."""
    new = f"{os.path.dirname(folder)}/new"
    for words in (["cp", "-a", folder, new], ["sync"], ["rm", "-r", folder], ["mv", new, folder], ["sync"]):
        tool(*words)


def rows(job):
    return Sectors(job).rows()


def where(row):
    return f"folder {row['folder']}, write {row['moment']}, {row['way']}"
