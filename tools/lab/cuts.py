"""Cuts: a guest is killed while it carries out commands, or one run's writes are replayed, and the disk is judged."""
import os
import shutil
import struct
import time

from lab import Trouble
from lab.cut_cases import CASES
from lab.cut_disks import Wanted, differences, make_disk, read_disk, tree_of
from lab.emulator import PATIENCE, Guest, make_initramfs
from lab.host import copy, write_files


class Bench:
    """What is made once for all cuts."""

    def __init__(self, args, folder):
        self.args, self.folder, self.case = args, folder, CASES[args.case]
        self.limit = 1 if args.when == "single" else self.case.limit
        start = f"{folder}/start"
        os.makedirs(start)
        write_files(self.case.files(), start)
        self.disk, self.state, self.initramfs = f"{folder}/disk", f"{folder}/state", f"{folder}/initramfs"
        make_disk(args.fs, start, self.disk)
        make_initramfs(args, self.case, self.limit, self.initramfs)
        self.wanted = Wanted(self.case, os.path.abspath(args.program), start)
        if self.wanted.after(1) == self.wanted.after(0):
            raise Trouble("the first command changes nothing here")
        self.accel = self.start_once()

    def start_once(self):
        """Starts a guest and keeps it as it is with the disk mounted: each cut goes on from there. KVM is used
        where a guest comes up with it, else emulation."""
        said = "KVM isn't there"
        for accel in ["kvm", "tcg"] if self.args.accel == "auto" else [self.args.accel]:
            if accel == "kvm" and not os.access("/dev/kvm", os.R_OK | os.W_OK):
                continue
            disk = self.new_disk("ready")
            guest = Guest(self.args, self.initramfs, disk, accel)
            try:
                if guest.wait_for("ready", 20 if accel == "kvm" else PATIENCE):
                    guest.save(self.state)
                    os.replace(disk, self.disk)
                    return accel
            finally:
                guest.cut()
            with open(guest.log, errors="replace") as log:
                said = f"{guest.said[-5:]} {log.read()[-1000:]}"
        raise Trouble(f"no guest comes up: {said}")

    def new_disk(self, name):
        return copy(self.disk, f"{self.folder}/{name}")

    def run_until_cut(self, guest, some):
        """Lets the guest run to the chosen moment."""
        guest.begin()
        if self.args.when == "random":
            time.sleep(some.uniform(0, self.args.span))
        elif self.args.when == "single":
            guest.wait_for_reply(1)
        else:
            guest.wait_for_reply(some.randint(1, min(self.args.replies, self.limit)))

    def cut(self, number, some):
        """Makes a cut. It gives whether it is well and what was seen."""
        disk = self.new_disk(f"cut-{number}")
        guest = Guest(self.args, self.initramfs, disk, self.accel, self.state)
        try:
            self.run_until_cut(guest, some)
        finally:
            guest.cut()
        count, reply = guest.acknowledged()
        self.keep(disk, number)
        well, seen = self.judge(count, *self.look(disk, f"{self.folder}/found"))
        os.remove(disk)
        return well, f"{count} replies, the last `{reply}`: {seen}"

    def keep(self, disk, name):
        """Keeps a disk as a cut left it, where that was asked for."""
        if self.args.keep:
            os.makedirs(self.args.keep, exist_ok=True)
            copy(disk, f"{self.args.keep}/{self.args.fs}-{self.args.case}-{name}")

    def look(self, disk, folder):
        """The files of a disk, and what is wrong with it. The disk may be changed."""
        wrong = read_disk(self.args.fs, disk, folder)
        tree = tree_of(folder)
        shutil.rmtree(folder)
        return tree, wrong

    def judge(self, count, tree, wrong):
        """Whether the files are those after so many commands or one more, and what they are."""
        good = [n for n in (count, count + 1) if n <= self.limit and self.wanted.after(n) == tree]
        if good and not wrong:
            return True, f"the files after {good[0]} commands"
        seen = list(wrong)
        if not good:
            older = [n for n in self.wanted.which(tree, count) if n < count]
            seen += [f"the files after {older[-1]} commands"] if older else differences(tree, self.wanted.after(count))
        return False, "; ".join(seen)


def writes_of(log):
    """The writes that were logged, in their order: where each ends in the log, its place on the disk, its bytes,
    and whether it is a flush (then with no bytes) or needs none."""
    with open(log, "rb") as file:
        head = file.read(28)
        if len(head) < 28:
            raise Trouble("the guest wrote nothing to its disk")
        unit = struct.unpack("<QQQI", head)[3]
        place = unit
        while True:
            file.seek(place)
            head = file.read(32)
            if len(head) < 32:
                return
            sector, count, flags, _ = struct.unpack("<QQQQ", head)
            file.seek(place + unit)
            data = b"" if flags & 4 else file.read(count * unit)
            place += unit + len(data)
            yield place, sector * unit, data, bool(flags & 3)


def apply(disk, writes):
    """Makes writes to a disk."""
    with open(disk, "r+b") as file:
        for place, data in writes:
            file.seek(place)
            file.write(data)


class Replay:
    """One run of the guest with its writes logged, and the disk at each moment of it."""

    def __init__(self, bench, some):
        self.bench, self.some, self.cuts, self.broken = bench, some, 0, 0
        self.log, self.acknowledged = f"{bench.folder}/log", []
        self.waiting, self.replied = [], 0
        # The start of all, before the guest writes to its disk.
        self.written, self.flushed = bench.new_disk("written"), bench.new_disk("flushed")

    def run(self):
        """Lets the guest carry out its commands, and keeps how long the log is at each reply."""
        bench = self.bench
        open(self.log, "w").close()
        guest = Guest(bench.args, bench.initramfs, bench.new_disk("run"), bench.accel, bench.state, self.log)
        try:
            guest.begin()
            for number in range(1, min(bench.args.replies, bench.limit) + 1):
                guest.wait_for_reply(number)
                self.acknowledged.append(os.path.getsize(self.log))
                if not guest.wait_for(f"end {number}"):
                    raise Trouble(f"the guest doesn't end {number}: {guest.said[-3:]}")
                guest.tell("next")
        finally:
            guest.cut()

    def check(self, disk, count, what):
        """Looks at a copy of the disk."""
        looked_at = copy(disk, f"{self.bench.folder}/looked-at")
        well, seen = self.bench.judge(count, *self.bench.look(looked_at, f"{self.bench.folder}/found"))
        self.cuts += 1
        if not well:
            self.broken += 1
            print(f"broken {what}, {count} replies: {seen}", flush=True)
            self.bench.keep(disk, f"every-{self.cuts}")

    def replay(self):
        """Looks at the disk after each write or flush up to the last reply."""
        for number, (end, place, data, is_firm) in enumerate(writes_of(self.log), 1):
            if end > self.acknowledged[-1]:
                break
            self.waiting += [(place, data)] if data else []
            if is_firm:
                apply(self.flushed, self.waiting)
                self.waiting = []
            count = sum(it <= end for it in self.acknowledged)
            if self.bench.args.when == "lossy":
                self.look_without_some(number, count)
            else:
                self.look_in_order(number, count, [(place, data)])

    def look_in_order(self, number, count, writes):
        """Looks at the disk with all writes so far, and after a new reply with those alone that are flushed."""
        apply(self.written, writes)
        self.check(self.written, count, f"after write {number}, to {writes[0][0]:#x}")
        if count > self.replied:
            self.replied = count
            self.check(self.flushed, count, f"with what was flushed up to reply {count}")

    def look_without_some(self, number, count):
        """Looks at the disk with some of the writes that no flush followed."""
        chosen = [it for it in self.waiting if self.some.random() < 0.5]
        lost = copy(self.flushed, f"{self.bench.folder}/lost")
        apply(lost, chosen)
        self.check(lost, count, f"after write {number} with {len(chosen)} of {len(self.waiting)} that wait")


def all_cuts(bench, some):
    """Makes the cuts. It gives how many there were and how many are broken."""
    broken = 0
    for number in range(1, bench.args.cuts + 1):
        well, seen = bench.cut(number, some)
        broken += not well
        print(f"{'ok' if well else 'broken'} {number}: {seen}", flush=True)
    return bench.args.cuts, broken


def all_moments(bench, some):
    """Looks at each moment of one run. It gives how many there were and how many are broken."""
    replay = Replay(bench, some)
    replay.run()
    replay.replay()
    return replay.cuts, replay.broken
