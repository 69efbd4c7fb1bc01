"""Systems: a starting folder with a partition at `efi`, on one disk or on two, whose writes can be made to fail."""
import contextlib
import errno
import os
import random
import time

from lab import Trouble, mapper
from lab.disks import FILE_SYSTEMS, MENDINGS, MS_RDONLY, ROOM, Loop, make_files, mount, recorded, run_check, unmount
from lab.host import tool, write_files

# Where the starting folder is: on the partition's own file system, or on ext4.
STARTS = ("on", "off")
TRIES = 50  # so often something is waited for, a fiftieth of a second each time


def wait_until(is_so):
    """Waits for what the kernel does by itself."""
    for _ in range(TRIES):
        if is_so():
            return
        time.sleep(0.02)
    raise Trouble("a device or a mount doesn't come or go")


def refuses_changes(folder):
    """Whether no file can be made in a folder, since its file system takes no changes. After an aborted journal Linux
    6.1 answers EROFS, and 7.2 EIO."""
    try:
        with open(f"{folder}/probe", "x"):
            os.unlink(f"{folder}/probe")
    except OSError as error:
        if error.errno not in (errno.EROFS, errno.EIO):
            raise
        return True
    return False


class Device:
    """A disk's file as a device whose writes can be made to fail."""

    def __init__(self, number, file):
        self.loop, self.name = Loop(number, file), f"disk{number}"
        self.count = os.path.getsize(file) // 512
        mapper.create(self.name, [f"0 {self.count} {self.linear(0)}"])
        self.path = f"/dev/dm-{number}"
        wait_until(lambda: os.path.exists(self.path))

    def fail_all(self):
        """Lets each write and each flush fail. What is read is read."""
        mapper.replace(self.name, [f"0 {self.count} flakey {self.loop.path} 0 0 1 1 error_writes"])

    def fail_some(self, first, end):
        """Lets the writes to some sectors fail, and no flush."""
        parts = [(0, first, self.linear), (first, end, lambda _: "error"), (end, self.count, self.linear)]
        table = [f"{start} {stop - start} {target(start)}" for start, stop, target in parts if stop > start]
        mapper.replace(self.name, table)

    def work(self):
        mapper.replace(self.name, [f"0 {self.count} {self.linear(0)}"])

    def linear(self, place):
        return f"linear {self.loop.path} {place}"

    def close(self):
        mapper.remove(self.name)
        self.loop.__exit__()


class System:
    """The disks of a trial. `start` says where the starting folder is."""

    at = f"{ROOM}/at"

    def __init__(self, fs, start):
        kinds = [FILE_SYSTEMS[fs]] if start == "on" else [FILE_SYSTEMS["ext4"], FILE_SYSTEMS[fs]]
        self.parts = [(kind, f"{ROOM}/part{path[1:]}", path) for kind, path in zip(kinds, ("", "/efi"))]
        self.devices, self.is_start_checked = [], False

    def make(self, files):
        """The bytes of new disks with these files, each a minute younger than the one before."""
        for number, (kind, disk, _) in enumerate(self.parts):
            write_files({disk: random.Random(2 + number).randbytes(kind.size)}, ROOM)
            tool(*kind.make.split(), disk)
        with self.mounted():
            make_files(files, self.at)
        return self.cut()

    def put(self, disks):
        for (_, path, _), data in zip(self.parts, disks):
            write_files({path: data}, ROOM)

    def cut(self):
        """What a power cut leaves now: the bytes of the disks."""
        disks = []
        for _, path, _ in self.parts:
            with open(path, "rb") as file:
                disks.append(file.read())
        return tuple(disks)

    @contextlib.contextmanager
    def mounted(self, can_fail=False, is_read_only=False):
        """The disks mounted. A device that can fail is slower to make."""
        with contextlib.ExitStack() as stack:
            for number, (kind, disk, path) in enumerate(self.parts):
                if can_fail:
                    device = Device(number, disk)
                    stack.callback(device.close)
                    stack.callback(self.devices.clear)
                    self.devices.append(device)
                else:
                    device = stack.enter_context(Loop(number, disk))
                mount(device.path, f"{self.at}{path}", kind.kind, MS_RDONLY if is_read_only else 0)
                stack.callback(self.unmount, f"{self.at}{path}")
            yield self.at

    @contextlib.contextmanager
    def recorded(self):
        """The disks mounted as parts of one device that records its writes. It gives the log's path."""
        write_files({"whole": b"".join(self.cut())}, ROOM)
        with contextlib.ExitStack() as stack:
            log, place = stack.enter_context(recorded(f"{ROOM}/whole")), 0
            for number, (kind, _, path) in enumerate(self.parts, 1):
                mapper.create(f"part{number}", [f"0 {kind.size // 512} linear /dev/dm-0 {place}"])
                stack.callback(mapper.remove, f"part{number}")
                mount(f"/dev/dm-{number}", f"{self.at}{path}", kind.kind)
                stack.callback(unmount, f"{self.at}{path}")
                place += kind.size // 512
            yield log

    def split(self, whole):
        """The disks of a recorded device."""
        disks, place = [], 0
        for kind, _, _ in self.parts:
            disks.append(whole[place : place + kind.size])
            place += kind.size
        return tuple(disks)

    @staticmethod
    def unmount(path):
        """Unmounts, also if it was mounted by hand meanwhile."""
        if os.path.ismount(path):
            unmount(path)

    def check_between(self):
        """Unmounts the disks, checks them, and mounts them again."""
        for _, _, path in reversed(self.parts):
            unmount(f"{self.at}{path}")
        self.check()
        for device, (kind, _, path) in zip(self.devices, self.parts):
            mount(device.path, f"{self.at}{path}", kind.kind)

    def is_aborted(self):
        """Whether ext4 takes no more changes, since its journal couldn't be written. FAT is never so."""
        return any(kind.kind == "ext4" and refuses_changes(f"{self.at}{path}") for kind, _, path in self.parts)

    def has_ext4(self):
        """Whether one of the disks is of ext4."""
        return any(kind.kind == "ext4" for kind, _, _ in self.parts)

    def is_damaged(self):
        """Whether ext4 has lost what it wrote by itself, and calls itself clean all the same."""
        ext4 = [(kind, disk) for kind, disk, _ in self.parts if kind.kind == "ext4"]
        return any(run_check(kind.check, disk).returncode for kind, disk in ext4)

    def told_by_check(self):
        """What a check finds that mends nothing."""
        kind, disk, _ = self.parts[-1]
        return run_check(kind.check, disk).stdout

    def check(self):
        """Checks the partition as the page says, and the starting folder's disk if that is wanted: what was said."""
        parts = list(zip(self.parts, self.devices or [None] * len(self.parts)))
        said = []
        for (kind, disk, _), device in parts if self.is_start_checked else parts[-1:]:
            for _ in range(MENDINGS):
                ran = run_check(kind.mend, device.path if device else disk)
                said.append(ran.stdout)
                if ran.returncode == 0:
                    break
        return "".join(said)
