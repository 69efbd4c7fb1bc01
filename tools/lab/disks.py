"""Disks and their file systems, in the guest: what runs as root there."""
import collections
import contextlib
import ctypes
import errno
import fcntl
import os
import subprocess

from lab import Trouble, mapper
from lab.host import write_files
from lab.kernels import Modules

C = ctypes.CDLL(None, use_errno=True)
ROOM = "/mnt"
FileSystem = collections.namedtuple("FileSystem", "kind size cluster ballast make mend check")


def fat(bits, size, cluster, ballast):
    """FAT of so many bits, on a disk of so many MiB. So many clusters are taken in one file."""
    make = f"mkfs.vfat -F {bits} -s {cluster // 512} -i 12345678"
    return FileSystem("vfat", size << 20, cluster, ballast, make, "fsck.vfat -a", "fsck.vfat -n")


MAKE_EXT4 = "mkfs.ext4 -q -b 1024 -E nodiscard,lazy_itable_init=0"
# The driver takes FAT of 12 bits if there are fewer than 4,085 clusters, and otherwise 16 bits if it isn't told 32.
FILE_SYSTEMS = {
    "fat32": fat(32, 2, 512, 140),
    "fat32-1k": fat(32, 2, 1 << 10, 140),
    "fat32-4k": fat(32, 3, 4 << 10, 140),
    "fat32-32k": fat(32, 6, 32 << 10, 1),
    "fat16": fat(16, 3, 512, 260),
    "fat16-1k": fat(16, 5, 1 << 10, 260),
    "fat16-4k": fat(16, 17, 4 << 10, 260),
    "fat12": fat(12, 1, 512, 350),
    "fat12-1k": fat(12, 2, 1 << 10, 350),
    "fat12-4k": fat(12, 4, 4 << 10, 350),
    "fat12-32k": fat(12, 6, 32 << 10, 1),
    "ext4": FileSystem("ext4", 6 << 20, 1024, 70, MAKE_EXT4, "e2fsck -p", "e2fsck -fn"),
}
MENDINGS = 5  # so often fsck runs, at most, until it must have found nothing
MADE = 1_600_000_000  # the first file's time; each further one is a minute younger
LOOP_SET_FD, LOOP_CLR_FD, MS_RDONLY, MS_BIND = 0x4C00, 0x4C01, 1, 0x1000
MODULES = ["loop", "nls_cp437", "nls_ascii", "nls_iso8859_1", "nls_utf8", "vfat"]
MODULES += ["dm_mod", "dm_log_writes", "dm_flakey"]


def called(name, result):
    """A C call's result, which is no failure."""
    if result < 0:
        raise OSError(ctypes.get_errno(), f"{name}: {os.strerror(ctypes.get_errno())}")
    return result


def mount(source, target, kind, flags=0):
    os.makedirs(target, exist_ok=True)
    called("mount", C.mount(source.encode(), target.encode(), kind.encode(), flags, None))


def unmount(target):
    called("umount", C.umount(target.encode()))


def insert_modules(folder):
    for name, data in Modules(folder).in_order(MODULES).items():
        if C.syscall(175, data, ctypes.c_ulong(len(data)), b"") < 0 and ctypes.get_errno() != errno.EEXIST:
            raise Trouble(f"the module {name}: {os.strerror(ctypes.get_errno())}")


class Loop:
    """A file as a block device."""

    def __init__(self, number, file):
        self.path = f"/dev/loop{number}"
        self.device = os.open(self.path, os.O_RDWR)
        with open(file, "r+b") as backing:
            fcntl.ioctl(self.device, LOOP_SET_FD, backing.fileno())

    def __enter__(self):
        return self

    def __exit__(self, *_):
        fcntl.ioctl(self.device, LOOP_CLR_FD, 0)
        os.close(self.device)


class Mounted:
    """A disk's file that is mounted: as the starting folder, or by its `efi` on the one below such a folder."""

    at = f"{ROOM}/at"

    def __init__(self, kind, file, start=None):
        self.kind, self.file, self.start = kind, file, start

    def __enter__(self):
        self.loop = Loop(0, self.file)
        try:
            mount(self.loop.path, self.at, self.kind)
        except OSError:
            self.loop.__exit__()
            raise
        try:
            if self.start:
                mount(f"{self.at}/efi", f"{self.start}/efi", "none", MS_BIND)
        except OSError:
            self.start = None
            self.__exit__()
            raise
        return self.start or self.at

    def __exit__(self, *_):
        if self.start:
            unmount(f"{self.start}/efi")
        unmount(self.at)
        self.loop.__exit__()


@contextlib.contextmanager
def recorded(disk, log_size=64 << 20):
    """A disk's file as the device `/dev/dm-0`, whose writes are recorded. It gives the log's path."""
    log = f"{ROOM}/log"
    with open(log, "wb") as file:
        file.truncate(log_size)
    with Loop(0, disk) as first, Loop(1, log) as second:
        mapper.create("recorded", [f"0 {os.path.getsize(disk) // 512} log-writes {first.path} {second.path}"])
        try:
            yield log
        finally:
            mapper.remove("recorded")


def mark_reply(number):
    """Notes in the log that a reply was given."""
    mapper.tell("recorded", f"mark reply-{number}")


def make_files(files, folder):
    """Writes files into a folder, each a minute younger than the one before."""
    for number, (path, data) in enumerate(files.items()):
        write_files({path: data}, folder)
        os.utime(f"{folder}/{path}", (MADE + 60 * number,) * 2)


def run_check(words, disk, allowed=(0, 1, 4, 5)):
    """A check's run, which may have found something."""
    ran = subprocess.run([*words.split(), disk], capture_output=True, text=True, errors="replace", check=False)
    if ran.returncode not in allowed:
        raise Trouble(f"{words}: {ran.stdout} {ran.stderr}")
    return ran


def is_read_only(folder):
    return bool(os.statvfs(folder).f_flag & os.ST_RDONLY)
