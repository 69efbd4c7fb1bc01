"""The emulator: a guest with a small disk, that carries out commands and tells of each over its serial line."""
import glob
import os
import queue
import re
import shutil
import socket
import subprocess
import tempfile
import threading
import time

from lab import Trouble
from lab.host import quoted
from lab.kernels import Modules

PATIENCE = 60  # seconds until a guest must have said the next thing
WANTED_MODULES = ["virtio_pci", "virtio_blk"]
FS_MODULES = {
    "fat": ["nls_cp437", "nls_ascii", "nls_iso8859-1", "nls_utf8", "vfat"],
    "ext4": ["crc32c_generic", "ext4"],
}
# The moments that are those of one run.
REPLAYED = ("every", "lossy")
# Waits for the host, which notes how much is written.
PAUSE = """while read line; do [ "$line" = next ] && break; done"""
INIT = """#!/bin/busybox sh
/bin/busybox --install -s /bin
mount -t devtmpfs none /dev
mount -t proc none /proc
exec </dev/ttyS0 >/dev/ttyS0 2>&1
stty -F /dev/ttyS0 raw -echo
for module in $(cat /modules/order); do insmod /modules/$module; done
mount -t TYPE /dev/vda /disk || exec sleep 100000
cd /disk
number=0
drain() { stty -F /dev/ttyS0 -echo; }
run() {
  number=$((number + 1))
  echo "begin $number"
  drain
  /program "$@" </dev/null
  echo "end $number $?"
  drain
  PAUSE
}
echo "ready"
read go
BEFORE
. /commands
echo "at rest"
exec sleep 100000
"""


def libraries_of(program):
    """The libraries that a program is linked to, and its loader."""
    said = subprocess.run(["ldd", program], capture_output=True, text=True, check=False).stdout
    return re.findall(r"(?:=> |^\s*)(/\S+) \(0x", said, re.M)


def make_initramfs(args, case, limit, target):
    """The guest's first files: busybox, the program with its libraries, the modules and the commands."""
    with tempfile.TemporaryDirectory() as root:
        for name in ("bin", "dev", "proc", "disk", "modules"):
            os.makedirs(f"{root}/{name}")
        busybox = shutil.which("busybox")
        if not busybox:
            raise Trouble("busybox isn't there")
        shutil.copy(busybox, f"{root}/bin/busybox")
        shutil.copy(args.program, f"{root}/program")
        os.chmod(f"{root}/program", 0o755)
        for library in libraries_of(args.program):
            os.makedirs(root + os.path.dirname(library), exist_ok=True)
            shutil.copy(library, root + library)
        kind = "ext4" if args.fs == "ext4" else "fat"
        modules = Modules(args.modules).in_order(WANTED_MODULES + FS_MODULES[kind])
        for name, data in modules.items():
            with open(f"{root}/modules/{name}", "wb") as file:
                file.write(data)
        lines = [f"run {' '.join(map(quoted, case.words(n)))}\n" for n in range(1, limit + 1)]
        init = INIT.replace("TYPE", "ext4" if args.fs == "ext4" else "vfat")
        init = init.replace("BEFORE", args.before).replace("PAUSE", PAUSE if args.when in REPLAYED else "")
        texts = {"init": init, "commands": "".join(lines), "modules/order": " ".join(modules)}
        for name, text in texts.items():
            with open(f"{root}/{name}", "w") as file:
                file.write(text)
        os.chmod(f"{root}/init", 0o755)
        pack(root, target)


def pack(root, target):
    """A folder as an initramfs."""
    names = "".join(f"{os.path.relpath(path, root)}\n" for path in sorted(glob.glob(f"{root}/**", recursive=True)))
    with open(target, "wb") as out:
        words = ["cpio", "-o", "-H", "newc", "--quiet"]
        subprocess.run(words, cwd=root, input=names.encode(), stdout=out, check=True)


class Guest:
    """A running guest, and what it said."""

    def __init__(self, args, initramfs, disk, accel, state=None, writes=None):
        self.log, self.monitor = f"{disk}.kernel-log", f"{disk}.monitor"
        words = ["qemu-system-x86_64", "-accel", accel, "-cpu", "max", "-m", "256", "-nodefaults", "-no-reboot"]
        words += ["-display", "none", "-serial", "stdio", "-serial", f"file:{self.log}"]
        words += ["-monitor", f"unix:{self.monitor},server=on,wait=off"]
        words += ["-kernel", args.kernel, "-initrd", initramfs]
        words += ["-append", "quiet panic=-1 nokaslr mitigations=off console=ttyS1"]
        # What the guest wrote stands in the host's memory, which outlives the emulator.
        words += ["-blockdev", f"driver=file,node-name=disk,filename={disk},cache.no-flush=on"]
        if writes:
            words += ["-blockdev", f"driver=file,node-name=log,filename={writes},cache.no-flush=on"]
            words += ["-blockdev", "driver=blklogwrites,node-name=logged,file=disk,log=log"]
        words += ["-device", f"virtio-blk-pci,drive={'logged' if writes else 'disk'},write-cache=on"]
        words += ["-incoming", f"exec:cat {state}"] if state else []
        self.process = subprocess.Popen(words, stdin=-1, stdout=-1, stderr=-2)
        self.lines, self.said = queue.Queue(), []
        self.reader = threading.Thread(target=self.read, daemon=True)
        self.reader.start()

    def read(self):
        for line in self.process.stdout:
            self.lines.put(line.decode(errors="replace").rstrip("\r\n"))
        self.lines.put(None)

    def next(self, patience=PATIENCE):
        """The next line, and None at the end or where none comes."""
        try:
            line = self.lines.get(timeout=patience)
        except queue.Empty:
            return None
        if line is not None:
            self.said.append(line)
        return line

    def wait_for(self, start, patience=PATIENCE):
        """Reads on until a line begins so."""
        ends = time.monotonic() + patience
        while time.monotonic() < ends:
            line = self.next(max(0.0, ends - time.monotonic()))
            if line is None:
                break
            if line.startswith(start):
                return True
        return False

    def begin(self):
        """Lets a guest that is ready begin with the commands. What it is sent before it runs is lost, so it is
        sent again and again."""
        ends = time.monotonic() + PATIENCE
        while time.monotonic() < ends and self.process.poll() is None:
            self.tell("go")
            if self.wait_for("begin 1", 0.2):
                return
        raise Trouble(f"the guest doesn't begin: {self.said[-5:]}")

    def tell(self, word):
        self.process.stdin.write(f"{word}\n".encode())
        self.process.stdin.flush()

    def save(self, state):
        """Keeps the guest's memory in a file and ends it. Its disk then fits that memory."""
        with socket.socket(socket.AF_UNIX) as monitor:
            monitor.connect(self.monitor)
            monitor.sendall(f'migrate "exec:cat > {state}"\nquit\n'.encode())
            self.process.wait(PATIENCE)
        self.reader.join()

    def wait_for_reply(self, number):
        """Reads on until something of the reply to a command is there."""
        if number > 1 and not self.wait_for(f"begin {number}") or self.next() is None:
            raise Trouble(f"the guest gives no reply {number}: {self.said[-3:]}")

    def cut(self):
        self.process.kill()
        self.process.wait()
        self.reader.join()
        while not self.lines.empty():
            self.next()

    def acknowledged(self):
        """How many commands have some byte of a reply, and the last reply."""
        count, reply, current = 0, "none", 0
        for line in self.said:
            word = line.split(" ")[0]
            if word == "begin":
                current = int(line.split()[1])
            elif word == "end" and int(line.split()[2]) > 125:
                raise Trouble(f"the program doesn't run in the guest: {self.said[-5:]}")
            elif word != "end" and line != "at rest" and current:
                count, reply = current, line
        return count, reply
