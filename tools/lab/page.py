"""The page: the lines that docs/DISK.md has for the morning after a cut, on a system with ext4 at `/`.

If line 0 says that the check would take old bytes for names, the page's lines for that come, and what they must copy is
what the cut command leaves be. That is counted apart as `stopped`, and what the check then spoils as `by-check`, which is its
own fault. If the command finds a folder that takes no new name on Linux 7.2, the page's line for that comes, and the
command once more. That is counted apart as `end-mark`.
"""
import contextlib
import os
import random
import re
import shutil
import subprocess

from lab import TOP, Trouble, end_marks, mapper
from lab.cases import LIST, start_files
from lab.disks import MAKE_EXT4, MENDINGS, MS_BIND, ROOM, Loop, make_files, mark_reply, mount, recorded, unmount
from lab.host import quoted, tool, write_files
from lab.looks import Guest
from lab.recordings import moments
from lab.trees import EMPTY, PASSING, View, told
from lab.trials import CHECK_ERRS

PAGE = f"{TOP}/docs/DISK.md"
HEADING = "## The morning after a power cut"
PARTITION = "/dev/sda1"  # what the page calls it
LINES_UNTIL_0 = [1]  # those that the page tells to repeat until they end with 0
LINE_OF_COPY, LINE_OF_LIST, LINE_OF_COMMAND, LINE_OF_TIDY, LINE_OF_REST = 0, 3, 4, 5, 6
COPIES = "var/tmp/esp-files"  # where the page copies the files to
ROOT_SIZE = 10 << 20
# What fsck says, and what is counted for it.
SAID_BY_FSCK = {"share clusters": "shared", "Contains a free cluster": "growing", "Reclaimed": "reclaimed"}


def lines_of_page():
    """The commands with which numbered lines of the page begin."""
    with open(PAGE) as file:
        part = file.read().partition(HEADING)[2].partition("\n## ")[0]
    return {int(number): words for number, words in re.findall(r"^(\d+)\. `([^`]+)`", part, re.M)}


def lines_of_copies():
    """The commands that copy the files of a partition one by one, as one line."""
    with open(PAGE) as file:
        block = re.search(r"^```console\n((?:# .*\n)*# .*--parents .*\n(?:# .*\n)*)```", file.read(), re.M)[1]
    return "; ".join(line.removeprefix("# ") for line in block.splitlines())


def line_of_copy(folder):
    """The line that puts a copy of a folder of the partition in its place."""
    with open(PAGE) as file:
        words = re.search(r"`(cd /boot/efi; cp -a boot_tools [^`]+)`", file.read())[1]
    return re.sub(r"\bboot_tools\b", folder.removeprefix("boot/efi/"), words)


class System:
    """A system that is mounted at a folder, with the tools of this one. Its partition may not mount."""

    at, efi = f"{ROOM}/root", f"{ROOM}/root/boot/efi"
    shared = {"usr": "/usr", "dev": "/dev", "proc": "/proc", "opt": f"{ROOM}/opt", "root": f"{ROOM}/home"}

    def __init__(self, root, partition):
        self.root, self.partition = root, partition

    def __enter__(self):
        mount(self.root, self.at, "ext4")
        for name, source in self.shared.items():
            mount(source, f"{self.at}/{name}", "none", MS_BIND)
        with contextlib.suppress(OSError):
            mount(self.partition, self.efi, "vfat")
        return self.at

    def __exit__(self, *_):
        if os.path.ismount(self.efi):
            unmount(self.efi)
        for name in self.shared:
            unmount(f"{self.at}/{name}")
        unmount(self.at)


class Page(Guest):
    """A guest that follows the page on each cut disk that looks like no other."""

    def __init__(self, job):
        super().__init__(job)
        self.passed = {*System.shared, "etc"}
        self.case.commands = list(map(self.from_root, self.case.commands))
        os.makedirs(f"{ROOM}/opt")
        os.makedirs(f"{ROOM}/home")  # room for the copy that line 0 makes
        shutil.copy(job["program"], f"{ROOM}/opt/boot_tools")

    @staticmethod
    def from_root(words):
        """The words for a partition at /boot/efi."""
        if "build" in words:
            return [word.replace("=efi/", "=boot/efi/") for word in words]
        return [*words, "--esp-path=/boot/efi"]

    def make_disk(self, position):
        """The bytes of both file systems, the root's first."""
        root, partition = f"{ROOM}/first", f"{ROOM}/look"
        some = random.Random(2)
        write_files({"first": some.randbytes(ROOT_SIZE), "look": some.randbytes(self.fs.size)}, ROOM)
        tool(*MAKE_EXT4.split(), root)
        tool(*self.fs.make.split(), partition)
        with Loop(0, root) as first, Loop(1, partition) as second:
            mount(first.path, System.at, "ext4")
            for name in (*System.shared, "etc", "boot/efi", os.path.dirname(COPIES)):
                os.makedirs(f"{System.at}/{name}")
            for name in ("bin", "sbin", "lib", "lib64"):
                os.symlink(f"usr/{name}", f"{System.at}/{name}")
            write_files({"etc/fstab": f"{second.path} /boot/efi vfat umask=0077 0 0\n".encode()}, System.at)
            unmount(System.at)
            with System(first.path, second.path) as at:
                files = start_files(self.case, position, self.fs).items()
                make_files({path.replace("efi/", "boot/efi/") if path.startswith("efi/") else path: it for path, it in files}, at)
                self.chain = [self.keep(at)]
        for words in self.case.commands:
            self.chain.append(self.after(self.chain[-1], words).tree)
        with open(root, "rb") as first, open(partition, "rb") as second:
            return first.read() + second.read()

    def record(self, disk, commands):
        """Carries commands out on a system whose writes are recorded in one log."""
        replies = []
        write_files({"disk": disk}, ROOM)
        root, partition = ROOT_SIZE // 512, self.fs.size // 512
        with contextlib.ExitStack() as stack:
            log = stack.enter_context(recorded(f"{ROOM}/disk", 128 << 20))
            for name, start, count in (("root", 0, root), ("partition", root, partition)):
                mapper.create(name, [f"0 {count} linear /dev/dm-0 {start}"])
                stack.callback(mapper.remove, name)
            at = stack.enter_context(System("/dev/dm-1", "/dev/dm-2"))
            for number, words in enumerate(commands, 1):
                replies.append(self.run(words, at))
                mark_reply(number)
        with open(log, "rb") as file:
            return file.read(), replies

    def look_at_all(self, position):
        """Follows the page on each disk that looks like no other. It gives what was seen."""
        disk = self.make_disk(position)
        log, replies = self.record(disk, self.case.commands)
        if any(status for status, _ in replies):
            raise Trouble(f"a recorded command fails: {replies}")
        for moment in moments(disk, log, self.job["order"]):
            morning = Morning(self, moment)
            if morning.is_new():
                morning.follow()
                seen = {"statuses": morning.statuses, "own": sorted(morning.own), "broken": morning.broken}
                yield {"folder": position, "moment": moment.name, "replies": moment.replies, "way": "page", **seen}


class Morning:
    """The page's lines on a cut disk."""

    def __init__(self, guest, moment):
        self.guest, self.replies = guest, moment.replies
        commands = guest.case.commands
        self.words = commands[self.replies] if self.replies < len(commands) else None
        self.before, self.wanted = guest.chain[self.replies], guest.chain[min(self.replies + 1, len(commands))]
        self.root, self.partition = f"{ROOM}/first", f"{ROOM}/look"
        disk = moment.disk
        write_files({"first": disk[:ROOT_SIZE], "look": disk[ROOT_SIZE:]}, ROOM)
        self.own, self.broken, self.statuses, self.text = set(), [], [], ""
        self.is_by_check = False  # whether what is wrong from now on is the check's own fault

    @contextlib.contextmanager
    def started(self):
        """The system, as it has started on the disk."""
        with Loop(0, self.root) as first, Loop(1, self.partition) as second:
            self.device = second.path
            with System(first.path, second.path) as at:
                yield at

    def view(self, at):
        return View(at, self.guest.passed)

    def is_new(self):
        """Whether no disk before looks like it to `ls`, to fsck and by its intent."""
        ran = subprocess.run(["fsck.vfat", "-n", self.partition], capture_output=True, text=True, errors="replace")
        self.own |= {word for said, word in SAID_BY_FSCK.items() if said in ran.stdout}
        with self.started() as at:
            view = self.view(at)
            names = [sorted(names) for _, _, names in os.walk(f"{at}/boot")]
            key = ran.stdout, str(names), view.named(), view.has_intent, self.replies
        self.own |= {"intent"} if view.has_intent else set()
        is_new = key not in self.guest.seen
        self.guest.seen.add(key)
        return is_new

    def blame(self, when, words):
        if self.is_by_check:
            self.own.add("by-check")
        else:
            self.broken.append(("page", f"{when}: {words}"))

    def shell(self, line):
        """The status of a line that is typed in `/`. What it prints is kept."""
        words = ["chroot", System.at, "/bin/sh", "-c", f"cd /; {line.replace(PARTITION, self.device)}"]
        env = {"PATH": "/opt:/usr/sbin:/usr/bin:/sbin:/bin", "LC_ALL": "C"}
        ran = subprocess.run(words, capture_output=True, text=True, errors="replace", env=env, check=False)
        self.text, self.log = ran.stdout, ran.stderr
        self.statuses.append(ran.returncode)
        return ran.returncode

    def follow(self):
        """Follows the lines, and judges what is there in the end."""
        lines = lines_of_page()
        with self.started() as at:
            for number in sorted({*lines, LINE_OF_COMMAND}):
                if number == LINE_OF_COMMAND:
                    self.run_again()
                    continue
                self.type_line(number, lines[number])
                self.judge_line(number, at)
            self.require_end(at, "in the end")
            self.shell("umount /boot/efi")
            if self.shell(f"fsck.vfat -n {PARTITION}"):
                self.own.add("fsck-n")
            self.shell("mount /boot/efi")
            self.require_end(at, "mounted anew")

    def type_line(self, number, line):
        status = self.shell(line)
        for again in range(1, MENDINGS) if number in LINES_UNTIL_0 else ():
            if status == 0:
                break
            self.own |= {"twice"} if again > 1 else set()
            status = self.shell(line)
        if status and number in LINES_UNTIL_0:
            self.blame(f"line {number}", f"it doesn't end with 0: {self.text[-200:]}")

    def judge_line(self, number, at):
        """Judges what a line has printed. What the last one lists is removed, as the page says."""
        if number == LINE_OF_COPY and CHECK_ERRS.search(self.text):
            self.copy_files(at)
        elif number == LINE_OF_LIST:
            self.require_menu(at)
        elif number == LINE_OF_TIDY and "cleaned" not in self.text:
            self.blame(f"line {number}", self.text)
        elif number == LINE_OF_REST:
            self.own |= {"rest"} if self.text else set()
            for path in self.text.splitlines():
                os.unlink(f"{at}{path}")

    def copy_files(self, at):
        """Copies the files one by one. Each that the cut command leaves be must be copied."""
        self.own.add("stopped")
        self.shell(lines_of_copies())
        tree = View(f"{at}/{COPIES}").tree
        for path, it in sorted(self.before & self.wanted):
            name = path.removeprefix("boot/efi/")
            if name != path and tree.get(name) != it and it not in tree.values():
                self.blame("the copy", f"{path} {told(tree.get(name))}")
        shutil.rmtree(f"{at}/{COPIES}")
        self.is_by_check = not self.broken

    def require_menu(self, at):
        """The list is that of before the command or after it. An empty file may be passed over."""
        text, _, status = self.text.rstrip("\n").rpartition("\n")
        text, status = (text, status) if status.isdigit() else ("", status or self.text)
        empty = [path for path, it in self.view(at).tree.items() if it == EMPTY]
        trees = [self.before, self.wanted]
        trees += [frozenset({**dict(tree), **dict.fromkeys(empty, EMPTY)}.items()) for tree in trees if empty]
        models = [self.guest.after(tree, self.guest.from_root(LIST)) for tree in trees]
        menus = [(str(model.status), model.text.strip()) for model in models]
        self.is_old = text.strip() == menus[0][1]
        if (status, text.strip()) not in menus:
            seen = re.findall("source: (.*)", text)
            self.blame(f"line {LINE_OF_LIST}", f"it says {status} and lists {seen}: {self.log.strip()}")

    def run_again(self):
        """The cut command once more. A boot is counted once more only if the menu shows the old count."""
        if not self.words or self.words[0] == "boot" and not self.is_old:
            return
        end_marks.forget()
        folder = self.run_logged()
        if folder:
            self.own.add("end-mark")
            self.shell("umount /boot/efi; mount /boot/efi")
            self.shell(line_of_copy(folder))
            self.run_logged()
        models = [self.guest.after(tree, self.words) for tree in (self.before, self.wanted)]
        if (self.statuses[-1], self.text) not in [(model.status, model.text) for model in models]:
            self.blame(f"line {LINE_OF_COMMAND}", f"status {self.statuses[-1]}: {self.text}")

    def run_logged(self):
        """Runs the command, and gives the folder that takes no new name, if it has ended so."""
        self.shell("BOOT_TOOLS_LOG=1 " + " ".join(map(quoted, ["boot_tools", *self.words])))
        return end_marks.folder_at_its_end(self.statuses[-1], self.log)

    def require_end(self, at, when):
        """The files are those after the command, and nothing else is left."""
        view = self.view(at)
        self.own |= {word for word, has in (("alias", view.has_alias), ("junk", view.has_junk)) if has}
        if view.is_away or view.has_intent:
            self.blame(when, "a folder can't be read" if view.is_away else "the intent is left")
        for path, it in sorted(view.named() ^ self.wanted):
            self.blame(when, f"{path} {told(view.tree.get(path))}, and not: {told(dict(self.wanted).get(path))}")
        rest = [name for _, _, names in os.walk(f"{at}/boot") for name in names if PASSING.fullmatch(name)]
        if rest:
            self.blame(when, f"{rest} is left")
        list_words = self.guest.from_root(LIST)
        status, text = self.guest.run(list_words, at)
        if (status, text) != self.guest.after(self.wanted, list_words)[:2]:
            self.blame(when, f"bootctl list with {status} lists {re.findall('source: (.*)', text)}")
