"""Pairs: two runs at once, what they may come to, and what they have come to."""
import collections
import itertools
import os
import random
import re
import shutil
import subprocess
import tempfile
import time

from lab.host import write_files
from lab.intents import INTENT, names_moved
from lab.pair_files import boot_files, leftovers, names_in_entries, start_files
from lab.pair_tables import BEGINS_ANEW, COMMANDS, LOOKS, MANY, NEVER_HELD

HOME = "at/boot"  # where a run starts
ABOVE = "at"
COLUMNS = ["moments", "one after the other", "between", "3 of the first", "3 of the second", "3 of both", "wrong"]
ALL, SERIAL, BETWEEN, FIRST_HELD, SECOND_HELD, BOTH_HELD, WRONG = range(7)
LOG = {"BOOT_TOOLS_LOG": "1"}
NAMES_OF_CALLS = {
    0: "read", 1: "write", 2: "open", 3: "close", 4: "stat", 5: "fstat", 6: "lstat", 8: "lseek", 17: "pread64",
    18: "pwrite64", 72: "fcntl", 73: "flock", 74: "fsync", 77: "ftruncate", 78: "getdents", 82: "rename", 83: "mkdir",
    87: "unlink", 89: "readlink", 91: "fchmod", 217: "getdents64", 231: "exit_group", 257: "openat", 258: "mkdirat",
    262: "newfstatat", 263: "unlinkat", 264: "renameat", 316: "renameat2", 332: "statx",
}  # fmt: skip
Reply = collections.namedtuple("Reply", "status said")
Outcome = collections.namedtuple("Outcome", "first second tree")


class Run:
    """A command with the folder that it starts in."""

    def __init__(self, name, folder):
        self.name, self.folder = name, folder
        words, _, self.lines = COMMANDS[name].partition("\n")
        self.words = words.split()
        if folder == ABOVE:
            self.words = [re.sub(r"^(|.*=@?)(?=in/|efi/|out\.|second\.)", r"\1boot/", it) for it in self.words]
            self.words += [] if re.match("ukify|measure|bootctl kernel", words) else ["--esp-path=boot/efi"]
        self.is_script = words == "script"


class Bench:
    """A pair, and what its runs may come to."""

    def __init__(self, program, stopper, room, case, size=300):
        self.program, self.stopper, self.room, self.case = program, stopper, room, case
        self.runs = [Run(case.first, ABOVE if case.kind == "apart" else HOME), Run(case.second, HOME)]
        files = start_files(size)
        files = boot_files(files) if case.kind == "tidied" else files
        files |= leftovers(files) if case.kind == "leftover" else {}
        self.files = {f"{HOME}/{path}": data for path, data in files.items()}
        self.folders = sorted({path[:at] for path in self.files for at, it in enumerate(path) if it == "/"})
        self.left_at_start = {path for path in self.files if path.endswith(".tmp")}
        self.steps = self.steps_of_first() if case.first in MANY else []
        self.orders = {}
        self.serial, self.between = self.outcomes(None, None)

    # Runs.

    def begin_anew(self):
        shutil.rmtree(f"{self.room}/at", ignore_errors=True)
        for folder in self.folders:
            os.mkdir(f"{self.room}/{folder}")
        for path, data in self.files.items():
            with open(f"{self.room}/{path}", "wb") as file:
                file.write(data)

    def words_of(self, number, lines=None):
        """What the stopper takes of a run: its folder, input and output, and its words."""
        run, names = self.runs[number], [f"{self.room}/input{number}", f"{self.room}/said{number}"]
        for name, text in zip(names, [run.lines if lines is None else lines, ""]):
            with open(name, "w", encoding="ascii") as file:
                file.write(text)
        return [f"{self.room}/{run.folder}", *names, self.program, *run.words]

    def said(self, number):
        """What a run has printed, without the lines of its log."""
        return "".join(it for it in self.lines_of(number) if not it.startswith("boot_tools"))

    def lines_of(self, number):
        with open(f"{self.room}/said{number}", encoding="utf-8", errors="replace") as file:
            return file.readlines()

    def stop(self, kind, at, *words, **more):
        ran = subprocess.run([self.stopper, kind, str(at), *words], capture_output=True, check=True, timeout=60, **more)
        return [int(it) for it in ran.stdout.split()]

    def part(self, number, replies, lines=None):
        """Makes a run as far as to so many writes of its replies, as one that ends with 3 there, or all of it."""
        if replies == 0:
            return Reply(3, "")
        _, _, status, _ = self.stop("reply", -1 if replies is None else replies, *self.words_of(number, lines), "--")
        return Reply(status if replies is None else 3, self.said(number))

    def in_turns(self, calls):
        """Both in turns, the first up to a call, the second up to one, and so on: the outcome, and the number and the
        name of the first one's last call. The outcome is None if the first one ends before its first such call."""
        self.begin_anew()
        words = [*self.words_of(0), "--", *self.words_of(1)]
        number, last, *statuses = self.stop("turns", ",".join(map(str, calls)), *words, env=os.environ | LOG)
        if number < calls[0]:
            return None, number, ""
        replies = [Reply(status, self.said(it)) for it, status in enumerate(statuses)]
        return Outcome(*replies, self.tree()), number, NAMES_OF_CALLS.get(last, last)

    def counts_of_calls(self):
        """How many calls the runs make, each alone."""
        counts = []
        for number in (0, 1):
            self.begin_anew()
            counts.append(self.stop("turns", -1, *self.words_of(number), "--")[0])
        return counts

    def begin_run(self, number):
        folder, given, out, *words = self.words_of(number)
        with open(given, "rb") as given, open(out, "ab") as out:
            return subprocess.Popen(words, cwd=folder, stdin=given, stdout=out, stderr=out, env=os.environ | LOG)

    def span(self):
        """How many seconds a run takes."""
        self.begin_anew()
        began = time.monotonic()
        for number in (0, 1):
            self.begin_run(number).wait(60)
        return (time.monotonic() - began) / 2

    def at_once(self, wait):
        """Both at once, the second started so much later, or the first."""
        self.begin_anew()
        order, processes = (0, 1) if wait >= 0 else (1, 0), {}
        for number in order:
            processes[number] = self.begin_run(number)
            if number == order[0]:
                time.sleep(abs(wait))
        replies = [Reply(processes[number].wait(60), self.said(number)) for number in (0, 1)]
        return Outcome(*replies, self.tree())

    # Files.

    def paths(self):
        for above, _, names in os.walk(f"{self.room}/at"):
            yield from (f"{above}/{name}"[len(self.room) + 1 :] for name in names)

    def passes(self, path):
        """Whether a file is an intent or a temporary one, but for that which was there at the start."""
        return os.path.basename(path) == INTENT or path.endswith(".tmp") and path not in self.left_at_start

    def tree(self):
        """The bytes of each file that counts."""
        found = {}
        for path in self.paths():
            if not self.passes(path):
                with open(f"{self.room}/{path}", "rb") as file:
                    found[path] = file.read()
        for folder in (ABOVE, HOME):
            moved = [f"{folder}/{it}" for it in names_moved(f"{self.room}/{folder}")]
            if len(moved) == 2 and all(it in found for it in moved):
                del found[moved[0]]
        return found

    def left(self):
        return [it for it in self.paths() if self.passes(it)]

    # What is right.

    def steps_of_first(self):
        """The first run's reply and the files after each of its commands."""
        steps = []
        for count in range(100):
            self.begin_anew()
            steps.append((self.part(0, count), self.tree()))
            if count and steps[-1][0] == steps[-2][0]:
                self.begin_anew()
                return [*steps[:-1], (self.part(0, None), None)]
        raise RuntimeError("too many replies")

    def outcomes(self, first, second):
        """What comes of the first run's first so many replies and the second's: in one of the two orders, and with
        the second between two commands of the first. None means all of a run."""
        if (first, second) in self.orders:
            return self.orders[first, second]
        serial, between = [], []
        for order in (1, 0), (0, 1):
            self.begin_anew()
            replies = {number: self.part(number, (first, second)[number]) for number in order}
            serial.append(Outcome(replies[0], replies[1], self.tree()))
        if self.runs[0].is_script:
            between = list(self.between_lines(first, second))
        elif self.steps:
            between = list(self.between_steps(len(self.steps) - 2 if first is None else first, first, second))
        self.orders[first, second] = serial, between
        return serial, between

    def between_lines(self, first, second):
        """What comes of them with the second run between two lines of the first one, which is a script."""
        lines = self.runs[0].lines.splitlines(keepends=True)
        for number in range(1, len(lines)):
            self.begin_anew()
            begun = self.part(0, None, "".join(lines[:number]))
            writes = begun.said.count("\n") if first is not None else 0
            if first is not None and writes >= first:
                return
            beside = self.part(1, second)
            ended = self.part(0, first and first - writes, "#\n" * number + "".join(lines[number:]))
            yield Outcome(Reply(max(begun.status, ended.status), begun.said + ended.said), beside, self.tree())

    def between_steps(self, last, first, second):
        """What comes of them with the second run between two commands of the first one. The rest of the first one's commands do
        what they do without the second run; each must find the files that it changes as they are then."""
        for number in range(1, last):
            self.begin_anew()
            self.part(0, number)
            beside = self.part(1, second)
            if all(self.take_step(*self.steps[step : step + 2]) for step in range(number, last)):
                yield Outcome(self.steps[-1 if first is None else last][0], beside, self.tree())

    def take_step(self, before, after):
        """Changes the files as one command did. It answers whether that command would have done the same here."""
        before, after, here = before[1], after[1], self.tree()
        named = names_in_entries(here)
        for path in before.keys() | after.keys():
            old, new = before.get(path), after.get(path)
            if old == new:
                continue
            is_payload = "/boot_tools/" in path
            is_placed = is_payload and new is not None and here.get(path) == new
            if here.get(path) != old and not is_placed:
                return False
            if new is None:
                if is_payload and os.path.basename(path) in named:
                    return False
                os.remove(f"{self.room}/{path}")
            else:
                write_files({path: new}, self.room)
        return True

    def judge(self, seen, is_whole):
        """The column of an outcome, and what is to be told of it in words. The second run may have been whole while the
        first one stood still."""
        left, column = self.left(), WRONG
        logs = ["".join(it for it in self.lines_of(number) if it.startswith("boot_tools: ")) for number in (0, 1)]
        held = [number for number in (0, 1) if seen[number].status == 3]
        if held and self.is_allowed(held, is_whole) and self.ends_intents(seen.tree) and self.is_expected(seen, held):
            column = (FIRST_HELD, SECOND_HELD)[held[0]] if len(held) == 1 else BOTH_HELD
        elif not held and not left:
            column = SERIAL if seen in self.serial else BETWEEN if seen in self.between else WRONG
        for number in held:
            if column != WRONG and "another run" not in logs[number]:
                return WRONG, f"doesn't say why it ends with 3: {shortened(logs[number])}"
        return column, self.told(seen, left) if column in (BOTH_HELD, WRONG) else ""

    def is_allowed(self, held, is_whole):
        """Whether these may end with 3 beside the others: what changes files isn't held by what only looks, and that begins
        anew behind a whole run."""
        names = tuple(self.case[:2])
        if len(held) == 2:
            return True
        if is_whole and held == [0] and names[0] in BEGINS_ANEW:
            return False
        return names not in NEVER_HELD and (names[1 - held[0]] not in LOOKS or names[held[0]] in LOOKS)

    def is_expected(self, seen, held):
        """Whether the others have done what they do without what those with 3 hadn't told of."""
        counts = [range(it.said.count("\n") + 1) if number in held else [None] for number, it in enumerate(seen[:2])]
        wanted = (it for count in itertools.product(*counts) for it in sum(self.outcomes(*count), []))
        return any(self.is_same(it, seen, held) for it in wanted)

    def ends_intents(self, tree):
        """Whether the next run ends each intent that is there, and changes nothing else."""
        for folder, esp in (ABOVE, "boot/efi"), (HOME, "efi"):
            if os.path.exists(f"{self.room}/{folder}/{INTENT}"):
                words = [self.program, "bootctl", "list", f"--esp-path={esp}"]
                subprocess.run(words, cwd=f"{self.room}/{folder}", capture_output=True, check=False)
        return self.tree() == tree and not any(it.endswith(INTENT) for it in self.left())

    def is_same(self, wanted, seen, held):
        """Whether an outcome is the wanted one, but for temporary files and those in boot_tools that no entry names: a
        cleanup beside a run that ends with 3 may find other ones to remove."""
        for number in (0, 1):
            replies = wanted[number], seen[number]
            if self.case[number] == "cleanup" and number not in held:
                replies = (Reply(it.status, removals_left_out(it.said)) for it in replies)
            if len(set(replies)) > 1:
                return False
        return boot_files(wanted.tree) == boot_files(seen.tree)

    def told(self, seen, left):
        """What two runs came to, in words."""
        replies = [f"{it.status} {shortened(it.said)}".strip() for it in seen[:2]]
        wanted = sum(self.outcomes(*(0 if it.status == 3 else None for it in seen[:2])), [])
        near = min(wanted, key=lambda it: (len(differences(it.tree, seen.tree)), it[:2] != seen[:2]))
        apart = " ".join(differences(near.tree, seen.tree)) or "no other files"
        left = " ".join(os.path.relpath(it, ABOVE) for it in left)
        return f"{replies[0]} | {replies[1]} | {apart}{' | left: ' + left if left else ''}"


def removals_left_out(said):
    return re.sub(r"(?m)^(unlinked \S*/boot_tools/\w+|nothing to clean)\n", "", said)


def differences(wanted, seen):
    """What the seen files have more, less and otherwise than the wanted ones."""
    sign = lambda path: "+" if path not in wanted else "-" if path not in seen else "~"
    paths = [it for it in sorted(wanted.keys() | seen.keys()) if wanted.get(it) != seen.get(it)]
    return [shortened(sign(it) + os.path.relpath(it, ABOVE)) for it in paths]


def shortened(text):
    """Some text on one line, with the starts of digests."""
    line = "; ".join(re.sub(r"\b([0-9a-f]{8})[0-9a-f]{56}\b", r"\1..", text).split("\n")).strip("; ")
    return re.sub(r"\s+", " ", line if len(line) < 200 else line[:200] + "..")


def ranges(calls):
    """Numbers of calls with their names, those in a row as one."""
    rows = []
    for number, name in calls:
        if rows and number == rows[-1][1] + 1:
            rows[-1][1:] = [number, name]
        else:
            rows.append([number, number, name])
    return ", ".join(f"{first} to {last}" if first < last else f"{first} ({name})" for first, last, name in rows)


class Tally:
    """The counts of a pair, and what was to be told, with its places."""

    def __init__(self, bench, name, is_whole=False):
        self.bench, self.name, self.is_whole = bench, name, is_whole
        self.counts, self.told = [0] * len(COLUMNS), collections.defaultdict(list)

    def add(self, seen, place):
        column, told = self.bench.judge(seen, self.is_whole)
        self.counts[ALL] += 1
        self.counts[column] += 1
        if told:
            self.told[told].append(place)

    def row(self, words_of):
        return self.name, self.counts, [f"{len(them)} {words_of(them)}: {told}" for told, them in self.told.items()]


def every_moment(task):
    """The counts of a pair whose first run is stopped at each call, and what was wrong, with its calls."""
    program, stopper, room, name, case = task
    with tempfile.TemporaryDirectory(dir=room) as folder:
        tally = Tally(Bench(program, stopper, folder, case), name, is_whole=True)
        for number in itertools.count(1):
            seen, *call = tally.bench.in_turns([number])
            if not seen:
                return tally.row(lambda calls: f"at {ranges(calls)}")
            tally.add(seen, call)


def some_turns(task):
    """The counts of a pair whose runs take turns, each up to some call, and what was wrong, with its calls."""
    (program, stopper, room, name, case), count, seed = task
    some = random.Random(f"{seed} {name}")
    with tempfile.TemporaryDirectory(dir=room) as folder:
        bench = Bench(program, stopper, folder, case)
        tally, calls = Tally(bench, name), bench.counts_of_calls()
        while tally.counts[ALL] < count:
            turns = turns_of(some, calls)
            seen = bench.in_turns(turns)[0]
            if seen:
                tally.add(seen, turns)
        return tally.row(lambda them: "at " + ", ".join(map(str, them[:3])))


def turns_of(some, calls):
    """Two or three calls at which two runs change places: of the first, of the second, and a later one of the first."""
    turns = [some.randint(1, calls[0]), some.randint(1, calls[1])]
    if some.random() < 0.5 and turns[0] < calls[0]:
        turns.append(some.randint(turns[0] + 1, calls[0]))
    return turns


def at_random(task, pairs, some):
    """The counts of a pair that runs at about the same time, and what was wrong."""
    program, stopper, room, name, case = task
    with tempfile.TemporaryDirectory(dir=room) as folder:
        tally = Tally(Bench(program, stopper, folder, case, 300000), name)
        span = tally.bench.span()
        for _ in range(pairs):
            wait = some.uniform(-span, span)
            tally.add(tally.bench.at_once(wait), wait)
        return tally.row(lambda _: "times")
