"""Crowds: random runs, three at once, and the order of their commands that agrees with what they have said and left."""
import concurrent.futures
import glob
import hashlib
import multiprocessing
import os
import random
import re
import shutil
import subprocess
import tempfile
import time

from lab.host import compile_program, write_files
from lab.intents import INTENT
from lab.pair_files import boot_files, files_of, left_in, names_in_entries, start_files
from lab.pair_tables import BUILD, COMMANDS
from lab.pairs import shortened


class Made:
    """A run of a crowd that has ended, and its commands as steps: each changes the model's files as the program does
    that carries it out alone, and answers whether it says the same."""

    def __init__(self, crowd, command, status, said, began, ended):
        self.crowd, self.command, self.status, self.said = crowd, command, status, said
        self.began, self.ended = began, ended
        self.steps = self.found_steps()

    def __str__(self):
        words = self.command.replace("\n", "; ")
        return f"{self.began:.4f} to {self.ended:.4f}: {words}: {self.status} {shortened(self.said)}"

    def found_steps(self):
        """The commands of a run that stands for several, as far as it has acknowledged them."""
        lines = self.said.splitlines()
        if self.command.startswith("script"):
            pieces = re.findall(r"(?ms).*?^(?:ok|refused) \d+\n", self.said)
            return [lambda k=k, it=it: self.does_line(k, it) for k, it in enumerate(pieces)]
        if self.status not in (0, 3):
            return []
        if self.command.startswith("keep") and "--dry-run" not in self.command:
            names = [it.split("/")[-1] for it in lines if it.startswith("unlinked ")]
            return [lambda k=k: self.unlinks(k, names) for k in range(len(names))]
        if self.command == "type1 cleanup":
            return [lambda it=it: self.cleans(it) for it in lines if it.startswith("unlinked ")]
        if self.command.startswith("type1 install"):
            return [lambda it=it: self.puts(it.split()[-1]) for it in lines if it.startswith(("placed ", "installed "))]
        return []

    def does_whole(self):
        return self.crowd.says(self.command) == (self.status, self.said)

    def does_line(self, number, piece):
        line = self.command.splitlines()[1 + number]
        return self.crowd.says("script\n" + "#\n" * number + line + "\n")[1] == piece

    def unlinks(self, number, names):
        if number == 0:
            doomed = re.findall(r"would unlink \S*/(\S+)", self.crowd.says(self.command + " --dry-run")[1])
            if doomed[: len(names)] != names or self.status == 0 and doomed != names:
                return False
        return self.crowd.says(f"bootctl unlink {names[number]}")[0] == 0

    def cleans(self, line):
        path = f"{self.crowd.model}{line.split()[1]}"
        if os.path.basename(path) in names_in_entries(files_of(self.crowd.model)):
            return False
        if os.path.exists(path):
            os.remove(path)
        return True

    def puts(self, path):
        data = self.crowd.known[path.lstrip("/") if path.endswith(".conf") else os.path.basename(path), self.command]
        write_files({path.lstrip("/"): data}, self.crowd.model)
        return all(os.path.exists(f"{self.crowd.model}/efi/boot_tools/{it}") for it in names_in_entries({path: data}))


class Crowd:
    """Three rows of runs side by side, again and again, each row without a pause. Behind them some order of all their
    commands must be found that agrees with the times: with it the program says the same and leaves the same files."""

    PARTS = ["--linux=in/kernel --initrd=in/initrd", "--linux=in/kernel", "--linux=in/initrd --initrd=in/new.efi"]
    NAMES = ["one", "two", "new", "old"]
    LENGTH, LIMIT = 5, 1500
    WORDS = [
        *["boot", "bootctl list", "type1 cleanup", "type1 install {name} {parts}", "bless good {path}"] * 2,
        *["bless bad {path}", "bless status {path}", "bless indeterminate {path}", "bootctl unlink {entry}", "tidy"],
        *["install {image} {name}", "install {image} {name} --tries=2", "keep {number}", "keep {number} --dry-run"],
        *["loader show", "loader set-default {name}*", "loader set-timeout {number}"],
        *["bootctl kernel-identify {image}", "{build} --output=out.efi", "{build} --output=second.efi"],
        *["{build} --output=efi/EFI/Linux/{name}.efi"],
        *["ukify inspect {image}", "measure image {image} --bank=sha256 --phase=", COMMANDS["calculate"], "script"],
    ]

    def __init__(self, program, stopper, room, seed):
        self.program, self.stopper, self.room = program, stopper, room
        self.some, self.at, self.model = random.Random(seed), f"{room}/at", f"{room}/model"
        self.runs = self.held = self.unsettled = self.tried = 0
        self.wrong, self.known, self.seen, self.wanted = [], {}, set(), {}
        self.start = start_files(300)
        self.learn()

    def learn(self):
        """The files that commands write, by running each alone."""
        images = [self.start[it] for it in self.start if it.endswith(".efi")]
        for part in ("kernel", "initrd"):
            self.put_back(self.model, self.start)
            self.says(f"{BUILD} --linux=in/{part} --output=out.efi")
            images.append(files_of(self.model)["out.efi"])
        self.texts = {self.start[it] for it in self.start if it.endswith(".conf")}
        for words in [f"type1 install {name} {parts}" for name in self.NAMES for parts in self.PARTS]:
            self.put_back(self.model, self.start)
            self.says(words)
            for path, data in files_of(self.model).items():
                if path.startswith(("efi/loader/entries/", "efi/boot_tools/")):
                    self.known[path if path.endswith(".conf") else os.path.basename(path), words] = data
                    self.texts |= {data} if path.endswith(".conf") else set()
        self.images = set(images)
        self.put_back(self.at, self.start)

    def put_back(self, folder, files):
        """Makes a folder of these files, and puts it in the place of the one that is there."""
        write_files(files, f"{self.room}/made")
        if os.path.exists(folder):
            os.rename(folder, f"{self.room}/gone")
        os.rename(f"{self.room}/made", folder)
        shutil.rmtree(f"{self.room}/gone", ignore_errors=True)

    def says(self, command):
        """The status and the words of a command that runs alone on the model's files."""
        words, _, lines = command.partition("\n")
        ran = subprocess.run(
            [self.program, *words.split()], cwd=self.model, input=lines.encode(), stdout=-1, stderr=-2, check=False
        )
        return ran.returncode, ran.stdout.decode(errors="replace")

    def some_command(self, entries, plain=False):
        words = self.some.choice(self.WORDS[:-1] if plain else self.WORDS)
        if words == "script":
            lines = [self.some_command(entries, True) for _ in range(3)]
            return "script\n" + "".join(f"{it}\n" for it in lines if not re.match("type1|keep", it))
        path = self.some.choice(entries or ["EFI/Linux/none.efi"])
        pick = {"path": path, "entry": os.path.basename(path), "number": self.some.randrange(3, 6)}
        pick |= {"name": self.some.choice(self.NAMES), "parts": self.some.choice(self.PARTS)}
        pick["image"] = self.some.choice(["in/new.efi", "in/other.efi", "in/top.efi", "out.efi"])
        pick["build"] = f"{BUILD} --linux=in/{self.some.choice(['kernel', 'initrd'])}"
        return words.format(**pick)

    def make_rows(self):
        """Makes three rows of runs at once."""
        files = files_of(self.at)
        entries = [it.removeprefix("efi/") for it in files if re.match("efi/(EFI/Linux|loader/entries)/", it)]
        rows = [[self.some_command(entries) for _ in range(self.LENGTH)] for _ in range(3)]
        processes = []
        for number, row in enumerate(rows):
            words = []
            for place, command in enumerate(row):
                given, said = [f"{self.room}/{it}{number}{place}" for it in ("given", "said")]
                for path, text in (given, command.partition("\n")[2]), (said, ""):
                    with open(path, "w", encoding="ascii") as file:
                        file.write(text)
                words += [self.at, given, said, self.program, *command.partition("\n")[0].split(), "--"]
            processes.append(subprocess.Popen([self.stopper, "row", *words], stdout=-1))
        return [
            [self.made(row[place], line.split(), f"{number}{place}") for place, line in enumerate(told.splitlines())]
            for number, (row, told) in enumerate((row, it.communicate()[0]) for row, it in zip(rows, processes))
        ]

    def made(self, command, times, place):
        with open(f"{self.room}/said{place}", encoding="utf-8", errors="replace") as file:
            return Made(self, command, int(times[2]), file.read(), float(times[0]), float(times[1]))

    def go_on(self):
        """One more time three rows, and whether they are right."""
        if self.some.random() < 0.1:
            self.put_back(self.at, self.start)
        before, left = files_of(self.at), left_in(self.at)
        rows = self.make_rows()
        count = sum(it.status == 3 for row in rows for it in row)
        self.runs += sum(len(row) for row in rows)
        self.held += count
        new = left_in(self.at) - left
        subprocess.run([self.program, "bootctl", "list"], cwd=self.at, stdout=-1, stderr=-1, check=False)
        is_left = bool(new) if count == 0 else os.path.exists(f"{self.at}/{INTENT}")
        self.put_back(self.model, before)
        self.tried, self.seen, self.wanted = 0, set(), boot_files(files_of(self.at))
        is_found = self.has_order(rows, ((0, 0),) * 3)
        self.unsettled += not is_found and self.tried > self.LIMIT
        if is_left or not is_found and self.tried <= self.LIMIT:
            lines = [f"{number}: {it}" for number, row in enumerate(rows, 1) for it in row]
            self.wrong.append("\n        ".join([f"left: {sorted(new)}" if is_left else "no order", *lines]))
            self.put_back(self.at, self.start)

    def has_order(self, rows, places):
        """Whether an order is found for what is left of the rows."""
        ahead = [(n, rows[n][run], step) for n, (run, step) in enumerate(places) if run < len(rows[n])]
        files = files_of(self.model)
        if not ahead:
            return boot_files(files) == self.wanted
        key = places, hash(frozenset(files.items()))
        if key in self.seen or self.tried > self.LIMIT:
            return False
        self.seen.add(key)
        for number, made, step in sorted(ahead, key=lambda it: it[1].ended):
            if any(other.ended < made.began for _, other, _ in ahead):
                continue
            for does, next_step in self.ways(made, step):
                self.tried += 1
                run = places[number][0]
                place = (run, next_step) if next_step else (run + 1, 0)
                if does() and self.has_order(rows, (*places[:number], place, *places[number + 1 :])):
                    return True
                self.put_back(self.model, files)
        return False

    @staticmethod
    def ways(made, step):
        """How a run goes on at a step: what it does, and the step behind it, or 0 at its end."""
        if step == 0 and made.status != 3:
            yield made.does_whole, 0
        if made.steps:
            yield made.steps[step], step + 1 if step + 1 < len(made.steps) else 0
        elif made.status == 3 and not made.said or made.said == "nothing to clean\n":
            yield lambda: True, 0


def look_on(crowd, ended, found):
    """Reads all entries of a crowd's folder and what they name, until that is ended. It tells of each fault once."""
    told = set()
    while not ended.is_set():
        for fault in set(faults_in(crowd)) - told:
            told.add(fault)
            found.put(fault)


def faults_in(crowd):
    """One look at all entries of a crowd's folder: what is wrong, in words."""
    for path in glob.glob(f"{crowd.at}/efi/loader/entries/*.conf") + glob.glob(f"{crowd.at}/efi/EFI/Linux/*.efi"):
        data, mark = read_marked(path)
        if data is None:
            continue
        if data not in (crowd.texts if path.endswith(".conf") else crowd.images):
            yield f"torn: {path}"
        for name in names_in_entries({path: data}):
            payload, _ = read_marked(f"{crowd.at}/efi/boot_tools/{name}")
            if payload is None and mark == read_marked(path)[1]:
                yield f"an entry without a file that it names: {path}, {name}"
            if payload is not None and hashlib.sha256(payload).hexdigest() != name:
                yield f"torn: {name}"
    data, _ = read_marked(f"{crowd.at}/efi/loader/loader.conf")
    if data is not None and not re.fullmatch(rb"(timeout \d\n|default \w+\*\n){1,2}", data):
        yield f"torn: loader.conf {data}"


def read_marked(path):
    """The bytes of a file, and what tells it from another one at its path; or None if nothing is there."""
    try:
        with open(path, "rb") as file:
            it = os.fstat(file.fileno())
            return file.read(), (it.st_ino, it.st_ctime_ns)
    except FileNotFoundError:
        return None, None


def crowd_for(task):
    """A crowd for so many seconds: its numbers of runs, of those that ended with 3, of times without a verdict, and
    what was wrong."""
    program, stopper, room, seed, seconds = task
    with tempfile.TemporaryDirectory(dir=room) as folder:
        crowd = Crowd(program, stopper, folder, seed)
        ended, found, faults = multiprocessing.Event(), multiprocessing.SimpleQueue(), []
        looker = multiprocessing.Process(target=look_on, args=(crowd, ended, found))
        looker.start()
        until = time.monotonic() + seconds
        while time.monotonic() < until and len(crowd.wrong) + len(faults) < 20:
            crowd.go_on()
            while not found.empty():
                faults.append(found.get())
        ended.set()
        looker.join()
        return crowd.runs, crowd.held, crowd.unsettled, faults, crowd.wrong


def crowds(args, room):
    """Some crowds side by side; the status."""
    stopper, some = compile_program("stopper", room), random.Random(args.seed)
    many = max(1, args.jobs // 2)
    tasks = [(os.path.abspath(args.program), stopper, room, some.random(), args.seconds) for _ in range(many)]
    with concurrent.futures.ProcessPoolExecutor(many) as pool:
        ended = list(pool.map(crowd_for, tasks))
    runs, held, unsettled = [sum(it[n] for it in ended) for n in range(3)]
    faults, wrong = [sum((it[n] for it in ended), []) for n in (3, 4)]
    print(f"{runs} runs, {held} ended with 3, which is {100 * held / max(runs, 1):.1f} of 100 (at most 7 wanted)")
    print(f"{len(faults)} faults seen by who looked on")
    print(f"{len(wrong)} times of no order, {unsettled} times without a verdict")
    print("".join(f"    {it}\n" for it in faults[:20] + wrong[:10]), end="")
    return 1 if faults or wrong or held > 0.07 * runs else 0
