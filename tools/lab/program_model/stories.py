"""Stories: what comes of each of their lines."""
import hashlib
import re
import sys

from lab.intents import INTENT
from lab.program_model.machine import Machine
from lab.program_model.paths import path_of
from lab.program_model.samples import samples, titled
from lab.program_model.words import split_line


def escaped(text):
    return re.sub(r"\\(n|x[0-9a-f]{2})", lambda it: "\n" if it[1] == "n" else chr(int(it[1][1:], 16)), text).encode("latin-1")


def printable(text):
    return "".join("\\\\" if c == "\\" else c if c == "\n" or " " <= c <= "~" else f"\\x{ord(c):02x}" for c in text)


def series(length):
    """So many bytes, which count from 0 to 250 again and again."""
    return (bytes(range(251)) * (length // 251 + 1))[:length]


class Stories:
    """What comes of the lines of stories, each from the machine that the lines before have left."""

    def __init__(self):
        self.begin(None)

    def begin(self, files):
        self.machine, self.samples, self.input, self.is_known = Machine(files or {}), files or {}, b"", True
        self.interrupted, self.known = [], dict.fromkeys(self.samples)

    def content(self, data):
        """What a file has: the sample with the same bytes, or a short text, or the digest of its bytes."""
        same = next((one for one, sample in self.samples.items() if sample == data), None)
        if same is not None:
            return f"= {same}"
        if len(data) <= 80:
            return '"' + printable(data.decode("latin-1")).replace("\n", "\\n") + '"'
        return f"{len(data)} bytes, sha256 {hashlib.sha256(data).hexdigest()}"

    def folder(self, machine, folder, temporary=True):
        rows = []
        for name in sorted(machine.names(folder)):
            if not name.endswith(".tmp"):
                rows.append(f"{name} {self.content(machine.files[f'{folder}/{name}'])}")
            elif temporary:
                rows.append(name)
        return rows

    def left(self, machine):
        """All files but temporary ones and samples in their own place, and the intent of a rename."""
        folders = ["efi/loader/entries", "efi/EFI/Linux", "efi/loader", "efi/boot_tools"]
        rows = [row for folder in folders for row in self.folder(machine, folder, False)]
        known = [name for name in self.known if name.rpartition("/")[0] not in folders]
        for name in known:
            data = machine.files.get(name)
            if data is None:
                rows.append(f"/{name} is gone")
            elif self.content(data) != f"= {name}":
                rows.append(f"/{name} {self.content(data)}")
        others = [name for name in machine.files if not name.endswith(".tmp") and name != INTENT and name not in known
                  and name.rpartition("/")[0] not in folders]
        rows += [f"{len(others)} more"] if others else []
        intent = f", with the intent {self.content(machine.files[INTENT])}" if INTENT in machine.files else ""
        return ("; ".join(rows) or "none") + intent

    def interruptions(self, verb, words):
        """What a stop or a fault of a run of these words may leave, by the moments that the run passes."""
        machine, told = Machine(self.machine.files), {}
        machine.run(split_line(words), self.input)
        for acknowledged, files, cause in machine.moments:
            if verb == "stops" or cause:
                fault = "" if verb == "stops" else ", status 3" if cause == "disk" else ", status 4"
                told.setdefault(f"{acknowledged} acknowledged{fault}: {self.left(Machine(files))}\n", files)
        self.interrupted = list(told.values())
        return "".join(told)

    def after(self, files, words):
        """What these words come to from these files."""
        machine = Machine(files)
        out, err, status = machine.run(split_line(words), self.input)
        return f"{printable(out)}{printable(err)}status {status}\nleft: {self.left(machine)}\n"

    def told(self, line):
        """What comes of a line, or None where the model doesn't say."""
        verb, _, rest = line.partition(" ")
        if verb == "machine":
            self.begin(samples(rest == "parts"))
            return ""
        if verb in ("stop", "fail"):
            self.is_known = False
        if verb == "reads" or not self.is_known:
            return None
        if verb in ("stops", "faults"):
            return self.interruptions(verb, rest)
        if verb == "then":
            return "".join(dict.fromkeys(self.after(files, rest) for files in self.interrupted))
        first, _, second = rest.partition(" ")
        made = self.made(verb, first, second)
        if made is not None:
            name = path_of(second if verb == "copy" else first)
            self.known[name] = None
            self.machine.files[name] = made
            return ""
        self.change(verb, rest, first, second)
        return self.answer(verb, rest, first, second)

    def made(self, verb, first, second):
        """The bytes of the file that a line makes, or None where it makes none."""
        if verb == "copy":
            return self.machine.files[path_of(first)]
        if verb == "write":
            return escaped(second)
        if verb == "image":
            return titled(escaped(second))
        if verb == "fill":
            count, byte = second.split(" ")
            return escaped(byte) * int(count)
        if verb == "series":
            return series(int(second))
        if verb == "extend":
            data = self.machine.files[path_of(first)]
            return data + series(int(second))[:max(0, int(second) - len(data))]
        return None

    def change(self, verb, rest, first, second):
        """Changes the input, or what is no file of a story by its name: the intent, a crowd, a temporary file."""
        files = self.machine.files
        if verb == "line":
            self.input += rest.encode("latin-1") + b"\n"
        elif verb == "input":
            self.input = files[path_of(rest)]
        elif verb == "intent":
            files[INTENT] = escaped(second).ljust(int(first), b"\0")
        elif verb == "crowd":
            count, suffix = second.split(" ")
            files.update({f"{path_of(first)}/a{index}{suffix}": b"" for index in range(int(count))})
        elif verb == "leave":
            files[path_of(rest) + ".tmp"] = b""

    def answer(self, verb, rest, first, second):
        """What a line tells, or nothing."""
        files = self.machine.files
        if verb == "run":
            data, self.input = self.input, b""
            out, err, status = self.machine.run(split_line(rest), data)
            return f"{printable(out)}{printable(err)}status {status}\n"
        if verb == "menu":
            out, _, _ = self.machine.run(["bootctl", "list"], b"")
            return "".join(row[14:] + "\n" for row in printable(out).split("\n") if row.startswith("      source: ")) or "none\n"
        if verb == "files":
            return "".join(row + "\n" for row in self.folder(self.machine, path_of(rest))) or "none\n"
        if verb == "same":
            return "yes\n" if files[path_of(first)] == files[path_of(second)] else "no\n"
        if verb == "text":
            text = files[path_of(rest)].decode("latin-1")
            return f"{printable(text)}{'' if not text or text.endswith(chr(10)) else chr(10)}{len(text)} bytes\n"
        if verb == "left":
            return self.left(self.machine) + "\n"
        if verb == "total":
            return f"{sum(not name.endswith('.tmp') for name in files)}\n"
        return ""


def below(stories, told):
    """What stands below each line of the stories in what was told of them."""
    rows, at = told.split("\n"), 0
    heads = [line if not line or line.startswith("#") else f"> {line}" for line in stories]
    for head, following in zip(heads, [*(heads[place:place + 2] for place in range(1, len(heads))), None]):
        if rows[at:at + 1] != [head]:
            sys.exit(f"told is {rows[at] if at < len(rows) else 'nothing'} in place of {head}")
        end = at + 1 if following else len(rows)
        while end < len(rows) and rows[end:end + (1 if following[0] else 2)] != following[:1 if following[0] else 2]:
            end += 1
        yield "".join(row + "\n" for row in rows[at + 1:end])
        at = end
