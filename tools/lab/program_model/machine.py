"""The machine: its files, and what each command makes of them."""
import hashlib
import re

from lab.intents import INTENT
from lab.program_model.building import image_of, joined_initrds, merged_sbat
from lab.program_model.demo import demo
from lab.program_model.json_text import json_line
from lab.program_model.menu import Entry, counted, counter_of, image_entry, text_entry
from lab.program_model.paths import folders, path, path_of
from lab.program_model.pcr_values import MEASURED, told_values, value_lines
from lab.program_model.pe_files import NotPe, Pe, shown
from lab.program_model.refusals import LIMIT, Refused, Usage
from lab.program_model.texts import is_timeout, loader_values, pattern_of, with_key
from lab.program_model.words import PARTS, SEVERAL, read_words, split_line

# The texts of an entry with payloads, in the order of its lines; the payloads stand before the last one.
FIELDS = ["title", "version", "machine-id", "sort-key", "options"]


class Machine:
    """A machine's files, what each command makes of them, and the moments at which a run may be stopped."""

    def __init__(self, files):
        self.files = dict(files)

    def size_checked(self, place):
        """The file's bytes, or the refusal that it isn't there or is too large."""
        if place not in self.files:
            raise Refused(1, f"/{place} is not there")
        if len(self.files[place]) > LIMIT:
            raise Refused(3, f"/{place} has {len(self.files[place])} bytes")
        return self.files[place]

    def image(self, word):
        place = path(word)
        data = self.size_checked(place)
        try:
            return place, data, Pe(data)
        except NotPe as reason:
            raise Refused(4, reason)

    def names(self, folder):
        start = folder + "/"
        return [name[len(start):] for name in self.files if name.startswith(start) and "/" not in name[len(start):]]

    def menu(self, esp):
        texts, images = folders(esp)
        found = [(texts, name) for name in self.names(texts) if name.endswith(".conf")]
        found += [(images, name) for name in self.names(images) if name.endswith(".efi")]
        if len(found) > 4096:
            raise Refused(18, f"{len(found)} entries")
        entries = []
        for folder, name in found:
            place = path_of(f"{folder}/{name}")
            data = self.files[place] if place else b""
            if place and folder == texts:
                entries.append(text_entry(place, data))
            elif place and len(data) <= LIMIT:
                try:
                    entries.append(image_entry(place, data))
                except NotPe:
                    continue
        entries = sorted((one for one in entries if isinstance(one, Entry)), key=Entry.order)
        if not entries:
            raise Refused(13, "no entries")
        return entries

    # Each command takes its operands and its options, and gives its reply.

    def ukify_build(self, operands, options):
        def last(name):
            return options[name][-1] if name in options else None

        def source(text):
            """A text, or the path of the file that holds it."""
            return path(text[1:]) if text.startswith("@") else text.encode("latin-1")

        def sources_of(name, option):
            """What an option's values name, each with the name of its section."""
            values = options.get(option, [])
            if name is None:
                return [(section, source(text)) for section, text in sections]
            if name == ".initrd":
                return [(name, path(value)) for value in values]
            if name in (".dtb", ".splash", ".pcrpkey", ".ucode"):
                return [(name, path(value)) for value in values[-1:]]
            if name == ".cmdline" and values and not values[-1].startswith("@"):
                return [(name, b" ".join(filter(None, re.split(rb"[ \t\n\r\v\f]", values[-1].encode("latin-1")))))]
            return [(name, value.encode("latin-1") if name == ".uname" else source(value)) for value in values[-1:]]

        sections = []
        for value in options.get("--section", []):
            name, colon, text = value.partition(":")
            if not colon or not re.fullmatch(r"[!-9;-~]{1,8}", name) or name == ".sbat":
                raise Refused(8, f"{name} is not a section name")
            sections.append((name, text))
        stub, kernel = path(last("--stub")), path(last("--linux"))
        sources = [sources_of(name, option) for name, option, _ in PARTS[:-1]]
        output = path(last("--output"))
        stub_bytes, kernel_bytes = self.size_checked(stub), self.size_checked(kernel)
        contents = [[(name, of if isinstance(of, bytes) else self.size_checked(of)) for name, of in group] for group in sources]
        try:
            pe = Pe(stub_bytes)
        except NotPe as reason:
            raise Refused(4, reason)
        parts, given = [], b""
        for (name, _, _), group in zip(PARTS, contents):
            if name == ".initrd":
                parts.append((name, joined_initrds([content for _, content in group])))
            elif name == ".sbat":
                given = group[0][1] if group else b""
            else:
                parts += group
        sbat = merged_sbat(pe.loaded(".sbat"), kernel_bytes, given)
        image = image_of(stub_bytes, [*parts, (".linux", kernel_bytes)], sbat, output)
        self.files[output] = image
        reply = f"built /{output}, {len(image)} bytes\n"
        return reply + (value_lines(Pe(image).loaded, [], []) if "--measure" in options else "")

    def ukify_inspect(self, operands, options):
        place, data, pe = self.image(operands[0])
        told = [(shown(one.name), one.loaded(data)) for one in pe.sections]
        rows = [{"name": name, "size": len(loaded), "sha256": hashlib.sha256(loaded).hexdigest()} for name, loaded in told]
        if "--json" in options:
            return json_line(rows)
        lines = [f"{row['name']}:\n  size: {row['size']} bytes\n  sha256: {row['sha256']}\n" for row in rows]
        return f"/{place}: {len(rows)} sections\n" + "".join(lines)

    def measure_calculate(self, operands, options):
        words = {row[2]: row[0] for row in PARTS if row[2]}
        given = {name: path(options[word][-1]) for word, name in sorted(words.items(), key=lambda it: MEASURED.index(it[1])) if word in options}
        parts = {name: self.size_checked(place) for name, place in given.items()}
        return told_values(lambda name: parts.get(name, b""), options)

    def measure_image(self, operands, options):
        return told_values(self.image(operands[0])[2].loaded, options)

    def bootctl_kernel_identify(self, operands, options):
        try:
            pe = Pe(self.size_checked(path(operands[0])))
        except NotPe:
            return "unknown\n"
        return "uki\n" if pe.loaded(".linux") and pe.loaded(".osrel") else "pe\n"

    def bootctl_list(self, operands, options):
        menu = self.menu(esp_of(options))
        return json_line([entry.value() for entry in menu]) if "--json" in options else "\n".join(entry.record() for entry in menu)

    def bootctl_unlink(self, operands, options):
        name, esp = operands[0], path(esp_of(options))
        if "/" in name or "\0" in name or len(name) > 255 or not name.endswith((".conf", ".efi")):
            raise Refused(12, f"{name} is not a name")
        place = path(f"{esp}/{'loader/entries' if name.endswith('.conf') else 'EFI/Linux'}/{name}")
        if place not in self.files:
            raise Refused(1, f"/{place} is not there")
        del self.files[place]
        return f"unlinked /{place}\n"

    def tidy(self, operands, options):
        for folder in folders(esp_of(options)):
            for name in self.names(folder):
                if name.endswith(".tmp"):
                    del self.files[f"{folder}/{name}"]
        return "cleaned\n"

    def install(self, operands, options):
        word, name = operands
        if not re.fullmatch(r"[A-Za-z0-9._~^+-]{1,128}", name) or name.startswith(".") or counter_of(name + ".efi"):
            raise Refused(12, f"{name} is not a name")
        tries = options["--tries"][-1] if "--tries" in options else None
        if tries is not None and (not re.fullmatch(r"[0-9]{1,9}", tries) or int(tries) == 0):
            raise Refused(19, f"{tries} is not a number here")
        place = path(word)
        esp = path(esp_of(options))
        target = path(f"{esp}/EFI/Linux/{name}{'' if tries is None else f'+{int(tries)}'}.efi")
        data = self.size_checked(place)
        try:
            entry = image_entry(target, data)
        except NotPe as reason:
            raise Refused(4, reason)
        if isinstance(entry, str):
            raise Refused(11, f"no {entry}")
        self.files[target] = data
        return f"installed /{target}\n"

    def type1_install(self, operands, options):
        """The commands that put the payloads of an entry in their place, and then write it."""
        name, given = operands[0], {key: options[f"--{key}"][-1] for key in FIELDS if f"--{key}" in options}
        if not re.fullmatch(r"[A-Za-z0-9._~^+-]{1,128}", name) or name.startswith(".") or counter_of(name + ".conf"):
            raise Refused(12, f"{name} is not a name")
        for value in given.values():
            if not 1 <= len(value) <= 1024 or re.search(r"[\0-\x1f\x7f]", value) or value != value.strip(" "):
                raise Refused(21, f"{value} is not a value")
        words = [options["--linux"][-1], *options.get("--initrd", [])]
        if len(words) > 65:
            raise Refused(23, f"{len(words) - 1} initrds")
        sources = [path(word) for word in words]
        esp = path(esp_of(options))
        folder = path(f"{esp}/boot_tools/{'0' * 64}").rpartition("/")[0]
        target = path(f"{esp}/loader/entries/{name}.conf")
        for source in sources:
            if source.rpartition("/")[0] == folder:
                raise Refused(22, f"/{source} is a payload")
        digests = [hashlib.sha256(self.size_checked(source)).hexdigest() for source in sources]
        lines = [f"{key} {given[key]}" for key in FIELDS[:-1] if key in given]
        lines += [f"{'initrd' if index else 'linux'} /boot_tools/{digest}" for index, digest in enumerate(digests)]
        lines += [f"options {given['options']}"] if "options" in given else []
        text = "".join(line + "\n" for line in lines).encode("latin-1")
        return [*(("placed", f"{folder}/{digest}", self.files[source]) for source, digest in zip(sources, digests)), ("installed", target, text)]

    def type1_cleanup(self, operands, options):
        """The commands that remove the payloads that no entry names. Temporary files beside payloads go first."""
        esp = esp_of(options)
        folders(esp)
        folder = path(f"{path(esp)}/boot_tools/{'0' * 64}").rpartition("/")[0]
        try:
            entries = self.menu(esp)
        except Refused as refusal:
            if refusal.number != 13:
                raise
            entries = []
        values = [value for entry in entries for key in ("linux", "efi", "initrd") for value in listed(entry.fields.get(key))]
        named = {path_of(f"{path(esp)}/{value}") for value in values if path_of(value) is not None}
        for name in self.names(folder):
            if re.fullmatch(r"[0-9a-f]{64}\.tmp", name):
                del self.files[f"{folder}/{name}"]
        return [("unlinked", f"{folder}/{name}", None) for name in sorted(self.names(folder))
                if re.fullmatch(r"[0-9a-f]{64}", name) and f"{folder}/{name}" not in named] or "nothing to clean\n"

    def keep(self, operands, options):
        """The commands that remove the entries that go, or what is told of them."""
        word = operands[0]
        if not re.fullmatch(r"[0-9]{1,9}", word) or int(word) == 0:
            raise Refused(19, f"{word} is not a number here")
        menu, groups = self.menu(esp_of(options)), {}
        for entry in menu:
            groups.setdefault(entry.sort_key if "--per-key" in options else None, []).append(entry)
        kept = []
        for group in groups.values():
            first, later = group[:int(word)], group[int(word):]
            good = [entry for entry in later if not entry.counter]
            kept += first + (good[:1] if all(entry.counter for entry in first) else [])
        doomed = [entry.path for entry in reversed(menu) if entry not in kept]
        if "--dry-run" in options and doomed:
            return "".join(f"would unlink /{place}\n" for place in doomed)
        return [("unlinked", place, None) for place in doomed] or "nothing to remove\n"

    def boot(self, operands, options):
        entry = self.menu(esp_of(options))[0]
        if not entry.counter or entry.counter[2] == 0:
            return f"booted /{entry.path}\n"
        base, suffix, left, done = entry.counter
        target = path(f"{entry.path.rpartition('/')[0]}/{counted(base, suffix, left - 1, min(done + 1, 999_999_999))}")
        if target in self.files:
            raise Refused(14, f"/{target} is there already")
        self.files[target] = self.files.pop(entry.path)
        return f"booted /{target}\n"

    def bless(self, verb, operands, options):
        esp = path(esp_of(options))
        place = path(f"{esp}/{operands[0]}")
        if place == esp:
            raise Refused(2, f"{esp}/{operands[0]} is not a path")
        folder, _, name = place.rpartition("/")
        counter = counter_of(name)
        if not counter:
            raise Refused(15, f"/{place} has no counter")
        base, suffix, left, done = counter
        if counter_of(base + suffix):
            raise Refused(12, f"{name} is not a name")
        good, bad = f"{folder}/{base}{suffix}", f"{folder}/{counted(base, suffix, 0, done)}"
        if verb == "status":
            for kind, one in (("indeterminate", place), ("good", good), ("bad", bad)):
                if one in self.files:
                    return kind + "\n"
            raise Refused(16, f"nothing to bless at /{place}")
        target, sources = {"good": (good, (place, bad)), "bad": (bad, (place, good)), "indeterminate": (place, (good, bad))}[verb]
        if target in self.files:
            return f"{verb} /{target}, nothing to do\n"
        for one in sources:
            if one in self.files:
                self.files[target] = self.files.pop(one)
                return f"{verb} /{target}\n"
        raise Refused(16, f"nothing to bless at /{place}")

    def loader_file(self, esp):
        place = path(f"{path(esp)}/loader/loader.conf")
        data = self.files.get(place, b"")
        if len(data) > 65_536:
            raise Refused(3, f"/{place} has {len(data)} bytes")
        return place, data

    def loader_show(self, operands, options):
        esp = esp_of(options)
        folders(esp)
        default, timeout = loader_values(self.loader_file(esp)[1])
        entries, pattern = self.menu(esp), None if default is None else pattern_of(default)
        matching = [one for one in entries if pattern is not None and re.fullmatch(pattern, one.id, re.S)]
        entry = (matching or entries)[0]
        return f"chosen {entry.id}\nsource /{entry.path}\ntimeout {timeout if timeout is not None else 'none'}\n"

    def loader_set(self, key, value, options):
        place, data = self.loader_file(esp_of(options))
        changed = with_key(data, key, value)
        if len(changed) > 65_536:
            raise Refused(3, f"/{place} has {len(changed)} bytes")
        self.files[place] = changed
        return f"{key} {value}\n"

    def loader_set_default(self, operands, options):
        value = operands[0]
        if not re.fullmatch(r"[!-~]{1,255}", value) or value.startswith("@") or pattern_of(value) is None:
            raise Refused(20, f"{value} is not a pattern")
        return self.loader_set("default", value, options)

    def loader_set_timeout(self, operands, options):
        if not is_timeout(operands[0]):
            raise Refused(19, f"{operands[0]} is not a number here")
        return self.loader_set("timeout", operands[0], options)

    def demo(self, operands, options):
        for word, limit in zip(operands, ((1 << 64) - 1, 10_000)):
            if not re.fullmatch(r"[0-9]{1,20}", word) or int(word) > limit:
                raise Refused(19, f"{word} is not a number here")
        return demo(*map(int, operands))

    def recovered(self):
        """The files after each step by which a rename is finished that the intent tells of, as before a run's first command."""
        intent = self.files.get(INTENT)
        if intent is None:
            return
        found = re.fullmatch(r"([^\0]*)\0([^\0]*)\0", intent.decode("latin-1"))
        names = found.groups() if found and found[1] != found[2] else ()
        if names and all(path_of(one) == one and one in self.files for one in names):
            yield {name: data for name, data in self.files.items() if name != names[0]}
        yield {name: data for name, data in self.files.items() if name != INTENT}

    def passes(self, cause):
        """Keeps a moment: how many commands are acknowledged, the files, and where a call may fail then: "disk", "pipe" or None."""
        self.moments.append((self.acknowledged, dict(self.files), cause))

    def passes_change(self, command, before):
        """The moments of a command's change. A rename of a boot file has an intent beside it, and may be left half done."""
        after = self.files
        if after != before and command[0] in ("boot", "bless"):
            (old,), (new,) = before.keys() - after.keys(), after.keys() - before.keys()
            intent = {INTENT: f"{old}\0{new}\0".encode("latin-1")}
            for self.files, cause in (({**before, **intent}, "disk"), ({**before, **after, **intent}, None), ({**after, **intent}, "disk")):
                self.passes(cause)
        self.files = after
        self.passes("disk")

    def reply(self, command, operands, options):
        """The reply on standard output and on standard error, and the number of the refusal, or 0."""
        self.passes("disk")
        for self.files in self.recovered():
            self.passes("disk")
        before = dict(self.files)
        try:
            if command[0] == "bless":
                answer = self.bless(command[1], operands, options), "", 0
            else:
                answer = getattr(self, "_".join(command).replace("-", "_"))(operands, options), "", 0
        except Refused as refusal:
            answer = "", str(refusal), refusal.number
        self.passes_change(command, before)
        return answer

    def several(self, command, operands, options):
        """What a command comes to that stands for others, each with a reply of its own, or that has a text of its own."""
        self.passes("disk")
        for self.files in self.recovered():
            self.passes("disk")
        try:
            steps = getattr(self, "_".join(command))(operands, options)
        except Refused as refusal:
            self.prints()
            return "", str(refusal), 1
        if isinstance(steps, str):
            self.prints()
            return steps, "", 0
        for verb, place, data in steps:
            self.passes("disk")
            self.files = {name: content for name, content in self.files.items() if name != place}
            if data is not None:
                self.files[place] = data
            self.passes("disk")
            self.prints()
        return "".join(f"{verb} /{place}\n" for verb, place, _ in steps), "", 0

    def prints(self):
        """The moments about a reply and its acknowledgement."""
        self.passes("pipe")
        self.acknowledged += 1
        self.passes("pipe")

    def script(self, data):
        self.passes("pipe")
        if len(data) > 1_048_576:
            return "", "refusal 3: standard input has 1048577 bytes\n", 1
        out, err, status = [], [], 0
        for number, line in enumerate(data.split(b"\n"), 1):
            if not line or line.startswith(b"#"):
                continue
            try:
                line.decode()
                words = split_line(line.decode("latin-1"))
                command, operands, options = read_words(words if words is not None else ["'"])
                if command in (("script",), ("demo",), *SEVERAL):
                    raise Usage("in a script")
                told, failed, refusal = self.reply(command, operands, options)
            except (UnicodeDecodeError, Usage):
                told, failed, refusal = "", f"refusal 17: line {number} is not a command\n", 17
            self.prints()
            out.append(told + (f"refused {number}\n" if refusal else f"ok {number}\n"))
            err.append(failed)
            status = 1 if refusal else status
        return "".join(out), "".join(err), status

    def run(self, words, data):
        """What a run prints on standard output and on standard error, and its status. Its moments are kept."""
        self.moments, self.acknowledged = [], 0
        try:
            command, operands, options = read_words(words)
        except Usage as reason:
            self.prints()
            return "", f"usage: {reason}\n", 2
        if command == ("script",):
            return self.script(data)
        if command in SEVERAL:
            return self.several(command, operands, options)
        told, failed, refusal = self.reply(command, operands, options)
        self.prints()
        return told, failed, 1 if refusal else 0


def listed(value):
    """The values of a key that may be there once, more often or not at all."""
    return value if isinstance(value, list) else [] if value is None else [value]


def esp_of(options):
    return options.get("--esp-path", ["efi"])[-1]
