"""The matrices of trials: which guests there are, what is told of them, and the tables."""
import itertools
import tempfile

from lab import before, counts, failing, killed, sectors, unsynced
from lab.guests import Host
from lab.host import compile_library
from lab.systems import STARTS
from lab.tables import sums, table, tell

WAYS = {"killed": killed, "failing": failing, "unsynced": unsynced, "before": before, "sectors": sectors}
WAYS["counts"] = counts
WORDS = ("fs", "start", "command", "case", "entries")  # of a job, those that its rows take
# What a guest may have to do.
DOERS = {name: way.rows for name, way in WAYS.items()}


def systems(args):
    """The file systems and the starts that are tried. What isn't FAT is tried with the starting folder on it."""
    for fs in args.fs:
        for start in args.start if fs != "ext4" else STARTS[:1]:
            yield fs, start


def run(name, args, script):
    """Tries a way. It gives the status."""
    way, rows = WAYS[name], []
    args.systems = list(systems(args))
    with tempfile.TemporaryDirectory(prefix="disk-moments-") as folder:
        common = {"do": name, "trap": compile_library("trap", folder)}
        number, count = args.share
        jobs = itertools.islice(way.jobs(args), number - 1, None, count)
        for job, them, seconds in Host(args, folder, script).ask_all(common | job for job in jobs):
            own = {word: job[word] for word in WORDS if word in job}
            what = ", ".join(map(str, own.values()))
            for it in them:
                it |= own
                tell(it, f"{what}: {way.where(it)}", args.all)
            rows += them
            broken = sum(bool(it["broken"]) for it in them)
            print(f"guest {name}, {what}: {len(them)} rows, {broken} broken, {seconds:.0f} s", flush=True)
    print(*(way.report(rows) if way is counts else tables(rows, way)), sep="\n")
    broken = sum(bool(it["broken"]) for it in rows)
    print(f"{len(rows)} rows, {broken} broken")
    return 1 if broken else 0


def tables(rows, way):
    """The lines behind the rows."""
    for by in way.BY:
        yield from table(rows, by, way.KINDS, way.OWN, "rows")
    yield from sums(rows, way.KINDS, way.OWN)
