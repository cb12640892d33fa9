"""Peers of comparable protection: ISA-L's Reed-Solomon codes beside the library, and SnapRAID's own test."""
import re
import shutil
import subprocess

from tables import figures, prose, shown, table
from timing import SIZES

CASES = [(v, k, g, u) for v, k, g in ((13, 4, 11), (21, 5, 11)) for u in SIZES]
CODES = {"rs6+3": (6, 3), "rs10+4": (10, 4)}
NAMES = {"library": "Himzolven", "rs6+3": "RS 6+3", "rs10+4": "RS 10+4"}
ABOUT = """
Reed-Solomon codes of ISA-L (`ec_encode_data`, Cauchy matrix), n disks of data and m of parity, beside the library in one process,
batch by batch (`bench/peers.c`). Before any timing every code restores its first 1 to m disks, and a changed stripe has the
parities of a freshly encoded one. ISA-L is given the places and checks nothing; the library checks the design in every call.
"""
LAYOUT = """
What each layout is, by counting. Capacity: user bytes over all bytes. Read for one disk: bytes read for each byte restored.
Disks read, and most of one disk: how many surviving disks are read for one, and the largest share of one of them, ours from the
plan (of a disk in the lost one's group, and in another group). RS n+m must read as much as n disks hold from its n+m-1
survivors: n of them whole, or n/(n+m-1) of each where stripes take turns.
"""
TIMES = """
Times from memory. Small write: u bytes of one data unit and its parities, ns; the library's less the same call refused, which
is its check and map and has a column of its own; the codes' the difference, the copy and `ec_encode_data_update`. Rebuild: ns
for each byte restored, of one disk and of three (ours of one group; the first data disks of a code), flushed out of the caches
before; the library's with its check and its marks, the disks of all as long. A code's stripes lie side by side on a disk; the
units that ours reads lie apart. Encode: GB/s of data: whole stripes by a code, in order; the library has no call for a stripe,
so its figure is of single writes in order, each with its check and four units. Hot: one stripe, or one unit, again and again.
"""
SNAPRAID = """
SnapRAID's own test (`snapraid -T`, {version}): parity generated from {buffers}, in memory, GB/s of data with the fastest code
for this processor, by the clock, so too low on a busy machine. It is not the same work: one pass over data that the caches may
hold, all of it known at once. The nearest of ours are the audit, which XORs every unit into its sets, in GB/s of the array at
the fastest geometry, and the encoding above.
"""


class Case:
    """What one run of target/peers told."""

    def __init__(self, say, case):
        self.v, self.k, self.g, self.u = case
        self.told = figures(say("target/peers", *case))
        self.head = [self.v, self.g, self.u]

    def write(self, name):
        off = self.told["write", "memory", "refused"]
        return self.told["write", "memory", name] - off

    def rebuild(self, lost, name):
        return self.told[lost, "memory", name] / self.told["moved", lost, "written"]

    def encode(self, where, name):
        data = self.u if name == "library" else self.told["data", "encode", name]
        return data / self.told["encode", where, name]

    def read(self, lost):
        return self.told["moved", lost, "read"] / self.told["moved", lost, "written"]


def layout_rows(cases):
    for c in {c.v: c for c in cases}.values():
        units = (c.v - 1) // (c.k - 1) * c.g
        most = " and ".join(f"{c.told['plan', where, 'units'] / units:.3f}" for where in ("own", "other"))
        capacity = (c.k - 1) * (c.g - 1) / (c.k * c.g)
        yield [f"Himzolven, v = {c.v}, k = {c.k}, g = {c.g}", c.v * c.g, "any 3, or a group", f"{capacity:.3f}", 4,
               f"{c.read('one'):.2f}", f"{c.read('three'):.2f}", f"{c.told['plan', 'any', 'disks']:.0f}", most]
    for name, (n, m) in CODES.items():
        yield [NAMES[name], n + m, f"any {m}", f"{n / (n + m):.3f}", 1 + m, f"{n:.2f}", f"{n / 3:.2f}",
               f"{n}, or {n + m - 1}", f"1, or {n / (n + m - 1):.3f}"]


def time_rows(cases):
    for c in cases:
        write = [f"{c.told['write', 'memory', 'refused']:.0f}"] + [f"{c.write(name):.0f}" for name in NAMES]
        yield c.head + write + [f"{c.rebuild(lost, name):.3f}" for lost in ("one", "three") for name in NAMES]


def encode_rows(cases):
    for c in cases:
        yield c.head + [f"{c.encode(where, name):.2f}" for where in ("memory", "hot") for name in NAMES]


def snapraid(tell):
    """Its best code and GB/s for 1 to 3 parities, with what it says of its buffers; None where it tells nothing."""
    if not shutil.which("snapraid"):
        return None
    tell("snapraid -T ..")
    told = subprocess.run(["snapraid", "-T"], capture_output=True, text=True).stdout
    ends, rows = {}, {}  # a column has 8 places and ends where its head does
    for line in told.splitlines():
        words = line.split()
        if words[:1] == ["best"]:
            ends = {m[0]: m.end() for m in re.finditer(r"\S+", line)}
        elif len(words) > 2 and re.fullmatch("gen[123]", words[0]) and words[1] in ends:
            best = line[ends[words[1]] - 8:ends[words[1]]].strip()
            rows[int(words[0][3:])] = words[1], float(best) / 1000 if best.isdigit() else None
    buffers = re.search(r"using (.+?), for a total", told)
    return {"rows": rows, "buffers": buffers[1] if buffers else "its buffers", "version": version()} if rows else None


def version():
    """Of the package; SnapRAID itself does not always know it."""
    if not shutil.which("dpkg-query"):
        return ""
    packaged = subprocess.run(["dpkg-query", "-W", "-f", "${Version}", "snapraid"], capture_output=True, text=True)
    return packaged.stdout if packaged.returncode == 0 else ""


def snapraid_report(told, audits):
    if not told:
        return ["SnapRAID gave no figures: it is not installed, or its test prints another table."]
    rows = [[f"SnapRAID, parities: {n}", code, shown(rate)] for n, (code, rate) in told["rows"].items()]
    rows += [[f"Himzolven, audit {where}", "", shown(rate)] for where, rate in audits.items()]
    return [prose(SNAPRAID.format(**told)), "", *table(["work", "code", "GB/s"], rows)]


def ratios(cases, what, name):
    """(u, time of a code over the library's) for "write", "one", "three", or "rebuild" for both of these."""
    if what == "write":
        return [(c.u, c.write(name) / c.write("library")) for c in cases]
    losses = ("one", "three") if what == "rebuild" else (what,) if what in ("one", "three") else ()
    return [(c.u, c.rebuild(lost, name) / c.rebuild(lost, "library")) for c in cases for lost in losses]


def plotted(cases):
    """Groups of rows for the plot; nothing is asked."""
    def row(title, what, name):
        return title, {u: [x for size, x in ratios(cases, what, name) if size == u] for u in SIZES}, {}

    titles = {"write": "small write", "one": "rebuild of one disk", "three": "rebuild of three disks"}
    return [(f"Beside ISA-L's Reed-Solomon {n}+{m}", [row(title, what, name) for what, title in titles.items()])
            for name, (n, m) in CODES.items() if cases]


def heads(*columns, first=()):
    """Each column once for every name, and said at the first name."""
    names = list(NAMES.values())
    return ["v", "g", "u", *first] + [name for column in columns for name in [f"{column}: {names[0]}", *names[1:]]]


def report(cases, snap, audits):
    if not cases:
        without = "No Reed-Solomon code was measured: ISA-L is not installed, or there is too little memory."
        return [without, "", *snapraid_report(snap, audits)]
    layout = ["layout", "disks", "losses borne", "capacity", "units written by a small write", "read for one disk",
              "read for three", "disks read", "most of one disk"]
    out = [prose(ABOUT), "", prose(LAYOUT), "", *table(layout, layout_rows(cases)), "", prose(TIMES), ""]
    first = ["check and map, ns"]
    out += [*table(heads("small write, ns", "one disk, ns/B", "three, ns/B", first=first), time_rows(cases)), ""]
    return out + [*table(heads("encode, GB/s", "hot"), encode_rows(cases)), "", *snapraid_report(snap, audits)]
