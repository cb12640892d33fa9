"""Times the byte calls beside C in one run: runs target/bytes for each case, and makes the tables."""
import re
from pathlib import Path

from tables import figures, prose, shown, span, table

SIZES = (512, 4096)
CASES = [(v, k, g, u) for v, k, g in ((7, 3, 3), (13, 4, 11), (21, 5, 11), (91, 10, 11), (91, 10, 13)) for u in SIZES]
LOSSES = ("one", "three", "2+1")
ROUNDS = 9
C = {"passes": "same passes", "fused": "fused C", "isal": "ISA-L"}
C_COPIED = {"passes": "same passes", "copied": "first copied", "fused": "fused C", "isal": "ISA-L"}
C_AUDIT = {"passes": "same passes", "inner": "inner sets first", "copied": "first copied", "fused": "fused C", "isal": "ISA-L"}
C_READ = {"memcpy": "memcpy", "narrow": "C by 16 bytes", "wide": "C by 64 bytes"}

ABOUT = f"""
Ratios are C time over library time from one run: above 1 the library is the faster. "Same passes": one source a pass through a
buffer, or into the restored unit; "fused": all units in one loop (`bench/contest.c`, gcc -O3, SSE2). From memory: arrays side
by side, together three times the last cache, on huge pages where the kernel gives them, visited in turn. Hot: one unit again
and again, or one array where it fits the second cache. The contestants run in turn, batch by batch; the figure is the median
batch of a round, in the quietest of {ROUNDS} rounds, in which all together took the least, in time of the thread. Before any
timing the contestants are compared: equal arrays after equal writes and after equal losses, equal audits after flipped bytes. A
share is the time that the bytes take at the memory limit over the call's time: for a write 4u bytes copied (it can pass 1:
memcpy reads what it overwrites), for an audit the array read once (most of it is in two sets), for a rebuild each source on a
present disk read once and each restored unit set once. Empty: not measured, or less than a twentieth of what was taken off.
"""
WRITE = """
Write of whole units at scattered user units, ns: an accepted write less the same call refused by the mark of its last disk. The C
contestants run after that refused call, and it is taken off them too.
"""
AUDIT = """
Audit of a formatted array, us, the design check included. C is given the places and checks nothing. Same passes: the buffer is
cleared, then every unit of a set is XORed into it; "first copied": the first unit is copied in instead, a pass fewer. C goes
through the sets by number, a tuple's outer ones first; the library reads its inner ones first, and "inner sets first" is C with
the same passes in that order.
"""
RUNS = """
Why inner sets first: a region's bytes lie in g runs, one a disk, and a row of labels in kg, which is 44, 55 and 110 at g = 11 and
v = 13, 21 and 91. What is read first comes from memory; the second time a tuple of 512-byte units is in the second cache. ns for
each byte that is read from memory row by row, 512 bytes of each run, by the number of runs (`bench/runs.c`, fused C):
"""
REBUILD = """
Rebuild of one disk, of three disks of one group, and of two of one group and one of another, us, the design check included. C
is given the places and checks nothing; it has the same two phases: first the passes over the flags of every tuple that a lost
disk touches, then those passes again, with the bytes by their log. (The library leaves the first phase out where at most three
disks are lost, as here.) Same passes, as of the audit: the unit is cleared, then every source is XORed into it; "first copied":
the first source is copied over it instead, a pass fewer. From memory: a rebuild touches a small part of an array, so what it
touches is flushed out of all caches, and its pages out of those translated, before it is timed. Hot: what it touches fits the
second cache.
"""
FORMAT = "Format, us, the check included, beside memset of array and marks, which checks nothing."
READ = """
Read of whole units, ns, less the same call refused by the mark of the data disk, beside memcpy of the unit, and C loops that
copy it by registers of 16 bytes, as the library does, and of 64 (AVX-512).
"""
LIMITS = "Memory limits, GB/s: what memcpy copies, memset sets and a loop reads of one array from memory."


def fits(case, arrays=2, pools=1):
    """Whether there is memory for a program's pools: each has so many arrays, and three times the last cache."""
    v, k, g, u = case
    pool = max(arrays * v * g * (v - 1) // (k - 1) * g * u, 3 * last_cache(), 2**28)
    free = re.search(r"^MemAvailable:\s+(\d+) kB", Path("/proc/meminfo").read_text(), re.M)
    return not free or 1.1 * pools * pool < 1024 * int(free[1])


def last_cache():
    """In bytes, as Linux tells it; 0 where it doesn't."""
    told = Path("/sys/devices/system/cpu/cpu0/cache/index3/size")
    return 1024 * int(told.read_text().strip().rstrip("K")) if told.exists() else 0


# of the calls but rebuild: the bytes that must move, the limit, and whether the refused call is taken off
MOVED = {
    "write": (lambda c: 4 * c.u, "memcpy", True),
    "read": (lambda c: c.u, "read", True),
    "audit": (lambda c: c.bytes, "read", False),
    "format": (lambda c: c.bytes, "memset", False),
}


class Case:
    """One case's figures: ns of each contestant by call, where and name, the bytes of an array and how many there were."""

    def __init__(self, say, case):
        self.u = case[3]
        self.head = [case[0], case[2], case[3]]
        self.told = figures(say("target/bytes", "time", *case))
        self.bytes, self.arrays = self.told["bytes", "-", "-"], self.told["arrays", "-", "-"]

    def ns(self, call, where, name="library", less=False):
        """With `less`, what the refused call takes is off; what is then small is lost in it."""
        whole = self.told.get((call, where, name))
        off = self.told[call, where, "refused"] if whole and less else 0
        return whole - off if whole and whole - off > off / 20 else None

    def ratio(self, call, where, name, less=False):
        other, own = self.ns(call, where, name, less), self.ns(call, where, "library", less)
        return other / own if other and own else None

    def ratios(self, call, where, names, less=False):
        known = {n for c, _, n in self.told if c == call}
        return [shown(self.ratio(call, where, n, less)) if n in known else "not there" for n in names]

    def rate(self, name):
        """Bytes a ns of a memory limit. memcpy copies one half of an array onto the other."""
        return self.bytes / (2 if name == "memcpy" else 1) / self.told["limit", "memory", name]

    def share(self, call):
        """Of the memory limit: the time that the bytes take there over the call's."""
        moved, limit, less = MOVED[call]
        own = self.ns(call, "memory", "library", less)
        return moved(self) / self.rate(limit) / own if own else None

    def at(self):
        return "v = {}, g = {}, u = {}".format(*self.head)


class Loss(Case):
    """A case with one of its losses."""

    def __init__(self, case, lost):
        self.__dict__.update(case.__dict__)
        self.lost, self.head = lost, case.head + [lost]

    def share(self, call):
        """Of what is read at the rate of reading, and what is restored at memset's."""
        read, written = (self.told["moved", self.lost, n] for n in ("read", "written"))
        return (read / self.rate("read") + written / self.rate("memset")) / self.ns(self.lost, "memory")

    def at(self):
        return f"{super().at()}, lost {self.lost}"


def write_row(c):
    row = [shown(c.ns("write", "memory", n, n == "library"), "{:.0f}") for n in ("refused", "library")]
    row += c.ratios("write", "memory", C, True) + [shown(c.share("write"))]
    return row + [shown(c.ns("write", "hot", "library", True), "{:.0f}")] + c.ratios("write", "hot", C, True)


def audit_row(c):
    row = [f"{c.ns('audit', 'memory', n) / 1000:.1f}" for n in ("library", "refused")]
    return row + c.ratios("audit", "memory", C_AUDIT) + [shown(c.share("audit"))] + c.ratios("audit", "hot", C_AUDIT)


def rebuild_row(c):
    row = [f"{c.ns(c.lost, 'memory', n) / 1000:.1f}" for n in ("library", "refused")]
    return row + c.ratios(c.lost, "memory", C_COPIED) + [shown(c.share(c.lost))] + c.ratios(c.lost, "hot", C_COPIED)


def format_row(c):
    row = [f"{c.ns('format', 'memory', n) / 1000:.1f}" for n in ("library", "refused")]
    row += [shown(c.ratio("format", "memory", "memset")), shown(c.share("format"))]
    return row + [shown(c.ratio("format", "hot", "memset"))]


def read_row(c):
    row = [shown(c.ns("read", "memory", n, n == "library"), "{:.0f}") for n in ("refused", "library")]
    row += c.ratios("read", "memory", C_READ, True) + [shown(c.share("read"))]
    return row + [shown(c.ns("read", "hot", "library", True), "{:.0f}")] + c.ratios("read", "hot", C_READ, True)


def limit_row(c):
    return [f"{c.bytes / 1e6:.1f}", f"{c.arrays:.0f}"] + [f"{c.rate(n):.1f}" for n in ("memcpy", "memset", "read")]


def part(about, heads, row, cases):
    first = ["v", "g", "u", "lost"][: len(cases[0].head)]
    return ["", prose(about), "", *table(first + heads, [c.head + row(c) for c in cases])]


def audit_rates(cases):
    """GB/s of the array at the fastest geometry: from memory, and hot."""
    return {name: max((c.bytes / c.ns("audit", where) for c in cases if c.ns("audit", where)), default=None)
            for name, where in (("from memory", "memory"), ("hot", "hot"))}


def limits(told):
    """The memory limits in a sentence."""
    rates = {name: span(c.rate(name) for c in told) for name in ("memcpy", "memset", "read")}
    return "Memory limits over the geometries, GB/s: " + ", ".join(f"{name} {rate}" for name, rate in rates.items()) + "."


def lossy(cases):
    """All cases with each loss."""
    return [Loss(x, lost) for x in cases for lost in LOSSES]


def in_runs(say):
    """What reading takes as the number of runs grows."""
    told = figures(say("target/runs"))
    return ["", prose(RUNS), "", *table(["runs", *(n for _, _, n in told)], [["ns", *(f"{ns:.3f}" for ns in told.values())]])]


def report(cases, runs):
    c, d, e = list(C.values()), list(C_COPIED.values()), list(C_AUDIT.values())
    out = [prose(ABOUT)]
    if len(cases) < len(CASES):
        out += ["", "The largest arrays are left out: they need more memory than there was."]
    out += part(WRITE, ["refused call", "write"] + c + ["share of memcpy", "hot: write"] + c, write_row, cases)
    out += part(AUDIT, ["audit", "check in it"] + e + ["share of read", "hot: " + e[0]] + e[1:], audit_row, cases) + runs
    out += part(REBUILD, ["rebuild", "check in it"] + d + ["share of the limit", "hot: " + d[0]] + d[1:], rebuild_row,
                lossy(cases))
    out += part(FORMAT, ["format", "check in it", "memset", "share of memset", "hot: memset"], format_row, cases)
    f = list(C_READ.values())
    out += part(READ, ["refused call", "read"] + f + ["share of read", "hot: read"] + f, read_row, cases)
    return out + part(LIMITS, ["array, MB", "arrays in turn", "memcpy", "memset", "read"], limit_row, cases)
