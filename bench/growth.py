"""Times write, audit and the rebuild of one disk as v, k, g and u grow, one at a time."""
import designs
import timing
from tables import figures, prose, shown, table
from targets import Cause, Target

# what grows, and the cases
SERIES = {
    "v": [(v, 3, 7, u) for u in (512, 4096) for v in (7, 13, 19, 31, 43, 61, 91)],
    "k": [(91, k, 11, 512) for k in (2, 3, 6, 7, 10)],
    "g": [(31, 3, g, 4096) for g in (3, 5, 7, 11, 13)],
    "u": [(31, 6, 11, u) for u in (64, 128, 256, 512, 1024, 2048, 4096)],
}
FLAT = 1.25
TIMES = 3  # that the series of v is run
NEARLY = 0.9  # C rises as much
SAYS = """
In brackets the design check's share of the time (it grows with the list, a disk with its parts), and fused C, which has no check
and no proof, over its own lowest.
"""
BECAUSE = "C rises by as much, within 10 %, in the same race: the memory is the cause, and not the library."
ABOUT = f"""
From memory; what grows stands at the left. The designs are the held ones, complete graphs (k = 2), triple systems (k = 3) and
difference families (`bench/designs.py`). The series of v is run {TIMES} times, and the fastest rebuild counts. Rebuild of one
disk, flushed as above: ns for each byte restored, the design check in it, fused C's which checks nothing, the bytes read for
each byte restored, and ns for each byte that is read or restored. Write: ns of a whole unit less the same call refused, and
that refused call (check and map). Audit: ns for each byte of the array, check included. Before any timing the lost disk of a
consistent array comes back as it was, and its audit finds nothing.
"""


class Point(timing.Case):
    """One case of a series."""

    def __init__(self, say, root, case):
        v, k, _, self.u = case
        self.case = case
        self.told = figures(say("target/bytes", "growth", *case, designs.written(root, v, k)))
        self.bytes = self.told["bytes", "-", "-"]
        self.read, self.restored = (self.told["moved", "one", n] for n in ("read", "written"))

    def per_byte(self, name="library"):
        return self.ns("one", "memory", name) / self.restored

    def at(self):
        return "v = {}, k = {}, g = {}, u = {}".format(*self.case)

    def row(self):
        whole, check = (self.ns("one", "memory", n) for n in ("library", "refused"))
        row = [*self.case, f"{self.bytes / 1e6:.1f}", f"{self.per_byte():.3f}", f"{check / self.restored:.3f}"]
        row += [f"{self.per_byte('fused'):.3f}"]
        row += [f"{self.read / self.restored:.2f}", f"{whole / (self.read + self.restored):.3f}"]
        row += [shown(self.ns("write", "memory", n, n == "library"), "{:.0f}") for n in ("library", "refused")]
        return row + [f"{self.ns('audit', 'memory') / self.bytes:.3f}"]


def measured(say, root, tell):
    """The points of each series. That of v, on which a target hangs, is run again, and the fastest rebuild counts."""
    out = {grows: [] for grows in SERIES}
    for grows, case in [(grows, case) for grows, cases in SERIES.items() for case in cases]:
        tell("growth: v = {}, k = {}, g = {}, u = {} ..".format(*case))
        if timing.fits(case, 1):
            out[grows].append(Point(say, root, case))
        else:
            tell("left out: it needs more memory than there is")
    for _ in range(1, TIMES):
        tell("growth: v, again ..")
        out["v"] = [min(p, Point(say, root, p.case), key=Point.per_byte) for p in out["v"]]
    return out


def by_size(points):
    """For each u, (array in MB, ns for each byte restored) of the library and of fused C."""
    return {u: [[(p.bytes / 1e6, p.per_byte(name)) for p in points["v"] if p.u == u] for name in ("library", "fused")]
            for u in timing.SIZES}


def targets(points):
    """The lowest of a series is 1; what is flushed comes from memory, whatever the array's size."""
    out = []
    for u in timing.SIZES:
        text = f"rebuild of one disk at k = 3, g = 7, u = {u}, ns for each byte over that of the array with the lowest"
        out.append(flat(text, [p for p in points["v"] if p.u == u]))
    return out


def flat(text, points):
    lowest = {name: min((p.per_byte(name) for p in points), default=None) for name in ("library", "fused")}

    def rise(p, name="library"):
        return p.per_byte(name) / lowest[name]

    def note(p):
        return f"check {p.per_byte('refused') / p.per_byte():.2f}, C {rise(p, 'fused'):.2f}"

    cause = Cause(note, SAYS, BECAUSE, lambda p: rise(p, "fused") >= NEARLY * rise(p))
    return Target(text, FLAT, [(p, rise(p)) for p in points], cause, most=True)


def report(points):
    heads = ["grows", "v", "k", "g", "u", "array, MB", "rebuild, ns/B", "check in it", "fused C", "read for each byte",
             "ns/B moved", "write, ns", "refused write", "audit, ns/B"]
    rows = [[grows, *p.row()] for grows, series in points.items() for p in series]
    return [prose(ABOUT), "", *table(heads, rows)]
