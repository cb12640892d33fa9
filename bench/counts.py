"""Counts the instructions of the calls without bytes, proved and in plain C, for the geometries and as the list grows, and times
them.

callgrind tells what target/calls spends in each function that it calls, so one run counts every call. Counts are the same
whatever else the machine does."""
import subprocess
from typing import NamedTuple

import designs
from tables import figures, prose, table
from targets import Cause, Place, Target

CASES = [(7, 3, 3), (13, 4, 11), (21, 5, 11), (91, 10, 11), (91, 10, 13), (91, 2, 13)]
GROWING = [(v, k, 11) for k in (2, 3) for v in (7, 13, 31, 61, 91)]
OTHER_SIZES = [(31, 3, 3, 1), (31, 3, 13, 4096)]  # beside (31, 3, 11, 512)
CALLS = ("fill", "check", "sizes", "map", "role", "plan")
GROWN = ("check", "map", "role", "plan")
COUNT = 100
ABOUT = """
Instructions of one call, proved and in plain C (`bench/plain.c`, gcc -O3), counted by callgrind, and ns of one call, hot, in time
of the thread; the last column is plain C's time over the library's: above 1 the library is the faster. Each call but the fill
checks the design anew, so a map's count holds a check's. All answers and lists are compared while they are counted, and the
plans of all disks besides. The fill is there where the rows of k are those of the held set.
"""
MORE, MISSED = 1.05, 1.1  # than plain C: instructions, and mispredicted branches
LEAST = 0.9  # of plain C's time over the library's
SAYS = "In brackets instructions over those of plain C; branches that a call mispredicts by callgrind's model, proved and plain."
BECAUSE = """
Of the fill decision 61 has the cause. Another call makes more instructions, by over 5 %, or mispredicts more branches, by over
10 %, which is a likely cause.
"""
GROWTH = """
Instructions as the list grows, g = 11: of the check, and of the map, the way back and the plan less a check; in brackets those
for each added entry of the list, from the row above. A check marks every pair, (k-1)/2 for each entry. Last, the plan's for
each of its r parts and each entry.
"""


def counted(root, case, u=512):
    """Instructions and mispredicted branches of one call by the name of its function."""
    v, k, g = case
    out = root / "target/callgrind.out"
    subprocess.run(
        ["valgrind", "--tool=callgrind", "--branch-sim=yes", "--compress-strings=no", "--compress-pos=no",
         f"--callgrind-out-file={out}", "target/calls", "count", *map(str, (v, k, g, u, COUNT)), str(designs.written(root, v, k))],
        cwd=root, check=True, capture_output=True, text=True,
    )
    return spent(out.read_text())


class Cost(NamedTuple):
    """Of one call."""

    instructions: float
    mispredicted: float


def spent(text):
    """Of what callgrind wrote: the cost of one call that a function count_.. makes, all below it included. A line has a place, and
    instructions, branches and mispredicted ones as far as they are not 0."""
    caller, callee, sums, calls = "", "", {}, 0
    for line in text.splitlines():
        key, _, value = line.partition("=")
        if key in ("fn", "cfn"):
            caller, callee = (value, "") if key == "fn" else (caller, value)
        elif key == "calls":
            calls = int(value.split()[0])
        elif calls:
            if caller.startswith("count_"):
                cost = [int(x) for x in line.split()[1:]] + [0, 0]
                n, ran, missed = sums.get(callee, (0, 0, 0))
                sums[callee] = n + calls, ran + cost[0], missed + cost[2]
            calls = 0
    return {name: Cost(ran / n, missed / n) for name, (n, ran, missed) in sums.items()}


class Pair(Place):
    """One call of a case, proved and in plain C."""

    def __init__(self, case, call, told, times):
        super().__init__("{} at v = {}, k = {}, g = {}".format(call, *case))
        self.head, self.call = [*case, call], call
        self.proved, self.plain = told[f"himzolven_{call}"], told[f"plain_{call}"]
        self.ns, self.plain_ns = (times[call, "hot", name] for name in ("library", "plain"))

    def ratio(self):
        return self.proved.instructions / self.plain.instructions

    def faster(self):
        """Time of plain C over the library's."""
        return self.plain_ns / self.ns

    def row(self):
        counts = [f"{cost.instructions:.0f}" for cost in (self.proved, self.plain)] + [f"{self.ratio():.2f}"]
        return self.head + counts + [f"{self.ns:.0f}", f"{self.plain_ns:.0f}", f"{self.faster():.2f}"]

    def note(self):
        return f"{self.ratio():.2f}; {self.proved.mispredicted:.0f} and {self.plain.mispredicted:.0f}"

    def known(self):
        return self.call == "fill" or self.ratio() > MORE or self.proved.mispredicted > MISSED * self.plain.mispredicted


class Counts:
    """Every count of this run, and the times of the same calls."""

    def __init__(self, say, root, tell):
        def count(case, u=512):
            tell("instructions: v = {}, k = {}, g = {} ..".format(*case))
            return counted(root, case, u)

        self.pairs = []
        for case in CASES:
            told, words = count(case), (*case, 512, designs.written(root, *case[:2]))
            say("target/calls", "plans", *words)
            times = figures(say("target/calls", "time", *words))
            self.pairs += [Pair(case, call, told, times) for call in CALLS if (call, "hot", "plain") in times]
        self.growing = {case: count(case) for case in GROWING}
        self.others = {case: count(case[:3], case[3]) for case in OTHER_SIZES}

    def series(self, k, call, less=False):
        """(entries of the list, instructions); with `less`, a check is taken off the other calls."""
        off = less and call != "check"
        return [(designs.entries(v, k), proved(told, call) - (proved(told, "check") if off else 0))
                for (v, each, _), told in self.growing.items() if each == k]

    def growth_rows(self):
        for k in (2, 3):
            columns = [self.series(k, call, less=True) for call in GROWN]
            sizes = [v for v, each, _ in self.growing if each == k]
            for n, v in enumerate(sizes):
                row = [f"{c[n][1]:.0f}" + (f" ({slope(c, n):.1f})" if n else "") for c in columns]
                entries, plan = columns[-1][n]
                yield [k, v, entries, *row, f"{plan / entries / ((v - 1) / (k - 1)):.1f}"]

    def targets(self):
        first = [(pair, pair.ratio()) for pair in self.pairs if pair.call == "check"]
        rest = [(pair, pair.ratio()) for pair in self.pairs if pair.call != "check"]
        times = [(pair, pair.faster()) for pair in self.pairs]
        whole = [(Place(f"{call}, k = {k}"), self.steepening(k, call)) for k in (2, 3) for call in ("check", "map")]
        return [
            Target("design check, instructions over those of plain C", 1.2, first, most=True),
            Target("the other calls without bytes, instructions over those of plain C", 1.2, rest, most=True),
            Target("calls without bytes, time of plain C over the library's", LEAST, times,
                   Cause(Pair.note, SAYS, BECAUSE, Pair.known)),
            Target("check and map, instructions for each entry added to the longest list over those for the shortest", 1.2,
                   whole, most=True),
            Target("map of one list at other g and u, instructions over those at g = 11, u = 512", 1.1, self.other_sizes(),
                   most=True),
        ]

    def steepening(self, k, call):
        points = self.series(k, call)
        return slope(points, len(points) - 1) / slope(points, 1)

    def curves(self):
        """For the plot: each call by name, at k = 2 and 3."""
        return {"way back" if call == "role" else call: [self.series(k, call, less=True) for k in (2, 3)] for call in GROWN}

    def other_sizes(self):
        here = proved(self.growing[31, 3, 11], "map")
        return [(Place("v = {}, k = {}, g = {}, u = {}".format(*case)), proved(told, "map") / here)
                for case, told in self.others.items()]

    def report(self):
        heads = ["v", "k", "g", "call", "instructions: proved", "plain C", "ratio", "ns: proved", "plain C", "C over ours"]
        grown = ["k", "v", "entries", "check", "map", "way back", "plan", "plan / (r · entries)"]
        calls = [prose(ABOUT), "", *table(heads, [pair.row() for pair in self.pairs])]
        return calls + ["", prose(GROWTH), "", *table(grown, self.growth_rows())]


def proved(told, call):
    return told[f"himzolven_{call}"].instructions


def slope(points, n):
    """Instructions for each entry between a point and the one before."""
    (x, a), (y, b) = points[n - 1], points[n]
    return (b - a) / (y - x)
