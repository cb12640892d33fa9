"""What the ratios of the byte calls say: the targets, the short table, and the rows of the plot."""
from pathlib import Path

import peers
from tables import prose, shown, span, table
from targets import Cause, Target
from timing import LOSSES, SIZES, lossy

# the least that is asked: beside C with the same passes, from memory and hot; beside the C library; beside ISA-L at u = 4096
PASSES, HOT, PLAIN, ISAL = 1.2, 0.9, 0.9, 0.9
# of each share of the memory limit: the call, its losses where it is the rebuild, u, and the least
SHARES = [
    ("rebuild of one disk", ["one"], 4096, 0.6),
    ("rebuild of three disks of one group", ["three"], 4096, 0.7),
    ("write", None, 4096, 0.8),
    ("audit", None, 4096, 0.5),
    ("format", None, 4096, 0.5),
    ("rebuild", LOSSES, 512, 0.25),
    ("audit", None, 512, 0.3),
]
NAMES = {"rebuild": "rebuild of one to three disks"}
NEARLY = 0.95  # of the library's time: C takes as long
SAME = "In brackets fused C, which has one pass and registers of 16 bytes, as the library has, and checks nothing."
LOOPS = "In brackets C loops that copy by registers of 16 bytes, as the library does, and by those of 64."
MEMSET = "In brackets memset, which checks nothing."
CHECK = "In brackets the share of its check, which memset has not."
AS_LONG = "C takes as long, within 5 %, or longer: the cause is not the library."
REGISTERS = """
By 16 bytes C is nearer to the library than to memcpy: the cause of most of it is what memcpy does otherwise, wider registers among
it (the second figure is what they give alone). The library has those that every x86-64 has.
"""
OTHERS = """
C takes as long, within 5 %, or longer: the cause is what ISA-L has and C has not. It may take registers of {}, the library has
those that every x86-64 has.
"""
LESS = "Less that share it takes no longer than is asked: the check is the cause."
ORDER = """
In "audit from memory" C goes through the sets by number, as 01 names them. Beside C with the same passes that takes a tuple's inner
sets first, as the library does, the audit's ratios are {}.
"""
SHORT = """
Time of the other over time of the library, from memory: the lowest and the highest over the geometries. Above 1 the library is
the faster. A code's write is a small write, less what the library spends on its check and map.
"""


def widest():
    """The widest registers of the processor, as its flags tell."""
    flags = Path("/proc/cpuinfo").read_text()
    known = (("avx512f", "64 bytes (AVX-512)"), ("avx2", "32 bytes (AVX2)"))
    return next((name for flag, name in known if flag in flags), "16 bytes")


class Found:
    """What was found of one call, by place; a rebuild's places have a loss."""

    def __init__(self, call, places, sizes=SIZES, where="memory"):
        self.call, self.where, self.places = call, where, [c for c in places if c.u in sizes]
        self.less = call in ("write", "read")

    def ratio(self, c, name):
        return c.ratio(getattr(c, "lost", self.call), self.where, name, self.less)

    def beside(self, name):
        return [(c, self.ratio(c, name)) for c in self.places]

    def shares(self):
        return [(c, c.share(self.call)) for c in self.places]

    def cause(self, name, says, because):
        """Known where C takes as long as the library."""
        return Cause(lambda c: shown(self.ratio(c, name)) or "not told", says, because,
                     lambda c: (self.ratio(c, name) or 0) >= NEARLY)

    def registers(self):
        """The library is not the cause where C by its registers is nearer to it than to memcpy."""
        def note(c):
            return " and ".join(shown(self.ratio(c, name)) or "not told" for name in ("narrow", "wide"))

        return Cause(note, LOOPS, REGISTERS, lambda c: (self.ratio(c, "narrow") or 0) > (1 + self.ratio(c, "memcpy")) / 2)

    def check(self):
        """The check is the cause where less it the call would do."""
        def share(c):
            return c.ns(self.call, self.where, "refused") / c.ns(self.call, self.where)

        return Cause(lambda c: f"{share(c):.2f}", CHECK, LESS, lambda c: self.ratio(c, "memset") >= PLAIN * (1 - share(c)))

    def by_u(self, name):
        return {u: [x for c, x in self.beside(name) if x and c.u == u] for u in SIZES}

    def told(self, name):
        return span(x for _, x in self.beside(name) if x)


class Ratios:
    """Of the cases, and of all with each loss."""

    def __init__(self, cases):
        self.cases, self.losses = cases, lossy(cases)

    def three(self, **how):
        """The calls that have C contestants."""
        places = {"write": self.cases, "audit": self.cases, "rebuild": self.losses}
        return {call: Found(call, where, **how) for call, where in places.items()}

    def plain(self):
        """The calls that stand beside one of the C library's functions."""
        return {(call, other): Found(call, self.cases) for call, other in (("format", "memset"), ("read", "memcpy"))}

    def targets(self):
        out = []
        for where, name, least in (("memory", "from memory", PASSES), ("hot", "hot", HOT)):
            out += [Target(f"{call} {name}, beside C with the same passes", least, f.beside("passes"),
                           f.cause("fused", SAME, AS_LONG)) for call, f in self.three(where=where).items()]
        for (call, other), f in self.plain().items():
            cause = f.check() if call == "format" else f.registers()
            out.append(Target(f"{call} from memory, beside {other}", PLAIN, f.beside(other), cause))
        out += [Target(f"{call} from memory at u = 4096, beside ISA-L", ISAL, f.beside("isal"),
                       f.cause("fused", SAME, OTHERS.format(widest()))) for call, f in self.three(sizes=[4096]).items()]
        for call, lost, u, least in SHARES:
            f = Found(call, [c for c in self.losses if c.lost in lost] if lost else self.cases, [u])
            cause = f.cause("memset", MEMSET, AS_LONG) if call == "format" else f.cause("fused", SAME, AS_LONG)
            out.append(Target(f"{call} at u = {u}, share of the memory limit", least, f.shares(), cause))
        return out

    def order(self):
        return prose(ORDER.format(Found("audit", self.cases).told("inner")))

    def plotted(self):
        """Groups of rows for the plot, with what is asked for each u."""
        def rows(name, asked):
            return [(NAMES.get(call, call), f.by_u(name), asked) for call, f in self.three().items()]

        others = [(f"{call}, beside {other}", f.by_u(other), dict.fromkeys(SIZES, PLAIN))
                  for (call, other), f in self.plain().items()]
        return [
            ("Beside C with the same passes", rows("passes", dict.fromkeys(SIZES, PASSES))),
            ("Beside C with all units in one loop", rows("fused", {})),
            ("Beside ISA-L's XOR kernels", rows("isal", {4096: ISAL})),
            ("Beside the C library", others),
        ]

    def short(self, beside):
        """One row a call; `beside`: the cases of the peers."""
        large, rows = self.three(sizes=[4096]), []
        for call, f in self.three().items():
            codes = [span(x for _, x in peers.ratios(beside, call, name)) for name in peers.CODES]
            rows.append([NAMES.get(call, call), f.told("passes"), f.told("fused"), large[call].told("isal"), *codes])
        rows += [[f"{call}, beside {other}", f.told(other), "", "", "", ""] for (call, other), f in self.plain().items()]
        heads = ["call", "C with the same passes", "C with one pass", "ISA-L, u = 4096", *[peers.NAMES[n] for n in peers.CODES]]
        return [prose(SHORT), "", *table(heads, rows)]
