"""Tables of recovery speed, units read, disks and storage overhead: 000 section 8, from what the proved plan lists."""
from fractions import Fraction

from library import PRIMES, complete, facts, lines_of_15, lower_bound
from published import COLUMNS, EXPLAINED, TABLE_4, agrees, beside, plain, rounded
from tables import table

HELD = {7: 3, 13: 4, 21: 5, 31: 6, 57: 8, 73: 9, 91: 10}
SMALL, LARGE = (7, 13, 21, 31), (57, 73, 91)
GRAPH = (11, 2, 11, complete(11))
OI = {
    "OI(7,3,1,3)": (7, 3, 3, ()),
    "OI(7,3,1,7)": (7, 3, 7, ()),
    "OI(13,4,1,11)": (13, 4, 11, ()),
    "OI(21,5,1,11)": (21, 5, 11, ()),
    "OICG(11,11)": GRAPH,
}


def held_at(groups):
    """The geometries of these held v, by v and g."""
    return {(v, g): (v, HELD[v], g, ()) for v in groups for g in PRIMES if g >= HELD[v]}


def skewed(groups, disks):
    """S²-RAID of l groups of g disks: 000 section 8.1 (speed-up g), 8.2 (ratio l-1, one parity in a subRAID of l units)."""
    return {
        "speed-up": disks,
        "read ratio": groups - 1,
        "lower bound": lower_bound(disks, groups - 1),
        "disks": groups * disks,
        "overhead": Fraction(1, groups),
    }


def declustered(r, k):
    """Parity declustering with λ = 1: 000 section 8.1 (speed-up r/λ), 8.2 (ratio k-1), 3.3 (v = r(k-1)/λ + 1)."""
    return {
        "speed-up": r,
        "read ratio": k - 1,
        "lower bound": lower_bound(r, k - 1),
        "disks": r * (k - 1) + 1,
        "overhead": Fraction(1, k),
    }


def planned(f):
    """As 000 counts: the units that the outer layer encodes."""
    return {
        "speed-up": f.speedup(True),
        "read ratio": f.ratio(True),
        "lower bound": f.bound(True),
        "disks": f.disks,
        "overhead": f.overhead(),
    }


def table_4(archive):
    ours = {f"S²({groups},{disks})": skewed(groups, disks) for groups, disks in ((3, 3), (5, 5), (3, 17))}
    ours |= {f"PD({v},{k},1)": declustered(k, k) for v, k in ((7, 3), (21, 5), (51, 8))}
    ours |= {name: planned(f) for name, f in zip(OI, facts(OI.values(), archive))}
    sources = {"S": "formulas, 000 8.1, 8.2", "P": "formulas, 000 8.1, 8.2, 3.3", "O": "proved plan and sizes"}
    rows = [[name] + [beside(name, c, ours[name][c]) for c in COLUMNS] + [sources[name[0]]] for name in TABLE_4]
    lines = table(["layout", *COLUMNS, "from"], rows)
    total = len(TABLE_4) * len(COLUMNS)
    lines += ["", f"{total - len(EXPLAINED)} of 000's {total} figures agree. The others:", ""]
    reasons = {}
    for (name, column), why in EXPLAINED.items():
        reasons.setdefault((name, why), []).append(column)
    return lines + [f"- {name}, {' and '.join(columns)}: {why}." for (name, why), columns in reasons.items()]


def read_from(archive):
    """The counts under table 4's rows."""
    found = zip(OI, facts(OI.values(), archive))
    heads = ["layout", "units of a disk", "encoded by the outer layer", "read for these", "most from a disk"]
    heads += ["read for all", "from each disk of the own group", "most from a disk of another", "idle in each other group"]
    rows = [[name, f.lost, f.coded, f.read_coded, f.most_coded, f.read, f.own, f.others, f.idle] for name, f in found]
    return table(heads, rows)


def both_counts(archive, geometries):
    """The measures as 000 counts, for the whole disk, and the overhead without and with inner parities."""
    heads = ["v", "k", "g", "disks", "speed-up", "read ratio", "lower bound", "disks above it"]
    heads += ["whole disk: speed-up", "read ratio", "lower bound", "overhead of the outer layer", "with inner parity"]
    rows = []
    for (v, k, g, _), f in zip(geometries, facts(geometries, archive)):
        above = f.disks - f.bound(True)
        rows.append(
            [v, k, g, f.disks, plain(f.speedup(True)), plain(f.ratio(True)), f.bound(True)]
            + [f"{above} ({percent(above, f.bound(True))})", plain(f.speedup(False)), plain(f.ratio(False)), f.bound(False)]
            + [rounded(f.overhead_outer(), 3), rounded(f.overhead(), 3)]
        )
    return table(heads, rows)


def prime_up_to(most):
    """The largest prime that is not above `most`."""
    return next(n for n in range(most, 1, -1) if all(n % d for d in range(2, n)))


def others(archive):
    """The other layouts of the same read ratio: PD with the same design, S² of k groups on no more disks."""
    geometries = held_at(SMALL).values()
    heads = ["v", "k", "g", "read ratio", "OI: disks", "speed-up", "overhead", "PD: disks", "speed-up", "overhead"]
    rows = []
    for (v, k, g, _), f in zip(geometries, facts(geometries, archive)):
        ours, pd, s2 = planned(f), declustered(f.parts, k), skewed(k, prime_up_to(f.disks // k))
        if not ours["read ratio"] == pd["read ratio"] == s2["read ratio"]:
            raise ValueError(f"v = {v}, g = {g}: the layouts have different read ratios")
        cells = [[one["disks"], plain(one["speed-up"]), rounded(one["overhead"], 3)] for one in (ours, pd, s2)]
        rows.append([v, k, g, plain(ours["read ratio"]), *sum(cells, [])])
    return table([*heads, "S²: disks", "speed-up", "overhead"], rows)


def percent(part, whole):
    return rounded(100 * Fraction(part, whole), 1) + " %"


class Claim:
    """What 000 says in a section, what ours is, whether they agree; why not, where they don't."""

    def __init__(self, section, says, ours, holds, why=""):
        if holds == bool(why):
            raise ValueError(f"000 {section}, {says!r}: ours is {ours!r}, the sentence on it is not right")
        self.row = [section, says, ours, why or "agrees"]


def text(archive):
    """What 000 says around its tables, beside what the plan and the sizes give."""
    small = held_at(SMALL)
    wanted = small | {(57, 13): (57, 8, 13, ()), (15, 3): (15, 3, 3, lines_of_15())}
    wanted |= {("K11", g): (11, 2, g, complete(11)) for g in (11, 13)}
    f = dict(zip(wanted, facts(wanted.values(), archive)))
    claims = everywhere(f) + speeds(f) + scales(f, small) + overheads(f, small) + summary(f) + systems(f[15, 3])
    return table(["section", "000 says", "ours", ""], [claim.row for claim in claims])


def everywhere(f):
    """Abstract and section 4.2."""
    written, others = ({getattr(one, what) for one in f.values()} for what in ("written", "others"))
    return [
        Claim(
            "abstract", "the optimal data update complexity",
            f"a write touches {max(written)} disks, the fewest if three may be lost", written == {4},
        ),
        Claim("4.2", "up to one unit from each surviving disk in other groups", f"at most {max(others)}", others == {1}),
    ]


def speeds(f):
    """Sections 8.1 and 8.2."""
    sixty, graph, point = f[31, 11], f["K11", 11], f[13, 11]
    return [
        Claim(
            "8.1", "a speed-up of 60 with less than 350 disks", f"{sixty.speedup(True)} with {sixty.disks} (v = 31, g = 11)",
            sixty.speedup(True) == 60 and sixty.disks < 350,
        ),
        Claim(
            "8.1", "complete graph: 100 with 121 disks", f"{graph.speedup(True)} with {graph.disks} (v = 11, g = 11)",
            (graph.speedup(True), graph.disks) == (100, 121),
        ),
        Claim("8.2", "point A reads 3 for RS(6,9)'s 6", f"{point.ratio(True)} (v = 13, g = 11)", point.ratio(True) == 3),
    ]


def scales(f, small):
    """Section 8.3."""
    above = {at: f[at].disks - f[at].bound(True) for at in small}
    more = {at: percent(above[at], f[at].bound(True)) for at in small}
    worst = max(small, key=lambda at: Fraction(above[at], f[at].bound(True)))
    most = max(above[at] for at in small if f[at].speedup(True) <= 60)
    skewed_disks, skewed_bound = 9 * 59, lower_bound(59, 6)
    skewed_more = percent(skewed_disks - skewed_bound, skewed_bound)
    return [
        Claim(
            "8.3", "r(k-1) + g - 1 more disks than the lower bound", f"so at all {len(small)} geometries with v to 31",
            all(above[at] == f[at].parts * f[at].ratio(True) + at[1] - 1 for at in small),
        ),
        Claim(
            "8.3", "in the worst case 40/301 = 13.3 % more disks",
            f"{above[31, 11]}/{f[31, 11].bound(True)} = {more[31, 11]} (v = 31, g = 11), and {most} are the most up to 60 times;"
            f" {more[worst]} (v = {worst[0]}, g = {worst[1]})",
            worst == (31, 11), "right for that point and for the number of disks; the share is larger in small arrays",
        ),
        Claim(
            "8.3", "S² with RS(6,9) in the worst case 176/355 = 49.6 % more",
            f"{skewed_disks - skewed_bound}/{skewed_bound} = {skewed_more} (9 groups of 59 disks, by 8.1 and 8.2)",
            (skewed_disks - skewed_bound, skewed_bound, skewed_more) == (176, 355, "49.6 %"),
        ),
    ]


def overheads(f, small):
    """Section 8.4."""
    low, high = (rounded(end(f[at].overhead() for at in small), 3) for end in (min, max))
    large, graph, other_graph, a, b = f[57, 13], f["K11", 11], f["K11", 13], f[13, 11], f[21, 11]
    return [
        Claim(
            "8.4", "overheads between 0.2 and 0.6 under all appropriate settings",
            f"{low} to {high} (v to 31), {rounded(large.overhead(), 3)} (v = 57, g = 13)",
            large.overhead() >= Fraction(1, 5), "right up to v = 31; 000 does not list its settings",
        ),
        Claim(
            "8.4", "complete graph: 0.54 at the lowest",
            f"{rounded(graph.overhead(), 3)} (g = 11), {rounded(other_graph.overhead(), 3)} (g = 13)",
            agrees(graph.overhead(), "0.54"), "right if g goes to 13, which 000 does not say; at table 4's g = 11 it is 0.55",
        ),
        Claim(
            "8.4", "point A: below RS(6,9)'s 0.33, a speed-up of 40, 143 disks",
            f"{rounded(a.overhead(), 3)}, {a.speedup(True)}, {a.disks}",
            a.overhead() < Fraction(3, 9) and (a.speedup(True), a.disks) == (40, 143),
        ),
        Claim(
            "8.4", "point B: below RS(10,14)'s 0.29, a speed-up of 50", f"{rounded(b.overhead(), 3)}, {b.speedup(True)}",
            b.overhead() < Fraction(4, 14) and b.speedup(True) == 50,
        ),
    ]


def summary(f):
    """Section 8.5."""
    graph, many, seven, s2 = f["K11", 11], f[21, 11], f[7, 7], skewed(3, 17)
    larger = 100 * (seven.overhead() - s2["overhead"])
    fewer, times = many.disks - graph.disks, graph.overhead() / many.overhead()
    return [
        Claim(
            "8.5", "OI(7,3,1,7): 10 % larger overhead than S²(3,17)", f"{rounded(larger, 1)} points larger", agrees(larger, "10")
        ),
        Claim(
            "8.5", "OICG(11,11): 110 disks fewer than OI(21,5,1,11), overhead doubled",
            f"{fewer} fewer, {rounded(times, 2)} times", (fewer, times) == (110, 2),
        ),
        Claim(
            "8.5", "OI(7,3,1,7): 2 disks fewer than S²(3,17), speed-up 18 and not 17",
            f"{s2['disks'] - seven.disks} fewer, {seven.speedup(True)} and not {s2['speed-up']}",
            (s2["disks"] - seven.disks, seven.speedup(True), s2["speed-up"]) == (2, 18, 17),
        ),
    ]


def systems(fifteen):
    """Section 9."""
    b, v, r, k, read_by_rs = 33, 45, 22, 3, 6
    return [
        Claim(
            "9.2", "a (35,15,7,3,1)-BIBD with g = 3 has 45 disks", f"{fifteen.disks}, speed-up {fifteen.speedup(True)}",
            fifteen.disks == 45,
        ),
        Claim(
            "9.2", f"a ({b},{v},{r},{k},1)-BIBD", f"bk = {b * k}, vr = {v * r}", b * k == v * r,
            f"bk = vr (section 3.3) asks for b = {v * r // k}",
        ),
        Claim(
            "9.2", "all schemes have the same read volume ratio", f"{fifteen.ratio(True)}; RS(6,9): {read_by_rs}",
            fifteen.ratio(True) == read_by_rs, "section 8.2 gives k, here 6, for a Reed-Solomon code",
        ),
        Claim("9.2, 9.3", "times and throughputs (figures 15 to 17)", "none", False, "measured on real disks, not to be derived"),
    ]
