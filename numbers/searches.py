"""Tables of the search of document 002: the fewest units read, and the least that the busiest disk gives."""
from itertools import product

from fewest import Part, apart, fewest, meet_once, shortest
from library import F, PRIMES, complete, facts
from tables import table

DESIGNS = {
    "v = 2, k = 2": (2, 2, complete(2)),
    "v = 3, k = 2": (3, 2, complete(3)),
    "v = 4, k = 2": (4, 2, complete(4)),
    "F": (7, 3, F),
    "v = 13, k = 4": (13, 4, ()),
}
SHORT = [("v = 2, k = 2", 2), ("v = 3, k = 2", 3), ("v = 4, k = 2", 3), ("F", 3), ("v = 4, k = 2", 5)]
LONG = [("F", 5), ("v = 13, k = 4", 5), ("v = 4, k = 2", 7)]


def plans(cases, archive):
    """What the proved plan reads in each case."""
    return facts([(v, k, g, rows) for v, k, rows, g in ((*DESIGNS[name], g) for name, g in cases)], archive)


def least_read(archive, cases):
    rows, found = [], {}
    for (name, g), f in zip(cases, plans(cases, archive)):
        k = DESIGNS[name][1]
        if (k, g) not in found:
            found[k, g] = fewest(k, g, f.read // f.parts)
        equations, whole, coded = found[k, g]
        rows.append([name, g, f.coded, f.read_coded, coded * f.parts, f.lost, f.read, whole * f.parts, equations])
    heads = ["design", "g", "units without inner parities", "plan reads", "fewest", "units of the disk", "plan reads", "fewest"]
    shortest_plan = all(row[3] == row[4] and row[6] == row[7] for row in rows)
    return table([*heads, "equations compared"], rows) + [
        "",
        "Nothing reads fewer units than the plan." if shortest_plan else "The plan does not read the fewest units.",
    ]


def at_all_sizes(holds, words):
    """One line: what holds at each k and g of 01."""
    sizes = [(k, g) for g in PRIMES for k in range(2, 11) if k <= g]
    fails = [size for size in sizes if not holds(*size)]
    if fails:
        raise ValueError(f"not so at (k, g) in {fails}: {words}")
    return [f"{len(sizes)} pairs of k and g, k from 2 to 10 and g up to 13: {words}."]


def one_set_each(_):
    return at_all_sizes(apart, "no two sets of two lost units share a unit")


def meetings(_):
    return at_all_sizes(meet_once, "two inner sets of different regions share at most one outer set")


def part_cost(k, g, position, most):
    """Fewest units for one part, by how many each surviving disk of the own group may give; any other disk gives up to `most`."""
    part = Part(k, g, position)
    equations = [part.equations(unit, k * g * g) for unit in part.lost]
    others = [part.disk(p, c) for p in range(k) if p != position for c in range(g)]
    own = [part.disk(position, c) for c in range(1, g)]

    def cost(allowed):
        limits = [(disk, most) for disk in others] + list(zip(own, allowed))
        return shortest(equations, lambda read: all((read & disk).bit_count() <= limit for disk, limit in limits))

    return {allowed: cost(allowed) for allowed in product(range(most + 1), repeat=g - 1)}


def disk_cost(costs, most, own):
    """The fewest units for all parts, where no disk gives more than `most`; None if there is no way."""
    ways = {(0,) * own: 0}
    for cost in costs:
        longer = {}
        for used, read in ways.items():
            for allowed, more in cost.items():
                now = tuple(map(sum, zip(used, allowed)))
                if more is not None and max(now) <= most and read + more < longer.get(now, read + more + 1):
                    longer[now] = read + more
        ways = longer
    return min(ways.values(), default=None)


def positions(rows, k, group):
    """Where a group stands in the rows that name it."""
    return [place % k for place, number in enumerate(rows) if number == group]


def busiest(archive):
    cases, rows = [("v = 3, k = 2", 3), ("v = 4, k = 2", 3), ("F", 3)], []
    for (name, g), f in zip(cases, plans(cases, archive)):
        v, k, design = DESIGNS[name]
        for most in range(1, f.most):
            costs = [part_cost(k, g, position, most) for position in range(k)]
            reads = {disk_cost([costs[p] for p in positions(design, k, group)], most, g - 1) for group in range(v)}
            rows += [[name, g, most, "no way" if read is None else f"{read} units"] for read in reads]
        rows.append([name, g, f"{f.most} (the plan)", f"{f.read} units"])
    return table(["design", "g", "most from one disk", "fewest for the whole disk"], rows)
