"""The printer's text as a plan: read strictly, and held against the layout of document 01.

Which units are read is taken from the text alone. The layout gives only the headings (which tuple a part belongs to, and its
groups) and a check that the text's sources lie where that tuple lies."""
import re
import zlib
from collections import namedtuple

# 01, "Held difference sets"
HELD = {
    7: (0, 1, 3),
    13: (0, 1, 3, 9),
    21: (0, 1, 4, 14, 16),
    31: (0, 1, 3, 8, 12, 18),
    57: (0, 1, 3, 13, 32, 36, 43, 52),
    73: (0, 1, 3, 7, 15, 31, 36, 54, 63),
    91: (0, 1, 3, 9, 27, 49, 56, 61, 77, 81),
}
# the rows of 01's table that the printer can meet
REFUSALS = {1: "no set is held for v", 6: "g is not allowed", 9: "the disk number is too high"}

# exit codes; argparse has 2
REFUSED, UNREADABLE, NO_PLAN, NO_PRINTER = 3, 4, 5, 6

Entry = namedtuple("Entry", "unit tag sources")  # a unit to restore; sources are (disk, unit) in the printer's order
Part = namedtuple("Part", "number tuple groups entries")
# pulls: for each source disk, upwards, (its unit, the unit restored); spare: for each other group its one disk not needed
Plan = namedtuple("Plan", "v k g disk parts pulls spare crc")


class Trouble(Exception):
    """Why there is no sheet: the exit code, and the reason in words."""

    def __init__(self, status, reason):
        super().__init__(reason)
        self.status = status


def no_plan(reason):
    raise Trouble(NO_PLAN, f"this is no plan for that disk: {reason}")


def read_triples(text):
    """The triples of the printer's text (bytes), written as the printer writes them and no other way."""
    refused = re.fullmatch(rb"refused ([1-9][0-9]?)\n", text)
    if refused:
        number = int(refused[1])
        raise Trouble(REFUSED, f"the printer refused, number {number}: {REFUSALS.get(number, 'not a refusal of the printer')}")
    if text == b"unread\n":
        raise Trouble(REFUSED, "the printer could not read its line (`unread`)")
    if not text:
        raise Trouble(UNREADABLE, "the printer's text is empty")
    triples = []
    for number, line in enumerate(text.splitlines(keepends=True), 1):
        match = re.fullmatch(rb"(0|[1-9][0-9]{0,8}) (0|[1-9][0-9]{0,8}) (0|[1-9][0-9]{0,8})\n", line)
        if not match:
            raise Trouble(UNREADABLE, f"line {number} of the printer's text is no triple: {ascii(line[:40].decode('latin-1'))}")
        triples.append(tuple(map(int, match.groups())))
    return triples


def design(v):
    """01: "Row i is the set with i added to each member modulo v, sorted upwards"."""
    return [sorted((member + i) % v for member in HELD[v]) for i in range(v)]


def check_numbers(v, g, disk):
    if v not in HELD:
        no_plan(f"no set is held for v = {v}")
    if not 2 <= g <= 13:
        no_plan(f"g is from 2 to 13, not {g}")
    if disk >= v * g:
        no_plan(f"there are {v * g} disks, none has the number {disk}")


def sources_of_units(v, k, g, triples):
    """For each unit of the disk its sources, if the triples go through the units upwards and are as many as a plan has."""
    r = (v - 1) // (k - 1)
    if len(triples) != r * (g - 1) * k:
        no_plan(f"it has {len(triples)} lines, not r(g-1)k = {r * (g - 1) * k}")
    sources = [[] for _ in range(r * g)]
    last = 0
    for line, (unit, source_disk, source_unit) in enumerate(triples, 1):
        if unit >= r * g or source_unit >= r * g or source_disk >= v * g:
            no_plan(f"line {line} has a number too high; there are {v * g} disks of {r * g} units")
        if unit < last:
            no_plan(f"line {line} goes back from unit {last} to unit {unit}")
        sources[unit].append((source_disk, source_unit))
        last = unit
    return sources


def outer(g, unit, sources, wanted):
    """Whether the sources lie one in each of the tuple's other regions, by position, in the unit's own row."""
    return [(disk // g, source // g, source % g) for disk, source in sources] == [(*region, unit % g) for region in wanted]


def inner(g, disk, unit, sources):
    """Whether the sources lie in the disk's own region, by row, each on another disk of the group."""
    disks = {source_disk for source_disk, _ in sources}
    others = set(range(disk // g * g, disk // g * g + g)) - {disk}
    return disks == others and [source for _, source in sources] == list(range(unit // g * g, unit))


def parts_of(v, k, g, disk, triples):
    rows = design(v)
    tuples_of = [[t for t in range(v) if group in rows[t]] for group in range(v)]
    sources = sources_of_units(v, k, g, triples)
    own = disk // g
    parts = []
    for part, t in enumerate(tuples_of[own]):
        others = [(group, tuples_of[group].index(t)) for group in rows[t] if group != own]
        entries = []
        for unit in range(part * g, part * g + g):
            if unit % g < g - 1 and outer(g, unit, sources[unit], others):
                entries.append(Entry(unit, "outer", sources[unit]))
            elif unit % g == g - 1 and inner(g, disk, unit, sources[unit]):
                entries.append(Entry(unit, "inner", sources[unit]))
            else:
                no_plan(f"the sources of unit {unit} do not lie where tuple {t} (part {part}) has them")
        parts.append(Part(part, t, rows[t], entries))
    return parts


def pulls_of(triples):
    """The triples by source disk."""
    pulls = {disk: [] for disk in sorted({disk for _, disk, _ in triples})}
    for unit, source_disk, source_unit in triples:
        pulls[source_disk].append((source_unit, unit))
    return {disk: sorted(units) for disk, units in pulls.items()}


def spare_disks(v, g, own, pulls):
    """For each other group its one disk that is no source."""
    spare = {}
    for group in set(range(v)) - {own}:
        left = [disk for disk in range(group * g, group * g + g) if disk not in pulls]
        if len(left) != 1:
            no_plan(f"{len(left)} disks of group {group} are not needed, not one")
        spare[group] = left[0]
    return spare


def plan_of(v, g, disk, text):
    """The plan that the printer's text is, for the disk that was asked for."""
    triples = read_triples(text)
    check_numbers(v, g, disk)
    k = len(HELD[v])
    parts, pulls = parts_of(v, k, g, disk, triples), pulls_of(triples)
    return Plan(v, k, g, disk, parts, pulls, spare_disks(v, g, disk // g, pulls), zlib.crc32(text))
