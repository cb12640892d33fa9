"""The count of lines in docs/NUMBERS.md (no way reads fewer units), made on ways to restore a part that are drawn at random."""
import random

from fewest import Part

SIZES = ((2, 2), (2, 3), (3, 3), (2, 5))
DRAWS = 100


class Drawing:
    """The points of a part's tuple, joined to pieces by the lines that are neither read nor to be restored."""

    def __init__(self, part, read, restored):
        self.part, self.restored = part, restored
        self.joined = list(range(part.ground + 1))
        for unit, (one, other) in enumerate(part.homes):
            if not read >> unit & 1 and unit not in restored:
                self.joined[self.piece(one)] = self.piece(other)

    def piece(self, point):
        while self.joined[point] != point:
            point = self.joined[point]
        return point

    def apart(self, one, other):
        return self.piece(one) != self.piece(other)

    def own_ends(self):
        """Pieces hang from the ground's by the restored lines; each line's own end is the lower one."""
        ends, hung = {}, {self.piece(self.part.ground)}
        while len(ends) < len(self.restored):
            ways = [(unit, *way) for unit in self.restored if unit not in ends for way in self.both_ways(unit)]
            down = [(unit, far) for unit, near, far in ways if self.piece(near) in hung]
            if not down:
                hung.add(self.piece(ways[0][1]))  # no line leads there: it hangs by itself
                continue
            unit, far = down[0]
            if self.piece(far) in hung:
                raise ValueError(f"unit {unit} closes a ring")
            ends[unit] = far
            hung.add(self.piece(far))
        return ends.values()

    def both_ways(self, unit):
        one, other = self.part.homes[unit]
        return (one, other), (other, one)

    def line_to(self, point, wanted):
        """The line from a point to the one of its neighbours that is wanted."""
        return next(line for line in self.part.around[point] if wanted(line[1]))

    def counted(self, end):
        """The lines that the proof counts for an own end."""
        part, outer_sets, ground = self.part, self.part.g * (self.part.g - 1), self.part.ground
        out = [] if end < outer_sets else [self.line_to(end, ground.__eq__)[0]]
        chosen = range(outer_sets, outer_sets + part.g)
        if end in chosen:
            chosen = range(outer_sets + part.g, outer_sets + 2 * part.g)
        for unit, point in part.around[end]:
            if point == ground:
                continue
            if end >= outer_sets and not self.apart(end, point):
                unit, point = self.line_to(point, chosen.__contains__)
            out.append(unit if self.apart(end, point) else self.line_to(point, ground.__eq__)[0])
        return out


def check(part, read, restored, bound):
    """One way to restore: each line counted once, each read or restored, and at least as many as the bound."""
    drawing = Drawing(part, read, restored)
    lines = [line for end in drawing.own_ends() for line in drawing.counted(end)]
    if len(set(lines)) != len(lines) or not all(read >> line & 1 or line in restored for line in lines) or len(lines) < bound:
        raise ValueError(f"k = {part.k}, g = {part.g}, position {part.position}, read {read:x}: the count is not right")


def drawn(_):
    chance, ways = random.Random(1), 0
    for k, g in SIZES:
        for part in (Part(k, g, position) for position in range(k)):
            equations = [part.equations(unit, k * g) for unit in part.lost]
            for _ in range(DRAWS):
                reads = [chance.choice(each) for each in equations]
                for lost, bound in ((part.lost, (g - 1) * k + g), (part.lost[:-1], (g - 1) * k)):
                    read = 0
                    for more in reads[: len(lost)]:
                        read |= more
                    check(part, read, lost, bound)
                    ways += 1
    sizes = ", ".join(map(str, SIZES))
    return [f"{ways} ways to restore a part, drawn at random with (k, g) = {sizes}: no line is counted twice."]
