"""The fewest units that restore a lost disk: the search of document 002, section 3, over the sets of document 01.

Document 002 calls a list of units that XOR to zero an equation. A lost unit is restored by an equation that holds no other lost
unit. The search takes one such equation for each lost unit, so that as few units as possible are read altogether.

Every unit lies in one inner set and at most one outer set. So the XOR of some sets holds the units that have one of their sets
among them; an inner parity has, for a second set, the `ground` that is never taken. Equations are thus found by taking sets in,
neighbour by neighbour, and leaving others out, as long as the units read are not too many.

The parts of a disk lie in tuples that share no unit, so a disk needs the sum of what its parts need. Shifting all columns of a
tuple by one takes sets to sets, so the lost column is 0."""
import heapq


def sets_of(k, g):
    """The sets of a tuple, outer then inner, as 01 defines them; a unit is (position*g + row)*g + column."""
    outer = [[(p * g + i) * g + (c + i * p) % g for p in range(k)] for i in range(g - 1) for c in range(g)]
    inner = [[(p * g + i) * g + (i - j) % g for i in range(g)] for p in range(k) for j in range(g)]
    return outer + inner


class Part:
    """One part of a lost disk: column 0 of the region at `position` in a tuple of k regions."""

    def __init__(self, k, g, position):
        self.k, self.g, self.position = k, g, position
        self.sets = sets_of(k, g)
        self.ground = len(self.sets)
        self.homes = [[] for _ in range(k * g * g)]
        for number, members in enumerate(self.sets):
            for unit in members:
                self.homes[unit].append(number)
        for home in self.homes:
            home += [self.ground] * (2 - len(home))
        self.around = [[] for _ in range(self.ground + 1)]
        for unit, (one, other) in enumerate(self.homes):
            self.around[one].append((unit, other))
            self.around[other].append((unit, one))
        self.lost = [(position * g + row) * g for row in range(g)]

    def disk(self, position, column):
        """The units of one disk in this tuple, as bits."""
        return sum(1 << ((position * self.g + row) * self.g + column) for row in range(self.g))

    def units_of_plan(self):
        """The rest of each lost unit's outer set, or of its inner set where it has no other."""
        return {unit for lost in self.lost for unit in self.sets[min(self.homes[lost])]} - set(self.lost)

    def equations(self, unit, most):
        """What the equations of a lost unit read, as bits: at most `most` units, and not all that another equation reads."""
        found = []
        for taken, left in (self.homes[unit], self.homes[unit][::-1]):
            if taken != self.ground:
                side = {self.ground: False, left: False}
                self.take_side(taken, True, unit, side, 0, most, [], found)
        return least(found)

    def take_side(self, number, taken, unit, side, read, most, front, found):
        """Puts one set inside or outside, and grows on if the equation of `unit` still holds no other lost unit."""
        side[number] = taken
        for between, other in self.around[number]:
            if other not in side:
                front = front + [other] if taken else front
                continue
            crosses = side[other] != taken
            if between in self.lost and crosses != (between == unit):
                break
            if crosses and between != unit:
                read |= 1 << between
        else:
            if read.bit_count() <= most:
                self.grow(unit, side, read, most, front, found)
        del side[number]

    def grow(self, unit, side, read, most, front, found):
        while front and front[-1] in side:
            front = front[:-1]
        if not front:
            found.append(read)
            return
        for taken in (True, False):
            self.take_side(front[-1], taken, unit, side, read, most, front[:-1], found)


def least(found):
    """Those that hold no other whole."""
    kept = []
    for read in sorted(set(found), key=int.bit_count):
        if not any(one & read == one for one in kept):
            kept.append(read)
    return kept


def every_equation(part, unit):
    """The same by brute force: the XOR of each choice of sets. For tests; doubles with each set."""
    bits = [sum(1 << member for member in members) for members in part.sets]
    lost, equation, found = sum(1 << other for other in part.lost), 0, []
    for step in range(1, 1 << len(bits)):
        equation ^= bits[(step & -step).bit_length() - 1]
        if equation & lost == 1 << unit:
            found.append(equation & ~lost)
    return least(found)


def shortest(equations, fits):
    """The fewest units read by one equation of each list, None if no choice fits: 002's shortest path.

    A node is how many lists are served and which units are read; a way to it is as long as it reads units."""
    lists = sorted(([read for read in each if fits(read)] for each in equations), key=len)
    heap, seen = [(0, 0, 0)], set()
    while heap:
        length, left, read = heapq.heappop(heap)
        if -left == len(lists):
            return length
        for more in lists[-left]:
            node = (left - 1, read | more)
            if node not in seen and fits(node[1]):
                seen.add(node)
                heapq.heappush(heap, (node[1].bit_count(), *node))
    return None


def fewest(k, g, most):
    """For one part: how many equations were found, the fewest units for the whole column, and without its inner parity."""
    tried, whole, coded = 0, set(), set()
    for position in range(k):
        part = Part(k, g, position)
        equations = [part.equations(unit, most) for unit in part.lost]
        tried += sum(map(len, equations))
        whole.add(shortest(equations, lambda read: read.bit_count() <= most))
        coded.add(shortest(equations[:-1], lambda read: read.bit_count() <= most))
    if len(whole) != 1 or len(coded) != 1:
        raise ValueError(f"k = {k}, g = {g}: the fewest units differ by position: {whole}, {coded}")
    return tried, whole.pop(), coded.pop()


def apart(k, g):
    """Whether no two sets of two units of a lost column share a unit: then each costs its own rest, whichever are chosen."""
    for position in range(k):
        part = Part(k, g, position)
        seen = set()
        for unit in part.lost:
            rests = set().union(*(part.sets[home] for home in part.homes[unit] if home != part.ground)) - {unit}
            if rests & (seen | set(part.lost)):
                return False
            seen |= rests
    return True


def meet_once(k, g):
    """Whether two inner sets of different regions share at most one outer set, and each unit lies in one inner set."""
    part = Part(k, g, 0)
    outer_sets = g * (g - 1)
    if any(sum(home >= outer_sets for home in homes if home != part.ground) != 1 for homes in part.homes):
        return False
    beside = [{other for _, other in part.around[number]} - {part.ground} for number in range(outer_sets, part.ground)]
    return all(len(beside[a] & beside[b]) <= 1 for a in range(k * g) for b in range(a) if a // g != b // g)
