"""Table of survival: which losses of design F with g = 3 the proved library rebuilds, by the number of lost disks."""
import subprocess
from fractions import Fraction
from math import comb

from library import program
from published import rounded
from tables import table

DISKS, GROUPS, G = 21, 7, 3


def answers(name, archive):
    """One byte for each of the 2^21 losses, 1 where it is rebuilt."""
    found = subprocess.run([program(name, archive)], check=True, stdout=subprocess.PIPE).stdout
    if len(found) != 1 << DISKS or not set(found) <= {0, 1}:
        raise ValueError(f"{name} has not answered for every loss")
    return found


def by_number(found):
    """How many losses of n disks are rebuilt."""
    counts = [0] * (DISKS + 1)
    for loss, rebuilt in enumerate(found):
        counts[loss.bit_count()] += rebuilt
    return counts


def product(one, other):
    out = [0] * (len(one) + len(other) - 1)
    for i, a in enumerate(one):
        for j, b in enumerate(other):
            out[i + j] += a * b
    return out


def one_heavy_group():
    """Losses with at most one group that lacks two or more disks: all groups with at most one, or one with more and the rest."""
    others = [1]
    for _ in range(GROUPS - 1):
        others = product(others, [1, G])
    none, one = product(others, [1, G]), product(others, [0, 0] + [GROUPS * comb(G, n) for n in range(2, G + 1)])
    return [a + b for a, b in zip(none + [0] * DISKS, one + [0] * DISKS)][: DISKS + 1]


def agreed(proved, peeled):
    """How many losses of n disks are rebuilt, by both programs and by the rule of one heavy group."""
    if proved != peeled:
        loss = next(n for n, (a, b) in enumerate(zip(proved, peeled)) if a != b)
        raise ValueError(f"loss {loss:06x} (bit d: disk d): the library and numbers/peel.c decide differently")
    counts = by_number(proved)
    if counts != one_heavy_group():
        raise ValueError(f"{counts} losses are rebuilt; at most one heavy group gives {one_heavy_group()}")
    return counts


def survival(archive):
    counts = agreed(answers("survival", archive), answers("peel", archive))
    most = max(n for n, count in enumerate(counts) if count)
    said = ["all (theorem)"] * 4 + ["some patterns"] * (most - 3) + ["no figure"] * (DISKS - most)
    ends = [(n, n) for n in range(most + 2)] + [(most + 2, DISKS)]
    rows = []
    for low, high in ends:
        losses, rebuilt = sum(comb(DISKS, n) for n in range(low, high + 1)), sum(counts[low : high + 1])
        name = str(low) if low == high else f"{low} to {high}"
        rows.append([name, losses, rebuilt, rounded(Fraction(100 * rebuilt, losses), 2) + " %", said[low]])
    return table(["lost disks", "losses", "rebuilt", "share", "000, section 7.1"], rows)
