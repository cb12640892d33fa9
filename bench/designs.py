"""Designs for the measurements: every pair of groups in one row. The library's check judges each of them."""
from itertools import combinations

# difference families modulo v, by v and k: of one row those that the library holds
FAMILIES = {
    (7, 3): [(0, 1, 3)],
    (13, 4): [(0, 1, 3, 9)],
    (21, 5): [(0, 1, 4, 14, 16)],
    (31, 6): [(0, 1, 3, 8, 12, 18)],
    (91, 6): [(0, 1, 3, 7, 25, 38), (0, 5, 20, 32, 46, 75), (0, 8, 17, 47, 57, 80)],
    (91, 7): [(0, 8, 29, 51, 54, 61, 63), (0, 11, 16, 17, 31, 35, 58), (0, 13, 26, 39, 52, 65, 78)],
    (91, 10): [(0, 1, 3, 9, 27, 49, 56, 61, 77, 81)],
}


def developed(v, family):
    """Every row moved by 0 .. v-1; one that comes back to itself early is taken once."""
    return sorted({tuple(sorted((x + i) % v for x in row)) for row in family for i in range(v)})


def triples(v):
    """Skolem's construction of the triple system for v = 6t + 1."""
    t = (v - 1) // 6

    def at(i, j):
        return i % (2 * t) * 3 + j % 3

    def half(i, j):
        x = (i + j) % (2 * t)
        return x // 2 if x % 2 == 0 else (x - 1) // 2 + t

    rows = [[at(i, 0), at(i, 1), at(i, 2)] for i in range(t)]
    rows += [[v - 1, at(t + i, j), at(i, j + 1)] for i in range(t) for j in range(3)]
    rows += [[at(i, m), at(j, m), at(half(i, j), m + 1)] for i, j in combinations(range(2 * t), 2) for m in range(3)]
    return sorted(tuple(sorted(row)) for row in rows)


def rows(v, k):
    if k == 2:
        return list(combinations(range(v), 2))
    return developed(v, FAMILIES[v, k]) if (v, k) in FAMILIES else triples(v)


def entries(v, k):
    """Length of the list, b*k."""
    return v * (v - 1) // (k - 1)


def written(root, v, k):
    """A file with the list."""
    out = root / f"target/design-{v}-{k}.txt"
    out.write_text("\n".join(" ".join(map(str, row)) for row in rows(v, k)) + "\n")
    return out
