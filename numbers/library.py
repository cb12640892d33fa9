"""Builds the C programs and asks the proved library through them."""
import subprocess
from collections import namedtuple
from fractions import Fraction
from functools import cache
from pathlib import Path

ROOT = Path(__file__).resolve().parent.parent
OUT = ROOT / "target/numbers"
ARCHIVE = ROOT / "target/lib/libhimzolven.a"
WARNINGS = ["-Wall", "-Wextra", "-Wpedantic", "-Wconversion", "-Werror"]
PRIMES = (2, 3, 5, 7, 11, 13)
F = (0, 2, 6, 0, 1, 3, 1, 2, 4, 2, 3, 5, 3, 4, 6, 0, 4, 5, 1, 5, 6)

COUNTS = "disks units parts user outer inner written lost coded read read_coded most most_coded own others idle"


class Facts(namedtuple("Counts", COUNTS)):
    """What numbers/facts.c counts, and the measures of 000 section 8 made of it.

    "coded": 000 restores the units that the outer layer encodes and leaves the inner parities for later. Without it: the whole
    disk, as the library rebuilds it."""

    def speedup(self, coded):
        return Fraction(self.coded, self.most_coded) if coded else Fraction(self.lost, self.most)

    def ratio(self, coded):
        return Fraction(self.read_coded, self.coded) if coded else Fraction(self.read, self.lost)

    def bound(self, coded):
        return lower_bound(self.speedup(coded), self.ratio(coded))

    def overhead(self):
        return 1 - Fraction(self.user, self.disks * self.units)

    def overhead_outer(self):
        return Fraction(self.outer, self.user + self.outer)


def lower_bound(speedup, ratio):
    """000, equation 4."""
    return -(-Fraction(speedup * ratio) // 1) + 1


@cache
def program(name, archive):
    """Compiles numbers/NAME.c and gives its path."""
    OUT.mkdir(parents=True, exist_ok=True)
    if archive == ARCHIVE and not archive.exists():
        subprocess.run([ROOT / "scripts/library"], check=True, stdout=subprocess.DEVNULL)
    if not archive.exists():
        raise ValueError(f"there is no archive {archive}")
    made = OUT / name
    linked = [archive] if name != "peel" else []
    flags = ["-std=c11", "-O2", *WARNINGS, f"-I{ROOT / 'include'}"]
    if subprocess.run(["gcc", *flags, "-o", made, ROOT / f"numbers/{name}.c", *linked], check=False).returncode != 0:
        raise ValueError(f"numbers/{name}.c could not be compiled")
    return made


KNOWN = {}


def facts(geometries, archive):
    """The facts of each (v, k, g, rows); no rows for the held design."""
    asked = [one for one in geometries if one not in KNOWN]
    lines = "".join(" ".join(map(str, (v, k, g, *rows))) + "\n" for v, k, g, rows in asked)
    told = subprocess.run([program("facts", archive)], input=lines, check=True, stdout=subprocess.PIPE, text=True).stdout
    KNOWN.update((one, Facts(*map(int, line.split()))) for one, line in zip(asked, told.splitlines(), strict=True))
    return [KNOWN[one] for one in geometries]


def complete(v):
    """The complete graph of v groups: 000, section 6."""
    return tuple(group for one in range(v) for other in range(one + 1, v) for group in (one, other))


def lines_of_15():
    """A design of 15 groups in rows of 3, as 000 section 9.2 takes one: numbers 1 to 15, in each row three that XOR to 0."""
    rows = [(a, b, a ^ b) for a in range(1, 16) for b in range(a + 1, 16) if b < a ^ b]
    return tuple(number - 1 for row in rows for number in row)
