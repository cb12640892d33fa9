"""What was asked of the library, and what this run found: one row a target."""
from tables import prose, shown, table

ABOUT = """
Asked and found, each a ratio within this run. "Worst" is over the geometries and unit sizes of the tables below. Where a target
is missed, the places follow the table, with what this run has to say of the cause. Asked for growth was "flat" and "with the list
only": the bounds are our reading of that. Not told: what is hot is measured only where it fits the second cache, and a difference
only where it is large enough.
"""
UNKNOWN = "No cause is known."


class Target:
    """`got`: places with what was found there. `most`: the bound is an upper one. `cause` says why places are missed."""

    def __init__(self, what, bound, got, cause=None, most=False):
        self.what, self.bound, self.most, self.cause = what, bound, most, cause
        self.got = [(place, x) for place, x in got if x is not None]
        self.untold = len(got) - len(self.got)
        self.missed = [(place, x) for place, x in self.got if (x > bound if most else x < bound)]

    def worst(self):
        return (max if self.most else min)((x for _, x in self.got), default=None)

    def row(self):
        asked = f"at {'most' if self.most else 'least'} {self.bound}"
        found = f"missed at {len(self.missed)} of {len(self.got)}" if self.missed else "met" if self.got else "not measured"
        if self.untold and self.got:
            found += f"; not told at {self.untold}"
        return [self.what, asked, shown(self.worst()), found]

    def misses(self):
        """A sentence with the places, or none."""
        places = [f"{place.at()}: {x:.2f}" + (f" ({self.cause.note(place)})" if self.cause else "") for place, x in self.missed]
        why = self.cause.told([place for place, _ in self.missed]) if self.cause else UNKNOWN
        return [prose(f"- {self.what}: {'; '.join(places)}. {why}")] if places else []


class Cause:
    """`note` gives what stands in brackets after a missed place, and `says` tells what that is. Where `holds` is true of a place,
    the cause is what `because` tells; elsewhere none is known."""

    def __init__(self, note, says, because="", holds=lambda place: False):
        self.note, self.says, self.because, self.holds = note, says, because, holds

    def told(self, places):
        known = [place.at() for place in places if self.holds(place)]
        if len(known) == len(places):
            return f"{self.says} {self.because}"
        at = f"For {'; '.join(known)}: {self.because} Elsewhere: " if known else ""
        return f"{self.says} {at}{UNKNOWN}"


class Place:
    """A place that has nothing but a name."""

    def __init__(self, name):
        self.name = name

    def at(self):
        return self.name


def report(targets):
    missed = [line for t in targets for line in t.misses()]
    out = [prose(ABOUT), "", *table(["target", "asked", "worst", "found"], [t.row() for t in targets])]
    return out + (["", "Missed:", "", *missed] if missed else ["", "None is missed."])
