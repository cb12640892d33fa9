"""Figures as document 000 prints them, typed from its table 4, and one sentence for each that differs from ours."""
from fractions import Fraction

# layout: speed-up ratio, read volume ratio, lower bound, system scale (disks), storage overhead
COLUMNS = ("speed-up", "read ratio", "lower bound", "disks", "overhead")
TABLE_4 = {
    "S²(3,3)": ("3", "2", "7", "9", "0.33"),
    "S²(5,5)": ("5", "4", "21", "25", "0.2"),
    "S²(3,17)": ("17", "2", "35", "51", "0.33"),
    "PD(7,3,1)": ("3", "2", "7", "7", "0.33"),
    "PD(21,5,1)": ("5", "4", "21", "21", "0.2"),
    "PD(51,8,1)": ("8", "7", "51", "51", "0.13"),
    "OI(7,3,1,3)": ("6", "2", "13", "21", "0.56"),
    "OI(7,3,1,7)": ("18", "2", "37", "49", "0.43"),
    "OI(13,4,1,11)": ("40", "3", "121", "143", "0.32"),
    "OI(21,5,1,11)": ("50", "4", "201", "231", "0.27"),
    "OICG(11,11)": ("100", "1", "101", "121", "0.54"),
}
MISPRINT = "r = k = 8 gives v = r(k-1)/λ + 1 = 57 groups (section 3.3); table 1 has the same 51 for 57"
EXPLAINED = {
    ("PD(51,8,1)", "lower bound"): MISPRINT,
    ("PD(51,8,1)", "disks"): MISPRINT,
    ("OICG(11,11)", "overhead"): "the overhead is 6/11 = 0.5454.., which 000 has cut off and not rounded",
}


def rounded(value, places):
    """A fraction in decimal, halves up."""
    scale = 10**places
    whole = (2 * value * scale + 1) // 2
    return f"{whole // scale}.{whole % scale:0{places}d}" if places else str(whole)


def plain(value):
    """A number that is whole, or two places of it."""
    return str(value) if Fraction(value).denominator == 1 else rounded(Fraction(value), 2)


def agrees(value, printed):
    places = len(printed.partition(".")[2])
    return rounded(Fraction(value), places) == printed


def beside(layout, column, value):
    """Our value, with 000's where it differs. A difference without a sentence is an error, and so is the reverse."""
    printed = TABLE_4[layout][COLUMNS.index(column)]
    same = agrees(value, printed)
    if same == ((layout, column) in EXPLAINED):
        raise ValueError(f"{layout}, {column}: ours is {plain(value)}, 000 prints {printed}, the sentence on it is not right")
    return plain(value) if same else f"**{plain(value)}** (000: {printed})"
