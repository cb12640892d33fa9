"""Two plots in SVG: how the cost grows, and how the calls stand beside others. Plain text, no package."""
import math
from html import escape

WIDTH = 860
INK, FAINT, PAPER = "#1b1b1b", "#d9d9d9", "#ffffff"
BLUE, ORANGE, GREEN, PURPLE = "#0060a8", "#c85200", "#007a5a", "#8a3a8f"  # told apart by most eyes
BY_U = {512: ORANGE, 4096: BLUE}
GROWTH = "Time for each byte restored against the array's size, and instructions against the list's length"
RATIOS = "Time of C, ISA-L and the Reed-Solomon codes over the library's, one dot a geometry and loss"
FONT = "font-family=\"'DejaVu Sans', Verdana, Arial, sans-serif\""


def text(x, y, words, size=13, anchor="start", colour=INK, weight="normal"):
    look = f'font-size="{size}" text-anchor="{anchor}" fill="{colour}" font-weight="{weight}"'
    return f'<text x="{x:.1f}" y="{y:.1f}" {look}>{escape(words)}</text>'


def line(x, y, x2, y2, colour=INK, width=1.0):
    return f'<line x1="{x:.1f}" y1="{y:.1f}" x2="{x2:.1f}" y2="{y2:.1f}" stroke="{colour}" stroke-width="{width}"/>'


def dot(x, y, colour, hollow=False, says=""):
    fill = PAPER if hollow else colour
    title = f"<title>{escape(says)}</title>" if says else ""
    look = f'fill="{fill}" stroke="{colour}" stroke-width="1.6" fill-opacity="0.85"'
    return f'<circle cx="{x:.1f}" cy="{y:.1f}" r="4" {look}>{title}</circle>'


def picture(height, title, parts):
    head = f'<svg xmlns="http://www.w3.org/2000/svg" viewBox="0 0 {WIDTH} {height}" width="{WIDTH}" height="{height}" {FONT}>'
    ground = f'<rect width="{WIDTH}" height="{height}" fill="{PAPER}"/>'
    return "\n".join([head, f"<title>{escape(title)}</title>", ground, *parts, "</svg>"]) + "\n"


def shown(name, words):
    """The picture in a text."""
    return f"![{words}]({name})"


class Axis:
    """From numbers to points of the picture."""

    def __init__(self, low, high, start, end, log=False):
        self.low, self.high, self.start, self.end, self.log = low, high, start, end, log

    def at(self, x):
        part = math.log(x / self.low) / math.log(self.high / self.low) if self.log else (x - self.low) / (self.high - self.low)
        return self.start + part * (self.end - self.start)

    def ticks(self):
        """Powers of ten, or some five round steps."""
        if self.log:
            low, high = math.floor(math.log10(self.low) + 1e-9), math.ceil(math.log10(self.high) - 1e-9)
            return [10.0**e for e in range(low, high + 1) if self.low <= 10.0**e <= self.high * 1.0001]
        raw = (self.high - self.low) / 5
        unit = 10 ** math.floor(math.log10(raw))
        step = min((unit * n for n in (1, 2, 5, 10)), key=lambda s: abs(s - raw))
        return [self.low + n * step for n in range(int((self.high - self.low) / step + 1.0001))]


def told(x):
    """A tick's number."""
    if x >= 1e6:
        return f"{x / 1e6:g} M"
    return f"{x:,.0f}".replace(",", " ") if x >= 10 else f"{x:g}"


class Panel:
    """Axes with a title, and lines in them."""

    def __init__(self, x, y, title, across, up):
        self.x, self.y, left, right, top, bottom = x, y, x.start, x.end, y.end, y.start
        self.parts = [text(left - 44, top - 30, title, 14, weight="bold")]
        for t in y.ticks():
            self.parts += [line(left, y.at(t), right, y.at(t), FAINT), text(left - 7, y.at(t) + 4, told(t), 12, "end")]
        for t in x.ticks():
            self.parts += [line(x.at(t), bottom, x.at(t), bottom + 5), text(x.at(t), bottom + 20, told(t), 12, "middle")]
        self.parts += [line(left, bottom, right, bottom), text((left + right) / 2, bottom + 42, across, 12, "middle")]
        self.parts += [text(left - 44, top - 12, up, 12)]

    def curve(self, points, colour, name="", hollow=False):
        at = [(self.x.at(x), self.y.at(y)) for x, y in points]
        dash = ' stroke-dasharray="5 4"' if hollow else ""
        path = " ".join(f"{x:.1f},{y:.1f}" for x, y in at)
        self.parts.append(f'<polyline points="{path}" fill="none" stroke="{colour}" stroke-width="2"{dash}/>')
        self.parts += [dot(*place, colour, hollow, f"{told(x)}: {y:.3g}") for place, (x, y) in zip(at, points)]
        if name:
            self.parts.append(text(at[-1][0] + 9, at[-1][1] + 4, name, 12, colour=colour, weight="bold"))


def growth(by_size, counts):
    """`by_size`: for each u, (MB, ns a byte) of the library and of C. `counts`: for each call, (entries, instructions) at k = 2
    and 3."""
    high = 1.15 * max(y for both in by_size.values() for points in both for _, y in points)
    sizes = Panel(Axis(0.3, 1000, 62, 330, True), Axis(0, high, 350, 88), "Rebuild of one disk",
                  "array, MB (k = 3, g = 7, v from 7 to 91)", "ns for each byte restored, from memory; ● library, ○ C")
    for u, (library, fused) in by_size.items():
        sizes.curve(fused, BY_U[u], hollow=True)
        sizes.curve(library, BY_U[u], f"u = {u}")
    every = [y for series in counts.values() for points in series for _, y in points]
    low, top = 10 ** math.floor(math.log10(min(every))), 10 ** math.ceil(math.log10(max(every)))
    lists = Panel(Axis(10, 10000, 500, 740, True), Axis(low, top, 350, 88, True), "Instructions of one call",
                  "entries of the design's list (g = 11)", "● k = 2, ○ k = 3; all but the check less a check")
    for (call, (two, three)), colour in zip(counts.items(), (INK, BLUE, GREEN, PURPLE)):
        lists.curve(three, colour, hollow=True)
        lists.curve(two, colour, call)
    return picture(410, "How the cost grows", sizes.parts + lists.parts)


def ratio_row(axis, y, name, found, asked):
    parts = [text(262, y + 4, name, 13, "end"), line(axis.start, y, axis.end, y, FAINT)]
    for u, values in found.items():
        lift = -4 if u == 512 else 4
        if u in asked:
            parts.append(line(axis.at(asked[u]), y + lift - 6, axis.at(asked[u]), y + lift + 6, GREEN, 3))
        parts += [dot(axis.at(x), y + lift, BY_U[u], says=f"u = {u}: {x:.2f}") for x in values]
    return parts


def ratios(groups):
    """`groups`: (title, rows), a row (name, {u: ratios}, {u: what is asked})."""
    every = [x for _, rows in groups for _, found, _ in rows for values in found.values() for x in values]
    axis = Axis(min(0.5, min(every) / 1.1), max(2.0, max(every) * 1.1), 285, 830, True)
    parts, y = [], 98
    for title, rows in groups:
        parts.append(text(20, y, title, 13, weight="bold"))
        y += 26
        for name, found, asked in rows:
            parts += ratio_row(axis, y, name, found, asked)
            y += 26
        y += 10
    ticks = [t for t in (0.25, 0.35, 0.5, 0.75, 1, 1.5, 2, 3, 4, 6) if axis.low <= t <= axis.high]
    marks = [line(axis.at(t), 72, axis.at(t), y - 12, INK if t == 1 else FAINT, 1.6 if t == 1 else 1) for t in ticks]
    names = [text(axis.at(t), place, f"{t:g}", 12, "middle") for t in ticks for place in (66, y + 6)]
    head = [text(20, 26, "Time of the other over time of the library, from memory", 15, weight="bold"),
            text(axis.at(1) - 8, 48, "← the other is faster", 12, "end"),
            text(axis.at(1) + 8, 48, "the library is faster →", 12),
            dot(30, 44, BY_U[512]), text(40, 48, "u = 512", 12), dot(110, 44, BY_U[4096]), text(120, 48, "u = 4096", 12),
            line(196, 38, 196, 52, GREEN, 3), text(204, 48, "asked", 12)]
    return picture(int(y + 20), "Beside C, ISA-L and Reed-Solomon codes", marks + names + head + parts)
