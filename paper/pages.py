"""A plan as pages of plain text: first the units to restore, part by part, then the pull list, group by group."""
from collections import namedtuple

WIDTH, LINES = 80, 60
Section = namedtuple("Section", "name what right items")  # an item is a list of lines that stay on one page


def rule(left, right=""):
    """A line of dashes with words in it."""
    right = f" {right} ---" if right else ""
    return f"--- {left} ".ljust(WIDTH - len(right), "-") + right


def heading(section, again):
    return rule(f"{section.name}{', continued' if again else ''} --- {section.what}", section.right)


def filled(sections, room, gap):
    """Pages of at most `room` lines. A heading stands with its first item, and again on each page where its items go on."""
    pages = [[]]
    for section in sections:
        blank = [""] if pages[-1] else []
        lead = blank + [heading(section, False)] + [""] * gap
        for number, item in enumerate(section.items):
            if len(pages[-1]) + len(lead) + len(item) > room:
                pages.append([])
                lead = [heading(section, number > 0)] + [""] * gap
            pages[-1] += lead + item
            lead = [""] * gap
    return pages


def roomiest(sections, room):
    """With a blank line around each item if that takes no more pages than without."""
    return min(filled(sections, room, 1), filled(sections, room, 0), key=len)


def spread(count, width, room):
    """How many cells stand on a line, shared out evenly over as few lines as they need, and how far apart they can stand."""
    lines = -(-count // ((room + 2) // (width + 2)))
    each = -(-count // lines)
    return each, min(4, (room - each * width) // max(1, each - 1))


def rows(cells, each, apart):
    return [(" " * apart).join(cells[n : n + each]).rstrip() for n in range(0, len(cells), each)]


def widths(plan):
    """How many digits the disks and the units of the array have at most."""
    return len(str(plan.v * plan.g - 1)), len(str(len(plan.parts) * plan.g - 1))


def place(plan, disk, unit):
    digits, unit_digits = widths(plan)
    return f"{disk:>{digits}}/{unit:<{unit_digits}}"


def restore_entry(plan, entry):
    lead = f" [ ] unit {entry.unit:>{widths(plan)[1]}}  {entry.tag}  "
    cells = [place(plan, *source) for source in entry.sources]
    # the sources of outer and inner entries stand under each other
    outer, inner = (spread(count, len(cells[0]), WIDTH - len(lead)) for count in (plan.k - 1, plan.g - 1))
    first, *rest = rows(cells, outer[0] if entry.tag == "outer" else inner[0], min(outer[1], inner[1]))
    return [lead + first] + [" " * len(lead) + line for line in rest]


def restore_sections(plan):
    return [
        Section(
            f"Part {part.number}",
            f"tuple {part.tuple}, groups {' '.join(map(str, part.groups))}",
            "",
            [restore_entry(plan, entry) for entry in part.entries],
        )
        for part in plan.parts
    ]


def pull_rows(plan, disks):
    """A cell for each unit that the disks give."""
    width = widths(plan)[1]
    cells = [f"[ ] {place(plan, disk, unit)} > {restored:<{width}}" for disk in disks for unit, restored in plan.pulls[disk]]
    return [" " + line for line in rows(cells, *spread(len(cells), len(cells[0]), WIDTH - 1))]


def pull_sections(plan):
    sections = []
    for group in range(plan.v):
        first, last = group * plan.g, group * plan.g + plan.g - 1
        disks = [disk for disk in range(first, last + 1) if disk in plan.pulls]
        if group == plan.disk // plan.g:
            right, items = f"lost: disk {plan.disk}", [pull_rows(plan, [disk]) for disk in disks]
        else:
            right, items = f"not needed: disk {plan.spare[group]}", [pull_rows(plan, disks)]
        sections.append(Section(f"Group {group}", f"disks {first} to {last}", right, items))
    return sections


def boxed(left, right=""):
    return f"| {left}{right:>{WIDTH - 4 - len(left)}} |"


def head(plan, shelf, number, count):
    restored = len(plan.parts) * plan.g
    read = sum(map(len, plan.pulls.values()))
    edge = "+" + "-" * (WIDTH - 2) + "+"
    return [
        edge,
        boxed(f"Shelf   {shelf}", f"Page {number} of {count}"),
        boxed(
            f"Lost    disk {plan.disk}: group {plan.disk // plan.g}, column {plan.disk % plan.g}",
            f"v = {plan.v}   k = {plan.k}   g = {plan.g}",
        ),
        boxed(f"Total   {restored} units to restore, {read} units to read from {len(plan.pulls)} disks"),
        boxed(f"CRC-32  {plan.crc:08x} of the printer's text"),
        edge,
    ]


def foot(plan, number, count):
    left = " Done by ______________________   Date ______________"
    return ["-" * WIDTH, left + f"Disk {plan.disk}, page {number} of {count} ".rjust(WIDTH - len(left)).rstrip()]


def sheet(plan, shelf):
    """The pages, each of LINES lines with its line ends, and a form feed between two."""
    around = len(head(plan, shelf, 1, 1)) + len(foot(plan, 1, 1)) + 4  # blank, title, blank; blank
    parts = [
        (f"RESTORE    Each unit of disk {plan.disk} is the XOR of its sources, written disk/unit.", restore_sections(plan)),
        (f"PULL LIST  Each source, disk/unit > the unit of disk {plan.disk} that it goes into.", pull_sections(plan)),
    ]
    bodies = [["", title, ""] + body for title, sections in parts for body in roomiest(sections, LINES - around)]
    pages = []
    for number, body in enumerate(bodies, 1):
        above, below = head(plan, shelf, number, len(bodies)) + body, foot(plan, number, len(bodies))
        lines = above + [""] * (LINES - len(above) - len(below)) + below
        pages.append("".join(line + "\n" for line in lines))
    return "\f".join(pages)
