"""Reads a sheet back into the printer's lines. Shares no code with what makes sheets: the words of the pages, document 01's table
of sets and its sentences are typed anew.

`back` takes the pages apart and stops at the first line that does not belong; `checked` then holds what they say against itself
and against the layout, so that a page that was changed is found by the pages alone."""
import re
import zlib
from collections import namedtuple

SETS = """
7: 0,1,3
13: 0,1,3,9
21: 0,1,4,14,16
31: 0,1,3,8,12,18
57: 0,1,3,13,32,36,43,52
73: 0,1,3,7,15,31,36,54,63
91: 0,1,3,9,27,49,56,61,77,81
"""
SETS = {int(v): [int(n) for n in members.split(",")] for v, members in (line.split(":") for line in SETS.split("\n") if line)}

N = "(0|[1-9][0-9]*)"
HEAD = re.compile(
    r"\+-{78}\+\n"
    rf"\| Shelf   (.*\S) +Page {N} of {N} \|\n"
    rf"\| Lost    disk {N}: group {N}, column {N} +v = {N}   k = {N}   g = {N} \|\n"
    rf"\| Total   {N} units to restore, {N} units to read from {N} disks +\|\n"
    r"\| CRC-32  ([0-9a-f]{8}) of the printer's text +\|\n"
    r"\+-{78}\+\n\n"
)
RESTORE = re.compile(rf"RESTORE    Each unit of disk {N} is the XOR of its sources, written disk/unit\.\n\n")
PULL_LIST = re.compile(rf"PULL LIST  Each source, disk/unit > the unit of disk {N} that it goes into\.\n\n")
FOOT = re.compile(rf"\n-{{80}}\n Done by _+   Date _+ +Disk {N}, page {N} of {N}\n")
PART = re.compile(rf"--- Part {N}(, continued)? --- tuple {N}, groups ([0-9 ]+) -+")
ENTRY = re.compile(r" \[ \] unit +([0-9]+)  (outer|inner)  ([0-9/ ]+)")
MORE = re.compile(r" {15,}([0-9/ ]+)")
GROUP = re.compile(rf"--- Group {N}(, continued)? --- disks {N} to {N} -+ (lost|not needed): disk {N} ---")
CELLS = re.compile(r"(?: +\[ \] +[0-9]+/[0-9]+ +> [0-9]+)+")

Said = namedtuple("Said", "shelf disk group column v k g restored read disks crc")  # what the head of each page says
Part = namedtuple("Part", "number tuple groups entries")
Entry = namedtuple("Entry", "unit tag sources")
Group = namedtuple("Group", "number first last word disk pulls")  # word: lost or not needed; pulls: (restored, disk, unit)
Back = namedtuple("Back", "said pages parts groups")


class Broken(Exception):
    """What is wrong with the pages."""


def must(true, complaint):
    if not true:
        raise Broken(complaint)


def places(text):
    """`disk/unit disk/unit ..`, each number as the printer writes it."""
    found = []
    for word in text.split():
        match = re.fullmatch(f"{N}/{N}", word)
        must(match, f"no disk/unit: {word}")
        found.append((int(match[1]), int(match[2])))
    return found


def pages_of(text):
    """The pages, with the bounds on lines and columns."""
    pages = text.split("\f")
    for number, page in enumerate(pages, 1):
        must(page.endswith("\n"), f"page {number} ends inside a line")
        lines = page.split("\n")[:-1]
        must(len(lines) <= 60, f"page {number} has {len(lines)} lines")
        for line in lines:
            must(len(line) <= 80 and line == line.rstrip() and (line == "" or line.isprintable()), f"page {number}: line {line!r}")
    return pages


def taken_apart(page, number, count):
    """The head's words, whether the page is of the pull list, and the lines between."""
    head, foot = HEAD.match(page), FOOT.search(page)
    must(head, f"page {number} has no head")
    must(foot and foot.end() == len(page), f"page {number} has no foot")
    shelf, at, of, *numbers, crc = head.groups()
    said = Said(shelf, *map(int, numbers), int(crc, 16))
    restore, pull = RESTORE.match(page, head.end()), PULL_LIST.match(page, head.end())
    title = restore or pull
    must(title, f"page {number} has no title")
    must((int(at), int(of)) == (number, count), f"page {number} says that it is page {at} of {of}")
    must((int(foot[2]), int(foot[3])) == (number, count), f"page {number} says below that it is page {foot[2]} of {foot[3]}")
    must(int(title[1]) == int(foot[1]) == said.disk, f"page {number} names two disks")
    return said, bool(pull), page[title.end() : foot.start()].split("\n")


def add_heading(found, made, again, first):
    """A new part or group; or, at the top of a page, the one that goes on."""
    if again:
        must(first and found and found[-1][:-1] == made[:-1], f"not what goes on: {made[:-1]}")
    else:
        must(made.number == len(found), f"out of turn: {made[:-1]}")
        found.append(made)


def read_restore(parts, lines):
    """One page's parts and entries. The lines of an entry follow each other."""
    before = "top"
    for line in lines:
        part, entry, more = PART.fullmatch(line), ENTRY.fullmatch(line), MORE.fullmatch(line)
        if part:
            made = Part(int(part[1]), int(part[3]), [int(n) for n in part[4].split(" ")], [])
            add_heading(parts, made, part[2], before == "top")
        elif entry and before != "top":
            parts[-1].entries.append(Entry(int(entry[1]), entry[2], places(entry[3])))
        elif more and before == "entry":
            parts[-1].entries[-1].sources.extend(places(more[1]))
        else:
            must(line == "" and before != "top", f"not a line of an entry: {line!r}")
        before = "entry" if entry or more else "other"


def read_pulls(groups, lines):
    top = True
    for line in lines:
        group = GROUP.fullmatch(line)
        if group:
            made = Group(int(group[1]), int(group[3]), int(group[4]), group[5], int(group[6]), [])
            add_heading(groups, made, group[2], top)
        elif CELLS.fullmatch(line) and not top:
            for place, restored in re.findall(r"\[ \] +([0-9/]+) +> ([0-9]+)", line):
                groups[-1].pulls.append((int(restored), *places(place)[0]))
        else:
            must(line == "" and not top, f"not a line of the pull list: {line!r}")
        top = False


def back(text):
    """What the pages say, line by line."""
    pages = pages_of(text)
    heads, turns, parts, groups = set(), [], [], []
    for number, page in enumerate(pages, 1):
        said, pull, lines = taken_apart(page, number, len(pages))
        heads.add(said)
        turns.append(pull)
        (read_pulls if pull else read_restore)(groups if pull else parts, lines)
    must(len(heads) == 1, "the heads of the pages differ")
    must(turns == sorted(turns) and len(set(turns)) == 2, "the pull list does not follow the units to restore")
    return Back(heads.pop(), len(pages), parts, groups)


def from_entries(sheet):
    """The triples in the order of the entries."""
    return [(entry.unit, *source) for part in sheet.parts for entry in part.entries for source in entry.sources]


def from_pulls(sheet):
    """The same triples from the pull list: 01 orders outer members by position, so by disk, and inner ones by row, so by unit."""
    g = sheet.said.g
    pulls = [pull for group in sheet.groups for pull in group.pulls]
    return sorted(pulls, key=lambda pull: (pull[0], pull[2] if pull[0] % g == g - 1 else pull[1]))


def printed(triples):
    """The printer's text for the triples."""
    return "".join("%d %d %d\n" % triple for triple in triples).encode()


def check_head(sheet, triples):
    said = sheet.said
    must(said.v in SETS and said.k == len(SETS[said.v]) and said.g > 1, "v, k and g do not fit")
    must(said.disk == said.group * said.g + said.column and said.column < said.g and said.group < said.v, "disk, group and column")
    must(said.crc == zlib.crc32(printed(triples)), "the CRC-32 is another text's")
    must(said.restored == len({triple[0] for triple in triples}) == sum(len(part.entries) for part in sheet.parts), "units to do")
    must(said.read == len({triple[1:] for triple in triples}) == len(triples), "units to read")
    must(said.disks == len({triple[1] for triple in triples}), "disks to read from")


def check_parts(sheet):
    """Each part belongs to the p-th tuple that names the group; its entries are its units, with whole sets of sources."""
    v, k, g, own = sheet.said.v, sheet.said.k, sheet.said.g, sheet.said.group
    tuples = [t for t in range(v) if any((member + t) % v == own for member in SETS[v])]
    must([part.tuple for part in sheet.parts] == tuples, "the parts' tuples")
    for part in sheet.parts:
        must(part.groups == sorted((member + part.tuple) % v for member in SETS[v]), f"the groups of tuple {part.tuple}")
        units = [part.number * g + row for row in range(g)]
        must([entry.unit for entry in part.entries] == units, f"the units of part {part.number}")
        for entry in part.entries:
            from_groups = [disk // g for disk, _ in entry.sources]
            outer = [group for group in part.groups if group != own]
            must(from_groups == (outer if entry.tag == "outer" else [own] * (g - 1)), f"unit {entry.unit} is not {entry.tag}")
            must((entry.tag == "inner") == (entry.unit % g == g - 1), f"unit {entry.unit} can't be {entry.tag}")


def check_groups(sheet, triples):
    """Each group has its disks, and names the one that no entry reads."""
    read, g = {triple[1] for triple in triples}, sheet.said.g
    must(len(sheet.groups) == sheet.said.v, "the pull list has not all groups")
    for group in sheet.groups:
        disks = range(group.number * g, group.number * g + g)
        must((group.first, group.last) == (disks[0], disks[-1]), f"the disks of group {group.number}")
        must(group.word == ("lost" if group.number == sheet.said.group else "not needed"), f"group {group.number} is {group.word}")
        must([group.disk] == [disk for disk in disks if disk not in read], f"group {group.number} does not need disk {group.disk}")
        by_disk = [pull[1:] for pull in group.pulls]
        must(by_disk == sorted(by_disk) and all(disk in disks for disk, _ in by_disk), f"the pulls of group {group.number}")
    must(sheet.groups[sheet.said.group].disk == sheet.said.disk, "the lost disk's group names another")


def checked(text):
    """The sheet, if its pages agree with each other and with the layout."""
    sheet = back(text)
    triples = from_entries(sheet)
    check_head(sheet, triples)
    check_parts(sheet)
    check_groups(sheet, triples)
    must(from_pulls(sheet) == triples, "the pull list and the entries differ")
    return sheet
