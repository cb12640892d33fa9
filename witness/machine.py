"""What the store witness's commands share: building it, the sites it measures, and the machine code they stand in."""
import re
import struct
import subprocess
import sys
from collections import namedtuple
from pathlib import Path

ROOT = Path(__file__).resolve().parent.parent
HERE = ROOT / "witness"
WORK = ROOT / "target/witness"
ARCHIVE = ROOT / "target/lib/libhimzolven.a"
FLAGS = ["-std=c11", "-O2", "-Wall", "-Wextra", "-Wpedantic", "-Wconversion", "-Werror", "-no-pie", "-fno-pie"]
# the four units of a write, in the order and by the names of witness.c
UNITS = ["data unit", "outer parity", "inner parity of the data", "inner parity of the outer parity"]

PREFIXES = r"(?:data16 |cs |ds |es |lock |rep\w* )*"
# with a memory operand first, these read it or only name it
READERS = r"(?:cmp|test|lea|nop|call|jmp|push|mul|imul|div|idiv|bt|prefetch\w*|u?comis[sd]|v?ptest|fld)\b"

Site = namedtuple("Site", "address unit stores most")  # an instruction that stored to a unit: how often, the most bytes at once
Instruction = namedtuple("Instruction", "address code text function start")  # start: the function's address


def stop(message):
    sys.exit(f"witness/{Path(sys.argv[0]).name}: {message}")


def command(*words):
    """What a command that must succeed prints."""
    ran = subprocess.run([str(w) for w in words], capture_output=True, text=True)
    if ran.returncode:
        stop(f"{' '.join(map(str, words))}:\n{(ran.stderr or ran.stdout).rstrip()}")
    return ran.stdout


def options(about):
    """--archive LIB.a and --include DIR, for another build than the shipped one."""
    words, chosen = sys.argv[1:], {"--archive": ARCHIVE, "--include": ROOT / "include"}
    while words:
        if words[0] not in chosen or len(words) < 2:
            sys.exit(about)
        chosen[words[0]] = Path(words[1])
        words = words[2:]
    if not chosen["--archive"].is_file():
        stop(f"there is no {chosen['--archive']}; `scripts/library` makes the shipped one")
    return chosen["--archive"], chosen["--include"]


def build(name, archive, include, sources, *words):
    """A program under target/witness, linked with the archive."""
    WORK.mkdir(parents=True, exist_ok=True)
    command("gcc", *FLAGS, f"-I{include}", *words, "-o", WORK / name, *(HERE / s for s in sources), archive)
    return WORK / name


def measured(program):
    """The witness's own words, and the sites it saw."""
    listed = WORK / "sites"
    told = command(program, "--sites", listed)
    sites = [Site(int(a, 16), int(w), int(n), int(m)) for a, w, n, m in map(str.split, listed.read_text().splitlines())]
    return told, sites


def instructions(path):
    """Every instruction of an ELF file or an archive, in the order of objdump."""
    out, function, start = [], "", 0
    for line in command("objdump", "-d", "-w", "-M", "intel", "--insn-width=15", path).splitlines():
        head = re.fullmatch(r"([0-9a-f]{16}) <(.+)>:", line)
        row = re.match(r" *([0-9a-f]+):\t((?:[0-9a-f]{2} )+) *\t(.*)", line)
        if head:
            function, start = head[2], int(head[1], 16)
        elif row:
            text = re.sub(r"\s+# [0-9a-f]+ <.*>$", "", row[3])
            out.append(Instruction(int(row[1], 16), bytes.fromhex(row[2]), " ".join(text.split()), function, start))
    return out


def other_stores(linked, functions, sites):
    """The stores of these functions that are no sites: how many go to the stack, [rsp ..], and the others."""
    stack, other, seen = 0, [], {s.address for s in sites}
    for i in linked:
        operand = re.match(PREFIXES + r"(\w+) ([^,]*\[[^\]]*\])", i.text)
        if i.function not in functions or i.address in seen or not operand or re.match(READERS, operand[1]):
            continue
        if re.search(r"\[(?:[a-z0-9]+\*\d\+)?rsp\b", operand[2]):
            stack += 1
        else:
            other.append(i)
    return stack, other


def file_offset(elf, address):
    """Where the byte at an address stands in an executable of fixed addresses: its loaded segments say that."""
    at, size, count = struct.unpack_from("<Q", elf, 32)[0], *struct.unpack_from("<HH", elf, 54)
    for i in range(count):
        kind, _, offset, start, _, length = struct.unpack_from("<IIQQQQ", elf, at + i * size)
        if kind == 1 and start <= address < start + length:
            return offset + address - start
    return None


def own_sites(sites, by_address):
    """The sites, each of which must stand in the program itself and store to one unit only."""
    for site in sites:
        if site.address not in by_address:
            stop(f"the {UNITS[site.unit]} is stored at {site.address:#x}, outside the program")
        units = sorted(s.unit for s in sites if s.address == site.address)
        if len(units) > 1:
            names = ", ".join(UNITS[w] for w in units)
            stop(f"one instruction, `{by_address[site.address].text}` at {site.address:#x}, stores to each of: {names}")
    for w, name in enumerate(UNITS):
        if not any(s.unit == w for s in sites):
            stop(f"no instruction stores to the {name}")
    return sites
