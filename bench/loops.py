"""Whether the byte loops of the archive are packed: its disassembly, with how often each instruction runs in a call."""
import re
import subprocess

from tables import prose, table

CALLS = ("format", "read", "write", "audit", "rebuild")
CASE = (7, 3, 3)
SIZES = (127, 128, 4095, 4096)
ABOUT = f"""
By disassembly of the linked archive, with the instructions that one call ran on F, g = 3 (callgrind); the rebuild is of 2+1
disks. Listed are the loops that ran, have no packed access and take 8 bytes or fewer at a time: those whose turns depend on u,
and those that take single bytes. A tail turns as often at u = 4095 as at {SIZES[0]} and at 4096 as at {SIZES[1]}: whole blocks
add no turn. What is the same at each u belongs to the check of the design, which stops at the first fault, to the marks, and to
the flags by which a rebuild decides. Calls are those to the C library, with how often each is made.
"""
PACKED = "No loop grows with u: every byte loop is packed but for its tail."
WIDTH = {"BYTE": 1, "WORD": 2, "DWORD": 4, "QWORD": 8, "XMMWORD": 16, "YMMWORD": 32, "ZMMWORD": 64}


def functions(say, archive):
    """The archive's functions as linked: name, and its instructions as (address, text)."""
    own = set(re.findall(r"^[0-9a-f]+ [tT] (.+)$", say("nm", archive), re.M))
    out, name = {}, None
    for line in say("objdump", "-d", "-M", "intel", "--no-show-raw-insn", "target/bytes").splitlines():
        head = re.fullmatch(r"[0-9a-f]+ <(.+)>:", line)
        step = re.match(r"\s*([0-9a-f]+):\s+(.+)", line)
        if head:
            name = head[1] if head[1] in own else None
        elif step and name:
            out.setdefault(name, []).append((int(step[1], 16), re.sub(r"\s+", " ", step[2]).strip()))
    return out


def runs(root, call, u):
    """How often each address runs in one call. callgrind counts while that call is on the stack."""
    out = root / "target/callgrind.out"
    subprocess.run(
        ["valgrind", "--tool=callgrind", "--dump-instr=yes", "--compress-strings=no", "--compress-pos=no",
         f"--toggle-collect=himzolven_{call}", f"--callgrind-out-file={out}",
         "target/bytes", "once", call, *map(str, CASE), str(u)],
        cwd=root, check=True, capture_output=True, text=True,
    )
    counts, skip = {}, False
    for line in out.read_text().splitlines():
        cost = re.fullmatch(r"(0x[0-9a-f]+) \d+ (\d+)", line)
        if cost and not skip:
            at = int(cost[1], 16)
            counts[at] = counts.get(at, 0) + int(cost[2])
        skip = line.startswith("calls=")
    return counts


def touches(text):
    """Bytes that one memory operand moves, 0 where there is none."""
    found = re.search(r"\b(BYTE|WORD|DWORD|QWORD|XMMWORD|YMMWORD|ZMMWORD) PTR", text)
    return 0 if not found or "nop" in text or text.startswith("lea ") else WIDTH[found[1]]


def loops(code):
    """Backward jumps of a function, as (first address, last address)."""
    first, last = code[0][0], code[-1][0]
    out = set()
    for at, text in code:
        jump = re.match(r"j\w+ ([0-9a-f]+)\b", text)
        if jump and first <= int(jump[1], 16) <= at <= last:
            out.add((int(jump[1], 16), at))
    return out


def innermost(found, at):
    return min((x for x in found if x[0] <= at <= x[1]), key=lambda x: x[1] - x[0], default=None)


def narrow_loops(code):
    """Innermost loops with no packed access in them that move 1 to 8 bytes at a time: their instructions that do."""
    found, out = loops(code), {}
    for at, text in code:
        loop = innermost(found, at)
        if loop and 0 < touches(text) <= 8:
            out.setdefault(loop, []).append((at, text))
    packed = [at for at, text in code if touches(text) >= 16]
    return {loop: steps for loop, steps in out.items() if not any(loop[0] <= at <= loop[1] for at in packed)}


def kind(turns):
    """A tail turns as often at 4095 as at 127 and at 4096 as at 128: whole blocks that u gains add no turn of it."""
    if turns[0] == turns[2] and turns[1] == turns[3]:
        return "same at each u" if turns[0] == turns[1] else "tail"
    return "grows with u"


def moved(code, counts, least, most):
    """Accesses of these widths that ran, and their bytes."""
    all_steps = [step for steps in code.values() for step in steps]
    ran = [(counts.get(at, 0), touches(text)) for at, text in all_steps if least <= touches(text) <= most]
    return sum(n for n, _ in ran), sum(n * width for n, width in ran)


def handed(code, counts):
    """The calls of the C library's functions, and how many. The instruction before a call is counted: the call itself gets some
    of what its first run costs."""
    made = {}
    for steps in code.values():
        for (before, _), (_, text) in zip(steps, steps[1:]):
            for name in re.findall(r"<(mem\w+)@plt>", text) if counts.get(before) else ():
                made[name] = made.get(name, 0) + counts[before]
    return ", ".join(f"{name}: {n}" for name, n in sorted(made.items()))


def loop_rows(code, call, counts):
    """The narrow loops of a call that turned: tails and growing ones, and of the others those that take single bytes."""
    for name, steps in sorted(code.items()):
        for loop, moves in sorted(narrow_loops(steps).items()):
            turns = [max(c.get(at, 0) for at, _ in moves) for c in counts]
            widths = sorted({touches(text) for _, text in moves})
            if max(turns) > 1 and (kind(turns) != "same at each u" or widths[0] == 1):
                what = ", ".join(dict.fromkeys(text.split()[0] for _, text in moves))
                here = f"{name}+{loop[0] - steps[0][0]:#x}"
                yield (here, "/".join(map(str, widths)), what, *turns, kind(turns)), call


def unpacked(say):
    """C's passes that have no packed loop: a slow baseline would prove nothing."""
    code = functions(say, "target/contest.o")
    passes = {name: steps for name, steps in code.items() if re.search(r"_pass$|^fused_(differ|restore)$|^read_all$", name)}
    packed = {n for n, steps in passes.items() for at, x in steps if touches(x) >= 16 and innermost(loops(steps), at)}
    return sorted(set(passes) - packed), sorted(packed)


def inspect(say, root, archive):
    """Totals of each call, the narrow loops, and those that grow with u."""
    code, rows, totals = functions(say, archive), {}, []
    for call in CALLS:
        counts = [runs(root, call, u) for u in SIZES]
        if any(c.get(code[f"himzolven_{call}"][0][0]) != 1 for c in counts):
            raise SystemExit(f"bench: himzolven_{call} was not counted")
        for row, where in loop_rows(code, call, counts):
            rows.setdefault(row, []).append(where)
        narrow = [moved(code, counts[i], 1, 4)[0] for i in (1, 3)]
        totals.append((call, moved(code, counts[3], 16, 64)[1], *narrow, handed(code, counts[3])))
    listed = sorted(rows.items(), key=lambda r: (r[0][7], r[0]))
    growing = [f"{row[0]} in {', '.join(calls)}" for row, calls in listed if row[7] == "grows with u"]
    return totals, [(*row, ", ".join(calls)) for row, calls in listed], growing


def report(totals, rows, growing, baseline):
    found = "Not packed: " + "; ".join(growing) + "." if growing else PACKED
    out = [prose(ABOUT), "", found, ""]
    out += table(["call", "bytes moved packed at u = 4096", "accesses of 1 to 4 bytes at u = 128", "at 4096", "calls"], totals)
    heads = ["loop", "bytes an access", "instructions", "turns at u = 127", "128", "4095", "4096", "kind", "in"]
    return out + ["", *table(heads, rows), "", f"C's own loops are packed too: {', '.join(baseline)}."]
