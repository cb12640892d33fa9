#!/usr/bin/env python3
"""Respells the repository's own definitions and lemmas, once, as today's library spells its own.

usage: tools/respell-names.py [--dry]     at the top, after the library's own port script and before its result is committed

Words, lemmas and fields are in snake case, facts and types in camel case: `writeOf` is `write_of`, `kept-old` is `kept_old`,
`Demand-1` is `Demand1`. Functions of src/, exported C names, strings, inputs and outputs keep their names. A name is respelled
only where it is the repository's own: where it is declared, where it is imported from a crate of crates.txt, and as a field.
"""

import os
import re
import subprocess
import sys

ROOT = os.getcwd()
CRATES = {l.split(":")[0].split()[0] for l in open("crates.txt") if l.strip() and not l.startswith("#")}
DECL = re.compile(r"^(\s*)((?:(?:abbrev|unfoldable|pub|data|record|ruleset)\s+)*)([^\s:(){}\[\],;.=λ]+)((?:\s*[({][^(){}]*(?:\([^()]*\)[^(){}]*)*[)}])*)\s*:(?=\s|$)")
TOKEN = re.compile(r"[^\s(){}\[\],;.λ«»`\"]+")
USE = re.compile(r"use\s+(Rattle\.[\w.+]+?)\.\{([^}]*)\}")
# lemmas that would fall together with what they speak of
APART = {
    ("Rattle.counting.proofs.Laws", "lowest_step"): "lowest_step_lem",
    ("Rattle.decimals.proofs.Laws", "is_digit"): "is_digit_lem",
    ("Rattle.held.proofs.Table", "all-below"): "all_below_lem",
    ("Rattle.held.proofs.Table", "all_pass"): "all_pass_lem",
    ("Rattle.rebuilding.proofs.Count", "cell-number"): "cell_number_lem",
    ("Rattle.onedisk.proofs.Members", "in-range"): "in_range_lem",
    ("Rattle.numbering.proofs.SetNumbers", "inner-rest"): "inner_rest_lem",
    ("Rattle.numbering.proofs.SetNumbers", "outer-rest"): "outer_rest_lem",
    ("Rattle.layout.proofs.Scanned", "is-part"): "is_part_lem",
    ("Rattle.numbering.proofs.Positions", "data-position"): "data_position_lem",
    ("Rattle.cells.proofs.Sets", "diagonal-column"): "diagonal_column_lem",
    ("Rattle.auditing.proofs.Sets", "diagonal-zero"): "diagonal_zero_lem",
    ("Rattle.checking.proofs.Entries", "entry-bad"): "entry_bad_lem",
    ("Rattle.held.proofs.Difference", "held-design"): "held_design_lem",
    ("Rattle.auditing.proofs.Sets", "inner-zeros"): "inner_zeros_lem",
    ("Rattle.cells.proofs.Sets", "label-column"): "label_column_lem",
    ("Rattle.auditing.proofs.Sets", "label-zero"): "label_zero_lem",
    ("Rattle.array.proofs.Fits", "mark-high"): "mark_high_lem",
    ("Rattle.checking.proofs.Entries", "number-bad"): "number_bad_lem",
    ("Rattle.auditing.proofs.Sets", "outer-zeros"): "outer_zeros_lem",
    ("Rattle.region.proofs.Turns", "parity-column"): "parity_column_lem",
    ("Rattle.rebuilding.proofs.Count", "restored-below"): "restored_below_lem",
    ("Rattle.replaying.proofs.Sides", "sides-of"): "sides_of_lem",
    ("Rattle.auditing.proofs.Sets", "tuple-found"): "tuple_found_lem",
    ("Rattle.printing.proofs.Accepted", "unread-text"): "unread_text_lem",
    ("Rattle.cells.proofs.Roles", "user-cell"): "user_cell_lem",
}
USE_AS = re.compile(r"use\s+(Rattle\.[\w.+]+?)(?:\s+as\s+(\S+))?\s*$", re.M)


def respelled(name):
    n = name.replace("′", "'")
    if re.match(r"^[A-Z]", n):
        if "-" not in n:
            return n
        parts, out = n.split("-"), ""
        for p in parts:
            p = p[:1].upper() + (p[1:].lower() if p.isupper() and len(p) > 1 else p[1:])
            out += ("_" if out[-1:].isdigit() and p[:1].isdigit() else "") + p
        return out
    n = re.sub(r"(?<=[a-z0-9'])([A-Z])", lambda m: "_" + m.group(1).lower(), n)
    if re.match(r"^[A-Za-zμ]", n):
        n = re.sub(r"(?<=[\w'])-(?=[\w'])", "_", n)
    return n


def read(path):
    with open(path, encoding="utf-8") as f:
        return f.read()


def files(ending):
    for folder, dirs, names in os.walk("crates"):
        dirs[:] = sorted(d for d in dirs if d != "out")
        for n in sorted(names):
            if n.endswith(ending):
                yield os.path.join(folder, n)


def module(path):
    p = path.split(os.sep)
    return "Rattle." + p[1] + "." + ".".join(p[2:])[: -len(".antt")]


def declared(text):
    """The names that a file declares, in order, and those of them that are fields."""
    names, fields, record = [], set(), None
    for line in text.split("\n"):
        if line.lstrip().startswith("--"):
            continue
        indent = len(line) - len(line.lstrip())
        if line.strip() and record is not None and indent <= record:
            record = None
        m = DECL.match(line)
        if m:
            names.append(m.group(3))
            if record is not None and indent > record:
                fields.add(m.group(3))
        head = re.match(r"\s*(?:(?:pub|abbrev|unfoldable)\s+)*(record|data)\s+([^\s:(){}]+)", line)
        if head:
            record = indent if head.group(1) == "record" else record
            if head.group(2) not in names:
                names.append(head.group(2))
        elif re.match(r"\s*(?:abbrev |unfoldable |pub )+[^\s:(){}]+\s*$", line):
            names.append(line.split()[-1])
    return names, fields


def main():
    dry = "--dry" in sys.argv
    own, fields = {}, set()
    for path in files(".antt"):
        if path.endswith("Proof.antt"):
            continue
        names, f = declared(read(path))
        own[module(path)] = set(names)
        fields |= f
    every = set().union(*own.values())
    changed = {n: respelled(n) for n in every if respelled(n) != n}
    said, n_files = 0, 0

    def in_file(path, text):
        nonlocal said
        mine = set(own.get(module(path), ())) if path.endswith(".antt") else set()
        foreign = set()
        for line in re.findall(r"use\s+[^;\n]*\.\{([^}]*)\}", text):
            foreign |= {x.strip().split(" as ")[0] for x in line.split(",")}
        names, aliases = set(mine), {}
        for m in USE.finditer(text):
            if m.group(1).split(".")[1] in CRATES:
                names |= {x.strip().split(" as ")[0] for x in m.group(2).split(",")} & own.get(m.group(1), set())
        for m in USE_AS.finditer(text):
            if m.group(1) in own:
                aliases[m.group(2) or m.group(1).split(".")[-1]] = own[m.group(1)]
        foreign -= names
        here = (names | fields) - foreign
        before = {t.group(0) for t in TOKEN.finditer(text)}
        turn = {n: changed[n] for n in here if n in changed and n in before}
        imported = [(m.group(1), {x.strip() for x in m.group(2).split(",")}) for m in USE.finditer(text)]
        for (home, old), new in APART.items():
            if home == module(path) or any(home == h and old in xs for h, xs in imported):
                turn[old] = new
        for alias, members in aliases.items():
            for n in members:
                if n in changed and re.search(r"(?<![\w.'-])" + re.escape(alias) + r"\." + re.escape(n) + r"(?![\w'-])", text):
                    turn.setdefault(n, changed[n])
        for old, new in turn.items():
            clash = new in before and not any(new in own.get(m, ()) and old not in own[m] for m in own if new in own[m] and old in own[m])
            if clash:
                print(f"look: {path}: {old} becomes {new}, which stands there too")
                said += 1
        goals = path.endswith("Proof.antt")

        def turned(m):
            t = m.group(0)
            if t not in turn:
                return t
            if m.start() and text[m.start() - 1] == "." and t not in fields:
                head = re.search(r"([^\s(){}\[\],;.λ]+)\.$", text[: m.start()])
                if not (head and t in aliases.get(head.group(1), ())):
                    return t
            return turn[t]

        return TOKEN.sub(turned, text)

    for path in [*files(".antt"), *files(".rt")]:
        text = read(path)
        new = in_file(path, text)
        if new != text:
            n_files += 1
            if not dry:
                with open(path, "w", encoding="utf-8") as f:
                    f.write(new)

    # the names that the library's script respelled, from the last commit
    ported = dict(changed)
    for path in files(".antt"):
        if path.endswith("Proof.antt"):
            continue
        r = subprocess.run(["git", "show", "HEAD:" + path], capture_output=True, text=True)
        if r.returncode:
            continue
        was, now = declared(r.stdout)[0], declared(read(path))[0]
        if len(was) == len(now):
            for a, b in zip(was, now):
                b = respelled(b)
                if a != b and ported.setdefault(a, b) != b:
                    print(f"look: {a} is {ported[a]} and {b}")
        else:
            print(f"look: {path}: {len(was)} names were declared, and are {len(now)}")

    # elsewhere a name is respelled wherever it stands alone: in edits and in texts of proofs, and in pages between backticks
    joined = {a: b for a, b in ported.items() if re.search(r"[a-z0-9][A-Z]|-|′", a)}

    def everywhere(text):
        return TOKEN.sub(lambda m: joined.get(m.group(0), m.group(0)), text)

    for folder, dirs, names in os.walk("."):
        dirs[:] = sorted(d for d in dirs if d not in (".git", "out", "target"))
        for n in sorted(names):
            path = os.path.join(folder, n)
            if n.endswith((".edit", ".txt")) and (n.endswith(".edit") or "wrong" in folder) or (os.path.basename(folder) in os.listdir("wrong") and n == "change"):
                text = read(path)
                new = everywhere(text)
            elif n.endswith(".md"):
                text = read(path)
                new = re.sub(r"`[^`\n]+`", lambda m: everywhere(m.group(0)), text)
            else:
                continue
            if new != text:
                n_files += 1
                if not dry:
                    with open(path, "w", encoding="utf-8") as f:
                        f.write(new)

    both = {}
    for a, b in changed.items():
        both.setdefault(b, set()).add(a)
    for b in sorted(both):
        for m in own:
            if len((both[b] | {b}) & own[m]) > 1:
                print(f"look: {m}: {sorted((both[b] | {b}) & own[m])} fall together")
                said += 1
    print(f"respelled: {len(changed)} names in {n_files} files; {said} to look at")


main()
