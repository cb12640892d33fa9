"""The command line: help, words for each refusal, exit codes."""
import os
import re
import select
import signal
from subprocess import PIPE

from desk import BAD_SETS, HELD_BACK, IMAGE, INTERRUPTED, REFUSED, USAGE, State, expect, wait_until, with_states

COMMANDS = "create status write read fail plan rebuild recover audit refusals".split()
F_ROWS = ["0 2 6", "0 1 3", "1 2 4", "2 3 5", "3 4 6", "0 4 5", "1 5 6"]
# the plan of disk 9, 7 groups of 3 disks, as document 01 prints it
PLAN_9 = ["0 0 0", "0 3 0", "1 1 1", "1 5 1", "2 10 0", "2 11 1", "3 6 3", "3 15 0", "4 8 4", "4 16 1", "5 10 3", "5 11 4",
          "6 12 3", "6 18 0", "7 13 4", "7 20 1", "8 10 6", "8 11 7"]


def says(desk, words, code, pattern, given=b""):
    out, error = desk.run(*words, given=given, code=code)
    text = (out.decode() + error).replace(str(desk.directory) + "/", "")
    expect(re.search(pattern, text), f"himzolven {' '.join(map(str, words))}: no /{pattern}/ in\n{text}")


def helps(desk):
    everything = desk.run("--help")[0].decode()
    for name in COMMANDS:
        expect(re.search(rf"^  {name} ", everything, re.M), f"--help does not name {name}")
        says(desk, [name, "--help"], 0, rf"^usage: himzolven {name}[\s\S]*\nexamples?:\n  .*himzolven {name}")
    for code in range(8):
        expect(re.search(rf"^  {code}  ", everything, re.M), f"--help does not tell exit code {code}")
    held = desk.run("create", desk.path("no.img"), "--groups", 9, "--disks-per-group", 3, code=REFUSED)[1]
    listed = re.search(r"a design is held for (.*)", desk.run("create", "--help")[0].decode())[1]
    expect(re.findall(r"\d+", held.split("only for")[1]) == re.findall(r"\d+", listed), "create --help lists other held designs")
    says(desk, ["--version"], 0, r"^himzolven: library .*, image version 1\n$")
    table = desk.run("refusals")[0].decode()
    expect(re.findall(r"^ ?(\d+)  ", table, re.M) == [str(n) for n in range(1, 15)], "refusals does not list 1 to 14")


def wrong_lines(desk):
    path = desk.create("lines.img")
    before = path.read_bytes()
    new = ["create", desk.path("none.img")]
    for words, pattern in [
        ([], r"usage: himzolven"),
        (["reed", path], r"no command 'reed'"),
        (["status"], r"one IMAGE is expected"),
        (["status", path, "more"], r"'more' is too much"),
        (["status", path, "--loud"], r"--loud: there is no such option"),
        (["write", path], r"either --unit N or --at BYTE"),
        (["read", path, "--unit", 1, "--at", 2], r"either --unit N or --at BYTE"),
        (["read", path, "--at", 2, "--offset", 1], r"--offset goes with --unit"),
        (["read", path, "--unit"], r"--unit: a value is expected"),
        (["read", path, "--unit", 1, "--unit", 1], r"--unit: given twice"),
        (["read", path, "--unit", "1K"], r"--unit: a decimal number from 0 to 4294967295 is expected, not '1K'"),
        (["read", path, "--unit", "4294967296"], r"--unit: a decimal number"),
        (["read", path, "--unit", ""], r"--unit: a decimal number .* not ''"),
        (["read", path, "--at", "1Q"], r"--at: a number like 4096, 4K, 1M or 1G, below 4G is expected, not '1Q'"),
        (["read", path, "--at", "4G"], r"--at: a number like .* not '4G'"),
        (["fail", path], r"one DISK or more"),
        (["fail", path, "x"], r"DISK: a decimal number .* not 'x'"),
        (["plan", path], r"an IMAGE and one DISK"),
        ([*new, "--groups", 7], r"--groups and --disks-per-group are expected"),
        ([*new, "--groups", 7, "--disks-per-group", 3, "--design", desk.path("no")], r"no: No such file"),
    ]:
        says(desk, words, USAGE, pattern)
    expect(path.read_bytes() == before, "a wrong command line changes the image")
    expect(not desk.path("none.img").exists(), "a wrong command line creates an image")


def design(desk, rows):
    path = desk.path("design.txt")
    path.write_text("\n".join(rows) + "\n")
    return path


def design_refusals(desk):
    """1 to 7, and design files that can't be read; no file comes into being."""
    new = ["create", desk.path("refused.img"), "--disks-per-group"]
    pairs = [f"{a} {b}" for b in range(91) for a in range(b)]
    for g, v, rows, code, pattern in [
        (3, 9, None, 1, r"number 1, place 0: no set is held for 9 groups, only for 7 13 21 31 57 73 91;"),
        (3, 70000, None, 1, r"number 1, place 0: no set is held for 70000 groups"),
        (3, 92, F_ROWS, 1, r"number 2, place 0: 92 groups in rows of 3; allowed are 2 to 91 groups in rows of 2 to 10"),
        (3, 7, ["# none"], 1, r"number 2, place 0: 7 groups in rows of 0;"),
        (3, 8, F_ROWS, 1, r"number 3, place 0: 8 groups can't stand in rows of 3"),
        (3, 7, F_ROWS[1:], 1, r"number 3, place 0: 7 groups in rows of 3 need 7 rows, and the list has 18 numbers, not 21"),
        (3, 7, F_ROWS[:3] + ["2 5 3"] + F_ROWS[4:], 1, r"number 4, place 3: row 3 \(2 5 3\) does not ascend within"),
        (3, 7, F_ROWS[:6] + ["1 5 7"], 1, r"number 4, place 6: row 6 \(1 5 7\) does not ascend within the groups 0 to 6"),
        (3, 7, F_ROWS[:6] + ["1 4 6"], 1, r"number 5, place 11: the pair of groups 1 and 4 stands in 2 rows, not in exactly one"),
        (9, 7, F_ROWS, 1, r"number 6, place 0: 9 disks in a group; allowed is a prime from 2 to 13 that is at least 3"),
        (2, 7, F_ROWS, 1, r"number 6, place 0: 2 disks in a group"),
        (13, 91, pairs, 1, r"number 7, place 0: the disks would have 5669314560 bytes; at most 1,073,741,824 are allowed"),
        (3, 7, F_ROWS[:3] + ["2 3"], 2, r"design.txt, line 4: the row has another length than the first"),
        (3, 7, F_ROWS[:3] + ["2 x 5"], 2, r"design.txt, line 4: a row of group numbers like '0 1 3' is expected"),
        (3, 7, ["70000 1 2"], 2, r"design.txt, line 1: a row of group numbers"),
        (3, 7, ["0 1 " * 100], 2, r"design.txt, line 1: the line is too long"),
        (3, 7, ["0 1 3"] * 3000, 2, r"design.txt, line 2731: no design has so many numbers"),
    ]:
        more = [] if rows is None else ["--design", design(desk, rows)]
        says(desk, [*new, g, "--groups", v, *more], code, pattern)
    says(desk, [*new, 3, "--groups", 7, "--unit", "5K"], REFUSED, r"number 6, place 0: a unit of 5120 bytes; allowed are 1 to")
    expect(not list(desk.directory.glob("refused.img*")), "a refused create leaves a file")


def call_refusals(desk):
    """8 to 13 in words; no byte of the image changes."""
    path = desk.create("calls.img", 7, 3, 512, "--design", design(desk, F_ROWS))
    desk.run("fail", path, 0, 1, 18)
    before = path.read_bytes()
    for words, pattern in [
        (["plan", path, 21], r"number 9, place 0: there is no disk 21; disks are 0 to 20"),
        (["fail", path, 4294967295], r"number 9, place 0: there is no disk 4294967295"),
        (["read", path, "--unit", 84], r"number 10, place 0: there is no user unit 84; user units are 0 to 83"),
        (["read", path, "--at", 84 * 512, "--length", 1], r"number 10, place 0: there is no user unit 84"),
        (["read", path, "--at", 84 * 512 + 1], r"number 10, place 0: there is no user unit 84"),
        (["write", path, "--unit", 84], r"number 10"),
        (["read", path, "--unit", 83, "--offset", 500, "--length", 13], r"number 11, place 0: 13 bytes from offset 500 leave"),
        (["read", path, "--unit", 83, "--offset", 513], r"number 11, place 0: 0 bytes from offset 513 leave"),
        (["write", path, "--unit", 83, "--offset", 510], r"number 11, place 0: 4 bytes from offset 510 leave the unit of 512"),
        (["read", path, "--unit", 4], r"number 12, place 1: disk 1 holds user unit 4 and is marked as lost"),
        (["write", path, "--unit", 10], r"number 12, place 18: disk 18 holds the outer parity of user unit 10 and"),
        (["read", path, "--at", 0], r"number 12, place 0: disk 0 holds user unit 0"),
        (["write", path, "--at", 0], r"number 12, place 0: disk 0 holds user unit 0[\s\S]*: 0 bytes were written before"),
        (["fail", path, 3, 4], r"nothing is done, --force[\s\S]*number 13, place 1: tuple 1 \(groups 0 1 3\) can't be completed"),
    ]:
        says(desk, words, REFUSED, pattern, b"four")
        expect(path.read_bytes() == before, f"{words[0]} {words[2:]}: refused, and the image changes")
    says(desk, ["write", path, "--unit", 83], REFUSED, r"number 11, place 0: 513 bytes or more from offset 0 leave", bytes(600))
    says(desk, ["fail", path, 3, 4, "--force"], 0, r"^lost: disks 0 1 3 4 18\n$")
    says(desk, ["rebuild", path], REFUSED, r"number 13, place 1: .* lost: disks 0 1 3 4 18\n")
    says(desk, ["status", path], 0, r"lost     disks 0 1 3 4 18\n         rebuild is refused, number 13, place 1")
    path.write_bytes(before)
    says(desk, ["status", path], 0, r"lost     disks 0 1 18\n         run: himzolven rebuild calls.img\ncut off  nothing\n")
    bad = State.of(before).with_marks([])
    bad.marks = bytes([0, 0, 0, 0, 0, 2]) + bad.marks[6:]
    path.write_bytes(with_states(before, bad))
    says(desk, ["read", path, "--unit", 0], REFUSED, r"number 8, place 5: the mark of disk 5 is neither 0 nor 1")


def plans(desk):
    path = desk.create("plan.img")
    lines = desk.run("plan", path, 9, "--lines")[0].decode().splitlines()
    expect(lines == PLAN_9, "the plan is not that of document 01")
    says(desk, ["plan", path, 9], 0, r"^unit 0 is the XOR of disk 0 unit 0, disk 3 unit 0\n(.*\n){7}unit 8 .* unit 7\n$")


def status_words(desk):
    path = desk.create("words.img", 7, 3, 4096)
    says(desk, ["status", path], 0,
         r"7 groups in 7 tuples of 3\n.* 21, 3 in a group, each with 3 parts of 3 units of 4096 bytes\n"
         r".* 774144 on all disks, 344064 for the user in 84 user units\n.* no disk\ncut off  nothing\n$")
    says(desk, ["audit", path], 0, r"^105 sets, 0 bad\n$")
    image = bytearray(path.read_bytes())
    image[28672 + 2 * 4096] ^= 1  # disk 0, unit 2: inner parity of diagonal 2 of the first region
    path.write_bytes(image)
    says(desk, ["audit", path], BAD_SETS, r"105 sets, 1 bad; the lowest is set 8, the inner set of diagonal 2 of group 0 in")
    says(desk, ["recover", path], 0, r"^nothing was cut off\n$")
    says(desk, ["create", path, "--groups", 7, "--disks-per-group", 3], HELD_BACK, r"words.img: exists already")
    says(desk, ["status", desk.path("no.img")], IMAGE, r"no.img: No such file")


def progress(desk):
    """Input that takes more than a second: one line to a file, a line that counts the seconds to a terminal; then the time."""
    terminal, side = os.openpty()
    writers = []
    for name, errors in [("file.img", PIPE), ("terminal.img", side)]:
        path = desk.create(name, 7, 3, 512)
        writers.append(desk.start("write", path, "--at", 0, stdin=PIPE, stdout=PIPE, stderr=errors))
    wait_until(lambda: len(select.select([writers[0].stderr, terminal], [], [], 0)[0]) == 2, "a line that tells of the work")
    quiet, loud = [writer.communicate(b"four", timeout=20)[1] for writer in writers]
    told = os.read(terminal, 4096).decode()
    os.close(terminal)
    os.close(side)
    what = "himzolven: writing user bytes from 0 on"
    shape = rf"({what}: \d+ s\r)+\r?\n{what}: took \d+\.\d s\r\n"
    expect(loud is None and re.fullmatch(shape, told), f"on a terminal: {told!r}")
    expect(re.fullmatch(rf"{what} \.\.\n{what}: took \d+\.\d s\n", quiet.decode()), f"to a file: {quiet}")


def asking(desk):
    """A stream is asked about first; if that takes a second it is told, and a signal then ends it before a byte is read."""
    path, rows = desk.path("pairs.img"), desk.path("rows.txt")
    rows.write_text("".join(f"{a} {b}\n" for b in range(91) for a in range(b)))
    desk.run("create", path, "--groups", 91, "--disks-per-group", 13, "--unit", 1, "--design", rows)
    reader = desk.start("read", path, "--at", 0, stdout=PIPE, stderr=PIPE)
    try:
        expect(select.select([reader.stderr], [], [], 5)[0], "of a long stream nothing is told")
        told = reader.stderr.readline()
        expect(told == b"himzolven: asking about user bytes from 0 on ..\n", f"of a long stream is told: {told}")
        reader.send_signal(signal.SIGINT)
        expect(reader.stdout.read(1) == b"", "SIGINT: a byte is read after it")
        error = reader.communicate(timeout=20)[1].decode()
        expect(reader.returncode == INTERRUPTED and "stopped by a signal" in error, f"SIGINT: {reader.returncode}, {error}")
    finally:
        reader.kill()


CHECKS = [helps, wrong_lines, design_refusals, call_refusals, plans, status_words, progress, asking]
