"""The power goes: what is on the disk then is what each msync has brought there, and any sectors of what was stored after it."""
import os
import random
import struct
import subprocess
from pathlib import Path

from cutoffs import Torn, is_between
from desk import ARRAY, DONE, State, expect, with_states

HERE = Path(__file__).resolve().parent
SECTOR = 512


def syncs(desk, *words, given=b""):
    """Runs a command with power.c loaded. Yields the start, the end and the memory of each msync."""
    shim, log = desk.path("power.so"), desk.path("power.log")
    log.unlink(missing_ok=True)
    if not shim.exists():
        subprocess.run(["gcc", "-std=gnu11", "-O1", "-shared", "-fPIC", "-o", shim, HERE / "power.c"], check=True)
    where = {**os.environ, "LD_PRELOAD": str(shim), "POWER_LOG": str(log)}
    ran = subprocess.run([desk.program, *map(str, words)], input=given, capture_output=True, env=where)
    expect(ran.returncode == DONE, f"himzolven {words} with power.c: {ran.returncode} {ran.stderr.decode()}")
    logged, at = log.read_bytes(), 0
    while at < len(logged):
        start, length, size = struct.unpack_from("<3Q", logged, at)
        yield start, start + length, logged[at + 24 : at + 24 + size]
        at += 24 + size


def crashes(desk, dice, path, tries, *words, given=b""):
    """Images that a crash in this command may leave. The image is as before when the command begins."""
    disk = path.read_bytes()
    events = list(syncs(desk, *words, given=given))
    expect(events, f"{words[0]} brings nothing to the disk")
    for start, end, memory in [*events, (0, 0, path.read_bytes())]:
        dirty = [at for at in range(0, len(disk), SECTOR) if disk[at : at + SECTOR] != memory[at : at + SECTOR]]
        for share in [0, 1, *(dice.random() for _ in range(tries))]:
            image = bytearray(disk)
            for at in dirty:
                if dice.random() < share:
                    image[at : at + SECTOR] = memory[at : at + SECTOR]
            yield bytes(image)
        disk = disk[:start] + memory[start:end] + disk[end:]
    expect(disk == memory, f"{words[0]} ends before all of it is on the disk")


def power_in_a_write(desk):
    dice, u = random.Random(5), 512
    path = desk.create("power.img", 7, 3, u)
    desk.run("write", path, "--at", 0, given=dice.randbytes(84 * u))
    model, count = desk.contents(path), 0
    start, new = 5 * u + 100, dice.randbytes(5 * u)
    for image in crashes(desk, dice, path, 4, "write", path, "--at", start, given=new):
        path.write_bytes(image)
        desk.run("recover", path)
        desk.run("audit", path)
        is_between(desk.contents(path), model, model[:start] + new + model[start + len(new) :], u)
        count += 1
    return f"power lost at {count} moments of a write"


def power_in_a_loss(desk):
    """In fail and in rebuild: every byte comes back."""
    dice, count = random.Random(6), 0
    path = desk.create("loss.img", 7, 3, 512)
    desk.run("write", path, "--at", 0, given=dice.randbytes(84 * 512))
    array = path.read_bytes()[ARRAY:]
    for words in [["fail", path, 0, 1, 2, 4, 8], ["rebuild", path]]:
        for image in crashes(desk, dice, path, 4, *words):
            path.write_bytes(image)
            desk.run("recover", path)
            desk.run("rebuild", path)
            expect(path.read_bytes()[ARRAY:] == array, f"power lost in {words[0]}: not every byte comes back")
            count += 1
        path.write_bytes(image)  # the last one: the command has ended
    return f"{count} of fail and rebuild"


def power_in_a_recovery(desk):
    """A write was cut off when only the first copy of the state had its record, and the power goes again in recover."""
    torn, count = Torn(desk, random.Random(7)), 0
    image = torn.image(torn.parts[:2])
    older = State.of(torn.before)
    newer = State.of(image)
    newer.sequence = older.sequence + 1
    torn.path.write_bytes(with_states(image, newer, older))
    for crashed in crashes(desk, torn.dice, torn.path, 20, "recover", torn.path):
        torn.path.write_bytes(crashed)
        desk.run("recover", torn.path)
        torn.whole("power lost in recover")
        count += 1
    return f"{count} of recover"


CHECKS = [power_in_a_write, power_in_a_loss, power_in_a_recovery]
