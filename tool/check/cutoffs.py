"""Calls that are cut off: by images that are put together from before and after, and by kill -9 at random moments."""
import mmap
import random
import time
from subprocess import DEVNULL

from desk import ARRAY, BAD_SETS, DONE, HEADER, HELD_BACK, REBUILD, REFUSED, WRITE, State, expect, with_states

STREAMS, REBUILDS = 40, 16  # how many are killed


def parts(before, after, u):
    """Where the units of a write are: the start of each unit of the array that differs."""
    units = range(ARRAY, len(before), u)
    return [at for at in units if before[at : at + u] != after[at : at + u]]


class Torn:
    """A write to one user unit, before and after, and images between the two."""

    def __init__(self, desk, dice):
        self.desk, self.dice, self.u = desk, dice, 16
        self.path = desk.create("torn.img", 7, 3, self.u, "--force")
        desk.run("write", self.path, "--at", 0, given=dice.randbytes(84 * self.u))
        self.old, self.before = desk.contents(self.path), self.path.read_bytes()
        self.unit, self.offset = dice.randrange(84), 3
        self.bytes = bytes(byte ^ dice.randrange(1, 256) for byte in self.old[self.unit * self.u + 3 :][:10])
        desk.run("write", self.path, "--unit", self.unit, "--offset", self.offset, given=self.bytes)
        self.after = self.path.read_bytes()
        self.parts = parts(self.before, self.after, self.u)
        expect(len(self.parts) == 4, f"a write changes {len(self.parts)} units")
        self.disk_bytes = (len(self.before) - ARRAY) // 21

    def image(self, which, lost=()):
        """These units are as after the write, or half of their bytes; the others are as before. The lost disks hold noise."""
        image = bytearray(self.before)
        for part in which:
            stored = self.u if self.dice.random() < 0.5 else self.u // 2
            image[part : part + stored] = self.after[part : part + stored]
        for disk in lost:
            start = ARRAY + disk * self.disk_bytes
            image[start : start + self.disk_bytes] = self.dice.randbytes(self.disk_bytes)
        state = State.of(self.before).with_marks(lost)
        state.call, state.unit, state.offset, state.length = WRITE, self.unit, self.offset, len(self.bytes)
        return with_states(bytes(image), state)

    def whole(self, what, present=None):
        """All is as it was but the range, whose bytes are old or new, or those given."""
        out, start = self.desk.contents(self.path), self.unit * self.u + self.offset
        end = start + len(self.bytes)
        expect(out[:start] == self.old[:start] and out[end:] == self.old[end:], f"{what}: bytes beside the range are others")
        old_or_new = all(byte in pair for byte, *pair in zip(out[start:end], self.old[start:], self.bytes))
        expect(old_or_new and present in (None, out[start:end]), f"{what}: the range holds other bytes")
        self.desk.run("audit", self.path)
        state = State.of(self.path.read_bytes())
        expect(state.call == 0 and not state.marked(), f"{what}: a record or a mark is left")


def torn_writes(desk):
    """Each subset of the four units is stored: the data unit keeps its bytes, and all else is as it was."""
    torn = Torn(desk, random.Random(1))
    for mask in range(16):
        what = f"write cut off with units {mask:04b}"
        image = torn.image([part for bit, part in enumerate(torn.parts) if mask >> bit & 1])
        torn.path.write_bytes(image)
        if mask in (0, 5):
            held_back(desk, torn, image)
        present, error = desk.run("read", torn.path, "--unit", torn.unit, "--offset", torn.offset, "--length", len(torn.bytes))
        expect(f"user unit {torn.unit} " in error and "was cut off" in error, f"{what}: read does not warn: {error}")
        desk.ask("audit", torn.path, codes={0: (DONE,), 15: (DONE, BAD_SETS)}.get(mask, (BAD_SETS,)))
        desk.run("recover", torn.path)
        torn.whole(what, present)


def held_back(desk, torn, image):
    out = desk.run("status", torn.path)[0].decode()
    wanted = f"a write of {len(torn.bytes)} bytes from offset {torn.offset} of user unit {torn.unit} (disk "
    expect(wanted in out and f"run: himzolven recover {torn.path}\n" in out, f"status does not say what was cut off: {out}")
    for words in [["write", torn.path, "--unit", 0], ["rebuild", torn.path]]:
        expect("himzolven recover" in desk.run(*words, given=b"x", code=HELD_BACK)[1], f"{words[0]}: not said what to do")
    expect(torn.path.read_bytes() == image, "a command that is held back changes the image")


def torn_and_lost(desk):
    """Other disks are lost too, up to three: each byte is right, or recover is refused by 13 and changes nothing."""
    dice = random.Random(2)
    accepted, refused = 0, 0
    for turn in range(42):
        if turn % 14 == 0:
            torn = Torn(desk, dice)
        lost = [turn % 21] if turn < 21 else dice.sample(range(21), dice.randint(2, 3))
        image = torn.image([part for part in torn.parts if dice.random() < 0.5], lost)
        torn.path.write_bytes(image)
        code, _, error = desk.ask("recover", torn.path, codes=(DONE, REFUSED))
        if code == DONE:
            torn.whole(f"write to {torn.unit} cut off, {lost} lost")
            accepted += 1
        else:
            expect("number 13" in error and "no way to recover" in error, f"recover with {lost} lost: {error}")
            expect(b"recover is refused, number 13" in desk.run("status", torn.path)[0], f"status with {lost} lost")
            expect(torn.path.read_bytes() == image, f"recover with {lost} lost is refused, and changes the image")
            expect(len(lost) > 1, f"recover with {lost} lost is refused")
            refused += 1
            torn.path.write_bytes(torn.image(torn.parts[:2]))
            expect("number 13" in desk.run("fail", torn.path, *lost, code=REFUSED)[1], f"fail {lost}: no way back")
    expect(accepted and refused, f"recover with disks lost: {accepted} accepted, {refused} refused")


def lost_after_the_cut(desk):
    """One of the write's four disks is lost when the write has been cut off."""
    torn = Torn(desk, random.Random(3))
    torn.path.write_bytes(torn.image(torn.parts[:2]))
    disk = (torn.parts[0] - ARRAY) // torn.disk_bytes
    expect("was cut off" in desk.run("fail", torn.path, disk)[1], "fail does not warn of the call that was cut off")
    desk.run("recover", torn.path)
    torn.whole("one of the four disks lost after the cut")


def torn_rebuilds(desk):
    """A rebuild is cut off: some bytes of the lost disks are back."""
    torn = Torn(desk, random.Random(4))
    for lost in [[0, 1, 2], [0, 4, 8, 20], [5]]:
        image = bytearray(torn.image([], lost))
        for at in range(ARRAY + lost[0] * torn.disk_bytes, ARRAY + (lost[0] + 1) * torn.disk_bytes):
            image[at] = torn.before[at] if torn.dice.random() < 0.5 else image[at]
        state = State.of(bytes(image))
        state.call, state.unit, state.offset, state.length = REBUILD, 0, 0, 0
        torn.path.write_bytes(with_states(bytes(image), state))
        expect(b"a rebuild was cut off" in desk.run("status", torn.path)[0], "status does not say that a rebuild was cut off")
        desk.run("recover", torn.path)
        expect(torn.path.read_bytes()[ARRAY:] == torn.before[ARRAY:], f"rebuild of {lost} cut off: recover gives other bytes")


def wait_for_record(tool, path):
    """Returns when the image says that a call is under way, or the tool has ended."""
    with open(path, "rb") as file, mmap.mmap(file.fileno(), ARRAY, prot=mmap.PROT_READ) as image:
        while image[HEADER + 8] == 0 and tool.poll() is None:
            pass


def killed(desk, dice, longest, command, path, *words, given=None):
    """Starts a command and kills it after a random time, or a random moment after it has said that a call is under way."""
    tool = desk.start(command, path, *words, stdin=given, stdout=DEVNULL, stderr=DEVNULL)
    if command != "fail" and dice.random() < 0.7:
        wait_for_record(tool, path)
        longest /= 20
    end = time.monotonic() + dice.random() * longest
    while time.monotonic() < end:
        pass
    tool.kill()
    tool.wait()


def duration(desk, *words, given=b""):
    begun = time.monotonic()
    desk.run(*words, given=given)
    return time.monotonic() - begun


def recovered(desk, dice, path, longest):
    """Recovers, sometimes at the second try. Whether a call had been cut off, and whether sets were bad."""
    cut = b"run: himzolven recover" in desk.run("status", path)[0]
    bad = desk.ask("audit", path, codes=(DONE, BAD_SETS))[0] == BAD_SETS
    if cut and dice.random() < 0.3:
        killed(desk, dice, longest, "recover", path)
    desk.run("recover", path)
    return cut, bad


def is_between(out, old, new, u):
    """A stream was cut off: before some user unit all is new, after it all is old, and in it each byte is either."""
    at = next((at for at in range(0, len(new), u) if out[at : at + u] != new[at : at + u]), len(new))
    expect(out[at + u :] == old[at + u :], f"cut off at user unit {at // u}, and a later one has changed")
    either = all(byte in pair for byte, *pair in zip(out[at : at + u], old[at:], new[at:]))
    expect(either, f"cut off at user unit {at // u}, and a byte of it is neither old nor new")


def killed_writes(desk):
    """kill -9 in streams."""
    dice, u = random.Random(), 4096
    path, stream = desk.create("killed.img", 7, 7, u), desk.path("stream")
    model, cuts, bads = desk.contents(path), 0, 0
    longest = duration(desk, "write", path, "--at", 0, given=model)
    for turn in range(STREAMS):
        new = dice.randbytes(len(model))
        stream.write_bytes(new)
        with open(stream, "rb") as given:
            killed(desk, dice, longest, "write", path, "--at", 0, *([["--no-sync"], []][turn % 2]), given=given)
        cut, bad = recovered(desk, dice, path, longest / 10)
        cuts, bads = cuts + cut, bads + bad
        out = desk.contents(path)
        is_between(out, model, new, u)
        desk.run("audit", path)
        model = out
    expect(cuts, f"no write of {STREAMS} streams was cut off")
    return f"{STREAMS} streams killed, {cuts} in a write, {bads} with bad sets; all recovered"


def killed_rebuilds(desk):
    """kill -9 in fail, rebuild and recover: all bytes come back."""
    dice = random.Random()
    path = desk.create("shelves.img", 31, 7, 2048)
    desk.run("write", path, "--at", 0, "--no-sync", given=dice.randbytes(len(desk.contents(path))))
    array = path.read_bytes()[ARRAY:]
    lost = [*range(7), *range(7, 217, 7)]
    longest = max(duration(desk, "fail", path, *lost), duration(desk, "rebuild", path))
    cuts = 0
    for turn in range(REBUILDS):
        if turn % 4 == 0:
            killed(desk, dice, longest, "fail", path, *lost)
        desk.run("fail", path, *lost)
        killed(desk, dice, longest, "rebuild", path)
        cuts += recovered(desk, dice, path, longest)[0]
        desk.run("rebuild", path)
        expect(path.read_bytes()[ARRAY:] == array, "killed in fail or rebuild: not every byte comes back")
    expect(cuts, f"no rebuild of {REBUILDS} was cut off")
    return f"{REBUILDS} rebuilds killed, {cuts} in the call; every byte came back"


CHECKS = [torn_writes, torn_and_lost, lost_after_the_cut, torn_rebuilds]
KILLS = [killed_writes, killed_rebuilds]
