"""What was written is read: sessions of random commands beside a model, which is the user's bytes and nothing else."""
import random

from desk import ARRAY, BAD_SETS, DONE, REFUSED, State, expect

# groups, disks in a group, bytes in a unit, and the design where it is not the held one
GEOMETRIES = [(7, 3, 64, None), (7, 3, 1, None), (13, 5, 16, None), (2, 2, 512, "0 1"), (7, 7, 512, "0 1 2 3 4 5 6"),
              (3, 5, 40, "0 1\n0 2\n1 2")]


class Session:
    """One image and its model."""

    def __init__(self, desk, dice, v, g, u, design):
        more = []
        if design is not None:
            desk.path("rows.txt").write_text(design)
            more = ["--design", desk.path("rows.txt")]
        self.desk, self.dice, self.u = desk, dice, u
        self.path = desk.create("session.img", v, g, u, "--force", *more)
        self.model = bytearray(desk.contents(self.path))
        self.disks, self.lost = v * g, set()
        expect(not any(self.model), "a new image is not all 0")

    def range(self, most):
        at = self.dice.randrange(len(self.model))
        return at, self.dice.randrange(min(len(self.model) - at, most) + 1)

    def answered(self, words, given=b""):
        """Refused only by 12, and only with disks lost."""
        code, out, error = self.desk.ask(*words, given=given, codes=(DONE, REFUSED) if self.lost else (DONE,))
        expect(code == DONE or "number 12" in error, f"{words}: another refusal than 12: {error}")
        return code == DONE, out

    def write_unit(self):
        at, length = self.range(self.u)
        length = min(length, self.u - at % self.u)
        given = self.dice.randbytes(length)
        if self.answered(["write", self.path, "--unit", at // self.u, "--offset", at % self.u], given)[0]:
            self.model[at : at + length] = given

    def write_stream(self):
        """From a file, of which all or nothing is written."""
        at, length = self.range(70 * self.u)
        given = self.dice.randbytes(length)
        self.desk.path("stream").write_bytes(given)
        before = self.path.read_bytes()
        with open(self.desk.path("stream"), "rb") as stream:
            if self.answered(["write", self.path, "--at", at, *self.dice.choice([[], ["--no-sync"]])], stream)[0]:
                self.model[at : at + length] = given
            else:
                expect(self.path.read_bytes() == before, "a stream from a file is refused, and something is written")

    def write_pipe(self):
        """Longer than the image: refused by 10 at its end, and told how much was written."""
        at = self.dice.randrange(len(self.model))
        given = self.dice.randbytes(len(self.model) - at + 1)
        if not self.lost:
            error = self.desk.run("write", self.path, "--at", at, given=given, code=REFUSED)[1]
            expect("number 10" in error and f"{len(given) - 1} bytes were written before" in error, f"write --at {at}: {error}")
            self.model[at:] = given[:-1]

    def read(self):
        at, length = self.range(5 * self.u)
        whole, out = self.answered(["read", self.path, "--at", at, "--length", length])
        expect(not whole or out == self.model[at : at + length], f"read --at {at} --length {length}: other bytes")
        whole, out = self.answered(["read", self.path, "--unit", at // self.u, "--offset", at % self.u])
        expect(not whole or out == self.model[at : (at // self.u + 1) * self.u], f"read from {at} to the unit's end: other bytes")

    def fail(self):
        if self.lost:
            return
        self.lost = set(self.dice.sample(range(self.disks), self.dice.randint(1, 3)))
        before = self.path.read_bytes()
        self.desk.run("fail", self.path, *self.lost, "--seed", self.dice.randrange(1000))
        after, size = self.path.read_bytes(), (len(before) - ARRAY) // self.disks
        for disk in range(self.disks):
            start = ARRAY + disk * size
            changed = sum(a != b for a, b in zip(before[start : start + size], after[start : start + size]))
            expect(changed > size // 2 or size < 32 if disk in self.lost else changed == 0, f"fail {self.lost}: disk {disk}")
        expect(set(State.of(after).marked()) == self.lost, "fail marks other disks")
        self.desk.ask("audit", self.path, codes=(BAD_SETS,) if size >= 32 else (DONE, BAD_SETS))

    def rebuild(self):
        out = self.desk.run("rebuild", self.path)[0].decode()
        size = (self.path.stat().st_size - ARRAY) // self.disks // self.u
        expect(f", {len(self.lost) * size} units restored" in out, f"rebuild: {out}")
        self.lost = set()
        expect(not State.of(self.path.read_bytes()).marked(), "rebuild leaves marks")
        self.whole()

    def whole(self):
        expect(self.desk.contents(self.path) == self.model, "not every byte is what was written")
        self.desk.run("audit", self.path)


def sessions(desk):
    for seed, geometry in enumerate(GEOMETRIES):
        dice = random.Random(seed)
        session = Session(desk, dice, *geometry)
        for _ in range(2):
            for step in dice.sample([session.write_unit, session.write_stream, session.write_pipe, session.read] * 2, 8):
                step()
            session.fail()
            for step in [session.read, session.write_unit, session.write_stream]:
                step()
            session.rebuild()


CHECKS = [sessions]
