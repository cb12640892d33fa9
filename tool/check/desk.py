"""What the tests share: running the tool, and images as IMAGE.md describes them, read and made without the tool."""
import struct
import subprocess
import time
import zlib

DONE, REFUSED, USAGE, IMAGE, BAD_SETS, HELD_BACK, IN_USE, INTERRUPTED = range(8)
HEADER, STATE, ARRAY = 20480, 4096, 28672
NONE, WRITE, REBUILD = range(3)


class Wrong(Exception):
    """A test has found the tool wrong."""


def expect(true, message):
    if not true:
        raise Wrong(message)


def wait_until(true, what):
    end = time.monotonic() + 20
    while not true():
        expect(time.monotonic() < end, f"{what}: not within 20 s")
        time.sleep(0.005)


class Desk:
    """The tool under test and a directory for its images."""

    def __init__(self, program, directory):
        self.program, self.directory = program, directory

    def path(self, name):
        return self.directory / name

    def start(self, *words, **how):
        return subprocess.Popen([self.program, *map(str, words)], **how)

    def ask(self, *words, given=b"", codes=(DONE,)):
        """Runs a command; its exit code must be one of these. Returns the code and what it printed to stdout and stderr."""
        source = {"stdin": given} if hasattr(given, "fileno") else {"input": given}
        ran = subprocess.run([self.program, *map(str, words)], capture_output=True, timeout=60, **source)
        shown = f"himzolven {' '.join(map(str, words))}"
        error = ran.stderr.decode()
        expect(ran.returncode in codes, f"{shown}: exit code {ran.returncode}, not {codes}\n{error}")
        expect(ran.returncode in (DONE, BAD_SETS) or error, f"{shown}: exit code {ran.returncode} and no word on stderr")
        return ran.returncode, ran.stdout, error

    def run(self, *words, given=b"", code=DONE):
        """The same with one exit code; returns what was printed."""
        return self.ask(*words, given=given, codes=(code,))[1:]

    def create(self, name, v=7, g=3, u=512, *more):
        path = self.path(name)
        self.run("create", path, "--groups", v, "--disks-per-group", g, "--unit", u, *more)
        return path

    def contents(self, path):
        return self.run("read", path, "--at", 0)[0]


def sealed(body):
    """The bytes with their CRC-32 after them."""
    return body + struct.pack("<I", zlib.crc32(body))


def header_of(v, k, g, u, design, version=1):
    fields = b"HIMZOLVN" + struct.pack("<6I", version, v, k, g, u, len(design))
    return sealed((fields.ljust(4096, b"\0") + struct.pack(f"<{len(design)}H", *design)).ljust(HEADER - 4, b"\0"))


class State:
    """Marks and record of an image."""

    def __init__(self, sequence, call, unit, offset, length, marks):
        self.sequence, self.call, self.unit, self.offset, self.length, self.marks = sequence, call, unit, offset, length, marks

    @classmethod
    def of(cls, image, copy=0):
        copied = image[HEADER + copy * STATE :][:STATE]
        expect(sealed(copied[:-4]) == copied, "a copy of the state has another CRC-32")
        return cls(*struct.unpack("<Q4I", copied[:24]), copied[64 : 64 + 1183])

    def encoded(self):
        fields = struct.pack("<Q4I", self.sequence, self.call, self.unit, self.offset, self.length)
        return sealed((fields.ljust(64, b"\0") + self.marks).ljust(STATE - 4, b"\0"))

    def marked(self):
        return [disk for disk, mark in enumerate(self.marks) if mark]

    def with_marks(self, disks):
        marks = bytes(1 if disk in disks else 0 for disk in range(1183))
        return State(self.sequence, self.call, self.unit, self.offset, self.length, marks)


def with_states(image, first, second=None):
    """The image with other states; the second copy is like the first if none is given."""
    return image[:HEADER] + first.encoded() + (second or first).encoded() + image[ARRAY:]
