"""Files that are no image, locks, and how an image comes into being."""
import fcntl
import os
import random
import resource
import signal
import struct
from pathlib import Path
from subprocess import PIPE

from desk import (ARRAY, DONE, HEADER, HELD_BACK, IMAGE, IN_USE, INTERRUPTED, REFUSED, STATE, USAGE, WRITE, State, expect,
                  header_of, wait_until, with_states)

PIPES = {"stdin": PIPE, "stdout": PIPE, "stderr": PIPE}
LOOKS = [["status"], ["read", "--unit", 0], ["plan", 0], ["audit"]]
STORES = [["write", "--unit", 0], ["fail", 0], ["rebuild"], ["recover"]]


def on(words, path):
    return [words[0], path, *words[1:]]


def say_no(desk, path, what, commands):
    before = path.read_bytes() if path.is_file() else None
    for words in commands:
        desk.run(*on(words, path), given=b"x", code=IMAGE)
        expect(before is None or path.read_bytes() == before, f"{what}: {words[0]} changes it")


def damaged(image):
    """Files that are no image, each with its name."""
    flips = random.Random(1)
    v, k, g, u, numbers = struct.unpack("<5I", image[12:32])
    design = struct.unpack(f"<{numbers}H", image[4096 : 4096 + 2 * numbers])
    rest = image[HEADER:]
    expect(header_of(v, k, g, u, design) == image[:HEADER], "the header is not as IMAGE.md says")
    yield "an empty file", b""
    yield "a short file", image[:10]
    yield "header and state alone", image[:ARRAY]
    yield "an image without its last byte", image[:-1]
    yield "an image with a byte more", image + b"\0"
    for at in [0, 7, 8, 12, 16, 20, 24, 28, 100, 4096, HEADER - 1, *(flips.randrange(HEADER) for _ in range(8))]:
        yield f"byte {at} of the header changed", image[:at] + bytes([image[at] ^ 1 << flips.randrange(8)]) + image[at + 1 :]
    yield "another version", header_of(v, k, g, u, design, version=2) + rest
    yield "a unit of 5000 bytes", header_of(v, k, g, 5000, design) + rest
    yield "another design", header_of(v, k, g, u, design[:-1] + (design[-1] ^ 1,)) + rest
    yield "a design that is too long", header_of(v, k, g, u, [0] * 8190)[:28] + struct.pack("<I", 9000) + image[32:]
    state = State.of(image)
    state.call = 3
    yield "a call that is not there", with_states(image, state)
    state.call, state.unit = WRITE, 84
    yield "a record of a user unit that is not there", with_states(image, state)
    both = bytearray(image)
    both[HEADER + 70] ^= 1
    both[HEADER + STATE + 70] ^= 1
    yield "both copies of the state changed", bytes(both)


def wrong_images(desk):
    good = desk.create("good.img", 7, 3, 16).read_bytes()
    path = desk.path("bad.img")
    for turn, (what, image) in enumerate(damaged(good)):
        path.write_bytes(image)
        say_no(desk, path, what, [LOOKS[turn % 4], STORES[turn // 4 % 4]])
    say_no(desk, path, "both copies of the state changed", LOOKS + STORES)
    path.unlink()
    say_no(desk, path, "no file", LOOKS + STORES)
    path.mkdir()
    say_no(desk, path, "a directory", LOOKS + STORES)
    path.rmdir()


def one_copy(desk):
    """One copy of the state is damaged or older: the other counts, and the next commit mends both."""
    path = desk.create("copy.img", 7, 3, 16)
    desk.run("fail", path, 5)
    image = path.read_bytes()
    now, before = State.of(image), State.of(image).with_marks([])
    before.sequence -= 1
    spoiled = [bytearray(image), bytearray(image)]
    spoiled[0][HEADER + 64] ^= 1
    spoiled[1][HEADER + STATE + 4000] ^= 1
    others = {"first damaged": spoiled[0], "second damaged": spoiled[1], "first older": with_states(image, before, now),
              "second older": with_states(image, now, before)}
    for what, other in others.items():
        path.write_bytes(other)
        out, error = desk.run("status", path)
        expect(b"lost     disk 5\n" in out, f"{what}: the state is not the newest whole one")
        expect(("damaged" in what) == ("one copy of the state is damaged" in error), f"{what}: not said as it is")
        desk.run("fail", path, 6)
        stored = path.read_bytes()
        expect(State.of(stored).marked() == State.of(stored, 1).marked() == [5, 6], f"{what}: not mended")


def locks(desk):
    path = desk.create("lock.img", 7, 3, 16)
    before = path.read_bytes()
    for lock, held_off in [(fcntl.LOCK_EX, LOOKS + STORES), (fcntl.LOCK_SH, STORES)]:
        with open(path, "rb") as other:
            fcntl.flock(other, lock)
            for words in held_off:
                error = desk.run(*on(words, path), given=b"x", code=IN_USE)[1]
                expect("in use" in error, f"{words[0]}: not said that the image is in use")
            desk.run("create", path, "--groups", 7, "--disks-per-group", 3, "--force", code=IN_USE)
            if lock == fcntl.LOCK_SH:
                for words in LOOKS:
                    desk.run(*on(words, path))
    expect(path.read_bytes() == before, "a command changes an image that another process has")


def creation(desk):
    path = desk.create("new.img", 7, 3, 16)
    desk.run("write", path, "--unit", 3, given=b"kept")
    before = path.read_bytes()
    desk.run("create", path, "--groups", 7, "--disks-per-group", 3, code=HELD_BACK)
    expect(path.read_bytes() == before, "create changes an image that is there")
    desk.create("new.img", 7, 5, 16, "--force")
    array = path.read_bytes()[ARRAY:]
    expect(len(array) == 35 * 15 * 16 and not any(array), "create --force makes no new image")
    desk.path("folder").mkdir()
    desk.run("create", desk.path("folder"), "--groups", 7, "--disks-per-group", 3, "--force", code=IMAGE)
    desk.run("create", desk.path("folder/no/where.img"), "--groups", 7, "--disks-per-group", 3, code=IMAGE)
    expect(not list(desk.directory.glob("*.new-*")), "create leaves its working file")


def interrupted(desk):
    """SIGINT in the middle of a stream: what was taken by whole chunks is written, nothing is cut off."""
    path = desk.create("signal.img", 7, 3, 512)
    tool = desk.start("write", path, "--at", 0, **PIPES)
    tool.stdin.write(b"a" * (64 * 512 + 100))  # a chunk, and the beginning of another
    tool.stdin.flush()
    wait_until(lambda: has_settled(path, b"a" * 512) or tool.poll() is not None, "a chunk is written")
    tool.send_signal(signal.SIGINT)
    error = tool.communicate(timeout=20)[1].decode()
    expect(tool.returncode == INTERRUPTED and "32768 bytes were written before" in error, f"SIGINT: {tool.returncode}, {error}")
    expect(desk.contents(path) == (b"a" * 64 * 512).ljust(84 * 512, b"\0"), "SIGINT: other bytes than those that were told")
    expect(State.of(path.read_bytes()).call == 0, "SIGINT: a call is left under way")
    desk.run("audit", path, code=DONE)


def has_settled(path, bytes):
    """The array holds the bytes, and both copies of the state say that no call is under way."""
    image = path.read_bytes()
    first, second = image[HEADER : HEADER + STATE], image[HEADER + STATE : ARRAY]
    return bytes in image[ARRAY:] and first == second and first[8] == 0


def shrunk(desk):
    """The file is cut short under the tool's map: it ends with words, and the record stays."""
    path = desk.create("shrunk.img", 7, 3, 512)
    tool = desk.start("write", path, "--at", 0, **PIPES)
    with open(path, "r+b") as file:
        wait_until(lambda: not is_free(file), "write takes the lock")
        wait_until(lambda: str(path) in Path(f"/proc/{tool.pid}/maps").read_text(), "write maps the image")
        file.truncate(ARRAY)
    error = tool.communicate(b"x" * 1000, timeout=20)[1].decode()
    told = tool.returncode == IMAGE and "can't be read or written any more" in error
    expect(told, f"a shorter file: {tool.returncode}, {error}")
    expect(State.of(path.read_bytes()).call == WRITE, "a shorter file: no record is left")


def closed_streams(desk):
    """A standard stream that is closed: the image is not taken for it, so no words get into it."""
    path = desk.create("closed.img", 7, 3, 512)
    before = path.read_bytes()
    cases = [
        ("write, no input", 0, ["write", path, "--at", 0], IMAGE),
        ("plan, no output", 1, ["plan", path, 9, "--lines"], IMAGE),
        ("read, no output", 1, ["read", path, "--at", 0], IMAGE),
        ("refused, nowhere to say so", 2, ["fail", path, 0, 1, 3, 4], REFUSED),
        ("wrong words, nowhere to say so", 2, ["write", path], USAGE),
    ]
    for what, stream, words, code in cases:
        tool = desk.start(*words, **PIPES, preexec_fn=lambda: os.close(stream))
        tool.communicate(timeout=20)
        expect(path.read_bytes() == before, f"{what}: it gets into the image")
        expect(tool.returncode == code, f"{what}: exit code {tool.returncode}, not {code}")


def own_stream(desk):
    """A standard stream that is the image itself: nothing is read from it and nothing gets into it."""
    path = desk.create("own.img", 7, 3, 512)
    before = path.read_bytes()
    cases = [("stdin", ["write", path, "--at", 0]), ("stdout", ["read", path, "--at", 0]), ("stderr", ["fail", path, 0, 1, 3, 4])]
    for stream, words in cases:
        with open(path, "rb" if stream == "stdin" else "ab") as own:
            tool = desk.start(*words, **{**PIPES, stream: own})
            told = tool.communicate(timeout=20)[1]
        expect(path.read_bytes() == before, f"{stream} is the image: it gets into it")
        expect(tool.returncode == IMAGE, f"{stream} is the image: exit code {tool.returncode}")
        expect(stream == "stderr" or b"too\n" in told, f"{stream} is the image: told is {told}")


def too_large(desk):
    """The system allows no file as long as the image: it is said, and nothing is left."""
    bound = 100_000
    allowed = lambda: resource.setrlimit(resource.RLIMIT_FSIZE, (bound, bound))
    words = ["create", desk.path("large.img"), "--groups", 7, "--disks-per-group", 3]
    tool = desk.start(*words, **PIPES, preexec_fn=allowed)
    error = tool.communicate(timeout=20)[1].decode()
    expect(tool.returncode == IMAGE and "File too large" in error, f"too large a file: {tool.returncode}, {error}")
    expect(not list(desk.directory.iterdir()), "too large a file: something is left")


def is_free(file):
    try:
        fcntl.flock(file, fcntl.LOCK_SH | fcntl.LOCK_NB)
    except BlockingIOError:
        return False
    fcntl.flock(file, fcntl.LOCK_UN)
    return True


CHECKS = [wrong_images, one_copy, locks, creation, interrupted, shrunk, closed_streams, own_stream, too_large]
