"""Builds the programs of the benchmark under target/, and installs what they need and can be had."""
import os
import shutil
import subprocess

import timing

FLAGS = ("-std=c11", "-Wall", "-Wextra", "-Wpedantic", "-Wconversion", "-Werror", "-Iinclude", f"-DROUNDS={timing.ROUNDS}")
# The C that is compared gets -O3 and SSE2, as the library has.
OBJECTS = {
    "contest": ("-O3", "-msse2"), "plain": ("-O3",), "isal": ("-O3",), "race": ("-O2",), "arrays": ("-O2",),
}
PROGRAMS = {
    "calls": ["plain", "arrays", "race", "contest"],
    "bytes": ["arrays", "race", "contest"],
    "peers": ["arrays", "race", "contest"],
    "runs": ["race", "contest"],
}


def has_isal(say):
    try:
        say("gcc", "-E", "-include", "isa-l.h", "-x", "c", "/dev/null")
    except subprocess.CalledProcessError:
        return False
    return True


def missing(say):
    """Packages that are not there."""
    there = {"libisal-dev": has_isal(say), "snapraid": shutil.which("snapraid"), "valgrind": shutil.which("valgrind")}
    return [package for package, found in there.items() if not found]


def install(say, tell):
    """As root, what is missing; goes on without what can't be had."""
    wanted = missing(say)
    if wanted and (os.geteuid() != 0 or not shutil.which("apt-get")):
        tell(f"missing: {', '.join(wanted)}; as root on Debian this script installs them")
        return
    for package in wanted:
        tell(f"apt-get install {package} ..")
        env = {**os.environ, "DEBIAN_FRONTEND": "noninteractive"}
        done = subprocess.run(["apt-get", "install", "-y", "-q", package], capture_output=True, text=True, env=env)
        if done.returncode != 0:
            tell(f"{package} can't be installed\n{done.stderr.strip()}")


def build(say, archive):
    """Whether ISA-L is there. Programs are not position independent, so that addresses are their own, and bound at start, so that
    no call's count holds a search for a symbol."""
    isal = has_isal(say)
    for name, flags in OBJECTS.items():
        if name != "isal" or isal:
            say("gcc", *flags, *FLAGS, "-c", "-o", f"target/{name}.o", f"bench/{name}.c")
    for name, parts in PROGRAMS.items():
        more = ["-DWITH_ISAL", "target/isal.o"] if name == "bytes" and isal else []
        libraries = ["-lisal"] if isal and name != "calls" else []
        if name != "peers" or isal:
            say("gcc", "-O2", "-no-pie", "-Wl,-z,now", *FLAGS, *more, "-o", f"target/{name}", f"bench/{name}.c",
                *[f"target/{part}.o" for part in parts], archive, *libraries)
    return isal
