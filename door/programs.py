"""The proved programs, `crates/NAME/out/NAME`: built where need be, and run.

A program is current where it is newer than every file of its crate and of the crates that it stands on. Else the
toolchain is asked, by `rt run` in its folder, which proves what has changed, and builds and runs the program: only
for its `--help`, since no command builds one without running it. The gate, `rt ci`, leaves programs at the same place.

Programs are x86-64 code, and the toolchain has none for other machines.
"""
import contextlib
import os
import pathlib
import shutil
import subprocess
import time

from door.files import STDERR, Trouble, complain, say

ROOT = pathlib.Path(__file__).resolve().parent.parent
TARGET = ROOT / "target"
# what a program is made from; the rest of a crate is for the gate alone
PARTS = ("src", "specs", "proofs")
# what rt is asked, in a program's folder
BUILD = ("run", "--", "--help")


def run(name, arguments=(), is_forced=False, **stdin):
    """What a program writes to standard output; the input is given as for `subprocess.run`."""
    if is_forced or not is_current(name):
        check(name)
    command = [str(binary(name)), *arguments]
    try:
        ran = subprocess.run(command, stdout=subprocess.PIPE, stderr=subprocess.PIPE, **stdin)
    except OSError as error:
        raise Trouble(f"{name} can't be run: {error.strerror}: {error.filename}") from None
    said = ran.stderr.decode(errors="replace").strip()
    if ran.returncode != 0:
        raise Trouble(f"{name} ended with status {ran.returncode}: {said or 'it said nothing'}")
    if ran.stdout == b"unreadable\n":
        raise Trouble(f"{name} can't read its input: {said or 'it does not say why'}")
    if said:
        complain(f"{name}: {said}")
    return ran.stdout


def folder(name):
    return ROOT / "crates" / name


def binary(name):
    return folder(name) / "out" / name


def is_current(name):
    """Whether a program is there, and newer than what it is made from."""
    changed, program = newest(sources(name)), binary(name)
    return program.exists() and changed < program.stat().st_mtime


def sources(name):
    """The files that a program is made from, and their folders."""
    yield ROOT / "crates.txt"
    for crate in crates_below(name):
        for part in PARTS:
            top = folder(crate) / part
            yield top
            yield from top.rglob("*")


def newest(paths):
    """When the last of these was changed. A folder is when something in it comes or goes."""
    return max(path.stat().st_mtime for path in paths if path.exists())


def crates_below(name):
    """A crate of the repository, and all that it stands on."""
    listed = crates()
    if name not in listed:
        raise Trouble(f"crates.txt lists no program {name}")
    found, ahead = set(), [name]
    while ahead:
        crate = ahead.pop()
        if crate in listed and crate not in found:
            found.add(crate)
            ahead += listed[crate]
    return sorted(found)


def crates():
    """What crates.txt says: each crate, and what it depends on."""
    lines = (line.partition("#")[0] for line in (ROOT / "crates.txt").read_text().splitlines())
    parted = (line.partition(":") for line in lines if line.strip())
    # a word after the name says what kind of crate it is
    return {name.split()[0]: below.split() for name, _, below in parted}


def check(name):
    """Has the toolchain prove and build a program, and says so in a line, with the seconds that it took."""
    rt = toolchain_command(f"to prove and build {name}")
    log = TARGET / "door" / f"{name}.log"
    began, status = time.time(), None
    try:
        with new_file(log) as said:
            status = timed([rt, *BUILD], folder(name), said, f"guineacrumb: proving and building {name} (rt run in crates/{name}) ..")
    finally:
        # the time at which it began, so that what is edited meanwhile is newer; and one before all where it failed
        date(binary(name), began if status == 0 else 0)
    if status != 0:
        raise Trouble(f"rt run in crates/{name} failed with status {status}; {log} has what it said")
    if not binary(name).exists():
        raise Trouble(f"rt run in crates/{name} made no {binary(name)}; {log} has what it said")


def new_file(path):
    """An empty file, in a folder that is made where it is not there."""
    try:
        path.parent.mkdir(parents=True, exist_ok=True)
        return path.open("wb")
    except OSError as error:
        raise Trouble(f"{path} can't be written: {error.strerror}") from None


def date(path, when):
    """Gives a file, if it is there, the time of its last change."""
    with contextlib.suppress(OSError):
        os.utime(path, (when, when))


def timed(command, where, output, line):
    """The status with which a command ends, run in that folder. A line on standard error has the seconds gone by."""
    began, is_live = time.time(), os.isatty(STDERR)
    say(line)
    process = subprocess.Popen(command, cwd=where, stdin=subprocess.DEVNULL, stdout=output, stderr=subprocess.STDOUT)
    try:
        while True:
            with contextlib.suppress(subprocess.TimeoutExpired):
                return process.wait(timeout=1)
            if is_live:
                say(f"\r{line} {time.time() - began:.0f} s")
    except BaseException:
        process.terminate()
        raise
    finally:
        start = f"\r{line}" if is_live else ""
        say(f"{start} {time.time() - began:.0f} s\n")


def toolchain_command(purpose):
    """Where rt is."""
    rt = shutil.which("rt")
    if rt is None:
        raise Trouble(f"there is no rt here, the command of the Rattle toolchain, {purpose}")
    return rt
