"""build.py NAME: proves and builds the program NAME. Says beforehand how long that takes, and a line for each crate as it goes."""

import os
import pathlib
import re
import signal
import subprocess
import sys
import time

ROOT = pathlib.Path(__file__).resolve().parent.parent

# How many seconds a crate takes on two cores, the rest of the machine idle and busy.
SECONDS = (22, 33)

# What rt says of each crate that it proves: its name in some lines, and last the verdict.
CRATE = re.compile(r"(?:fn (\w+)::|crate (\w+): modules )")
PROVED = re.compile(r"logic=proved\b")


def needs():
    """The crates that each crate of crates.txt stands on; the list has them in an order in which they can be proved."""
    found = {}
    for line in (ROOT / "crates.txt").read_text(encoding="utf-8").splitlines():
        name, colon, words = line.split("#", 1)[0].partition(":")
        if colon:
            found[name.strip()] = words.split()
    return found


def below(name, of):
    """A crate and all that it stands on, those of the kit left out."""
    return {name}.union(*(below(crate, of) for crate in of[name] if crate in of))


def program_of(crate):
    """The program of a crate, as rt leaves it in the crate's folder."""
    return ROOT / "crates" / crate / "out" / crate


def is_old(crate):
    """Has a crate changed since it was proved, as far as the times of its files say?"""
    folder = ROOT / "crates" / crate
    stamp = folder / "out" / f"{crate}.stamp" if (folder / "src" / "main.rt").exists() else folder / "out" / "rlib" / "stamp"
    return not stamp.exists() or any(p.stat().st_mtime > stamp.stat().st_mtime for part in folder.iterdir() if part.name != "out"
                                     for p in [part, *part.rglob("*")])


def to_prove(name):
    """How many crates there are to go through, and how many of them are to be proved."""
    of = needs()
    if name not in of:
        sys.exit(f"{name}: there is no such program")
    wanted = below(name, of)
    old = set()
    for crate in of:
        if crate in wanted and (is_old(crate) or old & set(of[crate])):
            old.add(crate)
    return len(wanted), len(old)


def minutes(crates):
    low, high = (max(1, round(crates * each / 60)) for each in SECONDS)
    if high == 1:
        return "a minute"
    return f"{low} to {high} minutes" if low < high else f"{low} minutes"


def stop_plainly(name):
    """Ctrl-C ends the proving, which hears of it too, with a line."""
    def stopped(*_):
        os.write(1, f"{name}: stopped; what is proved stays, the next run goes on\n".encode())
        os._exit(130)

    if signal.getsignal(signal.SIGINT) != signal.SIG_IGN:
        signal.signal(signal.SIGINT, stopped)


def beforehand(name, every, old):
    if not old:
        return f"{name}: built first, nothing to prove again; later runs start at once"
    return f"{name}: proved and built first, {old} of {every} crates, which takes {minutes(old)} on two cores; later runs start at once"


def main(name):
    stop_plainly(name)
    every, old = to_prove(name)
    print(beforehand(name, every, old), flush=True)
    program_of(name).unlink(missing_ok=True)  # what is there afterwards is of these sources
    said, done, crate, begun = [], every - old, name, time.monotonic()
    # rt also runs the program: without arguments and input, which does nothing, and what it prints is not passed on.
    with subprocess.Popen(["rt", "run"], cwd=ROOT / "crates" / name, text=True, errors="replace", stdin=subprocess.DEVNULL,
                          stdout=subprocess.DEVNULL, stderr=subprocess.PIPE) as run:
        for line in run.stderr:
            said.append(line)
            if of_crate := CRATE.match(line):
                crate = of_crate[1] or of_crate[2]
            if PROVED.match(line):
                done = min(done + 1, every)
                print(f"{name}: {done} of {every}: {crate} proved ({time.monotonic() - begun:.0f} s)", flush=True)
                begun = time.monotonic()
    if not program_of(name).exists():
        print(*said, f"{name}: not proved, so there is nothing to run", sep="")
        sys.exit(2)


main(sys.argv[1])
