"""check.py NAME.., or check.py PRINTDIR [NAME..]: compares prints with the expected lines."""

import pathlib
import subprocess
import sys
import tempfile

import desk
import make
import plain
import script

USAGE = """usage: lessons/check NAME.., or lessons/check PRINTDIR [NAME..]

Compares prints with the expected lines. With NAME alone, which is one that lessons/make takes, the rides are made and
printed by the proved program `trace` first. With PRINTDIR, the prints are PRINTDIR/RIDE.out, of every lesson where
no NAME follows. A print of four columns is that of `ride` and has its heading; one of six is that of `trace`, where the
fifth is the crossing icon and the sixth the limit standing: only there are these two looked at. A print must also number
its lines 1, 2, 3, .. and have one for each sample of the ride, up to the one whose refusal the script says; and where no
expected line has a cause, it has none. Prints a line for each difference, and `N passed, M failed` (rides) at the end."""

HEADING = "n limit lamps cause"
COLUMN = {"icon": 4, "standing": 5}


def read_print(path):
    """A print: whether it has the heading, its rows of numbers, and what follows them."""
    lines = path.read_text(encoding="ascii", errors="replace").splitlines()
    headed = bool(lines) and lines[0].startswith(HEADING)
    rows, rest = [], []
    for line in lines[1:] if headed else lines:
        words = line.split()
        if not rest and len(words) >= 4 and all(word.isdigit() for word in words):
            rows.append([int(word) for word in words])
        else:
            rest.append(line)
    return headed, rows, rest


def frame(ride, headed, rows, rest):
    """What is wrong with a print as a whole: its heading, its numbers, how many lines it has, and its end."""
    if not headed and not (rows and len(rows[0]) >= 6):
        yield f"the heading '{HEADING}' is missing"
    wrong = [(i, row[0]) for i, row in enumerate(rows, 1) if row[0] != i]
    if wrong:
        yield f"line {wrong[0][0]} is numbered {wrong[0][1]}"
    samples, end = len(ride.samples), []
    if ride.refused is not None:
        samples, end = script.fault(ride)[2], [f"refused {ride.refused}"]
    if len(rows) != samples:
        yield f"expected {samples} lines, printed {len(rows)}"
    if rest != end:
        yield f"expected {' / '.join(end) or 'nothing'} behind the lines, printed {' / '.join(rest) or 'nothing'}"


def differences(ride, printed):
    """What is wrong with one print, a sentence each."""
    if not ride.expected and ride.refused is None:
        yield "there are no expected lines"
        return
    if not printed.exists():
        yield "there is no print"
        return
    headed, rows, rest = read_print(printed)
    yield from frame(ride, headed, rows, rest)
    causes = [row for row in rows if row[3]]
    if causes and not any(numbers[2] for _, _, numbers, _ in ride.expected):
        yield f"n {causes[0][0]}: cause {causes[0][3]}, and no expected line has a cause"
    for _, n, numbers, extra in ride.expected:
        if not 1 <= n <= len(rows):
            yield f"n {n}: no such line"
            continue
        row = rows[n - 1]
        where = f"n {n}"
        if n <= len(ride.samples):
            sample = script.said(ride.samples[n - 1])
            where += f" ({script.shown(ride.path)}:{ride.sample_lines[n - 1]}: {sample})"
        if row[1:4] != numbers:
            wanted, got = " ".join(map(str, numbers)), " ".join(map(str, row[1:4]))
            yield f"{where}: expected {wanted}, printed {got}"
        for key, value in extra.items():
            if len(row) >= 6 and row[COLUMN[key]] != value:
                yield f"{where}: expected {key}={value}, printed {row[COLUMN[key]]}"


def compare(rides, prints):
    """Prints the differences and the counts; gives the exit status."""
    passed = failed = 0
    for ride in rides:
        found = list(differences(ride, prints / f"{ride.name}.out"))
        plain.say("".join(f"{ride.name}: {why}\n" for why in found))
        passed, failed = passed + (not found), failed + bool(found)
    plain.say(f"{passed} passed, {failed} failed\n")
    return 1 if failed or not passed else 0


def run(names):
    """Makes the rides, prints them with `trace` and compares."""
    rides = script.rides(names)
    with tempfile.TemporaryDirectory() as folder:
        out = pathlib.Path(folder)
        make.write(rides, out)
        for ride in rides:
            trace = [desk.ROOT / ".bin" / "run", "trace", out / f"{ride.card.name}.card"]
            with open(out / f"{ride.name}.rec", "rb") as recording, open(out / f"{ride.name}.out", "wb") as printed:
                traced = subprocess.run(trace, stdin=recording, stdout=printed, check=False)
            if traced.returncode == 2:  # not built, and it has said so
                return 2
        return compare(rides, out)


def main(arguments):
    if not arguments:
        raise plain.Usage
    if script.is_known(arguments[0]):
        return run(arguments)
    prints = pathlib.Path(arguments[0])
    if not prints.is_dir():
        raise plain.Ends(f"{arguments[0]} is neither a lesson, nor a script, nor a folder of prints; {script.WHAT_NAMES}")
    return compare(script.rides(arguments[1:] or ["all"]), prints)


plain.run("check", USAGE, main, sys.argv[1:], script.STATUS)
