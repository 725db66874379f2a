"""page.py NAME..: prints what a lesson's README.md shows of a ride, from the answers of the independent model."""

import pathlib
import shutil
import subprocess
import sys
import tempfile

import desk
import lessons
import make
import plain
import programs
import script
import tell

USAGE = """usage: lessons/page NAME.., or lessons/page all

Prints what a lesson's README.md shows of a ride: the command `./tell ..` and, below it, the page; and the command `./why .. words` with
what it tells. What a README stores is not made by the program that it judges: here the answers are those of the independent model
(tests/model, built with rustc), in place of `trace` and `why`. A NAME is one that lessons/make takes."""


def page(ride):
    """The ride as ./tell has it."""
    return tell.page(desk.Ride(ride.card.data, make.recording(ride)), lessons.title_of_recording(pathlib.Path(f"{ride.name}.rec")))


def reasons(ride):
    """The ride as ./why tells it in words."""
    with programs.lent(ride.card.data) as area:
        return programs.answer("why", [area.name, "words"], make.recording(ride))


def show(command, lines):
    plain.say("\n".join([f"$ {command}", *lines, "", ""]))


def main(names):
    if not names:
        raise plain.Usage
    if not shutil.which("rustc"):
        raise plain.Ends("rustc is missing; README.md says what must be there")
    rides = script.rides(names)
    with tempfile.TemporaryDirectory() as name:
        folder = pathlib.Path(name)
        subprocess.run(["rustc", "-o", folder / "model", desk.ROOT / "tests" / "model" / "main.rs"], check=True)
        programs.command = lambda name: [folder / "model", "run" if name == "trace" else name]
        for ride in rides:
            card, recording = f"target/lessons/{ride.card.name}.card", f"target/lessons/{ride.name}.rec"
            show(f"./tell {card} < {recording}", page(ride))
            show(f"./why {card} words < {recording}", reasons(ride))
    return 0


plain.run("page", USAGE, main, sys.argv[1:], script.STATUS)
