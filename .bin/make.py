"""make.py NAME.. OUTDIR: turns rides and their cards into bytes and into readable hex."""

import pathlib
import sys

import desk  # noqa: F401 (it knows where script is)
import plain
import script

USAGE = """usage: lessons/make NAME.. OUTDIR, or lessons/make all OUTDIR

Turns rides into OUTDIR/RIDE.rec, the bytes of the recording, and OUTDIR/RIDE.hex, the same as readable hex text, six
bytes a line. The cards they use become OUTDIR/CARD.card. A NAME is a lesson or its number, one of its rides, `all`, or the
path of a script, whose name ends in .txt. A ride that the desk would refuse is told by file and line, and nothing is made,
unless its script says that it is meant. Once all files are written it prints a line `RIDE CARD` for each ride."""


def head_bytes(ride):
    """The recording's first six bytes: its length, version 1, the train type."""
    return (6 + 6 * len(ride.samples)).to_bytes(4, "big") + bytes([1, ride.kind])


def sample_bytes(sample):
    pulses, beacon, mask, mode = sample
    return pulses.to_bytes(2, "big") + bytes([beacon]) + mask.to_bytes(2, "big") + bytes([mode])


def recording(ride):
    """The bytes of a ride's recording."""
    return head_bytes(ride) + b"".join(map(sample_bytes, ride.samples))


def hex_text(ride):
    """The same as text, a line for the head and one for each sample."""
    title = f"length, version 1, train type {ride.kind}; {len(ride.samples)} samples, card {ride.card.name}"
    text = f"{spaced(head_bytes(ride))}  # {title}\n"
    return text + "".join(f"{spaced(sample_bytes(sample))}  # {n}: {script.said(sample)}\n" for n, sample in enumerate(ride.samples, 1))


def spaced(data):
    return " ".join(f"{b:02X}" for b in data)


def write_ride(ride, out):
    (out / f"{ride.name}.rec").write_bytes(recording(ride))
    (out / f"{ride.name}.hex").write_text(hex_text(ride), encoding="utf-8")
    (out / f"{ride.card.name}.card").write_bytes(ride.card.data)


def write(rides, out):
    """Writes the files of rides to a folder."""
    try:
        out.mkdir(parents=True, exist_ok=True)
        for ride in rides:
            write_ride(ride, out)
    except FileExistsError:
        raise plain.Ends(f"cannot write to {out}: it is a file") from None
    except OSError as error:
        raise plain.Ends(f"cannot write to {out}: {plain.reason(error)}") from None


def main(arguments):
    if len(arguments) < 2:
        raise plain.Usage
    rides = script.rides(arguments[:-1])
    write(rides, pathlib.Path(arguments[-1]))
    plain.say("".join(f"{ride.name} {ride.card.name}\n" for ride in rides))
    return 0


if __name__ == "__main__":
    plain.run("make", USAGE, main, sys.argv[1:], script.STATUS)
