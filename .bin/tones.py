"""tones.py SHEET [TONE ..]: runs show_tones for a person, with a status. Tones may be given in kHz too; each line has the f32 that its
tone became, and the offset, in kHz beside the bits."""

import os
import re
import struct
import sys
import threading
from fractions import Fraction

import plain
import programs

USAGE = """usage: ./show_tones SHEET [TONE ..] [< TONES]

Says what each tone reads as under the sheet in the file SHEET: a beacon or the permanent tone, with the offset from the row's
centre, or nothing, which is code 12 of a ride, the quiet pickup. A TONE is a decimal number of kHz, as 60.76, or the eight hexadecimal
digits of an f32 in kHz, as 42730a3d. Without one, tones come on standard input, a line each, in the same forms. With tones, SHEET may
be -, the sheet on standard input. A decimal is rounded to the nearest f32, once."""

STANDARD_INPUT = ("-", "/dev/stdin", "/dev/fd/0", "/proc/self/fd/0")

# The program's words where a line is no tone, and what stands behind them: a tone in kHz is taken here alone.
BITS_FORM = "a tone is the eight hexadecimal digits of its f32 in kHz, as 42730a3d"
KHZ_FORM = ", or a number of kHz, as 60.76"
NOT_A_TONE = "not a tone: "

BITS = re.compile(r"[0-9A-Fa-f]{8}")
DECIMAL = re.compile(r"([+-]?(?:[0-9]+\.?[0-9]*|\.[0-9]+))(?:[ \t]*kHz)?", re.IGNORECASE)
ANSWER = re.compile(r"([0-9a-f]{8}) (?:nothing code 12|(?:permanent|beacon [0-9]+) offset ([0-9a-f]{8}))")


def float_of(bits):
    return struct.unpack(">f", bits.to_bytes(4, "big"))[0]


def nearest(text):
    """The bits of the f32 nearest to a decimal, None where it is too large for one, or has thousands of digits. The decimal is rounded
    by way of an f64, so what comes of it or a neighbour is the nearest; of two as near it is the even one."""
    try:
        exact = Fraction(text)
        first = int.from_bytes(struct.pack(">f", exact), "big")
    except (OverflowError, ValueError):
        return None
    near = [bits for bits in (first - 1, first, first + 1) if 0 <= bits < 1 << 32 and abs(float_of(bits)) < float("inf")]
    return min(near, key=lambda bits: (abs(Fraction(float_of(bits)) - exact), bits & 1))


def bits_of(text):
    """The bits of a tone as a person writes it, None where it is none. Blanks count for nothing."""
    digits = text.replace(" ", "").replace("\t", "")
    if BITS.fullmatch(digits):
        return int(digits, 16)
    decimal = DECIMAL.fullmatch(text.strip())
    return nearest(decimal[1]) if decimal else None


def khz(bits):
    """An f32 in kHz; nine digits tell it from every other."""
    return f"{float_of(bits):.9g} kHz"


def beside(line):
    """A line of the program, and what stands beside it."""
    answer = ANSWER.fullmatch(line)
    if not answer:
        return plain.printable(line) + KHZ_FORM if line.startswith(NOT_A_TONE) else line
    tone, offset = (khz(int(bits, 16)) if bits else None for bits in answer.groups())
    return f"{line}   = {tone}" + (f", offset {offset}" if offset else "")


def asked(bits):
    """A tone as the program reads it."""
    return b"%08x\n" % bits


def say_tones(sheet, tones):
    """A line for each tone of the arguments, or the refusal of the sheet. Gives the status. The tones take the standard input of the
    program, so the sheet is read before."""
    most = plain.MOST + 1
    area = plain.standard_input("sheet", USAGE, most) if sheet in STANDARD_INPUT else plain.file_bytes(sheet, most)
    every = [bits_of(tone) for tone in tones]
    with programs.lent(area) as file:
        lines = programs.answer("show_tones", [file.name], b"".join(asked(bits) for bits in every if bits is not None))
    if lines and lines[0].startswith("refused "):
        plain.say(lines[0] + "\n")
        plain.say_if_text("sheet", area)
        return 1
    answers = iter(lines)
    for tone, bits in zip(tones, every):
        plain.say((f"{NOT_A_TONE}{plain.printable(tone)}; {BITS_FORM}{KHZ_FORM}" if bits is None else beside(next(answers))) + "\n")
    return 1 if None in every else 0


# ---- tones on standard input

def hand_on(target):
    """Hands each line of standard input on as soon as it is whole, a decimal as its bits, until the input ends or nobody reads on."""
    try:
        with open(0, "rb", closefd=False) as given, open(target, "wb") as program:
            while line := given.readline(programs.CHUNK):
                bits = bits_of(line.decode("latin-1"))
                program.write(line if bits is None else asked(bits))
                program.flush()
    except OSError:
        pass


def pass_tones(sheet):
    """An answer for each line of standard input as it comes, or the refusal of the sheet. Gives the status."""
    plain.check_input("tones")
    if sheet in STANDARD_INPUT:
        raise plain.Ends("a sheet on standard input needs its tones behind it: ./show_tones - TONE ..")
    source, target = os.pipe()
    threading.Thread(target=hand_on, args=[target], daemon=True).start()
    heard = programs.pass_on("show_tones", [sheet], source, lambda line: plain.encoded(beside(line.decode("utf-8", "surrogateescape"))))
    if heard.refusal and heard.refusal.startswith("refused "):
        plain.say_if_text("sheet", plain.read_again(sheet))
    return heard.status()


def main(arguments):
    if not arguments:
        raise plain.Usage
    sheet, *tones = arguments
    return say_tones(sheet, tones) if tones else pass_tones(sheet)


plain.run("show_tones", USAGE, main, sys.argv[1:])
