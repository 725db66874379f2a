"""The desk's names and forms, for programs that say in words what the proved ones answer: buttons, lamps, beacons, causes, refusals; a
card, a recording and the lines of `trace`. Nothing here decides what the desk answers."""

import pathlib
import sys
from typing import NamedTuple

import pairs
import plain
import programs
import standstill

ROOT = pathlib.Path(__file__).resolve().parent.parent
sys.path.insert(0, str(ROOT / "lessons"))

import script  # noqa: E402

BUTTONS = script.BUTTONS
LAMPS = [*BUTTONS, "alarm"]  # a button's lamp has its bit; the alarm has no button

BEACONS = [
    None, "announcement or other", "conditional clear", "clear", "protected crossing", "preannouncement", "caution", "before-stop",
    "stop", "crossing or limit", "limit", "limit",
]
QUIET = script.QUIET
CAUSES = [
    None, "a main window missed", "a side window missed", "a reminder missed", "a stop signal passed without override", "too fast",
    "the pickup is quiet",
]
ICONS = ["none", "protected", "unprotected"]
MODES = {1: "CONV", 2: "BTS"}

TYPES = [None, *script.TYPES]  # T in km/h

# Document 01's table, with what document 02 changes in it.
REFUSALS = {
    1: "card area under 3 bytes, or shorter than its record",
    2: "card version 0",
    3: "card version above the reader's highest",
    4: "length field is not its version's length",
    5: "setting out of range",
    6: "reader's highest version not 1, 2 or 3",
    7: "train type not 1..8, or faster than vmax",
    8: "session out of its ranges",
    9: "beacon, buttons or mode out of range",
    10: "pulses × tick length above 100,000",
    11: "mode changed while not at standstill",
    12: "tone sheet bad",
    13: "writer's buffer shorter than the record",
    14: "recording not exactly as long as stated, length not 6 + 6n with n ≤ 10,000, or version not 1",
}
OF_CARD = range(1, 7)
CARD_HINT = "show_card says more"
OF_TYPE = 7
OF_SAMPLE = range(8, 12)
OF_RECORDING = 14


def names(mask):
    """The names of the lamps, or of the buttons, of a mask."""
    return [name for bit, name in enumerate(LAMPS) if mask >> bit & 1]


# ---- what a ride is made of

HEAD = 6
MOST = HEAD + 6 * 10_000
IN_RANGE = bytes((0, 0, 0, 0, 0, 1))  # a sample's bytes


class Card(NamedTuple):
    """What is said of a card that was read; only the desk decides whether it is."""
    version: int
    vmax: int
    tick: int
    functions: int
    pair_speeds: dict  # in km/h, by the pair's kind; a card before version 3 has none
    pair_distance: int  # in metres

    @staticmethod
    def of(area):
        version = area[2]
        speeds, distance = (dict(zip(pairs.KINDS, area[44:48])), area[48]) if version == pairs.VERSION else ({}, 0)
        return Card(version, area[3], int.from_bytes(area[4:6], "big"), area[39] if version > 1 else 0, speeds, distance)

    def speed(self, pulses):
        """In km/h."""
        return pulses * self.tick * 9 / 2500

    def travel(self, pulses):
        """Of one sample, in tenths of a millimetre: document 01's m."""
        return pulses * self.tick


class Sample(NamedTuple):
    pulses: int
    beacon: int
    buttons: int
    mode: int

    @staticmethod
    def of(six):
        return Sample(int.from_bytes(six[:2], "big"), six[2], int.from_bytes(six[3:5], "big"), six[5])


class Answer(NamedTuple):
    """A line of `trace` behind its number. The limit is S, in hundredths of km/h."""
    limit: int
    lamps: int
    cause: int
    icon: int
    standing: int


class Ride:
    """A recording on a card, and what the desk answers: an answer for each accepted sample, then the number of the refusal or None.
    A card and samples are there as far as there are answers, and so are whether a sample is at standstill and which pair is made at it."""

    def __init__(self, card, recording):
        self.given = card, recording
        with programs.lent(card) as area:
            _, *lines = programs.answer("trace", [area.name], recording)
        self.refusal = int(lines.pop().split()[1]) if lines and lines[-1].startswith("refused ") else None
        self.answers = [Answer(*map(int, line.split()[1:])) for line in lines]
        self.card = Card.of(card) if self.refusal is None or self.refusal not in OF_CARD else None
        self.kind = recording[HEAD - 1] if len(recording) >= HEAD else None
        self.samples = [Sample.of(recording[at:at + 6]) for at in range(HEAD, len(recording) - 5, 6)]
        self.standstill = [standstill.is_reached(count) for count in standstill.counts(sample.pulses for sample in self.samples)]
        self.pairs = list(pairs.made(self.readings(), self.card.pair_distance)) if self.card and self.card.pair_speeds else []

    def steps(self):
        """Each accepted sample with its answer."""
        return list(zip(self.samples, self.answers))

    def passes(self, i):
        """The beacon that the train comes to at sample i (from 0), 0 if none: its code differs from that of the sample before, and is
        not that of a quiet pickup."""
        beacon, before = self.samples[i].beacon, self.samples[i - 1].beacon if i else 0
        return beacon if beacon not in (before, QUIET) else 0

    def is_quiet(self, i):
        """Is the pickup quiet at sample i? It is not before the first."""
        return i >= 0 and self.samples[i].beacon == QUIET

    def reads(self, i):
        """Is a beacon to which the train comes at sample i read? In BTS only function 3 reads some."""
        now = self.samples[i]
        return now.mode == 1 or bool(self.card.functions & 8) and now.beacon in (4, 9, 10, 11)

    def readings(self):
        """Of each accepted sample the mode, the travel, and the beacon that is read in it, 0 if none."""
        for i, (sample, _) in enumerate(self.steps()):
            yield sample.mode, self.card.travel(sample.pulses), self.passes(i) if self.reads(i) else 0

    def beacon_words(self, i):
        """What the beacon to which the train comes at sample i is called: by the pair that it makes, else by its own name."""
        kind = self.pairs[i] if self.pairs else None
        return f"pair {kind}: {self.card.pair_speeds[kind]} km/h" if kind else BEACONS[self.samples[i].beacon]

    def why(self):
        """The refusal in words."""
        return refusal_words(self.refusal, len(self.answers), *self.given)


# ---- why a ride was refused, which the desk has decided

def type_fault(card, kind):
    """Refusal 7."""
    if not 1 <= kind < len(TYPES):
        return f"train type {kind}, must be 1..{len(TYPES) - 1}"
    return f"train type {kind} runs {TYPES[kind]} km/h, the card's vmax is {card.vmax}" if card else None


def range_fault(sample):
    """Refusal 9: each of the three that is out of its range."""
    highest = sample.buttons.bit_length() - 1
    faults = [
        f"beacon {sample.beacon}, must be 0..{QUIET}" if sample.beacon > QUIET else None,
        f"button {highest}, must be 0..{len(BUTTONS) - 1}" if highest >= len(BUTTONS) else None,
        f"mode {sample.mode}, must be 1 or 2" if sample.mode not in MODES else None,
    ]
    return "; ".join(filter(None, faults))


def travel_fault(card, sample):
    """Refusal 10."""
    if not card:
        return None
    return f"{sample.pulses} pulses x tick length {card.tick} = {card.travel(sample.pulses):,}, at most {script.MOST_TRAVEL:,}"


def mode_fault(samples):
    """Refusal 11, of the last of these samples; those before it were accepted."""
    *_, count = standstill.counts(sample.pulses for sample in samples)
    last = samples[-1]
    return f"mode changes to {MODES[last.mode]} while not at standstill: {standstill.shortfall(count, last.pulses)}"


def recording_fault(recording):
    """Refusal 14: the first of its reasons. Of a recording that is too long no more than its beginning is there."""
    has, stated = len(recording), int.from_bytes(recording[:4], "big")
    if has < HEAD:
        return f"recording has {has} bytes, must have {HEAD} or more" if has else "recording is empty"
    count, rest = divmod(stated - HEAD, 6)
    if stated > MOST and has > MOST and not rest:
        return f"recording states {count:,} samples, at most {script.MOST_SAMPLES:,}"
    if stated != has:
        return f"recording states {stated:,} bytes, has {f'{has:,}' if has <= MOST else f'more than {MOST:,}'}"
    if rest:
        return f"recording has {has:,} bytes, must have {HEAD} and 6 for each sample"
    return f"recording version {recording[4]}, must be 1" if recording[4] != 1 else None


def sample_fault(number, answered, card, recording):
    """A refusal of the sample behind those that were answered. Over a line it may come before the sample's last byte: those that are
    not there are no fault."""
    at = HEAD + 6 * answered
    there = recording[at:at + 6]
    sample = Sample.of(there + IN_RANGE[len(there):])
    if number == 9:
        return range_fault(sample)
    if number == 10:
        return travel_fault(card, sample)
    if number == 11:
        return mode_fault([*(Sample.of(recording[k:k + 6]) for k in range(HEAD, at, 6)), sample])
    return None


def fault(number, answered, card, recording):
    """What in these bytes the refusal is about, None where they do not tell; of a card show_card says it."""
    if number in OF_CARD:
        return None
    if number == OF_RECORDING:
        return recording_fault(recording)
    read = Card.of(card) if card else None
    return type_fault(read, recording[HEAD - 1]) if number == OF_TYPE else sample_fault(number, answered, read, recording)


def refusal_words(number, answered, card, recording):
    """A refusal of a ride of which so many samples were answered: what is at fault where its bytes are there, else the table's words."""
    found = None if recording is None else fault(number, answered, card, recording)
    words = found or REFUSALS.get(number, "")
    return f"sample {answered + 1}: {words}" if number in OF_SAMPLE else words


def say_refusal(number, answered, card, recording):
    """Says the refusal of a ride on standard error, in words."""
    more = f"; {CARD_HINT}" if number in OF_CARD else ""
    plain.complain(f"ride refused: {refusal_words(number, answered, card, recording)} (refusal {number}{more})")
    say_if_text(number, card, recording)


def say_if_text(number, card, recording):
    """Says on standard error that the bytes by which a ride was refused are a text."""
    if number in OF_CARD:
        plain.say_if_text("card", card)
    elif number == OF_RECORDING:
        plain.say_if_text("recording", recording or b"")


# ---- given, and told

def given_bytes(card, usage):
    """The bytes of the card in a file, and of the recording on standard input, as far as a program looks at them."""
    return plain.file_bytes(card, MOST), plain.standard_input("recording", usage, MOST + 1)


def given_ride(card, usage):
    """The ride of the recording on standard input, on the card in a file."""
    return Ride(*given_bytes(card, usage))


def clock(samples):
    """The time after so many samples."""
    return f"{samples // 600}:{samples % 600 / 10:04.1f}"


def duration(samples):
    """How long so many samples last."""
    minutes, seconds = samples // 600, f"{samples % 600 / 10:.1f} s"
    return f"{minutes} min {seconds}" if minutes else seconds
