"""Reads what a teacher writes: card texts, ride scripts and expected lines. Used by make, check, page and ./lesson.

lessons/README.md describes the notation. Of the desk's rules this knows one thing only: which card and which ride the desk
refuses, and at which line of the script, so that a slip is told before the ride is made.
"""

import dataclasses
import fractions
import pathlib
import sys

HERE = pathlib.Path(__file__).resolve().parent
sys.path.append(str(HERE.parent / ".bin"))

import pairs  # noqa: E402
import plain  # noqa: E402
import standstill  # noqa: E402

STATUS = "Status: 0 done, 1 a script at fault or a print that differs, 2 usage, a file that cannot be read or output that could not be written."

BUTTONS = [
    "announcement", "preannouncement", "caution", "conditional clear", "before-stop", "crossing",
    "limit", "override", "increase", "hide", "rearm",
]
BEACONS = 11
QUIET = 12  # the code of a quiet pickup, which is no beacon
CONV, BTS = 1, 2
TYPES = [80, 90, 100, 120, 140, 160, 180, 200]  # km/h, types 1 to 8
MOST_SAMPLES = 10_000
MOST_TRAVEL = 100_000  # tenths of a millimetre in a sample
EXTRA = ("icon", "standing")
RECORD = {1: 39, 2: 44, 3: 49}  # a card's length by its version
ROWS = [
    "conditional clear", "stop announcement", "preannouncement", "caution", "before-stop", "unprotected crossing", "limit", "start",
]
REMINDER = 4  # its bit of the card's functions

WHAT_NAMES = "lessons/README.md lists the lessons, and a script's name ends in .txt"


@dataclasses.dataclass
class Card:
    """A card: its name, with what is changed in it, its bytes, and its line in the script."""
    name: str
    data: bytes
    line: int

    def number(self, place):
        """The two bytes at a place."""
        return int.from_bytes(self.data[place:place + 2], "big")

    def version(self):
        return self.data[2]

    def vmax(self):
        return self.data[3]

    def tick(self):
        return self.number(4)


@dataclasses.dataclass
class Ride:
    """A ride: its samples as (pulses, beacon, buttons mask, mode), each with its line in the script."""
    name: str
    path: pathlib.Path
    card: Card = None
    kind: int = None
    kind_line: int = 1
    samples: list = dataclasses.field(default_factory=list)
    sample_lines: list = dataclasses.field(default_factory=list)
    expected: list = dataclasses.field(default_factory=list)
    refused: int = None
    refused_line: int = 1


# ---- texts

def shown(path):
    """A path as a reader of the repository knows it."""
    path = path.resolve()
    return path.relative_to(HERE.parent) if path.is_relative_to(HERE.parent) else path


def stop(path, number, why):
    """Ends the program, naming the line at fault."""
    raise plain.Refused(f"{shown(path)}:{number}: {why}")


def text(path):
    """A file as text: UTF-8, with a mark before it or without, or what the mark of UTF-16 stands before."""
    try:
        data = path.read_bytes()
    except OSError as error:
        raise plain.Ends(f"cannot read {shown(path)}: {plain.reason(error)}") from None
    try:
        return plain.decoded(data)
    except UnicodeDecodeError:
        raise plain.Refused(f"{shown(path)}: it is no text in UTF-8") from None


def lines(path):
    """The lines of a text that say something: number and words, comments gone."""
    for number, line in enumerate(text(path).splitlines(), 1):
        words = line.split("#", 1)[0].split()
        if words:
            yield number, words


def whole(path, number, word, low, high):
    """A whole number between low and high."""
    try:
        value = int(word)
    except ValueError:
        stop(path, number, f"'{word}' is no whole number")
    if not low <= value <= high:
        stop(path, number, f"{value} is not in {low}..{high}")
    return value


# ---- cards

def card_texts():
    """The texts of the cards, by their names."""
    return {path.stem: path for path in sorted((HERE / "cards").glob("*.hex"))}


def card_bytes(path):
    """The bytes of a card text."""
    out = bytearray()
    for number, words in lines(path):
        try:
            out += bytes.fromhex("".join(words))
        except ValueError:
            stop(path, number, "no hex digits in pairs")
    return bytes(out)


def read_card(path, number, words):
    """`NAME [PLACE=VALUE ..]`: a card, with the bytes at those places changed."""
    name, texts = words[0], card_texts()
    if name not in texts:
        stop(path, number, f"there is no card {name}; lessons/cards has {', '.join(texts)}")
    data = bytearray(card_bytes(texts[name]))
    if len(data) < 6:
        stop(path, number, f"card {name} has no tick length: it is {len(data)} bytes")
    for word in words[1:]:
        place, equals, value = word.partition("=")
        if not equals:
            stop(path, number, f"'{word}' is no change of a card: PLACE=VALUE")
        place = whole(path, number, place, 0, len(data) - 1)
        data[place] = whole(path, number, value, 0, 255)
    return Card("-".join(words).replace("=", "-"), bytes(data), number)


# ---- a line of samples

NAMES = {
    "press": {name.replace(" ", "-"): bit for bit, name in enumerate(BUTTONS)},
    "beacon": {f"L{code}": code for code in range(1, BEACONS + 1)},
    "mode": {"CONV": CONV, "BTS": BTS},
    "pickup": {"quiet": QUIET},
}
HIGH = {"press": 15, "beacon": 255, "mode": 255}  # what a recording has room for


def out_of_range(kind, value):
    """What is said of a button, beacon or mode that there is not."""
    if kind == "press":
        return f"button {value}: the buttons are 0 to {len(BUTTONS) - 1}"
    if kind == "beacon":
        return f"beacon {value}: the beacons are 1 to {BEACONS}; 0 is none, {QUIET} a quiet pickup"
    return f"mode {value}: the modes are {CONV} (CONV) and {BTS} (BTS)"


def named(path, number, kind, word):
    """The number that a word says, or that of the name which it is."""
    if word.isdecimal() and kind in HIGH:
        if len(word.lstrip("0")) > 3 or int(word) > HIGH[kind]:
            stop(path, number, out_of_range(kind, word))
        return int(word)
    for name, value in NAMES[kind].items():
        if word.lower() == name.lower():
            return value
    numbers = ", or their numbers" if kind in HIGH else ""
    stop(path, number, f"'{kind}' does not know '{word}': it takes {', '.join(NAMES[kind])}{numbers}")


def extras(path, number, words):
    """What may follow the speeds of a line: the code of the first sample, that of the others, buttons mask, mode."""
    said = {}
    i = 0
    while i < len(words):
        kind = words[i]
        if kind not in NAMES:
            stop(path, number, f"'{kind}' is not known here")
        if kind in said:
            stop(path, number, f"'{kind}' stands twice")
        values = []
        i += 1
        while i < len(words) and words[i] not in NAMES:
            values.append(named(path, number, kind, words[i]))
            i += 1
        if not values or (kind != "press" and len(values) > 1):
            stop(path, number, f"'{kind}' takes {'one or more buttons' if kind == 'press' else 'one word'}")
        said[kind] = values
    if "beacon" in said and "pickup" in said:
        stop(path, number, "'beacon' and 'pickup' stand in one line: a quiet pickup hears no beacon")
    mask = 0
    for bit in said.get("press", []):
        mask |= 1 << bit
    code = said.get("pickup", [0])[0]
    return said.get("beacon", [code])[0], code, mask, said.get("mode", [CONV])[0]


def pulses(path, number, card, speed):
    """The pulses of a speed in km/h: the nearest whole number of them, the lower where two are as near."""
    if card is None or card.tick() == 0:
        stop(path, number, "km/h needs a card with a tick length, said above this line")
    exact = speed * 2500 / (9 * card.tick())
    low = exact.numerator // exact.denominator
    value = low if exact - low <= fractions.Fraction(1, 2) else low + 1
    if not 0 <= value <= 65535:
        stop(path, number, f"that speed is {value} pulses, and a sample holds 0 to 65535")
    return value


def kmh(path, number, word):
    """A speed in km/h, with or without a fraction."""
    try:
        return fractions.Fraction(word)
    except (ValueError, ZeroDivisionError):
        stop(path, number, f"'{word}' is no speed")


def speed_words(words):
    """The words of a line with `km/h` by itself: 36km/h and 36 KM/H are 36 km/h."""
    apart = []
    for word in words:
        if word.lower().endswith("km/h"):
            apart += [word[:-4], "km/h"] if word[:-4] else ["km/h"]
        else:
            apart.append(word)
    return apart


def steady(path, number, words, card):
    """`SAMPLES SPEED`: the pulses of each sample, and the words behind."""
    if not words[0].lstrip("-").isdigit():
        stop(path, number, f"a line cannot begin with '{words[0]}': it is SAMPLES PULSES, ramp, card, type, ride, refused or expect")
    if len(words) < 2:
        stop(path, number, "a line is: SAMPLES PULSES, or SAMPLES SPEED km/h")
    count = whole(path, number, words[0], 1, 65535)
    if words[2:3] == ["km/h"]:
        return [pulses(path, number, card, kmh(path, number, words[1]))] * count, words[3:]
    return [whole(path, number, words[1], 0, 65535)] * count, words[2:]


def ramp(path, number, words, card):
    """`FROM TO STEP [km/h] HOLD`: FROM, FROM + STEP, .. short of TO, HOLD samples each, and the words behind."""
    in_kmh = words[3:4] == ["km/h"]
    held = words[4:] if in_kmh else words[3:]
    if not held or "km/h" in words[:3]:
        stop(path, number, "a ramp is: ramp FROM TO STEP HOLD, or ramp FROM TO STEP km/h HOLD")
    if in_kmh:
        start, end, step = (kmh(path, number, word) for word in words[:3])
    else:
        start = whole(path, number, words[0], 0, 65535)
        end = whole(path, number, words[1], 0, 65535)
        step = whole(path, number, words[2], -65535, 65535)
    hold = whole(path, number, held[0], 1, 10000)
    if step == 0:
        stop(path, number, "a ramp needs a step")
    speeds = []
    while (start - end) * step < 0:
        speeds.append(pulses(path, number, card, start) if in_kmh else start)
        start += step
        if len(speeds) * hold > 65535:
            stop(path, number, "this ramp has more than 65535 samples")
    if not speeds:
        stop(path, number, "this ramp has no speeds")
    return [p for p in speeds for _ in range(hold)], held[1:]


# ---- expected lines

def read_expected(path, number, words):
    """`n limit lamps cause`, then icon and standing as two more numbers or as icon=, standing=: (line, n, numbers, extra)."""
    if len(words) < 4:
        stop(path, number, "a line is: n limit lamps cause")
    row = [whole(path, number, word, 0, 65535) for word in words[:4]]
    extra = {}
    if len(words) == 6 and "=" not in words[4]:
        words = words[:4] + [f"{key}={value}" for key, value in zip(EXTRA, words[4:])]
    for word in words[4:]:
        key, _, value = word.partition("=")
        if key not in EXTRA:
            stop(path, number, f"'{word}' is not known here")
        extra[key] = whole(path, number, value, 0, 2)
    return number, row[0], row[1:], extra


# ---- scripts

def read_head(ride, number, words):
    """A line `card ..`, `type N`, `refused N` or `expect ..`; False where it is none of these."""
    word, rest = words[0], words[1:]
    if word not in ("card", "type", "refused", "expect"):
        return False
    if not rest or (word in ("type", "refused") and len(rest) != 1):
        stop(ride.path, number, f"'{word}' takes one word")
    if word in ("card", "type") and ride.samples:
        stop(ride.path, number, f"'{word}' belongs to the head")
    if word == "card":
        ride.card = read_card(ride.path, number, rest)
    elif word == "type":
        ride.kind, ride.kind_line = whole(ride.path, number, rest[0], 0, 255), number
    elif word == "refused":
        ride.refused, ride.refused_line = whole(ride.path, number, rest[0], 1, 14), number
    else:
        ride.expected.append(read_expected(ride.path, number, rest))
    return True


def read_samples(ride, number, words):
    """A line of samples: beacon and presses hold in the first of them, mode and pickup in all."""
    words = speed_words(words)
    if words[0] == "ramp":
        speeds, rest = ramp(ride.path, number, words[1:], ride.card)
    else:
        speeds, rest = steady(ride.path, number, words, ride.card)
    first, code, mask, mode = extras(ride.path, number, rest)
    for i, p in enumerate(speeds):
        ride.samples.append((p, code if i else first, 0 if i else mask, mode))
        ride.sample_lines.append(number)


def read_script(path, name, expected=None):
    """The rides of a script. A line `ride NAME` begins a ride, and what stands above the first one holds for all; a script
    without such a line is one ride. The file of expected lines, if there is one, belongs to that."""
    if name.split() != [name]:
        raise plain.Refused(f"{shown(path)}: '{name}': a ride's name has no blanks")
    head = Ride(name, path)
    rides = []
    for number, words in lines(path):
        ride = rides[-1] if rides else head
        if words[0] == "ride":
            if len(words) != 2:
                stop(path, number, "'ride' takes one word, the ride's name")
            if "/" in words[1]:
                stop(path, number, f"'{words[1]}': a ride's name has no '/'")
            if head.samples or head.expected or head.refused:
                stop(path, number, "above the first 'ride' only card and type may stand")
            new = f"{name}-{words[1]}"
            if new in [r.name for r in rides]:
                stop(path, number, f"there are two rides {words[1]}")
            rides.append(Ride(new, path, head.card, head.kind, head.kind_line))
        elif not read_head(ride, number, words):
            read_samples(ride, number, words)
    if not rides:
        rides = [head]
        if expected is not None and expected.exists():
            head.expected += [read_expected(expected, number, words) for number, words in lines(expected)]
    for ride in rides:
        if ride.card is None or ride.kind is None:
            stop(path, 1, "the head needs a card and a type")
    return rides


# ---- what the desk refuses

def settings(card):
    """The settings of a card as (place, name, value, what is allowed), by their places."""
    data = card.data
    yield 3, "vmax", card.vmax(), span(80, 200)
    yield 4, "tick length", card.tick(), span(10, 1000)
    yield 6, "BTS speed", data[6], span(1, 200)
    for row, name in enumerate(ROWS):
        at = 7 + 4 * row
        yield at, f"{name}, initial", data[at], span(1, 200)
        yield at + 1, f"{name}, final", data[at + 1], span(1, data[at])
        yield at + 3, f"{name}, drop", data[at + 3], span(1, 255)
    if card.version() > 1:
        yield 39, "functions", data[39], span(0, 15)
        if data[39] & REMINDER:
            yield 40, "reminder X", card.number(40), span(2, 6000)
            yield 42, "reminder Y", card.number(42), span(1, 5000)
    if card.version() == pairs.VERSION:
        for at, kind in enumerate(pairs.KINDS, 44):
            yield at, f"pair {kind} speed", data[at], pairs.SPEEDS
        yield 48, "pair distance", data[48], span(1, pairs.FARTHEST)


def span(low, high):
    return range(low, high + 1)


def allowed_words(allowed):
    """What a setting may be: all from one number to another, or each of some."""
    return f"{allowed[0]}..{allowed[-1]}" if isinstance(allowed, range) else f"one of {', '.join(map(str, allowed))}"


def card_fault(card):
    """What the desk refuses in a card, as (number, sentence), or None."""
    version, length = card.version(), card.number(0)
    if version not in RECORD:
        return 3 if version else 2, f"card {card.name}: byte 2, version, is {version}, must be 1, 2 or 3"
    if length != RECORD[version]:
        return 4, f"card {card.name}: byte 0, length, is {length}, must be {RECORD[version]} in version {version}"
    if len(card.data) < length:
        return 1, f"card {card.name} has {len(card.data)} bytes, must have {length}"
    for place, name, value, allowed in settings(card):
        if value not in allowed:
            return 5, f"card {card.name}: byte {place}, {name}, is {value}, must be {allowed_words(allowed)}"
    return None


def sample_fault(card, before, count, sample):
    """What the desk refuses in a sample after one of mode `before`, as (number, sentence), or None; with it `count` run without pulses."""
    p, beacon, mask, mode = sample
    if beacon > QUIET:
        return 9, out_of_range("beacon", beacon)
    if mask >> len(BUTTONS):
        return 9, out_of_range("press", mask.bit_length() - 1)
    if mode not in (CONV, BTS):
        return 9, out_of_range("mode", mode)
    if p * card.tick() > MOST_TRAVEL:
        return 10, f"{p} pulses are too many: on card {card.name} a sample has at most {MOST_TRAVEL // card.tick()}"
    if mode != before and not standstill.is_reached(count):
        why = f"the mode changes while not at standstill: {standstill.shortfall(count, p)}"
        return 11, f"{why}; a line without mode is CONV" if mode == CONV else why
    return None


def fault(ride):
    """The desk's first refusal of a ride, as (number, line of the script, samples before it, sentence), or None."""
    found = card_fault(ride.card)
    if found is not None:
        return found[0], ride.card.line, 0, found[1]
    if len(ride.samples) > MOST_SAMPLES:
        line = ride.sample_lines[MOST_SAMPLES]
        return 14, line, 0, f"the ride has {len(ride.samples)} samples: a recording holds {MOST_SAMPLES}"
    if not 1 <= ride.kind <= len(TYPES):
        return 7, ride.kind_line, 0, f"train type {ride.kind}: the types are 1 to {len(TYPES)}"
    if TYPES[ride.kind - 1] > ride.card.vmax():
        said = f"train type {ride.kind} runs {TYPES[ride.kind - 1]} km/h"
        return 7, ride.kind_line, 0, f"{said}: card {ride.card.name} is for a vehicle of {ride.card.vmax()}"
    before, counts = CONV, standstill.counts(p for p, *_ in ride.samples)
    for i, (sample, count) in enumerate(zip(ride.samples, counts)):
        found = sample_fault(ride.card, before, count, sample)
        if found is not None:
            return found[0], ride.sample_lines[i], i, found[1]
        before = sample[3]
    return None


def stop_at_fault(ride):
    """Ends the program where the desk would refuse the ride and the script does not say that this is meant, and where the script says
    so and the desk would not."""
    found = fault(ride)
    if found is None:
        if ride.refused is not None:
            stop(ride.path, ride.refused_line, f"the script says refused {ride.refused}, and the desk refuses nothing here")
        return
    number, line, _, why = found
    if ride.refused is None:
        stop(ride.path, line, f"{why}. The desk refuses it; if that is meant, add the line: refused {number}")
    if ride.refused != number:
        stop(ride.path, line, f"{why}. The desk refuses it by {number}; the script says refused {ride.refused}")


# ---- which rides there are

def lessons():
    """Every lesson's ride and variant: name, script, expected lines. A variant's name is its lesson's with the variant behind."""
    found = []
    for path in sorted(HERE.glob("*/ride*.txt")):
        variant = path.stem[len("ride"):]
        found.append((path.parent.name + variant, path, path.parent / ("expected" + variant)))
    return found


def is_number_of(word, folder):
    """Is this word the number of the lesson in a folder? 2 and 02 are that of 02-approach-to-red."""
    number = folder.name.split("-")[0]
    return word.isdecimal() and number.isdecimal() and word.lstrip("0") == number.lstrip("0")


def means(word, name, folder):
    """Does a word mean the ride of this name, in this folder?"""
    return word in ("all", name, folder.name) or is_number_of(word, folder)


def is_known(word):
    """Is this `all`, a lesson, its number, one of its rides, or a script?"""
    return word.endswith(".txt") or any(means(word, name, path.parent) for name, path, _ in lessons())


def rides(names):
    """The rides that are named: `all` the lessons, a lesson by its folder or number, one of its rides, or a script by its path. Ends the
    program at the first fault of one of them."""
    found = read_rides(names)
    for ride in found:
        stop_at_fault(ride)
    return found


def read_rides(names):
    found = []
    for wanted in names:
        if wanted.endswith(".txt"):
            path = pathlib.Path(wanted)
            found += read_script(path, path.stem)
            continue
        chosen = [lesson for lesson in lessons() if means(wanted, lesson[0], lesson[1].parent)]
        if not chosen:
            raise plain.Ends(f"there is no lesson {wanted}; {WHAT_NAMES}")
        for name, path, expected in chosen:
            found += read_script(path, name, expected)
    return found


# ---- in words

def said(sample):
    """A sample in words."""
    p, beacon, mask, mode = sample
    words = [f"{p} pulses"]
    if beacon:
        words.append("pickup quiet" if beacon == QUIET else f"beacon {beacon}")
    for bit in range(16):
        if mask >> bit & 1:
            name = BUTTONS[bit] if bit < len(BUTTONS) else "no button"
            words.append(f"press {bit} ({name})")
    if mode != CONV:
        words.append("BTS" if mode == BTS else f"mode {mode}")
    return ", ".join(words)
