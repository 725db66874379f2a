"""tell.py [--title TITLE] CARD < RECORDING: tells a ride as a page, a line for each sample at which something changes."""

import sys
import textwrap

import desk
import plain
import titles

USAGE = """usage: ./tell [--title TITLE] CARD < RECORDING

Tells a ride as a page: a line for each sample at which something changes, with its number and time, the metres travelled with it,
the train's speed and its limit in km/h, and in words what is pressed and read, lamps, brake, crossing icon and limit. The train stands
from the tenth sample running without pulses on, and moves from the next pulse on. The pickup is quiet while it hears nothing, not even
the permanent tone, and back when it hears something. On a card of version 3 a limit beacon that is the second of a pair is told with the
pair and its speed. The title is the lesson's where the recording's file has a lesson's name. A refusal ends the page."""

HEADING = f"{'n':>5} {'time':>7} {'metres':>8} {'speed':>7} {'limit':>7}   what happens"
WIDTH = 120

# A limit that falls along a curve falls by no more than the highest drop of a card, in hundredths of km/h.
DROP = 255


def kmh(hundredths):
    return f"{hundredths / 100:.2f}"


def metres(travel):
    """Of tenths of a millimetre; what is not a whole decimetre is left out, so that 79.99 m are not 80."""
    return f"{travel // 1000 / 10:.1f}"


def listed(names):
    return ", ".join(names) or "none"


def curve(answers, i):
    """Does the limit of sample i (from 0) fall along a curve?"""
    return 0 < i < len(answers) and 0 < answers[i - 1].limit - answers[i].limit <= DROP


def stays(answers, i):
    """Has sample i + 1 the limit of sample i?"""
    return i + 1 < len(answers) and answers[i + 1].limit == answers[i].limit


def limit_words(answers, i):
    """How the limit changes at sample i: the first sample of a curve, its last where the limit then stays, or a change at once."""
    if curve(answers, i) and curve(answers, i - 1):
        if stays(answers, i):
            yield f"the limit has fallen to {kmh(answers[i].limit)}"
    elif curve(answers, i) and curve(answers, i + 1):
        yield "the limit begins to fall"
    elif i and answers[i].limit != answers[i - 1].limit:
        yield f"the limit is {kmh(answers[i].limit)}"


def driven(ride, i, sample, last):
    """What the recording has new at a sample: mode, motion, presses, pickup, beacon."""
    if sample.mode != last.mode:
        yield f"mode {desk.MODES[sample.mode]}"
    if ride.standstill[i] != (ride.standstill[i - 1] if i else True):
        yield "stands" if ride.standstill[i] else "moves"
    if sample.buttons:
        yield f"press: {listed(desk.names(sample.buttons))}"
    if ride.is_quiet(i) != ride.is_quiet(i - 1):
        yield "pickup quiet" if ride.is_quiet(i) else "pickup back"
    beacon = ride.passes(i)
    if beacon:
        said = f"beacon {beacon}, {ride.beacon_words(i)}"
        yield said if ride.reads(i) else f"{said}, not read in {desk.MODES[sample.mode]}"


def answered(answer, last):
    """What the answer has new at a sample, the limit aside."""
    if answer.lamps != last.lamps:
        yield f"lamps: {listed(desk.names(answer.lamps))}"
    if answer.cause != last.cause:
        yield f"brake on, cause {answer.cause}: {desk.CAUSES[answer.cause]}" if answer.cause else "brake off"
    if answer.icon != last.icon:
        yield f"crossing icon: {desk.ICONS[answer.icon]}"
    if answer.standing != last.standing:
        yield "limit control stands" if answer.standing else "limit control gone"


def happenings(ride):
    """For each accepted sample its number, the travel with it, and what happens there. The ride begins standing, in CONV, with
    nothing lit."""
    before, said = desk.Sample(0, 0, 0, 1), desk.Answer(0, 0, 0, 0, 0)
    travel = 0
    for i, (sample, answer) in enumerate(ride.steps()):
        words = [*driven(ride, i, sample, before), *limit_words(ride.answers, i), *answered(answer, said)]
        if i == 0:
            words.insert(0, "the ride begins")
        if i == len(ride.answers) - 1 and ride.refusal is None:
            words.append("the ride ends")
        travel += ride.card.travel(sample.pulses)
        yield i + 1, travel, sample, answer, words
        before, said = sample, answer


def rows(ride):
    """The lines of the page, a long one broken."""
    for n, travel, sample, answer, words in happenings(ride):
        if words:
            speed = ride.card.speed(sample.pulses)
            head = f"{n:5} {desk.clock(n - 1):>7} {metres(travel):>8} {speed:7.2f} {kmh(answer.limit):>7}   "
            yield textwrap.fill("; ".join(words), WIDTH, initial_indent=head, subsequent_indent=" " * len(head))


def about(ride):
    """What the page is about, in two lines."""
    card, count = ride.card, len(ride.answers)
    train = f"Train type {ride.kind}, T {desk.TYPES[ride.kind]} km/h."
    paired = f", pairs within {card.pair_distance} m" if card.pair_speeds else ""
    yield f"Card: version {card.version}, vmax {card.vmax} km/h, {card.tick / 10:.1f} mm a pulse{paired}. {train}"
    travel = sum(card.travel(sample.pulses) for sample, _ in ride.steps())
    samples = "1 sample" if count == 1 else f"{count} samples"
    yield f"{samples}, {desk.duration(count)}, {metres(travel)} m. Speeds in km/h; the limit is the supervised speed."


def refused(ride):
    """The refusal, with the sample that is at fault."""
    line = f"refused {ride.refusal}: {ride.why()}"
    if ride.refusal in desk.OF_CARD:
        line += f" ({desk.CARD_HINT})"
    if ride.refusal in desk.OF_SAMPLE:
        bad = ride.samples[len(ride.answers)]
        line += f" (pulses {bad.pulses}, beacon {bad.beacon}, buttons {bad.buttons:#x}, mode {bad.mode})"
    return line


def page(ride, title=None):
    """The lines of the page, under its title if it has one."""
    if title:
        yield plain.printable(title)
    if ride.answers or ride.refusal is None:
        yield from about(ride)
        yield ""
        yield HEADING
        yield from rows(ride)
    if ride.refusal is not None:
        yield refused(ride)


def main(arguments):
    card, title, _ = titles.options(arguments)
    ride = desk.given_ride(card, USAGE)
    for line in page(ride, title):
        plain.say(line + "\n")
    desk.say_if_text(ride.refusal, *ride.given)
    return 0 if ride.refusal is None else 1


if __name__ == "__main__":
    plain.run("tell", USAGE, main, sys.argv[1:])
