"""picture.py [--distance] [--title TITLE] CARD < RECORDING: draws a ride as one SVG that needs nothing beside it."""

import itertools
import sys

import desk
import plain
import titles
from drawing import GROUND, LEFT, LINE, LINES, NET, RIGHT, WIDTH, Drawing, Scale, marks, path, placed, runs, step_for, thinned, width_of

USAGE = """usage: ./picture [--distance] [--title TITLE] CARD < RECORDING > ride.svg

Draws a ride as an SVG for a browser or a printer: the train's speed and its limit over time, the band of 5 km/h above the limit, the
brake with its cause, lamps as bars, marks for presses, beacons and a pickup that goes quiet, the crossing icon and whether a limit
stands. On a card of version 3 the second beacon of a pair is named by the pair and its speed. --distance draws over the distance
travelled. The title is the lesson's where the recording's file has a lesson's name. A refusal ends the drawing."""

CHART = 330  # the height of the speeds
LANE, BAR = 19, 11  # the height of a row below them, and of its bars
PRESS = 8  # from the foot of a row to where the mark of a press points: a short lamp is seen above it
BAND = 5  # km/h above the limit; beyond it the brake comes on
JUMP = 3  # km/h; a change beyond it is drawn upright
NARROW = 1.5  # the least width of a bar
MANY = 60  # beacons, beyond which they have a short line each
QUIET_MARK = "Q"  # where beacons have their numbers alone, a pickup that goes quiet
SECONDS = [0.1, 0.2, 0.5, 1, 2, 5, 10, 15, 30, 60, 120]  # from a mark of the axis to the next
METRES = [0.1, 0.2, 0.5, 1, 2, 5, 10, 20, 50, 100, 200, 500, 1000, 2000, 5000]


def counted(shown, every):
    """How many marks have their words, where not all of them do."""
    return "" if shown == every else f", {shown} of {every} with words; ./tell has all"


class Picture:
    """A ride with answers. What draws a part of it gives where the next part begins, and says what it needs of a legend."""

    def __init__(self, ride, title, over_distance):
        self.ride, self.title, self.over_distance = ride, title, over_distance
        self.samples = ride.samples[:len(ride.answers)]
        travel = itertools.accumulate(ride.card.travel(sample.pulses) for sample in self.samples)
        self.travelled = [0, *(tenths / 10_000 for tenths in travel)]  # in metres
        if over_distance and not self.travelled[-1]:
            raise plain.Ends("the train does not move, so there is no distance to draw it over")
        # Where each sample begins, in seconds or metres, and where the last ends; behind a refusal some room is left.
        self.edges = self.travelled if over_distance else [k / 10 for k in range(len(self.samples) + 1)]
        self.x = Scale(self.edges[-1] * (1.03 if ride.refusal else 1), LEFT, WIDTH - RIGHT)
        self.drawing = Drawing()
        self.legend = []

    def at(self, i):
        return self.x(self.edges[i])

    def span(self, first, end):
        """Where samples first to end lie, never too narrow to be seen."""
        return self.at(first), max(self.at(end), self.at(first) + NARROW)

    def svg(self):
        chart = self.beacons(self.heading())
        bottom = chart + CHART
        self.speeds(chart, bottom)
        self.stands(bottom)
        lanes = self.axis(bottom)
        low = self.signs(self.buttons(self.brake(lanes)))
        self.net(chart, bottom, lanes, low)
        self.refusal(chart, bottom, lanes, low)
        return self.drawing.svg(self.title, self.about(), self.legends(low))

    # ---- what it is about

    def about(self):
        ride, count = self.ride, len(self.samples)
        return (f"Train type {ride.kind}, T {desk.TYPES[ride.kind]} km/h. Card version {ride.card.version}, vmax {ride.card.vmax} km/h. "
                f"{count} samples, {desk.duration(count)}, {self.travelled[-1]:.0f} m.")

    def heading(self):
        self.drawing.title(LEFT, 30, self.title)
        self.drawing.text(LEFT, 50, self.about(), "")
        if not self.ride.refusal:
            return 68
        self.drawing.text(LEFT, 68, f"Refused {self.ride.refusal}: {self.ride.why()}.", "strong")
        return 84

    # ---- beacons, and where the pickup goes quiet, above the speeds

    def beacon_marks(self):
        """Where the train comes to a beacon, and what that is called: with its name or the pair that it makes, and by number alone. So too
        where the pickup goes quiet; how long is seen by the lamp of the alarm."""
        for i in range(len(self.samples)):
            beacon = self.ride.passes(i)
            if beacon:
                words = f"{beacon} {self.ride.beacon_words(i)}", str(beacon)
                yield self.at(i), *(words if self.ride.reads(i) else (f"({said})" for said in words))
            elif self.ride.is_quiet(i) and not self.ride.is_quiet(i - 1):
                yield self.at(i), "pickup quiet", QUIET_MARK

    def beacons(self, top):
        """The beacons, with their names where there is room for all of them."""
        found = list(self.beacon_marks())
        if not found:
            return top + 6
        labels = placed([(x, name) for x, name, _ in found], 4)
        is_named = all(label.row is not None for label in labels)
        if not is_named:
            labels = placed([(x, number) for x, _, number in found], 3)
        shown = [label for label in labels if label.row is not None]
        chart = top + LINE * (max((label.row for label in shown), default=0) + 1) + 8
        kind, end = ("tick", chart + 6) if len(found) > MANY else ("beacon", chart + CHART)
        codes = {sample.beacon for sample in self.samples}
        numbers, is_quiet = sorted(codes - {0, desk.QUIET}), desk.QUIET in codes
        self.drawing.text(LEFT - 10, chart - 8, "beacons" if numbers else "pickup", "right")
        for label in labels:
            self.drawing.line(label.mark, chart - 4 - LINE * (label.row or 0), label.mark, end, kind, LINES)
        for label in shown:
            self.drawing.text(label.start + 1, chart - 7 - LINE * label.row, label.words, "small halo")
        kinds = ["beacon"] * bool(numbers) + ["pickup quiet"] * is_quiet
        self.legend.append(("beacon", ", or ".join(kinds) + counted(len(shown), len(found))))
        if not is_named:
            self.legend += [(None, f"{k} {desk.BEACONS[k]}") for k in numbers] + [(None, f"{QUIET_MARK} pickup quiet")] * is_quiet
        if any(label.words.startswith("(") for label in labels):
            self.legend.append((None, "in brackets: passed in BTS, not read"))
        return chart

    # ---- speeds

    def line_of(self, values, y):
        """A line through a value for each sample; a jump is upright."""
        points = [(self.at(0), y(values[0]))]
        for i, (last, value) in enumerate(zip(values, values[1:]), 1):
            if abs(value - last) > JUMP:
                points.append((self.at(i), y(last)))
            points.append((self.at(i), y(value)))
        points.append((self.at(len(values)), y(values[-1])))
        return thinned(points)

    def speeds(self, top, bottom):
        draw = self.drawing
        limits = [answer.limit / 100 for answer in self.ride.answers]
        trains = [self.ride.card.speed(sample.pulses) for sample in self.samples]
        highest = max(max(limits) + BAND, max(trains))
        step = step_for(highest, 11, [10, 20, 50, 100])
        y = Scale((highest // step + 1) * step, bottom, top)
        for value in marks(y.top, step):
            draw.line(LEFT, y(value), WIDTH - RIGHT, y(value), "grid", NET)
            draw.text(LEFT - 8, y(value) + 4, f"{value:g}", "right")
        for row, words in enumerate(("speed", "km/h")):
            draw.text(LEFT - 40, (top + bottom) / 2 - 8 + 16 * row, words, "right")
        self.draw_limit(limits, y)
        train = self.line_of(trains, y)
        draw.add(f'<path d="{path(train)}" class="speed{"" if len(train) < 1000 else " thin"}"/>', LINES)
        draw.box(LEFT, top, WIDTH - RIGHT, bottom, "frame")
        self.legend.insert(0, ("speed", "train's speed"))

    def draw_limit(self, limits, y):
        """The limit, the band above it, and its value where it stays long enough to be read."""
        draw = self.drawing
        limit = self.line_of(limits, y)
        up = y(0) - y(BAND)
        over = [(x, place - up) for x, place in limit]
        draw.add(f'<path d="{path(limit + over[::-1])}z" class="band"/>', GROUND)
        draw.add(f'<path d="{path(over)}" class="over"/>', LINES)
        draw.add(f'<path d="{path(limit)}" class="limit"/>', LINES)
        for value, first, end in runs(limits):
            words = f"{value:g}"
            if self.at(end) - self.at(first) > width_of(words) + 8:
                draw.text(self.at(first) + 5, y(value) - up - 4, words, "small halo")
        self.legend[:0] = [("limit", "limit (S)"), ("band", f"up to {BAND} km/h over the limit, beyond it the brake")]

    def stands(self, bottom):
        """Over distance a standstill has no width: a mark says where, and a label how long."""
        still = [run for run in runs(self.ride.standstill[:len(self.samples)]) if run[0]]
        if not self.over_distance or not still:
            return
        labels = placed([(self.at(first), f"stands {desk.duration(end - first)}") for _, first, end in still], 1)
        shown = [label for label in labels if label.row is not None]
        for label in labels:
            self.drawing.diamond(label.mark, bottom)
        for label in shown:
            self.drawing.text(label.start + (8 if label.start == label.mark else -8), bottom - 6, label.words, "small halo")
        self.legend.append(("stands", "standstill" + counted(len(shown), len(labels))))

    def axis(self, bottom):
        top = self.edges[-1]
        self.step = step_for(top, (WIDTH - LEFT - RIGHT) / 64, METRES if self.over_distance else SECONDS)
        for value in marks(top, self.step):
            words = f"{value:g}" if self.over_distance else desk.clock(round(10 * value))[:None if self.step < 1 else -2]
            self.drawing.text(self.x(value), bottom + 16, words, "small middle")
        self.drawing.text(LEFT - 26, bottom + 16, "metres" if self.over_distance else "min:s", "right")
        return bottom + 26

    # ---- rows below the speeds

    def lane(self, top, name):
        self.drawing.line(LEFT, top, WIDTH - RIGHT, top, "grid", NET)
        self.drawing.text(LEFT - 10, top + LANE - 5, name, "right")

    def bars(self, top, values, kinds):
        """A bar for each run of a value that has a kind."""
        for value, first, end in runs(values):
            if value in kinds:
                start, stop = self.span(first, end)
                self.drawing.box(start, top + LANE - BAR - 3, stop, top + LANE - 3, kinds[value])

    def brake(self, top):
        """The brake, and under each bar its cause and how long it was on, where there is room."""
        draw = self.drawing
        causes = [answer.cause for answer in self.ride.answers]
        found = [run for run in runs(causes) if run[0]]
        self.lane(top, "brake")
        if not found:
            draw.text(LEFT + 5, top + LANE - 5, "never on")
            return top + LANE
        self.bars(top, causes, dict.fromkeys(range(1, len(desk.CAUSES)), "brake"))
        labels = placed([(self.at(first) + NARROW / 2, f"cause {cause}, {desk.duration(end - first)}") for cause, first, end in found], 3)
        shown = [label for label in labels if label.row is not None]
        for label in shown:
            foot = top + LANE + 9 + LINE * label.row
            draw.line(label.mark, top + LANE - 3, label.mark, foot, "lead")
            draw.text(label.start + 3, foot, label.words)
        self.legend += [("brake", "brake on" + counted(len(shown), len(found))), ("braked", "brake on, behind the speeds")]
        self.legend += [(None, f"cause {cause}: {desk.CAUSES[cause]}") for cause in sorted(set(causes) - {0})]
        return top + LANE + LINE * (max((label.row for label in shown), default=0) + 1) + 2

    def buttons(self, top):
        """A row for each button that is lit or pressed: bars are its lamp, marks its presses. The alarm is a lamp alone."""
        lit = pressed = False
        for bit, name in enumerate(desk.LAMPS):
            lamps = [answer.lamps >> bit & 1 for answer in self.ride.answers]
            presses = [self.at(i) for i, sample in enumerate(self.samples) if sample.buttons >> bit & 1]
            if any(lamps) or presses:
                self.lane(top, name)
                self.bars(top, lamps, {1: "lit"})
                for x in sorted({round(x / 2) * 2: x for x in presses}.values()):  # of presses in one place one is seen
                    self.drawing.triangle(x, top + LANE - PRESS)
                top += LANE
            lit, pressed = lit or any(lamps), pressed or bool(presses)
        self.legend += [("lit", "lamp lit")] * lit + [("press", "button pressed")] * pressed
        return top

    def signs(self, top):
        """Crossing icon, limit control and BTS, where there are any."""
        rows = [
            ("crossing icon", [answer.icon for answer in self.ride.answers], {1: "protected", 2: "unprotected"}),
            ("limit control", [answer.standing for answer in self.ride.answers], {1: "standing"}),
            ("BTS", [sample.mode for sample in self.samples], {2: "bts"}),
        ]
        words = {"protected": "crossing protected", "unprotected": "crossing unprotected", "standing": "limit control stands",
                 "bts": "mode BTS"}
        for name, values, kinds in rows:
            seen = [kind for value, kind in kinds.items() if value in values]
            if seen:
                self.lane(top, name)
                self.bars(top, values, kinds)
                self.legend += [(kind, words[kind]) for kind in seen]
                top += LANE
        return top

    # ---- over all of it

    def net(self, top, bottom, lanes, low):
        """The marks of the axis through speeds and rows, and the brake behind the speeds."""
        for x in map(self.x, marks(self.edges[-1], self.step)):
            self.drawing.line(x, top, x, bottom, "grid", NET)
            self.drawing.line(x, lanes, x, low, "grid", NET)
        self.drawing.line(LEFT, low, WIDTH - RIGHT, low, "grid", NET)
        for cause, first, end in runs(answer.cause for answer in self.ride.answers):
            if cause:
                start, stop = self.span(first, end)
                self.drawing.box(start, top, stop, bottom, "braked", GROUND)

    def refusal(self, top, bottom, lanes, low):
        if self.ride.refusal:
            x = self.at(len(self.samples))
            self.drawing.line(x, top, x, bottom, "refused")
            self.drawing.line(x, lanes, x, low, "refused")
            self.drawing.text(x - 6, top + 16, f"refused {self.ride.refusal}", "strong right halo")

    def swatch(self, kind, x, y):
        draw = self.drawing
        if kind in ("speed", "limit", "beacon"):
            draw.line(x, y - 4, x + 26, y - 4, kind)
        elif kind == "press":
            draw.triangle(x + 13, y - 8)
        elif kind == "stands":
            draw.diamond(x + 13, y - 4)
        elif kind:
            draw.box(x, y - 10, x + 26, y + 1, kind)

    def legends(self, top):
        x, y = LEFT, top + 24
        for kind, words in self.legend:
            swatch = 32 if kind else 0
            wide = swatch + width_of(words) + 18
            if x > LEFT and x + wide > WIDTH - RIGHT + 18:
                x, y = LEFT, y + 18
            self.swatch(kind, x, y)
            self.drawing.text(x + swatch, y, words)
            x += wide
        return y + 16


def drawn(ride, title, over_distance):
    """The drawing of a ride; one without answers has no more than its title and its refusal."""
    if ride.answers:
        return Picture(ride, title, over_distance).svg()
    drawing = Drawing()
    words = "A ride without samples." if ride.refusal is None else f"Refused {ride.refusal}: {ride.why()}."
    drawing.title(40, 40, title)
    drawing.text(40, 70, words, "strong")
    return drawing.svg(title, words, 100)


def main(arguments):
    card, title, flags = titles.options(arguments, ["--distance"])
    ride = desk.given_ride(card, USAGE)
    plain.say(drawn(ride, title or "A ride", bool(flags)))
    if ride.refusal is not None:
        desk.say_refusal(ride.refusal, len(ride.answers), *ride.given)
    return 0 if ride.refusal is None else 1


if __name__ == "__main__":
    plain.run("picture", USAGE, main, sys.argv[1:])
