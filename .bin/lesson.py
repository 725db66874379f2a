"""lesson.py [NAME]: prints a lesson's ride and what to look at in it; alone, the lessons there are."""

import re
import sys
import textwrap

import ask
import desk
import lessons
import make
import plain
import script

USAGE = """usage: ./lesson [NAME]

Makes the bytes of a lesson, target/lessons/NAME.rec and its card, prints its ride as ./ride does, and under it what to look at. NAME
is a lesson, as 02-approach-to-red or 2, or a variant of one, as 08-stop-zone-unanswered. Without NAME it lists them."""

WIDTH = 120


def listing():
    every = lessons.rides()
    wide = max(map(len, every))
    yield "./lesson NAME, or the lesson's number, prints one."
    for name, folder in every.items():
        page, suffix = lessons.Page(folder), lessons.variant(name)
        if suffix:
            head, words = f"    {name:{wide}}    ", page.variant_sentence(suffix) or "a variant"
        else:
            number = name.split("-")[0]
            head = f"{number if number.isdecimal() else '':>2}  {name:{wide}}  "
            words = page.fault or page.title.partition(". ")[2] or page.title
        yield textwrap.fill(words, WIDTH, initial_indent=head, subsequent_indent=" " * len(head))


def look_at(name):
    """What to look at in a ride: its table, what is said of a variant, or the lesson's words."""
    page = lessons.Page(lessons.rides()[name])
    suffix = lessons.variant(name)
    yield f"Lesson {lessons.title(name)}" if name[0].isdigit() else lessons.title(name)
    if page.fault:
        yield page.fault
        return
    rows = [] if suffix else list(page.look_at())
    wide = max((len(n) for n, _ in rows), default=0)
    if rows:
        yield f"{'n':>{wide}}  look at"
    for n, words in rows:
        yield textwrap.fill(words, WIDTH, initial_indent=f"{n:>{wide}}  ", subsequent_indent=" " * (wide + 2))
    if suffix:
        yield textwrap.fill(page.variant(suffix) or f"its README.md says nothing of ride{suffix}.txt", WIDTH)
    for words in [] if suffix or rows else page.prose():
        yield textwrap.fill(words, WIDTH)


def quotas(name):
    """Those that stop a lesson at each sample of its table."""
    rows = [] if lessons.variant(name) else lessons.Page(lessons.rides()[name]).look_at()
    stops = sorted({int(number) for n, _ in rows for number in re.findall(r"\b[0-9]{1,5}\b", n)})
    return " ".join(str(there - before) for before, there in zip([0, *stops], stops))


def other_ways(name, card, recording):
    """The commands that show the ride in another way."""
    yield f"As a page:    ./tell {card} < {recording}"
    yield f"As a drawing: ./picture {card} < {recording} > target/ride.svg"
    yield f"With reasons: ./why {card} words < {recording}"
    if quotas(name):
        yield f"With stops:   ./replay {card} {quotas(name)} < {recording}"


def files(name):
    """Makes the files of a ride: its card and its recording. The lesson's other rides may be at fault."""
    path = lessons.rides()[name] / f"ride{lessons.variant(name)}.txt"
    ride, *others = script.read_script(path, name)
    if others or ride.name != name:
        raise plain.Refused(f"{script.shown(path)}: ./lesson prints a script of one ride, without a line 'ride NAME'; "
                            "give each ride a file, ride-VARIANT.txt")
    script.stop_at_fault(ride)
    make.write([ride], lessons.FOLDER)
    return lessons.FOLDER / f"{ride.card.name}.card", lessons.FOLDER / f"{name}.rec"


def main(arguments):
    if not arguments:
        plain.say("".join(line + "\n" for line in listing()))
        return 0
    if len(arguments) > 1:
        raise plain.Usage
    name = lessons.named(arguments[0])
    card, recording = files(name)
    with open(recording, "rb") as given:
        status = ask.ride("ride", card, given)
    below = [*look_at(name), "", *other_ways(name, *(path.relative_to(desk.ROOT) for path in (card, recording)))]
    plain.say("\n" + "".join(line + "\n" for line in below))
    return status


plain.run("lesson", USAGE, main, sys.argv[1:])
