"""ask.py PROGRAM [ARGUMENT..]: runs ride, why, trace, receive, replay or show_card for a person, with a status; a refused ride is said in
words too."""

import sys

import desk
import plain
import programs

USAGES = {
    "ride": """usage: ./ride CARD [reason] < RECORDING

Prints the ride: under a heading a line a sample, with its number, the supervised speed in hundredths of km/h, the lamps and the
cause of the brake; with the word `reason` also which limit sets the speed, 1 to 7 as ./why has them. Where the ride is refused the last
line is `refused` and the number, and standard error has it in words.""",
    "why": """usage: ./why CARD [words] < RECORDING

Says why the supervised speed is what it is: under a heading a line a sample, with its number, the supervised speed in hundredths of km/h,
which limit sets it, that limit's age, the cause of the brake (0: off), and how many samples ago the brake came on. A sample is 0.1 s. The
limits are 1 vmax of the card, 2 T of the train type, 3 BTS speed, 4 the main control, 5 the stop that stays alongside, 6 the crossing,
7 the limit, single or paired; of equal ones the first is named, the single limit before a paired one, and 1 to 3 have age 0. With the word
`words` the same is said in words, with no heading, in km/h and seconds: of the first sample, and of those where another limit is named or
the cause is another. Where the ride is refused the last line is `refused` and the number, and standard error has it in words.""",
    "trace": """usage: ./trace CARD < RECORDING

Prints the ride as ./ride does, with two more columns: the crossing icon (0 none, 1 protected, 2 unprotected) and whether a limit
stands, single or paired (0, 1).""",
    "receive": """usage: ./receive CARD [SIZE] < LINE

Prints the ride as ./ride does while its bytes come: each line when its sample is complete, a refusal at the byte that makes it certain.
The end of LINE is the recording's end, as when the writer of a pipe closes it. A read takes what has come, SIZE bytes at most: 1 to 4096,
in one to four digits, 64 when not said.""",
    "replay": """usage: ./replay CARD QUOTA.. < RECORDING

Runs the ride with stops: as many samples as the first QUOTA says, then as many as the next from there on, and so on. 10 samples are a
second, 600 a minute. Each stop is a line: the place where its quota began, which is how many samples come before it; how many ran; and
the answer to the last of them in the last five columns of ./trace, or `none` where none ran. The last sample of a line is number
place + ran of ./ride. A QUOTA is a number in digits alone. It may be 0, and where it is more than what is left the ride runs to its end.
Where a sample is refused the last line is `refused`, the number, `at` and its place, and standard error has it in words.""",
    "show_card": """usage: ./show_card FILE

Lists the settings of the card in FILE, or says why it is refused. Where FILE is - the card comes on standard input. bench/unhex makes
bytes of a hex dump.""",
}

# How many arguments each may have. What they say is the program's to judge.
COUNTS = {"ride": (1, 2), "why": (1, 2), "trace": (1,), "receive": (1, 2), "replay": range(2, sys.maxsize), "show_card": (1,)}


def ride(name, card, given=None, more=()):
    """Prints the ride of a recording, standard input where no other is given; a refusal is said in words too. Gives the status."""
    recording = given.fileno() if given else 0
    start = plain.place(recording)
    heard = programs.pass_on(name, [card, *more], given)
    if heard.refusal:
        desk.say_refusal(*heard.ride_refusal(), plain.read_again(card), plain.read_from(recording, start))
    return heard.status()


def show_card(card):
    """Lists a card. Gives the status."""
    if card != "-":
        return programs.pass_on("show_card", [card]).status()
    with programs.lent(plain.standard_input("card", USAGES["show_card"], plain.MOST + 1)) as area:
        return programs.pass_on("show_card", [area.name]).status()


def receive(card, *size):
    """Prints the ride of a recording as it comes. Gives the status. A serial device is a terminal too, so one is not refused."""
    plain.check_input("recording")
    return ride("receive", card, more=size)


def recorded(name, card, *more):
    """Prints the ride of a recording that is there, with a word in another form, or with quotas where it stops. Gives the status."""
    plain.check_input("recording", USAGES[name])
    return ride(name, card, more=more)


def in_words(card):
    """Prints in words why each speed is what it is. Gives the status. Samples where nothing new is named have no line, and there is no
    heading, so the lines do not tell which sample was refused: then the ride is run on the same bytes, where each sample has a line."""
    given = desk.given_bytes(card, USAGES["why"])
    with programs.lent(given[0]) as area, programs.lent(given[1]) as recording:
        recording.seek(0)
        heard = programs.pass_on("why", [area.name, "words"], recording)
    if heard.refusal:
        whole = desk.Ride(*given)
        desk.say_refusal(whole.refusal, len(whole.answers), *given)
    return heard.status()


def main(name, arguments):
    if len(arguments) not in COUNTS[name]:
        raise plain.Usage
    if name == "receive":
        return receive(*arguments)
    if name == "why" and arguments[1:] == ["words"]:
        return in_words(arguments[0])
    return show_card(*arguments) if name == "show_card" else recorded(name, *arguments)


if __name__ == "__main__":
    program = sys.argv[1]
    plain.run(program, USAGES[program], lambda arguments: main(program, arguments), sys.argv[2:])
