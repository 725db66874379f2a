"""Runs the proved programs. They have no status; what they write decides it."""

import functools
import os
import pathlib
import selectors
import subprocess
import tempfile

import plain

BIN = pathlib.Path(__file__).resolve().parent
CHUNK = 65536


@functools.lru_cache
def command(name):
    """The words that run a program, built where it is not."""
    built = subprocess.run([BIN / "built", name], stdin=subprocess.DEVNULL, stdout=subprocess.PIPE, check=False)
    if built.returncode != 0:
        raise plain.Ends
    return built.stdout.splitlines()


class Heard:
    """What a program wrote, as far as the status goes: how many lines, the first refusal, or that it could do nothing."""

    def __init__(self, name):
        self.name = name
        self.lines = 0
        self.refusal = None
        self.failed = False

    def line(self, line):
        """A line of standard output."""
        if line.startswith((b"refused ", b"not a tone: ")):
            self.refusal = self.refusal or line.decode("ascii", "replace")
        self.lines += 1

    def complaint(self, line):
        """A line of standard error. The system knows more of a file that cannot be read."""
        if line.startswith(b"usage: "):
            raise plain.Usage
        self.failed = True
        if line.startswith(b"cannot read ") and line != b"cannot read standard input":
            line += why_unreadable(line[len(b"cannot read "):])
        plain.complain(plain.encoded(f"{self.name}: ") + line)

    def ride_refusal(self):
        """The number by which a ride was refused, and how many of its samples come before the one at fault: so many as the line says, as
        in `refused 9 at 1`, or one for each line between the heading and it."""
        _, number, *at = self.refusal.split()
        return int(number), int(at[1]) if at else self.lines - 2

    def status(self):
        if self.failed:
            return 2
        return 1 if self.refusal else 0


def why_unreadable(name):
    try:
        fd = os.open(name, os.O_RDONLY | os.O_NONBLOCK)
        try:
            os.read(fd, 1)
        finally:
            os.close(fd)
    except (OSError, ValueError) as error:
        return f": {plain.reason(error)}".encode() if isinstance(error, OSError) else b""
    return b""


def lent(data):
    """A file with these bytes, for a program that reads one; it is gone behind its block."""
    try:
        file = tempfile.NamedTemporaryFile()
        file.write(data)
        file.flush()
    except OSError as error:
        raise plain.Ends(f"cannot write a temporary file: {plain.reason(error)}") from None
    return file


def opened(argument):
    """A file whose name is no UTF-8, by a name that is one: a path is text to the program. It is open until this program ends."""
    try:
        os.fsencode(argument).decode("utf-8")
        return argument
    except UnicodeDecodeError:
        pass
    try:
        fd = os.open(argument, os.O_RDONLY)
        os.read(fd, 0)  # a folder can be opened, and not read
    except OSError:
        return argument
    os.set_inheritable(fd, True)
    return f"/dev/fd/{fd}"


def pass_on(name, arguments, stdin=None, put=bytes):
    """Runs a program and passes each of its lines on as soon as it is whole, as `put` has it. Answers what was heard. Where the output
    is lost the program has nothing left to do."""
    heard = Heard(name)
    arguments = [*map(opened, arguments[:1]), *arguments[1:]]
    with subprocess.Popen(command(name) + arguments, stdin=stdin, stdout=subprocess.PIPE, stderr=subprocess.PIPE,
                          close_fds=False) as program:  # an argument may be /dev/fd/63
        try:
            pass_lines(program, heard, put)
        except (plain.Ends, plain.Enough, plain.Usage):
            program.kill()
            raise
    if program.returncode != 0:
        raise plain.Ends(f"the program ended with status {program.returncode}")
    return heard


def pass_lines(program, heard, put):
    """Passes on what a program writes, until both its outputs have ended."""
    with selectors.DefaultSelector() as sources:
        for output in (program.stdout, program.stderr):
            sources.register(output, selectors.EVENT_READ, bytearray())
        while sources.get_map():
            for source, _ in sources.select():
                lines = take(source)
                if lines is None:
                    sources.unregister(source.fileobj)
                    lines = lines_of(source.data)
                if source.fileobj is program.stdout:
                    for line in lines:
                        heard.line(line)
                    plain.say(b"".join(put(line) + b"\n" for line in lines))
                else:
                    for line in lines:
                        heard.complaint(line)


def take(source):
    """The lines that are whole now; what follows the last of them waits in the source's data. None where the source has ended."""
    chunk = os.read(source.fd, CHUNK)
    if not chunk:
        return None
    source.data.extend(chunk)
    end = source.data.rfind(b"\n") + 1
    lines = lines_of(source.data[:end])
    del source.data[:end]
    return lines


def lines_of(data):
    """The lines of a text, the last of them with an end or without."""
    return bytes(data).removesuffix(b"\n").split(b"\n") if data else []


def answer(name, arguments, given):
    """The lines of a program that reads these bytes."""
    ran = subprocess.run(command(name) + arguments, input=given, stdout=subprocess.PIPE, stderr=subprocess.PIPE, close_fds=False,
                         check=False)
    heard = Heard(name)
    for line in lines_of(ran.stderr):
        heard.complaint(line)
    if heard.failed:
        raise plain.Ends
    if ran.returncode != 0:
        raise plain.Ends(f"{name} ended with status {ran.returncode}")
    return [line.decode("ascii", "replace") for line in lines_of(ran.stdout)]
