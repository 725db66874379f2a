"""How every program here ends: with a status and, where that is 2, with one plain line on standard error.

0: answered. 1: refused, be it a card, a sheet, a ride, a sample, a tone or a dump. 2: usage, a file that cannot be read, or output
that could not be written. A reader that closes a pipe has what it wanted: that is no fault.
"""

import codecs
import errno
import os
import re
import stat
import sys

STATUS = "Status: 0 answered, 1 refused, 2 usage, a file that cannot be read, or output that could not be written."

# As many bytes of a file as a proved program looks at, and the characters of a text here. Those beyond, as Chinese has them, are what
# any bytes are as UTF-16.
MOST = 65536
TEXT = re.compile("[\t-\r -~\xa0-\u2fff]+")
MARKS = {codecs.BOM_UTF8: "utf-8", codecs.BOM_UTF16_LE: "utf-16-le", codecs.BOM_UTF16_BE: "utf-16-be"}


class Ends(Exception):
    """Ends the program with status 2. What there is to say stands in the exception, unless it is said already."""


class Refused(Exception):
    """Ends the program with status 1: what it was given is refused, in the exception's words."""


class Usage(Exception):
    """The arguments are not those of the usage."""


class Enough(Exception):
    """The reader of the output has closed it."""


def reason(error):
    """An error of the system, in a few words."""
    if isinstance(error, FileNotFoundError):
        return "there is no such file"
    if isinstance(error, IsADirectoryError):
        return "it is a folder"
    if isinstance(error, PermissionError):
        return "no permission"
    if error.errno == errno.EBADF:
        return "it is closed"
    return error.strerror[:1].lower() + error.strerror[1:]


def encoded(text):
    """The bytes of a text. A drawing is UTF-8 whatever the locale is, and so is all the rest; a name's strange bytes stay as they are."""
    return text if isinstance(text, bytes) else text.encode("utf-8", "surrogateescape")


def printable(text):
    """A text that somebody gave, for a terminal: what it would not print, as an escape or a NUL, stands there in digits."""
    known = encoded(text).decode("utf-8", "backslashreplace")
    return "".join(c if c.isprintable() else c.encode("unicode_escape").decode("ascii") for c in known)


def say(text):
    """Writes to standard output, at once."""
    data = encoded(text)
    while data:
        try:
            data = data[os.write(1, data):]
        except BrokenPipeError:
            raise Enough from None
        except OSError as error:
            raise Ends(f"cannot write to standard output: {reason(error)}") from None


def complain(line):
    """Writes a line to standard error; where that is lost too, nothing is left to do."""
    try:
        os.write(2, encoded(line) + b"\n")
    except OSError:
        pass


def hold_descriptors():
    """Where a standard descriptor is closed, something takes its place that can do no more than it could."""
    for number, flags in enumerate((os.O_WRONLY, os.O_RDONLY, os.O_RDONLY)):
        try:
            os.fstat(number)
        except OSError:
            os.open(os.devnull, flags)


def check_input(what, usage=None):
    """Is there a standard input to read? With a usage it must be a file or a pipe: nobody types those bytes."""
    try:
        os.read(0, 0)
    except OSError as error:
        raise Ends(f"cannot read {what} on standard input: {reason(error)}") from None
    if usage and os.isatty(0):
        raise Ends(f"no {what} on standard input; {first_line(usage)}")


def standard_input(what, usage, most=-1):
    """The bytes on standard input, or the first so many of them."""
    check_input(what, usage)
    try:
        with os.fdopen(0, "rb", closefd=False) as source:
            return source.read(most)
    except OSError as error:
        raise Ends(f"cannot read {what} on standard input: {reason(error)}") from None


def file_bytes(name, most=-1):
    """The bytes of a file, or the first so many of them."""
    try:
        with open(name, "rb") as source:
            return source.read(most)
    except OSError as error:
        raise Ends(f"cannot read {name}: {reason(error)}") from None


def read_again(name):
    """The bytes of a file that a program has read. A pipe has them no more."""
    try:
        return file_bytes(name, MOST) if os.path.isfile(name) else b""
    except Ends:
        return b""


def place(fd):
    """Where a file is read next; None in a pipe, which has its bytes once."""
    try:
        return os.lseek(fd, 0, os.SEEK_CUR)
    except OSError:
        return None


def read_from(fd, start):
    """The bytes that a program has read from a place on, None where nobody can read them again."""
    try:
        data = None if start is None else os.pread(fd, MOST, start)
    except OSError:
        return None
    return data if not data or stat.S_ISREG(os.fstat(fd).st_mode) else None


def decoded(data, whole=True):
    """The text of these bytes: UTF-8, or UTF-16 by its mark. Where they are not the whole file, the last character may be cut."""
    mark, coding = next(((mark, coding) for mark, coding in MARKS.items() if data.startswith(mark)), (b"", "utf-8"))
    return codecs.getincrementaldecoder(coding)().decode(data[len(mark):], whole)


def is_text(data):
    """Are the first bytes of a file, at most MOST of them, those of a text?"""
    try:
        return bool(TEXT.fullmatch(decoded(data, len(data) < MOST)))
    except UnicodeDecodeError:
        return False


def say_if_text(what, data):
    """Says on standard error that bytes which were refused are a text, as a hex dump is one."""
    if is_text(data):
        complain(f"this {what} is text, not bytes; bench/unhex makes bytes of a hex dump")


def first_line(usage):
    return usage.split("\n", 1)[0]


def run(name, usage, work, arguments, statuses=STATUS):
    """Does the work with the arguments, and ends with the status that it gives."""
    hold_descriptors()
    try:
        if arguments[:1] in (["--help"], ["-h"]):
            say(f"{usage}\n\n{statuses}\n")
            status = 0
        else:
            status = work(arguments)
    except Usage:
        complain(f"{first_line(usage)}   (--help says more)")
        status = 2
    except Ends as ends:
        if ends.args:
            complain(f"{name}: {ends}")
        status = 2
    except Refused as why:
        complain(str(why))
        status = 1
    except Enough:
        status = 0
    except KeyboardInterrupt:
        status = 130
    sys.stdout = sys.stderr = None
    os._exit(status)
