"""unhex.py [DUMP [FILE]]: makes bytes of a hex dump, and says what it took. A dump that can be read in two ways is refused."""

import os
import re
import stat
import sys

import plain

USAGE = """usage: bench/unhex [DUMP [FILE]]

Makes the bytes that a hex dump shows, and says on standard error what it took. DUMP is a file; without it, or where it is -, the
dump comes on standard input. The bytes go to FILE, or to standard output. A dump is plain hex (blanks and # comments are nothing),
a listing of xxd, of hexdump -C or of od -t x1. The offsets of a listing must be those due, and its text column, where there is one,
must show the bytes. A dump that is no hex, or whose form is in doubt, is refused."""

HEX = re.compile(r"[0-9A-Fa-f]+")
XXD = re.compile(r"([0-9A-Fa-f]+): (.*?)(  .*)?")  # an offset, words, and behind two blanks the text
BYTES = re.compile(r"([0-9A-Fa-f]{4,8})((?: +[0-9A-Fa-f]{2})*) *([|>].*)?")  # by hexdump -C or od -t x1; the last line is a bare offset
WORDS = re.compile(r"[0-9A-Fa-f]{7}( +[0-9A-Fa-f]+)+")  # by hexdump or od alone
MOST = 1 << 20  # bytes that lines * may stand for


def wrong(number, why):
    raise plain.Refused(f"unhex: line {number}: {why}")


def pairs(number, words):
    """The bytes of words of hexadecimal digits, of which a byte has two."""
    for word in words:
        strange = re.search(r"[^0-9A-Fa-f]", word)
        if strange:
            wrong(number, f"{strange[0]!r} is no hexadecimal digit")
        if len(word) % 2:
            wrong(number, f"{word} has an odd number of hexadecimal digits, and a byte has two")
    return bytes.fromhex("".join(words))


# ---- listings

class Line:
    """A line of a listing: its offset, its bytes, the texts that its column can be read as (none where it has no column), and the bytes
    with each word turned round, as they are where the words stand in a machine's own order."""

    def __init__(self, number, line, form):
        parts = form.fullmatch(line.rstrip() if form is BYTES else line)
        if not parts:
            wrong(number, f"not a line of {NAMES[form]}")
        words = parts[2].split()
        self.number, self.offset = number, parts[1]
        self.data = pairs(number, words)
        self.turned = b"".join(bytes.fromhex(word)[::-1] for word in words)
        self.longest = max(map(len, words), default=0)
        self.texts = (barred if form is BYTES else column)(parts[3] or "", len(self.data))

    def check_text(self):
        if not self.texts or any(shows(text, self.data) for text in self.texts):
            return
        if any(shows(text, self.turned) for text in self.texts):
            wrong(self.number, "its words stand in the machine's own order, as xxd -e lists them; make it with xxd")
        for said, byte in zip(self.texts[0], self.data):
            if not shows(said, [byte]):
                wrong(self.number, f"the text column says {said!r}, the byte is {byte:02x}")
        wrong(self.number, f"the text column has {len(self.texts[0])} characters, and the line {len(self.data)} bytes")


def shows(text, data):
    """Is this the text of these bytes? A byte that is no ASCII character is a dot; one above 127 may be shown as a letter."""
    return len(text) == len(data) and all(
        said == (chr(byte) if 32 <= byte < 127 else ".") or byte > 127 < ord(said) for said, byte in zip(text, data))


def barred(raw, _):
    """The text between the bars of hexdump -C, or the brackets of od."""
    if not raw:
        return []
    return [raw[1:-1] if len(raw) > 1 and raw[-1] == {"|": "|", ">": "<"}[raw[0]] else raw[1:]]


def column(raw, length):
    """The text at the end of an xxd line. Blanks at its end may be lost; a line shorter than the others has blanks before it."""
    text = raw.strip()
    if not text or len(raw.rstrip()) <= length + 2:
        return [raw.rstrip()[2:].ljust(length)] if text else []
    whole = [raw[-length:]] if length and not raw[:-length].strip() else []
    return [*whole, text.ljust(length)]


def listing(lines, form, base=16):
    """The bytes of a listing. A line * stands for lines like the one before it, up to the next offset."""
    made, turned, read, star = bytearray(), bytearray(), [], None
    for number, text in lines:
        if text.strip() == "*" and read and not star:
            star = number
            continue
        line = Line(number, text, form)
        if star and read[-1].data:
            while len(made) < offset(line, base) <= MOST:
                made += read[-1].data
                turned += read[-1].turned
            star = None
        if offset(line, base) != len(made):
            wrong(number, f"the offset is {line.offset}, and the lines before it make {len(made)} bytes (hex {len(made):x})")
        line.check_text()
        made += line.data
        turned += line.turned
        read.append(line)
    if star:
        wrong(star, "* stands for lines up to the next offset, and there is none")
    check_lines(read, turned != made)
    return bytes(made)


def offset(line, base):
    try:
        return int(line.offset, base)
    except ValueError:
        return -1


def check_lines(read, turns):
    """Is every line whole, and do the texts say in which order the bytes of long words stand?"""
    for line in read:
        if len(line.data) > len(read[0].data):
            wrong(line.number, f"has {len(line.data)} bytes, and the first line {len(read[0].data)}")
        if line.data.strip() and not line.texts and any(other.texts for other in read):
            wrong(line.number, "has no text column, and other lines have one")
    longest = max(line.longest for line in read)
    told = any(line.texts and not any(shows(text, line.turned) for text in line.texts) for line in read)
    if longest > 4 and (turns or not any(line.texts for line in read)) and not told:
        wrong(read[0].number, f"words of {longest // 2} bytes, which may stand in the machine's own order; make it with xxd -g 1")


def numbered(lines):
    """The bytes of a listing with seven digits an offset. Those are hexadecimal, octal or decimal: od has them all."""
    made, refused = [], None
    for base in (16, 8, 10):
        try:
            made.append(listing(lines, BYTES, base))
        except plain.Refused as why:
            refused = refused or why
    if not made:
        raise refused
    if any(other != made[0] for other in made):
        wrong(lines[0][0], "the offsets may be octal, decimal or hexadecimal, and a line * hides which; make it with hexdump -C")
    return made[0]


# ---- plain hex

def plain_hex(lines):
    made = bytearray()
    lines = [(number, line.split("#", 1)[0].split()) for number, line in lines]
    everywhere = all_listed([words for _, words in lines])
    for (number, words), (_, after) in zip(lines, [*lines[1:], (None, [])]):
        data = pairs(number, words)
        if may_be_offset(words, len(made), after, everywhere):
            several = {2: "two", 3: "three", 4: "four"}[len(words[0]) // 2]
            wrong(number, f"{words[0]} may be an offset or {several} bytes; give the whole listing, or the hex without offsets "
                          f"({several} bytes as {bytes.fromhex(words[0]).hex(' ')})")
        made += data
    return bytes(made)


def is_listed(words):
    """Is this line made as those of a listing are, a longer word and bytes behind it, or six digits and words as od has them?"""
    lengths = {len(word) for word in words[1:]}
    return 4 <= len(words[0]) <= 8 and lengths == {2} or len(words[0]) == 6 and lengths in ({4}, {8})


def all_listed(lines):
    """Are all lines made so? The last may have an offset only."""
    first, last = lines[0], lines[-1]
    is_bare = len(lines) > 1 and len(last) == 1 and len(last[0]) == len(first[0])
    return all(map(is_listed, lines[:-1])) and (is_bare or is_listed(last))


def may_be_offset(words, due, after, everywhere):
    """May the first word be an offset? It is the one due here, the next line goes on from it, or all lines look so."""
    if not words or not 4 <= len(words[0]) <= 8:
        return False
    value, is_long = int(words[0], 16), len(words[0]) >= 6
    if not is_long and not is_listed(words):
        return False
    return value == due or goes_on(words, after) or is_long and everywhere


def goes_on(words, after):
    """Is the next line's first word this line's and as many as there are words behind it, of one, two or four bytes?"""
    if len(words) == 1 or not after or len(after[0]) != len(words[0]) or not HEX.fullmatch(after[0]):
        return False
    return int(after[0], 16) - int(words[0], 16) in [(len(words) - 1) * size for size in (1, 2, 4)]


# ---- a dump

NAMES = {XXD: "an xxd listing", BYTES: "a hexdump -C or od -t x1 listing"}


def read_listing(lines):
    """The bytes of a listing without colons and its name, None where it is none."""
    number, line = lines[0]
    first = BYTES.fullmatch(line.rstrip())
    if not first:
        if WORDS.fullmatch(line.rstrip()):
            wrong(number, "a listing of hexdump without -C, or of od, whose words stand in the machine's own order; "
                          "make it with hexdump -C")
        return None
    digits = len(first[1])
    name = "a hexdump -C listing" if (first[3] or "").startswith("|") else "a listing with offsets"
    if digits == 7:
        return numbered(lines), name
    if first[3] or any(text.strip() == "*" for _, text in lines):
        return listing(lines, BYTES), name
    if not first[2] or len(lines) == 1 and digits < 7:
        return None
    try:
        return listing(lines, BYTES), name
    except plain.Refused:
        return None  # then it is plain hex, if nothing in it may be an offset


def text_of(data):
    """The text of a dump. A comment may be in any character set."""
    try:
        return plain.decoded(data)
    except UnicodeDecodeError:
        text = data.decode("utf-8", "surrogateescape")
    for number, line in enumerate(text.splitlines(), 1):
        strange = re.search("[\udc80-\udcff]", line.split("#", 1)[0])
        if strange:
            wrong(number, f"byte {ord(strange[0]) - 0xdc00:02x} is no text; is this the file itself, and no dump?")
    return text


def made_of(data):
    """The bytes of a dump, and the name of its form."""
    lines = [(number, re.sub(r"[\t\xa0]", " ", line).lstrip()) for number, line in enumerate(text_of(data).splitlines(), 1)]
    lines = [(number, line) for number, line in lines if line and not line.startswith("#")]
    if not lines:
        raise plain.Refused("unhex: nothing in the dump")
    number, line = lines[0]
    if XXD.fullmatch(line):
        made, form = listing(lines, XXD), NAMES[XXD]
    elif not any(HEX.fullmatch(word) for word in line.split("#", 1)[0].split()):
        wrong(number, "neither hex, nor a line of xxd, hexdump -C or od -t x1")
    else:
        made, form = read_listing(lines) or (plain_hex(lines), "plain hex")
    if not made:
        raise plain.Refused(f"unhex: no bytes in the dump ({form})")
    return made, form


def check_target(source, target):
    """The bytes must not go where the dump is: it would be lost."""
    try:
        read, written = os.fstat(0) if source == "-" else os.stat(source), os.stat(target)
    except OSError:
        return
    if stat.S_ISREG(read.st_mode) and os.path.samestat(read, written):
        raise plain.Ends(f"{target} is the dump itself")


def write(name, data):
    try:
        with open(name, "wb") as target:
            target.write(data)
    except FileNotFoundError:
        raise plain.Ends(f"cannot write {name}: there is no such folder") from None
    except OSError as error:
        raise plain.Ends(f"cannot write {name}: {plain.reason(error)}") from None


def main(arguments):
    if len(arguments) > 2:
        raise plain.Usage
    source, target = (arguments + ["-", None][len(arguments):])
    if target is not None:
        check_target(source, target)
    made, form = made_of(plain.standard_input("dump", USAGE) if source == "-" else plain.file_bytes(source))
    if target is None and os.isatty(1):
        raise plain.Ends("these bytes are not for a terminal; name a file: bench/unhex DUMP FILE")
    if target is None:
        plain.say(made)
    else:
        write(target, made)
    plain.complain(f"unhex: {len(made)} bytes from {form}")
    return 0


plain.run("unhex", USAGE, main, sys.argv[1:])
