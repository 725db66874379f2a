"""What a page or a drawing of a ride is asked for with: the card's file, a title, and flags."""

import pathlib

import lessons
import plain


def of_input():
    """The title of the lesson on standard input, as far as its file's name says; None if it is none."""
    try:
        return lessons.title_of_recording(pathlib.Path("/proc/self/fd/0").readlink())
    except OSError:
        return None


def options(arguments, flags=()):
    """The card's file, the title that is given or the lesson's, and those of the flags that stand there."""
    title, found, files = None, [], []
    rest = iter(arguments)
    for word in rest:
        if word in flags:
            found.append(word)
        elif word == "--title":
            title = next(rest, None)
            if title is None:
                raise plain.Usage
        else:
            files.append(word)
    if len(files) != 1:
        raise plain.Usage
    return files[0], title or of_input(), found
