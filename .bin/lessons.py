"""The lessons by name: their rides, and what their pages say."""

import re

import desk
import plain
import script


def rides():
    """The folder of each ride, by the ride's name; a lesson's variants follow it."""
    return {name: folder for folder, name in sorted((path.parent, name) for name, path, _ in script.lessons())}


def named(word):
    """The name of the ride that a word means: a name, or a lesson's number."""
    every = rides()
    if word in every:
        return word
    for name, folder in every.items():
        if name == folder.name and script.is_number_of(word, folder):
            return name
    raise plain.Ends(f"there is no lesson {word}; ./lesson alone lists them")


def variant(name):
    """What a ride's name has behind its lesson's: nothing, or a dash and the variant."""
    return name[len(rides()[name].name):]


def read_page(path):
    """The text of a lesson's README.md, and what is wrong with it, if something is."""
    if not path.exists():
        return "", "its README.md is missing"
    try:
        return script.text(path), ""
    except (plain.Ends, plain.Refused) as why:
        return "", str(why)


class Page:
    """A lesson's README.md, as plain text. Where there is none the folder's name is the title."""

    def __init__(self, folder):
        text, self.fault = read_page(folder / "README.md")
        text = re.sub(r"\[([^]]*)\]\([^)]*\)|\*\*|`", r"\1", re.sub(r"(?ms)^```.*?^```\n", "", text))
        head, _, self.body = text.partition("\n")
        self.title = head.lstrip("# ").strip() or folder.name

    def look_at(self):
        """The table of what to look at: the samples and the words of each row."""
        table = re.search(r"(?m)^\| *n *\|.*\n\|.*\n((?:\|.*\n)*)", self.body)
        for row in table[1].splitlines() if table else []:
            n, words = (cell.strip() for cell in row.strip("| ").split("|", 1))
            yield n, words

    def variant(self, suffix):
        """What is said of a variant: the entry of the list that names its file."""
        for entry in re.findall(r"(?m)^- .*(?:\n  .*)*", self.body):
            if f"ride{suffix}.txt" in entry.split(":")[0]:
                return " ".join(entry[2:].split())
        return ""

    def variant_sentence(self, suffix):
        """The first sentence of what is said of a variant, without the file's name and the places of the sources."""
        sentence = self.variant(suffix).partition(": ")[2].partition(". ")[0].removesuffix(".")
        return re.sub(r" \(001:[^)]*\)", "", sentence)

    def prose(self):
        """The paragraphs that are no table, no list and no command."""
        parts = (" ".join(part.split()) for part in self.body.split("\n\n"))
        return [part for part in parts if part and not part.startswith(("|", "- ", "After ./lesson "))]


def title(name):
    """The title of a ride."""
    suffix = variant(name)
    return Page(rides()[name]).title + (f" ({suffix[1:]})" if suffix else "")


def title_of_recording(path):
    """The title of the lesson whose recording a file holds, as far as its name says; None if it holds none."""
    name = path.stem
    return title(name) if path.suffix == ".rec" and name in rides() else None


FOLDER = desk.ROOT / "target" / "lessons"
