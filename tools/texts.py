"""Lines of the program's texts, and which text a file holds."""

import re

import wkt
from common import Progress, Refused

NUMBER = re.compile(r"-?[0-9]{1,18}\Z")


class Lines:
    """The lines of a text, from the first, with what refuses the line that was taken last."""

    def __init__(self, file, text, quiet):
        self.file, self.items, self.at = file, text.split("\n"), 0
        if self.items[-1] == "":
            self.items.pop()
        self.progress = Progress(file, quiet)

    def peek(self):
        """The next line, an empty text at the end."""
        return self.items[self.at] if self.at < len(self.items) else ""

    def is_end(self):
        """Whether no line is left."""
        return self.at == len(self.items)

    def take(self):
        """Takes the next line."""
        if self.is_end():
            self.at += 1
            self.refuse("the text ends where a line must stand")
        self.at += 1
        if self.at % 1000 == 0:
            self.progress.tell(self.at, "lines", len(self.items))
        return self.items[self.at - 1]

    def refuse(self, what):
        """Refuses the line that was taken last."""
        raise Refused(self.file, self.at, what)

    def number(self, word):
        """The whole number that a word spells."""
        if not NUMBER.match(word):
            self.refuse(f"{word!r} stands where a number must stand" if word else "a number is lacking")
        return int(word)

    def shape(self, text):
        """The shape of the rest of a line."""
        try:
            return wkt.read_whole(text)
        except wkt.Fault as fault:
            return self.refuse(str(fault))


def first_word(text):
    """The text's first word, and the rest without blanks at its ends."""
    word, _, rest = text.strip().partition(" ")
    return word, rest.strip()
