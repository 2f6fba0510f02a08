"""What `live` has to write, as docs/FORMATS.md says, but for the legs of journeys, for which edition
answers a request, and for where it is told what became of items: these hang on how fast they are
built.
"""
import re

from said import served, texts
from said.words import is_day, number_of

REASONS = {"1 BadLine": "bad line", "4 BadTime": "bad time"}


def lines_of(text):
    """The words of each line that has a number, or None where they are none."""
    found = (texts.words_of(line) for _, line in texts.lines_of(text))
    return [words for words in found if words != []]


def published(words):
    """The word of the item that a line names, if it does, and the file of updates, if it is one."""
    kind, name = words if words and len(words) == 2 else ("", "")
    if kind == "publish" and is_day(name):
        return name, None
    return (f"late:{name}", name) if kind == "late" and name else None


def refusal(words, is_mirrored):
    """What is written of a line that is refused, or None."""
    fault = "1 BadLine" if words is None or words[0] == "lane" else texts.line_fault(words, 1)
    asked = words[2:] if words and words[0] == "since" else words
    if not fault and asked[0] == "latest" and not is_mirrored:
        fault = "1 BadLine"
    return REASONS.get(fault)


class Reader(served.Reader):
    """Reads lines, over the timetables of the editions of all items in order."""

    def __init__(self, out, items, is_place):
        super().__init__(out, items, is_place)
        # how many items were told of, and the last edition of these and of replies
        self.told = self.last = 0

    def read_all(self, lines, is_mirrored):
        self.read_news()
        if self.told == 0:
            raise served.Wrong("nothing of the first day")
        for number, words in enumerate(lines, 1):
            self.read_news()
            refused = refusal(words, is_mirrored)
            if published(words):
                self.take(f"{number} queued")
            elif refused:
                self.take(f"{number} {refused}")
            else:
                self.read_answer(number, words)
            self.take("")
        self.read_news()
        if self.at < len(self.lines) or self.told < len(self.items):
            raise served.Wrong(f"{self.lines[self.at:]} in place of the end")

    def read_news(self):
        """Reads what became of items, as far as it stands here."""
        while self.at < len(self.lines) and self.lines[self.at].startswith(("edition ", "refused ")):
            if self.told == len(self.items):
                raise served.Wrong(f"{self.lines[self.at]!r} after all items")
            self.read_item(self.told)
            self.told += 1
            number = sum(self.items[i].timetable is not None for i in range(self.told))
            self.last = max(self.last, number)

    def read_answer(self, number, words):
        edition = int(self.take(rf"{number} edition (\d+)")[1])
        if not self.last <= edition <= len(self.timetables):
            raise served.Wrong(f"edition {edition} after {self.last}")
        self.last = edition
        has_since = words[0] == "since"
        since = number_of(words[1]) if has_since else 0
        self.read_reply(edition, since, words[2:] if has_since else words)

    def ends_reply(self, line):
        return not line
