"""What `serve` has to write, as docs/FORMATS.md says, but for the legs of journeys, and for which
edition answers a request, which hangs on how fast the items are built.
"""
import re
import typing

from said import replies, texts
from said.words import number_of

REPLY = re.compile(r"(\d+) edition (\d+)")


def lanes_of(text):
    """The lanes of a script: their names, and pairs of the edition that a request asks for and its
    words.
    """
    lanes = []
    for _, line in texts.lines_of(text):
        words = texts.words_of(line)
        if not words:
            continue
        if words[0] == "lane":
            lanes.append((words[1], []))
            continue
        since = number_of(words[1]) if words[0] == "since" else 0
        lanes[-1][1].append((since, words[2:] if words[0] == "since" else words))
    return lanes


class Item(typing.NamedTuple):
    """What became of an item: its timetable, or its fault; a file of updates touches trips."""

    word: str
    is_day: bool
    timetable: object = None
    fault: str = ""


class Wrong(Exception):
    """What another line stands in the place of."""


class Reader:
    """Reads lines, over the timetables of the editions."""

    def __init__(self, out, items, is_place):
        self.lines, self.at = out.split("\n")[:-1], 0
        self.items, self.is_place = items, is_place
        self.timetables = [it.timetable for it in items if it.timetable]

    def take(self, form):
        """The next line, which has to match."""
        line = self.lines[self.at] if self.at < len(self.lines) else ""
        found = re.fullmatch(form, line)
        if not found:
            raise Wrong(f"{line!r} in place of {form!r}")
        self.at += 1
        return found

    def read(self, lanes):
        for place in range(len(self.items)):
            self.read_item(place)
        deferred = [self.read_lane(*lane) for lane in lanes]
        last = len(self.timetables)
        self.take(f"closing edition {last}")
        for (name, requests), again in zip(lanes, deferred):
            self.take(re.escape(f"lane {name}"))
            for number in again:
                self.take(f"{number} edition {last}")
                self.read_reply(last, *requests[number - 1])
        if self.at < len(self.lines):
            raise Wrong(f"{self.lines[self.at]!r} in place of the end")

    def read_item(self, place):
        """Reads what became of the item of that place."""
        word, is_day, found, fault = self.items[place]
        if not found:
            self.take(re.escape(f"refused {word} {fault}"))
            return
        number = sum(it.timetable is not None for it in self.items[: place + 1])
        counts = f"trips {len(found.trips)} lines " if is_day else "touched "
        begin = re.escape(f"edition {number} {word} {counts}")
        self.take(rf"{begin}\d+ kept \d+")

    def read_lane(self, name, requests):
        """Reads the replies of a lane; the numbers of the requests that the closing answers."""
        self.take(re.escape(f"lane {name}"))
        again, last = [], 1
        for number, (since, words) in enumerate(requests, 1):
            edition = int(self.take(rf"{number} edition (\d+)")[1])
            if not last <= edition <= len(self.timetables):
                raise Wrong(f"edition {edition} after {last}")
            last = edition
            if number == 1 or since > edition:
                again.append(number)
            self.read_reply(edition, since, words)
        return again

    def read_reply(self, edition, since, words):
        if since > edition:
            self.take(f"deferred {since}")
            return
        ends = words[1:2] if words[0] in ("reach", "times") else words[1:3]
        unknown = next((it for it in ends if not self.is_place(edition, it)), None)
        if unknown is not None:
            self.take(re.escape(f"unknown stop {unknown}"))
            return
        begin = self.at
        while self.at < len(self.lines) and not self.ends_reply(self.lines[self.at]):
            self.at += 1
        told = replies.told(words[0], "\n".join(self.lines[begin : self.at]))
        wanted = replies.wanted(words[0], words[1:], self.timetables[edition - 1])
        if told != wanted:
            raise Wrong(f"{self.lines[begin:self.at]} in place of {wanted}")

    def ends_reply(self, line):
        return bool(REPLY.fullmatch(line)) or line.startswith(("lane ", "closing edition "))
