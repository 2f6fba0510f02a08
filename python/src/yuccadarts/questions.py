"""What can be asked, and how it stands in a line.

Stops are ids of stops.txt; a station stands for its platforms. Times are seconds since noon minus
twelve hours, or texts as `08:05:00`.
"""
import re
from dataclasses import dataclass

from .times import Time, clock

_PLAIN = re.compile(r"[^\s\"]+")


def quoted(word: str) -> str:
    """The word as it stands in a line; ValueError where no line can have it."""
    if "\n" in word:
        raise ValueError(f"{word!r} has a line feed, which no line can say")
    word.encode()
    return word if _PLAIN.fullmatch(word) else '"' + word.replace('"', '""') + '"'


def line(name: str, *words: str) -> str:
    return " ".join([name, *map(quoted, words)])


@dataclass(frozen=True, slots=True)
class Ask:
    """Every best value, of arrival and number of rides, of the journeys that leave no earlier than
    the departure.
    """

    origin: str
    destination: str
    departure: Time

    def line(self) -> str:
        return line("ask", self.origin, self.destination, clock(self.departure))


@dataclass(frozen=True, slots=True)
class Profile:
    """Every best departure from the first time to the last, with its arrival and number of
    rides.
    """

    origin: str
    destination: str
    first: Time
    last: Time

    def line(self) -> str:
        window = clock(self.first), clock(self.last)
        return line("profile", self.origin, self.destination, *window)


@dataclass(frozen=True, slots=True)
class Latest:
    """For each number of rides worth taking the latest departure that arrives by a time."""

    origin: str
    destination: str
    arrival: Time

    def line(self) -> str:
        return line("latest", self.origin, self.destination, clock(self.arrival))


@dataclass(frozen=True, slots=True)
class Reach:
    """The best values to each stop, of arrival and number of rides."""

    origin: str
    departure: Time

    def line(self) -> str:
        return line("reach", self.origin, clock(self.departure))


@dataclass(frozen=True, slots=True)
class Times:
    """Travel times to each stop over departures from the first to the last, one each so many
    seconds; with no more rides than so many, if they are given.
    """

    origin: str
    first: Time
    last: Time
    step: int
    rides: int | None = None

    def line(self) -> str:
        words = clock(self.first), clock(self.last), f"{self.step:d}"
        limit = () if self.rides is None else ("rides", f"{self.rides:d}")
        return line("times", self.origin, *words, *limit)


Question = Ask | Profile | Latest | Reach | Times
