"""What becomes known of trips during the day, and the file that tells it to the process.

Trips go by their ids in trips.txt, one by frequency by its id and its start, as `T1#08:00:00`. The
events of a trip are its calls, counted from 0.
"""
import contextlib
import os
import tempfile
from collections.abc import Iterable
from dataclasses import dataclass

from .questions import line


@dataclass(frozen=True, slots=True)
class Delay:
    """The times of a trip move from an event on, by so many seconds; to earlier ones if these are
    below 0.
    """

    trip: str
    event: int
    seconds: int
    day: int = 0
    """How many days after the date the trip's service day is: -1, 0, 1 or 2."""

    def line(self) -> str:
        words = self.trip, f"{self.event:d}", f"{self.seconds:d}"
        return line("late", *words, *behind(self.day))


@dataclass(frozen=True, slots=True)
class Cancellation:
    """Nobody boards or alights on a trip anywhere."""

    trip: str
    day: int = 0

    def line(self) -> str:
        return line("cancel", self.trip, *behind(self.day))


@dataclass(frozen=True, slots=True)
class SkippedEvent:
    """Nobody boards or alights on a trip at an event."""

    trip: str
    event: int
    day: int = 0

    def line(self) -> str:
        return line("skip", self.trip, f"{self.event:d}", *behind(self.day))


Update = Delay | Cancellation | SkippedEvent


def behind(day: int) -> list[str]:
    return {-1: ["day-before"], 0: [], 1: ["day-after"], 2: ["day+2"]}[day]


def write_updates(updates: Iterable[Update]) -> str:
    """Writes a file with a line for each update, and returns its path. Whoever asked for it removes
    it.
    """
    text = "".join(f"{update.line()}\n" for update in updates)
    number, path = tempfile.mkstemp(prefix="yuccadarts-", suffix=".late")
    with open(number, "w", encoding="utf-8", newline="") as file:
        file.write(text)
    return path


def remove(path: str, owner: int) -> None:
    """Removes a file that this process made, and no fork of it."""
    if os.getpid() == owner:
        with contextlib.suppress(OSError):
            os.remove(path)
