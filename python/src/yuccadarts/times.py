"""Times of a service day: seconds since noon minus twelve hours, which is midnight but on the days
when clocks change. They may be past 86,400, and below 0 for trips of the day before.
"""
import operator
import re

Time = int | str
"""A time that is asked for: such seconds, also as an integer of numpy, or a text as `08:05:00`."""

_CLOCK = re.compile(r"([0-9]{1,2}):([0-5][0-9]):([0-5][0-9])")


def seconds(time: Time) -> int:
    """The seconds of a time; ValueError where a text is none."""
    if not isinstance(time, str):
        return operator.index(time)
    found = _CLOCK.fullmatch(time)
    if not found:
        raise ValueError(f"{time!r} is no time as 08:05:00")
    hours, minutes, secs = map(int, found.groups())
    return hours * 3600 + minutes * 60 + secs


def clock(time: Time) -> str:
    """The time as hours in at least two digits, minutes and seconds, as `08:05:00`."""
    whole = seconds(time)
    minutes, secs = divmod(abs(whole), 60)
    hours, minutes = divmod(minutes, 60)
    return f"{'-' if whole < 0 else ''}{hours:02}:{minutes:02}:{secs:02}"
