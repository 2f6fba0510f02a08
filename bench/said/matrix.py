"""What `matrix` has to write, as docs/FORMATS.md says."""
import csv
import io

from said import replies, texts
from said.answers import ROW


def origins_of(text):
    """The origins that a text without a fault names."""
    found = (texts.words_of(line) for _, line in texts.lines_of(text))
    return [words[0] for words in found if words]


def wanted(origins, departures, timetable, is_place):
    """Of each origin the figures of each stop, or None where no place has its name."""
    return [
        (it, replies.travel_times([it, *departures], timetable) if is_place(it) else None)
        for it in origins
    ]


def told(out):
    """The same, as a text tells it, or None where it tells something else."""
    found, lines = [], iter(out.split("\n")[:-1])
    for line in lines:
        begin, _, origin = line.partition(" ")
        block = "\n".join(iter(lambda: next(lines, ""), ""))
        if begin != "from":
            return None
        is_unknown = block == f"unknown stop {origin}"
        found.append((origin, None if is_unknown else replies.told("times", block)))
    return found


def rows_wanted(figures, stops):
    """The rows of a table with these figures."""
    yield ROW.split(",")
    for origin, found in figures:
        if found is None:
            yield [origin, *[""] * 10]
            continue
        for stop, (reached, count, times) in zip(stops, found):
            shown = ["" if time is None else str(time) for time in times]
            yield [origin, stop, str(reached), str(count), *shown]


def rows_told(out):
    return list(csv.reader(io.StringIO(out, newline="")))
