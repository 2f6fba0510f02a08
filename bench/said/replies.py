"""What a command over a day has to tell, in numbers, and what a text tells."""
import math
import re

from said.answers import TIME, VALUE, seconds_of
from said.journeys import moved
from said.words import time_of
from said import texts

SLOT = re.compile(rf"^leave ({TIME}) arrive ({TIME}) rides (\d+)$", re.M)
DEPARTURE = re.compile(rf"^leave ({TIME}) rides (\d+)$", re.M)
EARLIEST, LATEST, MOST_SECS = -86_400, 359_999, 86_400


def numbers_of(found):
    """Of each match its times in seconds, and its rides."""
    return [(*map(seconds_of, times), int(rides)) for *times, rides in found]


def told(command, text):
    """What a text tells: values, slots, or departures; of `reach` the values of each stop, of
    `times` how many departures reach it and the percentiles.
    """
    if command == "direct":
        return [seconds_of(time) for time in re.findall(rf"^arrive ({TIME})$", text, re.M)]
    if command == "reach":
        return [
            numbers_of(re.findall(rf" ({TIME})/(\d+)", line)) for line in text.splitlines()
        ]
    if command == "times":
        found = re.findall(rf" (\d+)/(\d+)((?: -| {TIME}){{7}})$", text, re.M)
        return [
            (int(n), int(m), [None if it == "-" else seconds_of(it) for it in times.split()])
            for n, m, times in found
        ]
    return numbers_of({"profile": SLOT, "latest": DEPARTURE}.get(command, VALUE).findall(text))


def wanted(command, words, timetable):
    """The same of a timetable, for the words behind the date."""
    if command == "times":
        return travel_times(words, timetable)
    times = [time_of(word) for word in words]
    if command == "reach":
        origins = timetable.place(words[0])
        return [timetable.values(origins, [stop], times[1]) for stop in timetable.stops]
    ends = [timetable.place(word) for word in words[:2]]
    if command == "direct":
        arrival = timetable.direct(*ends, times[2])
        return [] if arrival is None else [arrival]
    ask = {"profile": timetable.slots, "latest": timetable.latest}.get(command, timetable.values)
    return ask(*ends, *times[2:])


def travel_times(words, timetable):
    """Of each stop how many departures reach it, how many there are, and percentiles of the travel
    times, for the words FROM FIRST LAST STEP and perhaps `rides N`.
    """
    origins, step = timetable.place(words[0]), int(words[3])
    departures = range(time_of(words[1]), time_of(words[2]) + 1, step)
    most = int(words[5]) if words[4:] else math.inf
    return [
        figures([travel_time(timetable, origins, stop, time, most) for time in departures])
        for stop in timetable.stops
    ]


def travel_time(timetable, origins, stop, time, most):
    """The seconds from a departure to the least arrival with no more rides than the limit."""
    values = timetable.values(origins, [stop], time)
    return min((arrival - time for arrival, rides in values if rides <= most), default=None)


def figures(times):
    """How many of the times there are, of how many, and their percentiles by nearest rank, one that
    is none being the greatest.
    """
    count = len(times)
    found = sorted(time for time in times if time is not None)
    ranks = [1, *(-(-percent * count // 100) for percent in (5, 25, 50, 75, 95)), count]
    return len(found), count, [found[rank - 1] if rank <= len(found) else None for rank in ranks]


def amend(trips, text):
    """Moves trips as a file of delays without a bad line says; the first fault, as it is shown."""
    for line, text_of_line in texts.lines_of(text):
        words = texts.words_of(text_of_line)
        if not words:
            continue
        update = texts.update_of(words)
        key = update.trip, update.day
        place = next((i for i, it in enumerate(trips) if (it.name, it.day) == key), None)
        if place is None:
            return f"1 UnknownTrip line {line}"
        calls = trips[place].calls
        if (update.event or 0) >= len(calls):
            return f"4 BadEvent line {line}"
        fault = None if update.secs is None else move_fault(calls, update.event, update.secs)
        if fault:
            return f"{fault} line {line}"
        trips[place] = trips[place]._replace(calls=updated(calls, update))
    return None


def updated(calls, update):
    """The calls of a trip after an update."""
    at = update.event
    if update.secs is not None:
        return calls[:at] + moved(calls[at:], update.secs)
    first, last = (0, len(calls)) if at is None else (at, at + 1)
    closed = [call._replace(board=False, alight=False) for call in calls[first:last]]
    return calls[:first] + closed + calls[last:]


def move_fault(calls, event, secs):
    late = moved(calls[event:], secs)
    times = [time for call in late for time in (call.arrival, call.departure)]
    if abs(secs) > MOST_SECS or min(times) < EARLIEST or max(times) > LATEST:
        return "3 OutOfRange"
    if event and late[0].arrival < calls[event - 1].departure:
        return "2 TimeRunsBack"
    return None
