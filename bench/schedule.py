"""What a delay needs to know of a feed: the trips of a day, their names, and their calls."""
import csv
import datetime
import os
from dataclasses import dataclass

from harness import BenchError, clock

DAY_SECONDS = 86_400
WEEKDAYS = ("monday", "tuesday", "wednesday", "thursday", "friday", "saturday", "sunday")


@dataclass
class Call:
    """A row of stop_times.txt: times in seconds of the service day, None where there is none."""

    sequence: int
    stop: str
    arrival: int
    departure: int


@dataclass
class Trip:
    """A trip of a day by its name in the program, with its calls in order."""

    name: str
    calls: list


def rows(feed, name):
    """The rows of a file of a feed, by the names of their columns; none if there is no file."""
    try:
        with open(os.path.join(feed, name), encoding="utf-8-sig", newline="") as file:
            reader = csv.reader(file)
            header = [field.strip(" \t") for field in next(reader, [])]
            for record in reader:
                fields = (field.strip(" \t") for field in record)
                yield {**dict.fromkeys(header, ""), **dict(zip(header, fields))}
    except FileNotFoundError:
        return
    except (OSError, UnicodeDecodeError, csv.Error) as error:
        raise BenchError(f"{name} of {feed} can't be read: {error}") from None


def seconds_of(text):
    """The seconds of a time as HH:MM:SS, or None where there is none."""
    if not text:
        return None
    hours, minutes, secs = (int(part) for part in text.split(":"))
    return hours * 3600 + minutes * 60 + secs


def date_of(text):
    return datetime.datetime.strptime(text, "%Y%m%d").date()


def services_of(feed, date):
    """The services that run on a date."""
    day, name = date.strftime("%Y%m%d"), WEEKDAYS[date.weekday()]
    found = {
        row["service_id"]
        for row in rows(feed, "calendar.txt")
        if row[name] == "1" and row["start_date"] <= day <= row["end_date"]
    }
    for row in rows(feed, "calendar_dates.txt"):
        if row["date"] == day:
            (found.add if row["exception_type"] == "1" else found.discard)(row["service_id"])
    return found


def with_times(calls):
    """Gives calls without times theirs: by equal shares between the nearest ones that have them."""
    for call in calls:
        call.arrival = call.departure if call.arrival is None else call.arrival
        call.departure = call.arrival if call.departure is None else call.departure
    timed = [at for at, call in enumerate(calls) if call.arrival is not None]
    for before, after in zip(timed, timed[1:]):
        begin, end = calls[before].departure, calls[after].arrival
        for at in range(before + 1, after):
            secs = begin + (end - begin) * (at - before) // (after - before)
            calls[at].arrival = calls[at].departure = secs
    return calls


def calls_of(feed, names):
    """The calls of trips that have two or more, in order and with times."""
    found = {name: [] for name in names}
    for row in rows(feed, "stop_times.txt"):
        if row["trip_id"] in found:
            times = (seconds_of(row[name]) for name in ("arrival_time", "departure_time"))
            call = Call(int(row["stop_sequence"]), row["stop_id"], *times)
            found[row["trip_id"]].append(call)
    return {
        name: with_times(sorted(calls, key=lambda call: call.sequence))
        for name, calls in found.items()
        if len(calls) > 1
    }


def starts_of(feed, names):
    """The starts of trips by frequency, in seconds."""
    found = {}
    for row in rows(feed, "frequencies.txt"):
        if row["trip_id"] in names:
            first, end = seconds_of(row["start_time"]), seconds_of(row["end_time"])
            starts = found.setdefault(row["trip_id"], set())
            starts.update(range(first, end, int(row["headway_secs"])))
    return found


class Schedule:
    """The trips with certain ids on some dates."""

    def __init__(self, feed, days, ids):
        for name in ("trips.txt", "stop_times.txt"):
            if not os.path.isfile(os.path.join(feed, name)):
                raise BenchError(f"{feed} has no {name}")
        try:
            rows_of_trips = [row for row in rows(feed, "trips.txt") if row["trip_id"] in ids]
            self.service = {row["trip_id"]: row["service_id"] for row in rows_of_trips}
            self.calls = calls_of(feed, self.service)
            self.starts = starts_of(feed, self.service)
            self.running = {day: services_of(feed, day) for day in days}
        except (KeyError, ValueError, TypeError) as error:
            raise BenchError(f"{feed} has a file that the program refuses: {error}") from None

    def trip(self, trip_id, day, start):
        """The trip with an id on a day, one by frequency with a start; None where there is none."""
        calls = self.calls.get(trip_id)
        if not calls or self.service[trip_id] not in self.running[day]:
            return None
        if trip_id not in self.starts:
            return Trip(trip_id, calls)
        if start not in self.starts[trip_id]:
            return None
        by = start - calls[0].departure
        moved = [Call(it.sequence, it.stop, it.arrival + by, it.departure + by) for it in calls]
        return Trip(f"{trip_id}#{clock(start)}", moved)


def zone_of(feed):
    """The time zone of a feed's agency."""
    try:
        import zoneinfo
    except ImportError:
        raise BenchError("times in place of delays need Python 3.9 or later") from None
    names = [row.get("agency_timezone") for row in rows(feed, "agency.txt")]
    try:
        return zoneinfo.ZoneInfo(names[0])
    except (IndexError, TypeError, ValueError, OSError, zoneinfo.ZoneInfoNotFoundError):
        raise BenchError("times in place of delays need an agency.txt with a time zone") from None


def day_begin(date, zone):
    """The second since 1970 at which a service day's times begin: noon less twelve hours."""
    noon = datetime.datetime.combine(date, datetime.time(12), zone)
    return round(noon.timestamp()) - DAY_SECONDS // 2
