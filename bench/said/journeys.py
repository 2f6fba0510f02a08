"""The timetable of a day and its best values, as docs/DEFINITIONS.md says, found the plain way: by
going over all trips again and again.
"""
import datetime
import typing

from harness import clock
from said.feeds import PLATFORM, STATION
from said.words import time_of

DAY = 86_400
LATEST = 359_999


class Trip(typing.NamedTuple):
    name: str
    # How many days after the date its service day is.
    day: int
    calls: list


def runs_on(feed, service, date):
    """Whether a service runs on a date, which is given by its eight digits."""
    marks = [fields[2] for fields in feed.dates if fields[:2] == [service, date]]
    if "1" in marks:
        return True
    day = datetime.date(int(date[:4]), int(date[4:6]), int(date[6:])).weekday()
    rows = [fields for fields in feed.calendar if fields[0] == service]
    return "2" not in marks and any(
        fields[1 + day] == "1" and fields[8] <= date <= fields[9] for fields in rows
    )


def with_times(calls):
    """The calls of a trip, with times where a row has none."""
    timed = [place for place, call in enumerate(calls) if call.arrival is not None]
    found = []
    for place, call in enumerate(calls):
        if call.arrival is None:
            before = max(it for it in timed if it < place)
            after = min(it for it in timed if it > place)
            left = calls[before].departure
            way = (calls[after].arrival - left) * (place - before) // (after - before)
            call = call._replace(arrival=left + way, departure=left + way)
        found.append(call)
    return found


def moved(calls, secs):
    return [it._replace(arrival=it.arrival + secs, departure=it.departure + secs) for it in calls]


def trips_of_day(feed, date):
    """The trips of a service day."""
    for service, trip in feed.trips:
        calls = feed.calls[trip]
        if len(calls) < 2 or not runs_on(feed, service, date):
            continue
        calls = with_times(calls)
        rows = [fields for fields in feed.frequencies if fields[0] == trip]
        for _, first, end, headway, _ in rows:
            for start in range(time_of(first), time_of(end), int(headway)):
                later = moved(calls, start - calls[0].departure)
                yield Trip(f"{trip}#{clock(start)}", 0, later)
        if not rows:
            yield Trip(trip, 0, calls)


def date_after(date, days):
    """The date so many days after another one, or None."""
    try:
        day = datetime.date(int(date[:4]), int(date[4:6]), int(date[6:])) + datetime.timedelta(days)
    except OverflowError:
        return None
    return f"{day.year:04}{day.month:02}{day.day:02}"


def is_shown(trip, day):
    """Whether the timetable of a date shows a trip of a service day."""
    last = trip.calls[-1]
    return last.arrival >= DAY if day < 0 else last.departure + day * DAY <= LATEST


def trips_of(feed, date, days):
    """The trips of the timetable of a date, with so many days."""
    trips = []
    for day in (*range(days), -1):
        day_date = date_after(date, day)
        for trip in trips_of_day(feed, day_date) if day_date else ():
            if is_shown(trip, day):
                trips.append(Trip(trip.name, day, moved(trip.calls, day * DAY)))
    return trips


class Options(typing.NamedTuple):
    """Those of the command line: the seconds of a change and within a station, None if there are
    none, whether footpaths are closed, and the number of days.
    """

    change: int = 0
    station: int = None
    close: bool = False
    days: int = 1


def parent_of(feed, stop):
    """The station of a platform, or None."""
    parent = feed.stops[stop][1]
    return parent if parent and feed.stops[parent][0] == STATION else None


def change_between(feed, options, p, q):
    """The seconds of a change from a platform to another or the same, or None."""
    ends = {p: 0, parent_of(feed, p): 1}, {q: 0, parent_of(feed, q): 1}
    fitting = []
    for one, other, kind, minimum, *_ in feed.transfers:
        if one in ends[0] and other in ends[1]:
            secs = int(minimum) if minimum else options.change
            secs = float("inf") if kind == "3" else secs
            fitting.append((ends[0][one] + ends[1][other], -secs))
    if fitting:
        secs = -min(fitting)[1]
        return None if secs == float("inf") else secs
    if p == q:
        return options.change
    if parent_of(feed, p) and parent_of(feed, p) == parent_of(feed, q):
        return options.station
    return None


def closed(changes, stops):
    """The least sums over chains."""
    found = dict(changes)
    for over in stops:
        for p in stops:
            for q in stops:
                if (p, over) in found and (over, q) in found:
                    secs = found[p, over] + found[over, q]
                    found[p, q] = min(secs, found.get((p, q), secs))
    return found


def law_fault(changes, stops):
    """The first fault of the law, as it is shown, or None."""
    for p in stops:
        for q in stops:
            for r in stops:
                if p == q or q == r or (p, q) not in changes or (q, r) not in changes:
                    continue
                if (p, r) not in changes:
                    return f"18 OpenFootpaths {p} {q} {r}"
                if changes[p, r] > changes[p, q] + changes[q, r]:
                    return f"19 LongFootpath {p} {q} {r}"
    return None


class Timetable:
    """The timetable of a day, or the fault of its footpaths."""

    def __init__(self, feed, date, options):
        self.stops = [stop for stop, (kind, _) in feed.stops.items() if kind in PLATFORM]
        self.parents = {stop: parent_of(feed, stop) for stop in self.stops}
        pairs = {
            (p, q): change_between(feed, options, p, q) for p in self.stops for q in self.stops
        }
        self.changes = {pair: secs for pair, secs in pairs.items() if secs is not None}
        self.trips, self.fault = trips_of(feed, date, options.days), None
        if options.close:
            self.changes = closed(self.changes, self.stops)
            far = [pair for pair in pairs if self.changes.get(pair, 0) > DAY]
            self.fault = f"22 FarFootpath {' '.join(far[0])}" if far else None
        else:
            self.fault = law_fault(self.changes, self.stops)

    def place(self, name):
        """The platforms that a name stands for: itself, or those of a station."""
        if name in self.parents:
            return [name]
        return [stop for stop in self.stops if self.parents[stop] == name]

    def walk(self, p, q):
        return 0 if p == q else self.changes.get((p, q))

    def access(self, origins, stop):
        """The seconds of the shortest walk to a stop from one of some."""
        found = (self.walk(it, stop) for it in origins)
        return min((secs for secs in found if secs is not None), default=None)

    def egress(self, targets, stop):
        """The seconds of the shortest walk from a stop to one of some."""
        found = (self.walk(stop, it) for it in targets)
        return min((secs for secs in found if secs is not None), default=None)

    def walks(self, origins, targets):
        """The seconds of the shortest walk, if there is one, in a list."""
        found = (self.egress(targets, stop) for stop in origins)
        return sorted(secs for secs in found if secs is not None)[:1]

    def arrival(self, alighted, targets):
        """The earliest arrival where rides end so, or None."""
        ends = ((at, self.egress(targets, stop)) for stop, at in alighted.items())
        return min((at + secs for at, secs in ends if secs is not None), default=None)

    def rounds(self, origins, time):
        """For each number of rides, from 1, the earliest end of a ride at each stop, by so many
        rides at most.
        """
        access = {stop: self.access(origins, stop) for stop in self.stops}
        ready = {stop: time + secs for stop, secs in access.items() if secs is not None}
        alighted = {}
        while True:
            found = dict(alighted)
            for trip in self.trips:
                boarded = False
                for call in trip.calls:
                    if boarded and call.alight:
                        found[call.stop] = min(call.arrival, found.get(call.stop, call.arrival))
                    on_time = ready.get(call.stop, float("inf")) <= call.departure
                    boarded = boarded or call.board and on_time
            if found == alighted:
                return
            yield found
            alighted = found
            for (p, q), secs in self.changes.items():
                if p in alighted:
                    ready[q] = min(alighted[p] + secs, ready.get(q, float("inf")))

    def values(self, origins, targets, time):
        """The best values of a query: pairs of an arrival and of rides, fewest rides first."""
        found = [(time + secs, 0) for secs in self.walks(origins, targets)]
        for rides, alighted in enumerate(self.rounds(origins, time), 1):
            arrival = self.arrival(alighted, targets)
            if arrival is not None and (not found or arrival < found[-1][0]):
                found.append((arrival, rides))
        return found

    def direct(self, origins, targets, time):
        """The earliest arrival by one ride, or None."""
        return self.arrival(next(self.rounds(origins, time), {}), targets)

    def leaving_times(self, origins):
        """When a journey with rides may leave, last time first."""
        walks = {stop: self.access(origins, stop) for stop in self.stops}
        calls = [call for trip in self.trips for call in trip.calls if call.board]
        known = [call for call in calls if walks[call.stop] is not None]
        return sorted({call.departure - walks[call.stop] for call in known}, reverse=True)

    def slots(self, origins, targets, first, last):
        """The slots of a window, last leaving time first, and of equal ones fewest rides first."""
        kept = []
        for leave in self.leaving_times(origins):
            if leave < first:
                break
            values = self.values(origins, targets, leave)
            kept += [
                (leave, arrival, rides)
                for arrival, rides in values
                if rides and all(arrival < a or rides < k for _, a, k in kept)
            ]
        return [slot for slot in kept if slot[0] <= last]

    def latest(self, origins, targets, by):
        """The latest departures that arrive by a time, fewest rides first."""
        found = [(by - secs, 0) for secs in self.walks(origins, targets)]
        for leave in self.leaving_times(origins):
            for arrival, rides in self.values(origins, targets, leave):
                if rides and arrival <= by and all(leave > at or rides < k for at, k in found):
                    found.append((leave, rides))
        return sorted(found, key=lambda it: it[1])
