"""From trip updates of GTFS Realtime, in protobuf's JSON form, to the lines of a late file."""
import collections
import datetime

from schedule import DAY_SECONDS, Schedule, date_of, day_begin, seconds_of, zone_of

# The numbers of the relationships, which may stand in place of their names.
TRIP_RELATIONS = ["SCHEDULED", "ADDED", "UNSCHEDULED", "CANCELED", "", "REPLACEMENT"]
TRIP_RELATIONS += ["DUPLICATED", "DELETED", "NEW"]
STOP_RELATIONS = ["SCHEDULED", "SKIPPED", "NO_DATA", "UNSCHEDULED"]
LAST_TIME = 359_999
LONGEST_LINE = 1_024
# The relationships that a late file can't say, in words.
TRIPS = {
    "ADDED": "added trips",
    "NEW": "added trips",
    "DUPLICATED": "added trips",
    "REPLACEMENT": "replaced trips",
    "UNSCHEDULED": "unscheduled trips",
}
CANCELLED = ("CANCELED", "DELETED")
# What stands behind a line, by how many days after the date the trip's service day is.
DAY_WORDS = {-1: ["day-before"], 0: [], 1: ["day-after"], 2: ["day+2"]}


class Unsaid(Exception):
    """Why the late file doesn't have an update, in words that can be counted."""


def field(record, name, default=None):
    """A field by its name in JSON, `tripId`, or its name in protobuf, `trip_id`."""
    if name in record:
        return record[name]
    snake = "".join(f"_{letter.lower()}" if letter.isupper() else letter for letter in name)
    return record.get(snake, default)


def relation_of(record, names):
    found = field(record, "scheduleRelationship", "SCHEDULED")
    return names[found] if isinstance(found, int) and found < len(names) else str(found)


def quoted(name):
    """A word of a line, in quotes where it has to be."""
    if name and not set(name) & set(' \t"'):
        return name
    return '"{}"'.format(name.replace('"', '""'))


class Converter:
    """Makes the late file of a date with so many days, and counts what it can't say."""

    def __init__(self, feed, date, message, days=1):
        entities = field(message, "entity", [])
        updates = [field(entity, "tripUpdate") for entity in entities]
        self.updates = [update for update in updates if update]
        self.unsaid = collections.Counter()
        self.said = set()
        self.feed, self.date, self.zone = feed, date, None
        near = range(-1, days)
        self.days = {date + datetime.timedelta(days=after): after for after in near}
        ids = {field(field(update, "trip", {}), "tripId") for update in self.updates}
        self.schedule = Schedule(feed, self.days, ids)

    def lines(self):
        """The lines of the late file."""
        for update in self.updates:
            try:
                yield from self.lines_of(update)
            except Unsaid as why:
                self.unsaid[str(why)] += 1

    def lines_of(self, update):
        descriptor = field(update, "trip", {})
        day = self.day_of(descriptor)
        trip = self.trip_of(descriptor, day)
        if (trip.name, day) in self.said:
            raise Unsaid("second updates of a trip")
        self.said.add((trip.name, day))
        if relation_of(descriptor, TRIP_RELATIONS) in CANCELLED:
            said = [("cancel",)]
        else:
            said = self.said_of(update, trip, day)
        behind = DAY_WORDS[self.days[day]]
        lines = [" ".join([word, quoted(trip.name), *rest, *behind]) for word, *rest in said]
        if any("\n" in line or len(line.encode()) > LONGEST_LINE for line in lines):
            raise Unsaid("trips whose id doesn't fit into a line")
        return lines

    def said_of(self, update, trip, day):
        """What is said of a trip that runs, by words but for its name: delays, then skips."""
        moves, skipped = self.moves_of(update, trip, day)
        said, now = [], 0
        for at, move in enumerate(self.without_running_back(trip, moves)):
            if move != now:
                stop_beyond(trip, at, move, move - now, self.days[day] * DAY_SECONDS)
                said.append(("late", str(at), str(move - now)))
                now = move
        return said + [("skip", str(at)) for at in skipped]

    def day_of(self, descriptor):
        """The trip's service day."""
        text = field(descriptor, "startDate")
        day = date_of(text) if text else self.date
        if day not in self.days:
            raise Unsaid("trips of other days")
        return day

    def trip_of(self, descriptor, day):
        relation = relation_of(descriptor, TRIP_RELATIONS)
        if relation != "SCHEDULED" and relation not in CANCELLED:
            raise Unsaid(TRIPS.get(relation, f"trips with the relationship {relation}"))
        trip_id = field(descriptor, "tripId")
        if not trip_id:
            raise Unsaid("trips without an id")
        trip = self.schedule.trip(trip_id, day, seconds_of(field(descriptor, "startTime")))
        if trip is None or not is_shown(trip, self.days[day]):
            raise Unsaid("trips that the day doesn't have")
        return trip

    def stops_of(self, update, trip):
        """The updates of stops, by the number of the call that they are about."""
        found, next_call = {}, 0
        for stop in field(update, "stopTimeUpdate", []):
            call = call_of(stop, trip, next_call)
            if call is None:
                self.unsaid["stops at which the trip doesn't call"] += 1
                continue
            if field(field(stop, "stopTimeProperties", {}), "assignedStopId"):
                self.unsaid["calls at another platform"] += 1
            found[call], next_call = stop, call + 1
        return found

    def moves_of(self, update, trip, day):
        """By how many seconds each call is moved: as its update says, or else as the one before is
        left. A call whose arrival and departure are moved otherwise is moved as its arrival, the
        first one as its departure. And the calls that are skipped.
        """
        stops, last = self.stops_of(update, trip), len(trip.calls) - 1
        now = 0 if stops else int(field(update, "delay", 0))
        moves = []
        for at, call in enumerate(trip.calls):
            arrival, departure = self.delays_at(stops.get(at, {}), call, day, now)
            if arrival != departure and 0 < at < last:
                self.unsaid["calls left with another delay than they are reached with"] += 1
            moves.append(arrival if at else departure)
            now = departure
        skipped = [at for at, stop in stops.items() if is_skipped(stop)]
        return moves, sorted(skipped)

    def delays_at(self, stop, call, day, now):
        """The delays of arrival and departure at a call, where that before is left with `now`."""
        relation = relation_of(stop, STOP_RELATIONS)
        if relation == "NO_DATA":
            return 0, 0
        if relation != "SCHEDULED":
            if not is_skipped(stop):
                self.unsaid["unscheduled stops"] += 1
            return now, now
        arrival = self.delay_of(field(stop, "arrival", {}), call.arrival, day)
        departure = self.delay_of(field(stop, "departure", {}), call.departure, day)
        arrival = departure if arrival is None else arrival
        departure = arrival if departure is None else departure
        return (now, now) if arrival is None else (arrival, departure)

    def delay_of(self, event, scheduled, day):
        """The delay that an event has or that its time comes to; None where it has neither."""
        if "delay" in event:
            return int(event["delay"])
        if "time" not in event:
            return None
        self.zone = self.zone or zone_of(self.feed)
        return int(event["time"]) - day_begin(day, self.zone) - scheduled

    def without_running_back(self, trip, moves):
        """These moves, but that no call is reached before the one before it is left."""
        for at in range(1, len(moves)):
            left = trip.calls[at - 1].departure + moves[at - 1]
            if trip.calls[at].arrival + moves[at] < left:
                moves[at] = left - trip.calls[at].arrival
                self.unsaid["calls reached before the one before is left, moved to later"] += 1
        return moves


def is_skipped(stop):
    """Whether an update says that the trip doesn't stop there."""
    return relation_of(stop, STOP_RELATIONS) == "SKIPPED"


def call_of(stop, trip, first):
    """The number of the call that an update is about: by its sequence number, or else the next one
    at its stop. None where there is none.
    """
    sequence, stop_id = field(stop, "stopSequence"), field(stop, "stopId")
    for at, call in enumerate(trip.calls):
        if sequence is None and at >= first and call.stop == stop_id or call.sequence == sequence:
            return at
    return None


def is_shown(trip, after):
    """Whether the timetable shows a trip whose service day is so many days after the date."""
    last = trip.calls[-1]
    if after < 0:
        return last.arrival >= DAY_SECONDS
    return last.departure + after * DAY_SECONDS <= LAST_TIME


def stop_beyond(trip, at, move, by, later):
    """Stops where the program would refuse to move the calls of a trip from one on, which in the
    reckoning of the date are so many seconds later.
    """
    first, last = trip.calls[at].arrival + move + later, trip.calls[-1].departure + move + later
    if abs(by) > DAY_SECONDS or first < -DAY_SECONDS or last > LAST_TIME:
        raise Unsaid("trips moved by more than a day, or beyond the times of a day")
