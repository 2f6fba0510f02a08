"""A feed with the density of a real network.

Stations stand in a square grid, with two to six platforms each: as many as their routes need,
joined by footpaths. A route runs both ways over the same stations, by way of a hub, some 28 calls a
trip; each direction is a pattern of stops, with some 54 trips a weekday: more often in the two
peaks, when they are slower too, and seldom in the evening. No trip overtakes another of its
pattern. Where routes meet one can change, to some nine lines from an event. The same words give the
same bytes.

With the half `frequencies` every second route runs by rows of frequencies.txt: the times of one
trip a pattern and service, and the same number of departures a headway apart. With `written` the
same trips are written out, with `without` they are left out.
"""
import os
import random

from feeds.city import CALENDAR_HEADER, TIMES_HEADER, YEAR
from harness import clock, write_lines

HALVES = ("frequencies", "written", "without")

PATTERNS_PER_STATION = 0.15
CALLS = 28
FIRST_DEPARTURE = 5 * 3600
LAST_DEPARTURE = 24 * 3600
DWELL = 20
# Seconds between two platforms of a station: a stair, and a while for each platform between.
STAIR = 45
PLATFORM = 15
# Seconds between the platforms of two stations that one can walk between.
BETWEEN = 300
# Hours, and minutes from one departure to the next by then, of the timetable of each day and of
# weekdays.
EACH_DAY = ((7, 30), (20, 25), (24, 48))
PEAKS = ((7, 9), (16, 19))


def way(side, begin, end):
    """The stations from one to another: along one axis, then along the other."""
    (x, y), (to_x, to_y) = begin, end
    found = []
    across = random.random() < 0.5
    for axis in (0, 1):
        if (axis == 0) == across:
            while x != to_x:
                x += 1 if x < to_x else -1
                found.append(y * side + x)
        else:
            while y != to_y:
                y += 1 if y < to_y else -1
                found.append(y * side + x)
    return found


def route(side, hubs):
    """The stations of a route: from one by way of a hub to another, each at most once, some 28 of
    them.
    """
    while True:
        hub = random.choice(hubs)
        calls = CALLS + random.randrange(-6, 7)
        ends = []
        for part in (calls // 2, calls - calls // 2):
            across = random.randrange(part + 1)
            x = hub[0] + random.choice((-1, 1)) * across
            y = hub[1] + random.choice((-1, 1)) * (part - across)
            ends.append((x, y))
        if not all(0 <= x < side and 0 <= y < side for x, y in ends):
            continue
        begin, end = ends
        found = [begin[1] * side + begin[0], *way(side, begin, hub), *way(side, hub, end)]
        if len(set(found)) == len(found):
            return found


def stops(platforms):
    yield "stop_id,stop_name,location_type,parent_station"
    for station, count in enumerate(platforms):
        yield f"S{station},Station {station},1,"
        for platform in range(count):
            yield f"S{station}:{platform},Station {station} track {platform + 1},0,S{station}"


def transfers(side, platforms):
    yield "from_stop_id,to_stop_id,transfer_type,min_transfer_time"
    for station, count in enumerate(platforms):
        for one in range(count):
            for other in range(count):
                if one != other:
                    secs = STAIR + PLATFORM * abs(one - other)
                    yield f"S{station}:{one},S{station}:{other},2,{secs}"
        # every twentieth station and its neighbour, in pairs that share no station
        if station % 20 == 0 and station % side + 1 < side:
            yield f"S{station},S{station + 1},2,{BETWEEN}"
            yield f"S{station + 1},S{station},2,{BETWEEN}"


def crowd(secs):
    """How crowded a time is, from 0 to 1: it rises and falls within an hour at both ends of a peak.
    """
    hour = secs / 3600
    in_peak = (min(1.0, hour - first + 0.5, last + 0.5 - hour) for first, last in PEAKS)
    return max(max(0.0, share) for share in in_peak)


def departures(share):
    """Departures of a pattern with their services. The share says how often it runs: 1 as the
    tables above.
    """
    found = []
    secs = FIRST_DEPARTURE + random.randrange(1200)
    while secs < LAST_DEPARTURE:
        minutes = next(minutes for hour, minutes in EACH_DAY if secs < hour * 3600)
        gap = max(int(minutes * 60 / share), 240)
        found.append((secs, "ALL"))
        # one more between, on weekdays in a peak
        if any(first * 3600 <= secs < last * 3600 for first, last in PEAKS):
            found.append((secs + gap // 2, "WD"))
        secs += gap
    return found


def ride(legs, depart, crowded=True):
    """The times at which a trip arrives; it departs after a dwell. Legs take up to a quarter longer
    in a peak, where it's crowded.
    """
    secs = depart - DWELL
    yield secs
    for leg in legs:
        secs += DWELL
        secs += leg + (int(leg * crowd(secs) / 4) if crowded else 0)
        yield secs


def headways(departs):
    """Rows of frequencies.txt that give these departures: the first, a second behind the last, and
    the seconds between.
    """
    at = 0
    while at < len(departs):
        end = at + 1
        gap = departs[end] - departs[at] if end < len(departs) else 60
        while end < len(departs) and departs[end] - departs[end - 1] == gap:
            end += 1
        yield departs[at], departs[end - 1] + 1, gap
        at = end


class Trips:
    """Rows of trips.txt, stop_times.txt and frequencies.txt."""

    def __init__(self):
        self.trips = ["route_id,service_id,trip_id"]
        self.times = [TIMES_HEADER]
        self.frequencies = ["trip_id,start_time,end_time,headway_secs"]

    def add(self, pattern, service, name, calls, run):
        """A trip with these calls, platforms, and the times at which it arrives there."""
        trip = f"T{pattern}:{name}"
        last = len(calls) - 1
        self.trips.append(f"R{pattern.partition(':')[0]},{service},{trip}")
        for at, (secs, platform) in enumerate(zip(run, calls)):
            marks = f"{int(at == last)},{int(at == 0)}"
            times = f"{clock(secs)},{clock(secs + DWELL)}"
            self.times.append(f"{trip},{times},{platform},{at + 1},{marks}")

    def add_by_frequency(self, pattern, departs, calls, legs):
        """Of each service one trip, and the departures of a pattern by headways."""
        for service in sorted({service for _, service in departs}):
            found = [depart for depart, other in departs if other == service]
            self.add(pattern, service, service, calls, ride(legs, found[0], False))
            for first, end, gap in headways(found):
                self.frequencies.append(f"T{pattern}:{service},{clock(first)},{clock(end)},{gap}")


    def add_direction(self, pattern, departs, calls, legs, half):
        """The trips of a pattern, written as its half is: None is a half of its own, with peaks."""
        if half == "frequencies":
            self.add_by_frequency(pattern, departs, calls, legs)
        elif half != "without":
            for place, (depart, service) in enumerate(departs):
                self.add(pattern, service, place, calls, ride(legs, depart, half is None))


def platforms_of(routes, stations):
    """How many platforms each station has, by the number of routes that call there."""
    called = [0] * stations
    for route_stations in routes:
        for station in route_stations:
            called[station] += 1
    return [2 if count < 3 else 4 if count < 6 else 6 for count in called]


def trips_of(routes, platforms, half):
    """The trips of all routes, both ways."""
    trips = Trips()
    for number, stations in enumerate(routes):
        outward = [60 + random.randrange(90) for _ in stations[1:]]
        share = random.choice((0.6, 0.8, 1.0, 1.0, 1.3, 1.6))
        for direction in (0, 1):
            # each direction has half of the platforms, and a route has one of them
            calls = [
                f"S{station}:{number % (platforms[station] // 2) * 2 + direction}"
                for station in (stations if direction == 0 else reversed(stations))
            ]
            legs = outward if direction == 0 else outward[::-1]
            written = half if number % 2 else None
            trips.add_direction(f"{number}:{direction}", departures(share), calls, legs, written)
    return trips


def make(folder, patterns, seed=7, half=None):
    """Writes the feed of a network into a folder."""
    random.seed(seed)
    os.makedirs(folder, exist_ok=True)
    side = max(round((patterns / PATTERNS_PER_STATION) ** 0.5), 36)
    hubs = [(random.randrange(side), random.randrange(side)) for _ in range(max(patterns // 6, 4))]
    routes = [route(side, hubs) for _ in range(patterns // 2)]
    platforms = platforms_of(routes, side * side)
    trips = trips_of(routes, platforms, half)
    write_lines(folder, "stops.txt", stops(platforms))
    write_lines(folder, "transfers.txt", transfers(side, platforms))
    services = [f"ALL,1,1,1,1,1,1,1,{YEAR}", f"WD,1,1,1,1,1,0,0,{YEAR}"]
    write_lines(folder, "calendar.txt", [CALENDAR_HEADER, *services])
    write_lines(folder, "trips.txt", trips.trips)
    write_lines(folder, "stop_times.txt", trips.times)
    if half == "frequencies":
        write_lines(folder, "frequencies.txt", trips.frequencies)
