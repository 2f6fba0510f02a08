"""The feed of a made city.

Stations with two platforms each stand in a square grid. Lines wander over it, 100 trips each, about
23 calls a trip. There are services by weekday with exceptions, rows without times, marks of
boarding and alighting, and transfers that keep the footpath law. The same words give the same
bytes.
"""
import os
import random

from harness import clock, write_lines

TIMES_HEADER = (
    "trip_id,arrival_time,departure_time,stop_id,stop_sequence,pickup_type,drop_off_type"
)
DAYS = "monday,tuesday,wednesday,thursday,friday,saturday,sunday"
CALENDAR_HEADER = f"service_id,{DAYS},start_date,end_date"
YEAR = "20260101,20261231"

TRIPS_PER_LINE = 100
TRIPS_PER_STATION = 20
CALLS = 25
FIRST_DEPARTURE = 5 * 3600
HEADWAY = 600
DWELL = 20
# The two platforms of a station, and the platforms of two stations that one can walk between.
ACROSS = 90
BETWEEN = 300


def stops(side):
    yield "stop_id,stop_name,location_type,parent_station"
    for station in range(side * side):
        yield f"S{station},Station {station},1,"
        yield f"S{station}:1,Station {station} track 1,0,S{station}"
        yield f"S{station}:2,Station {station} track 2,,S{station}"


def transfers(side):
    yield "from_stop_id,to_stop_id,transfer_type,min_transfer_time"
    for station in range(side * side):
        for one, other in ((1, 2), (2, 1)):
            yield f"S{station}:{one},S{station}:{other},2,{ACROSS}"
        # every tenth station and its neighbour, in pairs that share no station
        if station % 10 == 0 and station % side + 1 < side:
            yield f"S{station},S{station + 1},2,{BETWEEN}"
            yield f"S{station + 1},S{station},2,{BETWEEN}"


def path(side):
    """The stations of a line: it goes on, or turns, and stays in the grid."""
    x, y = random.randrange(side), random.randrange(side)
    dx, dy = random.choice(((1, 0), (-1, 0), (0, 1), (0, -1)))
    found = []
    while len(found) < CALLS + random.randrange(-5, 6) or len(found) < 2:
        found.append(y * side + x)
        if random.random() < 0.2:
            dx, dy = random.choice(((dy, dx), (-dy, -dx)))
        if not 0 <= x + dx < side:
            dx, dy = 0, random.choice((1, -1))
        if not 0 <= y + dy < side:
            dx, dy = random.choice((1, -1)), 0
        if 0 <= x + dx < side and 0 <= y + dy < side:
            x, y = x + dx, y + dy
    return found


def stop_times(lines, trips):
    yield f"{TIMES_HEADER},timepoint"
    for trip in range(trips):
        line = lines[trip // TRIPS_PER_LINE]
        track = 1 + trip % 2
        secs = FIRST_DEPARTURE + trip % TRIPS_PER_LINE * HEADWAY + random.randrange(300)
        last = len(line) - 1
        for place, station in enumerate(line if track == 1 else reversed(line)):
            board = 1 if place == last or random.random() < 0.01 else 0
            alight = 1 if place == 0 or random.random() < 0.01 else 0
            timed = place in (0, last) or random.random() < 0.9
            times = f"{clock(secs)},{clock(secs + DWELL)}" if timed else ","
            yield f"T{trip},{times},S{station}:{track},{place + 1},{board},{alight},{int(timed)}"
            secs += DWELL + 60 + random.randrange(60)


def side_of(trips):
    """The stations of a side of the grid."""
    return max(round((trips / TRIPS_PER_STATION) ** 0.5), 3)


def make(folder, trips, seed=7):
    """Writes the feed of a city into a folder."""
    random.seed(seed)
    os.makedirs(folder, exist_ok=True)
    side = side_of(trips)
    lines = [path(side) for _ in range(-(-trips // TRIPS_PER_LINE))]
    services = random.choices(("WD", "SA", "SU"), (8, 1, 1), k=trips)
    write_lines(folder, "stops.txt", stops(side))
    write_lines(folder, "transfers.txt", transfers(side))
    days = {"WD": "1,1,1,1,1,0,0", "SA": "0,0,0,0,0,1,0", "SU": "0,0,0,0,0,0,1"}
    calendar = (f"{service},{marks},{YEAR}" for service, marks in days.items())
    write_lines(folder, "calendar.txt", [CALENDAR_HEADER, *calendar])
    exceptions = ["service_id,date,exception_type", "WD,20260406,2", "SU,20260406,1"]
    write_lines(folder, "calendar_dates.txt", exceptions)
    rows = (f"R{trip // TRIPS_PER_LINE},{services[trip]},T{trip}" for trip in range(trips))
    write_lines(folder, "trips.txt", ["route_id,service_id,trip_id", *rows])
    write_lines(folder, "stop_times.txt", stop_times(lines, trips))
