"""Small feeds by chance."""
from harness import DAY, clock

TIMES = "trip_id,arrival_time,departure_time,stop_id,stop_sequence,pickup_type,drop_off_type"
MARKS = ("", "", "", "", "0", "1", "2", "3")
KINDS = ("2", "2", "2", "2", "0", "", "3", "1", "5")
BEGIN, SPAN = 6 * 3600, 3 * 3600
DAY_BEGIN = 22 * 3600


def text(header, rows):
    return "".join(f"{row}\n" for row in (header, *rows)).encode()


def stops(drawn, names):
    stations = ["X", "Y"][: drawn.randrange(3)]
    rows = [f"{name},,{drawn.choice(['', *stations])}" for name in names]
    rows += [f"{station},1," for station in stations]
    drawn.shuffle(rows)
    return text("stop_id,location_type,parent_station", rows), stations


def calls(drawn, trip, names):
    """The rows of a trip, some of them without times."""
    time = drawn.choice((BEGIN, BEGIN, BEGIN, DAY_BEGIN)) + drawn.randrange(SPAN) // 60 * 60
    count = drawn.choice((2, 2, 3, 4, 6))
    for place in range(count):
        arrival, departure = clock(time), clock(time + drawn.choice((0, 0, 30, 120)))
        if 0 < place < count - 1 and drawn.random() < 0.2:
            arrival = departure = ""
        marks = f"{drawn.choice(MARKS)},{drawn.choice(MARKS)}"
        yield f"{trip},{arrival},{departure},{drawn.choice(names)},{place},{marks}"
        time += drawn.choice((120, 300, 600, 1200))


def feed(drawn):
    """The files of a feed by their names."""
    names = "ABCDEFG"[: drawn.randrange(2, 8)]
    stop_rows, stations = stops(drawn, names)
    trips = [f"T{i}" for i in range(drawn.randrange(1, 12))]
    places = [*names, *stations]
    pairs = [drawn.choices(places, k=2) for _ in range(drawn.choice((0, 0, 2, 5)))]
    transfers = [
        f"{p},{q},{drawn.choice(KINDS)},{drawn.randrange(20) * 30}"
        for p, q in sorted(set(map(tuple, pairs)))
    ]
    services = [f"{drawn.choice(('S', 'S', 'S', 'Z'))},{trip}" for trip in trips]
    times = [row for trip in trips for row in calls(drawn, trip, names)]
    dates = [f"S,{DAY},1", "S,20260301,1", f"Z,{DAY},{drawn.choice('12')}", "Z,20260303,1"]
    return {
        "stops.txt": stop_rows,
        "calendar_dates.txt": text("service_id,date,exception_type", dates),
        "trips.txt": text("service_id,trip_id", services),
        "stop_times.txt": text(TIMES, times),
        "transfers.txt": text("from_stop_id,to_stop_id,transfer_type,min_transfer_time", transfers),
    }
