"""Feeds and scripts just at a limit of the program, and just past it."""
import os

from feeds import smallest

GIGABYTE = 1_073_741_824


def rows_of_times(folder, more):
    """20,000,000 rows, of trips that don't run, and so many more."""
    extra = ["t0,9:00:00,,A,1000\n"] * more

    def rows():
        yield from smallest.times_of(400_000, 50)
        yield from extra

    smallest.make(folder, trips=(f"X,t{n}\n" for n in range(400_000)), times=rows())


def write_trips(folder, count, calls):
    """A feed with so many trips that run, of so many calls each."""
    trips = (f"S,t{n}\n" for n in range(count))
    smallest.make(folder, trips=trips, times=smallest.times_of(count, calls))


def events_of_day(folder, more):
    """10,000,000 events of the day, and those of so many trips more."""
    write_trips(folder, 200_000 + more, 50)


def running_trips(folder, more):
    """500,000 trips of the day, and so many more."""
    write_trips(folder, 500_000 + more, 2)


def bytes_of_file(folder, more):
    """A stops.txt of 1,073,741,824 bytes and so many more, most of them in a column that nobody
    reads.
    """
    smallest.make(folder)
    with open(os.path.join(folder, "stops.txt"), "wb") as file:
        file.write(b"stop_id,note\n")
        row = b"x" * 1_048_560
        names = (f"{'AB'[n] if n < 2 else 'N' + str(n)},".encode() for n in range(1100))
        left = GIGABYTE + more - file.tell()
        for name in names:
            line = name + row[: max(0, left - len(name) - 1)] + b"\n"
            if left < 1_000_000:
                file.write(b"\n" * left)
                break
            file.write(line)
            left -= len(line)


def stops(folder, more):
    """100,000 rows of stops.txt, and so many more."""
    smallest.make(folder, "stop_id\nA\nB\n" + "".join(f"P{n}\n" for n in range(99_998 + more)))


def footpaths(folder, more):
    """Stations whose platforms an option joins each to each, 2,000,000 footpaths in all, and so
    many stations of two platforms.
    """
    sizes = [101] * 198 + [14, 4, 3] + [2] * more
    rows = "stop_id,location_type,parent_station\nA,,\nB,,\n"
    for station, size in enumerate(sizes):
        rows += f"S{station},1,\n" + "".join(f"S{station}:{n},,S{station}\n" for n in range(size))
    smallest.make(folder, rows)


def rows_of_transfers(folder, more):
    """2,000,000 rows of transfers.txt, each a footpath, between the stops of groups of 22 and
    between A and B, and so many more.
    """

    def rows():
        for group in range(4329):
            for one in range(22):
                others = (other for other in range(22) if one != other)
                yield from (f"P{group}:{one},P{group}:{other},2,60\n" for other in others)
        yield "A,B,2,600\nB,A,2,600\n"
        yield from (f"P0:0,P1:{other},2,60\n" for other in range(more))

    ids = "".join(f"P{group}:{one}\n" for group in range(4329) for one in range(22))
    smallest.make(folder, f"stop_id\nA\nB\n{ids}", transfers=rows())


def lanes(more):
    """64 lanes, and so many more."""
    return "".join(f"lane {n}\nask A B 08:00:00\n" for n in range(64 + more))


def requests(more):
    """20,000 requests in 64 lanes, and so many more."""
    script = "".join(f"lane {n}\n" + "ask A B 08:00:00\n" * 312 for n in range(64))
    return script + "ask A B 08:00:00\n" * (20_000 - 64 * 312 + more)


def bytes_of_script(more):
    """A script of 33,554,432 bytes and so many more, most of them in remarks."""
    script = "lane a\nask A B 08:00:00\n"
    left = 33_554_432 + more - len(script)
    return script + ("#" * 1000 + "\n") * (left // 1001) + "#" * (left % 1001)


# Each writes the feed into a folder that has so many more than the limit.
FEEDS = {
    "stops": stops,
    "running_trips": running_trips,
    "events": events_of_day,
    "rows_of_times": rows_of_times,
    "bytes": bytes_of_file,
    "footpaths": footpaths,
    "rows_of_transfers": rows_of_transfers,
}
# The options with which a feed meets its limit.
OPTIONS = {"footpaths": ["--station", "60"]}
# Each gives the script that has so many more than the limit.
SCRIPTS = {"lanes": lanes, "requests": requests, "bytes_of_script": bytes_of_script}
