"""Feeds of shapes that are made to cost time, with the files that some commands read beside them.
Each function writes one into a folder, of a size that grows with n.
"""
import os
import typing

from feeds import collisions, lines, smallest
from harness import DAY, clock, write

DAYS = "monday,tuesday,wednesday,thursday,friday,saturday,sunday"


class Shape(typing.NamedTuple):
    """What writes a shape into a folder, at which n it is a good deal but no trouble, and the name
    of the command that meets what is dear in it, of those in commands.hostile_shapes.
    """

    make: typing.Callable
    size: int
    command: str = "direct"


def feed(folder, **files):
    """The smallest feed, with other texts of some of its files."""
    smallest.make(folder)
    for name, text in files.items():
        write(folder, f"{name}.txt", text)


def one_long_line(folder, n):
    feed(folder, stop_times=smallest.TIMES + "x" * (100 * n))


def one_long_field_in_quotes(folder, n):
    feed(folder, stop_times=smallest.TIMES + '"' + "x" * (100 * n) + '",8:00:00,,A,1\n')


def quotes(folder, n):
    feed(folder, stop_times=smallest.TIMES + '"' * (100 * n) + "\n")


def quotes_that_open_and_close(folder, n):
    feed(folder, stop_times=smallest.TIMES + '"a",' * (25 * n) + "\n")


def commas(folder, n):
    feed(folder, stop_times=smallest.TIMES + "," * (100 * n) + "\n")


def columns(folder, n):
    header = ",".join(f"c{i}" for i in range(n))
    feed(folder, stop_times=header + "," + smallest.TIMES + "," * n + "t0,8:00:00,,A,1\n")


def columns_of_one_name(folder, n):
    feed(folder, stop_times="trip_id," * n + smallest.TIMES + "," * n + "t0,8:00:00,,A,1\n")


def columns_in_each_row(folder, n):
    """A thousand columns that nobody reads, in each row."""
    names = ",".join(f"c{i}" for i in range(1000))
    row = "t0,8:00:00,,A,1" + "," * 1000 + "\n"
    feed(folder, stop_times=f"{smallest.TIMES.strip()},{names}\n" + row * (n // 10))


def line_ends(folder, n):
    feed(folder, stop_times=smallest.TIMES + "\n" * (100 * n))


def blanks(folder, n):
    feed(folder, stop_times=smallest.TIMES + " " * (100 * n) + "\n")


def no_bytes_but_zero(folder, n):
    feed(folder, stop_times=smallest.TIMES + "\0" * (100 * n))


def equal_ids(folder, n):
    feed(folder, trips="service_id,trip_id\n" + "S,t0\n" * (2 * n))


def equal_transfers(folder, n):
    rows = "A,B,2,60\n" * (2 * n)
    feed(folder, transfers=smallest.TRANSFERS + rows)


def long_ids(folder, n):
    """Ids of ten thousand bytes that differ in the last ones."""
    front = "x" * 10_000
    feed(folder, stops="stop_id\nA\nB\n" + "".join(f"{front}{i}\n" for i in range(n // 100)))


def one_trip(folder, n):
    """A trip with all rows, the last one first."""
    rows = (f"t0,{clock(i // 16)},,{'AB'[i % 2]},{i}\n" for i in reversed(range(2 * n)))
    feed(folder)
    smallest.write_rows(folder, "stop_times.txt", smallest.TIMES, rows)


def one_trip_without_times(folder, n):
    """A trip with all rows, of which only the first and the last have times."""
    times = {i: clock(i // 8) for i in (0, 2 * n - 1)}
    rows = (f"t0,{times.get(i, '')},,{'AB'[i % 2]},{i}\n" for i in range(2 * n))
    feed(folder)
    smallest.write_rows(folder, "stop_times.txt", smallest.TIMES, rows)


def calendar_for_each_trip(folder, n):
    """A service for each trip, each with a row that adds it."""
    count = n // 2
    trips = (f"s{i},t{i}\n" for i in range(count))
    smallest.make(folder, trips=trips, times=smallest.times_of(count, 2))
    dates = (f"s{i},{DAY},1\n" for i in range(count))
    smallest.write_rows(folder, "calendar_dates.txt", smallest.DATES, dates)


def exceptions_of_one_service(folder, n):
    """A service with a row for each day of some thousands of years."""
    days = (f"{1000 + i // 336}{i // 28 % 12 + 1:02}{i % 28 + 1:02}" for i in range(2 * n))
    dates = [*(f"S,{day},1\n" for day in days), smallest.RUNS]
    smallest.make(folder)
    smallest.write_rows(folder, "calendar_dates.txt", smallest.DATES, dates)


def stations_behind_their_platforms(folder, n):
    """Platforms whose stations all stand in later rows."""
    rows = "".join(f"P{i},,S{i}\n" for i in range(n)) + "".join(f"S{i},1,\n" for i in range(n))
    feed(folder, stops=f"stop_id,location_type,parent_station\nA,,\nB,,\n{rows}")


def parents_in_a_chain(folder, n):
    """Each stop names the next one as its parent, and the last one that isn't there: what is left
    lacks one more stop, again and again.
    """
    parents(folder, (i + 1 for i in range(n)))


def parents_in_a_chain_back(folder, n):
    """The same, but each names the one before it."""
    parents(folder, range(-1, n - 1))


def parents_in_a_tree(folder, n):
    """Each stop names one of the ten before it, so that many lack their parents at a time."""
    parents(folder, (i - 1 - i * i % 16 for i in range(n)))


def parents(folder, numbers):
    """Each stop names the one with a number as its parent."""
    rows = "".join(f"P{i},P{number}\n" for i, number in enumerate(numbers))
    feed(folder, stops=f"stop_id,parent_station\nA,\nB,\n{rows}")


def platforms_of_one_station(folder, n):
    """Which an option joins each to each."""
    rows = "".join(f"P{i},,S\n" for i in range(int(n**0.5)))
    feed(folder, stops=f"stop_id,location_type,parent_station\nA,,\nB,,\nS,1,\n{rows}")


def services(folder, n):
    """A row of calendar.txt each."""
    rows = "".join(f"S{i},1,1,1,1,1,1,1,20260101,20261231\n" for i in range(n))
    feed(folder, calendar=f"service_id,{DAYS},start_date,end_date\n{rows}")


def starts_of_one_trip(folder, n):
    """A row of frequencies.txt for each start."""
    rows = "".join(f"t0,{clock(i // 8)},{clock(i // 8 + 1)},1\n" for i in range(n))
    feed(folder, frequencies=f"trip_id,start_time,end_time,headway_secs\n{rows}")


def faults_of_one_trip(folder, n):
    """A row of frequencies.txt each, of a trip that starts by none of them."""
    feed(folder, frequencies="trip_id,start_time,end_time,headway_secs\n" + "t0,x,,\n" * n)


def faults_of_each_file(folder, n):
    """Rows with a fault, and what a check warns of: services that aren't there, stops where nothing
    calls.
    """
    feed(
        folder,
        stops="stop_id,location_type\nA,\nB,\n" + "C,9\n" * n + stops_of(n),
        calendar=f"service_id,{DAYS},start_date,end_date\n" + "S,9,1,1,1,1,1,1,x,\n" * n,
        calendar_dates=smallest.DATES + smallest.RUNS + "S,20260230,1\n" * n,
        trips="service_id,trip_id\nS,t0\n" + "S,\n" * n + "".join(f"X,x{i}\n" for i in range(n)),
        stop_times=smallest.TIMES + "t0,8:00:00,,A,1\nt0,8:01:00,,B,2\n" + "y,8:00:00,,A,1\n" * n,
        transfers=smallest.TRANSFERS + "A,Y,2,60\n" * n,
        frequencies="trip_id,start_time,end_time,headway_secs\n" + "y,8:00:00,9:00:00,1\n" * n,
    )


def trips_with_a_fault(folder, n):
    """A third of the trips each calls at no stop that is there, repeats a number, runs back."""
    seconds = "9:00:00,,X,1", "9:00:00,,B,0", "7:00:00,,B,1"
    rows = (f"t{i},8:00:00,,A,0\nt{i},{seconds[i % 3]}\n" for i in range(n))
    smallest.make(folder, trips=(f"S,t{i}\n" for i in range(n)), times=rows)


def one_row_of_many_starts(folder, n):
    """A trip of a hundred calls that starts every second."""
    one_row_of_starts(folder, n, (f"t0,{clock(i)},,{'AB'[i % 2]},{i}\n" for i in range(100)))


def one_row_of_starts(folder, n, times=None):
    """A trip that starts every second, so many times."""
    smallest.make(folder, times=times)
    row = f"t0,0:00:00,{clock(n)},1\n"
    write(folder, "frequencies.txt", f"trip_id,start_time,end_time,headway_secs\n{row}")


def chain_of_footpaths(folder, n):
    """Footpaths from each stop to the next, which are to be closed: each pair is joined then."""
    rows = "".join(f"P{i},P{i + 1},2,1\n" for i in range(n))
    feed(folder, stops=f"stop_id\nA\nB\n{stops_of(n + 1)}", transfers=smallest.TRANSFERS + rows)


def footpaths_between_all(folder, n):
    """Footpaths from each of some stops to each."""
    side = range(int(n**0.5))
    rows = "".join(f"P{i},P{j},2,60\n" for i in side for j in side if i != j)
    stops = f"stop_id\nA\nB\n{stops_of(len(side))}"
    feed(folder, stops=stops, transfers=smallest.TRANSFERS + rows)


def stops_of(count):
    return "".join(f"P{i}\n" for i in range(count))


def trips_of_one_ride(folder, stops, rides):
    """A, B and so many other stops, and a trip for each ride: its number, when and where it begins,
    when and where it ends.
    """
    rides = list(rides)
    times = (
        f"t{trip},{clock(departure)},,{start},0\nt{trip},{clock(arrival)},,{end},1\n"
        for trip, departure, start, arrival, end in rides
    )
    trips = (f"S,t{i}\n" for i in range(len(rides)))
    smallest.make(folder, f"stop_id\nA\nB\n{stops_of(stops)}", trips, times)


def chain_of_trips(folder, n):
    """From A to B leads a chain of trips of two stops each, and no other way."""
    stops = ["A", *(f"P{i}" for i in range(n - 1)), "B"]
    rides = ((i, 28_800 + i, stops[i], 28_801 + i, stops[i + 1]) for i in range(n))
    trips_of_one_ride(folder, n - 1, rides)


def ways_side_by_side(folder, n):
    """From A to B lead ways of two rides each, every one by a stop of its own, a second later."""
    rides = (
        ride
        for i in range(n)
        for ride in (
            (i, 28_800 + i, "A", 28_900 + i, f"P{i}"),
            (n + i, 29_000 + i, f"P{i}", 29_100 + i, "B"),
        )
    )
    trips_of_one_ride(folder, n, rides)


def values_of_more_rides(folder, n):
    """From each stop of a chain of trips leads one to B, which arrives the earlier the later one
    changes to it.
    """
    rides = (
        ride
        for i in range(n)
        for ride in (
            (i, 28_800 + i, f"P{i}" if i else "A", 28_801 + i, f"P{i + 1}"),
            (n + i, 28_801 + i, f"P{i + 1}", 300_000 - i, "B"),
        )
    )
    trips_of_one_ride(folder, n + 1, rides)


def stations_of_many_platforms(folder, n):
    """A and B are stations, and a trip leads from each platform of the one to one of the other."""
    platforms = "".join(f"{name}{i},,{name}\n" for name in "AB" for i in range(n))
    stops = f"stop_id,location_type,parent_station\nA,1,\nB,1,\n{platforms}"
    times = (
        f"t{i},{8 + call}:00:00,,{'AB'[call]}{i},{call}\n" for i in range(n) for call in (0, 1)
    )
    smallest.make(folder, stops, (f"S,t{i}\n" for i in range(n)), times)


def claim_of_nothing(folder, n):
    """Between two such stations."""
    stations_of_many_platforms(folder, n)
    write(folder, "claim", "arrive 08:00:00 rides 0\n")


def lines_at_one_stop(folder, n):
    """As many lines end at a stop as begin there, and one can change from each to each."""
    rides = (
        ride
        for i in range(n)
        for ride in (
            (i, 6 * 3_600, f"P{i}", 7 * 3_600, "A"),
            (n + i, 8 * 3_600, "A", 9 * 3_600, f"P{i}"),
        )
    )
    trips_of_one_ride(folder, n, rides)


def stop_ids_that_collide(folder, n):
    feed(folder, stops="stop_id\nA\nB\n" + "".join(f"{name}\n" for name in collisions.names(n)))


def station_ids_that_collide(folder, n):
    """Each with a platform."""
    names = collisions.names(n)
    stations = "".join(f"{name},1,\n" for name in names)
    platforms = "".join(f"P{i},,{name}\n" for i, name in enumerate(names))
    feed(folder, stops=f"stop_id,location_type,parent_station\nA,,\nB,,\n{stations}{platforms}")


def trip_ids_that_collide(folder, n):
    """Trips that run, with two rows each."""
    names = collisions.names(n)
    rows = (f"{name},{8 + call}:00:00,,{'AB'[call]},{call}\n" for name in names for call in (0, 1))
    smallest.make(folder, trips=(f"S,{name}\n" for name in names), times=rows)


def late_trips_whose_ids_collide(folder, n):
    """The same, one of which is late."""
    trip_ids_that_collide(folder, n)
    write(folder, "late", f"late {collisions.names(n)[-1]} 0 60\n")


def claim_on_trips_whose_ids_collide(folder, n):
    """The same, with rides on the last of them."""
    trip_ids_that_collide(folder, n)
    ride = f"ride {collisions.names(n)[-1]} A 08:00:00 B 09:00:00\n"
    write(folder, "claim", f"arrive 09:00:00 rides {n // 10}\n" + ride * (n // 10))


def service_ids_that_collide(folder, n):
    """Each with a row that adds it, and a trip."""
    names = collisions.names(n)
    smallest.make(folder, trips=(f"{name},t{i}\n" for i, name in enumerate(names)))
    dates = (f"{name},{DAY},1\n" for name in names)
    smallest.write_rows(folder, "calendar_dates.txt", smallest.DATES, dates)


def calendar_ids_that_collide(folder, n):
    rows = "".join(f"{name},1,1,1,1,1,1,1,20260101,20261231\n" for name in collisions.names(n))
    feed(folder, calendar=f"service_id,{DAYS},start_date,end_date\n{rows}")


def transfers_that_collide(folder, n):
    """Rows that forbid a way, between pairs of stops."""
    count, pairs = collisions.pairs(n)
    names = ["A", "B", *(f"P{i}" for i in range(count - 2))]
    rows = "".join(f"{names[i]},{names[j]},3,\n" for i, j in pairs)
    feed(folder, stops="stop_id\n" + "\n".join(names), transfers=smallest.TRANSFERS + rows)


def sequences_that_collide(folder, n):
    """Rows of some trips, the first two not in order."""
    keys = collisions.sequences(n)
    keys[:2] = keys[1::-1]
    trips = [f"X,t{i}\n" for i in range(keys[-1][0] + 1)]
    rows = (f"t{trip},8:00:00,,A,{number}\n" for trip, number in keys)
    smallest.make(folder, trips=trips, times=rows)


def lates_of_one_trip(folder, n):
    """As many delays of a trip as it has calls, each of which moves it from its start on."""
    times = (f"t0,{clock(i // 8)},,{'AB'[i % 2]},{i}\n" for i in range(n))
    smallest.make(folder, times=times)
    write(folder, "late", "late t0 0 0\n" * n)


def lates_of_each_call(folder, n):
    """A delay from each call of a trip on, from the last one back."""
    times = (f"t0,{clock(i // 8)},,{'AB'[i % 2]},{i}\n" for i in range(n))
    smallest.make(folder, times=times)
    write(folder, "late", "".join(f"late t0 {i} 1\n" for i in reversed(range(n))))


def cancels_of_one_trip(folder, n):
    """A trip is cancelled as often as it has calls."""
    times = (f"t0,{clock(i // 8)},,{'AB'[i % 2]},{i}\n" for i in range(n))
    smallest.make(folder, times=times)
    write(folder, "late", "cancel t0\n" * n)


def lates_of_many_trips(folder, n):
    """A delay of each trip."""
    smallest.make(folder, trips=(f"S,t{i}\n" for i in range(n)), times=smallest.times_of(n, 2))
    write(folder, "late", "".join(f"late t{i} 0 60\n" for i in range(n)))


def remarks_of_a_late_file(folder, n):
    feed(folder)
    write(folder, "late", "#\n" * n)


def requests_of_a_script(folder, n):
    feed(folder)
    write(folder, "script", "lane a\n" + "ask A B 08:00:00\n" * n)


def requests_of_long_names(folder, n):
    """Each for a stop that isn't there, with a name of some hundred quotes."""
    feed(folder)
    name = '"' + '""' * 490 + '"'
    write(folder, "script", "lane a\n" + f"ask {name} B 08:00:00\n" * n)


def remarks_of_a_script(folder, n):
    feed(folder)
    write(folder, "script", "lane a\nask A B 08:00:00\n" + "#\n" * n)


def lines_of_live(folder, n):
    feed(folder)
    write(folder, "script", "ask A B 08:00:00\n" * n)


def lines_of_live_of_long_names(folder, n):
    """Each for a stop that isn't there, with a name of some hundred quotes."""
    feed(folder)
    name = '"' + '""' * 490 + '"'
    write(folder, "script", f"ask {name} B 08:00:00\n" * n)


def lines_of_live_without_words(folder, n):
    feed(folder)
    write(folder, "script", "\n" * n)


def lines_of_live_that_are_refused(folder, n):
    feed(folder)
    write(folder, "script", "x\n" * n)


def one_line_of_live(folder, n):
    feed(folder)
    write(folder, "script", "x" * (100 * n))


def publications_of_live(folder, n):
    """Of one day, and a request behind each."""
    feed(folder)
    write(folder, "script", f"publish {folder}@{DAY}\nask A B 08:00:00\n" * n)


def updates_of_live(folder, n):
    """Of one day, and a request behind each."""
    feed(folder)
    write(folder, "late", "late t0 0 60\n")
    write(folder, "script", f"late {folder}/late\nask A B 08:00:00\n" * n)


def origins(folder, n):
    feed(folder)
    write(folder, "origins", "A\n" * n)


def origins_of_long_names(folder, n):
    """None of which is there, each of some hundred quotes."""
    feed(folder)
    write(folder, "origins", ('"' + '""' * 490 + '"\n') * n)


def remarks_between_origins(folder, n):
    feed(folder)
    write(folder, "origins", "A\n" + "#\n" * n)


def rides_of_a_claim(folder, n):
    """Rides on the last of as many trips."""
    smallest.make(folder, trips=(f"S,t{i}\n" for i in range(n)), times=smallest.times_of(n, 2))
    ride = f"ride t{n - 1} A 08:00:00 B 08:01:00\n"
    write(folder, "claim", f"arrive 08:01:00 rides {n}\n" + ride * n)


def rides_of_a_claim_on_one_trip(folder, n):
    """Rides on a trip with as many calls, from the first to the last of them."""
    times = (f"t0,{clock(i)},,{'AB'[i % 2]},{i}\n" for i in range(2 * n))
    smallest.make(folder, times=times)
    ride = f"ride t0 A 00:00:00 B {clock(2 * n - 1)}\n"
    write(folder, "claim", f"arrive 08:01:00 rides {n}\n" + ride * n)


def rides_of_a_claim_at_one_time(folder, n):
    """Rides from the last but one to the last of as many stops where a trip calls at one time."""
    times = (f"t0,08:00:00,,P{i},{i}\n" for i in range(2 * n))
    smallest.make(folder, f"stop_id\nA\nB\n{stops_of(2 * n)}", times=times)
    ride = f"ride t0 P{2 * n - 2} 08:00:00 P{2 * n - 1} 08:00:00\n"
    write(folder, "claim", f"arrive 08:00:00 rides {n}\n" + ride * n)


def rides_of_a_claim_on_starts_at_one_time(folder, n):
    """Rides on one of as many starts of a trip at one time, of the day before, which stand behind
    as many of the day.
    """
    smallest.make(folder)
    dates = [f"S,{int(DAY) - 1},1\n", smallest.RUNS]
    smallest.write_rows(folder, "calendar_dates.txt", smallest.DATES, dates)
    rows = "t0,32:00:00,32:00:01,1\n" * n
    write(folder, "frequencies.txt", f"trip_id,start_time,end_time,headway_secs\n{rows}")
    ride = "ride t0#32:00:00 A 08:00:00 B 08:01:00 day-before\n"
    write(folder, "claim", f"arrive 08:01:00 rides {n}\n" + ride * n)


def rides_of_a_claim_on_starts_of_one_trip(folder, n):
    """Rides on the last of as many starts of a trip."""
    one_row_of_starts(folder, n)
    ride = f"ride t0#{clock(n - 1)} A {clock(n - 1)} B {clock(n + 59)}\n"
    write(folder, "claim", f"arrive 08:01:00 rides {n}\n" + ride * n)


def claim_in_json(folder, members):
    feed(folder)
    write(folder, "claim", f'{{"arrive":"08:01:00","rides":1,"legs":[],{members}}}')


def legs_of_a_claim(folder, n):
    """Walks, as JSON."""
    leg = '{"from":"A","to":"B","seconds":1}'
    claim_in_json(folder, f'"legs":[{",".join([leg] * n)}]')


def members_of_a_claim(folder, n):
    """Members of a JSON object, each with another name."""
    claim_in_json(folder, ",".join(f'"x{i}":0' for i in range(n)))


def members_of_one_name(folder, n):
    """Members of a JSON object, all with one name, the last of which counts."""
    claim_in_json(folder, ",".join(['"arrive":"08:01:00"'] * n))


def escapes_of_a_claim(folder, n):
    """Strings, each with an escape."""
    text = '"\\u0041"'
    claim_in_json(folder, f'"x":[{",".join([text] * n)}]')


def arrays_of_a_claim(folder, n):
    """Arrays that stand a hundred deep within each other."""
    claim_in_json(folder, f'"x":[{",".join([100 * "[" + 100 * "]"] * n)}]')


def on_each_day(make):
    """A shape whose service runs on the day before, too, and on two days after."""

    def made(folder, n):
        make(folder, n)
        with open(os.path.join(folder, "calendar_dates.txt"), "a", encoding="ascii") as file:
            file.writelines(f"S,{int(DAY) + days},1\n" for days in (-1, 1, 2))

    return made


READING = (
    one_long_line,
    one_long_field_in_quotes,
    quotes,
    quotes_that_open_and_close,
    commas,
    columns,
    columns_of_one_name,
    columns_in_each_row,
    line_ends,
    blanks,
    no_bytes_but_zero,
    equal_ids,
    equal_transfers,
    long_ids,
    one_trip_without_times,
    calendar_for_each_trip,
    exceptions_of_one_service,
)
OTHERS = {
    one_trip: (500_000, "direct"),
    stations_behind_their_platforms: (12_000, "direct"),
    platforms_of_one_station: (400_000, "station"),
    parents_in_a_chain: (20_000, "check"),
    parents_in_a_chain_back: (20_000, "lenient"),
    parents_in_a_tree: (20_000, "check"),
    faults_of_one_trip: (50_000, "lenient"),
    trips_with_a_fault: (100_000, "lenient"),
    services: (50_000, "direct"),
    starts_of_one_trip: (50_000, "direct"),
    one_row_of_many_starts: (25_000, "direct"),
    chain_of_footpaths: (350, "close"),
    footpaths_between_all: (250_000, "direct"),
    lines_at_one_stop: (1_000, "build"),
    chain_of_trips: (10_000, "plain"),
    ways_side_by_side: (10_000, "profile"),
    values_of_more_rides: (250, "ask"),
    stations_of_many_platforms: (2_500, "direct"),
    claim_of_nothing: (10_000, "verify"),
    faults_of_each_file: (12_000, "check"),
    stop_ids_that_collide: (10_000, "direct"),
    station_ids_that_collide: (10_000, "direct"),
    trip_ids_that_collide: (10_000, "direct"),
    late_trips_whose_ids_collide: (10_000, "late"),
    claim_on_trips_whose_ids_collide: (10_000, "verify"),
    service_ids_that_collide: (10_000, "direct"),
    calendar_ids_that_collide: (10_000, "direct"),
    transfers_that_collide: (10_000, "direct"),
    sequences_that_collide: (10_000, "direct"),
    lates_of_one_trip: (10_000, "late"),
    lates_of_each_call: (10_000, "late"),
    cancels_of_one_trip: (10_000, "late"),
    lates_of_many_trips: (50_000, "late"),
    remarks_of_a_late_file: (4_000_000, "late"),
    requests_of_a_script: (5_000, "serve"),
    requests_of_long_names: (5_000, "serve"),
    remarks_of_a_script: (4_000_000, "serve"),
    lines_of_live: (5_000, "live"),
    lines_of_live_of_long_names: (5_000, "live"),
    lines_of_live_without_words: (4_000_000, "live"),
    lines_of_live_that_are_refused: (100_000, "live"),
    one_line_of_live: (250_000, "live"),
    publications_of_live: (1_000, "live"),
    updates_of_live: (1_000, "live"),
    origins: (50_000, "matrix"),
    origins_of_long_names: (8_000, "matrix"),
    remarks_between_origins: (4_000_000, "matrix"),
    rides_of_a_claim: (6_000, "verify"),
    rides_of_a_claim_on_one_trip: (6_000, "verify"),
    rides_of_a_claim_at_one_time: (6_000, "verify"),
    rides_of_a_claim_on_starts_at_one_time: (4_000, "verify"),
    rides_of_a_claim_on_starts_of_one_trip: (6_000, "verify"),
    legs_of_a_claim: (7_500, "verify json"),
    members_of_a_claim: (20_000, "verify json"),
    members_of_one_name: (12_000, "verify json"),
    escapes_of_a_claim: (25_000, "verify json"),
    arrays_of_a_claim: (1_200, "verify json"),
}
# Commands besides that of a shape which meet what is dear in it, each with what its name ends in.
BESIDE = {
    "equal_ids": {"to_tell": "check"},
    "equal_transfers": {"to_tell": "check"},
    "footpaths_between_all": {"to_close": "close"},
    "faults_of_each_file": {"to_leave_out": "lenient"},
    "origins_of_long_names": {"as_a_table": "matrix csv"},
    "chain_of_trips": {
        "by_transfers": "ask",
        "backwards": "latest",
        "to_all": "reach",
        "in_times": "times",
        "in_a_profile": "profile",
    },
    "stations_of_many_platforms": {
        "by_transfers": "ask",
        "round_by_round": "plain",
        "backwards": "latest",
        "to_all": "reach",
        "in_times": "times",
        "in_a_profile": "profile",
    },
    **{
        f"{ids}_that_collide": {"to_tell": "check", "to_leave_out": "lenient"}
        for ids in ("stop_ids", "trip_ids", "service_ids", "calendar_ids", "transfers")
    },
}
SHAPES = {
    **{make.__name__: Shape(make, 250_000) for make in READING},
    **{make.__name__: Shape(make, 20_000, "build") for make in lines.SHAPES},
    **{make.__name__: Shape(make, *how) for make, how in OTHERS.items()},
    **{
        f"{make.__name__}_on_each_day": Shape(on_each_day(make), size, command)
        for make, size, command in (
            (one_trip, 250_000, "days"),
            (lines.in_order, 20_000, "build days"),
            (lines.overtaking_between, 20_000, "build days"),
        )
    },
}
SHAPES.update(
    (f"{name}_{end}", SHAPES[name]._replace(command=command))
    for name, others in BESIDE.items()
    for end, command in others.items()
)
# A name for several shapes.
GROUPS = {"trips_that_overtake": [make.__name__ for make in lines.OVERTAKING]}
