"""The smallest feed: a trip from A to B, whose files other feeds write with rows of their own."""
import os

from harness import DAY, write

TIMES = "trip_id,arrival_time,departure_time,stop_id,stop_sequence\n"
DATES = "service_id,date,exception_type\n"
RUNS = f"S,{DAY},1\n"
TRANSFERS = "from_stop_id,to_stop_id,transfer_type,min_transfer_time\n"


def write_rows(folder, name, header, rows):
    with open(os.path.join(folder, name), "w", encoding="ascii", buffering=1 << 20) as file:
        file.write(header)
        file.writelines(rows)


def times_of(trips, calls):
    """Rows of so many trips with so many calls each, from A to B and back."""
    for trip in range(trips):
        for call in range(calls):
            yield f"t{trip},8:{call:02}:00,,{'AB'[call % 2]},{call}\n"


def make(folder, stops="stop_id\nA\nB\n", trips=None, times=None, transfers=None):
    """Writes the feed into a folder, with other rows of a file where they are given."""
    os.makedirs(folder, exist_ok=True)
    write(folder, "stops.txt", stops)
    write(folder, "calendar_dates.txt", DATES + RUNS)
    write_rows(folder, "trips.txt", "service_id,trip_id\n", trips or ["S,t0\n"])
    write_rows(folder, "stop_times.txt", TIMES, times or times_of(1, 2))
    if transfers:
        write_rows(folder, "transfers.txt", TRANSFERS, transfers)
