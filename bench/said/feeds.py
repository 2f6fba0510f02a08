"""The first fault of a feed, as docs/FORMATS.md says, as far as neither footpaths nor limits are
looked at: the limits are beyond what is tried here.
"""
import re
import typing

from said.words import is_date, number_of, time_of

DAYS = ("monday", "tuesday", "wednesday", "thursday", "friday", "saturday", "sunday")
# The columns of each file, by number, and how many of them are required.
COLUMNS = {
    "stops.txt": (1, "stop_id", "location_type", "parent_station"),
    "calendar.txt": (10, "service_id", *DAYS, "start_date", "end_date"),
    "calendar_dates.txt": (3, "service_id", "date", "exception_type"),
    "trips.txt": (2, "service_id", "trip_id"),
    "stop_times.txt": (
        5,
        "trip_id",
        "arrival_time",
        "departure_time",
        "stop_id",
        "stop_sequence",
        "pickup_type",
        "drop_off_type",
    ),
    "transfers.txt": (
        2,
        "from_stop_id",
        "to_stop_id",
        "transfer_type",
        "min_transfer_time",
        "from_route_id",
        "to_route_id",
        "from_trip_id",
        "to_trip_id",
    ),
    "frequencies.txt": (4, "trip_id", "start_time", "end_time", "headway_secs", "exact_times"),
}
NAMES = {
    1: "MissingFile",
    2: "FileTooLarge",
    3: "NotUtf8",
    4: "MissingColumn",
    5: "BadNumber",
    6: "BadTime",
    7: "BadDate",
    8: "BadCode",
    9: "EmptyId",
    10: "DuplicateId",
    11: "UnknownStop",
    12: "UnknownTrip",
    13: "DuplicateSequence",
    14: "NoEndTime",
    15: "TimeRunsBack",
    16: "NotAPlatform",
    17: "DuplicateTransfer",
    18: "OpenFootpaths",
    19: "LongFootpath",
    20: "TooMany",
    22: "FarFootpath",
    23: "BeyondDay",
}
DAY_END = 359_999


class Fault(Exception):
    """A fault, as it is shown, with its number and its file."""

    def __init__(self, number, file, row=0, column=0):
        self.number, self.file = number, file
        text = f"{number} {NAMES[number]} {file}"
        if row:
            text += f" row {row} column {COLUMNS[file][column]}"
        super().__init__(text)


def code(*allowed):
    return lambda text: 0 if text in allowed else 8


def an_id(text):
    return 0 if text else 9


def a_time(text):
    return 6 if time_of(text) is None else 0


def a_time_or_nothing(text):
    return a_time(text) if text else 0


def a_date(text):
    return 0 if is_date(text) else 7


def a_number(least=0, most=10**9):
    def check(text):
        number = number_of(text)
        return 0 if number is not None and least <= number <= most else 5

    return check


def a_minimum(text):
    return a_number(most=86_400)(text) if text else 0


def anything(_):
    return 0


MARK = code("", "0", "1", "2", "3")
# What is wrong with a field: the number of a fault, or 0.
CHECKS = {
    "stops.txt": (an_id, code("", "0", "1", "2", "3", "4"), anything),
    "calendar.txt": (an_id, *[code("0", "1")] * 7, a_date, a_date),
    "calendar_dates.txt": (an_id, a_date, code("1", "2")),
    "trips.txt": (an_id, an_id),
    "stop_times.txt": (an_id, a_time_or_nothing, a_time_or_nothing, an_id, a_number(), MARK, MARK),
    "frequencies.txt": (an_id, a_time, a_time, a_number(1), code("", "0", "1")),
}


def records(text):
    """The records of a text of CSV: lists of fields."""
    fields, field, at = [], [], 0
    quoted = started = False
    while at < len(text):
        c = text[at]
        at += 1
        if quoted:
            if c != '"':
                field.append(c)
            elif text[at : at + 1] == '"':
                field.append('"')
                at += 1
            else:
                quoted = False
        elif c in "\r\n":
            if started:
                yield [*fields, "".join(field)]
            fields, field, started = [], [], False
        elif c == ",":
            fields.append("".join(field))
            field, started = [], True
            quoted = text[at : at + 1] == '"'
            at += quoted
        elif c == '"' and not started:
            quoted = started = True
        else:
            field.append(c)
            started = True
    if started:
        yield [*fields, "".join(field)]


def bytes_of(path):
    """The bytes of a file, or None if it isn't there, or a folder. A path with a zero byte, which
    no file has, can't be read.
    """
    try:
        with open(path, "rb") as file:
            return file.read()
    except (FileNotFoundError, NotADirectoryError, IsADirectoryError):
        return None
    except ValueError as error:
        raise OSError(f"{path!r}: {error}") from None


def rows_of(name, data):
    """The rows of a file, each with its number and its fields by the file's columns."""
    try:
        text = data.decode()
    except UnicodeDecodeError:
        raise Fault(3, name) from None
    required, *columns = COLUMNS[name]
    found = [[field.strip(" \t") for field in it] for it in records(text[text[:1] == "\ufeff" :])]
    header = found[0] if found else []
    for number, column in enumerate(columns[:required], 1):
        if column not in header:
            raise Fault(4, name, 1, number)
    places = [header.index(column) if column in header else -1 for column in columns]
    for row, record in enumerate(found[1:], 2):
        if any(record):
            yield row, [record[it] if 0 <= it < len(record) else "" for it in places]


def checked_rows(folder, name):
    """The rows of a file of which no field is wrong, or None if the file isn't there."""
    data = bytes_of(f"{folder}/{name}")
    if data is None:
        return None
    rows = []
    for row, fields in rows_of(name, data):
        column, fault = field_fault(name, fields)
        if fault:
            raise Fault(fault, name, row, column)
        rows.append((row, fields))
    return rows


def field_fault(name, fields):
    """The column of the first wrong field of a row, and its fault; or zeros."""
    if name == "transfers.txt":
        return transfer_fault(fields)
    for column, (check, field) in enumerate(zip(CHECKS[name], fields), 1):
        if check(field):
            return column, check(field)
    return 0, 0


def is_skipped(fields):
    return fields[2] in ("4", "5") or any(fields[4:])


def transfer_fault(fields):
    if code("", "0", "1", "2", "3", "4", "5")(fields[2]):
        return 3, 8
    if not is_skipped(fields):
        for column, check in ((1, an_id), (2, an_id), (4, a_minimum)):
            if check(fields[column - 1]):
                return column, check(fields[column - 1])
    return 0, 0


def needed(rows, name):
    if rows is None:
        raise Fault(1, name)
    return rows


def distinct(rows, name, column):
    seen = set()
    for row, fields in rows:
        if fields[column - 1] in seen:
            raise Fault(10, name, row, column)
        seen.add(fields[column - 1])
    return seen


PLATFORM = ("", "0")
STATION = "1"


def stops_of(folder):
    """The ids of stops.txt, each with its `location_type` and its `parent_station`."""
    name = "stops.txt"
    rows = needed(checked_rows(folder, name), name)
    known, seen = {fields[0] for _, fields in rows}, set()
    for row, (stop, _, parent) in rows:
        if stop in seen:
            raise Fault(10, name, row, 1)
        if parent and parent not in known:
            raise Fault(11, name, row, 3)
        seen.add(stop)
    return {stop: (kind, parent) for _, (stop, kind, parent) in rows}


class Call(typing.NamedTuple):
    """A row of stop_times.txt; a time is None where the row has none."""

    row: int
    arrival: int
    departure: int
    stop: str
    board: bool
    alight: bool


def name_fault(fields, stops, trips):
    """The column of the first name of a row of stop_times.txt that is wrong, and its fault; or
    zeros.
    """
    if fields[0] not in trips:
        return 1, 12
    if fields[3] not in stops:
        return 4, 11
    return (0, 0) if stops[fields[3]][0] in PLATFORM else (4, 16)


def call_of(row, fields):
    """The number of a row of stop_times.txt in its trip, and its call."""
    _, arrival, departure, stop, sequence, pickup, drop_off = fields
    times = time_of(arrival or departure), time_of(departure or arrival)
    return int(sequence), Call(row, *times, stop, pickup != "1", drop_off != "1")


def in_order(found):
    """The calls of each trip in the order of their numbers."""
    return {trip: [calls[number] for number in sorted(calls)] for trip, calls in found.items()}


def calls_of(folder, stops, trips):
    """The rows of stop_times.txt by trip, in order."""
    name = "stop_times.txt"
    found = {trip: {} for trip in trips}
    for row, fields in needed(checked_rows(folder, name), name):
        column, fault = name_fault(fields, stops, found)
        if fault:
            raise Fault(fault, name, row, column)
        number, call = call_of(row, fields)
        if number in found[fields[0]]:
            raise Fault(13, name, row, 5)
        found[fields[0]][number] = call
    return in_order(found)


def link_fault(fields, stops, earlier):
    """The column of the first end of a row of transfers.txt that is wrong, and its fault; or
    zeros. The earlier rows are given by their ends.
    """
    for column in (1, 2):
        if fields[column - 1] not in stops:
            return column, 11
    return (1, 17) if tuple(fields[:2]) in earlier else (0, 0)


def transfers_of(folder, stops):
    """The rows of transfers.txt that aren't skipped."""
    name = "transfers.txt"
    found = {}
    for row, fields in checked_rows(folder, name) or []:
        if not is_skipped(fields):
            column, fault = link_fault(fields, stops, found)
            if fault:
                raise Fault(fault, name, row, column)
            found[tuple(fields[:2])] = fields
    return list(found.values())


def check_calls(calls):
    """Raises the first fault of the times of a trip."""
    if len(calls) < 2:
        return
    for row, arrival, *_ in (calls[0], calls[-1]):
        if arrival is None:
            raise Fault(14, "stop_times.txt", row, 2)
    left = 0
    for row, arrival, departure, *_ in calls:
        if arrival is None:
            continue
        if arrival < left:
            raise Fault(15, "stop_times.txt", row, 2)
        if departure < arrival:
            raise Fault(15, "stop_times.txt", row, 3)
        left = departure


def starts_of(row, fields, calls):
    """How many starts a row of frequencies.txt has; raises that one of them moves a time of the
    trip out of the day.
    """
    first, end = time_of(fields[1]), time_of(fields[2])
    if len(calls) < 2 or end <= first:
        return 0
    headway = int(fields[3])
    count = (end - 1 - first) // headway
    known = [time for call in calls for time in call[1:3] if time is not None]
    last = first + count * headway
    if first + min(known) - calls[0][2] < 0 or last + max(known) - calls[0][2] > DAY_END:
        raise Fault(23, "frequencies.txt", row, 2)
    return count + 1


class Feed(typing.NamedTuple):
    """What is in a feed without a fault so far: its stops with their kinds and parents, the rows of
    its calendars and of frequencies.txt, pairs of a service and a trip, the calls of trips, rows of
    transfers.txt, and how many events there are at most.
    """

    stops: dict
    calendar: list
    dates: list
    trips: list
    calls: dict
    transfers: list
    frequencies: list
    events: int


def path_of(top, folder):
    """The path of a folder that is named as it is in another one."""
    return folder if folder.startswith("/") else f"{top}/{folder}"


def check(top, folder):
    """What is in a feed, whose folder is named as it is in another one; raises its first fault."""
    folder = path_of(top, folder)
    stops = stops_of(folder)
    calendar = checked_rows(folder, "calendar.txt")
    distinct(calendar or [], "calendar.txt", 1)
    dates = checked_rows(folder, "calendar_dates.txt")
    if calendar is None and dates is None:
        raise Fault(1, "calendar.txt")
    trips = needed(checked_rows(folder, "trips.txt"), "trips.txt")
    distinct(trips, "trips.txt", 2)
    calls = calls_of(folder, stops, [fields[1] for _, fields in trips])
    transfers = transfers_of(folder, stops)
    frequencies = checked_rows(folder, "frequencies.txt") or []
    for row, fields in frequencies:
        if fields[0] not in calls:
            raise Fault(12, "frequencies.txt", row, 1)
    for _, (_, trip) in trips:
        check_calls(calls[trip])
    return feed_of(stops, calendar, dates, trips, calls, transfers, frequencies)


def feed_of(stops, calendar, dates, trips, calls, transfers, frequencies):
    """The feed of what its files give; raises that a start moves a time beyond the day."""
    events = sum(map(len, calls.values()))
    for row, fields in frequencies:
        events += starts_of(row, fields, calls[fields[0]]) * len(calls[fields[0]])
    kept = ([fields for _, fields in rows or []] for rows in (calendar, dates, trips))
    return Feed(stops, *kept, calls, transfers, [fields for _, fields in frequencies], events)


SPOT = re.compile(r"(\d+) (\w+) (\w+\.txt)(?: row ([1-9]\d*) column (\w+))?")
FILES_ALONE = (1, 2, 3)
TOTALS = ("running_trips", "events", "footpaths")


def is_fault(text):
    """Whether a text is a fault of a feed as it may be shown."""
    number, _, rest = text.partition(" ")
    name, _, place = rest.partition(" ")
    if not number.isdecimal() or NAMES.get(int(number)) != name:
        return False
    number = int(number)
    if number in (18, 19, 22):
        return place.count(" ") >= (1 if number == 22 else 2)
    if number == 20:
        rows = "|".join(file[:-4] for file in COLUMNS)
        return bool(re.fullmatch(rf"{'|'.join(TOTALS)}|({rows}) row [1-9]\d*", place))
    found = SPOT.fullmatch(text)
    if not found or found[3] not in COLUMNS:
        return False
    if number in FILES_ALONE:
        return found[4] is None
    return found[5] in COLUMNS[found[3]]
