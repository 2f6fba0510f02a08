"""What is left of a feed, as docs/DEFINITIONS.md says, and the faults that are told where that is
read.
"""
import typing

from said import feeds
from said.feeds import Fault

# The numbers of the faults that a row bears.
BORNE = (*range(5, 18), 23)


class Left(typing.NamedTuple):
    """The faults that are told, and the feed that is left, or the fault that ends it."""

    told: list
    feed: feeds.Feed = None
    fault: Fault = None


class Look:
    """A look at the files of a feed, one after another, that leaves out bad rows and tells why."""

    def __init__(self, folder):
        self.folder, self.told = folder, []
        # the trips that are left out for their stop times
        self.gone = set()
        # what is left: the feed, and the rows of what is warned of
        self.kept, self.stop_rows, self.services_of_trips, self.headways = None, {}, [], []

    def tell(self, *fault):
        self.told.append(Fault(*fault))

    def good(self, name, fault_of):
        """The rows of a file for which a function gives no column with a fault, or None if the file
        isn't there.
        """
        data = feeds.bytes_of(f"{self.folder}/{name}")
        if data is None:
            return None
        kept = []
        for row, fields in feeds.rows_of(name, data):
            column, fault = fault_of(fields)
            if fault:
                self.tell(fault, name, row, column)
            else:
                kept.append((row, fields))
        return kept

    def right(self, name):
        """The rows of a file of which no field is wrong, or None if the file isn't there."""
        return self.good(name, lambda fields: feeds.field_fault(name, fields))

    def distinct(self, rows, name, column):
        """The rows that don't have the id of an earlier one."""
        found = {}
        for row, fields in rows:
            if fields[column - 1] in found:
                self.tell(10, name, row, column)
            else:
                found[fields[column - 1]] = row, fields
        return list(found.values())

    def stops(self):
        name = "stops.txt"
        rows = self.distinct(feeds.needed(self.right(name), name), name, 1)
        while True:
            known = {"", *(fields[0] for _, fields in rows)}
            orphans = [row for row, fields in rows if fields[2] not in known]
            for row in orphans:
                self.tell(11, name, row, 3)
            rows = [it for it in rows if it[1][2] in known]
            if not orphans:
                self.stop_rows = {fields[0]: row for row, fields in rows}
                return {stop: (kind, parent) for _, (stop, kind, parent) in rows}

    def services(self):
        calendar = self.right("calendar.txt")
        if calendar is not None:
            calendar = self.distinct(calendar, "calendar.txt", 1)
        dates = self.right("calendar_dates.txt")
        if calendar is None and dates is None:
            raise Fault(1, "calendar.txt")
        return calendar, dates

    def trips(self):
        name = "trips.txt"
        return self.distinct(feeds.needed(self.right(name), name), name, 2)

    def calls(self, stops, trips):
        """The calls of the trips of which nothing is wrong with a row, nor with the times."""
        name, bad = "stop_times.txt", set()

        def fault_of(fields):
            column, fault = feeds.field_fault(name, fields)
            column, fault = (column, fault) if fault else feeds.name_fault(fields, stops, trips)
            if fault:
                bad.add(fields[0])
            return column, fault

        rows = feeds.needed(self.good(name, fault_of), name)
        found = self.without_twins({trip: {} for trip in trips if trip not in bad}, rows)
        found = self.with_good_times(feeds.in_order(found))
        self.gone = {trip for trip in trips if trip not in found}
        return {trip: found.get(trip, []) for trip in trips}

    def without_twins(self, found, rows):
        """The calls of trips by their numbers, of which none comes twice."""
        twins = set()
        for row, fields in rows:
            trip = fields[0]
            if trip in found:
                number, call = feeds.call_of(row, fields)
                if number in found[trip]:
                    self.tell(13, "stop_times.txt", row, 5)
                    twins.add(trip)
                found[trip][number] = call
        return {trip: calls for trip, calls in found.items() if trip not in twins}

    def with_good_times(self, found):
        kept = {}
        for trip, calls in found.items():
            try:
                feeds.check_calls(calls)
                kept[trip] = calls
            except Fault as fault:
                self.told.append(fault)
        return kept

    def transfers(self, stops):
        name, found = "transfers.txt", {}
        for row, fields in self.right(name) or []:
            if not feeds.is_skipped(fields):
                column, fault = feeds.link_fault(fields, stops, found)
                if fault:
                    self.tell(fault, name, row, column)
                else:
                    found[tuple(fields[:2])] = fields
        return list(found.values())

    def frequencies(self, calls):
        """The rows, those with a fault without a start."""
        name, good, bad = "frequencies.txt", [], []

        def fault_of(fields):
            column, fault = feeds.field_fault(name, fields)
            if not fault and (fields[0] not in calls or fields[0] in self.gone):
                column, fault = 1, 12
            if fault and fields[0] in calls:
                bad.append(fields[0])
            return column, fault

        for row, fields in self.good(name, fault_of) or []:
            try:
                feeds.starts_of(row, fields, calls[fields[0]])
                good.append((row, fields))
            except Fault as fault:
                self.told.append(fault)
                bad.append(fields[0])
        self.headways = [(row, fields[3]) for row, fields in good]
        return [*good, *((0, [trip, "0:00:00", "0:00:00", "1", ""]) for trip in bad)]

    def feed(self):
        stops, services, trips = self.stops(), self.services(), self.trips()
        self.services_of_trips = [(row, fields[0]) for row, fields in trips]
        ids = dict.fromkeys(fields[1] for _, fields in trips)
        calls = self.calls(stops, ids)
        transfers = self.transfers(stops)
        parts = stops, *services, trips, calls, transfers, self.frequencies(calls)
        self.kept = feeds.feed_of(*parts)
        return self.kept


def whole(top, folder):
    """The whole feed, whose folder is named as it is in another one, or its first fault."""
    try:
        return Left([], feeds.check(top, folder))
    except Fault as fault:
        return Left([], fault=fault)


def left_of(top, folder):
    """What is left of the feed, or the fault that ends that."""
    found = whole(top, folder)
    if not found.fault or found.fault.number not in BORNE:
        return found
    look = Look(feeds.path_of(top, folder))
    try:
        return Left(look.told, look.feed())
    except Fault as fault:
        return Left(look.told, fault=fault)
