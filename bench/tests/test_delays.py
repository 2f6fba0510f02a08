"""Tests of the command `delays`: python3 -m unittest discover bench"""
import sys
import tempfile
import unittest

from harness import write
from realtime import Converter
from schedule import date_of

HEADER = "trip_id,arrival_time,departure_time,stop_id,stop_sequence\n"
# Ten minutes from stop to stop, and one at each; the times of C are left out.
TIMES = """T1,08:00:00,08:01:00,A,1
T1,08:10:00,08:11:00,B,3
T1,,,C,4
T1,08:31:00,08:31:00,D,9
N1,23:50:00,23:50:00,A,1
N1,24:10:00,24:10:00,B,2
F1,06:00:00,06:00:00,A,1
F1,06:10:00,06:10:00,B,2
W1,08:00:00,08:00:00,A,1
W1,08:10:00,08:10:00,B,2
E1,06:00:00,06:00:00,A,1
E1,06:10:00,06:10:00,B,2
H1,50:00:00,50:00:00,A,1
H1,52:00:00,52:00:00,B,2
"two words",08:00:00,08:00:00,A,1
"two words",08:10:00,08:10:00,B,2
"""


def update(stops=(), trip_id="T1", **trip):
    return {"tripUpdate": {"trip": {"tripId": trip_id, **trip}, "stopTimeUpdate": list(stops)}}


def stop(sequence, arrival=None, departure=None, **more):
    events = {"arrival": arrival, "departure": departure}
    given = {name: {"delay": secs} for name, secs in events.items() if secs is not None}
    return {"stopSequence": sequence, **given, **more}


class Delays(unittest.TestCase):
    def setUp(self):
        folder = tempfile.TemporaryDirectory()
        self.addCleanup(folder.cleanup)
        self.feed = folder.name
        write(self.feed, "stop_times.txt", HEADER + TIMES)
        trips = "service_id,trip_id\nS,T1\nS,N1\nS,F1\nX,W1\nY,E1\nY,H1\nS,two words\n"
        write(self.feed, "trips.txt", trips)
        days = "S,20260301,1\nS,20260302,1\nX,20260303,1\nY,20260304,1\n"
        write(self.feed, "calendar_dates.txt", f"service_id,date,exception_type\n{days}")
        frequency = "F1,07:00:00,08:00:00,600\n"
        header = "trip_id,start_time,end_time,headway_secs\n"
        write(self.feed, "frequencies.txt", header + frequency)
        write(self.feed, "agency.txt", "agency_name,agency_timezone\nRing,Europe/Zurich\n")

    def check(self, lines, unsaid, *entities, days=1):
        converter = Converter(self.feed, date_of("20260302"), {"entity": list(entities)}, days)
        self.assertEqual(lines, list(converter.lines()))
        self.assertEqual(unsaid, dict(converter.unsaid))

    def test_a_delay_goes_on_to_the_next_update(self):
        stops = [stop(3, 120, 120), stop(9, 60)]
        self.check(["late T1 1 120", "late T1 3 -60"], {}, update(stops))

    def test_no_delay_gives_no_line(self):
        self.check([], {}, update([stop(1, 0, 0)]), update([], trip_id="N1"))

    def test_names_of_protobuf(self):
        one = {"trip_id": "T1", "start_date": "20260302", "schedule_relationship": 0}
        stops = [{"stop_id": "B", "arrival": {"delay": 30}}]
        entity = {"trip_update": {"trip": one, "stop_time_update": stops}}
        self.check(["late T1 1 30"], {}, entity)

    def test_stops_by_their_id(self):
        stops = [{"stopId": "B", "departure": {"delay": 60}}, {"stopId": "A"}]
        unsaid = {"stops at which the trip doesn't call": 1}
        self.check(["late T1 1 60"], unsaid, update(stops))

    def test_delay_of_the_whole_trip(self):
        entity = update()
        entity["tripUpdate"]["delay"] = 90
        self.check(["late T1 0 90"], {}, entity)

    def test_arrival_and_departure_with_delays_of_their_own(self):
        other = "calls left with another delay than they are reached with"
        lines = ["late T1 1 60", "late T1 2 120"]
        self.check(lines, {other: 1}, update([stop(3, 60, 180)]))
        # at the first call the arrival counts for nothing, and at the last one the departure
        self.check(["late T1 0 30"], {}, update([stop(1, 600, 30), stop(9, 30, 600)]))

    def test_a_call_is_not_reached_before_the_one_before_is_left(self):
        moved = "calls reached before the one before is left, moved to later"
        # from 08:11 and 15 minutes to C at 08:21, and from there by 5 minutes less to D at 08:31
        stops = [stop(3, 900, 900), stop(4, 0, 0), stop(9, 0)]
        self.check(["late T1 1 900", "late T1 2 -600", "late T1 3 -300"], {moved: 1}, update(stops))

    def test_no_data_ends_a_delay(self):
        stops = [stop(1, 60, 60), {"stopSequence": 4, "scheduleRelationship": "NO_DATA"}]
        self.check(["late T1 0 60", "late T1 2 -60"], {}, update(stops))

    def test_trips_of_the_day_before(self):
        stops = [stop(2, 300)]
        self.check(["late N1 1 300 day-before"], {}, update(stops, "N1", startDate="20260301"))
        absent = {"trips that the day doesn't have": 1}
        self.check([], absent, update(stops, "T1", startDate="20260301"))
        self.check([], {"trips of other days": 1}, update(stops, "N1", startDate="20260228"))

    def test_trips_of_later_days(self):
        stops = [stop(1, departure=60)]
        one = update(stops, "W1", startDate="20260303")
        self.check([], {"trips of other days": 1}, one)
        self.check(["late W1 0 60 day-after"], {}, one, days=2)
        cancelled = update([], "E1", startDate="20260304", scheduleRelationship="CANCELED")
        self.check(["late W1 0 60 day-after", "cancel E1 day+2"], {}, one, cancelled, days=3)
        self.check([], {"trips of other days": 1}, cancelled, days=2)
        # it ends at 100:00:00 of the date
        far = update(stops, "H1", startDate="20260304")
        self.check([], {"trips that the day doesn't have": 1}, far, days=3)

    def test_trips_by_frequency(self):
        stops = [stop(1, departure=60)]
        self.check(["late F1#07:10:00 0 60"], {}, update(stops, "F1", startTime="7:10:00"))
        absent = {"trips that the day doesn't have": 2}
        bad = [update(stops, "F1", startTime="08:00:00"), update(stops, "F1")]
        self.check([], absent, *bad)

    @unittest.skipIf(sys.version_info < (3, 9), "time zones came with Python 3.9")
    def test_times_in_place_of_delays(self):
        # 07:12 UTC is 08:12 in Zürich, where B is reached at 08:10
        stops = [{"stopSequence": 3, "arrival": {"time": "1772435520"}}]
        self.check(["late T1 1 120"], {}, update(stops))

    def test_cancelled_trips(self):
        entities = [
            update(scheduleRelationship="CANCELED"),
            update(trip_id="N1", startDate="20260301", scheduleRelationship=3),
            update(trip_id="F1", startTime="07:10:00", scheduleRelationship="DELETED"),
        ]
        self.check(["cancel T1", "cancel N1 day-before", "cancel F1#07:10:00"], {}, *entities)

    def test_skipped_stops(self):
        skipped = {"scheduleRelationship": "SKIPPED"}
        stops = [stop(1, 60, 60), {"stopSequence": 3, **skipped}, {"stopSequence": 9, **skipped}]
        self.check(["late T1 0 60", "skip T1 1", "skip T1 3"], {}, update(stops))
        before = update([{"stopSequence": 2, **skipped}], "N1", startDate="20260301")
        self.check(["skip N1 1 day-before"], {}, before)

    def test_what_the_file_cannot_say(self):
        wanted = {"stopSequence": 3, "scheduleRelationship": "UNSCHEDULED"}
        platform = {"stopTimeProperties": {"assignedStopId": "B2"}}
        entities = [
            update(trip_id="new", scheduleRelationship="ADDED"),
            update(trip_id="F1", scheduleRelationship="UNSCHEDULED"),
            update(trip_id="W1", stops=[stop(1, 60, 60)]),
            update(trip_id=None, routeId="R"),
            update([stop(1, 60, 60), wanted, stop(4, 60, **platform)]),
            update([stop(1, 90, 90)]),
            update([stop(2, 90_000)], "N1"),
            {"vehicle": {}},
        ]
        unsaid = {
            "added trips": 1,
            "unscheduled trips": 1,
            "trips that the day doesn't have": 1,
            "trips without an id": 1,
            "unscheduled stops": 1,
            "calls at another platform": 1,
            "second updates of a trip": 1,
            "trips moved by more than a day, or beyond the times of a day": 1,
        }
        self.check(["late T1 0 60"], unsaid, *entities)

    def test_words_with_blanks(self):
        stops = [stop(1, departure=60)]
        self.check(['late "two words" 0 60'], {}, update(stops, "two words"))


if __name__ == "__main__":
    unittest.main()
