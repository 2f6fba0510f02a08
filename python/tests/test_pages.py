"""Tests of stops, maps and pages, with names that would be more than text if they weren't escaped.
"""
import contextlib
import io
import json
import shlex
import socket
import sys
import tempfile
import threading
import unittest
import urllib.error
import urllib.parse
import urllib.request
from html.parser import HTMLParser
from pathlib import Path
from unittest import mock

from . import HERE, STAND_IN
from yuccadarts import Choice, Ride, Router, Value, Walk, command
from yuccadarts.board import Board
from yuccadarts.desk import Desk
from yuccadarts.drawing import MARGIN, SIZE, Projection
from yuccadarts.geojson import geojson
from yuccadarts.isochrone import COLORS, Isochrone, Place, band_of, bands_of, isochrone
from yuccadarts.map_page import map_page
from yuccadarts.stops import Stop, read_stops

HOSTILE = "</script><script>alert(1)</script>\"'><img src=x onerror=alert(2)>&amp;"
ROWS = f"""stop_id,stop_name,stop_lat,stop_lon,location_type,parent_station
stop 0,"{HOSTILE.replace('"', '""')}",47.0,8.0,,C
 stop 1 , One ,47.2,8.1,0,C
stop 2,Two,,8.2,,

Z,Two,47.1,8.3,,
C,Central,47.0,8.0,1,
E,Entrance,47.0,8.0,2,C
"""


def folder_of(test):
    """A folder with these stops, until the test ends."""
    folder = test.enterContext(tempfile.TemporaryDirectory())
    Path(folder, "stops.txt").write_text(ROWS, encoding="utf-8-sig")
    return folder


class Elements(HTMLParser):
    """The elements of a page, in order, with their attributes, and its texts."""

    def __init__(self, text):
        super().__init__()
        self.found, self.texts = [], []
        self.feed(text)

    def handle_starttag(self, tag, attributes):
        self.found.append((tag, dict(attributes)))

    def handle_data(self, data):
        self.texts.append(data)

    def tags(self, tag):
        return [attributes for name, attributes in self.found if name == tag]


def place(stop, latitude, longitude, *values, journeys=()):
    found = Stop(stop, HOSTILE, latitude, longitude, False, "")
    return Place(found, tuple(Value(*value) for value in values), journeys)


class Stops(unittest.TestCase):
    def test_what_is_read(self):
        stops = read_stops(folder_of(self))
        self.assertEqual(["stop 0", "stop 1", "stop 2", "Z", "C"], [*stops])
        self.assertEqual(Stop("stop 1", "One", 47.2, 8.1, False, "C"), stops["stop 1"])
        self.assertEqual(HOSTILE, stops["stop 0"].name)
        self.assertFalse(stops["stop 2"].has_place)
        self.assertTrue(stops["C"].is_station)

    def test_columns_and_coordinates(self):
        for row, at in (
            ("stop_lon,stop_id,stop_lat\r\n8,A,-47.5\r\n", (-47.5, 8.0)),
            ("stop_id\nA\n", (None, None)),
            ("stop_id,stop_lat,stop_lon\nA,91,8\n", (None, None)),
            ("stop_id,stop_lat,stop_lon\nA,nan,8\n", (None, None)),
            ("stop_id,stop_lat,stop_lon\nA,1,inf\n", (None, None)),
            ("stop_id,stop_lat,stop_lon,stop_lat\nA,1,2,3\n", (1.0, 2.0)),
            ("stop_id,stop_lat,stop_lon\nA,1\n", (None, None)),
        ):
            with tempfile.TemporaryDirectory() as folder:
                Path(folder, "stops.txt").write_text(row, encoding="utf-8")
                stop = read_stops(folder)["A"]
            self.assertEqual(at, (stop.latitude, stop.longitude), row)
            self.assertEqual("A", stop.name)


class Maps(unittest.TestCase):
    def test_the_projection(self):
        """At 60 degrees a degree of longitude is half as long as one of latitude."""
        corners = [place(str(at), 60 + at, 10 + 2 * at).stop for at in (-1, 1)]
        projection = Projection(corners)
        self.assertEqual((SIZE, SIZE), (projection.width, projection.height))
        self.assertEqual((MARGIN, SIZE - MARGIN), projection.at(corners[0]))
        self.assertEqual((SIZE - MARGIN, MARGIN), projection.at(corners[1]))

    def test_few_stops(self):
        self.assertIsNone(Projection([]).at(place("A", None, None).stop))
        lone = place("A", 1.0, 2.0).stop
        self.assertEqual((MARGIN, MARGIN), Projection([lone]).at(lone))

    def test_bands(self):
        places = tuple(place("A", 1, 1, (60 * minute, 1)) for minute in range(100))
        found = Isochrone("A", 0, 1, (*places, place("B", 1, 1)), 0)
        bands = bands_of(found)
        spans = [(0, 15), (15, 30), (30, 45), (45, 60), (60, 75), (75, 90), (90, None)]
        self.assertEqual(spans, [(band.first, band.end) for band in bands])
        self.assertEqual(0, band_of(bands, 899).first)
        self.assertEqual(15, band_of(bands, 900).first)
        self.assertEqual(90, band_of(bands, 10**6).first)
        self.assertEqual(len(COLORS), len(bands_of(Isochrone("A", 0, 1, (), 0))))

    def test_the_page(self):
        ride = Ride(HOSTILE, "A", 0, "elsewhere", 60, -1)
        journey = Choice(60, 1, (ride, Walk("elsewhere", "B", 30)))
        places = place("A", 1, 1, (0, 0)), place("B", 2, 2, (60, 1), journeys=(journey,))
        found = Isochrone("A", 0, 1, (*places, place("D", 3, 3)), 7)
        page = map_page(found, {each.stop.id: each.stop for each in places})
        elements = Elements(page)
        self.assertEqual([], elements.tags("img"))
        self.assertEqual(2, len(elements.tags("script")))
        # the nearest is the last, and so on top
        circles = [it["data-at"] for it in elements.tags("circle") if "data-at" in it]
        self.assertEqual(["2", "1", "0"], circles)
        self.assertIn("stops without coordinates, which are left out: 7", elements.texts)
        self.assertEqual(1, page.count("</html>"))
        start = page.index(">", page.index('id="said"')) + 1
        said = json.loads(page[start : page.index("</script>", start)])
        self.assertEqual([HOSTILE, 0, 0, 3, 60], said["journeys"][1][0][2][0])
        self.assertEqual(["elsewhere", "elsewhere", None], said["stops"][3])

    def test_geojson(self):
        found = Isochrone("A", 28_800, 1, (place("B", 2, 3, (28_900, 2), (29_000, 1)),), 1)
        said = json.loads(geojson(found))
        self.assertEqual(1, said["stops_without_coordinates"])
        feature = said["features"][0]
        self.assertEqual([3, 2], feature["geometry"]["coordinates"])
        self.assertEqual(HOSTILE, feature["properties"]["name"])
        self.assertEqual(100, feature["properties"]["travel_seconds"])
        self.assertEqual("08:01:40", feature["properties"]["arrive"])
        self.assertEqual([2, 1], [value["rides"] for value in feature["properties"]["values"]])
        nothing = json.loads(geojson(Isochrone("A", 0, 1, (place("B", 2, 3),), 0)))
        self.assertIsNone(nothing["features"][0]["properties"]["travel_seconds"])


class Asked(unittest.TestCase):
    def test_an_isochrone_of_a_router(self):
        feed = folder_of(self)
        with Router(feed, "20260302", program=STAND_IN) as router:
            found = isochrone(router, read_stops(feed), "C", 0, with_journeys=True)
        self.assertEqual(["stop 0", "stop 1", "Z"], [it.stop.id for it in found.places])
        self.assertEqual(1, found.left_out)
        self.assertEqual("C>stop 1", found.places[1].journeys[0].legs[0].trip)
        self.assertEqual([60, 60, None], [found.travel_time(it) for it in found.places])

    def test_the_command(self):
        feed = folder_of(self)
        words = ["yuccadarts", "map", feed, "20260302", "C", "8:00:00", "--program", str(STAND_IN)]
        for option, begin in ((None, "<!DOCTYPE html>"), ("--geojson", '{"type": "FeatureColl')):
            argv = words + ([option] if option else [])
            out, err = io.StringIO(), io.StringIO()
            with mock.patch.object(sys, "argv", argv), contextlib.redirect_stdout(out):
                with contextlib.redirect_stderr(err):
                    self.assertEqual(0, command.main())
            self.assertEqual(begin, out.getvalue()[: len(begin)])
            left_out = "stops without coordinates, which are left out: 1\n"
            self.assertEqual(left_out, err.getvalue())
        for options, given in (
            ([], [120, None, True, 4]),
            (["--change=5", "--station=7", "--no-close", "--lanes=2"], [5, 7, False, 2]),
        ):
            with mock.patch.object(command, "Router") as router:
                command.router_of(command.parser().parse_args(words[1:] + options))
            found = router.call_args
            self.assertEqual((feed, "20260302"), found.args)
            names = "change", "station", "close", "lanes"
            self.assertEqual(given, [found.kwargs[name] for name in names])
            self.assertEqual(str(STAND_IN), found.kwargs["program"])
        words[4], err = "nowhere", io.StringIO()
        with mock.patch.object(sys, "argv", words), contextlib.redirect_stderr(err):
            self.assertEqual(1, command.main())
        self.assertEqual("yuccadarts: unknown stop nowhere\n", err.getvalue())


    def test_the_commands_of_the_readme(self):
        readme = (HERE.parent / "README.md").read_text(encoding="utf-8")
        lines = [line for line in readme.splitlines() if line.startswith("    yuccadarts ")]
        self.assertEqual(3, len(lines))
        for line in lines:
            _, *words = shlex.split(line.partition(">")[0])
            self.assertEqual("./router", command.parser().parse_args(words).program)


class Boards(unittest.TestCase):
    def setUp(self):
        feed = folder_of(self)
        self.router = self.enterContext(Router(feed, "20260302", program=STAND_IN))
        desk = Desk(self.router, read_stops(feed))
        self.board = self.enterContext(Board(desk, 0))
        threading.Thread(target=self.board.serve_forever, daemon=True).start()
        self.addCleanup(self.board.shutdown)

    def get(self, **fields):
        url = f"{self.board.url}?{urllib.parse.urlencode(fields)}"
        try:
            with urllib.request.urlopen(url) as reply:
                return reply.status, Elements(reply.read().decode())
        except urllib.error.HTTPError as error:
            with error:
                return error.code, Elements(error.read().decode())

    def test_it_listens_on_this_machine_alone(self):
        self.assertEqual("127.0.0.1", self.board.server_address[0])

    def test_the_form(self):
        status, page = self.get()
        self.assertEqual(200, status)
        labels = [option["value"] for option in page.tags("option")]
        self.assertEqual(["Two [stop 2]", "Two [Z]", "Central"], labels)
        stops = [circle for circle in page.tags("circle") if circle.get("class") == "stop"]
        self.assertEqual(3, len(stops))

    def test_journeys(self):
        status, page = self.get(**{"from": "Central", "to": "Two [Z]", "time": "08:00:00"})
        self.assertEqual(200, status)
        self.assertIn("Central to Two", page.texts)
        self.assertIn("08:01:00, 1 ride", page.texts)
        self.assertEqual([{"open": ""}], page.tags("details"))
        self.assertIn("08:00:00 Central – 08:01:00 Two", page.texts)
        self.assertIn(" on C>Z", page.texts)
        self.assertEqual(1, len(page.tags("polyline")))

    def test_an_isochrone(self):
        status, page = self.get(**{"from": "Central"})
        self.assertEqual(200, status)
        links = [urllib.parse.parse_qs(link["href"][2:]) for link in page.tags("a")]
        self.assertEqual({"stop 0", "stop 1", "Two [Z]"}, {link["to"][0] for link in links})
        self.assertEqual([], page.tags("img") + page.tags("script"))

    def test_a_name_that_is_the_id_of_another_stop(self):
        stops = {id: Stop(id, name, 1.0, 2.0, False, "") for id, name in ("AB", "BX", "CC")}
        desk = Desk(self.router, stops)
        _, page = desk.page({})
        labels = [option["value"] for option in Elements(page).tags("option")]
        self.assertEqual(["B [A]", "X", "C"], labels)
        _, page = desk.page({"from": "B", "to": "B [A]"})
        self.assertIn(" on B>A", Elements(page).texts)

    def test_what_is_asked_wrongly(self):
        for fields, text in (
            ({"from": "nowhere", "to": "Z"}, "unknown stop nowhere"),
            ({"from": "Z", "to": "C", "time": HOSTILE}, f"{HOSTILE!r} is no time as 08:05:00"),
        ):
            status, page = self.get(**fields)
            self.assertEqual(400, status)
            self.assertIn(text, page.texts)
            self.assertEqual([], page.tags("img") + page.tags("script"))

    def test_the_process_has_ended(self):
        status, page = self.get(**{"from": "die", "to": "Z"})
        self.assertEqual(503, status)

    def test_no_other_page(self):
        with self.assertRaises(urllib.error.HTTPError) as error:
            urllib.request.urlopen(f"{self.board.url}x")
        error.exception.close()
        self.assertEqual(404, error.exception.code)

    def test_no_url(self):
        with socket.create_connection(self.board.server_address) as there:
            there.sendall(b"GET http://[/ HTTP/1.0\r\n\r\n")
            with there.makefile("rb") as reply:
                self.assertIn(b" 400 ", reply.readline())
